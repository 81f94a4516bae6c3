#!/usr/bin/env python3
"""Prints the parts of pages that are made by scripts, and compares those that are made of the sources.

usage: tools/docs/pages.py [--program]             compares each part with its page; one line for each that differs, and fails where
                                                   there is one. With --program also what the built program prints
       tools/docs/pages.py [--program] --write     puts them into their pages
       tools/docs/pages.py --printed NAME FILE     puts what a script of measures printed into its page: measures of tools/bench/all.py,
                                                   counts and flow of the scripts of tools/bench that bear these names, limits of
                                                   sections of tools/hostile/limits.py, designs, synthesis, large, folds, least_clocks
                                                   and port_clocks of the scripts that bear these names in tools/hardware, parts of
                                                   hardware/synthesize
       tools/docs/pages.py --sentences             lists the definitions whose comment lacks, or tells nothing by itself

A part stands between a line `<!-- tools/docs/pages.py: NAME -->` and a line `<!-- end -->`:

definitions  each definition of specs/ that a public contract cites, and some that those are made of, with the comment above it; where
             there is none, or one that tells nothing by itself, with the sentence of tools/docs/sentences.tsv
map          the crates, lowest first, each with the first sentence of its head and what it stands on
sizes        how many lines of proofs, code, tests and specs there are, and how many edits
claims       how many lines the definitions have that a claim rests on
meaning, soundness   files of definitions: which those are that a claim rests on, and how many lines of them; what a row says of them
             stays as it is
clocks       the clocks of each example, as they stand beside its answer
aims         what the tables of measures say beside the aims
capacities   of each example the sum of the capacities and the greatest one, by each policy and by trim: by the program
measures, counts, flow, limits     tables of time, instructions and memory, which nothing compares
designs             of each example the sizes of its design and the clocks, which are compared with those beside its answer
synthesis, parts, large, folds, least_clocks, port_clocks     tables of what is made of designs, which nothing compares

The picture of the layers, docs/layers.svg, and the crates and numbers of edits in the table of docs/CONTRIBUTING.md, which tools/gate.py
prints, are compared too.
"""
from __future__ import annotations

import re
import sys
import textwrap
from collections.abc import Callable, Iterable, Iterator, Sequence
from contextlib import redirect_stdout
from io import StringIO
from itertools import takewhile
from pathlib import Path

sys.path.insert(0, str(Path(__file__).resolve().parents[1]))
import definitions
import layers
from common import POLICIES, TOP, examples, head, parser_of, program_of, row, run, stop
from crates import CRATES, crates, crates_below, read

Key = definitions.Key
BEGIN, END = "<!-- tools/docs/pages.py: {} -->\n", "<!-- end -->\n"
WIDTH = 138

# Definitions that those which contracts cite are made of, and that carry their meaning.
ALSO = """
tree_graphs.Joint.IsCheckedForAll tree_order.Reads.pairs_of tree_order.Reads.pair_in cap_trim.Capacities.least_capacity
cap_trim.Capacities.trimmed_network_below cap_trim.Capacities.capacity_list cap_trim.Rests.least_run_from cert_text.CertText.IsInRangeOf
cert_text.CertText.folded_text cert_text.Folding.Folded cert_text.Folding.cert_of cert_text.Folding.network_of cert_text.StandsFor.IsShort
cert_text.Stretches.stretch_blocks channel_plan.Tokens.is_used channel_plan.Tokens.turns_used channel_plan.Tokens.uses_of
clock_sim.Clocks.clocked_run command_answers.Source.Gives command_answers.Source.GivesWithinSize
call_endings.Endings.EndsBy call_endings.Reads.ReadsTo compaan_top.Commands.read_by compaan_top.Commands.reads_of call_endings.Complaints.refusal_line
call_endings.Complaints.refusal_status compaan_top.Headline.HasFittingCertificate compaan_top.Headline.HasSoundCertificate
compaan_top.Headline.IsAcceptable compaan_top.Laws.IsDone compaan_top.Laws.IsValid compaan_top.Outcome.IsOutcome compaan_top.InputBytes.ComesTo
compaan_top.InputBytes.HasLeft deps_text.Dependences.HasTree
deps_text.DepsText.TellsDependences tree_graphs.Joint.later_systems tree_graphs.Joint.none_systems tree_graphs.Joint.place_systems
tree_graphs.Joint.point_systems tree_graphs.Joint.head_systems tree_graphs.Joint.write_systems_of stride_trees.Problem.problem_rows
stride_trees.Problem.problem_writes stride_trees.Problem.problem_reads
loop_bind.Judging.judged loop_bind.Parts.part_made loop_bind.Reasons.least_from loop_bind.Values.valued loop_grammar.Grammar.Derives
loop_lex.Lexical.is_separator loop_lex.Lexical.is_token loop_lex.Tokens.longest loop_print.Numbers.without_token_numbers
net_checker.Sources.AreUsable net_checker.Sources.IsUsable net_core.Cuts.IsLegal net_core.Names.name_at
net_maker.Origins.IsUsableOrigin node_automata.Automata.incoming node_automata.Automata.outgoing process_derive.Scripts.point_events
reorder_slots.Slots.gets_for reorder_slots.Slots.lowest_free sanlp.Meaning.exec sanlp.Memory.Memory sanlp.Tags.tag_at
sanlp.Writers.last_writer sanlp.Writers.value_at source_tree.Wanted.IsWanted source_tree.Wanted.IsWriterBy
compaan_top.DepsOutcomes.GivesTrees trim_text.TrimText.channel_line vhdl_text.Constants.column_values vhdl_text.Constants.variable_values
vhdl_text.Expressions.expr_text vhdl_text.Literals.literal vhdl_text.VhdlText.node_text witness_plan.Schedules.is_ready
witness_plan.Sequential.sequential_schedule
""".split()

# What is claimed, what is to be read for it, and the definition that says it.
CLAIMS = [
    ("what the loops compute: `arrays`", "the first list below", "sanlp.Meaning.arrays"),
    ("what a sound network is: `IsSound`", "both lists", "net_core.Sound.IsSound"),
    ("that the nest is that of the source: `Gives`", "these, and the crates `loop_lex` to `loop_class`", "command_answers.Source.Gives"),
    ("what `check` vouches for: `HasSoundCertificate`", "these, and texts of certificates", "compaan_top.Headline.HasSoundCertificate"),
    ("how a call may end: `Ends`", "nearly all", "compaan_top.Answers.Ends"),
    ("all that a call promises: `IsCallOf`", "these, and what follows of `Ends`", "compaan_top.Calls.IsCallOf"),
]
MEANING, SOUNDNESS = "sanlp.Meaning.arrays", "net_core.Sound.IsSound"
# What is aimed at: a row of a table of measures, what of the row is to be within the aim, and that.
AIMS = [
    ("`seq` of the matrix product, an executed assignment", "measures", "matrix product N=100 | seq", "ns a point", 100, "ns"),
    ("`net` of the matrix product, a point", "measures", "matrix product N=100 | net", "ns a point", 350, "ns"),
    ("`net` of the matrix product, a point", "measures", "matrix product N=100 | net", "Bytes a point", 120, "bytes"),
    ("`check` of the matrix product beside `net`", "measures", "matrix product N=100 | check", "Times the peer", 1, "times"),
    ("`load 100` beside the pipeline", "measures", "load 100 | load", "Times the peer", 3, "times"),
    ("`load 100`", "measures", "load 100 | load", "MB", 150, "MB"),
    ("`net` of the matrix product N=40", "counts", "matrix product N=40 | net", "Millions", 60, "million instructions"),
    ("`cert` of the matrix product N=40", "counts", "matrix product N=40 | cert", "Millions", 150, "million instructions"),
    ("`check` of the matrix product N=40", "counts", "matrix product N=40 | check", "Millions", 100, "million instructions"),
    ("`trim` of the pipeline beside `net`, instructions", "counts", "pipeline of 60 stages N=300 | trim", "Times the peer", 10, "times"),
    ("`load 100` beside the pipeline, instructions", "counts", "load 100 | load", "Times the peer", 3, "times"),
]


def key_of(name: str) -> Key:
    crate, _, rest = name.partition(".")
    module, _, last = rest.rpartition(".")
    return crate, module, last


def name_of(key: Key) -> str:
    return ".".join(key)


def table_lines(titles: Sequence[str], rows: Iterable[Sequence[object]]) -> str:
    return "".join(f"{it}\n" for it in (head(titles), *map(row, rows)))


def wrapped(text: str, begin: str = "") -> str:
    """A paragraph in lines, in which what stands in backticks isn't broken."""
    whole = re.sub(r"`[^`]*`", lambda it: it[0].replace(" ", "\0"), text)
    indent = " " * len(begin)
    lines = textwrap.wrap(whole, WIDTH, initial_indent=begin, subsequent_indent=indent, break_long_words=False, break_on_hyphens=False)
    return "\n".join(lines).replace("\0", " ") + "\n"


# -------------------------------------------------------------------------------------------------------- the crates


def heads() -> dict[str, str]:
    """Each crate, lowest first, with the first sentence of its head."""
    found = {}
    for crate in crates_below():
        root = next(it for it in (CRATES / crate / "src" / "lib.rt", CRATES / crate / "src" / "main.rt") if it.exists())
        lines = takewhile(lambda it: it.startswith("//!"), read(root).split("\n"))
        found[crate] = re.split(r"(?<=\.) ", " ".join(it[3:].strip() for it in lines))[0].strip()
    return found


def crate_map(_: str) -> str:
    """The crates, each with the first sentence of its head, and below it what it stands on, without what is implied."""
    edges = layers.reduced(crates_below())
    text = ""
    for crate, said in heads().items():
        below = ", ".join(f"`{it}`" for it in edges[crate])
        text += wrapped(f"`{crate}`: {said}" + (f" On {below}." if below else ""), "- ")
    return text


# --------------------------------------------------------------------------------------------------- the definitions


def sentences() -> dict[Key, tuple[str, str]]:
    """The definitions above which no comment stands, or one that tells nothing by itself: a sentence for each, and that comment."""
    rows = (it.split("\t") for it in read(Path(__file__).parent / "sentences.tsv").splitlines())
    return {key_of(name): (said, comment) for name, said, comment in rows}


def told() -> list[Key]:
    """The definitions of the page."""
    specs = all_specs()
    wanted = {key for crate in crates() for key in definitions.cited(crate, specs)} | {key_of(it) for it in ALSO}
    return [key for key in specs.definitions if key in wanted]


def definition_list(_: str) -> str:
    """The definitions by crate, in the order of crates.txt, and by file."""
    specs, instead, keys = all_specs(), sentences(), told()
    text = ""
    for crate in crates_below():
        own = [it for it in keys if it[0] == crate]
        if own:
            text += f"\n## {crate}\n\n"
        for module in dict.fromkeys(it[1] for it in own):
            for key in (it for it in own if it[1] == module):
                said = instead[key][0] if key in instead else specs.definitions[key].comment
                said = re.sub(r"^(A|An|Each|The|What|Where|Which|How|Rows|Besides) ", lambda it: it[0].lower(), said)
                text += wrapped(f"`{module}.{key[2]}`" + (f": {said.removesuffix('.')}" if said else ""), "- ")
    return text + "\n"


_specs: definitions.Specs | None = None


def all_specs() -> definitions.Specs:
    global _specs
    _specs = _specs or definitions.Specs(False)
    return _specs


# ----------------------------------------------------------------------------------------------------------- numbers


def lines_in(*patterns: str) -> int:
    return sum(it.read_bytes().count(b"\n") for pattern in patterns for it in CRATES.glob(pattern))


def number(count: int) -> str:
    return f"{count:,}"


def edits_in(folder: str) -> int:
    return len(list(CRATES.glob(f"*/{folder}/*.edit")))


def sizes(_: str) -> str:
    tests = lines_in("*_tests/src/**/*.rt", "*/src/tests/**/*.rt", "*/src/tests.rt")
    rows = [
        ("proofs", number(lines_in("*/proofs/**/*.antt"))),
        ("code, with its contracts", number(lines_in("*/src/**/*.rt") - tests)),
        ("tests", number(tests)),
        ("definitions, in `specs/`", number(lines_in("*/specs/**/*.antt"))),
        ("of these, what the public clauses of `compaan_top` rest on, types of the code included", number(lines_of("compaan_top"))),
        ("crates", number(len(crates_below()))),
        ("edits that the gate tries; edits besides", f"{edits_in('must-fail')}; {edits_in('edits')}"),
    ]
    return table_lines(("Of", "Lines, or how many"), rows)


def needed(name: str) -> dict[str, int]:
    """The files of what a definition is made of, lowest crate first, each with the lines of these definitions."""
    found = {path.relative_to(CRATES): inside for path, inside in definitions.made_of([name], all_specs()).items()}
    order = list(crates_below())
    return {str(it): sum(part.lines for part in found[it]) for it in sorted(found, key=lambda it: order.index(it.parts[0]))}


def lines_of(name: str) -> int:
    return sum(needed(name).values())


def claims(_: str) -> str:
    return table_lines(("To believe", "Read", "Lines"), [(claim, read, number(lines_of(name))) for claim, read, name in CLAIMS])


def files_of_claim(name: str, without: str | None) -> Callable[[str], str]:
    """The rows of files that a claim rests on, besides those of another one. What a row says of its file stays."""

    def rows(old: str) -> str:
        said = {path: text for path, text in re.findall(r"^\| `([^`]+)` \| [\d,]+ \| (.*) \|$", old, re.M)}
        before = needed(without) if without else {}
        found = []
        for path, lines in needed(name).items():
            more = lines - before.get(path, 0)
            if more > 0:
                found.append((f"`{path}`", more, said.get(path, "?")))
        return table_lines(("File", "Lines", "Has"), found)

    return rows


def measured(name: str) -> dict[str, dict[str, str]]:
    """The rows of a table of measures, by kernel and command."""
    lines = [it for it in part_of(read(TOP / "docs" / "MEASURES.md"), name).splitlines() if it.startswith("|")]
    rows = [[it.strip() for it in line.strip("| ").split(" | ")] for line in lines]
    return {f"{it[0]} | {it[1]}": dict(zip(rows[0], it)) for it in rows[2:]}


def aims(_: str) -> str:
    tables = {name: measured(name) for name in ("measures", "counts")}
    rows = []
    for said, table, measure, column, most, unit in AIMS:
        value = tables[table].get(measure, {}).get(column)
        rows.append((said, f"{most} {unit}", f"{value} {unit}" if value else "", "yes" if value and float(value) <= most else "no"))
    return table_lines(("What", "Aim: at most", "Measured", "Within"), rows)


def capacities(program: str) -> str:
    """The capacities of the examples, by `net` and by `trim`."""
    rows = []
    for it in examples():
        cells = []
        for policy in POLICIES:
            for command in ("net", "trim"):
                told = run(program, [command, *it.items, "--policy", policy], it.source).output.decode()
                found = [int(capacity) for capacity in re.findall(r"(?m)^channel .*?\bcapacity (\d+)", told)]
                cells.append(f"{sum(found)} ({max(found)})")
        rows.append((f"`{it.name}`", " ".join(it.items), len(found), *cells))
    return table_lines(("Example", "Values", "Channels", "`seq`", "`trim`", "`down`", "`trim --policy down`"), rows)


def clocks(_: str) -> str:
    rows = []
    for it in examples():
        counted = dict(line.split() for line in it.bytes_of(".clocks").decode().splitlines())
        rows.append((f"`{it.name}`", " ".join(it.items), *(counted.get(policy, "") for policy in POLICIES)))
    return table_lines(("Example", "Parameters", *(f"Clocks by `{it}`" for it in POLICIES)), rows)


# ---------------------------------------------------------------------------------------------------------- the pages

PARTS: dict[str, tuple[str, Callable[[str], str]]] = {
    "definitions": ("docs/DEFINITIONS.md", definition_list),
    "map": ("docs/ARCHITECTURE.md", crate_map),
    "sizes": ("docs/PROOFS.md", sizes),
    "claims": ("docs/PROOFS.md", claims),
    "meaning": ("docs/PROOFS.md", files_of_claim(MEANING, None)),
    "soundness": ("docs/PROOFS.md", files_of_claim(SOUNDNESS, MEANING)),
    "aims": ("docs/MEASURES.md", aims),
    "clocks": ("docs/VHDL.md", clocks),
}
# The tables of measures, each with its page.
TABLES = {
    **dict.fromkeys(("measures", "counts", "flow"), "docs/MEASURES.md"),
    **dict.fromkeys(("designs", "synthesis", "parts", "large", "folds", "least_clocks", "port_clocks"), "docs/RTL.md"),
}
# What the program prints into a page.
BY_PROGRAM: dict[str, tuple[str, Callable[[str], str]]] = {"capacities": ("docs/NETWORK.md", capacities)}


def place_of(page: str, name: str) -> tuple[int, int]:
    start = page.index(BEGIN.format(name)) + len(BEGIN.format(name))
    return start, page.index(END, start)


def part_of(page: str, name: str) -> str:
    start, end = place_of(page, name)
    return page[start:end]


def put(name: str, path: Path, text: str) -> None:
    page = read(path)
    start, end = place_of(page, name)
    path.write_text(page[:start] + text + page[end:], encoding="utf-8")


def parts(program: str | None) -> Iterator[tuple[str, str, str, str]]:
    """Each part that can be made anew: its name, its page, what stands there, and what is to stand there."""
    for name, (path, make) in PARTS.items():
        old = part_of(read(TOP / path), name)
        yield name, path, old, make(old)
    if program:
        for name, (path, make) in BY_PROGRAM.items():
            yield name, path, part_of(read(TOP / path), name), make(program)


def write(program: str | None) -> None:
    for name, path, _, new in parts(program):
        put(name, TOP / path, new)


def printed(name: str, text: str) -> None:
    """Puts what a script of measures printed into its page."""
    if name in TABLES:
        put(name, TOP / TABLES[name], "".join(f"{it}\n" for it in text.splitlines() if it.startswith("|")))
        return
    put("limits", TOP / "docs" / "SECURITY.md", limits(text))


# The head of the table that each section of the limits prints of its long and large runs, and the sections.
LONG_HEAD = head(("Given", "Command", "Ends with", "s", "MB"))
SECTIONS = ("deep", "trees", "writers", "repeats", "size", "lines", "announce", "bundle", "threads")


def limits(text: str) -> str:
    """One table of what takes long, or much, of the sections that were run, and what is told behind it."""
    sections = re.findall(r"(?ms)^## (\w+)\n(.*?)(?=^## |\Z)", text)
    rows: list[str] = []
    stacks: list[tuple[int, str]] = []
    told = ""
    for section in SECTIONS:
        for inside in [inside.partition(LONG_HEAD + "\n")[2] for name, inside in sections if name == section]:
            found = re.search(r"(?m)^\d+ of \d+ runs take (.*)\.$", inside)
            if found is None:
                stop(f"the section {section} wasn't run to its end")
            rows += [it for it in inside[: found.start()].splitlines() if it.startswith("|")]
            told = found[1]
            stacks += [(int(kilobytes), it) for kilobytes, it in re.findall(r"(?m)^The greatest least stack is (\d+) kB: (.*)\.$", inside)]
    run = [it for it in SECTIONS if it in dict(sections)]
    if not run:
        stop("no section is there")
    of = "" if len(run) == len(SECTIONS) else f" of the sections {', '.join(f'`{it}`' for it in run)}"
    said = f"No other run{of} takes {told}."
    if stacks:
        most, name = max(stacks)
        said += f" The greatest least stack is {number(most)} kB: {name}."
    return "".join(f"{it}\n" for it in (LONG_HEAD, *rows)) + "\n" + wrapped(said)


Difference = tuple[str, str, str]


def other_parts(program: str | None) -> Iterator[Difference]:
    for name, path, old, new in parts(program):
        here, there = old.splitlines(), new.splitlines()
        lines = [it for it in there if it not in here] or [it for it in here if it not in there]
        shown = f"the part {name} isn't what tools/docs/pages.py prints{': ' + lines[0] if lines else ''}"
        yield "printed parts", path, "" if old == new else shown
        if "| ? |" in old:
            yield "printed parts", path, f"a row of the part {name} says nothing of its file"


def other_layers() -> Iterator[Difference]:
    """Whether the picture of the layers is of the crates as they are."""
    with redirect_stdout(StringIO()) as made:
        layers.as_svg(layers.reduced(crates_below()), layers.levels(crates_below()))
    is_drawn = read(TOP / "docs" / "layers.svg") == made.getvalue()
    yield "printed parts", "docs/layers.svg", "" if is_drawn else "isn't what tools/docs/layers.py --svg prints"


def other_designs() -> Iterator[Difference]:
    """Whether the table of designs has a row for each example, which is equal and has the parameters and the clocks that stand beside its
    answer."""
    lines = [it.strip("| ").split(" | ") for it in part_of(read(TOP / TABLES["designs"]), "designs").splitlines()]
    titles, rows = lines[0], lines[2:]
    places = [titles.index(it) for it in ("Example", "Parameters", "Policy", "Clocks of a frame", "Arrays")]
    known = {it.name: it for it in examples()}
    for cells in rows:
        name, items, policy, clocks, arrays = (cells[it].strip("`") for it in places)
        example = known.get(name)
        counted = dict(line.split() for line in example.bytes_of(".clocks").decode().splitlines()) if example else {}
        is_same = example and (items.split(), clocks, arrays) == (example.items, counted.get(policy), "equal")
        shown = "" if is_same else f"the row of {name} in the table of designs has other parameters or clocks"
        yield "printed parts", TABLES["designs"], shown
    lacking = set(known) - {cells[places[0]].strip("`") for cells in rows}
    yield "printed parts", TABLES["designs"], f"the table of designs lacks {', '.join(sorted(lacking))}" if lacking else ""


def other_crates() -> Iterator[Difference]:
    """Whether the table of the gate has the crates that there are, each with its number of edits."""
    page = read(TOP / "docs" / "CONTRIBUTING.md")
    rows = re.findall(r"(?m)^\| `(\w+)` \| [\d.]+ \|[^|]*\|[^|]*\| (\d*) ?\|$", page)
    there = {(it, len(list((CRATES / it / "must-fail").glob("*.edit")))) for it in crates_below()}
    other = {name for name, _ in {(name, int(edits or 0)) for name, edits in rows} ^ there}
    shown = f"the table of the gate has other crates or numbers of edits: {', '.join(sorted(other))}"
    yield "printed parts", "docs/CONTRIBUTING.md", shown if other else ""


def other_sentences() -> Iterator[Difference]:
    """Whether each definition of the page is there and has a comment, or else a sentence in place of the comment that it has."""
    specs, instead = all_specs(), sentences()
    for key in sorted({*told(), *instead, *map(key_of, ALSO)}):
        definition = specs.definitions.get(key)
        shown = ""
        if definition is None:
            shown = f"there is no definition {name_of(key)}"
        elif key in instead and definition.comment != instead[key][1]:
            shown = f"{name_of(key)} has another comment: its row in tools/docs/sentences.tsv goes"
        elif key not in instead and not definition.comment:
            shown = f"above {name_of(key)} stands no comment"
        yield "definitions", "docs/DEFINITIONS.md", shown


def differences(program: str | None = None) -> Iterator[Difference]:
    """All that is compared: its kind, its place, and how it differs, which is nothing where it doesn't."""
    yield from other_parts(program)
    yield from other_layers()
    yield from other_designs()
    yield from other_crates()
    yield from other_sentences()


def main() -> int:
    parser = parser_of(__doc__)
    parser.add_argument("--program", action="store_true")
    parser.add_argument("--write", action="store_true")
    parser.add_argument("--printed", nargs=2, metavar=("NAME", "FILE"))
    parser.add_argument("--sentences", action="store_true")
    words = parser.parse_args()
    if words.sentences:
        for key, (said, comment) in sentences().items():
            print(f"{name_of(key)}\n  is        {comment or '(no comment)'}\n  better    {said}")
        return 0
    if words.printed:
        name, file = words.printed
        if name not in (*TABLES, "limits"):
            parser.error(f"nothing prints {name}")
        if not Path(file).is_file():
            stop(f"there is no {file}")
        printed(name, read(Path(file)))
    program = program_of(words.compaan) if words.program else None
    if words.write or words.printed:
        write(program)
    faults = [f"{place}: {shown}" for _, place, shown in differences(program) if shown]
    print("\n".join(faults) if faults else "all printed parts are as they are printed")
    return 1 if faults else 0


if __name__ == "__main__":
    sys.exit(main())
