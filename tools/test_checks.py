#!/usr/bin/env python3
"""Shows that the checks can fail: it plants a fault for each, and wants the check to end with 1.

usage: tools/test_checks.py [--compaan PROGRAM] [--rtl PROGRAM] [NAME]..
                            (NAME: faults whose check or text has this in it; all where none is named)

Most faults are a program that passes the built one's answers on but for one, in which a text is another; others are a program that looks at
no errors or that always ends with 10, and a copy of the repository in which a line is another. Some are wrong bodies that no clause
refuses, since the answers are equal, or since want of memory is always allowed: the test of a crate (`rt try --test`), or the script, that
is there for each is wanted to fail. For the simulations by GHDL tools/hardware/faults.py does more of this; the tables of bench/, layers.py
and gate.py judge nothing. Prints a row for each fault, and fails where one isn't told. It takes some minutes, and a wrong body as many.
"""
from __future__ import annotations

import os
import re
import shutil
import subprocess
import sys
import tempfile
from collections.abc import Callable, Iterator
from dataclasses import dataclass
from pathlib import Path

from common import TOP, head, parser_of, program_of, row
from front_door.base import COMPAAN, RTL

# A program that answers as PROGRAM does, but that in the output of COMMAND, or in each where it is None, what the pattern finds first is
# replaced.
SPOILING = """#!{python}
import re, subprocess, sys
command = next((it for it in sys.argv[1:] if not it.startswith("-")), "")
done = subprocess.run([{program!r}, *sys.argv[1:]], stdin=sys.stdin, stdout=subprocess.PIPE)
output = done.stdout
if {command!r} in (None, command):
    output = re.sub({pattern!r}, {new!r}, output, count=1)
sys.stdout.buffer.write(output)
sys.stdout.flush()
sys.exit(done.returncode)
"""
# Fewer examples, at which a fault shows as well.
FEW = ["fir", "lu"]
# Stands among the words for a folder that goes when the check has ended.
KEPT = "KEPT"
# The tests of a crate. Its words are the crate and the test that is to fail.
TESTS = "rt try --test"


@dataclass(frozen=True)
class Fault:
    """A check with its words, what is wrong, and what makes the program or the repository that it meets, in a folder of its own. The program
    is one of these two."""

    check: str
    words: list[str]
    what: str
    make: Callable[[Path, str], tuple[Path, str]]
    program: str = COMPAAN


def spoiled(command: str | None, pattern: bytes, new: bytes) -> Callable[[Path, str], tuple[Path, str]]:
    """This repository with a program that answers a command otherwise, or all of them."""

    def make(folder: Path, program: str) -> tuple[Path, str]:
        path = folder / "compaan"
        path.write_text(
            SPOILING.format(python=sys.executable, program=program, command=command, pattern=pattern, new=new), encoding="utf-8"
        )
        path.chmod(0o755)
        return TOP, str(path)

    return make


def in_c(text: str, *flags: str) -> Callable[[Path, str], tuple[Path, str]]:
    """This repository with a program in C, which has the path of the built one as PROGRAM."""

    def make(folder: Path, program: str) -> tuple[Path, str]:
        (folder / "program.c").write_text(text, encoding="utf-8")
        subprocess.run(["cc", "-O1", *flags, f'-DPROGRAM="{program}"', "-o", folder / "compaan", folder / "program.c"], check=True)
        return TOP, str(folder / "compaan")

    return make


def changed(file: str, old: str, new: str, copied: tuple[str, ...] = ()) -> Callable[[Path, str], tuple[Path, str]]:
    """A repository in which a file is another, with the built program. Folders that aren't copied are links."""

    def make(folder: Path, program: str) -> tuple[Path, str]:
        for name in os.listdir(TOP):
            if name in ("tools", *copied):
                shutil.copytree(TOP / name, folder / name, ignore=shutil.ignore_patterns("out", "__pycache__"))
            elif name not in (".git", "out"):
                (folder / name).symlink_to(TOP / name)
        path = folder / file
        text = path.read_text(encoding="utf-8") if path.exists() else ""
        if old not in text:
            raise ValueError(f"{file} has no {old!r}")
        path.write_text(text.replace(old, new, 1) if old else new, encoding="utf-8")
        return folder, program

    return make


def other_program(file: str, old: str, new: str) -> Callable[[Path, str], tuple[Path, str]]:
    """This repository with the unproved program of sources in which a file is another."""

    def make(folder: Path, program: str) -> tuple[Path, str]:
        changed(file, old, new, ("crates",))(folder, program)
        start = [sys.executable, "-I", "-S", folder / "tools" / "front_door" / "start.py"]
        done = subprocess.run([*start, "build", "--unproved"], cwd=folder, capture_output=True, text=True, check=False)
        made = [it for it in (folder / "out" / "unproved").glob("*") if os.access(it, os.X_OK)]
        if done.returncode or len(made) != 1:
            raise ValueError(f"no program is made: {done.stderr}")
        return TOP, str(made[0])

    return make


CARELESS = in_c((TOP / "tools" / "careless.c").read_text(encoding="utf-8"))
CARELESS_ALONE = in_c((TOP / "tools" / "careless.c").read_text(encoding="utf-8"), "-static")
ALWAYS_TEN = in_c("int main(void) { return 10; }\n")
NO_MEMORY = in_c('#include <unistd.h>\nint main(void) { return write(1, "y,6,7,8\\n", 8) != 8; }\n')
CALLING = (
    "#include <stdio.h>\n#include <stdlib.h>\n#include <string.h>\nint main(int n, char **w) { static char line[1 << 16]; strcpy(line, PROGRAM);"
    ' for (int k = 1; k < n; k++) { strcat(line, " \'"); strcat(line, w[k]); strcat(line, "\'"); } int status = system(line); '
)
NO_STATUS = in_c(CALLING + "return 0 * status; }\n")
STATUS_99 = in_c(CALLING + "return 99 + 0 * status; }\n")
COMPLAINING = in_c(CALLING + 'fputs("a complaint\\n", stderr); return status >> 8; }\n')


def faults() -> Iterator[Fault]:
    """All faults, by check."""
    examples = "examples/check.py"
    for command, what, pattern, new in (
        ("run", "a value less", rb",-?\d+\n", b"\n"),
        ("seq", "another value", rb"\d\n", b"0,1\n"),
        ("sim", "another number of clocks", rb"clocks \d", b"clocks 9"),
        ("sim", "another value", rb",", b",1"),
        ("net", "another capacity", rb"capacity (\d+)", rb"capacity 1\1"),
        ("net", "another reader", rb"to 2 ", b"to 1 "),
        ("cert", "another slot", rb"(?m)^f 1$", b"f 0"),
        ("cert", "a sweep for a tree", rb"(?m)^w 0 1", b"w 0 2"),
        ("check", "a refusal", rb"accepted", b"refused Shape 0"),
        ("trim", "a place more", rb"capacity 1 ", b"capacity 2 "),
        ("trim", "another position", rb"rest 1", b"rest 2"),
        ("trace", "an event less", rb"\n0\n", b"\n"),
        ("vhdl", "another slot", rb"dst : codes\((.*?)\) := \(0 => 0", rb"dst : codes(\1) := (0 => 1"),
        ("vhdl", "a product for a sum", rb"\((pick[^;]*?) \+ ", rb"(\1 - "),
        ("vhdl", "another line", rb"pc <= 0;", b"pc <= 1;"),
        ("deps", "another point", rb"(?m)^m 0 1$", b"m 1 1"),
        ("deps", "another writer", rb"(?m)^w 0 ", b"w 1 "),
    ):
        yield Fault(examples, FEW, f"{command}: {what}", spoiled(command, pattern, new))
    yield Fault(examples, [], "every status is 0", NO_STATUS)
    for check, words in (
        (examples, FEW),
        ("examples/steps.py", ["--count", "5"]),
        ("examples/sources.py", FEW),
        ("check_c.py", ["gemm"]),
        ("docs/check.py", ["docs/COMMANDS.md"]),
        ("hostile/fuzz.py", ["--count", "8", "--keep", KEPT]),
        ("hostile/limits.py", ["--only", "deep", "--quick", "--share", "5/37"]),
    ):
        yield Fault(check, words, "every status is 99", STATUS_99)
        yield Fault(check, words, "a complaint besides", COMPLAINING)
    yield Fault(examples, FEW, "an example without its clocks", changed("examples/fir.clocks", "seq", "sep", ("examples",)))
    yield Fault("examples/sources.py", FEW, "deps: another writer", spoiled("deps", rb"(?m)^w 0 ", b"w 1 "))
    yield Fault("examples/steps.py", ["--count", "20"], "run: another value", spoiled("run", rb",0\n", b",1\n"))
    yield Fault(
        "examples/steps.py", ["--count", "20"], "net: a fire more", spoiled("net", rb"assign (\w+) fires (\d+)", rb"assign \1 fires 1\2")
    )
    yield Fault("examples/reference.py", [], "an answer with another value", changed("examples/fir.answer", "y,", "y,1", ("examples",)))
    yield Fault("docs/check.py", ["docs/COMMANDS.md"], "run: another value", spoiled("run", rb",", b",1"))
    for part in (
        "[a link](nowhere.md)",
        "`tools/nothing.py`",
        "```\n$ echo one\ntwo\n```",
        "| `out y; y = 2;` gives `y,3` |",
        "| `out y; y = ;` gives `text: Syntax 10` |",
        "`net_core::nothing`",
        f"| {'long ' * 32} |",
        f"| `out y; y = 2;` gives `y,2` {'long ' * 32} |",
        *(["`rattle-kit-0 logic 0`"] if shutil.which("rt") else []),
    ):
        page = changed("examples/page.md", "", f"# A page\n\n{part}\n", ("examples",))
        yield Fault("docs/check.py", ["examples/page.md"], part.replace("\n", " "), page)
    for page, old, new in (
        ("DEFINITIONS.md", "- `Affine.form_at`", "- `Affine.form`"),
        ("ARCHITECTURE.md", "- `affine_core`: A", "- `affine_core`: B"),
        ("PROOFS.md", "| proofs | 1", "| proofs | 2"),
        ("VHDL.md", "| `fir` | N=8 T=3 | ", "| `fir` | N=8 T=3 | 1"),
        ("CONTRIBUTING.md", "| `affine_core` |", "| `affine_cores` |"),
        ("RTL.md", "| 78 | 230 | 227 | equal |", "| 77 | 230 | 227 | equal |"),
        ("layers.svg", "<rect", "<rect "),
    ):
        yield Fault("docs/pages.py", [], f"another {page}", changed(f"docs/{page}", old, new, ("docs",)))
    other_items = changed("examples/README.md", "| `N=8 T=3` | [picture](pictures/fir.svg)", "| `N=8` | [picture](pictures/fir.svg)", ("examples",))
    yield Fault("docs/check.py", ["--no-program"], "an example with other items", other_items)
    other_limit = changed("docs/VHDL.md", "at most 65,536 events", "at most 65,537 events", ("docs",))
    yield Fault("docs/check.py", ["--no-program"], "another limit", other_limit)
    yield Fault("docs/ample.py", ["loop_bind"], "tests that are none", without_tests)
    edit = changed("crates/affine_core/edits/nothing.edit", "", "file: src/lib.rt\nold: nothing\nnew: something\n", ("crates",))
    yield Fault("edits.py", ["check"], "an edit of no line", edit)
    if shutil.which("rt"):
        yield from wrong_bodies()
    else:
        print("there is no rt, so no wrong body is planted", file=sys.stderr)
    if shutil.which("chromium"):
        page = changed("tools/report.py", "<h2>Where values come from</h2><p class", "<h2>Values</h2><p class")
        yield Fault("check_report.py", ["fir"], "a page without a head", page)
    else:
        print("there is no chromium, so no fault is planted for check_report.py", file=sys.stderr)
    if shutil.which("ghdl"):
        few = ["--policy", "down", "running_sum"]
        kernel = ["examples/running_sum.loop", "N=4"]
        for check, words in (
            ("hardware/simulate.py", few),
            ("hardware/designs.py", ["--std", "93", *few]),
            ("hardware/synthesize.py", ["--text", "rtl", *few]),
            ("hardware/large.py", ["--quick", "sobel"]),
            ("../hardware/frames", kernel),
            ("../hardware/simulate", kernel),
        ):
            yield Fault(check, words, "sim: another number of clocks", spoiled("sim", rb"clocks \d", b"clocks 9"))
        for check, words in (
            ("hardware/synthesize.py", ["--text", "rtl", *few]),
            ("../hardware/frames", kernel),
            ("../hardware/simulate", kernel),
            ("../hardware/synthesize", ["--text", "rtl", *kernel]),
        ):
            yield Fault(check, words, "seq: another value", spoiled("seq", rb",1", b",2"))
        jacobi = ["--policy", "down", "jacobi_1d"]
        jacobi_kernel = ["--policy", "down", "examples/jacobi_1d.loop", "N=8", "T=3"]
        for check, words, tight, turn in (
            ("hardware/designs.py", ["--std", "93", *jacobi], 2, (8, 5)),
            ("hardware/synthesize.py", ["--text", "rtl", *jacobi], 2, (8, 5)),
            ("hardware/large.py", ["--quick", "sobel"], 30, (8, 140)),
            ("../hardware/frames", jacobi_kernel, 2, (8, 5)),
            ("../hardware/synthesize", ["--text", "rtl", *jacobi_kernel], 2, (8, 5)),
        ):
            for what, change in design_faults(tight, *turn):
                yield Fault(check, words, f"rtl: {what}", change, RTL)
        owing = spoiled(None, rb"_owing <= '1'", b"_owing <= '0'")
        yield Fault("../hardware/frames", ["--ports", "all", *jacobi_kernel], "rtl: a value that isn't owed", owing, RTL)
        told_otherwise = spoiled(None, rb"^clocks \d", b"clocks 9")
        for check, words in (
            ("hardware/designs.py", ["--std", "93", *jacobi]),
            ("hardware/large.py", ["--quick", "sobel"]),
            ("../hardware/frames", jacobi_kernel),
            ("../hardware/frames", ["--ports", "all", *jacobi_kernel]),
        ):
            yield Fault(check, words, "rtl: another number of clocks", told_otherwise, RTL)
    else:
        print("there is no GHDL, so no fault is planted for what is simulated", file=sys.stderr)
    other_slot = spoiled("vhdl", rb"3 => 0, 4 => 1, 5", b"3 => 0, 4 => 2, 5")
    yield Fault("hardware/folds.py", ["--quick", "transpose"], "vhdl: another slot", other_slot)
    more = spoiled(None, rb"signal pc : integer range 0 to (\d+) := 0", rb"signal pc : integer range 0 to 1\1 := 0")
    yield Fault("hardware/folds.py", ["--quick", "transpose"], "rtl: more instructions", more, RTL)
    kernel = ["examples/jacobi_1d.loop", "N=8", "T=3"]
    other_clocks = spoiled(None, rb"clocks \d", b"clocks 9")
    not_least = changed("tools/hardware/least.py", "= enough\n", "= min(enough + 1, capacities[channel])\n", ("hardware",))
    for check, words in (("../hardware/least_clocks", kernel), ("hardware/least_clocks.py", ["--quick", "matrix_product"])):
        yield Fault(check, words, "rtl: another number of clocks", other_clocks, RTL)
        yield Fault(check, words, "capacities that aren't the least", not_least)
    yield Fault("hardware/port_clocks.py", ["--quick", "fir"], "rtl: another number of clocks", other_clocks, RTL)
    yield Fault("check_c.py", ["gemm"], "run: another value", spoiled("run", rb",", b",1"))
    yield Fault("check_isl.py", FEW, "deps: another writer", spoiled("deps", rb"(?m)^w 0 ", b"w 1 "))
    yield Fault("check_isl.py", FEW, "deps: another test", spoiled("deps", rb"(?m)^t (-?\d+) ", rb"t \g<1>1 "))
    yield Fault("check_isl.py", FEW, "net: a fire more", spoiled("net", rb"assign (\w+) fires (\d+)", rb"assign \1 fires 1\2"))
    yield Fault("hostile/calls.py", [], "a careless program", CARELESS)
    yield Fault("hostile/calls.py", [], "a careless program without a loader", CARELESS_ALONE)
    yield Fault("hostile/devices.py", [], "a careless program", CARELESS)
    yield Fault("hostile/memory.py", ["--most", "3"], "a careless program", CARELESS)
    small_run = ["--only", "run of the increment"]
    yield Fault("hostile/memory.py", small_run, "a program that always ends with 10", ALWAYS_TEN)
    yield Fault("hostile/memory.py", small_run, "a program that asks for no memory", NO_MEMORY)
    for section in ("deep", "trees", "writers", "repeats", "size", "lines", "announce", "bundle", "threads"):
        yield Fault("hostile/limits.py", ["--only", section, "--quick"], "a program that always ends with 10", ALWAYS_TEN)
    for command, what, pattern, new in (
        ("net", "a capacity above the tokens", rb"capacity 1 ", b"capacity 2 "),
        ("vhdl", "another node", rb"entity node_0 is", b"entity node_1 is"),
        ("deps", "a tree without an end", rb"(?m)^z$", b"t 0"),
        ("trim", "a rest behind the end", rb"rest 1", b"rest 9"),
        ("trace", "an event less", rb"\n0\n", b"\n"),
        ("sim", "another value", rb",", b",1"),
    ):
        yield Fault("hostile/limits.py", ["--only", "deep", "--quick"], f"{command}: {what}", spoiled(command, pattern, new))
    for command, pattern, new in (
        ("run", rb",", b",1"),
        ("vhdl", rb"pc <= 0;", b"pc <= 1;"),
        ("trim", rb"rest \d", b"rest 9"),
        ("sim", rb"clocks \d", b"clocks 9"),
        ("deps", rb"(?m)^read (\d)", rb"read 1\1"),
        ("trace", rb"\n0\n", b"\n"),
    ):
        yield Fault("hostile/fuzz.py", ["--count", "12", "--keep", KEPT], f"{command}: another text", spoiled(command, pattern, new))


def design_faults(tight: int, at: int, turns: int) -> Iterator[tuple[str, Callable[[Path, str], tuple[Path, str]]]]:
    """Faults of a design: of the first channel of a capacity that it needs, of two ports, and of the first repeat that ends behind this
    instruction with so many turns."""
    yield "a channel with a place less", spoiled(None, b"capacity => %d" % tight, b"capacity => %d" % (tight - 1))
    yield "two ports exchanged", spoiled(None, rb"(?s)c0_front => front_0(.*?)c1_front => front_1", rb"c0_front => front_1\1c1_front => front_0")
    counts = rb"(constant count\d : [^;]*[ (]%d => )%d\b" % (at, turns)
    yield "a repeat with a turn less", spoiled(None, counts, rb"\g<1>%d" % (turns - 1))


def wrong_bodies() -> Iterator[Fault]:
    """Wrong bodies that the contracts let through, each with the test or the script that refuses it."""
    by_network = "let run = run_by_threads(rt, alloc, &nest, &inputs, policy, gate)?;\n    Ok(Answer::Arrays"
    told, put = "            gate.moved(process, *channel, value);\n", "            ends.put(rt, *channel, value);\n"
    advanced = "board.lock(rt).advance(lane, lanes);"
    idle = "if lane < lanes { gate.pass(lane); Advance::Done } else { board.lock(rt).advance(lane, lanes) };"
    no_rows = "        let mut cells = Cells::empty(alloc);\n"
    for crate, test, what, file, old, new in (
        ("thread_tests", "each_process_has_a_thread", "what the threads found is thrown away",
         "thread_runner/src/run.rt", "    if ran {\n", "    if ran && false {\n"),
        ("thread_tests", "a_writer_fills_its_channel_and_waits", "the network of another policy is run",
         "command_answers/src/run.rt", by_network, "let _ = policy;\n    " + by_network.replace("policy", "Policy::Seq")),
        ("thread_tests", "a_writer_fills_its_channel_and_waits", "the gate is told after the put",
         "node_runner/src/node.rt", told + put, put + told),
        ("thread_tests", "a_worker_steps_its_lane", "what the workers stepped is thrown away",
         "trace_board/src/workers.rt", "    if first.network()", "    if false && first.network()"),
        ("thread_tests", "a_worker_steps_its_lane", "a worker asks the gate twice and steps nothing",
         "trace_board/src/workers.rt", advanced, idle),
        ("thread_tests", "a_worker_steps_its_lane", "a worker steps any process",
         "trace_board/src/workers.rt", advanced, advanced.replace("lane, lanes", "lane - lane, 1 + lanes - lanes")),
        ("thread_tests", "four_workers_ask", "the last worker is never started",
         "trace_board/src/workers.rt", "for lane in 0..lanes {", "for lane in 0..lanes - 1 {"),
        ("refusal_tests", "many_arrays_are_declared", "more than 256 arrays are want of memory",
         "cell_rows/src/cells.rt", no_rows, "        if arrays.len() > 256 {\n            return Err(AllocError);\n        }\n" + no_rows),
    ):  # fmt: skip
        yield Fault(TESTS, [crate, test], what, changed(f"crates/{file}", old, new, ("crates",)))
    never_less = other_program("crates/cell_rows/src/cells.rt", "self.room = self.room.saturating_sub(grown);", "let _ = grown;")
    far_cells = ["--only", "size", "--share", "10/12"]
    yield Fault("hostile/limits.py", far_cells, "rows of cells that all together have no limit", never_less)


def without_tests(folder: Path, program: str) -> tuple[Path, str]:
    """A repository whose crates have no tests."""
    top, _ = changed("crates/net_text/src/none.txt", "", "no code\n", ("crates",))(folder, program)
    for path in (top / "crates").rglob("*.rt"):
        text = path.read_text(encoding="utf-8")
        if "#[test]" in text:
            path.write_text(text.replace("#[test]", ""), encoding="utf-8")
    return top, program


def told(fault: Fault, programs: dict[str, str]) -> tuple[int, str]:
    """The status of a check that meets the fault, and what it says first."""
    with tempfile.TemporaryDirectory(prefix="checks-") as name:
        top, met = fault.make(Path(name), programs[fault.program])
        words = [f"{name}/kept" if it == KEPT else it for it in fault.words]
        met_by = {it.upper(): path for it, path in {**programs, fault.program: met}.items()}
        environment = {**os.environ, **met_by, "PYTHONDONTWRITEBYTECODE": "1"}
        called = TESTS.split() if fault.check == TESTS else [top / "tools" / fault.check, *words]
        place = top / "crates" / words[0] if fault.check == TESTS else top
        done = subprocess.run(called, cwd=place, env=environment, capture_output=True, text=True, errors="replace", check=False)
    if fault.check == TESTS:
        failed = re.search(rf"(?m)^test (\w+::)*{words[1]} \.\.\. FAILED$(\n +.*)?", done.stdout)
        return (1, failed[0]) if failed else (0, (done.stdout + done.stderr).strip().split("\n")[-1])
    said = [it for it in done.stdout.split("\n") if it and not it.startswith(("|", "#"))]
    return done.returncode, (said or done.stderr.strip().split("\n")[-1:] or [""])[0]


def main() -> int:
    parser = parser_of(__doc__)
    parser.add_argument("--rtl", metavar="PROGRAM", help="the program that writes designs (the variable COMPAAN_RTL, or else the built one)")
    parser.add_argument("names", metavar="NAME", nargs="*")
    given = parser.parse_args()
    programs = {COMPAAN: program_of(given.compaan)}
    print(head(["Check", "Fault", "Status", "It says first"]), flush=True)
    planted = missed = 0
    for fault in faults():
        if given.names and not any(it in f"{fault.check} {fault.what}" for it in given.names):
            continue
        if fault.program not in programs:
            programs[fault.program] = program_of(given.rtl, fault.program)
        status, said = told(fault, programs)
        planted += 1
        missed += status != 1
        shown = re.sub(r"\s+", " ", said)[:100].replace("`", "'")
        print(row([f"`{fault.check} {' '.join(fault.words)}`", fault.what, status, f"`{shown}`"]), flush=True)
    print(f"\n{planted} faults, {missed} not told")
    return 1 if missed or not planted else 0


if __name__ == "__main__":
    sys.exit(main())
