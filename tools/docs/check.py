#!/usr/bin/env python3
"""Runs what the documents show, and compares.

usage: tools/docs/check.py [--compaan PROGRAM|--no-program] [FILE.md]..     (all documents of the repository where none is named)

- Sessions: in a fenced block a line `$ COMMAND` is run by bash, and the lines behind it are what it prints, standard error
  included; a line `..` stands for any lines. All commands of a document run in one folder, in which ./compaan and examples/ are
  those of the repository and `compaan` is the built program.
- Tables: where a row says `SOURCE` gives `LINE`, the program is run on that source, and LINE is its complaint, with the status that
  complaints of its kind have, or its output. Where LINE begins with `data: `, what stands before is the data of `in x[3];`.
- Links: what [text](path#heading) names is there, and so is what stands in backticks as a path from the top, as a file of a crate's
  src/, specs/, proofs/, must-fail/ or edits/, or as a document.
- Tests: in the list of PROVED.md each name behind a crate of tests is that of a test of it.
- Contracts: what stands in backticks as crate::function is a function of that crate.
- Rows: a row of a table has at most 160 characters.
- Toolchain: where `rt` is, what a page says of its version, as `rattle-kit-..`, is what `rt version` prints.
- Limits: a number that bounds what the program takes is the one of the code, in each page that is to tell it.
- Items: each example has a row in examples/README.md, with the words of its NAME.items.
- Printed parts and definitions: what tools/docs/pages.py prints into pages stands there.
- Pictures: each example has one in examples/pictures, and the network that it carries is that which `net` prints.

Prints one line for each difference, and fails where there is one. Where all documents are checked it fails too if there is nothing of one
of these kinds. With --no-program it leaves out what runs the program: sessions, tables and pictures.
"""
from __future__ import annotations

import os
import re
import shutil
import subprocess
import sys
import tempfile
from collections import Counter
from collections.abc import Iterator
from pathlib import Path

sys.path.insert(0, str(Path(__file__).resolve().parents[1]))
import pages
from common import EXAMPLES, TOP, examples, parser_of, program_of, rtl_program_of, stop
from common import run as run_program
from crates import CRATES, files_of, read

SECONDS = 600
LONGEST_ROW = 160
KINDS = ("links", "tests", "contracts", "rows", "items", "limits", "printed parts", "definitions")
KINDS_OF_PROGRAM = ("commands", "examples", "pictures")
# The status of a complaint by its first word.
STATUSES = {"usage": 2, "bundle": 5, "text": 6, "class": 7, "limit": 8, "data": 9}
# The constants of the code that pages tell, with the pages.
LIMITS = (
    ("loop_lex/src/token.rt", "MAX_TOKENS", "docs/LANGUAGE.md docs/SECURITY.md"),
    ("loop_walk/src/count.rt", "SIZE_LIMIT", "README.md docs/LANGUAGE.md docs/SECURITY.md"),
    ("call_endings/src/reading.rt", "BUNDLE_LIMIT", "docs/COMMANDS.md docs/LANGUAGE.md docs/CERTIFICATES.md docs/SECURITY.md"),
    ("cert_text/src/kept.rt", "MOST_EVENTS", "docs/CERTIFICATES.md docs/SECURITY.md"),
    ("cert_lines/src/lines.rt", "NESTING_LIMIT", "docs/CERTIFICATES.md docs/SECURITY.md"),
    ("cell_rows/src/places.rt", "ROW_LIMIT", "docs/DECISIONS.md docs/SECURITY.md"),
    ("unit_text/src/unit.rt", "MOST_INSTRUCTIONS", "docs/RTL.md"),
    ("vhdl_text/src/text.rt", "MOST_EVENTS", "README.md docs/COMMANDS.md docs/VHDL.md"),
)
GIVES = re.compile(r"`([^`]+)` gives `([^`]+)`")


class Tally:
    """What was compared, by kind, and what differed."""

    def __init__(self) -> None:
        self.counts: Counter[str] = Counter()
        self.different = 0

    def compare(self, kind: str, name: str, is_same: object, shown: str = "") -> None:
        self.counts[kind] += 1
        if not is_same:
            self.different += 1
            print(f"{name}: {shown}", flush=True)


def documents() -> Iterator[Path]:
    for at, folders, names in os.walk(TOP):
        folders[:] = sorted(it for it in folders if it not in ("out", ".git", "crates"))
        yield from (Path(at) / it for it in sorted(names) if it.endswith(".md"))


def blocks_of(text: str) -> Iterator[tuple[int, list[str]]]:
    """The fenced blocks, each as the number of its first line and its lines."""
    block: tuple[int, list[str]] | None = None
    for number, line in enumerate(text.split("\n"), 1):
        if line.lstrip().startswith("```"):
            if block is None:
                block = (number + 1, [])
            else:
                yield block
                block = None
        elif block is not None:
            block[1].append(line)


def sessions_of(text: str) -> Iterator[tuple[int, str, list[str]]]:
    """The commands of the blocks that have any, each as its line's number, its text and what it prints."""
    for first, lines in blocks_of(text):
        found: list[tuple[int, str, list[str]]] = []
        for number, line in enumerate(lines, first):
            if line.startswith("$ "):
                found.append((number, line[2:], []))
            elif found:
                found[-1][2].append(line)
        yield from found


def fits(wanted: list[str], printed: str) -> bool:
    """Whether the printed lines are the wanted ones, where `..` stands for any."""
    pattern = "".join(r"(.*\n)*?" if it == ".." else re.escape(it) + "\n" for it in wanted)
    return re.fullmatch(pattern, printed) is not None


class Folder:
    """A folder as a reader has it before the program: what the repository holds, and nothing that commands write goes there."""

    def __init__(self, program: str) -> None:
        self.room = tempfile.TemporaryDirectory(prefix="docs-check-")
        self.path, self.program = Path(self.room.name), program

    def __enter__(self) -> Folder:
        for name in os.listdir(TOP):
            if name not in (".git", "out", "crates"):
                (self.path / name).symlink_to(TOP / name)
        for place in ("bin", "crates/compaan/out"):
            (self.path / place).mkdir(parents=True)
            (self.path / place / "compaan").symlink_to(self.program)
        return self

    def __exit__(self, *_: object) -> None:
        self.room.cleanup()

    def run(self, command: str) -> tuple[int, str]:
        """The status of a command of bash, and what it prints on both streams."""
        path = f"{self.path}/bin:{os.environ['PATH']}"
        environment = {**os.environ, "COMPAAN": self.program, "PATH": path, "LC_ALL": "C.UTF-8"}
        if "./compaan rtl" in command:
            environment["COMPAAN_RTL"] = rtl_program_of(None)
        done = subprocess.run(
            ["bash", "-c", command],
            stdin=subprocess.DEVNULL,
            stdout=subprocess.PIPE,
            stderr=subprocess.STDOUT,
            cwd=self.path,
            env=environment,
            timeout=SECONDS,
            check=False,
        )
        return done.returncode, done.stdout.decode(errors="replace")


def check_sessions(program: str, name: str, text: str, tally: Tally) -> None:
    with Folder(program) as folder:
        for number, command, wanted in sessions_of(text):
            _, printed = folder.run(command)
            while wanted and not wanted[-1]:
                wanted.pop()
            if printed and not printed.endswith("\n"):
                printed += "\n"
            shown = f"$ {command}\n  wanted {wanted}\n  got    {printed.splitlines()}"
            tally.compare("commands", f"{name}:{number}", fits(wanted, printed), shown)


def check_tables(program: str, name: str, text: str, tally: Tally) -> None:
    with Folder(program) as folder:
        for number, row in enumerate(text.split("\n"), 1):
            row = row.replace("\\|", "|") if row.startswith("|") else ""
            for source, line in GIVES.findall(row):
                status = STATUSES.get(line.partition(":")[0] if ": " in line else "", 0)
                if source.startswith("compaan "):
                    got = folder.run(source)
                else:
                    bundle = f"in x[3];\n%%\n{source}" if line.startswith("data: ") else source
                    answer = run_program(program, ["run"], bundle.encode())
                    got = answer.status, (answer.complaint if status else answer.output).decode(errors="replace")
                tally.compare("examples", f"{name}:{number}", got == (status, line + "\n"), f"{source} gives {got}, not {(status, line)}")


def anchors_of(path: Path) -> set[str]:
    """The names of a document's headings, as they are linked to."""
    text = re.sub(r"(?ms)^```.*?^```", "", read(path))
    heads = re.findall(r"(?m)^#+ +(.*)$", text)
    return {re.sub(r"[^\w\- ]", "", it.lower()).replace(" ", "-") for it in heads}


def check_links(path: Path, name: str, text: str, tally: Tally) -> None:
    prose = re.sub(r"(?ms)^```.*?^```", "", text)
    for target in re.findall(r"\]\(([^)\s]+)\)", re.sub(r"`[^`]*`", "", prose)):
        if re.match(r"[a-z]+:", target):
            continue
        file, _, anchor = target.partition("#")
        there = path.parent / file if file else path
        is_there = there.exists() and (not anchor or anchor in anchors_of(there))
        tally.compare("links", name, is_there, f"{target} isn't there")
    for target in re.findall(r"`([\w.-]+(?:/[\w.-]+)*/?)`", prose):
        places = places_of(target, path)
        if places:
            tally.compare("links", name, any((it / target).exists() for it in places), f"{target} isn't there")


def places_of(target: str, path: Path) -> list[Path]:
    """Where a path in backticks may stand, or nowhere where it is none."""
    if target.split("/")[0] in ("docs", "examples", "hardware", "tools", "crates") and "/out/" not in target and "/" in target:
        return [TOP]
    if re.match(r"\w+/(src|specs|proofs|must-fail|edits)/", target):
        return [CRATES]
    return [path.parent, TOP] if re.fullmatch(r"[\w-]+\.md", target) else []


def tests_of(crate: str) -> set[str]:
    """The names of a crate's tests."""
    return {test for path in files_of(crate, "src", ".rt") for test in re.findall(r"#\[test\]\s*fn (\w+)", read(path))}


def check_tests(name: str, text: str, tally: Tally) -> None:
    section = text.partition("## What is tested\n")[2].partition("\n## ")[0]
    for told in re.findall(r"(?m)^- .*(?:\n  .*)*", section):
        crate, *tests = re.findall(r"`(\w+)`", told)
        found = tests_of(crate)
        tally.compare("tests", name, found and tests, f"{crate} has no tests, or none is named")
        for test in tests:
            tally.compare("tests", name, test in found, f"{test} is no test of {crate}")


def check_contracts(name: str, text: str, tally: Tally) -> None:
    for crate, function in re.findall(r"`(\w+)::(?:\w+::)*(\w+)`", text):
        if (CRATES / crate).is_dir():
            is_there = any(re.search(rf"\bfn {function}\b", read(it)) for it in files_of(crate, "src", ".rt"))
            tally.compare("contracts", name, is_there, f"{crate} has no function {function}")


def check_rows(name: str, text: str, tally: Tally) -> None:
    for number, line in enumerate(text.split("\n"), 1):
        if line.startswith("|"):
            tally.compare("rows", f"{name}:{number}", len(line) <= LONGEST_ROW, f"a row of {len(line)} characters")


def version_of_rt() -> str | None:
    """The line that the toolchain tells of itself, or None where it isn't here."""
    rt = shutil.which("rt")
    done = subprocess.run([rt, "version"], stdin=subprocess.DEVNULL, capture_output=True, text=True, check=False) if rt else None
    return done.stdout.strip() if done and done.returncode == 0 else None


def check_toolchain(version: str | None, name: str, text: str, tally: Tally) -> None:
    for told in re.findall(r"`(rattle-kit-[^`]+)`", text) if version else ():
        tally.compare("toolchain", name, told == version, f"{told} isn't what rt version prints, {version}")


def check_limits(tally: Tally) -> None:
    for file, name, told_in in LIMITS:
        path = CRATES / file
        found = re.search(rf"\bconst {name}: \w+ = ([\d_]+);", read(path)) if path.is_file() else None
        said = f"{int(found[1].replace('_', '')):,}" if found else ""
        for page in told_in.split():
            is_told = said and re.search(rf"(?<![\d,]){said}(?![\d,]*\d)", read(TOP / page))
            tally.compare("limits", page, is_told, f"{said or 'nothing'} is the {name} of {file}, and isn't told here")


def check_items(tally: Tally) -> None:
    page = read(EXAMPLES / "README.md")
    for example in examples():
        found = re.search(rf"(?m)^\| `{re.escape(example.name)}` \|.*\| `([^`]*)` \| \[picture\]\(pictures/{re.escape(example.name)}\.svg\) \|$", page)
        shown = f"{example.name} has no row with `{' '.join(example.items)}` and its picture"
        tally.compare("items", "examples/README.md", found and found[1].split() == example.items, shown)


def check_pictures(program: str, tally: Tally) -> None:
    for example in examples():
        picture = EXAMPLES / "pictures" / f"{example.name}.svg"
        carried = re.search(r"(?s)<!--\n(net 1\n.*?)-->", read(picture)) if picture.exists() else None
        net = run_program(program, ["net", *example.items], example.source).output.decode()
        tally.compare("pictures", example.name, carried and carried[1] == net, "the example has another network: draw it anew")


def main() -> int:
    parser = parser_of(__doc__)
    parser.add_argument("--no-program", action="store_true", help="leave out what runs the program")
    parser.add_argument("names", metavar="FILE.md", nargs="*")
    given = parser.parse_args()
    program, tally = None if given.no_program else program_of(given.compaan), Tally()
    for it in given.names:
        if not Path(it).is_file():
            stop(f"there is no {it}")
    version = version_of_rt()
    for path in [Path(it).resolve() for it in given.names] or documents():
        text, name = read(path), os.path.relpath(path, TOP)
        check_links(path, name, text, tally)
        check_tests(name, text, tally)
        check_contracts(name, text, tally)
        check_rows(name, text, tally)
        check_toolchain(version, name, text, tally)
        if program:
            check_sessions(program, name, text, tally)
            check_tables(program, name, text, tally)
    if not given.names:
        check_items(tally)
        check_limits(tally)
        for kind, place, shown in pages.differences(program):
            tally.compare(kind, place, not shown, shown)
        if program:
            check_pictures(program, tally)
        for kind in KINDS + (KINDS_OF_PROGRAM if program else ()):
            if not tally.counts[kind]:
                tally.compare(kind, "all documents", False, f"there are no {kind}")
    said = ", ".join(f"{count} {kind}" for kind, count in tally.counts.items())
    print(f"{said} compared, {tally.different} different")
    return 1 if tally.different else 0


if __name__ == "__main__":
    sys.exit(main())
