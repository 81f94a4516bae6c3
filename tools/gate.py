#!/usr/bin/env python3
"""What the gate takes, crate by crate.

usage: tools/gate.py run FILE [WORD]..         runs `rt ci WORD..` and notes in FILE the processor time and the most memory of each check
       tools/gate.py table FILE.. [--write]    the table by crate of such files, a later file before an earlier one;
                                               with --write into docs/CONTRIBUTING.md
       tools/gate.py build FILE..              how long `./compaan build` takes by it, with 1, 2 and 4 processors

The gate's own log tells what was proved and no times. So this looks at the processes of `rt ci` four times a second, and adds up
what each used, with what it waited for. What ends between two looks is short by a quarter of a second at most. A file has a line for
each process: crate, kind (proof, tests, edits, program), processor seconds, MB. `run` prints what `rt ci` prints, and has its status.
"""
from __future__ import annotations

import os
import re
import subprocess
import sys
import textwrap
import time
from collections import defaultdict
from pathlib import Path

from common import TOP, plain_parser_of, stop
from crates import crates_below

PAGE = TOP / "docs" / "CONTRIBUTING.md"
HEAD = "| Crate | Its proof | Its tests | Its edits | Number of edits |\n|---|---|---|---|---|\n"
TICK = os.sysconf("SC_CLK_TCK")
Times = dict[tuple[str, str], float]


def processes() -> dict[int, tuple[int, str]]:
    """The processes there are, each with its parent and its fields of time."""
    found = {}
    for name in os.listdir("/proc"):
        if name.isdigit():
            try:
                with open(f"/proc/{name}/stat", encoding="utf-8", errors="replace") as file:
                    fields = file.read().rpartition(")")[2].split()
            except OSError:
                continue
            found[int(name)] = (int(fields[1]), " ".join(fields[11:15]))
    return found


def below(root: int, found: dict[int, tuple[int, str]]) -> set[int]:
    """The processes that this one began, and those that they began."""
    children = defaultdict(list)
    for process, (parent, _) in found.items():
        children[parent].append(process)
    reached, left = set(), [root]
    while left:
        for child in children[left.pop()]:
            reached.add(child)
            left.append(child)
    return reached


def kind_of(process: int) -> tuple[str, str] | None:
    """The crate and the kind of a check, of the process that makes it."""
    try:
        with open(f"/proc/{process}/cmdline", encoding="utf-8", errors="replace") as file:
            words = file.read().split("\0")
        folder = os.readlink(f"/proc/{process}/cwd")
    except OSError:
        return None
    if os.path.basename(words[0]) != "rattle" or "--crate-name" not in words:
        return None
    crate = words[words.index("--crate-name") + 1]
    if "/rt-edit-" in folder:
        return crate, "edits"
    if "--test" in words:
        return crate, "tests"
    return crate, "program" if "--crate-checked" in words else "proof"


def memory_of(process: int) -> int:
    try:
        with open(f"/proc/{process}/status", encoding="utf-8", errors="replace") as file:
            found = re.search(r"^VmHWM:\s+(\d+)", file.read(), re.M)
    except OSError:
        return 0
    return int(found[1]) // 1024 if found else 0


def run(file: str, words: list[str]) -> int:
    """Runs the gate, and notes what each of its checks took."""
    began = time.time()
    gate = subprocess.Popen(["rt", "ci", *words])
    checks: dict[int, list] = {}
    with open(file, "w", encoding="utf-8") as out:
        ended = None
        while ended is None:
            ended = gate.poll()
            found = processes()
            for process in below(gate.pid, found):
                if process not in checks:
                    kind = kind_of(process)
                    if kind is None:
                        continue
                    checks[process] = [*kind, 0.0, 0]
                check = checks[process]
                check[2] = sum(map(int, found[process][1].split())) / TICK
                check[3] = max(check[3], memory_of(process))
            for process in [it for it in checks if it not in found]:
                crate, kind, seconds, memory = checks.pop(process)
                out.write(f"{crate}\t{kind}\t{seconds:.1f}\t{memory}\n")
                out.flush()
            time.sleep(0.25)
        for crate, kind, seconds, memory in checks.values():
            out.write(f"{crate}\t{kind}\t{seconds:.1f}\t{memory}\n")
        out.write(f"# {(time.time() - began) / 60:.1f} minutes on {len(os.sched_getaffinity(0))} processors\n")
    return ended


def times_of(files: list[str]) -> Times:
    """The processor minutes of each crate and kind."""
    times: Times = {}
    for file in files:
        if not Path(file).is_file():
            stop(f"there is no {file}")
        here: Times = defaultdict(float)
        for line in Path(file).read_text(encoding="utf-8").split("\n"):
            if line and not line.startswith("#"):
                crate, kind, seconds, _ = line.split("\t")
                here[crate, "proof" if kind == "program" else kind] += float(seconds) / 60
        times.update(here)
    return times


def chain_of(times: Times, names: dict[str, list[str]]) -> tuple[float, list[str]]:
    """The longest chain of crates by the minutes of their proofs, with the tests of the last one."""
    longest: dict[str, tuple[float, list[str]]] = {}

    def visit(name: str) -> tuple[float, list[str]]:
        if name not in longest:
            before = max((visit(it) for it in names[name]), default=(0.0, []))
            longest[name] = (before[0] + times.get((name, "proof"), 0.0), [*before[1], name])
        return longest[name]

    def whole(name: str) -> float:
        own = times.get((name, "proof"), 0.0)
        return visit(name)[0] - own + max(own, times.get((name, "tests"), 0.0))

    last = max(names, key=whole)
    return whole(last), longest[last][1]


def table(files: list[str], write: bool) -> int:
    """Prints the table by crate, or puts it into its page."""
    times, names = times_of(files), crates_below()

    def cell(name: str, kind: str) -> str:
        return f"{times[name, kind]:.1f}" if times.get((name, kind), 0.0) >= 0.05 else ""

    rows = []
    for name in names:
        edits = len(list((TOP / "crates" / name / "must-fail").glob("*.edit")))
        rows.append(f"| `{name}` | {cell(name, 'proof')} | {cell(name, 'tests')} | {cell(name, 'edits')} | {edits or ''} |\n")
    total = {
        kind: sum(minutes for (name, it), minutes in times.items() if it == kind and name in names) for kind in ("proof", "tests", "edits")
    }
    number = sum(len(list((TOP / "crates" / name / "must-fail").glob("*.edit"))) for name in names)
    rows.append(f"| all | {total['proof']:.0f} | {total['tests']:.0f} | {total['edits']:.0f} | {number} |\n")
    minutes, chain = chain_of(times, names)
    said = f"In all {sum(total.values()):.0f} processor minutes. The longest chain takes {minutes:.0f}: {', '.join(f'`{it}`' for it in chain)}."
    text = f"{HEAD}{''.join(rows)}\n{textwrap.fill(said, 136)}\n"
    if not write:
        print(text, end="")
        return 0
    page = PAGE.read_text(encoding="utf-8")
    found = re.search(re.escape(HEAD) + r"(\|.*\n)*\n.*\n(?:[^\n#|].*\n)*", page)
    if not found:
        stop(f"{PAGE} has no table with this head")
    PAGE.write_text(page[: found.start()] + text + page[found.end() :], encoding="utf-8")
    return 0


def build(files: list[str]) -> int:
    """Prints how long the proofs take that the program stands on, by a list that begins what has the longest chain behind it."""
    times, names = times_of(files), crates_below()
    wanted: set[str] = set()
    left = ["compaan"]
    while left:
        name = left.pop()
        if name not in wanted:
            wanted.add(name)
            left += names[name]
    cost = {name: times.get((name, "proof"), 0.0) for name in wanted}
    behind: dict[str, float] = {}

    def chain(name: str) -> float:
        if name not in behind:
            behind[name] = cost[name] + max((chain(it) for it in wanted if name in names[it]), default=0.0)
        return behind[name]

    for lanes in (1, 2, 4):
        now, running, done = 0.0, [], set()
        waiting = sorted(wanted, key=chain, reverse=True)
        while waiting or running:
            for name in [it for it in waiting if all(low in done for low in names[it])]:
                if len(running) < lanes:
                    running.append((now + cost[name], name))
                    waiting.remove(name)
            running.sort()
            now, name = running.pop(0)
            done.add(name)
        print(f"{lanes} processors: {now:.0f} minutes")
    return 0


def main() -> int:
    parser = plain_parser_of(__doc__)
    commands = parser.add_subparsers(dest="command", required=True, prog=f"tools/{Path(__file__).name}")
    running = commands.add_parser("run", help="run the gate and note what each check took")
    running.add_argument("file", metavar="FILE")
    running.add_argument("words", nargs="...", metavar="WORD")
    tables = commands.add_parser("table", help="the table by crate")
    tables.add_argument("files", nargs="+", metavar="FILE")
    tables.add_argument("--write", action="store_true", help="into docs/CONTRIBUTING.md")
    building = commands.add_parser("build", help="how long ./compaan build takes")
    building.add_argument("files", nargs="+", metavar="FILE")
    words = parser.parse_args()
    if words.command == "run":
        os.chdir(TOP)
        return run(os.path.abspath(words.file), words.words)
    return table(words.files, words.write) if words.command == "table" else build(words.files)


if __name__ == "__main__":
    sys.exit(main())
