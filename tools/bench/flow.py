#!/usr/bin/env python3
"""Measures `compaan deps` beside isl's dataflow analysis of the same nests.

usage: tools/bench/flow.py [--compaan PROGRAM] [--rounds R] [--limit SECONDS] [--only WORD]

For each nest of tools/bench/nests.py, with one value for every parameter: what the trees of `deps` have, and the least seconds of a
processor and memory of R whole processes, by `deps` and by tools/bench/flow.c, which gives isl the accesses and the order that
tools/outline.py makes of the source, asks it read by read, and prints its maps as `deps` prints its trees. Both read a text and write
one. `Times isl` is the ratio of these seconds. Where a run takes longer than the limit there is a `>` in place of its numbers. With
--only those nests alone whose kind or name has this word. It is no test, and no part of the gate.
"""
from __future__ import annotations

import os
import re
import subprocess
import sys
import tempfile
from pathlib import Path

sys.path.insert(0, str(Path(__file__).resolve().parents[1]))
from bench.deps import nodes_of
from bench.nests import Nest, nests
from check_isl import order_of, writes_of
from common import head, parser_of, program_of, row, stop
from hostile.asking import End, ask
from isl import LIBRARY
from maps import joined, spaces_of, where
from outline import Outline

HEAD = ["Kind", "Nest", "N", "Reads", "Nodes", "Largest", "Deep", "Bytes", "s", "MB", "isl: pieces", "s", "MB", "Times isl"]
# A nest whose first run takes longer is run once.
LONG = 2.0


def flow_program(folder: str) -> str:
    """The peer, compiled."""
    path = os.path.join(folder, "flow")
    source = Path(__file__).with_name("flow.c")
    words = [os.environ.get("CC", "cc"), "-O2", "-o", path, source, f"-l:{LIBRARY}"]
    done = subprocess.run(words, check=False, capture_output=True, text=True)
    return path if done.returncode == 0 else stop(f"{source} isn't compiled: {done.stderr}")


def questions(nest: Nest, items: list[str]) -> bytes:
    """What isl is asked: all writes, the order, and each read, a line each."""
    spaces = spaces_of(Outline(nest.source, dict.fromkeys((it.partition("=")[0] for it in items), nest.value)))
    lines = [writes_of(spaces), order_of(spaces)]
    for space in spaces:
        for access in space.statement.accesses:
            lines.append(joined([f"{space} -> {space.cell(access)}{where(space.constraints)}"]))
    return ("\n".join(lines) + "\n").encode()


def depth_of(text: bytes) -> int:
    """How many tests the deepest leaf of all trees stands under."""
    deepest, open_tests = 0, []
    for line in text.decode().splitlines():
        word = line.partition(" ")[0]
        if word in ("t", "d"):
            open_tests.append(2)
            deepest = max(deepest, len(open_tests))
        elif word in ("w", "z", "x"):
            while open_tests:
                open_tests[-1] -= 1
                if open_tests[-1]:
                    break
                open_tests.pop()
    return deepest


def pieces_in(maps: bytes) -> int:
    """How many pieces isl's maps and sets have."""
    return len(re.findall(rb"(?<!-> )S\d+\[", maps)) + maps.count(b" or ")


def measured(program: str, words: list[str], bundle: bytes, rounds: int, limit: float) -> tuple[End, float, float] | None:
    """How equal runs end, and the least seconds and megabytes that they take. None where the first takes too long."""
    first = ask(program, words, bundle, limit)
    if first.hung:
        return None
    ends = [first, *(ask(program, words, bundle, limit) for _ in range(rounds - 1 if first.cpu < LONG else 0))]
    return first, min(it.cpu for it in ends), min(it.kilobytes for it in ends) / 1000


def main() -> int:
    parser = parser_of(__doc__)
    parser.add_argument("--rounds", metavar="R", type=int, default=5, help="runs of each, the least of which counts (5)")
    parser.add_argument("--limit", metavar="SECONDS", type=float, default=300, help="how long a run may take (300)")
    parser.add_argument("--only", metavar="WORD", default="", help="the nests alone whose kind or name has it")
    given = parser.parse_args()
    program = program_of(given.compaan)
    slowest: list[tuple[float, str]] = []
    print(head(HEAD))
    with tempfile.TemporaryDirectory() as folder:
        peer = flow_program(folder)
        for nest in nests():
            if given.only not in f"{nest.kind} {nest.name}":
                continue
            items = [f"{name}={nest.value}" for name in Outline(nest.source).parameters]
            cells: list[object] = [nest.kind, nest.name, nest.value]
            own = measured(program, ["deps", *items], nest.source, given.rounds, given.limit)
            if own is None:
                cells += ["", "", "", "", "", f"> {given.limit:.0f}", ""]
            elif own[0].status:
                cells += [f"{own[0].status}, {own[0].complaint.decode().strip()}", "", "", "", "", f"{own[1]:.3f}", f"{own[2]:.1f}"]
            else:
                text = own[0].output
                nodes = nodes_of(text)
                told = f"{len(nodes)}" if all(nodes) else f"{len(nodes)}, {nodes.count(0)} without a tree"
                cells += [told, sum(nodes), max(nodes, default=0), depth_of(text), len(text), f"{own[1]:.3f}", f"{own[2]:.1f}"]
            other = measured(peer, [], questions(nest, items), given.rounds, given.limit)
            if other is None:
                cells += ["", f"> {given.limit:.0f}", ""]
            elif other[0].status:
                cells += [f"{other[0].status}", f"{other[1]:.3f}", f"{other[2]:.1f}"]
            else:
                cells += [pieces_in(other[0].output), f"{other[1]:.3f}", f"{other[2]:.1f}"]
            if own and other:
                times = own[1] / other[1]
                slowest.append((times, nest.name))
                cells.append(f"{times:.2f}")
            else:
                cells.append("")
            print(row(cells), flush=True)
    print()
    slower = [f"{name} ({times:.1f})" for times, name in sorted(slowest, reverse=True) if times > 1]
    print(f"{len(slower)} of {len(slowest)} take longer than isl{': ' if slower else ''}{', '.join(slower)}.")
    return 0


if __name__ == "__main__":
    sys.exit(main())
