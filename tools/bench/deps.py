#!/usr/bin/env python3
"""Measures how long `compaan deps` takes over the examples.

usage: tools/bench/deps.py [--compaan PROGRAM]

An example all of whose reads have trees is run with 1,000,000,000 for every parameter, and another with its own parameters, at which
its points are few. Behind them come small programs with one stride each. For each there is a line with the reads that have trees and
those that have points, the tests of divisibility, the nodes of all trees and of the largest, and the least processor seconds and memory
of five runs. It is no test, and no part of the gate.
"""
from __future__ import annotations

import sys
from collections.abc import Iterator
from pathlib import Path

sys.path.insert(0, str(Path(__file__).resolve().parents[1]))
from common import examples, head, parser_of, program_of, row, stop
from examples.sources import LARGE, at_large
from hostile.asking import ask

# Writes to every second cell, in two ways.
SMALL = {
    "a[2 * i]": b"param N; in x[N]; out y[N]; var a[N]; for (i = 0; i < N; i++) a[2 * i] = x[i]; for (i = 0; i < N; i++) y[i] = a[i];",
    "i += 2": b"param N; in x[N]; out y[N]; for (i = 0; i < N; i += 2) y[i] = x[i];",
}
HEAD = ["Example", "Parameters", "Trees", "Points", "Divisions", "Nodes", "Largest", "Bytes", "Seconds", "MB"]


def nodes_of(text: bytes) -> list[int]:
    """The nodes of each read's tree, with 0 for a read that has points."""
    found: list[int] = []
    for line in text.decode().splitlines():
        if line.startswith("read "):
            found.append(0)
        elif line.partition(" ")[0] in ("t", "d", "w", "z", "x"):
            found[-1] += 1
    return found


def measured() -> Iterator[tuple[str, bytes, list[str]]]:
    """Names, sources and their own parameters."""
    for it in examples():
        yield it.name, it.source, it.items
    for name, source in SMALL.items():
        yield f"`{name}`", source, ["N=8"]


def main() -> int:
    program = program_of(parser_of(__doc__).parse_args().compaan)
    print(head(HEAD))
    for name, source, own in measured():
        large = at_large(own)
        is_large = ask(program, ["deps", *large], source).status == 0
        ends = [ask(program, ["deps", *(large if is_large else own)], source) for _ in range(5)]
        if any((it.status, it.output) != (0, ends[0].output) for it in ends):
            stop(f"two runs of {name} differ, or one was refused")
        nodes, text = nodes_of(ends[0].output), ends[0].output
        trees = [it for it in nodes if it]
        cells = [len(trees), nodes.count(0), text.count(b"\nd "), sum(nodes), max(nodes, default=0), len(text)]
        used = [f"{min(it.cpu for it in ends):.3f}", f"{min(it.kilobytes for it in ends) / 1000:.1f}"]
        print(row([name, f"all {LARGE}" if is_large else " ".join(own), *cells, *used]), flush=True)
    return 0


if __name__ == "__main__":
    sys.exit(main())
