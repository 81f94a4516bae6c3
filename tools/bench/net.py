#!/usr/bin/env python3
"""Times `compaan net` at growing sizes.

usage: tools/bench/net.py [--compaan PROGRAM]

Prints, for each kernel and size, the points of its trace, and the nanoseconds and bytes of memory for each of them. The time
and the memory of an empty program are taken off, and the least of five runs counts. Beside it stands what a sweep for last
writers takes in C: over an array of the last writers of a matrix product, one entry for each cell, and over a hash map. It is no test, and
no part of the gate.
"""
from __future__ import annotations

import sys
from pathlib import Path

sys.path.insert(0, str(Path(__file__).resolve().parents[1]))
from bench.kernels import COUNT, PRODUCT, STENCIL, SWEEP, Kernel, Refused, Sizes, hashed_sweep, items_of, printed, taken
from common import head, parser_of, program_of, row, stop

KERNELS: list[tuple[Kernel, list[Sizes]]] = [
    (PRODUCT, [{"N": n} for n in (20, 40, 60, 80, 100, 159)]),
    (STENCIL, [{"N": 1000, "T": t} for t in (65, 130, 260, 520)]),
    (COUNT, [{"N": n} for n in (131072, 262144, 524288, 1048576, 4194304)]),
]


def measure(program: str) -> None:
    base = taken(program, ["net"])
    print(head(["Kernel", "Points", "net, ns each", "bytes each"]))
    for kernel, sizes in KERNELS:
        for size in sizes:
            used = taken(program, ["net", *items_of(size)], kernel.source.encode()).less(base)
            points = kernel.points(**size)
            name = f"{kernel.name} {' '.join(items_of(size))}"
            print(row([name, points, f"{used.seconds * 1e9 / points:.0f}", f"{used.kilobytes * 1024 / points:.0f}"]), flush=True)
    array, hashed = printed(SWEEP), printed(hashed_sweep())
    print(f"\na sweep of the matrix product's trace in C: {array:.2f} ns a point over an array, {hashed:.2f} over a hash map")


def main() -> int:
    program = program_of(parser_of(__doc__).parse_args().compaan)
    try:
        measure(program)
    except Refused as error:
        stop(error)
    return 0


if __name__ == "__main__":
    sys.exit(main())
