#!/usr/bin/env python3
"""Times `compaan seq` against the same loops in C, which this script makes from the source.

usage: tools/bench/seq.py [--compaan PROGRAM]

Prints, for each kernel, its executed assignments, the nanoseconds for each by `seq` and by C, and the bytes of memory for
each cell that is written. The time of an empty program is taken off, and the least of five runs counts. It is no test, and no part of the
gate.
"""
from __future__ import annotations

import sys
from pathlib import Path

sys.path.insert(0, str(Path(__file__).resolve().parents[1]))
from bench.kernels import COUNTER, FAR, PRODUCT, STENCIL, Refused, Sizes, data_of, example, items_of, nanoseconds_in_c, taken
from common import bundled, head, parser_of, program_of, row, stop

# A kernel with its source, its sizes, its executed assignments, and its written cells.
KERNELS: list[tuple[str, str, Sizes, int, int]] = [
    (PRODUCT.name, PRODUCT.source, {"N": 100}, 100**3 + 100**2, 100**2 * 3),
    (STENCIL.name, STENCIL.source, {"N": 1000, "T": 520}, 2 * 520 * 998, 2 * 1000),
    ("counter", COUNTER, {"N": 1048576}, 1048576, 1),
    ("transpose", example("transpose"), {"M": 500, "N": 500}, 500 * 500, 2 * 500 * 500),
    ("cells outside the extents", FAR, {"N": 200000}, 200000, 200000),
]


def measure(program: str) -> None:
    base = taken(program, ["seq"])
    print(head(["Kernel", "Assignments", "seq, ns each", "C, ns each", "seq / C", "bytes a cell"]))
    for name, source, sizes, executed, cells in KERNELS:
        used = taken(program, ["seq", *items_of(sizes)], bundled(source.encode(), data_of(source, sizes))).less(base)
        ours = used.seconds * 1e9 / executed
        theirs = nanoseconds_in_c(source, sizes) / executed if source != FAR else 0
        # a loop that the C compiler does away with has no ratio
        ratio = f"{ours / theirs:.0f}" if theirs >= 0.05 else "-"
        each = f"{used.kilobytes * 1024 / cells:.0f}" if cells >= 1000 else "-"
        print(row([f"{name} {' '.join(items_of(sizes))}", executed, f"{ours:.0f}", f"{theirs:.2f}", ratio, each]), flush=True)


def main() -> int:
    program = program_of(parser_of(__doc__).parse_args().compaan)
    try:
        measure(program)
    except Refused as error:
        stop(error)
    return 0


if __name__ == "__main__":
    sys.exit(main())
