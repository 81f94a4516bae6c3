#!/usr/bin/env python3
"""Measures every command against size and, where there is one, against a peer, in one run, as one table.

usage: tools/bench/all.py [--rounds R] [--compaan PROGRAM]..

With several programs each row is measured with each in turn, so that two states of the repository stand in one run. Each row
tells nanoseconds and bytes for each point of the trace (for each leaf of nothing where there is none), and the ratio to the
peer: `seq` to the same loops in C, `net` to a sweep for last writers in C over an array, `load` to a pipeline of threads over
bounded channels that was written by hand (pipeline.c), and `cert`, `check` and `run` to `net` of the same program. The least
time of the rounds counts, and the time and memory of an empty source are taken off. MB are of 1,024 KB. It is no test, and no
part of the gate.
"""
from __future__ import annotations

import os
import platform
import subprocess
import sys
import tempfile
import time
from pathlib import Path

sys.path.insert(0, str(Path(__file__).resolve().parents[1]))
from bench.kernels import (
    COPY,
    COUNT,
    PRODUCT,
    STENCIL,
    SWEEP,
    Kernel,
    Refused,
    Sizes,
    Taken,
    data_of,
    items_of,
    nanoseconds_in_c,
    printed,
    taken,
)
from common import bundled, head, plain_parser_of, program_of, row, run, stop

KERNELS: list[tuple[Kernel, list[Sizes]]] = [
    (PRODUCT, [{"N": n} for n in (40, 100, 159)]),
    (STENCIL, [{"N": 1000, "T": t} for t in (130, 520)]),
    (COPY, [{"N": n} for n in (10000, 100000, 1000000)]),
    (COUNT, [{"N": n} for n in (1048576, 4194304)]),
]
LOADS = (40, 100)
BUNDLE_LIMIT = 67_108_864
# A run whose trace has more points isn't measured.
MOST_POINTS_OF_RUN = 1_200_000
PIPELINE = Path(__file__).with_name("pipeline.c")
# What nanoseconds are compared with: its name, and its own.
Peer = tuple[str, float]


def tell(name: str, command: str, points: int, used: Taken, base: Taken, peer: Peer) -> float:
    """Prints a row, and gives its nanoseconds a point."""
    own = used.less(base)
    each = own.seconds * 1e9 / points
    ratio = f"{each / peer[1]:.1f}" if peer[1] > 0.05 else "-"
    cells = [f"{used.seconds:.3f}", f"{each:.0f}", f"{used.kilobytes / 1024:.0f}", f"{own.kilobytes * 1024 / points:.0f}"]
    print(row([name, command, points, *cells, peer[0], ratio]), flush=True)
    return each


class Program:
    """A program with what it takes for nothing."""

    def __init__(self, path: str, mark: str, rounds: int) -> None:
        self.path, self.mark, self.rounds = path, mark, rounds
        self.bases = {it: taken(path, [it], b"\n%%\n", rounds) for it in ("seq", "net", "cert", "run")}

    def measure(self, kernel: Kernel, sizes: Sizes, in_c: float, sweep: float) -> None:
        """The rows of a kernel at some sizes."""
        title, items, points = f"{kernel.name} {' '.join(items_of(sizes))}{self.mark}", items_of(sizes), kernel.points(**sizes)
        source = kernel.source.encode()
        bundle = bundled(source, data_of(kernel.source, sizes))
        tell(title, "seq", points, taken(self.path, ["seq", *items], bundle, self.rounds), self.bases["seq"], ("C", in_c))
        net = tell(title, "net", points, taken(self.path, ["net", *items], bundle, self.rounds), self.bases["net"], ("sweep in C", sweep))
        tell(title, "cert", points, taken(self.path, ["cert", *items], bundle, self.rounds), self.bases["cert"], ("net", net))
        checked = bundled(source, b"\n", run(self.path, ["cert", *items], bundle).output)
        if len(checked) <= BUNDLE_LIMIT:
            tell(title, "check", points, taken(self.path, ["check", *items], checked, self.rounds), self.bases["cert"], ("net", net))
        if points <= MOST_POINTS_OF_RUN:
            tell(title, "run", points, taken(self.path, ["run", *items], bundle, 1), self.bases["run"], ("net", net))

    def load(self, size: int, points: int, peer: float, wanted: list[str]) -> None:
        """The row of a product of matrices, which must come to what the pipeline comes to."""
        used = taken(self.path, ["load", str(size)], b"", 1)
        answer = run(self.path, ["load", str(size)]).output.decode().split()
        if answer[4:] != wanted:
            raise Refused(f"load {size} and the pipeline differ: {' '.join(answer)}, {' '.join(wanted)}")
        tell(f"load {size}{self.mark}", "load", points, used, self.bases["run"], ("pipeline in C", peer))


def measure(programs: list[Program]) -> None:
    sweep = printed(SWEEP)
    for kernel, sizes in KERNELS:
        for size in sizes:
            in_c = nanoseconds_in_c(kernel.source, size) / kernel.points(**size)
            for program in programs:
                program.measure(kernel, size, in_c, sweep)
    with tempfile.TemporaryDirectory() as folder:
        pipeline = Path(folder) / "pipeline"
        subprocess.run(["cc", "-O2", "-pthread", "-o", pipeline, PIPELINE], check=True)
        for size in LOADS:
            points = PRODUCT.points(size)
            start = time.perf_counter()
            theirs = subprocess.run([pipeline, str(size), "1000"], check=True, capture_output=True, text=True).stdout.split()
            peer = (time.perf_counter() - start) * 1e9 / points
            for program in programs:
                program.load(size, points, peer, theirs)


def main() -> int:
    parser = plain_parser_of(__doc__)
    parser.add_argument("--rounds", type=int, default=3, help="how often each is run (3)")
    parser.add_argument("--compaan", metavar="PROGRAM", action="append", help="a program; several are measured side by side")
    given = parser.parse_args()
    paths = [program_of(it) for it in given.compaan or [None]]
    for number, path in enumerate(paths, 1):
        print(f"program {number}: {path}")
    print(f"machine: {platform.processor() or platform.machine()}, {os.cpu_count()} processors, load {os.getloadavg()[0]:.1f}\n")
    try:
        programs = [Program(path, f" ({number})" if len(paths) > 1 else "", given.rounds) for number, path in enumerate(paths, 1)]
        print(head(["Kernel", "Command", "Points", "Seconds", "ns a point", "MB", "Bytes a point", "Peer", "Times the peer"]))
        measure(programs)
    except Refused as error:
        stop(error)
    return 0


if __name__ == "__main__":
    sys.exit(main())
