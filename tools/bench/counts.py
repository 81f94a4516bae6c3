#!/usr/bin/env python3
"""Counts the instructions of commands, by valgrind, of one program or of several in one run.

usage: tools/bench/counts.py [--compaan PROGRAM].. [--only WORD]

Each row tells the million instructions of a whole run by each program, those of the last one under `Millions`, and those for each point
of the trace by the last one. Then it tells how many times those of the peer they are: `net` of the same program for `cert`, `check`,
`run`, `sim` and `trim`, and for `load` the pipeline of threads in C (pipeline.c), which is counted in the same run. Instructions repeat
on a machine at work, where times don't; only where threads wait for one another do they differ a little. With --only those rows alone
whose kernel or command has this word, and the `net` that they stand beside. It wants valgrind. It is no test, and no part of the gate.
"""
from __future__ import annotations

import re
import subprocess
import sys
import tempfile
from collections.abc import Sequence
from pathlib import Path

sys.path.insert(0, str(Path(__file__).resolve().parents[1]))
from bench.kernels import COPY, PRODUCT, STENCIL, Kernel, Sizes, data_of, items_of
from common import bundled, head, plain_parser_of, program_of, row, run, stop

STAGES = 60
PIPELINE = Path(__file__).with_name("pipeline.c")


def stages() -> Kernel:
    """A pipeline of stages, each of which adds two neighbours of what the stage before it has."""
    names = ["x", *(f"s{it}" for it in range(1, STAGES)), "y"]
    loops = "".join(f"for (i = 0; i < N; i++) {made}[i] = {given}[i] + {given}[i - 1]; " for given, made in zip(names, names[1:]))
    declared = f"param N; in x[N]; out y[N]; var {', '.join(f'{it}[N]' for it in names[1:-1])}; "
    return Kernel(f"pipeline of {STAGES} stages", declared + loops, lambda N: (STAGES + 2) * N)


# A kernel, its size and the commands that are counted.
ROWS: list[tuple[Kernel, Sizes, list[str]]] = [
    (PRODUCT, {"N": 40}, ["seq", "net", "cert", "check", "run", "sim", "trim"]),
    (stages(), {"N": 300}, ["net", "cert", "check", "trim"]),
    (STENCIL, {"N": 1000, "T": 10}, ["seq", "net", "cert", "check", "sim"]),
    (COPY, {"N": 23000}, ["seq", "net", "cert", "check", "sim"]),
]
LOADS = (40, 100)


def counted(words: Sequence[str | Path], given: bytes = b"") -> int:
    """The instructions of a run, all its threads and what it takes from the C library with them."""
    valgrind = ["valgrind", "--tool=callgrind", "--callgrind-out-file=/dev/null"]
    done = subprocess.run([*valgrind, *map(str, words)], input=given, capture_output=True, check=False)
    found = re.search(rb"(?m)^==\d+== Collected : (\d+)", done.stderr)
    if done.returncode or found is None:
        stop(f"valgrind {' '.join(map(str, words))} ended with status {done.returncode}: {done.stderr.decode(errors='replace')[-400:]}")
    return int(found[1])


def tell(title: str, command: str, points: int, counts: Sequence[int], peer: str, times: float) -> None:
    millions = [f"{it / 1e6:.1f}" for it in counts]
    ratio = f"{times:.2f}" if times else ""
    print(row([title, command, points, *millions, f"{counts[-1] / points:.0f}", peer, ratio]), flush=True)


def tell_kernel(programs: Sequence[str], kernel: Kernel, sizes: Sizes, commands: Sequence[str]) -> None:
    """The rows of a kernel. The certificate that is checked is the program's own."""
    items, source = items_of(sizes), kernel.source.encode()
    bundle = bundled(source, data_of(kernel.source, sizes))
    title, points, net = f"{kernel.name} {' '.join(items)}", kernel.points(**sizes), 0
    for command in commands:
        counts = []
        for program in programs:
            given = bundled(source, b"\n", run(program, ["cert", *items], bundle).output) if command == "check" else bundle
            counts.append(counted([program, command, *items], given))
        if command == "net":
            net = counts[-1]
        has_peer = net > 0 and command not in ("seq", "net")
        tell(title, command, points, counts, "`net`" if has_peer else "", counts[-1] / net if has_peer else 0)


def tell_loads(programs: Sequence[str], loads: Sequence[int]) -> None:
    """The rows of `load`, each beside the pipeline of the same size."""
    with tempfile.TemporaryDirectory() as folder:
        peer = Path(folder) / "pipeline"
        subprocess.run(["cc", "-O2", "-pthread", "-o", peer, PIPELINE], check=True)
        for size in loads:
            theirs = counted([peer, str(size), "1000"])
            counts = [counted([program, "load", str(size)]) for program in programs]
            tell(f"load {size}", "load", PRODUCT.points(size), counts, "pipeline in C", counts[-1] / theirs)


def main() -> int:
    parser = plain_parser_of(__doc__)
    parser.add_argument("--compaan", metavar="PROGRAM", action="append", help="a program; several are counted side by side")
    parser.add_argument("--only", metavar="WORD", default="", help="only rows whose kernel or command has this word")
    given = parser.parse_args()
    programs = [program_of(it) for it in given.compaan or [None]]
    for number, path in enumerate(programs, 1):
        print(f"program {number}: {path}")
    titles = [*(f"Millions ({it})" for it in range(1, len(programs))), "Millions"]
    print(head(["Kernel", "Command", "Points", *titles, "A point", "Peer", "Times the peer"]))
    for kernel, sizes, commands in ROWS:
        wanted = {it for it in commands if given.only in kernel.name or given.only in (it, "")}
        if wanted - {"seq"}:
            wanted.add("net")
        tell_kernel(programs, kernel, sizes, [it for it in commands if it in wanted])
    tell_loads(programs, [it for it in LOADS if given.only in f"load {it}"])
    return 0


if __name__ == "__main__":
    sys.exit(main())
