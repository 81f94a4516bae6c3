#!/usr/bin/env python3
"""Shows by memory that `compaan check` sweeps for no last writers where each read has a tree.

usage: tools/bench/trees.py [--compaan PROGRAM]

A sweep keeps a cell's last writer in a row of its array, up to the greatest place that is written. So a program that writes one
cell far within a large array makes the sweep keep a long row, while its certificate is a few lines and nothing else in `check`
grows with the place. The certificate is written by `compaan cert`, with a tree and its proofs for each read; a second one has the line
`sweep` in place of one of these trees, and a third in place of both. The least time of five runs counts. It is no test, and no part of
the gate.
"""
from __future__ import annotations

import sys
from collections.abc import Collection
from pathlib import Path

sys.path.insert(0, str(Path(__file__).resolve().parents[1]))
from common import bundled, head, parser_of, program_of, row, stop
from hostile.asking import End, ask

SOURCE = b"param N; var a[N]; out y; a[N - 1] = 5; y = a[N - 1];\n"
CELLS = (1, 65536, 1048576, 4194304)
# The words that begin the lines of a tree; behind the sources come entries and repeats.
TREE_WORDS = ("tree", "t", "d", "w", "m", "z", "x", "s", "c", "b")
WITHOUT = {"both `sweep`": (0, 1), "a tree and `sweep`": (1,), "both trees": ()}


def with_sweeps(text: bytes, chosen: Collection[int]) -> bytes:
    """The certificate in which the reads of these numbers have `sweep` in place of their trees."""
    lines: list[str] = []
    read = -1
    for line in text.decode().splitlines():
        read += line == "tree"
        in_tree = read >= 0 and line.split()[0] in TREE_WORDS
        if not (in_tree and read in chosen):
            lines.append(line)
        elif line == "tree":
            lines.append("sweep")
    return ("\n".join(lines) + "\n").encode()


def measured(program: str, words: list[str], bundle: bytes) -> tuple[End, float, float]:
    """How five equal runs end, and the least megabytes and seconds that they take."""
    ends = [ask(program, words, bundle) for _ in range(5)]
    if any((it.status, it.output) != (ends[0].status, ends[0].output) for it in ends):
        stop(f"two runs of {words} differ")
    return ends[0], min(it.kilobytes for it in ends) / 1000, min(it.cpu for it in ends)


def main() -> int:
    program = program_of(parser_of(__doc__).parse_args().compaan)
    print(head(["Cells of the array", "Sources", "Verdict", "Memory", "Time"]))
    for cells in CELLS:
        items = [f"N={cells}"]
        text = ask(program, ["cert", *items], SOURCE).output
        for name, chosen in WITHOUT.items():
            end, megabytes, seconds = measured(program, ["check", *items], bundled(SOURCE, b"\n", with_sweeps(text, chosen)))
            if end.output != b"accepted\n":
                stop(f"the certificate with {name} ended with status {end.status}")
            print(row([cells, name, end.output.decode().strip(), f"{megabytes:.1f} MB", f"{seconds:.2f} s"]), flush=True)
    return 0


if __name__ == "__main__":
    sys.exit(main())
