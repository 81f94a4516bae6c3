#!/usr/bin/env python3
"""Simulates designs of kernels at sizes that matter with GHDL: a filter of 4,096 samples, a convolution and the Sobel filter of an image of
320 by 240, and a product of matrices of 32 by 32.

usage: tools/hardware/large.py [--compaan PROGRAM] [--rtl PROGRAM] [--ghdl PROGRAM] [--policy seq|down] [--ports one|all]
                               [--frames NUMBER] [--std 93|02|08] [--netlist [--yosys PROGRAM]] [--quick] [KERNEL]..
                               (KERNEL: fir, convolution, sobel, matrix_product)

Each design is run as hardware/frames does: one frame, then NUMBER of them (2) with stalls at all ports, and then without. The arrays must
be those of `compaan seq`, and the clocks of one frame those of `compaan sim`, or of `compaan rtl --ports all --clocks`. The data is made
here, always the same. With --netlist GHDL synthesizes the design, and the netlist is run as a program that yosys writes in C++, which is
many times as fast. With --quick the sizes are small. Prints a table, which takes an hour or more without --netlist, and ends with 0 where
all is as wanted, 1 where something isn't, and 2 where it can't begin, as without GHDL.
"""
from __future__ import annotations

import argparse
import random
import re
import sys
import time
from collections.abc import Iterator
from dataclasses import dataclass
from pathlib import Path

sys.path.insert(0, str(Path(__file__).resolve().parents[1]))
from common import EXAMPLES, POLICIES, TOP, Example, head, program_of, row, rtl_program_of, stop
from hardware import compiled, harness, netlists
from hardware.frames import Frames, Run, frames_of, simulated
from hardware.harness import Outcome
from hardware.netlists import instructions_of, table_bits
from hardware.wiring import Unfit

KERNELS = TOP / "hardware" / "kernels"
SIZES = ["`vhdl`", "Events", "Instructions", "Bits of tables"]
HEAD = ["Kernel", "Parameters", "Policy", *SIZES, "By `sim`", "Run is", "A frame", "{} with stalls", "{}", "Arrays", "s"]


@dataclass(frozen=True)
class Large(Example):
    """A kernel at a size, with how many values each of its arrays has."""

    values: tuple[tuple[str, int], ...] = ()
    cells: tuple[tuple[str, int], ...] = ()

    @property
    def items(self) -> list[str]:
        return [f"{name}={value}" for name, value in self.values]

    @property
    def data(self) -> bytes:
        """Values of a byte, always the same."""
        chance = random.Random(self.name)
        return b"".join(f"{name},{','.join(str(chance.randint(-99, 255)) for _ in range(count))}\n".encode() for name, count in self.cells)


def large(quick: bool) -> list[Large]:
    samples, height, width, size = (256, 12, 16, 6) if quick else (4096, 240, 320, 32)
    image = ("H", height), ("W", width)
    return [
        Large(EXAMPLES / "fir.loop", (("N", samples), ("T", 8)), (("x", samples), ("h", 8))),
        Large(KERNELS / "convolution.loop", image, (("image", height * width), ("kernel", 9))),
        Large(EXAMPLES / "sobel.loop", image, (("image", height * width),)),
        Large(KERNELS / "matrix_product.loop", (("N", size),), (("a", size * size), ("b", size * size))),
    ]


def refusal(program: str, policy: str, kernel: Example) -> str:
    """What `compaan vhdl` says of a kernel: its refusal, or nothing."""
    try:
        harness.text_of(program, "vhdl", policy, kernel)
    except Unfit as error:
        told = re.search(r": ([^:]*: .*)$", str(error))
        return f"`{told[1] if told else error}`"
    return "is written"


def runs(words: argparse.Namespace, ghdl: str, frames: Frames) -> Iterator[tuple[Run, Outcome]]:
    """Each run with its outcome: of the text, or of its netlist."""
    if words.netlist:
        yield from compiled.simulated(ghdl, netlists.find_yosys(words.yosys) or stop(f"there is no {words.yosys}"), frames)
    else:
        for run, _, outcome in simulated(ghdl, frames, words.std):
            yield run, outcome


def row_of(words: argparse.Namespace, ghdl: str, program: str, rtl: str, kernel: Large) -> tuple[list[object], Outcome]:
    """The row of a kernel, and its outcome: that of the first run that isn't well."""
    policy = words.policy
    begun = time.monotonic()
    cells: list[object] = [f"`{kernel.name}`", " ".join(kernel.items), f"`{policy}`", refusal(program, policy, kernel)]
    sizes: list[object] = ["-"] * 4
    clocks: list[object] = []
    worst = Outcome("equal", None, [])
    try:
        frames = frames_of(program, rtl, policy, kernel, words.frames, words.ports)
        sizes = [frames.events, sum(instructions_of(frames.design)), table_bits(frames.design), frames.told]
        for run, outcome in runs(words, ghdl, frames):
            clocks.append("-" if outcome.clocks is None else outcome.clocks)
            print(f"{kernel.name}, {run}: {outcome.verdict}, after {time.monotonic() - begun:.0f} s", file=sys.stderr, flush=True)
            if outcome.verdict != "equal" and worst.verdict == "equal":
                worst = outcome._replace(lines=[str(run), *outcome.lines])
    except Unfit as error:
        worst = Outcome("not made", None, [str(error)])
    clocks += ["-"] * (3 - len(clocks))
    of = "netlist" if words.netlist else f"text, {words.std}"
    return [*cells, *sizes, of, *clocks, worst.verdict, f"{time.monotonic() - begun:.0f}"], worst


def main() -> int:
    harness.end_quietly()
    parser = harness.design_parser(__doc__)
    parser.add_argument("--policy", choices=POLICIES, default="down", help="the schedule that the capacities are for (down)")
    parser.add_argument("--frames", metavar="NUMBER", type=int, default=2, help="how many frames are simulated without a reset (2)")
    parser.add_argument("--std", choices=harness.STANDARDS, default="93", help="the standard of VHDL (93)")
    parser.add_argument("--netlist", action="store_true", help="runs what GHDL synthesizes, which yosys writes in C++")
    parser.add_argument("--yosys", metavar="PROGRAM", default="yosys", help="what reads the netlist (yosys)")
    parser.add_argument("--quick", action="store_true", help="at small sizes")
    harness.ports_word(parser)
    parser.add_argument("names", metavar="KERNEL", nargs="*")
    given = parser.parse_args()
    ghdl, version = harness.find_ghdl(given.ghdl)
    program, rtl = program_of(given.compaan), rtl_program_of(given.rtl)
    print(head([it.format(f"{given.frames} frames") for it in HEAD]), flush=True)
    count, notes = 0, []
    for kernel in large(given.quick):
        if given.names and kernel.name not in given.names:
            continue
        count += 1
        cells, outcome = row_of(given, ghdl, program, rtl, kernel)
        print(row(cells), flush=True)
        if outcome.verdict != "equal":
            notes.append([f"{kernel.name}: {outcome.verdict}", *outcome.lines])
    for title, *lines in notes:
        print("\n" + "\n  ".join([title, *lines[:10]]))
    print(f"\n{count} kernels by `{given.policy}`, under --std={given.std}, by {version}: {count - len(notes)} equal, {len(notes)} not")
    return 1 if notes or not count else 0


if __name__ == "__main__":
    sys.exit(main())
