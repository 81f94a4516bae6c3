#!/usr/bin/env python3
"""Simulates the designs that `compaan rtl` writes of the examples with GHDL, frame after frame, with stalls at all ports and without, and
compares each array with what `compaan seq` computes, and the clocks of one frame with those that `compaan sim` counts, or with
`--ports all` those that `compaan rtl --ports all --clocks` tells.

usage: tools/hardware/designs.py [--compaan PROGRAM] [--rtl PROGRAM] [--ghdl PROGRAM] [--policy seq|down] [--ports one|all]
                                 [--frames NUMBER] [--std 93|02|08] [EXAMPLE]..

Each design is simulated under --std=93, 02 and 08, for each policy: one frame, and then NUMBER of them (3) as hardware/frames gives
them. An EXAMPLE is a name in examples/, or the path of a source NAME.loop with its files NAME.items and NAME.data beside it; with none,
all of examples/ are taken. Prints a table with the size of the text beside that of `compaan vhdl`, and ends with 0 where all is as wanted,
1 where something isn't, and 2 where it can't begin, as without GHDL.
"""
from __future__ import annotations

import sys
from collections.abc import Sequence
from pathlib import Path

sys.path.insert(0, str(Path(__file__).resolve().parents[1]))
from common import POLICIES, Example, examples, head, program_of, row, rtl_program_of
from hardware import harness
from hardware.frames import Frames, frames_of, simulated
from hardware.harness import Outcome
from hardware.netlists import instructions_of, table_bits
from hardware.wiring import Unfit

HEAD = [
    "Example",
    "Parameters",
    "Policy",
    "Events",
    "Instructions",
    "Bits of tables, `vhdl`",
    "`rtl`",
    "Clocks of a frame",
    "Of {} with stalls",
    "Of {}",
    "Arrays",
]


def old_bits(program: str, policy: str, example: Example) -> object:
    """The bits of the tables that `compaan vhdl` writes, or where it refuses."""
    try:
        return table_bits(harness.text_of(program, "vhdl", policy, example))
    except Unfit:
        return "refused"


def outcome_of(ghdl: str, frames: Frames, standards: Sequence[str]) -> tuple[list[object], Outcome]:
    """The clocks of each run, and the outcome of all under each standard: the first that isn't well, or that isn't like the first."""
    clocks: list[object] = ["-"] * 3
    for standard in standards:
        found: list[object] = []
        for run, _, outcome in simulated(ghdl, frames, standard):
            if outcome.verdict != "equal":
                return clocks, outcome._replace(lines=[f"{run}, under --std={standard}", *outcome.lines])
            found.append(outcome.clocks)
        if standard != standards[0] and found != clocks:
            return clocks, Outcome("other clocks", None, [f"under --std={standard}: {found}"])
        clocks = found
    return clocks, Outcome("equal", None, [])


def main() -> int:
    harness.end_quietly()
    parser = harness.design_parser(__doc__)
    parser.add_argument("--policy", choices=POLICIES, help="the schedule that the capacities are for (both)")
    parser.add_argument("--frames", metavar="NUMBER", type=int, default=3, help="how many frames are simulated without a reset (3)")
    parser.add_argument("--std", choices=harness.STANDARDS, help="the standard of VHDL (all)")
    harness.ports_word(parser)
    parser.add_argument("names", metavar="EXAMPLE", nargs="*")
    given = parser.parse_args()
    ghdl, version = harness.find_ghdl(given.ghdl)
    program, rtl = program_of(given.compaan), rtl_program_of(given.rtl)
    standards = [given.std] if given.std else harness.STANDARDS

    print(head([it.format(f"{given.frames} frames") for it in HEAD]), flush=True)
    designs, notes = 0, []
    for example in examples(given.names):
        for policy in [given.policy] if given.policy else POLICIES:
            designs += 1
            sizes: list[object] = ["-"] * 4
            clocks: list[object] = ["-"] * 3
            try:
                frames = frames_of(program, rtl, policy, example, given.frames, given.ports)
                bits = old_bits(program, policy, example), table_bits(frames.design)
                sizes = [frames.events, sum(instructions_of(frames.design)), *bits]
                clocks, outcome = outcome_of(ghdl, frames, standards)
            except Unfit as error:
                outcome = Outcome("not made", None, [str(error)])
            print(row([f"`{example.name}`", " ".join(example.items), f"`{policy}`", *sizes, *clocks, outcome.verdict]), flush=True)
            if outcome.verdict != "equal":
                notes.append([f"{example.name}, {policy}: {outcome.verdict}", *outcome.lines])
    for title, *lines in notes:
        print("\n" + "\n  ".join([title, *lines[:10], *[".."] * (len(lines) > 10)]))
    equal = designs - len(notes)
    print(f"\n{designs} designs, each under --std={', '.join(standards)}, by {version}: {equal} equal, {len(notes)} not")
    return 1 if notes or not designs else 0


if __name__ == "__main__":
    sys.exit(main())
