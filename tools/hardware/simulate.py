#!/usr/bin/env python3
"""Simulates the networks of the examples with GHDL, and compares the arrays that come out with those that are wanted, and the
clocks with those that `compaan sim` counts.

usage: tools/hardware/simulate.py [--compaan PROGRAM] [--ghdl PROGRAM] [--policy seq|down] [--keep FOLDER] [EXAMPLE]..

Each network is analysed and simulated under --std=93, 02 and 08, for each policy. An EXAMPLE is a name in examples/, or the
path of a source NAME.loop with its files NAME.answer and, where it needs them, NAME.items and NAME.data beside it; with none,
all of examples/ are taken. Prints a table, and ends with 0 where all arrays and clocks are as wanted, 1 where something isn't, and 2
where it can't begin, as without GHDL.
"""
from __future__ import annotations

import sys
from collections.abc import Mapping
from pathlib import Path

sys.path.insert(0, str(Path(__file__).resolve().parents[1]))
from common import POLICIES, examples, head, program_of, row
from hardware import harness
from hardware.harness import Outcome
from hardware.wiring import Unfit, write_file

HEAD = ["Example", "Parameters", "Policy", "Processes", "Channels", "Events", "Clocks", "Arrays"]


def simulate_under_all(ghdl: str, files: Mapping[str, str]) -> Outcome:
    """The outcome under each standard, as one: the first that isn't well, or that isn't like the first."""
    outcomes = [harness.simulate(ghdl, files, standard) for standard in harness.STANDARDS]
    for standard, outcome in zip(harness.STANDARDS, outcomes):
        if outcome.verdict != "equal" or outcome != outcomes[0]:
            verdict = "other clocks" if outcome.verdict == "equal" else outcome.verdict
            return Outcome(verdict, outcome.clocks, [f"under --std={standard}, clocks {outcome.clocks}", *outcome.lines])
    return outcomes[0]


def compare_clocks(outcome: Outcome, counted: int) -> Outcome:
    """The outcome, where its clocks are those that the program counts."""
    if outcome.verdict != "equal" or outcome.clocks == counted:
        return outcome
    return Outcome("not sim's clocks", outcome.clocks, [f"compaan sim counts {counted} clocks"])


def keep(folder: Path, files: Mapping[str, str]) -> None:
    folder.mkdir(parents=True, exist_ok=True)
    for name, text in files.items():
        write_file(folder, name, text)


def main() -> int:
    harness.end_quietly()
    parser = harness.hardware_parser(__doc__)
    parser.add_argument("--policy", choices=POLICIES, help="the schedule that the capacities are for (both)")
    parser.add_argument("--keep", metavar="FOLDER", type=Path, help="leaves the VHDL files there, in a folder for each network")
    parser.add_argument("names", metavar="EXAMPLE", nargs="*")
    given = parser.parse_args()
    ghdl, version = harness.find_ghdl(given.ghdl)
    program = program_of(given.compaan)

    print(head(HEAD), flush=True)
    networks, notes = 0, []
    for example in examples(given.names):
        for policy in [given.policy] if given.policy else POLICIES:
            networks += 1
            sizes: list[object] = ["-"] * 3
            try:
                design = harness.design_of(program, policy, example)
                if given.keep:
                    keep(given.keep / f"{example.name}-{policy}", design.files)
                sizes = [len(design.network.processes), len(design.network.channels), design.network.events]
                outcome = compare_clocks(simulate_under_all(ghdl, design.files), harness.clocks_of(program, policy, example))
            except Unfit as error:
                outcome = Outcome("not made", None, [str(error)])
            clocks = "-" if outcome.clocks is None else outcome.clocks
            print(row([example.name, " ".join(example.items), policy, *sizes, clocks, outcome.verdict]), flush=True)
            if outcome.verdict != "equal":
                notes.append([f"{example.name}, {policy}: {outcome.verdict}", *outcome.lines])
    for title, *lines in notes:
        print("\n" + "\n  ".join([title, *lines[:10], *[".."] * (len(lines) > 10)]))
    equal = networks - len(notes)
    print(f"\n{networks} networks, each under --std={', '.join(harness.STANDARDS)}, by {version}: {equal} equal, {len(notes)} not")
    return 1 if notes or not networks else 0


if __name__ == "__main__":
    sys.exit(main())
