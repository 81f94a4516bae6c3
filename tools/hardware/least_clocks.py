#!/usr/bin/env python3
"""Lowers the capacities of networks by runs of them, and tells what the channels then have all together, beside what the policies give them.

usage: tools/hardware/least_clocks.py [--compaan PROGRAM] [--rtl PROGRAM] [--quick] [KERNEL]..

KERNEL is a name in examples/ or hardware/kernels/ of which the script knows a size; all where none is named. The capacities are those of
the network by `down`, lowered as hardware/least_clocks does it: first with the clocks of `down` as the most, and then from room for
all tokens on with the fewest clocks that the scripts allow. Beside them stand the capacities and the clocks of `least`. Prints a table in
places, and ends with 1 where the runs here don't take the clocks that `compaan rtl --clocks` tells of `down` and of `least`, or where a
capacity turns out not to be the least, and with 2 where it can't begin. With --quick the sizes are small. Nothing of it is proved.
"""
from __future__ import annotations

import sys
from collections.abc import Sequence
from pathlib import Path

sys.path.insert(0, str(Path(__file__).resolve().parents[1]))
from common import EXAMPLES, TOP, Example, head, parser_of, program_of, row, rtl_program_of, stop
from hardware import harness
from hardware.least import Planned, clocks_with, first_not_least, least_within, planned
from hardware.wiring import Unfit

KERNELS = TOP / "hardware" / "kernels"
HEAD = ["Kernel", "Parameters", "`down`", "Lowered", "Clocks of both", "`least`", "Clocks", "Fewest clocks", "Places for them"]
# The kernels, each with a small size and the one of the table.
SIZES = {
    "matrix_product": ("N=4", "N=32"),
    "fir": ("N=16 T=3", "N=1024 T=8"),
    "convolution": ("H=6 W=8", "H=32 W=32"),
    "sobel": ("H=6 W=8", "H=32 W=32"),
    "dct": ("B=1", "B=2"),
    "block_match": ("B=2 S=1", "B=4 S=2"),
    "fdtd_2d": ("NX=3 NY=4 T=2", "NX=8 NY=8 T=4"),
}


def kernel_of(name: str) -> Example:
    if name not in SIZES:
        stop(f"no size of {name} is known")
    return Example(next(it for it in (EXAMPLES / f"{name}.loop", KERNELS / f"{name}.loop") if it.is_file()))


def within(network: Planned, capacities: Sequence[int]) -> tuple[int, list[int], int | None]:
    """The clocks that the network takes with these capacities, the least ones with which it takes no more, and the first that isn't."""
    clocks = clocks_with(network.processes, capacities)
    if clocks is None:
        raise Unfit("the network sticks")
    found = least_within(network.processes, capacities, clocks)
    return clocks, found, first_not_least(network.processes, found, clocks)


def row_of(program: str, rtl: str, kernel: Example, items: Sequence[str]) -> tuple[list[object], list[str]]:
    """The row of a kernel, and what isn't as wanted."""
    network = planned(program, ["--policy", "down", *items], kernel.source)
    clocks, lowered, higher = within(network, network.capacities)
    fewest, places, more = within(network, network.room_for_all)
    least = clocks_with(network.processes, network.trimmed)
    told = harness.written(rtl, ["--policy", "least", "--clocks", *items], kernel.source).splitlines()
    wrong = []
    if told != [f"clocks {least}", f"down {clocks}"]:
        wrong.append(f"the runs take {least} and {clocks} clocks here, and compaan rtl --clocks tells {', '.join(told)}")
    wrong += [f"channel {it} can have a place less" for it in (higher, more) if it is not None]
    cells = [sum(network.capacities), sum(lowered), clocks, sum(network.trimmed), least, fewest, sum(places)]
    return [f"`{kernel.name}`", " ".join(items), *cells], wrong


def main() -> int:
    harness.end_quietly()
    parser = parser_of(__doc__)
    parser.add_argument("--rtl", metavar="PROGRAM", help=harness.RTL_HELP)
    parser.add_argument("--quick", action="store_true", help="at small sizes")
    parser.add_argument("names", metavar="KERNEL", nargs="*")
    given = parser.parse_args()
    kernels = [kernel_of(name) for name in given.names or SIZES]
    program, rtl = program_of(given.compaan), rtl_program_of(given.rtl)
    print(head(HEAD), flush=True)
    notes = []
    for kernel in kernels:
        small, large = SIZES[kernel.name]
        items = (small if given.quick else large).split()
        try:
            cells, wrong = row_of(program, rtl, kernel, items)
        except Unfit as error:
            cells, wrong = [f"`{kernel.name}`", " ".join(items), *["-"] * 7], [str(error)]
        print(row(cells), flush=True)
        notes += [f"{kernel.name}: {it}" for it in wrong]
    print("\n" + "".join(f"{it}\n" for it in notes) + f"{len(kernels)} networks: {len(notes)} things not as wanted")
    return 1 if notes else 0


if __name__ == "__main__":
    sys.exit(main())
