#!/usr/bin/env python3
"""Tells of networks how many clocks they take with one port of a process after the other, and where each goes at its own pace.

usage: tools/hardware/port_clocks.py [--compaan PROGRAM] [--rtl PROGRAM] [--quick] [KERNEL]..

KERNEL is a name in examples/ or hardware/kernels/ of which the script knows a size; all where none is named. Prints a table of the clocks
that `compaan rtl --clocks` tells with `--ports one` and with `--ports all`, by each policy, beside the greatest number of fires of a
process, than which no network takes fewer clocks. Ends with 1 where a run here of the scripts that `compaan cert` writes doesn't take the
clocks that are told with `--ports all`, and with 2 where it can't begin. With --quick the sizes are small. Nothing of it is proved.
"""
from __future__ import annotations

import re
import sys
from collections.abc import Iterable, Sequence
from pathlib import Path

sys.path.insert(0, str(Path(__file__).resolve().parents[1]))
from common import EXAMPLES, TOP, Example, head, parser_of, program_of, row, rtl_program_of, stop
from hardware import harness
from hardware.wiring import Unfit
from network import Event, events_of, network_of, scripts_of

KERNELS = TOP / "hardware" / "kernels"
POLICIES = ("seq", "down", "least")
HEAD = ["Kernel", "Parameters", "Most fires", *(f"`{it}`, {ports}" for it in POLICIES for ports in ("one", "all"))]
# The kernels, each with a small size and the one of the table.
SIZES = {
    "fir": ("N=16 T=3", "N=1024 T=8"),
    "convolution": ("H=6 W=8", "H=32 W=32"),
    "sobel": ("H=6 W=8", "H=32 W=32"),
    "matrix_product": ("N=4", "N=32"),
    "dct": ("B=1", "B=2"),
    "fdtd_2d": ("NX=3 NY=4 T=2", "NX=8 NY=8 T=4"),
    "seidel_2d": ("N=5 T=2", "N=16 T=8"),
    "transpose": ("M=3 N=4", "M=16 N=16"),
    "prefix_sum": ("N=9", "N=1000"),
}


class Process:
    """How far a process has come, and at which clocks. Clocks count from 1."""

    def __init__(self, events: Sequence[Event]) -> None:
        self.events = events
        self.place = 0
        self.fired = 0
        # The first clock at which it may fire anew, for what was got and put since it fired last.
        self.earliest = 1


def port_clocks(scripts: Iterable[Sequence[Event]], capacities: Sequence[int]) -> int:
    """The clocks that a network takes whose ports go each at its own pace. No two channels fill one slot between two fires.

    A Get comes at the earliest at the clock of the fire before it, a clock behind the Get before it at its port and behind the Put of its
    token; a fire a clock behind the one before it and behind its Gets, and at the clock of the last Put; and a Put a clock behind its
    fire, behind the Put before it at its port, and behind the Get that made room. So it is looked at in the order of the scripts."""
    processes = [Process(it) for it in scripts]
    gets: list[list[int]] = [[] for _ in capacities]
    puts: list[list[int]] = [[] for _ in capacities]
    moves = True
    while moves:
        moves = False
        for process in processes:
            moves = go_on(process, gets, puts, capacities) or moves
    if any(it.place < len(it.events) for it in processes):
        raise Unfit("the network sticks")
    return max([it.fired for it in processes] + [it[-1] for it in (*gets, *puts) if it], default=0)


def go_on(process: Process, gets: list[list[int]], puts: list[list[int]], capacities: Sequence[int]) -> bool:
    """Tells the clocks of a process's next events up to one whose token or room isn't there yet, and whether there were any."""
    begin = process.place
    for letter, channel in process.events[begin:]:
        if letter == "f":
            process.fired = max(process.earliest, process.fired + 1)
            process.earliest = process.fired + 1
        else:
            is_put = letter == "p"
            mine, others = (puts[channel], gets[channel]) if is_put else (gets[channel], puts[channel])
            needed = len(mine) - capacities[channel] if is_put else len(mine)
            if needed >= len(others):
                break
            clock = max(process.fired + is_put, 1)
            if mine:
                clock = max(clock, mine[-1] + 1)
            if needed >= 0:
                clock = max(clock, others[needed] + 1)
            mine.append(clock)
            process.earliest = max(process.earliest, clock if is_put else clock + 1)
        process.place += 1
    return process.place > begin


def kernel_of(name: str) -> Example:
    if name not in SIZES:
        stop(f"no size of {name} is known")
    return Example(next(it for it in (EXAMPLES / f"{name}.loop", KERNELS / f"{name}.loop") if it.is_file()))


def row_of(program: str, rtl: str, kernel: Example, items: Sequence[str]) -> tuple[list[object], list[str]]:
    """The row of a kernel, and what isn't as wanted."""
    cells: list[object] = []
    wrong = []
    fires = 0
    for policy in POLICIES:
        one, every = (told_by(rtl, policy, ports, items, kernel.source) for ports in ("one", "all"))
        cells += [one, every]
        schedule = "seq" if policy == "seq" else "down"
        net, certificate, trim = (harness.written(program, [it, "--policy", schedule, *items], kernel.source) for it in ("net", "cert", "trim"))
        network = network_of(net)
        fires = max(it.fires for it in network.processes)
        trimmed = [int(it) for it in re.findall(r"(?m)^channel \d+ capacity (\d+) ", trim)]
        capacities = trimmed if policy == "least" else [it.capacity for it in network.channels]
        clocks = port_clocks([list(events_of(it)) for it in scripts_of(certificate)], capacities)
        if clocks != every:
            wrong.append(f"by {policy} a run takes {clocks} clocks here, and compaan rtl tells {every}")
    return [f"`{kernel.name}`", " ".join(items), fires, *cells], wrong


def told_by(rtl: str, policy: str, ports: str, items: Sequence[str], source: bytes) -> int:
    """The clocks that `compaan rtl` tells. Behind them stands under `least` a line of those of `down`."""
    told = harness.written(rtl, ["--policy", policy, "--ports", ports, "--clocks", *items], source)
    return harness.clocks_told("".join(told.splitlines(keepends=True)[:1]), "compaan rtl --clocks")


def main() -> int:
    harness.end_quietly()
    parser = parser_of(__doc__)
    parser.add_argument("--rtl", metavar="PROGRAM", help=harness.RTL_HELP)
    parser.add_argument("--quick", action="store_true", help="at small sizes")
    parser.add_argument("names", metavar="KERNEL", nargs="*")
    given = parser.parse_args()
    kernels = [kernel_of(name) for name in given.names or SIZES]
    program, rtl = program_of(given.compaan), rtl_program_of(given.rtl)
    print(head(HEAD), flush=True)
    notes = []
    for kernel in kernels:
        small, large = SIZES[kernel.name]
        items = (small if given.quick else large).split()
        try:
            cells, wrong = row_of(program, rtl, kernel, items)
        except Unfit as error:
            cells, wrong = [f"`{kernel.name}`", " ".join(items), *["-"] * 7], [str(error)]
        print(row(cells), flush=True)
        notes += [f"{kernel.name}: {it}" for it in wrong]
    print("\n" + "".join(f"{it}\n" for it in notes) + f"{len(kernels)} networks: {len(notes)} things not as wanted")
    return 1 if notes else 0


if __name__ == "__main__":
    sys.exit(main())
