"""The least capacities with which a network takes no more clocks than some number, found by runs of its scripts.

No run is made clock by clock. Each process makes its events one a clock, a Get at the earliest a clock behind the Put of its token, and a
Put at the earliest a clock behind the Get that made room for it; so the clock of each event follows from those of three others, in
whatever order they are looked at.
"""
from __future__ import annotations

import re
from collections.abc import Sequence
from typing import NamedTuple

from hardware import harness
from hardware.wiring import Unfit
from network import Channel, Part, events_of, network_of, scripts_of

# The events of a process between which fires are left out: how many clocks behind the last one each comes at the earliest, its channel, and
# whether it is a Put. Then the fires behind the last.
Steps = tuple[list[tuple[int, int, bool]], int]


class Planned(NamedTuple):
    """The network of a policy: what each process does, the channels, and the capacities that `compaan trim` tells."""

    processes: list[Steps]
    channels: list[Channel]
    trimmed: list[int]

    @property
    def capacities(self) -> list[int]:
        return [it.capacity for it in self.channels]

    @property
    def room_for_all(self) -> list[int]:
        """Capacities with which no process ever waits for room."""
        return [max(it.tokens, 1) for it in self.channels]


def planned(program: str, words: Sequence[str], source: bytes) -> Planned:
    """The network of a source by a policy, as the program writes it: its words are the policy and the values of parameters."""
    net, certificate, trim = (harness.written(program, [it, *words], source) for it in ("net", "cert", "trim"))
    trimmed = [int(it) for it in re.findall(r"(?m)^channel \d+ capacity (\d+) ", trim)]
    return Planned([steps_of(script) for script in scripts_of(certificate)], network_of(net).channels, trimmed)


def steps_of(script: list[Part]) -> Steps:
    """The Gets and Puts of a script."""
    steps = []
    clocks = 1
    for letter, channel in events_of(script):
        if letter == "f":
            clocks += 1
        else:
            steps.append((clocks, channel, letter == "p"))
            clocks = 1
    return steps, clocks - 1


def clocks_with(processes: Sequence[Steps], capacities: Sequence[int], most: float = float("inf")) -> int | None:
    """The clocks that a network with these capacities takes, or None where it sticks or takes more than `most`."""
    puts: list[list[int]] = [[] for _ in capacities]
    gets: list[list[int]] = [[] for _ in capacities]
    waits: dict[tuple[int, bool], int] = {}
    at = [0] * len(processes)
    last = [-1] * len(processes)
    ready = list(range(len(processes)))
    while ready:
        process = ready.pop()
        steps, rest = processes[process]
        place, clock = at[process], last[process]
        while place < len(steps):
            behind, channel, is_put = steps[place]
            mine, others, room = (puts, gets, capacities[channel]) if is_put else (gets, puts, 0)
            needed = len(mine[channel]) - room
            if needed >= len(others[channel]):
                waits[channel, is_put] = process
                break
            clock += behind
            if needed >= 0:
                clock = max(clock, others[channel][needed] + 1)
            if clock >= most:
                return None
            mine[channel].append(clock)
            waiting = waits.pop((channel, not is_put), None)
            if waiting is not None:
                ready.append(waiting)
            place += 1
        else:
            clock += rest
        at[process], last[process] = place, clock
    if any(place < len(steps) for place, (steps, _) in zip(at, processes)):
        return None
    clocks = max(last, default=-1) + 1
    return clocks if clocks <= most else None


def least_within(processes: Sequence[Steps], capacities: Sequence[int], most: int) -> list[int]:
    """The capacities lowered one after the other, in ascending order of channels, each to the least with which the network takes at most
    so many clocks, as it does with all of them. More room is never slower, so none of them can be lowered further."""
    found = list(capacities)
    for channel, enough in enumerate(capacities):
        few = 0
        while enough - few > 1:
            tried = (few + enough) // 2
            if clocks_with(processes, [*found[:channel], tried, *found[channel + 1 :]], most) is None:
                few = tried
            else:
                enough = tried
        found[channel] = enough
    return found


def with_capacities(design: str, capacities: Sequence[int]) -> str:
    """The text of a design whose channels have these capacities."""
    for channel, capacity in enumerate(capacities):
        instance = f"  channel_{channel} : entity work.channel\n    generic map \\(\n      capacity => "
        for told in (rf"-- channel {channel} node_\d+ node_\d+ capacity ", instance):
            design, count = re.subn(f"(?m)^({told})\\d+$", rf"\g<1>{capacity}", design)
            if count != 1:
                raise Unfit(f"the design doesn't have one channel {channel}")
    return design


def first_not_least(processes: Sequence[Steps], capacities: Sequence[int], most: int) -> int | None:
    """The first channel that can have a place less, where there is one."""
    for channel, capacity in enumerate(capacities):
        fewer = [*capacities[:channel], capacity - 1, *capacities[channel + 1 :]]
        if capacity > 1 and clocks_with(processes, fewer, most) is not None:
            return channel
    return None
