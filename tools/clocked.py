"""The clocked run of a network, followed for showing: at each clock every process makes its next event that can be made when the
clock begins, a Get where a token waits and a Put where there is room."""
from __future__ import annotations

from dataclasses import dataclass, field

from network import Network, Part, events_of

# What a process does in a clock. Those that wait come last.
FIRE, GET, PUT, AWAIT_TOKEN, AWAIT_ROOM, ENDED = range(6)
DOINGS = ("fires", "gets", "puts", "waits for a token", "waits for room", "has ended")


@dataclass
class Run:
    """The doings of each process, a byte a clock; the lengths of each queue, as (clock, length) where they change; and for each
    process how many clocks it waits for each channel."""

    clocks: int
    doings: list[bytearray]
    lengths: list[list[tuple[int, int]]]
    waits: list[dict[tuple[int, int], int]] = field(default_factory=list)


def clocked_run(network: Network, scripts: list[list[Part]]) -> Run:
    """The clocked run, to its end; or to where nothing goes on, which the networks of the program never come to."""
    capacities = [it.capacity for it in network.channels]
    queues = [0] * len(capacities)
    lengths: list[list[tuple[int, int]]] = [[(0, 0)] for _ in capacities]
    sources = [events_of(script) for script in scripts]
    ahead = [next(it, None) for it in sources]
    doings = [bytearray() for _ in scripts]
    waits: list[dict[tuple[int, int], int]] = [{} for _ in scripts]
    clocks, stepped = 0, True
    while stepped and any(event is not None for event in ahead):
        stepped = False
        changes: list[tuple[int, int]] = []
        for process, event in enumerate(ahead):
            if event is None:
                doings[process].append(ENDED)
                continue
            letter, channel = event
            if letter == "g" and not queues[channel]:
                doing = AWAIT_TOKEN
            elif letter == "p" and queues[channel] >= capacities[channel]:
                doing = AWAIT_ROOM
            else:
                doing = FIRE if letter == "f" else GET if letter == "g" else PUT
            doings[process].append(doing)
            if doing in (AWAIT_TOKEN, AWAIT_ROOM):
                waits[process][doing, channel] = waits[process].get((doing, channel), 0) + 1
                continue
            stepped = True
            ahead[process] = next(sources[process], None)
            if letter != "f":
                changes.append((channel, 1 if letter == "p" else -1))
        for channel, change in changes:
            queues[channel] += change
        clocks += 1
        for channel in {it[0] for it in changes}:
            if lengths[channel][-1][1] != queues[channel]:
                lengths[channel].append((clocks, queues[channel]))
    return Run(clocks, doings, lengths, waits)


def shares(run: Run, process: int, count: int) -> list[tuple[int, ...]]:
    """How many clocks of each of so many stretches of the run, of equal length, the process spends with each doing."""
    found = []
    for at in range(count):
        stretch = run.doings[process][at * run.clocks // count : (at + 1) * run.clocks // count]
        found.append(tuple(stretch.count(doing) for doing in range(len(DOINGS))))
    return found


def greatest(run: Run, channel: int, count: int) -> list[int]:
    """The greatest length of a queue in each of so many stretches of the run."""
    found = [0] * count
    changes = [*run.lengths[channel], (run.clocks + 1, 0)]
    for (since, length), (until, _) in zip(changes, changes[1:]):
        first = min(since * count // max(run.clocks, 1), count - 1)
        last = min(max(since, until - 1) * count // max(run.clocks, 1), count - 1)
        for at in range(first, last + 1):
            found[at] = max(found[at], length)
    return found
