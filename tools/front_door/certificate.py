"""What a certificate says of its network, so that a refusal of `check` can be told in the network's words.

A script and the schedule are kept as they are written, by repeats, so that what stands before an entry is counted and not walked over.
"""
from __future__ import annotations

from collections import Counter
from collections.abc import Iterator
from dataclasses import dataclass, field


@dataclass
class Repeat:
    """A list that stands so many times in a row."""

    count: int
    parts: list[str | Repeat]
    # How long the list is once, and how often each line stands in it.
    length: int = field(init=False)
    lines: Counter[str] = field(init=False)

    def __post_init__(self) -> None:
        self.length, self.lines = 0, Counter()
        for part in self.parts:
            self.length += size_of(part)
            add(self.lines, part, 1)


def size_of(part: str | Repeat) -> int:
    return 1 if isinstance(part, str) else part.count * part.length


def add(lines: Counter[str], part: str | Repeat, times: int) -> None:
    """Adds to a count of lines those that a part stands for, so many times."""
    if isinstance(part, str):
        lines[part] += times
    else:
        for line, count in part.lines.items():
            lines[line] += times * part.count * count


def front(parts: list[str | Repeat], number: int) -> tuple[Counter[str], str | None]:
    """How often each line stands in the first `number` of what these parts stand for, and the line behind them, if there is one."""
    lines: Counter[str] = Counter()
    while True:
        for part in parts:
            size = size_of(part)
            if number >= size:
                add(lines, part, 1)
                number -= size
            elif isinstance(part, str):
                return lines, part
            else:
                rounds, number = divmod(number, part.length)
                for line, count in part.lines.items():
                    lines[line] += rounds * count
                parts = part.parts
                break
        else:
            return lines, None


@dataclass
class Channel:
    writer: int
    reader: int
    read: int
    capacity: int
    kind: str


@dataclass
class Certificate:
    """The network of a certificate, and its schedule."""

    scripts: list[list[str | Repeat]]
    channels: list[Channel]
    schedule: list[str | Repeat]

    def before(self, entry: int) -> tuple[Counter[str], int | None]:
        """How often each process is named before this entry of the schedule, and the process that it names."""
        lines, line = front(self.schedule, entry)
        return lines, None if line is None else int(line)

    def next_event(self, process: int, made: int) -> str | None:
        """The event of a process that comes behind so many, or None at its script's end."""
        return front(self.scripts[process], made)[1]

    def wish(self, process: int, made: int) -> str:
        """What a process wants that has made so many events."""
        return wish_of(self.next_event(process, made))

    def held(self, channel: int, made: Counter[str]) -> int:
        """How many values stand in a channel when each process has made so many events."""
        ends = self.channels[channel]
        puts, _ = front(self.scripts[ends.writer], made[str(ends.writer)])
        gets, _ = front(self.scripts[ends.reader], made[str(ends.reader)])
        return puts[f"p {channel}"] - sum(count for line, count in gets.items() if line.startswith(f"g {channel} "))


def wish_of(event: str | None) -> str:
    if event is None:
        return "has ended"
    kind, *numbers = event.split()
    if kind == "g":
        return f"wants to get a value from channel {numbers[0]}"
    return f"wants to put a value into channel {numbers[0]}" if kind == "p" else "wants to fire"


def certificate_of(text: str) -> Certificate:
    """Reads a certificate that the program has read. What another text comes to is an error of some kind."""
    lines = iter(text.split("\n"))
    next(lines)
    _, processes, channels, _, entries = next(lines).split()
    scripts = []
    for _ in range(int(processes)):
        _, _, parts = next(lines).split()
        scripts.append(parts_of(lines, int(parts)))
    found = []
    for _ in range(int(channels)):
        _, writer, reader, read, capacity, kind = next(lines).split()
        found.append(Channel(int(writer), int(reader), int(read), int(capacity), kind))
    # The sources' lines begin with other letters than those of the schedule.
    line = next(lines)
    while not line[0].isdigit() and not line.startswith(("r ", "end")):
        line = next(lines)
    return Certificate(scripts, found, parts_of(chained(line, lines), int(entries)))


def chained(first: str, rest: Iterator[str]) -> Iterator[str]:
    yield first
    yield from rest


def parts_of(lines: Iterator[str], number: int) -> list[str | Repeat]:
    """The next so many parts, of which a repeat has more lines."""
    parts: list[str | Repeat] = []
    for _ in range(number):
        line = next(lines)
        if line.startswith("r "):
            _, count, inner = line.split()
            parts.append(Repeat(int(count), parts_of(lines, int(inner))))
        else:
            parts.append(line)
    return parts
