"""Whether a text that isn't known whole is one of its command's, and fits the text of the same network that `net` wrote.

It was written from docs/COMMANDS.md, docs/NETWORK.md and docs/CERTIFICATES.md. What a text says of a program is judged elsewhere, by
meaning.py: this finds what is no text, and numbers that can't stand beside each other.
"""
from __future__ import annotations

import re
from collections.abc import Iterator
from typing import NamedTuple

# The commands whose texts are judged here.
COMMANDS = ("deps", "net", "cert", "vhdl", "trim", "trace")
PROCESS = re.compile(rb"process (\d+) (?:source|assign|sink) [A-Za-z_]\w* fires (\d+) slots (\d+)")
CHANNEL = re.compile(
    rb"channel (\d+) from (\d+) to (\d+) read (\d+) tokens (\d+) capacity (\d+) hold (\d+) class (inorder|reorder)(\+?)"
)
POINT = rb"\((?:-?\d+(?:,-?\d+)*)?\)"
POINTS_LINE = re.compile(POINT + rb" (?:zero|\d+" + POINT + rb")")


class Odd(Exception):
    """What is wrong with a text."""


class Net(NamedTuple):
    """What `net` tells: the fires and the slots of each process; of each channel its writer, reader, read, tokens, capacity, hold and
    class; and the number of events."""

    processes: list[tuple[int, int]]
    channels: list[tuple[int, int, int, int, int, int, bytes]]
    events: int

    def lengths(self) -> list[int]:
        """How many events each process has."""
        found = [fires for fires, _ in self.processes]
        for writer, reader, _, tokens, *_ in self.channels:
            found[writer] += tokens
            found[reader] += tokens
        return found


def lines_of(text: bytes, first: bytes) -> list[bytes]:
    """The lines between the first, which is to be this, and the last, which is to be `end`."""
    if not text.startswith(first + b"\n") or not text.endswith(b"\nend\n"):
        raise Odd(f"it doesn't begin with `{first.decode()}`, or doesn't end with `end`")
    return text[len(first) + 1 : -4].split(b"\n")[:-1]


def want(holds: bool, line: bytes) -> None:
    if not holds:
        raise Odd(f"`{line[:80].decode(errors='replace')}`")


def net_of(text: bytes) -> Net:
    """The network of a text of `net`."""
    lines = lines_of(text, b"net 1")
    want(bool(lines) and bool(re.fullmatch(rb"events \d+", lines[-1])), lines[-1] if lines else b"")
    processes: list[tuple[int, int]] = []
    channels: list[tuple[int, int, int, int, int, int, bytes]] = []
    for line in lines[:-1]:
        if not channels and (found := PROCESS.fullmatch(line)):
            want(int(found[1]) == len(processes), line)
            processes.append((int(found[2]), int(found[3])))
            continue
        found = CHANNEL.fullmatch(line)
        want(found is not None and int(found[1]) == len(channels), line)
        assert found is not None
        writer, reader, read, tokens, capacity, hold = map(int, found.groups()[1:7])
        want(max(writer, reader) < len(processes) and 1 <= capacity <= tokens and (hold == 1) == (found[8] == b"inorder"), line)
        want(not channels or (channels[-1][1], channels[-1][2], channels[-1][0]) < (reader, read, writer), line)
        channels.append((writer, reader, read, tokens, capacity, hold, found[8] + found[9]))
    net = Net(processes, channels, int(lines[-1].split()[1]))
    want(net.events == sum(net.lengths()), lines[-1])
    for process, (fires, slots) in enumerate(processes):
        held = sum(it[5] for it in channels if it[1] == process)
        want(slots == held and (fires > 0 or not slots), b"process %d" % process)
    return net


def judge_trim(text: bytes, net: Net) -> None:
    lines, lengths = lines_of(text, b"trim 1"), net.lengths()
    want(len(lines) == len(net.channels), b"%d lines" % len(lines))
    for number, line in enumerate(lines):
        found = re.fullmatch(rb"channel (\d+) capacity (\d+) rest((?: \d+)*)", line)
        want(found is not None and int(found[1]) == number and 1 <= int(found[2]) <= net.channels[number][4], line)
        assert found is not None
        rest = [int(it) for it in found[3].split()]
        want(len(rest) == len(lengths) and all(at <= length for at, length in zip(rest, lengths)) and rest != lengths, line)


def judge_trace(text: bytes, net: Net) -> None:
    """Each process stands there as often as it has events. The lines may be millions."""
    body = text[len(b"trace 1\n") : -len(b"end\n")]
    want(text == b"trace 1\n" + body + b"end\n" and body.count(b"\n") == net.events, b"%d entries" % body.count(b"\n"))
    apart = b"\n" + body.replace(b"\n", b"\n\n")
    for process, length in enumerate(net.lengths()):
        want(apart.count(b"\n%d\n" % process) == length, b"process %d" % process)


def judge_vhdl(text: bytes, net: Net) -> None:
    parts = re.split(rb"(?m)^(?=\nlibrary ieee;$)", text)
    heads = b"".join(b"-- channel %d node_%d node_%d capacity %d\n" % (at, it[0], it[1], it[4]) for at, it in enumerate(net.channels))
    want(parts[0] == b"-- compaan vhdl 1\n" + heads, parts[0])
    want(len(parts) == len(net.processes) + 1, b"%d nodes" % (len(parts) - 1))
    for number, part in enumerate(parts[1:]):
        names = rb"entity node_%d is\n.*?^end entity;\narchitecture rtl of node_%d is\n.*^end architecture;\n" % (number, number)
        head = rb"\nlibrary ieee;\nuse ieee\.std_logic_1164\.all;\nuse ieee\.numeric_std\.all;\n"
        want(bool(re.fullmatch(rb"(?ms)" + head + names, part)), b"node_%d" % number)
        # a node has a step for each of its events, and one that it ends in
        want(b"type codes is" in part and b"signal pc : integer range 0 to %d := 0;" % net.lengths()[number] in part, b"node_%d" % number)


def judge_cert(text: bytes, net: Net) -> None:
    """Its head. The rest is judged by `check`."""
    lines = text.split(b"\n", 3)
    sizes = [int(it) for it in lines[1].split()[1:]] if re.fullmatch(rb"sizes( \d+){4}", lines[1]) else []
    want(lines[0] == b"cert 2" and sizes[:2] == [len(net.processes), len(net.channels)], lines[1])
    want(text.endswith(b"\nend\n"), text[-80:])
    # the channels, as `net` tells them
    found = re.findall(rb"(?m)^channel (\d+) (\d+) (\d+) (\d+) (\S+)$", text)
    told = [(b"%d" % it[0], b"%d" % it[1], b"%d" % it[2], b"%d" % it[4], it[6]) for it in net.channels]
    want(found == told, b"%d channels" % len(found))


def judge_tree(lines: Iterator[bytes]) -> None:
    """A tree of `deps`, which ends where each test has its two branches."""
    left = 1
    while left:
        line = next(lines, b"")
        leaf = re.fullmatch(rb"w \d+ (\d+)", line)
        if re.fullmatch(rb"t( -?\d+)+|d \d+( -?\d+)+", line):
            left += 1
            continue
        want(leaf is not None or line in (b"z", b"x"), line)
        for _ in range(int(leaf[1]) if leaf else 0):
            line = next(lines, b"")
            want(bool(re.fullmatch(rb"m( -?\d+)+", line)), line)
        left -= 1


def judge_deps(text: bytes) -> None:
    lines = iter(lines_of(text, b"deps 1"))
    last = (-1, -1)
    for line in lines:
        head = re.fullmatch(rb"read (\d+) (\d+)", line)
        want(head is not None and last < (int(head[1]), int(head[2])), line)
        assert head is not None
        last = int(head[1]), int(head[2])
        kind = next(lines, b"")
        if kind == b"tree":
            judge_tree(lines)
            continue
        points = re.fullmatch(rb"points (\d+)", kind)
        want(points is not None, kind)
        for _ in range(int(points[1]) if points else 0):
            line = next(lines, b"")
            want(bool(POINTS_LINE.fullmatch(line)), line)


def fault_of(command: str, text: bytes, net: bytes) -> str | None:
    """What is wrong with a text of a command, or None. Those that tell a network are judged beside what `net` wrote of it."""
    try:
        match command:
            case "deps":
                judge_deps(text)
            case "net":
                net_of(text)
            case "cert":
                judge_cert(text, net_of(net))
            case "vhdl":
                judge_vhdl(text, net_of(net))
            case "trim":
                judge_trim(text, net_of(net))
            case "trace":
                judge_trace(text, net_of(net))
            case _:
                return f"{command} has no texts that aren't known"
    except Odd as odd:
        return str(odd)
    return None
