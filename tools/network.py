"""The texts of a network and of its certificate, read; and its picture as a graph for Graphviz."""
from __future__ import annotations

import html
import re
from collections.abc import Iterator
from dataclasses import dataclass

from outline import Outline

PROCESS = re.compile(r"process (\d+) (\w+) (\w+) fires (\d+) slots (\d+)")
CHANNEL = re.compile(r"channel (\d+) from (\d+) to (\d+) read (\d+) tokens (\d+) capacity (\d+) hold (\d+) class (\w+\+?)")


@dataclass
class Process:
    number: int
    kind: str
    array: str
    fires: int
    slots: int


@dataclass
class Channel:
    number: int
    writer: int
    reader: int
    read: int
    tokens: int
    capacity: int
    hold: int
    form: str


@dataclass
class Network:
    processes: list[Process]
    channels: list[Channel]
    events: int


def network_of(text: str) -> Network:
    """The network of a text that `net` wrote."""
    processes = [Process(int(a), b, c, int(d), int(e)) for a, b, c, d, e in PROCESS.findall(text)]
    channels = [Channel(*map(int, it[:7]), it[7]) for it in CHANNEL.findall(text)]
    found = re.search(r"(?m)^events (\d+)$", text)
    return Network(processes, channels, int(found[1]) if found else 0)


# A part of a script: an event by its letter and its channel, or how often a list of parts comes.
Event = tuple[str, int]
Part = Event | tuple[int, list]


def scripts_of(certificate: str) -> list[list[Part]]:
    """The scripts of a text that `cert` wrote, one for each process, with their repeats as they stand."""
    lines = certificate.split("\n")
    at = 2

    def part() -> Part:
        nonlocal at
        words = lines[at].split(" ")
        at += 1
        if words[0] == "r":
            count = int(words[1])
            return count, [part() for _ in range(int(words[2]))]
        return words[0], int(words[1]) if words[0] in "gp" else 0

    scripts = []
    for _ in range(int(lines[1].split(" ")[1])):
        head = lines[at].split(" ")
        at += 1
        scripts.append([part() for _ in range(int(head[2]))])
    return scripts


def length_of(script: list[Part]) -> int:
    """How many events a script has."""
    return sum(part[0] * length_of(part[1]) if isinstance(part[0], int) else 1 for part in script)


def events_of(script: list[Part]) -> Iterator[Event]:
    """The events of a script, one after the other."""
    for part in script:
        if isinstance(part[0], int):
            for _ in range(part[0]):
                yield from events_of(part[1])
        else:
            yield part


def look_of(form: str) -> str:
    """How the arrows of a channel of this class are drawn."""
    return f"style={'dashed' if form.startswith('reorder') else 'solid'} penwidth={2.2 if form.endswith('+') else 1}"


def graph_of(network: Network, outline: Outline | None, title: str) -> str:
    """The network for Graphviz, from left to right: a node for each process with its line of source, and a small one for each
    channel with its number and capacity; the arrow into the reader names the read."""
    legend = "A small box is a channel: its number and its capacity. Dashed: used in another order than sent. Thick: used more than once."
    gap = '<FONT POINT-SIZE="4"> </FONT><BR/>'
    label = f'<{html.escape(title)}<BR/>{gap}<FONT POINT-SIZE="9">{html.escape(legend)}</FONT><BR/>{gap}>'
    lines = [
        "digraph network {",
        f"  graph [rankdir=LR label={label} labelloc=t fontname=Helvetica fontsize=13 nodesep=0.25 ranksep=0.35 bgcolor=transparent]",
        "  node [fontname=Helvetica fontsize=11 style=filled fillcolor=white]",
        "  edge [arrowsize=0.6 fontname=Helvetica fontsize=9]",
    ]
    for it in network.processes:
        statement = outline.statements[it.number] if outline else None
        text = statement.text if statement and it.kind == "assign" else it.array
        shown = text if len(text) <= 44 else f"{text[:42]}.."
        place = f"line {statement.line}, " if statement else ""
        shape = "box" if it.kind == "assign" else "ellipse"
        about = f"process {it.number}, {place}fires {it.fires}, slots {it.slots}"
        name = f"{it.number}: {it.kind}" if it.kind != "assign" else f"{it.number}:"
        label = quoted(f"{name} {shown}\n{place}fires {it.fires}")
        lines.append(f'  p{it.number} [shape={shape} class="process {it.kind}" fillcolor="#e8eef7" label={label} tooltip={quoted(about)}]')
    for it in network.channels:
        reads = outline.statements[it.reader].reads if outline else []
        read = reads[it.read] if it.read < len(reads) else f"read {it.read}"
        about = (
            f"channel {it.number} from {it.writer} to {it.reader}, {read}: tokens {it.tokens}, capacity {it.capacity}, "
            f"hold {it.hold}, {it.form}"
        )
        look = look_of(it.form)
        label = quoted(f"c{it.number}: {it.capacity}")
        lines.append(
            f'  c{it.number} [shape=box class="channel" height=0.2 width=0.3 margin="0.06,0.02" fontsize=9 label={label} tooltip={quoted(about)}]'
        )
        lines.append(f"  p{it.writer} -> c{it.number} [{look} arrowhead=none tooltip={quoted(about)}]")
        lines.append(f"  c{it.number} -> p{it.reader} [{look} label={quoted(read)} tooltip={quoted(about)}]")
    return "\n".join([*lines, "}"]) + "\n"


def quoted(text: str) -> str:
    """A text as a string of Graphviz."""
    escaped = text.replace("\\", "\\\\").replace('"', '\\"').replace("\n", "\\n")
    return f'"{escaped}"'
