#!/usr/bin/env python3
"""A page about a program and its network.

usage: tools/report.py PROGRAM FILE [NAME=VALUE].. [--policy seq|down] [--data FILE] > report.html

PROGRAM is the built `compaan`; `./compaan report FILE ..` calls this with it. The page stands alone: it has no scripts, wants no
network, prints, and follows the reader's choice of light or dark. What it shows is what the program writes (`net`, `cert`, `trim`,
`deps`, `sim`), and the clocked run, which is followed here and whose clocks are compared with those that `sim` counts.
"""
from __future__ import annotations

import html
import os
import re
import shutil
import subprocess
import sys
from dataclasses import dataclass

import clocked
import network as networks
import pieces
from clocked import AWAIT_ROOM, AWAIT_TOKEN, ENDED, FIRE, GET, PUT
from front_door.base import Status, Stop, put, tell
from front_door.bundle import BUNDLE_LIMIT, read_file
from front_door.ending import ended
from front_door.options import Parser
from network import Network
from outline import Outline, values_of

# The clocked run is followed up to so many events and so many clocks of all processes, which takes some ten seconds.
MOST_EVENTS = 4_000_000
MOST_CLOCKS = 40_000_000
# Stretches of the run in a chart, queues that are drawn, and pieces of a read that are told.
STRETCHES = 240
MOST_QUEUES = 8
MOST_PIECES = 24

STYLE = """
:root { color-scheme: light dark; --page: #fbfbf9; --ink: #1d2126; --soft: #5d6670; --line: #d9dcdf; --box: #ffffff; --node: #e6edf6;
  --fire: #2f6db3; --move: #9dbfe3; --token: #e3a33b; --room: #c2563f; --rest: #eceeef; --mark: #fff3d6; }
@media (prefers-color-scheme: dark) { :root { --page: #15181c; --ink: #e7e9ec; --soft: #9aa4af; --line: #343a42; --box: #1c2026;
  --node: #243348; --fire: #6aa5e6; --move: #35577d; --token: #d79a3a; --room: #dc755f; --rest: #23282e; --mark: #3a321d; } }
* { box-sizing: border-box; }
body { margin: 0; background: var(--page); color: var(--ink); font: 15px/1.5 system-ui, "Helvetica Neue", Arial, sans-serif; }
main { max-width: 1120px; margin: 0 auto; padding: 28px 24px 64px; }
h1 { font-size: 24px; margin: 0; } h2 { font-size: 18px; margin: 38px 0 10px; } h3 { font-size: 15px; margin: 20px 0 6px; }
p { margin: 6px 0; max-width: 78ch; } .soft { color: var(--soft); } code, pre { font: 13px/1.5 ui-monospace, Menlo, Consolas, monospace; }
.numbers { display: flex; flex-wrap: wrap; gap: 10px 34px; margin: 18px 0 0; padding: 0; list-style: none; }
.numbers b { display: block; font-size: 22px; font-variant-numeric: tabular-nums; } .numbers span { color: var(--soft); font-size: 13px; }
.wide { overflow-x: auto; border: 1px solid var(--line); border-radius: 6px; background: var(--box); padding: 10px; }
table { border-collapse: collapse; width: 100%; font-size: 13.5px; background: var(--box); }
th, td { text-align: left; padding: 4px 10px; border-bottom: 1px solid var(--line); vertical-align: top; }
th { color: var(--soft); font-weight: 600; } td.number, th.number { text-align: right; font-variant-numeric: tabular-nums; }
table.source td { border: 0; padding: 0 10px; white-space: pre; font: 13px/1.55 ui-monospace, Menlo, Consolas, monospace; }
table.source td:first-child, table.source td:nth-child(2) { color: var(--soft); text-align: right; width: 1%; user-select: none; }
.notes li { margin: 4px 0; max-width: 84ch; } .notes { padding-left: 20px; }
.key { display: flex; flex-wrap: wrap; gap: 4px 18px; font-size: 13px; color: var(--soft); margin: 6px 0; }
.key i { display: inline-block; width: 12px; height: 12px; border-radius: 2px; margin-right: 6px; vertical-align: -1px; }
svg text { fill: var(--ink); } .chart text { font: 12px system-ui, Arial, sans-serif; } .chart .soft { fill: var(--soft); }
.fire { fill: var(--fire); background: var(--fire); } .move { fill: var(--move); background: var(--move); }
.token { fill: var(--token); background: var(--token); } .room { fill: var(--room); background: var(--room); }
.rest { fill: var(--rest); background: var(--rest); } .axis { stroke: var(--line); } .full { stroke: var(--room); stroke-dasharray: 3 3; }
.network .process > a > polygon, .network .process > a > ellipse, .network .process polygon, .network .process ellipse
  { fill: var(--node); stroke: var(--soft); }
.network .channel polygon { fill: var(--box); stroke: var(--soft); } .network .edge path { stroke: var(--ink); }
.network .edge polygon { stroke: var(--ink); fill: var(--ink); } .network svg { max-width: none; }
@media print { :root { --page: #fff; --box: #fff; } body { font-size: 11px; } main { max-width: none; padding: 0; }
  h2 { break-after: avoid; } tr, .chart, .wide { break-inside: avoid; } .wide { overflow: visible; } .wide svg { max-width: 100%; height: auto; } }
"""


@dataclass
class Asked:
    """What the page is about."""

    program: str
    name: str
    source: bytes
    bundle: bytes
    items: list[str]
    policy: str
    has_data: bool


class Refused(Exception):
    """The program refuses what it was given: its status and its line."""

    def __init__(self, status: int, line: bytes) -> None:
        super().__init__(status, line)
        self.status, self.line = status, line


def call(asked: Asked, command: str, bundle: bytes | None = None) -> str:
    """What the program writes for a command."""
    words = [asked.program, command, "--policy", asked.policy, *asked.items]
    done = subprocess.run(words, input=asked.bundle if bundle is None else bundle, capture_output=True, check=False)
    if done.returncode:
        raise Refused(done.returncode, done.stderr)
    return done.stdout.decode()


def attempt(asked: Asked, command: str) -> tuple[str | None, str]:
    """What the program writes, or why it doesn't."""
    try:
        return call(asked, command), ""
    except Refused as error:
        return None, error.line.decode(errors="replace").strip() or f"status {error.status}"


def text(value: object) -> str:
    return html.escape(str(value))


def spaced(number: int) -> str:
    """A number with its digits in threes."""
    return f"{number:,}".replace(",", " ")


def row(cells: list[object], head: bool = False, plain: tuple[int, ...] = ()) -> str:
    """A row of a table. What is a number stands at the right, as does the head of its column."""
    tag = "th" if head else "td"
    made = []
    for place, it in enumerate(cells):
        is_number = isinstance(it, int) or (head and place not in plain and str(it).startswith("#"))
        shown = str(it).removeprefix("#") if head else spaced(it) if isinstance(it, int) else str(it)
        made.append(f'<{tag}{" class=number" if is_number else ""}>{shown if not head else text(shown)}</{tag}>')
    return f"<tr>{''.join(made)}</tr>"


def table(head: list[str], rows: list[list[object]]) -> str:
    body = "".join(row(it) for it in rows)
    return f"<div class=wide><table><thead>{row(list(head), head=True)}</thead><tbody>{body}</tbody></table></div>"


def name_of(network: Network, outline: Outline, number: int) -> str:
    """A process as it is called in words."""
    process, statement = network.processes[number], outline.statements[number]
    return f"{number} {process.kind} {process.array}" if process.kind != "assign" else f"{number} {process.array}, line {statement.line}"


def source_part(asked: Asked, outline: Outline) -> str:
    lines = asked.source.decode(errors="replace").rstrip("\n").split("\n")
    made = {}
    for number, statement in enumerate(outline.statements):
        if statement.kind == "assign":
            made.setdefault(statement.line, []).append(str(number))
    rows = [
        f'<tr{" style=background:var(--mark)" if number in made else ""}><td>{number}</td><td>{" ".join(made.get(number, []))}</td><td>{text(line)}</td></tr>'
        for number, line in enumerate(lines, 1)
    ]
    return (
        "<h2>Source</h2><p class=soft>Beside each line its number, and the processes whose statements begin there.</p>"
        f"<div class=wide><table class=source>{''.join(rows)}</table></div>"
    )


def drawn(graph: str) -> str | None:
    """What Graphviz draws, or None where it isn't here."""
    try:
        done = subprocess.run(["dot", "-Tsvg"], input=graph.encode(), capture_output=True, check=True)
    except (OSError, subprocess.CalledProcessError):
        return None
    return re.sub(r"(?s)^.*?(<svg)", r"\1", done.stdout.decode(), count=1)


def network_part(network: Network, outline: Outline, title: str) -> str:
    picture = drawn(networks.graph_of(network, outline, title))
    if picture is None:
        return "<h2>Network</h2><p>Graphviz isn't here, so the network isn't drawn: the tables below have all of it.</p>"
    return f"<h2>Network</h2><div class='wide network'>{picture}</div>"


def channel_part(network: Network, outline: Outline, trimmed: dict[int, int], why: str, run: clocked.Run | None) -> str:
    rows = []
    for it in network.channels:
        reads = outline.statements[it.reader].reads
        greatest = max(length for _, length in run.lengths[it.number]) if run else ""
        rows.append(
            [
                it.number,
                text(name_of(network, outline, it.writer)),
                text(name_of(network, outline, it.reader)),
                f"<code>{text(reads[it.read] if it.read < len(reads) else it.read)}</code>",
                text(it.form),
                it.tokens,
                it.hold,
                it.capacity,
                trimmed.get(it.number, ""),
                greatest,
            ]
        )
    head = ["#channel", "from", "to", "read", "class", "#tokens", "#hold", "#capacity", "#trimmed", "#clocked"]
    note = "" if trimmed else f"<p class=soft>There are no trimmed capacities: {text(why)}.</p>"
    return (
        "<h2>Channels</h2><p class=soft>Capacity: what the policy's schedule needs. Trimmed: capacities none of which can be lowered. "
        f"Clocked: the greatest length of the queue in the clocked run. Hold: slots of the reader.</p>{note}{table(head, rows)}"
    )


CLASSES = {FIRE: "fire", GET: "move", PUT: "move", AWAIT_TOKEN: "token", AWAIT_ROOM: "room", ENDED: "rest"}


def bars(run: clocked.Run, process: int, left: int, top: float, width: int, height: int) -> str:
    """What a process does over time: in each stretch of the run the shares of its doings, one above the other."""
    count = min(STRETCHES, max(run.clocks, 1))
    made: list[str] = []
    step = width / count
    for at, share in enumerate(clocked.shares(run, process, count)):
        whole = sum(share) or 1
        parts = [
            ("fire", share[FIRE]),
            ("move", share[GET] + share[PUT]),
            ("token", share[AWAIT_TOKEN]),
            ("room", share[AWAIT_ROOM]),
            ("rest", share[ENDED]),
        ]
        below = top + height
        for look, clocks in parts:
            if clocks:
                size = height * clocks / whole
                below -= size
                made.append(
                    f'<rect class={look} x="{left + at * step:.2f}" y="{below:.2f}" width="{step + 0.05:.2f}" height="{size:.2f}"/>'
                )
    return "".join(made)


def axis(run: clocked.Run, left: int, width: int, top: float) -> str:
    marks = []
    for part in range(5):
        clock = run.clocks * part // 4
        at = left + width * part / 4
        anchor = "start" if part == 0 else "end" if part == 4 else "middle"
        marks.append(f'<line class=axis x1="{at:.1f}" y1="{top}" x2="{at:.1f}" y2="{top + 5}"/>')
        marks.append(f'<text class=soft x="{at:.1f}" y="{top + 18}" text-anchor="{anchor}">{spaced(clock)}</text>')
    return "".join(marks)


def run_part(network: Network, outline: Outline, run: clocked.Run, counted: int | None) -> str:
    left, width, lane, gap = 190, 840, 22, 8
    height = len(network.processes) * (lane + gap)
    made = []
    for process in range(len(network.processes)):
        top = process * (lane + gap)
        label = name_of(network, outline, process)
        made.append(
            f'<text x="{left - 10}" y="{top + 15}" text-anchor="end">{text(label if len(label) < 28 else label[:26] + "..")}</text>'
        )
        made.append(bars(run, process, left, top, width, lane))
    chart = (
        f'<svg class=chart role="img" aria-label="what each process does over the clocks" viewBox="0 0 {left + width + 20} {height + 26}" width="100%">'
        f"{''.join(made)}{axis(run, left, width, height)}</svg>"
    )
    rows = []
    for process in range(len(network.processes)):
        doings = run.doings[process]
        waits = sorted(run.waits[process].items(), key=lambda it: -it[1])[:3]
        told = "; ".join(
            f"{spaced(clocks)} for {'a token of' if doing == AWAIT_TOKEN else 'room in'} channel {channel}"
            for (doing, channel), clocks in waits
        )
        ended = doings.find(ENDED)
        rows.append(
            [
                text(name_of(network, outline, process)),
                *[doings.count(it) for it in (FIRE, GET, PUT, AWAIT_TOKEN, AWAIT_ROOM)],
                run.clocks if ended < 0 else ended,
                text(told),
            ]
        )
    keys = [
        ("fire", "fires"),
        ("move", "takes or gives a token"),
        ("token", "waits for a token"),
        ("room", "waits for room"),
        ("rest", "has ended"),
    ]
    key = "".join(f"<span><i class={look}></i>{said}</span>" for look, said in keys)
    checked = ""
    if counted is not None:
        checked = " <code>sim</code> counts the same." if counted == run.clocks else f" <b><code>sim</code> counts {counted}.</b>"
    head = ["process", "#fires", "#gets", "#puts", "#waits for tokens", "#waits for room", "#ends at clock", "waits most"]
    return (
        f"<h2>The clocked run</h2><p>{spaced(run.clocks)} clocks, one clock for all processes: at each every process makes its next event that "
        f"can be made.{checked}</p><div class=key>{key}</div><div class=wide>{chart}</div><br>{table(head, rows)}"
    )


def queue_part(network: Network, outline: Outline, run: clocked.Run) -> str:
    """The lengths over time of the queues that grow longest, and of those for whose room most clocks are waited."""
    waited = [sum(found.get((AWAIT_ROOM, it.number), 0) for found in run.waits) for it in network.channels]
    longest = [max(length for _, length in run.lengths[it.number]) for it in network.channels]
    wanted = sorted(range(len(longest)), key=lambda it: (-longest[it], -waited[it], it))
    wanted = sorted(it for it in wanted[:MOST_QUEUES] if longest[it] > 1 or waited[it])
    if not wanted:
        return "<h2>Queues</h2><p>No queue grows past one token, and no process waits for room.</p>"
    left, width, lane, gap = 190, 840, 46, 16
    made = []
    count = min(STRETCHES, max(run.clocks, 1))
    for place, number in enumerate(wanted):
        channel, top = network.channels[number], place * (lane + gap)
        most = max(channel.capacity, longest[number], 1)
        step = width / count
        points = []
        for at, length in enumerate(clocked.greatest(run, number, count)):
            level = top + lane - lane * length / most
            points += [f"{left + at * step:.2f},{level:.2f}", f"{left + (at + 1) * step:.2f},{level:.2f}"]
        full = top + lane - lane * channel.capacity / most
        writer, reader = outline.statements[channel.writer], outline.statements[channel.reader]
        made.append(f'<text x="{left - 10}" y="{top + 16}" text-anchor="end">channel {number}, {text(channel.form)}</text>')
        made.append(
            f'<text class=soft x="{left - 10}" y="{top + 32}" text-anchor="end">{text(writer.array)} to {text(reader.array)}, at most {longest[number]} of {channel.capacity}</text>'
        )
        made.append(f'<polygon class=move points="{left},{top + lane} {" ".join(points)} {left + width},{top + lane}"/>')
        made.append(f'<line class=full x1="{left}" x2="{left + width}" y1="{full:.2f}" y2="{full:.2f}"/>')
        made.append(f'<line class=axis x1="{left}" x2="{left + width}" y1="{top + lane}" y2="{top + lane}"/>')
    height = len(wanted) * (lane + gap)
    chart = (
        f'<svg class=chart role="img" aria-label="lengths of queues over the clocks" viewBox="0 0 {left + width + 20} {height + 24}" width="100%">'
        f"{''.join(made)}{axis(run, left, width, height)}</svg>"
    )
    return (
        "<h2>Queues</h2><p class=soft>The greatest length in each stretch of the run. The broken line is the capacity. "
        f"{len(wanted)} of {len(network.channels)} channels: those that grow longest or are waited for.</p><div class=wide>{chart}</div>"
    )


def piece_row(outline: Outline, piece: pieces.Piece) -> list[object]:
    conditions = [it for it in map(str, piece.conditions) if it != pieces.ALWAYS]
    where = " and ".join(f"<code>{text(it)}</code>" for it in conditions) or "everywhere"
    if piece.writer is None:
        return [where, "nobody: it is 0"]
    return [where, text(pieces.told(outline, outline.statements[piece.writer], piece.point))]


def read_part(outline: Outline, reads: list[pieces.Read] | None, why: str) -> str:
    if reads is None:
        return f"<h2>Where values come from</h2><p>It isn't told: {text(why)}.</p>"
    made = []
    for it in reads:
        statement = outline.statements[it.statement]
        read = statement.reads[it.number] if it.number < len(statement.reads) else f"read {it.number}"
        place = f"line {statement.line}" if statement.kind == "assign" else f"the sink of {statement.array}"
        made.append(f"<h3><code>{text(read)}</code> <span class=soft>of {text(place)}</span></h3>")
        if it.points is not None:
            rows = [
                [
                    "nobody: it is 0"
                    if writer is None
                    else text(f"line {outline.statements[writer].line}, {outline.statements[writer].array}"),
                    count,
                ]
                for writer, count in sorted(it.counts.items(), key=lambda entry: -entry[1])
            ]
            made.append("<p class=soft>This read has no tree; its points were followed one by one.</p>")
            made.append(table(["from", "#points"], rows))
        else:
            rows = [piece_row(outline, piece) for piece in it.pieces[:MOST_PIECES]]
            if len(it.pieces) > MOST_PIECES:
                rows.append([f"and {len(it.pieces) - MOST_PIECES} pieces more", ""])
            made.append(table(["where", "from"], rows))
    return (
        f"<h2>Where values come from</h2><p class=soft>Each read, and where its values come from: exact at every point.</p>{''.join(made)}"
    )


def remarks(network: Network, outline: Outline, reads: list[pieces.Read] | None) -> str:
    """What a designer would look at: reads that nobody writes, statements that nobody reads, and statements that never run."""
    said = []
    fed = {(it.reader, it.read) for it in network.channels}
    for process in network.processes:
        statement = outline.statements[process.number]
        if process.fires == 0:
            said.append(
                f"{statement.kind if statement.kind != 'assign' else 'line ' + str(statement.line)} <code>{text(statement.text)}</code> never runs."
            )
            continue
        for number, read in enumerate(statement.reads):
            if (process.number, number) not in fed:
                where = f"line {statement.line}" if statement.kind == "assign" else f"the sink of {statement.array}"
                said.append(f"<code>{text(read)}</code> of {text(where)} is written by nobody before it is read: it is always 0.")
    for it in reads or []:
        statement = outline.statements[it.statement]
        partly = None in it.counts or any(piece.writer is None for piece in it.pieces)
        if partly and (it.statement, it.number) in fed and statement.kind == "assign":
            said.append(
                f"<code>{text(statement.reads[it.number])}</code> of line {statement.line} is 0 at some points, where nobody wrote the cell before."
            )
    writers = {it.writer for it in network.channels}
    for process in network.processes:
        statement = outline.statements[process.number]
        if process.kind != "sink" and process.fires and process.number not in writers:
            place = f"line {statement.line}" if process.kind == "assign" else "the source"
            said.append(f"Nobody reads what {place} <code>{text(statement.text)}</code> gives.")
    if not said:
        return "<h2>To look at</h2><p>Every read is written before, every value is read by somebody, and every statement runs.</p>"
    return f"<h2>To look at</h2><ul class=notes>{''.join(f'<li>{it}</li>' for it in said)}</ul>"


def page(asked: Asked) -> str:
    """The page, or Refused where the program makes no network."""
    network = networks.network_of(call(asked, "net"))
    outline = Outline(asked.source, values_of(asked.items))
    trim, why_trim = attempt(asked, "trim")
    trimmed = {int(a): int(b) for a, b in re.findall(r"(?m)^channel (\d+) capacity (\d+) ", trim or "")}
    deps, why_deps = attempt(asked, "deps")
    reads = pieces.reads_of(deps, outline) if deps else None
    run, counted, why_run = None, None, ""
    if network.events <= MOST_EVENTS:
        certificate, why_run = attempt(asked, "cert")
        if certificate:
            scripts = networks.scripts_of(certificate)
            run = clocked.clocked_run(network, scripts) if sum(map(networks.length_of, scripts)) * len(scripts) <= MOST_CLOCKS else None
            why_run = why_run or "it has too many clocks"
        if asked.has_data or not any(it.kind == "source" for it in network.processes):
            simulated = attempt(asked, "sim")[0]
            found = re.search(r"(?m)^clocks (\d+)$", simulated or "")
            counted = int(found[1]) if found else None
    else:
        why_run = f"it has more than {MOST_EVENTS} events"
    title = " ".join([asked.name, *asked.items])
    numbers = [
        (len(network.processes), "processes"),
        (len(network.channels), "channels"),
        (sum(it.capacity for it in network.channels), f"places, by policy {asked.policy}"),
        *([(sum(trimmed.values()), "places, trimmed")] if trimmed else []),
        (network.events, "events"),
        *([(run.clocks, "clocks")] if run else []),
    ]
    items = "".join(f"<li><b>{spaced(number)}</b><span>{said}</span></li>" for number, said in numbers)
    parts = [
        source_part(asked, outline),
        network_part(network, outline, title),
        remarks(network, outline, reads),
        channel_part(network, outline, trimmed, why_trim, run),
        *(
            [run_part(network, outline, run, counted), queue_part(network, outline, run)]
            if run
            else [f"<h2>The clocked run</h2><p>It isn't shown: {text(why_run)}.</p>"]
        ),
        read_part(outline, reads, why_deps),
    ]
    return (
        f'<!DOCTYPE html><html lang="en"><head><meta charset="utf-8"><meta name="viewport" content="width=device-width, initial-scale=1">'
        f"<title>{text(title)}</title><style>{STYLE}</style></head><body><main><h1>{text(title)}</h1>"
        f"<p class=soft>The network of the program and its clocked run, as <code>compaan</code> tells them.</p>"
        f"<ul class=numbers>{items}</ul>{''.join(parts)}</main></body></html>\n"
    )


def main() -> int:
    parser = Parser(prog="./compaan report", description="Writes a page about a program and its network.")
    parser.add_argument("program", metavar="PROGRAM")
    parser.add_argument("file", metavar="FILE")
    parser.add_argument("items", nargs="*", metavar="NAME=VALUE")
    parser.add_argument("--policy", choices=("seq", "down"), default="seq")
    parser.add_argument("--data", metavar="FILE")
    words = parser.parse_args()
    if shutil.which(words.program) is None:
        raise Stop(Status.NO_PROGRAM, f"{words.program} can't be run")
    source = read_file(words.file, BUNDLE_LIMIT)
    data = read_file(words.data, BUNDLE_LIMIT) if words.data else b""
    end = b"" if source.endswith(b"\n") or not source else b"\n"
    asked = Asked(
        words.program, os.path.basename(words.file), source, source + end + b"%%\n" + data, words.items, words.policy, bool(words.data)
    )
    try:
        put(page(asked).encode())
    except Refused as error:
        tell(error.line.decode(errors="replace"), "")
        return error.status
    return 0


if __name__ == "__main__":
    sys.exit(ended(main))
