#!/usr/bin/env python3
"""The built program with standard streams that fail: what is wanted of each by docs/COMMANDS.md, and what came.

usage: tools/hostile/devices.py [--whole] [--compaan PROGRAM]

Some streams are real ones: a directory, a closed stream, a full device, a pipe whose reader has gone. Others fail after so many bytes,
by a shim that stands before the C library. A row of the table is a stream and a command. For rows "after each count of bytes" there is
one run for each count up to the length of what is read or written with --whole, and else for the first and the last twenty and each
23rd between. Prints the table and one line for each run that
isn't as wanted, and fails where there is one. It is a test, outside the proof.
"""
from __future__ import annotations

import os
import signal
import sys
import tempfile
from collections import Counter
from collections.abc import Iterable, Sequence
from pathlib import Path

sys.path.insert(0, str(Path(__file__).resolve().parents[1]))
from common import examples, parser_of, program_of, table
from hostile import asking
from hostile.asking import End, Stream
from hostile.memory import Shim, shown

# Status, output and complaint of a run.
Said = tuple[int, bytes, bytes]
# A name, the words, the bundle and how it ends with sound streams.
Command = tuple[str, list[str], bytes, Said]
ROWS: list[list[object]] = []
BAD: list[str] = []


def judge(stream: str, name: str, wanted: str, ends: Iterable[tuple[End, Sequence[Said]]]) -> None:
    """A row: a stream, a command, what is wanted in words, and for each run how it ended and how it may end."""
    statuses: Counter[object] = Counter()
    for end, may in ends:
        statuses[end.status] += 1
        if end.hung or end.said not in may:
            BAD.append(f"{stream}, {name}: {end} for {may}"[:500])
    ROWS.append([stream, name, wanted, sum(statuses.values()), shown(statuses)])
    print(f"{stream}, {name}: {ROWS[-1][2:]}", file=sys.stderr, flush=True)


def commands(program: str) -> tuple[list[Command], list[Command]]:
    """Those that answer, and those that complain."""
    fir = examples(["fir"])[0]
    source, items, both = fir.source, fir.items, fir.bundle
    cert = asking.ask(program, ["cert", *items], source).output
    found = [(name, [name, *items], both) for name in ("run", "seq", "net", "cert", "deps", "vhdl", "sim", "trim")]
    found += [("check", ["check", *items], both + b"%%\n" + cert), ("check, refused", ["check", *items], both + b"%%\n" + cert[:-4])]
    # with N=1 this network has one run
    found += [("trace", ["trace", "N=1"], b"param N; in x[N]; out y[N]; for (i = 0; i < N; i++) y[i] = x[i] + 1;\n%%\nx,1\n")]
    found += [("load 2", ["load", "2"], b"")]
    complaining = [
        ("no words", [], b""),
        ("a syntax error", ["run", *items], both[1:]),
        ("no value", ["net"], both),
        ("a limit", ["cert"], b"out y[2147483648];"),
        ("no data", ["seq", *items], source),
        ("no certificate", ["check", *items], both),
    ]
    calls: list[list[tuple[str, list[str], bytes]]] = [found, complaining]
    answers, complaints = (
        [(name, words, bundle, asking.ask(program, words, bundle).said) for name, words, bundle in them] for them in calls
    )
    # With sound streams each that answers ends well, but the one that is refused, and each other says why it doesn't.
    for name, _, _, said in answers:
        if said[0] != ("refused" in name) or not said[1] or said[2]:
            BAD.append(f"{name} with sound streams: {said}"[:500])
    for (name, _, _, said), status in zip(complaints, (2, 6, 7, 8, 9, 5), strict=True):
        if said[0] != status or said[1] or not said[2]:
            BAD.append(f"{name} with sound streams: {said}"[:500])
    return answers, complaints


def counts_to(length: int, whole: bool) -> list[int]:
    """The counts from 0 up to this one, or most of those near the ends and some between."""
    return sorted({it for it in range(length + 1) if whole or min(it, length - it) < 20 or it % 23 == 0})


def gone() -> int:
    """The writing end of a pipe whose reader has gone."""
    reader, writer = os.pipe()
    os.close(reader)
    return writer


def full_pipe() -> tuple[int, int]:
    """The writing end of a pipe that is full and doesn't wait, and its reading end, which is to stay."""
    reader, writer = os.pipe()
    os.set_blocking(writer, False)
    try:
        while True:
            os.write(writer, bytes(4096))
    except BlockingIOError:
        return writer, reader


def empty_pipe() -> tuple[int, int]:
    """The reading end of an empty pipe that doesn't wait, and its writing end, which is to stay."""
    reader, writer = os.pipe()
    os.set_blocking(reader, False)
    return reader, writer


def main() -> int:
    parser = parser_of(__doc__)
    parser.add_argument("--whole", action="store_true", help="each count of bytes, and not only those near the ends and some between")
    given = parser.parse_args()
    program = program_of(given.compaan)
    ordinary, complaining = commands(program)
    with tempfile.TemporaryDirectory() as folder:
        shim = Shim(folder)
        plain_file = os.path.join(folder, "file")
        with open(plain_file, "wb") as file:
            file.write(b"text")
        # what is no descriptor is made so that it lives as long as the table is made
        ends = full_pipe(), empty_pipe()
        bad_inputs: list[tuple[str, Stream]] = [
            ("a directory", os.open("/", os.O_RDONLY)),
            ("closed", "closed"),
            ("a stream that is open for writing alone", os.open(plain_file, os.O_WRONLY)),
            ("an empty pipe that doesn't wait", ends[1][0]),
        ]
        bad_outputs: list[tuple[str, Stream]] = [
            ("a full device", os.open("/dev/full", os.O_WRONLY)),
            ("closed", "closed"),
            ("a pipe whose reader has gone", gone()),
            ("a stream that is open for reading alone", os.open(plain_file, os.O_RDONLY)),
            ("a full pipe that doesn't wait", ends[0][0]),
        ]

        for stream, fd in bad_inputs:
            reading = [it for it in ordinary if it[0] != "load 2"]
            runs = [(asking.ask(program, words, stdin=fd), [(3, b"", b"")]) for _, words, _, _ in reading]
            judge("input: " + stream, "each but load", "3, nothing written", runs)
            _, words, _, plain = ordinary[-1]
            judge("input: " + stream, "load 2", "as ever", [(asking.ask(program, words, stdin=fd), [plain])])
            _, words, _, plain = complaining[0]
            judge("input: " + stream, "no words", "as ever", [(asking.ask(program, words, stdin=fd), [plain])])
        for name, words, bundle, plain in ordinary[:-1]:
            runs = [(shim.ask(program, words, bundle, read=count)[0], [(3, b"", b"")]) for count in counts_to(len(bundle), given.whole)]
            judge("input: an error after each count of bytes", name, "3, nothing written", runs)
            judge(
                "input: an error after more bytes than it has",
                name,
                "as ever",
                [(shim.ask(program, words, bundle, read=len(bundle) + 1, piece=len(bundle))[0], [plain])],
            )
        for name, words, bundle, plain in ordinary + complaining:
            runs = [(shim.ask(program, words, bundle, piece=size)[0], [plain]) for size in (1, 7, 16)]
            judge("all streams: pieces of 1, 7 and 16 bytes", name, "as ever", runs)
            # the C library's calls are broken off so only where a handler of a signal is set, and the program sets none
            may = [plain, (3, b"", b""), (4, b"", b"")]
            judge(
                "all streams: each second call broken off", name, "as ever, 3 or 4", [(shim.ask(program, words, bundle, again=1)[0], may)]
            )

        for stream, fd in bad_outputs:
            runs = [(asking.ask(program, words, bundle, stdout=fd), [(4, b"", b"")]) for _, words, bundle, _ in ordinary]
            judge("output: " + stream, "each", "4, no complaint", runs)
            runs = [(asking.ask(program, words, bundle, stdout=fd), [plain]) for _, words, bundle, plain in complaining]
            judge("output: " + stream, "each that is refused", "as ever", runs)
        for name, words, bundle, plain in ordinary:
            counts = counts_to(len(plain[1]) - 1, given.whole)
            runs = [(shim.ask(program, words, bundle, write=count)[0], [(4, plain[1][:count], b"")]) for count in counts]
            judge("output: full after each count of bytes", name, "4, and so many bytes", runs)
            judge("output: full behind all bytes", name, "as ever", [(shim.ask(program, words, bundle, write=len(plain[1]))[0], [plain])])

        for stream, fd in bad_outputs:
            runs = [(asking.ask(program, words, bundle, stderr=fd), [(4, b"", b"")]) for _, words, bundle, _ in complaining]
            judge("complaints: " + stream, "each that is refused", "4, no output", runs)
            runs = [(asking.ask(program, words, bundle, stderr=fd), [plain]) for _, words, bundle, plain in ordinary]
            judge("complaints: " + stream, "each", "as ever", runs)
        for name, words, bundle, plain in complaining:
            runs = [(shim.ask(program, words, bundle, complain=count)[0], [(4, b"", plain[2][:count])]) for count in range(len(plain[2]))]
            judge("complaints: full after each count of bytes", name, "4, and so many bytes", runs)

        runs = [
            (asking.ask(program, words, bundle, stdin="closed", stdout="closed", stderr="closed"), [(3, b"", b"")])
            for _, words, bundle, _ in ordinary[:-1]
        ]
        judge("all three closed", "each but load", "3", runs)
        runs = [
            (asking.ask(program, words, stdin="closed", stdout="closed", stderr="closed"), [(4, b"", b"")]) for words in (["load", "2"], [])
        ]
        judge("all three closed", "load 2, no words", "4", runs)

        # The system itself ends a program that writes past a limit on the size of files, where the signal isn't ignored.
        runs = []
        for _, words, bundle, _ in ordinary:
            fd = os.open(os.path.join(folder, "limited"), os.O_RDWR | os.O_CREAT | os.O_TRUNC)
            end = asking.ask(program, words, bundle, stdout=fd, before=["sh", "-c", 'ulimit -f 0 && exec "$@"', "sh"])
            os.close(fd)
            runs.append((end, [(4, b"", b""), (-signal.SIGXFSZ, b"", b"")]))
        judge("output: a file above the limit on the size of files", "each", "4, or ended by the system's SIGXFSZ", runs)
    table(["Stream", "Command", "Wanted", "Runs", "Statuses"], ROWS)
    for line in BAD:
        print(line)
    print(f"{sum(int(str(row[3])) for row in ROWS)} runs, {len(BAD)} not as wanted")
    return 1 if BAD else 0


if __name__ == "__main__":
    sys.exit(main())
