#!/usr/bin/env python3
"""Each request for memory of the built program refused in turn: by a shim before the C library, and by the kernel.

usage: tools/hostile/memory.py [--jobs JOBS] [--most COUNT] [--only ROW] [--compaan PROGRAM]

Each command is run once to count its requests (calls of malloc, realloc and the like, and starts of threads), and then, for each N up to
that count, with the Nth refused, and again with the Nth and all later ones refused. Every run must end by itself within its time, with
status 10 and both streams empty (11 while the words are taken over, before the top call), or with the output, complaint and status that
it has without refusals, and must have joined the threads that it started; those of trace are waited for by a count. The small rows at the
head, whose texts stand here, are refused each request whatever COUNT is. In each row some refusal must end the run with 10. Where there
is strace, the kernel's own calls (mmap, brk, mremap, mprotect and the start of a thread) are refused in the same way; there the first
calls, as many as /bin/true makes, are the dynamic loader's, which may break off before the program's first instruction, by status 127 or
a signal. Prints a table and one line for each run that isn't as wanted, and fails where there is one. It is a test, outside the proof.
"""
from __future__ import annotations

import itertools
import os
import shutil
import signal
import struct
import sys
import tempfile
from collections import Counter
from collections.abc import Iterable, Iterator, Sequence
from concurrent.futures import Future, ProcessPoolExecutor
from pathlib import Path

sys.path.insert(0, str(Path(__file__).resolve().parents[1]))
from common import examples, parser_of, program_of, stop, table
from hostile import asking
from hostile.asking import End

# A name, the words and the bundle of each run.
Row = tuple[str, list[str], bytes]
# The same with the status and the output that are wanted.
Small = tuple[str, list[str], bytes, int, bytes]
# The statuses of runs, and what isn't as wanted.
Found = tuple[Counter[object], list[str]]

SECONDS = 20
CALLS = "mmap,brk,mremap,mprotect,clone,clone3"
# Where memory is wanting: 11 where the system can't give the words.
WANTING = ((10, b"", b""), (11, b"", b""))


INCREMENT = b"param N; in x[N]; out y[N]; for (i = 0; i < N; i++) y[i] = x[i] + 1;\n"
RUNNING_SUM = b"param N; in x[N]; out s[N]; for (i = 0; i < N; i++) s[i] = s[i-1] + x[i];\n"
NETWORK = b"""net 1
process 0 source x fires 3 slots 0
process 1 assign y fires 3 slots 1
process 2 sink y fires 3 slots 1
channel 0 from 0 to 1 read 0 tokens 3 capacity 3 hold 1 class inorder
channel 1 from 1 to 2 read 0 tokens 3 capacity 3 hold 1 class inorder
events 21
end
"""
NETWORK_OF_SUM = b"""net 1
process 0 source x fires 3 slots 0
process 1 assign s fires 3 slots 2
process 2 sink s fires 3 slots 1
channel 0 from 1 to 1 read 0 tokens 2 capacity 1 hold 1 class inorder
channel 1 from 0 to 1 read 1 tokens 3 capacity 3 hold 1 class inorder
channel 2 from 1 to 2 read 0 tokens 3 capacity 3 hold 1 class inorder
events 25
end
"""
TREES = b"""deps 1
read 1 0
tree
t -1 1
w 1 1
m -1 1
z
read 1 1
tree
w 0 1
m 0 1
read 2 0
tree
w 1 1
m 0 1
end
"""
# The network of the increment with N=3 and its certificate, in version 1 and in version 2.
FIRES = b"""process 0 6
f
p 0
f
p 0
f
p 0
process 1 9
g 0 0
f 0
p 1
g 0 0
f 0
p 1
g 0 0
f 0
p 1
process 1 6
g 1 0
f 0
g 1 0
f 0
g 1 0
f 0
channel 0 1 0 3 inorder
channel 1 2 0 3 inorder
sweep
sweep
"""
WRITTEN_OUT = b"cert 1\nsizes 3 2 2 21\n" + FIRES + b"0\n" * 6 + b"1\n" * 9 + b"2\n" * 6 + b"end\n"


def small_rows(program: str) -> Iterator[Small]:
    """Small runs whose texts stand here, but for that of `cert`, which is what the program writes and `check` accepts."""
    data = b"%%\nx,5,6,7\n"
    made = asking.ask(program, ["cert", "N=3"], INCREMENT).output
    for command in ("run", "seq"):
        yield f"{command} of the increment", [command, "N=3"], INCREMENT + data, 0, b"y,6,7,8\n"
        yield f"{command} of the running sum", [command, "N=3"], RUNNING_SUM + b"%%\nx,1,2,3\n", 0, b"s,1,3,6\n"
    yield "net of the increment", ["net", "N=3"], INCREMENT, 0, NETWORK
    yield "net of the increment, down", ["net", "N=3", "--policy=down"], INCREMENT, 0, NETWORK.replace(b"capacity 3", b"capacity 1")
    yield "net of the running sum", ["net", "N=3"], RUNNING_SUM, 0, NETWORK_OF_SUM
    yield "deps of the running sum, at any size", ["deps", "N=1000000000"], RUNNING_SUM, 0, TREES
    yield "cert of the increment", ["cert", "N=3"], INCREMENT, 0, made
    front = INCREMENT + b"%%\n%%\n"
    for name, text in (("that was made", made), ("that is written out", WRITTEN_OUT)):
        less = text.replace(b"channel 0 1 0 3 inorder", b"channel 0 1 0 2 inorder")
        yield f"check of the certificate {name}", ["check", "N=3"], front + text, 0, b"accepted\n"
        yield f"check of the certificate {name}, a capacity less", ["check", "N=3"], front + less, 1, b"refused NotEnabled 5\n"
    yield "load 2", ["load", "2"], b"", 0, b"points 24\nchannels 5\nevents 64\nsum 9\n"
    yield "sim of the increment", ["sim", "N=3"], INCREMENT + data, 0, b"y,6,7,8\nclocks 13\n"
    trimmed = b"trim 1\nchannel 0 capacity 1 rest 1 0 0\nchannel 1 capacity 1 rest 5 2 0\nend\n"
    yield "trim of the increment", ["trim", "N=3"], INCREMENT, 0, trimmed
    # with N=1 there is one run
    yield "trace of the increment", ["trace", "N=1"], INCREMENT, 0, b"trace 1\n0\n0\n1\n1\n1\n2\n2\nend\n"


def rows(program: str) -> Iterator[Row]:
    fir = examples(["fir"])[0]
    source, items = fir.source, fir.items
    cert = asking.ask(program, ["cert", *items], source).output
    less = cert.replace(b"channel 3 4 0 8 inorder", b"channel 3 4 0 7 inorder")
    both = fir.bundle
    yield "run fir", ["run", *items], both
    yield "seq fir", ["seq", *items], both
    yield "net fir", ["net", *items], source
    yield "net fir, down", ["net", *items, "--policy=down"], source
    yield "cert fir", ["cert", *items], source
    yield "check fir", ["check", *items], both + b"%%\n" + cert
    yield "check fir, a capacity less", ["check", *items], both + b"%%\n" + less
    yield "check fir, cut", ["check", *items], both + b"%%\n" + cert[: len(cert) // 2]
    yield "deps fir", ["deps", *items], source
    yield "deps fir, at any size", ["deps", "N=1000000000", "T=1000000000"], source
    yield "vhdl fir", ["vhdl", *items], source
    yield "run fir, a value less", ["run", *items], both.replace(b",", b"", 1)
    yield "run fir, cut", ["run", *items], both[:100]
    yield "run fir, no values", ["run"], both
    for command in ("sim", "trim", "trace"):
        yield f"{command} fir", [command, *items], both
    yield "no words", [], b""
    nussinov = examples(["nussinov"])[0]
    yield "deps nussinov, with points", ["deps", *nussinov.items], nussinov.source
    for it in examples(["block_peaks", "sobel", "pipeline_60"]):
        yield f"run {it.name}", ["run", *it.items], it.bundle
        yield f"cert {it.name}", ["cert", *it.items], it.source


def said(row: Row, end: End) -> tuple[int, bytes, bytes]:
    """What a run came to. Each call of trace may come to another order of the same events."""
    lines = sorted(end.output.split(b"\n")) if row[1][:1] == ["trace"] else [end.output]
    return end.status, b"\n".join(lines), end.complaint


def are_joined(row: Row, started: int, joined: int) -> bool:
    """Whether all threads were joined. The workers of trace are waited for by a count."""
    return row[1][:1] == ["trace"] or joined == started


def is_reached(row: Row, count: int, number: int, requests: int) -> bool:
    """Whether the request was made and refused. A run of trace makes a request or two more or less by how its threads meet."""
    return count > 0 or (row[1][:1] == ["trace"] and number > requests - 3)


def shown(statuses: Counter[object]) -> str:
    return ", ".join(f"{count} x {status}" for status, count in sorted(statuses.items(), key=str))


class Shim:
    """The shim with its counters."""

    def __init__(self, folder: str) -> None:
        self.folder = folder
        self.library = asking.compiled("shim.c", os.path.join(folder, "shim.so"), "-shared", "-fPIC", "-ldl")

    def ask(self, program: str, words: Sequence[str], bundle: bytes, **what: int) -> tuple[End, tuple[int, ...]]:
        """Runs the program, and returns how it ended and the counters."""
        table = os.path.join(self.folder, f"table-{os.getpid()}")
        with open(table, "wb") as file:
            file.write(bytes(64))
        env = {
            **os.environ,
            "LD_PRELOAD": self.library,
            "HOSTILE_TABLE": table,
            **{f"HOSTILE_{name.upper()}": str(value) for name, value in what.items()},
        }
        end = asking.ask(program, words, bundle, SECONDS, env)
        with open(table, "rb") as file:
            return end, struct.unpack("8q", file.read(64))[:5]


def refused(shim: Shim, program: str, row: Row, plain: End, way: int, numbers: Sequence[int], requests: int) -> Found:
    """The statuses of the runs in which these of so many requests are refused, and what isn't as wanted."""
    name, words, bundle = row
    statuses: Counter[object] = Counter()
    bad: list[str] = []
    for number in numbers:
        end, (_, count, started, joined, _) = shim.ask(program, words, bundle, refuse=number, all=way)
        statuses["hung" if end.hung else end.status] += 1
        is_as_wanted = not end.hung and said(row, end) in (*WANTING, said(row, plain)) and are_joined(row, started, joined)
        if not is_as_wanted or not is_reached(row, count, number, requests):
            bad.append(
                f"{name}, request {number}{' and all later' * way}: {end}, {count} refused, {started} threads, {joined} joined"[:400]
            )
    return statuses, bad


def refused_by_kernel(program: str, row: Row, plain: End, numbers: Sequence[int], loading: int, folder: str) -> Found:
    """The same with the kernel's calls."""
    name, words, bundle = row
    statuses: Counter[object] = Counter()
    bad: list[str] = []
    for number in numbers:
        end, _ = kernel_asks(program, words, bundle, number, folder)
        is_loader = number <= loading and end.status in (127, -signal.SIGSEGV, -signal.SIGKILL) and not end.output
        statuses["hung" if end.hung else "by the loader" if is_loader else end.status] += 1
        if end.hung or not (is_loader or said(row, end) in (*WANTING, said(row, plain))):
            bad.append(f"{name}, kernel call {number}: {end}"[:400])
    return statuses, bad


def kernel_asks(program: str, words: Sequence[str], bundle: bytes, number: int, folder: str) -> tuple[End, int]:
    """Runs the program with the Nth call for memory of each of its threads refused by strace; 0 refuses none. Returns how it ended and
    how many calls its first thread made, and how many any made."""
    log = os.path.join(folder, f"log-{os.getpid()}")
    # where the kernel refuses brk it answers the old break and no error, so it answers less than was asked for
    errors = CALLS.replace("brk,", "")
    refusing = ["-e", f"inject={errors}:error=ENOMEM:when={number}", "-e", f"inject=brk:retval=0:when={number}"] if number else []
    end = asking.ask(program, words, bundle, SECONDS, before=["strace", "-f", "-qq", "-o", log, "-e", f"trace={CALLS}", *refusing])
    with open(log) as file:
        first = [line.split()[0] for line in file if "(" in line and "resumed" not in line]
    return end, max(Counter(first).values(), default=0)


def together(parts: Iterable[Future[Found]]) -> Found:
    """The statuses of several parts of a row, and what isn't as wanted."""
    statuses: Counter[object] = Counter()
    bad: list[str] = []
    for part in parts:
        found = part.result()
        statuses.update(found[0])
        bad += found[1]
    return statuses, bad


def main() -> int:
    parser = parser_of(__doc__)
    parser.add_argument("--jobs", type=int, default=2, help="how many run side by side (2)")
    parser.add_argument(
        "--most", metavar="COUNT", type=int, default=2000, help="of a row with more requests only so many are refused, evenly (2000)"
    )
    parser.add_argument("--only", metavar="ROW", help="the rows whose names begin so")
    given = parser.parse_args()
    program = program_of(given.compaan)
    bad, found, kernel = [], [], []
    small = {row[0]: row for row in small_rows(program)}
    chosen = [it for it in itertools.chain((row[:3] for row in small.values()), rows(program)) if it[0].startswith(given.only or "")]
    if not chosen:
        stop(f"no row begins with {given.only}")
    asking.starter()
    with tempfile.TemporaryDirectory() as folder, ProcessPoolExecutor(given.jobs) as pool:
        shim = Shim(folder)
        has_strace = bool(shutil.which("strace"))
        # what a program that does nothing asks for is asked by the loader
        loading = kernel_asks("/bin/true", [], b"", 0, folder)[1] if has_strace else 0
        rows_found = []
        for row in chosen:
            name, words, bundle = row
            plain, (requests, _, threads, joined, asked) = shim.ask(program, words, bundle)
            unlike = asking.ask(program, words, bundle)
            if said(row, plain) != said(row, unlike) or not are_joined(row, threads, joined) or asked:
                bad.append(
                    f"{name}: the shim changes it, or {threads} threads were started and {joined} joined, or the environment was read {asked} times"
                )
            if name in small and unlike.said != (*small[name][3:], b""):
                bad.append(f"{name}: {unlike} without a refusal"[:400])
            numbers = range(1, requests + 1, 1 if name in small else max(1, -(-requests // given.most)))
            ways = [[pool.submit(refused, shim, program, row, plain, way, numbers[at::8], requests) for at in range(8)] for way in (0, 1)]
            calls = kernel_asks(program, words, bundle, 0, folder)[1] if has_strace else 0
            by_kernel = [
                pool.submit(refused_by_kernel, program, row, plain, range(1, calls + 1)[at::4], loading, folder) for at in range(4)
            ]
            rows_found.append((name, plain.status, requests, len(numbers), threads, calls, ways, by_kernel))
        for name, status, requests, tried, threads, calls, ways, by_kernel in rows_found:
            texts = []
            for parts in (*ways, by_kernel):
                statuses, more = together(parts)
                texts.append(shown(statuses))
                bad += more
                if parts is not by_kernel and not statuses[10]:
                    bad.append(f"{name}: no refusal ends it with 10, so none reached it")
            found.append([name, status, requests, tried, threads, *texts[:2]])
            kernel.append([name, status, calls, texts[2]])
            print(f"{name}: {found[-1][1:]} {kernel[-1][2:]}", file=sys.stderr, flush=True)
    table(
        ["Command", "Status", "Requests", "Tried", "Threads", "Statuses, the Nth refused", "Statuses, the Nth and all later refused"], found
    )
    print()
    if has_strace:
        table(["Command", "Status", "Kernel calls for memory", "Statuses, the Nth refused"], kernel)
    else:
        print("no strace: the kernel's calls were not refused")
    for line in bad:
        print(line)
    print(
        f"{sum(row[3] for row in found)} requests, each refused in two ways, and {sum(row[2] for row in kernel)} kernel calls, {len(bad)} not as wanted"
    )
    return 1 if bad else 0


if __name__ == "__main__":
    sys.exit(main())
