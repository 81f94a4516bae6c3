"""Runs of the program whose end is told: its status, its streams, its time and its memory, with a limit on each."""
from __future__ import annotations

import atexit
import fcntl
import os
import resource
import shutil
import signal
import socket
import struct
import subprocess
import tempfile
import time
from collections.abc import Mapping, Sequence
from pathlib import Path
from typing import NamedTuple

HERE = Path(__file__).resolve().parent
# A stream that the program gets: a descriptor, or that it is closed. None is one of bytes.
Stream = int | str | None


class End(NamedTuple):
    """The end of a run: its status, or minus the number of the signal that ended it; what it wrote; the seconds that passed and those of
    processors; the greatest memory; and whether its time was up."""

    status: int
    output: bytes
    complaint: bytes
    seconds: float
    cpu: float
    kilobytes: int
    hung: bool

    @property
    def said(self) -> tuple[int, bytes, bytes]:
        """What the program came to: status, output and complaint."""
        return self.status, self.output, self.complaint


def compiled(source: str, to: str | os.PathLike[str], *flags: str) -> str:
    """Compiles a C file of this folder."""
    subprocess.run([os.environ.get("CC", "cc"), "-O1", *flags, "-o", to, HERE / source], check=True)
    return os.fspath(to)


STARTERS: dict[str, str] = {}


def starter(name: str = "start") -> str:
    """A small program that starts others, which is compiled once."""
    if name not in STARTERS:
        folder, owner = tempfile.mkdtemp(), os.getpid()

        def remove() -> None:
            # A process that this one was split into leaves it.
            if os.getpid() == owner:
                shutil.rmtree(folder, ignore_errors=True)

        atexit.register(remove)
        STARTERS[name] = compiled(f"{name}.c", os.path.join(folder, name), "-static")
    return STARTERS[name]


def in_memory(data: bytes = b"") -> int:
    """A file in memory with these bytes, to be read from the start."""
    descriptor = os.memfd_create("hostile", os.MFD_CLOEXEC)
    at = 0
    while at < len(data):
        at += os.write(descriptor, data[at : at + (1 << 24)])
    os.lseek(descriptor, 0, os.SEEK_SET)
    return descriptor


def all_of(descriptor: int) -> bytes:
    size = os.fstat(descriptor).st_size
    found = b""
    # One read gives at most 2 GiB.
    while len(found) < size and (piece := os.pread(descriptor, size - len(found), len(found))):
        found += piece
    return found


def ask(
    program: str,
    words: Sequence[str],
    bundle: bytes = b"",
    limit: float = 60.0,
    env: Mapping[str, str] | None = None,
    stdin: Stream = None,
    stdout: Stream = None,
    stderr: Stream = None,
    before: Sequence[str] = (),
) -> End:
    """Runs the program once. A stream is a file that the program gets, or `closed`, and else what it reads is the bundle and what it
    writes comes back. The words `before` it are a command that starts it."""
    made: list[int] = []
    actions: list[tuple[int, ...]] = []
    kept: dict[int, int] = {}
    for number, given in enumerate((stdin, stdout, stderr)):
        if given == "closed":
            actions.append((os.POSIX_SPAWN_CLOSE, number))
            continue
        if given is None:
            given = in_memory(bundle if number == 0 else b"")
            made.append(given)
            kept[number] = given
        actions.append((os.POSIX_SPAWN_DUP2, int(given), number))
    report = in_memory()
    made.append(report)
    actions.append((os.POSIX_SPAWN_DUP2, report, 3))
    late: list[bool] = []

    def end(*_: object) -> None:
        late.append(True)
        os.killpg(child, signal.SIGKILL)

    old = signal.signal(signal.SIGALRM, end)
    start = time.perf_counter()
    child = os.posix_spawn(
        starter(),
        ["start", *before, program, *words],
        os.environ if env is None else env,
        file_actions=actions,
        setpgroup=0,
        setsigdef=[signal.SIGPIPE, signal.SIGXFSZ],
    )
    signal.setitimer(signal.ITIMER_REAL, limit)
    os.waitpid(child, 0)
    seconds = time.perf_counter() - start
    signal.setitimer(signal.ITIMER_REAL, 0)
    signal.signal(signal.SIGALRM, old)
    status, kilobytes, cpu = struct.unpack("3q", all_of(report) or struct.pack("3q", signal.SIGKILL, 0, 0))
    output, complaint = (all_of(kept[number]) if number in kept else b"" for number in (1, 2))
    for descriptor in made:
        os.close(descriptor)
    return End(os.waitstatus_to_exitcode(status), output, complaint, seconds, cpu / 1e6, kilobytes, bool(late))


class Server:
    """A small process that starts programs one after the other, which costs less than `ask` does. Their streams are files in memory that
    serve them all. Several runs on one bundle may be asked for before the first has ended."""

    def __init__(self) -> None:
        self.socket, its = socket.socketpair()
        self.bundle, self.waiting = b"", 0
        self.file, *outputs = (in_memory() for _ in range(3))
        # Each stands above the numbers that it is to have there.
        above = [fcntl.fcntl(it, fcntl.F_DUPFD_CLOEXEC, 16) for it in (its.fileno(), self.file, *outputs)]
        actions = [(os.POSIX_SPAWN_DUP2, it, number) for number, it in enumerate(above, 3)]
        self.process = os.posix_spawn(starter("serve"), ["serve"], os.environ, file_actions=actions)
        for it in (*outputs, *above):
            os.close(it)
        its.close()

    def close(self) -> None:
        """Ends the small process."""
        self.socket.close()
        os.waitpid(self.process, 0)
        os.close(self.file)

    def send(self, program: str, words: Sequence[str], bundle: bytes, limit: float) -> None:
        """Asks for a run. While others are waited for it has their bundle."""
        if bundle != self.bundle:
            assert not self.waiting
            at = 0
            while at < len(bundle):
                at += os.pwrite(self.file, bundle[at : at + (1 << 24)], at)
            os.ftruncate(self.file, len(bundle))
            self.bundle = bundle
        told = b"".join([os.fsencode(it) + b"\0" for it in (program, *words)])
        self.socket.sendall(struct.pack("3q", len(told), len(words) + 1, int(limit * 1e6)) + told)
        self.waiting += 1

    def receive(self) -> End:
        """How the first of the runs that are waited for ended."""
        status, kilobytes, passed, cpu, late, *sizes = struct.unpack("7q", self.taken(56))
        output, complaint = map(self.taken, sizes)
        self.waiting -= 1
        return End(os.waitstatus_to_exitcode(status), output, complaint, passed / 1e6, cpu / 1e6, kilobytes, bool(late))

    def taken(self, size: int) -> bytes:
        found = self.socket.recv(size, socket.MSG_WAITALL) if size else b""
        while len(found) < size and (piece := self.socket.recv(size - len(found), socket.MSG_WAITALL)):
            found += piece
        return found


def keep_below(gigabytes: int) -> None:
    """No program that is started from here on gets more than so much address space."""
    most = resource.getrlimit(resource.RLIMIT_AS)[1]
    limit = gigabytes << 30 if most == resource.RLIM_INFINITY else min(gigabytes << 30, most)
    resource.setrlimit(resource.RLIMIT_AS, (limit, limit))
