"""Runs the program. A signal that ends the script ends that first."""
import os
import sys

# The system's signals without their names, the making of which takes as long as half of an answer.
import _signal as signal

from .base import TYPE_CHECKING, Status, Stop, printable, write_all

if TYPE_CHECKING:
    from collections.abc import Callable, Sequence

ENDING = (signal.SIGTERM, signal.SIGHUP, signal.SIGINT, signal.SIGQUIT)
# Python ignores these when it starts, and the program is to have them as the script had them.
IGNORED_BY_PYTHON = (signal.SIGPIPE, signal.SIGXFSZ)
BLOCK = 1 << 16


class Signalled(Exception):
    """A signal that is to end the script came, and what ran for it has ended by that."""

    def __init__(self, number: int) -> None:
        super().__init__(number)
        self.number = number

    def end(self) -> None:
        """Ends the script by it. Whoever started the script sees what ended it."""
        signal.signal(self.number, signal.SIG_DFL)
        os.kill(os.getpid(), self.number)


class Answer:
    """What the program came to: its status as a shell has it, what was read of its output and its complaint, and the signal that ended
    it, or 0."""

    def __init__(self, status: int, output: bytes, complaint: bytes, signal: int) -> None:
        self.status, self.output, self.complaint, self.signal = status, output, complaint, signal


def ended_by_default() -> None:
    """Has Ctrl-C and a closed pipe end the script at once, where nothing runs for it."""
    signal.signal(signal.SIGINT, signal.SIG_DFL)
    signal.signal(signal.SIGPIPE, signal.SIG_DFL)


class Passing:
    """While something runs, a signal to the script goes to that, and ends the script when it has ended."""

    def __init__(self) -> None:
        self.received: "list[int]" = []
        self.before: "dict[int, object]" = {}
        # Sends a signal to what runs.
        self.send: "Callable[[int], None] | None" = None

    def __enter__(self) -> "Passing":
        for it in ENDING:
            self.before[it] = signal.getsignal(it)
            # A signal that is ignored, as by nohup, stays so.
            if self.before[it] is not signal.SIG_IGN:
                signal.signal(it, self.pass_on)
        return self

    def pass_on(self, number: int, _: object = None) -> None:
        self.received.append(number)
        if self.send is not None:
            # What doesn't end by the first signal ends by the second.
            try:
                self.send(number if len(self.received) == 1 else signal.SIGKILL)
            except OSError:
                pass

    def runs(self, send: "Callable[[int], None]") -> None:
        """Signals can be sent from now on, and one that came before is."""
        self.send = send
        if self.received:
            self.pass_on(self.received.pop())

    def __exit__(self, *_: object) -> None:
        for it, handler in self.before.items():
            signal.signal(it, handler)
        if self.received:
            raise Signalled(self.received[0])


def in_memory(text: bytes) -> int:
    """A text as a file in memory, by its descriptor, so that a program that doesn't read it troubles nobody."""
    descriptor = os.memfd_create("bundle")
    try:
        write_all(descriptor, text)
        os.lseek(descriptor, 0, os.SEEK_SET)
    except OSError:
        os.close(descriptor)
        raise
    return descriptor


def run(program: str, words: "Sequence[str]", given: "bytes | None", reads_output: bool = False) -> Answer:
    """Runs the program. Without a bundle it has the script's standard input. Its complaint is read to explain it, its output where
    that is wanted; what isn't read goes where the script's does."""
    opened: list[int] = []
    # What the program has as its standard streams, and where that is read.
    streams: dict[int, int] = {}
    read: dict[int, int] = {}
    try:
        if given is not None:
            streams[0] = in_memory(given)
            opened.append(streams[0])
        for stream, is_read in ((1, reads_output), (2, sys.stderr is not None)):
            if is_read:
                read[stream], streams[stream] = os.pipe()
                opened += [read[stream], streams[stream]]
        with Passing() as passing:
            process = spawned(program, words, streams)
            passing.runs(lambda number: os.kill(process, number))
            for stream in read:
                os.close(streams[stream])
                opened.remove(streams[stream])
            texts = texts_from(read)
            # Until it is waited for its number is no other's.
            os.waitid(os.P_PID, process, os.WEXITED | os.WNOWAIT)
            passing.send = None
            status = os.waitstatus_to_exitcode(os.waitpid(process, 0)[1])
    finally:
        for it in opened:
            os.close(it)
    return Answer(128 - status if status < 0 else status, texts.get(1, b""), texts.get(2, b""), max(0, -status))


def spawned(program: str, words: "Sequence[str]", streams: dict[int, int]) -> int:
    """Starts the program with these descriptors as its standard streams, and gives the number of its process."""
    actions = []
    for stream, descriptor in sorted(streams.items()):
        if stream == descriptor:
            os.set_inheritable(descriptor, True)
        else:
            actions.append((os.POSIX_SPAWN_DUP2, descriptor, stream))
    try:
        return os.posix_spawnp(program, [program, *words], os.environ, file_actions=actions, setsigdef=IGNORED_BY_PYTHON)
    except (OSError, ValueError) as error:
        why = getattr(error, "strerror", None) or "a word or the name holds a byte that none can"
        whose = " (COMPAAN names it)" if program == os.environ.get("COMPAAN") else ""
        raise Stop(Status.NO_PROGRAM, f"{printable(program)} can't be run: {why}{whose}") from None


def texts_from(read: dict[int, int]) -> dict[int, bytes]:
    """What is written into the pipes that are read at these descriptors, until each is closed."""
    blocks: dict[int, list[bytes]] = {stream: [] for stream in read}
    waiting = dict(read)
    while waiting:
        for stream in ready(waiting):
            block = os.read(waiting[stream], BLOCK)
            if block:
                blocks[stream].append(block)
            else:
                del waiting[stream]
    return {stream: b"".join(it) for stream, it in blocks.items()}


def ready(waiting: dict[int, int]) -> list[int]:
    """The streams that something can be read of, or one that is the only one."""
    if len(waiting) == 1:
        return list(waiting)
    from select import select

    found = select(list(waiting.values()), [], [])[0]
    return [stream for stream, descriptor in waiting.items() if descriptor in found]
