"""The sums of the sources, which say what a kept program was made of, and how they are had without reading the sources again.

Beside a sum it is kept what the system told of each file and folder that it was made of: the size, the times of the last change of the
contents and of anything, and the file's own number. While it tells the same, the sum holds: nobody sets the time of the last change
of anything, and a file that is added or taken away changes its folder's. A file that was changed in the moments before it was read could
be changed again within the same tick of the system's clock, so of such a one nothing is kept, and it is read again next time.
"""
import os
import time

from .base import COMPAAN, HERE, KEPT

CODE = ("src",)
# What is proved of the code. A program that was proved once stays so, whatever becomes of the proofs.
STATEMENTS = ("src", "specs")
# How long a file has to have been as it is, in nanoseconds. The clocks of file systems tick at least so often.
SETTLED = 3_000_000_000
# A record has a line with its form, one with the sum, a line for each file and folder, and one that ends it.
FORM, END = b"sum 1", b"end"
TOP = os.fsencode(HERE)


def told_of(path: bytes) -> bytes:
    """What the system tells of a file or a folder of the repository."""
    try:
        it = os.stat(b"%b/%b" % (TOP, path))
    except OSError:
        return b"none"
    return b"%d %d %d %d" % (it.st_size, it.st_ino, it.st_mtime_ns, it.st_ctime_ns)


def sum_of(parts: "tuple[str, ...]", program: str = COMPAAN) -> str:
    """A sum over the bytes of these parts of the crates that a program is made of."""
    return recorded(record_of(parts, program)) or read_sum_of(parts, program)


def record_of(parts: "tuple[str, ...]", program: str) -> str:
    return f"{KEPT}/sum-of-{'-'.join(parts if program == COMPAAN else (*parts, program))}"


def recorded(record: str) -> "str | None":
    """The sum of this record, if all that it was made of is as it was."""
    try:
        with open(record, "rb") as file:
            form, total, *lines, end = file.read().split(b"\n")
    except (OSError, ValueError):
        return None
    if (form, end) != (FORM, END):
        return None
    for line in lines:
        told, _, path = line.partition(b"\t")
        if told_of(path) != told:
            return None
    return total.decode(errors="replace")


def read_sum_of(parts: "tuple[str, ...]", program: str = COMPAAN) -> str:
    """The same by reading the sources. It is kept where they have been as they are for a while."""
    from .sources import sum_by_reading

    begun = time.time_ns()
    told: dict[bytes, bytes] = {}

    def look(path: str) -> None:
        name = os.fsencode(path)[len(TOP) + 1 :]
        told.setdefault(name, told_of(name))

    total = sum_by_reading(parts, look, program)
    changes = [int(time_of) for it in told.values() for time_of in it.split()[2:]]
    if max(changes, default=0) + SETTLED < begun and not any(b"\n" in it for it in told):
        keep(record_of(parts, program), b"\n".join([FORM, total.encode(), *[b"%b\t%b" % (it, name) for name, it in told.items()], END]))
    return total


def keep(record: str, text: bytes) -> None:
    """Keeps a record, if the folder for that is there. Where it can't be kept the sources are read again next time."""
    part = f"{record}.{os.getpid()}"
    try:
        with open(part, "wb") as file:
            file.write(text)
        os.replace(part, record)
    except OSError:
        try:
            os.unlink(part)
        except OSError:
            pass
