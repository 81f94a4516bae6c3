"""What all parts of the script stand on: its folders, its statuses, and how it says something."""
import os
import sys

# What only types name is imported where types are checked: each answer waits for the imports that are made.
TYPE_CHECKING = False

# The repository's folder.
HERE = os.path.dirname(os.path.dirname(os.path.dirname(os.path.realpath(__file__))))
# The programs, by the names of their crates: the second writes whole designs.
COMPAAN, RTL = "compaan", "compaan_rtl"
# What is kept, beside the crates' own folders out/, which the toolchain makes and empties.
KEPT = f"{HERE}/out"


class Status:
    """The script's own statuses, apart from the program's, which are 0 to 11."""

    WRONG_WORDS = 64
    NO_FILE = 66
    NO_PROGRAM = 69
    OWN_FAULT = 70
    SYSTEM = 71
    NOT_WRITTEN = 73
    NO_OUTPUT = 74


class Stop(Exception):
    """Ends the script with this status and one line on standard error."""

    def __init__(self, status: int, text: str) -> None:
        super().__init__(text)
        self.status, self.text = status, text


def printable(text: str) -> str:
    """A text as a terminal may have it: a name of a file can hold any bytes."""
    return "".join(it if it.isprintable() or it == "\t" else "\N{REPLACEMENT CHARACTER}" for it in text)


def write_all(descriptor: int, text: bytes) -> None:
    """Writes all of a text. Nothing is left in a buffer, which Python would try to write again when it ends."""
    rest = memoryview(text)
    while rest:
        rest = rest[os.write(descriptor, rest) :]


def tell(text: str, end: str = "\n") -> None:
    """Says something on standard error. Where that is closed or full there is nowhere to say so."""
    if sys.stderr is not None:
        try:
            write_all(2, (text + end).encode(errors="replace"))
        except OSError:
            pass


def put(text: bytes) -> None:
    """Writes on standard output what is the script's own answer."""
    if sys.stdout is None:
        raise Stop(Status.NO_OUTPUT, "standard output is closed")
    try:
        write_all(1, text)
    except OSError as error:
        raise Stop(Status.NO_OUTPUT, f"standard output can't be written: {error.strerror}") from None


def number(value: int) -> str:
    """A number with commas between thousands."""
    return f"{value:,}"
