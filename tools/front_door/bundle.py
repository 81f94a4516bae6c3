"""The files of a call, as the one bundle that the program reads, and the parts of it that places are told for."""
import sys

from .base import TYPE_CHECKING, Status, Stop, printable

if TYPE_CHECKING:
    from typing import BinaryIO

    from .words import Words

# The most bytes that the program reads.
BUNDLE_LIMIT = 67_108_864


class Part:
    """A part of the bundle: a stretch of a file."""

    def __init__(self, name: str, whole: bytes, first: int, end: int) -> None:
        self.name, self.whole, self.first, self.end = name, whole, first, end

    @property
    def text(self) -> bytes:
        return self.whole[self.first : self.end]


class Bundle:
    """What the program reads. The parts are told apart only where a complaint is about one."""

    def __init__(self, name: str, file: bytes) -> None:
        self.name, self.bytes = name, file
        # The bytes of FILE, and the source as it stands there.
        self.file = file
        # The files that --data and --certificate name, each by its name and bytes.
        self.given_data: "tuple[str, bytes] | None" = None
        self.given_certificate: "tuple[str, bytes] | None" = None

    def part(self, number: int) -> "Part | None":
        """The source, the data or the certificate by its number, 0 to 2, in the file where it stands."""
        given = (None, self.given_data, self.given_certificate)[number]
        if given is not None:
            return Part(given[0], given[1], 0, len(given[1]))
        first = 0
        for _ in range(number):
            _, behind = separator(self.file, first)
            if behind is None:
                return None
            first = behind
        end = len(self.file) if number == 2 else separator(self.file, first)[0]
        return Part(self.name, self.file, first, end)

    @property
    def source(self) -> Part:
        part = self.part(0)
        assert part is not None
        return part


def separator(text: bytes, first: int) -> "tuple[int, int | None]":
    """Where the first separator from this byte on begins, and where what is behind it does; or the text's end, and None."""
    at = first if text.startswith(b"%%", first) else line_with_mark(text, first)
    while at >= 0:
        behind = at + 2
        if behind == len(text):
            return at, behind
        for end in (b"\n", b"\r\n"):
            if text.startswith(end, behind):
                return at, behind + len(end)
        at = line_with_mark(text, behind)
    return len(text), None


def line_with_mark(text: bytes, first: int) -> int:
    """Where the first line behind this byte begins that begins with %%, or -1."""
    found = text.find(b"\n%%", first)
    return found + 1 if found >= 0 else -1


def shown(name: str) -> str:
    return "(standard input)" if name == "-" else printable(name)


def read_file(name: str, room: int) -> bytes:
    """The bytes of a file, or so many of them that the program refuses the bundle: some files have no end."""
    try:
        if name == "-":
            if sys.stdin is None:
                raise Stop(Status.NO_FILE, "- can't be read: standard input is closed")
            return read_from(sys.stdin.buffer, room)
        with open(name, "rb") as file:
            return read_from(file, room)
    except (OSError, ValueError) as error:
        why = error.strerror if isinstance(error, OSError) else "no file has such a name"
        raise Stop(Status.NO_FILE, f"{shown(name)} can't be read: {why}") from None


def read_from(file: "BinaryIO", room: int) -> bytes:
    return file.read(max(room, 0) + 1)


def with_last_line_ended(text: bytes) -> bytes:
    return text if not text or text.endswith(b"\n") else text + b"\n"


def refuse_separator(name: str, text: bytes) -> None:
    if separator(text, 0)[1] is not None or text.endswith(b"\n%%\r") or text == b"%%\r":
        raise Stop(
            Status.WRONG_WORDS,
            f"{shown(name)} has a line %%, which parts a bundle: --data and --certificate want files without one",
        )


def bundle_of(words: "Words") -> Bundle:
    """Reads the files of a call. Together they have at most a byte more than the program takes."""
    name = words.file or "-"
    text = read_file(name, BUNDLE_LIMIT)
    made = Bundle(shown(name), text)
    if words.data is None and words.certificate is None:
        return made
    refuse_separator(name, text)
    pieces = [with_last_line_ended(text), b"%%\n"]
    if words.data is not None:
        data = read_file(words.data, BUNDLE_LIMIT - sum(map(len, pieces)))
        refuse_separator(words.data, data)
        made.given_data = (shown(words.data), data)
        pieces.append(data)
    if words.certificate is not None:
        pieces = [*pieces[:-1], with_last_line_ended(pieces[-1]), b"%%\n"]
        text = read_file(words.certificate, BUNDLE_LIMIT - sum(map(len, pieces)))
        made.given_certificate = (shown(words.certificate), text)
        pieces.append(text)
    made.bytes = b"".join(pieces)
    return made
