"""Where a record of the data begins, and a value in it."""
from __future__ import annotations

import csv
import io
import re
from collections.abc import Iterator

from .bundle import BUNDLE_LIMIT

MARK = b"\xef\xbb\xbf"
FIELD = re.compile(rb'"[^"]*+(?:""[^"]*+)*+"?[^,\r\n]*|[^,\r\n]*')
BLOCK = 1 << 16


class Lines:
    """The lines of a text, each with its end, of which `taken` bytes were handed out."""

    def __init__(self, text: bytes) -> None:
        # In this encoding a character is a byte.
        self.file = io.TextIOWrapper(io.BytesIO(text), "latin-1", newline="")
        self.taken = 0

    def __iter__(self) -> Iterator[str]:
        return self

    def __next__(self) -> str:
        line = self.file.readline()
        if not line:
            raise StopIteration
        self.taken += len(line)
        return line


def record_start(text: bytes, number: int) -> int | None:
    """The byte at which the record of this number begins, counted from 1. Only what stands before it is read."""
    skipped = len(MARK) if text.startswith(MARK) else 0
    lines = Lines(text[skipped:])
    csv.field_size_limit(BUNDLE_LIMIT)
    reader = csv.reader(lines)
    seen = 0
    while seen < number - 1:
        record = next(reader, None)
        if record is None:
            return None
        # An empty line is no record.
        seen += record != []
    at = skipped + lines.taken
    while text[at : at + 1] in (b"\r", b"\n"):
        at += 1
    return at


def field_start(text: bytes, at: int, number: int) -> int:
    """The byte at which the field of this number, counted from 0, begins in the record that begins here and has it."""
    while number:
        block = text[at : at + BLOCK]
        last = block.rfind(b",") + 1
        commas = block.count(b",")
        if b'"' in block or last == 0 or commas > number:
            break
        at, number = at + last, number - commas
    for _ in range(number):
        found = FIELD.match(text, at)
        assert found is not None
        at = found.end() + 1
    while text[at : at + 1] in (b" ", b"\t"):
        at += 1
    return at
