"""A place in a file, as a person finds it: its line, its column, and the line with a caret below."""
from __future__ import annotations

import re
from dataclasses import dataclass

from .base import printable
from .bundle import Part

# How much of a long line is shown.
SHOWN = 100
# The bytes of UTF-8 that go on with a character. A column is a character, so they have none.
GOING_ON = bytes(range(0x80, 0xC0))


@dataclass(frozen=True)
class Place:
    """A byte of a part. One at the part's end is shown behind the last text there."""

    part: Part
    byte: int

    @property
    def at_end(self) -> bool:
        return self.byte >= self.part.end - self.part.first

    @property
    def at(self) -> int:
        """The byte in the file."""
        if not self.at_end:
            return self.part.first + self.byte
        at = self.part.end
        while at > self.part.first and self.part.whole[at - 1] in b" \t\r\n\v\f":
            at -= 1
        return at

    @property
    def name_there(self) -> str:
        found = re.compile(rb"\w*").match(self.part.whole, self.at)
        return found[0][:SHOWN].decode(errors="replace") if found else ""

    def head(self) -> str:
        """`FILE:LINE:COLUMN`."""
        whole, at = self.part.whole, self.at
        start = whole.rfind(b"\n", 0, at) + 1
        line = whole.count(b"\n", 0, start) + 1
        column = len(whole[start:at].translate(None, GOING_ON)) + 1
        return f"{self.part.name}:{line}:{column}"

    def lines(self, why: str) -> list[str]:
        """`FILE:LINE:COLUMN: why`, the line, of a long one what stands round the place, and a caret. What it costs doesn't grow with the
        line, but for the search of its beginning and its end."""
        whole, at = self.part.whole, self.at
        start = whole.rfind(b"\n", 0, at) + 1
        end = whole.find(b"\n", at)
        end = len(whole) if end < 0 else end
        # A character has at most four bytes.
        before = whole[max(start, at - 4 * SHOWN) : at].decode(errors="replace")
        behind = whole[at : min(end, at + 4 * SHOWN)].rstrip(b"\r").decode(errors="replace")
        is_cut_before = len(before) > SHOWN // 2 or start < at - 4 * SHOWN
        if is_cut_before:
            before = before[-(SHOWN // 2) :]
        room = SHOWN - len(before)
        is_cut_behind = len(behind) > room or at + 4 * SHOWN < end
        text = printable(before + behind[:room])
        lead, tail = ".. " if is_cut_before else "", " .." if is_cut_behind else ""
        blank = "".join(it if it == "\t" else " " for it in lead + text[: len(before)])
        return [f"{self.head()}: {why}", f"  {lead}{text}{tail}", f"  {blank}^"]
