"""What is said where memory was wanting, of which the program has no line: a line for it would want memory too."""
from __future__ import annotations

import re
import resource

from .base import number, printable
from .paths import TOP
from .words import Words

# The program's own status for it.
NO_MEMORY = 10
PAGE = TOP / "docs" / "SECURITY.md"
LETTERS = {"B": "the bundle's bytes", "P": "the points", "E": "the events"}


def growth(command: str | None) -> str | None:
    """What the memory of a command grows with, by the page's table, or None where that doesn't tell it."""
    try:
        lines = PAGE.read_text(encoding="utf-8").split("\n")
    except OSError:
        return None
    for line in lines:
        cells = [it.strip() for it in line.strip("|").split("|")]
        if len(cells) == 3 and re.search(rf"`{re.escape(command or '')}[ `]", cells[0]):
            return re.sub(r"\b[BPE]\b", lambda found: LETTERS[found[0]], cells[2])
    return None


def said_of_memory(words: Words) -> str:
    """The line for a call for which memory was wanting."""
    most = resource.getrlimit(resource.RLIMIT_AS)[0]
    limit = "" if most == resource.RLIM_INFINITY else f", which may have {number(most >> 20)} MiB of addresses"
    grown = growth(words.command)
    more = f" (docs/{PAGE.name}: it grows with {grown})" if grown else f" (docs/{PAGE.name})"
    return printable(
        f"compaan: memory was wanting for {' '.join(words.passed)}{limit}: nothing was written, and that is no verdict on the bundle{more}"
    )
