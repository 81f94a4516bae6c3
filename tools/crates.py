"""The crates of the repository: their list, their folders, and what one reads of Rattle's text by patterns.

No pattern understands the language. What these scripts find out is compared with pages and with tests, and a new form of text that a pattern
misses is told there as something that lacks.
"""
from __future__ import annotations

import re
from collections.abc import Iterator
from pathlib import Path

from front_door.paths import TOP
from front_door.sources import LIST, listed

CRATES = TOP / "crates"
OPENING, CLOSING = "{([", "})]"


def crates() -> list[str]:
    """The crates that have code, by name."""
    return sorted(it.parent.name for it in CRATES.glob("*/src"))


def crates_below(path: Path = LIST) -> dict[str, list[str]]:
    """Each crate of the list, lowest first, with those of the repository that it names."""
    found = listed(path)
    return {name: [it for it in below if it in found] for name, below in found.items()}


def files_of(crate: str, part: str, ending: str) -> list[Path]:
    """The files of a part of a crate, as `src` or `specs`."""
    return sorted((CRATES / crate / part).rglob(f"*{ending}"))


def read(path: Path) -> str:
    return path.read_text(encoding="utf-8")


def without_comments(text: str) -> str:
    return re.sub(r"//[^\n]*", "", text)


def closing(text: str, at: int) -> int:
    """Where the bracket at this place is closed, or the last place."""
    depth = 0
    for found in re.compile(r"[{}()\[\]]").finditer(text, at):
        depth += 1 if found[0] in OPENING else -1
        if depth == 0:
            return found.start()
    return len(text) - 1


def handed_out(crate: str) -> set[str]:
    """The names that a crate's src/lib.rt hands out."""
    root = CRATES / crate / "src" / "lib.rt"
    library = without_comments(read(root)) if root.exists() else ""
    found = set(re.findall(r"(?m)^pub (?:fn|struct|enum|trait) (\w+)", library))
    for names in re.findall(r"(?m)^pub use [\w:]+?::\{([^}]*)\}\s*;", library):
        found |= {name.strip() for name in names.split(",") if name.strip()}
    return found | set(re.findall(r"(?m)^pub use [\w:]+::(\w+)\s*;", library))


def clauses(text: str, at: int) -> Iterator[str]:
    """The clauses behind the parameters of the function that begins at this place, each with its braces."""
    place = closing(text, text.index("(", at)) + 1
    clause = re.compile(r"\s*(?:requires|ensures)\*?\s*\w*\s*\{")
    while place < len(text) and text[place] not in "{;":
        found = clause.match(text, place)
        if found is None:
            place += 1
            continue
        place = closing(text, found.end() - 1) + 1
        yield text[found.end() - 1 : place]
