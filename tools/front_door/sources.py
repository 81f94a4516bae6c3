"""The sources that the program is made of. They are told apart by a sum over their bytes, and not by times of change."""
from __future__ import annotations

import hashlib
import os
import re
from collections.abc import Callable
from pathlib import Path

from .base import Status, Stop
from .paths import TOP

LIST = TOP / "crates.txt"
CONTRIBUTING = TOP / "docs" / "CONTRIBUTING.md"


def listed(path: Path = LIST) -> dict[str, list[str]]:
    """Each crate of the list with those that it names, of the repository and of the toolchain."""
    try:
        lines = path.read_text(encoding="utf-8").split("\n")
    except (OSError, UnicodeDecodeError) as error:
        raise Stop(Status.NO_PROGRAM, f"{path} can't be read: {error}") from None
    found = {}
    for line in lines:
        name, colon, rest = line.split("#")[0].partition(":")
        if colon and name.split():
            found[name.split()[0]] = rest.split()
    return found


def crates_below(name: str) -> list[str]:
    """The crates of the repository that this one stands on, lowest first."""
    names = listed()
    found: list[str] = []

    def visit(crate: str) -> None:
        for below in names.get(crate, []):
            if below in names and below not in found:
                visit(below)
                found.append(below)

    visit(name)
    return found


def sum_by_reading(parts: tuple[str, ...], look: Callable[[str], None], program: str) -> str:
    """A sum over these parts of the crates that a program is made of. What it is made of is looked at before it is read."""
    look(str(LIST))
    total = hashlib.sha256()
    for crate in [*crates_below(program), program]:
        for part in parts:
            for file in files_below(str(TOP / "crates" / crate / part), look):
                name = os.path.relpath(file, TOP).encode(errors="surrogateescape")
                try:
                    with open(file, "rb") as it:
                        text = it.read()
                except OSError as error:
                    raise Stop(Status.NO_PROGRAM, f"{file} can't be read: {error.strerror}") from None
                total.update(b"%d %d " % (len(name), len(text)) + name + text)
    # Which crate names which is a part of the code.
    total.update(repr(listed()).encode())
    return total.hexdigest()[:32]


def files_below(folder: str, look: Callable[[str], None]) -> list[str]:
    """The sources below a folder, each looked at, as are the folders."""
    found = []
    look(folder)
    for at, folders, names in os.walk(folder):
        folders.sort()
        for name in folders:
            look(os.path.join(at, name))
        for name in sorted(names):
            if name.endswith((".rt", ".antt")):
                found.append(os.path.join(at, name))
                look(found[-1])
    return found


def expected_minutes(crates: list[str]) -> dict[str, float]:
    """The processor minutes that the proofs of these crates take, by the table of docs/CONTRIBUTING.md, as far as it has them."""
    try:
        page = CONTRIBUTING.read_text(encoding="utf-8")
    except (OSError, UnicodeDecodeError):
        return {}
    rows = dict(re.findall(r"(?m)^\| `(\w+)` \| (\d+\.?\d*) \|", page))
    return {name: float(rows[name]) for name in crates if name in rows}
