"""The script's folders, for the parts that make something in them or read pages."""
from __future__ import annotations

from pathlib import Path

from . import base

TOP = Path(base.HERE)
KEPT = Path(base.KEPT)


def crate_of(program: str) -> Path:
    """The folder of a program's crate."""
    return TOP / "crates" / program
