"""The programs that are kept: a proved one and an unproved one, each under a sum of the sources that it was made of."""
import os

from .base import COMPAAN, KEPT
from .sums import CODE, STATEMENTS, sum_of

UNPROVED, PROVED = "unproved", "proved"


def kind_of(kind: str, program: str) -> str:
    """What the programs of this kind are kept as."""
    return kind if program == COMPAAN else f"{kind}-{program}"


def kept(kind: str, total: str) -> "str | None":
    """The program of this kind that was made of the sources with this sum."""
    program = f"{KEPT}/{kind}/{total}"
    return program if os.access(program, os.X_OK) else None


def proved_program(program: str = COMPAAN) -> "str | None":
    """The proved program of these sources, where it was built."""
    kind = kind_of(PROVED, program)
    return kept(kind, sum_of(STATEMENTS, program)) if os.path.isdir(f"{KEPT}/{kind}") else None


def unproved_program(program: str = COMPAAN) -> "str | None":
    """The unproved program of these sources, where it was made."""
    return kept(kind_of(UNPROVED, program), sum_of(CODE, program))
