"""What `deps` writes, read as pieces: under which conditions on the reader's loops a read has its value from which point."""
from __future__ import annotations

import re
from collections.abc import Sequence
from dataclasses import dataclass

from expression import Form
from outline import Outline, Statement


ALWAYS = "always"


@dataclass(frozen=True)
class Sign:
    """That a form is at least 0, or that it isn't."""

    form: Form
    holds: bool

    def __str__(self) -> str:
        """The comparison as one writes it, with what is taken away on the right."""
        # form < 0 is -form - 1 >= 0
        form = self.form if self.holds else Form(-1).plus(self.form, -1)
        left = Form(0, {name: it for name, it in form.terms.items() if it > 0})
        right = Form(0, {name: -it for name, it in form.terms.items() if it < 0})
        if not left.terms:
            return f"{right} <= {form.constant}" if right.terms else ALWAYS if form.constant >= 0 else "never"
        return f"{left} >= {right.plus(Form(-form.constant))}"


@dataclass(frozen=True)
class Divides:
    """That a number divides a form, or that it doesn't."""

    divisor: int
    form: Form
    holds: bool

    def __str__(self) -> str:
        how = "divides" if self.holds else "doesn't divide"
        return f"{self.divisor} {how} {self.form}"


Condition = Sign | Divides


@dataclass(frozen=True)
class Piece:
    """Conditions that hold together, and where the value comes from there: a statement with its point, or nobody."""

    conditions: list[Condition]
    writer: int | None
    point: list[Form]


@dataclass(frozen=True)
class Read:
    """A read with its pieces; or, where it has no tree, with each of its points and where the value comes from there, or None."""

    statement: int
    number: int
    pieces: list[Piece]
    points: list[tuple[list[int], tuple[int, list[int]] | None]] | None = None

    @property
    def counts(self) -> dict[int | None, int]:
        """How many of the points each statement wrote, with None for nobody."""
        found: dict[int | None, int] = {}
        for _, source in self.points or []:
            writer = source[0] if source else None
            found[writer] = found.get(writer, 0) + 1
        return found


def variables(outline: Outline, statement: Statement) -> list[str]:
    """The names of a statement's loops as they are shown: with a step above 1 a loop counts turns."""
    return [name if outline.step(statement.loop(at)) == 1 else f"turn of {name}" for at, name in enumerate(statement.loops)]


class Reader:
    """The lines of a text of sources, read one after the other."""

    def __init__(self, text: str, names: Sequence[Sequence[str]]) -> None:
        """The names are those of the loops of each statement."""
        self.lines, self.at, self.names = text.split("\n"), 1, names

    def next(self) -> str:
        self.at += 1
        return self.lines[self.at - 1]

    def reads(self) -> list[Read]:
        found = []
        while self.lines[self.at] != "end":
            _, statement, number = self.next().split(" ")
            if self.lines[self.at] == "tree":
                self.next()
                found.append(Read(int(statement), int(number), self.tree(self.names[int(statement)])))
            else:
                found.append(Read(int(statement), int(number), [], self.points()))
        return found

    def points(self) -> list[tuple[list[int], tuple[int, list[int]] | None]]:
        found = []
        for _ in range(int(self.next().split(" ")[1])):
            line = re.fullmatch(r"\((.*)\) (?:zero|(\d+)\((.*)\))", self.next())
            if line is None:
                raise ValueError("a point of another form")
            source = (int(line[2]), numbers_in(line[3])) if line[2] else None
            found.append((numbers_in(line[1]), source))
        return found

    def tree(self, loops: Sequence[str]) -> list[Piece]:
        """The leaves of a tree, each with the conditions on the way; those where no point comes are left out. What is still to be
        read stands in a list, since a tree may be deep."""
        pieces: list[Piece] = []
        waiting: list[tuple[list[str], list[Condition]]] = [(list(loops), [])]
        while waiting:
            names, conditions = waiting.pop()
            words = self.next().split(" ")
            if words[0] == "t":
                form = read_form(words[1:], names)
                waiting += [(names, [*conditions, Sign(form, holds)]) for holds in (False, True)]
            elif words[0] == "d":
                divisor, form = int(words[1]), read_form(words[2:], names)
                inner = [*names, f"floor(({form})/{divisor})"]
                waiting += [(inner, [*conditions, Divides(divisor, form, holds)]) for holds in (False, True)]
            elif words[0] == "w":
                point = [read_form(self.next().split(" ")[1:], names) for _ in range(int(words[2]))]
                pieces.append(Piece(conditions, int(words[1]), point))
            elif words[0] == "z":
                pieces.append(Piece(conditions, None, []))
            elif words[0] != "x":
                raise ValueError(f"a node {words}")
        return pieces


def numbers_in(text: str) -> list[int]:
    return [int(it) for it in text.split(",") if it]


def read_form(words: Sequence[str], names: Sequence[str]) -> Form:
    """A form of a text: a constant and a coefficient for each name."""
    return Form(int(words[0]), {name: int(factor) for name, factor in zip(names, words[1:], strict=True) if int(factor)})


def reads_of(text: str, outline: Outline) -> list[Read]:
    """The reads of a text that `deps` wrote, in the names of the loops as they are shown."""
    return Reader(text, [variables(outline, it) for it in outline.statements]).reads()


def told(outline: Outline, writer: Statement, point: Sequence[Form]) -> str:
    """A point of a statement in words: the cell of a source, or the turn of an assignment."""
    if writer.kind == "source":
        return f"the input {writer.array}{''.join(f'[{it}]' for it in point)}"
    turn = ", ".join(f"{name} = {value}" for name, value in zip(variables(outline, writer), point))
    return f"line {writer.line}, {writer.array}" + (f", at {turn}" if turn else "")
