"""A source taken apart: its arrays, its loops, and its statements with their places and reads.

It is for what the program tells by numbers alone: pages, pictures, maps, and where a bound or a loop stands. It takes for granted that the
program takes the source, and judges nothing.
"""
from __future__ import annotations

import re
from collections.abc import Iterable, Mapping
from dataclasses import dataclass, field

from expression import expression_of, form_of

TOKEN = re.compile(rb"[ \t\r\n]+|//[^\n]*|/\*.*?\*/|(?P<word>[A-Za-z_][A-Za-z_0-9]*|[0-9]+|<=|>=|==|\+\+|\+=|&&|.)", re.S)
DECLARING = ("param", "in", "out", "inout", "var")
COMPARING = ("<", "<=", ">", ">=", "==")


@dataclass(frozen=True)
class Word:
    """A token with its bytes."""

    text: str
    start: int
    end: int


# The words of an expression.
Words = list[str]


@dataclass(frozen=True)
class Array:
    """A declared array, with the words of its extents and its byte."""

    kind: str
    name: str
    extents: list[Words]
    byte: int

    @property
    def is_given(self) -> bool:
        return self.kind in ("in", "inout")

    @property
    def is_printed(self) -> bool:
        return self.kind in ("out", "inout")

    @property
    def cell(self) -> list[str]:
        """Names for the subscripts of a cell."""
        return ["n"] if len(self.extents) == 1 else [f"{self.name}{number}" for number in range(len(self.extents))]


@dataclass(frozen=True)
class Loop:
    """A loop with the words of its bounds and of its step, and its byte."""

    variable: str
    lower: Words
    upper: Words
    is_strict: bool
    step: Words
    byte: int


@dataclass(frozen=True)
class Guard:
    """The comparisons of a guard, each as its left side, sign and right side; or that its only one doesn't hold, behind an else."""

    tests: list[tuple[Words, str, Words]]
    holds: bool = True


Around = tuple[Loop | Guard, ...]


@dataclass(frozen=True)
class Access:
    """A cell of an array, with the words of its subscripts and its text."""

    array: str
    subscripts: list[Words]
    text: str


@dataclass(frozen=True)
class Statement:
    """A statement of the program: a source, an assignment or a sink. A source or a sink goes over the cells of its array."""

    kind: str
    array: str
    text: str
    line: int
    loops: list[str]
    accesses: list[Access] = field(default_factory=list)
    written: Access | None = None
    around: Around = ()
    place: tuple[int, int] = (0, 0)

    @property
    def reads(self) -> list[str]:
        return [it.text for it in self.accesses]

    def loop(self, number: int) -> Loop | None:
        """The loop of a variable, or None for a subscript of a source or a sink."""
        found = [it for it in self.around if isinstance(it, Loop)]
        return found[number] if number < len(found) else None


class Outline:
    """The arrays, loops and statements of a source whose parameters have these values. Statements are numbered as the processes of its
    network are."""

    def __init__(self, source: bytes, values: Mapping[str, int] | None = None) -> None:
        self.source, self.values, self.at = source, values or {}, 0
        self.words = [Word(it["word"].decode("latin-1"), it.start("word"), it.end("word")) for it in TOKEN.finditer(source) if it["word"]]
        self.parameters: list[str] = []
        self.arrays: list[Array] = []
        while self.there() in DECLARING:
            self.declaration()
        # Each loop with what stands round it.
        self.loops: list[tuple[Around, Loop]] = []
        self.assignments: list[Statement] = []
        self.body()
        sources = [self.edge("source", it) for it in self.arrays if it.is_given]
        sinks = [self.edge("sink", it) for it in self.arrays if it.is_printed]
        self.statements = [*sources, *self.assignments, *sinks]

    # --------------------------------------------------------------------------------------------------------- the words

    def there(self) -> str:
        return self.words[self.at].text if self.at < len(self.words) else ""

    def next(self) -> Word:
        self.at += 1
        return self.words[self.at - 1]

    def until(self, *ends: str) -> list[Word]:
        """The words up to one of these that no bracket encloses, which is passed over."""
        found, depth = [], 0
        while self.at < len(self.words):
            word = self.next()
            if depth == 0 and word.text in ends:
                break
            depth += (word.text in ("(", "[")) - (word.text in (")", "]"))
            found.append(word)
        return found

    def text_of(self, start: int, end: int) -> str:
        """The text between two bytes, in one line."""
        return " ".join(self.source[start:end].decode(errors="replace").split())

    def line(self, byte: int) -> int:
        return self.source.count(b"\n", 0, byte) + 1

    def step(self, loop: Loop | None) -> int:
        """The step of a loop; that of a source or a sink is 1."""
        return form_of(expression_of(loop.step), self.values).constant if loop else 1

    # --------------------------------------------------------------------------------------------------- the declarations

    def declaration(self) -> None:
        kind = self.next().text
        while self.there() not in (";", ""):
            name = self.next()
            extents = []
            while self.there() == "[":
                self.next()
                extents.append([it.text for it in self.until("]")])
            if kind == "param":
                self.parameters.append(name.text)
            else:
                self.arrays.append(Array(kind, name.text, extents, name.start))
            if self.there() == ",":
                self.next()
        self.at += 1

    def edge(self, kind: str, array: Array) -> Statement:
        """The source or the sink of an array."""
        text = array.name + "".join(f"[{it}]" for it in array.cell)
        access = Access(array.name, [[it] for it in array.cell], text)
        reads, written = ([], access) if kind == "source" else ([access], None)
        return Statement(kind, array.name, text, self.line(array.byte), array.cell, reads, written)

    # ---------------------------------------------------------------------------------------------------------- the body

    def body(self) -> None:
        """Goes over the statements. What is open stands in a list, since blocks and guards may be thousands deep."""
        around: Around = ()
        opened: list[tuple[str, Around]] = []
        while self.at < len(self.words):
            text = self.there()
            if text == "{":
                self.next()
                opened.append(("{", around))
                continue
            if text == "for":
                opened.append(("for", around))
                around = (*around, self.loop(around))
                continue
            if text == "if":
                opened.append(("if", around))
                around = (*around, self.guard())
                continue
            if text == "}":
                self.next()
                _, around = opened.pop()
            else:
                self.assignment(around)
            # With a statement the loops and guards end that it is the body of.
            while opened and opened[-1][0] != "{":
                kind, before = opened.pop()
                ended, around = around[-1] if around else None, before
                if kind == "if" and self.there() == "else" and isinstance(ended, Guard):
                    self.next()
                    opened.append(("else", before))
                    around = (*before, Guard(ended.tests, holds=False))
                    break

    def loop(self, around: Around) -> Loop:
        byte = self.next().start
        self.next()
        first, second, third = self.until(";"), self.until(";"), self.until(")")
        header = [it.text for it in first if it.text != "int"]
        step = [it.text for it in third]
        made = Loop(
            variable=header[0],
            lower=header[2:],
            upper=[it.text for it in second[2:]],
            is_strict=second[1].text == "<",
            step=step[step.index("+=") + 1 :] if "+=" in step else ["1"],
            byte=byte,
        )
        self.loops.append((around, made))
        return made

    def guard(self) -> Guard:
        self.next()
        self.next()
        tests = []
        words = [it.text for it in self.until(")")]
        while words:
            end = words.index("&&") if "&&" in words else len(words)
            sign = next(at for at, it in enumerate(words[:end]) if it in COMPARING)
            tests.append((words[:sign], words[sign], words[sign + 1 : end]))
            words = words[end + 1 :]
        return Guard(tests)

    def assignment(self, around: Around) -> None:
        words = self.until(";")
        loops = [it.variable for it in around if isinstance(it, Loop)]
        arrays = {it.name for it in self.arrays} - set(loops)
        accesses, at = [], 0
        while at < len(words):
            name, at = words[at], at + 1
            if name.text in arrays:
                subscripts = []
                while at < len(words) and words[at].text == "[":
                    end = closing(words, at)
                    subscripts.append([it.text for it in words[at + 1 : end]])
                    at = end + 1
                accesses.append(Access(name.text, subscripts, self.text_of(name.start, words[at - 1].end)))
        span = (words[0].start, words[-1].end)
        text = self.text_of(*span)
        self.assignments.append(
            Statement("assign", words[0].text, text, self.line(span[0]), loops, accesses[1:], accesses[0], around, span)
        )


def values_of(items: Iterable[str]) -> dict[str, int]:
    """The values of parameters, of words as NAME=VALUE."""
    return {name: int(value) for name, _, value in (it.partition("=") for it in items)}


def closing(words: list[Word], at: int) -> int:
    """Where the bracket at this place is closed, or the last word."""
    depth = 0
    for place in range(at, len(words)):
        depth += (words[place].text == "[") - (words[place].text == "]")
        if depth == 0:
            return place
    return len(words) - 1
