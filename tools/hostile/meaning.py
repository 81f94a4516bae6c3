"""What a bundle comes to by `run`, `seq` and `check`, and what `deps` may write, computed without compaan, from docs/LANGUAGE.md,
COMMANDS.md, CERTIFICATES.md and SOURCES.md.

A source is turned into Python and run there: memory is a dictionary, numbers are Python's, wrapped to 64 bits where a value is kept
or compared. A refusal is worked out with its place. It is a test's other side, and outside the proof.
"""
from __future__ import annotations

import collections
import functools
import itertools
import re
import sys
from collections.abc import Callable, Iterable, Iterator, Mapping, Sequence
from typing import Any, NoReturn

# A token: its kind, its text and its place. The trees of the grammar are nested tuples that begin with their kind.
Token = tuple[str, bytes, int]
Tree = Any
# An affine form: a constant, and the coefficients of six loops.
Form = tuple[int, tuple[int, ...]]
Point = tuple[int, ...]
# A turn of a process, by both numbers.
Tag = tuple[int, int]
Memory = dict[Point, Any]
# Of a certificate: an event, a channel, lists with repeats as (count, parts), and all of it as certificate_of has it.
Event = tuple[Any, ...]
Channel = tuple[Any, ...]
Parts = list[tuple[int, Any]]
Certificate = tuple[list[tuple[int, list[Event]]], list[Channel], int, list[int]]
# A node of a tree of `deps`.
Node = Any
# A command, the values of parameters, and the number behind `load`.
Order = tuple[str, dict[str, int], int]
# A status, an output where it is known, and a complaint.
Outcome = tuple[int, bytes | None, bytes]

# numbers of any length, and trees of any depth that the stack of a thread holds
sys.set_int_max_str_digits(0)
BUNDLE_LIMIT = 67_108_864
SIZE_LIMIT = 8_388_608
# Loops above this size are counted before they are run.
SHORT = 20_000
TOKEN_LIMIT = 8192
LARGE = 2_147_483_647
LOOP_VALUE = 1 << 62
HALF, MASK = 1 << 63, (1 << 64) - 1
LETTERS = b"ABCDEFGHIJKLMNOPQRSTUVWXYZabcdefghijklmnopqrstuvwxyz_"
RESERVED = set(b"param in out inout var int for if else min max".split())
# Of several reasons at one place the first in this order is told.
REASONS = "UnknownName Duplicate Unbound NotAffine WrongCount ElseForm TooManyProcesses TooDeep TooManyReads TooManyRows Large StepMax StepRange".split()
LIMITS = {"TooManyProcesses", "TooDeep", "TooManyReads", "TooManyRows", "Large"}


class Refused(Exception):
    """A refusal, with its status and its line."""

    def __init__(self, status: int, line: str) -> None:
        super().__init__(line)
        self.status, self.line = status, line


class Long(Exception):
    """Loops that are long, and may be refused."""


def too_large() -> Refused:
    return Refused(8, f"limit: Size {SIZE_LIMIT + 1}")


def wrap(value: int) -> int:
    return ((value + HALF) & MASK) - HALF


def wrapped(text: str) -> str:
    """Python's text of what `wrap` gives for this one."""
    return f"((({text})+{HALF}&{MASK})-{HALF})"


# ------------------------------------------------------------------------------------------------------------- the bundle


def parts_of(bundle: bytes) -> list[bytes | None]:
    """The source, and the data and the certificate, each None where it is missing."""
    if len(bundle) > BUNDLE_LIMIT:
        raise Refused(5, "bundle: TooLong")
    found, rest = [], bundle
    for _ in range(2):
        cut = re.search(rb"(?:\A|(?<=\n))%%(?:\r?\n|\Z)", rest)
        if not cut:
            break
        found.append(rest[: cut.start()])
        rest = rest[cut.end() :]
    found.append(rest)
    return [*found, None, None][:3]


# ------------------------------------------------------------------------------------------------------------- the tokens

# White space and comments, which may be none, and the token behind them, the end, or a byte that no token begins with.
PIECE = re.compile(
    rb"((?>[ \t\n\r]+|//[^\n]*|/\*.*?\*/)*+)([A-Za-z_][A-Za-z_0-9]*|[0-9]+|<=|>=|==|\+\+|\+=|&&|[()\[\]{};,=<>+\-*]|\Z|.)", re.S
)
SIGNS = {it.encode(): it for it in "<= >= == ++ += && ( ) [ ] { } ; , = < > + - *".split()}
KINDS = {**SIGNS, **{it: "reserved " + it.decode() for it in RESERVED}}


def kind_of(text: bytes) -> str | None:
    """The kind of a token, or None where it is none: a large number, or a byte that no token begins with."""
    if text[0] in b"0123456789":
        return "number" if int(text) < HALF else None
    return "name" if text[0] in LETTERS else None


def tokens_of(source: bytes) -> list[Token]:
    """The tokens: kind, text and place. The kind of a sign or a reserved word is its text."""
    pieces = PIECE.findall(source)
    texts = [text for _, text in pieces if text]
    places = list(itertools.accumulate(map(len, itertools.chain.from_iterable(pieces))))[::2]
    kinds = {**KINDS, **{it: kind_of(it) for it in set(texts).difference(KINDS)}}
    if len(texts) > TOKEN_LIMIT or None in kinds.values():
        for number, (text, at) in enumerate(zip(texts, places)):
            if kinds[text] is None:
                is_number, is_comment = text[0] in b"0123456789", source.startswith(b"/*", at)
                raise Refused(6, f"text: {'LargeNumber' if is_number else 'OpenComment' if is_comment else 'BadByte'} {at}")
            if number == TOKEN_LIMIT:
                raise Refused(6, f"text: TooMany {at}")
    return list(zip([kinds[it] for it in texts], texts, places))


# ------------------------------------------------------------------------------------------------------------ the grammar


class Parser:
    """The tree of the tokens. The first token that can't stand where it does is refused."""

    def __init__(self, source: bytes) -> None:
        self.tokens = tokens_of(source) + [("end", b"", len(source))]
        self.kinds = [it[0] for it in self.tokens]
        self.at = 0

    def kind(self) -> str:
        return self.kinds[self.at]

    def fail(self) -> NoReturn:
        raise Refused(6, f"text: Syntax {self.tokens[self.at][2]}")

    def take(self, *kinds: str) -> Token:
        """The next token, which is of one of these kinds."""
        token = self.tokens[self.at]
        if token[0] not in kinds:
            self.fail()
        self.at += 1
        return token

    def has(self, kind: str) -> bool:
        """Takes the next token if it is of this kind."""
        if self.kinds[self.at] != kind:
            return False
        self.at += 1
        return True

    def name(self) -> tuple[str, int]:
        _, text, at = self.take("name")
        return text.decode(), at

    def program(self) -> tuple[list[Any], list[Tree]]:
        declarations, statements = [], []
        while self.kind() in ("reserved param", "reserved in", "reserved out", "reserved inout", "reserved var"):
            word = self.take(self.kind())[1].decode()
            names = [self.declared(word)]
            while self.has(","):
                names.append(self.declared(word))
            self.take(";")
            declarations.append((word, names))
        while self.kind() != "end":
            statements.append(self.statement())
        return declarations, statements

    def declared(self, word: str) -> tuple[tuple[str, int], list[Tree]]:
        name = self.name()
        return name, [] if word == "param" else self.subscripts()

    def subscripts(self) -> list[Tree]:
        found = []
        while self.has("["):
            found.append(self.sum())
            self.take("]")
        return found

    def statement(self) -> Tree:
        if self.has("reserved for"):
            return self.loop()
        if self.has("reserved if"):
            return self.guard()
        if self.kind() == "{":
            return self.block()
        name, subscripts = self.name(), self.subscripts()
        self.take("=")
        value = self.sum()
        self.take(";")
        return "set", name, subscripts, value

    def block(self) -> Tree:
        self.take("{")
        found = []
        while not self.has("}"):
            found.append(self.statement())
        return "block", found

    def loop(self) -> Tree:
        self.take("(")
        self.has("reserved int")
        first = self.name()
        self.take("=")
        lower = self.sum()
        self.take(";")
        second = self.name()
        inclusive = self.take("<", "<=")[0] == "<="
        upper = self.sum()
        self.take(";")
        step = None
        if self.has("++"):
            third = self.name()
        else:
            third = self.name()
            sign, _, at = self.take("++", "+=")
            if sign == "+=":
                step = at, self.sum()
        self.take(")")
        return "for", first, lower, second, inclusive, upper, third, step, self.statement()

    def guard(self) -> Tree:
        self.take("(")
        conditions = [self.comparison()]
        while self.has("&&"):
            conditions.append(self.comparison())
        self.take(")")
        is_block = self.kind() == "{"
        body, other = self.statement(), None
        if is_block and self.kind() == "reserved else":
            at = self.take("reserved else")[2]
            other = at, self.statement()
        return "if", conditions, body, other

    def comparison(self) -> Tree:
        left = self.sum()
        sign = self.take("<", "<=", ">", ">=", "==")[0]
        return left, sign, self.sum()

    def sum(self) -> Tree:
        left = self.product()
        while self.kinds[self.at] in ("+", "-"):
            sign, _, at = self.take("+", "-")
            left = "two", sign, at, left, self.product()
        return left

    def product(self) -> Tree:
        left = self.factor()
        while self.kinds[self.at] == "*":
            at = self.take("*")[2]
            left = "two", "*", at, left, self.factor()
        return left

    def factor(self) -> Tree:
        kind, text, at = self.take("-", "number", "(", "name", "reserved min", "reserved max")
        if kind == "-":
            return "minus", at, self.factor()
        if kind == "number":
            return "number", at, int(text)
        if kind == "(":
            inner = self.sum()
            self.take(")")
            return inner
        if kind == "name":
            return "name", at, text.decode(), self.subscripts()
        self.take("(")
        found = [self.sum()]
        while self.has(","):
            found.append(self.sum())
        self.take(")")
        return found[0] if len(found) == 1 else (kind[-3:], at, found)


# ------------------------------------------------------------------------------------------------------------ the binding

NO_VARIABLE = (0,) * 6


def scaled(by: int, coefficients: tuple[int, ...]) -> tuple[int, ...]:
    return coefficients if by == 1 or coefficients is NO_VARIABLE else tuple([by * it for it in coefficients])


def added(a: tuple[int, ...], b: tuple[int, ...]) -> tuple[int, ...]:
    return a if b is NO_VARIABLE else b if a is NO_VARIABLE else tuple([x + y for x, y in zip(a, b)])


def size_of_turn(body: Tree) -> int:
    """What one turn of a loop with this body counts, or 0 where that isn't known before, since the body has loops or guards."""
    if body[0] == "set":
        return 2
    sizes = [size_of_turn(it) for it in body[1]] if body[0] == "block" else [0]
    return 1 + sum(sizes) - len(sizes) if all(sizes) else 0


class Array:
    def __init__(self, number: int, name: str, kind: str, extents: list[int], subscripts: int) -> None:
        self.number, self.name, self.kind, self.extents, self.subscripts = number, name, kind, extents, subscripts
        self.is_given, self.is_printed = kind in ("in", "inout"), kind in ("out", "inout")


class Program:
    """A source with values for its parameters, as a function of Python."""

    def __init__(self, source: bytes, values: Mapping[str, int]) -> None:
        declarations, statements = Parser(source).program()
        self.values = values
        # The reasons to refuse, each with its place and its rank; what names stand for; and the arrays.
        self.found: list[tuple[int, int, str]] = []
        self.scope: dict[str, tuple[str, Any]] = {}
        self.arrays: list[Array] = []
        processes = 0
        for word, names in declarations:
            for (name, at), extents in names:
                if name in self.scope:
                    self.blame("Duplicate", at)
                if word == "param":
                    if name not in values:
                        self.blame("Unbound", at)
                    elif abs(values[name]) > LARGE:
                        self.blame("Large", at)
                    self.scope.setdefault(name, ("param", values.get(name, 0)))
                    continue
                forms = [self.form(it, True) or (0, NO_VARIABLE) for it in extents]
                added = {"in": 1, "out": 1, "inout": 2, "var": 0}[word]
                if processes <= 64 < processes + added:
                    self.blame("TooManyProcesses", at)
                processes += added
                if len(extents) > 6:
                    self.blame("TooDeep", at)
                array = Array(len(self.arrays), name, word, [max(0, it[0]) for it in forms], len(extents))
                self.arrays.append(array)
                self.scope.setdefault(name, ("array", array))
        given = [it for it in self.arrays if it.is_given]
        self.sinks = sum(it.is_printed for it in self.arrays)
        self.next_loop = sum(len(it.extents) for it in given)
        self.first = self.next_statement = len(given)
        # for each process how many reads it has, the arrays that they read, and its write: its array, and whether it is by differences
        self.reads = [0] * self.first
        self.arrays_read: list[list[int]] = [[] for _ in given]
        self.writes: list[tuple[int, bool, int] | None] = [(it.number, True, 0) for it in given]
        # the coefficients of the rows of the loops and guards around
        self.domain: list[tuple[int, ...]] = []
        self.code: dict[str, list[str]] = {"values": [], "trace": [], "both": [], "size": []}
        # those of them that what is read now becomes, and whether its size is counted before
        self.kinds, self.is_counted = tuple(self.code), False
        # the greatest that the turn of each loop around may be, by its absolute value
        self.reach = [0] * 6
        self.rows = 0
        self.depth = 0
        # What was made of the code, and what was found by it.
        self.bodies: dict[str, Any] = {}
        self.traced: tuple[list[list[Point]], list[list[Any]]] | None = None
        self.has_size = False
        self.turns: list[str] = []
        self.arrays_now: list[int] = []
        for it in statements:
            self.statement(it, "  ")
        self.reads += [1] * self.sinks
        self.arrays_read += [[it.number] for it in self.arrays if it.is_printed]
        self.writes += [None] * self.sinks
        if self.found:
            at, _, reason = min(self.found)
            raise Refused(8 if reason in LIMITS else 7, f"{'limit' if reason in LIMITS else 'class'}: {reason} {at}")

    def blame(self, reason: str, at: int) -> None:
        self.found.append((at, REASONS.index(reason), reason))

    def limited(self, at: int, form: Form) -> Form | None:
        constant, coefficients = form
        if -LARGE <= constant <= LARGE and (coefficients is NO_VARIABLE or -LARGE <= min(coefficients) and max(coefficients) <= LARGE):
            return form
        self.blame("Large", at)
        return None

    def form(self, tree: Tree, is_extent: bool = False) -> Form | None:
        """The affine form of a place: a constant and six coefficients, or None where a reason was found."""
        kind, at = tree[0], tree[1]
        if kind == "number":
            return self.limited(at, (tree[2], NO_VARIABLE))
        if kind == "minus":
            inner = self.form(tree[2], is_extent)
            return inner and self.limited(at, (-inner[0], scaled(-1, inner[1])))
        if kind == "name":
            _, _, name, subscripts = tree
            for it in subscripts:
                self.form(it, is_extent)
            what, value = self.scope.get(name, (None, None))
            if is_extent and what != "param":
                what = None
            if what == "array":
                self.blame("NotAffine", at)
            elif what is None or subscripts:
                self.blame("UnknownName", at)
            else:
                return self.limited(at, (value, NO_VARIABLE) if what == "param" else value)
            return None
        if kind == "two":
            _, sign, at, left, right = tree
            a, b = self.form(left, is_extent), self.form(right, is_extent)
            if a is None or b is None:
                return None
            if sign == "*":
                if any(a[1]) and any(b[1]):
                    self.blame("NotAffine", at)
                    return None
                by, of = (b, a) if any(a[1]) else (a, b)
                return self.limited(at, (by[0] * of[0], scaled(by[0], of[1])))
            factor = 1 if sign == "+" else -1
            return self.limited(at, (a[0] + factor * b[0], added(a[1], scaled(factor, b[1]))))
        for it in tree[2]:
            self.form(it, is_extent)
        self.blame("NotAffine", at)
        return None

    # Python's text of a place. A loop's variable has its value there, whatever its step.

    def affine(self, tree: Tree) -> str:
        kind = tree[0]
        if kind == "number":
            return str(tree[2])
        if kind == "minus":
            return f"(-{self.affine(tree[2])})"
        if kind == "name":
            what, value = self.scope.get(tree[2], (None, None))
            return f"({value})" if what == "param" else f"v_{tree[2]}"
        if kind == "two":
            return f"({self.affine(tree[3])}{tree[1]}{self.affine(tree[4])})"
        return "0"

    def value(self, tree: Tree, reads: list[str]) -> str:
        """Python's text of a right side. Its reads are added to the list."""
        kind, at = tree[0], tree[1]
        if kind == "number":
            return str(tree[2])
        if kind == "minus":
            return f"(-{self.value(tree[2], reads)})"
        if kind == "name":
            _, _, name, subscripts = tree
            what, value = self.scope.get(name, (None, None))
            if what == "array":
                if len(subscripts) != value.subscripts:
                    self.blame("WrongCount", at)
                if len(reads) == 8:
                    self.blame("TooManyReads", at)
                for it in subscripts:
                    self.form(it)
                cell = self.cell(value.number, subscripts)
                reads.append(cell)
                self.arrays_now.append(value.number)
                return f"G({cell},0)"
            if what is None or subscripts:
                self.blame("UnknownName", at)
                for it in subscripts:
                    self.form(it)
                return "0"
            return f"({value})" if what == "param" else f"v_{name}"
        if kind == "two":
            return f"({self.value(tree[3], reads)}{tree[1]}{self.value(tree[4], reads)})"
        return f"{kind}({','.join([wrapped(self.value(it, reads)) for it in tree[2]])})"

    def cell(self, number: int, subscripts: list[Tree]) -> str:
        return "(" + ",".join([str(number), *map(self.affine, subscripts)]) + ",)"

    def most_of(self, form: Form) -> int:
        """A bound of what a form may be, by its absolute value."""
        return abs(form[0]) + sum([abs(c) * it for c, it in zip(form[1], self.reach) if c])

    def emit(self, text: str, *kinds: str) -> None:
        for kind in kinds or self.kinds:
            self.code[kind].append(text)

    def statement(self, tree: Tree, indent: str) -> Tree:
        kind = tree[0]
        if kind == "block":
            for it in tree[1]:
                self.statement(it, indent)
        elif kind == "for":
            self.loop(tree, indent)
        elif kind == "if":
            self.guard(tree, indent)
        else:
            self.assign(tree, indent)

    def loop(self, tree: Tree, indent: str) -> Tree:
        _, (name, at), lower, (second, second_at), inclusive, upper, (third, third_at), step, body = tree
        number, self.next_loop = self.next_loop, self.next_loop + 1
        if name in self.scope:
            self.blame("Duplicate", at)
        if self.depth >= 6:
            self.blame("TooDeep", at)
        lowers = lower[2] if lower[0] == "max" else [lower]
        uppers = upper[2] if upper[0] == "min" else [upper]
        forms = [self.form(it) or (0, NO_VARIABLE) for it in lowers]
        ends = [self.form(it) or (0, NO_VARIABLE) for it in uppers]
        for other, other_at in ((second, second_at), (third, third_at)):
            if other != name:
                self.blame("UnknownName", other_at)
        by = 1
        if step:
            by_form = self.form(step[1], True)
            by = by_form[0] if by_form else 1
            if by < 1:
                self.blame("StepRange", step[0])
            if by > 1 and len(lowers) > 1:
                self.blame("StepMax", step[0])
        if self.depth >= 6:
            return
        least, most = [self.affine(it) for it in lowers], [self.affine(it) + ("" if inclusive else "-1") for it in uppers]
        d = len(indent)
        most_low, most_high = max(map(self.most_of, forms)), max(map(self.most_of, ends)) + 1
        if max(most_low, most_high) > LOOP_VALUE:
            self.emit(f"{indent}a{d}=({','.join(least)},);b{d}=({','.join(most)},)")
            far = f"max(a{d})>Q or min(a{d})<-Q or max(b{d})>Q or min(b{d})<-Q"
            self.emit(f"{indent}if {far}: raise X if n>L else Refused(8,'limit: LoopValue {number}')")
            low, high = f"max(a{d})", f"min(b{d})"
        else:
            low, high = (f"{word}({','.join(it)})" if len(it) > 1 else it[0] for word, it in (("max", least), ("min", most)))
        each = size_of_turn(body)
        if each:
            # Nothing in such a loop is refused but its size, so all its turns are counted at once, and "size" has no more of it.
            self.emit(f"{indent}a{d}={low};b{d}={high};n+={each}*max(0,(b{d}-a{d})//{by}+1)")
            self.emit(f"{indent}if n>L: raise X")
            low, high = f"a{d}", f"b{d}"
            self.is_counted, self.kinds = True, ("values", "trace", "both")
        turn = f"v_{name}"
        if by > 1:
            turn = f"t{d}"
            self.emit(f"{indent}for {turn},v_{name} in enumerate(range({low},{high}+1,{by})):")
        else:
            self.emit(f"{indent}for v_{name} in range({low},{high}+1):")
        if not each:
            self.emit(f"{indent} n+=1")
            self.emit(f"{indent} if n>L: raise X")
        self.reach[self.depth] = (most_low + most_high) // by + 1 if by > 1 else max(most_low, most_high)
        is_new = name not in self.scope
        if is_new:
            coefficients = tuple(by if it == self.depth else 0 for it in range(6))
            start = forms[0] if by > 1 else (0, NO_VARIABLE)
            self.scope[name] = "loop", (start[0], tuple(x + y for x, y in zip(start[1], coefficients)))
        more = 1 + len(uppers) if by > 1 else len(lowers) + len(uppers)
        turns = tuple(int(it == self.depth) for it in range(6))
        if by > 1:
            bounds = [turns] + [tuple(b - a - by * t for a, b, t in zip(forms[0][1], it[1], turns)) for it in ends]
        else:
            bounds = [tuple(t - a for a, t in zip(it[1], turns)) for it in forms] + [
                tuple(b - t for b, t in zip(it[1], turns)) for it in ends
            ]
        self.domain += bounds
        self.rows += more
        self.depth += 1
        self.turns.append(turn)
        self.statement(body, indent + " ")
        self.is_counted, self.kinds = False, tuple(self.code)
        self.turns.pop()
        self.depth -= 1
        self.rows -= more
        del self.domain[len(self.domain) - len(bounds) :]
        if is_new:
            del self.scope[name]

    def guard(self, tree: Tree, indent: str) -> Tree:
        _, conditions, body, other = tree
        around = len(self.domain)
        for left, _, right in conditions:
            a, b = self.form(left) or (0, NO_VARIABLE), self.form(right) or (0, NO_VARIABLE)
            self.domain.append(tuple(x - y for x, y in zip(a[1], b[1])))
        test = " and ".join(f"{self.affine(left)}{sign}{self.affine(right)}" for left, sign, right in conditions)
        more = sum(2 if sign == "==" else 1 for _, sign, _ in conditions)
        self.emit(f"{indent}if {test}:")
        self.emit(f"{indent} pass")
        self.rows += more
        self.statement(body, indent + " ")
        self.rows -= more
        if other:
            if len(conditions) > 1 or conditions[0][1] == "==":
                self.blame("ElseForm", other[0])
            self.emit(f"{indent}else:")
            self.emit(f"{indent} pass")
            self.rows += more
            self.statement(other[1], indent + " ")
            self.rows -= more
        del self.domain[around:]

    def assign(self, tree: Tree, indent: str) -> None:
        _, (name, at), subscripts, value = tree
        number, self.next_statement = self.next_statement, self.next_statement + 1
        what, array = self.scope.get(name, (None, None))
        if number + self.sinks == 64:
            self.blame("TooManyProcesses", at)
        if self.rows > 32:
            self.blame("TooManyRows", at)
        if what != "array":
            self.blame("UnknownName", at)
        elif len(subscripts) != array.subscripts:
            self.blame("WrongCount", at)
        written = [self.form(it) or (0, NO_VARIABLE) for it in subscripts]
        reads: list[str] = []
        self.arrays_now = []
        text = self.value(value, reads)
        by_strides = all(is_single(it[1]) for it in written) and all(is_single(it) or is_pair(it) for it in self.domain)
        strides = sum(any(abs(c) > 1 for c in it[1]) for it in written)
        self.writes.append((array.number if what == "array" else -1, by_strides, strides))
        self.arrays_read.append(self.arrays_now)
        target = self.cell(array.number if what == "array" else 0, subscripts)
        self.reads.append(len(reads))
        if not self.is_counted:
            # that it isn't one too many is looked at by the next turn, by the next refusal, or at the end
            self.emit(f"{indent}n+=1")
        tags = "".join([f"H({it})," for it in reads])
        self.emit(f"{indent}M[{target}]={wrapped(text)}", "values", "both")
        self.emit(f"{indent}S[{number}].append(({tags}));T[{target}]=({number},len(P[{number}]))", "trace", "both")
        self.emit(f"{indent}P[{number}].append(({''.join(it + ',' for it in self.turns)}))", "trace", "both")

    def has_tree(self, array: int) -> bool:
        """Whether every write of an array is by differences of loop variables or by strides, of which there are at most 6."""
        writes = [it for it in self.writes if it and it[0] == array]
        return all(it[1] for it in writes) and sum(it[2] for it in writes) <= 6

    def all_have_trees(self) -> bool:
        return all(self.has_tree(it) for arrays in self.arrays_read for it in arrays)

    # Runs

    def walk(self, kind: str, start: tuple[Any, ...], size: int, limit: int, above: Exception) -> int:
        """Runs the loops on what they start with, and counts on from this size. One above the limit raises this."""
        if kind not in self.bodies:
            text = "\n".join(["def body(M,T,P,S,n,L,X):", "  G=M.get;H=T.get", *self.code[kind], "  if n>L: raise X", "  return n"])
            known: dict[str, Any] = {"Refused": Refused, "Q": LOOP_VALUE}
            exec(compile(text, "source", "exec"), known)
            self.bodies[kind] = known["body"]
        return self.bodies[kind](*start, size, limit, above)

    def check_size(self) -> None:
        """Raises what is refused of the loops and their size."""
        if not self.has_size:
            size = self.counted(0, [it for it in self.arrays if it.is_given])
            size = self.walk("size", ({}, {}, None, None), size, SIZE_LIMIT, too_large())
            self.counted(size, [it for it in self.arrays if it.is_printed])
            self.has_size = True

    def size_of(self, array: Array) -> int:
        """The size of an array's loops, or a number above the limit."""
        size, turns = 0, 1
        for extent in array.extents:
            turns = min(turns * extent, SIZE_LIMIT + 1)
            size += turns
        return size + turns

    def counted(self, size: int, arrays: Iterable[Array]) -> int:
        for it in arrays:
            size += self.size_of(it)
            if size > SIZE_LIMIT:
                raise too_large()
        return size

    def run(self, given: Mapping[int, list[int]], values: bool, trace: bool) -> Memory:
        """Runs the loops where these cells are given, by number, for the values, for the last writers, or for both. Of long ones it is found
        before whether they are refused."""
        size = self.counted(0, [it for it in self.arrays if it.is_given])
        limit = SIZE_LIMIT if self.has_size else SHORT
        memory, tags = {}, {}
        points: list[list[Point]] = [[] for _ in self.reads]
        sources: list[list[Any]] = [[] for _ in self.reads]
        for it in self.arrays if values else ():
            if it.number in given:
                memory.update(((it.number, *at), value) for at, value in zip(cells_of(it.extents), given[it.number]))
        for number, it in enumerate(it for it in self.arrays if it.is_given) if trace else ():
            points[number] = cells_of(it.extents)
            sources[number] = [()] * len(points[number])
            tags.update(((it.number, *at), (number, turn)) for turn, at in enumerate(points[number]))
        try:
            kind = "both" if values and trace else "values" if values else "trace"
            size = self.walk(kind, (memory, tags, points, sources), size, limit, Long())
        except Long:
            self.check_size()
            return self.run(given, values, trace)
        printed = [it for it in self.arrays if it.is_printed]
        self.counted(size, printed)
        self.has_size = True
        if trace:
            for number, it in enumerate(printed, len(self.reads) - len(printed)):
                points[number] = cells_of(it.extents)
                sources[number] = [(tags.get((it.number, *at)),) for at in points[number]]
            self.traced = points, sources
        return memory

    def outputs(self, given: Mapping[int, list[int]], trace: bool = False) -> list[tuple[str, list[int]]]:
        """The values of each printed array, where these are given, by number. Where it is said that the trace is asked for later, it is
        found in the same run."""
        memory = self.run(given, True, trace and self.traced is None)
        return [(it.name, [memory.get((it.number, *at), 0) for at in cells_of(it.extents)]) for it in self.arrays if it.is_printed]

    def trace(self) -> tuple[list[list[Point]], list[list[Any]]]:
        """For each process its points, and for each of them the last writer of each read, as (process, turn) or None."""
        if self.traced is None:
            self.run({}, False, True)
        assert self.traced is not None
        return self.traced


# The programs that were read last.
READ: dict[tuple[bytes, tuple[tuple[str, int], ...]], Program | Refused] = {}


def program_of(source: bytes, values: Mapping[str, int]) -> Program:
    """The program of a source with values, which is made once where it is asked for again and again."""
    key = source, tuple(sorted(values.items()))
    if key not in READ:
        if len(READ) == 8:
            READ.clear()
        try:
            READ[key] = Program(source, values)
        except Refused as refused:
            READ[key] = refused
    found = READ[key]
    if isinstance(found, Refused):
        raise Refused(found.status, found.line)
    return found


def is_single(coefficients: Sequence[int]) -> bool:
    """No variable, or one with any coefficient."""
    return sum(it != 0 for it in coefficients) <= 1


def is_pair(coefficients: Sequence[int]) -> bool:
    """Two variables, with coefficients 1 and -1."""
    return sorted(it for it in coefficients if it) == [-1, 1]


def cells_of(extents: list[int]) -> list[Point]:
    """The cells in row-major order."""
    found: list[Point] = [()]
    for extent in extents:
        found = [(*at, k) for at in found for k in range(extent)]
    return found


# --------------------------------------------------------------------------------------------------------------- the data


def records_of(data: bytes) -> list[list[bytes]]:
    """The records of the data, each as its fields."""
    if data.startswith(b"\xef\xbb\xbf"):
        data = data[3:]
    found: list[list[bytes]] = []
    record: list[bytes] = []
    field, state = bytearray(), "record"
    for byte in data:
        if state == "record":
            if byte in b"\r\n":
                continue
            record, state = [], "field"
        if state == "field":
            field = bytearray()
            if byte == 34:
                state = "quoted"
                continue
            state = "plain"
        if state == "closed":
            if byte == 34:
                field.append(34)
                state = "quoted"
                continue
            state = "plain"
        if state == "quoted":
            if byte == 34:
                state = "closed"
            else:
                field.append(byte)
        elif byte == 44:
            record.append(bytes(field))
            state = "field"
            field = bytearray()
        elif byte in b"\r\n":
            found.append([*record, bytes(field)])
            state = "record"
        else:
            field.append(byte)
    if state != "record":
        found.append([*record, bytes(field) if state != "field" else b""])
    return [[it.strip(b" \t") for it in record] for record in found]


def inputs_of(arrays: Sequence[Array], data: bytes) -> dict[int, list[int]]:
    """The values of each given array, by its number."""
    given = {it.name.encode(): it for it in reversed(arrays) if it.is_given}
    found = {}
    for number, (name, *fields) in enumerate(records_of(data), 1):
        if name not in given:
            raise Refused(9, f"data: UnknownArray {number}")
        array = given[name]
        if array.number in found:
            raise Refused(9, f"data: Twice {number}")
        wanted = 1
        for extent in array.extents:
            wanted *= extent
        if len(fields) != wanted:
            raise Refused(9, f"data: Count {number} {len(fields)} {wanted}")
        values = []
        for place, field in enumerate(fields, 1):
            value = int(field) if re.fullmatch(rb"-?[0-9]+", field) else None
            if value is None or not -HALF <= value < HALF:
                raise Refused(9, f"data: NotANumber {number} {place}")
            values.append(value)
        found[array.number] = values
    for it in arrays:
        if it.is_given and it.number not in found:
            raise Refused(9, f"data: Missing {it.name}")
    return found


# -------------------------------------------------------------------------------------------------------- the certificate


class Unread(Exception):
    """Why a certificate is refused: what follows `refused `."""


CLASSES = {b"inorder": (False, False), b"inorder+": (False, True), b"reorder": (True, False), b"reorder+": (True, True)}
CLASS_WORDS = {value: word.decode() for word, value in CLASSES.items()}


SMALL = {b"%d" % it: it for it in range(1000)}
NATURAL, NEGATIVE = re.compile(rb"0|[1-9][0-9]*"), re.compile(rb"-[1-9][0-9]*")


class Lines:
    """The lines of a certificate, with what is wrong with one."""

    def __init__(self, text: bytes) -> None:
        self.line = 0
        # the lines, and what stands behind the last line feed
        *self.lines, self.rest = text.split(b"\n")

    def next(self) -> list[bytes]:
        if self.line == len(self.lines):
            raise Unread("Truncated")
        self.line += 1
        return self.lines[self.line - 1].split(b" ")

    @property
    def has_more(self) -> bool:
        return self.line < len(self.lines) or bool(self.rest)

    def wrong(self) -> NoReturn:
        raise Unread(f"Line {self.line}")

    def numbers(self, words: Sequence[bytes], more: Sequence[bytes] = ()) -> list[Any]:
        """The numbers of these words. The words that `more` holds stand for themselves."""
        found: list[Any] = []
        is_out = False
        for word in words:
            small = SMALL.get(word)
            if small is not None:
                found.append(small)
            elif word in more:
                found.append(word)
            elif NATURAL.fullmatch(word):
                found.append(int(word) if len(word) < 20 else 1 << 64)
                is_out = is_out or found[-1] > 4_294_967_295
            elif NEGATIVE.fullmatch(word):
                is_out = True
            else:
                self.wrong()
        if is_out:
            raise Unread(f"Number {self.line}")
        return found

    def shaped(self, word: bytes, count: int) -> list[bytes]:
        """A line of this word and so many more."""
        words = self.next()
        if words[0] != word or len(words) != count + 1:
            self.wrong()
        return words[1:]


# The most events of all scripts together, the most entries of a schedule, and how deep repeats nest.
LENGTH_LIMIT, NESTING_LIMIT = 142_606_336, 512
# What is longer isn't written out here.
WRITTEN_OUT = 4_000_000


class Folded(Lines):
    """The lines of a certificate, with its lists as parts: items, and repeats as (count, parts)."""

    def __init__(self, text: bytes) -> None:
        super().__init__(text)
        self.has_repeats = False

    def version(self) -> None:
        words = self.next()
        if words not in ([b"cert", b"1"], [b"cert", b"2"]):
            self.wrong()
        self.has_repeats = words[1] == b"2"

    def parts(self, count: int, item: Callable[[list[bytes]], Any], level: int = 1) -> Parts:
        found = []
        for _ in range(count):
            words = self.next()
            if not self.has_repeats or words[0] != b"r":
                found.append((1, item(words)))
                continue
            if len(words) != 3:
                self.wrong()
            times, more = self.numbers(words[1:])
            if times < 2 or more < 1:
                raise Unread(f"Number {self.line}")
            if level > NESTING_LIMIT:
                raise Unread(f"Deep {self.line}")
            found.append((times, self.parts(more, item, level + 1)))
        return found

    def event(self, words: list[bytes]) -> Event:
        if words[0] == b"f" and len(words) <= 9:
            return "f", self.numbers(words[1:], (b"z",))
        if words[0] == b"g" and len(words) == 3:
            return ("g", *self.numbers(words[1:]))
        if words[0] == b"p" and len(words) == 2:
            return ("p", *self.numbers(words[1:]))
        self.wrong()

    def entry(self, words: list[bytes]) -> int:
        if len(words) != 1:
            self.wrong()
        return self.numbers(words)[0]


def length_of(parts: Parts) -> int:
    return sum(times * (length_of(inner) if isinstance(inner, list) else 1) for times, inner in parts)


def written_out(parts: Parts) -> list[Any]:
    found = []
    for times, inner in parts:
        found += written_out(inner) * times if isinstance(inner, list) else [inner]
    return found


def swept(text: bytes) -> bytes:
    """The certificate with the line `sweep` in place of each tree, whose check isn't told here."""
    return re.sub(rb"(?m)^tree\n(?:[tdwmzxscb](?: [^\n]*)?\n)+", b"sweep\n", text)


@functools.lru_cache(4)
def certificate_of(text: bytes) -> Certificate:
    """Processes as (slots, events), channels as (writer, reader, read, capacity, class), the count of sources, and the schedule. What was
    read of a text is there for all who ask for it, to be left as it is."""
    lines = Folded(text)
    lines.version()
    counts = lines.numbers(lines.shaped(b"sizes", 4))
    processes, channels = [], []
    for _ in range(counts[0]):
        slots, parts = lines.numbers(lines.shaped(b"process", 2))
        processes.append((slots, lines.parts(parts, lines.event)))
    for _ in range(counts[1]):
        words = lines.shaped(b"channel", 5)
        if words[4] not in CLASSES:
            lines.wrong()
        channels.append((*lines.numbers(words[:4]), CLASSES[words[4]]))
    for _ in range(counts[2]):
        if lines.next() != [b"sweep"]:
            lines.wrong()
    schedule = lines.parts(counts[3], lines.entry)
    if lines.next() != [b"end"]:
        lines.wrong()
    if lines.has_more:
        lines.next()
        lines.wrong()
    events = 0
    for p, (_, parts) in enumerate(processes):
        events += length_of(parts)
        if events > LENGTH_LIMIT:
            raise Unread(f"Long {p}")
    if length_of(schedule) > LENGTH_LIMIT:
        raise Unread(f"Long {len(processes)}")
    if max(events, length_of(schedule)) > WRITTEN_OUT:
        raise MemoryError
    return [(slots, written_out(parts)) for slots, parts in processes], channels, counts[2], written_out(schedule)


def with_schedule(text: bytes, entries: Sequence[bytes]) -> bytes:
    """The certificate with these entries, as lines, for its schedule. It has `sweep` for each read."""
    parts = re.fullmatch(rb"(?s)(cert [12]\n)(sizes \d+ \d+ \d+) \d+\n(.*?\n)(?:(?:\d+|r \d+ \d+)\n)*end\n", text)
    if parts is None:
        raise Unread("Truncated")
    head, sizes, rest = parts.groups()
    return b"%s%s %d\n%s%send\n" % (head, sizes, len(entries), rest, b"".join(it + b"\n" for it in entries))


def net_text(program: Program, certificate: Certificate) -> bytes:
    """What `net` writes of a certificate's network. A channel has the slots that its tokens are put into."""
    processes, channels, _, schedule = certificate
    printed = [it.name for it in program.arrays if it.is_printed]
    events = [it for _, script in processes for it in script]
    tokens = collections.Counter(it[1] for it in events if it[0] == "p")
    slots_of: dict[int, set[int]] = collections.defaultdict(set)
    for it in events:
        if it[0] == "g":
            slots_of[it[1]].add(it[2])
    lines = ["net 1"]
    for p, ((slots, script), write) in enumerate(zip(processes, program.writes)):
        kind = "source" if p < program.first else "assign" if write else "sink"
        name = program.arrays[write[0]].name if write else printed[p - len(program.writes)]
        lines.append(f"process {p} {kind} {name} fires {sum(it[0] == 'f' for it in script)} slots {slots}")
    for c, (writer, reader, read, capacity, its) in enumerate(channels):
        held = f"tokens {tokens[c]} capacity {capacity} hold {len(slots_of[c])} class {CLASS_WORDS[its]}"
        lines.append(f"channel {c} from {writer} to {reader} read {read} {held}")
    return "\n".join([*lines, f"events {len(schedule)}", "end", ""]).encode()


def rest_of(scripts: list[list[Event]], channels: list[Channel], capacities: list[int]) -> list[int]:
    """The positions at which no process can go on, which are those of every order of events."""
    at, queued = [0] * len(scripts), [0] * len(channels)
    waiting = list(range(len(scripts)))
    while waiting:
        p = waiting.pop()
        for it in scripts[p][at[p] :]:
            if it[0] == "g":
                if not queued[it[1]]:
                    break
                queued[it[1]] -= 1
                waiting.append(channels[it[1]][0])
            elif it[0] == "p":
                if queued[it[1]] >= capacities[it[1]]:
                    break
                queued[it[1]] += 1
                waiting.append(channels[it[1]][1])
            at[p] += 1
    return at


def trimmed(certificate: Certificate) -> bytes:
    """What `trim` writes of a certificate's network. Each least capacity is found by halving, with a whole run for each try."""
    processes, channels, _, _ = certificate
    scripts, capacities = [script for _, script in processes], [it[3] for it in channels]

    def rest_with(c: int, capacity: int) -> list[int]:
        return rest_of(scripts, channels, [*capacities[:c], capacity, *capacities[c + 1 :]])

    ends = [len(it) for it in scripts]
    for c in range(len(channels)):
        low, high = 0, capacities[c]
        while low < high:
            middle = (low + high) // 2
            low, high = (low, middle) if rest_with(c, middle) == ends else (middle + 1, high)
        capacities[c] = low
    lines = (f"channel {c} capacity {it} rest {' '.join(map(str, rest_with(c, it - 1)))}\n" for c, it in enumerate(capacities))
    return f"trim 1\n{''.join(lines)}end\n".encode()


def judge(program: Program, certificate: Certificate) -> None:
    """Raises what is wrong first with a certificate that could be read, if anything is."""
    processes, channels, table, schedule = certificate
    points, sources = program.trace()
    reads, count = program.reads, len(program.reads)
    agrees = len(processes) == count and table == sum(reads)
    if not agrees or any(writer >= count or reader >= count or read >= reads[reader] for writer, reader, read, _, _ in channels):
        raise Unread(f"Shape {count}")
    for p, (slots, script) in enumerate(processes):
        gets = sum(it[0] == "g" for it in script)
        for it in script:
            if it[0] == "g" and not (it[1] < len(channels) and channels[it[1]][1] == p and it[2] < slots):
                raise Unread(f"Shape {p}")
            if it[0] == "p" and not (it[1] < len(channels) and channels[it[1]][0] == p):
                raise Unread(f"Shape {p}")
        if slots > gets:
            raise Unread(f"Shape {p}")
    for p, (slots, script) in enumerate(processes):
        fires = 0
        for k, it in enumerate(script):
            if it[0] == "f":
                if fires >= len(points[p]) or len(it[1]) != reads[p] or any(r != b"z" and r >= slots for r in it[1]):
                    raise Unread(f"Fires {p} {k}")
                fires += 1
            elif it[0] == "p" and not fires:
                raise Unread(f"Fires {p} {k}")
        if fires < len(points[p]):
            raise Unread(f"Fires {p} {len(script)}")
    queues: list[list[Tag]] = [[] for _ in channels]
    taken = [0] * len(channels)
    at, fired = [0] * count, [0] * count
    kept: list[dict[int, tuple[Tag, int, int]]] = [{} for _ in range(count)]
    uses: list[list[int]] = [[] for _ in channels]

    def shown(tag: Tag | None) -> str:
        return f"{tag[0]}({','.join(map(str, points[tag[0]][tag[1]]))})" if tag else "zero"

    for e, p in enumerate(schedule):
        script = processes[p][1] if p < count else []
        if p >= count or at[p] >= len(script):
            raise Unread(f"NotEnabled {e}")
        event = script[at[p]]
        if event[0] == "g":
            c = event[1]
            if taken[c] == len(queues[c]):
                raise Unread(f"NotEnabled {e}")
            kept[p][event[2]] = queues[c][taken[c]], c, taken[c]
            taken[c] += 1
        elif event[0] == "p":
            c = event[1]
            if len(queues[c]) - taken[c] >= channels[c][3]:
                raise Unread(f"NotEnabled {e}")
            queues[c].append((p, fired[p] - 1))
        else:
            for r, wanted in zip(event[1], sources[p][fired[p]]):
                if r != b"z" and r not in kept[p]:
                    raise Unread(f"Tag {e} empty {shown(wanted)}")
                found = None if r == b"z" else kept[p][r][0]
                if found != wanted:
                    raise Unread(f"Tag {e} {shown(found)} {shown(wanted)}")
                if r != b"z":
                    uses[kept[p][r][1]].append(kept[p][r][2])
            fired[p] += 1
        at[p] += 1
    for p in range(count):
        if at[p] < len(processes[p][1]):
            raise Unread(f"Unended {p}")
    for c, channel in enumerate(channels):
        is_class = any(a > b for a, b in zip(uses[c], uses[c][1:])), len(set(uses[c])) < len(uses[c])
        if channel[4] != is_class:
            raise Unread(f"Class {c} {CLASS_WORDS[channel[4]]} {CLASS_WORDS[is_class]}")


# ------------------------------------------------------------------------------------------------------------ the commands


# ------------------------------------------------------------------------------------------------------------ the sources


class Untold(Exception):
    """What is wrong with a text of `deps`."""


def node_of(lines: Iterator[list[str]]) -> Node:
    """A tree of such a text."""
    word, *rest = next(lines)
    if word == "t":
        form = [int(it) for it in rest]
        above = node_of(lines)
        return word, form, above, node_of(lines)
    if word == "d":
        divisor, *form = map(int, rest)
        if divisor < 2:
            raise Untold(f"a divisor {divisor}")
        above = node_of(lines)
        return word, form, above, node_of(lines), divisor
    if word == "w":
        statement, count = map(int, rest)
        maps = [next(lines) for _ in range(count)]
        if any(it[0] != "m" for it in maps):
            raise Untold(f"a map of {maps}")
        return word, statement, [[int(it) for it in line[1:]] for line in maps]
    if word not in ("z", "x") or rest:
        raise Untold(f"a node {word} {rest}")
    return (word,)


def given_by(tree: Node, at: Point) -> tuple[int, Point] | None:
    """The point that a tree gives at loop values, as (process, values), or None."""

    def value(form: Sequence[int]) -> int:
        constant, *coefficients = form
        if len(coefficients) != len(at):
            raise Untold(f"a form {form} over {at}")
        return constant + sum(c * x for c, x in zip(coefficients, at))

    while tree[0] in "td":
        chosen = value(tree[1])
        if tree[0] == "d":
            # the quotient is one variable more below, also where the divisor leaves a rest
            quotient, rest = divmod(chosen, tree[4])
            at = (*at, quotient)
            chosen = -1 if rest else 0
        tree = tree[2] if chosen >= 0 else tree[3]
    if tree[0] == "x":
        raise Untold(f"a dead leaf at {at}")
    return (tree[1], tuple(map(value, tree[2]))) if tree[0] == "w" else None


def told(program: Program, text: bytes, follows: bool = True) -> None:
    """Judges a text of `deps`. Each tree is followed at every point of its reader, if that is wanted and the size is within its limit."""
    if not text.endswith(b"\n"):
        raise Untold("no line feed at the end")
    lines = iter([it.split(" ") for it in text.decode().split("\n")[:-1]])
    points = sources = None
    if follows or not program.all_have_trees():
        try:
            points, sources = program.trace()
        except Refused:
            pass

    def expect(*words: object) -> None:
        line = next(lines, None)
        if line != list(map(str, words)):
            raise Untold(f"{line} for {words}")

    def point(tag: Tag | None) -> tuple[int, Point] | None:
        return (tag[0], tuple(points[tag[0]][tag[1]])) if tag else None

    expect("deps", 1)
    for statement, arrays in enumerate(program.arrays_read):
        for read, array in enumerate(arrays):
            expect("read", statement, read)
            if program.has_tree(array):
                expect("tree")
                tree = node_of(lines)
                for at, tags in zip(points[statement], sources[statement]) if points is not None else ():
                    if given_by(tree, at) != point(tags[read]):
                        raise Untold(f"{given_by(tree, at)} for {point(tags[read])} of read {read} of {statement} at {at}")
                continue
            expect("points", len(points[statement]))
            for at, tags in zip(points[statement], sources[statement]):
                values = "({})".format(",".join(map(str, at)))
                source = point(tags[read])
                expect(values, "{}({})".format(source[0], ",".join(map(str, source[1]))) if source else "zero")
    expect("end")
    if next(lines, None) is not None:
        raise Untold("more lines")


COMMANDS = ("run", "seq", "net", "cert", "check", "deps", "vhdl", "sim", "trim", "trace")
USAGE = b"usage: compaan COMMAND [--policy seq|down] [NAME=VALUE]...\n"


def order_of(words: Sequence[str]) -> Order | None:
    """The command, the values of parameters and the number behind `load`, or None where the words are refused."""
    items, policies, rest = [], [], list(words)
    while rest:
        word = rest.pop(0)
        if word == "--":
            items += rest
            break
        if word == "--policy":
            if not rest:
                return None
            policies.append(rest.pop(0))
        elif word.startswith("--policy="):
            policies.append(word[9:])
        elif len(word) > 1 and word[0] == "-":
            return None
        else:
            items.append(word)
    if len(policies) > 1 or any(it not in ("seq", "down") for it in policies) or not items:
        return None
    command, *items = items
    if command == "load":
        return (command, {}, int(items[0])) if len(items) == 1 and re.fullmatch("[0-9]{1,18}", items[0]) else None
    values = {}
    for item in items:
        name, _, value = item.partition("=")
        is_name = re.fullmatch("[A-Za-z_][A-Za-z_0-9]*", name) and name.encode() not in RESERVED
        if not is_name or name in values or not re.fullmatch("-?[0-9]{1,18}", value):
            return None
        values[name] = int(value)
    return (command, values, 0) if command in COMMANDS else None


def outcome(words: Sequence[str], bundle: bytes, trace: bool = False) -> Outcome:
    """What `run`, `seq` and `check` come to, and every refused call: status, output and complaint. The answer of another command
    isn't known: (0, None, b""). A byte of a word that is no UTF-8 stands as Python has it, as a lone surrogate. Whether the last writers
    are asked for later may be said."""
    if any("\udc80" <= letter <= "\udcff" for word in words for letter in word):
        return 11, b"", b""
    order = order_of(words)
    if order is None:
        return 2, b"", USAGE
    command, values, count = order
    try:
        if command == "load":
            if count > LARGE:
                raise Refused(8, "limit: Large 6")
            if count > 159:
                raise too_large()
            return 0, None, b""
        source, data, certificate = parts_of(bundle)
        if command == "check" and certificate is None:
            raise Refused(5, "bundle: NoPart")
        program = program_of(source, values)
        if command in ("run", "seq", "sim"):
            fault, given = None, {}
            try:
                given = inputs_of(program.arrays, data or b"")
            except Refused as refused:
                fault = refused
            if fault or command == "sim":
                program.check_size()
                if fault:
                    raise fault
                return 0, None, b""
            answer = program.outputs(given, trace)
            return 0, "".join([",".join([name, *map(str, cells)]) + "\n" for name, cells in answer]).encode(), b""
        if command != "deps" or not program.all_have_trees():
            program.check_size()
        if command != "check":
            return 0, None, b""
        judge(program, certificate_of(certificate))
        return 0, b"accepted\n", b""
    except Unread as reason:
        return 1, f"refused {reason}\n".encode(), b""
    except Refused as refused:
        return refused.status, b"", refused.line.encode() + b"\n"
