#!/usr/bin/env python3
"""A source of loops from a function in C.

usage: tools/from_c.py FILE.c [--function NAME] [--out ARRAY].. > FILE.loop

What C has of static affine nested loops is rewritten in the source language: loops up and down, guards, `+=` and its kin, macros for
sizes, `min` and `max` by `?:`. Sizes, that is macros with a number and parameters of a whole type that stand in bounds, extents or
subscripts, become `param`s, and the first line of the source has the values of the macros. An array or a number that is a parameter
of the function and is only read becomes `in`; an array that is written `inout`, since C leaves its other cells as they were, or `out`
where --out names it; what is declared within `var`. A value that is returned at the end becomes `out`. A right side with more than 8
reads is split into several statements over variables of their own. What can't be had is told at its line, with status 65.

It uses pycparser and the preprocessor of the C compiler. In the source language values have 64 bits and wrap, so what overflows in C
is another value here.
"""
from __future__ import annotations

import contextlib
import re
import subprocess
import sys
from collections import Counter
from dataclasses import dataclass, field

from front_door.base import put, tell
from front_door.bundle import BUNDLE_LIMIT, read_file
from front_door.ending import ended
from front_door.options import Parser

try:
    from pycparser import c_ast, c_parser
except ImportError:
    print("compaan c wants the package pycparser (python3-pycparser in Debian)", file=sys.stderr)
    sys.exit(69)

UNFIT = 65
MOST_READS = 8
RESERVED = {"param", "in", "out", "inout", "var", "int", "for", "if", "else", "min", "max"}
WHOLE = {
    "int",
    "long",
    "short",
    "signed",
    "char",
    "int8_t",
    "int16_t",
    "int32_t",
    "int64_t",
    "size_t",
    "ptrdiff_t",
    "const",
    "static",
    "register",
}
SIZE_MACRO = re.compile(r"[ \t]*#[ \t]*define[ \t]+([A-Za-z_]\w*)[ \t]+\(?[ \t]*(-?)(\d\w*)[ \t]*\)?[ \t]*(?://.*|/\*.*\*/[ \t]*)?$")


class Unfit(Exception):
    """What can't be had, with its line."""

    def __init__(self, node: object, why: str) -> None:
        coord = getattr(node, "coord", None)
        super().__init__(f"{coord.line}: {why}" if coord else why)


# The largest number that the source language writes.
LARGEST = (1 << 63) - 1


def number_of(text: str) -> int | None:
    """The number that a constant of C stands for, of which 010 is eight, or None where it is none that the source language writes."""
    digits = text.rstrip("uUlL")
    if re.fullmatch("0[0-7]+", digits):
        value = int(digits, 8)
    elif re.fullmatch("0[xX][0-9a-fA-F]+|0[bB][01]+|[0-9]+", digits):
        value = int(digits, 0)
    else:
        return None
    return value if value <= LARGEST else None


def constant_of(node: c_ast.Constant) -> int:
    """The number of a constant, which may be a character of ASCII."""
    if node.type == "char":
        with contextlib.suppress(UnicodeError):
            text = node.value[1:-1].encode("ascii").decode("unicode_escape")
            if node.value[0] == "'" and len(text) == 1 and text.isascii():
                return ord(text)
        raise Unfit(node, f"{node.value} is no character of ASCII")
    if not node.type.endswith("int"):
        raise Unfit(node, "floats have no place here" if node.type in ("float", "double", "long double") else f"{node.value} has no place here")
    found = number_of(node.value)
    if found is None:
        raise Unfit(node, f"{node.value} is no number up to {LARGEST}")
    return found


# A value of the right side: a number, a name, a read with its subscripts, or a sign with its operands.
@dataclass
class Value:
    sign: str
    parts: list["Value"] = field(default_factory=list)
    text: str = ""


def reads_in(value: Value) -> int:
    """How many reads a right side has."""
    own = 1 if value.sign == "read" else 0
    return own + sum(reads_in(it) for it in value.parts)


TIGHTNESS = {"+": 1, "-": 1, "*": 2, "negate": 3}


def written(value: Value, around: int = 0) -> str:
    """A right side as text, with parentheses where they are needed."""
    if value.sign in ("number", "read", "name"):
        return value.text if not (value.text.startswith("-") and around > 1) else f"({value.text})"
    if value.sign in ("min", "max"):
        return f"{value.sign}({', '.join(written(it) for it in value.parts)})"
    own = TIGHTNESS[value.sign]
    if value.sign == "negate":
        text = f"-{written(value.parts[0], own)}"
        own = 1
    else:
        # Sums and products associate to the left.
        text = f"{written(value.parts[0], own)} {value.sign} {written(value.parts[1], own + 1)}"
    return f"({text})" if own < around else text


@dataclass
class Comparison:
    left: str
    sign: str
    right: str

    def text(self) -> str:
        return f"{self.left} {self.sign} {self.right}"


# Which of less, equal and greater a sign takes.
TAKES = {"<": {-1}, "<=": {-1, 0}, ">": {1}, ">=": {0, 1}, "==": {0}}
SIGNS = {frozenset(takes): sign for sign, takes in TAKES.items()}


def tidied(together: list[Comparison]) -> list[Comparison] | None:
    """Comparisons that hold together, with those of the same two sides as one, or None where two of them can't both hold."""
    takes: dict[tuple[str, str], set[int]] = {}
    for it in together:
        takes[it.left, it.right] = takes.get((it.left, it.right), {-1, 0, 1}) & TAKES[it.sign]
    if not all(takes.values()):
        return None
    return [Comparison(left, SIGNS[frozenset(taken)], right) for (left, right), taken in takes.items()]


OPPOSITES = {"<": (">=",), "<=": (">",), ">": ("<=",), ">=": ("<",), "==": ("<", ">")}


class Names:
    """The names of the source: those of C, but for reserved words and those that are taken."""

    def __init__(self) -> None:
        self.taken: set[str] = set(RESERVED)

    def new(self, name: str) -> str:
        base, number = name, 0
        while name in self.taken:
            number += 1
            name = f"{base}_{number}"
        self.taken.add(name)
        return name


class Source:
    """The source that a function becomes."""

    def __init__(self, function: c_ast.FuncDef, sizes: dict[str, int], outputs: list[str]) -> None:
        self.function, self.sizes, self.outputs = function, sizes, outputs
        self.names = Names()
        # What a name of C is here: its name in the source, by scope, and what kind of thing it is.
        self.scopes: list[dict[str, tuple[str, str]]] = [{}]
        self.lines: list[str] = []
        self.extents: dict[str, list[str]] = {}
        self.given: list[str] = []
        self.own: list[str] = []
        self.params: list[str] = []
        self.scalars: list[str] = []
        self.written_arrays: set[str] = set()
        self.read_arrays: set[str] = set()
        # Variables that a right side was split with.
        self.parts: set[str] = set()
        # The values of loop variables that run down, in terms of their turns.
        self.turned: dict[str, str] = {}
        self.result: str | None = None
        self.has_returned = False

    # ---- names

    def find(self, node: c_ast.ID) -> tuple[str, str]:
        for scope in reversed(self.scopes):
            if node.name in scope:
                return scope[node.name]
        if node.name in self.sizes:
            name = self.names.new(node.name)
            self.scopes[0][node.name] = (name, "param")
            self.params.append(name)
            return self.scopes[0][node.name]
        if node.name in self.loop_variables:
            raise Unfit(node, f"{node.name} counts the turns of a loop, and is known within that alone")
        raise Unfit(node, f"{node.name} is nothing that is declared in this function")

    def declare(self, name: str, kind: str) -> str:
        made = self.names.new(name)
        self.scopes[-1][name] = (made, kind)
        return made

    # ---- types

    def check_type(self, node: object, names: list[str]) -> None:
        wrong = [it for it in names if it not in WHOLE]
        if wrong:
            kind = "floats have no place here" if wrong[0] in ("float", "double") else f"{wrong[0]} is no signed whole type"
            raise Unfit(node, kind)

    def shape(self, node: c_ast.Decl) -> tuple[list[object], list[str]]:
        """The extents of what is declared, and its type."""
        extents: list[object] = []
        kind = node.type
        while isinstance(kind, (c_ast.ArrayDecl, c_ast.PtrDecl)):
            extents.append(kind.dim if isinstance(kind, c_ast.ArrayDecl) else None)
            kind = kind.type
        if not isinstance(kind, c_ast.TypeDecl) or not isinstance(kind.type, c_ast.IdentifierType):
            raise Unfit(node, f"{node.name} is neither a number nor an array of numbers")
        return extents, kind.type.names

    # ---- affine places

    def affine(self, node: object) -> str:
        """An expression in an affine place: a bound, a subscript, a side of a comparison or an extent."""
        if isinstance(node, c_ast.Constant):
            return str(constant_of(node))
        if isinstance(node, c_ast.ID):
            name, kind = self.find(node)
            if kind == "loop":
                return self.turned.get(name, name)
            if kind in ("param", "size"):
                if kind == "size" and name in self.written_arrays:
                    raise Unfit(node, f"{node.name} is set in this function, so what stands here depends on data")
                if kind == "size":
                    self.promote(node.name)
                return name
            raise Unfit(node, f"{node.name} is no size and no loop variable, so what stands here depends on data")
        if isinstance(node, c_ast.UnaryOp) and node.op in ("-", "+"):
            return self.affine(node.expr) if node.op == "+" else f"-{self.atom(node.expr)}"
        if isinstance(node, c_ast.BinaryOp) and node.op in ("+", "-", "*"):
            left, right = (self.atom(it) if node.op == "*" or at else self.affine(it) for at, it in enumerate((node.left, node.right)))
            return f"{left} {node.op} {right}"
        if isinstance(node, c_ast.Cast):
            return self.affine(node.expr)
        if isinstance(node, c_ast.ArrayRef):
            raise Unfit(node, "a subscript or a bound that is read from an array depends on data")
        if isinstance(node, c_ast.FuncCall):
            raise Unfit(node, "a call has no place in a bound or a subscript")
        if isinstance(node, c_ast.BinaryOp):
            raise Unfit(node, f"`{node.op}` has no place in a bound, a guard or a subscript: these are affine")
        raise Unfit(node, "a bound, a guard or a subscript is an affine expression")

    def atom(self, node: object) -> str:
        text = self.affine(node)
        return text if re.fullmatch(r"\w+", text) else f"({text})"

    def promote(self, name: str) -> None:
        """A whole parameter of the function that stands in an affine place is a size."""
        made, _ = self.scopes[0][name]
        self.scopes[0][name] = (made, "param")
        if made not in self.params:
            self.params.append(made)

    # ---- bounds

    def extreme(self, node: object) -> tuple[str, list[object]] | None:
        """min or max by `?:`, with its two sides."""
        if isinstance(node, c_ast.TernaryOp) and isinstance(node.cond, c_ast.BinaryOp) and node.cond.op in ("<", "<=", ">", ">="):
            left, right, yes, no = map(shown, (node.cond.left, node.cond.right, node.iftrue, node.iffalse))
            less = node.cond.op in ("<", "<=")
            if (left, right) == (yes, no):
                return ("min" if less else "max"), [node.iftrue, node.iffalse]
            if (left, right) == (no, yes):
                return ("max" if less else "min"), [node.iftrue, node.iffalse]
        return None

    def bound(self, node: object, sign: str) -> str:
        """A bound, with max at its top where it is a lower one, and min where it is an upper one."""
        found = self.extreme(node)
        if found and found[0] == sign:
            return f"{sign}({', '.join(self.bound_parts(node, sign))})"
        return self.affine(node)

    def bound_parts(self, node: object, sign: str) -> list[str]:
        found = self.extreme(node)
        if found and found[0] == sign:
            return [part for it in found[1] for part in self.bound_parts(it, sign)]
        return [self.affine(node)]

    # ---- right sides

    def value(self, node: object) -> Value:
        if isinstance(node, c_ast.Constant):
            return Value("number", text=str(constant_of(node)))
        if isinstance(node, c_ast.ID):
            name, kind = self.find(node)
            if kind == "loop":
                return Value("name", text=f"({self.turned[name]})" if name in self.turned else name)
            if kind == "param":
                return Value("name", text=name)
            if kind == "array":
                raise Unfit(node, f"{node.name} is an array, and wants its subscripts")
            self.read_arrays.add(name)
            if kind == "size" and name not in self.scalars:
                self.scalars.append(name)
            return Value("read", text=name)
        if isinstance(node, c_ast.ArrayRef):
            name, text = self.access(node)
            self.read_arrays.add(name)
            return Value("read", text=text)
        if isinstance(node, c_ast.Cast):
            self.check_type(node, node.to_type.type.type.names)
            return self.value(node.expr)
        if isinstance(node, c_ast.UnaryOp) and node.op in ("-", "+"):
            return self.value(node.expr) if node.op == "+" else Value("negate", [self.value(node.expr)])
        found = self.extreme(node)
        if found:
            return Value(found[0], [self.value(it) for it in found[1]])
        if isinstance(node, c_ast.BinaryOp):
            if node.op in ("+", "-", "*"):
                return Value(node.op, [self.value(node.left), self.value(node.right)])
            if node.op == "<<" and isinstance(node.right, c_ast.Constant):
                places = constant_of(node.right)
                if places > 62:
                    raise Unfit(node, f"a shift by {places} has no place here")
                return Value("*", [self.value(node.left), Value("number", text=str(1 << places))])
            raise Unfit(node, f"`{node.op}` is no operator of the language: it has +, -, *, min and max")
        if isinstance(node, c_ast.FuncCall):
            raise Unfit(node, f"a call, of {shown(node.name)}, has no place here: write it out, or as a macro")
        if isinstance(node, c_ast.TernaryOp):
            raise Unfit(node, "`?:` has a place only as min or max of its two sides: write guards of loop variables as `if`")
        raise Unfit(node, "this has no place in a right side")

    def access(self, node: object) -> tuple[str, str]:
        """An element of an array, or a number, by its name and as text."""
        subscripts: list[object] = []
        while isinstance(node, c_ast.ArrayRef):
            subscripts.insert(0, node.subscript)
            node = node.name
        if not isinstance(node, c_ast.ID):
            raise Unfit(node, "only arrays that are called by their names have a place here")
        name, kind = self.find(node)
        if kind in ("loop", "param"):
            raise Unfit(node, f"{node.name} is a {'loop variable' if kind == 'loop' else 'size'}, and can't be set here")
        wanted = len(self.extents.get(name, []))
        if len(subscripts) != wanted:
            raise Unfit(node, f"{node.name} has {wanted} subscripts, and {len(subscripts)} stand here")
        if kind == "size" and name not in self.scalars:
            self.scalars.append(name)
        return name, name + "".join(f"[{self.affine(it)}]" for it in subscripts)

    # ---- statements

    def put(self, depth: int, text: str) -> None:
        self.lines.append("  " * depth + text)

    def assign(self, target: str, value: Value, depth: int) -> None:
        """An assignment, whose right side is split where it has too many reads."""
        while reads_in(value) > MOST_READS:
            value = self.split(value, depth)
        self.put(depth, f"{target} = {written(value)};")

    def split(self, value: Value, depth: int) -> Value:
        """The right side with the largest part of it that has few enough reads in a variable of its own."""
        best: list[Value] = []

        def look(part: Value) -> None:
            if 2 <= reads_in(part) <= MOST_READS and (not best or reads_in(part) > reads_in(best[0])):
                best[:] = [part]
            for it in part.parts:
                look(it)

        look(value)
        part = best[0]
        name = self.names.new("part")
        self.own.append(name)
        self.parts.add(name)
        self.extents[name] = []
        self.put(depth, f"{name} = {written(part)};")
        part.sign, part.parts, part.text = "read", [], name
        return value

    def statements(self, nodes: list[object], depth: int) -> None:
        self.scopes.append({})
        for node in nodes:
            self.statement(node, depth)
        self.scopes.pop()

    def statement(self, node: object, depth: int) -> None:
        if node is None or isinstance(node, (c_ast.EmptyStatement, c_ast.Pragma)):
            return
        if self.has_returned:
            raise Unfit(node, "this stands behind a return, and is never executed")
        if isinstance(node, c_ast.Compound):
            self.statements(node.block_items or [], depth)
        elif isinstance(node, c_ast.For):
            self.loop(node, depth)
        elif isinstance(node, c_ast.If):
            self.guard(node, depth)
        elif isinstance(node, c_ast.Decl):
            self.local(node, depth)
        elif isinstance(node, c_ast.Assignment):
            self.assignment(node, depth)
        elif isinstance(node, c_ast.UnaryOp) and node.op in ("p++", "++", "p--", "--"):
            name, text = self.access(node.expr)
            self.written_arrays.add(name)
            self.read_arrays.add(name)
            sign = "+" if "+" in node.op else "-"
            self.assign(text, Value(sign, [Value("read", text=text), Value("number", text="1")]), depth)
        elif isinstance(node, c_ast.Return) and depth == 0:
            self.has_returned = True
            if node.expr is not None:
                self.result = self.names.new("result")
                self.assign(self.result, self.value(node.expr), depth)
        elif isinstance(node, c_ast.FuncCall):
            raise Unfit(node, f"a call, of {shown(node.name)}, has no place here: write it out, or as a macro")
        elif isinstance(node, (c_ast.While, c_ast.DoWhile)):
            raise Unfit(node, "how often `while` turns isn't known beforehand: write it as `for` with affine bounds")
        elif isinstance(node, (c_ast.Break, c_ast.Continue, c_ast.Goto, c_ast.Return)):
            raise Unfit(node, "no jump has a place here")
        else:
            raise Unfit(node, "this statement has no place here")

    def local(self, node: c_ast.Decl, depth: int) -> None:
        extents, kind = self.shape(node)
        self.check_type(node, kind)
        if node.name in self.loop_variables:
            # (a variable that loops count with needs no declaration)
            return
        if "static" in node.storage and "const" not in node.quals:
            raise Unfit(node, f"{node.name} is static, and keeps its value from call to call: make it a parameter of the function")
        if isinstance(node.init, c_ast.InitList):
            raise Unfit(node, f"the values of {node.name} stand in the source: give them as data, in a parameter of the function")
        name = self.declare(node.name, "array" if extents else "scalar")
        self.extents[name] = [self.extent(node, it) for it in extents]
        self.own.append(name)
        if node.init is not None:
            self.written_arrays.add(name)
            self.assign(name, self.value(node.init), depth)

    def extent(self, node: c_ast.Decl, dim: object) -> str:
        if dim is None:
            raise Unfit(node, f"{node.name} has an extent that isn't said: write it as {node.name}[N] with its size")
        return self.affine(dim)

    def assignment(self, node: c_ast.Assignment, depth: int) -> None:
        if node.op not in ("=", "+=", "-=", "*="):
            raise Unfit(node, f"`{node.op}` has no place here")
        value = self.value(node.rvalue)
        name, text = self.access(node.lvalue)
        self.written_arrays.add(name)
        if node.op != "=":
            self.read_arrays.add(name)
            value = Value(node.op[0], [Value("read", text=text), value])
        self.assign(text, value, depth)

    def loop(self, node: c_ast.For, depth: int) -> None:
        if isinstance(node.init, c_ast.DeclList) and len(node.init.decls) == 1:
            c_name, first = node.init.decls[0].name, node.init.decls[0].init
        elif isinstance(node.init, c_ast.Assignment) and node.init.op == "=" and isinstance(node.init.lvalue, c_ast.ID):
            c_name, first = node.init.lvalue.name, node.init.rvalue
            if any(c_name in scope for scope in self.scopes):
                raise Unfit(node, f"{c_name} stands for something else already, which this loop would change: take another name")
        else:
            raise Unfit(node, "a loop begins with one variable and its first value")
        condition = node.cond
        if not isinstance(condition, c_ast.BinaryOp) or condition.op not in ("<", "<=", ">", ">="):
            raise Unfit(node, "a loop goes on while its variable is less or greater than a bound: with <, <=, > or >=")
        if not isinstance(condition.left, c_ast.ID) or condition.left.name != c_name:
            raise Unfit(node, f"the condition of a loop compares its variable, {c_name}, on its left")
        step = self.step(node, c_name)
        up = condition.op in ("<", "<=")
        if up != (not step.startswith("-")):
            raise Unfit(node, "this loop runs away from its bound")
        self.scopes.append({})
        if up:
            lower, upper = self.bound(first, "max"), self.bound(condition.right, "min")
            name = self.declare(c_name, "loop")
            turn = f"{name}++" if step == "1" else f"{name} += {step}"
            self.put(depth, f"for ({name} = {lower}; {name} {condition.op} {upper}; {turn}) {{")
        else:
            # Turn t of a loop that runs down is the first value less t.
            start, end = self.affine(first), self.affine(condition.right)
            name = self.declare(c_name, "loop")
            turn = f"{name}++" if step == "-1" else f"{name} += {step[1:]}"
            whole = start if re.fullmatch(r"\w+", start) else f"({start})"
            self.turned[name] = f"{whole} - {name}"
            ends = end if re.fullmatch(r"\w+", end) else f"({end})"
            self.put(depth, f"for ({name} = 0; {name} {'<' if condition.op == '>' else '<='} {whole} - {ends}; {turn}) {{")
        self.statement(node.stmt, depth + 1)
        self.scopes.pop()
        self.turned.pop(name, None)
        self.names.taken.discard(name)
        self.put(depth, "}")

    def step(self, node: c_ast.For, name: str) -> str:
        turn = node.next
        if isinstance(turn, c_ast.UnaryOp) and turn.op in ("p++", "++", "p--", "--") and shown(turn.expr) == name:
            return "1" if "+" in turn.op else "-1"
        if isinstance(turn, c_ast.Assignment) and shown(turn.lvalue) == name and turn.op in ("+=", "-="):
            return ("-" if turn.op == "-=" else "") + self.atom(turn.rvalue)
        value = getattr(turn, "rvalue", None)
        if isinstance(value, c_ast.BinaryOp) and shown(value.left) == name and value.op in ("+", "-"):
            return ("-" if value.op == "-" else "") + self.atom(value.right)
        raise Unfit(node, "a loop steps by a fixed number: i++, i += 2, i--")

    # ---- guards

    def comparisons(self, node: object) -> list[list[Comparison]]:
        """A condition as alternatives that exclude each other, each a list of comparisons that hold together."""
        if isinstance(node, c_ast.BinaryOp) and node.op == "&&":
            return [[*left, *right] for left in self.comparisons(node.left) for right in self.comparisons(node.right)]
        if isinstance(node, c_ast.BinaryOp) and node.op == "||":
            left = self.comparisons(node.left)
            rest = [[*some, *others] for some in self.negated(left) for others in self.comparisons(node.right)]
            return [*left, *rest]
        if isinstance(node, c_ast.UnaryOp) and node.op == "!":
            return self.negated(self.comparisons(node.expr))
        if isinstance(node, c_ast.BinaryOp) and node.op in ("<", "<=", ">", ">=", "==", "!="):
            left, right = self.affine(node.left), self.affine(node.right)
            return [[Comparison(left, sign, right)] for sign in (("<", ">") if node.op == "!=" else (node.op,))]
        raise Unfit(node, "a guard compares affine expressions of loop variables and sizes: its outcome can't depend on data")

    def negated(self, alternatives: list[list[Comparison]]) -> list[list[Comparison]]:
        """What holds where none of these alternatives does, again as alternatives that exclude each other."""
        found: list[list[Comparison]] = [[]]
        for together in alternatives:
            ways = [[*together[:at], Comparison(it.left, sign, it.right)] for at, it in enumerate(together) for sign in OPPOSITES[it.sign]]
            found = [it for before in found for way in ways for it in [tidied([*before, *way])] if it is not None]
        return found

    def guard(self, node: c_ast.If, depth: int) -> None:
        holds = [it for it in map(tidied, self.comparisons(node.cond)) if it is not None]
        is_plain = len(holds) == 1 and len(holds[0]) == 1 and holds[0][0].sign != "=="
        for together in holds:
            self.put(depth, f"if ({' && '.join(it.text() for it in together)}) {{")
            self.statement(node.iftrue, depth + 1)
            self.put(depth, "}")
        if node.iffalse is None:
            return
        if is_plain:
            self.lines[-1] = "  " * depth + "} else {"
            self.statement(node.iffalse, depth + 1)
            self.put(depth, "}")
            return
        for together in self.negated(holds):
            self.put(depth, f"if ({' && '.join(it.text() for it in together)}) {{")
            self.statement(node.iffalse, depth + 1)
            self.put(depth, "}")

    # ---- the whole

    def text(self) -> str:
        declared = self.function.decl.type.args
        arrays: list[tuple[str, str]] = []
        counting = LoopVariables()
        counting.visit(self.function.body)
        self.loop_variables = counting.names
        parameters = [it for it in (declared.params if declared else []) if isinstance(it, c_ast.Decl)]
        for it in parameters:
            extents, kind = self.shape(it)
            self.check_type(it, kind)
            name = self.declare(it.name, "array" if extents else "size")
            self.extents[name] = []
            arrays.append((it.name, name))
        for it in parameters:
            self.extents[self.scopes[0][it.name][0]] = [self.extent(it, dim) for dim in self.shape(it)[0]]
        self.statements(self.marked(self.function.body.block_items or []), 0)
        return self.assembled(arrays)

    def marked(self, nodes: list[object]) -> list[object]:
        """What stands between `#pragma scop` and `#pragma endscop`, with the declarations, where these stand; else all."""
        marks = [at for at, it in enumerate(nodes) if isinstance(it, c_ast.Pragma) and it.string.strip() in ("scop", "endscop")]
        if len(marks) != 2:
            return nodes
        return [*[it for it in nodes[: marks[0]] if isinstance(it, c_ast.Decl)], *nodes[marks[0] + 1 : marks[1]]]

    def assembled(self, arrays: list[tuple[str, str]]) -> str:
        """The declarations and then the statements."""
        kinds: dict[str, list[str]] = {"param": self.params, "in": [], "out": [], "inout": [], "var": []}
        for c_name, name in arrays:
            if name in self.params:
                continue
            shape = name + "".join(f"[{it}]" for it in self.extents[name])
            if c_name in self.outputs:
                kinds["out"].append(shape)
            elif name in self.written_arrays and self.extents[name]:
                kinds["inout"].append(shape)
            elif name in self.written_arrays:
                kinds["in"].append(shape)
            elif name in self.read_arrays:
                kinds["in"].append(shape)
        used = self.written_arrays | self.read_arrays | self.parts
        kinds["var"] = [name + "".join(f"[{it}]" for it in self.extents[name]) for name in self.own if name in used]
        if self.result:
            kinds["out"].append(self.result)
        values = [f"{name}={value}" for name, value in self.sizes.items() if self.scopes[0].get(name, ("", ""))[0] in self.params]
        head = [f"// {' '.join(values)}"] if values else []
        return "\n".join([*head, *(f"{kind} {', '.join(names)};" for kind, names in kinds.items() if names), *self.lines]) + "\n"


class LoopVariables(c_ast.NodeVisitor):
    """The names of the variables that loops count with."""

    def __init__(self) -> None:
        self.names: set[str] = set()

    def visit_For(self, node: c_ast.For) -> None:  # noqa: N802
        if isinstance(node.init, c_ast.Assignment) and isinstance(node.init.lvalue, c_ast.ID):
            self.names.add(node.init.lvalue.name)
        self.generic_visit(node)


def shown(node: object) -> str:
    """A part of C as text, by which two are the same."""
    from pycparser import c_generator

    return c_generator.CGenerator().visit(node)


def preprocessed(text: str) -> tuple[str, dict[str, int]]:
    """The text as the preprocessor leaves it, with macros for sizes as names; and these with their values."""
    sizes: dict[str, int] = {}
    lines = []
    tested = " ".join(re.findall(r"(?m)^[ \t]*#[ \t]*(?:if|elif|ifdef|ifndef)\b(.*)$", text))
    # How often a name is defined, or no more so: what has several meanings is left to the preprocessor.
    defined = Counter(re.findall(r"(?m)^[ \t]*#[ \t]*(?:define|undef)[ \t]+(\w+)", text))
    for line in text.split("\n"):
        found = SIZE_MACRO.match(line)
        value = number_of(found[3]) if found else None
        if found and value is not None and defined[found[1]] == 1 and not re.search(rf"\b{found[1]}\b", tested):
            sizes[found[1]] = -value if found[2] else value
            line = ""
        elif re.match(r"[ \t]*#[ \t]*include\b", line):
            line = ""
        lines.append(line)
    done = subprocess.run(["cc", "-E", "-x", "c", "-"], input="\n".join(lines), capture_output=True, text=True, check=False)
    if done.returncode:
        raise Unfit(None, re.sub(r"(?m)^<stdin>:", "", done.stderr.strip()).split("\n")[0])
    types = "".join(f"typedef long {it};" for it in ("int8_t", "int16_t", "int32_t", "int64_t", "size_t", "ptrdiff_t"))
    return f'{types}\n# 1 "<stdin>"\n{done.stdout}', sizes


def converted(text: str, function: str | None, outputs: list[str]) -> str:
    """The source of the function of this name, or of the one that there is."""
    whole, sizes = preprocessed(text)
    try:
        tree = c_parser.CParser().parse(whole)
    except Exception as error:  # pycparser's ParseError has moved between versions
        raise Unfit(None, re.sub(r"^[^:]*:(\d+):(\d+): ", r"\1: ", str(error))) from error
    functions = {it.decl.name: it for it in tree.ext if isinstance(it, c_ast.FuncDef)}
    if function is None and len(functions) != 1:
        raise Unfit(None, f"there are {len(functions)} functions: --function names one of {', '.join(functions) or 'none'}")
    if function is not None and function not in functions:
        raise Unfit(None, f"there is no function {function}, but {', '.join(functions) or 'none'}")
    chosen = functions[function] if function else next(iter(functions.values()))
    return Source(chosen, sizes, outputs).text()


def main() -> int:
    parser = Parser(prog="./compaan c", description="Writes the source of a function in C.")
    parser.add_argument("file", metavar="FILE.c")
    parser.add_argument("--function", metavar="NAME", help="the function, where there are several")
    parser.add_argument("--out", metavar="ARRAY", action="append", default=[], help="an array that is only an output")
    words = parser.parse_args()
    text = read_file(words.file, BUNDLE_LIMIT).decode(errors="replace")
    try:
        put(converted(text, words.function, words.out).encode())
    except Unfit as error:
        tell(f"{words.file}:{error}")
        return UNFIT
    return 0


if __name__ == "__main__":
    sys.exit(ended(main))
