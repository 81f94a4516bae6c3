#!/usr/bin/env python3
"""Random programs over the whole language, and damaged bundles, run by the built program and by a Python meaning of its own.

usage: tools/hostile/fuzz.py [--seed SEED] [--count COUNT] [--jobs JOBS] [--minutes MINUTES] [--keep FOLDER] [--only NUMBER] [--space GB] [--compaan PROGRAM]

Each of COUNT programs is run by `run` and by `seq`, whose answer or refusal must be what meaning.py says. What `cert` writes must be
accepted by `check`, and with `sweep` in place of its trees by meaning.py too. Of each fourth program `net` must tell the same processes and
channels; of others the nodes of `vhdl`, run in Python, must come to the same answer in as many clocks as `sim` tells; of others `trim` must
tell the least capacities and the positions that meaning.py finds by halving; and of others `trace` must tell a run that can stand in the
certificate, and `deps` the last writers that meaning.py finds, by trees for just the reads that have one.

Then one part of its bundle is damaged: bytes, tokens, numbers, lines or whole parts. A command on the damaged bundle must come to the
status, the output and the complaint that meaning.py says, and where that tells no text, to one that texts.py takes for one. A run that ends
by a signal, takes too long or takes more than 2 GB is a difference too. Prints one line for each difference, keeps its bundle and words in
FOLDER, and fails where there is one. The same seed makes the same inputs, whatever COUNT and JOBS are. It is a test, outside the proof.
"""
from __future__ import annotations

import gc
import os
import random
import re
import shlex
import sys
import time
from collections import Counter
from collections.abc import Callable, Sequence
from concurrent.futures import FIRST_COMPLETED, Future, ProcessPoolExecutor, wait
from pathlib import Path
from typing import Any

sys.path.insert(0, str(Path(__file__).resolve().parents[1]))
from common import bundled, parser_of, program_of, table
from hardware.nodes import read_nodes, run_nodes
from hardware.wiring import Unfit, read_net
from hostile import asking, meaning, texts
from hostile.asking import End
from hostile.meaning import Outcome
from outline import values_of

MOST_KILOBYTES = 2 << 20
MOST_SECONDS = 120
COMMANDS = ("run", "seq", "net", "cert", "check", "deps", "vhdl", "sim", "trim", "trace")
EXTREMES = [2**63 - 1, 2**62, 2**32, 2**31, 2**31 - 1, 10**18, 3037000500, 255]
LIMITS = [
    b"0",
    b"1",
    b"-1",
    b"2147483647",
    b"2147483648",
    b"4294967295",
    b"4294967296",
    b"9223372036854775807",
    b"9223372036854775808",
    b"18446744073709551616",
    b"00",
    b"007",
    b"8388608",
    b"8388609",
    b"99999999999999999999999999",
    b"64",
    b"65",
    b"8",
    b"9",
]


class Pick(random.Random):
    """Chances, of which the usual ones cost less than the library's. Each is by a number with 53 random bits."""

    def choice(self, found: Sequence[Any]) -> Any:
        return found[int(self.random() * len(found))]

    def below(self, count: int) -> int:
        return int(self.random() * count)

    def within(self, least: int, most: int) -> int:
        return least + int(self.random() * (most - least + 1))


# ------------------------------------------------------------------------------------------------------------ programs


class Source:
    """A random program, with data for it and values for its parameters."""

    def __init__(self, pick: Pick) -> None:
        self.pick = pick
        self.names = iter(
            pick.sample(["N", "M", "K", "x", "y", "z", "t", "s", "A", "B", "_c", "image2", "Params", "minimum", "iffy", "outer"], 16)
        )
        self.params = {next(self.names): pick.choice([0, 1, 2, 3, 4, 5, 6, -2]) for _ in range(pick.within(0, 3))}
        self.arrays = []
        cells = pick.choice([12, 40, 90])
        declared = []
        for _ in range(pick.within(1, 5)):
            kind, name = pick.choice(["in", "in", "out", "out", "inout", "var"]), next(self.names)
            extents, most = [], cells
            for _ in range(pick.choice([0, 0, 1, 1, 1, 2, 2, 3, pick.within(0, 6)])):
                text, value = self.extent(most)
                extents.append(text)
                most //= max(1, value)
            self.arrays.append((name, kind, extents))
            declared.append(f"{kind} {name}{''.join(f'[{it}]' for it in extents)};")
        if self.params and pick.random() < 0.8:
            declared.insert(0, f"param {', '.join(self.params)};")
        else:
            declared = [f"param {it};" for it in self.params] + declared
        if not any(kind != "in" for _, kind, _ in self.arrays) or pick.random() < 0.2:
            self.arrays.append((next(self.names), "out", []))
            declared.append(f"out {self.arrays[-1][0]};")
        self.left = pick.within(1, 9)
        self.depth_most = pick.choice([2, 3, 3, 4, 6])
        self.turns = {2: 14, 3: 8, 4: 5, 6: 3}[self.depth_most]
        body = [self.statement([], 0) for _ in range(pick.within(1, 4))]
        if pick.random() < 0.02:
            body.append(self.far())
        text = " ".join(declared + body)
        self.source = self.scattered(text) if pick.random() < 0.5 else (text + pick.choice(["", "\n"])).encode()
        self.words = [f"{name}={value}" for name, value in self.params.items()]

    def extent(self, most: int) -> tuple[str, int]:
        pick = self.pick
        value = pick.within(0, max(1, min(6, most)))
        fitting = [it for it, given in self.params.items() if 0 <= given <= most]
        if fitting and pick.random() < 0.5:
            name = pick.choice(fitting)
            return pick.choice([f"{name}", f"{name} + 0", f"1 * {name}", f"({name})", f"- -{name}", f"{name} - 1"]), self.params[name]
        return pick.choice([f"{value}", f"0{value}", f"{value} + 1 - 1", f"-(-{value})"] + ["-1"] * (pick.random() < 0.1)), value

    def atom(self, inside: list[str]) -> str:
        """An affine factor without a variable, as often as not."""
        pick = self.pick
        names = [*self.params] or ["1"]
        return pick.choice(
            [str(pick.within(0, 7)), pick.choice(names), f"({pick.choice(names)} - {pick.within(0, 3)})", f"-{pick.choice(names)}"]
        )

    def affine(self, inside: list[str], near: bool = False) -> str:
        """An affine expression. `near` keeps it small."""
        pick = self.pick
        parts = [str(pick.within(0, 6))] if pick.random() < 0.7 or not inside else []
        for name in inside:
            if pick.random() < (0.25 if near else 0.5):
                parts.append(
                    pick.choice(
                        [
                            name,
                            name,
                            f"{pick.within(0, 3)} * {name}",
                            f"({name} - {pick.within(0, 4)})",
                            f"-{name}",
                            f"{name} * {self.atom(inside)}",
                            f"({name} - {name}) * {name}",
                        ]
                    )
                )
        if self.params and pick.random() < 0.4:
            parts.append(self.atom(inside))
        pick.shuffle(parts)
        text = parts[0] if parts else self.atom(inside)
        for it in parts[1:]:
            text += pick.choice([" + ", " - "]) + it
        return f"({text})" if pick.random() < 0.1 else text

    def subscript(self, inside: list[str]) -> str:
        if inside and self.pick.random() < 0.75:
            return self.pick.choice(inside) + self.pick.choice(["", "", "", " + 1", " - 1", " - 2"])
        return self.affine(inside)

    def access(self, inside: list[str], written: bool = False) -> str:
        name, _, extents = self.pick.choice(self.arrays[: self.pick.choice([1, 2, len(self.arrays)])])
        return name + "".join(f"[{self.subscript(inside)}]" for _ in extents)

    def value(self, inside: list[str], reads: int, depth: int = 0) -> str:
        """A right side with at most so many reads."""
        pick = self.pick
        if reads > 1 or depth < 3 and pick.random() < 0.3:
            count = pick.choice([2, 2, 2, 1, 3, 4])
            shares = [reads // count + (it < reads % count) for it in range(count)]
            parts = [self.value(inside, it, depth + 1) for it in shares]
            if pick.random() < 0.3:
                return f"{pick.choice(['min', 'max'])}({', '.join(parts)})"
            text = parts[0]
            for it in parts[1:]:
                sign = pick.choice([" + ", " - ", " * ", " * "])
                text = f"({text}){sign}({it})" if sign == " * " or pick.random() < 0.3 else f"{text}{sign}{it}"
            return f"-({text})" if pick.random() < 0.1 else text
        if reads == 1 and pick.random() < 0.9:
            return self.access(inside)
        return pick.choice(
            [
                *inside * 2,
                *self.params,
                str(pick.within(0, 9)),
                str(pick.choice(EXTREMES)),
                f"-{pick.choice(EXTREMES)}",
                f"- - {pick.within(1, 9)}",
            ]
        )

    def assignment(self, inside: list[str]) -> str:
        self.left -= 1
        return f"{self.access(inside)} = {self.value(inside, self.pick.choice([0, 1, 1, 2, 2, 3, 4, 8]))};"

    def comparison(self, inside: list[str], signs: Sequence[str]) -> str:
        return f"{self.affine(inside)} {self.pick.choice(signs)} {self.affine(inside)}"

    def guard(self, inside: list[str], depth: int) -> str:
        pick = self.pick
        if pick.random() < 0.4:
            head = f"if ({self.comparison(inside, ['<', '<=', '>', '>='])}) "
            text = head + "{ " + self.statement(inside, depth) + " } else " + self.statement(inside, depth)
            return text
        tests = [self.comparison(inside, ["<", "<=", ">", ">=", "=="]) for _ in range(pick.choice([1, 1, 2, 3]))]
        return f"if ({' && '.join(tests)}) {self.statement(inside, depth)}"

    def loop(self, inside: list[str], depth: int) -> str:
        pick = self.pick
        name = pick.choice([it for it in ("i", "j", "k", "l", "i2", "_", "p", "q", "r") if it not in inside and it not in self.params])
        lower = self.affine(inside, True)
        upper = f"{lower} + {pick.within(0, self.turns)}" if pick.random() < 0.85 else self.affine(inside, True)
        step = pick.choice([f"{name}++", f"++{name}", f"{name} += 1", f"{name} += {pick.within(1, 4)}"])
        positive = [it for it, value in self.params.items() if value > 0]
        if positive and pick.random() < 0.2:
            step = f"{name} += " + pick.choice(["{0}", "2 * {0} - 1", "{0} + 3", "({0})"]).format(pick.choice(positive))
        elif pick.random() < 0.02:
            step = f"{name} += {pick.choice([2147483647, 1000, 65536])}"
        if "+=" not in step and pick.random() < 0.3:
            lower = f"max({', '.join([lower, *(self.affine(inside, True) + ' - 3' for _ in range(pick.within(0, 2)))])})"
        if pick.random() < 0.3:
            upper = f"min({', '.join([upper, *(self.affine(inside, True) + f' + {2 * self.turns}' for _ in range(pick.within(0, 2)))])})"
        head = f"for ({pick.choice(['', 'int '])}{name} = {lower}; {name} {pick.choice(['<', '<='])} {upper}; {step}) "
        return head + self.statement([*inside, name], depth + 1)

    def statement(self, inside: list[str], depth: int) -> str:
        pick, kind = self.pick, self.pick.random()
        if self.left <= 0:
            return "{}"
        if depth < self.depth_most and kind < (0.9, 0.6, 0.45, 0.4, 0.5, 0.6)[depth]:
            return self.loop(inside, depth)
        if kind < 0.65 and depth:
            return self.guard(inside, depth)
        count = pick.choice([1, 1, 2])
        parts = [self.assignment(inside), *(self.statement(inside, depth) for _ in range(count - 1))]
        return "{ " + " ".join(parts) + " }" if count > 1 or pick.random() < 0.2 else parts[0]

    def far(self) -> str:
        """Loops whose bounds are near their limit, within it or not."""
        pick, array = self.pick, self.pick.choice(self.arrays)
        cell = array[0] + "[0]" * len(array[2])
        a, b = pick.choice(["2147483647", "2147483646", "-2147483647", "1"]), pick.choice(["2147483647", "2", "-2147483647"])
        return (
            f"for (far1 = {a}; far1 <= {a}; far1++) for (far2 = {b} * far1; far2 <= {b} * far1; far2++) "
            f"for (far3 = {pick.choice(['2 * far2', 'far2', '-far2', '3 * far2'])}; far3 < 1; far3 += 2147483647) {cell} = far2;"
        )

    def scattered(self, text: str) -> bytes:
        """The same tokens with other white space and comments between them."""
        pick = self.pick
        tokens = [it[1] for it in meaning.tokens_of(text.encode())]
        gaps = [b" ", b" ", b"\n", b"\r\n", b"\t", b"  ", b"/* \xff*%/ */", b"/**/", b"// ; } \x00\n", b" \n\n "]
        return b"".join(it + pick.choice(gaps) for it in tokens)

    def given(self) -> int:
        """A given value, which is small, or any, or the least or the greatest."""
        kind = self.pick.below(5)
        if kind < 2:
            return self.pick.within(-9, 9)
        return (self.pick.getrandbits(64) - 2**63, -(2**63), 2**63 - 1)[kind - 2]

    def data(self) -> bytes:
        """The records of the given arrays, in some order and form."""
        pick = self.pick
        try:
            arrays = meaning.program_of(self.source, self.params).arrays
        except meaning.Refused:
            return b""
        lines = []
        for array in arrays:
            if not array.is_given:
                continue
            count = 1
            for extent in array.extents:
                count *= extent
            values = [str(self.given()) for _ in range(count)]
            if pick.random() < 0.2:
                values = [
                    pick.choice([it, f'"{it}"', f" {it}", f"\t{it} ", it.replace("-", "-00"), f'"{it[:1]}"{it[1:]}']) for it in values
                ]
            lines.append(",".join([pick.choice([array.name, array.name, f" {array.name}", f'"{array.name}"']), *values]))
        pick.shuffle(lines)
        end = pick.choice(["\n", "\n", "\r\n", "\r", "\n\n"])
        text = "".join(it + end for it in lines)
        return (
            pick.choice(["", "", "", "\ufeff", "\n"]) + (text if pick.random() < 0.8 else text[: len(text) - len(end)] if text else "")
        ).encode()


# -------------------------------------------------------------------------------------------------------------- damage


def changed_bytes(pick: Pick, text: bytes) -> bytes:
    text = bytearray(text)
    for _ in range(pick.choice([1, 1, 2, 5])):
        at = pick.below(len(text) + 1)
        kind = pick.random()
        if kind < 0.4 and at < len(text):
            text[at] = pick.choice([text[at] ^ 1 << pick.below(8), pick.below(256), pick.choice(b'();{}[]=<>+-*&/,%\n "0z')])
        elif kind < 0.6 and at < len(text):
            del text[at : at + pick.choice([1, 1, 2, 8])]
        else:
            text[at:at] = bytes([pick.choice([pick.below(256), *b'();{}[]=<>+-*&/,%\n\r "019fgpz'])])
    return bytes(text)


def changed_tokens(pick: Pick, text: bytes, pattern: bytes = rb"[A-Za-z_0-9]+|\s+|.") -> bytes:
    parts = re.findall(pattern, text, re.S)
    for _ in range(pick.choice([1, 1, 2])):
        if len(parts) < 2:
            break
        a, b = pick.below(len(parts)), pick.below(len(parts))
        kind = pick.random()
        if kind < 0.3:
            parts[a], parts[b] = parts[b], parts[a]
        elif kind < 0.5:
            parts[a] = parts[b]
        elif kind < 0.7:
            del parts[a]
        elif kind < 0.85:
            parts.insert(a, parts[b])
        else:
            parts.insert(
                a,
                pick.choice(
                    [
                        b" else ",
                        b" if (0 < 1) ",
                        b" min(",
                        b" int ",
                        b" ++ ",
                        b" += ",
                        b"; ",
                        b" {",
                        b"} ",
                        b" param ",
                        b" 3 ",
                        b" var q;",
                        b" (i)",
                    ]
                ),
            )
    return b"".join(parts)


def changed_numbers(pick: Pick, text: bytes) -> bytes:
    places = [it.span() for it in re.finditer(rb"-?[0-9]+", text)]
    for start, end in sorted(pick.sample(places, min(len(places), pick.choice([1, 1, 1, 2, 3]))), reverse=True):
        value = int(text[start:end])
        new = pick.choice(
            [pick.choice(LIMITS), str(value + 1).encode(), str(value - 1).encode(), str(value * 2).encode(), str(-value).encode()]
        )
        text = text[:start] + new + text[end:]
    return text


def changed_lines(pick: Pick, text: bytes) -> bytes:
    lines = text.splitlines(True)
    for _ in range(pick.choice([1, 1, 2, 4])):
        if not lines:
            break
        a, b = pick.below(len(lines)), pick.below(len(lines))
        kind = pick.random()
        if kind < 0.4:
            lines[a], lines[b] = lines[b], lines[a]
        elif kind < 0.6:
            del lines[a]
        elif kind < 0.8:
            lines.insert(a, lines[b])
        elif kind < 0.9:
            del lines[a:]
        elif a + 1 < len(lines):
            lines[a], lines[a + 1] = lines[a + 1], lines[a]
    return b"".join(lines)


def changed_counts(pick: Pick, text: bytes) -> bytes:
    """A certificate that announces other numbers than it has."""
    lines = text.splitlines(True)
    heads = [at for at, it in enumerate(lines) if it.startswith((b"sizes", b"process", b"channel", b"r "))]
    if heads:
        at = pick.choice(heads)
        lines[at] = changed_numbers(pick, lines[at])
    return b"".join(lines)


def changed_schedule(pick: Pick, text: bytes) -> bytes:
    """Entries of the schedule that change their places."""
    lines = text.splitlines(True)
    entries = [at for at, it in enumerate(lines) if re.fullmatch(rb"[0-9]+\n", it)]
    for _ in range(pick.choice([1, 1, 2, 8])):
        if len(entries) > 1:
            at = pick.below(len(entries) - 1)
            a, b = entries[at], pick.choice([entries[at + 1], pick.choice(entries)])
            lines[a], lines[b] = lines[b], lines[a]
    return b"".join(lines)


def changed_repeats(pick: Pick, text: bytes) -> bytes:
    """A repeat round a line or a part, or one that goes away, or a text of the other version."""
    lines = text.splitlines(True)
    heads = [at for at, it in enumerate(lines) if it.startswith(b"r ")]
    kind = pick.random()
    if kind < 0.2:
        return re.sub(rb"\Acert [12]", lambda it: b"cert 1" if it.group() == b"cert 2" else b"cert 2", text)
    if kind < 0.4 and heads:
        del lines[pick.choice(heads)]
    elif kind < 0.6 and heads:
        at = pick.choice(heads)
        lines[at] = pick.choice(
            [b"r 1 1\n", b"r 2 0\n", b"r 0 1\n", b"r 4294967295 1\n", b"r 142606336 1\n", b"r 2\n", b"r 2 2\n", b"r 3 1\n", b"r -2 1\n"]
        )
    elif lines:
        at = pick.below(len(lines))
        count = pick.choice([1, 1, 2, 40, 511, 512, 513])
        lines[at:at] = [b"r 2 1\n" if count > 2 else b"r %d 1\n" % pick.choice([2, 3, 5])] * count
    return b"".join(lines)


def changed_classes(pick: Pick, text: bytes) -> bytes:
    words = [b"inorder", b"inorder+", b"reorder", b"reorder+"]
    return re.sub(rb"(?:in|re)order\+?(?=\n)", lambda it: pick.choice([it.group(), *words]), text, count=pick.choice([1, 2, 99]))


DAMAGES = {
    "source: bytes": (0, changed_bytes),
    "source: tokens": (0, changed_tokens),
    "source: numbers": (0, changed_numbers),
    "data: bytes": (1, changed_bytes),
    "data: fields": (1, lambda pick, text: changed_tokens(pick, text, rb"[^,\n]+|.")),
    "data: numbers": (1, changed_numbers),
    "data: lines": (1, changed_lines),
    "certificate: bytes": (2, changed_bytes),
    "certificate: lines": (2, changed_lines),
    "certificate: numbers": (2, changed_numbers),
    "certificate: words": (2, lambda pick, text: changed_tokens(pick, text, rb"[^ \n]+|.")),
    "certificate: counts": (2, changed_counts),
    "certificate: schedule": (2, changed_schedule),
    "certificate: classes": (2, changed_classes),
    "certificate: repeats": (2, changed_repeats),
}
WHOLE = ["parts exchanged", "a part of another program", "bundle: bytes", "bundle: cut", "values of parameters", "words"]


def changed_words(pick: Pick, command: str, words: Sequence[str]) -> list[str]:
    """Other words: a command and what stands behind it."""
    words = [command, *words]
    for _ in range(pick.choice([1, 1, 2, 3])):
        at = pick.below(len(words) + 1)
        new = pick.choice(
            [
                "--",
                "-",
                "",
                "--policy",
                "--policy=",
                "--policy=seq",
                "--policy=down",
                "--policy=Seq",
                "seq",
                "down",
                "--help",
                "-x",
                "--pol=seq",
                "load",
                "run",
                "walk",
                "Run",
                "N",
                "N=",
                "=3",
                "N=3",
                "N=-3",
                "N=--3",
                "N=+3",
                "N=3.0",
                "N= 3",
                "N=0x3",
                "N=123456789012345678",
                "N=1234567890123456789",
                "N=000000000000000003",
                "N=\u0663",
                "in=3",
                "min=3",
                "max=1",
                "param=2",
                "_=4",
                "9a=4",
                "a-b=4",
                "\u00e9=4",
                "N=3=4",
                "N=\udcff",
                "K=2",
                "5",
                "101",
                "2147483648",
                "0",
                "000000000000000002",
                "999999999999999999",
                "1000000000000000000",
            ]
        )
        kind = pick.random()
        if kind < 0.5 or not words:
            words.insert(at, new)
        elif kind < 0.7:
            words[at % len(words)] = new
        elif kind < 0.85:
            words.insert(at, words[at % len(words)])
        else:
            pick.shuffle(words)
    if pick.random() < 0.1:
        words = ["load", pick.choice(["0", "1", "2", "3", "007", "160", "2147483647", "2147483648", "-1", "x"]), *words[2:]]
    return words or ["--"]


def damaged(
    pick: Pick, parts: list[bytes], words: list[str], other: Callable[[], list[bytes]]
) -> tuple[str, str, list[str], bytes]:
    """A damaged bundle: what was done, the command that is to meet it, its words and its bytes."""
    parts = [part if part.endswith(b"\n") or not part else part + b"\n" for part in parts]
    kind = pick.choice([*DAMAGES, *WHOLE])
    command = pick.choice(COMMANDS)
    if kind in DAMAGES:
        number, change = DAMAGES[kind]
        parts[number] = change(pick, parts[number])
        if pick.random() < 0.9:
            command = (pick.choice(COMMANDS), pick.choice(["run", "seq"]), "check")[number]
        if number == 0 and command == "check" and pick.random() < 0.5:
            command = "run"
    if kind == "parts exchanged":
        pick.shuffle(parts)
    if kind == "a part of another program":
        number = pick.below(3)
        parts[number] = other()[number]
        command = (pick.choice(["run", "check"]), "run", "check")[number]
    if kind == "values of parameters":
        words = [
            re.sub("=.*", "=" + pick.choice(["-1", "7", "2147483647", "2147483648", "-2147483648", "999999999999999999", "-0", "0003"]), it)
            if pick.random() < 0.5
            else it
            for it in words
        ]
        if words and pick.random() < 0.3:
            del words[pick.below(len(words))]
    bundle = bundled(*parts)
    if kind == "words":
        command, *words = changed_words(pick, command, words)
    if kind == "bundle: bytes":
        bundle = changed_bytes(pick, bundle)
    if kind == "bundle: cut":
        bundle = bundle[: pick.below(len(bundle) + 1)]
    return kind, command, words, bundle


# ------------------------------------------------------------------------------------------------------------- the runs


# The command with all words, and the bundle.
Given = tuple[tuple[str, ...], bytes]


class Job:
    """The inputs of some numbers, run and compared."""

    def __init__(self, program: str, seed: int, keep: str) -> None:
        self.program, self.seed, self.keep = program, seed, keep
        self.server = asking.Server()
        self.counts: Counter[str] = Counter()
        # What `net` came to, by what it was given, for the program that is looked at; the runs that were asked for ahead; and how those of
        # them ended that weren't looked at yet.
        self.nets: dict[Given, End] = {}
        self.ahead: list[Given] = []
        self.ends: dict[Given, End] = {}
        self.differences = 0
        self.kilobytes, self.seconds = 0, 0.0

    def run(self, number: int, command: str, words: Sequence[str], bundle: bytes, policy: Sequence[str] = ()) -> End:
        """How a command ends. What `net` came to on the same words and bundle isn't asked again."""
        if command != "net":
            return self.run_once(number, command, words, bundle, policy)
        given = (command, *words, *policy), bundle
        if given not in self.nets:
            self.nets[given] = self.run_once(number, command, words, bundle, policy)
        return self.nets[given]

    def ask_ahead(self, commands: Sequence[str], words: Sequence[str], bundle: bytes, policy: Sequence[str]) -> None:
        """Asks for runs that are looked at later, one by one. So they follow each other at once."""
        for command in commands:
            self.server.send(self.program, [command, *words, *policy], bundle, MOST_SECONDS)
            self.ahead.append(((command, *words, *policy), bundle))

    def end_of(self, given: Given) -> End:
        """How a run ends, which may have been asked for ahead."""
        while self.ahead and given not in self.ends:
            self.ends[self.ahead.pop(0)] = self.server.receive()
        if given in self.ends:
            return self.ends.pop(given)
        self.server.send(self.program, *given, MOST_SECONDS)
        return self.server.receive()

    def run_once(self, number: int, command: str, words: Sequence[str], bundle: bytes, policy: Sequence[str]) -> End:
        end = self.end_of(((command, *words, *policy), bundle))
        self.counts["runs"] += 1
        self.kilobytes, self.seconds = max(self.kilobytes, end.kilobytes), max(self.seconds, end.cpu)
        if end.hung or end.status < 0 or end.kilobytes > MOST_KILOBYTES:
            why = "took too long" if end.hung else f"ended by signal {-end.status}" if end.status < 0 else f"took {end.kilobytes} kB"
            self.differ(number, command, words, bundle, why, "")
        return end

    def differ(self, number: int, command: str, words: Sequence[str], bundle: bytes, got: object, wanted: object) -> None:
        name = f"{self.seed}-{number}-{command if command in COMMANDS else 'words'}-{self.differences}"
        os.makedirs(self.keep, exist_ok=True)
        with open(os.path.join(self.keep, name + ".bundle"), "wb") as file:
            file.write(bundle)
        with open(os.path.join(self.keep, name + ".words"), "w", errors="surrogateescape") as file:
            file.write(shlex.join([command, *words]) + "\n")
        self.differences += 1
        print(f"{name}: {str(got)[:300]} for {str(wanted)[:300]}", flush=True)

    def wanted(self, words: Sequence[str], bundle: bytes, trace: bool = False) -> Outcome | None:
        """What these words and this bundle come to, or None where that can't be judged here."""
        try:
            return meaning.outcome(words, bundle, trace)
        except (SyntaxError, MemoryError, RecursionError) as error:
            self.counts["not judged, " + type(error).__name__] += 1
            return None

    def compare(
        self, number: int, command: str, words: Sequence[str], bundle: bytes, wanted: Outcome | None, policy: Sequence[str] = ()
    ) -> End:
        """Runs a command and compares it with what is wanted. Returns how it ended."""
        end = self.run(number, command, words, bundle, policy)
        if wanted is None:
            return end
        is_own = wanted[1] is None and end.status == 0 and end.output and not end.complaint
        if is_own and command in texts.COMMANDS:
            net = b"" if command in ("net", "deps") else self.run(number, "net", words, bundle, policy).output
            if fault := texts.fault_of(command, end.output, net):
                self.differ(number, command, words, bundle, fault, "a text")
        is_long = command == "vhdl" and wanted[0] == 0 and end.complaint.startswith(b"limit: Script ")
        if not is_own and not is_long and end.said != wanted:
            self.differ(number, command, words, bundle, end.said, wanted)
        self.counts["compared"] += 1
        return end

    def program_of(self, number: int) -> tuple[Pick, Source, bytes]:
        pick = Pick(f"{self.seed}:{number}")
        source = Source(pick)
        return pick, source, source.data()

    def one(self, number: int) -> None:
        self.nets.clear()
        self.ends.clear()
        pick, source, data = self.program_of(number)
        words = source.words
        policy: list[str] = pick.choice([[], ["--policy=seq"], ["--policy", "down"], ["--policy=down"]])
        bundle = bundled(source.source, data)
        answer = self.wanted(["run", *words, *policy], bundle, True)
        # what is run below on this bundle
        net = ["net"] if answer and answer[0] in (0, 9) else []
        more = (["net"], [*net, "trim"], ["net", "vhdl", "sim"], net)[number % 4]
        self.ask_ahead(["run", "seq", "cert", *more], words, bundle, policy)
        ends = {command: self.compare(number, command, words, bundle, answer, policy) for command in ("run", "seq")}
        self.counts[f"programs, status {ends['run'].status}"] += 1
        # the other commands pass over the data
        done = (0, None, b"") if answer and answer[0] in (0, 9) else answer
        cert = self.compare(number, "cert", words, bundle, done, policy)
        told = number % 4 == 0 and self.compare(number, "net", words, bundle, done, policy)
        if number % 4 == 2:
            self.same_nodes(number, words, bundle, ends["run"], done, policy)
        trim = number % 4 == 1 and self.compare(number, "trim", words, bundle, done, policy)
        without_trees = meaning.swept(cert.output)
        if number % 4 == 3:
            self.same_sources(number, words, bundle)
        if cert.status == 0:
            before = bundled(source.source, data) if pick.random() < 0.5 else bundled(source.source, b"")
            before += b"%%\n" if before.count(b"%%\n") < 2 else b""
            checked = before + without_trees
            if self.wanted(["check", *words], checked) != (0, b"accepted\n", b""):
                self.differ(number, "cert", words, checked, "a certificate that meaning.py refuses", "one that it accepts")
            for text in {cert.output, without_trees}:
                self.compare(number, "check", words, before + text, (0, b"accepted\n", b""))
            if told:
                self.same_network(number, words, bundle, told.output, without_trees)
            if number % 4 == 3:
                self.same_schedule(number, words, before, without_trees, policy)
            if trim:
                self.same_capacities(number, words, bundle, trim.output, without_trees)
        self.damage(pick, number, source, data, without_trees)

    def same_network(self, number: int, words: Sequence[str], bundle: bytes, net: bytes, cert: bytes) -> None:
        """The processes and channels of `net` are those of `cert`."""
        try:
            wanted = meaning.net_text(self.known(words, bundle), meaning.certificate_of(cert))
        except meaning.Unread as reason:
            self.differ(number, "cert", words, bundle, reason, "a certificate")
            return
        if net != wanted:
            self.differ(number, "net", words, bundle, net, wanted)

    def known(self, words: Sequence[str], bundle: bytes) -> meaning.Program:
        """The program of a bundle that isn't refused."""
        return meaning.program_of(meaning.parts_of(bundle)[0] or b"", values_of(words))

    def same_sources(self, number: int, words: Sequence[str], bundle: bytes) -> None:
        """The sources of `deps` are the last writers."""
        end = self.compare(number, "deps", words, bundle, self.wanted(["deps", *words], bundle))
        if end.status != 0:
            return
        try:
            meaning.told(self.known(words, bundle), end.output)
        except (meaning.Untold, ValueError, StopIteration) as reason:
            self.differ(number, "deps", words, bundle, reason, "the last writers")

    def same_nodes(self, number: int, words: list[str], bundle: bytes, answer: End, done: Outcome | None, policy: list[str]) -> None:
        """The nodes of `vhdl`, run in Python, come to what `run` comes to, in as many clocks as `sim` tells."""
        net, vhdl = (self.compare(number, command, words, bundle, done, policy) for command in ("net", "vhdl"))
        sim = self.compare(number, "sim", words, bundle, self.wanted(["sim", *words, *policy], bundle), policy)
        if answer.status or vhdl.status:
            return
        try:
            network = read_net(net.output.decode())
            data = meaning.parts_of(bundle)[1] or b""
            known = self.known(words, bundle).arrays
            values = meaning.inputs_of(known, data)
            given = {it.name: values[it.number] for it in known if it.is_given}
            arrays, clocks = run_nodes(network, read_nodes(network, vhdl.output.decode()), given)
        except (Unfit, ValueError, LookupError, MemoryError, RecursionError) as error:
            self.differ(number, "vhdl", words, bundle, repr(error), "nodes")
            return
        text = "".join(",".join([name, *map(str, cells)]) + "\n" for name, cells in arrays.items()).encode()
        if text != answer.output:
            self.differ(number, "vhdl", words, bundle, text, answer.output)
        if sim.output != answer.output + b"clocks %d\n" % clocks:
            self.differ(number, "sim", words, bundle, sim.output, answer.output + b"clocks %d\n" % clocks)

    def same_schedule(self, number: int, words: list[str], before: bytes, cert: bytes, policy: list[str]) -> None:
        """What `trace` tells can stand as the schedule of `cert`."""
        trace = self.compare(number, "trace", words, before, (0, None, b""), policy)
        lines = trace.output.split(b"\n")
        if trace.status or lines[0] != b"trace 1" or lines[-2:] != [b"end", b""]:
            self.differ(number, "trace", words, before, trace.said, "a run")
            return
        checked = before + meaning.with_schedule(cert, lines[1:-2])
        if self.wanted(["check", *words], checked) not in (None, (0, b"accepted\n", b"")):
            self.differ(number, "trace", words, checked, "a run that meaning.py refuses", "one that it accepts")

    def same_capacities(self, number: int, words: Sequence[str], bundle: bytes, trim: bytes, cert: bytes) -> None:
        """The capacities and positions of `trim` are those that are found in the network of `cert`."""
        try:
            wanted = meaning.trimmed(meaning.certificate_of(cert))
        except (meaning.Unread, MemoryError) as reason:
            self.differ(number, "cert", words, bundle, reason, "a certificate")
            return
        if trim != wanted:
            self.differ(number, "trim", words, bundle, trim, wanted)

    def damage(self, pick: Pick, number: int, source: Source, data: bytes, cert: bytes) -> None:
        def other() -> list[bytes]:
            _, source, data = self.program_of(number + 1)
            return [source.source, data, cert[: len(cert) // 2]]

        kind, command, words, bundle = damaged(pick, [source.source, data, cert], source.words, other)
        self.counts["damaged, " + kind] += 1
        end = self.compare(number, command, words, bundle, self.wanted([command, *words], bundle))
        self.counts[f"damaged, by {command if command in COMMANDS else 'other words'}, status {end.status}"] += 1


def run_numbers(program: str, seed: int, keep: str, space: int, numbers: Sequence[int]) -> tuple[Counter[str], int, int, float, int]:
    if space:
        asking.keep_below(space)
    sys.setrecursionlimit(20000)
    # Circles of garbage are few, and are looked for between the programs' numbers.
    gc.disable()
    job = Job(program, seed, keep)
    for number in numbers:
        job.one(number)
    job.server.close()
    gc.collect()
    return job.counts, job.differences, job.kilobytes, job.seconds, len(numbers)


def main() -> int:
    parser = parser_of(__doc__)
    parser.add_argument("--seed", type=int, default=1, help="the seed (1)")
    parser.add_argument("--count", type=int, default=300, help="how many programs, and as many damaged bundles (300)")
    parser.add_argument("--jobs", type=int, default=2, help="how many run side by side (2)")
    parser.add_argument("--minutes", type=int, default=0, help="after so many no more are begun; 0 sets no limit (0)")
    parser.add_argument("--keep", metavar="FOLDER", default="hostile-kept", help="where a difference's bundle is kept (hostile-kept)")
    parser.add_argument("--only", metavar="NUMBER", type=int, default=-1, help="this input alone")
    parser.add_argument("--space", metavar="GB", type=int, default=4, help="how much address space a run has at most (4); 0 sets no limit")
    given = parser.parse_args()
    program = program_of(given.compaan)
    numbers = range(given.count) if given.only < 0 else [given.only]
    chunks = iter([numbers[at : at + 20] for at in range(0, len(numbers), 20)])
    counts: Counter[str] = Counter()
    differences = kilobytes = done = 0
    seconds = 0.0
    start = time.time()
    asking.starter("serve")
    gc.freeze()
    with ProcessPoolExecutor(given.jobs) as pool:
        under_way: set[Future[tuple[Counter[str], int, int, float, int]]] = set()
        while True:
            is_time = not given.minutes or time.time() - start < given.minutes * 60
            while is_time and len(under_way) < 2 * given.jobs and (chunk := next(chunks, None)) is not None:
                under_way.add(pool.submit(run_numbers, program, given.seed, given.keep, given.space, chunk))
            if not under_way:
                break
            ended, under_way = wait(under_way, return_when=FIRST_COMPLETED)
            for it in ended:
                found = it.result()
                counts.update(found[0])
                differences += found[1]
                kilobytes, seconds = max(kilobytes, found[2]), max(seconds, found[3])
                done += found[4]
    table(["What", "Count"], sorted(counts.items()))
    print(
        f"seed {given.seed}: {done} programs and {done} damaged bundles, {counts['runs']} runs in {time.time() - start:.0f} s, "
        f"the longest {seconds:.1f} s of processors, the largest {kilobytes / 1024:.0f} MB, {counts['compared']} compared, {differences} different"
    )
    return 1 if differences or not counts["compared"] else 0


if __name__ == "__main__":
    sys.exit(main())
