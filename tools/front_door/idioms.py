"""What a programmer of C types that the language lacks, and what is wanted in its place.

The program stops at the first byte or token that no source goes on with, and says just where. What stands round that place mostly
tells what was meant. docs/LANGUAGE.md has the same in its table for those who come from C, with an example of each.
"""
from __future__ import annotations

import re
from dataclasses import dataclass
from pathlib import Path

from .paths import TOP
from .place import Place

PAGE = TOP / "docs" / "LANGUAGE.md"
# How many bytes round the place are looked at.
BEFORE, BEHIND = 2000, 200

STEP = r"\bfor\s*\([^;{}]*;[^;{}]*;[^;{}()]*"
CONDITION = r"\bfor\s*\([^;{}]*;[^;{}]*"
TYPES = "long|short|unsigned|signed|char|bool|size_t|u?int[0-9]+_t|const|static|register|auto"


@dataclass(frozen=True)
class Idiom:
    """What stands before the place and from it on, by patterns; what to write instead; and the row of the table that says so.

    `{0}` in the advice is the first group of the pattern before the place, or else of that behind it."""

    reason: str
    before: str
    behind: str
    advice: str
    row: str

    def fits(self, reason: str, before: str, behind: str) -> list[str] | None:
        """The groups of the patterns, where this idiom stands at the place."""
        if reason != self.reason:
            return None
        one = re.search(f"(?:{self.before})\\Z", before)
        other = re.match(self.behind, behind)
        return None if one is None or other is None else [it or "" for it in (*one.groups(), *other.groups())]


SHIFT = "`x << 3`, `x >> 1`"
ASSIGNED = "`s += x`, `s *= x`, `s++`"
DECLARED = "`int s;` in a body"
DOWNWARDS = "`i--`, `i -= 2`"
FLOAT = "`float x;`, `1.5`"
FUNCTION = "`void f(int a[4]) { .. }`"
PARAMETER = "`int N = 4;`"
VALUES = "`int a[1] = {1};`"
FLOW = "`while`, `break`, `return`"
GUARD = "`(i < 2) && (i > 0)`"
TARGET = r"([A-Za-z_]\w*(?:\s*\[[^\[\];]*\])*)\s*"

# The first that fits is told.
IDIOMS = [
    Idiom("BadByte", "", "/", "nothing divides: scale the numbers, or leave the division to what reads the answer", "`a / b`"),
    Idiom("BadByte", "", "%", "there is no %: write a loop for the quotient and one for the rest, or a step, as i += 2", "`a % b`"),
    Idiom("BadByte", "", "!=", "there is no !=: write one statement with < and one with >", "`i != 2`"),
    Idiom("BadByte", "", "!", "there is no !: write the other comparison, as i >= 2", "`!(i < 2)`"),
    Idiom("BadByte", "", r"\|\|", "there is no ||: write one statement for each side, whose guards don't both hold", r"`i < 1 \|\| i > 2`"),
    Idiom("BadByte", "", r"[&|^~]", "values are numbers and not bits: there is no such operator", "`x & m`, `x ^ m`, `~x`"),
    Idiom("BadByte", "", r"\?", "there is no ?: write max(a, b), min(a, b), or an if where the test is of loop variables", "`c ? a : b`"),
    Idiom("BadByte", r"[0-9]", r"\.", "numbers are whole: count in halves, or scale by a power of two", FLOAT),
    Idiom("BadByte", "", r"\.[0-9]", "numbers are whole: count in halves, or scale by a power of two", FLOAT),
    Idiom("BadByte", "", r"#\s*define\s+(\w+)", "there is no preprocessor: write param {0}; and give its value as {0}=4", "`#define N 4`"),
    Idiom("BadByte", "", "#", "there is no preprocessor: a size is param N; and the word N=4", "`#define N 4`"),
    Idiom("Syntax", STEP + r"\b(\w+)\s*", "=", "a step is written {0}++, ++{0} or {0} += 2", "`i = i + 2` in a `for`"),
    Idiom("Syntax", STEP, r"\*", "a loop goes on by the same step each turn: nothing stands for *=", "`i *= 2` in a `for`"),
    Idiom("Syntax", STEP, "-", "a loop runs upwards: turn it round, and write a[3 - i] for a[i]", DOWNWARDS),
    Idiom("Syntax", CONDITION, ">", "a loop runs upwards, so < or <= stands here: turn it round, and write a[3 - i] for a[i]", DOWNWARDS),
    Idiom("Syntax", TARGET, r"\+=", "+= stands in the step of a for alone: write {0} = {0} + ..", ASSIGNED),
    Idiom("Syntax", TARGET, r"([-*])=", "there is no {1}=: write {0} = {0} {1} ..", ASSIGNED),
    Idiom("Syntax", TARGET, r"\+\+", "++ stands in the step of a for alone: write {0} = {0} + 1", ASSIGNED),
    Idiom("Syntax", TARGET, "--", "there is no --: write {0} = {0} - 1", ASSIGNED),
    Idiom("Syntax", "", "<<", "nothing shifts: write 8 * x for x << 3", SHIFT),
    Idiom("Syntax", "", ">>", "nothing shifts to the right, as nothing divides", SHIFT),
    Idiom("Syntax", r"\bif\s*\([^;{}]*\([^()]*", "[<>=]", "no parentheses stand round a comparison: write i < 2 && i > 0", GUARD),
    Idiom(
        "Syntax",
        r"[^<>=!]=[^;{}=]*",
        r"(?:[<>]=?|==)",
        "a comparison stands in an if or a for alone: write max, min or an if",
        "`c ? a : b`",
    ),
    Idiom("Syntax", r"\}\s*", r"else\b", "this else has no if whose block stands directly before it", "`if (c) s1; else s2;`"),
    Idiom("Syntax", "", r"else\b", "an else needs braces before it: if (..) {{ .. }} else {{ .. }}", "`if (c) s1; else s2;`"),
    Idiom("Syntax", "", r"int\s+\w+\s*\(", "a source is one program: its arguments are in, its results out", FUNCTION),
    Idiom("Syntax", r"\(\s*", r"int\s*\)", "there are no casts: all values are 64-bit numbers that wrap", DECLARED),
    Idiom(
        "Syntax",
        r"(?:\A|[;{}])\s*",
        r"int\s+(\w+)\s*=\s*-?[0-9]+\s*;",
        "int stands in a for alone: write param {0}; and give its value as a word, or var {0}; before the first statement",
        PARAMETER,
    ),
    Idiom(
        "Syntax",
        "",
        r"int\s+(\w+)\s*\[[^;]*=",
        "int stands in a for alone: write in {0}[..]; with a line {0},1,2,3 in the data, or var {0}[..]; and assignments",
        VALUES,
    ),
    Idiom("Syntax", "", r"int\s+(\w+\s*(?:\[[^\]]*\])*)", "int stands in a for alone: write var {0}; before the first statement", DECLARED),
    Idiom("Syntax", r"\b(?:float|double)\s+", r"\w", "values are whole numbers: write var, in or out, and scale by a power of two", FLOAT),
    Idiom("Syntax", r"\bvoid\s+", r"\w", "a source is one program: its arguments are in, its results out", FUNCTION),
    Idiom("Syntax", rf"\b(?:{TYPES})\s+", r"(\w+)", "all values are 64-bit numbers: write var {0}; before the first statement", DECLARED),
    Idiom("Syntax", r"\bparam\b[^;]*\b(\w+)\s*", "=", "a parameter gets its value as a word, as {0}=4", PARAMETER),
    Idiom(
        "Syntax",
        r"(?:\A|;)\s*(?:var|in|out|inout)\b[^;]*",
        "=",
        "a declaration gives no values: they come from the data, or by assignments",
        VALUES,
    ),
    Idiom("Syntax", "", r"(?:param|var|in|out|inout)\b", "declarations stand before the first statement", DECLARED),
    Idiom(
        "Syntax",
        r"\b(?:while|do|switch|goto|return|break|continue)\s*",
        "",
        "how often a statement runs can't depend on a value: there are for and if",
        FLOW,
    ),
    Idiom("Syntax", r"\babs\s*", r"\(", "min and max are the only functions: write max(x, -x)", "`y = abs(x);`"),
    Idiom(
        "Syntax",
        r"\b(?!for\b|if\b|min\b|max\b)([A-Za-z_]\w*)\s*",
        r"\(",
        "there is no call of {0}: min and max are the only functions",
        "`y = abs(x);`",
    ),
    Idiom("Syntax", r"\[[^\[\];]*", ",", "each subscript has its own brackets: write a[i][j]", "`a[i, j]`"),
    Idiom("Syntax", r"[^<>=!]=[^;{}=]*", "=", "an assignment is no value: write two", "`a = b = 0;`"),
    Idiom("Syntax", r"(?:\A|[;{})]|\belse)\s*", ";", "an empty statement is written {{}}", "`;` alone"),
    Idiom(
        "ElseForm",
        "",
        "",
        "an else needs a guard of one comparison that isn't ==: write an if for each case, whose guards don't both hold",
        "`if (a && b) { .. } else { .. }`",
    ),
    Idiom("NotAffine", "", r"\*", "no product of two variables is affine: one factor has to be a number or a parameter", "`a[i * i]`"),
    Idiom("NotAffine", r"\[[^\[\];]*", r"[A-Za-z_]", "which cell is meant can't depend on a value", "`a[b[i]]`"),
    Idiom(
        "NotAffine",
        r"\bif\s*\([^;{}]*",
        r"[A-Za-z_](?!\w*\s*\()",
        "a test can't depend on a value: write arithmetic that does without it, as max(x, 0)",
        "`if (x[i] > 0)`",
    ),
    Idiom("NotAffine", r"\bfor\s*\([^{}]*", r"[A-Za-z_](?!\w*\s*\()", "how often a loop turns can't depend on a value", FLOW),
    Idiom(
        "Duplicate",
        r"\bfor\s*\(\s*(?:int\s+)?",
        r"(\w+)",
        "{0} stands for something already: take another name",
        "a loop variable twice",
    ),
]
AFTER_LOOP = "a loop variable after its loop"


def line_of(row: str) -> int | None:
    """The line of the table's row with this first cell."""
    try:
        lines = PAGE.read_text(encoding="utf-8").split("\n")
    except OSError:
        return None
    return next((number for number, line in enumerate(lines, 1) if line.startswith(f"| {row} |")), None)


def reference(row: str) -> str:
    """Where the page speaks of it."""
    number = line_of(row)
    return f"{Path('docs') / PAGE.name}:{number}" if number else f"{Path('docs') / PAGE.name}"


def advice_on(reason: str, place: Place) -> str | None:
    """What is wanted in the place of what stands there, or None where nothing is known."""
    if place.at_end:
        return None
    whole, at = place.part.whole, place.at
    before = whole[max(place.part.first, at - BEFORE) : at].decode("latin-1")
    behind = whole[at : at + BEHIND].decode("latin-1")
    for idiom in IDIOMS:
        groups = idiom.fits(reason, before, behind)
        if groups is not None:
            return f"{idiom.advice.format(*groups)} ({reference(idiom.row)})"
    name = place.name_there
    if reason == "UnknownName" and re.search(rf"\bfor\s*\(\s*(?:int\s+)?{re.escape(name)}\b", before):
        return f"{name} is known in the body of its loop alone ({reference(AFTER_LOOP)})"
    if reason == "Syntax" and re.search(r"[\w\])]\s*\n\s*\Z", before):
        return "no source goes on like this: is a ; missing before it?"
    return None
