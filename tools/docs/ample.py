#!/usr/bin/env python3
"""Which test shows that a public function which can answer want of memory doesn't do so where there is plenty.

usage: tools/docs/ample.py [CRATE]..     (all crates where none is named)

A public function is one that a crate's src/lib.rt hands out, or a method of a type that it does. It can answer want of memory where its
result has AllocError, or an error with a variant Memory; and so can the calls that answer a status. A test shows it where it calls the
function, by itself or by functions of the tests, and compares what it found; or where it so calls a function of a crate above that calls
this one, and hands on what it answers. Names are taken to be what a file's `use` lines say, and a call of another function of the same name
in the same crate can't be told apart.

Prints a line for each such function with the tests that call it, or else with the function above that they call, and fails where
there is neither, or no such function at all.
"""
from __future__ import annotations

import re
import sys
from collections.abc import Iterable, Iterator
from pathlib import Path

sys.path.insert(0, str(Path(__file__).resolve().parents[1]))
import crates
from common import plain_parser_of, stop
from crates import closing

# Calls that answer a status, of which one is that of want of memory.
STATUSES = {("compaan_top", "", "compaan"), ("compaan_top", "", "quiet")}
QUOTED = re.compile(r"b?\"(?:[^\"\\]|\\.)*\"|b?'(?:[^'\\]|\\.[^']*)'", re.S)
# A function by its crate, its type where it is a method, and its name.
Key = tuple[str, str, str]


class Function:
    """A function with its type, where it is a method, its result and its body, and what its file brings in."""

    def __init__(self, file: File, owner: str, text: str, at: int) -> None:
        self.file, self.owner = file, owner
        head = re.compile(r"fn (\w+)").match(text, at)
        assert head is not None
        self.name = head[1]
        place = closing(text, text.index("(", at)) + 1
        result = re.compile(r"\s*->\s*([^{;]*?)(?=\s*\b(?:requires|ensures|where|ghost)\b|\s*[{;])").match(text, place)
        self.result = result[1] if result else ""
        place = result.end() if result else place
        clause = re.compile(r"\s*(?:requires|ensures)\*?\s*\w*\s*(?=\{)")
        while found := clause.match(text, place):
            place = closing(text, found.end()) + 1
        start = re.compile(r"[^;{]*\{").match(text, place)
        self.body = text[start.end() - 1 : closing(text, start.end() - 1)] if start else ""

    @property
    def key(self) -> Key:
        return self.file.crate, self.owner, self.name

    def calls(self, key: Key) -> bool:
        """Whether it calls this function."""
        crate, owner, name = key
        names, is_own = self.file.names, self.file.crate == crate
        if owner:
            method = rf"|\.{name}\(" if is_own or owner in self.file.words else ""
            is_near = is_own or names.get(owner) == crate or crate in self.file.crates
            return is_near and bool(re.search(rf"\b{owner}::{name}\({method}", self.body))
        is_named = names.get(name, crate if is_own else None) == crate
        return is_named and bool(re.search(rf"(?<![.:\w]){name}(?:::<[^>]*>)?\(", self.body)) or f"{crate}::{name}(" in self.body

    def compares(self) -> bool:
        return bool(re.search(r"\bassert(_eq)?!|\bFail::|\bpanic!", self.body))


class File:
    """A file of src/, or the module of tests of one."""

    def __init__(self, crate: str, text: str, is_test: bool) -> None:
        self.crate, self.is_test, self.words = crate, is_test, set(re.findall(r"\w+", text))
        self.names: dict[str, str] = {}
        self.crates: set[str] = set()
        for path, rest in re.findall(r"(?m)^\s*(?:pub )?use (\w+)::([^;]*);", text):
            at = crate if path in ("crate", "super", "self") else path
            self.crates.add(at)
            self.names.update(dict.fromkeys(re.findall(r"\w+", rest), at))
        # Where the methods of a type stand, its name, and whether they are those of a trait.
        owners: list[tuple[int, int, str, bool]] = []
        for match in re.finditer(r"(?m)^impl\b([^{]*)\{", text):
            head = re.sub(r"<[^<>]*(?:<[^<>]*>[^<>]*)*>", "", match[1])
            owners.append((match.end(), closing(text, match.end() - 1), head.split(" for ")[-1].split()[0], " for " in head))
        self.functions: list[Function] = []
        self.tests: list[Function] = []
        self.public: list[Function] = []
        for match in re.finditer(r"(?m)(#\[test\]\s*)?(^ *)(pub )?(?:pub\(\w+\) )?(fn \w+)", text):
            inside = next((it for it in owners if it[0] <= match.start() <= it[1]), None)
            function = Function(self, inside[2] if inside else "", text, match.start(4))
            self.functions.append(function)
            if match[1]:
                self.tests.append(function)
            elif match[3] or (inside and inside[3]):
                self.public.append(function)


def code_of(path: Path) -> str:
    """A file without its comments and with empty texts."""
    return crates.without_comments(QUOTED.sub('""', re.sub(r"(?m)^\s*//[^\n]*", "", crates.read(path))))


def files_of(crate: str) -> Iterator[File]:
    for path in crates.files_of(crate, "src", ".rt"):
        if crate.endswith("_tests") or path.relative_to(crates.CRATES / crate / "src").parts[0].startswith("tests"):
            yield File(crate, code_of(path), True)
            continue
        code, _, tests = re.sub(r"#\[cfg\(test\)\]\s*mod tests \{", "\0", code_of(path)).partition("\0")
        yield File(crate, code, False)
        if tests:
            yield File(crate, re.sub(r"(?m)^    ", "", tests), True)


def errors() -> set[str]:
    """The errors that have a variant for want of memory."""
    found = {"AllocError"}
    for crate in crates.crates():
        for text in map(code_of, crates.files_of(crate, "src", ".rt")):
            for match in re.finditer(r"(?m)^pub enum (\w+)[^{]*\{", text):
                if re.search(r"(?m)^\s*Memory\b", text[match.end() : closing(text, match.end() - 1)]):
                    found.add(match[1])
    return found


class Crates:
    """All functions, with what each leads to in its crate."""

    def __init__(self) -> None:
        self.files = [file for crate in crates.crates() for file in files_of(crate)]
        # The functions of the code of a crate, or of its tests, by name.
        self.named: dict[tuple[str, bool], dict[str, list[Function]]] = {}
        for file in self.files:
            names = self.named.setdefault((file.crate, file.is_test), {})
            for function in file.functions:
                names.setdefault(function.name, []).append(function)

    def led_to(self, start: Function) -> list[Function]:
        """A function with those of the same crate that it leads to, of the tests or else of the code."""
        names = self.named[start.file.crate, start.file.is_test]
        found: dict[int, Function] = {}
        queue = [start]
        while queue:
            function = queue.pop()
            if id(function) not in found:
                found[id(function)] = function
                for name in set(re.findall(r"\b(\w+)(?:::<[^>]*>)?\(", function.body)):
                    queue += names.get(name, [])
        return list(found.values())

    def public(self) -> Iterator[Function]:
        """The public functions that can answer want of memory."""
        memory = re.compile(r"\bResult\b.*\b(?:" + "|".join(sorted(errors())) + r")\b", re.S)
        handed = {crate: crates.handed_out(crate) for crate in crates.crates()}
        for file in self.files:
            for function in file.public if not file.is_test else ():
                is_public = (function.owner or function.name) in handed[file.crate]
                if is_public and (memory.search(function.result) or function.key in STATUSES):
                    yield function


def shown_through(lacking: Iterable[Key], shown: set[Key], above: dict[Key, list[Key]]) -> dict[Key, Key]:
    """For each function without a test the one above it through which it is shown, by one step or several."""
    found: dict[Key, Key] = {}
    left = set(lacking)
    while more := {key: it for key in left if (it := next((other for other in above[key] if other in shown), None))}:
        found.update(more)
        shown = shown | set(more)
        left -= set(more)
    return found


def called(key: Key) -> str:
    crate, owner, name = key
    return f"{crate} {owner + '::' if owner else ''}{name}"


def main() -> int:
    parser = plain_parser_of(__doc__)
    parser.add_argument("crates", metavar="CRATE", nargs="*")
    wanted = parser.parse_args().crates
    if unknown := set(wanted) - set(crates.crates()):
        stop(f"there is no crate {', '.join(sorted(unknown))}")
    known = Crates()
    public = list(known.public())
    keys = [it.key for it in public]
    roots = [(test, known.led_to(test)) for file in known.files for test in file.tests]
    roots = [(test, bodies) for test, bodies in roots if any(it.compares() for it in bodies)]
    tests = {key: [it for it, bodies in roots if any(one.calls(key) for one in bodies)] for key in keys}
    code = {it.key: known.led_to(it) for it in public}
    above = {key: [other for other in keys if other != key and any(one.calls(key) for one in code[other])] for key in keys}
    shown = {key for key in keys if tests[key]}
    through = shown_through(set(keys) - shown, shown, above)
    chosen = [key for key in sorted(tests) if not wanted or key[0] in wanted]
    for key in chosen:
        names = [it.name if it.file.crate == key[0] else f"{it.file.crate}: {it.name}" for it in tests[key]]
        told = ", ".join(names[:4]) + (f" and {len(names) - 4} more" if len(names) > 4 else "")
        if not names and key in through:
            crate, owner, name = through[key]
            told = f"through {crate} {'::'.join(filter(None, (owner, name)))}"
        print(f"{called(key)}: {told or 'NO TEST'}")
    lacking = sum(key not in shown and key not in through for key in chosen)
    print(f"{len(chosen)} functions, {lacking} without a test")
    return 1 if lacking or not chosen else 0


if __name__ == "__main__":
    sys.exit(main())
