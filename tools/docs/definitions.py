#!/usr/bin/env python3
"""What the contracts of this repository cite of specs/.

usage: tools/docs/definitions.py cited [CRATE]..      the definitions that the public contracts of these crates cite, or of all
       tools/docs/definitions.py needs NAME..         all that these definitions are made of, file by file, lowest first, with its lines;
                                                      NAME is a definition as net_core.Sound.IsSound, or a crate for all that its public
                                                      contracts cite. With --facts also what the facts are made of that types keep

Public contracts are the clauses of the functions, methods and traits that a crate's src/lib.rt hands out, the facts that its
types keep, and what contracts see of those types. The C library, std and the crates of the toolchain are left out.
"""
from __future__ import annotations

import re
import sys
from collections.abc import Iterable, Iterator
from dataclasses import dataclass, field
from pathlib import Path

sys.path.insert(0, str(Path(__file__).resolve().parents[1]))
from common import plain_parser_of, stop
from crates import CRATES, clauses, closing, crates, files_of, handed_out, read, without_comments

# what a contract sees of a type is its view; how the view is kept is the type's own
KEPT = {"coded", "laws", "invariant", "inverse", "inverse_ok"}
# A definition by its crate, module and name, or a type by its crate and name.
Key = tuple[str, ...]

# What a file of specs/ or of src/ brings in: names, and modules under a name of their own.
USE = re.compile(r"\buse\s+Rattle\.(\w+)\.specs\.([\w.]+?)(?:\.\{([^}]*)\}|\s+as\s+(\w+))\s*;?[ \t]*(?=\n|$)")


def brought_in(text: str) -> tuple[dict[str, Key], dict[str, Key]]:
    names: dict[str, Key] = {}
    modules: dict[str, Key] = {}
    for crate, path, items, alias in USE.findall(text):
        if alias:
            modules[alias] = (crate, path)
        for item in filter(None, (part.strip() for part in items.split(","))):
            old, _, new = item.partition(" as ")
            names[(new or old).strip()] = (crate, path, old.strip())
    return names, modules


# --------------------------------------------------------------------------------------------------------- definitions


@dataclass
class Definition:
    """A definition of specs/, or a type of src/, which has no module."""

    crate: str
    path: Path
    name: str
    lines: int
    text: str
    # What stands right above it.
    comment: str = ""
    module: str | None = None
    names: dict[str, Key] = field(default_factory=dict)
    modules: dict[str, Key] = field(default_factory=dict)
    # Where the names of a type's file come from, as far as they come from other crates.
    outside: dict[str, str] = field(default_factory=dict)
    parts: set[Key] = field(default_factory=set)


class Specs:
    """All definitions of all crates by (crate, module, name), and the types of src/ by (crate, name)."""

    def __init__(self, with_facts: bool = False) -> None:
        self.with_facts = with_facts
        self.definitions: dict[Key, Definition] = {}
        self.types: dict[Key, Definition] = {}
        self.sizes: dict[Path, int] = {}
        for crate in crates():
            for path in files_of(crate, "specs", ".antt"):
                self.read_spec(crate, path, ".".join(path.relative_to(CRATES / crate / "specs").with_suffix("").parts))
            for path in files_of(crate, "src", ".rt"):
                self.read_types(crate, path)
        for definition in [*self.definitions.values(), *self.types.values()]:
            self.resolve(definition)

    def read_spec(self, crate: str, path: Path, module: str) -> None:
        lines = read(path).split("\n")
        self.sizes[path] = len(lines) - 1
        names, modules = brought_in("\n".join(lines))
        starts, together = [], False
        for at, line in enumerate(lines):
            if line.strip() and not line.startswith((" ", "--")):
                together = line in ("mutual", "abbrev mutual", "unfoldable mutual")
            member = line[2:] if together and line.startswith("  pub ") else line
            head = re.match(r"(?:abbrev |unfoldable |pub )*(?:(?:record|data) )?(\S+)(?: .*)?[:=]", member)
            if head and re.match(r"(abbrev|unfoldable|pub|record|data) (?!mod |mutual)", member):
                starts.append((at, head[1]))
        for (at, name), (end, _) in zip(starts, [*starts[1:], (len(lines), "")]):
            while end > at + 1 and (not lines[end - 1].strip() or lines[end - 1].startswith("--")):
                end -= 1
            comment = at
            while comment > 0 and lines[comment - 1].startswith("--"):
                comment -= 1
            text = "\n".join(lines[at:end])
            above = comment_above(lines, at)
            self.definitions[crate, module, name] = Definition(crate, path, name, end - comment, text, above, module, names, modules)

    def read_types(self, crate: str, path: Path) -> None:
        text = read(path)
        self.sizes[path] = text.count("\n")
        names, modules = brought_in(text)
        for match in re.finditer(r"((?:^///[^\n]*\n|^#\[[^\n]*\n)*)^pub(?:\(crate\))? (?:struct|enum) (\w+)([^{;]*)", text, re.M):
            end = text.find(";", match.start(2))
            if text[match.end() : match.end() + 1] == "{":
                end = closing(text, match.end())
            body = text[match.start(2) : end + 1]
            fields = "\n".join(line for line in body.split("\n") if not re.match(r"\s*(pub )?ghost ", line))
            shown = body if self.with_facts else fields
            lines = match[1].count("\n") + body.count("\n") + 1
            self.types[crate, match[2]] = Definition(crate, path, match[2], lines, shown, "", None, names, modules, rust_names(text))

    def resolve(self, definition: Definition) -> None:
        """Finds the definitions and types that a definition is made of."""
        text = "\n".join(line.split("--")[0] for line in definition.text.split("\n"))
        bound = bound_names(definition.name, text) if definition.module else set()
        for before, word in re.findall(r"([\w.]*\.)?([\w⟦⟧◌×⊎]+)", text):
            owner = before.rstrip(".").split(".")[0] if before else ""
            if owner in definition.modules:
                self.add(definition, (*definition.modules[owner], word))
            elif before and not (definition.module is None and "ghost" in text):
                continue
            elif word in bound or word == definition.name:
                continue
            elif word in definition.names:
                self.add(definition, definition.names[word])
            elif definition.module and (definition.crate, definition.module, word) in self.definitions:
                definition.parts.add((definition.crate, definition.module, word))
            elif not definition.module:
                crate = definition.outside.get(word, definition.crate)
                if (crate, word) in self.types:
                    definition.parts.add((crate, word))

    def add(self, definition: Definition, target: Key) -> None:
        crate, path, name = target
        if ".declared." in "." + path:
            for step in [name, *path.split(".")[::-1]]:
                if (crate, step) in self.types:
                    definition.parts.add((crate, step))
                    return
            return
        while path:
            if (crate, path, name) in self.definitions:
                definition.parts.add((crate, path, name))
                return
            path, _, name = path.rpartition(".")

    def found(self, key: Key) -> Definition | None:
        return self.definitions.get(key) if len(key) == 3 else self.types.get(key)


def comment_above(lines: list[str], at: int) -> str:
    """The comment right above a definition, in one line."""
    first = at
    while first > 0 and lines[first - 1].lstrip().startswith("--"):
        first -= 1
    return " ".join(line.strip()[2:].strip() for line in lines[first:at])


def bound_names(name: str, text: str) -> set[str]:
    """The names that a definition binds itself: what its equations, its abstractions and its `let` take."""
    bound: set[str] = set()
    for line in text.split("\n"):
        if line.startswith(name + " "):
            left = re.split(r" = | =$", line)[0]
            bound |= set(re.findall(r"(?<![\w.])([a-z_]\w*)", left))
    for inside in re.findall(r"λ ([^.]*)\.", text):
        bound |= set(re.findall(r"[a-z_]\w*", inside.split(":")[0]))
    bound |= set(re.findall(r"\blet (\w+)", text))
    for inside in re.findall(r"\(([a-z_][\w ]*) :", text):
        bound |= set(inside.split())
    return bound


def rust_names(text: str) -> dict[str, str]:
    """Where the names that a file of src/ uses come from, as far as they come from other crates."""
    outside: dict[str, str] = {}
    for crate, rest in re.findall(r"^use (\w+)::([^;]*);", text, re.M):
        if crate not in ("crate", "std", "self", "super"):
            outside.update(dict.fromkeys(re.findall(r"\w+", rest), crate))
    return outside


# --------------------------------------------------------------------------------------------------- public contracts


def without_arguments(words: str) -> str:
    """A type behind the list of parameters of its `impl`."""
    words = words.strip()
    if words.startswith("<"):
        depth = 0
        for place, letter in enumerate(words):
            depth += {"<": 1, ">": -1}.get(letter, 0)
            if depth == 0:
                return words[place + 1 :].strip()
    return words


def public_texts(text: str, names: set[str]) -> Iterator[str]:
    """The clauses and facts of a file whose functions, traits and types have these names."""
    for match in re.finditer(r"^pub fn (\w+)", text, re.M):
        if match[1] in names:
            yield from clauses(text, match.start())
    for match in re.finditer(r"^pub trait (\w+)[^{]*\{", text, re.M):
        if match[1] in names:
            yield text[match.end() : closing(text, match.end() - 1)]
    for match in re.finditer(r"^impl\b([^{]*)\{", text, re.M):
        head = without_arguments(match[1])
        of_trait = " for " in head
        name = re.match(r"\w+", without_arguments(head.split(" for ")[-1]))
        if not name or name[0] not in names:
            continue
        body = text[match.end() : closing(text, match.end() - 1)]
        for method in re.finditer(r"\bfn \w+" if of_trait else r"\bpub fn \w+", body):
            yield from clauses(text, match.end() + method.start())
        for ghost in re.finditer(r"\bghost (\w+)\s*=\s*\{", body):
            if ghost[1] not in KEPT:
                yield braces(text, match.end() + ghost.end() - 1)
    for match in re.finditer(r"^pub struct (\w+)[^{;(]*\{", text, re.M):
        if match[1] in names:
            body = text[match.end() : closing(text, match.end() - 1)]
            for ghost in re.finditer(r"\bghost \w+:\s*\{", body):
                yield braces(text, match.end() + ghost.end() - 1)


def braces(text: str, start: int) -> str:
    """What stands between the brace at this place and the one that closes it, with both."""
    return text[start : closing(text, start) + 1]


def cited(crate: str, specs: Specs) -> set[Key]:
    """The definitions that the public contracts of a crate cite."""
    names_of_crate = handed_out(crate)
    found: set[Key] = set()
    for path in files_of(crate, "src", ".rt"):
        if path.relative_to(CRATES / crate / "src").parts[0].startswith("tests"):
            continue
        text = without_comments(read(path))
        names, modules = brought_in(text)
        for clause in public_texts(text, names_of_crate):
            for owner, word in re.findall(r"(?:(\w+)\.)?(\w+)", clause):
                target = names.get(word) or ((*modules[owner], word) if owner in modules else names.get(owner))
                if not target:
                    continue
                above, _, last = target[1].rpartition(".")
                key = next((it for it in (target, (target[0], above, last)) if it in specs.definitions), None)
                if key:
                    found.add(key)
    return found


# -------------------------------------------------------------------------------------------- what definitions are made of


def made_of(names: Iterable[str], specs: Specs) -> dict[Path, list[Definition]]:
    """All that these definitions are made of: the files, lowest first, each with its definitions and types."""
    order: list[Definition] = []
    seen: set[Key] = set()

    def visit(key: Key) -> None:
        if key in seen:
            return
        seen.add(key)
        definition = specs.found(key)
        if definition is not None:
            for part in sorted(definition.parts):
                visit(part)
            order.append(definition)

    for name in names:
        for key in keys_of(name, specs):
            visit(key)
    by_file: dict[Path, list[Definition]] = {}
    for definition in order:
        by_file.setdefault(definition.path, []).append(definition)
    return {path: by_file[path] for path in lowest_first(by_file, specs)}


def needs(names: Iterable[str], specs: Specs) -> int:
    """Prints what these definitions are made of."""
    found = made_of(names, specs)
    for path, inside in found.items():
        lines = sum(it.lines for it in inside)
        print(f"{path.relative_to(CRATES)}: {lines} of {specs.sizes[path]} lines: {' '.join(it.name for it in inside)}")
    definitions = [it for inside in found.values() for it in inside]
    print(f"{len(found)} files, {len(definitions)} definitions and types, {sum(it.lines for it in definitions)} lines")
    return 0


def keys_of(name: str, specs: Specs) -> list[Key]:
    """A definition by its name, or all that a crate cites."""
    crate, _, path = name.partition(".")
    if not path:
        return sorted(cited(crate, specs)) if crate in crates() else stop(f"there is no crate {crate}")
    module, _, last = path.rpartition(".")
    key = (crate, module, last)
    return [key] if key in specs.definitions else stop(f"there is no definition {name}")


def lowest_first(by_file: dict[Path, list[Definition]], specs: Specs) -> list[Path]:
    """The files, each behind those whose definitions its own are made of. What a type keeps orders nothing."""
    below: dict[Path, set[Path]] = {path: set() for path in by_file}
    for path, found in by_file.items():
        for definition in found:
            parts = [specs.found(part) for part in sorted(definition.parts)]
            below[path] |= {it.path for it in parts if it and it.path != path and (definition.module or not it.module)}
    order: list[Path] = []

    def visit(path: Path) -> None:
        if path not in order:
            for lower in sorted(below[path]):
                visit(lower)
            order.append(path)

    for path in sorted(by_file):
        visit(path)
    return order


def main() -> int:
    parser = plain_parser_of(__doc__)
    parser.add_argument("--facts", action="store_true", help="with what the facts are made of that types keep")
    parser.add_argument("command", choices=("cited", "needs"))
    parser.add_argument("names", metavar="NAME", nargs="*")
    given = parser.parse_args()
    specs = Specs(given.facts)
    if given.command == "needs":
        return needs(given.names, specs) if given.names else stop("needs wants a NAME")
    for crate in given.names or crates():
        for owner, module, name in sorted(cited(crate, specs)):
            print(f"{crate}: {owner} {module}.{name}")
    return 0


if __name__ == "__main__":
    sys.exit(main())
