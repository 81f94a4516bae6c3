"""What the scripts share: where things stand, how the built program is found and run, the examples, and how a table is printed."""
from __future__ import annotations

import argparse
import os
import re
import subprocess
import sys
from collections.abc import Iterable, Sequence
from dataclasses import dataclass
from pathlib import Path
from typing import NoReturn

from front_door.base import COMPAAN, RTL, Stop
from front_door.kept import proved_program, unproved_program
from front_door.proved import built_by_rt

TOP = Path(__file__).resolve().parents[1]
EXAMPLES = TOP / "examples"
POLICIES = ("seq", "down")
# How a process of a design goes: all its ports by one control, or each by its own.
PORTS = ("one", "all")
USAGE = "usage: compaan COMMAND [--policy seq|down] [NAME=VALUE]...\n"
# The status of a script that can't begin, since something that it wants isn't here. One that finds a difference ends with 1.
CANT_BEGIN = 2


def stop(message: object) -> NoReturn:
    """Ends a script that can't begin."""
    print(f"{Path(sys.argv[0]).name}: {message}", file=sys.stderr)
    sys.exit(CANT_BEGIN)


# --------------------------------------------------------------------------------------------------------- the program


def parser_of(text: str | None) -> argparse.ArgumentParser:
    """A parser of the words of a script that says what it does in this text, and runs the program."""
    parser = plain_parser_of(text)
    parser.add_argument("--compaan", metavar="PROGRAM", help="the program (the variable COMPAAN, or else the built one)")
    return parser


def plain_parser_of(text: str | None) -> argparse.ArgumentParser:
    """The same for a script that doesn't run the program. How it is called stands in the text too."""
    usage = re.search(r"(?s)usage: (.*?)\n\n", text or "")
    told = (text or "").replace(usage[0], "") if usage else text
    return argparse.ArgumentParser(usage=usage and usage[1], description=told, formatter_class=argparse.RawDescriptionHelpFormatter)


def program_of(named: str | None, name: str = COMPAAN) -> str:
    """The program by its whole name: the named one, or that of COMPAAN, or what was built of these sources, proved before unproved. So
    for the second program, with COMPAAN_RTL."""
    named = named or os.environ.get(name.upper())
    if named:
        path = os.path.abspath(named)
        return path if os.access(path, os.X_OK) else stop(f"there is no program {path}")
    try:
        built = built_by_rt(name)
        found = proved_program(name) or (built if os.access(built, os.X_OK) else None)
        if found is None:
            found = unproved_program(name)
            if found is not None:
                print(f"{Path(sys.argv[0]).name}: by the unproved program, {found}", file=sys.stderr)
    except Stop as error:
        stop(error.text)
    return str(found) if found is not None else stop("build the program first: ./compaan build, or ./compaan build --unproved")


def rtl_program_of(named: str | None) -> str:
    """The program that writes designs, by its whole name."""
    return program_of(named, RTL)


@dataclass(frozen=True)
class Answer:
    """How a run of the program ended: its status, or minus the number of a signal, and what it wrote."""

    status: int
    output: bytes
    complaint: bytes


def run(program: str, words: Sequence[str], bundle: bytes = b"", seconds: float = 600) -> Answer:
    """Runs the program on a bundle."""
    done = subprocess.run([program, *words], input=bundle, capture_output=True, timeout=seconds, check=False)
    return Answer(done.returncode, done.stdout, done.stderr)


def bundled(source: bytes, *parts: bytes) -> bytes:
    """A bundle of a source and further parts, each with an ended last line."""
    return b"%%\n".join(it if it.endswith(b"\n") or not it else it + b"\n" for it in (source, *parts))


# -------------------------------------------------------------------------------------------------------- the examples


@dataclass(frozen=True)
class Example:
    """A source with the files beside it: its data, the values of its parameters, the answer that it is wanted to print, and the clocks
    that its network takes under each policy."""

    path: Path

    @property
    def name(self) -> str:
        return self.path.stem

    def bytes_of(self, ending: str) -> bytes:
        """One of its files, or nothing where there is none."""
        file = self.path.with_suffix(ending)
        return file.read_bytes() if file.exists() else b""

    @property
    def source(self) -> bytes:
        return self.path.read_bytes()

    @property
    def data(self) -> bytes:
        return self.bytes_of(".data")

    @property
    def items(self) -> list[str]:
        return self.bytes_of(".items").decode().split()

    @property
    def answer(self) -> bytes:
        return self.bytes_of(".answer")

    @property
    def bundle(self) -> bytes:
        return bundled(self.source, self.data)


def examples(names: Iterable[str] = ()) -> list[Example]:
    """The named examples, or all. A name that ends with .loop is the path of a source with its other files beside it."""
    paths = [Path(it) if it.endswith(".loop") else EXAMPLES / f"{it}.loop" for it in names]
    for it in paths:
        if not it.is_file():
            stop(f"there is no {it}")
    return [Example(it) for it in paths or sorted(EXAMPLES.glob("*.loop"))]


# ------------------------------------------------------------------------------------------------------------- printing


def row(cells: Iterable[object]) -> str:
    """A row of a table in Markdown."""
    return "| " + " | ".join(str(it).replace("|", "\\|") for it in cells) + " |"


def head(titles: Sequence[str]) -> str:
    """The head of a table in Markdown."""
    return row(titles) + "\n|" + "---|" * len(titles)


def table(titles: Sequence[str], rows: Iterable[Iterable[object]]) -> None:
    """Prints a table in Markdown."""
    print(head(titles))
    for it in rows:
        print(row(it), flush=True)
