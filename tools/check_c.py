#!/usr/bin/env python3
"""Compares functions in C with the sources that `./compaan c` makes of them.

usage: tools/check_c.py [--compaan PROGRAM] [--rounds N] [KERNEL]..

Each KERNEL is a file of examples/c (all of them where none is named). Its first line is `// NAME=VALUE ..`, with the values of the
sizes that are parameters of the function; macros have their own. The source that comes of it is run by `compaan run` on random data, and
the function itself is compiled by the C compiler and called on the same data; both print the arrays that are written, which are compared.
Prints a row for each kernel, and fails where two differ.
"""
from __future__ import annotations

import random
import re
import subprocess
import sys
import tempfile
from dataclasses import dataclass
from pathlib import Path

import from_c
from common import EXAMPLES, head, parser_of, program_of, row, run, stop
from pycparser import c_ast, c_parser

DECLARED = re.compile(r"(?m)^(param|in|out|inout) (.*);$")
# The data are numbers up to this, so that what is an int in C doesn't overflow.
GREATEST = 9
Shape = tuple[str, list[str]]


@dataclass
class Kernel:
    """A function in C: its name, its parameters with their types, and whether it returns a number."""

    name: str
    parameters: list[tuple[str, str]]
    returns: bool


@dataclass
class Outcome:
    """How many lines the source has, how many cells were compared, and what differed."""

    lines: int
    cells: int
    faults: list[str]


def kernel_of(text: str) -> Kernel:
    whole, _ = from_c.preprocessed(text)
    tree = c_parser.CParser().parse(whole)
    function = next(it for it in tree.ext if isinstance(it, c_ast.FuncDef))
    declared = function.decl.type.args
    parameters = []
    for it in declared.params if declared else []:
        kind = it.type
        while isinstance(kind, (c_ast.ArrayDecl, c_ast.PtrDecl)):
            kind = kind.type
        if isinstance(it, c_ast.Decl):
            parameters.append((it.name, " ".join(kind.type.names)))
    return Kernel(function.decl.name, parameters, function.decl.type.type.type.names != ["void"])


def shapes_of(source: str) -> dict[str, list[Shape]]:
    """The names that a source declares with their extents, by kind."""
    found: dict[str, list[Shape]] = {}
    for kind, names in DECLARED.findall(source):
        for it in re.split(r", (?![^\[]*\])", names):
            found.setdefault(kind, []).append((it.split("[")[0], re.findall(r"\[([^\]]*)\]", it)))
    return found


def cells(extents: list[str], sizes: dict[str, int]) -> int:
    """How many cells an array has."""
    number = 1
    for it in extents:
        # (an extent is an affine expression of sizes)
        number *= max(0, eval(it, {"__builtins__": {}}, dict(sizes)))  # noqa: S307
    return number


def driver(text: str, kernel: Kernel, shapes: dict[str, list[Shape]], sizes: dict[str, int], data: dict[str, list[int]]) -> str:
    """A program that calls the function on the data, and prints what the source prints."""
    extents = {name: found for kind in ("in", "inout", "out") for name, found in shapes.get(kind, [])}
    lines, words = [text, "#include <stdio.h>", "int main(void) {"], []
    for name, kind in kernel.parameters:
        if extents.get(name):
            number = cells(extents[name], sizes)
            values = ",".join(map(str, data.get(name, [0] * number)))
            lines.append(f"  static {kind} {name}_cells[{max(number, 1)}] = {{{values}}};")
            words.append(f"(void *){name}_cells")
        else:
            words.append(str(sizes[name] if name in sizes else data[name][0] if name in data else 0))
    call = f"{kernel.name}({', '.join(words)});"
    lines.append(f"  long answer = {call}" if kernel.returns else f"  {call}")
    for name, found in [*shapes.get("inout", []), *shapes.get("out", [])]:
        if name == "result" and kernel.returns:
            lines.append('  printf("result,%ld\\n", answer);')
        else:
            number = cells(found, sizes)
            lines.append(
                f'  printf("{name}"); for (long at = 0; at < {number}; at++) printf(",%ld", (long){name}_cells[at]); printf("\\n");'
            )
    return "\n".join([*lines, "  return 0;", "}"]) + "\n"


def compare(program: str, file: Path, rounds: int) -> Outcome:
    """Runs both on random data, as often as is said."""
    text = file.read_text(encoding="utf-8")
    try:
        source = from_c.converted(text, None, [])
    except from_c.Unfit as error:
        return Outcome(0, 0, [str(error)])
    kernel, shapes = kernel_of(text), shapes_of(source)
    values = dict(re.findall(r"(\w+)=(-?\d+)", text.split("\n", 1)[0]))
    values.update(re.findall(r"(\w+)=(-?\d+)", source.split("\n", 1)[0] if source.startswith("//") else ""))
    sizes = {name: int(values[name]) for name, _ in shapes.get("param", [])}
    outcome = Outcome(sum(1 for it in source.split("\n") if it.strip()), 0, [])
    for number in range(rounds):
        chance = random.Random(f"{file.name} {number}")
        data = {
            name: [chance.randint(-GREATEST, GREATEST) for _ in range(cells(extents, sizes))]
            for kind in ("in", "inout")
            for name, extents in shapes.get(kind, [])
        }
        with tempfile.TemporaryDirectory() as room:
            (Path(room) / "kernel.c").write_text(driver(text, kernel, shapes, sizes, data), encoding="utf-8")
            subprocess.run(["cc", "-O1", "-w", "-fwrapv", "-o", f"{room}/kernel", f"{room}/kernel.c"], check=True)
            wanted = subprocess.run([f"{room}/kernel"], capture_output=True, text=True, check=True).stdout
        records = "".join(",".join([name, *map(str, found)]) + "\n" for name, found in data.items())
        items = [f"{name}={value}" for name, value in sizes.items()]
        done = run(program, ["run", *items], f"{source}%%\n{records}".encode())
        found_lines, wanted_lines = sorted(done.output.decode().split("\n")), sorted(wanted.split("\n"))
        outcome.cells += sum(it.count(",") for it in wanted_lines)
        if done.status or done.complaint or found_lines != wanted_lines:
            outcome.faults.append(f"round {number}: status {done.status} {done.complaint!r} {found_lines} and not {wanted_lines}"[:300])
    return outcome


def main() -> int:
    parser = parser_of(__doc__)
    parser.add_argument("--rounds", type=int, default=3, help="how often each is run (3)")
    parser.add_argument("kernels", nargs="*", metavar="KERNEL")
    given = parser.parse_args()
    program = program_of(given.compaan)
    folder = EXAMPLES / "c"
    files = [folder / f"{it}.c" for it in given.kernels] or sorted(folder.glob("*.c"))
    if lacking := [it for it in files if not it.is_file()]:
        stop(f"there is no {lacking[0]}")
    print(head(["Kernel", "Lines of C", "Lines of source", "Cells compared", ""]))
    different = 0
    for file in files:
        outcome = compare(program, file, given.rounds)
        different += bool(outcome.faults) or not outcome.cells
        count = sum(1 for it in file.read_text(encoding="utf-8").split("\n") if it.strip())
        faults = "; ".join(outcome.faults) or ("equal" if outcome.cells else "nothing was compared")
        print(row([f"`{file.stem}`", count, outcome.lines, outcome.cells, faults]), flush=True)
    print(f"{len(files)} kernels, {different} different")
    return 1 if different or not files else 0


if __name__ == "__main__":
    sys.exit(main())
