#!/usr/bin/env python3
"""What `compaan deps` tells of the examples, beside the last writers that a walk in Python finds.

usage: tools/examples/sources.py [--compaan PROGRAM] [EXAMPLE]..

Each example is run with its own parameters: every tree is followed at every point of its reader, every line of points is compared, and
just the reads whose array is written by differences or by strides have trees. Each example all of whose reads have trees is run once
more with 1,000,000,000 for every parameter, where `deps` has to end within a minute, with a tree for each read. Prints one line for
each difference, and fails where there is one. It is a test, outside the proof.
"""
from __future__ import annotations

import subprocess
import sys
from pathlib import Path

sys.path.insert(0, str(Path(__file__).resolve().parents[1]))
from common import examples, parser_of, program_of, run
from hostile import meaning
from outline import values_of

LARGE = 1_000_000_000


def judged(program: str, source: bytes, items: list[str], follows: bool = True) -> tuple[str | None, bool]:
    """What is wrong with the text for a source and its parameters, or None; and whether every read has a tree."""
    try:
        answer = run(program, ["deps", *items], source, seconds=60)
    except subprocess.TimeoutExpired:
        return "it takes more than a minute", False
    if answer.status or answer.complaint:
        return f"status {answer.status}, {answer.complaint!r}", False
    known = meaning.Program(source, values_of(items))
    try:
        meaning.told(known, answer.output, follows)
    except (meaning.Untold, ValueError, StopIteration) as reason:
        return repr(reason), False
    return None, known.all_have_trees()


def at_large(items: list[str]) -> list[str]:
    """The same parameters with a large value for each."""
    return [f"{it.partition('=')[0]}={LARGE}" for it in items]


def sources_fault(program: str, source: bytes, items: list[str]) -> str | None:
    """What is wrong with the sources of a program, at its own parameters or at large ones, or None."""
    why, has_trees = judged(program, source, items)
    if why is None and has_trees:
        why, _ = judged(program, source, at_large(items), follows=False)
        return why and f"at {LARGE}: {why}"
    return why


def main() -> int:
    parser = parser_of(__doc__)
    parser.add_argument("names", metavar="EXAMPLE", nargs="*")
    given = parser.parse_args()
    program = program_of(given.compaan)
    count = wrong = 0
    for example in examples(given.names):
        why = sources_fault(program, example.source, example.items)
        count += 1
        if why is not None:
            wrong += 1
            print(f"{example.name} by deps: {why}", flush=True)
    print(f"sources of {count} examples compared, {wrong} different")
    return 1 if wrong or not count else 0


if __name__ == "__main__":
    sys.exit(main())
