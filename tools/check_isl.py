#!/usr/bin/env python3
"""Compares what `compaan deps` tells of the examples, as isl's maps, with isl's own analysis of the same accesses.

usage: tools/check_isl.py [--compaan PROGRAM] [--most N] [--random COUNT] [--seed SEED] [EXAMPLE]..

For each EXAMPLE (all of examples/ where none is named) and each read, with the example's own parameters, and with N (1,000,000,000) for each
of them where every read has a tree: isl's flow analysis is given the read, all writes of all statements, and their order, all made of
the source by tools/outline.py; its map from the reader's points to the last writers, and its set of points that have none, must be equal
to what tools/maps.py makes of `deps`. And each statement must have as many points as its process fires by `net`, with the example's own
parameters, so that the domains, which both sides share, are those of the program. With --random so many random programs of
tools/hostile/fuzz.py are compared in the same way, with their own parameters. It wants isl's library, which cc brings. Prints a line for each
example, and fails where something differs.
"""
from __future__ import annotations

import random
import re
import sys
from collections.abc import Iterator
from dataclasses import dataclass, field

from common import Example, examples, head, parser_of, program_of, row, run, stop
from hostile.fuzz import Source
from isl import Absent, Isl
from maps import Space, domain_of, joined, map_of, reads_of, spaces_of, where
from outline import Outline, values_of

LARGE = 1_000_000_000


def writes_of(spaces: list[Space]) -> str:
    """All writes, from points to cells."""
    found = [f"{it} -> {it.cell(it.statement.written)}{where(it.constraints)}" for it in spaces if it.statement.written]
    return joined(found)


def order_of(spaces: list[Space]) -> str:
    """When each point comes."""
    depth = max((len(it.names) for it in spaces), default=0)
    return joined(f"{it} -> {it.order(depth)}" for it in spaces)


def faults_of(isl: Isl, deps: str, spaces: list[Space]) -> tuple[int, int, list[str]]:
    """How many reads have trees, how many have points, and what differs."""
    writes, order, faults = writes_of(spaces), order_of(spaces), []
    trees = points = 0
    for read in reads_of(deps, spaces):
        trees += read.points is None
        points += read.points is not None
        space = spaces[read.statement]
        access = space.statement.accesses[read.number]
        wanted, wanted_none = isl.last_writers(joined([f"{space} -> {space.cell(access)}{where(space.constraints)}"]), writes, order)
        text, none = map_of(read, spaces)
        got, got_none = isl.union_map(text), isl.union_set(none)
        if not isl.are_equal(got, wanted):
            faults.append(f"read {read.statement} {read.number}: {isl.shown(got)} and not {isl.shown(wanted)}")
        if not isl.are_equal(got_none, wanted_none, "set"):
            faults.append(
                f"read {read.statement} {read.number}, by nobody: {isl.shown(got_none, 'set')} and not {isl.shown(wanted_none, 'set')}"
            )
    return trees, points, faults


def wrong_domains(isl: Isl, net: str, spaces: list[Space]) -> list[str]:
    """The statements that have other points than their processes fire."""
    fires = [int(it) for it in re.findall(r"(?m)^process .* fires (\d+) ", net)]
    counts = [isl.count(domain_of(it)) for it in spaces]
    return [] if counts == fires else [f"points {counts} for fires {fires}"]


def told(program: str, source: bytes, command: str, items: list[str]) -> str:
    answer = run(program, [command, *items], source)
    if answer.status:
        raise ValueError(f"{command} {' '.join(items)} ended with {answer.status}: {answer.complaint.decode(errors='replace')}")
    return answer.output.decode()


@dataclass
class Tally:
    """How many reads have trees, how many have points, and what differs."""

    trees: int = 0
    points: int = 0
    faults: list[str] = field(default_factory=list)


def compare(isl: Isl, program: str, source: bytes, items: list[str], counts_points: bool) -> Tally:
    """The reads of a source with these parameters. Its points are counted where that is wanted."""
    spaces = spaces_of(Outline(source, values_of(items)))
    try:
        trees, points, faults = faults_of(isl, told(program, source, "deps", items), spaces)
        if counts_points:
            faults += wrong_domains(isl, told(program, source, "net", items), spaces)
    except ValueError as error:
        return Tally(faults=[str(error)])
    return Tally(trees, points, faults)


def compare_examples(isl: Isl, program: str, known: list[Example], most: int) -> Iterator[Tally]:
    """A row for each example with its own parameters, and one with large ones where every read has a tree."""
    print(head(["Example", "Parameters", "Trees", "Points", ""]))
    for example in known:
        large = [f"{it.partition('=')[0]}={most}" for it in example.items]
        for items, is_own in ((example.items, True), (large, False)):
            found = compare(isl, program, example.source, items, is_own)
            said = "; ".join(found.faults)[:2000] or "equal"
            print(row([f"`{example.name}`", " ".join(items), found.trees, found.points, said]), flush=True)
            yield found
            if found.points:
                break


def compare_random(isl: Isl, program: str, count: int, seed: int) -> Iterator[Tally]:
    """So many random programs that aren't refused."""
    number = 0
    while count:
        source = Source(random.Random(f"{seed}:{number}"))
        number += 1
        if run(program, ["net", *source.words], source.source).status or run(program, ["deps", *source.words], source.source).status:
            continue
        count -= 1
        found = compare(isl, program, source.source, source.words, True)
        for fault in found.faults:
            print(f"program {seed}:{number - 1}, {' '.join(source.words)}: {fault[:2000]}", flush=True)
        yield found


def main() -> int:
    parser = parser_of(__doc__)
    parser.add_argument("--most", metavar="N", type=int, default=LARGE, help=f"the large value of every parameter ({LARGE})")
    parser.add_argument("--random", metavar="COUNT", type=int, default=0, help="so many random programs, in place of the examples")
    parser.add_argument("--seed", type=int, default=1, help="the seed of those (1)")
    parser.add_argument("names", metavar="EXAMPLE", nargs="*")
    given = parser.parse_args()
    program = program_of(given.compaan)
    try:
        isl = Isl()
    except Absent as error:
        stop(error)
    if given.random:
        found = list(compare_random(isl, program, given.random, given.seed))
    else:
        found = list(compare_examples(isl, program, examples(given.names), given.most))
    trees, points, different = (sum(counts) for counts in zip(*((it.trees, it.points, len(it.faults)) for it in found)))
    print(f"\n{trees} reads with trees and {points} with points compared with {isl.version}, {different} different")
    return 1 if different or not trees else 0


if __name__ == "__main__":
    sys.exit(main())
