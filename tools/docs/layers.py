#!/usr/bin/env python3
"""The layers of the crates, from crates.txt.

usage: tools/docs/layers.py [--svg|--chain] [--crates FILE]

As text each layer, highest first, with its crates and what each stands on; with --svg as a picture, which docs/layers.svg keeps; with --chain
the longest chain of crates, lowest first. A crate stands one layer above the highest of those that it stands on, and an edge that others
imply is left out. Crates of the toolchain are left out too.
"""
from __future__ import annotations

import sys
from pathlib import Path

sys.path.insert(0, str(Path(__file__).resolve().parents[1]))
from common import plain_parser_of
from crates import crates_below
from front_door.sources import LIST

Crates = dict[str, list[str]]
# What stands in a row of the picture: a crate, or the bend of an edge over several layers, as its ends and the layer.
Item = str | tuple[str, str, int]
# What an item is joined to, above and below.
Joined = dict[Item, tuple[list[Item], list[Item]]]


def reach(crates: Crates) -> dict[str, set[str]]:
    """All that stands below each crate."""
    below: dict[str, set[str]] = {}

    def visit(name: str) -> set[str]:
        if name not in below:
            below[name] = set()
            for low in crates[name]:
                below[name] |= {low} | visit(low)
        return below[name]

    for name in crates:
        visit(name)
    return below


def reduced(crates: Crates) -> Crates:
    """Without each edge to a crate that another edge leads to as well."""
    below = reach(crates)
    return {name: sorted(low for low in set(lows) if not any(low in below[other] for other in lows)) for name, lows in crates.items()}


def levels(crates: Crates) -> dict[str, int]:
    """The layer of each crate, from 1 on."""
    level: dict[str, int] = {}

    def visit(name: str) -> int:
        if name not in level:
            level[name] = 1 + max([visit(low) for low in crates[name]], default=0)
        return level[name]

    for name in crates:
        visit(name)
    return level


def as_text(edges: Crates, level: dict[str, int]) -> None:
    for layer in range(max(level.values()), 0, -1):
        for name in sorted(name for name in edges if level[name] == layer):
            print(f"{layer:2}  {name:16} {' '.join(edges[name])}")


def chain(edges: Crates, level: dict[str, int]) -> None:
    name = max(level, key=lambda it: level[it])
    found = [name]
    while edges[name]:
        name = max(edges[name], key=lambda low: level[low])
        found.append(name)
    print(" ".join(reversed(found)))


# The picture: an edge over several layers goes through a bend in each, so that it passes no box.

WIDTH, HEIGHT, GAP, RISE = 116, 26, 16, 74


def rows_of(edges: Crates, level: dict[str, int]) -> tuple[list[list[Item]], list[list[Item]]]:
    """The layers, lowest first, as lists of crates and of bends; and each edge as its way from layer to layer."""
    rows: list[list[Item]] = [[] for _ in range(max(level.values()) + 1)]
    for name in sorted(edges):
        rows[level[name]].append(name)
    ways: list[list[Item]] = []
    for name in sorted(edges):
        for low in edges[name]:
            way: list[Item] = [name]
            for layer in range(level[name] - 1, level[low], -1):
                way.append((name, low, layer))
                rows[layer].append(way[-1])
            ways.append([*way, low])
    return rows, ways


def settle(rows: list[list[Item]], ways: list[list[Item]]) -> tuple[list[list[Item]], Joined]:
    """Puts each row in an order in which few edges cross, by the middle of what each is joined to."""
    joined: Joined = {}
    for way in ways:
        for high, low in zip(way, way[1:]):
            joined.setdefault(high, ([], []))[1].append(low)
            joined.setdefault(low, ([], []))[0].append(high)

    def crossings(upper: list[Item], lower: list[Item]) -> int:
        place = {item: at for at, item in enumerate(lower)}
        ends = [
            place[low] for item in upper for low in sorted(joined.get(item, ([], []))[1], key=lambda it: place.get(it, -1)) if low in place
        ]
        return sum(1 for at, one in enumerate(ends) for other in ends[at + 1 :] if other < one)

    def total(rows: list[list[Item]]) -> int:
        return sum(crossings(rows[at + 1], rows[at]) for at in range(1, len(rows) - 1))

    best, least = [list(row) for row in rows], total(rows)
    for turn in range(60):
        upward = turn % 2 == 0
        order = range(2, len(rows)) if upward else range(len(rows) - 2, 0, -1)
        for at in order:
            other = {item: place for place, item in enumerate(rows[at - 1 if upward else at + 1])}
            middles = {}
            for old, item in enumerate(rows[at]):
                near = [other[end] for end in joined.get(item, ([], []))[1 if upward else 0] if end in other]
                middles[item] = (sum(near) / len(near) if near else old, old)
            rows[at].sort(key=lambda item: middles[item])
        now = total(rows)
        if now < least:
            best, least = [list(row) for row in rows], now
    return best, joined


def spread(rows: list[list[Item]], joined: Joined) -> tuple[dict[Item, float], dict[Item, int]]:
    """A middle for each item: near what it is joined to, and as far from its neighbours as they are wide."""
    width = {item: WIDTH if isinstance(item, str) else 10 for row in rows for item in row}
    at: dict[Item, float] = {}
    for row in rows:
        place = 0.0
        for item in row:
            at[item] = place + width[item] / 2
            place += width[item] + GAP
    for _ in range(200):
        for row in rows:
            wanted = []
            for item in row:
                near = [at[end] for ends in joined.get(item, ([], [])) for end in ends]
                wanted.append(sum(near) / len(near) if near else at[item])
            # from the left and from the right, as near to what is wanted as the neighbours let it be
            left, right = list(wanted), list(wanted)
            for place in range(1, len(row)):
                apart = (width[row[place - 1]] + width[row[place]]) / 2 + GAP
                left[place] = max(left[place], left[place - 1] + apart)
            for place in range(len(row) - 2, -1, -1):
                apart = (width[row[place + 1]] + width[row[place]]) / 2 + GAP
                right[place] = min(right[place], right[place + 1] - apart)
            for place, item in enumerate(row):
                at[item] = (left[place] + right[place]) / 2
    least = min(at[item] - width[item] / 2 for item in at)
    return {item: place - least + 20 for item, place in at.items()}, width


def as_svg(edges: Crates, level: dict[str, int]) -> None:
    rows, ways = rows_of(edges, level)
    rows, joined = settle(rows, ways)
    at, width = spread(rows, joined)
    top = len(rows) - 1

    def height(item: Item) -> float:
        layer = level[item] if isinstance(item, str) else item[2]
        return 20 + (top - layer) * RISE + HEIGHT / 2

    across = max(at[item] + width[item] / 2 for item in at) + 20
    down = 40 + (top - 1) * RISE + HEIGHT
    size = f'width="{across:.0f}" height="{down:.0f}" viewBox="0 0 {across:.0f} {down:.0f}"'
    print(f'<svg xmlns="http://www.w3.org/2000/svg" {size} font-family="sans-serif" font-size="13">')
    print('<rect width="100%" height="100%" fill="white"/>')
    for way in ways:
        x, y = at[way[0]], height(way[0]) + HEIGHT / 2
        path = f"M{x:.1f} {y:.1f}"
        for item in way[1:]:
            last = isinstance(item, str)
            to, end = at[item], height(item) - (HEIGHT / 2 if last else 0)
            middle = (y + end) / 2
            path += f" C{x:.1f} {middle:.1f} {to:.1f} {middle:.1f} {to:.1f} {end:.1f}"
            x, y = to, end
        print(f'<path d="{path}" fill="none" stroke="#7a8a99" stroke-width="1.2"/>')
    for name in sorted(edges):
        x, y = at[name] - WIDTH / 2, height(name) - HEIGHT / 2
        print(f'<rect x="{x:.1f}" y="{y:.1f}" width="{WIDTH}" height="{HEIGHT}" rx="5" fill="#eef3f8" stroke="#33475b"/>')
        print(f'<text x="{at[name]:.1f}" y="{height(name) + 4.5:.1f}" text-anchor="middle" fill="#11202f">{name}</text>')
    print("</svg>")


def main() -> int:
    parser = plain_parser_of(__doc__)
    form = parser.add_mutually_exclusive_group()
    form.add_argument("--svg", action="store_true", help="as a picture")
    form.add_argument("--chain", action="store_true", help="the longest chain")
    parser.add_argument("--crates", metavar="FILE", type=Path, default=LIST, help="another list than crates.txt")
    given = parser.parse_args()
    crates = crates_below(given.crates)
    show = as_svg if given.svg else chain if given.chain else as_text
    show(reduced(crates), levels(crates))
    return 0


if __name__ == "__main__":
    sys.exit(main())
