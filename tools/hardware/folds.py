#!/usr/bin/env python3
"""Shows which scripts fold badly, and what would mend it: how many instructions the controls of a design have at growing sizes, as
`compaan rtl` writes them, and how many they would have with other slots.

usage: tools/hardware/folds.py [--compaan PROGRAM] [--rtl PROGRAM] [--policy seq|down] [--quick] [KERNEL]..

KERNEL is a name in examples/ or hardware/kernels/ of which the script knows sizes; all where none is named. The events are read from the
text of `compaan vhdl` and folded here as the program folds them, which must give as many instructions as `compaan rtl` writes. Then the
slots are others:

ring      token n of a channel goes to place n modulo the ring's length, the least or a power of two that keeps each token until its last
          use, whichever folds better, in place of the lowest free slot
counted   the slots of these rings don't stand in the instructions, but come from counters: one for the Gets of each channel, and one for
          each channel that a read reads, which gains what a sequencer of its own says, as the value of a loop does

Nothing of these two is made or proved by the program. Prints a table, and ends with 1 where the folds differ from the program's.
"""
from __future__ import annotations

import sys
from collections.abc import Callable, Hashable, Iterator, Mapping, Sequence
from dataclasses import dataclass
from pathlib import Path

sys.path.insert(0, str(Path(__file__).resolve().parents[1]))
from common import EXAMPLES, POLICIES, TOP, Example, head, parser_of, program_of, row, rtl_program_of
from hardware import harness
from hardware.netlists import instructions_of
from hardware.nodes import FIRE, GET, Node, read_nodes
from hardware.wiring import Unfit, read_net

KERNELS = TOP / "hardware" / "kernels"
HEAD = [*("Kernel Parameters Events Slots Instructions".split()), "Longest control", "Slots of rings", "Instructions", "With counted slots"]
SIZES: dict[str, tuple[list[str], list[str]]] = {
    "fir": (["N=16 T=4", "N=64 T=4"], ["N=256 T=4", "N=1024 T=8"]),
    "matrix_product": (["N=4", "N=6"], ["N=8", "N=16"]),
    "sobel": (["H=6 W=8"], ["H=12 W=16", "H=24 W=32"]),
    "convolution": (["H=6 W=8"], ["H=12 W=16", "H=24 W=32"]),
    "transpose": (["M=4 N=6"], ["M=8 N=12", "M=16 N=24"]),
    "lu": (["N=4", "N=6"], ["N=8", "N=12"]),
    "floyd_warshall": (["N=4"], ["N=8", "N=12"]),
    "dct": (["B=1"], ["B=2", "B=4"]),
    "block_match": (["B=2 S=1"], ["B=4 S=2", "B=8 S=2"]),
}
Event = tuple[Hashable, ...]

# ------------------------------------------------------------------------------------------------------------ the fold
# As crates/script_blocks/src/search.rt has it, with its names and limits.

WIDEST, PASSES, ROUNDS, LOOKS, ALIKE, PLACES, PERIODS = 4, 16, 1000, 8, 16, 1_048_576, 256


def mixed(hashed: int, number: int) -> int:
    turned = (hashed << 5 | hashed >> 27) & 0xFFFFFFFF
    return (turned ^ number) * 0x9E3779B1 & 0xFFFFFFFF


class Plan:
    """How a list of labels seems to fold: symbols, of which those from `kinds` on are stretches with their number of turns and body."""

    def __init__(self, kinds: int, labels: list[int]) -> None:
        self.kinds = kinds
        self.stretches: list[tuple[int, tuple[int, ...]]] = []
        self.numbers: dict[tuple[int, tuple[int, ...]], int] = {}
        self.again = 0
        self.symbols = self.folded(labels, 1)
        self.fold_again(len(labels))

    def fold_again(self, labels: int) -> None:
        width = 1 if len(self.symbols) < labels else 2
        left = labels * PASSES
        for _ in range(ROUNDS):
            before = len(self.symbols)
            if width > WIDEST or left < before or (width > 1 and self.again < before // 2):
                break
            left -= before
            self.symbols = self.folded(self.symbols, width)
            width = 1 if len(self.symbols) < before else width * 2

    def symbol_of(self, times: int, body: tuple[int, ...]) -> int:
        if (times, body) not in self.numbers:
            self.numbers[times, body] = len(self.stretches)
            self.stretches.append((times, body))
        return self.kinds + self.numbers[times, body]

    def folded(self, symbols: list[int], width: int) -> list[int]:
        """The symbols with the stretches folded that stand a second time where a window of so many symbols was seen last."""
        places = self.kinds + len(self.stretches) if width == 1 else min(len(symbols), PLACES)
        seen: dict[int, int] = {}
        short: dict[int, tuple[int, int, int]] = {}
        left = len(symbols) * LOOKS
        made: list[int] = []
        plain = at = self.again = 0
        while at < len(symbols):
            place = symbols[at]
            if width > 1:
                place = 1
                for symbol in symbols[at : at + width]:
                    place = mixed(place, symbol)
                place = place * places >> 32
            before = seen.get(place)
            seen[place] = at
            self.again += before is not None
            run = None
            if before is not None and before >= plain and left > 0:
                period = at - before
                known = short.get(period % PERIODS)
                if not (known and known[1] == period and known[0] <= before <= known[0] + known[2]):
                    run = self.compared(symbols, before - plain, before, period)
                    if run[2] < period:
                        left -= run[2] + 1
                        short[period % PERIODS] = run
                        run = None
            if run:
                start, period, length = run
                times = length // period + 1
                del made[len(made) - (at - start) :]
                made.append(self.symbol_of(times, tuple(symbols[start : start + period])))
                at = max(start + period * times, at + 1)
                plain = at
            else:
                made.append(symbols[at])
                at += 1
        return made

    @staticmethod
    def compared(symbols: list[int], room: int, before: int, period: int) -> tuple[int, int, int]:
        back = ahead = 0
        while back < min(room, period - 1) and symbols[before - back - 1] == symbols[before - back - 1 + period]:
            back += 1
        while before + period + ahead < len(symbols) and symbols[before + ahead] == symbols[before + period + ahead]:
            ahead += 1
        return before - back, period, back + ahead

    def instructions(self) -> int:
        """The labels of the folded list, each counted once."""
        sizes: list[int] = []

        def size(symbol: int) -> int:
            return sizes[symbol - self.kinds] if symbol >= self.kinds else 1

        for _, body in self.stretches:
            sizes.append(sum(map(size, body)))
        return sum(map(size, self.symbols))


def instructions(events: Sequence[Event]) -> int:
    """How many instructions a script has as it folds."""
    kinds: dict[Event, int] = {}
    labels = [kinds.setdefault(it, len(kinds)) for it in events]
    return Plan(len(kinds), labels).instructions()


# ------------------------------------------------------------------------------------------------------------ the slots


def events_of(node: Node) -> list[Event]:
    """The events of a node as they stand in its text."""
    answer: list[Event] = []
    for op, arg, dst in zip(node.op[:-1], node.arg, node.dst):
        if op == FIRE:
            answer.append((op, tuple(slots[arg] for slots in node.reads)))
        else:
            answer.append((op, arg, dst))
    return answer


@dataclass
class Script:
    """The events of a node, each Get with the number of its token within its channel, and each Fire with the tokens that it reads."""

    events: list[Event]
    slots: int
    channels: dict[int, list[int]]


def script_of(node: Node) -> Script:
    """The script with tokens in place of slots. The places of a channel are the events of the last uses of its tokens, by token."""
    events: list[Event] = []
    last: dict[int, list[int]] = {}
    held: dict[int, tuple[int, int]] = {}
    for at, (op, arg, dst) in enumerate(zip(node.op[:-1], node.arg, node.dst)):
        if op == GET:
            tokens = last.setdefault(arg, [])
            held[dst] = arg, len(tokens)
            events.append((GET, arg, (arg, len(tokens))))
            tokens.append(at)
        elif op == FIRE:
            named = [slots[arg] for slots in node.reads]
            if not {it for it in named if it >= 0} <= set(held):
                raise Unfit("a fire reads a slot that holds nothing")
            read = [held[it] if it >= 0 else None for it in named]
            for token in filter(None, read):
                last[token[0]][token[1]] = at
            events.append((FIRE, tuple(read)))
        else:
            events.append((op, arg))
    return Script(events, node.slots, last)


def with_slots(script: Script, slot: Callable[[tuple[int, int]], Hashable]) -> list[Event]:
    """The events with slots for tokens."""
    answer: list[Event] = []
    for event in script.events:
        if event[0] == GET:
            answer.append((GET, event[1], slot(event[2])))  # type: ignore[arg-type]
        elif event[0] == FIRE:
            answer.append((FIRE, tuple(None if it is None else slot(it) for it in event[1])))  # type: ignore[attr-defined]
        else:
            answer.append(event)
    return answer


def ring_lengths(script: Script) -> dict[int, int]:
    """The least length of a ring for each channel: a token's place isn't given anew before its last use."""
    gets: dict[int, list[int]] = {}
    for at, event in enumerate(script.events):
        if event[0] == GET:
            gets.setdefault(event[1], []).append(at)  # type: ignore[arg-type]
    lengths = {}
    for channel, places in gets.items():
        length = 1
        for token, last in enumerate(script.channels[channel]):
            while token + length < len(places) and places[token + length] < last:
                length += 1
        lengths[channel] = length
    return lengths


def of_powers(lengths: Mapping[int, int]) -> dict[int, int]:
    return {channel: 1 << (length - 1).bit_length() for channel, length in lengths.items()}


def in_rings(script: Script) -> tuple[int, int]:
    """The slots and the instructions with a ring for each channel, of the least lengths or of powers of two, whichever folds better."""
    least = ring_lengths(script)
    found = []
    for lengths in (least, of_powers(least)):
        events = with_slots(script, lambda token, lengths=lengths: (token[0], token[1] % lengths[token[0]]))  # type: ignore[misc]
        found.append((instructions(events), sum(lengths.values())))
    count, slots = min(found)
    return slots, count


def counted(script: Script) -> int:
    """The instructions where the slots in rings come from counters: those of the control, which names the channel of each read, and
    those of what the counters gain, with wrapping."""
    lengths = ring_lengths(script)
    read: dict[tuple[int, int], list[int]] = {}
    for event in script.events:
        if event[0] == FIRE:
            for at, token in enumerate(event[1]):  # type: ignore[arg-type]
                if token is not None:
                    read.setdefault((at, token[0]), []).append(token[1])
    count = instructions(with_slots(script, lambda token: token[0]))
    for (_, channel), tokens in read.items():
        count += instructions([((after - before) % lengths[channel],) for before, after in zip(tokens, tokens[1:] + tokens[:1])])
    return count


def rows_of(program: str, rtl: str, policy: str, kernel: Example, items: str) -> tuple[list[object], bool]:
    """The row of a kernel at a size, and whether the script folds here as in the program."""
    planned = ["--policy", policy, *items.split()]
    network = read_net(harness.written(program, ["net", *planned], kernel.source))
    nodes = read_nodes(network, harness.written(program, ["vhdl", *planned], kernel.source))
    counts = instructions_of(harness.written(rtl, planned, kernel.source))
    folded = [instructions(events_of(it)) for it in nodes]
    scripts = [script_of(it) for it in nodes]
    rings = [in_rings(it) for it in scripts]
    slots = sum(it.slots for it in scripts)
    cells: list[object] = [f"`{kernel.name}`", items, network.events, slots, sum(counts), max(counts)]
    cells += [sum(slots for slots, _ in rings), sum(count for _, count in rings), sum(map(counted, scripts))]
    return cells, folded == counts


def kernels(names: Sequence[str]) -> Iterator[tuple[Example, str]]:
    for name in names or SIZES:
        if name not in SIZES:
            harness.stop(f"no sizes of {name} are known")
        yield Example(next(it for it in (EXAMPLES / f"{name}.loop", KERNELS / f"{name}.loop") if it.is_file())), name


def main() -> int:
    harness.end_quietly()
    parser = parser_of(__doc__)
    parser.add_argument("--rtl", metavar="PROGRAM", help=harness.RTL_HELP)
    parser.add_argument("--policy", choices=POLICIES, default="down", help="the schedule that the capacities are for (down)")
    parser.add_argument("--quick", action="store_true", help="at small sizes alone")
    parser.add_argument("names", metavar="KERNEL", nargs="*")
    given = parser.parse_args()
    program, rtl = program_of(given.compaan), rtl_program_of(given.rtl)
    print(head(HEAD), flush=True)
    other = count = 0
    for kernel, name in kernels(given.names):
        small, large = SIZES[name]
        for items in small if given.quick else small + large:
            count += 1
            try:
                cells, is_same = rows_of(program, rtl, given.policy, kernel, items)
            except Unfit as error:
                cells, is_same = [f"`{name}`", items, str(error)], False
            other += not is_same
            print(row(cells) + ("" if is_same else "  (folds otherwise here)"), flush=True)
    print(f"\n{count} networks by `{given.policy}`: {other} whose scripts fold otherwise here than in the program")
    return 1 if other or not count else 0


if __name__ == "__main__":
    sys.exit(main())
