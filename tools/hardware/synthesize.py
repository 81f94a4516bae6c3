#!/usr/bin/env python3
"""Shows that the networks of the examples can be synthesized in both texts: the nodes of `compaan vhdl` with channels and wiring, and the
design of `compaan rtl`.

usage: tools/hardware/synthesize.py [--compaan PROGRAM] [--rtl PROGRAM] [--ghdl PROGRAM] [--yosys PROGRAM] [--policy seq|down]
                                    [--ports one|all] [--text vhdl|rtl] [--seconds NUMBER] [--counts] [--parts] [EXAMPLE]..

GHDL synthesizes each network, and what comes of it is simulated in the network's place: it must give the same arrays in as many clocks,
those of `compaan sim`, or of a design with `--ports all` those that `compaan rtl --ports all --clocks` tells; of a design so also two
frames with stalls at all ports. Where there is yosys, it reads what GHDL made, checks it and counts what is in it; --parts tells so of
each process. With --counts nothing is simulated. A tool that takes more than NUMBER seconds (600) is ended, and nothing is told of that
text. An EXAMPLE is as for tools/hardware/simulate.py. Prints a table, and ends with 0 where all is well, 1 where something isn't, and 2
where it can't begin, as without GHDL.
"""
from __future__ import annotations

import sys
from collections.abc import Callable, Iterator, Sequence
from pathlib import Path
from typing import NamedTuple

sys.path.insert(0, str(Path(__file__).resolve().parents[1]))
from common import POLICIES, Example, examples, head, program_of, row, rtl_program_of
from hardware import harness, netlists
from hardware.frames import Run, files_of, frames_of
from hardware.harness import Outcome
from hardware.netlists import Counts
from hardware.simulate import compare_clocks
from hardware.wiring import Process, TooLong, Unfit, read_net

TEXTS = ("vhdl", "rtl")
NOT_ENDED, NOT_SIMULATED = "not ended", "not simulated"
COUNTS = ["Cells", "Multipliers", "Bits of flip-flops", "Of memories", "Latches"]
HEAD = ["Example", "Parameters", "Text", "Steps", "Clocks", "Netlist", *COUNTS]
PARTS = ("Steps", "Cells", "Bits of memories", "Multipliers")
PARTS_HEAD = ["Process", *(title for what in PARTS for title in (f"{what}, `vhdl`", "`rtl`"))]


class Text(NamedTuple):
    """A network in one of the texts: its files with each test bench, the steps of each process: events, or instructions, and the clocks of
    the first run, where there is one."""

    runs: Sequence[dict[str, str]]
    steps: Sequence[int]
    clocks: int = 0


class Made(NamedTuple):
    """What was synthesized: how its simulation came out, the steps, and where yosys counted what it found of each process, of all else,
    and whether the latches are to be judged."""

    outcome: Outcome
    steps: Sequence[int]
    counts: Sequence[Counts] = ()
    others: Counts | None = None
    judges_latches: bool = True

    @property
    def latches(self) -> object:
        if self.others is None:
            return "-"
        count = sum(it.latches for it in (*self.counts, self.others))
        return "not judged" if count and not self.judges_latches else count

    @property
    def is_well(self) -> bool:
        return self.outcome.verdict in ("equal", NOT_ENDED, NOT_SIMULATED) and self.latches in ("-", "not judged", 0)


class Tools(NamedTuple):
    """The programs, the seconds that one of them may take, whether what is synthesized is simulated too, and how processes of a design
    go."""

    program: str
    rtl: str
    ghdl: str
    yosys: str | None
    seconds: float
    simulates: bool
    ports: str


def processes_of(tools: Tools, policy: str, example: Example) -> list[Process]:
    return read_net(harness.text_of(tools.program, "net", policy, example)).processes


def old_text(tools: Tools, policy: str, example: Example, answer: str) -> Text:
    design = harness.design_of(tools.program, policy, example, answer)
    return Text([design.files], [node.events for node in design.nodes], harness.clocks_of(tools.program, policy, example))


def new_text(tools: Tools, policy: str, example: Example, _: str) -> Text:
    frames = frames_of(tools.program, tools.rtl, policy, example, 2, tools.ports)
    runs = [files_of(frames, run) for run in (Run(1, False), Run(2, True))]
    return Text(runs, netlists.instructions_of(frames.design), frames.told)


def text_alone(tools: Tools, text: str, policy: str, example: Example) -> Text:
    """A network in a text without any test bench, for which no data is wanted."""
    if text == "vhdl":
        _, nodes, files = harness.wired(tools.program, policy, example)
        return Text([files], [node.events for node in nodes])
    design = harness.written(tools.rtl, harness.planned_words(policy, tools.ports, example), example.source)
    return Text([{"design.vhd": design}], netlists.instructions_of(design))


WRITTEN: dict[str, Callable[[Tools, str, Example, str], Text]] = {"vhdl": old_text, "rtl": new_text}


def made_of(tools: Tools, text: str, policy: str, example: Example, answer: str) -> Made:
    """What comes of a network in a text."""
    steps: Sequence[int] = ()
    try:
        simulates = tools.simulates
        written = WRITTEN[text](tools, policy, example, answer) if simulates else text_alone(tools, text, policy, example)
        steps = written.steps
        outcome = Outcome(NOT_SIMULATED, None, [])
        if simulates:
            outcome = netlists.resimulated(tools.ghdl, written.runs, tools.seconds)
            outcome = compare_clocks(outcome, written.clocks)
        if tools.yosys is None or outcome.verdict not in ("equal", NOT_SIMULATED):
            return Made(outcome, steps)
        counts, judges = netlists.counted(tools.ghdl, tools.yosys, written.runs[0], tools.seconds)
    except TooLong as error:
        return Made(Outcome(NOT_ENDED, None, [str(error)]), steps)
    except Unfit as error:
        return Made(Outcome(str(error), None, []), steps)
    mine, others = netlists.by_process(counts, len(steps))
    return Made(outcome, steps, mine, others, judges)


def whole_row(example: Example, text: str, made: Made) -> list[object]:
    """The row of a network in a text."""
    clocks = "-" if made.outcome.clocks is None else made.outcome.clocks
    counts: list[object] = ["-"] * 4
    if made.others is not None:
        all_of_it = netlists.total([*made.counts, made.others])
        counts = [all_of_it.cells, all_of_it.multipliers, all_of_it.flip_flops, all_of_it.memories]
    steps = sum(made.steps) or "-"
    return [f"`{example.name}`", " ".join(example.items), f"`{text}`", steps, clocks, made.outcome.verdict, *counts, made.latches]


def part_rows(processes: Sequence[Process], made: Sequence[Made | None]) -> Iterator[list[object]]:
    """A row for each process, one for the channels with the wiring, and one for all, with what each text has of it."""

    def cells(steps: list[object], counts: list[Counts | None]) -> list[object]:
        ways: list[Callable[[Counts], int]] = [lambda it: it.cells, lambda it: it.memories, lambda it: it.multipliers]
        return [*steps, *("-" if it is None else way(it) for way in ways for it in counts)]

    def count_of(it: Made | None, at: int) -> Counts | None:
        return None if it is None or it.others is None else it.counts[at]

    for at, process in enumerate(processes):
        steps: list[object] = ["-" if it is None or not it.steps else it.steps[at] for it in made]
        yield [f"{at}, {process.kind} `{process.array}`", *cells(steps, [count_of(it, at) for it in made])]
    yield ["channels and wiring", *cells([""] * len(made), [None if it is None else it.others for it in made])]
    sums = [None if it is None or it.others is None else netlists.total([*it.counts, it.others]) for it in made]
    yield ["all", *cells(["-" if it is None or not it.steps else sum(it.steps) for it in made], sums)]


def tools_parser(text: str | None) -> harness.argparse.ArgumentParser:
    """A parser of the words of a command that synthesizes."""
    parser = harness.design_parser(text)
    parser.add_argument("--yosys", metavar="PROGRAM", default="yosys", help="what counts (yosys, where there is one)")
    parser.add_argument("--policy", choices=POLICIES, default="seq", help="the schedule that the capacities are for (seq)")
    harness.ports_word(parser)
    parser.add_argument("--text", choices=TEXTS, help="the text that is synthesized (both)")
    parser.add_argument("--seconds", metavar="NUMBER", type=float, default=600, help="how long a tool may take (600)")
    parser.add_argument("--counts", action="store_true", help="nothing is simulated")
    return parser


def tools_of(words: harness.argparse.Namespace) -> tuple[Tools, str]:
    """The programs that the words name, and the versions of GHDL and yosys."""
    ghdl, version = harness.find_ghdl(words.ghdl)
    yosys = netlists.find_yosys(words.yosys)
    if yosys:
        version += f", and {netlists.version_of(yosys)}"
    else:
        print(f"There is no yosys here (no program {words.yosys}), so nothing is counted.\n")
    return Tools(program_of(words.compaan), rtl_program_of(words.rtl), ghdl, yosys, words.seconds, not words.counts, words.ports), version


def main() -> int:
    harness.end_quietly()
    parser = tools_parser(__doc__)
    parser.add_argument("--parts", action="store_true", help="a table of the processes of each example")
    parser.add_argument("names", metavar="EXAMPLE", nargs="*")
    given = parser.parse_args()
    tools, version = tools_of(given)
    texts = [given.text] if given.text else TEXTS

    if not given.parts:
        print(head(HEAD), flush=True)
    wrong = networks = 0
    for example in examples(given.names):
        made = {text: made_of(tools, text, given.policy, example, example.answer.decode("latin-1")) for text in texts}
        for text, it in made.items():
            networks += 1
            wrong += not it.is_well
            if not given.parts:
                print(row(whole_row(example, text, it)), flush=True)
        if given.parts:
            print(f"`{example.name}` {' '.join(example.items)}: {', '.join(f'{text} {it.outcome.verdict}' for text, it in made.items())}\n")
            print(head(PARTS_HEAD))
            for cells in part_rows(processes_of(tools, given.policy, example), [made.get(text) for text in TEXTS]):
                print(row(cells))
            print(flush=True)
    print(f"\n{networks} networks, under --std={netlists.STANDARD}, by {version}: {wrong} not as wanted")
    return 1 if wrong or not networks else 0


if __name__ == "__main__":
    sys.exit(main())
