#!/usr/bin/env python3
"""Shows that the simulations can fail, those of tools/hardware/simulate.py and of hardware/frames, and that of a netlist: it plants faults,
one at a time, and wants each to be told.

usage: tools/hardware/faults.py [--compaan PROGRAM] [--rtl PROGRAM] [--ghdl PROGRAM] [--text vhdl|rtl]

The faults are planted in the answers that are wanted, in the capacities of channels, in the channel and in the nodes, and in whole
designs, also in those whose ports go each at its own pace; with --text in those of `compaan vhdl` alone, or in designs alone. Prints a
table, and ends with 0 where each was told as it was to be, 1 where one wasn't, and 2 where it can't begin, as without GHDL.
"""
from __future__ import annotations

import sys
from collections.abc import Callable, Iterator
from itertools import chain
from pathlib import Path
from typing import NamedTuple

sys.path.insert(0, str(Path(__file__).resolve().parents[1]))
from common import PORTS, examples, head, program_of, row, rtl_program_of, stop
from hardware import harness, netlists
from hardware.frames import Frames, Run, files_of, frames_of, judged
from hardware.harness import Outcome
from hardware.wiring import Arrays, Unfit, wiring_text


class Planted(NamedTuple):
    """What is simulated with a fault: the fault, the example, the verdict that is wanted, and how it is simulated by GHDL."""

    fault: str
    example: str
    wanted: str
    outcome: Callable[[str], Outcome]


def simulated(files: dict[str, str]) -> Callable[[str], Outcome]:
    """The simulation of these files."""
    return lambda ghdl: harness.simulate(ghdl, files, STANDARD)


STANDARD = "93"


def greater_by_one(answer: str) -> str:
    front, _, last = answer.rstrip("\n").rpartition(",")
    return f"{front},{int(last) + 1}"


ANSWERS = [
    ("the last value that is wanted is greater by 1", greater_by_one),
    ("the last value that is wanted is left out", lambda answer: answer.rstrip("\n").rpartition(",")[0]),
    ("one more value is wanted", lambda answer: answer.rstrip("\n") + ",0"),
]

# with these capacities every channel that has room for more than one token needs all of it
TIGHT = "floyd_warshall", "down"

# the fault, the example, the file, the text that stands there once, what takes its place, and the verdict that is wanted
EDITS: list[tuple[str, str, str, str, str, str]] = [
    ("the channel is never full", "matrix_product", "channel.vhd", "'1' when length < capacity else '0'", "'1'", "broken off"),
    ("the channel has room for one token less", "prefix_sum", "channel.vhd", "length < capacity", "length < capacity - 1", "stuck"),
    ("the channel is never empty", "running_sum", "channel.vhd", "'1' when length > 0 else '0'", "'1'", "broken off"),
    ("the channel keeps back its last token", "running_sum", "channel.vhd", "length > 0", "length > 1", "stuck"),
    (
        "the channel shows its newest token",
        "image_pipeline",
        "channel.vhd",
        "ring(oldest)",
        "ring((free + capacity - 1) mod capacity)",
        "different",
    ),
    ("the channel repeats its oldest token", "transpose", "channel.vhd", "oldest <= following(oldest)", "oldest <= oldest", "different"),
    ("a reset leaves the tokens in the channel", "jacobi_2d", "channel.vhd", "        length <= 0;\n", "", "not equal"),
    ("a node takes the lesser for the product", "fir", "nodes.vhd", "mul(pick", "least(pick", "different"),
    ("a node doesn't give to a channel", "fir", "nodes.vhd", "c0_give <= '1'", "c0_give <= '0'", "stuck"),
    ("a node doesn't take from a channel", "fir", "nodes.vhd", "c2_take <= '1'", "c2_take <= '0'", "different"),
    (
        "a fire reads another slot",
        "transpose",
        "nodes.vhd",
        "r0 : codes(0 to 12) := (0 => 0, 1 => 0",
        "r0 : codes(0 to 12) := (0 => 0, 1 => 1",
        "different",
    ),
    ("a sink doesn't tell its results", "lu", "nodes.vhd", "gave <= '1'", "gave <= '0'", "different"),
    ("a source doesn't tell that it takes", "lu", "nodes.vhd", "given_take <= '1'", "given_take <= '0'", "different"),
    (
        "a source takes at each edge",
        "lu",
        "nodes.vhd",
        "given_take <= '1' when op(pc) = 2",
        "given_take <= '1' when op(pc) >= 0",
        "different",
    ),
]


def in_answers(program: str) -> Iterator[Planted]:
    """A fault in the answer that is wanted."""
    for example in examples():
        for fault, change in ANSWERS:
            files = harness.design_of(program, "seq", example, change(example.answer.decode("latin-1"))).files
            yield Planted(fault, example.name, "different", simulated(files))


def in_capacities(program: str) -> Iterator[Planted]:
    """Less room in a channel."""
    name, policy = TIGHT
    network, nodes, files = harness.design_of(program, policy, examples([name])[0])
    for channel in network.channels:
        if channel.capacity > 1:
            less = channel._replace(capacity=channel.capacity - 1)
            channels = [less if other == channel else other for other in network.channels]
            wiring = wiring_text(network._replace(channels=channels), nodes)
            fault = f"channel {channel.number} has a capacity of {less.capacity}, and {channel.capacity} is needed"
            yield Planted(fault, name, "stuck", simulated({**files, "network.vhd": wiring}))


def in_texts(program: str) -> Iterator[Planted]:
    """Another text of the channel or of the nodes."""
    for fault, name, file, old, new, wanted in EDITS:
        files = harness.design_of(program, "seq", examples([name])[0]).files
        if files[file].count(old) != 1:
            raise Unfit(f"`{old}` doesn't stand once in {file} of {name}")
        yield Planted(fault, name, wanted, simulated({**files, file: files[file].replace(old, new)}))


ONE, STALLS, THREE = Run(1, False), Run(3, True), Run(3, False)

ARCHITECTURE, PART = "architecture rtl of {} is", "  {} : entity work.{}"
FIRST = "first0 : codes(0 to 3) := (0 => 0, 1 => 0, 2 => 0"

# Of designs: the fault, the example, the policy, the run, the line behind which the text stands first, the text, what takes its place, and
# the verdict that is wanted.
DESIGN_EDITS: list[tuple[str, str, str, Run, str, str, str, str]] = [
    ("a repeat has a turn less", "fir", "seq", ONE, ARCHITECTURE.format("control_4"), "1 => 8", "1 => 7", "different"),
    ("a repeat begins at another place", "running_sum", "seq", ONE, ARCHITECTURE.format("control_1"), FIRST, FIRST[:-1] + "1", "not equal"),
    ("a repeat's counter isn't set back", "sobel", "seq", THREE, ARCHITECTURE.format("control_4"), "here) <= 0;", "here) <= 1;", "different"),
    ("a node doesn't begin anew", "running_sum", "seq", THREE, ARCHITECTURE.format("node_1"), "again => again", "again => '0'", "stuck"),
    ("a node gives where there is no room", "fir", "seq", ONE, ARCHITECTURE.format("node_2"), " and c0_ready = '1'", "", "not equal"),
    ("a node takes where there is nothing", "fir", "seq", ONE, ARCHITECTURE.format("node_4"), " and c4_valid = '1')", ")", "not equal"),
    ("a source doesn't wait", "fir", "seq", STALLS, ARCHITECTURE.format("node_0"), " and given_valid = '1'", "", "not equal"),
    (
        "a sink doesn't wait",
        "transpose",
        "seq",
        STALLS,
        ARCHITECTURE.format("node_2"),
        " and (gave = '0' or result_ready = '1')",
        "",
        "not equal",
    ),
    ("a fire reads another slot", "fir", "seq", ONE, ARCHITECTURE.format("node_3"), "7 => 6", "7 => 5", "different"),
    ("a node takes the lesser for the product", "fir", "seq", ONE, ARCHITECTURE.format("node_3"), "mul(pick", "least(pick", "different"),
    ("a loop gains another value", "running_sum", "seq", ONE, ARCHITECTURE.format("node_0"), "0001", "0002", "different"),
    ("a loop isn't led back to its first value", "running_sum", "seq", THREE, ARCHITECTURE.format("node_0"), "fffd", "fffc", "different"),
    ("a channel has less room", "floyd_warshall", "down", ONE, PART.format("channel_1", "channel"), "=> 25", "=> 24", "stuck"),
    ("a channel has more room", "wavelet", "down", ONE, PART.format("channel_1", "channel"), "=> 1", "=> 9", "not sim's clocks"),
    ("two ports are joined crosswise", "fir", "seq", ONE, PART.format("node_3", "node_3"), "=> front_2", "=> front_3", "different"),
    (
        "the channel shows its newest token",
        "image_pipeline",
        "down",
        STALLS,
        ARCHITECTURE.format("channel"),
        "ring(oldest)",
        "ring((free + capacity - 1) mod capacity)",
        "different",
    ),
]


RESET = "get0_waits <= '0';\n        get1_waits <= '{}';"
OP_PUT, DST_GET = "op_put1 : codes(0 to 6) := (0 => ", "dst_get3 : codes(0 to 9) := (0 => "
# The same of designs whose ports go each at its own pace.
PORT_EDITS: list[tuple[str, str, str, Run, str, str, str, str]] = [
    ("a Get port has an item less", "fir", "seq", ONE, ARCHITECTURE.format("get_4_4"), "0 => 8", "0 => 7", "stuck"),
    ("a Put port has an item less", "fir", "seq", ONE, ARCHITECTURE.format("put_2_0"), "0 => 8", "0 => 7", "stuck"),
    ("a process has a fire less", "fir", "seq", ONE, ARCHITECTURE.format("fire_2"), "0 => 8", "0 => 7", "stuck"),
    ("a port puts once more", "fir", "seq", ONE, ARCHITECTURE.format("node_3"), OP_PUT + "2", OP_PUT + "3", "stuck"),
    (
        "an operand is overwritten",
        "fir",
        "seq",
        ONE,
        ARCHITECTURE.format("node_3"),
        "get2_waits = '0' or",
        "c2_valid = '1' or",
        "not equal",
    ),
    (
        "a process doesn't wait for an operand",
        "fir",
        "seq",
        ONE,
        ARCHITECTURE.format("node_3"),
        "    and get1_waits = '1'\n",
        "",
        "not equal",
    ),
    ("a fire overwrites what is owed", "fir", "down", ONE, ARCHITECTURE.format("node_0"), "put3_clear = '1' and (put", "(put", "not equal"),
    (
        "a port takes where there is nothing",
        "fir",
        "seq",
        ONE,
        ARCHITECTURE.format("node_4"),
        " /= 4 and c4_valid = '1'",
        " /= 4",
        "not equal",
    ),
    ("a port gets into another slot", "fir", "seq", ONE, ARCHITECTURE.format("node_3"), DST_GET + "5", DST_GET + "6", "different"),
    ("a port doesn't begin behind a fire", "fir", "seq", ONE, ARCHITECTURE.format("node_3"), RESET.format(1), RESET.format(0), "not equal"),
    ("a port doesn't begin anew", "running_sum", "seq", THREE, ARCHITECTURE.format("node_1"), "again => again", "again => '0'", "stuck"),
    ("a source doesn't wait", "fir", "seq", STALLS, ARCHITECTURE.format("node_0"), " and given_valid", "", "not equal"),
    (
        "a sink doesn't wait",
        "transpose",
        "seq",
        STALLS,
        ARCHITECTURE.format("node_2"),
        " and (gave = '0' or result_ready = '1')",
        "",
        "not equal",
    ),
    (
        "a port waits for a clock",
        "fir",
        "down",
        ONE,
        ARCHITECTURE.format("node_3"),
        "_waits = '0' or fires = '1'",
        "_waits = '0'",
        "not the told clocks",
    ),
]


def in_a_run(frames: Frames, run: Run) -> Callable[[str], Outcome]:
    """A run of a design."""
    return lambda ghdl: judged(frames, run, harness.simulate(ghdl, files_of(frames, run), STANDARD))


def edited(design: str, behind: str, old: str, new: str) -> str:
    """The text with another one in the place of the first behind a line."""
    front, line, back = design.partition(behind + "\n")
    if not line or old not in back:
        raise Unfit(f"`{old}` doesn't stand behind `{behind}`")
    return front + line + back.replace(old, new, 1)


def in_designs(program: str, rtl: str, ports: str) -> Iterator[Planted]:
    """Another text of a whole design."""
    for fault, name, policy, run, behind, old, new, wanted in PORT_EDITS if ports == "all" else DESIGN_EDITS:
        frames = frames_of(program, rtl, policy, examples([name])[0], run.frames, ports)
        changed = frames._replace(design=edited(frames.design, behind, old, new))
        yield Planted(f"{fault}; {run}", name, wanted, in_a_run(changed, run))


def in_answers_of_frames(program: str, rtl: str) -> Iterator[Planted]:
    """A fault in the answer that is wanted of the last frame."""

    def with_more(arrays: Arrays, by: int) -> Arrays:
        return [*arrays[:-1], (arrays[-1][0], [*arrays[-1][1][:-1], arrays[-1][1][-1] + by])]

    for name in ("fir", "image_pipeline"):
        frames = frames_of(program, rtl, "down", examples([name])[0], 3)
        data, answer = frames.frames[-1]
        changed = frames._replace(frames=[*frames.frames[:-1], (data, with_more(answer, 1))])
        for run in (STALLS, THREE):
            yield Planted(f"the last value that is wanted is greater by 1; {run}", name, "different", simulated(files_of(changed, run)))


def in_netlists(program: str, rtl: str, version: str) -> Iterator[Planted]:
    """A table that GHDL 2.0.0 makes zeros of, since only its first value isn't 0. The simulation of what it synthesizes alone tells it."""
    frames = frames_of(program, rtl, "seq", examples(["fir"])[0], 1)
    changed = frames._replace(design=edited(frames.design, "architecture rtl of node_4 is", "1 => 0, 2 => 1", "1 => 0, 2 => 0"))
    files = files_of(changed, ONE)
    yield Planted("only the first of a table isn't 0; as it is written", "fir", "equal", simulated(files))
    wanted = "not equal" if version.startswith("GHDL 2.") else "equal"
    yield Planted("only the first of a table isn't 0; its netlist", "fir", wanted, lambda ghdl: netlists.resimulated(ghdl, [files]))


def main() -> int:
    harness.end_quietly()
    parser = harness.design_parser(__doc__)
    parser.add_argument("--text", choices=("vhdl", "rtl"), help="where faults are planted (both)")
    given = parser.parse_args()
    ghdl, version = harness.find_ghdl(given.ghdl)
    program = program_of(given.compaan)
    print(head(["Fault", "Example", "Wanted", "Told", "First line"]), flush=True)
    count = missed = 0
    try:
        plantings: list[Iterator[Planted]] = []
        if given.text != "rtl":
            plantings += [in_answers(program), in_capacities(program), in_texts(program)]
        if given.text != "vhdl":
            rtl = rtl_program_of(given.rtl)
            plantings += [in_designs(program, rtl, it) for it in PORTS]
            plantings += [in_answers_of_frames(program, rtl), in_netlists(program, rtl, version)]
        for it in chain.from_iterable(plantings):
            outcome = it.outcome(ghdl)
            is_told = outcome.verdict != "equal" if it.wanted == "not equal" else outcome.verdict == it.wanted
            count += 1
            missed += not is_told
            print(row([it.fault, it.example, it.wanted, outcome.verdict, *(outcome.lines[:1] or [""])]), flush=True)
    except Unfit as error:
        stop(error)
    print(f"\n{count} faults, under --std={STANDARD}, by {version}: {missed} not told as wanted")
    return 1 if missed or not count else 0


if __name__ == "__main__":
    sys.exit(main())
