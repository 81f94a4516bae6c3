"""Netlists: what GHDL synthesizes of a network, simulated in the network's place, and what yosys counts in it, entity by entity."""
from __future__ import annotations

import json
import os
import re
import shutil
import subprocess
from collections import Counter
from collections.abc import Iterable, Mapping, Sequence
from typing import NamedTuple

from hardware import harness
from hardware.harness import Outcome
from hardware.wiring import TooLong, Unfit, read_file, write_file

STANDARD = "08"
READ = "read_verilog netlist.v; hierarchy -check -top network; proc; opt_clean; check -assert"
COUNT = "tee -q -o counts.json stat -json -width -top network"
# An entity of a process: the node itself, and in a design its sequencers.
OF_PROCESS = re.compile(r"(?:node|control|fire)_(\d+)|(?:loop|get|put)_(\d+)_\d+")


class Counts(NamedTuple):
    """What an entity is made of: cells but for other entities, multipliers among them, and bits of flip-flops and of memories."""

    cells: int
    multipliers: int
    flip_flops: int
    memories: int
    latches: int

    def __add__(self, other: Counts) -> Counts:  # type: ignore[override]
        return Counts(*(mine + its for mine, its in zip(self, other)))


NOTHING = Counts(0, 0, 0, 0, 0)


def find_yosys(named: str) -> str | None:
    """yosys, where there is one."""
    found = shutil.which(named)
    return os.path.abspath(found) if found else None


def version_of(yosys: str) -> str:
    return subprocess.run([yosys, "-V"], stdout=subprocess.PIPE, text=True, check=True).stdout.strip()


def netlist_of(ghdl: str, files: Mapping[str, str], language: str, seconds: float | None = None) -> str:
    """What GHDL synthesizes of the network."""
    with harness.new_folder() as folder:
        sources = [name for name in harness.sources_of(files) if name != "bench.vhd"]
        for name in sources:
            write_file(folder, name, files[name])
        options = [f"--std={STANDARD}", f"--workdir={folder}"]
        well, lines = harness.call([ghdl, "-a", *options, *sources], folder)
        if not well or lines:
            raise Unfit("not analysed: " + "; ".join(lines))
        words = [ghdl, "--synth", *options, f"--out={language}", "network"]
        try:
            done = subprocess.run(
                words, cwd=folder, stdin=subprocess.DEVNULL, capture_output=True, text=True, check=False, timeout=seconds
            )
        except subprocess.TimeoutExpired:
            raise TooLong(f"{os.path.basename(ghdl)} --synth took more than {seconds:g} s") from None
    if done.returncode != 0:
        raise Unfit("not synthesized: " + "; ".join(line for line in done.stderr.splitlines() if "error" in line))
    return done.stdout


def netlist_text(ghdl: str, files: Mapping[str, str], seconds: float | None = None) -> str:
    """The netlist as VHDL that can be simulated."""
    netlist = netlist_of(ghdl, files, "vhdl", seconds)
    # GHDL 2 puts a word before a port's name, and where that stands between backslashes before the first of them
    netlist = re.sub(r"\b((?:typ)?wrap_)\\([^\\\n]*)\\", r"\\\1\2\\", netlist)
    # A netlist computes at all times, also where the node doesn't look at what comes of it. There an array may be read behind its end,
    # where hardware shows anything and GHDL would break off, and slots without a value may be compared.
    place = r"<= (\w+)\(to_integer \(unsigned \((\w+)\)\)\);"
    return re.sub(place, r"<= \1(to_integer (unsigned (\2)) mod \1'length);", netlist)


def resimulated(ghdl: str, runs: Sequence[Mapping[str, str]], seconds: float | None = None) -> Outcome:
    """The outcome of what GHDL synthesizes of a network, under the test bench of each run, where it is that of the network itself. The
    clocks are those of the first run."""
    netlist = netlist_text(ghdl, runs[0], seconds)
    found = []
    for files in runs:
        benches = {name: text for name, text in files.items() if name == "bench.vhd" or name not in harness.sources_of(files)}
        wanted = harness.simulate(ghdl, files, STANDARD)
        outcome = harness.simulate(ghdl, {"netlist.vhd": netlist, **benches}, STANDARD, ["--ieee-asserts=disable"])
        if outcome.verdict == "equal" and outcome != wanted:
            return outcome._replace(verdict="other clocks")
        if outcome.verdict != "equal":
            return outcome
        found.append(outcome)
    return found[0]


def verilog_of(ghdl: str, files: Mapping[str, str], seconds: float | None = None) -> str:
    """The netlist as Verilog that yosys reads."""
    netlist = netlist_of(ghdl, files, "verilog", seconds)
    # a name between backslashes as in VHDL, which in Verilog ends with a space
    netlist = re.sub(r"\\(\w+)\\", r"\\\1 ", netlist)
    # the constant operand of a product: GHDL 2 writes it as a string, and GHDL takes a bit of it, which Verilog doesn't know
    netlist = re.sub(r'"([01]+)"', lambda part: f"{len(part[1])}'b{part[1]}", netlist)
    return re.sub(r"\d+'b([01]+)\[(\d+)\]", lambda part: "1'b" + part[1][-1 - int(part[2])], netlist)


# The values of a memory that stand in it from the start, from the last place to the first.
VALUES = re.compile(r"(?m)^  initial begin\n    (\w+)\[(\d+)\] = \d+'b[01]+;\n(?:    \1\[\d+\] = \d+'b[01]+;\n)*    end$")


def verilog_files(ghdl: str, files: Mapping[str, str], seconds: float | None = None) -> dict[str, str]:
    """The netlist as Verilog that yosys reads, in netlist.v, with the values of its memories in files of their own. yosys takes a time for
    values that stand in the text which grows with the square of their number: for those of a product of 32 by 32 many minutes."""
    tables: dict[str, str] = {}

    def apart(found: re.Match[str]) -> str:
        values = re.findall(r"(?m)\[(\d+)\] = \d+'b([01]+);$", found[0])
        if [int(place) for place, _ in values] != list(range(int(found[2]), -1, -1)):
            raise Unfit(f"the netlist gives the memory {found[1]} other places than it has")
        name = f"table_{len(tables)}.txt"
        tables[name] = "".join(f"{value}\n" for _, value in reversed(values))
        return f'  initial $readmemb("{name}", {found[1]});'

    return {"netlist.v": VALUES.sub(apart, verilog_of(ghdl, files, seconds)), **tables}


def values_in(files: Mapping[str, str]) -> Counter[str]:
    """How many values stand in the memories of each module of netlist.v from the start."""
    found: Counter[str] = Counter()
    module = ""
    for name, table in re.findall(r'(?m)^module (\S+)|^  initial \$readmemb\("(\w+\.txt)"', files["netlist.v"]):
        module = name.lstrip("\\") or module
        found[module] += files[table].count("\n") if table else 0
    return found


def counts_of(part: Mapping[str, object], values: int) -> tuple[Counts, Counter[str]]:
    """What yosys tells of a module in which so many values stand in memories from the start, each of which is a cell; and the modules in
    it."""
    cells, multipliers, flip_flops, latches = values, 0, 0, 0
    inside: Counter[str] = Counter()
    for cell, number in part["num_cells_by_type"].items():  # type: ignore[attr-defined]
        if not cell.startswith("$"):
            inside[cell.lstrip("\\")] += number
            continue
        kind, _, width = cell.lstrip("$").rpartition("_")
        if kind.startswith("meminit"):
            continue
        cells += number
        if kind == "mul":
            multipliers += number
        elif "dff" in kind:
            flip_flops += number * int(width)
        elif "latch" in kind:
            latches += number
    return Counts(cells, multipliers, flip_flops, int(part["num_memory_bits"]), latches), inside  # type: ignore[call-overload]


def counted(ghdl: str, yosys: str, files: Mapping[str, str], seconds: float | None = None) -> tuple[dict[str, Counts], bool]:
    """What yosys counts in each entity of the network, all of its copies together; and whether its latches are to be judged."""
    netlist = verilog_files(ghdl, files, seconds)
    with harness.new_folder() as folder:
        for name, text in netlist.items():
            write_file(folder, name, text)
        well, lines = harness.call([yosys, "-q", "-p", f"{READ}; {COUNT}"], folder, seconds)
        if not well:
            raise Unfit("not read by yosys: " + "; ".join(lines))
        text = read_file(os.path.join(folder, "counts.json"))
    # yosys 0.23 lists what is in the network in words behind the modules
    modules = json.loads(text[text.index("{") : text.index("\n   }")] + "}}")["modules"]
    values = values_in(netlist)
    named = {name.lstrip("\\"): part for name, part in modules.items()}
    found = {name: counts_of(part, values[name]) for name, part in named.items()}
    # GHDL 2 leaves out the last branch of a `case` in Verilog, and a latch that isn't in the network is read for it
    return {name: counts for name, counts in copies(found, "network")}, "default" in netlist["netlist.v"]


def copies(modules: Mapping[str, tuple[Counts, Counter[str]]], top: str) -> list[tuple[str, Counts]]:
    """The modules that a module is made of, itself first, each as often as it stands there, and each name once."""
    numbers: Counter[str] = Counter({top: 1})
    order = [top]
    for name in order:
        for inner, number in modules[name][1].items():
            if inner not in numbers:
                order.append(inner)
            numbers[inner] += numbers[name] * number
    return [(name, Counts(*(numbers[name] * it for it in modules[name][0]))) for name in order]


def process_of(entity: str) -> int | None:
    """The process of an entity, or None of a channel and of the network."""
    told = OF_PROCESS.fullmatch(entity)
    return int(told[1] or told[2]) if told else None


def by_process(counts: Mapping[str, Counts], processes: int) -> tuple[list[Counts], Counts]:
    """What each process's entities are made of together, and all others."""
    mine = [total(it for name, it in counts.items() if process_of(name) == number) for number in range(processes)]
    return mine, total(it for name, it in counts.items() if process_of(name) is None)


def total(counts: Iterable[Counts]) -> Counts:
    answer = NOTHING
    for it in counts:
        answer = answer + it
    return answer


# ------------------------------------------------------------------------------------------------------ of the texts alone


def instructions_of(design: str) -> list[int]:
    """The instructions of each process's control in the text of a design, or of its fires and its ports together."""
    name = r"(control|fire|get|put)_(\d+)(?:_\d+)?"
    told = re.findall(rf"(?m)^architecture rtl of {name} is\n(?:.*\n)*?  signal pc : integer range 0 to (\d+) := 0;$", design)
    counts: list[int] = []
    for kind, number, count in told:
        if kind in ("control", "fire"):
            counts.append(0)
        if int(number) != len(counts) - 1:
            raise Unfit("the design doesn't have a control for each process in order")
        counts[-1] += int(count)
    return counts


# A table of numbers or words: its name, its kind, its last place and its entries.
TABLE = re.compile(r"(?m)^  constant (\w+) : (codes|words)\(0 to (\d+)\) := \((.*)\);$")


def width_of(values: Iterable[int]) -> int:
    """How many bits the values need, in two's complement where one is below 0."""
    known = set(values)
    if len(known) < 2:
        return 0
    is_signed = min(known) < 0
    return max((it if it >= 0 else -it - 1).bit_length() + is_signed for it in known)


def table_bits(text: str) -> int:
    """The bits of the constant tables of a text, each once, with as many for an entry as its values need: none where all are the same."""
    bits = 0
    for _, kind, last, entries in (it.groups() for it in TABLE.finditer(text)):
        values = [part.partition(" => ")[2] for part in entries.split(", ")]
        numbers = [int(it) if kind == "codes" else int(it[2:-1], 16) for it in values]
        if len(numbers) != int(last) + 1:
            raise Unfit("a table has other entries than it says")
        bits += len(numbers) * width_of(numbers)
    return bits


def single_tables(text: str) -> int:
    """How many tables of three or more values have a first value alone that isn't 0, of which GHDL 2.0.0 makes zeros."""
    count = 0
    for _, _, last, entries in (it.groups() for it in TABLE.finditer(text)):
        values = [part.partition(" => ")[2] for part in entries.split(", ")]
        is_zero = [re.fullmatch(r'0|x"0+"', it) is not None for it in values]
        count += int(last) >= 2 and not is_zero[0] and all(is_zero[1:])
    return count
