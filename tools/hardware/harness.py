"""What the commands of this folder share: the texts that the program writes of the examples, and runs of GHDL."""
from __future__ import annotations

import argparse
import os
import re
import shutil
import signal
import subprocess
import sys
import tempfile
from collections.abc import Mapping, Sequence
from dataclasses import dataclass
from pathlib import Path
from typing import NamedTuple

from common import PORTS, TOP, Example, parser_of, run, stop
from hardware.wiring import Network, Node, TooLong, Unfit, bench_text, read_arrays, read_file, read_texts, wiring_text, write_file

CHANNEL = TOP / "hardware" / "channel.vhd"
STANDARDS = ("93", "02", "08")
RTL_HELP = "the program that writes designs (the variable COMPAAN_RTL, or else the built one)"


class Design(NamedTuple):
    """A network with its nodes, and the VHDL files by name, in the order in which they are analysed."""

    network: Network
    nodes: list[Node]
    files: dict[str, str]


@dataclass(frozen=True)
class Kernel(Example):
    """A source with values of its parameters, and with data of its own or that beside it."""

    values: tuple[str, ...] = ()
    given: Path | None = None

    @property
    def data(self) -> bytes:
        return self.given.read_bytes() if self.given else super().data

    @property
    def items(self) -> list[str]:
        return list(self.values)


class Outcome(NamedTuple):
    """The verdict of a test bench with its clocks, or what went wrong, and the lines that were told besides."""

    verdict: str
    clocks: int | None
    lines: list[str]


def end_quietly() -> None:
    """A command that is told to end leaves no files behind."""
    for number in (signal.SIGINT, signal.SIGTERM, signal.SIGHUP):
        signal.signal(number, lambda number, _: sys.exit(128 + number))


# -------------------------------------------------------------------------------------------------------- the programs


def hardware_parser(text: str | None) -> argparse.ArgumentParser:
    """A parser of the words of a command that runs the program and GHDL."""
    parser = parser_of(text)
    parser.add_argument(
        "--ghdl", metavar="PROGRAM", default=os.environ.get("GHDL") or "ghdl", help="the simulator (the variable GHDL, or else ghdl)"
    )
    return parser


def design_parser(text: str | None) -> argparse.ArgumentParser:
    """The same for a command that runs the program that writes designs too."""
    parser = hardware_parser(text)
    parser.add_argument("--rtl", metavar="PROGRAM", help=RTL_HELP)
    return parser


def ports_word(parser: argparse.ArgumentParser) -> None:
    """The word of a command that says how the processes of a design go."""
    parser.add_argument("--ports", choices=PORTS, default="one", help="one control for all ports of a process, or one for each (one)")


def planned_words(policy: str, ports: str, kernel: Example) -> list[str]:
    """The words of the program that writes designs, for a kernel."""
    return ["--policy", policy, *([] if ports == "one" else ["--ports", ports]), *kernel.items]


def kernel_words(parser: argparse.ArgumentParser) -> None:
    """The words of a command that takes a source of one's own."""
    parser.add_argument("--data", metavar="FILE", type=Path, help="the arrays that the source reads")
    parser.add_argument("file", metavar="FILE", type=Path)
    parser.add_argument("values", metavar="NAME=VALUE", nargs="*")


def kernel_of(words: argparse.Namespace) -> Kernel:
    """The source that the words of a command name."""
    for file in filter(None, (words.file, words.data)):
        if not file.is_file():
            stop(f"there is no {file}")
    return Kernel(words.file, tuple(words.values), words.data)


def answer_of(program: str, kernel: Example) -> str:
    """The arrays of a source, as `compaan seq` computes them."""
    return written(program, ["seq", *kernel.items], kernel.bundle)


def find_ghdl(named: str) -> tuple[str, str]:
    """GHDL and its version. Without it a command can't begin."""
    found = shutil.which(named)
    if not found:
        stop(f"there is no GHDL here (no program {named}), so nothing was simulated")
    found = os.path.abspath(found)
    lines = subprocess.run([found, "--version"], stdout=subprocess.PIPE, text=True, check=True).stdout.splitlines()
    return found, f"{lines[0]}, {lines[2].strip()}"


def call(words: Sequence[str], folder: str, seconds: float | None = None) -> tuple[bool, list[str]]:
    """Whether a program ended well, and the lines that it wrote. It may take so many seconds."""
    try:
        done = subprocess.run(
            words,
            cwd=folder,
            stdin=subprocess.DEVNULL,
            stdout=subprocess.PIPE,
            stderr=subprocess.STDOUT,
            text=True,
            check=False,
            timeout=seconds,
        )
    except subprocess.TimeoutExpired:
        raise TooLong(f"{Path(words[0]).name} took more than {seconds:g} s") from None
    return done.returncode == 0, done.stdout.splitlines()


# -------------------------------------------------------------------------------------------------------- the networks


def written(program: str, words: Sequence[str], bundle: bytes) -> str:
    """What a program writes of a bundle."""
    answer = run(program, words, bundle)
    if answer.status:
        complaint = answer.complaint.decode("latin-1").strip()
        raise Unfit(f"`{Path(program).name} {' '.join(words)}` ended with status {answer.status}: {complaint}")
    return answer.output.decode("latin-1")


def text_of(program: str, command: str, policy: str, example: Example) -> str:
    """What the program writes of an example."""
    return written(program, [command, "--policy", policy, *example.items], example.bundle)


def clocks_of(program: str, policy: str, example: Example) -> int:
    """The clocks that the program counts of an example's network: the last line of `compaan sim`."""
    return clocks_told(text_of(program, "sim", policy, example), "compaan sim")


def clocks_told(text: str, command: str) -> int:
    """The clocks that the last line of what a command wrote tells."""
    last = (text.splitlines() or [""])[-1]
    told = re.fullmatch(r"clocks (\d+)", last)
    if not told:
        raise Unfit(f"`{command}` ended with the line `{last}`, which tells no clocks")
    return int(told[1])


def wired(program: str, policy: str, example: Example) -> Design:
    """The network of an example with its nodes, channels and wiring."""
    vhdl = text_of(program, "vhdl", policy, example)
    network, nodes = read_texts(text_of(program, "net", policy, example), vhdl)
    files = {"nodes.vhd": vhdl} if nodes else {}  # a text of comments alone is no VHDL file
    files["channel.vhd"] = read_file(CHANNEL)
    files["network.vhd"] = wiring_text(network, nodes)
    return Design(network, nodes, files)


def design_of(program: str, policy: str, example: Example, answer: str | None = None) -> Design:
    """The same with a test bench, which wants the example's answer or another."""
    network, nodes, files = wired(program, policy, example)
    wanted = example.answer.decode("latin-1") if answer is None else answer
    files["bench.vhd"] = bench_text(network, nodes, read_arrays(example.data.decode("latin-1")), read_arrays(wanted))
    return Design(network, nodes, files)


# ------------------------------------------------------------------------------------------------------ the simulation


def new_folder() -> tempfile.TemporaryDirectory[str]:
    return tempfile.TemporaryDirectory(prefix="compaan-hardware-")


def sources_of(files: Mapping[str, str]) -> list[str]:
    """The names of those files that are VHDL, in their order."""
    return [name for name in files if name.endswith(".vhd")]


def simulate(ghdl: str, files: Mapping[str, str], standard: str, options: Sequence[str] = ()) -> Outcome:
    """Analyses the files, elaborates the test bench and runs it. None of it may tell a warning."""
    with new_folder() as folder:
        for name, text in files.items():
            write_file(folder, name, text)
        common = [f"--std={standard}", f"--workdir={folder}"]
        well, lines = call([ghdl, "-a", *common, *sources_of(files)], folder)
        if not well:
            return Outcome("not analysed", None, lines)
        well, more = call([ghdl, "-e", *common, "bench"], folder)
        lines += more
        if not well:
            return Outcome("not elaborated", None, lines)
        if lines:
            return Outcome("warnings", None, lines)
        well, lines = call([ghdl, "-r", *common, "bench", *options], folder)
    return judged(well, lines)


def judged(well: bool, lines: list[str]) -> Outcome:
    """The outcome of a test bench that ended well, or didn't, with the lines that it told."""
    last = re.fullmatch(r"(equal|different|stuck) clocks (\d+)", lines[-1]) if lines else None
    if not well or not last:
        return Outcome("broken off", None, lines)
    if last[1] == "equal" and len(lines) > 1:
        return Outcome("warnings", None, lines)
    return Outcome(last[1], int(last[2]), lines[:-1])
