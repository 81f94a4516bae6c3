#!/usr/bin/env python3
"""The built program at its limits: depth, size, certificates of tens of millions of lines, large data, refused starts of threads.

usage: tools/hostile/limits.py [--only SECTION] [--share K/N] [--quick] [--space GB] [--compaan PROGRAM]

Every run has a stack of 8 MB, 4 GB of address space and 300 seconds of processors. Times are those of processors. Each section prints a table:

  deep      sources at the limit of 8,192 tokens, nested as deep as they can be, by each command, with the least stack that serves
  trees     certificates whose trees and proofs nest 512 deep, and one deeper, by `check`, with the least stack that serves
  writers   sources with many guarded writers of one array, by `deps` and `cert`, with the least stack that serves; where the tree is large
            a run may also end with 10, or not in its time
  repeats   certificates whose repeats nest 512 deep, and one deeper, and that stand for more than they may, by `check`
  size      programs at the limit on the size, by each command
  lines     `check` of certificates of 64 MiB, each of one kind of line
  announce  certificates that announce much and bring little
  bundle    sources and data of 64 MiB
  threads   64, 63 and 62 processes where each start of a thread is refused in turn, with all later ones: by a shim before the C
            library, and by the system's own limit on tasks; the same of `load` and of `trace`; and on few processors

Behind its tables each section prints one of those of its runs that take 2 seconds of a processor, or 256 MB, and how many there were.
tools/docs/pages.py puts these into docs/SECURITY.md, of a file with the output of all sections.

A run that ends by a signal, that isn't done in its time, or that ends otherwise than is wanted is told behind the tables, and makes the
script fail. The system's limit on tasks is tried by root alone, as a user of its own. It is a test, outside the proof.
"""
from __future__ import annotations

import itertools
import os
import random
import re
import resource
import shutil
import signal
import sys
import tempfile
from collections import Counter
from collections.abc import Callable, Iterable, Iterator, Sequence
from pathlib import Path
from typing import NamedTuple, TypeVar

sys.path.insert(0, str(Path(__file__).resolve().parents[1]))
from common import bundled, examples, parser_of, program_of, table
from hostile import asking, meaning, texts
from hostile.asking import End

# What a run is wanted to come to: status, output and complaint.
Wanted = tuple[int, bytes, bytes]
# repeats of a certificate nest up to 512 deep
sys.setrecursionlimit(10_000)

BAD: list[str] = []
# The runs of a section: what each was given, its command, and how it ended; and the least stacks that were found.
RUNS: list[tuple[str, str, End]] = []
STACKS: list[tuple[int, str]] = []
# What takes long, or much.
LONG, MUCH = 2.0, 256 << 10
SECONDS = 300
BUNDLE = meaning.BUNDLE_LIMIT
KILO = 1 << 10
# The greatest memory that is wanted of `check`, in kilobytes.
MOST_OF_CHECK = 1 << 20
# With --quick no least stack is looked for.
QUICK: list[bool] = []
# Of what a section tries each Nth, from the Kth on.
SHARE = [1, 1]
Item = TypeVar("Item")


def shared(items: Iterable[Item]) -> Iterator[Item]:
    """Those of the share that this run is to try."""
    return itertools.islice(items, SHARE[0] - 1, None, SHARE[1])


def with_limits(space: int) -> None:
    resource.setrlimit(resource.RLIMIT_STACK, (8 << 20, resource.getrlimit(resource.RLIMIT_STACK)[1]))
    if space:
        asking.keep_below(space)


def ask(program: str, words: Sequence[str], bundle: bytes, stack: int = 0, limit: float = SECONDS) -> End:
    """A run, with a stack of so many kilobytes where that is said, and so many seconds of processors; of the clock it may take more, since
    something else may be at work."""
    shell = f"ulimit -S -t {limit:.0f}" + (f" && ulimit -S -s {stack}" if stack else "")
    end = asking.ask(program, words, bundle, 5 * limit, before=["sh", "-c", f'{shell} && exec "$@"', "sh"])
    return end._replace(hung=end.hung or end.status == -signal.SIGXCPU)


def told(end: End) -> str:
    """How a run ended, in a few words."""
    if end.hung:
        return "not done in its time"
    text = (end.complaint or end.output).decode(errors="replace").strip().partition("\n")[0]
    return f"{end.status}, `{text[:40]}`" if text else str(end.status)


def megabytes(end: End) -> str:
    return f"{end.kilobytes / KILO:.1f}"


def note(name: str, command: str, end: End) -> str:
    """Keeps how a run ended, and gives what it is called."""
    RUNS.append((name, command, end))
    return f"{name}, {command}"


def taken() -> None:
    """Prints which runs of a section take long, or much, and the greatest of the least stacks."""
    rows = []
    for name, command, end in RUNS:
        if end.cpu >= LONG or end.kilobytes >= MUCH or end.hung:
            ended = str(end.status) if end.status in (0, 10) and not end.hung else told(end)
            rows.append([name, f"`{command}`", ended, *(["", ""] if end.hung else [f"{end.cpu:.1f}", f"{end.kilobytes / KILO:.0f}"])])
    print()
    table(["Given", "Command", "Ends with", "s", "MB"], rows)
    print(f"\n{len(rows)} of {len(RUNS)} runs take {LONG:.0f} s or {MUCH >> 10} MB.")
    if STACKS:
        most, name = max(STACKS)
        print(f"The greatest least stack is {most} kB: {name}.")
    RUNS.clear()
    STACKS.clear()


def judge(name: str, command: str, end: End, wanted: Wanted | None = None, kilobytes: int | None = None) -> bool:
    """Whether a run is as wanted, which is told where it isn't."""
    name = note(name, command, end)
    is_well = (
        not end.hung and end.status >= 0 and (wanted is None or end.said == wanted) and (kilobytes is None or end.kilobytes <= kilobytes)
    )
    if not is_well:
        BAD.append(
            f"{name}: {told(end)}, {end.cpu:.1f} s, {megabytes(end)} MB, where {told(End(*wanted, 0, 0, 0, False)) if wanted else 'any answer'} is wanted"
            + (f", in {kilobytes / KILO:.0f} MB" if kilobytes else "")
        )
    return is_well


def any_text(command: str, end: End, net: bytes) -> Wanted:
    """Any text of its kind is wanted of a command, beside what `net` wrote of the same network: the one that came, if it is one."""
    fault = texts.fault_of(command, end.output, net)
    return 0, end.output if fault is None else f"a text of {command}, where this is none: {fault}".encode(), b""


# ---------------------------------------------------------------------------------------------------------------- deep


def nested(before: str, middle: str, after: str, count: int) -> str:
    return before * count + middle + after * count


def deep_sources() -> Iterator[tuple[str, str, str | tuple[int, str]]]:
    """A name, a source and what `run` writes, or the complaint with its status."""
    yield "8,190 (", "(" * 8190, (6, "text: Syntax 0")
    yield "8,192 {", "{" * 8192 + "\n", (6, "text: Syntax 8193")
    yield "a right side in 4,000 ()", "out a; a = " + nested("(", "1", ")", 4000) + ";", "a,1\n"
    yield "a right side behind 8,182 -", "out a; a = " + "-" * 8182 + "1;", "a,1\n"
    yield "a right side in 2,720 -( )", "out a; a = " + nested("-(", "1", ")", 2720) + ";", "a,1\n"
    yield "a sum of 4,000 terms", "out a; a = 1" + "+1" * 3999 + ";", "a,4000\n"
    yield "a sum in 2,000 () to the right", "out a; a = " + nested("1+(", "1", ")", 2000) + ";", "a,2001\n"
    yield "a product of 4,000 factors", "out a; a = 3" + "*1" * 3999 + ";", "a,3\n"
    yield "2,000 max round each other", "out a; a = " + nested("max(", "4", ")", 2000) + ";", "a,4\n"
    yield "1,600 max of two round each other", "out a; a = " + nested("max(", "4", ",5)", 1600) + ";", "a,5\n"
    yield "1,600 max of two, the second the deeper", "out a; a = " + nested("max(5,", "4", ")", 1600) + ";", "a,5\n"
    yield "a max of 4,000", "out a; a = max(1" + ",1" * 3999 + ");", "a,1\n"
    yield "a subscript behind 8,000 -", "out a[1]; a[" + "-" * 8000 + "0] = 7;", "a,7\n"
    yield "a subscript in 4,000 ()", "out a[1]; a[" + nested("(", "0", ")", 4000) + "] = 7;", "a,7\n"
    yield "a subscript of 4,000 terms", "out a[1]; a[0" + "+0" * 3999 + "] = 5;", "a,5\n"
    yield "a subscript in 2,000 () to the right", "out a[1]; a[" + nested("0+(", "0", ")", 2000) + "] = 5;", "a,5\n"
    yield "a subscript that doubles 4,000 times 0", "out a[1]; a[0" + "*2" * 3999 + "] = 5;", "a,5\n"
    yield "1,300 subscripts in each other", "var a[1]; a[" + nested("a[", "0", "]", 1300) + "] = 1;", (7, "class: NotAffine 12")
    yield "2,700 subscripts that aren't closed", "var a[1]; a[" + "a[" * 2700 + "\n", (6, "text: Syntax 5413")
    yield "an extent in 4,000 ()", "out a[" + nested("(", "2", ")", 4000) + "];", "a,0,0\n"
    yield "a bound in 3,900 ()", "out a; for (i = 0; i < " + nested("(", "2", ")", 3900) + "; i++) a = i;", "a,1\n"
    yield "a step in 3,900 ()", "out a; for (i = 0; i < 9; i += " + nested("(", "2", ")", 3900) + ") a = i;", "a,8\n"
    yield "a guard in 3,900 ()", "out a; if (0 < " + nested("(", "2", ")", 3900) + ") a = 1;", "a,1\n"
    yield "a bound that is the min of 4,000", "out a; for (i = 0; i < min(3" + ",3" * 3900 + "); i++) {}", "a,0\n"
    yield "4,000 blocks in each other", nested("{", "", "}", 4000), ""
    yield "4,000 blocks in a loop", "for (i = 0; i < 3; i++) " + nested("{", "", "}", 4000), ""
    yield "4,000 blocks behind each other", "{}" * 4000, ""
    yield "1,300 guards round nothing", "for (i = 0; i < 3; i++) " + "if(i<2)" * 1300 + "{}", ""
    yield "1,360 guards round an assignment", "out a; " + "if(1<2)" * 1360 + "a = 3;", (8, "limit: TooManyRows 9527")
    yield "800 else behind each other", "for (i = 0; i < 3; i++) " + "if (i < 2) {} else " * 800 + "{}", ""
    yield "700 else in each other", "for (i = 0; i < 3; i++) " + nested("if (i < 2) {", "", "} else {}", 700), ""
    yield "a guard of 2,000 comparisons", "if (0 < 1" + "&& 0 < 1" * 2000 + ") {}", ""
    yield "470 loops in each other", nested("for(i=0;i<1;i++)", "{}", "", 470), (7, "class: Duplicate 20")
    yield "6 loops in each other, and 60 times", "out a; " + (
        "".join(f"for ({it}=0;{it}<2;{it}++)" for it in "ijklmn") + "{}"
    ) * 60, "a,0\n"
    yield "4,000 arrays", "var " + ",".join(f"v{it}" for it in range(4000)) + ";", ""
    yield "4,000 parameters that have no value", "param " + ",".join(f"v{it}" for it in range(4000)) + ";", (7, "class: Unbound 6")
    yield "64 processes of 8 reads", "out a; " + ("a = " + "+".join("a" * 8) + ";") * 63, "a,0\n"


def least_stack(program: str, name: str, words: Sequence[str], bundle: bytes, end: End) -> int:
    """The least stack, in kilobytes, by which a run ends as it does by the whole. Below it the program ends by a signal."""
    if QUICK:
        return 8192
    low, high = 16, 8192
    while high > low * 1.1 and high - low > 16:
        middle = (low + high) // 2
        there = ask(program, words, bundle, middle)
        # a trace is of any run, so no two need have the same text
        is_same = there.status == end.status if words[0] == "trace" else there.said == end.said
        low, high = (low, middle) if is_same else (middle, high)
    STACKS.append((high, f"{name}, `{words[0]}`"))
    return high


def tree_text(tests: int, cuts: int) -> bytes:
    """A certificate of a copy of one value, whose first read has a tree of so many tests that always hold, and in its leaf a proof of so many cuts."""
    rows = 2 + tests
    tree = ["tree"] + ["t 0 0"] * tests
    leaf = ["w 0 1 5", "m 0 1"] + ["c 1 0 1"] * cuts
    leaf += [f"s 0 1 {rows} 1", f"s 1 1 {rows} 1", f"s {rows} 1", f"s {rows} 1", f"s {rows + 3} 1 {rows + 4} 1"]
    # where a test doesn't hold no point comes: its row is -1 >= 0
    others = [line for last in reversed(range(tests)) for line in ("x", f"s {2 + last} 1")]
    text = ["cert 1", "sizes 3 2 2 7", "process 0 2", "f", "p 0", "process 1 3", "g 0 0", "f 0", "p 1", "process 1 2", "g 1 0", "f 0"]
    text += ["channel 0 1 0 1 inorder", "channel 1 2 0 1 inorder"] + tree + leaf + others + ["sweep"] + list("0011122") + ["end"]
    return ("\n".join(text) + "\n").encode()


def deep_trees(program: str) -> None:
    """Trees and proofs up to the limit of 512 and one beyond it, by `check` in the whole stack, and the least stack."""
    source = b"param N; in x[N]; out y[N]; for (i = 0; i < N; i++) y[i] = x[i] + 1;\n%%\n%%\n"
    first = 15
    rows = []
    for tests, cuts, wanted in shared([
        (0, 0, b"accepted\n"),
        (511, 0, b"accepted\n"),
        (0, 511, b"accepted\n"),
        (511, 511, b"accepted\n"),
        (512, 0, b"refused Deep %d\n" % (first + 1 + 512)),
        (0, 512, b"refused Deep %d\n" % (first + 1 + 2 + 512)),
    ]):
        bundle = source + tree_text(tests, cuts)
        end = ask(program, ["check", "N=1"], bundle)
        name = f"a tree nested {tests + 1} deep with a proof nested {cuts + 1} deep"
        well = judge(name, "check", end, (0 if wanted == b"accepted\n" else 1, wanted, b""))
        stack = least_stack(program, name, ["check", "N=1"], bundle, end)
        rows.append([name, "as wanted" if well else told(end), f"{end.cpu:.2f}", f"{stack} kB"])
    table(["Certificate", "check", "s", "Least stack"], rows)


def guarded(loops: str, writers: int, guards: Callable[[int], list[str]], is_inside: bool) -> bytes:
    """Loops round so many writers of one cell, each under the guards that are made of its number, and a read of the cell, inside or behind."""
    heads = "".join(f"for ({it} = 0; {it} < N; {it}++) " for it in loops)
    cell = "a" + "".join(f"[{it}]" for it in loops)
    writes = "".join(f"if ({' && '.join(guards(number))}) {cell} = 1; " for number in range(writers))
    behind = "" if is_inside else "} " + heads + "{ "
    return f"param N; var a{'[N]' * len(loops)}; out y; {heads}{{ {writes}{behind}y = {cell}; }}".encode()


def differences(count: int, writers: int) -> Callable[[int], list[str]]:
    """So many guards on differences of six loops, with other numbers for each writer."""
    pairs = list(itertools.permutations("ijklmn", 2))[: count - 1]
    return lambda number: [f"{one} - {other} >= {writers - number - 1000}" for one, other in pairs] + [
        f"n - m >= {3000 - writers + number}"
    ]


def writer_sources() -> Iterator[tuple[str, bytes, int, bool]]:
    """A name, a source, the value of N, and whether the tree of its read may be too large for the time and the addresses that a run has."""
    for place, is_inside in [("inside", True), ("behind", False)]:
        yield f"62 writers that never write in six loops, {place}", guarded(
            "ijklmn", 62, lambda number: [f"i >= N + {number}"], is_inside
        ), 4, False
    for writers, is_large in [(4, False), (10, False), (20, False), (40, True)]:
        yield f"{writers} writers under 2 guards in three loops, inside", guarded(
            "ijk", writers, lambda number: [f"i - j > {number}", f"k >= {writers - number}"], True
        ), 64, is_large
    for writers, guards, is_large in [
        (3, 8, False),
        (12, 4, False),
        (24, 4, False),
        (47, 4, True),
        (6, 16, True),
        (20, 16, True),
        (12, 20, True),
        (24, 20, True),
        (47, 20, True),
    ]:
        yield f"{writers} writers under {guards} guards in six loops, behind", guarded(
            "ijklmn", writers, differences(guards, writers), False
        ), 10_000, is_large


def writers(program: str) -> None:
    """`deps` tells a tree, and `cert`, which is asked where the size is within its limit, writes it or `sweep`; where the tree is large, a run
    may also end with 10, or not in its time."""
    rows = []
    for name, source, n, is_large in shared(writer_sources()):
        row, nodes = [name], ""
        net = ask(program, ["net", f"N={n}"], source).output if n <= 64 else b""
        for command in ("deps", "cert") if n <= 64 else ("deps",):
            words = [command, f"N={n}"]
            end = ask(program, words, source)
            wanted = any_text(command, end, net)
            if is_large and (end.hung or end.said == (10, b"", b"")):
                note(name, command, end)
                row += [told(end), f"{end.cpu:.2f}", megabytes(end), ""]
                continue
            well = judge(name, command, end, wanted, None if is_large else MOST_OF_CHECK)
            if command == "deps":
                nodes = str(max(len(re.findall(rb"(?m)^[tdwzx]\b", tree)) for tree in end.output.split(b"\nread ")))
            if command == "cert" and b"\nsweep\n" in end.output and not is_large:
                BAD.append(f"{name}: `cert` has `sweep`")
            if command == "cert":
                checked = ask(program, ["check", f"N={n}"], bundled(source, b"\n", end.output))
                judge(name, "check", checked, (0, b"accepted\n", b""), None if is_large else MOST_OF_CHECK)
            stack = f"{least_stack(program, name, words, source, end)} kB" if end.cpu < 5 else ""
            row += [str(wanted[0]) if well else told(end), f"{end.cpu:.2f}", megabytes(end), stack]
        rows.append([row[0], nodes, *row[1:], *[""] * (9 - len(row))])
        print(rows[-1], file=sys.stderr, flush=True)
    table(["Source", "Nodes", "deps", "s", "MB", "Least stack", "cert", "s", "MB", "Least stack"], rows)


def repeat_texts() -> Iterator[tuple[str, bytes, bytes]]:
    """A name, a certificate and what `check` answers to it, for the source `out y;`, which has one process with one read."""
    fire, entry, most = b"f z\n", b"0\n", 142_606_336

    def text(script: bytes, schedule: bytes) -> bytes:
        return b"cert 2\nsizes 1 0 1 1\nprocess 0 1\n" + script + b"sweep\n" + schedule + b"end\n"

    def nest(times: int, depth: int, item: bytes) -> bytes:
        return b"r %d 1\n" % times * depth + item

    yield "no repeat", text(fire, entry), b"accepted\n"
    for depth, script, schedule in [
        (20, b"refused Fires 0 1\n", b"refused NotEnabled 1\n"),
        (28, b"refused Long 0\n", b"refused Long 1\n"),
        (512, b"refused Long 0\n", b"refused Long 1\n"),
        (513, b"refused Deep 516\n", b"refused Deep 518\n"),
    ]:
        yield f"a script of repeats {depth} deep", text(nest(2, depth, fire), entry), script
        yield f"a schedule of repeats {depth} deep", text(fire, nest(2, depth, entry)), schedule
    yield "a script of 2^27 events, 27 deep", text(nest(2, 27, fire), entry), b"refused Fires 0 1\n"
    for times, depth, name in [(1 << 30, 2, "2^60"), ((1 << 32) - 1, 512, "(2^32 - 1)^512")]:
        yield f"a script of {name} events", text(nest(times, depth, fire), entry), b"refused Long 0\n"
        yield f"a schedule of {name} entries", text(fire, nest(times, depth, entry)), b"refused Long 1\n"
    yield f"a script of {most} events", text(nest(most, 1, fire), entry), b"refused Fires 0 1\n"
    yield f"a script of {most + 1} events", text(nest(most + 1, 1, fire), entry), b"refused Long 0\n"
    yield f"a schedule of {most} entries", text(fire, nest(most, 1, entry)), b"refused NotEnabled 1\n"
    yield f"a schedule of {most + 1} entries", text(fire, nest(most + 1, 1, entry)), b"refused Long 1\n"
    both = text(nest(most, 1, fire) + b"process 0 1\n" + fire, entry).replace(b"sizes 1", b"sizes 2")
    yield f"two scripts of {most} events and of one", both, b"refused Long 1\n"
    for line, answer in [
        (b"r 2 0\n", b"refused Number 4\n"),
        (b"r 1 1\n", b"refused Number 4\n"),
        (b"r 2 4294967295\n", b"refused Line 6\n"),
        (b"r 2\n", b"refused Line 4\n"),
    ]:
        yield f"`{line.decode().strip()}`", text(line + fire, entry), answer
    yield "the same in version 1", text(nest(2, 1, fire), entry).replace(b"cert 2", b"cert 1"), b"refused Line 4\n"
    yield "64 MiB of `r 2 1`", text(nest(2, (BUNDLE - 100) // 6, fire), entry), b"refused Deep 516\n"


def repeats(program: str) -> None:
    rows = []
    for name, text, answer in shared(repeat_texts()):
        bundle = b"out y;\n%%\n%%\n" + text
        # an event in repeats takes a step for each level that it stands in
        end = ask(program, ["check"], bundle, limit=3 * SECONDS)
        well = judge(name, "check", end, (0 if answer == b"accepted\n" else 1, answer, b""), MOST_OF_CHECK)
        stack = f"{least_stack(program, name, ['check'], bundle, end)} kB" if "512" in name or "513" in name else ""
        rows.append([name, "as wanted" if well else told(end), f"{end.cpu:.2f}", megabytes(end), stack])
        print(rows[-1], file=sys.stderr, flush=True)
    table(["Certificate", "check", "s", "MB", "Least stack"], rows)


# The greatest memory that is wanted of a deep source, in kilobytes.
MOST_OF_DEEP = 64 << 10
DEEP_COMMANDS = ("run", "seq", "net", "cert", "check", "deps", "vhdl", "sim", "trim", "trace")


def with_clocks(answer: bytes, end: End) -> Wanted:
    """An answer and a line of clocks behind it, whose number may be any."""
    clocks = re.search(rb"clocks \d+\n\Z", end.output)
    return 0, answer + (clocks[0] if clocks else b"clocks ..\n"), b""


def deep(program: str) -> None:
    rows = []
    for name, text, wanted in shared(deep_sources()):
        source = text.encode()
        row, worst = [name], (0, "")
        cert, net = ask(program, ["cert"], source), ask(program, ["net"], source).output
        for command in DEEP_COMMANDS:
            bundle = bundled(source, b"\n", cert.output) if command == "check" else source
            end = ask(program, [command], bundle)
            if isinstance(wanted, tuple):
                may = (wanted[0], b"", wanted[1].encode() + b"\n")
            elif command in texts.COMMANDS:
                may = any_text(command, end, net)
            elif command == "sim":
                may = with_clocks(wanted.encode(), end)
            else:
                may = (0, b"accepted\n" if command == "check" else wanted.encode(), b"")
            row.append("as wanted" if judge(name, command, end, may, MOST_OF_DEEP) else told(end))
            worst = max(worst, (least_stack(program, name, [command], bundle, end), command))
            row[-1] += f", {end.cpu:.2f} s" if end.cpu >= 0.1 else ""
        rows.append([*row, "" if QUICK else f"{worst[0]} kB, {worst[1]}"])
        print(rows[-1], file=sys.stderr, flush=True)
    table(["Source", *DEEP_COMMANDS, "Least stack"], rows)


# ---------------------------------------------------------------------------------------------------------------- size


class Sized(NamedTuple):
    """A program at the limit on the size, with its data, its words and its answer; or one that is beyond the limit."""

    name: str
    source: bytes
    data: bytes
    words: list[str]
    answer: bytes = b""
    is_beyond: bool = False
    # The greatest memory that is wanted, in kilobytes.
    most: int = 2 << 20


TOO_LARGE = (8, b"", b"limit: Size %d\n" % (meaning.SIZE_LIMIT + 1))
# The most events of a process that `vhdl` takes.
SCRIPT_LIMIT = 65_536
SIZED_COMMANDS = ("net", "run", "seq", "cert", "check", "deps", "vhdl", "sim", "trim", "trace")


def sized() -> Iterator[Sized]:
    product = examples(["matrix_product"])[0].source
    for n in (30, 100, 159):
        cells = [(7 * k + 3) % 11 - 5 for k in range(n * n)]
        record = ",".join(map(str, cells))
        columns = [cells[at::n] for at in range(n)]
        rows = (cells[at : at + n] for at in range(0, n * n, n))
        answer = ",".join(str(sum(x * y for x, y in zip(row, column))) for row in rows for column in columns)
        yield Sized(
            f"the product of {n} by {n} matrices", product, f"A,{record}\nB,{record}\n".encode(), [f"N={n}"], f"C,{answer}\n".encode()
        )
    counter = b"param N; out a; for (i = 0; i < N; i++) a = i;"
    yield Sized("a counter of 4,194,303 turns", counter, b"", ["N=4194303"], b"a,4194302\n")
    yield Sized(
        "a chain of 4,194,303 turns", counter.replace(b"a = i", b"a = a + i"), b"", ["N=4194303"], b"a,%d\n" % (4194302 * 4194303 // 2)
    )
    reversal = b"param N; in x[N]; out y[N]; for (i = 0; i < N; i++) y[N - 1 - i] = x[i];"
    yield Sized(
        "1,398,101 cells, given back to front", reversal, b"x" + b",7" * 1398101 + b"\n", ["N=1398101"], b"y" + b",7" * 1398101 + b"\n"
    )
    far = b"param N; var a[1]; for (i = 0; i < N; i++) a[3000 * i + 7] = i;"
    yield Sized("262,144 cells outside their extents", far, b"", ["N=262144"])
    reads = b"param N; out a; for (i = 0; i < N; i++) a = a+a+a+a+a+a+a+a+i;"
    value = 0
    for i in range(262144):
        value = meaning.wrap(8 * value + i)
    yield Sized("8 reads of a cell, 262,144 times", reads, b"", ["N=262144"], b"a,%d\n" % value)
    source, data, words = pipeline(62, 65536)
    yield Sized("62 stages of a pipeline", source, data, words, b"y" + b",%d" % (1 + 61 * 62 // 2) * 65536 + b"\n")
    # all rows of cells together have 4,194,304 places, of 16 bytes each: the first array takes them, and the others are kept in a map
    names = [f"a{it}" for it in range(40)]
    cells = "; ".join(f"{it}[4194303] = {at}" for at, it in enumerate(names))
    rows_of_cells = f"out y; var {', '.join(f'{it}[4194304]' for it in names)}; {cells}; y = a0[4194303] + a39[4194303] + 5;"
    yield Sized("40 arrays, each with one far cell", rows_of_cells.encode(), b"", [], b"y,44\n", most=112 << 10)
    yield Sized("one turn too many", counter, b"", ["N=4194304"], is_beyond=True)


def pipeline(stages: int, items: int) -> tuple[bytes, bytes, list[str]]:
    text = "param N; in x[N]; out y[N]; var " + ", ".join(f"s{it}[N]" for it in range(stages)) + ";\n"
    text += "".join(
        f"for (i = 0; i < N; i++) {'y' if it == stages - 1 else f's{it}'}[i] = {'x' if it == 0 else f's{it - 1}'}[i] + {it};\n"
        for it in range(stages)
    )
    return text.encode(), ("x" + ",1" * items + "\n").encode(), [f"N={items}"]


def wanted_at(it: Sized, command: str, end: End, net: bytes) -> Wanted:
    """What a command is wanted to come to. A text that isn't known whole may be any of its kind."""
    # whose reads all have trees, so that no size is judged
    if it.is_beyond and command != "deps":
        return TOO_LARGE
    if command in ("run", "seq"):
        return 0, it.answer, b""
    if command == "sim":
        return with_clocks(it.answer, end)
    if command == "check":
        return 0, b"accepted\n", b""
    if command == "vhdl" and (refusal := script_refusal(net)):
        return 8, b"", refusal
    return any_text(command, end, net)


def script_refusal(net: bytes) -> bytes:
    """What `vhdl` says of the first process whose script is too long, or nothing."""
    try:
        lengths = texts.net_of(net).lengths()
    except texts.Odd:
        return b""
    return next((b"limit: Script %d %d\n" % it for it in enumerate(lengths) if it[1] > SCRIPT_LIMIT), b"")


def size(program: str) -> None:
    rows: list[list[object]] = []
    for it in shared(sized()):
        cert, net = ask(program, ["cert", *it.words], it.source), b""
        for command in SIZED_COMMANDS:
            whole = bundled(it.source, b"\n", cert.output) if command == "check" else bundled(it.source, it.data)
            if len(whole) > BUNDLE:
                rows.append([it.name, command, f"a bundle of {len(whole)} bytes is too long", "", ""])
                continue
            end = ask(program, [command, *it.words], whole)
            net = end.output if command == "net" else net
            judge(it.name, command, end, wanted_at(it, command, end, net), it.most)
            size_of = f", {len(end.output)} bytes" if command in texts.COMMANDS else ""
            rows.append([it.name, command, told(end) + size_of, f"{end.cpu:.2f}", megabytes(end)])
            print(rows[-1], file=sys.stderr, flush=True)
    table(["Program", "Command", "Status, first line", "s", "MB"], rows)


# --------------------------------------------------------------------------------------------------------------- lines


def filled(before: bytes, line: bytes, after: bytes, most: int = BUNDLE) -> tuple[int, bytes]:
    """A text of so many lines as go into a bundle, whose count stands in the text before and isn't longer than eight digits."""
    count = (most - len(before) - len(after) - 100) // len(line)
    return count, before.replace(b"COUNT", str(count).encode()) + line * count + after


def mixed(before: bytes, lines: list[bytes], after: bytes, most: int = BUNDLE) -> tuple[int, bytes]:
    """The same of different lines at random, the first one first."""
    draw = random.Random(len(lines))
    count = (most - len(before) - len(after) - 100) * len(lines) // len(b"".join(lines)) * 99 // 100
    body = lines[0] + b"".join(draw.choices(lines, k=count - 1))
    return count, before.replace(b"COUNT", str(count).encode()) + body + after


def line_texts(share: int) -> Iterator[tuple[str, int, bytes, bytes]]:
    """A name, a certificate and what `check` answers to it, for the source `out y;`, which has one process with one read."""
    most = BUNDLE // share - 40
    end = b"sweep\nend\n"
    yield "f", *filled(b"cert 1\nsizes 1 0 1 0\nprocess 0 COUNT\n", b"f\n", end, most), b"refused Fires 0 0\n"
    yield "f z", *filled(b"cert 1\nsizes 1 0 1 0\nprocess 0 COUNT\n", b"f z\n", end, most), b"refused Fires 0 1\n"
    yield "f z z z z z z z z", *filled(
        b"cert 1\nsizes 1 0 1 0\nprocess 0 COUNT\n", b"f z z z z z z z z\n", end, most
    ), b"refused Fires 0 0\n"
    yield "p 0", *filled(b"cert 1\nsizes 1 0 1 0\nprocess 0 COUNT\n", b"p 0\n", end, most), b"refused Shape 0\n"
    yield "g 0 0", *filled(b"cert 1\nsizes 1 0 1 0\nprocess 0 COUNT\n", b"g 0 0\n", end, most), b"refused Shape 0\n"
    yield "process 0 0", *filled(b"cert 1\nsizes COUNT 0 1 0\n", b"process 0 0\n", end, most), b"refused Shape 1\n"
    yield "channel 0 0 0 0 inorder", *filled(
        b"cert 1\nsizes 0 COUNT 0 0\n", b"channel 0 0 0 0 inorder\n", b"end\n", most
    ), b"refused Shape 1\n"
    yield "channel 0 0 0 1 inorder, of one process", *filled(
        b"cert 1\nsizes 1 COUNT 1 1\nprocess 0 1\nf z\n", b"channel 0 0 0 1 inorder\n", b"sweep\n0\nend\n", most
    ), b"accepted\n"
    yield "sweep", *filled(b"cert 1\nsizes 1 0 COUNT 0\nprocess 0 1\nf z\n", b"sweep\n", b"end\n", most), b"refused Shape 1\n"
    yield "0, of the schedule", *filled(
        b"cert 1\nsizes 1 0 1 COUNT\nprocess 0 1\nf z\nsweep\n", b"0\n", b"end\n", most
    ), b"refused NotEnabled 1\n"
    yield "r 2 1 and f", *filled(b"cert 2\nsizes 1 0 1 0\nprocess 0 COUNT\n", b"r 2 1\nf\n", end, most), b"refused Fires 0 0\n"
    yield "r 2 1 and 0, of the schedule", *filled(
        b"cert 2\nsizes 1 0 1 COUNT\nprocess 0 1\nf z\nsweep\n", b"r 2 1\n0\n", b"end\n", most
    ), b"refused NotEnabled 1\n"
    # lists that don't fold
    yield "0 or 1 at random, of the schedule", *mixed(
        b"cert 1\nsizes 1 0 1 COUNT\nprocess 0 1\nf z\nsweep\n", [b"0\n", b"1\n"], b"end\n", most
    ), b"refused NotEnabled 1\n"
    yield "f or f z at random", *mixed(b"cert 1\nsizes 1 0 1 0\nprocess 0 COUNT\n", [b"f\n", b"f z\n"], end, most), b"refused Fires 0 0\n"
    yield "g 0 d at random, d below 10", *mixed(
        b"cert 1\nsizes 1 0 1 0\nprocess 0 COUNT\n", [b"g 0 %d\n" % slot for slot in range(10)], end, most
    ), b"refused Shape 0\n"
    tree = b"cert 1\nsizes 1 0 1 0\nprocess 0 1\nf z\ntree\n"
    for line in (b"s\n", b"s 0 1\n", b"s 0 1 0 1 0 1 0 1\n"):
        count, text = filled(tree + b"z COUNT\n", line, b"end\n", most)
        yield f"{line[:-1].decode()}, of a proof", count, text, b"refused Source 0 0 Proofs 0 %d 0\n" % count
    count, text = filled(tree + b"w 0 COUNT 0\n", b"m 0\n", b"end\n", most)
    yield "m 0, of a leaf", count, text, b"refused Source 0 0 BadForm 0\n"
    # proofs and trees that nest as deep as they may
    for name, part in (("c 1", b"c 1\n"), ("b 0 and s", b"b 0\ns\n")):
        proof = part * 511 + b"s\n"
        count, text = filled(tree + b"z COUNT\n", proof, b"end\n", most)
        yield f"{name}, of proofs", count * proof.count(b"\n"), text, b"refused Source 0 0 Proofs 0 %d 0\n" % count
    nested = b"tree\n" + b"t 0\nz 0\n" * 511 + b"z 0\n"
    count, text = filled(b"cert 1\nsizes 1 0 COUNT 0\nprocess 0 1\nf z\n", nested, b"end\n", most)
    yield "t 0 and z 0, of trees", count * nested.count(b"\n"), text, b"refused Shape 1\n"
    yield "empty lines", *filled(b"cert 1\nsizes 1 0 1 0\nprocess 0 COUNT\n", b"\n", end, most), b"refused Line 4\n"
    yield "one line of 64 MiB", 1, b"cert 1\nsizes 1 0 1 0\nprocess 0 1\nf" + b" z" * (most // 2 - 40), b"refused Truncated\n"
    yield "one ended line of 64 MiB", 1, b"cert 1\nsizes 1 0 1 0\nprocess 0 1\nf" + b" z" * (most // 2 - 40) + b"\n", b"refused Line 4\n"
    yield "a number of 64 MiB", 1, b"cert 1\nsizes 1 0 1 0\nprocess 0 1" + b"0" * (most - 80) + b"\n", b"refused Number 3\n"


# Kinds of line that take more memory than they should: a bundle that is full of them may take more than is wanted, or end with 10.
HEAVY = {
    "s, of a proof",
    "c 1, of proofs",
    "b 0 and s, of proofs",
    "t 0 and z 0, of trees",
    "f or f z at random",
    "g 0 d at random, d below 10",
}


def lines(program: str) -> None:
    rows = []
    for share in (16, 1):
        for name, count, text, answer in shared(line_texts(share)):
            end = ask(program, ["check"], b"out y;\n%%\n%%\n" + text)
            wanted = 0 if answer == b"accepted\n" else 1
            is_heavy = share == 1 and name in HEAVY
            wants = (10, b"", b"") if is_heavy and end.status == 10 else (wanted, answer, b"")
            judge(f"{count:,} lines `{name}`" if count > 1 else name, "check", end, wants, None if is_heavy else MOST_OF_CHECK)
            each = f"{(end.kilobytes - 2500) * KILO / count:.0f}" if count > 1 else ""
            rows.append([name, count, f"{len(text) / KILO**2:.0f}", told(end), f"{end.cpu:.2f}", megabytes(end), each])
            print(rows[-1], file=sys.stderr, flush=True)
    table(["Line", "Lines", "MiB", "Answer", "s", "MB", "Bytes a line"], rows)


# ------------------------------------------------------------------------------------------------------------ announce


def announcing() -> Iterator[bytes]:
    most = b"4294967295"
    heads = [b"sizes %s 0 1 0\n", b"sizes 1 %s 1 0\n", b"sizes 1 0 %s 0\n", b"sizes 1 0 1 %s\n", b"sizes %s %s %s %s\n"]
    for head in heads:
        text = b"cert 1\n" + head.replace(b"%s", most)
        for more in (
            b"",
            b"process 0 1\nf z\n",
            b"process %s 1\nf z\n" % most,
            b"process 0 %s\n" % most,
            b"process 0 %s\nf z\n" % most,
            b"process 0 1\nf z\nchannel %s %s %s %s inorder\n" % ((most,) * 4),
            b"process 0 1\nf z\nsweep\n0\nend\n",
            b"process 0 1\nf z\nsweep\n%s\nend\n" % most,
            b"process 0 2\nf z\ng %s %s\nsweep\nend\n" % (most, most),
            b"process 0 2\nf %s\np %s\nsweep\n0\n0\nend\n" % (most, most),
        ):
            yield text + more
    for more in (
        b"process %s 1\nf z\nsweep\n0\nend\n" % most,
        b"process 0 1\nf %s\nsweep\n0\nend\n" % most,
        b"process 0 2\nf z\np %s\nsweep\n0\nend\n" % most,
    ):
        yield b"cert 1\nsizes 1 0 1 1\n" + more
    for more in (
        b"process 0 1\nr %s %s\n" % (most, most),
        b"process 0 1\nr %s %s\nf z\nsweep\n0\nend\n" % (most, most),
        b"process 0 1\nr %s 1\nf z\nsweep\n0\nend\n" % most,
        b"process 0 1\nf z\nsweep\nr %s 1\n0\nend\n" % most,
        b"process 0 1\nf z\nsweep\nr %s %s\n" % (most, most),
        b"process 0 1\n" + b"r %s 1\n" % most * 512 + b"f z\nsweep\n0\nend\n",
    ):
        yield b"cert 2\nsizes 1 0 1 1\n" + more
    yield b"cert 1\nsizes 1 1 1 1\nprocess 0 1\nf z\nchannel 0 0 0 %s inorder\nsweep\n0\nend\n" % most
    yield b"cert 1\nsizes 1 1 1 3\nprocess 1 3\nf z\np 0\ng 0 0\nchannel 0 0 0 %s inorder\nsweep\n0\n0\n0\nend\n" % most


def announced() -> Iterator[tuple[str, bytes, bytes, int]]:
    """A name, a certificate of a few lines for `out y;`, what `check` answers to it, and how many kilobytes it may take."""
    most = 142_606_000
    held = 1 << 24

    def text(slots: int, script: bytes, parts: int, schedule: bytes, entries: int) -> bytes:
        capacity = b"channel 0 0 0 4294967295 inorder\n"
        return b"cert 2\nsizes 1 1 1 %d\nprocess %d %d\n" % (entries, slots, parts) + script + capacity + b"sweep\n" + schedule + b"end\n"

    unended = b"refused Unended 0\n"
    gets = b"f z\nr %d 1\ng 0 0\n" % most
    yield f"{most} slots, all empty", text(most, gets, 2, b"0\n", 1), unended, 16 << 10
    one = b"f z\np 0\ng 0 %d\nr %d 1\ng 0 0\n" % (most - 1, most - 1)
    yield f"{most} slots, of which the last is filled", text(most, one, 4, b"r 3 1\n0\n", 1), unended, 16 << 10
    puts = b"f z\nr %d 1\np 0\n" % most
    yield f"{most} Puts that don't come", text(0, puts, 2, b"0\n", 1), unended, 16 << 10
    yield f"a schedule of {most} entries", text(0, b"f z\n", 1, b"r %d 1\n0\n" % most, 1), b"refused NotEnabled 1\n", 16 << 10
    puts = b"f z\nr %d 1\np 0\n" % held
    yield f"a queue of {held} tokens of one fire", text(0, puts, 2, b"r %d 1\n0\n" % (held + 1), 1), b"accepted\n", 16 << 10
    for name, script in [
        ("one after the other", b"f z\nr %d 2\np 0\ng 0 0\n" % (held // 2)),
        ("in repeats 23 deep", b"f z\n" + b"r 2 1\n" * 22 + b"r 2 2\np 0\ng 0 0\n"),
    ]:
        yield f"{held} events {name}", text(1, script, 2, b"r %d 1\n0\n" % (held + 1), 1), b"accepted\n", 16 << 10


def announce(program: str) -> None:
    rows = []
    for name, text, answer, most in shared(announced()):
        end = ask(program, ["check"], b"out y;\n%%\n%%\n" + text)
        well = judge(name, "check", end, (0 if answer == b"accepted\n" else 1, answer, b""), most)
        rows.append([name, len(text), "as wanted" if well else told(end), f"{end.cpu:.2f}", megabytes(end)])
        print(rows[-1], file=sys.stderr, flush=True)
    table(["Certificate", "Bytes", "check", "s", "MB"], rows)
    print()
    ends: list[End] = []
    statuses: Counter[str] = Counter()
    for text in shared(announcing()):
        bundle = b"out y;\n%%\n%%\n" + text
        wanted = meaning.outcome(["check"], bundle)
        end = ask(program, ["check"], bundle)
        judge(f"announcing {text!r}", "check", end, wanted, 16 << 10)
        statuses[told(end)] += 1
        ends.append(end)
    rows = [[told_so, count] for told_so, count in sorted(statuses.items())]
    table(["Answer", f"Certificates, of {len(ends)}"], rows)
    longest, largest = max((it.cpu for it in ends), default=0.0), max((it.kilobytes for it in ends), default=0)
    print(f"\nthe longest {longest:.2f} s, the largest {largest / KILO:.1f} MB")


# -------------------------------------------------------------------------------------------------------------- bundle


def bundles() -> Iterator[tuple[str, str, bytes, Wanted | None]]:
    """A name, a command, a bundle and what comes of it."""

    def to_limit(before: bytes, piece: bytes, after: bytes = b"", over: int = 0) -> bytes:
        count = (BUNDLE - len(before) - len(after) + over) // len(piece)
        return before + piece * count + after

    yield "spaces", "run", to_limit(b"", b" "), (0, b"", b"")
    yield "spaces, and one more", "run", b" " * (BUNDLE + 1), (5, b"", b"bundle: TooLong\n")
    for command, text in (("trim", b"trim 1\nend\n"), ("trace", b"trace 1\nend\n"), ("sim", b"clocks 0\n")):
        yield "spaces", command, to_limit(b"", b" "), (0, text, b"")
    yield "one comment", "run", to_limit(b"/*", b"*", b"/"), (0, b"", b"")
    yield "comments", "run", to_limit(b"", b"/**/"), (0, b"", b"")
    yield "a comment that isn't closed", "run", to_limit(b"/*", b"* "), (6, b"", b"text: OpenComment 0\n")
    yield "one name", "run", to_limit(b"var ", b"a", b";"), (0, b"", b"")
    yield "one number, of zeros", "run", to_limit(b"out y; y = ", b"0", b"1;"), (0, b"y,1\n", b"")
    yield "one number, of nines", "run", to_limit(b"out y; y = ", b"9", b";"), (6, b"", b"text: LargeNumber 11\n")
    yield "tokens", "run", to_limit(b"", b"{"), (6, b"", b"text: TooMany 8192\n")
    yield "separators", "check", to_limit(b"out y;\n", b"%%\n"), (1, b"refused Line 1\n", b"")
    head = b"in x; out y; y = x;\n%%\n"
    yield "a record of empty fields", "run", to_limit(head + b"x", b","), None
    yield "a record of values", "run", to_limit(head + b"x", b",1"), None
    yield "a record of values", "sim", to_limit(head + b"x", b",1"), None
    for command, text in (
        ("trim", b"trim 1\nchannel 0 capacity 1 rest 1 0 0\nchannel 1 capacity 1 rest 2 2 0\nend\n"),
        ("trace", b"trace 1\n0\n0\n1\n1\n1\n2\n2\nend\n"),
    ):
        yield "data that is passed over", command, to_limit(head + b"x", b",1"), (0, text, b"")
    yield "records of one byte", "run", to_limit(head, b"x\n"), (9, b"", b"data: Count 1 0 1\n")
    yield "empty lines", "run", to_limit(head, b"\n", b"x,3\n"), (0, b"y,3\n", b"")
    yield "one quoted field", "run", to_limit(head + b'x,"', b'""'), (9, b"", b"data: NotANumber 1 1\n")
    yield "a value of zeros", "run", to_limit(head + b"x,", b"0", b"5\n"), (0, b"y,5\n", b"")
    yield "a value of nines", "run", to_limit(head + b"x,", b"9", b"\n"), (9, b"", b"data: NotANumber 1 1\n")
    yield "a name of an array", "run", to_limit(head, b"x", b",3\n"), (9, b"", b"data: UnknownArray 1\n")
    yield "the right record, and then others", "run", to_limit(head + b"x,3\n", b"z\n"), (9, b"", b"data: UnknownArray 2\n")
    # 1,048,575 cells stand for a size of 2,097,150
    cells = 1_048_575
    yield "1,048,575 values", "seq", b"in x[1048575];\n%%\nx" + b",-9223372036854775808" * cells + b"\n", (0, b"", b"")
    yield "1,048,575 values", "run", b"in x[1048575];\n%%\nx" + b",-9223372036854775808" * cells + b"\n", (0, b"", b"")


# The greatest memory that is wanted of 64 MiB of source or data, in kilobytes.
MOST_OF_BUNDLE = 300 << 10


def bundle(program: str) -> None:
    rows = []
    for name, command, text, wanted in shared(bundles()):
        if wanted is None:
            fields = text.count(b",")
            wanted = 9, b"", b"data: Count 1 %d 1\n" % fields
        end = ask(program, [command], text)
        judge(f"a bundle of {name}", command, end, wanted, MOST_OF_BUNDLE)
        rows.append([name, command, f"{len(text) / KILO**2:.0f}", told(end), f"{end.cpu:.2f}", megabytes(end)])
        print(rows[-1], file=sys.stderr, flush=True)
    table(["Bundle of", "Command", "MiB", "Status, first line", "s", "MB"], rows)


# ------------------------------------------------------------------------------------------------------------- threads


def threads(program: str) -> None:
    for part in shared([on_processors, refused_by_shim, refused_by_system]):
        part(program)
        print()


def on_processors(program: str) -> None:
    """64 processes on few processors."""
    rows = []
    for name, (source, data, words) in (("20 items", pipeline(62, 20)), ("16,384 items", pipeline(62, 16384))):
        bundle = bundled(source, data)
        wanted = asking.ask(program, ["seq", *words], bundle, SECONDS).said
        cpus = sorted(os.sched_getaffinity(0))
        for count in sorted({1, 2, 4, len(cpus)}):
            if len(cpus) < count:
                continue
            os.sched_setaffinity(0, cpus[:count])
            end = asking.ask(program, ["run", *words], bundle, SECONDS)
            judge(f"64 processes on {count} processors, {name}", "run", end, wanted)
            rows.append([f"{count} processors, {name}", told(end)[:20], f"{end.cpu:.2f}", megabytes(end)])
            print(rows[-1], file=sys.stderr, flush=True)
        os.sched_setaffinity(0, cpus)
    table(["64 processes, by `run`", "Status, first bytes", "s", "MB"], rows)


def grouped(rows: Iterable[tuple[int, str, float]]) -> list[list[object]]:
    """Rows of a number, statuses and seconds, of which those with the same statuses that follow each other are told as one."""
    groups: list[tuple[int, int, str, float]] = []
    for number, statuses, seconds in rows:
        if groups and groups[-1][2] == statuses:
            first, _, _, longest = groups.pop()
            groups.append((first, number, statuses, max(longest, seconds)))
        else:
            groups.append((number, number, statuses, seconds))
    return [[f"{a} to {b}" if a < b else a, statuses, f"{seconds:.2f}"] for a, b, statuses, seconds in groups]


def tried(name: tuple[str, str], count: int, wanted: Callable[[End], Wanted], call: Callable[[], End]) -> tuple[str, float]:
    """So many runs of a call, which has a name and a command: their statuses in words, and the longest one's seconds."""
    statuses: Counter[str] = Counter()
    longest = 0.0
    for _ in range(count):
        end = call()
        # where a start is refused the network goes along its schedule, in one thread
        is_well = judge(*name, end, wanted(end))
        statuses["hung" if end.hung else f"{end.status}, {'as wanted' if is_well else 'not as wanted'}"] += 1
        longest = max(longest, end.seconds)
    return ", ".join(f"{count} x {it}" for it, count in sorted(statuses.items())), longest


def threaded(program: str) -> Iterator[tuple[str, int, list[str], bytes, Callable[[End], Wanted]]]:
    """The commands that start threads: a name, how many are started, the words, the bundle, and what is wanted of an end."""

    def always(wanted: Wanted) -> Callable[[End], Wanted]:
        return lambda _: wanted

    for processes in (64, 63, 62):
        source, data, words = pipeline(processes - 2, 20)
        bundle = bundled(source, data)
        wanted = asking.ask(program, ["seq", *words], bundle).said
        yield f"run, {processes} processes", processes, ["run", *words], bundle, always(wanted)
    yield "load 2", 5, ["load", "2"], b"", always((0, b"points 24\nchannels 5\nevents 64\nsum 9\n", b""))
    source, data, words = pipeline(6, 20)
    net = asking.ask(program, ["net", *words], source).output
    yield "trace", 4, ["trace", *words], source, lambda end: any_text("trace", end, net)


def refused_by_shim(program: str) -> None:
    """Each start refused in turn, with all later ones. Workers that don't wait for the word, or aren't told to stay, never end."""
    rows = []
    with tempfile.TemporaryDirectory() as folder:
        shim = asking.compiled("shim.c", os.path.join(folder, "shim.so"), "-shared", "-fPIC", "-ldl")
        for name, count, words, bundle, wanted in threaded(program):
            found: list[tuple[int, str, float]] = []
            for number in range(1, count + 2):
                env = {**os.environ, "LD_PRELOAD": shim, "HOSTILE_START": str(number)}
                said = f"{name}, start {number} and all later ones refused", words[0]
                found.append((number, *tried(said, 1, wanted, lambda: asking.ask(program, words, bundle, 10, env))))
                if len(BAD) > 20:
                    break
            rows += [[name, *row] for row in grouped(found)]
            print(rows[-1], file=sys.stderr, flush=True)
    table(["Command", "The first start that is refused", "Statuses", "The longest, s"], rows)


def refused_by_system(program: str) -> None:
    """64 processes as a user who may have so many tasks."""
    source, data, words = pipeline(62, 20)
    bundle = bundled(source, data)
    plain = asking.ask(program, ["run", *words], bundle)
    judge("64 processes", "run", plain, asking.ask(program, ["seq", *words], bundle).said)
    setpriv = shutil.which("setpriv")
    if os.geteuid() != 0 or not setpriv:
        print("not root, or no setpriv: the system's limit on tasks wasn't tried")
        return
    rows = []
    with tempfile.TemporaryDirectory() as folder:
        os.chmod(folder, 0o755)
        copy = os.path.join(folder, "compaan")
        shutil.copy(program, copy)
        os.chmod(copy, 0o755)
        user = "58273"
        before = [
            setpriv,
            f"--reuid={user}",
            f"--regid={user}",
            "--clear-groups",
            "--no-new-privs",
            "--bounding-set=-all",
            "--inh-caps=-all",
        ]
        old = resource.getrlimit(resource.RLIMIT_NPROC)

        def limited(limit: int) -> End:
            resource.setrlimit(resource.RLIMIT_NPROC, (limit, old[1]))
            end = asking.ask(copy, ["run", *words], bundle, 30, before=before)
            resource.setrlimit(resource.RLIMIT_NPROC, old)
            return end

        for limit in [*range(1, 67), 80]:
            name = f"64 processes under a limit of {limit} tasks", "run"
            rows.append((limit, *tried(name, 5, lambda _: plain.said, lambda: limited(limit))))
            print(rows[-1], file=sys.stderr, flush=True)
    table(["Tasks that are allowed", "Statuses of 5 runs each", "The longest, s"], grouped(rows))


SECTIONS: dict[str, Callable[[str], None]] = {
    "deep": deep,
    "trees": deep_trees,
    "writers": writers,
    "repeats": repeats,
    "size": size,
    "lines": lines,
    "announce": announce,
    "bundle": bundle,
    "threads": threads,
}


def main() -> int:
    parser = parser_of(__doc__)
    parser.add_argument("--only", metavar="SECTION", choices=SECTIONS, help="this section alone")
    parser.add_argument("--share", metavar="K/N", default="1/1", help="each Nth of what a section tries, from its Kth on (1/1)")
    parser.add_argument("--quick", action="store_true", help="looks for no least stack")
    parser.add_argument("--space", metavar="GB", type=int, default=4, help="how much address space a run has at most (4); 0 sets no limit")
    given = parser.parse_args()
    program = program_of(given.compaan)
    with_limits(given.space)
    QUICK.extend([True] * given.quick)
    share = re.fullmatch(r"([1-9]\d*)/([1-9]\d*)", given.share)
    if share is None or int(share[1]) > int(share[2]):
        parser.error("--share wants K/N, with K from 1 to N")
    SHARE[:] = map(int, share.groups())
    for name, section in SECTIONS.items():
        if given.only in (None, name):
            print(f"\n## {name}\n")
            section(program)
            taken()
    print()
    for line in BAD:
        print(line)
    print(f"{len(BAD)} not as wanted")
    return 1 if BAD else 0


if __name__ == "__main__":
    sys.exit(main())
