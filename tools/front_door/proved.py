"""The proved program: all crates that it stands on are proved, and then it is compiled and linked."""
from __future__ import annotations

import os
import re
import shutil
import subprocess
import tempfile
from pathlib import Path
from typing import Any, BinaryIO

from .base import COMPAAN, RTL, Status, Stop, tell
from .commands import started
from .kept import PROVED, kept, kind_of
from .making import Progress, alone, answers_well, keep, writing
from .paths import KEPT, TOP, crate_of
from .sources import LIST, crates_below, expected_minutes, listed
from .sums import STATEMENTS, read_sum_of
from .toolchain import toolchain

LOG = KEPT / "build.log"


def built_by_rt(name: str) -> Path:
    """Where `rt ci` and `rt run` leave a program."""
    return crate_of(name) / "out" / name


def build() -> int:
    """Proves all that the programs stand on, and builds them; or follows the build that is under way."""
    return max(build_one(name) for name in (COMPAAN, RTL) if name in listed())


def build_one(name: str) -> int:
    """The same of one program."""
    total, kind, of = read_sum_of(STATEMENTS, name), kind_of(PROVED, name), "" if name == COMPAAN else f" {name}"
    if kept(kind, total):
        tell(f"compaan: the program{of} is proved and built of these sources")
        return 0
    tools = toolchain()
    with alone(kind) as (progress, has_waited):
        if kept(kind, total):
            tell(f"compaan: the program{of} is proved and built of these sources")
            return 0
        if has_waited:
            raise Stop(Status.NO_PROGRAM, f"that build ended without the program: see {LOG}")
        try:
            with writing():
                prove_all(tools.rt, name, total, progress)
        finally:
            progress.end()
    tell(f"compaan: all crates that the program{of} stands on are proved, and it is built")
    return 0


def take_built() -> int:
    """Keeps as the proved programs what `rt ci` or `rt run` built, on the word of whoever says that it is of these sources. The second
    program needn't be there."""
    for name in (COMPAAN, RTL):
        built = built_by_rt(name)
        if not os.access(built, os.X_OK):
            if name == RTL:
                continue
            raise Stop(Status.NO_PROGRAM, f"there is no {built}: rt ci and rt run leave the program there")
        if not answers_well(built, name):
            raise Stop(Status.NO_PROGRAM, f"{built} doesn't answer its own example")
        kind = kind_of(PROVED, name)
        with alone(kind), writing():
            keep(kind, read_sum_of(STATEMENTS, name), built)
        tell(f"compaan: {built} is the proved program of these sources from now on, on your word")
    return 0


def prove_all(rt: str, name: str, total: str, progress: Progress) -> str:
    """Has the toolchain's gate prove the crates and build the program, and gives the copy of it that is kept.

    The gate begins what has the longest chain of crates behind it, and takes as many crates at once as processors and memory allow. It
    runs over a copy of what the program is made of alone, so it proves no crate of tests and tries no edit, and whoever changes a source
    meanwhile is in nobody's way."""
    names = [*crates_below(name), name]
    tell(f"compaan: {len(names)} crates are proved, and then the program is built; the log is {LOG}")
    minutes = expected(names, processors())
    if minutes:
        tell(f"compaan: by the table of docs/CONTRIBUTING.md that takes some {minutes:.0f} minutes, where nothing else is at work")
    with tempfile.TemporaryDirectory(prefix="compaan-build-") as room:
        top = Path(room)
        copy(names, top)
        if read_sum_of(STATEMENTS, name) != total:
            raise Stop(Status.NO_PROGRAM, "sources changed while they were copied: ./compaan build begins anew")
        with open(LOG, "wb") as log, open(LOG, "rb") as news:
            how: dict[str, Any] = {"stdin": subprocess.DEVNULL, "stdout": log, "stderr": subprocess.STDOUT, "cwd": top}
            proved: set[bytes] = set()
            with started([rt, "ci"], start_new_session=True, **how) as process:
                has_ended = False
                while not has_ended:
                    # What it said before it ended is read after that was seen.
                    has_ended = process.poll() is not None
                    proved.update(proved_in(news))
                    progress.say(f"{len(proved)} of {len(names)} crates are proved")
                    progress.pause(process)
        program = top / built_by_rt(name).relative_to(TOP)
        if process.returncode or not program.is_file():
            raise Stop(Status.NO_PROGRAM, f"rt ci over the program's crates ended with status {process.returncode}: see {LOG}")
        if not answers_well(program, name):
            raise Stop(Status.NO_PROGRAM, "the program that was built doesn't answer its own example")
        return keep(kind_of(PROVED, name), total, program)


def copy(names: list[str], to: Path) -> None:
    """Copies what the program is made of: these crates, with their lines of the list, and without their edits."""
    try:
        for name in names:
            shutil.copytree(TOP / "crates" / name, to / "crates" / name, ignore=shutil.ignore_patterns("out", "must-fail", "edits"))
    except shutil.Error as error:
        file, _, why = error.args[0][0]
        raise Stop(Status.NOT_WRITTEN, f"{file} can't be copied below {to}: {why}") from None
    lines = [f"{name}: {' '.join(below)}\n" for name, below in listed().items() if name in names]
    (to / LIST.name).write_text("".join(lines), encoding="utf-8")
    shutil.copyfile(TOP / "HANDLES", to / "HANDLES")


def proved_in(news: BinaryIO) -> list[bytes]:
    """The crates that are proved, or were by an earlier run, by the lines of the log that are new."""
    return re.findall(rb"(?m)^rt: (\w+) (?:proved|is kept: .*)$", news.read())


def expected(crates: list[str], count: int) -> float:
    """How many minutes the proofs take with so many processors, by the table of docs/CONTRIBUTING.md, or 0 where it isn't there."""
    names, minutes = listed(), expected_minutes(crates)
    longest: dict[str, float] = {}
    for name in crates:
        # Those that a crate stands on come before it.
        longest[name] = minutes.get(name, 0.0) + max((longest[it] for it in names[name] if it in longest), default=0.0)
    return max(sum(minutes.values()) / count, *longest.values())


def processors() -> int:
    """The processors that there are."""
    return len(os.sched_getaffinity(0))
