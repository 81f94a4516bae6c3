"""The unproved program. The toolchain's own unproved run, `rt try`, makes the program's code of the sources, and this keeps that.

`rt try` compiles a module by the clang of the toolchain's folder, and throws it away when the run has ended. So it is started from a
folder that is a copy of the toolchain's by links, but for its clang, which is a script that keeps the module and how it is compiled.
The module has the checks that such a run makes, of sums, indices and casts, and keeps them: where one fails the program stops by a signal.
The sanitizer that watches such a run's memory is clang's, and not in the module.
"""
from __future__ import annotations

import contextlib
import os
import shlex
import shutil
import signal
import subprocess
import tempfile
from pathlib import Path
from typing import IO

from .base import COMPAAN, Status, Stop, tell
from .commands import started
from .kept import UNPROVED, kept, kind_of
from .making import Progress, alone, answers_well, example_words, folder, keep, writing
from .paths import KEPT, crate_of
from .sums import CODE, read_sum_of
from .toolchain import Toolchain, toolchain

LOG = KEPT / "unproved.log"
TARGET = "x86_64-unknown-linux-gnu"
STEPS = ("1 of 3: the toolchain reads the sources", "2 of 3: clang compiles them", "3 of 3: it is linked and tried")


def make_unproved(again: bool = False, name: str = COMPAAN) -> str:
    """The unproved program of these sources, which is made where it isn't there. One that couldn't be made is tried anew only `again`."""
    total, kind = read_sum_of(CODE, name), kind_of(UNPROVED, name)
    found = kept(kind, total)
    if found is not None:
        return found
    if not again and failed_of(name).is_file() and failed_of(name).read_bytes() == total.encode():
        raise Stop(Status.NO_PROGRAM, f"no program can be made of these sources: see {LOG}; ./compaan build --unproved tries again")
    tools = toolchain()
    with alone(kind) as (progress, _):
        # Another call may have made it meanwhile.
        found = kept(kind, total)
        if found is None:
            tell("compaan: no program is built of these sources: one is compiled now without a proof, once, which takes some minutes")
            try:
                with writing():
                    found = make(name, tools, total, progress)
            finally:
                progress.end()
        return found


def make(name: str, tools: Toolchain, total: str, progress: Progress) -> str:
    """Makes the unproved program and keeps it."""
    for left in folder().glob("making-*"):
        shutil.rmtree(left, ignore_errors=True)
    room = Path(tempfile.mkdtemp(prefix="making-", dir=KEPT))
    try:
        return make_in(room, name, tools, total, progress)
    finally:
        shutil.rmtree(room, ignore_errors=True)


def make_in(room: Path, name: str, tools: Toolchain, total: str, progress: Progress) -> str:
    """Makes the unproved program with this folder for what is made on the way."""
    module, object_file, program = room / "module.bc", room / "compaan.o", room / "compaan"
    with open(LOG, "wb") as log:
        progress.say(STEPS[0])
        words = keep_module(room, name, tools, module, log, progress)
        if words is None:
            raise failed(name, total, "the toolchain compiles nothing of these sources")
        clang = [str(tools.folder / "toolchain" / "bin" / "clang"), *compiled_natively(words, module, object_file)]
        link = [str(tools.folder / "bin" / "rattle-link"), "--target", TARGET, "--toolchain", str(tools.folder / "toolchain")]
        link += ["-o", str(program), str(object_file), *[str(tools.folder / "c" / it) for it in ("libos_c.a", "liblibc_c.a")]]
        for step, command in ((STEPS[1], clang), (STEPS[2], link)):
            progress.say(step)
            log.write(f"$ {shlex.join(command)}\n".encode(errors="replace"))
            log.flush()
            with started(command, stdin=subprocess.DEVNULL, stdout=log, stderr=log, cwd=room, start_new_session=True) as process:
                while process.poll() is None:
                    progress.pause(process)
            if process.returncode:
                raise failed(name, total, f"{Path(command[0]).name} ended with status {process.returncode}")
    if not answers_well(program, name):
        raise failed(name, total, "the program that was made doesn't answer its own example")
    failed_of(name).unlink(missing_ok=True)
    return keep(kind_of(UNPROVED, name), total, program)


def keep_module(room: Path, name: str, tools: Toolchain, module: Path, log: IO[bytes], progress: Progress) -> list[str] | None:
    """Has the toolchain compile the module for an unproved run, and gives the words of that; or None, where it refuses the sources."""
    words, temporary = room / "words", room / "temporary"
    temporary.mkdir()
    copy_by_links(tools.folder, room / "kit", module, words)
    trying = [str(room / "kit" / "bin" / "rt"), "try", "--steps", "1000", "--", *example_words(name)]
    how = {"cwd": crate_of(name), "env": {**os.environ, "TMPDIR": str(temporary)}, "start_new_session": True}
    with open(crate_of(name) / "stdin", "rb") as given, started(trying, stdin=given, stdout=log, stderr=log, **how) as process:
        while process.poll() is None and not words.is_file():
            progress.pause(process)
        # The run itself isn't needed.
        with contextlib.suppress(ProcessLookupError):
            os.killpg(process.pid, signal.SIGTERM)
    return words.read_text().split("\n")[:-1] if words.is_file() else None


def failed_of(name: str) -> Path:
    """Where it is kept that no program could be made."""
    return KEPT / f"{kind_of(UNPROVED, name)}.failed"


def failed(name: str, total: str, why: str) -> Stop:
    failed_of(name).write_bytes(total.encode())
    return Stop(Status.NO_PROGRAM, f"no program could be made: {why}: see {LOG}")


def copy_by_links(given: Path, made: Path, module: Path, words: Path) -> None:
    """A copy of the toolchain's folder by links, whose clang keeps the module that it compiles and, when that is done, its words."""
    (made / "bin").mkdir(parents=True)
    (made / "toolchain" / "bin").mkdir(parents=True)
    link_all(given, made, ("bin", "toolchain"))
    link_all(given / "toolchain", made / "toolchain", ("bin",))
    link_all(given / "toolchain" / "bin", made / "toolchain" / "bin", ("clang",))
    # Without `rattle` no check is begun beside the run, which would only give hints. `rt` finds its folder by where it really stands.
    link_all(given / "bin", made / "bin", ("rattle", "rt", "rtlib.py"))
    for name in ("rt", "rtlib.py"):
        shutil.copy(given / "bin" / name, made / "bin" / name)
    clang = made / "toolchain" / "bin" / "clang"
    real = shlex.quote(str(given / "toolchain" / "bin" / "clang"))
    here, there = shlex.quote(str(module)), shlex.quote(str(words))
    clang.write_text(
        f"""#!/bin/sh
# Keeps the module of the checked run, which is the word behind `-x ir`, and how it is compiled. What else is compiled is a probe.
case "$*" in
*-fsanitize=address*)
    for word do
        if [ "$last $before" = "-x ir" ]; then
            cp "$word" {here} && printf '%s\\n' "$@" > {there}.part && mv {there}.part {there}
        fi
        last=$before before=$word
    done
    ;;
esac
exec {real} "$@"
"""
    )
    clang.chmod(0o755)


def link_all(given: Path, made: Path, without: tuple[str, ...]) -> None:
    for path in given.iterdir():
        if path.name not in without:
            (made / path.name).symlink_to(path)


def compiled_natively(words: list[str], module: Path, to: Path) -> list[str]:
    """How the module is compiled, but for the sanitizer that watches a run's memory, and for what it is to become."""
    kept_words: list[str] = []
    skipped = False
    for word in words:
        if skipped:
            skipped = False
        elif word in ("-o", "-x"):
            skipped = True
        elif not (word.startswith(("-fsanitize", "-O")) or word.endswith(".bc")):
            kept_words.append(word)
    return [*kept_words, "-O2", "-x", "ir", str(module), "-o", str(to)]
