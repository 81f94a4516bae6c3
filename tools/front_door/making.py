"""What unproved and proved programs are made with: where they are kept, one maker at a time, and how far it is."""
from __future__ import annotations

import contextlib
import fcntl
import os
import shutil
import subprocess
import sys
import time
from collections.abc import Iterator
from pathlib import Path
from typing import IO

from .base import Status, Stop, tell
from .paths import KEPT, crate_of
from .program import run


def keep(kind: str, total: str, program: Path) -> str:
    """Keeps a program in place of those of other sources."""
    place = folder(kind) / total
    part = place.with_name(f"{total}.part")
    shutil.copyfile(program, part)
    part.chmod(0o755)
    os.replace(part, place)
    for other in place.parent.iterdir():
        if other != place:
            other.unlink(missing_ok=True)
    return str(place)


def folder(name: str = "") -> Path:
    """A folder below the one where all is kept."""
    made = KEPT / name
    made.mkdir(parents=True, exist_ok=True)
    return made


@contextlib.contextmanager
def writing() -> Iterator[None]:
    """Tells which file failed while a program was made."""
    try:
        yield
    except OSError as error:
        why = f"{error.filename2 or error.filename or KEPT}: {error.strerror}"
        raise Stop(Status.NOT_WRITTEN, f"no program can be made and kept here: {why} (COMPAAN names one that is built elsewhere)") from None


def example_words(name: str) -> list[str]:
    """The words of a program's own example, which stand in its crate as the toolchain wants them."""
    return (crate_of(name) / "args").read_text(encoding="utf-8").split("\n")[:-1]


def answers_well(program: Path, name: str) -> bool:
    """Whether a program answers the example of its crate, which has this name, as it should."""
    answer = run(str(program), example_words(name), (crate_of(name) / "stdin").read_bytes(), reads_output=True)
    status = crate_of(name) / "status"
    wanted = int(status.read_text(encoding="ascii")) if status.is_file() else 0
    return answer.status == wanted and answer.output == (crate_of(name) / "stdout").read_bytes()


# ------------------------------------------------------------------------------------------------------------- how far


class Progress:
    """Says how far something is: on a terminal in one line that changes, elsewhere in a line for each step."""

    def __init__(self, file: Path | None = None) -> None:
        self.file, self.begun, self.step, self.said = file, time.monotonic(), "", ""
        self.in_place = sys.stderr is not None and sys.stderr.isatty()

    def say(self, step: str) -> None:
        """Goes on to a step. Who waits for it reads it in the file."""
        is_new, self.step = step != self.step, step
        if is_new and self.file is not None:
            with contextlib.suppress(OSError):
                self.file.write_text(step, encoding="utf-8")
        self.show()

    def show(self) -> None:
        """Says the step, and on a terminal how long all has taken."""
        seconds = int(time.monotonic() - self.begun)
        said = f"{self.step}, {seconds // 60}:{seconds % 60:02}" if self.in_place else self.step
        if said != self.said:
            self.said = said
            tell(f"\r\033[Kcompaan: {said}" if self.in_place else f"compaan: {said}", "" if self.in_place else "\n")

    def end(self) -> None:
        if self.in_place and self.said:
            tell("\r\033[K", "")
        self.said = ""

    def pause(self, process: subprocess.Popen[bytes]) -> None:
        """Shows the step, and waits a moment, or until the command has ended."""
        self.show()
        with contextlib.suppress(subprocess.TimeoutExpired):
            process.wait(0.2)


def is_held_elsewhere(lock: IO[bytes]) -> bool:
    """Takes the lock, or gives that another call has it."""
    try:
        fcntl.flock(lock, fcntl.LOCK_EX | fcntl.LOCK_NB)
    except BlockingIOError:
        return True
    except OSError:
        # Some file systems have no locks. Two makers are in each other's way by nothing but time.
        return False
    return False


@contextlib.contextmanager
def alone(kind: str) -> Iterator[tuple[Progress, bool]]:
    """Waits until no other call makes a program of this kind, and shows how far that one is. Gives a progress to tell to others, and
    whether it had to wait."""
    with writing():
        state = folder() / f"{kind}.state"
        lock = open(folder() / f"{kind}.lock", "ab")
    with lock:
        waiting = Progress()
        has_waited = False
        while is_held_elsewhere(lock):
            has_waited = True
            with contextlib.suppress(OSError):
                waiting.step = f"another call makes the {kind} program: {state.read_text(encoding='utf-8', errors='replace')}"
                waiting.show()
            time.sleep(0.2)
        waiting.end()
        try:
            yield Progress(state), has_waited
        finally:
            with contextlib.suppress(OSError):
                state.unlink(missing_ok=True)
