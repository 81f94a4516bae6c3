"""Runs what makes the program. A signal that ends the script ends that first."""
from __future__ import annotations

import contextlib
import os
import subprocess
from collections.abc import Iterator, Sequence
from typing import Any

from .program import Passing


@contextlib.contextmanager
def started(words: Sequence[str | os.PathLike[str]], **how: Any) -> Iterator[subprocess.Popen[bytes]]:
    """Starts a command. A signal to the script goes to the command, and ends the script when the command has ended. A command with a
    session of its own gets it with all that it started."""
    with Passing() as passing:
        process = subprocess.Popen(words, **how)
        passing.runs(lambda number: os.killpg(process.pid, number) if how.get("start_new_session") else process.send_signal(number))
        with process:
            yield process
