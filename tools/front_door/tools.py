"""Runs another of the tools."""
from __future__ import annotations

import shutil
import subprocess
import sys

from .base import HERE

NEW_ENOUGH = "import sys, {}; sys.exit(sys.version_info < (3, 11))"


def run_tool(python: str, name: str, words: list[str]) -> int:
    """Runs one of the tools by this Python, and gives its status."""
    return subprocess.run([python, "-B", f"{HERE}/tools/{name}", *words], check=False).returncode


def with_package(package: str) -> str:
    """A Python that has this package: the one that runs, or that of the PATH. If neither has, the one that runs, and the tool says so."""
    for python in (sys.executable, shutil.which("python3")):
        if python is not None:
            trying = subprocess.run([python, "-c", NEW_ENOUGH.format(package)], stdin=subprocess.DEVNULL, capture_output=True, check=False)
            if trying.returncode == 0:
                return python
    return sys.executable
