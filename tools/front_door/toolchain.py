"""Where the toolchain is."""
from __future__ import annotations

import shutil
import subprocess
from pathlib import Path

from .base import Status, Stop


class Toolchain:
    """The toolchain, by the folder of all that it has."""

    def __init__(self, folder: Path) -> None:
        self.folder = folder

    @property
    def rt(self) -> str:
        """Its command."""
        return str(self.folder / "bin" / "rt")


def toolchain() -> Toolchain:
    rt = shutil.which("rt")
    if rt is None:
        raise Stop(
            Status.NO_PROGRAM,
            "rt, the command of the toolchain that makes the program, isn't on the PATH: README.md, under 'Two commands', says which "
            "toolchain is meant",
        )
    try:
        # `rt doc` names a page at the top of that folder.
        said = subprocess.run([rt, "doc"], stdin=subprocess.DEVNULL, capture_output=True, check=False, timeout=60).stdout
    except (OSError, subprocess.TimeoutExpired) as error:
        raise Stop(Status.NO_PROGRAM, f"{rt} can't be run: {error}") from None
    page = Path(said.decode(errors="replace").strip())
    if not page.is_file():
        raise Stop(Status.NO_PROGRAM, f"{rt} doc doesn't name a page of the toolchain's folder, so {rt} isn't the toolchain of README.md")
    return Toolchain(page.parent.resolve())
