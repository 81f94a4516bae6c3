"""The picture of a network, by Graphviz."""
from __future__ import annotations

import contextlib
import os
import subprocess

from network import graph_of, network_of
from outline import Outline

from .base import printable, put, tell
from .explain import UNEXPECTED
from .program import in_memory


def picture_of(graph: str) -> bytes | None:
    """What Graphviz draws, or None where it isn't here or fails."""
    text = in_memory(graph.encode(errors="replace"))
    try:
        return subprocess.run(["dot", "-Tsvg"], stdin=text, stdout=subprocess.PIPE, check=True).stdout
    except (OSError, subprocess.CalledProcessError) as error:
        tell(f"compaan: Graphviz doesn't draw it ({error}): this is the network's text")
        return None
    finally:
        os.close(text)


def draw(net: bytes, source: bytes, title: str) -> None:
    """Writes the picture of a network, which carries its text, or the text alone."""
    network = network_of(net.decode(errors="replace"))
    # A text that isn't of this source is drawn without it.
    outline: Outline | None = None
    with contextlib.suppress(*UNEXPECTED):
        outline = Outline(source)
    if outline is not None and len(outline.statements) != len(network.processes):
        outline = None
    picture = picture_of(graph_of(network, outline, printable(title)))
    put(picture.replace(b"<svg", b"<!--\n" + net + b"-->\n<svg", 1) if picture else net)
