#!/usr/bin/env python3
"""Looks at the pages of `./compaan report` in a browser.

usage: tools/check_report.py [--compaan PROGRAM] [--pictures FOLDER] [EXAMPLE]..

For each EXAMPLE of examples/ (fir, image_pipeline and red_black where none is named) it makes the page, opens it in headless Chromium
and reads the text that the browser shows: each process and each read by its line, a row for each channel with the numbers that `net`
and `trim` tell, and the clocks that `sim` counts. With --pictures it leaves a picture of each page, light and dark. It prints a line
for each page, and fails where something isn't there; without Chromium it can't begin.
"""
from __future__ import annotations

import html
import os
import re
import shutil
import subprocess
import sys
import tempfile
from pathlib import Path

from common import Example, examples, parser_of, program_of, run, stop

NAMES = ("fir", "image_pipeline", "red_black")
REPORT = Path(__file__).with_name("report.py")


def called(program: str, command: str, example: Example) -> str:
    """What the program writes for a command on an example."""
    answer = run(program, [command, *example.items], example.bundle)
    if answer.status:
        stop(f"{command} of {example.name} ended with status {answer.status}: {answer.complaint!r}")
    return answer.output.decode()


def page_of(program: str, example: Example) -> str:
    """The page, as the script writes it."""
    words = [sys.executable, str(REPORT), program, str(example.path), *example.items]
    if example.data:
        words += ["--data", str(example.path.with_suffix(".data"))]
    return subprocess.run(words, capture_output=True, check=True, env={**os.environ, "PYTHONDONTWRITEBYTECODE": "1"}).stdout.decode()


def browser(words: list[str]) -> str:
    """What headless Chromium writes."""
    room = tempfile.mkdtemp(prefix="report-")
    try:
        head = ["chromium", "--headless=new", "--no-sandbox", "--disable-gpu", "--hide-scrollbars", f"--user-data-dir={room}"]
        done = subprocess.run([*head, *words], capture_output=True, check=True, timeout=120)
        return done.stdout.decode(errors="replace")
    finally:
        shutil.rmtree(room, ignore_errors=True)


def shown_text(dom: str) -> str:
    """The text of a page, one space between words."""
    body = re.sub(r"(?s)<style.*?</style>|<title.*?</title>", " ", dom)
    return " ".join(html.unescape(re.sub(r"<[^>]*>", " ", body)).replace("\u00a0", " ").split())


def faults_of(program: str, example: Example, text: str, page: str) -> list[str]:
    """What the page lacks of what the program tells."""
    wanted = [example.name, "Source", "Network", "Channels", "The clocked run", "Queues", "Where values come from", "To look at"]
    net = called(program, "net", example)
    for number, kind, name in re.findall(r"(?m)^process (\d+) (\w+) (\w+) ", net):
        if kind != "assign":
            wanted.append(f"{number} {kind} {name}")
    trimmed = dict(re.findall(r"(?m)^channel (\d+) capacity (\d+) ", called(program, "trim", example)))
    for number, tokens, capacity, hold, form in re.findall(
        r"(?m)^channel (\d+) .* tokens (\d+) capacity (\d+) hold (\d+) class (\S+)$", net
    ):
        wanted.append(f"{form} {tokens} {hold} {capacity} {trimmed[number]}")
        wanted.append(f"c{number}: {capacity}")
    clocks = re.search(r"(?m)^clocks (\d+)$", called(program, "sim", example))
    wanted += [f"{int(clocks[1]):,} clocks".replace(",", " "), "sim counts the same."] if clocks else []
    faults = [f"{it!r} isn't shown" for it in wanted if it not in text]
    if re.search(r"(src|href)\s*=\s*[\"']?https?:", page):
        faults.append("it wants the network")
    return faults


def leave_pictures(folder: Path, example: Example, page: str, address: str) -> None:
    """Leaves a picture of a page, light and dark."""
    folder.mkdir(parents=True, exist_ok=True)
    size = f"--window-size=1180,{1500 + 34 * page.count('<tr') + 60 * page.count('<h3')}"
    browser([f"--screenshot={folder / f'report_{example.name}.png'}", size, address])
    dark = ["--force-dark-mode", "--blink-settings=preferredColorScheme=0"]
    browser([*dark, f"--screenshot={folder / f'report_{example.name}_dark.png'}", size, address])


def main() -> int:
    parser = parser_of(__doc__)
    parser.add_argument("--pictures", metavar="FOLDER", type=Path, help="leaves a picture of each page there, light and dark")
    parser.add_argument("names", nargs="*", metavar="EXAMPLE")
    given = parser.parse_args()
    if not shutil.which("chromium"):
        stop("chromium isn't here, so no page was looked at")
    program = program_of(given.compaan)
    faults = 0
    for example in examples(given.names or NAMES):
        page = page_of(program, example)
        with tempfile.TemporaryDirectory() as room:
            file = Path(room) / "report.html"
            file.write_text(page, encoding="utf-8")
            text = shown_text(browser(["--dump-dom", file.as_uri()]))
            if given.pictures:
                leave_pictures(given.pictures.resolve(), example, page, file.as_uri())
        found = faults_of(program, example, text, page)
        faults += len(found)
        print(f"{example.name}: {len(page)} bytes, {len(text.split())} words shown, {len(found)} faults", flush=True)
        for fault in found:
            print(f"  {fault}")
    return 1 if faults else 0


if __name__ == "__main__":
    sys.exit(main())
