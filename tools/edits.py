#!/usr/bin/env python3
"""The edits of the crates: wrong bodies that the contracts must refuse, each a changed line of the code.

usage: tools/edits.py check               no proof: each `old:` text stands exactly once in its file of src/, and is changed
       tools/edits.py try CRATE..         tries those of these crates in a clone, as the gate tries those of must-fail/

Those in crates/NAME/must-fail/ are tried by the gate. Those in crates/NAME/edits/ aren't: whoever changes such a crate tries them.
`try` clones what is committed, puts the edits of both folders into must-fail/ there and lets `rt must-fail` try them, which begins
with a proof of each crate, and takes half a minute an edit. It ends with that command's status.
"""
from __future__ import annotations

import os
import re
import shutil
import subprocess
import sys
import tempfile
from pathlib import Path

from common import TOP, plain_parser_of, stop

FOLDERS = ("must-fail", "edits")


def edits_of(crate: Path) -> list[Path]:
    """The edits of a crate, in both folders."""
    return [path for folder in FOLDERS for path in sorted((crate / folder).glob("*"))]


def faults_of(edit: Path) -> list[str]:
    """What keeps an edit from being applied, or from showing anything."""
    if not re.fullmatch(r"[a-z0-9_]+\.edit", edit.name):
        return ["its name is no name of an edit"]
    faults: list[str] = []
    crate, name, old = edit.parent.parent, "", None
    texts: dict[str, str] = {}
    before: dict[str, str] = {}
    for line in edit.read_text(encoding="utf-8").split("\n"):
        word, _, rest = line.partition(" ")
        if word == "file:":
            name = rest.strip()
            if not name.startswith("src/"):
                faults.append(f"{name} is no file of the code")
            if not (crate / name).is_file():
                return [*faults, f"there is no file {name}"]
            texts.setdefault(name, (crate / name).read_text(encoding="utf-8"))
            before.setdefault(name, texts[name])
        elif word == "old:":
            old = rest
            count = texts.get(name, "").count(old)
            if count != 1:
                faults.append(f"{old!r} stands {count} times in {name}")
        elif word == "new:" and old is not None:
            texts[name] = texts[name].replace(old, rest, 1)
            old = None
        elif line.strip():
            faults.append(f"a line that isn't read: {line!r}")
    if old is not None or not texts or texts == before:
        faults.append("it changes nothing")
    return faults


def check() -> int:
    """Prints each fault of an edit, and how many there are of both kinds."""
    found = [edit for crate in sorted((TOP / "crates").iterdir()) for edit in edits_of(crate)]
    faults = 0
    for edit in found:
        for fault in faults_of(edit):
            faults += 1
            print(f"{edit.relative_to(TOP)}: {fault}")
    tried = sum(edit.parent.name == "must-fail" for edit in found)
    crates = len({edit.parent.parent for edit in found if edit.parent.name == "must-fail"})
    print(f"{tried} edits of {crates} crates that the gate tries, {len(found) - tried} beside it, {faults} faults")
    return 1 if faults or not tried else 0


def attempt(names: list[str]) -> int:
    """Tries all edits of these crates in a clone."""
    lacking = [name for name in names if not edits_of(TOP / "crates" / name)]
    if lacking:
        stop(f"no edits: {' '.join(lacking)}")
    room = tempfile.mkdtemp(prefix="edits-")
    try:
        clone = Path(room) / "clone"
        subprocess.run(["git", "clone", "--quiet", str(TOP), str(clone)], check=True)
        for name in names:
            into = clone / "crates" / name / "must-fail"
            into.mkdir(exist_ok=True)
            for edit in edits_of(clone / "crates" / name):
                if edit.parent != into:
                    shutil.move(edit, into / edit.name)
        return subprocess.run(["rt", "must-fail", *names], cwd=clone, check=False).returncode
    finally:
        shutil.rmtree(room, ignore_errors=True)


def main() -> int:
    parser = plain_parser_of(__doc__)
    commands = parser.add_subparsers(dest="command", required=True, prog=f"tools/{Path(__file__).name}")
    commands.add_parser("check", help="look at each edit, without a proof")
    trying = commands.add_parser("try", help="try the edits of crates in a clone")
    trying.add_argument("crates", nargs="+", metavar="CRATE")
    words = parser.parse_args()
    os.chdir(TOP)
    return check() if words.command == "check" else attempt(words.crates)


if __name__ == "__main__":
    sys.exit(main())
