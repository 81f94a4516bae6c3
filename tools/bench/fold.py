#!/usr/bin/env python3
"""Times `script_blocks::fold` on a million items of each pattern, natively.

usage: tools/bench/fold.py

No command of the program folds a list alone, so this makes a program of its own (fold.rt.txt) in a clone of what is committed, builds it there,
and prints a table: the pattern, the nodes that the items fold to, and the time of the whole program, whose making of the items is a small
part. It takes a minute or more, since what is built is proved first. It is no test, and no part of the gate.
"""
from __future__ import annotations

import subprocess
import sys
import tempfile
import time
from pathlib import Path

sys.path.insert(0, str(Path(__file__).resolve().parents[1]))
from common import TOP, head, plain_parser_of, row, stop

# In the order of the program's numbers for them; it counts its words.
PATTERNS = [
    "0, 1, 0, 1, ..",
    "two kinds at random",
    "64 kinds at random",
    "100,000 kinds at random",
    "all different",
    "a period of 300",
    "a period of 100 with one of 7 in it",
]
CRATES = "plain_data script_blocks"


def built(clone: Path) -> Path:
    """The program, proved and built in a clone of the repository."""
    subprocess.run(["git", "clone", "-q", TOP, clone], check=True)
    crate = clone / "crates" / "measure"
    (crate / "src").mkdir(parents=True)
    (crate / "src" / "main.rt").write_text(Path(__file__).with_suffix(".rt.txt").read_text(encoding="utf-8"), encoding="utf-8")
    with open(clone / "crates.txt", "a", encoding="utf-8") as crates:
        crates.write(f"measure: {CRATES}\n")
    done = subprocess.run(["rt", "run"], cwd=crate, stdout=subprocess.PIPE, stderr=subprocess.STDOUT, text=True, check=False)
    if done.returncode:
        stop(f"rt run ended with status {done.returncode}:\n{done.stdout}")
    return crate / "out" / "measure"


def main() -> int:
    plain_parser_of(__doc__).parse_args()
    with tempfile.TemporaryDirectory(prefix="compaan-fold-") as folder:
        program = built(Path(folder) / "clone")
        print(head(["Pattern", "Nodes", "Time"]))
        for number, pattern in enumerate(PATTERNS):
            start = time.perf_counter()
            done = subprocess.run([program, *["more"] * number], capture_output=True, text=True, check=True)
            print(row([pattern, done.stdout.strip(), f"{(time.perf_counter() - start) * 1000:.0f} ms"]), flush=True)
    return 0


if __name__ == "__main__":
    sys.exit(main())
