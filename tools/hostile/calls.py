#!/usr/bin/env python3
"""What the built program asks the system for, by each command: a table of its calls, and of the files that it opens.

usage: tools/hostile/calls.py [--compaan PROGRAM]

It wants strace and nm. It fails where a command opens a file behind its start, makes a call that isn't in the table of those that it may
make (reading and writing its streams, memory, threads and their waits), takes of the C library what opens files, asks for a network or
starts a program, or answers otherwise than without strace. A program without a loader is judged by its calls alone. (memory.py counts how
often the environment is read.) It is a test, outside the proof.
"""
from __future__ import annotations

import re
import shutil
import subprocess
import sys
import tempfile
from collections import Counter
from pathlib import Path

sys.path.insert(0, str(Path(__file__).resolve().parents[1]))
from common import Answer, bundled, examples, head, parser_of, program_of, row, run, stop

COMMANDS = ("run", "seq", "net", "cert", "check", "deps", "vhdl", "sim", "trim", "trace", "load", "")
# What a command may ask for behind the loader's calls: its streams, memory, threads with their waits and its end, and the start of a program.
STREAMS = {"read", "write"}
MEMORY = {"brk", "mmap", "munmap", "mremap", "mprotect", "madvise"}
THREADS = {"clone", "clone3", "futex", "sched_yield", "exit", "exit_group", "set_robust_list", "rseq", "rt_sigaction", "rt_sigprocmask"}
START = {"getrandom", "arch_prctl", "prlimit64", "set_tid_address"}
MAY = STREAMS | MEMORY | THREADS | START
CALL = re.compile(r"(?m)^\d+ +([a-z_0-9]+)\(")
OPENED = re.compile(r'(?m)^\d+ +open(?:at)?\([^"]*"([^"]*)".*= \d')
FORBIDDEN = re.compile(r"(open(at)?(64)?|fopen(64)?|socket|connect|bind|listen|execv[pe]*|fork|system|popen|dlopen)")


def own_calls(log: str) -> tuple[str, str]:
    """The lines of a log of strace from the program's own start on, and those behind the loader's calls."""
    lines = [it for it in log.split("\n") if not re.match(r"\d+ *(\+\+\+|---)", it)]
    # env is the first program that is begun, and this is the second
    begun = [at for at, it in enumerate(lines) if "execve(" in it]
    own = lines[begun[-1] + 1 :]
    # where there is a loader, its last call gives back its cache
    ends = [at for at, it in enumerate(own) if "munmap(" in it]
    is_loaded = any("ld.so.cache" in it for it in own)
    behind = own[ends[0] + 1 :] if is_loaded and ends else own
    return "\n".join(own), "\n".join(behind)


def traced(program: str, words: list[str], bundle: bytes, log: Path) -> tuple[Answer, str]:
    """How the program ends under strace without an environment, and the log."""
    before = ["strace", "-f", "-qq", "-o", str(log), "env", "-i", program]
    answer = run(before[0], [*before[1:], *words], bundle)
    return answer, log.read_text(errors="replace")


def taken_of_library(program: str) -> list[str]:
    """The names that the program takes of shared libraries."""
    done = subprocess.run(["nm", "-D", "--undefined-only", program], capture_output=True, text=True, check=False)
    return sorted({line.split()[-1].partition("@")[0] for line in done.stdout.splitlines() if line.strip()})


def main() -> int:
    program = program_of(parser_of(__doc__).parse_args().compaan)
    for it in ("strace", "nm"):
        if not shutil.which(it):
            stop(f"there is no {it}")
    fir = examples(["fir"])[0]
    certificate = run(program, ["cert", *fir.items], fir.source).output
    bundle = bundled(fir.source, fir.data, certificate)
    faults: list[str] = []
    print(head(["Command", "Files that are opened", "System calls behind the loader's"]))
    with tempfile.TemporaryDirectory(prefix="compaan-calls-") as folder:
        for command in COMMANDS:
            words = [command, *(["2"] if command == "load" else fir.items)] if command else []
            answer, log = traced(program, words, bundle, Path(folder) / "log")
            own, behind = own_calls(log)
            counts = Counter(CALL.findall(behind))
            told = ", ".join(f"{name} {count}" for name, count in sorted(counts.items()))
            print(row([command or "no words", " ".join(OPENED.findall(own)), told]), flush=True)
            faults += [f"{command}: it asks for {name}" for name in counts if name not in MAY]
            faults += [f"{command}: it opens {name}" for name in OPENED.findall(behind)]
            plain = run("env", ["-i", program, *words], bundle)
            # each call of trace may come to another run
            if (answer.status, answer.complaint) != (plain.status, plain.complaint) or (command != "trace" and answer != plain):
                faults.append(f"{command}: another answer under strace")
    names = taken_of_library(program)
    print(f"\nWhat it takes of the C library:\n{' '.join(names)}")
    faults += [f"{name} is among what it takes of the C library" for name in names if FORBIDDEN.fullmatch(name)]
    for it in faults:
        print(it)
    print(f"{len(COMMANDS)} commands, {len(faults)} faults")
    return 1 if faults else 0


if __name__ == "__main__":
    sys.exit(main())
