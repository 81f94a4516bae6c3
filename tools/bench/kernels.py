"""What the measures share: the programs that are measured, the same loops in C, and a sweep for last writers in C."""
from __future__ import annotations

import re
import subprocess
import tempfile
from collections.abc import Callable, Mapping
from dataclasses import dataclass
from pathlib import Path

from common import EXAMPLES
from hostile.asking import End, ask

Sizes = Mapping[str, int]

COUNTER = "param N; var a; for (i = 0; i < N; i++) a = i;"
COPIES = "param N; in x[N]; out y[N]; for (i = 0; i < N; i++) y[i] = x[i] + 1;"
# Every cell is written outside its array's extents, which C has no word for.
FAR = "param N; var a[1]; for (i = 0; i < N; i++) a[3*i + 7] = i;"


@dataclass(frozen=True)
class Kernel:
    """A source without comments, and how many points its trace has at some sizes."""

    name: str
    source: str
    points: Callable[..., int]


def example(name: str) -> str:
    """The source of an example without its comments."""
    return re.sub(r"//[^\n]*", "", (EXAMPLES / f"{name}.loop").read_text(encoding="utf-8"))


PRODUCT = Kernel("matrix product", example("matrix_product"), lambda N: 4 * N * N + N**3)
STENCIL = Kernel("1-D stencil", example("jacobi_1d"), lambda N, T: 2 * N + 2 * T * (N - 2))
COPY = Kernel("copy", COPIES, lambda N: 3 * N)
COUNT = Kernel("counter", COUNTER, lambda N: N)


def items_of(sizes: Sizes) -> list[str]:
    return [f"{name}={value}" for name, value in sizes.items()]


# ------------------------------------------------------------------------------------------------------------ the data


def arrays_of(source: str) -> list[tuple[str, str, list[str]]]:
    """The declared arrays: kind, name, extents."""
    found = []
    for kind, names in re.findall(r"\b(in|out|inout|var)\s+([^;]*);", source):
        for name, extents in re.findall(r"(\w+)((?:\[[^\]]*\])*)\s*(?:,|$)", names):
            found.append((kind, name, re.findall(r"\[([^\]]*)\]", extents)))
    return found


def cells_of(extents: list[str], sizes: Sizes) -> int:
    cells = 1
    for extent in extents:
        # (an extent is an affine expression of sizes)
        cells *= max(0, eval(extent, {"__builtins__": {}}, dict(sizes)))  # noqa: S307
    return cells


def data_of(source: str, sizes: Sizes) -> bytes:
    """Small numbers for each array that is given, in a pattern that C makes too."""
    lines = []
    for number, (kind, name, extents) in enumerate(arrays_of(source)):
        if kind in ("in", "inout"):
            values = ((7 * k + 3 + number) % 11 - 5 for k in range(cells_of(extents, sizes)))
            lines.append(",".join([name, *map(str, values)]) + "\n")
    return "".join(lines).encode()


# ------------------------------------------------------------------------------------------------------- the same in C


def c_program(source: str, sizes: Sizes, rounds: int) -> str:
    """The loops in C, run so many times, with the nanoseconds of one round on standard output."""
    declared = arrays_of(source)
    body = re.sub(r"\b(param|in|out|inout|var)\b[^;]*;", "", source)
    body = re.sub(r"\bfor\s*\(\s*(?:int\s+)?", "for (int64_t ", body)
    # a scalar is a variable, and an array's cells lie within its extents
    text = ["#include <stdint.h>", "#include <stdio.h>", "#include <time.h>"]
    text += ["#define max(a, b) ((a) > (b) ? (a) : (b))", "#define min(a, b) ((a) < (b) ? (a) : (b))"]
    text.append(f"enum {{ {', '.join(f'{name} = {value}' for name, value in sizes.items())} }};")
    text += [f"static int64_t {name}{''.join(f'[{it}]' for it in extents)};" for _, name, extents in declared]
    text.append(f"__attribute__((noinline)) static void kernel(void) {{\n{body}\n}}")
    text.append("int main(void) {")
    for number, (kind, name, extents) in enumerate(declared):
        if kind in ("in", "inout"):
            cells = cells_of(extents, sizes)
            text.append(f"  for (int64_t k = 0; k < {cells}; k++) ((int64_t *)&{name})[k] = (7 * k + 3 + {number}) % 11 - 5;")
    escaping = ", ".join(f'"r"(&{name})' for _, name, _ in declared)
    text.append("  struct timespec a, b; clock_gettime(CLOCK_MONOTONIC, &a);")
    text.append(f'  for (int r = 0; r < {rounds}; r++) {{ kernel(); __asm__ volatile("" :: {escaping} : "memory"); }}')
    text.append("  clock_gettime(CLOCK_MONOTONIC, &b);")
    text.append(f'  printf("%.1f\\n", ((b.tv_sec - a.tv_sec) * 1e9 + (b.tv_nsec - a.tv_nsec)) / {rounds});')
    return "\n".join([*text, "  return 0;", "}"])


def printed(text: str, *flags: str) -> float:
    """The least number that a program in C prints in three runs."""
    with tempfile.TemporaryDirectory() as folder:
        program = Path(folder) / "program"
        program.with_suffix(".c").write_text(text, encoding="utf-8")
        subprocess.run(["cc", "-O2", *flags, "-o", program, program.with_suffix(".c")], check=True)
        return min(float(subprocess.run([program], check=True, capture_output=True).stdout) for _ in range(3))


def nanoseconds_in_c(source: str, sizes: Sizes, rounds: int = 20) -> float:
    return printed(c_program(source, sizes, rounds), "-fwrapv")


# The last writers of a matrix product: over an array with one entry for each cell.
SWEEP = """
#include <stdint.h>
#include <stdio.h>
#include <time.h>
enum { N = 100 };
static uint32_t A[N][N], B[N][N], C[N][N], sources[3][N * N * N];
__attribute__((noinline)) static void sweep(void) {
  uint32_t t = 2 * N * N;
  for (int i = 0; i < N; i++)
    for (int j = 0; j < N; j++) {
      C[i][j] = t++;
      for (int k = 0; k < N; k++) {
        uint32_t use = (i * N + j) * N + k;
        sources[0][use] = C[i][j];
        sources[1][use] = A[i][k];
        sources[2][use] = B[k][j];
        C[i][j] = t++;
      }
    }
}
int main(void) {
  struct timespec a, b;
  clock_gettime(CLOCK_MONOTONIC, &a);
  for (int r = 0; r < 20; r++) { sweep(); __asm__ volatile("" :: "r"(&sources), "r"(&C) : "memory"); }
  clock_gettime(CLOCK_MONOTONIC, &b);
  printf("%.2f\\n", ((b.tv_sec - a.tv_sec) * 1e9 + (b.tv_nsec - a.tv_nsec)) / 20.0 / (N * N + N * N * N));
  return 0;
}
"""
MAP = """static struct { uint64_t key; uint32_t writer; } map[1 << 16];
static uint32_t *at(uint64_t array, uint64_t i, uint64_t j) {
  uint64_t key = (array * N + i) * N + j + 1, place = key * 0x9E3779B97F4A7C15u >> 48;
  while (map[place].key != 0 && map[place].key != key) place = (place + 1) & 0xFFFF;
  map[place].key = key;
  return &map[place].writer;
}
static uint32_t"""


def hashed_sweep() -> str:
    """The same sweep with the last writers in a hash map, whose keys are the array's number and the cell's place."""
    text = SWEEP.replace("static uint32_t A[N][N], B[N][N], C[N][N],", MAP)
    for array, name in enumerate("ABC"):
        text = re.sub(rf"\b{name}\[(\w)\]\[(\w)\]", rf"*at({array}, \1, \2)", text)
    return text.replace('"r"(&C)', '"r"(&map)')


# --------------------------------------------------------------------------------------------------------- the program


@dataclass(frozen=True)
class Taken:
    """What a call of the program takes: the least seconds and the greatest memory of several runs."""

    seconds: float
    kilobytes: int

    def less(self, base: Taken) -> Taken:
        return Taken(self.seconds - base.seconds, self.kilobytes - base.kilobytes)


class Refused(Exception):
    """The program didn't do what it was measured at."""


def taken(program: str, words: list[str], bundle: bytes = b"", rounds: int = 5, output: int | None = None) -> Taken:
    """Measures calls of the program. What they write goes into this file, or nowhere."""
    ends: list[End] = []
    with open("/dev/null", "wb") as nowhere:
        for _ in range(rounds):
            ends.append(ask(program, words, bundle, limit=3600, stdout=nowhere.fileno() if output is None else output))
            if ends[-1].status:
                raise Refused(
                    f"{program} {' '.join(words)} ended with status {ends[-1].status}: {ends[-1].complaint.decode(errors='replace')}"
                )
    return Taken(min(it.seconds for it in ends), max(it.kilobytes for it in ends))
