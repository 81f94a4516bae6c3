#!/usr/bin/env python3
"""Random small sources whose loops have steps, run by the built program and in C. It is a test, outside the proof.

usage: tools/examples/steps.py [--seed SEED] [--count COUNT] [--compaan PROGRAM]

Each source is written as C too, and all of them are compiled in one program by cc. Its arrays must be those of `run`, `seq` and `sim`, and
its executions of each assignment those that `net` tells as fires. What `cert` writes must be accepted by `check`. Statuses and complaints
are compared with outputs. Prints one line for each difference, and fails where there is one. The same seed makes the same sources.
"""
from __future__ import annotations

import random
import re
import subprocess
import sys
import tempfile
from collections.abc import Iterator, Sequence
from dataclasses import dataclass
from pathlib import Path

sys.path.insert(0, str(Path(__file__).resolve().parents[1]))
from common import Answer, bundled, parser_of, program_of, run


@dataclass(frozen=True)
class Array:
    """An array of every source: its declaration, its name, the number of its subscripts and cells, and its part."""

    declaration: str
    name: str
    subscripts: int
    cells: int
    is_given: bool
    is_printed: bool


ARRAYS = [
    Array("in x[12]", "x", 1, 12, True, False),
    Array("inout z[9]", "z", 1, 9, True, True),
    Array("var t", "t", 0, 1, False, False),
    Array("out m[4][4]", "m", 2, 16, False, True),
    Array("out y[12]", "y", 1, 12, False, True),
    Array("out s", "s", 0, 1, False, True),
]
PRINTED = [it for it in ARRAYS if it.is_printed]

# Subscripts may lie outside the extents, so the arrays of C begin in the middle of larger ones.
C_HEAD = """#include <inttypes.h>
#include <stdio.h>
#include <string.h>
typedef int64_t i64;
static i64 min(i64 a, i64 b) { return a < b ? a : b; }
static i64 max(i64 a, i64 b) { return a > b ? a : b; }
static i64 lines[3][8192], plane[2048][2048], t, s, fires[64];
static i64 *const x = lines[0] + 4096, *const z = lines[1] + 4096, *const y = lines[2] + 4096;
static i64 (*const m)[2048] = (i64 (*)[2048])&plane[1024][1024];
static i64 corner[16];
static void tell(const char *name, const i64 *cells, int count) {
  printf("%s", name);
  for (int k = 0; k < count; k++) printf(",%" PRId64, cells[k]);
  puts("");
}
"""


class Source:
    """A random source as compaan and C take it. The variables of the loops round a place are `inside`."""

    def __init__(self, pick: random.Random) -> None:
        self.pick = pick
        self.params = {"N": pick.randint(1, 6), "M": pick.randint(-4, 4), "K": pick.randint(1, 4)}
        self.data = {it.name: [pick.randint(-9, 9) for _ in range(it.cells)] for it in ARRAYS if it.is_given}
        self.assignments = 0
        body = [self.statement([], 0) for _ in range(pick.randint(1, 3))]
        self.source = "param N, M, K; " + " ".join(f"{it.declaration};" for it in ARRAYS) + "".join(source for source, _ in body)
        self.body = "".join(c for _, c in body)

    def affine(self, inside: Sequence[str]) -> str:
        """An affine expression with small numbers."""
        pick = self.pick
        text = str(pick.randint(-5, 6))
        if pick.random() < 0.4:
            text = pick.choice(["N", "M", "K", "2 * K", "-N"]) + pick.choice([" + ", " - "]) + text.lstrip("-")
        for name in inside:
            if pick.random() < 0.5:
                text = pick.choice([f"{name} + ", f"{name} - ", f"2 * {name} - ", f"-{name} + ", f"3 * ({name} - 1) + "]) + text.lstrip("-")
        return text

    def subscript(self, inside: Sequence[str]) -> str:
        if inside and self.pick.random() < 0.6:
            return self.pick.choice(inside) + self.pick.choice(["", " + 1", " - 1", " + 2"])
        return self.affine(inside)

    def access(self, inside: Sequence[str], names: str) -> str:
        """A cell of an array of these names."""
        array = self.pick.choice([it for it in ARRAYS if it.name in names])
        return array.name + "".join(f"[{self.subscript(inside)}]" for _ in range(array.subscripts))

    def value(self, inside: Sequence[str], reads: int) -> str:
        """A right side with at most so many reads."""
        pick = self.pick
        if reads > 1:
            left, right = self.value(inside, reads // 2), self.value(inside, reads - reads // 2)
            return pick.choice(["{} + {}", "{} - ({})", "({}) * ({})", "min({}, {})", "max({}, {})"]).format(left, right)
        if reads == 1 and pick.random() < 0.7:
            return self.access(inside, "xztmys")
        return pick.choice([*inside * 2, "N", "M", "-(K)", "7"])

    # Each statement as compaan takes it, and as C does.

    def assignment(self, inside: Sequence[str]) -> tuple[str, str]:
        number = self.assignments
        self.assignments += 1
        value = f"{self.value(inside, self.pick.randint(1, 4))} + {self.pick.choice([*inside, '1'])}"
        text = f"{self.access(inside, 'ztmys')} = {value};"
        return text, f"{{ fires[{number}]++; {text} }}"

    def guard(self, inside: Sequence[str], depth: int) -> tuple[str, str]:
        sign = self.pick.choice(["<", "<=", ">", ">=", "=="])
        head = f"if ({self.affine(inside)} {sign} {self.affine(inside)}) "
        source, c = self.statement(inside, depth)
        return head + source, head + c

    def loop(self, inside: Sequence[str], depth: int) -> tuple[str, str]:
        pick, name = self.pick, "ijk"[depth]
        ones = ["{}++", "++{}", "{} += 1", "{} += 2 - 1"]
        step = pick.choice([*ones, *["{} += 2", "{} += 3", "{} += 5"] * 2, "{} += K", "{} += 2 * K - 1", "{} += N + 40"]).format(name)
        lower = self.affine(inside)
        upper = pick.choice([self.affine(inside) + " + 5", f"{lower} + 9", "9"])
        if not set(step) & set("23456789KN") and pick.random() < 0.5:
            lower = f"max({lower}, {self.affine(inside)})"
        if pick.random() < 0.3:
            upper = f"min({upper}, {self.affine(inside)} + 9)"
        head = f"{name} = {lower}; {name} {pick.choice(['<', '<='])} {upper}; {step}) "
        source, c = self.statement([*inside, name], depth + 1)
        return "for (" + head + source, "for (i64 " + head + c

    def statement(self, inside: Sequence[str], depth: int) -> tuple[str, str]:
        pick = self.pick
        kind = pick.random()
        if kind < (0.9, 0.6, 0.4, 0)[depth]:
            return self.loop(inside, depth)
        if kind < (0.95, 0.7, 0.6, 0.3)[depth]:
            return self.guard(inside, depth)
        parts = [self.assignment(inside), *([self.statement(inside, depth)] if pick.random() < 0.3 else [])]
        return "{ " + " ".join(source for source, _ in parts) + " }", "{ " + " ".join(c for _, c in parts) + " }"

    def words(self) -> list[str]:
        return [f"{name}={value}" for name, value in self.params.items()]

    def data_text(self) -> bytes:
        return "".join(",".join([name, *map(str, cells)]) + "\n" for name, cells in self.data.items()).encode()

    def c_function(self, number: int) -> str:
        lines = [f"static void source_{number}(void) {{", "memset(lines, 0, sizeof lines); memset(plane, 0, sizeof plane);"]
        lines += ["memset(fires, 0, sizeof fires); t = s = 0;", f"const i64 {', '.join(self.words())};"]
        lines += [f"{name}[{at}] = {cell};" for name, cells in self.data.items() for at, cell in enumerate(cells)]
        lines += [self.body, "(void)N; (void)M; (void)K;"]
        lines += ["for (int k = 0; k < 16; k++) corner[k] = m[k / 4][k % 4];"]
        lines += [f'tell("{it.name}", {("&" + it.name, it.name, "corner")[it.subscripts]}, {it.cells});' for it in PRINTED]
        return "\n".join([*lines, f'tell("fires", fires, {self.assignments});', "}"])


def in_c(sources: Sequence[Source]) -> Iterator[tuple[bytes, list[str]]]:
    """What C makes of each source: its answer, and how often each assignment is executed."""
    calls = "".join(f"  source_{number}();\n" for number in range(len(sources)))
    functions = [it.c_function(number) for number, it in enumerate(sources)]
    with tempfile.TemporaryDirectory() as folder:
        program = Path(folder) / "sources"
        text = program.with_suffix(".c")
        text.write_text("\n".join([C_HEAD, *functions, f"int main(void) {{\n{calls}  return 0;\n}}\n"]), encoding="utf-8")
        subprocess.run(["cc", "-w", "-O1", "-fwrapv", "-o", program, text], check=True)
        printed = subprocess.run([program], check=True, capture_output=True, text=True).stdout.splitlines()
    each = len(PRINTED) + 1
    for at in range(0, len(printed), each):
        *answer, fires = printed[at : at + each]
        yield "".join(it + "\n" for it in answer).encode(), fires.split(",")[1:]


def without_clocks(answer: Answer) -> Answer:
    """What `sim` wrote before its last line, which tells clocks."""
    return Answer(answer.status, re.sub(rb"clocks \d+\n\Z", b"", answer.output), answer.complaint)


def assigned(net: Answer) -> list[str]:
    """How often each assignment fires."""
    return re.findall(r"(?m)^process \d+ assign \w+ fires (\d+) slots \d+$", net.output.decode())


def compare(program: str, source: Source, words: list[str], answer: bytes, fires: list[str]) -> Iterator[tuple[str, object, object]]:
    """Each command with what is found and what is wanted."""
    text, wanted = source.source.encode(), Answer(0, answer, b"")
    bundle = bundled(text, source.data_text())
    for command in ("run", "seq"):
        yield command, run(program, [command, *words], bundle), wanted
    yield "sim", without_clocks(run(program, ["sim", *words], bundle)), wanted
    net = run(program, ["net", *words], text)
    yield "net", (net.status, assigned(net), net.complaint), (0, fires, b"")
    certificate = run(program, ["cert", *words], text)
    yield "cert", (certificate.status, certificate.complaint), (0, b"")
    yield "check", run(program, ["check", *words], bundled(text, b"\n", certificate.output)), Answer(0, b"accepted\n", b"")


def main() -> int:
    parser = parser_of(__doc__)
    parser.add_argument("--seed", type=int, default=1, help="the seed (1)")
    parser.add_argument("--count", type=int, default=300, help="how many sources are made (300)")
    given = parser.parse_args()
    program, pick = program_of(given.compaan), random.Random(given.seed)
    sources = [Source(pick) for _ in range(given.count)]
    compared = differing = executed = 0
    for source, (answer, fires) in zip(sources, in_c(sources)):
        words = [*source.words(), f"--policy={pick.choice(['seq', 'down'])}"]
        for command, got, wanted in compare(program, source, words, answer, fires):
            compared += 1
            if got != wanted:
                differing += 1
                print(f"{command} {' '.join(words)}: {got!r} for {wanted!r} of\n{source.source}", flush=True)
        executed += sum(int(it) for it in fires)
    print(f"{given.count} sources with {executed} executed assignments, {compared} compared, {differing} different")
    return 1 if differing or not compared else 0


if __name__ == "__main__":
    sys.exit(main())
