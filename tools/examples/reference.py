#!/usr/bin/env python3
"""The answers of the examples, computed without compaan and without its loops, from what each kernel means.

usage: tools/examples/reference.py          compares the answer of every example with what is computed here
       tools/examples/reference.py NAME     prints the answer of one

Matrix products are sums over rows and columns, filters are products of polynomials, shortest paths go by Bellman and Ford,
pairs of bases are counted by trying them, and so on. Only the relaxations and factorizations, which mean no more than their
steps, are done step by step.
"""
from __future__ import annotations

import functools
import itertools
import sys
from collections.abc import Callable, Iterable, Iterator, Sequence
from pathlib import Path

sys.path.insert(0, str(Path(__file__).resolve().parents[1]))
from common import Example, examples, plain_parser_of, stop

Cells = list[int]
Rows = list[list[int]]
# The cells of each array that is printed, in the order of the answer.
Answer = dict[str, Cells]
KERNELS: dict[str, Callable[..., Answer]] = {}


def kernel(function: Callable[..., Answer]) -> Callable[..., Answer]:
    """A function that computes the example of its name, of the values of its parameters and the cells of its arrays."""
    return named(function.__name__)(function)


def named(name: str) -> Callable[[Callable[..., Answer]], Callable[..., Answer]]:
    """The same for an example of another name."""

    def kept(function: Callable[..., Answer]) -> Callable[..., Answer]:
        KERNELS[name] = function
        return function

    return kept


def wrapped(value: int) -> int:
    """The value in 64-bit two's complement."""
    return (value + 2**63) % 2**64 - 2**63


def matrix(cells: Cells, columns: int) -> Rows:
    return [cells[i : i + columns] for i in range(0, len(cells), columns)]


def flat(rows: Iterable[Iterable[int]]) -> Cells:
    return [it for row in rows for it in row]


def turned(rows: Rows) -> Rows:
    return [list(column) for column in zip(*rows)]


def product(a: Rows, b: Rows) -> Rows:
    return [[sum(x * y for x, y in zip(row, column)) for column in zip(*b)] for row in a]


def scaled_sum(alpha: int, a: Rows, beta: int, b: Rows) -> Rows:
    return [[alpha * x + beta * y for x, y in zip(r, s)] for r, s in zip(a, b)]


def convolved(x: Sequence[int], h: Sequence[int]) -> Cells:
    """The product of two polynomials, as far as x goes."""
    return [sum(h[k] * x[n - k] for k in range(min(n + 1, len(h)))) for n in range(len(x))]


@kernel
def running_sum(N: int) -> Answer:
    return {"y": [i * (i + 1) // 2 for i in range(N)]}


@kernel
def stencil_1d(N: int, T: int) -> Answer:
    # The squares have a constant second difference, but the ends stay, so it is done step by step.
    a = [i * i for i in range(N)]
    for _ in range(T):
        a = [sum(a[i - 1 : i + 2]) if 0 < i < N - 1 else a[i] for i in range(N)]
    return {"a": a}


@kernel
def matrix_product(N: int, A: Cells, B: Cells) -> Answer:
    return {"C": flat(product(matrix(A, N), matrix(B, N)))}


@kernel
def matrix_vector(M: int, N: int, A: Cells, x: Cells) -> Answer:
    return {"y": flat(product(matrix(A, N), [[it] for it in x]))}


@kernel
def transpose(M: int, N: int, A: Cells) -> Answer:
    return {"B": flat(turned(matrix(A, N)))}


@kernel
def fir(N: int, T: int, x: Cells, h: Cells) -> Answer:
    return {"y": convolved(x, h)}


@kernel
def prefix_sum(N: int, s: Cells) -> Answer:
    return {"s": [sum(s[: i + 1]) for i in range(N)]}


@kernel
def jacobi_1d(N: int, T: int, a: Cells) -> Answer:
    for _ in range(T):
        a = [a[i - 1] + 2 * a[i] + a[i + 1] if 0 < i < N - 1 else a[i] for i in range(N)]
    return {"a": a}


def neighbours(a: Rows, i: int, j: int, reach: int) -> Cells:
    """The cells round a cell, itself included: the four beside it at reach 1, the eight at reach 2."""
    return [a[i + p][j + q] for p in (-1, 0, 1) for q in (-1, 0, 1) if abs(p) + abs(q) <= reach]


def inner(N: int) -> Iterator[tuple[int, ...]]:
    return itertools.product(range(1, N - 1), repeat=2)


@kernel
def jacobi_2d(N: int, T: int, a: Cells) -> Answer:
    rows = matrix(a, N)
    for _ in range(T):
        swept = {(i, j): sum(neighbours(rows, i, j, 1)) for i, j in inner(N)}
        rows = [[swept.get((i, j), rows[i][j]) for j in range(N)] for i in range(N)]
    return {"a": flat(rows)}


def relaxed(a: Cells, N: int, T: int, reach: int) -> Cells:
    rows = matrix(a, N)
    for _ in range(T):
        for i, j in inner(N):
            rows[i][j] = sum(neighbours(rows, i, j, reach))
    return flat(rows)


@kernel
def gauss_seidel(N: int, T: int, a: Cells) -> Answer:
    return {"a": relaxed(a, N, T, 1)}


@kernel
def seidel_2d(N: int, T: int, A: Cells) -> Answer:
    return {"A": relaxed(A, N, T, 2)}


@kernel
def floyd_warshall(N: int, d: Cells) -> Answer:
    # Bellman and Ford's way: paths of one step more, N times.
    steps = matrix(d, N)
    paths = steps
    for _ in range(N):
        paths = [[min(paths[i][j], min(paths[i][k] + steps[k][j] for k in range(N))) for j in range(N)] for i in range(N)]
    return {"d": flat(paths)}


@kernel
def lu(N: int, a: Cells) -> Answer:
    rows = matrix(a, N)
    for k in range(N):
        below = [rows[i][k] * rows[k][k] for i in range(k + 1, N)]
        for i, factor in enumerate(below, k + 1):
            rows[i] = [*rows[i][:k], factor, *(wrapped(x - factor * y) for x, y in zip(rows[i][k + 1 :], rows[k][k + 1 :]))]
    return {"a": flat(rows)}


@kernel
def cholesky(N: int, a: Cells) -> Answer:
    rows = matrix(a, N)
    for j in range(N):
        rows[j][j] = wrapped(rows[j][j] - sum(it * it for it in rows[j][:j]))
        for i in range(j + 1, N):
            rows[i][j] = wrapped((rows[i][j] - sum(x * y for x, y in zip(rows[i][:j], rows[j][:j]))) * rows[j][j])
    return {"a": flat(rows)}


@kernel
def image_pipeline(H: int, W: int, image: Cells) -> Answer:
    pixels = matrix(image, W)
    weights = (1, 2, 1)

    def blurred(y: int, x: int) -> int:
        return sum(v * w * pixels[y + p][x + q] for (p, v), (q, w) in itertools.product(enumerate(weights, -1), repeat=2))

    inside = {(y, x): max(0, min(255, 16 * pixels[y][x] - blurred(y, x))) for y in range(1, H - 1) for x in range(1, W - 1)}
    return {"edges": [inside.get(it, 0) for it in itertools.product(range(H), range(W))]}


@kernel
def gemm(NI: int, NJ: int, NK: int, alpha: Cells, beta: Cells, A: Cells, B: Cells, C: Cells) -> Answer:
    return {"C": flat(scaled_sum(alpha[0], product(matrix(A, NK), matrix(B, NJ)), beta[0], matrix(C, NJ)))}


@named("2mm")
def two_products(NI: int, NJ: int, NK: int, NL: int, alpha: Cells, beta: Cells, A: Cells, B: Cells, C: Cells, D: Cells) -> Answer:
    # A (B C), where the loops compute (A B) C
    whole = product(matrix(A, NK), product(matrix(B, NJ), matrix(C, NL)))
    return {"D": flat(scaled_sum(alpha[0], whole, beta[0], matrix(D, NL)))}


@kernel
def syrk(N: int, M: int, alpha: Cells, beta: Cells, A: Cells, C: Cells) -> Answer:
    left, old = matrix(A, M), matrix(C, N)
    new = scaled_sum(alpha[0], product(left, turned(left)), beta[0], old)
    return {"C": [new[i][j] if j <= i else old[i][j] for i in range(N) for j in range(N)]}


@kernel
def trisolv(N: int, L: Cells, b: Cells) -> Answer:
    # x = (1 - K + K^2 - ..) b, where K is L below its diagonal, a matrix whose N-th power is 0
    K = [[it if j < i else 0 for j, it in enumerate(row)] for i, row in enumerate(matrix(L, N))]
    x, term = [0] * N, [[it] for it in b]
    for _ in range(N):
        x = [u + v for u, v in zip(x, flat(term))]
        term = [[-it for it in row] for row in product(K, term)]
    # and indeed
    assert [u + v for u, v in zip(x, flat(product(K, [[it] for it in x])))] == b
    return {"x": x}


@kernel
def fdtd_2d(NX: int, NY: int, T: int, fict: Cells, ex: Cells, ey: Cells, hz: Cells) -> Answer:
    across, along, field = matrix(ex, NY), matrix(ey, NY), matrix(hz, NY)
    for pulse in fict:
        down = [[b - a for a, b in zip(r, s)] for r, s in zip(field, field[1:])]
        along = [[pulse] * NY, *([u - v for u, v in zip(r, s)] for r, s in zip(along[1:], down))]
        right = [[b - a for a, b in zip(row, row[1:])] for row in field]
        across = [[r[0], *(u - v for u, v in zip(r[1:], s))] for r, s in zip(across, right)]
        curl = {(i, j): across[i][j + 1] - across[i][j] + along[i + 1][j] - along[i][j] for i in range(NX - 1) for j in range(NY - 1)}
        field = [[field[i][j] - curl.get((i, j), 0) for j in range(NY)] for i in range(NX)]
    return {"ex": flat(across), "ey": flat(along), "hz": flat(field)}


@kernel
def nussinov(N: int, seq: Cells) -> Answer:
    # The first base of a stretch stays alone, or pairs with one that isn't its neighbour and parts the rest in two.
    @functools.lru_cache(None)
    def most(bases: tuple[int, ...]) -> int:
        if len(bases) < 2:
            return 0
        first, rest = bases[0], bases[1:]
        pairs = [1 + most(rest[:k]) + most(rest[k + 1 :]) for k in range(1, len(rest)) if first + rest[k] == 3]
        return max([most(rest), *pairs])

    return {"table": [most(tuple(seq[i : j + 1])) if i < j else 0 for i in range(N) for j in range(N)]}


@kernel
def sobel(H: int, W: int, image: Cells) -> Answer:
    pixels = matrix(image, W)
    across = [[-1, 0, 1], [-2, 0, 2], [-1, 0, 1]]

    def gradient(y: int, x: int, mask: Rows) -> int:
        return sum(mask[p][q] * pixels[y - 1 + p][x - 1 + q] for p, q in itertools.product(range(3), repeat=2))

    def strength(y: int, x: int) -> int:
        return min(255, abs(gradient(y, x, across)) + abs(gradient(y, x, turned(across))))

    inside = itertools.product(range(1, H - 1), range(1, W - 1))
    known = {it: strength(*it) for it in inside}
    return {"edges": [known.get(it, 0) for it in itertools.product(range(H), range(W))]}


@kernel
def wavelet(N: int, s: Cells) -> Answer:
    # Each of the two passes is a product with a matrix, and so is the whole.
    def lifted(first: int, own: int) -> Rows:
        def weight(i: int, j: int) -> int:
            return own if i == j else abs(i - j) == 1

        return [[weight(i, j) if i % 2 == first else int(i == j) for j in range(N)] for i in range(N)]

    details = [[-it if i != j and i % 2 else it for j, it in enumerate(row)] for i, row in enumerate(lifted(1, 2))]
    return {"s": flat(product(product(lifted(0, 8), details), [[it] for it in s]))}


@kernel
def upsampling(N: int, T: int, x: Cells, h: Cells) -> Answer:
    # a product of polynomials, of which one is the signal's in the square of the variable
    return {"y": convolved([it for sample in x for it in (sample, 0)], h)}


@kernel
def red_black(N: int, T: int, a: Cells) -> Answer:
    # Each half of a sweep is a product with a matrix, and so is the whole.
    def half(first: int) -> Rows:
        def weight(i: int, j: int) -> int:
            return int(abs(i - j) == 1 if i % 2 == first and 0 < i < N - 1 else i == j)

        return [[weight(i, j) for j in range(N)] for i in range(N)]

    column = [[it] for it in a]
    for _ in range(T):
        column = product(half(0), product(half(1), column))
    return {"a": flat(column)}


@kernel
def butterfly(N: int, x: Cells) -> Answer:
    # the sign of the i-th sample in the k-th place is that of the bits that both numbers have
    signs = [[(-1) ** bin(k & i).count("1") for i in range(4)] for k in range(4)]
    return {"y": [it for block in matrix(x, 4) for it in flat(product(signs, [[sample] for sample in block]))]}


@kernel
def block_peaks(N: int, B: int, x: Cells) -> Answer:
    blocks = [x[b : b + B] for b in range(0, N, B)]
    return {"y": [max(block) - it for block in blocks for it in block]}


@kernel
def pipeline_60(N: int, x: Cells) -> Answer:
    # thirty times 1 + z and thirty times 1 - z: the thirtieth power of 1 - z^2
    power = [1]
    for _ in range(30):
        power = convolved([*power, 0, 0], [1, 0, -1])
    return {"y": convolved(x, power)}


def answer_of(example: Example) -> str:
    """The answer text of an example, computed from its items and its data."""
    given: dict[str, int | Cells] = {}
    for item in example.items:
        parameter, _, value = item.partition("=")
        given[parameter] = int(value)
    for record in example.data.decode().splitlines():
        array, *cells = record.split(",")
        given[array] = [int(it) for it in cells]
    arrays = KERNELS[example.name](**given)
    return "".join(",".join([array, *(str(wrapped(it)) for it in cells)]) + "\n" for array, cells in arrays.items())


def main() -> int:
    parser = plain_parser_of(__doc__)
    parser.add_argument("name", metavar="NAME", nargs="?")
    name = parser.parse_args().name
    known = examples([name] if name else [])
    if lacking := [it.name for it in known if it.name not in KERNELS]:
        stop(f"nothing here computes {', '.join(lacking)}")
    if name:
        print(answer_of(known[0]), end="")
        return 0
    differing = [it.name for it in known if it.answer.decode() != answer_of(it)]
    for it in differing:
        print(f"{it}: the answer isn't the computed one")
    print(f"{len(known)} answers compared, {len(differing)} different")
    return 1 if differing or not known else 0


if __name__ == "__main__":
    sys.exit(main())
