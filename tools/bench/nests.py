"""The nests whose sources are told beside isl's analysis: kernels of the field, and nests of many writers, guards and strides."""
from __future__ import annotations

import random
import re
import sys
from collections.abc import Callable, Iterator, Sequence
from pathlib import Path
from typing import NamedTuple

sys.path.insert(0, str(Path(__file__).resolve().parents[1]))
from common import EXAMPLES
from hostile.limits import differences, guarded

LARGE = 1_000_000_000


class Nest(NamedTuple):
    """A nest: its kind and name, its source, and the value of every parameter."""

    kind: str
    name: str
    source: bytes
    value: int = LARGE


def loops(variables: str, upper: str = "N", lower: str = "0") -> str:
    """Loops of these variables, one in the other."""
    return "".join(f"for ({it} = {lower}; {it} < {upper}; {it}++) " for it in variables)


def cell(array: str, subscripts: Sequence[object]) -> str:
    return array + "".join(f"[{it}]" for it in subscripts)


# ------------------------------------------------------------------------------------------------------------- kernels

# Divisions and roots are other operations here, since only what is read and written counts.
POLYBENCH = {
    "3mm": "in A[N][N], B[N][N], C[N][N], D[N][N]; var E[N][N], F[N][N]; out G[N][N]; "
    "for i for j { E[i][j] = 0; for k E[i][j] = E[i][j] + A[i][k] * B[k][j]; } "
    "for i for j { F[i][j] = 0; for k F[i][j] = F[i][j] + C[i][k] * D[k][j]; } "
    "for i for j { G[i][j] = 0; for k G[i][j] = G[i][j] + E[i][k] * F[k][j]; }",
    "adi": "inout u[N][N]; var v[N][N], p[N][N], q[N][N]; for t { "
    "for i=1..N-1 { v[0][i] = 1; p[i][0] = 0; q[i][0] = v[0][i]; "
    "for j=1..N-1 { p[i][j] = -p[i][j - 1]; q[i][j] = u[j][i - 1] + u[j][i] + u[j][i + 1] - q[i][j - 1] * p[i][j - 1]; } "
    "v[N - 1][i] = 1; for j=1..N-1 v[N - 1 - j][i] = p[i][N - 1 - j] * v[N - j][i] + q[i][N - 1 - j]; } "
    "for i=1..N-1 { u[i][0] = 1; p[i][0] = 0; q[i][0] = u[i][0]; "
    "for j=1..N-1 { p[i][j] = -p[i][j - 1]; q[i][j] = v[i - 1][j] + v[i][j] + v[i + 1][j] - q[i][j - 1] * p[i][j - 1]; } "
    "u[i][N - 1] = 1; for j=1..N-1 u[i][N - 1 - j] = p[i][N - 1 - j] * u[i][N - j] + q[i][N - 1 - j]; } }",
    "atax": "in A[N][N], x[N]; out y[N]; var b[N]; for i y[i] = 0; "
    "for i { b[i] = 0; for j b[i] = b[i] + A[i][j] * x[j]; for j y[j] = y[j] + A[i][j] * b[i]; }",
    "bicg": "in A[N][N], p[N], r[N]; out s[N], q[N]; for i s[i] = 0; "
    "for i { q[i] = 0; for j { s[j] = s[j] + r[i] * A[i][j]; q[i] = q[i] + A[i][j] * p[j]; } }",
    "correlation": "inout D[N][N]; out C[N][N]; var m[N], d[N]; "
    "for j { m[j] = 0; for i m[j] = m[j] + D[i][j]; m[j] = m[j] * 3; } "
    "for j { d[j] = 0; for i d[j] = d[j] + (D[i][j] - m[j]) * (D[i][j] - m[j]); d[j] = d[j] * 5; d[j] = max(d[j], 1); } "
    "for i for j { D[i][j] = D[i][j] - m[j]; D[i][j] = D[i][j] * d[j]; } "
    "for i=0..N-1 { C[i][i] = 1; for j=i+1..N { C[i][j] = 0; for k C[i][j] = C[i][j] + D[k][i] * D[k][j]; C[j][i] = C[i][j]; } } "
    "C[N - 1][N - 1] = 1;",
    "covariance": "inout D[N][N]; out C[N][N]; var m[N]; for j { m[j] = 0; for i m[j] = m[j] + D[i][j]; m[j] = m[j] * 3; } "
    "for i for j D[i][j] = D[i][j] - m[j]; "
    "for i for j=i..N { C[i][j] = 0; for k C[i][j] = C[i][j] + D[k][i] * D[k][j]; C[i][j] = C[i][j] * 3; C[j][i] = C[i][j]; }",
    "deriche": "in x[N][N]; out z[N][N]; var y[N][N], u[N][N], a, b, c, d, e, f; "
    "for i { a = 0; b = 0; c = 0; for j { y[i][j] = 2 * x[i][j] + 3 * c + a + b; c = x[i][j]; b = a; a = y[i][j]; } } "
    "for i { a = 0; b = 0; d = 0; e = 0; "
    "for j { u[i][N - 1 - j] = d + e + a + b; e = d; d = x[i][N - 1 - j]; b = a; a = u[i][N - 1 - j]; } } "
    "for i for j z[i][j] = y[i][j] + u[i][j]; "
    "for j { f = 0; a = 0; b = 0; for i { y[i][j] = 2 * z[i][j] + 3 * f + a + b; f = z[i][j]; b = a; a = y[i][j]; } } "
    "for j { d = 0; e = 0; a = 0; b = 0; "
    "for i { u[N - 1 - i][j] = d + e + a + b; e = d; d = z[N - 1 - i][j]; b = a; a = u[N - 1 - i][j]; } } "
    "for i for j z[i][j] = y[i][j] + u[i][j];",
    "doitgen": "inout A[N][N][N]; in C[N][N]; var s[N]; for i for j { for k { s[k] = 0; "
    "for l s[k] = s[k] + A[i][j][l] * C[l][k]; } for k A[i][j][k] = s[k]; }",
    "durbin": "in r[N]; out y[N]; var z[N], a, b, s; y[0] = -r[0]; b = 1; a = -r[0]; "
    "for k=1..N { b = (1 - a * a) * b; s = 0; for i=0..k s = s + r[k - i - 1] * y[i]; a = -(r[k] + s) * b; "
    "for i=0..k z[i] = y[i] + a * y[k - i - 1]; for i=0..k y[i] = z[i]; y[k] = a; }",
    "gemver": "inout A[N][N]; in u[N], v[N], w[N], p[N], y[N], z[N]; out x[N], o[N]; "
    "for i for j A[i][j] = A[i][j] + u[i] * v[j] + w[i] * p[j]; for i x[i] = 0; for i o[i] = 0; "
    "for i for j x[i] = x[i] + A[j][i] * y[j]; for i x[i] = x[i] + z[i]; for i for j o[i] = o[i] + A[i][j] * x[j];",
    "gesummv": "in A[N][N], B[N][N], x[N]; out y[N]; var b[N]; for i { b[i] = 0; y[i] = 0; "
    "for j { b[i] = A[i][j] * x[j] + b[i]; y[i] = B[i][j] * x[j] + y[i]; } y[i] = 3 * b[i] + 2 * y[i]; }",
    "gramschmidt": "inout A[N][N]; out R[N][N], Q[N][N]; var n; for k { n = 0; for i n = n + A[i][k] * A[i][k]; R[k][k] = n; "
    "for i Q[i][k] = A[i][k] * R[k][k]; for j=k+1..N { R[k][j] = 0; for i R[k][j] = R[k][j] + Q[i][k] * A[i][j]; "
    "for i A[i][j] = A[i][j] - Q[i][k] * R[k][j]; } }",
    "heat-3d": "inout A[N][N][N], B[N][N][N]; for t { "
    "for i=1..N-1 for j=1..N-1 for k=1..N-1 B[i][j][k] = A[i + 1][j][k] + A[i - 1][j][k] + A[i][j + 1][k] + A[i][j - 1][k] "
    "+ A[i][j][k + 1] + A[i][j][k - 1] + A[i][j][k]; "
    "for i=1..N-1 for j=1..N-1 for k=1..N-1 A[i][j][k] = B[i + 1][j][k] + B[i - 1][j][k] + B[i][j + 1][k] + B[i][j - 1][k] "
    "+ B[i][j][k + 1] + B[i][j][k - 1] + B[i][j][k]; }",
    "ludcmp": "inout A[N][N]; in b[N]; out x[N]; var y[N], w; "
    "for i { for j=0..i { w = A[i][j]; for k=0..j w = w - A[i][k] * A[k][j]; A[i][j] = w * A[j][j]; } "
    "for j=i..N { w = A[i][j]; for k=0..i w = w - A[i][k] * A[k][j]; A[i][j] = w; } } "
    "for i { w = b[i]; for j=0..i w = w - A[i][j] * y[j]; y[i] = w; } "
    "for i { w = y[N - 1 - i]; for j=N-i..N w = w - A[N - 1 - i][j] * x[j]; x[N - 1 - i] = w * A[N - 1 - i][N - 1 - i]; }",
    "mvt": "inout x[N], z[N]; in A[N][N], y[N], w[N]; for i for j x[i] = x[i] + A[i][j] * y[j]; for i for j z[i] = z[i] + A[j][i] * w[j];",
    "symm": "inout C[N][N]; in A[N][N], B[N][N]; var e; for i for j { e = 0; "
    "for k=0..i { C[k][j] = C[k][j] + B[i][j] * A[i][k]; e = e + B[k][j] * A[i][k]; } C[i][j] = 3 * C[i][j] + B[i][j] * A[i][i] + e; }",
    "syr2k": "inout C[N][N]; in A[N][N], B[N][N]; for i { for j=0..i+1 C[i][j] = 3 * C[i][j]; "
    "for k for j=0..i+1 C[i][j] = C[i][j] + A[j][k] * B[i][k] + B[j][k] * A[i][k]; }",
    "trmm": "inout B[N][N]; in A[N][N]; for i for j { for k=i+1..N B[i][j] = B[i][j] + A[k][i] * B[k][j]; B[i][j] = 3 * B[i][j]; }",
}
# Those of the examples that are kernels of PolyBench.
EXAMPLES_OF_POLYBENCH = (
    "2mm cholesky fdtd_2d floyd_warshall gemm jacobi_1d jacobi_2d lu nussinov seidel_2d syrk trisolv".split()
)
OTHER_EXAMPLES = "butterfly fir gauss_seidel image_pipeline matrix_product red_black running_sum sobel upsampling wavelet".split()
SMALL = {
    "running sum": "in x[N]; out s[N]; for i s[i] = s[i - 1] + x[i];",
    "even cells": "in x[N]; out y[N]; var a[N]; for i a[2 * i] = x[i]; for i y[i] = a[i];",
    "loop of step 2": "in x[N]; out y[N]; for i+2 y[i] = x[i];",
}


HEADER = re.compile(r"for (\w)(?:=([^ ]+?)\.\.([^ ]+)|\+(\d+))? ")


def whole(short: str) -> bytes:
    """A source, of one in which `for i`, `for i=LOWER..UPPER` and `for i+STEP` stand for the heads of loops."""

    def header(found: re.Match[str]) -> str:
        name, lower, upper, step = found.groups()
        return f"for ({name} = {lower or 0}; {name} < {upper or 'N'}; {f'{name} += {step}' if step else f'{name}++'}) "

    return f"param N; {HEADER.sub(header, short)}\n".encode()


def kernels() -> Iterator[Nest]:
    for name, short in SMALL.items():
        yield Nest("small", name, whole(short))
    for name in sorted([*POLYBENCH, *EXAMPLES_OF_POLYBENCH], key=str.lower):
        source = whole(POLYBENCH[name]) if name in POLYBENCH else (EXAMPLES / f"{name}.loop").read_bytes()
        yield Nest("PolyBench", name.replace("_", "-"), source)
    for name in OTHER_EXAMPLES:
        yield Nest("example", name.replace("_", " "), (EXAMPLES / f"{name}.loop").read_bytes())


# ------------------------------------------------------------------------------------------- many writers, guards, strides

# One assignment under six guards, whose read has a tree of more than a hundred nodes.
SIX_GUARDS = (
    b"param N; inout A[N][N][N]; for(i=0;i<N;i++) for(j=0;j<N;j++) for(k=0;k<N;k++) for(l=0;l<N;l++) for(m=0;m<N;m++) "
    b"if (j <= i+42 && l <= k+15 && j <= l+40 && l <= j+30 && k <= l+16 && j <= k+44) "
    b"{ A[i][k][l] = A[2*j+2*m+23][-1*m+2*j+3*k+8][2*k+-1*l+17]; }\n"
)


def random_guards(seed: int, depth: int, assignments: int, guards: int, dimensions: int) -> bytes:
    """Assignments to cells of one array in so many loops, each under guards on differences, that read cells at free forms."""
    numbers = random.Random(seed)
    names = "ijklmn"[:depth]
    text = ""
    for _ in range(assignments):
        tests = [f"{one} <= {other} + {numbers.randrange(10, 50)}" for one, other in (numbers.sample(names, 2) for _ in range(guards))]
        target = cell("A", numbers.sample(names, dimensions))
        pairs = [numbers.sample(names, 2) for _ in range(dimensions)]
        read = [f"{numbers.randrange(1, 4)} * {one} - {other} + {numbers.randrange(30)}" for one, other in pairs]
        text += f"if ({' && '.join(tests)}) {{ {target} = {cell('A', read)}; }} "
    return f"param N; inout A{'[N]' * dimensions}; {loops(names)}{{ {text}}}\n".encode()


def boxes(dimensions: int, count: int, side: int, shift: int, is_backwards: bool = False) -> bytes:
    """Boxes along a diagonal of an array, each set by loops of its own, and then a read of the whole array."""
    names = "ijklm"[:dimensions]
    order = reversed(range(count)) if is_backwards else range(count)
    writes = "".join(f"{loops(names, str(shift * it + side), str(shift * it))}{cell('a', names)} = {it}; " for it in order)
    extents = "[N]" * dimensions
    return f"param N; out y{extents}; var a{extents}; {writes}{loops(names)}{cell('y', names)} = {cell('a', names)};\n".encode()


def random_boxes(seed: int, dimensions: int, count: int) -> bytes:
    """Boxes at random places, of random sides, that overlap."""
    numbers = random.Random(seed)
    names = "ijklm"[:dimensions]
    writes = ""
    for it in range(count):
        lowers = [numbers.randrange(8) for _ in names]
        writes += "".join(loops(name, str(lower + numbers.randrange(4, 12)), str(lower)) for name, lower in zip(names, lowers))
        writes += f"{cell('a', names)} = {it}; "
    extents = "[N]" * dimensions
    return f"param N; out y{extents}; var a{extents}; {writes}{loops(names)}{cell('y', names)} = {cell('a', names)};\n".encode()


def taps(count: int) -> bytes:
    """A filter of constant taps, each of which an assignment sets."""
    sets = "".join(f"h[{it}] = {it + 1}; " for it in range(count))
    return (
        f"param N; in x[N]; out y[N]; var h[{count}]; {sets}for (n = 0; n < N; n++) "
        f"{{ y[n] = 0; for (k = 0; k < {count}; k++) y[n] = y[n] + h[k] * x[n - k]; }}\n"
    ).encode()


def smoother() -> bytes:
    """A multigrid smoother of a plane in place: sweeps over odd and even columns in turn, behind a copy of two boundary faces."""
    body = "s[i][j - 1] + s[i][j + 1] + s[i - 1][j] + s[i + 1][j]"
    halves = "".join(f"for (i = 1; i < N - 1; i++) for (j = {it}; j < N - 1; j += 2) s[i][j] = {body}; " for it in (1, 2))
    faces = "for (i = 0; i < N; i++) s[i][0] = s[i][1]; for (i = 0; i < N; i++) s[i][N - 1] = s[i][N - 2]; "
    return f"param N; inout s[N][N]; for (t = 0; t < N; t++) {{ {faces}{halves}}}\n".encode()


def two_colours() -> bytes:
    """A two-colour relaxation of a space in place, odd points and then even ones, behind a copy of its six boundary faces."""
    faces = ""
    for axis in range(3):
        for at, beside in (("0", "1"), ("N - 1", "N - 2")):
            one, other = (list("jk"), list("jk"))
            one.insert(axis, at)
            other.insert(axis, beside)
            faces += f"{loops('jk')}{cell('a', one)} = {cell('a', other)}; "
    neighbours = []
    for axis in range(3):
        for by in (" - 1", " + 1"):
            places = list("ijk")
            places[axis] += by
            neighbours.append(cell("a", places))
    halves = ""
    for start in (1, 2):
        heads = "".join(f"for ({it} = {start}; {it} < N - 1; {it} += 2) " for it in "ijk")
        halves += f"{heads}a[i][j][k] = {' + '.join(neighbours)}; "
    return f"param N; inout a[N][N][N]; for (t = 0; t < N; t++) {{ {faces}{halves}}}\n".encode()


def colours(count: int) -> bytes:
    """Sweeps over a line in place, by so many colours in turn."""
    sweeps = "".join(f"for (i = {it + 1}; i < N - 1; i += {count}) a[i] = a[i - 1] + a[i + 1]; " for it in range(count))
    return f"param N; inout a[N]; for (t = 0; t < N; t++) {{ {sweeps}}}\n".encode()


LIFTING = (
    b"param N; in x[N]; out low[N], high[N]; var s[N]; for (i = 0; i < N; i++) s[i] = x[i]; "
    b"for (i = 1; i < N; i += 2) s[i] = 2 * s[i] - s[i - 1] - s[i + 1]; "
    b"for (i = 0; i < N; i += 2) s[i] = 4 * s[i] + s[i - 1] + s[i + 1]; "
    b"for (i = 0; i < N; i++) if (2 * i <= N - 1) { low[i] = s[2 * i]; } "
    b"for (i = 0; i < N; i++) if (2 * i + 1 <= N - 1) { high[i] = s[2 * i + 1]; }\n"
)
BUTTERFLIES = (
    b"param N; in x[N]; out y[N]; var s[N], u[N]; "
    b"for (i = 0; i < N; i += 2) { s[i] = x[i] + x[i + 1]; s[i + 1] = x[i] - x[i + 1]; } "
    b"for (b = 0; b < N; b += 4) { u[b] = s[b] + s[b + 2]; u[b + 1] = s[b + 1] + s[b + 3]; "
    b"u[b + 2] = s[b] - s[b + 2]; u[b + 3] = s[b + 1] - s[b + 3]; } "
    b"for (i = 0; i < N; i++) y[i] = u[i];\n"
)


def bands(writers: int) -> Callable[[int], list[str]]:
    """Beyond a diagonal and beyond a plane, for each writer, none within another."""
    return lambda number: [f"i - j > {number}", f"k >= {writers - number}"]


def intervals(number: int) -> list[str]:
    """An interval of the first loop for each writer, which overlaps those of its neighbours."""
    return [f"i >= {10 * number}", f"i < {10 * number + 15}"]


def many() -> Iterator[Nest]:
    yield Nest("guards", "one assignment in five loops under six guards", SIX_GUARDS)
    for seed in (1, 2):
        yield Nest("guards", f"two guarded assignments in six loops, {seed}", random_guards(seed, 6, 2, 4, 3))
    for dimensions in (1, 2):
        yield Nest("boxes", f"44 disjoint blocks along a diagonal, {dimensions}-D, last first", boxes(dimensions, 44, 10, 10, True))
    yield Nest("boxes", "40 disjoint blocks of a line", boxes(1, 40, 10, 10))
    for dimensions, count in ((3, 8), (3, 11), (3, 12), (4, 8), (5, 6)):
        yield Nest("boxes", f"{count} overlapping boxes along a diagonal, {dimensions}-D", boxes(dimensions, count, 10, 1))
    for dimensions, count in ((3, 8), (4, 6), (5, 5)):
        yield Nest("boxes", f"{count} boxes at random, {dimensions}-D", random_boxes(dimensions, dimensions, count))
    yield Nest("constants", "60 constant taps", taps(60))
    yield Nest("strides", "smoother by half sweeps, two faces", smoother())
    yield Nest("strides", "two-colour relaxation, six faces", two_colours())
    for count in (2, 3, 6):
        yield Nest("strides", f"sweep by {count} colours", colours(count))
    yield Nest("strides", "lifting 5/3", LIFTING)
    yield Nest("strides", "butterflies", BUTTERFLIES)
    for place, is_inside in (("inside", True), ("behind", False)):
        for writers, value in ((10, LARGE), (20, LARGE), (30, LARGE), (30, 64), (40, 64), (60, LARGE), (60, 64)):
            source = guarded("ijk", writers, bands(writers), is_inside)
            yield Nest("writers", f"{writers} under two guards in three loops, {place}", source, value)
    for writers in (20, 30, 60):
        for names in ("i", "ijk"):
            yield Nest("writers", f"{writers} under intervals, loops {names}, behind", guarded(names, writers, intervals, False))
    for writers, guards in ((3, 8), (6, 16), (20, 16), (47, 4), (47, 20)):
        source = guarded("ijklmn", writers, differences(guards, writers), False)
        yield Nest("writers", f"{writers} under {guards} guards in six loops, behind", source, 10_000)


def nests() -> list[Nest]:
    return [*kernels(), *many()]
