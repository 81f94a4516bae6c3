"""How often the loops of a source turn at most, for one that the program finds too large, and where they stand."""
from __future__ import annotations

from dataclasses import dataclass

from expression import Range, expression_of, range_of
from outline import Around, Loop, Outline


@dataclass(frozen=True)
class Turns:
    """A loop, or an array that is read or printed, with its byte and how often it turns at most, with those round it."""

    byte: int
    count: int
    is_array: bool = False


@dataclass(frozen=True)
class Counted:
    """The loops of a source in its order. Those of the arrays have one entry for each array, and the loops of inputs are numbered."""

    loops: list[Turns]
    arrays: list[Turns]
    # The byte of the array for each loop that reads an in or inout array, as the program numbers them.
    input_loops: list[int]

    @property
    def largest(self) -> Turns | None:
        return max([*self.loops, *self.arrays], key=lambda it: it.count, default=None)

    def byte_of(self, number: int) -> int:
        """The place of a loop by the number that the program tells: those of inputs come first."""
        return [*self.input_loops, *[it.byte for it in self.loops]][number]


def turns_of(source: bytes, values: dict[str, int]) -> Counted:
    """The loops of a source whose parameters have these values."""
    outline = Outline(source)
    parameters: dict[str, Range] = {name: (value, value) for name, value in values.items()}
    arrays, input_loops = [], []
    for array in outline.arrays:
        if array.kind == "var":
            continue
        count = 1
        for extent in array.extents:
            count *= max(0, range_of(expression_of(extent), parameters)[1])
        arrays.append(Turns(array.byte, count, is_array=True))
        if array.is_given:
            input_loops += [array.byte] * len(array.extents)
    # The ranges of names and the turns within each loop, by its byte.
    inside: dict[int, tuple[dict[str, Range], int]] = {}
    for around, loop in outline.loops:
        ranges, before = inside[outer.byte] if (outer := last_loop(around)) else (parameters, 1)
        low = range_of(expression_of(loop.lower), ranges)[0]
        high = range_of(expression_of(loop.upper), ranges)[1] - loop.is_strict
        step = range_of(expression_of(loop.step), ranges)[0]
        count = before * max(0, (high - low) // step + 1)
        inside[loop.byte] = ({**ranges, loop.variable: (low, max(low, high))}, count)
    return Counted([Turns(loop.byte, inside[loop.byte][1]) for _, loop in outline.loops], arrays, input_loops)


def last_loop(around: Around) -> Loop | None:
    """The innermost of these loops."""
    return next((it for it in reversed(around) if isinstance(it, Loop)), None)
