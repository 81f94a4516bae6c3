"""Affine expressions of a source: read, bounded and brought to a form. Which expressions are affine is the program's to say."""
from __future__ import annotations

import re
from collections.abc import Mapping, Sequence
from dataclasses import dataclass, field

Range = tuple[int, int]

WORD = re.compile(r"\s*([A-Za-z_]\w*|\d+|.)", re.S)


@dataclass(frozen=True)
class Number:
    value: int


@dataclass(frozen=True)
class Name:
    name: str


@dataclass(frozen=True)
class Negative:
    operand: Expression


@dataclass(frozen=True)
class Two:
    """A sum, a difference or a product, by its sign."""

    sign: str
    left: Expression
    right: Expression


@dataclass(frozen=True)
class Choice:
    """The least or the greatest of several, by its word."""

    word: str
    arguments: tuple[Expression, ...]


Expression = Number | Name | Negative | Two | Choice


class Reader:
    """The words of an expression, read one after the other."""

    def __init__(self, words: Sequence[str]) -> None:
        self.words, self.at = words, 0

    def there(self) -> str:
        return self.words[self.at] if self.at < len(self.words) else ""

    def next(self) -> str:
        self.at += 1
        return self.words[self.at - 1] if self.at <= len(self.words) else ""

    def whole(self) -> Expression:
        found = self.sum()
        if self.at != len(self.words):
            raise ValueError(f"no affine expression: {' '.join(self.words)}")
        return found

    def sum(self) -> Expression:
        left = self.product()
        while self.there() in ("+", "-"):
            sign = self.next()
            left = Two(sign, left, self.product())
        return left

    def product(self) -> Expression:
        left = self.factor()
        while self.there() == "*":
            self.next()
            left = Two("*", left, self.factor())
        return left

    def factor(self) -> Expression:
        word = self.next()
        if word == "-":
            return Negative(self.factor())
        if word == "(":
            inner = self.sum()
            self.next()
            return inner
        if word in ("min", "max"):
            arguments = []
            while self.next() in ("(", ","):
                arguments.append(self.sum())
            return arguments[0] if len(arguments) == 1 else Choice(word, tuple(arguments))
        if word.isdigit():
            return Number(int(word))
        if not word.isidentifier():
            raise ValueError(f"no affine expression: {' '.join(self.words)}")
        return Name(word)


def expression_of(words: Sequence[str] | str) -> Expression:
    """The expression of these words, or of a text without comments."""
    return Reader([it for it in WORD.findall(words) if it.strip()] if isinstance(words, str) else words).whole()


def range_of(expression: Expression, ranges: Mapping[str, Range]) -> Range:
    """The least and the greatest value of an expression, as far as its names' ranges tell."""
    match expression:
        case Number(value):
            return value, value
        case Name(name):
            return ranges[name]
        case Negative(operand):
            low, high = range_of(operand, ranges)
            return -high, -low
        case Two(sign, left, right):
            one, other = range_of(left, ranges), range_of(right, ranges)
            if sign == "+":
                return one[0] + other[0], one[1] + other[1]
            if sign == "-":
                return one[0] - other[1], one[1] - other[0]
            products = [first * second for first in one for second in other]
            return min(products), max(products)
        case Choice(word, arguments):
            choose = min if word == "min" else max
            found = [range_of(it, ranges) for it in arguments]
            return choose(low for low, _ in found), choose(high for _, high in found)
    raise TypeError(expression)


@dataclass(frozen=True)
class Form:
    """A constant and a coefficient for each of some names; a name may be any text that stands for a whole number."""

    constant: int = 0
    terms: Mapping[str, int] = field(default_factory=dict)

    def plus(self, other: Form, factor: int = 1) -> Form:
        """This form and so many times the other."""
        terms = dict(self.terms)
        for name, coefficient in other.terms.items():
            terms[name] = terms.get(name, 0) + factor * coefficient
        return Form(self.constant + factor * other.constant, {name: it for name, it in terms.items() if it})

    def times(self, factor: int) -> Form:
        return Form().plus(self, factor)

    def at(self, forms: Mapping[str, Form]) -> Form:
        """The form in which these forms stand for its names."""
        found = Form(self.constant)
        for name, coefficient in self.terms.items():
            found = found.plus(forms.get(name, Form(0, {name: 1})), coefficient)
        return found

    def __str__(self) -> str:
        """The form as one writes it."""
        text = ""
        for name, factor in self.terms.items():
            size = "" if abs(factor) == 1 else f"{abs(factor)}*"
            sign = (" - " if factor < 0 else " + ") if text else ("-" if factor < 0 else "")
            text += f"{sign}{size}{name}"
        if not text:
            return str(self.constant)
        return text if self.constant == 0 else f"{text} {'-' if self.constant < 0 else '+'} {abs(self.constant)}"


def form_of(expression: Expression, values: Mapping[str, int]) -> Form:
    """The form of an affine expression over the names that have no value."""
    match expression:
        case Number(value):
            return Form(value)
        case Name(name):
            return Form(values[name]) if name in values else Form(0, {name: 1})
        case Negative(operand):
            return form_of(operand, values).times(-1)
        case Two(sign, left, right):
            one, other = form_of(left, values), form_of(right, values)
            if sign == "*":
                return other.times(one.constant) if not one.terms else one.times(other.constant)
            return one.plus(other, 1 if sign == "+" else -1)
    raise ValueError(f"no affine form: {expression}")


def forms_of(expression: Expression, values: Mapping[str, int]) -> list[Form]:
    """The forms of a bound: those of its min or max, or its own."""
    return [form_of(it, values) for it in (expression.arguments if isinstance(expression, Choice) else [expression])]
