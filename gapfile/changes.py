"""Changes of a model's polynomial, as text and as the bytes that the proved call takes.

    0.02*a*b            this is added to the polynomial
    a^2 +- 0.001        the factor of a^2 is off by up to 0.001, either way

A change is written in the model's variables and units. In the stream's it is the same polynomial with the map of the
ranges put in, times the factor, exactly. Its constant moves every value alike, so it is added to the bounds and not
sent, where it would be counted as a loss. The call takes whole numbers: where one is not whole, the next larger size is
sent. That is no less than what is asked for, as the moved bound depends on sizes alone and the value at a point is
linear in a change: it lies between those of the two changes of the larger size.
"""
from __future__ import annotations

import re
import struct
from dataclasses import dataclass
from fractions import Fraction
from typing import Optional, Sequence

from .commands import ONE, Monomial, fits, monomial_text
from .expressions import Line, ModelError, Work
from .polynomials import Polynomial, constant, ordered, plus, substitute, substitution_work, variable, whole
from .problem import MOST_WORK
from .restating import Scaled

EITHER_WAY = re.compile(r"\+-|\+/-|±")
CHANGE = struct.Struct("<8Bi")
MOST_CHANGES = 256


@dataclass(frozen=True)
class Change:
    """What is added to the polynomial; with a tolerance, what is added times a factor of at most this size."""
    text: str
    polynomial: Polynomial
    tolerance: Optional[Fraction] = None

    def in_stream(self, variables: Sequence[Scaled], factor: int) -> Polynomial:
        """The change of the stream's objective; for a tolerance the largest size of each term."""
        values = [plus(constant(v.middle), variable(i), v.half) for i, v in enumerate(variables)]
        found = substitute(self.polynomial, values)
        if self.tolerance is None:
            return {e: factor * found[e] for e in ordered(found)}
        return {e: abs(factor * self.tolerance * found[e]) for e in ordered(found) if self.tolerance}


def read_change(text: str, number: int, names: list[str], work: Work) -> Change:
    """The change that a line says. Raises ModelError, with the line's number."""
    either = EITHER_WAY.search(text)
    line = Line(number, text[:either.start()] if either else text, 0, names, work)
    polynomial = line.expression()
    line.done("an operator, `+-` or the end")
    if substitution_work(polynomial) > MOST_WORK:
        raise ModelError(number, 1, "the change has too many terms where the ranges are mapped")
    if not either:
        return Change(text.strip(), polynomial)
    again = EITHER_WAY.search(text, either.end())
    if again:
        raise ModelError(number, again.start() + 1, f"`{again.group()}` stands a second time; a line has one tolerance")
    right = Line(number, text, either.end(), names, work)
    column = right.peek().column
    tolerance = right.rational()
    right.done("a number and the end")
    if tolerance < 0:
        raise ModelError(number, column, f"the tolerance {tolerance} is below 0")
    factor = whole(polynomial)[1]
    if not polynomial or factor != 1:
        said = "is 0" if not polynomial else f"has the factor {1 / factor}"
        raise ModelError(number, 1, f"what stands before `{either.group()}` {said}; a tolerance is that of the factor "
                                    "of what stands before it, as in `a^2 +- 0.001`")
    return Change(text.strip(), polynomial, tolerance)


def read_table(text: str, names: list[str], work: Work) -> list[Change]:
    """The changes of a table, one a line; what follows # is passed over. Raises ModelError."""
    lines = [(number, line.split("#")[0]) for number, line in enumerate(text.splitlines(), 1)]
    return [read_change(line, number, names, work) for number, line in lines if line.strip()]


def blank_table(polynomial: Polynomial, names: list[str]) -> list[str]:
    """A table with every coefficient of the polynomial, and no tolerance yet."""
    shown = [(monomial_text(e, names), polynomial[e]) for e in ordered(polynomial)]
    width = max((len(text) for text, _ in shown), default=0)
    return [f"{text:<{width}} +- 0    # {coefficient}" for text, coefficient in shown]


@dataclass(frozen=True)
class Sent:
    """What changes come to in the stream: the constant that they add, and the terms that are sent, each with its
    monomial, its change in fractions and the whole number that covers it."""
    constant: Fraction
    terms: list[tuple[Monomial, Fraction, int]]

    @property
    def exact(self) -> Fraction:
        """What the sizes of the terms add up to."""
        return sum((abs(value) for _, value, _ in self.terms), Fraction(0))

    @property
    def covered(self) -> int:
        """What they add up to as they are sent."""
        return sum(abs(d) for _, _, d in self.terms)

    def encoded(self) -> bytes:
        """The bytes: eight exponents and a number of 32 bits for each. Raises ValueError where one does not fit."""
        for _, _, d in self.terms:
            if not fits("i32", d):
                raise ValueError(f"a change of {d} in the stream is beyond 32 bits")
        return b"".join(CHANGE.pack(*e, d) for e, _, d in self.terms)


def sent(changes: Sequence[Change], variables: Sequence[Scaled], factor: int) -> Sent:
    """What is sent for changes. Exact ones are added up first; sizes of tolerances add up beside them."""
    exact: Polynomial = {}
    sizes: Polynomial = {}
    for change in changes:
        terms = change.in_stream(variables, factor)
        if change.tolerance is None:
            exact = plus(exact, terms)
        else:
            sizes = plus(sizes, terms)
    constant_part = exact.pop(ONE, Fraction(0))
    return Sent(constant_part, [(e, terms[e], _outward(terms[e])) for terms in (exact, sizes) for e in ordered(terms)])


def _outward(value: Fraction) -> int:
    """The next whole number away from 0."""
    size = -(-abs(value.numerator) // value.denominator)
    return size if value > 0 else -size
