"""Ranges: how those of a model become those of the stream, and which conditions of a stream are ranges.

A variable x of the model is middle + half x u, with u the variable of the stream. The map to [-1, 1] has the smallest
Gram matrices; but an end like 1/3 or a range like [0, 60000] can make coefficients that 16 or 32 bits do not hold, and
then a power of ten, or no map at all, keeps the model's own round numbers.
"""
from __future__ import annotations

from fractions import Fraction
from math import isqrt, sqrt
from typing import Callable, Optional

from .commands import Monomial
from .reading import Condition

Map = tuple[Fraction, Fraction]                  # middle and half
Ends = tuple[Fraction, Fraction]
NOT_MAPPED: Map = (Fraction(0), Fraction(1))


def to_unit(low: Fraction, high: Fraction) -> Map:
    """To [-1, 1]."""
    return (low + high) / 2, (high - low) / 2


def by_ten(low: Fraction, high: Fraction) -> Map:
    """By the power of ten with which the larger end is from 1/3 to 3."""
    scale, largest = Fraction(1), max(abs(low), abs(high))
    while scale * 3 < largest:
        scale *= 10
    while scale > 3 * largest:
        scale /= 10
    return Fraction(0), scale


def as_given(_low: Fraction, _high: Fraction) -> Map:
    """Not at all."""
    return NOT_MAPPED


Way = Callable[[Fraction, Fraction], Map]
MAPS: tuple[Way, ...] = (to_unit, by_ten, as_given)


def centred(way: Way) -> Way:
    """The same where it keeps 0 in its place, and else a power of ten: a monomial of the model's variables is then one
    of the stream's, which a basis given by hand needs."""
    def chosen(low: Fraction, high: Fraction) -> Map:
        found = way(low, high)
        return by_ten(low, high) if found[0] else found
    return chosen


def _quadratic(condition: Condition) -> Optional[tuple[int, int, int, int]]:
    """The variable, from 0, and a, b, c, where the condition is a x^2 + b x + c >= 0 with a below 0."""
    used = {i for e in condition.terms for i, x in enumerate(e) if x}
    if condition.equality or len(used) != 1:
        return None
    i, = used
    powers: list[Monomial] = [tuple(k * int(v == i) for v in range(8)) for k in (2, 1, 0)]
    if any(e not in powers for e in condition.terms):
        return None
    a, b, c = (condition.terms.get(e, 0) for e in powers)
    return (i, a, b, c) if a < 0 <= b * b - 4 * a * c else None


def range_of(condition: Condition) -> Optional[tuple[int, Fraction, Fraction]]:
    """The variable, from 0, and the ends, where the condition says exactly that it is between two rational numbers."""
    found = _quadratic(condition)
    if not found:
        return None
    i, a, b, c = found
    root = isqrt(b * b - 4 * a * c)
    if root * root != b * b - 4 * a * c or not root:
        return None
    return i, Fraction(-b + root, 2 * a), Fraction(-b - root, 2 * a)


def interval_of(condition: Condition) -> Optional[tuple[int, float, float]]:
    """The same in floats, also where the ends are not rational."""
    found = _quadratic(condition)
    if not found:
        return None
    i, a, b, c = found
    root = sqrt(b * b - 4 * a * c)
    return i, (-b + root) / (2 * a), (-b - root) / (2 * a)
