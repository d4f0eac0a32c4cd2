"""A region that is larger than the model's, where the checker's limits leave no other way and the user agreed.

Bounds on a larger region are bounds on the model's too, so the filed figure stays true; it may be less tight. A
condition may be left out, or its coefficients rounded to 16 bits with a constant that pays for it.
"""
from __future__ import annotations

from fractions import Fraction
from math import ceil

from .commands import ONE, Monomial
from .model import Model, Where
from .polynomials import evaluate

LEFT_OUT = "`{}` was left out: the region is larger than the model's, and the bounds hold on the model's too"
ROUNDED = ("`{}` was rounded outward to numbers of 16 bits: the region is larger than the model's, and the bounds hold "
           "on the model's too")
LARGEST = 32000                  # a little below 2^15: the constant is raised


def can_be_rounded(where: Where, model: Model) -> bool:
    """Whether every variable of the condition has a range; without, no constant pays for a coefficient."""
    used = {i for e in where.polynomial for i, x in enumerate(e) if x}
    return not where.equality and all(model.variables[i].range for i in used)


def scale_of(terms: dict[Monomial, int]) -> Fraction:
    return Fraction(LARGEST, max(abs(c) for c in terms.values()))


def rounded_outward(terms: dict[Monomial, int], reach: list[Fraction]) -> dict[Monomial, int]:
    """A condition of 16 bits that holds wherever this one does and every |variable| is at most its reach: the
    coefficients are rounded, and the constant is raised by what that can lower the value."""
    scale = scale_of(terms)
    out = {e: round(scale * c) for e, c in terms.items() if e != ONE}
    out[ONE] = ceil(scale * terms.get(ONE, 0) + lowered({e: scale * c for e, c in terms.items()}, out, reach))
    return {e: c for e, c in out.items() if c}


def lowered(true: dict[Monomial, Fraction], sent: dict[Monomial, int], reach: list[Fraction]) -> Fraction:
    """By how much the sent polynomial can be below the true one where every |variable| is at most its reach, constants
    aside."""
    return sum((abs(true.get(e, Fraction(0)) - sent.get(e, 0)) * evaluate({e: Fraction(1)}, reach)
                for e in true.keys() | sent.keys() if e != ONE), Fraction(0))
