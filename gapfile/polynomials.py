"""Polynomials with rational coefficients, as dictionaries from eight exponents to fractions."""
from __future__ import annotations

from fractions import Fraction
from math import gcd, lcm, prod
from typing import Mapping

from .commands import Monomial, ONE, add

Polynomial = dict[Monomial, Fraction]


def variable(index: int) -> Polynomial:
    """The variable of this index, from 0."""
    return {tuple(int(k == index) for k in range(8)): Fraction(1)}


def constant(value: Fraction) -> Polynomial:
    return {ONE: value} if value else {}


def increase(a: Polynomial, b: Polynomial, factor: Fraction = Fraction(1)) -> None:
    """Adds factor x b to a, in place; coefficients that become 0 stay."""
    for e, c in b.items():
        a[e] = a.get(e, Fraction(0)) + factor * c


def plus(a: Polynomial, b: Polynomial, factor: Fraction = Fraction(1)) -> Polynomial:
    """a + factor x b."""
    out = dict(a)
    increase(out, b, factor)
    return {e: c for e, c in out.items() if c}


def times(a: Polynomial, b: Polynomial) -> Polynomial:
    out: Polynomial = {}
    for e, c in a.items():
        for f, d in b.items():
            s = add(e, f)
            out[s] = out.get(s, Fraction(0)) + c * d
    return {e: c for e, c in out.items() if c}


def power(a: Polynomial, exponent: int) -> Polynomial:
    out = constant(Fraction(1))
    for _ in range(exponent):
        out = times(out, a)
    return out


def degree(a: Mapping[Monomial, object]) -> int:
    return max((sum(e) for e in a), default=0)


def substitute(a: Polynomial, values: list[Polynomial]) -> Polynomial:
    """a with a polynomial in place of each variable."""
    powers: dict[tuple[int, int], Polynomial] = {}
    out: Polynomial = {}
    for e, c in a.items():
        term = constant(c)
        for i, exponent in enumerate(e):
            if exponent:
                if (i, exponent) not in powers:
                    powers[i, exponent] = power(values[i], exponent)
                term = times(term, powers[i, exponent])
        increase(out, term)
    return {e: c for e, c in out.items() if c}


def substitution_work(a: Mapping[Monomial, object]) -> int:
    """How many terms come up where every variable gets a polynomial of two terms."""
    return sum(prod(exponent + 1 for exponent in e) for e in a)


def evaluate(a: Mapping[Monomial, Fraction | int], point: list[Fraction]) -> Fraction:
    """The exact value at a rational point."""
    total = Fraction(0)
    for e, c in a.items():
        value = Fraction(c)
        for x, exponent in zip(point, e):
            if exponent:
                value *= x ** exponent
        total += value
    return total


def whole(a: Polynomial) -> tuple[dict[Monomial, int], Fraction]:
    """Whole coefficients without a common factor, and the positive factor that made them."""
    if not a:
        return {}, Fraction(1)
    denominator = lcm(*(c.denominator for c in a.values()))
    common = gcd(*(int(c * denominator) for c in a.values()))
    factor = Fraction(denominator, common)
    return {e: int(c * factor) for e, c in a.items()}, factor


def cleared(a: Polynomial) -> tuple[dict[Monomial, int], int]:
    """Whole coefficients by the least whole factor: common factors of the coefficients stay."""
    factor = lcm(*(c.denominator for c in a.values())) if a else 1
    return {e: int(c * factor) for e, c in a.items()}, factor


def ordered(a: Mapping[Monomial, object]) -> list[Monomial]:
    """Monomials by degree, then by variables."""
    return sorted(a, key=lambda e: (sum(e), tuple(-x for x in e)))
