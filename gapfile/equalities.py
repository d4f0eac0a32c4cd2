"""Points that meet equalities exactly.

An equality in which a variable is linear gives that variable, which is put into the other equalities where it is a
polynomial. One in a single variable leaves its rational roots, of which the nearest is taken. One of degree 2 in
several variables is met along lines through a rational point of it: the second point of each line is rational too.
"""
from __future__ import annotations

from dataclasses import dataclass
from fractions import Fraction
from itertools import product
from typing import Iterator, Mapping, Optional, TypeVar

from .commands import Monomial
from .polynomials import Polynomial, degree, evaluate, plus, substitute, variable
from .reading import Problem

Number = TypeVar("Number", float, Fraction)
LARGEST_DENOMINATOR, MOST_POINTS = 16, 30000


class Function:
    """A polynomial as a function: exact at fractions, quick at floats."""

    def __init__(self, terms: Mapping[Monomial, Fraction | int]) -> None:
        self.terms = terms
        self.flat = [(float(c), [(i, e) for i, e in enumerate(m) if e]) for m, c in terms.items()]

    def __call__(self, x: list[Number]) -> Number:
        if isinstance(x[0], Fraction):
            return evaluate(self.terms, x)
        total = 0.0
        for c, factors in self.flat:
            for i, e in factors:
                c *= x[i] ** e
            total += c
        return total


@dataclass(frozen=True)
class Quadric:
    """An equality of degree 2: its variables, a rational point of it, its value and that of its terms of degree 2."""
    used: list[int]
    base: dict[int, Fraction]
    value: Function
    square: Function

    def move(self, x: list[Number]) -> bool:
        """Moves the point along its line from the base to the second point of the quadric on that line."""
        kind = type(x[0])
        step = [kind(0)] * len(x)
        for i in self.used:
            step[i] = x[i] - kind(self.base[i])
        if not any(step):
            return True
        second = self.square(step)
        if not second:
            return False
        along = 1 - self.value(x) / second                       # the value at the base is 0
        for i in self.used:
            x[i] = kind(self.base[i]) + along * step[i]
        return True


class Equalities:
    """The equalities of a problem, solved from the variable `prefer` on. `possible` says whether that was found."""

    def __init__(self, problem: Problem, prefer: int = 0) -> None:
        self.count = problem.variables
        self.solved: list[tuple[int, Function, Function]] = []       # i, rest, factor: rest + x_i x factor = 0
        self.choices: dict[int, list[Fraction]] = {}
        self.quadric: Optional[Quadric] = None
        self.possible = True
        left = [{e: Fraction(c) for e, c in condition.terms.items()} for condition in problem.conditions
                if condition.equality]
        left.sort(key=lambda terms: degree(terms))
        while left:
            equality = left.pop(0)
            found = self._linear(equality, prefer)
            if not found:
                self.possible = self.possible and (not equality or self._curved(equality))
                continue
            i, rest, factor = found
            self.solved.append((i, Function(rest), Function(factor)))
            if degree(factor) == 0:
                value = plus({}, rest, Fraction(-1) / next(iter(factor.values())))
                values = [value if k == i else variable(k) for k in range(8)]
                left = [substitute(other, values) for other in left]

    @property
    def followers(self) -> set[int]:
        """The variables that follow from the others."""
        return {i for i, _, _ in self.solved}

    def _linear(self, terms: Polynomial, prefer: int) -> Optional[tuple[int, Polynomial, Polynomial]]:
        """A variable that is linear in the equality, which has none that was solved for before."""
        if any(m[k] for m in terms for k in self.followers):
            return None
        for i in ((prefer + k) % self.count for k in range(self.count)):
            if i not in self.choices and all(m[i] <= 1 for m in terms) and any(m[i] for m in terms):
                factor = {m[:i] + (0,) + m[i + 1:]: c for m, c in terms.items() if m[i]}
                return i, {m: c for m, c in terms.items() if not m[i]}, factor
        return None

    def _curved(self, terms: Polynomial) -> bool:
        """Takes an equality in one variable by its small rational roots, one of degree 2 by a small rational point."""
        used = [i for i in range(self.count) if any(m[i] for m in terms)]
        if len(used) == 1 and used[0] not in self.followers:
            roots = [point[used[0]] for point in rational_points(terms, used)]
            self.choices[used[0]] = sorted(set(roots) & set(self.choices.get(used[0], roots)))
            return bool(self.choices[used[0]])
        if self.quadric or degree(terms) != 2 or set(used) & (self.followers | set(self.choices)):
            return False
        base = next(rational_points(terms, used), None)
        if base:
            square = Function({m: c for m, c in terms.items() if sum(m) == 2})
            self.quadric = Quadric(used, base, Function(terms), square)
        return base is not None

    def complete(self, x: list[Number]) -> bool:
        """Changes the point so that it meets the equalities, exactly for fractions; false where that fails."""
        kind = type(x[0])
        for i, roots in self.choices.items():
            x[i] = kind(min(roots, key=lambda root: abs(root - Fraction(x[i]))))
        if self.quadric is not None and not self.quadric.move(x):
            return False
        for i, rest, factor in reversed(self.solved):
            below = factor(x)
            if not below:
                return False
            x[i] = -rest(x) / below
        return True


def rational_points(terms: Polynomial, used: list[int]) -> Iterator[dict[int, Fraction]]:
    """Points with small denominators in the box of these variables at which a polynomial is 0."""
    total, tried = degree(terms), 0
    for below in range(1, LARGEST_DENOMINATOR + 1):
        tried += (2 * below + 1) ** len(used)
        if tried > MOST_POINTS:
            return
        scaled = [(c * below ** (total - sum(m)), [i for i in used for _ in range(m[i])]) for m, c in terms.items()]
        for chosen in product(range(-below, below + 1), repeat=len(used)):
            at = dict(zip(used, chosen))
            value = Fraction(0)
            for c, factors in scaled:
                for i in factors:
                    c *= at[i]
                value += c
            if value == 0:
                yield {i: Fraction(v, below) for i, v in at.items()}
