"""Attained values: allowed rational points found by search, evaluated exactly.

The search works in floats and may miss the best point; what it returns is exact and allowed, so its value is one
that the polynomial really takes. It has no chance in it: its starts are those of a fixed sequence.
"""
from __future__ import annotations

from dataclasses import dataclass
from fractions import Fraction
from typing import Optional

from .descent import optima
from .equalities import Equalities, Function
from .polynomials import evaluate
from .problem import Posed, allowed
from .ranges import interval_of
from .reading import Problem

Point = list[float]
STARTS, CHOSEN, FEWER, HALVINGS = 24, 6, 2, 46     # FEWER: once another solution of the equalities gave a point
SPREAD = 200                                     # points among which an inner one is looked for
MOST_LOOKED_AT = 60000                           # points of one descent
FAR_OUT = 1e3                                    # where a variable without a range is stopped
PRIMES = (2, 3, 5, 7, 11, 13, 17, 19)
DENOMINATORS = (1, 2, 3, 4, 5, 6, 8, 10, 12, 16, 20, 25, 50, 100, 1000, 10 ** 4, 10 ** 5, 10 ** 6, 10 ** 7, 10 ** 9)
SMALL = DENOMINATORS[:16]
PULLS = (0.0, 1e-8, 1e-7, 1e-6, 1e-5, 1e-4, 1e-3)


@dataclass(frozen=True)
class Attained:
    """An allowed point and the exact value there."""
    point: list[Fraction]
    value: Fraction


class Search:
    """The search for one problem. Some variables follow from the others by the equalities, from `prefer` on."""

    def __init__(self, problem: Problem, prefer: int = 0) -> None:
        self.problem = problem
        self.objective = Function(problem.objective)
        self.inequalities = [Function(c.terms) for c in problem.conditions if not c.equality]
        ranges = {found[0]: found[1:] for c in problem.conditions if (found := interval_of(c))}
        self.box = [ranges.get(i, (-FAR_OUT, FAR_OUT)) for i in range(problem.variables)]
        self.near = [ranges.get(i, (-1.0, 1.0)) for i in range(problem.variables)]
        self.equalities = Equalities(problem, prefer)
        self.open = [i for i in range(problem.variables) if i not in self.equalities.followers]
        self.interior: Optional[Point] = None
        self.looked_at = 0

    def starts(self) -> list[Point]:
        """The middle, points spread evenly over the box (Halton's sequence), and some of its corners."""
        spread = self.spread(STARTS)
        corners = [[ends[_halton(k, p) >= 0.5] for ends, p in zip(self.near, PRIMES)] for k in range(1, STARTS + 1)]
        return [[(low + high) / 2 for low, high in self.near]] + spread + corners

    def spread(self, count: int) -> list[Point]:
        """So many points spread evenly over the box."""
        return [[low + (high - low) * _halton(k, p) for (low, high), p in zip(self.near, PRIMES)]
                for k in range(1, count + 1)]

    def innermost(self, starts: list[Point]) -> Point:
        """Of many points the one furthest inside; the mean of the allowed ones is inside where the region is convex."""
        points = starts + self.spread(SPREAD)
        allowed_ = [x for x in points if self.inside(x) >= 0]
        if allowed_:
            points.append([sum(values) / len(allowed_) for values in zip(*allowed_)])
        return max(points, key=self.inside)

    def inside(self, x: Point) -> float:
        """The least inequality; below 0 outside the region."""
        self.looked_at += 1
        return min((g(x) for g in self.inequalities), default=1.0) if self.equalities.complete(x) else -1.0

    def pulled(self, x: Point) -> Point:
        """The point clipped to the box, and drawn to an interior point as far as the region needs it."""
        x = [max(low, min(high, v)) for v, (low, high) in zip(x, self.box)]
        if self.interior is None or self.inside(x) >= 0:
            return x
        low, high = 0.0, 1.0
        for _ in range(40):
            middle = (low + high) / 2
            if self.inside([c + middle * (v - c) for v, c in zip(x, self.interior)]) >= 0:
                low = middle
            else:
                high = middle
        return [c + low * (v - c) for v, c in zip(x, self.interior)]

    def rate(self, x: Point, sign: int) -> float:
        """What is minimised: the objective with its sign, a penalty outside the region."""
        worst = self.inside(x)
        return sign * self.objective(x) if worst >= -1e-12 else 1e30 * (1 - worst)

    def descend(self, x: Point, sign: int) -> tuple[float, Point]:
        """Steps along the axes and on along the last success, halved where none helps."""
        x = self.pulled(x)
        best, step = self.rate(x, sign), 2.0                     # the whole range of a variable
        until = self.looked_at + MOST_LOOKED_AT
        for _ in range(HALVINGS):
            for _ in range(12):
                start, before = list(x), best
                for i in self.open:
                    for move in (step, -step):
                        tried = self.pulled(x[:i] + [x[i] + move] + x[i + 1:])
                        value = self.rate(tried, sign)
                        if value < best:
                            best, x = value, tried
                last = [a - b for a, b in zip(x, start)]
                while any(last):
                    tried = self.pulled([a + b for a, b in zip(x, last)])
                    value = self.rate(tried, sign)
                    if value >= best:
                        break
                    best, x = value, tried
                    last = [2 * b for b in last]
                if best >= before or self.looked_at > until:
                    break
            step /= 2
        return best, x

    def descents(self, starts: list[Point], sign: int, count: int) -> list[Point]:
        """Where the first start, the hint, and the best so many of the others lead, the best first."""
        rated = sorted((self.rate(self.pulled(x), sign), x) for x in starts[1:])
        chosen = starts[:1] + [x for _, x in rated[:count]]
        return [x for _, x in sorted(self.descend(x, sign) for x in chosen)]

    def rational(self, x: Point, sign: int, best: Optional[Attained]) -> Optional[Attained]:
        """The point made rational with small denominators, pulled inwards where rounding leaves the region."""
        interior = self.interior or x
        for denominator in DENOMINATORS:
            for pull in PULLS:
                moved = [a + pull * (b - a) for a, b in zip(x, interior)]
                point = [Fraction(round(v * denominator), denominator) for v in moved]
                if self.equalities.complete(point) and allowed(self.problem, point):
                    best = better(best, Attained(point, evaluate(self.problem.objective, point)), sign)
                    break
        return best


def _halton(k: int, prime: int) -> float:
    """The k-th number of the sequence of van der Corput: the digits of k in the base, mirrored behind the point."""
    out, share = 0.0, 1.0 / prime
    while k:
        k, digit = divmod(k, prime)
        out += digit * share
        share /= prime
    return out


def attain(problem: Problem, side: int, hint: Optional[Point] = None, alone: bool = False) -> Optional[Attained]:
    """A low (side 0) or high (side 1) value at an allowed rational point, the best that was found: from the hint, and
    unless this is to be tried alone from many starts. Equalities are solved for one variable after the other."""
    sign = 1 if side == 0 else -1
    first = Search(problem)
    starts = ([list(hint)] if hint else []) + ([] if alone and hint else first.starts())
    found = optima(problem, sign, starts if alone else starts[:2] + starts[2::3], first.box)
    equalities = any(c.equality for c in problem.conditions)
    searches = [Search(problem, prefer) for prefer in range(problem.variables if equalities else 1)]
    searches = [search for search in searches if search.equalities.possible]
    if not searches:
        return _plain(problem, found or [], sign)
    best: Optional[Attained] = None
    for search in searches:
        for x in _points(search, sign, starts, found, CHOSEN if best is None else FEWER)[:3]:
            best = better(best, search.rational(x, sign, best), sign)
    return best


def _points(search: Search, sign: int, starts: list[Point], found: Optional[list[Point]], count: int) -> list[Point]:
    """Points to make rational: local optima where they are known, else those that the search descends to."""
    middle = search.innermost(starts + search.starts())
    search.interior = middle if search.inside(middle) > 0 else None
    if not found:
        return search.descents(starts, sign, count)
    if search.interior is None:
        inner = [[c + t * (v - c) for v, c in zip(found[0], middle)] for t in (0.5, 0.9)]
        search.interior = max(inner, key=search.inside)
    return found


def _plain(problem: Problem, found: list[Point], sign: int) -> Optional[Attained]:
    """The best point that rounding to small denominators puts on the region, where equalities cannot be solved."""
    best: Optional[Attained] = None
    for x in found:
        for denominator in SMALL:
            point = [Fraction(round(v * denominator), denominator) for v in x]
            if allowed(problem, point):
                best = better(best, Attained(point, evaluate(problem.objective, point)), sign)
                break
    return best


def better(a: Optional[Attained], b: Optional[Attained], sign: int) -> Optional[Attained]:
    """The better one; the first, with its smaller denominators, unless the second gains more than a trace."""
    if a is None or b is None:
        return a or b
    trace = Fraction(1, 10 ** 9) * (1 + abs(a.value))
    return b if sign * (a.value - b.value) > trace else a


class Reached:
    """The best points that are known of a model's region, for both sides, in the model's variables and units.

    They do not depend on bases or maps, so the many starts are tried once; after that only what a relaxation hints at.
    """

    def __init__(self, posed: Posed) -> None:
        self.posed = posed
        self.best: list[Optional[Attained]] = [None, None]
        self.searched = [False, False]

    def look(self, side: int, posed: Posed, hint: Point) -> None:
        """Searches from the hint, a point of that problem, and the first time from many other starts."""
        own = self.posed
        start = [(float(m) + float(h) * x - float(a)) / float(b)
                 for x, m, h, a, b in zip(hint, posed.middle, posed.half, own.middle, own.half)]
        found = attain(own.region, side, start, self.searched[side])
        self.searched[side] = True
        if found:
            made = Attained(own.model_point(found.point), found.value / own.factor)
            self.best[side] = better(self.best[side], made, 1 if side == 0 else -1)

    def value(self, side: int) -> Optional[Fraction]:
        found = self.best[side]
        return found.value if found else None

    def on(self, posed: Posed, side: int) -> Optional[Attained]:
        """The best point in the variables and units of a problem."""
        found = self.best[side]
        return Attained(posed.stream_point(found.point), found.value * posed.factor) if found else None
