"""Whole rows of basis 0 whose weighted squares sum to a polynomial exactly, with few rows.

Only the polynomial must be met, not the Gram matrix: a monomial that a later pair of basis 0 also makes can be left to
that pair. A pivot all of whose products are made again later takes one row, rounded; one with a product that is made
for the last time takes three, with steps that fall to 1. The order of pivots leaves as few of these as it can.
"""
from __future__ import annotations

from math import isqrt

from .commands import Monomial, add
from .squares import LARGEST_WEIGHT, Factors, Limits, Matrix, RoundingError, TooManyRows, single

Pair = tuple[int, int]


class Peeling:
    """What is left of the matrix, the pairs that still make each monomial, and the rows so far."""

    def __init__(self, basis: list[Monomial], parts: list[list[int]], matrix: Matrix, limits: Limits,
                 exact: int, loose: int) -> None:
        self.basis, self.left, self.limits = basis, dict(matrix), limits
        self.exact, self.loose = exact, loose
        self.home = {i: part for part in parts for i in part}
        self.alive = set(self.home)
        self.makers: dict[Monomial, set[Pair]] = {}
        for part in parts:
            for a in part:
                for b in part:
                    if a <= b:
                        self.makers.setdefault(add(basis[a], basis[b]), set()).add((a, b))
        self.rows: list[tuple[int, Factors]] = []

    def product(self, a: int, b: int) -> set[Pair]:
        return self.makers[add(self.basis[a], self.basis[b])]

    def next(self) -> int:
        """The pivot with the fewest products that nothing makes later."""
        def cost(k: int) -> tuple[int, int, int]:
            last = sum(len(self.product(k, i)) == 1 for i in self.home[k] if i in self.alive and i != k)
            return last, len(self.product(k, k)) == 1, -self.left.get((k, k), 0)
        return min(sorted(self.alive), key=cost)

    def leave(self, pairs: set[Pair], amount: int) -> None:
        """Leaves a coefficient to a later pair: to a square if it is odd, and where the diagonals are largest."""
        if amount:
            a, b = max(sorted(pairs), key=lambda at: ((at[0] == at[1]) == amount % 2,
                                                      min(self.left.get((i, i), 0) for i in at)))
            if a != b and amount % 2:
                raise RoundingError("a coefficient is odd where only even ones can be met")
            self.left[a, b] = self.left.get((a, b), 0) + (amount if a == b else amount // 2)

    def peel(self, room: int) -> list[tuple[int, Factors]]:
        """All rows. Raises RoundingError, and TooManyRows as soon as one row for each pivot left is too many."""
        while self.alive:
            if len(self.rows) + len(self.alive) > room:
                raise TooManyRows(room)
            self.pivot(self.next())
        if len(self.rows) > room:
            raise TooManyRows(room)
        return self.rows

    def pivot(self, k: int) -> None:
        """The rows of one pivot, and what they leave to later pairs."""
        others = self.close(k)
        d = self.left.pop((k, k), 0)
        beside = {i: h for i in others if (h := self.left.pop(_pair(k, i), 0))}
        exact = any(not self.product(k, i) for i in beside)
        loose = bool(self.product(k, k))
        largest = max([d] + [self.left.get((i, i), 0) for i in beside])
        steps = self.steps(d, largest, exact, loose) if d > 0 and (beside or loose) else []
        if d < 0 or beside and not steps:
            raise RoundingError(f"the pivot {d} leaves no room")
        made: list[Factors] = [{k: l} for _, l in steps]
        for i, h in beside.items():
            self.entry(k, i, h, steps, made, exact)
        for (w, _), row in zip(steps, made):
            self.take(w, row, k)
        self.diagonal(k, d - sum(w * l * l for w, l in steps), loose)

    def close(self, k: int) -> list[int]:
        """Takes the pivot and its pairs out of what can be left anything; the others of its block."""
        self.alive.discard(k)
        others = [i for i in self.home[k] if i in self.alive]
        for i in others + [k]:
            self.product(k, i).discard(_pair(k, i))
        return others

    def entry(self, k: int, i: int, h: int, steps: list[tuple[int, int]], made: list[Factors], exact: bool) -> None:
        """Factors for an entry beside the pivot; what they miss of it is left to a later pair."""
        missed = h
        for (w, l), row, v in zip(steps, made, self.meet(steps, h, exact)):
            if abs(v) > self.limits.factor:
                raise RoundingError("a factor too large")
            if v:
                row[i] = v
                missed -= w * l * v
        self.leave(self.product(k, i), 2 * missed)

    def take(self, weight: int, row: Factors, k: int) -> None:
        """Adds a row, and takes what it puts on later entries off them."""
        self.rows.append((weight, row))
        entries = sorted((i, v) for i, v in row.items() if i != k)
        for x, (i, a) in enumerate(entries):
            for j, b in entries[x:]:
                at = _pair(i, j)
                self.left[at] = self.left.get(at, 0) - weight * a * b

    def diagonal(self, k: int, rest: int, loose: bool) -> None:
        """What the rows leave of the pivot itself: to a later pair, which halves it unless it is a square, or as rows
        of their own."""
        if not loose:
            self.rows += [(w, {k: l}) for w, l in single(rest, self.limits)]
            return
        if rest % 2 and all(a != b for a, b in self.product(k, k)):
            self.rows.append((1, {k: 1}))
            rest -= 1
        self.leave(self.product(k, k), rest)

    def steps(self, d: int, largest: int, exact: bool, loose: bool) -> list[tuple[int, int]]:
        """Rows (weight, factor) for a pivot, with steps that fall geometrically; what they leave of it is left to a
        later pair, or small. The factors of the largest diagonal beside it must fit too."""
        square = max(1, self.limits.factor ** 2 * 3 // 4 * d // max(d, largest, 1))      # of the largest factor
        w = -(-d // square) or 1
        if w > LARGEST_WEIGHT:
            raise RoundingError("a weight beyond 16 bits")
        count = self.exact - 1 if exact else self.loose              # without the last row of an exact pivot, (1, 1)
        first = float(w * max(1, isqrt(d // w)))
        wanted = [first ** ((count - stage) / count) for stage in range(1, count)]
        out, rest = [], d - int(exact)
        for stage in range(count):
            later = int(sum(x * x for x in wanted[stage:]))
            weight = -(-rest // square) or 1
            weight += loose and weight % 2 == 0
            l = isqrt(max(0, rest - later) // weight)
            if l < 1:
                continue
            if stage == count - 1 and loose and l > 1 and (rest - weight * l * l) % 2:
                l -= 1
            out.append((weight, l))
            rest -= weight * l * l
        return out + [(1, 1)] * int(exact)

    @staticmethod
    def meet(steps: list[tuple[int, int]], h: int, exact: bool) -> list[int]:
        """Whole factors, one for each row; exact: their products with the steps sum to h."""
        d, rest, owed, out = sum(w * l * l for w, l in steps), h, 0.0, []
        for at, (w, l) in enumerate(steps):
            v = rest if exact and at == len(steps) - 1 else round(h * l / d - owed / (w * l))
            owed += w * l * (v - h * l / d)
            rest -= w * l * v
            out.append(v)
        return out


def rows_least(basis: list[Monomial], parts: list[list[int]]) -> int:
    """The fewest rows that the pivots of basis 0 take: three for one that must be exact, one for another."""
    peeling, total = Peeling(basis, parts, {}, Limits.of(True), 3, 1), 0
    while peeling.alive:
        k = peeling.next()
        others = peeling.close(k)
        total += 3 if any(not peeling.product(k, i) for i in others) else 1
    return total


def _pair(a: int, b: int) -> Pair:
    return (a, b) if a <= b else (b, a)
