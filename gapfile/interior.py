"""Room inside the cone, for a solution that is at its edge and cannot be asked for again: what one unit given up of the
bound buys.

The bound's unit can stay with the square of 1. Where a condition is c - (a sum of squares of monomials), as a range
from -1 to 1 or a ball is, more of its multiplier turns it into other squares: k m^2 g_j + k m^2 (c - g_j) = k c m^2, so
k c of the square of m buys k times the squares of m^2 (c - g_j). From 1 on this reaches what the bases allow.
"""
from __future__ import annotations

from dataclasses import dataclass, field, replace

from .commands import Monomial, ONE, add
from .sdp import Program, Solution


@dataclass(frozen=True)
class Way:
    """How the square of a monomial is bought: by the square of another, times a condition with this constant."""
    condition: int
    index: int                   # of the other monomial, in the condition's basis
    paid: Monomial
    constant: int
    bought: dict[Monomial, int]  # squares, by their monomials, for 1 of the multiplier


@dataclass
class Bought:
    """For one unit of the bound: more of the squares of basis 0, by monomial, and of multipliers' squares."""
    squares: dict[Monomial, float] = field(default_factory=dict)
    multipliers: dict[tuple[int, int], float] = field(default_factory=dict)


def buy(program: Program) -> Bought:
    """The same room for every square that can be reached, for one unit of the bound in all."""
    first = {program.problem.bases[0][i] for j, ix in program.blocks if j == 0 for i in ix}
    if ONE not in first:
        return Bought()
    ways = _ways(program, first)
    got, paid, out = dict.fromkeys(ways, 0.0), {ONE: 0.0, **dict.fromkeys(ways, 0.0)}, Bought()
    got[ONE] = 0.0
    for b, way in reversed(ways.items()):                        # the highest first: it is paid with lower ones
        missing = 1.0 + paid[b] - got[b]
        if missing > 0:
            k = missing / way.bought[b]
            at = way.condition, way.index
            out.multipliers[at] = out.multipliers.get(at, 0.0) + k
            paid[way.paid] += k * way.constant
            for e, c in way.bought.items():
                got[e] = got.get(e, 0.0) + k * c
    whole = 1.0 + paid[ONE] - got[ONE]
    out.squares = {e: (got[e] - paid.get(e, 0.0)) / whole for e in got if e != ONE}
    out.squares[ONE] = 1.0 / whole
    out.multipliers = {at: k / whole for at, k in out.multipliers.items()}
    return out


def _ways(program: Program, first: set[Monomial]) -> dict[Monomial, Way]:
    """For each monomial of basis 0 that can be reached from 1 the cheapest way, by rising degree."""
    offers = [way for j, ix in program.blocks if j for i in ix for way in _offers(program, j, i, first)]
    out: dict[Monomial, Way] = {}
    for b in sorted(first - {ONE}, key=sum):
        possible = [way for way in offers if b in way.bought and (way.paid == ONE or way.paid in out)]
        if possible:
            out[b] = min(possible, key=lambda way: way.constant / way.bought[b])
    return out


def _offers(program: Program, j: int, i: int, first: set[Monomial]) -> list[Way]:
    """What the square of one monomial of a condition's basis buys: one way, or none."""
    m, terms = program.problem.bases[j][i], program.problem.multiplier(j)
    bought = {}
    for t, c in terms.items():
        if t != ONE:
            square = add(add(m, m), t)
            root = tuple(x // 2 for x in square)
            if c > 0 or any(x % 2 for x in square) or root not in first:
                return []
            bought[root] = -c
    paid = m in first and terms.get(ONE, 0) > 0 and all(sum(m) < sum(b) for b in bought)
    return [Way(j, i, m, terms[ONE], bought)] if bought and paid else []


def given_up(program: Program, solution: Solution, loss: float, bought: Bought) -> Solution:
    """The solution with so much less of the bound, and with what that buys; itself where it buys nothing."""
    if not bought.squares:
        return solution
    grams = [[list(row) for row in gram] for gram in solution.grams]
    for (j, ix), gram in zip(program.blocks, grams):
        for a, i in enumerate(ix):
            more = bought.multipliers.get((j, i), 0.0) if j else bought.squares.get(program.problem.bases[0][i], 0.0)
            gram[a][a] += loss * more
    return replace(solution, bound=solution.bound - loss, grams=grams)
