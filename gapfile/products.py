"""Products of two linear conditions as further conditions. They hold wherever the conditions do, so the region is the
same, and a product of two lines at a corner is often all that a bound lacks; csdp says which of them one would use."""
from __future__ import annotations

from dataclasses import replace
from itertools import combinations
from typing import Optional

from .commands import ONE
from .polynomials import Polynomial, ordered, times, whole
from .problem import Posed
from .reading import LIMITS, Condition
from .sdp import Unreachable, pose_program, solve
from .solver import USABLE, Solver
from .sparse import by_variables, give_bases

MOST = 64                        # candidates in one program
USED = 1e-4                      # of the objective's largest coefficient: from here on a multiplier counts


def _variables(p: Polynomial) -> set[int]:
    return {i for e in p for i, x in enumerate(e) if x}


def candidates(posed: Posed) -> list[tuple[Condition, str]]:
    """The products of linear conditions of different origin whose variables meet in a term of the objective, and words
    for them."""
    out = []
    terms = [frozenset(i for i, x in enumerate(e) if x) for e in posed.problem.objective]
    for (a, first), (b, second) in combinations(enumerate(posed.linear), 2):
        for f, g in ((f, g) for f in first for g in second):
            if not any(t & _variables(f) and t & _variables(g) for t in terms):
                continue
            made, _ = whole(times(f, g))
            if made and len(made) <= LIMITS["terms"] and all(abs(c) < 1 << 15 for c in made.values()):
                out.append((Condition(False, {e: made[e] for e in ordered(made)}),
                            f"product of the linear conditions {a + 1} and {b + 1}"))
    return out[:MOST]


def with_products(posed: Posed, total: int, solver: Solver) -> Optional[Posed]:
    """The problem with the products that the bounds of this degree use most, as many as there is room for; None where
    there is no room, no candidate, or none is used. Raises LimitError."""
    room = LIMITS["conditions"] - len(posed.problem.conditions)
    found = candidates(posed) if room > 0 else []
    used = _multipliers(posed, total, [c for c, _ in found], solver) if found else []
    best = sorted((k for k, size in enumerate(used) if size > USED), key=lambda k: -used[k])[:room]
    if not best:
        return None
    chosen = [found[k] for k in sorted(best)]
    more = replace(posed.problem, conditions=posed.problem.conditions + [c for c, _ in chosen])
    return replace(posed, problem=more, origins=posed.origins + [words for _, words in chosen])


def _multipliers(posed: Posed, total: int, products: list[Condition], solver: Solver) -> list[float]:
    """How large the multiplier of each product is in the best bounds, of all sides, with a number as multiplier."""
    wider = replace(posed.problem)
    give_bases(wider, total, by_variables, posed.sides)
    count = len(wider.conditions)
    wider.conditions = wider.conditions + products
    wider.bases = wider.bases + [[ONE] for _ in products]
    parts = [[list(range(len(b)))] if b else [] for b in wider.bases]
    used = [0.0] * len(products)
    for side in posed.sides:
        try:
            program = pose_program(wider, parts, side)
        except Unreachable:
            return used
        answer = solve(program, solver)
        for (j, _), gram in zip(program.blocks, answer.grams if answer.status in USABLE else []):
            if j > count:
                size = max(abs(c) for c in wider.multiplier(j).values())
                used[j - count - 1] = max(used[j - count - 1], gram[0][0] * size / float(program.scale))
    return used
