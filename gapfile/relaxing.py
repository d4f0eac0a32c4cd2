"""Relaxations: the best bounds in floats, from few monomials to many and from low degrees to high.

csdp answers in milliseconds to seconds, rounding takes longer and can fail; so all relaxations come first, and only the
smallest that is close to the best is rounded.
"""
from __future__ import annotations

from dataclasses import dataclass, field, replace
from typing import Container, Iterator, Optional

from . import basis
from .blocks import by_basis
from .budget import RELAXING, Budget
from .given import used, with_given
from .peeling import rows_least
from .points import Reached
from .problem import LARGEST_DEGREE, LimitError, Posed
from .products import with_products
from .programs import Blocks
from .progress import Say
from .reading import LIMITS, Problem
from .sdp import Program, Solution, Unreachable, pose_program, solve
from .solver import STATUS, USABLE, Solver
from .sparse import RULES, Parts, Rule, by_variables, give_bases, prune

WORDS = ("lower", "upper")
ANY_BOUND = 2                    # csdp's status where the program is unbounded
CLOSE = 1e-6                     # relaxations this close to an attained value need no more monomials
BLUR = 1e-9                      # of the distance of the two bounds: what csdp's accuracy hides
DEGREES_WITH_PRODUCTS = 2        # products of conditions help at the least degrees; above, the squares make them


class NoCertificate(Exception):
    """No certificate was found; the sentence says why, and `higher` whether a higher degree may help."""

    def __init__(self, why: str, higher: bool = True) -> None:
        super().__init__(why)
        self.higher = higher


@dataclass
class Relaxed:
    """A problem with its bases, and the best bound of each of its sides in floats; upper bounds with their sign
    turned."""
    posed: Posed
    degree: int
    name: str
    blocks: Blocks
    parts: Parts
    programs: dict[int, Program] = field(default_factory=dict)
    best: dict[int, Solution] = field(default_factory=dict)

    @property
    def rows(self) -> int:
        return rows_least(self.posed.problem.bases[0], self.parts[0])

    @property
    def empty(self) -> bool:
        """Whether csdp says that any bound can be proved."""
        return any(s.status == ANY_BOUND for s in self.best.values())

    def bound(self, side: int, reached: Reached) -> float:
        """The bound of a side; what is beyond an attained value is csdp's error."""
        value, found = reached.value(side), self.best[side].bound
        return found if value is None else min(found, self.programs[side].sign * self.posed.factor * float(value))

    def loss(self, best: dict[int, float], reached: Reached) -> float:
        """How much worse than the best bounds that are known, relative to them or to 1 in the model's units."""
        blur = BLUR * abs(sum(best.values()))
        return max((b - self.bound(side, reached) - blur) / max(self.posed.factor, abs(b))
                   for side, b in best.items())

    def gap(self, reached: Reached, side: int) -> float:
        """How far the relaxation of a side is from what is attained, likewise, less what csdp cannot tell."""
        value = reached.value(side)
        if value is None:
            return 1.0
        factor, sign = self.posed.factor, self.programs[side].sign
        whole = len(self.best) == len(self.posed.sides)
        blur = BLUR * abs(sum(s.bound for s in self.best.values())) if whole else 0.0
        return (sign * factor * float(value) - self.best[side].bound - blur) / (factor * max(1.0, abs(float(value))))

    def close(self, reached: Reached) -> bool:
        """Whether more monomials can gain nothing."""
        return self.empty or max(self.gap(reached, side) for side in self.posed.sides) < CLOSE


def best_bounds(relaxed: list[Relaxed], reached: Reached) -> dict[int, float]:
    """The best bound of each side that is claimed."""
    return {side: max(r.bound(side, reached) for r in relaxed) for side in relaxed[0].posed.sides}


def fitting_blocks(problem: Problem, kept: Container[int] = ()) -> Blocks:
    """The blocks, with the conditions' bases pruned to them, but for those to be kept. Raises LimitError where basis 0
    needs too many rows."""
    found = basis.find_blocks(problem)
    while prune(problem, by_basis(problem, found), kept):
        found = basis.find_blocks(problem)
    rows = rows_least(problem.bases[0], by_basis(problem, found)[0])
    if rows > LIMITS["rows"]:
        raise LimitError(f"basis 0 alone needs {rows} rows of {LIMITS['rows']}; take fewer variables or a lower degree")
    return found


def higher(posed: Posed, total: int) -> str:
    """The advice to take a higher degree, where the checker's limits leave room for some of its bases."""
    if total > LARGEST_DEGREE:
        return f"degree {total} is too large: a basis of degree 8 reaches {LARGEST_DEGREE}"
    why = ""
    for _, rule in RULES:
        problem = replace(posed.problem)
        try:
            give_bases(problem, total, rule, posed.sides)
            fitting_blocks(problem)
            return f"try degree {total}"
        except LimitError as error:
            why = why or str(error)
    return f"degree {total} is too large: {why}"


def relax(posed: Posed, total: int, name: str, solver: Solver, reached: Reached, say: Say) -> Relaxed:
    """The best bounds with the bases that the problem has; what is attained is looked for where it is not yet close.
    Raises LimitError or NoCertificate."""
    problem = posed.problem
    found = fitting_blocks(problem, posed.given)
    parts = by_basis(problem, found)
    out = Relaxed(posed, total, name, found, used(posed, parts, say) if posed.given else parts)
    for side in posed.sides:
        none = f"no {WORDS[side]} certificate of degree {total}"
        try:
            program = pose_program(problem, out.parts, side)
        except Unreachable:
            what = "add to basis 0 what makes it" if posed.given else "give every variable a range"
            raise NoCertificate(f"{none}: the objective has a monomial that no product of the bases has; {what}",
                                bool(problem.conditions)) from None
        best = solve(program, solver)
        if best.status not in USABLE and best.status != ANY_BOUND:
            raise NoCertificate(f"{none}: {STATUS[best.status]}")
        out.programs[side], out.best[side] = program, best
    for side in posed.sides:
        if not out.empty and out.gap(reached, side) > CLOSE:
            reached.look(side, posed, out.best[side].moments)
    sizes = ", ".join(str(len(b)) for b in problem.bases)
    bounds = " to ".join(f"{out.programs[side].sign * s.bound / posed.factor:.9g}" for side, s in out.best.items())
    say(f"degree {total}, bases by {name} ({sizes}): {'from ' if len(out.best) > 1 else ''}{bounds}")
    return out


class Ladder:
    """The relaxations of one problem, one after the other, until they are close to what is attained, gain nothing more,
    or work or limits end it."""

    def __init__(self, posed: Posed, solver: Solver, budget: Budget, reached: Reached, say: Say) -> None:
        self.posed, self.solver, self.budget, self.reached, self.say = posed, solver, budget, reached, say
        self.until = budget.work + RELAXING
        self.least = basis.least_degree(posed.problem)
        self.found: list[Relaxed] = []
        self.failure: Optional[Exception] = None
        self.seen: set[str] = set()
        self.fits = False            # whether some bases of the degree that is tried are within the limits

    def climb(self, only: Optional[int]) -> list[Relaxed]:
        """All relaxations, at one degree or from the least one on; one alone where the bases are given. Raises
        LimitError or NoCertificate if none is."""
        if self.posed.given:
            return [self._by_hand()]
        for total in [only] if only else range(self.least, LARGEST_DEGREE + 1, 2):
            self._degree(total)
            hopeless = total > self.least + 2 and not self.found
            if not self.fits or hopeless or self._enough() or self._settled(total):
                break
        if self.found:
            return self.found
        assert self.failure
        if only and isinstance(self.failure, NoCertificate) and self.failure.higher:
            raise NoCertificate(f"{self.failure}; {higher(self.posed, only + 2)}")
        raise self.failure

    def _by_hand(self) -> Relaxed:
        """The relaxation with the bases that were given. Raises LimitError or NoCertificate."""
        total, posed = with_given(self.posed)
        return relax(posed, total, "hand", self.solver, self.reached, self.say)

    def _degree(self, total: int) -> None:
        """The relaxations of one degree."""
        self.fits = False
        for name, posed in self._rungs(total):
            try:
                found = relax(posed, total, name, self.solver, self.reached, self.say)
            except (LimitError, NoCertificate) as error:
                self._failed(total, name, error)
                self.fits = self.fits or isinstance(error, NoCertificate)
                continue
            self.fits = True
            self.found.append(found)
            if self._enough():
                break

    def _rungs(self, total: int) -> Iterator[tuple[str, Posed]]:
        """The problem with its bases by each rule that gives others, then likewise with products of conditions."""
        for name, rule in RULES:
            if made := self._with_bases(self.posed, total, name, rule):
                yield name, made
        if total >= self.least + 2 * DEGREES_WITH_PRODUCTS or not self.fits:
            return
        larger = self._with_products(total)
        for name, rule in RULES if larger else ():
            assert larger
            if made := self._with_bases(larger, total, name, rule):
                yield f"{name}, with products", made

    def _with_products(self, total: int) -> Optional[Posed]:
        try:
            return with_products(self.posed, total, self.solver)
        except LimitError as error:
            self._failed(total, "variables, with products", error)
            return None

    def _with_bases(self, posed: Posed, total: int, name: str, rule: Rule) -> Optional[Posed]:
        """None where the rule gives the bases of an earlier one, or too many monomials."""
        problem = replace(posed.problem)
        try:
            give_bases(problem, total, rule, posed.sides)
        except LimitError as error:
            self._failed(total, name, error)
            return None
        mark = str((problem.bases, len(problem.conditions)))
        if mark in self.seen:
            return None
        self.seen.add(mark)
        return replace(posed, problem=problem)

    def _failed(self, total: int, name: str, error: Exception) -> None:
        self.failure = self.failure or error
        self.say(f"degree {total}, bases by {name}: {error}")

    def _enough(self) -> bool:
        return bool(self.found) and (self.found[-1].close(self.reached) or self.budget.over(self.until))

    def _settled(self, total: int) -> bool:
        """Whether this degree gained nothing over the one before."""
        now, before = ([r for r in self.found if r.degree == d] for d in (total, total - 2))
        if not now or not before:
            return False
        best = best_bounds(now, self.reached)
        return min(r.loss(best, self.reached) for r in before) < CLOSE


def width(posed: Posed, solver: Solver, reached: Reached, say: Say) -> float:
    """How far relaxations of the second degree are from what is attained: what leaving a condition out costs."""
    total, problem = basis.least_degree(posed.problem) + 2, replace(posed.problem)
    try:
        give_bases(problem, total, by_variables, posed.sides)
        found = relax(replace(posed, problem=problem), total, "variables", solver, reached, say)
    except (LimitError, NoCertificate):
        return float("inf")
    return max(found.gap(reached, side) for side in posed.sides)
