"""From a model to three streams: the ways to pose it, relaxations, rounding, and the best of what was found."""
from __future__ import annotations

from dataclasses import dataclass
from fractions import Fraction
from math import log10
from typing import Optional

from .budget import TOGETHER, Budget, Metered
from .certifying import Certifier, Side, Solved
from .model import Model
from .points import Reached
from .problem import LimitError, Posed, omissions, poses
from .progress import Say
from .relaxing import CLOSE, WORDS, Ladder, NoCertificate, Relaxed, best_bounds, higher, width
from .restating import Mismatch, faithful, scaled
from .solver import Solver
from .unbounded import unbounded

__all__ = ["FAR", "NoCertificate", "Options", "Side", "Solved", "WORDS", "far", "far_off", "higher", "solve_model"]
FAR = Fraction(1, 1000)          # from here on a bound is called far from the attained value
TRIED_WITHOUT = 3                # of the ways to leave conditions out, the best so many are solved
ROUNDED_WELL = 1e-6              # what is filed this close to an attained value needs no further try
TRIED_AGAIN = 3                  # so many relaxations are rounded at most, where the first ones lose much


@dataclass(frozen=True)
class Options:
    """What the user agreed to: factors of 16 bits only, a region that is made larger where the limits ask for it, and
    how long it may take."""
    narrow: bool = False
    widen: bool = False
    seconds: Optional[float] = None


class Unfaithful(AssertionError):
    """A problem that does not say what its model says. This is a fault of gapfile: nothing may be filed."""


def solve_model(model: Model, solver: Solver, options: Options, say: Say) -> Solved:
    """The certificates of a model: posed in the first way that is not lossy, or in the best one. Raises LimitError,
    NoCertificate or NoSolver."""
    return _Solving(model, solver, options, say).solved()


class _Solving:
    """One model, and what is shared by the ways to pose it: the budget, and the points that are attained."""

    def __init__(self, model: Model, solver: Solver, options: Options, say: Say) -> None:
        self.model, self.options, self.say = model, options, say
        self.budget = Budget(options.seconds)
        self.solver = Metered(solver, self.budget)
        self.ways = self._ways()

    def _ways(self) -> list[Posed]:
        """The ways to pose the model, in the order in which they are tried."""
        widen, narrow = self.options.widen or self.model.widen, self.options.narrow
        choices = omissions(self.model, widen)
        first = poses(self.model, widen, choices[0], narrow)
        self.reached = Reached(first[0])
        if len(choices) == 1:
            return first
        made = [ways[0] for choice in choices for ways in [poses(self.model, widen, choice, narrow)]]
        self.say(f"{len(choices)} ways to leave conditions out; looking for the one that costs least")
        ranked = sorted(made, key=lambda posed: width(posed, self.solver, self.reached, self.say))
        return ranked[:TRIED_WITHOUT]

    def solved(self) -> Solved:
        found: list[Solved] = []
        failure: Optional[Exception] = None
        for posed in self.ways:
            try:
                found.append(self._one_way(posed))
            except (NoCertificate, LimitError) as error:
                failure = failure or error
            if found and not found[-1].lossy(self.reached) or self.budget.over(TOGETHER):
                break
        if not found:
            assert failure
            if isinstance(failure, NoCertificate):
                self._if_unbounded()
            raise failure
        best = min(found, key=lambda solved: solved.distance(self.reached))
        for side in best.sides:
            side.attained = self.reached.on(best.posed, side.side) if side.attained else None
        self._faithful(best.posed)
        return best

    def _faithful(self, posed: Posed) -> None:
        """Raises Unfaithful where the problem does not say what the model says."""
        try:
            faithful(self.model, scaled(self.model.names, posed.middle, posed.half), posed.factor, posed.problem)
        except Mismatch as error:
            raise Unfaithful(str(error)) from error

    def _one_way(self, posed: Posed) -> Solved:
        """The certificates of a problem. Of the relaxations the smallest of the best is rounded, and the next where
        that fails or loses much. Raises LimitError, NoCertificate or NoSolver."""
        relaxed = Ladder(posed, self.solver, self.budget, self.reached, self.say).climb(self.model.degree)
        certifier = Certifier(self.solver, self.options.narrow, self.budget, self.say)
        failure: Optional[NoCertificate] = None
        found: list[Solved] = []
        for r in in_order(relaxed, self.reached):
            if found and not self._worth(r, found):
                continue
            try:
                found.append(certifier.certify(r, self.reached))
            except NoCertificate as error:
                failure = failure or error
                self.say(f"{error}; trying other bases")
            if self.budget.over(TOGETHER):
                break
        if not found:
            assert failure
            raise failure
        return min(found, key=lambda solved: solved.distance(self.reached))

    def _worth(self, relaxed: Relaxed, found: list[Solved]) -> bool:
        """Whether another relaxation may give certificates that are clearly closer to what is attained."""
        best = min(solved.distance(self.reached) for solved in found)
        possible = max(relaxed.gap(self.reached, side) for side in self.model.sides)
        return len(found) < TRIED_AGAIN and best > ROUNDED_WELL and possible < best / 10

    def _if_unbounded(self) -> None:
        """Raises NoCertificate with the direction where the polynomial has no bound on the region."""
        found = {side: unbounded(self.model, side) for side in self.model.sides}
        for side, said in found.items():
            if said:
                other, none = WORDS[1 - side], found.get(1 - side, said) is not None
                help_ = "" if none else f"; the line `only {other}` files the {other} bound alone"
                raise NoCertificate(f"the polynomial has no {WORDS[side]} bound on the region: {said}{help_}", False)


def in_order(relaxed: list[Relaxed], reached: Reached) -> list[Relaxed]:
    """Those that are about as good as the best first, and of these the ones with few rows."""
    best = best_bounds(relaxed, reached)
    return sorted(relaxed, key=lambda r: (int(2 * log10(max(r.loss(best, reached), CLOSE))), r.rows))


def far_off(side: Side, factor: int) -> bool:
    """Whether the bound is further from the attained value than 1e-3 of it, and of 1 in the model's units."""
    return side.attained is not None and side.off > FAR * max(Fraction(factor), abs(side.attained.value))


def far(solved: Solved) -> bool:
    """Whether one of the bounds is."""
    return any(far_off(side, solved.posed.factor) for side in solved.sides)
