"""From a relaxation to two certificates that the checker accepts."""
from __future__ import annotations

from dataclasses import dataclass, field
from fractions import Fraction
from typing import Optional

from . import basis
from .budget import ROUNDING_ONE, Budget
from .decimals import counted
from .points import Attained, Reached
from .problem import Posed, encode_problem
from .programs import Blocks, check_one
from .progress import Say
from .relaxing import ANY_BOUND, CLOSE, WORDS, NoCertificate, Relaxed
from .rounding import EFFORTS, Rounded, denominator_for, encode_certificate, round_solution, wide_entries
from .sdp import Program, Solution, solve
from .solver import STATUS, USABLE, Solver
from .sparse import Parts
from .squares import RoundingError, TooManyRows

# of the objective's largest coefficient; factors of 16 bits have less room, so their steps are finer
SLACKS = (1e-10, 1e-9, 3e-9, 1e-8, 3e-8, 1e-7, 1e-6, 1e-5, 1e-4, 1e-3)
FINE_SLACKS = tuple(m * 10.0 ** -k for k in range(10, 1, -1) for m in (1, 3))
CROWDED = 4                      # so many slacks may end with too many rows: a larger one seldom needs fewer
CROSSING = 1.0                   # what is proved of an empty region: at least this, and at most its negative


@dataclass
class Side:
    """One certificate: its bytes, and what was lost on the way, in the problem's units."""
    side: int
    certificate: bytes
    bound: Fraction
    relaxation: float
    status: int
    slack: float
    rows: int
    wide: int
    attained: Optional[Attained]

    @property
    def off(self) -> Fraction:
        """How far the bound is from the attained value."""
        assert self.attained
        return abs(self.bound - self.attained.value)

    def distance(self, value: Fraction, factor: int) -> float:
        """How far the bound is from a value in the model's units, relative to it or to 1."""
        return float(abs(self.bound / factor - value) / max(Fraction(1), abs(value)))


@dataclass
class Solved:
    """A problem with the certificates of the sides that are claimed."""
    posed: Posed
    degree: int
    problem: bytes
    blocks: Blocks
    sizes: str
    sides: list[Side] = field(default_factory=list)

    def distance(self, reached: Reached) -> float:
        """How far the bounds are from what is attained; where nothing is, more than 1 and from each other, and a lone
        bound from 0, with a sign: less is better."""
        values = [reached.value(s.side) for s in self.sides]
        if None in values:
            return 1.0 + float(sum(s.bound if s.side else -s.bound for s in self.sides) / self.posed.factor)
        return max(s.distance(v, self.posed.factor) for s, v in zip(self.sides, values) if v is not None)

    def lossy(self, reached: Reached) -> bool:
        """Whether rounding, and not the relaxation, leaves a bound away from what is attained."""
        return self.distance(reached) > 100 * CLOSE and any(
            abs(float(s.bound) - s.relaxation) > 0.3 * float(s.off) for s in self.sides if s.attained and s.off)


@dataclass(frozen=True)
class Found:
    """A certificate that the checker accepts, and the slack with which it was found."""
    slack: float
    rounded: Rounded
    stream: bytes


@dataclass
class Certifier:
    """What rounding needs beside the relaxation."""
    solver: Solver
    narrow: bool
    budget: Budget
    say: Say

    def certify(self, relaxed: Relaxed, reached: Reached) -> Solved:
        """The certificates of all sides with the bases of a relaxation. Raises NoCertificate."""
        problem = relaxed.posed.problem
        sizes = basis.sizes(problem, relaxed.blocks)
        self.say(f"rounding at degree {relaxed.degree}: {sizes}")
        solved = Solved(relaxed.posed, relaxed.degree, encode_problem(problem), relaxed.blocks, sizes)
        if relaxed.empty and len(relaxed.posed.sides) == 1:
            raise NoCertificate(f"{STATUS[ANY_BOUND]}; one side alone cannot show that: without `only` bounds that "
                                "cross are looked for", False)
        for side in relaxed.posed.sides:
            solved.sides.append(self._side(solved.problem, relaxed, side, reached.on(relaxed.posed, side)))
        if relaxed.empty and solved.sides[0].bound <= solved.sides[1].bound:
            raise NoCertificate(f"{STATUS[ANY_BOUND]}, and no proof of that of degree {relaxed.degree} was found",
                                False)
        return solved

    def _side(self, stream: bytes, relaxed: Relaxed, side: int, attained: Optional[Attained]) -> Side:
        """The certificate of one side, and how far it is from the relaxation and from an attained value."""
        program, best = relaxed.programs[side], relaxed.best[side]
        fixed = CROSSING if best.status == ANY_BOUND else None
        try:
            found = self._least_slack(stream, program, relaxed.parts, fixed)
        except RoundingError as error:
            if fixed:
                raise NoCertificate(f"{STATUS[ANY_BOUND]}, and no proof of that of degree {relaxed.degree} could be "
                                    f"rounded ({error})", False) from None
            more = "; without --narrow there is more room" if self.narrow else ""
            raise NoCertificate(f"no {WORDS[side]} certificate of degree {relaxed.degree} could be rounded ({error})"
                                f"{more}") from None
        rounded = found.rounded
        self.say(f"{WORDS[side]}: rounded to {rounded.p}/{rounded.q} with {counted(len(rounded.rows), 'row')}")
        return Side(side, found.stream, Fraction(rounded.p, rounded.q), program.sign * (fixed or best.bound),
                    best.status, found.slack, len(rounded.rows), wide_entries(rounded), None if fixed else attained)

    def _least_slack(self, stream: bytes, program: Program, parts: Parts, fixed: Optional[float]) -> Found:
        """The certificate with the least slack that can be rounded and that the checker accepts; a fixed bound loses
        nothing by slack, so there the largest is taken. Raises RoundingError."""
        slacks = FINE_SLACKS if self.narrow else SLACKS
        failure, crowded, until = RoundingError("the time is up"), 0, self.budget.work + ROUNDING_ONE
        for slack in slacks if fixed is None else slacks[::-2]:
            if crowded > CROWDED or self.budget.over(until):
                break
            self.say(f"{WORDS[program.sign < 0]}: solving and rounding with a slack of {slack:.0e}")
            try:
                return self._with_slack(stream, program, parts, slack, fixed)
            except RoundingError as error:
                failure = error
                crowded += isinstance(error, TooManyRows)
        raise failure

    def _with_slack(self, stream: bytes, program: Program, parts: Parts, slack: float, fixed: Optional[float]) -> Found:
        """The certificate with one slack. Raises RoundingError."""
        absolute = slack * float(program.scale)
        solution = solve(program, self.solver, absolute, fixed)
        if solution.status not in USABLE:
            raise RoundingError(STATUS[solution.status])
        rounded = self._thrifty(program, parts, solution, absolute, fixed)
        certificate = encode_certificate(program.problem, rounded)
        if not check_one(stream, certificate).accepted:
            raise RoundingError("the checker refuses what was rounded")
        return Found(slack, rounded, certificate)

    def _thrifty(self, program: Program, parts: Parts, solution: Solution, slack: float,
                 fixed: Optional[float]) -> Rounded:
        """The solution rounded; where rows or room do not suffice, one of a bound a little less with the smallest
        multipliers: csdp's own, in the middle of all that prove the best bound, spend rows on what is not needed."""
        try:
            return self._rounded(program, parts, solution, slack)
        except RoundingError:
            if fixed is not None or not any(j for j, _ in program.blocks):
                raise
            less = solution.bound - max(3 * slack, 2 / denominator_for(solution.bound))
            other = solve(program, self.solver, slack, less, True)
            if other.status not in USABLE:
                raise
            return self._rounded(program, parts, other, slack)

    def _rounded(self, program: Program, parts: Parts, solution: Solution, slack: float) -> Rounded:
        """With as many rows as there is room for; two failures that more rows do not cure end it: it needs slack."""
        failures: list[RoundingError] = []
        for effort in EFFORTS:
            self.budget.rounding(len(program.problem.bases[0]))
            try:
                return round_solution(program, parts, solution, slack, not self.narrow, effort)
            except TooManyRows as error:
                failures = failures or [error]
            except RoundingError as error:
                failures = [f for f in failures if not isinstance(f, TooManyRows)] + [error]
                if len(failures) == 2:
                    break
        raise failures[0]
