"""From a model to the problem stream: ranges mapped, whole coefficients, and what that did to the figures."""
from __future__ import annotations

from dataclasses import dataclass, field
from fractions import Fraction
from itertools import combinations

from .choices import Basis
from .commands import PROBLEM, Monomial, WidthError, write_command
from .model import Model, Where
from .polynomials import (Polynomial, cleared, constant, degree, evaluate, ordered, plus, substitute, substitution_work,
                          times, variable, whole)
from .ranges import MAPS, NOT_MAPPED, Map, centred
from .reading import LIMITS, Condition, Problem
from .widening import LEFT_OUT, ROUNDED, can_be_rounded, rounded_outward

LARGEST_VALUE = 1 << 30          # what the objective's terms may sum to at most, so that bounds have 32 bits
LARGEST_DEGREE = 16              # a basis of degree 8 reaches it
UNBOUNDED_REACH = Fraction(2)    # how far a variable without a range is taken to go, for the number of digits alone
MOST_LEFT_OUT = 2
MOST_WORK = 200000               # terms that a change of variables may make


class LimitError(Exception):
    """The model is beyond a limit of the checker."""


@dataclass
class Posed:
    """A problem without bases, and how it stands to the model.

    The model's polynomial is the problem's objective / factor; variable i of the model is
    middle_i + half_i x (variable i of the problem).
    """
    problem: Problem
    factor: int
    middle: list[Fraction]
    half: list[Fraction]
    origins: list[str] = field(default_factory=list)             # for each condition, the words of the model
    linear: list[list[Polynomial]] = field(default_factory=list)     # linear ones that are at least 0, by origin
    omitted: list[Condition] = field(default_factory=list)       # the model's conditions that were left out or rounded
    widened: list[str] = field(default_factory=list)             # what was done to the region, in words
    sides: tuple[int, ...] = (0, 1)                              # those that the model claims
    given: dict[int, Basis] = field(default_factory=dict)        # bases by hand, by their numbers in the problem
    names: list[str] = field(default_factory=list)               # the model's

    def model_point(self, point: list[Fraction]) -> list[Fraction]:
        return [m + h * x for m, h, x in zip(self.middle, self.half, point)]

    def stream_point(self, point: list[Fraction]) -> list[Fraction]:
        return [(x - m) / h for m, h, x in zip(self.middle, self.half, point)]

    @property
    def region(self) -> Problem:
        """The problem with the model's own region, for points that must be allowed by the model."""
        return Problem(self.problem.variables, self.problem.objective, self.problem.conditions + self.omitted)


def stream_names(names: list[str], middle: list[Fraction], half: list[Fraction]) -> list[str]:
    """Names for the variables of the stream: the model's where they are the same numbers, else others."""
    if not any(middle) and all(h == 1 for h in half):
        return names
    letter = next(c for c in "uvwxyz" if not any(n.startswith(c) and n[1:].isdigit() for n in names))
    return [f"{letter}{i + 1}" for i in range(len(names))]


def pose(model: Model) -> Posed:
    """The problem of a model, in the first way that the limits allow. Raises LimitError."""
    return poses(model)[0]


def poses(model: Model, widen: bool = False, left_out: tuple[int, ...] = (), narrow: bool = False) -> list[Posed]:
    """The different problems of a model, one for each map of the ranges that the limits allow. With `widen` conditions
    may be rounded outward; those that are left out are named by their number. Factors of 16 bits (`narrow`) do not hold
    the digits of a larger objective, so it is not made larger for them. Raises LimitError."""
    _affordable(model)
    failure: LimitError | None = None
    out: list[Posed] = []
    for way in map(centred, MAPS) if model.choices.bases else MAPS:
        maps = [way(*v.range) if v.range else NOT_MAPPED for v in model.variables]
        try:
            made = _Posing(model, maps, widen, narrow).made(left_out)
        except LimitError as error:
            failure = failure or error
            continue
        if all(made.problem != before.problem for before in out):
            out.append(made)
    if failure and not out:
        raise failure
    return out


def _affordable(model: Model) -> None:
    """Raises LimitError, before anything is computed, where a polynomial is beyond degree 16, which no change of
    variables lowers, or has so many factors that a change of variables takes more than a moment."""
    assert model.bound is not None
    parts = [("the objective", model.bound)]
    parts += [(f"the condition of line {w.line} (`{w.text}`)", w.polynomial) for w in model.conditions]
    for what, polynomial in parts:
        if degree(polynomial) > LARGEST_DEGREE:
            raise LimitError(f"{what} has degree {degree(polynomial)}; a basis of degree 8 reaches {LARGEST_DEGREE}")
        work = substitution_work(polynomial)
        if work > MOST_WORK:
            raise LimitError(f"{what} has up to {work:,} terms where the ranges are mapped to -1 .. 1; take fewer "
                             "variables in a product, or lower powers")


def omissions(model: Model, widen: bool) -> list[tuple[int, ...]]:
    """Which conditions can be left out, ranges counted first, so that the others are no more than the checker allows.
    Raises LimitError where none may be, or too many would have to."""
    ranges = model.ranges
    count = ranges + len(model.conditions)
    extra = max(0, count - LIMITS["conditions"])
    if extra and not widen or extra > MOST_LEFT_OUT:
        help_ = (f"with --widen {extra} can be left out, which makes the region larger" if extra <= MOST_LEFT_OUT else
                 f"--widen leaves out {MOST_LEFT_OUT} at most")
        raise LimitError(f"{count} conditions, of which {ranges} are ranges; at most {LIMITS['conditions']} are "
                         f"allowed. A variable that other conditions bound needs no range; {help_}")
    return list(combinations(range(count), extra))


class _Posing:
    """One way of posing a model: variable i is middle_i + half_i x (variable i of the problem)."""

    def __init__(self, model: Model, maps: list[Map], widen: bool, narrow: bool) -> None:
        self.model, self.widen, self.narrow = model, widen, narrow
        middle, half = [m for m, _ in maps], [h for _, h in maps]
        self.values: list[Polynomial] = [plus(constant(m), variable(i), h) for i, (m, h) in enumerate(maps)]
        self.reach = [max(abs(end - m) / h for end in v.range) if v.range else UNBOUNDED_REACH
                      for v, m, h in zip(model.variables, middle, half)]
        objective, factor = self.objective()
        problem = Problem(len(maps), {e: objective[e] for e in ordered(objective)}, rule=model.choices.rule,
                          order=model.choices.order)
        self.posed = Posed(problem, factor, middle, half, sides=model.sides, names=model.names)

    def made(self, left_out: tuple[int, ...]) -> Posed:
        """The whole problem, without the conditions that are left out."""
        self.ranges()
        for where in self.model.conditions:
            self.condition(where)
        posed, problem = self.posed, self.posed.problem
        for k in sorted(left_out, reverse=True):
            posed.omitted.append(problem.conditions.pop(k))
            posed.widened.insert(0, LEFT_OUT.format(posed.origins.pop(k)))
        problem.bases = [[] for _ in range(len(problem.conditions) + 1)]
        posed.given = {j - sum(k < j - 1 for k in left_out): basis for j, basis in self.model.choices.bases.items()
                       if j - 1 not in left_out}
        return posed

    def objective(self) -> tuple[dict[Monomial, int], int]:
        """The objective in whole numbers and its factor, with as many digits as 32 bits of a bound allow."""
        assert self.model.bound is not None
        objective, factor = cleared(substitute(self.model.bound, self.values))
        largest = evaluate({e: abs(c) for e, c in objective.items()}, [max(Fraction(1), r) for r in self.reach])
        digits = 1 if self.narrow else digits_factor(int(largest) + 1)
        objective, factor = {e: c * digits for e, c in objective.items()}, factor * digits
        for c in objective.values():
            if not -1 << 31 <= c < 1 << 31:
                raise LimitError(f"the objective (multiplied by {factor} to whole numbers) has a coefficient {c}, "
                                 f"beyond {(1 << 31) - 1}; coefficients with fewer digits or narrower ranges would fit")
        if len(objective) > LIMITS["objective"]:
            raise LimitError(f"the objective has {len(objective)} terms, more than {LIMITS['objective']}")
        if degree(objective) > LARGEST_DEGREE:
            raise LimitError(f"the objective has degree {degree(objective)}; a basis of degree 8 reaches "
                             f"{LARGEST_DEGREE}")
        return objective, factor

    def ranges(self) -> None:
        """A range as (high - x)(x - low) >= 0."""
        for i, v in enumerate(self.model.variables):
            if v.range:
                above, below = (plus(constant(end), self.values[i], Fraction(-1)) for end in v.range)
                above = plus({}, above, Fraction(-1))
                self.posed.linear.append([above, below])
                origin = f"{v.name} in [{v.range[0]}, {v.range[1]}]"
                self.add(times(above, below), False, origin, f"the range of {v.name}")

    def condition(self, where: Where) -> None:
        """A condition as it stands or, where its numbers do not fit and the user agreed, rounded outward."""
        polynomial = substitute(where.polynomial, self.values)
        if degree(polynomial) == 1 and not where.equality:
            self.posed.linear.append([polynomial])
        what = f"the condition of line {where.line} (`{where.text}`)"
        terms, _ = whole(polynomial)
        if not _fits(terms) and can_be_rounded(where, self.model):
            if not self.widen:
                raise LimitError(f"{what}, in whole numbers, has coefficients beyond {(1 << 15) - 1}; numbers with "
                                 "fewer digits would fit, and with --widen it is rounded outward, which makes the "
                                 "region larger")
            self.posed.omitted.append(Condition(False, terms))
            self.posed.widened.append(ROUNDED.format(where.text))
            polynomial = {e: Fraction(c) for e, c in rounded_outward(terms, self.reach).items()}
        self.add(polynomial, where.equality, where.text, what)

    def add(self, polynomial: Polynomial, equality: bool, origin: str, what: str) -> None:
        """A condition in whole numbers. Nothing is rounded here: it is sent exactly or not at all."""
        terms, _ = whole(polynomial)
        if not _fits(terms):
            raise LimitError(f"{what}, in whole numbers, has coefficients beyond {(1 << 15) - 1}; numbers with fewer "
                             "digits or a narrower range would fit")
        if len(terms) > LIMITS["terms"] or degree(terms) > LARGEST_DEGREE:
            raise LimitError(f"{what} has {len(terms)} terms of degree up to {degree(terms)}; {LIMITS['terms']} terms "
                             f"and degree {LARGEST_DEGREE} are allowed")
        self.posed.problem.conditions.append(Condition(equality, {e: terms[e] for e in ordered(terms)}))
        self.posed.origins.append(origin)


def _fits(terms: dict[Monomial, int]) -> bool:
    return all(-1 << 15 <= c < 1 << 15 for c in terms.values())


def digits_factor(size: int) -> int:
    """1, 2 or 5 times a power of ten by which coefficients of this size together stay below 2^30: p has more digits."""
    return next((k * 10 ** n for n in range(9, -1, -1) for k in (5, 2, 1) if size * k * 10 ** n < LARGEST_VALUE), 1)


def encode_problem(problem: Problem) -> bytes:
    """The stream of a problem. Raises LimitError where a number does not fit its width."""
    try:
        return _encoded(problem)
    except WidthError as error:
        raise LimitError(f"the problem cannot be written: {error}") from None


def _encoded(problem: Problem) -> bytes:
    out = bytearray(write_command(PROBLEM[0x01], (problem.variables,)))
    if problem.rule != 1:
        out += write_command(PROBLEM[0x08], (problem.rule,))
    if problem.order is not None:
        out += write_command(PROBLEM[0x09], (problem.order,))
    for e, c in problem.objective.items():
        out += write_command(PROBLEM[0x02], (c,), e)
    for condition in problem.conditions:
        out.append(0x07 if condition.equality else 0x03)
        for e, c in condition.terms.items():
            out += write_command(PROBLEM[0x04], (c,), e)
    for j, basis in enumerate(problem.bases):
        for e in basis:
            out += write_command(PROBLEM[0x05], (j,), e)
    out.append(0x06)
    return bytes(out)


def allowed(problem: Problem, point: list[Fraction]) -> bool:
    """Whether a rational point meets every condition exactly."""
    for condition in problem.conditions:
        value = evaluate(condition.terms, point)
        if value < 0 or condition.equality and value:
            return False
    return True
