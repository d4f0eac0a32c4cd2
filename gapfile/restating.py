"""The problem of a model stated again from its own words, to be compared with the one that was sent.

A bound on the stream's region is one on the model's only if the stream's region holds the model's. So every condition
of the stream must follow from the model: it is a range, a condition, a product of two linear ones, or a condition with
a larger constant. Which of the model's conditions the stream does not have, or has wider, is said. Nothing here looks
at how the problem was made.
"""
from __future__ import annotations

from dataclasses import dataclass, field
from fractions import Fraction
from itertools import combinations_with_replacement
from typing import Optional, Sequence

from .commands import Monomial, ONE, polynomial_text
from .decimals import fraction
from .model import Model
from .polynomials import (Polynomial, constant, degree, evaluate, ordered, plus, substitute, substitution_work, times,
                          variable, whole)
from .problem import MOST_WORK, stream_names
from .reading import Condition, Problem


Form = tuple[tuple[tuple[Monomial, int], ...], bool]         # terms in the stream's order, and whether an equality


class Mismatch(Exception):
    """The stream is not the model's; the sentence says what differs."""


@dataclass(frozen=True)
class Scaled:
    """A variable of the model: name = middle + half x (the stream's variable)."""
    name: str
    inner: str
    middle: Fraction
    half: Fraction

    @property
    def same(self) -> bool:
        return self.name == self.inner and not self.middle and self.half == 1

    def outer(self, value: Fraction) -> Fraction:
        """A value of the stream's variable as one of the model's."""
        return self.middle + self.half * value


def scaled(names: list[str], middle: list[Fraction], half: list[Fraction]) -> list[Scaled]:
    """The variables of a stream, with the names that they have there."""
    return [Scaled(*of) for of in zip(names, stream_names(names, middle, half), middle, half)]


@dataclass
class Restated:
    """The problem that the model has, with the stream's bases; where each condition comes from; what is missing."""
    problem: Problem
    origins: list[str] = field(default_factory=list)
    widened: list[str] = field(default_factory=list)
    left_out: list[str] = field(default_factory=list)
    sources: list[str] = field(default_factory=list)         # the model's own conditions, ranges first


@dataclass(frozen=True)
class Source:
    """A condition of the model in the stream's variables, and the linear polynomials that are at least 0 by it."""
    words: str
    polynomial: Polynomial
    equality: bool
    linear: tuple[Polynomial, ...]


def restate(model: Model, variables: Sequence[Scaled], factor: int, sent: Problem) -> Restated:
    """What a stream with these variables and this factor must say. Raises Mismatch."""
    if [v.name for v in variables] != model.names:
        raise Mismatch(f"the variables are {', '.join(v.name for v in variables)}, the model's "
                       f"{', '.join(model.names)}")
    if sent.variables != len(variables):
        raise Mismatch(f"problem.bin has {sent.variables} variables, the model {len(variables)}")
    values = [plus(constant(v.middle), variable(i), v.half) for i, v in enumerate(variables)]
    assert model.bound is not None
    objective = {e: factor * c for e, c in changed(model.bound, values).items()}
    if any(c.denominator != 1 for c in objective.values()):
        raise Mismatch(f"{factor} times the model's polynomial has coefficients that are not whole")
    chosen = model.choices
    out = Restated(Problem(sent.variables, {e: int(objective[e]) for e in ordered(objective)}, bases=sent.bases,
                           rule=chosen.rule, order=chosen.order))
    _conditions(model, variables, values, sent, out)
    return out


def faithful(model: Model, variables: Sequence[Scaled], factor: int, sent: Problem) -> Restated:
    """The problem stated again, which is the one that was sent: its objective is the factor times the model's
    polynomial, and every condition follows from the model's. Raises Mismatch."""
    out = restate(model, variables, factor, sent)
    if out.problem.objective != sent.objective:
        raise Mismatch("the objective of problem.bin is not the model's polynomial times the recorded factor")
    for k, (a, b) in enumerate(zip(out.problem.conditions, sent.conditions), 1):
        if a != b:
            raise Mismatch(f"condition {k} of problem.bin is not written as the model's is")
    _chosen(model, variables, out, sent)
    return out


def _chosen(model: Model, variables: Sequence[Scaled], out: Restated, sent: Problem) -> None:
    """Rule, order and bases are those that the model chooses. Raises Mismatch."""
    for word, wanted, found in (("rule", out.problem.rule, sent.rule), ("order", out.problem.order, sent.order)):
        if wanted != found:
            raise Mismatch(f"problem.bin has {f'the {word} {found}' if found else f'no {word}'}, the model "
                           f"{f'{word} {wanted}' if wanted else 'none'}")
    given = model.choices.bases
    if given and any(v.middle for v in variables):
        raise Mismatch("the model gives its bases by hand, and a range was shifted, so that they are others in the "
                       "stream")
    kept = [k for k, words in enumerate(out.sources, 1) if words not in out.left_out]
    for number, basis in given.items():
        if number and number not in kept:
            continue
        j = kept.index(number) + 1 if number else 0
        if j >= len(sent.bases) or tuple(sent.bases[j]) != basis.monomials:
            raise Mismatch(f"basis {j} of problem.bin is not the one that line {basis.line} of the model gives")


def changed(polynomial: Polynomial, values: list[Polynomial]) -> Polynomial:
    """The polynomial in the stream's variables. Raises Mismatch where that would take too long."""
    if substitution_work(polynomial) > MOST_WORK:
        raise Mismatch("the model's polynomials are too large to be stated again")
    return substitute(polynomial, values)


def _sources(model: Model, values: list[Polynomial]) -> list[Source]:
    """The ranges and the conditions of the model."""
    out = []
    for v, x in zip(model.variables, values):
        if v.range:
            above, below = plus(x, constant(v.range[0]), Fraction(-1)), plus(constant(v.range[1]), x, Fraction(-1))
            words = f"{v.name} in [{fraction(v.range[0])}, {fraction(v.range[1])}]"
            out.append(Source(words, times(above, below), False, (above, below)))
    for where in model.conditions:
        made = changed(where.polynomial, values)
        linear = (made,) if degree(made) == 1 and not where.equality else ()
        out.append(Source(where.text, made, where.equality, linear))
    return out


def _conditions(model: Model, variables: Sequence[Scaled], values: list[Polynomial], sent: Problem,
                out: Restated) -> None:
    """Finds for each condition of the stream the one of the model that it is or follows from."""
    sources = _sources(model, values)
    known = {_form(s.polynomial, s.equality): s.words for s in reversed(sources)}
    implied = _implied(sources)
    reach = [max(abs(end - v.middle) / v.half for end in m.range) if m.range else None
             for v, m in zip(variables, model.variables)] + [None] * (8 - len(variables))
    for k, condition in enumerate(sent.conditions, 1):
        exact = {e: Fraction(c) for e, c in condition.terms.items()}
        form = _form(exact, condition.equality)
        words = known.get(form) or implied.get(form)
        if words is None:
            words = _wider(k, condition, sources, variables, reach, out)
            form = tuple((e, condition.terms[e]) for e in ordered(condition.terms)), False
        out.origins.append(words)
        out.problem.conditions.append(Condition(condition.equality, dict(form[0])))
    kept = {*out.origins, *out.widened}
    out.left_out = [s.words for s in sources if s.words not in kept]
    out.sources = [s.words for s in sources]


def _wider(k: int, condition: Condition, sources: list[Source], variables: Sequence[Scaled],
           reach: list[Optional[Fraction]], out: Restated) -> str:
    """Where a condition comes from that is none of the model's: one that was rounded outward, or else the ranges.
    Raises Mismatch."""
    exact = {e: Fraction(c) for e, c in condition.terms.items()}
    if not condition.equality:
        for s in sources:
            if not s.equality and follows(exact, s.polynomial, reach):
                out.widened.append(s.words)
                return f"{s.words}, widened"
        if holds(exact, reach):
            return "the ranges"
    shown = polynomial_text(condition.terms, [v.inner for v in variables])
    raise Mismatch(f"condition {k} of problem.bin, {shown} {'=' if condition.equality else '>='} 0, does not follow "
                   "from the model's")


def _implied(sources: list[Source]) -> dict[Form, str]:
    """What follows from the conditions, with words for it: an equality both ways and turned around, a linear one alone,
    and the products of two linear ones."""
    linear = [(s.words, f) for s in sources for f in s.linear]
    out = {_form(times(f, g), False): f"{a}, times {b}" for (a, f), (b, g) in combinations_with_replacement(linear, 2)}
    out.update({_form(f, False): f"one side of {words}" for words, f in linear})
    for s in sources:
        if s.equality:
            for sign in (1, -1):
                out[_form(plus({}, s.polynomial, Fraction(sign)), False)] = f"one side of {s.words}"
            out[_form(plus({}, s.polynomial, Fraction(-1)), True)] = s.words
    return out


def _form(polynomial: Polynomial, equality: bool) -> Form:
    """A condition with whole coefficients without a common factor, in the order of the stream."""
    terms = whole(polynomial)[0]
    return tuple((e, terms[e]) for e in ordered(terms)), equality


def follows(condition: Polynomial, source: Polynomial, reach: list[Optional[Fraction]]) -> bool:
    """Whether the condition is at least 0 wherever the source is and the variables are in their ranges, seen from
    condition - k x source for a positive k: it holds on the ranges.

    What is left of its constant is concave in k, and linear between the ratios of two coefficients: if any k will do,
    one of these does, or all smaller or all larger ones do."""
    largest = max(abs(c) for c in source.values())
    tried = {condition[e] / c for e, c in source.items() if e != ONE and e in condition} | {32000 / largest}
    return any(holds(plus(condition, source, -k), reach) for k in sorted(tried) if k > 0)


def holds(polynomial: Polynomial, reach: list[Optional[Fraction]]) -> bool:
    """Whether the constant is at least what the other terms can take away on the ranges."""
    if any(reach[i] is None for e in polynomial for i, x in enumerate(e) if x):
        return False
    ends = [r or Fraction(0) for r in reach]
    return evaluate({e: abs(c) for e, c in polynomial.items() if e != ONE}, ends) <= polynomial.get(ONE, Fraction(0))
