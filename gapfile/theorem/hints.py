"""Why the conditions of the stream follow from the model's, as steps for Coq.

These are hints, and Coq checks each: where one is wrong the file does not compile. A condition of the stream is one of
the model's times a number, a product of two linear ones (a range is that of its ends), or one that was widened: then it
follows linearly from the model's and from bounds on monomials.
"""
from __future__ import annotations

from fractions import Fraction
from itertools import combinations_with_replacement
from typing import Sequence

from ..figures import Figures
from ..polynomials import Polynomial, constant, degree, plus, substitute, times, variable, whole
from .streams import Exponents, Given

Sources = list[tuple[str, Polynomial, bool]]                 # a proof, what is at least 0 by it, whether an equality


def following(figures: Figures, given: Sequence[str], sent: Given, inner: Sequence[str]) -> list[str]:
    """For each condition of the stream the step that takes it from b'0, the theorem over the stream."""
    values = [plus(constant(v.middle), variable(i), v.half) for i, v in enumerate(figures.variables)]
    sources = _sources(figures, given, values)
    known = {_form(p): f"follow {proof}" for proof, p, _ in sources}
    known.update({_form(plus({}, p, Fraction(-1))): f"follow {proof}" for proof, p, equality in sources if equality})
    linear = [(proof, p) for proof, p, equality in sources if degree(p) == 1 and not equality]
    for (a, p), (b, q) in combinations_with_replacement(linear, 2):
        known.setdefault(_form(times(p, q)), f"follow (product _ _ _ _ {a} {b})")
    steps: list[str] = []
    for _, terms in sent.conditions[1:]:
        condition = {e: Fraction(c) for e, c in terms}
        if _form(condition) not in known:
            steps += _bounds(figures, values, [condition, *(p for _, p, _ in sources)], inner)
        steps.append(f"specialize (b'0 ltac:({known.get(_form(condition), 'lra')})).")
    return steps


def _form(polynomial: Polynomial) -> frozenset[tuple[Exponents, int]]:
    """The same for all positive multiples of a polynomial."""
    return frozenset(whole(polynomial)[0].items())


def _sources(figures: Figures, given: Sequence[str], values: list[Polynomial]) -> Sources:
    """The ends of the ranges and the conditions, in the stream's variables."""
    out: Sources = []
    k = 0
    for v, x in zip(figures.model.variables, values):
        if v.range:
            out += [(f"(proj1 h'{k})", plus(x, constant(v.range[0]), Fraction(-1)), False),
                    (f"(proj2 h'{k})", plus(constant(v.range[1]), x, Fraction(-1)), False)]
            k += 1
    for k, where in enumerate(figures.model.conditions, k):
        proof = f"(Rge_le _ _ h'{k})" if ">=" in given[k] else f"h'{k}"
        out.append((proof, substitute(where.polynomial, values), where.equality))
    return out


def _bounds(figures: Figures, values: list[Polynomial], polynomials: list[Polynomial],
            inner: Sequence[str]) -> list[str]:
    """Bounds on the products of variables in these polynomials, where all their variables have ranges."""
    steps, bounded = [], {}
    for i, (v, s) in enumerate(zip(figures.model.variables, figures.variables)):
        if v.range:
            reach = max(abs(end - s.middle) / s.half for end in v.range)
            steps.append(f"assert (w'{i} : -({reach}) <= {inner[i]} <= {reach}) by lra.")
            bounded[i] = f"w'{i}"
    for e in sorted({e for p in polynomials for e in p if sum(e) > 1}):
        first, *others = [i for i, k in enumerate(e) for _ in range(k)]
        if bounded.keys() >= {first, *others}:
            proof = bounded[first]
            for i in others:
                proof = f"(within _ _ _ _ {proof} {bounded[i]})"
            steps.append(f"pose proof {proof}.")
    return steps
