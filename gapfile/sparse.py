"""Sparse bases: which monomials basis 0 may have, from few to all. The bases of the conditions follow from it.

A program in few monomials is solved in milliseconds and its certificate has few rows, so the rules are tried in this
order, and a larger basis is taken only where it gives a better bound.
"""
from __future__ import annotations

from itertools import combinations
from typing import Callable, Container

from .basis import drop, least_degree, monomials
from .commands import Monomial, add
from .polynomials import degree
from .problem import LimitError
from .reading import LIMITS, Problem

Parts = list[list[list[int]]]    # for each basis its blocks, as lists of indices
Allowed = Callable[[Monomial], bool]
Rule = Callable[[Problem], Allowed]
MOST_TO_DROP = 150               # of more monomials diagonal consistency seldom leaves as few as the checker allows


def _used(e: Monomial) -> frozenset[int]:
    return frozenset(i for i, x in enumerate(e) if x)


def _terms(problem: Problem) -> list[Monomial]:
    return list(problem.objective) + [t for c in problem.conditions for t in c.terms]


def by_terms(problem: Problem) -> Allowed:
    """Those whose variables stand in one term, with a degree in them that the square needs."""
    terms = _terms(problem)

    def allowed(b: Monomial) -> bool:
        used, total = _used(b), sum(b)
        return total <= 1 or any(used <= _used(t) and sum(t[i] for i in used) > 2 * (total - 1) for t in terms)
    return allowed


def by_variables(problem: Problem) -> Allowed:
    """Those whose variables stand in one term."""
    sets = {_used(t) for t in _terms(problem)}
    return lambda b: sum(b) <= 1 or any(_used(b) <= s for s in sets)


def at_corners(_: Problem) -> Allowed:
    """Products of different variables, and powers of one: enough at corners of a box."""
    return lambda b: max(b) <= 1 or sum(b) == max(b)


def by_cliques(problem: Problem) -> Allowed:
    """Those whose variables are in one clique of a chordal graph that joins those of a term and those of a condition.
    The graph is made chordal by taking the variable with the fewest neighbours first."""
    sets = [_used(t) for t in problem.objective]
    sets += [frozenset().union(*map(_used, c.terms)) for c in problem.conditions]
    joined: dict[int, set[int]] = {i: set() for i in range(problem.variables)}
    for a, b in (pair for s in sets for pair in combinations(sorted(s), 2)):
        joined[a].add(b)
        joined[b].add(a)
    left, cliques = sorted(joined), []
    while left:
        i = min(left, key=lambda v: len(joined[v] & set(left)))
        beside = joined[i] & set(left)
        for a in beside:
            joined[a] |= beside - {a}
        cliques.append(frozenset(beside | {i}))
        left.remove(i)
    return lambda b: any(_used(b) <= c for c in cliques)


def everything(_: Problem) -> Allowed:
    """All of the degree."""
    return lambda b: True


RULES: tuple[tuple[str, Rule], ...] = (
    ("terms", by_terms), ("variables", by_variables), ("corners", at_corners), ("cliques", by_cliques),
    ("all", everything))


def give_bases(problem: Problem, total: int, rule: Rule, sides: tuple[int, ...] = (0, 1)) -> None:
    """Gives the problem its bases: basis 0 by the rule; a condition gets those whose squares, times each of its terms,
    are products of basis 0, as basis 0 must take what is left of them. Raises LimitError."""
    if total < least_degree(problem):
        raise LimitError(f"degree {total} is below {least_degree(problem)}, the degree of the polynomials")
    allowed = rule(problem)
    first = [b for b in monomials(problem.variables, total // 2) if allowed(b)]
    if len(first) > MOST_TO_DROP:
        raise too_large(0, total, len(first))                # before the products are made: there can be millions
    problem.bases = [first, *condition_bases(problem, first, total)]
    problem.bases[0] = drop(problem, sides)
    for j, basis in enumerate(problem.bases):
        if len(basis) > LIMITS["basis"]:
            raise too_large(j, total, len(basis))


def condition_bases(problem: Problem, first: list[Monomial], total: int) -> list[list[Monomial]]:
    """For each condition the monomials whose squares, times each of its terms, are products of basis 0."""
    reached = {add(a, b) for a in first for b in first}
    return [[m for m in monomials(problem.variables, (total - degree(condition.terms)) // 2)
             if all(add(add(m, m), t) in reached for t in condition.terms)] for condition in problem.conditions]


def too_large(j: int, total: int, size: int) -> LimitError:
    return LimitError(f"basis {j} of degree {total // 2} has {size} monomials, more than {LIMITS['basis']}; take fewer "
                      "variables or a lower degree")


def prune(problem: Problem, parts: Parts, kept: Container[int] = ()) -> bool:
    """Takes from the conditions' bases, but for those to be kept, what makes products that basis 0 does not reach in
    its blocks; says whether."""
    lost = {j: found for j, found in unreachable(problem, parts).items() if j not in kept}
    for j, found in lost.items():
        problem.bases[j] = [b for i, b in enumerate(problem.bases[j]) if i not in found]
    return bool(lost)


def unreachable(problem: Problem, parts: Parts) -> dict[int, set[int]]:
    """For each condition the indices of its basis that make products which basis 0 does not reach in its blocks."""
    first = problem.bases[0]
    reached = {add(first[a], first[b]) for part in parts[0] for a in part for b in part}
    found = {j: {i for part in parts[j] for i in _unreachable(problem, j, part, reached)}
             for j in range(1, len(problem.bases))}
    return {j: lost for j, lost in found.items() if lost}


def _unreachable(problem: Problem, j: int, part: list[int], reached: set[Monomial]) -> set[int]:
    """What to take from a block of a condition's basis so that all products are reached: always the one with the most
    products that are not, those with variables that the condition does not have first."""
    basis, lost = problem.bases[j], set[int]()
    own = frozenset().union(*map(_used, problem.multiplier(j)))
    while True:
        kept = [i for i in part if i not in lost]
        wrong = {a: sum(add(add(basis[a], basis[b]), t) not in reached for b in kept for t in problem.multiplier(j))
                 for a in kept}
        worst = max(kept, key=lambda a: (wrong[a] > 0, not _used(basis[a]) <= own, wrong[a], sum(basis[a]), a),
                    default=-1)
        if worst < 0 or not wrong[worst]:
            return lost
        lost.add(worst)
