"""Which monomials the certificates may use: by degree, reduced by diagonal consistency, within the checker's limits."""
from __future__ import annotations

from itertools import combinations_with_replacement

from .blocks import by_basis, compared_keys
from .commands import Monomial, ONE, add
from .decimals import counted
from .polynomials import degree
from .problem import LimitError, encode_problem
from .programs import Blocks, blocks_call
from .reading import KEYS, Problem, Refusal

Pruned = set[tuple[int, int]]        # pairs of a basis and an index


def monomials(variables: int, upto: int) -> list[Monomial]:
    """All monomials of the variables up to a degree, by degree."""
    out = []
    for d in range(upto + 1):
        for chosen in combinations_with_replacement(range(variables), d):
            out.append(tuple(chosen.count(i) for i in range(8)))
    return out


def least_degree(problem: Problem) -> int:
    """The least even degree of a certificate."""
    highest = max([degree(problem.objective)] + [degree(c.terms) for c in problem.conditions])
    return max(2, highest + highest % 2)


def drop(problem: Problem, sides: tuple[int, ...] = (0, 1)) -> list[Monomial]:
    """Basis 0 without the monomials that none of the sides can use."""
    whole = [[list(range(len(basis)))] for basis in problem.bases]
    lost = set.intersection(*(inconsistent(problem, whole, -1 if side else 1) for side in sides))
    return [b for i, b in enumerate(problem.bases[0]) if (0, i) not in lost]


def inconsistent(problem: Problem, blocks: list[list[list[int]]], sign: int) -> Pruned:
    """Diagonal consistency: what has a square that nothing can cancel is 0 in every certificate of this side.

    The objective counts with the sign (1 lower, -1 upper); the constant is free.
    """
    lost: Pruned = set()
    while True:
        signs = _signs(problem, blocks, sign, lost)
        found = set()
        for j, parts in enumerate(blocks):
            if problem.is_equality(j):
                continue
            for i in (i for part in parts for i in part if (j, i) not in lost):
                square = add(problem.bases[j][i], problem.bases[j][i])
                if any(len(signs[add(square, t)]) == 1 for t in problem.multiplier(j)):
                    found.add((j, i))
        if not found:
            return lost
        lost |= found


def _signs(problem: Problem, blocks: list[list[list[int]]], sign: int, lost: Pruned) -> dict[Monomial, set[int]]:
    """For every monomial the signs with which it can come up, the objective's moved to the same side."""
    signs: dict[Monomial, set[int]] = {ONE: {1, -1}}
    for e, c in problem.objective.items():
        signs.setdefault(e, set()).add(-1 if sign * c > 0 else 1)
    for j, parts in enumerate(blocks):
        both = problem.is_equality(j)
        for part in parts:
            kept = [i for i in part if (j, i) not in lost]
            for a in kept:
                for b in kept:
                    for t, c in problem.multiplier(j).items():
                        here = signs.setdefault(add(add(problem.bases[j][a], problem.bases[j][b]), t), set())
                        here |= {1, -1} if both or a != b else {1 if c > 0 else -1}
    return signs


def find_blocks(problem: Problem) -> Blocks:
    """The blocks by the checker itself; raises LimitError where the support is too large."""
    found = blocks_call(encode_problem(problem))
    if isinstance(found, Refusal):
        if found.number == 7:
            raise LimitError(f"the closed support has more than {KEYS:,} monomials; take a lower degree "
                             "or fewer variables")
        raise LimitError(f"gapcheck refuses the problem: {found.line()}")
    return found


def sizes(problem: Problem, found: Blocks) -> str:
    """The sentence on sizes."""
    parts = [len(ix) for ix in by_basis(problem, found)[0]]
    return (f"basis 0 has {counted(sum(parts), 'monomial')} in {counted(len(parts), 'block')}, the largest of "
            f"{max(parts, default=0)}; {compared_keys(problem, found)} of {KEYS:,} keys")
