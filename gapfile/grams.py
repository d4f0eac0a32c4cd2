"""Gram matrices of any solver, as JSON with floats (docs/FORMAT.md, "Gram matrices"). The file is untrusted input.

Each side has its bound and a list of matrices, each over monomials of one basis of the problem: together they say, in
floats, that f - bound (bound - f for the upper one) is the sum over j of g_j x (m' M m). Matrices of one basis add up,
so a solver's blocks can stand one by one.
"""
from __future__ import annotations

from dataclasses import dataclass
from typing import Optional

from .commands import Monomial, monomial_text
from .entries import Entry, EntryError, read_json
from .reading import LIMITS, Problem
from .text import DEFAULT_NAMES, monomial_of

Matrix = list[list[float]]
SIDES = ("lower", "upper")
MOST_BYTES, MOST_MATRICES, LARGEST = 1 << 24, 1024, 1e15


class GramError(EntryError):
    """Gram matrices that cannot be read; the sentence names the entry."""


@dataclass(frozen=True)
class Grams:
    """One side: the bound, and for each basis its whole matrix, in the order of the basis."""
    side: int
    bound: float
    matrices: list[Matrix]


def read_grams(data: bytes, problem: Problem, name: str) -> list[Grams]:
    """The sides that a file has, the lower one first. Raises GramError."""
    top = read_json(data, name, MOST_BYTES, GramError)
    top.get("lower", True)
    top.only(("variables", *SIDES))
    names = _names(top.get("variables", True), problem)
    found = [_side(side, top.get(word), problem, names) for side, word in enumerate(SIDES) if top.get(word, True).there]
    if not found:
        raise top.wrong("has neither `lower` nor `upper`")
    return found


def _names(entry: Entry, problem: Problem) -> list[str]:
    """Names for the variables; x1, x2 and so on where none are given."""
    if not entry.there:
        return DEFAULT_NAMES[:problem.variables]
    names = [item.variable() for item in entry.items(problem.variables, problem.variables)]
    if len(set(names)) != len(names):
        raise entry.wrong("has a name twice")
    return names


def _side(side: int, entry: Entry, problem: Problem, names: list[str]) -> Grams:
    entry.get("bound")
    entry.only(("bound", "grams"))
    matrices = [[[0.0] * len(basis) for _ in basis] for basis in problem.bases]
    for item in entry.get("grams").items(1, MOST_MATRICES):
        j = _basis(item, problem)
        places = _places(item.get("monomials", True), problem.bases[j], j, names)
        for a, line in enumerate(item.get("matrix").items(len(places), len(places))):
            for b, cell in enumerate(line.items(len(places), len(places))):
                value = cell.real(LARGEST) / 2               # the symmetric part alone counts
                matrices[j][places[a]][places[b]] += value
                matrices[j][places[b]][places[a]] += value
    return Grams(side, entry.get("bound").real(LARGEST), matrices)


def _basis(item: Entry, problem: Problem) -> int:
    """The number of the basis that a matrix is over."""
    entry = item.get("basis")
    item.only(("basis", "monomials", "matrix"))
    j = entry.value
    if type(j) is not int or not 0 <= j < len(problem.bases):
        raise entry.wrong(f"is no number of a basis; the problem has 0 to {len(problem.bases) - 1}")
    return j


def _places(entry: Entry, basis: list[Monomial], j: int, names: list[str]) -> list[int]:
    """The indices of a matrix's monomials in their basis; all, in their order, where none are named."""
    if not entry.there:
        return list(range(len(basis)))
    places: list[int] = []
    for item in entry.items(1, LIMITS["basis"]):
        found = _monomial(item, names)
        if found not in basis:
            raise item.wrong(f"is {monomial_text(found, names)}, which basis {j} of the problem does not have")
        if basis.index(found) in places:
            raise item.wrong("stands a second time in this matrix")
        places.append(basis.index(found))
    return places


def _monomial(item: Entry, names: list[str]) -> Monomial:
    text: Optional[str] = item.value if isinstance(item.value, str) and len(item.value) <= 200 else None
    try:
        if text is None:
            raise ValueError("expected a monomial as text, as \"1\" or \"a^2*b\"")
        return monomial_of("".join(text.split()), tuple(names))
    except ValueError as error:
        raise item.wrong(f"is no monomial: {error}") from None
