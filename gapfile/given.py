"""Bases given by hand: they stand in the problem as they are, and those of the other conditions follow from basis 0."""
from __future__ import annotations

from dataclasses import replace

from .commands import monomial_text
from .polynomials import degree
from .problem import LimitError, Posed
from .progress import Say
from .reading import LIMITS
from .sparse import Parts, condition_bases, unreachable


def with_given(posed: Posed) -> tuple[int, Posed]:
    """The degree of the squares of basis 0, and the problem with its bases. Raises LimitError."""
    first = list(posed.given[0].monomials)
    total = 2 * degree(dict.fromkeys(first))
    bases = [first, *condition_bases(posed.problem, first, total)]
    for j, basis in posed.given.items():
        bases[j] = list(basis.monomials)
    for j, found in enumerate(bases):
        if len(found) > LIMITS["basis"]:
            raise LimitError(f"basis {j}, which follows from basis 0, has {len(found)} monomials, more than "
                             f"{LIMITS['basis']}; give it by a line `basis {j}: ..` too")
    return total, replace(posed, problem=replace(posed.problem, bases=bases))


def used(posed: Posed, parts: Parts, say: Say) -> Parts:
    """The blocks without what makes products that basis 0 does not have in its blocks: no rounding could make these
    exact. A basis that was given keeps such a monomial, but no row uses it, which is said."""
    lost = unreachable(posed.problem, parts)
    for j, basis in posed.given.items():
        shown = [monomial_text(basis.monomials[i], posed.names) for i in sorted(lost.get(j, ()))]
        if shown:
            say(f"basis {j}: no row uses {', '.join(shown)}, whose products basis 0 does not have in its blocks")
    left = [[[i for i in part if i not in lost.get(j, ())] for part in pieces] for j, pieces in enumerate(parts)]
    return [[part for part in pieces if part] for pieces in left]
