"""What a model may choose of the format beside polynomial and region: the joining rule, the sparse order, bases given
by hand, and one side alone.

    rule  2                         # request 08
    order 1                         # request 09
    basis 0: 1 a b a^2 a*b          # monomials of the model's variables
    basis 1: 1 a                    # of condition 1: ranges are counted first, then the where lines
    only  lower                     # no upper bound is claimed
"""
from __future__ import annotations

from dataclasses import dataclass, field
from typing import Optional

from .commands import Monomial, monomial_text
from .expressions import Line, ModelError, expand
from .reading import LIMITS

WORDS = ("rule", "order", "basis", "only")
SIDES = ("lower", "upper")
LARGEST_ORDER, LARGEST_BASIS_DEGREE = 255, 8


@dataclass(frozen=True)
class Basis:
    """A basis as it was given, and where it stands in the model."""
    number: int
    monomials: tuple[Monomial, ...]
    line: int
    column: int


@dataclass
class Choices:
    """What a model chooses; as it stands here, where it says nothing."""
    rule: int = 1
    order: Optional[int] = None
    only: Optional[int] = None                               # the side that alone is claimed, 0 or 1
    bases: dict[int, Basis] = field(default_factory=dict)

    @property
    def sides(self) -> tuple[int, ...]:
        """The sides that are claimed."""
        return (0, 1) if self.only is None else (self.only,)

    def take(self, word: str, line: Line) -> None:
        """One line of the model. Raises ModelError."""
        if word == "basis":
            self._basis(line)
            return
        token = line.next()
        if word == "rule":
            if token.text not in ("1", "2"):
                raise line.error(token.column, "expected rule 1 or 2")
            self.rule = int(token.text)
        elif word == "order":
            if not token.text.isascii() or not token.text.isdigit() or not 1 <= int(token.text[:4]) <= LARGEST_ORDER:
                raise line.error(token.column, f"expected an order from 1 to {LARGEST_ORDER}; without this line the "
                                               "rounds go on to their end")
            self.order = int(token.text)
        else:
            if token.text not in SIDES:
                raise line.error(token.column, "expected lower or upper; without this line both sides are filed")
            self.only = SIDES.index(token.text)
        line.done("the end of the line")

    def _basis(self, line: Line) -> None:
        """`NUMBER: MONOMIAL ..`"""
        token = line.next()
        if token.kind != "number" or not token.text.isdigit() or len(token.text) > 2:
            raise line.error(token.column, "expected the number of a basis: 0, or that of a condition")
        number = int(token.text)
        if number in self.bases:
            raise line.error(token.column, f"basis {number} stands a second time, first in line "
                                           f"{self.bases[number].line}")
        if not line.take(":"):
            raise line.error(line.peek().column, f"expected `:` and monomials, as in `basis {number}: 1 a a*b`")
        found: list[Monomial] = []
        while line.peek().kind != "end":
            found.append(_monomial(line, found))
        if not found:
            raise line.wrong("a monomial")
        self.bases[number] = Basis(number, tuple(found), line.number, token.column)

    def whole(self, conditions: int, degree_line: Optional[int]) -> None:
        """What can be said at the end of the model alone: which conditions there are, and whether a degree was given
        too. Raises ModelError."""
        for basis in self.bases.values():
            if basis.number > conditions:
                raise ModelError(basis.line, basis.column, f"there is no condition {basis.number}; the model has "
                                 f"{conditions}, ranges counted first, then the where lines")
            if 0 not in self.bases:
                raise ModelError(basis.line, basis.column, f"basis {basis.number} is given, and basis 0 is not; give "
                                                           "basis 0 too, or leave all bases to gapfile")
        if self.bases and degree_line:
            raise ModelError(degree_line, 1, "a degree beside `basis 0`, whose monomials say it; leave out one of them")


def _monomial(line: Line, before: list[Monomial]) -> Monomial:
    """The next monomial, which is none of those before."""
    column = line.peek().column
    signed = line.peek().text in ("+", "-")
    found = expand(line.product())
    if signed or len(found) != 1 or set(found.values()) != {1}:
        raise line.error(column, "expected a monomial, as 1, a or a^2*b, without a coefficient")
    monomial, = found
    shown = monomial_text(monomial, line.names)
    if sum(monomial) > LARGEST_BASIS_DEGREE:
        raise line.error(column, f"{shown} has degree {sum(monomial)}; a basis goes up to {LARGEST_BASIS_DEGREE}")
    if monomial in before:
        raise line.error(column, f"{shown} stands twice in the basis")
    if len(before) == LIMITS["basis"]:
        raise line.error(column, f"more than {LIMITS['basis']} monomials in a basis")
    return monomial
