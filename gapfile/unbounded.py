"""A polynomial without a bound on its region, with a ray that shows it, exactly.

Along x + t d every polynomial is one in t; where the objective's goes to infinity and every condition holds for all
large t, no bound exists. Only rays from the middle along few directions are tried: that none is found proves nothing.
"""
from __future__ import annotations

from fractions import Fraction
from itertools import islice, product
from typing import Iterator, Optional

from .decimals import fraction
from .model import Model
from .polynomials import Polynomial, constant, plus, substitute, variable

MOST_TERMS = 200000              # terms that are put on a line in all, a matter of seconds; few directions come first


def unbounded(model: Model, side: int) -> Optional[str]:
    """Words for a ray along which the polynomial falls (side 0) or grows (side 1) without end; None where none was
    found."""
    open_ = [i for i, v in enumerate(model.variables) if v.range is None]
    start = [sum(v.range, Fraction(0)) / 2 if v.range else Fraction(0) for v in model.variables]
    assert model.bound is not None
    terms = len(model.bound) + sum(len(w.polynomial) for w in model.conditions)
    for direction in islice(_directions(len(model.variables), open_), MOST_TERMS // max(1, terms)):
        line = [plus(constant(x), variable(0), Fraction(d)) for x, d in zip(start, direction)]
        line += [{}] * (8 - len(line))
        value = _in_t(model.bound, line)
        if len(value) < 2 or (value[-1] > 0) != (side == 1):
            continue
        if all(_holds(_in_t(w.polynomial, line), w.equality) for w in model.conditions):
            names = [f"{v.name} = {_line(x, d)}" for v, x, d in zip(model.variables, start, direction)]
            return (f"for {', '.join(names)} it is {_text(value)}, which goes to {'+' if side else '-'}infinity "
                    f"with t, and all conditions hold for large t")
    return None


def _directions(count: int, open_: list[int]) -> Iterator[list[int]]:
    """Directions in the variables without a range, those with few entries first."""
    made = product((1, -1, 0), repeat=len(open_))
    for entries in sorted(made, key=lambda d: sum(abs(x) for x in d))[1:]:
        yield [entries[open_.index(i)] if i in open_ else 0 for i in range(count)]


def _in_t(polynomial: Polynomial, line: list[Polynomial]) -> list[Fraction]:
    """The coefficients in t, from the constant on, without zeros at the end."""
    found = {e[0]: c for e, c in substitute(polynomial, line).items()}
    return [found.get(k, Fraction(0)) for k in range(max(found, default=-1) + 1)]


def _holds(value: list[Fraction], equality: bool) -> bool:
    """Whether a condition holds for all large t."""
    return not value or not equality and value[-1] > 0


def _line(x: Fraction, d: int) -> str:
    along = {1: "t", -1: "-t", 0: ""}[d]
    if not x:
        return along or "0"
    return fraction(x) if not along else f"{fraction(x)} {'-' if d < 0 else '+'} t"


def _text(value: list[Fraction]) -> str:
    """A polynomial in t, the highest power first."""
    parts = []
    for k, c in reversed(list(enumerate(value))):
        if c:
            power = {0: "", 1: "t"}.get(k, f"t^{k}")
            size = fraction(abs(c)) if abs(c) != 1 or not k else ""
            parts.append(("-" if c < 0 else "+", f"{size}*{power}" if size and power else size or power))
    text = " ".join(f"{sign} {part}" for sign, part in parts)
    return text[2:] if text.startswith("+ ") else f"-{text[2:]}"
