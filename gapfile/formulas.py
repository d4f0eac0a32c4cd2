"""Polynomials and conditions as HTML, no longer than the sheet has room for, in the stream's variables or, computed
back, in the model's."""
from __future__ import annotations

import re
from fractions import Fraction
from html import escape
from typing import Mapping

from .commands import Monomial, monomial_text
from .decimals import decimal, fraction, is_exact
from .polynomials import Polynomial, constant, ordered, plus, substitute, variable, whole
from .ranges import range_of
from .reading import Condition
from .restating import Scaled

RAISED = str.maketrans("0123456789", "⁰¹²³⁴⁵⁶⁷⁸⁹")


def minus(text: str) -> str:
    """Text with the minus sign of print."""
    return text.replace("-", "−")


def letters(html: str) -> int:
    """How many letters of a text are seen."""
    return len(re.sub(r"<.*?>", "", html))


def number(value: Fraction) -> str:
    """A number exactly: a short decimal, or a fraction."""
    return decimal(value, False, 6) if is_exact(value, 6) else fraction(value)


def formula(terms: Mapping[Monomial, Fraction | int], names: list[str], room: int) -> str:
    """A polynomial as HTML; the terms for which there is no room are counted, and stand in problem.txt."""
    out, used = "", 0
    for k, (monomial, coefficient) in enumerate(terms.items()):
        said, text = number(abs(Fraction(coefficient))), monomial_text(monomial, names)
        shown = said if text == "1" else text if said == "1" else f"{said}*{text}"
        used += len(shown) + 3
        if used > room:
            return f"{out} … {len(terms) - k} {'more ' if k else ''}terms"
        sign = ("−" if coefficient < 0 else "") if k == 0 else " − " if coefficient < 0 else " + "
        out += sign + _html(shown)
    return out or "0"


def _html(text: str) -> str:
    """A term: names in italics, raised exponents, dots for products; a model may have all of these letters."""
    text = re.sub(r"[A-Za-z_]\w*", lambda m: f"<i>{m.group()}</i>", escape(text))
    return re.sub(r"\^(\d+)", lambda m: m[1].translate(RAISED), text).replace("*", "·")


def affine(v: Scaled) -> str:
    """middle + half x inner, as HTML."""
    inner = f"<i>{escape(v.inner)}</i>"
    scaled = inner if v.half == 1 else f"{number(v.half)}·{inner}"
    return f"<i>{escape(v.name)}</i> = " + minus(scaled if not v.middle else f"{number(v.middle)} + {scaled}")


def in_the_model(terms: Mapping[Monomial, int], variables: list[Scaled]) -> Polynomial:
    """A polynomial of the stream in the model's variables, by the exact inverse of the ranges."""
    values = [plus(constant(-v.middle / v.half), variable(i), 1 / v.half) for i, v in enumerate(variables)]
    found = substitute({e: Fraction(c) for e, c in terms.items()}, values)
    return {e: found[e] for e in ordered(found)}


def region(conditions: list[Condition], variables: list[Scaled], room: int) -> str:
    """The conditions in the model's variables; ranges of one length stand together."""
    ranges: dict[tuple[Fraction, Fraction], list[str]] = {}
    others = []
    for condition in conditions:
        found = range_of(condition)
        if found:
            i, low, high = found
            v = variables[i]
            ends = v.middle + v.half * low, v.middle + v.half * high
            ranges.setdefault(ends, []).append(f"<i>{escape(v.name)}</i>")
        else:
            others.append(Condition(condition.equality, whole(in_the_model(condition.terms, variables))[0]))
    parts = [f"{minus(number(low))} ≤ {', '.join(names)} ≤ {minus(number(high))}"
             for (low, high), names in ranges.items()]
    return joined(parts, others, [v.name for v in variables], room)


def standing(variables: list[Scaled], room: int) -> str:
    """What the variables stand for, as far as there is room."""
    return _as_far([affine(v) for v in variables if not v.same], room)


def point_html(names: list[str], point: list[Fraction], room: int) -> str:
    """A point of the model, exactly, as far as there is room."""
    return _as_far([f"<i>{escape(name)}</i> = {minus(number(x))}" for name, x in zip(names, point)], room)


def _as_far(parts: list[str], room: int) -> str:
    """The parts for which there is room; the others are counted, and stand in the manifest."""
    kept: list[str] = []
    used = 0
    for part in parts:
        used += letters(part) + 3
        if used > room:
            return ", &ensp;".join(kept) + f" … {len(parts) - len(kept)} more, in manifest.json"
        kept.append(part)
    return ", &ensp;".join(kept)


def joined(parts: list[str], others: list[Condition], names: list[str], room: int) -> str:
    """Conditions behind each other, each with its share of the room."""
    share = room // max(1, len(others))
    parts = parts + [f"{formula(c.terms, names, share)} {'=' if c.equality else '≥'} 0" for c in others]
    return "; &ensp;".join(parts) or "no condition: all points"
