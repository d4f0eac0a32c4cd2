"""Expressions of the model language: a line's tokens, its tree, and the polynomial of it.

How large a polynomial can become is bounded from the tree, before anything is expanded: an expression of a few letters,
as `((x^32)^32)^32`, is refused at the sign that makes it too large, and costs nothing. All numbers are read exactly.
"""
from __future__ import annotations

import re
from dataclasses import dataclass
from fractions import Fraction
from functools import reduce
from math import comb, lcm
from typing import Optional, Union

from .polynomials import Polynomial, constant, increase, power, times, variable

TOKEN = re.compile(r"(?P<number>(?:[0-9]+(?:\.[0-9]+)?|\.[0-9]+)(?:[eE][-+]?[0-9]+(?![A-Za-z_0-9]))?)"
                   r"|(?P<name>[A-Za-z_][A-Za-z_0-9]*)|(?P<raised>[⁰¹²³⁴⁵⁶⁷⁸⁹]+)"
                   r"|(?P<sign><=|>=|==|\*\*|[-−+*·×^/()\[\],:=<>≤≥])")
SPACE = re.compile(r"\s*")
SAME = {"−": "-", "·": "*", "×": "*", "≤": "<=", "≥": ">=", "=": "=="}       # as the sheet prints them
RAISED = str.maketrans("⁰¹²³⁴⁵⁶⁷⁸⁹", "0123456789")
LARGEST_POWER, LARGEST_DEGREE, MOST_TERMS = 32, 32, 2000
MOST_TOKENS, DEEPEST, MOST_DIGITS, MOST_BITS, MOST_WORK = 20000, 100, 60, 1024, 500000


class ModelError(Exception):
    """A wrong model: line, column, and what was expected."""

    def __init__(self, line: int, column: int, message: str) -> None:
        super().__init__(f"line {line}, column {column}: {message}")
        self.line, self.column = line, column


@dataclass(frozen=True)
class Token:
    kind: str
    text: str
    column: int


@dataclass(frozen=True)
class Size:
    """Bounds on a polynomial: degree, terms, the sum of its coefficients' sizes, a multiple of their denominators, and
    which variables it has, as bits."""
    degree: int = 0
    terms: int = 1
    norm: int = 1
    denominator: int = 1
    used: int = 0

    def bits(self) -> int:
        return self.norm.bit_length() + self.denominator.bit_length()

    def counted(self, terms: int) -> int:
        """So many terms, or all that there are in these variables up to this degree."""
        return min(terms, comb(self.used.bit_count() + self.degree, self.degree)) if self.degree <= LARGEST_DEGREE \
            else terms


@dataclass
class Work:
    """How many products of terms the expressions of a model may still cost."""
    left: int = MOST_WORK


@dataclass(frozen=True)
class Node:
    """A part of an expression: a sum with a sign for each part, a product, a power with its exponent, a number, or the
    index of a variable."""
    kind: str
    size: Size
    parts: tuple["Node", ...] = ()
    value: Union[Fraction, int, tuple[int, ...]] = 0


class Line:
    """The tokens of one line and the parser over them."""

    def __init__(self, number: int, text: str, start: int, names: list[str], work: Work) -> None:
        self.number, self.names, self.at, self.depth, self.work = number, names, 0, 0, work
        self.tokens = tokens(number, text, start)
        self.end = len(text.rstrip()) + 1

    def peek(self) -> Token:
        return self.tokens[self.at] if self.at < len(self.tokens) else Token("end", "the end of the line", self.end)

    def next(self) -> Token:
        token = self.peek()
        self.at += 1
        return token

    def take(self, *texts: str) -> Optional[Token]:
        token = self.peek()
        return self.next() if token.kind in ("sign", "name") and token.text in texts else None

    def error(self, column: int, message: str) -> ModelError:
        return ModelError(self.number, column, message)

    def wrong(self, expected: str) -> ModelError:
        """The error at the next token, with a hint where it is one of the usual slips."""
        token = self.peek()
        shown = token.text if token.kind == "end" else f"`{token.text}`"
        return self.error(token.column, f"expected {expected}, found {shown}{self._hint(token)}")

    def _hint(self, token: Token) -> str:
        before = self.tokens[self.at - 1] if 0 < self.at <= len(self.tokens) else None
        after = self.tokens[self.at + 1] if self.at + 1 < len(self.tokens) else None
        if token.text == "**":
            return "; a power is written with ^"
        if token.text in ("<", ">"):
            return f"; write {token.text}="
        if before and before.kind == "number" and token.text == "," and after and after.kind == "number" \
                and after.column - before.column == len(before.text) + 1:
            return f"; a decimal has a point: {before.text}.{after.text}"
        starts = token.kind in ("name", "number") or token.text == "("
        if before and starts and (before.kind in ("number", "name") or before.text == ")"):
            return f"; a product has a sign: {before.text}*{token.text}"
        return ""

    def expect(self, text: str, expected: str) -> None:
        if not self.take(text):
            raise self.wrong(expected)

    def done(self, expected: str) -> None:
        if self.peek().kind != "end":
            raise self.wrong(expected)

    def expression(self) -> Polynomial:
        """The polynomial of the expression that begins here."""
        return expand(self.sum())

    def rational(self) -> Fraction:
        column = self.peek().column
        value = self.expression()
        if any(any(e) for e in value):
            raise self.error(column, "expected a number")
        return next(iter(value.values()), Fraction(0))

    def sum(self) -> Node:
        first = self.product()
        parts, signs, column = [first], [1], 0
        while sign := self.take("+", "-"):
            parts.append(self.product())
            signs.append(1 if sign.text == "+" else -1)
            column = sign.column
        if len(parts) == 1:
            return first
        sizes = [part.size for part in parts]
        used = 0
        for size in sizes:
            used |= size.used
        made = Size(max(size.degree for size in sizes), sum(size.terms for size in sizes),
                    sum(size.norm for size in sizes), lcm(*(size.denominator for size in sizes)), used)
        return Node("sum", self._limited(made, column), tuple(parts), tuple(signs))

    def product(self) -> Node:
        parts = [self.signed()]
        size = parts[0].size
        while sign := self.take("*", "/"):
            column = self.peek().column
            factor = self.signed()
            if sign.text == "/":
                value = expand(factor)
                if any(any(e) for e in value) or not value:
                    raise self.error(column, "only a number that is not 0 may stand after /")
                factor = self._number(1 / next(iter(value.values())), column)
            parts.append(factor)
            size, a = factor.size, size
            size = self._limited(Size(a.degree + size.degree, a.terms * size.terms, a.norm * size.norm,
                                      a.denominator * size.denominator, a.used | size.used), sign.column,
                                 a.terms * size.terms)
        return Node("product", size, tuple(parts)) if len(parts) > 1 else parts[0]

    def signed(self) -> Node:
        sign, count = 1, 0
        while found := self.take("+", "-"):
            sign, count = -sign if found.text == "-" else sign, count + 1
            if count > DEEPEST:
                raise self.error(found.column, f"more than {DEEPEST} signs behind each other")
        base = self.atom()
        token = self.peek()
        if token.kind == "raised" or self.take("^"):
            base = self._power(base, token.column)
        return base if sign == 1 else Node("sum", base.size, (base,), (-1,))

    def _power(self, base: Node, column: int) -> Node:
        token = self.next()
        text = token.text.translate(RAISED)
        if token.kind not in ("number", "raised") or not text.isdigit() or len(text) > 4 or int(text) > LARGEST_POWER:
            raise self.error(token.column, f"expected a whole exponent up to {LARGEST_POWER}")
        k, size = int(text), base.size
        if self.peek().kind == "raised" or self.peek().text == "^":
            raise self.error(self.peek().column, "a power of a power is written with parentheses")
        if k * size.bits() > MOST_BITS:
            raise self.error(column, f"numbers of more than {MOST_BITS} bits come of this")
        made = Size(k * size.degree, min(size.terms ** k, 10 ** 12), size.norm ** k, size.denominator ** k, size.used)
        return Node("power", self._limited(made, column, k * size.terms * made.counted(made.terms)), (base,), k)

    def _limited(self, size: Size, column: int, work: int = 1) -> Size:
        """The size, if that is one that may be expanded."""
        if size.degree > LARGEST_DEGREE:
            raise self.error(column, f"a polynomial of degree {size.degree} comes of this; at most {LARGEST_DEGREE}")
        terms = size.counted(size.terms)
        if terms > MOST_TERMS:
            raise self.error(column, f"up to {terms:,} terms come of this; at most {MOST_TERMS:,} are expanded")
        if size.bits() > MOST_BITS:
            raise self.error(column, f"numbers of more than {MOST_BITS} bits come of this")
        self.work.left -= work
        if self.work.left < 0:
            raise self.error(column, f"more than {MOST_WORK:,} products of terms up to here")
        return Size(size.degree, terms, size.norm, size.denominator, size.used)

    def atom(self) -> Node:
        token = self.peek()
        if token.kind == "number":
            return self._number(self._value(self.next()), token.column)
        if token.kind == "name":
            if token.text not in self.names:
                raise self.error(token.column, f"`{token.text}` is no variable; expected one of "
                                               f"{', '.join(self.names) or 'a var line before'}")
            self.next()
            index = self.names.index(token.text)
            return Node("variable", Size(1, used=1 << index), value=index)
        if self.take("("):
            self.depth += 1
            if self.depth > DEEPEST:
                raise self.error(token.column, f"more than {DEEPEST} parentheses within each other")
            out = self.sum()
            self.expect(")", "`)` or an operator")
            self.depth -= 1
            return out
        raise self.wrong("a number, a variable or `(`")

    def _value(self, token: Token) -> Fraction:
        digits, _, exponent = token.text.lower().partition("e")
        if len(digits) > MOST_DIGITS or len(exponent) > 4 or abs(int(exponent or 0)) > MOST_DIGITS:
            raise self.error(token.column, f"a number of more than {MOST_DIGITS} digits")
        return Fraction(token.text)

    def _number(self, value: Fraction, column: int) -> Node:
        size = Size(0, 1, -(-abs(value.numerator) // value.denominator) or 1, value.denominator)
        return Node("number", self._limited(size, column), value=value)


def tokens(number: int, text: str, start: int) -> list[Token]:
    """The tokens of a line from a column on, in one pass."""
    out: list[Token] = []
    at = SPACE.match(text, start).end()             # type: ignore[union-attr]
    while at < len(text):
        match = TOKEN.match(text, at)
        if not match:
            hint = "; names have letters of ASCII, digits and _" if text[at].isalpha() else ""
            raise ModelError(number, at + 1, f"`{text[at]}` cannot stand here{hint}")
        if len(out) == MOST_TOKENS:
            raise ModelError(number, at + 1, f"more than {MOST_TOKENS:,} numbers, names and signs in a line")
        kind = match.lastgroup or ""
        out.append(Token(kind, SAME.get(match.group(), match.group()), at + 1))
        at = SPACE.match(text, match.end()).end()   # type: ignore[union-attr]
    return out


def expand(node: Node) -> Polynomial:
    """The polynomial of a tree whose size is limited."""
    if isinstance(node.value, Fraction):
        return constant(node.value)
    if isinstance(node.value, tuple):
        out: Polynomial = {}
        for part, sign in zip(node.parts, node.value):
            increase(out, expand(part), Fraction(sign))
        return {e: c for e, c in out.items() if c}
    if node.kind == "product":
        return reduce(times, map(expand, node.parts))
    return power(expand(node.parts[0]), node.value) if node.kind == "power" else variable(node.value)
