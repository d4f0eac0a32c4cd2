"""The model language: names and ranges, the polynomial to bound, conditions, and what the sheet's head says.

    title  Two decks, crosstalk of deck 1 on deck 2
    number 2026-118
    by     A. Weber
    unit   kg
    var    a b in [0, 40]
    bound  0.1*(b - a^2)^2 + a*b
    where  a + b <= 60
    where  a == 2*b                 # an equality
    degree auto
    note   Loads as in drawing 12

The lines rule, order, basis and only are those of choices.py.
"""
from __future__ import annotations

import re
from dataclasses import dataclass, field
from fractions import Fraction
from typing import Optional

from . import choices
from .choices import Choices
from .expressions import Line, ModelError, Token, Work
from .polynomials import Polynomial, plus
from .text import NAME

HEAD = ("title", "number", "by", "unit", "date")             # words for the head of the sheet, taken to the letter
WORDS = (*HEAD, "note", "var", "bound", "where", "degree", *choices.WORDS, "widen")
REPEATED = ("var", "where", "basis", "note")
MOST_BYTES, MOST_CONDITIONS, MOST_NOTES, LONGEST_WORDS = 1 << 20, 64, 64, 1000
BREAK = re.compile(r"\r\n|\n|\r")
CONTROL = re.compile(r"[\x00-\x08\x0b-\x1f\x7f-\x9f\u2028\u2029\u202a-\u202e\u2066-\u2069]")


@dataclass
class Variable:
    """A name and its range, if it has one."""
    name: str
    range: Optional[tuple[Fraction, Fraction]] = None


@dataclass
class Where:
    """A condition: the polynomial is at least 0, or exactly 0; and its words."""
    polynomial: Polynomial
    equality: bool
    text: str
    line: int


@dataclass
class Model:
    """What a model says."""
    head: dict[str, str] = field(default_factory=dict)       # title, number, by, unit, date, where they are given
    variables: list[Variable] = field(default_factory=list)
    bound: Optional[Polynomial] = None
    conditions: list[Where] = field(default_factory=list)
    degree: Optional[int] = None
    widen: bool = False                                      # whether the region may be made larger
    notes: list[str] = field(default_factory=list)           # for the sheet, to the letter
    choices: Choices = field(default_factory=Choices)
    written: list[str] = field(default_factory=list)         # the lines var, bound and where, as written

    @property
    def title(self) -> str:
        return self.head.get("title", "")

    @property
    def names(self) -> list[str]:
        return [v.name for v in self.variables]

    @property
    def sides(self) -> tuple[int, ...]:
        """The sides that are claimed: both, or one alone."""
        return self.choices.sides

    @property
    def ranges(self) -> int:
        """How many variables have a range; in a stream these conditions come first."""
        return sum(v.range is not None for v in self.variables)


def read_text(data: bytes) -> str:
    """The text of a model's bytes: UTF-8, with or without the mark that some editors write first. Raises ModelError."""
    if len(data) > MOST_BYTES:
        before = data[:MOST_BYTES]
        raise ModelError(before.count(b"\n") + 1, MOST_BYTES - before.rfind(b"\n"),
                         f"the model has {len(data):,} bytes; {MOST_BYTES:,} are allowed, which end here")
    try:
        return data.decode("utf-8-sig")
    except UnicodeDecodeError as error:
        before = data[:error.start]
        raise ModelError(before.count(b"\n") + 1, error.start - before.rfind(b"\n"),
                         f"the byte {data[error.start]:02X} is no text in UTF-8") from None


def parse(text: str) -> Model:
    """The model of a text. Raises ModelError."""
    model, work = Model(), Work()
    seen: dict[str, int] = {}
    lines = BREAK.split(text.removeprefix("\ufeff"))
    end = len(lines) + bool(lines[-1])
    for number, raw in enumerate(lines, 1):
        control = CONTROL.search(raw)
        if control:
            raise ModelError(number, control.start() + 1, f"the character U+{ord(control.group()):04X} cannot stand in "
                                                          "a model")
        content = raw.split("#", 1)[0].rstrip()
        word = content.split(None, 1)[0] if content.strip() else ""
        if not word:
            continue
        column = content.index(word)
        if word not in WORDS:
            raise ModelError(number, column + 1, f"expected {', '.join(WORDS[:-1])} or {WORDS[-1]}, found "
                                                 f"`{word[:40]}`")
        if word in seen and word not in REPEATED:
            raise ModelError(number, column + 1, f"`{word}` stands a second time, first in line {seen[word]}")
        seen.setdefault(word, number)
        start = column + len(word)
        if word in HEAD or word == "note":
            _words(model, word, raw[start:].strip(), number, start)
            continue
        _statement(model, word, Line(number, content, start, model.names, work), content[start:].strip())
        if word in ("var", "bound", "where"):
            model.written.append(content.strip())
    if not model.variables:
        raise ModelError(end, 1, "expected a var line")
    if model.bound is None:
        raise ModelError(end, 1, "expected a bound line")
    model.choices.whole(model.ranges + len(model.conditions), seen.get("degree") if model.degree else None)
    return model


def _words(model: Model, word: str, text: str, number: int, start: int) -> None:
    """A line that is taken to the letter."""
    if len(text) > LONGEST_WORDS:
        raise ModelError(number, start + LONGEST_WORDS, f"more than {LONGEST_WORDS:,} letters")
    if word != "note":
        model.head[word] = text
        return
    if len(model.notes) == MOST_NOTES:
        raise ModelError(number, 1, f"more than {MOST_NOTES} notes")
    model.notes.append(text)


def _statement(model: Model, word: str, line: Line, text: str) -> None:
    if word == "var":
        _variables(model, line)
    elif word == "bound":
        model.bound = line.expression()
        line.done("an operator or the end of the line")
    elif word == "where":
        _condition(model, line, text)
    elif word == "widen":
        model.widen = True
        line.done("the end of the line")
    elif word in choices.WORDS:
        model.choices.take(word, line)
    else:
        token = line.next()
        if token.text not in ("auto", "2", "4", "6", "8", "10", "12", "14", "16"):
            raise line.error(token.column, "expected auto or an even degree from 2 to 16")
        model.degree = None if token.text == "auto" else int(token.text)
        line.done("the end of the line")


def _condition(model: Model, line: Line, text: str) -> None:
    if len(model.conditions) == MOST_CONDITIONS:
        raise line.error(1, f"more than {MOST_CONDITIONS} conditions")
    left = line.expression()
    sign = line.take("<=", ">=", "==")
    if not sign:
        raise line.wrong("an operator, `<=`, `>=` or `==`")
    right = line.expression()
    line.done("an operator or the end of the line")
    difference = plus(right, left, Fraction(-1)) if sign.text == "<=" else plus(left, right, Fraction(-1))
    if not any(any(e) for e in difference):
        raise line.error(sign.column, "the condition has no variable that is left")
    model.conditions.append(Where(difference, sign.text == "==", text, line.number))


def _variables(model: Model, line: Line) -> None:
    names: list[Token] = []
    while line.peek().kind == "name" and line.peek().text != "in":
        names.append(line.next())
    if not names:
        raise line.wrong("a name of a variable")
    ends = _range(line) if line.take("in") else None
    line.done("a name, `in` or the end of the line")
    for token in names:
        if not NAME.fullmatch(token.text) or token.text in ("in", "auto"):
            raise line.error(token.column, f"`{token.text}` is no name of a variable")
        if token.text in model.names:
            raise line.error(token.column, f"`{token.text}` stands twice")
        if len(model.variables) == 8:
            raise line.error(token.column, "more than 8 variables")
        model.variables.append(Variable(token.text, ends))


def _range(line: Line) -> tuple[Fraction, Fraction]:
    line.expect("[", "`[`")
    low = line.rational()
    line.expect(",", "`,`")
    column = line.peek().column
    high = line.rational()
    if high <= low:
        raise line.error(column, f"the upper end {high} is not above the lower end {low}")
    line.expect("]", "`]`")
    return low, high
