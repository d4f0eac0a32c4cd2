"""The text form of a stream: one line a command, lossless both ways.

A command that the words cannot say (a side 7, an exponent of a variable without a name) and what cannot
be cut into commands at all stand as `bytes` lines, so that every stream has a text form.
"""
from __future__ import annotations

import re
from dataclasses import dataclass
from functools import lru_cache
from typing import Optional

from .commands import (BOTH, CERTIFICATE, ONE, TABLE, Kind, Layout, Monomial, kind_of, monomial_text,
                       read_command, write_command)
from .reading import Problem, Refusal, Refused, read_certificate, read_problem

DEFAULT_NAMES = [f"x{i}" for i in range(1, 9)]
NAME = re.compile(r"[A-Za-z_][A-Za-z_0-9]*")
COLUMN = 34                      # where comments begin


@dataclass(frozen=True)
class Line:
    """A line of the text form and the place of its command in the stream."""
    place: int
    text: str
    comment: str = ""

    def whole(self) -> str:
        return f"{self.text:<{COLUMN}}# {self.comment}" if self.comment else self.text


@dataclass(frozen=True)
class Decoded:
    """The text form of a stream, and the refusal that its reading meets, if any."""
    lines: list[Line]
    refusal: Optional[Refusal]

    def text(self) -> str:
        return "".join(line.whole() + "\n" for line in self.lines)

    def line_at(self, place: int) -> tuple[int, str]:
        """The number and the text of the line whose command holds the byte at the place."""
        at = max((k for k, line in enumerate(self.lines) if line.place <= place), default=0)
        return (at + 1, self.lines[at].text) if self.lines else (1, "")


class TextError(Exception):
    """Wrong text: its line, and what was expected."""

    def __init__(self, line: int, message: str) -> None:
        super().__init__(f"line {line}: {message}")
        self.line = line


def refusal_of(stream: bytes, kind: Kind, problem: Optional[Problem] = None, number: int = 1) -> Optional[Refusal]:
    """The refusal, 2 to 6, that reading the stream meets. Notes count as the office reads them."""
    try:
        if kind is Kind.PROBLEM:
            read_problem(stream)
        else:
            read_certificate(stream, problem, number, notes=True)
    except Refused as refused:
        return refused.refusal
    return None


def decode(stream: bytes, names: Optional[list[str]] = None, problem: Optional[Problem] = None,
           kind: Optional[Kind] = None) -> Decoded:
    """The text form; with a problem, entries of a certificate say their monomials."""
    kind = kind or kind_of(stream)
    lines: list[Line] = []
    state = _State(names or DEFAULT_NAMES, problem)
    place, table, ended = 0, TABLE[kind], False
    while place < len(stream):
        layout = table.get(stream[place])
        if ended or layout is None or place + layout.length > len(stream):
            lines.append(Line(place, "bytes " + stream[place:].hex(" ")))
            break
        run = stream[place:place + layout.length]
        lines.append(Line(place, *state.take(run)))
        place += layout.length
        ended = layout.byte in (0x06, 0x13)
    refusal = refusal_of(stream, kind, problem)
    return Decoded(_marked(lines, refusal), refusal)


def _marked(lines: list[Line], refusal: Optional[Refusal]) -> list[Line]:
    """The lines with the refusal as a comment at its place."""
    if refusal is None:
        return lines
    said = f"refusal {refusal.number} at byte {refusal.place}: {refusal.why}"
    for k, line in enumerate(lines):
        if line.place == refusal.place:
            return lines[:k] + [Line(line.place, line.text, said)] + lines[k + 1:]
    return lines + [Line(refusal.place, "", said)]


class _State:
    """What a line needs of those before it: the names, counters of conditions and indices, the row's basis."""

    def __init__(self, names: list[str], problem: Optional[Problem]) -> None:
        self.names, self.problem = tuple(names), problem
        self.shown = tuple(names[:problem.variables] if problem else DEFAULT_NAMES)
        self.conditions, self.indices, self.row = 0, dict[int, int](), 0

    def take(self, run: bytes) -> tuple[str, str]:
        """The text of a command, and as a comment what it does not say by itself."""
        byte = run[0]
        if byte == 0x01:
            text = _shown(run, self.names)
            self.shown = tuple(text.split()[1:]) if text.startswith("variables") else self.shown
            return text, ""
        return _shown(run, self.shown), self._comment(byte, run[1] if len(run) > 1 else 0)

    def _comment(self, byte: int, number: int) -> str:
        """Numbers of conditions and indices, monomials of entries; the number is the first operand."""
        if byte in (0x03, 0x07):
            self.conditions += 1
            return f"condition {self.conditions}"
        if byte == 0x05:
            index = self.indices.get(number, 0)
            self.indices[number] = index + 1
            return f"index {index}"
        if byte in (0x11, 0x14):
            self.row = number
        if byte in (0x12, 0x15) and self.problem and self.row < len(self.problem.bases):
            basis = self.problem.bases[self.row]
            if number < len(basis):
                return monomial_text(basis[number], list(self.shown))
        return ""


@lru_cache(maxsize=1 << 16)
def _shown(run: bytes, names: tuple[str, ...]) -> str:
    """The words of a whole command, if they say these very bytes, and else the bytes."""
    try:
        text = _words(run, names)
        if _line(text, names)[0] == run:
            return text
    except ValueError:
        pass
    return "bytes " + run.hex(" ")


def _words(run: bytes, names: tuple[str, ...]) -> str:
    """The words of a command. Raises ValueError where there are none for its operands."""
    command = read_command(run, 0, BOTH[run[0]])
    byte, word, numbers = command.layout.byte, command.layout.word, command.numbers
    if byte == 0x01:
        return " ".join([word, *names[:numbers[0]]])
    if byte in (0x02, 0x04, 0x05):
        return f"{word} {numbers[0]} {monomial_text(command.monomial, list(names))}"
    if byte == 0x10:
        side, scale, p, q = numbers
        if side > 1:
            raise ValueError("no word for this side")
        return f"{'upper' if side else 'lower'} {p}/{q} scale {scale}"
    if byte in (0x11, 0x14):
        return f"{word} {numbers[0]} weight {numbers[1]}"
    if byte == 0x40:
        return f"{word} {command.note.hex(' ')}"
    return " ".join([word, *map(str, numbers)])


def encode(text: str) -> tuple[bytes, list[int]]:
    """The stream of a text, and for each command the number of its line. Raises TextError."""
    out, numbers, names = bytearray(), [], tuple(DEFAULT_NAMES)
    for number, raw in enumerate(text.splitlines(), 1):
        line = raw.split("#")[0].strip()
        if not line:
            continue
        try:
            run, names = _line(line, names)
        except ValueError as error:
            raise TextError(number, str(error)) from None
        numbers.append(number)
        out += run
    return bytes(out), numbers


BY_WORD: dict[str, Layout] = {layout.word: layout for layout in BOTH.values() if layout.word != "bound"}
FORMS = {
    "variables": "variables NAME ..", "objective": "objective COEFFICIENT MONOMIAL",
    "term": "term COEFFICIENT MONOMIAL", "basis": "basis NUMBER MONOMIAL",
    "rule": "rule NUMBER", "order": "order NUMBER",
    "lower": "lower P/Q scale D", "upper": "upper P/Q scale D", "row": "row BASIS weight NUMBER",
    "signed": "signed BASIS weight NUMBER", "entry": "entry INDEX FACTOR", "wide": "wide INDEX FACTOR",
    "note": "note with 8 bytes in hexadecimal", "bytes": "bytes in hexadecimal",
}

@lru_cache(maxsize=1 << 16)
def _line(line: str, names: tuple[str, ...]) -> tuple[bytes, tuple[str, ...]]:
    """The bytes of one line, and the names from there on. Raises ValueError."""
    word, *rest = line.split()
    if word == "bytes":
        return _hexadecimal(rest, None), names
    if word == "variables":
        return bytes([0x01, len(rest)]), _names(rest)
    if word == "note":
        return write_command(BY_WORD[word], note=_hexadecimal(rest, 8)), names
    if word in ("lower", "upper"):
        if len(rest) != 3 or rest[1] != "scale" or rest[0].count("/") != 1:
            raise ValueError(f"expected `{FORMS[word]}`")
        p, q = rest[0].split("/")
        return _written(CERTIFICATE[0x10], [str(int(word == "upper")), rest[2], p, q]), names
    if word not in BY_WORD:
        raise ValueError(f"unknown word `{word}`; expected one of {', '.join(sorted({*FORMS, *BY_WORD}))}")
    layout = BY_WORD[word]
    if word in ("row", "signed") and rest[1:2] == ["weight"]:
        del rest[1]
    elif word in ("row", "signed"):
        raise ValueError(f"expected `{FORMS[word]}`")
    if len(rest) != len(layout.widths):
        raise ValueError(f"expected `{FORMS.get(word, word)}`")
    if layout.exponents is not None:
        return _written(layout, rest[:1], monomial_of(rest[1], names)), names
    return _written(layout, rest), names


def _names(words: list[str]) -> tuple[str, ...]:
    for name in words:
        if not NAME.fullmatch(name):
            raise ValueError(f"`{name}` is no name of a variable; expected a letter, then letters and digits")
    if not 1 <= len(words) <= 8 or len(set(words)) != len(words):
        raise ValueError("expected 1 to 8 different names of variables")
    return tuple(words)


def _written(layout: Layout, words: list[str], monomial: Monomial = ONE) -> bytes:
    return write_command(layout, tuple(_whole(word) for word in words), monomial)


def _whole(word: str) -> int:
    if not re.fullmatch(r"-?[0-9]{1,20}", word):
        raise ValueError(f"expected a whole number, not `{word[:40]}`")
    return int(word)


def _hexadecimal(words: list[str], count: Optional[int]) -> bytes:
    try:
        run = bytes.fromhex(" ".join(words))
    except ValueError:
        raise ValueError("expected bytes in hexadecimal, two digits each") from None
    if count is not None and len(run) != count:
        raise ValueError(f"expected {count} bytes, found {len(run)}")
    return run


def monomial_of(word: str, names: tuple[str, ...]) -> Monomial:
    """The monomial of a word, as `1` or `a^2*b`. Raises ValueError."""
    exponents = [0] * 8
    if word == "1":
        return tuple(exponents)
    for factor in word.split("*"):
        name, _, power = factor.partition("^")
        if name not in names:
            raise ValueError(f"expected a monomial of {', '.join(names)}, not `{word}`")
        if "^" in factor and not re.fullmatch("[0-9]{1,4}", power):
            raise ValueError(f"expected an exponent after ^ in `{word[:80]}`")
        exponents[names.index(name)] += int(power or 1)
    if max(exponents) > 255:
        raise ValueError(f"an exponent of `{word}` is above 255")
    return tuple(exponents)
