"""The commands of both streams, as data: their words in the text form and the widths of their operands.

All commands of documents 01 and 02 are here, also those that a given `gapcheck` may not read yet.
"""
from __future__ import annotations

from dataclasses import dataclass
from enum import Enum
from functools import cached_property
from struct import Struct
from typing import Mapping, NamedTuple, Optional

Monomial = tuple[int, ...]          # eight exponents
ONE: Monomial = (0,) * 8
FORMAT = {"u8": "B", "u16": "H", "i16": "h", "i32": "i", "E": "8B", "note": "8s"}


class Kind(Enum):
    """Which of the two kinds of streams."""
    PROBLEM = "problem"
    CERTIFICATE = "certificate"


@dataclass(frozen=True)
class Layout:
    """A command: its byte, its word in the text form and its operands' widths, in their order."""
    byte: int
    word: str
    widths: tuple[str, ...]

    @cached_property
    def form(self) -> Struct:
        return Struct("<" + "".join(FORMAT[width] for width in self.widths))

    @cached_property
    def length(self) -> int:
        return 1 + self.form.size

    @cached_property
    def numbers(self) -> tuple[str, ...]:
        """The widths of the operands that are numbers."""
        return tuple(width for width in self.widths if width not in ("E", "note"))

    @cached_property
    def exponents(self) -> Optional[int]:
        """How many operands stand before the eight exponents, None where there are none."""
        return self.widths.index("E") if "E" in self.widths else None


class WidthError(ValueError):
    """A number that does not fit the width of its operand."""


class Command(NamedTuple):
    """A whole command at its place in a stream: its numbers in their order, its monomial, its note."""
    place: int
    layout: Layout
    numbers: tuple[int, ...]
    monomial: Monomial = ONE
    note: bytes = b""


PROBLEM = {layout.byte: layout for layout in (
    Layout(0x01, "variables", ("u8",)),
    Layout(0x02, "objective", ("E", "i32")),
    Layout(0x03, "constraint", ()),
    Layout(0x04, "term", ("E", "i16")),
    Layout(0x05, "basis", ("u8", "E")),
    Layout(0x06, "end", ()),
    Layout(0x07, "equality", ()),
    Layout(0x08, "rule", ("u8",)),
    Layout(0x09, "order", ("u8",)),
)}
CERTIFICATE = {layout.byte: layout for layout in (
    Layout(0x10, "bound", ("u8", "u16", "i32", "u16")),
    Layout(0x11, "row", ("u8", "u16")),
    Layout(0x12, "entry", ("u8", "i16")),
    Layout(0x13, "done", ()),
    Layout(0x14, "signed", ("u8", "i16")),
    Layout(0x15, "wide", ("u8", "i32")),
    Layout(0x40, "note", ("note",)),
)}
OPERANDS = {
    "variables": ("number of variables",), "objective": ("coefficient",), "term": ("coefficient",), "basis": ("basis",),
    "rule": ("rule",), "order": ("order",),
    "bound": ("side", "D", "p", "q"), "row": ("basis", "weight"), "signed": ("basis", "weight"),
    "entry": ("index", "factor"), "wide": ("index", "factor"),
}
TABLE = {Kind.PROBLEM: PROBLEM, Kind.CERTIFICATE: CERTIFICATE}
BOTH = {**PROBLEM, **CERTIFICATE}       # no byte is a command of both


def kind_of(stream: bytes) -> Kind:
    """The kind of a stream by its first byte; what is no certificate is taken for a problem."""
    return Kind.CERTIFICATE if stream[:1] and stream[0] in CERTIFICATE else Kind.PROBLEM


def fits(width: str, value: int) -> bool:
    """Whether a number fits an operand of this width."""
    bits = int(width[1:])
    return -(1 << bits - 1) <= value < 1 << bits - 1 if width[0] == "i" else 0 <= value < 1 << bits


def read_command(stream: bytes, place: int, layout: Layout) -> Command:
    """The command at the place; the caller knows that it is whole."""
    values = layout.form.unpack_from(stream, place + 1)
    at = layout.exponents
    if at is not None:
        return Command(place, layout, values[:at] + values[at + 8:], values[at:at + 8])
    if layout.widths == ("note",):
        return Command(place, layout, (), ONE, values[0])
    return Command(place, layout, values)


def write_command(layout: Layout, numbers: tuple[int, ...] = (), monomial: Monomial = ONE, note: bytes = b"") -> bytes:
    """The bytes of a command. This is the one place where widths are checked: raises WidthError, with the operand's
    name."""
    if layout.widths == ("note",):
        if len(note) != 8:
            raise WidthError(f"expected 8 bytes, found {len(note)}")
        return bytes([layout.byte]) + note
    for width, number, operand in zip(layout.numbers, numbers, OPERANDS.get(layout.word, ())):
        if not fits(width, number):
            raise WidthError(f"the {operand} {number} does not fit {width}")
    if layout.exponents is not None and not all(0 <= x < 256 for x in monomial):
        raise WidthError(f"an exponent of {monomial} is above 255")
    at = layout.exponents
    values = numbers if at is None else numbers[:at] + monomial + numbers[at:]
    return bytes([layout.byte]) + layout.form.pack(*values)


def key(monomial: Monomial) -> int:
    """The key of document 01: the sum of e_i x 256^(i-1)."""
    return int.from_bytes(bytes(monomial), "little")


def monomial_of_key(number: int) -> Monomial:
    """The monomial of a key."""
    return tuple(number.to_bytes(8, "little"))


def add(a: Monomial, b: Monomial) -> Monomial:
    """The product of two monomials."""
    return tuple([x + y for x, y in zip(a, b)])


def monomial_text(monomial: Monomial, names: list[str]) -> str:
    """A monomial in the text form, `1` or `a^2*b`; variables without a name are x1 to x8."""
    parts = []
    for i, exponent in enumerate(monomial):
        if exponent:
            name = names[i] if i < len(names) else f"x{i + 1}"
            parts.append(name if exponent == 1 else f"{name}^{exponent}")
    return "*".join(parts) or "1"


def polynomial_text(terms: Mapping[Monomial, object], names: list[str]) -> str:
    """A polynomial with whole or rational coefficients as a formula."""
    out = ""
    for monomial, coefficient in terms.items():
        text, said = monomial_text(monomial, names), str(coefficient)
        size = said.lstrip("-")
        shown = size if text == "1" else text if size == "1" else f"{size}*{text}"
        out += (" - " if said[0] == "-" else " + ") + shown
    if not out:
        return "0"
    return out[3:] if out.startswith(" + ") else "-" + out[3:]
