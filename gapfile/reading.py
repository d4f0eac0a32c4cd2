"""Reads both streams by the rules of documents 01 and 02, to say which refusal a stream meets and why.

The verdict is always the checker's: this reader only explains it and lets the other modules look inside.
"""
from __future__ import annotations

from dataclasses import dataclass, field
from typing import Callable, Iterator, Optional

from .commands import TABLE, Command, Kind, Monomial, ONE, read_command

LIMITS = {"objective": 256, "conditions": 8, "terms": 32, "basis": 64, "rows": 128}
KEYS = 2048


@dataclass(frozen=True)
class Refusal:
    """A refusal: number, stream, place and key as the checker gives them, and the rule in words."""
    number: int
    stream: int
    place: int
    key: int = 0
    why: str = ""

    def line(self) -> str:
        return f"refused {self.number} {self.stream} {self.place} {self.key}"


class Refused(Exception):
    """Reading met a refusal."""

    def __init__(self, refusal: Refusal) -> None:
        super().__init__(refusal.line())
        self.refusal = refusal


@dataclass
class Condition:
    """A constraint (at least 0) or an equality (exactly 0)."""
    equality: bool
    terms: dict[Monomial, int] = field(default_factory=dict)


@dataclass
class Problem:
    """What a problem stream says."""
    variables: int = 0
    objective: dict[Monomial, int] = field(default_factory=dict)
    conditions: list[Condition] = field(default_factory=list)
    bases: list[list[Monomial]] = field(default_factory=lambda: [[]])
    rule: int = 1
    order: Optional[int] = None

    def multiplier(self, j: int) -> dict[Monomial, int]:
        """g_j: 1, or condition j."""
        return {ONE: 1} if j == 0 else self.conditions[j - 1].terms

    def is_equality(self, j: int) -> bool:
        return j > 0 and self.conditions[j - 1].equality


@dataclass
class Row:
    """A row: its basis, weight, and factors by basis index, each with the place of its command."""
    basis: int
    weight: int
    place: int
    entries: dict[int, int] = field(default_factory=dict)
    places: dict[int, int] = field(default_factory=dict)


@dataclass
class Certificate:
    """What a certificate stream says."""
    side: int = 0
    scale: int = 1
    p: int = 0
    q: int = 1
    rows: list[Row] = field(default_factory=list)
    notes: list[bytes] = field(default_factory=list)


def walk(stream: bytes, kind: Kind, number: int, misplaced: Callable[[int], Optional[str]]) -> Iterator[Command]:
    """The commands up to the end. Refusals 3 and 2 are raised here; `misplaced` says why a command may not stand."""
    table, place = TABLE[kind], 0
    end = 0x06 if kind is Kind.PROBLEM else 0x13
    while True:
        if place == len(stream):
            raise Refused(Refusal(2, number, place, why=f"the {kind.value} has no end command"))
        layout = table.get(stream[place])
        if layout is None:
            raise Refused(Refusal(3, number, place, why=f"{stream[place]:02X} is no command of a {kind.value}"))
        why = misplaced(stream[place])
        if why:
            raise Refused(Refusal(3, number, place, why=why))
        if place + layout.length > len(stream):
            raise Refused(Refusal(2, number, place, why=f"the command is cut: it has {layout.length} bytes, "
                                                        f"{len(stream) - place} are there"))
        yield read_command(stream, place, layout)
        place += layout.length
        if layout.byte == end:
            if place < len(stream):
                raise Refused(Refusal(2, number, place, why="bytes follow the end command"))
            return


class _Checks:
    """Raises a refusal of the command at hand."""

    def __init__(self, stream: int) -> None:
        self.stream, self.place = stream, 0

    def refuse(self, number: int, when: bool, why: str) -> None:
        if when:
            raise Refused(Refusal(number, self.stream, self.place, why=why))

    def monomial(self, e: Monomial, variables: int, degree: int) -> None:
        self.refuse(4, any(e[variables:]), "an exponent of a variable that the problem does not have is not 0")
        total = sum(e)
        self.refuse(4, total > degree, f"the degree {total} is above {degree}")


def read_problem(stream: bytes) -> Problem:
    """The problem, or `Refused` with 2 to 6."""
    problem, checks, before = Problem(), _Checks(0), [0]

    def misplaced(byte: int) -> Optional[str]:
        if (byte == 0x01) != (before[0] == 0):
            return "01 stands first, and only first"
        if byte == 0x04 and not problem.conditions:
            return "a term before any constraint or equality"
        if byte == 0x08 and before[0] != 0x01:
            return "the rule stands directly after 01"
        if byte == 0x09 and before[0] not in (0x01, 0x08):
            return "the order stands directly after 01 or 08"
        return None

    for command in walk(stream, Kind.PROBLEM, 0, misplaced):
        before[0], checks.place = command.layout.byte, command.place
        _problem_command(problem, checks, command)
    return problem


def _problem_command(problem: Problem, checks: _Checks, command: Command) -> None:
    """Takes one command in; raises 4, 5 or 6."""
    byte, monomial = command.layout.byte, command.monomial
    number = command.numbers[0] if command.numbers else 0
    if byte == 0x01:
        checks.refuse(4, not 1 <= number <= 8, "the number of variables is from 1 to 8")
        problem.variables = number
    elif byte in (0x02, 0x04):
        objective = byte == 0x02
        terms = problem.objective if objective else problem.conditions[-1].terms
        room = LIMITS["objective"] if objective else LIMITS["terms"]
        checks.monomial(monomial, problem.variables, 32 if objective else 16)
        checks.refuse(4, number == 0, "a coefficient is never 0")
        checks.refuse(5, monomial in terms, "the monomial stands twice in the polynomial")
        checks.refuse(6, len(terms) == room, f"more than {room} terms")
        terms[monomial] = number
    elif byte in (0x03, 0x07):
        checks.refuse(6, len(problem.conditions) == LIMITS["conditions"], "more than 8 constraints and equalities")
        problem.conditions.append(Condition(byte == 0x07))
        problem.bases.append([])
    elif byte == 0x05:
        checks.refuse(4, number >= len(problem.bases), f"condition {number} has not begun")
        basis = problem.bases[number]
        checks.monomial(monomial, problem.variables, 8)
        checks.refuse(5, monomial in basis, f"the monomial stands twice in basis {number}")
        checks.refuse(6, len(basis) == LIMITS["basis"], f"more than 64 monomials in basis {number}")
        basis.append(monomial)
    elif byte == 0x08:
        checks.refuse(4, number not in (1, 2), "the rule is 1 or 2")
        problem.rule = number
    elif byte == 0x09:
        checks.refuse(4, number == 0, "the order is at least 1")
        problem.order = number


def read_certificate(stream: bytes, problem: Optional[Problem], number: int = 1, notes: bool = False) -> Certificate:
    """The certificate, or `Refused` with 2 to 6. Without a problem, rules on its bases are passed over.

    Notes are read where `notes` says so (the office's reading); the strict check refuses them with 3.
    """
    certificate, checks, before = Certificate(), _Checks(number), [0]

    def misplaced(byte: int) -> Optional[str]:
        if (byte == 0x10) != (before[0] == 0):
            return "10 stands first, and only first"
        if byte in (0x12, 0x15) and not certificate.rows:
            return "an entry before any row"
        if byte == 0x40 and not notes:
            return "a note, which only the office's reader passes over"
        return None

    for command in walk(stream, Kind.CERTIFICATE, number, misplaced):
        before[0], checks.place = command.layout.byte, command.place
        _certificate_command(certificate, problem, checks, command)
    return certificate


def _certificate_command(certificate: Certificate, problem: Optional[Problem], checks: _Checks,
                         command: Command) -> None:
    """Takes one command in; raises 4, 5 or 6."""
    byte, numbers = command.layout.byte, command.numbers
    if byte == 0x10:
        checks.refuse(4, numbers[0] > 1, "the side is 0 or 1")
        checks.refuse(4, numbers[1] == 0, "D is at least 1")
        checks.refuse(4, numbers[3] == 0, "q is at least 1")
        certificate.side, certificate.scale, certificate.p, certificate.q = numbers
    elif byte in (0x11, 0x14):
        basis, weight = numbers
        equality = byte == 0x14
        if problem:
            checks.refuse(4, basis >= len(problem.bases), f"the problem has no condition {basis}")
            checks.refuse(4, problem.is_equality(basis) and not equality, f"11 on condition {basis}, an equality")
        checks.refuse(4, equality and (basis == 0 or problem is not None and not problem.is_equality(basis)),
                      f"14 on basis {basis}, which is not that of an equality")
        checks.refuse(4, weight == 0, "a weight is never 0")
        checks.refuse(6, len(certificate.rows) == LIMITS["rows"], "more than 128 rows")
        certificate.rows.append(Row(basis, weight, command.place))
    elif byte in (0x12, 0x15):
        index, factor = numbers
        row = certificate.rows[-1]
        size = LIMITS["basis"] if problem is None else len(problem.bases[row.basis])
        checks.refuse(4, index >= size, f"the index {index} is not below the length {size} of basis {row.basis}")
        checks.refuse(4, factor == 0, "a factor is never 0")
        checks.refuse(5, next(reversed(row.entries), -1) >= index, f"the index {index} does not rise")
        row.entries[index] = factor
        row.places[index] = command.place
    elif byte == 0x40:
        certificate.notes.append(command.note)
