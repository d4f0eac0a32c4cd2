"""The streams as data of Coq, with a reader of its own, from docs/FORMAT.md: nothing of the filing part is used.

It looks neither at blocks, rounds and limits nor at the order of refusals: no bound needs them, and Coq refuses what is
wrong. The streams are those that gapcheck accepted.
"""
from __future__ import annotations

from dataclasses import dataclass
from fractions import Fraction
from typing import Any, Iterable, Iterator, Sequence

# the operands of each command: the bytes of an unsigned number, of a signed one below 0, or EXPONENTS
EXPONENTS = 8
Layout = dict[int, list[int]]
PROBLEM: Layout = {1: [1], 2: [EXPONENTS, -4], 3: [], 4: [EXPONENTS, -2], 5: [1, EXPONENTS], 6: [], 7: [], 8: [1],
                   9: [1]}
CERTIFICATE: Layout = {0x10: [1, 2, -4, 2], 0x11: [1, 2], 0x12: [1, -2], 0x13: [], 0x14: [1, -2], 0x15: [1, -4]}
Exponents = tuple[int, ...]
Terms = list[tuple[Exponents, int]]


@dataclass
class Given:
    """What problem.bin says; condition 0 is the 1 that is never below 0."""
    variables: int
    objective: Terms
    conditions: list[tuple[bool, Terms]]                     # whether it is an equality, and its polynomial
    bases: dict[int, list[Exponents]]


@dataclass
class Claim:
    """What a certificate says: D x (q x f - p), turned around for an upper bound, is the sum of the rows, by condition:
    weight, and index with factor."""
    side: int
    D: int
    p: int
    q: int
    rows: dict[int, list[tuple[int, list[tuple[int, int]]]]]

    @property
    def bound(self) -> Fraction:
        return Fraction(self.p, self.q)


def commands(stream: bytes, layout: Layout) -> Iterator[tuple[int, list[Any]]]:
    """Each command as its byte and its operands."""
    at = 0
    while at < len(stream):
        byte, operands = stream[at], []
        at += 1
        for width in layout[byte]:
            part, at = stream[at:at + abs(width)], at + abs(width)
            operands.append(tuple(part) if width == EXPONENTS else int.from_bytes(part, "little", signed=width < 0))
        yield byte, operands


def read_problem(stream: bytes) -> Given:
    out = Given(0, [], [(False, [((0,) * 8, 1)])], {})
    for byte, operands in commands(stream, PROBLEM):
        if byte == 1:
            out.variables, = operands
        elif byte == 2:
            out.objective.append((operands[0], operands[1]))
        elif byte in (3, 7):
            out.conditions.append((byte == 7, []))
        elif byte == 4:
            out.conditions[-1][1].append((operands[0], operands[1]))
        elif byte == 5:
            out.bases.setdefault(operands[0], []).append(operands[1])
    return out


def read_certificate(stream: bytes) -> Claim:
    out = Claim(0, 1, 0, 1, {})
    row: list[tuple[int, int]] = []
    for byte, operands in commands(stream, CERTIFICATE):
        if byte == 0x10:
            out.side, out.D, out.p, out.q = operands
        elif byte in (0x11, 0x14):
            row = []
            out.rows.setdefault(operands[0], []).append((operands[1], row))
        elif byte in (0x12, 0x15):
            row.append((operands[0], operands[1]))
    return out


def formula(terms: Terms, names: Sequence[str]) -> str:
    """A polynomial as a person reads it."""
    out = ""
    for e, c in terms:
        power = "*".join(name if k == 1 else f"{name}^{k}" for name, k in zip(names, e) if k)
        term = str(abs(c)) if not power else power if abs(c) == 1 else f"{abs(c)}*{power}"
        out += (" - " if c < 0 else " + ") + term if out else ("-" if c < 0 else "") + term
    return out or "0"


def listed(items: Iterable[object]) -> str:
    return "[" + "; ".join(map(str, items)) + "]"


def monomials(exponents: Iterable[Exponents]) -> str:
    """Monomials of rules.v: exponents, without zeros at the end."""
    return listed(listed(e[:max((i for i, k in enumerate(e, 1) if k), default=0)]) for e in exponents) + "%nat"


def polynomial(terms: Terms) -> str:
    """A polynomial of rules.v."""
    return f"poly {listed(c for _, c in terms)}%Z {monomials(e for e, _ in terms)}"


def problem_data(given: Given) -> list[str]:
    conditions = listed(f"({str(equality).lower()}, {polynomial(g)})" for equality, g in given.conditions)
    return [f"Definition objective : expr := {polynomial(given.objective)}.",
            f"Definition conditions : list condition := {conditions}."]


def certificate_data(name: str, sign: int, claim: Claim, given: Given, supports: dict[str, str]) -> list[str]:
    """A certificate, and that the check of rules.v says true of it. Monomials that rows share are written once."""
    out, parts = [], []
    for j, rows in claim.rows.items():
        made = []
        for weight, entries in rows:
            support = monomials(given.bases[j][i] for i, _ in entries)
            if support not in supports:
                supports[support] = f"s{len(supports)}"
                out.append(f"Definition {supports[support]} : list (list nat) := {support}.")
            made.append(f"({weight}, poly {listed(factor for _, factor in entries)} {supports[support]})")
        parts.append(f"({j}%nat, {listed(made)}%Z)")
    said = f"check ({sign}) {claim.D} ({claim.p}) {claim.q} objective conditions {name} = true"
    return out + [f"Definition {name} : list part := {listed(parts)}.",
                  f"Lemma {name}_ok : {said}. Proof. vm_cast_no_check (eq_refl true). Qed."]
