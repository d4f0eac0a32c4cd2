"""A certificate as a table whose columns add up: a line for each row of the certificate, a column for each monomial.

Line k holds the coefficients of w x (sum of l x b)^2 x g_j, multiplied out. Below stand the sum of the lines and what
the certificate claims of it, D x (q x f - p), turned around for an upper bound. A bound holds where the two are equal
in every column, weights are above 0 but on an equality, and the g_j are at least 0: a pencil is enough to follow it.
"""
from __future__ import annotations

from dataclasses import dataclass
from typing import Iterator

from .commands import Monomial, ONE, add, monomial_text, polynomial_text
from .decimals import counted
from .polynomials import ordered
from .reading import Certificate, Problem, Row

WIDEST = 150                     # letters of a table in text; of a wider one the columns are listed
WHY = ("a row is a square times a weight above 0 times a g that is at least 0 on the region (a weight may be below 0 "
       "where g is 0 there), so the sum is at least 0 there, and with it the claim: the bound holds")


@dataclass(frozen=True)
class Product:
    """What two entries of a row and a term of g_j give to a monomial: how often, both factors, and the coefficient."""
    monomial: Monomial
    times: int
    first: int
    second: int
    coefficient: int

    @property
    def value(self) -> int:
        return self.times * self.first * self.second * self.coefficient


@dataclass(frozen=True)
class Worksheet:
    """The table of one certificate: its lines and its claim, each by monomial."""
    problem: Problem
    certificate: Certificate
    names: list[str]
    lines: list[dict[Monomial, int]]
    claim: dict[Monomial, int]
    columns: list[Monomial]

    def total(self, column: Monomial) -> int:
        return sum(line.get(column, 0) for line in self.lines)

    def adds_up(self, column: Monomial) -> bool:
        return self.total(column) == self.claim.get(column, 0)

    @property
    def wrong(self) -> list[Monomial]:
        """The columns whose sum is not what is claimed."""
        return [column for column in self.columns if not self.adds_up(column)]


def products(problem: Problem, row: Row) -> Iterator[Product]:
    """All products of two entries of a row, in either order at once, and of a term of its g_j."""
    basis, entries = problem.bases[row.basis], list(row.entries.items())
    terms = list(problem.multiplier(row.basis).items())
    for k, (i, a) in enumerate(entries):
        for j, b in entries[k:]:
            square = add(basis[i], basis[j])
            for t, c in terms:
                yield Product(add(square, t), 1 if i == j else 2, a, b, c)


def worksheet(problem: Problem, certificate: Certificate, names: list[str]) -> Worksheet:
    """The whole table."""
    lines: list[dict[Monomial, int]] = []
    for row in certificate.rows:
        line: dict[Monomial, int] = {}
        for product in products(problem, row):
            line[product.monomial] = line.get(product.monomial, 0) + row.weight * product.value
        lines.append({e: c for e, c in line.items() if c})
    claim = claimed(problem, certificate)
    reached = {e: 1 for part in (claim, *lines) for e in part}
    return Worksheet(problem, certificate, names, lines, claim, ordered(reached))


def claimed(problem: Problem, certificate: Certificate) -> dict[Monomial, int]:
    """D x (q x f - p), or D x (p - q x f) for an upper bound, by monomial."""
    sign = -1 if certificate.side else 1
    out = {e: sign * certificate.scale * certificate.q * c for e, c in problem.objective.items()}
    out[ONE] = out.get(ONE, 0) - sign * certificate.scale * certificate.p
    return {e: c for e, c in out.items() if c}


def row_words(sheet: Worksheet, row: Row) -> str:
    """A row as a formula."""
    basis = sheet.problem.bases[row.basis]
    inner = polynomial_text({basis[i]: factor for i, factor in row.entries.items()}, sheet.names)
    return f"{row.weight}*({inner})^2" + (f"*g{row.basis}" if row.basis else "")


def claim_words(certificate: Certificate) -> str:
    """What the sum of the rows is claimed to be."""
    p, q, scale = certificate.p, certificate.q, certificate.scale
    if certificate.side:
        return f"{scale}*({p} - {q}*f)"
    return f"{scale}*({q}*f {'-' if p >= 0 else '+'} {abs(p)})"


def given_lines(sheet: Worksheet) -> list[str]:
    """The polynomial and the conditions that the table speaks of."""
    used = sorted({row.basis for row in sheet.certificate.rows if row.basis})
    lines = [f"f = {polynomial_text(sheet.problem.objective, sheet.names)}"]
    for j in used:
        sign = "= 0" if sheet.problem.is_equality(j) else ">= 0"
        shown = polynomial_text(sheet.problem.multiplier(j), sheet.names)
        lines.append(f"g{j} = {shown}, which is {sign} on the region")
    return lines


def table(sheet: Worksheet) -> list[list[str]]:
    """The cells: heads, a line for each row, the sum, the claim."""
    heads = ["", *(monomial_text(e, sheet.names) for e in sheet.columns)]
    cells = [[row_words(sheet, row), *(str(line.get(e, "")) for e in sheet.columns)]
             for row, line in zip(sheet.certificate.rows, sheet.lines)]
    total = ["sum of the rows", *(str(sheet.total(e)) for e in sheet.columns)]
    claim = [claim_words(sheet.certificate), *(str(sheet.claim.get(e, 0)) for e in sheet.columns)]
    return [heads, *cells, total, claim]


def summary(sheet: Worksheet) -> list[list[str]]:
    """Of a large table: for each column how many rows reach it, its sum, and what is claimed."""
    cells = [[monomial_text(e, sheet.names), str(sum(e in line for line in sheet.lines)), str(sheet.total(e)),
              str(sheet.claim.get(e, 0)), "" if sheet.adds_up(e) else "DIFFERS"] for e in sheet.columns]
    return [["column", "rows", "sum of the rows", claim_words(sheet.certificate), ""], *cells]


def column_table(sheet: Worksheet, column: Monomial) -> list[list[str]]:
    """One column, for a pencil: for each row that reaches it the weight times the sum of the products, what that is,
    and the sum so far."""
    cells, so_far = [["row", "weight * products", "gives", "sum so far"]], 0
    for number, row in enumerate(sheet.certificate.rows, 1):
        made = [product for product in products(sheet.problem, row) if product.monomial == column]
        if made:
            gives = row.weight * sum(product.value for product in made)
            so_far += gives
            cells.append([str(number), f"{row.weight}*({_sum(made)})", str(gives), str(so_far)])
    return [*cells, ["", f"{claim_words(sheet.certificate)}: {_claim_of(sheet, column)}", "",
                     str(sheet.claim.get(column, 0))]]


def _sum(made: list[Product]) -> str:
    """Products of factors as they are multiplied by hand: a 2 for a pair, and no 1 of a condition."""
    parts = []
    for product in made:
        factors = [product.first, product.second] + [product.coefficient] * (product.coefficient != 1)
        shown = "*".join(f"({x})" if x < 0 else str(x) for x in factors)
        parts.append(f"{product.times}*{shown}" if product.times != 1 else shown)
    return " + ".join(parts)


def _claim_of(sheet: Worksheet, column: Monomial) -> str:
    """How the claim's coefficient comes about."""
    c, found = sheet.problem.objective.get(column, 0), sheet.certificate
    p = found.p if column == ONE else 0
    return f"{found.scale}*({p} - {found.q}*{_signed(c)})" if found.side else \
        f"{found.scale}*({found.q}*{_signed(c)} - {_signed(p)})"


def _signed(value: int) -> str:
    return f"({value})" if value < 0 else str(value)


def aligned(cells: list[list[str]], left: int = 1) -> list[str]:
    """Lines of text, with numbers at the right; so many columns at the left."""
    wide = [max(len(line[k]) for line in cells) for k in range(len(cells[0]))]
    return ["  ".join(f"{cell:<{width}}" if k < left else f"{cell:>{width}}"
                      for k, (cell, width) in enumerate(zip(line, wide))).rstrip() for line in cells]


def verdict_line(sheet: Worksheet) -> str:
    """Whether all columns add up."""
    wrong, count = sheet.wrong, counted(len(sheet.columns), "column")
    if not wrong:
        return f"all of it adds up, in {count}"
    shown = ", ".join(monomial_text(e, sheet.names) for e in wrong[:8])
    return f"{len(wrong)} of {count} do not add up: {shown}{' ..' if len(wrong) > 8 else ''}"
