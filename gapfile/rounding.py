"""From the solver's floats to a certificate whose identity holds exactly.

Everything is multiplied by D x q. Multipliers are rounded first; what they leave of the identity is met
exactly by the Gram matrix of basis 0, which is then written as squares of whole rows.
"""
from __future__ import annotations

from dataclasses import dataclass
from fractions import Fraction
from math import floor

from .commands import CERTIFICATE, Monomial, ONE, WidthError, add, fits, write_command
from .multipliers import equality_rows, inequality_rows, largest_multiplier
from .peeling import Peeling
from .reading import LIMITS, Problem
from .sdp import Program, Solution
from .squares import LARGEST_WEIGHT, Factors, Limits, Matrix, RoundingError

SignedRow = tuple[int, int, Factors]         # basis, weight, factors


@dataclass
class Rounded:
    """A certificate: its numbers and its rows."""
    side: int
    scale: int
    p: int
    q: int
    rows: list[SignedRow]


def denominator_for(bound: float, finest: float = 50000.0) -> int:
    """q: as fine as p of 32 bits and the given limit allow, round in decimals."""
    for q in (50000, 25000, 10000, 5000, 1000, 500, 100, 50, 10, 5, 2):
        if q <= finest and abs(bound) * q < (1 << 31) - 2 * q:
            return q
    if abs(bound) >= (1 << 31) - 2:
        raise RoundingError(f"the bound {bound:.9g} of the whole-number objective is beyond 32 bits")
    return 1


def scale_for(solution: Solution, q: int, limits: Limits) -> int:
    """D: even, so that coefficients are, and as large as factors and weights allow for the largest diagonal and for the
    largest coefficient of an equality's multiplier."""
    largest = max((row[a] for gram in solution.grams for a, row in enumerate(gram)), default=1.0)
    weight = 1 if limits.factor > 1 << 16 else LARGEST_WEIGHT        # weights coarsen a row; short factors need them
    room = 0.6 * weight * float(limits.factor) ** 2 / (q * max(largest, 1e-9))
    free = max((abs(v) for v in solution.free.values()), default=0.0)
    room = min(room, 0.9 * largest_multiplier(limits) / (q * max(free, 1e-9)))
    return max(2, min(65534, 2 * int(room / 2)))


def bound_of(program: Program, solution: Solution, q: int) -> Fraction:
    """The bound that a solution is rounded to, in the problem's units."""
    return Fraction(program.sign * floor(solution.bound * q), q)


def wide_entries(rounded: Rounded) -> int:
    """How many factors 16 bits do not hold."""
    return sum(not fits("i16", v) for _, _, row in rounded.rows for v in row.values())


@dataclass(frozen=True)
class Effort:
    """How rows are spent: so many for a pivot of basis 0 that must be exact, for another one, and so many at most for a
    pivot of a multiplier."""
    pivot_rows: int
    loose_rows: int
    multiplier_rows: int


EFFORTS = tuple(Effort(*rows) for rows in ((6, 4, 3), (5, 3, 3), (5, 3, 2), (4, 3, 2), (4, 2, 2), (4, 2, 1), (3, 2, 2),
                                           (3, 2, 1), (3, 1, 1)))


def round_solution(program: Program, blocks: list[list[list[int]]], solution: Solution, slack: float, wide: bool,
                   effort: Effort) -> Rounded:
    """The certificate for the solver's bound, a little less. Raises RoundingError."""
    problem, limits = program.problem, Limits.of(wide)
    # short factors have room for D x q only where q is no finer than the slack needs
    q = denominator_for(solution.bound, 50000.0 if wide else 4 / slack)
    bound = bound_of(program, solution, q)
    scale = scale_for(solution, q, limits)
    unit, p = scale * q, int(program.sign * bound * q)
    target: dict[Monomial, int] = {e: unit * program.sign * c for e, c in problem.objective.items()}
    target[ONE] = target.get(ONE, 0) - scale * p
    rows: list[SignedRow] = []
    for (j, ix), gram in zip(program.blocks, solution.grams):
        if j:
            scaled = [[unit * x for x in row] for row in gram]
            # even weights: a sparse basis 0 may lack the monomial whose square would meet an odd coefficient
            for weight, row in inequality_rows(scaled, 0.1 * slack * unit / _size(problem, j), limits, True,
                                               effort.multiplier_rows):
                _take(problem, target, rows, j, weight, {ix[a]: v for a, v in row.items()})
    for j, pieces in enumerate(blocks):
        if problem.is_equality(j):
            wanted = {s: unit * v for (k, s), v in solution.free.items() if k == j}
            tolerance = 0.1 * slack * unit / _size(problem, j)
            for weight, row in equality_rows(problem, j, pieces, wanted, limits, tolerance):
                _take(problem, target, rows, j, weight, row)
    parts = [ix for j, ix in program.blocks if j == 0]
    matrix = {at: v for _, part in _whole_grams(program, solution, target, unit) for at, v in part.items()}
    peeling = Peeling(problem.bases[0], parts, matrix, limits, effort.pivot_rows, effort.loose_rows)
    made = peeling.peel(LIMITS["rows"] - len(rows))
    rows += [(0, weight, row) for weight, row in made]
    return Rounded(0 if program.sign == 1 else 1, scale, program.sign * p, q, rows)


def _size(problem: Problem, j: int) -> int:
    """The largest coefficient of a condition."""
    return max(abs(c) for c in problem.multiplier(j).values())


def _take(problem: Problem, target: dict[Monomial, int], rows: list[SignedRow], j: int, weight: int,
          row: Factors) -> None:
    """Adds a row of a multiplier, and takes what it says off the target."""
    rows.append((j, weight, row))
    basis = problem.bases[j]
    for i, a in row.items():
        for k, b in row.items():
            s = add(basis[i], basis[k])
            for t, c in problem.multiplier(j).items():
                e = add(s, t)
                target[e] = target.get(e, 0) - weight * a * b * c


def _whole_grams(program: Program, solution: Solution, target: dict[Monomial, int],
                 unit: int) -> list[tuple[list[int], Matrix]]:
    """The whole Gram matrices of basis 0, block by block, with every monomial's sum exact, and the order of pivots."""
    basis = program.problem.bases[0]
    matrices: list[tuple[list[int], Matrix]] = []
    pairs: dict[Monomial, list[tuple[Matrix, tuple[int, int]]]] = {}
    for (j, ix), gram in zip(program.blocks, solution.grams):
        if j:
            continue
        matrix: Matrix = {}
        for a in range(len(ix)):
            for b in range(a, len(ix)):
                matrix[ix[a], ix[b]] = round(unit * gram[a][b])
                pairs.setdefault(add(basis[ix[a]], basis[ix[b]]), []).append((matrix, (ix[a], ix[b])))
        order = sorted(ix, key=lambda i: -matrix[i, i])
        matrices.append((order, matrix))
    for e, value in target.items():
        if value and e not in pairs:
            raise RoundingError("a monomial that basis 0 does not reach is left")
    for e, places in pairs.items():
        _meet(places, target.get(e, 0))
    return matrices


def _meet(places: list[tuple[Matrix, tuple[int, int]]], value: int) -> None:
    """Moves the entries of one monomial, evenly, so that they sum to the value."""
    times = [1 if a == b else 2 for _, (a, b) in places]
    missing = value - sum(n * matrix[at] for n, (matrix, at) in zip(times, places))
    share = missing // sum(times)
    for matrix, at in places:
        matrix[at] += share
    missing -= share * sum(times)
    for n, (matrix, at) in sorted(zip(times, places), key=lambda x: -x[0]):
        while missing >= n:
            matrix[at] += 1
            missing -= n
    if missing:
        raise RoundingError("a coefficient is odd where only even ones can be met")


def encode_certificate(problem: Problem, rounded: Rounded) -> bytes:
    """The stream; 15 only for the factors that 16 bits do not hold. Raises RoundingError where one does not fit."""
    try:
        return _encoded(problem, rounded)
    except WidthError as error:
        raise RoundingError(str(error)) from None


def _encoded(problem: Problem, rounded: Rounded) -> bytes:
    out = bytearray(write_command(CERTIFICATE[0x10], (rounded.side, rounded.scale, rounded.p, rounded.q)))
    for j, weight, row in rounded.rows:
        out += write_command(CERTIFICATE[0x14 if problem.is_equality(j) else 0x11], (j, weight))
        for i in sorted(row):
            out += write_command(CERTIFICATE[0x12 if fits("i16", row[i]) else 0x15], (i, row[i]))
    out += write_command(CERTIFICATE[0x13])
    return bytes(out)
