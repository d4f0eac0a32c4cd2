"""The semidefinite program of one side, from the checker's blocks, in the sparse format of csdp.

The Gram matrix of basis 0 is written Z + slack x 1 with Z positive semidefinite, so that rounding has room.
Multipliers of equalities are free: they are eliminated exactly, so that csdp sees no free variable.
"""
from __future__ import annotations

from dataclasses import dataclass, field
from fractions import Fraction
from typing import Optional, TypeVar

from .basis import inconsistent
from .commands import Monomial, ONE, add, key
from .reading import Problem
from .solver import Answer, Solver

Position = tuple[int, int, int]              # block, and two places in it, the first not above the second
Equation = dict[Position, Fraction]
FreeVariable = tuple[int, Monomial]          # an equality and a monomial of its multiplier
Name = TypeVar("Name")


class Unreachable(Exception):
    """A monomial of the objective that no product of the bases has."""


@dataclass
class Solution:
    """What the solver found: status, bound, Gram matrices, multipliers of equalities, and a point to start from."""
    status: int
    bound: float
    grams: list[list[list[float]]]
    free: dict[FreeVariable, float]
    moments: list[float]


@dataclass
class Program:
    """The equations of one side. Unknowns: a matrix for each block, and the free variables."""
    problem: Problem
    sign: int
    blocks: list[tuple[int, list[int]]]
    scale: Fraction
    raw: dict[Monomial, Equation] = field(default_factory=dict)
    free: dict[Monomial, dict[FreeVariable, Fraction]] = field(default_factory=dict)
    pivots: list[tuple[Monomial, FreeVariable]] = field(default_factory=list)
    combined: dict[Monomial, dict[Monomial, Fraction]] = field(default_factory=dict)


def pose_program(problem: Problem, blocks: list[list[list[int]]], side: int) -> Program:
    """The program for one side (0 lower, 1 upper)."""
    sign = 1 if side == 0 else -1
    lost = inconsistent(problem, blocks, sign)
    kept = [(j, [i for i in part if (j, i) not in lost]) for j, parts in enumerate(blocks) for part in parts
            if not problem.is_equality(j)]
    scale = Fraction(max([abs(c) for c in problem.objective.values()] + [1]))
    program = Program(problem, sign, [(j, ix) for j, ix in kept if ix], scale)
    program.raw[ONE] = {}
    for number, (j, ix) in enumerate(program.blocks):
        basis = problem.bases[j]
        for a in range(len(ix)):
            for b in range(a, len(ix)):
                s = add(basis[ix[a]], basis[ix[b]])
                for t, c in problem.multiplier(j).items():
                    row = program.raw.setdefault(add(s, t), {})
                    row[number, a, b] = row.get((number, a, b), Fraction(0)) + c
    for j, parts in enumerate(blocks):
        if problem.is_equality(j):
            sums = {add(problem.bases[j][a], problem.bases[j][b]) for part in parts for a in part for b in part}
            for s in sorted(sums, key=key):
                for t, c in problem.multiplier(j).items():
                    program.raw.setdefault(add(s, t), {})
                    program.free.setdefault(add(s, t), {})[j, s] = Fraction(c)
    for e in problem.objective:
        if e not in program.raw:
            raise Unreachable(str(e))
    _eliminate_free(program)
    return program


def _eliminate_free(program: Program) -> None:
    """Gauss elimination of the free variables, by the largest coefficient, in fractions; the constant is no pivot."""
    rows = {m: dict(row) for m, row in program.free.items()}
    program.combined = {m: {m: Fraction(1)} for m in program.raw}
    left = {m for m in rows if m != ONE}
    while True:
        best = None
        for m in sorted(left, key=key):
            for x, c in rows[m].items():
                others = sum(1 for n in left if x in rows[n])
                rank = (-abs(c), (len(rows[m]) - 1) * (others - 1), -sum(m))
                if best is None or rank < best[0]:
                    best = (rank, m, x)
        if best is None:
            break
        _, m, x = best
        left.discard(m)
        program.pivots.append((m, x))
        for n in [n for n in rows if (n in left or n == ONE) and x in rows[n]]:
            k = rows[n][x] / rows[m][x]
            _subtract(rows[n], rows[m], k)
            _subtract(program.combined[n], program.combined[m], k)
    program.free = rows


def _subtract(row: dict[Name, Fraction], other: dict[Name, Fraction], factor: Fraction) -> None:
    for x, c in other.items():
        value = row.get(x, Fraction(0)) - factor * c
        if value:
            row[x] = value
        else:
            row.pop(x, None)


def solve(program: Program, solver: Solver, slack: float = 0.0, fixed: Optional[float] = None,
          thrift: bool = False) -> Solution:
    """The best bound with so much slack on the diagonal of basis 0, or a certificate of a fixed bound, any one or
    (thrift) one with small multipliers, which have few rows; in the problem's units, upper bounds with their sign
    turned."""
    pivots = {m for m, _ in program.pivots}
    names = [m for m in sorted(program.raw, key=key) if m not in pivots and m != ONE]
    target = _targets(program, slack)
    equations, sides, posed = [], [], []
    for m in names:
        row = _combination(program, m)
        if row or target[m]:
            equations.append({p: float(c) for p, c in row.items()})
            sides.append(target[m])
            posed.append(m)
    constant = {p: float(c) for p, c in _combination(program, ONE).items()}
    cost = {p: -c for p, c in constant.items()}
    scale = float(program.scale)
    if fixed is not None:
        equations.append(constant)
        sides.append(target[ONE] - fixed / scale)
        cost = {(k, a, a): -1.0 for k, (j, ix) in enumerate(program.blocks) if j and thrift for a in range(len(ix))}
    sizes = [len(ix) for _, ix in program.blocks]
    if equations:
        answer = solver.solve(sizes, cost, equations, sides)
    else:                                                        # csdp reads no program without equations
        nothing = [[[0.0] * n for _ in range(n)] for n in sizes]
        answer = Answer(2 if any(c > 0 for c in cost.values()) else 0, nothing, [])
    value = target[ONE] + sum(c * answer.matrices[k][a][b] * (1 if a == b else 2) for (k, a, b), c in cost.items())
    bound = scale * value if fixed is None else fixed
    free = _free_values(program, answer, slack)
    grams = [[[scale * x for x in row] for row in matrix] for matrix in answer.matrices]
    for (j, ix), gram in zip(program.blocks, grams):
        if j == 0:
            for a in range(len(ix)):
                gram[a][a] += slack
    dual = dict(zip(posed, answer.dual))
    moments = [dual.get(tuple(int(k == i) for k in range(8)), 0.0) for i in range(program.problem.variables)]
    return Solution(answer.status, bound, grams, {x: scale * v for x, v in free.items()}, moments)


def _combination(program: Program, m: Monomial) -> Equation:
    row: Equation = {}
    for n, k in program.combined[m].items():
        for p, c in program.raw[n].items():
            row[p] = row.get(p, Fraction(0)) + k * c
    return {p: c for p, c in row.items() if c}


def _raw_targets(program: Program, slack: float) -> dict[Monomial, float]:
    """The right sides, over the scale: the objective less the slack's squares."""
    scale = float(program.scale)
    out = {m: program.sign * program.problem.objective.get(m, 0) / scale for m in program.raw}
    for j, ix in program.blocks:
        if j == 0:
            for i in ix:
                b = program.problem.bases[0][i]
                out[add(b, b)] -= slack / scale
    return out


def _targets(program: Program, slack: float) -> dict[Monomial, float]:
    raw = _raw_targets(program, slack)
    return {m: sum(float(k) * raw[n] for n, k in row.items()) for m, row in program.combined.items()}


def _free_values(program: Program, answer: Answer, slack: float) -> dict[FreeVariable, float]:
    """The multipliers of the equalities, from the pivots backwards; those without a pivot are 0."""
    target, values = _targets(program, slack), dict[FreeVariable, float]()
    for m, x in reversed(program.pivots):
        rest = target[m]
        for p, c in _combination(program, m).items():
            rest -= float(c) * answer.matrices[p[0]][p[1]][p[2]] * (1 if p[1] == p[2] else 2)
        for y, c in program.free[m].items():
            if y != x:
                rest -= float(c) * values.get(y, 0.0)
        values[x] = rest / float(program.free[m][x])
    return values
