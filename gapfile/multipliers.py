"""Multipliers of inequalities and equalities as rows. They need not be exact: basis 0 takes what is left."""
from __future__ import annotations

from math import isqrt, sqrt

from .commands import Monomial, add
from .reading import Problem
from .squares import LARGEST_WEIGHT, Factors, Limits, RoundingError, single

SIGNED_WEIGHT = 32767
LARGEST_STEP = 8000              # the factor of an equality's one monomial; the other factors leave room for it


def inequality_rows(gram: list[list[float]], tolerance: float, limits: Limits, even: bool,
                    count: int) -> list[tuple[int, Factors]]:
    """Rows of a rounded Cholesky factor with pivoting, up to so many for a pivot, whose steps fall geometrically.

    What is below the tolerance is left out. `even`: the inequality has an odd exponent, so weights are even, or a
    coefficient of T could come out odd.
    """
    left = [list(row) for row in gram]
    rows: list[tuple[int, Factors]] = []
    todo, unit = set(range(len(left))), 2 if even else 1
    while todo:
        k = max(sorted(todo), key=lambda i: left[i][i])
        if left[k][k] <= max(tolerance, 8.0):
            break
        todo.discard(k)
        others = sorted(todo)
        if any(abs(left[k][i]) > tolerance for i in others):
            _pivot(left, rows, k, others, unit, count, tolerance, limits)
        else:
            rest = left[k][k]
            for weight, factor in single(int(rest), limits, unit):
                if rest > tolerance:
                    rows.append((weight, {k: factor}))
                    rest -= weight * factor * factor
    return rows


def _pivot(left: list[list[float]], rows: list[tuple[int, Factors]], k: int, others: list[int], unit: int, count: int,
           tolerance: float, limits: Limits) -> None:
    """The rows of one pivot. Each leaves on the diagonal what the next one needs for its step."""
    d = left[k][k]
    largest = max([d] + [left[i][i] for i in others])
    cap = max(1, int(0.9 * limits.factor * sqrt(d / largest)))
    first = sqrt(d * _weight(d, cap, unit))
    parts: list[tuple[int, int]] = []
    rest = d
    for stage in range(1, count + 1):
        weight = _weight(rest, cap, unit)
        if weight > LARGEST_WEIGHT:
            raise RoundingError("the weight of a multiplier is beyond 16 bits")
        step = first ** ((count - stage) / count) if stage < count else 0.0
        factor = isqrt(int(max(rest - unit * step * min(step, cap), 0.3 * rest) // weight))
        if factor < 1:
            break
        parts.append((weight, factor))
        rest -= weight * factor * factor
        if rest < unit or weight * factor <= tolerance:
            break
    made = [{k: factor} for _, factor in parts]
    for i in others:
        share, owed = left[k][i] / (d - rest), 0.0
        for row, (weight, factor) in zip(made, parts):
            v = round(share * factor - owed / (weight * factor))
            owed += weight * factor * (v - share * factor)
            if abs(v) > limits.factor:
                raise RoundingError("a factor of a multiplier is too large")
            if v:
                row[i] = v
    for (weight, _), row in zip(parts, made):
        for i, a in row.items():
            for j, b in row.items():
                left[i][j] -= weight * a * b
        rows.append((weight, row))


def _weight(d: float, cap: int, unit: int) -> int:
    """The least weight, a multiple of the unit, with which a factor under the cap reaches d."""
    return unit * max(1, -(-int(d) // (unit * cap * cap)))


def equality_rows(problem: Problem, j: int, blocks: list[list[int]], wanted: dict[Monomial, float],
                  limits: Limits, tolerance: float) -> list[tuple[int, Factors]]:
    """Rows with weights of both signs whose sum is close to the wanted multiplier, off by at most the tolerance.

    w (t b + L)^2 - w (-t b + L)^2 = 4 w t b L: one pair of rows gives any L times b, in steps of 4 w t.
    """
    basis, rows = problem.bases[j], []
    todo = {s: v for s, v in wanted.items() if abs(v) >= max(2, tolerance)}
    while todo:
        best: tuple[int, dict[Monomial, int]] | None = None
        for part in blocks:
            for k in part:
                cover = {add(basis[k], basis[i]): i for i in reversed(part) if add(basis[k], basis[i]) in todo}
                if cover and (best is None or len(cover) > len(best[1])):
                    best = (k, cover)
        if best is None:
            raise RoundingError(f"the multiplier of equality {j} is not in the span of its basis")
        k, cover = best
        rest = {s: todo.pop(s) for s in cover}
        for weight, factor in _stages(max(abs(v) for v in rest.values()), limits, tolerance):
            step, line = 4 * weight * factor, dict[int, int]()
            for s, i in cover.items():
                v = round(rest[s] / step)
                if abs(v) + factor > limits.factor:
                    raise RoundingError("a factor of an equality is too large")
                if v:
                    line[i] = v
                    rest[s] -= step * v
            for sign in (1, -1) if line else ():
                row = dict(line)
                row[k] = row.get(k, 0) + sign * factor
                rows.append((sign * weight, {i: v for i, v in row.items() if v}))
    return rows


def largest_multiplier(limits: Limits) -> float:
    """The largest coefficient of an equality's multiplier that one pair of rows can give."""
    return 4.0 * SIGNED_WEIGHT * LARGEST_STEP * (limits.factor - LARGEST_STEP - 1000)


def _stages(largest: float, limits: Limits, tolerance: float) -> list[tuple[int, int]]:
    """Weights and factors of the pairs of rows, coarse to fine; the last has step 4."""
    top, out = limits.factor - LARGEST_STEP - 1000, []
    while True:
        need = largest / 4 / top
        factor = min(int(need) + 1, LARGEST_STEP)
        weight = int(need / factor) + 1 if need > 1 else 1
        if weight > SIGNED_WEIGHT:
            raise RoundingError("the weight of an equality is beyond 16 bits")
        out.append((weight, factor))
        if weight * factor == 1 or 2.0 * weight * factor <= tolerance:
            return out
        largest = 2.0 * weight * factor
