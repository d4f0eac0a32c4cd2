"""Local optima in floats by SLSQP of scipy, where that is installed; nothing else needs it, and nothing trusts it."""
from __future__ import annotations

from typing import Any, Optional

from .commands import Monomial
from .reading import Problem

try:
    import numpy
    from scipy.optimize import minimize                            # type: ignore
except ImportError:
    minimize = None

OPTIONS = {"maxiter": 200, "ftol": 1e-14}
ALLOWED = 1e-7                   # of a condition's largest coefficient: what may be missing; rounding repairs it or not


def _function(terms: dict[Monomial, int], count: int, by: float) -> tuple[Any, Any]:
    """A polynomial times a factor, and its gradient, as functions of an array."""
    powers = numpy.array([e[:count] for e in terms], dtype=float).reshape(len(terms), count)
    factors = numpy.array([float(c) * by for c in terms.values()])
    slopes = []
    for i in range(count):
        used = powers[:, i] > 0
        lower = powers[used].copy()
        lower[:, i] -= 1
        slopes.append((factors[used] * powers[used, i], lower))

    def value(x: Any) -> float:
        return float(factors @ (x ** powers).prod(axis=1))

    def gradient(x: Any) -> Any:
        return numpy.array([f @ (x ** p).prod(axis=1) for f, p in slopes])
    return value, gradient


def optima(problem: Problem, sign: int, starts: list[list[float]],
           box: list[tuple[float, float]]) -> Optional[list[list[float]]]:
    """The allowed points to which the starts lead, the best first; None without scipy."""
    if minimize is None:
        return None
    count = problem.variables
    largest = max([abs(c) for c in problem.objective.values()] + [1])
    value, gradient = _function(problem.objective, count, sign / largest)
    conditions = []
    for c in problem.conditions:
        f, g = _function(c.terms, count, 1 / max(abs(v) for v in c.terms.values()))
        conditions.append({"type": "eq" if c.equality else "ineq", "fun": f, "jac": g})
    found = []
    for start in starts:
        try:
            x = minimize(value, numpy.array(start), jac=gradient, constraints=conditions, bounds=box, method="SLSQP",
                         options=OPTIONS).x
        except (ValueError, FloatingPointError):
            continue
        missing = [abs(c["fun"](x)) if c["type"] == "eq" else -c["fun"](x) for c in conditions]
        if max(missing, default=0.0) <= ALLOWED:
            found.append((value(x), [float(v) for v in x]))
    return [x for _, x in sorted(found)]
