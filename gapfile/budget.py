"""How much is tried. Work is estimated from sizes, so that the answer is the same from run to run however busy the
machine is; the clock counts only where the user gave a time."""
from __future__ import annotations

from dataclasses import dataclass, field
from time import monotonic
from typing import Optional

from .solver import Answer, Cost, Solver

# of work: for the relaxations of one problem, for rounding one side of one, and for all together
RELAXING, ROUNDING_ONE, TOGETHER = 12.0, 20.0, 60.0


@dataclass
class Budget:
    """What was spent: estimated seconds of work, and the clock's."""
    seconds: Optional[float] = None
    work: float = 0.0
    began: float = field(default_factory=monotonic)

    @property
    def late(self) -> bool:
        """Whether the user's time is up."""
        return self.seconds is not None and monotonic() - self.began > self.seconds

    def rounding(self, size: int) -> None:
        """Charges one try to round a basis 0 of this size."""
        self.work += 0.01 + 1e-6 * size ** 3

    def over(self, share: float) -> bool:
        """Whether so much work was done, or the time is up."""
        return self.work > share or self.late


@dataclass
class Metered:
    """A solver whose programs are charged to a budget."""
    solver: Solver
    budget: Budget

    def solve(self, sizes: list[int], cost: Cost, equations: list[Cost], sides: list[float]) -> Answer:
        entries, count = sum(map(len, equations)), len(equations)
        squares = sum(size * size for size in sizes)
        # fitted to csdp 6.2.0 and to the Python around it on programs of up to 400 equations
        self.budget.work += 0.02 + 3e-5 * entries + 1e-8 * count ** 3 + 2e-9 * count ** 2 * squares
        return self.solver.solve(sizes, cost, equations, sides)
