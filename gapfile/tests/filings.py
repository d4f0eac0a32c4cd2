"""Filings made by hand, for tests that need a model and no solver: linear polynomials over a box, with exact bounds.

With u between -1 and 1, 2 x (1 + u) = (1 + u)^2 + (1 - u^2), so C x u >= -|C| has two rows of weight |C| for D = 2."""
from __future__ import annotations

import json
from dataclasses import dataclass, field
from fractions import Fraction
from pathlib import Path

from gapfile.commands import CERTIFICATE, ONE, Monomial, write_command
from gapfile.problem import encode_problem
from gapfile.reading import Condition, Problem

Range = tuple[int, int]


def monomial(index: int, exponent: int = 1) -> Monomial:
    """A power of the variable of this index, from 0."""
    return tuple(exponent * int(k == index) for k in range(8))


@dataclass
class Linear:
    """constant + the sum of coefficient x variable, over ranges; the stream has the factor times that."""
    names: list[str]
    ranges: list[Range]
    coefficients: list[Fraction]
    constant: Fraction = Fraction(0)
    factor: int = 1
    unit: str = ""
    title: str = ""
    sent: list[Condition] = field(default_factory=list)          # further conditions of the stream

    def value(self, point: list[Fraction]) -> Fraction:
        """The polynomial at a point of the model."""
        return self.constant + sum(c * x for c, x in zip(self.coefficients, point))

    @property
    def bounds(self) -> tuple[Fraction, Fraction]:
        """The least and the largest value, at corners of the box."""
        ends = [sorted((c * low, c * high)) for c, (low, high) in zip(self.coefficients, self.ranges)]
        return (self.constant + sum(a for a, _ in ends), self.constant + sum(b for _, b in ends))

    @property
    def maps(self) -> list[tuple[Fraction, Fraction]]:
        return [(Fraction(low + high, 2), Fraction(high - low, 2)) for low, high in self.ranges]

    def model(self) -> str:
        lines = [f"title {self.title}"] if self.title else []
        lines += [f"unit {self.unit}"] if self.unit else []
        lines += [f"var {name} in [{low}, {high}]" for name, (low, high) in zip(self.names, self.ranges)]
        terms = " + ".join([f"({self.constant})", *(f"({c})*{n}" for c, n in zip(self.coefficients, self.names))])
        return "\n".join([*lines, f"bound {terms}", ""])

    def streams(self) -> list[bytes]:
        """Problem, lower and upper certificate."""
        n = len(self.names)
        scaled = [int(self.factor * c * half) for c, (_, half) in zip(self.coefficients, self.maps)]
        middle = int(self.factor * self.value([m for m, _ in self.maps]))
        objective = {e: c for e, c in ((ONE, middle), *((monomial(k), c) for k, c in enumerate(scaled))) if c}
        box = [Condition(False, {ONE: 1, monomial(k, 2): -1}) for k in range(n)]
        bases = [[ONE, *(monomial(k) for k in range(n))], *([ONE] for _ in box), *([ONE] for _ in self.sent)]
        problem = encode_problem(Problem(n, objective, box + self.sent, bases))
        return [problem, *(self._certificate(side, scaled, middle) for side in (0, 1))]

    def _certificate(self, side: int, scaled: list[int], middle: int) -> bytes:
        bound = middle + (2 * side - 1) * sum(abs(c) for c in scaled)
        out = write_command(CERTIFICATE[0x10], (side, 2, bound, 1))
        for k, c in enumerate(scaled):
            if c:
                sign = (1 if c > 0 else -1) * (1 - 2 * side)
                out += write_command(CERTIFICATE[0x11], (0, abs(c))) + write_command(CERTIFICATE[0x12], (0, 1))
                out += write_command(CERTIFICATE[0x12], (k + 1, sign))
                out += write_command(CERTIFICATE[0x11], (k + 1, abs(c))) + write_command(CERTIFICATE[0x12], (0, 1))
        return out + b"\x13"

    def manifest(self) -> dict[str, object]:
        return {"factor": self.factor, "sides": [{"relaxation": "0"}, {"relaxation": "0"}],
                "variables": [{"name": name, "in the stream": f"u{k}", "middle": str(m), "half": str(h)}
                              for k, (name, (m, h)) in enumerate(zip(self.names, self.maps), 1)]}

    def write(self, folder: Path) -> Path:
        """A folder with the streams, the model and the manifest."""
        folder.mkdir()
        for name, stream in zip(("problem", "low", "high"), self.streams()):
            (folder / f"{name}.bin").write_bytes(stream)
        (folder / "model.gap").write_text(self.model())
        (folder / "manifest.json").write_text(json.dumps(self.manifest()))
        return folder
