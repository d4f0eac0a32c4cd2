"""What rows may have, and a lone diagonal as rows."""
from __future__ import annotations

from dataclasses import dataclass
from math import isqrt

from .reading import LIMITS

Matrix = dict[tuple[int, int], int]
Factors = dict[int, int]

LARGEST_WEIGHT = 65535


class RoundingError(Exception):
    """The solution could not be rounded in this way."""


class TooManyRows(RoundingError):
    """More rows than a certificate may have: basis 0 has room for what the conditions left."""

    def __init__(self, room: int) -> None:
        taken = LIMITS["rows"] - room
        super().__init__(f"{LIMITS['rows']} rows are allowed, the conditions took {taken}, basis 0 needs more than "
                         f"{room}")


@dataclass(frozen=True)
class Limits:
    """What a row may have: factors of 16 or 32 bits."""
    factor: int

    @staticmethod
    def of(wide: bool) -> "Limits":
        return Limits((1 << 31) - 1 if wide else (1 << 15) - 1)


def single(value: int, limits: Limits, unit: int = 1) -> list[tuple[int, int]]:
    """A lone diagonal, down to a multiple of the unit, as rows (weight, factor); weights are multiples of the unit."""
    out: list[tuple[int, int]] = []
    value, most = value // unit, LARGEST_WEIGHT // unit
    while value:
        if value <= most:
            return out + [(value * unit, 1)]
        w = max(1, -(-value // (limits.factor * limits.factor)))
        l = isqrt(value // w)
        for tried in range(l, max(0, l - 300), -1):
            if value - w * tried * tried <= most:
                l = tried
                break
        out.append((w * unit, l))
        value -= w * l * l
    return out
