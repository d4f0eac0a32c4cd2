"""Numbers as text: decimals rounded outward (a lower bound down, an upper bound and a gap up), and counts."""
from __future__ import annotations

from fractions import Fraction

DIGITS, MOST_DIGITS = 6, 9


def decimal(value: Fraction, up: bool, digits: int = DIGITS) -> str:
    """The decimal with so many digits that is next to the value, above or below; exact ones are shortened."""
    scaled = value * 10 ** digits
    whole = -((-scaled.numerator) // scaled.denominator) if up else scaled.numerator // scaled.denominator
    text = f"{abs(whole):0{digits + 1}d}"
    shown = f"{text[:-digits]}.{text[-digits:]}".rstrip("0").rstrip(".") if digits else text
    return ("-" if whole < 0 else "") + shown


def is_exact(value: Fraction, digits: int = DIGITS) -> bool:
    """Whether so many digits say the value exactly."""
    return Fraction(value * 10 ** digits).denominator == 1


def digits_for(gap: Fraction, *values: Fraction) -> int:
    """How many digits the figures need: six; more where the gap is small, so that it keeps four of them; and up to nine
    where the values have more."""
    digits = DIGITS
    while 0 < gap * 10 ** (digits - 3) < 1:
        digits += 1
    needed = max((len(str(value.denominator - 1)) for value in values if value.denominator > 1), default=0)
    exact = next((d for d in range(DIGITS, MOST_DIGITS) if all(is_exact(value, d) for value in values)), MOST_DIGITS)
    return max(digits, min(needed, exact)) if values else digits


def fraction(value: Fraction) -> str:
    """A reduced fraction, a whole number without its denominator."""
    return str(value)


def counted(number: int, word: str) -> str:
    """A number with its word: 1 block, 2 blocks, 3 symmetries."""
    many = word[:-1] + "ies" if word.endswith("ry") else word + "s"
    return f"{number:,} {word if number == 1 else many}"
