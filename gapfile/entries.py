"""JSON as untrusted input: entries under their names, each read as what it must be. An error names the entry."""
from __future__ import annotations

import json
import re
from dataclasses import dataclass
from fractions import Fraction
from math import isfinite
from typing import Any, Optional

from .text import NAME

NUMBER = re.compile(r"-?[0-9]{1,2000}(/[0-9]{1,2000})?")


class EntryError(Exception):
    """JSON that cannot be used; the sentence names the entry."""


def read_json(data: bytes, name: str, most: int, error: type[EntryError]) -> "Entry":
    """The entry of a whole file, of at most so many bytes. Raises the error."""
    if len(data) > most:
        raise error(f"{name} has {len(data):,} bytes; {most:,} are allowed")
    try:
        return Entry(name, json.loads(data.decode("utf-8")), error)
    except json.JSONDecodeError as found:
        raise error(f"{name} is no JSON: line {found.lineno}, column {found.colno}: {found.msg}") from None
    except (ValueError, RecursionError):
        raise error(f"{name} is no JSON") from None


@dataclass(frozen=True)
class Entry:
    """An entry under its name; the readers raise its error."""
    name: str
    value: Any
    error: type[EntryError]

    @property
    def there(self) -> bool:
        return self.value is not None

    def wrong(self, why: str) -> EntryError:
        return self.error(f"{self.name} {why}")

    def get(self, key: str, optional: bool = False) -> "Entry":
        if not isinstance(self.value, dict):
            raise self.wrong("is no object")
        if not optional and self.value.get(key) is None:
            raise self.wrong(f"has no `{key}`")
        name = f"{self.name}: {key}" if ":" not in self.name else f"{self.name} {key}"
        return Entry(name, self.value.get(key), self.error)

    def only(self, keys: tuple[str, ...]) -> None:
        """Raises the error where an object has another key."""
        others = [key for key in self.value if key not in keys] if isinstance(self.value, dict) else []
        if others:
            raise self.wrong(f"has `{str(others[0])[:40]}`; expected {', '.join(keys[:-1])} or {keys[-1]}")

    def items(self, least: int, most: int) -> list["Entry"]:
        if not isinstance(self.value, list) or not least <= len(self.value) <= most:
            count = str(least) if least == most else f"{least} to {most}"
            raise self.wrong(f"is no list of {count}")
        return [Entry(f"{self.name} {k}", value, self.error) for k, value in enumerate(self.value, 1)]

    def whole(self) -> int:
        if type(self.value) is not int or not 0 < self.value < 1 << 512:
            raise self.wrong("is no whole number from 1 on")
        return self.value

    def number(self, above: Optional[int] = None) -> Fraction:
        text = str(self.value) if isinstance(self.value, (str, int)) else ""
        if not NUMBER.fullmatch(text) or re.search("/0+$", text):
            raise self.wrong("is no number or fraction")
        if above is not None and Fraction(text) <= above:
            raise self.wrong(f"is not above {above}")
        return Fraction(text)

    def decimal(self) -> str:
        """A float of the solver, as it is shown."""
        try:
            value = float(self.value)
        except (TypeError, ValueError, OverflowError):
            value = float("nan")
        if not isfinite(value):
            raise self.wrong("is no finite number")
        return f"{value:.9g}"

    def real(self, most: float) -> float:
        """A number, not its text, up to a size."""
        value = self.value
        if isinstance(value, bool) or not isinstance(value, (int, float)) or not -most <= value <= most:
            raise self.wrong(f"is no number from {-most:.0e} to {most:.0e}")
        return float(value)

    def variable(self) -> str:
        if not isinstance(self.value, str) or not NAME.fullmatch(self.value):
            raise self.wrong("is no name of a variable")
        return self.value

    def words(self) -> str:
        if not isinstance(self.value, str) or len(self.value) > 300 or not self.value.isprintable():
            raise self.wrong("is no line of words")
        return self.value
