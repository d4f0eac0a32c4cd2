"""The manifest of a folder: what is needed to read the stream's figures in the model's units, and how they were made.

It is read as untrusted input: whatever it holds, the error names the entry. What it says of factor and variables is
believed only after the model was stated again with it.
"""
from __future__ import annotations

from dataclasses import dataclass
from fractions import Fraction
from typing import Optional

from .entries import Entry, EntryError, read_json
from .restating import Scaled

NAME_OF_FILE = "manifest.json"
MOST_BYTES = 1 << 20
MADE = ("date", "gapfile", "Python", "solver", "gapcheck", "replay", "found", "SHA-256", "published", "commit", "kit")
SIDES = ("lower", "upper")


class ManifestError(EntryError):
    """A manifest that cannot be read; the sentence names the entry."""


@dataclass(frozen=True)
class Manifest:
    """What is read of a manifest. Lists by side have nothing at one that is not claimed."""
    factor: int
    variables: list[Scaled]
    points: list[Optional[list[Fraction]]]                   # by side, in the stream's variables
    values: list[Optional[Fraction]]                         # what is said to be attained there, in the model's units
    filed: list[Optional[Fraction]]                          # the bounds that are said to be filed, likewise
    relaxations: list[str]
    made: dict[str, str]                                     # how, when and with what it was made
    sides: tuple[int, ...] = (0, 1)                          # those that are claimed


def read_manifest(data: bytes) -> Manifest:
    """The manifest of these bytes. Raises ManifestError."""
    top = read_json(data, NAME_OF_FILE, MOST_BYTES, ManifestError)
    variables = top.get("variables").items(1, 8)
    claimed, sides = _sides(top.get("sides"))
    points = [side.get("attained", True) for side in sides]
    made = top.get("made", True)
    return Manifest(
        factor=top.get("factor").whole(),
        variables=[Scaled(v.get("name").variable(), v.get("in the stream").variable(), v.get("middle").number(),
                          v.get("half").number(above=0)) for v in variables],
        points=[[x.number() for x in p.get("point").items(len(variables), len(variables))] if p.there else None
                for p in points],
        values=[p.get("value").number() if p.there else None for p in points],
        filed=[side.get("filed").number() if side.get("filed", True).there else None for side in sides],
        relaxations=[side.get("relaxation").decimal() if k in claimed else "" for k, side in enumerate(sides)],
        made={word: made.get(word).words() for word in MADE if made.there and made.get(word, True).there},
        sides=claimed)


def _sides(entry: Entry) -> tuple[tuple[int, ...], list[Entry]]:
    """Which sides are there, and both in their order; one that is not there has no entries."""
    found = entry.items(1, 2)
    if len(found) == 2:
        return (0, 1), found
    word = found[0].get("side")
    if word.value not in SIDES:
        raise word.wrong("is neither lower nor upper")
    side = SIDES.index(word.value)
    other = Entry(f"{entry.name} not claimed", {}, ManifestError)
    return (side,), [found[0], other] if side == 0 else [other, found[0]]
