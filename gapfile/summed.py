"""Two filings over one region whose bounds were added: the sums in the models' units, and when there are none.

The proved call adds the streams' bounds. A stream's polynomial is its factor times the model's, so each bound is
divided by its own factor before the two are added here. A point of the streams is one point of both models only where
names and maps agree.
"""
from __future__ import annotations

from dataclasses import dataclass
from fractions import Fraction
from typing import Optional

from .decimals import digits_for
from .figures import Quoted
from .judged import Judged, affine_text
from .programs import ProgramError
from .proved import Added
from .reading import Condition, read_problem

TOGETHER = ("the models have one region, and the conditions sent for it differ; the call was asked with the same ones "
            "in both problems")


@dataclass(frozen=True)
class Summed:
    """Two filings whose bounds were added: the streams that the call was asked about, what it said, and the sums in the
    models' units."""
    parts: tuple[Judged, Judged]
    asked: tuple[list[bytes], list[bytes]]
    call: Added

    @property
    def together(self) -> bool:
        """Whether the call was asked with other conditions than were filed, the same in both."""
        return self.asked != tuple(part.streams for part in self.parts)

    @property
    def conditions(self) -> list[Condition]:
        """The region of the sum, in the streams' variables."""
        return read_problem(self.asked[0][0]).conditions

    @property
    def wider(self) -> list[str]:
        """Which conditions of the models the region does not have, or has wider."""
        found = [_wider(part) for part in self.parts]
        return sorted(found[0] & found[1] if self.together else found[0] | found[1])

    @property
    def empty(self) -> bool:
        return any(part.verdict.empty for part in self.parts)

    @property
    def bounds(self) -> tuple[Fraction, Fraction]:
        low = high = Fraction(0)
        for part in self.parts:
            assert part.verdict.lower is not None and part.verdict.upper is not None
            low, high = low + part.verdict.lower / part.factor, high + part.verdict.upper / part.factor
        return low, high

    @property
    def digits(self) -> int:
        return digits_for(self.bounds[1] - self.bounds[0], *self.bounds)

    @property
    def quoted(self) -> list[Quoted]:
        """What is quoted of the sum; nothing where bounds cross."""
        if self.empty:
            return []
        (low, high), digits = self.bounds, self.digits
        return [Quoted("lower", "at least", low, False, digits), Quoted("upper", "at most", high, True, digits),
                Quoted("gap", "two values differ by at most", high - low, True, digits)]


def _wider(part: Judged) -> set[str]:
    """What of a model's region was not sent, or was sent wider."""
    if part.figures is None:
        return set()
    restated = part.figures.restated
    return {f"without {words}" for words in restated.left_out} | {f"with {words} widened" for words in restated.widened}


def why_not(first: Judged, second: Judged) -> Optional[str]:
    """Why the models of two folders, whose streams have one region, have no sum; None where they have."""
    if first.figures is None and second.figures is None:
        return None
    if first.figures is None or second.figures is None:
        bare = first if first.figures is None else second
        return f"{bare.folder} has no model, so that its units are not known"
    for a, b in zip(first.figures.variables, second.figures.variables):
        if a.name != b.name:
            return f"a variable is called {a.name} in the one and {b.name} in the other"
        if (a.middle, a.half) != (b.middle, b.half):
            return (f"{affine_text(a)} in the one and {affine_text(b)} in the other, so that one point of the streams "
                    "is two points of the models; give both models the same ranges")
    if first.unit != second.unit:
        return f"the unit is {first.unit or 'not named'} in the one and {second.unit or 'not named'} in the other"
    return None


def check_sum(summed: Summed) -> None:
    """The call's sums are those of the bounds that gapcheck told. Raises ProgramError."""
    for word, said in (("lower", summed.call.lower), ("upper", summed.call.upper)):
        bounds = [getattr(part.verdict, word) for part in summed.parts]
        if Fraction(said) != sum(bounds):
            raise ProgramError(f"the {word} sum {said} is not that of the bounds {bounds[0]} and {bounds[1]}")


def how_added(summed: Summed) -> str:
    """How the models' sum comes from the streams'."""
    a, b = (part.factor for part in summed.parts)
    if summed.parts[0].figures is None:
        return "the folders have no models, so these are the sums above"
    if a == b == 1:
        return "the streams' polynomials are the models', so these are the sums above"
    if a == b:
        return f"the streams' polynomials are {a} times the models', so the sums above are these divided by {a}"
    return (f"the streams' polynomials are {a} and {b} times the models', so each bound is divided by its own factor "
            "before the two are added")
