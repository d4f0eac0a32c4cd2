"""The figures of a filing, in one place: the sheet, the lines printed and whatever else quotes them is made from here.

All is computed from the bytes that gapcheck accepted, in exact fractions; the manifest gives factor and variables,
which are checked by stating the model again.
"""
from __future__ import annotations

from dataclasses import dataclass
from fractions import Fraction
from typing import Optional

from .decimals import decimal, digits_for, is_exact
from .manifest import Manifest, read_manifest
from .model import Model, parse, read_text
from .polynomials import evaluate
from .problem import encode_problem
from .programs import Verdict
from .reading import Certificate, Problem, read_certificate, read_problem
from .restating import Mismatch, Restated, Scaled, faithful
from .writing import STREAMS


@dataclass(frozen=True)
class Quoted:
    """A figure as it is quoted: its words, its value in the model's units, and the decimal, rounded outward."""
    name: str
    words: str
    exact: Fraction
    up: bool
    digits: int

    @property
    def decimal(self) -> str:
        return decimal(self.exact, self.up, self.digits)

    @property
    def is_exact(self) -> bool:
        return is_exact(self.exact, self.digits)


@dataclass(frozen=True)
class Reached:
    """A point of the model's region, in the model's variables, and the value there in the model's units."""
    point: list[Fraction]
    value: Fraction


SIDES = ("lower", "upper")


@dataclass(frozen=True)
class Figures:
    """All that a filing says."""
    model: Model
    problem: Problem
    certificates: dict[int, Certificate]                     # by side, those that are claimed
    verdict: Verdict
    factor: int
    variables: list[Scaled]
    restated: Restated
    reached: list[Optional[Reached]]                         # by side, none at one that is not claimed
    relaxations: list[str]
    made: dict[str, str]                                     # how, when and with what

    @property
    def as_sent(self) -> bool:
        """Whether the stream has the model's own polynomial and variables."""
        return self.factor == 1 and all(v.same for v in self.variables)

    @property
    def sides(self) -> tuple[int, ...]:
        """The sides that are claimed."""
        return self.model.sides

    @property
    def not_claimed(self) -> str:
        """The side for which there is no certificate, in a word; empty where there are two."""
        return SIDES[1 - self.sides[0]] if len(self.sides) == 1 else ""

    @property
    def judge(self) -> str:
        """The program that decided: gapcheck on a pair, replay on one certificate."""
        return "replay" if self.not_claimed else "gapcheck"

    @property
    def bounds(self) -> dict[int, Fraction]:
        """The bounds in the model's units, by side, those that are claimed."""
        found = {side: (self.verdict.lower, self.verdict.upper)[side] for side in self.sides}
        return {side: bound / self.factor for side, bound in found.items() if bound is not None}

    @property
    def gap(self) -> Optional[Fraction]:
        """The gap in the model's units; none where the bounds cross or one is not claimed."""
        return None if self.verdict.gap is None else self.verdict.gap / self.factor

    @property
    def digits(self) -> int:
        low, high = self.bounds.get(0, Fraction(0)), self.bounds.get(1, Fraction(0))
        return digits_for(Fraction(0) if self.not_claimed else high - low, *self.bounds.values())

    @property
    def quoted(self) -> list[Quoted]:
        """What is quoted; nothing where the bounds cross."""
        if self.verdict.empty:
            return []
        words = {"lower": "at least", "upper": "at most", "gap": "two values differ by at most"}
        values = {**{SIDES[side]: bound for side, bound in self.bounds.items()}, "gap": self.gap}
        return [Quoted(name, words[name], value, name != "lower", self.digits) for name, value in values.items()
                if value is not None]

    @property
    def date(self) -> str:
        return self.model.head.get("date", self.made.get("date", ""))


def figures_of(streams: list[bytes], verdict: Verdict, manifest: Manifest, model: Model) -> Figures:
    """The figures of a problem and of the certificates of the model's sides, which were accepted. Raises Mismatch where
    they are not the model's."""
    problem = read_problem(streams[0])
    certificates = {side: read_certificate(stream, problem, number)
                    for number, (side, stream) in enumerate(zip(model.sides, streams[1:], strict=True), 1)}
    for side, certificate in certificates.items():
        if certificate.side != side:
            raise Mismatch(f"{STREAMS[1 + side]} states the {SIDES[certificate.side]} bound, where the model claims "
                           f"the {SIDES[side]} one")
    if manifest.sides != model.sides:
        raise Mismatch(f"the manifest has {_named(manifest.sides)}, the model claims {_named(model.sides)}")
    restated = faithful(model, manifest.variables, manifest.factor, problem)
    if encode_problem(restated.problem) != streams[0]:
        raise Mismatch("problem.bin is not written in the order in which gapfile writes the model's problem")
    reached = [None if point is None else _reached(model, manifest, point) for point in manifest.points]
    return Figures(model, problem, certificates, verdict, manifest.factor, manifest.variables, restated, reached,
                   manifest.relaxations, manifest.made)


def _named(sides: tuple[int, ...]) -> str:
    return "both sides" if len(sides) == 2 else f"the {SIDES[sides[0]]} side alone"


def filed_figures(streams: list[bytes], verdict: Verdict, manifest: Optional[bytes],
                  model: Optional[bytes]) -> Optional[Figures]:
    """The figures in the model's units, where a folder has a model and a manifest: the model is stated again, so that a
    factor which is not the model's is an error and never a figure. Raises ManifestError, ModelError or Mismatch."""
    if manifest is None or model is None:
        return None
    return figures_of(streams, verdict, read_manifest(manifest), parse(read_text(model)))


def _reached(model: Model, manifest: Manifest, point: list[Fraction]) -> Optional[Reached]:
    """The point in the model's variables, if it meets the model's own conditions, exactly."""
    outer = [v.outer(x) for v, x in zip(manifest.variables, point)]
    assert model.bound is not None
    for v, x in zip(model.variables, outer):
        if v.range and not v.range[0] <= x <= v.range[1]:
            return None
    for where in model.conditions:
        value = evaluate(where.polynomial, outer)
        if value < 0 or where.equality and value:
            return None
    return Reached(outer, evaluate(model.bound, outer))


def quoted_lines(figures: Figures) -> list[str]:
    """The figure in the model's units, in words."""
    if figures.verdict.empty:
        return ["no point meets all the conditions: the bounds cross, so there is no figure to quote"]
    unit = figures.model.head.get("unit", "")
    lines = [f"{q.words} {q.decimal}{' ' + unit if unit else ''}{'' if q.is_exact else ' (rounded outward)'}"
             for q in figures.quoted]
    return lines + ([f"no {figures.not_claimed} bound is claimed"] if figures.not_claimed else [])


def stream_lines(figures: Figures) -> list[str]:
    """What the program that decided printed, named as the stream's."""
    of = "the model's" if figures.factor == 1 else f"{figures.factor} times the model's"
    said = [f"  {line}" for line in figures.verdict.lines]
    return [f"{figures.judge} on the stream, whose polynomial is {of}:", *said]
