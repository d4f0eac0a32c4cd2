"""What a solved model is reported and recorded as: lines for the reader, a manifest for the file."""
from __future__ import annotations

import json
import os
import platform
import time
from fractions import Fraction
from typing import Any, Optional

from . import VERSION
from .decimals import counted, decimal, digits_for, fraction
from .model import Model
from .points import Attained
from .problem import stream_names
from .programs import BUILT, build, commit, kit
from .solver import STATUS
from .solving import WORDS, Side, Solved, far, far_off, higher

HEADS = ("", "relaxation", "filed", "lost", "attained", "off by", "rows", "wide entries")


def point_text(solved: Solved, model: Model, attained: Attained) -> str:
    """The point in the model's variables."""
    values = solved.posed.model_point(attained.point)
    return ", ".join(f"{name} = {fraction(value)}" for name, value in zip(model.names, values))


def report_lines(solved: Solved, model: Model) -> list[str]:
    """Relaxation, filed, lost and attained for each side, in the model's units; rows and blocks."""
    factor = solved.posed.factor
    blocks, rounds = counted(solved.blocks.count, "block"), counted(solved.blocks.rounds, "round")
    lines = [f"degree {solved.degree}; {blocks}, {rounds}; {solved.sizes}"]
    lines += solved.posed.widened
    if factor != 1:
        lines.append(f"the objective was multiplied by {factor} to whole numbers; the figures below are divided by it")
    gap = solved.sides[1].bound - solved.sides[0].bound if len(solved.sides) == 2 else Fraction(0)
    digits = max(digits_for(gap / factor), 9)
    table = [HEADS] + [_row(side, factor, digits) for side in solved.sides]
    wide = [max(len(row[k]) for row in table) for k in range(len(HEADS))]
    lines += ["  ".join(f"{cell:<{width}}" for cell, width in zip(row, wide)).rstrip() for row in table]
    for side in solved.sides:
        lines += _remarks(solved, model, side)
    if far(solved):
        given = "the bases that the model gives prove no more; with more monomials, or none given, they may"
        lines.append("either better points were not found, or " + (given if solved.posed.given else (
            f"degree {solved.degree} gives no more; {higher(solved.posed, solved.degree + 2)}")))
    return lines


def _row(side: Side, factor: int, digits: int) -> tuple[str, ...]:
    attained = side.attained
    return (WORDS[side.side], f"{side.relaxation / factor:.9g}", decimal(side.bound / factor, side.side == 1, digits),
            f"{_lost(side, factor):.2g}", f"{float(attained.value / factor):.9g}" if attained else "none found",
            decimal(side.off / factor, True, digits) if attained else "", str(side.rows), str(side.wide))


def _remarks(solved: Solved, model: Model, side: Side) -> list[str]:
    """What csdp said, the attained point, and whether the relaxation itself is far from it."""
    word, factor = WORDS[side.side], solved.posed.factor
    if side.attained is None:
        return [f"{word}: {STATUS[side.status]}; no allowed point was found by search"]
    lines = [f"{word}: {STATUS[side.status]}; attained at {point_text(solved, model, side.attained)}"]
    if far_off(side, factor):
        distance = abs(side.relaxation - float(side.attained.value)) / factor
        lines.append(f"{word}: the relaxation itself is {distance:.2g} from the attained value")
    return lines


def _lost(side: Side, factor: int) -> float:
    """What rounding lost of the relaxation."""
    return abs(float(side.bound) - side.relaxation) / factor


def made_with(solver: str, judge: str = "gapcheck") -> dict[str, str]:
    """When and with what a filing is made: date, versions, and which gapcheck (or replay, for one side) is asked, with
    its hash."""
    checker = build(judge)
    made = {"date": today(), "gapfile": VERSION, "Python": platform.python_version(), "solver": solver,
            judge: checker.shown, "found": checker.found, "SHA-256": checker.digest,
            "published": "a published one" if checker.published else "none of the published ones"}
    if checker.found == BUILT:
        made.update({word: said for word, said in (("commit", commit()), ("kit", kit())) if said})
    return made


def today() -> str:
    """The date of a filing; builds that are to be the same again say theirs in SOURCE_DATE_EPOCH."""
    epoch = os.environ.get("SOURCE_DATE_EPOCH", "")
    return time.strftime("%Y-%m-%d", time.gmtime(int(epoch)) if epoch.isdecimal() else time.localtime())


def manifest(solved: Solved, model: Model, made: dict[str, str]) -> bytes:
    """What is needed to read the figures in the model's units, and how they were found, as JSON."""
    posed = solved.posed
    inner = stream_names(model.names, posed.middle, posed.half)
    data: dict[str, Any] = {
        "title": model.title,
        "factor": posed.factor,
        "meaning": "the model's polynomial is the objective of problem.bin divided by the factor",
        "variables": [{"name": name, "is": f"{fraction(m)} + {fraction(h)}*{x}", "in the stream": x,
                       "middle": fraction(m), "half": fraction(h)}
                      for name, x, m, h in zip(model.names, inner, posed.middle, posed.half)],
        "conditions": posed.origins,
        "widened": posed.widened,
        "degree": solved.degree,
        "rule": posed.problem.rule,
        "order": posed.problem.order,
        "bases by hand": sorted(posed.given),
        "blocks": solved.blocks.count,
        "rounds": solved.blocks.rounds,
        "made": made,
        "sides": [_side(side, posed.factor) for side in solved.sides],
    }
    return (json.dumps(data, indent=2, ensure_ascii=False) + "\n").encode()


def _side(side: Side, factor: int) -> dict[str, Any]:
    return {
        "side": WORDS[side.side], "filed": fraction(side.bound / factor), "relaxation": repr(side.relaxation / factor),
        "lost": f"{_lost(side, factor):.3g}", "slack": side.slack,
        "status": STATUS[side.status], "rows": side.rows, "wide entries": side.wide,
        "attained": _attained(side.attained, factor),
    }


def _attained(attained: Optional[Attained], factor: int) -> Optional[dict[str, Any]]:
    if attained is None:
        return None
    return {"value": fraction(attained.value / factor), "point": [fraction(x) for x in attained.point]}
