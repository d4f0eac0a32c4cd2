"""`gapfile sum`: the bounds of the sum of two filed polynomials over one region, in the models' units.

The proved call judges both pairs and compares the regions; where it refuses, or names, maps or units differ, nothing is
added and it is said why.
"""
from __future__ import annotations

import argparse
from pathlib import Path
from typing import Any, Callable, Optional

from . import proved
from .adding_sheet import sum_page
from .commands import polynomial_text
from .decimals import fraction
from .explain import ADVICE, RULES, explain
from .judged import Judged, judged, streams_in
from .one_region import on_one_region, same_models
from .outcome import Outcome
from .progress import Say
from .reading import Condition, Problem, Refusal, read_problem
from .statuses import DONE, REFUSED, UsageError
from .summed import TOGETHER, Summed, check_sum, how_added, why_not
from .text import DEFAULT_NAMES
from .writing import write_file


def run_sum(arguments: argparse.Namespace, say: Say) -> Outcome:
    """Asks the proved call, and then for the units; a sheet is written only where the two can be added."""
    folders = [arguments.first, arguments.second]
    streams = [streams_in(folder) for folder in folders]
    say("asking for the sum")
    call = proved.added(streams[0], streams[1])
    if isinstance(call, Refusal) and call.number != 15:
        return Outcome(REFUSED, _refused(call, folders, streams), data={"accepted": False, "refusal": call.line()})
    first, second = (judged(folder, three, say) for folder, three in zip(folders, streams))
    summed = _summed(first, second, call)
    if isinstance(summed, Refusal):
        return Outcome(REFUSED, _refused(summed, folders, streams), data={"accepted": False, "refusal": summed.line()})
    check_sum(summed)
    if arguments.output:
        write_file(Path(arguments.output), sum_page(summed).encode())
    lines = sum_lines(summed) + ([f"written: {arguments.output}"] if arguments.output else [])
    return Outcome(DONE, lines, data=_data(summed, arguments.output))


def _summed(first: Judged, second: Judged, call: proved.Added | Refusal) -> Summed | Refusal:
    """The sum of two accepted pairs. Where the conditions that were sent differ, and the models' do not, the call is
    asked again with the same ones in both. Raises UsageError where the models have no sum."""
    if isinstance(call, Refusal):
        if why_not(first, second) or not same_models(first.figures, second.figures):
            return call
        for streams in on_one_region(first.streams, second.streams):
            again = proved.added(streams[0], streams[1])
            if not isinstance(again, Refusal):
                return Summed((first, second), streams, again)
        return call
    why = why_not(first, second)
    if why:
        raise UsageError(f"{first.folder} and {second.folder} cannot be added: {why}")
    return Summed((first, second), (first.streams, second.streams), call)


def _refused(refusal: Refusal, folders: list[str], streams: list[list[bytes]]) -> list[str]:
    """A refusal of the call: of one of the pairs, or because the regions differ."""
    if refusal.number == 15:
        problems = [read_problem(three[0]) for three in streams]
        return [refusal.line(), RULES[15], *difference(problems[0], problems[1], folders), ADVICE[15]]
    at = refusal.stream // 3
    own = Refusal(refusal.number, refusal.stream % 3, refusal.place, refusal.key)
    problem, low, high = streams[at]
    lines = explain(own, problem, low, high)
    return [refusal.line(), f"in {folders[at]}: {lines[1]}", *lines[2:]]


def difference(first: Problem, second: Problem, folders: list[str]) -> list[str]:
    """In which conditions two regions differ."""
    if first.variables != second.variables:
        return [f"{folders[0]} has {first.variables} variables and {folders[1]} has {second.variables}"]
    if len(first.conditions) != len(second.conditions):
        return [f"{folders[0]} has {len(first.conditions)} conditions and {folders[1]} has {len(second.conditions)}"]
    return [f"condition {k} is {_condition(a)} in {folders[0]} and {_condition(b)} in {folders[1]}"
            for k, (a, b) in enumerate(zip(first.conditions, second.conditions), 1)
            if a.equality != b.equality or list(a.terms.items()) != list(b.terms.items())]


def _condition(condition: Condition) -> str:
    return f"{polynomial_text(condition.terms, DEFAULT_NAMES)} {'=' if condition.equality else '>='} 0"


def sum_lines(summed: Summed) -> list[str]:
    """The sum in the models' units, and where it comes from."""
    unit = f" {summed.parts[0].unit}" if summed.parts[0].unit else ""
    lines = [f"{q.words} {q.decimal}{unit}{'' if q.is_exact else ' (rounded outward)'}" for q in summed.quoted]
    if summed.empty:
        lines = ["no point meets all the conditions: bounds cross, so there is no figure to quote"]
    else:
        low, high = summed.bounds
        lines.append(f"exactly at least {fraction(low)} and at most {fraction(high)}")
    for part in summed.parts:
        assert part.verdict.lower is not None and part.verdict.upper is not None
        lines.append(f"  {part.name}: at least {fraction(part.verdict.lower / part.factor)}, at most "
                     f"{fraction(part.verdict.upper / part.factor)}")
    if summed.together:
        lines.append(TOGETHER)
    return [*lines, f"the proved call on the streams: {summed.call.line}", how_added(summed)]


def _data(summed: Summed, written: Optional[str]) -> dict[str, Any]:
    return {
        "accepted": True, "empty": summed.empty, "unit": summed.parts[0].unit,
        "figures": {q.name: {"decimal": q.decimal, "exact": str(q.exact), "rounded": not q.is_exact}
                    for q in summed.quoted},
        "parts": [{"folder": part.folder, "factor": part.factor, "lower": str(part.verdict.lower),
                   "upper": str(part.verdict.upper)} for part in summed.parts],
        "stream": {"line": summed.call.line, "rules": summed.call.rules, "conditions exchanged": summed.together},
        "written": written,
    }


def add_sum(command: Callable[[str, str], argparse.ArgumentParser]) -> None:
    made = command("sum", "add the bounds of two filed polynomials over one region, in the models' units")
    made.add_argument("first", metavar="DIR1", help="a folder with three streams, with or without model and manifest")
    made.add_argument("second", metavar="DIR2", help="another one, over the same region")
    made.add_argument("-o", "--output", metavar="SHEET", help="write a sheet for the sum too, one page of HTML")
    made.set_defaults(run=run_sum)
