"""`gapfile adjust`: the bounds of a filed polynomial after changes of its coefficients, and within their tolerances.

The lower bound is that of the proved call. It takes lower certificates alone; the upper one is the same call's on the
pair with its sign turned (mirroring).
"""
from __future__ import annotations

import argparse
from dataclasses import dataclass
from fractions import Fraction
from pathlib import Path
from typing import Any, Callable, Optional

from . import proved
from .changes import MOST_CHANGES, Change, Sent, blank_table, read_change, read_table, sent
from .commands import ONE, WidthError, polynomial_text
from .decimals import counted, digits_for, fraction
from .explain import ADVICE, RULES, explain
from .expressions import ModelError, Work
from .figures import Quoted
from .inputs import read
from .judged import Judged, affine_text, judged, streams_in
from .mirroring import turned_certificate, turned_problem
from .model import read_text
from .outcome import Outcome
from .programs import ProgramError
from .progress import Say
from .reading import Problem, Refusal, read_problem
from .restating import Scaled
from .statuses import DONE, REFUSED, UsageError
from .text import DEFAULT_NAMES
from .writing import write_file


@dataclass(frozen=True)
class Adjusted:
    """A folder, its changes, what was sent, and both bounds of the stream that the proved call gave, as stated."""
    of: Judged
    variables: list[Scaled]
    changes: list[Change]
    sent: Sent
    said: tuple[str, str]

    @property
    def before(self) -> tuple[Fraction, Fraction]:
        assert self.of.verdict.lower is not None and self.of.verdict.upper is not None
        return self.of.verdict.lower / self.of.factor, self.of.verdict.upper / self.of.factor

    @property
    def bounds(self) -> tuple[Fraction, Fraction]:
        """The bounds in the model's units, with the constant; the upper one was asked for with its sign turned."""
        low, high = Fraction(self.said[0]), -Fraction(self.said[1])
        return (low + self.sent.constant) / self.of.factor, (high + self.sent.constant) / self.of.factor

    @property
    def quoted(self) -> list[Quoted]:
        low, high = self.bounds
        digits = digits_for(high - low, low, high)
        return [Quoted("lower", "at least", low, False, digits), Quoted("upper", "at most", high, True, digits)]


def run_adjust(arguments: argparse.Namespace, say: Say) -> Outcome:
    """Asks for both bounds after the changes; with --blank, prints a table to be filled in."""
    streams = streams_in(arguments.folder)
    found = judged(arguments.folder, streams, say)
    if found.verdict.refusal:
        return Outcome(REFUSED, explain(found.verdict.refusal, streams[0], streams[1], streams[2]),
                       data={"accepted": False, "refusal": found.verdict.refusal.line()})
    problem = read_problem(streams[0])
    variables = found.figures.variables if found.figures else [
        Scaled(name, name, Fraction(0), Fraction(1)) for name in DEFAULT_NAMES[:problem.variables]]
    names = [v.name for v in variables]
    if arguments.blank:
        bound = found.figures.model.bound if found.figures else {e: Fraction(c) for e, c in problem.objective.items()}
        lines = blank_table(bound or {}, names)
        return Outcome(DONE, lines, data={"table": lines})
    changes = _changes(arguments, names)
    made_of = sent(changes, variables, found.factor)
    try:
        data = made_of.encoded()
    except ValueError as error:
        raise UsageError(f"{error}; give smaller changes") from None
    say("asking for the moved bounds")
    said = [proved.adjusted(streams[0], streams[1], data), _upper(streams, data)]
    for answer in said:
        if isinstance(answer, Refusal):
            return Outcome(REFUSED, _refused(answer, problem, variables, len(made_of.terms)),
                           data={"accepted": False, "refusal": answer.line()})
    made = Adjusted(found, variables, changes, made_of, (str(said[0]), str(said[1])))
    if arguments.output:
        write_file(Path(arguments.output), data)
    lines = adjusted_lines(made) + ([f"written: {arguments.output}"] if arguments.output else [])
    return Outcome(DONE, lines, data=_data(made, arguments.output))


def _changes(arguments: argparse.Namespace, names: list[str]) -> list[Change]:
    """The changes of the command line and of the table. Raises UsageError."""
    work, out = Work(), []
    for text in arguments.changes:
        try:
            out.append(read_change(text, 1, names, work))
        except ModelError as error:
            raise UsageError(f"`{text}`: {str(error).removeprefix('line 1, ')}") from None
    if arguments.table:
        try:
            out += read_table(read_text(read(arguments.table)), names, work)
        except ModelError as error:
            raise UsageError(f"{arguments.table}: {error}") from None
    if not out:
        raise UsageError("give changes, as 0.02*a*b or 'a^2 +- 0.001', or a table of them with --table; --blank prints "
                         "one to be filled in")
    return out


def _upper(streams: list[bytes], data: bytes) -> str | Refusal:
    """The moved lower bound of the pair with its sign turned. Changes count by their size, so theirs need not be."""
    try:
        return proved.adjusted(turned_problem(streams[0]), turned_certificate(streams[2]), data)
    except WidthError as error:
        raise ProgramError(f"the upper bound cannot be asked for: with its sign turned {error}") from None


def _refused(refusal: Refusal, problem: Problem, variables: list[Scaled], count: int) -> list[str]:
    """A refusal of the call on a pair that is accepted: of the changes, or for want of a box."""
    if refusal.number == 16:
        missing = [v for i, v in enumerate(variables) if not _has_box(problem, i)]
        return [refusal.line(), RULES[16], *(f"{v.name}: no inequality of problem.bin is 1 - {v.inner}^2 >= 0"
                                             for v in missing), ADVICE[16]]
    return [refusal.line(), f"{counted(count, 'change')} of the stream, where {MOST_CHANGES} are allowed, each of "
                            "degree 32 at most", "what to do: change fewer coefficients at a time"]


def _has_box(problem: Problem, index: int) -> bool:
    """Whether an inequality is exactly 1 - x^2 for the variable of this index; to explain refusal 16."""
    square = tuple(2 * int(k == index) for k in range(8))
    return any(not c.equality and c.terms == {ONE: 1, square: -1} for c in problem.conditions)


def adjusted_lines(made: Adjusted) -> list[str]:
    """The bounds after the changes, what was sent, and what the call said."""
    unit, within = f" {made.of.unit}" if made.of.unit else "", any(c.tolerance is not None for c in made.changes)
    lines = []
    if made.of.verdict.empty:
        lines.append("no point meets all the conditions: the bounds cross, so there is no figure to quote")
    else:
        for q, was in zip(made.quoted, made.before):
            moved = q.exact - was
            lines.append(f"{q.words} {q.decimal}{unit}{'' if q.is_exact else ' (rounded outward)'}, moved by "
                         f"{fraction(moved)} to exactly {fraction(q.exact)}")
        if within:
            lines.append("this holds for every polynomial within the tolerances")
    lines += shown_changes(made)
    lines.append(f"the proved call on the stream: adjusted {made.said[0]}; with its sign turned, for the upper bound: "
                 f"adjusted {made.said[1]}")
    return lines


def shown_changes(made: Adjusted) -> list[str]:
    """What each change of the model's coefficients does to the stream's."""
    inner = [v.inner for v in made.variables]
    maps = ", ".join(affine_text(v) for v in made.variables if not v.same)
    of = "the model's polynomial" if made.of.factor == 1 else f"{made.of.factor} times the model's polynomial"
    lines = [f"in the stream, which has {of}{' with ' + maps if maps else ''}:"]
    for change in made.changes:
        terms = polynomial_text(change.in_stream(made.variables, made.of.factor), inner)
        lines.append(f"  {change.text} is {terms}{'' if change.tolerance is None else ', each term up to that size'}")
    found = made.sent
    if found.constant:
        lines.append(f"  the constant {fraction(found.constant)} moves both bounds by itself, and is not sent")
    rounded = "" if found.exact == found.covered else f", rounded outward from {fraction(found.exact)}"
    lines.append(f"  sent: {counted(len(found.terms), 'change')} whose sizes add up to {found.covered}{rounded}")
    return lines


def _data(made: Adjusted, written: Optional[str]) -> dict[str, Any]:
    inner = [v.inner for v in made.variables]
    return {
        "accepted": True, "empty": made.of.verdict.empty, "unit": made.of.unit,
        "figures": {} if made.of.verdict.empty else {
            q.name: {"decimal": q.decimal, "exact": str(q.exact), "before": str(was), "rounded": not q.is_exact}
            for q, was in zip(made.quoted, made.before)},
        "changes": [{"text": change.text, "tolerance": change.tolerance is not None,
                     "stream": polynomial_text(change.in_stream(made.variables, made.of.factor), inner)}
                    for change in made.changes],
        "stream": {"factor": made.of.factor, "lower": made.said[0], "upper turned": made.said[1],
                   "constant": str(made.sent.constant),
                   "sent": [{"monomial": list(e[:len(inner)]), "exact": str(exact), "d": d}
                            for e, exact, d in made.sent.terms]},
        "written": written,
    }


def add_adjust(command: Callable[[str, str], argparse.ArgumentParser]) -> None:
    made = command("adjust", "say how far changed coefficients move the bounds of a filed polynomial")
    made.add_argument("folder", metavar="DIR", help="a folder that `file` or `solve` wrote, or one with three streams")
    made.add_argument("changes", metavar="CHANGE", nargs="*", help="what is added to the polynomial, as 0.02*a*b, or a "
                      "tolerance, as 'a^2 +- 0.001'; one that begins with a minus sign stands behind --")
    made.add_argument("--table", metavar="FILE", help="changes and tolerances, one a line; - reads standard input")
    made.add_argument("--blank", action="store_true", help="print a table with all coefficients, to be filled in")
    made.add_argument("-o", "--output", metavar="FILE", help="write what was sent, 12 bytes a change, as C takes it")
    made.set_defaults(run=run_adjust)
