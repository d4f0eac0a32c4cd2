"""`gapfile tighter`: of two certificates for one problem the one that supersedes, and why."""
from __future__ import annotations

import argparse
from fractions import Fraction
from pathlib import Path
from typing import Any, Callable

from . import proved
from .decimals import decimal, digits_for, fraction, is_exact
from .explain import explain
from .inputs import read
from .outcome import Outcome
from .programs import Verdict, check_one
from .progress import Say
from .reading import Refusal
from .statuses import DONE, REFUSED, UsageError
from .writing import write_file

ORDER = ("first", "second")


def run_tighter(arguments: argparse.Namespace, say: Say) -> Outcome:
    """Writes the bytes that the proved call hands back; a refusal writes nothing."""
    paths = [arguments.problem, arguments.first, arguments.second]
    if paths.count("-") > 1:
        raise UsageError("standard input can be one of the files only")
    target = Path(arguments.output)
    for path in paths:
        if path != "-" and target.exists() and Path(path).exists() and target.samefile(path):
            raise UsageError(f"{path} would be written over; name another file with -o")
    problem, first, second = (read(path) for path in paths)
    say("asking which one supersedes")
    found = proved.tighter(problem, first, second)
    if isinstance(found, Refusal):
        return Outcome(REFUSED, explain(found, problem, first, second) + [f"{target} is not written"],
                       data={"accepted": False, "refusal": found.line()})
    verdicts = [check_one(problem, certificate) for certificate in (first, second)]
    write_file(target, found)
    chosen = int(found != first)
    lines = [f"{word}: {_stated(verdict)}" for word, verdict in zip(ORDER, verdicts)]
    lines += [f"the {ORDER[chosen]} supersedes: {_why(verdicts, chosen, first == second)}",
              f"written: {target}, the bytes of {paths[1 + chosen]}"]
    return Outcome(DONE, lines, data={"accepted": True, "supersedes": ORDER[chosen], "written": str(target),
                                      **{word: _data(verdict) for word, verdict in zip(ORDER, verdicts)}})


def _stated(verdict: Verdict) -> str:
    """What the check says of a certificate."""
    if verdict.refusal:
        return "; ".join(verdict.lines)
    bound, up = _bound(verdict)
    word, side = ("upper", "up") if up else ("lower", "down")
    note = "" if is_exact(bound) else f" (rounded {side})"
    return f"{word} {verdict.lines[0].split()[2]} = {decimal(bound, up)}{note}"


def _bound(verdict: Verdict) -> tuple[Fraction, bool]:
    """The bound of an accepted certificate, and whether it is an upper one."""
    if verdict.lower is not None:
        return verdict.lower, False
    assert verdict.upper is not None                         # one certificate has one bound
    return verdict.upper, True


def _why(verdicts: list[Verdict], chosen: int, same: bool) -> str:
    """Why this one: the other is refused, or the bounds compare so."""
    if same:
        return "both are the same bytes"
    if verdicts[1 - chosen].refusal:
        return f"the {ORDER[1 - chosen]} is refused"
    (mine, up), (other, _) = _bound(verdicts[chosen]), _bound(verdicts[1 - chosen])
    if mine == other:
        return "both state the same bound, and then it is the first"
    by, digits = abs(mine - other), digits_for(abs(mine - other))
    shown = decimal(by, False, digits) + ("" if is_exact(by, digits) else "..")
    return f"its {'upper bound is smaller' if up else 'lower bound is larger'}, by {fraction(by)} = {shown}"


def _data(verdict: Verdict) -> dict[str, Any]:
    if verdict.refusal:
        return {"accepted": False, "refusal": verdict.refusal.line()}
    bound, up = _bound(verdict)
    return {"accepted": True, "side": "upper" if up else "lower", "bound": verdict.lines[0].split()[2],
            "reduced": str(bound)}


def add_tighter(command: Callable[[str, str], argparse.ArgumentParser]) -> None:
    made = command("tighter", "keep the certificate that supersedes, of two for one problem, and say why")
    made.add_argument("problem", metavar="PROBLEM", help="the problem of both; - reads standard input")
    made.add_argument("first", metavar="FIRST", help="a certificate; it comes back where both are equal")
    made.add_argument("second", metavar="SECOND", help="another one, of the same side")
    made.add_argument("-o", "--output", metavar="OUT", required=True, help="the file to write")
    made.set_defaults(run=run_tighter)
