"""`gapfile window`: gaps of a test line from standard input; after each the widest of the last 32 and its age.

The gaps held stand in a file, oldest first. What the proved call says of a list of arrivals depends on the last 32
accepted alone, so it is asked about those of the file and the new ones behind them. The file is written before anything
is printed, so that a reader who leaves loses nothing.
"""
from __future__ import annotations

import argparse
import os
import re
import sys
from dataclasses import dataclass, field
from fractions import Fraction
from pathlib import Path
from typing import Any, Callable, Iterator, Optional

from . import proved
from .decimals import decimal
from .outcome import Outcome
from .progress import Say, complain
from .statuses import DONE, REFUSED, USAGE, UsageError
from .window_plot import as_svg
from .writing import write_file

HELD = 32
HEADER = "gaps held by gapfile window, oldest first"
GAP = re.compile(r"(?:gap\s+)?(-?[0-9]{1,40})(?:/([0-9]{1,40})|\.([0-9]{1,18}))?")
EMPTY = re.compile(r"(?:gap\s+)?empty")
STATE = "window.gaps"
MOST_BYTES = 1 << 16                     # of a state
AT_A_TIME = proved.MOST_ARRIVALS - HELD

Gap = tuple[int, int]


@dataclass
class Run:
    """What a run has so far: the gaps held and the widest of them, how many lines were read, the status that comes of
    them, and what is to be told."""
    held: list[Gap]
    widest: Optional[proved.Widest] = None
    read: int = 0
    status: int = DONE
    told: list[dict[str, Any]] = field(default_factory=list)


def read_gap(text: str) -> Optional[Gap]:
    """A gap as gapcheck prints it, a fraction, a whole number or a decimal; `empty` is 0 over 0. None for other text,
    and for numbers that no arrival can carry."""
    if EMPTY.fullmatch(text):
        return 0, 0
    match = GAP.fullmatch(text)
    if not match:
        return None
    digits = match[3] or ""
    gap = int(match[1] + digits), int(match[2]) if match[2] else 10 ** len(digits)
    return gap if -(1 << 63) <= gap[0] < 1 << 63 and gap[1] < 1 << 64 else None


def read_state(path: Path) -> list[Gap]:
    """The gaps held, none where there is no file yet. Raises UsageError."""
    try:
        with open(path, "rb") as file:
            lines = file.read(MOST_BYTES).decode("utf-8", "replace").splitlines()
    except FileNotFoundError:
        return []
    except OSError as error:
        raise UsageError(f"{path}: {error.strerror or error}") from None
    gaps = [read_gap(line) for line in lines[1:]]
    if lines[:1] != [HEADER] or len(gaps) > HELD or None in gaps:
        raise UsageError(f"{path} is no file of gaps that are held; name another one with --state, or take it away to "
                         "begin anew")
    return [gap for gap in gaps if gap]


def write_state(path: Path, held: list[Gap]) -> None:
    write_file(path, "".join([HEADER + "\n", *(f"{a}/{b}\n" for a, b in held)]).encode())


def arrived(held: list[Gap], gaps: list[Gap]) -> tuple[list[Gap], list[Optional[proved.Widest]]]:
    """The gaps held after these arrivals, and what the proved call says of each. Raises UsageError where it refuses one
    that is said to be held."""
    outcomes = proved.window([*held, *gaps])
    if None in outcomes[:len(held)]:
        raise UsageError("the file of gaps that are held has one that is refused; take it away to begin anew")
    kept = held + [gap for gap, outcome in zip(gaps, outcomes[len(held):]) if outcome]
    return kept[-HELD:], outcomes[len(held):]


def chunks() -> Iterator[list[str]]:
    """The lines of standard input as they come: all that are there, up to so many, and then the next."""
    source, rest = sys.stdin.buffer, b""
    read = getattr(source, "read1", source.read)
    while True:
        data = read(1 << 16)
        rest += data
        *lines, rest = rest.split(b"\n") if data else [rest, b""] if rest else [b""]
        for at in range(0, len(lines), AT_A_TIME):
            yield [line.decode("utf-8", "replace").strip() for line in lines[at:at + AT_A_TIME]]
        if not data:
            return


def run_window(arguments: argparse.Namespace, say: Say) -> Outcome:
    """Takes the gaps in, keeps the state and the plot, and tells after each."""
    state = Path(arguments.state)
    run = Run(read_state(state))
    run.widest = arrived(run.held[:-1], run.held[-1:])[1][0] if run.held else None
    show = not arguments.quiet and not arguments.json
    draw(run, arguments.svg)
    for texts in chunks():
        say("asking for the widest gap")
        lines = take(run, texts, state)
        draw(run, arguments.svg)
        if show and lines:
            show = _print(lines, run)
    widest = run.widest
    return Outcome(run.status, [], data={
        "outcomes": run.told, "held": [f"{a}/{b}" for a, b in run.held], "state": str(state),
        "widest": widest and {"gap": widest.gap, "age": widest.age}, "plot": arguments.svg})


def draw(run: Run, path: Optional[str]) -> None:
    """Writes the plot of the gaps held, where one is asked for."""
    if path:
        gaps = [Fraction(a, b) for a, b in run.held]
        write_file(Path(path), as_svg(gaps, run.widest.age if run.widest else 0).encode())


def take(run: Run, texts: list[str], state: Path) -> list[str]:
    """Takes some lines in: the state is on the disk when this returns what there is to print."""
    numbered: list[tuple[int, str, Gap]] = []
    for text in texts:
        run.read += 1
        gap = read_gap(text) if text else None
        if gap is not None:
            numbered.append((run.read, text, gap))
        elif text:
            complain(f"gapfile: line {run.read}: `{text[:60]}` is no gap and is passed over; expected one as 73/50, "
                     "146.005 or `gap 73/50`")
            run.status = USAGE
    if not numbered:
        return []
    if read_state(state) != run.held:
        raise UsageError(f"{state} was changed by another run, so line {numbered[0][0]} and those behind it are not "
                         "taken in")
    run.held, outcomes = arrived(run.held, [gap for _, _, gap in numbered])
    run.widest = next((outcome for outcome in reversed(outcomes) if outcome), run.widest)
    write_state(state, run.held)
    out = []
    for (number, text, _), outcome in zip(numbered, outcomes):
        if outcome is None:
            complain(f"gapfile: line {number}: `{text[:60]}` is refused with 14: a gap is from 0 to below 2^48, over 1 "
                     "to below 2^32")
            run.status = run.status or REFUSED
            out.append("refused 14")
            run.told.append({"line": number, "refusal": 14})
        else:
            out.append(f"widest {outcome.gap} = {decimal(Fraction(outcome.gap), True)} age {outcome.age}")
            run.told.append({"line": number, "widest": outcome.gap, "age": outcome.age})
    return out


def _print(lines: list[str], run: Run) -> bool:
    """Prints lines at once; false where nobody reads any more, and then the gaps are still taken in."""
    try:
        print("\n".join(lines), flush=True)
        return True
    except OSError as error:
        if not isinstance(error, BrokenPipeError):
            complain(f"gapfile: standard output: {error.strerror}; the gaps are taken in without")
            run.status = USAGE
        os.dup2(os.open(os.devnull, os.O_WRONLY), sys.stdout.fileno())       # so that nothing is tried again at exit
        return False


def add_window(command: Callable[[str, str], argparse.ArgumentParser]) -> None:
    made = command("window", "tell the widest of the last 32 gaps and its age, after each gap of standard input")
    made.add_argument("--state", metavar="FILE", default=STATE, help=f"where the gaps held are kept ({STATE}); one run "
                                                                     "at a time may use it")
    made.add_argument("--svg", metavar="FILE", help="write a plot of the gaps held at the end")
    made.set_defaults(run=run_window)
