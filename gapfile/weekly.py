"""`gapfile week`: the pairs of a week in one file, and the report of the proved call on it as a table with names.

week.bin has no names. They stand beside it, in week.names, each with the SHA-256 of its record; a name is shown only
for the bytes that it was given to. Nor has it units: figures in those of a model are shown for the pairs whose folders
are named, after their models were stated again.
"""
from __future__ import annotations

import argparse
import re
import struct
from fractions import Fraction
from pathlib import Path
from typing import Any, Callable, Optional

from . import proved
from .decimals import counted, decimal
from .explain import ADVICE, RULES
from .figures import Figures
from .filing import digest
from .inputs import read
from .judged import judged, streams_in
from .outcome import Outcome
from .progress import Say
from .reading import Refusal
from .statuses import DONE, REFUSED, UsageError
from .writing import write_file

LENGTHS = struct.Struct("<HHH")
MOST_PAIRS, LONGEST_STREAM = 64, 65_535
NAMED = re.compile(r"([0-9a-f]{64})  (.*)")
LONGEST_NAME = 80
HEADS = ("", "name", "lower", "upper", "", "in the model's units")
Names = list[tuple[str, str]]            # the hash of a record and its name, in the order of the records


def run_week(arguments: argparse.Namespace, say: Say) -> Outcome:
    """Packs folders, or reads a packed week; and in either case asks for the report."""
    folders, target = arguments.folders, Path(arguments.output or "")
    if bool(arguments.check) == bool(arguments.output) or not arguments.check and not folders:
        raise UsageError("give folders and -o FILE to pack them, or --check FILE")
    if target.suffix == ".names":
        raise UsageError(f"{target} has the suffix of the names; name a file as week.bin")
    if len(folders) > MOST_PAIRS:
        raise UsageError(f"{len(folders)} folders; a week has at most {MOST_PAIRS} pairs")
    week = read(arguments.check) if arguments.check else b""
    streams = [streams_in(folder) for folder in folders]
    records = [packed(folder, three) for folder, three in zip(folders, streams)]
    found = [judged(folder, three, say).figures for folder, three in zip(folders, streams)]
    names = [(digest(record), _name(folder, figures)) for record, folder, figures in zip(records, folders, found)]
    figures = {value: one for (value, _), one in zip(names, found) if one}
    if arguments.check:
        return _reported(week, names + _read_names(arguments.check), figures, say)
    week = b"".join(records)
    out = _reported(week, names, figures, say)
    write_file(target.with_suffix(".names"), "".join(f"{value}  {name}\n" for value, name in names).encode())
    write_file(target, week)
    out.lines.append(f"written: {target}, and the names in {target.with_suffix('.names')}")
    out.data["written"] = [str(target), str(target.with_suffix(".names"))]
    return out


def packed(folder: str, streams: list[bytes]) -> bytes:
    """The record of a folder: three lengths, and the streams. Raises UsageError where a stream is too long for it."""
    for stream in streams:
        if len(stream) > LONGEST_STREAM:
            raise UsageError(f"{folder} has a stream of {len(stream):,} bytes; a record holds {LONGEST_STREAM:,}")
    return LENGTHS.pack(*map(len, streams)) + b"".join(streams)


def split(week: bytes) -> list[bytes]:
    """The records of a week that the call has read whole."""
    out, at = [], 0
    while at < len(week):
        end = at + LENGTHS.size + sum(LENGTHS.unpack_from(week, at))
        out.append(week[at:end])
        at = end
    return out


def _name(folder: str, figures: Optional[Figures]) -> str:
    """The folder's name, with the title of its model if it has one; a line of letters."""
    own, title = Path(folder).resolve().name, figures.model.title if figures else ""
    shown = f"{own}: {title}" if title else own
    return "".join(letter if letter.isprintable() else "?" for letter in shown)[:LONGEST_NAME]


def _read_names(path: str) -> Names:
    """The names beside a week, each with the hash of its record. Raises UsageError."""
    file = Path(path).with_suffix(".names")
    if path == "-" or not file.exists():
        return []
    out = []
    for number, line in enumerate(read(str(file)).decode("utf-8", "replace").splitlines(), 1):
        match = NAMED.fullmatch(line)
        if not match or not match[2].isprintable():
            raise UsageError(f"{file}: line {number} is no hash and name; take the file away to see the report without")
        out.append((match[1], match[2][:LONGEST_NAME]))
    return out


def _named(records: list[bytes], names: Names) -> list[str]:
    """The name of each record: that at its own place, or the first one given to these bytes; `no name` else."""
    out = []
    for k, record in enumerate(records):
        value = digest(record)
        own = names[k:k + 1] + names
        out.append(next((name for found, name in own if found == value), "no name"))
    return out


def _reported(week: bytes, names: Names, figures: dict[str, Figures], say: Say) -> Outcome:
    """The report on a week as a table."""
    say("asking for the report")
    report = proved.report(week)
    if isinstance(report, Refusal):
        return Outcome(REFUSED, [report.line(), f"{RULES[12]}, at byte {report.place}", ADVICE[12]],
                       data={"accepted": 0, "refusal": report.line()})
    records = split(week)
    named, filed = _named(records, names), [figures.get(digest(record)) for record in records]
    rows = [(str(number), name, *_told(one), _in_units(found))
            for number, (name, one, found) in enumerate(zip(named, report.records, filed), 1)]
    heads = HEADS if any(filed) else HEADS[:-1]
    wide = [max(len(row[k]) for row in (heads, *rows)) for k in range(len(heads))]
    lines = ["  ".join(f"{cell:<{width}}" for cell, width in zip(row, wide)).rstrip() for row in (heads, *rows)]
    refused = len(report.records) - report.accepted
    empty = sum(one.empty for one in report.records)
    lines.append(f"{counted(report.accepted, 'pair')} accepted, {refused} refused"
                 + (f"; {empty} of the accepted empty: no point meets all of its conditions" if empty else ""))
    if report.accepted:
        lines.append(f"every accepted polynomial is at least {report.lower} and at most {report.upper} wherever its "
                     "own conditions hold, in the streams' units")
    pairs = [_data(name, one, found) for name, one, found in zip(named, report.records, filed)]
    return Outcome(REFUSED if refused else DONE, lines, data={"accepted": report.accepted, "pairs": pairs,
                                                              "lower": report.lower, "upper": report.upper})


def _told(one: proved.Reported) -> tuple[str, str, str]:
    """Both bounds of a pair, with decimals rounded outward, and a mark; or its refusal."""
    if one.refusal:
        return "", "", one.refusal.line()
    low, high = Fraction(one.lower), Fraction(one.upper)
    return (f"{one.lower} = {decimal(low, False)}", f"{one.upper} = {decimal(high, True)}",
            "empty: the bounds cross" if one.empty else "")


def _in_units(figures: Optional[Figures]) -> str:
    """The figure of a filing, in its model's units."""
    if not figures or not figures.quoted:
        return ""
    unit = figures.model.head.get("unit", "")
    return ", ".join(f"{q.words} {q.decimal}" for q in figures.quoted[:2]) + (f" {unit}" if unit else "")


def _data(name: str, one: proved.Reported, figures: Optional[Figures]) -> dict[str, Any]:
    if one.refusal:
        return {"name": name, "refusal": one.refusal.line()}
    found = {q.name: q.decimal for q in figures.quoted[:2]} if figures else None
    return {"name": name, "lower": one.lower, "upper": one.upper, "empty": one.empty, "in the model's units": found}


def add_week(command: Callable[[str, str], argparse.ArgumentParser]) -> None:
    made = command("week", "pack up to 64 filed pairs into one file, and report on it")
    made.add_argument("folders", metavar="DIR", nargs="*", help="folders with three streams, in their order; with "
                      "--check those whose names and figures are to be shown")
    made.add_argument("-o", "--output", metavar="FILE", help="the file to write, week.bin; the names go to week.names")
    made.add_argument("--check", metavar="FILE", help="report on a file that was packed before; - reads standard input")
    made.set_defaults(run=run_week)
