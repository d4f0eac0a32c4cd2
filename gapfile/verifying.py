"""`verify`: whoever received a folder has everything computed again and compared, each with a line.

Hashes; gapcheck and a second implementation; the model stated again, and the problem compared byte for byte; factor,
map of variables, attained values, decimals and every figure on the sheet.
"""
from __future__ import annotations

import html
import re
from dataclasses import dataclass, field
from pathlib import Path
from typing import Optional

from . import VERSION, exact, selfcheck
from .decimals import counted, fraction
from .expressions import ModelError
from .figures import Figures, figures_of, quoted_lines
from .filing import digest, filed_files
from .manifest import NAME_OF_FILE, Manifest, ManifestError, read_manifest
from .model import Model, parse, read_text
from .programs import Blocks, ProgramError, Verdict, blocks_call, build, check_one, check_pair, judge, reference
from .progress import Say
from .reading import Refusal, read_problem
from .restating import Mismatch
from .statuses import DIFFERS, DISAGREE, DONE, REFUSED, UsageError
from .theorem.statements import figure_file, quoted_in
from .writing import FILES, MODEL, RECORD, SHEET, STREAMS, SUMS, THEOREM, is_plain, streams_for

SUM = re.compile(r"([0-9a-f]{64})  ([A-Za-z0-9_.-]{1,80})")
FIGURE = re.compile(r'data-figure="([a-z ]+)">([^<]*)<')
MOST_BYTES = 1 << 24


@dataclass
class Checks:
    """Lines that say ok or what differs, the status that comes of them, and what was compared, where it got so far."""
    lines: list[str] = field(default_factory=list)
    status: int = DONE
    files: dict[str, bytes] = field(default_factory=dict)
    figures: Optional[Figures] = None

    def check(self, holds: bool, good: str, bad: str, status: int = DIFFERS) -> bool:
        """Adds a line; the first status that is not 0 stays, unless gapcheck refuses."""
        self.lines.append(f"ok: {good}" if holds else f"DIFFERS: {bad}")
        if not holds and (self.status == DONE or status == REFUSED):
            self.status = status
        return holds


def verify(folder: Path, say: Say) -> Checks:
    """All checks of a filed folder. Raises UsageError where there is no such folder, ProgramError without gapcheck."""
    if not folder.is_dir():
        raise UsageError(f"{folder} is no folder")
    checks = Checks()
    say("reading the files")
    files = checks.files = read_files(folder, checks)
    sums_hold(files, checks)
    sides = claimed(files)
    if not all(name in files for name in (*streams_for(sides), MODEL, NAME_OF_FILE)):
        return checks
    streams = [files[name] for name in streams_for(sides)]
    both = len(sides) == 2
    asked, what = ("gapcheck", "the three streams") if both else ("replay", "the problem and its certificate")
    say(f"asking {asked}")
    verdict = judge(streams)
    checker = build(asked)
    who = f"{asked} ({checker.shown}, SHA-256 {checker.digest[:16]}..)"
    checks.check(verdict.accepted, f"{who} accepts {what}", f"{who}: {'; '.join(verdict.lines)}", REFUSED)
    say("asking a second implementation")
    holds, said = second_opinion(streams[0], streams[1], streams[2] if both else None, verdict)
    checks.check(holds, said, said, DISAGREE)
    read = read_words(files, checks)
    if not verdict.accepted or not read:
        return checks
    say("stating the model again")
    try:
        figures = checks.figures = figures_of(streams, verdict, *read)
    except Mismatch as error:
        checks.check(False, "", f"the model, the manifest and problem.bin: {error}")
        return checks
    compare(figures, read[0], files, checks)
    if checks.status == DONE:
        checks.lines += ["all of it holds:", *(f"  {line}" for line in quoted_lines(figures))]
    return checks


def claimed(files: dict[str, bytes]) -> tuple[int, ...]:
    """The sides that the model claims; both where there is none that can be read, which is said elsewhere."""
    try:
        return parse(read_text(files.get(MODEL, b""))).sides
    except ModelError:
        return 0, 1


def needed(sides: tuple[int, ...]) -> tuple[str, ...]:
    """The files of a filing with these sides."""
    own = (*streams_for(sides), *((RECORD,) if len(sides) == 1 else ()))
    return tuple(name for name in FILES if name in own or name not in (*STREAMS, RECORD, THEOREM))


def read_files(folder: Path, checks: Checks) -> dict[str, bytes]:
    """The files of the folder, none through a link, each to a size that no filing has."""
    files: dict[str, bytes] = {}
    for path in sorted(folder.iterdir()):
        if not is_plain(path):
            checks.check(False, "", f"{path.name} is no plain file")
            continue
        with open(path, "rb") as file:
            files[path.name] = file.read(MOST_BYTES)
    sides = claimed(files)
    missing = [name for name in needed(sides) if name not in files]
    of = "a filing" if len(sides) == 2 else f"a filing of the {('lower', 'upper')[sides[0]]} bound alone"
    checks.check(not missing, f"all {len(needed(sides))} files of {of} are there", f"missing: {', '.join(missing)}")
    for name in (*STREAMS, RECORD):
        if name in files and name not in needed(sides):
            checks.check(False, "", f"{name} is there, and is no file of {of}")
    return files


def sums_hold(files: dict[str, bytes], checks: Checks) -> None:
    """SUMS lists every file, and each has its hash."""
    listed: dict[str, str] = {}
    for line in files.get(SUMS, b"").decode("utf-8", "replace").splitlines():
        match = SUM.fullmatch(line)
        if match:
            listed[match[2]] = match[1]
        elif not line.startswith("#"):
            checks.check(False, "", f"SUMS has a line that is no sum: {line[:80]!r}")
    wrong = [name for name, value in listed.items() if name not in files or digest(files[name]) != value]
    beside = [name for name in files if name not in listed and name != SUMS]
    for name in wrong:
        checks.check(False, "", f"{name} does not have the hash that SUMS has")
    for name in beside:
        checks.check(False, "", f"{name} is not in SUMS")
    if not wrong and not beside:
        checks.check(True, f"the hashes of {counted(len(listed), 'file')} are those of SUMS", "")


def second_opinion(problem: bytes, low: bytes, high: Optional[bytes], verdict: Verdict) -> tuple[bool, str]:
    """Whether a second implementation says the same; which one is said too."""
    built = reference()
    if built:
        who, command = "the reference", [str(built), "replay"]
        lines = check_one(problem, low, command).lines if high is None else check_pair(problem, low, high, command)
    else:
        who = "this tool's plain check (the reference is not built)"
        lines = exact.check_lines(problem, low) if high is None else exact.pair(problem, low, high)
    agrees = lines == verdict.lines
    return agrees, f"second: {who} " + ("agrees" if agrees else "DISAGREES: " + "; ".join(lines))


def read_words(files: dict[str, bytes], checks: Checks) -> Optional[tuple[Manifest, Model]]:
    """The manifest and the model."""
    try:
        return read_manifest(files[NAME_OF_FILE]), parse(read_text(files[MODEL]))
    except ManifestError as error:
        checks.check(False, "", str(error))
    except ModelError as error:
        checks.check(False, "", f"{MODEL}: {error}")
    return None


def compare(figures: Figures, manifest: Manifest, files: dict[str, bytes], checks: Checks) -> None:
    """What the files say against what comes of the streams and the model."""
    of = "the model's" if figures.factor == 1 else f"{figures.factor} times the model's"
    checks.check(True, f"problem.bin is the model's problem, byte for byte: its polynomial is {of}, and "
                 + (", ".join(f"{v.name} = {fraction(v.middle)} + {fraction(v.half)}*{v.inner}"
                              for v in figures.variables if not v.same) or "its variables are the model's"), "")
    for words, them in (("left out", figures.restated.left_out), ("widened", figures.restated.widened)):
        if them:
            checks.check(True, f"{words}, so that the region is larger and the bounds hold all the more: "
                               f"{'; '.join(them)}", "")
    for side, bound in figures.bounds.items():
        word, filed = ("lower", "upper")[side], manifest.filed[side]
        checks.check(filed in (None, bound), f"the manifest's {word} bound is {fraction(bound)}",
                     f"the manifest has {filed} as {word} bound, where {fraction(bound)} was accepted")
    for word, reached, said, point in zip(("lower", "upper"), figures.reached, manifest.values, manifest.points):
        if point is not None:
            checks.check(reached is not None and reached.value == said,
                         f"{said} is attained, near the {word} bound, at a point that meets the model's conditions",
                         f"the manifest's point near the {word} bound does not have the value {said} in the region")
    again = remade(figures, files, {name: files[name] for name in files if name not in needed(figures.sides)})
    _compare_module(_module(files), checks)
    _compare_sheet(again[SHEET].decode(), files.get(SHEET, b"").decode("utf-8", "replace"), figures, checks)
    for name in ("problem.txt", "verdict.txt", "blocks.svg", *((RECORD,) if figures.not_claimed else ()), SUMS):
        checks.check(files.get(name) == again[name], f"{name} is what is written of it",
                     f"{name} is not what gapfile writes")
    if THEOREM in files:
        _compare_theorem(figures, files, checks)


def remade(figures: Figures, files: dict[str, bytes], more: dict[str, bytes]) -> dict[str, bytes]:
    """All files of a filing, made from its streams, model and manifest, from further files, and with the sheet's
    checker."""
    solved = {name: files[name] for name in (*streams_for(figures.sides), MODEL, NAME_OF_FILE)}
    return filed_files(figures, _blocks(files[STREAMS[0]]), solved, more, _module(files))


def _module(files: dict[str, bytes]) -> Optional[bytes]:
    """The checker that stands in the sheet, if any."""
    return selfcheck.module_in(files.get(SHEET, b"").decode("utf-8", "replace"))


def _compare_theorem(figures: Figures, files: dict[str, bytes], checks: Checks) -> None:
    """The figures that the theorem quotes against the sheet's, and then the file to the letter."""
    wanted, found = [q.decimal for q in figures.quoted], files[THEOREM].decode("utf-8", "replace")
    checks.check(quoted_in(found) == wanted, f"{THEOREM} quotes {', '.join(wanted) or 'no figure'}, as the sheet does",
                 f"{THEOREM} quotes {', '.join(quoted_in(found)) or 'nothing'}, where {', '.join(wanted) or 'nothing'} "
                 "comes of the files")
    checks.check(found == figure_file([files[name] for name in streams_for(figures.sides)], figures),
                 f"{THEOREM} is, to the letter, what is written of these files; `gapfile theorem --check` asks Coq",
                 f"{THEOREM} is not, to the letter, what gapfile writes of these files")


def _compare_module(module: Optional[bytes], checks: Checks) -> None:
    """The checker that stands in the sheet, with the one that is built here, if any."""
    here = selfcheck.built()
    if module is not None:
        told = f"the checker in the sheet has SHA-256 {digest(module)}"
        built = ", as the one built here" if here else "; none is built here to compare it with (tools/wasm)"
        checks.check(here in (None, module), told + built, f"{told}, and the one built here has another")


def _blocks(problem: bytes) -> Blocks:
    """The blocks by replay, or where that is not there by the plain check."""
    try:
        found = blocks_call(problem)
    except ProgramError:
        closed = exact.closure(read_problem(problem))
        found = Blocks(len({(j, n) for j, numbers in enumerate(closed.blocks) for n in numbers}), closed.rounds,
                       read_problem(problem).rule, closed.blocks)
    assert not isinstance(found, Refusal)                    # gapcheck accepted the problem
    return found


def _compare_sheet(again: str, sheet: str, figures: Figures, checks: Checks) -> None:
    """Every figure on the sheet, and then the page to the letter."""
    wanted, found = dict(FIGURE.findall(again)), FIGURE.findall(sheet)
    for name, value in wanted.items():
        said = [text for word, text in found if word == name]
        checks.check(said == [value], f"the sheet's {name}: {html.unescape(value)}",
                     f"the sheet's {name} is {' and '.join(said) or 'missing'}, where {value} comes of the files")
    other = figures.made.get("gapfile", VERSION)
    checks.check(again == sheet, "the sheet is, to the letter, what is written of these files",
                 "the sheet is not, to the letter, what gapfile writes of these files"
                 + ("" if other == VERSION else f" (it was made by gapfile {other}, this is {VERSION})"))
