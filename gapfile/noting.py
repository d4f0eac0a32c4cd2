"""`gapfile note` and `gapfile notes`: the office's notes in the certificates of a folder.

A filing stays to the letter what it is: the certificates with notes stand in a folder of their own beside it,
DIR.notes, which is not sent along. The office's proved call judges them and hands the notes back; without them a
certificate is, byte for byte, that of the filing.
"""
from __future__ import annotations

import argparse
from dataclasses import dataclass
from pathlib import Path
from typing import Any, Callable

from . import proved
from .decimals import counted
from .explain import explain
from .inputs import read
from .judged import streams_in
from .notes import NoteError, Placed, note_bytes, placed, put_in, texts, without_notes
from .outcome import Outcome
from .programs import ProgramError, check_one
from .progress import Say
from .reading import Refusal
from .restating import Mismatch
from .statuses import DONE, REFUSED, UsageError
from .writing import STREAMS, OutputError, is_plain, make_folder, write_file, write_folder

SIDES = {"lower": 1, "upper": 2}                 # which of the three streams
KEPT = ".notes"                                  # behind the name of the folder


@dataclass(frozen=True)
class Noted:
    """A certificate that may have notes, where it was read, and what the office's call said of it."""
    path: Path
    stream: bytes
    said: proved.Office

    @property
    def texts(self) -> list[Placed]:
        return texts(placed(self.stream))


def kept_in(folder: str) -> Path:
    """The folder beside the filing that has its notes."""
    place = Path(folder) if Path(folder).name not in ("", "..") else Path(folder).resolve()
    return place.with_name(place.name + KEPT)


def noted_path(folder: str, side: str) -> Path:
    """The certificate with the notes, or that of the folder where there are none yet."""
    name = STREAMS[SIDES[side]]
    kept = kept_in(folder) / name
    return kept if kept.exists() else Path(folder) / name


def office(problem: bytes, path: Path, stream: bytes) -> Noted | list[str]:
    """What the office's call says of a certificate, or the lines of its refusal. The notes that it hands back are those
    that are found here, and the strict check says the same bound without them: else a program is at fault."""
    said = proved.office(problem, stream)
    if isinstance(said, Refusal):
        return _explained(said, problem, path, stream)
    strict = check_one(problem, without_notes(stream))
    same = strict.accepted and said.line.startswith(strict.lines[0].replace("check ", "office ") + " notes ")
    if not same or said.notes != [note for _, note in placed(stream)]:
        raise ProgramError(f"the office's call and the strict check differ on {path}: {said.line}; {strict.lines[0]}")
    return Noted(path, stream, said)


def _explained(refusal: Refusal, problem: bytes, path: Path, stream: bytes) -> list[str]:
    """Lines on a refusal of the office's call; 8 and 9 are told of the certificate without its notes."""
    if refusal.number in (8, 9):
        strict = without_notes(stream)
        own = check_one(problem, strict).refusal
        if own:
            return [f"{path}: {refusal.line()}, and without its notes:", *explain(own, problem, strict, b"")]
    lines = explain(refusal, problem, stream, b"")
    return [f"{path}: {lines[0]}", *lines[1:]]


def belongs(folder: str, streams: list[bytes], side: str, noted: Noted) -> None:
    """Raises Mismatch where a certificate that was kept with notes is not, without them, the folder's own."""
    own = Path(folder) / STREAMS[SIDES[side]]
    if noted.path != own and without_notes(noted.stream) != without_notes(streams[SIDES[side]]):
        raise Mismatch(f"{noted.path} is, without its notes, not {own}: that was made anew; move {noted.path.parent} "
                       "away, and put in again what still holds")


def run_note(arguments: argparse.Namespace, say: Say) -> Outcome:
    """Puts a note in, has the office's call read it back, and writes the certificate with it."""
    streams = streams_in(arguments.folder)
    problem, path = streams[0], noted_path(arguments.folder, arguments.on)
    say("asking the office's call")
    before = office(problem, path, read(str(path)))
    if isinstance(before, list):
        return Outcome(REFUSED, [*before, "no note was put in"], data={"accepted": False})
    belongs(arguments.folder, streams, arguments.on, before)
    try:
        stream = put_in(before.stream, arguments.before, note_bytes(arguments.text))
    except NoteError as error:
        raise UsageError(str(error)) from None
    target = kept_in(arguments.folder) / path.name
    after = office(problem, target, stream)
    if isinstance(after, list):
        return Outcome(REFUSED, [*after, "no note was put in"], data={"accepted": False})
    if without_notes(stream) != without_notes(before.stream):
        raise ProgramError(f"with a note {path} would be another certificate")
    make_folder(target.parent)
    write_file(target, stream)
    lines = [*_lines(arguments.on, after), f"written: {target}; without its notes it is "
             f"{'as it was' if path == target else str(path) + ', byte for byte'}"]
    return Outcome(DONE, lines, data={**_data({arguments.on: after}), "written": str(target)})


def run_notes(arguments: argparse.Namespace, say: Say) -> Outcome:
    """Reads the notes of both certificates back; with --strict, writes the three streams without them."""
    streams = streams_in(arguments.folder)
    found: dict[str, Noted] = {}
    for side in SIDES:
        path = noted_path(arguments.folder, side)
        say(f"asking the office's call about {path}")
        said = office(streams[0], path, read(str(path)))
        if isinstance(said, list):
            return Outcome(REFUSED, said, data={"accepted": False})
        belongs(arguments.folder, streams, side, said)
        found[side] = said
    lines = [line for side, noted in found.items() for line in _lines(side, noted)]
    data = _data(found)
    if arguments.strict:
        strict = [streams[0], *(without_notes(noted.stream) for noted in found.values())]
        _write_strict(Path(arguments.strict), strict)
        lines.append(f"written: {arguments.strict}, the three files without notes")
        data["written"] = arguments.strict
    return Outcome(DONE, lines, data=data)


def _write_strict(folder: Path, streams: list[bytes]) -> None:
    """Puts the three streams into a new folder, or one that has them already. Raises OutputError where something else
    stands there."""
    wanted = dict(zip(STREAMS, streams))
    if folder.is_symlink() or folder.exists() and not folder.is_dir():
        raise OutputError(f"{folder} is there and is no folder; name another one")
    files = sorted(folder.iterdir()) if folder.exists() else []
    held = {file.name: read(str(file)) if is_plain(file) else b"" for file in files}
    if held and held != wanted:
        raise OutputError(f"{folder} is there and holds other files; name another folder")
    if not held:
        write_folder(folder, wanted)


def _lines(side: str, noted: Noted) -> list[str]:
    """The verdict of the office's call, and the notes."""
    shown = [f"  before line {one.line}: {one.text}" for one in noted.texts]
    return [f"{side}: {noted.said.line}", *(shown or ["  no notes"])]


def _data(found: dict[str, Noted]) -> dict[str, Any]:
    return {"accepted": True, "sides": {side: {
        "file": str(noted.path), "line": noted.said.line, "bound": noted.said.bound, "notes": len(noted.said.notes),
        "texts": [{"before line": one.line, "text": one.text} for one in noted.texts]}
        for side, noted in found.items()}}


def add_notes(command: Callable[[str, str], argparse.ArgumentParser]) -> None:
    made = command("note", "put a note of the office into a certificate, in a folder beside the filing")
    made.add_argument("folder", metavar="DIR", help="a folder with three streams; it stays as it is")
    made.add_argument("text", metavar="TEXT", help="a line of text")
    made.add_argument("--on", choices=tuple(SIDES), default="lower", help="on which certificate (lower)")
    made.add_argument("--before", metavar="LINE", type=int, help="before which line of `gapfile decode` of the strict "
                                                                 "certificate; the last one where none is named")
    made.set_defaults(run=run_note)
    made = command("notes", "read the office's notes back from the certificates of a folder")
    made.add_argument("folder", metavar="DIR", help="a folder with streams, and DIR.notes beside it or notes within")
    made.add_argument("--strict", metavar="OUT", help="write a folder with the three streams without notes")
    made.set_defaults(run=run_notes)
