"""Notes in a certificate, as bytes: put in between commands, found again, and taken out.

A note of document 02 has 8 bytes. A text is its letters in UTF-8 and a 0, filled up with 0 to a multiple of 8, and
stands in as many notes, one behind another; so of several texts each ends where it ends. Notes of another hand are
shown as what they are: text where they have such a form, else bytes.
"""
from __future__ import annotations

from dataclasses import dataclass

from .commands import CERTIFICATE, Kind, write_command
from .reading import walk

NOTE = CERTIFICATE[0x40]
SIZE = NOTE.length - 1                   # bytes that a note carries
LONGEST_TEXT = 4000                      # letters


class NoteError(Exception):
    """A text that cannot be put in, or a place where a note may not stand."""


@dataclass(frozen=True)
class Placed:
    """A text of notes, and the line of the strict text form before which it stands."""
    line: int
    text: str


def note_bytes(text: str) -> list[bytes]:
    """The notes of a text. Raises NoteError."""
    if not text.strip() or not text.isprintable():
        raise NoteError("a note is a line of letters that can be printed, and not empty")
    if len(text) > LONGEST_TEXT:
        raise NoteError(f"a note of {len(text):,} letters; {LONGEST_TEXT:,} are allowed")
    try:
        data = text.encode("utf-8") + b"\0"
    except UnicodeEncodeError:
        raise NoteError("a note has letters that are no UTF-8") from None
    data += bytes(-len(data) % SIZE)
    return [data[at:at + SIZE] for at in range(0, len(data), SIZE)]


def put_in(certificate: bytes, line: int | None, notes: list[bytes]) -> bytes:
    """The certificate with the notes before a line of its strict text form, behind those that stand there already;
    before its last line where none is named. The certificate is one that the office reads. Raises NoteError."""
    strict = [c for c in walk(certificate, Kind.CERTIFICATE, 1, lambda _: None) if c.layout != NOTE]
    wanted = len(strict) if line is None else line
    if not 2 <= wanted <= len(strict):
        raise NoteError(f"a note may stand before the lines 2 to {len(strict)} of `gapfile decode`, and not before "
                        f"{wanted}")
    at = strict[wanted - 1].place
    return certificate[:at] + b"".join(write_command(NOTE, note=note) for note in notes) + certificate[at:]


def without_notes(certificate: bytes) -> bytes:
    """The strict form of a certificate that the office reads."""
    return b"".join(certificate[c.place:c.place + c.layout.length]
                    for c in walk(certificate, Kind.CERTIFICATE, 1, lambda _: None) if c.layout != NOTE)


def placed(certificate: bytes) -> list[tuple[int, bytes]]:
    """Each note with the line of the strict text form before which it stands."""
    out, line = [], 1
    for command in walk(certificate, Kind.CERTIFICATE, 1, lambda _: None):
        if command.layout == NOTE:
            out.append((line, command.note))
        else:
            line += 1
    return out


def texts(notes: list[tuple[int, bytes]]) -> list[Placed]:
    """What notes say: texts that end with a 0, or the bytes of a note."""
    out: list[Placed] = []
    held: list[bytes] = []
    for k, (line, note) in enumerate(notes):
        held.append(note)
        ends = note.endswith(b"\0")
        last = k + 1 == len(notes) or notes[k + 1][0] != line
        if ends or last:
            out += _said(line, held)
            held = []
    return out


def _said(line: int, held: list[bytes]) -> list[Placed]:
    """The text of notes that go together, or else each as its bytes."""
    data = b"".join(held)
    body = data.rstrip(b"\0")
    try:
        text = body.decode("utf-8")
    except UnicodeDecodeError:
        text = ""
    if text.strip() and text.isprintable() and note_bytes(text) == held:
        return [Placed(line, text)]
    return [Placed(line, f"bytes {note.hex(' ')}") for note in held]
