"""What a command is given: files, standard input, folders with three streams."""
from __future__ import annotations

import sys
from pathlib import Path
from typing import Optional, Sequence

from .expressions import ModelError
from .model import parse, read_text
from .statuses import UsageError
from .text import NAME
from .writing import MODEL, STREAMS, streams_for

PATHS = "a folder, three files, or a problem and one certificate"
MOST_BYTES = 1 << 26


def read(path: str) -> bytes:
    """The bytes of a file, or with - of standard input. Raises UsageError."""
    try:
        if path == "-":
            found = sys.stdin.buffer.read(MOST_BYTES + 1)
        else:
            with open(path, "rb") as file:
                found = file.read(MOST_BYTES + 1)
    except OSError as error:
        raise UsageError(f"{path}: {error.strerror or error}") from None
    if len(found) > MOST_BYTES:
        raise UsageError(f"{path} has more than {MOST_BYTES:,} bytes")
    return found


def names_of(text: Optional[str]) -> Optional[list[str]]:
    if text is None:
        return None
    names = text.replace(",", " ").split()
    if not all(NAME.fullmatch(n) for n in names) or len(set(names)) != len(names) or not 1 <= len(names) <= 8:
        raise UsageError("--names takes 1 to 8 different names, with commas between them")
    return names


def names_in(folder: Path) -> tuple[str, ...]:
    """The streams of a folder: those of the sides that its model claims; where it has no model, of those that are
    there. Raises UsageError or ModelError."""
    if (folder / MODEL).exists():
        try:
            return streams_for(parse(read_text(read(str(folder / MODEL)))).sides)
        except ModelError as error:
            raise UsageError(f"{folder / MODEL}: {error}") from None
    there = [side for side in (0, 1) if (folder / STREAMS[1 + side]).exists()]
    return streams_for(there or (0, 1))


def streams_of(paths: Sequence[str]) -> tuple[bytes, bytes, Optional[bytes]]:
    """Problem, first and second certificate from a folder, from three files, or from a problem and one certificate."""
    if len(paths) == 1:
        if not Path(paths[0]).is_dir():
            raise UsageError(f"{paths[0]} is no folder; give {PATHS}")
        paths = [str(Path(paths[0]) / name) for name in names_in(Path(paths[0]))]
    if len(paths) not in (2, 3):
        raise UsageError(f"give {PATHS}")
    if list(paths).count("-") > 1:
        raise UsageError("standard input can be one of the files only")
    found = [read(path) for path in paths]
    return found[0], found[1], found[2] if len(found) == 3 else None


def beside(paths: Sequence[str], name: str) -> Optional[bytes]:
    """A file of the folder that was named, None where there is none."""
    file = Path(paths[0]) / name
    return read(str(file)) if len(paths) == 1 and file.exists() else None
