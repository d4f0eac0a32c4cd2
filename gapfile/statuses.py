"""Exit statuses, and which error ends with which: the one table. Only a refusal ends with 1."""
from __future__ import annotations

import traceback
from pathlib import Path

from .expressions import ModelError
from .entries import EntryError
from .problem import LimitError
from .programs import ProgramError, Verdict
from .reading import Refused
from .restating import Mismatch
from .solver import NoSolver
from .solving import NoCertificate
from .text import TextError
from .writing import OutputError

DONE, REFUSED, USAGE, NOT_FOUND, DISAGREE, DIFFERS, FAULT, INTERRUPTED = 0, 1, 2, 3, 4, 5, 70, 130
STATUSES = ("Exit status: 0 accepted or done, 1 refused, 2 usage, a file or program that cannot be used, or a model "
            "beyond a limit, 3 no certificate found, 4 the second implementation disagrees, 5 a filing is not what its "
            "files say, 70 a fault of gapfile, 130 interrupted.")


class UsageError(Exception):
    """A wrong argument or a file that cannot be read."""


class NotAccepted(Exception):
    """gapcheck, or replay for one side, refused the bytes: nothing is filed."""

    def __init__(self, verdict: Verdict, judge: str = "gapcheck") -> None:
        super().__init__(f"{judge} refused what was made, and nothing is written: " + "; ".join(verdict.lines))


TABLE: tuple[tuple[type[BaseException], int], ...] = (
    (NotAccepted, REFUSED),
    (UsageError, USAGE), (ModelError, USAGE), (LimitError, USAGE), (EntryError, USAGE), (TextError, USAGE),
    (OutputError, USAGE), (ProgramError, USAGE), (NoSolver, USAGE), (OSError, USAGE),
    (NoCertificate, NOT_FOUND),
    (Mismatch, DIFFERS),
    (KeyboardInterrupt, INTERRUPTED),
)


def status_of(error: BaseException) -> tuple[int, str]:
    """The status of an error, and the line that says it."""
    for kind, status in TABLE:
        if isinstance(error, kind):
            return status, _line(error)
    if isinstance(error, Refused):                           # gapcheck read what this tool's reader refuses
        return FAULT, f"this is a fault of gapfile: it refuses what gapcheck reads: {error}: {error.refusal.why}"
    frames = traceback.extract_tb(error.__traceback__)
    where = f" ({Path(frames[-1].filename).name}, line {frames[-1].lineno})" if frames else ""
    said = str(error).splitlines()[:1]
    return FAULT, (f"this is a fault of gapfile: {type(error).__name__}{': ' + said[0][:200] if said else ''}{where}; "
                   "nothing was filed. Please report it with the input; -v shows where it happened")


def _line(error: BaseException) -> str:
    if isinstance(error, KeyboardInterrupt):
        return "interrupted; a folder that was to be written is as it was, or whole"
    if isinstance(error, OSError):
        return f"{error.filename}: {error.strerror}" if error.filename else str(error.strerror or error)
    return str(error)
