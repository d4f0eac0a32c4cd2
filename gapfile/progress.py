"""What is being done, on standard error, with the time since the start, for whatever takes longer than a second."""
from __future__ import annotations

import sys
import threading
from time import monotonic
from types import TracebackType
from typing import Callable, Optional

Say = Callable[[str], None]
PATIENCE = 1.0


def quiet(_: str) -> None:
    """Says nothing."""


class Progress:
    """`with Progress() as say`: each step is named as it begins. Nothing is shown in the first second; then all steps
    so far are, and every further one as it begins. A standard error that is closed or full is no reason to stop."""

    def __init__(self, patience: Optional[float] = PATIENCE) -> None:
        self._kept: Optional[list[str]] = []
        self._start = monotonic()
        self._lock = threading.Lock()
        self._timer = None if patience is None else threading.Timer(patience, self._show)

    def __enter__(self) -> Say:
        if self._timer:
            self._timer.daemon = True
            self._timer.start()
        return self._say

    def __exit__(self, kind: Optional[type[BaseException]], error: Optional[BaseException],
                 trace: Optional[TracebackType]) -> None:
        if self._timer:
            self._timer.cancel()

    def _say(self, text: str) -> None:
        line = f"gapfile: {monotonic() - self._start:.1f} s: {text}"
        with self._lock:
            if self._kept is None:
                complain(line)
            else:
                self._kept.append(line)

    def _show(self) -> None:
        with self._lock:
            for line in self._kept or []:
                complain(line)
            self._kept = None


def complain(line: str) -> None:
    """A line on standard error, if that can be written."""
    try:
        print(line, file=sys.stderr, flush=True)
    except (OSError, ValueError):
        pass
