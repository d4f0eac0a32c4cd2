"""The start of the program. Signals that end it are interrupts, also while modules are loaded: what was begun is taken
away, and one line says so."""
from __future__ import annotations

import signal
import sys

INTERRUPTED = 130


def start() -> int:
    """Runs the command line."""
    for number in (signal.SIGTERM, signal.SIGHUP):
        signal.signal(number, signal.default_int_handler)
    try:
        from .command import main
        return main()
    except KeyboardInterrupt:
        print("gapfile: interrupted", file=sys.stderr)
        return INTERRUPTED
