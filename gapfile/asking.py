"""The subcommands that stand on the calls of the requests, together: their examples, and how they are added."""
from __future__ import annotations

import argparse
from typing import Callable

from .adding import add_sum
from .adjusting import add_adjust
from .noting import add_notes
from .superseding import add_tighter
from .weekly import add_week
from .windowing import add_window

EXAMPLES = {
    "tighter": "gapfile tighter examples/two_decks/problem.bin examples/two_decks/low.bin "
               "examples/two_decks_wide/low.bin -o low.bin",
    "sum": "gapfile sum examples/commands/sum/first examples/commands/sum/second -o sum.html",
    "adjust": "gapfile adjust examples/commands/sum/first '0.002*a*b' 'b +- 0.002'",
    "note": "gapfile note two_decks 'seen by A. Weber' --on upper",
    "notes": "gapfile notes examples/commands/notes/noted",
    "week": "gapfile week examples/two_decks examples/bolted_decks -o week.bin",
    "window": "gapfile window --state line1.gaps --svg line1.svg <examples/commands/window/gaps",
}


def add_asking(command: Callable[[str, str], argparse.ArgumentParser]) -> None:
    """Adds them all."""
    for add in (add_tighter, add_sum, add_adjust, add_notes, add_week, add_window):
        add(command)
