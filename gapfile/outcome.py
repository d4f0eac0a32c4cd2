"""What a command has to say when its work is done: its status, lines, and the same as data."""
from __future__ import annotations

from dataclasses import dataclass, field
from typing import Any


@dataclass
class Outcome:
    """A status, lines for standard output, lines for standard error, and data for --json."""
    status: int
    lines: list[str] = field(default_factory=list)
    errors: list[str] = field(default_factory=list)
    data: dict[str, Any] = field(default_factory=dict)
