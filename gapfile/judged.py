"""A folder whose pair was judged: its streams, the verdict of gapcheck, and the figures in the model's units where it
has a model."""
from __future__ import annotations

from dataclasses import dataclass
from typing import Optional

from .expressions import ModelError
from .figures import Figures, filed_figures
from .inputs import beside, streams_of
from .manifest import NAME_OF_FILE, ManifestError
from .programs import Verdict, gapcheck
from .progress import Say
from .restating import Mismatch, Scaled
from .statuses import UsageError
from .text import DEFAULT_NAMES
from .writing import MODEL


@dataclass(frozen=True)
class Judged:
    """A folder, its three streams, what gapcheck says of them, and the figures of its model, if it has one."""
    folder: str
    streams: list[bytes]
    verdict: Verdict
    figures: Optional[Figures]

    @property
    def name(self) -> str:
        """The folder, with the title of its model."""
        title = self.figures.model.title if self.figures else ""
        return f"{self.folder} ({title})" if title else self.folder

    @property
    def factor(self) -> int:
        return self.figures.factor if self.figures else 1

    @property
    def inner(self) -> list[str]:
        """The names of the stream's variables."""
        return [v.inner for v in self.figures.variables] if self.figures else DEFAULT_NAMES

    @property
    def unit(self) -> str:
        return self.figures.model.head.get("unit", "") if self.figures else ""


def streams_in(folder: str) -> list[bytes]:
    """The three streams of a folder. Raises UsageError."""
    problem, low, high = streams_of([folder])
    if high is None:
        raise UsageError(f"{folder} has one certificate, where a lower and an upper one are asked for")
    return [problem, low, high]


def judged(folder: str, streams: list[bytes], say: Say) -> Judged:
    """The folder with its verdict; where it has a model, that is stated again. Raises Mismatch, ManifestError or
    UsageError, with the folder's name."""
    say(f"asking gapcheck about {folder}")
    verdict = gapcheck(*streams)
    if not verdict.accepted:
        return Judged(folder, streams, verdict, None)
    manifest, model = (beside([folder], name) for name in (NAME_OF_FILE, MODEL))
    if (manifest is None) != (model is None):
        missing = NAME_OF_FILE if manifest is None else MODEL
        raise UsageError(f"{folder} has no {missing}, without which its units are not known")
    try:
        return Judged(folder, streams, verdict, filed_figures(streams, verdict, manifest, model))
    except Mismatch as error:
        raise Mismatch(f"{folder}: {error}") from None
    except ManifestError as error:
        raise ManifestError(f"{folder}: {error}") from None
    except ModelError as error:
        raise UsageError(f"{folder}/{MODEL}: {error}") from None


def affine_text(v: Scaled) -> str:
    """What a variable of the model is in the stream's: `a = 20 + 20*u1`."""
    scaled = v.inner if v.half == 1 else f"{v.half}*{v.inner}"
    return f"{v.name} = {scaled}" if not v.middle else f"{v.name} = {v.middle} + {scaled}"
