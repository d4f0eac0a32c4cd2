"""Models with known optima: how many are filed, how tight, and how long it takes, as a table and two pictures."""
from __future__ import annotations

import csv
import json
import math
import resource
import subprocess
import sys
import tempfile
from dataclasses import dataclass
from fractions import Fraction
from html import escape
from pathlib import Path
from typing import Optional

from .programs import ROOT

MODELS = ROOT / "examples/models"
FLOORS = {"filed": 21, "within 1e-4": 20, "within 1e-6": 14}         # of all models of that folder
WIDTH, ROW, LEFT = 760, 17, 150                                      # of a picture, in points


@dataclass(frozen=True)
class Optimum:
    """A model, its optima as they are known (none where there is none), and where it comes from."""
    name: str
    values: tuple[Optional[float], Optional[float]]
    source: str


@dataclass(frozen=True)
class Outcome:
    """What became of a model: the filed bounds, or what was said in their place; processor time in seconds."""
    optimum: Optimum
    filed: Optional[tuple[Fraction, Fraction]]
    said: str
    degree: int
    rows: tuple[int, ...]
    seconds: float

    @property
    def distances(self) -> list[float]:
        """How far each filed bound is from the optimum, relative to it or to 1."""
        return [abs(float(bound) - value) / max(1.0, abs(value))
                for bound, value in zip(self.filed or (), self.optimum.values) if value is not None]

    @property
    def distance(self) -> float:
        return max(self.distances, default=math.inf)

    def wrong(self, tolerance: float = 1e-8) -> bool:
        """Whether a filed bound is beyond the optimum by more than the table's digits hide."""
        if not self.filed:
            return False
        low, high = self.optimum.values
        return (low is not None and float(self.filed[0]) > low + tolerance * max(1, abs(low))
                or high is not None and float(self.filed[1]) < high - tolerance * max(1, abs(high)))


def optima(folder: Path = MODELS) -> list[Optimum]:
    """The table of a folder, optima.tsv."""
    def number(text: str) -> Optional[float]:
        return None if text == "none" else float(text)
    with (folder / "optima.tsv").open(encoding="utf-8", newline="") as file:
        return [Optimum(row["model"], (number(row["lower"]), number(row["upper"])), row["source"])
                for row in csv.DictReader(file, delimiter="\t")]


def file_model(optimum: Optimum, folder: Path = MODELS) -> Outcome:
    """Files one model by the command line, with a csdp that is really run."""
    with tempfile.TemporaryDirectory(prefix="gapfile") as kept:
        before = resource.getrusage(resource.RUSAGE_CHILDREN)
        command = [sys.executable, "-B", str(ROOT / "gapfile/gapfile"), "file", str(folder / f"{optimum.name}.gap"),
                   "-o", f"{kept}/filed"]
        ran = subprocess.run(command, capture_output=True, text=True, check=False)
        after = resource.getrusage(resource.RUSAGE_CHILDREN)
        seconds = after.ru_utime + after.ru_stime - before.ru_utime - before.ru_stime
        if ran.returncode:
            said = (ran.stderr.strip().splitlines() or ["it said nothing"])[-1].removeprefix("gapfile: ")
            return Outcome(optimum, None, f"status {ran.returncode}: {said}", 0, (), seconds)
        manifest = json.loads(Path(f"{kept}/filed/manifest.json").read_text(encoding="utf-8"))
    low, high = (Fraction(side["filed"]) for side in manifest["sides"])
    rows = tuple(side["rows"] for side in manifest["sides"])
    return Outcome(optimum, (low, high), "filed", manifest["degree"], rows, seconds)


def counts(outcomes: list[Outcome]) -> dict[str, int]:
    """How many are filed and how many are close, by the names of the floors."""
    return {"filed": sum(o.filed is not None for o in outcomes),
            "within 1e-4": sum(o.distance <= 1e-4 for o in outcomes),
            "within 1e-6": sum(o.distance <= 1e-6 for o in outcomes)}


def line(o: Outcome) -> str:
    """One line for whoever waits."""
    far = " ".join(f"{d:.1e}" for d in o.distances)
    return f"{o.optimum.name:18} {o.seconds:6.1f} s  " + (f"degree {o.degree:2}  off {far}" if o.filed else o.said)


def as_markdown(outcomes: list[Outcome], how: str) -> str:
    """The document."""
    seconds = sorted(o.seconds for o in outcomes)
    found = counts(outcomes)
    lines = ["# Models with known optima", "",
             "Test problems of the literature and some decks, in `examples/models`, filed by `gapfile file` with csdp. "
             "Written by `tools/models --write`; the README of that folder names the sources.", "",
             f"Of {len(outcomes)} models {found['filed']} are filed, {found['within 1e-4']} within 1e-4 of both optima "
             f"and {found['within 1e-6']} within 1e-6 (floors of `tools/models --check`: "
             f"{', '.join(map(str, FLOORS.values()))}). Processor time: median {seconds[len(seconds) // 2]:.1f} s, "
             f"longest {seconds[-1]:.1f} s, together {sum(seconds):.0f} s. {how}", "",
             "*Off* is the distance of a filed bound to the optimum, relative to it or to 1.", "",
             "![distance by model](models-distance.svg)", "", "![time by model](models-time.svg)", "",
             "| model | degree | rows | lower filed | optimum | off | upper filed | optimum | off | seconds |",
             "|---|---|---|---|---|---|---|---|---|---|"]
    return "\n".join(lines + [_row(o) for o in outcomes]) + "\n"


def _row(o: Outcome) -> str:
    if not o.filed:
        return f"| {o.optimum.name} | | | not filed | | | {o.said} | | | {o.seconds:.1f} |"
    cells = [o.optimum.name, str(o.degree), ", ".join(map(str, o.rows))]
    for bound, value in zip(o.filed, o.optimum.values):
        known = "" if value is None else f"{value:.12g}"
        far = "" if value is None else f"{abs(float(bound) - value) / max(1.0, abs(value)):.0e}"
        cells += [f"{float(bound):.12g}", known, far]
    return "| " + " | ".join(cells + [f"{o.seconds:.1f}"]) + " |"


def picture(title: str, bars: list[tuple[str, Optional[float], str]], low: float, high: float) -> str:
    """Bars on a scale of powers of ten, one a model: name, value (none where there is none), and its text."""
    height, room = ROW * len(bars) + 56, WIDTH - LEFT - 90

    def at(value: float) -> float:
        share = (math.log10(max(value, low)) - math.log10(low)) / (math.log10(high) - math.log10(low))
        return LEFT + room * min(1.0, share)
    out = [f'<svg xmlns="http://www.w3.org/2000/svg" width="{WIDTH}" height="{height}" viewBox="0 0 {WIDTH} {height}" '
           'font-family="sans-serif" font-size="11">', f'<rect width="{WIDTH}" height="{height}" fill="#fff"/>',
           f'<text x="{LEFT}" y="16" font-size="13">{escape(title)}</text>']
    for power in range(round(math.log10(low)), round(math.log10(high)) + 1):
        x = at(10.0 ** power)
        out.append(f'<line x1="{x:.1f}" y1="26" x2="{x:.1f}" y2="{height - 24}" stroke="#ccc"/>'
                   f'<text x="{x:.1f}" y="{height - 8}" text-anchor="middle" fill="#555">1e{power}</text>')
    for k, (name, value, text) in enumerate(bars):
        y = 30 + ROW * k
        out.append(f'<text x="{LEFT - 6}" y="{y + 10}" text-anchor="end">{escape(name)}</text>')
        end = LEFT if value is None else at(value)
        if value is not None:
            width = max(1.0, end - LEFT)
            out.append(f'<rect x="{LEFT}" y="{y}" width="{width:.1f}" height="{ROW - 5}" fill="#4a7ab5"/>')
        out.append(f'<text x="{end + 5:.1f}" y="{y + 10}" fill="#333">{escape(text)}</text>')
    return "\n".join(out + ["</svg>"]) + "\n"


def write(outcomes: list[Outcome], how: str, folder: Path = ROOT / "docs") -> None:
    """The document and its pictures."""
    far = [(o.optimum.name, o.distance if o.filed else None, f"{o.distance:.0e}" if o.filed else "not filed")
           for o in outcomes]
    took: list[tuple[str, Optional[float], str]] = [(o.optimum.name, o.seconds, f"{o.seconds:.1f} s") for o in outcomes]
    (folder / "MODELS.md").write_text(as_markdown(outcomes, how), encoding="utf-8")
    title = "Distance of the filed bounds to the optima, the larger of both sides"
    (folder / "models-distance.svg").write_text(picture(title, far, 1e-10, 1.0), encoding="utf-8")
    (folder / "models-time.svg").write_text(picture("Processor time in seconds", took, 0.1, 100.0), encoding="utf-8")
