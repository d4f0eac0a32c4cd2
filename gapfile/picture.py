"""The picture of the blocks, in SVG: for each basis a matrix ordered by block, with a filled square for two monomials
of one block and the monomials as labels."""
from __future__ import annotations

from dataclasses import dataclass
from html import escape
from typing import Optional

from .blocks import by_basis
from .commands import monomial_text
from .decimals import counted
from .programs import Blocks
from .reading import Problem

COLOURS = ("#1f5a86", "#b0601a", "#2f7547", "#7d4672", "#806112", "#4857a0", "#9c3b37", "#2f7480")
ALONE = "#8d939c"                # a block of one monomial
FAINT = ' fill-opacity=".5"'     # off the diagonal
CELL, LETTER, TITLE, SPACE, EDGE = 12, 5.9, 18, 16, 4
LONGEST = 48                     # letters of a title
RAISED = str.maketrans("0123456789", "⁰¹²³⁴⁵⁶⁷⁸⁹")
STYLE = ("text{font:10px 'DejaVu Sans',Helvetica,Arial,sans-serif;fill:#222}.t{font-weight:bold;font-size:11.5px}"
         ".g{fill:#f4f5f7;stroke:#9aa0a8;stroke-width:.6}")


@dataclass(frozen=True)
class Matrix:
    """One basis as it is drawn: its title, its blocks as sizes, its labels in their order, and its measures."""
    title: str
    sizes: list[int]
    labels: list[str]

    @property
    def margin(self) -> float:
        return 7 + LETTER * max(map(len, self.labels))

    @property
    def width(self) -> float:
        return max(self.margin + CELL * len(self.labels), LETTER * 1.15 * len(self.title)) + SPACE

    @property
    def height(self) -> float:
        return TITLE + self.margin + CELL * len(self.labels) + SPACE


def label(text: str) -> str:
    """A monomial as a label, with raised exponents."""
    parts = text.split("^")
    out = parts[0]
    for part in parts[1:]:
        digits = len(part) - len(part.lstrip("0123456789"))
        out += part[:digits].translate(RAISED) + part[digits:]
    return out.replace("*", "·")


def matrices(problem: Problem, found: Blocks, names: list[str], titles: Optional[list[str]] = None) -> list[Matrix]:
    """The bases that are not empty, with their titles."""
    out = []
    titles = titles or [f"basis {j}" for j in range(len(problem.bases))]
    for j, blocks in enumerate(by_basis(problem, found)):
        if blocks:
            labels = [label(monomial_text(problem.bases[j][i], names)) for ix in blocks for i in ix]
            title = titles[j] if len(titles[j]) <= LONGEST else titles[j][:LONGEST - 1] + "…"
            out.append(Matrix(f"{title}: {counted(len(blocks), 'block')}", [len(ix) for ix in blocks], labels))
    return out


def placed(drawn: list[Matrix], width: float) -> tuple[list[tuple[float, float]], float, float]:
    """Places from left to right, in rows no wider than this; the width and the height that come of it."""
    places: list[tuple[float, float]] = []
    x = y = row = used = 0.0
    for matrix in drawn:
        if x and x + matrix.width > width:
            x, y, row = 0.0, y + row, 0.0
        places.append((x, y))
        x, row = x + matrix.width, max(row, matrix.height)
        used = max(used, x)
    return places, used, y + row


def as_svg(problem: Problem, found: Blocks, names: list[str], aspect: float = 1.6,
           titles: Optional[list[str]] = None) -> str:
    """The whole picture; its rows are broken so that it fills a frame of this aspect (width over height) best."""
    drawn = matrices(problem, found, names, titles)
    ends = range(len(drawn) + 1)
    widths = [sum(matrix.width for matrix in drawn[a:b]) for b in ends for a in range(b)]
    ways = [placed(drawn, width) for width in sorted(set(widths))] or [([], 60.0, 20.0)]
    places, width, height = min(ways, key=lambda way: max(way[1], aspect * way[2]))
    body = "".join(_matrix(matrix, x, y) for matrix, (x, y) in zip(drawn, places))
    wide, high = f"{width + EDGE:.0f}", f"{height + EDGE:.0f}"
    return (f'<svg xmlns="http://www.w3.org/2000/svg" viewBox="-{EDGE} -{EDGE} {wide} {high}" width="{wide}" '
            f'height="{high}" role="img" aria-label="blocks by basis"><style>{STYLE}</style>{body}</svg>\n')


def _matrix(matrix: Matrix, x: float, y: float) -> str:
    """The squares of one basis, with its labels at the left and above."""
    side, at, colour = CELL * len(matrix.labels), 0, 0
    out = [f'<text x="{x:.1f}" y="{y + 12:.1f}" class="t">{escape(matrix.title)}</text>',
           f'<g transform="translate({x + matrix.margin:.1f} {y + TITLE + matrix.margin:.1f})">',
           f'<rect width="{side}" height="{side}" class="g"/>']
    for size in matrix.sizes:
        fill = ALONE if size == 1 else COLOURS[colour % len(COLOURS)]
        colour += size > 1
        for a in range(at, at + size):
            for b in range(at, at + size):
                out.append(f'<rect x="{CELL * a}" y="{CELL * b}" width="{CELL - 1}" height="{CELL - 1}" fill="{fill}"'
                           f'{"" if a == b else FAINT}/>')
        at += size
    for k, text in enumerate(matrix.labels):
        middle = CELL * k + CELL / 2 + 3
        out.append(f'<text x="-4" y="{middle}" text-anchor="end">{escape(text)}</text>'
                   f'<text transform="translate({middle} -4) rotate(-90)">{escape(text)}</text>')
    return "".join(out) + "</g>"
