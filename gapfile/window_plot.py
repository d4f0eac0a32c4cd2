"""The plot of the gaps held by a window, in SVG: a column for each, oldest first, the widest marked."""
from __future__ import annotations

from fractions import Fraction
from html import escape

from .decimals import decimal

WIDTH, HEIGHT, LEFT, BOTTOM, TOP = 640, 240, 92, 34, 22
PLACES = 32
STYLE = ("text{font:10px 'DejaVu Sans',Helvetica,Arial,sans-serif;fill:#222}.t{font-weight:bold;font-size:11.5px}"
         ".axis{stroke:#9aa0a8;stroke-width:.8}.gap{fill:#1f5a86}.widest{fill:#b0601a}.a{text-anchor:end}")


def as_svg(gaps: list[Fraction], age: int) -> str:
    """The whole plot; the newest gap stands at the right. The widest is the one of this age, as the call told it."""
    at = len(gaps) - 1 - age
    largest = gaps[at] if gaps else Fraction(0)
    step = (WIDTH - LEFT - 10) / PLACES
    room = HEIGHT - TOP - BOTTOM
    out = []
    for k, gap in enumerate(gaps):
        high = float(gap / largest) * room if largest else 0.0
        x = LEFT + (PLACES - len(gaps) + k) * step
        kind = "widest" if k == at else "gap"
        out.append(f'<rect class="{kind}" x="{x + 1:.1f}" y="{HEIGHT - BOTTOM - high:.1f}" width="{step - 2:.1f}" '
                   f'height="{max(high, 0.8):.1f}"><title>{_said(gap)}, age {len(gaps) - 1 - k}</title></rect>')
    title = f"widest {_said(largest)}, age {age}" if gaps else "no gap is held"
    axis = (f'<path class="axis" fill="none" d="M{LEFT} {TOP}V{HEIGHT - BOTTOM}H{WIDTH - 8}"/>'
            f'<text class="a" x="{LEFT - 4}" y="{TOP + 4}">{_said(largest)}</text>'
            f'<text class="a" x="{LEFT - 4}" y="{HEIGHT - BOTTOM + 3}">0</text>'
            f'<text x="{LEFT + step / 2:.1f}" y="{HEIGHT - 16}" text-anchor="middle">31</text>'
            f'<text x="{LEFT + step * 31.5:.1f}" y="{HEIGHT - 16}" text-anchor="middle">0</text>'
            f'<text x="{(LEFT + WIDTH) / 2:.0f}" y="{HEIGHT - 4}" text-anchor="middle">age, in accepted gaps</text>')
    return (f'<svg xmlns="http://www.w3.org/2000/svg" viewBox="0 0 {WIDTH} {HEIGHT}" width="{WIDTH}" height="{HEIGHT}" '
            f'role="img" aria-label="{escape(title)}"><style>{STYLE}</style>'
            f'<text class="t" x="{LEFT}" y="14">{escape(title)}</text>{axis}{"".join(out)}</svg>\n')


def _said(gap: Fraction) -> str:
    """A gap as a decimal, rounded up; at most a few letters more than its digits."""
    return decimal(gap, True)
