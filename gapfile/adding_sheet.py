"""The sheet for the sum of two filings: one HTML page in the dress of the filing sheet, without script."""
from __future__ import annotations

from fractions import Fraction
from html import escape
from pathlib import Path

from .decimals import fraction
from .filing import digest
from .formulas import formula, in_the_model, joined, letters, minus, region, standing
from .judged import Judged
from .polynomials import Polynomial, ordered, plus
from .programs import build
from .reading import read_problem
from .report import today
from .sheet import DENSE, STYLE, UNIT, WIDER
from .summed import TOGETHER, Summed, how_added
from .text import DEFAULT_NAMES
from .writing import STREAMS

WORDS = ("first", "second")
ROOM, TITLE, FOLDER = 330, 60, 70        # letters
PROVED = """<h2>What was proved, and what was computed</h2>
<p class="small">One proved call judged both pairs and found the two regions to be the same, term by term; it adds the
bounds of the two streams. That a stream has its factor times the model's polynomial, that names and maps of the
variables are the same in both, the division by the factors, the sums in the models' units and the decimals are
gapfile's arithmetic, in exact fractions. <code>gapfile verify</code> on each folder computes its part again.</p>"""
AGAIN = """<h2>To check it again</h2>
<p class="small"><code>sha256sum</code> of the six files, <code>gapfile verify</code> and <code>gapcheck</code> on
each folder, and <code>gapfile sum</code> on both: it must print the line above.</p>
<h2>What is not claimed</h2>
<ul class="small"><li>That the models are the bid: compare them.</li>
<li>That the sums are the best bounds: the two extremes may lie at different points.</li>
<li>Anything about points outside the region.</li></ul>"""


def sum_page(summed: Summed) -> str:
    """The whole page."""
    body = [_polynomials(summed), _exact(summed)]
    title = escape(f"Sum of {_title(summed.parts[0])} and {_title(summed.parts[1])}")
    kind = "sheet dense" if letters("".join(body)) > DENSE else "sheet"
    cells = "".join(f"<div><span>{words}</span><b>{escape(said)}</b></div>" for words, said in (
        ("Date", today()), ("Document number", ""), ("Unit", _cut(summed.parts[0].unit, 40)), ("Made by", "")))
    return (f'<!DOCTYPE html>\n<html lang="en"><head><meta charset="utf-8"><title>{title}</title>'
            f'<style>{STYLE}</style></head>\n<body><div class="{kind}">'
            '<div class="above"><span>Sheet of a sum</span><span>both pairs accepted</span></div>'
            f'<h1>{title}</h1><div class="head">{cells}<div class="sign"><span>Signed</span><b></b></div></div>\n'
            + "\n".join([_figure(summed), *body, _end(summed)]) + "\n</div></body></html>\n")


def _title(part: Judged) -> str:
    """The title of the model, or the folder's name."""
    title = part.figures.model.title if part.figures else ""
    return _cut(title or Path(part.folder).resolve().name, TITLE)


def _cut(text: str, room: int) -> str:
    return text if len(text) <= room else text[:room - 1].rstrip() + "…"


def _figure(summed: Summed) -> str:
    """The sum in words, rounded outward, in the models' units."""
    if summed.empty:
        return ('<div class="figure"><p class="empty">No point meets all the conditions: the region is empty.</p>'
                '<p class="note">So there is no figure to quote.</p></div>')
    unit = f" <small>{escape(_cut(summed.parts[0].unit, UNIT))}</small>" if summed.parts[0].unit else ""
    shown = "".join(f"<div><span>{'and ' if q.name == 'upper' else ''}{q.words}</span> "
                    f'<b data-figure="{q.name}">{minus(q.decimal)}</b>{unit}</div>' for q in summed.quoted)
    note = ("These decimals are exact." if all(q.is_exact for q in summed.quoted) else
            f"Rounded outward to {summed.digits} digits: the lower sum down, the upper sum and the difference up.")
    return ('<div class="figure"><p>At every point of the region the sum of the two polynomials is</p>'
            f'<div class="three">{shown}</div><p class="note">{note}</p></div>')


def _polynomials(summed: Summed) -> str:
    """Both polynomials in the models' variables, their sum and the region, read back from the bytes."""
    first = summed.parts[0]
    names = [v.name for v in first.figures.variables] if first.figures else DEFAULT_NAMES
    both = [_in_the_model(part) for part in summed.parts]
    total = plus(both[0], both[1])
    columns = "".join(f'<div><h2>The {word}: {escape(_title(part))}</h2><p class="formula">'
                      f"{formula(terms, names, ROOM)}</p>{_sent(part)}</div>"
                      for word, part, terms in zip(WORDS, summed.parts, both))
    where = region(summed.conditions, first.figures.variables, ROOM) if first.figures else \
        joined([], summed.conditions, names, ROOM)
    return (f'<div class="columns">{columns}</div><h2>Their sum, and the region of both</h2><p class="formula">'
            f"{formula({e: total[e] for e in ordered(total)}, names, ROOM)}</p>"
            f'<p class="formula">where &ensp;{where}</p>{_wider(summed)}')


def _in_the_model(part: Judged) -> Polynomial:
    """The polynomial of a folder, in its model's variables and units."""
    if part.figures is None:
        return {e: Fraction(c) for e, c in read_problem(part.streams[0]).objective.items()}
    terms = in_the_model(part.figures.problem.objective, part.figures.variables)
    return {e: c / part.figures.factor for e, c in terms.items()}


def _sent(part: Judged) -> str:
    """The factor, and what the variables of the stream stand for."""
    figures = part.figures
    if figures is None:
        return '<p class="small">As in problem.bin; there is no model.</p>'
    if figures.as_sent:
        return '<p class="small">problem.bin has the polynomial itself, in the same variables.</p>'
    of = "the polynomial" if figures.factor == 1 else f"{figures.factor} times the polynomial"
    meant = standing(figures.variables, ROOM // 2)
    return f'<p class="small">problem.bin has {of}{", with " + meant if meant else ""}.</p>'


def _wider(summed: Summed) -> str:
    """In words, where the region is larger than a model's."""
    if not summed.wider:
        return ""
    return ('<p class="small">This region is larger than a model\'s, so that the sum holds on the models\' too: '
            f"{escape(_cut('; '.join(summed.wider), WIDER))}.</p>")


def _exact(summed: Summed) -> str:
    """The fractions of both parts and of the sum, and the line of the call."""
    low, high = summed.bounds
    rows = []
    for word, part in zip(WORDS, summed.parts):
        a, b = part.verdict.lower, part.verdict.upper
        assert a is not None and b is not None
        rows.append((word, fraction(a / part.factor), fraction(b / part.factor)))
    rows.append(("sum", fraction(low), fraction(high)))
    table = "".join(f"<tr><th>{word}</th>" + "".join(f'<td class="mono" data-figure="{word} {side}">{minus(said)}</td>'
                                                    for side, said in zip(("lower", "upper"), pair)) + "</tr>"
                    for word, *pair in rows)
    units = "the models' units" if summed.parts[0].figures else "the units of the streams"
    return (f"<h2>Exact fractions, in {units}</h2><table><tr><th></th><th>lower</th><th>upper</th></tr>"
            f"{table}</table><h2>What the proved call printed</h2><pre>{escape(summed.call.line)}</pre>"
            f'<p class="small">{escape(_sentence(how_added(summed)))}'
            f"{' ' + escape(_sentence(TOGETHER)) if summed.together else ''}</p>")


def _sentence(words: str) -> str:
    return f"{words[0].upper()}{words[1:]}."


def _end(summed: Summed) -> str:
    """Hashes of the six files and of the programs, what was proved, how to check it again, what is not claimed."""
    sums = [(f"{word} {name.removesuffix('.bin')}", digest(stream)) for word, part in zip(WORDS, summed.parts)
            for name, stream in zip(STREAMS, part.streams)]
    sums += [(name, build(name).digest) for name in ("gapcheck", "replay")]
    table = "".join(f'<tr><td class="mono">{escape(name)}</td><td class="mono">{value}</td></tr>'
                    for name, value in sums)
    where = "; ".join(f"the {word} is {_cut(part.folder, FOLDER)}" for word, part in zip(WORDS, summed.parts))
    return (f'<div class="columns end"><div class="wide"><h2>SHA-256 of the files and of the programs asked</h2>'
            f'<table class="sums">{table}</table><p class="small">{escape(where)}.</p></div><div>{AGAIN}</div></div>'
            f"{PROVED}")
