"""The filing sheet: one HTML page that prints on one sheet, without network and without script.

It is made from the figures and from the hashes of the files beside it, and from nothing else, so that `verify` can
write it again and compare it to the letter. What is quoted carries the name of its figure.
"""
from __future__ import annotations

from dataclasses import dataclass, replace
from fractions import Fraction
from html import escape

from .decimals import decimal, fraction
from .figures import SIDES, Figures, Quoted, Reached
from .formulas import formula, in_the_model, joined, letters, minus, number, point_html, region, standing
from .ranges import range_of
from .writing import RECORD, THEOREM

STYLE = """
@page { size: A4; margin: 11mm 12mm }
* { box-sizing: border-box }
html { background: #e9ebee } body { margin: 0 }
.sheet { width: 186mm; height: 272mm; margin: 19mm auto; display: flex; flex-direction: column; background: #fff;
  outline: 11mm solid #fff; color: #16191d; font: 8.7pt/1.36 "DejaVu Sans", "Segoe UI", Helvetica, Arial, sans-serif }
@media print { html { background: #fff } .sheet { margin: 0; outline: 0 } }
.above { display: flex; justify-content: space-between; font-size: 7.6pt; letter-spacing: .05em; color: #4a5561;
  text-transform: uppercase }
h1 { font-size: 16pt; line-height: 1.15; margin: .6mm 0 1.6mm; max-height: 12.6mm; overflow: hidden }
h2 { font-size: 8.6pt; margin: 3mm 0 .9mm; color: #1f4f7a; letter-spacing: .02em }
h2::after { content: ""; display: block; border-bottom: .25mm solid #c3cbd4; margin-top: .5mm }
p { margin: .5mm 0 }
.head { display: flex; gap: 5mm; margin: 0 0 3mm } .head div { flex: 1 1 0; min-width: 0 }
.head .sign { flex: 1.7 1 0 }
.head span { display: block; font-size: 7.2pt; color: #4a5561 }
.head b { display: block; height: 5.4mm; border-bottom: .25mm solid #8d959e; font-weight: normal; white-space: nowrap;
  overflow: hidden; text-overflow: ellipsis }
.figure { border: .35mm solid #1f4f7a; border-left-width: 1.6mm; border-radius: 1mm; padding: 2mm 4mm 2.2mm }
.figure > p { margin: 0 } .figure .note { font-size: 7.6pt; color: #4a5561 }
.figure .wider { font-size: 7.6pt; color: #8c2f17 }
.three { display: flex; gap: 6mm; margin: 1mm 0 } .three div { flex: 1 1 auto }
.three span { display: block; font-size: 8.2pt; color: #4a5561 }
.three b { font-size: 15pt; line-height: 1.2; font-variant-numeric: tabular-nums; white-space: nowrap }
.three small { font-size: 9pt }
.empty { font-size: 12.5pt; font-weight: bold }
.formula { font: 9pt/1.42 "DejaVu Serif", Cambria, Georgia, serif; overflow-wrap: anywhere } .small { font-size: 7.9pt }
table { border-collapse: collapse; width: 100% }
td, th { text-align: left; vertical-align: top; padding: .25mm 3mm .25mm 0 }
th { font-weight: normal; color: #4a5561 } tr > :last-child { padding-right: 0 }
code, pre, .mono { font: 7.3pt/1.38 "DejaVu Sans Mono", Menlo, Consolas, monospace; margin: 0; overflow-wrap: anywhere }
pre.written { white-space: pre-wrap }
.columns { display: flex; gap: 7mm } .columns > div { flex: 1 1 0; min-width: 0 }
.columns > .wide { flex: 0 0 114mm } .columns > .narrow { flex: 0 0 56mm }
.sheet > * { flex-shrink: 0 }
.end { margin-top: auto }
.sums td { padding-right: 2mm } .sums .mono { font-size: 6.5pt; white-space: nowrap }
.dense .formula { font-size: 7.4pt; line-height: 1.32 }
.dense .small, .dense pre { font-size: 6.8pt; line-height: 1.28 }
.dense h2 { margin-top: 1.7mm } .dense td, .dense th { font-size: 7.4pt }
.dense .sums td { padding-top: 0; padding-bottom: 0; line-height: 1.25 } .dense p { margin: .2mm 0 }
ul { margin: .4mm 0; padding-left: 4mm } li { margin: .2mm 0 }
"""
WIDER, TOOLS, UNIT = 130, 280, 12                        # letters of room
PROVED = """<h2>What was proved, and what was computed</h2>
<p class="small">gapcheck, a program with a proof, accepted the bounds of the polynomial of problem.bin over its
conditions, for all real points (docs/MAP.md, part 5). That this is the model's polynomial times the factor, what the
variables stand for, that every condition sent follows from the model's, and the decimals are gapfile's arithmetic:
<code>gapfile verify</code> computes it again from the files and compares every figure here.</p>"""
PROVED_ONE = PROVED.replace("gapcheck, a program with a proof, accepted the bounds", "The proved check of one "
                            "certificate, which the program replay asks, accepted the bound")
AGAIN = """<h2>To check it again</h2>
<p class="small">In the folder of the files <code>sha256sum -c SUMS</code>, then <code>{command}</code>: it must print
the {lines} above. Then <code>gapfile verify</code> and this folder's name.{coq}</p>
<h2>What is not claimed</h2>
<ul class="small"><li>That the model is the bid: compare it.</li>{other}
<li>{best}: what is attained stands above.</li>
<li>Anything about points outside the region.</li></ul>"""
IN_COQ = " In another prover, Coq: <code>coqc figure.v</code>."
DENSE, CROWDED = 1100, 1900     # more letters than these are set smaller, and are cut
COLUMN = 56                      # letters in a line of the model as written
HEAD = (("date", "Date"), ("number", "Document number"), ("unit", "Unit"), ("by", "Made by"))


@dataclass(frozen=True)
class Room:
    """How much of each part is shown: lines of the model, and letters of formulas; what is cut is counted."""
    written: int
    formula: int
    region: int
    sent: int
    conditions: int
    meant: int
    place: int
    note: int


WIDE, TIGHT = Room(12, 520, 360, 480, 420, 300, 200, 230), Room(8, 300, 220, 340, 220, 200, 130, 80)
NOTED = replace(TIGHT, formula=220)      # where notes or choices take two lines of it


def page(figures: Figures, sums: list[tuple[str, str]]) -> str:
    """The whole page; the sums are pairs of a file and its SHA-256."""
    body = _body(figures, WIDE)
    if letters("".join(body)) > CROWDED:
        body = _body(figures, NOTED if _besides(figures, TIGHT) else TIGHT)
    parts = [_figure(figures), *body, _end(figures, sums)]
    title = escape(_cut(figures.model.title or "A bounded polynomial", 110))
    kind = "sheet dense" if letters("".join(body)) > DENSE else "sheet"
    return (f'<!DOCTYPE html>\n<html lang="en"><head><meta charset="utf-8"><title>{title}</title>'
            f'<style>{STYLE}</style></head>\n<body><div class="{kind}">'
            f'<div class="above"><span>Filing sheet</span><span>accepted by {_accepted(figures)}</span></div>'
            f"<h1>{title}</h1>{_head(figures)}\n" + "\n".join(parts) + "\n</div></body></html>\n")


def _accepted(figures: Figures) -> str:
    return "the proved check of one certificate" if figures.not_claimed else "gapcheck"


def _body(figures: Figures, room: Room) -> list[str]:
    """The parts whose length depends on the model."""
    return [_written(figures, room), _sent(figures, room) + _besides(figures, room), _exact(figures),
            _points(figures, room)]


def _cut(text: str, room: int) -> str:
    return text if len(text) <= room else text[:room - 1].rstrip() + "…"


def _head(figures: Figures) -> str:
    """Date, number, unit and maker from the model, blank lines where it has none, and a line to sign."""
    said = {**figures.model.head, "date": figures.date}
    cells = "".join(f"<div><span>{words}</span><b>{escape(_cut(said.get(word, ''), 40))}</b></div>"
                    for word, words in HEAD)
    return f'<div class="head">{cells}<div class="sign"><span>Signed</span><b></b></div></div>'


def _figure(figures: Figures) -> str:
    """The figure in words, rounded outward, in the model's units."""
    if figures.verdict.empty:
        return ('<div class="figure"><p class="empty">No point meets all the conditions: the region is empty.'
                '</p><p class="note">The lower bound is above the upper one, and both hold at every point of the '
                f"region. So there is no figure to quote.</p>{_wider(figures)}</div>")
    unit = escape(_cut(figures.model.head.get("unit", ""), UNIT))
    unit = f" <small>{unit}</small>" if unit else ""
    second = "and " if not figures.not_claimed else ""
    shown = "".join(f"<div><span>{second if q.name == 'upper' else ''}{q.words}</span> {_quoted(q)}{unit}</div>"
                    for q in figures.quoted)
    return ('<div class="figure"><p>At every point of the region the value of the polynomial is</p>'
            f'<div class="three">{shown}</div>{_one_side(figures)}<p class="note">{_rounded(figures)}</p>'
            f"{_wider(figures)}</div>")


def _rounded(figures: Figures) -> str:
    """Whether the decimals are exact, and else how they were rounded."""
    if all(q.is_exact for q in figures.quoted):
        return "These decimals are exact." if len(figures.quoted) > 1 else "This decimal is exact."
    ways = {"": "the lower bound down, the upper bound and the difference up", "upper": "down", "lower": "up"}
    return f"Rounded outward to {figures.digits} digits: {ways[figures.not_claimed]}."


def _one_side(figures: Figures) -> str:
    """In words, where one side alone is claimed."""
    if not figures.not_claimed:
        return ""
    return (f'<p class="wider" data-side="{figures.not_claimed}">One side alone: no {figures.not_claimed} bound is '
            "claimed, and none of the difference of two values.</p>")


def _quoted(q: Quoted) -> str:
    return f'<b data-figure="{q.name}">{minus(q.decimal)}</b>'


def _wider(figures: Figures) -> str:
    """In words, where the region that was sent is larger than the model's."""
    said = [f"without {words}" for words in figures.restated.left_out]
    said += [f"with {words} widened" for words in figures.restated.widened]
    if not said:
        return ""
    return ('<p class="wider">Proved over a region that is larger than the model\'s, so that the bounds hold on the '
            f"model's too: {escape(_cut('; '.join(said), WIDER))}.</p>")


def _written(figures: Figures, room: Room) -> str:
    """The model's own lines, and beside them polynomial and region in its variables, read back from the bytes."""
    terms = in_the_model(figures.problem.objective, figures.variables)
    names = [v.name for v in figures.variables]
    shown = formula({e: c / figures.factor for e, c in terms.items()}, names, room.formula)
    how = "Read" if figures.as_sent else "Computed back"
    return (f'<div class="columns"><div><h2>The model, as written in model.gap</h2>'
            f'<pre class="written">{escape(_as_written(figures.model.written, room.written))}</pre></div>'
            f'<div><h2>{how} from problem.bin</h2><p class="formula">{shown}</p><p class="formula">'
            f"where &ensp;{region(figures.problem.conditions, figures.variables, room.region)}</p></div></div>")


def _as_written(lines: list[str], room: int) -> str:
    """The lines for which there is room; the others are counted."""
    kept: list[str] = []
    for k, line in enumerate(lines):
        rows, left = max(1, -(-len(line) // COLUMN)), room - sum(max(1, -(-len(text) // COLUMN)) for text in kept)
        if rows > left or rows == left and k + 1 < len(lines):
            cut = line[:COLUMN * (left - 1)]
            said = f"… {len(lines) - k} lines are {'cut' if cut else 'left out'}; they stand in model.gap"
            return "\n".join([*kept, *([cut] if cut else []), said])
        kept.append(line)
    return "\n".join(kept)


def _sent(figures: Figures, room: Room) -> str:
    """What the stream says, where that is not the model's own polynomial, and what the variables stand for."""
    factor = f'recorded factor <span data-figure="factor">{figures.factor}</span>'
    if figures.as_sent:
        found = [range_of(condition) for condition in figures.problem.conditions]
        ranges = any(ends and -ends[1] == ends[2] == 1 for ends in found)
        return (f'<p class="small">problem.bin has the polynomial itself ({factor}), in the same variables'
                + (", and a range from −1 to 1 as 1 − <i>x</i>² ≥ 0" if ranges else "") + ".</p>")
    names = [v.inner for v in figures.variables]
    meant = standing(figures.variables, room.meant)
    of = "the polynomial above" if figures.factor == 1 else f"{figures.factor} times the polynomial above"
    return (f"<h2>As sent in problem.bin: {of} ({factor})</h2>"
            f'<p class="formula small">f = {formula(figures.problem.objective, names, room.sent)}</p>'
            f'<p class="formula small">{joined([], figures.problem.conditions, names, room.conditions)}</p>'
            + (f'<p class="formula small">with &ensp;{meant}</p>' if meant else ""))


def _besides(figures: Figures, room: Room) -> str:
    """What the model chose of the format, and its notes, as far as there is room."""
    notes = " · ".join(note for note in figures.model.notes if note)
    said = [_chosen(figures), f"Note: {escape(_cut(notes, room.note))}" if notes else ""]
    return f'<p class="small">{" ".join(filter(None, said))}</p>' if any(said) else ""


def _chosen(figures: Figures) -> str:
    """What the model chose of the format, in a sentence: it decides how a certificate is found, not what is claimed."""
    chosen = figures.model.choices
    said = [f"joining rule {chosen.rule}"] if chosen.rule != 1 else []
    said += [f"sparse order {chosen.order}"] if chosen.order is not None else []
    numbers = sorted(chosen.bases)
    said += [f"{'basis' if len(numbers) == 1 else 'bases'} {', '.join(map(str, numbers))} as the model gives "
             f"{'it' if len(numbers) == 1 else 'them'}"] if numbers else []
    return f"Of the format the model chooses {'; '.join(said)}." if said else ""


def _exact(figures: Figures) -> str:
    """Exact fractions, and what the checker printed, to the letter."""
    rows = [(SIDES[side], f"{figures.certificates[side].p}/{figures.certificates[side].q}", bound)
            for side, bound in figures.bounds.items()]
    if figures.gap is not None:
        rows.append(("gap", figures.verdict.lines[2].split()[1], figures.gap))
    heads = ("", "as filed", "reduced")
    if figures.factor != 1:
        heads = ("", "of f, as filed", f"divided by {figures.factor}, reduced")
    table = "".join(f'<tr><th>{word}</th><td class="mono">{said}</td>'
                    f'<td class="mono" data-figure="{word} exact">{fraction(value)}</td></tr>'
                    for word, said, value in rows)
    lines = escape("\n".join(figures.verdict.lines))
    pre = '<pre class="written">' if figures.not_claimed else "<pre>"       # the one line of replay may be longer
    return (f'<div class="columns"><div><h2>Exact fractions</h2><table>{_heads(heads)}{table}</table></div>'
            f'<div class="narrow"><h2>What {figures.judge} printed</h2>{pre}{lines}</pre></div></div>')


def _heads(words: tuple[str, ...]) -> str:
    return "<tr>" + "".join(f"<th>{word}</th>" for word in words) + "</tr>"


def _points(figures: Figures, room: Room) -> str:
    """Attained values, computed from the model's own words; relaxation and rows beside them. An empty region attains
    none."""
    if figures.verdict.empty:
        return ""
    rows, places = [], []
    for side in figures.sides:
        word = SIDES[side]
        found, off, reached = "none was found", "how tight is not known", figures.reached[side]
        if reached:
            found = minus(_value(reached.value))
            off = decimal(abs(figures.bounds[side] - reached.value), True, figures.digits + 3)
            places.append(_place(figures, reached, room))
        relaxation = minus(escape(figures.relaxations[side]))
        rows.append(f'<tr><th>{word}</th><td data-figure="{word} attained">{found}</td>'
                    f'<td data-figure="{word} off by">{off}</td><td>{relaxation}</td>'
                    f"<td>{len(figures.certificates[side].rows)}</td></tr>")
    heads = ("", "attained at a point of the region", "the bound is off by at most", "the solver's relaxation", "rows")
    title = "How tight the bound is" if figures.not_claimed else "How tight the bounds are"
    return (f"<h2>{title}</h2><table>{_heads(heads)}{''.join(rows)}</table>"
            + "".join(f'<p class="formula small">{place}</p>' for place in places))


def _place(figures: Figures, reached: Reached, room: Room) -> str:
    """Where a value is attained, exactly."""
    text = fraction(reached.value)
    exact = f", exactly {minus(text)}," if len(text) <= 60 and number(reached.value) == text and "/" in text else ""
    names = [v.name for v in figures.variables]
    return f"{minus(_value(reached.value))}{exact} is attained at {point_html(names, reached.point, room.place)}"


def _value(value: Fraction) -> str:
    """The value as a short decimal, exactly, or its first digits."""
    text = number(value)
    return text if "/" not in text and len(text) <= 24 else f"{decimal(value, value < 0, 9)}…"


def _end(figures: Figures, sums: list[tuple[str, str]]) -> str:
    """Hashes, versions, what was proved, how to check it again, and what is not claimed."""
    made = figures.made
    digest = made.get("SHA-256", "")
    table = "".join(f'<tr><td class="mono">{escape(name)}</td><td class="mono">{escape(value)}</td></tr>'
                    for name, value in [*sums, (figures.judge, digest)])
    asked = (f"{figures.judge} is {made.get(figures.judge, '')} ({made.get('found', '')}), whose hash is "
             f"{made.get('published', '')}. ") if digest else ""
    tools = ", ".join(f"{word} {made[word]}" for word in ("gapfile", "Python", "solver", "kit", "commit")
                      if made.get(word))
    return (f'<div class="columns end"><div class="wide"><h2>SHA-256 of the files and of {figures.judge}</h2>'
            f'<table class="sums">{table}</table><p class="small">'
            f'{escape(_cut(f"{asked}Made with {tools}.", TOOLS))}</p></div>'
            f"<div>{_again(figures, THEOREM in dict(sums))}</div></div>"
            f"{PROVED_ONE if figures.not_claimed else PROVED}")


def _again(figures: Figures, in_coq: bool) -> str:
    """How to check it again, and what is not claimed."""
    coq = IN_COQ if in_coq else ""
    if not figures.not_claimed:
        return AGAIN.format(command="gapcheck problem.bin low.bin high.bin", lines="lines", coq=coq, other="",
                            best="That the bounds are the best")
    other = f"\n<li>Any {figures.not_claimed} bound.</li>"
    return AGAIN.format(command=f"replay &lt;{RECORD}", lines="line", coq=coq, other=other,
                        best="That the bound is the best")
