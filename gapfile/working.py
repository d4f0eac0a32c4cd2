"""`gapfile work DIR low`: a certificate as a table whose columns add up, as text and as a page, or one column of it."""
from __future__ import annotations

import argparse
import re
from html import escape
from pathlib import Path
from typing import Callable, Optional

from .commands import Monomial, monomial_text
from .decimals import counted
from .inputs import beside, names_of, read
from .manifest import NAME_OF_FILE, read_manifest
from .outcome import Outcome
from .programs import Verdict, check_one
from .progress import Say
from .reading import Refused, read_certificate, read_problem
from .statuses import DISAGREE, DONE, REFUSED, UsageError
from .text import DEFAULT_NAMES, monomial_of
from .worksheet import (WHY, WIDEST, Worksheet, aligned, column_table, given_lines, summary, table, verdict_line,
                        worksheet)
from .writing import STREAMS, write_file

SIDES = {"low": 1, "high": 2}
MOST_COLUMNS = 40                # of a table in a page; of a wider one the columns are listed
RAISED = str.maketrans("0123456789", "⁰¹²³⁴⁵⁶⁷⁸⁹")
STYLE = """
@page { size: A4 landscape; margin: 11mm }
body { margin: 8mm; color: #16191d; font: 9pt/1.4 "DejaVu Sans", "Segoe UI", Helvetica, Arial, sans-serif }
h1 { font-size: 14pt; margin: 0 0 2mm } p { margin: .6mm 0; overflow-wrap: anywhere }
.given { font: 9pt/1.45 "DejaVu Serif", Cambria, Georgia, serif }
table { border-collapse: collapse; margin: 3mm 0; font-variant-numeric: tabular-nums }
th, td { padding: .6mm 2mm; border-bottom: .2mm solid #d5dae0; text-align: right; vertical-align: top }
th { color: #4a5561; font-weight: normal } .left { text-align: left; overflow-wrap: anywhere }
.sum td { border-top: .4mm solid #16191d; font-weight: bold } .differs { color: #b00020; font-weight: bold }
thead { display: table-header-group } tr { break-inside: avoid }
"""


def run_work(arguments: argparse.Namespace, say: Say) -> Outcome:
    folder, number = Path(arguments.folder), SIDES[arguments.side]
    name = STREAMS[number]
    problem_stream, stream = (read(str(folder / file)) for file in (STREAMS[0], name))
    say("asking replay")
    verdict = check_one(problem_stream, stream)
    try:
        problem = read_problem(problem_stream)
        certificate = read_certificate(stream, problem)
    except Refused:
        return Outcome(REFUSED, [*verdict.lines, f"{name} cannot be read: `gapfile explain` says why"],
                       data={"accepted": False, "checker": verdict.lines})
    say("multiplying out")
    sheet = worksheet(problem, certificate, _names(arguments, problem.variables))
    column = _column(arguments.column, sheet)
    out = Outcome(status(verdict, sheet), _lines(sheet, name, column, arguments.all))
    out.lines += [f"replay: {line}" for line in verdict.lines]
    out.data = {"accepted": verdict.accepted, "checker": verdict.lines, "rows": len(sheet.lines),
                "adds up": not sheet.wrong, "columns": {monomial_text(e, sheet.names): {
                    "sum": str(sheet.total(e)), "claim": str(sheet.claim.get(e, 0))} for e in sheet.columns}}
    if out.status == DISAGREE:
        out.errors.append("the columns and the checker disagree: please report it with the folder")
    if arguments.html:
        text = as_html(sheet, name, verdict, column, arguments.all)
        if arguments.html == "-":
            out.lines = text.splitlines()
        else:
            write_file(Path(arguments.html), text.encode())
    return out


def status(verdict: Verdict, sheet: Worksheet) -> int:
    """0 where the checker accepts and all columns add up; 4 where one says that the identity holds, the other not."""
    false = verdict.refusal is not None and verdict.refusal.number == 9
    if verdict.accepted and sheet.wrong or false and not sheet.wrong:
        return DISAGREE
    return DONE if verdict.accepted else REFUSED


def _names(arguments: argparse.Namespace, variables: int) -> list[str]:
    """The names that were given, or of the manifest, or x1 to x8."""
    given, found = names_of(arguments.names), beside([arguments.folder], NAME_OF_FILE)
    names = given or ([v.inner for v in read_manifest(found).variables] if found is not None else DEFAULT_NAMES)
    if len(names) < variables:
        raise UsageError(f"the problem has {variables} variables, and {len(names)} names are given")
    return names[:variables]


def _column(word: Optional[str], sheet: Worksheet) -> Optional[Monomial]:
    """The column that was asked for. Raises UsageError."""
    if word is None:
        return None
    try:
        found = monomial_of("".join(word.split()), tuple(sheet.names))
    except ValueError as error:
        raise UsageError(f"--column: {error}") from None
    if found not in sheet.columns:
        raise UsageError(f"--column: no row and no term of the claim has {monomial_text(found, sheet.names)}; without "
                         "--column all columns are listed")
    return found


def _lines(sheet: Worksheet, name: str, column: Optional[Monomial], whole: bool) -> list[str]:
    """The table in text, or one column, or of a wide one what its columns sum to."""
    head = [f"{name}: {_title(sheet)}", *given_lines(sheet)]
    if column is not None:
        shown = monomial_text(column, sheet.names)
        said = "the last two sums are equal: the column adds up" if sheet.adds_up(column) else \
            "DIFFERS: the sum is not what is claimed"
        return [*head, f"the column of {shown}:", *aligned(column_table(sheet, column), 2), said]
    lines = aligned(table(sheet))
    if whole or max(map(len, lines)) <= WIDEST:
        return [*head, *lines, verdict_line(sheet), *([] if sheet.wrong else [WHY])]
    return [*head, *aligned(summary(sheet)), verdict_line(sheet), *([] if sheet.wrong else [WHY]),
            f"a column by its products: --column '{monomial_text(sheet.columns[-1], sheet.names)}'; the whole table, "
            f"{max(map(len, lines))} letters wide: --all; as a page: --html FILE"]


def _title(sheet: Worksheet) -> str:
    word = "upper" if sheet.certificate.side else "lower"
    return (f"the {word} bound {sheet.certificate.p}/{sheet.certificate.q} of f, by "
            f"{counted(len(sheet.lines), 'row')} and {counted(len(sheet.columns), 'column')}")


def as_html(sheet: Worksheet, name: str, verdict: Verdict, column: Optional[Monomial], whole: bool) -> str:
    """The same as a page, without network and without script."""
    if column is not None:
        cells, left, last = column_table(sheet, column), (1,), 1
        said = ("The last two sums are equal: the column adds up." if sheet.adds_up(column) else
                '<b class="differs">The sum is not what is claimed.</b>')
        said = f"The column of {pretty(monomial_text(column, sheet.names))}. {said}"
    elif whole or len(sheet.columns) <= MOST_COLUMNS:
        cells, left, last, said = table(sheet), (0,), 2, _verdict(sheet)
    else:
        cells, left, last, said = summary(sheet), (0,), 0, _verdict(sheet)
    given = "".join(f'<p class="given">{pretty(line)}</p>' for line in given_lines(sheet))
    checker = escape("; ".join(verdict.lines))
    return (f'<!DOCTYPE html>\n<html lang="en"><head><meta charset="utf-8"><title>{name}, worksheet</title>'
            f"<style>{STYLE}</style></head>\n<body><h1>Worksheet of {name}</h1>"
            f"<p>{_sentence(pretty(_title(sheet)))}</p>{given}\n"
            f"{_table(cells, left, last)}\n<p>{said}</p><p>replay printed: {checker}</p></body></html>\n")


def _verdict(sheet: Worksheet) -> str:
    said = escape(verdict_line(sheet))
    return f'<b class="differs">{said}</b>' if sheet.wrong else f"{_sentence(said)} {_sentence(WHY)}"


def _sentence(text: str) -> str:
    return f"{text[0].upper()}{text[1:]}."


def _table(cells: list[list[str]], left: tuple[int, ...], last: int) -> str:
    """A table; so many of the last lines are sums."""
    def line(row: list[str], tag: str) -> str:
        return "".join(f'<{tag} class="left">{pretty(cell)}</{tag}>' if k in left else f"<{tag}>{pretty(cell)}</{tag}>"
                       for k, cell in enumerate(row))
    body = [f'<tr{" class=sum" if k >= len(cells) - last else ""}>{line(row, "td")}</tr>'
            for k, row in enumerate(cells) if k]
    return f"<table><thead><tr>{line(cells[0], 'th')}</tr></thead>\n<tbody>" + "\n".join(body) + "</tbody></table>"


def pretty(text: str) -> str:
    """A formula as it is printed: raised exponents, and the signs of print."""
    text = re.sub(r"\^([0-9]+)", lambda m: m[1].translate(RAISED), escape(text))
    return text.replace("*", "·").replace("-", "−").replace("&gt;=", "≥")


def add_work(command: Callable[[str, str], argparse.ArgumentParser]) -> None:
    made = command("work", "print a certificate as a table whose columns add up")
    made.add_argument("folder", metavar="DIR", help="a folder with a problem and certificates")
    made.add_argument("side", choices=list(SIDES), help="which certificate")
    made.add_argument("--column", metavar="MONOMIAL",
                      help="one column, with the products that it is the sum of: 1, a or 'a^2*b'")
    made.add_argument("--all", action="store_true", help="the whole table, however wide")
    made.add_argument("--html", metavar="FILE", help="write it as a page too; - prints it in the text's place")
    made.add_argument("--names", help="names for the variables, with commas between them")
    made.set_defaults(run=run_work)
