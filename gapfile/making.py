"""The subcommands that make certificates and filings: `solve` and `file`. They write first, and print then."""
from __future__ import annotations

import argparse
from pathlib import Path
from typing import Any, Callable

from . import selfcheck
from .expressions import ModelError
from .figures import Figures, figures_of, quoted_lines, stream_lines
from .filing import filed_files, solved_files
from .inputs import read
from .manifest import read_manifest
from .model import parse, read_text
from .outcome import Outcome
from .programs import judge
from .progress import Say
from .report import made_with, manifest, report_lines
from .solver import Csdp, Recorded, Solver, TIME, version
from .solving import Options, solve_model
from .statuses import DONE, NotAccepted, UsageError
from .theorem.statements import figure_file
from .writing import THEOREM, check_folder, streams_for, write_folder


def solver_of(arguments: argparse.Namespace) -> tuple[Solver, str]:
    """The solver and its name for the manifest."""
    if arguments.answers:
        return Recorded(Path(arguments.answers)), "recorded answers of csdp"
    return Csdp(Path(arguments.record) if arguments.record else None, arguments.time or TIME), version()


def run_solve(arguments: argparse.Namespace, say: Say) -> Outcome:
    return _make(arguments, say, False)


def run_file(arguments: argparse.Namespace, say: Say) -> Outcome:
    return _make(arguments, say, True)


def _make(arguments: argparse.Namespace, say: Say, filed: bool) -> Outcome:
    """Solves the model, has the streams judged, and puts the folder in place. Nothing is written unless the checker
    accepted these bytes and the figures were computed again from them."""
    folder, given = Path(arguments.output), read(arguments.model)
    try:
        model = parse(read_text(given))
    except ModelError as error:
        raise UsageError(f"{arguments.model}: {error}") from None
    check_folder(folder, given, arguments.replace)
    solver, name = solver_of(arguments)
    solved = solve_model(model, solver, Options(arguments.narrow, arguments.widen or model.widen, arguments.time), say)
    streams = [solved.problem] + [side.certificate for side in solved.sides]
    asked = "gapcheck" if len(streams) == 3 else "replay"
    say(f"asking {asked}")
    verdict = judge(streams)
    if not verdict.accepted:
        raise NotAccepted(verdict, asked)
    recorded = manifest(solved, model, made_with(name, asked))
    figures = figures_of(streams, verdict, read_manifest(recorded), model)
    files = solved_files(dict(zip(streams_for(model.sides), streams)), recorded, given)
    if filed:
        more = {THEOREM: figure_file(streams, figures).encode()} if arguments.theorem else {}
        files = filed_files(figures, solved.blocks, files, more, selfcheck.built())
    say(f"writing {folder}")
    check_folder(folder, given, arguments.replace)           # again: a minute may have passed
    write_folder(folder, files)
    lines = quoted_lines(figures) + stream_lines(figures) + report_lines(solved, model)
    first = streams_for(model.sides)
    made = ", ".join(name for name in files if name not in first)
    lines.append(f"{'filed' if filed else 'written'}: {folder}/{', '.join(first)}, {made}")
    return Outcome(DONE, lines, data={**figures_data(figures), "folder": str(folder), "files": list(files)})


def figures_data(figures: Figures) -> dict[str, Any]:
    """The figures as plain data, for JSON."""
    return {
        "accepted": True, "empty": figures.verdict.empty, "not claimed": figures.not_claimed or None,
        "unit": figures.model.head.get("unit", ""),
        "figures": {q.name: {"decimal": q.decimal, "exact": str(q.exact), "rounded": not q.is_exact}
                    for q in figures.quoted},
        "stream": {"lines": figures.verdict.lines, "factor": figures.factor},
        "attained": [reached and {"value": str(reached.value), "point": dict(zip(figures.model.names,
                                                                                 map(str, reached.point)))}
                     for reached in figures.reached],
        "left out": figures.restated.left_out, "widened": figures.restated.widened,
    }


def seconds(text: str) -> float:
    """A time limit."""
    value = float(text)
    if not 0 < value < 1e7:
        raise ValueError
    return value


def add_commands(command: Callable[[str, str], argparse.ArgumentParser]) -> None:
    """Adds `solve` and `file`."""
    for name, said, run in (("solve", "make a problem and both certificates from a model", run_solve),
                            ("file", "solve a model and write the filing sheet and SUMS", run_file)):
        made = command(name, said)
        made.add_argument("model", metavar="MODEL", help="a model, as examples/two_decks.gap; - reads standard input")
        made.add_argument("-o", "--output", metavar="DIR", required=True, help="the folder to write")
        made.add_argument("--replace", action="store_true", help="put it in the place of a filing or of another "
                                                                 "model's files that stand there")
        made.add_argument("--narrow", action="store_true", help="factors of 16 bits only")
        made.add_argument("--widen", action="store_true", help="make the region larger where a limit of the checker "
                          "asks for it: leave a condition out, round one outward; the sheet says so")
        made.add_argument("--time", metavar="SECONDS", type=seconds,
                          help="when to end with what was found until then; without, the work is limited, and csdp "
                               f"by {TIME:.0f} s in all")
        made.add_argument("--answers", metavar="DIR", help="take csdp's answers from this folder")
        made.add_argument("--record", metavar="DIR", help="keep csdp's answers in this folder")
        if name == "file":
            made.add_argument("--theorem", action="store_true", help="write the figure as a theorem for Coq too")
        made.set_defaults(run=run)
