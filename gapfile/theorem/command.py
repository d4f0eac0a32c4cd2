"""`gapfile theorem DIR`: the figure of a folder as a theorem, and with --check what Coq says of it."""
from __future__ import annotations

import argparse
from pathlib import Path
from typing import Callable

from ..figures import filed_figures
from ..inputs import beside, names_in, read
from ..manifest import NAME_OF_FILE
from ..outcome import Outcome
from ..programs import judge
from ..progress import Say
from ..statuses import DONE, REFUSED
from ..verifying import remade, verify
from ..writing import MODEL, SHEET, THEOREM, check_folder, streams_for, write_file, write_folder
from .checking import ask_coqc, proved
from .statements import figure_file


def run_theorem(arguments: argparse.Namespace, say: Say) -> Outcome:
    """Writes figure.v; into a filing together with a sheet and SUMS that list it. Nothing is written where gapcheck
    refuses, or where the files of a folder disagree: the lines say which."""
    folder = Path(arguments.folder)
    if (folder / SHEET).exists():
        checks = verify(folder, say)
        if checks.status != DONE or not checks.figures:
            return Outcome(checks.status, [line for line in checks.lines if not line.startswith("ok: ")]
                           + [f"{THEOREM} is not written, as the files of {folder} disagree"])
        text = figure_file([checks.files[name] for name in streams_for(checks.figures.sides)], checks.figures)
        if THEOREM not in checks.files:
            check_folder(folder, b"", True)
            write_folder(folder, remade(checks.figures, checks.files, {THEOREM: text.encode()}))
    else:
        streams = [read(str(folder / name)) for name in names_in(folder)]
        say("asking gapcheck" if len(streams) == 3 else "asking replay")
        verdict = judge(streams)
        if not verdict.accepted:
            return Outcome(REFUSED, verdict.lines)
        found = [beside([str(folder)], name) for name in (NAME_OF_FILE, MODEL)]
        text = figure_file(streams, filed_figures(streams, verdict, *found))
        write_file(folder / THEOREM, text.encode())
    out = Outcome(DONE, [f"{folder / THEOREM} states {', '.join(proved(text))}"], data={"theorems": proved(text)})
    if arguments.check:
        say("asking coqc")
        answer = ask_coqc(text)
        out.status = DONE if answer.proved else REFUSED
        out.lines.append(answer.line)
        out.data["coqc"] = {"proved": answer.proved, "said": answer.line}
    return out


def add_theorem(command: Callable[[str, str], argparse.ArgumentParser]) -> None:
    made = command("theorem", "write the figure of a folder as a theorem for Coq, in the words of the model")
    made.add_argument("folder", metavar="DIR", help="a folder that `file` or `solve` wrote, or one with three streams")
    made.add_argument("--check", action="store_true", help="ask coqc, and read on which axioms the proof rests")
    made.set_defaults(run=run_theorem)
