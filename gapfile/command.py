"""The command line: arguments, what is asked of whom, and exit statuses (statuses.py has them).

A command does its work, writes its files, and only then prints; so a reader who closes the pipe loses nothing.
"""
from __future__ import annotations

import argparse
import json
import os
import sys
import traceback
from fractions import Fraction
from pathlib import Path
from typing import Any, Callable, Optional, Sequence

from . import VERSION, asking, blocks, picture, programs, proved
from .commands import Kind, kind_of
from .decimals import decimal, digits_for, fraction, is_exact
from .explain import explain, explain_empty
from .figures import filed_figures, quoted_lines, stream_lines
from .foreign import add_round
from .inputs import PATHS, beside, names_of, read, streams_of
from .making import add_commands, figures_data
from .manifest import NAME_OF_FILE, read_manifest
from .outcome import Outcome
from .progress import PATIENCE, Progress, Say, complain
from .reading import Problem, Refusal, read_problem
from .statuses import DISAGREE, DONE, REFUSED, STATUSES, UsageError, status_of
from .text import DEFAULT_NAMES, TextError, decode, encode, refusal_of
from .theorem.command import add_theorem
from .verifying import second_opinion, verify
from .working import add_work
from .writing import MODEL, write_file

EXAMPLES = {
    "decode": "gapfile decode examples/ex5_5/problem.bin examples/ex5_5/low.bin",
    "encode": "gapfile encode low.txt -o low.bin",
    "check": "gapfile check examples/two_decks --second",
    "explain": "gapfile explain examples/contradictory",
    "blocks": "gapfile blocks examples/ex5_5/problem.bin --svg blocks.svg",
    "solve": "gapfile solve examples/two_decks.gap -o two_decks",
    "file": "gapfile file examples/two_decks.gap -o two_decks",
    "verify": "gapfile verify two_decks",
    "theorem": "gapfile theorem two_decks --check",
    "round": "gapfile round examples/ex5_5/problem.bin examples/gram/ex5_5.json -o rounded",
    "work": "gapfile work examples/ex5_5 low --column 'x1*x2'",
    **asking.EXAMPLES,
}


def run_decode(arguments: argparse.Namespace, say: Say) -> Outcome:
    out, names = Outcome(DONE), names_of(arguments.names)
    problem: Optional[Problem] = None
    for path in ([arguments.problem] if arguments.problem else []) + arguments.files:
        say(f"reading {path}")
        stream = read(path)
        kind = kind_of(stream)
        if names and kind is Kind.PROBLEM and 8 >= (stream[1:2] or b"\0")[0] > len(names):
            raise UsageError(f"{path} has {stream[1]} variables, --names has {len(names)}")
        decoded = decode(stream, names, problem if kind is Kind.CERTIFICATE else None)
        if kind is Kind.PROBLEM and not decoded.refusal:
            problem = read_problem(stream)
        refusal = decoded.refusal
        said = f"{path}: refusal {refusal.number} at byte {refusal.place}: {refusal.why}" if refusal else ""
        if path == arguments.problem:
            if refusal:
                raise UsageError(said)
            continue
        if len(arguments.files) > 1:
            out.lines.append(f"# {path}")
        out.lines += decoded.text().splitlines()
        if refusal:
            out.status = REFUSED
            out.errors.append(said)
    return out


def run_encode(arguments: argparse.Namespace, say: Say) -> Outcome:
    if arguments.output and len(arguments.files) != 1:
        raise UsageError("-o goes with one file")
    out = Outcome(DONE)
    for path in arguments.files:
        say(f"reading {path}")
        if path == "-" and not arguments.output:
            raise UsageError("-o names the file for what standard input says")
        target = Path(arguments.output) if arguments.output else Path(path).with_suffix(".bin")
        if target == Path(path):
            raise UsageError(f"{path} would be written over; name another file with -o")
        try:
            stream, numbers = encode(read(path).decode("utf-8", "replace"))
        except TextError as error:
            raise UsageError(f"{path}: {error}") from None
        write_file(target, stream)
        refusal = refusal_of(stream, kind_of(stream))
        if refusal:
            out.status = REFUSED
            line, _ = decode(stream, kind=kind_of(stream)).line_at(refusal.place)
            where = f"line {numbers[line - 1]}" if refusal.place < len(stream) and line <= len(numbers) else "the end"
            out.errors.append(f"{path}: {target} is written, and it will be refused: {where}: refusal "
                              f"{refusal.number}: {refusal.why}")
    return out


def bound_lines(verdict: programs.Verdict) -> list[str]:
    """The stream's bounds and gap, reduced and in decimals, rounded outward."""
    gap = verdict.gap
    digits = digits_for(gap or Fraction(0))
    lines = []
    for word, value, up in (("lower", verdict.lower, False), ("upper", verdict.upper, True), ("gap", gap, True)):
        if value is not None:
            note = "" if is_exact(value, digits) else f" (rounded {'up' if up else 'down'})"
            lines.append(f"{word:<6} {fraction(value)} = {decimal(value, up, digits)}{note}")
    if verdict.empty:
        lines.append("gap    empty: the bounds cross, so no point meets all the conditions")
    return lines


def ask(problem: bytes, low: bytes, high: Optional[bytes], say: Say) -> programs.Verdict:
    """The checker's verdict: of gapcheck on a pair, of replay on one certificate."""
    say("asking gapcheck" if high is not None else "asking replay")
    return programs.judge([problem, low] if high is None else [problem, low, high])


def run_check(arguments: argparse.Namespace, say: Say) -> Outcome:
    problem, low, high = streams_of(arguments.paths)
    verdict = ask(problem, low, high, say)
    out = Outcome(DONE if verdict.accepted else REFUSED, list(verdict.lines),
                  data={"accepted": verdict.accepted, "stream": {"lines": verdict.lines}})
    if verdict.accepted:
        streams = [problem, low] if high is None else [problem, low, high]
        figures = filed_figures(streams, verdict, *(beside(arguments.paths, name) for name in (NAME_OF_FILE, MODEL)))
        if figures:
            out.lines, out.data = quoted_lines(figures) + stream_lines(figures), figures_data(figures)
        else:
            out.lines += bound_lines(verdict)
            if beside(arguments.paths, NAME_OF_FILE) is not None:
                out.lines.append(f"there is no {MODEL}, with which the manifest could be checked: the figures are the "
                                 "stream's")
    if arguments.second:
        say("asking a second implementation")
        agrees, said = second_opinion(problem, low, high, verdict)
        out.lines.append(said)
        out.data["second"] = {"agrees": agrees, "said": said}
        out.status = out.status if agrees else DISAGREE
    return out


def run_explain(arguments: argparse.Namespace, say: Say) -> Outcome:
    problem, low, high = streams_of(arguments.paths)
    verdict = ask(problem, low, high, say)
    names = names_of(arguments.names) or recorded_names(arguments.paths) or DEFAULT_NAMES
    say("looking for the reason")
    if verdict.refusal:
        lines = explain(verdict.refusal, problem, low, high, names, beside(arguments.paths, "SUMS"))
    elif verdict.empty:
        lines = verdict.lines + explain_empty(verdict, problem, [low, high or b""], names)
    else:
        lines = verdict.lines + ["accepted: nothing to explain"]
    return Outcome(DONE if verdict.accepted else REFUSED, lines,
                   data={"accepted": verdict.accepted, "stream": {"lines": verdict.lines}, "explained": lines})


def recorded_names(paths: Sequence[str]) -> Optional[list[str]]:
    """The names of the stream's variables, where the folder has a manifest."""
    found = beside(paths, NAME_OF_FILE)
    return [v.inner for v in read_manifest(found).variables] if found is not None else None


def run_verify(arguments: argparse.Namespace, say: Say) -> Outcome:
    checks = verify(Path(arguments.folder), say)
    return Outcome(checks.status, checks.lines, data={"holds": checks.status == DONE, "checks": checks.lines})


def run_blocks(arguments: argparse.Namespace, say: Say) -> Outcome:
    stream = read(arguments.problem)
    say("asking the checker for the blocks")
    found = programs.blocks_call(stream)
    names = names_of(arguments.names) or DEFAULT_NAMES
    if isinstance(found, Refusal):
        say("looking for the reason")
        return Outcome(REFUSED, explain(found, stream, b"", b"", names))
    masks = proved.symmetries(stream)
    if isinstance(masks, Refusal):
        raise programs.ProgramError(f"the blocks of {arguments.problem} are told, and its symmetries {masks.line()}")
    problem = read_problem(stream)
    if len(names) < problem.variables:
        raise UsageError(f"{arguments.problem} has {problem.variables} variables, --names has {len(names)}")
    text = blocks.as_text(problem, found, masks, names)
    for path, form in ((arguments.json_file, blocks.as_json(problem, found, masks, names)),
                       (arguments.svg, picture.as_svg(problem, found, names))):
        if path == "-":
            text = form
        elif path:
            write_file(Path(path), form.encode())
    return Outcome(DONE, text.splitlines())


class _Mixed(argparse.ArgumentParser):
    """A parser that takes options between the other arguments too, as `adjust DIR --json CHANGE`."""
    mixing = False

    def parse_known_args(self, args: Any = None, namespace: Any = None) -> Any:
        if self.mixing:                                      # this is asked for again, once for each kind of argument
            return super().parse_known_args(args, namespace)
        self.mixing = True
        try:
            return self.parse_known_intermixed_args(args, namespace)
        finally:
            self.mixing = False


def parser() -> argparse.ArgumentParser:
    top = argparse.ArgumentParser(prog="gapfile", description="From a polynomial to a filed figure.", epilog=STATUSES)
    top.add_argument("--version", action="version", version=f"gapfile {VERSION}")
    commands = top.add_subparsers(dest="command", required=True, metavar="COMMAND", parser_class=_Mixed)

    def command(name: str, said: str) -> argparse.ArgumentParser:
        made = commands.add_parser(name, help=said, description=said[0].upper() + said[1:] + ".",
                                   formatter_class=argparse.RawDescriptionHelpFormatter,
                                   epilog=f"example: {EXAMPLES[name]}\n\n{STATUSES}")
        made.add_argument("-q", "--quiet", action="store_true", help="print nothing but errors")
        made.add_argument("-v", "--verbose", action="store_true", help="say every step at once, and at a fault of "
                                                                       "gapfile where it happened")
        if name in ("check", "explain", "file", "verify", "theorem", "round", "work", *asking.EXAMPLES):
            made.add_argument("--json", action="store_true", help="print JSON in the place of lines")
        return made

    _add_stream_commands(command)
    add_commands(command)
    made = command("verify", "compute everything in a filed folder again, and compare every figure")
    made.add_argument("folder", metavar="DIR", help="a folder that `file` wrote")
    made.set_defaults(run=run_verify)
    add_theorem(command)
    add_round(command)
    add_work(command)
    asking.add_asking(command)
    return top


def _add_stream_commands(command: Callable[[str, str], argparse.ArgumentParser]) -> None:
    """Adds the commands on streams."""
    def names(made: argparse.ArgumentParser) -> None:
        made.add_argument("--names", help="names for the variables, with commas between them")

    made = command("decode", "print the text form of streams, one line a command")
    made.add_argument("files", nargs="+", metavar="FILE", help="a problem or a certificate; - reads standard input")
    made.add_argument("--problem", metavar="FILE", help="the problem of the certificates, so that entries say their "
                                                        "monomials; a problem among the files before them does too")
    names(made)
    made.set_defaults(run=run_decode)
    made = command("encode", "write the streams of text forms, FILE.txt to FILE.bin")
    made.add_argument("files", nargs="+", metavar="FILE", help="a text form, as decode prints it")
    made.add_argument("-o", "--output", metavar="FILE", help="the file to write, for one FILE")
    made.set_defaults(run=run_encode)
    made = command("check", "ask gapcheck, and say bounds and gap in decimals, rounded outward")
    made.add_argument("paths", nargs="+", metavar="PATH", help=PATHS)
    made.add_argument("--second", action="store_true", help="ask a second implementation too")
    made.set_defaults(run=run_check)
    made = command("explain", "say what a refusal means, or which conditions contradict each other at an empty gap")
    made.add_argument("paths", nargs="+", metavar="PATH", help=PATHS)
    names(made)
    made.set_defaults(run=run_explain)
    made = command("blocks", "show the blocks of a problem, as the checker finds them")
    made.add_argument("problem", metavar="PROBLEM")
    names(made)
    made.add_argument("--json", metavar="FILE", dest="json_file", help="write them as JSON too; - prints it in the "
                                                                       "text's place")
    made.add_argument("--svg", metavar="FILE", help="write a picture too; - prints it in the text's place")
    made.set_defaults(run=run_blocks)


def main(arguments: Optional[Sequence[str]] = None) -> int:
    options = parser().parse_args(arguments)
    try:
        with Progress(None if options.quiet else 0.0 if options.verbose else PATIENCE) as say:
            outcome: Outcome = options.run(options, say)
        return tell(outcome, options)
    except (Exception, KeyboardInterrupt) as error:
        if options.verbose:
            complain(traceback.format_exc().rstrip())
        status, line = status_of(error)
        complain(f"gapfile: {line}")
        return status


def tell(outcome: Outcome, options: argparse.Namespace) -> int:
    """Prints what a command has to say. Its work is done: a reader who closes the pipe does not change its status."""
    for line in outcome.errors:
        complain(line)
    as_json = getattr(options, "json", False)
    if options.quiet or not sys.stdout or not outcome.lines and not as_json:
        return outcome.status
    text = "\n".join(outcome.lines)
    if as_json:
        text = json.dumps({"gapfile": VERSION, "command": options.command, "status": outcome.status, **outcome.data},
                          indent=2, ensure_ascii=False)
    try:
        print(text, flush=True)
    except BrokenPipeError:
        os.dup2(os.open(os.devnull, os.O_WRONLY), sys.stdout.fileno())       # so that nothing is tried again at exit
    except OSError as error:
        raise UsageError(f"standard output: {error.strerror}; what was to be written is written") from None
    return outcome.status
