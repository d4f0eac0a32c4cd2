"""`gapfile round PROBLEM GRAM.json -o DIR`: certificates from the Gram matrices of any solver.

They are rounded as csdp's are. csdp can be asked again with more room inside the cone; another solver's answer is all
there is, so room is bought with the bound: it is given up by rising steps.
"""
from __future__ import annotations

import argparse
from fractions import Fraction
from math import sqrt
from pathlib import Path
from typing import Callable, Optional

from .basis import find_blocks
from .blocks import by_basis
from .commands import Monomial, add
from .decimals import counted, decimal, digits_for, fraction
from .grams import SIDES, Grams, read_grams
from .inputs import read
from .interior import buy, given_up
from .outcome import Outcome
from .programs import check_one, judge
from .progress import Say
from .reading import Problem, Refused, read_problem
from .relaxing import NoCertificate
from .rounding import EFFORTS, Rounded, encode_certificate, round_solution
from .sdp import Program, Solution, Unreachable, pose_program
from .sparse import Parts
from .squares import RoundingError
from .statuses import DONE, NotAccepted, UsageError
from .writing import STREAMS, check_folder, streams_for, write_folder

# of the objective's largest coefficient: how much of the bound is given up
LOSSES = (0.0, *(m * 10.0 ** -k for k in range(10, 2, -1) for m in (1, 3)))
LEAST_SLACK = 1e-10              # likewise: what rounding counts on where a matrix has no room at all
HALVINGS = 60


def run_round(arguments: argparse.Namespace, say: Say) -> Outcome:
    """Reads both, rounds each side, has the streams judged, and puts the folder in place."""
    folder, stream = Path(arguments.output), read(arguments.problem)
    if arguments.problem == arguments.grams == "-":
        raise UsageError("standard input can be one of the files only")
    try:
        problem = read_problem(stream)
    except Refused as refused:
        raise UsageError(f"{arguments.problem} is no problem: refusal {refused.refusal.number} at byte "
                         f"{refused.refusal.place}: {refused.refusal.why}; `gapfile decode` shows it") from None
    sides = read_grams(read(arguments.grams), problem, arguments.grams)
    check_folder(folder, b"", arguments.replace)
    parts = by_basis(problem, find_blocks(problem))
    made, lines = [stream], []
    for grams in sides:
        say(f"{SIDES[grams.side]}: rounding")
        certificate, said = rounded(stream, problem, parts, grams, not arguments.narrow)
        made.append(certificate)
        lines.append(said)
    asked = "gapcheck" if len(made) == 3 else "replay"
    verdict = judge(made)
    if not verdict.accepted:
        raise NotAccepted(verdict, asked)
    names = streams_for([grams.side for grams in sides])
    check_folder(folder, b"", arguments.replace)
    write_folder(folder, dict(zip(names, made)))
    lines += [f"{asked} on the streams:", *(f"  {line}" for line in verdict.lines),
              f"written: {folder}/{', '.join(names)}"]
    return Outcome(DONE, lines, data={"accepted": True, "stream": {"lines": verdict.lines}, "folder": str(folder),
                                      "files": list(names)})


def rounded(stream: bytes, problem: Problem, parts: Parts, grams: Grams, wide: bool) -> tuple[bytes, str]:
    """The certificate of one side that the checker accepts, with the least of the bound given up, and a line on it.
    Raises NoCertificate."""
    word = SIDES[grams.side]
    try:
        program = pose_program(problem, parts, grams.side)
    except Unreachable:
        raise NoCertificate(f"no {word} certificate: the objective has a monomial that no product of the bases has; "
                            "add to basis 0 what makes it", False) from None
    solution = as_solution(program, parts, grams)
    scale, bought, failure = float(program.scale), buy(program), RoundingError("nothing was tried")
    for loss in LOSSES:
        lowered = given_up(program, solution, loss * scale, bought)
        slack = max(room(program, lowered), LEAST_SLACK * scale)
        try:
            found = _tried(stream, program, parts, lowered, slack, wide)
        except RoundingError as error:
            failure = error
            continue
        return found[1], _said(found[0], grams)
    raise NoCertificate(f"no {word} certificate could be rounded ({failure}); {_advice(program, solution)}", False)


def _said(found: Rounded, grams: Grams) -> str:
    """The bound, and how far it is from the one that was given."""
    bound = Fraction(found.p, found.q)
    shown = decimal(bound, grams.side == 1, digits_for(Fraction(0), bound))
    return (f"{SIDES[grams.side]} {fraction(bound)} = {shown}, {abs(float(bound) - grams.bound):.2g} from the given "
            f"{grams.bound:.9g}; {counted(len(found.rows), 'row')}")


def _tried(stream: bytes, program: Program, parts: Parts, solution: Solution, slack: float,
           wide: bool) -> tuple[Rounded, bytes]:
    """With as many rows as there is room for. Raises RoundingError."""
    failure: Optional[RoundingError] = None
    for effort in EFFORTS:
        try:
            found = round_solution(program, parts, solution, slack, wide, effort)
            certificate = encode_certificate(program.problem, found)
            if check_one(stream, certificate).accepted:
                return found, certificate
            failure = failure or RoundingError("the checker refuses what was rounded")
        except RoundingError as error:
            failure = failure or error
    assert failure
    raise failure


def as_solution(program: Program, parts: Parts, grams: Grams) -> Solution:
    """The matrices as csdp's answer: by the checker's blocks, and for an equality the polynomial that its matrix is.
    What lies outside the blocks reaches no monomial of the identity where the rounds go to their end, and is left
    out."""
    blocks = [[[grams.matrices[j][a][b] for b in ix] for a in ix] for j, ix in program.blocks]
    free: dict[tuple[int, Monomial], float] = {}
    for j, pieces in enumerate(parts):
        if program.problem.is_equality(j):
            basis = program.problem.bases[j]
            for a, b in ((a, b) for part in pieces for a in part for b in part):
                at = j, add(basis[a], basis[b])
                free[at] = free.get(at, 0.0) + grams.matrices[j][a][b]
    return Solution(0, program.sign * grams.bound, blocks, free, [])


def room(program: Program, solution: Solution) -> float:
    """The smallest eigenvalue of the matrices of basis 0, about; 0 where it is not above 0."""
    found = [smallest(matrix) for (j, _), matrix in zip(program.blocks, solution.grams) if j == 0]
    return max(0.0, min(found, default=0.0))


def smallest(matrix: list[list[float]]) -> float:
    """The smallest eigenvalue of a symmetric matrix, about: the largest shift of the diagonal after which Cholesky's
    method still goes through."""
    largest = max((sum(abs(x) for x in row) for row in matrix), default=0.0)
    low, high = -largest, min((row[a] for a, row in enumerate(matrix)), default=0.0)
    for _ in range(HALVINGS):
        middle = (low + high) / 2
        low, high = (middle, high) if _definite(matrix, middle) else (low, middle)
    return low


def _definite(matrix: list[list[float]], shift: float) -> bool:
    """Whether the matrix, less the shift on its diagonal, is positive definite, in floats."""
    lower: list[list[float]] = []
    for a, row in enumerate(matrix):
        line: list[float] = []
        for b in range(a + 1):
            rest = row[b] - sum(x * y for x, y in zip(line, lower[b] if b < a else line))
            if b < a:
                line.append(rest / lower[b][b])
            elif rest - shift <= 0:
                return False
            else:
                line.append(sqrt(rest - shift))
        lower.append(line)
    return True


def _advice(program: Program, solution: Solution) -> str:
    """How much room the matrices leave, and what to do."""
    least = min((smallest(matrix) for (j, _), matrix in zip(program.blocks, solution.grams) if j == 0), default=0.0)
    return (f"the smallest eigenvalue of basis 0 is about {least:.1e}: ask the solver for a bound a little worse than "
            "its best, with matrices inside the cone, and for more digits")


def add_round(command: Callable[[str, str], argparse.ArgumentParser]) -> None:
    made = command("round", "make certificates from the Gram matrices of any solver")
    made.add_argument("problem", metavar="PROBLEM", help=f"a problem, as {STREAMS[0]}; - reads standard input")
    made.add_argument("grams", metavar="GRAM.json",
                      help='bounds and matrices by basis: docs/FORMAT.md, "Gram matrices"')
    made.add_argument("-o", "--output", metavar="DIR", required=True, help="the folder to write")
    made.add_argument("--replace", action="store_true", help="put it in the place of a filing that stands there")
    made.add_argument("--narrow", action="store_true", help="factors of 16 bits only")
    made.set_defaults(run=run_round)
