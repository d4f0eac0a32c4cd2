"""csdp: its sparse format, its statuses as sentences, and recorded answers in its place.

Whatever csdp or a file of answers says is read as untrusted input: cut, empty, out of range or not finite, it is a
sentence, and never more than an answer of no use.
"""
from __future__ import annotations

import hashlib
import os
import re
import shutil
import subprocess
from dataclasses import dataclass
from math import isfinite
from pathlib import Path
from time import monotonic
from typing import Optional, Protocol

from .writing import make_folder, named, scratch, write_file

Matrix = list[list[float]]
Cost = dict[tuple[int, int, int], float]

STATUS = {
    0: "csdp found an optimum",
    1: "csdp says that no certificate of this degree exists",
    2: "csdp says that any bound can be proved, so the region seems to have no points",
    3: "csdp found an optimum, not to its full accuracy",
    4: "csdp reached its limit of iterations",
    5: "csdp got stuck at the edge of what is feasible",
    6: "csdp got stuck at the edge of what is feasible in the dual",
    7: "csdp made no more progress",
    8: "csdp met a singular matrix: the problem has no interior",
    9: "csdp met a number that is none",
    10: "csdp failed",
    11: "csdp wrote an answer that cannot be read",
    12: "csdp was killed by a signal",
    13: "csdp did not answer in time",
}
FAILED, UNREADABLE, KILLED, LATE = 10, 11, 12, 13
USABLE = (0, 3, 4, 5, 6, 7)          # worth rounding: what comes of it is checked exactly
TIME = 600.0                         # seconds for all that csdp is asked
PARAMETERS = """axtol=1.0e-9
atytol=1.0e-9
objtol=1.0e-9
pinftol=1.0e8
dinftol=1.0e8
maxiter=150
minstepfrac=0.90
maxstepfrac=0.97
minstepp=1.0e-10
minstepd=1.0e-10
usexzgap=1
tweakgap=0
affine=0
printlevel=0
perturbobj=1
fastmode=0
"""


class NoSolver(Exception):
    """csdp is not there, or has no recorded answer for this program."""


class Unreadable(Exception):
    """An answer that is cut, out of range or no numbers."""


@dataclass(frozen=True)
class Answer:
    """csdp's status, the matrices of its primal solution, and the dual value of each equation."""
    status: int
    matrices: list[Matrix]
    dual: list[float]


class Solver(Protocol):
    """Anything that answers a semidefinite program: maximise the cost over positive semidefinite blocks."""

    def solve(self, sizes: list[int], cost: Cost, equations: list[Cost], sides: list[float]) -> Answer:
        ...


def sparse_format(sizes: list[int], cost: Cost, equations: list[Cost], sides: list[float]) -> str:
    """The program in the sparse format; each entry of the upper triangle once."""
    lines = [str(len(equations)), str(len(sizes)), " ".join(map(str, sizes)), " ".join(f"{s:.17g}" for s in sides)]
    for k, row in enumerate([cost] + equations):
        for (block, a, b), c in sorted(row.items()):
            if c:
                lines.append(f"{k} {block + 1} {a + 1} {b + 1} {c:.17g}")
    return "\n".join(lines) + "\n"


def kept_lines(solution: str) -> str:
    """Of a solution file the dual values, the first line, and the primal matrices, the lines that begin with 2."""
    lines = solution.splitlines(keepends=True)
    return "".join(lines[:1] + [line for line in lines[1:] if line.startswith("2 ")])


def nothing(status: int, sizes: list[int], count: int) -> Answer:
    """An answer without numbers."""
    return Answer(status, [[[0.0] * size for _ in range(size)] for size in sizes], [0.0] * count)


def read_answer(status: int, kept: str, sizes: list[int], count: int) -> Answer:
    """The answer that the lines say, for blocks of these sizes and so many equations. Raises Unreadable."""
    answer = nothing(status, sizes, count)
    if status not in USABLE:
        return answer
    if not kept.endswith("\n"):
        raise Unreadable("the last line is cut" if kept else "there is nothing in it")
    first, *lines = kept.splitlines()
    dual = [_finite(word, 1) for word in first.split()]
    if len(dual) != count:
        raise Unreadable(f"line 1: {len(dual)} values, where the program has {count} equations")
    for number, line in enumerate(lines, 2):
        words = line.split()
        if len(words) != 5 or not all(word.isdecimal() and len(word) < 9 for word in words[:4]):
            raise Unreadable(f"line {number}: {line[:60]!r} is no entry of a matrix")
        block, a, b = (int(word) - 1 for word in words[1:4])
        if not (0 <= block < len(sizes) and 0 <= a < sizes[block] and 0 <= b < sizes[block]):
            raise Unreadable(f"line {number}: the program has no entry {' '.join(words[1:4])}")
        matrix = answer.matrices[block]
        matrix[a][b] = matrix[b][a] = _finite(words[4], number)
    return Answer(status, answer.matrices, dual)


def _finite(word: str, line: int) -> float:
    try:
        value = float(word)
    except ValueError:
        value = float("nan")
    if not isfinite(value):
        raise Unreadable(f"line {line}: {word[:40]!r} is no finite number")
    return value


class Csdp:
    """Runs csdp, for so many seconds in all; with a folder, each answer is recorded there under the hash of its
    program."""

    def __init__(self, record: Optional[Path] = None, seconds: float = TIME) -> None:
        self.record, self.until = record, monotonic() + seconds
        if not shutil.which("csdp"):
            raise NoSolver("csdp is not there; on Debian: apt-get install coinor-csdp. "
                           "Recorded answers can be used with --answers")

    def solve(self, sizes: list[int], cost: Cost, equations: list[Cost], sides: list[float]) -> Answer:
        text = sparse_format(sizes, cost, equations, sides)
        status, lines = self._run(text)
        try:
            answer = read_answer(status, lines, sizes, len(equations))
        except Unreadable:
            return nothing(UNREADABLE, sizes, len(equations))
        if self.record and status <= FAILED:
            make_folder(self.record)
            write_file(self.record / answer_name(text), f"status {status}\n{lines}".encode())
        return answer

    def _run(self, text: str) -> tuple[int, str]:
        """The status of csdp, or one of ours, and the lines of its solution that are kept."""
        environment = dict(os.environ, OMP_NUM_THREADS="1", OPENBLAS_NUM_THREADS="1")
        left = self.until - monotonic()
        if left <= 0:
            return LATE, ""
        with scratch({"program.dat-s": text.encode(), "param.csdp": PARAMETERS.encode()}) as folder:
            try:
                ran = subprocess.run(["csdp", "program.dat-s", "solution"], cwd=folder, env=environment,
                                     capture_output=True, check=False, timeout=left)
            except subprocess.TimeoutExpired:
                return LATE, ""
            except OSError as error:
                raise NoSolver(f"csdp cannot be run any more: {error.strerror or error}") from None
            solution = folder / "solution"
            kept = kept_lines(solution.read_text("ascii", "replace")) if solution.exists() else ""
        if ran.returncode < 0:
            return KILLED, ""
        return (ran.returncode if ran.returncode <= FAILED else FAILED), kept


class Recorded:
    """Answers that csdp once gave."""

    def __init__(self, folder: Path) -> None:
        self.folder = folder
        if not folder.is_dir():
            raise NoSolver(f"{folder} is no folder of recorded answers")

    def solve(self, sizes: list[int], cost: Cost, equations: list[Cost], sides: list[float]) -> Answer:
        file = self.folder / answer_name(sparse_format(sizes, cost, equations, sides))
        if not file.exists():
            raise NoSolver(f"{self.folder} has no answer for this program ({file.name})")
        with named(file):
            head, _, lines = file.read_text("ascii", "replace").partition("\n")
        match = re.fullmatch(r"status (\d|10)", head)
        if not match:
            raise NoSolver(f"{file} is no recorded answer: it begins with {head[:40]!r}, not with a status")
        try:
            return read_answer(int(match[1]), lines, sizes, len(equations))
        except Unreadable as error:
            raise NoSolver(f"{file} is no answer to this program: {error}") from None


def answer_name(text: str) -> str:
    return hashlib.sha256(text.encode()).hexdigest()[:16] + ".answer"


def version() -> str:
    """The name of csdp with its version, as far as it says one."""
    with scratch({}) as folder:
        try:
            said = subprocess.run(["csdp"], cwd=folder, capture_output=True, check=False, timeout=60).stdout
        except (OSError, subprocess.TimeoutExpired):
            return "csdp"
    match = re.search(r"CSDP\s+(\d[\d.]*)", said.decode("ascii", "replace"))
    return f"csdp {match[1]}" if match else "csdp"
