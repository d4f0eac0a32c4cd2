"""The programs that decide: `gapcheck` on three files, `replay` on one record, the reference as a second opinion. Where
the shared object of the C functions is there it answers records in the place of `replay`, but for what is filed.

A verdict is what a program printed. What it prints is read as strictly as any other input: a program that dies, hangs
or prints something else is named, and nothing in this tool turns a refusal into an acceptance.
"""
from __future__ import annotations

import hashlib
import os
import re
import shutil
import signal
import subprocess
from dataclasses import dataclass
from fractions import Fraction
from pathlib import Path
from typing import Optional, Sequence

from . import library
from .reading import Refusal
from .writing import STREAMS, scratch

ROOT = Path(__file__).resolve().parent.parent    # the repository, or the folder that ./install made for this package
PUBLISHED = ROOT / "docs" / "HASHES.md"          # where the project lists the SHA-256 of its builds
MADE_OF = ROOT / "BUILD"                         # of an installed package: version, commit and kit
BUILT = "built in this repository"
INSTALLED = "installed with gapfile"
PATIENCE = 300.0                                 # seconds; gapcheck answers within one
REFUSAL = re.compile(r"refused (\d{1,3}) ([012]) (\d{1,10}) (\d{1,20})")
PAIR = re.compile(r"lower (-?\d{1,10}/\d{1,5})\nupper (-?\d{1,10}/\d{1,5})\n"
                  r"gap (empty|\d{1,20}/\d{1,20})\nrounds (\d{1,10})")
PAIR_RECORD = re.compile(r"pair (\S+) (\S+) gap (\S+) rounds (\d{1,10}) rule [12]")
CHECK = re.compile(r"check ([01]) (-?\d{1,10}/\d{1,5}) rounds (\d{1,10}) rule [12]")
BLOCKS = re.compile(r"blocks (\d{1,3}) rounds (\d{1,10}) rule ([12]) ([0-9a-f]{1152})")


class ProgramError(Exception):
    """A program is missing, died, or printed what is no answer."""


@dataclass(frozen=True)
class Verdict:
    """The lines of a program, and what they say."""
    lines: list[str]
    refusal: Optional[Refusal] = None
    lower: Optional[Fraction] = None
    upper: Optional[Fraction] = None
    empty: bool = False
    rounds: int = 0

    @property
    def accepted(self) -> bool:
        return self.refusal is None

    @property
    def gap(self) -> Optional[Fraction]:
        if self.lower is None or self.upper is None or self.empty:
            return None
        return self.upper - self.lower


@dataclass(frozen=True)
class Blocks:
    """The blocks call: for each basis the block number of each index; rounds and rule."""
    count: int
    rounds: int
    rule: int
    numbers: list[list[int]]


@dataclass(frozen=True)
class Build:
    """Which program was asked: its path, how it was found, and the SHA-256 of its bytes."""
    path: Path
    found: str
    digest: str

    @property
    def shown(self) -> str:
        """The path, from the repository's folder where it is in there."""
        return str(self.path.relative_to(ROOT)) if self.path.is_relative_to(ROOT) else str(self.path)

    @property
    def published(self) -> bool:
        """Whether the project lists this hash among its builds."""
        return PUBLISHED.is_file() and self.digest in PUBLISHED.read_text(encoding="utf-8", errors="replace")


def program(name: str) -> tuple[Path, str]:
    """Where a program is, and how it was found: by the variable of its name in capitals, in the repository's
    target/bin, beside an installed gapfile, or on the PATH."""
    variable = name.upper()
    built, beside, wanted = ROOT / "target" / "bin" / name, ROOT / "bin" / name, os.environ.get(variable)
    for found, how in ((wanted, variable), (built if built.exists() else None, BUILT),
                       (beside.resolve() if beside.exists() else None, INSTALLED), (shutil.which(name), "PATH")):
        if found:
            if not Path(found).is_file():
                raise ProgramError(f"{found} is no file; {variable} must name a {name}")
            return Path(found).absolute(), how
    raise ProgramError(f"{name} is not built; in the repository's folder `tools/prove {name}` builds it, or name one in "
                       f"{variable}")


def build(name: str) -> Build:
    """A program with the hash of its bytes."""
    path, how = program(name)
    try:
        return Build(path, how, hashlib.sha256(path.read_bytes()).hexdigest())
    except OSError as error:
        raise ProgramError(f"{path}: {error.strerror}") from None


def commit() -> str:
    """The commit of the repository, where this is one, or of what was installed."""
    git = ROOT / ".git"
    if MADE_OF.exists():
        return made_of("commit")
    try:
        head = (git / "HEAD").read_text("ascii").strip()
        if head.startswith("ref: "):
            name = head[5:]
            loose = git / name
            packed = (git / "packed-refs").read_text("ascii") if not loose.exists() else ""
            match = re.search(rf"^([0-9a-f]{{40,64}}) {re.escape(name)}$", packed, re.MULTILINE)
            head = match[1] if match else loose.read_text("ascii").strip()
    except (OSError, ValueError):
        return ""
    return head if re.fullmatch("[0-9a-f]{40,64}", head) else ""


def kit() -> str:
    """The identity of the Rattle kit that builds gapcheck, where it is there, or of that which built what was
    installed."""
    if MADE_OF.exists():
        return made_of("kit")
    rt = shutil.which("rt")
    try:
        said = run_program([rt, "--version"]) if rt else ""
    except ProgramError:
        return ""
    return " ".join(said.split())[:80] if said.isprintable() else ""


def made_of(name: str) -> str:
    """What the installation noted under a name."""
    found = re.search(rf"^{name} (\S.*)$", MADE_OF.read_text("utf-8", "replace"), re.MULTILINE)
    return found[1] if found else ""


def reference() -> Optional[Path]:
    """The second implementation, where it is built."""
    built = os.environ.get("REFERENCE", str(ROOT / "reference/target/release/reference"))
    return Path(built) if Path(built).exists() else None


def run_program(command: list[str], data: bytes = b"") -> str:
    """What a program prints. Raises ProgramError where it does not run, or does not end by itself with status 0."""
    try:
        ran = subprocess.run(command, input=data, capture_output=True, check=False, timeout=PATIENCE)
    except subprocess.TimeoutExpired:
        raise ProgramError(f"{command[0]} did not answer within {PATIENCE:.0f} s") from None
    except OSError as error:
        raise ProgramError(f"{command[0]}: {error.strerror or error}") from None
    if ran.returncode:
        said = ran.stderr.decode("utf-8", "replace").strip().splitlines()
        raise ProgramError(f"{command[0]} {ended(ran.returncode)}" + (f": {said[-1][:200]}" if said else ""))
    return ran.stdout.decode("ascii", "replace").rstrip("\n")


def ended(status: int) -> str:
    """How a program ended, in words."""
    if status >= 0:
        return f"ended with status {status}"
    try:
        return f"was killed by the signal {signal.Signals(-status).name}"
    except ValueError:
        return f"was killed by the signal {-status}"


def no_answer(who: str, said: str) -> ProgramError:
    shown = said if len(said) <= 120 else said[:117] + "..."
    return ProgramError(f"{who} printed what is no verdict: {shown!r}")


def gapcheck(problem: bytes, low: bytes, high: bytes) -> Verdict:
    """Runs gapcheck on these very bytes."""
    path = str(program("gapcheck")[0])
    with scratch(dict(zip(STREAMS, (problem, low, high)))) as folder:
        said = run_program([path, *(str(folder / name) for name in STREAMS)])
    return pair_verdict(said.splitlines(), path)


def pair_verdict(lines: list[str], who: str = "gapcheck") -> Verdict:
    """What the lines of gapcheck say: a refusal, or bounds with the gap that is theirs. Raises ProgramError."""
    said = "\n".join(lines)
    refusal = _refusal(said)
    if refusal:
        return Verdict(lines, refusal)
    match = PAIR.fullmatch(said)
    if not match or re.search(r"/0+(\n|$)", said):
        raise no_answer(who, said)
    lower, upper, empty = Fraction(match[1]), Fraction(match[2]), match[3] == "empty"
    if empty != (lower > upper) or not empty and Fraction(match[3]) != upper - lower:
        raise ProgramError(f"{who} printed a gap that is not that of its bounds: {said!r}")
    return Verdict(lines, None, lower, upper, empty, int(match[4]))


def _refusal(said: str) -> Optional[Refusal]:
    match = REFUSAL.fullmatch(said)
    return Refusal(int(match[1]), int(match[2]), int(match[3]), int(match[4])) if match else None


def record(kind: str, *runs: bytes) -> bytes:
    """A record for `replay`: kind, lengths, runs."""
    return kind.encode() + b"".join(len(run).to_bytes(4, "little") for run in runs) + b"".join(runs)


def replay(data: bytes, command: Optional[list[str]] = None) -> tuple[str, str]:
    """Who answers one record, `replay` or another program that can, and its line."""
    command = command or [str(program("replay")[0])]
    return command[0], run_program(command, data)


def answered(kind: str, runs: Sequence[bytes], command: Optional[list[str]] = None) -> tuple[str, str]:
    """Who answers one record, and its line: the shared object where it is there and no `replay` is named, `replay`, or
    another program that can."""
    if command is None and "REPLAY" not in os.environ:
        try:
            said = library.line(kind, runs)
        except OSError as error:
            raise ProgramError(f"{library.VARIABLE}: {error}") from None
        if said:
            return said
    return replay(record(kind, *runs), command)


def check_one(problem: bytes, certificate: bytes, command: Optional[list[str]] = None) -> Verdict:
    """One certificate alone."""
    who, said = answered("c", (problem, certificate, b""), command)
    refusal = _refusal(said)
    if refusal:
        return Verdict([said], refusal)
    match = CHECK.fullmatch(said)
    if not match or match[2].endswith("/0"):
        raise no_answer(who, said)
    bound, upper = Fraction(match[2]), match[1] == "1"
    return Verdict([said], None, None if upper else bound, bound if upper else None, False, int(match[3]))


def judge(streams: Sequence[bytes]) -> Verdict:
    """A problem with two certificates by gapcheck, one with a single certificate by replay: by a program, whose hash is
    what a filing names."""
    if len(streams) == 3:
        return gapcheck(*streams)
    return check_one(streams[0], streams[1], [str(program("replay")[0])])


def check_pair(problem: bytes, low: bytes, high: bytes, command: Optional[list[str]] = None) -> list[str]:
    """The pair by `replay` or the reference, as the lines that gapcheck would print."""
    who, said = answered("p", (problem, low, high), command)
    if _refusal(said):
        return [said]
    match = PAIR_RECORD.match(said)
    if not match:
        raise no_answer(who, said)
    return [f"lower {match[1]}", f"upper {match[2]}", f"gap {match[3]}", f"rounds {match[4]}"]


def blocks_call(problem: bytes) -> Blocks | Refusal:
    """The blocks of a problem, by the checker itself."""
    who, said = answered("b", (problem, b"", b""))
    refusal = _refusal(said)
    if refusal:
        return refusal
    match = BLOCKS.fullmatch(said)
    if not match:
        raise no_answer(who, said)
    table = bytes.fromhex(match[4])
    numbers = [[x for x in table[64 * j:64 * j + 64] if x != 255] for j in range(9)]
    return Blocks(int(match[1]), int(match[2]), int(match[3]), numbers)
