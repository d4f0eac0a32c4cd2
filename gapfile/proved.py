"""The proved calls of the requests, one function a call; what is asked here is decided nowhere else.

The shared object of the C functions answers a record by the call that is proved, or `replay` where that is not there,
and `weekcheck` a file of records by the report. What they say is read strictly, as in programs: an answer has one form,
and a refusal is one of the call's own.
"""
from __future__ import annotations

import re
from dataclasses import dataclass
from fractions import Fraction
from typing import Optional, Sequence

from .library import ARRIVAL
from .programs import ProgramError, answered, no_answer, program, run_program
from .reading import Refusal
from .writing import scratch

LONGEST = 65_536                 # bytes of a run of a record
LONGEST_WEEK = 7_340_032         # bytes that weekcheck reads
MOST_ARRIVALS = LONGEST // ARRIVAL.size
BOUND = r"-?[0-9]{1,20}/[1-9][0-9]{0,19}"
REFUSED = re.compile(r"refused ([0-9]{1,2}) ([0-5]) ([0-9]{1,10}) ([0-9]{1,20})")
SYMMETRIES = re.compile(r"symmetries ([0-9]{1,3}) ([0-9a-f]{512})")
TIGHTER = re.compile(r"tighter ((?:[0-9a-f]{2})*)")
OFFICE = re.compile(rf"office ([01]) ({BOUND}) rounds ([0-9]{{1,10}}) rule ([12]) notes ([0-9]{{1,5}}) "
                    "((?:[0-9a-f]{2})*)")
OUTCOME = re.compile(r"([0-9]{1,20}/[1-9][0-9]{0,19}) ([0-9]{1,2})|14")
SUM = re.compile(rf"sum ({BOUND}) ({BOUND}) rules ([12]) ([12])")
ADJUSTED = re.compile(rf"adjusted ({BOUND})")
OF_WEEK = re.compile(rf"([0-9]{{1,2}}) (?:lower ({BOUND}) upper ({BOUND})|(refused .*))")
LAST_OF_WEEK = re.compile(rf"accepted ([0-9]{{1,2}}) lower ({BOUND}|0/0) upper ({BOUND}|0/0)")

Streams = Sequence[bytes]        # a problem, a lower and an upper certificate


@dataclass(frozen=True)
class Office:
    """The office's check: side, bound as stated, rounds, rule, and the notes of 8 bytes, in order."""
    line: str
    upper: bool
    bound: str
    notes: list[bytes]


@dataclass(frozen=True)
class Widest:
    """The widest gap held, as it arrived, and how many were accepted since."""
    gap: str
    age: int


@dataclass(frozen=True)
class Added:
    """The sums of the lower and of the upper bounds, as stated, and the joining rule of each problem."""
    line: str
    lower: str
    upper: str
    rules: tuple[int, int]


@dataclass(frozen=True)
class Reported:
    """A record of a report: its refusal, or both bounds as stated."""
    refusal: Optional[Refusal]
    lower: str = ""
    upper: str = ""

    @property
    def empty(self) -> bool:
        """Whether the bounds cross, so that no point meets all the conditions."""
        return self.refusal is None and Fraction(self.lower) > Fraction(self.upper)


@dataclass(frozen=True)
class Report:
    """A report: its records, and of those accepted the smallest lower and the largest upper bound, `0/0` for none."""
    lines: list[str]
    records: list[Reported]
    lower: str
    upper: str

    @property
    def accepted(self) -> int:
        return sum(one.refusal is None for one in self.records)


def symmetries(problem: bytes, command: Optional[list[str]] = None) -> list[int] | Refusal:
    """Request 01: the masks of the sign symmetries, rising; bit i - 1 stands for variable i."""
    who, said = _ask("s", (problem, b"", b""), command)
    if refusal := refusal_of(said):
        return refusal
    match = SYMMETRIES.fullmatch(said)
    count = int(match[1]) if match else 0
    masks = list(bytes.fromhex(match[2])) if match else []
    if masks[count:] != [0] * (256 - count) or masks[:count] != sorted(set(masks[:count])) or masks[:1] != [0]:
        raise no_answer(who, said)
    return masks[:count]


def tighter(problem: bytes, first: bytes, second: bytes, command: Optional[list[str]] = None) -> bytes | Refusal:
    """Request 02: the bytes of the certificate that supersedes, which are those of one of the two."""
    who, said = _ask("t", (problem, first, second), command)
    if refusal := refusal_of(said):
        return refusal
    match = TIGHTER.fullmatch(said)
    found = bytes.fromhex(match[1]) if match else b""
    if not match or found not in (first, second):
        raise no_answer(who, said)
    return found


def report(records: bytes) -> Report | Refusal:
    """Request 07: the report on the records of a week, or refusal 12."""
    if len(records) > LONGEST_WEEK:
        raise ProgramError(f"the week has {len(records):,} bytes; weekcheck reads {LONGEST_WEEK:,}")
    path = str(program("weekcheck")[0])
    with scratch({"week.bin": records}) as folder:
        said = run_program([path, str(folder / "week.bin")])
    return read_report(said, path)


def read_report(said: str, who: str) -> Report | Refusal:
    """What the lines of weekcheck say. Raises ProgramError where they do not go together."""
    if refusal := refusal_of(said):
        return refusal
    lines = said.splitlines()
    last = LAST_OF_WEEK.fullmatch(lines[-1]) if lines else None
    found = [OF_WEEK.fullmatch(line) for line in lines[:-1]]
    out = []
    for number, match in enumerate(found, 1):
        refusal = refusal_of(match[4]) if match and match[4] else None
        if not match or match[1] != str(number) or match[4] and not refusal:
            raise no_answer(who, said)
        out.append(Reported(refusal, match[2] or "", match[3] or ""))
    if not last:
        raise no_answer(who, said)
    made = Report(lines, out, last[2], last[3])
    bounds = [(Fraction(one.lower), Fraction(one.upper)) for one in out if not one.refusal]
    wanted = (min(a for a, _ in bounds), max(b for _, b in bounds)) if bounds else ("0/0", "0/0")
    told = (Fraction(last[2]), Fraction(last[3])) if bounds and "0/0" not in (last[2], last[3]) else (last[2], last[3])
    if int(last[1]) != made.accepted or told != wanted:
        raise ProgramError(f"{who} printed a last line that is not that of its records: {lines[-1]!r}")
    return made


def office(problem: bytes, certificate: bytes, command: Optional[list[str]] = None) -> Office | Refusal:
    """Request 10: the verdict on a certificate that may have notes, with a buffer that can hold them all."""
    room = bytes(len(certificate) // 9 * 8)
    who, said = _ask("n", (problem, certificate, room), command)
    if refusal := refusal_of(said):
        return refusal
    match = OFFICE.fullmatch(said)
    left = bytes.fromhex(match[6]) if match else b""
    used = 8 * int(match[5]) if match else 0
    if not match or len(left) != len(room) or used > len(left) or any(left[used:]):
        raise no_answer(who, said)
    notes = [left[at:at + 8] for at in range(0, used, 8)]
    return Office(said[:match.start(6)].rstrip(), match[1] == "1", match[2], notes)


def window(arrivals: Sequence[tuple[int, int]], command: Optional[list[str]] = None) -> list[Optional[Widest]]:
    """Request 11: for each arrival, from an empty state on, the widest of the last 32 accepted; None at refusal 14."""
    who, said = _ask("w", (b"".join(ARRIVAL.pack(*one) for one in arrivals), b"", b""), command)
    outcomes = said.removeprefix("window").strip().split("; ") if arrivals else []
    found = [OUTCOME.fullmatch(outcome) for outcome in outcomes]
    if not said.startswith("window") or len(found) != len(arrivals):
        raise no_answer(who, said)
    out: list[Optional[Widest]] = []
    for match in found:
        if not match:
            raise no_answer(who, said)
        out.append(Widest(match[1], int(match[2])) if match[1] else None)
    return out


def added(first: Streams, second: Streams, command: Optional[list[str]] = None) -> Added | Refusal:
    """Request 12: the bounds of the sum of two objectives over one region; the second's streams are 3 to 5."""
    who, said = _ask("d", (*first, *second), command)
    if refusal := refusal_of(said):
        return refusal
    match = SUM.fullmatch(said)
    if not match:
        raise no_answer(who, said)
    return Added(said, match[1], match[2], (int(match[3]), int(match[4])))


def adjusted(problem: bytes, certificate: bytes, changes: bytes, command: Optional[list[str]] = None) -> str | Refusal:
    """Request 13: the bound, as stated, below which no changed objective goes. Changes are 12 bytes each."""
    who, said = _ask("a", (problem, certificate, changes), command)
    if refusal := refusal_of(said):
        return refusal
    match = ADJUSTED.fullmatch(said)
    if not match:
        raise no_answer(who, said)
    return match[1]


def refusal_of(said: str) -> Optional[Refusal]:
    """The refusal that a line tells, None where it tells none."""
    match = REFUSED.fullmatch(said)
    return Refusal(int(match[1]), int(match[2]), int(match[3]), int(match[4])) if match else None


def _ask(kind: str, runs: Sequence[bytes], command: Optional[list[str]]) -> tuple[str, str]:
    """Who answers the record, and its line. A run that is too long for a record would not be read: it is not sent."""
    longest = max(map(len, runs))
    if longest > LONGEST:
        raise ProgramError(f"a file of {longest:,} bytes is longer than any stream that can be accepted; "
                           f"{LONGEST:,} are read")
    return answered(kind, runs, command)
