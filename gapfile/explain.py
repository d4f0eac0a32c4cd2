"""What a refusal means: the line of text at its place, the rule it breaks, and what can be seen there. And what an
empty gap means."""
from __future__ import annotations

import hashlib
from fractions import Fraction
from typing import Mapping, Optional

from .commands import (ONE, TABLE, Kind, Monomial, fits, key, kind_of, monomial_of_key, monomial_text,
                       polynomial_text)
from .decimals import counted, fraction
from .exact import closure, differences, left_side, products, right_side
from .programs import Verdict, blocks_call
from .reading import KEYS, Certificate, Problem, Refusal, read_certificate, read_problem
from .text import DEFAULT_NAMES, Decoded, decode, refusal_of
from .writing import STREAMS as FILES

RULES = {
    1: "a lent table is too short",
    2: "the stream is cut, has no end, or goes on after its end",
    3: "the command is unknown in this stream or misplaced",
    4: "an operand is outside its rule",
    5: "a monomial is repeated, or an index does not rise",
    6: "one more than a count allows",
    7: f"the closed support with the zero exponent is above {KEYS:,}",
    8: "a row has entries in two blocks",
    9: "the identity is false",
    10: "the first certificate is no lower bound, or the second no upper one",
    11: "both certificates are accepted, and one is a lower bound and the other an upper one",
    12: "a record of the week is cut short, or a byte follows the 64th",
    13: "the buffer cannot hold all notes",
    14: "a gap is below 0 or from 2^48, or its denominator is 0 or from 2^32",
    15: "the regions of the two problems differ",
    16: "some variable has no inequality that is exactly 1 - x^2",
    17: "an upper certificate, where a lower one is asked for",
}
STREAMS = ("the problem", "the first certificate", "the second certificate")
ADVICE = {
    1: "what to do: lend tables of the lengths that include/zamiachisel.h names; the streams were not looked at",
    2: "what to do: copy the file again from where it was made, its end is not what it was; `gapfile decode FILE` "
       "shows it up to here",
    3: "what to do: see with `gapfile decode FILE` what stands before it; a byte changed there, or the command is one "
       "that this place does not have",
    4: "what to do: correct this operand in the text that `gapfile decode FILE` prints, and `gapfile encode` it; or "
       "make the certificate for this very problem",
    5: "what to do: join the two terms, or leave the second one out, in the text that `gapfile decode FILE` prints; "
       "indices of a row rise",
    6: "what to do: leave some out; for a model of your own take fewer terms, variables or conditions, or a lower "
       "degree",
    7: "what to do: take smaller bases, first where most come from nowhere else",
    8: "what to do: split the row by blocks; `gapfile blocks` shows them all",
    9: "what to do: see with `gapfile decode --problem PROBLEM FILE` which rows reach these monomials; a certificate "
       "that `gapfile file` makes of the model anew has none",
    10: "what to do: the first must say `lower` and the second `upper`: exchange the files, or find the missing one",
    11: "what to do: give two lower certificates, or two upper ones; a lower bound never supersedes an upper one",
    12: "what to do: write the file again with `gapfile week DIR.. -o week.bin`, with at most 64 folders",
    13: "what to do: lend 8 bytes for each note",
    14: "what to do: send gaps as gapcheck prints them; an empty gap is no gap",
    15: "what to do: file both models with the same variables, ranges and conditions, in the same order",
    16: "what to do: file the model with a range for every variable, mapped to -1 .. 1, which is sent as 1 - u^2",
    17: "what to do: name the lower certificate",
}
OTHER = 0.5                      # where more of the monomials differ, the certificate is likely one of another problem


def explain(refusal: Refusal, problem_stream: bytes, low: bytes, high: Optional[bytes],
            names: Optional[list[str]] = None, sums: Optional[bytes] = None) -> list[str]:
    """Lines on a refusal that the checker gave for these bytes, of a pair or of one certificate; the last one says what
    to do."""
    names = names or DEFAULT_NAMES
    streams = (problem_stream, low, high or b"")
    where = f", in {STREAMS[refusal.stream]}" if refusal.number <= 10 else ""      # later ones are of the whole call
    lines = [refusal.line(), f"{RULES.get(refusal.number, 'unknown refusal')}{where}"]
    files = FILES if high is not None else (FILES[0], "the certificate")
    lines += _seen(refusal, streams, names) + exchanged(streams) + changed(dict(zip(files, streams)), sums)
    return lines + [ADVICE.get(refusal.number, "what to do: ask for the gapfile of this gapcheck")]


def _seen(refusal: Refusal, streams: tuple[bytes, bytes, bytes], names: list[str]) -> list[str]:
    """What can be seen at the place of a refusal."""
    problem_stream, stream = streams[0], streams[refusal.stream]
    if refusal.number == 1 or refusal.number > 10:
        return []
    if refusal.number <= 6:
        return _place(refusal, stream, problem_stream, names)
    problem = read_problem(problem_stream)
    if refusal.number == 7:
        return count_by_basis(problem)
    decoded = decode(stream, names, problem, Kind.CERTIFICATE)
    if refusal.number == 10:
        return [_line(decoded, 0)]
    certificate = read_certificate(stream, problem, refusal.stream)
    if refusal.number == 8:
        return _row(refusal, problem, problem_stream, certificate, decoded, names)
    first = monomial_text(monomial_of_key(refusal.key), names)
    return [_line(decoded, 0), f"the smallest key that differs is {refusal.key}, that of {first}",
            *identity(problem, certificate, names)]


def exchanged(streams: tuple[bytes, bytes, bytes]) -> list[str]:
    """Whether the files stand in each other's places, by their first bytes."""
    kinds = [kind_of(stream) if stream else None for stream in streams]
    if kinds[0] is Kind.CERTIFICATE:
        where = [name for name, kind in zip(STREAMS[1:], kinds[1:]) if kind is Kind.PROBLEM]
        return [f"the problem begins as a certificate does{', and ' + where[0] + ' as a problem' if where else ''}: "
                "the files are exchanged"]
    for name, kind in zip(STREAMS[1:], kinds[1:]):
        if kind is Kind.PROBLEM:
            return [f"{name} begins as a problem does: the files are exchanged"]
    if streams[1] and streams[1] == streams[2]:
        return ["both certificates are the same file"]
    if [stream[:2] for stream in streams[1:]] == [b"\x10\x01", b"\x10\x00"]:
        return ["the first certificate states an upper bound and the second a lower one: the files are exchanged"]
    return []


def changed(streams: Mapping[str, bytes], sums: Optional[bytes]) -> list[str]:
    """Which of the files are not those that SUMS beside them lists."""
    if sums is None:
        return []
    listed = sums.decode("utf-8", "replace").split()
    wrong = [name for name, stream in streams.items() if hashlib.sha256(stream).hexdigest() not in listed]
    if not wrong:
        return [f"{'all three' if len(streams) == 3 else 'both'} files are those that SUMS lists"]
    return [f"{name} is not the file that SUMS lists: it was changed, or is of another filing" for name in wrong]


def _line(decoded: Decoded, place: int) -> str:
    """The line of text at a place."""
    number, text = decoded.line_at(place)
    return f"line {number}, byte {place}: {text}"


def explain_empty(verdict: Verdict, problem_stream: bytes, streams: list[bytes],
                  names: Optional[list[str]] = None) -> list[str]:
    """Lines on an empty gap: each bound holds wherever the conditions do that its rows are on, so these contradict each
    other."""
    assert verdict.lower is not None and verdict.upper is not None
    problem = read_problem(problem_stream)
    rows = [row for number, stream in enumerate(streams, 1) for row in read_certificate(stream, problem, number).rows]
    low, high = fraction(verdict.lower), fraction(verdict.upper)
    lines = [f"accepted, and the bounds cross: at least {low} and at most {high}, so no point meets all the "
             "conditions", "those with rows contradict each other:"]
    for j in sorted({row.basis for row in rows if row.basis > 0}):
        condition = problem.conditions[j - 1]
        lines.append(f"  condition {j}: {polynomial_text(condition.terms, names or DEFAULT_NAMES)} "
                     f"{'=' if condition.equality else '>='} 0")
    return lines


def _place(refusal: Refusal, stream: bytes, problem_stream: bytes, names: list[str]) -> list[str]:
    """Refusals 2 to 6: the line at the place, and the rule in words."""
    kind = Kind.CERTIFICATE if refusal.stream else Kind.PROBLEM
    problem = read_problem(problem_stream) if refusal.stream else None
    decoded = decode(stream, names, problem, kind)
    if refusal.place < len(stream):
        lines = [_line(decoded, refusal.place)]
    else:
        count = len([line for line in decoded.lines if line.text])
        lines = [f"after line {count}, at byte {refusal.place}, the end of the file"]
    own = refusal_of(stream, kind, problem, refusal.stream)
    if own and (own.number, own.place) == (refusal.number, refusal.place):
        return lines + [f"why: {own.why}"]
    byte = stream[refusal.place] if refusal.place < len(stream) else None
    if refusal.number == 3 and byte in TABLE[kind]:
        return lines + [f"why: this gapcheck does not read command {byte:02X} (`{TABLE[kind][byte].word}`) here"]
    return lines


def count_by_basis(problem: Problem) -> list[str]:
    """Refusal 7: how many monomials each basis brings, and how many of them no other brings."""
    closed = closure(problem)
    sets = {"objective": {key(e) for e in problem.objective}}
    for j, basis in enumerate(problem.bases):
        terms = [key(t) for t in problem.multiplier(j)]
        keys = [key(b) for b in basis]
        sets[f"basis {j}"] = products(keys, terms, closed.blocks[j]) | ({2 * b for b in keys} if j == 0 else set(terms))
    lines = [f"{len(closed.compared)} monomials, {len(closed.compared) - KEYS} too many; by basis:"]
    for name, found in sets.items():
        others = set().union(*(s for n, s in sets.items() if n != name))
        lines.append(f"  {name}: {len(found)}, of them {len(found - others)} from nowhere else")
    return lines


def _row(refusal: Refusal, problem: Problem, problem_stream: bytes, certificate: Certificate, decoded: Decoded,
         names: list[str]) -> list[str]:
    """Refusal 8: the row, its entries and their blocks."""
    row = max((r for r in certificate.rows if r.place <= refusal.place), key=lambda r: r.place)
    lines = [_line(decoded, row.place)]
    found = blocks_call(problem_stream)
    if isinstance(found, Refusal):
        return lines
    basis, numbers = problem.bases[row.basis], found.numbers[row.basis]
    shown = {i: monomial_text(basis[i], names) for i in row.entries}
    wide = max(map(len, shown.values()))
    for i, factor in row.entries.items():
        mark = "   <- the first entry outside the row's first block" if row.places[i] == refusal.place else ""
        lines.append(f"line {decoded.line_at(row.places[i])[0]}: entry {i}, factor {factor}, {shown[i]:<{wide}}  "
                     f"block {numbers[i]}{mark}")
    for number in sorted({numbers[i] for i in row.entries}):
        members = [monomial_text(b, names) for b, n in zip(basis, numbers) if n == number]
        lines.append(f"block {number} of basis {row.basis}: {'  '.join(members)}")
    return lines


def identity(problem: Problem, certificate: Certificate, names: list[str]) -> list[str]:
    """Refusal 9: every monomial that differs, largest difference first."""
    wrong = differences(problem, certificate)
    unit = certificate.scale * certificate.q
    order: list[Monomial] = sorted(wrong, key=lambda e: (-abs(wrong[e][1] - wrong[e][0]), key(e)))
    left = "D x (p - q x objective)" if certificate.side else "D x (q x objective - p)"
    lines = [f"{counted(len(order), 'monomial')} {'differs' if len(order) == 1 else 'differ'}; the left is {left}, "
             f"the right the sum of the rows; D x q is {unit}"]
    shown = [(monomial_text(e, names), *map(str, wrong[e]), str(wrong[e][1] - wrong[e][0])) for e in order]
    wide = [max(len(row[k]) for row in shown) for k in range(4)]
    for e, (text, *numbers) in zip(order, shown):
        columns = zip(("left", "right", "difference"), numbers, wide[1:])
        said = "  ".join(f"{word} {number:>{width}}" for word, number, width in columns)
        units = (wrong[e][1] - wrong[e][0]) / unit
        lines.append(f"  {text:<{wide[0]}}  {said}  ({units:.3g} in the objective's units)")
    if order == [ONE]:
        return lines + [proved_instead(problem, certificate, wrong[ONE][1])]
    if len(order) > 2 and len(order) > OTHER * len({*left_side(problem, certificate),
                                                    *right_side(problem, certificate)}):
        lines.append("most monomials differ: this is likely a certificate of another problem")
    return lines


def proved_instead(problem: Problem, certificate: Certificate, right: int) -> str:
    """The bound that the rows prove, where only the constant differs: the left side has it in its constant alone."""
    word, sign = ("upper", 1) if certificate.side else ("lower", -1)
    bound = problem.objective.get(ONE, 0) + sign * Fraction(right, certificate.scale * certificate.q)
    p = bound * certificate.q
    if p.denominator == 1 and fits("i32", int(p)):
        how = f"with `{word} {p}/{certificate.q} scale {certificate.scale}` as its first line it is accepted"
    else:
        how = "no p and q of its first line say that with this D"
    return f"only the constant differs: these rows prove the {word} bound {fraction(bound)}; {how}"
