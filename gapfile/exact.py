"""A plain exact check of its own, from documents 01 and 02: the joining rule, the identity, refusals 7 to 10.

It shares nothing with the checker. The tests hold the two together; `--second` uses it where it says so.
"""
from __future__ import annotations

from dataclasses import dataclass

from .commands import Monomial, ONE, key, monomial_of_key
from .reading import KEYS, Certificate, Problem, Refusal, Refused, read_certificate, read_problem


@dataclass
class Closure:
    """Block numbers by basis and index, the set S, what is compared, and the rounds done."""
    blocks: list[list[int]]
    support: set[int]
    compared: set[int]
    rounds: int


def closure(problem: Problem) -> Closure:
    """The rounds of the joining rule, to their end or to the order that the problem names."""
    bases = [[key(b) for b in basis] for basis in problem.bases]
    multipliers = [[key(t) for t in problem.multiplier(j)] for j in range(len(bases))]
    blocks = [list(range(len(basis))) for basis in bases]
    support = {key(e) for e in problem.objective} | {2 * b for b in bases[0]}
    for condition in problem.conditions:
        support |= {key(e) for e in condition.terms}
    rounds = 0
    while problem.order is None or rounds < problem.order:
        rounds += 1
        before, size = [list(b) for b in blocks], len(support)
        for j, basis in enumerate(bases):
            _join(basis, multipliers[j], support, blocks[j])
        for j, basis in enumerate(bases):
            if problem.rule == 1 or j == 0:
                support |= products(basis, multipliers[j], blocks[j])
        if blocks == before and len(support) == size:
            break
    compared = support | {0}
    for j, basis in enumerate(bases):
        compared |= products(basis, multipliers[j], blocks[j])
    return Closure(blocks, support, compared, rounds)


def _join(basis: list[int], multiplier: list[int], support: set[int], block: list[int]) -> None:
    """Joins two of a basis where t + b + b' is in the set; a block's number is its lowest index."""
    for a in range(len(basis)):
        for b in range(a + 1, len(basis)):
            low, high = sorted((block[a], block[b]))
            if low != high and any(t + basis[a] + basis[b] in support for t in multiplier):
                for k, number in enumerate(block):
                    if number == high:
                        block[k] = low


def products(basis: list[int], multiplier: list[int], block: list[int]) -> set[int]:
    """All t + b + b' with b and b' in one block."""
    sums = {basis[a] + basis[b] for a in range(len(basis)) for b in range(a, len(basis)) if block[a] == block[b]}
    return {s + t for s in sums for t in multiplier}


def left_side(problem: Problem, certificate: Certificate) -> dict[Monomial, int]:
    """D x (q x objective - p), both signs turned for an upper bound."""
    sign = certificate.scale * (1 if certificate.side == 0 else -1)
    side = {e: sign * certificate.q * c for e, c in problem.objective.items()}
    side[ONE] = side.get(ONE, 0) - sign * certificate.p
    return side


def right_side(problem: Problem, certificate: Certificate) -> dict[Monomial, int]:
    """T: the sum over rows of w x (sum of l x b)^2 x g_j."""
    squares: list[dict[int, int]] = [{} for _ in problem.bases]
    for row in certificate.rows:
        basis, sums = problem.bases[row.basis], squares[row.basis]
        entries = [(key(basis[i]), l) for i, l in row.entries.items()]
        for b, l in entries:
            for c, m in entries:
                sums[b + c] = sums.get(b + c, 0) + row.weight * l * m
    total: dict[int, int] = {}
    for j, sums in enumerate(squares):
        for t, c in problem.multiplier(j).items():
            for s, v in sums.items():
                total[s + key(t)] = total.get(s + key(t), 0) + c * v
    return {monomial_of_key(k): v for k, v in total.items()}


def differences(problem: Problem, certificate: Certificate) -> dict[Monomial, tuple[int, int]]:
    """Left and right of every monomial at which they differ."""
    left, right = left_side(problem, certificate), right_side(problem, certificate)
    return {e: (left.get(e, 0), right.get(e, 0)) for e in {*left, *right} if left.get(e, 0) != right.get(e, 0)}


def check(problem_stream: bytes, stream: bytes, number: int = 1) -> Certificate | Refusal:
    """The verdict on one certificate: itself, or its refusal."""
    try:
        problem = read_problem(problem_stream)
        closed = closure(problem)
        if len(closed.compared) > KEYS:
            return Refusal(7, 0, 0)
        certificate = read_certificate(stream, problem, number)
    except Refused as refused:
        return refused.refusal
    for row in certificate.rows:
        numbers = [(i, closed.blocks[row.basis][i]) for i in row.entries]
        outside = [i for i, block in numbers if block != numbers[0][1]]
        if outside:
            return Refusal(8, number, row.places[outside[0]])
    wrong = differences(problem, certificate)
    if wrong:
        return Refusal(9, number, 0, min(map(key, wrong)))
    return certificate


def check_lines(problem_stream: bytes, stream: bytes) -> list[str]:
    """The line of `replay` for one certificate."""
    found = check(problem_stream, stream)
    if isinstance(found, Refusal):
        return [found.line()]
    problem = read_problem(problem_stream)
    return [f"check {found.side} {found.p}/{found.q} rounds {closure(problem).rounds} rule {problem.rule}"]


def pair(problem_stream: bytes, low: bytes, high: bytes) -> list[str]:
    """The lines of gapcheck, with document 02's `gap empty`."""
    found: list[Certificate] = []
    for number, stream in ((1, low), (2, high)):
        verdict = check(problem_stream, stream, number)
        if isinstance(verdict, Refusal):
            return [verdict.line()]
        found.append(verdict)
    for number, certificate in enumerate(found):
        if certificate.side != number:
            return [Refusal(10, number + 1, 0).line()]
    a, b = found
    gap = b.p * a.q - a.p * b.q
    said = "empty" if gap < 0 else f"{gap}/{a.q * b.q}"
    return [f"lower {a.p}/{a.q}", f"upper {b.p}/{b.q}", f"gap {said}",
            f"rounds {closure(read_problem(problem_stream)).rounds}"]
