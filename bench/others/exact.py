#!/usr/bin/env python3
"""exact.py FILE SECONDS [sympy]: the same as exact.cpp, with Python's whole numbers, or with sympy's polynomials: reads one record,
says whether both identities of the pair hold, and prints the nanoseconds of one pair, the least of the runs that fit the seconds
(one at least). It takes streams as they should be: it refuses nothing, makes no blocks and keeps no limits."""
import sys
import time
from collections import defaultdict


def number(stream, at, width, signed=False):
    return int.from_bytes(stream[at:at + width], "little", signed=signed)


def problem_of(stream):
    """The objective, the multipliers and the bases; polynomials by key."""
    objective, multipliers, bases, at = {}, [{0: 1}], defaultdict(list), 0
    while stream[at] != 0x06:
        command = stream[at]
        if command == 0x02:
            objective[number(stream, at + 1, 8)] = number(stream, at + 9, 4, True)
        elif command in (0x03, 0x07):
            multipliers.append({})
        elif command == 0x04:
            multipliers[-1][number(stream, at + 1, 8)] = number(stream, at + 9, 2, True)
        elif command == 0x05:
            bases[stream[at + 1]].append(number(stream, at + 2, 8))
        at += {0x01: 2, 0x02: 13, 0x03: 1, 0x04: 11, 0x05: 10, 0x07: 1, 0x08: 2, 0x09: 2}[command]
    return objective, multipliers, bases


def rows_of(stream, bases):
    """(basis, weight, factors by key), row by row."""
    at = 10
    while stream[at] != 0x13:
        j, weight, form = stream[at + 1], number(stream, at + 2, 2, stream[at] == 0x14), {}
        at += 4
        while stream[at] in (0x12, 0x15):
            width = 2 if stream[at] == 0x12 else 4
            form[bases[j][stream[at + 1]]] = number(stream, at + 2, width, True)
            at += 2 + width
        yield j, weight, form


def claim_of(stream):
    """side, D, p, q."""
    return (-1 if stream[1] else 1), number(stream, 2, 2), number(stream, 4, 4, True), number(stream, 8, 2)


def holds(problem, stream):
    objective, multipliers, bases = problem
    side, scale, p, q = claim_of(stream)
    total = defaultdict(int)
    for j, weight, form in rows_of(stream, bases):
        square = defaultdict(int)
        for a, x in form.items():
            for b, y in form.items():
                square[a + b] += x * y
        for a, x in square.items():
            for t, g in multipliers[j].items():
                total[a + t] += weight * x * g
    for key, c in objective.items():
        total[key] -= side * scale * q * c
    total[0] += side * scale * p
    return not any(total.values())


def holds_in_sympy(problem, stream):
    import sympy
    unknowns = sympy.symbols("x1:9")

    def polynomial(terms):
        return sympy.Poly({tuple(key.to_bytes(8, "little")): c for key, c in terms.items()} or 0, *unknowns, domain="ZZ")

    objective, multipliers, bases = problem
    side, scale, p, q = claim_of(stream)
    total = -side * scale * (q * polynomial(objective) - p)
    for j, weight, form in rows_of(stream, bases):
        total += weight * polynomial(form) ** 2 * polynomial(multipliers[j])
    return total.is_zero


def main():
    if len(sys.argv) not in (3, 4):
        sys.exit("usage: exact.py FILE SECONDS [sympy]")
    record = open(sys.argv[1], "rb").read()
    streams, at = [], 13
    for i in range(3):
        length = number(record, 1 + 4 * i, 4)
        streams.append(record[at:at + length])
        at += length
    check = holds_in_sympy if len(sys.argv) == 4 else holds
    if check is holds_in_sympy:
        import sympy  # not timed
        sympy.symbols("x1")
    least, until = None, time.perf_counter() + float(sys.argv[2])
    while least is None or time.perf_counter() < until:
        begun = time.perf_counter()
        problem = problem_of(streams[0])
        if not (check(problem, streams[1]) and check(problem, streams[2])):
            sys.exit("an identity does not hold")
        took = time.perf_counter() - begun
        least = took if least is None else min(least, took)
    print(round(least * 1e9))


main()
