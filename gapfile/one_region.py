"""Two filings of one region whose streams have different conditions, stated with the same ones.

Finding a certificate may add products of conditions to a stream, or leave a condition out; so two models with the same
ranges and conditions can be sent with different ones. Each condition that was sent follows from the models', which
`restating` has checked. With all of them, in one order, the two problems have one region for the proved call, which
judges both pairs again: a condition more, without rows, changes no row, and its basis is empty. Where these are too
many, those that no row is on are left out: the region is larger then, and the bounds hold on it all the more.
"""
from __future__ import annotations

from typing import Iterator, Optional

from .commands import CERTIFICATE, Kind, write_command
from .figures import Figures
from .polynomials import Polynomial, ordered, whole
from .problem import encode_problem
from .reading import LIMITS, Condition, Problem, read_certificate, read_problem, walk

Both = tuple[list[bytes], list[bytes]]           # the three streams of each


def same_models(first: Optional[Figures], second: Optional[Figures]) -> bool:
    """Whether both have a model, with the same variables, ranges and conditions, the last in any order."""
    if first is None or second is None:
        return False
    return ([(v.name, v.range) for v in first.model.variables] == [(v.name, v.range) for v in second.model.variables]
            and _forms(first) == _forms(second))


def _forms(figures: Figures) -> set[tuple[bool, tuple[tuple[object, int], ...]]]:
    """The conditions of a model, each by its kind and its whole coefficients without a common factor."""
    return {(where.equality, _form(where.polynomial)) for where in figures.model.conditions}


def _form(polynomial: Polynomial) -> tuple[tuple[object, int], ...]:
    terms = whole(polynomial)[0]
    return tuple((e, terms[e]) for e in ordered(terms))


def on_one_region(first: list[bytes], second: list[bytes]) -> Iterator[Both]:
    """The streams of both with the conditions of both, each once, and then with those that rows are on; as far as they
    are no more than are allowed. None where a stream has one twice, whose two bases would have one place."""
    problems = [read_problem(first[0]), read_problem(second[0])]
    if any(problem.conditions.count(c) > 1 for problem in problems for c in problem.conditions):
        return
    for used in (False, True):
        together: list[Condition] = []
        for streams, problem in zip((first, second), problems):
            wanted = _used(streams, problem) if used else problem.conditions
            together += [condition for condition in wanted if condition not in together]
        if len(together) <= LIMITS["conditions"]:
            one, other = (_restated(streams, problem, together) for streams, problem in zip((first, second), problems))
            yield one, other


def _used(streams: list[bytes], problem: Problem) -> list[Condition]:
    """The conditions that a row of either certificate is on."""
    numbers = {row.basis for stream in streams[1:] for row in read_certificate(stream, problem).rows}
    return [condition for number, condition in enumerate(problem.conditions, 1) if number in numbers]


def _restated(streams: list[bytes], problem: Problem, together: list[Condition]) -> list[bytes]:
    """Three streams with these conditions, among which are all that have rows; bases and rows follow their own."""
    places = {0: 0}
    bases = [problem.bases[0]] + [[] for _ in together]
    for number, condition in enumerate(problem.conditions, 1):
        if condition in together:
            places[number] = together.index(condition) + 1
            bases[places[number]] = problem.bases[number]
    made = Problem(problem.variables, problem.objective, together, bases, problem.rule, problem.order)
    return [encode_problem(made), *(_renumbered(stream, places) for stream in streams[1:])]


def _renumbered(stream: bytes, places: dict[int, int]) -> bytes:
    """The certificate with its rows on the conditions' new numbers."""
    out = bytearray()
    for command in walk(stream, Kind.CERTIFICATE, 1, lambda _: None):
        byte = command.layout.byte
        if byte in (0x11, 0x14):
            basis, weight = command.numbers
            out += write_command(CERTIFICATE[byte], (places[basis], weight))
        else:
            out += stream[command.place:command.place + command.layout.length]
    return bytes(out)
