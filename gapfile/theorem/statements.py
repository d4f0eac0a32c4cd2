"""figure.v: one file for Coq whose theorems say over the real numbers what a folder says.

Over the streams `figure` and `gap`. Where there is a model: `model` with the exact bounds in its words,
`attained_lower` and `attained_upper`, and at the end what a person compares: `differ` and `quoted`, with the decimals
of the sheet. A filing of one side has its bound in each, and neither `gap` nor `differ`. Nobody has to believe what is
written here, only that the statements are those that are meant: Coq checks the rest.
"""
from __future__ import annotations

import re
from fractions import Fraction
from pathlib import Path
from typing import Mapping, Optional, Sequence

from ..figures import Figures
from .hints import following
from .streams import Given, certificate_data, formula, listed, problem_data, read_certificate, read_problem
from .words import primed, read_model, spelled

RULES = Path(__file__).parent / "rules.v"
NAMES = ("low", "high")
NUMBER = re.compile(r"-?[0-9]+(\.[0-9]+)?")
BY_CERTIFICATES = (
    "intros. assert (m : Forall (meets {}) conditions).\n"
    "  {{ repeat apply Forall_cons; try apply Forall_nil; unfold meets, value; simpl; lra. }}\n"
    "  {}\n"
    "  clear - {}. unfold value in *. simpl in *. lra.")
Bounds = dict[int, Fraction]                                 # by side, those that are claimed


def figure_file(streams: Sequence[bytes], figures: Optional[Figures]) -> str:
    """The whole file, of a problem and one or two certificates that the checker accepted, and of the figures where they
    have a model."""
    given, claims = read_problem(streams[0]), [read_certificate(stream) for stream in streams[1:]]
    supports: dict[str, str] = {}
    checks = "the two checks" if len(claims) == 2 else "the check"
    parts = [RULES.read_text("utf-8"), f"(* The streams as data, and {checks}. *)", *problem_data(given)]
    for claim in claims:
        parts += certificate_data(NAMES[claim.side], -1 if claim.side else 1, claim, given, supports)
    bounds = {claim.side: claim.bound for claim in claims}
    parts += ["\n(* What they say. *)", *over_the_streams(given, bounds)]
    if figures:
        parts += in_the_model(figures, given, bounds)
    proved = re.findall(r"^Theorem (\w+) : (?:forall|exists)", "\n".join(parts), re.M)
    return "\n".join([*parts, f"\nDefinition all := ({', '.join(proved)}).", "Print Assumptions all.", ""])


def between(bounds: Mapping[int, object], value: str) -> str:
    """What is claimed of a value: both bounds, or one."""
    return (f"{bounds[0]} <= " if 0 in bounds else "") + value + (f" <= {bounds[1]}" if 1 in bounds else "")


def over_the_streams(given: Given, bounds: Bounds) -> list[str]:
    names = [f"x{i}" for i in range(1, given.variables + 1)]
    conditions = [f"{formula(g, names)} = 0" if equality else f"0 <= {formula(g, names)}"
                  for equality, g in given.conditions[1:]]
    value = formula(given.objective, names)
    steps = " ".join(f"assert ({NAMES[side][0]} := sound _ _ _ _ _ _ _ _ {NAMES[side]}_ok m)." for side in bounds)
    proof = BY_CERTIFICATES.format(listed(names), steps, " ".join(NAMES[side][0] for side in bounds))
    out = [theorem("figure", names, conditions, between(bounds, value), proof)]
    if len(bounds) == 1:
        return out
    gap = bounds[1] - bounds[0]
    return [*out, empty("gap", "figure", names, conditions) if gap < 0
            else differing("gap", "figure", names, conditions, value, gap)]


def in_the_model(figures: Figures, sent: Given, sent_bounds: Bounds) -> list[str]:
    """The theorems in the words of the model."""
    names, given, value = read_model(figures.model.written)
    bounds = {side: bound / figures.factor for side, bound in sent_bounds.items()}
    out = ["\n(* In the words of the model: exact bounds, and values that are attained. *)",
           theorem("model", names, given, between(bounds, value), by_the_stream(figures, names, given, value, sent))]
    for word, reached in zip(("lower", "upper"), figures.reached):
        if reached:
            out.append(f"\nTheorem attained_{word} : exists {' '.join(names)} : R,\n  "
                       + " /\\\n  ".join([*given, f"{value} = {reached.value}"]) + ".\nProof.\n  exists "
                       + ", ".join(f"({x})" for x in reached.point) + ". repeat apply conj; lra.\nQed.")
    title = f", {spelled(figures.model.title)}," if figures.model.title else ""
    out.append(f"\n(* To be compared with the model{title} and with the sheet. *)")
    if figures.verdict.empty:
        return [*out, empty("quoted", "model", names, given)]
    decimals = {q.name: q.decimal for q in figures.quoted}
    if figures.not_claimed:
        return [*out, one_sided(figures.sides[0], names, given, value, bounds, figures.quoted[0].decimal)]
    return [*out, differing("differ", "model", names, given, value, decimals["gap"]),
            theorem("quoted", names, given, between({0: decimals["lower"], 1: decimals["upper"]}, value),
                    f"intros {' '.join(names)} {hypotheses(given)}.\n"
                    f"  apply (rounded _ _ _ _ _ {at('model', names, given)}); lra.")]


def by_the_stream(figures: Figures, names: list[str], given: list[str], value: str, sent: Given) -> str:
    """The proof of `model` from `figure`: the map of the variables, and that the stream's conditions follow."""
    moved, inner = "", list(names)
    for i, (name, v) in enumerate(zip(names, figures.variables)):
        if v.middle or v.half != 1:
            inner[i] = f"u'{i}"
            moved += f"\n  destruct (affine ({v.middle}) ({v.half}) {name} ltac:(lra)) as [{inner[i]} ->]."
    numbers = " numbers." if re.search(r"/\s*[^\s0-9]", " ".join([value, *given])) else ""
    proof = [f"intros {' '.join(names)}.{numbers}{moved}", f"intros {hypotheses(given)}.",
             f"pose proof (figure {' '.join(inner)}) as b'0.", *following(figures, given, sent, inner),
             "clear - b'0. lra."]
    return "\n  ".join(proof)


def one_sided(side: int, names: list[str], given: list[str], value: str, bounds: Bounds, decimal: str) -> str:
    """`quoted` of one side alone: the decimal is beyond the exact bound of `model`."""
    exact = f"exact {at('model', names, given)}"
    steps = f"[lra | {exact}]" if side == 0 else f"[{exact} | lra]"
    return theorem("quoted", names, given, between({side: decimal}, value),
                   f"intros {' '.join(names)} {hypotheses(given)}.\n"
                   f"  apply (Rle_trans _ ({bounds[side]})); {steps}.")


def quoted_in(text: str) -> list[str]:
    """The decimals that a file quotes: at least, at most, and the difference, or the one of one side."""
    found = re.search(r"^Theorem quoted : .*\n(?:.*->\n)*  (?!False)(.*)\.\nProof", text, re.M)
    apart = re.search(r"^Theorem differ : .*\n(?:.*->\n)*  .* <= (\S+)\.\nProof", text, re.M)
    if not found:
        return []
    first, *_, last = found[1].split(" <= ")
    if apart:
        return [first, last, apart[1]]
    return [number for number in (first, last) if NUMBER.fullmatch(number)][:1]


def theorem(name: str, names: Sequence[str], given: Sequence[str], conclusion: str, proof: str) -> str:
    return (f"\nTheorem {name} : forall {' '.join(names)} : R,\n" + "".join(f"  {g} ->\n" for g in given)
            + f"  {conclusion}.\nProof.\n  {proof}\nQed.")


def hypotheses(given: Sequence[str], first: int = 0) -> str:
    """Names for what is given. No name of a model has a quote inside, so these are never taken."""
    return " ".join(f"h'{k}" for k in range(first, first + len(given)))


def at(source: str, names: Sequence[str], given: Sequence[str], first: int = 0) -> str:
    """A theorem, at a point that meets what is given."""
    return f"({source} {' '.join(names)} {hypotheses(given, first)})"


def differing(name: str, source: str, names: list[str], given: list[str], value: str, gap: object) -> str:
    """What the values at two points differ by at most."""
    other, again = [primed(x) for x in names], [primed(g) for g in given]
    return theorem(name, names + other, given + again, f"({value}) - ({primed(value)}) <= {gap}",
                   f"intros {' '.join(names + other)} {hypotheses(given + again)}.\n  apply (apart _ _ _ _ _ "
                   f"{at(source, names, given)} {at(source, other, given, len(given))}). lra.")


def empty(name: str, source: str, names: list[str], given: list[str]) -> str:
    """Where the bounds cross, no point meets what is given."""
    return theorem(name, names, given, "False", f"intros {' '.join(names)} {hypotheses(given)}.\n"
                   f"  apply (crossed _ _ _ {at(source, names, given)}). lra.")
