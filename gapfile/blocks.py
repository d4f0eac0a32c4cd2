"""The blocks and the sign symmetries of a problem, as the checker finds them: as text and as JSON."""
from __future__ import annotations

import json
from typing import Any

from .commands import key, monomial_text
from .decimals import counted
from .exact import products
from .programs import Blocks
from .reading import KEYS, Problem


def by_basis(problem: Problem, found: Blocks) -> list[list[list[int]]]:
    """For each basis its blocks, as lists of indices, by their numbers."""
    out = []
    for j, basis in enumerate(problem.bases):
        numbers = found.numbers[j][:len(basis)]
        out.append([[i for i, n in enumerate(numbers) if n == number] for number in sorted(set(numbers))])
    return out


def compared_keys(problem: Problem, found: Blocks) -> int:
    """How many monomials are counted against 2,048: the start, the zero exponent and all in-block products."""
    counted = {0} | {key(e) for e in problem.objective}
    for j, basis in enumerate(problem.bases):
        terms = [key(t) for t in problem.multiplier(j)]
        keys = [key(b) for b in basis]
        counted |= set(terms) if j else {2 * b for b in keys}
        counted |= products(keys, terms, found.numbers[j])
    return len(counted)


def turning(mask: int, names: list[str]) -> str:
    """A sign symmetry in words."""
    turned = [names[i] for i in range(8) if mask >> i & 1]
    if not turned:
        return "the identity"
    if len(turned) == 1:
        return f"turn the sign of {turned[0]}"
    return f"turn the signs of {', '.join(turned[:-1])} and {turned[-1]} together"


def _turnings(masks: list[int], names: list[str]) -> str:
    """The sign symmetries in a line; the first eight of more."""
    if len(masks) == 1:
        return "sign symmetries: none but the identity"
    shown = "; ".join(turning(mask, names) for mask in masks[:8])
    return f"sign symmetries {len(masks)}: {shown}{'; ..' if len(masks) > 8 else ''}"


def as_data(problem: Problem, found: Blocks, masks: list[int], names: list[str]) -> dict[str, Any]:
    """The blocks as plain data, for JSON."""
    bases = []
    for j, blocks in enumerate(by_basis(problem, found)):
        bases.append({"basis": j, "multiplier": "1" if j == 0 else f"condition {j}", "length": len(problem.bases[j]),
                      "blocks": [{"number": ix[0], "monomials": [monomial_text(problem.bases[j][i], names) for i in ix]}
                                 for ix in blocks]})
    return {"blocks": found.count, "rounds": found.rounds, "rule": found.rule, "order": problem.order,
            "keys": compared_keys(problem, found), "limit": KEYS, "symmetries": masks,
            "turned": [turning(mask, names) for mask in masks], "bases": bases}


def as_json(problem: Problem, found: Blocks, masks: list[int], names: list[str]) -> str:
    return json.dumps(as_data(problem, found, masks, names), indent=2) + "\n"


def as_text(problem: Problem, found: Blocks, masks: list[int], names: list[str]) -> str:
    """The blocks and the sign symmetries, as lines."""
    order = f" (at most {problem.order})" if problem.order else ""
    lines = [f"blocks {found.count}", f"rounds {found.rounds}{order}",
             f"rule {found.rule}", f"keys {compared_keys(problem, found)} of {KEYS}",
             _turnings(masks, names)]
    for j, blocks in enumerate(by_basis(problem, found)):
        sizes = [len(ix) for ix in blocks]
        lines.append(f"basis {j}, {counted(sum(sizes), 'monomial')} in {counted(len(sizes), 'block')}"
                     + (f" of {' '.join(map(str, sizes))}" if sizes else ""))
        for ix in blocks:
            lines.append(f"  block {ix[0]}: " + "  ".join(monomial_text(problem.bases[j][i], names) for i in ix))
    return "\n".join(lines) + "\n"
