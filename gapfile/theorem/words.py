"""The model's own lines in Coq, so that a person can compare them letter by letter.

They are untrusted: nothing but the numbers, names and signs of a formula gets into the file, names that Coq or the file
uses get a quote, and what is words alone is spelled so that no comment can end in it.
"""
from __future__ import annotations

import re
from typing import Sequence

NAME = r"[A-Za-z_][A-Za-z_0-9]*"
TOKEN = re.compile(rf"(?P<name>{NAME})|(?P<number>[0-9]*\.?[0-9]+(?:[eE][-+]?[0-9]+)?)|(?P<raised>[⁰¹²³⁴⁵⁶⁷⁸⁹]+)"
                   r"|(?P<sign><=|>=|==|[-−+*·×^/()=≤≥])|(?P<space>\s+)|(?P<other>.)")
SAME = {"−": "-", "·": "*", "×": "*", "≤": "<=", "≥": ">=", "==": "="}
RAISED = str.maketrans("⁰¹²³⁴⁵⁶⁷⁸⁹", "0123456789")
# words that Coq keeps for itself, then what statements and proofs here use; one that is missing does not compile
RESERVED = set("""_ Axiom CoFixpoint Definition Fixpoint Hypothesis IF Parameter Prop SProp Set Theorem Type Variable as
    at by cofix else end exists exists2 fix for forall fun if in let match mod return then using where with
    R affine product within rounded apart crossed figure model proj1 proj2 Rge_le""".split())


class WordsError(Exception):
    """Words that are no formula."""


def words(text: str) -> str:
    """A formula of the model in Coq: the same, but for the signs of print, a number without its 0, a plus sign that
    changes nothing, and reserved names."""
    out, before = "", "("
    for match in TOKEN.finditer(text):
        kind, token = match.lastgroup, SAME.get(match.group(), match.group())
        if kind == "other" or token == "*" and before == "(" or token == ")" and before == "*":
            raise WordsError(f"`{text[:80]}` is no formula")
        if kind == "space":
            out += " "
            continue
        if kind == "name" and token in RESERVED:
            token += "'"
        elif kind == "number" and token.startswith("."):
            token = "0" + token
        elif kind == "raised":
            token = "^" + token.translate(RAISED)
        elif token == "+" and kind == "sign" and (before in "(-+*/" or before.endswith("=")):
            continue
        out, before = out + token, token
    return " ".join(out.split())


def read_model(written: Sequence[str]) -> tuple[list[str], list[str], str]:
    """The names, what is given (ranges, then conditions) and the polynomial, from the lines var, bound and where."""
    names: list[str] = []
    ranges, wheres, value = [], [], ""
    for line in written:
        word, rest = line.split(None, 1)
        if word == "var":
            found, *ends = re.split(r"\bin\b", rest)
            names += (new := words(found).split())
            if ends:
                low, high = (words(end) for end in ends[0].strip().removeprefix("[").removesuffix("]").split(","))
                ranges += [f"{low} <= {name} <= {high}" for name in new]
        elif word == "where":
            wheres.append(words(rest))
        else:
            value = words(rest)
    return names, ranges + wheres, value


def primed(text: str) -> str:
    """The same of another point: every name with a quote more."""
    return re.sub(rf"(?<![0-9.]){NAME}'?", r"\g<0>'", text)


def spelled(text: str) -> str:
    """Words for a comment: whatever is no plain letter, also parentheses, stars and quotation marks, by its number."""
    return re.sub(r"[^A-Za-z0-9 .,:;=+/_-]", lambda m: f"<U+{ord(m[0]):04X}>", text)
