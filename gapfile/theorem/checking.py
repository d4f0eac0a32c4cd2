"""Asks coqc whether figure.v is proved, and on which axioms it rests."""
from __future__ import annotations

import os
import re
import shutil
import subprocess
from dataclasses import dataclass

from ..programs import ProgramError, ended
from ..writing import scratch

SECONDS = 300.0                                  # a typical file takes 2
# Coq's real numbers are built on these, and nothing else may be used
AXIOMS = {"ClassicalDedekindReals.sig_forall_dec", "ClassicalDedekindReals.sig_not_dec",
          "FunctionalExtensionality.functional_extensionality_dep"}


@dataclass(frozen=True)
class Answer:
    """Whether coqc proved the file on no axioms but those of the real numbers, and a line that says so."""
    proved: bool
    line: str


def ask_coqc(text: str, seconds: float = SECONDS) -> Answer:
    """What coqc says of a file. Raises ProgramError where it is not there or does not end by itself."""
    coqc = os.environ.get("COQC") or shutil.which("coqc")
    if not coqc:
        raise ProgramError("coqc is not installed (Debian: coq); figure.v can be checked wherever it is")
    with scratch({"figure.v": text.encode()}) as folder:     # coqc writes other files beside it
        try:
            ran = subprocess.run([coqc, "-q", "figure.v"], cwd=folder, capture_output=True, text=True, errors="replace",
                                 timeout=seconds, check=False)
        except subprocess.TimeoutExpired:
            raise ProgramError(f"{coqc} did not answer within {seconds:.0f} s") from None
        except OSError as error:
            raise ProgramError(f"{coqc}: {error.strerror or error}") from None
    if ran.returncode < 0:
        raise ProgramError(f"{coqc} {ended(ran.returncode)}")
    if ran.returncode:
        return Answer(False, f"coqc refuses figure.v: {_place(text, ran.stderr)}")
    axioms = set(re.findall(r"^(\S+)", ran.stdout.removeprefix("Axioms:\n"), re.M))
    if not ran.stdout.startswith("Axioms:\n") or axioms - AXIOMS:
        said = ", ".join(sorted(axioms - AXIOMS)) or "no list of axioms"
        return Answer(False, f"coqc accepts figure.v, but not on the axioms of Coq's real numbers alone: {said}")
    return Answer(True, f"coqc proves {', '.join(proved(text))}, on the axioms of Coq's real numbers alone: "
                        f"{', '.join(sorted(axioms))}")


def proved(text: str) -> list[str]:
    """The theorems of a file on its figure; `sound`, which has arguments before its colon, is that of the rules."""
    return re.findall(r"^Theorem (\w+) :", text, re.M)


def _place(text: str, said: str) -> str:
    """The statement at which coqc stopped, and why."""
    line = re.search(r"line (\d+)", said)
    before = text.splitlines()[:int(line[1])] if line else []
    names = [words.split()[1] for words in before if words.startswith(("Theorem", "Lemma"))]
    why = " ".join(said.partition("Error:")[2].split())[:120] or "no reason given"
    return f"at {names[-1] if names else 'its first lines'}: {why}"
