"""The proved calls without a program: the shared object of the C functions, called in this process.

A record is answered with the very line that `replay` prints for it, so that whatever reads that line reads both, and
both can be compared. What is filed is not judged here: there a program is asked, whose hash stands on the sheet.
"""
from __future__ import annotations

import ctypes
import os
import struct
from functools import lru_cache
from pathlib import Path
from typing import Callable, Optional, Sequence

ROOT = Path(__file__).resolve().parent.parent    # the repository, or the folder that ./install made for this package
NAME = "libzamiachisel.so.0"
VARIABLE = "ZAMIACHISEL_LIBRARY"                 # names another one; where it is empty none is used
TABLE = 2048                                     # numbers of a work table
BLOCKS, MASKS = 576, 256                         # bytes of these outputs
STATE = 65                                       # numbers of a window's state
ARRIVAL = struct.Struct("<qQ")                   # a gap that arrives there, as it is sent
Runs = Sequence[bytes]


def where() -> Optional[Path]:
    """The shared object: the one that is named, that which `tools/library` made in this repository unless the functions
    were built anew since, or the one that was installed with this package."""
    named = os.environ.get(VARIABLE)
    if named is not None:
        return Path(named) if named else None
    built, proved = ROOT / "target" / "lib" / NAME, ROOT / "target" / "staticlib" / "libc_calls.a"
    if built.is_file() and proved.is_file() and proved.stat().st_mtime <= built.stat().st_mtime:
        return built
    if (ROOT / "BUILD").exists():
        for found in (ROOT.parent / NAME, *sorted(ROOT.parent.glob(f"*-linux-gnu/{NAME}"))):
            if found.is_file():
                return found
    return None


@lru_cache(maxsize=4)
def _loaded(path: Path) -> ctypes.CDLL:
    return ctypes.CDLL(str(path))


def line(kind: str, runs: Runs) -> Optional[tuple[str, str]]:
    """Who answers a record, and the line, without its end; None where there is no shared object, or it has no function
    for this kind. Raises OSError where the one that is named cannot be loaded."""
    path = where()
    if path is None or kind not in ANSWERS:
        return None
    try:
        functions = _loaded(path.absolute())
    except OSError:
        if VARIABLE in os.environ:
            raise
        return None
    return str(path), ANSWERS[kind](Calls(functions), runs)


class Calls:
    """A call fills a run of numbers with its verdict; the tables that it borrows are made for it."""

    def __init__(self, functions: ctypes.CDLL):
        self.functions = functions

    def __call__(self, name: str, runs: Runs, numbers: int, out: Optional[ctypes.Array[ctypes.c_char]] = None) \
            -> list[int]:
        function = self.functions[f"zamiachisel_{name}"]
        function.restype = ctypes.c_uint64
        words: list[object] = []
        for run in runs:
            words += [ctypes.c_char_p(run), ctypes.c_size_t(len(run))]
        if out is not None:
            words += [out, ctypes.c_size_t(len(out))]
        verdict = (ctypes.c_uint64 * numbers)()
        words += [verdict, ctypes.c_size_t(numbers)]
        for sort in (ctypes.c_uint64, ctypes.c_int64, ctypes.c_int64):
            words += [(sort * TABLE)(), ctypes.c_size_t(TABLE)]
        function(*words)
        return list(verdict)


def _signed(number: int) -> int:
    return number - (1 << 64) if number >> 63 else number


def _fraction(verdict: list[int], at: int) -> str:
    return f"{_signed(verdict[at])}/{verdict[at + 1]}"


def _unless_refused(verdict: list[int], said: Callable[[], str]) -> str:
    return "refused " + " ".join(map(str, verdict[:4])) if verdict[0] else said()


def _blocks(call: Calls, runs: Runs) -> str:
    out = ctypes.create_string_buffer(BLOCKS)
    v = call("blocks", runs[:1], 7, out)
    return _unless_refused(v, lambda: f"blocks {v[4]} rounds {v[5]} rule {v[6]} {out.raw.hex()}")


def _symmetries(call: Calls, runs: Runs) -> str:
    out = ctypes.create_string_buffer(MASKS)
    v = call("symmetries", runs[:1], 5, out)
    return _unless_refused(v, lambda: f"symmetries {v[4]} {out.raw.hex()}")


def _check(call: Calls, runs: Runs) -> str:
    v = call("check", runs[:2], 9)
    return _unless_refused(v, lambda: f"check {v[4]} {_fraction(v, 5)} rounds {v[7]} rule {v[8]}")


def _pair(call: Calls, runs: Runs) -> str:
    v = call("pair", runs[:3], 13)
    return _unless_refused(v, lambda: f"pair {_fraction(v, 4)} {_fraction(v, 6)} gap "
                                      f"{'empty' if v[10] else _fraction(v, 8)} rounds {v[11]} rule {v[12]}")


def _tighter(call: Calls, runs: Runs) -> str:
    v = call("choose", runs[:3], 5)
    return _unless_refused(v, lambda: f"tighter {runs[v[4]].hex()}")


def _sum(call: Calls, runs: Runs) -> str:
    v = call("sum", runs[:6], 10)
    return _unless_refused(v, lambda: f"sum {_fraction(v, 4)} {_fraction(v, 6)} rules {v[8]} {v[9]}")


def _adjusted(call: Calls, runs: Runs) -> str:
    v = call("moved_bound", runs[:3], 6)
    return _unless_refused(v, lambda: f"adjusted {_fraction(v, 4)}")


def _office(call: Calls, runs: Runs) -> str:
    """The third run is the buffer for the notes; past them it stays as it was."""
    out = (ctypes.c_char * len(runs[2])).from_buffer_copy(runs[2])
    v = call("office", runs[:2], 10, out)
    return _unless_refused(v, lambda: f"office {v[4]} {_fraction(v, 5)} rounds {v[7]} rule {v[8]} notes {v[9]} "
                                      f"{out.raw.hex()}")


def _window(call: Calls, runs: Runs) -> str:
    """Arrivals of 16 bytes, at a state that was empty."""
    function = call.functions["zamiachisel_window_push"]
    function.restype = ctypes.c_uint64
    state, v = (ctypes.c_uint64 * STATE)(), (ctypes.c_uint64 * 7)()
    said = []
    for p, q in ARRIVAL.iter_unpack(runs[0][:len(runs[0]) // 16 * 16]):
        refused = function(ctypes.c_int64(p), ctypes.c_uint64(q), state, ctypes.c_size_t(STATE), v, ctypes.c_size_t(7))
        said.append(str(refused) if refused else f"{_fraction(list(v), 4)} {v[6]}")
    return " ".join(["window", "; ".join(said)]).rstrip()


ANSWERS: dict[str, Callable[[Calls, Runs], str]] = {
    "b": _blocks, "s": _symmetries, "c": _check, "p": _pair, "t": _tighter, "d": _sum, "a": _adjusted, "n": _office,
    "w": _window}
