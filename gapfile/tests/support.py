"""What the tests share: the stored streams that they go over, the programs that they ask, and the command line."""
from __future__ import annotations

import contextlib
import io
import os
import tempfile
import unittest
from pathlib import Path
from typing import Iterator, Optional
from unittest import mock

from gapfile import command, programs
from gapfile.command import main
from gapfile.programs import reference

ROOT = Path(__file__).resolve().parents[2]
EXAMPLES = ROOT / "examples"
RECORDED = ROOT / "gapfile/recorded"
CASE_F = ROOT / "crates/gapcheck/data"
BUILT = (ROOT / "target/bin/gapcheck").exists() and (ROOT / "target/bin/replay").exists()
_beside = Path(os.environ.get("GAPFILE_SHARED", ROOT.parent / "shared"))
SHARED: Optional[Path] = _beside if (_beside / "vectors").is_dir() else None       # vectors of another hand
LENGTHS = {"d": 6, "x": 4}          # how many runs a record has, where they are not 3

REFERENCE = ROOT / "reference/target/release/reference"


def judge() -> Optional[list[str]]:
    """The plain reference as the program that answers records; where it is not built none, which is `replay`."""
    built = reference()
    return [str(built), "replay"] if built else None


needs_programs = unittest.skipUnless(BUILT, "gapcheck and replay are not built (tools/prove gapcheck replay)")
needs_weekcheck = unittest.skipUnless((ROOT / "target/bin/weekcheck").exists(),
                                      "weekcheck is not built (tools/prove weekcheck)")
needs_reference = unittest.skipUnless(REFERENCE.exists(),
                                      "the reference is not built (cargo build --release in reference)")
needs_vectors = unittest.skipUnless(SHARED, "there is no folder ../shared with vectors beside the repository")


def run(*arguments: object) -> tuple[int, str, str]:
    """The status of the command line, and what it writes; without the steps, which a slow machine shows."""
    out, err = io.StringIO(), io.StringIO()
    with contextlib.redirect_stdout(out), contextlib.redirect_stderr(err), \
            mock.patch.object(command, "PATIENCE", 3600.0):
        try:
            status = main([str(a) for a in arguments])
        except SystemExit as ended:
            status = int(ended.code or 0)
    return status, out.getvalue(), err.getvalue()


def by_reference(kind: str, *runs: bytes) -> str:
    """What the reference answers to a record."""
    return programs.replay(programs.record(kind, *runs), [str(REFERENCE), "replay"])[1]


def streams_of(folder: Path) -> list[bytes]:
    """The three streams of a folder."""
    return [(folder / f"{name}.bin").read_bytes() for name in ("problem", "low", "high")]


def case_f() -> list[bytes]:
    """The three streams of case F."""
    return [(CASE_F / f"{name}.bin").read_bytes() for name in ("problem", "low", "high")]


@contextlib.contextmanager
def folder_of(problem: bytes, low: bytes, high: bytes) -> Iterator[Path]:
    """A folder with three files, for as long as it is used."""
    with tempfile.TemporaryDirectory() as name:
        for file, stream in (("problem.bin", problem), ("low.bin", low), ("high.bin", high)):
            (Path(name) / file).write_bytes(stream)
        yield Path(name)


def records(file: Path) -> Iterator[tuple[str, list[bytes]]]:
    """The records of a file for `replay`: kind and runs."""
    data, at = file.read_bytes(), 0
    while at < len(data):
        kind = chr(data[at])
        count = LENGTHS.get(kind, 3)
        lengths = [int.from_bytes(data[at + 1 + 4 * k:at + 5 + 4 * k], "little") for k in range(count)]
        at += 1 + 4 * count
        runs = []
        for length in lengths:
            runs.append(data[at:at + length])
            at += length
        yield kind, runs


def answered(file: Path, lines: Path) -> Iterator[tuple[str, list[bytes], str]]:
    """The records of a file with their stored answers."""
    for (kind, runs), line in zip(records(file), lines.read_text().splitlines()):
        yield kind, runs, line


def corpus() -> Iterator[tuple[str, list[bytes], str]]:
    """The stored corpus with its answers."""
    return answered(ROOT / "crates/replay/stdin", ROOT / "crates/replay/stdout")


def vectors(kind: str, part: str = "core") -> Iterator[tuple[str, list[bytes], str]]:
    """The vectors of document 02 for a kind of record; none where they are not beside the repository."""
    if SHARED:
        file = SHARED / f"vectors/02/{part}-{kind}.records"
        yield from answered(file, file.with_suffix(".lines"))


def folders() -> Iterator[Path]:
    """Every folder with a problem and two certificates."""
    roots = [EXAMPLES, *ROOT.glob("crates/*/data")] + ([SHARED / "examples", SHARED / "vectors"] if SHARED else [])
    for root in roots:
        yield from sorted({file.parent for file in root.rglob("problem.bin")})


def stored_runs() -> set[bytes]:
    """All different runs of bytes of the corpus and the vectors, also those that are no streams."""
    files = [ROOT / "crates/replay/stdin"] + (sorted((SHARED / "vectors/02").glob("*.records")) if SHARED else [])
    return {run for file in files for _, runs in records(file) for run in runs}
