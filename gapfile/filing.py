"""The files of a filing, as bytes: streams, model, manifest, verdict, sheet, SUMS.

They are a function of the streams, the model and the manifest. `file` writes them; `verify` makes them again and
compares. No sheet is made unless gapcheck, or for one side replay, accepted the very bytes whose hashes stand on it.
"""
from __future__ import annotations

import hashlib
from typing import Mapping, Optional

from .figures import Figures
from .manifest import NAME_OF_FILE
from .picture import as_svg
from .programs import Blocks, record
from .selfcheck import checking
from .sheet import page
from .text import decode
from .writing import MODEL, RECORD, SHEET, STREAMS, SUMS, streams_for


def solved_files(streams: Mapping[str, bytes], manifest: bytes, model: bytes) -> dict[str, bytes]:
    """What `solve` writes."""
    return {**streams, MODEL: model, NAME_OF_FILE: manifest}


def filed_files(figures: Figures, blocks: Blocks, solved: Mapping[str, bytes], more: Mapping[str, bytes] = {},
                module: Optional[bytes] = None) -> dict[str, bytes]:
    """What `file` writes: all that `solve` does, what is made of it, further files if any, the sheet with the hashes of
    all these, which checks itself where the checker for browsers is given, and the sums."""
    inner = [v.inner for v in figures.variables]
    titles = [f"basis {j}, of {origin}" for j, origin in enumerate(["the polynomial", *figures.restated.origins])]
    names = streams_for(figures.sides)
    streams = [solved[name] for name in names]
    files = {**solved,
             "problem.txt": decode(solved[STREAMS[0]], inner).text().encode(),
             "verdict.txt": ("\n".join(figures.verdict.lines) + "\n").encode(),
             "blocks.svg": as_svg(figures.problem, blocks, inner, titles=titles).encode()}
    if figures.not_claimed:
        files[RECORD] = record("c", *streams, b"")
    files.update(more)
    sheet = page(figures, [(name, digest(data)) for name, data in files.items()])
    files[SHEET] = checking(sheet, streams, module, names).encode()
    files[SUMS] = sums(files, figures.made)
    return files


def sums(files: Mapping[str, bytes], made: Mapping[str, str]) -> bytes:
    """The sums of the files, for `sha256sum -c`; in a comment, which it passes over, the checker's, with its commit and
    the kit that builds it."""
    lines = [f"{digest(data)}  {name}" for name, data in files.items()]
    if made.get("SHA-256"):
        built = "".join(f", {word} {made[word]}" for word in ("commit", "kit") if made.get(word))
        judge = "replay" if made.get("replay") else "gapcheck"
        lines.insert(0, f"# Zamiachisel's {judge}, SHA-256 {made['SHA-256']}{built}")
    return "".join(line + "\n" for line in lines).encode()


def digest(data: bytes) -> str:
    return hashlib.sha256(data).hexdigest()
