"""The sheet that checks itself: the proved checker and the three streams inside the page, and the script that compares.

The checker is the module of tools/wasm, or the file that ZAMIACHISEL_WASM names. Where it is not built the sheet is
written without it. With script turned off the page is the sheet as it is printed, says that it was not checked again,
and still hands out the three files.
"""
from __future__ import annotations

import base64
import hashlib
import os
import re
from pathlib import Path
from typing import Optional, Sequence

from .writing import STREAMS

ROOT = Path(__file__).resolve().parent.parent
MODULES = (ROOT / "target/wasm/zamiachisel.wasm", ROOT / "zamiachisel.wasm")    # in the repository; installed
PAGES = (ROOT / "page", Path(__file__).resolve().parent / "page")               # the same; by pip
SCRIPTS = ("checker.js", "numbers.js", "sheet.js")
LARGEST = 120_000                # bytes of a sheet; one that would have more is written without the checker
STYLE = """
#again { font-size: 7.3pt; line-height: 1.25; color: #4a5561 } #again.holds { color: #1d6b32 }
#again.differs { color: #b00020; font-weight: bold; -webkit-print-color-adjust: exact; print-color-adjust: exact }
.inside { width: 208mm; margin: -4mm auto 19mm; font: 9pt/1.4 "DejaVu Sans", "Segoe UI", Helvetica, Arial, sans-serif;
  color: #16191d; overflow-wrap: anywhere }
.dense #again { font-size: 7pt; line-height: 1.2 }
@media print { .inside { display: none }
  #again { display: -webkit-box; -webkit-box-orient: vertical; -webkit-line-clamp: 2; overflow: hidden } }
@media screen and (max-width: 216mm) {
  .sheet, .inside { width: auto; height: auto; margin: 0; outline: 0; padding: 4mm } .sheet { gap: 1mm }
  .head, .three, .columns { flex-wrap: wrap } .sheet .columns > div { flex: 1 1 60mm; min-width: 0 }
  td { overflow-wrap: anywhere }
  .three b, .sums .mono { white-space: normal } .head div { flex: 1 1 30mm }
}
"""
DATA = "data:application/octet-stream;base64,"
NOT_YET = "Not checked again in this page: its script did not run."
TOO_LARGE = "This sheet does not check itself: the files are too large to stand in it. Use {}."
PAIR = "the three files: {links}. <code>gapcheck problem.bin low.bin high.bin</code>\nchecks"
ONE = "the two files: {links}. <code>gapfile check {names}</code>\nasks replay, which checks"
INSIDE = """<div class="inside"><p>Save {saved} them without this page.</p><p>The
checker in this page is proved code, compiled for browsers; the last step of the compiler, the browser and the script
that compares are not proved. Its SHA-256, as <code>tools/wasm</code> tells it:
<span class="mono" id="digest">{digest}</span></p></div>
"""
MODULE = re.compile(r'<script type="text/plain" id="module">([A-Za-z0-9+/=]*)</script>')


def built() -> Optional[bytes]:
    """The module, where it is built."""
    named = os.environ.get("ZAMIACHISEL_WASM")
    paths = (Path(named),) if named is not None else MODULES
    return next((path.read_bytes() for path in paths if path.exists()), None)


def module_in(sheet: str) -> Optional[bytes]:
    """The module that stands in a sheet; no bytes where what stands in its place is no module."""
    found = MODULE.search(sheet)
    try:
        return base64.b64decode(found[1], validate=True) if found else None
    except ValueError:
        return b""


def policy(script: str) -> str:
    """Nothing is loaded; this script alone runs, and may compile the module that stands in the page."""
    digest = base64.b64encode(hashlib.sha256(script.encode()).digest()).decode()
    return (f"default-src 'none'; script-src 'sha256-{digest}' 'wasm-unsafe-eval'; style-src 'unsafe-inline'; "
            "base-uri 'none'; form-action 'none'")


def checking(sheet: str, streams: Sequence[bytes], module: Optional[bytes], names: Sequence[str] = STREAMS) -> str:
    """The sheet with the checker and the streams inside; as it is where there is no module."""
    if module is None:
        return sheet
    pages = next(folder for folder in PAGES if folder.is_dir())
    script = "\n".join((pages / name).read_text(encoding="utf-8") for name in SCRIPTS)
    links = ", ".join(f'<a id="{name}" download="{name}" href="{DATA}{_text(stream)}">{name}</a>'
                      for name, stream in zip(names, streams, strict=True))
    head = (f'<meta http-equiv="Content-Security-Policy" content="{policy(script)}">'
            '<meta name="viewport" content="width=device-width, initial-scale=1"><style>')
    saved = (PAIR if len(names) == 3 else ONE).format(links=links, names=" ".join(names))
    end = (INSIDE.format(saved=saved, digest=hashlib.sha256(module).hexdigest())
           + f'<script type="text/plain" id="module">{_text(module)}</script>\n<script>{script}</script>\n'
           "</body></html>")
    whole = _put(sheet, {"<style>": head, "</style>": f"{STYLE}</style>", "</body></html>": end,
                         '<div class="figure">': _line(NOT_YET)})
    return whole if len(whole.encode()) <= LARGEST else _put(sheet, {
        '<div class="figure">': _line(TOO_LARGE.format("gapcheck" if len(names) == 3 else "replay"))})


def _line(text: str) -> str:
    """The line at the figure."""
    return f'<div class="figure"><p id="again" role="status">{text}</p>'


def _put(sheet: str, parts: dict[str, str]) -> str:
    """The sheet with these marks, each at its first place, replaced."""
    for mark, part in parts.items():
        before, found, after = sheet.partition(mark)
        assert found, f"the sheet has no {mark}"
        sheet = before + part + after
    return sheet


def _text(data: bytes) -> str:
    return base64.b64encode(data).decode()
