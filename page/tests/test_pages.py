"""The pages in real browsers: the page that checks files, and the sheet that checks itself."""
from __future__ import annotations

import base64
import contextlib
import http.server
import json
import os
import re
import shutil
import subprocess
import tempfile
import threading
import unittest
import zlib
from fractions import Fraction
from pathlib import Path
from typing import Iterator

from gapfile import selfcheck
from gapfile.figures import figures_of
from gapfile.filing import digest
from gapfile.manifest import Manifest
from gapfile.model import parse
from gapfile.problem import encode_problem
from gapfile.programs import gapcheck
from gapfile.reading import read_problem
from gapfile.restating import Scaled, restate
from gapfile.sheet import page
from gapfile.tests.support import EXAMPLES, RECORDED, corpus, needs_programs, run
from page.tests import chromium, firefox

ROOT = Path(__file__).resolve().parents[2]
NAMES = ("problem", "low", "high")
MODULE = selfcheck.built()
# where screenshots are kept, to be looked at
PICTURES = os.environ.get("PICTURES")

needs_module = unittest.skipUnless(MODULE, "the module is not built (tools/wasm)")
needs_chromium = unittest.skipUnless(chromium.PROGRAM, "no Chromium")
needs_firefox = unittest.skipUnless(firefox.PROGRAM, "no Firefox")


def refusals() -> Iterator[tuple[str, list[bytes]]]:
    """For each number with which a pair is refused its first stored case, and one whose key has more than 32 bits."""
    found: dict[int, tuple[str, list[bytes]]] = {}
    for kind, runs, line in corpus():
        if kind == "p" and line.startswith("refused"):
            number, key = int(line.split()[1]), int(line.split()[4])
            found.setdefault(number if key < 1 << 32 else 1000, (line, runs))
    yield from (found[number] for number in sorted(found))


def damaged(sheet: str, name: str, at: int) -> str:
    """The sheet with one byte of a stream changed."""
    match = re.search(rf'id="{name}"[^>]*base64,([^"]*)"', sheet)
    assert match
    data = bytearray(base64.b64decode(match[1]))
    data[at] ^= 1 << at % 8
    return sheet[:match.start(1)] + base64.b64encode(data).decode() + sheet[match.end(1):]


def pages_of(pdf: bytes) -> int:
    """The number of pages of a PDF, whose objects may stand in packed streams."""
    parts = [pdf]
    for packed in re.findall(rb"stream\r?\n(.*?)endstream", pdf, re.DOTALL):
        with contextlib.suppress(zlib.error):
            parts.append(zlib.decompressobj().decompress(packed))
    found = [re.search(rb"/Count (\d+)", one) for part in parts for one in re.findall(rb"<<[^<>]*/Pages\b[^<>]*>>", part)]
    return max(int(count[1]) for count in found if count)


CORPUS = """<!DOCTYPE html><meta charset="utf-8"><p id="said"></p><script>%s</script><script>
(async () => {
  const checker = await checkerOf(bytesOf("%s"));
  const pairs = %s;
  const said = r => r.refusal ? `refused ${r.refusal} ${r.stream} ${r.place} ${r.key}` : `pair ${r.p}/${r.q} ${r.P}/${r.Q}`;
  const differ = pairs.filter(([line, ...runs]) => said(recordOf(checker, ...runs.map(bytesOf))) !== line);
  document.getElementById("said").textContent = `${pairs.length} pairs, ${differ.length} differ`;
})();</script>"""


def corpus_page(changed: int = 0) -> tuple[str, int]:
    """A page that answers every stored pair and counts those that differ from the stored line, as far as a record has
    it; of so many pairs the line is changed. And how many pairs there are."""
    pairs = []
    for kind, runs, line in corpus():
        if kind == "p":
            words = line.split()
            told = [*words[:4], str(int(words[4]) & 0xFFFFFFFF)] if words[0] == "refused" else words[:3]
            told += ["changed"] if len(pairs) < changed else []
            pairs.append([" ".join(told), *(base64.b64encode(one).decode() for one in runs)])
    script = "".join((ROOT / "page" / name).read_text(encoding="utf-8") for name in ("checker.js", "numbers.js"))
    return CORPUS % (script, base64.b64encode(MODULE or b"").decode(), json.dumps(pairs)), len(pairs)


class Pages(unittest.TestCase):
    """The pages, made once."""
    kept: tempfile.TemporaryDirectory[str]
    folder: Path
    sheet: Path
    one: Path                            # a sheet of one side

    @classmethod
    def setUpClass(cls) -> None:
        cls.kept = tempfile.TemporaryDirectory()
        cls.folder = Path(cls.kept.name)
        for name in ("check", "two_decks"):
            more = [str(EXAMPLES / name)] if name != "check" else []
            subprocess.run([ROOT / "page/make", cls.folder / f"{name}.html", *more], check=True, capture_output=True)
        status, _, err = run("file", EXAMPLES / "crosstalk.gap", "-o", cls.folder / "filed", "--answers",
                             RECORDED / "crosstalk")
        assert status == 0, err
        cls.sheet = cls.folder / "filed/sheet.html"
        status, _, err = run("file", EXAMPLES / "choices/axle.gap", "-o", cls.folder / "one", "--answers",
                             RECORDED / "axle")
        assert status == 0, err
        cls.one = cls.folder / "one/sheet.html"

    @classmethod
    def tearDownClass(cls) -> None:
        cls.kept.cleanup()

    def files(self, runs: list[bytes]) -> list[Path]:
        """Three files with these bytes."""
        place = Path(tempfile.mkdtemp(dir=self.folder))
        files = [place / f"{name}.bin" for name in NAMES]
        for file, data in zip(files, runs):
            file.write_bytes(data)
        return files

    def changed(self, text: str) -> Path:
        """Another sheet."""
        file = self.folder / "changed.html"
        file.write_text(text, encoding="utf-8")
        return file


@needs_programs
@needs_module
class Made(Pages):
    """What is in the files, without a browser."""

    def test_one_file_under_its_size(self) -> None:
        sheet = self.sheet.read_text(encoding="utf-8")
        self.assertLess(len(sheet.encode()), 120_000)
        for text in (sheet, (self.folder / "check.html").read_text(encoding="utf-8")):
            self.assertIn("default-src 'none'; script-src 'sha256-", text)
            asked = re.findall(r"<(?:link|img|iframe|object|embed)\b|\bsrc=|https?://(?!www\.w3\.org/)", text)
            self.assertEqual(asked, [])

    def test_the_files_can_be_saved(self) -> None:
        """The links have the bytes that were filed; no script is needed for them."""
        sheet = self.sheet.read_text(encoding="utf-8")
        for name in NAMES:
            found = re.findall(rf'download="{name}.bin" href="data:application/octet-stream;base64,([^"]*)"', sheet)
            filed = (self.sheet.parent / f"{name}.bin").read_bytes()
            self.assertEqual([base64.b64decode(one) for one in found], [filed])

    def test_too_large_a_sheet_says_so(self) -> None:
        page = '<style></style></head><body><div class="figure"></div></body></html>'
        text = selfcheck.checking(page, [bytes(11919), bytes(49675), bytes(49675)], MODULE)
        self.assertIn(selfcheck.TOO_LARGE.format("gapcheck"), text)
        self.assertLess(len(text), 1000)
        self.assertEqual(selfcheck.checking(page, [b""] * 3, None), page)

    def test_verify_compares_the_checker(self) -> None:
        self.assertIn("as the one built here", run("verify", self.sheet.parent)[1])
        place = self.folder / "other"
        shutil.copytree(self.sheet.parent, place)
        sheet = self.sheet.read_text(encoding="utf-8")
        self.assertEqual(selfcheck.module_in(sheet), MODULE)
        old = base64.b64encode(MODULE or b"").decode()
        # other last bytes than the module's, which may be zeros
        other = old[:-8] + ("AQEBAQE=" if old.endswith("AAAAAAA=") else "AAAAAAA=")
        (place / "sheet.html").write_text(sheet.replace(old, other), encoding="utf-8")
        status, said, _ = run("verify", place)
        self.assertEqual(status, 5)
        self.assertIn("and the one built here has another", said)
        (place / "sheet.html").write_text(sheet.replace(old, "A=A"), encoding="utf-8")
        self.assertEqual(run("verify", place)[0], 5)

    @unittest.skipUnless(shutil.which("node"), "no node")
    def test_every_byte_changed(self) -> None:
        for sheet in (self.sheet, self.one):
            ran = subprocess.run(["node", ROOT / "page/damage.mjs", sheet], capture_output=True, text=True)
            self.assertEqual(ran.returncode, 0, ran.stdout + ran.stderr)
            self.assertIn("0 not told", ran.stdout)


@needs_programs
@needs_module
@needs_chromium
class InChromium(Pages):
    browser: chromium.Chromium

    @classmethod
    def setUpClass(cls) -> None:
        super().setUpClass()
        cls.browser = chromium.Chromium()

    @classmethod
    def tearDownClass(cls) -> None:
        cls.browser.close()
        super().tearDownClass()

    def setUp(self) -> None:
        self.browser("Emulation.setEmulatedMedia", media="", features=[])
        self.browser("Emulation.setScriptExecutionDisabled", value=False)
        self.browser.width(1000)

    def verdict(self, *files: Path) -> str:
        """What the page says to three files that are chosen together."""
        self.browser.open(self.folder / "check.html")
        self.browser.choose("#several", *files)
        self.browser.until("document.querySelector('#verdict strong')")
        return self.browser.text("#verdict")

    def picture(self, name: str) -> None:
        if PICTURES:
            self.browser.picture(Path(PICTURES) / f"{name}.png")

    def again(self) -> tuple[str, str]:
        """The class and the text of the sheet's line, once its script has ended."""
        self.browser.until("document.getElementById('again').className")
        return str(self.browser.run("document.getElementById('again').className")), self.browser.text("#again")

    def test_accepted(self) -> None:
        said = self.verdict(*(EXAMPLES / f"two_decks/{name}.bin" for name in NAMES))
        lines = (EXAMPLES / "two_decks/expected").read_text()
        self.assertTrue(said.startswith(f"accepted\n{lines}"), said)
        shown = self.browser.text("#shown")
        for part in ("−94.00206", "52.00312", "146.00518", "365012950000/2500000000",
                     "30·x₁·x₂·x₃·x₄ + 12·x₁²·x₄ − 9·x₂²·x₃", "1 − x₄² ≥ 0",
                     "65 rows in the lower certificate, 66 in the upper", "basis 0: 1 block, 15 monomials",
                     "6cc004f877c665d27a02a56072f037ceeaa3f2201e811c42f45ecca669bc4b08"):
            self.assertIn(part, shown)
        self.picture("accepted")

    def test_every_stored_pair(self) -> None:
        for changed in (0, 2):
            text, count = corpus_page(changed)
            self.browser.open(self.changed(text))
            self.browser.until("document.getElementById('said').innerText")
            self.assertEqual(self.browser.text("#said"), f"{count} pairs, {changed} differ")

    def test_opens_with_its_files(self) -> None:
        self.browser.open(self.folder / "two_decks.html")
        self.browser.until("document.querySelector('#verdict strong')")
        self.assertTrue(self.browser.text("#verdict").startswith("accepted\nlower -4700103/50000"))

    def test_every_refusal(self) -> None:
        """The line is the stored one to the letter, with its whole key, and the refusal stands there in words."""
        numbers = set()
        for line, runs in refusals():
            said = self.verdict(*self.files(runs))
            self.assertEqual(said.splitlines()[:2], ["refused", line])
            number = line.split()[1]
            numbers.add(int(number))
            self.assertRegex(self.browser.text("#shown"), rf"refusal\s+{number}: \w.*")
            self.picture(f"refused{number}")
        self.assertEqual(numbers, set(range(2, 11)))

    def test_empty(self) -> None:
        said = self.verdict(*(EXAMPLES / f"contradictory/{name}.bin" for name in NAMES))
        self.assertTrue(said.startswith("accepted\n") and "The bounds cross" in said, said)
        self.assertIn("gap empty", self.browser.text("#empty"))
        self.picture("empty")

    def test_one_after_the_other(self) -> None:
        """No verdict stands before all three are there, and none stays when one is chosen anew."""
        self.browser.open(self.folder / "check.html")
        files = [EXAMPLES / f"two_decks/{name}.bin" for name in NAMES]
        self.browser.choose("#problem", files[0])
        self.browser.until("document.getElementById('verdict').innerText.includes('low.bin and high.bin')")
        self.browser.choose("#low", files[1])
        self.browser.until("document.getElementById('verdict').innerText.includes('Waiting for high.bin')")
        self.browser.choose("#high", files[2])
        self.browser.until("document.querySelector('#verdict .accepted')")
        self.browser.choose("#high", files[1])
        self.browser.until("document.querySelector('#verdict .refused')")
        self.assertIn("refused 10 2 0 0", self.browser.text("#verdict"))

    def test_folder(self) -> None:
        self.browser.open(self.folder / "check.html")
        self.browser.choose("#folder", EXAMPLES / "two_decks")
        self.browser.until("document.querySelector('#verdict .accepted')")

    def test_dropped(self) -> None:
        self.browser.open(self.folder / "check.html")
        streams = [base64.b64encode((EXAMPLES / f"two_decks/{name}.bin").read_bytes()).decode() for name in NAMES]
        self.browser.run("{ const t = new DataTransfer(); " + " ".join(
            f"t.items.add(new File([bytesOf('{stream}')], '{name}.bin'));" for name, stream in zip(NAMES, streams))
            + " document.dispatchEvent(new DragEvent('drop', { dataTransfer: t, bubbles: true, cancelable: true })); }")
        self.browser.until("document.querySelector('#verdict .accepted')")

    def test_too_long_a_file(self) -> None:
        files = self.files([(EXAMPLES / f"two_decks/{name}.bin").read_bytes() for name in NAMES])
        files[2].write_bytes(bytes(65537))
        said = self.verdict(*files)
        self.assertIn("refused 3 2 0 0", said)
        self.assertIn("Of high.bin the first 65536 bytes were judged.", said)

    def test_week(self) -> None:
        pairs = [[(EXAMPLES / f"{one}/{name}.bin").read_bytes() for name in NAMES]
                 for one in ("two_decks", "contradictory")]
        pairs.append([pairs[0][0], pairs[0][2], pairs[0][1]])
        data = b"".join(b"".join(len(run).to_bytes(2, "little") for run in runs) + b"".join(runs) for runs in pairs)
        file = self.folder / "week.bin"
        file.write_bytes(data)
        self.browser.open(self.folder / "check.html")
        self.browser.choose("#week", file)
        self.browser.until("document.querySelector('#verdict strong')")
        self.assertEqual(self.browser.text("#verdict"), "2 of 3 accepted")
        bounds = " ".join((EXAMPLES / "contradictory/expected").read_text().splitlines()[:2])
        self.assertEqual([row.split("\t") for row in self.browser.text("#shown tbody").splitlines()],
                         [["1", "accepted", "146.00518", "lower -4700103/50000 upper 2600156/50000"],
                          ["2", "accepted", "empty", bounds],
                          ["3", "refused", "", "refused 10 1 0 0: the first certificate is no lower bound, or the "
                           "second no upper one"]])
        self.picture("week")
        cut = self.folder / "cut.bin"
        cut.write_bytes(data[:-1])
        self.browser.choose("#week", cut)
        self.browser.until("document.querySelector('#verdict').innerText.includes('refused 12')")

    def test_a_failure_leaves_no_verdict(self) -> None:
        """Where the page itself fails, it says so in the verdict's place."""
        self.verdict(*(EXAMPLES / f"two_decks/{name}.bin" for name in NAMES))
        self.browser.run("Object.defineProperty(Uint8Array.prototype, 'set', "
                         "{ value() { throw new Error('broken') } })")
        self.browser.choose("#high", EXAMPLES / "two_decks/high.bin")
        self.browser.until("document.querySelector('#verdict strong').innerText === 'not checked'")
        self.assertIn("broken", self.browser.text("#verdict"))
        self.assertEqual(self.browser.text("#shown"), "")

    def test_keyboard_and_screen_reader(self) -> None:
        self.browser.open(self.folder / "check.html")
        reached = []
        for _ in range(6):
            for kind in ("rawKeyDown", "keyUp"):
                self.browser("Input.dispatchKeyEvent", type=kind, key="Tab", code="Tab", windowsVirtualKeyCode=9)
            reached.append(self.browser.run("document.activeElement.id"))
        self.assertEqual(reached, ["problem", "low", "high", "several", "folder", "week"])
        labelled = "[...document.querySelectorAll('input')].every(one => one.labels.length === 1)"
        self.assertIs(self.browser.run(labelled), True)
        self.assertEqual(self.browser.run("document.getElementById('verdict').getAttribute('aria-live')"), "polite")

    def test_phone(self) -> None:
        """At 360 px nothing stands outside, with a verdict, with the longest refusal, and on the sheet."""
        self.browser.width(360)
        wide = "document.documentElement.scrollWidth"
        self.verdict(*(EXAMPLES / f"two_decks/{name}.bin" for name in NAMES))
        self.assertLessEqual(self.browser.run(wide), 360)
        self.picture("phone")
        self.verdict(*list(self.files(runs) for line, runs in refusals() if line.startswith("refused 8"))[0])
        self.assertLessEqual(self.browser.run(wide), 360)
        self.browser.open(self.sheet)
        self.again()
        self.assertLessEqual(self.browser.run(wide), 360)
        self.picture("sheet_phone")

    def test_dark(self) -> None:
        light = "getComputedStyle(document.documentElement).backgroundColor"
        self.verdict(*(EXAMPLES / f"two_decks_rule2/{name}.bin" for name in NAMES))
        self.assertEqual(self.browser.run(light), "rgb(255, 255, 255)")
        self.browser("Emulation.setEmulatedMedia", features=[{"name": "prefers-color-scheme", "value": "dark"}])
        self.assertEqual(self.browser.run(light), "rgb(20, 24, 29)")
        self.picture("dark")

    def test_no_script(self) -> None:
        self.browser("Emulation.setScriptExecutionDisabled", value=True)
        self.browser.open(self.sheet)
        root = self.browser("DOM.getDocument")["root"]["nodeId"]
        node = self.browser("DOM.querySelector", nodeId=root, selector="#again")["nodeId"]
        self.assertIn(selfcheck.NOT_YET, self.browser("DOM.getOuterHTML", nodeId=node)["outerHTML"])
        self.picture("sheet_no_script")
        self.browser.open(self.folder / "check.html")
        self.assertIn("Nothing is checked.", self.browser.text("noscript"))
        self.picture("no_script")

    def test_no_webassembly(self) -> None:
        """A browser without it, or one that forbids it: the sheet says that it could not be checked."""
        taken = self.browser("Page.addScriptToEvaluateOnNewDocument", source="delete globalThis.WebAssembly")
        try:
            self.browser.open(self.sheet)
            kind, said = self.again()
        finally:
            self.browser("Page.removeScriptToEvaluateOnNewDocument", identifier=taken["identifier"])
        self.assertEqual(kind, "differs")
        self.assertIn("Could not be checked again in this page", said)

    def test_the_sheet_checks_itself(self) -> None:
        self.browser.open(self.sheet)
        kind, said = self.again()
        self.assertEqual(kind, "holds")
        self.assertRegex(said, r"^Checked again in this page, just now \(.*\): accepted, lower -7407/50000, "
                               r"upper 1001760001/2; hashes as printed\.$")
        self.picture("sheet")

    def test_the_sheet_of_an_empty_region(self) -> None:
        """Two bounds that cross: the sheet holds where it says that there are no points, and not where it has figures."""
        streams = [(EXAMPLES / f"contradictory/{name}.bin").read_bytes() for name in NAMES]
        model = parse((EXAMPLES / "contradictory.gap").read_text())
        variables = [Scaled(name, name, Fraction(0), Fraction(1)) for name in model.names]
        manifest = Manifest(1, variables, [None, None], [None, None], [None, None], ["2", "-2"], {})
        streams[0] = encode_problem(restate(model, variables, 1, read_problem(streams[0])).problem)
        sums = [(f"{name}.bin", digest(stream)) for name, stream in zip(NAMES, streams)]
        text = selfcheck.checking(page(figures_of(streams, gapcheck(*streams), manifest, model), sums), streams, MODULE)
        self.browser.open(self.changed(text))
        kind, said = self.again()
        self.assertEqual((kind, "accepted, lower 2/1, upper -2/1" in said), ("holds", True), said)
        self.picture("sheet_empty")
        self.browser.open(self.changed(text.replace('class="empty"', 'class="some"')))
        self.assertEqual(self.again()[0], "differs")

    def test_the_sheet_of_one_side(self) -> None:
        """One certificate by the check of one; what is forged, with the hashes made to fit, is told."""
        text = self.one.read_text(encoding="utf-8")
        self.browser.open(self.one)
        kind, said = self.again()
        self.assertEqual(kind, "holds", said)
        self.assertIn("accepted, upper 1196509256/10, one certificate; no lower bound is claimed; hashes as printed.",
                      said)
        self.assertEqual(self.browser.run("document.querySelectorAll('.inside a').length"), 2)
        self.picture("sheet_one_side")
        certificate = (self.one.parent / "high.bin").read_bytes()
        less = int.from_bytes(certificate[4:8], "little") - 1
        better = certificate[:4] + less.to_bytes(4, "little") + certificate[8:]
        other = certificate[:1] + b"\0" + certificate[2:]
        before, mark, after = text.partition('<script type="text/plain"')
        renamed = before.replace("high.bin", "low.bin") + mark + after

        def swapped(stream: bytes) -> str:
            """The sheet with another certificate, and its hash."""
            return text.replace(base64.b64encode(certificate).decode(), base64.b64encode(stream).decode()).replace(
                digest(certificate), digest(stream))
        for changed, told in (
                (damaged(text, "high.bin", 20), "the SHA-256 of high.bin is not the printed one"),
                (swapped(better), "the checker says: refused 9"), (swapped(other), "the checker says: refused 9"),
                (renamed, "the certificate states the upper bound"),
                (text.replace("check 1 1196509256/10", "check 1 1196509255/10"), "have “check 1 1196509256/10 "),
                (text.replace('"upper">11.96509256', '"upper">11.96509255'), "the printed upper figure is not above"),
                (text.replace(' data-side="lower"', ""), "it is not printed that no lower bound is claimed"),
                (text.replace('data-side="lower"', 'data-side="upper"'), "it is not printed that no lower bound"),
                (text.replace('<div class="three">', '<div class="three"><b data-figure="lower">0</b>'),
                 "the figure “lower” is printed, and nothing here proves it"),
                (text.replace('<div class="three">', '<div class="three"><b data-figure="gap">9</b>'),
                 "the figure “gap” is printed")):
            self.assertNotEqual(changed, text)
            self.browser.open(self.changed(changed))
            kind, said = self.again()
            self.assertEqual(kind, "differs", told)
            self.assertIn(told, said)
            self.assertNotIn("accepted", said)

    def test_a_changed_sheet_says_so(self) -> None:
        """A byte of a stream, a printed hash, a printed line, a figure, the factor, the checker's hash: each is told."""
        text = self.sheet.read_text(encoding="utf-8")
        places = {f"{name}.bin": range(0, (self.sheet.parent / f"{name}.bin").stat().st_size, 311) for name in NAMES}
        changes = [(damaged(text, name, at), f"the SHA-256 of {name} is not the printed one")
                   for name, offsets in places.items() for at in offsets]
        sums = re.search(r'>low\.bin</td><td class="mono">([0-9a-f]+)', text)
        assert sums
        changes += [
            (text.replace(sums[1], sums[1][::-1]), "the SHA-256 of low.bin is not the printed one"),
            (text.replace(">lower -7407/50000", ">lower -7406/50000"), "do not have “lower -7407/50000”"),
            (text.replace('"lower">−0.00007407', '"lower">−0.00007406'), "the printed lower figure is not below"),
            (text.replace('"upper">250440.00025', '"upper">250440.00024'), "the printed upper figure is not above"),
            (text.replace('"gap">250440.00032407', '"gap">250440.00032406'), "difference is less than the gap"),
            (text.replace('"factor">2000', '"factor">1000'), "the printed upper figure is not above the upper bound"),
            (text.replace('<div class="three">', '<p class="empty"></p><div class="three">'), "printed otherwise"),
            (re.sub(r'(id="digest">)[0-9a-f]{4}', r"\g<1>0000", text), "the SHA-256 of the checker is not the one"),
        ]
        for other, told in changes:
            self.assertNotEqual(other, text)
            self.browser.open(self.changed(other))
            kind, said = self.again()
            self.assertEqual(kind, "differs", told)
            self.assertIn(told, said)
            self.assertNotIn("accepted", said)
        self.browser("Emulation.setEmulatedMedia", media="print")
        colour = self.browser.run("getComputedStyle(document.getElementById('again')).color")
        self.assertEqual(colour, "rgb(176, 0, 32)")
        self.picture("sheet_changed")

    def test_prints_on_one_page(self) -> None:
        text = self.sheet.read_text(encoding="utf-8")
        for file in (self.sheet, self.changed(damaged(text, "low.bin", 20))):
            self.browser.open(file)
            self.again()
            self.assertEqual(pages_of(self.browser.printed()), 1)

    def test_what_the_page_prints(self) -> None:
        """The verdict without the fields for files, dark letters on white also where the screen is dark."""
        self.browser.open(self.folder / "two_decks.html")
        self.browser.until("document.querySelector('#verdict strong')")
        dark = {"name": "prefers-color-scheme", "value": "dark"}
        self.browser("Emulation.setEmulatedMedia", media="print", features=[dark])
        shown = "getComputedStyle(document.getElementById('{}')).display"
        self.assertEqual([self.browser.run(shown.format(name)) for name in ("files", "verdict")], ["none", "block"])
        self.assertEqual(self.browser.run("getComputedStyle(document.body).color"), "rgb(22, 25, 29)")

    def test_no_request_leaves(self) -> None:
        """Nothing is asked for but the file itself. A script that tried would be stopped, as a server on loopback sees;
        where the page has no policy the same server sees the request."""
        seen: list[str] = []

        class Server(http.server.BaseHTTPRequestHandler):
            def do_GET(self) -> None:
                seen.append(self.path)
                self.send_response(204)
                self.send_header("Access-Control-Allow-Origin", "*")
                self.end_headers()

            def log_message(self, *_: object) -> None:
                pass

        server = http.server.HTTPServer(("127.0.0.1", 0), Server)
        threading.Thread(target=server.serve_forever, daemon=True).start()
        ask = f"fetch('http://127.0.0.1:{server.server_port}/asked').then(() => 'answered', () => 'stopped')"
        image = ("new Promise(yes => { const one = new Image(); one.onload = () => yes('loaded'); "
                 f"one.onerror = () => yes('stopped'); one.src = 'http://127.0.0.1:{server.server_port}/image' }})")
        try:
            for file in (self.folder / "two_decks.html", self.sheet):
                self.browser.open(file)
                self.browser.until("document.querySelector('#verdict strong, #again.holds')")
                self.assertEqual(self.browser.requests, [file.as_uri()])
                self.assertEqual(self.browser.run(ask), "stopped")
                self.assertEqual(self.browser.run(image), "stopped")
                self.assertEqual(seen, [])
            open_page = self.changed(re.sub(r"<meta http-equiv[^>]*>", "", self.sheet.read_text(encoding="utf-8")))
            self.browser.open(open_page)
            self.assertEqual(self.browser.run(ask), "answered")
            self.assertEqual(seen, ["/asked"])
        finally:
            server.shutdown()
            server.server_close()


@needs_programs
@needs_module
@needs_firefox
class InFirefox(Pages):
    browser: firefox.Firefox

    @classmethod
    def setUpClass(cls) -> None:
        super().setUpClass()
        cls.browser = firefox.Firefox()

    @classmethod
    def tearDownClass(cls) -> None:
        cls.browser.close()
        super().tearDownClass()

    def test_files(self) -> None:
        self.browser.open(self.folder / "check.html")
        self.browser.choose("#several", *(EXAMPLES / f"two_decks/{name}.bin" for name in NAMES))
        said = self.browser.until("#verdict", "accepted")
        self.assertTrue(said.startswith("accepted\nlower -4700103/50000\nupper 2600156/50000"), said)
        for line, runs in refusals():
            for name, file in zip(NAMES, self.files(runs)):
                self.browser.choose(f"#{name}", file)
            self.browser.until("#verdict", line)

    def test_every_stored_pair(self) -> None:
        text, count = corpus_page()
        self.browser.open(self.changed(text))
        self.assertEqual(self.browser.until("#said", "differ"), f"{count} pairs, 0 differ")

    def test_sheet(self) -> None:
        self.browser.open(self.sheet)
        said = self.browser.until("#again", "Checked again in this page, just now")
        self.assertIn("accepted, lower -7407/50000", said)
        self.assertEqual(pages_of(self.browser.printed()), 1)
        self.browser.open(self.changed(damaged(self.sheet.read_text(encoding="utf-8"), "high.bin", 33)))
        self.assertIn("the SHA-256 of high.bin is not the printed one", self.browser.until("#again", "DOES NOT HOLD"))


del Pages                        # it has no tests of its own
if __name__ == "__main__":
    unittest.main()
