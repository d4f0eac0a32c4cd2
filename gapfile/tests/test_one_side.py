"""A filing of one side: what is claimed and what not, by the proved check of one certificate; and what is forged."""
import html
import json
import os
import re
import shutil
import subprocess
import tempfile
import unittest
from fractions import Fraction
from pathlib import Path
from typing import Callable
from unittest import mock

from gapfile.programs import reference
from gapfile.tests.support import EXAMPLES, RECORDED, needs_programs, records, run
from gapfile.tests.test_filing import Page, header
from gapfile.tests.test_statuses import script
from gapfile.tests.test_theorem import needs_coq, needs_csdp
from gapfile.tests.test_verify import resum, text
from gapfile.theorem.checking import ask_coqc, proved
from gapfile.theorem.statements import quoted_in

FILES = {"problem.bin", "model.gap", "manifest.json", "problem.txt", "verdict.txt", "blocks.svg", "check.record",
         "sheet.html", "SUMS"}
CERTIFICATE = {"quartic": "low.bin", "axle": "high.bin"}


def both(*edits: Callable[[Path], None]) -> Callable[[Path], None]:
    def edit(folder: Path) -> None:
        for one in edits:
            one(folder)
    return edit


@needs_programs
class OneSide(unittest.TestCase):
    kept: tempfile.TemporaryDirectory[str]
    said: dict[str, str]

    @classmethod
    def setUpClass(cls) -> None:
        cls.kept, cls.said = tempfile.TemporaryDirectory(), {}
        for name in CERTIFICATE:
            status, out, err = run("file", EXAMPLES / f"choices/{name}.gap", "-o", Path(cls.kept.name) / name,
                                   "--answers", RECORDED / name)
            assert status == 0, err
            cls.said[name] = out

    @classmethod
    def tearDownClass(cls) -> None:
        cls.kept.cleanup()

    def folder(self, name: str) -> Path:
        return Path(self.kept.name) / name

    def bound(self, name: str) -> Fraction:
        """The bound in the model's units, from the bytes."""
        p, q = header((self.folder(name) / CERTIFICATE[name]).read_bytes())
        factor: int = json.loads((self.folder(name) / "manifest.json").read_text())["factor"]
        return Fraction(p, q) / factor

    def test_the_bounds(self) -> None:
        """Against the paper's optimum, and against one that is known as a root: at a = 4 and b^3 = 30 the moment is
        9*b - 16, and nowhere larger, as it grows with a there."""
        low = self.bound("quartic")
        self.assertTrue(Fraction("0.47527477") < low < Fraction("0.475274782"), low)
        x, y = Fraction(5089, 12500), Fraction(-663, 1000)
        self.assertLess(low, 1 + 2 * x ** 4 + y ** 4 + x * x * y + y)
        high = self.bound("axle")
        self.assertGreaterEqual(((high + 16) / 9) ** 3, 30)
        self.assertLess(((high - Fraction(1, 10 ** 7) + 16) / 9) ** 3, 30)

    def test_files(self) -> None:
        for name, certificate in CERTIFICATE.items():
            self.assertEqual({file.name for file in self.folder(name).iterdir()}, FILES | {certificate})
            lines = self.said[name].splitlines()
            self.assertTrue(lines[-1].endswith("verdict.txt, blocks.svg, check.record, sheet.html, SUMS"))
        self.assertEqual(self.said["quartic"].splitlines()[:2], ["at least 0.47527478", "no upper bound is claimed"])
        self.assertEqual(self.said["axle"].splitlines()[:2], ["at most 11.96509256 kNm", "no lower bound is claimed"])

    def test_the_record(self) -> None:
        """What replay reads: kind c, the problem, the certificate, nothing; the reference prints the same line."""
        for name, certificate in CERTIFICATE.items():
            folder = self.folder(name)
            found = list(records(folder / "check.record"))
            streams = [(folder / file).read_bytes() for file in ("problem.bin", certificate)]
            self.assertEqual(found, [("c", [*streams, b""])])
            built = reference()
            if built:
                ran = subprocess.run([str(built), "replay"], input=(folder / "check.record").read_bytes(),
                                     capture_output=True, check=True)
                self.assertEqual(ran.stdout.decode(), (folder / "verdict.txt").read_text())

    def test_check(self) -> None:
        status, out, _ = run("check", self.folder("axle"), "--second")
        self.assertEqual(status, 0)
        p, q = header((self.folder("axle") / "high.bin").read_bytes())
        self.assertEqual(out.splitlines()[:4], [
            "at most 11.96509256 kNm", "no lower bound is claimed",
            "replay on the stream, whose polynomial is 10000000 times the model's:",
            f"  check 1 {p}/{q} rounds 2 rule 1"])
        self.assertIn("agrees", out.splitlines()[4])
        status, out, _ = run("check", self.folder("quartic"), "--json")
        data = json.loads(out)
        self.assertEqual((status, data["not claimed"], list(data["figures"])), (0, "upper", ["lower"]))
        self.assertEqual((data["figures"]["lower"]["exact"], data["attained"][1]), (str(self.bound("quartic")), None))

    def test_verify(self) -> None:
        for name, certificate in CERTIFICATE.items():
            status, out, err = run("verify", self.folder(name))
            self.assertEqual((status, err), (0, ""), out)
            word = "lower" if certificate == "low.bin" else "upper"
            self.assertIn(f"ok: all 10 files of a filing of the {word} bound alone are there", out)
            self.assertRegex(out, r"ok: replay \(.*\) accepts the problem and its certificate")
            self.assertTrue(out.rstrip().endswith("bound is claimed"))

    def test_the_sheet(self) -> None:
        for name, word, other in (("quartic", "lower", "upper"), ("axle", "upper", "lower")):
            sheet = (self.folder(name) / "sheet.html").read_text(encoding="utf-8")
            self.assertEqual(Page(sheet).open, [])
            figures = set(re.findall('data-figure="([a-z ]+)"', sheet))
            self.assertEqual(figures, {"factor", word, f"{word} exact", f"{word} attained", f"{word} off by"})
            for said in (f"One side alone: no {other} bound is claimed", f"<li>Any {other} bound.</li>",
                         "accepted by the proved check of one certificate", "replay &lt;check.record",
                         "<h2>What replay printed</h2>"):
                self.assertIn(said, sheet)
            words = sheet.partition("<script")[0]
            self.assertNotIn("gapcheck", words)
            self.assertNotIn("differ by at most", words)
        self.assertIn("Note: Loads as in drawing 12. · From below it is not asked for: the axle is held there.",
                      html.unescape(sheet))

    def changed(self, name: str, edit: Callable[[Path], None]) -> tuple[int, str]:
        """The status of `verify` and what it says after an edit, with SUMS made to fit."""
        with tempfile.TemporaryDirectory() as place:
            folder = Path(place) / "changed"
            shutil.copytree(self.folder(name), folder)
            edit(folder)
            present = [line for line in (folder / "SUMS").read_text().splitlines()
                       if line.startswith("#") or (folder / line.split("  ")[1]).exists()]
            (folder / "SUMS").write_text("\n".join(present) + "\n")
            resum(folder)
            status, out, err = run("verify", folder)
            self.assertEqual(err, "")
            self.assertEqual("all of it holds" in out, status == 0)
            return status, out

    def test_forged(self) -> None:
        """The other side, both sides, a certificate of the other side, words of the sheet: each is told."""
        def renamed(folder: Path) -> None:
            (folder / "high.bin").rename(folder / "low.bin")

        def copied(folder: Path) -> None:
            shutil.copy(folder / "high.bin", folder / "low.bin")

        def emptied(folder: Path) -> None:
            (folder / "check.record").write_bytes(b"c" + bytes(12))
        other = text("model.gap", "only   upper", "only   lower")
        for name, edit, status, said in (
                ("axle", text("model.gap", "only   upper", ""), 5, "missing: low.bin"),
                ("axle", other, 5, "missing: low.bin"),
                ("axle", both(other, renamed), 5,
                 "the model, the manifest and problem.bin: low.bin states the upper bound, where the model claims the "
                 "lower one"),
                ("axle", copied, 5,
                 "low.bin is there, and is no file of a filing of the upper bound alone"),
                ("axle", lambda folder: (folder / "check.record").unlink(), 5, "missing: check.record"),
                ("axle", emptied, 5, "check.record is not what gapfile writes"),
                ("axle", text("manifest.json", '"side": "upper"', '"side": "lower"'), 5,
                 "the model, the manifest and problem.bin: the manifest has the lower side alone, the model claims the "
                 "upper side alone"),
                ("quartic", text("sheet.html", "One side alone: no upper", "One side alone: no other"), 5,
                 "the sheet is not, to the letter"),
                ("quartic", text("sheet.html", "</body>", '<b data-figure="upper">1</b></body>'), 5,
                 "the sheet is not, to the letter"),
                ("quartic", text("sheet.html", '"lower">0.47527478', '"lower">0.47527479'), 5, "the sheet's lower is")):
            found, out = self.changed(name, edit)
            self.assertEqual(found, status, out)
            self.assertIn(f"DIFFERS: {said}", out)

    def test_refused(self) -> None:
        """A bound that is a little better is no bound: refusal 9, by the proved check, and `explain` says why."""
        def better(folder: Path) -> None:
            data = bytearray((folder / "low.bin").read_bytes())
            data[4:8] = (int.from_bytes(data[4:8], "little", signed=True) + 1).to_bytes(4, "little", signed=True)
            (folder / "low.bin").write_bytes(data)
        status, out = self.changed("quartic", better)
        self.assertEqual(status, 1)
        self.assertRegex(out, r"DIFFERS: replay \(.*\): refused 9 1 0 0")
        with tempfile.TemporaryDirectory() as place:
            folder = Path(place) / "changed"
            shutil.copytree(self.folder("quartic"), folder)
            better(folder)
            status, out, _ = run("explain", folder)
            self.assertEqual(status, 1)
            self.assertIn("only the constant differs: these rows prove the lower bound", out)
            self.assertIn("the certificate is not the file that SUMS lists", out)
            status, out, _ = run("check", folder)
            self.assertEqual((status, out), (1, "refused 9 1 0 0\n"))
            status, out, _ = run("theorem", folder)
            self.assertEqual(status, 1)
            self.assertFalse((folder / "figure.v").exists())

    def test_replay_is_untrusted(self) -> None:
        """What replay prints is read strictly; the other side's answer is no answer for this folder."""
        for line, status, said in (("echo nonsense", 2, "printed what is no verdict: 'nonsense'"),
                                   ("echo check 0 1/0 rounds 1 rule 1", 2, "no verdict"),
                                   ("exit 1", 2, "ended with status 1")):
            with tempfile.TemporaryDirectory() as place, \
                    mock.patch.dict(os.environ, {"REPLAY": str(script(Path(place), "replay", line))}):
                found, out, err = run("verify", self.folder("quartic"))
                self.assertEqual((found, out), (status, ""))
                self.assertIn(said, err)

    def test_the_theorem_is_one_sided(self) -> None:
        for name, word in (("quartic", "lower"), ("axle", "upper")):
            with tempfile.TemporaryDirectory() as place:
                folder = Path(place) / "filed"
                shutil.copytree(self.folder(name), folder)
                status, out, err = run("theorem", folder)
                self.assertEqual(status, 0, err)
                made = (folder / "figure.v").read_text()
                self.assertEqual(proved(made), ["figure", "model", f"attained_{word}", "quoted"])
                self.assertEqual(quoted_in(made), ["0.47527478" if name == "quartic" else "11.96509256"])
                status, out, _ = run("verify", folder)
                self.assertEqual(status, 0, out)
                self.assertIn("as the sheet does", out)

    @needs_coq
    def test_coq(self) -> None:
        """Coq proves it; and with a better decimal, or turned around, it does not."""
        for name, old, new in (("quartic", "0.47527478 <= 1", "0.4752747801 <= 1"),
                               ("axle", "b^4/10 <= 11.96509256", "b^4/10 <= 11.9650925")):
            with tempfile.TemporaryDirectory() as place:
                folder = Path(place) / "filed"
                shutil.copytree(self.folder(name), folder)
                status, out, err = run("theorem", folder, "--check")
                self.assertEqual(status, 0, out + err)
                made = (folder / "figure.v").read_text()
            self.assertIn(old, made)
            self.assertFalse(ask_coqc(made.replace(old, new)).proved)

    @needs_csdp
    def test_no_upper_bound(self) -> None:
        """Without `only` such a model is not filed, and what to do is said; an empty region is no one-sided filing."""
        for words, said in (("var x1 x2 x3\nbound 1 + x1^4 + x2^4 + x3^4 + x1*x2*x3 + x2",
                             "; the line `only lower` files the lower bound alone"),
                            ("var x\nbound x^2\nwhere x >= 2\nwhere x <= 1\nonly lower",
                             "one side alone cannot show that")):
            with tempfile.TemporaryDirectory() as place:
                model = Path(place) / "m.gap"
                model.write_text(words)
                status, _, err = run("file", model, "-o", Path(place) / "filed")
                self.assertEqual(status, 3, err)
                self.assertIn(said, err)
                self.assertFalse((Path(place) / "filed").exists())

    def test_solve(self) -> None:
        """`solve` writes the streams alone; check and theorem know the side by the model."""
        with tempfile.TemporaryDirectory() as place:
            folder = Path(place) / "solved"
            status, _, err = run("solve", EXAMPLES / "choices/axle.gap", "-o", folder, "--answers", RECORDED / "axle")
            self.assertEqual(status, 0, err)
            self.assertEqual({file.name for file in folder.iterdir()},
                             {"problem.bin", "high.bin", "model.gap", "manifest.json"})
            self.assertEqual(run("check", folder)[1].splitlines()[0], "at most 11.96509256 kNm")
            self.assertEqual(run("theorem", folder)[0], 0)
            (folder / "model.gap").unlink()
            status, out, _ = run("check", folder)                # without a model the figures of what is there
            self.assertEqual(status, 0)
            self.assertIn(f"upper  {self.bound('axle') * 10 ** 7} = 119650925.6\n", out)
            self.assertIn("there is no model.gap", out)


if __name__ == "__main__":
    unittest.main()
