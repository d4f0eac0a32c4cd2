"""Filing: the sheet's figures against fractions computed apart, sums, and that nothing is filed that was not
accepted."""
import hashlib
import html
import json
import re
import shutil
import subprocess
import tempfile
import unittest
from dataclasses import replace
from decimal import ROUND_CEILING, ROUND_FLOOR, Context, Decimal
from fractions import Fraction
from html.parser import HTMLParser
from pathlib import Path
from typing import Optional
from unittest import mock

from gapfile import programs, selfcheck
from gapfile.figures import Figures, figures_of
from gapfile.filing import filed_files
from gapfile.manifest import Manifest, read_manifest
from gapfile.model import parse
from gapfile.problem import encode_problem
from gapfile.programs import Blocks, gapcheck, pair_verdict
from gapfile.reading import read_problem
from gapfile.restating import Scaled, restate
from gapfile.sheet import page
from gapfile.tests.support import EXAMPLES, RECORDED, ROOT, needs_programs, run
from gapfile.writing import STREAMS

FILES = {"problem.bin", "low.bin", "high.bin", "model.gap", "manifest.json", "problem.txt", "verdict.txt", "blocks.svg",
         "sheet.html"}


def outward(p: int, q: int, up: bool, digits: int = 6) -> str:
    """So many digits, by another way than the tool's: the decimal module, which rounds the quotient once."""
    way = ROUND_CEILING if up else ROUND_FLOOR
    value = Context(prec=60, rounding=way).divide(Decimal(p), Decimal(q)).quantize(Decimal(1).scaleb(-digits), way)
    text = f"{value:f}"
    return text.rstrip("0").rstrip(".") if "." in text else text


def header(stream: bytes) -> tuple[int, int]:
    """p and q from the bytes of a certificate: at 4 and at 8."""
    return int.from_bytes(stream[4:8], "little", signed=True), int.from_bytes(stream[8:10], "little")


class Page(HTMLParser):
    """Whether tags close, what is fetched, and how many scripts stand in it."""

    def __init__(self, text: str) -> None:
        super().__init__()
        self.open: list[str] = []
        self.fetched: list[str] = []
        self.scripts = 0
        self.feed(text)

    def handle_starttag(self, tag: str, attributes: list[tuple[str, Optional[str]]]) -> None:
        if tag != "meta":
            self.open.append(tag)
        self.scripts += tag == "script"
        self.fetched += [tag] if tag in ("link", "img", "iframe", "object") else []
        self.fetched += [name for name, value in attributes if name == "src" or name.startswith("on")
                         or name == "href" and not (value or "").startswith("data:")]

    def handle_startendtag(self, tag: str, attributes: list[tuple[str, Optional[str]]]) -> None:
        self.handle_starttag(tag, attributes)
        self.handle_endtag(tag)

    def handle_endtag(self, tag: str) -> None:
        assert self.open.pop() == tag, tag


@needs_programs
class Filing(unittest.TestCase):
    kept: tempfile.TemporaryDirectory[str]
    folders: dict[str, Path]
    said: dict[str, str]

    @classmethod
    def setUpClass(cls) -> None:
        cls.kept = tempfile.TemporaryDirectory()
        cls.folders = {}
        cls.said = {}
        for name in ("two_decks", "chained_wood", "crosstalk"):
            folder = Path(cls.kept.name) / name
            status, out, err = run("file", EXAMPLES / f"{name}.gap", "-o", folder, "--answers", RECORDED / name)
            assert status == 0, err
            cls.folders[name], cls.said[name] = folder, out.replace(str(folder), name)

    @classmethod
    def tearDownClass(cls) -> None:
        cls.kept.cleanup()

    def sheet(self, name: str) -> str:
        return (self.folders[name] / "sheet.html").read_text(encoding="utf-8")

    def seen(self, name: str) -> str:
        """The text of the sheet without tags."""
        text = html.unescape(re.sub(r"<style>.*?</style>|<.*?>", "", self.sheet(name), flags=re.DOTALL))
        return text.replace("\u2002", " ")

    def test_readme(self) -> None:
        """What the README says that the two commands print is what they print."""
        readme = (ROOT / "gapfile/README.md").read_text(encoding="utf-8")
        for name in ("two_decks", "crosstalk"):
            said = "".join(f"    {line}\n" for line in self.said[name].splitlines())
            self.assertTrue(said in readme, f"not in the README:\n{said}")
        model = (EXAMPLES / "crosstalk.gap").read_text()
        self.assertIn("".join(f"    {line}\n" for line in model.splitlines()), readme)

    def test_figures(self) -> None:
        """The three figures from the bytes of the certificates, divided by the factor."""
        for name, factor in (("two_decks", 5000000), ("chained_wood", 2000000), ("crosstalk", 2000)):
            (p, q), (P, Q) = [header((self.folders[name] / f"{side}.bin").read_bytes()) for side in ("low", "high")]
            figures = [text.replace("−", "-") for text in
                       re.findall(r'<b data-figure="\w+">(.*?)</b>', self.sheet(name))]
            self.assertEqual(figures, [outward(p, q * factor, False, 9), outward(P, Q * factor, True, 9),
                                       outward(P * q - p * Q, Q * q * factor, True, 9)])
            self.assertIn(f"recorded factor {factor}", self.seen(name))
            for stated in (f"{p}/{q}", f"{P}/{Q}", f"{P * q - p * Q}/{Q * q}"):
                self.assertIn(f'<td class="mono">{stated}</td>', self.sheet(name))
            low, high = Fraction(p, q * factor), Fraction(P, Q * factor)
            for word, value in (("lower", low), ("upper", high), ("gap", high - low)):
                self.assertIn(f'data-figure="{word} exact">{value}</td>', self.sheet(name))

    def figures(self, name: str) -> Figures:
        """The figures, computed again from the files of a folder."""
        folder = self.folders[name]
        streams = [(folder / stream).read_bytes() for stream in STREAMS]
        return figures_of(streams, gapcheck(*streams), read_manifest((folder / "manifest.json").read_bytes()),
                          parse((folder / "model.gap").read_text()))

    def test_rounded_outward(self) -> None:
        """Bounds with a third digit that no decimal ends: the lower one down, the upper one and the gap up."""
        figures = self.figures("two_decks")
        # -940000001/30000000, 1300000001/75000000 and 7300000007/150000000
        text = page(replace(figures, factor=15000000), [])
        found = re.findall(r'<b data-figure="\w+">(.*?)</b>', text)
        self.assertEqual(found, ["−31.33333337", "17.33333335", "48.66666672"])
        self.assertIn("Rounded outward to 8 digits", text)

    def test_polynomial_and_region_from_the_bytes(self) -> None:
        """Worked out by hand from the models: what was sent, and what it is in the model's variables."""
        seen = self.seen("crosstalk")
        self.assertIn("a·b + 0.1·b² − 0.2·a²·b + 0.1·a⁴where  0 ≤ a, b ≤ 40;  60 − a − b ≥ 0;  a − 2·b = 0", seen)
        self.assertIn("f = 29680000 + 122400000·u1 − 2240000·u2", seen)            # 2000 times 14840 + ..
        self.assertIn("1 − u1² ≥ 0;  1 − u2² ≥ 0;  1 − u1 − u2 ≥ 0;  −1 + u1 − 2·u2 = 0", seen)
        self.assertIn("with  a = 20 + 20·u1,  b = 20 + 20·u2", seen)
        seen = self.seen("chained_wood")
        self.assertIn("42 − 2·x1 − 40·x2 − 2·x3 − 40·x4 + x1² + 110.1·x2² + 19.8·x2·x4 + x3² + 100.1·x4² − 200·x1²·x2 "
                      "− 180·x3²·x4 + 100·x1⁴ + 90·x3⁴where  0 ≤ x1, x2, x3, x4 ≤ 1;  1 − x1 − x2 − x3 − x4 ≥ 0", seen)
        self.assertIn("As sent in problem.bin: 2000000 times the polynomial above (recorded factor 2000000)", seen)
        self.assertIn("Computed back from problem.bin", self.seen("two_decks"))

    def test_attained(self) -> None:
        self.assertIn("0 is attained at a = 0,  b = 0", self.seen("crosstalk"))
        self.assertIn("250440 is attained at a = 40,  b = 20", self.seen("crosstalk"))
        self.assertIn("−94 is attained at x1 = −1,  x2 = −1,  x3 = 1,  x4 = −1", self.seen("two_decks"))

    def test_a_point_that_is_not_allowed_is_not_shown(self) -> None:
        """A point outside a range, and one that breaks a condition: the sheet says that nothing was attained."""
        for name, point in (("two_decks", ["-2", "-1", "1", "-1"]), ("crosstalk", ["0", "0"])):
            folder = self.folders[name]
            data = json.loads((folder / "manifest.json").read_text())
            data["sides"][0]["attained"]["point"] = point
            streams = [(folder / stream).read_bytes() for stream in STREAMS]
            figures = figures_of(streams, gapcheck(*streams), read_manifest(json.dumps(data).encode()),
                                 parse((folder / "model.gap").read_text()))
            self.assertIn('data-figure="lower attained">none was found</td><td data-figure="lower off by">how tight is '
                          "not known</td>", page(figures, []))

    def test_verdict_to_the_letter(self) -> None:
        for folder in self.folders.values():
            lines = subprocess.run([ROOT / "target/bin/gapcheck"], cwd=folder, capture_output=True, text=True).stdout
            self.assertEqual((folder / "verdict.txt").read_text(), lines)
            page = (folder / "sheet.html").read_text(encoding="utf-8")
            self.assertIn(f"<pre>{html.escape(lines.rstrip())}</pre>", page)

    def test_sums(self) -> None:
        for folder in self.folders.values():
            sheet = (folder / "sheet.html").read_text(encoding="utf-8")
            names = set()
            comment, *lines = (folder / "SUMS").read_text().splitlines()
            checker = hashlib.sha256((ROOT / "target/bin/gapcheck").read_bytes()).hexdigest()
            self.assertTrue(comment.startswith(f"# Zamiachisel's gapcheck, SHA-256 {checker}"), comment)
            for line in lines:
                digest, name = line.split("  ")
                names.add(name)
                self.assertEqual(hashlib.sha256((folder / name).read_bytes()).hexdigest(), digest)
                self.assertTrue(name == "sheet.html" or digest in sheet)
            self.assertEqual(names, FILES)
            self.assertEqual({p.name for p in folder.iterdir()}, FILES | {"SUMS"})
            self.assertIn(hashlib.sha256((ROOT / "target/bin/gapcheck").read_bytes()).hexdigest(), sheet)
            if shutil.which("sha256sum"):
                ran = subprocess.run(["sha256sum", "--check", "--quiet", "SUMS"], cwd=folder, capture_output=True)
                self.assertEqual(ran.returncode, 0)

    def test_page(self) -> None:
        for folder in self.folders.values():
            page = Page((folder / "sheet.html").read_text(encoding="utf-8"))
            self.assertEqual((page.open, page.fetched), ([], []))
            self.assertEqual(page.scripts, 2 if selfcheck.built() else 0)        # the module's bytes, and what runs it

    def test_manifest(self) -> None:
        data = json.loads((self.folders["chained_wood"] / "manifest.json").read_text())
        self.assertEqual((data["factor"], data["variables"][0]["is"]), (2000000, "1/2 + 1/2*u1"))
        self.assertEqual(data["sides"][1]["attained"]["value"], "141")
        self.assertEqual(data["conditions"][-1], "x1 + x2 + x3 + x4 <= 1")

    def test_the_figure_comes_first(self) -> None:
        """`file` and `check` say the model's figure first; the stream's fractions come after, named as such."""
        lines = self.said["chained_wood"].splitlines()
        self.assertEqual(lines[:4], ["at least 26.26589785", "at most 141.0000001",
                                     "two values differ by at most 114.73410225",
                                     "gapcheck on the stream, whose polynomial is 2000000 times the model's:"])
        self.assertEqual(run("check", self.folders["chained_wood"])[1].splitlines(), lines[:8])

    def test_solve_writes_nothing_that_was_not_accepted(self) -> None:
        with tempfile.TemporaryDirectory() as kept, \
                mock.patch.object(programs, "gapcheck", lambda *_: pair_verdict(["refused 9 1 0 0"])):
            folder = Path(kept) / "none"
            status, _, err = run("file", EXAMPLES / "crosstalk.gap", "-o", folder, "--answers", RECORDED / "crosstalk")
            self.assertEqual(status, 1)
            self.assertIn("gapcheck refused what was made, and nothing is written: refused 9 1 0 0", err)
            self.assertFalse(folder.exists())

    def test_empty_region(self) -> None:
        """The sheet says that there are no points, and has no figure."""
        streams = [(EXAMPLES / "contradictory" / stream).read_bytes() for stream in STREAMS]
        model = parse((EXAMPLES / "contradictory.gap").read_text())
        variables = [Scaled(name, name, Fraction(0), Fraction(1)) for name in model.names]
        manifest = Manifest(1, variables, [None, None], [None, None], [None, None], ["2", "-2"], {})
        streams[0] = encode_problem(restate(model, variables, 1, read_problem(streams[0])).problem)
        text = page(figures_of(streams, gapcheck(*streams), manifest, model), [])
        self.assertIn("No point meets all the conditions: the region is empty.", text)
        self.assertEqual(re.findall(r'<b data-figure="\w+">', text), [])
        self.assertIn("gap empty\n", text)

    def test_head(self) -> None:
        """Date, number, unit, maker and title from the model, escaped; blank lines where it has none."""
        figures = self.figures("crosstalk")
        model = parse((EXAMPLES / "crosstalk.gap").read_text())
        model.head = {"title": "<script>alert(1)</script>", "number": "<i>7</i>", "unit": "<kg>", "by": "<A & B>"}
        text = page(replace(figures, model=model, made={**figures.made, "solver": "<csdp>"}), [("<file>", "<sum>")])
        self.assertEqual(Page(text).fetched, [])
        for word in ("<script>alert", "<i>7", "<kg>", "<A &", "<csdp>", "<file>", "<sum>"):
            self.assertNotIn(word, text)
            self.assertIn(html.escape(word.split(" ")[0])[:5], text)
        self.assertIn("<span>Date</span><b>20", self.sheet("crosstalk"))
        self.assertIn("<span>Document number</span><b></b>", self.sheet("crosstalk"))
        self.assertIn("<span>Signed</span><b></b>", self.sheet("crosstalk"))

    def test_the_model_as_written(self) -> None:
        self.assertIn("var    a b in [0, 40]\nbound  0.1*(b - a^2)^2 + a*b\nwhere  a + b &lt;= 60\n"
                      "where  a == 2*b</pre>", self.sheet("crosstalk"))

    def test_who_proved_what(self) -> None:
        seen = " ".join(self.seen("crosstalk").split())
        self.assertIn("gapcheck, a program with a proof, accepted the bounds of the polynomial of problem.bin", seen)
        self.assertIn("are gapfile's arithmetic: gapfile verify computes it again", seen)
        digest = hashlib.sha256((ROOT / "target/bin/gapcheck").read_bytes()).hexdigest()
        listed = f"`{digest}`" in (ROOT / "docs/HASHES.md").read_text(encoding="utf-8")
        self.assertIn("gapcheck is target/bin/gapcheck (built in this repository), whose hash is "
                      + ("a published one" if listed else "none of the published ones") + ". ", seen)
        self.assertNotIn("rational", seen)

    def test_a_line_of_the_sheet_is_a_line_of_a_model(self) -> None:
        """What was computed back is pasted after `bound`, and is the same polynomial."""
        for name in self.folders:
            model = self.figures(name).model
            back = re.findall(r'<p class="formula">(.*?)</p>', self.sheet(name))[0]
            text = "".join(f"var {x}\n" for x in model.names) + "bound " + html.unescape(re.sub("<.*?>", "", back))
            self.assertEqual(parse(text).bound, model.bound)
        where = parse("var a b\nbound a\nwhere 60 − a − b ≥ 0\nwhere a − 2·b = 0").conditions
        self.assertEqual([w.polynomial for w in where],
                         [w.polynomial for w in self.figures("crosstalk").model.conditions])

    def test_further_files(self) -> None:
        """A file that another command adds is in SUMS and on the sheet."""
        figures, folder = self.figures("crosstalk"), self.folders["crosstalk"]
        solved = {name: (folder / name).read_bytes() for name in (*STREAMS, "model.gap", "manifest.json")}
        files = filed_files(figures, Blocks(0, 0, 1, [[] for _ in range(9)]), solved, {"figure.v": b"Qed."})
        digest = hashlib.sha256(b"Qed.").hexdigest()
        self.assertIn(f"{digest}  figure.v\n", files["SUMS"].decode())
        self.assertIn(digest, files["sheet.html"].decode())

    def test_statuses(self) -> None:
        with tempfile.TemporaryDirectory() as folder:
            model = Path(folder) / "m.gap"
            model.write_text("var x\nbound x +\n")
            status, _, err = run("solve", model, "-o", folder)
            self.assertEqual((status, err), (2, f"gapfile: {model}: line 2, column 10: expected a number, a variable "
                                                "or `(`, found the end of the line\n"))
            status, _, err = run("solve", Path(folder) / "none.gap", "-o", Path(folder) / "out")
            self.assertEqual((status, err), (2, f"gapfile: {folder}/none.gap: No such file or directory\n"))
            status, _, err = run("solve", EXAMPLES / "two_decks.gap", "-o", Path(folder) / "out", "--answers", folder)
            self.assertEqual(status, 2)
            self.assertIn("has no answer for this program", err)
            self.assertEqual(run("solve", EXAMPLES / "two_decks.gap")[0], 2)


if __name__ == "__main__":
    unittest.main()
