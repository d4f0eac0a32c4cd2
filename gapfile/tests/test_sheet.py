"""The sheet: its formulas, and the page opened in a real browser where one is installed, also the fullest one."""
import random
import re
import shutil
import struct
import subprocess
import tempfile
import unittest
import zlib
from collections import Counter
from dataclasses import replace
from fractions import Fraction
from pathlib import Path

from gapfile import selfcheck
from gapfile.choices import Basis, Choices
from gapfile.commands import Monomial, ONE
from gapfile.figures import Figures, Reached
from gapfile.formulas import formula, in_the_model, joined, letters, point_html, region, standing
from gapfile.model import Model
from gapfile.polynomials import evaluate
from gapfile.programs import Verdict
from gapfile.ranges import range_of
from gapfile.reading import Certificate, Condition, Problem, Row
from gapfile.restating import Restated, Scaled
from gapfile.selfcheck import checking
from gapfile.sheet import page
from gapfile.tests.support import EXAMPLES, RECORDED, needs_programs, run

BROWSER = shutil.which("chromium") or shutil.which("chromium-browser") or shutil.which("google-chrome")
FILES = ("problem.bin", "low.bin", "high.bin", "model.gap", "manifest.json", "problem.txt", "verdict.txt", "blocks.svg",
         "figure.v")
ACCENT, PAPER = (0x1f, 0x4f, 0x7a), (255, 255, 255)


def monomial(*exponents: int) -> Monomial:
    return exponents + (0,) * (8 - len(exponents))


class Formulas(unittest.TestCase):
    variables = [Scaled("a", "u1", Fraction(20), Fraction(20)), Scaled("b", "u2", Fraction(0), Fraction(1, 2))]

    def test_formula(self) -> None:
        terms: dict[Monomial, Fraction | int] = {ONE: 3, monomial(1): -1, monomial(2, 1): Fraction(1, 3),
                                                 monomial(0, 10): Fraction(-1, 4)}
        whole = "3 − <i>a</i> + 1/3·<i>a</i>²·<i>b</i> − 0.25·<i>b</i>¹⁰"
        self.assertEqual(formula(terms, ["a", "b"], 99), whole)
        self.assertEqual(formula(terms, ["a", "b"], 10), "3 − <i>a</i> … 2 more terms")
        self.assertEqual(formula(terms, ["a", "b"], 1), " … 4 terms")
        self.assertEqual(formula({}, [], 9), "0")

    def test_back_to_the_model(self) -> None:
        """At every point the polynomial of the stream has the value of the one in the model's variables."""
        chance = random.Random(4)
        terms = {monomial(chance.randrange(4), chance.randrange(4)): chance.randrange(-9, 10) for _ in range(6)}
        back = in_the_model(terms, self.variables)
        for _ in range(20):
            inner = [Fraction(chance.randrange(-9, 10), chance.randrange(1, 9)) for _ in range(2)]
            outer = [v.middle + v.half * x for v, x in zip(self.variables, inner)]
            self.assertEqual(evaluate(back, outer), evaluate(terms, inner))

    def test_region(self) -> None:
        box = [Condition(False, {ONE: 1, monomial(2): -1}), Condition(False, {monomial(0, 2): -1, ONE: 1})]
        # 1 - u1 - 2 u2 = 1 - (a - 20)/20 - 4b = (40 - a - 80b)/20
        others = [Condition(True, {ONE: 1, monomial(1): -1, monomial(0, 1): -2})]
        self.assertEqual(region(box + others, self.variables, 99),
                         "0 ≤ <i>a</i> ≤ 40; &ensp;−0.5 ≤ <i>b</i> ≤ 0.5; &ensp;40 − <i>a</i> − 80·<i>b</i> = 0")
        self.assertEqual(joined([], box[:1], ["u1", "u2"], 99), "1 − <i>u1</i>² ≥ 0")
        self.assertEqual(region([], self.variables, 99), "no condition: all points")

    def test_what_is_a_range(self) -> None:
        self.assertEqual(range_of(Condition(False, {ONE: 1, monomial(0, 2): -1})), (1, -1, 1))
        self.assertEqual(range_of(Condition(False, {monomial(1): 3, monomial(2): -2})), (0, 0, Fraction(3, 2)))
        self.assertIsNone(range_of(Condition(True, {ONE: 1, monomial(0, 2): -1})))
        for terms in ({ONE: 2, monomial(2): -1}, {ONE: 1, monomial(2): -2}, {ONE: 1, monomial(1, 1): -1},
                      {ONE: 1, monomial(2): 1}, {ONE: 1}, {ONE: 1, monomial(1): 1}, {ONE: 1, monomial(4): -1}):
            self.assertIsNone(range_of(Condition(False, terms)), terms)

    def test_variables_and_points(self) -> None:
        self.assertEqual(standing(self.variables, 99), "<i>a</i> = 20 + 20·<i>u1</i>, &ensp;<i>b</i> = 0.5·<i>u2</i>")
        self.assertEqual(standing(self.variables, 20), "<i>a</i> = 20 + 20·<i>u1</i> … 1 more, in manifest.json")
        self.assertEqual(point_html(["a", "b"], [Fraction(1, 2), Fraction(-1, 6)], 99),
                         "<i>a</i> = 0.5, &ensp;<i>b</i> = −1/6")
        self.assertEqual(letters("<i>a</i> = 0"), 5)


def fullest(chance: random.Random, variables: list[Scaled], factor: int) -> Figures:
    """A sheet with all that the checker's limits allow, and more letters than a line holds everywhere."""
    def some(count: int, degree: int) -> list[Monomial]:
        found: dict[Monomial, None] = {}
        while len(found) < count:
            e = [0] * 8
            for _ in range(chance.randrange(degree + 1)):
                e[chance.randrange(8)] += 1
            found[tuple(e)] = None
        return list(found)

    problem = Problem(8, {e: chance.randrange(-2 ** 31, 2 ** 31) for e in some(256, 6)},
                      [Condition(k % 3 == 0, {e: chance.randrange(1, 2 ** 15) for e in some(32, 5)}) for k in range(8)],
                      [some(64, 4) for _ in range(9)])
    rows = [Row(0, 1, 0)] * 128
    low, high = Certificate(0, 65535, -2 ** 31, 65521, rows), Certificate(1, 65535, 2 ** 31 - 1, 65519, rows)
    lower, upper = Fraction(low.p, low.q), Fraction(high.p, high.q)
    gap = f"{high.p * low.q - low.p * high.q}/{low.q * high.q}"
    lines = [f"lower {low.p}/{low.q}", f"upper {high.p}/{high.q}", f"gap {gap}", "rounds 576"]
    points = [[Fraction(chance.randrange(-10 ** 14, 10 ** 14), 10 ** 14 + 7) for _ in range(8)] for _ in range(2)]
    long = "A bid with many decks, on many footings, at many positions, and words far too long for a line " * 3
    model = Model(dict.fromkeys(("title", "number", "by", "unit", "date"), long),
                  written=["bound " + "position_of_the_deck_number_1*" * 90, *["where " + "a*b + " * 40] * 30],
                  notes=[long] * 3, choices=Choices(2, 255, None, {k: Basis(k, (), 1, 1) for k in range(9)}))
    restated = Restated(problem, [], [long] * 4, [long] * 4)
    made = dict.fromkeys(("date", "gapfile", "Python", "solver", "gapcheck", "found", "published", "commit", "kit"),
                         long[:120])
    return Figures(model, problem, {0: low, 1: high}, Verdict(lines, None, lower, upper, False, 576), factor, variables,
                   restated, [Reached(point, Fraction(chance.randrange(-10 ** 14, 10 ** 14), 10 ** 14 + 7))
                              for point in points], ["-1.23456789e-05"] * 2, {**made, "SHA-256": "f" * 64})


def one_sided(figures: Figures) -> Figures:
    """The same with the upper side alone."""
    verdict = figures.verdict
    lines = [f"check 1 {figures.certificates[1].p}/{figures.certificates[1].q} rounds 576 rule 2"]
    return replace(figures, model=replace(figures.model, choices=replace(figures.model.choices, only=1)),
                   certificates={1: figures.certificates[1]}, reached=[None, figures.reached[1]],
                   verdict=replace(verdict, lines=lines, lower=None))


def pixels(png: bytes) -> list[list[tuple[int, ...]]]:
    """The rows of a picture in PNG with 8 bits a channel, as the browser writes it."""
    at, data = 8, b""
    width = height = channels = 0
    while at < len(png):
        length, kind = struct.unpack(">I4s", png[at:at + 8])
        body = png[at + 8:at + 8 + length]
        if kind == b"IHDR":
            width, height, _, colour = struct.unpack(">IIBB", body[:10])
            channels = {2: 3, 6: 4}[colour]
        data += body if kind == b"IDAT" else b""
        at += 12 + length
    raw, before, rows = zlib.decompress(data), bytearray(width * channels), []
    for y in range(height):
        start = y * (width * channels + 1)
        line = bytearray(raw[start + 1:start + 1 + width * channels])
        for i in range(len(line)):
            a, b = line[i - channels] if i >= channels else 0, before[i]
            c = before[i - channels] if i >= channels else 0
            nearest = min((a, b, c), key=lambda v: abs(a + b - c - v))
            line[i] = line[i] + (0, a, b, (a + b) // 2, nearest)[raw[start]] & 255
        rows.append([tuple(line[i:i + 3]) for i in range(0, len(line), channels)])
        before = line
    return rows


@unittest.skipUnless(BROWSER, "no Chromium: the page is not opened in a browser")
class Browser(unittest.TestCase):
    def browse(self, folder: str, option: str, html: Path) -> None:
        subprocess.run([str(BROWSER), "--headless", "--no-sandbox", "--disable-gpu",
                        f"--user-data-dir={folder}/profile", "--no-pdf-header-footer", "--hide-scrollbars",
                        "--force-device-scale-factor=1", "--window-size=840,1220", option, html.as_uri()],
                       capture_output=True, check=True, timeout=240)

    def pages(self, text: str) -> int:
        """On how many pages the browser prints it."""
        with tempfile.TemporaryDirectory() as folder:
            html, pdf = Path(folder) / "sheet.html", Path(folder) / "sheet.pdf"
            html.write_text(text, encoding="utf-8")
            self.browse(folder, f"--print-to-pdf={pdf}", html)
            return int(re.findall(rb"/Type /Pages\b.*?/Count (\d+)", pdf.read_bytes(), re.DOTALL)[0])

    @needs_programs
    def test_one_page_and_a_screenshot(self) -> None:
        with tempfile.TemporaryDirectory() as folder:
            filed, picture = Path(folder) / "crosstalk", Path(folder) / "s.png"
            status, _, err = run("file", EXAMPLES / "crosstalk.gap", "-o", filed, "--answers", RECORDED / "crosstalk")
            self.assertEqual(status, 0, err)
            html = filed / "sheet.html"
            self.assertEqual(self.pages(html.read_text(encoding="utf-8")), 1)
            self.browse(folder, f"--screenshot={picture}", html)
            rows = pixels(picture.read_bytes())
        seen = Counter(colour for row in rows for colour in row)
        self.assertGreater(seen[PAPER], 500000)                       # the paper
        self.assertGreater(seen[ACCENT], 800)                         # the frame of the figure
        dark = [sum(sum(colour) < 300 for colour in row) for row in rows]
        self.assertGreater(sum(count > 0 for count in dark), 400)     # lines of text from the top to the bottom
        self.assertTrue(any(dark[60:110]) and any(dark[900:1080]))
        self.assertFalse(any(sum(colour) < 300 for row in rows for colour in row[:25] + row[-25:]))       # margins

    def test_the_fullest_page_is_one_page(self) -> None:
        chance = random.Random(1)
        names = [f"position_of_the_deck_number_{k}" for k in range(1, 9)]
        plain = [Scaled(name, f"u{k + 1}", Fraction(0), Fraction(2)) for k, name in enumerate(names)]
        odd = [replace(v, middle=Fraction(chance.randrange(-10 ** 9, 10 ** 9), 10 ** 6 + k),
                       half=Fraction(123456789, 999983)) for k, v in enumerate(plain)]
        sums = [(name, "f" * 64) for name in FILES]
        for variables, factor in ((plain, 3), (odd, 999999937)):
            figures = fullest(chance, variables, factor)
            text = page(figures, sums)
            self.assertEqual(self.pages(text), 1)
            self.assertEqual(self.pages(checking(text, [b"\1"] * 3, selfcheck.built())), 1)   # with all that can differ
            text = page(one_sided(figures), [*sums[:2], ("check.record", "f" * 64), *sums[3:]])
            self.assertEqual(self.pages(text), 1)
            inside = checking(text, [b"\1"] * 2, selfcheck.built(), ("problem.bin", "high.bin"))
            self.assertEqual(self.pages(inside), 1)


if __name__ == "__main__":
    unittest.main()
