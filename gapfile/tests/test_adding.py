"""`gapfile sum`: sums in the models' units, exactly; what cannot be added and why; the sheet; answers of the
reference."""
import hashlib
import json
import re
import tempfile
import unittest
from dataclasses import replace
from fractions import Fraction
from pathlib import Path

from gapfile import proved
from gapfile.commands import ONE
from gapfile.one_region import on_one_region
from gapfile.reading import Condition, Refusal, read_problem
from gapfile.tests.filings import Linear, monomial
from gapfile.tests.support import (EXAMPLES, by_reference, case_f, folder_of, needs_programs, needs_reference, run,
                                   streams_of)
from gapfile.tests.test_sheet import BROWSER, Browser
from gapfile.text import encode

A = Linear(["a", "b"], [(0, 40), (0, 20)], [Fraction(1, 8), Fraction(-3, 10)], Fraction(7), 40, "kg", "the first lane")
B = Linear(["a", "b"], [(0, 40), (0, 20)], [Fraction(-1, 3), Fraction(1, 2)], Fraction(0), 6, "kg", "the second lane")
FIGURE = re.compile(r'data-figure="([a-z ]+)">([^<]*)<')
# (1 + u1)(1 - u2) >= 0, a product of two ends of the ranges
PRODUCT = Condition(False, {ONE: 1, monomial(0): 1, monomial(1): -1, (1, 1, 0, 0, 0, 0, 0, 0): -1})
OTHER = Condition(False, {ONE: 1, monomial(0): -1, monomial(1): -1, (1, 1, 0, 0, 0, 0, 0, 0): 1})


@needs_programs
class Sums(unittest.TestCase):
    def setUp(self) -> None:
        kept = tempfile.TemporaryDirectory()
        self.addCleanup(kept.cleanup)
        self.place = Path(kept.name)

    def summed(self, first: Linear, second: Linear, *options: object) -> tuple[int, str, str]:
        return run("sum", *self.folders(first, second), *options)

    def folders(self, first: Linear, second: Linear) -> tuple[Path, Path]:
        at = len(list(self.place.iterdir()))
        return first.write(self.place / f"first{at}"), second.write(self.place / f"second{at}")

    def test_factors_of_both_kinds(self) -> None:
        """The bounds are attained at corners, so the sums are known: -6 + 7 - 40/3 and 5 + 7 + 10."""
        for first, second in ((A, B), (replace(A, factor=120), replace(B, factor=120)), (replace(A, factor=400), B),
                              (B, A)):
            status, out, err = self.summed(first, second, "--json")
            self.assertEqual((status, err), (0, ""))
            data = json.loads(out)
            low, high = (a + b for a, b in zip(first.bounds, second.bounds))
            self.assertEqual((low, high), (Fraction(-37, 3), 22))
            self.assertEqual([Fraction(data["figures"][word]["exact"]) for word in ("lower", "upper", "gap")],
                             [low, high, high - low])
            self.assertEqual([data["figures"][word]["decimal"] for word in ("lower", "upper")], ["-12.333334", "22"])

    def test_holds_at_points(self) -> None:
        low, high = (a + b for a, b in zip(A.bounds, B.bounds))
        for x in range(0, 41, 5):
            for y in range(0, 21, 4):
                point = [Fraction(x), Fraction(y)]
                self.assertTrue(low <= A.value(point) + B.value(point) <= high)

    def test_lines(self) -> None:
        out = self.summed(A, B)[1].splitlines()
        self.assertEqual(out[:4], ["at least -12.333334 kg (rounded outward)", "at most 22 kg",
                                   "two values differ by at most 34.333334 kg (rounded outward)",
                                   "exactly at least -37/3 and at most 22"])
        self.assertEqual(out[-1], "the streams' polynomials are 40 and 6 times the models', so each bound is divided "
                                  "by its own factor before the two are added")
        same = self.summed(replace(A, factor=120), replace(B, factor=120))[1].splitlines()
        self.assertEqual(same[-1], "the streams' polynomials are 120 times the models', so the sums above are these "
                                   "divided by 120")

    @needs_reference
    def test_as_the_reference(self) -> None:
        """The call's line, accepted and refused."""
        for first, second in ((A.streams(), B.streams()), (A.streams(), case_f()), (case_f(), case_f()),
                              (streams_of(EXAMPLES / "two_decks"), streams_of(EXAMPLES / "two_decks_wide")),
                              (A.streams(), [B.streams()[0], b"", b""]), ([b"", b"", b""], case_f())):
            line = by_reference("d", *first, *second)
            with folder_of(*first) as one, folder_of(*second) as other:
                status, out, _ = run("sum", one, other)
            if line.startswith("refused"):
                self.assertEqual((status, out.splitlines()[0]), (1, line))
            else:
                self.assertIn(f"the proved call on the streams: {line}\n", out)

    def test_what_cannot_be_added(self) -> None:
        """One region of the streams may be two of the models; then no figure is given."""
        for other, said in (
                (replace(B, ranges=[(0, 20), (0, 20)]), "a = 20 + 20*u1 in the one and a = 10 + 10*u1 in the other"),
                (replace(B, names=["a", "c"]), "a variable is called b in the one and c in the other"),
                (replace(B, names=["b", "a"]), "a variable is called a in the one and b in the other"),
                (replace(B, unit="t"), "the unit is kg in the one and t in the other"),
                (replace(B, unit=""), "the unit is kg in the one and not named in the other")):
            sheet = self.place / "sum.html"
            status, out, err = self.summed(A, other, "-o", sheet)
            self.assertEqual((status, out), (2, ""))
            self.assertIn(said, err)
            self.assertFalse(sheet.exists())

    def test_one_without_a_model(self) -> None:
        first, second = self.folders(A, B)
        (second / "model.gap").unlink()
        status, _, err = run("sum", first, second)
        self.assertEqual((status, "has no model.gap, without which its units are not known" in err), (2, True))
        (second / "manifest.json").unlink()
        status, _, err = run("sum", first, second)
        self.assertEqual((status, "has no model, so that its units are not known" in err), (2, True))

    def test_a_manifest_that_is_not_the_models(self) -> None:
        """A factor that is not the stream's is status 5, and no figure."""
        first, second = self.folders(A, B)
        (second / "manifest.json").write_text(json.dumps(replace(B, factor=12).manifest()))
        status, out, err = run("sum", first, second)
        self.assertEqual((status, out), (5, ""))
        self.assertIn(f"{second}: the objective of problem.bin is not the model's", err)
        (second / "manifest.json").write_text("{")
        self.assertEqual(run("sum", first, second)[0], 2)
        (second / "model.gap").write_text("var a in\n")
        self.assertEqual(run("sum", first, second)[0], 2)

    def test_regions_that_differ(self) -> None:
        problem, low, high = case_f()
        wider = encode("variables x\nobjective 1 x\nconstraint\nterm 4 1\nterm -1 x^2\nbasis 0 1\nbasis 0 x\n"
                       "basis 1 1\nend")[0]
        low4, high4 = (encode(f"{word} {p}/1 scale 4\nrow 0 weight 1\nentry 0 2\nentry 1 {sign}\nrow 1 weight 1\n"
                              "entry 0 1\ndone")[0] for word, p, sign in (("lower", -2, 1), ("upper", 2, -1)))
        with folder_of(problem, low, high) as one, folder_of(wider, low4, high4) as other:
            status, out, _ = run("sum", one, other)
            self.assertEqual(status, 1)
            self.assertEqual(out.splitlines()[:3], ["refused 15 0 0 0", "the regions of the two problems differ",
                             f"condition 1 is 1 - x1^2 >= 0 in {one} and 4 - x1^2 >= 0 in {other}"])
        status, out, _ = run("sum", EXAMPLES / "two_decks", EXAMPLES / "bolted_decks")
        self.assertEqual((status, out.splitlines()[2].split("examples")[0][-1]), (1, "/"))

    def test_empty(self) -> None:
        """No figure where bounds cross, and no sum on the sheet."""
        with tempfile.TemporaryDirectory() as folder:
            sheet = Path(folder) / "sum.html"
            status, out, _ = run("sum", EXAMPLES / "contradictory", EXAMPLES / "contradictory", "-o", sheet)
            self.assertEqual(status, 0)
            self.assertIn("no point meets all the conditions", out)
            self.assertNotIn("at most", out.splitlines()[0])
            self.assertIn("the region is empty", sheet.read_text(encoding="utf-8"))

    def test_bad_folders(self) -> None:
        self.assertEqual(run("sum", "nothing", "nothing")[0], 2)
        self.assertEqual(run("sum", EXAMPLES / "two_decks")[0], 2)
        self.assertEqual(run("sum", EXAMPLES / "models", EXAMPLES / "two_decks")[0], 2)


@needs_programs
class OneRegion(unittest.TestCase):
    """Two models of one region whose streams have different conditions."""

    def test_with_products(self) -> None:
        """Each has a product that the other has not: the call refuses that with 15, and accepts both in both."""
        with tempfile.TemporaryDirectory() as name:
            first = replace(A, sent=[PRODUCT]).write(Path(name) / "a")
            second = replace(B, sent=[OTHER]).write(Path(name) / "b")
            refused = proved.added(streams_of(first), streams_of(second))
            self.assertTrue(isinstance(refused, Refusal) and refused.number == 15)
            sheet = Path(name) / "sum.html"
            status, out, err = run("sum", first, second, "-o", sheet)
            page = sheet.read_text(encoding="utf-8")
        self.assertEqual((status, err), (0, ""))
        # both products in the models' variables: a x (20 - b) and (40 - a) x (20 - b)
        self.assertIn("20·<i>a</i> − <i>a</i>·<i>b</i> ≥ 0", page)
        self.assertIn("800 − 20·<i>a</i> − 40·<i>b</i> + <i>a</i>·<i>b</i> ≥ 0", page)
        self.assertEqual(out.splitlines()[3], "exactly at least -37/3 and at most 22")
        self.assertIn("the conditions sent for it differ", out)

    def test_models_that_differ(self) -> None:
        """Another range is another region, and 15 stands, also where one has a condition more that was left out."""
        with tempfile.TemporaryDirectory() as name:
            first = replace(A, sent=[PRODUCT]).write(Path(name) / "a")
            second = replace(B, sent=[OTHER]).write(Path(name) / "b")
            (second / "model.gap").write_text(B.model() + "where a + b <= 50\n")
            status, out, _ = run("sum", first, second)
        self.assertEqual((status, out.splitlines()[0]), (1, "refused 15 0 0 0"))
        self.assertIn("condition 3 is 1 + x1 - x2 - x1*x2 >= 0", out)

    def test_rows_follow_their_conditions(self) -> None:
        """(1 + u1)(1 - u2) is at least 0 by a row on the product, and at most 4: 2 x (4 - g) = (u1 + u2)^2 + (1 - u1)^2
        + (1 + u2)^2 + 2 x (1 - u1^2) + 2 x (1 - u2^2). In the first problem the product is condition 3, in both 4."""
        names = "variables u1 u2\nobjective 1 1\nobjective 1 u1\nobjective -1 u2\nobjective -1 u1*u2\n"
        box = "constraint\nterm 1 1\nterm -1 u1^2\nconstraint\nterm 1 1\nterm -1 u2^2\n"
        product = "constraint\nterm 1 1\nterm 1 u1\nterm -1 u2\nterm -1 u1*u2\n"
        other = "constraint\nterm 1 1\nterm -1 u1\nterm -1 u2\nterm 1 u1*u2\n"
        basis = "basis 0 1\nbasis 0 u1\nbasis 0 u2\nbasis 1 1\nbasis 2 1\nbasis 3 1\nend"
        low = encode("lower 0/1 scale 1\nrow 3 weight 1\nentry 0 1\ndone")[0]
        high = encode("upper 4/1 scale 2\nrow 0 weight 1\nentry 1 1\nentry 2 1\nrow 0 weight 1\nentry 0 1\n"
                      "entry 1 -1\nrow 0 weight 1\nentry 0 1\nentry 2 1\nrow 1 weight 2\nentry 0 1\nrow 2 weight 2\n"
                      "entry 0 1\ndone")[0]
        first = [encode("variables u1 u2\n" + box + other + "basis 0 1\nbasis 3 1\nend")[0],
                 *(encode(f"{word} 0/1 scale 1\ndone")[0] for word in ("lower", "upper"))]
        second = [encode(names + box + product + basis)[0], low, high]
        made, used = on_one_region(first, second)
        self.assertEqual(len(read_problem(made[0][0]).conditions), 4)
        self.assertEqual([c.terms for c in read_problem(used[0][0]).conditions],       # no row is on the other product
                         [c.terms for c in read_problem(second[0]).conditions])
        self.assertEqual(made[1][1], encode("lower 0/1 scale 1\nrow 4 weight 1\nentry 0 1\ndone")[0])
        found = proved.added(made[0], made[1])
        self.assertEqual(found if isinstance(found, Refusal) else (found.lower, found.upper), ("0/1", "4/1"))

    def test_too_many(self) -> None:
        """More than eight together: those without rows are left out. One twice: then the call's refusal stands."""
        text = "variables x\n" + "".join(f"constraint\nterm {k} 1\nterm -1 x^2\n" for k in range(1, 6)) + "end"
        more = "variables x\n" + "".join(f"constraint\nterm {k} 1\nterm -1 x^2\n" for k in range(5, 10)) + "end"
        low, high = (encode(f"{word} 0/1 scale 1\ndone")[0] for word in ("lower", "upper"))
        made, = on_one_region([encode(text)[0], low, high], [encode(more)[0], low, high])
        self.assertEqual(made[0], [encode("variables x\nend")[0], low, high])
        twice = encode("variables x\n" + "constraint\nterm 1 1\nterm -1 x^2\n" * 2 + "end")[0]
        self.assertEqual(list(on_one_region([twice, low, high], [twice, low, high])), [])


@needs_programs
class Sheet(unittest.TestCase):
    def test_figures(self) -> None:
        with tempfile.TemporaryDirectory() as name:
            place = Path(name)
            run("sum", A.write(place / "a"), B.write(place / "b"), "-o", place / "sum.html")
            page = (place / "sum.html").read_text(encoding="utf-8")
            sums = [re.search(r'"mono">first low</td><td class="mono">([0-9a-f]{64})<', page)]
            low = hashlib.sha256((place / "a/low.bin").read_bytes()).hexdigest()
        found = dict(FIGURE.findall(page))
        self.assertEqual(found["lower"], "−12.333334")
        self.assertEqual((found["sum lower"], found["sum upper"]), ("−37/3", "22"))
        self.assertEqual((found["first lower"], found["second upper"]), ("1", "10"))
        self.assertEqual(sums[0] and sums[0][1], low)
        self.assertNotIn("<script", page)

    def test_words_of_a_model_are_no_marks(self) -> None:
        with tempfile.TemporaryDirectory() as name:
            place = Path(name)
            evil = replace(A, title="<b>&\"x", unit="<i>")
            run("sum", evil.write(place / "a"), replace(evil).write(place / "b"), "-o", place / "sum.html")
            page = (place / "sum.html").read_text(encoding="utf-8")
        self.assertNotIn("<b>&\"x", page)
        self.assertIn("&lt;b&gt;", page)

    @unittest.skipUnless(BROWSER, "no Chromium: the page is not opened in a browser")
    def test_one_page(self) -> None:
        """Also with words that are far too long."""
        with tempfile.TemporaryDirectory() as name:
            place = Path(name)
            long = [f"position_of_the_deck_number_{k}" for k in range(1, 8)]
            full = Linear(long, [(k, 100 + k) for k in range(7)], [Fraction(1, 3 + k) for k in range(7)],
                          Fraction(1, 7), 2520, "kilograms of stone in the lane",
                          "A lane with many decks, on many footings, " * 4)
            run("sum", full.write(place / "a"), replace(full, constant=Fraction(2, 9)).write(place / "b"),
                "-o", place / "sum.html")
            self.assertEqual(Browser().pages((place / "sum.html").read_text(encoding="utf-8")), 1)


if __name__ == "__main__":
    unittest.main()
