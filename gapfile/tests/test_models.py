"""A sample of the models with known optima, filed with csdp, with floors on how tight the bounds are; the pictures.

The whole folder takes minutes: `tools/models --check` has its floors.
"""
import shutil
import tempfile
import unittest
from fractions import Fraction
from pathlib import Path

from gapfile.model import parse
from gapfile.suite import FLOORS, MODELS, Optimum, Outcome, counts, file_model, optima, picture, write
from gapfile.tests.support import needs_programs

# corners, a circle, many inequalities, one variable with a wide range, six variables, degree 8
SAMPLE = {"bilinear": 1e-6, "circle": 1e-6, "camel6": 1e-6, "zettl": 1e-6, "styblinski6": 1e-6, "truck_kg": 1e-6,
          "haverly_7": 1e-6, "ex2_1_2": 1e-6, "ex4_1_1": 1e-4, "beale": 1e-4, "gen_rosenbrock5": 1e-5}


def outcome(name: str, low: str, high: str, filed: bool = True) -> Outcome:
    bounds = (Fraction(low), Fraction(high)) if filed else None
    return Outcome(Optimum(name, (0.0, 1.0), "none"), bounds, "filed" if filed else "status 3: none", 2, (3, 4), 0.5)


class Table(unittest.TestCase):
    def test_optima(self) -> None:
        """Every model has a line, and every line has a model that is read."""
        names = [o.name for o in optima()]
        self.assertEqual(sorted(names), sorted(file.stem for file in MODELS.glob("*.gap")))
        self.assertGreaterEqual(len(names), 23)
        for optimum in optima():
            parse((MODELS / f"{optimum.name}.gap").read_text(encoding="utf-8"))
            low, high = optimum.values
            self.assertTrue(low is None or high is None or low < high)

    def test_counts(self) -> None:
        """A bound beyond the optimum is noticed, and one that is not tight is not counted as such."""
        tight, loose = outcome("tight", "-1/10000000", "1"), outcome("loose", "-1/100", "1")
        none, beyond = outcome("none", "0", "1", False), outcome("beyond", "1/1000", "1")
        self.assertEqual(list(counts([tight, loose, none]).values()), [2, 1, 1])
        self.assertEqual([o.wrong() for o in (tight, loose, none, beyond)], [False, False, False, True])
        self.assertLessEqual(set(FLOORS), set(counts([])))

    def test_document(self) -> None:
        with tempfile.TemporaryDirectory() as folder:
            write([outcome("tight", "-1/10000000", "1"), outcome("none", "0", "1", False)], "Measured.", Path(folder))
            text = (Path(folder) / "MODELS.md").read_text(encoding="utf-8")
            self.assertIn("Of 2 models 1 are filed, 1 within 1e-4 of both optima and 1 within 1e-6", text)
            self.assertIn("| tight | 2 | 3, 4 | -1e-07 | 0 | 1e-07 | 1 | 1 | 0e+00 | 0.5 |", text)
            svg = (Path(folder) / "models-distance.svg").read_text(encoding="utf-8")
            self.assertIn(">not filed<", svg)

    def test_bars(self) -> None:
        """A bar of the whole room at the upper end, none at the lower one."""
        svg = picture("t", [("a", 1.0, "1"), ("b", 0.01, "0.01"), ("c<", None, "")], 0.01, 1.0)
        self.assertIn('width="520.0"', svg)
        self.assertIn('width="1.0"', svg)
        self.assertIn("c&lt;", svg)


@unittest.skipUnless(shutil.which("csdp"), "csdp is not installed (Debian: coinor-csdp): no model is filed")
@needs_programs
class Filed(unittest.TestCase):
    def test_sample(self) -> None:
        for optimum in optima():
            if optimum.name in SAMPLE:
                with self.subTest(model=optimum.name):
                    found = file_model(optimum)
                    self.assertIsNotNone(found.filed, found.said)
                    self.assertFalse(found.wrong())
                    self.assertLessEqual(found.distance, SAMPLE[optimum.name])

    def test_no_upper_bound(self) -> None:
        """Said with the direction, and quickly."""
        found = file_model(next(o for o in optima() if o.name == "tssos_4_3"))
        self.assertIsNone(found.filed)
        self.assertIn("no upper bound on the region: for x1 = t, x2 = 0, x3 = 0 it is t^4 + 1", found.said)


if __name__ == "__main__":
    unittest.main()
