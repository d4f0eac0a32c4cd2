"""Models that nobody here wrote, filed with csdp itself and verified; and legal models with numbers at the limits,
which end with a figure or with a sentence."""
import shutil
import tempfile
import unittest
from pathlib import Path

from gapfile.tests.support import EXAMPLES, needs_programs, run

needs_csdp = unittest.skipUnless(shutil.which("csdp"), "csdp is not installed (Debian: coinor-csdp)")
MODELS = EXAMPLES / "models"
# optima, and how far the bounds may be from them, relative to them or to 1
SAMPLE = {"camel6": (-1.0316284534898774, 162.9, 1e-4), "circle": (-2 ** 0.5, 2 ** 0.5, 1e-4),
          "zettl": (-0.0037912371501, 1601.25, 1e-4), "bilinear": (0.0, 1.0, 1e-4)}


@needs_csdp
@needs_programs
class Filed(unittest.TestCase):
    def filed(self, model: Path, folder: Path) -> list[float]:
        """The figures of a model that is filed, and that `verify` finds to hold."""
        status, out, err = run("file", model, "-o", folder)
        self.assertEqual(status, 0, err)
        figures = [float(line.split(" (")[0].split()[-1]) for line in out.splitlines()[:2]]
        status, out, _ = run("verify", folder)
        self.assertEqual(status, 0, out)
        return figures

    def test_a_sample(self) -> None:
        for name, (low, high, floor) in SAMPLE.items():
            with self.subTest(model=name), tempfile.TemporaryDirectory() as place:
                lower, upper = self.filed(MODELS / f"{name}.gap", Path(place) / name)
                self.assertTrue(low - floor * max(1, abs(low)) <= lower <= low + 1e-9, (lower, low))
                self.assertTrue(high - 1e-9 <= upper <= high + floor * max(1, abs(high)), (upper, high))

    def test_numbers_at_the_limits(self) -> None:
        """A weight beyond 16 bits, bounds beyond 32 bits, wide ranges: a figure that holds, or a sentence."""
        for text in ("var x y in [-1, 1]\nbound 1000000000*x^2 + y", "var x in [0, 1000]\nbound 2147483*x^2",
                     "var x y in [-1, 1]\nbound 2147483647*x^2 + 2147483647*y", "var x in [0, 1]\nbound 1e-40*x",
                     "var x in [0, 1e30]\nbound x", "var x in [0, 1]\nbound 5", "var x in [0, 1]\nbound x - x"):
            with self.subTest(model=text), tempfile.TemporaryDirectory() as place:
                model, folder = Path(place) / "m.gap", Path(place) / "filed"
                model.write_text(text)
                status, out, err = run("file", model, "-o", folder, "--time", "30")
                self.assertIn(status, (0, 2, 3), err)
                self.assertEqual(err.count("\n"), 0 if status == 0 else 1)
                if status == 0:
                    self.assertEqual(run("verify", folder)[0], 0)
                else:
                    self.assertFalse(folder.exists())


if __name__ == "__main__":
    unittest.main()
