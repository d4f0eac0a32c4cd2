"""Attained values: allowed, exact, and close to the best where that is known."""
import unittest
from fractions import Fraction

from gapfile.equalities import Equalities, rational_points
from gapfile.model import parse
from gapfile.points import Attained, attain
from gapfile.polynomials import Polynomial, evaluate
from gapfile.problem import allowed, pose


class Points(unittest.TestCase):
    def attained(self, text: str, side: int) -> Attained:
        """The point that was found, held to be allowed and evaluated here again."""
        posed = pose(parse(text))
        found = attain(posed.problem, side)
        assert found, text
        self.assertTrue(allowed(posed.problem, found.point))
        self.assertEqual(evaluate(posed.problem.objective, found.point), found.value)
        return Attained(posed.model_point(found.point), found.value / posed.factor)

    def test_without_equalities(self) -> None:
        for text, side, value in (("var x in [0, 4]\nbound (x - 1)^2", 0, Fraction(0)),
                                  ("var x in [0, 4]\nbound (x - 1)^2", 1, Fraction(9)),
                                  ("var a b in [0, 1]\nbound a + b\nwhere a + b <= 1/2", 1, Fraction(1, 2))):
            self.assertAlmostEqual(float(self.attained(text, side).value), float(value), places=5)

    def test_linear_equalities(self) -> None:
        self.assertEqual(self.attained("var a b in [-1, 1]\nbound a\nwhere a == 1/2*b", 1).value, Fraction(1, 2))
        # two of them leave one point
        found = self.attained("var a b in [0, 40]\nbound a*b\nwhere a == 2*b\nwhere a + b == 30", 0)
        self.assertEqual((found.point, found.value), ([20, 10], 200))
        # one says again what the others say
        found = self.attained("var a b c in [-1, 1]\nbound a + b + c\nwhere a == b\nwhere b == c\nwhere a == c", 1)
        self.assertEqual(found.value, 3)

    def test_an_equality_that_is_linear_in_a_variable(self) -> None:
        """a*b = 1/4 on [0, 1]: a + b is least at a = b = 1/2."""
        found = self.attained("var a b in [0, 1]\nbound a + b\nwhere 4*a*b == 1", 0)
        self.assertAlmostEqual(float(found.value), 1, places=5)

    def test_circle(self) -> None:
        """a + b on the unit circle: the square root of 2, which no rational point attains."""
        found = self.attained("var a b\nbound a + b\nwhere a^2 + b^2 == 1", 1)
        self.assertAlmostEqual(float(found.value), 2 ** 0.5, places=6)
        self.assertLess(found.value * found.value, 2)
        self.assertEqual(found.point[0] ** 2 + found.point[1] ** 2, 1)

    def test_sphere_with_a_plane(self) -> None:
        found = self.attained("var a b c in [-1, 1]\nbound a + 2*c\nwhere a^2 + b^2 == 1\nwhere c == a", 1)
        self.assertAlmostEqual(float(found.value), 3, places=5)

    def test_no_rational_point(self) -> None:
        """a^2 + b^2 = 3 has real points and no rational one."""
        self.assertIsNone(attain(pose(parse("var a b\nbound a\nwhere a^2 + b^2 == 3")).problem, 0))
        terms: Polynomial = {(2,) + (0,) * 7: Fraction(1), (0, 2) + (0,) * 6: Fraction(1), (0,) * 8: Fraction(-3)}
        self.assertEqual(list(rational_points(terms, [0, 1])), [])

    def test_choices(self) -> None:
        """Variables that are 0 or 1, and one that follows from them."""
        found = self.attained("var a b c in [0, 1]\nvar d in [0, 9]\nbound 2*a*b - 3*b*c + a - d\nwhere a^2 == a\n"
                              "where b == b^2\nwhere c*(c - 1) == 0\nwhere d == a + b + c", 0)
        self.assertEqual((found.point, found.value), ([0, 1, 1, 2], -5))
        found = self.attained("var x in [-1, 9]\nbound x\nwhere 7*x + 1/3*x^2 == 0", 1)
        self.assertEqual(found.point, [0])
        found = self.attained("var x in [0, 4]\nbound (x - 3)^2\nwhere x*(x - 1)*(x - 4) == 0", 0)
        self.assertEqual((found.point, found.value), ([4], 1))

    def test_empty(self) -> None:
        self.assertIsNone(attain(pose(parse("var x in [0, 1]\nbound x\nwhere x >= 2")).problem, 0))

    def test_contradictory_equalities(self) -> None:
        problem = pose(parse("var a b in [0, 1]\nbound a\nwhere a == b\nwhere a == b + 1/2")).problem
        self.assertFalse(Equalities(problem).possible)
        self.assertIsNone(attain(problem, 0))


if __name__ == "__main__":
    unittest.main()
