"""Maps of ranges, regions that are made larger, and whether a problem says what its model says."""
import random
import unittest
from dataclasses import replace
from fractions import Fraction

from gapfile.commands import ONE
from gapfile.model import Model, parse
from gapfile.polynomials import evaluate
from gapfile.problem import LimitError, Posed, allowed, omissions, poses
from gapfile.products import candidates
from gapfile.ranges import by_ten, interval_of, range_of, to_unit
from gapfile.reading import Condition
from gapfile.restating import Mismatch, faithful, restate, scaled
from gapfile.unbounded import unbounded
from gapfile.widening import rounded_outward

NINE = "var a b c d e f g h in [0, 1]\nbound a*b + c*d + e*f + g*h\nwhere a + b <= 1"
FINE = "var x y in [0, 1]\nbound x + y\nwhere 0.123456789*x + y >= 0.3333333"


def monomial(*exponents: int) -> tuple[int, ...]:
    return exponents + (0,) * (8 - len(exponents))


def wrong(model: Model, posed: Posed) -> list[str]:
    """What the problem says that the model does not."""
    try:
        faithful(model, scaled(model.names, posed.middle, posed.half), posed.factor, posed.problem)
    except Mismatch as error:
        return [str(error)]
    return []


def sent_as(posed: Posed, *conditions: Condition) -> Posed:
    """The problem with other conditions."""
    return replace(posed, problem=replace(posed.problem, conditions=list(conditions)))


class Ranges(unittest.TestCase):
    def test_maps(self) -> None:
        self.assertEqual(to_unit(Fraction(0), Fraction(40)), (20, 20))
        self.assertEqual(by_ten(Fraction(0), Fraction(60000)), (0, 100000))
        self.assertEqual(by_ten(Fraction(-1, 50), Fraction(0)), (0, Fraction(1, 100)))

    def test_every_map_keeps_the_range(self) -> None:
        """The ends, and points beside them, in every way in which the model is posed."""
        model = parse("var x in [-2, 11]\nvar y in [1/3, 5]\nbound x*y")
        ways = poses(model)
        self.assertEqual(len(ways), 3)
        for posed in ways:
            self.assertEqual(wrong(model, posed), [])
            for words, inside in (("-2 5", True), ("11 1/3", True), ("-201/100 1", False), ("0 501/100", False),
                                  ("0 33/100", False)):
                x, y = map(Fraction, words.split())
                point = posed.stream_point([x, y])
                self.assertEqual(allowed(posed.problem, point), inside)
                self.assertEqual(evaluate(posed.problem.objective, point), posed.factor * x * y)

    def test_a_map_that_fits(self) -> None:
        """To [-1, 1] this objective needs coefficients beyond 32 bits; by a power of ten it does not."""
        text = "var x in [-2,11]\nbound x^6-2.08*x^5+0.4875*x^4+7.1*x^3-3.95*x^2-x+0.1"
        self.assertEqual([posed.half for posed in poses(parse(text))], [[10], [1]])

    def test_intervals(self) -> None:
        two = Condition(False, {ONE: 2, monomial(0, 2): -1})
        found = interval_of(two)
        assert found
        self.assertEqual(found[0], 1)
        self.assertAlmostEqual(found[2], 2 ** 0.5)
        self.assertIsNone(range_of(two))                         # the square root of 2 is not rational
        self.assertIsNone(interval_of(Condition(False, {ONE: 2, monomial(2): 1})))
        self.assertIsNone(interval_of(Condition(True, {ONE: 2, monomial(2): -1})))


class Widened(unittest.TestCase):
    def test_only_where_agreed(self) -> None:
        for text, said in ((NINE, "9 conditions, of which 8 are ranges; at most 8 are allowed"),
                           (FINE, "with --widen it is rounded outward")):
            with self.assertRaises(LimitError) as caught:
                for choice in omissions(parse(text), False):
                    poses(parse(text), False, choice)
            self.assertIn(said, str(caught.exception))
            self.assertIn("--widen", str(caught.exception))
        self.assertTrue(parse(NINE + "\nwiden").widen)

    def test_too_many_to_leave_out(self) -> None:
        with self.assertRaises(LimitError) as caught:
            omissions(parse(NINE + "\nwhere c + d <= 1\nwhere e + f <= 1"), True)
        self.assertIn("--widen leaves out 2 at most", str(caught.exception))

    def test_left_out(self) -> None:
        model = parse(NINE)
        choices = omissions(model, True)
        self.assertEqual(choices, [(k,) for k in range(9)])
        for choice in choices:
            posed = poses(model, True, choice)[0]
            self.assertEqual((len(posed.problem.conditions), len(posed.region.conditions)), (8, 9))
            self.assertIn("was left out: the region is larger than the model's", posed.widened[0])
            self.assertEqual(wrong(model, posed), [])
        self.assertIn("`a + b <= 1`", poses(model, True, (8,))[0].widened[0])

    def test_rounded_outward(self) -> None:
        """Wherever the model's condition holds on the ranges, what was sent does; near its edge they differ."""
        model = parse(FINE)
        posed = poses(model, True)[0]
        self.assertIn("was rounded outward to numbers of 16 bits", posed.widened[0])
        self.assertEqual(wrong(model, posed), [])
        sent, chance, differ = posed.problem.conditions[2], random.Random(2), 0
        self.assertTrue(all(-2 ** 15 <= c < 2 ** 15 for c in sent.terms.values()))
        for _ in range(2000):
            x = Fraction(chance.randrange(10 ** 6), 10 ** 6)
            edge = Fraction(3333333, 10 ** 7) - Fraction(123456789, 10 ** 9) * x
            y = edge + Fraction(chance.randrange(-99, 99), 10 ** 6)
            point = posed.stream_point([x, y])
            holds = evaluate(model.conditions[0].polynomial, [x, y]) >= 0
            kept = evaluate(sent.terms, point) >= 0
            self.assertTrue(kept or not holds)
            differ += kept and not holds
        self.assertGreater(differ, 0)

    def test_no_constant_pays_without_a_range(self) -> None:
        with self.assertRaises(LimitError) as caught:
            poses(parse("var x\nvar y in [0, 1]\nbound y\nwhere 0.123456789*x + y >= 0.3333333"), True)
        self.assertNotIn("--widen", str(caught.exception))

    def test_the_constant(self) -> None:
        out = rounded_outward({ONE: -100000, monomial(1): 100001}, [Fraction(1)])
        self.assertGreaterEqual(out[ONE] * 100001, -100000 * 32000)


class Implied(unittest.TestCase):
    model = parse("var a b in [0, 2]\nbound a*b\nwhere a + b <= 3\nwhere a == 1/2*b^2")

    def why(self, posed: Posed, condition: Condition) -> str:
        """Where a condition comes from."""
        names = scaled(self.model.names, posed.middle, posed.half)
        return restate(self.model, names, posed.factor, sent_as(posed, condition).problem).origins[0]

    def test_what_follows(self) -> None:
        posed = poses(self.model)[0]
        self.assertEqual(wrong(self.model, posed), [])
        for condition, _ in candidates(posed):
            self.assertIn(", times ", self.why(posed, condition))
            self.assertEqual(wrong(self.model, sent_as(posed, condition)), [])
        equality = posed.problem.conditions[3]
        turned = {e: -c for e, c in equality.terms.items()}
        for terms, equal, words in ((equality.terms, False, "one side of a == 1/2*b^2"),
                                    (turned, False, "one side of a == 1/2*b^2"), (turned, True, "a == 1/2*b^2")):
            self.assertEqual(self.why(posed, Condition(equal, terms)), words)

    def test_what_does_not(self) -> None:
        """A condition that is a little narrower, turned around, made an equality, or of another variable."""
        posed = poses(self.model)[0]
        terms = posed.problem.conditions[2].terms
        for changed in ({**terms, ONE: terms[ONE] - 1}, {e: -c for e, c in terms.items()}, {monomial(0, 0, 1): 1}):
            self.assertIn("condition 1 of problem.bin", wrong(self.model, sent_as(posed, Condition(False, changed)))[0])
        self.assertIn("does not follow from the model's", wrong(self.model, sent_as(posed, Condition(True, terms)))[0])

    def test_from_the_ranges_alone(self) -> None:
        """1 >= u v holds wherever both are in their ranges, 1 >= 2 u v does not; no condition of the model is in it."""
        posed = poses(self.model)[0]
        made = restate(self.model, scaled(self.model.names, posed.middle, posed.half), posed.factor,
                       sent_as(posed, Condition(False, {ONE: 1, monomial(1, 1): -1})).problem)
        self.assertEqual((made.origins, made.widened), (["the ranges"], []))
        self.assertIn("a + b <= 3", made.left_out)
        self.assertEqual(len(wrong(self.model, sent_as(posed, Condition(False, {ONE: 1, monomial(1, 1): -2})))), 1)

    def test_narrowed_by_rounding(self) -> None:
        """The rounded condition with a constant that is one too small does not follow."""
        model = parse(FINE)
        posed = poses(model, True)[0]
        last = posed.problem.conditions[2]
        for by, fault in ((0, 0), (1, 0), (-1, 1)):
            changed = Condition(False, {**last.terms, ONE: last.terms[ONE] + by})
            self.assertEqual(len(wrong(model, sent_as(posed, *posed.problem.conditions[:2], changed))), fault, by)

    def test_rounded_with_a_common_factor(self) -> None:
        """Whatever the largest coefficient is and whichever factor all of them share, what was rounded follows."""
        chance, seen = random.Random(7), 0
        for _ in range(60):
            a, b, c = (Fraction(chance.randrange(1, 10 ** 7), chance.choice((10 ** 6, 3 * 10 ** 5))) for _ in range(3))
            model = parse(f"var x y in [0, 1]\nbound x + y\nwhere {a}*x + {b}*y >= {c}")
            for posed in poses(model, True):
                self.assertEqual(wrong(model, posed), [], model.conditions[0].text)
                seen += bool(posed.widened)
        self.assertGreater(seen, 40)

    def test_another_objective(self) -> None:
        posed = poses(self.model)[0]
        self.assertIn("the objective of problem.bin", wrong(self.model, replace(posed, factor=posed.factor + 1))[0])


class Unbounded(unittest.TestCase):
    def test_rays(self) -> None:
        model = parse("var x y\nbound x^2 - 3*y\nwhere y >= 1 - x")
        self.assertEqual(unbounded(model, 1), "for x = t, y = 0 it is t^2, which goes to +infinity with t, and all "
                                              "conditions hold for large t")
        self.assertIn("for x = 0, y = t it is -3*t, which goes to -infinity", str(unbounded(model, 0)))

    def test_none(self) -> None:
        for text in ("var x y\nbound x + y\nwhere x^2 + y^2 <= 1", "var x in [0, 1]\nbound x",
                     "var x\nbound x\nwhere x == 2"):
            self.assertIsNone(unbounded(parse(text), 1), text)
        self.assertIsNone(unbounded(parse("var x y z\nbound 1 + x^4 + y^4 + z^4 + x*y*z + y"), 0))

    def test_with_a_range(self) -> None:
        """The other variable stays in the middle of its range."""
        self.assertIn("for x = t, y = 3", str(unbounded(parse("var x\nvar y in [2, 4]\nbound x*y"), 1)))


if __name__ == "__main__":
    unittest.main()
