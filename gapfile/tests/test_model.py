"""The model language and what becomes of a model."""
import random
import time
import unittest
from fractions import Fraction

from gapfile.expressions import ModelError
from gapfile.model import parse, read_text
from gapfile.problem import LimitError, allowed, encode_problem, pose
from gapfile.polynomials import evaluate
from gapfile.reading import read_problem

MODEL = """\
title  Two decks, crosstalk of deck 1 on deck 2
var    a b in [0, 40]
bound  0.1*(b - a^2)^2 + a*b
where  a + b <= 60
where  a == 2*b                 # an equality
degree auto
"""


def monomial(*exponents: int) -> tuple[int, ...]:
    return exponents + (0,) * (8 - len(exponents))


class Reading(unittest.TestCase):
    def test_the_example(self) -> None:
        model = parse(MODEL)
        self.assertEqual(model.title, "Two decks, crosstalk of deck 1 on deck 2")
        self.assertEqual(model.names, ["a", "b"])
        self.assertEqual(model.bound, {monomial(0, 2): Fraction(1, 10), monomial(2, 1): Fraction(-1, 5),
                                       monomial(4): Fraction(1, 10), monomial(1, 1): Fraction(1)})
        self.assertEqual([w.equality for w in model.conditions], [False, True])
        self.assertEqual([v.range for v in model.variables], [(0, 40), (0, 40)])
        self.assertEqual(model.conditions[0].polynomial, {monomial(): 60, monomial(1): -1, monomial(0, 1): -1})
        self.assertEqual(model.conditions[1].polynomial, {monomial(1): 1, monomial(0, 1): -2})
        self.assertIsNone(model.degree)

    def value(self, text: str) -> Fraction:
        bound = parse(f"var x\nbound {text}").bound
        assert bound is not None
        return evaluate(bound, [Fraction(3)])

    def test_expressions(self) -> None:
        for text, value in (("1/3*x", 1), ("-x^2", -9), ("2 - 3 - 4", -5), ("2*(x - 1)^2/4", 2), ("-(-x)", 3),
                            ("1.25", Fraction(5, 4)), ("2*-x", -6), ("x − 1", 2), (".5*x", Fraction(3, 2)), ("x^0", 1),
                            ("6/2/3", 1)):
            self.assertEqual(self.value(text), value, text)

    def test_errors(self) -> None:
        for text, line, column, said in (
                ("var x\nbound x +", 2, 10, "expected a number, a variable or `(`, found the end of the line"),
                ("var x\nbound x + y", 2, 11, "`y` is no variable; expected one of x"),
                ("var x\nbound (x", 2, 9, "expected `)` or an operator"),
                ("var x\nbound x ? 2", 2, 9, "`?` cannot stand here"),
                ("var x\nbound x x", 2, 9, "expected an operator or the end of the line, found `x`"),
                ("var x\nbound x^y", 2, 9, "expected a whole exponent"),
                ("var x\nbound x^1.5", 2, 9, "expected a whole exponent"),
                ("var x\nbound 1/x", 2, 9, "only a number that is not 0 may stand after /"),
                ("var x\nbound 1/0", 2, 9, "only a number that is not 0 may stand after /"),
                ("var x in [2, 1]\nbound x", 1, 14, "the upper end 1 is not above the lower end 2"),
                ("var x in [0 1]\nbound x", 1, 13, "expected `,`, found `1`"),
                ("var x x\nbound x", 1, 7, "`x` stands twice"),
                ("var x\nbound x\nbound x", 3, 1, "`bound` stands a second time, first in line 2"),
                ("var x\nwhere x > 1\nbound x", 2, 9, "expected an operator, `<=`, `>=` or `==`, found `>`"),
                ("var x\nwhere x\nbound x", 2, 8, "expected an operator, `<=`, `>=` or `==`"),
                ("var x\nwhere x - x <= 1\nbound x", 2, 13, "the condition has no variable that is left"),
                ("var x\nwhere 1 == 2\nbound x", 2, 9, "the condition has no variable that is left"),
                ("var x\n  bond x", 2, 3, "expected title, number, by, unit, date, note, var, bound, "
                 "where, degree, rule, order, basis, only or widen, found `bond`"),
                ("var x\nbound x\ndegree 3", 3, 8, "expected auto or an even degree"),
                ("var a b c d e f g h i\nbound a", 1, 21, "more than 8 variables"),
                ("var x\nbound x\nwiden yes", 3, 7, "expected the end of the line, found `yes`"),
                ("bound 1", 2, 1, "expected a var line"), ("var x", 2, 1, "expected a bound line")):
            with self.assertRaises(ModelError) as caught:
                parse(text)
            error = caught.exception
            self.assertEqual((error.line, error.column), (line, column), f"{text!r}: {error}")
            self.assertIn(said, str(error))


class Hostile(unittest.TestCase):
    """Models that must be refused at once, with line and column, before anything is expanded."""

    def refused(self, text: str, line: int, column: int, said: str) -> None:
        start = time.process_time()
        with self.assertRaises(ModelError) as caught:
            parse(text)
        self.assertLess(time.process_time() - start, 1.0)
        self.assertEqual((caught.exception.line, caught.exception.column), (line, column), str(caught.exception))
        self.assertIn(said, str(caught.exception))

    def test_powers(self) -> None:
        self.refused("var x\nbound ((x^32)^32)^32", 2, 14, "a polynomial of degree 1024 comes of this; at most 32")
        self.refused("var a b c d e f g h\nbound (a+b+c+d+e+f+g+h)^32", 2, 24, "up to 76,904,685 terms come of this")
        self.refused("var x\nbound " + "*".join(["x"] * 40), 2, 70, "a polynomial of degree 33 comes of this")
        self.refused("var x\nbound ((9^32)^32)^32", 2, 14, "numbers of more than 1024 bits come of this")
        self.refused("var x\nbound " + "*".join(["9" * 60] * 40), 2, 311, "numbers of more than 1024 bits come of this")
        self.refused("var a b c d e f g h\nbound " + " + ".join(["(a+b+c+d+e+f+g+h)^5"] * 900), 2, 222,
                     "more than 500,000 products of terms up to here")
        self.refused("var x\nbound x^2^3", 2, 10, "a power of a power is written with parentheses")

    def test_depth_and_length(self) -> None:
        self.refused("var x\nbound " + "(" * 5000 + "x" + ")" * 5000, 2, 107, "more than 100 parentheses")
        self.refused("var x\nbound " + "-" * 5000 + "x", 2, 107, "more than 100 signs behind each other")
        self.refused("var x\nbound " + "1" * 5000 + "*x", 2, 7, "a number of more than 60 digits")
        self.refused("var x\nbound 1e999999*x", 2, 7, "a number of more than 60 digits")
        self.refused("var x\nbound " + "x + " * 30000 + "x", 2, 40007, "more than 20,000 numbers, names and signs")
        self.refused("var x\nbound x\n" + "where x <= 1\n" * 200000, 67, 1, "more than 64 conditions")
        self.refused("var x\nbound x\ntitle " + "a" * 2000, 3, 1005, "more than 1,000 letters")

    def test_what_is_allowed_takes_linear_time(self) -> None:
        start = time.process_time()
        self.assertEqual(parse("var x\nbound " + "x+" * 9000 + "x").bound, {monomial(1): 9001})
        self.assertEqual(parse("var x\nbound " + "1*" * 9000 + "x").bound, {monomial(1): 1})
        self.assertEqual(parse("var x\nbound x\n" + "# nothing\n" * 90000).names, ["x"])
        self.assertLess(time.process_time() - start, 4.0)

    def test_bytes(self) -> None:
        with self.assertRaises(ModelError) as caught:
            read_text(b"var x\n" + b"# nothing\n" * 1000000)
        self.assertIn("10,000,006 bytes; 1,048,576 are allowed", str(caught.exception))
        self.assertEqual((caught.exception.line, caught.exception.column), (104859, 1))
        with self.assertRaises(ModelError) as caught:
            read_text(b"var x\nbound \xff")
        self.assertEqual((caught.exception.line, caught.exception.column), (2, 7))
        self.assertEqual(read_text("\ufeffvar x".encode()), "var x")
        for letter in ("\0", "\x1b", "\u202e"):
            self.refused(f"var x\ntitle a{letter}b\nbound x", 2, 8, "cannot stand in a model")

    def test_posing(self) -> None:
        """What a change of variables would make of it is bounded before it is made."""
        many = "*".join(f"({x}^2 + {x})" for x in "abcdefgh")
        for text, said in (("var a b c d e f g h in [3, 7]\nbound (a*b*c*d*e*f*g*h)^4", "degree 32; a basis of"),
                           (f"var a b c d e f g h in [3, 7]\nbound {many}", "take fewer variables in a product"),
                           ("var x in [0, 1]\nbound x\nwhere x^17 <= 1", "(`x^17 <= 1`) has degree 17")):
            start = time.process_time()
            with self.assertRaises(LimitError) as caught:
                pose(parse(text))
            self.assertIn(said, str(caught.exception))
            self.assertLess(time.process_time() - start, 1.0)


class Letters(unittest.TestCase):
    def test_accepted(self) -> None:
        """The letters of the sheet, the mark of some editors, numbers with exponents: all exactly."""
        plain = parse("var x y\nbound x^2*y - 1000*x + 89/1000000\nwhere x <= 1\nwhere y >= 2\nwhere x == y")
        same = parse("\ufeffvar x y\r\nbound x²·y − 1e3×x + 8.9e-5\r\nwhere x ≤ 1\r\nwhere y ≥ 2\r\nwhere x = y\r\n")
        self.assertEqual((same.bound, [w.polynomial for w in same.conditions]),
                         (plain.bound, [w.polynomial for w in plain.conditions]))
        self.assertEqual([w.equality for w in same.conditions], [False, False, True])
        self.assertEqual(parse("var x\nbound x¹⁰").bound, {monomial(10): 1})

    def test_hints(self) -> None:
        for text, said in (("bound 2x", "found `x`; a product has a sign: 2*x"),
                           ("bound x(x)", "a product has a sign: x*("),
                           ("bound 0,5*x", "found `,`; a decimal has a point: 0.5"),
                           ("bound x**2", "a power is written with ^"),
                           ("bound x\nwhere x < 1", "found `<`; write <="), ("bound é", "names have letters of ASCII"),
                           ("bound 1e3x", "expected an operator or the end of the line, found `e3x`")):
            with self.assertRaises(ModelError) as caught:
                parse(f"var x\n{text}")
            self.assertIn(said, str(caught.exception))

    def test_head(self) -> None:
        model = parse("title A # B\nnumber 7\nunit kg\nby N. N.\ndate 2026-11-17\nwiden\nvar x\nbound x # here\n")
        self.assertEqual(model.head, {"title": "A # B", "number": "7", "unit": "kg", "by": "N. N.",
                                      "date": "2026-11-17"})
        self.assertEqual((model.widen, model.written), (True, ["var x", "bound x"]))


class Posing(unittest.TestCase):
    def test_factor_and_ranges(self) -> None:
        """a = 20 + 20 u, b = 20 + 20 v: objective times the factor, at every point the same value."""
        model = parse(MODEL)
        posed = pose(model)
        self.assertEqual((posed.middle, posed.half), ([20, 20], [20, 20]))
        assert model.bound is not None
        for point in ([Fraction(0), Fraction(1)], [Fraction(-1, 3), Fraction(2, 7)], [Fraction(1), Fraction(-1)]):
            value = evaluate(model.bound, posed.model_point(point))
            self.assertEqual(evaluate(posed.problem.objective, point), posed.factor * value)
        self.assertEqual([c.equality for c in posed.problem.conditions], [False, False, False, True])
        # 60 - (40 + 20 u + 20 v) = 20 (1 - u - v); the common factor 20 goes, the region stays
        self.assertEqual(posed.problem.conditions[2].terms, {monomial(): 1, monomial(1): -1, monomial(0, 1): -1})

    def test_tenth(self) -> None:
        """Whole numbers, and so many digits that the coefficients together stay below 2^30."""
        posed = pose(parse("var x in [-1, 1]\nbound 0.1*x^2 + x"))
        digits = 5 * 10 ** 7
        self.assertEqual((posed.factor, posed.problem.objective),
                         (10 * digits, {monomial(1): 10 * digits, monomial(2): digits}))

    def test_stream(self) -> None:
        posed = pose(parse(MODEL))
        self.assertEqual(read_problem(encode_problem(posed.problem)), posed.problem)

    def test_the_region_never_changes(self) -> None:
        """A condition keeps its sign at every point: it is only multiplied by a positive number."""
        model = parse("var a b in [-3, 7/2]\nbound a\nwhere 0.3*a^2 - a*b/7 <= 2/3*b\nwhere b == 1/6*a")
        posed = pose(model)
        chance = random.Random(3)
        for _ in range(50):
            point = [Fraction(chance.randrange(-99, 100), chance.randrange(1, 50)) for _ in range(2)]
            for where, condition in zip(model.conditions, posed.problem.conditions[2:]):
                said = evaluate(where.polynomial, posed.model_point(point))
                sent = evaluate(condition.terms, point)
                self.assertEqual((said > 0, said < 0), (sent > 0, sent < 0))

    def test_allowed(self) -> None:
        posed = pose(parse("var x in [0, 2]\nbound x\nwhere x >= 1/3"))
        self.assertTrue(allowed(posed.problem, [Fraction(-2, 3)]))
        self.assertFalse(allowed(posed.problem, [Fraction(-2, 3) - Fraction(1, 10 ** 12)]))

    def test_limits(self) -> None:
        for text, said in (("var x in [0, 1]\nbound 5000000000*x", "beyond 2147483647"),
                           ("var x in [0, 1]\nbound x\nwhere x >= 0.123456789", "condition of line 3"),
                           ("var x in [0, 1]\nbound x\nwhere x == 0.123456789", "condition of line 3"),
                           ("var x in [0, 1]\nbound x^17", "degree 17")):
            with self.assertRaises(LimitError) as caught:
                pose(parse(text))
            self.assertIn(said, str(caught.exception))


if __name__ == "__main__":
    unittest.main()
