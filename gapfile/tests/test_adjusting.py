"""`gapfile adjust`: changes read and mapped exactly, bounds that hold at points, both sides by the proved call;
refusals; answers of the reference."""
import json
import random
import struct
import tempfile
import unittest
from dataclasses import replace
from fractions import Fraction
from itertools import product
from pathlib import Path
from typing import Callable

from gapfile import proved
from gapfile.changes import blank_table, read_change, read_table, sent
from gapfile.commands import ONE, Monomial
from gapfile.expressions import ModelError, Work
from gapfile.mirroring import turned_certificate, turned_problem
from gapfile.reading import Refusal
from gapfile.restating import Scaled
from gapfile.tests.filings import Linear, monomial
from gapfile.tests.support import (EXAMPLES, RECORDED, by_reference, case_f, folder_of, needs_programs,
                                   needs_reference, run, streams_of)
from gapfile.text import encode

Value = Callable[[Fraction, Fraction], Fraction]
NAMES = ["a", "b"]
MAPPED = [Scaled("a", "u1", Fraction(20), Fraction(20)), Scaled("b", "u2", Fraction(10), Fraction(5))]
A = Linear(NAMES, [(0, 40), (5, 15)], [Fraction(1, 8), Fraction(-3, 10)], Fraction(7), 400, "kg")


def change(text: str) -> tuple[dict[Monomial, Fraction], object]:
    made = read_change(text, 1, NAMES, Work())
    return made.polynomial, made.tolerance


class Words(unittest.TestCase):
    def test_changes(self) -> None:
        self.assertEqual(change("0.02*a*b"), ({(1, 1, 0, 0, 0, 0, 0, 0): Fraction(1, 50)}, None))
        self.assertEqual(change("-a^2/3 + 1"), ({monomial(0, 2): Fraction(-1, 3), ONE: 1}, None))

    def test_tolerances(self) -> None:
        for sign in ("+-", "+/-", "±"):
            self.assertEqual(change(f"a^2 {sign} 0.001"), ({monomial(0, 2): 1}, Fraction(1, 1000)))
        self.assertEqual(change("1 +- 1/3"), ({ONE: 1}, Fraction(1, 3)))
        self.assertEqual(change("(a - b)^2+-2e-3")[1], Fraction(1, 500))

    def test_wrong(self) -> None:
        """With the column; a factor before +- is asked about, as it could be the coefficient itself."""
        for text, said in (("0.1*a^2 +- 0.001", "has the factor 1/10"), ("3 +- 1", "has the factor 3"),
                           ("0 +- 1", "is 0"), ("a +- b", "expected a number"), ("a +- -1", "below 0"),
                           ("a +- 1 +- 2", "column 8"), ("a +-", "column 5"), ("+- 1", "column 1"),
                           ("c", "`c` is no variable"), ("", "expected a number"), ("a b", "a product has a sign"),
                           ("a^33", "up to 32"), ("((a^32)^2", "comes of this")):
            with self.assertRaises(ModelError) as caught:
                change(text)
            self.assertIn(said, str(caught.exception), text)

    def test_tables(self) -> None:
        table = read_table("# measured 2026-11-02\n\na +- 0.5   # kg\nb^2 +- 0\n0.1*a\n", NAMES, Work())
        self.assertEqual([(one.text, one.tolerance) for one in table],
                         [("a +- 0.5", Fraction(1, 2)), ("b^2 +- 0", 0), ("0.1*a", None)])
        with self.assertRaisesRegex(ModelError, "line 3, column 1"):
            read_table("a +- 1\n\nc +- 1\n", NAMES, Work())

    def test_blank(self) -> None:
        lines = blank_table({ONE: Fraction(7), monomial(0, 2): Fraction(-1, 3)}, NAMES)
        self.assertEqual(lines, ["1   +- 0    # 7", "a^2 +- 0    # -1/3"])
        self.assertEqual([one.tolerance for one in read_table("\n".join(lines), NAMES, Work())], [0, 0])


class Mapping(unittest.TestCase):
    def test_by_hand(self) -> None:
        """0.02 x (20 + 20u)(10 + 5v) x 10 = 40 + 40u + 20v + 20uv."""
        made = sent([read_change("0.02*a*b", 1, NAMES, Work())], MAPPED, 10)
        self.assertEqual(made.constant, 40)
        self.assertEqual({e: d for e, _, d in made.terms},
                         {monomial(0): 40, monomial(1): 20, (1, 1, 0, 0, 0, 0, 0, 0): 20})

    def test_tolerance_by_hand(self) -> None:
        """0.001 x (20 + 20u)^2 x 10 is up to 4 + 8u + 4u^2, and 0.3 x 10 x (10 + 5v) up to 30 + 15v: sizes add up."""
        both = [read_change(text, 1, NAMES, Work()) for text in ("a^2 +- 0.001", "b +- 0.3", "a^2 - 2*b")]
        made = sent(both, MAPPED, 10)
        self.assertEqual(made.constant, 10 * (400 - 20))
        self.assertEqual([(e, d) for e, _, d in made.terms], [
            (monomial(0), 8000), (monomial(1), -100), (monomial(0, 2), 4000),
            (ONE, 34), (monomial(0), 8), (monomial(1), 15), (monomial(0, 2), 4)])
        self.assertEqual(made.encoded()[:12], bytes(monomial(0)) + struct.pack("<i", 8000))

    def test_sizes_do_not_cancel(self) -> None:
        """0.1 x 10 x (a - b) is up to 10 + 20u + 5v term by term, either way round, and both together twice that."""
        both = [read_change(text, 1, NAMES, Work()) for text in ("a - b +- 0.1", "b - a +- 0.1")]
        for some, times in ((both[:1], 1), (both[1:], 1), (both, 2)):
            made = sent(some, MAPPED, 10)
            self.assertEqual((made.constant, [d for _, _, d in made.terms]), (0, [times * k for k in (10, 20, 5)]))

    def test_whole_numbers_cover(self) -> None:
        """Each is the next one away from 0."""
        made = sent([read_change("a/7 - b/9", 1, NAMES, Work())], [replace(v, middle=Fraction(0), half=Fraction(1))
                                                                   for v in MAPPED], 10)
        self.assertEqual([(exact, d) for _, exact, d in made.terms], [(Fraction(10, 7), 2), (Fraction(-10, 9), -2)])
        self.assertEqual((made.exact, made.covered), (Fraction(160, 63), 4))

    def test_at_points(self) -> None:
        """The change of the stream at u is the factor times the model's at the point that u stands for."""
        chance = random.Random(11)
        cases: tuple[tuple[str, Value], ...] = (
            ("0.1*(b - a^2)^2", lambda a, b: Fraction(1, 10) * (b - a * a) ** 2),
            ("a*b/3 - 7*b^3", lambda a, b: a * b / 3 - 7 * b ** 3))
        for text, value in cases:
            made = read_change(text, 1, NAMES, Work())
            terms = made.in_stream(MAPPED, 36)
            for _ in range(20):
                u, v = (Fraction(chance.randrange(-50, 51), chance.randrange(1, 30)) for _ in range(2))
                there = sum(c * u ** e[0] * v ** e[1] for e, c in terms.items())
                self.assertEqual(there, 36 * value(20 + 20 * u, 10 + 5 * v))

    def test_too_large(self) -> None:
        with self.assertRaisesRegex(ValueError, "beyond 32 bits"):
            sent([read_change("a^9", 1, NAMES, Work())], MAPPED, 10).encoded()


class Mirror(unittest.TestCase):
    def test_case_f(self) -> None:
        """x is at most 1, so -x is at least -1: case F's upper certificate with its sign turned."""
        problem, _, high = case_f()
        self.assertEqual(turned_problem(problem), problem[:11] + struct.pack("<i", -1) + problem[15:])
        turned = turned_certificate(high)
        self.assertEqual((turned[1], turned[4:8], turned[10:]), (0, b"\xff\xff\xff\xff", high[10:]))
        self.assertEqual(turned_certificate(turned), high)
        self.assertEqual(turned_problem(turned_problem(problem)), problem)

    @needs_programs
    def test_is_accepted(self) -> None:
        for name in ("two_decks", "bolted_decks", "two_decks_rule2", "ring_order1"):
            problem, _, high = streams_of(EXAMPLES / name)
            p, q = struct.unpack_from("<iH", high, 4)
            found = proved.tighter(turned_problem(problem), turned_certificate(high), turned_certificate(high))
            self.assertEqual(found, turned_certificate(high))
            box = proved.adjusted(turned_problem(problem), turned_certificate(high), b"")
            self.assertEqual(box, f"{-p}/{q}")


@needs_programs
class Bounds(unittest.TestCase):
    def setUp(self) -> None:
        kept = tempfile.TemporaryDirectory()
        self.addCleanup(kept.cleanup)
        self.place = Path(kept.name)
        self.folder = A.write(self.place / "a")

    def adjusted(self, *arguments: object, folder: object = None) -> dict[str, Fraction]:
        status, out, err = run("adjust", folder or self.folder, "--json", *arguments)
        self.assertEqual((status, err), (0, ""))
        return {word: Fraction(one["exact"]) for word, one in json.loads(out)["figures"].items()}

    def test_lines(self) -> None:
        """The bounds are 7 - 4.5 = 2.5 and 7 + 5 - 1.5 = 10.5; 0.02*a*b adds 4 + 4u + 2v + 2uv."""
        status, out, _ = run("adjust", self.folder, "0.02*a*b")
        self.assertEqual(status, 0)
        self.assertEqual(out.splitlines(), [
            "at least -1.5 kg, moved by -4 to exactly -3/2",
            "at most 22.5 kg, moved by 12 to exactly 45/2",
            "in the stream, which has 400 times the model's polynomial with a = 20 + 20*u1, b = 10 + 5*u2:",
            "  0.02*a*b is 1600 + 1600*u1 + 800*u2 + 800*u1*u2",
            "  the constant 1600 moves both bounds by itself, and is not sent",
            "  sent: 3 changes whose sizes add up to 3200",
            "the proved call on the stream: adjusted -2200/1; with its sign turned, for the upper bound: adjusted "
            "-7400/1"])

    def test_exact_changes_hold_at_points(self) -> None:
        points = [(Fraction(x), Fraction(y)) for x, y in product(range(0, 41, 4), range(5, 16))]
        cases: tuple[tuple[str, Value], ...] = (
            ("0.02*a*b", lambda a, b: a * b / 50), ("-0.3*a + 2", lambda a, _: 2 - 3 * a / 10),
            ("0.001*a^3 - b^2/7", lambda a, b: a ** 3 / 1000 - b ** 2 / 7))
        for text, value in cases:
            found = self.adjusted("--", text)
            for a, b in points:
                changed = A.value([a, b]) + value(a, b)
                self.assertTrue(found["lower"] <= changed <= found["upper"], (text, a, b))

    def test_tolerances_hold_at_points(self) -> None:
        """At the ends of all tolerances together, at points of the region."""
        table = self.place / "tolerances"
        table.write_text("1 +- 0.25\na +- 0.003\nb +- 0.01\na*b +- 0.0001\n")
        found = self.adjusted("--table", table)
        ends = (Fraction(1, 4), Fraction(3, 1000), Fraction(1, 100), Fraction(1, 10000))
        for (a, b), signs in product(product((Fraction(0), Fraction(7), Fraction(40)), (Fraction(5), Fraction(31, 3),
                                                                                       Fraction(15))),
                                     product((-1, 1), repeat=4)):
            changed = A.value([a, b]) + sum(s * t * m for s, t, m in zip(signs, ends, (Fraction(1), a, b, a * b)))
            self.assertTrue(found["lower"] <= changed <= found["upper"])
        # 0.25 + 0.003 x (20 + 20) + 0.01 x (10 + 5) + 0.0001 x (200 + 200 + 100 + 100), at a corner
        moved = Fraction(58, 100)
        self.assertEqual((found["lower"], found["upper"]), (Fraction(5, 2) - moved, Fraction(21, 2) + moved))

    def test_no_change(self) -> None:
        self.assertEqual(self.adjusted("0"), {"lower": Fraction(5, 2), "upper": Fraction(21, 2)})
        self.assertEqual(self.adjusted("a*b +- 0"), {"lower": Fraction(5, 2), "upper": Fraction(21, 2)})

    def test_a_change_and_its_opposite(self) -> None:
        """Exact changes are added up first, so that they cancel; tolerances do not."""
        self.assertEqual(self.adjusted("a", "0 - a")["lower"], Fraction(5, 2))
        self.assertEqual(self.adjusted("a +- 1", "a +- 1")["lower"], Fraction(5, 2) - 80)

    @needs_reference
    def test_as_the_reference(self) -> None:
        """The bytes that -o writes, sent to the reference, give the call's fraction, for both sides."""
        for folder, text in ((self.folder, "a*b/3 - 0.7*b^2"), (EXAMPLES / "two_decks", "5*x1*x2*x3^2 - x4"),
                             (EXAMPLES / "bolted_decks", "x2^2 +- 3"), (EXAMPLES / "ring_order1", "x1*x5^3")):
            file = self.place / "changes.bin"
            status, out, _ = run("adjust", folder, text, "-o", file, "--json")
            said = json.loads(out)["stream"]
            problem, low, high = streams_of(folder)
            self.assertEqual(f"adjusted {said['lower']}", by_reference("a", problem, low, file.read_bytes()))
            p, q = struct.unpack_from("<iH", high, 4)
            total = sum(abs(one["d"]) for one in said["sent"])
            self.assertEqual(Fraction(said["upper turned"]), -Fraction(p, q) - total)
            self.assertEqual(len(file.read_bytes()), 12 * len(said["sent"]))

    def test_a_filing_of_a_model(self) -> None:
        """crosstalk with 0.02*a*b more: at points of its region, which has an equality, the changed value is within."""
        filed = self.place / "crosstalk"
        answers = RECORDED / "crosstalk"
        self.assertEqual(run("solve", EXAMPLES / "crosstalk.gap", "-o", filed, "--answers", answers)[0], 0)
        exact, within = self.adjusted("0.02*a*b", folder=filed), self.adjusted("a*b +- 0.02", folder=filed)
        for k in range(0, 81):
            b = Fraction(k, 4)
            a = 2 * b
            for part in (Fraction(1, 50), Fraction(0), Fraction(-1, 50)):
                value = Fraction(1, 10) * (b - a * a) ** 2 + a * b + part * a * b
                self.assertTrue(within["lower"] <= value <= within["upper"])
                if part > 0:
                    self.assertTrue(exact["lower"] <= value <= exact["upper"])
        self.assertTrue(within["lower"] < exact["lower"])

    def test_blank_and_back(self) -> None:
        status, out, _ = run("adjust", self.folder, "--blank")
        self.assertEqual((status, out.splitlines()), (0, ["1 +- 0    # 7", "a +- 0    # 1/8", "b +- 0    # -3/10"]))
        table = self.place / "t"
        table.write_text(out)
        self.assertEqual(self.adjusted("--table", table)["lower"], Fraction(5, 2))

    def test_refused(self) -> None:
        """16 without a box; what gapcheck refuses; more changes than are allowed."""
        status, out, _ = run("adjust", EXAMPLES / "ex5_5", "x1*x2")
        self.assertEqual((status, out.splitlines()[0]), (1, "refused 16 0 0 0"))
        self.assertIn("x1: no inequality of problem.bin is 1 - x1^2 >= 0", out)
        problem, low, high = case_f()
        with folder_of(problem, high, low) as folder:
            status, out, _ = run("adjust", folder, "x1")
        self.assertEqual((status, out.splitlines()[0]), (1, "refused 10 1 0 0"))
        names = "abcdefgh"
        many = Linear(list(names), [(0, 2)] * 8, [Fraction(1)] * 8).write(self.place / "many")
        status, out, _ = run("adjust", many, "*".join(names))                 # 255 terms and the constant
        self.assertEqual((status, "sent: 255 changes" in out), (0, True))
        status, out, _ = run("adjust", many, "*".join(names), "*".join(names) + " +- 1")
        self.assertEqual((status, out.splitlines()[0]), (1, "refused 6 2 256 0"))
        self.assertIn("511 changes of the stream, where 256 are allowed", out)

    def test_wrong(self) -> None:
        for arguments, said in (((), "give changes"), (("c",), "`c`: column 1: `c` is no variable"),
                                (("--table", self.place / "none"), "No such file"), (("a^32*b^32",), "degree 64"),
                                (("a^9",), "beyond 32 bits; give smaller changes"),
                                (("2*a +- 1",), "has the factor 2")):
            status, out, err = run("adjust", self.folder, *arguments)
            self.assertEqual((status, out), (2, ""))
            self.assertIn(said, err)
        table = self.place / "t"
        table.write_bytes(b"\xff\xfe")
        self.assertEqual(run("adjust", self.folder, "--table", table)[0], 2)
        table.write_text("a +- 1\nq\n")
        self.assertIn("t: line 2, column 1", run("adjust", self.folder, "--table", table)[2])
        self.assertEqual(run("adjust", "nothing", "a")[0], 2)

    def test_a_sign_that_cannot_be_turned(self) -> None:
        """A bound of -2^31 has no opposite of 32 bits: nothing is said, and it is said why."""
        problem = encode("variables x\nobjective -2147483648 1\nconstraint\nterm 1 1\nterm -1 x^2\nend")[0]
        low, high = (encode(f"{word} -2147483648/1 scale 1\ndone")[0] for word in ("lower", "upper"))
        with folder_of(problem, low, high) as folder:
            status, _, err = run("adjust", folder, "x1")
        self.assertEqual(status, 2)
        self.assertIn("the upper bound cannot be asked for: with its sign turned the coefficient 2147483648 does not "
                      "fit", err)

    def test_empty(self) -> None:
        """Bounds that cross give no figure."""
        text = ("variables x\nconstraint\nterm 1 1\nterm -1 x^2\nconstraint\nterm -2 1\nterm 1 x\nbasis 0 1\n"
                "basis 0 x\nbasis 1 1\nbasis 2 1\nend")
        rows = "row 0 weight 1\nentry 0 1\nentry 1 -1\nrow 1 weight 1\nentry 0 1\nrow 2 weight 2\nentry 0 1\ndone"
        # (1 - x)^2 + (1 - x^2) + 2 (x - 2) = -2: so 0 - 1 = -1 has half of these rows, and 1 too with the other sign
        low, high = (encode(f"{word} {p}/1 scale 2\n{rows}")[0] for word, p in (("lower", 1), ("upper", -1)))
        with folder_of(encode(text)[0], low, high) as folder:
            status, out, err = run("adjust", folder, "x1")
        self.assertEqual((status, err), (0, ""))
        self.assertTrue(out.startswith("no point meets all the conditions"))


if __name__ == "__main__":
    unittest.main()
