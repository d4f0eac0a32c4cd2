"""From models to certificates: recorded answers replayed, limits, and csdp itself on every model of the examples."""
import shutil
import tempfile
import time
import unittest
from fractions import Fraction
from pathlib import Path

from gapfile.basis import inconsistent, least_degree, monomials
from gapfile.model import parse
from gapfile.problem import LimitError, pose
from gapfile.programs import Verdict, gapcheck
from gapfile.progress import quiet
from gapfile.reading import read_certificate, read_problem
from gapfile.report import report_lines
from gapfile.solver import STATUS, Answer, Cost, Csdp, NoSolver, Recorded, Solver, read_answer, sparse_format
from gapfile.relaxing import fitting_blocks
from gapfile.solving import NoCertificate, Options, Solved, solve_model
from gapfile.sparse import everything, give_bases
from gapfile.tests.support import EXAMPLES, RECORDED, needs_programs, run

needs_csdp = unittest.skipUnless(shutil.which("csdp"), "csdp is not installed (Debian: coinor-csdp)")


def solved(name: str, solver: Solver, narrow: bool = False) -> Solved:
    return solve_model(parse((EXAMPLES / f"{name}.gap").read_text()), solver, Options(narrow), quiet)


def judged(result: Solved) -> Verdict:
    """What gapcheck says of the three streams."""
    low, high = [side.certificate for side in result.sides]
    return gapcheck(result.problem, low, high)


class Bases(unittest.TestCase):
    def test_degrees(self) -> None:
        self.assertEqual(len(monomials(4, 2)), 15)
        problem = pose(parse("var a b in [-1, 1]\nbound a^3*b + b")).problem
        self.assertEqual(least_degree(problem), 4)
        give_bases(problem, 4, everything)
        self.assertEqual([len(b) for b in problem.bases], [6, 3, 3])
        with self.assertRaises(LimitError):
            give_bases(problem, 2, everything)

    def test_diagonal_consistency(self) -> None:
        """In x^2 y^2 + x^2 + 1 without a region y^2 and x^2 cannot be used: x^4 and y^4 come up with one sign alone."""
        problem = pose(parse("var x y\nbound x^2*y^2 + x^2 + 1")).problem
        problem.bases = [monomials(2, 2)]
        lost = inconsistent(problem, [[list(range(6))]], 1)
        names = [problem.bases[0][i][:2] for i in range(6) if (0, i) not in lost]
        self.assertEqual(names, [(0, 0), (1, 0), (1, 1)])

    def test_too_many_monomials(self) -> None:
        problem = pose(parse("var a b c d e f in [0, 1]\nbound a^6 + b*c*d*e*f")).problem
        with self.assertRaises(LimitError) as caught:
            give_bases(problem, 6, everything)
        self.assertIn("84 monomials, more than 64", str(caught.exception))

    @needs_programs
    def test_counted_before_the_products(self) -> None:
        """The 12,870 monomials of degree 8 in eight variables have 165 million products; each rule is refused at once."""
        model = parse(f"var {' '.join('abcdefgh')} in [0, 1]\nbound (a*b*c*d*e*f*g*h)^2")
        start = time.process_time()
        with self.assertRaises(LimitError) as caught:
            solve_model(model, Fixed(0), Options(), quiet)
        self.assertIn("basis 0 of degree 8 has 256 monomials, more than 64", str(caught.exception))
        self.assertLess(time.process_time() - start, 20)

    def test_too_many_rows(self) -> None:
        """Estimated before anything is solved."""
        problem = pose(parse("var a b c d e f g h in [-1, 1]\nbound (a + b + c + d)^4 + (e + f + g + h)^4 "
                             "+ (a + b + c + d + e + f + g + h)^3")).problem
        give_bases(problem, 4, everything)
        with self.assertRaises(LimitError) as caught:
            fitting_blocks(problem)
        self.assertIn("rows of 128", str(caught.exception))


class Format(unittest.TestCase):
    def test_sparse_format(self) -> None:
        text = sparse_format([2], {(0, 0, 0): -1.0}, [{(0, 0, 1): 1.0, (0, 1, 1): 0.5}], [3.0])
        self.assertEqual(text, "1\n1\n2\n3\n0 1 1 1 -1\n1 1 1 2 1\n1 1 2 2 0.5\n")

    def test_answer(self) -> None:
        answer = read_answer(3, "1.5 -2\n2 1 1 2 0.25\n2 1 2 2 4\n", [2], 2)
        self.assertEqual((answer.status, answer.matrices, answer.dual), (3, [[[0.0, 0.25], [0.25, 4.0]]], [1.5, -2.0]))

    def test_no_answer(self) -> None:
        with self.assertRaises(NoSolver):
            Recorded(RECORDED / "two_decks").solve([1], {}, [], [])


class Fixed:
    """A solver that always ends with one status."""

    def __init__(self, status: int) -> None:
        self.status = status

    def solve(self, sizes: list[int], cost: Cost, equations: list[Cost], sides: list[float]) -> Answer:
        return Answer(self.status, [[[0.0] * n for _ in range(n)] for n in sizes], [0.0] * len(sides))


@needs_programs
class Statuses(unittest.TestCase):
    def sentence(self, status: int, model: str) -> str:
        with self.assertRaises(NoCertificate) as caught:
            solve_model(parse(model), Fixed(status), Options(), quiet)
        return str(caught.exception)

    def test_sentences(self) -> None:
        """Every status that csdp has is a sentence; those that leave nothing to round end the way."""
        self.assertEqual(sorted(STATUS), list(range(14)))
        model, none = "var x in [-1, 1]\nbound x\ndegree 4", "no lower certificate of degree 4"
        for status in (1, 8, 9, 10, 11, 12, 13):
            self.assertEqual(self.sentence(status, model), f"{none}: {STATUS[status]}; try degree 6")
        self.assertIn(f"{STATUS[2]}, and no proof of that of degree 4 could be rounded", self.sentence(2, model))

    def test_no_higher_degree(self) -> None:
        """Advice is given only for a degree that the limits leave room for."""
        model = "var a b c d e f g h in [-1, 1]\nbound a*b + c*d + e*f + g*h + a + c + e + g\ndegree 2"
        self.assertIn("; try degree 4", self.sentence(1, model))
        self.assertIn("; degree 18 is too large: a basis of degree 8 reaches 16",
                      self.sentence(1, "var x in [-1, 1]\nbound x\ndegree 16"))

    def test_unreachable(self) -> None:
        """No product of the bases has the monomial, and a ray shows why: there is no bound."""
        self.assertEqual(self.sentence(0, "var x\nbound x"),
                         "the polynomial has no lower bound on the region: for x = -t it is -t, which goes to "
                         "-infinity with t, and all conditions hold for large t")


@needs_programs
class Replayed(unittest.TestCase):
    """Answers that csdp once gave, so that nothing here needs csdp."""

    def test_two_decks(self) -> None:
        result = solved("two_decks", Recorded(RECORDED / "two_decks"))
        verdict = judged(result)
        self.assertEqual((verdict.lower, verdict.upper), (Fraction(-940000001, 2), Fraction(1300000001, 5)))
        factor = result.posed.factor
        self.assertEqual([side.attained and side.attained.value / factor for side in result.sides], [-94, 52])
        sent = read_problem((EXAMPLES / "two_decks/problem.bin").read_bytes())
        self.assertEqual(read_problem(result.problem).objective, {e: factor * c for e, c in sent.objective.items()})

    def test_chained_wood(self) -> None:
        """0.1 in the objective, ranges from 0 to 1: the factor is recorded, and the figures are those of the model."""
        result = solved("chained_wood", Recorded(RECORDED / "chained_wood"))
        factor = result.posed.factor
        self.assertEqual(factor, 40 * 50000)
        self.assertTrue(judged(result).accepted)
        low, high = result.sides
        assert low.attained and high.attained
        self.assertEqual(high.attained.value / factor, 141)       # at (1, 0, 0, 0): 100 + 0 + 1 + 40
        self.assertLess(abs(low.bound - low.attained.value) / factor, Fraction(2, 10 ** 7))
        self.assertLess(abs(high.bound - high.attained.value) / factor, Fraction(2, 10 ** 7))
        self.assertIn("the objective was multiplied by 2000000 to whole numbers; the figures below are divided by it",
                      report_lines(result, parse((EXAMPLES / "chained_wood.gap").read_text())))

    def test_equality(self) -> None:
        """The model of the README: rows of both signs by 14."""
        result = solved("crosstalk", Recorded(RECORDED / "crosstalk"))
        self.assertTrue(judged(result).accepted)
        problem = read_problem(result.problem)
        self.assertEqual([c.equality for c in problem.conditions], [False, False, False, True])
        for side in result.sides:
            weights = [row.weight for row in read_certificate(side.certificate, problem).rows if row.basis == 4]
            self.assertTrue(min(weights) < 0 < max(weights))
        values = [side.attained and side.attained.value / result.posed.factor for side in result.sides]
        self.assertEqual(values, [0, 250440])

    def test_report(self) -> None:
        """Relaxation, filed, lost, attained, rows and blocks."""
        model = parse((EXAMPLES / "two_decks.gap").read_text())
        lines = report_lines(solve_model(model, Recorded(RECORDED / "two_decks"), Options(), quiet), model)
        self.assertTrue(lines[0].startswith("degree 4; 5 blocks, 2 rounds; basis 0 has 9 monomials in 1 block"))
        self.assertEqual(lines[2].split(), "relaxation filed lost attained off by rows wide entries".split())
        self.assertEqual(lines[3].split(), "lower -94 -94.0000001 1e-07 -94 0.0000001 93 83".split())
        self.assertEqual(lines[5], "lower: csdp found an optimum; attained at x1 = -1, x2 = -1, x3 = 1, x4 = -1")


@needs_csdp
@needs_programs
class WithCsdp(unittest.TestCase):
    """csdp itself, on the models of the examples, the published benchmarks among them."""

    def close(self, name: str, narrow: bool = False) -> None:
        """Accepted, and each bound within 1e-3 of a value that is attained, relative to it or to 1."""
        result = solved(name, Csdp(), narrow)
        self.assertTrue(judged(result).accepted)
        for side in result.sides:
            assert side.attained, name
            self.assertEqual(side.wide > 0 and narrow, False)
            largest = max(Fraction(result.posed.factor), abs(side.attained.value))
            self.assertLessEqual(side.off / largest, Fraction(1, 1000))

    def test_every_model(self) -> None:
        names = {file.stem for file in EXAMPLES.glob("*.gap")} - {"contradictory"}
        self.assertLess({"chained_wood", "rosenbrock", "chained_singular", "two_decks", "bolted_decks"}, names)
        for name in sorted(names):
            with self.subTest(model=name):
                self.close(name)

    def test_narrow(self) -> None:
        for name in ("crosstalk", "bolted_decks", "chained_wood", "rosenbrock", "chained_singular"):
            with self.subTest(model=name):
                self.close(name, True)

    def test_products(self) -> None:
        """a*b on a box that is not centred: with the products of the ranges degree 2 is exact."""
        result = solve_model(parse("var a in [1, 3]\nvar b in [-1, 9]\nbound a*b"), Csdp(), Options(), quiet)
        self.assertEqual(result.degree, 2)
        factor = result.posed.factor
        self.assertEqual([side.attained and side.attained.value / factor for side in result.sides], [-3, 27])
        self.assertLess(max(side.off for side in result.sides) / factor, Fraction(1, 10 ** 6))

    def test_choices(self) -> None:
        """Variables that are 0 or 1."""
        result = solve_model(parse("var a b c in [0, 1]\nbound 3*a + 2*b*c - 4*a*c - b\nwhere a^2 == a\n"
                                   "where b^2 == b\nwhere c^2 == c"), Csdp(), Options(), quiet)
        self.assertTrue(judged(result).accepted)
        self.assertLess(max(side.off for side in result.sides) / result.posed.factor, Fraction(1, 1000))

    def test_contradictory_limits(self) -> None:
        """Where the region has no points, bounds that cross are proved, and filed without a figure."""
        with tempfile.TemporaryDirectory() as folder:
            status, out, _ = run("file", EXAMPLES / "contradictory.gap", "-o", folder)
            self.assertEqual((status, out.splitlines()[0]),
                             (0, "no point meets all the conditions: the bounds cross, so there is no figure to quote"))
            self.assertIn("  gap empty\n", out)
            self.assertIn("the region is empty", (Path(folder) / "sheet.html").read_text(encoding="utf-8"))

    def test_unbounded_region(self) -> None:
        """x^3 is bounded by no certificate where x has no range: the status is a sentence, and the exit status 3."""
        with tempfile.TemporaryDirectory() as folder:
            model = Path(folder) / "m.gap"
            model.write_text("var x y\nbound x*y\nwhere x >= 0\n")
            status, _, err = run("solve", model, "-o", Path(folder) / "out")
            self.assertEqual(status, 3)
            self.assertIn("the polynomial has no lower bound on the region: for x = t, y = -t it is -t^2", err)
            self.assertFalse((Path(folder) / "out").exists())


if __name__ == "__main__":
    unittest.main()
