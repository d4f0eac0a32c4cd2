"""`round`: the example made by hand, files that are none, matrices without room, and an equality."""
import json
import random
import tempfile
import unittest
from fractions import Fraction
from pathlib import Path
from typing import Any

from gapfile.basis import find_blocks
from gapfile.blocks import by_basis
from gapfile.foreign import smallest
from gapfile.interior import buy
from gapfile.programs import check_pair, reference
from gapfile.polynomials import evaluate
from gapfile.reading import Problem, read_problem
from gapfile.sdp import pose_program
from gapfile.tests.support import EXAMPLES, ROOT, needs_programs, run
from gapfile.tests.test_filing import header
from gapfile.text import DEFAULT_NAMES, encode, monomial_of

PROBLEM = EXAMPLES / "ex5_5/problem.bin"
GRAM = EXAMPLES / "gram/ex5_5.json"
# x, where x^2 = 1: x + 2 is the form of [[1, 1/2], [1/2, 1]] in 1 and x, less x^2 - 1
ON_TWO_POINTS = "variables x\nobjective 1 x\nequality\nterm 1 x^2\nterm -1 1\nbasis 0 1\nbasis 0 x\nbasis 1 1\nend\n"
TWO_POINTS: dict[str, Any] = {"variables": ["x"], "lower": {"bound": -2, "grams": [
    {"basis": 0, "matrix": [[1, 0.5], [0.5, 1]]}, {"basis": 1, "monomials": ["1"], "matrix": [[-1]]}]}}


def form(problem: Problem, gram: dict[str, Any], point: list[Fraction]) -> Fraction:
    """g_j x (m' M m) at a point, exactly, from the JSON alone."""
    m = [evaluate({monomial_of(word, tuple(DEFAULT_NAMES)): Fraction(1)}, point) for word in gram["monomials"]]
    square = sum(Fraction(str(c)) * m[a] * m[b] for a, row in enumerate(gram["matrix"]) for b, c in enumerate(row))
    return square * evaluate({e: Fraction(c) for e, c in problem.multiplier(gram["basis"]).items()}, point)


class ByHand(unittest.TestCase):
    def test_the_example_is_exact(self) -> None:
        """f + 1/5 and 3 - f are the sums of the forms, as polynomials of degree 4 at 81 points; the matrices are those
        of positive forms, by their leading minors."""
        problem, data = read_problem(PROBLEM.read_bytes()), json.loads(GRAM.read_text())
        for word, sign in (("lower", 1), ("upper", -1)):
            for x in range(-4, 5):
                for y in range(-4, 5):
                    point = [Fraction(x), Fraction(y)]
                    left = sign * (evaluate({e: Fraction(c) for e, c in problem.objective.items()}, point)
                                   - Fraction(str(data[word]["bound"])))
                    self.assertEqual(left, sum(form(problem, gram, point) for gram in data[word]["grams"]))
            for gram in data[word]["grams"]:
                matrix = [[Fraction(str(c)) for c in row] for row in gram["matrix"]]
                for k in range(1, len(matrix) + 1):
                    self.assertGreater(determinant([row[:k] for row in matrix[:k]]), 0)

    def test_documented(self) -> None:
        """FORMAT.md shows this very file."""
        text = (ROOT / "docs/FORMAT.md").read_text(encoding="utf-8")
        shown = text.partition("## Gram matrices")[2].partition("```json\n")[2].partition("```")[0]
        self.assertEqual(json.loads(shown), json.loads(GRAM.read_text()))

    def test_smallest(self) -> None:
        for matrix, least in (([[2.0]], 2.0), ([[2.0, 1.0], [1.0, 2.0]], 1.0), ([[1.0, 2.0], [2.0, 1.0]], -1.0),
                              ([[0.0, 0.0], [0.0, 3.0]], 0.0), ([[4.0, 2.0, 0.0], [2.0, 4.0, 2.0], [0.0, 2.0, 4.0]],
                                                               4 - 2 * 2 ** 0.5)):
            self.assertAlmostEqual(smallest(matrix), least, 9)


def determinant(matrix: list[list[Fraction]]) -> Fraction:
    """By the first line."""
    if not matrix:
        return Fraction(1)
    return sum(((-1) ** k * c * determinant([row[:k] + row[k + 1:] for row in matrix[1:]])
                for k, c in enumerate(matrix[0])), Fraction(0))


@needs_programs
class Rounding(unittest.TestCase):
    def setUp(self) -> None:
        self.kept = tempfile.TemporaryDirectory()
        self.addCleanup(self.kept.cleanup)
        self.place = Path(self.kept.name)
        self.out = self.place / "out"

    def rounded(self, data: Any, problem: Path = PROBLEM, *more: object) -> tuple[int, str, str]:
        file = self.place / "gram.json"
        file.write_bytes(data if isinstance(data, bytes) else json.dumps(data).encode())
        return run("round", problem, file, "-o", self.out, *more)

    def test_the_example(self) -> None:
        """Both sides are accepted, with the bounds that were given; the reference says the same."""
        status, out, err = run("round", PROBLEM, GRAM, "-o", self.out)
        self.assertEqual(status, 0, err)
        self.assertEqual({file.name for file in self.out.iterdir()}, {"problem.bin", "low.bin", "high.bin"})
        streams = [(self.out / name).read_bytes() for name in ("problem.bin", "low.bin", "high.bin")]
        self.assertEqual(streams[0], PROBLEM.read_bytes())
        self.assertEqual([Fraction(*header(stream)) for stream in streams[1:]], [Fraction(-1, 5), Fraction(3)])
        status, out, _ = run("check", self.out, "--second")
        self.assertEqual(status, 0)
        self.assertIn("agrees", out)
        built = reference()
        if built:
            p, q = header(streams[1])
            said = check_pair(streams[0], streams[1], streams[2], [str(built), "replay"])
            self.assertEqual(said[0], f"lower {p}/{q}")
        status, _, err = run("round", PROBLEM, GRAM, "-o", self.out)
        self.assertEqual(status, 2)
        self.assertIn("holds another model's files; name another folder, or say --replace", err)
        self.assertEqual(run("round", PROBLEM, GRAM, "-o", self.out, "--replace", "--narrow")[0], 0)
        self.assertNotIn(b"\x15", {stream[0:1] for stream in streams})

    def test_forms_of_the_same(self) -> None:
        """Whole matrices without monomials, halves that add up, one that is not symmetric, other names, one side."""
        data = json.loads(GRAM.read_text())["lower"]
        even, odd = data["grams"]
        whole = [[0.0] * 6 for _ in range(6)]
        for places, gram in (((0, 3, 4, 5), even), ((1, 2), odd)):
            for a, i in enumerate(places):
                for b, j in enumerate(places):
                    whole[i][j] = gram["matrix"][a][b]
        skew = {**odd, "matrix": [[0.4, -0.6], [0, 0.4]]}
        half = {**even, "matrix": [[c / 2 for c in row] for row in even["matrix"]]}
        renamed = [{**gram, "monomials": [word.replace("x1", "a").replace("x2", "b") for word in gram["monomials"]]}
                   for gram in (even, odd)]
        for words in ({"lower": {"bound": -0.2, "grams": [{"basis": 0, "matrix": whole}]}},
                      {"lower": {"bound": -0.2, "grams": [half, skew, half]}},
                      {"variables": ["a", "b"], "lower": {"bound": -0.2, "grams": renamed}}):
            status, out, err = self.rounded(words, PROBLEM, "--replace")
            self.assertEqual(status, 0, err)
            self.assertEqual({file.name for file in self.out.iterdir()}, {"problem.bin", "low.bin"})
            self.assertEqual(Fraction(*header((self.out / "low.bin").read_bytes())), Fraction(-1, 5))
            status, out, _ = run("check", self.out)
            self.assertEqual((status, out.splitlines()[1]), (0, "lower  -1/5 = -0.2"))

    def test_at_the_edge(self) -> None:
        """The optimum itself, by hand: f + 1/8 = (x1^2 - x2^2)^2 + 2 x (x1*x2 - 1/4)^2, at two points 0. Four of six
        eigenvalues are 0, and the room comes from the ellipse."""
        grams = [{"basis": 0, "monomials": ["1", "x1*x2"], "matrix": [[0.125, -0.5], [-0.5, 2]]},
                 {"basis": 0, "monomials": ["x1^2", "x2^2"], "matrix": [[1, -1], [-1, 1]]}]
        status, out, err = self.rounded({"lower": {"bound": -0.125, "grams": grams}})
        self.assertEqual(status, 0, err)
        bound = Fraction(*header((self.out / "low.bin").read_bytes()))
        self.assertTrue(Fraction(-126, 1000) < bound <= Fraction(-125, 1000), bound)
        self.assertEqual(run("check", self.out, "--second")[0], 0)

    def test_what_is_bought(self) -> None:
        """More of the squares and of the multipliers is 1 in all, as a polynomial; in a box or an ellipse every square
        gets some, but where no condition's basis has what it would be paid with: x1*x3 in the ring of five decks."""
        for name, whole in (("ex5_5", True), ("two_decks", True), ("bolted_decks", True), ("ring_order1", False)):
            problem = read_problem((EXAMPLES / name / "problem.bin").read_bytes())
            program = pose_program(problem, by_basis(problem, find_blocks(problem)), 0)
            bought = buy(program)
            first = {problem.bases[0][i] for j, ix in program.blocks if j == 0 for i in ix}
            self.assertEqual(set(bought.squares) == first, whole)
            self.assertGreater(min(bought.squares.values()), 0)
            self.assertGreater(min(bought.multipliers.values()), 0)
            chance = random.Random(3)
            for _ in range(20):
                point = [Fraction(chance.randrange(-8, 9), 4) for _ in range(problem.variables)]
                total = sum(Fraction(c) * evaluate({e: Fraction(1)}, point) ** 2 for e, c in bought.squares.items())
                for (j, i), k in bought.multipliers.items():
                    m = evaluate({problem.bases[j][i]: Fraction(1)}, point)
                    g = evaluate({e: Fraction(c) for e, c in problem.multiplier(j).items()}, point)
                    total += Fraction(k) * m ** 2 * g
                self.assertAlmostEqual(float(total), 1.0, 9)

    def test_an_equality(self) -> None:
        """Its matrix may be one of any sign, and becomes rows of both."""
        problem = self.place / "problem.bin"
        problem.write_bytes(encode(ON_TWO_POINTS)[0])
        status, out, err = self.rounded(TWO_POINTS, problem)
        self.assertEqual(status, 0, err)
        self.assertEqual(Fraction(*header((self.out / "low.bin").read_bytes())), -2)
        self.assertIn("check 0 ", out)

    def test_no_room(self) -> None:
        """A bound beyond the optimum -1/8, which nothing proves, matrices far from any that do, and a bound of more
        than 32 bits: status 3, nothing written, and what to do."""
        data = json.loads(GRAM.read_text())["lower"]
        even, odd = data["grams"]
        for grams, bound in (([even, odd], -0.12), ([even, odd], 0.5),
                             ([{**even, "matrix": [[-1] * 4] * 4}, odd], -0.2),
                             ([{**even, "matrix": [[1e15] * 4] * 4}, odd], -1e15)):
            status, out, err = self.rounded({"lower": {"bound": bound, "grams": grams}})
            self.assertEqual((status, out), (3, ""), err)
            self.assertRegex(err, r"no lower certificate could be rounded \(.*\); the smallest eigenvalue of basis 0 "
                                  r"is about -?[\d.e+-]+: ask the solver for a bound a little worse than its best")
            self.assertFalse(self.out.exists())

    def test_files_that_are_none(self) -> None:
        """Each error names the file and the entry, the status is 2, and nothing is written."""
        good = json.loads(GRAM.read_text())
        wrong: list[tuple[list[Any], Any, str]] = [
                (["lower", "bound"], "1", "lower bound is no number from -1e+15 to 1e+15"),
                (["lower", "bound"], True, "lower bound is no number"), (["lower", "bound"], 1e16, "is no number"),
                (["lower", "bound"], None, "lower has no `bound`"), (["lower", "grams"], [], "is no list of 1 to 1024"),
                (["lower", "grams"], {}, "is no list"), (["lower"], [], "lower is no object"),
                (["lower", "extra"], 1, "lower has `extra`; expected bound or grams"),
                (["other"], 1, "has `other`; expected variables, lower or upper"),
                (["variables"], ["x1"], "variables is no list of 2"), (["variables"], ["a", "a"], "has a name twice"),
                (["variables"], ["a", "1"], "variables 2 is no name of a variable"),
                (["lower", "grams", 0, "basis"], 2, "is no number of a basis; the problem has 0 to 1"),
                (["lower", "grams", 0, "basis"], "0", "is no number of a basis"),
                (["lower", "grams", 0, "basis"], True, "is no number of a basis"),
                (["lower", "grams", 0, "more"], 1, "has `more`; expected basis, monomials or matrix"),
                (["lower", "grams", 0, "monomials", 1], "x1^3", "is x1^3, which basis 0 of the problem does not have"),
                (["lower", "grams", 0, "monomials", 1], "x3", "grams 1 monomials 2 is no monomial: expected a"),
                (["lower", "grams", 0, "monomials", 1], 7, "is no monomial: expected a monomial as text"),
                (["lower", "grams", 0, "monomials", 1], "1", "monomials 2 stands a second time"),
                (["lower", "grams", 0, "monomials"], ["1"], "matrix is no list of 1"),
                (["lower", "grams", 0, "matrix", 2], [1], "grams 1 matrix 3 is no list of 4"),
                (["lower", "grams", 0, "matrix", 2, 0], "x", "matrix 3 1 is no number"),
                (["lower", "grams", 0, "matrix", 2, 0], None, "matrix 3 1 is no number")]
        for path, value, said in wrong:
            data = json.loads(json.dumps(good))
            place = data
            for step in path[:-1]:
                place = place[step]
            place[path[-1]] = value
            with self.subTest(path=path, value=value):
                self.refused(data, said)
        for raw, said in ((b"{", "is no JSON: line 1, column 2: "), (b"\xff", "is no JSON"), (b"", "line 1, column 1"),
                          (b"[1,\n 2", "line 2, column 3"), (b"[" * 100000, "is no JSON"), (b"[]", "is no object"),
                          (b"{}", "has neither `lower` nor `upper`"), (b'{"lower": null}', "has neither"),
                          (b'{"lower": {"bound": NaN, "grams": [1]}}', "is no object"),
                          (b'{"lower": {"bound": 1e999, "grams": []}}', "is no list"),
                          (b'{"lower": {"bound": ' + b"9" * 5000 + b"}}", "is no JSON"), (b" " * (1 << 25), "allowed")):
            with self.subTest(raw=raw[:20]):
                self.refused(raw, said)
        infinite = json.dumps(good).replace("-0.25", "Infinity").encode()
        self.refused(infinite, "is no number from -1e+15 to 1e+15")

    def refused(self, data: Any, said: str) -> None:
        status, out, err = self.rounded(data)
        self.assertEqual((status, out), (2, ""), err)
        self.assertIn("gram.json", err)
        self.assertIn(said, err)
        self.assertNotIn("Traceback", err)
        self.assertFalse(self.out.exists())

    def test_problems_that_are_none(self) -> None:
        bad = self.place / "bad.bin"
        bad.write_bytes(PROBLEM.read_bytes()[:-1])
        status, _, err = run("round", bad, GRAM, "-o", self.out)
        self.assertEqual(status, 2)
        self.assertIn("bad.bin is no problem: refusal 2", err)
        self.assertEqual(run("round", PROBLEM, self.place / "none.json", "-o", self.out)[0], 2)
        self.assertEqual(run("round", "-", "-", "-o", self.out)[0], 2)


if __name__ == "__main__":
    unittest.main()
