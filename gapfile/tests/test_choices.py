"""What a model chooses of the format: rule, order and bases, read with line and column, and found in the bytes."""
import shutil
import tempfile
import unittest
from fractions import Fraction
from pathlib import Path

from gapfile.choices import Basis
from gapfile.expressions import ModelError
from gapfile.model import parse
from gapfile.problem import encode_problem, poses
from gapfile.programs import check_pair, record, replay
from gapfile.reading import Problem, read_problem
from gapfile.tests.support import EXAMPLES, RECORDED, judge, needs_programs, run
from gapfile.tests.test_theorem import needs_coq
from gapfile.tests.test_verify import resum

START = "var a b in [-1, 1]\nbound a^4 + b\nwhere a >= b\n"      # three conditions; the next line is line 4


def monomials(*lists: tuple[int, ...]) -> tuple[tuple[int, ...], ...]:
    return tuple(e + (0,) * (8 - len(e)) for e in lists)


class Reading(unittest.TestCase):
    def test_what_is_chosen(self) -> None:
        model = parse(START + "rule 2\norder 255\nonly upper\nbasis 3: a*b^2 1\nnote First, to the letter # too\n"
                              "basis 0: 1 a  b² a·b\nnote\tSecond")
        self.assertEqual((model.choices.rule, model.choices.order, model.sides), (2, 255, (1,)))
        self.assertEqual(model.choices.bases, {3: Basis(3, monomials((1, 2), (0, 0)), 7, 7),
                                               0: Basis(0, monomials((0,), (1,), (0, 2), (1, 1)), 9, 7)})
        self.assertEqual(model.notes, ["First, to the letter # too", "Second"])
        plain = parse(START)
        self.assertEqual((plain.choices.rule, plain.choices.order, plain.sides, plain.choices.bases, plain.notes),
                         (1, None, (0, 1), {}, []))
        self.assertEqual(parse(START + "only lower").sides, (0,))

    def test_errors(self) -> None:
        """Each names its line and column, and what to do."""
        for lines, line, column, said in (
                ("rule 3", 4, 6, "expected rule 1 or 2"), ("rule", 4, 5, "expected rule 1 or 2"),
                ("rule 2 2", 4, 8, "expected the end of the line"), ("rule 1\nrule 2", 5, 1, "stands a second time"),
                ("order 0", 4, 7, "from 1 to 255; without this line the rounds go on to their end"),
                ("order 256", 4, 7, "from 1 to 255"), ("order 1.5", 4, 7, "from 1 to 255"),
                ("order " + "9" * 50, 4, 7, "from 1 to 255"), ("order a", 4, 7, "from 1 to 255"),
                ("only both", 4, 6, "expected lower or upper; without this line both sides are filed"),
                ("only", 4, 5, "expected lower or upper"), ("only lower upper", 4, 12, "expected the end of the line"),
                ("basis", 4, 6, "expected the number of a basis: 0, or that of a condition"),
                ("basis 9: 1", 4, 7, "there is no condition 9; the model has 3"), ("basis 100: 1", 4, 7, "number of a"),
                ("basis a: 1", 4, 7, "expected the number of a basis"), ("basis 0.0: 1", 4, 7, "number of a basis"),
                ("basis 0 1", 4, 9, "expected `:` and monomials, as in `basis 0: 1 a a*b`"),
                ("basis 0:", 4, 9, "expected a monomial"), ("basis 0: 1 c", 4, 12, "`c` is no variable"),
                ("basis 0: 1 2*a", 4, 12, "without a coefficient"), ("basis 0: a + b", 4, 12, "expected a monomial"),
                ("basis 0: (a+b)", 4, 10, "expected a monomial"), ("basis 0: -a", 4, 10, "expected a monomial"),
                ("basis 0: 0", 4, 10, "expected a monomial"), ("basis 0: a,b", 4, 11, "found `,`"),
                ("basis 0: 1 a*b b*a", 4, 16, "a*b stands twice in the basis"),
                ("basis 0: a^5*b^4", 4, 10, "a^5*b^4 has degree 9; a basis goes up to 8"),
                ("basis 0: 1\nbasis 0: a", 5, 7, "basis 0 stands a second time, first in line 4"),
                ("basis 0: 1\nbasis 4: 1", 5, 7, "there is no condition 4; the model has 3, ranges counted first"),
                ("basis 2: 1", 4, 7, "basis 2 is given, and basis 0 is not; give basis 0 too"),
                ("basis 0: 1 a\ndegree 4", 5, 1, "a degree beside `basis 0`"),
                ("note " + "x" * 1001, 4, 1004, "more than 1,000 letters"),
                ("note x\n" * 65, 68, 1, "more than 64 notes")):
            with self.subTest(lines=lines[:40]), self.assertRaises(ModelError) as caught:
                parse(START + lines)
            self.assertEqual((caught.exception.line, caught.exception.column), (line, column), str(caught.exception))
            self.assertIn(said, str(caught.exception))
        many = " ".join(f"a^{i}*b^{j}" for i in range(9) for j in range(9 - i) if i + j)
        wide = "var a b c in [0, 1]\nbound a\nbasis 0: " + many + " " + " ".join(f"c*a^{i}*b^{j}" for i in range(7)
                                                                              for j in range(7 - i))
        with self.assertRaises(ModelError) as caught:
            parse(wide)
        self.assertIn("more than 64 monomials in a basis", str(caught.exception))

    def test_the_order_of_lines(self) -> None:
        """A basis may stand before the conditions that it counts, but not before its variables."""
        self.assertEqual(list(parse("var a\nbasis 0: 1 a\nbasis 1: 1\nbound a\nwhere a^2 <= 1").choices.bases), [0, 1])
        with self.assertRaises(ModelError) as caught:
            parse("basis 0: 1 a\nvar a\nbound a")
        self.assertIn("line 1, column 12: `a` is no variable; expected one of a var line before", str(caught.exception))
        self.assertIsNone(parse(START + "degree auto\nbasis 0: 1").degree)

    def test_status(self) -> None:
        with tempfile.TemporaryDirectory() as place:
            model = Path(place) / "m.gap"
            model.write_text(START + "order 0")
            status, out, err = run("file", model, "-o", Path(place) / "filed")
            self.assertEqual((status, out), (2, ""))
            self.assertIn("m.gap: line 4, column 7: expected an order from 1 to 255", err)
            self.assertFalse((Path(place) / "filed").exists())


class Posing(unittest.TestCase):
    """What the problem has before anything is solved."""

    def test_ranges_are_not_shifted(self) -> None:
        """With a basis by hand 0 stays where it is: a monomial of the model is one of the stream."""
        words = "var a in [0, 40]\nvar b in [-3, 3]\nvar c\nbound a*b + c^2\nwhere c^2 <= a"
        self.assertTrue(any(any(way.middle) for way in poses(parse(words))))
        for way in poses(parse(words + "\nbasis 0: 1 a b c\nbasis 3: 1")):
            self.assertEqual(way.middle, [0, 0, 0])
            self.assertEqual(sorted(way.given), [0, 3])
        halves = [way.half for way in poses(parse(words + "\nbasis 0: 1 a b c"))]
        self.assertEqual(halves[0], [100, 3, 1])                 # a power of ten; a centred range to -1 .. 1

    def test_left_out(self) -> None:
        """Bases of conditions keep to theirs where one before them is left out, and go where their own is."""
        words = "var a b c d in [-1, 1]\nbound a*b*c*d\n" + "".join(f"where a + {k}*b <= {k + 9}\n" for k in range(5))
        model = parse(words + "widen\nbasis 0: 1 a b\nbasis 2: 1\nbasis 7: 1 a\nbasis 9: 1 b")
        given = poses(model, True, (1,))[0].given
        self.assertEqual({j: basis.number for j, basis in given.items()}, {0: 0, 6: 7, 8: 9})

    def test_rule_and_order(self) -> None:
        """The commands stand where FORMAT.md has them: 08 at offset 2, then 09."""
        stream = encode_problem(poses(parse(START + "rule 2\norder 7"))[0].problem)
        self.assertEqual(stream[:6], bytes([1, 2, 8, 2, 9, 7]))
        self.assertEqual(encode_problem(poses(parse(START + "order 7"))[0].problem)[:4], bytes([1, 2, 9, 7]))


def shape(problem: Problem) -> tuple[object, ...]:
    """All of a problem but its objective; bases without their order."""
    return problem.variables, problem.conditions, [set(basis) for basis in problem.bases], problem.rule, problem.order


@needs_programs
class Filing(unittest.TestCase):
    """Two models whose problems stand in the examples, made by another hand; README there tells blocks and bounds."""
    kept: tempfile.TemporaryDirectory[str]

    @classmethod
    def setUpClass(cls) -> None:
        cls.kept = tempfile.TemporaryDirectory()

    @classmethod
    def tearDownClass(cls) -> None:
        cls.kept.cleanup()

    def filed(self, name: str) -> Path:
        folder = Path(self.kept.name) / name
        if not folder.exists():
            status, _, err = run("file", EXAMPLES / f"choices/{name}.gap", "-o", folder, "--answers", RECORDED / name)
            self.assertEqual(status, 0, err)
        return folder

    def test_against_the_examples(self) -> None:
        told: list[tuple[str, int, int, list[Fraction]]] = [
            ("two_decks_rule2", 21, 2, [Fraction(-2665013, 65000), Fraction(-41), Fraction(5899999999, 200000000),
                                        Fraction(1921842, 65000)]),
            ("ring_order1", 11, 1, [Fraction(-1648639, 65000), Fraction(-634090909, 25000000), Fraction(47),
                                    Fraction(3055001, 65000)])]
        for name, blocks, rounds, ends in told:
            with self.subTest(model=name):
                folder = self.filed(name)
                made = read_problem((folder / "problem.bin").read_bytes())
                stored = read_problem((EXAMPLES / name / "problem.bin").read_bytes())
                self.assertEqual(shape(made), shape(stored))
                factor = made.objective[next(iter(stored.objective))] // stored.objective[next(iter(stored.objective))]
                self.assertEqual(made.objective, {e: factor * c for e, c in stored.objective.items()})
                _, said = replay(record("b", (folder / "problem.bin").read_bytes(), b"", b""), judge())
                self.assertTrue(said.startswith(f"blocks {blocks} rounds {rounds} rule {made.rule} "), said[:60])
                streams = [(folder / file).read_bytes() for file in ("problem.bin", "low.bin", "high.bin")]
                answer = check_pair(streams[0], streams[1], streams[2], judge())
                self.assertEqual(answer, (folder / "verdict.txt").read_text().splitlines())
                lines = (folder / "verdict.txt").read_text().split()
                lower, upper = Fraction(lines[1]) / factor, Fraction(lines[3]) / factor
                self.assertTrue(ends[0] <= lower <= ends[1], lower)      # as tight as stored, below what is attained
                self.assertTrue(ends[2] <= upper <= ends[3], upper)
                status, out, _ = run("verify", folder)
                self.assertEqual(status, 0, out)
                self.assertIn("agrees", out)

    def test_the_sheet_says_it(self) -> None:
        text = (self.filed("two_decks_rule2") / "sheet.html").read_text(encoding="utf-8")
        self.assertIn("Of the format the model chooses joining rule 2; bases 0, 1, 2, 3, 4 as the model gives them.",
                      text)
        text = (self.filed("ring_order1") / "sheet.html").read_text(encoding="utf-8")
        self.assertIn("chooses sparse order 1; bases", text)

    @needs_coq
    def test_coq(self) -> None:
        """The theorems know nothing of rules, orders and blocks, and are proved all the same."""
        for name in ("two_decks_rule2", "ring_order1"):
            with self.subTest(model=name), tempfile.TemporaryDirectory() as place:
                folder = Path(place) / "filed"
                shutil.copytree(self.filed(name), folder)
                status, out, err = run("theorem", folder, "--check")
                self.assertEqual(status, 0, out + err)
                self.assertIn("coqc proves figure, gap, model, attained_lower, attained_upper, differ, quoted", out)

    def test_another_choice_is_another_problem(self) -> None:
        """A model that chooses otherwise than problem.bin has it is told, with SUMS made to fit."""
        for name, old, new, said in (
                ("two_decks_rule2", "rule   2", "rule   1", "problem.bin has the rule 2, the model rule 1"),
                ("ring_order1", "order  1", "order  2", "problem.bin has the order 1, the model order 2"),
                ("ring_order1", "order  1\n", "", "problem.bin has the order 1, the model none"),
                ("ring_order1", "order  1", "order  1\nrule 2", "problem.bin has the rule 1, the model rule 2"),
                ("ring_order1", "basis  3: 1 x2 x3", "basis  3: 1 x3 x2", "basis 3 of problem.bin is not the one that "
                                                                         "line 8 of the model gives"),
                ("ring_order1", "basis  0: 1 x1", "basis  0: x1 1", "basis 0 of problem.bin is not the one")):
            with self.subTest(new=new), tempfile.TemporaryDirectory() as place:
                folder = Path(place) / "changed"
                folder.mkdir()
                for file in self.filed(name).iterdir():
                    (folder / file.name).write_bytes(file.read_bytes())
                text = (folder / "model.gap").read_text()
                self.assertIn(old, text)
                (folder / "model.gap").write_text(text.replace(old, new, 1))
                resum(folder)
                status, out, err = run("verify", folder)
                self.assertEqual((status, err), (5, ""))
                self.assertIn(f"DIFFERS: the model, the manifest and problem.bin: {said}", out)

    def test_a_basis_that_is_too_small(self) -> None:
        """What basis 0 lacks is said, and nothing is written. No solver is asked."""
        with tempfile.TemporaryDirectory() as place:
            model = Path(place) / "m.gap"
            model.write_text("var a b in [-1, 1]\nbound a^4 + a*b\nbasis 0: 1 a b\n")
            status, _, err = run("file", model, "-o", Path(place) / "filed", "--answers", place)
            self.assertEqual(status, 3)
            self.assertIn("no lower certificate of degree 2: the objective has a monomial that no product of the bases "
                          "has; add to basis 0 what makes it", err)
            self.assertFalse((Path(place) / "filed").exists())


if __name__ == "__main__":
    unittest.main()
