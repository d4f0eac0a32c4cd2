"""`verify`: a filing holds, and whatever is changed in it is named, also where SUMS was made to fit."""
import hashlib
import json
import shutil
import tempfile
import unittest
from fractions import Fraction
from pathlib import Path
from typing import Callable
from unittest import mock

from gapfile import verifying
from gapfile.commands import ONE
from gapfile.model import parse
from gapfile.problem import encode_problem
from gapfile.programs import ProgramError
from gapfile.reading import Condition, Problem, read_problem
from gapfile.restating import Mismatch, Restated, Scaled, follows, restate
from gapfile.tests.support import EXAMPLES, RECORDED, needs_programs, run


def resum(folder: Path) -> None:
    """Makes SUMS fit the files."""
    lines = (folder / "SUMS").read_text().splitlines()
    names = [line.split("  ")[1] for line in lines if not line.startswith("#")]
    (folder / "SUMS").write_text("".join([lines[0] + "\n"] + [
        f"{hashlib.sha256((folder / name).read_bytes()).hexdigest()}  {name}\n" for name in names]))


def text(name: str, old: str, new: str) -> Callable[[Path], None]:
    """An edit of a text file of the folder."""
    def edit(folder: Path) -> None:
        before = (folder / name).read_text(encoding="utf-8")
        assert old in before, (name, old)
        (folder / name).write_text(before.replace(old, new, 1), encoding="utf-8")
    return edit


@needs_programs
class Filed(unittest.TestCase):
    kept: tempfile.TemporaryDirectory[str]
    filed: Path

    @classmethod
    def setUpClass(cls) -> None:
        cls.kept = tempfile.TemporaryDirectory()
        cls.filed = Path(cls.kept.name) / "filed"
        status, _, err = run("file", EXAMPLES / "crosstalk.gap", "-o", cls.filed, "--answers", RECORDED / "crosstalk")
        assert status == 0, err

    @classmethod
    def tearDownClass(cls) -> None:
        cls.kept.cleanup()

    def changed(self, edit: Callable[[Path], None], sums: bool = True) -> tuple[int, str]:
        """The status and what `verify` says after an edit."""
        with tempfile.TemporaryDirectory() as place:
            folder = Path(place) / "changed"
            shutil.copytree(self.filed, folder)
            edit(folder)
            if sums:
                resum(folder)
            status, out, err = run("verify", folder)
            self.assertEqual(err, "")
            return status, out

    def differs(self, edit: Callable[[Path], None], said: str, sums: bool = True, status: int = 5) -> None:
        found, out = self.changed(edit, sums)
        self.assertEqual(found, status, out)
        self.assertIn(f"DIFFERS: {said}", out)
        self.assertNotIn("all of it holds", out)

    def test_holds(self) -> None:
        status, out, _ = run("verify", self.filed)
        self.assertEqual(status, 0)
        lines = out.splitlines()
        self.assertEqual(lines[-3:], ["  at least -0.00007407", "  at most 250440.00025",
                                      "  two values differ by at most 250440.00032407"])
        self.assertTrue(all(line.startswith("ok: ") for line in lines[:-4]))
        for said in ("ok: the hashes of 9 files are those of SUMS", "accepts the three streams", "agrees",
                     "ok: problem.bin is the model's problem, byte for byte: its polynomial is 2000 times the model's, "
                     "and a = 20 + 20*u1, b = 20 + 20*u2", "ok: the sheet's lower: −0.00007407",
                     "ok: 250440 is attained, near the upper bound", "ok: the sheet is, to the letter"):
            self.assertIn(said, out)

    def test_every_file(self) -> None:
        """A byte changed in any file is seen by the hash, and one that is missing or too many is named."""
        for file in sorted(self.filed.iterdir()):
            if file.name != "SUMS":
                def edit(folder: Path, name: str = file.name) -> None:
                    data = bytearray((folder / name).read_bytes())
                    data[len(data) // 2] ^= 1
                    (folder / name).write_bytes(data)
                found, out = self.changed(edit, False)
                self.assertIn(f"DIFFERS: {file.name} does not have the hash that SUMS has", out)
                self.assertIn(found, (1, 5))
            if file.name not in ("problem.bin", "low.bin", "high.bin"):
                def remove(folder: Path, name: str = file.name) -> None:
                    (folder / name).unlink()
                self.differs(remove, f"missing: {file.name}", False)
        self.differs(lambda folder: (folder / "more.txt").touch(), "more.txt is not in SUMS", False)
        self.differs(text("SUMS", "# ", ""), "SUMS has a line that is no sum", False)

    def test_links(self) -> None:
        def edit(folder: Path) -> None:
            (folder / "sheet.html").rename(folder.parent / "elsewhere")
            (folder / "sheet.html").symlink_to(folder.parent / "elsewhere")
        self.differs(edit, "sheet.html is no plain file", False)

    def test_the_sheet(self) -> None:
        """Figures, words and hashes of the sheet, with SUMS made to fit."""
        for old, new, said in (("−0.00007407<", "−0.00007406<", "the sheet's lower is −0.00007406, where −0.00007407"),
                               ("250440.00025<", "250440.00024<", "the sheet's upper is 250440.00024"),
                               ("250440.00032407<", "250440.00032<", "the sheet's gap is 250440.00032"),
                               (">-7407/100000000<", ">-7406/100000000<", "the sheet's lower exact"),
                               ('off by">0.00025<', 'off by">0.00002<', "the sheet's upper off by"),
                               ("At every point", "At almost every point", "the sheet is not, to the letter"),
                               ("a + b &lt;= 60", "a + b &lt;= 70", "the sheet is not, to the letter"),
                               ("</body>", '<b data-figure="lower">1</b></body>', "the sheet's lower is")):
            self.differs(text("sheet.html", old, new), said)

    def test_the_manifest(self) -> None:
        """The factor, the map of variables, the bounds and the points, with SUMS made to fit."""
        for old, new, said in (('"factor": 2000', '"factor": 200000', "the model, the manifest and problem.bin: the "
                                "objective of problem.bin is not the model's polynomial times the recorded factor"),
                               ('"factor": 2000', '"factor": 3',
                                "the model, the manifest and problem.bin: the objective"),
                               ('"middle": "20"', '"middle": "21"', "the model, the manifest and problem.bin: "),
                               ('"half": "20"', '"half": "10"', "the model, the manifest and problem.bin: "),
                               ('"name": "a"', '"name": "c"',
                                "the model, the manifest and problem.bin: the variables are c, b"),
                               ('"filed": "-7407/100000000"', '"filed": "-1/100000000"',
                                "the manifest has -1/100000000"),
                               ('"value": "250440"', '"value": "250441"', "the manifest's point near the upper bound"),
                               ('"factor": 2000', '"factor": "x"', "manifest.json: factor is no whole number"),
                               ('"gapfile": "', '"gapfile": "9.', "the sheet is not, to the letter")):
            with self.subTest(new=new):
                self.differs(text("manifest.json", old, new), said)

    def test_the_model(self) -> None:
        """Another model: polynomial, range, condition, equality; or none."""
        for old, new in (("0.1*(b", "0.2*(b"), ("[0, 40]", "[0, 41]"), ("a + b <= 60", "a + b <= 61"),
                         ("a + b <= 60", "a + b >= 60"), ("a == 2*b", "a <= 2*b"), ("a == 2*b", "a == 3*b"),
                         ("var    a b", "var    b a"), ("bound", "bond")):
            with self.subTest(new=new):
                self.differs(text("model.gap", old, new), "")
        found, out = self.changed(text("model.gap", "where  a + b <= 60\n", ""))
        self.assertIn("condition 3 of problem.bin, 1 - u1 - u2 >= 0, does not follow from the model's", out)
        self.assertEqual(found, 5)

    def test_a_model_with_more_conditions(self) -> None:
        """The stream's region is larger than the model's: the bounds hold, and it is said which conditions are missing;
        the sheet says so as well, so the old one differs."""
        found, out = self.changed(text("model.gap", "where  a + b", "where  a*b <= 500\nwhere  a + b"))
        self.assertIn("ok: left out, so that the region is larger and the bounds hold all the more: a*b <= 500", out)
        self.assertIn("DIFFERS: the manifest's point near the upper bound", out)       # 40 x 20 is above 500
        self.assertEqual(found, 5)

    def test_refused(self) -> None:
        """A stream that gapcheck refuses: status 1, whatever else differs."""
        def edit(folder: Path) -> None:
            data = bytearray((folder / "low.bin").read_bytes())
            data[4] ^= 1
            (folder / "low.bin").write_bytes(data)
        self.differs(edit, "gapcheck (target/bin/gapcheck", status=1)
        self.differs(edit, "low.bin does not have the hash", False, 1)

    def test_the_second_implementation_disagrees(self) -> None:
        with mock.patch.object(verifying, "second_opinion", lambda *_: (False, "second: the reference DISAGREES: no")):
            status, out, _ = run("verify", self.filed)
        self.assertEqual(status, 4)
        self.assertIn("DIFFERS: second: the reference DISAGREES", out)

    def test_without_replay(self) -> None:
        """The picture is then made from the plain check's blocks, and is the same."""
        with mock.patch.object(verifying, "blocks_call", mock.Mock(side_effect=ProgramError("replay is not built"))):
            self.assertEqual(run("verify", self.filed)[0], 0)

    def test_no_folder(self) -> None:
        self.assertEqual(run("verify", "/nowhere")[0], 2)

    def test_check_with_another_factor(self) -> None:
        """A changed factor in the manifest never makes another figure."""
        with tempfile.TemporaryDirectory() as place:
            folder = Path(place) / "changed"
            shutil.copytree(self.filed, folder)
            text("manifest.json", '"factor": 2000', '"factor": 200000')(folder)
            status, out, err = run("check", folder)
        self.assertEqual((status, out), (5, ""))
        self.assertIn("is not the model's polynomial times the recorded factor", err)

    def test_json(self) -> None:
        data = json.loads(run("verify", "--json", self.filed)[1])
        self.assertEqual((data["holds"], data["status"]), (True, 0))


def monomial(*exponents: int) -> tuple[int, ...]:
    return exponents + (0,) * (8 - len(exponents))


class Restating(unittest.TestCase):
    """Which conditions follow from a model's."""
    model = parse("var x y in [0, 2]\nbound x + y\nwhere x + y <= 3\nwhere 3*x >= y\nwhere x*y == 1")
    unit = [Scaled("x", "u1", Fraction(1), Fraction(1)), Scaled("y", "u2", Fraction(1), Fraction(1))]

    def restated(self, *conditions: Condition) -> Restated:
        sent = Problem(2, {monomial(1): 1, monomial(0, 1): 1, ONE: 2}, list(conditions))
        return restate(self.model, self.unit, 1, sent)

    def test_exactly(self) -> None:
        """x + y <= 3 is 1 - u1 - u2 >= 0; the range is 1 - u^2 >= 0; the equality u1 + u2 + u1 u2 = 0."""
        made = self.restated(Condition(False, {ONE: 1, monomial(2): -1}),
                             Condition(False, {ONE: 1, monomial(1): -1, monomial(0, 1): -1}),
                             Condition(True, {monomial(1): 1, monomial(0, 1): 1, monomial(1, 1): 1}))
        self.assertEqual(made.origins, ["x in [0, 2]", "x + y <= 3", "x*y == 1"])
        self.assertEqual((made.left_out, made.widened), (["y in [0, 2]", "3*x >= y"], []))
        self.assertEqual(read_problem(encode_problem(made.problem)).conditions, made.problem.conditions)

    def test_products(self) -> None:
        """(1 + u1)(1 - u2), the lower end of x with the upper end of y; (1 + u1)(1 - u1 - u2)."""
        made = self.restated(Condition(False, {ONE: 1, monomial(1): 1, monomial(0, 1): -1, monomial(1, 1): -1}),
                             Condition(False, {ONE: 1, monomial(0, 1): -1, monomial(2): -1, monomial(1, 1): -1}))
        self.assertEqual(made.origins, ["x in [0, 2], times y in [0, 2]", "x in [0, 2], times x + y <= 3"])

    def test_one_side(self) -> None:
        """1 + u1 >= 0, the lower end of x; minus the equality; the square of 1 - u1 - u2."""
        made = self.restated(Condition(False, {ONE: 1, monomial(1): 1}),
                             Condition(False, {monomial(1): -1, monomial(0, 1): -1, monomial(1, 1): -1}),
                             Condition(False, {ONE: 1, monomial(1): -2, monomial(0, 1): -2, monomial(2): 1,
                                               monomial(1, 1): 2, monomial(0, 2): 1}))
        self.assertEqual(made.origins, ["one side of x in [0, 2]", "one side of x*y == 1",
                                        "x + y <= 3, times x + y <= 3"])

    def test_what_does_not_follow(self) -> None:
        for condition in (Condition(False, {ONE: -1, monomial(1): 1, monomial(0, 1): 1}),         # x + y >= 3
                          Condition(False, {ONE: 9, monomial(1): -10, monomial(0, 1): -10}),      # a smaller constant
                          Condition(True, {ONE: 1, monomial(1): -1, monomial(0, 1): -1}),         # an equality
                          Condition(True, {ONE: 1, monomial(2): -1}),
                          Condition(False, {ONE: -1, monomial(1): 1, monomial(0, 1): 1, monomial(1, 1): -1})):
            with self.assertRaises(Mismatch):
                self.restated(condition)

    def test_widened(self) -> None:
        """A larger constant, and coefficients that are off by no more than it pays for."""
        made = self.restated(Condition(False, {ONE: 11, monomial(1): -10, monomial(0, 1): -10}))
        self.assertEqual(made.widened, ["x + y <= 3"])
        one = [Fraction(1)] * 8
        source = {ONE: Fraction(100), monomial(1): Fraction(-100), monomial(0, 1): Fraction(-100)}
        for constant, holds in ((101, True), (100, False), (99, False)):
            off = {ONE: Fraction(constant), monomial(1): Fraction(-101), monomial(0, 1): Fraction(-100)}
            self.assertEqual(follows(off, source, list(one)), holds, constant)
        self.assertFalse(follows({ONE: Fraction(9), monomial(1): Fraction(-1)}, {monomial(1): Fraction(1)}, [None] * 8))

    def test_what_follows_holds(self) -> None:
        """At points of the model's region, all that `follows` accepts is at least 0."""
        source = {ONE: Fraction(3), monomial(1): Fraction(-2), monomial(0, 1): Fraction(-3)}
        points = [(Fraction(a, 7), Fraction(b, 7)) for a in range(-7, 8) for b in range(-7, 8)]
        inside = [(x, y) for x, y in points if 3 - 2 * x - 3 * y >= 0]
        accepted = 0
        for c in range(-4, 9):
            for p in range(-6, 3):
                for q in range(-6, 3):
                    made = {ONE: Fraction(c), monomial(1): Fraction(p), monomial(0, 1): Fraction(q)}
                    if follows({e: v for e, v in made.items() if v}, source, [Fraction(1)] * 8):
                        accepted += 1
                        self.assertTrue(all(c + p * x + q * y >= 0 for x, y in inside), made)
        self.assertGreater(accepted, 20)

    def test_other_variables_and_objectives(self) -> None:
        sent = Problem(2, {monomial(1): 1})
        for variables, factor in ((self.unit[::-1], 1), (self.unit[:1], 1)):
            with self.assertRaises(Mismatch):
                restate(self.model, variables, factor, sent)
        thirds = parse("var x\nbound x/3")
        with self.assertRaises(Mismatch):
            restate(thirds, [Scaled("x", "x", Fraction(0), Fraction(1))], 2, Problem(1))


if __name__ == "__main__":
    unittest.main()
