"""`theorem`: figure.v is proved by Coq for every example and a sample of models, and whatever is forged is refused."""
import json
import os
import re
import shutil
import tempfile
import unittest
from dataclasses import replace
from pathlib import Path
from typing import Callable
from unittest import mock

from gapfile import reading
from gapfile.commands import ONE
from gapfile.figures import Figures, filed_figures
from gapfile.problem import encode_problem
from gapfile.programs import ProgramError, gapcheck
from gapfile.tests.support import EXAMPLES, RECORDED, ROOT, needs_programs, run
from gapfile.tests.test_verify import resum, text
from gapfile.text import encode
from gapfile.theorem.checking import ask_coqc, proved
from gapfile.theorem.statements import RULES, figure_file, quoted_in
from gapfile.theorem.streams import read_certificate, read_problem
from gapfile.theorem.words import RESERVED, WordsError, primed, read_model, spelled, words
from gapfile.writing import STREAMS

needs_coq = unittest.skipUnless(shutil.which("coqc"), "coqc is not installed (Debian: coq): nothing is proved again")
needs_csdp = unittest.skipUnless(shutil.which("csdp"), "csdp is not installed (Debian: coinor-csdp)")
ALL = ["figure", "gap", "model", "attained_lower", "attained_upper", "differ", "quoted"]
SAMPLE = {"camel6": "affine (0) (3) x", "circle": "pose proof (figure x y)",          # of examples/models, with a step
          "haverly_7": "follow h'5", "bilinear": "follow (product _ _ _ _ (proj1 h'0) (proj2 h'1))"}
ODD = {                                                      # models that are hard to write in Coq, or hard to follow
    "names": 'title A *) Axiom x : False. (* "b ü\nvar R forall in [−2, 1+2*3]\nvar figure _ in [0.001, .5]\n'
             "bound R*forall/(figure-figure+2) + .5*_ - +R² + 8.9e-5·figure\nwhere R + forall ≤ 5\n"
             "where _ >= figure/(1+2)^2\nwhere R*forall ≥ -100",
    "quotients": "var x y in [0, 2]\nbound x/(x-x+2) + y/(3*y-(2+1)*y-4)\nwhere x*(y-y+1)/(x - x + 1)^2 + y <= 3",
    "widened": "var x y in [-1/7, 3]\nvar mod in [0, 60000]\nbound x*y - 0.001*mod - -x\n"
               "where 0.333333333*x*y + 0.777777771*x^2 <= 5.123456789\nwiden"}


def fitting(edit: Callable[[Path], None]) -> Callable[[Path], None]:
    """An edit with SUMS made to fit."""
    def both(folder: Path) -> None:
        edit(folder)
        resum(folder)
    return both


class Words(unittest.TestCase):
    def test_signs(self) -> None:
        """The same formula, but for what Coq writes otherwise."""
        for said, meant in (("a + +b ≤ −.5·c²", "a + b <= -0.5*c^2"), ("+a == + + b", "a = b"), ("a=b", "a=b"),
                            ("(+a)*-b/ +3", "(a)*-b/ 3"), ("8.9e-5*x¹² ≥ 1E+3", "8.9e-5*x^12 >= 1E+3"),
                            ("R*in1 - forall^2", "R'*in1 - forall'^2"), ("a\u00a0+\tb", "a + b")):
            self.assertEqual(words(said), meant)

    def test_nothing_else_gets_in(self) -> None:
        for said in ("a <= 60. Axiom x", "a (* b", "(*a)", "(a*)", "a *) b", "a := b", "a -> b", 'a "b"', "α", "a;b",
                     "a\\/b", "{a}", "a|b", "a@b", "a%R", "a'", "a <> b", "a.b", "a,b", "[a]", "a~b", "a&b", "1..2",
                     "٣", "a!", "#a", "$a", "`a`", "a ? b"):
            with self.subTest(said=said), self.assertRaises(WordsError):
                words(said)

    def test_model(self) -> None:
        names, given, value = read_model(["var a in1", "where a >= R", "var R in [ 0, 1/2 ]", "bound a*R"])
        self.assertEqual((names, given, value), (["a", "in1", "R'"], ["0 <= R' <= 1/2", "a >= R'"], "a*R'"))

    def test_another_point(self) -> None:
        self.assertEqual(primed("2*a^2 - R' + 8.9e-5*e1"), "2*a'^2 - R'' + 8.9e-5*e1'")

    def test_spelled(self) -> None:
        said = spelled('a *) (* "ü" \u2028 -- b')
        self.assertRegex(said, r"\A[A-Za-z0-9 .,:;=+/_<>-]*\Z")
        self.assertEqual(spelled("Two decks, 1/2"), "Two decks, 1/2")


class Reader(unittest.TestCase):
    def test_every_folder(self) -> None:
        """The reader here, written by itself from the format, says what the other one says."""
        for folder in sorted(file.parent for file in EXAMPLES.rglob("high.bin")):
            if folder.name == "noted":                           # certificates that the office alone reads
                continue
            problem, *certificates = [(folder / name).read_bytes() for name in STREAMS]
            wanted, found = reading.read_problem(problem), read_problem(problem)
            self.assertEqual(dict(found.objective), wanted.objective)
            self.assertEqual([(e, dict(g)) for e, g in found.conditions[1:]],
                             [(c.equality, c.terms) for c in wanted.conditions])
            self.assertEqual([found.bases.get(j, []) for j in range(len(wanted.bases))], wanted.bases)
            for stream in certificates:
                claim, other = read_certificate(stream), reading.read_certificate(stream, wanted)
                self.assertEqual((claim.D, claim.p, claim.q), (other.scale, other.p, other.q))
                for j in range(len(wanted.bases)):
                    self.assertEqual([(w, dict(row)) for w, row in claim.rows.get(j, [])],
                                     [(r.weight, r.entries) for r in other.rows if r.basis == j])


@needs_programs
class Folder(unittest.TestCase):
    """A filed folder, with and without figure.v, and three streams alone."""
    place: tempfile.TemporaryDirectory[str]
    filed: Path
    bare: Path
    quoted: list[str]

    @classmethod
    def setUpClass(cls) -> None:
        cls.place = tempfile.TemporaryDirectory()
        cls.filed, cls.bare = (Path(cls.place.name) / name for name in ("filed", "bare"))
        for arguments in ((cls.filed, "--theorem"), (cls.bare,)):
            status, _, err = run("file", EXAMPLES / "crosstalk.gap", "--answers", RECORDED / "crosstalk", "-o",
                                 *arguments)
            assert status == 0, err
        cls.quoted = quoted_in((cls.filed / "figure.v").read_text())

    @classmethod
    def tearDownClass(cls) -> None:
        cls.place.cleanup()

    def changed(self, source: Path, edit: Callable[[Path], None], command: str = "theorem") -> tuple[int, str]:
        """Status and output on a changed copy, in which nothing is written."""
        with tempfile.TemporaryDirectory() as place:
            folder = Path(place) / "copy"
            shutil.copytree(source, folder)
            edit(folder)
            before = {file.name: file.read_bytes() for file in folder.iterdir()}
            status, out, _ = run(command, folder)
            self.assertEqual({file.name: file.read_bytes() for file in folder.iterdir()}, before)
            return status, out

    def test_listed(self) -> None:
        """`theorem` makes of a filing what `file --theorem` makes at once; sheet and SUMS list it; verify compares."""
        self.assertEqual(proved((self.filed / "figure.v").read_text()), ALL)
        self.assertIn("  figure.v\n", (self.filed / "SUMS").read_text())
        self.assertIn(">figure.v<", (self.filed / "sheet.html").read_text())
        with tempfile.TemporaryDirectory() as place:
            folder = Path(place) / "copy"
            shutil.copytree(self.bare, folder)
            for _ in range(2):                               # the second time there is nothing to write
                status, out, _ = run("theorem", folder)
                self.assertEqual((status, out), (0, f"{folder}/figure.v states {', '.join(ALL)}\n"))
                self.assertEqual({file.name: file.read_bytes() for file in folder.iterdir()},
                                 {file.name: file.read_bytes() for file in self.filed.iterdir()})
        status, out, _ = run("verify", self.filed)
        self.assertEqual(status, 0)
        self.assertIn(f"ok: figure.v quotes {', '.join(self.quoted)}, as the sheet does", out)

    def test_readme(self) -> None:
        """What README says the file ends with."""
        shown = re.search(r"    Theorem quoted : .*\n(?:      .*\n)*", (ROOT / "gapfile/README.md").read_text("utf-8"))
        assert shown
        lines = [line[4:] for line in shown[0].splitlines()]
        self.assertIn("\n".join(lines) + "\nProof.", (self.filed / "figure.v").read_text())

    def test_files_that_disagree(self) -> None:
        """The line says whether it is the sheet, the model, the manifest, the streams or figure.v."""
        def first_byte(folder: Path) -> None:
            data = bytearray((folder / "low.bin").read_bytes())
            data[4] ^= 1
            (folder / "low.bin").write_bytes(data)
        upper = self.quoted[1]
        for edit, status, said in (
                (text("sheet.html", f">{upper}<", f">{upper[:-1]}<"), 5, f"the sheet's upper is {upper[:-1]}"),
                (text("model.gap", "0.1*(b", "0.11*(b"), 5, "the model, the manifest and problem.bin: the objective"),
                (text("manifest.json", '"half": "20"', '"half": "21"'), 5, "the model, the manifest and problem.bin"),
                (first_byte, 1, "refused 9 1 0 0")):
            with self.subTest(said=said):
                found, out = self.changed(self.bare, fitting(edit))
                self.assertEqual(found, status, out)
                self.assertIn(said, out)
                self.assertIn("figure.v is not written, as the files of", out)
        for old, new, said in ((f"<= {upper}.", f"<= {upper[:-1]}.", f"figure.v quotes {self.quoted[0]}, {upper[:-1]}"),
                               ("Proof. lra. Qed.", "Admitted.", "figure.v is not, to the letter")):
            for command in ("verify", "theorem"):
                edit = text("figure.v", old, new)
                found, out = self.changed(self.filed, fitting(edit), command)
                self.assertEqual(found, 5)
                self.assertIn(f"DIFFERS: {said}", out)

    def test_streams_alone(self) -> None:
        for name, theorems in (("two_decks", ["figure", "gap"]), ("contradictory", ["figure", "gap"])):
            with tempfile.TemporaryDirectory() as place:
                folder = shutil.copytree(EXAMPLES / name, Path(place) / name)
                self.assertEqual(run("theorem", folder)[0], 0)
                made = (folder / "figure.v").read_text()
                self.assertEqual((proved(made), quoted_in(made)), (theorems, []))
                self.assertEqual("  False.\n" in made, name == "contradictory")
                (folder / "figure.v").unlink()
                (folder / "low.bin").write_bytes((folder / "high.bin").read_bytes())
                self.assertEqual(run("theorem", folder)[:2], (1, "refused 10 1 0 0\n"))
                self.assertFalse((folder / "figure.v").exists())
        self.assertEqual(run("theorem", "/nowhere")[0], 2)

    def test_coqc(self) -> None:
        """What is no answer is named, and only the axioms of the real numbers will do."""
        said = "Axioms:\nClassicalDedekindReals.sig_forall_dec\n  : forall P : nat"
        with tempfile.TemporaryDirectory() as place:
            coqc = Path(place) / "coqc"
            for script, wanted in ((f"printf '{said}'", True), (f"printf '{said}\nx : False'", False), ("true", False),
                                   ("printf 'x : False'", False), ("printf 'line 9: Error: no.'; exit 1", False),
                                   ("sleep 9", None), ("kill -9 $$", None)):
                coqc.write_text(f"#!/bin/sh\n{script}\n")
                coqc.chmod(0o755)
                with self.subTest(script=script), mock.patch.dict(os.environ, COQC=str(coqc)):
                    if wanted is None:
                        self.assertRaises(ProgramError, ask_coqc, "", 1.0)
                    else:
                        self.assertEqual(ask_coqc("").proved, wanted)
                        status, out, _ = run("theorem", "--check", self.filed)
                        self.assertEqual(status, 0 if wanted else 1, out)
            with mock.patch.dict(os.environ, COQC=str(Path(place) / "none")):
                self.assertEqual(run("theorem", "--check", self.filed)[0], 2)


@needs_coq
@needs_programs
class Proved(unittest.TestCase):
    """Coq itself."""
    def holds(self, model: Path, *more: object) -> str:
        """Files a model and has its theorems proved."""
        with tempfile.TemporaryDirectory() as place:
            folder = Path(place) / "filed"
            status, _, err = run("file", model, "-o", folder, "--theorem", *more)
            self.assertEqual(status, 0, err)
            status, out, err = run("theorem", folder, "--check")
            self.assertEqual(status, 0, out + err)
            self.assertIn("coqc proves figure, gap, model, ", out)
            return (folder / "figure.v").read_text()

    def test_recorded(self) -> None:
        for name in ("chained_wood", "two_decks"):
            with self.subTest(name=name):
                self.holds(EXAMPLES / f"{name}.gap", "--answers", RECORDED / name)

    @needs_csdp
    def test_examples(self) -> None:
        """All other examples, of which one has bounds that cross."""
        for model in sorted(EXAMPLES.glob("*.gap")):
            if not (RECORDED / model.stem).is_dir():
                with self.subTest(model=model.stem):
                    made = self.holds(model)
                    self.assertEqual("Theorem differ" in made, model.stem != "contradictory")

    @needs_csdp
    def test_odd_models(self) -> None:
        for name, words in ODD.items():
            with self.subTest(model=name), tempfile.TemporaryDirectory() as place:
                (Path(place) / "m.gap").write_text(words)
                made = self.holds(Path(place) / "m.gap")
                self.assertIn({"names": "product _ _ _ _", "quotients": "numbers.", "widened": "within _ _ _ _"}[name],
                              made.partition("Theorem model")[2])

    @needs_csdp
    def test_a_sample(self) -> None:
        """Mapped variables and others, no range, conditions of degree 2, products of two ranges."""
        for name, step in SAMPLE.items():
            with self.subTest(model=name):
                self.assertIn(step, self.holds(EXAMPLES / "models" / f"{name}.gap"))

    def test_one_side(self) -> None:
        """A stream that has of an equality and of a range one side each."""
        x, y = (1,) + (0,) * 7, (0, 1) + (0,) * 6
        sent = reading.Problem(2, {x: 1, y: -1}, [reading.Condition(False, {x: 1, y: -1}), reading.Condition(False, {
            x: -1, y: 1}), reading.Condition(False, {ONE: 1, y: -1})], [[], [ONE], [ONE], []])
        streams = [encode_problem(sent)] + [encode(f"{side} 0/1 scale 1\nrow {j} weight 1\nentry 0 1\ndone\n")[0]
                                            for side, j in (("lower", 1), ("upper", 2))]
        manifest = {"factor": 1, "sides": [{"relaxation": "0"}] * 2, "variables": [
            {"name": name, "in the stream": name, "middle": "0", "half": "1"} for name in "xy"]}
        figures = filed_figures(streams, gapcheck(*streams), json.dumps(manifest).encode(),
                                b"var x y in [0, 1]\nwhere 2*x == 2*y\nbound x - y")
        made = figure_file(streams, figures)
        for step in ("follow h'2)).", "follow (proj2 h'1)))."):
            self.assertIn(step, made)
        self.assertTrue(ask_coqc(made).proved)

    def test_streams_alone(self) -> None:
        for name in ("contradictory", "two_decks_wide"):
            streams = [(EXAMPLES / name / file).read_bytes() for file in STREAMS]
            self.assertTrue(ask_coqc(figure_file(streams, None)).proved)

    def test_names(self) -> None:
        """Every name of one letter, what this file and Coq use, and other words, as the name of a variable."""
        letters = [chr(c) for c in (*range(65, 91), *range(97, 123))]
        tried = [*letters, *sorted(RESERVED), "__", "_1", "x_", "lra", "Proof", "Qed", "pow", "IZR", "sound", "all",
                 "PI", "value", "intros", "nat", "True", "pair", "fst", "eq", "not", "Inductive", "Import", "Section"]
        lines = [f"Goal forall {x} : R, 0 <= {x} <= 1 -> 2*{x} - 1 <= 1. Proof. intros. lra. Qed."
                 for x in map(words, tried)]
        self.assertIn("no list of axioms", ask_coqc("\n".join([RULES.read_text("utf-8"), *lines])).line)


@needs_coq
@needs_programs
class Forged(unittest.TestCase):
    """Whatever is changed in what figure.v is made from, Coq refuses it, at the theorem that became false."""
    streams: list[bytes]
    figures: Figures

    @classmethod
    def setUpClass(cls) -> None:
        with tempfile.TemporaryDirectory() as place:
            folder = Path(place) / "filed"
            assert run("file", EXAMPLES / "crosstalk.gap", "-o", folder, "--answers", RECORDED / "crosstalk")[0] == 0
            cls.streams = [(folder / name).read_bytes() for name in STREAMS]
            found = filed_figures(cls.streams, gapcheck(*cls.streams), (folder / "manifest.json").read_bytes(),
                                  (folder / "model.gap").read_bytes())
            assert found
            cls.figures = found

    def refused(self, at: str, made: str) -> None:
        answer = ask_coqc(made)
        self.assertFalse(answer.proved)
        self.assertIn(f"coqc refuses figure.v: at {at}: ", answer.line)

    def test_nothing_changed(self) -> None:
        self.assertTrue(ask_coqc(figure_file(self.streams, self.figures)).proved)

    def test_decimals(self) -> None:
        """The last digit of each figure of the sheet, turned inward."""
        made = figure_file(self.streams, self.figures)
        lower, upper, gap = quoted_in(made)
        for at, old in (("quoted", f"  {lower} <= "), ("quoted", f" <= {upper}.\n"), ("differ", f" <= {gap}.\n")):
            digits = re.search(r"[0-9]+(?=( <= |\.\n)$)", old)
            assert digits and int(digits[0]) > 0
            less = str(int(digits[0]) - 1).zfill(len(digits[0]))
            with self.subTest(old=old):
                self.assertEqual(made.count(old), 1)
                self.refused(at, made.replace(old, old.replace(digits[0], less)))

    def test_model(self) -> None:
        """The words of the model: the polynomial, a range, a condition, an equality."""
        for old, new in (("0.1*(b", "0.11*(b"), ("[0, 40]", "[0, 41]"), ("<= 60", "<= 61.5"), ("a == 2*b", "a >= 2*b"),
                         ("a == 2*b", "a == 3*b")):
            written = [line.replace(old, new) for line in self.figures.model.written]
            self.assertNotEqual(written, self.figures.model.written)
            with self.subTest(new=new):
                self.refused("model", figure_file(self.streams, replace(self.figures, model=replace(
                    self.figures.model, written=written))))

    def test_manifest(self) -> None:
        """The factor, the map of a variable, the value that is attained."""
        figures, first = self.figures, self.figures.variables[0]
        reached = figures.reached[1]
        assert reached
        for at, forged in (("model", replace(figures, factor=2 * figures.factor)),
                           ("model", replace(figures, variables=[replace(first, half=first.half + 1),
                                                                 *figures.variables[1:]])),
                           ("attained_upper", replace(figures, reached=[figures.reached[0], replace(
                               reached, value=reached.value + 1)]))):
            with self.subTest(at=at):
                self.refused(at, figure_file(self.streams, forged))

    def test_streams(self) -> None:
        """A coefficient of the objective, a bound, and a row of negative weight on an inequality."""
        def byte(number: int, place: int, new: int) -> list[bytes]:
            out = [bytearray(stream) for stream in self.streams]
            out[number][place] = new
            return [bytes(stream) for stream in out]
        self.refused("low_ok", figure_file(byte(0, 11, self.streams[0][11] ^ 1), None))
        self.refused("low_ok", figure_file(byte(1, 4, self.streams[1][4] ^ 1), None))
        low = self.streams[1]
        assert low[10] == 0x11
        # rows without entries, of which the first has a weight that an inequality must not have
        more = low[:-1] + b"\x14" + low[11:12] + b"\xff\xff" + b"\x11" + low[11:12] + b"\x01\x00" + low[-1:]
        self.refused("low_ok", figure_file([self.streams[0], more, self.streams[2]], None))


if __name__ == "__main__":
    unittest.main()
