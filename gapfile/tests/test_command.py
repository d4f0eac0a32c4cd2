"""The command line: statuses, help, decode and encode, check, progress."""
import contextlib
import io
import json
import tempfile
import time
import unittest
from fractions import Fraction
from pathlib import Path

from gapfile import programs
from gapfile.decimals import counted, decimal, digits_for
from gapfile.progress import Progress
from gapfile.tests.support import CASE_F, EXAMPLES, case_f, folder_of, needs_programs, run
from gapfile.text import encode


class Numbers(unittest.TestCase):
    def test_outward(self) -> None:
        third = Fraction(1, 3)
        self.assertEqual((decimal(third, False), decimal(third, True)), ("0.333333", "0.333334"))
        self.assertEqual((decimal(-third, False), decimal(-third, True)), ("-0.333334", "-0.333333"))
        self.assertEqual(decimal(Fraction(-3, 2), False), "-1.5")
        self.assertEqual(decimal(Fraction(-1, 10 ** 9), True), "0")
        self.assertEqual(decimal(Fraction(-1, 10 ** 9), False), "-0.000001")

    def test_digits(self) -> None:
        """Six, and more where the gap is below a thousandth: it keeps at least three digits."""
        for gap, digits in ((Fraction(2), 6), (Fraction(1, 1000), 6), (Fraction(1, 1001), 7), (Fraction(1, 10 ** 6), 9),
                            (Fraction(0), 6)):
            self.assertEqual(digits_for(gap), digits)

    def test_counts(self) -> None:
        self.assertEqual([counted(1, "block"), counted(2048, "key"), counted(0, "row"), counted(2, "sign symmetry")],
                         ["1 block", "2,048 keys", "0 rows", "2 sign symmetries"])


class Usage(unittest.TestCase):
    def test_help(self) -> None:
        for command in ("decode", "encode", "check", "explain", "blocks", "solve", "file", "verify"):
            status, out, _ = run(command, "--help")
            self.assertEqual(status, 0)
            self.assertIn(f"example: gapfile {command} ", out)
            self.assertIn("Exit status: 0 accepted or done, 1 refused, 2 usage", out)

    def test_wrong(self) -> None:
        self.assertEqual(run("nothing")[0], 2)
        status, _, err = run("check", "no_such_folder")
        self.assertEqual((status, err), (2, "gapfile: no_such_folder is no folder; give a folder, three files, or a "
                                            "problem and one certificate\n"))
        self.assertEqual(run("check", "a", "b", "c", "d")[0], 2)
        self.assertEqual(run("decode", "no_such_file")[2], "gapfile: no_such_file: No such file or directory\n")
        self.assertEqual(run("decode", "--names", "a,a", CASE_F / "problem.bin")[0], 2)
        status, _, err = run("decode", "--names", "a,b", EXAMPLES / "two_decks/problem.bin")
        self.assertEqual(status, 2)
        self.assertIn("has 4 variables, --names has 2", err)
        self.assertEqual(run("encode", CASE_F / "low.bin")[0], 2)


class TextForm(unittest.TestCase):
    def test_decode_and_encode(self) -> None:
        with tempfile.TemporaryDirectory() as folder:
            text, binary = Path(folder) / "low.txt", Path(folder) / "low.bin"
            status, out, _ = run("decode", "--problem", CASE_F / "problem.bin", CASE_F / "low.bin")
            self.assertEqual(status, 0)
            self.assertEqual(run("decode", CASE_F / "problem.bin", CASE_F / "low.bin")[1].split("low.bin\n")[1], out)
            text.write_text(out)
            self.assertEqual(run("encode", text)[0], 0)
            self.assertEqual(binary.read_bytes(), (CASE_F / "low.bin").read_bytes())

    def test_wrong_text(self) -> None:
        """What can be written is written, and said to be refused; what can not is named by its line."""
        with tempfile.TemporaryDirectory() as folder:
            text, binary = Path(folder) / "low.txt", Path(folder) / "low.bin"
            text.write_text("# two\nlower 1/1 scale 1\nentry 0 1\ndone\n")
            status, _, err = run("encode", text)
            self.assertEqual(status, 1)
            self.assertIn("it will be refused: line 3: refusal 3: an entry before any row", err)
            binary.unlink()
            text.write_text("lower 1/1 scale 1\nrow\n")
            status, _, err = run("encode", text)
            self.assertEqual((status, err), (2, f"gapfile: {text}: line 2: expected `row BASIS weight NUMBER`\n"))
            self.assertFalse(binary.exists())

    def test_damaged(self) -> None:
        with tempfile.TemporaryDirectory() as folder:
            file = Path(folder) / "cut.bin"
            file.write_bytes(b"\x01\x01\x02")
            status, out, err = run("decode", file)
            self.assertEqual(status, 1)
            self.assertTrue(out.startswith("variables x1\nbytes 02 "), out)
            self.assertIn("refusal 2 at byte 2: the command is cut", err)


@needs_programs
class Check(unittest.TestCase):
    def test_examples(self) -> None:
        status, out, _ = run("check", "--second", EXAMPLES / "two_decks")
        self.assertEqual(status, 0)
        lines = out.splitlines()
        self.assertEqual(lines[:4], (EXAMPLES / "two_decks/expected").read_text().splitlines())
        self.assertEqual(lines[4:7], ["lower  -4700103/50000 = -94.00206", "upper  650039/12500 = 52.00312",
                                      "gap    7300259/50000 = 146.00518"])
        self.assertTrue(lines[7].endswith("agrees"))

    def test_rounded_outward(self) -> None:
        """-1734843/65000 is -26.68989.., 2181117/65000 is 33.55564.., and their distance 60.24553.."""
        lines = run("check", EXAMPLES / "bolted_decks")[1].splitlines()
        self.assertEqual(lines[4:], ["lower  -1734843/65000 = -26.689893 (rounded down)",
                                     "upper  2181117/65000 = 33.555647 (rounded up)",
                                     "gap    97899/1625 = 60.245539 (rounded up)"])

    def test_every_example(self) -> None:
        for folder in sorted(file.parent for file in EXAMPLES.glob("*/problem.bin")):
            lines = run("check", "--second", folder)[1].splitlines()
            self.assertEqual(lines[:4], (folder / "expected").read_text().splitlines())
            self.assertTrue(lines[-1].startswith("second: ") and lines[-1].endswith(" agrees"), lines[-1])

    def test_empty(self) -> None:
        status, out, _ = run("check", EXAMPLES / "contradictory")
        self.assertEqual(status, 0)
        lines = out.splitlines()
        self.assertEqual(lines[:4], ["lower 2/1", "upper -2/1", "gap empty", "rounds 2"])
        self.assertEqual(lines[4:], ["lower  2 = 2", "upper  -2 = -2",
                                     "gap    empty: the bounds cross, so no point meets all the conditions"])

    def test_a_gap_of_0_is_a_gap(self) -> None:
        problem = encode("variables x\nequality\nterm 1 x\nbasis 1 1\nend")[0]
        low, high = [encode(f"{word} 0/1 scale 1\ndone")[0] for word in ("lower", "upper")]
        verdict = programs.gapcheck(problem, low, high)
        self.assertEqual((verdict.lines[2], verdict.empty, verdict.gap), ("gap 0/1", False, 0))

    def test_three_files(self) -> None:
        files = [CASE_F / f"{name}.bin" for name in ("problem", "low", "high")]
        self.assertEqual(run("check", *files)[1].splitlines()[4:], ["lower  -1 = -1", "upper  1 = 1", "gap    2 = 2"])

    def test_one_certificate(self) -> None:
        status, out, _ = run("check", "--second", EXAMPLES / "ex5_5/problem.bin", EXAMPLES / "ex5_5/high.bin")
        self.assertEqual(status, 0)
        self.assertEqual(out.splitlines()[:2], ["check 1 53090/50000 rounds 2 rule 1", "upper  5309/5000 = 1.0618"])
        self.assertIn("agrees", out)

    def test_a_manifest_without_a_model(self) -> None:
        """A factor that cannot be checked makes no figure."""
        with folder_of(*case_f()) as folder:
            (folder / "manifest.json").write_text(json.dumps({"factor": 3}))
            lines = run("check", folder)[1].splitlines()
        self.assertEqual(lines[4:], ["lower  -1 = -1", "upper  1 = 1", "gap    2 = 2",
                                     "there is no model.gap, with which "
                                     "the manifest could be checked: the figures are the stream's"])

    def test_refused(self) -> None:
        status, out, _ = run("check", "--second", CASE_F / "problem.bin", CASE_F / "high.bin", CASE_F / "low.bin")
        self.assertEqual((status, out.splitlines()[0]), (1, "refused 10 1 0 0"))
        self.assertIn("agrees", out)


class Steps(unittest.TestCase):
    def said(self, patience: float, most: float) -> str:
        """What is said of two steps, the first of which goes on until something is said, or for so long."""
        err, start = io.StringIO(), time.monotonic()
        with contextlib.redirect_stderr(err), Progress(patience) as say:
            say("first")
            while not err.getvalue() and time.monotonic() - start < most:
                time.sleep(0.01)
            say("second")
        return err.getvalue()

    def test_only_what_takes_long(self) -> None:
        self.assertEqual(self.said(60, 0), "")
        self.assertRegex(self.said(0.01, 60), r"^gapfile: 0.\d s: first\ngapfile: \d+.\d s: second\n$")


if __name__ == "__main__":
    unittest.main()
