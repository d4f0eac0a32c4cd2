"""csdp as an untrusted program: answers that are cut, empty, out of range or not finite; killed, late, missing; and
recorded answers that are none. Nothing of it is more than a sentence."""
import os
import shutil
import tempfile
import unittest
from pathlib import Path
from unittest import mock

from gapfile.solver import (STATUS, USABLE, Answer, Cost, Csdp, NoSolver, Recorded, Unreadable, answer_name,
                            kept_lines, read_answer, sparse_format)
from gapfile.tests.support import EXAMPLES, RECORDED, needs_programs, run
from gapfile.tests.test_statuses import script

SIZES, COUNT = [2, 1], 3
GOOD = "1 2.5 -3e-2\n2 1 1 1 4\n2 1 1 2 -0.5\n2 2 1 1 1e-9\n"


class Reading(unittest.TestCase):
    def test_good(self) -> None:
        answer = read_answer(0, GOOD, SIZES, COUNT)
        self.assertEqual(answer, Answer(0, [[[4.0, -0.5], [-0.5, 0.0]], [[1e-9]]], [1.0, 2.5, -0.03]))
        self.assertEqual(kept_lines("1 2\n1 1 1 1 7\n2 1 1 1 4\n"), "1 2\n2 1 1 1 4\n")

    def test_damaged(self) -> None:
        for text, said in (("", "there is nothing in it"), (GOOD[:-1], "the last line is cut"), (GOOD[:20], "cut"),
                           ("1 2\n", "line 1: 2 values, where the program has 3 equations"), ("\n", "0 values"),
                           (GOOD.replace("2.5", "nan"), "line 1: 'nan' is no finite number"),
                           (GOOD.replace("2.5", "-inf"), "line 1: '-inf' is no finite number"),
                           (GOOD.replace("2.5", "1e999"), "line 1: '1e999' is no finite number"),
                           (GOOD.replace("-0.5", "inf"), "line 3: 'inf' is no finite number"),
                           (GOOD.replace("-0.5", "word"), "line 3: 'word' is no finite number"),
                           (GOOD.replace("2 2 1 1", "2 3 1 1"), "line 4: the program has no entry 3 1 1"),
                           (GOOD.replace("2 2 1 1", "2 0 1 1"), "line 4: the program has no entry 0 1 1"),
                           (GOOD.replace("2 1 1 2", "2 1 1 3"), "line 3: the program has no entry 1 1 3"),
                           (GOOD.replace("2 1 1 2", "2 1 -1 2"), "line 3: '2 1 -1 2 -0.5' is no entry"),
                           (GOOD.replace("2 1 1 2", "2 1 2"), "is no entry of a matrix"),
                           (GOOD.replace("2 1 1 2", "2 1 1 2 2"), "is no entry of a matrix"),
                           (GOOD.replace("2 1 1 2", "2 1 1 ²"), "is no entry of a matrix")):
            with self.subTest(text=text), self.assertRaises(Unreadable) as caught:
                read_answer(0, text, SIZES, COUNT)
            self.assertIn(said, str(caught.exception))

    def test_every_cut(self) -> None:
        """Cut anywhere, it is unreadable, or the entries that are there, at the end of a line."""
        for length in range(len(GOOD)):
            try:
                self.assertEqual(len(read_answer(0, GOOD[:length], SIZES, COUNT).dual), COUNT)
                self.assertEqual(GOOD[length - 1], "\n")
            except Unreadable:
                pass

    def test_no_answer_is_needed(self) -> None:
        """Where csdp says that there is none, what it writes is not looked at."""
        for status in set(STATUS) - set(USABLE):
            self.assertEqual(read_answer(status, "nonsense", SIZES, COUNT).dual, [0.0] * COUNT)


Program = tuple[list[int], Cost, list[Cost], list[float]]
PROGRAM: Program = ([1], {(0, 0, 0): -1.0}, [{(0, 0, 0): 1.0}], [1.0])


class Running(unittest.TestCase):
    def setUp(self) -> None:
        self.kept = tempfile.TemporaryDirectory()
        self.addCleanup(self.kept.cleanup)
        self.place = Path(self.kept.name)
        changed = mock.patch.dict(os.environ, {"PATH": f"{self.place}:{os.environ['PATH']}"})
        changed.start()
        self.addCleanup(changed.stop)

    def answered(self, lines: str, seconds: float = 60) -> int:
        script(self.place, "csdp", lines)
        return Csdp(seconds=seconds).solve(*PROGRAM).status

    def test_what_csdp_may_do(self) -> None:
        good = "printf '1\\n2 1 1 1 1\\n' >solution"
        self.assertEqual(self.answered(good), 0)
        self.assertEqual(self.answered(f"{good}; exit 3"), 3)
        self.assertEqual(self.answered(f"{good}; exit 200"), 10)
        self.assertEqual(self.answered("exit 1"), 1)
        for lines in ("true", "touch solution", "printf '1\\n2 1 1 1 nan\\n' >solution",
                      "printf '1\\n2 9 1 1 1\\n' >solution",
                      "printf '1\\n2 1 1' >solution", "printf '\\377\\376\\n' >solution",
                      "head -c 9999 /dev/zero >solution"):
            self.assertEqual(STATUS[self.answered(lines)], "csdp wrote an answer that cannot be read", lines)
        self.assertEqual(STATUS[self.answered(f"{good}; kill -9 $$")], "csdp was killed by a signal")
        self.assertEqual(STATUS[self.answered("exec sleep 60", 0.2)], "csdp did not answer in time")

    def test_the_time_is_for_all(self) -> None:
        script(self.place, "csdp", "exec sleep 60")
        solver = Csdp(seconds=0.2)
        self.assertEqual([solver.solve(*PROGRAM).status for _ in range(3)], [13, 13, 13])

    def test_gone_in_the_middle(self) -> None:
        file = script(self.place, "csdp", "exit 1")
        with mock.patch.dict(os.environ, {"PATH": str(self.place)}):
            solver = Csdp()
            file.unlink()
            with self.assertRaises(NoSolver) as caught:
                solver.solve(*PROGRAM)
            self.assertIn("csdp cannot be run any more", str(caught.exception))
            with self.assertRaises(NoSolver):
                Csdp()

    def test_recorded(self) -> None:
        """What is unreadable is not recorded; what is, is read again."""
        script(self.place, "csdp", "printf '1\\n2 1 1 1 7\\n' >solution")
        kept = self.place / "answers"
        first = Csdp(kept).solve(*PROGRAM)
        self.assertEqual(Recorded(kept).solve(*PROGRAM), first)
        script(self.place, "csdp", "touch solution")
        Csdp(self.place / "none").solve(*PROGRAM)
        self.assertFalse((self.place / "none").exists())

    @needs_programs
    def test_the_command(self) -> None:
        """Each way to fail ends with a line, status 3 (no certificate) or 2 (no solver), and nothing is written."""
        for lines, status, said in (
                ("touch solution", 3, "csdp wrote an answer that cannot be read"),
                ("kill -9 $$", 3, "csdp was killed by a signal"),
                ("[ $# = 0 ] && exit; exec sleep 60", 3, "csdp did not answer in time"),
                ("[ $# = 0 ] && exit; rm \"$0\"; exit 2", 2, "")):
            script(self.place, "csdp", lines)
            path = f"{self.place}:/bin:/usr/bin" if status == 3 else str(self.place)
            with mock.patch.dict(os.environ, {"PATH": path}):
                if status == 2:
                    (self.place / "rm").symlink_to(shutil.which("rm", path="/bin:/usr/bin") or "")
                found, _, err = run("file", EXAMPLES / "crosstalk.gap", "-o", self.place / "filed", "--time", "0.5")
            self.assertEqual(found, status, err)
            self.assertIn(said, err)
            self.assertFalse((self.place / "filed").exists())


@needs_programs
class RecordedAnswers(unittest.TestCase):
    def test_damaged(self) -> None:
        """A recorded answer of 0 bytes, or cut, or of another program: the file is named, and what is wrong with it."""
        program: Program = ([1], {}, [{(0, 0, 0): 1.0}], [1.0])
        with tempfile.TemporaryDirectory() as place:
            file = Path(place) / answer_name(sparse_format(*program))
            for data, said in ((b"", "begins with '', not with a status"), (b"status 77\n", "not with a status"),
                               (b"status 0\n", "there is nothing in it"),
                               (b"status 0\n1 2\n", "2 values, where the program"),
                               (b"status 0\n1\n2 1 1 1 nan\n", "no finite number"), (b"\xff\xfe", "not with a status")):
                file.write_bytes(data)
                with self.assertRaises(NoSolver) as caught:
                    Recorded(Path(place)).solve(*program)
                self.assertIn(said, str(caught.exception))
                self.assertIn(file.name, str(caught.exception))

    def test_the_command(self) -> None:
        with tempfile.TemporaryDirectory() as place:
            answers = Path(place) / "answers"
            shutil.copytree(RECORDED / "crosstalk", answers)
            for file in answers.iterdir():
                file.write_bytes(b"")
            status, _, err = run("file", EXAMPLES / "crosstalk.gap", "-o", Path(place) / "filed", "--answers", answers)
            self.assertEqual((status, err.count("\n")), (2, 1))
            self.assertIn("is no recorded answer", err)


if __name__ == "__main__":
    unittest.main()
