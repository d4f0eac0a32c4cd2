"""`gapfile tighter`: the certificate that comes back, why, and what is refused; answers of the reference."""
import json
import os
import tempfile
import unittest
from pathlib import Path

from gapfile.tests.support import (CASE_F, EXAMPLES, by_reference, case_f, needs_programs, needs_reference, run,
                                   streams_of)
from gapfile.text import encode

FIRST, SECOND = (EXAMPLES / name for name in ("two_decks", "two_decks_wide"))


@needs_programs
class Tighter(unittest.TestCase):
    def setUp(self) -> None:
        kept = tempfile.TemporaryDirectory()
        self.addCleanup(kept.cleanup)
        self.place = Path(kept.name)
        self.out = self.place / "out.bin"

    def tighter(self, problem: bytes, first: bytes, second: bytes, *options: str) -> tuple[int, str, str]:
        for name, stream in (("p", problem), ("a", first), ("b", second)):
            (self.place / name).write_bytes(stream)
        return run("tighter", *(self.place / name for name in "pab"), "-o", self.out, *options)

    def test_the_larger_lower_bound(self) -> None:
        """-6110001/65000 is above -4700103/50000, by 1329/650000."""
        status, out, _ = run("tighter", FIRST / "problem.bin", FIRST / "low.bin", SECOND / "low.bin", "-o", self.out)
        self.assertEqual(status, 0)
        self.assertEqual(out.splitlines()[2],
                         "the second supersedes: its lower bound is larger, by 1329/650000 = 0.002044..")
        self.assertEqual(self.out.read_bytes(), (SECOND / "low.bin").read_bytes())

    def test_the_smaller_upper_bound(self) -> None:
        """3380001/65000 is below 2600156/50000."""
        for order, word in ((1, "second"), (-1, "first")):
            files = [folder / "high.bin" for folder in (FIRST, SECOND)][::order]
            status, out, _ = run("tighter", FIRST / "problem.bin", *files, "-o", self.out)
            self.assertEqual((status, out.splitlines()[2].split(",")[0]),
                             (0, f"the {word} supersedes: its upper bound is smaller"))
            self.assertEqual(self.out.read_bytes(), (SECOND / "high.bin").read_bytes())

    def test_equal(self) -> None:
        """-1/1 and -2/2 are equal, and then it is the first."""
        problem, low, _ = case_f()
        doubled = encode("lower -2/2 scale 1\nrow 0 weight 1\nentry 0 1\nentry 1 1\nrow 1 weight 1\nentry 0 1\ndone")[0]
        for first, second in ((low, doubled), (doubled, low)):
            status, out, _ = self.tighter(problem, first, second)
            self.assertEqual((status, self.out.read_bytes()), (0, first))
            self.assertIn("the first supersedes: both state the same bound", out)
        self.assertIn("both are the same bytes", self.tighter(problem, low, low)[1])

    def test_only_one_is_accepted(self) -> None:
        problem, low, _ = case_f()
        wrong = low[:4] + b"\xfe" + low[5:]                       # p = -2: the constants differ
        status, out, _ = self.tighter(problem, wrong, low)
        self.assertEqual((status, self.out.read_bytes()), (0, low))
        self.assertIn("first: refused 9 1 0 0\n", out)
        self.assertIn("the second supersedes: the first is refused", out)

    def test_refusals(self) -> None:
        """As document 02 says: the first one's, or 11 where the sides differ; nothing is written."""
        problem, low, high = case_f()
        wrong = low[:4] + b"\xfe" + low[5:]
        for streams, line, said in (
                ((problem, low, high), "refused 11 2 0 0", "one is a lower bound and the other an upper one"),
                ((problem, wrong, b""), "refused 9 1 0 0", "the identity is false"),
                ((problem, b"", wrong), "refused 2 1 0 0", "has no end"),
                ((problem[:-1], low, low), "refused 2 0 68 0", "has no end")):
            status, out, _ = self.tighter(*streams)
            self.assertEqual((status, out.splitlines()[0]), (1, line))
            self.assertIn(said, out)
            self.assertIn("what to do: ", out)
            self.assertIn("out.bin is not written", out)
            self.assertFalse(self.out.exists())

    @needs_reference
    def test_as_the_reference(self) -> None:
        a, b = streams_of(FIRST), streams_of(SECOND)
        for first, second in ((a[1], b[1]), (b[1], a[1]), (a[2], b[2]), (a[1], b[2]), (b"\x10", b[2]), (b"\x10", b"")):
            self.out.unlink(missing_ok=True)
            status, out, _ = self.tighter(a[0], first, second)
            line = by_reference("t", a[0], first, second)
            said = f"tighter {self.out.read_bytes().hex()}" if status == 0 else out.splitlines()[0]
            self.assertEqual(said, line)

    def test_json(self) -> None:
        problem, low, high = case_f()
        data = json.loads(self.tighter(problem, low, low, "--json")[1])
        self.assertEqual((data["supersedes"], data["first"]["bound"], data["status"]), ("first", "-1/1", 0))
        data = json.loads(self.tighter(problem, low, high, "--json")[1])
        self.assertEqual((data["refusal"], data["status"]), ("refused 11 2 0 0", 1))

    def test_files_that_cannot_be_used(self) -> None:
        problem, low, _ = case_f()
        self.tighter(problem, low, low)
        files = [self.place / name for name in "pab"]
        self.assertEqual(run("tighter", *files, "-o", files[1])[0], 2)
        self.assertEqual(files[1].read_bytes(), low)
        self.assertEqual(run("tighter", *files, "-o", self.place / "no/such/folder")[0], 2)
        self.assertEqual(run("tighter", *files, "-o", self.place)[0], 2)
        self.assertEqual(run("tighter", files[0], files[1], self.place / "none", "-o", self.out)[0], 2)
        self.assertEqual(run("tighter", files[0], "-", "-", "-o", self.out)[0], 2)
        os.symlink(files[1], self.place / "link")
        self.assertEqual(run("tighter", *files, "-o", self.place / "link")[0], 2)
        (self.place / "long").write_bytes(bytes(70000))
        status, _, err = run("tighter", files[0], self.place / "long", files[2], "-o", self.place / "x")
        self.assertEqual((status, "65,536" in err), (2, True))
        self.assertEqual(run("tighter", CASE_F / "problem.bin")[0], 2)


if __name__ == "__main__":
    unittest.main()
