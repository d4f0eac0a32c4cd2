"""`gapfile week`: packed as document 02 says, reported with names, empty pairs marked; answers of the reference."""
import json
import struct
import subprocess
import tempfile
import unittest
from fractions import Fraction
from pathlib import Path

from gapfile import weekly
from gapfile.tests.filings import Linear
from gapfile.tests.support import (CASE_F, EXAMPLES, ROOT, by_reference, case_f, folder_of, needs_programs,
                                   needs_reference, needs_weekcheck, run, streams_of)

FOLDERS = [EXAMPLES / name for name in ("two_decks", "ex5_5", "contradictory")]
GAPFILE = str(ROOT / "gapfile/gapfile")


@needs_programs
@needs_weekcheck
class Week(unittest.TestCase):
    def setUp(self) -> None:
        kept = tempfile.TemporaryDirectory()
        self.addCleanup(kept.cleanup)
        self.place = Path(kept.name)
        self.week = self.place / "week.bin"

    def test_packed(self) -> None:
        """Three lengths of 16 bits, lowest byte first, and the streams, without anything between."""
        self.assertEqual(run("week", *FOLDERS, "-o", self.week)[0], 0)
        wanted = b""
        for folder in FOLDERS:
            streams = streams_of(folder)
            wanted += struct.pack("<HHH", *map(len, streams)) + b"".join(streams)
        self.assertEqual(self.week.read_bytes(), wanted)

    def test_table(self) -> None:
        """With names, and the pair whose bounds cross marked; the same when it is read again."""
        status, out, _ = run("week", *FOLDERS, "-o", self.week)
        lines = [" ".join(line.split()) for line in out.splitlines()]
        self.assertEqual((status, lines), (0, [
            "name lower upper", "1 two_decks -4700103/50000 = -94.00206 2600156/50000 = 52.00312",
            "2 ex5_5 -6251/50000 = -0.12502 53090/50000 = 1.0618",
            "3 contradictory 2/1 = 2 -2/1 = -2 empty: the bounds cross",
            "3 pairs accepted, 0 refused; 1 of the accepted empty: no point meets all of its conditions",
            "every accepted polynomial is at least -4700103/50000 and at most 2600156/50000 wherever its own "
            "conditions hold, in the streams' units",
            f"written: {self.week}, and the names in {self.place / 'week.names'}"]))
        self.assertEqual(run("week", "--check", self.week)[1], "\n".join(out.splitlines()[:-1]) + "\n")

    def test_names_belong_to_their_bytes(self) -> None:
        """A name is shown only for the record that it was given to, also where records have moved or are the same."""
        run("week", *FOLDERS, "-o", self.week)
        other = self.place / "other.bin"
        (self.place / "other.names").write_bytes((self.place / "week.names").read_bytes())
        first, second, third = weekly.split(self.week.read_bytes())
        changed = second[:-1] + b"\x14"
        other.write_bytes(third + changed + first)
        out = run("week", "--check", other)[1].splitlines()
        self.assertEqual([" ".join(line.split()[1:2]) for line in out[1:4]], ["contradictory", "no", "two_decks"])
        (self.place / "twin").symlink_to(FOLDERS[0])
        with folder_of(*streams_of(FOLDERS[0])) as twin:
            out = run("week", FOLDERS[0], twin, "-o", self.week)[1].splitlines()
            self.assertEqual([line.split()[1] for line in out[1:3]], ["two_decks", twin.name])
        (self.place / "week.names").unlink()
        self.assertIn("no name", run("week", "--check", self.week)[1])

    def test_titles_and_units(self) -> None:
        """Of a filing with a model also its figure: a/3 from 0 to 2 kg, sent 60 times. Read again, with its folder."""
        lane = Linear(["a"], [(0, 2)], [Fraction(1, 3)], factor=60, unit="kg", title="Lane 7").write(self.place / "lane")
        out = run("week", CASE_F, lane, "-o", self.week)[1]
        row = "2 lane: Lane 7 0/1 = 0 40/1 = 40 at least 0, at most 0.666667 kg"
        self.assertEqual(" ".join(out.splitlines()[2].split()), row)
        self.assertEqual(" ".join(run("week", "--check", self.week, lane)[1].splitlines()[2].split()), row)
        self.assertNotIn("kg", run("week", "--check", self.week)[1])
        (lane / "manifest.json").write_text("{}")
        self.assertEqual(run("week", "--check", self.week, lane)[0], 2)
        self.assertEqual(run("week", lane, "-o", self.place / "other.bin")[0], 2)
        self.assertFalse((self.place / "other.bin").exists())

    def test_one_that_is_refused(self) -> None:
        """It is packed and reported at its place, and the status is 1."""
        problem, low, high = case_f()
        with folder_of(problem, high, low) as wrong:
            status, out, _ = run("week", CASE_F, wrong, "-o", self.week, "--json")
        data = json.loads(out)
        self.assertEqual((status, data["accepted"], data["pairs"][1]["refusal"]), (1, 1, "refused 10 1 0 0"))
        self.assertEqual(run("week", "--check", self.week)[0], 1)

    @needs_reference
    def test_as_the_reference(self) -> None:
        """The report of the packed bytes by the reference, field by field."""
        folders = [EXAMPLES / name for name in ("ex5_5", "contradictory", "two_decks")] + [CASE_F]
        status, out, _ = run("week", *folders, "-o", self.week, "--json")
        data = json.loads(out)
        words = by_reference("r", self.week.read_bytes(), bytes(32 * len(folders)), b"").split()
        self.assertEqual((status, words[:6]), (0, ["report", str(data["accepted"]), "lower", data["lower"], "upper",
                                                   data["upper"]]))
        for k, pair in enumerate(data["pairs"]):
            refusal, p, q, high, below, *_ = struct.unpack_from("<IiIiIIII", bytes.fromhex(words[6]), 32 * k)
            self.assertEqual((refusal, pair["lower"], pair["upper"], pair["empty"]),
                             (0, f"{p}/{q}", f"{high}/{below}", p * below > high * q))

    def test_cut(self) -> None:
        """12, at the first byte of the record that is cut or of what follows the 64th."""
        run("week", CASE_F, CASE_F, "-o", self.week)
        week = self.week.read_bytes()
        size = len(week) // 2
        for data, place in ((week[:-1], size), (week + b"\0", 2 * size), (b"\0", 0), (week * 33, 64 * size)):
            self.week.write_bytes(data)
            status, out, _ = run("week", "--check", self.week)
            self.assertEqual((status, out.splitlines()[0]), (1, f"refused 12 0 {place} 0"))
            self.assertIn("what to do: ", out)

    def test_none_and_standard_input(self) -> None:
        self.week.write_bytes(b"")
        status, out, _ = run("week", "--check", self.week)
        self.assertEqual((status, out.splitlines()[-1]), (0, "0 pairs accepted, 0 refused"))
        run("week", CASE_F, "-o", self.week)
        ran = subprocess.run([GAPFILE, "week", "--check", "-"], input=self.week.read_bytes(), capture_output=True,
                             check=False)
        self.assertEqual((ran.returncode, ran.stderr), (0, b""))
        self.assertIn(b"no name  -1/1 = -1", ran.stdout)

    def test_wrong(self) -> None:
        for words in (("week",), ("week", CASE_F), ("week", "-o", self.week),
                      ("week", CASE_F, "-o", self.week, "--check", self.week), ("week", "nothing", "-o", self.week),
                      ("week", "--check", CASE_F / "low.bin", "nothing"),
                      ("week", "--check", self.place / "none"), ("week", CASE_F, "-o", self.place / "week.names"),
                      ("week", *[CASE_F] * 65, "-o", self.week), ("week", EXAMPLES / "models", "-o", self.week),
                      ("week", CASE_F, "-o", self.place / "no/week.bin")):
            status, out, err = run(*words)
            self.assertEqual((status, out), (2, ""), words)
            self.assertTrue(err.startswith("gapfile: "))
        self.assertFalse(self.week.exists())
        with folder_of(bytes(65536), b"", b"") as long:
            self.assertIn("a record holds 65,535", run("week", long, "-o", self.week)[2])
        run("week", CASE_F, "-o", self.week)
        for names in (b"\xff", b"no sum", b"0" * 64 + b"  \x1b[2J"):
            (self.place / "week.names").write_bytes(names)
            self.assertEqual(run("week", "--check", self.week)[0], 2)


if __name__ == "__main__":
    unittest.main()
