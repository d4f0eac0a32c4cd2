"""`gapfile window`: outcomes as document 02 says, the state on the disk, bad lines, pipes; answers of the reference."""
import json
import os
import random
import struct
import subprocess
import tempfile
import unittest
import xml.etree.ElementTree as xml
from fractions import Fraction
from pathlib import Path

from gapfile.tests.support import ROOT, by_reference, needs_programs, needs_reference
from gapfile.window_plot import as_svg
from gapfile.windowing import HEADER, read_gap

GAPFILE = str(ROOT / "gapfile/gapfile")


class Lines(unittest.TestCase):
    def test_gaps(self) -> None:
        for text, gap in (("1/2", (1, 2)), ("gap 365012950000/2500000000", (365012950000, 2500000000)), ("7", (7, 1)),
                          ("0.25", (25, 100)), ("-1/2", (-1, 2)), ("-0.5", (-5, 10)), ("empty", (0, 0)),
                          ("gap empty", (0, 0)), ("1/0", (1, 0)), (str(2 ** 63 - 1), (2 ** 63 - 1, 1)),
                          (f"1/{2 ** 64 - 1}", (1, 2 ** 64 - 1))):
            self.assertEqual(read_gap(text), gap, text)
        for text in ("", "x", "1/", "/2", "1/2/3", "1/-2", "1e3", "gap", "+1", "1 2", str(2 ** 63), f"1/{2 ** 64}", "٣",
                     "0." + "1" * 19):
            self.assertIsNone(read_gap(text), text)

    def test_plot(self) -> None:
        picture = xml.fromstring(as_svg([Fraction(k) for k in (3, 1, 3, 2)], 1))
        columns = [r for r in picture if r.tag.endswith("rect")]
        self.assertEqual([r.get("class") for r in columns], ["gap", "gap", "widest", "gap"])
        heights = [float(r.get("height", "")) for r in columns]
        self.assertEqual([round(h / heights[0], 2) for h in heights], [1, 0.33, 1, 0.67])
        self.assertEqual(picture.get("aria-label"), "widest 3, age 1")
        self.assertEqual(xml.fromstring(as_svg([], 0)).get("aria-label"), "no gap is held")
        xml.fromstring(as_svg([Fraction(0)], 0))


@needs_programs
class Window(unittest.TestCase):
    def setUp(self) -> None:
        kept = tempfile.TemporaryDirectory()
        self.addCleanup(kept.cleanup)
        self.place = Path(kept.name)
        self.state = self.place / "gaps"

    def window(self, text: str, *options: object) -> tuple[int, list[str], str]:
        ran = subprocess.run([GAPFILE, "window", "--state", str(self.state), *map(str, options)], input=text.encode(),
                             capture_output=True, check=False)
        said = [line for line in ran.stderr.decode().splitlines() if " s: " not in line]       # without the steps
        return ran.returncode, ran.stdout.decode().splitlines(), "\n".join(said)

    def test_by_hand(self) -> None:
        """The widest with its age; the newest on ties, by value: 1/2 and 2/4 are the same."""
        status, lines, err = self.window("1/2\n3/4\n1/4\n6/8\n0\n")
        self.assertEqual((status, err), (0, ""))
        self.assertEqual(lines, ["widest 1/2 = 0.5 age 0", "widest 3/4 = 0.75 age 0", "widest 3/4 = 0.75 age 1",
                                 "widest 6/8 = 0.75 age 0", "widest 6/8 = 0.75 age 1"])

    def test_the_oldest_goes(self) -> None:
        """After 32 more the widest is out, also over two runs."""
        self.assertEqual(self.window("9\n" + "1\n" * 20)[1][-1], "widest 9/1 = 9 age 20")
        lines = self.window("1/1\n" * 12)[1]
        self.assertEqual(lines[10:], ["widest 9/1 = 9 age 31", "widest 1/1 = 1 age 0"])
        self.assertEqual(self.state.read_text().splitlines(), [HEADER] + ["1/1"] * 32)

    def test_refused_and_wrong_lines(self) -> None:
        """14 leaves the state, and what is no gap is passed over; the others are taken in."""
        status, lines, err = self.window(f"1\n-1/2\n{2 ** 48}\n1/{2 ** 32}\nempty\n2\n")
        self.assertEqual((status, lines), (1, ["widest 1/1 = 1 age 0", *["refused 14"] * 4, "widest 2/1 = 2 age 0"]))
        self.assertEqual(len(err.splitlines()), 4)
        self.assertIn("line 2: `-1/2` is refused with 14", err)
        status, lines, err = self.window("1\nnothing\n\n3\n")
        self.assertEqual((status, lines[-1]), (2, "widest 3/1 = 3 age 0"))
        self.assertIn("line 2: `nothing` is no gap", err)
        self.assertEqual(self.state.read_text().splitlines()[1:], ["1/1", "2/1", "1/1", "3/1"])

    @needs_reference
    def test_as_the_reference(self) -> None:
        """Arrivals of all kinds in several runs, against the reference on the whole list."""
        chance = random.Random(5)
        some = (-1, 0, 1, 2, 3, 7, 2 ** 48 - 1, 2 ** 48)
        gaps = [(chance.choice(some), chance.choice((0, 1, 2, 4, 6, 2 ** 32 - 1, 2 ** 32))) for _ in range(150)]
        data = b"".join(struct.pack("<qQ", a, b) for a, b in gaps)
        outcomes = by_reference("w", data, b"", b"").removeprefix("window ").split("; ")
        found = []
        for at in (0, 7, 50, 51, 120):
            end = {0: 7, 7: 50, 50: 51, 51: 120, 120: 150}[at]
            text = "".join(f"{a}/{b}\n" for a, b in gaps[at:end])
            found += json.loads("\n".join(self.window(text, "--json")[1]))["outcomes"]
        told = ["14" if "refusal" in one else f"{one['widest']} {one['age']}" for one in found]
        self.assertEqual(told, outcomes)

    def test_more_than_a_record_holds(self) -> None:
        """5,000 gaps at once; the last line has no end."""
        lines = self.window("\n".join(f"{k}/7" for k in range(5000)))[1]
        self.assertEqual((len(lines), lines[-1]), (5000, "widest 4999/7 = 714.142858 age 0"))

    def test_as_they_come(self) -> None:
        """A line that waits for the next one is answered, with the state on the disk."""
        process = subprocess.Popen([GAPFILE, "window", "--state", str(self.state)], stdin=subprocess.PIPE,
                                   stdout=subprocess.PIPE, text=True)
        assert process.stdin and process.stdout
        for gap, said in (("5/2", "widest 5/2 = 2.5 age 0"), ("1/2", "widest 5/2 = 2.5 age 1")):
            process.stdin.write(gap + "\n")
            process.stdin.flush()
            self.assertEqual(process.stdout.readline(), said + "\n")
            self.assertEqual(self.state.read_text().splitlines()[-1], gap)
        process.stdin.close()
        process.stdout.close()
        self.assertEqual(process.wait(timeout=60), 0)

    def shell(self, line: str) -> tuple[int, str]:
        ran = subprocess.run(["bash", "-c", f"set -o pipefail; {line}"], cwd=self.place, capture_output=True, text=True,
                             timeout=600)
        return ran.returncode, "\n".join(text for text in ran.stderr.splitlines() if " s: " not in text)

    def test_readers_who_leave(self) -> None:
        """All gaps are taken in, whoever reads."""
        gaps = self.place / "in"
        gaps.write_text("".join(f"{k}\n" for k in range(9000)))
        for reader, status in (("| head -1", 0), ("| true", 0), (">&-", 0), (">/dev/full", 2)):
            self.state.unlink(missing_ok=True)
            found, err = self.shell(f"{GAPFILE} window --state gaps <in {reader}")
            self.assertEqual((found, len(err.splitlines())), (status, int(status == 2)), reader)
            self.assertEqual(self.state.read_text().splitlines()[-1], "8999/1")

    def test_a_state_that_is_none(self) -> None:
        """It is named and left; so is one with a gap that the call refuses, or with more than 32."""
        for text in ("", "1/2\n", f"{HEADER}\nx\n", f"{HEADER}\n-1/2\n", f"{HEADER}\n1/0\n",
                     HEADER + "\n" + "1/2\n" * 33):
            self.state.write_text(text)
            status, lines, err = self.window("1\n")
            self.assertEqual((status, lines), (2, []), text)
            self.assertIn("take it away to begin anew", err)
            self.assertEqual(self.state.read_text(), text)
        self.state.unlink()
        os.mkdir(self.state)
        self.assertEqual(self.window("1\n")[0], 2)

    def test_two_runs_at_once(self) -> None:
        """The one that finds the state changed takes nothing more in, and says so."""
        process = subprocess.Popen([GAPFILE, "window", "--state", str(self.state)], stdin=subprocess.PIPE,
                                   stdout=subprocess.PIPE, stderr=subprocess.PIPE, text=True)
        assert process.stdin and process.stdout
        process.stdin.write("1\n")
        process.stdin.flush()
        process.stdout.readline()
        self.window("2\n")
        _, err = process.communicate("3\n", timeout=60)
        self.assertEqual(process.returncode, 2)
        self.assertIn("was changed by another run, so line 2 and those behind it are not taken in", err)
        self.assertEqual(self.state.read_text().splitlines()[1:], ["1/1", "2/1"])

    def test_no_gaps(self) -> None:
        self.assertEqual(self.window(""), (0, [], ""))
        self.assertFalse(self.state.exists())

    def test_a_place_that_cannot_be_written(self) -> None:
        self.state = self.place / "no" / "gaps"
        status, lines, err = self.window("1\n")
        self.assertEqual((status, lines), (2, []))
        self.assertIn("No such file or directory", err)

    def test_plot_and_json(self) -> None:
        status, lines, _ = self.window("2\n1\n1/3\n", "--svg", self.place / "plot.svg", "--json")
        data = json.loads("\n".join(lines))
        self.assertEqual((status, data["widest"], data["held"]), (0, {"gap": "2/1", "age": 2}, ["2/1", "1/1", "1/3"]))
        self.assertEqual(xml.parse(self.place / "plot.svg").getroot().get("aria-label"), "widest 2, age 2")

    def test_interrupted(self) -> None:
        """What was answered is kept."""
        process = subprocess.Popen([GAPFILE, "window", "--state", str(self.state)], stdin=subprocess.PIPE,
                                   stdout=subprocess.PIPE, stderr=subprocess.PIPE, text=True)
        assert process.stdin and process.stdout and process.stderr
        process.stdin.write("4\n")
        process.stdin.flush()
        process.stdout.readline()
        process.terminate()
        _, err = process.communicate(timeout=60)
        self.assertEqual(process.returncode, 130)
        self.assertNotIn("Traceback", err)
        self.assertEqual(self.state.read_text().splitlines()[1:], ["4/1"])


if __name__ == "__main__":
    unittest.main()
