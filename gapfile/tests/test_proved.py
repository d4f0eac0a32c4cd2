"""The proved calls of the requests: each answers as the stored corpus of the reference says, and what a program prints
is read strictly."""
import struct
import tempfile
import unittest
from fractions import Fraction
from pathlib import Path
from typing import Callable
from unittest import mock

from gapfile import programs, proved
from gapfile.reading import Refusal
from gapfile.tests.support import corpus, needs_programs, needs_weekcheck

Answer = Callable[[list[bytes]], str]
AT_MOST = 60                     # records of each kind


def symmetries(runs: list[bytes]) -> str:
    found = proved.symmetries(runs[0])
    if isinstance(found, Refusal):
        return found.line()
    return f"symmetries {len(found)} {(bytes(found) + bytes(256 - len(found))).hex()}"


def tighter(runs: list[bytes]) -> str:
    found = proved.tighter(runs[0], runs[1], runs[2])
    return found.line() if isinstance(found, Refusal) else f"tighter {found.hex()}"


def added(runs: list[bytes]) -> str:
    found = proved.added(runs[:3], runs[3:])
    return found.line() if isinstance(found, Refusal) else f"sum {found.lower} {found.upper} rules {found.rules[0]} " \
                                                           f"{found.rules[1]}"


def adjusted(runs: list[bytes]) -> str:
    found = proved.adjusted(runs[0], runs[1], runs[2])
    return found.line() if isinstance(found, Refusal) else f"adjusted {found}"


def window(runs: list[bytes]) -> str:
    arrivals = list(struct.iter_unpack("<qQ", runs[0][:len(runs[0]) // 16 * 16]))
    outcomes = [f"{one.gap} {one.age}" if one else "14" for one in proved.window([(a, b) for a, b in arrivals])]
    return f"window {'; '.join(outcomes)}".rstrip()


@needs_programs
class AsStored(unittest.TestCase):
    """A share of the stored records of each kind, whose answers the reference wrote."""

    def agrees(self, kind: str, answer: Answer) -> None:
        found = [(runs, line) for k, runs, line in corpus() if k == kind]
        accepted = [one for one in found if not one[1].startswith("refused")]
        refused = [one for one in found if one[1].startswith("refused")]
        self.assertTrue(accepted)
        for some in (accepted, refused):
            for runs, line in some[::len(some) // AT_MOST + 1]:
                self.assertEqual(answer(runs), line)

    def test_symmetries(self) -> None:
        self.agrees("s", symmetries)

    def test_tighter(self) -> None:
        self.agrees("t", tighter)

    def test_sum(self) -> None:
        self.agrees("d", added)

    def test_adjusted(self) -> None:
        self.agrees("a", adjusted)

    def test_window(self) -> None:
        self.agrees("w", window)

    def test_office(self) -> None:
        """Those whose buffer holds all notes: here one is lent that does."""
        found = [(runs, line) for k, runs, line in corpus() if k == "n" and not line.startswith("refused 13")]
        for runs, line in found[::len(found) // (2 * AT_MOST) + 1]:
            said = proved.office(runs[0], runs[1])
            if isinstance(said, Refusal):
                self.assertEqual(said.line(), line)
            else:
                self.assertTrue(line.startswith(said.line + " "), line)
                self.assertTrue(line.rsplit(" ", 1)[1].startswith(b"".join(said.notes).hex()))

    @needs_weekcheck
    def test_report(self) -> None:
        """The 32 bytes of each record, and the last line; the output that is lent is another matter."""
        found = [(runs, line) for k, runs, line in corpus() if k == "r" and not line.startswith("refused 1 ")]
        self.assertTrue(found)
        for runs, line in found[::len(found) // AT_MOST + 1]:
            said = proved.report(runs[0])
            if isinstance(said, Refusal):
                self.assertEqual(said.line(), line)
                continue
            words = line.split(" ")
            self.assertEqual(words[:6], ["report", str(said.accepted), "lower", said.lower, "upper", said.upper])
            table = bytes.fromhex(words[6])
            for k, one in enumerate(said.records):
                number, p, q, high, below, stream, place, key = struct.unpack_from("<IiIiIIII", table, 32 * k)
                if one.refusal:
                    self.assertEqual(one.refusal, Refusal(number, stream, place, key))
                else:
                    self.assertEqual((number, one.lower, one.upper), (0, f"{p}/{q}", f"{high}/{below}"))


class ReadStrictly(unittest.TestCase):
    """A program that prints something else is named, and nothing is believed."""

    def refuses(self, said: str, ask: Callable[[], object]) -> None:
        with mock.patch.dict("os.environ", {"ZAMIACHISEL_LIBRARY": ""}), \
                mock.patch.object(programs, "run_program", lambda *_: said), \
                mock.patch.object(programs, "program", lambda name: (Path(name), "")):
            with self.assertRaises(programs.ProgramError, msg=said):
                ask()

    def test_other_lines(self) -> None:
        calls: dict[str, tuple[Callable[[], object], tuple[str, ...]]] = {
            "symmetries": (lambda: proved.symmetries(b""), (
                "symmetries 1 00", "symmetries 2 " + "00" * 256, "symmetries 1 " + "01" + "00" * 255,
                "symmetries 1 " + "00" * 255 + "01", "symmetries 300 " + "00" * 256)),
            "tighter": (lambda: proved.tighter(b"", b"\1", b"\2"), ("tighter 03", "tighter", "tighter 0", "tighter 1")),
            "office": (lambda: proved.office(b"", bytes(9)), (
                "office 0 1/0 rounds 1 rule 1 notes 0 " + "00" * 8, "office 2 1/1 rounds 1 rule 1 notes 0 " + "00" * 8,
                "office 0 1/1 rounds 1 rule 1 notes 2 " + "00" * 8, "office 0 1/1 rounds 1 rule 1 notes 0 " + "01" * 8,
                "office 0 1/1 rounds 1 rule 1 notes 1 " + "00" * 9)),
            "window": (lambda: proved.window([(1, 2)]), (
                "window", "window 1/2 0; 1/2 0", "window 1/0 0", "window x", "1/2 0")),
            "sum": (lambda: proved.added([b""] * 3, [b""] * 3), (
                "sum 1/0 1/1 rules 1 1", "sum 1/1 1/1 rules 1 3", "sum 1/1")),
            "adjusted": (lambda: proved.adjusted(b"", b"", b""), ("adjusted 1/0", "adjusted", "adjusted 1/1 ")),
        }
        for ask, lines in calls.values():
            for said in (*lines, "", "accepted", "refused 9", "refused 9 6 0 0", "refused 123 0 0 0"):
                self.refuses(said, ask)

    def test_reports(self) -> None:
        good = "1 lower -1/1 upper 1/1\n2 refused 10 1 0 0\n3 lower 2/1 upper -2/1\naccepted 2 lower -1/1 upper 1/1"
        found = proved.read_report(good, "weekcheck")
        assert isinstance(found, proved.Report)
        self.assertEqual([one.empty for one in found.records], [False, False, True])
        self.assertEqual((found.accepted, Fraction(found.lower)), (2, -1))
        for said in (good.replace("accepted 2", "accepted 3"),
                     good.replace("accepted 2 lower -1/1", "accepted 2 lower -2/1"),
                     good.replace("3 lower", "4 lower"), good.replace("refused 10", "refuse 10"), "", "accepted 0",
                     good.replace("accepted 2 lower -1/1 upper 1/1", "accepted 2 lower 0/0 upper 0/0"),
                     good + "\naccepted 2 lower -1/1 upper 1/1", "accepted 0 lower 1/1 upper 1/1"):
            with self.assertRaises(programs.ProgramError, msg=said):
                proved.read_report(said, "weekcheck")

    def test_too_long(self) -> None:
        """A run that replay would not read is not sent."""
        with self.assertRaisesRegex(programs.ProgramError, "65,537 bytes"):
            proved.tighter(b"", bytes(65537), b"")
        with self.assertRaisesRegex(programs.ProgramError, "7,340,033 bytes"):
            proved.report(bytes(7_340_033))

    def test_a_program_that_is_missing(self) -> None:
        with tempfile.TemporaryDirectory() as folder, mock.patch.dict("os.environ", {"WEEKCHECK": f"{folder}/none"}):
            with self.assertRaisesRegex(programs.ProgramError, "WEEKCHECK must name a weekcheck"):
                proved.report(b"")


if __name__ == "__main__":
    unittest.main()
