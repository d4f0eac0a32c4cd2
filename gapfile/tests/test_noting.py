"""`gapfile note`, `gapfile notes`: put in, read back by the office's call, taken out; answers of the reference."""
import json
import shutil
import tempfile
import unittest
from pathlib import Path

from gapfile.notes import NoteError, note_bytes, placed, put_in, texts, without_notes
from gapfile.tests.support import (CASE_F, EXAMPLES, by_reference, case_f, needs_programs, needs_reference, run,
                                   streams_of)
from gapfile.text import encode

STRICT = encode("lower -1/1 scale 2\nrow 0 weight 1\nentry 0 1\nentry 1 1\nrow 1 weight 1\nentry 0 1\ndone")[0]


class Bytes(unittest.TestCase):
    def test_texts(self) -> None:
        """UTF-8 with a 0, in notes of 8 bytes."""
        self.assertEqual(note_bytes("seen"), [b"seen\0\0\0\0"])
        self.assertEqual(note_bytes("seven777"), [b"seven777", bytes(8)])
        self.assertEqual(note_bytes("grün"), [b"gr\xc3\xbcn\0\0\0"])
        for wrong in ("", "  ", "a\nb", "\x07", "x" * 4001, "\ud800"):
            with self.assertRaises(NoteError, msg=repr(wrong[:9])):
                note_bytes(wrong)

    def test_in_and_out(self) -> None:
        """Before every line where one may stand, several at one place, and out again; 40 and 8 bytes each."""
        self.assertEqual(put_in(STRICT, 2, note_bytes("seen")), STRICT[:10] + b"\x40seen\0\0\0\0" + STRICT[10:])
        for line in range(2, 8):
            noted = put_in(STRICT, line, note_bytes("one and one more"))
            again = put_in(noted, line, note_bytes("\N{BULLET}"))
            self.assertEqual(without_notes(again), STRICT)
            self.assertEqual([(one.line, one.text) for one in texts(placed(again))],
                             [(line, "one and one more"), (line, "\N{BULLET}")])
        self.assertEqual(put_in(STRICT, None, note_bytes("a")), put_in(STRICT, 7, note_bytes("a")))
        for line in (-1, 0, 1, 8):
            with self.assertRaisesRegex(NoteError, "the lines 2 to 7"):
                put_in(STRICT, line, note_bytes("a"))

    def test_another_hand(self) -> None:
        """Notes that are no text of this form are shown as bytes, also one that is cut off by another line."""
        for note, said in ((b"\xff" * 8, "bytes ff ff ff ff ff ff ff ff"), (bytes(8), "bytes 00 00 00 00 00 00 00 00"),
                           (b"abcdefgh", "bytes 61 62 63 64 65 66 67 68"),
                           (b"ab\0cd\0\0\0", "bytes 61 62 00 63 64 00 00 00"),
                           (b"\x1b[2Jabc\0", "bytes 1b 5b 32 4a 61 62 63 00")):
            self.assertEqual([one.text for one in texts([(2, note)])], [said])
        both = texts([(2, b"abcdefgh"), (3, b"ijk\0\0\0\0\0")])
        self.assertEqual([one.text for one in both], ["bytes 61 62 63 64 65 66 67 68", "ijk"])


@needs_programs
class Commands(unittest.TestCase):
    def setUp(self) -> None:
        kept = tempfile.TemporaryDirectory()
        self.addCleanup(kept.cleanup)
        self.place = Path(kept.name)
        self.folder = self.place / "filed"
        shutil.copytree(CASE_F, self.folder)

    def test_both_ways(self) -> None:
        """The folder stays as it is; beside it stand the certificates with notes; the office's call reads them."""
        self.assertEqual(run("note", self.folder, "asked by phone, 14 March")[0], 0)
        status, out, _ = run("note", self.folder, "checked", "--before", "2")
        self.assertEqual((status, out.splitlines()[:3]), (0, [
            "lower: office 0 -1/1 rounds 2 rule 1 notes 5", "  before line 2: checked",
            "  before line 7: asked by phone, 14 March"]))
        self.assertEqual(run("note", self.folder, "on the other", "--on", "upper")[0], 0)
        self.assertEqual(streams_of(self.folder), case_f())
        self.assertEqual(sorted(file.name for file in self.place.iterdir()), ["filed", "filed.notes"])
        status, out, _ = run("notes", self.folder)
        self.assertEqual((status, out.splitlines()), (0, [
            "lower: office 0 -1/1 rounds 2 rule 1 notes 5", "  before line 2: checked",
            "  before line 7: asked by phone, 14 March",
            "upper: office 1 1/1 rounds 2 rule 1 notes 2", "  before line 7: on the other"]))
        self.assertEqual(run("notes", self.folder, "--strict", self.place / "strict")[0], 0)
        self.assertEqual(streams_of(self.place / "strict"), case_f())
        self.assertEqual(run("check", self.folder)[0], 0)

    @needs_reference
    def test_as_the_reference(self) -> None:
        """The certificate that is written: the office's answer, its notes in the buffer, and 3 by the strict check."""
        for before in ("2", "4", "7"):
            run("note", self.folder, f"line {before} of the form", "--before", before)
        noted = (self.folder.with_name("filed.notes") / "low.bin").read_bytes()
        problem = (self.folder / "problem.bin").read_bytes()
        held = b"".join(b"".join(note_bytes(f"line {k} of the form")) for k in (2, 4, 7))
        self.assertEqual(by_reference("n", problem, noted, bytes(len(held))),
                         f"office 0 -1/1 rounds 2 rule 1 notes {len(held) // 8} {held.hex()}")
        self.assertEqual(by_reference("c", problem, noted, b""), "refused 3 1 10 0")

    def test_a_folder_with_notes_in_it(self) -> None:
        """As one from another office: its own certificates are read, and the strict form is written."""
        (self.folder / "low.bin").write_bytes(put_in(case_f()[1], 3, note_bytes("sent along")))
        status, out, _ = run("notes", self.folder, "--strict", self.place / "strict", "--json")
        data = json.loads(out)
        self.assertEqual((status, data["sides"]["lower"]["texts"]), (0, [{"before line": 3, "text": "sent along"}]))
        self.assertEqual(streams_of(self.place / "strict"), case_f())
        self.assertEqual(run("notes", self.folder, "--strict", self.place / "strict")[0], 0)      # once more

    def test_the_strict_form_does_not_take_the_place_of_the_noted_one(self) -> None:
        noted = put_in(case_f()[1], 3, note_bytes("sent along"))
        (self.folder / "low.bin").write_bytes(noted)
        status, _, err = run("notes", self.folder, "--strict", self.folder)
        self.assertEqual((status, (self.folder / "low.bin").read_bytes()), (2, noted))
        self.assertIn("holds other files", err)

    def test_a_filing_that_was_made_anew(self) -> None:
        """Notes of another certificate are not taken for this one's: status 5, and they stay."""
        run("note", self.folder, "to the first")
        kept = self.folder.with_name("filed.notes") / "low.bin"
        before = kept.read_bytes()
        (self.folder / "low.bin").write_bytes(encode("lower -2/2 scale 1\nrow 0 weight 1\nentry 0 1\nentry 1 1\n"
                                                     "row 1 weight 1\nentry 0 1\ndone")[0])
        for words in (("notes", self.folder), ("note", self.folder, "more")):
            status, out, err = run(*words)
            self.assertEqual((status, out, kept.read_bytes()), (5, "", before))
            self.assertIn("that was made anew; move", err)

    def test_refused(self) -> None:
        """A note cut short, a false identity behind notes, and nothing that is written then."""
        problem, low, _ = case_f()
        for stream, line in ((low[:10] + b"\x40abc", "refused 2 1 10 0"),
                             (put_in(low[:4] + b"\xfe" + low[5:], 2, note_bytes("x")), "refused 9 1 0 0"),
                             (put_in(low[:20] + b"\xff\xff" + low[22:], 2, note_bytes("x")), "refused 9 1 0 1"),
                             (b"", "refused 2 1 0 0"), (b"\x40" + low, "refused 3 1 0 0")):
            (self.folder / "low.bin").write_bytes(stream)
            for words in (("notes", self.folder), ("note", self.folder, "more")):
                status, out, err = run(*words)
                self.assertEqual((status, err), (1, ""))
                self.assertIn(line, out.splitlines()[0])
                self.assertIn("what to do: ", out)
        self.assertFalse(self.folder.with_name("filed.notes").exists())

    def test_a_row_in_two_blocks(self) -> None:
        """8 is told of the certificate without its notes, and its place as sent in the first line."""
        problem = encode("variables x y\nobjective 1 x^2\nconstraint\nterm 1 1\nterm -1 x^2\nbasis 0 1\nbasis 0 x\n"
                         "basis 0 y\nend")[0]
        low = encode("lower 0/1 scale 1\nrow 0 weight 1\nentry 1 1\nentry 2 1\ndone")[0]
        (self.folder / "problem.bin").write_bytes(problem)
        (self.folder / "low.bin").write_bytes(put_in(low, 3, note_bytes("x")))
        status, out, _ = run("notes", self.folder)
        self.assertEqual(status, 1)
        self.assertIn("refused 8 1 27 0, and without its notes:\nrefused 8 1 18 0", out)

    def test_wrong(self) -> None:
        for words, said in ((("note", self.folder, ""), "not empty"), (("note", self.folder, "a\tb"), "can be printed"),
                            (("note", self.folder, "a", "--before", "1"), "the lines 2 to 7"),
                            (("note", self.folder, "a", "--before", "99"), "the lines 2 to 7"),
                            (("notes", "nothing"), "is no folder"),
                            (("note", EXAMPLES / "models", "a"), "No such file"),
                            (("notes", self.folder, "--strict", CASE_F.parent), "name another folder"),
                            (("notes", self.folder, "--strict", EXAMPLES / "ex5_5"), "name another folder"),
                            (("notes", self.folder, "--strict", self.folder / "low.bin"), "name another one")):
            status, out, err = run(*words)
            self.assertEqual((status, out), (2, ""), words)
            self.assertIn(said, err)
        self.assertEqual(run("note", self.folder, "a", "--before", "x")[0], 2)
        self.assertEqual(sorted(file.name for file in self.place.iterdir()), ["filed"])

    def test_too_many(self) -> None:
        """More bytes than the office's call is sent: the certificate stays as it was."""
        kept = self.folder.with_name("filed.notes") / "low.bin"
        run("note", self.folder, "x" * 4000)
        low = kept.read_bytes()
        kept.write_bytes(put_in(low, 2, [bytes(8)] * 7000))
        before = kept.read_bytes()
        status, _, err = run("note", self.folder, "y" * 4000)
        self.assertEqual((status, "65,536 are read" in err, kept.read_bytes()), (2, True, before))


if __name__ == "__main__":
    unittest.main()
