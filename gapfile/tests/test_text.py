"""The text form: lossless both ways, damage named, wrong text named."""
import unittest
from typing import Iterable

from gapfile.commands import BOTH, ONE, Kind, WidthError, kind_of, read_command, write_command
from gapfile.problem import LimitError, encode_problem
from gapfile.reading import Condition, Problem, Refusal, Refused, read_certificate, read_problem
from gapfile.rounding import Rounded, encode_certificate
from gapfile.squares import RoundingError
from gapfile.text import TextError, decode, encode
from gapfile.tests.support import CASE_F, EXAMPLES, corpus, folders, needs_vectors, stored_runs, vectors

F_PROBLEM = """\
variables x1
objective 1 x1
constraint                        # condition 1
term 1 1
term -1 x1^2
basis 0 1                         # index 0
basis 0 x1                        # index 1
basis 1 1                         # index 0
end
"""
F_LOW = """\
lower -1/1 scale 2
row 0 weight 1
entry 0 1                         # 1
entry 1 1                         # x1
row 1 weight 1
entry 0 1                         # 1
done
"""


class RoundTrip(unittest.TestCase):
    def test_examples_and_vectors(self) -> None:
        """Every file of every folder."""
        for folder in folders():
            for file in folder.glob("*.bin"):
                stream = file.read_bytes()
                self.assertEqual(encode(decode(stream).text())[0], stream, file)

    def test_records(self) -> None:
        """Every run of the stored corpus and of the vectors, also damaged ones and those that are no stream."""
        runs = stored_runs()
        self.assertGreater(len(runs), 10000)
        for run in runs:
            self.assertEqual(encode(decode(run).text())[0], run)

    def test_one_line_a_command(self) -> None:
        stream = (EXAMPLES / "two_decks/problem.bin").read_bytes()
        lines = decode(stream).text().splitlines()
        self.assertEqual(encode("\n".join(lines))[1], list(range(1, len(lines) + 1)))

    def test_case_f(self) -> None:
        problem = (CASE_F / "problem.bin").read_bytes()
        self.assertEqual(decode(problem).text(), F_PROBLEM)
        low = (CASE_F / "low.bin").read_bytes()
        self.assertEqual(decode(low, problem=read_problem(problem)).text(), F_LOW)
        self.assertEqual(encode(F_LOW)[0], low)

    def test_names(self) -> None:
        stream = encode(F_PROBLEM)[0]
        text = decode(stream, ["load"]).text()
        self.assertIn("term -1 load^2\n", text)
        self.assertEqual(encode(text)[0], stream)

    def test_commands_of_document_02(self) -> None:
        text = ("variables a b\nrule 2\norder 1\nequality\nterm 2 a*b\nbasis 1 1\nend\n",
                "lower 1/2 scale 3\nsigned 1 weight -32768\nentry 0 5\nwide 1 -2147483648\n"
                "note 00 11 22 33 44 55 66 77\ndone\n")
        self.assertEqual(encode(text[0])[0].hex(),
                         "0102080209010704" "0101000000000000" "0200" "0501" + "00" * 8 + "06")
        self.assertEqual(encode(text[1])[0].hex(), "1000030001000000" "0200" "14010080" "12000500" "150100000080"
                         "4000112233445566771" "3")
        for part in text:
            plain = [line.split("#")[0].rstrip() for line in decode(encode(part)[0], ["a", "b"]).text().splitlines()]
            self.assertEqual("\n".join(plain) + "\n", part)

    def test_comments_and_blank_lines(self) -> None:
        spaced = "# a file\n\n" + F_PROBLEM.replace("\n", "   # why\n\n")
        self.assertEqual(encode(spaced)[0], encode(F_PROBLEM)[0])


class Damage(unittest.TestCase):
    def refusal(self, stream: bytes) -> Refusal:
        found = decode(stream).refusal
        assert found
        return found

    def test_cut(self) -> None:
        stream = encode(F_PROBLEM)[0][:20]
        refusal = self.refusal(stream)
        self.assertEqual((refusal.number, refusal.place), (2, 16))
        lines = decode(stream).text().splitlines()
        self.assertTrue(lines[-1].startswith("bytes 04 00 00 00"))
        self.assertIn("refusal 2 at byte 16: the command is cut: it has 11 bytes, 4 are there", lines[-1])
        self.assertEqual(len(lines), 4)

    def test_no_end_and_extra_bytes(self) -> None:
        stream = encode(F_PROBLEM)[0]
        last = decode(stream[:-1]).text().splitlines()[-1]
        self.assertIn("# refusal 2 at byte 68: the problem has no end command", last)
        extra = stream + b"\x06\x01"
        self.assertEqual(decode(extra).lines[-1].text, "bytes 06 01")
        self.assertEqual((self.refusal(extra).number, self.refusal(extra).place), (2, 69))

    def test_operands(self) -> None:
        for text, number, line in (
                ("variables a\nobjective 0 a\nend", 4, 2), ("variables a\nterm 1 a\nend", 3, 2),
                ("variables a\nbasis 0 a\nbasis 0 a\nend", 5, 3), ("variables a\nbasis 1 a\nend", 4, 2),
                ("variables a\norder 0\nend", 4, 2), ("variables a\nrule 3\nend", 4, 2),
                ("lower 1/1 scale 1\nsigned 0 weight 1\ndone", 4, 2), ("lower 1/1 scale 1\nwide 0 1\ndone", 3, 2),
                ("lower 1/1 scale 1\nrow 0 weight 1\nentry 1 1\nwide 1 1\ndone", 5, 4)):
            stream = encode(text)[0]
            decoded = decode(stream, ["a"])
            refusal = self.refusal(stream)
            self.assertEqual((refusal.number, decoded.line_at(refusal.place)[0]), (number, line), text)
            self.assertEqual(encode(decoded.text())[0], stream)

    def test_places_of_rule_and_order(self) -> None:
        """08 directly after 01, 09 directly after 01 or 08, and nowhere else."""
        for lines, number in (("rule 2", 0), ("order 1", 0), ("rule 1|order 255", 0), ("order 1|rule 1", 3),
                              ("equality|order 1", 3), ("order 1|order 1", 3), ("rule 1|rule 1", 3)):
            stream = encode("variables a|".replace("|", "\n") + lines.replace("|", "\n") + "\nend")[0]
            refusal = decode(stream).refusal
            self.assertEqual(refusal.number if refusal else 0, number, lines)

    def test_a_side_without_a_word(self) -> None:
        stream = bytes.fromhex("10070100000000000100" "13")
        self.assertEqual(decode(stream).lines[0].text, "bytes 10 07 01 00 00 00 00 00 01 00")
        self.assertEqual(self.refusal(stream).number, 4)

    def test_reading_refuses_as_the_stored_answers(self) -> None:
        """2 to 6 of this reader are those of the corpus."""
        self.assertGreater(self.compare(corpus()), 3000)

    @needs_vectors
    def test_reading_refuses_as_the_vectors(self) -> None:
        for kind in "bcp":
            self.assertGreater(self.compare(vectors(kind)), 40)

    def compare(self, cases: Iterable[tuple[str, list[bytes], str]]) -> int:
        seen = 0
        for kind, runs, answer in cases:
            words = answer.split()
            if kind not in "bcp" or words[0] != "refused" or not 2 <= int(words[1]) <= 6:
                continue
            number, stream, place = map(int, words[1:4])
            try:
                problem = read_problem(runs[0])
                for k in range(1, stream + 1):
                    read_certificate(runs[k], problem, k)
                self.fail(f"not refused: {answer}")
            except Refused as refused:
                found = refused.refusal
            self.assertEqual((found.number, found.stream, found.place), (number, stream, place), found.why)
            seen += 1
        return seen


class WrongText(unittest.TestCase):
    def wrong(self, text: str) -> str:
        with self.assertRaises(TextError) as caught:
            encode(text)
        return str(caught.exception)

    def test_messages(self) -> None:
        for text, message in (
                ("variables a\nobjectiv 1 a", "line 2: unknown word `objectiv`; expected one of "),
                ("variables a\nobjective a 1", "line 2: expected a whole number, not `a`"),
                ("variables a\n\nobjective 1 b", "line 3: expected a monomial of a, not `b`"),
                ("variables a\nobjective 1", "line 2: expected `objective COEFFICIENT MONOMIAL`"),
                ("variables a\nobjective 1.5 a", "line 2: expected a whole number, not `1.5`"),
                ("variables a\nobjective 2147483648 a", "line 2: the coefficient 2147483648 does not fit i32"),
                ("variables a\nconstraint 1", "line 2: expected `constraint`"),
                ("variables a a", "line 1: expected 1 to 8 different names"),
                ("variables 1a", "line 1: `1a` is no name of a variable"),
                ("variables a\nbasis 0 a^x", "line 2: expected an exponent after ^"),
                ("variables a\nbasis 0 a^256", "line 2: an exponent of `a^256` is above 255"),
                ("lower 1 scale 2", "line 1: expected `lower P/Q scale D`"),
                ("lower 1/1 scale 65536", "line 1: the D 65536 does not fit u16"),
                ("lower 1/1 scale 1\nrow 0 1", "line 2: expected `row BASIS weight NUMBER`"),
                ("lower 1/1 scale 1\nrow 0 weight 1\nentry 0 32768", "line 3: the factor 32768 does not fit i16"),
                ("note 00", "line 1: expected 8 bytes, found 1"),
                ("bytes 0", "line 1: expected bytes in hexadecimal")):
            self.assertTrue(self.wrong(text).startswith(message), self.wrong(text))


class Widths(unittest.TestCase):
    """All widths are checked where a command is written, whatever it is written for."""

    def test_every_operand(self) -> None:
        """The least and the largest number of each operand is written and read again; the next ones are refused."""
        for layout in BOTH.values():
            for at, width in enumerate(layout.numbers):
                bits = int(width[1:])
                ends = (-1 << bits - 1, (1 << bits - 1) - 1) if width[0] == "i" else (0, (1 << bits) - 1)
                for end, beyond in zip(ends, (ends[0] - 1, ends[1] + 1)):
                    numbers = [1] * len(layout.numbers)
                    numbers[at] = end
                    stream = write_command(layout, tuple(numbers))
                    self.assertEqual(read_command(stream, 0, layout).numbers, tuple(numbers))
                    numbers[at] = beyond
                    with self.assertRaises(WidthError) as caught:
                        write_command(layout, tuple(numbers))
                    self.assertIn(f"{beyond} does not fit {width}", str(caught.exception))
        for monomial in ((256,) + (0,) * 7, (-1,) + (0,) * 7):
            with self.assertRaises(WidthError):
                write_command(BOTH[0x05], (0,), monomial)
        with self.assertRaises(WidthError):
            write_command(BOTH[0x40], note=bytes(7))

    def test_problems_and_certificates(self) -> None:
        """A number that does not fit is a limit of the model, or a rounding that failed."""
        with self.assertRaises(LimitError):
            encode_problem(Problem(1, {ONE: 1 << 31}))
        with self.assertRaises(LimitError):
            encode_problem(Problem(1, {ONE: 1}, [Condition(False, {ONE: 1 << 15})]))
        for made in (Rounded(0, 2, 1 << 31, 1, []), Rounded(0, 1 << 16, 1, 1, []), Rounded(0, 2, 1, 0x10000, []),
                     Rounded(0, 2, 1, 1, [(0, 1 << 16, {0: 1})]), Rounded(0, 2, 1, 1, [(0, 1, {0: 1 << 31})])):
            with self.assertRaises(RoundingError):
                encode_certificate(Problem(1), made)


class Kinds(unittest.TestCase):
    def test_first_byte(self) -> None:
        self.assertIs(kind_of(b"\x10"), Kind.CERTIFICATE)
        self.assertIs(kind_of(b"\x01"), Kind.PROBLEM)
        self.assertIs(kind_of(b""), Kind.PROBLEM)


if __name__ == "__main__":
    unittest.main()
