"""Blocks of a problem: text, JSON and picture; symmetries, rule, order, and keys counted against 2,048."""
import json
import tempfile
import unittest
import xml.etree.ElementTree as xml
from pathlib import Path

from gapfile import proved
from gapfile.blocks import turning
from gapfile.picture import label
from gapfile.tests.support import EXAMPLES, needs_programs, needs_vectors, run, vectors
from gapfile.tests.test_explain import case_h
from gapfile.text import encode

SVG = "{http://www.w3.org/2000/svg}"
CASE_E = "variables x\n{}objective 1 x^6\nconstraint\nterm 1 x\nbasis 0 1\nbasis 0 x^3\nbasis 1 x\nend"


@needs_programs
class Symmetries(unittest.TestCase):
    def masks(self, text: str) -> list[int]:
        found = proved.symmetries(encode(text)[0])
        assert isinstance(found, list)
        return found

    def test_by_hand(self) -> None:
        """Bit i - 1 for variable i; every odd exponent vector has an even number of ones in common."""
        self.assertEqual(self.masks("variables a b\nobjective 1 a^2\nobjective 1 a*b\nend"), [0, 3])
        self.assertEqual(self.masks("variables a b\nobjective 1 a^2*b^4\nend"), [0, 1, 2, 3])
        self.assertEqual(self.masks("variables a b c\nobjective 1 a*b\nconstraint\nterm 1 b*c\nend"), [0, 7])
        self.assertEqual(self.masks("variables a b c\nobjective 1 a\nequality\nterm 1 b^3*c\nend"), [0, 6])
        self.assertEqual(len(self.masks("variables a b c d e f g h\nend")), 256)

    @needs_vectors
    def test_as_another_hand(self) -> None:
        """The masks of a share of the vectors."""
        found = [(runs, answer.split()) for _, runs, answer in vectors("s", "calls") if answer.startswith("symmetries")]
        for runs, words in found[::len(found) // 30 + 1]:
            masks = proved.symmetries(runs[0])
            assert isinstance(masks, list)
            self.assertEqual((len(masks), bytes(masks)), (int(words[1]), bytes.fromhex(words[2])[:len(masks)]))

    def test_none(self) -> None:
        self.assertEqual(self.masks("variables a b\nobjective 1 a\nobjective 1 b\nend"), [0])

    def test_in_words(self) -> None:
        """Bit i - 1 stands for variable i."""
        self.assertEqual([turning(mask, ["a", "b", "c"]) for mask in (0, 1, 5, 7)],
                         ["the identity", "turn the sign of a", "turn the signs of a and c together",
                          "turn the signs of a, b and c together"])


@needs_programs
class BlocksOfAProblem(unittest.TestCase):
    def blocks(self, stream: bytes, *options: str) -> tuple[int, str]:
        with tempfile.TemporaryDirectory() as folder:
            file = Path(folder) / "p.bin"
            file.write_bytes(stream)
            status, out, _ = run("blocks", file, *options)
        return status, out

    def test_forms(self) -> None:
        with tempfile.TemporaryDirectory() as folder:
            made = Path(folder) / "b.json", Path(folder) / "b.svg"
            status, out, _ = run("blocks", EXAMPLES / "ex5_5/problem.bin", "--json", made[0], "--svg", made[1])
            self.assertEqual(status, 0)
            self.assertEqual(out.splitlines()[:8], [
                "blocks 4", "rounds 2", "rule 1", "keys 9 of 2048",
                "sign symmetries 2: the identity; turn the signs of x1 and x2 together",
                "basis 0, 6 monomials in 2 blocks of 4 2", "  block 0: 1  x1^2  x1*x2  x2^2", "  block 1: x1  x2"])
            data = json.loads(made[0].read_text())
            self.assertEqual((data["blocks"], data["rounds"], data["keys"], data["symmetries"]), (4, 2, 9, [0, 3]))
            self.assertEqual(data["turned"], ["the identity", "turn the signs of x1 and x2 together"])
            self.assertEqual(data["bases"][1]["blocks"][1], {"number": 1, "monomials": ["x1", "x2"]})
            picture = xml.fromstring(made[1].read_text())
        squares = [r for r in picture.iter(SVG + "rect") if r.get("fill")]
        self.assertEqual(len(squares), 16 + 4 + 1 + 4)
        # ordered by block: the labels of basis 0, each at the left and above
        labels = [t.text for t in picture.iter(SVG + "text")]
        self.assertEqual(labels[0], "basis 0: 2 blocks")
        self.assertEqual(labels[1:13:2], ["1", "x1²", "x1·x2", "x2²", "x1", "x2"])
        self.assertEqual(labels[1:13:2], labels[2:13:2])

    def test_squares_by_block(self) -> None:
        """Each square stands where both of its monomials are of one block, in the order of the blocks."""
        picture = xml.fromstring(run("blocks", EXAMPLES / "ex5_5/problem.bin", "--svg", "-")[1])
        first = next(picture.iter(SVG + "g"))
        places = {(int(r.get("x", 0)) // 12, int(r.get("y", 0)) // 12) for r in first if r.get("fill")}
        self.assertEqual(places, {(a, b) for part in (range(4), range(4, 6)) for a in part for b in part})

    def test_names_and_standard_output(self) -> None:
        stream = (EXAMPLES / "ex5_5/problem.bin").read_bytes()
        status, out = self.blocks(stream, "--json", "-", "--names", "load,width")
        self.assertEqual((status, json.loads(out)["bases"][0]["blocks"][1]["monomials"]), (0, ["load", "width"]))
        self.assertEqual(self.blocks(stream, "--names", "load")[0], 2)

    def test_case_e_by_both_rules(self) -> None:
        """Under rule 1 x times x^2 puts x^3 into S, and 1 and x^3 join; under rule 2 it is counted and joins nothing.
        Counted are 1, x, x^3 and x^6 under both."""
        for rule, blocks, rounds in (("", 2, 3), ("rule 1\n", 2, 3), ("rule 2\n", 3, 1)):
            lines = self.blocks(encode(CASE_E.format(rule))[0])[1].splitlines()
            self.assertEqual(lines[:4], [f"blocks {blocks}", f"rounds {rounds}", f"rule {rule[5:6] or 1}",
                                         "keys 4 of 2048"])

    def test_chosen_order(self) -> None:
        """Case E after one round: x^3 is in S, and nothing has joined. After two 1 and x^3 are one block."""
        for order, blocks in ((1, 3), (2, 2)):
            lines = self.blocks(encode(CASE_E.format(f"order {order}\n"))[0])[1].splitlines()
            self.assertEqual(lines[:4], [f"blocks {blocks}", f"rounds {order} (at most {order})", "rule 1",
                                         "keys 4 of 2048"])
        lines = self.blocks(encode(CASE_E.format("rule 2\norder 9\n"))[0])[1].splitlines()
        self.assertEqual(lines[:4], ["blocks 3", "rounds 1 (at most 9)", "rule 2", "keys 4 of 2048"])

    def test_rule_2_counts_other_keys(self) -> None:
        """The closed support of two_decks_rule2 has 17 monomials and 21 are compared; under rule 1 it has 26."""
        stream = (EXAMPLES / "two_decks_rule2/problem.bin").read_bytes()
        self.assertIn("rule 2\nkeys 21 of 2048", self.blocks(stream)[1])
        self.assertIn("rule 1\nkeys 26 of 2048", self.blocks(stream[:3] + b"\x01" + stream[4:])[1])

    def test_the_limit(self) -> None:
        """Case H has exactly 2,048."""
        status, out = self.blocks(case_h())
        self.assertEqual(status, 0)
        self.assertIn("\nkeys 2048 of 2048\n", out)
        self.assertIn("sign symmetries 64: ", out)                   # x7 and x8 are seen alone, x1 to x6 never
        self.assertEqual(self.blocks(case_h("objective 1 x1"))[0], 1)

    def test_one_symmetry(self) -> None:
        self.assertIn("\nsign symmetries: none but the identity\n",
                      self.blocks((EXAMPLES / "two_decks/problem.bin").read_bytes())[1])

    def test_refused(self) -> None:
        status, out = self.blocks(b"\x01\x09\x06")
        self.assertEqual((status, out.splitlines()[3]), (1, "why: the number of variables is from 1 to 8"))

    def test_no_bases(self) -> None:
        """A picture without squares is a picture."""
        status, out = self.blocks(encode("variables x\nend")[0], "--svg", "-")
        self.assertEqual((status, xml.fromstring(out).tag), (0, SVG + "svg"))


class Labels(unittest.TestCase):
    def test_raised(self) -> None:
        self.assertEqual([label(t) for t in ("1", "x1", "x1^2*x2", "a^10*b^3")], ["1", "x1", "x1²·x2", "a¹⁰·b³"])


if __name__ == "__main__":
    unittest.main()
