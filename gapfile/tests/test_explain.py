"""What a refusal means: single changes with the differences worked out by hand, places, rows over two blocks, the
limit."""
import hashlib
import unittest

from gapfile.explain import ADVICE, RULES
from gapfile.tests.support import CASE_F, EXAMPLES, case_f, folder_of, needs_programs, run
from gapfile.text import encode

# case H: one constraint with 32 terms in x7 and x8, basis 1 the 64 products of subsets of x1 to x6
H_TERMS = [f"term 1 {'*'.join(part for part in ((f'x7^{i}' if i else ''), x8) if part) or '1'}"
           for x8 in ("", "x8") for i in range(16)]
H_BASIS = ["*".join(f"x{k + 1}" for k in range(6) if m >> k & 1) or "1" for m in range(64)]


def case_h(*objective: str) -> bytes:
    return encode("\n".join(["variables " + " ".join(f"x{k}" for k in range(1, 9)), *objective, "constraint", *H_TERMS,
                             *(f"basis 1 {b}" for b in H_BASIS), "end"]))[0]


@needs_programs
class Explain(unittest.TestCase):
    def explained(self, problem: bytes, low: bytes, high: bytes, *options: str) -> list[str]:
        with folder_of(problem, low, high) as folder:
            status, out, _ = run("explain", folder, *options)
        self.assertEqual(status, 1)
        lines = out.splitlines()
        number = int(lines[0].split()[1])
        self.assertEqual(lines[-1], ADVICE[number])              # the last line always says what to do
        return lines[:-1]

    def test_nothing(self) -> None:
        status, out, _ = run("explain", CASE_F)
        self.assertEqual((status, out.splitlines()[-1]), (0, "accepted: nothing to explain"))

    def test_empty(self) -> None:
        """The conditions that have rows, and no others."""
        status, out, _ = run("explain", EXAMPLES / "contradictory", "--names", "a,b")
        self.assertEqual(status, 0)
        self.assertEqual(out.splitlines()[4:], [
            "accepted, and the bounds cross: at least 2 and at most -2, so no point meets all the conditions",
            "those with rows contradict each other:", "  condition 1: 1 - a^2 - b^2 >= 0",
            "  condition 2: a + b - 2 >= 0"])

    def test_empty_with_equalities(self) -> None:
        """-1 = -(x) + (x - 1), beside a condition that no row is on."""
        problem = encode("variables x\nequality\nterm 1 x\nconstraint\nterm 5 1\nequality\nterm 1 x\nterm -1 1\n"
                         "basis 1 1\nbasis 3 1\nend")[0]
        low, high = [encode(f"{bound} scale 1\nsigned 1 weight -1\nentry 0 1\nsigned 3 weight 1\nentry 0 1\ndone")[0]
                     for bound in ("lower 1/1", "upper -1/1")]
        with folder_of(problem, low, high) as folder:
            status, out, _ = run("explain", folder)
        self.assertEqual((status, out.splitlines()[2]), (0, "gap empty"))
        self.assertEqual(out.splitlines()[-2:], ["  condition 1: x1 = 0", "  condition 3: x1 - 1 = 0"])

    def test_single_factor(self) -> None:
        """l = 3 in place of 1 on x: (1 + 3x)^2 + (1 - x^2) has 6x and 8x^2 where 2x and nothing are due."""
        problem, low, high = case_f()
        out = self.explained(problem, low[:20] + b"\x03\x00" + low[22:], high)
        self.assertEqual(out[:4], ["refused 9 1 0 1", "the identity is false, in the first certificate",
                                   "line 1, byte 0: lower -1/1 scale 2",
                                   "the smallest key that differs is 1, that of x1"])
        self.assertEqual(out[4], "2 monomials differ; the left is D x (q x objective - p), the right the sum of the "
                                 "rows; D x q is 2")
        self.assertEqual(out[5:], ["  x1^2  left 0  right 8  difference 8  (4 in the objective's units)",
                                   "  x1    left 2  right 6  difference 4  (2 in the objective's units)"])

    def test_single_coefficient_of_the_objective(self) -> None:
        """5 in place of 1 on x in the objective: left 2 x 5, right 2."""
        problem, low, high = case_f()
        out = self.explained(problem[:11] + b"\x05" + problem[12:], low, high)
        self.assertEqual(out[5:], ["  x1  left 10  right 2  difference -8  (-4 in the objective's units)"])

    def test_single_coefficient_of_a_constraint(self) -> None:
        """-3 in place of -1 on x^2 in the constraint: (1 + x)^2 + (1 - 3x^2) has -2x^2 where nothing is due."""
        problem, low, high = case_f()
        at = problem.index(b"\xff\xff")
        out = self.explained(problem[:at] + b"\xfd\xff" + problem[at + 2:], low, high, "--names", "load")
        self.assertEqual(out[0], "refused 9 1 0 2")
        self.assertEqual(out[5:], ["  load^2  left 0  right -2  difference -2  (-1 in the objective's units)"])

    def test_single_weight(self) -> None:
        """w = 4 in place of 1 on the constraint: 4 (1 - x^2) has 3 more at 1 and 3 less at x^2. Key 0 comes first."""
        problem, low, high = case_f()
        out = self.explained(problem, low[:24] + b"\x04\x00" + low[26:], high)
        self.assertEqual(out[0], "refused 9 1 0 0")
        self.assertEqual([line.split() for line in out[5:]],
                         ["1 left 2 right 5 difference 3 (1.5 in the objective's units)".split(),
                          "x1^2 left 0 right -3 difference -3 (-1.5 in the objective's units)".split()])

    def test_upper_side(self) -> None:
        """p = 2 in the upper one: D x (p - q x f) = 2 x (2 - x), right 2 - 2x: only the constant differs, by -2."""
        problem, low, high = case_f()
        out = self.explained(problem, low, high[:4] + b"\x02" + high[5:])
        self.assertEqual(out[0], "refused 9 2 0 0")
        self.assertIn("1 monomial differs; the left is D x (p - q x objective)", out[4])
        self.assertEqual(out[5].split()[:7], "1 left 4 right 2 difference -2".split())
        self.assertEqual(out[6:], ["only the constant differs: these rows prove the upper bound 1; with `upper 1/1 "
                                   "scale 2` as its first line it is accepted"])

    def test_equality_and_wide_factor(self) -> None:
        """x = 0 as an equality, basis 1: 1. -70000^2 x stands for x + 0: the difference is -70000^2 - 1 at x."""
        problem = encode("variables x\nobjective 1 x\nequality\nterm 1 x\nbasis 1 1\nend")[0]
        low = encode("lower 0/1 scale 1\nsigned 1 weight -1\nwide 0 70000\ndone")[0]
        out = self.explained(problem, low, b"")
        self.assertEqual(out[5].split()[:7], f"x1 left 1 right {-70000 ** 2} difference {-70000 ** 2 - 1}".split())

    def test_example_with_one_coefficient_changed(self) -> None:
        """In two_decks 31 for 30 at x1*x2*x3*x4 moves the left by D x q = 16260 x 50000."""
        folder = EXAMPLES / "two_decks"
        problem, low, high = [(folder / f"{n}.bin").read_bytes() for n in ("problem", "low", "high")]
        at = problem.index(b"\x02\x01\x01\x01\x01\0\0\0\0\x1e") + 9
        out = self.explained(problem[:at] + b"\x1f" + problem[at + 1:], low, high)
        self.assertEqual(len(out), 6)
        self.assertIn(f"difference {-16260 * 50000}", out[5])

    def test_place(self) -> None:
        problem, low, high = case_f()
        out = self.explained(problem, low[:19] + b"\x02" + low[20:], high)
        self.assertEqual(out[2:], ["line 4, byte 18: entry 2 1",
                                   "why: the index 2 is not below the length 2 of basis 0"])
        self.assertEqual(self.explained(problem[:-1], low, high)[2:],
                         ["after line 8, at byte 68, the end of the file", "why: the problem has no end command"])
        self.assertEqual(self.explained(problem, low, high[:5])[:3],
                         ["refused 2 2 0 0", "the stream is cut, has no end, or goes on after its end, in the second "
                          "certificate", "line 1, byte 0: bytes 10 01 02 00 01"])

    def test_sides(self) -> None:
        problem, low, high = case_f()
        out = self.explained(problem, high, low)
        self.assertEqual(out, ["refused 10 1 0 0", f"{RULES[10]}, in the first certificate",
                               "line 1, byte 0: upper 1/1 scale 2",
                               "the first certificate states an upper bound and the "
                               "second a lower one: the files are exchanged"])
        self.assertEqual(self.explained(problem, low, low)[-1], "both certificates are the same file")

    def test_every_number_has_advice(self) -> None:
        self.assertEqual(set(ADVICE), set(RULES))
        for number, said in ADVICE.items():
            self.assertTrue(said.startswith("what to do: "), number)
        self.assertIn("`gapfile decode", ADVICE[9])

    def test_exchanged_files(self) -> None:
        problem, low, high = case_f()
        self.assertIn("the problem begins as a certificate does, and the first certificate as a problem: the files are "
                      "exchanged", self.explained(low, problem, high))
        self.assertIn("the first certificate begins as a problem does: the files are exchanged",
                      self.explained(problem, problem, high))
        self.assertIn("the problem begins as a certificate does: the files are exchanged",
                      self.explained(low, low, high))

    def test_a_certificate_of_another_problem(self) -> None:
        problem = (EXAMPLES / "two_decks/problem.bin").read_bytes()
        low, high = [encode(f"{word} 0/1 scale 1\ndone")[0] for word in ("lower", "upper")]
        out = self.explained(problem, low, high)
        self.assertEqual(out[-1], "most monomials differ: this is likely a certificate of another problem")

    def test_sums_beside(self) -> None:
        """Where SUMS lists another file, that is said."""
        problem, low, high = case_f()
        sums = "".join(f"{hashlib.sha256(stream).hexdigest()}  {name}\n" for name, stream in
                       (("problem.bin", problem), ("low.bin", low), ("high.bin", high)))
        with folder_of(problem, low[:20] + b"\x03\x00" + low[22:], high) as folder:
            (folder / "SUMS").write_text(sums)
            lines = run("explain", folder)[1].splitlines()
        self.assertEqual(lines[-2], "low.bin is not the file that SUMS lists: it was changed, or is of another filing")

    def test_the_bound_that_the_rows_prove(self) -> None:
        """Any p in case F's lower certificate: the rows prove -1, and with that p it is accepted."""
        problem, low, high = case_f()
        for p in (-7, -2, 0, 1, 300):
            changed = low[:4] + p.to_bytes(4, "little", signed=True) + low[8:]
            out = self.explained(problem, changed, high)
            self.assertEqual(out[-1], "only the constant differs: these rows prove the lower bound -1; with `lower "
                                      "-1/1 scale 2` as its first line it is accepted")
        odd = encode("lower 0/1 scale 2\nrow 0 weight 1\nentry 0 1\nentry 1 1\nrow 1 weight 1\nentry 0 1\n"
                     "row 0 weight 1\nentry 0 1\ndone")[0]
        self.assertEqual(self.explained(problem, odd, high)[-1], "only the constant differs: these rows prove the "
                         "lower bound -3/2; no p and q of its first line say that with this D")

    def test_a_note(self) -> None:
        """The strict check reads no note: the line is shown, and why."""
        problem, low, high = case_f()
        out = self.explained(problem, low[:-1] + b"\x40" + bytes(8) + low[-1:], high)
        self.assertEqual(out[2:], ["line 7, byte 30: note 00 00 00 00 00 00 00 00",
                                   "why: this gapcheck does not read command 40 (`note`) here"])

    def test_two_blocks(self) -> None:
        """Case D: a row on x1 and x2."""
        problem = encode("variables x1 x2\nobjective 1 x1^2\nobjective 1 x2^2\n"
                         "basis 0 1\nbasis 0 x1\nbasis 0 x2\nend")[0]
        low = encode("lower 0/1 scale 1\nrow 0 weight 1\nentry 1 1\nentry 2 1\ndone")[0]
        self.assertEqual(self.explained(problem, low, b"")[2:], [
            "line 2, byte 10: row 0 weight 1", "line 3: entry 1, factor 1, x1  block 1",
            "line 4: entry 2, factor 1, x2  block 2   <- the first entry outside the row's first block",
            "block 1 of basis 0: x1", "block 2 of basis 0: x2"])

    def test_too_many_keys(self) -> None:
        """Case H has exactly 2,048: 64 blocks of one, so 64 doubled subsets times 32 terms. With x1 as objective 1 and
        x1 join, as their sum is in S, and more follow."""
        out = self.explained(case_h("objective 1 x1"), b"", b"")
        self.assertEqual(out[0], "refused 7 0 0 0")
        self.assertRegex(out[2], r"^\d+ monomials, \d+ too many; by basis:$")
        counts = dict(line.strip().split(": ", 1) for line in out[3:])
        self.assertEqual(list(counts), ["objective", "basis 0", "basis 1"])
        self.assertEqual(counts["objective"], "1, of them 0 from nowhere else")
        self.assertEqual(counts["basis 0"], "0, of them 0 from nowhere else")
        total = int(out[2].split()[0])
        self.assertEqual(counts["basis 1"], f"{total}, of them {total - 1} from nowhere else")


if __name__ == "__main__":
    unittest.main()
