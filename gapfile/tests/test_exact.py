"""The plain check of this tool against stored answers, and the count of keys against it."""
import unittest

from gapfile import exact
from gapfile.blocks import compared_keys
from gapfile.programs import Blocks
from gapfile.reading import KEYS, Problem, read_problem
from gapfile.tests.support import corpus, folders, needs_vectors, vectors


def blocks_of(problem: Problem) -> Blocks:
    """The blocks by the plain closure."""
    closed = exact.closure(problem)
    return Blocks(sum(len(set(b)) for b in closed.blocks), closed.rounds, problem.rule, closed.blocks)


def pair_line(problem: Problem, lines: list[str]) -> list[str]:
    """The lines of gapcheck as the line of `replay`."""
    if len(lines) == 1:
        return lines
    said = dict(line.split() for line in lines)
    return [f"pair {said['lower']} {said['upper']} gap {said['gap']} rounds {said['rounds']} rule {problem.rule}"]


class Stored(unittest.TestCase):
    def test_folders(self) -> None:
        seen = 0
        for folder in folders():
            expected = folder / "expected"
            files = [folder / f"{name}.bin" for name in ("problem", "low", "high")]
            streams = [file.read_bytes() if file.exists() else b"" for file in files]
            if not expected.exists() or max(map(len, streams)) > 6000:
                continue
            # the folders of another hand are document 01's, which says a gap below 0 and knows no 07, 08, 09 after 01
            said = ["gap empty" if line.startswith("gap -") else line for line in expected.read_text().splitlines()]
            if streams[0][2:3] in (b"\x07", b"\x08", b"\x09") and said[0].startswith("refused 3"):
                continue
            self.assertEqual(exact.pair(*streams), said, folder.name)
            seen += 1
        self.assertGreaterEqual(seen, 6)

    @needs_vectors
    def test_requests(self) -> None:
        """Equalities, wide factors, rule 2 and orders: a share of the vectors."""
        for k, (_, runs, answer) in enumerate(vectors("c")):
            if k % 3 == 0 and sum(map(len, runs)) < 1200:
                self.assertEqual(exact.check_lines(runs[0], runs[1]), [answer])
        for k, (_, runs, answer) in enumerate(vectors("p")):
            if k % 3 == 0 and sum(map(len, runs)) < 1200:
                lines = exact.pair(*runs)
                self.assertEqual(lines if len(lines) == 1 else pair_line(read_problem(runs[0]), lines), [answer])

    @needs_vectors
    def test_blocks_of_the_requests(self) -> None:
        """Blocks under both rules and at chosen orders."""
        self.assertGreater(self.compare([case for k, case in enumerate(vectors("b")) if k % 3 == 0]), 20)

    def test_blocks(self) -> None:
        """Rounds and blocks of a share of the corpus, of its end above all, where rule 2 is."""
        cases = [case for case in corpus() if case[0] == "b"]
        self.assertGreater(self.compare(cases[::7] + cases[-60:]), 100)

    def compare(self, cases: list[tuple[str, list[bytes], str]]) -> int:
        seen = 0
        for _, runs, answer in cases:
            if not answer.startswith("blocks") or len(runs[0]) > 800:
                continue
            problem = read_problem(runs[0])
            closed = exact.closure(problem)
            words = answer.split()
            table = bytes.fromhex(words[-1])
            for j, block in enumerate(closed.blocks):
                self.assertEqual(list(table[64 * j:64 * j + len(block)]), block)
            self.assertEqual((closed.rounds, problem.rule), (int(words[3]), int(words[5])))
            self.assertLessEqual(len(closed.compared), KEYS)
            self.assertEqual(compared_keys(problem, blocks_of(problem)), len(closed.compared))
            seen += 1
        return seen


if __name__ == "__main__":
    unittest.main()
