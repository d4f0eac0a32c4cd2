"""The worksheet: every cell against the formula of its row at points, sums by hand, and columns that do not add up."""
import json
import random
import re
import shutil
import tempfile
import unittest
from fractions import Fraction
from pathlib import Path
from typing import Callable
from unittest import mock

from gapfile import working
from gapfile.commands import key
from gapfile.programs import check_one
from gapfile.reading import read_certificate, read_problem
from gapfile.tests.support import CASE_F, EXAMPLES, corpus, folder_of, judge, needs_programs, run
from gapfile.tests.test_filing import Page
from gapfile.text import DEFAULT_NAMES
from gapfile.worksheet import WHY, worksheet
from gapfile.working import pretty

Point = dict[str, Fraction]
SHORT = 300                      # bytes of a certificate of the corpus that is multiplied out here


def value(formula: str, point: Point) -> Fraction:
    """A formula as it is printed, at a point, by Python's own arithmetic."""
    assert re.fullmatch(r"[-+*^() 0-9a-z]+", formula), formula
    return Fraction(eval(formula.replace("^", "**"), {"__builtins__": {}}, dict(point)))


def printed(out: str) -> tuple[dict[str, str], list[str], list[list[str]]]:
    """The definitions of f and the g, the heads, and the lines of a whole table, each with its words first."""
    lines = out.splitlines()
    given = dict(re.findall(r"^([fg]\d*) = (.*?)(?:, which is .*)?$", out, re.M))
    start = next(k for k, line in enumerate(lines) if line.startswith(" "))
    heads = lines[start].split()
    ends = [match.end() for match in re.finditer(r"\S+", lines[start])]
    cells = []
    for line in lines[start + 1:]:
        if line.startswith("all of it") or "do not add up" in line:
            break
        words = line[:line.find("  ") if "  " in line else len(line)]
        place, row = len(words), [words]
        for end in ends:
            row.append(line[place:end].strip())
            place = end
        cells.append(row)
    return given, heads, cells


@needs_programs
class Table(unittest.TestCase):
    def test_case_f(self) -> None:
        """By hand: 2 x (x + 1) is (1 + x)^2 + (1 - x^2), and 2 x (1 - x) is (1 - x)^2 + (1 - x^2)."""
        status, out, _ = run("work", CASE_F, "low")
        self.assertEqual((status, out), (0, """\
low.bin: the lower bound -1/1 of f, by 2 rows and 3 columns
f = x1
g1 = 1 - x1^2, which is >= 0 on the region
                 1  x1  x1^2
1*(1 + x1)^2     1   2     1
1*(1)^2*g1       1        -1
sum of the rows  2   2     0
2*(1*f + 1)      2   2     0
all of it adds up, in 3 columns
""" + WHY + """
replay: check 0 -1/1 rounds 2 rule 1
"""))
        status, out, _ = run("work", CASE_F, "high", "--column", "x1", "--names", "a")
        self.assertEqual(status, 2)                              # with another name it is no column
        status, out, _ = run("work", CASE_F, "high", "--column", " a ", "--names", "a")
        self.assertEqual((status, out.splitlines()[3:]), (0, [
            "the column of a:", "row  weight * products         gives  sum so far",
            "1    1*(2*1*(-1))                 -2          -2",
            "     2*(1 - 1*f): 2*(0 - 1*1)                 -2",
            "the last two sums are equal: the column adds up", "replay: check 1 1/1 rounds 2 rule 1"]))

    def test_every_cell(self) -> None:
        """At points of whole numbers each row's formula is the sum of its cells times their monomials; so are the sum
        and the claim. Equalities, wide factors, both rules and an order are among them."""
        chance = random.Random(7)
        for name in ("ex5_5", "contradictory", "bolted_decks", "two_decks_wide", "two_decks_rule2", "ring_order1"):
            for side in ("low", "high"):
                with self.subTest(folder=name, side=side):
                    status, out, err = run("work", EXAMPLES / name, side, "--all")
                    self.assertEqual(status, 0, err)
                    given, heads, cells = printed(out)
                    self.whole(given, heads, cells, chance)

    def whole(self, given: dict[str, str], heads: list[str], cells: list[list[str]], chance: random.Random) -> None:
        names = sorted(set(re.findall("x[1-8]", " ".join(given.values()))))
        *rows, total, claim = cells
        self.assertEqual(total[0], "sum of the rows")
        self.assertEqual(total[1:], claim[1:])
        for k in range(1, len(heads) + 1):
            self.assertEqual(sum(int(row[k] or 0) for row in rows), int(total[k]))
        point = {name: Fraction(chance.randrange(-4, 5)) for name in names}
        at = {**point, **{word: value(formula, point) for word, formula in given.items()}}
        for row in (*rows, claim):
            spread = sum(int(cell or 0) * value(head, point) for head, cell in zip(heads, row[1:], strict=True))
            self.assertEqual(spread, value(row[0], at), row[0])

    def test_every_column(self) -> None:
        """Products, what they give and the running sum, by Python's own arithmetic, to the sum of the whole table."""
        for name, side in (("ex5_5", "high"), ("bolted_decks", "low")):
            data = json.loads(run("work", EXAMPLES / name, side, "--json")[1])
            self.assertTrue(data["adds up"] and data["accepted"])
            for column, sums in list(data["columns"].items())[::5]:
                status, out, _ = run("work", EXAMPLES / name, side, "--column", column)
                self.assertEqual(status, 0)
                lines = out.partition("sum so far\n")[2].splitlines()
                so_far = 0
                for line in lines:
                    if not line[0].isdigit():
                        break
                    _, products, gives, running = re.split(r"\s{2,}", line)
                    so_far += int(gives)
                    self.assertEqual((value(products, {}), int(running)), (int(gives), so_far))
                self.assertEqual(str(so_far), sums["sum"])
                words, claim = re.split(r"\s{2,}", line.strip())
                self.assertEqual((str(value(words.partition(": ")[2], {})), claim), (sums["claim"], sums["claim"]))

    def test_a_large_one(self) -> None:
        """Of a wide table the sums are listed, one line a column, and how to see more."""
        status, out, _ = run("work", EXAMPLES / "two_decks", "low")
        self.assertEqual(status, 0)
        self.assertIn("\nall of it adds up, in 70 columns\n", out)
        self.assertIn("a column by its products: --column 'x4^4'; the whole table, 1066 letters wide: --all", out)
        self.assertRegex(out, r"\nx1\*x2\*x3\*x4 +\d+ +24390000000 +24390000000\n")       # 30 x 16260 x 50000

    def test_names_of_the_manifest(self) -> None:
        with tempfile.TemporaryDirectory() as place:
            folder = Path(place) / "f"
            shutil.copytree(CASE_F, folder)
            (folder / "manifest.json").write_text(json.dumps({
                "factor": 1, "variables": [{"name": "load", "in the stream": "u1", "middle": "0", "half": "2"}],
                "sides": [{"relaxation": "0"}, {"relaxation": "0"}]}))
            self.assertIn("\nf = u1\n", run("work", folder, "low")[1])


@needs_programs
class Wrong(unittest.TestCase):
    def changed(self, edit: Callable[[bytearray], None], *words: object) -> tuple[int, str, str]:
        """What `work` says of ex5_5 with an edited lower certificate."""
        streams = [(EXAMPLES / f"ex5_5/{name}.bin").read_bytes() for name in ("problem", "low", "high")]
        data = bytearray(streams[1])
        edit(data)
        with folder_of(streams[0], bytes(data), streams[2]) as folder:
            return run("work", folder, "low", *words)

    def test_columns_that_differ(self) -> None:
        """Every entry changed by 1: the key of the reference's refusal is that of the first column that differs, and
        what it accepts adds up; the status is that of the refusal."""
        problem_stream, stream = ((EXAMPLES / f"ex5_5/{name}.bin").read_bytes() for name in ("problem", "low"))
        problem = read_problem(problem_stream)
        for row in read_certificate(stream, problem).rows:
            for place in row.places.values():
                if stream[place] != 0x12:
                    continue
                data = bytearray(stream)
                data[place + 2] ^= 1
                verdict = check_one(problem_stream, bytes(data), judge())
                if verdict.accepted or verdict.refusal and verdict.refusal.number == 9:
                    sheet = worksheet(problem, read_certificate(bytes(data), problem), DEFAULT_NAMES)
                    wanted = verdict.refusal.key if verdict.refusal else None
                    self.assertEqual(min(map(key, sheet.wrong), default=None), wanted)
        place = next(iter(read_certificate(stream, problem).rows[0].places.values()))

        def edit(data: bytearray) -> None:
            data[place + 2] ^= 1
        status, out, _ = self.changed(edit)
        self.assertEqual(status, 1)
        self.assertRegex(out, r"\d+ of 7 columns do not add up: ")
        self.assertIn("replay: refused 9 1 0 ", out)
        wrong = re.search(r"do not add up: ([^ ,]+)", out)
        assert wrong
        status, out, _ = self.changed(edit, "--column", wrong[1])
        self.assertEqual(status, 1)
        self.assertIn("DIFFERS: the sum is not what is claimed", out)

    def test_unreadable(self) -> None:
        """A cut certificate has no table; a missing file, a side and a column that are none are named."""
        def cut(data: bytearray) -> None:
            del data[-3:]
        status, out, err = self.changed(cut)
        self.assertEqual((status, err), (1, ""))
        self.assertIn("low.bin cannot be read: `gapfile explain` says why", out)
        for words, said in ((("--column", "x1*y"), "expected a monomial of x1, x2, not `x1*y`"),
                            (("--column", "x1^9"), "no row and no term of the claim has x1^9"),
                            (("--column", ""), "expected a monomial"),
                            (("--names", "a"), "the problem has 2 variables, and 1 names are given")):
            status, out, err = self.changed(lambda data: None, *words)
            self.assertEqual((status, out), (2, ""), words)
            self.assertIn(said, err)
        self.assertEqual(run("work", EXAMPLES / "ex5_5", "middle")[0], 2)
        status, _, err = run("work", EXAMPLES / "none", "low")
        self.assertEqual(status, 2)
        self.assertIn("problem.bin: No such file or directory", err)

    def test_disagreement(self) -> None:
        """Where the checker accepts what does not add up, the status is that of a disagreement."""
        problem, low = ((EXAMPLES / f"ex5_5/{name}.bin").read_bytes() for name in ("problem", "low"))
        good = check_one(problem, low)

        def edit(data: bytearray) -> None:
            data[4] ^= 1
        with mock.patch.object(working, "check_one", lambda *_: good):
            status, _, err = self.changed(edit)
        self.assertEqual(status, 4)
        self.assertIn("the columns and the checker disagree", err)


class Corpus(unittest.TestCase):
    def test_the_stored_answers(self) -> None:
        """The short certificates of the stored corpus, whose answers are the reference's: what is accepted adds up, and
        what is refused with 9 differs first at that key."""
        seen = {0: 0, 9: 0}
        for kind, runs, line in corpus():
            words = line.split()
            number = int(words[1]) if words[0] == "refused" else 0
            if kind == "c" and number in seen and len(runs[1]) < SHORT:
                problem = read_problem(runs[0])
                sheet = worksheet(problem, read_certificate(runs[1], problem), DEFAULT_NAMES)
                wanted = int(words[4]) if number else None
                self.assertEqual(min(map(key, sheet.wrong), default=None), wanted, line)
                seen[number] += 1
        self.assertGreater(min(seen.values()), 100)


@needs_programs
class AsAPage(unittest.TestCase):
    def page(self, *words: object) -> str:
        status, out, err = run("work", *words, "--html", "-")
        self.assertEqual(status, 0, err)
        found = Page(out)
        self.assertEqual((found.open, found.fetched, found.scripts), ([], [], 0))
        return out

    def test_pages(self) -> None:
        """The whole table, one column, and of a large one the sums; nothing is fetched and nothing runs."""
        out = self.page(CASE_F, "low")
        self.assertIn("<td class=\"left\">1·(1 + x1)²</td><td>1</td><td>2</td><td>1</td>", out)
        self.assertIn("<p class=\"given\">g1 = 1 − x1², which is ≥ 0 on the region</p>", out)
        self.assertIn("All of it adds up, in 3 columns.", out)
        out = self.page(EXAMPLES / "ex5_5", "low", "--column", "x1*x2")
        self.assertIn("<td class=\"left\">1·(2·(−32024)·32024)</td><td>−2051073152</td>", out)
        self.assertEqual(self.page(EXAMPLES / "two_decks", "low").count("<tr"), 71)
        self.assertGreater(self.page(EXAMPLES / "two_decks", "low", "--all").count("<td>"), 4000)

    def test_a_file(self) -> None:
        with tempfile.TemporaryDirectory() as place:
            status, out, _ = run("work", CASE_F, "low", "--html", Path(place) / "work.html")
            self.assertEqual(status, 0)
            self.assertIn("all of it adds up", out)
            self.assertIn("Worksheet of low.bin", (Path(place) / "work.html").read_text(encoding="utf-8"))

    def test_pretty(self) -> None:
        self.assertEqual(pretty("2*x^12 - <b> >= 0"), "2·x¹² − &lt;b&gt; ≥ 0")


if __name__ == "__main__":
    unittest.main()
