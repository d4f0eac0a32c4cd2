"""The commands on the calls of the requests: their help, and the folders of examples/commands, run as they are typed,
by the proved programs and with the plain reference in the place of `replay`."""
import os
import random
import re
import shutil
import subprocess
import tempfile
import unittest
from pathlib import Path
from typing import Optional

from gapfile import asking
from gapfile.tests.support import EXAMPLES, REFERENCE, ROOT, needs_programs, needs_reference, needs_weekcheck, run

COMMANDS = EXAMPLES / "commands"
GAPFILE = ROOT / "gapfile"


def ran(script: Path, replay: Optional[Path]) -> tuple[int, str, str]:
    """A script of an example, run in an empty folder beside the examples."""
    with tempfile.TemporaryDirectory() as name:
        (Path(name) / "examples").symlink_to(EXAMPLES)
        asked = {"REPLAY": str(replay)} if replay else {}
        environment = {**os.environ, "PATH": f"{GAPFILE}:{os.environ['PATH']}", **asked}
        done = subprocess.run(["bash", "-e", str(script)], cwd=name, capture_output=True, text=True, env=environment,
                              timeout=600, check=False)
    said = [line for line in done.stderr.splitlines() if not re.match(r"gapfile: \d+\.\d s: ", line)]
    return done.returncode, done.stdout, "\n".join(said)


class Help(unittest.TestCase):
    def test_every_command(self) -> None:
        for command, example in asking.EXAMPLES.items():
            status, out, _ = run(command, "--help")
            self.assertEqual(status, 0)
            self.assertIn(f"example: {example}\n", out)
            self.assertTrue(example.startswith(f"gapfile {command} "))
            for words in ("Exit status: 0 accepted or done, 1 refused, 2 usage", "--json", "--quiet", "--verbose"):
                self.assertIn(words, out)

    def test_files_of_the_examples(self) -> None:
        """What an example names below examples/ is there."""
        for example in asking.EXAMPLES.values():
            for path in re.findall(r"examples/\S+", example):
                self.assertTrue((ROOT / path).exists(), path)

    def test_every_command_has_a_folder(self) -> None:
        typed = "".join(file.read_text() for file in COMMANDS.glob("*/run"))
        for command in (*asking.EXAMPLES, "blocks"):
            self.assertIn(f"gapfile {command} ", typed)
        listed = (COMMANDS / "README.md").read_text()
        for folder in COMMANDS.iterdir():
            self.assertTrue(folder.name == "README.md" or f"| `{folder.name}` |" in listed, folder.name)


@needs_programs
@needs_weekcheck
class Examples(unittest.TestCase):
    def test_as_proved(self) -> None:
        for folder in sorted(file.parent for file in COMMANDS.glob("*/run")):
            self.assertEqual(ran(folder / "run", None), (0, (folder / "expected").read_text(), ""), folder.name)

    @needs_reference
    def test_as_the_reference(self) -> None:
        """`expected` holds the reference's answers: it stands in the place of `replay` here."""
        with tempfile.TemporaryDirectory() as name:
            replay = Path(name) / "replay"
            replay.write_text(f"#!/bin/sh\nexec {REFERENCE} replay\n")
            replay.chmod(0o755)
            for file in sorted(COMMANDS.glob("*/run")):
                if file.parent.name != "week":                   # by weekcheck; test_weekly compares its report
                    expected = file.with_name("expected").read_text()
                    self.assertEqual(ran(file, replay), (0, expected, ""), file.parent.name)


def damaged(data: bytes, chance: random.Random) -> bytes:
    """The bytes with some changed, cut, put in or taken out."""
    out = bytearray(data)
    for _ in range(chance.randrange(1, 4)):
        at, end = sorted(chance.randrange(len(out) + 1) for _ in range(2))
        way = chance.randrange(4)
        if way == 0:
            out[at:at + 1] = bytes([chance.randrange(256)])
        elif way == 1:
            del out[at:]
        elif way == 2:
            out[at:at] = chance.randbytes(chance.randrange(1, 10))
        else:
            del out[at:min(end, at + 12)]
    return bytes(out)


@needs_programs
@needs_weekcheck
class Damaged(unittest.TestCase):
    """Whatever the files of a folder hold: a status that means something, words for it, and no fault of gapfile."""

    def setUp(self) -> None:
        kept = tempfile.TemporaryDirectory()
        self.addCleanup(kept.cleanup)
        self.place = Path(kept.name)

    def ends_well(self, *words: object) -> None:
        status, out, err = run(*words)
        self.assertIn(status, (0, 1, 2, 5), (words, err))
        self.assertTrue(status == 0 or (out + err).strip(), words)
        self.assertNotIn("Traceback", err)

    def test_folders(self) -> None:
        chance, other = random.Random(20261117), COMMANDS / "sum/first"
        for k in range(24):
            folder = self.place / f"d{k}"
            shutil.copytree(other if k % 3 else COMMANDS / "notes/noted", folder)
            for file in chance.sample(sorted(folder.iterdir()), 1 + k % 2):
                file.write_bytes(damaged(file.read_bytes(), chance))
            for words in chance.sample([
                    ("sum", folder, other), ("sum", other, folder, "-o", self.place / "sum.html"), ("notes", folder),
                    ("adjust", folder, "a", "b +- 1"), ("adjust", folder, "--blank"),
                    ("note", folder, "words", "--json"), ("notes", folder, "--strict", self.place / f"s{k}"),
                    ("week", folder, "-o", self.place / "w.bin"),
                    ("tighter", *(folder / f"{name}.bin" for name in ("problem", "low", "low")), "-o", self.place / "o"),
                    ("blocks", folder / "problem.bin")], 3):
                self.ends_well(*words)

    def test_weeks_and_changes(self) -> None:
        chance = random.Random(17112026)
        run("week", EXAMPLES / "ex5_5", COMMANDS / "sum/first", "-o", self.place / "week.bin")
        for k in range(8):
            for name in ("bin", "names"):
                data = (self.place / f"week.{name}").read_bytes()
                (self.place / f"k.{name}").write_bytes(damaged(data, chance) if chance.random() < 0.7 else data)
            self.ends_well("week", "--check", self.place / "k.bin")
            text = "".join(chance.choices("ab12.+-*/^()± e%#x", k=chance.randrange(1, 14)))
            self.ends_well("adjust", COMMANDS / "sum/first", "--", text)


@needs_programs
class Pipes(unittest.TestCase):
    """In a process of its own, with its output closed, full, or read by one who leaves."""

    def shell(self, place: str, line: str) -> tuple[int, str]:
        done = subprocess.run(["bash", "-c", f"set -o pipefail; {line}"], cwd=place, capture_output=True, text=True,
                              timeout=600, env={**os.environ, "PATH": f"{GAPFILE}:{os.environ['PATH']}"}, check=False)
        said = [text for text in done.stderr.splitlines() if not re.match(r"gapfile: \d+\.\d s: ", text)]
        return done.returncode, "\n".join(said)

    def test_files_are_written_before_anything_is_printed(self) -> None:
        first, decks = EXAMPLES / "commands/sum/first", EXAMPLES / "two_decks"
        lines = {
            f"gapfile tighter {decks}/problem.bin {decks}/low.bin {decks}/low.bin -o out": "out",
            f"gapfile sum {first} {first} -o sum.html": "sum.html",
            f"gapfile adjust {first} a -o changes": "changes",
            f"rm -rf d d.notes && cp -r {first} d && gapfile note d seen": "d.notes/low.bin",
            f"gapfile notes {EXAMPLES}/commands/notes/noted --strict strict": "strict/high.bin",
        }
        for line, file in lines.items():
            for end, status in (("| true", 0), (">&-", 0), (">/dev/full", 2)):
                with tempfile.TemporaryDirectory() as place:
                    found, err = self.shell(place, f"{line} {end}")
                    self.assertEqual(found, status, (line, end, err))
                    full = "gapfile: standard output: No space left on device; what was to be written is written"
                    self.assertEqual(err, full if status else "")
                    self.assertTrue((Path(place) / file).exists(), (line, end))


if __name__ == "__main__":
    unittest.main()
