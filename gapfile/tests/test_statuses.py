"""Each status means what is documented: programs that die or print nonsense, manifests with other JSON, pipes that
close, interrupts, and the last resort."""
import errno
import json
import os
import re
import signal
import subprocess
import sys
import tempfile
import time
import unittest
from pathlib import Path
from typing import Any
from unittest import mock

from gapfile import command, programs, statuses
from gapfile.explain import RULES
from gapfile.manifest import ManifestError, read_manifest
from gapfile.tests.support import CASE_F, EXAMPLES, RECORDED, ROOT, case_f, folder_of, needs_programs, run

GAPFILE = str(ROOT / "gapfile/gapfile")
ACCEPTED = "lower -1/1\nupper 1/1\ngap 2/1\nrounds 2"


def script(folder: Path, name: str, lines: str) -> Path:
    """A program that stands for another one."""
    file = folder / name
    file.write_text(f"#!/bin/sh\n{lines}\n")
    file.chmod(0o755)
    return file


def heeding() -> None:
    """A shell starts what runs in the background with interrupts ignored, and Python then leaves them so: not here."""
    for number in (signal.SIGINT, signal.SIGTERM):
        signal.signal(number, signal.SIG_DFL)


class Table(unittest.TestCase):
    def test_one_status_each(self) -> None:
        """Every error has a status; only a refusal has 1; what is in no table is a fault of gapfile."""
        seen = dict(statuses.TABLE)
        self.assertEqual([kind.__name__ for kind, status in seen.items() if status == 1], ["NotAccepted"])
        for error in (ValueError("x"), KeyError("x"), IndexError(), AssertionError(), RecursionError(), MemoryError(),
                      ZeroDivisionError(), UnicodeEncodeError("a", "b", 0, 1, "c"), NotImplementedError()):
            status, said = statuses.status_of(error)
            self.assertEqual(status, 70)
            self.assertIn("this is a fault of gapfile", said)
        self.assertEqual(statuses.status_of(OSError(errno.ENOSPC, "No space left on device", "a/b")),
                         (2, "a/b: No space left on device"))

    def test_the_last_resort(self) -> None:
        """A fault ends with a line and a status of its own, and with -v one sees where it happened."""
        for words, traced in ((["check"], False), (["check", "-v"], True)):
            with mock.patch.object(command, "streams_of", lambda _: 1 / 0):
                status, out, err = run(*words, CASE_F)
            self.assertEqual((status, out, "Traceback" in err), (70, "", traced))
            self.assertRegex(err, r"gapfile: this is a fault of gapfile: ZeroDivisionError: division by zero "
                                  r"\(test_statuses.py, line \d+\)")

    def test_documented(self) -> None:
        readme = (ROOT / "gapfile/README.md").read_text(encoding="utf-8")
        for status in {status for _, status in statuses.TABLE} | {0, statuses.DISAGREE, statuses.FAULT}:
            self.assertIn(f"\n| {status} | ", readme)
            self.assertRegex(statuses.STATUSES, rf"\b{status} ")


@needs_programs
class Programs(unittest.TestCase):
    def setUp(self) -> None:
        self.kept = tempfile.TemporaryDirectory()
        self.addCleanup(self.kept.cleanup)
        self.place = Path(self.kept.name)

    def checked(self, lines: str, name: str = "GAPCHECK", *words: object) -> tuple[int, str, str]:
        with mock.patch.dict(os.environ, {name: str(script(self.place, "program", lines))}):
            return run("check", *(words or (CASE_F,)))

    def test_gapcheck(self) -> None:
        """What is no verdict is named, with the program; it is never taken for one."""
        for lines, said in (
                ("echo nonsense", "printed what is no verdict: 'nonsense'"),
                ("true", "printed what is no verdict: ''"),
                ("printf 'lower 1/1\\nupper 2/1\\n'", "printed what is no verdict"),
                ("printf 'lower 1/0\\nupper 2/1\\ngap 1/1\\nrounds 1'", "printed what is no verdict"),
                ("printf 'lower 1/1\\nupper 2/1\\ngap 3/1\\nrounds 1'", "printed a gap that is not that of its bounds"),
                ("printf 'lower 2/1\\nupper 1/1\\ngap 1/1\\nrounds 1'", "printed a gap that is not that of its bounds"),
                ("printf 'lower 1/1\\nupper 2/1\\ngap empty\\nrounds 1'",
                 "printed a gap that is not that of its bounds"),
                (f"printf '{ACCEPTED}\\nmore'", "printed what is no verdict"),
                ("echo refused", "printed what is no verdict"), ("echo refused 9 7 0 0", "printed what is no verdict"),
                ("printf '\\377\\376'", "printed what is no verdict"),
                ("head -c 100000 /dev/zero", "printed what is no verdict"),
                (f"echo '{ACCEPTED}'; echo out of memory >&2; exit 3", "ended with status 3: out of memory"),
                ("kill -9 $$", "was killed by the signal SIGKILL"),
                ("kill -11 $$", "was killed by the signal SIGSEGV")):
            with self.subTest(lines=lines):
                status, out, err = self.checked(lines)
                self.assertEqual((status, out), (2, ""))
                self.assertIn(f"gapfile: {self.place}/program {said}", err)
                self.assertEqual(err.count("\n"), 1)

    def test_replay(self) -> None:
        files = [CASE_F / "problem.bin", CASE_F / "low.bin"]
        for lines in ("echo check 2 1/1 rounds 1 rule 1", "echo check 0 1/0 rounds 1 rule 1", "true"):
            status, _, err = self.checked(lines, "REPLAY", *files)
            self.assertEqual(status, 2)
            self.assertIn("printed what is no verdict", err)
        program = script(self.place, "program", "echo blocks 1 rounds 1 rule 1 00")
        with mock.patch.dict(os.environ, {"REPLAY": str(program)}):
            self.assertEqual(run("blocks", CASE_F / "problem.bin")[0], 2)

    def test_a_program_that_hangs(self) -> None:
        with mock.patch.object(programs, "PATIENCE", 0.2):
            status, _, err = self.checked("exec sleep 600")
        self.assertEqual(status, 2)
        self.assertIn("did not answer within", err)

    def test_missing(self) -> None:
        for path, said in (("/no/such/gapcheck", "/no/such/gapcheck is no file; GAPCHECK must name a gapcheck"),
                           (str(self.place), f"{self.place} is no file"),
                           ("/etc/passwd", "/etc/passwd: Permission denied")):
            with mock.patch.dict(os.environ, {"GAPCHECK": path}):
                status, _, err = run("check", CASE_F)
            self.assertEqual(status, 2)
            self.assertIn(said, err)

    def test_the_second_implementation_disagrees(self) -> None:
        """The one event for which it is asked has a status of its own, whichever of the two accepts."""
        for lines in ("echo refused 9 1 0 0", "echo 'pair -2/1 1/1 gap 3/1 rounds 2 rule 1'"):
            status, out, _ = self.checked(lines, "REFERENCE", "--second", CASE_F)
            self.assertEqual(status, 4)
            self.assertIn("second: the reference DISAGREES: ", out)
        status, out, _ = self.checked("echo 'pair -1/1 1/1 gap 2/1 rounds 2 rule 1'", "REFERENCE", "--second", CASE_F)
        self.assertEqual((status, out.splitlines()[-1]), (0, "second: the reference agrees"))
        status, out, _ = self.checked(f"echo '{ACCEPTED}'", "GAPCHECK", "--second", CASE_F / "problem.bin",
                                      CASE_F / "high.bin", CASE_F / "low.bin")
        self.assertEqual(status, 4)                              # a gapcheck that accepts what is refused
        self.assertIn("DISAGREES: refused 10 1 0 0", out)

    def test_which_gapcheck(self) -> None:
        """The program that is named is the one that the filing tells of, with its hash, and whether it is published."""
        wrapper = script(self.place, "mine", f'exec "{ROOT}/target/bin/gapcheck" "$@"')
        with mock.patch.dict(os.environ, {"GAPCHECK": str(wrapper)}):
            status, _, err = run("file", EXAMPLES / "crosstalk.gap", "-o", self.place / "filed", "--answers",
                                 RECORDED / "crosstalk")
            self.assertEqual(status, 0, err)
            build = programs.build("gapcheck")
        page = (self.place / "filed/sheet.html").read_text(encoding="utf-8")
        self.assertIn(f"gapcheck is {wrapper} (GAPCHECK), whose hash is none of the published ones", page)
        self.assertIn(build.digest, page)
        self.assertFalse(build.published)
        listed = self.place / "HASHES.md"
        listed.write_text(f"| gapcheck | {build.digest} |\n")
        with mock.patch.object(programs, "PUBLISHED", listed):
            self.assertTrue(build.published)


class Manifests(unittest.TestCase):
    GOOD: dict[str, Any] = {
        "factor": 2, "variables": [{"name": "x", "in the stream": "u1", "middle": "1/2", "half": "1/2"}],
        "sides": [{"relaxation": "1.5", "filed": "1/3", "attained": {"value": "1", "point": ["0"]}},
                  {"relaxation": 2, "attained": None}], "made": {"date": "2026-11-17"}}

    def test_good(self) -> None:
        read = read_manifest(json.dumps(self.GOOD).encode())
        self.assertEqual((read.factor, read.points, read.relaxations), (2, [[0], None], ["1.5", "2"]))

    def test_other_json(self) -> None:
        """Whatever stands there, the entry is named."""
        for raw, said in ((b"", "is no JSON"), (b"\xff", "is no JSON"), (b"[" * 100000, "is no JSON"),
                           (b"[]", "is no object"),
                           (b"7", "is no object"), (b"null", "is no object"),
                           (b'{"factor": ' + b"9" * 5000 + b"}", "is no JSON"),
                           (b" " * (1 << 21), "bytes")):
            with self.assertRaises(ManifestError) as caught:
                read_manifest(raw)
            self.assertIn(said, str(caught.exception))
        wrong: list[tuple[list[Any], Any, str]] = [
                (["factor"], 0, "factor is no whole number"), (["factor"], True, "factor is no whole number"),
                (["factor"], "2", "factor is no whole number"), (["factor"], -3, "factor is no whole number"),
                (["factor"], 1.5, "factor is no whole number"), (["factor"], None, "has no `factor`"),
                (["variables"], [], "variables is no list of 1 to 8"), (["variables"], {}, "variables is no list"),
                (["variables", 0], 3, "variables 1 is no object"),
                (["variables", 0, "half"], "-1", "half is not above 0"),
                (["variables", 0, "half"], "1/0", "half is no number"),
                (["variables", 0, "middle"], [], "middle is no number"),
                (["variables", 0, "middle"], "1e9", "middle is no number"),
                (["variables", 0, "name"], "<b>", "name is no name"), (["sides"], [{}], "sides 1 has no `side`"),
                (["sides"], [], "sides is no list of 1 to 2"), (["sides"], [{}] * 3, "sides is no list of 1 to 2"),
                (["sides"], [{"side": "left"}], "sides 1 side is neither lower nor upper"),
                (["sides"], [{"side": ["lower"]}], "sides 1 side is neither lower nor upper"),
                (["sides"], [{"side": "upper"}], "sides 1 has no `relaxation`"),
                (["sides", 0, "relaxation"], "nan", "relaxation is no finite number"),
                (["sides", 0, "attained"], {"value": "1", "point": ["0", "0"]}, "point is no list of 1"),
                (["sides", 0, "attained"], 7, "attained is no object"),
                (["made", "date"], "a\nb", "date is no line of words")]
        for path, value, said in wrong:
            data: Any = json.loads(json.dumps(self.GOOD))
            place = data
            for step in path[:-1]:
                place = place[step]
            place[path[-1]] = value
            with self.subTest(path=path, value=value), self.assertRaises(ManifestError) as caught:
                read_manifest(json.dumps(data).encode())
            self.assertIn("manifest.json", str(caught.exception))
            self.assertIn(said, str(caught.exception))

    @needs_programs
    def test_commands(self) -> None:
        with folder_of(*case_f()) as folder:
            (folder / "model.gap").write_text("var x in [-1, 1]\nbound x\n")
            for text in ("[]", "nonsense", '{"factor": []}'):
                (folder / "manifest.json").write_text(text)
                for name in ("check", "explain"):
                    status, _, err = run(name, folder)
                    self.assertEqual((status, err.count("\n")), (2, 1))
                    self.assertIn("manifest.json", err)


@needs_programs
class Pipes(unittest.TestCase):
    """The command in a process of its own, with its output closed, full, or read by one who leaves."""

    def setUp(self) -> None:
        self.kept = tempfile.TemporaryDirectory()
        self.addCleanup(self.kept.cleanup)
        self.place = Path(self.kept.name)
        self.words = f"{GAPFILE} file {EXAMPLES}/crosstalk.gap -o filed --answers {RECORDED}/crosstalk"

    def shell(self, line: str) -> tuple[int, str, str]:
        ran = subprocess.run(["bash", "-c", line], cwd=self.place, capture_output=True, text=True, timeout=600,
                             env={**os.environ, "PYTHONUNBUFFERED": "1"})
        said = [line for line in ran.stderr.splitlines() if not re.match(r"gapfile: \d+\.\d s: ", line)]
        return ran.returncode, ran.stdout, "\n".join(said)      # without the steps, which a slow machine shows

    def filed(self) -> bool:
        return (self.place / "filed/SUMS").exists()

    def test_a_reader_who_leaves(self) -> None:
        """The filing is whole before anything is printed, so that this is success."""
        for reader in ("head -1", "true"):
            status, _, err = self.shell(f"set -o pipefail; {self.words} --replace | {reader}")
            self.assertEqual((status, self.filed(), err), (0, True, ""))
        status, _, err = self.shell(f"set -o pipefail; {GAPFILE} check {CASE_F}/problem.bin {CASE_F}/high.bin "
                                    f"{CASE_F}/low.bin | true")
        self.assertEqual((status, err), (1, ""))                 # a refusal stays one

    def test_no_standard_output(self) -> None:
        self.assertEqual(self.shell(f"{self.words} >&-")[0], 0)
        self.assertTrue(self.filed())
        status, _, err = self.shell(f"{self.words} --replace >/dev/full")
        self.assertEqual((status, err), (2, "gapfile: standard output: No space left on device; what was to be written "
                                            "is written"))

    def test_no_standard_error(self) -> None:
        self.assertEqual(self.shell(f"{self.words} -v 2>/dev/full")[0], 0)
        self.assertEqual(self.shell(f"{self.words} -v --replace 2>&-")[0], 0)
        self.assertEqual(self.shell(f"{GAPFILE} check nothing 2>/dev/full")[0], 2)

    def test_interrupted(self) -> None:
        """While csdp goes on and on: one line, status 130, nothing written and nothing left."""
        script(self.place, "csdp", "[ $# = 0 ] && exit; echo $$ >started; exec sleep 600")
        environment = {**os.environ, "PATH": f"{self.place}:{os.environ['PATH']}", "TMPDIR": str(self.place / "tmp")}
        (self.place / "tmp").mkdir()
        for number, status in ((signal.SIGINT, 130), (signal.SIGTERM, 130)):
            process = subprocess.Popen([sys.executable, "-B", GAPFILE, "file", str(EXAMPLES / "two_decks.gap"), "-o",
                                        "filed", "-q"], cwd=self.place, env=environment, stderr=subprocess.PIPE,
                                       text=True, preexec_fn=heeding)
            end = time.monotonic() + 300
            while not list((self.place / "tmp").glob("*/started")) and time.monotonic() < end:
                time.sleep(0.05)
            process.send_signal(number)
            _, err = process.communicate(timeout=300)
            self.assertEqual((process.returncode, err),
                             (status, "gapfile: interrupted; a folder that was to be written is as it was, or whole\n"))
            self.assertEqual((sorted(os.listdir(self.place)), os.listdir(self.place / "tmp")), (["csdp", "tmp"], []))


@needs_programs
class Options(unittest.TestCase):
    def test_version_and_quiet(self) -> None:
        self.assertRegex(run("--version")[1], r"^gapfile \d")
        self.assertEqual(run("check", "-q", CASE_F), (0, "", ""))
        self.assertEqual(run("check", "-q", CASE_F / "problem.bin", CASE_F / "high.bin", CASE_F / "low.bin"),
                         (1, "", ""))

    def test_json(self) -> None:
        status, out, _ = run("check", "--json", "--second", CASE_F)
        data = json.loads(out)
        self.assertEqual((status, data["status"], data["accepted"], data["second"]["agrees"]), (0, 0, True, True))
        self.assertEqual(data["stream"]["lines"], ACCEPTED.splitlines())
        status, out, _ = run("explain", "--json", CASE_F / "problem.bin", CASE_F / "high.bin", CASE_F / "low.bin")
        data = json.loads(out)
        self.assertEqual((status, data["accepted"]), (1, False))
        self.assertIn(RULES[10], data["explained"][1])

    def test_standard_input(self) -> None:
        low = (CASE_F / "low.bin").read_bytes()
        ran = subprocess.run([GAPFILE, "check", str(CASE_F / "problem.bin"), "-", str(CASE_F / "high.bin")], input=low,
                             capture_output=True, check=False)
        self.assertEqual((ran.returncode, ran.stdout.decode().splitlines()[:4]), (0, ACCEPTED.splitlines()))
        self.assertEqual(run("check", "-", "-", CASE_F / "high.bin")[0], 2)
        with tempfile.TemporaryDirectory() as folder:
            model = (EXAMPLES / "crosstalk.gap").read_bytes()
            ran = subprocess.run([GAPFILE, "file", "-", "-o", f"{folder}/filed", "--answers",
                                  str(RECORDED / "crosstalk"), "--json"], input=model, capture_output=True, check=False)
            data = json.loads(ran.stdout)
            self.assertEqual(data["figures"]["upper"]["decimal"], "250440.00025")
            self.assertEqual(((Path(folder) / "filed/model.gap").read_bytes(), ran.returncode), (model, 0))


if __name__ == "__main__":
    unittest.main()
