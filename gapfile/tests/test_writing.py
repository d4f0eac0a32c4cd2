"""Nothing is lost: an error at every step of writing, a full disk, links, folders that hold something else."""
import contextlib
import errno
import os
import stat
import subprocess
import tempfile
import unittest
from pathlib import Path
from typing import Any, Callable, Iterator
from unittest import mock

from gapfile import writing
from gapfile.tests.support import EXAMPLES, RECORDED, needs_programs, run
from gapfile.writing import OutputError, check_folder, write_file, write_folder

OLD = {"model.gap": b"old model", "sheet.html": b"old sheet", "SUMS": b"old sums"}
NEW = {"model.gap": b"new model", "problem.bin": b"new problem", "sheet.html": b"new sheet", "SUMS": b"new sums"}


def held(folder: Path) -> dict[str, bytes]:
    return {path.name: path.read_bytes() for path in folder.iterdir()}


class Failing:
    """Stands for a function, and fails at its n-th call; where the call would write, it writes half."""

    def __init__(self, function: Callable[..., Any], at: int, error: BaseException) -> None:
        self.function, self.at, self.error, self.count = function, at, error, 0

    def __call__(self, *arguments: Any, **named: Any) -> Any:
        self.count += 1
        if self.count == self.at:
            raise self.error
        return self.function(*arguments, **named)


@contextlib.contextmanager
def tmpfs(size: str) -> Iterator[Path]:
    """A small file system; skips the test where none may be mounted."""
    with tempfile.TemporaryDirectory() as place:
        made = subprocess.run(["mount", "-t", "tmpfs", "-o", f"size={size}", "tmpfs", place], capture_output=True)
        if made.returncode:
            raise unittest.SkipTest("no file system may be mounted here; errors are injected in other tests")
        try:
            yield Path(place)
        finally:
            subprocess.run(["umount", place], check=True)


class Folders(unittest.TestCase):
    def setUp(self) -> None:
        quick = "/dev/shm" if os.access("/dev/shm", os.W_OK) else None           # where syncs take no time
        self.kept = tempfile.TemporaryDirectory(dir=quick)
        self.addCleanup(self.kept.cleanup)
        self.place = Path(self.kept.name)
        self.folder = self.place / "filed"

    def test_old_or_new(self) -> None:
        """Whatever step fails, and however: the folder is the old one whole or the new one whole, and nothing is left
        beside it."""
        steps = [(os, name) for name in ("rename", "fsync", "chmod")] + [(writing, name) for name in
                                                                         ("write_new", "exchange", "sync", "put")]
        for error in (OSError(errno.ENOSPC, "No space left on device"), KeyboardInterrupt()):
            for exchanging in (True, False):
                for module, name in steps:
                    at = 1
                    with self.subTest(error=error, step=name, at=at, exchanging=exchanging):
                        while self.one_failure(module, name, at, error, exchanging):
                            at += 1
                        self.assertTrue(at > 1 or name == ("rename" if exchanging else "exchange"))

    def one_failure(self, module: Any, name: str, at: int, error: BaseException, exchanging: bool) -> bool:
        """Whether the step has so many calls that this one failed."""
        write_folder(self.folder, OLD)
        self.assertEqual(held(self.folder), OLD)
        failing = Failing(getattr(module, name), at, error)
        with contextlib.ExitStack() as stack:
            if not exchanging:
                stack.enter_context(mock.patch.object(writing, "exchange", lambda *_: False))
            stack.enter_context(mock.patch.object(module, name, failing))
            try:
                write_folder(self.folder, NEW)
                failed = False
            except (OutputError, KeyboardInterrupt):
                failed = True
        self.assertEqual(failed, failing.count >= at)
        self.assertIn(held(self.folder), (OLD, NEW) if failed else (NEW,))
        self.assertEqual(os.listdir(self.place), ["filed"])
        return failed

    def test_the_file_is_named(self) -> None:
        write_folder(self.folder, OLD)
        failing = Failing(writing.write_new, 3, OSError(errno.ENOSPC, "No space left on device"))
        with mock.patch.object(writing, "write_new", failing), self.assertRaises(OutputError) as caught:
            write_folder(self.folder, NEW)
        self.assertEqual(str(caught.exception), f"{self.folder}/sheet.html: No space left on device; nothing was "
                                                "written, and what stood there stands")

    def test_full_disk(self) -> None:
        """A file system with room for the old filing and for half of the new one."""
        with tmpfs("64k") as place:
            folder = place / "filed"
            write_folder(folder, OLD)
            with self.assertRaises(OutputError) as caught:
                write_folder(folder, {**NEW, "sheet.html": bytes(200000)})
            self.assertIn("filed/sheet.html: No space left on device", str(caught.exception))
            self.assertEqual((held(folder), os.listdir(place)), (OLD, ["filed"]))
            write_folder(folder, NEW)
            self.assertEqual(held(folder), NEW)

    def test_permissions(self) -> None:
        """A new folder has those that the mask leaves, and a folder that is replaced keeps its own."""
        mask = os.umask(0o027)
        self.addCleanup(os.umask, mask)
        write_folder(self.folder, OLD)
        self.assertEqual(stat.S_IMODE(self.folder.stat().st_mode), 0o750)
        os.chmod(self.folder, 0o700)
        write_folder(self.folder, NEW)
        self.assertEqual(stat.S_IMODE(self.folder.stat().st_mode), 0o700)

    def refused(self, folder: Path, said: str, replace: bool = False) -> None:
        with self.assertRaises(OutputError) as caught:
            check_folder(folder, b"model", replace)
        self.assertIn(said, str(caught.exception))

    def test_what_may_be_written_over(self) -> None:
        check_folder(self.folder, b"model", False)
        self.folder.mkdir()
        check_folder(self.folder, b"model", False)
        (self.folder / "model.gap").write_bytes(b"model")
        (self.folder / "low.bin").write_bytes(b"")
        check_folder(self.folder, b"model", False)               # solved before, the same model
        (self.folder / "model.gap").write_bytes(b"another")
        self.refused(self.folder, "holds another model's files; name another folder, or say --replace")
        check_folder(self.folder, b"model", True)
        (self.folder / "model.gap").unlink()
        self.refused(self.folder, "holds another model's files")
        (self.folder / "SUMS").write_bytes(b"")
        self.refused(self.folder, "holds a filing; name another folder, or say --replace")
        check_folder(self.folder, b"model", True)
        (self.folder / "notes.txt").write_bytes(b"mine")
        self.refused(self.folder, "holds notes.txt, which is no file of a filing", True)
        (self.folder / "notes.txt").unlink()
        (self.folder / "sheet.html").mkdir()
        self.refused(self.folder, "holds sheet.html, which is no file of a filing", True)
        self.refused(Path("."), "is the current folder", True)

    def test_links_and_places(self) -> None:
        self.folder.mkdir()
        (self.place / "link").symlink_to(self.folder)
        self.refused(self.place / "link", "is a symbolic link", True)
        (self.folder / "sheet.html").symlink_to("/etc/passwd")
        self.refused(self.folder, "holds sheet.html", True)
        (self.place / "file").write_bytes(b"")
        self.refused(self.place / "file", "is there and is no folder", True)
        self.refused(self.place / "file" / "below", "", True)
        self.refused(Path("/proc/filed"), "/proc/filed: ", True)

    def test_single_files(self) -> None:
        """Through no link; whole or not at all; devices are written as they are."""
        file, link = self.place / "a.bin", self.place / "link"
        write_file(file, b"one")
        link.symlink_to(file)
        with self.assertRaises(OutputError):
            write_file(link, b"two")
        for name in ("fsync", "replace"):
            failing = Failing(getattr(os, name), 1, OSError(errno.ENOSPC, "No space left on device"))
            with mock.patch.object(os, name, failing), self.assertRaises(OutputError) as caught:
                write_file(file, b"two")
            self.assertIn(f"{file}: No space left on device", str(caught.exception))
        self.assertEqual((file.read_bytes(), sorted(os.listdir(self.place))), (b"one", ["a.bin", "link"]))
        (self.place / "elsewhere").symlink_to(self.place)
        with self.assertRaises(OutputError):
            writing.make_folder(self.place / "elsewhere")
        write_file(Path("/dev/null"), b"two")
        self.assertTrue(Path("/dev/null").is_char_device())
        with self.assertRaises(OutputError):
            write_file(self.place, b"")


@needs_programs
class Commands(unittest.TestCase):
    def test_solve_does_not_remove_a_sheet(self) -> None:
        """Nor does `file` write over another model, unless that is said; and both say so before anything is solved."""
        with tempfile.TemporaryDirectory() as kept:
            folder = Path(kept) / "filed"
            first = ["file", EXAMPLES / "crosstalk.gap", "-o", folder, "--answers", RECORDED / "crosstalk"]
            self.assertEqual(run(*first)[0], 0)
            before = held(folder)
            for command in ("solve", "file"):
                status, _, err = run(command, EXAMPLES / "two_decks.gap", "-o", folder, "--answers", "/nowhere")
                self.assertEqual((status, err), (2, f"gapfile: {folder} holds a filing; name another folder, or say "
                                                    "--replace\n"))
            self.assertEqual(held(folder), before)
            status, _, err = run("solve", EXAMPLES / "two_decks.gap", "-o", folder, "--answers", RECORDED / "two_decks",
                                 "--replace")
            self.assertEqual((status, err), (0, ""))
            self.assertEqual(set(held(folder)), {"problem.bin", "low.bin", "high.bin", "model.gap", "manifest.json"})

    def test_a_full_disk(self) -> None:
        with tmpfs("24k") as place:
            status, out, err = run("file", EXAMPLES / "crosstalk.gap", "-o", place / "filed", "--answers",
                                   RECORDED / "crosstalk")
            self.assertEqual((status, out), (2, ""))
            self.assertRegex(err, r"filed/[a-z.]+: No space left on device; nothing was written\n$")
            self.assertEqual(os.listdir(place), [])


if __name__ == "__main__":
    unittest.main()
