"""The shared object in the place of `replay`: the same line for every kind of record, on the examples and on a share of
the stored corpus, and nothing that is filed is judged by it."""
import os
import tempfile
import unittest
from pathlib import Path
from unittest import mock

from gapfile import library, programs
from gapfile.tests.support import EXAMPLES, corpus, needs_programs, streams_of

needs_library = unittest.skipUnless(library.where(),
                                    "the shared object is not built (tools/library), or older than the proofs")
AT_MOST = 60                     # records of each kind


@needs_library
class Lines(unittest.TestCase):
    def test_corpus(self) -> None:
        """A share of the stored records of each kind that it answers, whose answers the reference wrote."""
        found: dict[str, list[tuple[list[bytes], str]]] = {}
        for kind, runs, line in corpus():
            found.setdefault(kind, []).append((runs, line))
        for kind in library.ANSWERS:
            some = found[kind]
            for runs, line in some[::len(some) // AT_MOST + 1]:
                said = library.line(kind, runs)
                assert said
                self.assertEqual(said[1], line, kind)

    @needs_programs
    def test_examples(self) -> None:
        """Both ways on every example: blocks, symmetries, checks and the pair."""
        folders = [path.parent for path in sorted(EXAMPLES.glob("*/high.bin")) if (path.parent / "low.bin").exists()]
        self.assertTrue(folders)
        for folder in folders:
            problem, low, high = streams_of(folder)
            for kind, runs in (("b", (problem, b"", b"")), ("s", (problem, b"", b"")), ("c", (problem, low, b"")),
                               ("c", (problem, high, b"")), ("p", (problem, low, high)), ("t", (problem, low, low)),
                               ("d", (problem, low, high) * 2), ("a", (problem, low, b"")), ("n", (problem, low, b""))):
                said = library.line(kind, runs)
                assert said
                self.assertEqual(said[1], programs.replay(programs.record(kind, *runs))[1], (folder, kind))

    def test_who_answers(self) -> None:
        """The shared object; a program that is named comes before it, and where it is switched off replay is asked."""
        runs = (b"", b"", b"")
        self.assertTrue(programs.answered("b", runs)[0].endswith(library.NAME))
        for variables in ({library.VARIABLE: ""}, {"REPLAY": "/named"}):
            with mock.patch.dict(os.environ, variables), \
                    mock.patch.object(programs, "run_program", lambda *_: "asked"), \
                    mock.patch.object(programs, "program", lambda name: (Path(name), "")):
                self.assertEqual(programs.answered("b", runs)[1], "asked")

    @needs_programs
    def test_what_is_filed(self) -> None:
        """One certificate alone is judged by the program, as its hash is what is filed."""
        problem, low, _ = streams_of(sorted(EXAMPLES.glob("*/high.bin"))[0].parent)
        with mock.patch.object(library, "line", mock.Mock(side_effect=AssertionError("asked the shared object"))):
            self.assertTrue(programs.judge([problem, low]).accepted)


class Named(unittest.TestCase):
    def test_one_that_cannot_be_loaded(self) -> None:
        with tempfile.TemporaryDirectory() as folder:
            path = Path(folder) / library.NAME
            path.write_bytes(b"no library")
            with mock.patch.dict(os.environ, {library.VARIABLE: str(path)}):
                with self.assertRaisesRegex(programs.ProgramError, library.VARIABLE):
                    programs.answered("b", (b"", b"", b""))


if __name__ == "__main__":
    unittest.main()
