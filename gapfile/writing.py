"""All that gapfile writes goes through here: whole folders and single files, each put in place by a rename.

A folder is written beside its place under another name, synced, and exchanged with what stands there. So whatever
happens (a full disk, an interrupt, a crash), the folder holds the old filing whole or the new one whole. Nothing is
written through a symbolic link.
"""
from __future__ import annotations

import ctypes
import errno
import os
import shutil
import stat
import tempfile
from contextlib import contextmanager
from pathlib import Path
from typing import Iterator, Mapping, Sequence

STREAMS = ("problem.bin", "low.bin", "high.bin")
SHEET = "sheet.html"
SUMS = "SUMS"
MODEL = "model.gap"
THEOREM = "figure.v"
RECORD = "check.record"                                      # of a filing with one side: what `replay` reads
# all that a folder of gapfile may hold; a command that adds a file names it here
FILES = (*STREAMS, MODEL, "manifest.json", "problem.txt", "verdict.txt", "blocks.svg", RECORD, THEOREM, SHEET, SUMS)
EXCHANGE, HERE = 2, -100                                     # RENAME_EXCHANGE and AT_FDCWD of Linux


def streams_for(sides: Sequence[int]) -> tuple[str, ...]:
    """The problem, and the certificates of these sides."""
    return (STREAMS[0], *(STREAMS[1 + side] for side in sides))


class OutputError(Exception):
    """What cannot be written, with its name, or may not be written over."""


@contextmanager
def named(path: Path, after: str = "") -> Iterator[None]:
    """Errors of the system in here speak of this path."""
    try:
        yield
    except OSError as error:
        raise OutputError(f"{path}: {error.strerror or error}{after}") from None


def check_folder(folder: Path, model: bytes, replace: bool) -> None:
    """Says before the work whether a folder may be written: it is one of gapfile's or none, holds neither a filing nor
    another model unless these are to be replaced, and its place can be written. Raises OutputError."""
    if folder.is_symlink():
        raise OutputError(f"{folder} is a symbolic link; name the folder itself")
    if folder.exists():
        if not folder.is_dir():
            raise OutputError(f"{folder} is there and is no folder")
        if folder.resolve() == Path.cwd().resolve():
            raise OutputError(f"{folder} is the current folder; name one that gapfile can put in place as a whole")
        with named(folder):
            held = sorted(entry.name for entry in folder.iterdir())
        others = [name for name in held if name not in FILES or not is_plain(folder / name)]
        if others:
            raise OutputError(f"{folder} holds {others[0]}, which is no file of a filing; name another folder")
        if not replace:
            _keep(folder, held, model)
    try_place(folder)


def _keep(folder: Path, held: list[str], model: bytes) -> None:
    """Refuses to write over a filing or over the files of another model."""
    if SHEET in held or SUMS in held:
        raise OutputError(f"{folder} holds a filing; name another folder, or say --replace")
    with named(folder / MODEL):
        other = MODEL in held and (folder / MODEL).read_bytes() != model
    if other or MODEL not in held and held:
        raise OutputError(f"{folder} holds another model's files; name another folder, or say --replace")


def is_plain(path: Path) -> bool:
    """Whether this is a file, and no link to one."""
    return stat.S_ISREG(path.lstat().st_mode)


def try_place(folder: Path) -> None:
    """Makes a folder where this one will be made, and takes it away again."""
    place = folder.absolute().parent
    while not place.exists():
        place = place.parent
    with named(folder):
        os.rmdir(tempfile.mkdtemp(prefix=".gapfile-", dir=place))


def write_folder(folder: Path, files: Mapping[str, bytes]) -> None:
    """Puts a folder with these files, and no others, in place. Raises OutputError, and then nothing has changed."""
    kept = "; nothing was written" + (", and what stood there stands" if folder.exists() else "")
    with named(folder.parent, kept):
        folder.parent.mkdir(parents=True, exist_ok=True)
        new = Path(tempfile.mkdtemp(prefix=f".{folder.name}.new-", dir=folder.parent))
    try:
        for name, data in files.items():
            with named(folder / name, kept):
                write_new(new / name, data)
        with named(folder, kept):
            os.chmod(new, stat.S_IMODE(folder.stat().st_mode) if folder.exists() else 0o777 & ~umask())
            sync(new)
            put(new, folder)
        with named(folder, "; it is written, but the disk has not confirmed it"):
            sync(folder.parent)
    finally:                             # the new folder where that failed, the old one where the new one stands
        shutil.rmtree(new, ignore_errors=True)
        if folder.exists():
            shutil.rmtree(_aside(new), ignore_errors=True)


def put(new: Path, folder: Path) -> None:
    """Renames the new folder to its place; what stood there gets the new one's name, or one beside it."""
    if not folder.exists():
        os.rename(new, folder)
    elif not exchange(new, folder):
        try:
            os.rename(folder, _aside(new))
            os.rename(new, folder)
        except BaseException:
            if _aside(new).exists() and not folder.exists():
                os.rename(_aside(new), folder)
            raise


def _aside(new: Path) -> Path:
    """Where the old folder waits, where the system cannot exchange two names in one step."""
    return Path(f"{new}.old")


def exchange(a: Path, b: Path) -> bool:
    """Exchanges two names in one step; false where the system has no such step."""
    call = getattr(ctypes.CDLL(None, use_errno=True), "renameat2", None)
    if call is None:
        return False
    if call(HERE, os.fsencode(a), HERE, os.fsencode(b), EXCHANGE) == 0:
        return True
    number = ctypes.get_errno()
    if number in (errno.ENOSYS, errno.EINVAL):
        return False
    raise OSError(number, os.strerror(number), str(b))


def make_folder(folder: Path) -> None:
    """Makes a folder to which single files are added, where there is none. Raises OutputError."""
    if folder.is_symlink():
        raise OutputError(f"{folder} is a symbolic link; name the folder itself")
    with named(folder):
        folder.mkdir(parents=True, exist_ok=True)


def write_file(path: Path, data: bytes) -> None:
    """Writes one file, whole or not at all. Raises OutputError."""
    if path.is_symlink():
        raise OutputError(f"{path} is a symbolic link; name the file itself")
    if path.exists() and not path.is_file():
        with named(path):
            path.write_bytes(data)                           # a device or a pipe; a folder is an error
        return
    with named(path):
        handle, name = tempfile.mkstemp(prefix=f".{path.name}.new-", dir=path.parent)
        os.close(handle)
        new = Path(name)
        try:
            os.chmod(new, stat.S_IMODE(path.stat().st_mode) if path.exists() else 0o666 & ~umask())
            write_new(new, data, "wb")
            os.replace(new, path)
            sync(path.parent)
        except BaseException:
            new.unlink(missing_ok=True)
            raise


def write_new(path: Path, data: bytes, mode: str = "xb") -> None:
    """Writes a file and waits until the disk has it."""
    with open(path, mode) as file:
        file.write(data)
        file.flush()
        os.fsync(file.fileno())


def sync(folder: Path) -> None:
    """Waits until the disk has the names of a folder."""
    handle = os.open(folder, os.O_RDONLY)
    try:
        os.fsync(handle)
    finally:
        os.close(handle)


def umask() -> int:
    """The mask of permissions, which can only be read by setting it."""
    mask = os.umask(0o077)
    os.umask(mask)
    return mask


@contextmanager
def scratch(files: Mapping[str, bytes]) -> Iterator[Path]:
    """A temporary folder with these files, for a program that reads them."""
    with named(Path(tempfile.gettempdir())):
        folder = tempfile.TemporaryDirectory(prefix="gapfile")
    try:
        for name, data in files.items():
            path = Path(folder.name) / name
            with named(path):
                path.write_bytes(data)
        yield Path(folder.name)
    finally:
        folder.cleanup()
