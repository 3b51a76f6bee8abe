"""Files: written, synced and renamed as a whole, in rooms of their own."""

import contextlib
import ctypes
import errno
import fcntl
import hashlib
import os
import shlex
import shutil
import stat
import tempfile
from collections.abc import Iterable, Iterator
from pathlib import Path
from typing import BinaryIO

from .faults import Fault, cause_of

# with fewer files than this each is synced by itself, which leaves the rest of the file system alone
FEW = 9
# the words of renameat2 for the folder of the process, and for a name that has to be new
HERE, IS_NEW = -100, 1


@contextlib.contextmanager
def writing(path: str | Path) -> Iterator[None]:
    """Says which file couldn't be written, and why."""
    try:
        yield
    except OSError as error:
        raise write_fault(path, error) from error


def write_fault(path: str | Path, error: OSError) -> Fault:
    return Fault(f"{path}: write failed ({cause_of(error)})")


@contextlib.contextmanager
def reading(path: str | Path) -> Iterator[None]:
    """Says which file couldn't be read, and why."""
    try:
        yield
    except FileNotFoundError as error:
        raise Fault(f"{path}: not there") from error
    except OSError as error:
        raise Fault(f"{path}: read failed ({cause_of(error)})") from error


def open_file(path: Path) -> BinaryIO:
    """Opens a file to read it. A pipe isn't waited for: it is no file, nor is a socket or a device."""
    file = open(path, "rb", opener=lambda name, flags: os.open(name, flags | os.O_NONBLOCK))
    if not stat.S_ISREG(os.fstat(file.fileno()).st_mode):
        file.close()
        raise Fault(f"{path}: not a file")
    return file


def sum_of(path: Path) -> str:
    """The SHA-256 of a file's bytes."""
    found = hashlib.sha256()
    with reading(path), open_file(path) as file:
        while block := file.read(1 << 20):
            found.update(block)
    return found.hexdigest()


def sync_file(path: Path) -> None:
    descriptor = os.open(path, os.O_RDONLY | os.O_CLOEXEC)
    try:
        os.fsync(descriptor)
    finally:
        os.close(descriptor)


def sync_all(folder: Path, files: Iterable[Path]) -> None:
    """Has the files of a folder on the disk: each by itself if they are few, else the whole file system at once."""
    files = list(files)
    library = ctypes.CDLL(None, use_errno=True)
    if len(files) < FEW or not hasattr(library, "syncfs"):
        for file in files:
            sync_file(file)
        return
    descriptor = os.open(folder, os.O_RDONLY | os.O_DIRECTORY | os.O_CLOEXEC)
    try:
        if library.syncfs(descriptor) != 0:
            number = ctypes.get_errno()
            raise OSError(number, os.strerror(number))
    finally:
        os.close(descriptor)


def put(new: Path, path: Path, keeps_mode: bool = False) -> None:
    """Puts a new file in its place as a whole: a reader finds the old one or the new one, also after a failure of the
    power. It may keep the mode of the old one."""
    with writing(path), removed_after_fault(new):
        sync_file(new)
        if keeps_mode:
            with contextlib.suppress(FileNotFoundError):
                shutil.copymode(path, new)
        os.replace(new, path)
        sync_file(path.parent)


@contextlib.contextmanager
def removed_after_fault(new: Path) -> Iterator[None]:
    """A block that makes a new file and gives it its place."""
    try:
        yield
    except BaseException:
        with contextlib.suppress(OSError):
            new.unlink()
        raise


def replace(path: Path, content: bytes) -> None:
    """Replaces a file, whose mode stays, as a whole."""
    new = path.with_name(f".{path.name}.new")
    with writing(path), removed_after_fault(new):
        new.write_bytes(content)
    put(new, path, keeps_mode=True)


def rename_new(path: Path, new: Path) -> None:
    """Gives a file another name. FileExistsError if there is one of that name, which stays."""
    library = ctypes.CDLL(None, use_errno=True)
    number = errno.ENOSYS
    if hasattr(library, "renameat2"):
        if library.renameat2(HERE, os.fsencode(path), HERE, os.fsencode(new), IS_NEW) == 0:
            return
        number = ctypes.get_errno()
    # not every file system can do so at once
    if number not in (errno.EINVAL, errno.ENOSYS):
        raise OSError(number, os.strerror(number), str(path))
    os.link(path, new)
    os.unlink(path)


def make_folder(path: Path) -> None:
    """Makes a folder that is still there after a failure of the power, unless there is one."""
    with writing(path):
        if not path.is_dir():
            path.mkdir(parents=True)
            sync_file(path.parent)


def remove(path: Path) -> None:
    with writing(path), contextlib.suppress(FileNotFoundError):
        path.unlink()


def remove_left(folder: Path) -> None:
    """Removes the temporary files of state.txt and of numbers that runs of `osmrepl publish` left when they were
    killed. Nobody else may write there: a run with `--no-lock` removes none."""
    with writing(folder):
        for pattern in ".state.txt.osmrepl-*", ".[0-9][0-9][0-9].*.osmrepl-*":
            for left in folder.glob(pattern):
                left.unlink(missing_ok=True)


def ends(descriptor: int, first: int, most: int | None = None) -> Iterator[tuple[int, bytes]]:
    """Where the last bytes of a file begin, and these: so many at first, and then ever more, up to all or to `most`."""
    size, length = os.fstat(descriptor).st_size, first
    most = size if most is None else min(most, size)
    while True:
        start = size - min(length, most)
        yield start, os.pread(descriptor, size - start, start)
        if length >= most:
            return
        length *= 16


def lead_of(path: Path) -> Path:
    """The file where a path leads: beside it osmrepl has its lock and its journal."""
    lead = Path(os.path.realpath(path)) if path.is_symlink() else path
    check_name(lead, path)
    return lead


def check_name(lead: Path, path: Path) -> None:
    """Refuses a path that has no name, as `.` and `/`: nothing is beside it."""
    if not lead.name:
        raise Fault(f"{path}: a folder")


def word_of(path: Path) -> str:
    """A path as the word of a command that is said: one that begins with `-` is no option of it."""
    return shlex.quote(f"./{path}" if str(path).startswith("-") else str(path))


def beside(path: Path, word: str) -> Path:
    """The file with that word after its name, beside the file where a path leads: `follower.save.runs`."""
    lead = lead_of(path)
    return lead.with_name(f"{lead.name}.{word}")


class Room:
    """A folder for the temporary files of one run, removed at its end. One that a killed run left is removed by the
    next run: its lock is free then."""

    def __init__(self, parent: Path, prefix: str) -> None:
        self.parent, self.prefix = parent, prefix
        self.descriptor = -1

    def __enter__(self) -> Path:
        with writing(self.parent):
            for left in self.parent.glob(f"{self.prefix}*"):
                self.remove_left(left)
            self.path = Path(tempfile.mkdtemp(prefix=self.prefix, dir=self.parent))
            # a run that removes what is left may have seen the new room before it was locked
            self.descriptor = self.lock(self.path)
            if self.descriptor < 0 or not self.path.exists():
                raise FileNotFoundError(2, "another run removed it")
        return self.path

    def __exit__(self, *_: object) -> None:
        shutil.rmtree(self.path, ignore_errors=True)
        if self.descriptor >= 0:
            os.close(self.descriptor)

    @staticmethod
    def lock(path: Path) -> int:
        """A locked descriptor of a room, or -1 if it is in use or gone."""
        try:
            descriptor = os.open(path, os.O_RDONLY | os.O_DIRECTORY | os.O_NOFOLLOW | os.O_CLOEXEC)
        except OSError:
            return -1
        try:
            fcntl.flock(descriptor, fcntl.LOCK_EX | fcntl.LOCK_NB)
        except BlockingIOError:
            os.close(descriptor)
            return -1
        except OSError:
            # a file system without locks: the room is the run's own all the same
            pass
        return descriptor

    @classmethod
    def remove_left(cls, path: Path) -> None:
        descriptor = cls.lock(path)
        if descriptor >= 0:
            shutil.rmtree(path, ignore_errors=True)
            os.close(descriptor)
