"""A folder of files, in which programs run, and which is compared whole."""

import re
import shutil
import tempfile
from pathlib import Path

from osm import program

TEMPORARY = re.compile(r"\.(.+)\.osmrepl-{1,2}[0-9]+")


def state(number, time="2024-01-01T00:00:00Z"):
    """The text of a state file."""
    return f"sequenceNumber={number}\ntimestamp={time}\n"


def stamped(number, time):
    """The bytes of a state file, as it is published."""
    return state(number, time).replace(":", "\\:").encode()


def is_lock(path):
    return path.name == ".osmrepl-lock" or path.name.endswith(".lock")


def is_temporary(name):
    """Whether a file of that name is left by a run that was killed."""
    return TEMPORARY.fullmatch(Path(name).name) is not None


class Place:
    """A folder of files, in memory unless its path is given."""

    def __init__(self, path=None):
        self.path = Path(path or tempfile.mkdtemp(dir=program.memory()))
        self.path.mkdir(parents=True, exist_ok=True)

    def __truediv__(self, name):
        return self.path / name

    def write(self, name, data):
        """Writes a file and the folders that it needs; None removes it."""
        path = self.path / name
        if data is None:
            path.unlink(missing_ok=True)
            return
        path.parent.mkdir(parents=True, exist_ok=True)
        path.write_bytes(data.encode() if isinstance(data, str) else data)

    def read(self, name):
        """The bytes of a file; None if it isn't there."""
        path = self.path / name
        return path.read_bytes() if path.exists() else None

    def add(self, files):
        """Writes these files, beside those that are there."""
        for name, data in files.items():
            self.write(name, data)

    def fill(self, files):
        """Has these files and no others."""
        shutil.rmtree(self.path, ignore_errors=True)
        self.path.mkdir()
        self.add(files)

    def copy(self, other):
        """Has the files of another place and no others."""
        shutil.rmtree(self.path, ignore_errors=True)
        shutil.copytree(other.path, self.path, symlinks=True)

    def admit(self):
        """Lets other users into the folder."""
        for path in (self.path.parent, self.path):
            path.chmod(0o755)

    def files(self):
        """All files but locks, by their names."""
        return {str(path.relative_to(self.path)): path.read_bytes() for path in self.path.rglob("*")
                if path.is_file() and not is_lock(path)}

    def left(self):
        """The temporary files that are there."""
        return {str(path.relative_to(self.path)) for path in self.path.rglob(".*.osmrepl-*") if is_temporary(path)}

    def run(self, words, name="osmrepl", **options):
        return program.run(words, name, cwd=self.path, **options)

    def start(self, words, **options):
        return program.start(words, cwd=self.path, **options)

    def count(self, words, calls, **options):
        return program.count(words, calls, cwd=self.path, **options)

    def held(self, words, **options):
        return program.held(words, cwd=self.path, **options)

    def done(self, words, **options):
        """What a run prints that has to be done, to lay out a case."""
        found = self.run(words, **options)
        if found.status or found.said:
            raise RuntimeError(f"{words}: {found}")
        return found.out
