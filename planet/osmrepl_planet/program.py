"""The program osmrepl: where it is, and a run of it."""

import bz2
import contextlib
import fcntl
import gzip
import os
import re
import shutil
import subprocess
import sys
import zlib
from collections.abc import Iterator
from dataclasses import dataclass
from pathlib import Path
from typing import BinaryIO

from .faults import Fault, Stopped, cause_of, one_line
from .opl import BLOCK
from .stop import Stop

# as the launcher of the repository asks the C library
KEEPING = "glibc.malloc.mmap_threshold=4194304:glibc.malloc.trim_threshold=67108864:glibc.malloc.top_pad=1048576"
TUNABLES = f"glibc.malloc.hugetlb=1:{KEEPING}"
Stream = int | BinaryIO
# a file system with less room than this counts as full once a write failed
ROOM = 1 << 16
# how long a wait is before a signal is looked for
TICK = 0.2
# a member's role in an o5m or o5c file, with the digit of its kind before it, and what such files are named
ROLE = re.compile(rb"\0[012][^\0]{250}(?=\0)")
O5M = re.compile(r"\.o5[mc](\.(gz|bz2))?$")
OPENED = {".gz": gzip.open, ".bz2": bz2.open}


@dataclass(frozen=True)
class Run:
    """How a run of the program ended, and what it said."""

    status: int
    output: str
    errors: str

    def faults(self) -> list[str]:
        """The lines of its faults; if it has none and failed, how it ended."""
        lines = [one_line(line) for line in self.errors.splitlines() if line.startswith("osmrepl: ")]
        if not lines and self.status not in (0, 1):
            lines = [f"osmrepl: status {self.status}"]
        return lines

    def missing(self) -> list[int]:
        """The numbers that aren't there, which it prints, or says if it prints a table."""
        said = f"{self.output}\n{self.errors}"
        return [int(number) for number in re.findall(r"^missing (\d+)$", said, re.MULTILINE)]


class Program:
    """The program that is installed, and not the launcher of the repository, which proves for a long time after a
    source was touched."""

    def __init__(self) -> None:
        self.path = find()
        self.environment = {"GLIBC_TUNABLES": TUNABLES, **os.environ}

    def begin(self, *words: object, output: Stream = subprocess.PIPE, errors: Stream = subprocess.PIPE,
              kept: tuple[int, ...] = ()) -> subprocess.Popen:
        """Begins a run, which keeps open the descriptors `kept`, such as that of a lock."""
        try:
            return subprocess.Popen([self.path, *map(str, words)], env=self.environment, stdin=subprocess.DEVNULL,
                                    stdout=output, stderr=errors, pass_fds=kept)
        except OSError as error:
            raise Fault(f"{self.path}: doesn't run ({cause_of(error)})") from error

    def run(self, *words: object, kept: tuple[int, ...] = (), stop: Stop | None = None) -> Run:
        return finish(self.begin(*words, kept=kept), stop)


def finish(child: subprocess.Popen, stop: Stop | None) -> Run:
    """Waits for a run, and ends it after a signal. Output that goes to a file isn't in it."""
    while True:
        try:
            output, errors = child.communicate(timeout=TICK if stop else None)
            break
        except subprocess.TimeoutExpired:
            if stop.is_set:
                child.terminate()
                child.communicate()
                raise Stopped from None
    return Run(child.returncode, (output or b"").decode("utf-8", "replace"), errors.decode("utf-8", "replace"))


def candidates() -> list[str]:
    here = Path(sys.argv[0]).resolve().parent
    return [str(here.parent / "bin/osmrepl"), str(here / "osmrepl"), shutil.which("osmrepl") or ""]


def find() -> str:
    named = os.environ.get("OSMREPL")
    if named:
        if not os.access(named, os.X_OK):
            raise Fault(f"{named}: not there (OSMREPL names it)")
        return named
    path = next((path for path in candidates() if path and os.access(path, os.X_OK)), None)
    if path is None:
        raise Fault("osmrepl: not there (./install PREFIX installs it; or name it by OSMREPL)")
    if is_launcher(Path(path).resolve()):
        raise Fault(f"{path} is the launcher of the repository: ./install PREFIX installs the program")
    return path


def is_launcher(path: Path) -> bool:
    """Whether that is the launcher of the repository, or the script in out/bin that runs it."""
    folder = path.parent
    if folder.parts[-2:] == ("out", "bin") and path.read_bytes()[:2] == b"#!":
        folder = folder.parent.parent
    return (folder / "crates.txt").exists()


def widen(pipe: BinaryIO) -> None:
    """Has a pipe hold a whole block, which spares most of its switches from one process to the other."""
    with contextlib.suppress(OSError, AttributeError):
        fcntl.fcntl(pipe, fcntl.F_SETPIPE_SZ, BLOCK)


def need(tool: str, package: str) -> str:
    """The path of a tool."""
    path = shutil.which(tool)
    if path is None:
        raise Fault(f"{tool}: not there (Debian: {package})")
    return path


def need_osmium() -> str:
    return need("osmium", "osmium-tool")


def is_misread(file: Path) -> bool:
    """Whether osmium gives other objects than those of an o5m or o5c file: a role of 250 bytes isn't in its table of
    strings, and osmium has it there. A text that only looks like one is taken for it."""
    if not O5M.search(file.name):
        return False
    kept = b""
    try:
        with OPENED.get(file.suffix, open)(file, "rb") as data:
            while block := data.read(BLOCK):
                text = kept + block
                if any(is_text(found[0]) for found in ROLE.finditer(text)):
                    return True
                kept = text[-252:]
    except (OSError, EOFError, zlib.error):
        # osmium says why it can't be read
        pass
    return False


def is_text(data: bytes) -> bool:
    try:
        data.decode()
    except UnicodeDecodeError:
        return False
    return True


@contextlib.contextmanager
def osmium_cat(*words: str, of: Path, is_fed: bool = False) -> Iterator[BinaryIO]:
    """The output of `osmium cat`, or its input if it is fed, for a block. Afterwards its fault at the file `of`, which
    it reads, or writes if it is fed. After a fault of the block nobody needs what it does, so it is ended."""
    child = subprocess.Popen([need_osmium(), "cat", "--no-progress", *words], stderr=subprocess.PIPE,
                             stdin=subprocess.PIPE if is_fed else subprocess.DEVNULL,
                             stdout=subprocess.DEVNULL if is_fed else subprocess.PIPE, bufsize=-1 if is_fed else 0)
    pipe = child.stdin or child.stdout
    widen(pipe)
    try:
        yield pipe
        pipe.close()
    except BrokenPipeError:
        # it says itself why it reads no more
        pass
    except BaseException:
        child.kill()
        raise
    finally:
        with contextlib.suppress(BrokenPipeError):
            pipe.close()
        said, status = child.stderr.read(), child.wait()
    if status != 0:
        raise fault_of_out(of, said, status) if is_fed else fault_of(of, said, status)


def last_line(said: bytes, status: int) -> str:
    """The last line that a tool said."""
    lines = [line for line in said.decode("utf-8", "replace").splitlines() if line.strip()]
    return one_line(lines[-1]) if lines else f"status {status}"


def fault_of(file: object, said: bytes, status: int) -> Fault:
    """The fault of osmium at a file that it read."""
    return Fault(f"{file}: osmium: {last_line(said, status)}")


def fault_of_out(file: Path, said: bytes, status: int) -> Fault:
    """The fault of osmium at a file that it wrote. It has several words for a full disk, and not always its cause."""
    text = last_line(said, status)
    if is_full(file.parent):
        return Fault(f"{file}: write failed (no space left on device)")
    if re.search("no space|write|close|fsync|too large", text, re.IGNORECASE):
        cause = text.rpartition(": ")[2]
        return Fault(f"{file}: write failed ({cause[:1].lower() + cause[1:]})")
    return Fault(f"{file}: osmium: {text}")


def is_full(folder: Path) -> bool:
    """Whether a file system has hardly any room."""
    try:
        found = os.statvfs(folder)
    except OSError:
        return False
    return found.f_bavail * found.f_frsize < ROOM
