"""The parent's side of `convert`: starts the process, and again if it ended; asks, and waits for a minute at most."""

import contextlib
import json
import os
import selectors
import signal
import subprocess
import sys
from dataclasses import dataclass
from pathlib import Path

from .faults import Fault, Stopped, one_line

LONGEST = 60
# the same of a diff that is cut into parts
LONGEST_WHOLE = 600
CODE = "import sys; sys.path[0] = sys.argv[1]; from osmrepl_planet.convert import main; main()"


class Ended(Exception):
    """The process ended, or was ended, without an answer."""


@dataclass(frozen=True)
class Converted:
    """What is known of the changes of a diff; `reason` if no follower can take them."""

    changes: int
    bytes: int
    no_user: int
    no_changeset: int
    reason: str | None


class Converter:
    """A process that reads files of others, begun when it is first asked."""

    def __init__(self) -> None:
        self.process: subprocess.Popen | None = None
        self.is_over = False

    def __enter__(self) -> "Converter":
        return self

    def __exit__(self, *_: object) -> None:
        self.end()

    def begin(self) -> None:
        here = Path(__file__).resolve().parent.parent
        environment = {**os.environ, "OSMIUM_POOL_THREADS": "1", "MALLOC_ARENA_MAX": "2"}
        self.process = subprocess.Popen([sys.executable, "-X", "utf8", "-c", CODE, str(here)], env=environment,
                                        stdin=subprocess.PIPE, stdout=subprocess.PIPE, stderr=subprocess.DEVNULL)

    def end(self) -> int:
        """Ends the process, whatever it does. Gives how it ended."""
        if self.process is None:
            return 0
        self.process.kill()
        status = self.process.wait()
        self.process.stdin.close()
        self.process.stdout.close()
        self.process = None
        return status

    def kill(self) -> None:
        """Ends the process at once, though another thread may wait for it, and begins no other."""
        self.is_over = True
        process = self.process
        if process is not None:
            process.kill()
            with contextlib.suppress(subprocess.TimeoutExpired):
                process.wait(5)

    def ask(self, seconds: float | None, *words: str | bool) -> dict:
        """The answer to a piece of work. A process that ended before it had this work is begun anew, and so is one that
        was killed from outside."""
        check_names(words)
        for is_last in (False, True):
            if self.is_over:
                raise Stopped
            if self.process is None:
                self.begin()
            try:
                self.process.stdin.write(json.dumps(words).encode() + b"\n")
                self.process.stdin.flush()
                answer = json.loads(self.read(seconds))
                break
            except (Ended, BrokenPipeError, ValueError):
                status = self.end()
                if is_last:
                    raise Ended(how(status)) from None
                if words[0] == "convert":
                    Path(words[2]).unlink(missing_ok=True)
        if answer.pop("ends", False):
            self.end()
        return answer

    def read(self, seconds: float | None) -> bytes:
        with selectors.DefaultSelector() as selector:
            selector.register(self.process.stdout, selectors.EVENT_READ)
            if not selector.select(seconds):
                self.end()
                raise Slow
        line = self.process.stdout.readline()
        if not line.endswith(b"\n"):
            raise Ended
        return line

    def convert(self, url: str, diff: Path, text: Path, strict: bool, is_cut: bool = False) -> Converted:
        """Makes the OPL file of a diff that came from a URL, of any size if it is cut into parts."""
        longest = LONGEST_WHOLE if is_cut else LONGEST
        try:
            answer = self.ask(longest, "convert", str(diff), str(text), strict, is_cut)
        except Slow:
            raise Fault(f"{url}: more than {longest} s to convert") from None
        except Ended as error:
            raise Fault(f"{url}: the converter ended: {error}") from None
        if "fault" in answer:
            raise fault_of(url, text, answer)
        return Converted(**answer)

    def about(self, word: str, file: Path) -> dict:
        """What `header` or `newest` says of a data file."""
        try:
            answer = self.ask(None, word, str(file))
        except Ended as error:
            raise Fault(f"{file}: osmium ended: {error}") from None
        if "fault" in answer:
            said = one_line(answer["fault"])
            raise Fault(said if answer.get("is_lacking") else f"{file}: osmium: {said}")
        return answer


def check_names(words: tuple[str | bool, ...]) -> None:
    """Refuses names that the library can't take."""
    for word in words:
        try:
            str(word).encode()
        except UnicodeEncodeError:
            raise Fault(f"{word}: a name that isn't UTF-8") from None


class Slow(Exception):
    """The process took too long."""


def how(status: int) -> str:
    """How a process ended."""
    if status >= 0:
        return f"status {status}"
    try:
        return signal.Signals(-status).name
    except ValueError:
        return f"signal {-status}"


def fault_of(url: str, text: Path, answer: dict) -> Fault:
    cause = one_line(answer["fault"])
    if answer.get("is_lacking"):
        return Fault(cause)
    if answer.get("is_write"):
        return Fault(f"{text.parent}: write failed ({cause[:1].lower() + cause[1:]})")
    if answer.get("is_cut") or "MiB unzipped" in cause:
        return Fault(f"{url}: {cause}", mends=bool(answer.get("is_cut")))
    return Fault(f"{url}: osmium: {cause}")
