"""Runs of the programs: what they answer, how much memory they hold, and what happens if a call fails or kills them."""

import atexit
import os
import re
import resource
import shutil
import subprocess
import sys
import tempfile
from functools import cache
from pathlib import Path
from typing import NamedTuple

TOP = Path(__file__).resolve().parent.parent.parent
# How many times as much is tried as otherwise.
MORE = int(os.environ.get("OSMREPL_MORE", "1"))
KILLED = -9
WANT_OF_MEMORY = "osmrepl: out of memory\n"
# The replies of a script for which memory was refused.
REFUSED = {"no memory", "broke", "broken"}
# The cause is in brackets at the end of the line, and no control character is in it.
CAUSE = re.compile(r" \([^\x00-\x1f\x7f]*\)\n\Z")
# Sizes by which each save is a large one, and has a journal, or is written all the same.
KEEP, MERGE = "--sizes 0:99999", "--sizes 0:0"


class Done(NamedTuple):
    """A run that ended: its status, what it printed, and what it said. Bytes that are no text stay apart."""

    status: int = 0
    out: str = ""
    said: str = ""

    def plain(self):
        """Without the cause of a fault."""
        return self._replace(said=CAUSE.sub("\n", self.said)) if self.said.startswith("osmrepl: ") else self

    def wants_memory(self):
        """Whether it says that memory was refused, as a fault or as a reply. If no allocation was, no run may."""
        return WANT_OF_MEMORY in self.said or not REFUSED.isdisjoint(self.out.split("\n"))


def fault(text, status=3):
    """The end of a run with that fault, without its cause."""
    return Done(status, "", f"osmrepl: {text}\n")


@cache
def built(name="osmrepl"):
    """The path of a program, as `tools/program` gives it."""
    done = subprocess.run([TOP / "tools" / "program", name], stdin=subprocess.DEVNULL, stdout=subprocess.PIPE, text=True)
    if done.returncode:
        sys.exit(done.returncode)
    return done.stdout.removesuffix("\n")


def measured(name):
    """The same for what measures times, with a line on standard error if the program isn't the proved one."""
    program = built(name)
    if Path(program).parent.name == "unproved":
        print(f"{name} is compiled without proof, and so slower than the proved one", file=sys.stderr)
    return program


@cache
def room(where=None):
    """A folder for the whole run, which is removed at its end."""
    folder = Path(tempfile.mkdtemp(prefix="osmrepl-sweep-", dir=where))
    atexit.register(shutil.rmtree, folder, ignore_errors=True)
    return folder


def memory():
    """The same in memory, if the system has such a folder: a sync takes no time there."""
    return room("/dev/shm" if os.access("/dev/shm", os.W_OK) else None)


@cache
def for_anyone():
    """A copy of the program that every user may run."""
    copy = room() / "osmrepl"
    shutil.copy(built(), copy)
    room().chmod(0o755)
    return str(copy)


@cache
def faults():
    """The library that is loaded into a program to have its calls fail: `fault.c`."""
    library = room() / "fault.so"
    subprocess.run(["cc", "-O1", "-shared", "-fPIC", "-o", library, Path(__file__).parent / "fault.c", "-ldl"], check=True)
    return str(library)


def faulty(calls, at=0, what="fail", **more):
    """The environment of a run of which something comes at one of its calls: the words of `fault.c`."""
    words = {"calls": calls, "at": at, **({"": what} if at else {}), **more}
    return {"LD_PRELOAD": faults(), **{f"FAULT_{name.upper()}".rstrip("_"): str(word) for name, word in words.items()}}


@cache
def full():
    """A device that takes nothing of what a run prints."""
    return os.open("/dev/full", os.O_WRONLY)


def close_output():
    """Before a program begins: it has no standard output."""
    os.close(1)


def little_memory():
    """Before a program begins: it may have 40 MiB."""
    resource.setrlimit(resource.RLIMIT_AS, (40 << 20, 40 << 20))


def start(words, name="osmrepl", under=(), **options):
    """Starts a program, by the command that it is to run under if there is one. It is given no environment but that of the
    options."""
    words = words.split(" ") if isinstance(words, str) else words
    path = for_anyone() if "user" in options else built(name)
    return subprocess.Popen([*under, path, *words], **{"env": {}, "stdin": subprocess.DEVNULL, **options})


def run(words, name="osmrepl", given=None, timeout=None, **options):
    """Runs a program with that input, for so many seconds at most."""
    piped = {"stdout": subprocess.PIPE, "stderr": subprocess.PIPE} | ({} if given is None else {"stdin": subprocess.PIPE})
    with start(words, name, **{**piped, **options}) as child:
        try:
            out, said = child.communicate(given.encode() if isinstance(given, str) else given, timeout)
        except subprocess.TimeoutExpired:
            child.kill()
            raise
    return Done(child.returncode, *((text or b"").decode(errors="surrogateescape") for text in (out, said)))


def told(words, calls, more=(), **options):
    """A run, and what `fault.c` tells of it."""
    reader, writer = os.pipe()
    done = run(words, env=faulty(calls, tell=writer, **dict(more)), pass_fds=[writer], **options)
    os.close(writer)
    with open(reader, encoding="utf-8") as text:
        return done, text.read()


def count(words, calls, **options):
    """How many calls an unharmed run makes."""
    return int(told(words, calls, **options)[1].split()[0])


def waited(child):
    """The status of a run that was started, once it has ended, and the most KiB that it held."""
    _, status, usage = os.wait4(child.pid, 0)
    child.returncode = os.waitstatus_to_exitcode(status)
    return child.returncode, usage.ru_maxrss


def held(words, **options):
    """A run, and the most KiB that it held. What it prints goes to a file."""
    with tempfile.TemporaryFile() as out, tempfile.TemporaryFile() as said:
        status, most = waited(start(words, **{"stdout": out, "stderr": said, **options}))
        texts = []
        for file in (out, said):
            file.seek(0)
            texts.append(file.read().decode(errors="surrogateescape"))
    return Done(status, *texts), most
