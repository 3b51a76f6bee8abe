"""Scripts in front of stand-ins for what they call, which write into a log."""

import subprocess
import tempfile
import time
from pathlib import Path

from osm.place import Place
from osm.program import Done, room


def ended(words, **options):
    """Runs a command with that environment."""
    done = subprocess.run(words, **{"stdin": subprocess.DEVNULL, "capture_output": True, **options})
    return Done(done.returncode, done.stdout.decode(), done.stderr.decode())


class Room(Place):
    """A folder with these tools, and the log that they write."""

    def __init__(self, tools):
        # what is in memory can't always be run
        super().__init__(tempfile.mkdtemp(dir=room()))
        for name, text in tools.items():
            self.tool(name, text)
        self.logs = 0
        self.new_log()

    def tool(self, name, text):
        self.write(name, text)
        (self / name).chmod(0o755)

    def new_log(self):
        """What a killed run still writes goes to the old one."""
        self.logs += 1
        self.log = self / f"log.{self.logs}"
        self.log.touch()

    def lines(self, word):
        """What follows that word in the log: of each line the next word."""
        lines = [line.split() for line in self.log.read_text().splitlines()]
        return [line[1] for line in lines if line[0] == word]

    def processes(self):
        """Those that were begun with one of its logs."""
        found = []
        for path in Path("/proc").glob("[0-9]*/environ"):
            try:
                found += [path.parent.name] if f"LOG={self.path}/" in path.read_text(errors="replace") else []
            except OSError:
                pass
        return found

    @staticmethod
    def until(is_so, what):
        """Waits for that, a minute at most."""
        end = time.monotonic() + 60
        while not is_so():
            if time.monotonic() > end:
                raise AssertionError(what)
            time.sleep(0.02)
