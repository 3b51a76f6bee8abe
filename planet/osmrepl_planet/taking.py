"""A file of changes as a run of publish takes it: by a name of its own, so that a file that comes under the old name
meanwhile is another publication."""

import contextlib
import os
import stat
from collections.abc import Iterator
from dataclasses import dataclass
from pathlib import Path

from . import files
from .faults import Busy, Fault

# how the name begins that a run takes a file by
OWN = ".publish."


@dataclass(frozen=True)
class Changes:
    """CHANGES, by the name that it was given."""

    given: Path

    def __post_init__(self) -> None:
        files.check_name(self.given, self.given)

    @property
    def taken(self) -> Path:
        """The name that a run takes it by. It ends alike, so osmium knows the form."""
        return self.given.with_name(f"{OWN}{self.given.name}")

    @property
    def is_opl(self) -> bool:
        return self.given.suffix == ".opl"

    @property
    def text(self) -> Path:
        """The OPL file that all forms are made of: the taken one, or what is made of that."""
        return self.taken if self.is_opl else self.given.with_name(f"{self.given.name}.publish.opl")

    @property
    def new_text(self) -> Path:
        return self.text.with_name(f"{self.text.name}.new")

    @property
    def is_left(self) -> bool:
        """Whether a run that was killed left something to publish: it took the file, and may have removed it again."""
        return os.path.lexists(self.taken) or self.text.exists() and not os.path.lexists(self.given)

    def take(self) -> None:
        """Takes the file, unless it is none. A device may have a name without an ending, and stays where it is."""
        with files.reading(self.given):
            if not stat.S_ISREG(os.stat(self.given).st_mode):
                raise Fault(f"{self.given}: not a file")
        if self.given.name.startswith(OWN):
            raise Fault(f"{self.given}: a name of the run's own (give {self.given.name.removeprefix(OWN)})")
        if not self.given.suffix:
            raise Fault(f"{self.given}: its name says no form (.opl, .osc, .osc.gz, .o5c)")
        try:
            files.rename_new(self.given, self.taken)
        except FileExistsError:
            raise Busy(f"{self.given}: in use ({self.taken})") from None
        except OSError as error:
            raise files.write_fault(self.given, error) from error

    def give_back(self) -> bool:
        """Gives the file its name again, unless another one has come under it. Whether it has it."""
        try:
            files.rename_new(self.taken, self.given)
        except OSError as error:
            # what is gone was published before
            return isinstance(error, FileNotFoundError)
        return True

    @contextlib.contextmanager
    def held(self) -> Iterator[None]:
        """A block that reads what was taken. After a fault it is given back."""
        try:
            yield
        except BaseException as error:
            if not self.give_back() and isinstance(error, Fault):
                error.text += f"; these changes are {self.taken}, and the next run takes them first"
            raise

    def remove(self) -> None:
        """Removes what was published. The other way round, a run that is cut off between the two would publish the
        changes again."""
        files.remove(self.taken)
        if self.text != self.taken:
            with files.writing(self.text):
                files.sync_file(self.text.parent)
            files.remove(self.text)
