"""What ends a run, or a part of it."""

DONE = 0
INCOMPLETE = 1
REFUSED = 2
FAULTY = 3
BUSY = 4


class Fault(Exception):
    """A fault, as the line that says it. `mends` if the next run is likely to mend it."""

    def __init__(self, text: str, status: int = FAULTY, mends: bool = False) -> None:
        super().__init__(text)
        self.text, self.status, self.mends = text, status, mends


class Refused(Fault):
    """Words of the command line that aren't taken."""

    def __init__(self, text: str) -> None:
        super().__init__(text, REFUSED)


class Busy(Fault):
    """Another run is at work."""

    def __init__(self, text: str) -> None:
        super().__init__(text, BUSY)


class OtherSource(Fault):
    """A server or a folder that isn't the one of the mirror: nothing of it is followed."""


class Stopped(Exception):
    """A signal asked for the end of the run."""


def fault_of(error: Fault | OSError, name: object) -> Fault:
    """A fault, also of the system at a file that nobody foresaw."""
    return error if isinstance(error, Fault) else Fault(f"{error.filename or name}: {cause_of(error)}")


def cause_of(error: BaseException) -> str:
    """What the system said, as osmrepl says it: `no space left on device`."""
    text = getattr(error, "strerror", None) or str(error) or type(error).__name__
    return one_line(text[:1].lower() + text[1:])


def one_line(text: str) -> str:
    """A text on one line, without control characters."""
    return printable(" ".join(text.split()))


def printable(text: str) -> str:
    """A text whose control characters do nothing to a terminal."""
    return "".join(letter if letter.isprintable() else f"\\x{ord(letter):02x}" for letter in text)
