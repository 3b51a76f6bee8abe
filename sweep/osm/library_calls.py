"""What the built program `library_calls` answers to commands."""

from osm.program import run, told

MARK = ("mark", b"")


class Wrong(AssertionError):
    """An answer that should have been another one."""


def text_of(on, commands):
    """The commands as they are given, after the one that names what the calls are made on."""
    return b"".join(b"%s %d\n%s\n" % (word.encode(), len(given), given) for word, given in [(on, b""), *commands])


def answers(on, commands, **options):
    """What each command but the marks is answered."""
    done = run([], "library_calls", given=text_of(on, commands), **options)
    marks, found = commands.count(MARK), done.out.encode(errors="surrogateescape").split(b"--\n")
    if (done.status, done.said) != (0, "mark\n" * marks) or len(found) != len(commands) - marks + 1:
        raise Wrong(f"status {done.status}, {done.said!r}: {done.out!r}")
    return found[:-1]


def allocations(on, commands):
    """How many allocations there are between the marks."""
    done, counts = told([], "memory", {"marked": 1}, name="library_calls", given=text_of(on, commands))
    expect("the status", done.status, 0)
    return int(counts.split()[0])


def expect(what, found, wanted):
    if found != wanted:
        raise Wrong(f"{what} is {found!r}, where it should be {wanted!r}")


def replayed(words, script):
    """What a world replies to a script, if its filter is the one that the words name: the kinds that are kept, and the
    keys as lines spell them."""
    named = " ".join(words).encode()
    return answers("world", [("filter", named), ("events", script), ("World::run_with", b""), ("reply", b"")])[-1]
