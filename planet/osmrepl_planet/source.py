"""SAVE.source: where a save's numbers come from, in a small text file that a person can read and change."""

import contextlib
import os
import re
from collections.abc import Iterator
from dataclasses import dataclass, replace
from pathlib import Path

from . import files, locks, opl
from .client import Settings
from .faults import Fault, Refused, one_line

FORMS = ("osc.gz", "o5c", "opl")
DEFAULT_LAG = 3600
DEFAULT_KINDS = "nwr"
# what no line of SAVE.source can have
CONTROL = re.compile("[\x00-\x1f\x7f-\x9f]")
# some of them, in this order
KINDS = "(?=.)n?w?r?"
# how long another run may hold the file, in seconds
PATIENCE = 5
HEAD = "# Where osmrepl-planet gets the numbers after that of this save from. docs/OPERATING.md explains each line.\n"


@dataclass(frozen=True)
class Source:
    """A server, a folder for what it has, and how both are used."""

    url: str
    folder: Path
    form: str | None = None
    kinds: str = DEFAULT_KINDS
    keys: tuple[str, ...] = ()
    cookies: str | None = None
    timeout: int | None = None
    tries: int | None = None
    lag: int | None = None
    strict: bool = False
    renumber: bool = False
    cursors: tuple[Path, ...] = ()

    def settings(self) -> Settings:
        usual = Settings()
        return Settings(self.timeout or usual.timeout, self.tries or usual.tries, self.cookies)

    @property
    def most_lag(self) -> int:
        return DEFAULT_LAG if self.lag is None else self.lag

    def over(self, options: dict) -> "Source":
        """This source with what was given now."""
        return replace(self, **{name: value for name, value in options.items() if value is not None})


def path_of(save: Path) -> Path:
    return files.beside(save, "source")


def usual_folder(save: Path) -> Path:
    return files.beside(save, "diffs")


def url_of(text: str) -> str:
    """An address of the command line, with its scheme in lower case, without a slash at its end."""
    scheme, mark, rest = text.partition("://")
    text = f"{scheme.lower()}{mark}{rest}"
    if not text.startswith(("http://", "https://")):
        raise Refused(f"{text}: doesn't begin with http:// or https://")
    if not re.fullmatch(r"[^\s/]\S*", rest) or not text.isprintable():
        raise Refused(f"{text}: names no server, or has blanks (http://HOST/FOLDER)")
    if "@" in text.split("/")[2]:
        raise Refused("a name or password in URL isn't taken (--cookies FILE names a login)")
    after = re.search("[?#].*", text)
    if after:
        raise Refused(f"{after[0]} in URL isn't taken (files have their names after it)")
    return text.rstrip("/")


def text_of(source: Source, beside: Path) -> str:
    """The text of a source that is in the folder `beside`."""
    lines = [("url", source.url), ("folder", path_text(source.folder, beside)), ("form", source.form),
             ("kinds", source.kinds)]
    lines += [("key", opl.escape(key)) for key in source.keys]
    cookies = source.cookies and os.path.abspath(source.cookies)
    lines += [("cookies", cookies), ("timeout", source.timeout), ("tries", source.tries), ("lag", source.lag),
              ("strict", "yes" if source.strict else None), ("renumber", "yes" if source.renumber else None)]
    lines += [("cursor", path_text(cursor, beside)) for cursor in source.cursors]
    for _, value in lines:
        if CONTROL.search(str(value)):
            raise Fault(f"{value}: has control characters, which no line of SAVE.source can have")
    return HEAD + "".join(f"{word} {value}\n" for word, value in lines if value is not None)


def path_text(path: Path, beside: Path) -> str:
    """A path, from the folder `beside` on if it is below that."""
    absolute = Path(os.path.abspath(path))
    try:
        return str(absolute.relative_to(os.path.abspath(beside)))
    except ValueError:
        return str(absolute)


def read_text(text: str, beside: Path) -> Source:
    """The source of a text. ValueError says which line is wrong, and why."""
    values: dict = {"keys": (), "cursors": ()}
    for number, line in enumerate(text.split("\n"), 1):
        if line.startswith("#") or not line.strip():
            continue
        word, _, value = line.rstrip("\r").partition(" ")
        try:
            take_line(values, word, value)
        except ValueError as error:
            raise ValueError(f"line {number}: {error}") from error
    if "url" not in values or "folder" not in values:
        raise ValueError("it has no line url, or no line folder")
    values["url"] = values["url"].rstrip("/")
    values["folder"] = beside / values["folder"]
    values["cursors"] = tuple(dict.fromkeys(beside / cursor for cursor in values["cursors"]))
    return Source(**values)


def take_line(values: dict, word: str, value: str) -> None:
    checks = {"url": r"https?://[^\s/]\S*", "folder": r".+", "form": "|".join(map(re.escape, FORMS)),
              "kinds": KINDS, "key": r".*", "cookies": r".+", "timeout": r"[1-9]\d{0,8}",
              "tries": r"[1-9]\d{0,8}", "lag": r"\d{1,9}", "strict": r"yes|no", "renumber": r"yes|no",
              "cursor": r".+"}
    if word not in checks:
        raise ValueError(f"unknown word {one_line(word[:64])}" + (".." if word[64:] else ""))
    if not re.fullmatch(checks[word], value):
        raise ValueError(f"bad {word}")
    if word == "key":
        values["keys"] += (opl.unescape(value),)
    elif word == "cursor":
        values["cursors"] += (value,)
    elif word in values:
        raise ValueError(f"a second {word}")
    elif word in ("timeout", "tries", "lag"):
        values[word] = int(value)
    else:
        values[word] = value == "yes" if word in ("strict", "renumber") else value


def read(save: Path) -> Source | None:
    """The source of a save, or None if it has none yet."""
    path = path_of(save)
    if not path.exists():
        return None
    with files.reading(path), files.open_file(path) as file:
        text = file.read().decode("utf-8", "surrogateescape")
    try:
        return read_text(text, path.parent)
    except ValueError as error:
        raise Fault(f"{path}: {error}") from error


def check(save: Path, source: Source) -> None:
    """Refuses a source that SAVE.source can't keep."""
    text_of(source, path_of(save).parent)


def write(save: Path, source: Source) -> None:
    path = path_of(save)
    files.replace(path, text_of(source, path.parent).encode("utf-8", "surrogateescape"))


@contextlib.contextmanager
def held(save: Path) -> Iterator[None]:
    """Keeps other runs from changing a source between its reading and its writing. One that isn't there isn't held."""
    path = path_of(save)
    if not path.exists():
        yield
        return
    with files.writing(path), locks.opened(path, os.O_RDWR, PATIENCE):
        yield


def keep_form(save: Path, form: str) -> None:
    """Notes the form of the server's changes."""
    with held(save):
        found = read(save)
        if found and found.form != form:
            write(save, replace(found, form=form))
