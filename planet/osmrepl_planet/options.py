"""What options take, and those that several words have. argparse says the option before the text of these faults."""

import argparse
import os
import re
from pathlib import Path

from . import source as sources
from .faults import Refused
from .typed import filled

# a hundred years, which a datetime can go back
MOST_DAYS = 36500
VERBOSE = "says what is done"
STRICT = "refuses objects without user or changeset"


def address(text: str) -> str:
    try:
        return sources.url_of(filled(text))
    except Refused as error:
        raise argparse.ArgumentTypeError(error.text) from error


def named(text: str) -> str:
    """A path that SAVE.source may keep on a line."""
    if sources.CONTROL.search(text):
        raise argparse.ArgumentTypeError(f"{text}: control characters aren't taken")
    return filled(text)


def plain_path(text: str) -> Path:
    return Path(named(text))


def folder(text: str) -> Path:
    found = plain_path(text)
    return Path(os.path.abspath(found)) if found.is_absolute() else found


def seconds(text: str) -> int:
    if not re.fullmatch("[0-9]{1,9}", text):
        raise argparse.ArgumentTypeError("bad number")
    return int(text)


def above_zero(text: str) -> int:
    if seconds(text) == 0:
        raise argparse.ArgumentTypeError("bad number")
    return int(text)


def days(text: str) -> int:
    if not re.fullmatch("[0-9]{1,9}", text) or int(text) > MOST_DAYS:
        raise argparse.ArgumentTypeError(f"bad number of days (0 to {MOST_DAYS})")
    return int(text)


def sequence(text: str) -> int:
    if not re.fullmatch("[0-9]{1,9}", text) or int(text) == 0:
        raise argparse.ArgumentTypeError("bad sequence")
    return int(text)


def kinds(text: str) -> str:
    if not re.fullmatch(sources.KINDS, text):
        raise argparse.ArgumentTypeError("bad filter (some of n, w and r, in this order)")
    return text


def add_server_options(parser: argparse.ArgumentParser) -> None:
    """Options of each word that asks a server."""
    parser.add_argument("--cookies", metavar="FILE", type=named, help="the cookies for a server that asks for a login")
    parser.add_argument("--timeout", metavar="SECONDS", type=above_zero, help="how long a server may say nothing (30)")
    parser.add_argument("--tries", metavar="N", type=above_zero,
                        help="how often a request is made before its error counts (3)")
    parser.add_argument("--lag", metavar="SECONDS", type=seconds,
                        help="how old the mirror may be before mirror and status say it is late (3600)")
    parser.add_argument("--strict", action="store_true", default=None, help=STRICT)
    parser.add_argument("-v", "--verbose", action="store_true", help=VERBOSE)


def add_renumber(parser: argparse.ArgumentParser) -> None:
    parser.add_argument("--renumber", action="store_true", default=None,
                        help="gives the diffs numbers of the folder's own from now on, each as many as it needs, so "
                             "that diffs of any size are taken")


def options_of(words: argparse.Namespace) -> dict:
    """The options that SAVE.source may keep."""
    names = ("cookies", "timeout", "tries", "lag", "strict", "renumber")
    return {"folder": words.dir, **{name: getattr(words, name, None) for name in names}}
