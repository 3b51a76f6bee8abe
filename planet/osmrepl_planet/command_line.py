"""The command line: a word, and what it takes."""

import argparse
import importlib
import logging
import os
import sys
import traceback
from pathlib import Path

from . import VERSION
from .faults import DONE, FAULTY, Fault, Refused, Stopped, fault_of
from .files import write_fault
from .output import NAME, begin_log, say
from .stop import Stop
from .typed import filled, path

WORDS = {
    "start": ("begins a mirror with a data file and its server", "FILE SAVE [KEY ..] [options]"),
    "fetch": ("brings the numbers that a folder lacks", "(SAVE | --url URL --dir DIR) [options]"),
    "mirror": ("brings a mirror up to date, for cron or systemd", "SAVE [options] [--then CURSOR -- COMMAND ..]"),
    "status": ("says how a mirror is: in lines, for Prometheus or a plugin, as a page", "SAVE [options]"),
    "publish": ("publishes a file of changes, for the clients of the field", "DIR CHANGES [options]"),
    "export": ("writes a mirror as a data file that others go on from", "SAVE OUT [options]"),
    "hand-on": ("hands on what a consumer hasn't taken of a mirror yet",
                "SAVE CURSOR [options] (-- COMMAND .. | --start OUT | --lots DIR)"),
    "sqlite": ("keeps a SQLite database with the objects of a mirror", "SAVE DB [options]"),
}
HELP = f"""usage: {NAME} WORD ..

Brings the diffs of a replication server to osmrepl, and hands its mirrors and folders on.

""" + "".join(f"  {word:8} {does}\n" for word, (does, _) in WORDS.items()) + f"""
{NAME} WORD --help says what each word takes. In three commands from an extract to a running mirror:

  {NAME} start extract.osm.pbf follower.save --url https://diffs.example/minute
  {NAME} mirror follower.save
  {NAME} export follower.save today.osm.pbf
"""


class Parser(argparse.ArgumentParser):
    """A parser whose faults are one line."""

    def error(self, message: str) -> None:
        text = message.removeprefix("argument ")
        if text == message:
            text += f"; {self.prog} --help says which words there are"
        raise Refused(text)

    def print_help(self, _file: object = None) -> None:
        show(self.format_help())


def main(words: list[str]) -> None:
    """Runs a word, and ends the process: threads that still wait for a server don't hold it up."""
    status = FAULTY
    try:
        open_streams()
        status = run(words)
    except SystemExit as end:
        status = end.code if isinstance(end.code, int) else DONE
    except MemoryError:
        say("out of memory")
    except BaseException:
        # a fault of this program: whoever reports it needs all of it
        traceback.print_exc()
    finally:
        logging.shutdown()
        os._exit(flushed(status))


def open_streams() -> None:
    """Has each stream that is closed be one that nothing is written to, so that no file gets its number."""
    for name, mode in ("stdin", "r"), ("stdout", "w"), ("stderr", "w"):
        if getattr(sys, name) is None:
            setattr(sys, name, open(os.open(os.devnull, os.O_RDONLY), mode, encoding="utf-8"))


def flushed(status: int) -> int:
    for stream in (sys.stdout, sys.stderr):
        try:
            stream.flush()
        except (OSError, ValueError):
            status = status or FAULTY
    return status


def run(words: list[str]) -> int:
    stop = Stop()
    try:
        if not words or words[0] in ("-h", "--help"):
            show(HELP)
            return DONE if words else 2
        if words[0] == "--version":
            show(f"{NAME} {VERSION}\n")
            return DONE
        if words[0] not in WORDS:
            raise Refused(f"unknown word; {NAME} --help says which there are")
        module = importlib.import_module(f"{__package__}.{words[0].replace('-', '_')}")
        own, command = cut_command(module, words[1:])
        found = parser_of(words[0], module).parse_intermixed_args(own)
        found.command = command
        begin_log(getattr(found, "verbose", False))
        stop.listen()
        return module.run(found, stop)
    except Stopped:
        return 128 + stop.number
    except Refused as fault:
        say(fault.text)
        # that of a monitoring plugin is UNKNOWN
        is_plugin = words[0] == "status" and any(word.startswith("--max-age") for word in words)
        return FAULTY if is_plugin else fault.status
    except Fault as fault:
        if fault.text:
            say(fault.text)
        return fault.status
    except ModuleNotFoundError as error:
        say(f"{error.name}: not there (Debian: python3-{error.name})")
        return FAULTY
    except BrokenPipeError:
        return FAULTY
    except OSError as error:
        say(fault_of(error, words[0]).text)
        return FAULTY


def show(text: str) -> None:
    """Prints a text of the program. If its pipe is closed early, as by head, nothing is said."""
    try:
        print(text, end="", flush=True)
    except BrokenPipeError:
        raise
    except OSError as error:
        raise write_fault("output", error) from error


def cut_command(module, words: list[str]) -> tuple[list[str], list[str]]:
    """The words before `--` and those after it, if the ones after it are a command for this word."""
    own = words[:words.index("--")] if "--" in words else words
    is_taken = hasattr(module, "takes_command") and module.takes_command(own)
    return (own, words[len(own) + 1:]) if is_taken else (words, [])


def parser_of(word: str, module) -> Parser:
    does, usage = WORDS[word]
    parser = Parser(prog=f"{NAME} {word}", usage=f"{NAME} {word} {usage}", epilog=module.HELP,
                    formatter_class=argparse.RawDescriptionHelpFormatter, description=f"{does[:1].upper()}{does[1:]}.",
                    allow_abbrev=False)
    # words without a type of their own, and paths
    parser.register("type", None, filled)
    parser.register("type", Path, path)
    module.add_words(parser)
    return parser
