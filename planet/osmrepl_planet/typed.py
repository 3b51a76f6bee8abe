"""Types of words that need nothing else: they are there before it is known what is installed."""

import argparse
from pathlib import Path


def filled(text: str) -> str:
    """A word as it is. An empty one is a variable of a script that has no value."""
    if not text:
        raise argparse.ArgumentTypeError("an empty word")
    return text


def path(text: str) -> Path:
    return Path(filled(text))
