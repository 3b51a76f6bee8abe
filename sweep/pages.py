"""The commands that README and docs/OPERATING.md show."""

import sys
from pathlib import Path

TOP = Path(__file__).resolve().parent.parent
PAGES = ["README.md", "docs/OPERATING.md"]


def commands(page, prompt):
    """The commands of a page, each with the lines that it prints: those after it. They are lines of indented parts whose
    first line begins with the prompt, and begin with it too."""
    found, is_inside, is_shown = [], False, False
    for line in (TOP / page).read_text(encoding="utf-8").splitlines():
        begins = line.startswith(f"    {prompt} ")
        is_shown = line.startswith("    ") and (is_shown if is_inside else begins)
        is_inside = line.startswith("    ")
        if is_shown and begins:
            found.append((line[6:], []))
        elif is_shown:
            found[-1][1].append(line[4:])
    if not found:
        sys.exit(f"{page} shows no command after {prompt}")
    return found
