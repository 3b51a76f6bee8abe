"""A page of which a part is made: what stands between its two marks is what a script writes from the sources."""

import sys
from pathlib import Path

END = "<!-- What was made ends here. -->"


def keep(script, usage, page, made):
    """Writes what was made between the marks of the page. With the word `--check` nothing is written, and the script fails
    if the page, or the one that is named, isn't what it would write."""
    words = sys.argv[1:]
    is_check = words[:1] == ["--check"]
    if len(words) > 2 or words and not is_check:
        sys.exit(usage)
    page = Path(words[1]) if len(words) == 2 else page
    mark, text = f"<!-- What follows is made by {script}. -->\n", page.read_text(encoding="utf-8")
    before, begin, rest = text.partition(mark)
    _, end, after = rest.partition(END)
    if not begin or not end:
        sys.exit(f"{script}: {page} has no marks {mark.strip()} and {END}")
    wanted = f"{before}{begin}{made}{end}{after}"
    if not is_check:
        page.write_text(wanted, encoding="utf-8")
    elif text != wanted:
        sys.exit(f"{script}: {page} isn't what the sources say")
