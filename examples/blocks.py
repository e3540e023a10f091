"""The blocks of code of a page: what tests run as the page has it."""

from pathlib import Path

TOP = Path(__file__).resolve().parent.parent


def block(page, first):
    """The block of a page whose first line begins so, without its indentation."""
    text = (TOP / page).read_text()
    lines = text[text.index(f"    {first}"):].splitlines()
    ends = (place for place, line in enumerate(lines) if line and not line.startswith("    "))
    return "".join(line[4:] + "\n" for line in lines[:next(ends, None)]).rstrip("\n") + "\n"
