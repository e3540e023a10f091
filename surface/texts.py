"""What made files have in common: how they begin, and how lines are filled."""

from __future__ import annotations

import textwrap
from typing import List

MADE = "Made of include/lgm.h by python3 surface/make.py. Change that, and not this."


def filled(text: str, width: int, first: str = "", later: str = "") -> List[str]:
    """A text in lines of a width, broken between words. The first one begins with one text, and later ones with another."""
    return textwrap.wrap(text, width, initial_indent=first, subsequent_indent=later, break_long_words=False,
                         break_on_hyphens=False)
