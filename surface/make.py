#!/usr/bin/env python3
"""Makes what repeats include/lgm.h: declarations for Python and Rust, and tables of docs.

    python3 surface/make.py            writes each file that isn't current, and names it
    python3 surface/make.py --check    only names these files; the exit status is then 1

surface/__init__.py lists what is made by which module. The manual pages are made by `./package`.
"""

import argparse
import sys
from pathlib import Path

sys.dont_write_bytecode = True  # the repository gets no made files beside these
TOP = Path(__file__).resolve().parent.parent
sys.path[0] = str(TOP)

from surface import pages, python_declarations, python_faults, rust_numbers, rust_raw  # noqa: E402
from surface.header import NotUnderstood, read_file  # noqa: E402

MAKERS = (python_declarations, python_faults, rust_raw, rust_numbers, pages)


def all_made():
    """What each file is to have, by its place."""
    header = read_file()
    files = {}
    for maker in MAKERS:
        files.update(maker.made(header))
    return files


def text_of(place):
    """What a file has, or `None` if there is none."""
    return (TOP / place).read_text() if (TOP / place).exists() else None


def main():
    """Takes the arguments, and writes or checks."""
    parser = argparse.ArgumentParser(description=__doc__, formatter_class=argparse.RawDescriptionHelpFormatter)
    parser.add_argument("--check", action="store_true", help="write nothing, and fail if a file isn't current")
    is_check = parser.parse_args().check
    try:
        files = all_made()
    except (NotUnderstood, pages.NotFound) as why:
        sys.exit(f"make.py: {why}")
    stale = [place for place, text in sorted(files.items()) if text_of(place) != text]
    for place in stale:
        if not is_check:
            (TOP / place).write_text(files[place])
        print(f"{place}: {'not current: run python3 surface/make.py' if is_check else 'written'}")
    print(f"{len(files)} files, {len(stale)} {'not current' if is_check else 'written'}")
    return 1 if is_check and stale else 0


if __name__ == "__main__":
    sys.exit(main())
