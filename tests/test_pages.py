#!/usr/bin/env python3
"""Tests that tests/pages.py finds names of calls that aren't there, and takes those that are.

    python3 tests/test_pages.py
"""

import re
import sys
import tempfile
from pathlib import Path

sys.dont_write_bytecode = True  # the repository gets no made files

import pages  # noqa: E402

PAGE = pages.TOP / "docs" / "promises.md"
# Lines, each with what is said of it.
LINES = (
    ("`LookupCache::new`, `guess`, `insert`, `reserve`", []),
    ("`LookupCache::new`, `cached`", ["nothing outside the pages is named cached",
                                      "neither has LookupCache a call cached, nor is there one beside"]),
    # A name that others have isn't one of this type; a function beside the type is.
    ("`LookupCache::new`, `silence`", ["neither has LookupCache a call silence, nor is there one beside"]),
    ("`Query::answer`, `answer_ids` and `backlog`", []),
    ("`Map::admitted_by_all`", ["Map has no admitted_by_all"]),
    ("`lgm_route_of_nothing`", ["nothing outside the pages is named lgm_route_of_nothing"]),
    ("`least.answer`, `Map::absorb.ok`", []),
    ("`least.found_nothing`", ["least has no clause found_nothing"]),
    ("`Map::absorb.found_nothing`", ["Map::absorb has no clause found_nothing"]),
    ("`Map.route`, `lgm.Board`, `payment.is_paid`", []),
    ("`Map.route_of_nothing`", ["the class Map has no route_of_nothing"]),
    ("`Map::absorb`: `ok`, `err`", []),
    ("`Map::absorb`: `found_nothing`", ["nothing outside the pages is named found_nothing",
                                        "Map::absorb has no clause found_nothing"]),
)
# Rows of the tables by crate, each with what is said of it.
ROWS = (
    ("## Every call", (
        ("| **`lgm_query`** `read_query`, `ReplyMessage` | none |", []),
        ("| the calls of `Reply` and `Replies` | none |", ["lgm_query has no public Reply"]),
        ("| `Filter::passes`, `answer_ids` (of a map) | none |", []),
        ("| `least` | none |", ["lgm_query has no public least"]),
        ("| **`lgm_publish`**: of `lgm_board` `board` | none |", []),
        ("| of `lgm_world` `World::new`, `Reply` | none |", []))),
    ("## Index: every claim and its clause", (
        ("| `lgm_route` | a claim | `least`: `no_call`; `View::edge`, `fee` |", []),
        ("| | another | `least`: `answer`; `run`: `ok` |", ["lgm_route has no run"]),
        ("| `lgm_run`, as `lgm_server` has it | a claim | `run`, `least` |", []))),
    ("## Another", (("| `least` | none | `run_of_nothing` |", []),)),
)


def lines_are_compared(checker):
    """Names in lines."""
    for line, wanted in LINES:
        found = [*checker.spans(PAGE, line), *checker.cited(line), *checker.lists(line)]
        assert found == wanted, (line, found)


def rows_are_compared(checker, page):
    """Names in the tables by crate."""
    lines, wanted = [], []
    for heading, rows in ROWS:
        lines += [heading, "", "| call | refusals |" if "call" in heading else "| crate | claim |", "|---|---|"]
        for row, faults in rows:
            lines.append(row)
            wanted += [(len(lines), fault) for fault in faults]
    page.write_text("\n".join(lines))
    found = list(checker.by_crate(page))
    assert found == wanted, found


def comments_name_nothing():
    """What only a comment says isn't there."""
    for end, text in ((".rt", "fn a() {} // gone"), (".antt", "-- gone\na : ℕ -- gone"), (".h", "/* gone\n gone */ int a;"),
                      (".py", '"""gone\ngone."""\na = 1  # gone')):
        left = re.sub(pages.COMMENTS[end], " ", text)
        assert "gone" not in left and re.search(r"\ba\b", left), left


def main():
    """Runs each."""
    checker = pages.Checker()
    lines_are_compared(checker)
    with tempfile.TemporaryDirectory() as folder:
        rows_are_compared(checker, Path(folder, "page.md"))
    comments_name_nothing()
    print("3 passed")


if __name__ == "__main__":
    main()
