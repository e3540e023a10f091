"""Makes what docs repeat of the header, between two lines of a page, or inside of one:

    <!-- calls: made of include/lgm.h by python3 surface/make.py -->
    <!-- the end of what is made -->

Of a table of numbers only the first column is made, by the words in code in the second, where `..` stands for those between
two: what is said of them there is by hand. All numbers that calls return have to be in the table whose line says `all`. The
calls that leave maps as they are stand there by the sources of the library, with the clauses that say so.
"""

from __future__ import annotations

import re
from pathlib import Path
from typing import Callable, Dict, List, Set

from surface import clauses
from surface.model import Call, Header

TOP = Path(__file__).resolve().parent.parent
FILES = ("docs/embedding.md", "docs/operating.md", "docs/promises.md", "docs/protocol.md")
END = "<!-- the end of what is made -->"
BEGIN = r"<!-- ([a-z ]+): made of (?:include/lgm\.h|crates/lgm_c/src) by python3 surface/make\.py -->\n?"
BLOCK = re.compile(rf"({BEGIN})(.*?)({END})", re.DOTALL)
# A closed handle's number is the first of nearly all calls.
OF_ALL = "LGM_CLOSED"


class NotFound(Exception):
    """What a page names and the header hasn't, or the other way round."""


def in_markdown(text: str) -> str:
    """A text with the header's names as code."""
    return re.sub(r"\b(?:lgm|LGM)_\w+", lambda found: f"`{found[0]}`", text)


def numbers_of(call: Call) -> str:
    """The numbers that a call returns beside those of all."""
    entries = [entry.numbers for entry in call.returns if entry.numbers != OF_ALL]
    return in_markdown(", ".join(entries)) or "none"


def calls(header: Header, _: str) -> str:
    """The table of calls: what they cost, and what they return."""
    rows = ["| call | cost, with n channels | numbers, besides `LGM_OK` and `LGM_CLOSED` |", "|---|---|---|"]
    for topic in header.described:
        names = ", ".join(f"`{call.name}`" for call in topic)
        rows.append(f"| {names} | {in_markdown(topic[-1].cost.removesuffix('.') or 'constant')} | {numbers_of(topic[-1])} |")
    return "".join(f"{row}\n" for row in rows)


def values_in(cell: str, header: Header) -> List[int]:
    """The numbers whose words a cell has as code."""
    by_word = {number.word: number.value for number in header.returned()}
    values: List[int] = []
    for between, word in re.findall(r"([^`]*)`([^`]*)`", cell):
        if word not in by_word:
            raise NotFound(f"no number has the word {word}")
        if ".." in between:
            values += [value for value in by_word.values() if values[-1] < value < by_word[word]]
        values.append(by_word[word])
    return values


def ranges(values: List[int], known: List[int]) -> str:
    """Numbers as a reader has them: `1, 3`, or `41 to 48` of more than two that follow one another."""
    if len(values) > 2 and values == [value for value in known if values[0] <= value <= values[-1]]:
        return f"{values[0]} to {values[-1]}"
    return ", ".join(map(str, values))


def numbers(header: Header, table: str, must_have_all: bool = False) -> str:
    """A table of numbers, by the words in its second column."""
    known = [number.value for number in header.returned()]
    rows: List[str] = []
    seen: Set[int] = set()
    for row in table.splitlines():
        cells = row.split(" | ")
        if values := values_in(cells[1], header) if len(cells) > 1 else []:
            cells[0] = f"| {ranges(values, known)}"
            seen.update(values)
        rows.append(" | ".join(cells))
    missing = [number.word for number in header.returned() if number.name and number.value not in seen]
    if must_have_all and missing:
        raise NotFound(f"a table of all numbers has no row of {', '.join(missing)}")
    return "".join(f"{row}\n" for row in rows)


def all_numbers(header: Header, table: str) -> str:
    """A table of all numbers."""
    return numbers(header, table, must_have_all=True)


def cited(header: Header, clauses_of: Dict[str, List[str]]) -> str:
    """Calls with their clauses, in the order of the header; calls with the same ones together."""
    calls_with: Dict[str, List[str]] = {}
    for call in header.calls:
        if found := clauses_of.get(call.name):
            calls_with.setdefault(", ".join(f"`{clause}`" for clause in found), []).append(f"`{call.name}`")
    return "; ".join(f"{', '.join(names)}: {found}" for found, names in calls_with.items())


def keeping_calls(header: Header, _: str) -> str:
    """The calls that leave maps as they are."""
    return cited(header, clauses.keeping(clauses.sources()))


TABLES: Dict[str, Callable[[Header, str], str]] = {
    "calls": calls, "numbers": numbers, "all numbers": all_numbers, "calls that leave maps as they are": keeping_calls}


def page(header: Header, text: str) -> str:
    """A page, with its tables made."""
    return BLOCK.sub(lambda found: found[1] + TABLES[found[2]](header, found[3]) + found[4], text)


def made(header: Header) -> Dict[str, str]:
    """The pages, by their places."""
    return {file: page(header, (TOP / file).read_text()) for file in FILES}
