"""Makes python/lgm/numbered.py: a class for each number that is a fault, below one for each group, and the reasons. Their names
stand in the list of what the package exports, too: between two comments, one by one, since mypy reads no other list.
"""

from __future__ import annotations

from pathlib import Path
from typing import Dict, Iterator, List

from surface.model import Group, Header, Number
from surface.names import camel, fault_class, sentence, short
from surface.texts import MADE, filled

TOP = Path(__file__).resolve().parent.parent
FILE = "python/lgm/numbered.py"
PACKAGE = "python/lgm/__init__.py"
BEGIN, END = "    # Made of include/lgm.h by python3 surface/make.py:\n", "    # The end of what is made.\n"
# The class that all faults are of, by hand in fault.py: the group of this name has no class of its own.
BASE = "Fault"
# Groups of numbers that no call fails with, and those that are an enumeration.
NO_FAULTS, ENUMERATIONS = {"Done", "First fault"}, {"Reason"}
# Faults that say more than their word, whose classes are by hand in faults.py.
BY_HAND = {"LGM_NO_ROUTE", "LGM_TOO_DEAR", "LGM_CHANNELS_SHORT", "LGM_PAYEE_SHORT", "LGM_PATHS_SHORT",
           "LGM_PAYEE_REFUSED"}

HEAD = f'''# {MADE}
"""A class for each number of include/lgm.h that is a fault, with its word."""

from __future__ import annotations

from enum import IntEnum

from .declarations import WORDS
from .fault import Fault

'''
WORD_OF_REASON = '''
    @property
    def word(self) -> str:
        """Its word, as lgm_text has it."""
        return WORDS[self]
'''


def docstring(text: str) -> List[str]:
    """What a class says."""
    return filled(f'"""{sentence(text)}"""', 128, "    ", "    ")


def base_of(group: Group) -> str:
    """The class that the faults of a group are of."""
    return camel(group.name)


def fault(number: Number) -> List[str]:
    """The class of a fault."""
    head = f'class {fault_class(number)}({base_of(number.group)}, number={number.value}, word="{number.word}"):'
    return ["", "", head, *docstring(number.text)]


def enumeration(group: Group, numbers: List[Number]) -> List[str]:
    """The class of a group that is an enumeration."""
    members = [f"    {short(number)} = {number.value}  # {number.text}" for number in numbers]
    return ["", "", f"class {camel(group.name)}(IntEnum):", *docstring(group.text), "", *members, WORD_OF_REASON.rstrip("\n")]


def of_group(group: Group, numbers: List[Number]) -> Iterator[str]:
    """The classes of a group."""
    if group.name in ENUMERATIONS:
        yield from enumeration(group, numbers)
        return
    if base_of(group) != BASE:
        yield from ("", "", f"class {base_of(group)}({BASE}):", *docstring(group.text))
    for number in numbers:
        if number.name not in BY_HAND:
            yield from fault(number)


def names(header: Header) -> List[str]:
    """The names of all classes."""
    groups = [base_of(group) for group in header.groups if group.name not in NO_FAULTS and base_of(group) != BASE]
    return groups + [fault_class(number) for number in header.returned()
                     if number.group.name not in NO_FAULTS | ENUMERATIONS and number.name not in BY_HAND]


def listed(header: Header) -> str:
    """These names as lines of a list."""
    quoted = " ".join(f'"{name}",' for name in sorted(names(header)))
    return "".join(f"{line}\n" for line in filled(quoted, 124, "    ", "    "))


def exporting(header: Header, text: str) -> str:
    """The package with these names in its list."""
    before, begin, rest = text.partition(BEGIN)
    _, end, behind = rest.partition(END)
    return before + begin + listed(header) + end + behind


def made(header: Header) -> Dict[str, str]:
    """The files, by their places."""
    lines: List[str] = []
    for group in header.groups:
        if group.name not in NO_FAULTS:
            lines += of_group(group, [number for number in header.numbers if number.group == group])
    text = HEAD + "\n".join([f"__all__ = [\n{listed(header)}]", *lines]) + "\n"
    return {FILE: text, PACKAGE: exporting(header, (TOP / PACKAGE).read_text())}
