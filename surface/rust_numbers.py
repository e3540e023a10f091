"""Makes src/numbers.rs of the crate: constants of all numbers of the header, with their words and what they are of; and
src/version.rs, which the crate and its build script have in common."""

from __future__ import annotations

from typing import Dict, Iterator, List

from surface.model import Constant, Group, Header, Number
from surface.names import camel, sentence, short
from surface.rust_raw import WIDTH, docs
from surface.texts import MADE, filled

FILE, VERSION_FILE = "examples/rust/src/numbers.rs", "examples/rust/src/version.rs"
# The group of numbers that are no faults.
DONE = "Done"

HEAD = f"""// {MADE}
//! The numbers of `include/lgm.h`: limits, verdicts, and what calls return. Each fault is a constant of [`Fault`].

use crate::Fault;
"""


def said(text: str, indent: str) -> List[str]:
    """Documentation of one paragraph."""
    return filled(sentence(text), WIDTH - 2, f"{indent}/// ", f"{indent}/// ") if text else []


def constant_in_rust(constant: Constant) -> Iterator[str]:
    """A `#define`."""
    yield from docs(constant.comment)
    yield f"pub const {short(constant)}: usize = {constant.value:_};"


def number_in_rust(number: Number) -> Iterator[str]:
    """A number that is no fault."""
    yield from said(number.text, "")
    yield f"pub const {short(number)}: u32 = {number.value};"


def fault_in_rust(number: Number) -> Iterator[str]:
    """A fault."""
    yield from said(number.text, "    ")
    yield f"    pub const {short(number)}: Fault = Fault({number.value});"


def kinds(groups: List[Group]) -> Iterator[str]:
    """The enumeration of groups of faults."""
    yield from ("/// What a fault is of.", "#[derive(Clone, Copy, Debug, PartialEq, Eq)]", "pub enum Kind {")
    for group in groups:
        yield from said(group.text, "    ")
        yield f"    {camel(group.name)},"
    yield "}"


def patterns(numbers: List[Number]) -> str:
    """Numbers as a pattern, with ranges of those that follow one another."""
    ranges: List[List[int]] = []
    for value in sorted(number.value for number in numbers):
        if ranges and ranges[-1][1] == value - 1:
            ranges[-1][1] = value
        else:
            ranges.append([value, value])
    return " | ".join(str(first) if first == last else f"{first}..={last}" for first, last in ranges)


def kind_of(header: Header, groups: List[Group]) -> Iterator[str]:
    """The function that tells the group of a fault."""
    yield from ("    /// What it is of; `None` of a number that is no fault.", "    pub const fn kind(self) -> Option<Kind> {",
                "        match self.0 {")
    for group in groups:
        numbers = [number for number in header.numbers if number.group == group]
        yield f"            {patterns(numbers)} => Some(Kind::{camel(group.name)}),"
    yield from ("            _ => None,", "        }", "    }")


def words(header: Header) -> Iterator[str]:
    """The function that has the words."""
    yield from ("    /// Its word, such as `not-newer`, as a string of the program; empty of a number that no call returns.",
                "    pub const fn text(self) -> &'static str {", "        match self.0 {")
    yield from (f'            {number.value} => "{number.word}",' for number in header.returned())
    yield from ('            _ => "",', "        }", "    }")


def meanings(header: Header) -> Iterator[str]:
    """The function that has what the numbers mean."""
    yield from ("    /// What it means, as the header says it; empty of a number that no call returns.",
                "    pub const fn meaning(self) -> &'static str {", "        match self.0 {")
    for number in header.returned():
        if number.text:
            quoted = number.text.replace("\\", "\\\\").replace('"', '\\"')
            yield f'            {number.value} => "{quoted}",'
    yield from ('            _ => "",', "        }", "    }")


def version(header: Header) -> str:
    """The version of the library, alone."""
    return (f"// {MADE}\n\n/// The version of the library that this crate is for, as its header has it.\n"
            f"pub const LIBRARY_VERSION: u32 = {header.version};\n")


def made(header: Header) -> Dict[str, str]:
    """Both files, by their places."""
    groups = [group for group in header.groups if group.name != DONE]
    lines = [HEAD.rstrip("\n")]
    for constant in header.constants:
        if constant.name != "LGM_VERSION":
            lines += ["", *constant_in_rust(constant)]
    for number in header.numbers:
        if number.group.name in ("", DONE):
            lines += ["", *number_in_rust(number)]
    lines += ["", *kinds(groups), "", "impl Fault {"]
    for number in header.returned():
        if number.name and number.group in groups:
            lines += [*fault_in_rust(number), ""]
    lines += [*kind_of(header, groups), "", *words(header), "", *meanings(header), "}"]
    return {FILE: "\n".join(lines) + "\n", VERSION_FILE: version(header)}
