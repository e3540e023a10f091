"""Reads include/lgm.h.

It is plain C, and in some places its form says more:

- a comment is of the declaration below it, and of those that follow without an empty line;
- in an `enum` a comment of the form `Name: text` heads the numbers below it, and one of the form `13 is never returned: text`
  stands for a number that has only a word;
- `lgm_text` has the words of all numbers, a `case` each;
- of a call's comment the paragraph that begins with `Cost: ` says what it costs, and the last one, if it begins with a number
  or the name of one, lists the numbers that it returns, each with when it comes behind a comma: `LGM_CLOSED; 1 to 3, of ..`.

Whatever else the header has is refused, so that nothing is left out of what is made.
"""

from __future__ import annotations

import re
from pathlib import Path
from typing import Dict, Iterator, List, Match, Tuple

from surface.model import Call, Comment, Constant, Field, Group, Header, Listed, Number, Struct, Type

PATH = Path(__file__).resolve().parent.parent / "include" / "lgm.h"
COMMENT = r"/\*(?:(?!\*/).)*\*/"
DECLARATION = re.compile(rf"""
    (?P<comment>{COMMENT})
    | \#define[ ](?P<constant>LGM_\w+)[ ](?P<value>\d+)$
    | ^(?P<skipped>\#[^\n]*$ | extern[ ]"C"[ ]\{{$ | \}}$)
    | enum[ ]\{{(?P<numbers>.*?)^\}};
    | typedef[ ]struct[ ]\{{(?P<members>.*?)^\}}[ ](?P<struct>\w+);
    | (?:static[ ]inline[ ])?(?P<result>[\w ]+?[ ]\*?)(?P<call>lgm_\w+)\((?P<parameters>[^()]*)\)(?:;|[ ]\{{(?P<words>.*?)^\}})
    """, re.DOTALL | re.MULTILINE | re.VERBOSE)
ENUMERATOR = re.compile(rf"(?P<name>\w+) = (?P<value>\d+),?(?: *(?P<trailing>{COMMENT})$)?|(?P<comment>{COMMENT})",
                        re.DOTALL | re.MULTILINE)
MEMBER = re.compile(rf"(?P<text>[\w *\[\]]+);(?: *(?P<trailing>{COMMENT})$)?|(?P<comment>{COMMENT})", re.DOTALL | re.MULTILINE)
LISTED = re.compile(r"(LGM_\w+|\d+(?: to \d+)?)(?:, (.*))?")
NO_COMMENT = Comment()
VERDICTS = Group("", "")


class NotUnderstood(Exception):
    """Something in the header that has none of the forms. The text has its line."""


def comment_of(text: str) -> Comment:
    """What a comment says."""
    lines = [re.sub(r"^ ?\* ?", "", line.strip()) for line in text[2:-2].strip().splitlines()]
    paragraphs: List[str] = []
    is_new = True
    for line in map(str.strip, lines):
        if line.startswith("- ") or is_new and line:
            paragraphs.append(line)
        elif line:
            paragraphs[-1] += " " + line
        is_new = not line
    return Comment(tuple(paragraphs))


def text_of(text: str) -> str:
    """What a comment of one paragraph says, or none."""
    return " ".join(comment_of(text).paragraphs) if text else ""


def pieces(pattern: re.Pattern[str], text: str, before: int = 1) -> Iterator[Tuple[Match[str], bool]]:
    """All matches of a pattern, which make up a text, each with whether it follows the one before without an empty line."""
    end = 0
    for found in pattern.finditer(text):
        between = text[end:found.start()]
        if between.strip():
            break
        yield found, between.count("\n") < 2
        end = found.end()
    if rest := text[end:].strip():
        raise NotUnderstood(f"line {before + text[:text.index(rest, end)].count(chr(10))}: {rest.splitlines()[0]}")


def field_of(text: str, comment: Comment, constants: Dict[str, int]) -> Field:
    """A member or a parameter, or the result of a call with its name."""
    found = re.fullmatch(r"(const )?(\w+) (\*?)(\w+)(?:\[(\w+)\])?", " ".join(text.split()))
    if not found:
        raise NotUnderstood(f"no declaration: {text.strip()}")
    length = None if found[5] is None else constants[found[5]] if found[5] in constants else int(found[5])
    return Field(found[4], Type(found[2], bool(found[1]), bool(found[3]), length), comment)


def struct_of(name: str, text: str, comment: Comment, constants: Dict[str, int], line: int) -> Struct:
    """A struct. A comment on lines of its own is of the member below it."""
    members, above = [], NO_COMMENT
    for found, _ in pieces(MEMBER, text, line):
        if found["comment"]:
            above = comment_of(found["comment"])
            continue
        members.append(field_of(found["text"], comment_of(found["trailing"]) if found["trailing"] else above, constants))
        above = NO_COMMENT
    return Struct(name, tuple(members), comment)


def numbers_of(text: str, line: int) -> Iterator[Number]:
    """The numbers of an `enum`, without their words."""
    group = VERDICTS
    for found, _ in pieces(ENUMERATOR, text, line):
        said = text_of(found["comment"] or found["trailing"])
        if found["name"]:
            yield Number(found["name"], int(found["value"]), group, said)
        elif heading := re.match(r"([A-Z][a-z]+(?: [a-z]+)?): ", said):
            group = Group(heading[1], said[heading.end():])
        elif unnamed := re.match(r"(\d+) is (never returned.*)", said):
            yield Number("", int(unnamed[1]), group, unnamed[2])
        else:
            raise NotUnderstood(f"a comment in an enum that is no heading: {said}")


def listed_in(paragraph: str) -> Tuple[Listed, ...]:
    """The numbers that a paragraph lists, or none if it is another one."""
    found = [LISTED.fullmatch(entry) for entry in paragraph.removesuffix(".").split("; ")]
    return tuple(Listed(one[1], one[2] or "") for one in found if one) if all(found) else ()


def call_of(found: Match[str], comment: Comment, constants: Dict[str, int]) -> Call:
    """A call, with what its comment says apart."""
    texts = [text for text in found["parameters"].split(",") if text.strip() != "void"]
    parameters = tuple(field_of(text, NO_COMMENT, constants) for text in texts)
    said, returns = list(comment.paragraphs), ()
    if said and (returns := listed_in(said[-1])):
        said.pop()
    costs = [text for text in said if text.startswith("Cost: ")]
    said = [text for text in said if text not in costs]
    cost = " ".join(costs).removeprefix("Cost: ")
    result = field_of(found["result"] + found["call"], NO_COMMENT, constants).type
    return Call(found["call"], result, parameters, Comment(tuple(said)), cost, returns)


def words_of(text: str, values: Dict[str, int]) -> Dict[int, str]:
    """The words of numbers, as `lgm_text` has them."""
    found = re.findall(r'case (\w+): return "(.*)";', text)
    if unknown := [name for name, _ in found if name not in values and not name.isdigit()]:
        raise NotUnderstood(f"lgm_text has {', '.join(unknown)}, and no enum does")
    return {values[name] if name in values else int(name): word for name, word in found}


class Reader:
    """Collects what a header declares."""

    def __init__(self) -> None:
        self.opening = self.comment = NO_COMMENT
        self.constants: List[Constant] = []
        self.numbers: List[Number] = []
        self.structs: List[Struct] = []
        self.topics: List[List[Call]] = []
        self.inline: List[Call] = []
        self.words = ""

    def read(self, text: str) -> None:
        """Reads a text. What follows something else without an empty line has the same comment."""
        before = ""
        for found, is_near in pieces(DECLARATION, text):
            kind = next(name for name in ("comment", "skipped", "constant", "numbers", "struct", "call") if found[name])
            if kind == "comment":
                self.comment = comment_of(found["comment"])
                self.opening = self.opening or self.comment
            elif not is_near:
                self.comment = NO_COMMENT
            line = text[:found.start()].count("\n") + 1
            self.take(kind, found, line, is_near and before == "call")
            before = kind

    def take(self, kind: str, found: Match[str], line: int, is_same_topic: bool) -> None:
        """Takes one declaration."""
        values = {constant.name: constant.value for constant in self.constants}
        if kind == "constant":
            self.constants.append(Constant(found["constant"], int(found["value"]), self.comment))
        elif kind == "numbers":
            self.numbers += numbers_of(found["numbers"], line)
        elif kind == "struct":
            self.structs.append(struct_of(found["struct"], found["members"], self.comment, values, line))
        elif kind == "call":
            call = call_of(found, self.comment, values)
            if found["words"]:
                self.words = found["words"]
                self.inline.append(call)
            elif is_same_topic:
                self.topics[-1].append(call)
            else:
                self.topics.append([call])

    def header(self) -> Header:
        """What was read, with the words of numbers in their places."""
        words = words_of(self.words, {number.name: number.value for number in self.numbers if number.name})
        numbers = tuple(Number(one.name, one.value, one.group, one.text, words.get(one.value, "") if one.group.name else "")
                        for one in self.numbers)
        if without := [one.name or str(one.value) for one in numbers if one.group.name and not one.word]:
            raise NotUnderstood(f"lgm_text has no word of {', '.join(without)}")
        return Header(self.opening, tuple(self.constants), numbers, tuple(self.structs), tuple(map(tuple, self.topics)),
                      tuple(self.inline))


def read(text: str) -> Header:
    """The header that a text is."""
    reader = Reader()
    reader.read(text)
    return reader.header()


def read_file() -> Header:
    """include/lgm.h."""
    return read(PATH.read_text())
