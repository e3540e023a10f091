"""What a header has: calls, structs, numbers, words and constants, each with its comment."""

from __future__ import annotations

import re
from dataclasses import dataclass
from typing import Dict, List, Optional, Tuple


@dataclass(frozen=True)
class Type:
    """A type in C, as `const uint8_t [33]`: an array if it has a length, a pointer if it says so, else a value."""

    base: str
    is_const: bool = False
    is_pointer: bool = False
    length: Optional[int] = None

    def __str__(self) -> str:
        text = f"const {self.base}" if self.is_const else self.base
        return text + (" *" if self.is_pointer else "") + ("" if self.length is None else f" [{self.length}]")

    @property
    def is_value(self) -> bool:
        """Whether it is neither a pointer nor an array."""
        return not self.is_pointer and self.length is None


@dataclass(frozen=True)
class Comment:
    """A comment, as paragraphs, each on one line. One that begins with `- ` is an item of a list."""

    paragraphs: Tuple[str, ...] = ()

    def __bool__(self) -> bool:
        return bool(self.paragraphs)

    @property
    def summary(self) -> str:
        """The first sentence of the first paragraph, as far as its first semicolon or colon, without what is in parentheses."""
        first = re.sub(r" \([^()]*\)", "", self.paragraphs[0]) if self.paragraphs else ""
        return re.split(r"[.:;] ", f"{first} ")[0].strip()


@dataclass(frozen=True)
class Field:
    """A member of a struct, or a parameter of a call."""

    name: str
    type: Type
    comment: Comment = Comment()


@dataclass(frozen=True)
class Struct:
    """A struct. A handle is one that has a flag and a pointer of the library's."""

    name: str
    members: Tuple[Field, ...]
    comment: Comment

    @property
    def is_handle(self) -> bool:
        """Whether it is a handle."""
        return [str(member.type) for member in self.members] == ["bool", "void *"]


@dataclass(frozen=True)
class Group:
    """Numbers with a heading: its name, and what it says of them. Verdicts have none, and are in a group without a name."""

    name: str
    text: str


@dataclass(frozen=True)
class Number:
    """A number that a call takes or returns. It has no name if it is never returned, and no word if it is a verdict."""

    name: str
    value: int
    group: Group
    text: str = ""
    word: str = ""


@dataclass(frozen=True)
class Constant:
    """A number that is `#define`d."""

    name: str
    value: int
    comment: Comment


@dataclass(frozen=True)
class Listed:
    """Numbers in the list of those that a call returns: as they stand there, and when they come, if that is said."""

    numbers: str
    when: str = ""

    @property
    def ends(self) -> Tuple[int, int]:
        """The first and the last, of numbers and not of a name."""
        first, _, last = self.numbers.partition(" to ")
        return int(first), int(last or first)


@dataclass(frozen=True)
class Call:
    """A call. Its comment is without what it costs and the numbers that it returns, which are apart."""

    name: str
    result: Type
    parameters: Tuple[Field, ...]
    comment: Comment
    cost: str = ""
    returns: Tuple[Listed, ...] = ()

    @property
    def prototype(self) -> str:
        """Its declaration on one line."""
        return f"{declared(Field(self.name, self.result))}({', '.join(map(declared, self.parameters)) or 'void'});"


@dataclass(frozen=True)
class Header:
    """All of it. Calls with one comment stand together in `topics`, in order, without those that the header itself has."""

    opening: Comment
    constants: Tuple[Constant, ...]
    numbers: Tuple[Number, ...]
    structs: Tuple[Struct, ...]
    topics: Tuple[Tuple[Call, ...], ...]
    inline: Tuple[Call, ...] = ()

    @property
    def calls(self) -> List[Call]:
        """All calls."""
        return [call for topic in self.topics for call in topic]

    @property
    def described(self) -> List[Tuple[Call, ...]]:
        """The topics, and the calls that the header itself has."""
        return [*self.topics, *((call,) for call in self.inline)]

    @property
    def version(self) -> int:
        """The version of the library."""
        return next(constant.value for constant in self.constants if constant.name == "LGM_VERSION")

    @property
    def groups(self) -> List[Group]:
        """The groups with a heading, in order."""
        return list(dict.fromkeys(number.group for number in self.numbers if number.group.name))

    @property
    def struct_of(self) -> Dict[str, Struct]:
        """The structs by their names."""
        return {struct.name: struct for struct in self.structs}

    def returned(self) -> List[Number]:
        """The numbers that calls return, by their values. So these have words."""
        return sorted((number for number in self.numbers if number.group.name), key=lambda number: number.value)

    def listed(self, entry: Listed) -> List[Number]:
        """The numbers that an entry of a call's list stands for."""
        if entry.numbers.startswith("LGM_"):
            return [number for number in self.numbers if number.name == entry.numbers]
        first, last = entry.ends
        return [number for number in self.returned() if number.name and first <= number.value <= last]


def declared(field: Field) -> str:
    """A member or a parameter as C declares it, as `const uint8_t chain[32]`."""
    kind = field.type
    before = f"const {kind.base}" if kind.is_const else kind.base
    after = "" if kind.length is None else f"[{kind.length}]"
    return f"{before} {'*' if kind.is_pointer else ''}{field.name}{after}"
