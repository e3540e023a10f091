"""The class of all faults."""

from __future__ import annotations

from typing import ClassVar, Dict, Optional, Type


class Fault(Exception):
    """A call failed, and left the map unchanged. It has a `number` and a `word`; its text may say more than the word."""

    number: ClassVar[int]
    word: ClassVar[str]

    def __init_subclass__(cls, number: Optional[int] = None, word: str = "") -> None:
        if number is not None:
            cls.number, cls.word = number, word
            FAULTS[number] = cls

    def __init__(self, more: str = "") -> None:
        super().__init__(f"{self.word}: {more}" if more else self.word)


# The class of each number.
FAULTS: Dict[int, Type[Fault]] = {}
