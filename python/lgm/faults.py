"""Why a call failed: a class for each number of include/lgm.h, with its word, and what raises them."""

from __future__ import annotations

from typing import Callable, Optional

from . import library
from .failures import failure_name
from .fault import FAULTS as FAULTS, Fault as Fault
from .numbered import *


class NoRoute(Unrouted, number=25, word="no-route"):
    """There is no usable walk of 1 to 20 channels, within the limits. The `reason` says why, and so does the text."""

    def __init__(self, reason: Optional[Reason] = None, find: Optional[Callable[[], Optional[Reason]]] = None) -> None:
        """With a reason that is known, or with what finds it."""
        super().__init__()
        self._reason, self._find = reason, find

    @property
    def reason(self) -> Optional[Reason]:
        """Why there is no route. It is found when it, or the text, is asked for the first time, by up to four searches in the
        map as it is then: if the map has changed since, the reason may be another one, or None where there is a route now. It
        is None as well if a search runs out of labels, steps or memory, and if the map was closed. Until it is found the map
        and what was passed with the payment stay in memory."""
        find = self._find
        if find is not None:
            self._reason = find()
            self._find = None
        return self._reason

    def __str__(self) -> str:
        return f"{self.word}: {self.reason.word}" if self.reason else self.word


class TooDear(Unpaid, number=71, word="too-dear"):
    """The cheapest route has a fee beyond what the bound leaves: `fee_msat`."""

    def __init__(self, fee_msat: int = 0) -> None:
        super().__init__(f"the least fee is {fee_msat} msat")
        self.fee_msat = fee_msat


class ChannelsShort(Unpaid, number=72, word="channels-short"):
    """The payer's channels can't send what is left, in however many parts, but only `room_msat` together."""

    def __init__(self, room_msat: int = 0) -> None:
        super().__init__(f"they can send {room_msat} msat together")
        self.room_msat = room_msat


class PayeeShort(Unpaid, number=73, word="payee-short"):
    """The edges into the payee can't carry what is left, in however many parts, but only `room_msat` together."""

    def __init__(self, room_msat: int = 0) -> None:
        super().__init__(f"{room_msat} msat can reach the payee together")
        self.room_msat = room_msat


class PathsShort(Unpaid, number=77, word="paths-short"):
    """The paths from the payer to the payee can't carry what is left, in however many parts, but only `room_msat` together."""

    def __init__(self, room_msat: int = 0) -> None:
        super().__init__(f"all paths can carry {room_msat} msat together")
        self.room_msat = room_msat


class PayeeRefused(Unpaid, number=75, word="payee-refused"):
    """The payee returned a failure that no other try mends: its `code`, and the `name` of that in BOLT 4."""

    def __init__(self, code: int = 0) -> None:
        self.code, self.name = code, failure_name(code)
        super().__init__(self.name)


# The faults that come with a number of what they are about.
DETAILED = {kind.number: kind for kind in (TooDear, ChannelsShort, PayeeShort, PathsShort, PayeeRefused)}


def check_detailed(number: int, detail: int) -> None:
    """Raises the fault of a number, with what it is about."""
    if number in DETAILED:
        raise DETAILED[number](detail)
    check(number)


def check(number: int) -> None:
    """Raises the fault of a number that a call returned."""
    if number != library.OK:
        raise FAULTS[number]()


def check_message(number: int, message: bytes) -> None:
    """The same of a call on a message: of a malformed one the text has its first fault."""
    if number == Malformed.number:
        raise Malformed(library.WORDS.get(library.load().lgm_fault_of(message, len(message)), ""))
    check(number)
