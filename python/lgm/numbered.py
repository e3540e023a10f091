# Made of include/lgm.h by python3 surface/make.py. Change that, and not this.
"""A class for each number of include/lgm.h that is a fault, with its word."""

from __future__ import annotations

from enum import IntEnum

from .declarations import WORDS
from .fault import Fault

__all__ = [
    "Abandoned", "AlreadyPaid", "AmountTooLarge", "AmountZero", "Argument", "Banned", "BeyondRoute", "Chain", "Closed",
    "Conflict", "ExpiryTooLarge", "ForeignChannel", "ForeignCode", "Full", "Funding", "Ignored", "Known", "Malformed",
    "NoMaximum", "NoMemory", "NoParts", "NodeOrder", "NotAnnounced", "NotFilter", "NotGossip", "NotNewer", "NotPublished",
    "NotQuery", "NotReply", "NotSaved", "NotUnderWay", "Nothing", "NothingUnderWay", "NumbersUsedUp", "Open",
    "PayloadsTooLong", "Point", "Private", "Published", "Reason", "ReckonedAhead", "ReckonedBefore", "Refused", "Room",
    "SelfPayment", "Signature", "TooManyEdges", "TooManyLimits", "TriesUsedUp", "Undecided", "UnderWay", "UnknownChannel",
    "UnknownEven", "UnknownNode", "UnknownPart", "UnknownPayment", "Unpaid", "Unrouted", "Untold", "WrongFunding",
    "WrongHops", "WrongMessage", "WrongRecordOrder", "WrongRecordType", "WrongSig",
]


class Refused(Fault):
    """A message or a close is refused, for the first of these reasons (docs/script.md, "Refusals of items")."""


class Malformed(Refused, number=1, word="malformed"):
    """It is no well-formed message, as lgm_fault_of says."""


class UnknownEven(Refused, number=2, word="unknown-even"):
    """It has an unknown even type."""


class Ignored(Refused, number=3, word="ignored"):
    """It has an unknown odd type."""


class NotGossip(Refused, number=4, word="not-gossip"):
    """It is a query, a reply or a filter."""


class Chain(Refused, number=5, word="chain"):
    """It is of another chain."""


class Point(Refused, number=6, word="point"):
    """It names a node or a bitcoin key that is no compressed point."""


class NodeOrder(Refused, number=7, word="node-order"):
    """It names its two nodes out of order, or the same node twice."""


class Private(Refused, number=8, word="private"):
    """It has `dont_forward` set."""


class Funding(Refused, number=9, word="funding"):
    """It has no valid unspent funding output of a possible size, or none was looked up."""


class Signature(Refused, number=10, word="signature"):
    """It isn't signed as required."""


class UnknownChannel(Refused, number=11, word="unknown-channel"):
    """The channel isn't in the map."""


class Known(Refused, number=12, word="known"):
    """The channel is in the map, between the same nodes."""


class Conflict(Refused, number=13, word="conflict"):
    """Never returned: contradicting announcements of a channel ban the nodes of both."""


class UnknownNode(Refused, number=14, word="unknown-node"):
    """The node has no channel in the map."""


class NotNewer(Refused, number=15, word="not-newer"):
    """Its timestamp isn't above the one in the map."""


class Banned(Refused, number=16, word="banned"):
    """A node of it is banned."""


class Unrouted(Fault):
    """A payment has no route, for the first of these reasons (docs/script.md, "Payments without a route")."""


class AmountZero(Unrouted, number=21, word="amount-zero"):
    """The payment is of 0 msat."""


class AmountTooLarge(Unrouted, number=22, word="amount-too-large"):
    """The payment is of more than 2,100,000,000,000,000,000 msat."""


class ExpiryTooLarge(Unrouted, number=23, word="expiry-too-large"):
    """The payment expires above block 498,000,000."""


class SelfPayment(Unrouted, number=24, word="self-payment"):
    """The payer is the payee."""


class Reason(IntEnum):
    """Why a payment has no route, the first of these that holds (lgm_no_route_reason)."""

    PAYER_HAS_NO_CHANNEL = 41  # no edge leaves the payer
    PAYEE_TAKES_NO_PAYMENT = 42  # no edge leads to the payee, or it requires features that aren't known
    PAYER_LACKS_AMOUNT = 43  # no edge out of the payer carries the amount
    PAYEE_LACKS_AMOUNT = 44  # no edge into the payee carries the amount
    UNCONNECTED = 45  # nothing connects the two for this amount
    BEYOND_DELAY = 46  # nothing within the limit of the delay does
    BEYOND_HOPS = 47  # nothing within the limit of the hops does
    BEYOND_BOTH = 48  # nothing within both limits does

    @property
    def word(self) -> str:
        """Its word, as lgm_text has it."""
        return WORDS[self]


class Unpaid(Fault):
    """No part of a payment can be sent (lgm_payer_next). Parts that are under way are still to be waited for."""


class TriesUsedUp(Unpaid, number=74, word="tries-used-up"):
    """As many parts as the bound allows were sent."""


class Abandoned(Unpaid, number=76, word="abandoned"):
    """The payment was abandoned."""


class Untold(Fault):
    """A payer can't be told this of a payment."""


class UnknownPayment(Untold, number=81, word="unknown-payment"):
    """No payment has this number: none was begun with it, or it was forgotten."""


class UnknownPart(Untold, number=82, word="unknown-part"):
    """The payment has no part with this number."""


class NotUnderWay(Untold, number=83, word="not-under-way"):
    """The part isn't under way: it failed before, or has arrived."""


class BeyondRoute(Untold, number=84, word="beyond-route"):
    """The failure is said to be of a node beyond the part's route."""


class ForeignCode(Untold, number=85, word="foreign-code"):
    """The node at this place doesn't send this failure code."""


class NothingUnderWay(Untold, number=86, word="nothing-under-way"):
    """Nothing of the payment is under way, so the payee can't have taken it."""


class AlreadyPaid(Untold, number=87, word="already-paid"):
    """The payee took the whole before."""


class UnderWay(Untold, number=88, word="under-way"):
    """Parts of the payment are under way, so it can't be forgotten."""


class ForeignChannel(Untold, number=89, word="foreign-channel"):
    """One of the payer's channels, as they were told, doesn't leave the payer."""


class ReckonedAhead(Untold, number=90, word="reckoned-ahead"):
    """The payer's channels are said to reckon parts that weren't sent yet."""


class ReckonedBefore(Untold, number=91, word="reckoned-before"):
    """The payer's channels don't reckon parts of a paid payment that was forgotten."""


class NoParts(Untold, number=92, word="no-parts"):
    """The bound allows no part to be under way."""


class NumbersUsedUp(Untold, number=93, word="numbers-used-up"):
    """2^64 - 1 payments were begun, or parts sent."""


class Undecided(Fault, number=26, word="undecided"):
    """Labels or steps ran out before a route was found: it says nothing about the payment."""


class NotQuery(Fault, number=31, word="not-query"):
    """The message is neither a 261 nor a 263."""


class NotFilter(Fault, number=32, word="not-filter"):
    """The message isn't a 265."""


class NotAnnounced(Fault, number=33, word="not-announced"):
    """The map has no announcement of the node."""


class NotSaved(Fault, number=34, word="not-saved"):
    """The bytes aren't those of a saved map of this chain, payer or estimates, as they were written."""


class NotReply(Fault, number=35, word="not-reply"):
    """The message isn't a 264."""


class Closed(Fault, number=100, word="closed"):
    """The handle is closed."""


class Open(Fault, number=101, word="open"):
    """The handle is open already."""


class NoMemory(Fault, number=102, word="no-memory"):
    """Out of memory: the same call may be made again."""


class Room(Fault, number=104, word="room"):
    """A buffer is too short: the lengths that are needed were written."""


class Full(Fault, number=105, word="full"):
    """The map has more than 2,000,000,000 channels, too many for a route search."""


class Published(Fault, number=106, word="published"):
    """The map was published, so it doesn't change."""


class Nothing(Fault, number=107, word="none"):
    """No id or point above the given one, no such update, or no edge of which something is known."""


class Argument(Fault):
    """An argument is wrong. Its word names it, and says what it may be."""


class WrongSig(Argument, number=110, word="sig: 0 to 3"):
    """`sig` isn't 0 to 3."""


class WrongFunding(Argument, number=111, word="funding: 0 to 3"):
    """`funding` isn't 0 to 3."""


class TooManyEdges(Argument, number=112, word="edges: at most 100,000"):
    """There are more than LGM_MOST_EDGES edges."""


class TooManyLimits(Argument, number=113, word="limits: at most 300,000"):
    """There are more than LGM_MOST_LIMITS limits."""


class NoMaximum(Argument, number=114, word="edge: a maximum of 0"):
    """An edge's `htlc_maximum_msat` is 0, so it would carry nothing."""


class NotPublished(Argument, number=115, word="published: not one"):
    """The map isn't a published one."""


class WrongHops(Argument, number=116, word="hops: no route"):
    """The hops aren't 1 to 20 that follow one another."""


class WrongRecordType(Argument, number=117, word="record: type < 65,536"):
    """A record's type is below 65,536."""


class WrongRecordOrder(Argument, number=118, word="records: not ascending"):
    """A record's type isn't above the one before."""


class PayloadsTooLong(Argument, number=119, word="payloads: too long"):
    """The payloads don't fit an onion packet."""


class WrongMessage(Argument, number=120, word="which: 0, 1 or 2"):
    """`which` isn't 0, 1 or 2."""
