"""What a caller passes and gets: edges, limits, estimates and preferences; hops and routes; channels and nodes; messages to be
verified."""

from __future__ import annotations

import re
from dataclasses import dataclass
from typing import Optional, Tuple

from .library import Octets, number


@dataclass(frozen=True)
class Edge:
    """An edge beside the map's, by the caller's word: an own channel of the payer, whose maximum is what it can send, and
    whose fees and delta don't matter; or a route hint of an invoice. It stands in place of the map's with its id out of
    `start`."""

    scid: int
    start: Octets
    end: Octets
    fee_base_msat: int = 0
    fee_proportional_millionths: int = 0
    cltv_expiry_delta: int = 0
    htlc_minimum_msat: int = 0
    htlc_maximum_msat: int = 2**64 - 1


@dataclass(frozen=True)
class Limit:
    """What the edge with an id out of `start` carries at most. With 0 it is excluded."""

    scid: int
    start: Octets
    most_msat: int = 0


@dataclass(frozen=True)
class Estimate:
    """What a payer believes of an edge, in msat: it surely carries `least_msat`, and no more than `most_msat`; and what the
    payer would rather pay than use it. The defaults are what is believed of an edge of which nothing is known."""

    least_msat: int = 0
    most_msat: int = 2**64 - 1
    penalty_msat: int = 0


@dataclass(frozen=True)
class Preferences:
    """What a payer prefers: what a failed try is worth to it, and what each hop is, in msat."""

    failure_msat: int = 0
    hop_msat: int = 0


@dataclass(frozen=True)
class Hop:
    """One channel of a route, with the HTLC that is offered over it, and the payload for the node at its end."""

    scid: int
    amount_msat: int
    expiry: int
    start: bytes
    end: bytes
    payload: bytes


@dataclass(frozen=True)
class Route:
    """A route: its hops, from the payer on, and whether it is the best one. If labels or steps ran out, that isn't known."""

    hops: Tuple[Hop, ...]
    is_best: bool = True

    @property
    def sent_msat(self) -> int:
        """What the payer sends."""
        return self.hops[0].amount_msat

    @property
    def expiry(self) -> int:
        """The block height at which what the payer offers expires."""
        return self.hops[0].expiry


@dataclass(frozen=True)
class Direction:
    """The terms of a channel's direction."""

    message_flags: int
    channel_flags: int
    cltv_expiry_delta: int
    timestamp: int
    fee_base_msat: int
    fee_proportional_millionths: int
    htlc_minimum_msat: int
    htlc_maximum_msat: int

    @property
    def is_disabled(self) -> bool:
        """Bit 1 of the channel flags."""
        return self.channel_flags & 2 != 0


@dataclass(frozen=True)
class Channel:
    """A channel, with the terms that each of its nodes sets, or `None`."""

    capacity_sat: int
    node_1: bytes
    node_2: bytes
    from_1: Optional[Direction]
    from_2: Optional[Direction]


@dataclass(frozen=True)
class Pruned:
    """A channel that was closed since it is old, with the timestamp of its latest update; 0 without one."""

    scid: int
    timestamp: int


@dataclass(frozen=True)
class Signed:
    """A message, as who verifies it sees it: by its type, such as 258, and the id of its channel, if it is of one, with the parts
    of the id. Each of the signatures is by the key in its place, over the double SHA-256 of the bytes `signed`. An update
    doesn't name its key, which `Map.wanted` tells: it is that of node 2 of the channel if `is_second`, else of node 1."""

    type: int
    scid: Optional[int]
    block: int
    transaction: int
    output: int
    is_second: bool
    keys: Tuple[bytes, ...]
    signatures: Tuple[bytes, ...]
    signed: bytes


@dataclass(frozen=True)
class Node:
    """A node's announcement."""

    timestamp: int
    rgb: bytes
    alias: bytes
    addresses: bytes


@dataclass(frozen=True)
class Lacking:
    """A channel of which a map lacks messages that a peer has: the timestamps of the peer's updates by node 1 and node 2, which
    are 0 without an update, or if the reply tells none; and `flags`, which messages are lacking. Bit 0 is the announcement, bits
    1 and 2 are the updates of node 1 and node 2, bits 3 and 4 the announcements of these nodes."""

    scid: int
    timestamp_1: int = 0
    timestamp_2: int = 0
    flags: int = 31


def short_channel_id(text: str) -> int:
    """The number of an id like "600000x1x0"."""
    found = re.fullmatch(r"([0-9]+)x([0-9]+)x([0-9]+)", text)
    if not found:
        raise ValueError(f"an id is of the form BLOCKxINDEXxOUTPUT, and not {text!r:.80}")
    block, index, output = (number(name, int(part), below) for name, part, below in zip(
        ("the block", "the index", "the output"), found.groups(), (2**24, 2**24, 2**16)))
    return block << 40 | index << 16 | output
