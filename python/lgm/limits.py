"""What a peer may send and ask: the limits that BOLT 7 leaves open, for whoever serves several peers with one `Map`.

    limits = Limits()
    limits.check(peer, message)              # before a message is offered or answered: raises `TooMuch`
    limits.answered(peer, replies)           # behind each answer

A peer is whatever tells one from another, such as its node id. Nothing is decided by a map, and no message is changed: one that
isn't well formed passes, since `Map.offer` and `Map.query` refuse it.
"""

from __future__ import annotations

import time
from collections import OrderedDict
from typing import Callable, Dict, Hashable, Iterable, Set, Tuple

from .library import Octets, octets

# Types of messages (BOLT 7), and how many bytes they have without features and addresses.
ANNOUNCEMENT, NODE, UPDATE, QUERY_IDS, QUERY_RANGE, FILTER = 256, 257, 258, 261, 263, 265
ANNOUNCEMENT_BYTES, NODE_BYTES, UPDATE_BYTES = 432, 142, 138
FEATURES_OF_ANNOUNCEMENT, FEATURES_OF_NODE, ADDRESSES = 258, 66, 140  # where their lengths stand, the last one behind the features
CHAIN_BYTES, POINT_BYTES, ID_BYTES = 32, 33, 8
IDS_OF_QUERY = 34  # where the length of the encoded ids stands: behind it are a byte of encoding, and the ids

# What is remembered at most, of all peers together: what was seen longest ago is forgotten.
MOST_OUTPUTS, MOST_PEERS = 200_000, 10_000


class TooMuch(Exception):
    """A limit that a peer has passed. The text says which; nothing was counted, and the message isn't to be offered or answered."""


def _two(message: bytes, at: int) -> int:
    """A number of two bytes, 0 behind the end."""
    return int.from_bytes(message[at:at + 2], "big")


def rest_length(message: bytes) -> int:
    """How many bytes a message of gossip has behind its last field; 0 of other messages, and below 0 of one that is cut off."""
    kind = _two(message, 0)
    if kind == ANNOUNCEMENT:
        return len(message) - ANNOUNCEMENT_BYTES - _two(message, FEATURES_OF_ANNOUNCEMENT)
    if kind == NODE:
        features = _two(message, FEATURES_OF_NODE)
        return len(message) - NODE_BYTES - features - _two(message, ADDRESSES + features)
    return len(message) - UPDATE_BYTES if kind == UPDATE else 0


def _output_and_nodes(message: bytes) -> Tuple[bytes, bytes]:
    """The short channel id of an announcement, and its two nodes behind each other."""
    at = FEATURES_OF_ANNOUNCEMENT + 2 + _two(message, FEATURES_OF_ANNOUNCEMENT) + CHAIN_BYTES
    return message[at:at + ID_BYTES], message[at + ID_BYTES:at + ID_BYTES + 2 * POINT_BYTES]


def _repeats_an_id(message: bytes) -> bool:
    """Whether a query by ids has one twice."""
    end = IDS_OF_QUERY + 2 + _two(message, IDS_OF_QUERY)
    ids = [message[at:at + ID_BYTES] for at in range(IDS_OF_QUERY + 3, end, ID_BYTES)]
    return len(set(ids)) < len(ids)


class Limits:
    """The limits of a server, and what its peers have used of them. One thread at a time may call it."""

    def __init__(self, most_rest: int = 1_000, most_announcements: int = 2, bytes_per_minute: int = 50_000_000,
                 clock: Callable[[], float] = time.monotonic) -> None:
        """`most_rest` is how many bytes a message may have behind its last field: they are stored and sent on.
        `most_announcements` is between how many pairs of nodes the channel of one funding output may be announced: a second pair
        bans four nodes, most of which may be made up. `bytes_per_minute` is what a peer gets of answers: one that has more than
        its minute's may ask again once it is worth it. `clock` tells seconds."""
        self.most_rest, self.most_announcements, self.bytes_per_minute = most_rest, most_announcements, bytes_per_minute
        self._clock = clock
        self._left: Dict[Hashable, Tuple[float, float]] = OrderedDict()  # bytes that a peer had left, and when
        self._announced: Dict[bytes, Set[bytes]] = OrderedDict()  # by funding output, the pairs of nodes

    def check(self, peer: Hashable, message: Octets) -> None:
        """Whether a message of a peer may be offered or answered: raises `TooMuch` if it has too many bytes behind its last field,
        announces a funding output between too many pairs of nodes, asks for one id twice, or is of a peer that has had more
        answers than it may in a minute."""
        message = octets("message", message)
        kind = _two(message, 0)
        if rest_length(message) > self.most_rest:
            raise TooMuch(f"{rest_length(message)} bytes behind the last field")
        if kind == QUERY_IDS and _repeats_an_id(message):
            raise TooMuch("an id asked for twice")
        if kind in (QUERY_IDS, QUERY_RANGE, FILTER) and self.left(peer) <= 0:
            raise TooMuch(f"more than {self.bytes_per_minute} bytes of answers a minute")
        if kind == ANNOUNCEMENT and len(message) >= ANNOUNCEMENT_BYTES:
            self._announce(*_output_and_nodes(message))

    def _announce(self, output: bytes, nodes: bytes) -> None:
        """Counts the pairs of nodes of a funding output."""
        pairs = self._announced.pop(output, set())
        is_one_more = nodes not in pairs and len(pairs) >= self.most_announcements
        self._announced[output] = pairs if is_one_more else pairs | {nodes}
        if len(self._announced) > MOST_OUTPUTS:
            del self._announced[next(iter(self._announced))]
        if is_one_more:
            raise TooMuch(f"a funding output announced between more than {self.most_announcements} pairs of nodes")

    def left(self, peer: Hashable) -> float:
        """How many bytes of answers a peer may have now; below 0 if it has had more."""
        left, since = self._left.get(peer, (self.bytes_per_minute, 0.0))
        return min(self.bytes_per_minute, left + (self._clock() - since) * self.bytes_per_minute / 60)

    def answered(self, peer: Hashable, replies: Iterable[bytes]) -> None:
        """Counts the bytes of an answer to a peer. An answer is sent whole, so it may be more than what was left."""
        left = self.left(peer) - sum(map(len, replies))
        self._left.pop(peer, None)
        self._left[peer] = left, self._clock()
        if len(self._left) > MOST_PEERS:
            del self._left[next(iter(self._left))]
