"""Draws a network like the public one: nodes, channels between them, terms and addresses.

Only whole numbers, tables and divisions are used, so that a seed gives the same network
everywhere.
"""

import random
from itertools import accumulate
from typing import NamedTuple

from gossip.messages import SIGNATURE_LEN, features, short_channel_id

NOW = 1_760_000_000  # seconds; no drawn timestamp is later
DAY = 86_400
BLOCKS = range(505_000, 917_000)

CAPACITIES = (  # satoshi
    (100_000,) * 10 + (250_000,) * 10 + (500_000,) * 15 + (1_000_000,) * 20 + (2_000_000,) * 15
    + (5_000_000,) * 15 + (10_000_000,) * 10 + (50_000_000,) * 4 + (200_000_000,))
DELTAS = (80,) * 45 + (40,) * 30 + (144,) * 15 + (34,) * 10  # blocks
MINIMUMS = (1_000,) * 70 + (1,) * 20 + (0,) * 5 + (10_000,) * 5  # msat
BASE_FEES = (1_000,) * 50 + (0,) * 35 + (1,) * 5 + (500, 2_000, 5_000)  # msat
MILLIONTHS = (1,) * 15 + (10,) * 10 + (50,) * 15 + (150,) * 25 + (500,) * 25 + (1_500,) * 10
FEATURES = (
    (features(0, 5, 7, 9, 12, 14, 17, 19, 23, 25, 27, 31, 45, 47, 51, 55),) * 80
    + (features(1, 5, 7, 8, 11, 12, 14, 17, 19, 23, 25, 27, 39, 45, 47, 51),) * 12
    + (features(1, 5, 7, 8, 11, 13, 14, 17, 19, 27, 35, 45),) * 8)
ADDRESSES = (
    ("tor",) * 55 + ("ipv4",) * 20 + ("ipv4 tor",) * 15 + ("ipv4 ipv6",) * 4 + ("name",) * 3
    + ("",) * 3)
PORT = (9735).to_bytes(2, "big")


class Channel(NamedTuple):
    """A channel: its id in bytes, its capacity in satoshi, its nodes' points ascending."""

    scid: bytes
    capacity: int
    nodes: tuple


class Network:
    """The points of all nodes, and the channels; and the draws of what is said about them."""

    def __init__(self, channels, seed):
        self.random = random.Random(seed)
        self.nodes = [self.point() for _ in range(max(2, channels * 16 // 45))]
        pairs = self._pairs(channels)
        self.channels = [
            Channel(scid, self._capacity(), nodes) for scid, nodes in zip(self._scids(), pairs)]

    def point(self):
        """33 bytes of the form of a compressed point."""
        return self.random.choice((b"\x02", b"\x03")) + self.random.randbytes(32)

    def _pairs(self, count):
        """The ends of `count` channels; each node has one, the first nodes have very many."""
        weights = list(accumulate(1 / (rank + 8) for rank in range(len(self.nodes))))
        hubs = self.random.choices(self.nodes, cum_weights=weights, k=count)
        others = self.nodes[:count]
        others += self.random.choices(self.nodes, cum_weights=weights, k=count - len(others))
        pairs = [self._pair(hub, other) for hub, other in zip(hubs, others)]
        self.random.shuffle(pairs)
        return pairs

    def _pair(self, hub, other):
        """The two points ascending, with another hub where they are the same."""
        while hub == other:
            hub = self.random.choice(self.nodes)
        return (hub, other) if hub < other else (other, hub)

    def _scids(self):
        """Ids without end, none of them twice."""
        seen = set()
        while True:
            block, index = self.random.choice(BLOCKS), self.random.randrange(1, 3_500)
            scid = short_channel_id(block, index, self.random.randrange(2))
            if scid not in seen:
                seen.add(scid)
                yield scid

    def _capacity(self):
        """Satoshi: a round number, or one between it and its double."""
        capacity = self.random.choice(CAPACITIES)
        return capacity + self.random.randrange(capacity) * self.random.randrange(2)

    def signature(self):
        """64 bytes, right by the verdict alone."""
        return self.random.randbytes(SIGNATURE_LEN)

    def timestamp(self):
        """Seconds: half of the last day, half of the last two weeks."""
        return NOW - self.random.randrange(self.random.choice((DAY, 14 * DAY)))

    def directions(self):
        """The directions of a channel that have an update: mostly both."""
        return self.random.choice(((0, 1),) * 45 + ((0,), (1,)) * 2 + ((),))

    def channel_flags(self, direction):
        """The direction, and in one of twelve updates the bit `disable`."""
        return direction | 2 * (self.random.randrange(12) == 0)

    def terms(self, capacity):
        """An update's terms: delta, minimum, base fee, proportional fee in ppm, and maximum."""
        choice = self.random.choice
        millionths = choice(MILLIONTHS)
        return (choice(DELTAS), choice(MINIMUMS), choice(BASE_FEES),
                millionths + self.random.randrange(millionths),
                capacity * choice((990, 990, 990, 450)))

    def is_announced(self):
        """Whether a node has an announcement: seven of eight have."""
        return self.random.randrange(8) != 0

    def alias(self, node):
        """At most 32 bytes: some digits of the point, or a word and a number."""
        if self.random.randrange(2):
            return node.hex()[:20].encode()
        word = self.random.choice(("river", "harbour", "lantern", "routing", "coffee"))
        return f"{word} {self.random.randrange(10_000)}".encode()

    def addresses(self):
        """Address descriptors, mostly one."""
        return b"".join(self._address(kind) for kind in self.random.choice(ADDRESSES).split())

    def _address(self, kind):
        if kind == "tor":
            return b"\x04" + self.random.randbytes(35) + PORT
        if kind == "ipv4":
            return b"\x01" + self.random.randbytes(4) + PORT
        if kind == "ipv6":
            return b"\x02" + self.random.randbytes(16) + PORT
        name = f"node{self.random.randrange(10_000)}.example.com".encode()
        return b"\x05" + bytes([len(name)]) + name + PORT
