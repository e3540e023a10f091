"""A network of three nodes and two channels, for tests: A and B have the first channel, B and C the second."""

from gossip.messages import CHAIN, HAS_MAXIMUM, ChannelAnnouncement, ChannelUpdate, NodeAnnouncement, short_channel_id

A, B, C = (b"\x02" + bytes([letter]) * 32 for letter in (10, 11, 12))
NOBODY = b"\x03" + bytes(32)
FIRST, SECOND = short_channel_id(700_000, 1, 1), short_channel_id(700_001, 2, 0)
# Delta, minimum, base fee, proportional fee in ppm, maximum, as in an update.
TERMS_OF_A = (80, 1, 7_000, 9_000, 50_000_000)
TERMS_OF_B = (40, 1, 1_000, 500, 60_000_500)


def channel(scid, one, other, features=b""):
    """A channel's announcement."""
    return ChannelAnnouncement(CHAIN, scid, (one, other), features).encode(bitcoin_keys=(A, B))


def update(scid, terms=TERMS_OF_A, flags=0, timestamp=5):
    """An update, by the channel's first node unless the flags say otherwise."""
    return ChannelUpdate(CHAIN, scid, timestamp, HAS_MAXIMUM, flags, *terms).encode()


def node(point, features=b"", timestamp=5, alias=b""):
    """A node's announcement."""
    return NodeAnnouncement(features, timestamp, point).encode(alias=alias)
