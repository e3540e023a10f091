"""The gossip messages of BOLT 7: what they say, and how they are encoded. docs/protocol.md has the layouts.

    from gossip.messages import CHAIN, HAS_MAXIMUM, ChannelUpdate, decode

    message = ChannelUpdate(CHAIN, scid, timestamp, HAS_MAXIMUM, direction, *terms).encode(signature)
    found = decode(message)  # a ChannelAnnouncement, a NodeAnnouncement or a ChannelUpdate; anything else raises Fault

Numbers are as in the message: amounts in msat, timestamps in seconds, deltas in blocks. Only the form is checked, as
`lgm` does it: lengths, and that a point begins with 2 or 3. Signatures aren't checked, and bytes behind the last field
are allowed. Signatures and keys that aren't given to `encode` are placeholders.
"""

import struct
from typing import NamedTuple

CHANNEL_ANNOUNCEMENT, NODE_ANNOUNCEMENT, CHANNEL_UPDATE = 256, 257, 258
QUERY_SHORT_CHANNEL_IDS, QUERY_CHANNEL_RANGE, REPLY_CHANNEL_RANGE, GOSSIP_TIMESTAMP_FILTER = 261, 263, 264, 265
MAINNET = bytes.fromhex("6fe28c0ab6f1b372c1a6a246ae63f74f931e8365e15a089c68d6190000000000")
CHAIN = bytes([0xC1]) * 32  # of made networks, and of no real one
MOST_SATOSHI = 2_100_000_000_000_000  # there are no more
SIGNATURE_LEN = 64
SIGNATURE = bytes(SIGNATURE_LEN)  # a placeholder
BITCOIN_KEY = b"\x02" + bytes(32)  # a placeholder: the form of a point, but on no curve
HAS_MAXIMUM, PRIVATE = 1, 2  # message_flags: `must_be_one`, and `dont_forward`
DISABLED = 2  # channel_flags, beside the direction

_TERMS = struct.Struct(">IBBHQIIQ")
_SCID = struct.Struct(">II")
_RANGE = struct.Struct(">II")


class Fault(Exception):
    """What isn't as expected, and where."""


class _Fields:
    """Takes the fields of a message from left to right."""

    def __init__(self, message, place):
        self.message, self.place = message, place

    def take(self, size, name):
        """The next bytes."""
        start, self.place = self.place, self.place + size
        if self.place > len(self.message):
            raise Fault(f"the message is cut off at its {name}")
        return self.message[start:self.place]

    def counted(self, name):
        """Bytes behind their length in two bytes."""
        return self.take(int.from_bytes(self.take(2, name), "big"), name)

    def point(self, name):
        """A compressed point."""
        point = self.take(33, name)
        if point[0] not in (2, 3):
            raise Fault(f"its {name} is no compressed point")
        return point


class ChannelAnnouncement(NamedTuple):
    """Type 256."""

    chain: bytes
    scid: bytes
    nodes: tuple  # the points of node 1 and node 2
    features: bytes = b""

    @classmethod
    def decode(cls, message):
        """What a message of this type says."""
        fields = _Fields(message, 2 + 4 * SIGNATURE_LEN)
        features, chain, scid = fields.counted("features"), fields.take(32, "chain"), fields.take(8, "id")
        nodes = fields.point("node_id_1"), fields.point("node_id_2")
        fields.point("bitcoin_key_1")
        fields.point("bitcoin_key_2")
        return cls(chain, scid, nodes, features)

    def encode(self, signatures=4 * SIGNATURE, bitcoin_keys=(BITCOIN_KEY, BITCOIN_KEY)):
        """The message."""
        return _message(CHANNEL_ANNOUNCEMENT, signatures, _with_length(self.features), self.chain, self.scid,
                        *self.nodes, *bitcoin_keys)


class NodeAnnouncement(NamedTuple):
    """Type 257."""

    features: bytes
    timestamp: int
    point: bytes

    @classmethod
    def decode(cls, message):
        """What a message of this type says."""
        fields = _Fields(message, 2 + SIGNATURE_LEN)
        features, timestamp = fields.counted("features"), int.from_bytes(fields.take(4, "timestamp"), "big")
        found = cls(features, timestamp, fields.point("node_id"))
        fields.take(3 + 32, "alias")
        fields.counted("addresses")
        return found

    def encode(self, signature=SIGNATURE, color=bytes(3), alias=b"", addresses=b""):
        """The message. The alias is cut, or filled with zeros, to its 32 bytes."""
        return _message(NODE_ANNOUNCEMENT, signature, _with_length(self.features), self.timestamp.to_bytes(4, "big"),
                        self.point, color, alias[:32].ljust(32, b"\0"), _with_length(addresses))


class ChannelUpdate(NamedTuple):
    """Type 258. The last five fields are called its terms."""

    chain: bytes
    scid: bytes
    timestamp: int
    message_flags: int
    channel_flags: int
    cltv_expiry_delta: int
    htlc_minimum_msat: int
    fee_base_msat: int
    fee_proportional_millionths: int
    htlc_maximum_msat: int

    @property
    def direction(self):
        """0 if node 1 sent it, 1 if node 2 did."""
        return self.channel_flags & 1

    @property
    def is_disabled(self):
        """Whether the direction is disabled."""
        return bool(self.channel_flags & DISABLED)

    @property
    def is_private(self):
        """Whether it isn't to be forwarded; `lgm` refuses such updates."""
        return bool(self.message_flags & PRIVATE)

    @classmethod
    def decode(cls, message):
        """What a message of this type says."""
        fields = _Fields(message, 2 + SIGNATURE_LEN)
        chain, scid = fields.take(32, "chain"), fields.take(8, "id")
        return cls(chain, scid, *_TERMS.unpack(fields.take(_TERMS.size, "terms, htlc_maximum_msat included")))

    def encode(self, signature=SIGNATURE):
        """The message. Raises Fault if a number doesn't fit."""
        try:
            terms = _TERMS.pack(*self[2:])
        except struct.error as fault:
            raise Fault(f"a number doesn't fit its field: {fault}") from fault
        return _message(CHANNEL_UPDATE, signature, self.chain, self.scid, terms)


_TYPES = {CHANNEL_ANNOUNCEMENT: ChannelAnnouncement, NODE_ANNOUNCEMENT: NodeAnnouncement, CHANNEL_UPDATE: ChannelUpdate}


def kind_of(message):
    """The type in front of a message."""
    return int.from_bytes(message[:2], "big")


def decode(message, kind=None):
    """What a message says; it has to be of this type if one is given."""
    found = kind_of(message)
    if len(message) < 2 or found not in _TYPES or kind not in (None, found):
        wanted = kind or "256, 257 or 258"
        raise Fault(f"the message is of type {found}, not {wanted}" if len(message) > 1 else "there is no message")
    return _TYPES[found].decode(message)


def query_short_channel_ids(scids, flags=None, chain=CHAIN):
    """Type 261; flags, where given, are one byte for each id."""
    message = _message(QUERY_SHORT_CHANNEL_IDS, chain, _with_length(b"\0" + b"".join(scids)))
    if flags is None:
        return message
    return message + b"\x01" + _bigsize(1 + len(flags)) + b"\0" + flags


def query_channel_range(first_block, number_of_blocks, with_timestamps=False, chain=CHAIN):
    """Type 263."""
    message = _message(QUERY_CHANNEL_RANGE, chain, _RANGE.pack(first_block, number_of_blocks))
    return message + b"\x01\x01\x01" if with_timestamps else message


def reply_channel_range(first_block, number_of_blocks, scids, timestamps=None, chain=CHAIN):
    """Type 264, the last reply; timestamps, where given, are two for each id."""
    message = _message(REPLY_CHANNEL_RANGE, chain, _RANGE.pack(first_block, number_of_blocks), b"\1",
                       _with_length(b"\0" + b"".join(scids)))
    if timestamps is None:
        return message
    return message + b"\x01" + _bigsize(1 + 8 * len(timestamps)) + b"\0" + b"".join(_RANGE.pack(*pair) for pair in timestamps)


def gossip_timestamp_filter(first_timestamp, timestamp_range, chain=CHAIN):
    """Type 265."""
    return _message(GOSSIP_TIMESTAMP_FILTER, chain, _RANGE.pack(first_timestamp, timestamp_range))


def short_channel_id(block, index, output):
    """Eight bytes: three of block, three of the transaction's index, two of the output."""
    return _SCID.pack(block << 8 | index >> 16, (index & 0xFFFF) << 16 | output)


def scid_of(text):
    """The id that is BLOCKxINDEXxOUTPUT."""
    return short_channel_id(*map(int, text.split("x")))


def scid_text(scid):
    """BLOCKxINDEXxOUTPUT."""
    return "x".join(str(int.from_bytes(part, "big")) for part in (scid[:3], scid[3:6], scid[6:8]))


def features(*bits):
    """The least bytes that have these feature bits."""
    number = sum(1 << bit for bit in set(bits))
    return number.to_bytes((number.bit_length() + 7) // 8, "big")


def feature_bits(encoded):
    """The numbers of the bits that are set, ascending."""
    number = int.from_bytes(encoded, "big")
    return [bit for bit in range(number.bit_length()) if number >> bit & 1]


def even_bits(encoded):
    """The even ones among the bits that are set: features that have to be understood."""
    return [bit for bit in feature_bits(encoded) if bit % 2 == 0]


def channel_line(message, satoshi):
    """The line of a script that announces a channel, rightly signed, of this capacity."""
    return f"m {message.hex()} all {satoshi}\n"


def signed_line(message, point):
    """The line of an update or of a node's announcement that this point signed."""
    return f"m {message.hex()} {point.hex()} -\n"


def query_line(message):
    """The line of a query."""
    return f"q {message.hex()}\n"


def _message(kind, *parts):
    return b"".join((kind.to_bytes(2, "big"), *parts))


def _with_length(part):
    return len(part).to_bytes(2, "big") + part


def _bigsize(number):
    """The shortest BigSize of a number below 2^32."""
    if number < 0xFD:
        return bytes([number])
    if number < 0x10000:
        return b"\xfd" + number.to_bytes(2, "big")
    return b"\xfe" + number.to_bytes(4, "big")
