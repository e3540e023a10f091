"""What the tests of the library share: two nodes with a channel, their messages, and the calls, as C makes them.

A handle is its bytes, and so is a buffer. Lengths are written over 7, so that it shows where none is written.
"""

import sys
from collections import namedtuple
from ctypes import byref, c_char, c_size_t, create_string_buffer
from pathlib import Path

TOP = Path(__file__).resolve().parents[2]
sys.path[1:1] = [str(TOP), str(TOP / "python")]

from gossip.messages import (  # noqa: E402
    CHAIN, HAS_MAXIMUM, ChannelAnnouncement, ChannelUpdate, NodeAnnouncement, gossip_timestamp_filter,
    query_channel_range, short_channel_id)
from lgm.library import CHANNEL, HOP, LENGTHS, MAP, NODE, PAYMENT, load  # noqa: E402

A, B = b"\2" * 33, b"\3" * 33
SCID = short_channel_id(600_000, 1, 0)
NUMBER = 659_706_976_665_600_000 + 65_536  # of that id
SEED, SECRET = b"\7" * 16, b"\x11" * 32

# The channel of A and B, what A charges for payments to B, and A itself, with an address of an unknown type. Signatures
# are zeros.
CHANNEL_OF_BOTH = ChannelAnnouncement(CHAIN, SCID, (A, B))
TERMS_OF_A = ChannelUpdate(CHAIN, SCID, timestamp=5, message_flags=HAS_MAXIMUM, channel_flags=0, cltv_expiry_delta=40,
                           htlc_minimum_msat=1, fee_base_msat=0, fee_proportional_millionths=0,
                           htlc_maximum_msat=50_000_000)
ANNOUNCEMENT = CHANNEL_OF_BOTH.encode(bitcoin_keys=(A, A))
UPDATE = TERMS_OF_A.encode()
NODE_OF_A = NodeAnnouncement(b"", 9, A).encode(color=b"\7\x08\x09", alias=b"\6" * 32, addresses=b"\xff\1")

# The queries of all channels, and the filters that all messages pass, of this chain and of another one.
RANGE, FILTER = query_channel_range(0, 2**32 - 1), gossip_timestamp_filter(0, 2**32 - 1)
FOREIGN_FILTER = gossip_timestamp_filter(0, 2**32 - 1, chain=b"\xd1" * 32)

# The payload of the one hop of a payment of 10,000 msat at block 700,000: amount_to_forward, outgoing_cltv_value, and
# payment_data with the secret and the amount (BOLT 4).
PAYLOAD = b"\x2d\x02\x02\x27\x10\x04\x03\x0a\xae\x60\x08\x22" + SECRET + b"\x27\x10"

Hop = namedtuple("Hop", "scid amount_msat payload_len expiry start end")
Channel = namedtuple("Channel", "capacity_sat node_1 node_2 from_1 from_2")
Direction = namedtuple("Direction", "is_held message_flags channel_flags cltv_expiry_delta timestamp fee_base_msat "
                                    "fee_proportional_millionths htlc_minimum_msat htlc_maximum_msat")
TESTS = {}  # by their names, as `published.owners`

library = load()


def test(function):
    """Lists a function as a test."""
    TESTS[f"{function.__module__}.{function.__name__}"] = function
    return function


def at(room):
    """The place of bytes that are written to."""
    return (c_char * len(room)).from_buffer(room)


def closed():
    """A handle of no map."""
    return create_string_buffer(MAP.size)


def opened_empty():
    """A handle of an empty map."""
    handle = closed()
    assert library.lgm_open(handle, CHAIN, True, b"", 0, SEED) == 0
    return handle


def opened():
    """A handle of a map with the channel and its update."""
    handle = opened_empty()
    assert offered(handle, ANNOUNCEMENT, 0, 1) == 0
    assert offered(handle, UPDATE, 2, 0) == 0
    return handle


def published(handle):
    """A handle of the map as it is, published."""
    made = closed()
    assert library.lgm_publish(handle, made) == 0
    return made


def free(*handles):
    """Frees the maps of handles."""
    for handle in handles:
        library.lgm_free(handle)


def offered(handle, message, sig, funding):
    """The number that an offer returns, with these verdicts, of A, and of an output of 100,000 sat."""
    return library.lgm_offer(handle, message, len(message), sig, A, funding, 100_000)


def seen(handle):
    """The version of a map, and the number of its channels."""
    return library.lgm_version_of(handle), library.lgm_count(handle)


def paid(handle, payee, amount_msat, expiry, payloads):
    """What a payment of A is answered, with room for one hop: the number, the hop over zeros, and the lengths of hops and
    payloads."""
    payment = PAYMENT.pack(amount_msat, expiry, A, payee, SECRET)
    hops, lengths = bytearray(HOP.size), bytearray(LENGTHS.pack(7, 7))
    number = library.lgm_route(handle, payment, at(hops), 1, at(payloads), len(payloads), at(lengths))
    return number, Hop(*HOP.unpack(hops)), LENGTHS.unpack(lengths)


def written(room, call, *arguments):
    """The number that a call returns that writes to a buffer, and the length."""
    needed = c_size_t(7)
    number = call(*arguments, at(room), len(room), byref(needed))
    return number, needed.value


def queried(handle, query, room):
    """The same of a query."""
    return written(room, library.lgm_query, handle, query, len(query))


def filtered(handle, message, room):
    """The same of a filter."""
    return written(room, library.lgm_filter, handle, message, len(message))


def news(handle, message, room):
    """The same of the news for a filter."""
    return written(room, library.lgm_news, handle, message, len(message))


def found_channel(handle, scid):
    """What is found of a channel: the number, and the channel over sevens."""
    channel = bytearray(b"\7" * CHANNEL.size)
    number = library.lgm_channel(handle, scid, at(channel))
    capacity_sat, node_1, node_2, *terms = CHANNEL.unpack(channel)
    half = len(terms) // 2
    return number, Channel(capacity_sat, node_1, node_2, Direction(*terms[:half]), Direction(*terms[half:]))


def found_node(handle, addresses):
    """What is found of A: the number, the timestamp over 0, and the length of the addresses."""
    node = bytearray(NODE.size)
    number, needed = written(addresses, library.lgm_node, handle, A, at(node))
    return number, NODE.unpack(node)[0], needed
