#!/usr/bin/env python3
"""Tests the limits of what peers may send and ask, over messages of gossip/messages.py.

    PYTHONPATH=python python3 python/tests/test_limits.py
"""

import struct
import sys
from pathlib import Path

sys.dont_write_bytecode = True  # the repository gets no made files
sys.path.append(str(Path(__file__).resolve().parents[2]))

from gossip.messages import CHAIN, ChannelAnnouncement, ChannelUpdate, NodeAnnouncement
from lgm import limits
from lgm.limits import Limits, TooMuch, rest_length

A, B, C, D = (b"\2" + bytes([number]) * 32 for number in range(1, 5))
ID, OTHER = (1).to_bytes(8, "big"), (2).to_bytes(8, "big")
UPDATE = ChannelUpdate(CHAIN, ID, 1, 1, 0, 40, 1, 0, 0, 1_000).encode()


def announced(nodes, scid=ID, features=b""):
    """An announcement of a channel."""
    return ChannelAnnouncement(CHAIN, scid, nodes, features).encode()


def asked(*ids):
    """A query by ids."""
    encoded = b"\0" + b"".join(ids)
    return struct.pack(">H32sH", 261, CHAIN, len(encoded)) + encoded


RANGE = struct.pack(">H32sII", 263, CHAIN, 0, 1)
FILTER = struct.pack(">H32sII", 265, CHAIN, 0, 1)


def is_too_much(call, *arguments):
    """Whether a call raises `TooMuch`."""
    try:
        call(*arguments)
    except TooMuch:
        return True
    return False


def test_bytes_behind_the_last_field():
    """The lengths are those of BOLT 7: 432, 142 and 138 bytes, with features and addresses beside them."""
    messages = [announced((A, B)), announced((A, B), features=bytes(7)), UPDATE,
                NodeAnnouncement(b"\1" * 3, 1, A).encode(addresses=bytes(7))]
    for message in messages:
        assert rest_length(message) == 0
        assert rest_length(message + bytes(5)) == 5
        bounds = Limits(most_rest=5)
        bounds.check("peer", message + bytes(5))
        assert is_too_much(bounds.check, "peer", message + bytes(6))
    assert rest_length(b"\1\7" + bytes(500)) == 0  # a query isn't stored


def test_ids_that_are_asked_for_twice():
    """In one query; another one may have the id again."""
    bounds = Limits()
    for message in (asked(), asked(ID), asked(ID, OTHER), asked(ID)):
        bounds.check("peer", message)
    assert is_too_much(bounds.check, "peer", asked(ID, OTHER, ID))
    bounds.check("peer", asked(ID)[:40])  # cut off: the map refuses it


def test_a_funding_output_between_many_nodes():
    """The same pair comes from each peer, and counts once."""
    bounds = Limits(most_announcements=2)
    for peer in range(10):
        bounds.check(peer, announced((A, B)))
    bounds.check("peer", announced((A, C)))
    assert is_too_much(bounds.check, "peer", announced((A, D)))
    assert is_too_much(bounds.check, "another", announced((B, D)))
    bounds.check("peer", announced((A, C)))
    bounds.check("peer", announced((A, D), OTHER))


def test_bytes_of_answers():
    """A minute's bytes at once, and from then on what a minute gives."""
    now = [100.0]
    bounds = Limits(bytes_per_minute=600, clock=lambda: now[0])
    for message in (asked(ID), RANGE, FILTER):
        bounds.check("peer", message)
    bounds.answered("peer", [bytes(400), bytes(300)])
    assert bounds.left("peer") == -100
    for message in (asked(ID), RANGE, FILTER):
        assert is_too_much(bounds.check, "peer", message)
        bounds.check("another", message)
    bounds.check("peer", UPDATE)  # which asks for nothing
    now[0] += 10
    assert bounds.left("peer") == 0 and is_too_much(bounds.check, "peer", RANGE)
    now[0] += 1
    bounds.check("peer", RANGE)
    now[0] += 1_000
    assert bounds.left("peer") == 600


def test_what_is_remembered():
    """Peers and funding outputs that were seen longest ago are forgotten."""
    outputs, peers = limits.MOST_OUTPUTS, limits.MOST_PEERS
    limits.MOST_OUTPUTS = limits.MOST_PEERS = 2
    try:
        bounds = Limits(most_announcements=1, bytes_per_minute=1, clock=lambda: 0.0)
        for number in range(1, 4):
            bounds.check("peer", announced((A, B), number.to_bytes(8, "big")))
            bounds.answered(number, [bytes(9)])
        bounds.check("peer", announced((A, C)))  # of output 1, which is forgotten
        assert is_too_much(bounds.check, "peer", announced((A, C), (3).to_bytes(8, "big")))
        assert bounds.left(1) == 1 and bounds.left(3) == -8
    finally:
        limits.MOST_OUTPUTS, limits.MOST_PEERS = outputs, peers


def main():
    """Runs all tests of this file."""
    tests = [value for name, value in globals().items() if name.startswith("test_")]
    for test in tests:
        test()
    print(f"test_limits.py: {len(tests)} passed")


if __name__ == "__main__":
    main()
