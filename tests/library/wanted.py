"""Whether messages are worth verifying."""

from calls import (
    A, ANNOUNCEMENT, B, CHAIN, CHANNEL_OF_BOTH, NODE_OF_A, RANGE, SEED, TERMS_OF_A, UPDATE, at, closed, free, library,
    offered, opened, published, test)


def wanted(handle, message):
    """The number of a message, and the first byte of the key, which is written over zeros."""
    signer = bytearray(33)
    number = library.lgm_wanted(handle, message, len(message), at(signer))
    return number, signer[0]


@test
def of_an_empty_map():
    """An empty map wants channels of its chain, and nothing that needs one or is no gossip."""
    handle = closed()
    assert wanted(handle, ANNOUNCEMENT) == (100, 0)
    assert library.lgm_open(handle, CHAIN, True, b"", 0, SEED) == 0
    assert wanted(handle, ANNOUNCEMENT) == (0, 0)
    assert wanted(handle, UPDATE) == (11, 0)
    assert wanted(handle, NODE_OF_A) == (14, 0)
    assert wanted(handle, b"") == (1, 0)
    assert wanted(handle, RANGE) == (4, 0)
    foreign = CHANNEL_OF_BOTH._replace(chain=b"\xd1" + CHAIN[1:]).encode(bitcoin_keys=(A, A))
    assert wanted(handle, foreign) == (5, 0)
    free(handle)


@test
def of_a_map():
    """What is new is wanted, with the key of the node that it is of, until it is known or the node is banned."""
    handle = opened()
    assert wanted(handle, ANNOUNCEMENT) == (12, 0)
    assert wanted(handle, UPDATE) == (15, 0)
    newer = TERMS_OF_A._replace(timestamp=6)
    assert wanted(handle, newer.encode()) == (0, 2)
    assert wanted(handle, newer._replace(channel_flags=1).encode()) == (0, 3)
    assert wanted(handle, newer._replace(channel_flags=1, message_flags=3).encode()) == (8, 0)
    assert wanted(handle, NODE_OF_A) == (0, 2)
    fixed = published(handle)
    assert offered(handle, NODE_OF_A, 2, 0) == 0
    assert wanted(handle, NODE_OF_A) == (15, 0)
    assert wanted(fixed, NODE_OF_A) == (0, 2)
    assert library.lgm_ban(handle, B) == 0
    assert wanted(handle, ANNOUNCEMENT) == (16, 0)
    assert wanted(handle, NODE_OF_A) == (14, 0)
    assert library.lgm_ban(handle, A) == 0
    assert wanted(handle, NODE_OF_A) == (16, 0)
    free(handle, fixed)
