"""Each call once with ample memory, and once at each of its faults: what no clause says, since any call may be out of
memory. The numbers and lengths are worked out by hand, from BOLT 7, BOLT 4 and docs/protocol.md.
"""

from calls import (
    A, ANNOUNCEMENT, B, CHAIN, FILTER, FOREIGN_FILTER, NODE_OF_A, NUMBER, PAYLOAD, RANGE, SEED, UPDATE, at, closed,
    filtered, found_channel, found_node, free, library, news, offered, opened, paid, queried, test)
from lgm.library import VERSION, WORD_LEN, WORDS


@test
def items():
    """Opening, offers, marks and closes succeed, or are refused for the first reason."""
    handle = closed()
    assert offered(handle, ANNOUNCEMENT, 0, 1) == 100
    assert library.lgm_close_channel(handle, NUMBER) == 100
    assert library.lgm_mark(handle) == 100
    assert library.lgm_open(handle, CHAIN, False, b"\1", 1, SEED) == 0
    assert library.lgm_open(handle, CHAIN, True, b"", 0, SEED) == 101
    assert offered(handle, b"", 0, 1) == 1
    assert offered(handle, ANNOUNCEMENT, 4, 4) == 110
    assert offered(handle, ANNOUNCEMENT, 0, 4) == 111
    assert offered(handle, ANNOUNCEMENT, 0, 2) == 9
    assert offered(handle, ANNOUNCEMENT, 1, 1) == 10
    assert offered(handle, UPDATE, 2, 0) == 11
    assert offered(handle, ANNOUNCEMENT, 0, 1) == 0
    assert library.lgm_mark(handle) == 0
    assert offered(handle, UPDATE, 2, 0) == 0
    assert offered(handle, UPDATE, 2, 0) == 15
    assert library.lgm_count(handle) == 1
    assert library.lgm_close_channel(handle, NUMBER) == 0
    assert library.lgm_close_channel(handle, NUMBER) == 11
    free(handle)
    assert library.lgm_count(handle) == 0


def refused(handle, payee, amount_msat, expiry):
    """The number alone, of a payment that is refused."""
    return paid(handle, payee, amount_msat, expiry, bytearray())[0]


@test
def routes():
    """A payment is refused for the first reason, or its hop and its payload are written where there is room."""
    assert refused(closed(), B, 0, 0) == 100
    handle = opened()
    assert refused(handle, B, 0, 0) == 21
    assert refused(handle, B, 2_100_000_000_000_000_001, 0) == 22
    assert refused(handle, B, 1, 498_000_001) == 23
    assert refused(handle, A, 1, 0) == 24
    assert refused(handle, B, 50_000_001, 0) == 25
    number, _, lengths = paid(handle, B, 10_000, 700_000, bytearray(45))
    assert (number, *lengths) == (104, 1, 46)
    room = bytearray(46)
    number, hop, lengths = paid(handle, B, 10_000, 700_000, room)
    assert (number, *lengths) == (0, 1, 46)
    assert (hop.scid, hop.amount_msat, hop.expiry) == (NUMBER, 10_000, 700_000)
    assert (hop.start, hop.end) == (A, B)
    assert room == PAYLOAD
    free(handle)


@test
def messages():
    """Queries, filters and news are refused for the first reason, or answered where there is room."""
    room = bytearray(600)
    handle = closed()
    assert queried(handle, RANGE, room) == (100, 7)
    assert filtered(handle, FILTER, room) == (100, 7)
    assert news(handle, FILTER, room) == (100, 7)
    handle = opened()
    assert queried(handle, b"", room) == (1, 7)
    assert queried(handle, FILTER, room) == (31, 7)
    assert filtered(handle, RANGE, room) == (32, 7)
    assert news(handle, FOREIGN_FILTER, room) == (5, 7)
    # A reply_channel_range has 46 bytes and 8 for each id; a message follows its length of 8 bytes.
    assert queried(handle, RANGE, room) == (0, 62)
    assert (room[0], room[8], room[9]) == (54, 1, 8)
    assert filtered(handle, FILTER, bytearray(585)) == (104, 586)
    assert news(handle, FILTER, room) == (0, 586)
    assert (room[0], room[1], room[440], room[449]) == (176, 1, 138, 2)
    assert library.lgm_mark(handle) == 0
    assert news(handle, FILTER, room) == (0, 0)
    free(handle)


@test
def lookups():
    """A channel and a node are found as they were announced, or refused as unknown."""
    room = bytearray(2)
    handle = closed()
    assert found_channel(handle, NUMBER)[0] == 100
    assert found_node(handle, room) == (100, 0, 7)
    handle = opened()
    assert found_channel(handle, NUMBER + 1)[0] == 11
    assert found_node(handle, room) == (33, 0, 7)
    number, channel = found_channel(handle, NUMBER)
    assert (number, channel.capacity_sat) == (0, 100_000)
    assert (channel.node_1, channel.node_2) == (A, B)
    assert (channel.from_1.is_held, channel.from_2.is_held) == (True, False)
    assert channel.from_1.htlc_maximum_msat == 50_000_000
    assert offered(handle, NODE_OF_A, 2, 0) == 0
    assert found_node(handle, bytearray(1)) == (104, 9, 2)
    assert found_node(handle, room) == (0, 9, 2)
    assert room == b"\xff\1"
    free(handle)


def word_of(number):
    """What is written of a number, over ones."""
    word = bytearray(b"\1" * WORD_LEN)
    library.lgm_word(number, at(word))
    return word


@test
def words():
    """Each number has the word that the header's lgm_text has, with zeros behind it, or none; the version is the header's."""
    assert WORDS[0] == "accepted" and WORDS[120] == "which: 0, 1 or 2"
    for number in (*range(1_000), 2**32 - 1):
        assert word_of(number) == WORDS.get(number, "").encode().ljust(WORD_LEN, b"\0"), number
    assert library.lgm_version() == VERSION


def first_fault(message):
    """The first fault of a message."""
    return library.lgm_fault_of(message, len(message))


@test
def first_faults():
    """The first fault by the table of docs/protocol.md, from left to right."""
    assert first_fault(ANNOUNCEMENT) == first_fault(UPDATE) == first_fault(NODE_OF_A) == first_fault(RANGE) == 0
    assert first_fault(bytes(65_536)) == 51
    assert first_fault(b"") == first_fault(b"\1") == 52
    assert first_fault(b"\1\4") == 2 and first_fault(b"\1\3") == 3
    assert first_fault(UPDATE[:-1]) == first_fault(b"\1\0") == 53
    ids = b"\1\5" + CHAIN  # query_short_channel_ids
    assert first_fault(ids + b"\0\1\1") == 54
    assert first_fault(ids + b"\0\3\0\0\0") == 55
    for stream, fault in ((b"\1", 56), (b"\xfd\0\1\0", 57), (b"\3\0\3\0", 59), (b"\2\0", 60), (b"\1\0", 61), (b"\3\0", 0)):
        assert first_fault(ids + b"\0\0" + stream) == fault, stream
