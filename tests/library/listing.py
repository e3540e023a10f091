"""What a map has, and bans."""

from ctypes import byref, c_uint64

from calls import (
    A, ANNOUNCEMENT, B, CHAIN, CHANNEL_OF_BOTH, NODE_OF_A, NUMBER, SEED, UPDATE, at, closed, free, library, offered, opened,
    published, seen, test, written)
from gossip.messages import short_channel_id

OTHER = NUMBER + 65_536  # channel 600000x2x0
OTHER_ANNOUNCEMENT = CHANNEL_OF_BOTH._replace(scid=short_channel_id(600_000, 2, 0)).encode(bitcoin_keys=(A, A))


def next_channel(handle, is_first, above):
    """What follows an id, or the first of all: the number, and the id."""
    scid = c_uint64(above)
    number = library.lgm_next_channel(handle, is_first, byref(scid))
    return number, scid.value


def next_point(call, handle, is_first, above):
    """The same of a point."""
    point = bytearray(above)
    return call(handle, is_first, at(point)), bytes(point)


def next_banned(handle, is_first, above):
    """The same of a banned point."""
    return next_point(library.lgm_next_banned, handle, is_first, above)


def next_node(handle, is_first, above):
    """The same of a node."""
    return next_point(library.lgm_next_node, handle, is_first, above)


@test
def lists():
    """Channels and nodes are gone through in order, and where there is none, what was given is left as it is."""
    empty = closed()
    assert next_channel(empty, True, 7) == (100, 7)
    assert next_node(empty, True, B) == (100, B)
    assert next_banned(empty, True, B) == (100, B)
    assert library.lgm_open(empty, CHAIN, True, b"", 0, SEED) == 0
    assert next_channel(empty, True, 7) == (107, 7)
    assert next_node(empty, True, B) == (107, B)
    assert next_banned(empty, True, B) == (107, B)
    handle = opened()
    assert offered(handle, OTHER_ANNOUNCEMENT, 0, 1) == 0
    assert offered(handle, NODE_OF_A, 2, 0) == 0
    assert next_channel(handle, True, OTHER) == (0, NUMBER)
    assert next_channel(handle, False, NUMBER - 1) == (0, NUMBER)
    assert next_channel(handle, False, NUMBER) == (0, OTHER)
    assert next_channel(handle, False, OTHER) == (107, OTHER)
    assert next_node(handle, True, B) == (0, A)
    assert next_node(handle, False, A) == (107, A)
    free(empty, handle)


@test
def bans():
    """A ban removes the channels of a node, refuses their announcements and is listed; a published map has none."""
    assert library.lgm_ban(closed(), A) == 100
    handle = opened()
    fixed = published(handle)
    assert library.lgm_ban(fixed, A) == 106
    assert library.lgm_ban(handle, B) == 0
    assert library.lgm_ban(handle, B) == 16
    assert library.lgm_ban(handle, A) == 0
    assert seen(handle) == (4, 0)
    assert offered(handle, ANNOUNCEMENT, 0, 1) == 16
    assert next_banned(handle, True, B) == (0, A)
    assert next_banned(handle, False, A) == (0, B)
    assert next_banned(handle, False, B) == (107, B)
    assert next_banned(fixed, True, B) == (107, B)
    free(handle, fixed)


def message(handle, scid, which, room):
    """The number that a message of a channel returns, and the length."""
    return written(room, library.lgm_channel_message, handle, scid, which)


def node_message(handle, room):
    """The same of the announcement of A."""
    return written(room, library.lgm_node_message, handle, A)


@test
def stored_messages():
    """Messages of a channel and of a node are written as they were received, where there is room."""
    handle, room = closed(), bytearray(432)
    assert message(handle, NUMBER, 3, room) == (100, 7)
    assert node_message(handle, room) == (100, 7)
    handle = opened()
    assert message(handle, NUMBER, 3, room) == (120, 7)
    assert message(handle, OTHER, 1, room) == (11, 7)
    assert message(handle, NUMBER, 2, room) == (107, 7)
    assert message(handle, NUMBER, 0, bytearray(431)) == (104, 432)
    assert message(handle, NUMBER, 0, room) == (0, 432)
    assert room == ANNOUNCEMENT
    room = bytearray(138)
    assert message(handle, NUMBER, 1, room) == (0, 138)
    assert room == UPDATE
    room = bytearray(144)
    assert node_message(handle, room) == (33, 7)
    assert offered(handle, NODE_OF_A, 2, 0) == 0
    assert node_message(handle, room) == (0, 144)
    assert room == NODE_OF_A
    free(handle)
