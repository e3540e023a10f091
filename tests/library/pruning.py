"""What is pruned: channels whose latest update, of both directions, is old, and those without one below a block."""

from ctypes import byref, c_uint64

from calls import (
    A, ANNOUNCEMENT, B, CHANNEL_OF_BOTH, FILTER, NODE_OF_A, NUMBER, TERMS_OF_A, UPDATE, at, closed, filtered, free, library, offered,
    opened, opened_empty, published, seen, test, written)
from lgm.library import PRUNED

BLOCK = 2**40  # in an id
SECOND, EARLIER, LATER = NUMBER + 65_536, NUMBER - BLOCK, NUMBER + BLOCK  # 600000x2x0, 599999x1x0, 600001x1x0


def id_of(number):
    """An id as a message has it."""
    return number.to_bytes(8, "big")


def with_channels(*numbers):
    """A map with channels of A and B, without updates."""
    handle = opened_empty()
    for number in numbers:
        assert offered(handle, CHANNEL_OF_BOTH._replace(scid=id_of(number)).encode(bitcoin_keys=(A, A)), 0, 1) == 0
    return handle


def updated(handle, number, direction, timestamp):
    """Offers an update of a direction, rightly signed."""
    message = TERMS_OF_A._replace(scid=id_of(number), timestamp=timestamp, channel_flags=direction).encode()
    assert library.lgm_offer(handle, message, len(message), 2, (A, B)[direction & 1], 0, 0) == 0


def pruned(handle, before, block, most=9):
    """The number, the one that is written over 7, and the entries that are written over sevens."""
    room = bytearray(b"\7" * most * PRUNED.size)
    needed = bytearray(b"\7" + bytes(7))
    number = library.lgm_prune(handle, before, block, at(room), most, at(needed))
    sevens = PRUNED.unpack(b"\7" * PRUNED.size)
    return number, needed[0], [entry for entry in PRUNED.iter_unpack(room) if entry != sevens]


def held(handle):
    """The ids of a map's channels."""
    number, found = c_uint64(), []
    while library.lgm_next_channel(handle, not found, byref(number)) == 0:
        found.append(number.value)
    return found


@test
def old_channels():
    """The later of both directions decides, and its time is told; a channel as old as the time given stays."""
    handle = with_channels(NUMBER, SECOND, LATER)
    updated(handle, NUMBER, 0, 1_000)
    updated(handle, SECOND, 0, 1_000)
    updated(handle, SECOND, 1, 2_000)
    updated(handle, LATER, 1, 1_500)
    assert pruned(handle, 1_000, 0) == (0, 0, [])
    assert pruned(handle, 1_001, 0) == (0, 1, [(NUMBER, 1_000)])
    assert pruned(handle, 1_001, 2**32 - 1) == (0, 0, [])
    assert pruned(handle, 2_000, 0) == (0, 1, [(LATER, 1_500)])
    assert held(handle) == [SECOND]
    assert pruned(handle, 2**32 - 1, 0) == (0, 1, [(SECOND, 2_000)])
    assert held(handle) == [] and seen(handle) == (3 + 4 + 3, 0)
    free(handle)


@test
def channels_without_updates():
    """Their block decides, and 0 is told; one with an update of the time 0 has an update."""
    handle = with_channels(EARLIER, NUMBER, SECOND, LATER)
    updated(handle, NUMBER, 0, 0)
    assert pruned(handle, 0, 599_999) == (0, 0, [])
    assert pruned(handle, 0, 600_001) == (0, 2, [(EARLIER, 0), (SECOND, 0)])
    assert pruned(handle, 1, 0) == (0, 1, [(NUMBER, 0)])
    assert held(handle) == [LATER]
    free(handle)


@test
def order_and_room():
    """They are told by ascending id, all or none."""
    handle = with_channels(LATER, EARLIER, SECOND, NUMBER)
    updated(handle, SECOND, 1, 7)
    before = seen(handle)
    assert pruned(handle, 8, 2**24, 3) == (104, 4, [])
    assert pruned(handle, 8, 2**24, 0) == (104, 4, [])
    assert seen(handle) == before
    assert pruned(handle, 8, 2**24, 4) == (0, 4, [(EARLIER, 0), (NUMBER, 0), (SECOND, 7), (LATER, 0)])
    assert seen(handle) == (before[0] + 4, 0)
    assert pruned(handle, 8, 2**24, 0) == (0, 0, [])
    free(handle)


@test
def handles():
    """A closed handle and a published map have only their faults, and nothing is written."""
    assert pruned(closed(), 9, 9) == (100, 7, [])
    handle = opened()
    fixed = published(handle)
    assert pruned(fixed, 6, 0) == (106, 7, [])
    assert pruned(handle, 6, 0) == (0, 1, [(NUMBER, 5)])
    assert seen(fixed) == (2, 1) and seen(handle) == (3, 0)
    free(handle, fixed)


@test
def what_goes_with_a_channel():
    """Its updates, and nodes without another channel; what was pruned is accepted again."""
    handle = opened()
    assert offered(handle, NODE_OF_A, 2, 0) == 0
    assert pruned(handle, 6, 0) == (0, 1, [(NUMBER, 5)])
    assert filtered(handle, FILTER, bytearray(9)) == (0, 0)
    assert written(bytearray(144), library.lgm_node_message, handle, A) == (33, 7)
    assert offered(handle, UPDATE, 2, 0) == 11
    assert offered(handle, ANNOUNCEMENT, 0, 1) == 0
    assert offered(handle, UPDATE, 2, 0) == 0
    free(handle)
