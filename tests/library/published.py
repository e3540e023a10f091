"""Published maps, of a map that changes meanwhile."""

from ctypes import create_string_buffer

from calls import (
    A, ANNOUNCEMENT, B, CHAIN, FILTER, FOREIGN_FILTER, NODE_OF_A, NUMBER, PAYLOAD, RANGE, SEED, UPDATE, closed, filtered,
    found_channel, found_node, free, library, news, offered, opened, opened_empty, paid, published, queried, seen, test,
    written)


@test
def publications():
    """A published map keeps its version and its channels, whatever becomes of the map and of other published ones."""
    first = closed()
    assert library.lgm_publish(closed(), first) == 100
    assert seen(first) == (0, 0)
    handle = opened()
    assert library.lgm_publish(handle, first) == 0
    assert library.lgm_publish(handle, first) == 101
    assert seen(first) == (2, 1)
    # What is refused isn't counted.
    assert offered(handle, UPDATE, 2, 0) == 15
    assert seen(handle) == (2, 1)
    same = published(handle)
    assert seen(same) == (2, 1)
    assert library.lgm_close_channel(handle, NUMBER) == 0
    assert seen(handle) == (3, 0)
    second = published(handle)
    assert seen(second) == (3, 0)
    assert seen(first) == (2, 1)
    free(handle, first)
    assert seen(first) == (0, 0)
    assert seen(same) == (2, 1)
    assert seen(second) == (3, 0)
    free(same, second, second)


def moved(handle):
    """A handle in another place, whose old place isn't used any more."""
    return create_string_buffer(handle.raw, len(handle))


def take_turns(holds):
    """Announces the channel and closes it, five times, and publishes the map before and after each close. With `holds` the
    published maps before a close are kept open, so that their networks can't catch up."""
    handle, kept = opened_empty(), []
    for version in (1, 3, 5, 7, 9):
        assert offered(handle, ANNOUNCEMENT, 0, 1) == 0
        before = published(handle)
        assert seen(before) == (version, 1)
        assert library.lgm_close_channel(handle, NUMBER) == 0
        if holds:
            kept.append((version, moved(before)))
        else:
            free(before)
        after = published(handle)
        assert seen(after) == (version + 1, 0)
        free(after)
        assert library.lgm_count(handle) == 0
    for version, before in kept:
        assert seen(before) == (version, 1)
        free(before)
    free(handle)


@test
def networks_that_take_turns():
    """A published map that nobody has any more catches up, and is published again."""
    take_turns(holds=False)


@test
def networks_that_are_kept():
    """A published map that is kept stays as it is, whatever is published beside it."""
    take_turns(holds=True)


@test
def owners():
    """A published map stays until its last owner is freed; a map that changes has no second owner."""
    first, other = closed(), closed()
    assert library.lgm_share(first, other) == 100
    handle = opened()
    # A map that changes isn't shared, whatever the other handle is.
    assert library.lgm_share(handle, other) == library.lgm_share(handle, handle) == 115
    first = published(handle)
    assert library.lgm_share(handle, first) == 115
    # A handle isn't opened with its own map.
    assert library.lgm_publish(handle, handle) == library.lgm_publish(first, first) == library.lgm_share(first, first) == 101
    assert seen(handle) == seen(first) == (2, 1)
    assert library.lgm_share(first, other) == 0
    assert library.lgm_share(first, other) == 101
    third = published(other)
    free(first)
    assert seen(other) == (2, 1)
    free(handle)
    assert seen(other) == (2, 1)
    free(other)
    assert seen(third) == (2, 1)
    free(third)


@test
def no_changes():
    """Whatever would change a published map is refused for that, even what a map that changes refuses."""
    handle = opened()
    fixed = published(handle)
    assert offered(fixed, NODE_OF_A, 2, 0) == 106
    assert offered(fixed, NODE_OF_A, 4, 0) == 106
    assert offered(fixed, b"", 2, 0) == 106
    assert library.lgm_close_channel(fixed, NUMBER) == 106
    assert library.lgm_mark(fixed) == 106
    assert library.lgm_open(fixed, CHAIN, True, b"", 0, SEED) == 101
    assert seen(fixed) == (2, 1)
    free(fixed)
    assert offered(fixed, NODE_OF_A, 2, 0) == 100
    assert offered(handle, NODE_OF_A, 2, 0) == 0
    free(handle)


@test
def routes():
    """A payment has the route of the map as it was published, before or after its channel was closed."""
    handle = opened()
    first = published(handle)
    assert library.lgm_close_channel(handle, NUMBER) == 0
    later = published(handle)
    free(handle)
    room = bytearray(46)
    assert paid(later, B, 10_000, 700_000, room)[0] == 25
    assert paid(first, B, 10_000, 700_000, bytearray(45))[0] == 104
    number, hop, lengths = paid(first, B, 10_000, 700_000, room)
    assert (number, *lengths) == (0, 1, 46)
    assert (hop.scid, hop.amount_msat, hop.expiry) == (NUMBER, 10_000, 700_000)
    assert room == PAYLOAD
    free(first, later)


def news_between(before, after, message, room):
    """The number that the news between two maps return for a filter, and the length."""
    return written(room, library.lgm_news_between, before, after, message, len(message))


@test
def messages():
    """Queries, filters and news are answered of the map as it was published, which has no mark."""
    room = bytearray(600)
    handle, none = opened(), closed()
    before = published(handle)
    assert news_between(none, before, FILTER, room) == (100, 7)
    assert news_between(before, none, FILTER, room) == (100, 7)
    # A node_announcement has 144 bytes here, and follows its length of 8 bytes.
    added = 8 + 144
    assert library.lgm_mark(handle) == 0
    assert offered(handle, NODE_OF_A, 2, 0) == 0
    after = published(handle)
    assert queried(after, FILTER, room) == (31, 7)
    assert filtered(after, RANGE, room) == (32, 7)
    assert queried(before, RANGE, room) == (0, 62)
    assert filtered(before, FILTER, room) == (0, 586)
    # A published map has no mark, also if the map that it is of has one.
    assert news(handle, FILTER, room) == (0, added)
    assert news(before, FILTER, room) == (0, 586)
    assert news(after, FILTER, room) == (104, 586 + added)
    assert news_between(before, after, FILTER, room) == (0, added)
    assert (room[8], room[9]) == (1, 1)
    assert news_between(before, handle, FILTER, room) == (0, added)
    assert news_between(after, before, FILTER, room) == (0, 0)
    assert news_between(after, before, FOREIGN_FILTER, room) == (5, 7)
    free(handle, before, after)


@test
def lookups():
    """A channel and a node are found as the map had them when it was published."""
    handle = opened()
    before = published(handle)
    assert offered(handle, NODE_OF_A, 2, 0) == 0
    after = published(handle)
    free(handle)
    assert found_channel(after, NUMBER + 1)[0] == 11
    number, channel = found_channel(after, NUMBER)
    assert (number, channel.capacity_sat) == (0, 100_000)
    assert channel.node_1 == A
    room = bytearray(2)
    assert found_node(before, room) == (33, 0, 7)
    assert found_node(after, bytearray(1)) == (104, 9, 2)
    assert found_node(after, room) == (0, 9, 2)
    assert room == b"\xff\1"
    free(before, after)
