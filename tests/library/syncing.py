"""What a map lacks of a peer's channels, and the messages that ask for it. The messages are worked out by hand, from BOLT 7."""

from ctypes import byref, c_size_t, c_uint64

from calls import (
    A, ANNOUNCEMENT, CHAIN, CHANNEL_OF_BOTH, NUMBER, RANGE, SCID, TERMS_OF_A, UPDATE, at, closed, free, library, offered, opened,
    opened_empty, published, queried, test, written)
from gossip.messages import (
    gossip_timestamp_filter, query_channel_range, query_short_channel_ids, reply_channel_range, short_channel_id)
from lgm.library import LACKING, MOST_IDS

OTHER_CHAIN = b"\xd1" * 32
OTHER_SCID, LAST_SCID = short_channel_id(600_000, 2, 0), short_channel_id(600_001, 0, 0)
OTHER, LAST = NUMBER + 65_536, NUMBER + 2**40 - 65_536
NEWER = TERMS_OF_A._replace(timestamp=6).encode()


def lacking(handle, reply, most=8):
    """What is lacking of a reply: the number, how many there are over 7, and those that were written."""
    room, count = bytearray(b"\7" * LACKING.size * most), c_size_t(7)
    number = library.lgm_lacking(handle, reply, len(reply), at(room), most, byref(count))
    if number != 0:
        assert room == b"\7" * len(room)
        return number, count.value, []
    end = count.value * LACKING.size
    assert room[end:] == b"\7" * (len(room) - end)
    return number, count.value, list(LACKING.iter_unpack(room[:end]))


def asked(call, handle, *arguments, room=4096):
    """The message that a call writes: the number, the length, and the bytes."""
    bytes_of = bytearray(room)
    number, length = written(bytes_of, call, handle, *arguments)
    return number, length, bytes(bytes_of[:length]) if number == 0 else bytes(bytes_of)


def ask_ids(handle, *channels, room=70_000):
    """The message that asks for channels."""
    packed = b"".join(LACKING.pack(*channel) for channel in channels)
    return asked(library.lgm_ask_ids, handle, packed, len(channels), room=room)


def covered(handle, reply, first):
    """The number, and the block up to which a range is covered."""
    covered_to = c_uint64(first)
    return library.lgm_covered(handle, reply, len(reply), byref(covered_to)), covered_to.value


@test
def messages():
    """The messages that ask are those of BOLT 7, and fit a buffer of their length."""
    empty, handle = closed(), opened_empty()
    whole = {
        query_channel_range(7, 9, with_timestamps=True): (library.lgm_ask_range, 7, 9),
        query_channel_range(0, 2**32 - 1, with_timestamps=True): (library.lgm_ask_range, 0, 2**32 - 1),
        gossip_timestamp_filter(5, 6): (library.lgm_ask_filter, 5, 6)}
    for message, (call, *numbers) in whole.items():
        assert asked(call, empty, *numbers) == (100, 7, bytes(4096))
        assert asked(call, handle, *numbers) == (0, len(message), message)
        assert asked(call, handle, *numbers, room=len(message)) == (0, len(message), message)
        assert asked(call, handle, *numbers, room=len(message) - 1) == (104, len(message), bytes(len(message) - 1))
    fixed = published(handle)
    assert asked(library.lgm_ask_filter, fixed, 5, 6)[2] == gossip_timestamp_filter(5, 6)
    free(handle, fixed)


@test
def ids():
    """What is lacking is asked for by ids and flags, of the first 7,000 channels, and of none."""
    assert ask_ids(closed(), (NUMBER, 0, 0, 31))[:2] == (100, 7)
    handle = opened_empty()
    wanted = query_short_channel_ids([SCID, OTHER_SCID], b"\x1f\2")
    assert ask_ids(handle, (NUMBER, 5, 6, 31), (OTHER, 0, 0, 2)) == (0, len(wanted), wanted)
    assert ask_ids(handle, (NUMBER, 5, 6, 31), (OTHER, 0, 0, 2), room=len(wanted) - 1)[:2] == (104, len(wanted))
    none = query_short_channel_ids([], b"")
    assert ask_ids(handle) == (0, len(none), none)
    many = [(NUMBER + 65_536 * place, 0, 0, 1) for place in range(MOST_IDS + 1)]
    number, length, message = ask_ids(handle, *many)
    first = query_short_channel_ids([scid.to_bytes(8, "big") for scid, *_ in many[:MOST_IDS]], b"\1" * MOST_IDS)
    assert (number, message) == (0, first) and MOST_IDS == 7_000 and length < 65_535
    free(handle)


@test
def channels():
    """All of a channel that isn't there is lacking, and the updates that are newer."""
    handle, empty = opened(), opened_empty()
    reply = reply_channel_range(0, 2**32 - 1, [SCID, OTHER_SCID], [(6, 0), (1, 2)])
    assert lacking(handle, reply) == (0, 2, [(NUMBER, 6, 0, 2), (OTHER, 1, 2, 31)])
    assert lacking(handle, reply, most=1) == (104, 2, [])
    assert lacking(empty, reply) == (0, 2, [(NUMBER, 6, 0, 31), (OTHER, 1, 2, 31)])
    for times, flags in (((5, 0), 0), ((6, 0), 2), ((4, 1), 4), ((2**32 - 1, 2**32 - 1), 6)):
        found = [(NUMBER, *times, flags)] if flags else []
        assert lacking(handle, reply_channel_range(0, 9, [SCID], [times])) == (0, len(found), found)
    # without timestamps only channels that aren't there
    assert lacking(handle, reply_channel_range(0, 9, [SCID, OTHER_SCID])) == (0, 1, [(OTHER, 0, 0, 31)])
    assert lacking(handle, reply_channel_range(0, 0, [])) == (0, 0, [])
    # ids that repeat, or don't ascend, are passed over, with their timestamps
    twice = reply_channel_range(0, 9, [OTHER_SCID, OTHER_SCID, SCID, LAST_SCID], [(1, 1), (2, 2), (9, 9), (4, 4)])
    assert lacking(handle, twice) == (0, 2, [(OTHER, 1, 1, 31), (LAST, 4, 4, 31)])
    fixed = published(handle)
    assert lacking(fixed, reply) == lacking(handle, reply)
    free(handle, empty, fixed)


@test
def refusals():
    """Whatever a peer sent, both calls end in a number, and change nothing."""
    handle, whole = opened(), reply_channel_range(0, 9, [SCID], [(6, 0)])
    others = {b"": 1, b"\1": 1, whole[:20]: 1, whole[:-1]: 1, RANGE: 35, UPDATE: 35, ANNOUNCEMENT: 35, b"\0\2": 2, b"\0\3": 3,
              whole.replace(CHAIN, OTHER_CHAIN): 5}
    for message, number in others.items():
        assert lacking(handle, message) == (number, 7, []), message
        assert covered(handle, message, 3) == (number, 3), message
        assert lacking(closed(), message) == (100, 7, []) and covered(closed(), message, 3) == (100, 3)
    for place in range(len(whole)):
        for flip in (1, 128):
            changed = whole[:place] + bytes([whole[place] ^ flip]) + whole[place + 1:]
            assert lacking(handle, changed)[0] in (0, 1, 2, 3, 5, 35)
            assert covered(handle, changed, 3)[0] == lacking(handle, changed)[0]
    free(handle)


@test
def ranges():
    """A range is covered by replies that follow one another, overlap or repeat, up to the first gap."""
    handle = opened_empty()

    def to(first, *replies):
        for begin, blocks in replies:
            number, first = covered(handle, reply_channel_range(begin, blocks, []), first)
            assert number == 0
        return first

    assert to(0, (0, 10), (10, 5)) == 15
    assert to(0, (0, 10), (5, 10), (0, 10), (15, 1)) == 16
    assert to(0, (0, 10), (11, 5)) == 10
    assert to(3, (4, 5)) == 3 and to(3, (0, 3)) == 3 and to(3, (3, 0)) == 3 and to(3, (0, 4)) == 4
    assert to(0, (0, 2**32 - 1), (2**32 - 1, 2**32 - 1)) == 2**33 - 2
    assert to(2**64 - 1, (0, 2**32 - 1)) == 2**64 - 1
    free(handle)


@test
def a_peer():
    """A map gets from another one, message by message, what it lacks: then it lacks nothing."""
    peer, handle = opened(), opened_empty()
    other = CHANNEL_OF_BOTH._replace(scid=OTHER_SCID).encode(bitcoin_keys=(A, A))
    assert offered(peer, other, 0, 1) == 0
    assert offered(handle, other, 0, 1) == 0

    def answers(query):
        room = bytearray(70_000)
        number, length = queried(peer, query, room)
        assert number == 0
        found, place = [], 0
        while place < length:
            end = place + 8 + int.from_bytes(room[place:place + 8], "little")
            found.append(bytes(room[place + 8:end]))
            place = end
        return found

    for wanted in ([(NUMBER, 5, 0, 31)], []):
        query = asked(library.lgm_ask_range, handle, 0, 2**32 - 1)[2]
        reply, = answers(query)
        assert covered(handle, reply, 0) == (0, 2**32 - 1)
        number, _, found = lacking(handle, reply)
        assert (number, found) == (0, wanted)
        for message in answers(ask_ids(handle, *found)[2])[:-1]:
            assert offered(handle, message, 0 if message == ANNOUNCEMENT else 2, 1) == 0
    # A newer update is lacking here, and an older one isn't.
    assert offered(peer, NEWER, 2, 0) == 0
    query = asked(library.lgm_ask_range, handle, 600_000, 1)[2]
    assert lacking(handle, answers(query)[0]) == (0, 1, [(NUMBER, 6, 0, 2)])
    assert offered(handle, NEWER, 2, 0) == 0 and lacking(handle, answers(query)[0]) == (0, 0, [])
    free(peer, handle)
