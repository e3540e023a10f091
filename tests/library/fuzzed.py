"""Messages and saved bytes that were changed at random: whatever they have, each call that reads them ends in a number that it
returns, and nothing is changed by what is refused."""

import random
from ctypes import byref, c_size_t, c_uint64, create_string_buffer

from calls import A, ANNOUNCEMENT, CHAIN, NODE_OF_A, RANGE, SEED, UPDATE, at, closed, free, library, offered, opened, queried, seen, test
from lgm.library import LACKING, SIGNED

TIMES = 4_000
REFUSED = {*range(1, 17)}  # of a message that is offered
UNREAD = {1, 2, 3}  # bytes that are no message


def changed(draws, message):
    """A message with some bytes changed, left out, repeated or put in, or cut."""
    for _ in range(draws.randrange(1, 4)):
        place, end = sorted((draws.randrange(len(message) + 1), draws.randrange(len(message) + 1)))
        message = draws.choice((
            lambda: message[:place] + draws.randbytes(1) + message[place + 1:],
            lambda: message[:place] + message[end:],
            lambda: message[:end] + message[place:],
            lambda: message[:place] + draws.choice((b"\0", b"\xff", b"\xfd\xff\xff", draws.randbytes(8))) + message[place:],
            lambda: message[:place]))()[:70_000]
    return message


def whole():
    """A handle of a map, and messages of each kind that its calls read."""
    handle = opened()
    assert offered(handle, NODE_OF_A, 2, 0) == 0
    room = bytearray(4_096)
    number, length = queried(handle, RANGE + b"\1\1\1", room)  # with timestamps
    assert number == 0
    return handle, [ANNOUNCEMENT, UPDATE, NODE_OF_A, RANGE, bytes(room[8:length])]


@test
def messages():
    """By calls that read a message, of a map that has its own."""
    draws, (handle, given) = random.Random(1), whole()
    before = seen(handle)
    for _ in range(TIMES):
        message = changed(draws, draws.choice(given))
        read, key = bytearray(SIGNED.size), bytearray(33)
        assert library.lgm_reads(message, len(message), at(read)) in {0, *UNREAD}
        assert library.lgm_wanted(handle, message, len(message), at(key)) in {0, *REFUSED}
        assert library.lgm_fault_of(message, len(message)) < 256
        most = len(message) // 8
        entries, count, block = bytearray(LACKING.size * most), c_size_t(), c_uint64(5)
        numbers = {0, 5, 35, *UNREAD}
        assert library.lgm_lacking(handle, message, len(message), at(entries), most, byref(count)) in numbers
        number = library.lgm_covered(handle, message, len(message), byref(block))
        assert number in numbers and block.value >= 5 and (number == 0 or block.value == 5)
        assert queried(handle, message, bytearray(4_096))[0] in {0, 31, 104, *UNREAD}
        assert offered(handle, message, 3, 0) in REFUSED  # with a signature that is valid for no key
        assert seen(handle) == before
    free(handle)


@test
def saved_maps():
    """By lgm_load: what isn't whole opens nothing."""
    draws, (handle, _) = random.Random(2), whole()
    assert library.lgm_ban(handle, A[:32] + b"\7") == 0
    needed = c_size_t()
    library.lgm_save(handle, None, 0, byref(needed))
    room = create_string_buffer(needed.value)
    assert library.lgm_save(handle, room, needed.value, byref(needed)) == 0
    for _ in range(TIMES):
        data, other = changed(draws, room.raw), closed()
        number = library.lgm_load(other, CHAIN, True, b"", 0, SEED, data, len(data))
        assert number == (0 if data == room.raw else 34) and (number == 0 or bytes(other) == bytes(16))
        if number == 0:
            free(other)
    free(handle)
