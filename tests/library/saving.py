"""A map as bytes: what is written, what is opened of it, and what becomes of damaged bytes. The lengths are worked out by hand,
from docs/protocol.md.
"""

from ctypes import byref, c_size_t

from calls import (
    A, ANNOUNCEMENT, B, CHAIN, FILTER, NODE_OF_A, NUMBER, RANGE, SEED, UPDATE, at, closed, free, library, news, offered, opened,
    opened_empty, published, queried, seen, test)
from lgm.payer import Payer
from listing import next_banned, next_channel, next_node

# What is before the records and behind them: the text, the version, the chain and a length; and the checksum.
HEAD, CHECKSUM = 8 + 4 + 32 + 8, 16
# A ban; a channel, an update and a node, with their messages.
RECORDS = 1 + 33 + 1 + 8 + 2 + len(ANNOUNCEMENT) + 1 + 2 + len(UPDATE) + 1 + 2 + len(NODE_OF_A)
BANNED = b"\2\5" + bytes(31)


def saved(handle, length=None):
    """What a map is as bytes: the number, the length over 7, and the bytes."""
    needed = c_size_t(7)
    number = library.lgm_save(handle, None, 0, byref(needed)) if length is None else 104
    room = bytearray(needed.value if length is None else length)
    if number == 104:
        number = library.lgm_save(handle, at(room), len(room), byref(needed))
    return number, needed.value, bytes(room)


def loaded(data, chain=CHAIN, handle=None, seed=SEED):
    """What opening a handle with bytes returns, and the handle."""
    handle = closed() if handle is None else handle
    return library.lgm_load(handle, chain, True, b"", 0, seed, data, len(data)), handle


def whole():
    """A handle of a map with a channel, its update, a node and a ban."""
    handle = opened()
    assert offered(handle, NODE_OF_A, 2, 0) == 0
    assert library.lgm_ban(handle, BANNED) == 0
    return handle


@test
def numbers():
    """A closed handle isn't saved, and an open one isn't opened again; a short buffer stays as it is."""
    assert saved(closed()) == (100, 7, bytes(7))
    handle = whole()
    number, length, data = saved(handle)
    assert (number, length) == (0, HEAD + RECORDS + CHECKSUM)
    assert saved(handle, length - 1) == (104, length, bytes(length - 1))
    assert saved(handle, length + 3) == (0, length, data + bytes(3))
    before = bytes(handle)
    assert loaded(data, handle=handle) == (101, handle) and bytes(handle) == before
    number, other = loaded(data)
    assert number == 0
    assert loaded(b"", handle=other)[0] == 101
    number, other_closed = loaded(b"")
    assert number == 34 and bytes(other_closed) == bytes(16)
    assert loaded(data, chain=b"\xd1" * 32)[0] == 34
    free(handle, other, other_closed)


@test
def round_trip():
    """What was saved is loaded with its bans, whatever the seed, and saved as the same bytes; an empty map, too, and a published
    one. The version counts from 0, and the mark is there."""
    for handle in (whole(), opened_empty(), published(whole())):
        number, _, data = saved(handle)
        assert number == 0
        number, other = loaded(data, seed=b"\x09" * 16)
        assert number == 0
        assert seen(other) == (0, library.lgm_count(handle))
        assert saved(other) == (0, len(data), data)
        room = bytearray(4096)
        assert queried(other, RANGE, room) == queried(handle, RANGE, bytearray(4096))
        assert news(other, FILTER, room) == (0, 0)
        free(handle, other)
    number, other = loaded(saved(whole())[2])
    assert next_channel(other, True, 7) == (0, NUMBER)
    assert next_node(other, True, B) == (0, A)
    assert next_banned(other, True, B) == (0, BANNED)
    assert offered(other, UPDATE, 2, 0) == 15 and offered(other, ANNOUNCEMENT, 0, 1) == 12
    assert library.lgm_ban(other, A) == 0
    assert seen(other) == (1, 0)
    room = bytearray(4096)
    assert news(other, FILTER, room)[0] == 0
    assert saved(other)[1] == HEAD + 2 * 34 + CHECKSUM
    free(other)


@test
def bytes_as_told():
    """The bytes of a map are those of the table in docs/protocol.md."""
    handle = whole()
    body = (b"\1" + BANNED + b"\2" + (100_000).to_bytes(8, "big") + len(ANNOUNCEMENT).to_bytes(2, "big") + ANNOUNCEMENT
            + b"\3" + len(UPDATE).to_bytes(2, "big") + UPDATE + b"\4" + len(NODE_OF_A).to_bytes(2, "big") + NODE_OF_A)
    content = b"lgm map\n\0\0\0\2" + CHAIN + len(body).to_bytes(8, "big") + body
    first = second = 0
    for byte in content:
        first = (first + byte) % 2**64
        second = (second + first) % 2**64
    assert saved(handle)[2] == content + first.to_bytes(8, "big") + second.to_bytes(8, "big")
    free(handle)


@test
def damage():
    """Bytes of which one was changed to any other, and those that were cut or go on, open no handle."""
    handle = whole()
    data = saved(handle)[2]
    for place, byte in enumerate(data):
        assert loaded(data[:place])[0] == 34
        for flip in (1, 2, 4, 8, 16, 32, 64, 128, 255):
            number, other = loaded(data[:place] + bytes([byte ^ flip]) + data[place + 1:])
            assert number == 34 and bytes(other) == bytes(16), (place, flip)
    assert loaded(data + b"\0")[0] == 34
    with Payer(A) as payer:
        assert loaded(payer.save())[0] == 34
    free(handle)
