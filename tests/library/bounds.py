"""What calls take: it is bounded by the map and by the caller's buffers."""

import re
from ctypes import create_string_buffer
from pathlib import Path

from calls import (
    A, ANNOUNCEMENT, CHANNEL_OF_BOTH, FILTER, SCID, TERMS_OF_A, UPDATE, closed, filtered, free, library, news, offered, opened,
    opened_empty, published, queried, test)
from gossip.messages import query_short_channel_ids, short_channel_id

LONGEST = 65_535  # bytes of a message
MARGIN = 4_000  # KiB that the process may take beside, in whole pages, of which some may be huge


def most_memory():
    """The most memory that the process has had so far, in KiB."""
    return int(re.search(r"^VmHWM:\s*(\d+) kB$", Path("/proc/self/status").read_text(), re.MULTILINE)[1])


@test
def a_length_takes_no_room():
    """A buffer of no bytes is answered with the length of the replies alone, without putting them together."""
    handle = opened_empty()
    assert offered(handle, ANNOUNCEMENT.ljust(LONGEST, b"\0"), 0, 1) == 0
    query = query_short_channel_ids(2_000 * [SCID])
    before = most_memory()
    # 2,000 announcements of 65,535 bytes and an end of 35, each after 8 bytes: 128,014 KiB.
    assert queried(handle, query, bytearray()) == (104, 131_086_043)
    more = most_memory() - before
    assert more < MARGIN, f"{more} KiB more"
    free(handle)


@test
def answers_beyond_16_mib():
    """A backlog and news of 19 MiB are written whole: 300 channels with messages of 65,535 bytes, by their ids."""
    handle, expected = opened_empty(), b""
    for transaction in range(1, 301):
        scid = short_channel_id(600_000, transaction, 0)
        announcement = CHANNEL_OF_BOTH._replace(scid=scid).encode(bitcoin_keys=(A, A)).ljust(LONGEST, b"\0")
        update = TERMS_OF_A._replace(scid=scid).encode()
        assert offered(handle, announcement, 0, 1) == 0
        assert offered(handle, update, 2, 0) == 0
        expected += b"".join(len(message).to_bytes(8, "little") + message for message in (announcement, update))
    for answered in (filtered, news):
        room = bytearray(len(expected))
        assert answered(handle, FILTER, room) == (0, len(expected))
        assert room == expected
    free(handle)


def offer_long_updates(handle):
    """Offers 8,000 updates of 65,535 bytes, 512,000 KiB, and returns how many KiB of memory the process then had more."""
    update = create_string_buffer(UPDATE, LONGEST)
    before = most_memory()
    for timestamp in range(6, 8_006):
        update[106:110] = timestamp.to_bytes(4, "big")
        assert offered(handle, update, 2, 0) == 0
    return most_memory() - before


@test
def a_mark_keeps_few_operations():
    """Of the updates after a mark as many are kept as the map has channels, and 1,024 more; the news are the last one, as if
    only that one had come."""
    handle = opened()
    assert library.lgm_mark(handle) == 0
    more = offer_long_updates(handle)
    assert more < 1_025 * 64 + MARGIN, f"{more} KiB more"
    # Each message follows its length of 8 bytes.
    assert filtered(handle, FILTER, bytearray()) == (104, 65_983)
    assert news(handle, FILTER, bytearray()) == (104, 65_543)
    assert library.lgm_mark(handle) == 0
    assert news(handle, FILTER, bytearray()) == (0, 0)
    free(handle)


@test
def a_publication_keeps_few_operations():
    """As many updates as the map has channels, and one more, wait to be applied to the published map when it is published
    again; with more, it is copied then."""
    handle = opened()
    first = published(handle)
    more = offer_long_updates(handle)
    assert more < 2 * 64 + MARGIN, f"{more} KiB more"
    free(first, handle)


@test
def sharing_copies_no_map():
    """Each of 4,000 owners of a published map takes less than 2 KiB."""
    handle = opened()
    first = published(handle)
    others = [closed() for _ in range(4_000)]
    before = most_memory()
    for other in others:
        assert library.lgm_share(first, other) == 0
    more = most_memory() - before
    # With a copy of the map, whose lookup caches alone have 4 KiB each, they would take 48,000 KiB at least.
    assert more < 4_000 * 2, f"{more} KiB more"
    free(*others, first, handle)
