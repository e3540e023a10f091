"""What a verifier needs of messages, by their layouts in BOLT 7: the type's two bytes, signatures of 64 bytes each, and what is
signed."""

from collections import namedtuple

from calls import A, ANNOUNCEMENT, B, CHAIN, NUMBER, RANGE, SCID, TERMS_OF_A, UPDATE, at, library, test
from gossip.messages import (
    ChannelAnnouncement, NodeAnnouncement, gossip_timestamp_filter, query_short_channel_ids, short_channel_id)
from lgm import Malformed, reads
from lgm.library import SIGNED

C, D, NONE = b"\2" + bytes(31) + b"\1", b"\3" + bytes(31) + b"\2", bytes(33)
FOUR, ONE = bytes(range(256)), bytes(range(100, 164))  # signatures

Read = namedtuple("Read", "scid signed_from block transaction output type has_scid is_second signatures key_1 key_2 key_3 key_4")


def read(message):
    """The number that is returned of a message, and what is told of it, over sevens; none if they are all there still."""
    room = bytearray(b"\7" * SIGNED.size)
    number = library.lgm_reads(message, len(message), at(room))
    return number, None if room == b"\7" * SIGNED.size else Read(*SIGNED.unpack(room))


def of_others(kind):
    """What is told of a message without signatures."""
    return 0, Read(0, 2, 0, 0, 0, kind, False, False, 0, NONE, NONE, NONE, NONE)


@test
def of_channels():
    """A channel_announcement has four signatures, and what is signed begins with the length of the features, at 258."""
    message = ChannelAnnouncement(CHAIN, SCID, (A, B), b"\1\2\3").encode(FOUR, (C, D))
    assert read(message) == (0, Read(NUMBER, 258, 600_000, 1, 0, 256, True, False, 4, A, B, C, D))
    assert message[2:258] == FOUR and message[258:] == b"\0\3\1\2\3" + CHAIN + SCID + A + B + C + D
    assert read(message + b"rest") == read(message)
    assert read(message[:-1]) == (1, None)


@test
def of_nodes():
    """A node_announcement has one, by its node, and what is signed begins at 66."""
    message = NodeAnnouncement(b"\1", 9, B).encode(ONE, b"\7\x08\x09", b"\6" * 32, b"\xff\1")
    assert read(message) == (0, Read(0, 66, 0, 0, 0, 257, False, False, 1, B, NONE, NONE, NONE))
    assert message[2:66] == ONE
    assert message[66:] == b"\0\1\1" + b"\0\0\0\x09" + B + b"\7\x08\x09" + b"\6" * 32 + b"\0\2\xff\1"


@test
def of_updates():
    """A channel_update has one, by the node that bit 0 of its channel flags says, and names no key."""
    for flags, is_second in ((0, False), (1, True), (2, False), (3, True), (255, True)):
        message = TERMS_OF_A._replace(channel_flags=flags).encode(ONE)
        assert read(message) == (0, Read(NUMBER, 66, 600_000, 1, 0, 258, True, is_second, 1, NONE, NONE, NONE, NONE))
        assert message[2:66] == ONE and message[66:106] == CHAIN + SCID
    last = TERMS_OF_A._replace(scid=short_channel_id(2**24 - 1, 2**24 - 2, 2**16 - 3)).encode()
    _, told = read(last)
    assert (told.scid, told.block, told.transaction, told.output) == (2**64 - 65_536 - 3, 2**24 - 1, 2**24 - 2, 2**16 - 3)


@test
def of_others_and_of_none():
    """Queries and replies have no signatures; what is no message is refused, and nothing is written."""
    for kind, message in (
            (261, query_short_channel_ids([SCID])), (262, b"\1\6" + CHAIN + b"\1"), (263, RANGE),
            (264, b"\1\x08" + CHAIN + bytes(8) + b"\1" + b"\0\1\0"), (265, gossip_timestamp_filter(0, 1))):
        assert read(message) == of_others(kind)
    for number, message in ((1, b""), (1, b"\1"), (1, b"\1\0"), (1, UPDATE[:137]), (1, bytes(65_536)), (2, b"\1\x0a"), (2, b"\0\0"),
                            (3, b"\1\3"), (3, b"\xff\xff"), (1, query_short_channel_ids([SCID])[:-1])):
        assert read(message) == (number, None), message[:2]


@test
def in_python():
    """The same as a record, with the signatures and the signed bytes."""
    told = reads(ANNOUNCEMENT)
    assert (told.type, told.scid, told.keys) == (256, NUMBER, (A, B, A, A))
    assert (told.signatures, told.signed) == (4 * (bytes(64),), ANNOUNCEMENT[258:])
    told = reads(bytearray(TERMS_OF_A.encode(ONE)))
    assert (told.scid, told.keys, told.signatures, told.signed) == (NUMBER, (), (ONE,), UPDATE[66:])
    told = reads(RANGE)
    assert (told.type, told.scid, told.keys, told.signatures, told.signed) == (263, None, (), (), b"")
    try:
        reads(UPDATE[:137])
    except Malformed as fault:
        assert str(fault) == "malformed: cut"
    else:
        assert False
