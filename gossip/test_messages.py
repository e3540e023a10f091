#!/usr/bin/env python3
"""Tests messages.py on messages that are laid out here, field by field, as BOLT 7 has them.

    python3 gossip/test_messages.py
"""

import sys

sys.dont_write_bytecode = True  # the repository gets no made files

import messages
from messages import CHAIN, ChannelAnnouncement, ChannelUpdate, Fault, NodeAnnouncement

SIGNATURE, SIGNATURES = bytes(range(64)), bytes(range(256))
SCID = bytes.fromhex("0c3500" "00000c" "0003")  # block 800,000, index 12, output 3
NODES = b"\2" + b"\x0a" * 32, b"\3" + b"\x0b" * 32
KEYS = b"\3" + b"\x0c" * 32, b"\2" + b"\x0d" * 32

ANNOUNCEMENT = b"".join((b"\1\0", SIGNATURES, b"\0\2", b"\2\1", CHAIN, SCID, *NODES, *KEYS))
NODE = b"".join((b"\1\1", SIGNATURE, b"\0\1", b"\x80", bytes.fromhex("65539a00"), NODES[0], b"rgb",
                 b"lantern" + bytes(25), b"\0\7", b"\1\x7f\0\0\1\x26\7"))
UPDATE = b"".join((b"\1\2", SIGNATURE, CHAIN, SCID, bytes.fromhex("65539a00"), b"\1\3", bytes.fromhex("0050"),
                   bytes.fromhex("00000000000003e8"), bytes.fromhex("000005dc"), bytes.fromhex("0000007d"),
                   bytes.fromhex("000000003b9aca00")))
TIME = 0x65539A00


def fault_of(message, kind=None):
    """The fault of a message; empty if it has none."""
    try:
        messages.decode(message, kind)
    except Fault as fault:
        return str(fault)
    return ""


def a_channel_announcement():
    """Type 256."""
    found = messages.decode(ANNOUNCEMENT)
    assert found == ChannelAnnouncement(CHAIN, SCID, NODES, b"\2\1")
    assert found.encode(SIGNATURES, KEYS) == ANNOUNCEMENT
    assert messages.decode(found.encode()) == found


def a_node_announcement():
    """Type 257. An alias is cut at 32 bytes."""
    found = messages.decode(NODE)
    assert found == NodeAnnouncement(b"\x80", TIME, NODES[0])
    assert found.encode(SIGNATURE, b"rgb", b"lantern", b"\1\x7f\0\0\1\x26\7") == NODE
    assert found.encode(alias=b"a" * 33) == found.encode(alias=b"a" * 32)


def a_channel_update():
    """Type 258."""
    found = messages.decode(UPDATE)
    assert found == ChannelUpdate(CHAIN, SCID, TIME, 1, 3, 80, 1_000, 1_500, 125, 1_000_000_000)
    assert (found.direction, found.is_disabled, found.is_private) == (1, True, False)
    assert found.encode(SIGNATURE) == UPDATE
    assert found._replace(message_flags=3).is_private
    try:
        found._replace(cltv_expiry_delta=2**16).encode()
    except Fault as fault:
        assert str(fault).startswith("a number doesn't fit its field")
    else:
        raise AssertionError("a delta of 2^16 fits")


def faults_are_found():
    """Messages that are cut anywhere, points of another form, and other types. Bytes behind the end are no fault."""
    for message in (ANNOUNCEMENT, NODE, UPDATE):
        assert not fault_of(message) and not fault_of(message + b"more")
        for cut in range(2, len(message)):
            assert fault_of(message[:cut]).startswith("the message is cut off at its "), cut
    for good, name in zip((*NODES, *KEYS), ("node_id_1", "node_id_2", "bitcoin_key_1", "bitcoin_key_2")):
        assert fault_of(ANNOUNCEMENT.replace(good, b"\4" + good[1:])) == f"its {name} is no compressed point"
    assert fault_of(NODE, messages.CHANNEL_UPDATE) == "the message is of type 257, not 258"
    assert fault_of(b"\1\3") == "the message is of type 259, not 256, 257 or 258"
    assert fault_of(b"\1") == fault_of(b"") == "there is no message"


def queries():
    """Types 261, 263, 264 and 265."""
    other = bytes(8)
    assert messages.query_short_channel_ids([other, SCID]) == b"\1\5" + CHAIN + b"\0\x11\0" + other + SCID
    flagged = messages.query_short_channel_ids([SCID] * 252, b"\1" * 252)
    assert flagged.endswith(SCID + b"\1\xfd\0\xfd\0" + b"\1" * 252)  # 253 bytes, in three of a BigSize
    assert messages.query_short_channel_ids([SCID], b"\7").endswith(SCID + b"\1\2\0\7")
    asked = b"\1\7" + CHAIN + bytes.fromhex("000c3500" "00000010")
    assert messages.query_channel_range(800_000, 16) == asked
    assert messages.query_channel_range(800_000, 16, with_timestamps=True) == asked + b"\1\1\1"
    told = b"\1\x08" + asked[2:] + b"\1\0\x09\0" + SCID
    assert messages.reply_channel_range(800_000, 16, [SCID]) == told
    assert messages.reply_channel_range(800_000, 16, [SCID], [(5, 0)]) == told + b"\1\x09\0\0\0\0\5" + bytes(4)
    assert messages.gossip_timestamp_filter(TIME, 16, messages.MAINNET) == (
        b"\1\x09" + messages.MAINNET + bytes.fromhex("65539a00" "00000010"))


def ids_and_features():
    """Ids as bytes and as text, and feature bits."""
    assert messages.short_channel_id(800_000, 12, 3) == messages.scid_of("800000x12x3") == SCID
    assert messages.scid_text(SCID) == "800000x12x3"
    greatest = "16777215x16777215x65535"
    assert messages.scid_of(greatest) == b"\xff" * 8 and messages.scid_text(b"\xff" * 8) == greatest
    assert messages.features() == b"" and messages.features(0, 9, 9) == b"\2\1"
    assert messages.feature_bits(b"\2\1") == [0, 9] and messages.even_bits(b"\2\1") == [0]


def lines_of_a_script():
    """The lines of docs/script.md that have a message."""
    assert messages.channel_line(b"\1\0", 5) == "m 0100 all 5\n"
    assert messages.signed_line(b"\1\2", b"\2\3") == "m 0102 0203 -\n"
    assert messages.query_line(b"\1\5") == "q 0105\n"


def main():
    """Runs each test."""
    tests = (a_channel_announcement, a_node_announcement, a_channel_update, faults_are_found, queries, ids_and_features,
             lines_of_a_script)
    for test in tests:
        test()
    print(f"{len(tests)} passed")


if __name__ == "__main__":
    main()
