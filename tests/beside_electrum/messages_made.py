"""Messages of all eight kinds, made by the wallet's codec from random fields, and what damages them."""

from __future__ import annotations

import time

from electrum import constants, lnmsg

OTHER_CHAIN = b"\xc1" * 32
KINDS = (256, 257, 258, 261, 262, 263, 264, 265)
NOW = int(time.time()) - 3_600


def scid(drawn):
    """A random id, often of a low block so that two are the same now and then."""
    return drawn.choice((drawn.randbytes(8), bytes(5) + drawn.randbytes(1) + bytes(2)))


def chain(drawn):
    """The wallet's chain, or another one in one of eight."""
    return drawn.choice((constants.net.rev_genesis_bytes(),) * 7 + (OTHER_CHAIN,))


def point(drawn):
    """33 bytes of the form of a point, or not in one of sixteen."""
    return drawn.choice((b"\2", b"\3") * 8 + (b"\4", b"\0"))[:1] + drawn.randbytes(32)


def flags(drawn):
    """A byte of flags, mostly of the bits that have a meaning."""
    return drawn.choice((b"\0", b"\1", b"\2", b"\3", drawn.randbytes(1)))


def number(drawn, bits):
    """A number of so many bits, often at an end of its range."""
    return drawn.choice((0, 1, 2**bits - 1, drawn.getrandbits(bits), drawn.getrandbits(bits // 2)))


def channel_announcement(drawn):
    """Type 256."""
    nodes = [point(drawn), point(drawn)]
    if drawn.randrange(8):
        nodes.sort()
    features = drawn.randbytes(drawn.choice((0, 0, 1, 2, 9)))
    return lnmsg.encode_msg(
        "channel_announcement", len=len(features), features=features, chain_hash=chain(drawn),
        short_channel_id=scid(drawn), node_id_1=nodes[0], node_id_2=nodes[1], bitcoin_key_1=point(drawn),
        bitcoin_key_2=point(drawn), node_signature_1=drawn.randbytes(64))


def node_announcement(drawn):
    """Type 257."""
    features, addresses = drawn.randbytes(drawn.choice((0, 2, 9))), drawn.randbytes(drawn.choice((0, 7, 40)))
    return lnmsg.encode_msg(
        "node_announcement", signature=drawn.randbytes(64), flen=len(features), features=features,
        timestamp=number(drawn, 32), node_id=point(drawn), rgb_color=drawn.randbytes(3), alias=drawn.randbytes(32),
        addrlen=len(addresses), addresses=addresses)


def channel_update(drawn):
    """Type 258."""
    return lnmsg.encode_msg(
        "channel_update", signature=drawn.randbytes(64), chain_hash=chain(drawn), short_channel_id=scid(drawn),
        timestamp=number(drawn, 32), message_flags=flags(drawn), channel_flags=flags(drawn),
        cltv_expiry_delta=number(drawn, 16), htlc_minimum_msat=number(drawn, 64), fee_base_msat=number(drawn, 32),
        fee_proportional_millionths=number(drawn, 32), htlc_maximum_msat=number(drawn, 64))


def encoded_ids(drawn):
    """Encoded ids, mostly well: their number, and the bytes."""
    count = drawn.choice((0, 1, 2, 30))
    whole = b"".join(drawn.randbytes(8) for _ in range(count))
    good = b"\0" + whole
    return count, drawn.choice((good,) * 6 + (b"", b"\1" + whole, whole, good[:-1]))


def bigsize(value):
    """The shortest BigSize of a number."""
    return lnmsg.write_bigsize_int(value)


def query_short_channel_ids(drawn):
    """Type 261."""
    count, encoded = encoded_ids(drawn)
    tlvs = {}
    if drawn.randrange(2):
        asked = b"".join(bigsize(drawn.choice((1, 31, 0, 0xfd, 2**33))) for _ in range(count))
        tlvs = {"query_flags": {"encoding_type": drawn.choice((0, 0, 0, 1)),
                                "encoded_query_flags": drawn.choice((asked, asked, asked, asked + b"\1", asked[1:]))}}
    return lnmsg.encode_msg("query_short_channel_ids", chain_hash=chain(drawn), len=len(encoded),
                            encoded_short_ids=encoded, query_short_channel_ids_tlvs=tlvs)


def reply_short_channel_ids_end(drawn):
    """Type 262."""
    return lnmsg.encode_msg("reply_short_channel_ids_end", chain_hash=chain(drawn), complete=drawn.randbytes(1))


def query_channel_range(drawn):
    """Type 263."""
    tlvs = {"query_option": {"query_option_flags": drawn.choice((0, 1, 2, 3, 0xfd, 2**40))}} if drawn.randrange(2) else {}
    return lnmsg.encode_msg(
        "query_channel_range", chain_hash=chain(drawn), first_blocknum=number(drawn, 32),
        number_of_blocks=number(drawn, 32), query_channel_range_tlvs=tlvs)


def reply_channel_range(drawn):
    """Type 264."""
    count, encoded = encoded_ids(drawn)
    tlvs = {}
    if drawn.randrange(2):
        times = drawn.randbytes(8 * count)
        tlvs["timestamps_tlv"] = {"encoding_type": drawn.choice((0, 0, 0, 1)),
                                  "encoded_timestamps": drawn.choice((times, times, times, times + b"\1", times[1:]))}
    if drawn.randrange(2):
        tlvs["checksums_tlv"] = {"checksums": drawn.randbytes(drawn.choice((0, 3, 8 * count)))}
    return lnmsg.encode_msg(
        "reply_channel_range", chain_hash=chain(drawn), first_blocknum=number(drawn, 32),
        number_of_blocks=number(drawn, 32), complete=drawn.randbytes(1), len=len(encoded), encoded_short_ids=encoded,
        reply_channel_range_tlvs=tlvs)


def gossip_timestamp_filter(drawn):
    """Type 265."""
    return lnmsg.encode_msg("gossip_timestamp_filter", chain_hash=chain(drawn), first_timestamp=number(drawn, 32),
                            timestamp_range=number(drawn, 32))


MAKERS = dict(zip(KINDS, (channel_announcement, node_announcement, channel_update, query_short_channel_ids,
                          reply_short_channel_ids_end, query_channel_range, reply_channel_range,
                          gossip_timestamp_filter)))


def tlv_record(drawn):
    """A record, mostly of an unknown odd type and well formed."""
    kind = drawn.choice((bigsize(drawn.choice((5, 7, 9, 0xff, 2**32 + 1))), b"\1", b"\4", b"\xfd\0\5", b"\xfe"))
    value = drawn.randbytes(drawn.choice((0, 1, 9)))
    length = drawn.choice((bigsize(len(value)),) * 6 + (b"\xfd\0" + bytes([len(value)]), b"\xff" * 9, b"\xfe\0"))
    return kind + length + value


def damaged(drawn, message):
    """A message with one fault, or what may be one."""
    what = drawn.randrange(8)
    place = drawn.randrange(len(message))
    if what == 0:
        return message[:place]
    if what == 1:
        return message[:-drawn.randrange(1, 12)]
    if what == 2:
        return message + drawn.randbytes(drawn.randrange(1, 12))
    if what == 3:
        return message + b"".join(tlv_record(drawn) for _ in range(drawn.randrange(1, 4)))
    if what == 4:
        near = drawn.choice(KINDS) + drawn.choice((-1, 0, 1))
        return drawn.choice((drawn.randbytes(2), near.to_bytes(2, "big"))) + message[2:]
    if what == 5 and drawn.randrange(8) == 0:  # the most bytes of a message, or one more
        return message + bytes(max(0, drawn.choice((65_535, 65_536)) - len(message)))
    changed = bytearray(message)
    changed[place] = drawn.choice((changed[place] ^ 1 << drawn.randrange(8), 0, 1, 0xff))
    return bytes(changed)


def messages(drawn, count):
    """So many messages, a third of them as they were made."""
    for _ in range(count):
        message = MAKERS[drawn.choice(KINDS)](drawn)
        for _ in range(drawn.randrange(3)):
            message = damaged(drawn, message) if message else message
        yield message
