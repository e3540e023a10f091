"""Messages of all eight kinds, decoded by both: whether they are taken, and what they say.

The program answers `m` with the first thing that is wrong, so its words tell the chain, points, their order and flags
that it found; `q` and `filter` over an empty map tell the chain and the range of blocks. What it ought to say is worked
out from the fields that the wallet's codec finds. KNOWN lists where the codec takes what BOLT 1 and BOLT 7 don't.
"""

from __future__ import annotations

import io
from collections import Counter

from electrum import constants, lnmsg

from messages_made import KINDS, messages
from program import Difference, expect

BATCH = 500
MOST_BYTES = 65_535
TAKEN, MALFORMED, UNKNOWN_EVEN, IGNORED = "taken", "malformed", "unknown-even", "ignored"
WELL_FORMED = ("chain", "point", "node-order", "private", "funding", "signature", "not-gossip")


def by_wallet(message):
    """How the wallet's codec takes a message, and its fields."""
    if len(message) < 2:
        return MALFORMED, None  # the codec has this as its precondition
    try:
        return TAKEN, lnmsg.decode_msg(message)[1]
    except lnmsg.UnknownMandatoryMsgType:
        return UNKNOWN_EVEN, None
    except lnmsg.UnknownOptionalMsgType:
        return IGNORED, None
    except (lnmsg.FailedToParseMsg, OverflowError):  # a record's length above that of any bytes is not caught there
        return MALFORMED, None


def kind_of(message):
    """The type of a message."""
    return int.from_bytes(message[:2], "big")


def count_of_ids(fields):
    """How many ids are encoded as BOLT 7 has it: none in no bytes, or eight bytes each behind a byte 0. Else None."""
    encoded = fields["encoded_short_ids"]
    if not encoded:
        return 0
    return None if encoded[0] or len(encoded) % 8 != 1 else len(encoded) // 8


def count_of_flags(encoded):
    """How many numbers these bytes spell, or None."""
    reader, count = io.BytesIO(encoded), 0
    try:
        while lnmsg.read_bigsize_int(reader) is not None:
            count += 1
    except lnmsg.FailedToParseMsg:
        return None
    return count


def has_other_flags(fields):
    """Whether a query has flags that aren't one number for each id, behind a byte 0."""
    record = fields["query_short_channel_ids_tlvs"].get("query_flags")
    return record and (record["encoding_type"] != 0
                       or count_of_flags(record["encoded_query_flags"]) != count_of_ids(fields))


def has_other_timestamps(fields):
    """Whether a reply has timestamps that aren't eight bytes for each id, behind a byte 0."""
    record = fields["reply_channel_range_tlvs"].get("timestamps_tlv")
    return record and (record["encoding_type"] != 0 or len(record["encoded_timestamps"]) != 8 * count_of_ids(fields))


def differs_in_type(kind, message, _):
    """Whether a message is of a type that the wallet knows, and that isn't gossip."""
    return kind not in KINDS and len(message) >= 2 and by_wallet(message)[0] in (TAKEN, MALFORMED)


# What the wallet's codec takes, and the BOLTs don't, or otherwise: a name, the program's word if it is always the same,
# and whether it applies to a message of this type with these fields, if there are any.
KNOWN = (
    ("more than 65,535 bytes (BOLT 1)", MALFORMED, lambda kind, message, fields: len(message) > MOST_BYTES),
    ("a type that isn't gossip, of which a map knows nothing", None, differs_in_type),
    ("an update without htlc_maximum_msat (BOLT 7)", MALFORMED,
     lambda kind, message, fields: kind == 258 and fields and "htlc_maximum_msat" not in fields),
    ("ids of another encoding, or cut off, in 261 or 264 (BOLT 7)", MALFORMED,
     lambda kind, message, fields: kind in (261, 264) and fields and count_of_ids(fields) is None),
    ("flags that aren't one for each id, in 261 (BOLT 7)", MALFORMED,
     lambda kind, message, fields: kind == 261 and fields and has_other_flags(fields)),
    ("timestamps that aren't two for each id, in 264 (BOLT 7)", MALFORMED,
     lambda kind, message, fields: kind == 264 and fields and has_other_timestamps(fields)))


def known(message, fields):
    """The first known difference that applies to a message, and the program's word for it."""
    kind = kind_of(message)
    for name, word, applies in KNOWN:
        if applies(kind, message, fields):
            return name, word or (IGNORED if kind % 2 else UNKNOWN_EVEN)
    return None, None


def is_point(octets):
    """Whether bytes have the form of a point."""
    return octets[0] in (2, 3)


def objection(kind, fields):
    """The program's word for an item with this content, signed by nobody and not looked up."""
    if kind > 258:
        return "not-gossip"
    if kind != 257 and fields["chain_hash"] != constants.net.rev_genesis_bytes():
        return "chain"
    if kind == 256:
        nodes = fields["node_id_1"], fields["node_id_2"]
        if not all(map(is_point, (*nodes, fields["bitcoin_key_1"], fields["bitcoin_key_2"]))):
            return "point"
        return "funding" if nodes[0] < nodes[1] else "node-order"
    if kind == 257 and not is_point(fields["node_id"]):
        return "point"
    return "private" if kind == 258 and fields["message_flags"][0] & 2 else "signature"


def expect_reply(kind, fields, answer):
    """Looks at the answer to a query or a filter over an empty map."""
    chain = fields["chain_hash"]
    is_ours = chain == constants.net.rev_genesis_bytes()
    if kind == 265:
        expect(answer == ["filter" if is_ours else "chain"], "a filter", answer, fields)
        return
    expect(len(answer) == 1, "the number of replies", answer)
    how, reply = by_wallet(bytes.fromhex(answer[0]))
    expect(how == TAKEN and reply["chain_hash"] == chain, "a reply's chain", answer, fields)
    if kind == 261:
        expect(answer[0][:4] == "0106" and reply["complete"] == bytes([is_ours]), "full_information", answer, fields)
        return
    wanted = fields["first_blocknum"], max(1, fields["number_of_blocks"]), b"\1"
    found = reply["first_blocknum"], reply["number_of_blocks"], reply["complete"]
    expect(answer[0][:4] == "0108" and found == wanted and count_of_ids(reply) == 0, "a range", answer, fields)


def check(answers, drawn, count):
    """Decodes so many messages by both. How many both took, refused, and differ in a known way."""
    told, waiting = Counter(), []
    for message in messages(drawn, count):
        waiting.append(message)
        if len(waiting) == BATCH:
            told += compared(answers, waiting)
            waiting = []
    return told + compared(answers, waiting)


def compared(answers, batch):
    """Looks at the answers for some messages."""
    batch = [message for message in batch if message]
    told = Counter()
    words = answers.ask([f"m {message.hex()} nobody -" for message in batch])
    queries = []
    for message, [word] in zip(batch, words):
        how, fields = by_wallet(message)
        name, other = known(message, fields)
        wanted = other or (objection(kind_of(message), fields) if how == TAKEN else how)
        if word != wanted:
            raise Difference(f"{word!r} where the wallet's fields make it {wanted!r}: {message.hex():.400} {fields}")
        told[name or how] += 1
        if not name and how == TAKEN and kind_of(message) in (261, 263, 265):
            queries.append((message, fields))
    lines = [f"{'filter 0' if kind_of(message) == 265 else 'q'} {message.hex()}" for message, _ in queries]
    for (message, fields), answer in zip(queries, answers.ask(lines)):
        expect_reply(kind_of(message), fields, answer)
    return told
