"""Gossip signed with real keys, judged by the wallet, that comes back byte for byte, also through filters; and ranges by
which the wallet synchronizes."""

from __future__ import annotations

from electrum import constants, lnmsg

import signed
from program import expect
from messages_made import NOW
from wallet import Database, Synchronizing, decoded, takes, verdict

NODES, CHANNELS = 12, 25
BLOCKS = range(498_000, 498_090)  # few, so that replies begin in the middle of a block
HEIGHT = 498_080
IDS_A_QUERY = 500
FILTERS = 10
FIRSTS = 0, NOW - signed.STEP, NOW, NOW + 1, NOW + signed.STEP
SPANS = 0, 1, signed.STEP, signed.STEP + 1, 2**32 - 1


def check_gossip(answers, drawn, offline):
    """One network's gossip, offered to both. How many messages both took, and refused."""
    database = offline.database(Database)
    taken = refused = 0
    for message in signed.gossip(drawn, NODES, CHANNELS):
        sig, is_signed = verdict(database, message)
        [[word]] = answers.ask([f"m {message.hex()} {sig} {signed.CAPACITY}"])
        is_taken = takes(database, message, is_signed)
        expect((word == "accepted") == is_taken, "an item", word, is_taken, sig, message.hex())
        taken, refused = taken + is_taken, refused + (not is_taken)
    answers.ask(["commit"])
    synchronized = Synchronizing(offline, answers, 800_000)
    found = synchronized.messages(sorted(key for key in database.rows if len(key) == 8))
    expect(found is not None, "no end of a reply came")
    raw = sorted(payload["raw"] for payloads in found.values() for payload in payloads)
    expect(raw == sorted(database.rows.values()), "what comes back", len(raw), len(database.rows))
    other = offline.database(Database)
    synchronized.process(other, found)
    expect(other.rows == database.rows, "what the wallet takes from it", len(other.rows), len(database.rows))
    for _ in range(FILTERS):
        check_filter(answers, database, drawn.choice(FIRSTS), drawn.choice(SPANS))
    for one in (database, other):
        offline.stop(one)
    return taken, refused


def check_filter(answers, database, first, span):
    """The backlog of a filter has the messages whose timestamps are in its range, by the wallet's codec, and the
    announcements of channels with such an update."""
    wanted = set()
    for row in database.rows.values():
        name, fields = decoded(row)
        if name != "channel_announcement" and first <= fields["timestamp"] < first + span:
            wanted.add(row)
            if name == "channel_update":
                wanted.add(database.rows[bytes(fields["short_channel_id"])])
    message = lnmsg.encode_msg("gossip_timestamp_filter", chain_hash=constants.net.rev_genesis_bytes(),
                               first_timestamp=first, timestamp_range=span)
    [[word, *backlog]] = answers.ask([f"filter 0 {message.hex()}"])
    found = [f"to 0 {row.hex()}" for row in wanted]
    expect(word == "filter" and sorted(backlog) == sorted(found), "a filter", first, span, len(backlog), len(found))


def channel_without_signatures(drawn, scid):
    """The announcement of a channel, which the caller says is signed."""
    nodes = sorted(b"\2" + drawn.randbytes(32) for _ in range(2))
    return lnmsg.encode_msg(
        "channel_announcement", len=0, features=b"", chain_hash=constants.net.rev_genesis_bytes(),
        short_channel_id=scid, node_id_1=nodes[0], node_id_2=nodes[1], bitcoin_key_1=nodes[0], bitcoin_key_2=nodes[1])


def check_range(answers, drawn, offline, count):
    """So many channels, of which the wallet asks for those below its height. How many, and in how many replies."""
    scids = set()
    while len(scids) < count:
        scids.add((drawn.choice(BLOCKS) << 40 | drawn.randrange(1, 3_000) << 16 | drawn.randrange(2)).to_bytes(8, "big"))
    announced = {scid: channel_without_signatures(drawn, scid) for scid in sorted(scids)}
    outcomes = answers.ask([f"m {message.hex()} all 1000" for message in announced.values()])
    expect(outcomes == [["accepted"]] * count, "announcements", [word for word in outcomes if word != ["accepted"]][:3])
    answers.ask(["commit"])
    synchronized = Synchronizing(offline, answers, HEIGHT)
    wanted = {scid for scid in announced if int.from_bytes(scid[:3], "big") < HEIGHT}
    found = synchronized.ids()
    expect(found is not None, "the wallet waits for more replies to its range")
    expect(set(map(bytes, found)) == wanted, "the ids of a range", len(found), len(wanted), len(set(found) ^ wanted))
    some = drawn.sample(sorted(wanted), min(IDS_A_QUERY, len(wanted)))
    messages = synchronized.messages(some)
    expect(messages is not None, "no end of a reply came")
    raw = {payload["raw"] for payload in messages["channel_announcement"]}
    expect(raw == {announced[scid] for scid in some}, "the announcements of ids", len(raw))
    [range_query, *_] = synchronized.transport.sent
    return len(wanted), len(answers.replies(range_query))
