#!/usr/bin/env python3
"""Synchronizes a map with a peer whose messages are made and read by the wallet's codec (Electrum's lnmsg).

    LGM_LIBRARY=examples/out/liblgm.so python3 examples/electrum/test_synchronizing.py [--channels N] [--seed N]

The peer has a made network, and tells of it with timestamps and with checksums behind these. The codec reads what the map asks,
and the map what the codec writes; in the end nothing is lacking, and the map has all that the peer has. It continues in the
system's Python if that has Electrum's package. Without the package it is left out, with status 77.
"""

from __future__ import annotations

import argparse
import sys
from pathlib import Path

sys.dont_write_bytecode = True  # the repository gets no made files

import interpreter

if not interpreter.goes_on_with_electrum():
    print(f"left out: examples/electrum/test_synchronizing.py, {interpreter.WHY_NOT}")
    sys.exit(77)

TOP = Path(__file__).resolve().parents[2]
sys.path[1:1] = [str(TOP), str(TOP / "python")]

from electrum.lnmsg import decode_msg, encode_msg

import lgm
from gossip.messages import CHAIN
from gossip.peer import HONEST, Peer, funding

A_REPLY = 500  # ids
PLAIN = b"\0"  # the encoding


def replies(peer, query):
    """What the peer replies to a query of a range: all blocks, in pieces."""
    kind, asked = decode_msg(query)
    assert kind == "query_channel_range" and asked["query_channel_range_tlvs"] == {"query_option": {"query_option_flags": 1}}
    first, end = asked["first_blocknum"], asked["first_blocknum"] + asked["number_of_blocks"]
    ids = [scid for scid in peer.ids if first <= scid >> 40 < end]
    pieces = [ids[at:at + A_REPLY] for at in range(0, len(ids), A_REPLY)]
    for place, piece in enumerate(pieces):
        behind = end if place == len(pieces) - 1 else piece[-1] >> 40
        encoded = PLAIN + b"".join(scid.to_bytes(8, "big") for scid in piece)
        times = PLAIN + b"".join(time.to_bytes(4, "big") for scid in piece for time in peer.times(scid))
        yield encode_msg(
            "reply_channel_range", chain_hash=CHAIN, first_blocknum=first, number_of_blocks=behind - first, complete=behind == end,
            len=len(encoded), encoded_short_ids=encoded, reply_channel_range_tlvs={
                "timestamps_tlv": {"encoding_type": 0, "encoded_timestamps": times[1:]},
                "checksums_tlv": {"checksums": bytes(8 * len(piece))}})
        first = behind


def answers(peer, query):
    """The messages that the peer sends of the ids of a query, by its flags, and the end of them."""
    kind, asked = decode_msg(query)
    encoded = asked["encoded_short_ids"]
    flags = asked["query_short_channel_ids_tlvs"]["query_flags"]["encoded_query_flags"]
    ids = [int.from_bytes(encoded[at:at + 8], "big") for at in range(1, len(encoded), 8)]
    assert kind == "query_short_channel_ids" and ids == sorted(ids) and len(flags) == len(ids)
    for scid, flag in zip(ids, flags):
        yield from peer.told(scid, flag)
    yield encode_msg("reply_short_channel_ids_end", chain_hash=CHAIN, complete=1)


def taken(network, message):
    """Offers a message with the right verdicts."""
    key, read = network.wanted(message), lgm.reads(message)
    network.offer(message, key or lgm.ALL_FOUR, lgm.NOT_ASKED if key else funding(read.scid))


def synchronized(network, peer):
    """Asks the peer for all that the map lacks of it. How many channels something was lacking of."""
    lacking, covered = [], 0
    for reply in replies(peer, network.ask_range()):
        lacking += network.lacking(reply)
        covered = network.covered(reply, covered)
    assert covered == 2 ** 32 - 1
    for message in answers(peer, network.ask_ids(lacking)):
        if message[:2] != b"\1\6" and is_wanted(network, message):
            taken(network, message)
    return len(lacking)


def is_wanted(network, message):
    """Whether the map would take a message."""
    try:
        network.wanted(message)
    except lgm.Refused:
        return False
    return True


def main():
    """Synchronizes an empty map, one that has all, and one that lacks updates and some channels."""
    parser = argparse.ArgumentParser(description=__doc__, formatter_class=argparse.RawDescriptionHelpFormatter)
    parser.add_argument("--channels", type=int, default=2_000, help="of the network; 2,000 if left out")
    parser.add_argument("--seed", type=int, default=3, help="of the network; 3 if left out")
    options = parser.parse_args()
    peer = Peer(options.channels, options.seed, HONEST)
    with lgm.Map(CHAIN) as network, lgm.Map(CHAIN) as other:
        assert synchronized(network, peer) == len(peer.ids) == len(network) == options.channels
        assert synchronized(network, peer) == 0
        for place, scid in enumerate(peer.ids):  # of each third channel all is lacking, of another one the updates
            if place % 3:
                taken(other, network.message(scid))
                for direction, (_, update) in peer.updates[scid].items() if place % 3 == 1 else ():
                    taken(other, update)
        lacking = {scid for place, scid in enumerate(peer.ids) if place % 3 == 0 or place % 3 == 2 and peer.updates[scid]}
        assert synchronized(other, peer) == len(lacking)
        assert synchronized(other, peer) == 0
        assert all(other.channel(scid) == network.channel(scid) for scid in peer.ids)  # the 264s tell of no nodes
    name, asked = decode_msg(lgm.Map(CHAIN).ask_filter(5, 6))
    assert (name, asked) == ("gossip_timestamp_filter", {"chain_hash": CHAIN, "first_timestamp": 5, "timestamp_range": 6})
    print("test_synchronizing.py: passed")


if __name__ == "__main__":
    main()
