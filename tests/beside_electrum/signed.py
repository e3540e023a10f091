"""Networks whose messages are signed by real keys, with some that are signed wrongly."""

from __future__ import annotations

from typing import NamedTuple

from electrum import constants, ecc, lnmsg
from electrum.crypto import sha256d
from electrum.lnutil import LnFeatures

from messages_made import NOW

FEATURES = (LnFeatures.VAR_ONION_OPT | LnFeatures.PAYMENT_SECRET_OPT).to_bytes(2, "big")
STEP = 100  # seconds; the wallet takes an update only if it is newer by more than a minute
CAPACITY = 10_000_000  # satoshi, of each channel
SIGNED = 112  # a byte of cltv_expiry_delta in an update, and of the alias in a node's announcement


class Channel(NamedTuple):
    """A channel: its id, and the keys of its nodes in the order of their points."""

    scid: bytes
    keys: tuple


def keys(drawn, count):
    """So many private keys, in the order of their points."""
    made = (ecc.ECPrivkey((1 + drawn.getrandbits(250)).to_bytes(32, "big")) for _ in range(count))
    return sorted(made, key=point)


def point(key):
    """The point of a private key."""
    return key.get_public_key_bytes(compressed=True)


def signature(key, signed):
    """The signature of these bytes."""
    return key.sign(sha256d(signed))


def channel_announcement(channel, bitcoin_keys):
    """Type 256, signed by all four."""
    message = lnmsg.encode_msg(
        "channel_announcement", len=0, features=b"", chain_hash=constants.net.rev_genesis_bytes(),
        short_channel_id=channel.scid, node_id_1=point(channel.keys[0]), node_id_2=point(channel.keys[1]),
        bitcoin_key_1=point(bitcoin_keys[0]), bitcoin_key_2=point(bitcoin_keys[1]))
    signatures = (signature(key, message[258:]) for key in (*channel.keys, *bitcoin_keys))
    return message[:2] + b"".join(signatures) + message[258:]


def node_announcement(key, timestamp):
    """Type 257."""
    message = lnmsg.encode_msg("node_announcement", flen=2, features=FEATURES, timestamp=timestamp, node_id=point(key),
                               alias=b"node".ljust(32, b"\0"), addrlen=0, addresses=b"")
    return message[:2] + signature(key, message[66:]) + message[66:]


def channel_update(channel, direction, timestamp, terms):
    """Type 258, with terms that the wallet's codec names."""
    message = lnmsg.encode_msg(
        "channel_update", chain_hash=constants.net.rev_genesis_bytes(), short_channel_id=channel.scid,
        timestamp=timestamp, message_flags=b"\1", channel_flags=bytes([direction]), **terms)
    return message[:2] + signature(channel.keys[direction], message[66:]) + message[66:]


def terms(drawn):
    """Terms that any payment of the check can meet."""
    return {"cltv_expiry_delta": drawn.choice((6, 40, 80, 144)), "htlc_minimum_msat": drawn.choice((0, 1, 1_000)),
            "fee_base_msat": drawn.choice((0, 1, 1_000, drawn.randrange(5_000))),
            "fee_proportional_millionths": drawn.choice((0, 1, 100, drawn.randrange(5_000))),
            "htlc_maximum_msat": 1_000 * CAPACITY}


def pairs(drawn, owners, count):
    """The ends of so many channels, which connect all nodes where they suffice."""
    chain = list(owners)
    drawn.shuffle(chain)
    found = list(zip(chain, chain[1:]))[:count]
    while len(found) < count:
        found.append(tuple(drawn.sample(chain, 2)))
    return [tuple(sorted(pair, key=point)) for pair in found]


def channels(drawn, owners, count, blocks):
    """So many channels with different ids, between these nodes, in blocks of a range."""
    scids = set()
    while len(scids) < count:
        scids.add((drawn.choice(blocks) << 40 | drawn.randrange(1, 3_000) << 16).to_bytes(8, "big"))
    return [Channel(scid, pair) for scid, pair in zip(sorted(scids), pairs(drawn, owners, count))]


def network(drawn, nodes, count, blocks=range(600_000, 700_000)):
    """A network: its nodes' keys, its channels, and its messages, each once, channels first."""
    owners = keys(drawn, nodes)
    found, bitcoin_keys = channels(drawn, owners, count, blocks), keys(drawn, 2)
    made = [channel_announcement(channel, bitcoin_keys) for channel in found]
    for channel in found:
        made += [channel_update(channel, direction, NOW, terms(drawn)) for direction in (0, 1)]
    return owners, found, made + [node_announcement(key, NOW) for key in owners]


def gossip(drawn, nodes, count):
    """Messages in any order, as peers send them: some too early, some twice, some older, some signed wrongly."""
    owners, found, made = network(drawn, nodes, count)
    for channel in found:
        made += [channel_update(channel, drawn.randrange(2), NOW + STEP * drawn.randrange(-1, 2), terms(drawn))]
    made += [node_announcement(key, NOW + STEP * drawn.randrange(-1, 2)) for key in owners]
    made = [forged(drawn, message) if drawn.randrange(6) == 0 else message for message in made]
    again = drawn.sample(made, len(made) // 4)
    drawn.shuffle(made)
    return made + again


def forged(drawn, message):
    """A message with another bit in a signature, or in the delay of an update or the alias of a node."""
    is_channel = message[:2] == b"\1\0"
    place = drawn.randrange(2, 258) if is_channel else drawn.choice((drawn.randrange(2, 66), SIGNED))
    changed = bytearray(message)
    changed[place] ^= 1 << drawn.randrange(8)
    return bytes(changed)
