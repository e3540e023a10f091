"""Electrum's channel database without a wallet around it and without the network: for tests and measurements.

    with Offline(folder) as offline:
        database = offline.database(channel_db.ChannelDB)       # or another class, such as MappedChannelDB
        offline.fill(database, made_network(channels=500, seed=1))

Nothing is connected: the event loop, which the database wants for its tables, runs in a thread until the end.
"""

from __future__ import annotations

import asyncio
import time
from typing import NamedTuple

from electrum import constants, lnmsg, util
from electrum.lnutil import LnFeatures
from electrum.simple_config import SimpleConfig
from electrum.sql_db import sql

import top  # leads to gossip

from gossip.networks import Network

FEATURES = (LnFeatures.VAR_ONION_OPT | LnFeatures.PAYMENT_SECRET_OPT).to_bytes(2, "big")
HOUR, DAY = 3_600, 86_400  # seconds
BITCOIN_KEY = b"\2" + bytes(31) + b"\1"
PATIENCE = 60  # seconds


class Messages(NamedTuple):
    """A network's messages: channels with their capacities in satoshi, updates and nodes with who signed them."""

    channels: list
    updates: list
    nodes: list


@sql
def nothing(database):
    """Waits in a database's queue, and does nothing."""


class Offline:
    """An event loop, and what a database asks of a wallet's network."""

    def __init__(self, folder):
        self.config = SimpleConfig({"electrum_path": str(folder), "use_gossip": True})
        self.lngossip = self.interface = None
        self._databases = []

    def __enter__(self):
        self.asyncio_loop, self._stopping, self._thread = util.create_and_start_event_loop()
        return self

    def __exit__(self, *_):
        for database in list(self._databases):
            self.stop(database)
        self.asyncio_loop.call_soon_threadsafe(self._stopping.set_result, 1)
        self._thread.join(PATIENCE)

    def run(self, coroutine):
        """What a coroutine returns, which runs in the event loop."""
        return asyncio.run_coroutine_threadsafe(coroutine, self.asyncio_loop).result(PATIENCE)

    def database(self, kind):
        """A database of this class, with what the folder has."""
        async def made():
            return kind(self)

        database = self.adopt(self.run(made()))
        database.load_data()
        self.run(database.data_loaded.wait())
        return database

    def adopt(self, database):
        """The database, which is ended at the end."""
        self._databases.append(database)
        return database

    def stop(self, database):
        """Ends a database, when all that waits for it is written to its folder."""
        async def written():
            await nothing(database)

        self.run(written())
        self._databases.remove(database)
        database.stop()
        self.run(database.stopped_event.wait())

    @staticmethod
    def fill(database, messages):
        """Gives messages to a database as if their signatures had been found right."""
        for message, capacity in messages.channels:
            database.add_verified_channel_info(decoded(message), capacity_sat=capacity)
        for message, _ in messages.updates:
            database.add_channel_update(decoded(message), verify=False, verbose=False)
        database.add_node_announcements([decoded(message) for message, _ in messages.nodes])

    def get_local_height(self):
        """The height of the chain, which nobody looked at."""
        return 0


def decoded(message):
    """What the wallet's codec finds in a message, with the bytes."""
    _, payload = lnmsg.decode_msg(message)
    payload["raw"] = message
    return payload


def made_network(channels, seed):
    """Messages of a network as bench/README.md describes them, on the wallet's chain, with placeholders for signatures.
    Each node has an announcement with the features that a payment needs."""
    made = Network(channels, seed)
    now, chain = int(time.time()) - HOUR, constants.net.rev_genesis_bytes()
    found = Messages([], [], [])
    for channel in made.channels:
        common = {"chain_hash": chain, "short_channel_id": channel.scid}
        found.channels.append((lnmsg.encode_msg(
            "channel_announcement", len=0, features=b"", node_id_1=channel.nodes[0], node_id_2=channel.nodes[1],
            bitcoin_key_1=BITCOIN_KEY, bitcoin_key_2=BITCOIN_KEY, **common), channel.capacity))
        for direction in made.directions():
            delta, minimum, base, millionths, maximum = made.terms(channel.capacity)
            message = lnmsg.encode_msg(
                "channel_update", timestamp=now - made.random.randrange(DAY), message_flags=b"\1",
                channel_flags=bytes([made.channel_flags(direction)]), cltv_expiry_delta=delta,
                htlc_minimum_msat=minimum, fee_base_msat=base, fee_proportional_millionths=millionths,
                htlc_maximum_msat=maximum, **common)
            found.updates.append((message, channel.nodes[direction]))
    for point in sorted({point for channel in made.channels for point in channel.nodes}):
        found.nodes.append((lnmsg.encode_msg(
            "node_announcement", flen=len(FEATURES), features=FEATURES, timestamp=now - made.random.randrange(DAY),
            node_id=point, alias=made.alias(point).ljust(32, b"\0"), addrlen=0), point))
    return found
