"""The wallet's own database and peer code, without a network: what it takes, and how it synchronizes."""

from __future__ import annotations

import asyncio
from functools import partial
from types import SimpleNamespace

from electrum import channel_db, lnmsg, lnpeer, lnworker
from electrum.lnutil import InvalidGossipMsg, LnFeatures

PATIENCE = 3  # seconds for an answer that doesn't come


class Database(channel_db.ChannelDB):
    """The wallet's database, which keeps the messages that it would write."""

    def __init__(self, network):
        self.rows = {}
        super().__init__(network)

    def _db_save_channel(self, short_channel_id, msg):
        self.rows[bytes(short_channel_id)] = msg

    def _db_save_policy(self, key, msg):
        self.rows[bytes(key)] = msg

    def _db_save_node_info(self, node_id, msg):
        self.rows[bytes(node_id)] = msg

    def _db_save_node_addresses(self, node_addresses):
        pass


def decoded(message):
    """What the wallet's codec finds in a message, with its name and the bytes."""
    name, payload = lnmsg.decode_msg(message)
    payload["raw"] = message
    return name, payload


def is_right(verify, *arguments, **named):
    """Whether the wallet finds a signature right."""
    try:
        verify(*arguments, **named)
    except InvalidGossipMsg:
        return False
    return True


def verdict(database, message):
    """The SIG that the wallet gives a message, and whether that is the one that it takes."""
    name, payload = decoded(message)
    if name == "channel_announcement":
        right = is_right(database.verify_channel_announcement, payload)
        return ("all" if right else "not-all"), right
    if name == "node_announcement":
        right = is_right(database.verify_node_announcement, payload)
        return (payload["node_id"].hex() if right else "nobody"), right
    ends = database.get_endnodes_for_chan(payload["short_channel_id"]) or ()
    start = ends[payload["channel_flags"][0] & 1] if ends else None
    signer = next((end for end in ends if is_right(database.verify_channel_update, payload, start_node=end)), None)
    return (signer.hex() if signer else "nobody"), signer is not None and signer == start


def takes(database, message, is_signed):
    """Offers a message to the wallet's database; whether its rows change."""
    name, payload = decoded(message)
    before = dict(database.rows)
    if is_signed:
        {"channel_announcement": database.add_channel_announcements,
         "node_announcement": database.add_node_announcements,
         "channel_update": partial(database.add_channel_update, verify=False, verbose=False)}[name](payload)
    return database.rows != before


class Transport:
    """A connection to `answers`: what the wallet sends is asked, and what is answered comes back at once."""

    privkey = bytes(31) + b"\1"

    def __init__(self, answers):
        self._answers, self.peer, self.sent = answers, None, []

    def name(self):
        """For the wallet's log."""
        return "answers"

    def send_bytes(self, message):
        """Takes a message of the wallet's."""
        self.sent.append(message)
        for reply in self._answers.replies(message):
            self.peer.process_message(reply)


class Synchronizing:
    """The wallet's peer code, connected to answers."""

    def __init__(self, offline, answers, height):
        self._offline, self._height = offline, height
        self.transport = Transport(answers)
        self.peer = offline.run(self._made())
        self.transport.peer = self.peer

    async def _made(self):
        network = SimpleNamespace(asyncio_loop=self._offline.asyncio_loop, get_local_height=lambda: self._height,
                                  lngossip=None)
        worker = SimpleNamespace(network=network, features=LnFeatures(0), uses_trampoline=lambda: False,
                                 channels_for_peer=lambda _: {})
        peer = lnpeer.Peer(worker, b"\2" + bytes(32), self.transport)
        peer._sent_init = peer._received_init = True
        peer.initialized.set_result(True)
        peer.query_short_channel_ids = partial(peer.query_short_channel_ids, compressed=False)
        return peer

    def _within(self, coroutine):
        """What a coroutine of the wallet's returns, or None if it waits for more answers than there are."""
        async def limited():
            return await asyncio.wait_for(coroutine, PATIENCE)
        try:
            return self._offline.run(limited())
        except asyncio.TimeoutError:
            return None

    def ids(self):
        """The ids that the wallet has after its query of a range, or None."""
        found = self._within(self.peer.get_channel_range())
        return None if found is None else found[0]

    def messages(self, ids):
        """The gossip that the wallet has after its query of these ids, by name; None if no end came."""
        async def asked():
            await self.peer.get_short_channel_ids(ids)
            return True
        if not self._within(asked()):
            return None
        found = {"channel_announcement": [], "node_announcement": [], "channel_update": []}
        while not self.peer.gossip_queue.empty():
            name, payload = self.peer.gossip_queue.get_nowait()
            found[name].append(payload)
        return found

    def process(self, database, found):
        """Lets the wallet's gossip code verify and take messages, as it does between its queries."""
        async def no_ids(_):
            pass
        gossip = SimpleNamespace(channel_db=database, logger=database.logger, max_age=10**9, add_new_ids=no_ids)
        self._offline.run(lnworker.LNGossip.process_gossip(
            gossip, found["channel_announcement"], found["node_announcement"], found["channel_update"]))
