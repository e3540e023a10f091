"""The map of a wallet's public channels, which answers peers and payments.

    routes = RouteMap(chain)
    routes.announce(message, capacity_sat)
    routes.update(message, point)
    route = routes.route(payer, payee, msat, expiry, secret, edges=(), limits=(), silent=(), most_delay=None)
    replies = routes.map.query(message)          # of a peer

What only a payer knows, channels that aren't announced, route hints, balances and what failed, is passed with a payment and
never enters the map: so peers see none of it, and payments need no lock of their own. Any thread may use it.
"""

from __future__ import annotations

import threading

import top  # leads to lgm

import lgm

ALL_THERE_IS = 2_100_000_000_000_000  # satoshi: the capacity of a channel whose capacity isn't known
FEATURES = 2 + 4 * 64  # the place of the length of features in a channel_announcement


def number(scid):
    """A short_channel_id as the library has it."""
    return int.from_bytes(scid, "big")


class RouteMap:
    """The channels of one chain. `map` is the `lgm.Map` that has them."""

    def __init__(self, chain):
        self.map = lgm.Map(chain)
        self._lock = threading.RLock()  # of changes that take several calls

    def __len__(self):
        return len(self.map)

    def announce(self, message, capacity_sat=None):
        """Takes a channel. One whose id is there is left as it is: another one by this id would ban its nodes."""
        at = FEATURES + 2 + int.from_bytes(message[FEATURES:FEATURES + 2], "big") + 32
        with self._lock:
            if not self.has(message[at:at + 8]):
                self._offer(message, lgm.ALL_FOUR, ALL_THERE_IS if capacity_sat is None else capacity_sat)

    def update(self, message, point):
        """Takes an update that this node has signed, if it is newer."""
        self._offer(message, point)

    def node(self, message, point):
        """Takes a node's announcement, if it is newer."""
        self._offer(message, point)

    def _offer(self, message, sig, funding=lgm.NOT_ASKED):
        with self._lock:
            try:
                self.map.offer(message, sig, funding)
            except lgm.Refused:  # the map is as it was
                pass

    def has(self, scid):
        """Whether a channel is there."""
        try:
            self.map.channel(number(scid))
        except lgm.UnknownChannel:
            return False
        return True

    def close(self, scid):
        """Removes a channel, if it is there."""
        with self._lock:
            if self.has(scid):
                self.map.close_channel(number(scid))

    def drop(self, scid, start):
        """Removes the update of the direction that starts at this node, if it is there. No peer takes what stays for news."""
        with self._lock:
            if self.has(scid):
                kept = self._messages(number(scid), start)
                self.map.close_channel(number(scid))
                for message, *verdicts in kept:
                    self._offer(message, *verdicts)

    def _messages(self, scid, start):
        """A channel's messages, but for the update of this node, and those of its nodes, with their verdicts."""
        channel = self.map.channel(scid)
        found = [(self.map.message(scid), lgm.ALL_FOUR, channel.capacity_sat)]
        for which, terms, node in ((lgm.UPDATE_1, channel.from_1, channel.node_1),
                                   (lgm.UPDATE_2, channel.from_2, channel.node_2)):
            if terms and node != start:
                found.append((self.map.message(scid, which), node))
        for node in (channel.node_1, channel.node_2):
            try:
                found.append((self.map.node_message(node), node))
            except lgm.NotAnnounced:
                pass
        return found

    def route(self, *payment, **known):
        """The route by which the payer sends the least over what it knows (`lgm.Map.route`), or None."""
        try:
            return self.map.route(*payment, **known)
        except lgm.Unrouted:
            return None
