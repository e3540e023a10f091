"""Another way to a payment's route, for tests alone: channels that aren't announced are put into the map by messages that
are made for them, and directions that are to be left out are closed and announced again without their update.

    with ForgingPayment(routes, chain) as payment:
        payment.add(lgm.Edge(scid, start, end))
        route = payment.route(payer, payee, msat, expiry, secret)
        payment.take_out(scid, start)
        route = payment.route(payer, payee, msat, expiry, secret)

Peers would take both for news, and an id that is in the map can't be added. It serves as a second opinion: where the map
lacks an id, this has to find the route that `lgm.Map.route` finds over the same edges and limits of 0.
"""

from __future__ import annotations

import lgm
from electrum.lnmsg import encode_msg

from route_map import ALL_THERE_IS

BITCOIN_KEY = b"\2" + bytes(32)  # a placeholder


class ForgingPayment:
    """Changes of a `RouteMap` that last for one payment."""

    def __init__(self, routes, chain):
        self._routes, self._chain = routes, chain
        self._added = []  # ids
        self._updates = {}  # what was taken out, by id and node

    def __enter__(self):
        return self

    def __exit__(self, *_):
        for (_, start), message in self._updates.items():
            self._routes.update(message, start)
        for scid in self._added:
            self._routes.close(scid)

    def add(self, edge):
        """Announces an edge's channel, with an update of that direction alone."""
        scid = edge.scid.to_bytes(8, "big")
        assert not self._routes.has(scid)
        nodes = sorted((edge.start, edge.end))
        common = {"chain_hash": self._chain, "short_channel_id": scid}
        self._routes.announce(encode_msg(
            "channel_announcement", len=0, features=b"", node_id_1=nodes[0], node_id_2=nodes[1], bitcoin_key_1=BITCOIN_KEY,
            bitcoin_key_2=BITCOIN_KEY, **common))
        self._routes.update(encode_msg(
            "channel_update", message_flags=b"\1", channel_flags=bytes([nodes.index(edge.start)]),
            cltv_expiry_delta=edge.cltv_expiry_delta, fee_base_msat=edge.fee_base_msat,
            fee_proportional_millionths=edge.fee_proportional_millionths, htlc_minimum_msat=edge.htlc_minimum_msat,
            htlc_maximum_msat=min(edge.htlc_maximum_msat, 1_000 * ALL_THERE_IS), **common), edge.start)
        self._added.append(scid)

    def route(self, *payment):
        """The route by which the payer sends the least, or None."""
        return self._routes.route(*payment)

    def take_out(self, scid, start):
        """Takes out the direction of a channel that starts at this node."""
        channel = self._routes.map.channel(scid)
        which = lgm.UPDATE_1 if start == channel.node_1 else lgm.UPDATE_2
        message = self._routes.map.message(scid, which)
        if scid.to_bytes(8, "big") not in self._added:
            self._updates[scid, start] = message
        self._routes.drop(scid.to_bytes(8, "big"), start)
