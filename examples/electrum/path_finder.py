"""Electrum's path finder over the library for C: the same calls and types, and the route that sends the least.

    import path_finder
    path_finder.install()       # before the wallet begins to synchronize gossip: its `Network` then uses both classes

    database = path_finder.MappedChannelDB(network)       # or by hand, in place of channel_db.ChannelDB
    finder = path_finder.PathFinder(database)             # and of lnrouter.LNPathFinder
    route = finder.find_route(nodeA=payer, nodeB=payee, invoice_amount_msat=1_000_000)

`MappedChannelDB` keeps a map beside the wallet's tables: each row that the wallet writes, reads at its start or deletes
is stored in the map too. So what the wallet has checked is what the map knows, and what peers ask it for. `PathFinder`
answers from the map. With each payment it passes what only the wallet knows: its own channels, an invoice's route hints,
the channels on its list of failures, and what others couldn't send (`update_liquidity_hints`). What the wallet wouldn't use
it doesn't use either: it asks the wallet's cost function (`_edge_cost`) about each hop, leaves the directions out that cost
infinitely much, and searches again. Such a direction is left out for the whole payment, though it might do for another
amount.

It is written for Electrum 4.3.4 (python3-electrum), and needs the library: see the package `lgm` in `python`.
"""

from __future__ import annotations

from math import inf

from electrum import channel_db, constants, lnrouter
from electrum.lnutil import LOCAL, NBLOCK_CLTV_EXPIRY_TOO_FAR_INTO_FUTURE, ShortChannelID
from electrum.sql_db import sql

from route_map import RouteMap, lgm, number

NO_SECRET = bytes(32)  # where only the path is asked for
PAYEES_BLOCKS = 1_008  # of the wallet's limit of blocks, what is left to the payee's own delay
MOST_BLOCKS = NBLOCK_CLTV_EXPIRY_TOO_FAR_INTO_FUTURE - PAYEES_BLOCKS


class MappedChannelDB(channel_db.ChannelDB):
    """The wallet's database of channels, and `routes`, a map of them."""

    def __init__(self, network):
        self.routes = RouteMap(constants.net.rev_genesis_bytes())
        super().__init__(network)

    def load_data(self):
        """Reads the tables, for the map first, so that it is complete when the wallet says that data is loaded."""
        self._load_routes()
        return super().load_data()

    @sql
    def _load_routes(self):
        cursor = self.conn.cursor()
        for _, message in cursor.execute("SELECT short_channel_id, msg FROM channel_info"):
            self.routes.announce(message)
        for key, message in cursor.execute("SELECT key, msg FROM policy"):
            self.routes.update(message, key[8:])
        for point, message in cursor.execute("SELECT node_id, msg FROM node_info"):
            self.routes.node(message, point)

    def _db_save_channel(self, short_channel_id, msg):
        self.routes.announce(msg, self._channels[short_channel_id].capacity_sat)
        return super()._db_save_channel(short_channel_id, msg)

    def _db_save_policy(self, key, msg):
        self.routes.update(msg, key[8:])
        return super()._db_save_policy(key, msg)

    def _db_save_node_info(self, node_id, msg):
        self.routes.node(msg, node_id)
        return super()._db_save_node_info(node_id, msg)

    def _db_delete_policy(self, node_id, short_channel_id):
        self.routes.drop(short_channel_id, node_id)
        return super()._db_delete_policy(node_id, short_channel_id)

    def _db_delete_channel(self, short_channel_id):
        self.routes.close(short_channel_id)
        return super()._db_delete_channel(short_channel_id)


class PathFinder(lnrouter.LNPathFinder):
    """The wallet's path finder, with paths from the map of a `MappedChannelDB`."""

    def find_path_for_payment(self, *, nodeA, nodeB, invoice_amount_msat, my_sending_channels=None,
                              private_route_edges=None):
        """The path by which nodeA sends the least, or None. A circular one is the wallet's own."""
        if nodeA == nodeB:
            return super().find_path_for_payment(
                nodeA=nodeA, nodeB=nodeB, invoice_amount_msat=invoice_amount_msat,
                my_sending_channels=my_sending_channels, private_route_edges=private_route_edges)
        route = self.find_payment(nodeA=nodeA, nodeB=nodeB, invoice_amount_msat=invoice_amount_msat, final_cltv=0,
                                  payment_secret=NO_SECRET, my_sending_channels=my_sending_channels,
                                  private_route_edges=private_route_edges)
        return route and [lnrouter.PathEdge(start_node=hop.start, end_node=hop.end, short_channel_id=scid_of(hop))
                          for hop in route.hops]

    def find_payment(self, *, nodeA, nodeB, invoice_amount_msat, final_cltv, payment_secret,
                     my_sending_channels=None, private_route_edges=None):
        """The route as the library has it, with amounts, expiries and payloads of the hops; or None."""
        own, hints = my_sending_channels or {}, self.usable(private_route_edges, my_sending_channels)
        payment = nodeA, nodeB, invoice_amount_msat, final_cltv, payment_secret
        known = self.known(nodeA, my_sending_channels, hints)
        while True:
            route = self._route(payment, known)
            unwanted = self._unwanted(route.hops, own, hints) if route else []
            if not unwanted:
                return route
            known["limits"] += unwanted

    def find_route(self, *, my_sending_channels=None, private_route_edges=None, **asked):
        """The wallet's own, without the hints that aren't used."""
        return super().find_route(my_sending_channels=my_sending_channels, **asked,
                                  private_route_edges=self.usable(private_route_edges, my_sending_channels))

    def usable(self, hints, own):
        """The route hints that are neither of a public channel nor of an own one, whatever they say of it: whoever wrote the
        invoice chose the ids, and the wallet would take the hint's terms for those of the channel."""
        return {scid: edge for scid, edge in (hints or {}).items()
                if not self.channel_db.get_endnodes_for_chan(scid, my_channels=own)}

    def known(self, payer, own, hints):
        """What only the wallet knows, as `lgm.Map.route` takes it. Where it has a list of its own channels (`own` isn't
        None), no other ones of the payer's are used."""
        ends = {**{scid: (edge.start_node, edge.end_node) for scid, edge in hints.items()},
                **{scid: (payer, channel.node_id) for scid, channel in (own or {}).items()}}
        return {"edges": own_channels(payer, own or {}) + hinted_channels(hints), "limits": self._failures(ends, own or {}),
                "silent": [] if own is None else [payer], "most_delay": MOST_BLOCKS}

    def _failures(self, ends, own):
        """Limits of 0 for what the wallet has on its list of failures, and of what directions of other channels than its own
        couldn't send."""
        hints, limits = self.liquidity_hints, []
        listed = hints.get_blacklist()
        with hints.lock:
            found = list(hints._liquidity_hints.items())
        for scid, hint in found:
            nodes = ends.get(scid) or self.channel_db.get_endnodes_for_chan(scid) or ()
            for start, end in (nodes, nodes[::-1]) if nodes else ():
                cannot_send = 1 if scid in listed else None if scid in own else hint.cannot_send(start < end)
                if cannot_send is not None:
                    limits.append(lgm.Limit(number(scid), start, max(cannot_send - 1, 0)))
        return limits

    def _route(self, payment, known):
        """The best route within the wallet's limit of blocks. Where there is too much to search for that, it is the best one so
        far; where none was found, channels that take long are left out."""
        while True:
            try:
                return self.channel_db.routes.route(*payment, **known)
            except lgm.Undecided:
                hops = self.channel_db.routes.route(*payment, **{**known, "most_delay": None}).hops
                _, slowest = max(zip((before.expiry - hop.expiry for before, hop in zip(hops, hops[1:])), hops[1:]),
                                 key=lambda pair: pair[0])
                known["limits"].append(lgm.Limit(slowest.scid, slowest.start))

    def _unwanted(self, hops, own, hints):
        """Limits for the hops of a route that the wallet wouldn't use."""
        payer, found = hops[0].start, []
        for hop in hops:
            scid = scid_of(hop)
            is_mine = scid in own
            if is_mine and hop.start == payer and not own[scid].can_pay(hop.amount_msat, check_frozen=True):
                found.append(lgm.Limit(hop.scid, hop.start, hop.amount_msat - 1))
            elif self._edge_cost(
                    short_channel_id=scid, start_node=hop.start, end_node=hop.end, payment_amt_msat=hop.amount_msat,
                    ignore_costs=hop.start == payer, is_mine=is_mine, my_channels=own, private_route_edges=hints)[0] == inf:
                found.append(lgm.Limit(hop.scid, hop.start))
        return found


def scid_of(hop):
    """A hop's short_channel_id as the wallet has it."""
    return ShortChannelID(hop.scid.to_bytes(8, "big"))


def own_channels(payer, own):
    """The payer's own channels, which charge nothing, with what they can send."""
    return [lgm.Edge(number(scid), payer, channel.node_id, htlc_maximum_msat=max(0, channel.available_to_spend(LOCAL)))
            for scid, channel in own.items()]


def hinted_channels(hints):
    """The channels of an invoice's route hints."""
    return [lgm.Edge(number(scid), edge.start_node, edge.end_node, edge.fee_base_msat, edge.fee_proportional_millionths,
                     edge.cltv_expiry_delta) for scid, edge in hints.items()]


def install():
    """Lets the wallet's `Network` make a `MappedChannelDB` and a `PathFinder` where it makes its own."""
    channel_db.ChannelDB, lnrouter.LNPathFinder = MappedChannelDB, PathFinder
