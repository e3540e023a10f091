#!/usr/bin/env python3
"""Tests path_finder.py against the wallet's own code, on synthetic networks of 20, 200 and 2,000 nodes.

    LGM_LIBRARY=examples/out/liblgm.so python3 examples/electrum/test_path_finder.py [--payments N] [--seed N]

The map has what the wallet's database has, field by field. Of each payment: the wallet accepts the path that is found,
builds the same payloads, and finds no path by itself over which the payer sends less. So it is over 20 more networks for a
wallet without public channels and invoices with route hints, also when a payment is tried again without what failed, and no
peer sees anything of it; and there the route is that of second_opinion.py. Then, by routes that are worked out here: the map
follows the wallet's database, and payments take its own channels, route hints and failures into account. It continues in
the system's Python if that has Electrum's package. Without the package it is left out, with status 77.
"""

from __future__ import annotations

import argparse
import sys
import tempfile
import threading
from pathlib import Path

sys.dont_write_bytecode = True  # the repository gets no made files

import interpreter

if not interpreter.goes_on_with_electrum():
    print(f"left out: examples/electrum, {interpreter.WHY_NOT}")
    sys.exit(77)

from electrum import channel_db, constants, lnmsg, lnrouter, lnworker, network

import path_finder
from cases import (A, AA, AB, AC, B, BD, C, CD, D, DAY, DE, E, MSAT, NOW, OVER_B, OVER_C, Case, OwnChannel, announcement, both,
                   scid, square, update)
from comparing import compared
from offline import PATIENCE, Messages, Offline, made_network
from private_wallet import a_wallet_without_public_channels_pays
from route_map import lgm

CHANNELS = (56, 562, 5_625)  # of 20, 200 and 2,000 nodes


def the_map_follows_the_database(case):
    """Closes, newer updates, updates that are pruned, and channels without any."""
    database = case.database
    assert case.path() is None
    case.offline.fill(database, square())
    assert case.path() == OVER_B and len(database.routes) == 4
    database.remove_channel(BD)
    assert case.path() == OVER_C and len(database.routes) == 3
    channel, updates = both(BD, B, D, 1_000)
    case.offline.fill(database, Messages([channel], [], []))
    assert case.path() == OVER_C
    case.offline.fill(database, Messages([], [(update(BD, B, D, 3_000, timestamp=NOW + 100), B)], []))
    assert case.path() == OVER_C
    case.offline.fill(database, Messages([], [(update(BD, B, D, 500, timestamp=NOW + 200), B)], []))
    assert case.path() == ([AB, BD], MSAT + 500)
    for own, start in ((AB, A), (AB, B)):  # a month before, so just these are pruned
        policy = database._policies[(start, own)]
        database._policies[(start, own)] = policy._replace(timestamp=NOW - 30 * DAY)
    database.prune_old_policies(14 * DAY)
    assert case.path() == OVER_C and len(database.routes) == 4
    found = database.routes.map.channel(int.from_bytes(AB, "big"))
    assert (found.from_1, found.from_2) == (None, None)
    database.prune_orphaned_channels()
    assert case.path() == OVER_C and len(database.routes) == 3 and len(updates) == 2


def the_map_is_there_after_a_restart(case):
    """A second database of the folder has the same map."""
    case.offline.fill(case.database, square())
    case.offline.stop(case.database)
    again = Case(case.offline, Path(case.offline.config.path))
    assert again.path() == OVER_B and len(again.database.routes) == again.database.num_channels == 4


def what_failed_is_avoided(case):
    """A channel on the wallet's list, and one that couldn't send an amount; and the map is as before."""
    case.offline.fill(case.database, square())
    hints = case.finder.liquidity_hints
    hints.add_to_blacklist(BD)
    assert case.path() == OVER_C
    hints.add_to_blacklist(CD)
    assert case.path() is None
    hints.clear_blacklist()
    assert case.path() == OVER_B
    hints.update_cannot_send(B, D, BD, MSAT)
    assert case.path() == OVER_C and case.path(msat=MSAT - 1) == ([AB, BD], MSAT + 999)
    hints.reset_liquidity_hints()
    assert case.path() == OVER_B and len(case.database.routes) == 4


def own_channels_and_hints_are_used(case):
    """A payer without a public channel, and a payee who names one: E gets 1,000,000 msat, for which D charges 700."""
    case.offline.fill(case.database, square())
    payer, to_b, to_c = b"\x03" + bytes(32), scid(7), scid(8)
    hint = lnrouter.RouteEdge(start_node=D, end_node=E, short_channel_id=DE, fee_base_msat=700,
                              fee_proportional_millionths=0, cltv_expiry_delta=40, node_features=0)
    asked = {"payer": payer, "payee": E, "private_route_edges": {DE: hint}}
    own = {to_b: OwnChannel(to_b, payer, B, MSAT + 1_700), to_c: OwnChannel(to_c, payer, C, MSAT + 2_700)}
    for _ in range(2):
        assert case.path(**asked, my_sending_channels=own) == ([to_b, BD, DE], MSAT + 1_700)
    own[to_b] = OwnChannel(to_b, payer, B, MSAT + 1_699)
    assert case.path(**asked, my_sending_channels=own) == ([to_c, CD, DE], MSAT + 2_700)
    own[to_c] = OwnChannel(to_c, payer, C, MSAT + 2_699)
    assert case.path(**asked, my_sending_channels=own) is None
    assert case.path(payer=payer) is None and len(case.database.routes) == 4


def other_channels_of_the_payer_are_not_used(case):
    """Where the wallet lists the payer's channels, a public one that isn't listed, as it is closing, isn't used."""
    case.offline.fill(case.database, square())
    own = {AC: OwnChannel(AC, A, C, 2 * MSAT)}
    assert case.path() == OVER_B and case.path(my_sending_channels=own) == OVER_C
    assert case.path(my_sending_channels={}) is None


def what_the_wallet_would_not_use_is_left_out(case):
    """A channel of which one direction alone has an update, which the wallet's cost function refuses."""
    messages = square()
    case.offline.fill(case.database, messages._replace(updates=[
        one for one in messages.updates if one != (update(BD, D, B, 6_000), D)]))
    assert case.path() == OVER_C
    case.offline.fill(case.database, Messages([], [(update(BD, D, B, 6_000), D)], []))
    assert case.path() == OVER_B


def a_hint_bans_nobody(case):
    """A hint with the id of a public channel, between other nodes or the same ones, and one that isn't between two nodes; and
    another announcement of that id."""
    case.offline.fill(case.database, square())
    case.database.routes.announce(announcement(AB, C, E))
    before = case.database.routes.map.version
    for start, end in ((C, E), (A, B), (E, E), (b"\5" + bytes(32), E)):
        edge = lnrouter.RouteEdge(start_node=start, end_node=end, short_channel_id=AB, fee_base_msat=0,
                                  fee_proportional_millionths=0, cltv_expiry_delta=0, node_features=0)
        for hints in ({AB: edge}, {AA: edge}, {AB: edge, AA: edge}):
            assert case.path(private_route_edges=hints) == OVER_B
            assert case.path(payee=E, private_route_edges=hints) == (
                ([AC, AA], MSAT) if AA in hints and start == C else None)
    assert len(case.database.routes) == 4 and case.database.routes.map.version == before


def a_payment_is_no_news(case):
    """What peers are told is what the wallet has, before and after a payment with own channels, hints and failures."""
    case.offline.fill(case.database, square())
    network, chain = case.database.routes.map, constants.net.rev_genesis_bytes()
    everything = b"\1\t" + chain + bytes(4) + b"\xff" * 4
    wanted = [(channel, *[message for message, _ in updates]) for (channel, _), updates in (
        both(AB, A, B), both(BD, B, D, 1_000), both(AC, A, C), both(CD, C, D, 2_000))]
    before, version = network.filter(everything), network.version
    assert sorted(before) == sorted(message for messages in wanted for message in messages) and version == len(before)
    network.mark()
    payer, own_scid = b"\3" + bytes(32), scid(7)
    hint = lnrouter.RouteEdge(start_node=D, end_node=E, short_channel_id=DE, fee_base_msat=700,
                              fee_proportional_millionths=0, cltv_expiry_delta=40, node_features=0)
    asked = {"payer": payer, "payee": E, "private_route_edges": {DE: hint},
             "my_sending_channels": {own_scid: OwnChannel(own_scid, payer, B, 10 * MSAT)}}
    assert case.path(**asked) == ([own_scid, BD, DE], MSAT + 1_700)
    case.finder.liquidity_hints.add_to_blacklist(BD)
    assert case.path(**asked) == ([own_scid, AB, AC, CD, DE], MSAT + 7_700)
    case.finder.liquidity_hints.add_to_blacklist(CD)
    assert case.path(**asked) is None
    assert network.filter(everything) == before and network.news(everything) == [] and network.version == version
    asked_for = lnmsg.encode_msg("query_short_channel_ids", chain_hash=chain, len=17,
                                 encoded_short_ids=b"\0" + own_scid + DE)
    [end] = network.query(asked_for)
    assert end[:2] == b"\1\x06"
    database = case.database  # a direction that is pruned is no news either
    policy = database._policies[(A, AB)]
    database._policies[(A, AB)] = policy._replace(timestamp=NOW - 30 * DAY)
    database.prune_old_policies(14 * DAY)
    assert network.news(everything) == [] and len(network.filter(everything)) == len(before) - 1


def a_payment_keeps_nobody_waiting(case):
    """Between two searches of a payment another thread writes to the map, and pays."""
    case.offline.fill(case.database, square())
    found, real = [], case.finder._edge_cost

    def write():
        case.database.routes.update(update(BD, B, D, 3_000, timestamp=NOW + 100), B)
        case.finder._edge_cost = real
        found.append(case.path())

    def cost(**asked):
        if not found:
            thread = threading.Thread(target=write)
            thread.start()
            thread.join(PATIENCE)
            assert not thread.is_alive()
        return real(**asked)

    case.finder._edge_cost = cost
    assert case.finder.find_payment(nodeA=A, nodeB=D, invoice_amount_msat=MSAT, final_cltv=0, payment_secret=bytes(32))
    assert found == [OVER_C] and case.path() == OVER_C


def a_route_does_not_take_too_long(case):
    """Over B each of two directions would take 2,000 blocks, so the payer would wait for 28 days. So it is if the library says
    that there is too much to search."""
    parts = [both(AB, A, B), both(BD, B, C, 0, 2_000), both(CD, C, D, 0, 2_000), both(AC, A, E), both(DE, E, D, 4_000)]
    case.offline.fill(case.database, Messages([one for one, _ in parts], [two for _, own in parts for two in own], []))
    assert case.path() == ([AC, DE], MSAT + 4_000)
    assert case.path(payee=C) == ([AB, BD], MSAT)
    real, calls = case.database.routes.route, []

    def undecided_first(*payment, **known):
        calls.append(known)
        if len(calls) == 1:
            raise lgm.Undecided
        return real(*payment, **known)

    case.database.routes.route = undecided_first
    asked = {"nodeA": A, "nodeB": D, "invoice_amount_msat": MSAT}
    assert case.finder.find_payment(final_cltv=0, payment_secret=bytes(32), **asked).sent_msat == MSAT + 4_000
    assert [known["most_delay"] is None for known in calls] == [False, True, False]


def a_minimum_is_held_against_the_amount(case):
    """The wallet uses a channel whose minimum only the fee of the next one lifts the amount above; we don't."""
    case.offline.fill(case.database, square())
    case.database.remove_channel(CD)
    for minimum, is_found in ((MSAT, True), (MSAT + 500, False)):
        newer = update(AB, A, B, timestamp=NOW + 100 + minimum - MSAT, minimum=minimum)
        case.offline.fill(case.database, Messages([], [(newer, A)], []))
        path = lnrouter.LNPathFinder(case.database).find_path_for_payment(nodeA=A, nodeB=D, invoice_amount_msat=MSAT)
        assert [bytes(edge.short_channel_id) for edge in path] == [AB, BD]
        assert case.path() == (OVER_B if is_found else None)


def the_wallet_makes_ours(case):
    """After `install` the wallet's `Network.start_gossip` makes both, and they find routes."""
    class Gossip:
        """The wallet's gossip, which would connect to peers."""

        def start_network(self, _):
            """Connects to nobody."""

    offline, kept = case.offline, (channel_db.ChannelDB, lnrouter.LNPathFinder, lnworker.LNGossip)
    lnworker.LNGossip = Gossip
    path_finder.install()

    async def started():
        network.Network.start_gossip(offline)
        await offline.channel_db.data_loaded.wait()

    try:
        offline.run(started())
    finally:
        channel_db.ChannelDB, lnrouter.LNPathFinder, lnworker.LNGossip = kept
        offline.lngossip = None
    case.database, case.finder = offline.adopt(offline.channel_db), offline.path_finder
    assert isinstance(case.finder, path_finder.PathFinder) and case.finder.channel_db is case.database
    offline.fill(case.database, square())
    assert case.path() == OVER_B and len(case.database.routes) == 4


def terms(found):
    """The terms of a direction, as the library or as the wallet has them; None if there are none."""
    return found and (found.timestamp, found.message_flags, found.channel_flags, found.cltv_expiry_delta,
                      found.htlc_minimum_msat, found.htlc_maximum_msat, found.fee_base_msat,
                      found.fee_proportional_millionths)


def the_map_has_the_wallets_rows(database):
    """Each channel, direction and node that the wallet's database has, field by field."""
    for own, channel in database._channels.items():
        found = database.routes.map.channel(int.from_bytes(own, "big"))
        assert (found.node_1, found.node_2) == (channel.node1_id, channel.node2_id)
        assert found.capacity_sat == channel.capacity_sat
        policies = [database.get_policy_for_node(own, node) for node in (channel.node1_id, channel.node2_id)]
        assert [terms(found.from_1), terms(found.from_2)] == list(map(terms, policies)), own.hex()
    for point, node in database._nodes.items():
        found = database.routes.map.node(point)
        assert (found.timestamp, found.alias.rstrip(b"\0").decode()) == (node.timestamp, node.alias)


def faults_are_noticed(one):
    """A comparison that finds nothing wrong does so where something is changed."""
    ours = one.ours
    cheaper = ours._replace(amount_msat=ours.amount_msat - 1)
    for changed, why in (
            ({"ours": ours._replace(payloads=[*ours.payloads[:-1], b"\0"])}, "the wallet builds other payloads"),
            ({"ours": ours._replace(expiry=ours.expiry + 1)}, "the wallet sends another amount, or with another expiry"),
            ({"ours": cheaper}, "the wallet sends another amount, or with another expiry"),
            ({"wallets": cheaper, "is_other": False}, "the wallet's own path sends less"),
            ({"found": None, "wallets": ours, "is_other": False}, "the wallet finds a path, and we don't"),
            ({"route": 21 * one.route}, "the wallet doesn't accept the route")):
        assert one._replace(**changed).faults() == [why], (changed, one._replace(**changed).faults())


def payments_agree(offline, folder, count, seed):
    """Payments over synthetic networks, by both."""
    found, wallets, others = 0, 0, 0
    for number, channels in enumerate(CHANNELS):
        case = Case(offline, folder / str(channels))
        offline.fill(case.database, made_network(channels, seed + number))
        assert len(case.database.routes) == case.database.num_channels == channels
        the_map_has_the_wallets_rows(case.database)
        for one in compared(case.database, count, seed + number):
            assert not one.faults(), (channels, seed + number, one.faults(), one)
            found, wallets, others = found + bool(one.found), wallets + bool(one.wallets), others + one.is_other
            if one.found:
                faults_are_noticed(one)
        assert len(case.database.routes) == channels
    assert min(found, wallets) > len(CHANNELS) * count / 2, (found, wallets, others)
    print(f"{found} of {len(CHANNELS) * count} payments have a route, as the wallet takes it. It finds one of {wallets} "
          f"by itself, none of which sends less, and {others} that ours may not be")


def main():
    """Runs the tests."""
    parser = argparse.ArgumentParser(description=__doc__, formatter_class=argparse.RawDescriptionHelpFormatter)
    parser.add_argument("--payments", type=int, default=100, metavar="N", help="over each network; 100 if left out")
    parser.add_argument("--seed", type=int, default=1, metavar="N", help="of networks and payments; 1 if left out")
    options = parser.parse_args()
    tests = (the_map_follows_the_database, the_map_is_there_after_a_restart, what_failed_is_avoided,
             own_channels_and_hints_are_used, other_channels_of_the_payer_are_not_used,
             what_the_wallet_would_not_use_is_left_out, a_hint_bans_nobody, a_payment_is_no_news,
             a_payment_keeps_nobody_waiting, a_route_does_not_take_too_long, a_minimum_is_held_against_the_amount,
             the_wallet_makes_ours)
    with tempfile.TemporaryDirectory() as name, Offline(name) as offline:
        folder = Path(name)
        for test in tests:
            test(Case(offline, folder / test.__name__))
        payments_agree(offline, folder, options.payments, options.seed)
        a_wallet_without_public_channels_pays(offline, folder, options.seed)
    print(f"{len(tests) + 2} passed")


if __name__ == "__main__":
    main()
