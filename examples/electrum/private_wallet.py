"""Payments of a wallet without public channels over synthetic networks, to payees that have route hints: tried again without
what failed, compared with the wallet's own finder and with second_opinion.py. A part of test_path_finder.py."""

from __future__ import annotations

import random
from math import inf

from electrum import constants, lnrouter

import path_finder
from cases import Case, OwnChannel, scid
from comparing import AMOUNTS, Payment, compare
from offline import FEATURES, made_network
from route_map import lgm
from second_opinion import ForgingPayment

CHANNELS = 562  # of 200 nodes
NETWORKS, PAYMENTS, TRIES = 20, 5, 6


class PrivateWallet:
    """A wallet without public channels over a made network, and an invoice of a payee that has none either."""

    def __init__(self, database, drawn, amount):
        nodes = sorted(point for point, channels in database._channels_for_node.items() if channels)
        self.payer, self.payee, first = b"\3" + drawn.randbytes(32), b"\2" + drawn.randbytes(32), 10_000_000
        peers, entries = drawn.sample(nodes, 3), drawn.sample(nodes, 2)
        self.own = {scid(first + place): OwnChannel(scid(first + place), self.payer, peer, drawn.choice((1, 2, 9)) * amount)
                    for place, peer in enumerate(peers)}
        self.hints = {scid(first + place): lnrouter.RouteEdge(
            start_node=entry, end_node=self.payee, short_channel_id=scid(first + place), cltv_expiry_delta=40,
            fee_base_msat=drawn.randrange(2_000), fee_proportional_millionths=drawn.randrange(1_000),
            node_features=int.from_bytes(FEATURES, "big"))  # with those of the invoice, as the wallet has them
            for place, entry in enumerate(entries, 3)}
        self.known = {"my_sending_channels": self.own, "private_route_edges": self.hints}
        self.payment = Payment(self.payer, self.payee, amount, drawn.randbytes(32))


def used(hop, failed):
    """Whether a hop is one that failed: a channel on the wallet's list, or a direction with an amount that it couldn't send."""
    listed, cannot_send = failed
    own = path_finder.scid_of(hop)
    return own in listed or hop.amount_msat >= cannot_send.get((own, hop.start), hop.amount_msat + 1)


def costs(finder, hop, wallet):
    """What a hop costs by the wallet's own measure."""
    cost, _ = finder._edge_cost(
        short_channel_id=path_finder.scid_of(hop), start_node=hop.start, end_node=hop.end, payment_amt_msat=hop.amount_msat,
        my_channels=wallet.own, private_route_edges=wallet.hints)
    return cost


def tried_again(case, wallet, drawn):
    """A payment, again and again without what failed. The routes."""
    wallets = lnrouter.LNPathFinder(case.database)
    case.finder.liquidity_hints = wallets.liquidity_hints  # new ones
    failed, routes = (set(), {}), []
    for _ in range(TRIES):
        one = compare(case.finder, wallets, wallet.payment, **wallet.known)
        assert not one.faults(), (one.faults(), one)
        if one.found is None:
            break
        hops = one.found.hops
        assert not any(used(hop, failed) for hop in hops), (failed, hops)
        assert not routes or one.found.sent_msat >= routes[-1].sent_msat
        assert wallet.own[path_finder.scid_of(hops[0])].can_pay(hops[0].amount_msat, check_frozen=True)
        assert all(costs(wallets, hop, wallet) < inf for hop in hops[1:])
        routes.append(one.found)
        hop = hops[drawn.randrange(1, len(hops))]
        channel = path_finder.scid_of(hop)
        if drawn.randrange(2):
            case.finder.liquidity_hints.add_to_blacklist(channel)
            failed[0].add(channel)
        else:
            case.finder.update_liquidity_hints(one.route, wallet.payment.amount_msat, failing_channel=channel)
            failed[1][channel, hop.start] = wallet.payment.amount_msat
    return routes


def second_opinions_agree(case, wallet, drawn):
    """The same routes over a map into which the private channels are put, each again without a direction. How many."""
    routes, payment = case.database.routes, (*wallet.payment[:3], 700_000, wallet.payment.secret)
    edges = path_finder.own_channels(wallet.payer, wallet.own) + path_finder.hinted_channels(wallet.hints)
    limits, count = [], 0
    with ForgingPayment(routes, constants.net.rev_genesis_bytes()) as forging:
        for edge in edges:
            forging.add(edge)
        forged = []
        for _ in range(TRIES):
            forged.append(forging.route(*payment))
            if not forged[-1]:
                break
            hop = drawn.choice(forged[-1].hops)
            limits.append(lgm.Limit(hop.scid, hop.start))
            forging.take_out(hop.scid, hop.start)
    for place, wanted in enumerate(forged):
        found = routes.route(*payment, edges=edges, limits=limits[:place], silent=[wallet.payer])
        assert found == wanted, (place, found, wanted)
        count += found is not None
    return count


def a_wallet_without_public_channels_pays(offline, folder, seed):
    """Payments over made networks by a wallet that has private channels alone, to payees that have route hints."""
    paid, tries, opinions = 0, 0, 0
    for number_of_network in range(NETWORKS):
        drawn = random.Random(f"{seed} {number_of_network}")
        case = Case(offline, folder / f"private-{number_of_network}")
        case.offline.fill(case.database, made_network(CHANNELS, 1_000 * seed + number_of_network))
        network = case.database.routes.map
        everything = b"\1\t" + constants.net.rev_genesis_bytes() + bytes(4) + b"\xff" * 4
        before, version = network.filter(everything), network.version
        wallets = [PrivateWallet(case.database, drawn, drawn.choice(AMOUNTS)) for _ in range(PAYMENTS)]
        for wallet in wallets:
            routes = tried_again(case, wallet, drawn)
            paid, tries = paid + bool(routes), tries + len(routes)
        assert network.filter(everything) == before and network.version == version
        for wallet in wallets:
            opinions += second_opinions_agree(case, wallet, drawn)
        assert network.filter(everything) == before
        offline.stop(case.database)
    count = NETWORKS * PAYMENTS
    assert paid > count / 2 and tries > 2 * paid and opinions > paid, (paid, tries, opinions)
    print(f"a wallet without public channels makes {paid} of {count} payments over {NETWORKS} networks, by {tries} routes that "
          f"the wallet takes; a second opinion agrees on {opinions} more")
