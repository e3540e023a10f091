"""Payments over a synthetic network by both path finders, Electrum's own and ours, each judged by the wallet's code.

    for found in compared(database, count=100, seed=1):
        assert not found.faults(), found

`database` is a `MappedChannelDB`. Used by test_path_finder.py and measure.py.
"""

from __future__ import annotations

import random
import time
from typing import NamedTuple, Optional

from electrum import lnonion, lnrouter
from electrum.lnutil import NUM_MAX_EDGES_IN_PAYMENT_PATH

from path_finder import PathFinder

AMOUNTS = (10_000, 100_000, 1_000_000, 10_000_000, 50_000_000, 200_000_000)  # msat
FINAL_CLTV, PAYEES_DELAY = 700_000, 144
HMAC = 32  # bytes, behind each payload


class Payment(NamedTuple):
    """A payment to be made."""

    payer: bytes
    payee: bytes
    amount_msat: int
    secret: bytes


class Sent(NamedTuple):
    """What the wallet's code makes of a route: the payloads, what the payer sends, and the expiry."""

    payloads: list
    amount_msat: int
    expiry: int


class Compared(NamedTuple):
    """A payment, our route as the library and as the wallet has it, what the wallet's own finder found, the seconds that
    each took, and whether the wallet's route is one that ours may not be."""

    payment: Payment
    found: object
    route: Optional[list]
    ours: Optional[Sent]
    wallets: Optional[Sent]
    seconds: tuple
    is_other: bool

    def faults(self):
        """What is wrong with our route, by the wallet's code."""
        amount = self.payment.amount_msat
        if self.found is None:
            return ["the wallet finds a path, and we don't"] if self.wallets and not self.is_other else []
        said = []
        if not lnrouter.is_route_sane_to_use(self.route, amount, PAYEES_DELAY):
            said.append("the wallet doesn't accept the route")
        if self.ours.payloads != [hop.payload for hop in self.found.hops]:
            said.append("the wallet builds other payloads")
        if (self.ours.amount_msat, self.ours.expiry) != (self.found.sent_msat, self.found.expiry):
            said.append("the wallet sends another amount, or with another expiry")
        if self.wallets and not self.is_other and self.wallets.amount_msat < self.found.sent_msat:
            said.append("the wallet's own path sends less")
        return said


def sent(route, payment):
    """What the wallet sends over a route."""
    hops, amount, expiry = lnonion.calc_hops_data_for_payment(
        route, payment.amount_msat, FINAL_CLTV, total_msat=payment.amount_msat, payment_secret=payment.secret)
    return Sent([hop.to_bytes()[:-HMAC] for hop in hops], amount, expiry)


def is_other(database, route, payment):
    """Whether a route of the wallet's isn't one of ours: it is longer than an onion, or an edge's minimum is above the
    payment's amount. The wallet compares a minimum with what the edge carries, with fees; we compare it with the amount."""
    policies = (database.get_policy_for_node(edge.short_channel_id, edge.start_node) for edge in route)
    return len(route) > NUM_MAX_EDGES_IN_PAYMENT_PATH or any(
        policy and policy.htlc_minimum_msat > payment.amount_msat for policy in policies)


def compare(finder, own, payment, **known):
    """A payment by both finders; `known` has the payer's channels and the route hints, as the wallet passes them."""
    asked = {"nodeA": payment.payer, "nodeB": payment.payee, "invoice_amount_msat": payment.amount_msat, **known}
    begun = time.perf_counter()
    found = finder.find_payment(final_cltv=FINAL_CLTV, payment_secret=payment.secret, **asked)
    between = time.perf_counter()
    wallets = own.find_route(**asked)
    ended = time.perf_counter()
    route = finder.find_route(**asked) if found else None
    other = bool(wallets) and is_other(finder.channel_db, wallets, payment)
    wallets_sent = sent(wallets, payment) if wallets and not other else None
    return Compared(payment, found, route, sent(route, payment) if route else None, wallets_sent,
                    (between - begun, ended - between), other)


def compared(database, count, seed):
    """So many payments between any two nodes."""
    drawn = random.Random(seed)
    nodes = sorted(point for point, channels in database._channels_for_node.items() if channels)
    finder, own = PathFinder(database), lnrouter.LNPathFinder(database)
    for _ in range(count):
        payer, payee = drawn.sample(nodes, 2)
        yield compare(finder, own, Payment(payer, payee, drawn.choice(AMOUNTS), drawn.randbytes(32)))
