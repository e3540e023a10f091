"""A plain program for routes, which tries all walks (docs/protocol.md, "Routes" and the two sections behind it).

    roads = [Road(7, 0, 1), Road(8, 1, 2, Terms(base=5, delta=10))]
    routes = usable(roads, Payment(0, 2, 1_000))
    steps = best(routes)                # Step(7, 0, 1, 1005, 700_010), Step(8, 1, 2, 1000, 700_000)
    quick = best(routes, most_delay=9)  # none
    liked = preferred(roads, Payment(0, 2, 1_000), Preferences(failure=20_000), {(8, 1): Estimate(least=1_000)})

Nodes are numbers, and so are channels: the block of an id BLOCKx0x0. No two roads of one id leave one node.
"""

import sys
from pathlib import Path
from typing import NamedTuple

sys.path.insert(0, str(Path(__file__).resolve().parent.parent))

from gossip.notation import TERMS

MOST_CHANNELS = 20
MOST_AMOUNT = 2**64 - 1  # msat, that a number of eight bytes has
MOST_PENALTY = 2**40  # msat, of one edge
MOST_ODDS = 100  # to 1
EXPIRY = 700_000  # of each payment


class Terms(NamedTuple):
    """What a direction asks for: a delta in blocks, amounts in msat."""

    delta: int = TERMS["delta"]
    least: int = TERMS["min"]
    base: int = TERMS["base"]
    millionths: int = TERMS["millionths"]
    most: int = TERMS["max"]

    def needed(self, amount):
        """What its node has to be sent, if it forwards an amount."""
        return amount + self.base + amount * self.millionths // 1_000_000


class Road(NamedTuple):
    """A direction of the channel of a block."""

    block: int
    start: int
    end: int
    terms: Terms = Terms()


class Payment(NamedTuple):
    """What is asked for: nodes, and msat."""

    payer: int
    payee: int
    amount: int


class Step(NamedTuple):
    """A channel of a route with its nodes, the amount that it carries, and when that expires."""

    block: int
    start: int
    end: int
    amount: int
    expiry: int


def pair(numbers, nodes):
    """Two nodes, the lesser one first."""
    second = numbers.randrange(1, nodes)
    return numbers.randrange(second), second


def walks(roads, payment, walk=()):
    """All walks from the payer to the payee that begin with this one, and come to no node twice."""
    here = walk[-1].end if walk else payment.payer
    if here == payment.payee:
        yield walk
        return
    seen = {payment.payer, *(road.end for road in walk)}
    for road in roads:
        if road.start == here and road.end not in seen and len(walk) < MOST_CHANNELS:
            yield from walks(roads, payment, (*walk, road))


def steps_of(walk, payment):
    """The steps of a walk from the payer on; none if one of its channels can't carry its amount."""
    steps, amount, expiry = [], payment.amount, EXPIRY
    for road in reversed(walk):
        if payment.amount < road.terms.least or road.terms.most < amount:
            return None
        steps.append(Step(road.block, road.start, road.end, amount, expiry))
        amount = road.terms.needed(amount)
        expiry += road.terms.delta
    return steps[::-1]


def usable(roads, payment):
    """The steps of each walk whose channels can carry their amounts."""
    return [steps for walk in walks(roads, payment) if (steps := steps_of(walk, payment))]


def rank(steps):
    """What the payer sends decides, then the number of steps, then the ids from the payer on."""
    return steps[0].amount, len(steps), [step.block for step in steps]


def delay(steps):
    """The blocks by which the first step expires later than the payment."""
    return steps[0].expiry - EXPIRY


def best(routes, most_delay=None):
    """The best of some routes, or of those within a delay; no steps if there is none."""
    return min((steps for steps in routes if most_delay is None or delay(steps) <= most_delay), key=rank, default=[])


class Preferences(NamedTuple):
    """What a failed try and each hop are worth to a payer, in msat."""

    failure: int = 0
    hop: int = 0


class Estimate(NamedTuple):
    """What a payer believes of an edge: that it carries so much, that it carries no more, what it would pay to avoid it."""

    least: int = 0
    most: int = MOST_AMOUNT
    penalty: int = 0

    def carried(self, amount):
        """What it believes once the edge has carried an amount."""
        return self._replace(least=max(self.least, amount), most=max(self.most, amount))

    def failed(self, amount):
        """What it believes once the edge has failed to carry an amount."""
        below = max(amount - 1, 0)
        return self._replace(least=min(self.least, below), most=min(self.most, below))


def penalty(road, amount, preferences, estimate):
    """What it is worth to a payer that a road doesn't carry an amount."""
    most = min(road.terms.most, estimate.most)
    odds = preferences.failure * max(amount - estimate.least, 0) // (max(most - amount, 0) + 1)
    return min(MOST_PENALTY, preferences.hop + estimate.penalty + min(MOST_ODDS * preferences.failure, odds))


def cost(walk, steps, preferences, estimates):
    """What the payer sends over a walk, and the penalties of its roads but the first. Estimates are by block and node."""
    known = [estimates.get((road.block, road.start), Estimate()) for road in walk]
    return steps[0].amount + sum(penalty(road, step.amount, preferences, estimate)
                                 for road, step, estimate in list(zip(walk, steps, known))[1:])


def preferred(roads, payment, preferences, estimates, most_delay=None, most_hops=MOST_CHANNELS):
    """The steps that cost a payer least, of those within a delay and a number of hops; none if there are none. The number of
    steps decides between equals, and then the ids from the payer on."""
    ranked = []
    for walk in walks(roads, payment):
        steps = steps_of(walk, payment)
        if steps and len(steps) <= most_hops and (most_delay is None or delay(steps) <= most_delay):
            _, *ties = rank(steps)
            ranked.append((cost(walk, steps, preferences, estimates), *ties, steps))
    return min(ranked)[-1] if ranked else []
