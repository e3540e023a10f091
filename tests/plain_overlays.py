#!/usr/bin/env python3
"""Compares payments over what a payer knows beside the map with those of a plain program, which tries all walks.

    python3 tests/plain_overlays.py [LIBRARY] [--networks N] [--seed N]

Each of 500 random networks has 5 nodes and 8 to 12 channels, whose terms have few values, so that there are ties, and bounds
around the amounts. Now and then an update disables its direction or has a maximum above the capacity, a channel has an even
feature bit, or a node requires bit 0, which is known or isn't.

Six payments follow, each over an overlay of its own: up to four extra edges, four limits and two silent nodes, among the
nodes of the map and two more. The plain program lists the edges by the words of docs/protocol.md ("What a payer knows beside
the map"), and of all walks over them that come to no node twice it takes the best one. The library has to find the same
channels, nodes, amounts and expiries, or no route either: without the overlay, over it, and within delays, such as one block
less than that of the best route.

LIBRARY is the shared object, examples/out/liblgm.so if left out.
"""

import argparse
import random
import sys
from collections import Counter
from pathlib import Path
from typing import NamedTuple

sys.dont_write_bytecode = True  # the repository gets no made files

TOP = Path(__file__).resolve().parent.parent
sys.path[1:1] = [str(TOP), str(TOP / "python")]

import lgm
from gossip.messages import CHAIN, DISABLED, HAS_MAXIMUM, ChannelAnnouncement, ChannelUpdate, NodeAnnouncement
from gossip.notation import SECRET, TERMS
from plain_walks import EXPIRY, Payment, Road, Step, Terms, best, delay, pair, usable

NODES, ALL_NODES = 5, 7  # of a map, and with those that only overlays have
BLOCKS = 14  # of extra edges: those of a map's channels, from 0 on, and some more
CAPACITY = 100_000  # satoshi, of each channel
BIT_0 = b"\1"
PAYMENTS = 6
FAR = 65_534  # blocks: the greatest limit of the delay, beyond that of any route here

# How often an overlay makes each difference to a payment, and how often a limit of the delay does, in 500 networks at least.
OFTEN = {("overlays", "opened"): 50, ("overlays", "closed"): 50, ("overlays", "other"): 50, ("overlays", "same"): 50,
         ("delays", "closed"): 50, ("delays", "other"): 30, ("delays", "same"): 50}
NEVER = ("delays", "opened")


class Channel(NamedTuple):
    """A channel between two nodes, the lesser one first, with the features of its announcement."""

    block: int
    nodes: tuple
    features: bytes


class Update(NamedTuple):
    """An update of a direction."""

    road: Road
    is_disabled: bool


class Network(NamedTuple):
    """What a map is offered: channels, updates, and announcements of nodes that require bit 0."""

    channels: list
    updates: list
    requiring: list


class Limit(NamedTuple):
    """What a channel carries at most out of a node, in msat."""

    block: int
    start: int
    most: int


class Overlay(NamedTuple):
    """What a payer knows beside the map: edges, limits and nodes."""

    extra: list
    limits: list
    silent: list


NOTHING = Overlay([], [], [])


def key(edge):
    """What names an edge, and what a limit is for: an id, and the node that the edge leaves."""
    return edge.block, edge.start


def carrying(network):
    """The map's edges by the first three rules: the direction isn't disabled, the channel has no even feature bit, and the
    maximum is at most the capacity."""
    even = {channel.block for channel in network.channels if channel.features}
    return [road for road, is_disabled in network.updates
            if not is_disabled and road.block not in even and road.terms.most <= 1000 * CAPACITY]


def limited(road, limits):
    """An edge with the least of its maximum and the limits of its key."""
    most = min([road.terms.most, *(limit.most for limit in limits if key(limit) == key(road))])
    return road._replace(terms=road.terms._replace(most=most))


def edges_over(network, knows, overlay):
    """The edges over an overlay, where bit 0 is known or no bit is."""
    extra = {}
    for road in overlay.extra:
        extra.setdefault(key(road), road)  # of each key the first
    used = [road for road in carrying(network) if road.start not in overlay.silent and key(road) not in extra]
    laid = [limited(road, overlay.limits) for road in (*extra.values(), *used)]
    return [road for road in laid if knows or road.end not in network.requiring]


def random_terms(numbers):
    """Terms with few values."""
    usual = TERMS["max"]
    return Terms(numbers.choice((0, 40, 144)), numbers.choice((0, 1, 1, 1, 1, 999, 1000, 1001)),
                 numbers.choice((0, 0, 1, 1, 100, 200)), numbers.choice((0, 0, 1000, 1000, 100_000, 4_294_967_295)),
                 numbers.choice((999, 1000, 1100, usual, usual, usual, usual, 1000 * CAPACITY + 1)))


def random_network(numbers):
    """A network, whose channels have updates of one or both of their directions."""
    channels, updates = [], []
    for block in range(numbers.randrange(8, 13)):
        first, second = pair(numbers, NODES)
        channels.append(Channel(block, (first, second), b"" if numbers.randrange(12) else BIT_0))
        which = numbers.randrange(4)
        for start, end in [(first, second)] * (which != 0) + [(second, first)] * (which != 1):
            updates.append(Update(Road(block, start, end, random_terms(numbers)), numbers.randrange(8) == 0))
    return Network(channels, updates, numbers.choice(([], [channels[0].nodes[1]])))


def random_key(numbers, roads):
    """The key of one of some edges, or now and then any."""
    if roads and numbers.randrange(5):
        return key(numbers.choice(roads))
    return numbers.randrange(BLOCKS), numbers.randrange(ALL_NODES)


def random_overlay(numbers, roads):
    """An overlay over a map with these edges."""
    extra = []
    for _ in range(numbers.randrange(5)):
        block, start = random_key(numbers, [] if numbers.randrange(3) else [*roads, *extra])
        extra.append(Road(block, start, numbers.randrange(ALL_NODES), random_terms(numbers)))
    amounts = (0, 0, 999, 1000, 1001, 1100, 1200, 60_000_000)
    limits = [Limit(*random_key(numbers, [*roads, *extra]), numbers.choice(amounts)) for _ in range(numbers.randrange(5))]
    return Overlay(extra, limits, [numbers.randrange(ALL_NODES) for _ in range(numbers.randrange(3))])


def random_payment(numbers):
    """About 1,000 msat between two nodes, mostly of the map."""
    nodes = numbers.choice((NODES, NODES, NODES, ALL_NODES))
    payer = numbers.randrange(nodes)
    payee = (payer + numbers.randrange(1, nodes)) % nodes
    return Payment(payer, payee, numbers.choice((1, 999, 1000, 1000, 1000, 1001)))


def random_delays(numbers, steps):
    """Limits of the delay: any, and one block less than these steps have, if they have more than one."""
    just_below = [delay(steps) - 1] if steps and delay(steps) > 1 else []
    return [numbers.choice((1, 40, 80, 144, 184, 300)), *just_below]


def scid(block):
    """The id of the channel of a block."""
    return block << 40


def point(node):
    """The point of a node."""
    return b"\2" + bytes(31) + bytes([node])


def messages(network):
    """What announces a network, with the verdicts."""
    for block, nodes, features in network.channels:
        announcement = ChannelAnnouncement(CHAIN, scid(block).to_bytes(8, "big"), tuple(map(point, nodes)), features)
        yield announcement.encode(), lgm.ALL_FOUR, CAPACITY
    for (block, start, end, terms), is_disabled in network.updates:
        flags = int(end < start) + DISABLED * is_disabled
        update = ChannelUpdate(CHAIN, scid(block).to_bytes(8, "big"), 1, HAS_MAXIMUM, flags, *terms)
        yield update.encode(), point(start), lgm.NOT_ASKED
    for node in network.requiring:
        yield NodeAnnouncement(BIT_0, 1, point(node)).encode(), point(node), lgm.NOT_ASKED


def opened(network, known):
    """The library's map of a network, where these bits are known."""
    made = lgm.Map(CHAIN, known)
    for message in messages(network):
        made.offer(*message)
    return made


def extra_edge(road):
    """An edge beside the map's, as the library takes it."""
    delta, least, base, millionths, most = road.terms
    return lgm.Edge(scid(road.block), point(road.start), point(road.end), base, millionths, delta, least, most)


def steps_in(route):
    """The steps of the library's route. What is of none of these channels and nodes has no number."""
    blocks = {scid(block): block for block in range(BLOCKS)}
    nodes = {point(node): node for node in range(ALL_NODES)}
    return [Step(blocks.get(hop.scid), nodes.get(hop.start), nodes.get(hop.end), hop.amount_msat, hop.expiry)
            for hop in route.hops]


def answer(network, payment, overlay, most_delay):
    """The steps that the library finds, none if there is no route, or the word of another fault."""
    edges = [extra_edge(road) for road in overlay.extra]
    limits = [lgm.Limit(scid(limit.block), point(limit.start), limit.most) for limit in overlay.limits]
    silent = [point(node) for node in overlay.silent]
    try:
        return steps_in(network.route(point(payment.payer), point(payment.payee), payment.amount, EXPIRY, SECRET,
                                      edges, limits, silent, most_delay=most_delay))
    except lgm.NoRoute:
        return []
    except lgm.Fault as fault:
        return fault.word


def difference(steps, before):
    """What became of a route."""
    if steps == before:
        return "same" if steps else "none"
    return "other" if steps and before else "opened" if steps else "closed"


def questions(numbers, network, knows, payment, seen):
    """The overlays and limits of the delay that a payment is asked over and within, with the steps that the plain program
    finds. Counts the differences."""
    overlay = random_overlay(numbers, carrying(network))
    alone = best(usable(edges_over(network, knows, NOTHING), payment))
    routes = usable(edges_over(network, knows, overlay), payment)
    over = best(routes)
    within = [(most_delay, best(routes, most_delay)) for most_delay in random_delays(numbers, over)]
    seen["overlays", difference(over, alone)] += 1
    seen.update(("delays", difference(quick, over)) for _, quick in within)
    return [(NOTHING, None, alone), (overlay, None, over), (overlay, FAR, over), *((overlay, *one) for one in within)]


def compared(numbers, network, maps, seen):
    """What is wrong with the answers to a random payment, by the map where no bit is known or that where bit 0 is."""
    knows, payment = numbers.randrange(2), random_payment(numbers)
    for overlay, most_delay, wanted in questions(numbers, network, knows, payment, seen):
        found = answer(maps[knows], payment, overlay, most_delay)
        if found != wanted:
            yield f"{payment}, {overlay}, most delay {most_delay}, bit 0 {'is' if knows else 'is not'} known"
            yield f"expected\n    {wanted}\nand found\n    {found}"


def objections(numbers, seen):
    """What is wrong with the answers over a random network, and the network."""
    network = random_network(numbers)
    with opened(network, b"") as strict, opened(network, BIT_0) as knowing:
        wrong = [line for _ in range(PAYMENTS) for line in compared(numbers, network, (strict, knowing), seen)]
    return [*wrong, "of the network", *(f"    {item}" for items in network for item in items)] if wrong else []


def rarities(seen, networks):
    """The differences that were seen too rarely, or that can't be."""
    rare = [f"too few {what} made this difference: {kind}" for (what, kind), times in OFTEN.items()
            if seen[what, kind] < times * networks / 500]
    return rare + ["a limit of the delay opened a route"] * (seen[NEVER] > 0)


def main():
    """Takes the arguments, and compares all networks."""
    parser = argparse.ArgumentParser(description=__doc__, formatter_class=argparse.RawDescriptionHelpFormatter)
    parser.add_argument("library", nargs="?", default=lgm.library.LIBRARY, metavar="LIBRARY")
    parser.add_argument("--networks", type=int, default=500, metavar="N", help="so many")
    parser.add_argument("--seed", type=int, default=1, metavar="N", help="other random ones")
    given = parser.parse_args()
    lgm.library.LIBRARY = Path(given.library).resolve()
    numbers, seen, failed = random.Random(given.seed), Counter(), 0
    for count in range(given.networks):
        wrong = objections(numbers, seen)
        failed += bool(wrong)
        if wrong:
            print(f"network {count} of seed {given.seed}:", *wrong, sep="\n")
    print(", ".join(f"{what} {kind}: {seen[what, kind]}" for what, kind in sorted(seen)))
    rare = rarities(seen, given.networks)
    print(*rare, sep="\n", end="\n" if rare else "")
    print(f"{given.networks - failed} passed, {failed + len(rare)} failed")
    sys.exit(1 if failed or rare else 0)


if __name__ == "__main__":
    main()
