#!/usr/bin/env python3
"""Simulates payments over balances that nobody knows: how many arrive, after how many rounds and tries, and for which fee.

    python3 bench/paying.py                  # a table, as docs/speed.md has it
    python3 bench/paying.py --picture        # and draws bench/paying.svg

On a synthetic network each channel's balance is drawn by beta(0.3, 0.3) of its capacity, so most channels are nearly empty
on one side. A payment between two random nodes is made within 2,016 blocks; the payer's own channel carries all that its maximum
allows. What is paid moves no balance, so each way of paying meets the same ones.

- possible: how many payments a flow over the true balances makes, whatever its parts are, without fees
- least, 20,000 and 500: one route after the other for the whole amount, by the library's search, without each edge that
  failed, up to 60 times: the one that sends least, or by what a failed try and a hop are worth, in msat
- payer: by `lgm.payer`, which divides the amount where that is likely to bring more. All parts that are next are sent at once, and
  fail where an edge's balance is below what it is to carry beside the parts that the payee holds: that is a round. Each part
  is a try, of which there are 60
- learning: with what the payments before have taught, as a service has them that pays for many: from as many payments as are
  counted and more before. It fades by half each 100 payments

A seed gives the same table. The library is built by examples/build-c.
"""

import argparse
import random
import sys
from pathlib import Path
from statistics import mean, median
from typing import NamedTuple, Optional

sys.dont_write_bytecode = True  # the repository gets no made files

import plot
from top import TOP

import lgm
from gossip.messages import CHAIN
from gossip.networks import Network
from gossip.workloads import HEIGHT, sync
from lgm.payer import Bounds, Invoice, Payer

AMOUNTS = (10_000, 100_000, 500_000, 2_000_000, 5_000_000)  # sat
SHOWN_AMOUNTS = AMOUNTS[1:]
BLOCKS = 2_016
TRIES = 60
SHOWN = 20  # tries, in the picture
SKEW = 0.3  # both parameters of the beta distribution
SECRET = bytes(32)
PICTURE = Path(__file__).resolve().parent / "paying.svg"


class Way(NamedTuple):
    """A way of paying: its name, and preferences of single routes if it has any; or whether it is a payer's, and learns."""

    name: str
    preferences: Optional[tuple] = None
    is_payer: bool = False
    learns: bool = False


WAYS = (Way("least"), Way("20,000 and 500", (20_000, 500)), Way("payer", is_payer=True),
        Way("payer, learning", is_payer=True, learns=True))


class World(NamedTuple):
    """A map, what each edge can carry, in msat, and the pairs of nodes that pay: first those that are learnt from alone."""

    network: object
    balances: dict  # by id and start
    own: dict  # a node's channels as its own
    maxima: dict  # of the edges that payments can use, by id and start
    ways: dict  # by node: ids of its channels, and the nodes at their other ends
    before: list
    pairs: list


class Outcome(NamedTuple):
    """What became of a payment: how many rounds and tries it took and how many parts it had if it arrived, and the fee in msat."""

    rounds: Optional[int] = None
    tries: Optional[int] = None
    parts: int = 1
    fee: Optional[int] = None


NOTHING = Outcome()


def words():
    """The words of the command line."""
    parser = argparse.ArgumentParser(description=__doc__, formatter_class=argparse.RawDescriptionHelpFormatter)
    add = parser.add_argument
    add("--library", type=Path, default=TOP / "examples" / "out" / "liblgm.so", help="examples/out/liblgm.so if left out")
    add("--channels", type=int, default=15_000, help="of the network; 15,000 if left out")
    add("--payments", type=int, default=300, help="of each amount that are counted; 300 if left out")
    add("--before", type=int, default=1_000, help="payments that are learnt from before these; 1,000 if left out")
    add("--fades", type=int, default=100, metavar="N", help="halve what was learnt each N payments; 100 if left out, 0 for never")
    add("--amounts", type=int, nargs="+", default=AMOUNTS, metavar="SAT", help="the amounts; those of the picture if left out")
    add("--seed", type=int, default=1, help="of the network, the balances and the payments; 1 if left out")
    add("--picture", action="store_true", help=f"draw {PICTURE.relative_to(TOP)}")
    return parser.parse_args()


def offer_all(made):
    """The library's map of a synthetic network."""
    network = lgm.Map(CHAIN)
    for line in sync(made):
        word, *fields = line.split()
        if word == "m":
            message, sig, funding = fields
            network.offer(bytes.fromhex(message), sig if sig == lgm.ALL_FOUR else bytes.fromhex(sig),
                          int(funding) if funding.isdigit() else funding)
    return network


def balances_of(made, numbers):
    """What each node of each channel has, in msat."""
    balances = {}
    for scid, capacity, (first, second) in made.channels:
        number, share = int.from_bytes(scid, "big"), numbers.betavariate(SKEW, SKEW)
        balances[number, first] = int(share * 1_000 * capacity)
        balances[number, second] = 1_000 * capacity - balances[number, first]
    return balances


def own_channels(network):
    """Each node's channels as its own, which send as much as their maxima allow, and the ends of all channels."""
    own, ways = {}, {}
    for scid in network.channels():
        channel = network.channel(scid)
        for start, end, terms in ((channel.node_1, channel.node_2, channel.from_1), (channel.node_2, channel.node_1, channel.from_2)):
            ways.setdefault(start, []).append((scid, end))
            if terms is not None and not terms.is_disabled and terms.htlc_maximum_msat <= 1_000 * channel.capacity_sat:
                own.setdefault(start, []).append(lgm.Edge(scid, start, end, htlc_maximum_msat=terms.htlc_maximum_msat))
    return own, ways


def drawn(options):
    """The world of these options."""
    made, numbers = Network(options.channels, options.seed), random.Random(options.seed)
    balances = balances_of(made, numbers)
    pairs = [tuple(numbers.sample(made.nodes, 2)) for _ in range(options.before + options.payments)]
    network = offer_all(made)
    own, ways = own_channels(network)
    maxima = {(edge.scid, edge.start): edge.htlc_maximum_msat for edges in own.values() for edge in edges}
    return World(network, balances, own, maxima, {node: ways.get(node, []) for node in made.nodes}, pairs[:options.before],
                 pairs[options.before:])


def failing(hops, balances, filled):
    """The place of the first hop whose edge has less than it is to carry beside what fills it, if there is one."""
    for place, hop in enumerate(hops[1:], 1):
        if balances[hop.scid, hop.start] - filled.get((hop.scid, hop.start), 0) < hop.amount_msat:
            return place
    return None


def paid(world, ends, amount, way):
    """What becomes of a payment by single routes."""
    liked = {"preferences": lgm.Preferences(*way.preferences)} if way.preferences else {}
    limits = []
    for tries in range(1, TRIES + 1):
        try:
            route = world.network.route(*ends, amount, HEIGHT, SECRET, limits=limits, most_delay=BLOCKS, **liked)
        except (lgm.NoRoute, lgm.Undecided):
            break
        failed = failing(route.hops, world.balances, {})
        if failed is None:
            return Outcome(tries, tries, 1, route.sent_msat - amount)
        limits.append(lgm.Limit(route.hops[failed].scid, route.hops[failed].start))
    return NOTHING


def next_parts(payment, network):
    """The parts that are next, and whether all of the amount is then under way."""
    parts = []
    try:
        while part := payment.next_part(network, HEIGHT):
            parts.append(part)
    except lgm.Fault:
        return parts, False
    return parts, True


def paid_by(payer, world, payee, amount):
    """What becomes of a payment of a payer, in rounds of parts that are sent at once."""
    payment = payer.pay(Invoice(payee, amount, SECRET, basic_mpp=True), Bounds(most_fee_msat=amount, most_tries=TRIES))
    filled, rounds = {}, 0
    while True:
        parts, is_whole = next_parts(payment, world.network)
        rounds += 1
        failures = 0
        for part in parts:
            failed = failing(part.route.hops, world.balances, filled)
            if failed is None:
                for hop in part.route.hops:
                    filled[hop.scid, hop.start] = filled.get((hop.scid, hop.start), 0) + hop.amount_msat
            else:
                payment.failed(part, failed, "temporary_channel_failure")
                failures += 1
        if is_whole and not failures or not parts:
            state = payment.state
            for part in payment.parts_under_way:  # as if it came back, since no balance moves here
                payment.failed(part, len(part.route.hops), "mpp_timeout")
            return Outcome(rounds, state.tries, state.parts_held, state.fee_msat) if is_whole and not failures else NOTHING


def paid_by_payers(world, amount, way, fades):
    """The outcomes of all payments of an amount, each by its payer, with what those before have learnt."""
    known, found, pairs = lgm.Estimates(), [], [*world.before, *world.pairs] if way.learns else world.pairs
    for count, (start, payee) in enumerate(pairs, 1):
        with Payer(start, estimates=known if way.learns else None) as payer:
            payer.set_channels(world.own.get(start, []), 0)
            found.append(paid_by(payer, world, payee, amount))
            if fades and count % fades == 0:
                payer.fade(world.network, 1, 1)
            known.close()
            known = payer.learnt()
    known.close()
    return found[-len(world.pairs):]


def outcomes(world, amount, way, fades):
    """The outcomes of all payments of an amount that are counted."""
    if way.is_payer:
        return paid_by_payers(world, amount, way, fades)
    return [paid(world, ends, amount, way) for ends in world.pairs]


def is_possible(world, ends, amount):
    """Whether a flow over the true balances makes a payment: augmented along shortest paths until it does, or none is left."""
    (payer, payee), flow, left = ends, {}, amount

    def room(scid, start, end):
        most = world.maxima.get((scid, start), 0)
        most = most and (most if start == payer else world.balances[scid, start])
        return most - flow.get((scid, start), 0) + flow.get((scid, end), 0)

    while left > 0:
        before, ring = {payer: None}, [payer]
        while ring and payee not in before:
            following = []
            for start in ring:
                for scid, end in world.ways[start]:
                    if end not in before and room(scid, start, end) > 0:
                        before[end] = scid, start
                        following.append(end)
            ring = following
        if payee not in before:
            return False
        path, end = [], payee
        while before[end]:
            path.append((*before[end], end))
            end = before[end][1]
        more = min(left, *(room(*step) for step in path))
        for scid, start, end in path:
            back = min(more, flow.get((scid, end), 0))
            flow[scid, end] = flow.get((scid, end), 0) - back
            flow[scid, start] = flow.get((scid, start), 0) + more - back
        left -= more
    return True


def share(found, limit, possible, kind="tries"):
    """How many payments arrived by a try, or by a round, as a part of those that are possible."""
    taken = [getattr(it, kind) for it in found]
    return sum(count is not None and count <= limit for count in taken) / possible if possible else 0.0


def fee_ppm(found, everywhere, amount):
    """The median fee of the payments that arrived by each way, in ppm."""
    fees = [found[place].fee * 1_000_000 / amount for place in everywhere]
    return f"{median(fees):.0f} ppm" if fees else "-"


def mean_of(found, kind):
    """The mean of the tries, or the parts, of payments that arrived."""
    taken = [getattr(it, kind) for it in found if it.tries is not None]
    return f"{mean(taken):.1f}" if taken else "-"


def rows(sat, possible, by_way):
    """The rows of an amount, with a column for each way."""
    everywhere = [place for place, each in enumerate(zip(*by_way)) if all(it.tries is not None for it in each)]
    first = f"{sat:,} sat"
    for kind, limits in (("rounds", (1, 3, 10)), ("tries", (3, 20, TRIES))):
        for limit in limits:
            yield first, f"within {limit} {kind if limit > 1 else kind[:-1]}", f"{possible}", [
                f"{share(found, limit, possible, kind):.0%}" for found in by_way]
            first = ""
    yield "", "parts, if it arrived", "", [mean_of(found, "parts") for found in by_way]
    yield "", "tries, if it arrived", "", [mean_of(found, "tries") for found in by_way]
    yield "", f"fee, of {len(everywhere)} that arrived each way", "", [fee_ppm(found, everywhere, 1_000 * sat) for found in by_way]


def panel(place, title, possible, by_way):
    """The part of the picture that shows an amount: the share that arrived, by tries, for each way."""
    left, top = 60 + 355 * (place % 2), 90 + 230 * (place // 2)
    width, height = 290, 160
    across = [left + width * (tries - 1) / (SHOWN - 1) for tries in range(1, SHOWN + 1)]
    yield plot.text(left, top - 10, "start", title, 13, "#111")
    for part in (0, 25, 50, 75, 100):
        y = top + height - height * part / 100
        yield f'<path d="M{left} {y:g}H{left + width}" stroke="{"#ddd" if part else "#888"}"/>'
        yield plot.text(left - 8, round(y + 4, 1), "end", f"{part} %", 11)
    for tries in (1, 5, 10, 15, 20):
        yield plot.text(round(across[tries - 1], 1), top + height + 16, "middle", str(tries), 11)
    for color, found in zip(plot.COLORS, by_way):
        points = " ".join(f"{x:.1f},{top + height * (1 - share(found, tries, possible)):.1f}" for tries, x in enumerate(across, 1))
        yield f'<polyline points="{points}" fill="none" stroke="{color}" stroke-width="2"/>'


def picture(options, taken):
    """The shares that arrived by each try, a panel for each amount."""
    parts = ['<svg xmlns="http://www.w3.org/2000/svg" viewBox="0 0 760 570" width="760" height="570" font-family="sans-serif">',
             "<title>Payments that arrived, by tries</title>", '<rect width="760" height="570" fill="#fff"/>',
             plot.text(20, 26, "start", "Payments that arrived, by tries", 16, "#111"),
             plot.text(20, 46, "start", f"{options.channels:,} channels, {options.payments} payments of each amount, "
                                        "over balances that nobody knows; of those that a flow makes")]
    for place, sat in enumerate(SHOWN_AMOUNTS):
        parts += panel(place, f"{sat:,} sat", *taken[sat])
    for place, (color, way) in enumerate(zip(plot.COLORS, WAYS)):
        x, y = 60 + 235 * (place % 3), 530 + 20 * (place // 3)
        parts += [f'<path d="M{x} {y - 4}h20" stroke="{color}" stroke-width="2"/>', plot.text(x + 26, y, "start", way.name)]
    return "\n".join([*parts, "</svg>", ""])


def main():
    """Prints the table, and draws the picture."""
    options = words()
    lgm.library.LIBRARY = options.library.resolve()
    world, taken = drawn(options), {}
    print(f"| amount | arrived | possible | {' | '.join(way.name for way in WAYS)} |")
    print(f"|---|---|---|{'---|' * len(WAYS)}")
    with world.network:
        for sat in options.amounts:
            possible = sum(is_possible(world, ends, 1_000 * sat) for ends in world.pairs)
            taken[sat] = possible, [outcomes(world, 1_000 * sat, way, options.fades) for way in WAYS]
            for amount, what, flow, cells in rows(sat, *taken[sat]):
                print(f"| {amount} | {what} | {flow} | {' | '.join(cells)} |", flush=True)
    if options.picture:
        PICTURE.write_text(picture(options, taken))


if __name__ == "__main__":
    main()
