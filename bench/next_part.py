#!/usr/bin/env python3
"""Measures what a payer's next part costs, beside the search for a route over the same lists.

    python3 bench/next_part.py

On a synthetic network of 45,000 channels a payer that has learnt of 20,000 edges pays between random nodes, over its own channels,
and asks for one part of each payment. Beside it the same route is asked for by `Map.route`: over the same edges, with the same
preferences and estimates, and within the same delay. They take turns, payment by payment; of several runs the least time of each
counts, and only payments with a route. Then a payer is measured that has something under way over an edge of which something is
known, so that what it has learnt is copied, and what it costs to tell of a failure. Times are CPU time of a call from Python.
The library is built by examples/build-c.
"""

import argparse
import random
import sys
import time
from pathlib import Path
from statistics import median

sys.dont_write_bytecode = True  # the repository gets no made files

from top import TOP

import lgm
from gossip.networks import Network
from gossip.workloads import HEIGHT
from lgm.payer import Bounds, Invoice, Payer
from paying import BLOCKS, SECRET, offer_all, own_channels
from preferred import learnt

FINAL = 18 + 3  # blocks
SAT = 100_000


def words():
    """The words of the command line."""
    parser = argparse.ArgumentParser(description=__doc__, formatter_class=argparse.RawDescriptionHelpFormatter)
    add = parser.add_argument
    add("--library", type=Path, default=TOP / "examples" / "out" / "liblgm.so", help="examples/out/liblgm.so if left out")
    add("--channels", type=int, default=45_000, help="of the network; 45,000 if left out")
    add("--payments", type=int, default=500, help="that are asked for; 500 if left out")
    add("--runs", type=int, default=5, help="the least of these counts; 5 if left out")
    return parser.parse_args()


def taken(call, *arguments, **named):
    """The time of a call in ns, and what it returns; None if it raises a fault."""
    started = time.process_time_ns()
    try:
        found = call(*arguments, **named)
    except lgm.Fault:
        found = None
    return time.process_time_ns() - started, found


def measured(network, own, estimates, ends):
    """The times of a search, of a next part, of one beside something under way, and of a failure; None without a route."""
    start, payee = ends
    amount = 1_000 * SAT
    usual = lgm.Preferences(max(amount * 200 // 1_000_000, min(20_000, amount // 100)), 500)
    search, route = taken(network.route, start, payee, amount, HEIGHT + FINAL, SECRET, edges=own, silent=[start],
                          preferences=usual, estimates=estimates, most_delay=BLOCKS - FINAL)
    with Payer(start, estimates=estimates) as payer:
        payer.set_channels(own, 0)
        invoice, bounds = Invoice(payee, amount, SECRET), Bounds(most_fee_msat=amount)
        payment, beside = payer.pay(invoice, bounds), payer.pay(invoice, bounds)
        alone, part = taken(payment.next_part, network, HEIGHT)
        if route is None or part is None:
            return None
        assert part.route.hops[-1].end == payee and [hop.scid for hop in part.route.hops] == [hop.scid for hop in route.hops]
        second, _ = taken(beside.next_part, network, HEIGHT)
        failure, _ = taken(payment.failed, part, len(part.route.hops), "mpp_timeout")
    return search, alone, second, failure


def main():
    """Prints the medians."""
    options = words()
    lgm.library.LIBRARY = options.library.resolve()
    made, numbers = Network(options.channels, 1), random.Random(1)
    with offer_all(made) as network, learnt(made, numbers) as estimates:
        own, _ = own_channels(network)
        pairs = [tuple(numbers.sample(made.nodes, 2)) for _ in range(options.payments)]
        least = {}
        for _ in range(options.runs):
            for place, ends in enumerate(pairs):
                if times := measured(network, own.get(ends[0], []), estimates, ends):
                    least[place] = [min(pair) for pair in zip(times, least.get(place, times))]
    columns = [median(each) / 1_000 for each in zip(*least.values())]
    print(f"{len(least)} payments of {SAT:,} sat, medians in µs")
    for name, found in zip(("the search for the route", "a next part", "one beside another part", "a failure"), columns):
        print(f"{name:<28}{found:>9.0f}{found / columns[0]:>8.2f}")


if __name__ == "__main__":
    main()
