#!/usr/bin/env python3
"""Measures payments by what a payer prefers, over the library, beside plain ones.

    python3 bench/preferred.py

On a synthetic network of 45,000 channels the same payments between random nodes are asked for plainly, by preferences, and by
preferences with 20,000 estimates, in turns of all payments of an amount, so that all meet the same hour of the machine; without
a limit of the delay and within one. Times are CPU time of a call of `Map.route`, of which the Python module takes some ten
microseconds; of several runs the least of each payment counts. Then come the hostile networks of gossip/hostile.py, by the
library's own budget. The library is built by examples/build-c.
"""

import argparse
import random
import sys
import time
from pathlib import Path
from typing import NamedTuple

sys.dont_write_bytecode = True  # the repository gets no made files

from top import TOP

import lgm
from gossip.hostile import AMOUNT, PAYER, Hostile, messages
from gossip.messages import CHAIN
from gossip.networks import Network
from gossip.workloads import HEIGHT
from paying import offer_all

AMOUNTS = (10_000, 100_000, 1_000_000)  # sat
ESTIMATES = 20_000
DELAYS = (None, 2_016, 576)  # blocks
HOSTILE = tuple(Hostile(links, sides, least_fee) for links, sides in ((10, 500), (13, 30)) for least_fee in
                (None, 1, 2 ** (links - 1), 2**links - 1))
SECRET = bytes(32)
COLUMNS = ("median µs", "99 % µs", "most µs", "routes", "so far", "undecided")


class Asking(NamedTuple):
    """A way of asking for a route: its name, and the arguments that it adds."""

    name: str
    liked: dict


class Answer(NamedTuple):
    """What a payment took, in ns, and what came of it."""

    taken: int
    word: str  # "route", "so far", or that of the fault


def words():
    """The words of the command line."""
    parser = argparse.ArgumentParser(description=__doc__, formatter_class=argparse.RawDescriptionHelpFormatter)
    add = parser.add_argument
    add("--library", type=Path, default=TOP / "examples" / "out" / "liblgm.so", help="examples/out/liblgm.so if left out")
    add("--channels", type=int, default=45_000, help="of the network; 45,000 if left out")
    add("--payments", type=int, default=1_000, help="of each amount; 1,000 if left out")
    add("--runs", type=int, default=3, help="the least of these counts; 3 if left out")
    add("--seed", type=int, default=1, help="of the network and the payments; 1 if left out")
    add("--failure", type=int, default=20_000, help="what a failed try is worth, in msat; 20,000 if left out")
    add("--hop", type=int, default=500, help="what a hop is worth, in msat; 500 if left out")
    return parser.parse_args()


def learnt(made, numbers):
    """Estimates of random edges, as failed and as successful tries leave them."""
    estimates = lgm.Estimates()
    edges = [(int.from_bytes(channel.scid, "big"), node, 1_000 * channel.capacity) for channel in made.channels
             for node in channel.nodes]
    for scid, node, capacity in numbers.sample(edges, min(ESTIMATES, len(edges))):
        amount = numbers.randrange(1, capacity)
        if numbers.randrange(2):
            estimates.carried(scid, node, amount)
        else:
            estimates.failed(scid, node, amount)
    return estimates


def answered(network, payment, **asked):
    """A payment's answer."""
    started = time.process_time_ns()
    try:
        word = "route" if network.route(*payment, HEIGHT, SECRET, **asked).is_best else "so far"
    except lgm.Fault as fault:
        word = fault.word
    return Answer(time.process_time_ns() - started, word)


def in_turns(network, payments, askings, most_delay, runs):
    """The answers to all payments by each way of asking, of which the least time of several runs counts. A way has all payments
    before the next one has its turn, as a payer asks: so each finds its own data in the processor's caches."""
    best = {asking.name: {} for asking in askings}
    for run in range(runs):
        turn = run % len(askings)
        for name, liked in (*askings[turn:], *askings[:turn]):
            for place, payment in enumerate(payments):
                answer = answered(network, payment, most_delay=most_delay, **liked)
                best[name][place] = min(answer, best[name].get(place, answer))
    return {name: list(answers.values()) for name, answers in best.items()}


def line(name, answers):
    """A line of the table."""
    times = sorted(answer.taken for answer in answers)
    quantiles = (times[len(times) // 2], times[len(times) * 99 // 100], times[-1])
    counts = [sum(answer.word == word for answer in answers) for word in ("route", "so far", "undecided")]
    return f"{name:<44}" + "".join(f"{it / 1_000:>11.0f}" for it in quantiles) + "".join(f"{it:>11}" for it in counts)


def print_payments(options, made, numbers):
    """The tables of payments over a synthetic network."""
    liked = {"preferences": lgm.Preferences(options.failure, options.hop)}
    with offer_all(made) as network, lgm.Estimates() as nothing, learnt(made, numbers) as estimates:
        askings = (Asking("plain", {}), Asking("preferred", {**liked, "estimates": nothing}),
                   Asking(f"preferred, {len(estimates):,} estimates", {**liked, "estimates": estimates}))
        for most_delay in DELAYS:
            limit = f"within {most_delay:,} blocks" if most_delay else "any delay"
            print(f"{limit:<44}" + "".join(f"{column:>11}" for column in COLUMNS))
            for sat in AMOUNTS:
                payments = [(*numbers.sample(made.nodes, 2), 1_000 * sat) for _ in range(options.payments)]
                answered(network, payments[0])  # builds the view
                for name, answers in in_turns(network, payments, askings, most_delay, options.runs).items():
                    print(line(f"{sat:,} sat, {name}", answers), flush=True)
            print()


def hostile_lines(options):
    """The lines of the hostile networks."""
    liked = {"preferences": lgm.Preferences(options.failure, options.hop)}
    for hostile in HOSTILE:
        with lgm.Map(CHAIN) as network:
            for offered in messages(hostile):
                network.offer(*offered)
            answered(network, (PAYER, hostile.payee, AMOUNT), most_hops=1)  # builds the view
            for name, asked in (("plain", {}), ("preferred", liked)):
                payment = PAYER, hostile.payee, AMOUNT
                answers = [answered(network, payment, most_delay=hostile.most_delay, **asked) for _ in range(options.runs)]
                fits = f"fees from {hostile.least_fee} on fit" if hostile.least_fee is not None else "no walk fits"
                yield (f"{f'{len(network):,} channels, {hostile.most_delay:,} blocks, {fits}, {name}':<72}"
                       f"{min(answers).taken / 1e6:>9.1f}  {min(answers).word}")


def main():
    """Prints the tables."""
    options = words()
    lgm.library.LIBRARY = options.library.resolve()
    print_payments(options, Network(options.channels, options.seed), random.Random(options.seed))
    print(f"{'hostile networks':<72}{'ms':>9}  answer")
    for found in hostile_lines(options):
        print(found, flush=True)


if __name__ == "__main__":
    main()
