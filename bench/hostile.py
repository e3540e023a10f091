#!/usr/bin/env python3
"""Measures payments over synthetic networks in which a search has to store many labels.

A row of nodes, each with channels to the twenty behind it, of which the longer charge so much
more that no number of hops dominates another; and a payer who has 250 other neighbours.
Prints, for each network, the time of three payments beyond that of reading the network.
"""

import argparse
import os
import sys
import tempfile
from pathlib import Path

sys.dont_write_bytecode = True  # the repository gets no made files

import running
import top  # leads to gossip
from measure import MEGABYTE, PROGRAM

from gossip.messages import (
    CHAIN, HAS_MAXIMUM, ChannelAnnouncement, ChannelUpdate, channel_line, short_channel_id, signed_line)

AMOUNT = 1_000_000  # msat
EXPIRY = 700_000
REACH = 20  # how many nodes on a channel leads at most
NEIGHBOURS = 250
CAPACITY = 2_100_000_000  # sat
SECRET = "11" * 32
FREE = (0, 0)


def convex(step, noise):
    """The square of the step, in a base fee."""
    return 1000 * step * step + noise, 0


def millionths(step, noise):
    """The same for the proportional fee, in ppm."""
    return 0, 1000 * step * step + noise


def equal(_step, _noise):
    """A base fee that is the same for all."""
    return 1000, 0


NETWORKS = {"convex": (convex, 1), "millionths": (millionths, 1), "side by side": (convex, 3), "equal": (equal, 3)}


def point(number):
    """A node's point. Points order as their numbers do."""
    return b"\x02" + number.to_bytes(32, "big")


def channel(block, first, second, fees):
    """A channel from a node to a later one, and the update of that direction."""
    scid, nodes = short_channel_id(block, 0, 0), (point(first), point(second))
    yield channel_line(ChannelAnnouncement(CHAIN, scid, nodes).encode(bitcoin_keys=nodes), CAPACITY)
    update = ChannelUpdate(CHAIN, scid, 1, HAS_MAXIMUM, 0, 40, 1, *fees, CAPACITY * 1000)
    yield signed_line(update.encode(), nodes[0])


def channels(size, charges, beside):
    """The pairs of nodes that a channel joins, with its fees: the payer is node 0, the payee the last of the row."""
    yield 0, 1, FREE
    for neighbour in range(size + 1, size + 1 + NEIGHBOURS):
        yield 0, neighbour, FREE
    for first in range(1, size):
        for second in range(first + 1, min(first + REACH, size) + 1):
            for number in range(beside):
                noise = (first * 7919 + second * 104729 + number * 31) % 100
                yield first, second, charges(second - first, noise)


def lines(size, charges, beside):
    """The network as a script."""
    for block, (first, second, fees) in enumerate(channels(size, charges, beside), 1):
        yield from channel(block, first, second, fees)
    yield "commit\n"


def payments(size):
    """Two payments in one group, and one alone."""
    payment = f"route {point(0).hex()} {point(size).hex()} {AMOUNT} {EXPIRY} {SECRET}\n"
    return [payment, payment, "commit\n", payment]


def measured(program, script, runs):
    """The minimum of some runs."""
    running.bytes_answered(program, script)
    return running.least([running.run(program, script) for _ in range(runs)])


def measure(options, size, charges, beside, folder):
    """The time of the network alone, and with the payments."""
    script = Path(folder, "script")
    program = running.command(options.program.resolve(), "hostile", options.workers)
    script.write_text("".join(lines(size, charges, beside)))
    alone = measured(program, script, options.runs)
    with open(script, "a") as more:
        more.writelines(payments(size))
    return alone, measured(program, script, options.runs)


def words():
    """The words of the command line."""
    parser = argparse.ArgumentParser(description=__doc__)
    add = parser.add_argument
    add("--program", type=Path, default=PROGRAM, help="crates/lgm/out/lgm if left out")
    add("--sizes", type=lambda text: [int(word) for word in text.split(",")], default=[40, 80, 160])
    add("--workers", type=int, default=1, help="threads of the program; 1 if left out")
    add("--runs", type=int, default=3, help="the least of these counts; 3 if left out")
    options = parser.parse_args()
    if not os.access(options.program, os.X_OK):
        parser.error(f"{options.program} isn't built")
    return options


def main():
    """Prints the table."""
    options = words()
    print(f"{'network':<14}{'nodes':>7}{'cpu s':>10}{'of them':>10}{'memory MB':>12}{'of them':>10}")
    with tempfile.TemporaryDirectory(prefix="lgm-bench-") as folder:
        for name, (charges, beside) in NETWORKS.items():
            for size in options.sizes:
                alone, paid = measure(options, size, charges, beside, folder)
                print(f"{name:<14}{size:>7}{paid.processor:>10.3f}{paid.processor - alone.processor:>10.3f}"
                      f"{paid.memory / MEGABYTE:>12.1f}{(paid.memory - alone.memory) / MEGABYTE:>10.1f}", flush=True)


if __name__ == "__main__":
    main()
