#!/usr/bin/env python3
"""A service that pays in four threads, while another one follows gossip. What becomes of a try is made up: one edge in ten fails.

    python3 examples/python/service.py                     # with the package `lgm` installed
    PYTHONPATH=python python3 examples/python/service.py   # in a clone, after examples/build-c
"""

import random
import sys
import threading
from pathlib import Path
from queue import SimpleQueue

sys.path.append(str(Path(__file__).resolve().parents[2]))

from gossip.messages import CHAIN
from gossip.networks import Network
from gossip.workloads import HEIGHT, sync, updates
from lgm import ALL_FOUR, Board, Edge, Fault, Map, Refused
from lgm.payer import Bounds, Invoice, Payer

CHANNELS, PAYMENTS, READERS, ROUND = 2_000, 200, 4, 100


def follow(board, network, lines):
    """The writer: offers each message, and publishes the map after each hundred."""
    for count, (_, message, sig, funding) in enumerate((line.split() for line in lines if line[:2] == "m "), 1):
        try:
            network.offer(bytes.fromhex(message), sig if sig == ALL_FOUR else bytes.fromhex(sig),
                          int(funding) if funding.isdigit() else funding)
        except Refused:
            pass
        if count % ROUND == 0:
            board.publish()


def send(part, draws):
    """What becomes of a part: the place of the node that can't forward it, or None if the payee holds it."""
    return next((place for place in range(1, len(part.route.hops)) if draws.random() < 0.1), None)


def pay(board, payer, invoice, draws):
    """How a payment ends: the payee takes the whole once all parts have come, and else gives back what it holds."""
    payment = payer.pay(invoice, Bounds(most_fee_msat=invoice.amount_msat // 50))
    try:
        while part := payment.next_part(board.latest(), HEIGHT):
            if (place := send(part, draws)) is not None:
                payment.failed(part, place, "temporary_channel_failure")
    except Fault as why:
        for part in payment.parts_under_way:
            payment.failed(part, len(part.route.hops), "mpp_timeout")
        return type(why).__name__
    payment.fulfilled()
    return "paid"


def read(board, payer, invoices, ends, seed):
    """A reader: pays one invoice after the other, each over the latest map."""
    draws = random.Random(seed)
    while (invoice := invoices.get()) is not None:
        ends.put(pay(board, payer, invoice, draws))


def main():
    """Loads a made network, pays beside the updates that come, and counts how the payments ended."""
    made = Network(CHANNELS, 1)
    invoices, ends = SimpleQueue(), SimpleQueue()
    point = b"\2" * 33
    with Map(CHAIN) as network, Payer(point) as payer:
        with Board(network) as board:
            follow(board, network, sync(made))
            payer.set_channels([Edge(scid, point, node) for scid, node in enumerate(made.nodes[:5])], reckoned=0)
            for node in made.nodes[-PAYMENTS:]:
                invoices.put(Invoice(node, 50_000_000, bytes(32), basic_mpp=True))
            readers = [threading.Thread(target=read, args=(board, payer, invoices, ends, seed)) for seed in range(READERS)]
            for reader in readers:
                invoices.put(None)
                reader.start()
            follow(board, network, updates(made))
            for reader in readers:
                reader.join()
    found = [ends.get() for _ in range(PAYMENTS)]
    print(", ".join(f"{found.count(end)} {end}" for end in sorted(set(found))))


if __name__ == "__main__":
    main()
