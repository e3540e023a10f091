#!/usr/bin/env python3
"""Announces the channels of examples/payments.txt to a map, and asks for the route of its first payment.

    python3 examples/python/route.py                     # with the package `lgm` installed
    PYTHONPATH=python python3 examples/python/route.py   # in a clone, after examples/build-c
"""

from pathlib import Path

from lgm import ALL_FOUR, Map, Unrouted

SCRIPT = Path(__file__).resolve().parent.parent / "payments.txt"
CHAIN = b"\xc1" * 32
LINES = [line.split() for line in SCRIPT.read_text().splitlines() if line and not line.startswith("#")]


def offer(network, message, sig, funding):
    """Offers the message of a script's line."""
    network.offer(
        bytes.fromhex(message), ALL_FOUR if sig == "all" else bytes.fromhex(sig),
        funding if funding == "-" else int(funding))


with Map(CHAIN) as network:
    for word, *fields in LINES[:6]:
        offer(network, *fields)
    print(len(network), "channels")
    _, payer, payee, amount, expiry, secret = next(line for line in LINES if line[0] == "route")
    try:
        route = network.route(
            bytes.fromhex(payer), bytes.fromhex(payee), int(amount), int(expiry), bytes.fromhex(secret))
    except Unrouted as reason:
        print(reason)
    else:
        print(f"{route.sent_msat} msat over {len(route.hops)} channels, until block {route.expiry}")
        for hop in route.hops:
            print(f"{hop.amount_msat} msat to {hop.end.hex()}: {hop.payload.hex()}")
