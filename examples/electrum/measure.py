#!/usr/bin/env python3
"""Measures both path finders on synthetic networks: how much the payer sends, and how long each takes.

    LGM_LIBRARY=examples/out/liblgm.so python3 examples/electrum/measure.py [--payments N] [--seed N]

Prints the table of README.md. Payments are those for which both find a route. It continues in the system's Python if
that has Electrum's package.
"""

from __future__ import annotations

import argparse
import sys
import tempfile
from pathlib import Path
from statistics import median

sys.dont_write_bytecode = True  # the repository gets no made files

import interpreter

if not interpreter.goes_on_with_electrum():
    sys.exit(f"nothing to measure, {interpreter.WHY_NOT}")

from comparing import compared
from offline import Offline, made_network
from path_finder import MappedChannelDB

CHANNELS = (56, 562, 5_625, 45_000)
HEAD = ("nodes", "channels", "payments", "dearer by the wallet", "fees, the wallet's more (median of those)",
        "fees of all payments, ours and the wallet's", "ours, ms", "the wallet's, ms")


def row(database, count, seed):
    """A row of the table."""
    found = [case for case in compared(database, count, seed) if case.found and case.wallets]
    assert not any(case.faults() for case in found)
    fees = [(case.found.sent_msat - case.payment.amount_msat, case.wallets.amount_msat - case.payment.amount_msat)
            for case in found]
    dearer = [(ours, wallets) for ours, wallets in fees if wallets > ours]
    more = median([(wallets - ours) / ours for ours, wallets in dearer if ours] or [0])
    times = [sorted(1_000 * case.seconds[which] for case in found[1:]) for which in (0, 1)]  # the first builds the view
    spans = [f"{median(own):.2f} ({own[len(own) // 10]:.2f} to {own[len(own) * 9 // 10]:.2f})" for own in times]
    nodes = sum(1 for channels in database._channels_for_node.values() if channels)
    totals = [sum(own) / 1_000 for own in zip(*fees)]
    return (f"{nodes:,}", f"{database.num_channels:,}", str(len(found)), f"{100 * len(dearer) / len(found):.0f} %",
            f"{100 * more:.0f} %", f"{totals[0]:,.0f} and {totals[1]:,.0f} sat", *spans)


def main():
    """Prints the table."""
    parser = argparse.ArgumentParser(description=__doc__, formatter_class=argparse.RawDescriptionHelpFormatter)
    parser.add_argument("--payments", type=int, default=300, metavar="N", help="over each network; 300 if left out")
    parser.add_argument("--seed", type=int, default=1, metavar="N", help="of networks and payments; 1 if left out")
    options = parser.parse_args()
    print("|", " | ".join(HEAD), "|")
    print("|---" * len(HEAD) + "|")
    with tempfile.TemporaryDirectory() as folder, Offline(folder) as offline:
        for channels in CHANNELS:
            offline.config.path = str(Path(folder) / str(channels))
            Path(offline.config.path).mkdir()
            database = offline.database(MappedChannelDB)
            offline.fill(database, made_network(channels, options.seed))
            print("|", " | ".join(row(database, options.payments, options.seed)), "|", flush=True)


if __name__ == "__main__":
    main()
