#!/usr/bin/env python3
"""Compares the program with Electrum, a wallet whose codec, gossip database, peer code and onions are independent of it.

    python3 tests/electrum.py [PROGRAM] [--times N] [--seed N]

PROGRAM is ./lgm if left out. Cases are random, the same ones for the same seed, and N times as many with `--times N`:

- messages of all eight kinds, whole and damaged, decoded by both. decoding.py lists what the wallet is laxer in;
- gossip that is signed with real keys, rightly and wrongly, judged by the wallet. What both take comes back byte for
  byte, from queries and filters, and the wallet's own code verifies and takes it again;
- replies to queries of a range and of ids, by which the wallet's own peer code synchronizes;
- payments: the wallet makes the same amounts, expiries and payloads of each route, and the onion around the payloads is
  peeled by the keys of its hops.

Then each part runs again with one answer of the program spoiled, and has to notice it. The modules are in
`beside_electrum`. It continues in the system's Python if that has Electrum's package (python3-electrum). Without the
package it is left out, with status 77.
"""

from __future__ import annotations

import argparse
import random
import sys
import tempfile
import time
from pathlib import Path

sys.dont_write_bytecode = True  # the repository gets no made files

TOP = Path(__file__).resolve().parent.parent
# In the place of this folder, in which a file is called electrum.py.
sys.path[:1] = [str(TOP / part) for part in ("tests/beside_electrum", "examples/electrum", "examples/tools")]

import interpreter

if not interpreter.goes_on_with_electrum():
    print(f"left out: tests/electrum.py, {interpreter.WHY_NOT}")
    sys.exit(77)

from electrum import constants
from electrum.version import ELECTRUM_VERSION

import decoding
import paying
import serving
from client import Client
from offline import Offline
from program import Answers, Difference, Spoiled, fewer, last_digit, more_sent, other_id, word_for

MESSAGES, NETWORKS, IDS, PAYMENTS = 3_000, 6, 9_500, 100  # cases of each part, before --times
FEW = 400  # messages for a planted fault


class Parts:
    """The parts of the comparison, each of which runs over a process of its own."""

    def __init__(self, program, offline, seed):
        self._program, self._offline, self._seed = program, offline, seed

    def run(self, part, number, spoil=None):
        """What a part tells, with random cases of this number. Whether an answer was spoiled, if one was to be."""
        drawn = random.Random(f"{self._seed} {part.__name__} {number}")
        with Client(constants.net.rev_genesis_bytes().hex(), self._program) as client:
            answers = Spoiled(client, spoil) if spoil else Answers(client)
            return part(answers, drawn, self._offline)


def decoded(answers, drawn, _, count=MESSAGES):
    """Messages of all eight kinds."""
    return decoding.check(answers, drawn, count)


def few_decoded(answers, drawn, offline):
    """Some of them."""
    return decoded(answers, drawn, offline, FEW)


def judged(answers, drawn, offline):
    """Signed gossip."""
    return serving.check_gossip(answers, drawn, offline)


def synchronized(answers, drawn, offline):
    """A range."""
    return serving.check_range(answers, drawn, offline, IDS)


def paid(answers, drawn, offline):
    """Payments over a network with many routes."""
    return paying.check(answers, drawn, offline, 12, 30, PAYMENTS)


def paid_in_a_line(answers, drawn, offline):
    """Payments over a line, up to the longest route."""
    return paying.check(answers, drawn, offline, paying.LONGEST + 1, paying.LONGEST, PAYMENTS // 5)


# What a fault of the program would look like, and the part that has to notice it.
PLANTED = (
    ("a malformed message is taken", few_decoded, word_for("malformed", "not-gossip")),
    ("a good message is malformed", few_decoded, word_for("signature", "malformed")),
    ("a message of another chain is taken", few_decoded, word_for("chain", "signature")),
    ("a reply has another last byte", few_decoded, last_digit("q ")),
    ("a signed item is refused", judged, word_for("accepted", "signature")),
    ("an item that isn't signed is accepted", judged, word_for("signature", "accepted")),
    ("a stored message has another last byte", judged, lambda line, answer: (
        [answer[0][:-1] + f"{15 - int(answer[0][-1], 16):x}", *answer[1:]] if line.startswith("q ") else None)),
    ("a stored message isn't sent", judged, fewer("q 0105", 1)),
    ("a message isn't sent that passes a filter", judged, fewer("filter ", 1)),
    ("a reply to a range isn't sent", synchronized, fewer("q 0107", 1)),
    ("the last reply to a range isn't sent", synchronized, fewer("q 0107", 2)),
    ("a reply to a range has another id", synchronized, other_id),
    ("a route sends more than its hops", paid, more_sent(1)),
    ("a route expires later than its hops", paid, more_sent(2)),
    ("a payload has another last byte", paid, last_digit("route ")))


def plant(parts):
    """Runs the parts with spoiled answers. How many faults were noticed; raises Difference at one that wasn't."""
    for number, (name, part, spoil) in enumerate(PLANTED):
        spoiled = []

        def noted(line, answer, spoil=spoil, spoiled=spoiled):
            changed = spoil(line, answer)
            if changed is not None:
                spoiled.append(line)
            return changed

        try:
            parts.run(part, f"planted {number}", noted)
        except Difference:
            pass
        else:
            why = "wasn't noticed" if spoiled else "found nothing to spoil"
            raise Difference(f"the planted fault {name!r} {why}")
        if not spoiled:
            raise Difference(f"the part of {name!r} differs before anything is spoiled")
    return len(PLANTED)


def compare(parts, times):
    """Runs all parts, and prints what they compared."""
    for number in range(times):
        told = parts.run(decoded, number)
        names = "; ".join(f"{count} {name}" for name, count in sorted(told.items(), key=lambda item: -item[1]))
        print(f"messages: {sum(told.values())} decoded by both: {names}", flush=True)
        found = [parts.run(judged, f"{number} {more}") for more in range(NETWORKS)]
        print(f"gossip: {sum(taken for taken, _ in found)} signed items taken by both, and served again, "
              f"{sum(refused for _, refused in found)} refused by both", flush=True)
        count, replies = parts.run(synchronized, number)
        print(f"synchronization: {count} ids in {replies} replies", flush=True)
        found = [parts.run(part, number) for part in (paid, paid_in_a_line)]
        print(f"payments: {sum(count for count, _ in found)} with the wallet's payloads, their onions peeled, of up to "
              f"{max(most for _, most in found)} hops", flush=True)


def arguments():
    """The words of the command line."""
    parser = argparse.ArgumentParser(description=__doc__, formatter_class=argparse.RawDescriptionHelpFormatter)
    parser.add_argument("program", nargs="?", default=TOP / "lgm", help="./lgm if left out")
    parser.add_argument("--times", type=int, default=1, metavar="N", help="so many times as many cases")
    parser.add_argument("--seed", type=int, default=1, metavar="N", help="of the cases; 1 if left out")
    return parser.parse_args()


def main():
    """Compares, and plants faults."""
    words, begun = arguments(), time.monotonic()
    with tempfile.TemporaryDirectory() as folder, Offline(folder) as offline:
        parts = Parts(words.program, offline, words.seed)
        try:
            compare(parts, words.times)
            noticed = plant(parts)
        except Difference as difference:
            print(f"DIFFERS, with --seed {words.seed}: {difference}")
            sys.exit(1)
    print(f"planted faults: {noticed} of {len(PLANTED)} noticed")
    print(f"Electrum {ELECTRUM_VERSION}, seed {words.seed}: no other differences, {time.monotonic() - begun:.0f} s")


if __name__ == "__main__":
    main()
