#!/usr/bin/env python3
"""Compares the route in docs/route.svg with the one that `lgm` finds, and the picture with the one that would be drawn.

    python3 bench/test_route_picture.py [PROGRAM]
"""

import subprocess
import sys

sys.dont_write_bytecode = True  # the repository gets no made files

from route_picture import AMOUNT, EXPIRY, PICTURE, SECRET, found, picture
from top import TOP

from gossip.messages import CHAIN, scid_text

PROGRAM = sys.argv[1] if len(sys.argv) > 1 else TOP / "lgm"


def main():
    """The search of the picture finds the amount and the channels that the program finds."""
    script, search = found()
    assert PICTURE.read_text() == picture(search), "docs/route.svg isn't what bench/route_picture.py draws"
    payment = f"route {search.payer.hex()} {search.payee.hex()} {AMOUNT} {EXPIRY} {SECRET}\n"
    words = [PROGRAM, "run", "--chain", CHAIN.hex()]
    text = "".join([*script, "commit\n", payment])
    answers = subprocess.run(words, input=text, capture_output=True, check=True, text=True).stdout.splitlines()
    route = next(line.split() for line in answers if line.split()[1] == "route")
    hops = [line.split()[2] for line in answers if line.split()[1] == "hop"]
    sent, count, walk = search.best
    assert (int(route[2]), int(route[4])) == (sent, count), route
    assert hops == [scid_text(edge.scid) for edge in walk], hops
    print("2 passed")


if __name__ == "__main__":
    main()
