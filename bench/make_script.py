#!/usr/bin/env python3
"""Writes a synthetic network as a script of `lgm run`: the same bytes for the same words."""

import argparse
import sys

sys.dont_write_bytecode = True  # the repository gets no made files

import top  # leads to gossip

from gossip.networks import Network
from gossip.workloads import WORKLOADS


def words():
    """The words of the command line."""
    parser = argparse.ArgumentParser(description=__doc__)
    parser.add_argument("--channels", type=int, default=45_000, help="how many; 45000 if left out")
    parser.add_argument("--workload", choices=WORKLOADS, default="sync")
    parser.add_argument("--seed", type=int, default=1)
    options = parser.parse_args()
    if options.channels < 1:
        parser.error("a network has a channel at least")
    return options


def main():
    """Writes the script to standard output."""
    options = words()
    network = Network(options.channels, options.seed)
    sys.stdout.reconfigure(encoding="ascii", newline="\n")
    sys.stdout.writelines(WORKLOADS[options.workload](network))


if __name__ == "__main__":
    main()
