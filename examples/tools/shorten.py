#!/usr/bin/env python3
"""Shortens the lines that are kept for a restart: writes the least list of them that gives the same map, bans included.

    python3 examples/tools/shorten.py [--chain HEX] [--program PROGRAM] KEPT > shorter.txt

KEPT has the items that were accepted so far, `m` and `close` lines in their order; other lines, and items that are
refused, are left out. What is written is, in this order: for each ban its two announcements; the announcement of each
channel of the map; the latest update of each of its directions; the latest announcement of each node. None of these
lines can be left out, and none of what a close removed is needed. Each of them is as it is in KEPT, and all are accepted
by a new process. docs/operating.md says when to do this.

CHAIN is that of the first announcement if left out, and PROGRAM is ./lgm. The result is compared with KEPT in the program
before it is written: the channels of the map with all of their messages. The exit status is 1, and nothing is written,
if they differ or the program fails.
"""

from __future__ import annotations

import argparse
import sys

import top  # leads to gossip
from history import PROGRAM, Failed, answered, chain_of, followed, read

from gossip.messages import query_channel_range, query_line, query_short_channel_ids

IDS_A_QUERY = 8_000  # at most 65,535 bytes
ALL_BLOCKS = 0, 0xFFFFFFFF
IDS = 2 + 32 + 4 + 4 + 1 + 2 + 1  # the place of the ids in a reply_channel_range
ID_LEN = 8


def shortened(history):
    """The lines that give the map of a history."""
    for held, contradicting in history.bans:
        yield held.line
        yield contradicting.line
    for rows in (history.channels, history.updates, history.nodes):
        for row in sorted(rows.values(), key=lambda row: row.number):
            yield row.line


def replies(program, chain, lines, queries):
    """The messages that answer queries behind these lines and a commit, in digits."""
    count = len(lines) + 1
    asked = [query_line(query).rstrip() for query in queries]
    return [words for number, words in answered(program, chain, [*lines, "commit", *asked]) if number > count]


def messages(program, chain, lines, ids):
    """All messages of channels that the map has after these lines."""
    parts = (ids[at:at + IDS_A_QUERY] for at in range(0, len(ids), IDS_A_QUERY))
    queries = [query_short_channel_ids(part, chain=bytes.fromhex(chain)) for part in parts]
    return set(replies(program, chain, lines, queries))


def ids_of(program, chain, lines):
    """The ids of all channels after these lines."""
    found = []
    for reply in replies(program, chain, lines, [query_channel_range(*ALL_BLOCKS, chain=bytes.fromhex(chain))]):
        encoded = bytes.fromhex(reply)[IDS:]
        found += [encoded[at:at + ID_LEN] for at in range(0, len(encoded), ID_LEN)]
    return found


def is_same(program, chain, kept, shorter):
    """Whether both lists of lines give the same channels, updates and nodes."""
    ids = ids_of(program, chain, kept)
    return ids == ids_of(program, chain, shorter) and (
        messages(program, chain, kept, ids) == messages(program, chain, shorter, ids))


def main():
    """Reads, shortens, compares and writes."""
    parser = argparse.ArgumentParser(description=__doc__, formatter_class=argparse.RawDescriptionHelpFormatter)
    parser.add_argument("--chain", metavar="HEX", help="64 digits; that of the first announcement if left out")
    parser.add_argument("--program", default=PROGRAM, help="./lgm if left out")
    parser.add_argument("kept", metavar="KEPT")
    words = parser.parse_args()
    try:
        lines = read(words.kept)
        chain = words.chain or chain_of(lines)
        history = followed(words.program, chain, lines)
        shorter = list(shortened(history))
        items = [line for line in lines if line.startswith(("m ", "close "))]
        if not is_same(words.program, chain, items, shorter):
            raise Failed("the shorter list gives another map; this is a fault of this script")
    except (Failed, OSError) as fault:
        print(f"shorten: {fault}", file=sys.stderr)
        sys.exit(1)
    sys.stdout.writelines(f"{line}\n" for line in shorter)
    if history.refused:
        print(f"shorten: {len(history.refused)} refused items are left out", file=sys.stderr)
    print(f"shorten: {len(shorter)} of {len(items)} items are left", file=sys.stderr)


if __name__ == "__main__":
    main()
