"""What `lgm` has after the items of a script: it asks the program which are accepted, and follows those.

    from history import History, outcomes

    lines = open("network.txt").read().splitlines()
    history = History()
    for number, word in outcomes(PROGRAM, CHAIN, lines):
        history.take(number, lines[number - 1], word)

`history.channels`, `updates` and `nodes` have the rows of the map, and `bans` what banned nodes. Used by why_route.py and
shorten.py.
"""

from __future__ import annotations

import subprocess
from collections import Counter
from typing import NamedTuple

from top import TOP

from gossip.messages import ChannelAnnouncement, Fault, NodeAnnouncement, decode, scid_of

PROGRAM = TOP / "lgm"
ITEMS = ("m", "close")
BANNED, CLOSED = "banned", "closed"


class Row(NamedTuple):
    """A row of the map: what its message says, and the number and the text of its line."""

    message: object
    number: int
    line: str

    @property
    def capacity(self):
        """Of a channel, in satoshi."""
        return int(self.line.split()[3])


class Failed(Exception):
    """The program didn't answer the whole script: what it said."""


def answered(program, chain, lines, known=None):
    """The answers of `lgm run` to lines: their numbers and texts."""
    words = [program, "run", "--chain", chain, *(("--known", known) if known else ())]
    text = "".join(f"{line}\n" for line in lines)
    done = subprocess.run(words, input=text.encode(), stdout=subprocess.PIPE, stderr=subprocess.PIPE, check=False)
    if done.returncode:
        raise Failed(done.stderr.decode(errors="replace").strip())
    for answer in done.stdout.decode().splitlines():
        number, words = answer.split(" ", 1)
        yield int(number), words


def outcomes(program, chain, lines):
    """The number of each item among the lines, and the word of its outcome."""
    items = {number for number, line in enumerate(lines, 1) if line.split(" ", 1)[0] in ITEMS}
    for number, words in answered(program, chain, lines):
        if number in items:
            yield number, words


class History:
    """The rows of the map, by the accepted items so far."""

    def __init__(self):
        self.channels = {}  # by id
        self.updates = {}  # by id and direction
        self.nodes = {}  # by point
        self.bans = []  # the rows of the two announcements that contradict each other
        self.gone = {}  # of ids that were removed: the row, its updates by direction, BANNED or CLOSED, the line's number
        self.refused = []  # the number, the text and the word of each refused item
        self._degrees = Counter()

    def take(self, number, line, word):
        """Follows an item with this outcome."""
        if word != "accepted":
            self.refused.append((number, line, word))
            return
        kind, *fields = line.split(" ")
        if kind == "close":
            self._remove(scid_of(fields[0]), CLOSED, number)
            return
        row = Row(decode(bytes.fromhex(fields[0])), number, line)
        if isinstance(row.message, NodeAnnouncement):
            self.nodes[row.message.point] = row
        elif isinstance(row.message, ChannelAnnouncement):
            self._announce(row)
        else:
            self.updates[row.message.scid, row.message.direction] = row

    def _announce(self, row):
        """Adds a channel, or bans the nodes of two."""
        scid = row.message.scid
        if scid not in self.channels:
            self.channels[scid] = row
            self.gone.pop(scid, None)
            self._degrees.update(row.message.nodes)
            return
        held = self.channels[scid]
        self.bans.append((held, row))
        points = {*held.message.nodes, *row.message.nodes}
        for other in [it for it, channel in self.channels.items() if points & set(channel.message.nodes)]:
            self._remove(other, BANNED, row.number)

    def _remove(self, scid, why, number):
        """Removes a channel with its updates, and the announcement of each node that has no other channel."""
        row = self.channels.pop(scid)
        updates = {direction: self.updates.pop((scid, direction)) for direction in (0, 1)
                   if (scid, direction) in self.updates}
        self.gone[scid] = row, updates, why, number
        for point in row.message.nodes:
            self._degrees[point] -= 1
            if not self._degrees[point]:
                del self._degrees[point]
                self.nodes.pop(point, None)

    @property
    def banned(self):
        """The points of all banned nodes."""
        return {point for pair in self.bans for row in pair for point in row.message.nodes}


def chain_of(lines):
    """The chain of the first channel announcement among lines, in digits."""
    for line in lines:
        if line.startswith("m 0100"):
            try:
                return decode(bytes.fromhex(line.split(" ")[1])).chain.hex()
            except (Fault, ValueError):
                pass
    raise Failed("no line announces a channel, so the chain has to be given: --chain HEX")


def read(path):
    """The lines of a script."""
    with open(path, encoding="utf-8", errors="replace", newline="\n") as script:
        return script.read().removesuffix("\n").split("\n")


def followed(program, chain, lines):
    """The history of a script's items."""
    history = History()
    for number, word in outcomes(program, chain, lines):
        history.take(number, lines[number - 1], word)
    return history
