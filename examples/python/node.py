#!/usr/bin/env python3
"""A node's day: it synchronizes its map with simulated peers (gossip/peer.py), verifies what they send, serves them, prunes and
saves. docs/node.md explains it.

    python3 examples/python/node.py FILE PORT..
"""

import selectors
import socket
import sys
from pathlib import Path

sys.path.append(str(Path(__file__).resolve().parents[2]))

import lgm
from gossip.messages import CHAIN, kind_of
from gossip.peer import frame, funding, receive, signed  # what a node has of BOLT 8, of the chain and of secp256k1
from lgm import dump
from lgm.library import MOST_IDS
from lgm.limits import Limits, TooMuch

ALL_BLOCKS, WEEK, NOW, HEIGHT = 2 ** 24, 7 * 86_400, 1_760_000_000, 917_000


class Peer:
    """A connection, the block up to which the peer's replies have covered all, and what is to be asked of it."""

    def __init__(self, port):
        self.connection = socket.create_connection(("127.0.0.1", port))
        self.stream = self.connection.makefile("rb", buffering=0)
        self.covered, self.lacking, self.filter = 0, [], None

    def send(self, *messages):
        self.connection.sendall(b"".join(map(frame, messages)))


def offer(network, message):
    """Offers a message that is worth it, once its signatures and its funding output are verified."""
    key, read = network.wanted(message), lgm.reads(message)
    is_right = all(signed(by, read.signed) == signature for by, signature in zip(read.keys or (key,), read.signatures))
    if read.type == 256:
        network.offer(message, lgm.ALL_FOUR if is_right else lgm.NOT_ALL_FOUR, funding(read.scid) or lgm.SPENT)
    else:
        network.offer(message, key if is_right else lgm.NOBODY)


def ask(network, peer):
    """Asks for what is lacking, and once nothing is for what comes from now on."""
    peer.send(network.ask_ids(peer.lacking) if peer.lacking else network.ask_filter(NOW))
    del peer.lacking[:MOST_IDS]


def take(network, peer, message, pruned, limits):
    """Takes a message of a peer."""
    limits.check(peer, message)
    kind = kind_of(message)
    if kind == 264:
        peer.lacking += [it for it in network.lacking(message) if max(it.timestamp_1, it.timestamp_2) > pruned.get(it.scid, -1)]
        before, peer.covered = peer.covered, network.covered(message, peer.covered)
        if before < ALL_BLOCKS <= peer.covered:
            ask(network, peer)
    elif kind == 262:
        ask(network, peer)
    elif kind in (261, 263, 265):
        replies = network.filter(message) if kind == 265 else network.query(message)
        peer.filter = message if kind == 265 else peer.filter
        limits.answered(peer, replies)
        peer.send(*replies)
    else:
        offer(network, message)


def follow(network, board, ports, pruned):
    """Takes what peers send until all have hung up, and publishes the map where nothing waits."""
    limits, waiting = Limits(), selectors.DefaultSelector()
    for port in ports:
        peer = Peer(port)
        waiting.register(peer.stream, selectors.EVENT_READ, peer)
        peer.send(network.ask_range())
    while waiting.get_map():
        ready = waiting.select(timeout=1)
        for key, _ in ready:
            message = receive(key.data.stream)
            if message is None:
                waiting.unregister(key.data.stream)
                key.data.connection.close()
                continue
            try:
                take(network, key.data, message, pruned, limits)
            except (lgm.Fault, TooMuch):
                pass  # what is refused changes nothing
        if not ready:
            board.publish()
    board.publish()


def main():
    """Loads what was saved, and saves what there is in the end."""
    path, ports = Path(sys.argv[1]), map(int, sys.argv[2:])
    pruned = {}
    with dump.load(path, CHAIN) if path.exists() else lgm.Map(CHAIN) as network, lgm.Board(network) as board:
        follow(network, board, ports, pruned)
        pruned.update((it.scid, it.timestamp) for it in network.prune(NOW - WEEK, HEIGHT - 2_016))
        board.publish()
        dump.dump(board.latest(), path)
        print(f"{len(network)} channels, {len(pruned)} pruned")


if __name__ == "__main__":
    main()
