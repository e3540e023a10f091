"""A simulated peer of a node: it has a made network, answers queries, sends gossip, and may lie.

    python3 -m gossip.peer CHANNELS SEED            # prints a port for each way to lie, and serves one connection on each

A connection has the messages of BOLT 7, each behind its length in two bytes: what BOLT 8 encrypts, in the clear. Signatures
are made up, too: `signed` says which one a key makes, and `funding` what the chain has. So a node can check all that it is
told, and a test what it has believed.

Each peer sends the queries and the filter of a node of its own, and hangs up when the node has its updates of today.
"""

import socket
import struct
import sys
import threading

from gossip.messages import (
    CHAIN, GOSSIP_TIMESTAMP_FILTER, HAS_MAXIMUM, QUERY_CHANNEL_RANGE, QUERY_SHORT_CHANNEL_IDS, ChannelAnnouncement, ChannelUpdate,
    NodeAnnouncement, kind_of)
from gossip.networks import NOW, Network

HONEST, GAPS, REPEATS, INVENTS = WAYS = ("honest", "gaps", "repeats", "invents")
END_OF_IDS, REPLY_OF_RANGE = 262, 264
BITCOIN_KEY = b"\2" + bytes(32)
ALL_BLOCKS = 2 ** 24
A_REPLY = 100  # ids
ALL = 31  # flags of a query: the announcement, both updates, both nodes
SPENT_OUTPUT = 9  # of an invented channel: the chain has no such output


# ---- what stands for signatures and the chain

def signed(key, part):
    """The 64 bytes by which a key signs a part of a message: FNV-1a of both, eight times."""
    found = 0xCBF29CE484222325
    for byte in key + part:
        found = (found ^ byte) * 0x100000001B3 & 0xFFFFFFFFFFFFFFFF
    return found.to_bytes(8, "big") * 8


def funding(scid):
    """What the output of a short channel id has, in satoshi, if it is there."""
    return None if scid & 0xFFFF == SPENT_OUTPUT else 1_000_000 + (scid >> 40)


def sealed(keys, begin, message):
    """A message with the signatures of these keys, of what begins at a byte."""
    part = message[begin:]
    return message[:2] + b"".join(signed(key, part) for key in keys) + part


def announced(scid, nodes):
    """The announcement of a channel."""
    return sealed((*nodes, BITCOIN_KEY, BITCOIN_KEY), 258, ChannelAnnouncement(CHAIN, scid, nodes).encode())


def updated(scid, nodes, direction, timestamp, terms):
    """An update by one of the nodes of a channel."""
    update = ChannelUpdate(CHAIN, scid, timestamp, HAS_MAXIMUM, direction, *terms)
    return sealed((nodes[direction],), 66, update.encode())


# ---- what a peer has

class Peer:
    """A peer that lies in one way, or in none. What is true is the same for all with the same seed: channels with their updates,
    nodes, and an update of each tenth channel of today, which is sent to whoever filters."""

    def __init__(self, channels, seed, way):
        made = Network(channels, seed)
        self.way, self.made = way, made
        self.channels = {int.from_bytes(it.scid, "big"): it for it in made.channels if it.scid[7] != SPENT_OUTPUT}
        self.updates = {scid: self._updates(it) for scid, it in sorted(self.channels.items())}
        self.nodes = {point: sealed((point,), 66, NodeAnnouncement(b"", NOW, point).encode()) for point in made.nodes}
        self.today = [updated(it.scid, it.nodes, 0, NOW + 1, made.terms(it.capacity)) for it in list(self.channels.values())[::10]]
        self.ids = sorted(self.channels)
        if way == INVENTS:
            self.ids = sorted(self.ids + [scid - (scid & 0xFFFF) + SPENT_OUTPUT for scid in self.ids[::3]])

    def _updates(self, channel):
        """The updates of a channel by direction, with their timestamps."""
        made = self.made
        return {direction: (timestamp, updated(channel.scid, channel.nodes, direction, timestamp, made.terms(channel.capacity)))
                for direction in made.directions() for timestamp in [made.timestamp()]}

    def times(self, scid):
        """The timestamps of both updates, 0 without one."""
        updates = self.updates.get(scid, {})
        return [updates.get(direction, (0, b""))[0] for direction in (0, 1)]

    def answer(self, message):
        """The messages that answer one of a node's."""
        kind = kind_of(message)
        if kind == QUERY_CHANNEL_RANGE:
            return list(self._ranges(*struct.unpack_from(">II", message, 34)))
        if kind == QUERY_SHORT_CHANNEL_IDS:
            ids = message[37:36 + int.from_bytes(message[34:36], "big")]
            return [*self._of_ids(struct.unpack(f">{len(ids) // 8}Q", ids[:len(ids) // 8 * 8])),
                    struct.pack(">H32sB", END_OF_IDS, CHAIN, 1)]
        return self.today if kind == GOSSIP_TIMESTAMP_FILTER else []

    # ---- 264

    def _ranges(self, first, number):
        """The replies that cover a range."""
        end = min(first + number, ALL_BLOCKS)
        ids = [scid for scid in self.ids if first <= scid >> 40 < end]
        pieces = [ids[at:at + A_REPLY] for at in range(0, len(ids), A_REPLY)] or [[]]
        begin = first
        for place, piece in enumerate(pieces):
            is_last = place == len(pieces) - 1
            behind = end if is_last else (piece[-1] >> 40) + 1
            if self.way == GAPS and place == len(pieces) // 2:
                begin = behind  # what is left out is told by no reply
                continue
            yield from self._reply(begin, behind, piece, is_last)
            begin = behind if is_last or self.ids_split(piece, pieces[place + 1]) else behind - 1

    @staticmethod
    def ids_split(piece, after):
        """Whether the next piece begins in a later block."""
        return after[0] >> 40 > piece[-1] >> 40

    def _reply(self, begin, behind, piece, is_last):
        """The replies about some ids: one, and more of them by a peer that repeats itself."""
        times = b"\0" + b"".join(struct.pack(">II", *self.times(scid)) for scid in piece)
        encoded = b"\0" + b"".join(scid.to_bytes(8, "big") for scid in piece)
        whole = struct.pack(">H32sIIBH", REPLY_OF_RANGE, CHAIN, begin, behind - begin, is_last, len(encoded)) + encoded \
            + b"\1" + _big_size(len(times)) + times
        if self.way == REPEATS:
            other = whole[:2] + bytes(32) + whole[34:]
            zlib = whole[:45] + b"\1" + whole[46:]
            empty = struct.pack(">H32sIIBH", REPLY_OF_RANGE, CHAIN, begin, 0, 1, 1) + b"\0"
            turned = struct.pack(">H32sIIBH", REPLY_OF_RANGE, CHAIN, begin, behind - begin, 0, len(encoded)) \
                + b"\0" + b"".join(scid.to_bytes(8, "big") for scid in piece[::-1])
            checksums = whole + b"\3" + _big_size(8 * len(piece)) + bytes(8 * len(piece))
            yield from (other, zlib, whole[:len(whole) // 2], empty, turned, checksums, b"", b"\1\10")
        yield whole

    # ---- 261

    def _of_ids(self, ids):
        """Announcements, updates and nodes of some channels."""
        for scid in ids:
            channel = self.channels.get(scid)
            if channel is None:
                if self.way == INVENTS:
                    yield from self._invented(scid)
                continue
            yield from self.told(scid, ALL)
            for direction, (timestamp, _) in self.updates[scid].items() if self.way == INVENTS else ():  # signed by the other node
                yield updated(channel.scid, channel.nodes[::-1], direction, timestamp + 9, self.made.terms(channel.capacity))

    def told(self, scid, flags):
        """What the peer has of a channel, by the flags of a query (BOLT 7, query_flag)."""
        channel, updates = self.channels[scid], self.updates[scid]
        messages = [announced(channel.scid, channel.nodes), updates.get(0, (0, b""))[1], updates.get(1, (0, b""))[1],
                    *(self.nodes[point] for point in channel.nodes)]
        return [message for bit, message in enumerate(messages) if flags >> bit & 1 and message]

    def _invented(self, scid):
        """A channel that the chain doesn't have, and one whose signatures are wrong."""
        nodes = tuple(sorted((self.made.point(), self.made.point())))
        yield announced(scid.to_bytes(8, "big"), nodes)
        yield ChannelAnnouncement(CHAIN, (scid + 1 - SPENT_OUTPUT).to_bytes(8, "big"), nodes).encode()


def _big_size(number):
    """A length in a TLV record."""
    return bytes([number]) if number < 0xFD else b"\xfd" + number.to_bytes(2, "big")


# ---- the connection

def frame(message):
    """A message behind its length."""
    return len(message).to_bytes(2, "big") + message


def exactly(stream, count):
    """The next bytes of a connection, fewer at its end."""
    found = b""
    while len(found) < count and (more := stream.read(count - len(found))):
        found += more
    return found


def receive(stream):
    """The next message of a connection, or None at its end."""
    head = exactly(stream, 2)
    return exactly(stream, int.from_bytes(head, "big")) if len(head) == 2 else None


def own_queries():
    """What the peer asks of the node: its ids, some of them twice, a filter, and what isn't a query."""
    ids = b"\0" + bytes(8) * 2
    return [struct.pack(">H32sII", QUERY_CHANNEL_RANGE, CHAIN, 0, 2 ** 32 - 1),
            struct.pack(">H32sH", QUERY_SHORT_CHANNEL_IDS, CHAIN, len(ids)) + ids,
            struct.pack(">H32sII", GOSSIP_TIMESTAMP_FILTER, CHAIN, 0, 2 ** 32 - 1),
            struct.pack(">H32s", QUERY_CHANNEL_RANGE, CHAIN)]


def serve(listener, peer):
    """Answers one connection until the node has asked for what is new, and has it."""
    with listener, listener.accept()[0] as connection, connection.makefile("rb") as stream:
        connection.sendall(b"".join(map(frame, own_queries())))
        while (message := receive(stream)) is not None:
            connection.sendall(b"".join(map(frame, peer.answer(message))))
            if kind_of(message) == GOSSIP_TIMESTAMP_FILTER:
                connection.shutdown(socket.SHUT_WR)
        # the node hangs up


def listen(channels, seed, ways):
    """A thread for each peer, and its port."""
    ports, threads = [], []
    for way in ways:
        listener = socket.create_server(("127.0.0.1", 0))
        ports.append(listener.getsockname()[1])
        threads.append(threading.Thread(target=serve, args=(listener, Peer(channels, seed, way)), daemon=True))
        threads[-1].start()
    return ports, threads


def main():
    """Serves one connection for each way to lie."""
    channels, seed = map(int, sys.argv[1:3])
    ports, threads = listen(channels, seed, (HONEST, REPEATS, INVENTS))
    print(*ports, flush=True)
    for it in threads:
        it.join()


if __name__ == "__main__":
    main()
