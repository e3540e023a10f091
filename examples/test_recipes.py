#!/usr/bin/env python3
"""Runs the programs of docs/embedding.md and docs/paying.md and the recipes of docs/operating.md and docs/node.md, as the pages
have them.

    LGM_LIBRARY=FOLDER/liblgm.so python3 examples/test_recipes.py FOLDER

FOLDER is where examples/build-c put the library; examples/test_embedding.py runs this.
"""

import os
import struct
import subprocess
import sys
from pathlib import Path
from types import SimpleNamespace

sys.dont_write_bytecode = True  # the repository gets no made files

from blocks import block
from embedding.common import CHAIN, CHANNELS, HERE, TOP, announced, is_wanted, made_script, output, stored

import lgm  # of python, where embedding.common leads to
from lgm.payer import Invoice, Payer

CHAIN = bytes.fromhex(CHAIN)
DAY = 86_400


def first_programs(out):
    """The first programs of docs/embedding.md do what it says."""
    (out / "first.c").write_text(block("docs/embedding.md", "#include <lgm.h>"))
    words = ["cc", "-std=c11", "-Wall", "-Wextra", "-Werror", "-I", TOP / "include", out / "first.c", out / "liblgm.a"]
    subprocess.run([*words, "-o", out / "first"], check=True)
    said = block("docs/embedding.md", "$ cc first.c $(pkg-config --cflags --libs lgm) -o first && ./first").split("\n", 1)[1]
    assert output([out / "first"]) == said.encode()
    environment = {**os.environ, "PYTHONPATH": str(TOP / "python"), "PYTHONDONTWRITEBYTECODE": "1"}
    words = [sys.executable, "-c", block("docs/embedding.md", "from lgm import ALL_FOUR, Map")]
    ran = subprocess.run(words, env=environment, stdout=subprocess.PIPE, check=False)
    assert ran.stdout == said.encode().splitlines(keepends=True)[-1]


def items_of(script):
    """The items of a script, as `Map.offer` takes them."""
    lines = (line.split() for line in script.splitlines())
    return [(bytes.fromhex(message), sig if sig == "all" else bytes.fromhex(sig),
             int(funding) if funding.isdigit() else funding)
            for _, message, sig, funding in (line for line in lines if line[:1] == ["m"])]


class Node:
    """A node as docs/paying.md has one, of point 1, with two channels that are connected: what it sends fails once at the second
    hop, and then is held until all of the amount has come."""

    def __init__(self, point, peer, other, amount):
        self.point, self.height, self.amount = point, 700_000, amount
        self.sent, self.saved, self.events, self.heard = [], [], [], 0
        self.can_send = {1: 11_000_000, 2: 10_000_699}
        self.peers = {1: peer, 2: other}

    def channels(self):
        """What its channels can send now."""
        return [SimpleNamespace(scid=scid << 40, peer=peer, can_send=self.can_send[scid]) for scid, peer in self.peers.items()]

    def store(self, saved):
        """Keeps a payer's bytes."""
        self.saved.append(saved)

    def send(self, payment, part, hops):
        """Sends a part, of a payer that was saved."""
        assert len(self.saved) == len(self.sent) + 1 + self.heard
        self.sent.append(([hop.scid >> 40 for hop in hops], hops[0].amount_msat, hops[0].expiry))
        if len(self.sent) == 1:
            self.events.append(SimpleNamespace(preimage=None, part=part, place=1, code="WIRE_TEMPORARY_CHANNEL_FAILURE"))
        else:
            self.events.append(SimpleNamespace(preimage=bytes(32)))

    def wait(self, _payment):
        """The next event."""
        self.heard += 1
        return self.events.pop(0)

    def offer_update(self, _network, _event):
        """No update comes with a failure here."""
        return False


def an_invoice_is_paid():
    """From an invoice to the second try, over the channels of examples/payments.txt, by the program of docs/paying.md."""

    def point(letter):
        return b"\2" + bytes([letter]) * 32

    payee = point(2)
    hint = lgm.Edge(7 << 40, point(13), payee, 700, 0, 40)
    invoice = Invoice(payee, 10_000_000, bytes(32), hints=(hint,))
    names, node = {}, Node(point(1), point(11), point(13), 10_000_000)
    exec(block("docs/paying.md", "from lgm import Edge, Undecided, Unrouted"), names)
    with lgm.Map(CHAIN) as network, Payer(point(1)) as payer:
        for item in items_of((HERE / "payments.txt").read_text()):
            network.offer(*item)
        assert names["pay"](payer, network, node, invoice, 10_000) is None
        assert [payment.is_paid for payment in payer.payments] == [True]
        with payer.learnt() as learnt:
            found = {scid >> 40: (known.least_msat, known.most_msat) for scid, _, known in learnt}
        with Payer.load(node.saved[-1]) as again:
            assert again.save() == payer.save() and again.payments[0].parts == payer.payments[0].parts
        refused = names["pay"](payer, network, node, Invoice(payee, 10_000_000, bytes(32), hints=(hint,)), 699)
    # What the first try sent over its hop failed. Of an edge that carried its amount for good nothing is known.
    assert found == {600_003: (0, 10_000_699)}
    assert type(refused) is lgm.TooDear
    # D takes 700. Then B takes 3,000 and 10 blocks; or C 500 and 300 ppm and 20 blocks, and B 1,000 and 200 ppm and 34.
    assert node.sent == [
        ([1, 600_003, 7], 10_003_700, 700_021 + 40 + 10), ([1, 600_001, 600_002, 7], 10_007_200, 700_021 + 40 + 20 + 34)]


def a_blinded_path_is_paid():
    """Over that of two paths which makes the payer send less, over the channels of examples/payments.txt."""

    def point(letter):
        return b"\2" + bytes([letter]) * 32

    paths = [SimpleNamespace(first=point(first), base=base, millionths=0, delta=40, least=0, most=10_000_000)
             for first, base in ((12, 5_000), (13, 100))]
    names = {"payer": point(1), "paths": paths, "own": [lgm.Edge(1 << 40, point(1), point(11))], "amount": 1_000_000,
             "expiry": 700_000, "secret": bytes(32), "Edge": lgm.Edge}
    with lgm.Map(CHAIN) as names["network"]:
        for item in items_of((HERE / "payments.txt").read_text()):
            names["network"].offer(*item)
        exec(block("docs/operating.md", 'end = b"\\2" + bytes(32)'), names)
    # The path from D takes 100, C 500 and 300 ppm of 1,000,100, and B 1,000 and 200 ppm of 1,000,900.
    assert names["path"] is paths[1] and [hop.amount_msat for hop in names["hops"]] == [1_002_100, 1_000_900, 1_000_100]


def id_in(message):
    """The id of a channel's announcement or update; 0 of a node's announcement."""
    at = {b"\1\0": 292, b"\1\2": 98}.get(message[:2])
    return int.from_bytes(message[at:at + 8], "big") if at else 0


def lacking(peer, items, pruned):
    """A map that lacks of every four channels of a peer's all of the first, the updates of the second, one of the third; and
    those that were pruned."""
    own, places = lgm.Map(CHAIN), {scid: place % 4 for place, scid in enumerate(peer.channels())}
    for message, *verdicts in items:
        scid = id_in(message)
        least = 1 if message[:2] == b"\1\0" else 2 + (message[111] & 1)
        if scid and scid not in pruned and places[scid] >= least:
            own.offer(message, *verdicts)
    return own, [scid for scid, place in places.items() if place == 0 and scid not in pruned]


def synchronize(own, peer, pruned, options):
    """Asks a peer for what it has of all blocks, with these options. The ids that were worth it."""
    names = {"network": own, "pruned": pruned, "lacking": []}
    for reply in peer.query(b"\1\7" + CHAIN + bytes(4) + b"\xff" * 4 + options):
        exec(block("docs/node.md", "lacking += [it for it in"), {**names, "reply": reply})
    for message in peer.query(own.ask_ids(names["lacking"])):
        if id_in(message) and is_wanted(own, message, lgm):
            key = own.wanted(message)
            own.offer(message, key or lgm.ALL_FOUR, lgm.NOT_ASKED if key else peer.channel(id_in(message)).capacity_sat)
    return [it.scid for it in names["lacking"]]


def maps_are_synchronized():
    """A map gets what it lacks of a peer's, and asks for nothing else: without timestamps for channels, with them for all."""
    items = items_of(made_script("sync").decode())
    with lgm.Map(CHAIN) as peer:
        for item in items:
            peer.offer(*item)
        scids = list(peer.channels())
        pruned = {scid: max((terms.timestamp for terms in (channel.from_1, channel.from_2) if terms), default=0)
                  for scid, channel in ((scid, peer.channel(scid)) for scid in scids[:5])}
        own, lacked = lacking(peer, items, pruned)
        with own:
            assert synchronize(own, peer, pruned, b"") == lacked
            asked = synchronize(own, peer, pruned, b"\1\1\1")
            assert 0 < len(asked) <= len(scids) / 2 and not {*asked} & {*lacked, *pruned}
            assert synchronize(own, peer, pruned, b"\1\1\1") == []
            wanted = [one for one in stored(peer, lgm) if id_in(one[0]) and id_in(one[0]) not in pruned]
            assert list(stored(own, lgm)) == wanted
            first = {**pruned, scids[0]: pruned[scids[0]] - 1}  # since then a newer update came
            assert synchronize(own, peer, first, b"\1\1\1") == scids[:1] * (pruned[scids[0]] > 0)


def old_channels_are_pruned():
    """Those whose updates are all two weeks old, and their times are kept."""
    items = items_of(made_script("sync").decode())
    channels, _ = announced(items)
    times = {scid: [terms[0] for terms in channel[3:] if terms] for scid, channel in channels.items()}
    newest = max(max(own, default=0) for own in times.values())
    old = {scid: max(own) for scid, own in times.items() if own and max(own) < newest - 7 * DAY}
    with lgm.Map(CHAIN) as network:
        for item in items:
            network.offer(*item)
        names = {"network": network, "pruned": {}, "height": 2_016, "time": SimpleNamespace(time=lambda: newest + 7 * DAY)}
        exec(block("docs/node.md", "old = int(time.time()) - 14 * 86_400"), names)
        assert names["pruned"] == old and 0 < len(old) < CHANNELS
        assert list(network.channels()) == sorted(channels.keys() - old.keys())


def main():
    """Runs each of them."""
    first_programs(Path(sys.argv[1]))
    recipes = (an_invoice_is_paid, a_blinded_path_is_paid, maps_are_synchronized, old_channels_are_pruned)
    for recipe in recipes:
        recipe()
    print(f"{len(recipes) + 1} passed")


if __name__ == "__main__":
    main()
