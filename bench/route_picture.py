#!/usr/bin/env python3
"""Draws how a route is found: docs/route.svg, from a real search on a synthetic network.

    python3 bench/route_picture.py

The search is that of `lgm_route` in short: a forward search from the payer gives a lower bound on the fees to each
node; labels spread from the payee, best-first, and are pruned or relaxed. test_route_picture.py compares what it finds
with `lgm`.
"""

import heapq
import sys
from html import escape
from typing import NamedTuple

sys.dont_write_bytecode = True  # the repository gets no made files

import top  # leads to gossip

from gossip.messages import ChannelAnnouncement, ChannelUpdate, decode
from gossip.networks import Network
from gossip.workloads import sync

PICTURE = top.TOP / "docs" / "route.svg"
CHANNELS, SEED = 60, 18
AMOUNT = 10_000_000  # msat
EXPIRY, SECRET = 920_000, "11" * 32
MOST_EDGES = 20
WIDTH, HEIGHT, MARGIN, TOP = 1000, 640, 60, 150
ROWS = 5
GREY, BLUE, ORANGE, DARK = "#c9ced6", "#0b62a4", "#c4501b", "#222"


class Edge(NamedTuple):
    """A direction of a channel: its id, its ends, and its terms in msat."""

    scid: bytes
    source: bytes
    target: bytes
    minimum: int
    base: int
    millionths: int
    maximum: int

    def fee(self, amount):
        """Its fee in msat for forwarding an amount."""
        return self.base + amount * self.millionths // 1_000_000


def edges_of(script):
    """The edges that the lines of a script announce."""
    channels, edges = {}, []
    for line in script:
        word, *fields = line.split()
        said = decode(bytes.fromhex(fields[0])) if word == "m" else None
        if isinstance(said, ChannelAnnouncement):
            channels[said.scid] = said.nodes, int(fields[2])
        elif isinstance(said, ChannelUpdate):
            nodes, capacity = channels[said.scid]
            if not said.is_disabled and said.htlc_maximum_msat <= 1_000 * capacity:
                source, target = nodes[said.direction], nodes[1 - said.direction]
                edges.append(Edge(said.scid, source, target, said.htlc_minimum_msat, said.fee_base_msat,
                                  said.fee_proportional_millionths, said.htlc_maximum_msat))
    return edges


class Search:
    """A search for the cheapest route of a payment, and what it did."""

    def __init__(self, edges, payer, payee):
        self.payer, self.payee = payer, payee
        self.edges = [edge for edge in edges if edge.minimum <= AMOUNT <= edge.maximum]
        self.bounds = self._bounds()
        self.labels = {payee: [(AMOUNT, 0)]}  # those of each node that no other serves in place of: owed, edges
        self.relaxed, self.hopeless, self.dominated = set(), 0, 0
        self.best = None  # what is sent, how many edges, and the walk's edges
        self._settle()

    def _bounds(self):
        """For each node a lower bound on the fees from the payer to it, in msat."""
        bounds, queue = {}, [(0, self.payer)]
        while queue:
            bound, node = heapq.heappop(queue)
            if node in bounds:
                continue
            bounds[node] = bound
            for edge in self.edges:
                if edge.source == node:
                    # The payer's own channel charges nothing.
                    more = 0 if node == self.payer else edge.fee(AMOUNT)
                    heapq.heappush(queue, (bound + more, edge.target))
        return bounds

    def _settle(self):
        """Prunes or relaxes each label, best-first."""
        queue = [(AMOUNT + self.bounds.get(self.payee, 0), 0, AMOUNT, self.payee, ())]
        while queue:
            promise, count, owed, node, rest = heapq.heappop(queue)
            if self._is_hopeless(promise, count):
                self.hopeless += 1
                continue
            for edge in self.edges:
                if edge.target == node and edge.source in self.bounds and owed <= edge.maximum and count < MOST_EDGES:
                    self._relax(queue, edge, (count + 1, owed, (edge, *rest)))

    def _is_hopeless(self, promise, count):
        """Whether a label can be pruned: no walk over it is better than the best."""
        return self.best is not None and (promise, count + 1) > self.best[:2]

    def _relax(self, queue, edge, label):
        """Relaxes a label over an edge into its node."""
        count, owed, walk = label
        self.relaxed.add(edge)
        if edge.source == self.payer:
            self.best = min(filter(None, (self.best, (owed, count, walk))), key=lambda it: (*it[:2], [e.scid for e in it[2]]))
            return
        owed += edge.fee(owed)
        held = self.labels.setdefault(edge.source, [])
        if any(other <= owed and edges <= count for other, edges in held):
            self.dominated += 1
            return
        held.append((owed, count))
        heapq.heappush(queue, (owed + self.bounds[edge.source], count, owed, edge.source, walk))


def found():
    """The script of the network, and the search on it: the two nodes whose route has the most channels."""
    network = Network(CHANNELS, SEED)
    script = [*sync(network)]
    edges = edges_of(script)
    nodes = sorted({edge.source for edge in edges})
    searches = (Search(edges, payer, payee) for payer in nodes for payee in nodes if payer != payee)
    return script, max((it for it in searches if it.best), key=lambda it: (it.best[1], len(it.relaxed)))


def layout(search):
    """A place for each node: across by its bound, from the payer to the payee; up and down by rows, the order of which
    keeps the ends of channels close."""
    bound = {node: search.bounds.get(node, 0) for edge in search.edges for node in (edge.source, edge.target)}
    ends = {search.payer: -1, search.payee: 1}
    nodes = sorted(bound, key=lambda node: (ends.get(node, 0), bound[node], node))
    column = {node: place for place, node in enumerate(nodes)}
    near = {node: [] for node in nodes}
    for edge in search.edges:
        near[edge.source].append(edge.target)
        near[edge.target].append(edge.source)
    row = {node: ROWS // 2 if node in ends else column[node] * 3 % ROWS for node in nodes}
    for _ in range(40):
        for node in nodes:
            if node not in ends:
                taken = [row[it] for it in nodes if it != node and abs(column[it] - column[node]) < ROWS - 1]
                free = [it for it in range(ROWS) if it not in taken] or [*range(ROWS)]
                middle = sum(row[it] for it in near[node]) / len(near[node])
                row[node] = min(free, key=lambda it: abs(it - middle))
    across, down = (WIDTH - 2 * MARGIN) / (len(nodes) - 1), (HEIGHT - TOP - MARGIN) / (ROWS - 1)
    return {node: (round(MARGIN + column[node] * across), round(TOP + row[node] * down)) for node in nodes}


def text(x, y, words, color=DARK, size=12, anchor="start"):
    """Words at a place."""
    return (f'<text x="{x}" y="{y}" font-size="{size}" fill="{color}" text-anchor="{anchor}" stroke="#fff" stroke-width="3" '
            f'paint-order="stroke">{escape(words)}</text>')


def line(one, other, color, width):
    """A line between two places."""
    return f'<path d="M{one[0]} {one[1]}L{other[0]} {other[1]}" stroke="{color}" stroke-width="{width}"/>'


def picture(search):
    """The picture of a search, as SVG."""
    place, (sent, _, walk) = layout(search), search.best
    made = sum(map(len, search.labels.values()))
    parts = [
        f'<svg xmlns="http://www.w3.org/2000/svg" viewBox="0 0 {WIDTH} {HEIGHT}" width="{WIDTH}" height="{HEIGHT}" '
        'font-family="sans-serif">', "<title>How a route is found</title>",
        f'<rect width="{WIDTH}" height="{HEIGHT}" fill="#fff"/>',
        text(20, 26, f"A payment of {AMOUNT:,} msat over {CHANNELS} channels: the payer sends {sent:,}", size=16),
        text(20, 50, "blue, below a node: its bound; at least these fees are charged between the payer and it (msat)", BLUE),
        text(20, 68, "orange, above a node: its labels, each the fees from it to the payee over the rest of a walk (msat)", ORANGE),
        text(20, 86, f"{made} labels were made, of which {search.hopeless} were pruned by the bound and the others relaxed over "
             f"the blue channels; {search.dominated} more were dominated"),
        text(20, 104, "a label whose fees and bound come to more than the best walk's is pruned; the thick walk is the answer")]
    parts += [line(place[edge.source], place[edge.target], GREY, 1) for edge in search.edges]
    parts += [line(place[edge.source], place[edge.target], BLUE, 1.5) for edge in sorted(search.relaxed)]
    parts += [line(place[edge.source], place[edge.target], ORANGE, 4) for edge in walk]
    for node, (x, y) in sorted(place.items()):
        ends = {search.payer: "payer", search.payee: "payee"}
        color = ORANGE if any(node in edge[1:3] for edge in walk) else BLUE if node in search.labels else GREY
        parts.append(f'<circle cx="{x}" cy="{y}" r="{11 if node in ends else 6}" fill="{color}" stroke="#fff"/>')
        if node in ends:
            parts.append(text(x, y - 18, ends[node], size=14, anchor="middle"))
        elif node in search.labels:
            for above, (owed, _) in enumerate(reversed(search.labels[node])):
                parts.append(text(x, y - 10 - 13 * above, f"{owed - AMOUNT:,}", ORANGE, anchor="middle"))
        if node in search.bounds and node not in ends:
            parts.append(text(x, y + 20, f"{search.bounds[node]:,}", BLUE, anchor="middle"))
    return "\n".join([*parts, "</svg>", ""])


def main():
    """Draws the picture."""
    _, search = found()
    PICTURE.write_text(picture(search))
    print(f"{search.best[1]} channels, {search.best[0]} msat; {len(search.relaxed)} edges relaxed")


if __name__ == "__main__":
    main()
