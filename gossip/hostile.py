"""Networks that are made against a search within a delay: many ways, none of which is both cheaper and quicker than another.

    for offered in messages(Hostile(links=10, sides=500)):
        network.offer(*offered)
    network.route(PAYER, PAYEE, AMOUNT, .., most_delay=hostile.most_delay)  # no route, which takes long to find out

The payee stands at the end of a row of links, each of two channels: the one of link j charges 2^j msat, the other delays by
2^j blocks. So of all ways through the row there are two to the number of links, and fee and delay of each add up to 2^links
- 1, the most of either. In front of the row stand nodes, its sides, each with two ways in:

- one carries the payment's amount alone, so only what pays no fee in the row, and its delay leaves room for one block less
  than such a way takes;
- the other delays by the whole limit, so it leaves room for ways without delay alone, and carries 1 msat less than these.

So whichever bound is looked at alone, nearly each way through the row fits at each side: a search has to keep them all. A
network that isn't closed has a last side whose first way carries any fee, and delays so that ways with a given fee or more fit.
"""

from typing import NamedTuple, Optional

from gossip.messages import CHAIN, HAS_MAXIMUM, ChannelAnnouncement, ChannelUpdate, short_channel_id

AMOUNT = 1_000_000  # msat
CAPACITY = 1_000_000  # sat
PAYER_NUMBER, CHEAP, LONG, FIRST = range(4)  # the payer, its two neighbours, and the first number of the others


def point(number):
    """A node's point. Points order as their numbers do."""
    return b"\x02" + number.to_bytes(32, "big")


class Edge(NamedTuple):
    """An edge between two nodes, with what it charges, in msat, its delay, in blocks, and its maximum, in msat."""

    start: int
    end: int
    fee: int = 0
    delay: int = 0
    most: int = 1_000 * CAPACITY


class Hostile(NamedTuple):
    """How many links and sides there are, and the least fee in the row of a walk that fits, in msat, if one does."""

    links: int
    sides: int
    least_fee: Optional[int] = None

    @property
    def most_fee(self):
        """Of a way through the row, in msat; and the most blocks of one."""
        return 2**self.links - 1

    @property
    def most_delay(self):
        """The limit that the payment is asked within, in blocks."""
        return 3 * 2 ** (self.links - 1) - 1

    def row(self, link):
        """The node in front of a link, or behind the last one."""
        return FIRST + 3 * self.sides + link

    def way_in(self, side):
        """The edges from the payer's neighbours to the row, over a side."""
        cheap, long, node = (FIRST + 3 * side + place for place in range(3))
        room = self.most_delay - self.most_fee  # for the delay of a way in, if the row's is the most
        if self.least_fee is not None and side == self.sides - 1:
            first = Edge(cheap, node, delay=room + self.least_fee)
        else:
            first = Edge(cheap, node, delay=room + 1, most=AMOUNT)
        second = Edge(long, node, delay=self.most_delay, most=AMOUNT + self.most_fee - 1)
        return Edge(CHEAP, cheap), first, Edge(LONG, long), second, Edge(node, self.row(0))

    def edges(self):
        """All edges: 5 for each side, 2 for each link, and 2 of the payer."""
        yield from (Edge(PAYER_NUMBER, CHEAP), Edge(PAYER_NUMBER, LONG))
        for side in range(self.sides):
            yield from self.way_in(side)
        for link in range(self.links):
            ends = self.row(link), self.row(link + 1)
            yield from (Edge(*ends, fee=2**link), Edge(*ends, delay=2**link))

    @property
    def payee(self):
        """The point at the end of the row."""
        return point(self.row(self.links))


PAYER = point(PAYER_NUMBER)


def messages(hostile):
    """What announces a network, with the verdicts: on signatures, "all" or the signer, and on the funding output."""
    for block, (start, end, fee, delay, most) in enumerate(hostile.edges(), 1):
        scid, nodes = short_channel_id(block, 0, 0), (point(start), point(end))
        yield ChannelAnnouncement(CHAIN, scid, nodes).encode(bitcoin_keys=nodes), "all", CAPACITY
        yield ChannelUpdate(CHAIN, scid, 1, HAS_MAXIMUM, 0, delay, 1, fee, 0, most).encode(), nodes[0], "-"
