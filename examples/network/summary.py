"""A look at a network, as a table: channels, nodes, capacity, which directions can be used, fees.

The table tells of the items of a script as if a commit were behind them. It takes announcements with `all` and a
capacity, updates and nodes' announcements with the point of their node, the newest of each, and closes. It looks at no
chain and follows no bans. What it doesn't take is counted; `lgm run` says why it is refused.

A direction can be used, as docs/protocol.md has it, unless (the first that applies is counted)

- it has no update;
- the update disables it;
- the channel has an even feature bit;
- its maximum is above the channel's capacity.

Even feature bits in the announcement of the node that it leads to count only with `--known`. The table tells how many
usable directions lead to such nodes, and which bits they are.
"""

from collections import Counter

import top  # leads to gossip

from gossip.messages import ChannelAnnouncement, Fault, NodeAnnouncement, decode, even_bits, features, scid_text

REASONS = ("no update", "disabled", "even feature bit of the channel", "maximum above the capacity")
QUANTILES = (("least", 0), ("10 %", 10), ("25 %", 25), ("median", 50), ("75 %", 75), ("90 %", 90), ("most", 100))
SATOSHI_A_BITCOIN = 100_000_000


class Network:
    """The channels, updates and nodes of a script's items."""

    def __init__(self):
        self.channels = {}  # an announcement and the capacity in satoshi, by id as text
        self.updates = {}  # by id as text and direction
        self.nodes = {}  # announcements, by point
        self.degrees = Counter()  # the number of channels of each point
        self.not_taken = 0

    def take(self, line):
        """Takes a line of a script. Other lines than items do nothing."""
        word, *fields = line.split() or [""]
        if word == "close" and len(fields) == 1:
            self.not_taken += not self._close(fields[0])
        elif word == "m":
            try:
                taken = len(fields) == 3 and self._offer(decode(bytes.fromhex(fields[0])), *fields[1:])
            except (Fault, ValueError):
                taken = False
            self.not_taken += not taken

    def _offer(self, message, signed, funding):
        """Whether an item is taken."""
        if isinstance(message, ChannelAnnouncement):
            scid = scid_text(message.scid)
            if signed != "all" or not funding.isdigit() or scid in self.channels:
                return False
            self.channels[scid] = message, int(funding)
            self.degrees.update(message.nodes)
            return True
        if isinstance(message, NodeAnnouncement):
            is_right = self.degrees[message.point] > 0 and signed.lower() == message.point.hex()
            return is_right and newer(self.nodes, message.point, message)
        scid = scid_text(message.scid)
        if scid not in self.channels or message.is_private:
            return False
        channel, _ = self.channels[scid]
        is_right = signed.lower() == channel.nodes[message.direction].hex()
        return is_right and newer(self.updates, (scid, message.direction), message)

    def _close(self, scid):
        """Removes a channel, its updates, and node announcements left without a channel. Whether there was one."""
        if scid not in self.channels:
            return False
        channel, _ = self.channels.pop(scid)
        for direction in (0, 1):
            self.updates.pop((scid, direction), None)
        for point in channel.nodes:
            self.degrees[point] -= 1
            if not self.degrees[point]:
                del self.degrees[point]
                self.nodes.pop(point, None)
        return True

    def directions(self):
        """For each direction of a channel its update, the node that it leads to, and why it can't be used, if so."""
        for scid, (channel, capacity) in self.channels.items():
            for direction in (0, 1):
                update = self.updates.get((scid, direction))
                yield update, channel.nodes[1 - direction], reason(channel, capacity, update)


def newer(kept, key, message):
    """Whether a message is newer than the one that is kept; then it is kept instead."""
    if key in kept and kept[key].timestamp >= message.timestamp:
        return False
    kept[key] = message
    return True


def reason(channel, capacity, update):
    """The first reason why a direction can't be used; empty if it can."""
    if update is None:
        return REASONS[0]
    if update.is_disabled:
        return REASONS[1]
    if even_bits(channel.features):
        return REASONS[2]
    return REASONS[3] if update.htlc_maximum_msat > 1000 * capacity else ""


def quantiles(values):
    """The values at each place of QUANTILES: of n values in order, the one at percent x (n - 1), rounded down."""
    ordered = sorted(values)
    return [ordered[percent * (len(ordered) - 1) // 100] for _, percent in QUANTILES]


def quantile_table(rows):
    """A table with a row of quantiles for each name with values; without values dashes."""
    lines = [["", *(name for name, _ in QUANTILES)]]
    for name, values in rows:
        lines.append([name, *(f"{value:,}" for value in quantiles(values))] if values
                     else [name, *("-" for _ in QUANTILES)])
    return [f"{first:<20}" + "".join(f"{word:>14}" for word in words) for first, *words in lines]


def count_line(name, count):
    """A line of a name and a number."""
    return f"{name:<50}{count:>10,}" if isinstance(count, int) else f"{name:<50}{count:>10}"


def table(network):
    """The lines of the table."""
    capacities = [capacity for _, capacity in network.channels.values()]
    directions = list(network.directions())
    why_not = Counter(why for _, _, why in directions if why)
    usable = [(update, point) for update, point, why in directions if not why]
    evens = {point: even_bits(node.features) for point, node in network.nodes.items()}
    yield count_line("channels", len(capacities))
    yield count_line("nodes with a channel", len(network.degrees))
    yield count_line("  of them announced", len(network.nodes))
    bitcoin, satoshi = divmod(sum(capacities), SATOSHI_A_BITCOIN)
    yield count_line("capacity in bitcoin", f"{bitcoin:,}.{satoshi:08}")
    yield count_line("directions", len(directions))
    yield count_line("  usable", len(usable))
    yield count_line("    of them to nodes with even feature bits", sum(bool(evens.get(point)) for _, point in usable))
    for why in REASONS:
        yield count_line(f"  not usable: {why}", why_not[why])
    if network.not_taken:
        yield count_line("items not taken", network.not_taken)
    yield ""
    yield from quantile_table((("base fee, msat", [update.fee_base_msat for update, _ in usable]),
                               ("rate, millionths", [update.fee_proportional_millionths for update, _ in usable]),
                               ("capacity, satoshi", capacities)))
    bits = Counter(bit for own in evens.values() for bit in own)
    if bits:
        yield ""
        yield "even feature bits of nodes, with the number of nodes: " + ", ".join(
            f"{bit} ({count:,})" for bit, count in sorted(bits.items()))
        yield f"all of them are understood with --known {features(*bits).hex()}"


def read(lines):
    """The network of a script, and its first line if that is a comment, which says what it is."""
    network, about = Network(), ""
    for count, line in enumerate(lines):
        if count == 0 and line.startswith("# "):
            about = line[2:].rstrip()
        network.take(line)
    return network, about


def summary(network, about):
    """The lines of the table of a network, behind what it is."""
    return [*([about, ""] if about else []), *table(network)]
