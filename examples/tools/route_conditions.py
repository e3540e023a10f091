"""The conditions of a route, and maps in which some of them don't hold, for why_route.py.

    Made(history, ["minima"]).lines()      # a script of the same map, in which no direction has a minimum

Messages are made anew from what they say, with placeholders for signatures; the verdicts are that they are right.
"""

from __future__ import annotations

from collections import defaultdict, deque

import top  # leads to gossip
from history import BANNED, CLOSED

from gossip.messages import (
    HAS_MAXIMUM, MOST_SATOSHI, ChannelAnnouncement, ChannelUpdate, Fault, channel_line, decode, even_bits, feature_bits,
    features, signed_line)

# Each condition, and what it means that it decides.
CONDITIONS = {
    "minima": "an htlc_minimum_msat is above the amount (it is held against the payment's amount, without fees)",
    "maxima": "an htlc_maximum_msat is below the amount with the fees of later channels",
    "disabled directions": "a direction is disabled, by bit 1 of channel_flags",
    "features of nodes": "a node requires features that --known doesn't have",
    "features of channels": "a channel has an even feature bit",
    "capacities": "a channel's htlc_maximum_msat is above its capacity, or the amount is: FUNDING is in satoshi",
    "refusals": "items are refused as `funding`, `signature` or `private`",
    "updates": "a direction has no update; the payer's own channels need one too",
    "bans": "nodes are banned, by announcements of one id that contradict each other",
    "closes": "a channel was closed"}
MSAT = 1_000  # of a satoshi
DEAR = 100_000, 10_000  # a base fee in msat, and ppm
MENDED = ("funding", "signature", "private", "unknown-channel")


def is_known(bit, known):
    """Whether a feature bit is among those that are known: a number, or None for all."""
    return known is None or bool(known >> bit & 1)


def understood(message):
    """What a refused item's message says, or None."""
    try:
        return decode(bytes.fromhex(message))
    except (Fault, ValueError):
        return None


class Made:
    """A map without some conditions. If updates are none, those that are made charge nothing, or much, so that no route
    goes that way which needn't."""

    def __init__(self, history, without, is_dear=False):
        self._without, self._fees = set(without), DEAR if is_dear else (0, 0)
        self.channels = {scid: (row.message, row.capacity) for scid, row in history.channels.items()}
        self.updates = {key: row.message for key, row in history.updates.items()}
        self.nodes = {point: row.message for point, row in history.nodes.items()}
        for name, why in (("bans", BANNED), ("closes", CLOSED)):
            if name in self._without:
                self._bring_back(history, why)
        words = (MENDED if "refusals" in self._without else ()) + (("banned",) if "bans" in self._without else ())
        self._mend(history, words)
        self.channels = {scid: self._channel(*row) for scid, row in self.channels.items()}
        self._complete_updates()
        self.updates = {key: self._update(update) for key, update in self.updates.items()}

    def _bring_back(self, history, why):
        """Puts the channels in that were removed for this."""
        for scid, (row, updates, how, _) in history.gone.items():
            if how == why and scid not in self.channels:
                self.channels[scid] = row.message, row.capacity
                self.updates.update({(scid, direction): update.message for direction, update in updates.items()})

    def _mend(self, history, words):
        """Takes items that were refused with these words."""
        for _, line, word in history.refused:
            kind, message, _, funding, *_ = (*line.split(" "), "", "", "")
            found = understood(message) if kind == "m" and word in words else None
            if isinstance(found, ChannelAnnouncement) and found.scid not in self.channels:
                self.channels[found.scid] = found, int(funding) if funding.isdigit() else MOST_SATOSHI
            elif isinstance(found, ChannelUpdate) and found.scid in self.channels:
                self.updates.setdefault((found.scid, found.direction), found)

    def _channel(self, channel, capacity):
        if "features of channels" in self._without:
            channel = channel._replace(features=features(*(bit for bit in feature_bits(channel.features) if bit % 2)))
        return channel, MOST_SATOSHI if "capacities" in self._without else min(capacity, MOST_SATOSHI)

    def _complete_updates(self):
        """Gives each direction an update, if updates are no condition."""
        if "updates" in self._without:
            for scid, (channel, capacity) in self.channels.items():
                for direction in (0, 1):
                    made = ChannelUpdate(
                        channel.chain, scid, 1, HAS_MAXIMUM, direction, 0, 0, *self._fees, MSAT * capacity)
                    self.updates.setdefault((scid, direction), made)

    def _update(self, update):
        most = MSAT * self.channels[update.scid][1]
        if "maxima" in self._without and update.htlc_maximum_msat <= most:
            update = update._replace(htlc_maximum_msat=most)
        if "minima" in self._without:
            update = update._replace(htlc_minimum_msat=0)
        if "disabled directions" in self._without:
            update = update._replace(channel_flags=update.direction)
        return update._replace(message_flags=HAS_MAXIMUM)

    def lines(self):
        """The map as a script."""
        for channel, capacity in self.channels.values():
            yield channel_line(channel.encode(), capacity).rstrip()
        for (scid, direction), update in self.updates.items():
            yield signed_line(update.encode(), self.channels[scid][0].nodes[direction]).rstrip()
        for point, node in self.nodes.items():
            yield signed_line(node.encode(), point).rstrip()
        yield "commit"

    def carried(self, payer, scids, msat):
        """For each channel of a route its start and what it carries."""
        starts, amounts = [payer], [msat]
        for scid in scids:
            nodes = self.channels[scid][0].nodes
            starts.append(nodes[1 - nodes.index(starts[-1])])
        for scid, start in list(zip(scids, starts))[:0:-1]:
            update = self.updates[scid, self.channels[scid][0].nodes.index(start)]
            amounts.append(amounts[-1] + update.fee_base_msat + amounts[-1] * update.fee_proportional_millionths // 1_000_000)
        return list(zip(starts, reversed(amounts)))

    def shortest_way(self, payer, payee, msat, known):
        """The nodes behind the payer on a way of the fewest usable channels, without regard to fees; empty if none."""
        leads = defaultdict(list)
        for (scid, direction), update in self.updates.items():
            channel, capacity = self.channels[scid]
            if not faults(channel, capacity, update, msat, msat, self.nodes, known):
                leads[channel.nodes[direction]].append(channel.nodes[1 - direction])
        before, waiting = {payer: None}, deque([payer])
        while waiting and payee not in before:
            node = waiting.popleft()
            for other in leads[node]:
                if other not in before:
                    before[other] = node
                    waiting.append(other)
        way = [payee] if payee in before else []
        while way and before[way[-1]] is not None:
            way.append(before[way[-1]])
        return way[-2::-1]


def faults(channel, capacity, update, msat, carried, nodes, known):
    """What is wrong with a direction of a channel for a payment, if the direction carries so much."""
    said = []
    if update is None:
        return ["no update in this direction"]
    if update.is_disabled:
        said.append("disabled")
    if even_bits(channel.features):
        said.append(f"even feature bits {even_bits(channel.features)}")
    if update.htlc_maximum_msat > MSAT * capacity:
        said.append(f"htlc_maximum_msat {update.htlc_maximum_msat:,} is above the capacity of {capacity:,} sat")
    if update.htlc_maximum_msat < carried:
        said.append(f"htlc_maximum_msat {update.htlc_maximum_msat:,} is below {carried:,} msat")
    if update.htlc_minimum_msat > msat:
        said.append(f"htlc_minimum_msat {update.htlc_minimum_msat:,} is above {msat:,} msat")
    node = nodes.get(channel.nodes[1 - update.direction])
    missing = [bit for bit in even_bits(node.features) if not is_known(bit, known)] if node else []
    if missing:
        said.append(f"the node that it leads to requires features {missing}, which --known doesn't have")
    return said


def objections(history, scid, start, msat, carried, known):
    """What is wrong with the direction of a channel that starts at a node, in the map of a history."""
    row = history.channels.get(scid)
    if row is None:
        gone = history.gone.get(scid)
        return [f"{gone[2]} by line {gone[3]}" if gone else "its announcement is refused"]
    direction = row.message.nodes.index(start)
    update = history.updates.get((scid, direction))
    nodes = {point: node.message for point, node in history.nodes.items()}
    return faults(row.message, row.capacity, update and update.message, msat, carried, nodes, known)
