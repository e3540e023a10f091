"""The answer of LND's `lncli describegraph`, in JSON, as a script.

The answer tells what LND knows, but has no messages. They are made, with the terms, timestamps, features and aliases
that it tells; signatures and bitcoin keys are placeholders, of a form that `lgm` takes since it leaves points to its
caller. They serve for routes. They must never be sent to peers, who would find the signatures false: answer no query
and set no filter on a map of them.

The answer doesn't tell its chain either, so the caller does. Nor does it mark channels that aren't announced, which it
has only if it was asked for them with `--include_unannounced`. A node whose `last_update` is 0 was never announced, and
gets no announcement. Nodes without a channel are left out, with a line on standard error that counts them. A field
that is missing or out of range, a channel without a capacity, and a channel or node that comes twice raise Fault, with
the channel or the node.
"""

import json
import re

import top  # leads to gossip
from progress import Progress, say

from gossip.messages import (
    DISABLED, HAS_MAXIMUM, MOST_SATOSHI, ChannelAnnouncement, ChannelUpdate, Fault, NodeAnnouncement, channel_line,
    features, scid_text, signed_line)

NAME = "an answer of LND's describegraph"
ABOUT = ("From LND's describegraph, which has no messages: these are made, with placeholders for signatures and "
         "bitcoin keys, and must never be sent to peers.")
DIGITS = re.compile("[0-9]{1,20}")


def number(fields, name, below):
    """A field that is a number, as text or not, below a bound."""
    value = fields.get(name)
    digits = str(value) if isinstance(value, (int, str)) else ""
    if not DIGITS.fullmatch(digits) or int(digits) >= below:
        raise Fault(f"{name} is {shown(fields, name)}, not a number below {below}")
    return int(digits)


def point(fields, name):
    """A field that is a compressed point."""
    try:
        found = bytes.fromhex(fields.get(name))
    except (TypeError, ValueError):
        found = b""
    if len(found) != 33 or found[0] not in (2, 3):
        raise Fault(f"{name} is {shown(fields, name)}, not a compressed point")
    return found


def shown(fields, name):
    """A field for a line on standard error, shortened."""
    return repr(fields[name])[:80] if name in fields else "missing"


def features_of(fields):
    """The bytes of features that have the bits of a node, whose numbers are the keys of an object."""
    found = fields.get("features") or {}
    if not isinstance(found, dict):
        raise Fault(f"features is {shown(fields, 'features')}, not an object")
    return features(*(number({"a feature bit": bit}, "a feature bit", 2**16) for bit in found))


def channel_of(edge, chain):
    """The announcement and the capacity in satoshi of an edge."""
    scid = number(edge, "channel_id", 2**64).to_bytes(8, "big")
    nodes = point(edge, "node1_pub"), point(edge, "node2_pub")
    if nodes[0] >= nodes[1]:
        raise Fault("node1_pub isn't less than node2_pub")
    capacity = number(edge, "capacity", MOST_SATOSHI + 1)
    if not capacity:
        raise Fault("capacity is 0")
    return ChannelAnnouncement(chain, scid, nodes), capacity


def update_of(policy, channel, direction):
    """The update of a policy."""
    if not isinstance(policy, dict):
        raise Fault("it is no object")
    if not isinstance(policy.get("disabled"), bool):
        raise Fault(f"disabled is {shown(policy, 'disabled')}, not true or false")
    flags = direction | (DISABLED if policy["disabled"] else 0)
    return ChannelUpdate(channel.chain, channel.scid, number(policy, "last_update", 2**32), HAS_MAXIMUM, flags,
                         number(policy, "time_lock_delta", 2**16), number(policy, "min_htlc", 2**64),
                         number(policy, "fee_base_msat", 2**32), number(policy, "fee_rate_milli_msat", 2**32),
                         number(policy, "max_htlc_msat", 2**64))


def edge_lines(edge, channel, capacity):
    """The lines of a channel and of its policies; one that LND doesn't know is null."""
    yield channel_line(channel.encode(), capacity)
    for direction, name in enumerate(("node1_policy", "node2_policy")):
        if edge.get(name) is None:
            continue
        try:
            update = update_of(edge[name], channel, direction)
        except Fault as fault:
            raise Fault(f"{name}: {fault}") from fault
        yield signed_line(update.encode(), channel.nodes[direction])


def node_of(fields):
    """A node's announcement and its alias; nothing if it was never announced."""
    own, timestamp = point(fields, "pub_key"), number(fields, "last_update", 2**32)
    alias = fields.get("alias", "")
    if not isinstance(alias, str):
        raise Fault(f"alias is {shown(fields, 'alias')}, not a text")
    return NodeAnnouncement(features_of(fields), timestamp, own), alias.encode("utf-8", "replace")


def all_of(graph, name, key):
    """The objects of a list of the graph, each with a name for a line on standard error."""
    found = graph.get(name) if isinstance(graph, dict) else None
    if not isinstance(found, list):
        raise Fault(f"there is no list {name}; is it the answer of describegraph?")
    for count, fields in enumerate(found, 1):
        if not isinstance(fields, dict):
            raise Fault(f"number {count} of {name} is no object")
        yield f"number {count} of {name}, {key} {shown(fields, key)}", fields


def graph_lines(graph, chain):
    """The items of a graph's script."""
    seen, points = set(), set()
    edges = list(all_of(graph, "edges", "channel_id"))
    for where, edge in Progress(len(edges)).over(edges):
        try:
            channel, capacity = channel_of(edge, chain)
            if channel.scid in seen:
                raise Fault(f"the channel {scid_text(channel.scid)} comes twice")
            seen.add(channel.scid)
            points.update(channel.nodes)
            yield from edge_lines(edge, channel, capacity)
        except Fault as fault:
            raise Fault(f"{where}: {fault}") from fault
    lonely = 0
    for where, fields in all_of(graph, "nodes", "pub_key"):
        try:
            node, alias = node_of(fields)
        except Fault as fault:
            raise Fault(f"{where}: {fault}") from fault
        if node.point in seen:
            raise Fault(f"{where}: the node comes twice")
        seen.add(node.point)
        lonely += node.point not in points
        if node.timestamp and node.point in points:
            yield signed_line(node.encode(alias=alias), node.point)
    if lonely:
        say(f"left out: {lonely} nodes without a channel")


def lines(path, chain):
    """The items of the script of an answer in a file."""
    with open(path, "rb") as file:
        try:
            graph = json.loads(file.read())
        except ValueError as fault:  # no JSON, or no text
            raise Fault(f"the JSON can't be read to its end: {fault}") from fault
    yield from graph_lines(graph, chain)
