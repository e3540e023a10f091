"""Electrum's `gossip_db`, in the folder of its chain, as a script.

The database is opened for reading only. Electrum has checked signatures and that the funding outputs exist, so all
verdicts are that they are valid; but it keeps no capacities. Each channel gets the least number of satoshi that covers
the `htlc_maximum_msat` of its updates, at most all there are; 0 if it has no update. Left out, with a line on standard
error that counts them, are updates that aren't to be forwarded, and updates and nodes without a channel.

A row whose message isn't what its table is for raises Fault, with the table and the row's key.
"""

import sqlite3
from collections import defaultdict
from pathlib import Path

import top  # leads to gossip
from progress import Progress, say

from gossip.messages import (
    CHANNEL_ANNOUNCEMENT, CHANNEL_UPDATE, MOST_SATOSHI, NODE_ANNOUNCEMENT, Fault, channel_line, decode, scid_text,
    signed_line)

NAME = "a gossip_db of Electrum"
ABOUT = ("From Electrum's gossip_db, which has no capacities: each channel has the least that covers the "
         "htlc_maximum_msat of its updates.")


def rows(database, table, key, kind):
    """The key, the message and what it says, of each row of a table, in the order of the keys."""
    for name, message in database.execute(f"SELECT {key}, msg FROM {table} ORDER BY {key}"):
        where = f"{table} {name.hex() if isinstance(name, bytes) else name}"
        if not isinstance(name, bytes) or not isinstance(message, bytes):
            raise Fault(f"{where}: the key or the message isn't of bytes")
        try:
            found = decode(message, kind)
        except Fault as fault:
            raise Fault(f"{where}: {fault}") from fault
        yield name, message, found


def capacity(updates):
    """The least satoshi that cover the maxima of these updates."""
    most = max((update.htlc_maximum_msat for _, update in updates), default=0)
    return min(-(-most // 1000), MOST_SATOSHI)


def policies(database):
    """The messages and updates of each channel, by its id; and how many are not to be forwarded."""
    found, private = defaultdict(list), 0
    for _, message, update in rows(database, "policy", "key", CHANNEL_UPDATE):
        if update.is_private:
            private += 1
        else:
            found[update.scid].append((message, update))
    return found, private


def database_lines(database):
    """The items of the database's script."""
    updates, private = policies(database)
    count = database.execute("SELECT count(*) FROM channel_info").fetchone()[0]
    points = set()
    channels = rows(database, "channel_info", "short_channel_id", CHANNEL_ANNOUNCEMENT)
    for scid, message, channel in Progress(count).over(channels):
        if channel.scid != scid:
            raise Fault(f"channel_info {scid.hex()}: the message is of the channel {scid_text(channel.scid)}")
        points.update(channel.nodes)
        own = updates.pop(scid, ())
        yield channel_line(message, capacity(own))
        for update_message, update in own:
            yield signed_line(update_message, channel.nodes[update.direction])
    lonely = 0
    for point, message, node in rows(database, "node_info", "node_id", NODE_ANNOUNCEMENT):
        if node.point != point:
            raise Fault(f"node_info {point.hex()}: the message is of the node {node.point.hex()}")
        if point in points:
            yield signed_line(message, point)
        else:
            lonely += 1
    orphans = sum(len(own) for own in updates.values())
    if private or orphans or lonely:
        say(f"left out: {private} updates that aren't to be forwarded, {orphans} updates without a channel, "
            f"{lonely} nodes without a channel")


def lines(path):
    """The items of the database's script."""
    try:
        database = sqlite3.connect(f"{Path(path).resolve().as_uri()}?mode=ro", uri=True)
        try:
            yield from database_lines(database)
        finally:
            database.close()
    except sqlite3.Error as fault:
        raise Fault(f"the database can't be read: {fault}") from fault
