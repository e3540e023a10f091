"""What test_network.py converts: the network of `gossip.three_nodes`, as each kind of source keeps it.

    store(funded(FIRST, A, B), updated(FIRST))             # bytes of Core Lightning's gossip_store, by records
    database([(FIRST, channel(FIRST, A, B))], [], [])      # of Electrum's gossip_db, by rows of its three tables
    spelled(graph())                                       # of the answer of LND's describegraph
"""

import json
import sqlite3
import struct
import tempfile
from pathlib import Path

import top  # leads to gossip

from gossip.three_nodes import A, B, C, TERMS_OF_A, TERMS_OF_B, channel, node, update

TIMESTAMP = 1_700_000_000
DELETED, ZOMBIE, DYING = 0x8000, 0x1000, 0x0800
AMOUNT, TAKEN_OUT, REPLACED, IS_DYING = 4101, 4103, 4105, 4106
VERSION = b"\x0d"


def crc32c(start, data):
    """The CRC-32C, bit by bit, of data behind bytes whose CRC is `start`."""
    crc = start ^ 0xFFFFFFFF
    for byte in data:
        crc ^= byte
        for _ in range(8):
            crc = crc >> 1 ^ (0x82F63B78 if crc & 1 else 0)
    return crc ^ 0xFFFFFFFF


def record(message, flags=0):
    """A message as the store has it."""
    return struct.pack(">HHII", flags, len(message), crc32c(TIMESTAMP, message), TIMESTAMP) + message


def own(kind, *parts):
    """A record of the store's own."""
    return record(b"".join((kind.to_bytes(2, "big"), *parts)))


def funded(scid, one, other, flags=0):
    """The records of a channel of 100,000 sat."""
    return record(channel(scid, one, other), flags) + own(AMOUNT, (100_000).to_bytes(8, "big"))


def store(*parts, version=VERSION):
    """A store of these records."""
    return version + b"".join(parts)


def updated(scid, flags=0):
    """The record of an update."""
    return record(update(scid), flags)


def announced(point):
    """The record of a node's announcement."""
    return record(node(point))


def database(channels, policies, nodes, tables=("channel_info", "policy", "node_info")):
    """The bytes of a database with these rows."""
    with tempfile.TemporaryDirectory() as folder:
        path = Path(folder) / "made"
        made = sqlite3.connect(path)
        keys = ("short_channel_id", "key", "node_id")
        for table, key, rows in zip(tables, keys, (channels, policies, nodes)):
            made.execute(f"CREATE TABLE {table} ({key} BLOB, msg BLOB, PRIMARY KEY({key}))")
            made.executemany(f"INSERT INTO {table} VALUES (?, ?)", rows)
        made.commit()
        made.close()
        return path.read_bytes()


def policy(terms, disabled=False):
    """A policy, as LND spells it: numbers of 64 bits as text."""
    delta, minimum, base, millionths, maximum = terms
    return {"time_lock_delta": delta, "min_htlc": str(minimum), "fee_base_msat": str(base),
            "fee_rate_milli_msat": str(millionths), "disabled": disabled, "max_htlc_msat": str(maximum),
            "last_update": 1_700_000_000}


def graph():
    """Three nodes and two channels. Their ids are 700,000 x 2^40 + 2^16 + 1 and 700,001 x 2^40 + 2 x 2^16."""
    return {
        "nodes": [
            {"last_update": 1_700_000_001, "pub_key": A.hex(), "alias": "alice", "addresses": [], "color": "#3399ff",
             "features": {"8": {"name": "var-onion", "is_required": True, "is_known": True},
                          "15": {"name": "payment-addr", "is_required": False, "is_known": True}}},
            {"last_update": 0, "pub_key": B.hex(), "alias": "", "addresses": [], "features": {}},
            {"last_update": 1_700_000_003, "pub_key": C.hex(), "alias": "carol \u26a1", "features": {}}],
        "edges": [
            {"channel_id": "769658139443265537", "chan_point": f"{'ab' * 32}:1", "last_update": 1_700_000_000,
             "node1_pub": A.hex(), "node2_pub": B.hex(), "capacity": "100000",
             "node1_policy": policy(TERMS_OF_A), "node2_policy": None},
            {"channel_id": "769659238954958848", "chan_point": f"{'cd' * 32}:0", "last_update": 1_700_000_000,
             "node1_pub": B.hex(), "node2_pub": C.hex(), "capacity": "200000",
             "node1_policy": policy(TERMS_OF_B), "node2_policy": policy(TERMS_OF_A, True)}]}


def spelled(found):
    """A graph as a file."""
    return json.dumps(found, indent=4).encode()
