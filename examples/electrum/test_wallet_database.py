#!/usr/bin/env python3
"""Tests the converter of Electrum's `gossip_db` on a database that the wallet's own code writes.

    python3 examples/electrum/test_wallet_database.py [PROGRAM]

examples/network/test_network.py does so on one that is made without it. This continues in the system's Python if that
has Electrum's package (python3-electrum). Without the package it is left out, with status 77.
"""

import subprocess
import sys
import tempfile
from pathlib import Path

sys.dont_write_bytecode = True  # the repository gets no made files

import interpreter

if not interpreter.goes_on_with_electrum():
    print(f"left out: a database that Electrum writes, {interpreter.WHY_NOT}")
    sys.exit(77)

from electrum import channel_db, constants

from offline import Offline, decoded, made_network
from top import TOP

PROGRAM = sys.argv[1] if len(sys.argv) > 1 else TOP / "lgm"
CHANNELS = 200


def written(folder, messages):
    """The file that the wallet writes when it gets these messages."""
    with Offline(folder) as offline:
        offline.fill(offline.database(channel_db.ChannelDB), messages)
    return Path(folder) / "gossip_db"


def wanted(messages):
    """The lines of the script, by the fields that the wallet finds: a channel's capacity covers its updates' maxima."""
    most = {}
    for message, _ in messages.updates:
        fields = decoded(message)
        scid = fields["short_channel_id"]
        most[scid] = max(most.get(scid, 0), fields["htlc_maximum_msat"])
    channels = [(message, "all", -(-most.get(decoded(message)["short_channel_id"], 0) // 1000))
                for message, _ in messages.channels]
    others = [(message, point.hex(), "-") for message, point in (*messages.updates, *messages.nodes)]
    return sorted(f"m {message.hex()} {sig} {funding}" for message, sig, funding in (*channels, *others))


def main():
    """Converts the file, and lets `lgm` take the script."""
    messages = made_network(CHANNELS, 1)
    with tempfile.TemporaryDirectory() as folder:
        words = [sys.executable, "-B", TOP / "examples" / "network", written(folder, messages)]
        done = subprocess.run(words, capture_output=True, text=True, check=True)
    said = done.stderr.splitlines()
    assert len(said) == 1 and said[0].endswith(" is a gossip_db of Electrum"), said
    about, *items, commit = done.stdout.splitlines()
    assert about.startswith("# From Electrum's gossip_db") and commit == "commit"
    assert sorted(items) == wanted(messages)
    words = [PROGRAM, "run", "--chain", constants.net.rev_genesis_bytes().hex()]
    answers = subprocess.run(words, input=done.stdout, capture_output=True, text=True, check=True).stdout.splitlines()
    assert [line.split(" ", 1)[1] for line in answers] == ["accepted"] * len(items) + [f"commit {len(items)}"]
    print(f"{len(items)} messages of a database that the wallet wrote, 1 passed")


if __name__ == "__main__":
    main()
