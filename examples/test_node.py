#!/usr/bin/env python3
"""Tests the nodes of examples/python, examples/c and examples/rust against simulated peers, two of which lie.

    python3 examples/test_node.py [FOLDER]

FOLDER has the library, as examples/build-c leaves it in examples/out. Each node ends with a map of what is true: the channels
that the chain has, their latest updates with the right signatures, and nothing else; and with the same map in its file.
"""

import os
import shutil
import subprocess
import sys
import tempfile
from pathlib import Path

sys.dont_write_bytecode = True  # the repository gets no made files

HERE = Path(__file__).resolve().parent
TOP = HERE.parent
sys.path[1:1] = [str(TOP), str(TOP / "python")]

import lgm
from gossip.messages import CHAIN
from gossip.networks import NOW
from gossip.peer import GAPS, HONEST, INVENTS, REPEATS, Peer, funding, listen

CHANNELS, SEED = 400, 7
BEFORE, BLOCK = NOW - 7 * 86_400, 917_000 - 2_016  # what the nodes prune is older
def truth():
    """The ids that a node should have in the end, and the updates: what an honest peer has, with those of today."""
    peer = Peer(CHANNELS, SEED, HONEST)
    latest = {(scid, direction): told for scid, updates in peer.updates.items() for direction, told in updates.items()}
    for update in peer.today:
        latest[int.from_bytes(update[98:106], "big"), 0] = int.from_bytes(update[106:110], "big"), update
    times = {scid: [latest[scid, direction][0] for direction in (0, 1) if (scid, direction) in latest] for scid in peer.ids}
    return {scid for scid, found in times.items() if (max(found) >= BEFORE if found else scid >> 40 >= BLOCK)}, latest


def assert_true(network):
    """That a map has what is true and wasn't pruned, and nothing else."""
    ids, latest = truth()
    assert 0 < len(ids) < CHANNELS and set(network.channels()) == ids, f"{len(network)} channels in place of {len(ids)}"
    for scid in ids:
        channel = network.channel(scid)
        assert channel.capacity_sat == funding(scid)
        for direction, held in enumerate((channel.from_1, channel.from_2)):
            told = latest.get((scid, direction))
            assert (held is None) == (told is None), f"{scid:x}"
            assert held is None or network.message(scid, lgm.UPDATE_1 + direction) == told[1], f"{scid:x}"
    assert not list(network.banned())


def run(words):
    """Runs a node twice beside liars and an honest peer, the second time from what it has saved, which is looked at."""
    with tempfile.TemporaryDirectory() as folder:
        saved = Path(folder) / "map"
        for _ in range(2):
            ports, threads = listen(CHANNELS, SEED, (INVENTS, REPEATS, HONEST))
            ended = subprocess.run([*map(str, words), str(saved), *map(str, ports)], check=False, timeout=300)
            assert ended.returncode == 0, f"it ended with {ended.returncode}"
            for thread in threads:
                thread.join(30)
                assert not thread.is_alive(), "it didn't hang up"
            with lgm.Map.load(saved.read_bytes(), CHAIN) as network:
                assert_true(network)


def assert_gaps_are_seen(network):
    """The replies of a peer that leaves out a part of its ids cover no more than what is before that."""
    whole, gaps = (Peer(CHANNELS, SEED, way) for way in (HONEST, GAPS))
    for peer, is_whole in ((whole, True), (gaps, False)):
        covered = 0
        for reply in peer.answer(network.ask_range()):
            covered = network.covered(reply, covered)
        assert (covered >= 2 ** 24) == is_whole


def nodes(out):
    """The words of each node that can be built or was, by its language."""
    found = {"Python": [sys.executable, HERE / "python" / "node.py"]}
    if shutil.which("cc"):
        words = ["cc", "-std=c11", "-O2", "-Wall", "-Wextra", "-Werror", "-I", TOP / "include", HERE / "c" / "node.c"]
        subprocess.run([*words, out / "liblgm.a", "-o", out / "node-c"], check=True)
        found["C"] = [out / "node-c", CHAIN.hex()]
    if (out / "node").exists():
        found["Rust"] = [out / "node"]
    return found


def main():
    """Tests each node, and says which."""
    out = Path(sys.argv[1]) if len(sys.argv) > 1 else HERE / "out"
    os.environ["PYTHONPATH"] = str(TOP / "python")
    with lgm.Map(CHAIN) as network:
        assert_gaps_are_seen(network)
    found = nodes(out)
    for words in found.values():
        run(words)
    print(f"test_node.py: nodes in {', '.join(found)} passed")


if __name__ == "__main__":
    main()
