#!/usr/bin/env python3
"""Tests the converters of examples/network and its table: on three nodes from each kind of source, run through `lgm` up
to a route that is worked out here; on records and rows of all kinds; on faults; and on a synthetic network.

    python3 examples/network/test_network.py [PROGRAM]
"""

import subprocess
import sys
import tempfile
from concurrent.futures import ThreadPoolExecutor
from pathlib import Path

sys.dont_write_bytecode = True  # the repository gets no made files

from made_sources import (
    AMOUNT, DELETED, DYING, IS_DYING, REPLACED, TAKEN_OUT, VERSION, ZOMBIE, announced, crc32c, database, funded, graph,
    own, policy, record, spelled, store, updated)
from top import TOP

from gossip import messages
from gossip.networks import Network
from gossip.three_nodes import A, B, C, FIRST, NOBODY, SECOND, TERMS_OF_A, TERMS_OF_B, channel, node, update
from gossip.workloads import sync

PROGRAM = sys.argv[1] if len(sys.argv) > 1 else TOP / "lgm"
EXAMPLES = TOP / "examples"
CHAIN = messages.CHAIN.hex()
NAMES = {"A": A, "B": B, "C": C, "nobody": NOBODY, "first": FIRST, "second": SECOND}

# A pays C 1,000,000 msat with expiry at 800,000. Over the second channel goes just that. B charges 1,000 msat and 500
# ppm, 1,000 + 1,000,000 x 500 / 1,000,000 = 1,500 msat, and 40 blocks. So over the first channel go 1,001,500
# msat until 800,040.
PAYMENT = f"route {A.hex()} {C.hex()} 1000000 800000 {'11' * 32}"
ROUTE = [
    "route 1001500 800040 2",
    # to B: 20 bytes; 1,000,000 is 0f4240, 800,000 is 0c3500; the second channel, with 700,001 as 0aae61
    "hop 700000x1x1 14" + "02030f4240" + "04030c3500" + "0608" + "0aae61" + "000002" + "0000",
    # to C: 47 bytes; the secret and the total
    "hop 700001x2x0 2f" + "02030f4240" + "04030c3500" + "0823" + "11" * 32 + "0f4240"]


def converted(content, *options):
    """The status, the script (or the table) and the lines on standard error, of a source with this content."""
    with tempfile.TemporaryDirectory() as folder:
        path = Path(folder) / "source"
        path.write_bytes(content)
        words = [sys.executable, "-B", EXAMPLES / "network", *options, path]
        done = subprocess.run(words, capture_output=True, text=True, check=False)
    said = done.stderr.replace(str(path), "FILE").splitlines()
    return done.returncode, done.stdout.splitlines(), said


def items(content, *options):
    """The status, the items of the script in short, and what is said behind the kind of the source."""
    status, script, said = converted(content, *options)
    return status, [told(line) for line in script if not line.startswith("#")], said[1:]


def told(line):
    """A line of a script in short: its type and the id or the point that it is about."""
    words = line.split()
    if words[0] != "m":
        return line
    message = bytes.fromhex(words[1])
    kind, place = {b"\1\0": ("channel", 292), b"\1\1": ("node", 72), b"\1\2": ("update", 98)}[message[:2]]
    if kind == "node":
        place += int.from_bytes(message[66:68], "big")  # of features
    key = message[place:place + (33 if kind == "node" else 8)]
    signed = named(bytes.fromhex(words[2])) if kind != "channel" else words[3]
    return f"{kind} {named(key)} {signed}"


def named(value):
    """The name of a point or an id."""
    return next(name for name, known in NAMES.items() if known == value)


def answers(script):
    """The answers of `lgm` to lines, without their numbers."""
    words = [PROGRAM, "run", "--chain", CHAIN]
    text = "".join(f"{line}\n" for line in script)
    done = subprocess.run(words, input=text, capture_output=True, text=True, check=True)
    return [line.split(" ", 1)[1] for line in done.stdout.splitlines()]


def is_accepted_with_its_route(content, about, *options):
    """Each item of a source is accepted, and the payment has its route."""
    status, script, said = converted(content, *options)
    assert (status, said) == (0, [f"network: FILE is {about}"]), (status, said)
    assert script[0].startswith("# ") and not any(line.startswith("#") for line in script[1:])
    found = answers([*script, PAYMENT])
    count = len(script) - 2
    assert found == ["accepted"] * count + [f"commit {count}"] + ROUTE, found
    return script


# Core Lightning.

STORE = (funded(FIRST, A, B), updated(FIRST), funded(SECOND, B, C), record(update(SECOND, TERMS_OF_B)), announced(C))
WHOLE = ["channel first 100000", "update first A", "channel second 100000", "node A A", "node C C", "commit"]
OPEN = WHOLE[:2] + [WHOLE[3], WHOLE[5]]


def a_store_gives_its_route():
    assert crc32c(0, b"123456789") == 0xE3069283  # the usual check value
    script = is_accepted_with_its_route(store(*STORE), "a gossip_store of Core Lightning")
    assert script[0] == "# From Core Lightning's gossip_store."


def nodes_of_a_store_come_behind_all_channels():
    parts = (announced(A), funded(FIRST, A, B), updated(FIRST), announced(C), funded(SECOND, B, C))
    assert items(store(*parts)) == (0, WHOLE, [])


def what_is_deleted_a_zombie_or_dying_is_skipped():
    for flag in (DELETED, ZOMBIE, DYING):
        parts = (funded(FIRST, A, B), updated(FIRST), funded(SECOND, B, C, flag), updated(SECOND, flag), announced(A))
        assert items(store(*parts)) == (0, OPEN, []), flag
        assert items(store(*parts[:3], updated(SECOND), announced(A), announced(C))) == (0, OPEN, []), flag


def a_channel_that_was_written_is_closed():
    for kind, behind in ((TAKEN_OUT, b""), (IS_DYING, bytes(4))):
        parts = (funded(FIRST, A, B), updated(FIRST), announced(A), funded(SECOND, B, C), announced(C))
        wanted = [*WHOLE[:3], "close 700001x2x0", WHOLE[3], "commit"]
        assert items(store(*parts, own(kind, SECOND, behind))) == (0, wanted, [])


def a_channel_that_was_not_written_is_not_closed():
    assert items(store(own(TAKEN_OUT, FIRST))) == (0, ["commit"], [])
    parts = (funded(FIRST, A, B, DYING), own(TAKEN_OUT, FIRST), own(IS_DYING, FIRST, bytes(4)))
    assert items(store(*parts)) == (0, ["commit"], [])


def a_faulty_store_fails_without_commit():
    first = funded(FIRST, A, B)
    place = f"the record at byte {1 + len(first)}"
    damaged = bytearray(funded(SECOND, B, C))
    damaged[100] ^= 1
    table = [
        (damaged, f"{place} has a wrong CRC"),
        (own(REPLACED, bytes(8)), f"{place}: the store was replaced; read the new one"),
        (record(update(FIRST)[:137]), f"{place}: the message is cut off at its terms, htlc_maximum_msat included"),
        (record(node(b"\x04" + bytes(32))), f"{place}: its node_id is no compressed point"),
        (record(channel(SECOND, B, C)), "the store ends without an amount for the channel 700001x2x0")]
    table += [(funded(SECOND, B, C)[:cut], f"{place} is cut off; if the node was writing it, try again")
              for cut in (1, 11, 12, 50)]
    for part, why in table:
        assert items(store(first, part)) == (1, WHOLE[:1], [f"network: {why}"]), why
    behind = f"the record at byte {1 + len(first) + len(record(channel(SECOND, B, C)))}"
    lost = store(first, record(channel(SECOND, B, C)), updated(FIRST))
    assert items(lost) == (1, WHOLE[:1], [f"network: {behind}: no amount in front of it for the channel 700001x2x0"])


def a_version_that_is_not_known_fails():
    for version, found in ((b"\x2d", "1.13"), (b"\x10", "0.16"), (b"\x09", "0.9")):
        why = f"network: a store of version {found}; known are the versions 0.12 to 0.15"
        assert items(store(funded(FIRST, A, B), version=version)) == (1, [], [why])


def a_made_network_is_accepted_whole():
    parts, count = [VERSION], 0
    for line in sync(Network(300, 1)):
        words = line.split()
        if words[0] == "m":
            message = bytes.fromhex(words[1])
            parts += [record(message, DELETED), record(message)]
            if words[2] == "all":
                parts.append(own(AMOUNT, int(words[3]).to_bytes(8, "big")))
            count += 1
    status, script, _ = converted(b"".join(parts))
    assert status == 0
    assert answers(script) == ["accepted"] * count + [f"commit {count}"]


# Electrum.

CHANNELS = [(SECOND, channel(SECOND, B, C)), (FIRST, channel(FIRST, A, B))]
POLICIES = [(SECOND + B, update(SECOND, TERMS_OF_B)), (FIRST + A, update(FIRST))]
NODES = [(C, node(C)), (A, node(A))]
# 60,000,500 msat want 60,001 sat.
FROM_DATABASE = ["channel first 50000", "update first A", "channel second 60001", "update second B", "node A A",
                 "node C C", "commit"]


def a_database_gives_its_route():
    content = database(CHANNELS, POLICIES, NODES)
    script = is_accepted_with_its_route(content, "a gossip_db of Electrum")
    assert "no capacities" in script[0] and "htlc_maximum_msat" in script[0]
    assert items(content) == (0, FROM_DATABASE, [])


def capacities_cover_both_directions_and_no_more_than_there_is():
    for maxima, wanted in (((), 0), ((1, 1_001), 2), ((2_000, 1), 2), ((5, 2**64 - 1), 2_100_000_000_000_000)):
        rows = [(FIRST + bytes([flags]), update(FIRST, (*TERMS_OF_A[:4], maximum), flags))
                for flags, maximum in enumerate(maxima)]
        content = database(CHANNELS[1:], rows, [])
        status, found, _ = items(content)
        assert status == 0 and found[0] == f"channel first {wanted}", found
        _, script, _ = converted(content)
        assert set(answers(script)[:-1]) == {"accepted"}


def what_has_no_channel_is_left_out_and_counted():
    private = bytearray(update(FIRST, flags=1))
    private[110] |= 2
    rows = [*POLICIES, (FIRST + B, bytes(private))]
    said = ("network: left out: 1 updates that aren't to be forwarded, 1 updates without a channel, "
            "1 nodes without a channel")
    wanted = [*FROM_DATABASE[:2], FROM_DATABASE[4], "commit"]
    assert items(database(CHANNELS[1:], rows, NODES)) == (0, wanted, [said])


def a_faulty_database_fails_without_commit():
    table = [
        (CHANNELS, [(b"\x01", update(FIRST)[:100])], NODES, "policy 01: the message is cut off at its id"),
        (CHANNELS, [(b"\x01", node(A))], NODES, "policy 01: the message is of type 257, not 258"),
        (CHANNELS, [(b"\x01", b"")], NODES, "policy 01: there is no message"),
        (CHANNELS, [(b"\x01", "text")], NODES, "policy 01: the key or the message isn't of bytes"),
        ([(FIRST, channel(SECOND, B, C))], [], [],
         f"channel_info {FIRST.hex()}: the message is of the channel 700001x2x0"),
        ([], [], [(A, node(C))], f"node_info {A.hex()}: the message is of the node {C.hex()}")]
    for *rows, why in table:
        status, script, said = items(database(*rows))
        assert (status, said) == (1, [f"network: {why}"]) and "commit" not in script, said
    others = database(CHANNELS, POLICIES, NODES, ("channel_info", "policies", "node_info"))
    assert items(others) == (1, [], ["network: the database can't be read: no such table: policy"])
    status, script, [said] = items(database(CHANNELS, POLICIES, NODES)[:8192])
    assert status == 1 and "commit" not in script and said.startswith("network: the database can't be read: "), said


# LND.

FROM_GRAPH = ["channel first 100000", "update first A", "channel second 200000", "update second B", "update second C",
              "node A A", "node C C", "commit"]


def a_graph_gives_its_route():
    script = is_accepted_with_its_route(spelled(graph()), "an answer of LND's describegraph", "--chain", CHAIN)
    assert "placeholders" in script[0] and "never be sent" in script[0]
    assert items(spelled(graph()), "--chain", CHAIN) == (0, FROM_GRAPH, [])


def a_graph_says_what_its_messages_say():
    _, script, _ = converted(spelled(graph()), "--chain", CHAIN)
    sent = [bytes.fromhex(line.split()[1]) for line in script if line.startswith("m ")]
    disabled = update(SECOND, TERMS_OF_A, 3, 1_700_000_000)
    alice = node(A, bytes([0x81, 0]), 1_700_000_001, b"alice")
    carol = node(C, b"", 1_700_000_003, "carol \u26a1".encode())
    assert sent[4:] == [disabled, alice, carol]
    _, script, _ = converted(spelled(graph()))
    mainnet = "6fe28c0ab6f1b372c1a6a246ae63f74f931e8365e15a089c68d6190000000000"
    assert all(mainnet in line for line in script if line.startswith(("m 0100", "m 0102")))


def an_alias_is_cut_at_32_bytes():
    found = graph()
    found["nodes"][0]["alias"] = "\ufffd" * 11  # 33 bytes
    _, script, _ = converted(spelled(found), "--chain", CHAIN)
    message = node(A, bytes([0x81, 0]), 1_700_000_001, b"\xef\xbf\xbd" * 10 + b"\xef\xbf")
    assert f"m {message.hex()} {A.hex()} -" in script


def a_node_without_a_channel_is_left_out():
    found = graph()
    found["nodes"].append({"last_update": 1, "pub_key": NOBODY.hex(), "alias": "", "features": {}})
    assert items(spelled(found)) == (0, FROM_GRAPH, ["network: left out: 1 nodes without a channel"])


def a_faulty_graph_fails_without_commit():
    edge, node_of_c = "number 2 of edges, channel_id '769659238954958848'", f"number 3 of nodes, pub_key '{C.hex()}'"
    table = [
        ("capacity", None, f"{edge}: capacity is None, not a number below 2100000000000001"),
        ("capacity", "0", f"{edge}: capacity is 0"),
        ("capacity", "1e5", f"{edge}: capacity is '1e5', not a number below 2100000000000001"),
        ("node1_pub", "02ab", f"{edge}: node1_pub is '02ab', not a compressed point"),
        ("node1_pub", C.hex(), f"{edge}: node1_pub isn't less than node2_pub"),
        ("channel_id", "769658139443265537",
         "number 2 of edges, channel_id '769658139443265537': the channel 700000x1x1 comes twice"),
        ("node2_policy", {}, f"{edge}: node2_policy: disabled is missing, not true or false"),
        ("node2_policy", policy((2**16, *TERMS_OF_A[1:])),
         f"{edge}: node2_policy: time_lock_delta is 65536, not a number below 65536")]
    for name, value, why in table:
        found = graph()
        found["edges"][1][name] = value
        status, script, said = items(spelled(found))
        assert (status, said) == (1, [f"network: {why}"]) and "commit" not in script, said
    found = graph()
    del found["edges"][1]["capacity"]
    assert items(spelled(found))[2] == [f"network: {edge}: capacity is missing, not a number below 2100000000000001"]
    for name, value, why in (("last_update", -1, "last_update is -1, not a number below 4294967296"),
                             ("features", {"x": {}}, "a feature bit is 'x', not a number below 65536"),
                             ("alias", 5, "alias is 5, not a text")):
        found = graph()
        found["nodes"][2][name] = value
        assert items(spelled(found)) == (1, FROM_GRAPH[:6], [f"network: {node_of_c}: {why}"]), why


def a_file_that_is_cut_or_another_fails():
    whole = spelled(graph())
    status, script, [said] = items(whole[:len(whole) // 2])
    assert (status, script) == (1, []) and said.startswith("network: the JSON can't be read to its end: "), said
    assert items(spelled(graph()).decode().encode("utf-16")) == (0, FROM_GRAPH, [])  # as some shells of Windows write
    assert items(b'{"nodes": []}') == (
        1, [], ["network: there is no list edges; is it the answer of describegraph?"])
    known = "a gossip_store, a gossip_db, an answer of describegraph"
    assert converted(b"") == (1, [], [f"network: FILE is empty: {known}"])
    assert converted(b"nothing") == (1, [], [f"network: FILE is none of the files that are known: {known}"])
    assert converted(b"# a script\ncommit\n") == (1, [], ["network: FILE is a script already"])
    named_already = "network: FILE is a gossip_store of Core Lightning, which names its chain itself"
    assert converted(store(*STORE), "--chain", CHAIN) == (1, [], [named_already])
    status, script, said = converted(whole, "--chain", "c1")
    assert (status, script) == (2, []) and said[-1].endswith("'c1' isn't 64 hexadecimal digits"), said


# The table.

def values(found):
    """The words of each line of a table that has a name, by the name; the last three lines hold quantiles."""
    return {" ".join(line.split()[:-1]): line.split()[-1] for line in found if line.strip()}


def the_table_counts_what_can_be_used_and_why_not():
    found = graph()
    found["edges"][0]["node2_policy"] = policy((*TERMS_OF_A[:4], 100_000_001))  # of a capacity of 100,000 sat
    found["edges"].append({**found["edges"][1], "channel_id": "1", "node1_policy": None})
    found["nodes"][0]["features"] = {"15": {}}  # so of the usable directions, A to B and B to C, just the second counts
    found["nodes"][2]["features"] = {"8": {}, "14": {}, "17": {}}
    found["edges"][0]["node1_policy"]["max_htlc_msat"] = "100000000"  # just the capacity
    status, script, _ = converted(spelled(found), "--chain", CHAIN)
    assert status == 0
    content = "".join(f"{line}\n" for line in script).encode()
    status, table, said = converted(content, "--summary")
    assert (status, said) == (0, [])
    counts = {
        "channels": "3", "nodes with a channel": "3", "of them announced": "2", "capacity in bitcoin": "0.00500000",
        "directions": "6", "usable": "2", "of them to nodes with even feature bits": "1", "not usable: no update": "1",
        "not usable: disabled": "2", "not usable: even feature bit of the channel": "0",
        "not usable: maximum above the capacity": "1"}
    assert {name: values(table).get(name) for name in counts} == counts, table
    rows = [line.split()[2:] for line in table if line.startswith(("base fee", "rate,", "capacity, "))]
    assert rows[0] == ["msat", *["1,000"] * 6, "7,000"] and rows[1] == ["500"] * 6 + ["9,000"], rows
    assert rows[2] == ["100,000", "100,000", "100,000", "200,000", "200,000", "200,000", "200,000"], rows
    # bits 8 and 14 of one node: 0x4100
    assert table[0].startswith("From LND's describegraph, ") and table[1] == ""
    assert table[-2].endswith(": 8 (1), 14 (1)") and table[-1].endswith("--known 4100"), table[-2:]
    direct = converted(spelled(found), "--chain", CHAIN, "--summary")
    assert direct[:2] == (0, table) and len(direct[2]) == 1


def the_table_follows_closes_and_counts_what_it_leaves_out():
    lines = [f"m {channel(FIRST, A, B).hex()} all 100000", f"m {update(FIRST).hex()} {A.hex()} -",
             f"m {update(FIRST).hex()} {A.hex()} -", f"m {node(A).hex()} {A.hex()} -", "m 0100 all 5",
             f"m {channel(SECOND, B, C).hex()} all spent", "close 700001x2x0", "close 700000x1x1", "commit"]
    for count, channels, not_taken in ((2, "1", None), (3, "1", "1"), (7, "1", "4"), (9, "0", "4")):
        content = "".join(f"{line}\n" for line in lines[:count]).encode()
        status, table, _ = converted(content, "--summary")
        found = values(table)
        assert (status, found["channels"], found.get("items not taken")) == (0, channels, not_taken), (count, table)
    assert found["nodes with a channel"] == found["of them announced"] == "0"


def the_table_takes_what_lgm_accepts():
    content = (EXAMPLES / "map.txt").read_bytes()
    given = [line for line in content.decode().splitlines() if line.startswith(("m ", "close "))]
    refused = [word for word in answers(given) if word != "accepted"]
    assert values(converted(content, "--summary")[1])["items not taken"] == str(len(refused)) == "6", refused


def main():
    """Runs each test."""
    tests = (a_store_gives_its_route, nodes_of_a_store_come_behind_all_channels,
             what_is_deleted_a_zombie_or_dying_is_skipped, a_channel_that_was_written_is_closed,
             a_channel_that_was_not_written_is_not_closed, a_faulty_store_fails_without_commit,
             a_version_that_is_not_known_fails, a_made_network_is_accepted_whole, a_database_gives_its_route,
             capacities_cover_both_directions_and_no_more_than_there_is, what_has_no_channel_is_left_out_and_counted,
             a_faulty_database_fails_without_commit, a_graph_gives_its_route, a_graph_says_what_its_messages_say,
             an_alias_is_cut_at_32_bytes, a_node_without_a_channel_is_left_out, a_faulty_graph_fails_without_commit,
             a_file_that_is_cut_or_another_fails, the_table_counts_what_can_be_used_and_why_not,
             the_table_follows_closes_and_counts_what_it_leaves_out, the_table_takes_what_lgm_accepts)
    with ThreadPoolExecutor() as pool:
        list(pool.map(lambda test: test(), tests))
    print(f"{len(tests)} passed")


if __name__ == "__main__":
    main()
