#!/usr/bin/env python3
"""Tests shorten.py: the shorter list gives the same map, bans included, and no line of it can be left out.

    python3 examples/tools/test_shorten.py [PROGRAM]

The maps are compared by all of their messages, by routes, and by what an announcement of each node is answered.
"""

import random
import subprocess
import sys
import tempfile
from pathlib import Path

sys.dont_write_bytecode = True  # the repository gets no made files

from top import TOP

from gossip import messages
from gossip.networks import Network
from gossip.three_nodes import channel
from gossip.workloads import bans, churn, route_line

EXAMPLES = TOP / "examples"
PROGRAM = sys.argv[1] if len(sys.argv) > 1 else TOP / "lgm"
TOOL = EXAMPLES / "tools" / "shorten.py"
CHAIN = messages.CHAIN.hex()
FRESH = messages.short_channel_id(5_000_000, 1, 0)  # an id that no script has
POINT = b"\x03" + b"\xff" * 32  # the other end of it, above all nodes


def answers(lines):
    """The answers to lines, in order."""
    words = [PROGRAM, "run", "--chain", CHAIN]
    text = "".join(f"{line}\n" for line in lines)
    return subprocess.run(words, input=text, capture_output=True, text=True, check=True).stdout.splitlines()


def kept_of(lines):
    """The items among lines that are accepted."""
    items = [line for line in lines if line.startswith(("m ", "close "))]
    return [line for line, answer in zip(items, answers(items)) if answer.endswith(" accepted")]


def shortened(kept):
    """What shorten.py writes."""
    with tempfile.TemporaryDirectory() as folder:
        path = Path(folder) / "kept"
        path.write_text("".join(f"{line}\n" for line in kept))
        words = [sys.executable, "-B", TOOL, "--program", PROGRAM, path]
        done = subprocess.run(words, capture_output=True, text=True, check=False)
    assert done.returncode == 0, done.stderr
    return done.stdout.splitlines()


def announced(line):
    """What the announcement of a channel says, in its line."""
    return messages.decode(bytes.fromhex(line.split()[1]), messages.CHANNEL_ANNOUNCEMENT)


def asked_of(lines, payments=()):
    """Questions that tell two maps apart, up to their hash seeds."""
    channels = [announced(line) for line in lines if line.startswith("m 0100")]
    ids = sorted({it.scid for it in channels})
    queries = [messages.query_channel_range(0, 0xFFFFFFFF, with_timestamps=True)]
    queries += [messages.query_short_channel_ids(ids[at:at + 4_000]) for at in range(0, len(ids), 4_000)]
    points = sorted({point for it in channels for point in it.nodes})
    offers = [f"m {channel(FRESH, *sorted((point, POINT))).hex()} all 1000" for point in points]
    return ["commit", *(f"q {query.hex()}" for query in queries), *payments,
            *(line for offer in offers for line in (offer, f"close {messages.scid_text(FRESH)}"))]


def told(lines, asked):
    """What a map of these lines answers, without the numbers of lines and the count of items."""
    found = answers([*lines, *asked])
    return [words for number, words in (line.split(" ", 1) for line in found)
            if int(number) > len(lines) and not words.startswith("commit ")]


def is_the_same(kept, payments=()):
    """The shorter list of kept lines, which gives the same answers."""
    shorter = shortened(kept)
    asked = asked_of(kept, payments)
    assert told(shorter, asked) == told(kept, asked)
    assert kept_of(shorter) == shorter and set(shorter) <= set(kept)
    return shorter


def examples_are_shortened():
    """Announcements, bans, updates and closes of the examples; no line of the shorter list can be left out."""
    names = ("announcements.txt", "map.txt", "queries.txt")
    lines = [line for name in names for line in (EXAMPLES / name).read_text().split("\n")]
    kept = kept_of(lines)
    shorter = is_the_same(kept)
    assert 0 < len(shorter) < len(kept), (len(shorter), len(kept))
    asked = asked_of(kept)
    whole = told(kept, asked)
    assert any(word == "banned" for word in whole)
    for number in range(len(shorter)):
        assert told(shorter[:number] + shorter[number + 1:], asked) != whole, shorter[number]


def a_made_network_is_shortened():
    """Rounds of updates over a network; then closes, announcements anew, and bans of some nodes."""
    network = Network(300, 1)
    lines = [line.rstrip() for line in churn(network) if line.startswith("m ")]
    drawn = random.Random(1)
    announcements = [line for line in lines if line.startswith("m 0100")]
    for line in drawn.sample(announcements, 40):
        lines.append(close_of(line))
        lines += [line] if drawn.randrange(2) else []
    lines += [line.rstrip() for line in bans(network) if line.startswith("m 0100")][-4_000:-3_980]
    kept = kept_of(lines)
    payments = [route_line(network).rstrip() for _ in range(50)]
    shorter = is_the_same(kept, payments)
    assert len(shorter) < len(kept) / 10, (len(shorter), len(kept))


def what_was_refused_is_left_out():
    """Refused items, comments and other lines don't matter; nothing is left of nothing."""
    lines = (EXAMPLES / "map.txt").read_text().split("\n")
    assert shortened(lines) == shortened(kept_of(lines))
    first, *_ = kept_of(lines)
    assert shortened([first, close_of(first)]) == []


def close_of(line):
    """The line that closes the channel of an announcement."""
    return f"close {messages.scid_text(announced(line).scid)}"


def a_fault_writes_nothing():
    """A program that fails, and a file without an announcement."""
    for words in (["--program", "/bin/false", EXAMPLES / "map.txt"], ["/dev/null"]):
        words = [sys.executable, "-B", TOOL, *words]
        done = subprocess.run(words, capture_output=True, text=True, check=False)
        assert (done.returncode, done.stdout) == (1, "") and done.stderr.startswith("shorten: "), done


def main():
    """Runs each test."""
    tests = (examples_are_shortened, a_made_network_is_shortened, what_was_refused_is_left_out, a_fault_writes_nothing)
    for test in tests:
        test()
    print(f"{len(tests)} passed")


if __name__ == "__main__":
    main()
