#!/usr/bin/env python3
"""Runs one process for long over a map of 60 channels, and watches its memory and the time of a payment.

    python3 tests/soak.py [PROGRAM]

Nodes come with a channel and go with it, one output is announced between ever more nodes, which are banned, updates come
without a commit, and peers change their filters. What the process holds and does is bounded by the map and by the banned
nodes, so neither grows with what has been: the resident memory, beside what each banned node takes, and the mean time of
a payment. It takes some ten seconds. PROGRAM is crates/lgm/out/lgm if left out. It needs Linux's /proc, and is left
out without it, with status 77.
"""

import os
import subprocess
import sys
import threading
import time
from pathlib import Path

TOP = Path(__file__).resolve().parent.parent
sys.path.insert(1, str(TOP))

from gossip.messages import (  # noqa: E402
    CHAIN, HAS_MAXIMUM, ChannelAnnouncement, ChannelUpdate, channel_line, gossip_timestamp_filter, short_channel_id,
    signed_line)

PROGRAM = sys.argv[1] if len(sys.argv) > 1 else TOP / "crates/lgm/out/lgm"
CHANNELS = 60
LAST = 100  # a node that every channel before it can end at, as the greater one
PAYMENTS = 200  # of which the mean time is taken
COMMITS = 100  # between two looks
KEPT = 2_048  # KiB that the rest may grow by: 1,024 points of a view and as many pending operations, and what malloc keeps
BANNED = 100  # bytes that a banned node takes in the two copies of the map, and in a larger tree
SLOWER = 3.0  # times the first time of a payment, on a machine that does other things too
SECRET = "22" * 32
TERMS = (40, 1, 0, 0, 50_000_000)


def node(number):
    """A point of this number."""
    return b"\2" + number.to_bytes(32, "big")


def channel(block, first, second):
    """The line that announces the channel of a block between two nodes."""
    announcement = ChannelAnnouncement(CHAIN, short_channel_id(block, 1, 0), (node(first), node(second)))
    return channel_line(announcement.encode(), 100_000)


def update(block, first, second, timestamp):
    """The line with the terms from the first node to the second one."""
    scid, direction = short_channel_id(block, 1, 0), int(first > second)
    message = ChannelUpdate(CHAIN, scid, timestamp, HAS_MAXIMUM, direction, *TERMS).encode()
    return signed_line(message, node(first))


def close(block):
    """The line that closes the channel of a block."""
    return f"close {block}x1x0\n"


class Process:
    """A running process, whose answers are read by a thread and counted by their last word."""

    def __init__(self):
        self.process = subprocess.Popen([PROGRAM, "run", "--chain", CHAIN.hex()], stdin=subprocess.PIPE,
                                        stdout=subprocess.PIPE, bufsize=1 << 20)
        self.ended, self.words = threading.Event(), {}
        threading.Thread(target=self.read, daemon=True).start()

    def read(self):
        """Counts the answers, and notes each end."""
        for line in self.process.stdout:
            word = line.split()[1]
            if word == b"bad":
                self.ended.set()
            else:
                self.words[word] = self.words.get(word, 0) + 1
        self.ended.set()

    def ask(self, lines):
        """Sends lines and a mark behind them, and returns when that is answered, and the seconds that it took."""
        begun = time.perf_counter()
        self.process.stdin.write("".join((*lines, "end\n")).encode())
        self.process.stdin.flush()
        if not self.ended.wait(60):
            sys.exit("soak: no answer in a minute")
        self.ended.clear()
        return time.perf_counter() - begun

    def memory(self):
        """The resident memory, in KiB."""
        for line in Path(f"/proc/{self.process.pid}/status").read_text().splitlines():
            if line.startswith("VmRSS:"):
                return int(line.split()[1])
        sys.exit("soak: the process has ended")

    def payment(self):
        """The least mean time of a payment, in seconds, of three times."""
        lines = [f"route {node(1).hex()} {node(LAST).hex()} 1000 700000 {SECRET}\n"] * PAYMENTS
        return min(self.ask(lines) for _ in range(3)) / PAYMENTS


def base():
    """Three rows of 20 channels from node 1 to the last node, with terms both ways."""
    lines = []
    for block in range(1, CHANNELS + 1):
        row, place = divmod(block - 1, 20)
        first = 1 if place == 0 else row * 20 + place + 1
        second = LAST if place == 19 else row * 20 + place + 2
        lines += [channel(block, first, second), update(block, first, second, 1), update(block, second, first, 1)]
    return [*lines, "commit\n"]


def come_and_go(step):
    """Forty channels between two new nodes each, which close again: one is open in each commit."""
    lines = []
    for place in range(40):
        pair = 1_000 + 2 * (40 * step + place)
        lines += [channel(1_000 + place, pair, pair + 1), "commit\n" if place % 10 == 0 else "", close(1_000 + place)]
    return [*lines, "commit\n"]


def bans(step):
    """One id is announced between two nodes and then between two others, ten times: the four are banned, the id is free."""
    lines = []
    for place in range(10):
        first = 10_000_000 + 4 * (10 * step + place)
        lines += [channel(2_000, first, first + 1), channel(2_000, first + 2, first + 3)]
    return [*lines, "commit\n"]


def uncommitted(step):
    """A thousand updates of the channels, none of which is committed."""
    lines = []
    for place in range(1_000):
        block = place % 18 + 2
        lines.append(update(block, block, block + 1, 2 + 1_000 * step + place))
    return lines


def filters(step):
    """Ten peers set another filter each."""
    return [f"filter {peer} {gossip_timestamp_filter(step, 1 << 30).hex()}\n" for peer in range(10)]


def soaked(process, name, lines_of, steps, banned):
    """Runs a kind of lines for some steps, and reports what grew by more than it may after the first tenth."""
    for step in range(steps // 10):
        process.ask(lines_of(step))
    memory, payment = process.memory(), process.payment()
    for step in range(steps // 10, steps):
        process.ask(lines_of(step))
    grown, slower = process.memory() - memory, process.payment() / payment
    allowed = KEPT + banned * (steps - steps // 10) * BANNED // 1024
    print(f"soak: {name}: {grown} KiB more, of {allowed}; a payment takes {slower:.2f} times as long")
    return [f"{name}: memory"] * (grown > allowed) + [f"{name}: time"] * (slower > SLOWER)


def main():
    """Runs each kind of lines, and ends with what grew."""
    if not os.path.exists("/proc/self/status"):
        print("soak: left out: no /proc")
        sys.exit(77)
    process = Process()
    process.ask(base())
    process.payment()
    wrong = soaked(process, "nodes that come and go", come_and_go, 1_500, 0)
    wrong += soaked(process, "bans by one output", bans, 400, 40)
    wrong += soaked(process, "items without a commit", uncommitted, 100, 0)
    process.ask(["commit\n"])
    wrong += soaked(process, "filters that change", filters, 200, 0)
    process.process.stdin.close()
    status = process.process.wait(60)
    if status != 0:
        wrong.append(f"status {status}")
    if process.words.get(b"no-route") or not process.words.get(b"route"):
        wrong.append("no payment has a route")
    for name in wrong:
        print(f"soak: {name}", file=sys.stderr)
    sys.exit(1 if wrong else 0)


if __name__ == "__main__":
    main()
