#!/usr/bin/env python3
"""Measures readers beside a writer: `lgm live` on a synthetic network, by workers.

For each number of workers: how many payments a second they answer on a map that doesn't change, and
beside a writer that publishes 1,000 updates at a time; and the time of such a publication.
"""

import argparse
import os
import sys
import tempfile
from pathlib import Path

sys.dont_write_bytecode = True  # the repository gets no made files

import running
import top  # leads to gossip
from measure import PROGRAM

from gossip.workloads import LIVE_ROUTES_A_ROUND, ROUNDS, ROUTES

SCRIPTS = ("sync", "routes", "updates", "live")


def words():
    """The words of the command line."""
    parser = argparse.ArgumentParser(description=__doc__)
    add = parser.add_argument
    add("--program", type=Path, default=PROGRAM, help="crates/lgm/out/lgm if left out")
    add("--channels", type=int, default=45_000, help="of the network; 45,000 if left out")
    add("--workers", type=lambda text: [int(word) for word in text.split(",")], default=[1, 2, 4])
    add("--runs", type=int, default=3, help="the least of these counts; 3 if left out")
    add("--seed", type=int, default=1, help="of the network; 1 if left out")
    options = parser.parse_args()
    if not os.access(options.program, os.X_OK):
        parser.error(f"{options.program} isn't built")
    return options


def seconds(options, script, workers):
    """The minimum wall-clock time of `lgm live`, whose answers are checked first."""
    program = running.command(options.program.resolve(), "live", workers)
    running.bytes_answered(program, script)
    return min(running.run(program, script).wall for _ in range(options.runs))


def measure(options, scripts, workers):
    """Payments a second on a map that doesn't change and beside the writer; seconds of a publication."""
    taken = {name: seconds(options, script, workers) for name, script in scripts.items()}
    still = running.TIMES * ROUTES / (taken["routes"] - taken["sync"])
    beside = running.TIMES * ROUNDS * LIVE_ROUTES_A_ROUND / (taken["live"] - taken["sync"])
    return still, beside, (taken["updates"] - taken["sync"]) / ROUNDS


def main():
    """Prints the table."""
    options = words()
    print(f"{'workers':<9}{'routes/s':>11}{'beside':>11}{'publish ms':>12}")
    with tempfile.TemporaryDirectory(prefix="lgm-bench-") as folder:
        scripts = {name: Path(folder, name) for name in SCRIPTS}
        for name, script in scripts.items():
            running.make_script(script, options.channels, name, options.seed)
            running.repeat_payments(script)
        for workers in options.workers:
            still, beside, publication = measure(options, scripts, workers)
            print(f"{workers:<9}{still:>11.0f}{beside:>11.0f}{publication * 1000:>12.1f}", flush=True)


if __name__ == "__main__":
    main()
