#!/usr/bin/env python3
"""Measures readers beside a writer in one process, by the library for C: examples/c/serve.c on a synthetic network.

    python3 bench/snapshots.py

For each number of reader threads: how many routes a second they find, each in a published map of its own, of a map that
doesn't change, and beside a writer that publishes 1,000 updates at a time, with a pause of 50 ms after each; and the
time of such a publication, median and maximum: the first one is a copy. The payments are those of bench/readers.py, each
requested as often, so the two compare. The library is built by examples/build-c if it isn't there.
"""

import argparse
import re
import subprocess
import sys
import tempfile
from pathlib import Path

sys.dont_write_bytecode = True  # the repository gets no made files

import running
from top import TOP

from gossip.messages import CHAIN

EXAMPLES = TOP / "examples"
BATCH = 1_000
PAUSE = 50  # milliseconds, after each publication


def words():
    """The words of the command line."""
    parser = argparse.ArgumentParser(description=__doc__, formatter_class=argparse.RawDescriptionHelpFormatter)
    add = parser.add_argument
    add("--library", type=Path, default=EXAMPLES / "out", help="the folder of liblgm.a; examples/out if left out")
    add("--channels", type=int, default=45_000, help="of the network; 45,000 if left out")
    add("--readers", type=lambda text: [int(word) for word in text.split(",")], default=[1, 2, 4])
    add("--runs", type=int, default=3, help="the best of these counts; 3 if left out")
    add("--seed", type=int, default=1, help="of the network; 1 if left out")
    return parser.parse_args()


def make_scripts(options, folder):
    """The network with payments, and the network with updates after its commit and payments."""
    scripts = folder / "routes", folder / "live"
    for script in scripts:
        running.make_script(script, options.channels, script.name, options.seed)
        running.repeat_payments(script)
    return scripts


def measure(options, program, script, readers, times):
    """The routes a second, and the milliseconds of a publication: median and maximum."""
    best = 0, None, None
    for _ in range(options.runs):
        with open(script, "rb") as reader:
            said = subprocess.run([program, "-q", CHAIN.hex(), str(readers), str(BATCH), str(PAUSE), str(times)],
                                  stdin=reader, stderr=subprocess.PIPE, text=True, check=True).stderr
        others = re.search(r"others \d+, median ([\d.]+) ms, ([\d.]+) ms at most", said)
        best = max(best, (int(re.search(r"(\d+) a second", said)[1]), *(others.groups() if others else (None, None))))
    return best


def main():
    """Prints the table."""
    options = words()
    if not (options.library / "liblgm.a").exists():
        subprocess.run([EXAMPLES / "build-c", options.library], check=True)
    print(f"{'readers':<9}{'routes/s':>11}{'beside':>11}{'publish ms':>12}{'at most':>10}")
    with tempfile.TemporaryDirectory(prefix="lgm-bench-") as folder:
        folder = Path(folder)
        program = folder / "serve"
        subprocess.run(["cc", "-std=c11", "-O2", "-Wall", "-Wextra", "-pthread", "-I", TOP / "include",
                        EXAMPLES / "c" / "serve.c", options.library / "liblgm.a", "-o", program], check=True)
        still, live = make_scripts(options, folder)
        for readers in options.readers:
            alone, _, _ = measure(options, program, still, readers, 1)
            beside, each, most = measure(options, program, live, readers, 0)
            print(f"{readers:<9}{alone:>11}{beside:>11}{each:>12}{most:>10}", flush=True)


if __name__ == "__main__":
    main()
