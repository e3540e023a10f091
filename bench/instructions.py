#!/usr/bin/env python3
"""Counts the instructions that x86-64 and ARM64 need for the same scripts over a synthetic network.

    python3 bench/instructions.py [--library] [--channels N] [--seed N]

Counted are those of the program with one worker, as build.py and build.py --for arm64 leave it, or with --library those of
examples/c/run.c over the library, as examples/build-c and examples/build-c --for arm64 leave it. qemu runs them with a plugin
that counts, instructions.c in this folder. It needs `qemu-x86_64` and `qemu-aarch64` (Debian's qemu-user), `cc`, and ARM64's C
library (libc6-arm64-cross). How long an instruction takes is another matter, which no emulator knows.
"""

import argparse
import re
import subprocess
import sys
import tempfile
from pathlib import Path

sys.dont_write_bytecode = True  # the repository gets no made files

import running
from top import TOP

from gossip.messages import CHAIN

OUT = TOP / "crates" / "lgm" / "out"
LIBRARY = TOP / "examples" / "out"
# The emulator of each machine, where it finds the C library, the program, and examples/c/run.c.
MACHINES = {"x86-64": ("qemu-x86_64", "/", OUT / "lgm", LIBRARY / "run"),
            "ARM64": ("qemu-aarch64", "/usr/aarch64-linux-gnu", OUT / "arm64" / "lgm", LIBRARY / "arm64" / "run")}
WORKLOADS = ("sync", "routes", "queries", "churn")


def instructions(machine, plugin, script, of_library):
    """How many a run takes."""
    emulator, libraries, program, example = MACHINES[machine]
    words = [example, CHAIN.hex()] if of_library else running.command(program, "run", 1)
    with open(script, "rb") as reader:
        ran = subprocess.run((emulator, "-cpu", "max", "-L", libraries, "-d", "plugin", "-plugin", plugin, *words), stdin=reader,
                             stdout=subprocess.DEVNULL, stderr=subprocess.PIPE, check=True)
    return int(re.search(rb"instructions: (\d+)", ran.stderr)[1])


def main():
    """Prints the table."""
    parser = argparse.ArgumentParser(description=__doc__, formatter_class=argparse.RawDescriptionHelpFormatter)
    parser.add_argument("--library", action="store_true", help="of examples/c/run.c over the library, not of the program")
    parser.add_argument("--channels", type=int, default=10_000, help="of the network; 10,000 if left out")
    parser.add_argument("--seed", type=int, default=1, help="of the network; 1 if left out")
    options = parser.parse_args()
    print(f"{'workload':<10}" + "".join(f"{machine:>16}" for machine in MACHINES) + f"{'ratio':>8}")
    with tempfile.TemporaryDirectory(prefix="lgm-bench-") as folder:
        plugin, script = Path(folder, "instructions.so"), Path(folder, "script")
        source = running.HERE / "instructions.c"
        subprocess.run(("cc", "-shared", "-fPIC", "-O2", source, "-o", plugin), check=True)
        for workload in WORKLOADS:
            running.make_script(script, options.channels, workload, options.seed)
            counts = [instructions(machine, plugin, script, options.library) for machine in MACHINES]
            print(f"{workload:<10}" + "".join(f"{count / 1e6:>14.0f} M" for count in counts) + f"{counts[1] / counts[0]:>8.2f}")


if __name__ == "__main__":
    main()
