#!/usr/bin/env python3
"""Runs the built program on synthetic networks, and prints the time and memory that it takes.

Scripts are written to the system's temporary folder, and deleted after their runs. README.md in
this folder describes the columns.
"""

import argparse
import os
import platform
import sys
import tempfile
from pathlib import Path
from typing import NamedTuple

sys.dont_write_bytecode = True  # the repository gets no made files

import running
from plot import plot
from top import TOP

from gossip.workloads import WORKLOADS

PROGRAM = TOP / "crates/lgm/out/lgm"
PLOT = running.HERE / "growth.svg"
SIZES = (10_000, 20_000, 45_000, 100_000, 200_000)
MEGABYTE = 1_000_000
HEADINGS = ("workload", "channels", "lines", "script MB", "output MB", "wall s", "cpu s",
            "memory MB", "ns/byte", "growth")


class Measure(NamedTuple):
    """A workload of a size: lines and bytes read, bytes written, and the minimum of its runs."""

    channels: int
    lines: int
    read: int
    written: int
    taken: running.Taken

    def a_byte(self):
        """Seconds of CPU time for each byte that was read or written."""
        return self.taken.processor / (self.read + self.written)


def listed(kind):
    """Reads words between commas."""
    return lambda text: [kind(word) for word in text.split(",")]


def words():
    """The words of the command line."""
    parser = argparse.ArgumentParser(description=__doc__)
    add = parser.add_argument
    add("--program", type=Path, default=PROGRAM, help="crates/lgm/out/lgm if left out")
    add("--channels", type=listed(int), default=SIZES, help="sizes, between commas")
    add("--workloads", type=listed(str), default=list(WORKLOADS), help=", ".join(WORKLOADS))
    add("--workers", type=int, default=1, help="threads of the program; 1 if left out")
    add("--runs", type=int, default=3, help="the least of these counts; 3 if left out")
    add("--seed", type=int, default=1, help="of the networks; 1 if left out")
    add("--plot", type=Path, nargs="?", const=PLOT, help="draws times; bench/growth.svg")
    options = parser.parse_args()
    if not set(options.workloads) <= set(WORKLOADS):
        parser.error(f"workloads are {', '.join(WORKLOADS)}")
    if options.runs < 1 or min(options.channels) < 1:
        parser.error("there is a run at least, and a channel")
    if not os.access(options.program, os.X_OK):
        parser.error(f"{options.program} isn't built")
    return options


def measure(options, channels, workload, folder):
    """Makes a script, checks all answers of a first run, and then runs it as often as requested."""
    script = Path(folder, "script")
    running.make_script(script, channels, workload, options.seed)
    program = running.command(options.program.resolve(), workload, options.workers)
    written = running.bytes_answered(program, script)
    runs = [running.run(program, script) for _ in range(options.runs)]
    return Measure(
        channels, lines_of(script), script.stat().st_size, written, running.least(runs))


def lines_of(file):
    """How many lines a file has."""
    with open(file, "rb") as lines:
        return sum(1 for _ in lines)


def row(*fields):
    """A row of the table."""
    return f"{fields[0]:<9}" + "".join(f"{field:>11}" for field in fields[1:])


def row_of(workload, found, before):
    """The row of a measure; `before` is that of the size before, or None."""
    taken = found.taken
    below = "<" if taken.memory <= running.own_memory() else ""
    return row(
        workload, f"{found.channels:,}", f"{found.lines:,}", f"{found.read / MEGABYTE:.1f}",
        f"{found.written / MEGABYTE:.1f}", f"{taken.wall:.2f}", f"{taken.processor:.2f}",
        f"{below}{taken.memory / MEGABYTE:.0f}", f"{found.a_byte() * 1e9:.1f}",
        f"{found.a_byte() / before.a_byte():.2f}" if before else "")


def processor():
    """The processor's name, as far as the system tells it."""
    try:
        told = Path("/proc/cpuinfo").read_text().splitlines()
    except OSError:
        told = []
    names = [line.split(":", 1)[1].strip() for line in told if line.startswith("model name")]
    return names[0] if names else platform.processor() or platform.machine()


def measure_all(options, folder):
    """Prints a row for each workload and size, and returns the measures by workload."""
    table = {workload: [] for workload in options.workloads}
    for workload, measures in table.items():
        for channels in sorted(options.channels):
            found = measure(options, channels, workload, folder)
            print(row_of(workload, found, measures[-1] if measures else None), flush=True)
            measures.append(found)
    return table


def draw(file, conditions, table):
    """Writes the plot of the CPU time."""
    lines = {
        workload: [(found.channels, found.taken.processor) for found in measures]
        for workload, measures in table.items()}
    file.write_text(plot("CPU time of a script, by channels", conditions, lines))


def main():
    """Prints the table, and draws the plot if that is requested."""
    options = words()
    conditions = (f"{processor()}, {os.cpu_count()} processors; workers: {options.workers}; "
                  f"runs: {options.runs}, the least")
    print(f"{conditions}; load {os.getloadavg()[0]:.1f}")
    print(row(*HEADINGS))
    try:
        with tempfile.TemporaryDirectory(prefix="lgm-bench-") as folder:
            table = measure_all(options, folder)
    except running.Failed as failed:
        sys.exit(f"no measure: {failed}")
    if options.plot:
        draw(options.plot, conditions, table)


if __name__ == "__main__":
    main()
