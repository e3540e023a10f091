#!/usr/bin/env python3
"""Measures payments over what the payer knows beside the map, by what it prefers, and within a delay, and plain ones
beside them.

    python3 bench/payments.py

bench/payments.rattle is a program over the crates: it answers the payments of a workload plainly, over an overlay of
each kind, by preferences, and within each of several delays. It is built in the system's temporary folder, behind the
libraries that it needs where these aren't built. Times are CPU time of one payment, the minimum of all runs; the making
of an overlay and of estimates isn't counted, the view over an overlay is. `limit` is what the time is meant to stay
below.
"""

import argparse
import shutil
import subprocess
import sys
import tempfile
from pathlib import Path
from typing import NamedTuple

sys.dont_write_bytecode = True  # the repository gets no made files

import running
from top import TOP

import build
from gossip.workloads import ROUTES

CRATE = "payments"
USES = ["lgm_script", "lgm_route", "lgm_graph", "lgm_store", "lgm_check", "lgm_gossip", "lgm_wire"]
OVERLAYS = {
    "plain": "no overlay",
    "empty": "an overlay of nothing",
    "usual": "ten limits, five own channels, two hints",
    "many": "1,000 limits, five own channels, two hints",
    "silent": "the largest hub excluded",
}
PREFERRED = {
    "preferred": "failure_msat 20,000, hop_msat 500; 0 estimates",
    "learned": "the same; 20,000 estimates",
}
DELAYS = {delay: f"{delay} blocks" for delay in ("288", "576", "1008", "2016")}
NETWORKS = {
    "routes": "usual terms",
    "slow": "every twentieth channel free, with a delta of 2,016",
    "lured": "each node's cheapest update with a delta of 65,535",
}


class Tally(NamedTuple):
    """What a run took for all payments of a kind, in ns, and what they were. Labels are of the searches by preferences,
    and of those within a delay."""

    all: int
    median: int
    most: int  # of 99 percent
    greatest: int
    routed: int
    sent: int
    cut_short: int  # labels ran out
    beyond: int  # plain routes that are beyond the delay
    median_labels: int
    most_labels: int  # of 99 percent
    all_labels: int


def words():
    """The words of the command line."""
    parser = argparse.ArgumentParser(description=__doc__, formatter_class=argparse.RawDescriptionHelpFormatter)
    add = parser.add_argument
    add("--channels", type=int, default=45_000, help="of the network; 45,000 if left out")
    add("--runs", type=int, default=5, help="the least of these counts; 5 if left out")
    add("--seed", type=int, default=1, help="of the network; 1 if left out")
    add("--cpu", default=build.own_cpu(), help="the processor to build for, as build.py has it")
    return parser.parse_args()


def build_libraries(used):
    """Proves and builds the libraries that the program needs, where they aren't fresh."""
    crates, at_once = build.below(used, CRATE), build.default_at_once()
    keeps = any((build.folder_of(it) / "out" / "incremental").is_dir() for it in crates)
    builder = build.Keeper(used, at_once) if keeps else build.Builder(used)
    build.build_all(used, build.stale_of(used, crates, builder), at_once, builder)


def build_program(folder, cpu):
    """Proves and builds the program in a folder of its own."""
    used = {**build.read_crates(TOP / "crates.txt"), CRATE: USES}
    build_libraries(used)
    builder, part = build.Builder(used), f"{CRATE}.o"
    (folder / "src").mkdir()
    shutil.copyfile(running.HERE / "payments.rattle", folder / "src" / "main.rt")
    build.say(f"{CRATE} ..")
    build.call(CRATE, folder, builder.kit / "bin" / "rattle", "build", "--jobs", str(build.jobs_of_one(1, 1)),
               *builder.words(CRATE, "main.rt"), *builder.linked(cpu), "-o", part)
    build.call(CRATE, folder, builder.kit / "bin" / "rattle-link", "--target", "x86_64-unknown-linux-gnu", "--toolchain",
               builder.kit / "toolchain", "-o", CRATE, part, builder.kit / "c" / "libos_c.a",
               builder.kit / "c" / "liblibc_c.a")
    return folder / CRATE


def measure(program, script, kind):
    """The tally of a kind of payment."""
    with open(script, "rb") as reader:
        ran = subprocess.run([program, kind], stdin=reader, stdout=subprocess.PIPE, check=True, text=True)
    return Tally(*map(int, ran.stdout.split()))


def least(tallies):
    """The least times of several runs of one kind. What they answered must be the same."""
    first, *others = tallies
    if any(other[4:] != first[4:] for other in others):
        raise running.Failed("the routes of two runs differ")
    times = ("all", "median", "most", "greatest")
    return first._replace(**{name: min(getattr(it, name) for it in tallies) for name in times})


def measure_all(program, script, kinds, runs):
    """The least tally of each of these kinds of payment."""
    taken = {kind: least([measure(program, script, kind) for _ in range(runs)]) for kind in kinds}
    if taken["empty"][4:6] != taken["plain"][4:6] or not taken["plain"].routed:
        raise running.Failed("there are no routes, or others over an overlay of nothing")
    return taken


def mean(tally):
    """The microseconds of a payment."""
    return tally.all / ROUTES / 1_000


def limits_of(taken):
    """What some kinds are meant to take at most, in microseconds."""
    return {"usual": 1.15 * mean(taken["plain"]) + 50, "many": mean(taken["usual"]) + 1_000}


def print_overlays(taken):
    """The table of overlays."""
    limits = limits_of(taken)
    print(f"{'':<52}{'µs':>9}{'limit':>9}{'routes':>9}")
    for kind, name in OVERLAYS.items():
        limit = f"{limits[kind]:.1f}" if kind in limits else ""
        print(f"{name:<52}{mean(taken[kind]):>9.1f}{limit:>9}{taken[kind].routed:>9}")


def print_searches(name, plain, kinds, taken):
    """The table of preferences, or of delays, on a network, below a row of plain payments."""
    columns = ("median µs", "99 % µs", "most µs", "routes", "beyond", "cut short", "labels", "99 %")
    print(f"\n{name:<52}" + "".join(f"{column:>10}" for column in columns))
    for kind, label in {"plain": plain, **kinds}.items():
        it = taken[kind]
        times = "".join(f"{taken / 1_000:>10.1f}" for taken in (it.median, it.most, it.greatest))
        beyond = "" if kind in PREFERRED else it.beyond
        counts = (it.routed, beyond, it.cut_short, it.median_labels, it.most_labels)
        print(f"{label:<52}{times}" + "".join(f"{count:>10}" for count in counts))


def main():
    """Prints the tables."""
    options = words()
    with tempfile.TemporaryDirectory(prefix="lgm-bench-") as folder:
        script, crate = Path(folder, "script"), Path(folder, CRATE)
        crate.mkdir()
        try:
            program = build_program(crate, options.cpu)
        except build.Failed as failed:
            sys.exit(f"{failed.args[1]}{failed.args[0]} couldn't be built")
        for workload, name in NETWORKS.items():
            running.make_script(script, options.channels, workload, options.seed)
            kinds = (*OVERLAYS, *PREFERRED) if workload == "routes" else ("plain", "empty")
            taken = measure_all(program, script, (*kinds, *DELAYS), options.runs)
            if workload == "routes":
                print_overlays(taken)
                print_searches(name, "no preferences", PREFERRED, taken)
            print_searches(name, "no limit", DELAYS, taken)


if __name__ == "__main__":
    main()
