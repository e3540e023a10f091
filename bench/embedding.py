#!/usr/bin/env python3
"""Measures the library for C and its Python module (docs/embedding.md), beside the program on the same network.

    python3 bench/embedding.py

bench/offers.c makes the calls: it offers all messages of the workload `routes`, asks for the news of a filter, sets the
mark, and finds the routes of all payments; then, as for a restart, it saves the map as bytes and loads another one of
them. Times are CPU time, the minimum of all runs. The program also reads the script's digits and writes its answers. For
Python, the times are that of a call of `offer` beyond the same call in C, and those of `lgm.dump`. The library
is built by examples/build-c if it isn't there.
"""

import argparse
import os
import struct
import subprocess
import sys
import tempfile
import time
from pathlib import Path

sys.dont_write_bytecode = True  # the repository gets no made files

import running
from measure import PROGRAM
from top import TOP

from gossip.messages import CHAIN, gossip_timestamp_filter
from gossip.networks import NOW

EXAMPLES = TOP / "examples"
RESTART = ("dump", "load")  # which `lgm run` has no counterpart of
SIGS = {"all": 0, "not-all": 1, "nobody": 3}
SIG_BY = 2
FUNDINGS = {"-": 0, "spent": 2, "wrong": 3}
UNSPENT = 1
NO_POINT = bytes(33)
HOUR = 3_600


def words():
    """The words of the command line."""
    parser = argparse.ArgumentParser(description=__doc__, formatter_class=argparse.RawDescriptionHelpFormatter)
    add = parser.add_argument
    add("--program", type=Path, default=PROGRAM, help="crates/lgm/out/lgm if left out")
    add("--library", type=Path, default=EXAMPLES / "out", help="the folder of liblgm.a and liblgm.so; examples/out")
    add("--channels", type=int, default=45_000, help="of the network; 45,000 if left out")
    add("--runs", type=int, default=5, help="the least of these counts; 5 if left out")
    add("--seed", type=int, default=1, help="of the network; 1 if left out")
    options = parser.parse_args()
    if not os.access(options.program, os.X_OK):
        parser.error(f"{options.program} isn't built")
    return options


def offered(fields):
    """A message of a script's line, with the numbers of its verdicts."""
    digits, sig, funding = fields
    verdict, signer = (SIGS[sig], NO_POINT) if sig in SIGS else (SIG_BY, bytes.fromhex(sig))
    output, sat = (FUNDINGS[funding], 0) if funding in FUNDINGS else (UNSPENT, int(funding))
    return bytes.fromhex(digits), verdict, signer, output, sat


def calls(script):
    """The messages of a script, and its payments."""
    items, payments = [], []
    for line in script.read_text().splitlines():
        word, *fields = line.split()
        if word == "m":
            items.append(offered(fields))
        elif word == "route":
            payer, payee, amount, expiry, secret = fields
            payments.append((*map(bytes.fromhex, (payer, payee)), int(amount), int(expiry), bytes.fromhex(secret)))
    return items, payments


def write_calls(file, items, payments):
    """The file that offers.c reads."""
    with open(file, "wb") as writer:
        for message, sig, signer, funding, sat in items:
            writer.write(b"m" + struct.pack("@QIII33s0Q", sat, sig, funding, len(message), signer) + message)
        for payer, payee, amount, expiry, secret in payments:
            writer.write(b"r" + struct.pack("@QI33s33s32s0Q", amount, expiry, payer, payee, secret))


def measure_c(options, program, file):
    """The minimum times of each kind of call, and the number of routes."""
    newest = gossip_timestamp_filter(NOW - HOUR, 2 * HOUR)
    taken, found = {}, None
    for _ in range(options.runs):
        ran = subprocess.run([program, CHAIN.hex(), newest.hex(), file], stdout=subprocess.PIPE, check=True)
        for line in ran.stdout.decode().splitlines():
            kind, count, *seconds = line.split()
            if seconds:
                taken[kind] = int(count), min(float(seconds[0]), taken.get(kind, (0, 1e9))[1])
            else:
                found = int(count)
    return taken, found


def measure_python(options, items, folder):
    """The minimum times of all offers through the Python package, and of `dump` and `load` of its lgm.dump."""
    os.environ["LGM_LIBRARY"] = str(options.library / "liblgm.so")
    import lgm
    from lgm import dump
    names = {number: name for name, number in SIGS.items()}
    arguments = [
        (message, names[sig] if sig in names else signer, sat if funding == UNSPENT else lgm.NOT_ASKED)
        for message, sig, signer, funding, sat in items]
    runs, file = [], Path(folder, "dump")
    for _ in range(options.runs):
        with lgm.Map(CHAIN) as network:
            times = [time.process_time()]
            offer = network.offer
            for message, sig, funding in arguments:
                offer(message, sig, funding)
            times.append(time.process_time())
            dump.dump(network, file)
            times.append(time.process_time())
            dump.load(file, CHAIN).close()
            times.append(time.process_time())
        runs.append([end - start for start, end in zip(times, times[1:])])
    return [min(run) for run in zip(*runs)], file.stat().st_size


def routes_in(program, script):
    """The number of routes that the program finds."""
    with open(script, "rb") as reader:
        ran = subprocess.run(program, stdin=reader, stdout=subprocess.PIPE, check=True)
    return sum(line.split()[1] == b"route" for line in ran.stdout.splitlines())


def main():
    """Prints the times."""
    options = words()
    if not all((options.library / name).exists() for name in ("liblgm.a", "liblgm.so")):
        subprocess.run([EXAMPLES / "build-c", options.library], check=True)
    with tempfile.TemporaryDirectory(prefix="lgm-bench-") as folder:
        script, file, program = (Path(folder, name) for name in ("script", "calls", "offers"))
        subprocess.run(
            ["cc", "-std=c11", "-O2", "-Wall", "-Wextra", "-I", TOP / "include", running.HERE / "offers.c",
             options.library / "liblgm.a", "-o", program], check=True)
        running.make_script(script, options.channels, "routes", options.seed)
        items, payments = calls(script)
        write_calls(file, items, payments)
        whole = running.command(options.program.resolve(), "routes", 1)
        taken, found = measure_c(options, program, file)
        if found != routes_in(whole, script):
            raise running.Failed("the library finds other routes than the program")
        for kind, (count, seconds) in taken.items():
            print(f"{'C, ' + kind:<20}{count:>10}{seconds:>10.3f} s", flush=True)
        together = sum(seconds for kind, (_, seconds) in taken.items() if kind not in RESTART)
        print(f"{'C, together, but dump and load':<30}{together:>10.3f} s", flush=True)
        least = running.least([running.run(whole, script) for _ in range(options.runs)])
        print(f"{'lgm run':<30}{least.processor:>10.3f} s", flush=True)
        (offers, *restart), size = measure_python(options, items, folder)
    count, seconds = taken["offers"]
    print(f"{'Python, beyond C':<20}{count:>10}{(offers - seconds) / count * 1e6:>10.2f} µs a call")
    for kind, taken_by in zip(RESTART, restart):
        print(f"{'Python, ' + kind:<20}{size:>10}{taken_by:>10.3f} s")


if __name__ == "__main__":
    main()
