#!/usr/bin/env python3
"""Runs the examples, and compares what `lgm` writes with the files beside them.

    python3 examples/test_examples.py [PROGRAM]
"""

import subprocess
import sys
from pathlib import Path

HERE = Path(__file__).resolve().parent
PROGRAM = sys.argv[1] if len(sys.argv) > 1 else HERE.parent / "lgm"
WORKERS = (1, 3, 64)


def lines(mode, script, workers):
    """The lines that `lgm` writes for a script."""
    words = [PROGRAM, mode, "--chain", "c1" * 32, "--workers", str(workers)]
    with open(script, "rb") as reader:
        return subprocess.run(words, stdin=reader, capture_output=True, check=True).stdout.splitlines()


def but_payments(output):
    """The output of `lgm live` without that of payments, which depends on the version that each of them met."""
    payments = {line.split()[0] for line in output if line.split()[1] == b"at"}
    return [line for line in output if line.split()[0] not in payments]


def test(script, workers):
    """Whether a script's output is the stored one, and a report on it."""
    wanted = script.with_suffix(".out").read_bytes().splitlines()
    if script.name == "live.txt":
        found, wanted = but_payments(lines("live", script, workers)), but_payments(wanted)
    else:
        found = lines("run", script, workers)
    print(f"{script.name}, {workers} workers: {'ok' if found == wanted else 'DIFFERS'}")
    return found == wanted


results = [test(script, workers) for script in sorted(HERE.glob("*.txt")) for workers in WORKERS]
sys.exit(0 if all(results) else 1)
