"""Makes scripts, runs the program on them, and measures the runs."""

import os
import resource
import subprocess
import sys
import time
from pathlib import Path
from typing import NamedTuple

import top  # leads to gossip

from gossip.messages import CHAIN

HERE = Path(__file__).resolve().parent
PEAK_UNIT = 1 if sys.platform == "darwin" else 1024  # bytes; the unit of ru_maxrss
ANSWERS = (b"accepted", b"commit", b"filter", b"to", b"at", b"route", b"hop", b"no-route")
FIRST_BYTE = b"01"  # of each message of a reply
TIMES = 10  # that each payment is requested where readers are measured, so that payments outweigh the network

os.environ.setdefault("GLIBC_TUNABLES", "glibc.malloc.hugetlb=1")  # large pages, as ./lgm has it


class Taken(NamedTuple):
    """What a run took: wall-clock seconds, CPU seconds, bytes of memory."""

    wall: float
    processor: float
    memory: int


class Failed(Exception):
    """No measure: the program failed, or refused a line."""


def make_script(file, channels, workload, seed):
    """Makes a script in another process, so that this one stays small: see `own_memory`."""
    with open(file, "wb") as script:
        subprocess.run(
            [sys.executable, HERE / "make_script.py", "--channels", str(channels),
             "--workload", workload, "--seed", str(seed)], stdout=script, check=True)


def repeat_payments(script):
    """Requests each payment of a script `TIMES` times, one behind the other."""
    lines = script.read_bytes().splitlines(keepends=True)
    script.write_bytes(b"".join(line * TIMES if line.startswith(b"route ") else line for line in lines))


def command(program, workload, workers):
    """The words that run the program: `lgm live` for the workload of that name."""
    name = "live" if workload == "live" else "run"
    return [program, name, "--chain", CHAIN.hex(), "--workers", str(workers)]


def run(words, script):
    """One run, whose output is thrown away."""
    with open(script, "rb") as reader:
        started = time.perf_counter()
        process = subprocess.Popen(words, stdin=reader, stdout=subprocess.DEVNULL)
        _, status, usage = os.wait4(process.pid, 0)
        wall = time.perf_counter() - started
    process.returncode = os.waitstatus_to_exitcode(status)
    if process.returncode != 0:
        raise Failed(f"status {process.returncode}")
    return Taken(wall, usage.ru_utime + usage.ru_stime, usage.ru_maxrss * PEAK_UNIT)


def own_memory():
    """The most bytes that this process had: no run's peak is counted lower than that."""
    return resource.getrusage(resource.RUSAGE_SELF).ru_maxrss * PEAK_UNIT


def least(runs):
    """The minimum of each time, and the maximum of memory."""
    return Taken(min(run.wall for run in runs), min(run.processor for run in runs),
                 max(run.memory for run in runs))


def bytes_answered(words, script):
    """A run's bytes of output. Raises `Failed` at an answer that refuses a line, and where no payment has a route."""
    count, answers = 0, set()
    with open(script, "rb") as reader, subprocess.Popen(
            words, stdin=reader, stdout=subprocess.PIPE) as process:
        for answer in process.stdout:
            word = answer.split(None, 2)[1]
            if word not in ANSWERS and not word.startswith(FIRST_BYTE):
                raise Failed(f"answer {answer.decode().strip()}")
            count += len(answer)
            answers.add(word)
    if process.returncode != 0:
        raise Failed(f"status {process.returncode}")
    if b"no-route" in answers and b"route" not in answers:
        raise Failed("no payment has a route")
    return count
