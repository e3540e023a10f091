#!/usr/bin/env python3
"""Tests each call of include/lgm.h over the shared object, as C makes it.

    python3 tests/library/run.py [SHARED_OBJECT [TEST]]

SHARED_OBJECT is examples/out/liblgm.so if left out. TEST is one of the tests, as `published.owners`; without it each runs,
in a process of its own, since some look at the most memory that theirs has had. The last line is then
`N passed, M failed`. The exit status is 1 if any failed. It needs Linux's /proc, and takes some forty seconds.
"""

import os
import subprocess
import sys
from importlib import import_module
from pathlib import Path

sys.dont_write_bytecode = True  # the repository gets no made files

TOP = Path(__file__).resolve().parents[2]
SHARED_OBJECT = Path(sys.argv[1]).resolve() if len(sys.argv) > 1 else TOP / "examples/out/liblgm.so"
FILES = ("each_call", "arrivals", "attempts", "bounds", "estimates", "fuzzed", "large", "listing", "owners", "payers", "pruning",
         "published", "reading", "saving", "syncing", "wanted")


def all_tests():
    """The tests of all files, by their names."""
    os.environ["LGM_LIBRARY"] = str(SHARED_OBJECT)  # for the package lgm
    for file in FILES:
        import_module(file)
    return import_module("calls").TESTS


def passes(name):
    """Whether a test passes in a process of its own. Prints how it went."""
    is_well = subprocess.run([sys.executable, __file__, SHARED_OBJECT, name], check=False).returncode == 0
    print(f"{name}: {'ok' if is_well else 'FAILED'}", flush=True)
    return is_well


def main():
    """Runs each test, or the one that is named."""
    tests = all_tests()
    if len(sys.argv) > 2:
        tests[sys.argv[2]]()
        return 0
    results = [passes(name) for name in tests]
    print(f"{results.count(True)} passed, {results.count(False)} failed")
    return 0 if all(results) else 1


if __name__ == "__main__":
    sys.exit(main())
