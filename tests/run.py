#!/usr/bin/env python3
"""Runs the tests that aren't of a crate and want no library for C: of the pages, the build script, `./package`, `./test`, the
comparison of the header, what is made of it, the Python package, the examples, the scripts of tests/scripts with their
answers, the program beside Electrum, where calls fail, also in tests of crates, and where it runs for long.

    python3 tests/run.py [PROGRAM]

PROGRAM is ./lgm if left out, which is built first where it is stale. It takes some three minutes. A file of tests that ends
with status 77 has said what it misses, and counts neither as passed nor as failed.
"""

import os
import subprocess
import sys
from pathlib import Path

TOP = Path(__file__).resolve().parent.parent
ALONE = ("tests/pages.py", "tests/test_pages.py", "tests/test_build.py", "tests/test_package.py", "tests/test_all.py",
         "tests/test_runtime.py", "tests/test_exports.py", "surface/make.py --check", "surface/test_header.py",
         "surface/test_makers.py", "tests/test_texts.py", "gossip/test_messages.py", "gossip/test_notation.py", "tests/memory.py",
         "python/tests/test_lgm.py", "python/tests/test_payer.py", "python/tests/test_limits.py",
         "examples/network/test_plots.py")
WITH_PROGRAM = ("examples/tools/test_why.py", "examples/tools/test_client.py", "examples/network/test_network.py",
                "examples/electrum/test_wallet_database.py", "examples/test_examples.py", "examples/tools/test_why_route.py",
                "examples/tools/test_shorten.py", "bench/test_route_picture.py", "tests/texts.py",
                "tests/plain_routes.py", "tests/electrum.py")
# Over the program itself, since a shell in front of it would be refused calls too, and watched in place of it.
BUILT = ("tests/refusals.py", "tests/soak.py")
LEFT_OUT = 77
ENVIRONMENT = {**os.environ, "PYTHONPATH": str(TOP / "python")}


def ended(*words):
    """The exit status of a file of tests, which reports its own failures."""
    print(f"== {words[0]}", flush=True)
    return subprocess.run([sys.executable, *words], cwd=TOP, env=ENVIRONMENT, check=False).returncode


def main():
    """Runs each test, and ends with what failed."""
    program = [str(Path(sys.argv[1]).resolve())] if len(sys.argv) > 1 else []
    if not program:
        chain = "00" * 32
        subprocess.run([TOP / "lgm", "run", "--chain", chain], stdin=subprocess.DEVNULL, check=True)
    runs = [tuple(test.split()) for test in ALONE] + [(test, *program) for test in (*WITH_PROGRAM, *BUILT)]
    results = {words[0]: ended(*words) for words in runs}
    failed = [name for name, status in results.items() if status not in (0, LEFT_OUT)]
    print(f"== {list(results.values()).count(0)} passed, {len(failed)} failed", *failed)
    sys.exit(1 if failed else 0)


if __name__ == "__main__":
    main()
