#!/usr/bin/env python3
"""Tests the library in other programs (docs/embedding.md): it builds them, and compares them with `lgm`.

    python3 examples/test_embedding.py [PROGRAM]

PROGRAM is `lgm`. It needs rt, and is left out without cc and ar, with status 77. So are those of its tests whose tool,
cargo, valgrind or Electrum's package, isn't there. It says so. The folder `embedding` has its parts.
"""

import os
import shutil
import subprocess
import sys
import tempfile
from pathlib import Path

sys.dont_write_bytecode = True  # the repository gets no made files

from embedding import common, in_c
from embedding.common import HERE, TOP, report

import reports

SKIPPED = 77
# Files of tests with the shared object as their argument, by what they are about.
OVER_LIBRARY = {"exports": "exports.py", "calls": "library/run.py", "plain overlays": "plain_overlays.py",
                "plain preferred": "plain_preferred.py", "plain payments": "plain_payments.py"}


def ended(*words):
    """The exit status of a file of tests, which reports its own failures."""
    return subprocess.run([sys.executable, *words], check=False).returncode


def test_files(out):
    """Other files of tests: calls, the recipes of pages, payers with the service that stands on them, dumps, nodes that
    synchronize with peers which lie, Electrum's path finder and its codec as a peer's, and the packages. Those that lack a tool say so."""
    for what, name in OVER_LIBRARY.items():
        report(what, ended(TOP / "tests" / name, out / "liblgm.so") == 0)
    for what, words in (("recipes", (HERE / "test_recipes.py", out)), ("lgm.payer", (HERE / "test_payer.py",)),
                        ("lgm.dump", (TOP / "python/tests/test_dump.py",)), ("nodes", (HERE / "test_node.py", out)),
                        ("electrum", (HERE / "electrum/test_path_finder.py",)),
                        ("electrum, synchronizing", (HERE / "electrum/test_synchronizing.py",)), ("packages", (TOP / "tests/packages.py",))):
        status = ended(*words)
        if status != SKIPPED:
            report(what, status == 0)


def test_service():
    """A service with four threads that pay gets most payments through."""
    found = common.output([sys.executable, HERE / "python" / "service.py"])
    ends = dict(reversed(end.split(" ")) for end in (found or b"").decode().strip().split(", ")) if found else {}
    report("service.py", sum(map(int, ends.values())) == 200 and int(ends.get("paid", 0)) >= 100)


def main():
    """Builds and tests."""
    missing = [tool for tool in ("cc", "ar") if not shutil.which(tool)]
    if missing:
        print(f"left out: examples/test_embedding.py, which needs {' and '.join(missing)}")
        return SKIPPED
    if len(sys.argv) > 1:
        common.PROGRAM = sys.argv[1]
    with tempfile.TemporaryDirectory() as folder:
        out, prefix = Path(folder), Path(folder, "prefix")
        subprocess.run([HERE / "build-c", "--prefix", prefix, out], check=True)
        os.environ.update(LGM_LIBRARY=str(out / "liblgm.so"), PYTHONPATH=str(TOP / "python"))
        from embedding import in_python  # which loads the package, and this the library that LGM_LIBRARY names
        in_c.test_all(prefix, out)
        in_python.test_all()
        test_service()
        test_files(out)
    return 1 if reports.failures else 0


if __name__ == "__main__":
    sys.exit(main())
