#!/usr/bin/env python3
"""Runs tests of crates with one request for memory refused, and then the next one, until none is left to refuse.

    python3 tests/memory.py

A test of the crates can't refuse memory itself. These are written so that they pass wherever one request is refused: a
call that returns out of memory has left all as before, and gives its right answer when it is called again. They are the
programs that `rt ci` leaves in `crates/NAME/out`, built of what was proved. It needs the GNU C library and a C compiler
(`cc`). Without one it is left out, with status 77, or fails where LGM_NEEDS_CC is set. Left out are also the tests of a
crate whose program isn't there.
"""

import os
import subprocess
import sys
import tempfile
from pathlib import Path

sys.dont_write_bytecode = True  # the repository gets no made files

import shim  # noqa: E402

HERE = Path(__file__).resolve().parent
CRATES = HERE.parent / "crates"
TESTS = (
    ("lgm_message_tests", "wire::memory_refused"),
    ("lgm_board_tests", "tests::refused::nothing_is_lost"),
    ("lgm_unit_tests", "tests::graph::each_step_keeps_map_and_view"),
    ("lgm_overlay_tests", "tests::memory::refused_memory"),
    ("lgm_script_tests", "tests::refused::refused_memory"),
    ("lgm_script_tests", "tests::faults::refused_memory"),
    ("lgm_script_tests", "tests::deciding::refused_memory_has_its_line"),
    ("lgm_live_tests", "routes::refused_memory"),
)
# Each run takes some milliseconds.
SECONDS = 20


def passes(program, name, more):
    """Whether a test passes in time, with these variables in its environment."""
    try:
        ran = subprocess.run([program, name], stdin=subprocess.DEVNULL, stdout=subprocess.DEVNULL,
                             stderr=subprocess.DEVNULL, timeout=SECONDS, check=False, env={**os.environ, **more})
    except subprocess.TimeoutExpired:
        return False
    return ran.returncode == 0


def refuse_each(built, mark, program, name):
    """Refuses each request in turn. Returns how many there were, and with which of them refused the test fails."""
    call, wrong = 0, []
    while True:
        call += 1
        mark.unlink(missing_ok=True)
        is_well = passes(program, name, shim.settings(built, "memory", call, mark))
        if not mark.exists():
            return call - 1, wrong if is_well else [*wrong, 0]
        if not is_well:
            wrong.append(call)


def main():
    """Runs each test."""
    shim.compiler_or_end("tests/memory.py")
    programs = {crate: CRATES / crate / "out" / f"{crate}_tests" for crate, _ in TESTS}
    good, ran = True, 0
    with tempfile.TemporaryDirectory() as name:
        folder = Path(name)
        built = shim.built(folder)
        for crate, test in TESTS:
            program = programs[crate]
            if not program.exists():
                print(f"left out: {test} of {crate}, which rt ci builds")
                continue
            ran += 1
            count, wrong = refuse_each(built, folder / "refused", program, test)
            good = good and not wrong and count > 0
            failed = f", FAILED at {', '.join(map(str, wrong))}" if wrong else "" if count else ", FAILED: nothing was refused"
            print(f"{crate}, {test}: refused {count}{failed}")
    return 1 if not good else 0 if ran else shim.LEFT_OUT


if __name__ == "__main__":
    sys.exit(main())
