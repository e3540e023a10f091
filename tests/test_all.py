#!/usr/bin/env python3
"""Tests `./test` over a temporary repository, with stand-ins for `rt` and for the files of tests.

    python3 tests/test_all.py
"""

import os
import subprocess
import sys
import tempfile
import time
from importlib.machinery import SourceFileLoader
from importlib.util import module_from_spec, spec_from_loader
from pathlib import Path

sys.dont_write_bytecode = True  # the repository gets no made files

TOP = Path(__file__).resolve().parent.parent
FILES = ("tests/run.py", "examples/test_embedding.py")
GATE = """#!/bin/sh
# Says what `rt ci` is made to say, or how many checks it may run at once, and ends so.
[ "$*" = ci ] || exit 9
echo "rt: on standard error" >&2
[ -z "${MAKES-}" ] || { sleep 0.1; mkdir -p "$MAKES"; }
[ "${GATE-}" = jobs ] && GATE="$RT_JOBS passed, 0 failed\\n"
printf '%b' "${GATE:-12 passed, 0 failed\\n}"
exit "${GATE_STATUS:-0}"
"""
PART = """import os, sys
name = os.path.basename(__file__)[:-3]
print(os.environ.get(name, "== 9 passed, 0 failed" if name == "run" else "route.py: ok"))
sys.exit(int(os.environ.get(name + "_status", 0)))
"""


class Place:
    """A temporary repository."""

    def __init__(self, folder):
        self.top, self.bin = folder / "repository", folder / "bin"
        copies = ((f"repository/{name}", (TOP / name).read_text()) for name in ("test", "build.py"))
        for file, text in (("bin/rt", GATE), *copies, *((f"repository/{name}", PART) for name in FILES),
                           ("repository/crates.txt", "lgm_low:\nlgm_mid: lgm_low\n"), ("repository/crates/lgm/out/lgm", "")):
            (folder / file).parent.mkdir(parents=True, exist_ok=True)
            (folder / file).write_text(text)
            (folder / file).chmod(0o755)

    def run(self, *words, path="", **more):
        """The exit status, the lines and the last line of `./test`, which needs nothing of the environment but `rt`."""
        path = path or f"{self.bin}:/usr/bin:/bin"
        done = subprocess.run([sys.executable, self.top / "test", *words], cwd="/", env={"PATH": path, **more},
                              stdin=subprocess.DEVNULL, stdout=subprocess.PIPE, stderr=subprocess.PIPE, text=True, check=False)
        lines = done.stdout.splitlines()
        return done.returncode, lines, lines[-1]


def left_out(lines):
    """What the lines say that was left out."""
    return [line.split(": ", 2)[2] for line in lines if line.startswith("test: left out: ")]


def adds_up(place):
    """What `rt ci` counts, and one for each file of tests, with the output of each as it comes."""
    status, lines, last = place.run()
    assert (status, last, left_out(lines)) == (0, "22 passed, 0 failed", []), lines
    begins = [lines.index(f"test: {name} ..") for name in ("rt ci", *FILES)]
    assert begins == sorted(begins) and lines[begins[0] + 1] == "12 passed, 0 failed", lines
    assert lines[begins[1] + 1] == "== 9 passed, 0 failed", lines
    assert lines[begins[0] + 2].startswith("test: rt ci: 12 passed, 0 failed, "), lines
    assert place.run("--minutes", "180")[2] == "22 passed, 0 failed"


def runs_one_check_on_each_processor(place):
    """`rt ci` is told how many checks run at once, unless the environment says so."""
    if os.cpu_count() <= 4:
        at_once = int(place.run(GATE="jobs")[2].split()[0]) - 10
        assert 1 <= at_once <= os.cpu_count(), at_once
    assert place.run(GATE="jobs", RT_JOBS="70")[2] == "80 passed, 0 failed"


def fails(place):
    """A failure of any part is counted and sets the status, and the other parts run."""
    assert place.run(GATE="11 passed, 2 failed\n", GATE_STATUS="1")[::2] == (1, "21 passed, 2 failed")
    assert place.run(run="== 7 passed, 2 failed a b", run_status="1")[::2] == (1, "20 passed, 2 failed")
    assert place.run(test_embedding_status="1")[::2] == (1, "21 passed, 1 failed")
    # A part that ends ill without a count, or in spite of it, and an `rt ci` that counts nothing.
    assert place.run(run="Traceback", run_status="1")[::2] == (1, "13 passed, 1 failed")
    assert place.run(run_status="1")[::2] == (1, "22 passed, 1 failed")
    assert place.run(GATE="killed\n")[::2] == (1, "10 passed, 1 failed")
    assert place.run(GATE_STATUS="2")[::2] == (1, "22 passed, 1 failed")


def leaves_out_what_has_no_time(place):
    """Too few minutes, and missing tools, leave a part out, which is said and fails nothing."""
    status, lines, last = place.run("--minutes", "24")
    assert (status, last) == (0, "21 passed, 0 failed"), lines
    assert left_out(lines) == [f"{FILES[1]}, since fewer than 25 of 24 minutes were left for it"], lines
    status, lines, last = place.run("--minutes", "7")
    assert (status, last, len(left_out(lines))) == (0, "12 passed, 0 failed", 2), lines
    status, lines, last = place.run(test_embedding="left out: the whole, which needs cc", test_embedding_status="77")
    assert (status, last, left_out(lines)) == (0, "21 passed, 0 failed", ["the whole, which needs cc"]), lines
    status, lines, last = place.run(test_embedding="left out: leaks\nroute.py: ok")
    assert (status, last, left_out(lines)) == (0, "22 passed, 0 failed", ["leaks"]), lines


def stops_at_the_limit(place):
    """A part that is still running is stopped with what it started, and has neither passed nor failed."""
    sys.path.insert(0, str(TOP))
    loader = SourceFileLoader("all_tests", str(TOP / "test"))
    test = module_from_spec(spec_from_loader(loader.name, loader))
    loader.exec_module(test)
    script = place.top / "slow"
    script.write_text("echo begun; sleep 100 & sleep 100; echo ended\n")
    begun = time.monotonic()
    result = test.run(("sh", script), 0.5)
    assert result.is_late and result.counts() == (0, 0) and time.monotonic() - begun < 60
    assert result.last == "begun"
    # The counts of the others stand.
    gate, late = test.Result(), test.Result()
    gate.status, gate.last, late.is_late = 0, "12 passed, 0 failed", True
    test.run = lambda words, _: gate if words == test.GATE else late
    test.say = lambda text: None
    assert test.take_all(180) == (12, 0, [f"{name}, which was stopped at the limit of 180 minutes" for name in FILES])


def takes_over_what_was_proved(place):
    """Libraries that `rt ci` has left are built if it passed, but not those that were there before."""
    low, mid = (place.top / "crates" / name / "out/rlib" for name in ("lgm_low", "lgm_mid"))
    (mid / "lgm_mid.rlib").mkdir(parents=True)
    os.utime(mid / "lgm_mid.rlib", (1, 1))
    made = {"MAKES": str(low / "lgm_low.rlib")}
    assert place.run(GATE="11 passed, 1 failed\n", GATE_STATUS="1", **made)[0] == 1
    assert not (low / "statements").exists()
    (low / "lgm_low.rlib").rmdir()
    begun = time.time()
    assert place.run(**made)[0] == 0
    assert begun <= (low / "statements").stat().st_mtime <= (low / "lgm_low.rlib").stat().st_mtime
    assert not (mid / "statements").exists()


def needs_a_program(place):
    """Where `rt ci` fails and leaves no program, the rest is left out; so is all where there is no `rt`."""
    (place.top / "crates/lgm/out/lgm").unlink()
    status, lines, last = place.run(GATE="11 passed, 1 failed\n", GATE_STATUS="1")
    assert (status, last, len(left_out(lines))) == (1, "11 passed, 1 failed", 2), lines
    assert place.run()[2] == "22 passed, 0 failed"
    status, lines, last = place.run(path="/nowhere")
    assert (status, last) == (1, "0 passed, 1 failed") and "isn't on the PATH" in lines[0], lines


def main():
    """Runs each test, in order, in one place."""
    tests = (adds_up, runs_one_check_on_each_processor, fails, leaves_out_what_has_no_time, stops_at_the_limit,
             takes_over_what_was_proved, needs_a_program)
    with tempfile.TemporaryDirectory() as folder:
        place = Place(Path(folder))
        for test in tests:
            test(place)
    print(f"{len(tests)} passed")


if __name__ == "__main__":
    main()
