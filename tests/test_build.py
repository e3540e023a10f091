#!/usr/bin/env python3
"""Tests the shell script `lgm` and build.py over temporary crates, with stand-ins for `rt` and `rattle` that prove nothing.

    python3 tests/test_build.py
"""

import os
import shutil
import subprocess
import tempfile
import time
from pathlib import Path

TOP = Path(__file__).resolve().parent.parent
CRATES = """# Each crate, and what it stands on.
low:
left: low
right may_wait=2: low hex
lgm: left right clap
other_tests: left
"""
RT = """#!/bin/sh
# Notes what it does, and leaves what the builds of rt leave.
[ "$1" = doc ] && { echo "$KIT/START-HERE.md"; exit 0; }
crate=$(basename "$PWD")
grep -q "^$crate" ../../crates.txt || exit 3
[ "$1" = try ] && { echo "$*"; cat; echo "run=ended" >&2; exit 5; }
echo "begin $crate" >> "$LOG"
[ "$crate" = "${BROKEN:-}" ] && { echo "a clause isn't proved"; exit 1; }
case $crate in left|right) [ -f ../low/out/rlib/stamp ] || exit 4 ;; esac
case $crate in left|right) sleep "${PAUSE:-0.1}" ;; esac
mkdir -p out/rlib out/incremental
echo "$*" > out/rlib/stamp
[ "$1" = lib ] && touch "out/lib$crate.a"
[ "$1" = run ] && { echo "$*" > "$LOG.run"; printf '#!/bin/sh\\necho "$@"\\n' > out/lgm; chmod +x out/lgm; }
echo "end $crate" >> "$LOG"
"""
RATTLE = """#!/bin/sh
# The same for the builds of rattle: a library is a folder, and a program a file.
crate=$(basename "$PWD")
echo "begin $crate" >> "$LOG"
[ "$crate" = "${BROKEN:-}" ] && { echo "a clause isn't proved"; exit 1; }
case " $* " in *" --jobs 1 "*) ;; *) [ "$crate" = "${KILLED:-}" ] && kill -KILL $$ ;; esac
for word; do
    case $word in low=*|left=*|right=*) [ -d "${word#*=}" ] || exit 4 ;; esac
    [ "${before:-}" = -o ] && to=$word
    before=$word
done
case $crate in left|right) sleep "${PAUSE:-0.1}" ;; esac
case " $* " in *" --statements "*) mkdir "$to" ;; *) echo "$*" > "$to"; echo "$*" > "$LOG.run" ;; esac
echo "end $crate" >> "$LOG"
"""
LINK = """#!/bin/sh
# Makes a program that prints its arguments.
printf '#!/bin/sh\\necho "$@"\\n' > out/lgm; chmod +x out/lgm
"""
CROSS = """#!/bin/sh
# Stands for Debian's cross compiler: notes its words, and makes what is behind -o.
case $1 in -print-file-name=*) echo "${LIBC:-/usr/aarch64-linux-gnu/lib/libc.a}"; exit 0 ;; esac
echo "$*" > "$LOG.linked"
for word; do last=$word; done
touch "$last"
"""


class Place:
    """A temporary repository and kit, with `rt` on the path."""

    def __init__(self, folder):
        self.top, self.log, self.kit = folder / "repository", folder / "log", folder / "kit"
        (self.kit / "bin").mkdir(parents=True)
        self.path = f"{self.kit / 'bin'}:{os.environ['PATH']}"
        for name, text in (("rt", RT), ("rattle", RATTLE), ("rattle-link", LINK), ("aarch64-linux-gnu-gcc", CROSS)):
            (self.kit / "bin" / name).write_text(text)
            (self.kit / "bin" / name).chmod(0o755)
        self.top.mkdir()
        for name in ("lgm", "build.py"):
            (self.top / name).write_bytes((TOP / name).read_bytes())
            (self.top / name).chmod(0o755)
        (self.top / "crates.txt").write_text(CRATES)
        (self.top / "HANDLES").write_text("Handles allowed: none.\n")
        (self.top / "runtime").mkdir()
        for name in ("low", "left", "right", "lgm", "other_tests"):
            for part in ("src", "specs", "proofs"):
                (self.top / "crates" / name / part).mkdir(parents=True)
            (self.top / "crates" / name / "src" / "lib.rt").write_text("//! A made crate.\n")

    def run(self, *words, given="", **more):
        """What a command wrote, and what was built."""
        self.log.write_text("")
        done = subprocess.run(words, cwd=self.top, input=given, capture_output=True, text=True, check=False,
                              env={**os.environ, "PATH": self.path, "LOG": str(self.log), "KIT": str(self.kit), **more})
        return done, self.log.read_text().split("\n")[:-1]

    def touch(self, crate):
        """Changes a crate."""
        time.sleep(0.02)
        (self.top / "crates" / crate / "src" / "lib.rt").write_text("//! A changed crate.\n")


def tries_what_is_not_built(place):
    """Behind `try` a program that isn't built is run by `rt try`, with the caller's input and its status."""
    done, log = place.run("./lgm", "try", "run", "a b", given="a script\n")
    assert (done.returncode, log) == (5, []), done
    assert done.stdout == "try --seconds 600 -- run a b\na script\n", done.stdout
    first, *rest = done.stderr.splitlines()
    assert "isn't proved" in first and "python3 build.py" in first and rest == ["run=ended"], done.stderr


def builds_and_runs(place):
    """The first run builds each crate once, and says so; the next one only runs."""
    done, log = place.run("./lgm", "run", "a b")
    assert (done.returncode, done.stdout) == (0, "run a b\n"), done
    assert sorted(log) == sorted(f"{verb} {it}" for it in ("low", "left", "right", "lgm") for verb in ("begin", "end")), log
    assert log[:2] == ["begin low", "end low"] and log[-2:] == ["begin lgm", "end lgm"]
    assert "./lgm try" in done.stderr.splitlines()[0], done.stderr
    for line in ("4 of 4 crates", "low: ", "1 of 4", "2 of 4", "3 of 4", "4 of 4"):
        assert line in done.stderr, done.stderr
    done, log = place.run("./lgm", "live")
    assert (done.stdout, done.stderr, log) == ("live\n", "", []), done
    done, log = place.run("./lgm", "try", "run", "--workers")
    assert (done.stdout, done.stderr, log) == ("run --workers\n", "", []), done


def builds_for_a_processor(place):
    """The program is built for the processor that LGM_CPU names, or for any."""
    ran = place.log.with_name("log.run")
    for cpu in ("x86-64-v3", "default"):
        place.touch("lgm")
        done, log = place.run("./lgm", "run", LGM_CPU=cpu)
        assert done.stdout == "run\n" and log == ["begin lgm", "end lgm"], (done, log)
        told = ran.read_text()
        assert told.startswith("build --jobs ") and told.endswith(" -o out/lgm.o\n"), told
        assert ("--cpu x86-64-v3" in told) == (cpu == "x86-64-v3") == ("for x86-64-v3 processors" in done.stderr), (told, done)


def builds_what_changed(place):
    """Behind a change that crate and those above it are built."""
    place.touch("left")
    done, log = place.run("./lgm", "run")
    assert done.stdout == "run\n" and log == ["begin left", "end left", "begin lgm", "end lgm"], log
    place.touch("other_tests")
    done, log = place.run("./lgm", "run")
    assert (done.stdout, done.stderr, log) == ("run\n", "", []), (done, log)  # the program doesn't use it
    for crate in ("low", "right", "lgm"):
        place.touch(crate)
        done, log = place.run("./lgm", "run")
        assert done.stdout == "run\n" and f"begin {crate}" in log, (crate, log)


def builds_a_library(place):
    """A library that the program doesn't use, with those below it, and the progress."""
    place.touch("left")
    done, log = place.run("./build.py", "--library", "other_tests")
    assert done.returncode == 0 and log == [f"{verb} {it}" for it in ("left", "other_tests") for verb in ("begin", "end")], log
    for line in ("2 of 3 crates", "lgm: left ..", "1 of 2", "lgm: other_tests ..", "2 of 2", "built in "):
        assert line in done.stderr, (line, done.stderr)
    done, log = place.run("./build.py", "--library", "other_tests")
    assert (done.returncode, done.stderr, log) == (0, "lgm: other_tests is built already\n", []), (done, log)
    for cpu in ("x86-64-v3", "default"):
        done, log = place.run("./build.py", "--library", "other_tests", LGM_CPU=cpu)
        assert done.returncode == 0 and log == ["begin other_tests", "end other_tests"], (done, log)
        assert ("lgm: other_tests, for x86-64-v3 processors .." in done.stderr) == (cpu == "x86-64-v3"), done
    time.sleep(0.02)
    (place.top / "crates/other_tests/out/libother_tests.a").touch()  # as another build leaves it
    done, log = place.run("./build.py", "--library", "other_tests")
    assert done.returncode == 0 and log == ["begin other_tests", "end other_tests"], (done, log)
    place.touch("other_tests")
    done, log = place.run("./build.py", "--library", "other_tests", BROKEN="other_tests")
    assert done.returncode == 1 and "a clause isn't proved\nlgm: other_tests couldn't be built\n" in done.stderr, done
    done, log = place.run("./build.py", "--library", "no_such")
    assert done.returncode == 2 and log == [], done


def tells_rattle_what_it_uses(place):
    """A crate is built over its libraries and those below, and the kit's; and once more if it is killed."""
    place.touch("lgm")
    done, log = place.run("./lgm", "run", KILLED="lgm")
    assert done.stdout == "run\n" and log == ["begin lgm", "begin lgm", "end lgm"], (done, log)
    told = place.log.with_name("log.run").read_text()
    for word in ("--jobs 1 ", "--crate-name lgm src/main.rt ", f"--extern left={place.top}/crates/left/out/rlib/left.rlib ",
                 f"--extern clap={place.kit}/rlibs/clap.rlib ", f"--extern std={place.kit}/rlibs/std.rlib ",
                 f"-L dependency={place.top}/crates/low/out/rlib ", f"-L dependency={place.kit}/rlibs ",
                 f"--logic-built {place.kit}/logic_built "):
        assert word in told, (word, told)


def builds_for_arm64(place):
    """The program and a library for ARM64 are built over the libraries that are there, beside those for this machine."""
    place.touch("lgm")
    place.run("./lgm", "run")
    done, log = place.run("./build.py", "--for", "arm64", LGM_CPU="x86-64-v3")
    assert done.returncode == 0 and log == ["begin lgm", "end lgm"] and "lgm, for arm64 .." in done.stderr, (done, log)
    told, linked = (place.log.with_name(f"log.{it}").read_text() for it in ("run", "linked"))
    assert " --target aarch64-unknown-linux-gnu " in told and "/out/arm64/lgm.o\n" in told and "--cpu" not in told, told
    keeps = (place.top / "crates/lgm/out/incremental").is_dir()
    assert f" --incremental out/{'incremental' if keeps else 'checked'} " in told, told
    out = place.top / "crates/lgm/out"
    assert f"-pie -Wl,-z,relro,-z,now {out}/arm64/lgm.o heap.c process.c -o {out}/arm64/lgm\n" in linked, linked
    assert place.run("./lgm", "run")[1] == []
    done, log = place.run("./build.py", "--for", "arm64", "--library", "other_tests")
    assert done.returncode == 0 and log[-1] == "end other_tests", (done, log)
    told = place.log.with_name("log.run").read_text()
    assert " --target aarch64-unknown-linux-gnu " in told and told.endswith("/out/arm64/libother_tests.a\n"), told
    done, log = place.run("./build.py", "--for", "arm64", "--library", "other_tests")
    assert (done.stderr, log) == ("lgm: other_tests is built already\n", []), (done, log)
    done, log = place.run("./build.py", "--for", "arm64", LIBC="libc.a")
    assert done.returncode == 1 and log == [] and done.stderr == "lgm: aarch64-linux-gnu-gcc has no C library: apt-get " \
        "install gcc-aarch64-linux-gnu libc6-dev-arm64-cross\n", (done, log)
    (place.kit / "bin" / "aarch64-linux-gnu-gcc").unlink()
    if not shutil.which("aarch64-linux-gnu-gcc"):
        done, log = place.run("./build.py", "--for", "arm64")
        assert done.returncode == 1 and log == [] and "isn't on the PATH: apt-get install " in done.stderr, (done, log)


def keeps_what_is_proved(place):
    """With `--keep` `rt` builds the libraries, and once it has kept something, also without."""
    done, log = place.run("./build.py", "--keep")
    assert done.returncode == 0 and sorted(log)[:4] == [f"begin {it}" for it in ("left", "lgm", "low", "right")], (done, log)
    told = place.log.with_name("log.run").read_text()
    assert told.startswith("run --jobs ") and f" -- run --chain {'00' * 32}" in told, told
    place.touch("right")
    done, log = place.run("./lgm", "run")
    assert done.stdout == "run\n" and log == ["begin right", "end right", "begin lgm", "end lgm"], (done, log)
    assert place.log.with_name("log.run").read_text().startswith("run "), log


def builds_side_by_side(place):
    """Two independent libraries are built at the same time, or one after the other."""
    place.touch("low")
    _, log = place.run("./build.py", "--at-once", "2", PAUSE="3")
    assert log[2][:5] == log[3][:5] == "begin" and len(log) == 8, log
    place.touch("low")
    _, log = place.run("./build.py", "--at-once", "1")
    assert log[2].replace("begin", "end") == log[3] and len(log) == 8, log


def says_what_failed(place):
    """A crate that isn't proved, and a toolchain that isn't there, have their statuses and lines."""
    place.touch("low")
    for words in (("./lgm", "run"), ("./build.py", "--at-once", "1")):
        done, log = place.run(*words, BROKEN="right")
        assert done.returncode == (126 if words[0] == "./lgm" else 1) and done.stdout == "", done
        assert "a clause isn't proved\nlgm: right couldn't be built\n" in done.stderr and "begin lgm" not in log, done.stderr
    (place.kit / "bin" / "rt").unlink()
    bare = place.top.parent / "bare"
    bare.mkdir()
    for name in ("sh", "find", "head", "dirname", "readlink"):
        (bare / name).symlink_to(shutil.which(name))
    place.path = str(bare)
    for words in (("./lgm", "run"), ("./lgm", "try", "run")):
        done, _ = place.run(*words)
        assert done.returncode == 127 and "isn't on the PATH" in done.stderr, done


def main():
    """Runs each test, in order: those of a build in one place, and those of one that keeps proofs in another."""
    tests = (tries_what_is_not_built, builds_and_runs, builds_for_a_processor, builds_what_changed, builds_a_library,
             builds_for_arm64, tells_rattle_what_it_uses, builds_side_by_side, says_what_failed)
    kept = (builds_and_runs, keeps_what_is_proved, builds_for_arm64, builds_side_by_side, says_what_failed)
    for some in (tests, kept):
        with tempfile.TemporaryDirectory() as folder:
            place = Place(Path(folder))
            for test in some:
                test(place)
    print(f"{len(tests) + len(kept)} passed")


if __name__ == "__main__":
    main()
