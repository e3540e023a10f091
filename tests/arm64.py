#!/usr/bin/env python3
"""Tries the packages for ARM64 on this machine, under `qemu-aarch64`: what was installed beside Debian's ARM64 libraries, and
the archive, whose program needs none.

    python3 tests/arm64.py FOLDER [--seconds N]

FOLDER has the packages, as `./package --for arm64` leaves them. The program answers the session of the README, the examples
and all cases of tests/scripts; programs in C are built by the cross compiler with the archive and with the shared object, and
say what they say on this machine. For N seconds, 30 if left out, `lgm live` and readers of published maps run beside a
writer: each answer has to be that of the program for this machine on the map of its version. That shows that the code for
ARM64 is right where threads take turns as they do here. qemu keeps the order in which this machine's processor writes,
which is stronger than that of an ARM64 processor, so what only a weaker order shows stays hidden. For that the program is
looked through: each instruction by which threads meet has to be one that orders memory.

It needs `qemu-aarch64` (qemu-user or qemu-user-static), Debian's cross compiler, and the program for this machine, which
./lgm builds. Without the first two it ends with status 77, and says so.
"""

import argparse
import os
import re
import shutil
import subprocess
import sys
import tempfile
import time
from pathlib import Path

sys.dont_write_bytecode = True  # the repository gets no made files

TOP = Path(__file__).resolve().parent.parent
sys.path[1:1] = [str(TOP), str(TOP / "examples")]

import build
import reports
from blocks import block
from embedding import common, in_c
from reports import leave_out, report, say_of

SKIPPED = 77
VERSION = (TOP / "VERSION").read_text().strip()
LIBRARIES = Path("/usr/aarch64-linux-gnu/lib")
COMPILER = f"{build.ARM64_TOOLS}gcc"
CHAIN = "c1" * 32
WORKERS = 4
CHANNELS = 300  # of the networks on which threads meet
PAYMENTS = 40  # of them, in each run of `lgm live`
# The instructions by which threads meet, by name: pairs that read and write, reads and writes that order memory, and reads that
# also write. Those of ORDERING order memory.
MEETING = re.compile(r"\t((?:ld|st)(?:[al]?x[rp]|[al]r)[bh]?"
                     r"|(?:(?:ld|st)(?:add|clr|eor|set|[su]max|[su]min)|swp|casp?)(?:a?l?)[bh]?)\t")
ORDERING = re.compile(r"lda(?:x?r|xp)[bh]?|stl(?:x?r|xp)[bh]?|(?:ld|st)(?:add|clr|eor|set|[su]max|[su]min)(?:al?|l)[bh]?"
                      r"|swp(?:al?|l)[bh]?|casp?(?:al?|l)[bh]?")


def emulator():
    """The words that run a program for ARM64, or nothing where there are none."""
    found = shutil.which("qemu-aarch64") or shutil.which("qemu-aarch64-static")
    return (found,) if found else ()


def run(*words, given=b"", **more):
    """What a command does."""
    return subprocess.run(words, input=given, stdout=subprocess.PIPE, stderr=subprocess.PIPE, check=False, **more)


def wrapper(folder, name, *words):
    """A program for this machine that runs one for ARM64."""
    file = folder / name
    file.write_text(f"#!/bin/sh\nexec {' '.join(map(str, words))} \"$@\"\n")
    file.chmod(0o755)
    return file


def installed(packages, folder):
    """A root with Debian's ARM64 libraries and the package for Debian."""
    root = folder / "root"
    (root / "lib").mkdir(parents=True)
    for name in ("ld-linux-aarch64.so.1", "libc.so.6"):
        shutil.copy(LIBRARIES / name, root / "lib")
    subprocess.run(("dpkg-deb", "--extract", packages / f"lgm_{VERSION}_arm64.deb", root), check=True)
    return root


def unpacked(packages, folder):
    """The folder of the archive."""
    subprocess.run(("tar", "-C", folder, "-xzf", packages / f"lgm-{VERSION}-aarch64-linux.tar.gz"), check=True)
    return folder / f"lgm-{VERSION}-aarch64-linux"


def try_program(name, program, payments):
    """The program answers the session of the README and says its version."""
    session = next(line for line in block("README.md", "sudo apt install").splitlines() if line.startswith("lgm run"))
    words, script = session.split(" < ")
    ran = run(program, *words.split()[1:], given=payments.read_bytes())
    report(f"ARM64, {name}, the session of the README", script.endswith("/share/lgm/examples/payments.txt")
           and say_of(ran).stdout == (TOP / "examples/payments.out").read_bytes())
    report(f"ARM64, {name}, lgm --version", run(program, "--version").stderr.decode().strip() == f"lgm {VERSION}")


def try_scripts(program):
    """All cases of tests/scripts, and the examples."""
    for name in ("tests/texts.py", "examples/test_examples.py"):
        begun = time.monotonic()
        ran = run(sys.executable, TOP / name, program)
        report(f"ARM64, {name}, {time.monotonic() - begun:.0f} s", say_of(ran).returncode == 0)


def compiled(folder, name, source, *words):
    """A program in C for ARM64."""
    made = folder / name
    subprocess.run((COMPILER, "-std=c11", "-O2", "-Wall", "-Wextra", source, *words, "-o", made), check=True)
    return made


def try_library(folder, root, top):
    """Programs in C with the archive of the library, and with the shared object of the package for Debian."""
    archive, qemu, examples = (f"-I{top / 'include'}", top / "lib/liblgm.a", "-static"), emulator(), TOP / "examples"
    program = compiled(folder, "run", examples / "c/run.c", *archive)
    for script in sorted(examples.glob("[!l]*.txt")):
        found = run(*qemu, program, CHAIN, given=script.read_bytes()).stdout
        report(f"ARM64, run.c, {script.name}", found == script.with_suffix(".out").read_bytes())
    for workload in ("queries", "churn"):
        script = common.made_script(workload, CHANNELS)
        report(f"ARM64, run.c, {workload}", run(*qemu, program, CHAIN, given=script).stdout == common.answer(script))
    for name in ("faults", "published", "attempts", "estimates"):
        program = compiled(folder, name, examples / f"c/{name}.c", *archive, "-Wl,--wrap=malloc,--wrap=realloc")
        report(f"ARM64, {name}.c", say_of(run(*qemu, program)).stdout == b"ok\n")
    program = compiled(folder, "payer", examples / "c/payer.c", *archive)
    found = run(*qemu, program, CHAIN, *in_c.PAYER_AND_PEER, given=(examples / "payments.txt").read_bytes()).stdout
    report("ARM64, payer.c", in_c.is_paid(found))
    first, said = folder / "first.c", block("docs/embedding.md", "$ cc first.c $(pkg-config").partition("\n")[2]
    first.write_text(block("docs/embedding.md", "#include <lgm.h>"))
    lib = root / "usr/lib/aarch64-linux-gnu"
    program = compiled(folder, "first", first, f"-I{root / 'usr/include'}", f"-L{lib}", "-llgm")
    ran = run(*qemu, "-L", root, "-E", f"LD_LIBRARY_PATH={lib}", program)
    report("ARM64, the first program in C, with the shared object", say_of(ran).stdout.decode() == said)


def try_crate(folder, top):
    """The calls of the crate for Rust, over the archive, where Rust's own library for ARM64 is there."""
    found = run("rustc", "--print", "target-libdir", "--target", build.ARM64_TARGET).stdout if shutil.which("rustc") else b""
    if not found or not Path(found.decode().strip()).exists():
        leave_out("ARM64, the crate for Rust", f"Rust has no library for it here: rustup target add {build.ARM64_TARGET}")
        return
    setting = f"CARGO_TARGET_{build.ARM64_TARGET.upper().replace('-', '_')}"
    environment = {**os.environ, "CARGO_HOME": str(folder / "cargo/home"), "CARGO_TARGET_DIR": str(folder / "cargo"),
                   f"{setting}_LINKER": COMPILER, f"{setting}_RUNNER": " ".join((*emulator(), "-L", str(LIBRARIES.parent))),
                   "LGM_LIBRARY_DIR": str(top / "lib")}
    words = ("cargo", "run", "--quiet", "--offline", "--target", build.ARM64_TARGET, "--example", "calls")
    ran = run(*words, cwd=top / "share/lgm/examples/rust", env=environment)
    report("ARM64, the crate for Rust", say_of(ran).stdout == b"ok\n")


def answers_at(script):
    """What `lgm run` of this machine answers to each payment of a script, by the number of items accepted up to each commit."""
    payments = list(dict.fromkeys(line for line in script if line.startswith(b"route ")))
    lines, places = [b"commit\n", *payments], {number: payment for number, payment in enumerate(payments, 2)}
    for line in script:
        if not line.startswith(b"route "):
            lines.append(line)
        if line == b"commit\n":
            places.update((number, payment) for number, payment in enumerate(payments, len(lines) + 1))
            lines += payments
    answers, version = {}, None
    for line in common.answer(b"".join(lines)).splitlines(keepends=True):
        number, text = line.split(b" ", 1)
        if text.startswith(b"commit "):
            version = int(text.split()[1])
        elif int(number) in places:
            key = version, places[int(number)]
            answers[key] = answers.get(key, b"") + text
    return answers


def live_is_right(output, script, answers):
    """Whether each payment of `lgm live` has the answer of its version, which isn't older than the commit above it, and the
    versions of a worker never fall."""
    found, versions, least = {}, {}, 0
    for line in output.splitlines(keepends=True):
        number, text = line.split(b" ", 1)
        if text.startswith(b"commit "):
            least = int(text.split()[1])
        elif text.startswith(b"at "):
            _, version, same = text.split()
            versions[int(number)] = int(version)
            found[int(number)] = b"" if same == b"same" and int(version) >= least else b"other"
        elif int(number) in found:
            found[int(number)] += text
    numbers = [number for number, line in enumerate(script, 1) if line.startswith(b"route ")]
    by_worker = [[versions.get(number, -1) for number in numbers[worker::WORKERS]] for worker in range(WORKERS)]
    return [*found] == numbers and all(of_one == sorted(of_one) for of_one in by_worker) \
        and all(found[number] == answers.get((versions[number], script[number - 1])) for number in numbers)


def few_payments(script):
    """A script with some of its payments: as many in each part between two commits."""
    every, count, kept = max(1, sum(line.startswith(b"route ") for line in script) // PAYMENTS), 0, []
    for line in script:
        count += line.startswith(b"route ")
        if not line.startswith(b"route ") or count % every == 0:
            kept.append(line)
    return kept


def try_threads(folder, program, top, seconds):
    """`lgm live`, and readers of published maps beside a writer, one after the other until the time is up."""
    script = few_payments(common.made_script("live", CHANNELS).splitlines(keepends=True))
    answers, runs, is_right, ends = answers_at(script), 0, True, time.monotonic() + seconds / 2
    while runs == 0 or is_right and time.monotonic() < ends:
        ran = run(program, "live", "--chain", CHAIN, "--workers", str(WORKERS), given=b"".join(script))
        is_right, runs = live_is_right(say_of(ran).stdout, script, answers), runs + 1
    report(f"ARM64, lgm live by {WORKERS} workers, {runs} runs", is_right)
    words = (f"-I{top / 'include'}", top / "lib/liblgm.a", "-static", "-pthread")
    made = compiled(folder, "serve", TOP / "examples/c/serve.c", *words)
    runs, is_right, ends = 0, True, time.monotonic() + seconds / 2
    while runs == 0 or is_right and time.monotonic() < ends:
        is_right = in_c.served(made.parent, CHANNELS, 10, 50, 0, *emulator(), tries=1 + runs % 3)
        runs += 1
    report(f"ARM64, serve.c, four readers beside a writer, {runs} runs", is_right)


def orders_memory(name, file):
    """Each instruction of a file by which threads meet orders memory."""
    said = run(f"{build.ARM64_TOOLS}objdump", "--disassemble", "--no-show-raw-insn", file).stdout.decode()
    found = [match[1] for match in map(MEETING.search, said.splitlines()) if match]
    others = sorted({it for it in found if not ORDERING.fullmatch(it)})
    report(f"ARM64, {name}, {len(found)} instructions by which threads meet", found and not others)
    print(*others, sep="\n", end="\n" if others else "", flush=True)


def main():
    """Takes the arguments, and tries all."""
    parser = argparse.ArgumentParser(description=__doc__, formatter_class=argparse.RawDescriptionHelpFormatter)
    parser.add_argument("folder", type=Path, metavar="FOLDER", help="where the packages are")
    parser.add_argument("--seconds", type=float, default=30, metavar="N", help="how long threads run beside each other")
    options = parser.parse_args()
    lacking = "" if emulator() else "qemu-aarch64 isn't on the PATH: apt-get install qemu-user"
    if missing := build.missing_for_arm64() or lacking:
        leave_out("tests/arm64.py", missing)
        sys.exit(SKIPPED)
    common.PROGRAM = TOP / "lgm"
    with tempfile.TemporaryDirectory() as name:
        folder = Path(name)
        root, top = installed(options.folder, folder), unpacked(options.folder, folder)
        loading = wrapper(folder, "loading", *emulator(), "-L", root, root / "usr/bin/lgm")
        static = wrapper(folder, "static", *emulator(), top / "bin/lgm")
        try_program("the package for Debian", loading, root / "usr/share/lgm/examples/payments.txt")
        try_program("the archive", static, top / "share/lgm/examples/payments.txt")
        try_scripts(static)
        try_library(folder, root, top)
        try_crate(folder, top)
        try_threads(folder, static, top, options.seconds)
        orders_memory("lgm", root / "usr/bin/lgm")
        orders_memory("liblgm.so", root / "usr/lib/aarch64-linux-gnu/liblgm.so")
    sys.exit(1 if reports.failures else 0)


if __name__ == "__main__":
    main()
