#!/usr/bin/env python3
"""Proves and builds the program `lgm`: the libraries that it depends on, lowest first, and then the program.

    python3 build.py [--at-once N] [--cpu NAME] [--library CRATE] [--keep] [--for arm64]
    python3 build.py --is-stale

With `--library` it builds a library and its dependencies instead: examples/build-c builds `lgm_c` so.

With `--for arm64` it builds the program, or a library for other languages, for ARM64 machines, in `out/arm64` of its crate.
The libraries below are those of any machine. That crate alone is proved for it, mostly by what was proved of it for this
machine, which is kept in `out/checked`. The kit has no C library for ARM64: Debian's cross compiler links the program, with
the C code of `runtime` in place of the kit's.

Reports progress on stderr: which crate of how many, and how long each took; what a check printed is shown if it fails.
Independent libraries are proved in parallel, as many as processors and memory allow, or N.

A library that is proved is left with its statements alone, which those above it read faster than proofs. Whoever is
going to change something wants the proofs kept: with `--keep`, or where `rt check` has kept some, `rt lib` builds each
library, and a later check begins with what it left. Then the first build takes longer.

A library for other languages isn't built again where it is as this script built it for the same processor.

With `--is-stale` nothing is built: the exit status is 0 if a file of the program, or of a library that it depends on, is
newer than the program, else 1.

The program is built for x86-64-v3 if this machine's processor supports that, and then ends with status 127 on one that
doesn't; a library for x86-64-v2. NAME, or LGM_CPU in the environment, is another target that the kit knows, or
`default`: x86-64-v2. For ARM64 the environment doesn't count, and `default` is any processor.
"""

import argparse
import os
import shutil
import signal
import subprocess
import sys
import tempfile
import time
from concurrent.futures import FIRST_COMPLETED, ThreadPoolExecutor, wait
from pathlib import Path

TOP = Path(__file__).resolve().parent
PROGRAM = "lgm"
TIMES = {PROGRAM: "some 20 to 30 minutes", "lgm_c": "some 15 minutes"}
SOURCES = ("src", "specs", "proofs")
MOST_AT_ONCE = 4
MEMORY_OF_ONE = 6 << 30  # bytes, for a check that shares its work among several processors
MEMORY_OF_JOB = 2 << 30  # bytes, for what one processor does of it
# What proofs of libraries took on four processors, of two at a time. Only the order and who gives way depend on it.
SECONDS = {"lgm_hex": 30, "lgm_wire": 48, "lgm_par": 50, "lgm_gossip": 137, "lgm_check": 61, "lgm_script": 250, "lgm_store": 220,
           "lgm_query": 150, "lgm_graph": 302, "lgm_route": 454, "lgm_timeline": 150, "lgm_payload": 71, "lgm_answers": 96,
           "lgm_board": 170, "lgm_run": 223, "lgm_live": 238, "lgm_start": 66}
NEARLY = 0.8  # of the longest chain of libraries that wait for each other
BYTES_A_SECOND = 1_500
NO_CHAIN = "00" * 32
ANY_CPU = "default"  # what is built for unless it is told otherwise
NEWER_CPU = "x86-64-v3"
ARM64 = "arm64"
ARM64_TARGET = "aarch64-unknown-linux-gnu"
ARM64_TOOLS = "aarch64-linux-gnu-"  # what the names of Debian's cross tools begin with
ARM64_PACKAGES = "gcc-aarch64-linux-gnu libc6-dev-arm64-cross"
RUNTIME = ("heap.c", "process.c")  # of the folder `runtime`
NEWER_FLAGS = {"abm", "avx2", "bmi1", "bmi2", "f16c", "fma", "movbe"}  # what /proc/cpuinfo says of one


class Failed(Exception):
    """A crate isn't proved: its name, what the check printed, and its exit status."""


def read_crates(file):
    """The crates of a file as crates.txt, each with the libraries that it uses: the file's own, and the kit's."""
    lines = (line.split("#")[0].split(":") for line in file.read_text().splitlines())
    return {parts[0].split()[0]: parts[1].split() for parts in lines if len(parts) == 2}


def own(used, name):
    """The libraries of the same file that a crate uses."""
    return [it for it in used[name] if it in used]


def below(used, name):
    """All of the file's libraries that a crate depends on, lowest first."""
    found = []
    for it in own(used, name):
        found += [lower for lower in (*below(used, it), it) if lower not in found]
    return found


def folder_of(crate):
    """The folder of a crate."""
    return TOP / "crates" / crate


def files_of(crate):
    """The sources, specs and proofs of a crate."""
    return [file for part in SOURCES for file in (folder_of(crate) / part).rglob("*") if file.is_file()]


def rlibs_of(crate):
    """The folder that has what crates above a library read of it. `rt` empties it before it builds the library."""
    return folder_of(crate) / "out" / "rlib"


def processors():
    """How many processors this process may use."""
    return len(os.sched_getaffinity(0)) if hasattr(os, "sched_getaffinity") else os.cpu_count() or 1


def free_memory():
    """The bytes that are available; 0 if the system doesn't say."""
    try:
        lines = Path("/proc/meminfo").read_text().splitlines()
        return next(int(line.split()[1]) << 10 for line in lines if line.startswith("MemAvailable:"))
    except (OSError, StopIteration):
        return 0


def own_cpu():
    """The kind of processor that the program is built for if nobody chooses: this machine's, or any."""
    try:
        lines = Path("/proc/cpuinfo").read_text().splitlines()
    except OSError:
        return ANY_CPU
    flags = next((line.split(":")[1].split() for line in lines if line.startswith("flags") and ":" in line), [])
    return NEWER_CPU if NEWER_FLAGS <= set(flags) else ANY_CPU


def default_at_once():
    """How many checks processors and memory allow side by side."""
    return max(1, min(MOST_AT_ONCE, processors() // 2, free_memory() // MEMORY_OF_ONE))


def jobs_of_one(at_once, sharing):
    """Among how many processors one of several checks shares its work, as far as memory allows, if so many of them share
    the processors: its part of them and half as many more, since a check waits for a part of its time, but at least two.
    Each job loads the libraries anew, so more of them cost more."""
    part = max(2, 3 * processors() // (2 * sharing))
    return max(1, min(processors(), part, free_memory() // at_once // MEMORY_OF_JOB))


def say(text):
    """Prints a line on stderr."""
    print(f"lgm: {text}", file=sys.stderr, flush=True)


def call(crate, folder, *words):
    """Runs a command in a crate's folder."""
    done = subprocess.run(words, cwd=folder, stdin=subprocess.DEVNULL, stdout=subprocess.PIPE, stderr=subprocess.STDOUT, check=False)
    if done.returncode:
        raise Failed(crate, done.stdout.decode(errors="replace"), done.returncode)


def words_for(cpu):
    """What a build is told of the processor to build for."""
    return () if cpu == ANY_CPU else ("--cpu", cpu)


def giving_way(gives_way):
    """What stands before a command that gives way to others, if it does."""
    return ("nice", "-n", "19") if gives_way and shutil.which("nice") else ()


def compiler_for(machine):
    """The C compiler for this machine or for ARM64."""
    return f"{ARM64_TOOLS}gcc" if machine else "cc"


def missing_for_arm64():
    """What is said where Debian's cross compiler or its C library isn't there; empty where both are."""
    compiler = compiler_for(ARM64)
    missing = "" if shutil.which(compiler) else f"{compiler} isn't on the PATH"
    if not missing:
        said = subprocess.run((compiler, "-print-file-name=libc.a"), stdout=subprocess.PIPE, check=True, text=True).stdout
        missing = "" if Path(said.strip()).is_absolute() else f"{compiler} has no C library"
    return missing and f"{missing}: apt-get install {ARM64_PACKAGES}"


STATEMENTS = "statements"  # what stands beside a library that was left with its statements alone


def leave_stamp(crate, started):
    """Says beside a library when its build began: a file that was edited meanwhile is newer."""
    stamp = rlibs_of(crate) / STATEMENTS
    stamp.touch()
    os.utime(stamp, (started, started))


def take_over(started):
    """Counts as built here what a run of `rt ci` that began at this time left of libraries: each is proved. What was there
    before is older."""
    for crate in read_crates(TOP / "crates.txt"):
        made = rlibs_of(crate) / f"{crate}.rlib"
        if made.is_dir() and made.stat().st_mtime >= started:
            leave_stamp(crate, started)


class Builder:
    """Builds crates by `rattle`, each over the statements of the libraries below it, and keeps no proof of these."""

    # The files of which one stands beside a library that was built.
    stamps = (STATEMENTS, "stamp")
    # Where the proofs of what is linked are kept: the same for another machine has the same proofs.
    kept = ("--incremental", "out/checked")

    def __init__(self, used):
        self.used = used
        first_page = subprocess.run(("rt", "doc"), stdout=subprocess.PIPE, check=True, text=True).stdout
        self.kit = Path(first_page.splitlines()[0]).parent

    def words(self, crate, root):
        """What `rattle` is told of a crate: its root file, the libraries that it uses, and the kit's logic."""
        libraries = {it: (rlibs_of(it) if it in self.used else self.kit / "rlibs") / f"{it}.rlib" for it in self.used[crate]}
        libraries["std"] = self.kit / "rlibs" / "std.rlib"
        folders = (self.kit / "rlibs", *(rlibs_of(it) for it in below(self.used, crate)))
        return ("--crate-name", crate, f"src/{root}", *(word for it, place in libraries.items() for word in ("--extern", f"{it}={place}")),
                *(word for it in folders for word in ("-L", f"dependency={it}")),
                "--antt-project", self.kit / "rattle" / "logic" / "antt-project.json", "--logic-built", self.kit / "logic_built")

    def rattle(self, crate, jobs, *words, root="lib.rt", gives_way=False):
        """Proves and builds a crate: by several jobs, or by one if the system ends these, most likely for memory."""
        def build(jobs):
            call(crate, folder_of(crate), *giving_way(gives_way), self.kit / "bin" / "rattle", "build", "--jobs", str(jobs),
                 *self.words(crate, root), *words)

        (folder_of(crate) / "out").mkdir(exist_ok=True)
        try:
            build(jobs)
        except Failed as failed:
            if failed.args[2] != -signal.SIGKILL or jobs == 1:
                raise
            build(1)

    def library(self, crate, jobs, gives_way):
        """Proves and builds a library for the crates above it."""
        folder, started = rlibs_of(crate), time.time()
        shutil.rmtree(folder, ignore_errors=True)
        folder.mkdir(parents=True)
        self.rattle(crate, jobs, "--statements", "-o", folder / f"{crate}.rlib", gives_way=gives_way)
        leave_stamp(crate, started)

    def linked(self, cpu):
        """What is said of the code that is linked, and of the processor that it is for."""
        return (*words_for(cpu), "--toolchain", self.kit / "toolchain", "--backend", "llvm")

    def archive(self, crate, jobs, cpu):
        """Proves and builds a library that programs in other languages link with."""
        self.rattle(crate, jobs, *self.linked(cpu), *self.kept, "--crate-type", "staticlib", "-o", f"out/lib{crate}.a")

    def program(self, jobs, cpu):
        """Proves and builds the program."""
        part = f"out/{PROGRAM}.o"
        self.rattle(PROGRAM, jobs, *self.linked(cpu), *self.kept, "-o", part, root="main.rt")
        call(PROGRAM, folder_of(PROGRAM), self.kit / "bin" / "rattle-link", "--target", "x86_64-unknown-linux-gnu", "--toolchain",
             self.kit / "toolchain", "-o", f"out/{PROGRAM}", part, self.kit / "c" / "libos_c.a", self.kit / "c" / "liblibc_c.a")
        call(PROGRAM, folder_of(PROGRAM), f"out/{PROGRAM}", "run", "--chain", NO_CHAIN)


def link_by_cc(machine, kind, to):
    """Links the program that was compiled for this machine or for ARM64 with the C code of `runtime` and the C library: as one
    that loads it, "-pie", or has it, "-static-pie"."""
    part = built_file(PROGRAM, machine).with_suffix(".o")
    call(PROGRAM, TOP / "runtime", compiler_for(machine), "-std=c11", "-O2", "-fPIE", kind, "-Wl,-z,relro,-z,now", part, *RUNTIME,
         "-o", to)


class Crosser(Builder):
    """Builds the program, and libraries for other languages, for ARM64, over libraries that are built already. It begins with
    what was proved for this machine, if that is kept."""

    def __init__(self, used, keeps):
        super().__init__(used)
        if keeps:
            self.kept = ("--incremental", "out/incremental")  # as `rt` has it

    def linked(self, cpu):
        """What is said of the code that is linked, and of the machine that it is for."""
        return (*super().linked(cpu), "--target", ARM64_TARGET)

    def archive(self, crate, jobs, cpu):
        """Proves and builds a library that programs in other languages link with. The three functions of the heap that it
        needs aren't in it."""
        made = self.place_for(built_file(crate, ARM64))
        self.rattle(crate, jobs, *self.linked(cpu), *self.kept, "--crate-type", "staticlib", "-o", made)

    def program(self, jobs, cpu):
        """Proves and builds the program."""
        made = self.place_for(built_file(PROGRAM, ARM64))
        self.rattle(PROGRAM, jobs, *self.linked(cpu), *self.kept, "-o", made.with_suffix(".o"), root="main.rt")
        link_by_cc(ARM64, "-pie", made)

    @staticmethod
    def place_for(made):
        """A file, whose folder is there."""
        made.parent.mkdir(parents=True, exist_ok=True)
        return made


def link(file, copy):
    """Gives a file a second name, or copies it where that can't be had. Libraries have gigabytes, and are only read."""
    try:
        os.link(file, copy)
    except OSError:
        shutil.copy2(file, copy)


class Keeper:
    """Builds crates by `rt`, which keeps what it proved for later checks.

    It locks the folders of a crate and of those below, so each of several has a copy of them in the system's temporary
    folder.
    """

    stamps = ("stamp",)

    def __init__(self, used, at_once):
        self.used, self.at_once = used, at_once

    def rt(self, crate, folder, jobs, command, *words, gives_way=False):
        """Runs a command of `rt` in a crate's folder, or in a copy of that."""
        call(crate, folder, *giving_way(gives_way), "rt", command, "--jobs", str(jobs), *words)

    def library(self, crate, jobs, gives_way):
        """Proves and builds a library for the crates above it."""
        if self.at_once == 1:
            self.rt(crate, folder_of(crate), jobs, "lib")
            return
        out = folder_of(crate) / "out"
        with tempfile.TemporaryDirectory(prefix="lgm-") as name:
            copy = self.copy(crate, Path(name))
            if out.is_dir():
                shutil.move(out, copy / "out")
            try:
                self.rt(crate, copy, jobs, "lib", gives_way=gives_way)
            finally:
                if (copy / "out").is_dir():
                    shutil.move(copy / "out", out)

    def copy(self, crate, top):
        """Copies a crate, and the libraries below it with what was built of them. The copy's folder."""
        names = [*below(self.used, crate), crate]
        lines = (TOP / "crates.txt").read_text().splitlines(keepends=True)
        (top / "crates.txt").write_text("".join(it for it in lines if it.split(":")[0].split()[:1] in [[n] for n in names]))
        shutil.copy2(TOP / "HANDLES", top)
        for it in names:
            for part in SOURCES:
                if (folder_of(it) / part).is_dir():
                    shutil.copytree(folder_of(it) / part, top / "crates" / it / part)
            if it != crate:
                shutil.copytree(rlibs_of(it), top / "crates" / it / "out" / "rlib", copy_function=link)
        return top / "crates" / crate

    def archive(self, crate, jobs, cpu):
        """Proves and builds a library that programs in other languages link with."""
        self.rt(crate, folder_of(crate), jobs, "lib", *words_for(cpu))

    def program(self, jobs, cpu):
        """Proves, builds and runs the program, on an empty script, which writes nothing."""
        self.rt(PROGRAM, folder_of(PROGRAM), jobs, "run", *words_for(cpu), "--", "run", "--chain", NO_CHAIN)


def stamp_of(crate, builder):
    """The file that a library's build writes last, if there is one."""
    return next((file for name in builder.stamps if (file := rlibs_of(crate) / name).exists()), None)


def is_fresh(used, crate, builder):
    """Whether a library was built after the last change of its files and of the libraries below it. Where this is wrong,
    the build of a library above it fails, or builds it again."""
    stamps = [stamp_of(it, builder) for it in (crate, *own(used, crate))]
    if not all(stamps):
        return False
    return all(it.stat().st_mtime <= stamps[0].stat().st_mtime for it in (*files_of(crate), *stamps[1:], TOP / "crates.txt"))


def built_file(target, machine=None):
    """What the build of the program, or of a library for other languages, leaves for this machine or for ARM64."""
    return folder_of(target) / "out" / (machine or "") / (PROGRAM if target == PROGRAM else f"lib{target}.a")


def is_stale(used, target, made, more=()):
    """Whether a file that is made of a crate isn't there, or is older than a file of the crate or of a library that it depends
    on, or than one of some more."""
    if not made.exists():
        return True
    files = (file for it in (*below(used, target), target) for file in files_of(it))
    return any(it.stat().st_mtime > made.stat().st_mtime for it in (TOP / "crates.txt", *more, *files))


def cpu_note(target, machine=None):
    """The file that says for which processor a library for other languages was built here."""
    return built_file(target, machine).with_suffix(".cpu")


def is_built_for(used, target, cpu, machine=None):
    """Whether a library for other languages is as this script built it for a kind of processor, and no source is newer."""
    note, made = cpu_note(target, machine), built_file(target, machine)
    return not is_stale(used, target, made) and note.exists() and note.read_text() == cpu \
        and note.stat().st_mtime >= made.stat().st_mtime


def stale_of(used, crates, builder):
    """Those of some libraries, lowest first, that aren't fresh, and those above them."""
    stale = []
    for it in crates:
        if any(lower in stale for lower in own(used, it)) or not is_fresh(used, it, builder):
            stale.append(it)
    return stale


def seconds_for(crate):
    """How long a library's proof is likely to take: what it once took, or else by the size of its files."""
    return SECONDS.get(crate) or sum(file.stat().st_size for file in files_of(crate)) / BYTES_A_SECOND


def seconds_behind(used, crates):
    """How long a library and those that wait for it are likely to take, one behind the other."""
    behind = {it: 0 for it in crates}
    for it in reversed(crates):
        behind[it] = seconds_for(it) + max((behind[above] for above in crates if it in used[above]), default=0)
    return behind


def urgent(used, crates, behind):
    """The libraries that are part of a chain nearly as long as the longest one: others wait for them."""
    before = {}
    for it in crates:
        before[it] = max((before[lower] + seconds_for(lower) for lower in used[it] if lower in before), default=0)
    most = max(behind.values(), default=0)
    return {it for it in crates if before[it] + behind[it] > NEARLY * most}


def next_of(ready, running, first, at_once):
    """Which of the libraries that are ready begin: as many urgent ones as may run, and beside them one that gives way."""
    count = sum(it in first for it in running)
    return [*[it for it in ready if it in first][:at_once - count],
            *[it for it in ready if it not in first][:1 - (len(running) - count)]]


def build_all(used, crates, at_once, builder):
    """Proves and builds libraries, each behind those below it, and first those for which others wait the longest."""
    behind = seconds_behind(used, crates)
    first = set(crates) if at_once == 1 else urgent(used, crates, behind)
    left, done, running, started = sorted(crates, key=lambda it: -behind[it]), set(), {}, {}
    with ThreadPoolExecutor(at_once + 1) as pool:
        while left or running:
            ready = [it for it in left if all(lower in done for lower in used[it] if lower in crates)]
            begins = next_of(ready, running.values(), first, at_once)
            # Those that give way leave the others all processors.
            sharing = sum(it in first for it in (*running.values(), *begins))
            for it in begins:
                left.remove(it)
                started[it] = time.monotonic()
                say(f"{it} ..")
                jobs = jobs_of_one(at_once, max(1, sharing) if it in first else processors())
                running[pool.submit(builder.library, it, jobs, it not in first)] = it
            for ended in wait(running, return_when=FIRST_COMPLETED).done:
                it = running.pop(ended)
                try:
                    ended.result()
                except Failed:
                    left.clear()
                    raise
                done.add(it)
                say(f"{it}: {time.monotonic() - started[it]:.0f} s, {len(done)} of {len(crates) + 1}")


def build_target(target, count, cpu, builder, machine=None):
    """Proves and builds what was asked for, over its libraries."""
    started, clock = time.time(), time.monotonic()
    kinds = [machine] * bool(machine) + [f"{cpu} processors"] * (cpu != ANY_CPU)
    say(f"{target}, for {', '.join(kinds)} .." if kinds else f"{target} ..")
    jobs = jobs_of_one(1, 1)
    made = [built_file(target, machine), built_file(target, machine).with_suffix(".o")]
    if target == PROGRAM:
        builder.program(jobs, cpu)
    else:
        builder.archive(target, jobs, cpu)
        made.append(cpu_note(target, machine))
        made[-1].write_text(cpu)
    for file in filter(Path.exists, made):
        # As old as the start: a file that was edited meanwhile is newer.
        os.utime(file, (started, started))
    say(f"{target}: {time.monotonic() - clock:.0f} s, {count} of {count}")


def arguments_of(used):
    """The words of the command line."""
    parser = argparse.ArgumentParser(description=__doc__.split("\n")[0])
    parser.add_argument("--at-once", type=int, default=default_at_once(), metavar="N",
                        help="so many checks side by side, and from two on one more that gives way")
    parser.add_argument("--cpu", metavar="NAME", help=f"the processor to build for: {NEWER_CPU}, or {ANY_CPU}, for any")
    parser.add_argument("--for", choices=(ARM64,), dest="machine", help="build it for ARM64 machines")
    parser.add_argument("--library", choices=sorted(used), metavar="CRATE", help="build this library, not the program")
    parser.add_argument("--keep", action="store_true", help="keep the proofs, for checks of what will be changed")
    parser.add_argument("--is-stale", action="store_true", help="build nothing, and end with 0 if the program is older than a source")
    arguments = parser.parse_args()
    if arguments.machine:
        arguments.cpu = arguments.cpu or ANY_CPU
    else:
        arguments.cpu = arguments.cpu or os.environ.get("LGM_CPU") or (ANY_CPU if arguments.library else own_cpu())
    return arguments


def main():
    """Builds what isn't fresh. The exit status is 1 if that fails."""
    used = read_crates(TOP / "crates.txt")
    arguments = arguments_of(used)
    if arguments.is_stale:
        sys.exit(0 if is_stale(used, PROGRAM, built_file(PROGRAM)) else 1)
    target, machine = arguments.library or PROGRAM, arguments.machine
    if missing := machine and missing_for_arm64():
        sys.exit(f"lgm: {missing}")
    crates, at_once = below(used, target), max(1, arguments.at_once)
    keeps = arguments.keep or any((folder_of(it) / "out" / "incremental").is_dir() for it in (*crates, target))
    builder = Keeper(used, at_once) if keeps else Builder(used)
    stale = stale_of(used, crates, builder)
    if arguments.library and not stale and is_built_for(used, target, arguments.cpu, machine):
        say(f"{target} is built already")
        return
    say(f"proving and building {len(stale) + 1} of {len(crates) + 1} crates, {min(at_once, len(stale) + 1)} at once; "
        f"all of them take {TIMES.get(target, 'some time')} on four processors")
    begun = time.monotonic()
    try:
        build_all(used, stale, at_once, builder)
        build_target(target, len(stale) + 1, arguments.cpu, Crosser(used, keeps) if machine else builder, machine)
    except Failed as failed:
        crate, said, _status = failed.args
        sys.stderr.write(said)
        say(f"{crate} couldn't be built")
        sys.exit(1)
    except KeyboardInterrupt:
        say("interrupted; what was proved is kept")
        sys.exit(130)
    say(f"built in {time.monotonic() - begun:.0f} s")


if __name__ == "__main__":
    main()
