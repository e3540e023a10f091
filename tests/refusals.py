#!/usr/bin/env python3
"""Runs scripts with one call of the program refused, and checks how each run ends.

    python3 tests/refusals.py [PROGRAM]

Each request for memory, each start of a thread, each read and each write is refused in turn, for `lgm run` and `lgm
live` with one and with three workers: over the program's stored script (two channels, their terms, a commit and a
payment), a script of closes, queries and filters, one with a payment for each of two workers, and the examples. A run
answers the whole script, or ends with status 1, the line of that fault on standard error, and a beginning of the text
on standard output. A payment of `lgm live` has the answer of `lgm run` on the map of the version that it names. A run
that takes ten seconds hangs, as when workers wait for a writer that failed; no further call of its kind is refused
then. Of each kind of call that a run makes at least one has to be refused. It needs the GNU C library and a C compiler
(`cc`). Without one it is left out, with status 77, or fails where LGM_NEEDS_CC is set. PROGRAM is crates/lgm/out/lgm if
left out.
"""

import os
import subprocess
import sys
import tempfile
from pathlib import Path

sys.dont_write_bytecode = True  # the repository gets no made files

import shim  # noqa: E402

HERE = Path(__file__).resolve().parent
PROGRAM = sys.argv[1] if len(sys.argv) > 1 else HERE.parent / "crates/lgm/out/lgm"
SCRIPTS = (HERE.parent / "crates/lgm/stdin", *sorted((HERE / "scripts").glob("*.txt")),
           *sorted((HERE.parent / "examples").glob("*.txt")))
WORKERS = (1, 3)
# Each run takes a few milliseconds.
SECONDS = 10
# The lines that a run may end with where a call of this kind is refused. Where none is named, the text is whole.
FAULTS = {
    "memory": (b"lgm: out of memory\n",),
    "thread": (),
    "read": (b"lgm: read failed\n",),
    "write": (b"lgm: write failed\n",),
}


def run(mode, script, workers, more):
    """A finished run over the bytes of a script, with these variables in its environment."""
    words = [PROGRAM, mode, "--chain", "c1" * 32, "--workers", str(workers)]
    return subprocess.run(words, input=script, capture_output=True, timeout=SECONDS, env={**os.environ, **more})


def by_line(text):
    """The text of each line of a script, by its number."""
    texts = {}
    for line in text.splitlines(keepends=True):
        number = int(line.split()[0])
        texts[number] = texts.get(number, b"") + line
    return texts


def answered_at(script, accepted, number, version):
    """What `lgm live` answers to the payment of a line on the map of the first items, as many as the version says: what
    `lgm run` answers to it there. Of `accepted` each is the number of a line whose item is accepted."""
    lines = script.splitlines(keepends=True)
    items = lines[: accepted[version - 1]] if version else []
    items = [line for line in items if line.split()[:1] in ([b"m"], [b"close"])]
    text = run("run", b"".join([*items, b"commit\n", lines[number - 1]]), 1, {}).stdout
    answer = by_line(text)[len(items) + 2]
    mark = b"%d " % number
    return mark + b"at %d same\n" % version + b"".join(
        mark + line.split(b" ", 1)[1] for line in answer.splitlines(keepends=True))


def answers(mode, script):
    """What a run may write: for each line in turn, one of these texts. A payment beside a writer is answered on the map of
    a batch's end, or on the empty one, but on none that is older than the last commit above it."""
    whole = by_line(run(mode, script, 1, {}).stdout)
    if mode == "run":
        return [[text] for text in whole.values()]
    accepted = [number for number, text in whole.items() if text.split() == [b"%d" % number, b"accepted"]]
    commits = {number: int(text.split()[2]) for number, text in whole.items() if text.split()[1] == b"commit"}
    versions = sorted({0, len(accepted), *commits.values()})
    every = []
    for number, text in whole.items():
        least = max((commits[at] for at in commits if at < number), default=0)
        is_payment = text.split()[1] == b"at"
        every.append([answered_at(script, accepted, number, version) for version in versions if least <= version]
                     if is_payment else [text])
    return every


def follows(text, every):
    """Whether a text is what a run may write, and whether it is whole, or else a beginning."""
    for texts in every:
        found = next((it for it in texts if text.startswith(it)), None)
        if found is None:
            return any(it.startswith(text) for it in texts), False
        text = text[len(found):]
    return not text, True


def objection(kind, every, ended):
    """What is wrong with how a run ended, if anything is."""
    is_right, is_whole = follows(ended.stdout, every)
    if ended.returncode == 0:
        if kind in ("read", "write"):
            return "the run ended well"
        return "" if is_right and is_whole else "the text isn't whole"
    if ended.returncode != 1 or ended.stderr not in FAULTS[kind]:
        return f"status {ended.returncode}, {ended.stderr!r}"
    return "" if is_right else "the text isn't a beginning"


def has_calls(mode, workers, kind):
    """Whether a run makes calls of a kind: all do, but one worker alone starts no thread."""
    return kind != "thread" or mode == "live" or workers > 1


def refuse_each(built, folder, mode, script, workers, kind, every):
    """Refuses each call of a kind in turn. Returns how many there were, and what was wrong."""
    text = script.read_bytes()
    mark = folder / "refused"
    call, wrong = 0, []
    while True:
        call += 1
        mark.unlink(missing_ok=True)
        where = f"{mode} {script.name}, {workers} workers, {kind} {call}"
        try:
            ended = run(mode, text, workers, shim.settings(built, kind, call, mark))
        except subprocess.TimeoutExpired:
            return call, [*wrong, f"{where}: the run hangs"]
        if not mark.exists():
            if call == 1 and has_calls(mode, workers, kind):
                wrong.append(f"{where}: nothing was refused")
            return call - 1, wrong
        found = objection(kind, every, ended)
        if found:
            wrong.append(f"{where}: {found}")


def main():
    shim.compiler_or_end("tests/refusals.py")
    good = True
    with tempfile.TemporaryDirectory() as name:
        folder = Path(name)
        built = shim.built(folder)
        for script in SCRIPTS:
            for mode in ("run", "live"):
                every = answers(mode, script.read_bytes())
                for workers in WORKERS:
                    counts = []
                    for kind in FAULTS:
                        count, wrong = refuse_each(built, folder, mode, script, workers, kind, every)
                        counts.append(f"{count} {kind}")
                        good = good and not wrong
                        print(*wrong, sep="\n", end="\n" if wrong else "")
                    print(f"{mode} {script.name}, {workers} workers: refused {', '.join(counts)}")
    sys.exit(0 if good else 1)


main()
