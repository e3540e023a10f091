#!/usr/bin/env python3
"""Runs the scripts of tests/scripts, and compares what `lgm` writes with the answers that stand there.

    python3 tests/texts.py [PROGRAM] [--only WORD] [--update NAME]

A file `NAME.test` is about one subject. It begins with what that is, and then has cases:

    Fees: what each node asks for.

    == the second channel's fee counts, and not the first one's
    open 1x0x0 P0 P1 base=7
    open 2x0x0 P1 P2 base=200
    commit
        commit 4
    route P0 P2 1000 700000 S
        route 1200 700040 2
        hop 1x0x0 [13 020203e8 04030aae60 0608 0000020000000000]
        hop 2x0x0 [2d 020203e8 04030aae60 0822 S 03e8]

Behind `==` stands what the case shows. A line at the left edge is a line of the script. The lines below it, indented by
four spaces, are its answer, without the number that `lgm` begins them with; if there are none, the line has no answer.
Both are in the notation of gossip/notation.py. These lines of the script are written otherwise:

- `"m \\xff all 1 "`: exactly these bytes, as Python writes them, where no name stands for others. `""` is an empty line.
- `open 1x0x0 P0 P1 base=200 delta=10`: two lines, which are both accepted: the announcement of a channel of 100,000
  satoshi between the two nodes, and an update by the first one of its direction, at timestamp 1, with these terms.
- `each 0..3999 LINE`: the line once for each of these numbers, which stands in its place `{}`, as `{:06x}` in hexadecimal
  digits, and as `{+1}` with one more; so in its answers. The lines `and LINE` right behind it come with it for each number.
- `times 10000000 LINE`: the same line so often.

Empty lines of the file and those that begin with `//` mean nothing. (`# ..` is a line of the script, a comment there.)

Each script is run by `lgm run` on the chain `H` by 1, 3 and 64 workers, by 3 of them through a pipe in pieces of 7 bytes if
it has less than 20,000 of them. The status has to be 0 and standard error empty. Lines right behind `==` ask for others:

- `- command live`: by `lgm live`.
- `- chain X`, `- chain X, M`: on other chains, by their names or in digits.
- `- known 00`: with these feature bits known; `- known all, 01`: in one run all of them, and in another one these.
- `- workers 2`, `- workers 1, 2`: by so many workers.
- `- words run --chain zz`: by this whole command line, in the notation, or with quoted words; of several lines by each.
- `- status 1`: with this status.
- `- error lgm: line too long`: with this line on standard error; `- error begins TEXT` and `- error ends TEXT` if it isn't
  the whole of it.
- `- no end`: without a line feed behind the last line.

Where a run differs, a report says the file, its line, and both texts. `--only` runs the cases that have a word in the name
of their file or in their sentence. `--update NAME` compares nothing, but writes the answers of the program into that file,
for whoever then reads each change: the answers of lines that are there once; statuses, errors and the answers of repeated
lines stay as they are. PROGRAM is ./lgm if left out.
"""

import argparse
import os
import subprocess
import sys
import threading
from collections import Counter
from concurrent.futures import ThreadPoolExecutor
from pathlib import Path

from cases import Fault, cases_of, updated

HERE = Path(__file__).resolve().parent
SCRIPTS = HERE / "scripts"
PIECE, SHORT = 7, 20_000  # bytes
SECONDS = 60
SHOWN = 200  # characters


def ended(program, run, script):
    """The ended run of a script."""
    words = [program, *run.words]
    if not (run.is_in_pieces and len(script) < SHORT):
        return subprocess.run(words, input=script, capture_output=True, timeout=SECONDS, check=False)
    with subprocess.Popen(words, stdin=subprocess.PIPE, stdout=subprocess.PIPE, stderr=subprocess.PIPE) as process:
        try:
            for place in range(0, len(script), PIECE):  # a pipe holds more than they are together, so that none waits
                os.write(process.stdin.fileno(), script[place:place + PIECE])
        except BrokenPipeError:
            pass
        try:
            output, error = process.communicate(timeout=SECONDS)
        except subprocess.TimeoutExpired:
            process.kill()
            raise
    return subprocess.CompletedProcess(words, process.returncode, output, error)


def shown(text, place):
    """What is shown of a text that differs at a place."""
    start = max(0, place - SHOWN // 2)
    part = text[start:start + SHOWN].decode(errors="backslashreplace").rstrip("\n")
    return (".." if start else "") + part + (".." if start + SHOWN < len(text) else "")


def first_difference(wanted, found):
    """The first place where two texts differ."""
    return next((place for place, (one, other) in enumerate(zip(wanted, found)) if one != other),
                min(len(wanted), len(found)))


def output_fault(case, script, output):
    """Where an output differs from the answers, and both there; empty if it doesn't."""
    if output == script.output():
        return ""
    lines = output.splitlines(keepends=True)
    for count, (number, wanted) in enumerate(script.answers):
        found = lines[count] if count < len(lines) else b"nothing"
        if found != wanted:
            break
    else:
        number = script.answers[-1][0] if script.answers else case.number
        wanted, found = b"nothing", lines[len(script.answers)]
    place = first_difference(wanted, found)
    return f"{number}: expected\n    {shown(wanted, place)}\nand found\n    {shown(found, place)}"


def faults_of(program, case, script, run):
    """What is wrong with a run of a case, each behind the number of a line of the file."""
    status = int(case.value("status", "0"))
    try:
        end = ended(program, run, bytes(script.text))
    except subprocess.TimeoutExpired:
        yield f"{case.number}: it takes more than {SECONDS} s"
        return
    if end.returncode != status:
        yield f"{case.place('status')}: status {end.returncode}, not {status}"
    if why := case.error_fault(end.stderr):
        yield f"{case.place('error')}: {why}\nbut\n    {shown(end.stderr, 0)}"
    if why := output_fault(case, script, end.stdout):
        yield why


def check(program, case):
    """Runs a case, and returns what is wrong with it."""
    wrong = {}
    try:
        script = case.script()
        for run in case.runs():
            for why in faults_of(program, case, script, run):
                wrong.setdefault(why, []).append(run.name)
    except Fault as fault:
        return [str(fault)]
    return [f"{case.path.name}:{why}\nin \"{case.sentence}\" by {', '.join(names)}" for why, names in wrong.items()]


def update(program, path):
    """Writes the answers of the program into a file."""
    lines, cases = path.read_text(encoding="utf-8").split("\n"), cases_of(path)
    dropped, answers = set(), {}
    for case in cases:
        end = ended(program, case.runs()[0], bytes(case.script().text))
        found = updated(case, end.stdout)
        answers.update(found)
        dropped.update(number for group in case.groups for line in group.lines if line.number in found
                       for number, _ in line.answers)
    text = []
    for number, line in enumerate(lines, 1):
        if number not in dropped:
            text += [line, *(f"    {answer}" for answer in answers.get(number, ()))]
    path.write_text("\n".join(text), encoding="utf-8")


def chosen(word):
    """The cases that have a word, and what is wrong in the files."""
    cases, wrong = [], []
    paths = sorted(SCRIPTS.glob("*.test"))
    for path in paths:
        try:
            cases += cases_of(path)
        except Fault as fault:
            wrong.append(str(fault))
    cases = [case for case in cases if word in case.path.stem or word in case.sentence]
    if not cases and not wrong:
        wrong.append(f"no case of {SCRIPTS} has {word or 'anything'}")
    return cases, wrong


def main():
    """Takes the arguments, and runs the cases side by side."""
    parser = argparse.ArgumentParser(description=__doc__, formatter_class=argparse.RawDescriptionHelpFormatter)
    parser.add_argument("program", nargs="?", default=str(HERE.parent / "lgm"))
    parser.add_argument("--only", default="", metavar="WORD", help="run the cases that have it")
    parser.add_argument("--update", metavar="NAME", help="write the answers of the program into this file")
    given = parser.parse_args()
    program = str(Path(given.program).resolve())
    if given.update:
        try:
            update(program, SCRIPTS / f"{given.update.removesuffix('.test')}.test")
        except Fault as fault:
            sys.exit(str(fault))
        return
    cases, wrong = chosen(given.only)
    print(*wrong, sep="\n", end="\n" if wrong else "")
    failed, lock, counts = len(wrong), threading.Lock(), Counter(case.path.name for case in cases)

    def run(case):
        found = check(program, case)
        with lock:
            print(*found, sep="\n", end="\n" if found else "", flush=True)
        return bool(found)

    with ThreadPoolExecutor(len(os.sched_getaffinity(0))) as pool:
        results = list(pool.map(run, cases))
    failed += results.count(True)
    print(", ".join(f"{name} {count}" for name, count in counts.items()))
    print(f"{results.count(False)} passed, {failed} failed")
    sys.exit(1 if failed else 0)


if __name__ == "__main__":
    main()
