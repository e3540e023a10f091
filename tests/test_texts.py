#!/usr/bin/env python3
"""Tests cases.py and texts.py: what files stand for, what is wrong in others, and what is said of a program that answers
otherwise.

    python3 tests/test_texts.py
"""

import subprocess
import sys
import tempfile
from pathlib import Path

sys.dont_write_bytecode = True  # the repository gets no made files

import texts
from cases import Fault, cases_of

CHAIN, OTHER = "c1" * 32, "d1" * 32
# Answers each line with itself, but for empty ones, comments and those that say what to do else.
PROGRAM = f"""#!{sys.executable}
import sys
for number, line in enumerate(sys.stdin.buffer.read().split(b"\\n"), 1):
    if line.startswith(b"status"):
        print("lgm: a fault", file=sys.stderr)
        sys.exit(int(line.split()[1]))
    if line and not line.startswith(b"#"):
        sys.stdout.buffer.write(b"%d %b\\n" % (number, line))
"""
FORMS = r"""Forms of lines.
A second line of what the file is about.

== all of them
- no end
// nothing
route A P1 1 1 S
    route 1 1 1

    hop 1x0x0 [00 S]
# a note
"\x20m \xff\r"
    bad
""
open 1x0x0 P1 P2 base=7 delta=9
each 3..4 close {}x0x{+1}
    accepted {:02x}
and commit
    commit {-1}
times 2 q 00
    malformed
times 3 ""
q []

== none of them
"""
A, P1, P2, KEY = "02" + "0a" * 32, "02" + "00" * 31 + "01", "02" + "00" * 31 + "02", "02" + "ee" * 32
SCID = "0000010000000000"
OPENED = (f"m 0100{'00' * 256}0000{CHAIN}{SCID}{P1}{P2}{KEY}{KEY} all 100000\n"
          f"m 0102{'00' * 64}{CHAIN}{SCID}00000001" "0100" "0009" "0000000000000001" "00000007" "00000000"
          f"0000000002faf080 {P1} -\n").encode()
SCRIPT = (f"route {A} {P1} 1 1 {'11' * 32}\n# a note\n".encode() + b" m \xff\r\n\n" + OPENED
          + b"close 3x0x4\ncommit\nclose 4x0x5\ncommit\nq 00\nq 00\n\n\n\nq ")
OUTPUT = (f"1 route 1 1 1\n1 hop 1x0x0 00{'11' * 32}\n" "3 bad\n5 accepted\n6 accepted\n7 accepted 03\n8 commit 2\n"
          "9 accepted 04\n10 commit 3\n11 malformed\n12 malformed\n").encode()
OPTIONS = """Options.

== by each
- command live
- chain X, H
- known all, 00
- workers 1, 2
commit

== words
- words
- words run "" "\\xff" [00 H] X
- error begins a
- status 2
"""
# What is wrong with a case of these lines, behind the name of the file and the number of the line.
WRONG = (
    ("commit\n    commit 0\n- no end", "5: an option behind"), ("- no ends", "3: the option no can't be ends"),
    ("- nothing 1", "3: there is no option nothing"), ("- status 1\n- status 2", "4: the option status is there twice"),
    ("- status", "3: the option status can't be empty"), ("- error", "3: the option error can't be empty"),
    ("- known 00,01", "3: the option known can't be"), ("- workers 0", "3: the option workers can't be"),
    ("- chain c1", "3: the option chain can't be"), ("- command walk", "3: the option command can't be"),
    ("- words run\n- known 00", "3: the words are given, and so is known"), ('- words "\\x"', "3: "),
    ("    accepted", "3: an answer behind no line"), ("open 1x0x0 A B\n    accepted", "4: open has its answers"),
    ("commit\n   commit 0", "4: neither at the left edge"), ("commit\n     commit 0", "4: neither at the left edge"),
    ("commit ", "3: a space at the end"), ("and commit", "3: nothing is repeated"),
    ("times 2 q\nand q", "4: nothing is repeated"), ("each 3 q", "3: 3 is no range"), ("each 3..2 q", "3: 3..2 is no range"),
    ("times x q", "3: "),
)
# And what is wrong only when its script is put together.
WRONG_SCRIPTS = (
    ("commit\nm ca(1x0x0,A) all 1", "4: ca(1x0x0,A): "), ('"\\xfg"', '3: "\\xfg"'), ('"a" b', "3: "),
    ("times 2 open 1x0x0 A B", "3: two lines aren't the same"), ("q 00\n    [0106 H", "3: [0106 H: "),
)


def written(folder, text):
    """A file of cases."""
    path = Path(folder) / "a.test"
    path.write_text(text)
    return path


def fault_of(call, *arguments):
    """What a call says is wrong."""
    try:
        call(*arguments)
    except Fault as fault:
        return str(fault)
    return "nothing"


def forms(folder):
    """Each form of lines, and an empty script."""
    first, second = cases_of(written(folder, FORMS))
    script = first.script()
    assert bytes(script.text) == SCRIPT, (bytes(script.text), SCRIPT)
    assert script.output() == OUTPUT, (script.output(), OUTPUT)
    assert first.sentence == "all of them" and [place for place, _ in script.answers[:3]] == [8, 10, 13]
    assert not second.script().text and not second.script().output()


def command_lines(folder):
    """The runs that options ask for."""
    first, second = cases_of(written(folder, OPTIONS))
    runs = first.runs()
    assert len(runs) == 8 and runs[0].words == ["live", "--chain", OTHER, "--workers", "1"]
    assert runs[7].words == ["live", "--chain", CHAIN, "--workers", "2", "--known", "00"]
    assert runs[7].name == "--workers 2 --chain H --known 00"
    assert [run.words for run in second.runs()] == [[], [b"run", b"", b"\xff", f"00{CHAIN}".encode(), OTHER.encode()]]
    assert not second.error_fault(b"abc") and second.error_fault(b"ba") and second.value("status", "0") == "2"


def wrong_files(folder):
    """No case is skipped: what is no case, no option, no line and no answer is said with its place."""
    assert fault_of(cases_of, written(folder, "A subject.\n")) == "a.test: there is no case"
    for text in ("== a\ncommit\n", "\n== a\ncommit\n"):
        assert fault_of(cases_of, written(folder, text)) == "a.test:1: the file doesn't say what it is about"
    for lines, why in WRONG:
        found = fault_of(cases_of, written(folder, f"A subject.\n== a\n{lines}\n"))
        assert found.startswith(f"a.test:{why}"), (lines, found)
    for lines, why in WRONG_SCRIPTS:
        case, = cases_of(written(folder, f"A subject.\n== a\n{lines}\n"))
        assert fault_of(case.script).startswith(f"a.test:{why}"), (lines, fault_of(case.script))


def objections(folder, lines):
    """What is said of the program by a case of these lines."""
    case, = cases_of(written(folder, f"A subject.\n== a case\n{lines}\n"))
    return texts.check(str(Path(folder) / "lgm"), case)


def differences(folder):
    """What is said where the program answers otherwise: a line, one too few or too many, a status, standard error."""
    assert objections(folder, "a\n    a\n# b\n\"\\xffc\"") != []
    for lines in ("a\n    a\n# b", "", "- status 3\n- error lgm: a fault\na\n    a\nstatus 3", "- no end\nab\n    ab"):
        assert not objections(folder, lines), lines
    by = "in \"a case\" by --workers 1, --workers 3, --workers 64"
    assert objections(folder, "a\n    a\nb\n    c") == [f"a.test:6: expected\n    2 c\nand found\n    2 b\n{by}"]
    assert objections(folder, "a\n    a\n    b") == [f"a.test:5: expected\n    1 b\nand found\n    nothing\n{by}"]
    assert objections(folder, "a\n    a\nb") == [f"a.test:4: expected\n    nothing\nand found\n    2 b\n{by}"]
    assert objections(folder, "b") == [f"a.test:2: expected\n    nothing\nand found\n    1 b\n{by}"]
    assert objections(folder, "- workers 2\nstatus 3") == [
        "a.test:2: status 3, not 0\nin \"a case\" by --workers 2",
        "a.test:2: standard error isn't empty\nbut\n    lgm: a fault\nin \"a case\" by --workers 2"]
    assert objections(folder, "- workers 2\n- status 3\n- error lgm: another\nstatus 3") == [
        "a.test:5: standard error isn't this: lgm: another\nbut\n    lgm: a fault\nin \"a case\" by --workers 2"]
    far = "0" * 500
    assert f"expected\n    ..{'0' * 100}1\nand found\n    ..{'0' * 100}\n" in objections(folder, f"{far}\n    {far}1")[0]


def answers_are_written(folder):
    """The answers of the program take the place of others, and right ones stay as they are written."""
    front, end = "A subject.\n== a case\n\nroute S\n    route S\nm ca(1x0x0,A,B) all\n", "\n// d\ntimes 2 e\n    f\n"
    path = written(folder, f"{front}b\n    c\n{end}")
    texts.update(str(Path(folder) / "lgm"), path)
    assert path.read_text() == f"{front}    m ca(1x0x0,A,B) all\nb\n    b\n{end}", path.read_text()


def no_case_at_all(folder):
    """A word that no case has is a failure."""
    words = [sys.executable, "-B", texts.__file__, str(Path(folder) / "lgm"), "--only", "a word that no case has"]
    ended = subprocess.run(words, capture_output=True, text=True, check=False)
    assert ended.returncode == 1 and ended.stdout.endswith("\n0 passed, 1 failed\n"), ended


def main():
    """Runs each test."""
    tests = (forms, command_lines, wrong_files, differences, answers_are_written, no_case_at_all)
    with tempfile.TemporaryDirectory() as folder:
        program = Path(folder) / "lgm"
        program.write_text(PROGRAM)
        program.chmod(0o755)
        for test in tests:
            test(folder)
    print(f"{len(tests)} passed")


if __name__ == "__main__":
    main()
