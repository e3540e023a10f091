#!/usr/bin/env python3
"""Tests why.py: what it says of lines, and that it finds just those that `lgm` answers `bad`.

    python3 examples/tools/test_why.py [PROGRAM]
"""

import subprocess
import sys
from pathlib import Path

sys.dont_write_bytecode = True  # the repository gets no made files

from why import findings, reason

TOP = Path(__file__).resolve().parents[2]
PROGRAM = sys.argv[1] if len(sys.argv) > 1 else TOP / "lgm"
POINT = "02" + "0a" * 32
OTHER = "02" + "0b" * 32
SECRET = "11" * 32

# A line, and the start of the reason for it; empty if the line has no fault.
TABLE = (
    ("", ""),
    ("# a comment with\ttabs", ""),
    ("commit", ""),
    ("q 0105", ""),
    ("q 0105AB", ""),
    ("close 800000x12x0", ""),
    ("filter 999 0109", ""),
    (f"m 0100 {POINT} -", ""),
    (f"route {POINT} {OTHER} 1000 700000 {SECRET}", ""),
    ("commit\r", "ends in a carriage return"),
    ("\r", "ends in a carriage return"),
    ("\ufeffcommit", "begins with a byte order mark"),
    ("commit ", "begins or ends with a space"),
    (" commit", "begins or ends with a space"),
    ("q  0105", "has two spaces"),
    ("q\t0105", "has a tab"),
    ("Commit", "'Commit' is none of m, close"),
    ("commit 1", "'1' comes after the last field"),
    ("m", "HEX is missing"),
    ("q 0x0105", "HEX begins with 0x"),
    ("q 010", "HEX has an odd number of digits, 3"),
    ("q 01g5", "HEX character 3 is 'g'"),
    ("m 0100 all", "FUNDING is missing"),
    ("m 0100 100000", "SIG '100000' is none of all"),
    ("m 0100 ALL 100000", "SIG 'ALL' is none of all"),
    ("m 0100 all 250sat", "FUNDING is none of spent, wrong, - and a number of satoshi ('250sat'"),
    ("m 0100 all 0250", "FUNDING is none of spent, wrong, - and a number of satoshi ('0250' has a leading zero"),
    ("m 0100 all 1_000", "FUNDING is none of"),
    ("m 0100 all +1", "FUNDING is none of"),
    (f"m 0100 all {2**64}", "FUNDING is none of"),
    ("m 0100 all 100000 x", "'x' comes after the last field"),
    ("close 800000:12:0", "SCID '800000:12:0' isn't of the form BLOCKxINDEXxOUTPUT, which is 800000x12x0"),
    ("close 800000:12:65536", "SCID '800000:12:65536' isn't of the form BLOCKxINDEXxOUTPUT, such as 800000x12x0"),
    ("close 879609302221586432",
     "SCID '879609302221586432' isn't of the form BLOCKxINDEXxOUTPUT, which is 800000x12x0"),
    (f"close {2**64 - 1}",
     f"SCID '{2**64 - 1}' isn't of the form BLOCKxINDEXxOUTPUT, which is 16777215x16777215x65535"),
    (f"close {2**64}", f"SCID '{2**64}' isn't of the form BLOCKxINDEXxOUTPUT, such as 800000x12x0"),
    ("close 800000", "SCID '800000' isn't of the form BLOCKxINDEXxOUTPUT, such as 800000x12x0"),
    ("close 800000x12x65536", "SCID output: '65536' is 65536 or more"),
    ("close 16777216x1x0", "SCID block: '16777216' is 16777216 or more"),
    ("close 1x01x0", "SCID index: '01' has a leading zero"),
    ("filter 1000 0109", "PEER '1000' is 1000 or more"),
    ("filter alice 0109", "PEER 'alice' isn't a decimal number"),
    (f"route {POINT[2:]} {OTHER} 1000 700000 {SECRET}", "PAYER has 64 digits instead of 66"),
    (f"route {POINT} {OTHER} 1000.5 700000 {SECRET}", "MSAT '1000.5' isn't a decimal number of millisatoshi"),
    (f"route {POINT} {OTHER} {2**64} 700000 {SECRET}", "MSAT"),
    (f"route {POINT} {OTHER} {'9' * 5000} 700000 {SECRET}", "MSAT"),
    (f"route {POINT} {OTHER} 1000 {2**32} {SECRET}", "EXPIRY"),
    (f"route {POINT} {OTHER} 1000 700000", "SECRET is missing"),
    (f"route {POINT} {OTHER} 1000 700000 {SECRET[2:]}", "SECRET has 62 digits instead of 64"),
)
BYTES = (
    (b"commit\xff", "isn't UTF-8, at byte 7"),
    (b"\xff\xfec\0o\0m\0", "begins with a byte order mark of UTF-16"),
    (b"#\xff", ""),
)


def bad_lines(script):
    """The numbers of the lines that `lgm` answers `bad`."""
    words = [PROGRAM, "run", "--chain", "c1" * 32]
    told = subprocess.run(words, input=script, capture_output=True, check=True).stdout.splitlines()
    return [int(line.split()[0]) for line in told if line.split()[1:] == [b"bad"]]


def main():
    """Looks at each line by itself, at all of them beside the program, and at limits."""
    table = [(line.encode(), wanted) for line, wanted in TABLE] + list(BYTES)
    for line, wanted in table:
        said = reason(line)
        assert said.startswith(wanted) and bool(said) == bool(wanted), (line, said)
    script = b"".join(line + b"\n" for line, _ in table)
    wanted = [count for count, (_, why) in enumerate(table, 1) if why]
    assert [count for count, _ in findings(script.splitlines(keepends=True))] == wanted
    assert bad_lines(script) == wanted, bad_lines(script)

    long = [b"commit\n", b"#" * 140_000 + b"\n", b"#" * 140_001, b"x\n"]
    assert [count for count, _ in findings(long)] == [3]
    print(f"{len(table) + 1} passed")


if __name__ == "__main__":
    main()
