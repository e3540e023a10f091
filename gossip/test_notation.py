#!/usr/bin/env python3
"""Tests notation.py on messages that are laid out here, field by field, as BOLT 7 has them.

    python3 gossip/test_notation.py
"""

import sys
from pathlib import Path

sys.dont_write_bytecode = True  # the repository gets no made files
sys.path.insert(0, str(Path(__file__).resolve().parent.parent))

from gossip.notation import numbered, span, spelled

CHAIN, OTHER, MAINNET = "c1" * 32, "d1" * 32, "6fe28c0ab6f1b372c1a6a246ae63f74f931e8365e15a089c68d6190000000000"
A, B, C, KEY = "02" + "0a" * 32, "02" + "0b" * 32, "02" + "0c" * 32, "02" + "ee" * 32
SIGNATURE = "00" * 64
SCID = "0c3500" "00000c" "0003"  # block 800,000, index 12, output 3
# The type, four signatures, the length of features, chain, id, two nodes, two bitcoin keys
ANNOUNCEMENT = "0100" + 4 * SIGNATURE + "0000" + CHAIN + SCID + A + B + KEY + KEY
# The type, the signature, the length of features, timestamp, node, color, alias, the length of addresses
NODE = "0101" + SIGNATURE + "0000" + "65539a00" + B + "000000" + "00" * 32 + "0000"
# The type, the signature, the chain, id, timestamp, message_flags, channel_flags, delta, minimum, base fee, millionths,
# maximum
UPDATE = ("0102" + SIGNATURE + CHAIN + SCID + "65539a00" + "01" + "03" + "0028" + "0000000000000001" + "00000000"
          + "00000000" + "0000000002faf080")


def fault_of(line):
    """Why a line can't be spelled out; empty if it can."""
    try:
        spelled(line)
    except ValueError as fault:
        return str(fault)
    return ""


def points_and_names():
    """Nodes, keys, chains and the secret."""
    assert spelled("A B C K U") == " ".join((A, B, C, KEY, "04" + "0c" * 32))
    assert spelled("P0 P7 P255") == " ".join(("02" + "00" * 32, "02" + "00" * 31 + "07", "02" + "00" * 31 + "ff"))
    assert spelled("03:0b 99:0A") == "03" + "0b" * 32 + " " + "99" + "0a" * 32
    assert spelled("H X M S") == " ".join((CHAIN, OTHER, MAINNET, "11" * 32))


def channel_announcements():
    """Type 256, and each field that may be given."""
    assert spelled("ca(800000x12x3,A,B)") == ANNOUNCEMENT
    front, behind = ANNOUNCEMENT[:2 * 258], ANNOUNCEMENT[2 * 260:]
    assert spelled("ca(800000x12x3,A,B,features=0201)") == front + "0002" "0201" + behind
    assert spelled("ca(800000x12x3,A,B,chain=X)") == front + "0000" + OTHER + behind[64:]
    assert spelled("ca(800000x12x3,A,B,chain=M)") == front + "0000" + MAINNET + behind[64:]
    assert spelled("ca(800000x12x3,A,B,key_2=U)") == ANNOUNCEMENT[:-66] + "04" + "0c" * 32
    assert spelled("ca(800000x12x3,A,B,cut=1)") == ANNOUNCEMENT[:-2]
    assert spelled("ca(16777215x16777215x65535,P1,03:0b)") == front + "0000" + CHAIN + "ff" * 8 + (
        "02" + "00" * 31 + "01" + "03" + "0b" * 32 + KEY + KEY)


def node_announcements():
    """Type 257, and each field that may be given."""
    assert spelled("na(B,1699977728)") == NODE
    front, behind = NODE[:2 * 66], NODE[2 * 68:]
    assert spelled("na(B,1699977728,features=80)") == front + "0001" "80" + behind
    assert spelled("na(B,1699977728,cut=3)") == NODE[:-6]
    assert spelled("na(B,5)") == NODE.replace("65539a00", "00000005")


def channel_updates():
    """Type 258, and each field that may be given."""
    assert spelled("cu(800000x12x3,3,1699977728)") == UPDATE
    flags = len(UPDATE) - 2 * 28
    front = UPDATE[:flags]
    assert spelled("cu(800000x12x3,0,1699977728,message_flags=3)") == front + "03" "00" + UPDATE[flags + 4:]
    assert spelled("cu(800000x12x3,3,1699977728,delta=80,min=1000,base=1500,millionths=125,max=1000000000)") == (
        front + "01" "03" "0050" "00000000000003e8" "000005dc" "0000007d" "000000003b9aca00")
    assert spelled("cu(800000x12x3,3,1699977728,chain=X)") == UPDATE.replace(CHAIN, OTHER)
    assert spelled("cu(800000x12x3,3,1699977728,cut=28)") == front


def repetitions():
    """A text many times, and once for each number."""
    assert spelled("times(3,00)") == "000000" and spelled("times(0,00)") == ""
    assert spelled("each(9..11,0927c0{:06x}0000)") == "0927c00000090000" "0927c000000a0000" "0927c000000b0000"
    assert spelled("each(1..2,{},)") == "1,2,"
    assert list(span("3..5")) == [3, 4, 5] and list(span("7..7")) == [7]
    assert numbered("a{}b{+1}c{-1}d{:02x}e{+5:04d}{x}", 10) == "a10b11c9d0ae0015{x}"


def joined_words():
    """Brackets join what words stand for, and spaces outside of them stay as they are."""
    assert spelled("m [ca(800000x12x3,A,B) 00ff] all 1") == f"m {ANNOUNCEMENT}00ff all 1"
    assert spelled("[0105 H 0001 00]") == "0105" + CHAIN + "0001" + "00"
    assert spelled("[H] [01 times(2,ab)]") == CHAIN + " 01abab"
    assert spelled("q  00") == "q  00" and spelled("q 00 []") == "q 00 " and spelled("") == ""


def other_words():
    """What is no name stays as it is."""
    for line in ("route 1 0 1", "hop 1x0x0 00", "# a note: 1:2x", "m zz all 1", "close 01x0x0", "P PX D a h all] (x) 0a"):
        assert spelled(line) == line, line


def wrong_words():
    """What is meant as a name or a message, but is wrong, says what is wrong."""
    wrong = ("P256", "3:0b", "003:0b", "ca(1x0x0,A)", "ca(1x0,A,B)", "ca(16777216x0x0,A,B)", "ca(0x16777216x0,A,B)",
             "ca(0x0x65536,A,B)", "ca(1x0x0,A,D)", "ca(1x0x0,A,B,chain=Y)", "ca(1x0x0,A,B,features=0)",
             "ca(1x0x0,A,B,cut=433)", "ca(1x0x0,A,B,cut=-1)", "ca(1x0x0,A,B,max=5)", "ca(1x0x0,A,B,cut=1,cut=1)",
             "na(B)", "na(B,x)", "na(B,4294967296)", "na(B,5,chain=X)", "na(02,5)", "cu(1x0x0,0)", "cu(1x0x0,256,1)",
             "cu(1x0x0,0,4294967296)", "cu(1x0x0,0,1,delta=65536)", "cu(1x0x0,0,1,delta=)", "cu(1x0x0,0,1,base)",
             "cu(1x0x0,0,1,message_flags=0x1)", "cx(1x0x0,0,1)", "times(x,00)", "times(3)", "each(3..1,00)", "each(3,00)")
    for word in wrong:
        assert fault_of(f"m {word} all").startswith(f"{word}: "), word
    assert fault_of("m [ca(1x0x0,A,B) 00") and fault_of("m [[00]") and fault_of("m [00 [00]]")


def main():
    """Runs each test."""
    tests = (points_and_names, channel_announcements, node_announcements, channel_updates, repetitions, joined_words,
             other_words, wrong_words)
    for test in tests:
        test()
    print(f"{len(tests)} passed")


if __name__ == "__main__":
    main()
