#!/usr/bin/env python3
"""Explains why lines of a script are answered `bad`: which field doesn't match the grammar of docs/script.md.

    python3 examples/tools/why.py SCRIPT          (- reads standard input)

Prints `N: reason` for each such line, and for a line that ends the run because it is too long or one too many. The exit
status is 0 if there are none, else 1. Only the grammar is checked: docs/questions.md explains messages that are refused
with a word, and payments without a route.
"""

import re
import sys

LINE_BYTES = 140_000
LINES = 10_000_000
FORMS = {
    b"m": "HEX SIG FUNDING",
    b"close": "SCID",
    b"commit": "",
    b"q": "HEX",
    b"filter": "PEER HEX",
    b"route": "PAYER PAYEE MSAT EXPIRY SECRET",
}
DIGITS = re.compile(rb"[0-9a-fA-F]*")
NUMBER = re.compile(rb"0|[1-9][0-9]*")


def hexadecimal(field, length=None):
    """Why a field isn't an even number of hexadecimal digits, at least two, or not of this length; else nothing."""
    if field[:2].lower() == b"0x":
        return "begins with 0x, which isn't part of the digits"
    good = DIGITS.match(field).end()
    if good < len(field):
        return f"character {good + 1} is {shown(field[good:good + 1])}, which isn't a hexadecimal digit"
    if length is not None and len(field) != length:
        return f"has {len(field)} digits instead of {length}"
    if len(field) % 2:
        return f"has an odd number of digits, {len(field)}"
    return "" if field else "is empty"


def number(field, below, unit):
    """Why a field isn't a decimal number below a bound; else nothing."""
    if not field:
        return "is empty"
    if not NUMBER.fullmatch(field):
        if field.lstrip(b"0").isdigit() or not field.strip(b"0"):
            return f"{shown(field)} has a leading zero"
        return f"{shown(field)} isn't a decimal number of {unit}: only digits, without unit, sign or separators"
    return "" if len(field) <= 20 and int(field) < below else f"{shown(field)} is {below} or more"


def signature(field):
    """Why a field isn't a SIG."""
    if field in (b"all", b"not-all", b"nobody"):
        return ""
    why = hexadecimal(field, 66)
    return why and f"{shown(field)} is none of all, not-all, nobody and a POINT of 66 digits ({why})"


def funding(field):
    """Why a field isn't a FUNDING."""
    if field in (b"spent", b"wrong", b"-"):
        return ""
    why = number(field, 2**64, "satoshi")
    return why and f"is none of spent, wrong, - and a number of satoshi ({why})"


def meant(field):
    """The id that a number stands for, as LND writes ids, or one with colons; else an example."""
    if field and not number(field, 2**64, "an id") and int(field) >> 40:
        value = int(field)
        return f"which is {value >> 40}x{value >> 16 & 0xffffff}x{value & 0xffff} for this number, as LND has it"
    other = field.replace(b":", b"x")
    if other.count(b"x") == 2 and not scid(other):
        return f"which is {other.decode()}"
    return "such as 800000x12x0"


def scid(field):
    """Why a field isn't a SCID."""
    parts = field.split(b"x")
    if len(parts) != 3:
        return f"{shown(field)} isn't of the form BLOCKxINDEXxOUTPUT, {meant(field)}"
    bounds = ((2**24, "block"), (2**24, "index"), (2**16, "output"))
    whys = (number(part, below, name) for part, (below, name) in zip(parts, bounds))
    return next((f"{name}: {why}" for why, (_, name) in zip(whys, bounds) if why), "")


def peer(field):
    """Why a field isn't a PEER."""
    return number(field, 1_000, "a peer")


FIELDS = {
    "HEX": hexadecimal,
    "SIG": signature,
    "FUNDING": funding,
    "SCID": scid,
    "PEER": peer,
    "PAYER": lambda field: hexadecimal(field, 66),
    "PAYEE": lambda field: hexadecimal(field, 66),
    "MSAT": lambda field: number(field, 2**64, "millisatoshi"),
    "EXPIRY": lambda field: number(field, 2**32, "blocks"),
    "SECRET": lambda field: hexadecimal(field, 64),
}


def shown(field):
    """A field for a message: quoted, and shortened if it is long."""
    text = field.decode("utf-8", "backslashreplace")
    return repr(text if len(text) <= 40 else f"{text[:37]}...")


def spacing(line):
    """What is wrong with the spaces and line ends of a line, if anything."""
    if line.endswith(b"\r"):
        return "ends in a carriage return: the file has Windows line ends"
    if b"\t" in line:
        return "has a tab; fields are separated by single spaces"
    if line.startswith(b" ") or line.endswith(b" "):
        return "begins or ends with a space"
    return "has two spaces side by side" if b"  " in line else ""


def reason(line):
    """Why a line, without its line feed, is answered `bad`; nothing if it isn't."""
    if not line or line.startswith(b"#"):
        return ""
    if line.startswith(b"\xef\xbb\xbf"):
        return "begins with a byte order mark; save the file as UTF-8 without one"
    if line.startswith((b"\xff\xfe", b"\xfe\xff")):
        return "begins with a byte order mark of UTF-16; save the file as UTF-8"
    try:
        line.decode()
    except UnicodeDecodeError as fault:
        return f"isn't UTF-8, at byte {fault.start + 1}"
    why = spacing(line)
    if why:
        return why
    word, *fields = line.split(b" ")
    if word not in FORMS:
        return f"{shown(word)} is none of {', '.join(form.decode() for form in FORMS)}"
    names = FORMS[word].split()
    for name, field in zip(names, fields):
        why = FIELDS[name](field)
        if why:
            return f"{name} {why}"
    if len(fields) < len(names):
        return f"{names[len(fields)]} is missing: {word.decode()} {' '.join(names)}"
    return f"{shown(fields[len(names)])} comes after the last field" if len(fields) > len(names) else ""


def findings(lines):
    """The number of each faulty line, with the reason. `lines` are bytes, with their line feeds."""
    for count, line in enumerate(lines, 1):
        line = line[:-1] if line.endswith(b"\n") else line
        if count > LINES:
            yield count, f"is one more than {LINES} lines, where the run ends"
            return
        if len(line) > LINE_BYTES:
            yield count, f"has {len(line)} bytes, more than {LINE_BYTES}, and the run ends here"
            return
        why = reason(line)
        if why:
            yield count, why


def main():
    """Reads the script, and prints what it finds."""
    if len(sys.argv) != 2:
        sys.exit(__doc__)
    found = False
    try:
        with sys.stdin.buffer if sys.argv[1] == "-" else open(sys.argv[1], "rb") as script:
            for count, why in findings(script):
                found = True
                print(f"{count}: {why}")
    except OSError as fault:
        sys.exit(f"why: {fault}")
    sys.exit(1 if found else 0)


if __name__ == "__main__":
    main()
