#!/usr/bin/env python3
"""Tests what is made of a small header: for Python, for Rust, manual pages, and tables.

    python3 surface/test_makers.py
"""

import ctypes
import struct
import sys
from pathlib import Path

sys.dont_write_bytecode = True  # the repository gets no made files
sys.path[0] = str(Path(__file__).resolve().parent.parent)

from surface import clauses, manual, names, pages, python_declarations, python_faults, rust_numbers, rust_raw  # noqa: E402
from surface.header import read  # noqa: E402
from surface.test_header import SMALL  # noqa: E402

HEADER = read(SMALL)
FAULT = read(SMALL.replace("LGM_ODD", "LGM_ARGUMENT_EDGES").replace("LGM_OLD", "LGM_NO_ROUTE"))
PAGE = """Before.

<!-- {}: made of include/lgm.h by python3 surface/make.py -->
{}<!-- the end of what is made -->

Behind.
"""


def text_of(maker, header=HEADER):
    """The first file that a maker makes."""
    return next(iter(maker.made(header).values()))


def names_go_by_rules():
    """But for those in a table."""
    assert names.camel("NOT_NEWER") == names.camel("not-newer") == names.camel("not newer") == "NotNewer"
    assert names.upper("NotNewer") == names.upper("not-newer") == "NOT_NEWER" and names.upper("LgmMap") == "LGM_MAP"
    classes = [names.fault_class(one) for one in HEADER.numbers]
    assert classes[1:4] == ["Old", "Conflict", "Odd"] and names.fault_class(FAULT.numbers[3]) == "TooManyEdges"
    assert names.rust_name("type") == "r#type" and names.rust_name("from") == "from"
    assert names.sentence("it is one") == "It is one." and names.sentence("lgm_free does.") == "lgm_free does."


def python_has_declarations():
    """Calls with types, formats, constants and words; it is code, and the formats are laid out as C does."""
    module = {}
    exec(compile(text_of(python_declarations), "declarations.py", "exec"), module)
    assert module["CALLS"] == {
        "lgm_look": (ctypes.c_uint32, [ctypes.c_void_p, ctypes.c_char_p, ctypes.c_char_p, ctypes.c_size_t]),
        "lgm_see": (ctypes.c_uint32, []), "lgm_free": (None, [ctypes.c_void_p, ctypes.c_void_p])}
    assert (module["VERSION"], module["MOST_TWOS"], module["OK"], module["SIG_BY"]) == (7, 30, 0, 2)
    assert module["WORDS"] == {0: "accepted", 1: "old", 2: "conflict", 3: "odd: 3"} and "OLD" not in module
    assert module["THINGS"].size == 16 and module["POINT"].size == 33
    assert module["LINE"].size == 56 and module["LINE"].unpack(bytes(33) + bytes(7) + b"\1" + bytes(15)) == (bytes(33), 1, 0)


def structs_in_structs_are_aligned():
    """What is inside has its own alignment, before and behind it."""
    text = SMALL.replace("uint8_t point[33];", "uint64_t wide;\n    bool is_new;").replace(
        "lgm_point first; /*", "bool is_first;\n    lgm_point first;\n    bool is_last; /*")
    header = read(text)
    line = header.struct_of["lgm_line"]
    form = python_declarations.format_of(line, header.struct_of)
    assert form == "@?0QQ?0Q?PN0Q" and struct.calcsize(form) == 48
    assert struct.unpack(form, b"\1" + bytes(7) + b"\2" + bytes(7) + b"\1" + bytes(7) + b"\1" + bytes(23)) == (
        True, 2, True, True, 0, 0)


def python_has_faults():
    """A class for each fault below that of its group; none for success, nor for the one that is by hand."""
    made = text_of(python_faults)
    assert '\n\nclass Refused(Fault):\n    """A thing is refused (page)."""\n' in made
    assert '\n\nclass Old(Refused, number=1, word="old"):\n    """It isn\'t new."""\n' in made
    assert 'class Conflict(Refused, number=2, word="conflict"):' in made and "Done" not in made
    assert python_faults.names(HEADER) == ["Refused", "Old", "Conflict", "Odd"]
    assert python_faults.names(FAULT) == ["Refused", "Conflict", "TooManyEdges"]
    assert "no-route" not in text_of(python_faults, FAULT)
    reasons = read(SMALL.replace("/* Refused: ", "/* Reason: "))
    made = text_of(python_faults, reasons)
    assert python_faults.names(reasons) == ["Reason"] and "class Reason(IntEnum):" in made
    assert "    OLD = 1  # it isn't new\n" in made
    package = '__all__ = [\n    "Map",\n' + python_faults.BEGIN + "{}" + python_faults.END + "]\n"
    found = python_faults.exporting(HEADER, package.format('    "Other",\n'))
    assert found == package.format('    "Conflict", "Odd", "Old", "Refused",\n')


def rust_has_declarations():
    """Handles are one type; an array in a parameter is a pointer to one; zeros are a constant."""
    made = text_of(rust_raw)
    assert "Things" not in made and "    pub fn lgm_see() -> u32;\n" in made
    assert ("pub fn lgm_look(things: *mut Handle, seed: *const [u8; 16], line: *const Line, most: usize) -> u32;\n" in made)
    assert "    /// Looks.\n    pub fn lgm_look(" in made
    assert "    pub fn lgm_free(things: *mut Handle, ones: *mut [u8; 20]);\n" in made
    assert "    /// The first one.\n    pub first: Point,\n" in made and "    pub others: *const Point,\n" in made
    assert "        first: Point::ZEROS,\n        others: ptr::null(),\n        others_len: 0,\n" in made


def rust_has_numbers():
    """Constants of faults, and the words and groups of all numbers."""
    made = rust_numbers.made(HEADER)
    numbers, version = made[rust_numbers.FILE], made[rust_numbers.VERSION_FILE]
    assert "pub const LIBRARY_VERSION: u32 = 7;\n" in version and "VERSION" not in numbers
    assert "/// Most of both.\npub const MOST_ONES: usize = 20;\n" in numbers and "pub const SIG_BY: u32 = 2;\n" in numbers
    assert "    /// It isn't new.\n    pub const OLD: Fault = Fault(1);\n" in numbers and "CONFLICT" not in numbers
    assert "            1..=3 => Some(Kind::Refused),\n            _ => None,\n" in numbers
    assert '            2 => "conflict",\n            3 => "odd: 3",\n            _ => "",\n' in numbers
    assert rust_numbers.patterns([HEADER.numbers[1], HEADER.numbers[3]]) == "1 | 3"


def pages_of_the_manual_show_calls():
    """A page for calls with one comment, named by the first: declarations, structs, numbers, cost."""
    made = manual.made(HEADER, "1.2", "2026-01-31")
    assert [*made] == ["lgm", "lgm_look", "lgm_free", "lgm_text"]
    look = made["lgm_look"]
    assert '\n.TH LGM_LOOK 3 "2026-01-31" "lgm 1.2" "Library Functions Manual"\n.SH NAME\n' in look
    assert "\nlgm_look, lgm_see \\- looks\n" in look and "\nLooks (BOLT 7; page): all of them. And more.\n" in look
    assert '.B "uint32_t\\ lgm_look(lgm_things\\ *things, const\\ uint8_t\\ seed[16], const\\ lgm_line\\ *line, ' in look
    assert "\ntypedef struct {\n    /* the first one */\n    lgm_point first;\n" in look and "} lgm_point;" in look
    assert "} lgm_things;" not in look and ".SH COST\nLog n.\n" in look
    assert '.TP\n\\fBLGM_ODD\\fR (3, \\(dqodd: 3\\(dq)\nIt is odd. Of a line.\n' in look
    assert ".SH RETURN VALUE\nNothing.\n" in made["lgm_free"]
    assert "\n.IP \\(bu 2\nOne condition, in two lines.\n" in made["lgm"]
    assert manual.in_roff("'a `b-c` d-e lgm_f\\") == "\\&'a \\fBb\\-c\\fR d-e \\fBlgm_f\\fR\\e"


def tables_of_pages_are_made():
    """The one of calls as a whole, of the others the numbers by their words."""
    made = pages.page(HEADER, PAGE.format("calls", "| old |\n"))
    assert "| `lgm_look`, `lgm_see` | log n | `LGM_OLD`, 1 to 3, `LGM_ODD` |\n" in made and "| old |" not in made
    assert made.startswith("Before.\n\n<!-- calls: ") and made.endswith("<!-- the end of what is made -->\n\nBehind.\n")
    rows = "| number | word |\n|---|---|\n| 9 | `accepted` | go on |\n| | `old` .. `odd: 3` | stop |\n"
    made = pages.page(HEADER, PAGE.format("all numbers", rows))
    assert "\n| number | word |\n|---|---|\n| 0 | `accepted` | go on |\n| 1 to 3 | `old` .. `odd: 3` | stop |\n" in made
    assert pages.page(HEADER, made) == made and pages.page(HEADER, "Nothing.\n") == "Nothing.\n"
    for kind, table in (("all numbers", rows.replace(".. `odd: 3`", "")), ("numbers", "| 1 | `new` |\n")):
        try:
            pages.page(HEADER, PAGE.format(kind, table))
            assert False, table
        except pages.NotFound as why:
            assert str(why) in ("a table of all numbers has no row of odd: 3", "no number has the word new")


SOURCE = """
#[unsafe(no_mangle)]
pub extern "C" fn lgm_look(alloc: Global, before: &mut LgmMap, things: &mut LgmThings, after: &mut LgmMap, line: &[u8]) -> u32
    ensures same { after.new.value ≡ after.old.value }
    ensures kept { things.new.value ≡ things.old.value }
    ensures same_before { before.new.value ≡ before.old.value }
{
}

#[unsafe(no_mangle)]
pub extern "C" fn lgm_free(
    alloc: Global,
    map: &mut LgmMap,
)
    ensures same { is_ok result → map.new.value ≡ map.old.value }
{
}

#[unsafe(no_mangle)]
pub extern "C" fn lgm_text() -> u32 {
}

fn look_inside(map: &mut LgmMap) -> u32
    ensures same { map.new.value ≡ map.old.value }
{
}
"""


def calls_that_leave_maps_are_cited():
    """Those that are exported, with each clause that says of a map that it is as it was, whatever comes."""
    assert clauses.keeping(SOURCE) == {"lgm_look": ["same", "same_before"]}
    found = clauses.keeping(SOURCE.replace("is_ok result → ", ""))
    assert found == {"lgm_look": ["same", "same_before"], "lgm_free": ["same"]}
    both = {"lgm_free": ["same"], "lgm_see": ["same", "kept"], "lgm_look": ["same"]}
    assert pages.cited(HEADER, both) == "`lgm_look`, `lgm_free`: `same`; `lgm_see`: `same`, `kept`"
    row = "| it stays | <!-- calls that leave maps as they are: made of crates/lgm_c/src by python3 surface/make.py -->{}" \
        "<!-- the end of what is made --> |"
    assert pages.page(HEADER, row.format("`lgm_other`")) == row.format("")


def main():
    """Runs each test."""
    tests = (names_go_by_rules, python_has_declarations, structs_in_structs_are_aligned, python_has_faults,
             rust_has_declarations, rust_has_numbers, pages_of_the_manual_show_calls, tables_of_pages_are_made,
             calls_that_leave_maps_are_cited)
    for test in tests:
        test()
    print(f"{len(tests)} passed")


if __name__ == "__main__":
    main()
