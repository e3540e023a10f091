#!/usr/bin/env python3
"""Compares include/lgm.h with the library: with what it exports, and with the sources that it is built from.

    python3 tests/exports.py LIBRARY

LIBRARY is `liblgm.so`. Compared are

- the functions that the header declares, that the library exports (`nm`), and that the sources define, with the types of
  their parameters and results; and those that the Rust crate calls;
- the structs: their fields, in order, with types; their sizes and offsets as the C compiler lays them out, the sources do, and
  the formats of the Python package;
- the numbers of faults and verdicts, the version, the size of a word, and the limits of a search.

What is made of the header isn't compared with it: `python3 surface/make.py --check` says whether it is current. Prints a line
for each difference; the exit status is then 1.
"""

import ctypes
import re
import struct
import subprocess
import sys
from pathlib import Path

sys.dont_write_bytecode = True  # the repository gets no made files
TOP = Path(__file__).resolve().parent.parent
sys.path.insert(1, str(TOP))

from surface import header as headers  # noqa: E402
from surface.names import short, upper  # noqa: E402
from surface.python_declarations import format_of, pieces_of  # noqa: E402

SOURCES = TOP / "crates" / "lgm_c" / "src"
REASONS = TOP / "crates" / "lgm_route" / "src" / "no_route.rt"
ASKING = TOP / "crates" / "lgm_sync" / "src" / "asking.rt"
RUST = TOP / "examples" / "rust" / "src"
# The names of types of the sources in C and in ctypes.
TYPES = {"bool": ("bool", ctypes.c_bool), "u8": ("uint8_t", ctypes.c_uint8), "u16": ("uint16_t", ctypes.c_uint16),
         "u32": ("uint32_t", ctypes.c_uint32), "u64": ("uint64_t", ctypes.c_uint64), "usize": ("size_t", ctypes.c_size_t),
         "*mut u8": ("void *", ctypes.c_void_p)}
# A field whose name is a keyword of Rattle's.
FIELDS = {"kind": "type"}
# A pattern of the sources, and the name in C of the number in it, of which `{}` is the name there.
NUMBERS = (
    (r"fn lgm_version\(\) -> u32.*?\n\{\s*(?P<number>\d+)\s*\}", "LGM_VERSION"),
    (r"fn lgm_word\(number: u32, word: &mut \[u8; (?P<number>\d+)\]\)", "LGM_WORD_LEN"),
    (r"^(?:pub(?:\(crate\))? )?const (?P<name>\w+): u\w+ = (?P<number>[\d_]+);", "LGM_{}"),
    (r"\bFault::(?:Unrouted\(RouteFault::)?(?P<name>\w+)\)? => (?P<number>\d+),", "LGM_{}"),
    (r"\bPaymentFault::(?P<name>\w+) => (?P<number>\d+),", "LGM_{}"),
    (r"\bArgumentFault::(?P<name>\w+) => (?P<number>\d+),", "LGM_ARGUMENT_{}"),
    (r"\bStage::(?P<name>\w+) => (?P<number>\d+),", "LGM_STAGE_{}"),
    (r"\bNone => \((?P<number>\d+), 0, 0\),", "LGM_PART_HELD"),
    (r"\bEnding::(?P<name>\w+)(?:\(failure\))?\) => \((?P<number>\d+),", "LGM_PART_{}"),
    (r"\bNoRouteReason::(?P<name>\w+) => (?P<number>\d+),", "LGM_{}"),
    (r"\bDecodeFault::(?P<name>\w+)(?:\(_\)|\(WireFault::(?P<inner>\w+)\))? => (?P<number>[56]\d),", "LGM_FAULT_{}"),
    (r"(?P<number>\d+) => Some\(Ref\w*::(?P<name>\w+)\)", "LGM_{}"),
    (r"(?P<number>\d+) => Sig::(?P<name>\w+)(?P<is_not>\(false\))?", "LGM_SIG_{}"),
    (r"(?P<number>\d+) => Funding::(?P<name>\w+)", "LGM_FUNDING_{}"))


def name_in_c(kind, header):
    """The name in C of a struct of the sources."""
    name = upper(kind).lower()
    return name if name in header.struct_of else f"{name}_info"


def c_type(kind, header):
    """A type of the sources, as a value in C."""
    kind = re.sub(r"<'\w+>", "", kind)
    if found := re.fullmatch(r"&'a \[(.+)\]", kind):
        return f"const {c_type(found[1], header)} *"
    if found := re.fullmatch(r"\[(.+); (\d+)\]", kind):
        return f"{c_type(found[1], header)} [{found[2]}]"
    return TYPES[kind][0] if kind in TYPES else name_in_c(kind, header)


def c_parameters(kind, header):
    """A parameter of the sources, as those of C: a slice is a pointer and a length, an allocator is none."""
    if kind == "Global":
        return []
    if not (found := re.fullmatch(r"&(mut )?(\[?)(.+?)(?:; (\d+))?\]?", kind)):
        return [c_type(kind, header)]
    pointed = ("" if found[1] else "const ") + c_type(found[3], header)
    if found[4]:
        return [f"{pointed} [{found[4]}]"]
    return [f"{pointed} *", *(["size_t"] if found[2] else [])]


def source_functions(text, header):
    """The types of the parameters and the result of each function that the sources export."""
    functions = {}
    pattern = r"#\[unsafe\(no_mangle\)\]\s*pub extern \"C\" fn (\w+)\(([^)]*)\)(?:\s*->\s*(\w+))?"
    for name, parameters, result in re.findall(pattern, text):
        kinds = re.findall(r"\w+:\s*([^,\[]*(?:\[[^\]]*\])?)", parameters)
        functions[name] = [one for kind in kinds for one in c_parameters(kind.strip(), header)]
        functions[name].append(c_type(result, header) if result else "void")
    return functions


def source_structs(text):
    """The fields of each `repr(C)` struct, with the types of the sources."""
    pattern = r"#\[repr\(C\)\]\s*#\[derive\([^)]*\)\]\s*pub struct (\w+)(?:<'a>)? \{(.*?)\n\}"
    field = r"^\s*(?:pub(?:\(crate\))? )?(\w+): (.+),$"
    structs = {name: re.findall(field, re.sub(r"^\s*(?:ghost|///).*$", "", fields, flags=re.MULTILINE), flags=re.MULTILINE)
               for name, fields in re.findall(pattern, text, flags=re.DOTALL)}
    return {name: [one for entry in fields for one in with_length(*entry)] for name, fields in structs.items()}


def with_length(field, kind):
    """A field of the sources as those of C: a slice is a pointer and a length."""
    return [(FIELDS.get(field, field), kind), *([(f"{field}_len", "usize")] if kind.startswith("&") else [])]


def source_constants(text):
    """The numbers of the sources, by their names in C."""
    constants = {"LGM_OK": 0}
    for pattern, name in NUMBERS:
        for found in re.finditer(pattern, text, flags=re.MULTILINE | re.DOTALL):
            parts = found.groupdict()
            words = ("not" if parts.get("is_not") else "", parts.get("name"), parts.get("inner"))
            found = name.format("_".join(upper(word) for word in words if word))
            constants[found.replace("LGM_MAX_", "LGM_MOST_")] = int(parts["number"])  # as the header says it
    return constants


def ctypes_struct(structs, name):
    """A struct of the sources, laid out as C does."""
    def kind_of(kind):
        if found := re.fullmatch(r"\[(.+); (\d+)\]", kind):
            return kind_of(found[1]) * int(found[2])
        if kind.startswith("&"):
            return ctypes.c_void_p
        return ctypes_struct(structs, kind) if kind in structs else TYPES[kind][1]

    fields = [(field, kind_of(kind)) for field, kind in structs[name]]
    return type(name, (ctypes.Structure,), {"_fields_": fields})


def places_in_sources(structs, header):
    """The size of each struct, and the offset of each member, as the sources are laid out."""
    for name, fields in structs.items():
        made, in_c = ctypes_struct(structs, name), name_in_c(name, header)
        yield f"sizeof({in_c})", ctypes.sizeof(made)
        yield from ((f"offsetof({in_c}, {field})", getattr(made, field).offset) for field, _ in fields)


def places_in_python(header):
    """The same by the formats of the Python package."""
    for one in header.structs:
        pieces = pieces_of(one, header.struct_of)
        yield f"sizeof({one.name})", struct.calcsize(format_of(one, header.struct_of))
        for count, (member, piece) in enumerate(zip(one.members, pieces), 1):
            end = struct.calcsize("@" + "".join(pieces[:count]))
            yield f"offsetof({one.name}, {member.name})", end - struct.calcsize(f"@{piece}")


def layout_differs(sources, header):
    """Whether the C compiler lays out a struct of the header otherwise than the sources are, or the Python package says."""
    places = (*places_in_sources(source_structs(sources), header), *places_in_python(header))
    lines = ['#include "lgm.h"', *(f'_Static_assert({place} == {count}, "{place} isn\'t {count}");' for place, count in places)]
    words = ["cc", "-std=c11", "-fsyntax-only", "-I", headers.PATH.parent, "-x", "c", "-"]
    return subprocess.run(words, input="\n".join(lines) + "\n", text=True, check=False).returncode != 0


def differing(what, ours, theirs, where):
    """A line for each name whose value isn't the same in both."""
    return [f"{what} {name}: {ours.get(name, 'none')} in lgm.h, {theirs.get(name, 'none')} in {where}"
            for name in sorted({*ours, *theirs}) if ours.get(name) != theirs.get(name)]


def header_constants(header):
    """The numbers of the header, by their names; those without one have that of their word."""
    named = {one.name: one.value for one in (*header.constants, *header.numbers) if one.name}
    return {**named, **{("LGM_FAULT_" if one.group.name == "First fault" else "LGM_") + short(one): one.value
                        for one in header.numbers if not one.name}}


def differences(header, sources, exported):
    """What differs between the header, the text of the sources, and the exported names."""
    functions = {call.name: [*(str(one.type) for one in call.parameters), str(call.result)] for call in header.calls}
    structs = {one.name: [(str(member.type), member.name) for member in one.members] for one in header.structs}
    in_sources = {name_in_c(name, header): [(c_type(kind, header), field) for field, kind in fields]
                  for name, fields in source_structs(sources).items()}
    return [*differing("function", functions, source_functions(sources, header), "the sources"),
            *differing("function", dict.fromkeys(functions, "there"), dict.fromkeys(exported, "there"), "the library"),
            *differing("struct", structs, in_sources, "the sources"),
            *differing("constant", header_constants(header), source_constants(sources), "the sources")]


def exports(library):
    """All names that a shared object exports."""
    symbols = subprocess.run(["nm", "-D", "--defined-only", library], check=True, stdout=subprocess.PIPE, text=True).stdout
    return re.findall(r" [A-Za-z] (\S+)$", symbols, flags=re.MULTILINE)


def source_text():
    """The sources of the crate, and that of the numbers of reasons."""
    return "\n".join(path.read_text() for path in [*sorted(SOURCES.glob("*.rt")), REASONS, ASKING])


def unwrapped(header):
    """What the Rust crate has no call of."""
    used = re.findall(r"raw::(lgm_\w+)", " ".join(file.read_text() for file in sorted(RUST.glob("*.rs"))))
    return differing("function", dict.fromkeys((call.name for call in header.calls), "there"), dict.fromkeys(used, "there"),
                     "the Rust crate")


def main():
    """Prints what differs."""
    header = headers.read_file()
    found = differences(header, source_text(), exports(sys.argv[1])) + unwrapped(header)
    if layout_differs(source_text(), header):
        found.append("the layout of a struct: see above")
    print(*found, f"{len(found)} differences between lgm.h and the library", sep="\n")
    return 1 if found else 0


if __name__ == "__main__":
    sys.exit(main())
