"""Makes src/raw.rs of the crate: the structs and the calls of the header, as C has them."""

from __future__ import annotations

from typing import Dict, Iterator, List

from surface.model import Call, Comment, Field, Header, Struct, Type
from surface.names import camel, rust_name, sentence, short
from surface.texts import MADE, filled

FILE = "examples/rust/src/raw.rs"
WIDTH = 120
VALUES = {"void": "c_void", "bool": "bool", "uint8_t": "u8", "uint16_t": "u16", "uint32_t": "u32", "uint64_t": "u64",
          "size_t": "usize"}
# All handles have one form, and one type.
HANDLE = "Handle"

HEAD = f"""// {MADE}
//! The declarations of `include/lgm.h`.
#![allow(dead_code)] // no wrapper uses all of it

use std::ffi::c_void;
use std::ptr;

/// A handle, of whatever kind: all have this form.
#[repr(C)]
#[derive(Debug)]
pub struct Handle {{
    pub is_open: bool,
    pub at: *mut c_void,
}}

impl Handle {{
    /// A closed handle.
    pub(crate) const ZEROS: Handle = Handle {{ is_open: false, at: ptr::null_mut() }};
}}
"""


def docs(comment: Comment, indent: str = "") -> Iterator[str]:
    """A comment as documentation: its paragraphs, and what is in a list."""
    for number, paragraph in enumerate(comment.paragraphs):
        is_item = paragraph.startswith("- ")
        if number and not is_item:
            yield f"{indent}///"
        begin = f"{indent}/// "
        text = paragraph if is_item else sentence(paragraph)
        yield from filled(text.replace("[", "\\["), WIDTH - 2, begin, begin + ("  " if is_item else ""))


def base_type(kind: Type, structs: Dict[str, Struct]) -> str:
    """The type of a value, or of what a pointer leads to."""
    struct = structs.get(kind.base)
    if struct is None:
        return VALUES[kind.base]
    return HANDLE if struct.is_handle else camel(short(struct))


def type_of(kind: Type, structs: Dict[str, Struct], is_parameter: bool) -> str:
    """A type. A parameter that is an array is a pointer to one."""
    base = base_type(kind, structs)
    if kind.length is not None:
        base = f"[{base}; {kind.length}]"
    if kind.is_pointer or kind.length is not None and is_parameter:
        return f"*{'const' if kind.is_const else 'mut'} {base}"
    return base


def zeros(kind: Type, structs: Dict[str, Struct]) -> str:
    """The value of a type whose bytes are zeros."""
    if kind.is_pointer:
        return "ptr::null()" if kind.is_const else "ptr::null_mut()"
    if kind.length is not None:
        return f"[0; {kind.length}]"
    if kind.base in structs:
        return f"{base_type(kind, structs)}::ZEROS"
    return "false" if kind.base == "bool" else "0"


def struct_in_rust(struct: Struct, structs: Dict[str, Struct]) -> List[str]:
    """A struct, with its value of zeros."""
    name = camel(short(struct))
    lines = ["", *docs(struct.comment), "#[repr(C)]", "#[derive(Clone, Copy, Debug, PartialEq, Eq)]", f"pub struct {name} {{"]
    for member in struct.members:
        lines += [*docs(member.comment, "    "),
                  f"    pub {rust_name(member.name)}: {type_of(member.type, structs, False)},"]
    values = [f"        {rust_name(member.name)}: {zeros(member.type, structs)}," for member in struct.members]
    return [*lines, "}", "", f"impl {name} {{", "    /// All zeros.", f"    pub(crate) const ZEROS: {name} = {name} {{",
            *values, "    };", "}"]


def parameter(field: Field, structs: Dict[str, Struct]) -> str:
    """A parameter."""
    return f"{rust_name(field.name)}: {type_of(field.type, structs, True)}"


def call_in_rust(call: Call, structs: Dict[str, Struct]) -> List[str]:
    """A call, on one line if there is room."""
    parameters = [parameter(field, structs) for field in call.parameters]
    result = "" if call.result.base == "void" else f" -> {VALUES[call.result.base]}"
    said = sentence(call.comment.summary)
    lines = filled(said, WIDTH - 2, "    /// ", "    /// ")
    line = f"    pub fn {call.name}({', '.join(parameters)}){result};"
    if len(line) <= WIDTH:
        return [*lines, line]
    return [*lines, f"    pub fn {call.name}(", *(f"        {one}," for one in parameters), f"    ){result};"]


def made(header: Header) -> Dict[str, str]:
    """The file, by its place."""
    lines: List[str] = [HEAD.rstrip("\n")]
    for struct in header.structs:
        if not struct.is_handle:
            lines += struct_in_rust(struct, header.struct_of)
    lines += ["", 'unsafe extern "C" {']
    for call in header.calls:
        lines += call_in_rust(call, header.struct_of)
    return {FILE: "\n".join([*lines, "}"]) + "\n"}
