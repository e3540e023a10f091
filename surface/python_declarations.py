"""Makes python/lgm/declarations.py: the calls with their types, the structs, the constants and the words of the header."""

from __future__ import annotations

from typing import Dict, Iterator, List

from surface.model import Call, Header, Struct, Type
from surface.names import short
from surface.texts import MADE, filled

FILE = "python/lgm/declarations.py"
# The code of a value in a format of `struct`, with the greatest alignment first, and its type in ctypes.
CODES = {"uint64_t": "Q", "size_t": "N", "uint32_t": "I", "uint16_t": "H", "uint8_t": "B", "bool": "?"}
POINTER = "P"
ALIGNMENTS = "QNPIHB?"
VALUES = {"void": "None", "bool": "BOOL", "uint8_t": "U8", "uint16_t": "U16", "uint32_t": "U32", "uint64_t": "U64",
          "size_t": "SIZE"}

HEAD = f'''# {MADE}
"""The declarations of include/lgm.h, for ctypes and `struct`."""

from __future__ import annotations

import ctypes
from struct import Struct
from typing import Any, Dict, List, Tuple
'''
TYPES = '''
# Bytes that a call reads, the address of what it may write to, and numbers.
BYTES, AT, BOOL = ctypes.c_char_p, ctypes.c_void_p, ctypes.c_bool
U8, U16, U32, U64, SIZE = ctypes.c_uint8, ctypes.c_uint16, ctypes.c_uint32, ctypes.c_uint64, ctypes.c_size_t

# The calls, each with its result and its arguments.
CALLS: Dict[str, Tuple[Any, List[Any]]] = {'''


def alignment_of(piece: str) -> str:
    """The code whose alignment values of these codes have together."""
    return next(code for code in ALIGNMENTS if code in piece.replace("s", "B"))


def piece_of(kind: Type, structs: Dict[str, Struct]) -> str:
    """A member in a format of `struct`. One that is a struct has its members there, between zeros that align it."""
    if kind.is_pointer:
        return POINTER
    if kind.base not in structs:
        return CODES[kind.base] if kind.length is None else f"{kind.length}s"
    inner = "".join(pieces_of(structs[kind.base], structs))
    return f"0{alignment_of(inner)}{inner}0{alignment_of(inner)}"


def pieces_of(struct: Struct, structs: Dict[str, Struct]) -> List[str]:
    """The members of a struct in a format of `struct`."""
    return [piece_of(member.type, structs) for member in struct.members]


def format_of(struct: Struct, structs: Dict[str, Struct]) -> str:
    """The format of a struct, in the layout of the machine, with what follows the last member."""
    found = "".join(pieces_of(struct, structs))
    return f"@{found}0{alignment_of(found)}"


def argument(kind: Type) -> str:
    """The type of an argument in ctypes."""
    if kind.is_value:
        return VALUES[kind.base]
    return "BYTES" if kind.is_const else "AT"


def constants(header: Header) -> Iterator[str]:
    """The constants, and the numbers that are no faults."""
    for constant in header.constants:
        yield f"{short(constant)} = {constant.value}"
    yield ""
    for number in header.numbers:
        if number.group.name in ("", "Done"):
            yield f"{short(number)} = {number.value}" + (f"  # {number.text}" if number.text else "")


def structs(header: Header) -> Iterator[str]:
    """The structs, each with the names of its members."""
    for struct in header.structs:
        names = ", ".join(f"{member.name} ({member.type.base})" if member.type.base in header.struct_of
                          and member.type.is_value else member.name for member in struct.members)
        yield from filled(f"{struct.name}: {names}", 120, "# ", "# ")
        yield f'{short(struct).upper()} = Struct("{format_of(struct, header.struct_of)}")'


def declared(call: Call) -> str:
    """A call, with the types of its result and its arguments."""
    arguments = ", ".join(argument(parameter.type) for parameter in call.parameters)
    return f'    "{call.name}": ({VALUES[call.result.base]}, [{arguments}]),'


def made(header: Header) -> Dict[str, str]:
    """The file, by its place."""
    words = [f'    {number.value}: "{number.word}",' for number in header.returned()]
    lines = [HEAD, *constants(header), "", "# The structs, in this machine's layout. One in another has its members there.",
             *structs(header), TYPES, *map(declared, header.calls), "}", "",
             "# The word of each number that a call returns.", "WORDS: Dict[int, str] = {", *words, "}"]
    return {FILE: "\n".join(lines) + "\n"}
