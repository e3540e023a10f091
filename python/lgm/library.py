"""The library of include/lgm.h, as the classes call it: its declarations, and checks of what C would take as it is."""

from __future__ import annotations

import ctypes
import os
import platform
from functools import lru_cache
from pathlib import Path
from typing import Optional, Type, TypeVar, Union

from .declarations import *
from .declarations import CALLS, SIZE, VERSION

NAME = f"liblgm.so.{VERSION}"
HERE = Path(__file__).resolve().parent
# Where the shared object may be: beside this file, in a package that has it; or where `examples/build-c` puts it in a clone.
PLACES = (HERE / NAME, HERE.parent.parent / "examples" / "out" / NAME)


def place() -> str:
    """The shared object: the file that the environment names, one of these places, or the name by which the system finds it."""
    named = os.environ.get("LGM_LIBRARY", "")
    return named or next((str(it) for it in PLACES if it.exists()), NAME)


LIBRARY: Union[str, Path] = place()

MOST_SIZE = 2 ** (8 * ctypes.sizeof(SIZE)) - 1

# What is taken for bytes.
Octets = Union[bytes, bytearray, memoryview]

Kind = TypeVar("Kind")


def refusal(why: OSError) -> str:
    """What is said of a library that can't be loaded: which file it was to be, and what to do."""
    if Path(LIBRARY).exists():
        told = f"{LIBRARY} is there, but can't be loaded on this machine ({platform.machine()}): {why}"
    elif os.environ.get("LGM_LIBRARY"):
        told = f"{LIBRARY}, which LGM_LIBRARY names, isn't found"
    else:
        told = (f"{NAME} isn't found: it was looked for as {' and as '.join(map(str, PLACES))}, and among the system's "
                "libraries; LGM_LIBRARY, which names another file, isn't set")
    return f"{told}. Install the wheel of lgm for this machine or its package for Debian, or set LGM_LIBRARY to the file"


def version_of(library: ctypes.CDLL) -> int:
    """The version of a library. A shared object without `lgm_version` is another one."""
    try:
        found: int = library.lgm_version()
    except AttributeError:
        raise ImportError(f"{LIBRARY} isn't the library of lgm") from None
    return found


@lru_cache(maxsize=None)
def load() -> ctypes.CDLL:
    """The library, whose calls have their types. ImportError says why it can't be loaded."""
    try:
        library = ctypes.CDLL(str(LIBRARY))
    except OSError as why:
        raise ImportError(refusal(why)) from None
    if (found := version_of(library)) != VERSION:
        raise ImportError(f"{LIBRARY} has version {found} of the library of lgm, and this package is for version {VERSION}: "
                          "install both of one version")
    for name, (result, arguments) in CALLS.items():
        call = getattr(library, name)
        call.restype, call.argtypes = result, arguments
    return library


def number(name: str, value: int, below: int, least: int = 0) -> int:
    """A number that C would cut to its type."""
    if not isinstance(value, int) or isinstance(value, bool):
        raise TypeError(f"{name} is an int, and not {value!r:.80}")
    if not least <= value < below:
        raise ValueError(f"{name} is from {least} to {below - 1}, and not {value}")
    return value


def octets(name: str, value: Octets, length: Optional[int] = None) -> bytes:
    """Bytes, of a length that C doesn't check."""
    if not isinstance(value, (bytes, bytearray, memoryview)):
        hint = "; bytes.fromhex makes them from digits" if isinstance(value, str) else ""
        raise TypeError(f"{name} is bytes, and not {type(value).__name__}{hint}")
    found = bytes(value)
    if length is not None and len(found) != length:
        raise ValueError(f"{name} is of {length} bytes, and not of {len(found)}")
    return found


def instance(name: str, value: Kind, kind: Type[Kind]) -> Kind:
    """A value of a class."""
    if not isinstance(value, kind):
        raise TypeError(f"{name} is of the class {kind.__name__}, and not {type(value).__name__}")
    return value


class Buffer:
    """Bytes that C writes to, and their address."""

    def __init__(self, length: int) -> None:
        self.length = length
        self.bytes = ctypes.create_string_buffer(length)
        self.at = ctypes.addressof(self.bytes)
        self._view = memoryview(self.bytes).cast("B")

    def front(self, length: int) -> bytes:
        """A copy of the first bytes."""
        return self._view[:length].tobytes()
