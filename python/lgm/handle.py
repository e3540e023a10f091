"""A handle of the library, whose calls wait for one another."""

from __future__ import annotations

import ctypes
import threading
from functools import wraps
from types import TracebackType
from typing import Any, Callable, ClassVar, Optional, Type, TypeVar, cast

from . import library
from .faults import check
from .numbered import Closed, Room

Method = TypeVar("Method", bound=Callable[..., Any])
Kind = TypeVar("Kind", bound="Handle")


def alone(method: Method) -> Method:
    """A method during which no other one of the object runs, since all of them use its handle and its buffers. If it is closed,
    it raises `Closed`."""
    @wraps(method)
    def locked(self: Handle, *arguments: Any, **named: Any) -> Any:
        with self._lock:
            self._check_open()
            return method(self, *arguments, **named)
    return cast(Method, locked)


class Handle:
    """A handle of a map, of estimates or of a payer. It isn't copied, nor pickled."""

    _free: ClassVar[str]  # the name of the call that frees it

    def _set_up(self) -> None:
        """Sets a closed handle, with the lock of its calls."""
        self._lock = threading.Lock()
        self._handle = library.Buffer(library.MAP.size)  # as any other handle
        self._at = self._handle.at
        self._is_closed = False
        self._library = library.load()

    @classmethod
    def _closed(cls: Type[Kind]) -> Kind:
        """One whose handle a call is to open."""
        made = cls.__new__(cls)
        made._set_up()
        return made

    def _check_open(self) -> None:
        """Raises `Closed` if it is closed."""
        if self._is_closed:
            raise Closed()

    def _saved(self, call: Callable[..., int]) -> bytes:
        """The bytes that a call saves. It tells their length first."""
        needed = ctypes.c_size_t()
        outcome = call(self._at, None, 0, ctypes.byref(needed))
        if outcome != Room.number:
            check(outcome)
        room = library.Buffer(needed.value)
        check(call(self._at, room.at, room.length, ctypes.byref(needed)))
        return room.front(needed.value)

    def close(self) -> None:
        """Frees what it has. Later calls raise `Closed`, but this one."""
        with self._lock:
            self._is_closed = True
            getattr(self._library, self._free)(self._at)

    def __reduce_ex__(self, protocol: Any) -> Any:
        """Two objects with one handle would free it twice."""
        raise TypeError(f"a {type(self).__name__} can't be copied or pickled")

    def __enter__(self: Kind) -> Kind:
        return self

    def __exit__(self, kind: Optional[Type[BaseException]], fault: Optional[BaseException],
                 trace: Optional[TracebackType]) -> None:
        self.close()

    def __del__(self) -> None:
        if hasattr(self, "_library"):
            self.close()

    def __bool__(self) -> bool:
        """It is true, also if its length is 0."""
        return True
