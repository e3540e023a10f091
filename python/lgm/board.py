"""The latest map for threads that read, while one thread changes the map."""

from __future__ import annotations

import threading
from types import TracebackType
from typing import Optional, Tuple, Type

from .library import instance
from .map import Map
from .numbered import Closed


class Board:
    """The latest publication of a map. One thread changes the map and publishes; any number of others take the latest.

        board = Board(network)
        board.publish()                        # by the thread that changes the map, as often as it likes
        board.latest().route(..)               # by each thread that reads: it waits for nobody, and nobody for it

    A publication is freed once a later one stands on the board and no thread has it any more. The map stays its owner's: close
    it when the board is closed.
    """

    def __init__(self, network: Map) -> None:
        """Publishes the map as it is now."""
        self._network = instance("network", network, Map)
        self._lock = threading.Lock()
        self._own = threading.local()
        self._count = 0  # of publications: a thread takes a later one than it has
        self._latest: Optional[Map] = network.publish()
        self._version = self._latest.version

    def publish(self) -> int:
        """Publishes the map as it is now, and returns its version. If it fails, the one before stays the latest."""
        published = self._network.publish()
        version = published.version
        with self._lock:
            before = self._latest
            if before is not None:
                self._latest, self._version, self._count = published, version, self._count + 1
        if before is None:
            published.close()
            raise Closed()
        before.close()
        return version

    @property
    def version(self) -> int:
        """The version of the latest publication."""
        return self._version

    def latest(self) -> Map:
        """The latest publication, for the thread that calls. It may be used as long as it is kept, also when there is a later
        one; the thread gets the same object as long as there is none."""
        count, own = self._of_this_thread()
        if own is None or count != self._count:
            with self._lock:
                if self._latest is None:
                    raise Closed()
                own = self._latest.share()
                self._own.held = self._count, own
        return own

    def _of_this_thread(self) -> Tuple[int, Optional[Map]]:
        """What the thread took last, with its count."""
        count, own = getattr(self._own, "held", (0, None))
        return count, own

    def close(self) -> None:
        """Takes the latest publication off the board. Later calls raise `Closed`; what threads have taken stays theirs."""
        with self._lock:
            before, self._latest, self._count = self._latest, None, self._count + 1
        if before is not None:
            before.close()

    def __enter__(self) -> Board:
        return self

    def __exit__(self, kind: Optional[Type[BaseException]], fault: Optional[BaseException],
                 trace: Optional[TracebackType]) -> None:
        self.close()
