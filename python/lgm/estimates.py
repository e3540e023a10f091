"""What a payer has learnt of edges."""

from __future__ import annotations

import sys
from typing import Any, Callable, Iterator, List, Tuple, Type

from .faults import check
from .handle import Handle, alone
from .library import ESTIMATE, Buffer, Octets, instance, number, octets
from .numbered import Nothing
from .records import Estimate

Entry = Tuple[int, bytes, Estimate]


def packed_estimate(estimate: Estimate) -> bytes:
    """An estimate as C has it."""
    instance("estimate", estimate, Estimate)
    return ESTIMATE.pack(*(number(name, getattr(estimate, name), 2**64) for name in (
        "least_msat", "most_msat", "penalty_msat")))


class Estimates(Handle):
    """What a payer has learnt of edges. Free it by `close`, or use it in a `with` statement.

    An edge is named by its id and the node that it leaves, its `start`, and needn't be in a map. The length is the number of
    edges of which something is known.
    """

    _free = "lgm_estimates_free"

    def __init__(self) -> None:
        """Nothing is known."""
        self._set_up()
        check(self._library.lgm_estimates_open(self._at))

    @classmethod
    def load(cls: Type[Estimates], saved: Octets) -> Estimates:
        """What was saved as these bytes. Raises `NotSaved` of any others."""
        saved, made = octets("saved", saved), cls._closed()
        check(made._library.lgm_estimates_load(made._at, saved, len(saved)))
        return made

    @alone
    def save(self) -> bytes:
        """What is known of edges, as bytes for `load`."""
        return self._saved(self._library.lgm_estimates_save)

    def _set_up(self) -> None:
        """Sets a closed handle, with the lock and the buffers of its calls."""
        super()._set_up()
        self._scid, self._start, self._estimate = Buffer(8), Buffer(33), Buffer(ESTIMATE.size)

    @alone
    def _call(self, call: Callable[..., Any], scid: int, start: Octets, *arguments: Any) -> int:
        """What a call on an edge returns."""
        return int(call(self._at, number("scid", scid, 2**64), octets("start", start, 33), *arguments))

    def set(self, scid: int, start: Octets, estimate: Estimate) -> None:
        """Sets what is believed of an edge, whatever was known of it."""
        check(self._call(self._library.lgm_estimates_set, scid, start, packed_estimate(estimate)))

    def carried(self, scid: int, start: Octets, amount_msat: int) -> None:
        """Notes that an edge carried an amount: it surely carries as much."""
        check(self._call(self._library.lgm_estimates_carried, scid, start, number("amount_msat", amount_msat, 2**64)))

    def failed(self, scid: int, start: Octets, amount_msat: int) -> None:
        """Notes that an edge failed to carry an amount: it surely carries less."""
        check(self._call(self._library.lgm_estimates_failed, scid, start, number("amount_msat", amount_msat, 2**64)))

    def forget(self, scid: int, start: Octets) -> bool:
        """Forgets what is known of an edge, and returns whether something was."""
        found = self._call(self._library.lgm_estimates_forget, scid, start)
        if found == Nothing.number:
            return False
        check(found)
        return True

    @alone
    def get(self, scid: int, start: Octets) -> Estimate:
        """What is believed of an edge, also if nothing is known of it."""
        scid, start = number("scid", scid, 2**64), octets("start", start, 33)
        check(self._library.lgm_estimate(self._at, scid, start, self._estimate.at))
        return Estimate(*ESTIMATE.unpack_from(self._estimate.bytes))

    @alone
    def __len__(self) -> int:
        """The number of edges of which something is known."""
        return int(self._library.lgm_estimates_count(self._at))

    def __iter__(self) -> Iterator[Entry]:
        """Each edge of which something is known now: its id, the node that it leaves, and what is believed of it."""
        return iter(self._entries())

    @alone
    def _entries(self) -> List[Entry]:
        """All of them."""
        return [self._entry(place) for place in range(self._library.lgm_estimates_count(self._at))]

    def _entry(self, place: int) -> Entry:
        """The one at a place."""
        check(self._library.lgm_estimates_at(self._at, place, self._scid.at, self._start.at, self._estimate.at))
        scid = int.from_bytes(self._scid.front(8), sys.byteorder)
        return scid, self._start.front(33), Estimate(*ESTIMATE.unpack_from(self._estimate.bytes))
