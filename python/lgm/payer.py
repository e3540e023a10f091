"""A payer: what to send next for invoices, by what became of what was sent. It has no sockets and no node (docs/paying.md).

    with Payer(point) as payer:
        payer.set_channels([Edge(scid, point, peer, htlc_maximum_msat=can_send), ..], reckoned=payer.sent)
        payment = payer.pay(Invoice(payee, amount_msat, secret, hints=hints, basic_mpp=True), Bounds(most_fee_msat=10_000))
        while part := payment.next_part(network, height):
            send(part)  # the onion, and don't wait: a payee holds parts until all have come

and then, for each event, one of `payment.fulfilled()`, `payment.failed(part, place, code)` and `payment.unreadable(part)`, and
behind a failure again all parts that are next. What decides amounts, routes and what was learnt is the library's.
"""

from __future__ import annotations

import ctypes
from typing import Any, Iterable, List, Optional, Tuple, Type

from . import library
from .estimates import Estimates
from .failures import failure_code as failure_code, failure_name as failure_name
from .faults import ChannelsShort as ChannelsShort, PathsShort as PathsShort, PayeeRefused as PayeeRefused
from .faults import PayeeShort as PayeeShort, TooDear as TooDear, check
from .handle import Handle, alone
from .library import Octets, instance, number, octets
from .map import Map
from .numbered import Nothing, TriesUsedUp as TriesUsedUp, Unpaid as Unpaid, Untold as Untold
from .packing import lent, packed_all, packed_edge, preferred
from .payment import Payment
from .payments import Bounds as Bounds, Ending as Ending, Invoice as Invoice, Part as Part, PaymentState as PaymentState
from .payments import SentPart as SentPart, Stage as Stage, packed_bounds, packed_invoice
from .records import Edge, Preferences


class Payer(Handle):
    """A node that pays: its payments, with what is under way of them, and what it has learnt of edges. Free it by `close`, or use
    it in a `with` statement. Any thread may use it and its payments: their calls wait for one another."""

    _free = "lgm_payer_free"

    def __init__(self, point: Octets, preferences: Optional[Preferences] = None, estimates: Optional[Estimates] = None) -> None:
        """It has learnt what the estimates have, of which it gets a copy. Without preferences each payment has its own: a failed try
        is worth 200 millionths of its amount, but a hundredth of it up to 20 sat, and a hop half a satoshi."""
        point = octets("point", point, 33)
        self._prefer(preferences)
        learnt = Estimates._closed() if estimates is None else instance("estimates", estimates, Estimates)
        self._set_up()
        with learnt._lock:
            learnt._check_open()
            check(self._library.lgm_payer_open(self._at, point, learnt._at))

    @classmethod
    def load(cls: Type[Payer], saved: Octets, preferences: Optional[Preferences] = None) -> Payer:
        """The payer that was saved as these bytes. Raises `NotSaved` of any others. Its channels are to be set again."""
        saved, made = octets("saved", saved), cls._closed()
        made._prefer(preferences)
        check(made._library.lgm_payer_load(made._at, saved, len(saved)))
        return made

    def _prefer(self, preferences: Optional[Preferences]) -> None:
        """Sets what is preferred."""
        self._preferences = (0, 0, False) if preferences is None else (*preferred(preferences), True)

    def _set_up(self) -> None:
        """Sets a closed handle, with the lock and the buffers of its calls."""
        super()._set_up()
        self._number = ctypes.c_uint64()
        self.set_channels((), 0)

    def set_channels(self, channels: Iterable[Edge], reckoned: int) -> None:
        """Sets the payer's channels: edges out of it, each with what it can send now, as its node tells; and how many parts the node
        reckons in that, all with a lower number. What later parts take is deducted. Of a node that had all parts when it was asked
        that is `sent` of then."""
        held: List[Any] = []
        packed, count = packed_all("channels", Edge, channels, packed_edge)
        told = (lent(packed, held), count, number("reckoned", reckoned, 2**64)), held
        with self._lock:
            self._told: Tuple[Tuple[int, int, int], List[Any]] = told

    def pay(self, invoice: Invoice, bounds: Bounds) -> Payment:
        """Begins a payment. An invoice that is begun twice is paid twice."""
        held: List[Any] = []
        return Payment(self, self._begin(packed_invoice(invoice, held), packed_bounds(bounds), held))

    @alone
    def _begin(self, invoice: bytes, bounds: bytes, _held: List[Any]) -> int:
        """Begins a payment of an invoice with lists that are held, and returns its number."""
        check(self._library.lgm_payer_begin(self._at, invoice, bounds, ctypes.byref(self._number)))
        return self._number.value

    @property
    def payments(self) -> List[Payment]:
        """All payments that were begun, but for those that were forgotten."""
        return [Payment(self, found) for found in self._numbers()]

    @alone
    def _numbers(self) -> List[int]:
        """The numbers of these."""
        found: List[int] = []
        while (outcome := self._library.lgm_payer_next_payment(self._at, not found, ctypes.byref(self._number))) == library.OK:
            found.append(self._number.value)
        if outcome != Nothing.number:
            check(outcome)
        return found

    @property
    def sent(self) -> int:
        """How many parts were sent, over all payments: the number of the next one."""
        return self._sent()

    @alone
    def _sent(self) -> int:
        """The same."""
        return int(self._library.lgm_payer_sent(self._at))

    @alone
    def learnt(self) -> Estimates:
        """A copy of what was learnt of edges."""
        made = Estimates._closed()
        check(self._library.lgm_payer_learnt(self._at, made._at))
        return made

    @alone
    def fade(self, network: Map, elapsed: int, half_life: int) -> None:
        """Has what was learnt fade, since balances move: half of it is left for each half-life, both in one unit of time."""
        elapsed, half_life = number("elapsed", elapsed, 2**32), number("half_life", half_life, 2**32)
        with instance("network", network, Map)._lock:
            check(self._library.lgm_payer_fade(self._at, network._at, elapsed, half_life))

    @alone
    def save(self) -> bytes:
        """All that the payer is but its channels and preferences, as bytes for `load`. Save it before a part is sent."""
        return self._saved(self._library.lgm_payer_save)
