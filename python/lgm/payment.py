"""A payment of a payer: what to send next, and what became of that."""

from __future__ import annotations

from typing import TYPE_CHECKING, Any, Callable, List, Optional, Union

from . import library
from .failures import failure_code
from .faults import check, check_detailed
from .handle import alone
from .library import Buffer, instance, number
from .map import Map
from .numbered import Nothing
from .packing import budget_members, written_route
from .payments import Ending, Part, PaymentState, SentPart, Stage

if TYPE_CHECKING:
    from .payer import Payer


class Payment:
    """A payment of a payer, by its number. Its calls wait for one another, and for those of the payer."""

    def __init__(self, payer: Payer, payment: int) -> None:
        self.number = payment
        self._payer, self._library, self._at = payer, payer._library, payer._at
        self._lock, self._check_open = payer._lock, payer._check_open
        self._info = Buffer(max(library.PART.size, library.PAYMENT_INFO.size, library.PART_INFO.size))
        self._hops, self._payloads = Buffer(library.MOST_HOPS * library.HOP.size), Buffer(library.MOST_PAYLOADS)

    def next_part(self, network: Map, height: int, most_labels: Optional[int] = None,
                  most_steps: Optional[int] = None) -> Optional[Part]:
        """The part to send next, in a map, while the chain has this height; it is under way from now on. None, if all of the amount
        is under way, or the payee took it. Else raises why nothing can be sent: a class of `Unpaid` or `Unrouted`, or `Undecided`;
        what is under way is then still to be waited for."""
        budget = budget_members(most_labels, most_steps)
        return self._next(instance("network", network, Map), number("height", height, 2**32), *budget)

    @alone
    def _next(self, network: Map, height: int, most_steps: int, most_labels: int) -> Optional[Part]:
        """The next part. Whoever takes the locks of a payer and of a map takes the payer's first."""
        channels, _held = self._payer._told
        sight = library.SIGHT.pack(*channels, most_steps, most_labels, height, *self._payer._preferences)
        with network._lock:
            outcome = self._library.lgm_payer_next(self._at, network._at, self.number, sight, self._info.at, self._hops.at,
                                                   library.MOST_HOPS, self._payloads.at, library.MOST_PAYLOADS)
        if outcome == library.WHOLE:
            return None
        part, amount, fee, detail, hops, length, odds, blocks, is_best = library.PART.unpack_from(self._info.bytes)
        check_detailed(outcome, detail)
        return Part(part, amount, fee, blocks, odds, written_route(self._hops, hops, self._payloads.front(length), is_best))

    def failed(self, part: Union[Part, SentPart, int], place: int, code: Union[int, str], is_renewed: bool = False) -> None:
        """Notes that a part failed with a failure message (BOLT 4): the place of the node that returned it, where 1 is the node that
        the first hop leads to and 0 the payer, and its failure_code or that one's name. If the message is about an edge's terms,
        offer the update that came with it to the map first: `is_renewed` says whether it was accepted."""
        place, code = number("place", place, 2**8), failure_code(code)
        self._tell(self._library.lgm_payer_failed, number_of(part), place, code, instance("is_renewed", is_renewed, bool))

    def unreadable(self, part: Union[Part, SentPart, int]) -> None:
        """Notes that a part failed, and that no failure message could be read."""
        self._tell(self._library.lgm_payer_unreadable, number_of(part))

    def fulfilled(self) -> None:
        """Notes that the payee took the whole: a preimage came back. All parts that are under way have arrived."""
        self._tell(self._library.lgm_payer_fulfilled)

    def abandon(self) -> None:
        """Sends nothing more. What is under way is waited for."""
        self._tell(self._library.lgm_payer_abandon)

    def forget(self) -> None:
        """Has the payer forget the payment, of which nothing is under way. What was learnt stays. If it was paid, the payer's
        channels have to reckon all parts that were sent so far from now on (`Payer.set_channels`)."""
        self._tell(self._library.lgm_payer_forget)

    @alone
    def _tell(self, call: Callable[..., Any], *arguments: Any) -> None:
        """Tells the payer something of the payment."""
        check(call(self._at, self.number, *arguments))

    @property
    def state(self) -> PaymentState:
        """The payment as it stands."""
        return self._state()

    @alone
    def _state(self) -> PaymentState:
        """The same."""
        check(self._library.lgm_payer_payment(self._at, self.number, self._info.at))
        amount, left, fee, tries, held, stage = library.PAYMENT_INFO.unpack_from(self._info.bytes)
        return PaymentState(amount, left, fee, tries, held, Stage(stage))

    @property
    def is_paid(self) -> bool:
        """Whether the payee took the whole."""
        return self.state.stage is Stage.PAID

    @property
    def parts(self) -> List[SentPart]:
        """The parts that were ever sent, in order."""
        return self._parts()

    @property
    def parts_under_way(self) -> List[SentPart]:
        """Those of which nothing is known yet."""
        return [] if self.is_paid else [part for part in self.parts if part.ending is Ending.HELD]

    @alone
    def _parts(self) -> List[SentPart]:
        """All parts."""
        found: List[SentPart] = []
        while part := self._part(len(found)):
            found.append(part)
        return found

    def _part(self, place: int) -> Optional[SentPart]:
        """The part at a place, if there is one."""
        outcome = self._library.lgm_payer_part(self._at, self.number, place, self._info.at, self._hops.at, library.MOST_HOPS)
        if outcome == Nothing.number:
            return None
        check(outcome)
        part, amount, fee, hops, blocks, ending, code, node = library.PART_INFO.unpack_from(self._info.bytes)
        return SentPart(part, amount, fee, blocks, written_route(self._hops, hops, b""), Ending(ending), code, node)


def number_of(part: Union[Part, SentPart, int]) -> int:
    """The number of a part."""
    if isinstance(part, (Part, SentPart)):
        return part.number
    if not isinstance(part, int) or isinstance(part, bool):
        raise TypeError(f"part is a Part, a SentPart or the number of one, and not {part!r:.80}")
    return number("part", part, 2**64)
