"""What a payer is asked for and what it tells: invoices, bounds, parts, and what became of a payment."""

from __future__ import annotations

from dataclasses import dataclass, field
from enum import IntEnum
from typing import Any, List, Mapping, Optional, Tuple

from . import library
from .arrival import packed_metadata, packed_records
from .library import Octets, instance, number, octets
from .packing import lent, packed_all, packed_edge
from .records import Edge, Route


@dataclass(frozen=True)
class Invoice:
    """What a payee asks for, as the caller has decoded it (BOLT 11), and what else the payer sends to it."""

    payee: Octets
    amount_msat: int  # 1 or more; where the invoice has none, it is the payer's choice
    secret: Octets  # the payment secret, of the field `s`
    min_final_cltv_expiry_delta: int = 18  # in blocks, of the field `c`
    hints: Tuple[Edge, ...] = ()  # of the fields `r`: an edge from each node to the next, the last one to the payee
    metadata: Optional[Octets] = None  # of the field `m`
    records: Mapping[int, Octets] = field(default_factory=dict)  # custom ones, by their types
    basic_mpp: bool = False  # whether the payee takes several parts: feature 16 or 17


@dataclass(frozen=True)
class Bounds:
    """What a payment may take."""

    most_fee_msat: int  # the fees of all parts together that are under way or have arrived
    most_tries: int = 100  # parts that are ever sent
    most_parts: int = 16  # that are under way or have arrived, where the payee takes several
    least_part_msat: int = 10_000_000  # of a part, if the amount is divided
    most_blocks: int = 2_016  # until the first HTLC of a part expires


@dataclass(frozen=True)
class Part:
    """A part of a payment that is under way from now on, to be sent."""

    number: int  # how many parts the payer had sent before, over all payments
    amount_msat: int  # what the payee gets
    fee_msat: int  # what is sent beyond that
    blocks: int  # from the height until its first HTLC expires
    odds: int  # that it fails, in millionths: 3,000,000 are odds of 3 to 1
    route: Route  # its hops, with their payloads

    @property
    def payloads(self) -> Tuple[bytes, ...]:
        """The payloads of its hops, for the onion (BOLT 4)."""
        return tuple(hop.payload for hop in self.route.hops)


class Ending(IntEnum):
    """How a part ended."""

    HELD = library.PART_HELD  # it is under way, or has arrived if its payment is paid
    UNREADABLE = library.PART_UNREADABLE  # it failed, and no failure message could be read
    FAILED = library.PART_FAILED  # it failed with a failure message


@dataclass(frozen=True)
class SentPart:
    """A part that was sent before, and how it ended. Its hops have no payloads."""

    number: int
    amount_msat: int
    fee_msat: int
    blocks: int
    route: Route
    ending: Ending
    code: int  # the failure_code, of a part that failed with a message; else 0
    place: int  # the place of the node that returned it; else 0


class Stage(IntEnum):
    """What became of a payment."""

    OPEN = library.STAGE_OPEN  # parts may be sent
    ABANDONED = library.STAGE_ABANDONED  # nothing more is sent
    PAID = library.STAGE_PAID  # the payee took the whole


@dataclass(frozen=True)
class PaymentState:
    """A payment as it stands."""

    amount_msat: int
    left_msat: int  # what is neither under way nor has arrived
    fee_msat: int  # of the parts that are under way or have arrived
    tries: int  # how many parts were ever sent
    parts_held: int  # how many of them haven't failed: they are under way, or have arrived if it is paid
    stage: Stage


def packed_invoice(invoice: Invoice, held: List[Any]) -> bytes:
    """An invoice as C has it, with lists that last as long as what is held."""
    instance("invoice", invoice, Invoice)
    hints, count = packed_all("hints", Edge, invoice.hints, packed_edge)
    return library.INVOICE.pack(
        number("amount_msat", invoice.amount_msat, 2**64, least=1), lent(hints, held), count,
        *packed_metadata(invoice.metadata, held), *packed_records(invoice.records, held),
        number("min_final_cltv_expiry_delta", invoice.min_final_cltv_expiry_delta, 2**16),
        instance("basic_mpp", invoice.basic_mpp, bool), octets("payee", invoice.payee, 33), octets("secret", invoice.secret, 32))


def packed_bounds(bounds: Bounds) -> bytes:
    """Bounds as C has them."""
    instance("bounds", bounds, Bounds)
    most = library.MOST_SIZE + 1
    return library.BOUNDS.pack(
        number("most_fee_msat", bounds.most_fee_msat, 2**64), number("least_part_msat", bounds.least_part_msat, 2**64),
        number("most_tries", bounds.most_tries, most), number("most_parts", bounds.most_parts, most, least=1),
        number("most_blocks", bounds.most_blocks, 2**16))
