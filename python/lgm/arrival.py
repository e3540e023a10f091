"""What the payee gets beside the route: payloads of a part of a payment, with metadata and custom records."""

from __future__ import annotations

import ctypes
from typing import Any, List, Mapping, Optional, Tuple

from . import library
from .faults import check
from .library import Buffer, Octets, instance, number, octets
from .packing import lent
from .records import Hop, Route

# The least type of a custom record.
FIRST_CUSTOM = 65_536


def payloads(route: Route, secret: Octets, total_msat: Optional[int] = None, metadata: Optional[Octets] = None,
             records: Optional[Mapping[int, Octets]] = None) -> Tuple[bytes, ...]:
    """The payloads of a route's hops, in their order, for a payee that gets more than `Map.route` tells it: the total of all
    parts of the payment, if this is one of several; the payment metadata of its invoice; and custom records, by their types.
    Empty metadata are none.

    Raises ValueError if the total is less than the route carries, and `Argument` if the hops aren't 1 to 20 that follow one
    another, or the payloads don't fit an onion packet."""
    hops, count = packed_hops(route), len(route.hops)
    part = route.hops[-1].amount_msat if route.hops else 0
    held: List[Any] = []
    arrival = library.ARRIVAL.pack(
        number("total_msat", part if total_msat is None else total_msat, 2**64, least=part), *packed_metadata(metadata, held),
        *packed_records(records, held), octets("secret", secret, 32))
    written, made = ctypes.create_string_buffer(hops, max(len(hops), 1)), Buffer(library.MOST_PAYLOADS)
    lengths = Buffer(library.LENGTHS.size)
    check(library.load().lgm_payloads(arrival, ctypes.addressof(written), count, made.at, library.MOST_PAYLOADS, lengths.at))
    return tuple(_split(made, [hop[2] for hop in library.HOP.iter_unpack(written.raw[:len(hops)])]))


def packed_hops(route: Route) -> bytes:
    """The hops of a route, one after the other."""
    return b"".join(map(_packed_hop, instance("route", route, Route).hops))


def _packed_hop(hop: Hop) -> bytes:
    """A hop, without a payload."""
    return library.HOP.pack(number("scid", hop.scid, 2**64), number("amount_msat", hop.amount_msat, 2**64), 0,
                            number("expiry", hop.expiry, 2**32), octets("start", hop.start, 33), octets("end", hop.end, 33))


def _lent(value: bytes, held: List[Any]) -> Tuple[int, int]:
    """The address of bytes, which last as long as what is held, and their number."""
    return lent(value, held), len(value)


def packed_metadata(metadata: Optional[Octets], held: List[Any]) -> Tuple[int, int]:
    """The address of payment metadata, and their length."""
    return _lent(octets("metadata", b"" if metadata is None else metadata), held)


def packed_records(records: Optional[Mapping[int, Octets]], held: List[Any]) -> Tuple[int, int]:
    """The address of custom records by ascending types, and their number."""
    if not isinstance({} if records is None else records, Mapping):
        raise TypeError(f"records are a dict of bytes by their types, and not {type(records).__name__}")
    packed = [library.RECORD.pack(number("the type of a record", kind, 2**64, least=FIRST_CUSTOM), *_lent(octets("the value of a record", value), held))
              for kind, value in sorted((records or {}).items())]
    return _lent(b"".join(packed), held)[0], len(packed)


def _split(made: Buffer, lengths: List[int]) -> List[bytes]:
    """The payloads, which stand one after the other."""
    joined, end = made.front(sum(lengths)), 0
    found = []
    for length in lengths:
        start, end = end, end + length
        found.append(joined[start:end])
    return found
