"""Verdicts, edges, limits and searches as C has them."""

from __future__ import annotations

import ctypes
from typing import Any, Callable, Iterable, List, Optional, Sequence, Tuple, Type, TypeVar, Union

from . import library
from .library import Octets, instance, number, octets
from .records import Direction, Edge, Hop, Lacking, Limit, Preferences, Route

# The verdicts on signatures, beside a point (`bytes`): the one whose signature a message has.
ALL_FOUR, NOT_ALL_FOUR, NOBODY = "all", "not-all", "nobody"
SIG_NAMES = "ALL_FOUR", "NOT_ALL_FOUR", "NOBODY"
SIGS = {ALL_FOUR: library.SIG_ALL_FOUR, NOT_ALL_FOUR: library.SIG_NOT_ALL_FOUR, NOBODY: library.SIG_NOBODY}

# The verdicts on a funding output, beside a number: the satoshi of one that is unspent and right.
NOT_ASKED, SPENT, WRONG = "-", "spent", "wrong"
FUNDINGS = {NOT_ASKED: library.FUNDING_NOT_ASKED, SPENT: library.FUNDING_SPENT, WRONG: library.FUNDING_WRONG}

NO_POINT = bytes(33)

Record = TypeVar("Record")


def signed(sig: Union[str, Octets]) -> Tuple[int, bytes]:
    """A verdict on signatures: its number, and the signer."""
    if not isinstance(sig, str):
        found = octets(f"sig, unless it is {', '.join(SIG_NAMES)},", sig)
        if len(found) != 33:
            raise ValueError(f"sig is {', '.join(SIG_NAMES)} or the 33 bytes of the point that signed, and not {len(found)} bytes")
        return library.SIG_BY, found
    if sig not in SIGS:
        raise ValueError(f"sig is {', '.join(SIG_NAMES)} or the 33 bytes of the point that signed, and not {sig!r:.80}")
    return SIGS[sig], NO_POINT


def funded(funding: Union[str, int]) -> Tuple[int, int]:
    """A verdict on a funding output: its number, and the satoshi."""
    if not isinstance(funding, str):
        if not isinstance(funding, int) or isinstance(funding, bool):
            raise TypeError(f"funding is NOT_ASKED, SPENT, WRONG or a number of satoshi, and not {funding!r:.80}")
        return library.FUNDING_UNSPENT, number("funding", funding, 2**64)
    if funding not in FUNDINGS:
        raise ValueError(f"funding is NOT_ASKED, SPENT, WRONG or a number of satoshi, and not {funding!r:.80}")
    return FUNDINGS[funding], 0


def packed_edge(edge: Edge) -> bytes:
    """An edge beside the map's."""
    return library.EDGE.pack(
        number("scid", edge.scid, 2**64), number("htlc_minimum_msat", edge.htlc_minimum_msat, 2**64),
        number("htlc_maximum_msat", edge.htlc_maximum_msat, 2**64), number("fee_base_msat", edge.fee_base_msat, 2**32),
        number("fee_proportional_millionths", edge.fee_proportional_millionths, 2**32),
        number("cltv_expiry_delta", edge.cltv_expiry_delta, 2**16),
        octets("start", edge.start, 33), octets("end", edge.end, 33))


def packed_limit(limit: Limit) -> bytes:
    """A limit of an edge."""
    return library.LIMIT.pack(number("scid", limit.scid, 2**64), number("most_msat", limit.most_msat, 2**64),
                              octets("start", limit.start, 33))


def packed_lacking(lacking: Lacking) -> bytes:
    """A channel of which messages are lacking."""
    return library.LACKING.pack(number("scid", lacking.scid, 2**64), number("timestamp_1", lacking.timestamp_1, 2**32),
                                number("timestamp_2", lacking.timestamp_2, 2**32), number("flags", lacking.flags, 2**8))


def lent(value: bytes, held: List[Any]) -> int:
    """The address of bytes, which last as long as what is held."""
    held.append(ctypes.create_string_buffer(value, max(len(value), 1)))
    return ctypes.addressof(held[-1])


def packed_all(name: str, kind: Type[Record], values: Iterable[Record], pack: Callable[[Record], bytes]) -> Tuple[bytes, int]:
    """Values of a class, one after the other, and their number."""
    if not isinstance(values, Iterable):
        raise TypeError(f"{name} are a list of {kind.__name__}, and not {type(values).__name__}")
    values = [instance(f"each of {name}", value, kind) for value in values]
    return b"".join(map(pack, values)), len(values)


def packed_lists(edges: Iterable[Edge], limits: Iterable[Limit], points: Sequence[bytes], held: List[Any]) -> List[int]:
    """The lists of an attempt, which last as long as what is held: the address and the length of each."""
    lists = []
    for packed, count in (packed_all("edges", Edge, edges, packed_edge), packed_all("limits", Limit, limits, packed_limit),
                          (b"".join(points), len(points))):
        lists += [lent(packed, held), count]
    return lists


def limited(name: str, value: Optional[int], most: int) -> int:
    """A limit of a search: 0 stands for none."""
    return 0 if value is None else number(name, value, most + 1, least=1)


def search_members(preferences: Optional[Preferences], most_delay: Optional[int], most_hops: Optional[int],
                   most_labels: Optional[int], most_steps: Optional[int]) -> Tuple[int, ...]:
    """What a payer prefers, and limits, as the members of a search."""
    return (
        *budget_members(most_labels, most_steps), *preferred(Preferences() if preferences is None else preferences),
        limited("most_delay", most_delay, 2**16 - 1), limited("most_hops", most_hops, library.MOST_HOPS))


def budget_members(most_labels: Optional[int], most_steps: Optional[int]) -> Tuple[int, int]:
    """The most steps and labels of a search."""
    return limited("most_steps", most_steps, 2**64 - 1), limited("most_labels", most_labels, library.MOST_SIZE)


def preferred(preferences: Preferences) -> Tuple[int, int]:
    """What a payer prefers."""
    instance("preferences", preferences, Preferences)
    return number("failure_msat", preferences.failure_msat, 2**32), number("hop_msat", preferences.hop_msat, 2**32)


def written_route(hops: library.Buffer, count: int, payloads: bytes, is_best: bool = True) -> Route:
    """A route from so many hops that C wrote, and their payloads one after the other."""
    found, end = [], 0
    for scid, amount, payload_len, expiry, sender, receiver in library.HOP.iter_unpack(hops.front(count * library.HOP.size)):
        start, end = end, end + payload_len
        found.append(Hop(scid, amount, expiry, sender, receiver, payloads[start:end]))
    return Route(tuple(found), is_best)


def direction(is_held: bool, *terms: int) -> Optional[Direction]:
    """The terms that C wrote of a channel's direction, if the map has some."""
    return Direction(*terms) if is_held else None
