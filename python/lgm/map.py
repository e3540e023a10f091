"""A map of Lightning gossip, with routes over it."""

from __future__ import annotations

import ctypes
import os
import sys
from contextlib import contextmanager
from functools import partial
from typing import Any, Callable, Iterable, Iterator, List, Optional, Tuple, Type, Union

from . import library
from .arrival import packed_hops
from .estimates import Estimates
from .faults import NoRoute, check, check_message
from .handle import Handle, alone
from .library import Buffer, Octets, instance, number, octets
from .numbered import NoMemory, Nothing, Reason, Room
from .packing import (
    NO_POINT, NOBODY, NOT_ASKED, direction, funded, packed_all, packed_lacking, packed_lists, search_members, signed,
    written_route)
from .records import Channel, Edge, Lacking, Limit, Node, Preferences, Pruned, Route

# The messages of a channel, for `Map.message`: its announcement, and the updates of node 1 and node 2.
ANNOUNCEMENT, UPDATE_1, UPDATE_2 = range(3)

# The length of a buffer that is kept from call to call; a longer one is given back.
KEPT = 1 << 20

REASONS = {reason.value: reason for reason in Reason}


def begin_members(chain: Octets, known: Optional[Octets], seed: Optional[Octets]) -> Tuple[bytes, bool, bytes, int, bytes]:
    """What a map is opened with, as C takes it."""
    chain = octets("chain", chain, 32)
    seed = octets("seed", os.urandom(16) if seed is None else seed, 16)
    bits = b"" if known is None else octets("known", known)
    return chain, known is None, bits, len(bits), seed


class Map(Handle):
    """A map of one chain. Free it by `close`, or use it in a `with` statement.

    One that `publish` or `share` returns is published: it never changes, and what would change it raises `Published`.
    """

    _free = "lgm_free"

    def __init__(self, chain: Octets, known: Optional[Octets] = None, seed: Optional[Octets] = None) -> None:
        """`known` has the feature bits that are known, or is `None` if all are; `seed` is 16 random bytes."""
        begun = begin_members(chain, known, seed)
        self._set_up()
        check(self._library.lgm_open(self._at, *begun))

    @classmethod
    def load(cls: Type[Map], saved: Octets, chain: Octets, known: Optional[Octets] = None, seed: Optional[Octets] = None) -> Map:
        """The map of this chain that was saved as these bytes, with its mark there. Raises `NotSaved` of any others. `known` and
        `seed` are those of `Map`, and needn't be those of the map that was saved."""
        saved, begun = octets("saved", saved), begin_members(chain, known, seed)
        made = cls._closed()
        check(made._library.lgm_load(made._at, *begun, saved, len(saved)))
        return made

    @alone
    def save(self) -> bytes:
        """All that the map has as bytes, for `load`: its channels, updates and nodes as they were received, and its bans."""
        return self._saved(self._library.lgm_save)

    def _set_up(self) -> None:
        """Sets a closed handle, with the lock and the buffers of its calls."""
        super()._set_up()
        self._room = Buffer(4096)
        self._needed = ctypes.c_size_t()
        self._needed_at = ctypes.addressof(self._needed)
        self._hops = Buffer(library.MOST_HOPS * library.HOP.size)
        self._payloads = Buffer(library.MOST_PAYLOADS)
        self._struct = Buffer(max(library.LENGTHS.size, library.CHANNEL.size, library.NODE.size))
        self._nothing_known = Buffer(library.ESTIMATES.size)  # a closed handle of estimates
        self._offer = self._library.lgm_offer
        self._version = 0

    @alone
    def __len__(self) -> int:
        """The number of channels."""
        return int(self._library.lgm_count(self._at))

    def offer(self, message: Octets, sig: Union[str, Octets] = NOBODY, funding: Union[str, int] = NOT_ASKED) -> None:
        """Offers a gossip message, with the verdicts on it."""
        message = octets("message", message)
        number_of_sig, signer = signed(sig)
        number_of_funding, sat = funded(funding)
        with self._lock:
            outcome = self._offer(self._at, message, len(message), number_of_sig, signer, number_of_funding, sat)
            if outcome == library.OK:
                self._version += 1
        check_message(outcome, message)

    @alone
    def wanted(self, message: Octets) -> Optional[bytes]:
        """The key whose signature is to be verified, or `None` of a channel announcement, which has four, if the message would
        be accepted with the right verdicts. Else raises the refusal that it has even with these."""
        message = octets("message", message)
        self._struct.bytes[0] = b"\0"  # as no key begins
        check_message(self._library.lgm_wanted(self._at, message, len(message), self._struct.at), message)
        key = self._struct.front(33)
        return key if key[0] else None

    @alone
    def close_channel(self, scid: int) -> None:
        """Removes a channel, because its funding output was spent."""
        check(self._library.lgm_close_channel(self._at, number("scid", scid, 2**64)))
        self._version += 1

    @alone
    def ban(self, point: Octets) -> None:
        """Bans a node, and removes its channels, as contradicting announcements ban theirs."""
        check(self._library.lgm_ban(self._at, octets("point", point, 33)))
        self._version += 1

    @alone
    def prune(self, before: int, block: int = 0) -> List[Pruned]:
        """Removes each channel whose latest update, of both directions, has a timestamp below `before`, in seconds since 1970, and
        each without an update that was funded below a block. Returns them by ascending id; if memory runs out, those that were
        removed, if any were: another call goes on."""
        before, block = number("before", before, 2**32), number("block", block, 2**32)
        outcome = self._prune(before, block)
        if outcome == Room.number:
            self._room = Buffer(self._needed.value * library.PRUNED.size)
            outcome = self._prune(before, block)
        if outcome != NoMemory.number or not self._needed.value:
            check(outcome)
        pruned = [Pruned(*entry) for entry in library.PRUNED.iter_unpack(self._room.front(self._needed.value * library.PRUNED.size))]
        self._version += len(pruned)
        self._give_back()
        return pruned

    def _prune(self, before: int, block: int) -> int:
        """The number that a call returns that prunes, with the room that there is."""
        return int(self._library.lgm_prune(
            self._at, before, block, self._room.at, self._room.length // library.PRUNED.size, self._needed_at))

    def route(self, payer: Octets, payee: Octets, amount_msat: int, expiry: int, secret: Octets, edges: Iterable[Edge] = (),
              limits: Iterable[Limit] = (), silent: Iterable[Octets] = (), preferences: Optional[Preferences] = None,
              estimates: Optional[Estimates] = None, most_delay: Optional[int] = None, most_hops: Optional[int] = None,
              most_labels: Optional[int] = None, most_steps: Optional[int] = None) -> Route:
        """The best route by what the payer prefers (`Preferences`) and has learnt of edges (`Estimates`), else the one by which
        it sends the least. It is over edges beside the map's (`Edge`), with limits of what edges carry (`Limit`), without the
        map's edges out of silent nodes (points), with at most `most_delay` blocks between its expiry and that of the payment,
        and with at most `most_hops` hops.

        A search ends once it has made `most_labels` labels or taken `most_steps` steps, each by default a limit of the library.
        Then the route may not be the best one (`is_best`). Without one so far this raises `Undecided`: that says nothing about
        the payment. While it runs, other calls of the estimates wait; closed ones know nothing.

        Without a route it raises `NoRoute`, whose `reason` is found by further searches once it is asked for."""
        payment = (
            number("amount_msat", amount_msat, 2**64), number("expiry", expiry, 2**32),
            octets("payer", payer, 33), octets("payee", payee, 33), octets("secret", secret, 32))
        points = [octets("a node of silent", point, 33) for point in silent]
        held: List[Any] = []
        lists = packed_lists(edges, limits, points, held)
        search = search_members(preferences, most_delay, most_hops, most_labels, most_steps)
        return self._route(library.ATTEMPT.pack(*payment, *lists, *search), held, estimates)

    @alone
    def odds(self, route: Route, edges: Iterable[Edge] = (), limits: Iterable[Limit] = (),
             estimates: Optional[Estimates] = None) -> int:
        """How likely a route is to fail, in millionths: 3,000,000 are odds of 3 to 1 that it does. It is by the edges beside the
        map's, the limits and the estimates with which it was found."""
        held: List[Any] = []
        lists = packed_lists(edges, limits, (), held)
        attempt = library.ATTEMPT.pack(0, 0, NO_POINT, NO_POINT, bytes(32), *lists, *search_members(None, None, None, None, None))
        hops = packed_hops(route)
        odds = ctypes.c_uint32()
        with self._knowing(estimates) as known:
            check(self._library.lgm_odds(self._at, attempt, known, hops, len(route.hops), ctypes.byref(odds)))
        return odds.value

    @alone
    def fade(self, estimates: Estimates, elapsed: int, half_life: int) -> None:
        """Has what is known of edges fade beside this map, since balances move: half of it is left for each half-life, both in one
        unit of time. What then says little is forgotten, and so are edges of channels that the map doesn't have."""
        elapsed, half_life = number("elapsed", elapsed, 2**32), number("half_life", half_life, 2**32)
        with self._knowing(instance("estimates", estimates, Estimates)) as known:
            check(self._library.lgm_estimates_fade(known, self._at, elapsed, half_life))

    @contextmanager
    def _knowing(self, estimates: Optional[Estimates]) -> Iterator[int]:
        """The handle of estimates for one call, or one that knows nothing. Whoever takes the locks of a map and of estimates takes
        the map's first."""
        if estimates is None:
            yield self._nothing_known.at
            return
        with instance("estimates", estimates, Estimates)._lock:
            yield estimates._at

    @alone
    def _route(self, attempt: bytes, held: List[Any], estimates: Optional[Estimates]) -> Route:
        """The route that a call writes, for an attempt with the addresses of lists that are held."""
        with self._knowing(estimates) as known:
            outcome = self._library.lgm_attempt_route(self._at, attempt, known, self._hops.at, library.MOST_HOPS,
                                                      self._payloads.at, library.MOST_PAYLOADS, self._struct.at)
        if outcome == NoRoute.number:
            raise NoRoute(find=partial(self._reason, attempt, held))
        if outcome != library.SO_FAR:
            check(outcome)
        count, length = library.LENGTHS.unpack_from(self._struct.bytes)
        return written_route(self._hops, count, self._payloads.front(length), is_best=outcome != library.SO_FAR)

    def _reason(self, attempt: bytes, _held: List[Any]) -> Optional[Reason]:
        """Why the map has no route for an attempt now, whose lists are held, if that is found: of a closed map it isn't."""
        with self._lock:
            return REASONS.get(self._library.lgm_no_route_reason(self._at, attempt))

    @alone
    def query(self, message: Octets) -> List[bytes]:
        """The replies to a peer's query, a list of messages."""
        return self._messages(self._library.lgm_query, message)

    @alone
    def filter(self, message: Octets) -> List[bytes]:
        """The messages that pass a peer's filter."""
        return self._messages(self._library.lgm_filter, message)

    @alone
    def news(self, message: Octets) -> List[bytes]:
        """The messages that pass a peer's filter now, and didn't at the mark."""
        return self._messages(self._library.lgm_news, message)

    def news_since(self, before: Map, message: Octets) -> List[bytes]:
        """The messages that pass a peer's filter here, and didn't in an earlier map, which is another one."""
        if instance("before", before, Map) is self:
            raise ValueError("before is an earlier map, and not this one")
        between = self._library.lgm_news_between
        first, second = sorted((before, self), key=id)  # all threads take both locks in this order
        with first._lock, second._lock:
            return self._messages(lambda at, *rest: between(before._at, at, *rest), message)

    @alone
    def ask_range(self, first_block: int = 0, blocks: int = 2**32 - 1) -> bytes:
        """The message that asks a peer for the ids of its channels of `blocks` blocks from `first_block` on, and for the
        timestamps of their updates."""
        first_block, blocks = number("first_block", first_block, 2**32), number("blocks", blocks, 2**32)
        return self._written(self._library.lgm_ask_range, first_block, blocks)

    @alone
    def ask_filter(self, first: int, seconds: int = 2**32 - 1) -> bytes:
        """The message that asks a peer for gossip with timestamps from `first` on, for so many seconds."""
        first, seconds = number("first", first, 2**32), number("seconds", seconds, 2**32)
        return self._written(self._library.lgm_ask_filter, first, seconds)

    @alone
    def lacking(self, message: Octets) -> List[Lacking]:
        """What the map lacks of the channels in a peer's `reply_channel_range`, by ascending id."""
        message, count = octets("message", message), ctypes.c_size_t()
        most = len(message) // 8  # ids have eight bytes each
        room = Buffer(max(most, 1) * library.LACKING.size)
        check_message(self._library.lgm_lacking(self._at, message, len(message), room.at, most, ctypes.byref(count)), message)
        return [Lacking(*members) for members in library.LACKING.iter_unpack(room.front(count.value * library.LACKING.size))]

    @alone
    def ask_ids(self, lacking: Iterable[Lacking]) -> bytes:
        """The message that asks a peer for what is lacking of the first of these channels, at most `library.MOST_IDS`."""
        packed, count = packed_all("lacking", Lacking, lacking, packed_lacking)
        return self._written(self._library.lgm_ask_ids, packed, count)

    @alone
    def covered(self, message: Octets, next_block: int) -> int:
        """The block up to which a range is covered, exclusive, with a peer's `reply_channel_range` more. `next_block` is that
        without it, at first the first block of the range."""
        message = octets("message", message)
        covered = ctypes.c_uint64(number("next_block", next_block, 2**64))
        check_message(self._library.lgm_covered(self._at, message, len(message), ctypes.byref(covered)), message)
        return covered.value

    @alone
    def mark(self) -> None:
        """Moves the mark to the map as it is now."""
        check(self._library.lgm_mark(self._at))

    @alone
    def publish(self) -> Map:
        """The map as it is now, published: it has what the map has now, for good."""
        published = Map._closed()
        check(self._library.lgm_publish(self._at, published._at))
        published._version = self._version
        return published

    @alone
    def share(self) -> Map:
        """One more owner of a published map, for another thread. Nothing is copied."""
        other = Map._closed()
        check(self._library.lgm_share(self._at, other._at))
        other._version = self._version
        return other

    @property
    def version(self) -> int:
        """How many messages, closes and bans the map has accepted, or had when it was published. It is counted here, so it waits
        for no other call."""
        self._check_open()
        return self._version

    @alone
    def channel(self, scid: int) -> Channel:
        """What the map has of a channel."""
        check(self._library.lgm_channel(self._at, number("scid", scid, 2**64), self._struct.at))
        capacity_sat, node_1, node_2, *terms = library.CHANNEL.unpack_from(self._struct.bytes)
        half = len(terms) // 2  # of each direction
        return Channel(capacity_sat, node_1, node_2, direction(*terms[:half]), direction(*terms[half:]))

    @alone
    def node(self, point: Octets) -> Node:
        """What the map has of a node."""
        addresses = self._written(self._library.lgm_node, octets("point", point, 33), self._struct.at)
        timestamp, rgb, alias = library.NODE.unpack_from(self._struct.bytes)
        return Node(timestamp, rgb, alias, addresses)

    @alone
    def message(self, scid: int, which: int = ANNOUNCEMENT) -> bytes:
        """A message of a channel, as it was received: ANNOUNCEMENT, UPDATE_1 or UPDATE_2."""
        scid, which = number("scid", scid, 2**64), number("which", which, 2**32)
        return self._written(self._library.lgm_channel_message, scid, which)

    @alone
    def node_message(self, point: Octets) -> bytes:
        """A node's announcement, as it was received."""
        return self._written(self._library.lgm_node_message, octets("point", point, 33))

    def channels(self) -> Iterator[int]:
        """The ids of all channels, ascending."""
        for scid in self._keys(self._library.lgm_next_channel, 8):
            yield int.from_bytes(scid, sys.byteorder)

    def nodes(self) -> Iterator[bytes]:
        """The points of all nodes with an announcement, ascending byte by byte."""
        return self._keys(self._library.lgm_next_node, 33)

    def banned(self) -> Iterator[bytes]:
        """The points of all banned nodes, ascending byte by byte."""
        return self._keys(self._library.lgm_next_banned, 33)

    def _keys(self, call: Callable[..., Any], length: int) -> Iterator[bytes]:
        """The keys that a call goes through. Between two of them the map may change."""
        key, is_first = Buffer(length), True
        while True:
            with self._lock:
                outcome = call(self._at, is_first, key.at)
            if outcome == Nothing.number:
                return
            check(outcome)
            yield key.front(length)
            is_first = False

    def _written(self, call: Callable[..., Any], *arguments: Any, message: bytes = b"") -> bytes:
        """The bytes that a call writes, to a buffer that grows if it is too short. One that was large is given back."""
        outcome = call(self._at, *arguments, self._room.at, self._room.length, self._needed_at)
        if outcome == Room.number:
            self._room = Buffer(2 * self._needed.value)
            outcome = call(self._at, *arguments, self._room.at, self._room.length, self._needed_at)
        check_message(outcome, message)
        written = self._room.front(self._needed.value)
        self._give_back()
        return written

    def _give_back(self) -> None:
        """Makes the buffer short again, if it grew long."""
        if self._room.length > KEPT:
            self._room = Buffer(4096)

    def _messages(self, call: Callable[..., Any], message: Octets) -> List[bytes]:
        """The messages that a call writes, each after its length."""
        message = octets("message", message)
        written = self._written(call, message, len(message), message=message)
        messages, at = [], 0
        while at < len(written):
            end = at + 8 + int.from_bytes(written[at:at + 8], "little")
            messages.append(written[at + 8:end])
            at = end
        return messages
