#!/usr/bin/env python3
"""Tests what the classes take and refuse before the library is called. A stub stands for the library.

    PYTHONPATH=python python3 python/tests/test_lgm.py

examples/test_embedding.py tests the rest, with the library.
"""

import copy
import ctypes
import gc
import os
import pickle
import sys
import tempfile
from dataclasses import replace
from pathlib import Path

sys.dont_write_bytecode = True  # the repository gets no made files

import lgm

CHAIN, POINT, SECRET = bytes(32), b"\2" + bytes(32), bytes(32)
PAYMENT = {"payer": POINT, "payee": POINT, "amount_msat": 1, "expiry": 1, "secret": SECRET}
LOAD = lgm.library.load.__wrapped__  # before a stub stands for it
EDGE, LIMIT, ESTIMATE = lgm.Edge(1, POINT, POINT), lgm.Limit(1, POINT), lgm.Estimate(1, 2, 3)
LACKING = lgm.Lacking(1)


class Stub:
    """A library whose calls all succeed, and are kept."""

    def __init__(self):
        self.calls = []

    def __getattr__(self, name):
        def call(_, *arguments):
            self.calls.append((name, *arguments))
            return 0
        return call

    def lgm_attempt_route(self, _, attempt, *arguments):
        """Keeps what the lists of an attempt have, which last as long as the call, and the search."""
        lists = lgm.library.ATTEMPT.unpack(attempt)[5:11]
        sizes = lgm.library.EDGE.size, lgm.library.LIMIT.size, 33
        found = [ctypes.string_at(place, count * size) for place, count, size in zip(lists[::2], lists[1::2], sizes)]
        assert len(attempt) == 192
        self.calls.append(("lgm_attempt_route", *found, attempt[-lgm.library.SEARCH.size:], *arguments))
        return 0


def over_edge(network, name):
    """A payment over an edge beside the map's, with a value in one of its fields."""
    return lambda value: network.route(**PAYMENT, edges=[replace(EDGE, **{name: value})])


def over_limit(network, name):
    """The same over a limit."""
    return lambda value: network.route(**PAYMENT, limits=[replace(LIMIT, **{name: value})])


def over_lacking(network, name):
    """A query of a channel with a value in one of its fields."""
    return lambda value: network.ask_ids([replace(LACKING, **{name: value})])


def over_preference(network, name):
    """The same by what the payer prefers."""
    return lambda value: network.route(**PAYMENT, preferences=lgm.Preferences(**{name: value}))


def over_estimate(estimates, name):
    """An estimate with a value in one of its fields."""
    return lambda value: estimates.set(1, POINT, replace(ESTIMATE, **{name: value}))


def refusal(call, *arguments, **named):
    """The class of what a call raises, with a text."""
    try:
        call(*arguments, **named)
    except (TypeError, ValueError) as fault:
        assert str(fault)
        return type(fault)
    return None


def fault(call, *arguments, **named):
    """The class of the fault that a call raises."""
    try:
        call(*arguments, **named)
    except lgm.Fault as raised:
        return type(raised)
    return None


def numbers_have_ranges(network):
    """No number is cut to the type that C has for it, and none is made of something else."""
    for call, below in ((network.close_channel, 2**64), (network.channel, 2**64), (network.message, 2**64),
                        (lambda which: network.message(0, which), 2**32),
                        (network.prune, 2**32), (lambda block: network.prune(0, block), 2**32),
                        (lambda sat: network.offer(b"", lgm.ALL_FOUR, sat), 2**64),
                        (lambda msat: network.route(**{**PAYMENT, "amount_msat": msat}), 2**64),
                        (lambda expiry: network.route(**{**PAYMENT, "expiry": expiry}), 2**32),
                        (over_preference(network, "failure_msat"), 2**32), (over_preference(network, "hop_msat"), 2**32),
                        *((over_edge(network, name), below) for name, below in (
                            ("scid", 2**64), ("htlc_minimum_msat", 2**64), ("htlc_maximum_msat", 2**64),
                            ("fee_base_msat", 2**32), ("fee_proportional_millionths", 2**32),
                            ("cltv_expiry_delta", 2**16))),
                        *((over_limit(network, name), 2**64) for name in ("scid", "most_msat")),
                        *((over_lacking(network, name), below) for name, below in (
                            ("scid", 2**64), ("timestamp_1", 2**32), ("timestamp_2", 2**32), ("flags", 2**8))),
                        (network.ask_range, 2**32), (lambda blocks: network.ask_range(0, blocks), 2**32),
                        (network.ask_filter, 2**32), (lambda seconds: network.ask_filter(0, seconds), 2**32),
                        (lambda block: network.covered(b"", block), 2**64)):
        for value in (-1, below, below + 1000):
            assert refusal(call, value) is ValueError, (call, value)
        for value in (1.0, True, None, b"1"):
            assert refusal(call, value) is TypeError, (call, value)


def limits_of_a_search_are_from_1_on(network):
    """0 would stand for none in C, so it is refused, and None stands for none."""
    for name, most in (("most_delay", 65_535), ("most_hops", 20), ("most_labels", 2**64 - 1), ("most_steps", 2**64 - 1)):
        for value in (-1, 0, most + 1):
            assert refusal(network.route, **PAYMENT, **{name: value}) is ValueError, (name, value)
        for value in (1.0, True, b"1"):
            assert refusal(network.route, **PAYMENT, **{name: value}) is TypeError, (name, value)


def what_is_preferred_has_a_class(network):
    """Preferences and estimates are of their classes, or None."""
    for preferences in ((1, 2), {"hop_msat": 1}, 1, LIMIT):
        assert refusal(network.route, **PAYMENT, preferences=preferences) is TypeError
    for estimates in ({}, [ESTIMATE], ESTIMATE, network, 0):
        assert refusal(network.route, **PAYMENT, estimates=estimates) is TypeError


def bytes_have_types_and_lengths(network):
    """Texts, numbers and lists aren't bytes; a point, a chain, a seed and a secret have their lengths."""
    calls = [network.query, network.filter, network.news, network.offer, network.wanted, lgm.reads, network.lacking,
             lambda reply: network.covered(reply, 0), lambda saved: lgm.Map.load(saved, CHAIN), lgm.Estimates.load,
             network.node, network.node_message, network.ban, lgm.Map,
             lambda sig: network.offer(b"", 0 if isinstance(sig, str) else sig),
             lambda seed: lgm.Map(CHAIN, seed=seed if seed is not None else 0),
             lambda known: lgm.Map(CHAIN, known=known if known is not None else 0),
             *(lambda value, name=name: network.route(**{**PAYMENT, name: value})
               for name in ("payer", "payee", "secret")),
             over_edge(network, "start"), over_edge(network, "end"), over_limit(network, "start"),
             lambda point: network.route(**PAYMENT, silent=[POINT, point])]
    for number, call in enumerate(calls):
        for value in ("00" * 33, 33, [0] * 33, None):
            assert refusal(call, value) is TypeError, (number, value)
    for number, call in enumerate(calls[10:]):
        wanted = None if number == 6 else ValueError  # the feature bits are of any length
        assert refusal(call, bytes(31)) is refusal(call, bytes(34)) is wanted, number


def says(words, call, *arguments, **named):
    """Whether a call is refused by a text that has these words."""
    try:
        call(*arguments, **named)
    except (TypeError, ValueError) as fault:
        return all(word in str(fault) for word in words)
    return False


def errors_name_the_argument(network, estimates):
    """What it may be, and what it was."""
    route = lgm.Route((lgm.Hop(1, 1_000, 1, POINT, POINT, b""),))
    for words, call in (
            (("payee", "bytes", "str", "fromhex"), lambda: network.route(**{**PAYMENT, "payee": "02" * 33})),
            (("payer", "33", "32"), lambda: network.route(**{**PAYMENT, "payer": CHAIN})),
            (("secret", "bytes", "int"), lambda: network.route(**{**PAYMENT, "secret": 7})),
            (("start", "33", "32"), lambda: network.route(**PAYMENT, edges=[replace(EDGE, start=CHAIN)])),
            (("edges", "Edge", "tuple"), lambda: network.route(**PAYMENT, edges=[(1, POINT, POINT)])),
            (("edges", "list of Edge", "Edge"), lambda: network.route(**PAYMENT, edges=EDGE)),
            (("estimates", "Estimates", "Map"), lambda: network.route(**PAYMENT, estimates=network)),
            (("chain", "bytes", "str"), lambda: lgm.Map("c1" * 32)), (("chain", "32", "33"), lambda: lgm.Map(POINT)),
            (("seed", "16", "32"), lambda: lgm.Map(CHAIN, seed=CHAIN)),
            (("sig", "ALL_FOUR", "33", "64"), lambda: network.offer(b"", bytes(64))),
            (("sig", "NOBODY", "bytes", "int"), lambda: network.offer(b"", 3)),
            (("funding", "SPENT", "satoshi", "b'"), lambda: network.offer(b"", lgm.ALL_FOUR, b"100")),
            (("funding", "NOT_ASKED", "None"), lambda: network.offer(b"", lgm.ALL_FOUR, None)),
            (("before", "Map", "Estimates"), lambda: network.news_since(estimates, b"")),
            (("network", "Map", "Estimates"), lambda: lgm.Board(estimates)),
            (("route", "Route", "tuple"), lambda: network.odds(route.hops)),
            (("lacking", "Lacking", "int"), lambda: network.ask_ids([1])),
            (("estimates", "Estimates", "Map"), lambda: network.fade(network, 1, 1)),
            (("half_life", "4294967295", "-1"), lambda: network.fade(estimates, 1, -1)),
            (("total_msat", "1000", "999"), lambda: lgm.payloads(route, SECRET, 999)),
            (("records", "dict", "list"), lambda: lgm.payloads(route, SECRET, records=[(65_536, b"")]))):
        assert says(words, call), words


def estimates_are_of_edges(estimates):
    """An edge has an id and a point, an estimate its class, and each number its range."""
    calls = (lambda scid: estimates.get(scid, POINT), lambda scid: estimates.forget(scid, POINT),
             lambda scid: estimates.set(scid, POINT, ESTIMATE), lambda scid: estimates.carried(scid, POINT, 1),
             lambda scid: estimates.failed(scid, POINT, 1), lambda msat: estimates.carried(1, POINT, msat),
             lambda msat: estimates.failed(1, POINT, msat), over_estimate(estimates, "least_msat"),
             over_estimate(estimates, "most_msat"))
    for call, below in (*((call, 2**64) for call in calls), (over_estimate(estimates, "penalty_msat"), 2**64)):
        for value in (-1, below):
            assert refusal(call, value) is ValueError
        for value in (1.0, True, None, b"1"):
            assert refusal(call, value) is TypeError
    for call in (lambda point: estimates.get(1, point), lambda point: estimates.forget(1, point),
                 lambda point: estimates.set(1, point, ESTIMATE), lambda point: estimates.carried(1, point, 1),
                 lambda point: estimates.failed(1, point, 1)):
        for value in ("00" * 33, 33, None):
            assert refusal(call, value) is TypeError
        for value in (bytes(32), bytes(34)):
            assert refusal(call, value) is ValueError
    for value in (LIMIT, (1, 2, 3), None):
        assert refusal(estimates.set, 1, POINT, value) is TypeError


def verdicts_are_named(network):
    """A verdict that is none is told."""
    for sig in ("ALL", "02" + "00" * 32, ""):
        assert refusal(network.offer, b"", sig) is ValueError
    for funding in ("100000", "unspent", ""):
        assert refusal(network.offer, b"", lgm.ALL_FOUR, funding) is ValueError


def lists_have_classes(network):
    """A limit is no edge, a hop is no limit, and a point alone isn't a list of points."""
    for edges in ([LIMIT], [POINT], [None], EDGE):
        assert refusal(network.route, **PAYMENT, edges=edges) is TypeError
    for limits in ([EDGE], [(1, POINT, 0)], LIMIT):
        assert refusal(network.route, **PAYMENT, limits=limits) is TypeError
    assert refusal(network.route, **PAYMENT, silent=POINT) is TypeError


def asked(library, network, **known):
    """The edges, limits and silent nodes of the call that a payment makes, the search, and the other arguments."""
    del library.calls[:]
    network.route(**PAYMENT, **known)
    (name, *arguments), = library.calls
    assert name == "lgm_attempt_route"
    return arguments


def what_a_payer_knows_is_packed(library, network):
    """Edges, limits and silent nodes come to the library as C has them."""
    edge = lgm.Edge(2**64 - 1, POINT, b"\3" * 33, 2**32 - 1, 2, 3, 4)
    limit = lgm.Limit(5, bytearray(POINT), 6)
    edges, limits, silent, *_ = asked(library, network, edges=iter([edge, EDGE]), limits=(limit,), silent=[POINT, CHAIN + b"7"])
    assert lgm.library.EDGE.unpack_from(edges) == (2**64 - 1, 4, 2**64 - 1, 2**32 - 1, 2, 3, POINT, b"\3" * 33)
    assert lgm.library.EDGE.unpack_from(edges, 104) == (1, 0, 2**64 - 1, 0, 0, 0, POINT, POINT) and len(edges) == 2 * 104
    assert lgm.library.LIMIT.unpack(limits) == (5, 6, POINT) and len(limits) == 56
    assert silent == POINT + CHAIN + b"7"


def what_a_payer_prefers_is_packed(library, network, estimates):
    """Preferences and limits come to the library as C has them, what is left out as 0, and no estimates as a closed handle."""
    *_, search, handle, _hops, hops_len, _payloads, payloads_len, _lengths = asked(
        library, network, preferences=lgm.Preferences(2**32 - 1, 5), estimates=estimates, most_delay=65_535, most_hops=20,
        most_labels=2**64 - 1, most_steps=7)
    assert lgm.library.SEARCH.unpack(search) == (7, 2**64 - 1, 2**32 - 1, 5, 65_535, 20) and len(search) == 32
    assert (handle, hops_len, payloads_len) == (estimates._at, 20, 1_300)
    for preferences in (None, lgm.Preferences()):
        *lists, search, handle, _hops, _hops_len, _payloads, _payloads_len, _lengths = asked(
            library, network, preferences=preferences)
        assert lists == 3 * [b""] and search == bytes(32) and ctypes.string_at(handle, 16) == bytes(16)
    assert asked(library, network, most_delay=1)[3] == lgm.library.SEARCH.pack(0, 0, 0, 0, 1, 0)


class Answering(Stub):
    """A library that answers payments with a number, while it tries whether the estimates are taken."""

    def __init__(self, number):
        super().__init__()
        self.number, self.estimates, self.is_taken, self.reason = number, None, None, 0
        self.asked = []

    def lgm_attempt_route(self, *_):
        self.is_taken = self.estimates is not None and self.estimates._lock.locked()
        return self.number

    def lgm_no_route_reason(self, _, attempt):
        """Keeps the limits that an attempt has now."""
        place, count = lgm.library.ATTEMPT.unpack(attempt)[7:9]
        self.asked.append(ctypes.string_at(place, count * lgm.library.LIMIT.size))
        return self.reason


def routes_tell_whether_they_are_the_best():
    """A route of the number 27 may not be the best one. Meanwhile no other call has the estimates, and then each may."""
    for number, is_best in ((0, True), (27, False)):
        library = Answering(number)
        lgm.library.load = lambda: library
        network, library.estimates = lgm.Map(CHAIN), lgm.Estimates()
        route = network.route(**PAYMENT, estimates=library.estimates)
        assert route == lgm.Route((), is_best) and library.is_taken
        assert len(library.estimates) == 0 and not library.estimates._lock.locked()
        assert network.route(**PAYMENT).is_best is is_best and not library.is_taken
    library.number = 26
    assert fault(network.route, **PAYMENT, estimates=library.estimates) is lgm.Undecided
    assert not library.estimates._lock.locked() and not network._lock.locked()
    assert lgm.Route(()) == lgm.Route((), True) != lgm.Route((), False)


def without_route(network, **known):
    """What a payment without a route raises."""
    try:
        network.route(**PAYMENT, **known)
    except lgm.NoRoute as why:
        return why
    assert False


def reasons_are_found_when_they_are_asked_for():
    """Once, for the reason or for the text, with the lists of the payment, which last until then."""
    library = Answering(25)
    lgm.library.load = lambda: library
    network = lgm.Map(CHAIN)
    for number, reason, text in ((44, lgm.Reason.PAYEE_LACKS_AMOUNT, "no-route: payee-lacks-amount"),
                                 (48, lgm.Reason.BEYOND_BOTH, "no-route: beyond-both"), (26, None, "no-route"),
                                 (102, None, "no-route"), (100, None, "no-route"), (0, None, "no-route")):
        for shown, wanted in ((str, text), (lambda why: why.reason, reason)):
            library.asked, library.reason = [], 41
            why = without_route(network, limits=iter([lgm.Limit(number, POINT, 7)]))
            gc.collect()
            assert library.asked == []
            library.reason = number
            assert (shown(why), why.reason, str(why)) == (wanted, reason, text)
            assert [lgm.library.LIMIT.unpack(limits) for limits in library.asked] == [(number, 7, POINT)]
    assert str(lgm.NoRoute()) == "no-route" and str(lgm.NoRoute(lgm.Reason.BEYOND_BOTH)) == "no-route: beyond-both"


def what_is_believed_is_packed(library, estimates):
    """An estimate comes to the library as C has it, with the id and the point of its edge."""
    del library.calls[:]
    estimates.set(2**64 - 1, bytearray(POINT), lgm.Estimate(1, 2, 2**64 - 1))
    estimates.set(0, POINT, lgm.Estimate())
    (*first, known), (*_, unknown) = library.calls
    assert first == ["lgm_estimates_set", 2**64 - 1, POINT]
    assert lgm.library.ESTIMATE.unpack(known) == (1, 2, 2**64 - 1) and len(known) == 24
    assert lgm.library.ESTIMATE.unpack(unknown) == (0, 2**64 - 1, 0)
    assert bool(estimates) and len(estimates) == 0 and list(estimates) == []


class Writer(Stub):
    """A library that writes this many bytes to each buffer that has room for them."""

    def __init__(self, length):
        super().__init__()
        self.length = length

    def lgm_query(self, _at, _message, _message_len, _room, room_len, needed):
        ctypes.c_size_t.from_address(needed).value = self.length
        return 0 if self.length <= room_len else 104


def large_buffers_are_given_back():
    """A buffer of a few bytes is kept from call to call, and one of megabytes isn't."""
    for length, is_kept in ((5_000, True), (5_000_000, False)):
        lgm.library.load = lambda: Writer(length)
        network = lgm.Map(CHAIN)
        before = network._room
        network._written(network._library.lgm_query, b"", 0)
        assert (network._room.length > before.length) is is_kept and network._room.length <= 1 << 20


class Pruner(Stub):
    """A library that closes so many channels where there is room for them, as far as memory suffices."""

    def __init__(self, count, most):
        super().__init__()
        self.count, self.most = count, most

    def lgm_prune(self, _at, before, block, room, room_len, needed):
        number = ctypes.c_size_t.from_address(needed)
        if room_len < self.count:
            number.value = self.count
            return 104
        number.value = min(self.count, self.most)
        written = b"".join(lgm.library.PRUNED.pack(scid, before + block) for scid in range(number.value))
        ctypes.memmove(room, written, len(written))
        return 102 if self.most < self.count else 0


def what_was_pruned_is_told():
    """As many as there are, or as memory suffices for; each is counted as a close."""
    for count, most, told in ((0, 0, 0), (3, 3, 3), (500, 500, 500), (3, 1, 1), (500, 499, 499)):
        lgm.library.load = lambda: Pruner(count, most)
        network = lgm.Map(CHAIN)
        assert network.prune(5, 2) == [lgm.Pruned(scid, 7) for scid in range(told)]
        assert network.version == told
    lgm.library.load = lambda: Pruner(3, 0)
    network = lgm.Map(CHAIN)
    assert fault(network.prune, 5, 2) is lgm.NoMemory and network.version == 0


def handles_are_not_copied(network, estimates):
    """Two objects with one handle would free it twice."""
    for handle in (network, estimates):
        for made in (copy.copy, copy.deepcopy, pickle.dumps):
            assert refusal(made, handle) is TypeError


def a_closed_handle_is_refused():
    """Before the library is called; and it may be closed again."""
    lgm.library.load = Stub
    network, estimates = lgm.Map(CHAIN), lgm.Estimates()
    for handle in (network, estimates):
        handle.close()
        handle.close()
        assert fault(len, handle) is lgm.Closed
    assert fault(lambda: network.version) is fault(network.route, **PAYMENT) is fault(network.publish) is lgm.Closed
    assert fault(estimates.get, 1, POINT) is fault(list, estimates) is lgm.Closed


def the_version_waits_for_nobody(network):
    """What was accepted is counted, also while a call runs."""
    before = network.version
    network.offer(b"")
    network.close_channel(1)
    network.ban(POINT)
    with network._lock:
        assert network.version == before + 3
    assert network.publish().version == network.publish().share().version == before + 3


def a_map_is_true(network):
    """Also one without channels, whose length is 0."""
    assert bool(network) and len(network) == 0


def bytes_of_any_kind_are_taken(network, library):
    """A `bytearray` and a `memoryview` come to the library as `bytes`."""
    for kind in (bytes, bytearray, memoryview):
        del library.calls[:]
        network.offer(kind(b"\1\0"), sig=kind(POINT), funding=2**64 - 1)
        network.close_channel(2**64 - 1)
        assert library.calls == [("lgm_offer", b"\1\0", 2, 2, POINT, 1, 2**64 - 1), ("lgm_close_channel", 2**64 - 1)]


def ids_have_parts():
    """An id is of three numbers, of 24, 24 and 16 bits."""
    assert lgm.short_channel_id("600000x1x0") == 600000 << 40 | 1 << 16
    assert lgm.short_channel_id("16777215x16777215x65535") == 2**64 - 1
    for text in ("16777216x0x0", "0x16777216x0", "0x0x65536", "1x1", "1x1x1x1", "-1x0x0", "1_0x0x0", "1x0x0\n", "1:0:0",
                 ""):
        assert refusal(lgm.short_channel_id, text) is ValueError, text
    assert refusal(lgm.short_channel_id, 600000) is TypeError


def the_library_is_found_in_order():
    """The file that the environment names goes before those that may be there, and the system's name comes last."""
    library, named = lgm.library, os.environ.pop("LGM_LIBRARY", None)
    with tempfile.TemporaryDirectory() as folder:
        kept, library.PLACES = library.PLACES, (Path(folder, "first"), Path(folder, "second"))
        assert library.place() == f"liblgm.so.{library.VERSION}"
        for place in reversed(library.PLACES):
            place.touch()
            assert library.place() == str(place)
        os.environ["LGM_LIBRARY"] = "named"
        assert library.place() == os.environ.pop("LGM_LIBRARY")
    library.PLACES = kept
    if named is not None:
        os.environ["LGM_LIBRARY"] = named


def a_wrong_library_says_so():
    """A library that isn't found, one for another machine, another one and one of another version say which file it is."""
    library, named, cdll = lgm.library, os.environ.pop("LGM_LIBRARY", None), ctypes.CDLL
    kept = library.LIBRARY, library.PLACES

    def said():
        """What the import error says."""
        try:
            LOAD()
        except ImportError as why:
            return str(why)

    with tempfile.TemporaryDirectory() as folder:
        library.PLACES = Path(folder, "first"), Path(folder, "second")
        library.LIBRARY = library.place()
        install = ". Install the wheel of lgm for this machine or its package for Debian, or set LGM_LIBRARY to the file"
        assert said() == (f"{library.NAME} isn't found: it was looked for as {folder}/first and as {folder}/second, and among "
                          f"the system's libraries; LGM_LIBRARY, which names another file, isn't set{install}")
        os.environ["LGM_LIBRARY"] = library.LIBRARY = f"{folder}/named"
        assert said() == f"{folder}/named, which LGM_LIBRARY names, isn't found{install}"
        Path(library.LIBRARY).write_bytes(b"\x7fELF")
        assert said().startswith(f"{folder}/named is there, but can't be loaded on this machine (") and said().endswith(install)
        for stub, told in ((object(), "isn't the library of lgm"), (Versioned(3), "has version 3 of the library of lgm, and this "
                           f"package is for version {library.VERSION}: install both of one version")):
            ctypes.CDLL = lambda _, stub=stub: stub
            assert said() == f"{folder}/named {told}"
        ctypes.CDLL = cdll
    library.LIBRARY, library.PLACES = kept
    del os.environ["LGM_LIBRARY"]
    if named is not None:
        os.environ["LGM_LIBRARY"] = named


class Versioned:
    """A library of which nothing is known but its version."""

    def __init__(self, version):
        self.lgm_version = lambda: version


def each_fault_has_a_name():
    """Each class of a fault is a name of the package, and so is all that it says it exports. Each number has a class or is a
    reason, with its word, but for those of a first fault and of success."""
    assert {kind.__name__ for kind in lgm.faults.FAULTS.values()} <= {*lgm.__all__}
    assert all(hasattr(lgm, name) for name in lgm.__all__)
    words = {number: word for number, word in lgm.library.WORDS.items() if number not in (0, 27, 28, *range(51, 62))}
    assert words == {number: kind.word for number, kind in (*lgm.faults.FAULTS.items(), *((one, one) for one in lgm.Reason))}


def main():
    """Runs each test, and looks that nothing refused came to the library."""
    library = Stub()
    lgm.library.load = lambda: library
    network, estimates = lgm.Map(CHAIN), lgm.Estimates()
    refusing = (numbers_have_ranges, bytes_have_types_and_lengths, verdicts_are_named, lists_have_classes,
                limits_of_a_search_are_from_1_on, what_is_preferred_has_a_class)
    for test in refusing:
        test(network)
    estimates_are_of_edges(estimates)
    errors_name_the_argument(network, estimates)
    assert {name for name, *_ in library.calls} <= {"lgm_open", "lgm_free", "lgm_estimates_open"}
    bytes_of_any_kind_are_taken(network, library)
    what_a_payer_knows_is_packed(library, network)
    what_a_payer_prefers_is_packed(library, network, estimates)
    what_is_believed_is_packed(library, estimates)
    a_map_is_true(network)
    handles_are_not_copied(network, estimates)
    the_version_waits_for_nobody(network)
    ids_have_parts()
    the_library_is_found_in_order()
    a_wrong_library_says_so()
    each_fault_has_a_name()
    large_buffers_are_given_back()
    what_was_pruned_is_told()
    routes_tell_whether_they_are_the_best()
    reasons_are_found_when_they_are_asked_for()
    a_closed_handle_is_refused()
    print(f"{len(refusing) + 18} passed")


if __name__ == "__main__":
    main()
