#!/usr/bin/env python3
"""Tests what a payer takes and refuses before the library is called, and what it makes of what that writes. A stub stands for it.

    PYTHONPATH=python python3 python/tests/test_payer.py

examples/test_payer.py tests the rest, with the library.
"""

import ctypes
import sys
import threading
from dataclasses import replace

sys.dont_write_bytecode = True  # the repository gets no made files

import lgm
from lgm import library as declared
from lgm.payer import (
    Bounds, ChannelsShort, Ending, Invoice, Part, PathsShort, Payer, PayeeRefused, PayeeShort, SentPart, Stage, TooDear, Unpaid, Untold,
    failure_code, failure_name)

POINT, PEER, SECRET, CHAIN = b"\2" + bytes(32), b"\3" * 33, b"\7" * 32, bytes(32)
EDGE = lgm.Edge(5, POINT, PEER, htlc_maximum_msat=1_000)
HINT = lgm.Edge(6, PEER, b"\2" * 33, 1, 2, 3)
INVOICE, BOUNDS = Invoice(b"\2" * 33, 9_000, SECRET), Bounds(most_fee_msat=10)


class Stub:
    """A library whose calls return a number, 0 unless it is set, and are kept with what they were passed."""

    def __init__(self):
        self.calls, self.number, self.detail, self.places = [], 0, 0, []

    def __getattr__(self, name):
        def call(_, *arguments):
            self.calls.append((name, *arguments))
            return self.number if name.startswith("lgm_payer") and name != "lgm_payer_free" else 0
        return call

    def lgm_payer_begin(self, _, invoice, bounds, payment):
        """Keeps the lists of an invoice, which last as long as the call, and makes its number 7."""
        amount, hints, hints_len, metadata, metadata_len, records, records_len, *rest = declared.INVOICE.unpack(invoice)
        custom = [declared.RECORD.unpack(ctypes.string_at(records + place * declared.RECORD.size, declared.RECORD.size))
                  for place in range(records_len)]
        self.calls.append(("lgm_payer_begin", amount, ctypes.string_at(hints, hints_len * declared.EDGE.size),
                           ctypes.string_at(metadata, metadata_len),
                           [(kind, ctypes.string_at(at, length)) for kind, at, length in custom], rest,
                           declared.BOUNDS.unpack(bounds)))
        ctypes.cast(payment, ctypes.POINTER(ctypes.c_uint64))[0] = 7
        return self.number

    def lgm_payer_next(self, _, _map, payment, sight, part, hops, hops_len, payloads, payloads_len):
        """Keeps what a payer sees, and writes a part of two hops; with a number of a fault only what comes with it."""
        channels, count, *rest = declared.SIGHT.unpack(sight)
        self.calls.append(("lgm_payer_next", payment, ctypes.string_at(channels, count * declared.EDGE.size), rest))
        assert (hops_len, payloads_len) == (20, 1_300)
        if self.number:
            ctypes.memmove(part, declared.PART.pack(0, 0, 0, self.detail, 0, 0, 0, 0, False), declared.PART.size)
            return self.number
        made = declared.HOP.pack(5, 9_001, 2, 64, POINT, PEER) + declared.HOP.pack(6, 9_000, 3, 60, PEER, b"\2" * 33)
        ctypes.memmove(hops, made, len(made))
        ctypes.memmove(payloads, b"ABcde", 5)
        ctypes.memmove(part, declared.PART.pack(11, 9_000, 1, 0, 2, 5, 2_000_000, 64, False), declared.PART.size)
        return 0

    def lgm_payer_part(self, _, payment, place, part, hops, hops_len):
        """The part at a place, over one hop."""
        assert (payment, hops_len) == (7, 20)
        if place >= len(self.places):
            return lgm.Nothing.number
        ctypes.memmove(part, declared.PART_INFO.pack(*self.places[place]), declared.PART_INFO.size)
        ctypes.memmove(hops, declared.HOP.pack(5, 9_001, 0, 64, POINT, PEER), declared.HOP.size)
        return 0

    def lgm_payer_payment(self, _, payment, info):
        """A payment as it stands."""
        assert payment == 7
        ctypes.memmove(info, declared.PAYMENT_INFO.pack(9_000, 4_000, 3, 5, 2, self.detail), declared.PAYMENT_INFO.size)
        return self.number

    def lgm_payer_next_payment(self, _, is_first, payment):
        """Payments 3 and 9."""
        number = ctypes.cast(payment, ctypes.POINTER(ctypes.c_uint64))
        if not is_first and number[0] == 9:
            return lgm.Nothing.number
        number[0] = 3 if is_first else 9
        return 0

    def lgm_payer_save(self, _, room, length, needed):
        """Five bytes."""
        ctypes.cast(needed, ctypes.POINTER(ctypes.c_size_t))[0] = 5
        if length < 5:
            return lgm.Room.number
        ctypes.memmove(room, b"saved", 5)
        return 0


def made():
    """A stub, a map over it, and a payment of a payer, whose calls so far are forgotten."""
    library = Stub()
    lgm.library.load = lambda: library
    network, payer = lgm.Map(CHAIN), Payer(POINT)
    payment = payer.pay(INVOICE, BOUNDS)
    del library.calls[:]
    return library, network, payer, payment


def raised(call, *arguments, **named):
    """What a call raises."""
    try:
        call(*arguments, **named)
    except (TypeError, ValueError, lgm.Fault) as fault:
        return fault
    raise AssertionError("nothing is raised")


def says(kind, words, call, *arguments, **named):
    """Whether a call raises this class, with a text that has these words."""
    fault = raised(call, *arguments, **named)
    return type(fault) is kind and all(word in str(fault) for word in words)


def errors_name_the_argument():
    """What it may be, and what it was, before the library is called."""
    library, network, payer, payment = made()
    with_bounds = lambda **changed: lambda: payer.pay(INVOICE, replace(BOUNDS, **changed))  # noqa: E731
    with_invoice = lambda **changed: lambda: payer.pay(replace(INVOICE, **changed), BOUNDS)  # noqa: E731
    part = Part(1, 2, 3, 4, 5, lgm.Route(()))
    for kind, words, call in (
            (TypeError, ("point", "bytes", "str", "fromhex"), lambda: Payer("02" * 33)),
            (ValueError, ("point", "33", "32"), lambda: Payer(bytes(32))),
            (TypeError, ("estimates", "Estimates", "Map"), lambda: Payer(POINT, estimates=network)),
            (TypeError, ("preferences", "Preferences", "tuple"), lambda: Payer(POINT, (1, 2))),
            (TypeError, ("saved", "bytes", "str"), lambda: Payer.load("00")),
            (TypeError, ("invoice", "Invoice", "str"), lambda: payer.pay("lnbc1..", BOUNDS)),
            (TypeError, ("bounds", "Bounds", "int"), lambda: payer.pay(INVOICE, 1_000)),
            (ValueError, ("amount_msat", "from 1", "0"), with_invoice(amount_msat=0)),
            (TypeError, ("amount_msat", "int", "1.5"), with_invoice(amount_msat=1.5)),
            (TypeError, ("payee", "bytes", "str"), with_invoice(payee="02" * 33)),
            (ValueError, ("secret", "32", "31"), with_invoice(secret=bytes(31))),
            (TypeError, ("basic_mpp", "bool", "int"), with_invoice(basic_mpp=1)),
            (TypeError, ("hints", "Edge", "tuple"), with_invoice(hints=((6, PEER, POINT),))),
            (TypeError, ("hints", "Edge"), with_invoice(hints=HINT)),
            (TypeError, ("records", "dict", "list"), with_invoice(records=[(65_536, b"")])),
            (ValueError, ("type", "65536", "16"), with_invoice(records={16: b""})),
            (ValueError, ("min_final_cltv_expiry_delta", "65536"), with_invoice(min_final_cltv_expiry_delta=65_536)),
            (ValueError, ("most_parts", "from 1", "0"), with_bounds(most_parts=0)),
            (ValueError, ("most_blocks", "65536"), with_bounds(most_blocks=65_536)),
            (ValueError, ("most_fee_msat", "-1"), with_bounds(most_fee_msat=-1)),
            (TypeError, ("most_tries", "int", "None"), with_bounds(most_tries=None)),
            (TypeError, ("channels", "Edge", "tuple"), lambda: payer.set_channels([(5, POINT, PEER)], 0)),
            (ValueError, ("reckoned", "-1"), lambda: payer.set_channels([EDGE], -1)),
            (TypeError, ("network", "Map", "Payer"), lambda: payment.next_part(payer, 1)),
            (ValueError, ("height", "4294967296"), lambda: payment.next_part(network, 2**32)),
            (ValueError, ("most_steps", "from 1"), lambda: payment.next_part(network, 1, most_steps=0)),
            (TypeError, ("place", "int", "temporary_channel_failure"),
             lambda: payment.failed(part, "temporary_channel_failure", 1)),
            (ValueError, ("code", "BOLT 4", "temporary_failure"), lambda: payment.failed(part, 1, "temporary_failure")),
            (ValueError, ("code", "unreadable"), lambda: payment.failed(part, 1, "UNREADABLE_FAILURE")),
            (ValueError, ("code", "65536"), lambda: payment.failed(part, 1, 65_536)),
            (TypeError, ("code", "int", "None"), lambda: payment.failed(part, 1, None)),
            (ValueError, ("place", "-1"), lambda: payment.failed(part, -1, 0x1007)),
            (TypeError, ("is_renewed", "bool", "int"), lambda: payment.failed(part, 1, 0x1007, 1)),
            (TypeError, ("part", "Part", "Route"), lambda: payment.failed(part.route, 1, 0x1007)),
            (TypeError, ("part", "Part", "None"), lambda: payment.unreadable(None)),
            (TypeError, ("network", "Map", "Estimates"), lambda: payer.fade(lgm.Estimates(), 1, 1)),
            (ValueError, ("elapsed", "-1"), lambda: payer.fade(network, -1, 1))):
        assert says(kind, words, call), (words, raised(call))
    assert {name for name, *_ in library.calls} <= {"lgm_estimates_open", "lgm_estimates_free"}


def names_of_failures_have_three_spellings():
    """Those of BOLT 4, of LND and of Core Lightning; any code is itself."""
    for name, code in (("temporary_channel_failure", 0x1007), ("mpp_timeout", 23), ("unknown_next_peer", 0x400a),
                       ("incorrect_or_unknown_payment_details", 0x400f), ("permanent_node_failure", 0x6002),
                       ("invalid_onion_hmac", 0xc005), ("fee_insufficient", 0x100c), ("expiry_too_far", 21)):
        assert {failure_code(name), failure_code(name.upper()), failure_code(f"WIRE_{name.upper()}")} == {code}
        assert failure_code(code) == code and failure_name(code) == name
    assert failure_code(0xffff) == 0xffff and failure_name(0x1234) == "0x1234"
    for name in ("", "wire_", "temporary", "WIRE_WIRE_MPP_TIMEOUT", "TemporaryChannelFailure"):
        assert says(ValueError, ("code",), failure_code, name), name


def invoices_and_bounds_are_packed():
    """As C has them, with hints, metadata and records by ascending types."""
    library, _network, payer, _payment = made()
    whole = Invoice(bytearray(b"\2" * 33), 2**64 - 1, SECRET, 144, (HINT, EDGE), b"meta", {65_537: b"b", 65_536: b""}, True)
    assert payer.pay(whole, Bounds(1, 2, 3, 4, 5)).number == 7
    (name, amount, hints, metadata, records, rest, bounds), = library.calls
    assert (name, amount, metadata, records) == ("lgm_payer_begin", 2**64 - 1, b"meta", [(65_536, b""), (65_537, b"b")])
    assert rest == [144, True, b"\2" * 33, SECRET] and bounds == (1, 4, 2, 3, 5)
    assert [declared.EDGE.unpack_from(hints, place * 104)[0] for place in range(2)] == [6, 5]
    payer.pay(INVOICE, BOUNDS)
    assert library.calls[1][1:] == (9_000, b"", b"", [], [18, False, b"\2" * 33, SECRET], (10, 10_000_000, 100, 16, 2_016))


def what_a_payer_sees_is_packed():
    """Its channels as they were set last, what they reckon, the budget, the height, and what it prefers if it does."""
    library, network, payer, payment = made()
    payment.next_part(network, 5)
    payer.set_channels(iter([EDGE, EDGE]), 3)
    payment.next_part(network, 6, most_labels=8, most_steps=9)
    assert library.calls[0] == ("lgm_payer_next", 7, b"", [0, 0, 0, 5, 0, 0, False])
    name, number, channels, rest = library.calls[1]
    assert (name, number, rest) == ("lgm_payer_next", 7, [3, 9, 8, 6, 0, 0, False]) and len(channels) == 2 * 104
    assert declared.EDGE.unpack_from(channels)[:3] == (5, 0, 1_000)
    liked = Payer(POINT, lgm.Preferences(20, 30)).pay(INVOICE, BOUNDS)
    liked.next_part(network, 5)
    assert library.calls[-1][3] == [0, 0, 0, 5, 20, 30, True]


def parts_are_read():
    """A part has its route with payloads; there is none with LGM_WHOLE; and a fault comes with what it is about."""
    library, network, _payer, payment = made()
    part = payment.next_part(network, 5)
    hops = (lgm.Hop(5, 9_001, 64, POINT, PEER, b"AB"), lgm.Hop(6, 9_000, 60, PEER, b"\2" * 33, b"cde"))
    assert part == Part(11, 9_000, 1, 64, 2_000_000, lgm.Route(hops, False)) and part.payloads == (b"AB", b"cde")
    library.number = declared.WHOLE
    assert payment.next_part(network, 5) is None
    library.detail = 0x400f
    for number, kind in ((71, TooDear), (72, ChannelsShort), (73, PayeeShort), (77, PathsShort), (75, PayeeRefused)):
        library.number = number
        fault = raised(payment.next_part, network, 5)
        assert type(fault) is kind and isinstance(fault, Unpaid) and fault.word == lgm.library.WORDS[number]
        found = fault.code if number == 75 else fault.fee_msat if number == 71 else fault.room_msat
        assert found == 0x400f and ("incorrect_or_unknown_payment_details" if number == 75 else "16399") in str(fault)
    for number, kind in ((25, lgm.NoRoute), (26, lgm.Undecided), (74, lgm.TriesUsedUp), (76, lgm.Abandoned),
                         (89, lgm.ForeignChannel)):
        library.number = number
        assert type(raised(payment.next_part, network, 5)) is kind


def events_are_told():
    """With the numbers of the payment and the part; what the library refuses is raised."""
    library, _network, payer, payment = made()
    part = Part(11, 1, 2, 3, 4, lgm.Route(()))
    payment.failed(part, 1, "WIRE_TEMPORARY_CHANNEL_FAILURE")
    payment.failed(SentPart(12, 1, 2, 3, lgm.Route(()), Ending.HELD, 0, 0), 0, 0x100c, is_renewed=True)
    payment.unreadable(13)
    payment.fulfilled()
    payment.abandon()
    payment.forget()
    assert library.calls == [
        ("lgm_payer_failed", 7, 11, 1, 0x1007, False), ("lgm_payer_failed", 7, 12, 0, 0x100c, True),
        ("lgm_payer_unreadable", 7, 13), ("lgm_payer_fulfilled", 7), ("lgm_payer_abandon", 7), ("lgm_payer_forget", 7)]
    library.number = 85
    assert type(raised(payment.failed, part, 1, 0x400f)) is lgm.ForeignCode and issubclass(lgm.ForeignCode, Untold)
    library.number = 88
    assert type(raised(payment.forget)) is lgm.UnderWay
    payer.close()
    for call in (payment.forget, payment.fulfilled, lambda: payment.state, lambda: payer.sent, payer.save, payer.learnt):
        assert type(raised(call)) is lgm.Closed


def payments_are_looked_up():
    """Their state, their parts and their numbers."""
    library, _network, payer, payment = made()
    state = payment.state
    assert (state.amount_msat, state.left_msat, state.fee_msat, state.tries, state.parts_held, state.stage) == (
        9_000, 4_000, 3, 5, 2, Stage.OPEN)
    library.places = [(11, 5_000, 1, 1, 64, 0, 0, 0), (12, 4_000, 2, 1, 64, 2, 0x1007, 3), (13, 4_000, 2, 1, 64, 1, 0, 0)]
    route = lgm.Route((lgm.Hop(5, 9_001, 64, POINT, PEER, b""),))
    wanted = [SentPart(11, 5_000, 1, 64, route, Ending.HELD, 0, 0), SentPart(12, 4_000, 2, 64, route, Ending.FAILED, 0x1007, 3),
              SentPart(13, 4_000, 2, 64, route, Ending.UNREADABLE, 0, 0)]
    assert payment.parts == wanted and payment.parts_under_way == wanted[:1] and not payment.is_paid
    library.detail = declared.STAGE_PAID
    assert payment.is_paid and payment.parts_under_way == []
    assert [one.number for one in payer.payments] == [3, 9]
    assert payer.save() == b"saved" and type(payer.learnt()) is lgm.Estimates


def calls_wait_for_one_another():
    """Those of a payment for those of its payer, and for those of the map while it is searched."""
    library, network, payer, payment = made()
    seen = []
    library.lgm_payer_next = lambda *_: seen.append((payer._lock.locked(), network._lock.locked())) or declared.WHOLE
    payment.next_part(network, 1)
    assert seen == [(True, True)] and not payer._lock.locked() and not network._lock.locked()
    with payer._lock:
        waiting = threading.Thread(target=payment.fulfilled)
        waiting.start()
        waiting.join(0.05)
        assert waiting.is_alive() and library.calls == []
    waiting.join()
    assert library.calls == [("lgm_payer_fulfilled", 7)]


TESTS = (errors_name_the_argument, names_of_failures_have_three_spellings, invoices_and_bounds_are_packed,
         what_a_payer_sees_is_packed, parts_are_read, events_are_told, payments_are_looked_up, calls_wait_for_one_another)


def main():
    """Runs each of them."""
    for test in TESTS:
        test()
    print(f"{len(TESTS)} passed")


if __name__ == "__main__":
    main()
