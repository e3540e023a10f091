"""Payloads for what a payee gets beside the route. The bytes are worked out by hand, from BOLT 4, "Payload Format": each payload
begins with its length, and each record has its type, its length and its value.
"""

from dataclasses import replace

import lgm
from calls import A, B, HOP, LENGTHS, SECRET, Hop, at, library, test
from ctypes import addressof, create_string_buffer
from lgm.library import ARRIVAL, MOST_PAYLOADS, RECORD

C = b"\4" * 33
METADATA, PREIMAGE, KEYSEND = b"\1\2\3", b"\x22" * 32, 5_482_373_484
# A sends B 10,005 msat over channel 5 until block 700,030, and B forwards 10,000 msat to C over channel 6 until 700,000.
TWO = [Hop(5, 10_005, 0, 700_030, A, B), Hop(6, 10_000, 0, 700_000, B, C)]
# What both payloads begin with: amt_to_forward, 10,000, and outgoing_cltv_value, 700,000. Behind it B has the next channel,
# and C payment_data: the secret, and a total of 30,000.
BOTH = b"\x02\x02\x27\x10" + b"\x04\x03\x0a\xae\x60"
FORWARD = b"\x13" + BOTH + b"\x06\x08" + bytes(7) + b"\x06"
PAID = BOTH + b"\x08\x22" + SECRET + b"\x75\x30"
# payment_metadata, and the record of the preimage, whose type takes nine bytes.
MORE = b"\x10\x03" + METADATA + b"\xff\0\0\0\x01\x46\xc6\x61\x6c\x20" + PREIMAGE


def asked(hops, total_msat=30_000, metadata=b"", records=(), payloads_len=MOST_PAYLOADS):
    """What is answered for hops, and the payloads over sevens: the number, the hops as they are then, the lengths over 7."""
    values = [create_string_buffer(value, max(len(value), 1)) for _, value in records]
    packed = b"".join(RECORD.pack(kind, addressof(room), len(value)) for (kind, value), room in zip(records, values))
    held, listed = create_string_buffer(metadata, max(len(metadata), 1)), create_string_buffer(packed, max(len(packed), 1))
    arrival = ARRIVAL.pack(total_msat, addressof(held), len(metadata), addressof(listed), len(records), SECRET)
    room, lengths = bytearray(b"".join(HOP.pack(*hop) for hop in hops) or b"\7"), bytearray(LENGTHS.pack(7, 7))
    payloads = bytearray(b"\7" * payloads_len)
    number = library.lgm_payloads(arrival, at(room), len(hops), at(payloads), payloads_len, at(lengths))
    return number, [Hop(*one) for one in HOP.iter_unpack(room)] if hops else [], LENGTHS.unpack(lengths), bytes(payloads)


def answer(hops, **beside):
    """The payloads, one after the other. Their lengths are in the hops, which are the same otherwise; the rest is unchanged."""
    number, written, lengths, payloads = asked(hops, **beside)
    assert number == 0
    assert [one._replace(payload_len=0) for one in written] == hops
    assert lengths == (len(hops), sum(one.payload_len for one in written))
    assert payloads[lengths[1]:] == b"\7" * (len(payloads) - lengths[1])
    found, end = [], 0
    for one in written:
        start, end = end, end + one.payload_len
        found.append(payloads[start:end])
    return found


def is_refused(number, hops, **beside):
    """Whether the answer is this number, and nothing was written."""
    return asked(hops, **beside) == (number, hops, (7, 7), b"\7" * MOST_PAYLOADS)


@test
def a_part_of_two():
    """The payee gets the amount of the part, and the total of all parts."""
    assert answer(TWO) == [FORWARD, b"\x2d" + PAID]
    assert answer(TWO[1:]) == [b"\x2d" + PAID]
    # In one part, what lgm_route writes: the amount is the total.
    assert answer(TWO, total_msat=10_000)[1] == b"\x2d" + PAID[:-2] + b"\x27\x10"


@test
def metadata_and_custom_records():
    """Metadata come behind the known records, and custom records behind them, in ascending order."""
    assert answer(TWO, metadata=METADATA) == [FORWARD, b"\x32" + PAID + MORE[:5]]
    assert answer(TWO, metadata=METADATA, records=[(KEYSEND, PREIMAGE)]) == [FORWARD, b"\x5c" + PAID + MORE]
    two = [(65_536, b""), (2**64 - 1, b"\5")]
    records = b"\xfe\0\1\0\0\0" + b"\xff" + b"\xff" * 8 + b"\1\5"
    assert answer(TWO, records=two) == [FORWARD, b"\x3e" + PAID + records]


@test
def wrong_records():
    """Types below 65,536, and types that aren't ascending, are refused."""
    for records in ([(65_535, b"")], [(16, METADATA)], [(2, b"\1"), (65_536, b"")], [(65_536, b""), (8, b"")], [(0, b"")]):
        assert is_refused(117, TWO, records=records)
    for records in ([(65_536, b""), (65_536, b"")], [(KEYSEND, PREIMAGE), (65_537, b"")]):
        assert is_refused(118, TWO, records=records)


@test
def the_length_of_an_onion():
    """The payloads with an HMAC each have at most 1,300 bytes. That of one hop has three bytes of length, 45 of known records,
    and a custom record with five bytes of type and three of length."""
    one = TWO[1:]
    found = answer(one, records=[(65_536, bytes(1_212))])
    assert found == [b"\xfd\x04\xf1" + PAID + b"\xfe\0\1\0\0\xfd\x04\xbc" + bytes(1_212)]
    assert len(found[0]) + 32 == 1_300
    assert is_refused(119, one, records=[(65_536, bytes(1_213))])
    assert is_refused(119, one, metadata=bytes(100_000))


@test
def hops_that_are_no_route():
    """1 to 20 hops are a route, each of which begins where the one before ends, with no greater amount and no later expiry."""
    first, last = TWO
    assert is_refused(116, [])
    assert is_refused(116, [first, last._replace(start=A)])
    assert is_refused(116, [first._replace(end=C), last])
    assert is_refused(116, [first, last._replace(amount_msat=10_006)])
    assert is_refused(116, [first, last._replace(expiry=700_031)])
    assert is_refused(116, [last, first])
    same = first._replace(start=A, end=A)
    assert len(answer([same] * 20)) == 20
    assert is_refused(116, [same] * 21)


@test
def a_short_buffer():
    """The lengths are written, and nothing else."""
    exact = len(FORWARD) + 1 + len(PAID)
    assert asked(TWO, payloads_len=exact - 1) == (104, TWO, (2, exact), b"\7" * (exact - 1))
    assert answer(TWO, payloads_len=exact) == [FORWARD, b"\x2d" + PAID]


@test
def from_python():
    """The payloads of a route, hop by hop; records in any order; and arguments that Python refuses."""
    hops = tuple(lgm.Hop(one.scid, one.amount_msat, one.expiry, one.start, one.end, b"") for one in TWO)
    route = lgm.Route(hops)
    assert lgm.payloads(route, SECRET, 30_000) == (FORWARD, b"\x2d" + PAID)
    records = {2**64 - 1: bytearray(b"\5"), 65_536: b""}
    behind = b"\xfe\0\1\0\0\0" + b"\xff" * 9 + b"\1\5"
    assert lgm.payloads(route, SECRET, 30_000, records=records)[1] == b"\x3e" + PAID + behind
    assert lgm.payloads(route, SECRET, 30_000, METADATA, {KEYSEND: PREIMAGE})[1] == b"\x5c" + PAID + MORE
    assert lgm.payloads(route, SECRET)[1] == b"\x2d" + PAID[:-2] + b"\x27\x10"
    refused = [(lgm.WrongHops, (replace(route, hops=()), SECRET)), (lgm.WrongHops, (replace(route, hops=hops[::-1]), SECRET)),
               (lgm.PayloadsTooLong, (route, SECRET, 30_000, bytes(1_300))), (ValueError, (route, SECRET[1:])),
               (ValueError, (route, SECRET, 2**64)), (ValueError, (route, SECRET, 9_999)),
               (ValueError, (route, SECRET, 30_000, b"", {65_535: b""})),
               (TypeError, (hops, SECRET)), (TypeError, (route, SECRET, 30_000, "m")),
               (TypeError, (route, SECRET, 30_000, b"", {65_536: 1}))]
    for fault, arguments in refused:
        try:
            lgm.payloads(*arguments)
        except fault:
            continue
        raise AssertionError(f"{fault} for {arguments}")
