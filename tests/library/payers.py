"""A payer and its payments: each call once with ample memory, and once at each of its numbers. The numbers are worked out by hand,
from include/lgm.h, docs/protocol.md and BOLT 4.
"""

from collections import namedtuple
from ctypes import addressof, byref, c_size_t, c_uint64, create_string_buffer

from attempts import attempt, edge, limit
from calls import A, B, HOP, NUMBER, SECRET, Hop, at, closed, free, library, offered, opened, published, test
from estimates import estimate as learnt_estimate, opened as opened_estimates
from gossip.messages import CHAIN, ChannelAnnouncement, short_channel_id
from lgm.library import BOUNDS, ESTIMATE, INVOICE, MOST_HOPS, MOST_PAYLOADS, PART, PART_INFO, PAYMENT_INFO, RECORD, SIGHT

P, C = b"\4" * 33, b"\5" * 33  # the payer, and a node that no map has
MOST = 2**64 - 1
OWN = edge(5, P, A, 9, 9, 50_000)  # the payer's channel to A, whose terms don't matter
HEIGHT, FINAL = 600_000, 600_000 + 18 + 3
BALANCE, DETAILS, TIMEOUT = 0x1007, 0x400f, 23
# What is written over sevens of a part that isn't sent, but for what comes with its number.
Part = namedtuple("Part", "part amount_msat fee_msat detail hops payloads odds blocks is_best")
SEVENS = Part(*PART.unpack(PART.pack(7, 7, 7, 7, 7, 7, 7, 7, True)))


def opened_payer(estimates=None):
    """A handle of a payer."""
    handle = closed()
    assert library.lgm_payer_open(handle, P, closed() if estimates is None else estimates) == 0
    return handle


def begun(payer, amount=10_000, payee=B, hints=b"", metadata=b"", records=(), delta=18, mpp=False, fee=1_000, least=1_000, tries=10,
          parts=4, blocks=2_016):
    """What beginning a payment returns: the number, and the payment's over 7."""
    values = [create_string_buffer(value, max(len(value), 1)) for _, value in records]
    packed = b"".join(RECORD.pack(kind, addressof(room), len(value)) for (kind, value), room in zip(records, values))
    held = [create_string_buffer(value, max(len(value), 1)) for value in (hints, metadata, packed)]
    invoice = INVOICE.pack(amount, addressof(held[0]), len(hints) // len(OWN), addressof(held[1]), len(metadata),
                           addressof(held[2]), len(records), delta, mpp, payee, SECRET)
    payment = c_uint64(7)
    number = library.lgm_payer_begin(payer, invoice, BOUNDS.pack(fee, least, tries, parts, blocks), byref(payment))
    return number, payment.value


def asked(payer, handle, payment, own=OWN, reckoned=0, height=HEIGHT, preferences=(0, 0, True), budget=(0, 0), hops_len=MOST_HOPS,
          payloads_len=MOST_PAYLOADS):
    """What the next part is: the number, the part over sevens, its hops and its payloads."""
    held = create_string_buffer(own, max(len(own), 1))
    sight = SIGHT.pack(addressof(held), len(own) // len(OWN), reckoned, *budget, height, *preferences)
    part, hops, payloads = bytearray(PART.pack(*SEVENS)), bytearray(b"\7" * hops_len * HOP.size), bytearray(b"\7" * payloads_len)
    number = library.lgm_payer_next(payer, handle, payment, sight, at(part), at(hops), hops_len, at(payloads), payloads_len)
    found = Part(*PART.unpack(part))
    if number == 0:
        return number, found, [Hop(*one) for one in HOP.iter_unpack(hops[:found.hops * HOP.size])], bytes(payloads)
    assert hops == b"\7" * len(hops) and payloads == b"\7" * len(payloads)
    return number, found, [], b""


def word(payer, handle, payment, **beside):
    """The number of the next part, which isn't sent: nothing is written but what comes with it, which is returned too."""
    number, part, _, _ = asked(payer, handle, payment, **beside)
    assert part._replace(detail=7) == SEVENS
    return number, part.detail


def state(payer, payment):
    """A payment: the number, and what is written over sevens."""
    info = bytearray(PAYMENT_INFO.pack(7, 7, 7, 7, 7, 7))
    number = library.lgm_payer_payment(payer, payment, at(info))
    return number, PAYMENT_INFO.unpack(info)


def sent_part(payer, payment, place, hops_len=MOST_HOPS):
    """The part at a place: the number, the part over sevens, and its first hop over zeros."""
    info, hops = bytearray(PART_INFO.pack(7, 7, 7, 7, 7, 7, 7, 7)), bytearray(max(hops_len, 1) * HOP.size)
    number = library.lgm_payer_part(payer, payment, place, at(info), at(hops), hops_len)
    return number, PART_INFO.unpack(info), Hop(*HOP.unpack_from(hops))


def next_payment(payer, is_first, above):
    """What follows a payment's number, or the first of all."""
    payment = c_uint64(above)
    number = library.lgm_payer_next_payment(payer, is_first, byref(payment))
    return number, payment.value


def saved(payer, length=None):
    """What a payer is as bytes: the number, the length over 7, and the bytes."""
    needed = c_size_t(7)
    number = library.lgm_payer_save(payer, None, 0, byref(needed)) if length is None else 104
    room = bytearray(needed.value if length is None else length)
    if number == 104:
        number = library.lgm_payer_save(payer, at(room), len(room), byref(needed))
    return number, needed.value, bytes(room)


def loaded(data, payer=None):
    """What opening a handle with bytes returns, and the handle."""
    payer = closed() if payer is None else payer
    return library.lgm_payer_load(payer, data, len(data)), payer


@test
def closed_handles():
    """A closed handle has only its fault, and writes nothing."""
    payer, handle = closed(), opened()
    assert begun(payer) == (100, 7)
    assert word(payer, handle, 0) == (100, 7)
    assert library.lgm_payer_failed(payer, 0, 0, 0, BALANCE, False) == 100
    assert library.lgm_payer_unreadable(payer, 0, 0) == library.lgm_payer_fulfilled(payer, 0) == 100
    assert library.lgm_payer_abandon(payer, 0) == library.lgm_payer_forget(payer, 0) == 100
    assert library.lgm_payer_fade(payer, handle, 1, 1) == library.lgm_payer_learnt(payer, closed()) == 100
    assert library.lgm_payer_sent(payer) == 0
    assert state(payer, 0) == (100, (7,) * 6) and next_payment(payer, True, 7) == (100, 7)
    assert sent_part(payer, 0, 0)[:2] == (100, (7,) * 8)
    assert saved(payer) == (100, 7, bytes(7))
    library.lgm_payer_free(payer)
    payer = opened_payer()
    assert word(payer, closed(), 0) == (100, 7) and library.lgm_payer_fade(payer, closed(), 1, 1) == 100
    library.lgm_payer_free(payer)
    library.lgm_payer_free(payer)
    assert begun(payer) == (100, 7)
    free(handle)


@test
def opening():
    """A handle is opened once. What estimates have is copied, and they stay as they are."""
    known, payer, copy = opened_estimates(), closed(), closed()
    assert library.lgm_estimates_set(known, NUMBER, A, ESTIMATE.pack(10, 20, 30)) == 0
    assert library.lgm_payer_open(payer, P, known) == 0
    assert library.lgm_payer_open(payer, P, known) == 101
    assert library.lgm_estimates_carried(known, NUMBER, A, 15) == 0
    assert library.lgm_payer_learnt(payer, copy) == 0
    assert library.lgm_payer_learnt(payer, copy) == 101
    assert learnt_estimate(copy, NUMBER, A) == (0, (10, 20, 30)) and learnt_estimate(known, NUMBER, A) == (0, (15, 20, 30))
    for handle in (known, copy):
        library.lgm_estimates_free(handle)
    library.lgm_payer_free(payer)


@test
def beginning():
    """Payments have numbers in their order. One of nothing, or without a part, isn't begun."""
    payer = opened_payer()
    assert begun(payer, amount=0, parts=0) == (21, 7)
    assert begun(payer, parts=0) == (92, 7)
    assert next_payment(payer, True, 7) == (107, 7)
    assert [begun(payer)[1], begun(payer, amount=MOST, payee=P)[1], begun(payer)[1]] == [0, 1, 2]
    assert state(payer, 1) == (0, (MOST, MOST, 0, 0, 0, 0)) and state(payer, 3) == (81, (7,) * 6)
    assert library.lgm_payer_forget(payer, 1) == 0
    assert next_payment(payer, True, 9) == (0, 0) and next_payment(payer, False, 0) == (0, 2)
    assert next_payment(payer, False, 2) == (107, 2) and begun(payer)[1] == 3
    library.lgm_payer_free(payer)


@test
def parts():
    """A part over the payer's channel and that of A, with its payloads: it is written, and under way."""
    changing = opened()
    for handle in (changing, published(changing)):
        payer = opened_payer()
        assert begun(payer, metadata=b"m", records=[(65_537, b"r")]) == (0, 0)
        number, part, hops, payloads = asked(payer, handle, 0)
        # The odds are 10,000 over 50,000,000 - 10,000 + 1.
        assert (number, part) == (0, Part(0, 10_000, 0, 7, 2, part.payloads, 200, FINAL + 40 - HEIGHT, True))
        first, last = hops
        assert first == Hop(5, 10_000, first.payload_len, FINAL + 40, P, A)
        assert last == Hop(NUMBER, 10_000, last.payload_len, FINAL, A, B)
        both = b"\x02\x02\x27\x10\x04\x03" + FINAL.to_bytes(3, "big")
        wanted = [both + b"\6\x08" + NUMBER.to_bytes(8, "big"),
                  both + b"\x08\x22" + SECRET + b"\x27\x10" + b"\x10\1m" + b"\xfe\0\1\0\1\1r"]
        wanted = b"".join(bytes([len(one)]) + one for one in wanted)
        assert payloads[:part.payloads] == wanted and payloads[part.payloads:] == b"\7" * (1_300 - len(wanted))
        assert library.lgm_payer_sent(payer) == 1 and state(payer, 0) == (0, (10_000, 0, 0, 1, 1, 0))
        assert sent_part(payer, 0, 0) == (0, (0, 10_000, 0, 2, 61, 0, 0, 0), first._replace(payload_len=0))
        assert sent_part(payer, 0, 0, hops_len=1)[:2] == (104, (0, 10_000, 0, 2, 61, 0, 0, 0))
        assert sent_part(payer, 0, 0, hops_len=1)[2] == Hop(0, 0, 0, 0, bytes(33), bytes(33))
        assert sent_part(payer, 0, 1)[:2] == (107, (7,) * 8) and sent_part(payer, 1, 0)[0] == 81
        assert word(payer, handle, 0) == (28, 7)
        library.lgm_payer_free(payer)
        free(handle)


@test
def what_cannot_be_sent():
    """Each number of a next part in its order, with what comes with it; nothing is sent."""
    handle, payer = opened(), opened_payer()
    assert begun(payer) == (0, 0)
    for short in ({"hops_len": 19}, {"payloads_len": 1_299}):
        number, part, _, _ = asked(payer, handle, 9, **short)
        assert (number, part) == (104, SEVENS._replace(hops=20, payloads=1_300))
    assert word(payer, handle, 1) == (81, 7)
    assert word(payer, handle, 0, own=OWN + edge(6, A, P, 0, 0), reckoned=1) == (89, 7)
    assert word(payer, handle, 0, reckoned=1) == (90, 7)
    assert word(payer, handle, 0, own=b"") == (72, 0)
    assert word(payer, handle, 0, own=edge(5, P, A, 0, 0, 9_999)) == (72, 9_999)
    assert word(payer, handle, 0, own=edge(5, P, A, 0, 0, 0) + edge(6, P, A, 0, 0, 9_998)) == (72, 9_998)
    wide = edge(5, P, A, 0, 0)
    # The channel into B has 100,000,000 msat, of which A forwards 50,000,000 at once.
    assert begun(payer, amount=100_000_001) == (0, 1) and word(payer, handle, 1, own=wide) == (73, 100_000_000)
    assert begun(payer, payee=C) == (0, 2) and word(payer, handle, 2) == (73, 0)
    assert begun(payer, amount=60_000_000) == (0, 3) and word(payer, handle, 3, own=wide) == (25, 7)
    hint = edge(6, A, C, 1_001, 0)
    assert begun(payer, amount=2_100_000_000_000_000_001, payee=C, hints=hint) == (0, 4)
    assert word(payer, handle, 4, own=wide) == (22, 7)
    assert word(payer, handle, 0, height=498_000_000) == (23, 7)
    assert begun(payer, payee=P, hints=edge(6, A, P, 0, 0)) == (0, 5) and word(payer, handle, 5) == (24, 7)
    assert begun(payer, payee=C, hints=hint) == (0, 6) and word(payer, handle, 6) == (71, 1_001)
    assert begun(payer, blocks=60) == (0, 7) and word(payer, handle, 7) == (25, 7)
    assert begun(payer, blocks=20) == (0, 8) and word(payer, handle, 8) == (25, 7)
    for records, number in ([((65_535, b""),), 117], [((65_536, b""), (65_536, b"")), 118], [((65_536, bytes(1_300)),), 119]):
        assert word(payer, handle, begun(payer, records=records)[1]) == (number, 7)
    assert begun(payer, tries=0)[0] == 0 and word(payer, handle, 12) == (74, 7)
    assert word(payer, handle, 0, budget=(0, 1), preferences=(1_000, 0, True)) == (26, 7)
    assert library.lgm_payer_sent(payer) == 0 and all(state(payer, one)[1][3] == 0 for one in range(13))
    # A hint out of the payer is none of its channels.
    assert begun(payer, hints=edge(5, P, A, 0, 0) + edge(7, P, B, 0, 0))[1] == 13
    assert word(payer, handle, 13, own=edge(5, P, A, 0, 0, 0)) == (72, 0)
    library.lgm_payer_free(payer)
    free(handle)


@test
def a_thin_channel_between():
    """Two hubs joined by one thin channel: the payer's channels have room, and so have the edges into the payee, but what joins
    them hasn't. It is asked before an amount is divided; what is under way, and what failed, counts.
    """
    handle, payer = opened(), opened_payer()
    wide, hint = edge(5, P, A, 0, 0, 10**9), edge(6, B, C, 0, 0, 10**9)

    def begun_to_c(amount, mpp=True):
        return begun(payer, amount=amount, payee=C, hints=hint, mpp=mpp)

    assert begun_to_c(100_000_001) == (0, 0) and word(payer, handle, 0, own=wide) == (77, 100_000_000)
    assert begun_to_c(100_000_001, mpp=False) == (0, 1) and word(payer, handle, 1, own=wide) == (25, 7)
    assert begun_to_c(100_000_000) == (0, 2) and asked(payer, handle, 2, own=wide)[1].amount_msat == 25_000_000
    assert begun_to_c(75_000_001) == (0, 3) and word(payer, handle, 3, own=wide) == (77, 75_000_000)
    # Half of it has odds of nearly 3 to 1 over the channel, and some more over the hint, so a quarter is sent.
    assert begun_to_c(75_000_000) == (0, 4) and asked(payer, handle, 4, own=wide)[1].amount_msat == 18_750_000
    assert library.lgm_payer_failed(payer, 4, 1, 1, BALANCE, False) == 0
    # It failed to carry both parts, so it has 1 msat less than what this one was to take beside the other.
    assert word(payer, handle, 4, own=wide) == (77, 18_749_999)
    assert library.lgm_payer_sent(payer) == 2
    library.lgm_payer_free(payer)
    free(handle)


@test
def a_thin_channel_to_a_hub():
    """The payee has more channels than are gone through, so the cut is one of few nodes beside the payer."""
    handle, payer = opened(), opened_payer()
    for index in range(48):
        nodes = B, B[:31] + (1_000 + index).to_bytes(2, "big")
        channel = ChannelAnnouncement(CHAIN, short_channel_id(600_001, index, 0), nodes)
        assert offered(handle, channel.encode(bitcoin_keys=(A, A)), 0, 1) == 0
    assert begun(payer, amount=100_000_001, mpp=True) == (0, 0)
    assert word(payer, handle, 0, own=edge(5, P, A, 0, 0, 10**9)) == (77, 100_000_000)
    library.lgm_payer_free(payer)
    free(handle)


@test
def how_parts_end():
    """Each number of a failure, and what it teaches; a payee that refuses, and one that waited too long."""
    handle, payer, copy = opened(), opened_payer(), closed()
    assert begun(payer) == (0, 0) and asked(payer, handle, 0)[0] == 0
    failed, unreadable = library.lgm_payer_failed, library.lgm_payer_unreadable
    assert failed(payer, 1, 0, 1, BALANCE, False) == unreadable(payer, 1, 0) == 81
    assert failed(payer, 0, 1, 1, BALANCE, False) == unreadable(payer, 0, 1) == 82
    assert failed(payer, 0, 0, 3, BALANCE, False) == failed(payer, 0, 0, 255, BALANCE, False) == 84
    assert failed(payer, 0, 0, 1, DETAILS, False) == failed(payer, 0, 0, 2, BALANCE, False) == 85
    assert library.lgm_payer_forget(payer, 0) == 88
    assert failed(payer, 0, 0, 1, BALANCE, False) == 0
    assert failed(payer, 0, 0, 1, BALANCE, False) == unreadable(payer, 0, 0) == 83
    assert sent_part(payer, 0, 0)[1] == (0, 10_000, 0, 2, 61, 2, BALANCE, 1)
    assert library.lgm_payer_learnt(payer, copy) == 0 and learnt_estimate(copy, NUMBER, A) == (0, (0, 9_999, 0))
    # Of A's channel it is known that it carries no more.
    assert word(payer, handle, 0) == (73, 9_999)
    assert begun(payer) == (0, 1) and word(payer, handle, 1) == (73, 9_999)
    library.lgm_payer_free(payer)
    payer = opened_payer()
    assert begun(payer) == (0, 0) and asked(payer, handle, 0)[0] == 0
    assert failed(payer, 0, 0, 2, TIMEOUT, False) == 0 and asked(payer, handle, 0)[1].part == 1
    assert unreadable(payer, 0, 1) == 0 and sent_part(payer, 0, 1)[1] == (1, 10_000, 0, 2, 61, 1, 0, 0)
    assert word(payer, handle, 0) == (73, 0)  # the only channel that isn't its own is avoided
    assert begun(payer) == (0, 1) and asked(payer, handle, 1)[1].part == 2
    assert failed(payer, 1, 2, 2, DETAILS, False) == 0 and word(payer, handle, 1) == (75, DETAILS)
    assert library.lgm_payer_forget(payer, 1) == 0 and word(payer, handle, 1) == (81, 7)
    library.lgm_payer_free(payer)
    library.lgm_estimates_free(copy)
    free(handle)


@test
def how_payments_end():
    """The payee takes the whole once, also of a payment that was abandoned; and a paid one that is forgotten has to be reckoned."""
    handle, payer, copy = opened(), opened_payer(), closed()
    assert begun(payer, mpp=True) == (0, 0)
    assert library.lgm_payer_fulfilled(payer, 1) == library.lgm_payer_abandon(payer, 1) == library.lgm_payer_forget(payer, 1) == 81
    assert library.lgm_payer_fulfilled(payer, 0) == 86
    half = edge(5, P, A, 0, 0, 5_000) + edge(6, P, A, 0, 0, 5_000)
    assert [asked(payer, handle, 0, own=half)[1].amount_msat for _ in range(2)] == [5_000, 5_000]
    assert library.lgm_payer_abandon(payer, 0) == 0
    assert state(payer, 0) == (0, (10_000, 0, 0, 2, 2, 1)) and word(payer, handle, 0) == (28, 7)
    assert library.lgm_payer_unreadable(payer, 0, 1) == 0
    assert state(payer, 0) == (0, (10_000, 5_000, 0, 2, 1, 1)) and word(payer, handle, 0) == (76, 7)
    assert library.lgm_payer_fulfilled(payer, 0) == 0
    assert state(payer, 0) == (0, (10_000, 5_000, 0, 2, 1, 2)) and word(payer, handle, 0) == (28, 7)
    assert library.lgm_payer_fulfilled(payer, 0) == library.lgm_payer_abandon(payer, 0) == 87
    assert library.lgm_payer_unreadable(payer, 0, 0) == 83
    assert library.lgm_payer_forget(payer, 0) == 0
    assert begun(payer) == (0, 1) and word(payer, handle, 1, reckoned=1) == (91, 7)
    assert asked(payer, handle, 1, reckoned=2)[1].part == 2
    library.lgm_payer_free(payer)
    known = opened_estimates()
    assert library.lgm_estimates_set(known, NUMBER, A, ESTIMATE.pack(30_000, 40_000, 0)) == 0
    payer = opened_payer(known)
    assert begun(payer) == (0, 0) and asked(payer, handle, 0)[1].odds == 0
    assert library.lgm_payer_fulfilled(payer, 0) == 0
    assert library.lgm_payer_learnt(payer, copy) == 0 and learnt_estimate(copy, NUMBER, A) == (0, (20_000, 30_000, 0))
    for estimates in (known, copy):
        library.lgm_estimates_free(estimates)
    library.lgm_payer_free(payer)
    free(handle)


@test
def what_is_deducted():
    """Of a channel what parts took that it doesn't reckon, whatever became of them but failures; of A's what is under way."""
    handle, payer = opened(), opened_payer()
    assert [begun(payer, amount=30_000)[1] for _ in range(3)] == [0, 1, 2]
    assert asked(payer, handle, 0)[0] == 0
    assert word(payer, handle, 1) == (72, 20_000)
    assert asked(payer, handle, 1, reckoned=1)[1].part == 1
    assert library.lgm_payer_fulfilled(payer, 0) == 0
    assert word(payer, handle, 2) == (72, 0) and word(payer, handle, 2, reckoned=1) == (72, 20_000)
    assert library.lgm_payer_unreadable(payer, 1, 1) == 0
    assert word(payer, handle, 2) == (72, 20_000) and asked(payer, handle, 2, reckoned=1)[1].part == 2
    library.lgm_payer_free(payer)
    free(handle)


@test
def time_goes_by():
    """Half of what is known is left for each half-life; a half-life of 0 counts as 1. Of a channel that is gone nothing is."""
    handle, known, copy = opened(), opened_estimates(), closed()
    assert library.lgm_estimates_set(known, NUMBER, A, ESTIMATE.pack(80_000_000, 90_000_000, 1_000)) == 0
    assert library.lgm_estimates_set(known, NUMBER + 1, A, ESTIMATE.pack(1, 2, 3)) == 0
    payer = opened_payer(known)
    for elapsed, half_life, wanted in ((10, 10, (40_000_000, 95_000_000, 500)), (1, 0, (20_000_000, 97_500_000, 250)),
                                       (0, 5, (20_000_000, 97_500_000, 250))):
        assert library.lgm_payer_fade(payer, handle, elapsed, half_life) == 0
        assert library.lgm_payer_learnt(payer, copy) == 0
        assert learnt_estimate(copy, NUMBER, A) == (0, wanted) and library.lgm_estimates_count(copy) == 1
        library.lgm_estimates_free(copy)
    library.lgm_estimates_free(known)
    library.lgm_payer_free(payer)
    free(handle)


@test
def odds():
    """Of a route: the amount over what is left of what its channels may carry, without the payer's own; and each fault."""
    handle, known = opened(), opened_estimates()
    route = HOP.pack(5, 10_000, 0, 700_040, P, A) + HOP.pack(NUMBER, 10_000, 0, 700_000, A, B)

    def told(hops=route, handle=handle, estimates=known, **beside):
        given, _held = attempt(B, **beside)
        found = bytearray(b"\7" * 4)
        return library.lgm_odds(handle, given, estimates, hops, len(hops) // HOP.size, at(found)), int.from_bytes(found, "little")

    sevens = 0x07070707
    assert told() == (0, 200)  # 10,000 over 49,990,001
    assert told(hops=route[HOP.size:]) == (0, 0)
    assert told(limits=limit(NUMBER, A, 19_999)) == (0, 1_000_000)
    assert told(limits=limit(NUMBER, A, 10_000)) == told(limits=limit(NUMBER, A, 0)) == (0, 100_000_000)
    assert told(edges=edge(NUMBER, A, B, 0, 0, 12_499) + edge(NUMBER, A, B, 0, 0)) == (0, 4_000_000)
    assert library.lgm_estimates_set(known, NUMBER, A, ESTIMATE.pack(5_000, 14_999, 9)) == 0
    assert told() == (0, 1_000_000) and told(estimates=closed()) == (0, 200)
    assert told(handle=closed()) == (100, sevens)
    many = edge(NUMBER, A, B, 0, 0) * 100_001
    assert told(edges=many, hops=b"") == (112, sevens)
    assert told(edges=edge(6, A, B, 0, 0, 0), limits=limit(1, A, 1) * 300_001) == (113, sevens)
    assert told(edges=edge(6, A, B, 0, 0, 0), hops=b"") == (114, sevens)
    assert told(hops=b"") == (116, sevens)
    assert told(hops=route[HOP.size:] + route[:HOP.size]) == (116, sevens)
    library.lgm_estimates_free(known)
    free(handle)


@test
def bytes_of_a_payer():
    """What was saved is loaded as it was, with what is under way; anything else is refused."""
    handle, payer = opened(), opened_payer()
    assert begun(payer, metadata=b"m", records=[(65_537, b"r")], hints=edge(6, A, C, 1, 0), mpp=True) == (0, 0)
    assert begun(payer) == (0, 1) and asked(payer, handle, 0)[0] == 0 and asked(payer, handle, 1, reckoned=1)[0] == 0
    assert library.lgm_payer_failed(payer, 1, 1, 1, BALANCE, False) == 0
    number, length, data = saved(payer)
    assert (number, length) == (0, len(data))
    assert saved(payer, length - 1) == (104, length, bytes(length - 1)) and saved(payer, length + 1)[1:] == (length, data + b"\0")
    number, again = loaded(data)
    assert number == 0 and saved(again) == (0, length, data)
    assert library.lgm_payer_sent(again) == 2 and next_payment(again, False, 0) == (0, 1)
    for payment in (0, 1):
        assert state(again, payment) == state(payer, payment) and sent_part(again, payment, 0) == sent_part(payer, payment, 0)
    assert loaded(data, again)[0] == 101
    assert library.lgm_payer_fulfilled(again, 0) == 0 and saved(again)[2] != data
    for place in range(len(data)):
        assert loaded(data[:place])[0] == 34
        assert loaded(data[:place] + bytes([data[place] ^ 1 << place % 8]) + data[place + 1:])[0] == 34, place
    assert loaded(data + b"\0")[0] == 34 and loaded(b"")[0] == 34
    for one in (payer, again):
        library.lgm_payer_free(one)
    free(handle)
