#!/usr/bin/env python3
"""Tests `lgm.payer` and `lgm.Board` over the library. The numbers are worked out by hand, from docs/protocol.md and docs/paying.md.

    LGM_LIBRARY=FOLDER/liblgm.so python3 examples/test_payer.py

FOLDER is where examples/build-c put the library; examples/test_embedding.py runs this. tests/plain_payments.py has random payers.
"""

import sys
import threading
from pathlib import Path

sys.dont_write_bytecode = True  # the repository gets no made files
TOP = Path(__file__).resolve().parents[1]
sys.path[:0] = [str(TOP), str(TOP / "python")]

import lgm
from gossip.messages import CHAIN, HAS_MAXIMUM, ChannelAnnouncement, ChannelUpdate
from lgm.payer import Bounds, ChannelsShort, Invoice, Payer, PayeeRefused, PayeeShort, Stage, TooDear, TriesUsedUp

PAYER, A, B, PAYEE = (b"\2" + bytes([letter]) * 32 for letter in range(1, 5))
A_TO_PAYEE, B_TO_PAYEE, A_TO_B, OWN_A, OWN_B = (block << 40 for block in (1, 2, 3, 11, 12))
SECRET = bytes(32)
CAPACITY = 1_000_000_000  # msat, of each channel
AMOUNT = 100_000_000
HEIGHT, DELTA = 700_000, 40
FINAL = HEIGHT + 18 + 3  # the expiry over the last hop
BOUNDS = Bounds(most_fee_msat=10_000)
BALANCE = "temporary_channel_failure"


def update(scid, timestamp, base, direction=0, most=CAPACITY):
    """An update of the channel's node 1, or of its node 2."""
    return ChannelUpdate(CHAIN, scid.to_bytes(8, "big"), timestamp, HAS_MAXIMUM, direction, DELTA, 0, base, 0, most).encode()


def a_map(terms=((A_TO_PAYEE, A, PAYEE, 1_000), (B_TO_PAYEE, B, PAYEE, 2_000)), most=CAPACITY):
    """A map in which A forwards to the payee for 1,000 msat, and B for 2,000."""
    network = lgm.Map(CHAIN)
    for scid, start, end, base in terms:
        network.offer(ChannelAnnouncement(CHAIN, scid.to_bytes(8, "big"), (start, end)).encode(), lgm.ALL_FOUR, CAPACITY // 1_000)
        network.offer(update(scid, 1, base, most=most), start)
    return network


def channels(to_a=CAPACITY, to_b=CAPACITY):
    """A channel to A and one to B, each of which can send so much."""
    return [lgm.Edge(OWN_A, PAYER, A, htlc_maximum_msat=to_a), lgm.Edge(OWN_B, PAYER, B, htlc_maximum_msat=to_b)]


def a_payer(to_a=CAPACITY, to_b=CAPACITY):
    """A payer with these channels. It prefers nothing."""
    payer = Payer(PAYER, preferences=lgm.Preferences())
    payer.set_channels(channels(to_a, to_b), 0)
    return payer


def paying(payer, bounds=BOUNDS, amount=AMOUNT, **invoice):
    """A payment of the amount."""
    return payer.pay(Invoice(PAYEE, amount, SECRET, **invoice), bounds)


def told(part):
    """The ids of a part's hops, its amount, its fee, and when its first HTLC expires."""
    return [hop.scid for hop in part.route.hops], part.amount_msat, part.fee_msat, part.route.expiry


def raised(call, *arguments):
    """What a call raises."""
    try:
        call(*arguments)
    except Exception as fault:  # pylint: disable=broad-exception-caught
        return type(fault)
    return None


def learnt_of(payer, scid, start):
    """What a payer has learnt of an edge."""
    with payer.learnt() as learnt:
        return learnt.get(scid, start)


OVER_A = [OWN_A, A_TO_PAYEE], AMOUNT, 1_000, FINAL + DELTA
OVER_B = [OWN_B, B_TO_PAYEE], AMOUNT, 2_000, FINAL + DELTA


def one_part_arrives():
    """The whole amount in one part; then there is nothing to send. Each end is told once."""
    with a_map() as network, a_payer() as payer:
        payment = paying(payer)
        assert raised(payment.fulfilled) is lgm.NothingUnderWay
        part = payment.next_part(network, HEIGHT)
        assert told(part) == OVER_A and len(part.payloads) == 2 and part.number == 0
        assert (part.blocks, part.odds) == (FINAL + DELTA - HEIGHT, AMOUNT * 1_000_000 // (CAPACITY - AMOUNT + 1))
        assert payment.state.left_msat == 0 and not payment.is_paid
        assert [(held.number, held.amount_msat) for held in payment.parts_under_way] == [(0, AMOUNT)]
        assert payment.next_part(network, HEIGHT) is None
        assert raised(payment.forget) is lgm.UnderWay
        payment.fulfilled()
        assert raised(payment.fulfilled) is lgm.AlreadyPaid is raised(payment.abandon)
        assert raised(payment.failed, part, 1, BALANCE) is lgm.NotUnderWay is raised(payment.unreadable, part)
        assert payment.is_paid and payment.parts_under_way == [] and payment.state.fee_msat == 1_000
        assert payment.next_part(network, HEIGHT) is None and payer.sent == 1


def silence_is_no_arrival():
    """An amount of 0 is no payment, and an error that can't be read, or none, pays nothing."""
    with a_map() as network, a_payer() as payer:
        assert raised(paying, payer, BOUNDS, 0) is ValueError and payer.payments == []
        payment = paying(payer)
        part = payment.next_part(network, HEIGHT)
        assert payment.next_part(network, HEIGHT) is None and not payment.is_paid and payment.state.left_msat == 0
        payment.unreadable(part)
        assert not payment.is_paid and payment.state.left_msat == AMOUNT
        assert told(payment.next_part(network, HEIGHT)) == OVER_B


def a_balance_that_is_too_small():
    """The next try is over the other node, and what failed is learnt."""
    with a_map() as network, a_payer() as payer:
        payment = paying(payer)
        payment.failed(payment.next_part(network, HEIGHT), 1, BALANCE)
        assert learnt_of(payer, A_TO_PAYEE, A) == lgm.Estimate(0, AMOUNT - 1)
        part = payment.next_part(network, HEIGHT)
        assert told(part) == OVER_B
        payment.failed(part, 1, "TEMPORARY_CHANNEL_FAILURE")
        assert raised(payment.next_part, network, HEIGHT) is lgm.NoRoute
        assert payment.state.tries == 2 and len(payer.learnt()) == 2


def what_each_error_adds():
    """An error of node 1 that speaks of its channel, of the node, of the terms, or of the expiry; and one that nobody can read."""
    for place, code, again in (
            (1, "permanent_channel_failure", OVER_B), (1, "WIRE_UNKNOWN_NEXT_PEER", OVER_B), (1, "temporary_node_failure", OVER_B),
            (1, "fee_insufficient", OVER_B), (1, 0x7777, OVER_B), (0, BALANCE, OVER_B), (2, "MPP_TIMEOUT", OVER_A)):
        with a_map() as network, a_payer() as payer:
            payment = paying(payer)
            payment.failed(payment.next_part(network, HEIGHT), place, code)
            assert told(payment.next_part(network, HEIGHT)) == again, code
            assert learnt_of(payer, A_TO_PAYEE, A).least_msat == (AMOUNT if place == 2 else 0), code
    with a_map() as network, a_payer() as payer:
        payment = paying(payer)
        payment.failed(payment.next_part(network, HEIGHT), 1, "expiry_too_far")
        assert raised(payment.next_part, network, HEIGHT) is lgm.NoRoute  # both ways have the same delay


def new_terms_are_tried():
    """An edge whose terms were refused is tried again if the map has other ones."""
    with a_map() as network, a_payer() as payer:
        payment = paying(payer)
        part = payment.next_part(network, HEIGHT)
        network.offer(update(A_TO_PAYEE, 2, 1_500), A)
        payment.failed(part, 1, "fee_insufficient", is_renewed=True)
        assert told(payment.next_part(network, HEIGHT)) == ([OWN_A, A_TO_PAYEE], AMOUNT, 1_500, FINAL + DELTA)


def failures_are_judged_by_the_route():
    """A place beyond it, and a code that the node there can't send, are refused, and change nothing."""
    with a_map() as network, a_payer() as payer:
        payment = paying(payer)
        part = payment.next_part(network, HEIGHT)
        for place, code, fault in (
                (9, BALANCE, lgm.BeyondRoute), (3, BALANCE, lgm.BeyondRoute), (2, BALANCE, lgm.ForeignCode),
                (1, "incorrect_or_unknown_payment_details", lgm.ForeignCode), (-1, BALANCE, ValueError),
                (1, "UNKNOWN_FAILURE", ValueError)):
            assert raised(payment.failed, part, place, code) is fault, (place, code)
        assert raised(payment.failed, 1, 1, BALANCE) is lgm.UnknownPart
        assert len(payment.parts_under_way) == 1 and len(payer.learnt()) == 0


def how_a_payment_ends():
    """By the payee's error, by its tries, by its fees, by its blocks; or since it is given up."""
    with a_map() as network, a_payer() as payer:
        payment = paying(payer)
        payment.failed(payment.next_part(network, HEIGHT), 2, "incorrect_or_unknown_payment_details")
        assert raised(payment.next_part, network, HEIGHT) is PayeeRefused
        assert learnt_of(payer, A_TO_PAYEE, A) == lgm.Estimate(AMOUNT)
        payment = paying(payer, Bounds(most_fee_msat=10_000, most_tries=1))
        payment.failed(payment.next_part(network, HEIGHT), 0, BALANCE)
        assert raised(payment.next_part, network, HEIGHT) is TriesUsedUp
        try:
            paying(payer, Bounds(most_fee_msat=999)).next_part(network, HEIGHT)
            assert False
        except TooDear as dear:
            assert dear.fee_msat == 1_000
        payment = paying(payer, Bounds(most_fee_msat=10_000, most_blocks=60))
        assert raised(payment.next_part, network, HEIGHT) is lgm.NoRoute  # 61 blocks: 40, 18 and 3
        assert told(paying(payer, Bounds(most_fee_msat=10_000, most_blocks=61)).next_part(network, HEIGHT)) == OVER_A
        payment = paying(payer)
        part = payment.next_part(network, HEIGHT)
        payment.abandon()
        assert payment.state.stage is Stage.ABANDONED and payment.next_part(network, HEIGHT) is None  # all is under way
        payment.unreadable(part)
        assert raised(payment.next_part, network, HEIGHT) is lgm.Abandoned
        payment.forget()
        assert raised(payment.next_part, network, HEIGHT) is lgm.UnknownPayment


def the_blocks_are_a_bound():
    """Also where the payee's own delta is beyond them."""
    with a_map() as network, a_payer() as payer:
        payment = paying(payer, Bounds(most_fee_msat=10_000, most_blocks=10), min_final_cltv_expiry_delta=144)
        assert raised(payment.next_part, network, HEIGHT) is lgm.NoRoute
        direct = Payer(PAYER)
        direct.set_channels([lgm.Edge(OWN_A, PAYER, PAYEE)], 0)
        for most, found in ((146, lgm.NoRoute), (147, None)):
            payment = paying(direct, Bounds(most_fee_msat=0, most_blocks=most), min_final_cltv_expiry_delta=144)
            assert raised(payment.next_part, network, HEIGHT) is found


def hints_are_not_learnt():
    """Of an edge of a hint nothing is kept, whatever came of it. A direct channel needs no delay."""
    hint = lgm.Edge(7 << 40, A, PAYEE, fee_base_msat=10)
    with lgm.Map(CHAIN) as network, a_payer() as payer:
        payment = paying(payer, hints=(hint,))
        part = payment.next_part(network, HEIGHT)
        assert told(part) == ([OWN_A, 7 << 40], AMOUNT, 10, FINAL)
        payment.failed(part, 1, BALANCE)
        assert len(payer.learnt()) == 0 and raised(payment.next_part, network, HEIGHT) is lgm.NoRoute


def hints_leave_the_payers_channels_alone():
    """One with the id of a channel that can send nothing doesn't replace it, and one over an invented id is no channel."""
    with a_map() as network, a_payer(to_a=0, to_b=0) as payer:
        for scid, end in ((OWN_A, A), (99 << 40, A), (98 << 40, PAYEE)):
            payment = paying(payer, hints=(lgm.Edge(scid, PAYER, end),))
            assert raised(payment.next_part, network, HEIGHT) is ChannelsShort


def a_payee_holds_the_parts():
    """Until all have come: they are under way together, and arrive together."""
    half = AMOUNT // 2
    with a_map() as network, a_payer(to_a=AMOUNT, to_b=AMOUNT) as payer:  # less than the amount and its fee
        assert raised(paying(payer).next_part, network, HEIGHT) is lgm.NoRoute
        payment = paying(payer, basic_mpp=True)
        first = payment.next_part(network, HEIGHT)
        assert told(first) == ([OWN_A, A_TO_PAYEE], half, 1_000, FINAL + DELTA)
        # A channel that carries half and its fee has less than the other half and its fee left.
        second = payment.next_part(network, HEIGHT)
        assert told(second) == ([OWN_B, B_TO_PAYEE], half, 2_000, FINAL + DELTA)
        assert payment.next_part(network, HEIGHT) is None and payment.state.fee_msat == 3_000
        total = AMOUNT.to_bytes(4, "big")
        assert all(part.payloads[-1].count(SECRET + total) == 1 for part in (first, second))
        payment.failed(second, 1, BALANCE)
        assert payment.state.left_msat == half and not payment.is_paid
        assert payment.next_part(network, HEIGHT).amount_msat == half // 2  # B carries less than a half
        payment.next_part(network, HEIGHT)
        assert payment.next_part(network, HEIGHT) is None
        payment.fulfilled()
        assert payment.is_paid and payment.state.tries == 4 and payment.state.parts_held == 3


def dividing_ends():
    """A search for parts of 1 msat, of less than there are parts, and none below the least part."""
    with lgm.Map(CHAIN) as network, a_payer() as payer:
        for amount in (1, 2, 3, 1_000):
            payment = paying(payer, Bounds(10_000, least_part_msat=1), amount, basic_mpp=True)
            assert raised(payment.next_part, network, HEIGHT) is PayeeShort  # nothing leads to the payee
    with a_map() as network, a_payer(to_a=AMOUNT, to_b=AMOUNT) as payer:
        for least, found in ((AMOUNT // 2, None), (AMOUNT // 2 + 1, lgm.NoRoute)):
            payment = paying(payer, Bounds(10_000, least_part_msat=least), basic_mpp=True)
            assert raised(payment.next_part, network, HEIGHT) is found
        assert raised(paying, payer, Bounds(10_000, most_parts=0)) is ValueError
        payment = paying(payer, Bounds(10_000, most_parts=1), basic_mpp=True)
        assert raised(payment.next_part, network, HEIGHT) is lgm.NoRoute


def payments_that_cannot_be_sent():
    """Payloads that don't fit an onion, and a payment to oneself, send nothing."""
    with a_map() as network, a_payer() as payer:
        payment = paying(payer, metadata=bytes(1_300))
        assert raised(payment.next_part, network, HEIGHT) is lgm.PayloadsTooLong and payment.parts == []
        payment = payer.pay(Invoice(PAYER, AMOUNT, SECRET, hints=(lgm.Edge(7 << 40, A, PAYER),)), BOUNDS)
        assert raised(payment.next_part, network, HEIGHT) is lgm.SelfPayment and payer.sent == 0


def channels_are_told_as_they_are():
    """What they can send now; only later parts are deducted. A foreign channel, and parts that weren't sent, are refused."""
    with a_map() as network, a_payer(to_a=2 * AMOUNT, to_b=0) as payer:
        paying(payer).next_part(network, HEIGHT)
        assert raised(paying(payer).next_part, network, HEIGHT) is ChannelsShort  # less than the amount and two fees is left
        payer.set_channels(channels(AMOUNT + 1_000, 0), 1)  # as the node tells: the first part is reckoned
        assert told(paying(payer).next_part(network, HEIGHT)) == OVER_A
        assert raised(paying(payer).next_part, network, HEIGHT) is ChannelsShort
        payer.set_channels(channels(), 3)
        assert raised(paying(payer).next_part, network, HEIGHT) is lgm.ReckonedAhead
        payer.set_channels([lgm.Edge(OWN_A, A, PAYER)], 0)
        assert raised(paying(payer).next_part, network, HEIGHT) is lgm.ForeignChannel
        first, *_ = payer.payments
        first.fulfilled()
        first.forget()
        payer.set_channels(channels(), 1)
        assert raised(paying(payer).next_part, network, HEIGHT) is lgm.ReckonedBefore
        payer.set_channels(channels(), 2)
        assert told(paying(payer).next_part(network, HEIGHT)) == OVER_A


def a_channel_is_filled_once():
    """Two threads pay over one that carries one of the two parts."""
    with a_map() as network:
        for _ in range(200):
            with a_payer(to_a=AMOUNT + 1_000, to_b=0) as payer:
                found = []
                payments = [paying(payer, amount=AMOUNT * 9 // 10) for _ in range(2)]
                threads = [threading.Thread(target=lambda one=one: found.append(raised(one.next_part, network, HEIGHT)))
                           for one in payments]
                for thread in threads:
                    thread.start()
                for thread in threads:
                    thread.join()
                assert sorted(map(str, found)) == sorted(map(str, (None, ChannelsShort)))


def estimates_are_what_is_known():
    """Beside what is under way: a failure beside other parts teaches of all of them together, and a failed part takes nothing."""
    unit = 1_000_000
    for first, second in ((80, 50), (100, 50)):
        with a_map(((A_TO_B, A, B, 0), (B_TO_PAYEE, B, PAYEE, 0))) as network, a_payer(to_b=0) as payer:
            one, other = paying(payer, amount=first * unit), paying(payer, amount=second * unit)
            parts = one.next_part(network, HEIGHT), other.next_part(network, HEIGHT)
            other.failed(parts[1], 1, BALANCE)
            one.failed(parts[0], 2, BALANCE)
            assert learnt_of(payer, A_TO_B, A) == lgm.Estimate(first * unit, (first + second) * unit - 1)
    with a_map() as network, lgm.Estimates() as known:
        known.set(A_TO_PAYEE, A, lgm.Estimate(AMOUNT, 2 * AMOUNT))
        with Payer(PAYER, lgm.Preferences(), known) as payer:
            payer.set_channels(channels(), 0)
            payment = paying(payer)
            part = payment.next_part(network, HEIGHT)
            assert (part.odds, learnt_of(payer, A_TO_PAYEE, A)) == (0, lgm.Estimate(AMOUNT, 2 * AMOUNT))
            payment.failed(part, 0, BALANCE)
            assert learnt_of(payer, A_TO_PAYEE, A) == lgm.Estimate(AMOUNT, 2 * AMOUNT)
            payment = paying(payer)
            payment.next_part(network, HEIGHT)
            payment.fulfilled()  # what it carried is gone for good
            assert learnt_of(payer, A_TO_PAYEE, A) == lgm.Estimate(0, AMOUNT)
        assert known.get(A_TO_PAYEE, A) == lgm.Estimate(AMOUNT, 2 * AMOUNT)


def what_is_learnt_fades():
    """Half of it is left for each half-life; what then says little is forgotten, and of a channel that is gone all."""
    with a_map() as network, lgm.Estimates() as known:
        known.set(A_TO_PAYEE, A, lgm.Estimate(400_000_000, 600_000_000))
        known.set(B_TO_PAYEE, B, lgm.Estimate(100_000_000))
        known.set(9 << 40, B, lgm.Estimate(100_000_000))
        with Payer(PAYER, estimates=known) as payer:
            payer.fade(network, 3_600, 3_600)
            assert learnt_of(payer, A_TO_PAYEE, A) == lgm.Estimate(200_000_000, 800_000_000)
            assert len(payer.learnt()) == 1


def odds_are_told():
    """Of a route: the amount over what is left of the maximum, and one more msat; less by what is known, and with a limit more."""
    with a_map() as network, a_payer() as payer, lgm.Estimates() as known:
        part = paying(payer).next_part(network, HEIGHT)
        assert network.odds(part.route, channels()) == part.odds == 111_111
        limits = [lgm.Limit(A_TO_PAYEE, A, 2 * AMOUNT)]
        assert network.odds(part.route, limits=limits) == 1_000_000 * AMOUNT // (AMOUNT + 1) == 999_999
        known.carried(A_TO_PAYEE, A, AMOUNT)
        assert network.odds(part.route, limits=limits, estimates=known) == 0


def a_restart_pays_once():
    """From what was saved, what is under way is known, and its end can be told. Bytes that were changed are refused."""
    with a_map() as network, a_payer(to_a=AMOUNT, to_b=AMOUNT) as payer:
        payment = paying(payer, basic_mpp=True, metadata=b"meta", records={65_537: b"custom"})
        first = payment.next_part(network, HEIGHT)
        saved = payer.save()
        with Payer.load(saved, lgm.Preferences()) as again:
            assert again.save() == saved and again.sent == 1
            again.set_channels(channels(AMOUNT, AMOUNT), 0)
            (same,) = again.payments
            assert same.number == payment.number and same.state == payment.state and same.parts == payment.parts
            second, other = same.next_part(network, HEIGHT), payment.next_part(network, HEIGHT)
            assert second == other and second.number == 1 and same.next_part(network, HEIGHT) is None
            same.failed(first.number, 1, BALANCE)
            payment.failed(first, 1, BALANCE)
            assert again.save() == payer.save() != saved
        for place in range(0, len(saved), 7):
            changed = saved[:place] + bytes([saved[place] ^ 1]) + saved[place + 1:]
            assert raised(Payer.load, changed) is raised(Payer.load, saved[:place]) is lgm.NotSaved
        assert raised(Payer.load, saved + b"\0") is lgm.NotSaved


def a_board_has_the_latest():
    """A thread gets one object until there is a later publication; what it has stays as it is."""
    with a_map() as network:
        board = lgm.Board(network)
        first = board.latest()
        assert first is board.latest() and len(first) == 2 and board.version == first.version == 4
        network.close_channel(A_TO_PAYEE)
        assert len(board.latest()) == 2
        assert board.publish() == 5 == board.version
        assert len(board.latest()) == 1 and board.latest() is not first and len(first) == 2
        found = []
        reader = threading.Thread(target=lambda: found.append((board.latest(), board.latest().version)))
        reader.start()
        reader.join()
        assert found[0][1] == 5 and found[0][0] is not board.latest()
        board.close()
        assert raised(board.latest) is lgm.Closed and raised(board.publish) is lgm.Closed and len(found[0][0]) == 1


TESTS = (one_part_arrives, silence_is_no_arrival, a_balance_that_is_too_small, what_each_error_adds, new_terms_are_tried,
         failures_are_judged_by_the_route, how_a_payment_ends, the_blocks_are_a_bound, hints_are_not_learnt,
         hints_leave_the_payers_channels_alone, a_payee_holds_the_parts, dividing_ends, payments_that_cannot_be_sent,
         channels_are_told_as_they_are, a_channel_is_filled_once, estimates_are_what_is_known, what_is_learnt_fades, odds_are_told,
         a_restart_pays_once, a_board_has_the_latest)


def main():
    """Runs each of them."""
    for test in TESTS:
        test()
    print(f"{len(TESTS)} passed")


if __name__ == "__main__":
    main()
