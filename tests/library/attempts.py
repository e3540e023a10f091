"""Payments over what a payer knows beside the map, and by what it prefers, in a map that changes and in a published one, and why
there is no route. The numbers are worked out by hand, from docs/protocol.md.
"""

import os
import time
from ctypes import addressof, create_string_buffer

from calls import (
    A, B, HOP, LENGTHS, NUMBER, PAYLOAD, SECRET, Hop, at, closed, free, library, opened, paid, published, test)
from lgm.library import ATTEMPT, EDGE, LIMIT, MOST_HOPS, MOST_PAYLOADS

C, D = b"\4" * 33, b"\5" * 33
DIRECT = 0, 1, NUMBER, 10_000, 700_000  # the answer over the channel of the map alone


def refusal(number):
    """The answer that only has a number."""
    return number, 7, 0, 0, 0


def edge(scid, start, end, base, delta, most_msat=2**64 - 1):
    """An edge that carries any amount up to a maximum."""
    return EDGE.pack(scid, 0, most_msat, base, 0, delta, start, end)


def limit(scid, start, most_msat):
    """What an edge carries at most."""
    return LIMIT.pack(scid, most_msat, start)


def search(failure_msat=0, hop_msat=0, most_delay=0, most_hops=0, most_labels=0, most_steps=0):
    """What a payer prefers, and limits."""
    return most_steps, most_labels, failure_msat, hop_msat, most_delay, most_hops


PLAIN = search()  # zeros
# Two edges from B to C: 6 for 5 msat, which carries so little more than 10,000 that its odds are 1 to 1, and 7 for 9 msat.
TWO_HINTS = edge(6, B, C, 5, 30, 19_999) + edge(7, B, C, 9, 10)
OVER_6, OVER_7 = (0, 2, NUMBER, 10_005, 700_030), (0, 2, NUMBER, 10_009, 700_010)  # the answers over these


def attempt(payee, amount_msat=10_000, edges=b"", limits=b"", silent=b"", asked=PLAIN):
    """A payment of A at block 700,000, over edges, limits and silent nodes that stand one after the other; and what has them."""
    held = [create_string_buffer(value, max(len(value), 1)) for value in (edges, limits, silent)]
    counts = len(edges) // EDGE.size, len(limits) // LIMIT.size, len(silent) // 33
    lists = (part for value, count in zip(held, counts) for part in (addressof(value), count))
    return ATTEMPT.pack(amount_msat, 700_000, A, payee, SECRET, *lists, *asked), held


def route_over(handle, payee, estimates=None, hops_len=MOST_HOPS, payloads_len=MOST_PAYLOADS, **beside):
    """What such a payment is answered: the number, the first hop over zeros, the lengths over 7, and the payloads. Nothing is
    known without a handle of estimates."""
    given, _held = attempt(payee, **beside)
    estimates = closed() if estimates is None else estimates
    hops, payloads, lengths = bytearray(hops_len * HOP.size), bytearray(payloads_len), bytearray(LENGTHS.pack(7, 7))
    number = library.lgm_attempt_route(handle, given, estimates, at(hops), hops_len, at(payloads), payloads_len, at(lengths))
    return number, Hop(*HOP.unpack_from(hops)), LENGTHS.unpack(lengths), payloads


def reason(handle, payee, **beside):
    """Why such a payment has no route: 0 if it has one."""
    given, _held = attempt(payee, **beside)
    return library.lgm_no_route_reason(handle, given)


def answer(handle, payee, **beside):
    """The number, how many hops were written over 7, and the id, the amount and the expiry of the first one, over zeros."""
    number, hop, lengths, _ = route_over(handle, payee, **beside)
    return number, lengths[0], hop.scid, hop.amount_msat, hop.expiry


def answer_of_both(handles, payee, **beside):
    """The answer that 10,000 msat get in both maps."""
    changing, fixed = (answer(handle, payee, **beside) for handle in handles)
    assert changing == fixed
    return changing


def both_kinds():
    """A map in which A can send B 1 to 50,000,000 msat, and the same as it was published."""
    handle = opened()
    return handle, published(handle)


@test
def nothing_beside_the_map():
    """Over nothing, a payment has the route that it has in the map alone."""
    handles = both_kinds()
    assert answer_of_both(handles, B) == DIRECT
    assert answer_of_both(handles, B, asked=search(most_delay=1, most_hops=1)) == DIRECT
    assert answer_of_both(handles, C) == refusal(25)
    assert answer_of_both(handles, A) == refusal(24)
    payloads = bytearray(46)
    number, hop, _ = paid(handles[0], B, 10_000, 700_000, payloads)
    over_number, over_hop, _, over_payloads = route_over(handles[1], B, hops_len=1, payloads_len=46)
    assert (number, over_number) == (0, 0)
    assert payloads == over_payloads == PAYLOAD
    assert (hop.start, hop.end) == (over_hop.start, over_hop.end) == (A, B)
    free(*handles)
    assert answer(handles[1], B) == refusal(100)


@test
def limits():
    """A limit is for one direction of a channel, and for any of its amounts that exceed it."""
    handles = both_kinds()
    others = limit(NUMBER, A, 10_000) + limit(NUMBER, B, 0) + limit(NUMBER + 1, A, 0)
    assert answer_of_both(handles, B, limits=others) == DIRECT
    for most_msat in (9_999, 0):
        least = limit(NUMBER, A, 10_000) + limit(NUMBER, A, most_msat)
        assert answer_of_both(handles, B, limits=least) == refusal(25)
    free(*handles)


@test
def own_channels_and_silent_nodes():
    """A silent payer pays over its own channel alone, and a silent payee is paid."""
    handles = both_kinds()
    assert answer_of_both(handles, B, silent=B) == DIRECT
    assert answer_of_both(handles, B, silent=A) == refusal(25)
    own = edge(5, A, B, 9, 9)
    assert answer_of_both(handles, B, silent=A, edges=own) == (0, 1, 5, 10_000, 700_000)
    free(*handles)


@test
def hints_within_a_delay():
    """Hints are used where the route over them is within the delay."""
    handles = both_kinds()
    # From B to C for 5 msat, with a delta of 30, and from there to a fourth node, with a delta of 65,535.
    hints = edge(6, B, C, 5, 30) + edge(7, C, D, 0, 65_535)
    to_c = 0, 2, NUMBER, 10_005, 700_030
    assert answer_of_both(handles, C, edges=hints) == to_c
    assert answer_of_both(handles, C, edges=hints, asked=search(most_delay=30)) == to_c
    assert answer_of_both(handles, C, edges=hints, asked=search(most_delay=29)) == refusal(25)
    assert answer_of_both(handles, D, edges=hints) == (0, 3, NUMBER, 10_005, 765_565)
    assert answer_of_both(handles, D, edges=hints, asked=search(most_delay=65_535)) == refusal(25)
    free(*handles)


@test
def preferences():
    """A penalty changes the route, and is no part of what is sent. Where both cost the same, the lesser id decides."""
    handles = both_kinds()
    assert answer_of_both(handles, C, edges=TWO_HINTS) == OVER_6
    # With 4 msat for a failed try the costs are 10,005 + 4 and 10,009, with 5 msat 10,005 + 5 and 10,009.
    assert answer_of_both(handles, C, edges=TWO_HINTS, asked=search(failure_msat=4)) == OVER_6
    assert answer_of_both(handles, C, edges=TWO_HINTS, asked=search(failure_msat=5)) == OVER_7
    assert answer_of_both(handles, C, edges=TWO_HINTS, asked=search(failure_msat=2**32 - 1, hop_msat=2**32 - 1)) == OVER_7
    assert answer_of_both(handles, C, edges=TWO_HINTS, asked=search(failure_msat=4, most_delay=29)) == OVER_7
    assert answer_of_both(handles, C, edges=TWO_HINTS, asked=search(failure_msat=4, most_delay=9)) == refusal(25)
    free(*handles)


@test
def few_hops():
    """The most hops of a route are a limit, and what a hop is worth is none."""
    handles = both_kinds()
    hints = edge(6, B, D, 0, 10) + edge(7, D, C, 0, 10) + edge(8, B, C, 50, 10)
    three, two = (0, 3, NUMBER, 10_000, 700_020), (0, 2, NUMBER, 10_050, 700_010)
    for most_hops in (0, 3, 20):
        assert answer_of_both(handles, C, edges=hints, asked=search(most_hops=most_hops)) == three
    assert answer_of_both(handles, C, edges=hints, asked=search(most_hops=2)) == two
    assert answer_of_both(handles, C, edges=hints, asked=search(most_hops=1)) == refusal(25)
    # Two hops count beside the payer's own: 10,098 and 10,099; with 50 msat both cost 10,100, and the fewer ones win.
    assert answer_of_both(handles, C, edges=hints, asked=search(hop_msat=49)) == three
    assert answer_of_both(handles, C, edges=hints, asked=search(hop_msat=50)) == two
    free(*handles)


@test
def small_budgets():
    """One label is that of the payee, so nothing is found. One step suffices for the cheapest way, and not to be certain."""
    handles = both_kinds()
    assert answer_of_both(handles, C, edges=TWO_HINTS, asked=search(most_labels=1, most_steps=1)) == OVER_6
    assert answer_of_both(handles, C, edges=TWO_HINTS, asked=search(most_labels=1, most_delay=10)) == refusal(26)
    assert answer_of_both(handles, C, edges=TWO_HINTS, asked=search(most_labels=1, most_delay=9)) == refusal(25)
    assert answer_of_both(handles, C, edges=TWO_HINTS, asked=search(failure_msat=5, most_labels=1)) == refusal(26)
    one_step = search(failure_msat=5, most_steps=1)
    assert answer_of_both(handles, C, edges=TWO_HINTS, asked=one_step) == (27, *OVER_7[1:])
    assert answer_of_both(handles, C, edges=TWO_HINTS, asked=one_step, hops_len=1) == (104, 2, 0, 0, 0)
    for most_labels, most_steps in ((1_000, 100_000), (2**64 - 1, 2**64 - 1)):
        many = search(failure_msat=5, most_labels=most_labels, most_steps=most_steps)
        assert answer_of_both(handles, C, edges=TWO_HINTS, asked=many) == OVER_7
    number, _, lengths, payloads = route_over(handles[0], C, edges=TWO_HINTS, asked=one_step)
    *_, best_lengths, best_payloads = route_over(handles[0], C, edges=TWO_HINTS, asked=search(failure_msat=5))
    assert (number, lengths, payloads) == (27, best_lengths, best_payloads)
    free(*handles)


@test
def reasons():
    """The first reason that holds is told, whatever the later ones are."""
    handles = both_kinds()
    hint = edge(6, B, C, 5, 30, 10_000)
    asked = dict(edges=hint, asked=search(most_delay=29, most_hops=1))
    for handle in handles:
        assert reason(handle, B) == reason(handle, C, edges=hint) == 0
        assert reason(handle, C, silent=A, **asked) == 41
        assert reason(handle, C) == 42
        assert reason(handle, C, limits=limit(NUMBER, A, 9_999) + limit(6, B, 9_999), **asked) == 43
        assert reason(handle, C, limits=limit(6, B, 9_999), **asked) == 44
        assert reason(handle, C, limits=limit(NUMBER, A, 10_004), **asked) == 45
        assert reason(handle, C, **asked) == 46
        assert reason(handle, C, edges=hint, asked=search(most_delay=30, most_hops=1)) == 47
        detour = hint + edge(7, B, D, 0, 1) + edge(8, D, C, 0, 1)
        assert reason(handle, C, edges=detour, asked=search(most_delay=29, most_hops=2)) == 48
        assert reason(handle, C, edges=detour, asked=search(most_delay=29, most_hops=3)) == 0
        assert reason(handle, A) == 24 and reason(handle, C, amount_msat=0) == 21
        # What the payer prefers and the budget of the search don't matter where the best route of all is within the limits.
        assert reason(handle, C, edges=hint, asked=search(failure_msat=9, hop_msat=9, most_labels=1, most_steps=1)) == 0
        dear = hint + edge(7, B, D, 9, 1) + edge(8, D, C, 0, 1)
        assert reason(handle, C, edges=dear, asked=search(most_delay=2)) == 0
        assert reason(handle, C, edges=dear, asked=search(most_delay=2, most_labels=1)) == 26
    free(*handles)
    assert reason(handles[0], B) == 100


@test
def no_maximum():
    """An edge that carries nothing is refused, wherever it is, and one that carries 1 msat isn't."""
    handle = opened()
    for edges in (edge(6, B, C, 5, 30, 0), edge(6, B, C, 5, 30) + edge(7, C, D, 0, 0, 0)):
        assert answer(handle, C, edges=edges) == refusal(114)
        assert answer(handle, C, amount_msat=0, edges=edges) == refusal(114)
        assert reason(handle, C, edges=edges) == 114
    assert answer(handle, C, edges=edge(6, B, C, 5, 30) + edge(7, C, D, 0, 0, 1))[0] == 0
    free(handle)


@test
def most_limits():
    """300,001 limits are refused, 300,000 are used; and too many edges are the first fault."""
    handle = opened()
    limits = 299_999 * limit(5, B, 0) + limit(NUMBER, A, 9_999)
    assert answer(handle, B, limits=limits) == refusal(25)
    limits += limit(5, B, 0)
    assert answer(handle, B, limits=limits) == refusal(113)
    assert answer(handle, B, amount_msat=0, limits=limits) == refusal(113)
    assert answer(handle, B, edges=100_001 * edge(5, B, A, 0, 0, 0), limits=limits) == refusal(112)
    free(handle)


@test
def many_of_one_node():
    """100,000 edges of one node, and 300,000 limits of them, take less than a second, or than LGM_SECONDS where a machine is
    emulated."""
    handle = opened()
    edges = b"".join(edge(1_000 + number, B, C, 5, 30) for number in range(100_000))
    limits = b"".join(limit(1_000 + number % 100_000, B, 10_000 - number // 200_000) for number in range(299_999))
    given, _held = attempt(C, edges=edges, limits=limits)
    hops, payloads, lengths = bytearray(MOST_HOPS * HOP.size), bytearray(MOST_PAYLOADS), bytearray(LENGTHS.size)
    before = time.perf_counter()
    number = library.lgm_attempt_route(
        handle, given, closed(), at(hops), MOST_HOPS, at(payloads), MOST_PAYLOADS, at(lengths))
    took = time.perf_counter() - before
    # Of the last id alone the third limit is missing, so that it carries the amount.
    assert (number, Hop(*HOP.unpack_from(hops, HOP.size)).scid) == (0, 100_999)
    assert took < float(os.environ.get("LGM_SECONDS", 1)), f"{took:.2f} s"
    free(handle)


@test
def most_edges():
    """100,001 edges are refused, whatever the payment is; 100,000 are used."""
    handles = both_kinds()
    edges = 99_999 * edge(5, B, A, 0, 0) + edge(6, B, C, 5, 30)
    assert answer_of_both(handles, C, edges=edges) == (0, 2, NUMBER, 10_005, 700_030)
    edges += edge(5, B, A, 0, 0)
    assert answer_of_both(handles, C, edges=edges) == refusal(112)
    assert answer(handles[0], C, amount_msat=0, edges=edges) == refusal(112)
    free(*handles)
    assert answer(handles[0], C, amount_msat=0, edges=edges) == refusal(100)


def node(number):
    """A node by its number."""
    return b"\6" + number.to_bytes(2, "big") + b"\6" * 30


def wide_network():
    """Edges from A to eight pairs of edges in a row. The first node charges 1,000,000 msat, or delays by 600 blocks and so
    does the next one; then there are 6,000 nodes side by side. Each pair is a free edge that delays by 1, 2, 4 .. 128
    blocks, and one that charges as many msat."""
    edges = [edge(1, A, node(0), 0, 0), edge(2, node(0), node(1), 1_000_000, 0), edge(3, node(0), node(50), 0, 600),
             edge(3, node(50), node(1), 0, 600)]
    for side in range(6_000):
        edges += [edge(10 + 2 * side, node(1), node(100 + side), 0, 0), edge(11 + 2 * side, node(100 + side), node(2), 0, 0)]
    for stage in range(8):
        scid, start, end = 100_000 + 2 * stage, node(2 + stage), node(3 + stage)
        edges += [edge(scid, start, end, 0, 2**stage), edge(scid + 1, start, end, 2**stage, 0)]
    return b"".join(edges)


@test
def stopped():
    """Where the steps that a search takes by default don't suffice, a payment gets a route so far, and only there."""
    handles = both_kinds()
    edges, payee = wide_network(), node(10)
    # Within 1,008 blocks each of the nodes side by side has 256 ways to the payee, of which none is cheaper and quicker than
    # another, and all of which are cheaper than what the first node charges. These are 1,536,000 labels, each of which is
    # compared with all earlier ones of its node. Any walk that fits pays the first node, and delays or pays at each pair of
    # edges. Within 1,455 blocks the best route of all is one, and so it is within 1,008 without the edges that delay by 600.
    number, hops, scid, amount, expiry = answer_of_both(handles, payee, edges=edges, asked=search(most_delay=1_008))
    assert (number, hops, scid) == (27, 12, 1)
    assert 1_010_000 <= amount <= 1_010_255 and amount + expiry == 1_010_000 + 700_255
    free_of_charge = 0, 13, 1, 10_000, 701_455
    assert answer_of_both(handles, payee, edges=edges, asked=search(most_delay=1_455)) == free_of_charge
    assert answer_of_both(handles, payee, edges=edges) == free_of_charge
    dear = 0, 12, 1, 1_010_000, 700_255
    quick = limit(3, node(0), 0)
    assert answer_of_both(handles, payee, edges=edges, limits=quick, asked=search(most_delay=1_008)) == dear
    free(*handles)
