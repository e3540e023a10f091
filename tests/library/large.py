"""Searches over 50,001 channels. The numbers are worked out by hand.

The payer A has a channel to each of 40,000 nodes, and 10,001 others have one to the payee. A link between the two kinds may be
there. Each channel can be used in one direction, charges nothing and delays by 40 blocks.
"""

from attempts import answer, reason, refusal, search
from calls import (
    A, CHAIN, HAS_MAXIMUM, ChannelAnnouncement, ChannelUpdate, free, library, opened_empty, short_channel_id, test)

PAYEE = b"\3" + b"\xff" * 32
NEAR_PAYEE, NEAR_PAYER = range(1, 10_002), range(10_002, 50_002)
LINK = short_channel_id(60_000, 0, 0)


def node(number):
    """The point of a node. They are ordered as their numbers are, behind A and before the payee."""
    return b"\3" + number.to_bytes(32, "big")


def add(handle, scid, start, end):
    """Adds a channel that can be used from one node to the other."""
    nodes = tuple(sorted((start, end)))
    announcement = ChannelAnnouncement(CHAIN, scid, nodes).encode(bitcoin_keys=(A, A))
    assert library.lgm_offer(handle, announcement, len(announcement), 0, A, 1, 100_000) == 0
    update = ChannelUpdate(CHAIN, scid, timestamp=5, message_flags=HAS_MAXIMUM, channel_flags=nodes.index(start),
                           cltv_expiry_delta=40, htlc_minimum_msat=1, fee_base_msat=0, fee_proportional_millionths=0,
                           htlc_maximum_msat=50_000_000).encode()
    assert library.lgm_offer(handle, update, len(update), 2, start, 0, 0) == 0


def large_map(is_linked):
    """A map of all these channels, and the link, if it is there."""
    handle = opened_empty()
    for number in NEAR_PAYEE:
        add(handle, short_channel_id(number, 0, 0), node(number), PAYEE)
    for number in NEAR_PAYER:
        add(handle, short_channel_id(number, 0, 0), A, node(number))
    if is_linked:
        add(handle, LINK, node(NEAR_PAYER[0]), node(NEAR_PAYEE[0]))
    return handle


def preferring(**asked):
    """Each failed try and each hop is worth 1 msat."""
    return search(failure_msat=1, hop_msat=1, **asked)


@test
def routes_over_many_channels():
    """By preferences, and within a delay of 80 blocks, which the route takes. Within one block less there is none."""
    handle = large_map(True)
    first = int.from_bytes(short_channel_id(NEAR_PAYER[0], 0, 0), "big")
    route = 0, 3, first, 10_000, 700_080
    for asked in (preferring(), preferring(most_delay=80), search(most_delay=80), search(most_delay=80, most_hops=3)):
        assert answer(handle, PAYEE, asked=asked) == route
    assert reason(handle, PAYEE, asked=search(most_delay=80)) == 0
    for asked in (preferring(most_delay=79), search(most_delay=79)):
        assert answer(handle, PAYEE, asked=asked) == refusal(25)
        assert reason(handle, PAYEE, asked=asked) == 46
    assert reason(handle, PAYEE, asked=search(most_hops=2)) == 47
    assert reason(handle, PAYEE, asked=search(most_delay=79, most_steps=1)) == 26
    free(handle)


@test
def steps_of_many_labels():
    """Without the link each node near the payee gets a label, and none leads to the payer. So the search looks at the 10,001
    edges into the payee, and at none into the others; and it settles the 10,002 labels, each of which is compared with itself:
    20,003 steps. Without limits and preferences a search takes as many as it needs."""
    handle = large_map(False)
    assert answer(handle, PAYEE, asked=preferring(most_steps=20_003)) == refusal(25)
    assert answer(handle, PAYEE, asked=preferring(most_steps=20_002)) == refusal(26)
    assert answer(handle, PAYEE, asked=search(most_steps=1)) == refusal(25)
    assert reason(handle, PAYEE, asked=search(most_steps=1)) == 45
    free(handle)
