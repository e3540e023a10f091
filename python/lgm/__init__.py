"""lgm, a verified map of Lightning gossip, from Python: classes `Map` and `Estimates` over the shared library of
include/lgm.h.

    with Map(chain=CHAIN) as network:
        network.offer(message, sig=ALL_FOUR, funding=100_000)
        route = network.route(payer, payee, amount_msat=1_000_000, expiry=900_000, secret=secret)

What a payer knows beside the map is passed with a payment, and what failed when it is tried again:

    limits = [Limit(hop.scid, hop.start, hop.amount_msat - 1)]   # of the hop that couldn't carry the amount
    route = network.route(.., edges=own_channels + hints, silent=[payer], limits=limits, most_delay=1_008)

What it learns from its tries is kept in `Estimates`, and a route by what it prefers takes account of that:

    with Estimates() as estimates:
        route = network.route(.., preferences=Preferences(failure_msat=20_000, hop_msat=500), estimates=estimates)
        estimates.carried(hop.scid, hop.start, hop.amount_msat)   # of each hop before
        estimates.failed(hop.scid, hop.start, hop.amount_msat)    # of the hop that couldn't carry the amount

The payloads of a part of a payment in several, with the metadata of its invoice or with custom records:

    payloads(route, secret, total_msat=3_000_000, metadata=metadata, records={5482373484: preimage})   # hop by hop

Messages, points, chains and secrets are `bytes`, `bytearray` or `memoryview`. An argument of another type raises
TypeError, and one out of its range ValueError, before the library is called. A call that fails raises the class of its
fault, such as `NotNewer`; all of these are subclasses of `Fault`. `NoRoute` has a `reason`, which is searched for when it is
first asked for, in the map as it is then, and the text of `Malformed` the message's first fault. Any thread may use a `Map`,
and `Estimates`: the calls of one wait for one another. Threads that are to read at once take a published map each, which never
changes:

    board = Board(network)       # publishes it
    board.publish()              # by the thread that changes the map
    board.latest().route(..)     # by each thread that reads: it waits for nobody, and nobody for it

What came from a peer is verified by what `reads` tells of it, before it is offered, and once a day what is old is pruned:

    message = reads(received)    # each of message.signatures is by the key in its place of message.keys
    network.prune(before=int(time.time()) - 14 * 86_400)

`lgm.payer` pays invoices: it says what to send next, and is told what became of it.

The library is loaded for the first `Map`. It is the file that LGM_LIBRARY names; else the one in this package; else, in a
clone, the one in `examples/out`, where `examples/build-c` puts it; else the system's. `lgm.dump` writes a map to a file.
"""

from .arrival import payloads
from .board import Board
from .estimates import Estimates
from .faults import ChannelsShort, Fault, NoRoute, PathsShort, PayeeRefused, PayeeShort, TooDear
from .map import ANNOUNCEMENT, UPDATE_1, UPDATE_2, Map
from .numbered import *
from .packing import ALL_FOUR, NOBODY, NOT_ALL_FOUR, NOT_ASKED, SPENT, WRONG
from .reading import reads
from .records import (
    Channel, Direction, Edge, Estimate, Hop, Lacking, Limit, Node, Preferences, Pruned, Route, Signed, short_channel_id)

__all__ = [
    "ALL_FOUR", "ANNOUNCEMENT", "Board", "Channel", "ChannelsShort", "Direction", "Edge", "Estimate", "Estimates", "Fault",
    "Hop", "Lacking", "Limit", "Map", "NOBODY", "NOT_ALL_FOUR", "NOT_ASKED", "NoRoute", "Node", "PathsShort", "PayeeRefused",
    "PayeeShort", "Preferences", "Pruned", "Route", "SPENT", "Signed", "TooDear", "UPDATE_1", "UPDATE_2", "WRONG", "payloads", "reads",
    "short_channel_id",
    # Made of include/lgm.h by python3 surface/make.py:
    "Abandoned", "AlreadyPaid", "AmountTooLarge", "AmountZero", "Argument", "Banned", "BeyondRoute", "Chain", "Closed",
    "Conflict", "ExpiryTooLarge", "ForeignChannel", "ForeignCode", "Full", "Funding", "Ignored", "Known", "Malformed",
    "NoMaximum", "NoMemory", "NoParts", "NodeOrder", "NotAnnounced", "NotFilter", "NotGossip", "NotNewer", "NotPublished",
    "NotQuery", "NotReply", "NotSaved", "NotUnderWay", "Nothing", "NothingUnderWay", "NumbersUsedUp", "Open",
    "PayloadsTooLong", "Point", "Private", "Published", "Reason", "ReckonedAhead", "ReckonedBefore", "Refused", "Room",
    "SelfPayment", "Signature", "TooManyEdges", "TooManyLimits", "TriesUsedUp", "Undecided", "UnderWay", "UnknownChannel",
    "UnknownEven", "UnknownNode", "UnknownPart", "UnknownPayment", "Unpaid", "Unrouted", "Untold", "WrongFunding",
    "WrongHops", "WrongMessage", "WrongRecordOrder", "WrongRecordType", "WrongSig",
    # The end of what is made.
]
