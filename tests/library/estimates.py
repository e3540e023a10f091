"""What a payer has learnt of edges, and routes by it. The numbers are worked out by hand, from include/lgm.h and
docs/protocol.md.
"""

from ctypes import byref, c_size_t, c_uint64

from attempts import OVER_6, OVER_7, PLAIN, TWO_HINTS, C, answer, answer_of_both, both_kinds, edge, refusal, search
from calls import A, B, NUMBER, at, closed, free, library, opened as one_channel, test
from lgm.library import ESTIMATE
from lgm.payer import Payer

MOST = 2**64 - 1
UNKNOWN = 0, MOST, 0  # what is believed of an edge of which nothing is known
SET = ESTIMATE.pack(10, 20, 30)


def opened():
    """A handle that knows nothing yet."""
    handle = closed()
    assert library.lgm_estimates_open(handle) == 0
    return handle


def estimate(handle, scid, start):
    """What is believed of an edge, over sevens: the number, and the least, the most and the penalty."""
    room = bytearray(b"\7" * ESTIMATE.size)
    number = library.lgm_estimate(handle, scid, start, at(room))
    return number, ESTIMATE.unpack(room)


def entry(handle, place):
    """The edge at a place, over sevens: the number, the id, the node, and what is believed."""
    scid, start, room = c_uint64(7), bytearray(33), bytearray(ESTIMATE.size)
    number = library.lgm_estimates_at(handle, place, byref(scid), at(start), at(room))
    return number, scid.value, bytes(start), ESTIMATE.unpack(room)


def entries(handle):
    """All edges of which something is known, each with what is believed of it."""
    found = [entry(handle, place) for place in range(library.lgm_estimates_count(handle))]
    assert all(number == 0 for number, *_ in found)
    return [named for _, *named in found]


@test
def closed_handles():
    """A closed handle has only its fault, and writes nothing."""
    handle = closed()
    sevens = ESTIMATE.unpack(b"\7" * ESTIMATE.size)
    assert estimate(handle, NUMBER, A) == (100, sevens)
    assert library.lgm_estimates_set(handle, NUMBER, A, SET) == 100
    assert library.lgm_estimates_carried(handle, NUMBER, A, 1) == 100
    assert library.lgm_estimates_failed(handle, NUMBER, A, 1) == 100
    assert library.lgm_estimates_forget(handle, NUMBER, A) == 100
    assert library.lgm_estimates_count(handle) == 0
    assert entry(handle, 0) == (100, 7, bytes(33), (0, 0, 0))
    library.lgm_estimates_free(handle)
    assert library.lgm_estimates_open(handle) == 0
    assert library.lgm_estimates_set(handle, NUMBER, A, SET) == 0
    assert library.lgm_estimates_open(handle) == 101
    assert estimate(handle, NUMBER, A) == (0, (10, 20, 30))
    library.lgm_estimates_free(handle)
    assert estimate(handle, NUMBER, A) == (100, sevens)
    assert library.lgm_estimates_open(handle) == 0
    assert estimate(handle, NUMBER, A) == (0, UNKNOWN)
    library.lgm_estimates_free(handle)


@test
def tries():
    """What an edge carried and failed to carry is learnt of it, and of no other."""
    handle = opened()
    assert library.lgm_estimates_carried(handle, NUMBER, A, 500) == 0
    assert estimate(handle, NUMBER, A) == (0, (500, MOST, 0))
    assert library.lgm_estimates_carried(handle, NUMBER, A, 400) == 0
    assert estimate(handle, NUMBER, A) == (0, (500, MOST, 0))
    assert library.lgm_estimates_failed(handle, NUMBER, A, 900) == 0
    assert estimate(handle, NUMBER, A) == (0, (500, 899, 0))
    assert library.lgm_estimates_failed(handle, NUMBER, A, 901) == 0
    assert estimate(handle, NUMBER, A) == (0, (500, 899, 0))
    # What was believed doesn't hold any more.
    assert library.lgm_estimates_failed(handle, NUMBER, A, 300) == 0
    assert estimate(handle, NUMBER, A) == (0, (299, 299, 0))
    assert library.lgm_estimates_carried(handle, NUMBER, A, 1_000) == 0
    assert estimate(handle, NUMBER, A) == (0, (1_000, 1_000, 0))
    assert library.lgm_estimates_failed(handle, NUMBER, A, 0) == 0
    assert estimate(handle, NUMBER, A) == (0, (0, 0, 0))
    assert library.lgm_estimates_carried(handle, NUMBER, A, MOST) == 0
    assert estimate(handle, NUMBER, A) == (0, (MOST, MOST, 0))
    # The other direction, and another channel of the node.
    assert estimate(handle, NUMBER, B) == estimate(handle, NUMBER + 1, A) == (0, UNKNOWN)
    assert library.lgm_estimates_set(handle, NUMBER, B, SET) == 0
    assert library.lgm_estimates_failed(handle, NUMBER, B, 15) == 0
    assert estimate(handle, NUMBER, B) == (0, (10, 14, 30))
    assert estimate(handle, NUMBER, A) == (0, (MOST, MOST, 0))
    library.lgm_estimates_free(handle)


@test
def places():
    """Edges stand as something became known of them, and are forgotten one by one."""
    handle = opened()
    assert entry(handle, 0) == (107, 7, bytes(33), (0, 0, 0))
    for scid in range(1_000):
        for start in (A, B):
            assert library.lgm_estimates_set(handle, scid, start, ESTIMATE.pack(scid, MOST, start[0])) == 0
    assert library.lgm_estimates_carried(handle, 999, A, 7_000) == 0
    known = [[scid, start, (scid, MOST, start[0])] for scid in range(1_000) for start in (A, B)]
    known[1_998][2] = 7_000, MOST, 2
    assert entries(handle) == known
    assert entry(handle, 2_000)[0] == entry(handle, MOST)[0] == 107
    for scid in range(0, 1_000, 2):
        assert library.lgm_estimates_forget(handle, scid, A) == 0
        assert library.lgm_estimates_forget(handle, scid, A) == 107
    assert estimate(handle, 500, A) == (0, UNKNOWN)
    left = [named for named in known if named[0] % 2 or named[1] == B]
    assert sorted(entries(handle)) == sorted(left)
    assert all(estimate(handle, scid, start) == (0, believed) for scid, start, believed in left)
    library.lgm_estimates_free(handle)


def answer_by(handles, estimates, asked):
    """What a payment over two hints is answered in both maps, by what is known. That stays as it is."""
    before = entries(estimates)
    found = answer_of_both(handles, C, edges=TWO_HINTS, estimates=estimates, asked=asked)
    assert entries(estimates) == before
    return found


@test
def fading():
    """Half of what is known is left for each half-life, in a map that has the channel; a half-life of 0 counts as 1."""
    known, handle = opened(), one_channel()
    assert library.lgm_estimates_fade(closed(), handle, 1, 1) == library.lgm_estimates_fade(known, closed(), 1, 1) == 100
    assert library.lgm_estimates_set(known, NUMBER, A, ESTIMATE.pack(80_000_000, 90_000_000, 1_000)) == 0
    assert library.lgm_estimates_set(known, NUMBER + 1, A, SET) == 0
    for elapsed, half_life, wanted in ((10, 10, (40_000_000, 95_000_000, 500)), (1, 0, (20_000_000, 97_500_000, 250)),
                                       (0, 5, (20_000_000, 97_500_000, 250))):
        assert library.lgm_estimates_fade(known, handle, elapsed, half_life) == 0
        assert entries(known) == [[NUMBER, A, wanted]]
    library.lgm_estimates_free(known)
    free(handle)


def saved(handle, length=None):
    """What is known as bytes: the number, the length over 7, and the bytes."""
    needed = c_size_t(7)
    number = library.lgm_estimates_save(handle, None, 0, byref(needed)) if length is None else 104
    room = bytearray(needed.value if length is None else length)
    if number == 104:
        number = library.lgm_estimates_save(handle, at(room), len(room), byref(needed))
    return number, needed.value, bytes(room)


def loaded(data, handle=None):
    """What opening a handle with bytes returns, and the handle."""
    handle = closed() if handle is None else handle
    return library.lgm_estimates_load(handle, data, len(data)), handle


@test
def bytes_of_estimates():
    """What was saved is loaded, in its order, and damaged bytes are not, nor what a payer saves."""
    assert saved(closed()) == (100, 7, bytes(7))
    known = opened()
    number, length, empty = saved(known)
    assert (number, length) == (0, 12 + 8 + 16) and empty.startswith(b"lgm est\n\0\0\0\1" + bytes(8))
    for scid in (7, 5, 6):
        assert library.lgm_estimates_set(known, scid, B, ESTIMATE.pack(scid, MOST, 1)) == 0
    number, length, data = saved(known)
    edges = b"".join(scid.to_bytes(8, "big") + B + scid.to_bytes(8, "big") + b"\xff" * 8 + (1).to_bytes(8, "big") for scid in (7, 5, 6))
    assert (number, length) == (0, 12 + 8 + len(edges) + 16) and data[20:-16] == edges
    assert saved(known, length - 1) == (104, length, bytes(length - 1))
    assert loaded(data, known)[0] == 101
    number, other = loaded(data)
    assert number == 0 and entries(other) == entries(known) and saved(other) == saved(known)
    for place, byte in enumerate(data):
        assert loaded(data[:place])[0] == 34 == loaded(data[:place] + bytes([byte ^ 1]) + data[place + 1:])[0]
    assert loaded(data + b"\0")[0] == 34
    with Payer(A) as payer:
        number, left = loaded(payer.save())
        assert number == 34 and bytes(left) == bytes(16)
    library.lgm_estimates_free(known)
    library.lgm_estimates_free(other)


@test
def routes():
    """What is learnt of an edge changes the route, from the next call on."""
    known, handles = opened(), both_kinds()
    liked = search(failure_msat=1_000)
    assert answer_by(handles, known, PLAIN) == OVER_6
    assert answer_by(handles, known, liked) == OVER_7
    assert library.lgm_estimates_carried(known, 6, B, 10_000) == 0
    assert answer_by(handles, known, liked) == OVER_6
    # It surely carries 9,999 msat and no more, so the odds are 1 to 1 again.
    assert library.lgm_estimates_failed(known, 6, B, 10_000) == 0
    assert answer_by(handles, known, liked) == OVER_7
    # Now the costs are 10,005 + 1,000 and 10,009 + 995 or 996: as much, and then the lesser id decides.
    for penalty, found in ((995, OVER_7), (996, OVER_6)):
        assert library.lgm_estimates_set(known, 7, B, ESTIMATE.pack(0, MOST, penalty)) == 0
        assert answer_by(handles, known, liked) == found
    library.lgm_estimates_free(known)
    free(*handles)


@test
def routes_by_penalties_alone():
    """A penalty counts without preferences, and that of the payer's own edge doesn't. A closed handle knows nothing."""
    known, handles = opened(), both_kinds()
    for penalty, found in ((4, OVER_6), (5, OVER_7)):
        assert library.lgm_estimates_set(known, 6, B, ESTIMATE.pack(0, MOST, penalty)) == 0
        assert answer_by(handles, known, PLAIN) == found
    own = edge(5, A, B, 9, 9) + TWO_HINTS
    assert library.lgm_estimates_set(known, 5, A, ESTIMATE.pack(0, MOST, 2**40)) == 0
    assert answer_of_both(handles, C, edges=own, estimates=known) == (0, 2, 5, 10_009, 700_010)
    library.lgm_estimates_free(known)
    assert answer_by(handles, known, PLAIN) == OVER_6
    assert library.lgm_estimates_open(known) == 0
    free(*handles)
    assert answer(handles[0], C, edges=TWO_HINTS, estimates=known) == refusal(100)
    assert library.lgm_estimates_count(known) == 0 and library.lgm_estimates_open(known) == 101
    library.lgm_estimates_free(known)
