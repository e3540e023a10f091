"""What is freed and what isn't copied: counts the bytes that the C library has given out, over 1,000 turns.

A call that forgets an owner of a map leaks the map, and from then on no publication can go on with it: each one copies. So
memory is counted over publications, shared handles and estimates. It needs mallinfo2, of the GNU C library from 2.33 on.
"""

from ctypes import CDLL, Structure, c_size_t, create_string_buffer

from calls import A, ANNOUNCEMENT, NUMBER, closed, free, library, offered, opened, opened_empty, published, seen, test
from estimates import SET

TURNS = 1000
# What Python and the allocator's own lists may take meanwhile. A map of one channel takes more than 32 bytes, and the estimates
# of one edge take 32 KiB.
SLACK = 24 * TURNS


class Heap(Structure):
    """What mallinfo2 returns: bytes in blocks of their own, and those in the others."""

    _fields_ = [(name, c_size_t) for name in
                ("arena", "ordblks", "smblks", "hblks", "hblkhd", "usmblks", "fsmblks", "uordblks", "fordblks", "keepcost")]


def given_out():
    """The bytes that are given out."""
    counted = CDLL(None).mallinfo2
    counted.restype = Heap
    heap = counted()
    return heap.uordblks + heap.hblkhd


def assert_no_growth(turn):
    """That 1,000 turns leave no more bytes given out than 50 did."""
    for _ in range(50):
        turn()
    before = given_out()
    for _ in range(TURNS):
        turn()
    grown = given_out() - before
    assert grown < SLACK, f"{grown} bytes more after {TURNS} turns"


@test
def publications_are_freed():
    """A map that changes is published and freed, again and again."""
    handle = opened_empty()

    def turn():
        assert offered(handle, ANNOUNCEMENT, 0, 1) == 0
        free(published(handle))
        assert library.lgm_close_channel(handle, NUMBER) == 0
        free(published(handle))

    assert_no_growth(turn)
    free(handle)


@test
def shared_handles_are_freed():
    """Handles of one published map come and go, and publications of it."""
    handle = opened()
    fixed = published(handle)

    def turn():
        other = create_string_buffer(len(fixed))
        assert library.lgm_share(fixed, other) == 0
        again = published(fixed)
        assert seen(again) == (2, 1)
        free(other, again)

    assert_no_growth(turn)
    free(fixed, handle)


@test
def maps_are_freed():
    """Maps are opened, published and freed, each before its published map or behind it."""

    def turn():
        handle = opened()
        fixed = published(handle)
        free(handle, fixed)
        handle = opened()
        fixed = published(handle)
        free(fixed, handle)

    assert_no_growth(turn)


@test
def estimates_are_freed():
    """What a payer has learnt is noted and freed."""

    def turn():
        handle = closed()
        assert library.lgm_estimates_open(handle) == 0
        assert library.lgm_estimates_set(handle, NUMBER, A, SET) == 0
        library.lgm_estimates_free(handle)

    assert_no_growth(turn)
