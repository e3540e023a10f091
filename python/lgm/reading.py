"""What a verifier needs of a message."""

from __future__ import annotations

from . import library
from .faults import check_message
from .library import Buffer, Octets, octets
from .records import Signed

# The type of an update, whose key isn't in the message.
CHANNEL_UPDATE = 258

# The bytes of a message's type, which come first, and of each signature behind it.
TYPE_LEN, SIGNATURE_LEN = 2, 64


def reads(message: Octets) -> Signed:
    """What a verifier needs of a message: the keys that signed it, its signatures, and the bytes that are signed. Raises
    `Malformed`, `UnknownEven` or `Ignored` of bytes that are no message."""
    message, told = octets("message", message), Buffer(library.SIGNED.size)
    check_message(library.load().lgm_reads(message, len(message), told.at), message)
    (scid, signed_from, block, transaction, output, kind, has_scid, is_second, count,
     *keys) = library.SIGNED.unpack_from(told.bytes)
    places = range(TYPE_LEN, TYPE_LEN + count * SIGNATURE_LEN, SIGNATURE_LEN)
    return Signed(
        kind, scid if has_scid else None, block, transaction, output, is_second,
        () if kind == CHANNEL_UPDATE else tuple(keys[:count]), tuple(message[at:at + SIGNATURE_LEN] for at in places),
        message[signed_from:] if count else b"")
