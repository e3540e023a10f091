"""Writes a map to a file, and loads it again: what a library's user keeps for a restart.

    dump(network, path)              # a `Map`
    network = load(path, CHAIN)      # a new one, with the same channels, updates, nodes and bans

    python3 -m lgm.dump FILE

tells what a file has. It needs no library.

A file has the bytes of `Map.save`: the eight bytes `lgm map\\n`, the version in four, the chain's hash, the length of the
records in eight bytes, the records, and a checksum in sixteen. Numbers are big-endian. A record is a byte that says which kind,
what goes with the message, the length of the message in two bytes, and the message as it was received.

    kind  what                                              goes with it
    1     a banned node, without a message and its length   its point, 33 bytes
    2     a channel's announcement                          its capacity in satoshi, 8 bytes
    3     an update                                         nothing
    4     a node's announcement                             nothing

The checksum is two numbers of eight bytes, modulo 2^64: the sum of all bytes before it, and the sum of these sums after each
byte. So it tells what was changed by mistake, or cut off; it is no signature: keep the file where nobody else writes.
"""

from __future__ import annotations

import os
import struct
import sys
from collections import Counter
from itertools import accumulate
from pathlib import Path
from typing import Iterator, List, Optional, Tuple, Union

import lgm
from lgm.library import Octets, octets

MAGIC, VERSION = b"lgm map\n", 2
HEADER = struct.Struct(">8sI32sQ")
LENGTH = struct.Struct(">H")
CHECKSUM = struct.Struct(">QQ")
BAN, CHANNEL, UPDATE, NODE = range(1, 5)
DETAILS = {BAN: 33, CHANNEL: 8, UPDATE: 0, NODE: 0}
NAMES = {CHANNEL: "channels", UPDATE: "updates", NODE: "nodes", BAN: "bans"}

# A record's kind, what goes with its message, and that.
Record = Tuple[int, bytes, bytes]


class BadDump(Exception):
    """A file that isn't a whole dump, or is of another chain. The text says why, and where that is known."""


def _written(path: Path, content: bytes) -> None:
    """Writes a file beside another one, and puts it in its place once all of it is on the disk."""
    beside = path.with_name(path.name + ".new")
    with open(beside, "wb") as writer:
        writer.write(content)
        writer.flush()
        os.fsync(writer.fileno())
    os.replace(beside, path)
    folder = os.open(path.parent, os.O_RDONLY)
    try:
        os.fsync(folder)
    finally:
        os.close(folder)


def dump(network: lgm.Map, path: Union[str, Path]) -> None:
    """Writes what a map has. Other calls of the map wait meanwhile: so where threads change it, write what it publishes."""
    path = Path(path)
    try:
        _written(path, network.save())
    finally:
        path.with_name(path.name + ".new").unlink(missing_ok=True)


def _records(body: bytes, start: int) -> Iterator[Record]:
    """The records of a body, which begins at a place of its file."""
    at, number = 0, 0
    while at < len(body):
        where = f"record {number}, at byte {start + at}"
        kind = body[at]
        if kind not in DETAILS:
            raise BadDump(f"{where}: there is no kind {kind}")
        behind = at + 1 + DETAILS[kind]
        detail, message = body[at + 1:behind], b""
        if kind != BAN:
            length = int.from_bytes(body[behind:behind + LENGTH.size], "big")
            behind += LENGTH.size + length
            message = body[behind - length:behind]
        if behind > len(body):
            raise BadDump(f"{where}: the records end in it")
        yield kind, detail, message
        at, number = behind, number + 1


def read(content: bytes, chain: Optional[bytes] = None) -> List[Record]:
    """The records of a file, only if all of it is as it was written, and of the chain, if one is given."""
    if len(content) < 12 or content[:8] != MAGIC:
        raise BadDump("at byte 0: this isn't a dump of a map")
    if (version := int.from_bytes(content[8:12], "big")) != VERSION:
        raise BadDump(f"at byte 8: version {version}, where {VERSION} is read here")
    if len(content) < HEADER.size:
        raise BadDump(f"at byte {len(content)}: the file ends in its header")
    _, _, found, length = HEADER.unpack_from(content)
    end = HEADER.size + length
    if len(content) < end + CHECKSUM.size:
        raise BadDump(f"at byte {len(content)}: the file ends here, where it is to have {end + CHECKSUM.size} bytes")
    if len(content) > end + CHECKSUM.size:
        raise BadDump(f"at byte {end + CHECKSUM.size}: the file goes on behind its end")
    sums = sum(content[:end]) % 2**64, sum(accumulate(content[:end])) % 2**64
    if sums != CHECKSUM.unpack_from(content, end):
        raise BadDump("the file was changed: it hasn't the checksum that it tells")
    if chain is not None and found != chain:
        raise BadDump(f"at byte 12: it is of another chain, {found.hex()}")
    return list(_records(content[HEADER.size:end], HEADER.size))


def load(path: Union[str, Path], chain: Octets, known: Optional[Octets] = None, seed: Optional[Octets] = None) -> lgm.Map:
    """A new map with what a file has. `chain`, `known` and `seed` are those of `Map`. There is no map if this raises."""
    content, chain = Path(path).read_bytes(), octets("chain", chain, 32)
    try:
        return lgm.Map.load(content, chain, known, seed)
    except lgm.NotSaved:
        read(content, chain)
        raise BadDump("a message of it isn't one of its kind") from None


def main() -> None:
    """Tells what a file has."""
    if len(sys.argv) != 2:
        sys.exit("usage: python3 -m lgm.dump FILE")
    try:
        found = read(Path(sys.argv[1]).read_bytes())
    except (BadDump, OSError) as fault:
        sys.exit(f"lgm.dump: {fault}")
    counts = Counter(kind for kind, _, _ in found)
    print(*(f"{counts[kind]} {name}" for kind, name in NAMES.items()), sep=", ")


if __name__ == "__main__":
    main()
