"""Core Lightning's `gossip_store`, in the node's folder, as a script.

The node has checked signatures and funding outputs, so all verdicts are that they are valid. The script announces the
channels with their updates, closes those that the store removes, and announces the nodes of the remaining channels.

Left out are deleted records, zombies, dying channels, and channels that the node doesn't announce to others. A record
that is cut off, has a wrong CRC or isn't a proper message, an announcement without an amount behind it, a store that
was replaced and a version that isn't known raise Fault.
"""

import os
import struct

import top  # leads to gossip
from progress import Progress, clear

from gossip.messages import (
    CHANNEL_ANNOUNCEMENT, CHANNEL_UPDATE, NODE_ANNOUNCEMENT, Fault, channel_line, decode, kind_of, scid_text, signed_line)

HEADER = struct.Struct(">HHII")  # flags, length of the message, CRC, timestamp
DELETED, ZOMBIE, DYING = 0x8000, 0x1000, 0x0800  # flags of a record
VERSIONS = range(12, 16)  # the first byte: three bits of a major version, here 0, and five of a minor one
AMOUNT, TAKEN_OUT, REPLACED, IS_DYING = 4101, 4103, 4105, 4106  # the store's own types
NAME = "a gossip_store of Core Lightning"
ABOUT = "From Core Lightning's gossip_store."


def crc_table():
    """The table of the CRC-32C, by bytes."""
    for byte in range(256):
        for _ in range(8):
            byte = byte >> 1 ^ (0x82F63B78 if byte & 1 else 0)
        yield byte


CRC = tuple(crc_table())


def crc32c(start, message):
    """The CRC-32C (Castagnoli) of a message after bytes whose CRC is `start`."""
    crc = start ^ 0xFFFFFFFF
    for byte in message:
        crc = CRC[(crc ^ byte) & 0xFF] ^ crc >> 8
    return crc ^ 0xFFFFFFFF


def records(file):
    """The place, the flags and the message of each record."""
    version = file.read(1)
    if not version or version[0] not in VERSIONS:
        found = f"a store of version {version[0] >> 5}.{version[0] & 31}" if version else "an empty file"
        raise Fault(f"{found}; known are the versions 0.{VERSIONS[0]} to 0.{VERSIONS[-1]}")
    progress = Progress(os.fstat(file.fileno()).st_size)
    place = 1
    while header := file.read(HEADER.size):
        whole = len(header) == HEADER.size
        flags, length, crc, timestamp = HEADER.unpack(header) if whole else (0, 1, 0, 0)
        message = file.read(length)
        if len(message) < length:
            raise Fault(f"the record at byte {place} is cut off; if the node was writing it, try again")
        if crc32c(timestamp, message) != crc:
            raise Fault(f"the record at byte {place} has a wrong CRC")
        yield place, flags, message
        place += HEADER.size + length
        progress.at(place)
    clear()


class Script:
    """Makes the lines of records, given in the order of the store."""

    def __init__(self):
        self._ends = {}  # the two points of each channel that was written, by its id
        self._nodes = []  # the announcements of nodes, with their points
        self._waiting = None  # a channel and its announcement, whose amount comes next

    def lines(self, flags, message):
        """The lines of a record, none or one."""
        kind = kind_of(message)
        waiting, self._waiting = self._waiting, None
        if waiting and (kind != AMOUNT or len(message) < 10):
            raise Fault(f"no amount in front of it for the channel {scid_text(waiting[0].scid)}")
        if kind == REPLACED:
            raise Fault("the store was replaced; read the new one")
        if flags & (DELETED | ZOMBIE | DYING):
            return
        if kind == CHANNEL_ANNOUNCEMENT:
            self._waiting = decode(message), message
        elif kind == AMOUNT and waiting:
            channel, announcement = waiting
            self._ends[channel.scid] = channel.nodes
            yield channel_line(announcement, int.from_bytes(message[2:10], "big"))
        elif kind == CHANNEL_UPDATE:
            update = decode(message)
            if update.scid in self._ends:
                yield signed_line(message, self._ends[update.scid][update.direction])
        elif kind == NODE_ANNOUNCEMENT:
            self._nodes.append((decode(message).point, message))
        elif kind in (TAKEN_OUT, IS_DYING) and self._ends.pop(message[2:10], None):
            yield f"close {scid_text(message[2:10])}\n"

    def end(self):
        """The lines behind the last record: the nodes of the channels that are left."""
        if self._waiting:
            raise Fault(f"the store ends without an amount for the channel {scid_text(self._waiting[0].scid)}")
        points = {point for pair in self._ends.values() for point in pair}
        for point, message in self._nodes:
            if point in points:
                yield signed_line(message, point)


def lines(path):
    """The items of the store's script."""
    script = Script()
    with open(path, "rb") as file:
        for place, flags, message in records(file):
            try:
                yield from script.lines(flags, message)
            except Fault as fault:
                raise Fault(f"the record at byte {place}: {fault}") from fault
    yield from script.end()
