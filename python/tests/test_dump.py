#!/usr/bin/env python3
"""Tests lgm.dump: what a file has, that it is loaded as it was, and what becomes of a damaged one.

    PYTHONPATH=python python3 python/tests/test_dump.py

needs the library; examples/test_embedding.py runs it, and tests/packages.py with a package that was installed.
"""

import os
import subprocess
import sys
import tempfile
from pathlib import Path

sys.dont_write_bytecode = True  # the repository gets no made files

import lgm
from lgm import dump

TOP = Path(__file__).resolve().parent.parent.parent
CHAIN = b"\xc1" * 32
MADE = [sys.executable, TOP / "bench" / "make_script.py", "--channels", "200", "--workload", "bans"]


def offered(network, script):
    """Offers the items of a script. Some may be refused."""
    for line in script.splitlines():
        if line.startswith("m "):
            _, message, sig, funding = line.split()
            try:
                network.offer(bytes.fromhex(message), sig if sig == "all" else bytes.fromhex(sig),
                              int(funding) if funding.isdigit() else funding)
            except lgm.Refused:
                pass
    return network


def small():
    """A map of the three channels of examples/payments.txt, with their updates, and of one banned node."""
    script = (TOP / "examples" / "payments.txt").read_text().split("route ")[0]
    network = offered(lgm.Map(CHAIN), script)
    network.ban(b"\2" * 33)
    return network


def everything(network):
    """All that a map tells."""
    channels = [(scid, network.channel(scid)) for scid in network.channels()]
    messages = [network.message(scid, which) for scid, channel in channels
                for which, held in enumerate((True, channel.from_1, channel.from_2)) if held]
    nodes = [(point, network.node(point), network.node_message(point)) for point in network.nodes()]
    return channels, messages, nodes, list(network.banned())


def fault(call, *arguments):
    """The text of what a call raises of a file."""
    try:
        call(*arguments)
    except dump.BadDump as why:
        return str(why)
    return None


def checksum(content):
    """The sum of all bytes, and the sum of these sums after each byte."""
    first = second = 0
    for byte in content:
        first = (first + byte) % 2**64
        second = (second + first) % 2**64
    return first.to_bytes(8, "big") + second.to_bytes(8, "big")


def whole(body, chain=CHAIN):
    """A file with a body of records."""
    content = b"lgm map\n\0\0\0\2" + chain + len(body).to_bytes(8, "big") + body
    return content + checksum(content)


def body_of(network):
    """The records of the small map, put together by the table in `lgm.dump`."""
    scids = [600000 << 40 | 1 << 16, 600001 << 40 | 2 << 16 | 1, 600002 << 40 | 3 << 16]
    assert list(network.channels()) == scids
    channels, updates = b"", b""
    for scid, node in zip(scids, (b"\x0a", b"\x0b", b"\x0c")):
        which = lgm.UPDATE_1 if network.channel(scid).node_1 == b"\2" + node * 32 else lgm.UPDATE_2
        announcement, update = network.message(scid), network.message(scid, which)
        channels += b"\2" + (100_000).to_bytes(8, "big") + len(announcement).to_bytes(2, "big") + announcement
        updates += b"\3" + len(update).to_bytes(2, "big") + update
    return b"\1" + b"\2" * 33 + channels + updates


def a_file_is_laid_out_as_told(file):
    """The bytes of a small file."""
    with small() as network:
        dump.dump(network, file)
        assert file.read_bytes() == whole(body_of(network))


def a_map_is_loaded_as_it_was(file):
    """A network with nodes and bans, and an empty map: the loaded one tells the same, and is written as the same file."""
    script = subprocess.run(MADE, stdout=subprocess.PIPE, check=True, text=True).stdout
    with offered(lgm.Map(CHAIN), script) as network, lgm.Map(CHAIN) as empty:
        channels, _, nodes, banned = everything(network)
        assert len(channels) > 10 and len(nodes) > 10 and len(banned) > 10
        for written in (network, network.publish(), empty):
            dump.dump(written, file)
            with dump.load(file, CHAIN) as loaded:
                assert everything(loaded) == everything(written)
                again = file.with_name("again")
                dump.dump(loaded, again)
                assert again.read_bytes() == file.read_bytes()


def what_was_changed_is_found(file):
    """A file with one bit changed is refused, by the same text with a library and without one, and so is one that is cut, lacks
    a byte or goes on."""
    with small() as network:
        dump.dump(network, file)
    content = file.read_bytes()
    for place in range(len(content)):
        others = [content[:place], content[:place] + content[place + 1:], content[:place] + b"\0" + content[place:]]
        for bit in range(8):
            changed = bytearray(content)
            changed[place] ^= 1 << bit
            others.append(bytes(changed))
        for other in others:
            why = fault(dump.read, other)
            assert why, (place, other[place:place + 1])
            file.write_bytes(other)
            assert fault(dump.load, file, CHAIN) == why, (place, why)
    assert fault(dump.read, content + b"\0") == f"at byte {len(content)}: the file goes on behind its end"
    assert fault(dump.read, content[:-1]) == (
        f"at byte {len(content) - 1}: the file ends here, where it is to have {len(content)} bytes")
    assert fault(dump.read, content[:20]) == "at byte 20: the file ends in its header"
    changed = content[:100] + bytes([content[100] ^ 1]) + content[101:]
    assert fault(dump.read, changed) == "the file was changed: it hasn't the checksum that it tells"


def other_files_are_told(file):
    """A file that is none, one of the first version, one of another chain, and ones with the right checksum that no map has."""
    assert fault(dump.read, b"GSP\1") == "at byte 0: this isn't a dump of a map"
    assert fault(dump.read, b"lgm map\n\0\0\0\1") == "at byte 8: version 1, where 2 is read here"
    with small() as network:
        body = body_of(network)
    file.write_bytes(whole(body, b"\xc2" * 32))
    assert fault(dump.load, file, CHAIN) == f"at byte 12: it is of another chain, {'c2' * 32}"
    assert everything(dump.load(file, b"\xc2" * 32))[3] == [b"\2" * 33]
    for wrong, why in ((b"\5" + body, "record 0, at byte 52: there is no kind 5"),
                       (body + b"\1", f"record 7, at byte {52 + len(body)}: the records end in it"),
                       (body + b"\3\0\2\1\2", "a message of it isn't one of its kind")):
        file.write_bytes(whole(wrong))
        assert fault(dump.load, file, CHAIN) == why


def nothing_is_lost(file):
    """Where a file can't be written, the one before stays, and nothing beside it."""
    with small() as network:
        dump.dump(network, file)
        before = file.read_bytes()
        network.ban(b"\3" * 33)

        def refused(*_):
            raise OSError("no space")

        for name in ("fsync", "replace"):
            real = getattr(os, name)
            setattr(os, name, refused)
            try:
                dump.dump(network, file)
                raise AssertionError(name)
            except OSError:
                pass
            finally:
                setattr(os, name, real)
            assert file.read_bytes() == before and list(file.parent.glob("*.new")) == []
        dump.dump(network, file)
        assert file.read_bytes() != before
    try:
        dump.dump(network, file)
        raise AssertionError("closed")
    except lgm.Closed:
        pass


def the_program_tells_what_a_file_has(file):
    """It counts, and says what is wrong with a damaged file."""
    with small() as network:
        dump.dump(network, file)
    words = [sys.executable, "-m", "lgm.dump", file]
    done = subprocess.run(words, capture_output=True, text=True, check=False)
    assert (done.returncode, done.stdout) == (0, "3 channels, 3 updates, 0 nodes, 1 bans\n"), done
    file.write_bytes(file.read_bytes()[:-1])
    done = subprocess.run(words, capture_output=True, text=True, check=False)
    assert done.returncode == 1 and done.stderr.startswith("lgm.dump: at byte "), done


def main():
    """Runs each test over a file of its own."""
    tests = (a_file_is_laid_out_as_told, a_map_is_loaded_as_it_was, what_was_changed_is_found, other_files_are_told,
             nothing_is_lost, the_program_tells_what_a_file_has)
    with tempfile.TemporaryDirectory() as folder:
        for test in tests:
            test(Path(folder, "map"))
    print(f"{len(tests)} passed")


if __name__ == "__main__":
    main()
