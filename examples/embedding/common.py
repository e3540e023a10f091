"""What the tests of the library in other programs share: scripts, and what `lgm` answers."""

import shutil
import struct
import subprocess
import sys
from pathlib import Path

HERE = Path(__file__).resolve().parent.parent
TOP = HERE.parent
sys.path[1:1] = [str(TOP), str(TOP / "python"), str(TOP / "tests")]

from reports import report  # noqa: E402, F401

PROGRAM = TOP / "lgm"  # whoever tests another one sets it
CHAIN = "c1" * 32
CHANNELS = 2_000


def runs(*words):
    """Whether a tool is installed, and runs."""
    quiet = {"stdout": subprocess.DEVNULL, "stderr": subprocess.DEVNULL}
    return bool(shutil.which(words[0])) and subprocess.run(words, check=False, **quiet).returncode == 0


def output(words, script=b""):
    """What a program writes, or `None` if it fails."""
    ran = subprocess.run(words, input=script, stdout=subprocess.PIPE)
    return ran.stdout if ran.returncode == 0 else None


def answer(script):
    """What `lgm` writes."""
    return output([PROGRAM, "run", "--chain", CHAIN], script)


def made_script(workload, channels=CHANNELS):
    """A script over a synthetic network."""
    words = [sys.executable, TOP / "bench" / "make_script.py", "--channels", str(channels), "--workload", workload]
    return output(words)


def announced(items):
    """The channels and nodes that messages announce, at the offsets of BOLT 7: what the package has to find."""
    channels, nodes = {}, {}
    for message, _, funding in items:
        kind, features = message[:2], int.from_bytes(message[66:68], "big")
        if kind == b"\x01\x00":
            scid, node_1, node_2 = struct.unpack_from(">Q33s33s", message, 292)
            channels[scid] = [int(funding), node_1, node_2, None, None]
        elif kind == b"\x01\x02":
            scid, *terms = struct.unpack_from(">QIBBHQIIQ", message, 98)
            channels[scid][3 + (terms[2] & 1)] = terms
        else:
            timestamp, point, rgb, alias, length = struct.unpack_from(">I33s3s32sH", message, 68 + features)
            nodes[point] = timestamp, rgb, alias, message[142 + features:142 + features + length]
    return channels, nodes


def is_wanted(network, message, lgm):
    """Whether a message would be accepted with the right verdicts."""
    try:
        network.wanted(message)
    except lgm.Refused:
        return False
    return True


def stored(network, lgm):
    """The messages of a map, each with the satoshi of its channel or `None`: announcements of channels first."""
    for scid in network.channels():
        yield network.message(scid), network.channel(scid).capacity_sat, None
    for scid in network.channels():
        channel = network.channel(scid)
        for which, terms, point in ((lgm.UPDATE_1, channel.from_1, channel.node_1),
                                    (lgm.UPDATE_2, channel.from_2, channel.node_2)):
            if terms:
                yield network.message(scid, which), 0, point
    for point in network.nodes():
        yield network.node_message(point), 0, point
