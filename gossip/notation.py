"""A notation for scripts and their answers, in which names and messages stand for their digits.

| word | stands for |
|---|---|
| `A`, `B`, `C` | nodes: the byte 02 and 32 bytes 0a, 0b or 0c |
| `P0` to `P255` | nodes: 02, 31 zero bytes and the number |
| `03:0b` | a node by its first byte and the one that follows it 32 times |
| `K`, `U` | a bitcoin key; a point whose first byte is 04 |
| `H`, `X`, `M`, `S` | the chain, another chain, that of mainnet, and the secret of payments |
| `ca(600000x1x0,A,B)` | a `channel_announcement` of a channel between two nodes |
| `na(B,5)` | a `node_announcement` with a timestamp |
| `cu(600000x1x0,0,5)` | a `channel_update` with channel_flags and a timestamp |
| `times(65103,00)` | the text `00`, 65,103 times |
| `each(0..3999,0927c0{:06x}0000)` | the text once for each number from 0 to 3,999, as `numbered` gives it |
| `[0105 H 0009]` | what these words stand for, one behind the other; `[]` is nothing, so that a line can end in a space |

After its fields a message may have others by their names: `chain=X`, `features=01`, `cut=1` for the bytes that are
missing at its end, of a channel `key_2=U`, and of an update `message_flags=3`, `delta=10`, `min=0`, `base=200`,
`millionths=2000` and `max=1000`. Signatures are zeros, bitcoin keys are `K`. An update has `message_flags` 1, a delta of
40 blocks, no fee, and carries 1 to 50,000,000 msat. All numbers are decimal, features are digits.

A word that is none of these stays as it is. One that is meant as one of them, but is wrong, raises a ValueError.
"""

import re

from gossip.messages import CHAIN, HAS_MAXIMUM, MAINNET, ChannelAnnouncement, ChannelUpdate, Fault, NodeAnnouncement
from gossip.messages import short_channel_id

SECRET = b"\x11" * 32
OTHER_CHAIN = b"\xd1" * 32
CHAINS = {"H": CHAIN, "X": OTHER_CHAIN, "M": MAINNET}


def _repeated(first, byte):
    """The point with this first byte, and 32 times another one."""
    return bytes([first]) + bytes([byte]) * 32


POINTS = {"A": _repeated(2, 0x0A), "B": _repeated(2, 0x0B), "C": _repeated(2, 0x0C), "K": _repeated(2, 0xEE),
          "U": _repeated(4, 0x0C)}
NAMES = {name: found.hex() for name, found in (*POINTS.items(), *CHAINS.items(), ("S", SECRET))}
TERMS = {"delta": 40, "min": 1, "base": 0, "millionths": 0, "max": 50_000_000}

_NUMBERED = re.compile(r"P(\d+)")
_REPEATED = re.compile(r"([0-9a-fA-F]+):([0-9a-fA-F]+)")
_CALL = re.compile(r"([a-z]\w*)\((.*)\)")
_RANGE = re.compile(r"(\d+)\.\.(\d+)")
_PLACE = re.compile(r"\{([+-]\d+)?(:0?\d*[dx])?\}")


def span(text):
    """The numbers of `0..3999`, both ends included."""
    found = _RANGE.fullmatch(text)
    if not found or int(found[2]) < int(found[1]):
        raise ValueError(f"{text} is no range, as 0..3999")
    return range(int(found[1]), int(found[2]) + 1)


def numbered(text, number):
    """A text with a number in place of `{}`, in hexadecimal digits in place of `{:06x}`, and one more in place of `{+1}`."""
    return _PLACE.sub(lambda place: format(number + int(place[1] or 0), (place[2] or ":")[1:]), text)


def _number(text):
    """A decimal number."""
    if not (text.isascii() and text.isdigit()):
        raise ValueError(f"{text or 'nothing'} is no number")
    return int(text)


def _point(word):
    """The point of a name; none if the word is meant as no point."""
    if word in POINTS:
        return POINTS[word]
    if found := _NUMBERED.fullmatch(word):
        if int(found[1]) > 255:
            raise ValueError(f"{word} is beyond P255")
        return b"\2" + bytes(31) + bytes([int(found[1])])
    if found := _REPEATED.fullmatch(word):
        if not len(found[1]) == len(found[2]) == 2:
            raise ValueError(f"{word} isn't two bytes")
        return _repeated(int(found[1], 16), int(found[2], 16))
    return None


def _point_of(word):
    """The point of a name."""
    point = _point(word)
    if point is None:
        raise ValueError(f"{word} is no point")
    return point


def _scid(text):
    """The eight bytes of an id."""
    parts = [_number(part) for part in text.split("x")]
    if len(parts) != 3 or not all(part < end for part, end in zip(parts, (1 << 24, 1 << 24, 1 << 16))):
        raise ValueError(f"{text} is no id of a channel")
    return short_channel_id(*parts)


def _fields(inside, count, names):
    """The first fields of a message, so many, and the others by these names."""
    fields = inside.split(",")
    if len(fields) < count:
        raise ValueError(f"it has {len(fields)} fields, not {count}")
    others = {}
    for field in fields[count:]:
        name, is_given, value = field.partition("=")
        if not is_given or name not in names or name in others:
            raise ValueError(f"{field} is none of {', '.join(names)}, or is there twice")
        others[name] = value
    return fields[:count], others


def _chain(others):
    """The chain that is named, or the usual one."""
    name = others.get("chain", "H")
    if name not in CHAINS:
        raise ValueError(f"{name} is no chain")
    return CHAINS[name]


def _channel(inside):
    """A channel's announcement, and its other fields."""
    (scid, first, second), others = _fields(inside, 3, ("chain", "features", "cut", "key_2"))
    nodes = _point_of(first), _point_of(second)
    keys = POINTS["K"], _point_of(others.get("key_2", "K"))
    features = bytes.fromhex(others.get("features", ""))
    return ChannelAnnouncement(_chain(others), _scid(scid), nodes, features).encode(bitcoin_keys=keys), others


def _node(inside):
    """A node's announcement, and its other fields."""
    (node, timestamp), others = _fields(inside, 2, ("features", "cut"))
    features = bytes.fromhex(others.get("features", ""))
    return NodeAnnouncement(features, _number(timestamp), _point_of(node)).encode(), others


def _update(inside):
    """An update, and its other fields."""
    (scid, flags, timestamp), others = _fields(inside, 3, ("chain", "cut", "message_flags", *TERMS))
    terms = [_number(others[name]) if name in others else usual for name, usual in TERMS.items()]
    delta, least, base, millionths, most = terms
    message_flags = _number(others.get("message_flags", str(HAS_MAXIMUM)))
    update = ChannelUpdate(_chain(others), _scid(scid), _number(timestamp), message_flags, _number(flags),
                           delta, least, base, millionths, most)
    return update.encode(), others


_MESSAGES = {"ca": _channel, "na": _node, "cu": _update}


def _message(kind, inside):
    """The digits of a message, without those of bytes that are cut."""
    message, others = _MESSAGES[kind](inside)
    cut = _number(others.get("cut", "0"))
    if cut > len(message):
        raise ValueError(f"it has {len(message)} bytes, not {cut}")
    return message[:len(message) - cut].hex()


def _repetition(kind, inside):
    """A text so many times, or once for each number."""
    which, is_given, text = inside.partition(",")
    if not is_given:
        raise ValueError("it has no text")
    if kind == "times":
        return text * _number(which)
    return "".join([numbered(text, number) for number in span(which)])


def _call(kind, inside):
    """What a word with parentheses stands for."""
    if kind in _MESSAGES:
        return _message(kind, inside)
    if kind in ("times", "each"):
        return _repetition(kind, inside)
    raise ValueError("there is no such message")


def word(text):
    """What a word stands for; a ValueError that names it if it is wrong."""
    if text in NAMES:
        return NAMES[text]
    try:
        if found := _CALL.fullmatch(text):
            return _call(found[1], found[2])
        if point := _point(text):
            return point.hex()
    except (ValueError, OverflowError, Fault) as fault:
        raise ValueError(f"{text}: {fault}") from fault
    return text


def spelled(line):
    """A line, spelled out."""
    parts, inside = [], False
    for count, text in enumerate(line.split(" ")):
        if count and not inside:
            parts.append(" ")
        if text.startswith("[") and not inside:
            text, inside = text[1:], True
        closes = inside and text.endswith("]")
        text = text[:-1] if closes else text
        if inside and ("[" in text or "]" in text):
            raise ValueError(f"{text}: a bracket inside of brackets")
        parts.append(word(text))
        inside = inside and not closes
    if inside:
        raise ValueError(f"{line}: a bracket isn't closed")
    return "".join(parts)
