#!/usr/bin/env python3
"""Tests why_route.py on each of its causes, over small networks that are made for it.

    python3 examples/tools/test_why_route.py [PROGRAM]
"""

import subprocess
import sys
import tempfile
from concurrent.futures import ThreadPoolExecutor
from pathlib import Path

sys.dont_write_bytecode = True  # the repository gets no made files

from top import TOP

from gossip.messages import channel_line, short_channel_id, signed_line
from gossip.three_nodes import A, B, C, FIRST, NOBODY, SECOND, TERMS_OF_A, TERMS_OF_B, channel, node, update

PROGRAM = sys.argv[1] if len(sys.argv) > 1 else TOP / "lgm"
TOOL = TOP / "examples" / "tools" / "why_route.py"
D, E = b"\x02" + bytes([13]) * 32, b"\x02" + bytes([14]) * 32
THIRD = short_channel_id(700_002, 3, 0)
SECRET = "11" * 32
MSAT = 1_000_000


def announced(scid, one, other, funding=100_000, features=b""):
    """The line of a channel's announcement."""
    return channel_line(channel(scid, one, other, features), funding).rstrip()


def updated(scid, start, terms, flags=0):
    """The line of an update."""
    return signed_line(update(scid, terms, flags), start).rstrip()


def noted(point, features):
    """The line of a node's announcement."""
    return signed_line(node(point, features), point).rstrip()


def terms_of_b(**changed):
    """TERMS_OF_B with another minimum or maximum."""
    delta, minimum, base, millionths, maximum = TERMS_OF_B
    return delta, changed.get("minimum", minimum), base, millionths, changed.get("maximum", maximum)


OPEN = [announced(FIRST, A, B), updated(FIRST, A, TERMS_OF_A), announced(SECOND, B, C)]
WHOLE = [*OPEN, updated(SECOND, B, TERMS_OF_B), "commit"]


def line_of_nodes(count):
    """A network of nodes in a line, and its ends."""
    nodes = [b"\x02" + bytes([number]) * 32 for number in range(1, count + 1)]
    lines = []
    for number, (one, other) in enumerate(zip(nodes, nodes[1:])):
        scid = short_channel_id(700_000 + number, 1, 0)
        lines += [announced(scid, one, other), updated(scid, one, (1, 0, 0, 0, 100_000_000))]
    return [*lines, "commit"], nodes[0], nodes[-1]


def explained(lines, payer=A, payee=C, msat=MSAT, *options, expiry=800_000):
    """The status and the lines of an explanation."""
    payment = f"route {payer.hex()} {payee.hex()} {msat} {expiry} {SECRET}"
    with tempfile.TemporaryDirectory() as folder:
        path = Path(folder) / "network.txt"
        path.write_text("".join(f"{line}\n" for line in lines))
        words = [sys.executable, "-B", TOOL, "--program", PROGRAM, *options, path, payment]
        done = subprocess.run(words, capture_output=True, text=True, check=False)
    assert done.returncode != 1, done.stderr
    return done.returncode, done.stdout.splitlines()


def decides(wanted, *arguments, has=(), **named):
    """Looks for the line of the cause, and for others."""
    status, said = explained(*arguments, **named)
    found = [line for line in said if line.startswith("decides")]
    assert status == 0 and len(found) == 1 and found[0].startswith(f"decides: {wanted}"), (wanted, said)
    for line in has:
        assert line in said, (line, said)


def each_condition_decides():
    """One condition alone, with the channel that is at fault."""
    first, second = (f"  {name} from {point.hex()}, with " for name, point in (("700000x1x1", A), ("700001x2x0", B)))
    decides("minima", [*OPEN, updated(SECOND, B, terms_of_b(minimum=MSAT + 1)), "commit"],
            has=[f"{second}1,000,000 msat: htlc_minimum_msat 1,000,001 is above 1,000,000 msat",
                 f"{first}1,001,500 msat: usable",
                 "hint: of the powers of ten, 10,000,000 msat have a route"])
    # B charges 1,000 msat and 500 ppm for 49,990,000: 1,000 + 24,995. So A's channel would carry 50,015,995.
    decides("maxima", WHOLE, A, C, 49_990_000,
            has=[f"{first}50,015,995 msat: htlc_maximum_msat 50,000,000 is below 50,015,995 msat",
                 f"{second}49,990,000 msat: usable"])
    decides("disabled directions", [*OPEN, updated(SECOND, B, TERMS_OF_B, 2), "commit"],
            has=[f"{second}1,000,000 msat: disabled", f"  700001x2x0 from {B.hex()}: disabled"])
    decides("features of nodes", [*WHOLE[:-1], noted(C, b"\5"), "commit"], A, C, MSAT, "--known", "04",
            has=[f"{second}1,000,000 msat: the node that it leads to requires features [0], which --known doesn't "
                 "have"])
    decides("features of channels", [announced(FIRST, A, B, features=b"\2\1"), *WHOLE[1:]],
            has=[f"{first}1,001,500 msat: even feature bits [0]"])
    decides("capacities", [*OPEN[:2], announced(SECOND, B, C, 60_000), *WHOLE[3:]],
            has=[f"{second}1,000,000 msat: htlc_maximum_msat 60,000,500 is above the capacity of 60,000 sat"])
    decides("updates", [*OPEN, "commit"], has=[f"  700001x2x0 from {B.hex()}: no update in this direction"])


def what_the_map_lacks_decides():
    """Items that were refused, bans, closes, and no commit."""
    decides("commit", WHOLE[:-1])
    refused = "  an announcement that names it, in line 3, is refused as funding"
    decides("refusals", [*OPEN[:2], announced(SECOND, B, C, "-"), *WHOLE[3:]],
            has=[refused, f"payee {C.hex()}: 0 channels in the map"])
    decides("refusals", [*OPEN, WHOLE[3].replace(f"{B.hex()} -", "nobody -"), "commit"])
    decides("bans", [*WHOLE[:-1], announced(SECOND, D, E), "commit"],
            has=[f"payee {C.hex()}: 0 channels in the map, and banned", "  700001x2x0: banned by line 5"])
    decides("closes", [*WHOLE[:-1], "close 700001x2x0", "commit"], has=["  700001x2x0: closed by line 5"])


def several_together_decide():
    """A minimum of one channel, and that the other is disabled."""
    lines = [OPEN[0], updated(FIRST, A, TERMS_OF_A, 2), OPEN[2], updated(SECOND, B, terms_of_b(minimum=MSAT + 1)), "commit"]
    status, said = explained(lines)
    found = {line.split(".")[0] for line in said if line.startswith("decides")}
    wanted = {"decides with others: minima", "decides with others: disabled directions"}
    assert status == 0 and found == wanted, said
    assert "without them there is a route of 2 channels:" in said, said


def no_way_decides():
    """Nodes that no channel has, that nothing connects, and a way that is too long."""
    decides("PAYEE has no channel in the script", WHOLE, A, NOBODY)
    decides("no condition. No way of up to 20 channels", [*WHOLE[:-1], announced(THIRD, D, E), "commit"], A, D)
    lines, start, end = line_of_nodes(21)
    assert explained(lines, start, end)[0] == 2
    for count in (22, 45):
        lines, start, end = line_of_nodes(count)
        decides(f"length. The shortest way has {count - 1} channels", lines, start, end)


def amounts_are_hinted_at():
    """An amount in satoshi where millisatoshi are meant."""
    lines = [*OPEN, updated(SECOND, B, terms_of_b(minimum=MSAT)), "commit"]
    decides("minima", lines, A, C, 1_000,
            has=["hint: MSAT is in millisatoshi. For 1,000 satoshi it is 1000000, and that has a route"])


def other_answers_are_explained():
    """A route, and refusals that don't depend on the map."""
    status, [said] = explained(WHOLE)
    assert status == 2 and said == "there is a route: route 1001500 800040 2", said
    decides("MSAT is 0", WHOLE, A, C, 0)
    decides("EXPIRY is a block height", WHOLE, A, C, MSAT, expiry=1_700_000_000)
    decides("PAYER and PAYEE are the same", WHOLE, A, A)
    decides("the line doesn't match the grammar", WHOLE, A, C, "01")


def main():
    """Runs each test."""
    tests = (each_condition_decides, what_the_map_lacks_decides, several_together_decide, no_way_decides,
             amounts_are_hinted_at, other_answers_are_explained)
    with ThreadPoolExecutor(2) as pool:
        list(pool.map(lambda test: test(), tests))
    print(f"{len(tests)} passed")


if __name__ == "__main__":
    main()
