#!/usr/bin/env python3
"""Explains a payment without a route: which condition decides, and what is wrong with the channels of payer and payee.

    python3 examples/tools/why_route.py [--known HEX] [--chain HEX] [--program PROGRAM] NETWORK 'route PAYER PAYEE ..'

NETWORK is a script with the items of the map; of its other lines only `commit` matters. The program answers the payment
over the map as it is, and then over maps that are made from it, in each of which one condition doesn't hold: minima,
maxima, disabled directions and so on, up to missing updates, refusals, bans and closes. A condition without which there
is a route decides. That route is shown, with what is wrong with its channels. Where only several conditions together
decide, all of them are named. Where none does, there is no way at all, or only one of more than 20 channels.

CHAIN is that of the first announcement if left out, and PROGRAM is ./lgm. `--known` is as for the program. The exit
status is 0 if the payment has no route and that was explained, 2 if it has one, and 1 if the program fails.
"""

from __future__ import annotations

import argparse
import sys

import top  # leads to gossip
from history import PROGRAM, Failed, answered, chain_of, followed, read
from route_conditions import CONDITIONS, MSAT, Made, objections

from gossip.messages import scid_of, scid_text

MOST_HOPS = 20
LADDER = [10**exponent for exponent in range(16)]
REASONS = {
    "amount-zero": "MSAT is 0",
    "amount-too-large": "MSAT is above 2,100,000,000,000,000,000, all there is",
    "expiry-too-large": "EXPIRY is a block height, and above 498,000,000; is it a time?",
    "self-payment": "PAYER and PAYEE are the same node",
    "bad": "the line doesn't match the grammar; python3 examples/tools/why.py names the field"}
LISTED = 10  # channels of one node


def say(text):
    """Reports progress on stderr, if that is a terminal: a large network takes seconds for each of some twenty maps."""
    if sys.stderr.isatty():
        print(f"why_route: {text}", file=sys.stderr)


class Payment:
    """A `route` line."""

    def __init__(self, line):
        self.line = line.strip()
        word, *self._fields = self.line.split(" ")
        if word != "route" or len(self._fields) != 5:
            raise Failed("the payment isn't of the form 'route PAYER PAYEE MSAT EXPIRY SECRET'")
        try:
            self.payer, self.payee = (bytes.fromhex(field) for field in self._fields[:2])
            self.msat = int(self._fields[2])
        except ValueError as fault:
            raise Failed("PAYER and PAYEE are of 66 hexadecimal digits, and MSAT is a number") from fault

    def of(self, msat, payer=None, payee=None):
        """The line of such a payment with another amount, or between other nodes."""
        ends = (payer or self.payer).hex(), (payee or self.payee).hex()
        return " ".join(("route", *ends, str(msat), *self._fields[3:]))


class Inquiry:
    """A payment, and the program that is asked about it."""

    def __init__(self, words):
        lines = read(words.network)
        self.payment = Payment(words.payment)
        self._program, self._digits = words.program, words.known
        self.known = None if words.known is None else int(words.known, 16)
        chain = words.chain or chain_of(lines)
        self._chain = chain
        self.history = followed(self._program, chain, lines)
        self.lines = [line for line in lines if line.startswith(("m ", "close ")) or line == "commit"]

    def ask(self, lines, *payments, known=True):
        """The first line of each payment's answer behind these lines, and the ids of its hops."""
        first = len(lines) + 1
        found = [["", []] for _ in payments]
        for number, words in answered(self._program, self._chain, [*lines, *payments], known and self._digits):
            if number >= first and words.startswith("hop "):
                found[number - first][1].append(scid_of(words.split(" ")[1]))
            elif number >= first:
                found[number - first][0] = words
        return found

    def without(self, names, is_dear=False):
        """The ids of the route over a map in which these conditions don't hold, or nothing; and the map."""
        say(f"without {', '.join(names)} ..")
        made = Made(self.history, names, is_dear)
        [[head, ids]] = self.ask(list(made.lines()), self.payment.line, known="features of nodes" not in names)
        return (ids if head.startswith("route ") else []), made


def decisive(inquiry):
    """The conditions without which there is a route, as few as were found; or none."""
    for name in CONDITIONS:
        if inquiry.without([name])[0]:
            return [name]
    names = list(CONDITIONS)
    if not inquiry.without(names)[0]:
        return []
    for name in CONDITIONS:
        fewer = [it for it in names if it != name]
        if inquiry.without(fewer)[0]:
            names = fewer
    return names


def route_without(inquiry, names):
    """A route over a map in which these conditions don't hold, and the map. It goes where an update is missing only if
    it has to."""
    ids, made = inquiry.without(names, is_dear=True)
    return (ids, made) if ids else inquiry.without(names)


def hints(inquiry):
    """What amounts that have a route say about this one."""
    msat = inquiry.payment.msat
    tried = sorted({*LADDER, msat * MSAT, max(1, msat // MSAT)})
    answers = inquiry.ask(list(Made(inquiry.history, ()).lines()), *map(inquiry.payment.of, tried))
    found = [amount for amount, (head, _) in zip(tried, answers) if head.startswith("route ")]
    powers = [amount for amount in found if amount in LADDER]
    if powers:
        yield f"hint: of the powers of ten, {', '.join(f'{amount:,}' for amount in powers)} msat have a route"
    if msat * MSAT in found:
        yield f"hint: MSAT is in millisatoshi. For {msat:,} satoshi it is {msat * MSAT}, and that has a route"


def too_long(inquiry):
    """How many channels the shortest way has, if that is too many for a route and the program finds its parts."""
    made, payment = Made(inquiry.history, ()), inquiry.payment
    way = made.shortest_way(payment.payer, payment.payee, payment.msat, inquiry.known)
    if len(way) <= MOST_HOPS:
        return 0
    ends = [payment.payer, *way[MOST_HOPS - 1:-1:MOST_HOPS], payment.payee]
    parts = [payment.of(payment.msat, start, end) for start, end in zip(ends, ends[1:])]
    found = inquiry.ask(list(made.lines()), *parts)
    return len(way) if all(head.startswith("route ") for head, _ in found) else 0


def causes(inquiry):
    """The lines that say what decides."""
    payment = inquiry.payment
    names = decisive(inquiry)
    for name in names:
        yield f"{'decides' if len(names) == 1 else 'decides with others'}: {name}. {CONDITIONS[name]}"
    if names:
        ids, made = route_without(inquiry, names)
        yield f"without {'it' if len(names) == 1 else 'them'} there is a route of {len(ids)} channels:"
        for scid, (start, carried) in zip(ids, made.carried(payment.payer, ids, payment.msat)):
            why = objections(inquiry.history, scid, start, payment.msat, carried, inquiry.known)
            yield f"  {scid_text(scid)} from {start.hex()}, with {carried:,} msat: {'; '.join(why) or 'usable'}"
        yield from hints(inquiry)
        return
    channels = Made(inquiry.history, CONDITIONS).channels.values()
    missing = [name for name, point in (("PAYER", payment.payer), ("PAYEE", payment.payee))
               if not any(point in channel.nodes for channel, _ in channels)]
    length = too_long(inquiry)
    if missing:
        yield f"decides: {' and '.join(missing)} {'have' if missing[1:] else 'has'} no channel in the script"
    elif length:
        yield f"decides: length. The shortest way has {length} channels, and a route at most {MOST_HOPS}"
    else:
        yield "decides: no condition. No way of up to 20 channels connects the two nodes"


def node_lines(inquiry, name, point):
    """What is wrong with the channels of the payer or the payee."""
    history, msat = inquiry.history, inquiry.payment.msat
    own = sorted(scid for scid, row in history.channels.items() if point in row.message.nodes)
    yield f"{name} {point.hex()}: {len(own)} channels in the map{', and banned' if point in history.banned else ''}"
    for scid in own[:LISTED]:
        nodes = history.channels[scid].message.nodes
        other = nodes[1 - nodes.index(point)]
        why = objections(history, scid, point if name == "payer" else other, msat, msat, inquiry.known)
        yield f"  {scid_text(scid)} {'to' if name == 'payer' else 'from'} {other.hex()}: {'; '.join(why) or 'usable'}"
    if len(own) > LISTED:
        yield f"  and {len(own) - LISTED} more"
    for scid, (row, _, why, number) in sorted(history.gone.items()):
        if point in row.message.nodes:
            yield f"  {scid_text(scid)}: {why} by line {number}"
    for number, line, word in history.refused:
        if line.startswith("m 0100") and point.hex() in line.lower():
            yield f"  an announcement that names it, in line {number}, is refused as {word}"


def explained(inquiry):
    """The status, and the lines of the explanation."""
    payment = inquiry.payment
    [[head, _]] = inquiry.ask(inquiry.lines, payment.line)
    if head.startswith("route "):
        return 2, [f"there is a route: {head}"]
    said = [f"the answer is {head}"]
    if head in REASONS:
        return 0, [*said, f"decides: {REASONS[head]}"]
    [[committed, _]] = inquiry.ask([*inquiry.lines, "commit"], payment.line)
    if committed.startswith("route "):
        return 0, [*said, f"decides: commit. With a commit behind the items the answer is {committed}"]
    said += causes(inquiry)
    for name, point in (("payer", payment.payer), ("payee", payment.payee)):
        said += node_lines(inquiry, name, point)
    if inquiry.history.refused:
        said.append(f"{len(inquiry.history.refused)} items of the script are refused; their answers name the reasons")
    return 0, said


def main():
    """Takes the arguments, and explains."""
    parser = argparse.ArgumentParser(description=__doc__, formatter_class=argparse.RawDescriptionHelpFormatter)
    parser.add_argument("--known", metavar="HEX", help="feature bits, as for the program")
    parser.add_argument("--chain", metavar="HEX", help="64 digits; that of the first announcement if left out")
    parser.add_argument("--program", default=PROGRAM, help="./lgm if left out")
    parser.add_argument("network", metavar="NETWORK")
    parser.add_argument("payment", metavar="PAYMENT", help="a line as in a script, as one word of the shell")
    try:
        status, said = explained(Inquiry(parser.parse_args()))
    except (Failed, OSError) as fault:
        print(f"why_route: {fault}", file=sys.stderr)
        sys.exit(1)
    print(*said, sep="\n")
    sys.exit(status)


if __name__ == "__main__":
    main()
