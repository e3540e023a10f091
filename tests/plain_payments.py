#!/usr/bin/env python3
"""Compares payments in parts with those of a plain program, which tries all walks (tests/plain_payer.py).

    python3 tests/plain_payments.py [LIBRARY] [--payers N] [--seed N]

Each of 400 random payers has a map of 4 to 6 nodes, with few terms and capacities around the amounts, channels and hints. 40 calls
follow, in any order: payments begin, also beside others; parts are asked for, over channels that reckon all, few or none of the
parts before; they fail at any place, with any code, or without a message, or the payee takes the whole; payments are abandoned
and forgotten; time goes by; the map gets other terms, and loses channels; and the payer is saved and loaded. Behind each call the
plain program has to have the same answer, the same payments and parts, and the same estimates of edges.

LIBRARY is the shared object, examples/out/liblgm.so if left out.
"""

import argparse
import random
import sys
from collections import Counter
from pathlib import Path

sys.dont_write_bytecode = True  # the repository gets no made files

TOP = Path(__file__).resolve().parent.parent
sys.path[1:1] = [str(TOP), str(TOP / "python")]

import lgm
import plain_payer
from gossip.messages import CHAIN, DISABLED, HAS_MAXIMUM, ChannelAnnouncement, ChannelUpdate
from gossip.notation import SECRET
from lgm import payer as payers
from plain_overlays import extra_edge, point, scid, steps_in
from plain_payer import Asked, Bounds, Channel, Network
from plain_walks import MOST_AMOUNT, Preferences, Road, Terms

CALLS = 40
PAYER = 0
HEIGHTS = (600_000, 600_010)
CODES = (0x1007, 0x1007, 0x1007, 0x2002, 0x4016, 0x100c, 0x100d, 21, 0x400a, 0xc005, 23, 23, 0x400f, 17, 0x7777)
# How often each answer comes, in 400 payers at least.
OFTEN = {"next accepted": 700, "next whole": 300, "next no-route": 200, "next too-dear": 30, "next channels-short": 100,
         "next payee-short": 100, "next paths-short": 200, "next tries-used-up": 30, "next payee-refused": 50, "next abandoned": 30,
         "next foreign-channel": 40, "next reckoned-ahead": 60, "next reckoned-before": 10, "next unknown-payment": 20,
         "next self-payment": 5, "parts divided": 150, "parts unlikely": 30, "failed accepted": 400, "failed foreign-code": 50,
         "failed beyond-route": 10, "failed not-under-way": 50, "failed unknown-part": 20, "fulfilled accepted": 100,
         "fulfilled already-paid": 10, "fulfilled nothing-under-way": 20, "unreadable accepted": 50, "forget under-way": 20,
         "forget accepted": 30, "abandon already-paid": 3, "saved": 100}


def random_terms(numbers, capacity):
    """Terms with few values, mostly within a capacity."""
    choice = numbers.choice
    return Terms(choice((0, 40, 144)), choice((0, 0, 0, 1, 500)), choice((0, 0, 1, 20, 100)), choice((0, 0, 0, 1_000, 100_000)),
                 choice((capacity, capacity, capacity, capacity // 2, capacity + 1, 1_500)))


class World:
    """A map, as the library and as the plain program have it."""

    def __init__(self, numbers):
        self.numbers, self.nodes, self.time = numbers, numbers.choice((4, 5, 5, 6)), 1
        self.map, self.plain = lgm.Map(CHAIN), Network({}, {}, set())
        for block in range(numbers.randrange(5, 11)):
            self.announce(block)

    def announce(self, block):
        """A channel, mostly to the next node, with updates of one or both directions."""
        second = self.numbers.randrange(2, self.nodes)
        first = second - 1 if self.numbers.randrange(3) else self.numbers.randrange(second)
        sat = self.numbers.choice((3, 5, 5, 10, 10, 100_000))
        announcement = ChannelAnnouncement(CHAIN, scid(block).to_bytes(8, "big"), (point(first), point(second)))
        self.map.offer(announcement.encode(), lgm.ALL_FOUR, sat)
        self.plain.channels[block] = Channel((first, second), 1_000 * sat)
        for start, end in ((first, second), (second, first)):
            if self.numbers.randrange(8):
                self.update(Road(block, start, end, random_terms(self.numbers, 1_000 * sat)), not self.numbers.randrange(10))

    def update(self, road, is_disabled):
        """Terms of a direction."""
        self.time += 1
        flags = int(road.end < road.start) + DISABLED * is_disabled
        update = ChannelUpdate(CHAIN, scid(road.block).to_bytes(8, "big"), self.time, HAS_MAXIMUM, flags, *road.terms)
        self.map.offer(update.encode(), point(road.start))
        key = road.block, road.start
        self.plain.roads[key] = road
        (self.plain.disabled.add if is_disabled else self.plain.disabled.discard)(key)

    def change(self):
        """Other terms of a direction, or a channel less."""
        if not self.plain.roads:
            return
        key = self.numbers.choice(sorted(self.plain.roads))
        road = self.plain.roads[key]
        if self.numbers.randrange(4):
            self.update(road._replace(terms=random_terms(self.numbers, self.plain.channels[road.block].capacity)), False)
            return
        self.map.close_channel(scid(road.block))
        del self.plain.channels[road.block]
        for key in [key for key in self.plain.roads if key[0] == road.block]:
            del self.plain.roads[key]
            self.plain.disabled.discard(key)


class Wrong(Exception):
    """The library and the plain program don't agree."""


class Pair:
    """A payer, as the library and as the plain program have it."""

    def __init__(self, numbers, seen):
        self.numbers, self.seen, self.world = numbers, seen, World(numbers)
        liked = numbers.choice((None, None, Preferences(), Preferences(1_000, 10), Preferences(20_000, 100)))
        self.plain = plain_payer.Payer(PAYER, liked)
        self.liked = lgm.Preferences(*liked) if liked else None
        self.library = payers.Payer(point(PAYER), self.liked)
        self.payments, self.log = {}, []

    def close(self):
        """Frees what the library has."""
        self.library.close()
        self.world.map.close()

    def check(self, what, found, wanted):
        """Notes a call, and compares."""
        self.log.append(f"{what}: {wanted}")
        if found != wanted:
            raise Wrong(f"{what}: expected\n    {wanted}\nand found\n    {found}")

    def word(self, call, *arguments, **named):
        """The word of what a call raises."""
        try:
            call(*arguments, **named)
        except lgm.Fault as fault:
            return fault.word
        return "accepted"

    def told(self, name, found, wanted):
        """Compares what an event returned."""
        self.check(name, found, wanted)
        self.seen[f"{name.split()[0]} {wanted}"] += 1

    def payment(self, is_liked=lambda state: state.under_way):
        """The number of a payment, mostly of one such as is liked, and now and then of one that is forgotten."""
        liked = [number for number, state in self.plain.payments.items() if is_liked(state)]
        known = liked if liked and self.numbers.randrange(12) else [*self.plain.payments] * 9 + [*self.payments]
        return self.numbers.choice(known) if known else None

    def roads(self):
        """The payer's channels, as they are told."""
        choice, found = self.numbers.choice, []
        for block in range(20, 20 + choice((0, 1, 2, 2, 3, 3, 3, 3))):
            most = choice((0, 1_500, 3_000, 60_000, 60_000, 60_000))
            end = choice((1, 1, 1, 2, self.world.nodes))
            found.append(Road(choice((block, block, block, 3)), PAYER, end, Terms(9, 0, 9, 9, most)))
        if not self.numbers.randrange(60):
            found.append(Road(30, 1, 2, Terms(9, 0, 9, 9, 1_000)))
        return found

    def hints(self):
        """Edges of an invoice."""
        found = []
        for block in range(40, 40 + self.numbers.choice((0, 0, 0, 1, 2))):
            start, end = self.numbers.sample(range(self.world.nodes + 1), 2)
            found.append(Road(self.numbers.choice((block, 2)), start, end,
                              random_terms(self.numbers, self.numbers.choice((2_000, MOST_AMOUNT)) - 1)))
        return tuple(found)

    def begin(self):
        """Begins a payment."""
        choice = self.numbers.choice
        last = self.world.nodes - 1
        payee = choice((2, last, last, last + 1)) if self.numbers.randrange(25) else PAYER
        amount = choice((1, 999, 1_000, 2_000, 2_000, 3_000, 3_000, 4_000, 5_000, 9_000))
        asked = Asked(payee, amount, self.hints(), choice((0, 18, 144)), bool(self.numbers.randrange(4)))
        bounds = Bounds(choice((0, 50, 300, 2_000, 2_000, 2_000)), choice((1, 3, 20, 20, 20)), choice((1, 2, 4, 16, 16)),
                        choice((0, 1, 400, 1_000)), choice((150, 300, 2_016, 2_016)))
        invoice = payers.Invoice(point(payee), asked.amount, SECRET, asked.final_delta, tuple(map(extra_edge, asked.hints)),
                                 basic_mpp=asked.basic_mpp)
        payment = self.library.pay(invoice, payers.Bounds(*bounds))
        self.check(f"begin {asked}, {bounds}", payment.number, self.plain.begin(asked, bounds))
        self.payments[payment.number] = payment, asked

    def next(self):
        """Asks for a part, or for all parts that are next."""
        payment, roads = self.payment(lambda state: state.stage == "open"), self.roads()
        if payment is None:
            return
        sent = self.plain.sent
        ahead = sent + (not self.numbers.randrange(4))
        reckoned = self.numbers.choice((sent, sent, sent, sent, 0, self.numbers.randrange(sent + 1), ahead))
        height = self.numbers.choice(HEIGHTS)
        self.library.set_channels(map(extra_edge, roads), reckoned)
        for _ in range(self.numbers.choice((1, 1, 4))):
            what = f"next of {payment} over {roads}, {reckoned} reckoned, at {height}"
            found = self.found(payment, height)
            cut = found[1] if found[0] == "paths-short" else None
            wanted = self.plain.next(payment, self.world.plain, roads, reckoned, height, cut)
            self.seen[f"next {wanted.word}"] += 1
            part = wanted.part
            self.check(what, found, (wanted.word, wanted.detail, part and (
                part.number, part.amount, part.fee, part.blocks, wanted.odds, part.steps)))
            if part is None:
                return
            self.seen["parts divided"] += part.amount < self.payments[payment][1].amount
            self.seen["parts unlikely"] += wanted.odds > plain_payer.LIKELY

    def found(self, payment, height):
        """What the library answers: a word, what comes with it, and a part, whose payloads are those that its route has by the call
        that makes them alone."""
        one, asked = self.payments[payment]
        try:
            part = one.next_part(self.world.map, height)
        except lgm.Fault as fault:
            detail = next((getattr(fault, name) for name in ("fee_msat", "room_msat", "code") if hasattr(fault, name)), 0)
            return fault.word, detail, None
        if part is None:
            return "whole", 0, None
        if part.payloads != lgm.payloads(part.route, SECRET, asked.amount) or not part.route.is_best:
            raise Wrong(f"{part} has other payloads, or isn't the best one")
        return "accepted", 0, (part.number, part.amount_msat, part.fee_msat, part.blocks, part.odds, steps_in_any(part.route))

    def part(self, payment):
        """The number of a part of a payment, mostly of one that is under way, and how many hops it has."""
        state = self.plain.payments.get(payment)
        known = [*(state.under_way if state else [])] * 6 + (state.parts if state else [])
        if not known or not self.numbers.randrange(12):
            return self.numbers.randrange(self.plain.sent + 1), 2 if known or not self.numbers.randrange(8) else 0
        part = self.numbers.choice(known)
        return part.number, len(part.steps)

    def failed(self):
        """A part fails with a message."""
        payment = self.payment()
        if payment is None:
            return
        number, hops = self.part(payment)
        if hops == 0:
            return
        place = self.numbers.randrange(hops + 1) if self.numbers.randrange(20) else hops + 1
        code, is_renewed = self.numbers.choice(CODES), bool(self.numbers.randrange(2))
        found = self.word(self.payments[payment][0].failed, number, place, code, is_renewed)
        self.told(f"failed {payment} {number} {place} {code:#x} {is_renewed}", found,
                  self.plain.failed(payment, number, place, code, is_renewed))

    def unreadable(self):
        """A part fails without one."""
        payment = self.payment()
        if payment is not None:
            number, _ = self.part(payment)
            found = self.word(self.payments[payment][0].unreadable, number)
            self.told(f"unreadable {payment} {number}", found, self.plain.unreadable(payment, number))

    def of_payment(self, name):
        """An event of a whole payment."""
        payment = self.payment()
        if payment is not None:
            found = self.word(getattr(self.payments[payment][0], name))
            self.told(f"{name} {payment}", found, getattr(self.plain, name)(payment))

    def fade(self):
        """Time goes by."""
        elapsed, half_life = self.numbers.choice(((1, 2), (0, 1), (3_600, 7_200), (7, 3), (1, 0), (500, 500)))
        self.library.fade(self.world.map, elapsed, half_life)
        self.plain.fade(self.world.plain, elapsed, half_life)
        self.log.append(f"fade {elapsed} {half_life}")

    def save(self):
        """The payer stops, and goes on from what it saved."""
        saved = self.library.save()
        self.library.close()
        self.library = payers.Payer.load(saved, self.liked)
        self.check("save", self.library.save(), saved)
        self.seen["saved"] += 1
        begun = {one.number: one for one in self.library.payments}
        self.check("payments", sorted(begun), sorted(self.plain.payments))
        self.payments = {number: (begun.get(number) or payers.Payment(self.library, number), asked)
                         for number, (_, asked) in self.payments.items()}

    def compare(self):
        """The payments, their parts, and what is believed of edges."""
        self.check("sent", self.library.sent, self.plain.sent)
        for number, state in self.plain.payments.items():
            one = self.payments[number][0]
            found = one.state
            self.check(f"state of {number}", (found.amount_msat, found.left_msat, found.fee_msat, found.tries, found.parts_held,
                                              found.stage.name.lower()),
                       (state.asked.amount, state.left, state.fees, len(state.parts), len(state.held), state.stage))
            self.check(f"parts of {number}", [told(part) for part in one.parts], [told_plain(part) for part in state.parts])
            self.check(f"under way of {number}", [part.number for part in one.parts_under_way],
                       [part.number for part in state.under_way])
        with self.library.learnt() as learnt:
            found = {(name >> 40, start[-1]): (known.least_msat, known.most_msat, known.penalty_msat) for name, start, known in learnt}
        unknown = (0, MOST_AMOUNT, 0)
        keys = {*found, *self.plain.learnt}
        self.check("learnt", {key: found.get(key, unknown) for key in keys},
                   {key: tuple(self.plain.learnt.get(key, unknown)) for key in keys})


def steps_in_any(route):
    """The steps of a route, whose ids may be any of a hint's or of an own channel."""
    return [step._replace(block=hop.scid >> 40) for step, hop in zip(steps_in(route), route.hops)]


def told(part):
    """What the library tells of a part."""
    return (part.number, part.amount_msat, part.fee_msat, part.blocks, steps_in_any(part.route), part.ending.name.lower(), part.code,
            part.place)


def told_plain(part):
    """The same of the plain program's."""
    failure = part.failure
    ending = "held" if failure is None else "unreadable" if failure.place is None else "failed"
    place, code = (failure.place, failure.code) if ending == "failed" else (0, 0)
    return part.number, part.amount, part.fee, part.blocks, part.steps, ending, code, place


def objection(numbers, seen):
    """What is wrong with a random payer's answers, if something is, and the calls that led there."""
    both = Pair(numbers, seen)
    calls = [both.begin] * 2 + [both.next] * 12 + [both.failed] * 6 + [both.unreadable, both.fade, both.world.change, both.save]
    calls += [lambda: both.of_payment(numbers.choice(("fulfilled", "fulfilled", "forget", "forget", "abandon")))] * 2
    both.begin()
    try:
        for _ in range(CALLS):
            numbers.choice(calls)()
            both.compare()
    except (Wrong, lgm.Fault) as why:
        return [*both.log, repr(both.world.plain), f"{type(why).__name__}: {why}"]
    finally:
        both.close()
    return []


def main():
    """Takes the arguments, and compares all payers."""
    parser = argparse.ArgumentParser(description=__doc__, formatter_class=argparse.RawDescriptionHelpFormatter)
    parser.add_argument("library", nargs="?", default=lgm.library.LIBRARY, metavar="LIBRARY")
    parser.add_argument("--payers", type=int, default=400, metavar="N", help="so many")
    parser.add_argument("--seed", type=int, default=1, metavar="N", help="other random ones")
    given = parser.parse_args()
    lgm.library.LIBRARY = Path(given.library).resolve()
    seen, failed = Counter(), 0
    for count in range(given.payers):
        wrong = objection(random.Random(f"{given.seed} {count}"), seen)
        failed += bool(wrong)
        if wrong:
            print(f"payer {count} of seed {given.seed}:", *wrong, sep="\n", flush=True)
    print(", ".join(f"{what}: {seen[what]}" for what in sorted(seen)))
    rare = [f"too few answers: {what}" for what, times in OFTEN.items() if seen[what] < times * given.payers / 400]
    print(*rare, sep="\n", end="\n" if rare else "")
    print(f"{given.payers - failed} passed, {failed + len(rare)} failed")
    sys.exit(1 if failed or rare else 0)


if __name__ == "__main__":
    main()
