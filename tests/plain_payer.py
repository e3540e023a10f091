"""A plain program for payments in parts (docs/protocol.md, "Odds of a route" and "A payment in parts"), which tries all walks and all
cuts.

    payer = Payer(0)                                            # a node
    payment = payer.begin(Asked(payee=3, amount=4_000), Bounds(fee=100))
    found = payer.next(payment, network, channels, reckoned=0, height=600_000)
    found.part.steps                                            # or found.word is why there is none, with found.detail
    payer.failed(payment, found.part.number, place=1, code=0x1007, is_renewed=False)

Nodes and channels are numbers, as in plain_walks.py. Events return the word of their refusal, "accepted" if there is none. Where an
id is of two channels, a cut may be missed: what another program found, of the rooms of cuts, is then told as `cut`.
"""

from collections import Counter
from itertools import combinations
from typing import NamedTuple, Optional

from plain_walks import EXPIRY, MOST_AMOUNT, Estimate, Payment, Preferences, Step, delay, preferred, rank, usable

MILLION = 1_000_000
LIKELY = 3 * MILLION
SPARE_BLOCKS = 3
TEMPORARY_CHANNEL_FAILURE, MPP_TIMEOUT, EXPIRY_TOO_FAR = 0x1007, 23, 21
OF_NODES = {0x2002, 0x6002, 0x6003, 0x4016}
OF_TERMS = {0x100c, 0x100d, 0x100b, 0x100e}
OF_CHANNELS = {0x1007, 0x4008, 0x4009, 0x400a, 0x1014}
OF_ONIONS = {0xc004, 0xc005, 0xc006}
OF_THE_PAYEE = {0x400f, 0x4010, 17, 18, 19, MPP_TIMEOUT}
NOT_OF_THE_PAYEE = OF_CHANNELS | OF_TERMS | OF_ONIONS | {EXPIRY_TOO_FAR}
MENDED = {"no-route", "undecided", "too-dear"}  # by smaller parts, perhaps


class Channel(NamedTuple):
    """A channel of a map, with its nodes and its capacity in msat."""

    nodes: tuple
    capacity: int


class Network(NamedTuple):
    """A map: channels by their blocks, and the directions that have an update, by block and node; which of these are disabled."""

    channels: dict
    roads: dict
    disabled: set


class Asked(NamedTuple):
    """An invoice."""

    payee: int
    amount: int
    hints: tuple = ()  # roads
    final_delta: int = 18
    basic_mpp: bool = True


class Bounds(NamedTuple):
    """What a payment may take."""

    fee: int
    tries: int = 100
    parts: int = 16
    least: int = 1
    blocks: int = 2_016


class Failure(NamedTuple):
    """How a part failed: without a place and a code, no message could be read."""

    place: Optional[int] = None
    code: int = 0
    is_renewed: bool = False


class Part:
    """A part that was sent, and how it failed if it did."""

    def __init__(self, number, steps, height):
        self.number, self.steps, self.amount, self.failure = number, steps, steps[-1].amount, None
        self.fee, self.blocks = steps[0].amount - self.amount, max(steps[0].expiry - height, 0)


class Found(NamedTuple):
    """The answer to a payment that asks for a part."""

    word: str
    detail: int = 0
    part: Optional[Part] = None
    odds: int = 0


class State:
    """A payment."""

    def __init__(self, payer, asked, bounds):
        self.asked, self.bounds, self.parts, self.stage = asked, bounds, [], "open"
        self.hints = [road for road in asked.hints if road.start != payer]

    @property
    def held(self):
        """The parts that didn't fail."""
        return [part for part in self.parts if part.failure is None]

    @property
    def under_way(self):
        """Those of which nothing is known."""
        return [] if self.stage == "paid" else self.held

    @property
    def left(self):
        """What is neither under way nor has arrived."""
        return self.asked.amount - sum(part.amount for part in self.held)

    @property
    def fees(self):
        """The fees of what is."""
        return sum(part.fee for part in self.held)

    @property
    def parts_left(self):
        """How many more parts may be under way."""
        return (self.bounds.parts if self.asked.basic_mpp else 1) - len(self.held)

    @property
    def refusal(self):
        """The payee's first failure that ends the payment."""
        return next((part.failure.code for part in self.parts if part.failure and part.failure.place == len(part.steps)
                     and part.failure.code != MPP_TIMEOUT), None)

    @property
    def most_blocks(self):
        """The bound of the blocks, and what too far an expiry leaves of it."""
        return min([self.bounds.blocks, *(part.blocks - 1 for part in self.parts if part.failure
                                          and part.failure.code == EXPIRY_TOO_FAR and part.failure.place < len(part.steps))])


def carried(steps):
    """What steps carry over each edge."""
    found = Counter()
    for step in steps:
        found[step.block, step.start] += step.amount
    return found


def steps_of(parts):
    """The steps of parts."""
    return [step for part in parts for step in part.steps]


def spared(road, taken):
    """A road with what is left of its maximum."""
    most = max(road.terms.most - taken[road.block, road.start], 0)
    return road._replace(terms=road.terms._replace(most=most))


def lowered(estimate, amount):
    """What is believed of an edge that has so much less."""
    most = estimate.most if estimate.most == MOST_AMOUNT else max(estimate.most - amount, 0)
    return estimate._replace(least=max(estimate.least - amount, 0), most=most)


def share(amount, elapsed, half_life):
    """What is left of an amount."""
    half_life = max(half_life, 1)
    part = elapsed % half_life * MILLION // half_life
    kept = MILLION - (693_147 * part - 193_147 * part * part // MILLION) // MILLION
    return amount * kept // MILLION >> min(elapsed // half_life, 64)


class View:
    """What a part of a payment is searched over."""

    def __init__(self, payer, state, network, channels, reckoned):
        parts = [part for other in payer.payments.values() for part in other.held]
        since = carried(steps_of(part for part in parts if part.number >= reckoned))
        self.busy = carried(steps_of(part for other in payer.payments.values() for part in other.under_way))
        self.payer, self.state, self.network, self.learnt = payer.node, state, network, payer.learnt
        self.extra = [*(spared(road, since) for road in channels), *(spared(road, self.busy) for road in state.hints)]
        self.limits, self.silent = {}, {payer.node}
        self._limit_by_capacities()
        for part in state.parts:
            self._exclude(part)

    def _limit(self, key, most):
        self.limits[key] = min(most, self.limits.get(key, most))

    def _limit_by_capacities(self):
        """What is under way takes of capacities."""
        for (block, start), amount in self.busy.items():
            if start != self.payer and block in self.network.channels:
                self._limit((block, start), max(self.network.channels[block].capacity - amount, 0))

    def is_public(self, key):
        """Whether an edge is neither the payer's nor one of a hint."""
        return key[1] != self.payer and key not in {(road.block, road.start) for road in self.state.hints}

    def _exclude(self, part):
        """What the failure of a part leaves."""
        failure = part.failure
        if failure is None or failure.place == len(part.steps):
            return
        step = part.steps[failure.place] if failure.place is not None else (part.steps[1:] or part.steps)[0]
        key = step.block, step.start
        if failure.place is None:
            self._limit(key, 0)
        elif failure.code == TEMPORARY_CHANNEL_FAILURE:
            self._limit(key, step.amount - 1)
        elif failure.code in OF_NODES and self.is_public(key):
            self.silent.add(step.start)
        elif failure.code == EXPIRY_TOO_FAR or failure.code in OF_TERMS and self.is_public(key) and failure.is_renewed:
            pass
        else:
            self._limit(key, 0)

    def believed(self, key):
        """What is believed of an edge beside what is under way."""
        return lowered(self.learnt.get(key, Estimate()), self.busy[key])

    def roads(self):
        """The edges over the overlay."""
        named = {}
        for road in self.extra:
            named.setdefault((road.block, road.start), road)
        usual = {key: road for key, road in self.network.roads.items() if key not in named and road.start not in self.silent
                 and key not in self.network.disabled and road.terms.most <= self.network.channels[road.block].capacity}
        return [road._replace(terms=road.terms._replace(most=min(road.terms.most, self.limits.get(key, MOST_AMOUNT))))
                for key, road in [*named.items(), *usual.items()]]

    def most_over(self, key):
        """What an edge carries at most, as the odds have it."""
        roads = [road for road in self.extra if (road.block, road.start) == key] or [
            road for at, road in self.network.roads.items() if at == key]
        return min(roads[0].terms.most if roads else 0, self.limits.get(key, MOST_AMOUNT))

    def odds(self, steps):
        """The odds that a route fails, in millionths."""
        total = 0
        for step in steps[1:]:
            known = self.believed((step.block, step.start))
            most = min(self.most_over((step.block, step.start)), known.most)
            total += min(100 * MILLION, MILLION * max(step.amount - known.least, 0) // (max(most - step.amount, 0) + 1))
        return total

    def room_out(self):
        """What the payer's channels can send together."""
        return min(sum(road.terms.most for road in self.extra if road.start == self.payer), MOST_AMOUNT)

    def room_in(self, payee):
        """What may reach the payee together."""
        room = sum(road.terms.most for road in self.extra if road.end == payee)
        for block, channel in self.network.channels.items():
            if payee in channel.nodes:
                other = channel.nodes[1] if channel.nodes[0] == payee else channel.nodes[0]
                room += min(channel.capacity, self.believed((block, other)).most, self.limits.get((block, other), MOST_AMOUNT))
        return min(room, MOST_AMOUNT)


    def carriers(self):
        """What edges can carry in all: each a key, its ends and an amount."""
        for road in self.extra:
            key = road.block, road.start
            yield key, road.start, road.end, min(road.terms.most, self.limits.get(key, MOST_AMOUNT))
        for key, road in self.network.roads.items():
            if road.start != self.payer and key not in self.network.disabled:
                yield key, road.start, road.end, min(self.network.channels[road.block].capacity, self.believed(key).most,
                                                     self.limits.get(key, MOST_AMOUNT))

    def cuts(self, payee):
        """What can be carried across each cut between the payer and a payee; and whether each id is of one channel."""
        edges = list(self.carriers())
        others = sorted({node for _, *ends, _ in edges for node in ends} - {self.payer, payee})
        sides = ({self.payer, *some} for count in range(len(others) + 1) for some in combinations(others, count))
        rooms = {min(sum(room for _, start, end, room in edges if start in side and end not in side), MOST_AMOUNT) for side in sides}
        channels = {(key[0], frozenset(ends)) for key, *ends, _ in edges}
        return rooms, len({key for key, *_ in edges}) == len(edges) and len({block for block, _ in channels}) == len(channels)


class Payer:
    """A node that pays."""

    def __init__(self, node, preferences=None):
        self.node, self.preferences, self.payments, self.learnt = node, preferences, {}, {}
        self.begun = self.sent = self.settled = 0

    def begin(self, asked, bounds):
        """The number of a payment."""
        self.payments[self.begun] = State(self.node, asked, bounds)
        self.begun += 1
        return self.begun - 1

    def next(self, payment, network, channels, reckoned, height, cut=None):
        """The next part, or why there is none."""
        state = self.payments.get(payment)
        if state is None:
            return Found("unknown-payment")
        if any(road.start != self.node for road in channels):
            return Found("foreign-channel")
        if reckoned > self.sent or reckoned < self.settled:
            return Found("reckoned-ahead" if reckoned > self.sent else "reckoned-before")
        if state.stage == "paid" or state.left == 0:
            return Found("whole")
        if state.stage == "abandoned":
            return Found("abandoned")
        if state.refusal is not None:
            return Found("payee-refused", state.refusal)
        if len(state.parts) >= state.bounds.tries:
            return Found("tries-used-up")
        view = View(self, state, network, channels, reckoned)
        for word, room in (("channels-short", view.room_out()), ("payee-short", view.room_in(state.asked.payee))):
            if room < state.left:
                return Found(word, room)
        found = self._offered(state, view, height, cut)
        if found.word == "accepted":
            self.sent += 1
            state.parts.append(found.part)
        return found

    def _narrow(self, state, view, cut):
        """The least room of a cut that can't carry what is left, or that which is told if it is of one; else none."""
        rooms, are_single = view.cuts(state.asked.payee)
        if are_single or cut not in rooms:
            cut = min(rooms) if are_single else None
        return cut if cut is not None and cut < state.left else None

    def _offered(self, state, view, height, cut):
        """The part that is chosen, or why there is none."""
        pieces, best = 1, None
        while True:
            found = self._fit(state, view, height, -(-state.left // pieces))
            if found.word == "accepted":
                if found.odds <= LIKELY:
                    return found
                if best is None or found.part.amount * (MILLION + best.odds) > best.part.amount * (MILLION + found.odds):
                    best = found
            elif found.word not in MENDED:
                return found
            pieces *= 2
            if pieces > state.parts_left or pieces > state.left // max(state.bounds.least, 1):
                return best or found
            room = self._narrow(state, view, cut) if pieces == 2 else None
            if room is not None:
                return Found("paths-short", room)

    def _fit(self, state, view, height, amount):
        """A part of an amount, or why there is none."""
        final = state.asked.final_delta + SPARE_BLOCKS
        most_delay = state.most_blocks - final
        if self.node == state.asked.payee:
            return Found("self-payment" if most_delay >= 0 else "no-route")
        asked = Payment(self.node, state.asked.payee, amount)
        roads = view.roads()
        usual = max(state.asked.amount * 200 // MILLION, min(20_000, state.asked.amount // 100))
        liked = self.preferences or Preferences(min(usual, 2**32 - 1), 500)
        known = {(road.block, road.start): view.believed((road.block, road.start)) for road in roads}
        cheapest = min((steps for steps in usable(roads, asked) if delay(steps) <= most_delay), key=rank, default=[])
        for steps in (preferred(roads, asked, liked, known, most_delay) if cheapest else [], cheapest):
            fee = steps[0].amount - amount if steps else 0
            if steps and fee + state.fees <= state.bounds.fee:
                later = height + final - EXPIRY
                shifted = [Step(*step[:4], step.expiry + later) for step in steps]
                return Found("accepted", 0, Part(self.sent, shifted, height), view.odds(steps))
        return Found("too-dear", fee) if cheapest else Found("no-route")

    def _learn(self, step, state, lesson):
        """Learns something of a step's edge, if it is public."""
        key = step.block, step.start
        if step.start != self.node and key not in {(road.block, road.start) for road in state.hints}:
            self.learnt[key] = lesson(self.learnt.get(key, Estimate()))

    def _ended(self, payment, number):
        """The payment, and its part that is under way; or the word of a refusal."""
        state = self.payments.get(payment)
        if state is None:
            return "unknown-payment", None, None
        if state.stage == "paid":
            return "not-under-way", None, None
        part = next((part for part in state.parts if part.number == number), None)
        return ("unknown-part" if part is None else "not-under-way" if part.failure else "accepted"), state, part

    def failed(self, payment, number, place, code, is_renewed):
        """A part failed with a message."""
        word, state, part = self._ended(payment, number)
        if word != "accepted":
            return word
        if place > len(part.steps):
            return "beyond-route"
        if code in (NOT_OF_THE_PAYEE if place == len(part.steps) else OF_THE_PAYEE):
            return "foreign-code"
        busy = carried(steps_of(part for other in self.payments.values() for part in other.under_way))
        for step in part.steps[:place]:
            self._learn(step, state, lambda known, step=step: known.carried(step.amount))
        for step in part.steps[place:place + 1] if code == TEMPORARY_CHANNEL_FAILURE else []:
            self._learn(step, state, lambda known, step=step: known.failed(busy[step.block, step.start]))
        part.failure = Failure(place, code, is_renewed)
        return "accepted"

    def unreadable(self, payment, number):
        """A part failed without one."""
        word, _, part = self._ended(payment, number)
        if word == "accepted":
            part.failure = Failure()
        return word

    def fulfilled(self, payment):
        """The payee took the whole."""
        state = self.payments.get(payment)
        if state is None or state.stage == "paid" or not state.held:
            return "unknown-payment" if state is None else "already-paid" if state.stage == "paid" else "nothing-under-way"
        for step in steps_of(state.held):
            self._learn(step, state, lambda known, step=step: lowered(known, step.amount))
        state.stage = "paid"
        return "accepted"

    def abandon(self, payment):
        """Nothing more is sent."""
        state = self.payments.get(payment)
        if state is None or state.stage == "paid":
            return "unknown-payment" if state is None else "already-paid"
        state.stage = "abandoned"
        return "accepted"

    def forget(self, payment):
        """A payment is gone."""
        state = self.payments.get(payment)
        if state is None or state.under_way:
            return "unknown-payment" if state is None else "under-way"
        if state.stage == "paid":
            self.settled = self.sent
        del self.payments[payment]
        return "accepted"

    def fade(self, network, elapsed, half_life):
        """Time went by."""
        learnt, self.learnt = self.learnt, {}
        for (block, start), known in learnt.items():
            if block in network.channels:
                capacity = network.channels[block].capacity
                least, penalty = (share(amount, elapsed, half_life) for amount in (known.least, known.penalty))
                below = share(max(capacity - known.most, 0), elapsed, half_life)
                if penalty or 16 * least > capacity or 16 * below > capacity:
                    self.learnt[block, start] = Estimate(least, capacity - below, penalty)
