#!/usr/bin/env python3
"""Compares payments by what a payer prefers with those of a plain program, which tries all walks.

    python3 tests/plain_preferred.py [LIBRARY] [--networks N] [--seed N]

Each of 1,000 random networks has 3 to 6 nodes and 3 to 12 directions, whose terms have few values, so that there are ties, and
maxima and minima around the amounts. Five payments follow, three of them over an overlay, each with preferences, estimates,
and limits of the delay and of the hops. The plain program takes the walk that costs least (docs/protocol.md, "A route that
arrives"). The library has to find the same channels, nodes, amounts and expiries, or no route either, and to say that it is
the best one; without preferences and estimates, and with those of zeros, the same bytes. With few labels or steps it may find
another walk within the limits, which it doesn't call the best one, or be undecided.

Estimates are made in the library by the calls that learn, and by the plain program from their words.

The cases of tests/preferred_cases.py come before these. LIBRARY is the shared object, examples/out/liblgm.so if left out.
"""

import argparse
import random
import sys
from collections import Counter
from pathlib import Path
from typing import NamedTuple

sys.dont_write_bytecode = True  # the repository gets no made files

TOP = Path(__file__).resolve().parent.parent
sys.path[1:1] = [str(TOP), str(TOP / "python")]

import lgm
import preferred_cases
from gossip.notation import SECRET
from plain_overlays import (
    BIT_0, CAPACITY, NOTHING, Channel, Network, Overlay, Update, carrying, difference, edges_over, extra_edge, key, opened,
    point, random_overlay, scid, steps_in)
from plain_walks import (
    EXPIRY, MOST_AMOUNT, MOST_CHANNELS, Estimate, Payment, Preferences, Road, Terms, best, delay, pair, preferred, usable)

PAYMENTS, OVER = 5, 3  # of each network, and of these over an overlay
USUAL = 1_000 * CAPACITY  # msat, the maximum that most edges have
AMOUNTS = (1, 999, 1_000, 1_000, 1_000, 1_001, 1_400)
FAILURES = (0, 1, 10, 100, 200, 1_000, 1_000, 20_000, 2**32 - 1)
HOPS = (0, 0, 0, 1, 100, 200, 1_000, 2**32 - 1)
BOUNDS = (0, 1, 999, 1_000, 1_001, 1_100, 1_400, 2_000, 3_000, 5_000, MOST_AMOUNT)
PENALTIES = (0, 0, 50, 100, 1_000, 2**40 - 1, 2**40, MOST_AMOUNT)

# How often each makes a difference to a payment, in 1,000 networks at least.
OFTEN = {("preferences", "other"): 100, ("estimates", "other"): 60, ("delays", "closed"): 200, ("delays", "other"): 100,
         ("hops", "closed"): 200, ("hops", "other"): 3, ("both", "other"): 20, ("budgets", "undecided"): 100,
         ("budgets", "best"): 200}


class Question(NamedTuple):
    """A payment over an overlay, by preferences and estimates, and within limits."""

    payment: Payment
    overlay: Overlay = NOTHING
    preferences: Preferences = Preferences()
    estimates: dict = {}  # by block and node
    most_delay: int = None
    most_hops: int = None


class Learnt(NamedTuple):
    """What is believed of edges, as the plain program has it, and as the library has."""

    plain: dict
    library: object


def random_terms(numbers):
    """Terms with few values."""
    choice = numbers.choice
    return Terms(choice((0, 40, 144)), choice((0, 1, 1, 1, 1, 1, 1, 1_000, 1_001)), choice((0, 0, 1, 100, 200, 500, 2_000)),
                 choice((0, 0, 0, 1_000, 100_000, 4_294_967_295)),
                 choice((1_000, 1_200, 1_999, 2_000, 2_000, 3_000, 5_000, 5_000, 1_000_000, USUAL)))


def random_network(numbers):
    """A network of 3 to 6 nodes and 3 to 12 directions, most of which lead to the next node, so that walks are long."""
    nodes, directions = numbers.choice((3, 4, 4, 5, 5, 6)), numbers.choice((3, 6, 9, 11, 12, 12, 12, 12))
    channels, updates = [], []
    while len(updates) < directions:
        block, (first, second) = len(channels), pair(numbers, nodes)
        if numbers.randrange(4):
            first = second - 1
        channels.append(Channel(block, (first, second), b""))
        which = numbers.randrange(8)
        for start, end in [(first, second)] * (which != 0) + [(second, first)] * (which < 2):
            updates.append(Update(Road(block, start, end, random_terms(numbers)), False))
    return Network(channels, updates[:directions], []), nodes


def random_payment(numbers, nodes):
    """About 1,000 msat between two nodes, mostly far ones."""
    payer, payee = sorted(numbers.sample(range(nodes), 2))
    if payee - payer == 1 and numbers.randrange(4):
        payer, payee = 0, nodes - 1
    if not numbers.randrange(8):
        payer, payee = payee, payer
    return Payment(payer, payee, numbers.choice(AMOUNTS))


def learn(numbers, learnt, edge):
    """Changes what is believed of an edge, in one of four ways."""
    (block, start), amount = edge, numbers.choice(BOUNDS)
    name, before = (scid(block), point(start)), learnt.plain.get(edge, Estimate())
    kind = numbers.randrange(6)
    if kind < 3:
        given = Estimate(numbers.choice(BOUNDS), numbers.choice(BOUNDS), numbers.choice(PENALTIES))
        learnt.plain[edge] = given
        preferred_cases.believe(learnt.library, edge, given)
    elif kind == 3:
        learnt.plain[edge] = before.carried(amount)
        learnt.library.carried(*name, amount)
    elif kind == 4:
        learnt.plain[edge] = before.failed(amount)
        learnt.library.failed(*name, amount)
    else:
        learnt.plain.pop(edge, None)
        learnt.library.forget(*name)


def unlike(learnt):
    """What the library believes otherwise than the plain program."""
    if len(learnt.library) != len(learnt.plain):
        yield f"{len(learnt.library)} estimates, and not {len(learnt.plain)}"
    for (block, start), known in learnt.plain.items():
        found = learnt.library.get(scid(block), point(start))
        if (found.least_msat, found.most_msat, found.penalty_msat) != known:
            yield f"of {block} out of {start} it is believed that {found}, and not {known}"


def answer(network, question, estimates, **budget):
    """The steps that the library finds, none if there is no route, or the word of another fault; and whether they are the
    best ones."""
    payment, overlay, preferences, _, most_delay, most_hops = question
    try:
        route = network.route(
            point(payment.payer), point(payment.payee), payment.amount, EXPIRY, SECRET,
            edges=[extra_edge(road) for road in overlay.extra],
            limits=[lgm.Limit(scid(limit.block), point(limit.start), limit.most) for limit in overlay.limits],
            silent=[point(node) for node in overlay.silent],
            preferences=lgm.Preferences(*preferences), estimates=estimates, most_delay=most_delay, most_hops=most_hops, **budget)
    except lgm.NoRoute:
        return [], True
    except lgm.Fault as fault:
        return fault.word, False
    return steps_in(route), route.is_best


def expected(roads, question):
    """The steps that the plain program finds."""
    return preferred(roads, question.payment, question.preferences, question.estimates, question.most_delay,
                     question.most_hops or MOST_CHANNELS)


def within(roads, question):
    """The steps of all usable walks within the limits."""
    most_delay, most_hops = question.most_delay, question.most_hops or MOST_CHANNELS
    return [steps for steps in usable(roads, question.payment)
            if len(steps) <= most_hops and (most_delay is None or delay(steps) <= most_delay)]


def questions(numbers, roads, question, seen):
    """A question without limits and within some, with the steps that are expected. Counts the differences."""
    alone, without = best(usable(roads, question.payment)), question._replace(estimates={})
    whole, unlearnt = expected(roads, question), expected(roads, without)
    seen["preferences", difference(unlearnt, alone)] += 1
    seen["estimates", difference(whole, unlearnt)] += 1
    just_below = [delay(whole) - 1] if whole and delay(whole) > 1 else []
    asked = [("delays", question._replace(most_delay=most)) for most in (numbers.choice((40, 80, 144, 184)), *just_below)]
    asked += [("hops", question._replace(most_hops=most)) for most in {numbers.randrange(1, 5), max(len(whole) - 1, 1)}]
    asked.append(("both", question._replace(most_delay=numbers.choice((40, 144)), most_hops=numbers.randrange(1, 4))))
    yield question, whole
    for kind, limited in asked:
        steps = expected(roads, limited)
        seen[kind, difference(steps, whole)] += 1
        yield limited, steps


def budget_fault(numbers, roads, network, question, wanted, estimates, seen):
    """What is wrong with an answer by few labels or steps."""
    budget = {numbers.choice(("most_labels", "most_steps")): numbers.choice((1, 2, 3, 5, 8, 13, 21, 34))}
    found, is_best = answer(network, question, estimates, **budget)
    seen["budgets", "best" if is_best else found if found == "undecided" else "so far"] += 1
    is_right = found == wanted if is_best else found in within(roads, question) or found == "undecided"
    if not is_right:
        yield f"{question}, {budget}: expected\n    {wanted}\nor what isn't called the best, and found\n    {found}, {is_best}"


def zeros_fault(network, payment, overlay):
    """What is wrong if neither preferences nor an estimate say anything."""
    question = payment, overlay
    plain = routed(network, *question)
    with lgm.Estimates() as nothing:
        liked = routed(network, *question, preferences=lgm.Preferences(), estimates=nothing)
    if liked != plain:
        yield f"{question}: by zeros\n    {liked}\nand without preferences\n    {plain}"


def routed(network, payment, overlay, **liked):
    """The route over the extra edges of an overlay, payloads included, or the word of the fault."""
    try:
        return network.route(point(payment.payer), point(payment.payee), payment.amount, EXPIRY, SECRET,
                             edges=[extra_edge(road) for road in overlay.extra], **liked)
    except lgm.Fault as fault:
        return fault.word


def compared(numbers, network, roads, question, library, seen):
    """What is wrong with the answers to a question, within limits too, by the library's own estimates."""
    for limited, wanted in questions(numbers, roads, question, seen):
        found = answer(network, limited, library)
        if found != (wanted, True):
            yield f"{limited}: expected\n    {wanted}\nand found\n    {found}"
        yield from budget_fault(numbers, roads, network, limited, wanted, library, seen)
    yield from zeros_fault(network, question.payment, question.overlay)


def objections(numbers, seen):
    """What is wrong with the answers over a random network, and the network."""
    made, nodes = random_network(numbers)
    wrong = []
    with opened(made, BIT_0) as network, lgm.Estimates() as estimates:
        learnt = Learnt({}, estimates)
        for count in range(PAYMENTS):
            overlay = random_overlay(numbers, carrying(made)) if count < OVER else NOTHING
            roads = edges_over(made, True, overlay)
            for edge in numbers.choices([key(road) for road in [*roads, *carrying(made)]], k=numbers.randrange(4)):
                learn(numbers, learnt, edge)
            wrong += unlike(learnt)
            liked = Preferences(numbers.choice(FAILURES), numbers.choice(HOPS))
            question = Question(random_payment(numbers, nodes), overlay, liked, dict(learnt.plain))
            wrong += compared(numbers, network, roads, question, estimates, seen)
    return [*wrong, "of the network", *(f"    {item}" for items in made for item in items)] if wrong else []


def rarities(seen, networks):
    """The differences that were seen too rarely."""
    return [f"too few {what} made this difference: {kind}" for (what, kind), times in OFTEN.items()
            if seen[what, kind] < times * networks / 1_000]


def main():
    """Takes the arguments, and runs all cases and networks."""
    parser = argparse.ArgumentParser(description=__doc__, formatter_class=argparse.RawDescriptionHelpFormatter)
    parser.add_argument("library", nargs="?", default=lgm.library.LIBRARY, metavar="LIBRARY")
    parser.add_argument("--networks", type=int, default=1_000, metavar="N", help="so many")
    parser.add_argument("--seed", type=int, default=1, metavar="N", help="other random ones")
    given = parser.parse_args()
    lgm.library.LIBRARY = Path(given.library).resolve()
    passed, failed = preferred_cases.run()
    numbers, seen = random.Random(given.seed), Counter()
    for count in range(given.networks):
        wrong = objections(numbers, seen)
        passed, failed = passed + (not wrong), failed + bool(wrong)
        if wrong:
            print(f"network {count} of seed {given.seed}:", *wrong, sep="\n")
    print(", ".join(f"{what} {kind}: {seen[what, kind]}" for what, kind in sorted(seen)))
    rare = rarities(seen, given.networks)
    print(*rare, sep="\n", end="\n" if rare else "")
    print(f"{passed} passed, {failed + len(rare)} failed")
    sys.exit(1 if failed or rare else 0)


if __name__ == "__main__":
    main()
