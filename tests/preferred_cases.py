"""Payments by what a payer prefers whose routes are worked out by hand (docs/protocol.md, "A route that arrives"), and networks
that are made against the search.

Each case is a sentence with roads, and with what is asked and the channels and the amount that are to be found. The plain
program has to find them too. tests/plain_preferred.py runs them.
"""

import time
from typing import NamedTuple

import lgm
from gossip.hostile import AMOUNT, PAYER, PAYER_NUMBER, Hostile, messages
from gossip.messages import CHAIN, CHANNEL_UPDATE, decode, kind_of
from gossip.networks import Network as MadeNetwork
from gossip.notation import SECRET
from gossip.workloads import SLOWEST, WORKLOADS
from plain_overlays import Channel, Network, Update, extra_edge, opened, point, scid, steps_in
from plain_walks import EXPIRY, MOST_AMOUNT, MOST_CHANNELS, Estimate, Payment, Preferences, Road, Terms, delay, preferred, usable

SECONDS = 2  # of CPU time, for a payment that is to take less than 0.2
PAYMENT = Payment(0, 2, 1_000)
LIKED = lgm.Preferences(20_000, 500)


class Case(NamedTuple):
    """A payment with the blocks of its route, none if there is no route, and what the payer sends."""

    sentence: str
    roads: list
    blocks: list
    sent: int = 0
    liked: Preferences = Preferences()
    known: dict = {}  # estimates by block and node
    payment: Payment = PAYMENT
    most_delay: int = None
    most_hops: int = None


def road(block, start, end, base=0, most=50_000_000, delta=40):
    """A direction that charges a base fee alone."""
    return Road(block, start, end, Terms(delta=delta, base=base, most=most))


def two_ways(first, second):
    """The payer's channel 1 to node 1, and channels 2 and 3 from there to node 2, with what these charge and carry at most."""
    return [road(1, 0, 1), road(2, 1, 2, *first), road(3, 1, 2, *second)]


FAILURE = Preferences(failure=1_000)
THREE = Preferences(failure=3)
# Channel 2 carries up to 1,999 msat, so its odds for 1,000 are 1,000 / (1,999 - 1,000 + 1) = 1 to 1. Those of 50,000,000 are 0.
HALF = (10, 1_999)
# The example of docs/protocol.md.
EXAMPLE = two_ways((500, 2_000_000), (1_500, 100_000_000))
MILLION, LIKELY = Payment(0, 2, 1_000_000), Preferences(20_000, 500)
ROW = [road(1, 0, 1), road(2, 1, 2), road(3, 2, 3, delta=34)]
ALONG = Payment(0, 3, 1_000)
CASES = (
    Case("without preferences the route is the one that sends least", two_ways(HALF, (500,)), [1, 2], 1_010),
    Case("a penalty changes the route, and is no part of what is sent", two_ways(HALF, (500,)), [1, 3], 1_500, FAILURE),
    Case("a penalty that doesn't make up for the fee changes nothing", two_ways(HALF, (1_011,)), [1, 2], 1_010, FAILURE),
    Case("of walks that cost the same, the one with fewest hops, though another has lesser ids",
         [road(1, 0, 1), road(2, 1, 3, 25), road(3, 3, 2, 25), road(5, 0, 4), road(6, 4, 2, 150)], [5, 6], 1_150,
         Preferences(hop=100)),
    Case("a hop is worth 100 msat, not 99: the longer walk costs less by 2",
         [road(1, 0, 1), road(2, 1, 3, 25), road(3, 3, 2, 25), road(5, 0, 4), road(6, 4, 2, 150)], [1, 2, 3], 1_050,
         Preferences(hop=99)),
    Case("of as many hops that cost the same, the least ids, though the other one sends less",
         two_ways((100,), (0,)), [1, 2], 1_100, known={(3, 1): Estimate(penalty=100)}),
    Case("ids are compared from the payer on", [road(1, 0, 1), road(5, 1, 3), road(6, 3, 2), road(3, 1, 4), road(9, 4, 2)],
         [1, 3, 9], 1_000, FAILURE),
    Case("1 msat less decides over ids", two_ways((100,), (0,)), [1, 3], 1_000, known={(3, 1): Estimate(penalty=99)}),
    Case("an estimate of exactly the amount leaves no odds", two_ways(HALF, (10,)), [1, 2], 1_010, FAILURE,
         {(2, 1): Estimate(least=1_000)}),
    Case("of 1 msat more than the estimate the odds are 1,000 / 999 msat, rounded down 1", two_ways(HALF, (10,)), [1, 3], 1_011,
         FAILURE, {(2, 1): Estimate(least=1_000)}, Payment(0, 2, 1_001)),
    Case("odds are rounded down: 1,000 / 1,001 msat are none", two_ways((0, 2_000), (0,)), [1, 2], 1_000, Preferences(failure=1)),
    Case("and 1,000 / 1,000 are 1", two_ways((0, 1_999), (0,)), [1, 3], 1_000, Preferences(failure=1)),
    Case("the odds of the maximum are 100 to 1, and so cost 300 msat: a tie", two_ways((0, 1_000), (300,)), [1, 2], 1_000, THREE),
    Case("so a fee of 299 msat is less", two_ways((0, 1_000), (299,)), [1, 3], 1_299, THREE),
    Case("an estimate's most below the amount has odds of 100 to 1: a tie", two_ways((0,), (300,)), [1, 2], 1_000, THREE,
         {(2, 1): Estimate(most=999)}),
    Case("and a fee of 299 msat is less again", two_ways((0,), (299,)), [1, 3], 1_299, THREE, {(2, 1): Estimate(most=999)}),
    Case("an estimate's most of 0 excludes nothing", two_ways((0,), (0, 999)), [1, 2], 1_000, THREE, {(2, 1): Estimate(most=0)}),
    Case("an estimate's most above the maximum raises nothing", two_ways(HALF, (500,)), [1, 3], 1_500, FAILURE,
         {(2, 1): Estimate(most=10_000)}),
    Case("the most of 1,999 has the same odds as that maximum: a tie with a fee of 1,000 msat", two_ways((0,), (1_000,)), [1, 2],
         1_000, FAILURE, {(2, 1): Estimate(most=1_999)}),
    Case("what surely passes counts before what surely doesn't", two_ways((0,), (1,)), [1, 2], 1_000, FAILURE,
         {(2, 1): Estimate(least=1_000, most=500)}),
    Case("a penalty is at most 2^40 msat: a tie", two_ways((0,), (0,)), [1, 2], 1_000, FAILURE,
         {(2, 1): Estimate(penalty=MOST_AMOUNT), (3, 1): Estimate(penalty=2**40)}),
    Case("2^40 - 1 are less", two_ways((0,), (0,)), [1, 3], 1_000, FAILURE,
         {(2, 1): Estimate(penalty=MOST_AMOUNT), (3, 1): Estimate(penalty=2**40 - 1)}),
    Case("the payer's own edge has no penalty, whatever is believed of it",
         [road(1, 0, 1, most=1_000), road(4, 0, 1), road(2, 1, 2)], [1, 2], 1_000, Preferences(1_000, 1_000),
         {(1, 0): Estimate(most=0, penalty=2**40)}),
    Case("an estimate is of one direction", two_ways((0,), (0,)), [1, 2], 1_000, known={(2, 2): Estimate(penalty=100)}),
    # Channel 2 carries 1,100 msat, so 100 above the estimate, and its odds are 100 / (2,099 - 1,100 + 1) = 1 to 10.
    Case("a penalty is of what the edge carries, and not of the payment's amount",
         [road(1, 0, 1), road(2, 1, 3, most=2_099), road(4, 1, 3, 99), road(5, 3, 2, 100)], [1, 4, 5], 1_199, FAILURE,
         {(2, 1): Estimate(least=1_000)}),
    Case("so with 1,100 msat that surely pass there is none",
         [road(1, 0, 1), road(2, 1, 3, most=2_099), road(4, 1, 3, 99), road(5, 3, 2, 100)], [1, 2, 5], 1_100, FAILURE,
         {(2, 1): Estimate(least=1_100)}),
    Case("the example: the dearer channel arrives", EXAMPLE, [1, 3], 1_001_500, LIKELY, payment=MILLION),
    Case("its other channel has carried the amount", EXAMPLE, [1, 2], 1_000_500, LIKELY, {(2, 1): Estimate(least=1_000_000)},
         MILLION),
    Case("its dearer channel has failed to", EXAMPLE, [1, 2], 1_000_500, LIKELY, {(3, 1): Estimate(most=999_999)}, MILLION),
    Case("a walk may have as many edges as are allowed", ROW, [1, 2, 3], 1_000, payment=ALONG, most_hops=3),
    Case("and no more", ROW, [], payment=ALONG, most_hops=2),
    Case("with fewer hops a dearer walk is the best one", [*ROW, road(4, 1, 3, 700)], [1, 4], 1_700, payment=ALONG, most_hops=2),
    Case("a cheap way of many hops leaves no room for those in front of it",
         [road(1, 0, 1), road(2, 1, 2), road(3, 2, 3), road(4, 3, 4), road(5, 4, 5), road(6, 2, 4, 700)], [1, 2, 6, 5], 1_700,
         FAILURE, payment=Payment(0, 5, 1_000), most_hops=4),
    Case("and a cheap way that is slow none for a delay", [*ROW, road(4, 1, 2, 700, delta=10)], [1, 4, 3], 1_700, FAILURE,
         payment=ALONG, most_delay=73),
    Case("a walk may delay by as many blocks as are allowed", ROW, [1, 2, 3], 1_000, payment=ALONG, most_delay=74),
    Case("and by no more", ROW, [], payment=ALONG, most_delay=73),
    Case("a delay within the limit costs nothing", [road(1, 0, 1), road(2, 1, 2, 0, delta=2_016), road(3, 1, 2, 1, delta=0)],
         [1, 2], 1_000, FAILURE, most_delay=2_016))


def network_of(roads):
    """A network with these directions."""
    channels = {it.block: Channel(it.block, tuple(sorted((it.start, it.end))), b"") for it in roads}
    return Network(list(channels.values()), [Update(it, False) for it in roads], [])


def believe(estimates, edge, known):
    """Sets the library's estimate of an edge, by its block and node."""
    block, start = edge
    estimates.set(scid(block), point(start), lgm.Estimate(*known))


def asked(case, network, **budget):
    """The library's route for a case, or the word of its fault."""
    payment = case.payment
    with lgm.Estimates() as estimates:
        for edge, known in case.known.items():
            believe(estimates, edge, known)
        try:
            return network.route(
                point(payment.payer), point(payment.payee), payment.amount, EXPIRY, SECRET,
                preferences=lgm.Preferences(*case.liked), estimates=estimates, most_delay=case.most_delay,
                most_hops=case.most_hops, **budget)
        except lgm.Fault as fault:
            return fault.word


def case_faults(case):
    """What is wrong with a case."""
    wanted = case.blocks, case.sent
    steps = preferred(case.roads, case.payment, case.liked, case.known, case.most_delay, case.most_hops or MOST_CHANNELS)
    with opened(network_of(case.roads), None) as network:
        route = asked(case, network)
    found = ([], 0) if route == "no-route" else route if isinstance(route, str) else (
        [step.block for step in steps_in(route)], route.sent_msat)
    plain = [step.block for step in steps], steps[0].amount if steps else 0
    wrong = [f"{name} finds {it}, and not {wanted}" for name, it in (("the library", found), ("the plain program", plain))
             if it != wanted]
    return wrong + ["not the best one"] * (wanted[0] != [] and not getattr(route, "is_best", False))


def budget_faults():
    """What is wrong where one label, or one step, is all that a search may take: three channels in a row are more."""
    with opened(network_of(ROW), None) as network:
        case = Case("", ROW, [1, 2, 3], 1_000, FAILURE, payment=ALONG)
        best = asked(case, network)
        if not best.is_best or asked(case, network, most_labels=1_000, most_steps=100_000) != best:
            yield "with 1,000 labels and 100,000 steps it isn't the best one"
        if (found := asked(case, network, most_labels=1)) != "undecided":
            yield f"with one label {found}, and not undecided"
        found = asked(case, network, most_steps=1)
        if found != "undecided" and (found.is_best or found.hops != best.hops):
            yield f"with one step {found}, and neither undecided nor the only route, which isn't called the best"


def step_faults():
    """What is wrong where labels are compared with those that a later one dominates. Nodes 1 and 2 charge as much as they pass
    on, so the first walk, over them, sends 4,000 msat. It takes no step, and leaves a label at each. Of the channels from node 4
    each charges less than the one before, so each label over one dominates the last. There are 13 steps: a comparison for each
    label that is settled, the payee's, that of node 2 and the cheapest one of node 4; four edges into the payee, one into node 2 and
    one into node 4; a comparison for each new label of nodes 2 and 1; and one each for the second and the third label of node 4,
    with the one before. An edge that no map has is believed to have a penalty: without any, steps don't run out."""
    full = Terms(base=0, millionths=1_000_000)
    roads = [road(1, 0, 1), Road(2, 1, 2, full), Road(3, 2, 5, full), road(4, 0, 4), road(5, 4, 5, 2_700),
             road(6, 4, 5, 2_600), road(7, 4, 5, 2_500)]
    case = Case("", roads, [4, 7], 3_500, known={(9, 9): Estimate(penalty=1)}, payment=Payment(0, 5, 1_000))
    with opened(network_of(roads), None) as network:
        for steps, wanted in ((13, (True, 3_500)), (12, (False, 4_000))):
            route = asked(case, network, most_steps=steps)
            if (route.is_best, route.sent_msat) != wanted:
                yield f"with {steps} steps {route}"


def plain_faults():
    """What is wrong where one step and one label are all that a search may take, and no edge has a penalty, though something is
    known of one: then the route that sends least is found whatever it takes."""
    with opened(network_of(ROW), None) as network:
        case = Case("", ROW, [1, 2, 3], 1_000, known={(2, 1): Estimate(least=500, most=2_000)}, payment=ALONG)
        found = asked(case, network, most_steps=1, most_labels=1)
        if found == "undecided" or not found.is_best:
            yield f"{found}, and not the best one"


def overlay_faults():
    """What is wrong where one step is all that a search may take, and the first walk, which takes none, leads over an edge
    beside the map's. The payee's list of edges isn't in the order of their ids then, whichever of these two comes first."""
    case = Case("", [road(1, 0, 1), road(5, 3, 2)], [], 1_000, FAILURE)
    with opened(network_of(case.roads), None) as network:
        for block in (2, 9):
            found = asked(case, network, most_steps=1, edges=[extra_edge(road(block, 1, 2))])
            if found == "undecided" or [hop.scid for hop in found.hops] != [scid(1), scid(block)]:
                yield f"with one step and channel {block} beside the map {found}"


def opened_hostile(hostile):
    """The library's map of a hostile network."""
    network = lgm.Map(CHAIN)
    for offered in messages(hostile):
        network.offer(*offered)
    return network


def hostile_faults(hostile, **liked):
    """What is wrong with a payment over a hostile network."""
    with opened_hostile(hostile) as network:
        started = time.process_time()
        try:
            route = network.route(PAYER, hostile.payee, AMOUNT, EXPIRY, SECRET, most_delay=hostile.most_delay, **liked)
        except (lgm.NoRoute, lgm.Undecided) as fault:
            if hostile.least_fee is not None:
                yield f"{fault}, though a walk fits"
        else:
            fits = hostile.least_fee is not None and route.sent_msat - AMOUNT >= hostile.least_fee
            if not fits or route.expiry - EXPIRY > hostile.most_delay:
                yield f"a route that doesn't fit, with a fee of {route.sent_msat - AMOUNT} msat and expiry {route.expiry}"
            elif route.is_best and not liked and route.sent_msat - AMOUNT != hostile.least_fee:
                yield f"a fee of {route.sent_msat - AMOUNT} msat is called the best one"
        taken = time.process_time() - started
        if taken > SECONDS:
            yield f"it took {taken:.1f} s"


def small_faults():
    """What is wrong with small hostile networks by the plain program: the walks that fit are those from the given fee on."""
    for least_fee in (None, 1, 4, 7):
        hostile = Hostile(3, 2, least_fee)
        roads = [Road(block, it.start, it.end, Terms(delta=it.delay, base=it.fee, most=it.most))
                 for block, it in enumerate(hostile.edges(), 1)]
        payment = Payment(PAYER_NUMBER, hostile.row(hostile.links), AMOUNT)
        fitting = [steps[0].amount - AMOUNT for steps in usable(roads, payment) if delay(steps) <= hostile.most_delay]
        wanted = [] if least_fee is None else list(range(least_fee, hostile.most_fee + 1))
        if sorted(fitting) != wanted:
            yield f"{hostile}: walks with fees {sorted(fitting)} fit, and not {wanted}"


def poisoned_faults():
    """What is wrong where each node's cheapest update has a delta of 65,535: the routes within 2,016 blocks have to be those
    without these updates, but for the payer's own, whose delta doesn't count."""
    lines = [line.split() for line in WORKLOADS["lured"](MadeNetwork(500, 1))]
    slow, payments = [], [line[1:] for line in lines if line[0] == "route"][:60]
    found = 0
    with lgm.Map(CHAIN) as network:
        for message, sig, funding in (line[1:] for line in lines if line[0] == "m"):
            message, signer = bytes.fromhex(message), sig if sig == "all" else bytes.fromhex(sig)
            network.offer(message, signer, int(funding) if funding.isdigit() else funding)
            if kind_of(message) == CHANNEL_UPDATE and decode(message).cltv_expiry_delta == SLOWEST:
                slow.append(lgm.Limit(int.from_bytes(decode(message).scid, "big"), signer))
        for payer, payee, amount, expiry, secret in payments:
            question = *map(bytes.fromhex, (payer, payee)), int(amount), int(expiry), bytes.fromhex(secret)
            others = [limit for limit in slow if limit.start != question[0]]
            route, wanted = (routed(network, question, limits) for limits in ((), others))
            found += wanted != "no-route"
            if route != wanted:
                yield f"from {payer} to {payee}, {amount} msat: expected\n    {wanted}\nand found\n    {route}"
    if not slow or found < len(payments) // 4:
        yield f"{len(slow)} updates are slow, and {found} of {len(payments)} payments have a route"


def routed(network, question, limits):
    """The route within 2,016 blocks, or the word of the fault."""
    try:
        return network.route(*question, limits=limits, preferences=LIKED, most_delay=2_016)
    except lgm.Fault as fault:
        return fault.word


def run():
    """Runs all of them. How many passed, and how many failed, of which it prints what is wrong."""
    tests = {case.sentence: case_faults(case) for case in CASES}
    tests["a budget of one label, and of one step"] = list(budget_faults())
    tests["steps of a search whose labels are dominated"] = list(step_faults())
    tests["estimates without penalties, and one step"] = list(plain_faults())
    tests["a first walk over an edge beside the map"] = list(overlay_faults())
    tests["which walks of a hostile network fit"] = list(small_faults())
    for links, sides in ((10, 500), (13, 30)):
        for least_fee in (None, 1, 2 ** (links - 1)):
            hostile = Hostile(links, sides, least_fee)
            for liked in ({}, {"preferences": LIKED}):
                tests[f"{hostile}, {liked or 'plain'}"] = list(hostile_faults(hostile, **liked))
    tests["each node's cheapest update has the greatest delta"] = list(poisoned_faults())
    for sentence, wrong in tests.items():
        if wrong:
            print(f"{sentence}:", *wrong, sep="\n    ")
    failed = sum(map(bool, tests.values()))
    return len(tests) - failed, failed
