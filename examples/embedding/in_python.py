"""The package `lgm` for Python, which answers as `lgm` does, in one thread and in several."""

import threading

import lgm
from embedding.common import CHAIN, CHANNELS, announced, answer, is_wanted, made_script, report, stored


def test_python():
    """The package answers as `lgm` does: each item, each payment and each query of a synthetic network."""
    def bytes_in(line):
        return [bytes.fromhex(word) if len(word) > 24 else word for word in line.decode().split()]

    def answers(network, line):
        word, *fields = bytes_in(line)
        try:
            if word == "m":
                message, sig, funding = fields
                network.offer(message, sig, int(funding) if funding.isdigit() else funding)
                return ["accepted"]
            if word == "q":
                return [reply.hex() for reply in network.query(fields[0])]
            payer, payee, amount, expiry, secret = fields
            route = network.route(payer, payee, int(amount), int(expiry), secret)
        except lgm.Fault as fault:
            return [fault.word]
        hops = (f"hop {hop.scid >> 40}x{hop.scid >> 16 & 0xffffff}x{hop.scid & 0xffff} {hop.payload.hex()}"
                for hop in route.hops)
        return [f"route {route.sent_msat} {route.expiry} {len(route.hops)}", *hops]

    try:
        lgm.Map(bytes.fromhex(CHAIN)).offer(b"\1\0")
        report("Python, a first fault", False)
    except lgm.Malformed as fault:
        report("Python, a first fault", str(fault) == "malformed: cut")
    for workload in ("routes", "queries"):
        script = made_script(workload)
        with lgm.Map(bytes.fromhex(CHAIN)) as network:
            lines = [line for line in script.splitlines() if line != b"commit"]
            found = [text for line in lines for text in answers(network, line)]
        wanted = [line.split(maxsplit=1)[1].decode() for line in answer(script).splitlines()]
        report(f"Python, {workload}", found == [text for text in wanted if not text.startswith("commit")])
    try:
        network.mark()
        report("Python, closed", False)
    except lgm.Closed as fault:
        report("Python, closed", str(fault) == "closed")


def test_reasons():
    """The reason why there is no route is one of the map as it is when the reason is first asked for."""
    lines = [line.split() for line in made_script("routes").decode().splitlines()]
    payment = next(line[1:] for line in lines if line[0] == "route")
    payer, payee, secret = (bytes.fromhex(payment[place]) for place in (0, 1, 4))

    def without_route(network):
        try:
            network.route(payer, payee, int(payment[2]), int(payment[3]), secret)
        except lgm.NoRoute as why:
            return why

    with lgm.Map(bytes.fromhex(CHAIN)) as network:
        asked, later, closed = (without_route(network) for _ in range(3))
        report("Python, a reason", asked.reason is lgm.Reason.PAYER_HAS_NO_CHANNEL)
        for _, message, sig, funding in (line for line in lines if line[0] == "m"):
            network.offer(bytes.fromhex(message), sig if sig == "all" else bytes.fromhex(sig),
                          int(funding) if funding.isdigit() else funding)
        report("Python, a route by now", without_route(network) is None and later.reason is None)
        report("Python, a reason that was asked for before", str(asked) == "no-route: payer-has-no-channel")
    report("Python, a reason of a closed map", closed.reason is None and str(closed) == "no-route")


def test_lookups():
    """The package has the channels, terms and nodes that the messages of a synthetic network announce."""
    def terms(direction):
        return direction and [
            direction.timestamp, direction.message_flags, direction.channel_flags, direction.cltv_expiry_delta,
            direction.htlc_minimum_msat, direction.fee_base_msat, direction.fee_proportional_millionths,
            direction.htlc_maximum_msat]

    lines = (line.split() for line in made_script("sync").decode().splitlines())
    items = [(bytes.fromhex(line[1]), *line[2:]) for line in lines if line[0] == "m"]
    channels, nodes = announced(items)
    with lgm.Map(bytes.fromhex(CHAIN)) as network:
        keys = []
        for message, sig, funding in items:
            keys.append((network.wanted(message), None if sig == "all" else bytes.fromhex(sig)))
            network.offer(
                message, sig if sig == "all" else bytes.fromhex(sig), int(funding) if funding.isdigit() else funding)
        report("Python, keys to verify", len(keys) > CHANNELS and all(found == wanted for found, wanted in keys))
        report("Python, nothing is wanted twice", not any(is_wanted(network, message, lgm) for message, _, _ in items))
        found = {scid: network.channel(scid) for scid in channels}
        found = {scid: [channel.capacity_sat, channel.node_1, channel.node_2, terms(channel.from_1),
                        terms(channel.from_2)] for scid, channel in found.items()}
        report("Python, channels", len(network) == len(channels) == CHANNELS and found == channels)
        found = {point: network.node(point) for point in nodes}
        found = {point: (node.timestamp, node.rgb, node.alias, node.addresses) for point, node in found.items()}
        report("Python, nodes", len(nodes) > 0 and found == nodes)
        listed = list(network.channels()) == sorted(channels) and list(network.nodes()) == sorted(nodes)
        report("Python, lists", listed and list(network.banned()) == [])
        report("Python, copy", copied(network, lgm) == (sorted(channels), sorted(nodes), sorted(stored(network, lgm))))
        worst = max(channels, key=lambda scid: channels[scid][1])
        banned = channels[worst][1:3]
        for point in banned:
            network.ban(point)
        left = sorted(scid for scid, channel in channels.items() if not {*banned} & {*channel[1:3]})
        report("Python, bans", list(network.banned()) == sorted(banned) and list(network.channels()) == left)


def copied(network, lgm):
    """What a second map has, to which the messages of a map are offered."""
    with lgm.Map(bytes.fromhex(CHAIN)) as copy:
        for message, sat, point in stored(network, lgm):
            copy.offer(message, point or lgm.ALL_FOUR, lgm.NOT_ASKED if point else sat)
        return list(copy.channels()), list(copy.nodes()), sorted(stored(copy, lgm))


def test_threads():
    """Three threads offer the messages of a synthetic network to one map, and route at once, as if one had done so."""
    lines = [line.split() for line in made_script("routes").decode().splitlines()]
    payer, payee, amount, expiry, secret = next(line[1:] for line in lines if line[0] == "route")
    payment = bytes.fromhex(payer), bytes.fromhex(payee), int(amount), int(expiry), bytes.fromhex(secret)
    shares = [], [], []  # a channel's update comes after its announcement, in the same share
    for message, sig, funding in (line[1:] for line in lines if line[0] == "m"):
        message = bytes.fromhex(message)
        at = {b"\1\0": 292, b"\1\2": 98}.get(message[:2])
        if at:
            verdicts = (sig, int(funding)) if sig == "all" else (bytes.fromhex(sig), funding)
            shares[int.from_bytes(message[at:at + 8], "big") % 3].append((message, *verdicts))

    def work(network, share):
        for count, item in enumerate(share):
            network.offer(*item)
            if count % 5 == 0:
                try:
                    network.route(*payment)
                except lgm.NoRoute:
                    pass
        ended.append(len(share))

    ended = []
    with lgm.Map(bytes.fromhex(CHAIN)) as alone, lgm.Map(bytes.fromhex(CHAIN)) as shared:
        for share in shares:
            work(alone, share)
        threads = [threading.Thread(target=work, args=(shared, share)) for share in shares]
        for thread in threads:
            thread.start()
        for thread in threads:
            thread.join()
        right = len(ended) == 6 and len(shared) == len(alone) == CHANNELS
        report("Python, three threads", right and shared.route(*payment) == alone.route(*payment))


def test_published():
    """Two threads route in maps that a third publishes while it offers: each answer is that of its version."""
    lines = [line.split() for line in made_script("routes").decode().splitlines()]
    asked = [(bytes.fromhex(line[1]), bytes.fromhex(line[2]), int(line[3]), int(line[4]), bytes.fromhex(line[5]))
             for line in lines if line[0] == "route"][:10]
    items = [(bytes.fromhex(line[1]), line[2] if line[2] == "all" else bytes.fromhex(line[2]),
              int(line[3]) if line[3].isdigit() else line[3]) for line in lines if line[0] == "m"]

    def routes(network):
        found = []
        for payment in asked:
            try:
                found.append(network.route(*payment))
            except lgm.Unrouted as reason:
                found.append(reason.word)
        return found

    def read():
        version = None
        while version != len(items):
            with places[0].share() as mine:
                if mine.version != version:
                    version = mine.version
                    seen.append((version, routes(mine), len(mine)))

    seen, kept = [], []
    with lgm.Map(bytes.fromhex(CHAIN)) as network:
        places = [network.publish()]
        threads = [threading.Thread(target=read) for _ in range(2)]
        for thread in threads:
            thread.start()
        for number, item in enumerate(items, 1):
            network.offer(*item)
            if number % 500 == 0 or number == len(items):
                kept.append(places[0])
                places[0] = network.publish()
        for thread in threads:
            thread.join()
        kept.append(places[0])
    wanted = {published.version: (routes(published), len(published)) for published in kept}
    right = all((found, count) == wanted[version] for version, found, count in seen)
    versions = [0, *range(500, len(items), 500), len(items)]
    report("Python, published maps", right and list(wanted) == versions and kept[-1].version == len(items))
    everything = b"\1\t" + bytes.fromhex(CHAIN) + bytes(4) + b"\xff" * 4
    known = {message for message in kept[1].filter(everything)}
    news = [message for message in kept[-1].filter(everything) if message not in known]
    report("Python, news between maps", len(news) > 0 and kept[-1].news_since(kept[1], everything) == news)
    for published in kept:
        published.close()


def routed(network, payment, lgm, **beside):
    """The route of a payment over what is known beside a map, or the word of the reason why there is none."""
    try:
        return network.route(*payment, **beside)
    except (lgm.Unrouted, lgm.Undecided) as reason:
        return reason.word


def edges_in(network, lgm):
    """The edges of a map that payments can use, as edges beside a map's."""
    for scid in network.channels():
        channel = network.channel(scid)
        for terms, start, end in ((channel.from_1, channel.node_1, channel.node_2),
                                  (channel.from_2, channel.node_2, channel.node_1)):
            if terms and not terms.is_disabled and terms.htlc_maximum_msat <= 1000 * channel.capacity_sat:
                yield lgm.Edge(scid, start, end, terms.fee_base_msat, terms.fee_proportional_millionths,
                               terms.cltv_expiry_delta, terms.htlc_minimum_msat, terms.htlc_maximum_msat)


def quicker_is_right(network, payment, route, lgm):
    """Whether the delay of a route is within the limit, and without it what is found is quicker and no cheaper."""
    delay = route.expiry - payment[3]
    right = routed(network, payment, lgm, most_delay=max(delay, 1)) == route
    quicker = routed(network, payment, lgm, most_delay=delay - 1) if delay > 1 else "no-route"
    return right and (quicker == "no-route" or quicker.expiry - payment[3] < delay and quicker.sent_msat >= route.sent_msat)


def test_overlays():
    """Over edges that stand for what a map lacks, or for the payer's own channels, payments have the routes that they have in
    a map with these channels: in a map that changes, and in four threads that share it as it was published."""
    lines = [line.split() for line in made_script("routes").decode().splitlines()]
    asked = [(bytes.fromhex(line[1]), bytes.fromhex(line[2]), int(line[3]), int(line[4]), bytes.fromhex(line[5]))
             for line in lines if line[0] == "route"][:40]
    items = [(bytes.fromhex(line[1]), line[2] if line[2] == "all" else bytes.fromhex(line[2]),
              int(line[3]) if line[3].isdigit() else line[3]) for line in lines if line[0] == "m"]

    def over(network):
        return [routed(network, payment, lgm, edges=hints) for payment in asked]

    def read():
        with published.share() as mine:
            seen.append(over(mine))

    with lgm.Map(bytes.fromhex(CHAIN)) as network, lgm.Map(bytes.fromhex(CHAIN)) as less:
        for item in items:
            network.offer(*item)
            less.offer(*item)
        edges = list(edges_in(network, lgm))
        wanted = [routed(network, payment, lgm) for payment in asked]
        found = [routed(network, payment, lgm, silent=[payment[0]], edges=[e for e in edges if e.start == payment[0]])
                 for payment in asked]
        report("Python, own channels", found == wanted and any(isinstance(route, lgm.Route) for route in wanted))
        payees = {payment[1] for payment in asked}
        hints = [edge for edge in edges if {edge.start, edge.end} & payees]
        for scid in {edge.scid for edge in hints}:
            less.close_channel(scid)
        alone = [routed(less, payment, lgm) for payment in asked]
        report("Python, hints", set(alone) == {"no-route"} and over(less) == wanted)
        seen = []
        with less.publish() as published:
            threads = [threading.Thread(target=read) for _ in range(4)]
            for thread in threads:
                thread.start()
            for thread in threads:
                thread.join()
        report("Python, hints in four threads", seen == 4 * [wanted])
        right = all(quicker_is_right(network, payment, route, lgm)
                    for payment, route in zip(asked, wanted) if isinstance(route, lgm.Route))
        report("Python, delays", right)


def wide_edges(sides, stages, lgm):
    """From point 0 to point 1 for 1,000,000 msat, or over another point for twice 600 blocks; from there over points side by
    side to a row of pairs, each a free edge that delays by 1, 2, 4 .. blocks and one that charges as many msat. The last
    point is the payee."""
    def edge(scid, start, end, base, delta):
        return lgm.Edge(scid, at(start), at(end), fee_base_msat=base, cltv_expiry_delta=delta)

    def at(number):
        return b"\2" + number.to_bytes(32, "big")

    edges = [edge(0, 0, 1, 1_000_000, 0), edge(1, 0, 99, 0, 600), edge(0, 99, 1, 0, 600)]
    for side in range(sides):
        edges += [edge(side, 1, 100 + side, 0, 0), edge(side, 100 + side, 2, 0, 0)]
    for stage in range(stages):
        edges += [edge(0, 2 + stage, 3 + stage, 0, 2**stage), edge(1, 2 + stage, 3 + stage, 2**stage, 0)]
    own = lgm.Edge(9, b"\3" + bytes(32), at(0))
    return own.start, at(2 + stages), [own, *edges]


def test_so_far():
    """Where steps don't suffice, the payment gets a route so far within a delay that all cheap routes exceed, and only there."""
    payer, payee, edges = wide_edges(6_000, 8, lgm)
    payment = payer, payee, 10_000, 700_000, bytes(32)
    with lgm.Map(bytes.fromhex(CHAIN)) as network, network.publish() as published:
        found = [[routed(one, payment, lgm, edges=edges, most_delay=most) for most in (1_008, 1_455, None)]
                 for one in (network, published)]
        limits = [lgm.Limit(1, edges[1].start)]
        dear = routed(network, payment, lgm, edges=edges, limits=limits, most_delay=1_008)
    right = all(not so_far.is_best and 1_010_000 <= so_far.sent_msat <= 1_010_255 and so_far.expiry <= 701_008
                and within == any_delay and within.sent_msat == 10_000 and within.expiry == 701_455
                for so_far, within, any_delay in found)
    report("Python, a route so far", right and (dear.sent_msat, dear.expiry) == (1_010_000, 700_255))


def test_one_class():
    """A published map refuses what would change it, and is shared; one that changes isn't shared; both are true."""
    def raised(call, *arguments):
        try:
            call(*arguments)
        except (lgm.Fault, ValueError) as fault:
            return type(fault)
        return None

    message = b"\1\t" + bytes.fromhex(CHAIN) + bytes(4) + b"\xff" * 4
    with lgm.Map(bytes.fromhex(CHAIN)) as network, network.publish() as published, published.publish() as other:
        calls = [(published.offer, b""), (published.close_channel, 0), (published.ban, bytes(33)), (published.mark,)]
        right = all(raised(*call) is lgm.Published for call in calls) and raised(network.share) is lgm.NotPublished
        right &= bool(network) and bool(published) and len(network) == len(published) == 0
        right &= network.version == published.version == other.version == 0 and published.news(message) == []
        right &= network.news_since(published, message) == []
        right &= raised(network.news_since, network, message) is ValueError
        with published.share() as shared:
            published.close()
            right &= raised(published.query, message) is lgm.Closed and raised(lambda: published.version) is lgm.Closed
            right &= shared.version == 0
    report("Python, one class", right)


def test_all():
    """All of these."""
    for test in (test_python, test_reasons, test_lookups, test_threads, test_published, test_overlays, test_so_far, test_one_class):
        test()
