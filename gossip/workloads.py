"""The lines of scripts (docs/script.md) over a synthetic network."""

from gossip.messages import (
    CHAIN, CHANNEL_ANNOUNCEMENT, CHANNEL_UPDATE, HAS_MAXIMUM, SIGNATURE_LEN, ChannelAnnouncement, ChannelUpdate,
    NodeAnnouncement, channel_line, decode, gossip_timestamp_filter, query_channel_range, query_line,
    query_short_channel_ids, short_channel_id, signed_line)
from gossip.networks import BLOCKS, DAY, FEATURES, NOW

RANGES = 10
IDS_A_LIST = 1_000
ROUNDS = 20
UPDATES_A_ROUND = 1_000
FILTER_AGES = (14 * DAY, DAY, DAY, 3_600, 3_600, 3_600, 0, 0, 0, 0)  # seconds; one each peer
ALL_TIMES = 0xFFFFFFFF
PEERS = 1_000
TIMES_TO_COME = NOW + 365 * DAY
ROUTES = 1_000
ROUTES_A_ROUND = 5
LIVE_ROUTES_A_ROUND = 50
AMOUNTS = (1_000, 50_000, 1_000_000, 10_000_000, 50_000_000, 200_000_000, 1_000_000_000)  # msat
HEIGHT = 917_000
SLOW = 2_016  # blocks
SLOWEST = 0xFFFF
LURED_AMOUNT = 100_000  # msat
FULL_RANGES = 640
ONE_BLOCK_RANGES = 10_000
BANS = 2_000
BANNED_BLOCK = 2_000_000  # the first of blocks where the network has no channel


def announcement_line(network, channel):
    """A channel's announcement, rightly signed and funded."""
    return channel_line(announcement(network, channel.scid, channel.nodes), channel.capacity)


def announcement(network, scid, nodes=()):
    """A channel's announcement. Its signatures and bitcoin keys are drawn; so are its nodes where none are given."""
    signatures = network.random.randbytes(4 * SIGNATURE_LEN)
    nodes = nodes or sorted((network.point(), network.point()))
    return ChannelAnnouncement(CHAIN, scid, nodes).encode(signatures, (network.point(), network.point()))


def update_line(network, channel, direction, timestamp):
    """An update of a channel by the node of its direction."""
    signature, flags = network.signature(), network.channel_flags(direction)
    update = ChannelUpdate(CHAIN, channel.scid, timestamp, HAS_MAXIMUM, flags, *network.terms(channel.capacity))
    return signed_line(update.encode(signature), channel.nodes[direction])


def node_line(network, node):
    """A node's announcement by itself."""
    signature = network.signature()
    found = NodeAnnouncement(network.random.choice(FEATURES), network.timestamp(), node)
    message = found.encode(signature, network.random.randbytes(3), network.alias(node), network.addresses())
    return signed_line(message, node)


def sync(network):
    """The whole network, as a reply to a query has it: each channel, its updates, its nodes."""
    seen = set()
    for channel in network.channels:
        yield announcement_line(network, channel)
        for direction in network.directions():
            yield update_line(network, channel, direction, network.timestamp())
        for node in channel.nodes:
            if node not in seen:
                seen.add(node)
                if network.is_announced():
                    yield node_line(network, node)
    yield "commit\n"


def queries(network):
    """The network, ten ranges of blocks, and each channel queried once in lists of ids."""
    yield from sync(network)
    yield query_line(query_channel_range(0, 0xFFFFFFFF, True))
    for number in range(1, RANGES):
        first = network.random.choice(BLOCKS)
        blocks = network.random.randrange(1, len(BLOCKS) // 4)
        yield query_line(query_channel_range(first, blocks, number % 2 == 0))
    scids = [channel.scid for channel in network.channels]
    network.random.shuffle(scids)
    for start in range(0, len(scids), IDS_A_LIST):
        yield ids_line(network, sorted(scids[start:start + IDS_A_LIST]))


def ids_line(network, scids):
    """A list of ids; about half of the lists ask by flags for some of the messages alone."""
    if network.random.randrange(2):
        return query_line(query_short_channel_ids(scids))
    flags = bytes(network.random.choice((1, 6, 7, 31)) for _ in scids)
    return query_line(query_short_channel_ids(scids, flags))


def route_line(network):
    """A payment between any two nodes, of one of seven amounts."""
    payer, payee = network.random.sample(network.nodes, 2)
    amount = network.random.choice(AMOUNTS)
    return (f"route {payer.hex()} {payee.hex()} {amount} {HEIGHT + network.random.randrange(200)} "
            f"{network.random.randbytes(32).hex()}\n")


def routes(network):
    """The network, and a thousand payments."""
    yield from sync(network)
    for _ in range(ROUTES):
        yield route_line(network)


def slow_routes(network):
    """The network, and a thousand payments. Every twentieth channel is free, and delays by 2,016 blocks."""
    channels = 0
    for line in routes(network):
        channels += is_of(line, CHANNEL_ANNOUNCEMENT)
        if channels % 20 == 0 and is_of(line, CHANNEL_UPDATE):
            line = with_terms(line, cltv_expiry_delta=SLOW, fee_base_msat=0, fee_proportional_millionths=0)
        yield line


def lured_routes(network):
    """The network, and a thousand payments. Each node's cheapest update has the greatest delta."""
    lines, cheapest = list(routes(network)), {}
    for place, line in enumerate(lines):
        if is_of(line, CHANNEL_UPDATE):
            _, message, node, _ = line.split()
            update = decode(bytes.fromhex(message))
            fee = update.fee_base_msat * 1_000_000 + update.fee_proportional_millionths * LURED_AMOUNT
            cheapest[node] = min(cheapest.get(node, (fee, place)), (fee, place))
    for _, place in cheapest.values():
        lines[place] = with_terms(lines[place], cltv_expiry_delta=SLOWEST)
    yield from lines


def is_of(line, kind):
    """Whether a line is a message of this type."""
    return line.startswith(f"m {kind:04x}")


def with_terms(line, **terms):
    """The line of an update with these terms in place of its own, and its own signature."""
    word, digits, *rest = line.split()
    message = bytes.fromhex(digits)
    changed = decode(message)._replace(**terms).encode(message[2:2 + SIGNATURE_LEN])
    return " ".join((word, changed.hex(), *rest)) + "\n"


def rounds(network, routes_a_round=0):
    """Rounds of newer updates of any channels, each round with a commit and then payments."""
    timestamp = NOW
    for _ in range(ROUNDS):
        for _ in range(UPDATES_A_ROUND):
            timestamp += 1
            channel = network.random.choice(network.channels)
            yield update_line(network, channel, network.random.randrange(2), timestamp)
        yield "commit\n"
        for _ in range(routes_a_round):
            yield route_line(network)


def churn(network):
    """The network, and rounds of updates with five payments behind each."""
    yield from sync(network)
    yield from rounds(network, ROUTES_A_ROUND)


def updates(network):
    """The network, and rounds of updates."""
    yield from sync(network)
    yield from rounds(network)


def live(network):
    """The network, and rounds of updates with fifty payments each, for `lgm live`."""
    yield from sync(network)
    yield from rounds(network, LIVE_ROUTES_A_ROUND)


def filters(network):
    """The network, ten peers with filters, and rounds of updates that are news to them."""
    yield from sync(network)
    for peer, age in enumerate(FILTER_AGES):
        message = gossip_timestamp_filter(NOW - age, ALL_TIMES)
        yield f"filter {peer} {message.hex()}\n"
    yield from rounds(network)


def peers(network):
    """The network, a thousand peers with filters of times to come, and rounds of updates beside them."""
    yield from sync(network)
    for peer in range(PEERS):
        message = gossip_timestamp_filter(TIMES_TO_COME, ALL_TIMES - TIMES_TO_COME)
        yield f"filter {peer} {message.hex()}\n"
    yield from rounds(network)


def ranges(network):
    """The network, and queries of the range of all blocks, with timestamps."""
    yield from sync(network)
    for _ in range(FULL_RANGES):
        yield query_line(query_channel_range(0, 0xFFFFFFFF, True))


def blocks(network):
    """The network, and queries of the range of one block each."""
    yield from sync(network)
    for _ in range(ONE_BLOCK_RANGES):
        yield query_line(query_channel_range(network.random.choice(BLOCKS), 1, True))


def bans(network):
    """The network, and pairs of announcements that contradict each other, between nodes of their own."""
    yield from sync(network)
    for number in range(BANS):
        scid = short_channel_id(BANNED_BLOCK + number, 0, 0)
        for _ in range(2):
            yield channel_line(announcement(network, scid), 100_000)
    yield "commit\n"


WORKLOADS = {
    "sync": sync, "routes": routes, "queries": queries, "churn": churn, "filters": filters,
    "peers": peers, "updates": updates, "live": live, "ranges": ranges, "blocks": blocks,
    "bans": bans, "slow": slow_routes, "lured": lured_routes}
