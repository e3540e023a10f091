"""What test_path_finder.py and private_wallet.py try a path finder with: nodes, channels with their messages, the payer's own
channels, and a database with a map."""

from __future__ import annotations

import time

from electrum import constants, lnmsg, lnrouter

import path_finder
from offline import Messages

A, B, C, D, E = (b"\x02" + bytes([letter]) * 32 for letter in (10, 11, 12, 13, 14))
MSAT = 1_000_000
NOW = int(time.time()) - 1_000
DAY = 86_400


def scid(block):
    """The id of a channel of this block."""
    return (block << 40 | 1 << 16).to_bytes(8, "big")


AB, BD, AC, CD, DE, AA = map(scid, range(1, 7))


def announcement(own_scid, one, other):
    """A channel's announcement."""
    first, second = sorted((one, other))
    return lnmsg.encode_msg(
        "channel_announcement", len=0, features=b"", chain_hash=constants.net.rev_genesis_bytes(), node_id_1=first,
        node_id_2=second, short_channel_id=own_scid, bitcoin_key_1=A, bitcoin_key_2=B)


def update(own_scid, start, end, base=0, delta=40, timestamp=NOW, minimum=0):
    """The update of the direction from start to end."""
    return lnmsg.encode_msg(
        "channel_update", chain_hash=constants.net.rev_genesis_bytes(), short_channel_id=own_scid, timestamp=timestamp,
        message_flags=b"\1", channel_flags=bytes([start > end]), cltv_expiry_delta=delta, fee_base_msat=base,
        htlc_minimum_msat=minimum, htlc_maximum_msat=10**9)


def both(own_scid, start, end, base=0, delta=40):
    """A channel and both updates; the one from end to start is never cheaper."""
    return (announcement(own_scid, start, end), None), [
        (update(own_scid, start, end, base, delta), start), (update(own_scid, end, start, base + 5_000, delta), end)]


def square():
    """From A to D over B, who charges 1,000 msat, or over C, who charges 2,000."""
    parts = [both(AB, A, B), both(BD, B, D, 1_000), both(AC, A, C), both(CD, C, D, 2_000)]
    return Messages([channel for channel, _ in parts], [one for _, updates in parts for one in updates], [])


class OwnChannel:
    """A channel of the payer's, as far as a path finder asks the wallet about it."""

    class constraints:
        """What the wallet has of the funding."""

        capacity = 1_000_000

    def __init__(self, own_scid, payer, peer, can_send):
        self.short_channel_id, self._payer, self.node_id, self._can_send = own_scid, payer, peer, can_send

    def can_pay(self, amount_msat, *, check_frozen):
        """Whether so much can be sent."""
        return check_frozen and amount_msat <= self._can_send

    def available_to_spend(self, _):
        """What can be sent."""
        return self._can_send

    def get_local_pubkey(self):
        """The payer."""
        return self._payer

    def construct_channel_announcement_without_sigs(self):
        """The announcement that the channel would have."""
        return announcement(self.short_channel_id, self._payer, self.node_id)

    def get_outgoing_gossip_channel_update(self):
        """The payer's terms."""
        return update(self.short_channel_id, self._payer, self.node_id, 3_000)

    def get_remote_update(self):
        """The peer hasn't sent one."""
        return None


class Case:
    """A path finder over the square, and what it finds."""

    def __init__(self, offline, folder):
        offline.config.path = str(folder)
        folder.mkdir(exist_ok=True)
        self.offline, self.database = offline, offline.database(path_finder.MappedChannelDB)
        self.finder = path_finder.PathFinder(self.database)

    def path(self, payer=A, payee=D, msat=MSAT, **more):
        """The ids of the path, and what the payer sends."""
        asked = {"nodeA": payer, "nodeB": payee, "invoice_amount_msat": msat, **more}
        path = self.finder.find_path_for_payment(**asked)
        if path is None:
            return None
        route = self.finder.find_payment(final_cltv=0, payment_secret=bytes(32), **asked)
        assert all(isinstance(edge, lnrouter.PathEdge) for edge in path)
        ends = [payer, *(edge.end_node for edge in path)]
        assert ends[-1] == payee and ends[:-1] == [edge.start_node for edge in path]
        assert [(edge.fee_base_msat, edge.node_id) for edge in self.finder.find_route(**asked)][-1][1] == payee
        return [bytes(edge.short_channel_id) for edge in path], route.sent_msat


OVER_B, OVER_C = ([AB, BD], MSAT + 1_000), ([AC, CD], MSAT + 2_000)
