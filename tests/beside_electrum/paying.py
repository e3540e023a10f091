"""Payments over networks with real keys: the wallet makes the same amounts, expiries and payloads of the program's route,
and every hop's key peels the onion around them."""

from __future__ import annotations

import io

from electrum import lnmsg, lnonion, lnrouter

import signed
from program import expect
from wallet import Database, takes, verdict

AMOUNTS = (1_000, 100_000, 1_000_000, 123_456_789)
HMAC = 32
LONGEST = 20  # channels


def scid_of(text):
    """The bytes of BLOCKxINDEXxOUTPUT."""
    block, index, output = map(int, text.split("x"))
    return (block << 40 | index << 16 | output).to_bytes(8, "big")


class Network:
    """A network that both know, and the keys of its nodes."""

    def __init__(self, answers, messages, channels, owners, database):
        self._answers, self._database = answers, database
        self.keys = {signed.point(key): key for key in owners}
        self._ends = {channel.scid: [signed.point(key) for key in channel.keys] for channel in channels}
        for message in messages:
            sig, is_signed = verdict(database, message)
            [[word]] = answers.ask([f"m {message.hex()} {sig} {signed.CAPACITY}"])
            expect(word == "accepted" and takes(database, message, is_signed), "an item", word)
        answers.ask(["commit"])

    def route(self, payer, scids):
        """A route as the wallet has it, over these channels from the payer on."""
        found, start = [], payer
        for scid in scids:
            first, second = self._ends[scid]
            end = second if start == first else first
            found.append(lnrouter.RouteEdge.from_channel_policy(
                channel_policy=self._database.get_policy_for_node(scid, start), short_channel_id=scid,
                start_node=start, end_node=end, node_info=self._database.get_node_info_for_node_id(end)))
            start = end
        return found

    def pay(self, drawn, payer, payee):
        """One payment. The number of its hops."""
        amount, expiry, secret = drawn.choice(AMOUNTS), drawn.randrange(500_000, 900_000), drawn.randbytes(32)
        line = f"route {payer.hex()} {payee.hex()} {amount} {expiry} {secret.hex()}"
        [answer] = self._answers.ask([line])
        expect(answer[0].startswith("route "), "a payment", answer, line)
        sent, first_expiry, count = map(int, answer[0].split()[1:])
        hops = [line.split()[1:] for line in answer[1:]]
        route = self.route(payer, [scid_of(scid) for scid, _ in hops])
        expect(len(route) == count and route[-1].end_node == payee, "the hops", answer)
        hops_data, amount_sent, cltv = lnonion.calc_hops_data_for_payment(
            route, amount, expiry, total_msat=amount, payment_secret=secret)
        payloads = [bytes.fromhex(payload) for _, payload in hops]
        expect((sent, first_expiry) == (amount_sent, cltv), "what is sent", answer, amount_sent, cltv)
        wanted = [hop.to_bytes()[:-HMAC] for hop in hops_data]
        expect(payloads == wanted, "payloads", [it.hex() for it in payloads], [it.hex() for it in wanted])
        self._peel(drawn, route, payloads)
        return count

    def _peel(self, drawn, route, payloads):
        """Makes an onion of the payloads, and lets each hop peel it."""
        associated, points = drawn.randbytes(32), [edge.end_node for edge in route]
        layers = []
        for payload in payloads:
            layer, reader = lnonion.OnionHopsDataSingle(is_tlv_payload=True), io.BytesIO(payload)
            lnmsg.read_bigsize_int(reader)
            layer._raw_bytes_payload = reader.read()
            layers.append(layer)
        session = (1 + drawn.getrandbits(250)).to_bytes(32, "big")
        packet = lnonion.new_onion_packet(points, session, layers, associated)
        for place, (point, payload) in enumerate(zip(points, payloads)):
            peeled = lnonion.process_onion_packet(packet, associated, self.keys[point].get_secret_bytes())
            is_last = place == len(points) - 1
            expect(peeled.are_we_final == is_last, "the end of an onion", place)
            expect(peeled.hop_data.to_bytes()[:-HMAC] == payload, "what a hop finds", place, payload.hex())
            expect(("payment_data" in peeled.hop_data.payload) == is_last, "a secret", place)
            packet = peeled.next_packet


def check(answers, drawn, offline, nodes, count, payments):
    """Payments over one network. How many there were, and the most hops of one."""
    database = offline.database(Database)
    owners, channels, messages = signed.network(drawn, nodes, count)
    network = Network(answers, messages, channels, owners, database)
    points, most = sorted(network.keys), 0
    for _ in range(payments):
        payer, payee = drawn.sample(points, 2)
        most = max(most, network.pay(drawn, payer, payee))
    if count == nodes - 1:  # a line of nodes, so the ends are known
        degrees = [sum(point in ends for ends in network._ends.values()) for point in points]
        ends = [point for point, degree in zip(points, degrees) if degree == 1]
        expect(network.pay(drawn, *ends) == count, "the longest route")
        most = count
    offline.stop(database)
    return payments, most
