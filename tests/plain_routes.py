#!/usr/bin/env python3
"""Compares the routes of `lgm` with those of a plain program, which tries all walks, and of a table.

    python3 tests/plain_routes.py [PROGRAM] [--networks N] [--seed N]

Each of 600 random networks has 4 to 6 nodes and 5 to 10 channels, whose terms have few values, so that there are ties, and
bounds around the amounts. A script opens it, asks for six payments together, and for three more with a commit before each,
so that all workers search for one. It is run by 1, 3 and 64 workers, and each text has to be that of the plain program: of
all walks that come to no node twice it takes the best one.

The hostile networks are rows of up to 80 nodes, in which a search without a bound on what it stores at each node would take
minutes: each node has channels to the next twenty, which charge so that many ways are of use. What the payer sends, and over
how many channels, is found in a table of what each node needs for each number of channels.

PROGRAM is ./lgm if left out.
"""

import argparse
import os
import random
import subprocess
import sys
from collections import Counter
from concurrent.futures import ThreadPoolExecutor
from pathlib import Path

HERE = Path(__file__).resolve().parent
sys.path.insert(0, str(HERE.parent))

from gossip.notation import NAMES, TERMS, spelled
from plain_walks import EXPIRY, MOST_CHANNELS, Payment, Road, Terms, best, pair, usable

WORKERS = (1, 3, 64)
SECONDS = 20  # for each run, which takes less than one
GROUP, ALONE = 6, 3  # payments of a random network
LENGTHS = range(4)  # numbers of channels that have to occur, 0 where there is no route
OFTEN = 0.01  # of the payments, each of them


def channel_line(block, start, end):
    """Announces a channel, the lesser node first."""
    return f"m ca({block}x0x0,P{min(start, end)},P{max(start, end)}) all 100000"


def update_line(road):
    """An update of a direction."""
    delta, least, base, millionths, most = road.terms
    terms = f"delta={delta},min={least},base={base},millionths={millionths},max={most}"
    return f"m cu({road.block}x0x0,{int(road.end < road.start)},1,{terms}) P{road.start} -"


def payment_line(payment):
    """Asks for a payment."""
    return f"route P{payment.payer} P{payment.payee} {payment.amount} {EXPIRY} S"


def random_terms(numbers):
    """Terms with few values."""
    usual = TERMS["max"]
    return Terms(numbers.choice((0, 40, 144)), numbers.choice((0, 1, 1, 1, 999, 1000, 1000, 1001)),
                 numbers.choice((0, 0, 0, 1, 100, 200)), numbers.choice((0, 0, 0, 1000, 100_000, 4_294_967_295)),
                 numbers.choice((999, 1000, 1100, 1200, usual, usual, usual, usual)))


def random_roads(numbers):
    """The directions of a network, of whose channels three in four join neighbours. Each has one or both."""
    nodes, channels = numbers.randrange(4, 7), numbers.randrange(5, 11)
    roads = []
    for block in range(channels):
        first, second = pair(numbers, nodes)
        if numbers.randrange(4):
            first = second - 1
        which = numbers.randrange(4)
        roads += [Road(block, first, second, random_terms(numbers))] * (which != 0)
        roads += [Road(block, second, first, random_terms(numbers))] * (which != 1)
    return roads


def random_payment(numbers):
    """About 1,000 msat between two of the first five nodes."""
    ends = pair(numbers, 5)
    payer, payee = ends if numbers.randrange(2) else reversed(ends)
    return Payment(payer, payee, numbers.choice((1, 999, 1000, 1000, 1000, 1001)))


def record(kind, number, front=""):
    """A field of an onion payload: its number without leading zero bytes, behind these digits."""
    digits = front + number.to_bytes((number.bit_length() + 7) // 8, "big").hex()
    return f"{kind:02x}{len(digits) // 2:02x}{digits}"


def hop(step, following):
    """The line of a hop, with the payload for the node at its far end: the next channel, or the payment's secret."""
    carried = following or step
    payload = record(2, carried.amount) + record(4, carried.expiry)
    payload += f"0608{following.block:06x}0000000000" if following else record(8, step.amount, NAMES["S"])
    return f"hop {step.block}x0x0 {len(payload) // 2:02x}{payload}"


def answer(steps):
    """The lines that answer a payment."""
    if not steps:
        return ["no-route"]
    front = f"route {steps[0].amount} {steps[0].expiry} {len(steps)}"
    return [front, *(hop(step, following) for step, following in zip(steps, [*steps[1:], None]))]


def network_lines(roads):
    """The lines that announce channels, each before its updates."""
    lines, seen = [], set()
    for road in roads:
        if road.block not in seen:
            lines.append(channel_line(road.block, road.start, road.end))
        seen.add(road.block)
        lines.append(update_line(road))
    return lines


def case(roads, payments):
    """The lines of a script over a network, with those that answer each: of the payments all but the last come together."""
    found = [(line, ["accepted"]) for line in network_lines(roads)]
    commit = ("commit", [f"commit {len(found)}"])
    found.append(commit)
    for count, payment in enumerate(payments):
        found += [commit] * (count >= GROUP)
        found.append((payment_line(payment), answer(best(usable(roads, payment)))))
    return found


def text_of(found):
    """A script, and its text."""
    script = "".join(f"{spelled(line)}\n" for line, _ in found)
    text = "".join(f"{number} {line}\n" for number, (_, lines) in enumerate(found, 1) for line in lines)
    return script.encode(), text.encode()


def written(program, script, workers):
    """What is written for a script."""
    words = [program, "run", "--chain", NAMES["H"], "--workers", str(workers)]
    try:
        return subprocess.run(words, input=script, stdout=subprocess.PIPE, timeout=SECONDS, check=True).stdout
    except subprocess.TimeoutExpired:
        return b"nothing in time"
    except subprocess.CalledProcessError as fault:
        return f"a fault: {fault}".encode()


def difference(found, text):
    """The first line that differs from what a case has, and its answers."""
    number = 0
    wanted = [(f"{number} {line}", number) for number, (_, lines) in enumerate(found, 1) for line in lines]
    for (line, number), other in zip(wanted, [*text.decode().splitlines(), *["nothing"] * len(wanted)]):
        if line != other:
            return f"line {number}, {found[number - 1][0]}: expected\n    {line}\nand found\n    {other}"
    return "there are more lines than expected"


def objections(program, name, found):
    """What is wrong with the texts of a case, and its script."""
    script, want = text_of(found)
    texts = {workers: written(program, script, workers) for workers in WORKERS}
    wrong = [f"{name}, {workers} workers: {difference(found, text)}" for workers, text in texts.items() if text != want]
    return [*wrong, "of the script", *(f"    {line}" for line, _ in found)] if wrong else []


def convex(step, number):
    """1,000 msat times the square of the step, and a little more."""
    return Terms(base=step * step * 1000 + number * 7919 % 1000)


def by_millionths(step, number):
    """The same for the proportional fee."""
    return Terms(millionths=step * step * 100 + number * 7919 % 1000)


def equal(_step, _number):
    """1,000 msat."""
    return Terms(base=1000)


# The last node of the row, how many channels are side by side, and what each charges.
HOSTILE = ((80, 1, convex), (80, 1, by_millionths), (40, 3, convex), (80, 3, equal))
SENT = 1_000_000  # msat, to the last node


def hostile_roads(last, beside, charges):
    """Channels along a row from node 1 on, from each node to the next twenty; and before them those of the payer, node 0, to
    the row's first node and to all nodes behind the last one."""
    roads = [Road(block, 0, end) for block, end in enumerate((1, *range(last + 1, 251)), 1)]
    joins, number = len(roads), 0
    for start in range(1, last):
        for step in range(1, min(MOST_CHANNELS, last - start) + 1):
            for _ in range(beside):
                number += 1
                roads.append(Road(joins + number, start, start + step, charges(step, number)))
    return roads


def least(roads, last):
    """What the payer sends at least, and over how many channels: by what each node needs over one more channel each time."""
    needs, best = {last: SENT}, None
    for count in range(1, MOST_CHANNELS + 1):
        more = {}
        for road in roads:
            if road.end in needs:
                need = needs[road.end] if road.start == 0 else road.terms.needed(needs[road.end])
                more[road.start] = min(need, more.get(road.start, need))
        needs = more
        if 0 in needs and (best is None or needs[0] < best[0]):
            best = needs[0], count
    return best


def hostile_objections(program, last, beside, charges):
    """What is wrong with the routes of three payments over a hostile network, two together and one alone."""
    roads = hostile_roads(last, beside, charges)
    pay = payment_line(Payment(0, last, SENT))
    script, _ = text_of([(line, ()) for line in (*network_lines(roads), "commit", pay, pay, "commit", pay)])
    sent, count = least(roads, last)
    want = f" route {sent} {EXPIRY + TERMS['delta'] * (count - 1)} {count}"
    wrong = []
    for workers in WORKERS:
        text = written(program, script, workers).decode()
        found = [line for line in text.splitlines() if not line.endswith(" accepted") and " hop " not in line]
        routes = [line for line in found if line.endswith(want)]
        if len(routes) != 3:
            name = f"{last} nodes, {beside} side by side, {charges.__name__}, {workers} workers"
            wrong.append(f"{name}: not thrice\n   {want}\nbut\n    {'; '.join(found)}")
    return wrong


def main():
    """Takes the arguments, and compares all networks."""
    parser = argparse.ArgumentParser(description=__doc__, formatter_class=argparse.RawDescriptionHelpFormatter)
    parser.add_argument("program", nargs="?", default=str(HERE.parent / "lgm"))
    parser.add_argument("--networks", type=int, default=600, metavar="N", help="so many random ones")
    parser.add_argument("--seed", type=int, default=1, metavar="N", help="other random ones")
    given = parser.parse_args()
    program, numbers = str(Path(given.program).resolve()), random.Random(given.seed)
    lengths, pending = Counter(), []
    with ThreadPoolExecutor(len(os.sched_getaffinity(0))) as pool:
        for hostile in HOSTILE:
            pending.append(pool.submit(hostile_objections, program, *hostile))
        for count in range(given.networks):
            roads = random_roads(numbers)
            found = case(roads, [random_payment(numbers) for _ in range(GROUP + ALONE)])
            lengths.update(len(lines) - 1 for line, lines in found if line.startswith("route"))
            pending.append(pool.submit(objections, program, f"network {count} of seed {given.seed}", found))
        wrong = [found for found in (task.result() for task in pending) if found]
    for found in wrong:
        print(*found, sep="\n")
    print("routes by their number of channels:", ", ".join(f"{count}: {lengths[count]}" for count in sorted(lengths)))
    rare = [count for count in LENGTHS if lengths[count] < OFTEN * (GROUP + ALONE) * given.networks]
    print(*(f"too few routes of {count} channels" for count in rare), sep="\n", end="\n" if rare else "")
    failed = len(wrong) + len(rare)
    print(f"{len(pending) - len(wrong)} passed, {failed} failed")
    sys.exit(1 if failed else 0)


if __name__ == "__main__":
    main()
