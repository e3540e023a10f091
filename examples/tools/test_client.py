#!/usr/bin/env python3
"""Tests client.py beside a process of `lgm run`.

    python3 examples/tools/test_client.py [PROGRAM]
"""

import contextlib
import io
import sys
import tempfile
import time
from pathlib import Path

sys.dont_write_bytecode = True  # the repository gets no made files

from client import Client, Ended, Late

EXAMPLES = Path(__file__).resolve().parent.parent
PROGRAM = sys.argv[1] if len(sys.argv) > 1 else EXAMPLES.parent / "lgm"
CHAIN = "c1" * 32


def script(name):
    """The lines of an example that ask something."""
    return [line for line in (EXAMPLES / name).read_text().splitlines() if line and not line.startswith("#")]


def answers_have_ends():
    """Replies, backlogs and news of any length come with the line that they belong to."""
    lines = script("queries.txt")
    stored = [line.split(" ", 1)[1] for line in (EXAMPLES / "queries.out").read_text().splitlines()]
    with Client(CHAIN, PROGRAM) as lgm:
        together = lgm.ask(lines)
    with Client(CHAIN, PROGRAM) as lgm:
        apart = [lgm.ask([line])[0] for line in lines]
    assert together == apart and sum(together, []) == stored
    assert max(map(len, together)) > 1


def many_lines_do_not_stick():
    """Far more lines than both pipes hold are answered."""
    with Client(CHAIN, PROGRAM) as lgm:
        assert lgm.ask(["close 1x0x0"] * 100_000) == [["unknown-channel"]] * 100_000
        assert lgm.ask(["", "# a comment", "commit"]) == [[], [], ["commit 0"]]
        assert lgm.written == 100_006  # with three that mark an end


def accepted_items_make_the_map_again():
    """A new process that gets the accepted items alone answers as the old one, bans included."""
    asked = ["commit", f"q 0107{CHAIN}00000000ffffffff010101", f"filter 0 0109{CHAIN}00000000ffffffff"]
    lines = script("announcements.txt") + script("map.txt")
    with Client(CHAIN, PROGRAM) as lgm:
        outcomes = lgm.ask(lines)
        before = lgm.ask(asked)
    kept = [line for line, answer in zip(lines, outcomes) if answer == ["accepted"]]
    assert 1 < len(kept) < len(lines)
    with Client(CHAIN, PROGRAM) as lgm:
        assert lgm.ask(kept) == [["accepted"]] * len(kept)
        after = lgm.ask(asked)
        again = lgm.ask([line for line, answer in zip(lines, outcomes) if answer == ["banned"]])
    assert before == after and again == [["banned"]] * len(again) != []


def verdicts_are_asked_for():
    """The table of docs/questions.md: what `signature` and `funding` refuse, and that the right verdict helps."""
    channel, update = (line.split()[1] for line in script("payments.txt")[:2])
    node = script("payments.txt")[1].split()[2]
    other = node[:2] + "0b" * 32
    with Client(CHAIN, PROGRAM) as lgm:
        outcomes = [
            *lgm.ask(f"m {channel} all {funding}" for funding in ("-", "spent", "wrong")),
            *lgm.ask(f"m {channel} {sig} 100000" for sig in ("not-all", "nobody", node, "all")),
            *lgm.ask(f"m {update} {sig} -" for sig in ("all", "nobody", other, node))]
    assert outcomes == [["funding"]] * 3 + 2 * ([["signature"]] * 3 + [["accepted"]])


def no_news_is_lost_by_a_restart():
    """The recipes of docs/operating.md: after a last `commit` no news is left, after a crash the new process has it."""
    gossip = [line for line in script("payments.txt") if line.startswith("m ")][:6]
    before, after, filters = gossip[:2], gossip[2:], [f"filter 0 0109{CHAIN}00000000ffffffff"]
    with Client(CHAIN, PROGRAM) as lgm:
        lgm.ask([*before, "commit", *filters, *after])
        [[_, *news]] = lgm.ask(["commit"])
    assert len(news) == 4
    with Client(CHAIN, PROGRAM) as lgm:
        lgm.ask([*before, *after, "commit", *filters])
        assert lgm.ask(["commit"]) == [["commit 6"]]
    with Client(CHAIN, PROGRAM) as lgm:
        lgm.ask([*before, "commit", *filters])
        assert lgm.ask([*after, "commit"])[-1] == ["commit 6", *news]


def a_private_channel_is_for_a_map_of_its_own():
    """Why docs/questions.md warns of it: a map has the channel until its close, and an id that is there bans nodes."""
    lines = script("payments.txt")
    gossip = [line for line in lines if line.startswith("m ")][:6]
    payment = next(line for line in lines if line.startswith("route "))
    private, terms = gossip[4:]
    clash = private.replace("0927c20000030000", "0927c00000010000")  # the id of the first channel
    with Client(CHAIN, PROGRAM) as lgm:
        lgm.ask([*gossip[:4], "commit"])
        for _ in range(2):
            found = lgm.ask([private, terms, "commit", payment, "close 600002x3x0", "commit", payment])
            assert found[3][0].startswith("route ") and found[6] == ["no-route"]
        assert lgm.ask([clash, private])[1] == ["banned"] and clash != private


def a_channel_is_taken_out_for_a_payment():
    """A close and the same messages again: no route goes over the channel, then one does, and peers get them anew."""
    lines = script("payments.txt")
    gossip = [line for line in lines if line.startswith("m ")][:6]
    payment = next(line for line in lines if line.startswith("route "))
    own = gossip[2:4]
    asked = f"q 0105{CHAIN}0009000927c10000020001"
    with Client(CHAIN, PROGRAM) as lgm:
        before = lgm.ask([*gossip, "commit", payment, f"filter 0 0109{CHAIN}00000000ffffffff"])[7]
        closed = lgm.ask(["close 600001x2x1", "commit", payment, asked])
        again = lgm.ask([*own, "commit", payment])
    assert closed == [["accepted"], ["commit 7"], ["no-route"], [f"0106{CHAIN}01"]]
    news = [f"to 0 {line.split()[1]}" for line in own]
    assert again == [["accepted"], ["accepted"], ["commit 9", *news], before] and before[0].startswith("route ")


def a_ping_and_a_ban():
    """What docs/operating.md says: a line that isn't in the grammar is answered; the item that bans is `accepted`."""
    channel = script("payments.txt")[0]
    nodes = channel.split()[1][600:732]
    other = channel.replace(nodes, "02" + "1a" * 32 + "02" + "1b" * 32)
    with Client(CHAIN, PROGRAM) as lgm:
        assert lgm.ask(["ping", channel, other, channel, other, "close 600000x1x0"]) == [
            ["bad"], ["accepted"], ["accepted"], ["banned"], ["banned"], ["unknown-channel"]]


def an_end_is_told():
    """A process that has ended says why."""
    lgm = Client(CHAIN, PROGRAM)
    try:
        lgm.ask(["#" * 140_001])
        raise AssertionError("the process goes on")
    except Ended as ended:
        assert ended.args == (1, "lgm: line too long"), ended.args


def raised(kind, call):
    """The exception that a call raises."""
    try:
        call()
    except kind as fault:
        return fault
    raise AssertionError(f"no {kind.__name__}")


def what_is_no_list_of_lines_is_refused():
    """Nothing of it is written, and the client continues."""
    with Client(CHAIN, PROGRAM) as lgm:
        for lines in ("commit", b"commit", ["commit\n"], ["commit", "q 0105\ncommit"], [b"commit"], ["\ud800"]):
            raised(ValueError, lambda: lgm.ask(lines))
        assert lgm.ask(["commit"]) == [["commit 0"]]
        assert lgm.written == 3


def a_start_is_told_and_has_a_limit():
    """What a program says while it starts is passed on; one that doesn't start, or doesn't answer, is ended in time."""
    with tempfile.TemporaryDirectory() as folder:
        def program(text):
            path = Path(folder) / "program"
            path.write_text(f"#!/bin/sh\n{text}\n")
            path.chmod(0o755)
            return path

        told = io.StringIO()
        with contextlib.redirect_stderr(told):
            with Client(CHAIN, program(f'seq 100000 >&2; exec "{Path(PROGRAM).resolve()}" "$@"')) as lgm:
                assert lgm.ask(["commit"]) == [["commit 0"]]
            assert told.getvalue().startswith("1\n2\n") and len(told.getvalue()) > 400_000  # far more than a pipe holds
            ended = raised(Ended, lambda: Client(CHAIN, program("echo no >&2; exit 3")))
        assert ended.args == (3, "no"), ended.args
        begun = time.monotonic()
        raised(Late, lambda: Client(CHAIN, program("sleep 60 & wait"), start_seconds=1))
        with Client(CHAIN, program("echo 1 bad; exec sleep 60"), answer_seconds=1) as lgm:
            raised(Late, lambda: lgm.ask(["#" * 100_000] * 10))
            raised(Ended, lambda: lgm.ask(["commit"]))
        assert time.monotonic() - begun < 30


def main():
    """Runs each test."""
    tests = (answers_have_ends, many_lines_do_not_stick, accepted_items_make_the_map_again,
             verdicts_are_asked_for, no_news_is_lost_by_a_restart, a_private_channel_is_for_a_map_of_its_own,
             a_channel_is_taken_out_for_a_payment, a_ping_and_a_ban, an_end_is_told,
             what_is_no_list_of_lines_is_refused, a_start_is_told_and_has_a_limit)
    for test in tests:
        test()
    print(f"{len(tests)} passed")


if __name__ == "__main__":
    main()
