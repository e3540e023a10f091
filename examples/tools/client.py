#!/usr/bin/env python3
"""A client that starts `lgm run` and talks to it over two pipes.

    from client import Client

    with Client(chain="c1" * 32, program="crates/lgm/out/lgm", start_seconds=10) as lgm:
        outcomes = lgm.ask([f"m {message} all {capacity}" for message, capacity in announcements])
        lgm.ask(["commit"])
        [route] = lgm.ask([f"route {payer} {payee} {msat} {expiry} {secret}"])

A service gives `program`, a copy of the program that was built. Without it `./lgm` is started, which builds first for
20 to 30 minutes if the sources changed; it reports progress on stderr meanwhile.

A pipe holds some 64 KiB. A client that writes lines without reading answers blocks forever once both pipes are full,
and so does `lgm`. So a thread of the client reads all the time, and lines are written in batches.

Run as a program it announces the channels of examples/payments.txt, commits, asks for a route, and prints the answers:

    python3 examples/tools/client.py [PROGRAM]
"""

import os
import queue
import signal
import subprocess
import sys
import threading
import time
from collections import deque
from pathlib import Path

EXAMPLES = Path(__file__).resolve().parent.parent
LINES = 10_000_000  # that a process answers
END = "end"  # not in the grammar, so it is answered `bad` and has no effect
NEVER = float("inf")
TICK = 0.2  # seconds from one look at the clock to the next


class Ended(Exception):
    """The process has ended: its exit status, and what it wrote to stderr. Unread answers are lost."""


class Late(Ended):
    """The process was ended because the start or an answer took too long."""


class Client:
    """A process of `lgm run`. One thread at a time may use it."""

    def __init__(self, chain, program=EXAMPLES.parent / "lgm", options=(), start_seconds=3600, answer_seconds=600):
        """Starts the process, and returns when it answers. `chain` has 64 hexadecimal digits; `options` are more
        arguments: `--workers`, `1`. The limits are those of the start, and of each `ask`. Raises Ended."""
        self._process = subprocess.Popen(
            [program, "run", "--chain", chain, *options], start_new_session=True,
            stdin=subprocess.PIPE, stdout=subprocess.PIPE, stderr=subprocess.PIPE)
        self.written = 0  # lines, with those that mark an end; after LINES of them the process ends
        self._seconds = answer_seconds
        self._answers = queue.SimpleQueue()
        self._told = deque(maxlen=20)
        self._is_up = self._is_late = False
        self._deadline = NEVER
        self._is_over = threading.Event()
        self._threads = [threading.Thread(target=work, daemon=True) for work in (self._read, self._listen, self._watch)]
        for thread in self._threads:
            thread.start()
        try:
            self._exchange([END], start_seconds)
        except BaseException:
            self.close()
            raise
        self._is_up = True
        self._told.clear()

    def _read(self):
        """Queues the lines of all answers, and None at the end."""
        for line in self._process.stdout:
            self._answers.put(line)
        self._answers.put(None)

    def _listen(self):
        """Keeps the last lines on standard error, and passes on those that come while the process starts."""
        for line in self._process.stderr:
            text = line.decode(errors="replace")
            self._told.append(text)
            if not self._is_up:
                sys.stderr.write(text)

    def _watch(self):
        """Ends the process when it is late."""
        while not self._is_over.wait(TICK):
            if time.monotonic() > self._deadline:
                self._is_late = True
                self._kill()
                return

    def _kill(self):
        """Ends the process, and what it started."""
        if self._process.poll() is None:
            os.killpg(self._process.pid, signal.SIGKILL)

    def ask(self, lines):
        """Writes lines, given without line feeds, and returns a list for each: the lines of its answer, without number.

        The list for a comment or an empty line is empty. The number of lines that answer a query, a filter or a commit
        isn't known in advance, so a last line is written that is answered `bad`: all lines before that belong to the
        answers. Many lines at once cost less than one at a time.

        Raises ValueError, before anything is written, for what is no list of single lines; Ended if the process has
        ended; Late if it took too long.
        """
        if isinstance(lines, (str, bytes)):
            raise ValueError("a text isn't a list of lines: ask([line])")
        lines = [*lines, END]
        for line in lines:
            if not isinstance(line, str) or "\n" in line:
                raise ValueError(f"a line is a text without a line feed, not {line!r:.80}")
        return self._exchange(lines, self._seconds)[:-1]

    def _exchange(self, lines, seconds):
        """Writes lines, and returns their answers up to that of the last one."""
        text = "".join(f"{line}\n" for line in lines).encode()
        first = self.written + 1
        self.written += len(lines)
        answers = [[] for _ in lines]
        self._deadline = time.monotonic() + seconds
        try:
            self._write(text)
            while not answers[-1]:
                answer = self._answers.get()
                if answer is None:
                    self._fail()
                number, words = answer.decode().rstrip("\n").split(" ", 1)
                answers[int(number) - first].append(words)
        except BaseException:
            self._kill()  # what it still answers would be taken for the answers to later lines
            raise
        finally:
            self._deadline = NEVER
        return answers

    def _write(self, text):
        try:
            self._process.stdin.write(text)
            self._process.stdin.flush()
        except BrokenPipeError:
            self._fail()

    def _fail(self):
        """Raises Ended, with the text on standard error, or Late."""
        status = self._process.wait()
        self._threads[1].join()
        told = list(self._told)[-1:] if self._is_up else self._told  # at first also what a build said
        raise Late(status, "too late") if self._is_late else Ended(status, "".join(told).strip())

    def close(self):
        """Ends the script, and waits for the process."""
        self._deadline = time.monotonic() + self._seconds
        try:
            self._process.stdin.close()
        except BrokenPipeError:
            pass
        self._process.wait()
        self._is_over.set()
        for thread in self._threads:
            thread.join()
        self._process.stdout.close()
        self._process.stderr.close()

    def __enter__(self):
        return self

    def __exit__(self, *_):
        self.close()


def main():
    """Announces, commits, asks for a route, and prints the answers."""
    script = [line.strip() for line in open(EXAMPLES / "payments.txt") if line.strip() and not line.startswith("#")]
    gossip = [line for line in script if line.startswith("m ")][:6]
    payment = next(line for line in script if line.startswith("route "))
    with Client("c1" * 32, *sys.argv[1:2]) as lgm:
        print("announced:", *(answer for [answer] in lgm.ask(gossip)))
        [committed], route = lgm.ask(["commit", payment])
        print(committed, *route, sep="\n")


if __name__ == "__main__":
    main()
