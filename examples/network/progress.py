"""Reports progress and messages on stderr; the progress of long work only if that is a terminal."""

import sys
import time

EVERY = 0.5  # seconds


class Progress:
    """Work of a known size, in any unit."""

    is_on_screen = False  # whether a percentage stands in the last line, of whichever work

    def __init__(self, whole):
        self._whole = whole or 1
        self._is_shown = sys.stderr.isatty()
        self._next = time.monotonic() + EVERY

    def at(self, done):
        """Says how much is done, at most twice a second."""
        if self._is_shown and time.monotonic() >= self._next:
            self._next = time.monotonic() + EVERY
            Progress.is_on_screen = True
            print(f"\rnetwork: {100 * done // self._whole} % ", end="", file=sys.stderr, flush=True)

    def over(self, items):
        """The items, as many as the whole, with progress."""
        for count, item in enumerate(items):
            self.at(count)
            yield item
        clear()


def clear():
    """Empties the line of a percentage, so that another text can stand there."""
    if Progress.is_on_screen:
        Progress.is_on_screen = False
        print("\r" + 16 * " " + "\r", end="", file=sys.stderr, flush=True)


def say(text):
    """A line on standard error."""
    clear()
    print(f"network: {text}", file=sys.stderr, flush=True)
