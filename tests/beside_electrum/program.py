"""The program's answers, as they are, or with one of them spoiled; and what a check says of a difference."""

from __future__ import annotations


class Difference(AssertionError):
    """The program and the wallet differ, and no known difference explains it."""


def expect(is_right, what, *details):
    """Raises Difference unless something is right."""
    if not is_right:
        raise Difference(f"{what}: " + ", ".join(f"{detail}" for detail in details))


class Answers:
    """A client's answers."""

    def __init__(self, client):
        self._client = client

    def ask(self, lines):
        """A list of answers for each line, without numbers."""
        return self._client.ask(lines)

    def replies(self, message):
        """The messages that answer a query, in bytes."""
        [answer] = self.ask([f"q {message.hex()}"])
        try:
            return [bytes.fromhex(line) for line in answer]
        except ValueError:
            raise Difference(f"a query isn't answered, but {answer}: {message.hex()}") from None


class Spoiled(Answers):
    """Answers of which one is changed, as a fault of the program would change it."""

    def __init__(self, client, spoil):
        super().__init__(client)
        self._spoil, self.is_spoiled = spoil, False

    def ask(self, lines):
        """The answers, one of them spoiled if it is of the kind."""
        answers = self._client.ask(lines)
        for place, (line, answer) in enumerate(zip(lines, answers)):
            if not self.is_spoiled:
                changed = self._spoil(line, answer)
                self.is_spoiled = changed is not None
                answers[place] = answer if changed is None else changed
        return answers


# Each spoils the answer to a line, or returns None where it isn't of its kind.

def word_for(old, new):
    """One word in the place of another."""
    return lambda _, answer: [new] if answer == [old] else None


def last_digit(kind):
    """Another last digit in the last line of an answer whose line begins like this."""
    def spoil(line, answer):
        if not line.startswith(kind) or not answer or " " not in line or len(answer[-1]) < 20:
            return None
        return [*answer[:-1], answer[-1][:-1] + f"{15 - int(answer[-1][-1], 16):x}"]
    return spoil


def fewer(kind, place):
    """One line less in an answer of at least three."""
    return lambda line, answer: (
        [*answer[:place], *answer[place + 1:]] if line.startswith(kind) and len(answer) > 2 else None)


def more_sent(place):
    """One more in a number of a route: what is sent, or the expiry."""
    def spoil(line, answer):
        if not line.startswith("route ") or not answer or not answer[0].startswith("route "):
            return None
        words = answer[0].split()
        words[place] = str(int(words[place]) + 1)
        return [" ".join(words), *answer[1:]]
    return spoil


def other_id(line, answer):
    """Another id in the first reply to a query of a range."""
    if not line.startswith("q 0107") or not answer or len(answer[0]) < 200:
        return None
    # Behind the type, the chain, two numbers, a byte, a length and the encoding: the first id.
    place = 2 * (2 + 32 + 4 + 4 + 1 + 2 + 1)
    digit = f"{15 - int(answer[0][place + 15], 16):x}"
    return [answer[0][:place + 15] + digit + answer[0][place + 16:], *answer[1:]]
