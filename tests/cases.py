"""The cases of tests/scripts: scripts with their answers. tests/texts.py says how they are written."""

import ast
import re
import sys
from itertools import product
from pathlib import Path
from typing import NamedTuple

sys.path.insert(0, str(Path(__file__).resolve().parent.parent))

from gossip.notation import CHAINS, NAMES, numbered, span, spelled

WORKERS = ("1", "3", "64")
INDENT = "    "
_QUOTED = re.compile(r'"(?:[^"\\]|\\.)*"')
_WORD = re.compile(r'"(?:[^"\\]|\\.)*"|\[[^\]]*\]|\S+')
_REPEATED = re.compile(r"(each|times) (\S+) (.*)")


class Fault(Exception):
    """What is wrong in a file, and where."""


class Line(NamedTuple):
    """A line of a script in a file, with its number there, and the numbers and texts of the lines that answer it."""

    number: int
    text: str
    answers: list


class Group:
    """Lines of the file that are in the script `once`, come together for `each` number, or are the same so many `times`."""

    def __init__(self, kind, numbers):
        self.kind, self.numbers, self.lines = kind, numbers, []

    def add_to(self, script):
        """Adds the lines to a script."""
        if self.kind == "each":
            for number in self.numbers:
                for line in self.lines:
                    for text, answers in lines_of(with_number(line, number)):
                        script.add(text, answers)
            return
        found = lines_of(self.lines[0])
        if self.kind == "times" and len(found) > 1:
            raise ValueError("two lines aren't the same line")
        for text, answers in found:
            script.add(text, answers, len(self.numbers))


class Run(NamedTuple):
    """A run of a script: its command line, and how it is called in a report."""

    words: list
    name: str
    is_in_pieces: bool


class Script:
    """The bytes of a script, and the lines that it is answered by, each behind the number of its line in the file. Of
    lines of the file that are there once `numbers` has the numbers in the script."""

    def __init__(self):
        self.text, self.answers, self.count, self.numbers = bytearray(), [], 0, {}

    def add(self, line, answers, times=1):
        """Adds a line with its answers so often."""
        self.text += (line + b"\n") * times
        if answers:
            for number in range(self.count + 1, self.count + 1 + times):
                self.answers += [(place, b"%d %b\n" % (number, answer)) for place, answer in answers]
        self.count += times

    def output(self):
        """What is written."""
        return b"".join([answer for _, answer in self.answers])


def literal(text):
    """The bytes that are quoted."""
    if not (_QUOTED.fullmatch(text) and text.isascii()):
        raise ValueError(f"{text} isn't quoted as bytes of Python are")
    try:
        return ast.literal_eval("b" + text)
    except SyntaxError as fault:
        raise ValueError(f"{text}: {fault.msg}") from fault


def opened(text):
    """The two lines of a channel that is open in one direction."""
    _, scid, first, second, *terms = text.split(" ")
    update = ",".join((scid, "0", "1", *terms))
    return [f"m ca({scid},{first},{second}) all 100000", f"m cu({update}) {first} -"]


def is_open(text):
    """Whether a line of the file is two of the script, which are both accepted."""
    return text.startswith("open ")


def lines_of(line):
    """What a line of the file stands for: lines of the script, each with its answers."""
    if is_open(line.text):
        return [(spelled(text).encode(), [(line.number, b"accepted")]) for text in opened(line.text)]
    answers = [(number, spelled(text).encode()) for number, text in line.answers]
    return [(literal(line.text) if line.text.startswith('"') else spelled(line.text).encode(), answers)]


def with_number(line, number):
    """A line of the file with a number in its places."""
    return Line(line.number, numbered(line.text, number), [(place, numbered(text, number)) for place, text in line.answers])


def words_of(text):
    """The words of a command line, spelled out."""
    return [literal(word) if word.startswith('"') else spelled(word).encode() for word in _WORD.findall(text)]


class Case:
    """What a case says."""

    def __init__(self, path, number, sentence):
        self.path, self.number, self.sentence = path, number, sentence
        self.options, self.groups = {}, []

    def fault(self, number, why):
        """What is wrong in a line of the file."""
        return Fault(f"{self.path.name}:{number}: {why}")

    def values(self, name, *usual):
        """The values of an option, which are separated by commas; those of several command lines."""
        given = [value for _, value in self.options.get(name, ())]
        return given if name == "words" else given[0].split(", ") if given else usual

    def value(self, name, usual):
        """The only value of an option."""
        return self.options[name][0][1] if name in self.options else usual

    def place(self, name):
        """The number of an option's line, or of the case's own."""
        return self.options[name][0][0] if name in self.options else self.number

    def add_option(self, number, text):
        """Adds an option."""
        name, _, value = text.partition(" ")
        if name not in OPTIONS:
            raise self.fault(number, f"there is no option {name}")
        if name in self.options and name != "words":
            raise self.fault(number, f"the option {name} is there twice")
        if self.groups:
            raise self.fault(number, "an option behind a line of the script")
        if not OPTIONS[name](value):
            raise self.fault(number, f"the option {name} can't be {value or 'empty'}")
        self.options.setdefault(name, []).append((number, value))

    def add_line(self, number, text):
        """Adds a line of the script, without its answers."""
        if text.startswith("and "):
            if not self.groups or self.groups[-1].kind != "each":
                raise self.fault(number, "nothing is repeated above this line")
            text = text[4:]
        elif found := _REPEATED.fullmatch(text):
            try:
                numbers = span(found[2]) if found[1] == "each" else range(int(found[2]))
            except ValueError as fault:
                raise self.fault(number, fault) from fault
            self.groups.append(Group(found[1], numbers))
            text = found[3]
        else:
            self.groups.append(Group("once", range(1)))
        self.groups[-1].lines.append(Line(number, text, []))

    def add_answer(self, number, text):
        """Adds a line of the answer to the last line."""
        if not self.groups:
            raise self.fault(number, "an answer behind no line")
        line = self.groups[-1].lines[-1]
        if is_open(line.text):
            raise self.fault(number, "open has its answers")
        line.answers.append((number, text))

    def check(self):
        """Raises what is wrong with the options together."""
        others = sorted({"command", "known", "workers", "chain"} & self.options.keys())
        if "words" in self.options and others:
            raise self.fault(self.place("words"), f"the words are given, and so is {others[0]}")
        try:
            self.runs()
        except ValueError as fault:
            raise self.fault(self.place("words"), fault) from fault

    def script(self):
        """The script, and its answers."""
        script = Script()
        for group in self.groups:
            line = group.lines[0]
            if group.kind == "once" and not is_open(line.text):
                script.numbers[line.number] = script.count + 1
            try:
                group.add_to(script)
            except ValueError as fault:
                raise self.fault(line.number, fault) from fault
        if "no" in self.options:
            del script.text[-1:]
        return script

    def runs(self):
        """The runs of the script."""
        if "words" in self.options:
            return [Run(words_of(words), f"lgm {words}", True) for words in self.values("words")]
        command, runs = self.value("command", "run"), []
        for chain, known, workers in product(self.values("chain", "H"), self.values("known", "all"),
                                             self.values("workers", *WORKERS)):
            words = [command, "--chain", NAMES.get(chain, chain), "--workers", workers]
            if known != "all":
                words += ["--known", known]
            varied = {"chain": chain, "known": known}
            name = [f"--workers {workers}", *(f"--{it} {varied[it]}" for it in varied if it in self.options)]
            runs.append(Run(words, " ".join(name), workers == "3"))
        return runs

    def error_fault(self, error):
        """What is wrong with the bytes of standard error, if anything is."""
        wanted = self.value("error", None)
        if wanted is None:
            return "" if not error else "standard error isn't empty"
        how, _, text = wanted.partition(" ")
        if how == "begins":
            return "" if error.startswith(text.encode()) else f"standard error doesn't begin so: {text}"
        if how == "ends":
            return "" if error.endswith(text.encode() + b"\n") else f"standard error doesn't end so: {text}"
        return "" if error == wanted.encode() + b"\n" else f"standard error isn't this: {wanted}"


def is_list(pattern):
    """Whether a value is a list of such words."""
    return lambda value: all(re.fullmatch(pattern, word) for word in value.split(", "))


OPTIONS = {
    "command": ("run", "live").__contains__,
    "known": is_list(r"all|[0-9a-fA-F]+"),
    "workers": is_list(r"[1-9]\d*"),
    "chain": is_list("|".join((*CHAINS, "[0-9a-fA-F]{64}"))),
    "status": re.compile(r"\d+").fullmatch,
    "error": bool,
    "words": lambda value: True,
    "no": "end".__eq__,
}


def take(cases, path, number, text):
    """Takes what a line of a file says, into its cases."""
    where = cases[-1] if cases else Case(path, number, "")
    if text != text.rstrip():
        raise where.fault(number, "a space at the end, which isn't seen: quote the line")
    if text.startswith("== "):
        cases.append(Case(path, number, text[3:]))
    elif not text or text.startswith("//") or not cases:
        return
    elif text.startswith("- "):
        where.add_option(number, text[2:])
    elif text.startswith(INDENT) and text[4] != " ":
        where.add_answer(number, text[4:])
    elif text[0] in " \t":
        raise where.fault(number, "neither at the left edge nor indented by four spaces")
    else:
        where.add_line(number, text)


def cases_of(path):
    """The cases of a file."""
    lines = path.read_text(encoding="utf-8").split("\n")
    cases = []
    for number, text in enumerate(lines, 1):
        take(cases, path, number, text)
    if not cases:
        raise Fault(f"{path.name}: there is no case")
    if lines[0].startswith("== ") or not lines[0]:
        raise Fault(f"{path.name}:1: the file doesn't say what it is about")
    for case in cases:
        case.check()
    return cases


def shortened(word, words):
    """A word of an answer in the notation, as far as it stands in the case, or has a chain or the secret."""
    if word in words:
        return words[word]
    text = word
    for name in (*CHAINS, "S"):
        text = text.replace(NAMES[name], f" {name} ")
    return word if text == word else f"[{text.strip()}]"


def updated(case, output):
    """The answers that an output has for lines of the file that are there once, by the numbers of these lines. Answers
    that are right stay as they are written."""
    script, given, found, words = case.script(), {}, {}, {}
    for group in case.groups:
        for line in group.lines:
            given[line.number] = [text for _, text in line.answers]
            if group.kind == "once" and not line.text.startswith('"'):
                words.update((spelled(word), word) for word in _WORD.findall(line.text) if word[-1] in ")]")
    for answer in output.decode().splitlines():
        number, _, text = answer.partition(" ")
        found.setdefault(int(number), []).append(text)
    answers = {}
    for place, number in script.numbers.items():
        known = {spelled(text): text for text in given[place]}
        answers[place] = [known.get(text) or " ".join([shortened(word, words) for word in text.split(" ")])
                          for text in found.get(number, [])]
    return answers
