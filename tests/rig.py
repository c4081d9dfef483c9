#!/usr/bin/env python3
"""Answers as the program `planner` does, by docs/CALLS.md and docs/PAGE.md.

    python3 tests/rig.py < tests/rig_day.txt

Files that are saved are kept in memory: nothing is written, and what was not saved in the same run cannot be loaded.
"""
import sys

from sheet import SINGLE_KINDS, Refused, Sheet, bound_numbers

SMALL = 65535
LARGE = 4294967295

REASONS = {
    1: "a matrix has 1 to 16 setups",
    2: "a matrix has one number for each setup and each setup after it",
    3: "from setup {0} to setup {1} takes more than 10000 minutes",
    4: "from setup {0} to setup {1} takes longer than by way of setup {2}",
    5: "a card has a number from 1 to 32",
    6: "card {0} is on the sheet already",
    7: "card {0} is not on the sheet",
    8: "the matrix has no setup {0}",
    9: "a job takes 1 to 100000 minutes",
    10: "a window ends by minute 1000000",
    11: "from {0} to {1} there is no room for the job",
    12: "from {0} to {1} is not inside the posted window",
}


class Unread(Exception):
    """A line that cannot be read, and why."""


class Words:
    """The words of a line after the command, read from the left."""

    def __init__(self, words):
        self.words = words

    def next(self, missing):
        if not self.words:
            raise Unread(missing)
        return self.words.pop(0)

    def number(self, top):
        word = self.next("a number is missing")
        digits = word.isascii() and word.isdigit()
        if not digits or len(word.lstrip("0")) > 10 or int(word) > top:
            raise Unread(f"{word} is no whole number from 0 to {top}")
        return int(word)

    def kind(self):
        word = self.next("a kind of bound is missing")
        if word == "larger":
            return f"larger {self.single_kind()} {self.single_kind()}"
        self.words.insert(0, word)
        return self.single_kind()

    def single_kind(self):
        word = self.next("a kind of bound is missing")
        if word not in SINGLE_KINDS:
            raise Unread(f"there is no bound {word}")
        return word

    def end(self):
        if self.words:
            raise Unread(f"nothing may follow, but {self.words[0]} does")


class Rig:
    def __init__(self):
        self.sheet, self.files = Sheet(), {}
        self.commands = {
            "make": self.make, "bounds": self.bounds, "post": self.post, "narrow": self.narrow, "withdraw": self.withdraw,
            "look": self.look, "settle": self.settle, "show": self.show, "save": self.save, "load": self.load,
        }

    def answer(self, number, line):
        """The lines that answer this line (bytes, without its end), which is the number-th."""
        try:
            return self.run(line)
        except Unread as why:
            return [f"unread {number} {why}"]
        except Refused as no:
            reason = REASONS[no.number].format(*no.values)
            return [" ".join(map(str, ("refused", no.number) + no.values + (reason,)))]

    def run(self, line):
        try:
            text = line.decode("utf-8")
        except UnicodeDecodeError:
            raise Unread("the line is not text") from None
        words = text.split("#")[0].split()
        if not words:
            return []
        if words[0] not in self.commands:
            raise Unread(f"there is no command {words[0]}")
        return self.commands[words[0]](Words(words[1:]))

    # Each command reads all its words before it calls.

    def make(self, words):
        m, numbers = words.number(SMALL), []
        while words.words:
            numbers.append(words.number(SMALL))
        self.sheet.make(m, numbers)
        return [f"made {m}"]

    def bounds(self, words):
        words.end()
        answer = []
        for kind in SINGLE_KINDS + ["larger least walk"]:
            numbers = bound_numbers(kind, self.sheet.matrix)
            answer.append(" ".join(map(str, [kind.split()[0]] + numbers)))
        return answer

    def post(self, words):
        values = [words.number(SMALL), words.number(SMALL)] + [words.number(LARGE) for _ in range(3)]
        words.end()
        self.sheet.post(*values)
        return [f"posted {values[0]}"]

    def narrow(self, words):
        card, early, late = words.number(SMALL), words.number(LARGE), words.number(LARGE)
        words.end()
        self.sheet.narrow(card, early, late)
        return [f"narrowed {card}"]

    def withdraw(self, words):
        card = words.number(SMALL)
        words.end()
        self.sheet.withdraw(card)
        return [f"withdrawn {card}"]

    def look(self, words):
        card = words.number(SMALL)
        words.end()
        posted, held, status = self.sheet.look(card)
        return [" ".join(map(str, ("window",) + posted + held + (status,)))]

    def settle(self, words):
        kind = words.kind()
        words.end()
        status, rounds, cause = self.sheet.settle(kind)
        return [" ".join(map(str, (status, rounds) + (cause or ())))]

    def show(self, words):
        words.end()
        return self.sheet.lines()

    def save(self, words):
        name = words.next("a file is missing")
        words.end()
        self.files[name] = self.sheet.page()
        return ["saved"]

    def load(self, words):
        name, kind = words.next("a file is missing"), words.kind()
        words.end()
        if name not in self.files:
            return ["unloaded there is no such file"]
        refusal = self.sheet.load(self.files[name], kind)
        return self.sheet.lines() if refusal is None else [" ".join(map(str, ("refused",) + refusal))]


def answers(text):
    """All that is written for this input; both are bytes."""
    rig, written = Rig(), []
    lines = text.split(b"\n")
    if lines[-1] == b"":
        lines.pop()
    for number, line in enumerate(lines, 1):
        written += rig.answer(number, line)
    return "".join(line + "\n" for line in written).encode("utf-8")


if __name__ == "__main__":
    sys.stdout.buffer.write(answers(sys.stdin.buffer.read()))
