#!/usr/bin/env python3
"""Writes short days of commands for the program `planner`, the same every time: tests/rig_day.txt, and the answers to tests/rig_day.out.

    python3 tests/rig_cases.py

Every refusal from 1 to 12, every kind of overload on both faces and every sort of line that cannot be read (but for want of memory)
is among the answers.
"""
import os
import random
import re

from page_cases import cuts, ends, find, full_day, random_sheet
from rig import Rig, answers
from sheet import CARDS, KINDS

H = 1_000_000
SEED = 47
FOLDER = os.path.dirname(os.path.abspath(__file__))
BEFORE_MAKE = ["show", "bounds", "settle walk", "show", "look 1", "post 1 1 10 0 49", "post 3 1 10 0 49", "show", "settle least",
               "look 3", "post 2 2 1 0 9", "withdraw 1", "show"]

# The examples of docs/RULES.md and docs/PAGE.md.
EXAMPLES = """
make 2 0 3 2 0
post 1 1 4 0 10
post 2 2 5 0 10
settle walk
withdraw 1
post 1 1 4 0 11
settle walk
show
make 1 10
post 1 1 10 0 49
post 2 1 10 0 49
post 3 1 10 0 49
settle walk
settle none
make 1 0
post 1 1 3 0 8
post 2 1 3 0 8
post 3 1 4 3 20
settle none
look 3
make 1 0
post 1 1 4 3 12
post 2 1 5 0 15
post 3 1 5 0 15
settle none
look 1
make 1 0
post 1 1 4 0 9
post 2 1 4 0 9
post 3 1 3 0 20
settle none
look 3
make 3 0 1 1 0 0 1 0 0 0
post 1 1 1 1 2
post 2 2 2 0 5
post 3 3 2 2 6
settle none
""".split("\n")[1:-1]


# Commands that are refused: for each number some, as lines, for the sheet as it stands.

def refusals(rng, sheet):
    m, on = sheet.m, list(sheet.jobs)
    free = [card for card in range(1, CARDS + 1) if card not in on]
    card, other = rng.choice(on or [1]), rng.choice(free)
    early, late = sheet.jobs[card].posted if on else (0, 1)
    length = sheet.jobs[card].duration if on else 1
    lines = {
        1: ["make 0", "make 17", "make 65535 1 2 3", "make 0 10001"],
        2: ["make 2 0 1 1", "make 3", "make 1 0 0", "make 2 0 10001 3", "make 16 0"],
        3: ["make 2 0 10001 5 0", "make 1 65535", "make 3 0 1 1 1 0 1 1 10002 10001", "make 2 9 1 1 10001"],
        4: ["make 3 0 9 1 2 0 2 2 2 0", "make 2 9 1 1 0", "make 2 0 3 2 6", "make 3 0 2 2 2 0 5 2 2 0"],
        5: ["look 0", "look 33", "withdraw 0", "withdraw 65535", "narrow 33 5 4", "narrow 0 0 9", "post 0 0 0 9 1", "post 33 1 1 0 9"],
        7: [f"look {other}", f"withdraw {other}", f"narrow {other} 9 1", f"narrow {other} 0 {H + 1}"],
        8: [f"post {other} 0 5 0 9", f"post {other} {m + 1} 0 9 1", f"post {other} 65535 5 0 9"],
        9: [f"post {other} 1 0 0 9", f"post {other} {m} 100001 0 {H + 1}", f"post {other} 1 4294967295 9 1"],
        10: [f"post {other} 1 5 0 {H + 1}", f"post {other} {m} 1 4294967295 4294967295", f"post {other} 1 100000 {H + 9} {H + 8}"],
        11: [f"post {other} 1 5 9 8", f"post {other} {m} 5 4 8", f"post {other} 1 100000 1 100000", f"post {other} 1 1 {H} {H}",
             f"post {other} 1 1 4294967295 7"],
    }
    if on:
        lines[6] = [f"post {card} 1 5 0 9", f"post {card} 0 0 9 1"]
        lines[11] += [f"narrow {card} {early} {early + length - 1}", f"narrow {card} {late} {early}",
                      f"narrow {card} {late - length + 1} {late}", f"narrow {card} {late + 5} {late}"]
        lines[12] = [f"narrow {card} {early} {late + 1}", f"narrow {card} {late + 1} {late + 2}", f"narrow {card} {early} 4294967295"]
        if early > 0:
            lines[12] += [f"narrow {card} {early - 1} {late}", f"narrow {card} 0 0"]
    return lines


# Lines that cannot be read, of every sort.

UNREAD = {
    "there is no command": ["frob 1", "Make 1 0", "posts 1 1 1 0 9", "42", "prüfe 1", "settle,walk", "unread 3"],
    "a number is missing": ["make", "post", "post 1 1 4 0", "narrow 1 2", "look", "withdraw", "narrow 99", "post 0"],
    "a kind of bound is missing": ["settle", "settle larger", "settle larger walk"],
    "there is no bound": ["settle most", "settle Walk", "settle larger walk most", "settle larger larger none walk", "settle 1 2 3"],
    "from 0 to 65535": ["make x", "make 2 0 1 -1 0", "make 65536", "make 2 0 x", "look 70000", "withdraw one", "post 1.5 1 1 0 9",
                        "post 1 x y", "narrow -1 0 9", "look 99999999999999999999", "make 17 0x10"],
    "from 0 to 4294967295": ["post 1 1 ten 0 5", "post 1 1 5 0 4294967296", "post 1 1 5 zero", "post 99 99 5 -3 x", "narrow 1 x 5",
                             "narrow 1 0 -5", "narrow 1 0 5m", "post 1 1 4 0 x 9"],
    "nothing may follow": ["bounds now", "show all", "look 1 2", "settle walk walk", "settle larger none walk least",
                           "post 1 1 1 0 5 6 7", "withdraw 1 1", "narrow 1 0 5 6", "look 0 0"],
    "the line is not text": [b"look \xff", b"\xc3(", b"post 1 \x80 5 0 9", b"settle walk\xfe"],
}


class Day:
    """Lines, and a rig that has answered those so far."""

    def __init__(self, rng):
        self.rng, self.rig, self.lines = rng, Rig(), []

    def say(self, line):
        if isinstance(line, str):
            line = line.encode("utf-8")
        self.lines.append(line)
        return self.rig.answer(len(self.lines), line)

    def dress(self, line):
        """The same command, at times with more spaces or a comment."""
        if isinstance(line, str):
            if self.rng.random() < 0.1:
                line = "  " + line.replace(" ", "   ") + " "
            if self.rng.random() < 0.08:
                line += self.rng.choice(["  # as it is", " # 1 2 3", "   #", " # make 0"])
        return line

    def mistake(self, sort, at):
        """The line of this sort at this place of its list; a number is a refusal, a text why a line cannot be read."""
        if sort in UNREAD:
            line, start, part = UNREAD[sort][at], "unread ", sort
        else:
            choice = refusals(self.rng, self.rig.sheet).get(sort)
            if not choice:
                return
            line, start, part = choice[at % len(choice)], f"refused {sort} ", ""
        answer = self.say(self.dress(line))
        assert answer[0].startswith(start) and part in answer[0], (line, answer)

    def step(self):
        """A random command that is mostly accepted."""
        rng, sheet = self.rng, self.rig.sheet
        what = rng.choice(["settle"] * 5 + ["look"] * 3 + ["narrow"] * 3 + ["withdraw", "post", "show", "show", "bounds"])
        if what == "settle":
            line = "settle " + rng.choice(KINDS[:3] + KINDS)
        elif what in ("show", "bounds"):
            line = what
        elif what == "post":
            early, length = rng.randint(0, 30), rng.randint(1, 9)
            line = f"post {rng.randint(1, CARDS)} {rng.randint(1, sheet.m)} {length} {early} {early + length + rng.randint(0, 40)}"
        elif not sheet.jobs:
            line = f"{rng.choice(['look', 'withdraw'])} {rng.randint(1, CARDS)}"
        else:
            card = rng.choice(list(sheet.jobs))
            line = f"{what} {card}"
            if what == "narrow":
                early, late = sheet.jobs[card].held if rng.random() < 0.5 else sheet.jobs[card].posted
                early += rng.choice([0, 0, 1, 2])
                late -= rng.choice([0, 0, 1, 2])
                line += f" {max(early, 0)} {max(late, 0)}"
        self.say(self.dress(line))


def job_book(rng, number):
    """A sheet with jobs for a day: every kind of overload comes first, then whatever comes."""
    overloads = [(1, 0), (2, 0), (3, 0), (1, 1), (2, 1), (3, 1)]
    if number < len(overloads):
        n = rng.randint(3, 4)
        return find(rng, ends(*overloads[number]), "walk", n, 3, 5, 3 * n + 4, number % 2 == 1)
    n, m = rng.randint(2, 6), rng.choice([1, 2, 3, 4])
    scale, end = rng.choice([4, 9, 9, 9_000]), rng.random() < 0.3
    if number % 3 == 0:
        return random_sheet(rng, n, m, scale, n * scale, end)
    return find(rng, cuts, rng.choice(KINDS), n, m, scale, n * scale, end)


def make_line(sheet):
    return " ".join(map(str, ["make", sheet.m] + [minutes for row in sheet.matrix for minutes in row]))


def post_lines(sheet):
    return [" ".join(map(str, ("post", card, job.setup, job.duration) + job.posted)) for card, job in sheet.jobs.items()]


def days(rng):
    day = Day(rng)
    day.say("# Days on one rig. Before the first make there is one setup with no changeover.")
    for line in BEFORE_MAKE + EXAMPLES:
        day.say(line)
    numbers = {1: 4, 2: 5, 3: 4, 4: 4, 5: 8, 6: 2, 7: 4, 8: 3, 9: 3, 10: 3, 11: 9, 12: 5}
    mistakes = [(number, at) for number, count in numbers.items() for at in range(count)]
    mistakes += [(sort, at) for sort, lines in UNREAD.items() for at in range(len(lines))]
    rng.shuffle(mistakes)
    number = 0
    while mistakes:
        sheet = job_book(rng, number)
        number += 1
        day.say("")
        day.say(f"# day {number}")
        day.say(make_line(sheet))
        for line in post_lines(sheet):
            day.say(day.dress(line))
        day.say("settle walk")
        day.say("show")
        for _ in range(rng.randint(3, 5)):
            day.step()
            for _ in range(rng.randint(1, 3)):
                if mistakes:
                    day.mistake(*mistakes.pop())
        day.say(rng.choice(["show", "settle none", "settle walk", "   "]))
    # A day with the greatest numbers, and one with 16 setups and all cards.
    for line in ("# the greatest numbers", "make 2 10000 10000 10000 10000", "bounds",
                 f"post 32 2 100000 0 {H}", f"post 1 1 100000 {H - 100_000} {H}", "post 16 1 1 0 1", "settle walk", "show",
                 f"narrow 32 10001 {H - 110_000}", "settle larger least walk", "look 32", "narrow 32 10001 110001",
                 "settle none", "withdraw 16", "post 16 1 1 10000 10002", "settle walk", "show"):
        day.say(line)
    sheet = full_day(rng)
    day.say("# all cards")
    day.say(make_line(sheet))
    day.say("bounds")
    for line in post_lines(sheet):
        day.say(line)
    for line in ("post 7 1 1 0 9", "settle walk", "show", "settle none", "withdraw 5", "settle walk", "look 32", "make 1 0", "show"):
        day.say(line)
    return b"".join(line + b"\n" for line in day.lines)


def ask(written):
    """That the answers are of every sort."""
    for number in range(1, 13):
        assert f"refused {number} " in written, number
    for sort in UNREAD:
        assert re.search(rf"^unread \d+ .*{sort}", written, re.M), sort
    for kind in (1, 2, 3):
        for face in (0, 1):
            assert re.search(rf"^overloaded \d+ {kind} {face} ", written, re.M), (kind, face)
    for word in ("made", "posted", "narrowed", "withdrawn", "window", "open", "settled 1", "settled 2", "overloaded 2", "larger 0"):
        assert f"\n{word}" in written, word


def main():
    text = days(random.Random(SEED))
    written = answers(text)
    ask(written.decode("utf-8"))
    for name, content in (("rig_day.txt", text), ("rig_day.out", written)):
        with open(os.path.join(FOLDER, name), "wb") as file:
            file.write(content)


if __name__ == "__main__":
    main()
