#!/usr/bin/env python3
"""A sheet and its calls, by docs/CALLS.md and docs/PAGE.md.

A second program, independent of the repository's code. Settling is that of tests/settle.py, which works every tree out afresh.

A refused call raises Refused with the number of the question and the values that the refusal carries; the sheet is then as it was.
A bound is written as a string of words: "none", "least", "walk" or "larger A B" with two of these three.
"""
from functools import lru_cache

import settle as rules

CARDS = 32
SETUPS = 16
PAGE = 1292
FIRST_CHANGEOVER = 12
FIRST_RECORD = 524
RECORD = 24
STATUSES = ["open", "settled", "overloaded"]
SINGLE_KINDS = ["none", "least", "walk"]
KINDS = SINGLE_KINDS + [f"larger {a} {b}" for a in SINGLE_KINDS for b in SINGLE_KINDS]


class Refused(Exception):
    def __init__(self, number, *values):
        super().__init__(number, *values)
        self.number, self.values = number, values


class Job:
    """A job as it is posted, and the window that is held for it."""

    def __init__(self, setup, duration, early, late):
        self.setup, self.duration = setup, duration
        self.posted = self.held = (early, late)


# Questions about a matrix and about a job, which post and load both ask.

def first_too_great(m, matrix):
    """Question 3: the first two setups, row by row, with a changeover above 10,000."""
    for a in range(1, m + 1):
        for b in range(1, m + 1):
            if matrix[a - 1][b - 1] > 10_000:
                return a, b
    return None


def first_detour(m, matrix):
    """Question 4: the first a, b, c for which the way from a to b by c is shorter."""
    setups = range(1, m + 1)
    for a in setups:
        for b in setups:
            for c in setups:
                if matrix[a - 1][b - 1] > matrix[a - 1][c - 1] + matrix[c - 1][b - 1]:
                    return a, b, c
    return None


def no_room(duration, early, late):
    """Whether question 11 has the answer no."""
    return early > late or late - early < duration


def job_question(m, setup, duration, early, late):
    """The first of the questions 8 to 11 that has the answer no, and what a refusal carries; or None."""
    if not 1 <= setup <= m:
        return 8, (setup,)
    if not 1 <= duration <= 100_000:
        return 9, (duration,)
    if late > rules.H:
        return 10, (late,)
    if no_room(duration, early, late):
        return 11, (early, late)
    return None


# Settling, and the numbers of a bound.

def bound_numbers(kind, gaps):
    """b(0), b(1), .. for this table of gaps."""
    if kind not in KINDS:
        raise ValueError(f"there is no bound {kind}")
    return rules.read_bound(iter(kind.split()))(len(gaps), gaps)


@lru_cache(maxsize=None)
def settled(kind, durations, windows, gaps):
    """Rounds, cause or None, and held windows, for jobs that are counted from 1 in card order."""
    numbers = bound_numbers(kind, gaps)
    face = rules.Face([w[0] for w in windows], [w[1] for w in windows], list(durations), gaps)
    rounds, cause, held = rules.settle(face, lambda e: numbers[e] if e < len(numbers) else 0)
    return rounds, cause, tuple(zip(held.early, held.late))


class Sheet:
    def __init__(self):
        """One setup with no changeover, and no jobs."""
        self.matrix = [[0]]
        self.jobs = {}  # by card, in posting order: this is the chain
        self.open()

    @property
    def m(self):
        return len(self.matrix)

    def open(self):
        self.status, self.rounds = "open", 0
        for job in self.jobs.values():
            job.held = job.posted

    # The calls.

    def make(self, m, numbers):
        if not 1 <= m <= SETUPS:
            raise Refused(1, m)
        if len(numbers) != m * m:
            raise Refused(2, len(numbers))
        matrix = [list(numbers[m * a:m * a + m]) for a in range(m)]
        great = first_too_great(m, matrix)
        if great:
            a, b = great
            raise Refused(3, a, b, matrix[a - 1][b - 1])
        detour = first_detour(m, matrix)
        if detour:
            raise Refused(4, *detour)
        self.matrix, self.jobs = matrix, {}
        self.open()

    def post(self, card, setup, duration, early, late):
        self.ask_card(card)
        if card in self.jobs:
            raise Refused(6, card)
        wrong = job_question(self.m, setup, duration, early, late)
        if wrong:
            raise Refused(wrong[0], *wrong[1])
        self.jobs[card] = Job(setup, duration, early, late)
        self.open()

    def narrow(self, card, early, late):
        job = self.ask_on_sheet(card)
        if early < job.posted[0] or late > job.posted[1]:
            raise Refused(12, early, late)
        if no_room(job.duration, early, late):
            raise Refused(11, early, late)
        job.posted = (early, late)
        self.open()

    def withdraw(self, card):
        self.ask_on_sheet(card)
        del self.jobs[card]
        self.open()

    def look(self, card):
        """The posted window, the held window and the status."""
        job = self.ask_on_sheet(card)
        return job.posted, job.held, self.status

    def settle(self, kind):
        """Status, rounds and cause: kind, face and two cards, or None where there is no overload."""
        cards, rounds, cause, held = self.outcome(kind)
        self.status, self.rounds = "overloaded" if cause else "settled", rounds
        for card, window in zip(cards, held):
            self.jobs[card].held = window
        return self.status, rounds, cause

    def page(self):
        page = bytearray(PAGE)

        def write(at, size, number):
            page[at:at + size] = number.to_bytes(size, "little")

        chain = list(self.jobs)
        write(0, 2, 1)
        write(2, 2, self.m)
        write(4, 2, chain[0] if chain else 0)
        write(6, 2, STATUSES.index(self.status))
        write(8, 4, self.rounds)
        for a in range(1, self.m + 1):
            for b in range(1, self.m + 1):
                write(changeover_at(a, b), 2, self.matrix[a - 1][b - 1])
        for card, after in zip(chain, chain[1:] + [0]):
            job, at = self.jobs[card], record_at(card)
            write(at, 2, after)
            write(at + 2, 2, job.setup)
            for k, number in enumerate((job.duration,) + job.posted + job.held):
                write(at + 4 + 4 * k, 4, number)
        return bytes(page)

    def load(self, page, kind):
        """None where the page is accepted, or number, card and byte of the refusal."""
        sheet, refusal = read(page, kind)
        if refusal is None:
            self.__dict__.update(sheet.__dict__)
        return refusal

    # What the calls have in common.

    def ask_card(self, card):
        if not 1 <= card <= CARDS:
            raise Refused(5, card)

    def ask_on_sheet(self, card):
        self.ask_card(card)
        if card not in self.jobs:
            raise Refused(7, card)
        return self.jobs[card]

    def outcome(self, kind):
        """The cards in their order, rounds, cause (with cards) and held windows that settling gives; the sheet stays."""
        cards = sorted(self.jobs)
        jobs = [self.jobs[card] for card in cards]
        gaps = tuple(tuple(self.matrix[i.setup - 1][j.setup - 1] for j in jobs) for i in jobs)
        durations, windows = tuple(j.duration for j in jobs), tuple(j.posted for j in jobs)
        rounds, cause, held = settled(kind, durations, windows, gaps)
        if cause:
            cause = cause[:2] + tuple(cards[job - 1] if job else 0 for job in cause[2:])
        return cards, rounds, cause, held

    def lines(self):
        """Status and rounds, then each job in chain order, as `show` and `read_page` write them."""
        answer = [f"{self.status} {self.rounds}"]
        for card, job in self.jobs.items():
            answer.append(" ".join(map(str, (card, job.setup, job.duration) + job.posted + job.held)))
        return answer


# Pages.

def changeover_at(a, b):
    return FIRST_CHANGEOVER + 2 * (SETUPS * (a - 1) + b - 1)


def record_at(card):
    return FIRST_RECORD + RECORD * (card - 1)


def read(page, kind):
    """The sheet of a page and None; or None and the refusal: number, card and byte."""

    def number(at, size):
        return int.from_bytes(page[at:at + size], "little")

    def no(question, card, byte):
        return None, (question, card, byte)

    if len(page) != PAGE:
        return no(13, 0, 0)
    if number(0, 2) != 1:
        return no(14, 0, 0)
    m = number(2, 2)
    if not 1 <= m <= SETUPS:
        return no(1, 0, 2)
    matrix = [[number(changeover_at(a, b), 2) for b in range(1, m + 1)] for a in range(1, m + 1)]
    great = first_too_great(m, matrix)
    if great:
        return no(3, 0, changeover_at(*great))
    detour = first_detour(m, matrix)
    if detour:
        return no(4, 0, changeover_at(*detour[:2]))
    status = number(6, 2)
    if status >= len(STATUSES):
        return no(17, 0, 6)

    # The chain as a whole, then each of its jobs.
    chain, holder, link_at = [], 0, 4
    while number(link_at, 2) != 0:
        card = number(link_at, 2)
        if card > CARDS or card in chain:
            return no(15, holder, link_at)
        chain.append(card)
        holder, link_at = card, record_at(card)
    sheet = Sheet()
    sheet.matrix = matrix
    held = {}
    for card in chain:
        at = record_at(card)
        job = (number(at + 2, 2), number(at + 4, 4), number(at + 8, 4), number(at + 12, 4))
        wrong = job_question(m, *job)
        if wrong:
            return no(wrong[0], card, at + {8: 2, 9: 4, 10: 12, 11: 8}[wrong[0]])
        sheet.jobs[card] = Job(*job)
        held[card] = (number(at + 16, 4), number(at + 20, 4))

    # The bytes that belong to nothing.
    used = set(range(FIRST_CHANGEOVER))
    for a in range(1, m + 1):
        used.update(range(changeover_at(a, 1), changeover_at(a, m) + 2))
    for card in chain:
        used.update(range(record_at(card), record_at(card) + RECORD))
    for byte in range(PAGE):
        if byte not in used and page[byte] != 0:
            return no(16, 0 if byte < FIRST_RECORD else (byte - FIRST_RECORD) // RECORD + 1, byte)

    # Status, rounds and held windows: worked out again and compared.
    sheet.open()
    if STATUSES[status] != "open":
        sheet.settle(kind)
    found = (STATUSES.index(sheet.status), sheet.rounds, {card: job.held for card, job in sheet.jobs.items()})
    if found != (status, number(8, 4), held):
        return no(18, 0, 6)
    return sheet, None
