#!/usr/bin/env python3
"""Writes a table of pages and loads, the same every time: crates/page_cases/stdin, and the answers to crates/page_cases/stdout.

    python3 tests/page_cases.py

One command a line:

    page HEX                 the current page, 2584 hex digits; no answer
    load KIND                loads the current page with a bound of this kind
    damage BYTE VALUE KIND   loads the current page with this one byte replaced; the current page stays
    cut N KIND               loads the first N bytes of the current page

Each load is answered by a line: "refused", number, card and byte; or status and rounds, then for each job in chain order "; " and
card, setup, duration, posted ends and held ends, and at the end " same", which says that saving gives the same bytes.
"""
import os
import random

from cases import closed
from sheet import CARDS, FIRST_RECORD, KINDS, PAGE, RECORD, SETUPS, Sheet, changeover_at, record_at

H = 1_000_000
FOLDER = os.path.join(os.path.dirname(os.path.abspath(__file__)), "..", "crates", "page_cases")


# Answers.

def answer(page, kind):
    sheet = Sheet()
    refusal = sheet.load(page, kind)
    if refusal:
        return " ".join(map(str, ("refused",) + refusal))
    return "; ".join(sheet.lines()) + (" same" if sheet.page() == page else " other")


def with_byte(page, byte, value):
    return page[:byte] + bytes([value]) + page[byte + 1:]


def answers(text):
    """The answers to a table, as text."""
    page, written = b"", []
    for line in text.splitlines():
        command, *words = line.split()
        if command == "page":
            page = bytes.fromhex(words[0])
        elif command == "load":
            written.append(answer(page, " ".join(words)))
        elif command == "damage":
            written.append(answer(with_byte(page, int(words[0]), int(words[1])), " ".join(words[2:])))
        elif command == "cut":
            written.append(answer(page[:int(words[0])], " ".join(words[1:])))
    return "".join(line + "\n" for line in written)


# Sheets.

def book(matrix, jobs):
    """An open sheet: the rows of a matrix, and jobs with card, setup, duration and window."""
    sheet = Sheet()
    sheet.make(len(matrix), [minutes for row in matrix for minutes in row])
    for job in jobs:
        sheet.post(*job)
    return sheet


def random_sheet(rng, n, m, scale, slack, at_end=False):
    """n jobs on random cards, in a random posting order; at_end puts the last late end at minute 1,000,000."""
    matrix = closed([[rng.randint(0, scale) for _ in range(m)] for _ in range(m)])
    jobs = []
    for card in rng.sample(range(1, CARDS + 1), n):
        duration, early = rng.randint(1, scale), rng.randint(0, slack // 2)
        jobs.append([card, rng.randint(1, m), duration, early, early + duration + rng.randint(0, slack)])
    shift = H - max((job[4] for job in jobs), default=H) if at_end else 0
    for job in jobs:
        job[3] += shift
        job[4] += shift
    return book(matrix, jobs)


def find(rng, fits, kind, *shape):
    """A random sheet of this shape, settled with this bound, of which `fits` holds."""
    while True:
        sheet = random_sheet(rng, *shape)
        status, rounds, cause = sheet.settle(kind)
        if fits(status, rounds, cause, sheet):
            return sheet


def ends(kind, face):
    return lambda status, rounds, cause, sheet: cause is not None and cause[:2] == (kind, face)


def cuts(status, rounds, cause, sheet):
    return status == "settled" and rounds > 1


def needs_bound(status, rounds, cause, sheet):
    """Settled after cuts, and not so without a bound."""
    other = book(sheet.matrix, [(c, j.setup, j.duration) + j.posted for c, j in sheet.jobs.items()])
    other.settle("none")
    return status == "settled" and rounds > 1 and sheet.page() != other.page()


def late_overload(face):
    """An overload on this face after the first round."""
    return lambda status, rounds, cause, sheet: cause is not None and rounds > 1 and cause[1] == face


# The table.

class Table:
    def __init__(self):
        self.lines = []

    def page(self, page):
        self.lines.append("page " + page.hex())

    def good(self, sheet, kind):
        """A page that opens, loaded as it is."""
        self.page(sheet.page())
        self.load(kind)

    def load(self, kind):
        self.lines.append(f"load {kind}")

    def damage(self, byte, value, kind):
        self.lines.append(f"damage {byte} {value} {kind}")

    def cut(self, size, kind):
        self.lines.append(f"cut {size} {kind}")

    def text(self):
        return "".join(line + "\n" for line in self.lines)


def each_question(table, rng):
    """Every question of a load, by one byte that is not as it should be."""
    one, two, spare = record_at(1), record_at(2), record_at(3)

    # Two jobs, settled with the walk: 2 setups, cards 1 and 2.
    sheet = book([[0, 3], [2, 0]], [(1, 1, 4, 0, 11), (2, 2, 5, 0, 10)])
    sheet.settle("walk")
    table.good(sheet, "walk")
    for size in (0, 1, 12, 523, 1268, 1291, 1292):
        table.cut(size, "walk")                              # 13, and the whole page
    for byte, value in ((0, 0), (0, 2), (0, 255), (1, 1)):
        table.damage(byte, value, "walk")                    # 14
    for byte, value in ((2, 0), (2, 17), (2, 18), (3, 1), (3, 255)):
        table.damage(byte, value, "walk")                    # 1
    for value in (1, 3, 16):
        table.damage(2, value, "walk")                       # other numbers of setups: 8 and 4
    for a, b in ((1, 1), (1, 2), (2, 1), (2, 2)):
        table.damage(changeover_at(a, b) + 1, 40, "walk")    # 3: 10,240 or more
        table.damage(changeover_at(a, b), 6, "walk")         # 4 on the diagonal; elsewhere another book, perhaps as good
    for byte, value in ((6, 3), (6, 255), (7, 1)):
        table.damage(byte, value, "walk")                    # 17
    for byte, value in ((4, 33), (4, 255), (5, 1)):
        table.damage(byte, value, "walk")                    # 15: the first link
    for byte, value in ((one, 33), (one + 1, 1), (two, 34), (two + 1, 255)):
        table.damage(byte, value, "walk")                    # 15: a link above 32
    for byte, value in ((one, 1), (two, 1), (two, 2)):
        table.damage(byte, value, "walk")                    # 15: a card met before
    for byte, value in ((4, 0), (4, 2), (4, 3), (one, 0), (one, 3), (two, 32)):
        table.damage(byte, value, "walk")                    # the chain is another: 16 or 8
    for byte, value in ((one + 2, 0), (one + 2, 3), (one + 3, 1), (two + 2, 0), (two + 2, 17)):
        table.damage(byte, value, "walk")                    # 8
    for byte, value in ((one + 4, 0), (two + 4, 0), (one + 6, 2), (two + 7, 1)):
        table.damage(byte, value, "walk")                    # 9
    for byte, value in ((one + 14, 16), (two + 15, 1), (two + 15, 255)):
        table.damage(byte, value, "walk")                    # 10
    for byte, value in ((one + 8, 8), (one + 8, 200), (one + 11, 1), (two + 12, 4), (two + 12, 0), (two + 4, 11)):
        table.damage(byte, value, "walk")                    # 11
    for a, b in ((1, 3), (1, 16), (2, 3), (3, 1), (16, 16)):
        table.damage(changeover_at(a, b), 1, "walk")         # 16: a stray changeover
        table.damage(changeover_at(a, b) + 1, 128, "walk")
    for at in (0, 1, 2, 5, 11, 15, 19, 23):
        table.damage(spare + at, 1, "walk")                  # 16: a spare record
    for byte in (record_at(17) + 7, PAGE - 1):
        table.damage(byte, 255, "walk")
    for byte, value in ((6, 0), (6, 2), (8, 0), (8, 1), (8, 3), (9, 1), (11, 255)):
        table.damage(byte, value, "walk")                    # 18: status and rounds
    for byte, value in ((one + 16, 6), (one + 16, 8), (one + 20, 10), (two + 16, 1), (two + 20, 6), (two + 23, 1)):
        table.damage(byte, value, "walk")                    # 18: a held end
    for kind in ("none", "least", "larger walk none"):
        table.load(kind)                                     # two jobs settle so with any bound

    # Three setups: question 4 with a way by a third.
    sheet = book([[0, 4, 6], [5, 0, 3], [7, 4, 0]], [(32, 3, 7, 2, 30), (5, 1, 2, 0, 40), (9, 2, 3, 8, 50)])
    table.good(sheet, "walk")
    for a, b, value in ((1, 2, 11), (1, 3, 8), (1, 3, 7), (2, 1, 11), (3, 1, 10), (3, 2, 12), (2, 2, 7), (2, 2, 8), (3, 3, 9),
                        (1, 2, 2)):
        table.damage(changeover_at(a, b), value, "walk")
    # This page is open. 18: rounds, a held end, or a status that says more.
    for byte, value in ((6, 1), (6, 2), (8, 1), (11, 1), (record_at(5) + 16, 1), (record_at(32) + 20, 29), (record_at(9) + 8, 7)):
        table.damage(byte, value, "walk")
    # 15 in a chain of three that does not follow the cards.
    for byte, value in ((4, 9), (record_at(32), 32), (record_at(5), 32), (record_at(9), 5), (record_at(9), 33), (record_at(9), 1)):
        table.damage(byte, value, "walk")

    # Greatest values: changeovers of 10,000, a job of 100,000 minutes, windows that end with minute 1,000,000.
    sheet = book([[10_000] * 2] * 2, [(7, 2, 100_000, 0, H), (3, 1, 1, H - 1, H), (4, 1, 1, 0, 1)])
    sheet.settle("walk")
    table.good(sheet, "walk")
    for a, b in ((1, 1), (1, 2), (2, 2)):
        table.damage(changeover_at(a, b), 0x11, "walk")      # 10,001
    for byte, value in ((record_at(7) + 4, 0xA1), (record_at(7) + 12, 0x41), (record_at(3) + 12, 0x41)):
        table.damage(byte, value, "walk")                    # 100,001 and 1,000,001
    for byte, value in ((record_at(7) + 4, 0x9F), (record_at(3) + 12, 0x3F), (record_at(3) + 8, 0x40), (record_at(4) + 12, 0)):
        table.damage(byte, value, "walk")

    # 18: settled pages with the bounds that give them, and with others.
    for kind, others in (("walk", ("none", "least", "larger none walk")), ("least", ("none", "walk", "larger none none")),
                         ("larger least walk", ("larger walk least", "walk", "none"))):
        table.good(find(rng, needs_bound, kind, 4, 3, 6, 20), kind)
        for other in others:
            table.load(other)
    # And an overload that is found with a bound only.
    sheet = book([[10]], [(card, 1, 10, 0, 49) for card in (1, 2, 3)])
    sheet.settle("walk")
    table.good(sheet, "walk")
    for kind in ("none", "least", "larger least none"):
        table.load(kind)
    for byte, value in ((6, 0), (6, 1), (8, 0), (8, 2), (record_at(3) + 16, 20)):
        table.damage(byte, value, "walk")


def two_faults(table):
    """Pages that are wrong at two places or more: the question that comes first is answered."""
    sheet = book([[0, 3], [2, 0]], [(8, 1, 4, 0, 11), (2, 2, 5, 0, 10), (20, 1, 1, 30, 40)])
    sheet.settle("walk")
    good = sheet.page()
    # A duration of 0 on the second card of the chain, a setup of 0 on its third.
    page = with_byte(with_byte(good, record_at(2) + 4, 0), record_at(20) + 2, 0)
    table.page(page)
    table.load("walk")                                       # 9, card 2
    table.damage(record_at(8) + 12, 3, "walk")               # 11, card 8
    table.damage(record_at(2) + 2, 9, "walk")                # 8, card 2
    table.damage(record_at(20), 40, "walk")                  # 15, card 20
    table.damage(record_at(20), 8, "walk")                   # 15, card 20
    table.damage(6, 9, "walk")                               # 17
    table.damage(changeover_at(1, 1), 9, "walk")             # 4
    table.damage(changeover_at(2, 2) + 1, 255, "walk")       # 3
    table.damage(2, 0, "walk")                               # 1
    table.damage(0, 3, "walk")                               # 14
    table.cut(1291, "walk")                                  # 13
    table.damage(record_at(1), 1, "walk")                    # 9 still
    # Every byte that belongs to nothing is 255, and the status is another.
    page = bytearray(with_byte(good, 6, 2))
    for byte in set(range(PAGE)) - belonging(good):
        page[byte] = 255
    table.page(bytes(page))
    table.load("walk")                                       # 16 at the first of them
    table.damage(record_at(2) + 8, 6, "walk")                # 11
    table.damage(record_at(8), 0, "walk")                    # 16: card 2's record is spare now, but not the first
    table.damage(record_at(8), 1, "walk")                    # 15: card 1's link is 65,535
    # Every byte is 255, or 0.
    table.page(bytes([255]) * PAGE)
    table.load("walk")
    table.page(bytes(PAGE))
    table.load("none")
    # 16 setups, changeovers too great in the rows from 9 and the columns from 5, and a status of 9.
    page = bytearray(good)
    page[2] = 16
    for a in range(9, SETUPS + 1):
        for b in range(5, SETUPS + 1):
            page[changeover_at(a, b) + 1] = 50
    page[6] = 9
    table.page(bytes(page))
    table.load("walk")                                       # 3 at M(9, 5)
    table.damage(changeover_at(9, 5) + 1, 0, "walk")         # 3 at M(9, 6)
    table.damage(2, 8, "walk")                               # M has eight setups: 4
    table.damage(2, 2, "walk")                               # and two: 17
    table.damage(2, 0, "walk")


def belonging(page):
    """The bytes of a good page that belong to something."""
    m, found = page[2], set(range(12))
    for a in range(1, m + 1):
        found.update(range(changeover_at(a, 1), changeover_at(a, m) + 2))
    for card in cards_of(page):
        found.update(range(record_at(card), record_at(card) + RECORD))
    return found


def cards_of(page):
    """The chain of a good page."""
    cards, card = [], page[4]
    while card:
        cards.append(card)
        card = page[record_at(card)]
    return cards


def good_pages(rng):
    """Good pages of every status, with their bounds."""
    empty = Sheet()
    yield empty, "none"
    empty = book(closed([[rng.randint(0, 10_000) for _ in range(16)] for _ in range(16)]), [])
    empty.settle("walk")
    yield empty, "walk"
    yield random_sheet(rng, 6, 2, 9, 60), "least"            # open
    yield random_sheet(rng, 32, 5, 30, 900, True), "none"    # open
    yield find(rng, cuts, "walk", 5, 1, 9, 30), "walk"       # one setup
    yield find(rng, cuts, "larger least walk", 6, 16, 9, 40, True), "larger least walk"
    for kind in (1, 2, 3):
        for face in (0, 1):
            n = rng.randint(3, 5)
            bound = ("walk", "least", "larger walk none")[kind - 1]
            yield find(rng, ends(kind, face), bound, n, 3, 5, 3 * n + 4, face == 1), bound
    for face in (0, 1):
        yield find(rng, late_overload(face), "walk", 5, 3, 5, 19, face == 0), "walk"
    # A window from minute 0, one to the last minute, and one of all minutes.
    sheet = book([[0, 7], [9, 0]], [(31, 2, 3, 0, 3), (1, 1, 5, 2, 20), (16, 2, 6, H - 6, H), (2, 1, 8, 0, H), (32, 1, 2, H - 20, H)])
    sheet.settle("walk")
    yield sheet, "walk"
    # 32 jobs on 16 setups: a row of jobs that fills the day, and a window for each in which it can change places with a few.
    yield full_day(rng), "walk"
    yield find(rng, cuts, "none", 5, 4, 8, 30, True), "none"
    yield find(rng, cuts, "least", 6, 3, 8, 40), "least"
    yield find(rng, cuts, "larger none least", 4, 2, 8, 20), "larger none least"


def full_day(rng):
    matrix = closed([[rng.randint(1, 9) for _ in range(16)] for _ in range(16)])
    cards, jobs, at, before = list(range(1, CARDS + 1)), [], 0, None
    rng.shuffle(cards)
    for card in cards:
        setup, duration = rng.randint(1, 16), rng.randint(5, 30)
        at += 0 if before is None else matrix[before - 1][setup - 1]
        jobs.append((card, setup, duration, max(0, at - rng.randint(0, 12)), at + duration + rng.randint(0, 12)))
        at, before = at + duration, setup
    rng.shuffle(jobs)
    sheet = book(matrix, jobs)
    sheet.settle("walk")
    return sheet


# Where random damage falls, by how often.
REGIONS = (["link"] * 4 + ["setup"] * 3 + ["duration"] * 2 + ["posted"] * 5 + ["held"] * 5 + ["spare"] * 4
           + ["changeover"] * 3 + ["header"])


def random_damage(rng, page):
    """A byte of a good page, and another value for it."""
    cards, m = cards_of(page), page[2]
    while True:
        region = rng.choice(REGIONS)
        low = rng.choice([0, 0, 0, 1])                       # mostly the low byte of a field
        if region == "header":
            byte = rng.randrange(12)
        elif region == "changeover":
            byte = changeover_at(rng.randint(1, m), rng.randint(1, m)) + low
        elif region == "spare":
            byte = rng.choice([rng.randrange(12, FIRST_RECORD), rng.randrange(FIRST_RECORD, PAGE)])
            if byte in belonging(page):
                continue
        elif region == "link":
            byte = rng.choice([4] + [record_at(card) for card in cards]) + low
        elif not cards:
            continue
        else:
            at = record_at(rng.choice(cards))
            if region in ("posted", "held"):
                low = rng.choice([0, 0, 0, 0, 1, 2, 3])
            byte = at + low + {"setup": 2, "duration": 4, "posted": rng.choice([8, 12]), "held": rng.choice([16, 20])}[region]
        was = page[byte]
        value = rng.choice([was + 1, was - 1, was ^ 1 << rng.randrange(8), rng.randrange(256), 0])
        if region == "link" and low == 0:
            value = rng.choice([value] + [rng.randint(0, CARDS)] * 2 + cards)
        if region == "setup" and low == 0:
            value = rng.choice([value, rng.randint(1, m)])
        value %= 256
        if value != was:
            return byte, value


def table():
    """The whole table, as text."""
    rng = random.Random(31)
    made = Table()
    each_question(made, rng)
    two_faults(made)
    for sheet, kind in good_pages(rng):
        made.good(sheet, kind)
        if len(sheet.jobs) < 32:
            made.load(rng.choice(KINDS))
        seen = set()
        while len(seen) < (24 if sheet.jobs else 8):
            harm = random_damage(rng, sheet.page())
            if harm not in seen:
                seen.add(harm)
                made.damage(*harm, kind)
    return made.text()


def main():
    os.makedirs(FOLDER, exist_ok=True)
    text = table()
    for name, content in (("stdin", text), ("stdout", answers(text))):
        with open(os.path.join(FOLDER, name), "w", newline="\n") as file:
            file.write(content)


if __name__ == "__main__":
    main()
