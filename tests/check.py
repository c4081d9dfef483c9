#!/usr/bin/env python3
"""Checks tests/sheet.py, tests/rig.py and tests/read_page.py: by the examples of the documents, and by all orders of a few jobs.

    python3 tests/check.py
"""
import os
import random
from itertools import permutations

import page_cases
import rig_cases
from page_cases import book, random_sheet
from read_page import answer as read_page
from rig import answers
from sheet import KINDS, PAGE, Refused, Sheet, bound_numbers

H = 1_000_000
FOLDER = os.path.dirname(os.path.abspath(__file__))


def settled(matrix, jobs, kind):
    """The answer of settling, and the held windows by card."""
    sheet = book(matrix, jobs)
    return sheet.settle(kind), {card: job.held for card, job in sheet.jobs.items()}


# The examples of the documents.

def check_examples():
    two = [[0, 3], [2, 0]]
    sheet = book(two, [(1, 1, 4, 0, 11), (2, 2, 5, 0, 10)])
    sheet.settle("walk")
    assert read_page(sheet.page()) == ("settled 2\n1 1 4 0 11 7 11\n2 2 5 0 10 0 5\n", 0)
    assert read_page(sheet.page() + b"\0") == ("refused 13 0 0\n", 1)
    assert read_page(b"") == ("refused 13 0 0\n", 1)
    found, _ = settled(two, [(1, 1, 4, 0, 10), (2, 2, 5, 0, 10)], "walk")
    assert found == ("overloaded", 1, (1, 0, 1, 2))

    def three(late):
        return [(card, 1, 10, 0, late) for card in (1, 2, 3)]

    assert settled([[10]], three(49), "walk")[0] == ("overloaded", 1, (2, 0, 3, 0))
    for late, kind in ((50, "walk"), (49, "none")):
        found, held = settled([[10]], three(late), kind)
        assert found == ("settled", 1, None) and set(held.values()) == {(0, late)}
    for kind in KINDS:
        assert Sheet().settle(kind) == ("settled", 1, None)

    # Rules 4 to 7. Later rounds can cut more than the rule that is shown.
    found, held = settled([[0]], [(1, 1, 3, 0, 8), (2, 1, 3, 0, 8), (3, 1, 4, 3, 20)], "none")
    assert found[0] == "settled" and held[3] == (6, 20)
    found, held = settled([[0]], [(1, 1, 4, 3, 12), (2, 1, 5, 0, 15), (3, 1, 5, 0, 15)], "none")
    assert found[0] == "settled" and held[1][1] == 10
    found, held = settled([[0]], [(1, 1, 4, 0, 9), (2, 1, 4, 0, 9), (3, 1, 3, 0, 20)], "none")
    assert found[0] == "settled" and held[3] == (8, 20)
    found, _ = settled([[0, 1, 1], [0, 0, 1], [0, 0, 0]], [(1, 1, 1, 1, 2), (2, 2, 2, 0, 5), (3, 3, 2, 2, 6)], "none")
    assert found == ("overloaded", 1, (3, 0, 2, 0))

    # The rows of docs/BOUNDS.md: their walk, and that as a matrix they are refused. Then a matrix with its bounds, by hand.
    rows = [[0, 3, 4, 3], [6, 0, 2, 5], [4, 7, 0, 2], [4, 7, 8, 0]]
    assert bound_numbers("walk", rows) == [0, 2, 4, 7]
    wanted = "refused 4 2 4 3 from setup 2 to setup 4 takes longer than by way of setup 3\n"
    assert answers(b"make 4 0 3 4 3 6 0 2 5 4 7 0 2 4 7 8 0\n").decode() == wanted
    wanted = "made 3\nnone 0 0 0\nleast 0 3 6\nwalk 0 3 7\nlarger 0 3 7\n"
    assert answers(b"make 3 0 4 6 5 0 3 7 4 0\nbounds\n").decode() == wanted

    # Files of `planner`.
    day = b"make 1 10\npost 4 1 10 0 50\nsettle walk\nsave a\nmake 1 0\nload a walk\nshow\nload b walk\nload a\nsave a b\n"
    written = answers(day).decode().splitlines()
    shown = ["settled 1", "4 1 10 0 50 0 50"]
    assert written[:9] == ["made 1", "posted 4", "settled 1", "saved", "made 1"] + shown + shown
    assert written[9].startswith("unloaded ")
    assert written[10:] == ["unread 9 a kind of bound is missing", "unread 10 nothing may follow, but b does"]
    print("examples: as in the documents")


# Random sheets.

def state(sheet):
    jobs = [(card, job.setup, job.duration, job.posted, job.held) for card, job in sheet.jobs.items()]
    return sheet.matrix, jobs, sheet.status, sheet.rounds


def reopens(sheet, kind):
    """Whether the sheet's page loads as the same sheet."""
    page, other = sheet.page(), Sheet()
    return len(page) == PAGE and other.load(page, kind) is None and state(other) == state(sheet) and other.page() == page


def plans(sheet):
    """For each order in which the jobs fit: every job's earliest start and latest finish in that order, by card."""
    for order in permutations(sheet.jobs):
        jobs = [sheet.jobs[card] for card in order]
        gaps = [sheet.matrix[a.setup - 1][b.setup - 1] for a, b in zip(jobs, jobs[1:])]
        starts, free = [], 0
        for job, gap in zip(jobs, gaps + [0]):
            starts.append(max(job.posted[0], free))
            free = starts[-1] + job.duration + gap
        if any(start + job.duration > job.posted[1] for start, job in zip(starts, jobs)):
            continue
        finishes, free = [], H
        for job, gap in zip(reversed(jobs), list(reversed(gaps)) + [0]):
            finishes.append(min(job.posted[1], free))
            free = finishes[-1] - job.duration - gap
        yield {card: (start, finish) for card, start, finish in zip(order, starts, reversed(finishes))}


def check_orders(rng, count):
    tally, cut_any, exact = {}, 0, 0
    for _ in range(count):
        n = rng.randint(0, 5)
        scale = rng.choice([3, 6, 6, 20])
        slack = (n + 1) * scale * rng.choice([1, 2]) // 2
        sheet = random_sheet(rng, n, rng.randint(1, 4), scale, slack, rng.random() < 0.4)
        assert reopens(sheet, "none")
        found = list(plans(sheet))
        for kind in KINDS[:3] + [rng.choice(KINDS)]:
            status, rounds, cause = sheet.settle(kind)
            assert reopens(sheet, kind)
            if status == "overloaded":
                assert not found
            for plan in found:
                for card, (start, finish) in plan.items():
                    early, late = sheet.jobs[card].held
                    assert early <= start and finish <= late
            cut = sum(job.held[0] - job.posted[0] + job.posted[1] - job.held[1] for job in sheet.jobs.values())
            assert all(job.posted[0] <= job.held[0] and job.held[1] <= job.posted[1] for job in sheet.jobs.values())
            assert 1 <= rounds <= cut + 1
            cut_any += cut > 0
            if status == "settled" and sheet.jobs and all(job.held[1] - job.held[0] == job.duration for job in sheet.jobs.values()):
                exact += 1
                assert found
            name = status if cause is None else f"overloaded, kind {cause[0]}, face {cause[1]}"
            tally[name] = tally.get(name, 0) + 1
    print(f"orders: {count} sheets of up to 5 jobs, each settled with 4 bounds and saved and loaded;",
          f"{cut_any} times windows were cut, {exact} times to the job's length")
    for name in sorted(tally):
        print(f"    {name}: {tally[name]}")


def check_refusals(rng, count):
    """A refused call or load changes nothing; an accepted post, narrow or withdraw opens the sheet."""
    refused = accepted = 0
    for _ in range(count):
        sheet = random_sheet(rng, rng.randint(0, 4), rng.randint(1, 3), 5, 20)
        sheet.settle(rng.choice(KINDS))
        for _ in range(20):
            before = state(sheet)
            card, early, late = rng.randint(0, 33), rng.randint(0, 20), rng.choice([rng.randint(0, 40), rng.randint(H - 2, H + 2)])
            call = rng.choice(["post", "narrow", "withdraw", "make", "load"])
            try:
                if call == "post":
                    sheet.post(card, rng.randint(0, 4), rng.randint(0, 9), early, late)
                elif call == "narrow":
                    sheet.narrow(card, early, late)
                elif call == "withdraw":
                    sheet.withdraw(card)
                elif call == "make":
                    sheet.make(rng.randint(0, 2), [rng.choice([0, 1, 10_001])] * rng.randint(0, 4))
                else:
                    page = sheet.page()
                    harm = page_cases.random_damage(rng, page)
                    refusal = sheet.load(page_cases.with_byte(page, *harm), "walk")
                    if refusal:
                        raise Refused(*refusal)
                    assert sheet.page() == page_cases.with_byte(page, *harm)
                    continue
            except Refused:
                refused += 1
                assert state(sheet) == before
            else:
                accepted += 1
                assert sheet.status == "open" and sheet.rounds == 0 and all(job.held == job.posted for job in sheet.jobs.values())
                sheet.settle(rng.choice(KINDS))
    print(f"calls: {refused} refused, which changed nothing; {accepted} accepted")


# The tables.

def check_tables():
    text, table = rig_cases.days(random.Random(rig_cases.SEED)), page_cases.table()
    written = page_cases.answers(table)
    assert " other" not in written and len(table) < 150_000
    for number in (13, 14, 1, 3, 4, 17, 15, 8, 9, 10, 11, 16, 18):
        assert f"refused {number} " in written, number
    for folder, name, content in ((FOLDER, "rig_day.txt", text), (FOLDER, "rig_day.out", answers(text)),
                                  (page_cases.FOLDER, "stdin", table.encode()), (page_cases.FOLDER, "stdout", written.encode())):
        with open(os.path.join(folder, name), "rb") as file:
            assert file.read() == content, name
    print(f"tables: {len(written.splitlines())} loads of pages and {len(text.splitlines())} lines for the rig, as they are made")


def main():
    check_examples()
    check_orders(random.Random(5), 1500)
    check_refusals(random.Random(6), 200)
    check_tables()
    print("all well")


if __name__ == "__main__":
    main()
