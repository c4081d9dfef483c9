#!/usr/bin/env python3
"""Settles job books by the definitions of docs/RULES.md, docs/TREES.md and docs/BOUNDS.md.

A second program, independent of the repository's code: each set of jobs gets a tree of its own, worked out afresh.
It reads cases from standard input, one a line, and writes an outcome for each:

    python3 tests/settle.py < cases

A case is a bound, the number n of jobs, n times duration, early end and late end, and n x n gaps, row by row. A bound is
none, least, walk, larger A B of two bounds, or scripted with a count and so many numbers, of which each is cut to the walk's.
An outcome is settled or overloaded, the rounds, for an overload its kind, face and two jobs (from 1; 0 for none), and the held
windows.
"""
import sys

H = 1_000_000
TOP = 1_000_000_000


def later(x, y):
    if x is None:
        return y
    if y is None:
        return x
    return max(x, y)


def join(b, left, right):
    pl, nl, el = left
    pr, nr, er = right
    moved = None if el is None else min(el + pr + b(nr), TOP)
    return min(pl + pr, TOP), min(nl + nr, TOP), later(er, moved)


class Face:
    def __init__(self, early, late, duration, gap):
        self.early, self.late, self.duration, self.gap = early, late, duration, gap
        self.jobs = range(len(early))
        self.finish = [early[j] + duration[j] for j in self.jobs]
        self.start = [late[j] - duration[j] for j in self.jobs]

    def turned(self):
        gap = [[self.gap[j][i] for j in self.jobs] for i in self.jobs]
        return Face([H - x for x in self.late], [H - x for x in self.early], self.duration, gap)

    def place(self, j):
        return sum(1 for k in self.jobs if (self.early[k], k) < (self.early[j], j))

    def e(self, b, jobs):
        """E(S): the finish at the root with just these jobs at their places."""
        row = [(0, 0, None)] * 32
        for j in jobs:
            row[self.place(j)] = (self.duration[j], 1, self.finish[j])
        while len(row) > 1:
            row = [join(b, row[k], row[k + 1]) for k in range(0, len(row), 2)]
        return row[0][2]

    def can_precede(self, i, j):
        return self.finish[i] + self.gap[i][j] <= self.start[j]

    def least_gap(self, jobs, i):
        return min(self.gap[j][i] for j in jobs)

    def new_early(self, b, order, i):
        ends = [self.early[i]]
        ends += [self.finish[j] + self.gap[j][i] for j in self.jobs if j != i and not self.can_precede(i, j)]
        detected = [j for j in self.jobs if j != i and self.start[j] < self.finish[i]]
        if detected:
            ends.append(self.e(b, detected) + self.least_gap(detected, i))
        at = order.index(i)
        for t in range(at - 1, -1, -1):
            if self.e(b, order[:t + 1] + [i]) > self.late[order[t]]:
                ends.append(self.e(b, order[:t + 1]) + self.least_gap(order[:t + 1], i))
                break
        return max(ends)

    def new_late(self, b, i):
        rivals = [j for j in self.jobs if j != i and self.start[j] < self.late[i]]
        if rivals and self.e(b, rivals) + self.least_gap(rivals, i) > self.start[i]:
            return min(self.late[i], max(self.start[j] - self.gap[i][j] for j in rivals))
        return self.late[i]

    def half(self, b):
        """A half round: (kind, job, job) for an overload, or the new windows."""
        for i in self.jobs:
            for j in range(i + 1, len(self.jobs)):
                if not self.can_precede(i, j) and not self.can_precede(j, i):
                    return (1, i + 1, j + 1), None
        order = sorted(self.jobs, key=lambda j: (self.late[j], j))
        for t, j in enumerate(order):
            if self.e(b, order[:t + 1]) > self.late[j]:
                return (2, j + 1, 0), None
        early = [self.new_early(b, order, i) for i in self.jobs]
        late = [self.new_late(b, i) for i in self.jobs]
        for i in self.jobs:
            if late[i] - early[i] < self.duration[i]:
                return (3, i + 1, 0), None
        return None, Face(early, late, self.duration, self.gap)


def settle(face, b):
    rounds = 0
    while True:
        rounds += 1
        cause, first = face.half(b)
        if cause:
            return rounds, (cause[0], 0) + cause[1:], face
        cause, second = first.turned().half(b)
        if cause:
            return rounds, (cause[0], 1) + cause[1:], first
        left = second.turned()
        if (left.early, left.late) == (face.early, face.late):
            return rounds, None, face
        face = left


def walk_numbers(n, gap):
    w, numbers = [0] * n, []
    for _ in range(n):
        numbers.append(min(w))
        w = [min((w[i] + gap[i][j] for i in range(n) if i != j), default=0) for j in range(n)]
    return numbers


def read_bound(words):
    """The numbers of a bound, as a function of n and the gaps."""
    kind = next(words)
    if kind == "none":
        return lambda n, gap: [0] * n
    if kind == "least":
        def least(n, gap):
            step = min((gap[i][j] for i in range(n) for j in range(n) if i != j), default=0)
            return [e * step for e in range(n)]
        return least
    if kind == "walk":
        return walk_numbers
    if kind == "larger":
        one, other = read_bound(words), read_bound(words)
        return lambda n, gap: [max(x, y) for x, y in zip(one(n, gap), other(n, gap))]
    given = [int(next(words)) for _ in range(int(next(words)))]
    given += [0] * 32
    return lambda n, gap: [min(x, y) for x, y in zip(given, walk_numbers(n, gap))]


def outcome(line):
    words = iter(line.split())
    bound = read_bound(words)
    n = int(next(words))
    jobs = [[int(next(words)) for _ in range(3)] for _ in range(n)]
    gap = [[min(int(next(words)), 12_000) for _ in range(n)] for _ in range(n)]
    numbers = bound(n, gap)
    face = Face([j[1] for j in jobs], [j[2] for j in jobs], [j[0] for j in jobs], gap)
    rounds, cause, held = settle(face, lambda e: numbers[e] if e < n else 0)
    answer = ["settled", rounds] if cause is None else ["overloaded", rounds, *cause]
    for j in range(n):
        answer += [held.early[j], held.late[j]]
    return " ".join(map(str, answer))


if __name__ == "__main__":
    for line in sys.stdin:
        if line.strip():
            print(outcome(line))
