#!/usr/bin/env python3
"""Writes random cases for tests/settle.py and crates/settle_cases: the same every time.

    python3 tests/cases.py > crates/settle_cases/stdin
    python3 tests/settle.py < crates/settle_cases/stdin > crates/settle_cases/stdout
"""
import random

from settle import outcome

H = 1_000_000


def closed(gap):
    n = len(gap)
    for k in range(n):
        for i in range(n):
            for j in range(n):
                gap[i][j] = min(gap[i][j], gap[i][k] + gap[k][j])
    return gap


def bound(rng):
    kind = rng.choice(["none", "least", "walk", "walk", "larger least walk", "larger walk none", "scripted"])
    if kind != "scripted":
        return kind
    given = [rng.choice([0, 1, 2, 3, 5, 8, 13, 400_000]) for _ in range(rng.randint(1, 32))]
    return " ".join(map(str, ["scripted", len(given), 0] + given[1:]))


def case(rng, n, scale, slack, shift):
    setups = rng.randint(1, 5)
    matrix = closed([[rng.randint(0, scale) for _ in range(setups)] for _ in range(setups)])
    setup = [rng.randrange(setups) for _ in range(n)]
    jobs = []
    for _ in range(n):
        duration = rng.randint(1, scale)
        early = rng.randint(0, slack // 2)
        late = early + duration + rng.randint(0, slack)
        jobs.append((duration, early, late))
    if shift == "end":
        last = max((late for _, _, late in jobs), default=0)
        jobs = [(d, e + H - last, l + H - last) for d, e, l in jobs]
    words = [bound(rng), n] + [x for job in jobs for x in job]
    words += [matrix[setup[i]][setup[j]] for i in range(n) for j in range(n)]
    return " ".join(map(str, words))


def ends(line, kind, face):
    words = outcome(line).split()
    return words[0] == "overloaded" and words[2:4] == [str(kind), str(face)]


def overloads(rng, kind, face, count):
    """So many small cases that end in an overload of this kind on this face."""
    found = 0
    while found < count:
        n = rng.randint(2, 5)
        line = case(rng, n, 5, 3 * n + 4, rng.choice(["start", "end"]))
        if ends(line, kind, face):
            found += 1
            print(line)


def main():
    rng = random.Random(20)
    print("walk 0")
    print("walk 2 4 0 10 5 0 10 0 3 2 0")
    print("walk 2 4 0 11 5 0 10 0 3 2 0")
    for kind, late in (("walk", 49), ("walk", 50), ("none", 49)):
        print(kind, 3, f"10 0 {late} " * 3, "10 " * 9)
    print("none 1 100000 0 1000000 0")
    print("none 1 1 999999 1000000 10000")
    for face in (0, 1):
        for kind, count in ((1, 6), (2, 8), (3, 12)):
            overloads(rng, kind, face, count)
    for _ in range(60):
        n = rng.randint(1, 4)
        print(case(rng, n, 6, 4 * n + 4, rng.choice(["start", "end"])))
    for _ in range(140):
        n = rng.randint(2, 7)
        print(case(rng, n, rng.choice([4, 9, 30]), rng.choice([8, 20, 40]) * n, rng.choice(["start", "start", "end"])))
    for _ in range(80):
        n = rng.randint(6, 14)
        print(case(rng, n, rng.choice([5, 20, 400]), rng.choice([20, 40, 90]) * n * rng.choice([1, 3]), rng.choice(["start", "end"])))
    for _ in range(20):
        print(case(rng, 32, rng.choice([3, 10, 10_000]), rng.choice([200, 900, 400_000]), rng.choice(["start", "end"])))


if __name__ == "__main__":
    main()
