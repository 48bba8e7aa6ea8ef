#!/usr/bin/env python3
"""The assignment of a run, worked out from the truth of rows alone.

An independent reading of docs/reference: it knows nothing of clauses. It evaluates each row at each instant
by its definition on the endless run, says whether the run is settled, and prints the value of every variable.
The numbers in crates/job_cases and crates/rink come from here.

    tools/known_run.py            the run of all seventeen operators, and the one of the program rink
    tools/known_run.py --search   looks for a settled run of them
"""
import functools
import random
import sys

NAMES = ["signal", "not", "and", "or", "next", "until", "release", "after", "within", "throughout", "previous",
         "weak previous", "since", "trigger", "ago", "lately", "steadily"]


class Run:
    def __init__(self, k, l, letters, rows):
        self.k, self.l, self.letters, self.rows = k, l, letters, rows
        self.period = k - l + 1

    def letter(self, i):
        return self.letters[i if i <= self.k else self.l + (i - self.l) % self.period]

    @functools.lru_cache(None)
    def truth(self, n, i):
        code, a, b, t = self.rows[n]
        A = lambda j: self.truth(a, j)
        B = lambda j: self.truth(b, j)
        far = max(i, self.k) + 2 * self.period + 1
        name = NAMES[code - 1]
        if name == "signal":
            return a in self.letter(i)
        if name == "not":
            return not A(i)
        if name == "and":
            return A(i) and B(i)
        if name == "or":
            return A(i) or B(i)
        if name == "next":
            return A(i + 1)
        if name == "until":
            return any(B(j) and all(A(m) for m in range(i, j)) for j in range(i, far))
        if name == "release":
            return all(B(j) or any(A(m) for m in range(i, j)) for j in range(i, far))
        if name == "after":
            return A(i + t)
        if name == "within":
            return any(A(j) for j in range(i, i + t + 1))
        if name == "throughout":
            return all(A(j) for j in range(i, i + t + 1))
        if name == "previous":
            return i > 0 and A(i - 1)
        if name == "weak previous":
            return i == 0 or A(i - 1)
        if name == "since":
            return any(B(j) and all(A(m) for m in range(j + 1, i + 1)) for j in range(i + 1))
        if name == "trigger":
            return all(B(j) or any(A(m) for m in range(j + 1, i + 1)) for j in range(i + 1))
        if name == "ago":
            return i >= t and A(i - t)
        if name == "lately":
            return any(A(j) for j in range(max(0, i - t), i + 1))
        return all(A(j) for j in range(max(0, i - t), i + 1))

    def past(self, n):
        code, a, b, t = self.rows[n]
        name = NAMES[code - 1]
        return {"previous": (a, 1, False), "weak previous": (a, 1, True), "since": (n, 1, False), "trigger": (n, 1, True),
                "ago": (a, t, False), "lately": (a, t, False), "steadily": (a, t, True)}.get(name)

    def settled(self):
        for n in range(len(self.rows)):
            if self.past(n):
                s, reach, before = self.past(n)
                for j in range(1, reach + 1):
                    back = self.truth(s, self.l - j) if j <= self.l else before
                    if back != self.truth(s, self.k - (j - 1) % self.period):
                        return False
        return True

    def assignment(self):
        k, l = self.k, self.l
        out = [l == i for i in range(k + 1)] + [l <= i for i in range(k + 1)]
        for n, (code, a, b, t) in enumerate(self.rows):
            out += [self.truth(n, i) for i in range(k + 1)]
            if code in (6, 7):
                out += [any(self.truth(b, j) == (code == 6) for j in range(l, i + 1)) for i in range(k + 1)]
            if code in (8, 9, 10):
                out += [self.truth(a, k + 1 + j) for j in range(t)]
        return [int(x) for x in out]


ALL = [(1, 0, 0, 0), (1, 1, 0, 0), (2, 0, 0, 0), (3, 0, 1, 0), (4, 0, 1, 0), (5, 0, 0, 0), (6, 0, 1, 0), (7, 1, 0, 0),
       (8, 0, 0, 5), (9, 3, 0, 3), (10, 4, 0, 2), (11, 0, 0, 0), (12, 1, 0, 0), (13, 0, 1, 0), (14, 1, 0, 0),
       (15, 0, 0, 2), (16, 1, 0, 2), (17, 4, 0, 1)]

PUMP = [(1, 0, 0, 0), (1, 1, 0, 0), (17, 0, 0, 3), (11, 1, 0, 0), (2, 3, 0, 0), (3, 1, 4, 0), (2, 5, 0, 0), (4, 6, 2, 0)]


def search():
    for k, l in ((5, 3), (5, 2), (6, 4), (6, 3)):
        for _ in range(200000):
            letters = [{s for s in (0, 1) if random.random() < 0.5} for _ in range(k + 1)]
            run = Run(k, l, letters, ALL)
            loop = letters[l:]
            if len({tuple(sorted(x)) for x in loop}) > 1 and run.settled():
                print(k, l, letters)
                break


def show(name, run):
    values = run.assignment()
    print(f"{name}: k {run.k}, l {run.l}, letters {[sorted(x) for x in run.letters]}, settled {run.settled()}, {len(values)} variables")
    print(" ".join(map(str, values)))
    for n, row in enumerate(run.rows):
        print(f"  row {n}, {NAMES[row[0] - 1]}:", "".join("01"[run.truth(n, i)] for i in range(run.k + 1)))


if __name__ == "__main__":
    if "--search" in sys.argv:
        random.seed(1)
        search()
    else:
        show("all operators", Run(6, 3, [{0, 1}, set(), {0}, {1}, {0}, set(), {0}], ALL))
        show("pump before compressor", Run(5, 5, [set(), {0}, {0}, {0}, {0, 1}, {0, 1}], PUMP))
