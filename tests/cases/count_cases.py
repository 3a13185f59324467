"""Counts of tasks that all run one loop at once, on threads: each is the sum of what the tasks show alone."""
from __future__ import annotations

import random

from fixtures.harness import PROGRAM, equal, run, well
from fixtures.jobs import Program, Result

# How many tasks there are, how long the longest goes through the loop, and how often the job is run.
TASKS, LONGEST, RUNS = 64, 4000, 200
# The first branch goes past LR but where register 1 comes to 0, and the second goes back until register 2 does.
LOOP = Program.of("0 4610F006 BCT, 4 1833 LR, 6 4620F000 BCT, A 07FE BR")


def passes(first: int, second: int) -> tuple[tuple[int, int], int, tuple[int, int]]:
    """Of a task with these in registers 1 and 2 how often the first branch went and stayed, LR ran, and the second branch went and
    stayed."""
    stayed = int(first <= second)
    return (second - stayed, stayed), stayed, (second - 1, 1)


def sums() -> None:
    """count: 64 tasks that all run one loop at once, 200 times"""
    draw = random.Random(26)
    cards, results, totals = "", [], [[0, 0], [0], [0, 0], [0]]
    for number in range(TASKS):
        first, second = draw.randrange(1, LONGEST), draw.randrange(1, LONGEST)
        cards += f"TASK T{number} 100000 16 1000000 0\nREG 1 {first:08X}\nREG 2 {second:08X}\n"
        went, ran, back = passes(first, second)
        results.append(Result("RETURNED", 2 * second + ran + 1, 0, {1: (first - second) % 2**32}, name=f"T{number}"))
        for total, more in zip(totals, (went, (ran,), back, (1,))):
            total[:] = [one + other for one, other in zip(total, more)]
    job, text = LOOP.job(cards), LOOP.counted(results, *(tuple(it) for it in totals))
    for _ in range(RUNS):
        equal(well(run([PROGRAM, "count"], job)).output, text)


CHECKS = [sums]
