"""early: the reports of controllers that drain their sessions while other tasks run, on threads: each is one that there can be.

A session that its task's run alone closes was drained at a count from the closing instruction's to the task's last, or it wasn't
drained, as the phase has other tasks. One that isn't closed wasn't drained. All else is a report of `run`.
"""
from __future__ import annotations

import itertools
import random
import re

from cases.race_cases import FIRST_JOB, JOBS, job_of
from fixtures.harness import PROGRAM, coverage, run, well
from fixtures.jobs import FIRST, FIRST_RESULT, Result
from models import answers

# How often the first module's job is run, by early and by run, and each drawn one.
RUNS, PLAIN_RUNS, FEW = 500, 50, 10
# A task that opens and closes two sessions, one after the other: their closing instructions are its second and fourth of five.
CALLS = "TASK A 100000 16 100 0\nTASK C 000000 16 100 0\nDATA 0 0A040A050A040A0507FE\n"
LOCATIONS = (0, 4, 6, 8)


def part(name: str, marks: str, count: int | None) -> list[str]:
    """The part of a session over the first module, which was drained at this count, or wasn't."""
    runs = [(it.start(), it.end()) for it in re.finditer(r"\^+", marks)]
    ranges = tuple(f"{LOCATIONS[first]:06X}-{LOCATIONS[end] - 1:06X}" for first, end in runs)
    _, *lines = FIRST.session(marks, 3, ranges)
    return [f"SESSION {name} PHASE P", *lines, "NOT DRAINED" if count is None else f"DRAINED COUNT {count}"]


def texts() -> set[bytes]:
    """All reports of the two sessions: what task A shows at a place shows in one of them at most."""
    results = [FIRST_RESULT, Result("RETURNED", 5, 0, name="C", entry=0)]
    front = ["COVERAGE REPORT", *(line for it in results for line in it.lines())]
    found = set()
    for where in itertools.product((1, 2, None), repeat=3):
        first, second = ("".join(":" if it == number else "^" for it in where) for number in (1, 2))
        for one, two in itertools.product((2, 3, 4, 5, None), (4, 5, None)):
            lines = [*front, *part("S1", first, one), *part("S2", second, two), "END", ""]
            found.add("\n".join(lines).encode())
    return found


def two_sessions() -> None:
    """early and run: a task's two sessions, one after the other, while another task goes through their module, 500 and 50 times"""
    job = FIRST.job(CALLS).replace(b"SESSION S M\n", b"SESSION S1 BY C M\nSESSION S2 BY C M\n")
    allowed, seen = texts(), set()
    for _ in range(RUNS):
        output = well(run([PROGRAM, "early"], job)).output
        assert output in allowed, f"no report of the job: {output!r}"
        seen.add(output)
    print(f"tests/command_line: {RUNS} runs of early on one job: {len(seen)} different reports", flush=True)
    reports = {re.sub(rb"(?m)^(?:NOT DRAINED|DRAINED COUNT [0-9]+)\n", b"", it) for it in allowed}
    for _ in range(PLAIN_RUNS):
        output = well(run([PROGRAM, "run"], job)).output
        assert output in reports, f"no report of the job: {output!r}"


def drawn() -> None:
    """early: sessions of two controllers while four other tasks run"""
    drained = 0
    for number in range(FIRST_JOB, FIRST_JOB + JOBS):
        job = job_of(random.Random(number))
        answer = answers.answer(["early"], job)
        for _ in range(FEW):
            output = well(run([PROGRAM, "early"], job)).output
            fault = answer.fault(0, output)
            assert fault is None, f"job {number}: {fault}"
            drained += output.count(b"\nDRAINED COUNT ")
        well(coverage("page", data=output))
    assert drained, "no session was drained"
    print(f"tests/command_line: {JOBS * FEW} runs of early on {JOBS} jobs: {drained} sessions drained", flush=True)


CHECKS = [two_sessions, drawn]
