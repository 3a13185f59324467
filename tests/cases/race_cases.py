"""Sessions that two tasks open and close while four others run, on threads: what each run finds lies within the bounds of a model.

The model, models/answers.py, runs each task alone. A session of a task has at least what that task itself shows while it is open,
and at most that and all that the other tasks show; nothing where its task never opens it. All else of a report is the same in each run.
"""
from __future__ import annotations

import random

from cases.replay_cases import SAFE, code_of
from fixtures import phase_jobs
from fixtures.harness import PROGRAM, run
from fixtures.phase_jobs import Module, Session, Task
from models import answers

# How many jobs are drawn, from which number on, and how often each is run.
JOBS, FIRST_JOB, RUNS = 20, 1, 25
# Where a controller's private storage has the calls that it executes by EX.
CALLS = 0x180


def looping(draw: random.Random, base: int, size: int) -> list[str]:
    """A module's instructions, which are gone through again by a count of register 3; no call ends the task."""
    rows = [it.replace("0A00", "0A04") for it in code_of(draw, base, size)[:-1]]
    return [*rows, f"4630C{base - 0x100000:03X}", "07FE"]


def private_of(draw: random.Random, modules: list[Module]) -> str:
    """A controller's instructions in private storage: waits, calls, and EX of a call or of a module's instruction; last a branch."""
    text = ""
    for _ in range(draw.randrange(4, 16)):
        module, at, kind = draw.choice([(it, at, kind) for it in modules for at, _, kind in it.located()])
        ored = draw.choice((0, 4, 5)) if kind in SAFE else 0
        wait = f"4190{draw.choice((20, 300, 4000)):04X}4690{len(text) // 2 + 4:04X}"
        executed = draw.choice((f"4440{CALLS:04X}", f"4450{CALLS:04X}", f"44{ored:X}0C{module.base - 0x100000 + at:03X}"))
        text += draw.choice((wait, wait, "0A04", "0A05", "0A04", "0A05", executed))
    text += draw.choice(("07FE", f"47F0C{modules[0].base - 0x100000:03X}"))
    return text.ljust(2 * CALLS, "0") + "0A00"


def job_of(draw: random.Random) -> bytes:
    """Three modules, four or five sessions of two controllers over two of them, a whole one over the third; four further tasks."""
    modules = [Module(name, base, looping(draw, base, draw.randrange(2, 7))) for name, base in (("M", 0x100000), ("N", 0x100080), ("V", 0x100100))]
    first, second, third = modules
    sessions = [
        Session("S1", [first], "C"),
        Session("S2", [first], "C"),
        Session("S3", [second], "D"),
        Session("S4", [second], "D"),
        Session("W", [third]),
        *([Session("S5", [first], "C")] if draw.randrange(2) else []),
    ]
    draw.shuffle(sessions)
    tasks = []
    for name in "ABCDEF":
        registers = {1: draw.randrange(1, 9), 2: draw.randrange(1, 9), 3: draw.randrange(1, 2000), 4: 4, 5: 5, 12: 0x100000}
        is_inside = name not in "CD" or draw.randrange(6) == 0
        entry = draw.choice([it.base + at for it in modules for at, _, _ in it.located()[:-1]]) if is_inside else 0
        private = private_of(draw, modules) if name in "CD" else ""
        tasks.append(Task(name, entry, draw.choice((500, 5000, 20000)), registers, private))
    return phase_jobs.job(modules, sessions, tasks)


def races() -> None:
    """sessions that tasks open and close while others run on threads"""
    texts: set[tuple[int, bytes]] = set()
    for number in range(FIRST_JOB, FIRST_JOB + JOBS):
        job = job_of(random.Random(number))
        answer = answers.answer(["run"], job)
        for _ in range(RUNS):
            ran = run([PROGRAM, "run"], job)
            fault = answer.fault(ran.status, ran.output)
            assert fault is None, f"job {number}: {fault}"
            texts.add((number, ran.output))
    print(f"tests/command_line: {JOBS} jobs with controllers, {JOBS * RUNS} runs on threads: {len(texts)} different reports", flush=True)


CHECKS = [races]
