"""Whole programs beside Hercules, step by step: registers, condition code and storage behind each instruction.

And what the addresses that it has executed say of marks, counts, marks files and evidence, by the pages alone. Hercules knows no touch
bytes: where a step reads one models/machine_operations.py tells, from the state in which Hercules begins the step.
"""
from __future__ import annotations

import os
import random
from concurrent.futures import ThreadPoolExecutor
from dataclasses import dataclass, field

from drawing import operands, programs
from fixtures import hercules
from fixtures.harness import difference
from fixtures.jobs import listing_of
from models import machine_operations, machine_task, marks_model, model
from trials.outside_instructions import Ended, Pair, case_of, ended, job, judged, state_difference, written

# How many steps a task may do, and how many tasks a program has.
STEPS, TASKS = 250, 2
# The kind of a result that ends where a step reads a touch byte.
TOUCHED = 16
# How many tasks a job may have.
MOST = 64
# The places by their addresses.
Table = dict[int, model.Place]


@dataclass
class Touched(hercules.Result):
    """A result up to a step that reads a touch byte, whose address is its code; and the visits that this step has begun."""

    begun: list[int] = field(default_factory=list)


@dataclass
class Run:
    """A program, its tasks, and what Hercules has made of them."""

    name: str
    program: programs.Program
    tasks: list[operands.Task]
    others: list[hercules.Result] = field(default_factory=list)

    def job(self, tasks: list[tuple[operands.Task, int]]) -> bytes:
        """A job of tasks with budgets, and the session S over the module."""
        return job(self.program.text, tasks, listing_of(self.program.code))


def drawn(seed: int, number: int) -> Run:
    draw = random.Random(f"{seed} program {number}")
    program = programs.Writer(draw).program()
    tasks = []
    for n in range(TASKS):
        first, storage = programs.registers(draw), programs.private(draw)
        tasks.append(operands.Task(f"T{n}", first, operands.BASE, storage, program.text, STEPS))
    return Run(f"program {number}", program, tasks)


# ---- what the executed addresses say


def shown_by(run: Run, table: Table) -> marks_model.Shown:
    """What the addresses that Hercules has executed show at the places."""
    shown = marks_model.Shown()
    for number, other in enumerate(run.others):
        begun = other.begun if isinstance(other, Touched) else []
        after = [*other.trace[1:], other.state][: other.steps - isinstance(other, Touched)]
        for step, (before, it) in enumerate(zip(other.trace, after)):
            visit(shown, run.program.text, table, before, it.went, (number, step))
        # What reads a touch byte is no branch.
        for order, place in enumerate(map(table.get, begun)):
            if place:
                shown.add(place, False, (number, len(after), order))
    return shown


def visit(shown: marks_model.Shown, text: bytes, table: Table, state: hercules.State, went: bool, at: tuple[int, int]) -> None:
    """Adds what a step shows, which begins in this state: at its own place, and at that of the subject of an EX."""
    location, own = state.at - operands.BASE, table.get(state.at)
    code = text[location : location + 4] if 0 <= location < len(text) else b""
    if code[:1] != b"\x44":
        if own:
            shown.add(own, went, (*at, 0))
        return
    if own:
        shown.add(own, False, (*at, 0))
    numbers = code[1] & 15, code[2] >> 4
    to = sum(state.registers[it] for it in numbers if it) + (code[2] & 15) * 256 + code[3]
    subject = table.get(to % (1 << 24))
    if subject and subject.half[0] != 0x44:
        shown.add(subject, went, (*at, 1))


# ---- the comparison


def fault_in_marks(program: str, run: Run) -> str | None:
    """What is wrong with marks, counts, marks file and evidence."""
    data = run.job([(it, STEPS) for it in run.tasks])
    read = model.job_of(data, True)
    model.read_listings(read)
    (module,) = read.modules
    shown = shown_by(run, {it.address: it for it in module.table()})
    texts = [written(program, words, data) for words in (["run"], ["count"], ["marks", "S"], ["prove", "S"])]
    wanted = (
        marks_model.session_part(b"S", b"P", [module], shown.facts) + b"END\n",
        marks_model.counts_part(b"S", b"P", [module], shown.counts()) + b"END\n",
        marks_model.session_file(b"S", [module], shown.facts).data(),
        marks_model.evidence_of([module], shown.firsts),
    )
    for word, text, whole in zip(("run", "count", "marks", "prove"), texts, wanted):
        part = text[text.index(b"SESSION S ") :] if word in ("run", "count") else text
        if part != whole:
            return f"{word}: {difference(whole, part)}"
    return None


def fault_of(program: str, run: Run) -> str | None:
    """What is wrong with anything that the program says of a run, unless Hercules has failed in it."""
    if any(it.kind == hercules.FAILED for it in run.others):
        return None
    return fault_in_marks(program, run) or fault_in_steps(program, run)


def fault_in_steps(program: str, run: Run) -> str | None:
    """What is wrong with the states behind each step."""
    for task, other in zip(run.tasks, run.others):
        for first in range(1, other.steps + 1, MOST):
            budgets = range(first, min(first + MOST, other.steps + 1))
            text = written(program, ["run"], run.job([(task, it) for it in budgets])).decode()
            for budget, had in zip(budgets, ended(text, [task] * len(budgets))):
                fault = fault_at(task, other, budget, had)
                if fault:
                    return f"task {task.name}, step {budget}: {fault}"
    return None


def fault_at(task: operands.Task, other: hercules.Result, budget: int, had: Ended) -> str | None:
    """What is wrong with the state behind a step."""
    if budget == other.steps and isinstance(other, Touched):
        is_told = (had.ending, had.count) == (f"TOUCHED {other.code:06X}", budget)
        return state_difference(Pair(task, had, other), other.state) or None if is_told else f"{had.ending} COUNT {had.count}, and no touch"
    if budget == other.steps and other.kind != hercules.DONE:
        return judged(Pair(task, had, other))[1]
    state = other.trace[budget]
    wanted = "RETURNED" if state.at == 0xFFFFFE else "SPENT"
    if (had.ending, had.count) != (wanted, budget):
        return f"{had.ending} COUNT {had.count}, and not {wanted} COUNT {budget}"
    return state_difference(Pair(task, had, other), state) or None


def compare(program: str, seed: int, count: int) -> tuple[list[Run], list[str]]:
    """Programs with what Hercules has made of them, and what is wrong with the program's results."""
    runs = [drawn(seed, n) for n in range(count)]
    return runs, [f"seed {seed}, {it}" for it in beside_hercules(program, runs)]


def beside_hercules(program: str, runs: list[Run]) -> list[str]:
    """Runs programs on Hercules, and says what is wrong with what the program makes of them."""
    with hercules.Hercules() as machine:
        others = iter(list(machine.run([case_of(it, True) for run in runs for it in run.tasks])))
    for run in runs:
        run.others = [touched(run, returned(next(others))) for _ in run.tasks]
    with ThreadPoolExecutor(os.cpu_count()) as pool:
        faults = pool.map(lambda it: fault_of(program, it), runs)
    return [f"{run.name}: {fault}" for run, fault in zip(runs, faults) if fault]


def told(runs: list[Run]) -> str:
    """How many programs, steps and endings there were."""
    others = [it for run in runs for it in run.others]
    words = {hercules.DONE: "spent or returned", hercules.CALL: "by a call", hercules.PROGRAM: "interrupted", TOUCHED: "touched"}
    ends = ", ".join(f"{sum(it.kind == kind for it in others)} {word}" for kind, word in words.items())
    return f"{len(runs)} programs, {len(others)} tasks, {sum(it.steps for it in others)} steps: {ends}"


def touched(run: Run, other: hercules.Result) -> hercules.Result:
    """A result up to the first step that reads a touch byte: there docs/MACHINE.md ends the task."""
    touch = {operands.BASE + location + n for location, _, _ in run.program.code for n in (0, 1)}
    world = machine_task.World([(operands.BASE, bytes(run.program.text))], touch)
    for step, it in enumerate(other.trace[: other.steps], 1):
        task = machine_task.Task(world, list(it.registers), it.at, bytearray(it.private), condition=it.condition, mask=it.mask)
        ending = task.step(machine_operations.OPERATIONS) or ""
        if ending.startswith("TOUCHED "):
            return Touched(TOUCHED, int(ending[8:], 16), step, it, other.trace[:step], task.visits)
    return other


def returned(other: hercules.Result) -> hercules.Result:
    """A result without the step that Hercules makes at X'FFFFFE', where a task has returned."""
    if other.kind == hercules.PROGRAM and other.state.at == 0xFFFFFE:
        return hercules.Result(hercules.DONE, 0, other.steps - 1, other.trace[-1], other.trace)
    return other
