"""What the tasks of a job come to and show, each run once, alone, by models/machine_operations.py.

Of a controlled session the bounds of docs/REPORT.md come of the same runs: at least what its controller shows while it is
open, and at most this and all that the other tasks of the phase show; nothing where its controller never opens it.
"""
from __future__ import annotations

import collections
from dataclasses import dataclass, field, replace

from fixtures.jobs import Result
from models import machine_operations, marks_model, model, services_model
from models.machine_task import RETURN, Course, Task, World

# How many instructions the tasks of a job may do together, that one can wait for.
STEPS = 150_000


class TooLong(Exception):
    """The tasks of a job do more than can be waited for."""


@dataclass
class Run:
    """A task's run: its lines of a report, where it ended, what it shows, what it began in modules where no place is, and of the
    sessions that it controls what it shows while each is open and the instruction that closes it."""

    name: bytes
    phase: bytes
    private: int
    result: Result
    count: int = 0
    at: int = 0
    strays: collections.Counter[int] = field(default_factory=collections.Counter)
    shown: marks_model.Shown = field(default_factory=marks_model.Shown)
    under: dict[bytes, marks_model.Shown] = field(default_factory=dict)
    closed: dict[bytes, int] = field(default_factory=dict)

    def lines(self) -> bytes:
        return "\n".join([*self.result.lines(), ""]).encode()


def tasks_of(job: model.Job) -> list[tuple[bytes, Task, int]]:
    """Each task's name, its first state and its budget."""
    world = World(
        [(it.base, it.text) for it in job.modules],
        {place.address + n for it in job.modules for place in it.table() for n in (0, 1)},
    )
    found: list[tuple[bytes, Task, int]] = []
    for kind, fields in job.cards:
        if kind == b"TASK":
            entry, private, budget, room = int(fields[1], 16), *map(int, fields[2:])
            registers = [0] * 14 + [RETURN, entry]
            found.append((fields[0], Task(world, registers, entry, bytearray(private), room=room), budget))
        elif kind == b"REG":
            found[-1][1].registers[int(fields[0])] = int(fields[1], 16)
        elif kind == b"DATA":
            found[-1][1].store(int(fields[0]), bytes.fromhex(fields[1].decode()))
        elif kind == b"INPUT":
            found[-1][1].source += bytes.fromhex(fields[0].decode())
    return found


def phases_of(job: model.Job) -> list[bytes]:
    """Of each task its phase."""
    found, phase = [], b""
    for kind, fields in job.cards:
        phase = fields[0] if kind == b"PHASE" else phase
        found += [phase] if kind == b"TASK" else []
    return found


def rows_of(first: bytes, last: bytes) -> list[str]:
    """The rows of storage that differ."""
    if first == last:
        return []
    rows = ((at, last[at : at + 16]) for at in range(0, len(first), 16) if first[at : at + 16] != last[at : at + 16])
    return [f"{at:06X} {row.hex().upper()}" for at, row in rows]


class Runner:
    """Runs the tasks of a job, and those that begin alike once."""

    def __init__(self, job: model.Job, has_exits: bool = False) -> None:
        self.job, self.has_exits, self.steps = job, has_exits, STEPS
        self.places = {place.address: place for it in job.modules for place in it.table()}
        self.known: dict[tuple[object, ...], Run] = {}

    def all(self) -> list[Run]:
        """The runs in the order of the tasks."""
        tasks = zip(tasks_of(self.job), phases_of(self.job))
        return [self.run(number, name, phase, task, budget) for number, ((name, task, budget), phase) in enumerate(tasks)]

    def run(self, number: int, name: bytes, phase: bytes, task: Task, budget: int) -> Run:
        own = [it for it in self.job.sessions if self.job.controllers.get(it[0]) == name]
        start = (task.at, tuple(task.registers), bytes(task.storage), task.source, task.room, budget)
        if own or start not in self.known:
            found = self.run_alone(name, phase, task, budget, own)
            self.known[start] = found if not own else self.known.get(start, found)
        else:
            found = self.known[start]
        return replace(found, name=name, phase=phase, result=replace(found.result, name=name.decode()), shown=numbered(found.shown, number))

    def run_alone(self, name: bytes, phase: bytes, task: Task, budget: int, own: list[tuple[bytes, bytes, list[model.Module]]]) -> Run:
        entry, first, task.has_exits = task.at, bytes(task.storage), self.has_exits
        run = Run(name, phase, len(first), Result("", 0))
        # How many of its sessions it has opened, and the addresses of the places of the one that is open.
        opened = 0
        open_: tuple[bytes, set[int]] | None = None

        def behind(done: int) -> None:
            nonlocal opened, open_
            self.steps -= 1
            if not self.steps:
                raise TooLong
            for subject, at in enumerate(task.visits):
                place = self.places.get(at)
                if not place:
                    run.strays[at] += 1
                else:
                    run.shown.add(place, task.went, (0, done, subject))
                    if open_ and at in open_[1]:
                        run.under[open_[0]].add(place, task.went, (0, done, subject))
            if task.called == 4 and not open_ and opened < len(own):
                session, _, modules = own[opened]
                open_, opened = (session, {place.address for it in modules for place in it.table()}), opened + 1
                run.under[session] = marks_model.Shown()
            elif task.called == 5 and open_:
                run.closed[open_[0]], open_ = done + 1, None

        services = self.job.services
        course: Course = machine_operations.leaving
        if services is not None:
            course = services_model.Served(services)
        ending, run.count, run.at = machine_operations.run(task, budget, behind, course)
        run.result = Result(
            ending, run.count, task.condition, dict(enumerate(task.registers)), task.output, rows_of(first, task.storage), name.decode(), entry,
        )
        return run


def numbered(shown: marks_model.Shown, number: int) -> marks_model.Shown:
    """The same of the task of this number."""
    firsts = {at: {bit: (number, done, subject) for bit, (_, done, subject) in it.items()} for at, it in shown.firsts.items()}
    return marks_model.Shown(shown.facts, shown.met, firsts)


def union(all_: list[marks_model.Shown]) -> marks_model.Shown:
    """What several show together, the earlier first."""
    found = marks_model.Shown()
    for shown in all_:
        for at, bits in shown.facts.items():
            found.facts[at] = found.facts.get(at, 0) | bits
            met = found.met.setdefault(at, {})
            for bit, count in shown.met[at].items():
                met[bit] = met.get(bit, 0) + count
            found.firsts[at] = {**shown.firsts[at], **found.firsts.get(at, {})}
    return found


@dataclass
class Bounds:
    """Of a session the facts at least and at most, and where it may be drained: from which count on to which one, and whether it may
    not be; no counts where no SVC 5 closes it."""

    least: marks_model.Facts
    most: marks_model.Facts
    drained: range = range(0)
    may_not: bool = True


def bounds(job: model.Job, runs: list[Run], session: bytes, phase: bytes) -> Bounds:
    """The bounds of a session, which are one where it is whole."""
    by = job.controllers.get(session)
    own = [it for it in runs if it.phase == phase]
    others = union([it.shown for it in own if it.name != by]).facts
    if by is None:
        return Bounds(others, others)
    (run,) = [it for it in own if it.name == by]
    if session not in run.under:
        return Bounds({}, {})
    least = run.under[session].facts
    most = {at: least.get(at, 0) | others.get(at, 0) for at in {*least, *others}}
    if session not in run.closed:
        return Bounds(least, most)
    at = run.closed[session]
    return Bounds(least, most, range(at, run.count + 1 if len(own) > 1 else at + 1), len(own) > 1)
