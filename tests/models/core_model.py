"""A phase whose tasks fetch, mark, lift, plant and close by turns, as docs/JOB.md and docs/MACHINE.md say, on its own.

It is slow and plain: each event is asked whether it is possible by a rule of its own, a set is a number and a cell a pair. What an
instruction does is tried on a copy of its task, by models/machine_operations.py.
"""
from __future__ import annotations

from dataclasses import dataclass, replace

from fixtures.jobs import Result
from models import machine_operations, machine_task, marks_model, model, task_runs
from models.machine_task import RETURN

PLANTED = "0AFF"
EVENTS = ("FETCH", "MARK", "LIFT", "PLANT", "CLOSE", "DO")
KEYS = (*EVENTS, "GO")
Session = tuple[bytes, bytes, list[model.Module]]


@dataclass
class Cell:
    """What stands at a place: a tag, and whether it is the breakpoint."""

    place: model.Place
    tag: int = 0
    is_planted: bool = False


@dataclass
class Hand:
    """What a task has in hand: the cell, as it was fetched, and what was done with it."""

    cell: Cell
    tag: int
    is_planted: bool
    is_subject: bool
    is_marked: bool = False
    is_full: bool = False
    is_lifted: bool = False


@dataclass
class Step:
    """The instruction that a task is at: the task behind it, how that ends then, and the address of the subject of an EX."""

    behind: machine_task.Task
    ending: str | None
    subject: int | None


@dataclass
class Party:
    """A task as it stands."""

    name: str
    machine: machine_task.Task
    budget: int
    # What it began with.
    entry: int
    private: bytes
    count: int = 0
    ending: str | None = None
    hand: Hand | None = None
    awaits: bool = False
    # Of the sessions that it controls how many it has opened, the one that is open, and the places done of an SVC in hand.
    opened: int = 0
    open: Session | None = None
    done: int = 0
    # What it would do next, once that was asked.
    step: Step | None = None


class Core:
    """The phase of a job that has one."""

    def __init__(self, job: model.Job) -> None:
        self.job, self.steps = job, task_runs.STEPS
        self.tasks: dict[str, Party] = {}
        for name, it, budget in task_runs.tasks_of(job):
            self.tasks[name.decode()] = Party(name.decode(), it, budget, it.at, bytes(it.storage))
        self.cells = {place.address: Cell(place) for it in job.modules for place in it.table()}
        self.sets: dict[tuple[int, int], int] = {}
        for number, session in enumerate(job.sessions, 1):
            for cell in self.cells_of(session) if session[0] not in job.controllers else []:
                cell.tag, cell.is_planted = 2 * number - 1, True

    def cells_of(self, session: Session) -> list[Cell]:
        """In the order of their numbers."""
        return [self.cells[place.address] for it in self.job.modules if it in session[2] for place in it.table()]

    # ---- what is possible

    def next(self, task: Party) -> Step:
        """What the instruction that the task is at would do."""
        if task.step is None:
            it = task.machine
            behind = replace(it, registers=list(it.registers), storage=bytearray(it.storage))
            task.step = Step(behind, behind.step(machine_operations.OPERATIONS), subject_of(it))
        return task.step

    def is_stopped(self, task: Party) -> bool:
        return task.machine.at == RETURN or task.count == task.budget

    def to_fetch(self, task: Party) -> Cell | None:
        """The cell that the task may fetch."""
        if task.ending or task.hand:
            return None
        if task.awaits:
            return self.cells[self.next(task).subject or 0]
        return None if self.is_stopped(task) else self.cells.get(task.machine.at)

    def may_mark(self, task: Party) -> bool:
        hand = task.hand
        return bool(hand and hand.is_planted and not hand.is_marked and not (hand.is_subject and hand.cell.place.half[0] == 0x44))

    def may_lift(self, task: Party) -> bool:
        return bool(task.hand and task.hand.is_full and not task.hand.is_lifted)

    def is_whole(self, task: Party) -> bool:
        """Whether the next Do executes an instruction whole, EX with its subject."""
        if task.ending or self.to_fetch(task) or self.may_mark(task) or self.may_lift(task):
            return False
        if not task.hand and self.is_stopped(task):
            return False
        return bool(task.hand and task.hand.is_subject) or self.next(task).subject not in self.cells

    def change(self, task: Party) -> tuple[bool, Session] | None:
        """Whether the instruction in hand closes a session, and which it opens or closes."""
        if not self.is_whole(task):
            return None
        call = self.next(task).behind.called
        own = [it for it in self.job.sessions if self.job.controllers.get(it[0]) == task.name.encode()]
        if call == 4 and task.open is None and task.opened < len(own):
            return False, own[task.opened]
        if call == 5 and task.open is not None:
            return True, task.open
        return None

    def cell_due(self, task: Party) -> tuple[bool, Session, Cell] | None:
        change = self.change(task)
        if change is None:
            return None
        cells = self.cells_of(change[1])
        return (*change, cells[task.done]) if task.done < len(cells) else None

    def may_do(self, task: Party) -> bool:
        return not (task.ending or self.to_fetch(task) or self.may_mark(task) or self.may_lift(task) or self.cell_due(task))

    def is_possible(self, key: str, name: str) -> bool:
        task = self.tasks[name]
        due = self.cell_due(task)
        return {
            "FETCH": self.to_fetch(task) is not None,
            "MARK": self.may_mark(task),
            "LIFT": self.may_lift(task),
            "PLANT": due is not None and not due[0],
            "CLOSE": due is not None and due[0],
            "DO": self.may_do(task),
            "GO": task.ending is None,
        }[key]

    # ---- events

    def play(self, key: str, name: str) -> str:
        """Makes an event, or all of a task; what its line tells behind the task."""
        task = self.tasks[name]
        if key == "GO":
            while task.ending is None:
                self.play(next(it for it in EVENTS if self.is_possible(it, name)), name)
            return ""
        makes = (self.fetch, self.mark, self.lift, self.put, self.put, self.execute)
        return dict(zip(EVENTS, makes))[key](task)

    def fetch(self, task: Party) -> str:
        cell = self.to_fetch(task)
        assert cell
        task.hand = Hand(cell, cell.tag, cell.is_planted, task.awaits)
        task.awaits = False
        return f" TAG {cell.tag} HALF {PLANTED if cell.is_planted else cell.place.half.hex().upper()}"

    def mark(self, task: Party) -> str:
        hand = task.hand
        assert hand
        place = hand.cell.place
        key = hand.tag // 2, place.address
        old = self.sets.get(key, 0)
        # The branch is that of the subject; EX itself is none.
        self.sets[key] = old | (1 if not place.kind() else 2 if self.next(task).behind.went else 4)
        hand.is_marked, hand.is_full = True, self.sets[key] == (6 if place.kind() else 1)
        return f" OLD {''.join(letter for letter, bit in (('R', 1), ('W', 2), ('S', 4)) if old & bit) or '-'}"

    def lift(self, task: Party) -> str:
        hand = task.hand
        assert hand
        taken = hand.cell.tag == hand.tag and hand.cell.is_planted
        hand.cell.is_planted &= not taken
        hand.is_lifted = True
        return " TAKEN" if taken else " NOT TAKEN"

    def put(self, task: Party) -> str:
        due = self.cell_due(task)
        assert due
        closes, session, cell = due
        cell.tag, cell.is_planted = 2 * self.job.sessions.index(session) + 2 - (not closes), not closes
        task.done += 1
        return f" {session[0].decode()} {cell.place.address:06X}"

    def execute(self, task: Party) -> str:
        if not task.hand and self.is_stopped(task):
            task.ending = "RETURNED" if task.machine.at == RETURN else "SPENT"
            return ""
        step, change = self.next(task), self.change(task)
        if not self.is_whole(task):
            task.hand, task.awaits = None, True
            return ""
        self.steps -= 1
        if not self.steps:
            raise task_runs.TooLong
        if change is not None:
            task.open = None if change[0] else change[1]
            task.opened += not change[0]
        task.machine, task.ending, task.step = step.behind, step.ending, None
        task.count, task.hand, task.done = task.count + 1, None, 0
        return ""

    # ---- the report

    def report(self) -> bytes:
        parts = []
        for it in self.tasks.values():
            task = it.machine
            rows = task_runs.rows_of(it.private, task.storage)
            registers = dict(enumerate(task.registers))
            lines = Result(it.ending or "RUNNING", it.count, task.condition, registers, task.output, rows, it.name, it.entry).lines()
            parts.append("\n".join([*lines, ""]).encode())
        for number, session in enumerate(self.job.sessions):
            facts = {at: bits for (own, at), bits in self.sets.items() if own == number}
            parts.append(marks_model.session_part(*session, facts))
        return b"".join([*parts, b"END\n"])


def subject_of(task: machine_task.Task) -> int | None:
    """The even address of the subject of the EX that the task is at, where it is at one."""
    try:
        code = task.fetch(task.at) if task.at % 2 == 0 and task.byte(task.at) is not None and task.byte(task.at + 1) is not None else b""
    except machine_task.Ends:
        return None
    at = task.second(code, True) if code[:1] == b"\x44" else 1
    return at if at % 2 == 0 else None
