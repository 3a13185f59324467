"""The course of a task with services, by docs/MACHINE.md: what a supervisor call comes to that a routine of the job answers."""
from __future__ import annotations

from dataclasses import dataclass
from typing import Mapping

from models.machine_task import Task

# Where a routine goes back to its caller.
BACK = 0xFFFFFC


@dataclass
class Caller:
    """What a routine goes back to."""

    at: int
    condition: int
    mask: int
    registers: list[int]


class Served:
    """The course of one task, with the entry of each service by its number."""

    def __init__(self, services: Mapping[int, int]) -> None:
        self.services = services
        self.caller: Caller | None = None

    def __call__(self, task: Task, ending: str | None) -> str | None:
        """How the task ends behind an instruction, if it does, by how the instruction alone would end it."""
        word, _, number = (ending or "").partition(" ")
        if word == "BADSVC" and int(number) in self.services and self.caller is None:
            self.caller = Caller(task.behind, task.condition, task.mask, task.registers[2:15])
            task.registers[14], task.registers[15] = BACK, self.services[int(number)]
            task.at, ending = self.services[int(number)], None
        if ending is None and task.at == BACK and self.caller is not None:
            task.registers[2:15], task.condition, task.mask = self.caller.registers, self.caller.condition, self.caller.mask
            task.at, self.caller = self.caller.at, None
        return ending
