"""Instructions beside models/machine_operations.py: operands that overlap, wrap, touch and go from one storage into another.

Cases are those of drawing/operands.py, in the forms below, and decimal fields of each length with each sign code, and with each bad
digit at each place. Each case runs twice: with its instructions where no place begins, and as places, which the program executes by
another part of its step.
"""
from __future__ import annotations

import collections
import functools
import itertools
import os
import random
from concurrent.futures import ThreadPoolExecutor
from dataclasses import dataclass, field
from typing import Iterator

from drawing import operands
from fixtures.harness import PROGRAM, equal
from fixtures.jobs import listing_of
from models import machine_operations, machine_task
from models.model import length_of
from trials.outside_instructions import Ended, cards, ended, job, mnemonic_of, written

ADDRESSES = 1 << 24
# How a case's instructions stand: where no place begins, so that the program fetches and decodes each as it executes it; as places, of
# which it keeps the decoded instruction; or as places that a session observes.
APART, PLACED, OBSERVED = STANDS = "at no place", "at places", "at observed places"
NAMES = mnemonic_of()
# Behind the slots of the module; each other SVC there is a place, where the form has a listing.
BEGIN = operands.SHARING * operands.SLOT
PLACES = [(at, operands.filler(operands.BASE + at).hex().upper(), "SVC") for at in range(BEGIN, operands.MODULE, 4)]
BEHIND = operands.BASE + operands.MODULE
DECIMAL = {"CVB": 0x4F, "SRP": 0xF0, "ZAP": 0xF8, "CP": 0xF9, "AP": 0xFA, "SP": 0xFB, "MP": 0xFC, "DP": 0xFD}


class Edges(operands.Maker):
    """Many operands begin a few bytes before the last address, behind which address 0 follows, or before the module's end."""

    ends: tuple[int, ...] = (ADDRESSES, BEHIND)

    def address(self, size: int, near: int | None = None) -> int:
        if self.draw.random() < 0.25:
            return self.draw.choice(self.ends) - self.draw.randrange(1, 9)
        return super().address(size, near)


class Wide(Edges):
    """Private storage goes up to the module, and many operands begin before its end."""

    ends = (operands.BASE, operands.BASE, BEHIND)

    def __post_init__(self) -> None:
        super().__post_init__()
        half = len(self.private) // 2
        self.private[half:half] = bytes(operands.BASE - 2 * half)


@dataclass
class Form:
    """How the cases of a job are drawn, whether its module has PLACES, and the bytes of a second module right behind it."""

    maker: type[operands.Maker]
    is_listed: bool
    behind: bytes


MORE = bytes(range(256))
FORMS = (Form(operands.Maker, True, b""), Form(Edges, False, MORE), Form(operands.Maker, True, MORE), Form(Wide, False, MORE))


# ---- decimal fields


@dataclass
class Field:
    """An operation's decimal operand of so many bytes, with a digit or the sign, the last, as it is given."""

    name: str
    is_second: bool
    size: int
    at: int
    digit: int

    def instruction(self, it: operands.Maker, code: int) -> bytes:
        """The operation with that field; its other field is good."""
        digits = [it.draw.randrange(10) for _ in range(2 * self.size - 1)] + [it.draw.choice((12, 13))]
        digits[self.at] = self.digit
        data, one, two = bytes.fromhex("".join(f"{digit:X}" for digit in digits)), operands.DATA + 64, operands.DATA + 128
        it.fill(two if self.is_second else one, data)
        if self.name == "CVB":
            return it.rx(code, "", one)
        if self.name == "SRP":
            return it.ss(code, self.size - 1 << 4 | it.draw.randrange(10), one, it.draw.randrange(64))
        possible = range(1, 17)
        if self.name in ("MP", "DP"):
            # The first field is longer, and begins with as many zeros as the second has bytes.
            possible = range(self.size + 1, 17) if self.is_second else range(1, min(self.size, 9))
        size = it.draw.choice(possible or (1,))
        it.fill(one if self.is_second else two, it.packed(1).rjust(size, b"\0"))
        sizes = (size, self.size) if self.is_second else (self.size, size)
        return it.ss(code, sizes[0] - 1 << 4 | sizes[1] - 1, one, two)


def fields() -> Iterator[Field]:
    """Each field: every digit at the place of the sign, and at each other place the digits that are none."""
    for name in DECIMAL:
        for is_second in (False,) if name in ("CVB", "SRP") else (False, True):
            for size in (8,) if name == "CVB" else range(1, 17):
                for at in range(2 * size):
                    yield from (Field(name, is_second, size, at, digit) for digit in range(0 if at == 2 * size - 1 else 10, 16))


# ---- the comparison


@dataclass
class Watched(machine_task.Task):
    """A task that notes what is special of the operands that it tests, and the instructions that it begins."""

    kinds: set[str] = field(default_factory=set)
    begun: list[int] = field(default_factory=list)

    def step(self, operations: machine_task.Operations) -> str | None:
        ending = super().step(operations)
        self.begun += self.visits[:1]
        return ending

    def test(self, *uses: tuple[int, int, bool]) -> None:
        for n, (at, size, _) in enumerate(uses):
            for other, more, _ in uses[:n]:
                self.note("overlap", (at - other) % ADDRESSES < more or (other - at) % ADDRESSES < size)
                self.note("of two storages", (at < operands.BASE) != (other < operands.BASE))
            self.note("over the end of private storage", at < len(self.storage) < at + size)
            self.note("over the end of a module", at < BEHIND < at + size)
        super().test(*uses)

    def place(self, code: bytes, at: int) -> int:
        found = super().place(code, at)
        self.note("at the last addresses", found >= ADDRESSES - 8)
        return found

    def note(self, kind: str, holds: bool) -> None:
        self.kinds |= {kind} if holds else set()


@dataclass
class Group:
    """Cases that share a job, and how their instructions stand."""

    form: Form
    tasks: list[operands.Task]
    stand: str

    @functools.cached_property
    def places(self) -> list[tuple[int, str, str]]:
        """The places of the module."""
        own = [] if self.stand == APART else [line for it in self.tasks for line in lines(it)]
        return own + (PLACES if self.form.is_listed else [])

    @functools.cached_property
    def begins(self) -> set[int]:
        """Where the places begin."""
        return {operands.BASE + at for at, _, _ in self.places}

    @functools.cached_property
    def world(self) -> machine_task.World:
        """What the model's tasks run over."""
        touched = {at + n for at in self.begins for n in (0, 1)}
        return machine_task.World([(operands.BASE, bytes(self.tasks[0].module)), (BEHIND, self.form.behind)], touched)

    def run(self, program: str) -> list[Ended]:
        """What the program makes of them."""
        tasks = [(it, it.limit) for it in self.tasks]
        data = job(self.tasks[0].module, tasks, listing_of(self.places) if self.places else None, self.stand != PLACED)
        if self.form.behind:
            rows = [f"MODULE N {BEHIND:06X} {len(self.form.behind)}", *cards("TEXT", self.form.behind), "PHASE P"]
            data = data.replace(b"PHASE P", "\n".join(rows).encode(), 1)
        return list(ended(written(program, ["run"], data).decode(), self.tasks))

    def model(self, it: operands.Task) -> tuple[Ended, Watched]:
        """What the model makes of one of them, and its task, which has noted what is special."""
        task = Watched(self.world, list(it.registers), it.at, bytearray(it.private), room=65536)
        ending, count, _ = machine_operations.run(task, it.limit)
        return Ended(ending, count, task.condition, task.registers, bytes(task.storage)), task


def lines(it: operands.Task) -> Iterator[tuple[int, str, str]]:
    """The instructions of a case that stand in the module, as lines of its listing."""
    at, code = it.at - operands.BASE, bytes.fromhex(it.code)
    while code:
        size = length_of(code[0])
        # The listing's mnemonic need not be the instruction's, and some instructions have none.
        yield at, code[:size].hex().upper(), NAMES.get(code[0], "LR")
        at, code = at + size, code[size:]


def groups(seed: int, count: int) -> Iterator[Group]:
    """So many cases, and a field for each, of all in another order, as far as there are some; each case at no place and at places."""
    codes: list[int | Field] = random.Random(seed).choices((*sorted(machine_task.CODES), operands.OTHER), k=count)
    decimal = list(fields())
    random.Random(seed).shuffle(decimal)
    codes += decimal[:count]
    for number in range(0, len(codes), operands.SHARING):
        turn = number // operands.SHARING
        for stand in (APART, PLACED if turn % 3 else OBSERVED):
            yield group(seed, number, codes[number : number + operands.SHARING], FORMS[turn % len(FORMS)], stand)


def group(seed: int, first: int, codes: list[int | Field], form: Form, stand: str) -> Group:
    """Cases from such a number on."""
    module, tasks = operands.filled(operands.BASE, operands.MODULE), []
    for slot, it in enumerate(codes):
        draw, name = random.Random(f"{seed} {first + slot}"), f"case {first + slot}"
        if isinstance(it, Field):
            name, code, makes = f"{it} {name}", DECIMAL[it.name], it.instruction
        else:
            code, makes = it, None
        tasks.append(operands.task_of(draw, code, name, module, slot, form.maker, makes, stand != APART))
    return Group(form, tasks, stand)


def difference(name: str, task: operands.Task, had: Ended, wanted: Ended) -> str | None:
    """What differs in a case of such a name."""
    if had == wanted:
        return None
    parts = [f"{one}, and not {other}" for one, other in zip(summary(had), summary(wanted)) if one != other]
    return f"{name}, {task.code} at {task.at:06X}: {'; '.join(parts) or 'storage differs'}"


def summary(it: Ended) -> list[str]:
    return [f"{it.ending} COUNT {it.count}", f"CC {it.condition}", *(f"R{n} {value:08X}" for n, value in enumerate(it.registers))]


def compare(program: str, seed: int, count: int) -> tuple[dict[str, collections.Counter[str]], list[str]]:
    """So many cases and fields: how many operands were special, also of instructions that were done, and the differences.

    Counts are those of each of STANDS. Where instructions were begun is the model's to tell.
    """
    told: dict[str, collections.Counter[str]] = {it: collections.Counter() for it in STANDS}
    faults: list[str] = []
    left = groups(seed, count)
    with ThreadPoolExecutor(os.cpu_count()) as pool:
        # A few at a time, since their storage is large.
        while some := list(itertools.islice(left, 2)):
            for it, results in zip(some, pool.map(lambda it: it.run(program), some)):
                for task, had in zip(it.tasks, results):
                    wanted, made = it.model(task)
                    done = [f"{kind}, done" for kind in made.kinds if had.ending.startswith("BADSVC")]
                    told[it.stand].update(["cases", had.ending.split()[0], *made.kinds, *done])
                    told[it.stand].update(f"instructions {APART if at not in it.begins else PLACED}" for at in made.begun)
                    faults += filter(None, [difference(f"seed {seed}, {task.name} {it.stand}", task, had, wanted)])
    return told, faults


SPECIAL = ("overlap", "of two storages", "over the end of private storage", "over the end of a module", "at the last addresses")


def quick(seed: int, count: int) -> None:
    """operands: that overlap, wrap, touch or go from one storage into another, and decimal fields, of instructions at places and at none"""
    told, faults = compare(PROGRAM, seed, count)
    apart, placed = told[APART], told[PLACED] + told[OBSERVED]
    wanted = ("TOUCHED", *(f"{it}, done" for it in SPECIAL))
    equal((len(faults), faults[:1], [it for it in wanted if not (apart[it] and placed[it])]), (0, [], []))
    equal((apart["cases"], bool(told[PLACED]["cases"] and told[OBSERVED]["cases"])), (placed["cases"], True))


CHECKS = [functools.partial(quick, 1, 600)]
