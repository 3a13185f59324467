"""Each operation of docs/MACHINE.md beside Hercules: registers, condition code, storage, ending, and where it went on.

A case of drawing/operands.py runs on both. Where they differ, one of PROFILE's rules says why, with that page's sentence;
else it is a defect.
"""
from __future__ import annotations

import collections
import os
import random
import re
import subprocess
from concurrent.futures import ThreadPoolExecutor
from dataclasses import dataclass, field, replace
from typing import Callable, Iterator

from drawing import operands
from fixtures import hercules
from fixtures.harness import SECONDS, TOP
from models import machine_operations, machine_task
from models.machine_task import CODES, PRIVILEGED

ADDRESSING = (5, 0x10, 0x11)
# The order of tests 6 to 11 at one instruction, by the codes of their interruptions, and of what comes behind.
ORDER = (6, 5, 4, 7, 9, 0xB, 8, 0xA)


@dataclass
class Ended:
    """What a task came to in the program."""

    ending: str
    count: int
    condition: int
    registers: list[int]
    private: bytes
    # Where `ends` says that it ended; none where it wasn't asked.
    at: int | None = None

    def code(self) -> int:
        """Of an interruption; else 0."""
        return int(self.ending[6:], 16) if self.ending.startswith("ABEND ") else 0


def mnemonic_of() -> dict[int, str]:
    """The names by the codes."""
    with open(f"{TOP}/docs/MACHINE.md", encoding="utf-8") as file:
        rows = re.findall(r"^\| ((?:[0-9A-F]{2} ?)+) \| ([A-Z ]+) \|", file.read(), re.M)
    names = {operands.OTHER: "other"}
    for codes, of in rows:
        words = of.split()
        names |= {int(code, 16): words[min(at, len(words) - 1)] for at, code in enumerate(codes.split())}
    return names


def cases(seed: int, count: int) -> list[operands.Task]:
    """So many cases of each operation; those that share a module stand behind one another."""
    names, found = mnemonic_of(), []
    codes = [code for code in (*sorted(CODES), operands.OTHER) for _ in range(count)]
    random.Random(seed).shuffle(codes)
    for number in range(0, len(codes), operands.SHARING):
        module = operands.filled(operands.BASE, operands.MODULE)
        for slot, code in enumerate(codes[number : number + operands.SHARING]):
            draw = random.Random(f"{seed} {number + slot}")
            found.append(operands.task_of(draw, code, f"T{slot}", module, slot))
            found[-1].name = f"{names[code]} {number + slot}"
    return found


# ---- the program


def job(module: bytes, tasks: list[tuple[operands.Task, int]], listing: list[str] | None = None, is_observed: bool = True) -> bytes:
    """A job of tasks with budgets that share a module, which the session S is over where it has a listing and is observed."""
    rows = ["COVERJOB 1", f"MODULE M {operands.BASE:06X} {len(module)}", *cards("TEXT", module)]
    rows += [f"LISTING {len(listing)}", *listing] if listing else []
    rows += ["PHASE P", "SESSION S M"] if listing and is_observed else ["PHASE P"]
    for number, (it, budget) in enumerate(tasks):
        rows.append(f"TASK T{number} {it.at:06X} {len(it.private)} {budget} 65536")
        rows += [f"REG {n} {value:08X}" for n, value in enumerate(it.registers)]
        rows += cards("DATA", it.private)
    return "\n".join([*rows, "ENDJOB", ""]).encode()


def cards(word: str, data: bytes) -> list[str]:
    """Cards of bytes; DATA cards of zeros alone aren't needed."""
    if word != "DATA":
        return [f"{word} {data[at : at + 64].hex()}" for at in range(0, len(data), 64)]
    # Most of a large storage is zeros: they are passed over by many cards at once.
    parts = [at for at in range(0, len(data), 4096) if data[at : at + 4096] != bytes(4096)]
    rows = [(at, data[at : at + 64]) for part in parts for at in range(part, min(part + 4096, len(data)), 64)]
    return [f"DATA {at} {row.hex()}" for at, row in rows if row.strip(b"\0")]


def ended(text: str, tasks: list[operands.Task]) -> Iterator[Ended]:
    """The tasks of a report."""
    lines = text.split("\n")
    at = 1
    for it in tasks:
        found = re.fullmatch(r"TASK \w+ (.*) COUNT (\d+) CC (\d)", lines[at])
        assert found, lines[at]
        registers = [int(word, 16) for row in lines[at + 1 : at + 3] for word in row.split()[1:]]
        at += 4 + (int(lines[at + 3].split()[1]) + 31) // 32
        private = bytearray(it.private)
        while lines[at].startswith("STOR "):
            _, where, digits = lines[at].split()
            private[int(where, 16) : int(where, 16) + len(digits) // 2] = bytes.fromhex(digits)
            at += 1
        yield Ended(found[1], int(found[2]), int(found[3]), registers, bytes(private))


def written(program: str, words: list[str], data: bytes) -> bytes:
    """What the program writes of a good job."""
    ran = subprocess.run([program, *words], input=data, capture_output=True, timeout=SECONDS, check=False)
    assert ran.returncode == 0, f"{words}: status {ran.returncode}: {ran.stdout[:200]!r}"
    return ran.stdout


def run_program(program: str, tasks: list[operands.Task]) -> list[Ended]:
    """What the program makes of tasks, those that share a module in one job."""
    jobs = [tasks[at : at + operands.SHARING] for at in range(0, len(tasks), operands.SHARING)]

    def run(group: list[operands.Task]) -> list[Ended]:
        data = job(group[0].module, [(it, it.limit) for it in group])
        found = list(ended(written(program, ["run"], data).decode(), group))
        addresses = re.findall(rb"^TASK .* AT ([0-9A-F]{6})", written(program, ["ends"], data), re.M)
        assert len(addresses) == len(found), f"{len(addresses)} tasks of ends, and not {len(found)}"
        return [replace(it, at=int(at, 16)) for it, at in zip(found, addresses)]

    with ThreadPoolExecutor(os.cpu_count()) as pool:
        return [it for group in pool.map(run, jobs) for it in group]


# ---- the comparison


@dataclass
class Pair:
    """A case with both results."""

    task: operands.Task
    had: Ended
    other: hercules.Result

    def other_ending(self) -> str:
        """Hercules' ending in the program's words."""
        if self.other.kind == hercules.CALL:
            return f"BADSVC {self.other.code & 255}"
        return f"ABEND {self.other_code():X}" if self.other.kind == hercules.PROGRAM else "SPENT"

    def other_code(self) -> int:
        """Hercules' interruption code, or 0; translation exceptions are addressing."""
        code = self.other.code if self.other.kind == hercules.PROGRAM else 0
        return 5 if code in ADDRESSING else code

    def before(self) -> hercules.State:
        """Hercules' state before the program's last step."""
        return self.other.trace[min(self.had.count, len(self.other.trace)) - 1]

    def instruction(self, state: hercules.State | None = None) -> bytes:
        """The instruction of that step, or at another state, as it is executed: of an EX the subject after the OR."""
        state = state or self.before()
        # Storage is known before the first two steps, and before one that has changed nothing.
        is_first = state is self.other.trace[0] or state is self.other.trace[min(1, len(self.other.trace) - 1)]
        private = state.private or (self.task.private if is_first else self.had.private)
        code = self.bytes_at(state.at, 6, private)
        if code[:1] == b"\x44":
            at = sum(state.registers[it] for it in (code[1] & 15, code[2] >> 4) if it) + (code[2] & 15) * 256 + code[3]
            ored = state.registers[code[1] >> 4] & 255 if code[1] >> 4 else 0
            code = self.bytes_at(at % (1 << 24), 6, private)
            code = code[:1] + bytes(it | ored for it in code[1:2]) + code[2:]
        return code

    def bytes_at(self, at: int, size: int, private: bytes) -> bytes:
        """Bytes of this private storage or of the module; fewer where they aren't accessible."""
        room, start = (private, at) if at < operands.BASE else (self.task.module, at - operands.BASE)
        return bytes(room[start : start + size])

    def reaches_out(self, at: int, size: int) -> bool:
        """Whether one of so many bytes is inaccessible."""
        return any(not self.bytes_at((at + n) % (1 << 24), 1, self.task.private) for n in range(size))

    def base(self, field_: bytes, state: hercules.State | None = None) -> int:
        """The address of a base and a displacement."""
        number = field_[0] >> 4
        front = (state or self.before()).registers[number] if number else 0
        return (front + (field_[0] & 15) * 256 + field_[1]) % (1 << 24)


def judged(it: Pair) -> tuple[str, str | None]:
    """The sentence that tells why two results differ, or an empty one, and what it leaves to tell."""
    if it.other.kind == hercules.FAILED:
        return "Hercules has failed", None
    parts = partial(it)
    if parts:
        loses = any(loses_subject(it, it.other.trace[n]) for n in parts.values())
        it = Pair(it.task, it.had, without(it.other, parts))
        if loses or it.other.kind == hercules.DONE:
            return ONE_UNIT, None
    at = it.before().at if it.had.ending != "SPENT" else it.other.state.at
    if it.had.at not in (None, at) and it.had.count == it.other.steps:
        return "", f"{it.had.ending} at {it.had.at:06X}, and not {at:06X}"
    if it.had.ending == it.other_ending() and it.had.count == it.other.steps:
        # Codes 8 and A come when the results are in place, and an SVC has changed nothing.
        is_done = it.had.code() in (0, 8, 10)
        difference = state_difference(it, it.other.state) or None if is_done else change(it)
        rule = next((sentence for sentence, holds in EDITS if difference and holds(it)), "")
        return rule, None if rule else difference
    rule = next((sentence for sentence, holds in PROFILE if holds(it)), "")
    if rule:
        return rule, change(it) if it.had.code() not in (0, 8, 10) and it.had.count == it.other.steps else None
    return "", f"{it.had.ending} COUNT {it.had.count}, and not {it.other_ending()} COUNT {it.other.steps}"


def partial(it: Pair) -> dict[int, int]:
    """The states of Hercules' trace in which it is within MVCL or CLCL, which it does in parts, each with that where it began it."""
    # The step that an interruption ends may stay where it was, too.
    trace = it.other.trace[: it.other.steps if it.other.kind == hercules.PROGRAM else None]
    begun: dict[int, int] = {}
    for n in range(1, len(trace)):
        if trace[n].at == trace[n - 1].at:
            begun[n] = begun.get(n - 1, n - 1)
    return {n: first for n, first in begun.items() if it.instruction(trace[first])[:1] in (b"\x0e", b"\x0f")}


def loses_subject(it: Pair, state: hercules.State) -> bool:
    """Whether an EX of MVCL or CLCL finds or ORs its subject by a register that these change: behind a part it is another."""
    own, subject = it.bytes_at(state.at, 4, state.private or it.task.private), it.instruction(state)
    pairs = {number + more for number in (subject[1] >> 4, subject[1] & 15) for more in (0, 1)}
    return own[:1] == b"\x44" and bool(pairs & {own[1] >> 4, own[1] & 15, own[2] >> 4} - {0})


def without(other: hercules.Result, parts: dict[int, int]) -> hercules.Result:
    """A result without some of its steps."""
    trace = [it for n, it in enumerate(other.trace) if n not in parts]
    return replace(other, steps=other.steps - len(parts), trace=trace)


def change(it: Pair) -> str | None:
    """What the program's last instruction has changed: nothing, where it ended with one of the other codes.

    Of the first two steps it is known what storage was before.
    """
    known = it.before().private or (bytes(it.task.private) if it.had.count <= 2 else it.had.private)
    return state_difference(it, replace(it.before(), private=known)) or None


def state_difference(it: Pair, state: hercules.State) -> str:
    """What differs of registers, condition code and storage, with the program's first; empty where nothing does."""
    parts, cut = [], cut_addresses(it)
    for n, (one, other) in enumerate(zip(it.had.registers, state.registers)):
        is_same = one == other or (n in cut and one % (1 << 24) == other % (1 << 24))
        parts += [] if is_same else [f"R{n} {one:08X}, and not {other:08X}"]
    parts += [f"CC {it.had.condition}, and not {state.condition}"] if it.had.condition != state.condition else []
    at = next((at for at, pair in enumerate(zip(it.had.private, state.private)) if pair[0] != pair[1]), None)
    if at is not None:
        parts.append(f"from {at:06X} {it.had.private[at : at + 16].hex()}, and not {state.private[at : at + 16].hex()}")
    return "; ".join(parts)


def cut_addresses(it: Pair) -> set[int]:
    """The registers whose bits 0-7 may differ: where MVCL's operands overlap Hercules puts zeros there."""
    found: set[int] = set()
    for before, after in zip(it.other.trace, it.other.trace[1:]):
        code = it.instruction(before)
        if code[:1] == b"\x0e" and after.condition == 3:
            found |= {code[1] >> 4, code[1] & 15}
    return found


# ---- what the profile decides


def is_earlier(it: Pair) -> bool:
    had, other = it.had.code(), it.other_code()
    is_same_step = it.had.count == it.other.steps
    return is_same_step and had in ORDER and other in ORDER and ORDER.index(had) < ORDER.index(other)


def is_tested_whole(it: Pair) -> bool:
    """An operand that reaches out behind the byte that decides, of CLC, CLCL, CLM and TRT."""
    code, registers = it.instruction(), it.before().registers
    if it.had.ending != "ABEND 5":
        return False
    if code[0] in (0xD5, 0xDD):
        fields = (code[2:4], code[4:6]) if code[0] == 0xD5 else (code[2:4],)
        uses = [(it.base(field_), code[1] + 1) for field_ in fields]
    elif code[0] == 0xBD:
        uses = [(it.base(code[2:4]), f"{code[1] & 15:b}".count("1"))]
    elif code[0] == 0x0F:
        uses = [(registers[n] % (1 << 24), registers[n + 1] % (1 << 24)) for n in (code[1] >> 4, code[1] & 15)]
    else:
        return False
    return any(it.reaches_out(at, size) for at, size in uses)


def is_under_no_mask(it: Pair) -> bool:
    """ICM and its like under a zero mask, where Hercules tests a byte."""
    code = it.instruction(it.other.trace[-1])
    return it.other_code() in (4, 5) and code[:1] in (b"\xbd", b"\xbe", b"\xbf") and code[1] & 15 == 0


def is_edited_in_place(it: Pair) -> bool:
    """ED and EDMK where source and pattern overlap: Hercules reads what it has stored."""
    for state in it.other.trace:
        code = it.instruction(state)
        if code[:1] in (b"\xde", b"\xdf") and len(code) == 6:
            size, distance = code[1] + 1, it.base(code[4:6], state) - it.base(code[2:4], state)
            if -size < (distance + (1 << 23)) % (1 << 24) - (1 << 23) < size:
                return True
    return False


def is_edited_over(it: Pair) -> bool:
    """EDMK whose pattern lies over its own operation code: Hercules reads that again behind each byte that it has stored."""
    for state in it.other.trace:
        code = it.bytes_at(state.at, 6, state.private or it.task.private)
        if code[:1] == b"\xdf" and len(code) == 6 and it.base(code[2:4], state) <= state.at <= it.base(code[2:4], state) + code[1]:
            return True
    return False


def has_no_row(it: Pair) -> bool:
    return it.had.ending == "ABEND 1" and it.instruction()[0] not in CODES and it.instruction()[0] not in PRIVILEGED


def is_privileged(it: Pair) -> bool:
    return it.had.ending == "ABEND 2" and it.instruction()[0] in PRIVILEGED


def is_task_call(it: Pair) -> bool:
    return it.other.kind == hercules.CALL and it.other.code & 255 in range(1, 6)


def has_returned(it: Pair) -> bool:
    return it.had.ending == "RETURNED" and it.other_code() == 5 and it.other.state.at == 0xFFFFFE


OVERLAPPING = "only condition code 3 is set: the registers stay, and access isn't tested"
ONE_UNIT = "The operation is one unit"
EDITS: list[tuple[str, Callable[[Pair], bool]]] = [
    ("Pattern and source are read as they were before", is_edited_in_place),
    ("An instruction is begun once all its halfwords are fetched", is_edited_over),
]
# Of each rule the sentence of docs/MACHINE.md, and whether it says why a pair differs.
PROFILE: list[tuple[str, Callable[[Pair], bool]]] = [
    ("Tests 6 to 11 are one order for all operations, and each is made of all operands", is_earlier),
    ("access to every operand byte: code 5", is_tested_whole),
    ("under a zero mask it has no byte, and nothing is tested", is_under_no_mask),
    *EDITS,
    ("Some operations of the problem state have no row here, and so end with code 1", has_no_row),
    ("code 2 for the codes `08 09 80 82 83 84 85 9C 9D 9E 9F AC AD AE B1 B6 B7`", is_privileged),
    ("by an SVC whose number n is no task call", is_task_call),
    ("before an instruction, where the instruction address is X'FFFFFE'", has_returned),
]


def sentences() -> list[str]:
    """All sentences of docs/MACHINE.md that tell a difference."""
    return [OVERLAPPING, ONE_UNIT, *(sentence for sentence, _ in PROFILE)]


@dataclass
class Told:
    """How many cases there were, how the operations ended in the program, and which sentences told differences."""

    cases: int = 0
    endings: dict[str, collections.Counter[str]] = field(default_factory=dict)
    rules: collections.Counter[str] = field(default_factory=collections.Counter)

    def add(self, it: Pair) -> None:
        self.cases += 1
        ending = it.had.ending
        word = ending if it.had.code() else "on" if ending.startswith("BADSVC") else ending.split()[0]
        self.endings.setdefault(it.task.name.split()[0], collections.Counter())[word] += 1

    def lines(self) -> list[str]:
        rows = []
        for name, had in sorted(self.endings.items()):
            rows.append(f"{name}: " + ", ".join(f"{it} {n}" for it, n in sorted(had.items())))
        return rows + [f"{count} by '{rule}'" for rule, count in self.rules.items()]


def case_of(it: operands.Task, keeps_storage: bool = False) -> hercules.Case:
    return hercules.Case(it.registers, it.at, bytes(it.private), bytes(it.module), it.limit, keeps_storage)


def run_model(tasks: list[operands.Task]) -> list[Ended]:
    """What models/machine_operations.py makes of tasks."""
    found = []
    for it in tasks:
        world = machine_task.World([(operands.BASE, bytes(it.module))], set())
        task = machine_task.Task(world, list(it.registers), it.at, bytearray(it.private), room=65536)
        ending, count, at = machine_operations.run(task, it.limit)
        found.append(Ended(ending, count, task.condition, task.registers, bytes(task.storage), at))
    return found


def compare(program: str | None, seed: int, count: int) -> tuple[Told, list[str]]:
    """So many cases of each operation, of a program or the model: what came of them, and what no sentence tells."""
    told, faults = Told(), []
    tasks = cases(seed, count)
    with hercules.Hercules() as herc:
        others = list(herc.run([case_of(it) for it in tasks]))
    for pair in map(Pair, tasks, run_program(program, tasks) if program else run_model(tasks), others):
        told.add(pair)
        rule, fault = judged(pair)
        told.rules.update([rule] if rule else [])
        if fault:
            faults.append(f"seed {seed}, {pair.task.name}, {pair.task.code} at {pair.task.at:06X}: {fault}")
    return told, faults
