"""What `ends` writes of a job, and random jobs of many shapes.

The cards and listings are read by models/model.py, and each task runs once, alone, by models/task_runs.py.
"""
from __future__ import annotations

import collections
import random
from dataclasses import dataclass, field

from fixtures.jobs import listing_of
from models import model, task_runs

Endings = collections.Counter[str]


def there(job: model.Job, run: task_runs.Run) -> str:
    """What stands at the address where a run ended, as it is told."""
    if run.at < run.private:
        return " PRIVATE"
    inside = [it for it in job.modules if it.base <= run.at < it.base + it.size]
    return f" {inside[0].name.decode()} {run.at - inside[0].base:06X}" if inside else ""


def text(data: bytes, endings: Endings | None = None, has_services: bool = False) -> bytes:
    """What `ends` writes of a job, with services or without them; the first words of its tasks' endings are counted."""
    job = model.job_of(data, True, has_services)
    model.read_listings(job)
    lines = ["COVERAGE ENDS"]
    runs = task_runs.Runner(job).all()
    for run in runs:
        ending = run.result.ending
        lines.append(f"TASK {run.name.decode()} {ending} COUNT {run.count} AT {run.at:06X}{there(job, run)}")
        if endings is not None:
            endings[ending if ending.startswith("ABEND") else ending.split()[0]] += 1
    for it in job.modules:
        if it.listing is not None:
            missed = sum(count for run in runs for at, count in run.strays.items() if it.base <= at < it.base + it.size)
            lines.append(f"UNLISTED {it.name.decode()} {missed}")
    return "\n".join([*lines, "END", ""]).encode()


# ---- random jobs

# Of each operation its digits, of which R is a number of a register, S one of a small number, P one of an even pair, M
# a mask or a register that is ORed, bD a displacement in private storage, cT one in the modules, and L a length.
SHAPES = {
    "LA": ("41R0bD", "41R0cT", "41S00001"), "LR": ("18RR",), "LTR": ("12RR",), "LCR": ("13RR",),
    "AR": ("1ARR", "1A99", "1AS9"), "SR": ("1BRR",), "CR": ("19RR",), "DR": ("1DPS", "1DRR"),
    "SPM": ("04A0", "04A0", "04A0", "04R0"), "BALR": ("05R0", "05R0", "05RR"), "BASR": ("0DR0",), "BCTR": ("06S0",),
    "BCR": ("07Me", "07Me", "07MR"), "BR": ("07Fe",), "NOPR": ("0700",),
    "SVC": ("0A01", "0A02", "0A03", "0A04", "0A05", "0AVV"), "BC": ("47M0cT", "47M0cT", "47M0cT", "47MRbD"),
    "BCT": ("46S0cT",), "BAL": ("45R0cT",), "BAS": ("4DR0cT",), "EX": ("44M0cT", "4400cT", "44M0bD"),
    "L": ("58R0bD", "58R0bD", "58R0cT", "58R0RD"), "LH": ("48R0bD",), "A": ("5AR0bD",), "S": ("5BS0bD",),
    "C": ("59R0bD",), "D": ("5DP0bD",), "CVB": ("4FR0bD",), "ST": ("50R0bD", "50R0bD", "50R0cT"), "STH": ("40R0bD",),
    "STC": ("42R0bD", "42R0cT"), "IC": ("43R0cT", "43R0bD"), "BXLE": ("87SScT",), "BXH": ("86SScT",),
    "STM": ("90RRbD",), "LM": ("98RSbD",), "TM": ("91VVbD", "91VVcT"), "MVI": ("92VVbD",), "CLI": ("95VVbD",),
    "CS": ("BASSbD",), "MVC": ("D20LbDbD", "D20LbDcT"), "CLC": ("D50LbDbD",), "XC": ("D70LbDbD",),
    "AP": ("FALLbDbD", "FA00bDbD"), "SRP": ("F022bD0001", "F021bD003F"), "SP": ("FBLLbDbD",),
    "ZAP": ("F8LLbDbD", "F800bDbD"), "CP": ("F9LLbDbD",), "DP": ("FD3LbDbD", "FDLLbDbD", "FD10bDbD", "FD10bDbD"),
}
# Drawn oftener, as they lead on or end a task in a rare way; and halfwords that are no operation, or a privileged one.
LEADING = ("LA", "LR", "BC", "BCT", "EX", "BAL", "SVC", "SVC", "SPM", "AR", "AR", "AP", "DP", "BCR")
# What ends a task in a way that single instructions rarely meet.
SEQUENCES = (
    (("04A0", "SPM"), ("1A99", "AR")), (("04A0", "SPM"), ("FA00B000B000", "AP")), (("FD10B008B000", "DP"),),
    (("1D29", "DR"),), (("41000004", "LA"), ("0A01", "SVC")), (("4400C000", "EX"),),
)
STRANGE = ("0000", "0005", "80001000", "B6000000", "0809", "FF0000000000")
NUMBERS = (0, 1, 2, 3, 7, 255, 0x80, 0x100000, 0x7FFFFFFF, 0x80000000, 0xFFFFFFFF, 0x08000000, 0x1F000000, 0xFFFFFE)
ENTRIES = (0, 0, 2, 15, 0x40, 0xFFFFFE, 0xFFFFFC, 0x0FFFFE, 0x100001, 0xF00000)
# Packed decimal fields, good and bad, and a fullword.
FIELDS = (
    "0C", "1C", "9C", "9C", "9D", "000C", "001C", "999C", "00001D", "0A1C", "12", "0000000000012C", "9999999999999C",
    "00000001", "7FFFFFFF",
)
DISPLACEMENTS = (0, 0, 1, 2, 4, 8, 8, 16, 16, 24, 24, 33, 40, 48, 56, 60, 100)


@dataclass
class Drawn:
    """A module of a random job: the instructions that its listing could have."""

    name: str
    base: int
    code: list[tuple[int, str, str]] = field(default_factory=list)
    digits: str = ""

    def size(self) -> int:
        return len(self.digits) // 2


def instruction(draw: random.Random, operation: str, targets: list[int]) -> str:
    """An instruction's digits; register 12 is X'100000', and 11 and 14 are what they are at the start."""
    shape = draw.choice(SHAPES[operation])
    at = draw.choice(targets) - 0x100000 if draw.random() < 0.95 else draw.randrange(4096)
    made = shape.replace("DDDD", "0000").replace("cT", f"C{max(at, 0) % 4096:03X}")
    while "bD" in made or "RD" in made:
        front = "bD" if "bD" in made else "RD"
        base = "B" if front == "bD" else f"{draw.randrange(1, 11):X}"
        made = made.replace(front, f"{base}{draw.choice(DISPLACEMENTS):03X}", 1)
    while "VV" in made:
        made = made.replace("VV", f"{draw.choice((0, 3, 3, 6, 10, 13, 35, 64, 193, 254)):02X}", 1)
    rest = {"R": "0123456789A", "S": "1233", "P": "2468", "M": "01234789EFF", "L": "0001237F", "e": "E"}
    return "".join(draw.choice(rest[it]) if it in rest else it for it in made)


def fill(draw: random.Random, modules: list[Drawn]) -> None:
    """Gives each module instructions; those of all are each other's targets."""
    plans = [[draw.choice((*SHAPES, *LEADING * 4)) for _ in range(draw.choice((1, 3, 6, 10, 14)))] for _ in modules]
    targets = [it.base + 2 * n for it, plan in zip(modules, plans) for n in range(0, 2 * len(plan) + 1)]
    for it, plan in zip(modules, plans):
        rows = [(instruction(draw, operation, targets), operation) for operation in plan]
        if draw.random() < 0.6:
            rows[0:0] = draw.choice(SEQUENCES)
        for digits, operation in rows:
            it.code.append((it.size(), digits, operation))
            it.digits += digits
            if draw.random() < 0.03:
                it.digits += draw.choice(STRANGE)
        if draw.random() < 0.6:
            it.code.append((it.size(), "07FE", "BR"))
            it.digits += "07FE"
        if draw.random() < 0.2:
            it.digits += draw.choice(("4110", "D203C000", "C1C2", *STRANGE))


def module_cards(draw: random.Random, it: Drawn) -> list[str]:
    """Its cards, with a listing of all of its instructions, of some, of none, or without one."""
    rows = [f"MODULE {it.name} {it.base:06X} {it.size()}"]
    rows += [f"TEXT {it.digits[at : at + 128]}" for at in range(0, len(it.digits), 128)]
    if draw.random() < 0.2:
        return rows
    share = draw.choice((0.0, 0.0, 0.1, 0.3, 1.0))
    code = [row for row in it.code if draw.random() >= share and row[1][:4] != "0AFF"]
    lines = listing_of(code, draw.random() < 0.2)
    return [*rows, f"LISTING {len(lines)}", *lines]


def task_cards(draw: random.Random, name: str, modules: list[Drawn]) -> list[str]:
    """A task's cards: it begins in a module, in its private storage, or anywhere."""
    fronts, inside = [it.base for it in modules], [it.base + at for it in modules for at, _, _ in it.code]
    size, begin = draw.choice((0, 16, 64, 64, 256, 257, 4096, 1_048_576)), draw.random()
    entry = draw.choice(fronts if begin < 0.5 else inside) if inside and begin < 0.8 else draw.choice(ENTRIES)
    room, budget = draw.choice((0, 4, 64, 65_536)), draw.choice((1, 2, 3, 5, 20, 100, 300))
    rows = [f"TASK {name} {entry:06X} {size} {budget} {room}"]
    values = (*NUMBERS, *inside, size % 4096, draw.randrange(4096))
    registers = {n: draw.choice(values) for n in range(11) if draw.random() < 0.5}
    registers |= {9: draw.choice((1, 0x7FFFFFFF)), 10: draw.choice((0, 0x0C000000, 0x2F000000)), 12: 0x100000}
    rows += [f"REG {n} {it:08X}" for n, it in sorted(registers.items())]
    if size >= 64 and draw.random() < 0.8:
        rows += data_cards(draw, bool(entry), size, inside)
    rows += [f"INPUT {draw.randbytes(draw.randrange(1, 20)).hex()}"] if draw.random() < 0.3 else []
    return rows


def data_cards(draw: random.Random, is_data: bool, size: int, inside: list[int]) -> list[str]:
    """Decimal fields and fullwords, or instructions."""
    rows, at = ["DATA 0 9C", "DATA 8 999C"], 16 if is_data and draw.random() < 0.8 else 0
    while at < 60:
        operation = draw.choice((*SHAPES, *LEADING))
        digits = draw.choice(FIELDS) if is_data else instruction(draw, operation, inside or [0x100000])
        rows += [f"DATA {at} {digits}"] if at + len(digits) // 2 <= size else []
        at += len(digits) // 2 if not is_data or draw.random() < 0.5 else 8
    return rows


def session_cards(draw: random.Random, phase: int, modules: list[Drawn], tasks: list[str]) -> list[str]:
    """None, one, or one for each of some modules; some of them are opened and closed by the first task."""
    rows = []
    chosen = draw.sample(modules, draw.randrange(len(modules) + 1))
    for n, it in enumerate(chosen):
        by = f"BY {tasks[0]} " if tasks and draw.random() < 0.3 else ""
        rows.append(f"SESSION S{phase}{n} {by}{it.name}")
    return rows


def job(draw: random.Random) -> bytes:
    """A good job."""
    modules, base = [], 0x100000
    for n in range(draw.choice((0, 1, 1, 1, 2, 2, 3, 4))):
        modules.append(Drawn(f"M{n}", base))
        base += draw.choice((0x80, 0x80, 0x100, 0x200))
    fill(draw, modules)
    # Some stand right behind one another.
    for one, other in zip(modules, modules[1:]):
        if draw.random() < 0.3 and one.size() % 8 == 0:
            other.base = one.base + one.size()
    shuffled = draw.sample(modules, len(modules))
    rows = ["COVERJOB 1", *(row for it in shuffled for row in module_cards(draw, it))]
    number = 0
    for phase in range(draw.choice((0, 1, 1, 1, 1, 2, 3))):
        tasks = [f"T{number + n}" for n in range(draw.choice((0, 1, 1, 2, 3, 6)))]
        number += len(tasks)
        rows += [f"PHASE P{phase}", *session_cards(draw, phase, modules, tasks)]
        rows += [row for it in tasks for row in task_cards(draw, it, modules)]
    return "\n".join([*rows, "ENDJOB", ""]).encode()
