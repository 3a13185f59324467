"""Random jobs with services: programs that call supervisors, also under EX, routines that answer, and cards of every kind."""
from __future__ import annotations

import random
import re

from models import ends_model
from models.ends_model import Drawn

# The numbers that programs call and cards have, some of them oftener.
NUMBERS = (0, 6, 7, 10, 10, 10, 11, 13, 35, 35, 64, 193, 253, 254)
# The codes of task calls, and of what has no card.
CALLS = (1, 2, 3, 4, 4, 5, 5, 255)
# Entries that no routine has.
ENTRIES = (0xFFFFFC, 0xFFFFFE, 0xFFFFFF, 0xF00000, 0x100001, 0x000000, 0x000002, 0x000010, 0x0FFFFE)
# What sets the condition code and the mask, by a register that is the task's, and what shows them.
SETS, SHOWS = ("04A0", "SPM"), (("0520", "BALR"), ("0570", "BALR"))
# How a routine ends: it returns, goes where tasks end, begins again, ends the task, or goes on in the next one.
RETURN = (("07FE", "BR"),)
ENDS = ((("41EE0002", "LA"), *RETURN), (("07FF", "BR"),), (("0A03", "SVC"),), (), (("077E", "BCR"), *RETURN))
# Calls of a task that a routine makes: it writes, reads, opens and closes.
TASK_CALLS = (
    [("41000003", "LA"), ("1B11", "SR"), ("0A01", "SVC")], [("4100000B", "LA"), ("1B11", "SR"), ("0A02", "SVC")], [("0A04", "SVC")],
    [("0A05", "SVC")], [("0A04", "SVC"), ("1811", "LR"), ("0A05", "SVC")],
)
# What routines and programs do besides: registers, condition code and mask, storage, and a branch.
WORK = (
    ("41R00SSS", "LA"), ("18RR", "LR"), ("1ARR", "AR"), ("1BRR", "SR"), ("12RR", "LTR"), ("04A0", "SPM"), ("04R0", "SPM"), ("05R0", "BALR"),
    ("50R0BD00", "ST"), ("58R0BD00", "L"), ("5AR0BD00", "A"), ("98RSBD00", "LM"), ("90RSBD00", "STM"), ("47M0cTTT", "BC"), ("46R0cTTT", "BCT"),
    ("45R0cTTT", "BAL"), ("1D29", "DR"), ("41F00SSS", "LA"), ("1B00", "SR"), ("1BEE", "SR"), ("1B11", "SR"), ("41R00SSS", "LA"), ("0520", "BALR"),
    # It gives register 15 a first byte.
    ("05F0", "BALR"),
)
# What few routines do: then they don't return, or elsewhere.
RARE = ("1D29", "45R0cTTT", "47M0cTTT", "46R0cTTT", "1BEE", "98RSBD00")


def filled(draw: random.Random, shape: str, targets: list[int]) -> str:
    """An instruction's digits; register 12 is X'100000', and 11 is zero at the start."""
    made = shape.replace("cTTT", f"C{(draw.choice(targets) - 0x100000) % 4096:03X}").replace("D00", f"0{draw.choice((0, 0, 4, 8, 16, 48)):02X}")
    made = made.replace("0SSS", f"0{draw.choice((0, 1, 2, 7, 10, 35, 255)):03X}")
    rest = {"R": "0123456789A", "S": "1233", "M": "1248F"}
    return "".join(draw.choice(rest[it]) if it in rest else it for it in made)


def work(draw: random.Random, count: int, targets: list[int]) -> list[tuple[str, str]]:
    shapes = [draw.choice(WORK) for _ in range(count)]
    return [(filled(draw, shape, targets), operation) for shape, operation in shapes if shape not in RARE or draw.random() < 0.1]


def call(draw: random.Random) -> tuple[str, str]:
    number = draw.choice(NUMBERS) if draw.random() < 0.85 else draw.choice(CALLS)
    return f"0A{number:02X}", "SVC"


def program(draw: random.Random, base: int, targets: list[int]) -> list[tuple[str, str]]:
    """A program that calls, some calls under EX, whose subject stands behind its return."""
    code: list[tuple[str, str]] = []
    for _ in range(draw.choice((1, 2, 3, 5, 8))):
        code += work(draw, draw.choice((0, 1, 2)), targets)
        kind = draw.random()
        if kind < 0.7:
            code.append(call(draw))
        elif kind < 0.9:
            number, one = draw.choice((*NUMBERS, *CALLS)), draw.choice("123456789A")
            code += [(f"41{one}00{number:03X}", "LA"), (f"44{one}0Cxxx", "EX")]
        code += [draw.choice(SHOWS)] if draw.random() < 0.3 else []
    code.append(("07FE", "BR"))
    subject = base - 0x100000 + sum(len(digits) // 2 for digits, _ in code)
    code = [(digits.replace("xxx", f"{subject % 4096:03X}"), operation) for digits, operation in code]
    return [*code, ("0A00", "SVC")]


def routine(draw: random.Random, targets: list[int]) -> list[tuple[str, str]]:
    code = work(draw, draw.choice((0, 0, 1, 2, 4)), targets)
    code += [SETS] if draw.random() < 0.25 else []
    if draw.random() < 0.35:
        code[0:0] = [call(draw)] if draw.random() < 0.3 else draw.choice(TASK_CALLS)
    return [*code, *(RETURN if draw.random() < 0.8 else draw.choice(ENDS))]


def module(name: str, base: int, parts: list[list[tuple[str, str]]]) -> tuple[Drawn, list[int]]:
    """A module of these parts, and where each begins."""
    it, begins = Drawn(name, base), []
    for part in parts:
        begins.append(base + it.size())
        for digits, operation in part:
            it.code.append((it.size(), digits, operation))
            it.digits += digits
    return it, begins


def written(draw: random.Random) -> tuple[bytes, list[int]]:
    """A job of a module of programs and one of routines, and where the routines begin."""
    bases = draw.choice(((0x100000, 0x100200), (0x100200, 0x100000)))
    targets = [base + 2 * n for base in bases for n in range(24)]
    routines, begins = module("R", bases[1], [*(routine(draw, targets) for _ in range(draw.choice((0, 1, 2, 3, 5)))), [*RETURN]])
    programs, _ = module("M", bases[0], [program(draw, bases[0], targets)])
    modules = draw.sample([programs, routines], 2)
    rows = ["COVERJOB 1", *(row for it in modules for row in ends_model.module_cards(draw, it))]
    number = 0
    for phase in range(draw.choice((1, 1, 1, 2))):
        tasks = [f"T{number + n}" for n in range(draw.choice((1, 1, 2, 3)))]
        number += len(tasks)
        rows += [f"PHASE P{phase}", *ends_model.session_cards(draw, phase, modules, tasks)]
        for it in tasks:
            cards = ends_model.task_cards(draw, it, modules)
            if draw.random() < 0.8:
                room, budget = draw.choice((0, 4, 64)), draw.choice((1, 2, 3, 5, 8, 13, 40, 200, 600))
                cards[0] = f"TASK {it} {bases[0]:06X} {draw.choice((128, 256))} {budget} {room}"
                cards = [it for it in cards if not it.startswith("DATA") or len(it) < 20]
            rows += cards
    return "\n".join([*rows, "ENDJOB", ""]).encode(), begins


def cards(draw: random.Random, begins: list[int]) -> str:
    """SERVICE cards, mostly of routines."""
    share = draw.choice((0.0, 0.3, 0.7, 0.95, 0.95))
    numbers = {it for it in NUMBERS if draw.random() < share} | ({*draw.sample(range(6, 255), 20)} if draw.random() < 0.1 else set())
    rows = ""
    for number in sorted(numbers):
        entry = draw.choice(begins) if begins and draw.random() < 0.85 else draw.choice(ENTRIES)
        form = "06X" if draw.random() < 0.8 else "06x"
        rows += f"SERVICE {number} {entry:{form}}\n"
    return rows


def job(draw: random.Random) -> bytes:
    """A good job."""
    if draw.random() < 0.8:
        data, begins = written(draw)
    else:
        data = ends_model.job(draw)
        bases = [int(it, 16) for it in re.findall(rb"^MODULE \S+ ([0-9A-F]{6}) ", data, re.M)]
        begins = [base + 2 * n for base in bases for n in range(8)]
    front = re.search(rb"^(PHASE|ENDJOB)", data, re.M)
    assert front
    return data[: front.start()] + cards(draw, begins).encode() + data[front.start() :]
