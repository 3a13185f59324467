"""Schedules over sessions that tasks open and close, drawn at random and played by models/core_model.py."""
from __future__ import annotations

import random

from fixtures import phase_jobs
from fixtures.harness import PROGRAM, coverage, run, well
from fixtures.phase_jobs import Module, Session, Task
from models import answers
from models.core_model import EVENTS, KEYS, Core

# Operations whose second byte can be ORed with 4 or 5 without another place to go to.
SAFE = ("LA", "LR", "SVC", "BCR")
# How many schedules a run of the tests plays, from which number on they are drawn, and of how many one is made a page.
COUNT, FIRST_NUMBER, A_PAGE = 2000, 1, 50


def code_of(draw: random.Random, base: int, size: int) -> list[str]:
    """A module's instructions, the last of them a return; register 12 is X'100000', 1 to 3 count, and 4 and 5 are calls."""
    kinds = [draw.choice(("LA", "LR", "BC", "BCT", "BCTR", "SVC", "EX", "EX", "BCR")) for _ in range(size)]
    sizes = [2 if it in ("LR", "BCTR", "SVC", "BCR") else 4 for it in kinds]
    starts = [base - 0x100000 + sum(sizes[:n]) for n in range(size + 1)]
    rows = []
    for n, kind in enumerate(kinds):
        subject = draw.randrange(size)
        to = starts[subject] if kind == "EX" else draw.choice(starts[n:])
        number = draw.choice((1, 2, 3))
        ored = draw.choice((0, 4, 5)) if kinds[subject] in SAFE else 0
        rows.append({
            "LA": f"41{draw.choice((6, 7, 8)):X}00{draw.randrange(4096):03X}",
            "LR": f"18{draw.choice((6, 7, 8)):X}{draw.choice((4, 5, 7)):X}",
            "BC": f"47{draw.choice((0, 4, 8, 15)):X}0C{to:03X}",
            "BCT": f"46{number:X}0C{draw.choice(starts):03X}",
            "BCTR": f"06{number:X}0",
            "BCR": f"07{draw.choice((0, 4)):X}{draw.choice((0, 14)):X}",
            "SVC": draw.choice(("0A00", "0A04", "0A04", "0A05", "0A05")),
            "EX": f"44{ored:X}0C{to:03X}",
        }[kind])
    return [*rows, "07FE"]


def private_of(draw: random.Random, modules: list[Module]) -> str:
    """A controller's instructions in private storage: calls, EX of a call and of a module's instruction, and last a branch."""
    rows, tail = [], "0A000A04"
    for _ in range(draw.randrange(2, 9)):
        place, kind = draw.choice([(it.base - 0x100000 + at, kind) for it in modules for at, _, kind in it.located()])
        ored = draw.choice((0, 4, 5)) if kind in SAFE else 0
        call = draw.choice((0x40, 0x42))
        execute = draw.choice((f"4450{call:04X}", f"4440{call:04X}", f"44{ored:X}0C{place:03X}"))
        rows.append(draw.choice(("0A04", "0A05", "0A04", "0A05", execute, execute, execute)))
    rows.append(draw.choice(("07FE", f"47F0C{modules[0].base - 0x100000:03X}")))
    return "".join(rows).ljust(0x80, "0") + tail


def job_of(draw: random.Random) -> bytes:
    """Two or three modules, three or four sessions, two controllers and two further tasks."""
    first = Module("M", 0x100000, code_of(draw, 0x100000, draw.randrange(2, 7)))
    second = Module("N", 0x100080, code_of(draw, 0x100080, draw.randrange(1, 5)))
    third = Module("U", 0x100100, ["07FE"], False)
    by_second = draw.choice(("D", "D", None))
    # The module without a listing, whose sessions have one controller too.
    bare = draw.choice(("C", "D"))
    sessions = [
        Session("S1", [first, third] if bare == "C" else [first], "C"),
        Session("S2", [third] if bare == "C" and draw.randrange(3) == 0 else [first], "C"),
        Session("S3", [second], by_second),
        *([Session("S4", draw.choice(([third], [second, third])) if bare == "D" else [second], "D")] if by_second else []),
        *([Session("S5", [first], "C")] if draw.randrange(2) else []),
    ]
    draw.shuffle(sessions)
    modules = [first, second, third]
    tasks = []
    for name in "ABCD":
        registers = {1: draw.randrange(4), 2: draw.randrange(4), 3: draw.randrange(1, 4), 4: 4, 5: 5, 12: 0x100000}
        inside = name in "AB" or draw.randrange(3) == 0
        entry = draw.choice([it.base + at for it in modules[:2] for at, _, _ in it.located()]) if inside else 0
        tasks.append(Task(name, entry, draw.randrange(1, 30), registers, private_of(draw, modules[:2])))
    return phase_jobs.job(modules, sessions, tasks)


def items_of(draw: random.Random, core: Core) -> list[str]:
    """Items that are possible one behind the other, to ENDSCHED, or to one that isn't."""
    lines: list[str] = []
    for _ in range(draw.randrange(1, 400)):
        left = [it.name for it in core.tasks.values() if not it.ending]
        if not left:
            break
        name = draw.choice(left)
        bad = [it for it in KEYS if not core.is_possible(it, name)]
        if bad and draw.randrange(150) == 0:
            return [*lines, f"{draw.choice(bad)} {name}"]
        key = "GO" if draw.randrange(40) == 0 else next(it for it in EVENTS if core.is_possible(it, name))
        lines.append(f"{key} {name}")
        core.play(key, name)
    return [*lines, "ENDSCHED"]


def schedule(number: int) -> bytes:
    """A job with a schedule."""
    draw = random.Random(number)
    data = job_of(draw)
    lines = items_of(draw, Core(answers.listed(data, True)))
    return data + "\n".join([*lines, ""]).encode()


def plays() -> None:
    """schedules over sessions that tasks open and close"""
    for number in range(FIRST_NUMBER, FIRST_NUMBER + COUNT):
        data = schedule(number)
        answer, ran = answers.answer(["replay"], data), run([PROGRAM, "replay"], data)
        fault = answer.fault(ran.status, ran.output)
        assert fault is None, f"schedule {number}: {fault}"
        if ran.status == 0 and number % A_PAGE == 0:
            well(coverage("page", data=ran.output))


CHECKS = [plays]
