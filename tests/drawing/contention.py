"""Jobs of 2 to 64 tasks that go through one module at once, in a loop of branches that they take differently.

A task waits by a count of its own, so that tasks that begin one after the other meet; in a long module they meet at many places,
each of which is marked once or twice alone. Sessions over the module are whole, or opened and closed by a task that waits between
its calls, and that is the phase's only one at times.
"""
from __future__ import annotations

import random

from fixtures.jobs import Program

# Behind LTR of register 2, which makes the condition code, and the wait, the branches, by a base that BASR makes anew each time
# that so many instructions follow; register 6 counts the rounds, and register 13 has where they begin.
HEAD = (("1222", "LTR"), ("4650C002", "BCT"))
BASED, ROUNDS = 400, 6
CARD = "TASK {name} {entry:06X} {private} 50000 0\n"


def program(draw: random.Random) -> Program:
    """The wait, then so many instructions, and back to the first of them."""
    rows = list(HEAD)
    at, base = ROUNDS, 0
    for number in range(draw.choice((5, 40, 600, 4000))):
        if number % BASED == 0:
            rows.append(("0DC0", "BASR"))
            at = base = at + 2
        kind = draw.choice(("BC", "BC", "BC", "LA", "BCTR", "LR"))
        digits = {"BC": f"47{draw.randrange(1, 15):X}0C{at + 4 - base:03X}", "LA": "41700001", "BCTR": "0680", "LR": "1877"}[kind]
        rows.append((digits, kind))
        at += len(digits) // 2
    rows += [("066D", "BCTR"), ("07FE", "BR")]
    code, at = [], 0
    for digits, name in rows:
        code.append((at, digits, name))
        at += len(digits) // 2
    return Program(code)


def variants(draw: random.Random) -> list[str]:
    """The registers of few kinds of tasks."""
    rounds, back = draw.choice((1, 1, 3)), f"REG 12 00100000\nREG 13 {0x100000 + ROUNDS:08X}\n"
    return [
        f"REG 2 {draw.choice((0, 1, 0xFFFFFFFF)):08X}\nREG 5 {draw.choice((1, 300, 10000)):08X}\nREG 6 {rounds:08X}\n{back}"
        for _ in range(draw.choice((2, 3, 5)))
    ]


def controller(draw: random.Random, sessions: int) -> str:
    """Waits and calls in private storage: it opens and closes each of its sessions."""
    text = ""
    for call in ("0A04", "0A05") * sessions:
        text += f"4190{draw.choice((1, 50, 1500)):04X}4690{len(text) // 2 + 4:04X}{call}"
    cards = "".join(f"DATA {at // 2} {(text + '07FE')[at : at + 128]}\n" for at in range(0, len(text) + 4, 128))
    return CARD.format(name="C", entry=0, private=1024) + cards


def job(draw: random.Random) -> bytes:
    """A job."""
    tasks, kinds = draw.choice((0, 2, 3, 4, 8, 16, 63)), variants(draw)
    cards = "".join(CARD.format(name=f"T{n}", entry=0x100000, private=16) + draw.choice(kinds) for n in range(tasks))
    sessions = draw.choice((0, 0, 1, 3, 8, 16))
    if not sessions:
        return program(draw).job(CARD.format(name="L", entry=0x100000, private=16) + kinds[0] + cards)
    names = "".join(f"SESSION S{n} BY C M\n" for n in range(sessions))
    return program(draw).job(controller(draw, sessions) + cards).replace(b"SESSION S M\n", names.encode())
