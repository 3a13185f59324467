"""The generated job as docs/JOB.md has it, run by a model of its eight operations that knows nothing of the program."""
from __future__ import annotations

WORD = 1 << 32
BASE = 0x100000


def signed(word: int) -> int:
    return word - WORD if word >= WORD // 2 else word


def code_of(number: int) -> dict[int, tuple[int, int]]:
    """The first halfword and the second (0 where there is none) at each location."""
    code: dict[int, tuple[int, int]] = {}
    state, at = number, 0

    def draw(n: int) -> int:
        nonlocal state
        state = (state * 1103515245 + 12345) % WORD
        return state // 65536 % n

    def put(first: int, second: int | None = None) -> None:
        nonlocal at
        code[at] = first, second or 0
        at += 2 if second is None else 4

    for _ in range(400):
        kind = draw(4)
        if kind == 0:
            put(0x4110, 0x1000 + draw(16))
        elif kind == 1:
            put(0x1A21)
        elif kind == 2:
            mask = 1 + draw(14)
            behind = at + 8
            put(0x1222)
            put(0x4700 + 16 * mask, 0xF000 + behind)
            put(0x1322)
        else:
            put(0x5020, 4 * draw(64))
    put(0x4630, 0xF000)
    put(0x07FE)
    return code


def run_task(code: dict[int, tuple[int, int]], task: int, shown: dict[int, set[str]]) -> int:
    """Adds what a task's executions show, and answers how many instructions it has done."""
    one, two, three, condition, at, done = task, 0, 200, 0, 0, 0
    while True:
        first, second = code[at]
        done += 1
        facts = shown.setdefault(at, set())
        following, operation = at + (2 if first < 0x4000 else 4), first >> 8
        if operation in (0x47, 0x46):
            if operation == 0x46:
                three = (three - 1) % WORD
                goes = three != 0
            else:
                goes = bool((first >> 4) & 15 & (8 >> condition))
            facts.add("went" if goes else "stayed")
            at = second & 0xFFF if goes else following
            continue
        facts.add("ran")
        if operation == 0x07:
            return done
        if operation == 0x41:
            one = (one + (second & 0xFFF)) & 0xFFFFFF
        elif operation == 0x1A:
            total = signed(two) + signed(one)
            two = total % WORD
            condition = 3 if total != signed(two) else 0 if total == 0 else 1 if total < 0 else 2
        elif operation == 0x12:
            condition = 0 if two == 0 else 1 if signed(two) < 0 else 2
        elif operation == 0x13:
            total = -signed(two)
            two = total % WORD
            condition = 3 if total != signed(two) else 0 if total == 0 else 1 if total < 0 else 2
        at = following


def summary(number: int, tasks: int) -> bytes:
    """What `trial` writes."""
    code = code_of(number)
    shown: dict[int, set[str]] = {}
    done = sum(run_task(code, task, shown) for task in range(1, tasks + 1))
    marks = [sorted(shown.get(it, ())) for it in code]
    none: list[str] = []
    counts = [marks.count(it) for it in (none, ["ran"], ["went"], ["stayed"], ["stayed", "went"])]
    words = " ".join(f"{name} {count}" for name, count in zip(("NOT", "EXECUTED", "BRANCHED", "FELL", "BOTH"), counts))
    return f"COVERAGE TRIAL {number} TASKS {tasks}\nPLACES {len(code)} INSTRUCTIONS {done}\nMARKS {words}\n".encode()
