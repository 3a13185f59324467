"""The short form of tests/outside: some cases of each operation and some programs beside Hercules, with one seed."""
from __future__ import annotations

import random

from drawing import operands, programs
from fixtures import hercules
from fixtures.harness import PROGRAM, TOP, Tally, equal, run_checks
from fixtures.jobs import code_of
from trials import outside_instructions, outside_programs

# How many cases of each operation, and how many programs, and the seed of both.
CASES, PROGRAMS, SEED = 12, 6, 1
# Programs whose last step reads a touch byte: their instructions, of which - stands on no line, the byte's location, and where what that
# step has begun stands.
TOUCHING: tuple[tuple[str, int, list[int]], ...] = (
    ("0 91FFC004 TM, 4 07FE BR", 4, [0]),
    ("0 4400C006 EX, 4 07FE BR, 6 D501B000C003 CLC", 4, [0, 6]),
    ("0 47F0C004 BC, 4 5810 -, 6 07FE BR", 6, []),
    ("0 4400C004 EX, 4 5810 -, 6 07FE BR", 6, [0]),
)


def sentences() -> None:
    """beside Hercules: each sentence that tells a difference stands in docs/MACHINE.md"""
    with open(f"{TOP}/docs/MACHINE.md", encoding="utf-8") as file:
        page = " ".join(file.read().split())
    equal([it for it in outside_instructions.sentences() if it not in page], [])


def instructions() -> None:
    """beside Hercules: cases of each operation"""
    told, faults = outside_instructions.compare(PROGRAM, SEED, CASES)
    equal((len(told.endings), len(faults), faults[:1]), (100, 0, []))


def whole_programs() -> None:
    """beside Hercules: whole programs, step by step"""
    _, faults = outside_programs.compare(PROGRAM, SEED, PROGRAMS)
    equal((len(faults), faults[:1]), (0, []))


def touching(text: str) -> outside_programs.Run:
    """A run of a program of such instructions."""
    code, module, draw = code_of(text), bytearray(operands.MODULE), random.Random(SEED)
    for at, digits, _ in code:
        module[at : at + len(digits) // 2] = bytes.fromhex(digits)
    task = operands.Task("T0", programs.registers(draw), operands.BASE, programs.private(draw), module, outside_programs.STEPS)
    return outside_programs.Run(text, programs.Program(module, [it for it in code if it[2] != "-"]), [task])


def touching_programs() -> None:
    """beside Hercules: programs that read a touch byte, as an operand or in an instruction, by EX or without"""
    runs = [touching(text) for text, _, _ in TOUCHING]
    faults = outside_programs.beside_hercules(PROGRAM, runs)
    ends = [it for run in runs for it in run.others if isinstance(it, outside_programs.Touched)]
    equal([(it.code - operands.BASE, [at - operands.BASE for at in it.begun]) for it in ends], [it[1:] for it in TOUCHING])
    equal(faults, [])


def run_all(tally: Tally) -> None:
    """Runs them where Hercules is installed."""
    run_checks(tally, [sentences])
    if hercules.is_there():
        run_checks(tally, [instructions, whole_programs, touching_programs])
    else:
        tally.left_out.append("instructions and programs beside Hercules, which isn't installed")
