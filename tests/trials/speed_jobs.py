"""The programs that tests/speed measures: as jobs, and the same bytes on Hercules' bare machine."""
from __future__ import annotations

import pathlib
import re
import struct
from dataclasses import dataclass, field

from fixtures.harness import coverage, folder, run, well
from fixtures.hercules import BASE, Hercules
from fixtures.jobs import Program
from models import trial
from trials.outside_instructions import cards

PRIVATE, DATA, BUDGET = 4096, 0x100, 50_000_000
# Of page zero on Hercules: what begins a program, where that returns to, and its registers before and behind.
BEGIN, RETURN, BEFORE, BEHIND, WAIT = 0xE00, 0xE08, 0xE40, 0xE80, 0xEC0
NAMES = {0x41: "LA", 0x1A: "AR", 0x12: "LTR", 0x47: "BC", 0x13: "LCR", 0x50: "ST", 0x46: "BCT", 0x07: "BR"}
# Register 3 counts the rounds of each, and register 11 has the address of the data.
SOURCES = {
    "loop": """\
ROUND    AR    2,1
         ST    2,0
         BCT   3,ROUND             goes each time but the last
         BR    14
""",
    "fields": """\
ROUND    MVC   KEY,RECORD
         CLC   KEY,OTHER
         BE    SAME
         CLI   RECORD+9,C'*'
         BNE   PLAIN
         LA    5,1(,5)
PLAIN    SR    4,4
         IC    4,RECORD+8
         AR    6,4
         TM    RECORD+10,X'40'
         BZ    SAME
         MVC   LINE,RECORD
SAME     BCT   3,ROUND
         BR    14
""",
    "linkage": """\
ROUND    BAL   10,NEXT
         LA    9,TOTAL
         BALR  10,9
         BCT   3,ROUND
         BR    14
NEXT     L     4,COUNT
         A     4,ONE
         ST    4,COUNT
         BR    10
TOTAL    STM   4,8,SAVE
         LR    5,4
         A     5,SUM
         ST    5,SUM
         LM    4,8,SAVE
         BR    10
""",
    "packed": """\
ROUND    ZAP   AMOUNT,PRICE
         MP    AMOUNT,NUMBER
         CP    AMOUNT,LIMIT
         BH    MUCH
         AP    TOTALS,AMOUNT
MUCH     UNPK  DIGITS,NUMBER
         PACK  NUMBER,DIGITS
         CVB   4,TOTALS
         SP    TOTALS,AMOUNT
         BCT   3,ROUND
         BR    14
""",
}
AREA = """\
WORK     DSECT
RECORD   DS    CL24
OTHER    DS    CL8
KEY      DS    CL8
LINE     DS    CL24
COUNT    DS    F
ONE      DS    F
SUM      DS    F
SAVE     DS    5F
         DS    0D
TOTALS   DS    PL8
AMOUNT   DS    PL6
PRICE    DS    PL3
NUMBER   DS    PL2
LIMIT    DS    PL4
DIGITS   DS    CL3
"""
# What stands in them: RECORD, OTHER, the words with SAVE, and the numbers from TOTALS on.
STORED = bytes.fromhex(f"C1C2C3C4C5C6C7C8075C{'40' * 14}C1C2C3C4C5C6C7C9{'00' * 32}0000000000000001{'00' * 24}"
                       "000000000000000C00000000000C12345C017C0999999CF0F1F7")


@dataclass
class Subject:
    """What is measured: its modules' cards and bytes, and the tasks' first registers and storage."""

    name: str
    modules: list[str]
    text: bytes
    registers: dict[int, int] = field(default_factory=dict)
    data: bytes = b""

    def job(self, rounds: int, tasks: int = 1, observed: bool = True, budget: int = BUDGET) -> bytes:
        """A job of tasks that go round so often."""
        rows = ["COVERJOB 1", *self.modules, "PHASE P"]
        names = [it.split()[1] for it in self.modules if it.startswith("MODULE ")]
        rows += [f"SESSION S {' '.join(names)}"] * observed
        for number in range(tasks):
            rows.append(f"TASK T{number} {BASE:06X} {PRIVATE} {budget} 0")
            rows += [f"REG {n} {value:08X}" for n, value in sorted({**self.registers, 3: rounds}.items())]
            rows += cards("DATA", bytes(DATA) + self.data)
        return ("\n".join([*rows, "ENDJOB"]) + "\n").encode()

    def seconds(self, herc: Hercules, rounds: int) -> tuple[float, list[int]]:
        """The processor's time that Hercules takes for them, and the registers behind, 14 of which is its own."""
        page = bytearray(PRIVATE)
        page[DATA : DATA + len(self.data)] = self.data
        first = [{**self.registers, 3: rounds, 14: RETURN, 15: BASE}.get(n, 0) for n in range(16)]
        # The PSW of a restart; LM and BR; STM and LPSW.
        for at, it in ((0, f"00080000{BEGIN:08X}"), (BEGIN, f"980F0{BEFORE:03X}07FF"), (RETURN, f"900F0{BEHIND:03X}82000{WAIT:03X}"),
                       (WAIT, "000A00000000D0E0"), (BEFORE, struct.pack(">16I", *first).hex())):
            page[at : at + len(it) // 2] = bytes.fromhex(it)
        herc.buffer = b""
        herc.say("stop")
        herc.load(0, bytes(page))
        herc.load(BASE, self.text)
        herc.say("sysreset")
        begun = spent(herc.process.pid)
        herc.say("restart")
        # Asked too, since a message may be lost; packed numbers take it long on a busy machine.
        herc.wait_for(rb"PSW=000A0000 0000D0E0", "psw", 1800)
        took = spent(herc.process.pid) - begun
        herc.say("stop")
        return took, list(struct.unpack(">16I", herc.saved(BEHIND, 64)))


def spent(process: int) -> float:
    """The processor's time of a process until now, in seconds."""
    return sum(int(it.read_text("ascii").split()[0]) for it in pathlib.Path(f"/proc/{process}/task").glob("*/schedstat")) / 1e9


def done(report: bytes) -> int:
    """How many instructions the tasks of a report have done."""
    return sum(map(int, re.findall(rb"^TASK .* COUNT (\d+) CC", report, re.M)))


def of_source(name: str) -> Subject:
    """A program of SOURCES."""
    with folder() as at:
        with open(f"{at}/source", "w", encoding="ascii") as file:
            head = f"{name.upper():8} CSECT\n         USING {name.upper()},15\n         USING WORK,11\n"
            file.write(f"{head}{SOURCES[name]}{AREA}         END\n")
        well(run(["python3", "-I", "-B", "scripts", "assemble", f"{at}/source", f"{at}/object", f"{at}/listing", "ascii"]))
        rows = well(coverage("module", name.upper(), f"{BASE:06X}", f"{at}/object", f"{at}/listing")).output.decode().splitlines()
    text = bytes.fromhex("".join(it[5:] for it in rows if re.match("TEXT [0-9A-F]+$", it)))
    return Subject(name, rows, text, {1: 3, 11: DATA}, STORED)


def generated() -> Subject:
    """The module of the generated job 7, whose number of rounds is any."""
    code = []
    for at, (first, second) in sorted(trial.code_of(7).items()):
        code.append((at, f"{first:04X}" + f"{second:04X}" * (first >= 0x4000), NAMES[first >> 8]))
    return subject("generated job", [code], {1: 1})


def straight(modules: int, places: int) -> Subject:
    """Modules behind one another, each with so many places, and at the end a branch to their begin, for ever."""
    code = [[(2 * n, "1A21", "AR") for n in range(places)] for _ in range(modules)]
    code[-1][-1] = (2 * places - 2, "07FF", "BR")
    return subject(f"{modules * places:,} places", code, {1: 1})


def subject(name: str, modules: list[list[tuple[int, str, str]]], registers: dict[int, int]) -> Subject:
    """Modules of nothing but instructions, behind one another."""
    rows, text = [], b""
    for number, code in enumerate(modules):
        it = Program(code)
        rows += [f"MODULE M{number} {BASE + len(text):06X} {len(it.text())}", *cards("TEXT", it.text())]
        rows += [f"LISTING {len(it.listing())}", *it.listing()]
        text += it.text()
    return Subject(name, rows, text, registers)


def subjects() -> list[Subject]:
    """What is measured beside Hercules."""
    return [generated(), *map(of_source, SOURCES)]
