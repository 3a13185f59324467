"""Random programs with loops, branches either way, subroutines and EX, and tasks that run them.

Registers 12 and 11 are bases of the module and of private storage, 1 to 3 count, 13 is a link, and 4 to 10 are worked
with. A task has decimal fields and, behind them, any bytes, so that most programs do much before they are interrupted.
Behind its instructions a module has bytes that stand on no line.
"""
from __future__ import annotations

import random
from dataclasses import dataclass, field

from drawing.operands import BASE, MODULE, PRIVATE

# Where a task's data lie, how many bytes of them are decimal fields, and how many are drawn.
DATA, PACKED, FIELD = 0x100, 0x80, 0x180
WORK = (4, 5, 6, 7, 8, 9, 10)
EVEN = (4, 6, 8)
RX = {"A": 0x5A, "S": 0x5B, "L": 0x58, "ST": 0x50, "N": 0x54, "X": 0x57, "C": 0x59, "CL": 0x55, "AL": 0x5E, "SL": 0x5F,
      "LH": 0x48, "AH": 0x4A, "SH": 0x4B, "CH": 0x49, "MH": 0x4C, "STH": 0x40, "IC": 0x43, "STC": 0x42, "LA": 0x41,
      "O": 0x56}
RR = {"AR": 0x1A, "SR": 0x1B, "LR": 0x18, "LTR": 0x12, "LCR": 0x13, "LPR": 0x10, "LNR": 0x11, "NR": 0x14, "OR": 0x16,
      "XR": 0x17, "CR": 0x19, "CLR": 0x15, "ALR": 0x1E, "SLR": 0x1F}
SI = {"TM": 0x91, "MVI": 0x92, "NI": 0x94, "CLI": 0x95, "OI": 0x96, "XI": 0x97, "TS": 0x93}
SS = {"MVC": 0xD2, "CLC": 0xD5, "NC": 0xD4, "OC": 0xD6, "XC": 0xD7, "MVN": 0xD1, "MVZ": 0xD3, "TR": 0xDC, "TRT": 0xDD}
DECIMAL = {"AP": 0xFA, "SP": 0xFB, "ZAP": 0xF8, "CP": 0xF9}
OTHER_FIELDS = {"PACK": 0xF2, "UNPK": 0xF3, "MVO": 0xF1, "MP": 0xFC, "DP": 0xFD}
SHIFTS = {"SLL": 0x89, "SRL": 0x88, "SLA": 0x8B, "SRA": 0x8A}
LONG_SHIFTS = {"SLDL": 0x8D, "SRDL": 0x8C, "SLDA": 0x8F, "SRDA": 0x8E}
MASKED = {"ICM": 0xBF, "STCM": 0xBE, "CLM": 0xBD}
PAIRS = {"M": 0x5C, "D": 0x5D}
KINDS = (
    *("rx",) * 6, *("rr",) * 4, *("decimal",) * 3, "si", "si", "ss", "ss", "shift", "shift", "long", "masked", "masked",
    "multiple", "binary", "binary", "fields", "edit", "pair",
)
LEADS = ("branch",) * 6 + ("count", "loop", "loop", "call", "execute", "execute", "execute", "index", "mask")
# Subjects whose second byte can be ORed without another address to come of it.
ORED = {*RR, *SI, *SS}


@dataclass
class Item:
    """An instruction: its name and its digits, in which {n} stands for the location of an item."""

    name: str
    digits: str
    location: int = 0

    def size(self) -> int:
        return (2, 4, 4, 6)[int(self.digits[0], 16) >> 2]


@dataclass
class Program:
    """The module's bytes, and of each instruction its location, digits and name."""

    text: bytearray
    code: list[tuple[int, str, str]]


@dataclass
class Writer:
    """Draws a program."""

    draw: random.Random
    items: list[Item] = field(default_factory=list)
    size: int = 0

    def place(self) -> str:
        """A base and a displacement in the data of the task."""
        at = self.draw.randrange(PACKED, FIELD)
        return f"B{at - at % self.draw.choice((1, 4)):03X}"

    def packed(self) -> str:
        """The same of a decimal field."""
        return f"B{8 * self.draw.randrange(PACKED // 8):03X}"

    def any_of(self, table: dict[str, int]) -> tuple[str, str]:
        name = self.draw.choice(list(table))
        return name, f"{table[name]:02X}"

    def straight(self, kind: str) -> Item:
        """An instruction that doesn't branch."""
        draw, work = self.draw, self.draw.choice(WORK)
        if kind == "rr":
            name, code = self.any_of(RR)
            return Item(name, f"{code}{work:X}{draw.choice((*WORK, 1, 2)):X}")
        if kind == "si":
            name, code = self.any_of(SI)
            return Item(name, f"{code}{draw.choice((0, 255, 64, draw.randrange(256))):02X}{self.place()}")
        if kind == "ss":
            name, code = self.any_of(SS)
            return Item(name, f"{code}{draw.choice((0, 3, 7, draw.randrange(40))):02X}{self.place()}{self.place()}")
        if kind == "decimal":
            name, code = self.any_of(DECIMAL)
            return Item(name, f"{code}77{self.packed()}{self.packed()}")
        if kind == "fields":
            name, code = self.any_of(OTHER_FIELDS)
            return Item(name, f"{code}{draw.randrange(256):02X}{self.place()}{self.packed()}")
        if kind == "shift":
            name, code = self.any_of(SHIFTS)
            return Item(name, f"{code}{work:X}0{draw.choice(('0', '4', '5'))}0{draw.randrange(34):02X}")
        if kind == "long":
            name, code = self.any_of(LONG_SHIFTS)
            return Item(name, f"{code}{draw.choice(EVEN):X}00{draw.randrange(64):03X}")
        if kind == "masked":
            name, code = self.any_of(MASKED)
            return Item(name, f"{code}{work:X}{draw.randrange(16):X}{self.place()}")
        return self.other(kind, work)

    def other(self, kind: str, work: int) -> Item:
        draw = self.draw
        if kind == "pair":
            name, code = self.any_of(PAIRS)
            return Item(name, f"{code}{draw.choice(EVEN):X}0{self.place()}")
        if kind == "multiple":
            name, code = draw.choice((("LM", "98"), ("STM", "90")))
            first = draw.choice(WORK[:-2])
            return Item(name, f"{code}{first:X}{draw.randrange(first, 11):X}{self.place()}")
        if kind == "edit":
            name, code = draw.choice((("ED", "DE"), ("EDMK", "DF")))
            return Item(name, f"{code}{draw.randrange(3, 15):02X}B{FIELD - 32 + draw.randrange(3):03X}{self.packed()}")
        if kind == "binary":
            name, code = draw.choice((("CVD", "4E"), ("CVD", "4E"), ("CVB", "4F")))
            return Item(name, f"{code}{work:X}0{self.packed()}")
        name, code = self.any_of(RX)
        index = draw.choice("0000001")
        return Item(name, f"{code}{work:X}{index}{self.place()}")

    def leading(self, kind: str, at: int, count: int) -> list[Item]:
        """Instructions that lead on; item numbers are those behind which they stand."""
        draw, ahead = self.draw, min(at + self.draw.randrange(2, 7), count)
        if kind == "branch":
            if draw.random() < 0.25:
                behind = Item("BCR", f"07{draw.randrange(16):X}{draw.choice('DD0')}")
                return [Item("LA", f"41D0C{{{ahead + 1}}}"), behind]
            return [Item("BC", f"47{draw.randrange(16):X}0C{{{ahead}}}")]
        if kind == "count":
            return [Item("BCTR", f"06{draw.choice((2, 3, *WORK)):X}0")]
        if kind == "loop":
            return [Item("BCT", f"46{draw.choice((1, 2, 3)):X}0C{{{max(at - draw.randrange(1, 8), 0)}}}")]
        if kind == "call":
            name, code = draw.choice((("BAL", "45"), ("BAS", "4D")))
            return [Item(name, f"{code}{draw.choice('DDA')}0C{{{ahead}}}")]
        if kind == "index":
            name, code = draw.choice((("BXH", "86"), ("BXLE", "87")))
            numbers, to = f"{draw.choice('123')}{draw.choice('235')}", draw.choice((ahead, max(at - 3, 0)))
            return [Item(name, f"{code}{numbers}C{{{to}}}")]
        if kind == "mask":
            name, code = draw.choice((("SPM", "04"), ("BALR", "05"), ("BALR", "05")))
            return [Item(name, f"{code}{draw.choice(WORK):X}0")]
        # Which subject, and so which register, is chosen once the other instructions are known.
        return [Item("EX", "")]

    def execute(self) -> Item:
        """EX of an instruction."""
        subject = self.draw.randrange(len(self.items) - 8)
        if self.items[subject].name == "EX" and self.draw.random() < 0.9:
            return Item("LR", "1845")
        is_ored = self.items[subject].name in ORED or self.draw.random() < 0.1
        return Item("EX", f"44{self.draw.choice(WORK) if is_ored else 0:X}0C{{{subject}}}")

    def program(self) -> Program:
        """A program that ends with BR 14, and constants behind it."""
        count = self.draw.randrange(12, 60)
        while len(self.items) < count:
            if self.draw.random() < 0.4:
                self.items += self.leading(self.draw.choice(LEADS), len(self.items), count)
            else:
                self.items.append(self.straight(self.draw.choice(KINDS)))
        self.items = self.items[:count] + [Item("BR", "07FE")] * 8
        self.items = [it if it.digits else self.execute() for it in self.items]
        at = 0
        for n, it in enumerate(self.items):
            self.items[n] = Item(it.name, it.digits, at)
            at += it.size()
        where = [f"{it.location:03X}" for it in self.items]
        code = [(it.location, it.digits.format(*where), it.name) for it in self.items]
        text = bytearray.fromhex("".join(digits for _, digits, _ in code))
        return Program(text + self.draw.randbytes(MODULE - len(text)), code)


def registers(draw: random.Random) -> list[int]:
    """A task's registers at its start."""
    edges = (0, 1, 0x7FFFFFFF, 0x80000000)
    found = [draw.choice((*edges, draw.randrange(1 << 32), draw.randrange(1 << 16))) for _ in range(16)]
    for n in (1, 2, 3):
        found[n] = draw.choice((1, 2, 3, 5, 9, 0))
    found[11], found[12], found[14], found[15] = DATA, BASE, 0xFFFFFE, BASE
    return found


def private(draw: random.Random) -> bytearray:
    """A task's storage at its start: decimal fields, words, and a pattern for editing."""
    found = bytearray(PRIVATE)
    found[DATA + PACKED : DATA + FIELD] = draw.randbytes(FIELD - PACKED)
    for at in range(DATA, DATA + PACKED, 8):
        number = draw.choice((draw.randrange(10), draw.randrange(1000), draw.randrange(10**8)))
        found[at : at + 8] = bytes.fromhex(f"{number:015}{draw.choice('CCCDF')}")
    pattern = bytes.fromhex("4020206B2020214B20204020202220212040")
    found[DATA + FIELD - 32 : DATA + FIELD - 32 + len(pattern)] = pattern
    return found
