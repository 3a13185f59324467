"""A task alone over modules that were never planted, by docs/MACHINE.md, slow and plain.

Its storage, and how it begins and ends an instruction; models/machine_operations.py has the operations.
"""
from __future__ import annotations

import re
from dataclasses import dataclass, field
from typing import Any, Callable, Iterator, Mapping, Optional

from fixtures.harness import TOP

RETURN = 0xFFFFFE
WORD, HIGHEST = 1 << 32, (1 << 31) - 1
PRIVILEGED = bytes.fromhex("08098082838485 9C9D9E9FACADAEB1B6B7")


def operation_codes() -> set[int]:
    """The codes of docs/MACHINE.md's operations."""
    with open(f"{TOP}/docs/MACHINE.md", encoding="utf-8") as file:
        rows = re.findall(r"^\| ((?:[0-9A-F]{2} ?)+) \| [A-Z ]+ \|", file.read(), re.M)
    codes = {int(code, 16) for row in rows for code in row.split()}
    assert len(codes) == 99, len(codes)
    return codes


CODES = operation_codes()


class Ends(Exception):
    """An ending of which nothing but the count stays."""


@dataclass
class World:
    """Modules, each with its base and its bytes, and the touch bytes of their places."""

    modules: list[tuple[int, bytes]]
    touched: set[int]

    def byte(self, at: int) -> int | None:
        for base, text in self.modules:
            if base <= at < base + len(text):
                return text[at - base]
        return None


def spread(at: int, size: int) -> Iterator[int]:
    """The addresses of so many bytes from there on."""
    return ((at + n) % 0x1000000 for n in range(size))


def signed(word: int) -> int:
    return word - WORD if word > HIGHEST else word


def sign_code(value: int) -> int:
    return 0 if value == 0 else 1 if value < 0 else 2


def compared(one: Any, other: Any) -> int:
    """0 where they are equal, 1 where the first is lower, 2 where it is higher."""
    return 0 if one == other else 1 if one < other else 2


def packed(field_: bytes) -> int:
    """The number of a decimal field."""
    digits, sign = field_.hex()[:-1], field_[-1] & 15
    if sign < 10 or not digits.isdecimal():
        raise Ends("ABEND 7")
    return -int(digits) if sign in (11, 13) else int(digits)


def packing(value: int, size: int, is_minus: bool) -> bytes:
    """A decimal field of the low digits of a magnitude."""
    digits = f"{abs(value):0{2 * size - 1}}"[-(2 * size - 1) :]
    return bytes.fromhex(digits + ("d" if is_minus else "c"))


Operations = Mapping[int, Callable[["Task", bytes], Optional[str]]]
# What a course makes of a task behind an instruction: how it ends the task, if it does, by how the instruction would.
Course = Callable[["Task", Optional[str]], Optional[str]]


def operation_of(operations: Operations, code: int) -> Callable[[Task, bytes], str | None]:
    if code in PRIVILEGED:
        raise Ends("ABEND 2")
    if code not in CODES:
        raise Ends("ABEND 1")
    return operations[code]


@dataclass
class Task:
    """A task as it stands, and of its last step the visits that were begun, whether it branched, and the call that it made."""

    world: World
    registers: list[int]
    at: int
    storage: bytearray
    source: bytes = b""
    room: int = 0
    output: bytes = b""
    condition: int = 0
    mask: int = 0
    visits: list[int] = field(default_factory=list)
    went: bool = False
    called: int | None = None
    # Whether it runs under exits, and its exit, 0 for none.
    has_exits: bool = False
    exit: int = 0
    # Of the instruction in hand: where it goes on, its updated address, and its length code.
    target: int = 0
    behind: int = 0
    length: int = 0

    # ---- storage

    def byte(self, at: int) -> int | None:
        return self.storage[at] if at < len(self.storage) else self.world.byte(at)

    def test(self, *uses: tuple[int, int, bool]) -> None:
        """The access, protection and touch of operands, each an address, a size and whether it is stored."""
        if any(self.byte(it) is None for at, size, _ in uses for it in spread(at, size)):
            raise Ends("ABEND 5")
        if any(it >= len(self.storage) for at, size, stores in uses if stores for it in spread(at, size)):
            raise Ends("ABEND 4")
        for it in (it for at, size, stores in uses if not stores for it in spread(at, size)):
            if it in self.world.touched:
                raise Ends(f"TOUCHED {it:06X}")

    def load(self, at: int, size: int) -> bytes:
        """Bytes that were tested."""
        return bytes(self.byte(it) or 0 for it in spread(at, size))

    def store(self, at: int, data: bytes) -> None:
        for it, byte in zip(spread(at, len(data)), data):
            self.storage[it] = byte

    # ---- one step

    def fetch(self, at: int) -> bytes:
        """The instruction at an even address whose first halfword is accessible."""
        first = self.byte(at)
        assert first is not None
        size = (2, 4, 4, 6)[first >> 6]
        for later in range(at + 2, at + size, 2):
            if any(self.byte((later + n) % 0x1000000) is None for n in (0, 1)):
                raise Ends("ABEND 5")
            if later % 0x1000000 in self.world.touched:
                raise Ends(f"TOUCHED {later % 0x1000000:06X}")
        return self.load(at, size)

    def begin(self, at: int) -> bytes:
        """The instruction at an address, where one stands there."""
        if at % 2:
            raise Ends("ABEND 6")
        if self.byte(at) is None or self.byte(at + 1) is None:
            raise Ends("ABEND 5")
        code = self.fetch(at)
        self.visits.append(at)
        return code

    def step(self, operations: Operations) -> str | None:
        """Executes an instruction, an EX with its subject; how it ends the task, if it does."""
        self.visits, self.went, self.called = [], False, None
        try:
            code = self.begin(self.at)
            self.behind = self.target = (self.at + len(code)) % 0x1000000
            self.length = len(code) // 2
            if code[0] == 0x44:
                code, self.length = self.subject(code), 2
            ending = operation_of(operations, code[0])(self, code)
        except Ends as ends:
            return str(ends)
        self.at = self.target
        return ending

    def subject(self, code: bytes) -> bytes:
        """The subject of an EX, with its second byte ORed."""
        at, number = self.second(code, True), code[1] >> 4
        if at % 2 == 0 and self.byte(at) == 0x44 and self.byte(at + 1) is not None:
            raise Ends("ABEND 3")
        found = self.begin(at)
        return bytes([found[0], found[1] | (self.registers[number] & 255 if number else 0), *found[2:]])

    def second(self, code: bytes, is_indexed: bool) -> int:
        """The effective address of the second and third byte pair, with an index or without one."""
        index = self.base(code[1] & 15) if is_indexed else 0
        return (index + self.place(code, 2)) % 0x1000000

    def place(self, code: bytes, at: int) -> int:
        return (self.base(code[at] >> 4) + (code[at] & 15) * 256 + code[at + 1]) % 0x1000000

    def base(self, number: int) -> int:
        return self.registers[number] if number else 0

    # ---- what operations share

    def go(self, target: int) -> None:
        """Branches on a condition."""
        self.target, self.went = target, True

    def leaves(self, ending: str) -> bool:
        """Goes on at its exit, where it has one for this ending."""
        if not self.exit or not ending.startswith("ABEND "):
            return False
        self.registers[0], self.registers[1] = int(ending[6:], 16), self.at
        self.at, self.exit = self.exit, 0
        return True

    def put(self, number: int, value: int) -> None:
        self.registers[number] = value % WORD

    def summed(self, number: int, total: int) -> str | None:
        """A signed result: the sign code, or overflow."""
        self.put(number, total)
        is_over = total != signed(total % WORD)
        self.condition = 3 if is_over else sign_code(total)
        return "ABEND 8" if is_over and self.mask & 8 else None

    def word(self, code: bytes, size: int = 4) -> int:
        """The signed operand of RR or RX."""
        if code[0] < 0x40:
            return signed(self.registers[code[1] & 15])
        at = self.second(code, True)
        self.test((at, size, False))
        return int.from_bytes(self.load(at, size), "big", signed=True)

    def decimal(self, at: int, size: int, total: int) -> str | None:
        """A decimal result: the sign code, or overflow."""
        is_over = abs(total) >= 10 ** (2 * size - 1)
        self.store(at, packing(total, size, total < 0))
        self.condition = 3 if is_over else sign_code(total)
        return "ABEND A" if is_over and self.mask & 4 else None
