"""Random and edge operands for each operation of docs/MACHINE.md: cases of a few instructions, as tasks.

A case is SPM, which sets condition code and program mask by the bits of a register, the operation itself or by EX, in
some cases BALR, which tells the mask, and an SVC whose number tells where the task has come to. Instructions stand in
private storage or in the module, and operands anywhere.
"""
from __future__ import annotations

import random
from dataclasses import dataclass, field
from typing import Callable

from fixtures.hercules import BASE, MODULE, PRIVATE
from models.machine_task import CODES

# Instructions in private storage lie below this address, and data behind it.
DATA = 0x180
# How many cases share a module, and the bytes that each has there; its instructions stand in so many last ones, so that none stands in
# the module's first bytes, into which operands go from private storage.
SHARING, SLOT, LAST = 64, 24, 16
WORDS = (0, 1, 2, 3, 7, 0x7FFF, 0x8000, 0xFFFF, 0x10000, 0x7FFFFFFF, 0x80000000, 0x80000001, 0xFFFFFFFE, 0xFFFFFFFF)
# A register that begins a pair.
PAIR = "p"


def filler(at: int) -> bytes:
    """The SVC at an address; its number is no task call's."""
    return bytes([0x0A, 6 + (at >> 1) % 240])


def filled(start: int, size: int) -> bytearray:
    """SVCs all over."""
    return bytearray(b"".join(filler(it) for it in range(start, start + size, 2)))


FRONT = bytes(filled(0, DATA))
# Makes of each fifth random byte a zero, and of some blanks and ones.
OFTEN = bytes(0 if it % 5 == 0 else 0x40 if it % 16 == 1 else 0xFF if it % 16 == 2 else it for it in range(256))


@dataclass
class Task:
    """A case: the name of its operation, and the task as it begins."""

    name: str
    registers: list[int]
    at: int
    private: bytearray
    module: bytearray
    limit: int
    # Where SPM stands, and the operation behind it; and whether by EX.
    code: str = ""
    is_executed: bool = False
    before: int = 1


@dataclass
class Maker:
    """Draws a case of an operation."""

    draw: random.Random
    module: bytearray
    slot: int
    registers: list[int] = field(default_factory=list)
    fixed: set[int] = field(default_factory=set)
    private: bytearray = field(default_factory=bytearray)
    fills: list[tuple[int, bytes]] = field(default_factory=list)

    def __post_init__(self) -> None:
        self.registers = [self.word() for _ in range(16)]
        self.private = bytearray(FRONT + self.draw.randbytes(PRIVATE - DATA).translate(OFTEN))

    # ---- values

    def word(self) -> int:
        """A word, often an edge."""
        kind = self.draw.randrange(4)
        if kind == 0:
            return self.draw.choice(WORDS)
        if kind == 1:
            return self.draw.randrange(1 << 32)
        if kind == 2:
            return self.draw.randrange(-300, 300) % (1 << 32)
        return ((1 << self.draw.randrange(33)) + self.draw.randrange(-2, 3)) % (1 << 32)

    def like(self, other: int) -> int:
        """A word that makes an edge with another: equal to it, its complement, or one beside."""
        if self.draw.random() < 0.7:
            return self.word()
        return (self.draw.choice((other, -other, other ^ 1 << 31)) + self.draw.choice((-1, 0, 0, 1))) % (1 << 32)

    def register(self, kind: str = "") -> int:
        """A register's number; of a pair mostly an even one."""
        number = self.draw.randrange(16)
        return number & 14 if kind == PAIR and self.draw.random() < 0.93 else number

    def address(self, size: int, near: int | None = None) -> int:
        """Where an operand of so many bytes begins."""
        kind = self.draw.random()
        if near is not None and kind < 0.35:
            return (near + self.draw.randrange(-size, size + 1)) % (1 << 24)
        kind = self.draw.random()
        if kind < 0.6:
            return self.draw.randrange(DATA, max(PRIVATE - size, DATA) + 1)
        if kind < 0.7:
            return self.draw.choice((PRIVATE - size, 0, DATA, BASE + MODULE - size, BASE)) % (1 << 24)
        if kind < 0.78:
            return (PRIVATE - self.draw.randrange(size + 1)) % (1 << 24)
        if kind < 0.86:
            return BASE + self.draw.randrange(MODULE)
        if kind < 0.9:
            return self.draw.randrange(PRIVATE)
        if kind < 0.95:
            return (self.draw.choice((0, BASE, BASE + MODULE, 1 << 24)) - self.draw.randrange(size + 2)) % (1 << 24)
        return self.draw.randrange(1 << 24)

    def base(self, at: int, taken: int = 0) -> tuple[int, int]:
        """A base register and a displacement that give an address; the register is set where it is still free."""
        shift = self.draw.choice((0, self.draw.randrange(4096), self.draw.randrange(64)))
        free = [it for it in range(1, 16) if it not in self.fixed and it != taken]
        if not free or (at < 4096 and self.draw.random() < 0.05):
            return 0, at % 4096
        number = self.draw.choice(free)
        top = self.draw.choice((0, 0, self.draw.randrange(256)))
        self.registers[number] = (at - shift) % (1 << 24) | top << 24
        self.fixed.add(number)
        return number, shift

    def fill(self, at: int, data: bytes) -> None:
        """Puts an operand there, as far as that is private."""
        for n, it in enumerate(data):
            if at + n < len(self.private):
                self.private[at + n] = it

    # ---- instructions

    def rr(self, code: int, kind: str) -> bytes:
        return bytes([code, self.register(kind) << 4 | self.register(PAIR if kind == "pp" else "")])

    def rx(self, code: int, kind: str, at: int, three: int | None = None) -> bytes:
        """RX or, with a third field, RS."""
        one = self.register(kind)
        number, shift = self.base(at)
        if three is None and self.draw.random() < 0.3:
            three = self.draw.choice([it for it in range(16) if it not in self.fixed] or [0])
            if three and number:
                self.registers[number] = (self.registers[number] - self.registers[three]) % (1 << 32)
                self.fixed.add(three)
        if self.draw.random() < 0.85 and one in self.fixed:
            one = self.free(kind, one)
        return bytes([code, one << 4 | (three or 0), number << 4 | shift >> 8, shift & 255])

    def free(self, kind: str, other: int) -> int:
        """A register that is no base of the instruction."""
        singles = [it for it in range(16) if it not in self.fixed]
        pairs = [it for it in singles if it % 2 == 0 and it + 1 in singles]
        return self.draw.choice((pairs if kind == PAIR else singles) or [other])

    def ss(self, code: int, lengths: int, one: int, two: int) -> bytes:
        number, shift = self.base(one)
        other, its = self.base(two)
        return bytes([code, lengths, number << 4 | shift >> 8, shift & 255, other << 4 | its >> 8, its & 255])

    def si(self, code: int, immediate: int, at: int) -> bytes:
        number, shift = self.base(at)
        return bytes([code, immediate, number << 4 | shift >> 8, shift & 255])

    # ---- operands

    def packed(self, size: int) -> bytes:
        """A decimal field, seldom a bad one."""
        kind = self.draw.random()
        count = 2 * size - 1
        drawn = f"{self.draw.randrange(10 ** self.draw.randrange(1, count + 1)):0{count}}"
        text = self.draw.choice(("0" * count, "9" * count, drawn, drawn, drawn, drawn)) + self.draw.choice("CCDDABEF")
        if kind < 0.04:
            at = self.draw.randrange(2 * size)
            text = text[:at] + self.draw.choice("0123456789ABCDEF") + text[at + 1 :]
        return bytes.fromhex(text)


def fixed_register(it: Maker, code: int) -> bytes:
    made = it.rr(code, PAIR if code in (0x1C, 0x1D) else "")
    if made[1] >> 4 != made[1] & 15:
        it.registers[made[1] & 15] = it.like(it.registers[made[1] >> 4])
    if code == 0x1D and it.draw.random() < 0.7:
        # A dividend whose quotient has about 32 bits.
        one, by = made[1] >> 4 & 14, it.registers[made[1] & 15]
        by -= (by >> 31) << 32
        value = by * it.draw.randrange(-1 << 31, 1 << 31) + it.draw.randrange(-99, 99)
        it.registers[one], it.registers[one + 1] = (value >> 32) % (1 << 32), value % (1 << 32)
    return made


def fixed_storage(it: Maker, code: int) -> bytes:
    size = 2 if code in (0x40, 0x48, 0x49, 0x4A, 0x4B, 0x4C) else 1 if code in (0x42, 0x43) else 4
    at = it.address(size)
    made = it.rx(code, PAIR if code in (0x5C, 0x5D) else "", at)
    it.fill(at, it.like(it.registers[made[1] >> 4]).to_bytes(4, "big")[4 - size :])
    if code == 0x5D and it.draw.random() < 0.7:
        one = made[1] >> 4 & 14
        it.registers[one] = it.draw.choice((0, 0xFFFFFFFF, it.draw.randrange(16)))
    return made


def binary(it: Maker, code: int) -> bytes:
    """CVB and CVD."""
    at = it.address(8)
    value = it.draw.choice((2147483647, -2147483648, 2147483648, -2147483649, it.draw.randrange(-1 << 31, 1 << 31), 0))
    sign = it.draw.choice("DB" if value < 0 else "CAEF")
    it.fill(at, bytes.fromhex(f"{abs(value):015}{sign}") if it.draw.random() < 0.7 else it.packed(8))
    return it.rx(code, "", at)


def address_only(it: Maker, code: int) -> bytes:
    return it.rx(code, "", it.draw.randrange(1 << 24))


def shift(it: Maker, code: int) -> bytes:
    """A shift; its second address is any, of which six bits count."""
    at = it.draw.choice((it.draw.randrange(64), it.draw.randrange(34), it.draw.randrange(1 << 24)))
    made = it.rx(code, PAIR if code >= 0x8C else "", at, it.draw.randrange(16))
    one, size = made[1] >> 4, 63 if code >= 0x8C else 31
    if it.draw.random() < 0.5 and not it.fixed & {one, one + 1} and one < 15:
        # What goes to the left comes near the sign.
        value = it.draw.choice((1, -1)) * ((1 << max(size - at % 64, 0)) + it.draw.randrange(-1, 2))
        it.registers[one], it.registers[one + 1] = value >> (size - 31) & 0xFFFFFFFF, value & 0xFFFFFFFF
    return made


def multiple(it: Maker, code: int) -> bytes:
    three = it.draw.randrange(16)
    return it.rx(code, "", it.address(it.draw.randrange(4, 65)), three)


def under_mask(it: Maker, code: int) -> bytes:
    mask = it.draw.randrange(16)
    at = it.address(max(f"{mask:b}".count("1"), 1))
    made = it.rx(code, "", at, mask)
    if it.draw.random() < 0.5:
        it.fill(at, it.registers[made[1] >> 4].to_bytes(4, "big"))
    return made


def swap(it: Maker, code: int) -> bytes:
    """CS and CDS, of which half find what they compare with."""
    size = 4 if code == 0xBA else 8
    at = it.address(size)
    at -= it.draw.choice((at % size,) * 12 + (0, at % 4))
    three = it.register(PAIR if code == 0xBB else "")
    made = it.rx(code, PAIR if code == 0xBB else "", at, three)
    one = made[1] >> 4
    both = b"".join(it.registers[(one + n) % 16].to_bytes(4, "big") for n in range(size // 4))
    if it.draw.random() < 0.5:
        it.fill(at, both)
    return made


def immediate(it: Maker, code: int) -> bytes:
    at = it.address(1)
    number = it.draw.choice((0, 0xFF, it.draw.randrange(256), it.draw.randrange(256)))
    if it.draw.random() < 0.3:
        it.fill(at, bytes([it.draw.choice((0, 0xFF, number, number ^ 255))]))
    return it.si(code, number, at)


def one_length(it: Maker, code: int) -> bytes:
    """MVC and its like."""
    size = it.draw.choice((1, 2, 8, 256, it.draw.randrange(1, 257), it.draw.randrange(1, 24)))
    one = it.address(size)
    two = it.address(size, one)
    if code == 0xE8:
        two = (two + size - 1) % (1 << 24)
    if code == 0xD5 and it.draw.random() < 0.7 and two + size <= PRIVATE:
        same = bytearray(it.private[two : two + size])
        if it.draw.random() < 0.6:
            same[it.draw.randrange(size)] ^= 1 << it.draw.randrange(8)
        it.fill(one, bytes(same))
    return it.ss(code, size - 1, one, two)


def translated(it: Maker, code: int) -> bytes:
    """TR and TRT: function bytes that are mostly zeros for TRT, and arguments that are often small."""
    size = it.draw.choice((1, 3, 16, it.draw.randrange(1, 257), it.draw.randrange(1, 24)))
    one = it.address(size)
    most = it.draw.choice((256, 16, 64))
    it.fill(one, bytes(it.draw.randrange(most) for _ in range(size)))
    two = it.address(most, one)
    if code == 0xDD and it.draw.random() < 0.8:
        share = it.draw.choice((4, 30, 300))
        it.fill(two, bytes(0 if it.draw.randrange(share) else it.draw.randrange(256) for _ in range(most)))
    return it.ss(code, size - 1, one, two)


def long_operands(it: Maker, code: int) -> bytes:
    """MVCL and CLCL: addresses and lengths in pairs."""
    one, two = it.register(PAIR), it.register(PAIR)
    sizes = [it.draw.choice((0, 1, 16, it.draw.randrange(600), it.draw.randrange(40), 0xFFFFFF)) for _ in range(2)]
    if it.draw.random() < 0.4:
        sizes[1] = sizes[0]
    first = it.address(min(sizes[0], 700))
    second = it.address(min(sizes[1], 700), first)
    fill = it.draw.choice((0, 0x40))
    if code == 0x0F and it.draw.random() < 0.7:
        for at, size in ((first, sizes[0]), (second, sizes[1])):
            it.fill(at, bytes([fill]) * min(size, 700))
        if it.draw.random() < 0.5:
            it.fill(first + it.draw.randrange(1 + min(sizes[0], 700)), b"\x41")
    top = [it.draw.choice((0, it.draw.randrange(256))) for _ in range(4)]
    top[3] = it.draw.choice((top[3], fill, fill))
    for number, value, byte in zip((one, one + 1, two, two + 1), (first, sizes[0], second, sizes[1]), top):
        it.registers[number % 16] = byte << 24 | value
    return bytes([code, one << 4 | two])


def two_lengths(it: Maker, code: int) -> bytes:
    """PACK, UNPK, MVO and the decimal operations."""
    sizes = [it.draw.choice((1, 2, 16, it.draw.randrange(1, 17), it.draw.randrange(1, 9))) for _ in range(2)]
    if code in (0xFC, 0xFD) and it.draw.random() < 0.9:
        sizes[1] = it.draw.randrange(1, 9)
        sizes[0] = it.draw.randrange(min(sizes[1] + 1, 16), 17)
    one = it.address(sizes[0])
    two = it.address(max(sizes), one) if it.draw.random() < 0.25 else it.address(sizes[1])
    if code >= 0xF8:
        it.fill(one, it.packed(sizes[0]))
        it.fill(two, it.packed(sizes[1]))
        if code == 0xFC and it.draw.random() < 0.9 and sizes[0] > sizes[1]:
            zeros = sizes[1] - (it.draw.random() < 0.2)
            it.fill(one, bytes(zeros) + it.packed(sizes[0] - zeros))
    return it.ss(code, sizes[0] - 1 << 4 | sizes[1] - 1, one, two)


def rounded(it: Maker, code: int) -> bytes:
    """SRP."""
    size = it.draw.choice((1, 2, 16, it.draw.randrange(1, 17)))
    digit = it.draw.choice((0, 5, it.draw.randrange(10), it.draw.randrange(16)))
    one = it.address(size)
    by = it.draw.choice((it.draw.randrange(64), it.draw.randrange(58, 72) % 64, it.draw.randrange(8)))
    it.fill(one, it.packed(size))
    if it.draw.random() < 0.4:
        by = it.draw.randrange(max(32, 65 - 2 * size), 64)
        it.fill(one, near(it, size, by, digit))
    two = it.draw.choice((by, by, (by + 64 * it.draw.randrange(1 << 18)) % (1 << 24)))
    return it.ss(code, size - 1 << 4 | digit, one, two)


def near(it: Maker, size: int, by: int, digit: int) -> bytes:
    """A field that goes to the right by digits, of which rounding just carries over the last, or just doesn't."""
    last = (10 - digit - it.draw.randrange(2)) % 10
    behind = it.draw.choice("09") * max(63 - by, 0)
    front = it.draw.choice(("0", "1", "9" * 30))
    return bytes.fromhex(f"{front}{last}{behind}".rjust(2 * size - 1, "0")[-(2 * size - 1) :] + it.draw.choice("CD"))


def edited(it: Maker, code: int) -> bytes:
    """ED and EDMK."""
    size = it.draw.choice((it.draw.randrange(1, 32), it.draw.randrange(1, 100), it.draw.randrange(1, 12)))
    kinds = (0x20, 0x20, 0x20, 0x20, 0x21, 0x22, 0x6B, 0x4B, 0x40)
    pattern = [it.draw.choice((*kinds, it.draw.randrange(256))) for _ in range(size)]
    pattern[0] = it.draw.choice((0x40, 0x5C, 0x40, pattern[0]))
    halves = ("0", "0", "0", "1", "0123456789", "ABCDEF")
    digits = "".join(it.draw.choice(it.draw.choice(halves if n % 2 else halves[:5])) for n in range(2 * size))
    if it.draw.random() < 0.06:
        digits = it.draw.choice("ABCDEF") + digits[1:]
    one = it.address(size)
    two = it.address(size, one) if it.draw.random() < 0.2 else it.address(size // 2 + 1)
    it.fill(two, bytes.fromhex(digits[: size // 2 * 2 + 2]))
    it.fill(one, bytes(pattern))
    return it.ss(code, size - 1, one, two)


def target(it: Maker) -> int:
    """Where a branch goes to: SVCs of private storage or of the module, mostly."""
    kind = it.draw.random()
    if kind < 0.5:
        return it.draw.randrange(0x100, DATA, 2)
    if kind < 0.9:
        return BASE + SHARING * SLOT + it.draw.randrange(0, MODULE - SHARING * SLOT, 2)
    if kind < 0.97:
        return it.draw.choice((0x101, BASE + MODULE - 1, BASE + MODULE, PRIVATE, 0xFFFFFC, 0xFFFFFD, 0x0FFFFE))
    return it.draw.randrange(1 << 24)


def branch(it: Maker, code: int) -> bytes:
    """A branch in RX, or in RR by a register."""
    if code >= 0x40:
        made = it.rx(code, "", target(it))
    else:
        two = it.draw.choice((0, *range(1, 16)))
        made = bytes([code, it.register() << 4 | two])
        if two and not (code == 0x06 and made[1] >> 4 == two):
            it.registers[two] = target(it) | it.draw.choice((0, it.draw.randrange(256))) << 24
            it.fixed.add(two)
    one = made[1] >> 4
    if code in (0x46, 0x06) and one not in it.fixed and it.draw.random() < 0.5:
        it.registers[one] = it.draw.choice((0, 1, 2))
    return made


def index(it: Maker, code: int) -> bytes:
    """BXH and BXLE."""
    three = it.draw.randrange(16)
    made = it.rx(code, "", target(it), three)
    if it.draw.random() < 0.4 and not it.fixed & {three, three | 1, made[1] >> 4}:
        total = it.registers[made[1] >> 4] + it.registers[three]
        it.registers[three | 1] = (total + it.draw.randrange(-1, 2)) % (1 << 32)
    return made


def call(it: Maker, code: int) -> bytes:
    """An SVC that is no task call."""
    return bytes([code, it.draw.choice((0, it.draw.randrange(6, 255)))])


def mask_only(it: Maker, code: int) -> bytes:
    return it.rr(code, "")


def other(it: Maker, _: int) -> bytes:
    """An operation that docs/MACHINE.md hasn't."""
    code = it.draw.choice([it for it in range(256) if it not in CODES])
    front, at = it.rx(code, "", it.address(8)), it.base(it.address(8))
    return (front + bytes([at[0] << 4 | at[1] >> 8, at[1] & 255]))[: (2, 4, 4, 6)[code >> 6]]


# Stands for any operation that docs/MACHINE.md hasn't.
OTHER = 0x100
MAKERS = {
    mask_only: (0x04,), other: (OTHER,), call: (0x0A,), long_operands: (0x0E, 0x0F), address_only: (0x41,),
    binary: (0x4E, 0x4F),
    fixed_register: (0x10, 0x11, 0x12, 0x13, 0x14, 0x15, 0x16, 0x17, 0x18, 0x19, 0x1A, 0x1B, 0x1C, 0x1D, 0x1E, 0x1F),
    fixed_storage: (0x40, 0x42, 0x43, 0x48, 0x49, 0x4A, 0x4B, 0x4C, 0x50, *range(0x54, 0x60)),
    branch: (0x05, 0x06, 0x07, 0x0D, 0x45, 0x46, 0x47, 0x4D), index: (0x86, 0x87), shift: tuple(range(0x88, 0x90)),
    multiple: (0x90, 0x98), immediate: (0x91, 0x92, 0x93, 0x94, 0x95, 0x96, 0x97), swap: (0xBA, 0xBB),
    under_mask: (0xBD, 0xBE, 0xBF), one_length: (*range(0xD1, 0xD8), 0xE8), translated: (0xDC, 0xDD),
    edited: (0xDE, 0xDF), rounded: (0xF0,), two_lengths: (0xF1, 0xF2, 0xF3, 0xF8, 0xF9, 0xFA, 0xFB, 0xFC, 0xFD),
}
BY_CODE = {code: make for make, codes in MAKERS.items() for code in codes}
EXECUTE = 0x44


def task_of(draw: random.Random, code: int, name: str, module: bytearray, slot: int, maker: type[Maker] = Maker,
            makes: Callable[[Maker, int], bytes] | None = None, is_in_slot: bool = False) -> Task:
    """A case of an operation; its instructions go into its slot of the module, or into private storage where they may."""
    it = maker(draw, module, slot)
    is_executed = code == EXECUTE or draw.random() < 0.25
    shown = draw.choice(list(BY_CODE)) if code == EXECUTE else code
    made = (makes or BY_CODE[shown])(it, shown)
    own = BASE + SLOT * (slot + 1) - LAST
    drawn = own if draw.random() < 0.4 else 2 * draw.randrange(0x60)
    at = own if is_in_slot else drawn
    text = bytes([0x04, draw.randrange(16) << 4])
    if is_executed:
        front, made = executed(it, made, at + 10, code == EXECUTE and draw.random() < 0.2)
        text += front + tail(draw, at + 6) + made
    else:
        text += made + tail(draw, at + 2 + len(made))
    room, start = (module, at - BASE) if at >= BASE else (it.private, at)
    room[start : start + len(text)] = text
    return Task(name, it.registers, at, it.private, module, 4, text.hex().upper(), is_executed)


def tail(draw: random.Random, at: int) -> bytes:
    """What stands behind: BALR in some cases, and SVC."""
    balr = bytes([0x05, draw.randrange(16) << 4])
    return balr + filler(at + 2) if draw.random() < 0.3 else filler(at) + filler(at + 2)


def executed(it: Maker, made: bytes, at: int, is_strange: bool) -> tuple[bytes, bytes]:
    """An EX of an instruction that will stand at an address, and that instruction before the OR."""
    if is_strange:
        made = it.draw.choice((b"\x44\x00\x00\x00", made))
        at = it.draw.choice((at, at + 1, PRIVATE, 0xFFFFFE))
    number, shift = it.base(at)
    free = [n for n in range(1, 16) if n not in it.fixed]
    one = it.draw.choice((0, *free)) if free else 0
    if one:
        keeps = it.draw.randrange(256)
        low = made[1] & ~keeps | made[1] & it.draw.randrange(256)
        it.registers[one] = it.registers[one] & ~255 | low & 255
        made = bytes([made[0], made[1] & keeps, *made[2:]])
    return bytes([EXECUTE, one << 4, number << 4 | shift >> 8, shift & 255]), made
