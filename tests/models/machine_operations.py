"""The operations of docs/MACHINE.md, and the run of a task: those of registers, words, bytes, branches and calls.

Each does all of an instruction, and answers how it ends the task where its results are in place then.
models/machine_fields.py has the operations of longer fields.
"""
from __future__ import annotations

from typing import Callable

from models.machine_fields import FIELDS
from models.machine_task import RETURN, WORD, Course, Ends, Operations, Task, compared, packed, sign_code, signed

# Of the codes of RX the sizes of operands that are no words.
SIZES = {0x40: 2, 0x42: 1, 0x43: 1, 0x48: 2, 0x49: 2, 0x4A: 2, 0x4B: 2, 0x4C: 2}


def set_mask(task: Task, code: bytes) -> None:
    task.condition, task.mask = task.registers[code[1] >> 4] >> 28 & 3, task.registers[code[1] >> 4] >> 24 & 15


def link(task: Task, code: bytes) -> None:
    """BAL, BALR, BAS, BASR."""
    is_register, number = code[0] < 0x40, code[1] & 15
    target = task.registers[number] % 0x1000000 if is_register else task.second(code, True)
    front = (task.length << 30 | task.condition << 28 | task.mask << 24) if code[0] in (0x05, 0x45) else 0
    task.put(code[1] >> 4, front | task.behind)
    task.target = target if not is_register or number else task.behind


def count(task: Task, code: bytes) -> None:
    """BCT, BCTR."""
    is_register, number = code[0] < 0x40, code[1] & 15
    target = task.registers[number] % 0x1000000 if is_register else task.second(code, True)
    task.put(code[1] >> 4, task.registers[code[1] >> 4] - 1)
    if task.registers[code[1] >> 4] and (number or not is_register):
        task.go(target)


def condition(task: Task, code: bytes) -> None:
    """BC, BCR."""
    is_register, number = code[0] < 0x40, code[1] & 15
    if code[1] >> 4 & 8 >> task.condition and (number or not is_register):
        task.go(task.registers[number] % 0x1000000 if is_register else task.second(code, True))


def index(task: Task, code: bytes) -> None:
    """BXH, BXLE."""
    one, three = code[1] >> 4, code[1] & 15
    target, limit = task.second(code, False), signed(task.registers[three | 1])
    task.put(one, task.registers[one] + task.registers[three])
    if (signed(task.registers[one]) > limit) == (code[0] == 0x86):
        task.go(target)


def call(task: Task, code: bytes) -> str | None:
    """SVC."""
    task.called = code[1]
    size, at = task.registers[0], task.registers[1] % 0x1000000
    if code[1] == 1:
        if size >= 1 << 24:
            raise Ends("ABEND 5")
        task.test((at, size, False))
        if len(task.output) + size > task.room:
            raise Ends("OUTFULL")
        task.output += task.load(at, size)
    elif code[1] == 2:
        size = min(size, len(task.source))
        task.test((at, size, True))
        task.store(at, task.source[:size])
        task.source = task.source[size:]
        task.registers[15] = size
    elif code[1] == 3:
        raise Ends("EXIT")
    elif code[1] == 6 and task.has_exits:
        task.exit = at
    elif code[1] not in (4, 5):
        raise Ends(f"BADSVC {code[1]}")
    return None


# ---- loads, sums and products


def load(task: Task, code: bytes) -> None:
    """LR, L, LH, LTR."""
    value = task.word(code, SIZES.get(code[0], 4))
    task.put(code[1] >> 4, value)
    if code[0] == 0x12:
        task.condition = sign_code(value)


def turn(task: Task, code: bytes) -> str | None:
    """LCR, LPR, LNR."""
    value = task.word(code)
    return task.summed(code[1] >> 4, -value if code[0] == 0x13 else abs(value) if code[0] == 0x10 else -abs(value))


def address(task: Task, code: bytes) -> None:
    task.put(code[1] >> 4, task.second(code, True))


def add(task: Task, code: bytes) -> str | None:
    """AR, A, AH, SR, S, SH."""
    value = task.word(code, SIZES.get(code[0], 4))
    return task.summed(code[1] >> 4, signed(task.registers[code[1] >> 4]) + (value if code[0] & 15 == 10 else -value))


def add_logical(task: Task, code: bytes) -> None:
    """ALR, AL, SLR, SL."""
    value = task.word(code) % WORD
    total = task.registers[code[1] >> 4] + (value if code[0] & 15 == 14 else WORD - value)
    task.put(code[1] >> 4, total)
    task.condition = 2 * (total >= WORD) + (total % WORD != 0)


def compare(task: Task, code: bytes) -> None:
    """CR, C, CH."""
    task.condition = compared(signed(task.registers[code[1] >> 4]), task.word(code, SIZES.get(code[0], 4)))


def multiply(task: Task, code: bytes) -> None:
    """MR, M."""
    one = code[1] >> 4
    if one % 2:
        raise Ends("ABEND 6")
    put_pair(task, one, signed(task.registers[one + 1]) * task.word(code))


def multiply_half(task: Task, code: bytes) -> None:
    task.put(code[1] >> 4, signed(task.registers[code[1] >> 4]) * task.word(code, 2))


def put_pair(task: Task, one: int, value: int) -> None:
    task.put(one, value >> 32)
    task.put(one + 1, value)


def divide(task: Task, code: bytes) -> None:
    """DR, D."""
    one = code[1] >> 4
    if one % 2:
        raise Ends("ABEND 6")
    by = task.word(code)
    pair = (signed(task.registers[one]) << 32) | task.registers[one + 1]
    if by == 0:
        raise Ends("ABEND 9")
    quotient = abs(pair) // abs(by) * (1 if (pair < 0) == (by < 0) else -1)
    if quotient != signed(quotient % WORD):
        raise Ends("ABEND 9")
    task.put(one, pair - quotient * by)
    task.put(one + 1, quotient)


def shift(task: Task, code: bytes) -> str | None:
    """All shifts: of one register or a pair, without sign or with it, to the right or to the left."""
    one, by, is_double = code[1] >> 4, task.second(code, False) % 64, code[0] >= 0x8C
    if is_double and one % 2:
        raise Ends("ABEND 6")
    size = 64 if is_double else 32
    value = task.registers[one] << 32 | task.registers[one + 1] if is_double else task.registers[one]
    is_signed, is_left, ending = code[0] & 3 >= 2, bool(code[0] & 1), None
    if is_signed:
        value -= (value >> size - 1) << size
        made = value << by if is_left else value >> by
        is_over = not -1 << size - 1 <= made < 1 << size - 1
        if is_over:
            made = made % (1 << size - 1) - (value < 0) * (1 << size - 1)
            ending = "ABEND 8" if task.mask & 8 else None
        task.condition = 3 if is_over else sign_code(made)
    else:
        made = value << by if is_left else value >> by
    if is_double:
        put_pair(task, one, made)
    else:
        task.put(one, made)
    return ending


def to_binary(task: Task, code: bytes) -> None:
    at = task.second(code, True)
    task.test((at, 8, False))
    value = packed(task.load(at, 8))
    if value != signed(value % WORD):
        raise Ends("ABEND 9")
    task.put(code[1] >> 4, value)


def to_decimal(task: Task, code: bytes) -> None:
    at, value = task.second(code, True), signed(task.registers[code[1] >> 4])
    task.test((at, 8, True))
    task.store(at, bytes.fromhex(f"{abs(value):015}{'d' if value < 0 else 'c'}"))


# ---- stores, bits and bytes


def bits(task: Task, code: bytes) -> None:
    """NR, N, OR, O, XR, X, CLR, CL."""
    one, value = task.registers[code[1] >> 4], task.word(code) % WORD
    if code[0] & 3 == 1:
        task.condition = compared(one, value)
        return
    made = one & value if code[0] & 3 == 0 else one | value if code[0] & 3 == 2 else one ^ value
    task.put(code[1] >> 4, made)
    task.condition = int(made != 0)


def store(task: Task, code: bytes) -> None:
    """ST, STH, STC."""
    size, at = SIZES.get(code[0], 4), task.second(code, True)
    task.test((at, size, True))
    task.store(at, task.registers[code[1] >> 4].to_bytes(4, "big")[4 - size :])


def under_mask(task: Task, code: bytes) -> None:
    """ICM, STCM, CLM."""
    one, at, numbers = code[1] >> 4, task.second(code, False), [n for n in range(4) if code[1] & 8 >> n]
    task.test((at, len(numbers), code[0] == 0xBE))
    word = bytearray(task.registers[one].to_bytes(4, "big"))
    if code[0] == 0xBE:
        task.store(at, bytes(word[n] for n in numbers))
        return
    found = task.load(at, len(numbers))
    if code[0] == 0xBD:
        task.condition = compared(bytes(word[n] for n in numbers), found)
        return
    for n, it in zip(numbers, found):
        word[n] = it
    task.put(one, int.from_bytes(word, "big"))
    task.condition = 0 if not any(found) else 1 if found[0] & 0x80 else 2


def insert(task: Task, code: bytes) -> None:
    at, one = task.second(code, True), code[1] >> 4
    task.test((at, 1, False))
    task.put(one, task.registers[one] & ~255 | task.load(at, 1)[0])


def multiple(task: Task, code: bytes) -> None:
    """LM, STM."""
    one, at = code[1] >> 4, task.second(code, False)
    numbers = [(one + n) % 16 for n in range(((code[1] & 15) - one) % 16 + 1)]
    task.test((at, 4 * len(numbers), code[0] == 0x90))
    for n, number in enumerate(numbers):
        if code[0] == 0x90:
            task.store((at + 4 * n) % 0x1000000, task.registers[number].to_bytes(4, "big"))
        else:
            task.put(number, int.from_bytes(task.load(at + 4 * n, 4), "big"))


def immediate(task: Task, code: bytes) -> None:
    """TM, MVI, TS, NI, CLI, OI, XI."""
    at, own = task.place(code, 2), code[1]
    task.test((at, 1, code[0] not in (0x91, 0x95)))
    byte = task.load(at, 1)[0]
    if code[0] == 0x91:
        task.condition = 0 if byte & own == 0 else 3 if byte & own == own else 1
    elif code[0] == 0x95:
        task.condition = compared(byte, own)
    else:
        made = {0x92: own, 0x93: 255, 0x94: byte & own, 0x96: byte | own, 0x97: byte ^ own}[code[0]]
        task.store(at, bytes([made]))
        task.condition = byte >> 7 if code[0] == 0x93 else task.condition if code[0] == 0x92 else int(made != 0)


def swap(task: Task, code: bytes) -> None:
    """CS, CDS."""
    at, one, three, words = task.second(code, False), code[1] >> 4, code[1] & 15, 1 + code[0] - 0xBA
    if at % (4 * words) or (words == 2 and (one | three) % 2):
        raise Ends("ABEND 6")
    task.test((at, 4 * words, True))
    found = [int.from_bytes(task.load(at + 4 * n, 4), "big") for n in range(words)]
    task.condition = int(found != task.registers[one : one + words])
    for n in range(words):
        if task.condition:
            task.put(one + n, found[n])
        else:
            task.store(at + 4 * n, task.registers[three + n].to_bytes(4, "big"))


OPERATIONS: Operations = {
    **FIELDS,
    **{code: link for code in (0x05, 0x45, 0x0D, 0x4D)}, **{code: count for code in (0x06, 0x46)},
    **{code: condition for code in (0x07, 0x47)}, **{code: index for code in (0x86, 0x87)}, 0x04: set_mask, 0x0A: call,
    **{code: load for code in (0x12, 0x18, 0x48, 0x58)}, **{code: turn for code in (0x10, 0x11, 0x13)}, 0x41: address,
    **{code: add for code in (0x1A, 0x1B, 0x4A, 0x4B, 0x5A, 0x5B)}, **{code: compare for code in (0x19, 0x49, 0x59)},
    **{code: add_logical for code in (0x1E, 0x1F, 0x5E, 0x5F)}, **{code: multiply for code in (0x1C, 0x5C)},
    0x4C: multiply_half, **{code: divide for code in (0x1D, 0x5D)}, **{code: shift for code in range(0x88, 0x90)},
    0x4E: to_decimal, 0x4F: to_binary, **{code: bits for code in (*range(0x14, 0x18), *range(0x54, 0x58))},
    **{code: store for code in (0x40, 0x42, 0x50)}, 0x43: insert, **{code: under_mask for code in (0xBD, 0xBE, 0xBF)},
    **{code: multiple for code in (0x90, 0x98)}, **{code: immediate for code in range(0x91, 0x98)},
    **{code: swap for code in (0xBA, 0xBB)},
}


def leaving(task: Task, ending: str | None) -> str | None:
    """The course by exits, which is that of a run where the task has none."""
    return None if ending and task.leaves(ending) else ending


def run(task: Task, budget: int, behind: Callable[[int], None] = lambda _: None, course: Course = leaving) -> tuple[str, int, int]:
    """Runs a task to its end: the ending, the count, and the address that `ends` tells. Behind each step that many were done before."""
    for done in range(budget + 1):
        if task.at == RETURN:
            return "RETURNED", done, task.at
        if done == budget:
            break
        before, ending = task.at, task.step(OPERATIONS)
        behind(done)
        ending = course(task, ending)
        if ending:
            return ending, done + 1, before
    return "SPENT", budget, task.at
