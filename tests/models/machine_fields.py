"""The operations of docs/MACHINE.md on fields in storage, packed decimal numbers and patterns."""
from __future__ import annotations

from typing import Iterator

from models.machine_task import Ends, Operations, Task, compared, packed, packing, spread


def fields(task: Task, code: bytes) -> tuple[int, int, int, int]:
    """Addresses and sizes of the fields of two lengths."""
    return task.place(code, 2), (code[1] >> 4) + 1, task.place(code, 4), (code[1] & 15) + 1


def byte(task: Task, at: int) -> int:
    """A byte that was tested."""
    return task.load(at % 0x1000000, 1)[0]


def move(task: Task, code: bytes) -> None:
    """MVN, MVC, MVZ, NC, OC, XC, and CLC."""
    one, other, size = task.place(code, 2), task.place(code, 4), code[1] + 1
    task.test((one, size, code[0] != 0xD5), (other, size, False))
    if code[0] == 0xD5:
        task.condition = compared(task.load(one, size), task.load(other, size))
        return
    made = 0
    for to, of in zip(spread(one, size), spread(other, size)):
        first, second = byte(task, to), byte(task, of)
        found = {0xD1: first & 0xF0 | second & 15, 0xD2: second, 0xD3: first & 15 | second & 0xF0,
                 0xD4: first & second, 0xD6: first | second, 0xD7: first ^ second}[code[0]]
        task.store(to, bytes([found]))
        made |= found
    if code[0] >= 0xD4:
        task.condition = int(made != 0)


def move_inverse(task: Task, code: bytes) -> None:
    one, other, size = task.place(code, 2), task.place(code, 4), code[1] + 1
    task.test((one, size, True), ((other - size + 1) % 0x1000000, size, False))
    for n, to in enumerate(spread(one, size)):
        task.store(to, bytes([byte(task, other - n)]))


def translate(task: Task, code: bytes) -> None:
    one, other, size = task.place(code, 2), task.place(code, 4), code[1] + 1
    task.test((one, size, True), *(((other + it) % 0x1000000, 1, False) for it in task.load(one, size)))
    for at in spread(one, size):
        task.store(at, bytes([byte(task, other + byte(task, at))]))


def translate_and_test(task: Task, code: bytes) -> None:
    one, other, size = task.place(code, 2), task.place(code, 4), code[1] + 1
    looked: list[int] = []
    for it in task.load(one, size):
        looked.append((other + it) % 0x1000000)
        if task.byte(looked[-1]) != 0:
            break
    task.test((one, size, False), *((it, 1, False) for it in looked))
    found = byte(task, looked[-1])
    task.condition = 0 if found == 0 else 2 if len(looked) == size else 1
    if found:
        task.put(1, task.registers[1] & 0xFF000000 | (one + len(looked) - 1) % 0x1000000)
        task.put(2, task.registers[2] & ~255 | found)


def pairs(task: Task, code: bytes) -> tuple[int, int, int, int, int]:
    """Of MVCL and CLCL addresses and lengths, and the padding."""
    one, two = code[1] >> 4, code[1] & 15
    if (one | two) % 2:
        raise Ends("ABEND 6")
    first, its, second, other = (task.registers[it] % 0x1000000 for it in (one, one + 1, two, two + 1))
    return first, its, second, other, task.registers[two + 1] >> 24


def went_on(task: Task, code: bytes, first: int, second: int) -> None:
    """Makes the addresses of MVCL and CLCL grow and their lengths fall by what was used."""
    one, two = code[1] >> 4, code[1] & 15
    old = list(task.registers)
    for number, used in ((one, first), (two, second)):
        task.put(number, (old[number] + used) % 0x1000000)
        task.put(number + 1, old[number + 1] - used)


def move_long(task: Task, code: bytes) -> None:
    first, its, second, other, padding = pairs(task, code)
    moved = min(its, other)
    if 1 <= (first - second) % 0x1000000 < moved:
        task.condition = 3
        return
    task.test((first, its, True), (second, moved, False))
    task.store(first, task.load(second, moved) + bytes([padding]) * (its - moved))
    task.condition = compared(its, other)
    went_on(task, code, its, moved)


def compare_long(task: Task, code: bytes) -> None:
    first, its, second, other, padding = pairs(task, code)
    task.test((first, its, False), (second, other, False))
    size = max(its, other)
    one, two = (task.load(at, n).ljust(size, bytes([padding])) for at, n in ((first, its), (second, other)))
    same = next((n for n in range(size) if one[n] != two[n]), size)
    task.condition = compared(one, two)
    went_on(task, code, min(same, its), min(same, other))


def halves(task: Task, at: int, size: int) -> Iterator[int]:
    """The halves of a field, right to left, each byte read as its right half is taken; then zeros."""
    for n in range(size - 1, -1, -1):
        found = byte(task, at + n)
        yield found & 15
        yield found >> 4
    while True:
        yield 0


def pack(task: Task, code: bytes) -> None:
    one, size, other, its = fields(task, code)
    task.test((one, size, True), (other, its, False))
    found = halves(task, other, its)
    task.store((one + size - 1) % 0x1000000, bytes([next(found) << 4 | next(found)]))
    for n in range(size - 2, -1, -1):
        # Of each source byte the left half is dropped.
        low, _, high, _ = (next(found) for _ in range(4))
        task.store((one + n) % 0x1000000, bytes([high << 4 | low]))


def unpack(task: Task, code: bytes) -> None:
    one, size, other, its = fields(task, code)
    task.test((one, size, True), (other, its, False))
    found = halves(task, other, its)
    for n in range(size - 1, -1, -1):
        made = next(found) << 4 | next(found) if n == size - 1 else 0xF0 | next(found)
        task.store((one + n) % 0x1000000, bytes([made]))


def move_with_offset(task: Task, code: bytes) -> None:
    one, size, other, its = fields(task, code)
    task.test((one, size, True), (other, its, False))
    found = halves(task, other, its)
    for n in range(size - 1, -1, -1):
        low = byte(task, one + n) & 15 if n == size - 1 else next(found)
        task.store((one + n) % 0x1000000, bytes([next(found) << 4 | low]))


def sum_fields(task: Task, code: bytes) -> str | None:
    """AP, SP, ZAP, CP."""
    one, size, other, its = fields(task, code)
    task.test((one, size, code[0] != 0xF9), (other, its, False))
    first = 0 if code[0] == 0xF8 else packed(task.load(one, size))
    second = packed(task.load(other, its))
    if code[0] == 0xF9:
        task.condition = compared(first, second)
        return None
    return task.decimal(one, size, first - second if code[0] == 0xFB else first + second)


def multiply_fields(task: Task, code: bytes) -> None:
    one, size, other, its = fields(task, code)
    if its > 8 or its >= size:
        raise Ends("ABEND 6")
    task.test((one, size, True), (other, its, False))
    parts = task.load(one, size), task.load(other, its)
    first, second = map(packed, parts)
    if any(parts[0][:its]):
        raise Ends("ABEND 7")
    minus = [(it[-1] & 15) in (11, 13) for it in parts]
    task.store(one, packing(first * second, size, minus[0] != minus[1]))


def divide_fields(task: Task, code: bytes) -> None:
    """DP."""
    one, size, other, its = fields(task, code)
    if its > 8 or its >= size:
        raise Ends("ABEND 6")
    task.test((one, size, True), (other, its, False))
    parts = task.load(one, size), task.load(other, its)
    first, second = map(packed, parts)
    if second == 0 or abs(first) // abs(second) >= 10 ** (2 * (size - its) - 1):
        raise Ends("ABEND B")
    minus = [(it[-1] & 15) in (11, 13) for it in parts]
    quotient = packing(abs(first) // abs(second), size - its, minus[0] != minus[1])
    task.store(one, quotient + packing(abs(first) % abs(second), its, minus[0]))


def shift_field(task: Task, code: bytes) -> str | None:
    """SRP."""
    at, size, digits = task.place(code, 2), (code[1] >> 4) + 1, task.place(code, 4) % 64
    task.test((at, size, True))
    number = packed(task.load(at, size))
    if code[1] & 15 > 9:
        raise Ends("ABEND 7")
    if digits < 32:
        return task.decimal(at, size, number * 10**digits)
    magnitude = (abs(number) + (code[1] & 15) * 10 ** (63 - digits)) // 10 ** (64 - digits)
    return task.decimal(at, size, -magnitude if number < 0 else magnitude)


def edit(task: Task, code: bytes) -> None:
    """ED, EDMK."""
    one, other, size = task.place(code, 2), task.place(code, 4), code[1] + 1
    pattern = [task.byte(it) or 0 for it in spread(one, size)]
    fill, made, is_on, is_empty, mark, read, right = pattern[0], bytearray(), False, True, None, 0, None
    is_bad = False
    for n, it in enumerate(pattern):
        if it not in (0x20, 0x21):
            made.append(it if is_on and it != 0x22 else fill)
            is_on, is_empty = is_on and it != 0x22, is_empty or it == 0x22
            continue
        sign = 0
        if right is None:
            found = task.byte((other + read) % 0x1000000)
            read += 1
            is_bad = found is None or found >> 4 > 9
            if found is None or is_bad:
                break
            digit, right = found >> 4, found & 15
            if right > 9:
                sign, right = right, None
        else:
            digit, right = right, None
        made.append(0xF0 | digit if is_on or digit else fill)
        mark = (one + n) % 0x1000000 if digit and not is_on else mark
        is_on = (is_on or digit != 0 or it == 0x21) and sign not in (10, 12, 14, 15)
        is_empty = is_empty and digit == 0
    task.test((one, size, True), (other, read, False))
    if is_bad:
        raise Ends("ABEND 7")
    task.store(one, bytes(made))
    task.condition = 0 if is_empty else 1 if is_on else 2
    if code[0] == 0xDF and mark is not None:
        task.put(1, task.registers[1] & 0xFF000000 | mark)


FIELDS: Operations = {
    **{code: move for code in range(0xD1, 0xD8)}, 0xE8: move_inverse, 0xDC: translate, 0xDD: translate_and_test,
    0x0E: move_long, 0x0F: compare_long, 0xF1: move_with_offset, 0xF2: pack, 0xF3: unpack,
    **{code: sum_fields for code in (0xF8, 0xF9, 0xFA, 0xFB)}, 0xFC: multiply_fields, 0xFD: divide_fields,
    0xF0: shift_field, 0xDE: edit, 0xDF: edit,
}
