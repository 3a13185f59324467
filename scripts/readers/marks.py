"""Marks files (docs/MARKS.md): where one ends, what facts it has, and why the program refuses one."""
from __future__ import annotations

import re
from dataclasses import dataclass
from typing import BinaryIO, Sequence

# By a marks file's magic the bytes from there to its first module. The last two are how many modules there are.
HEADS = {b"S370COV1": 2, b"S370COV2": 14}
MODULE, PLACE, MOST_MODULES, MOST_PLACES = 20, 9, 16, 65_536
OTHER_TEXTS = ((b"COVERAGE ", "a report or another output of ./coverage"), (b"S370COV", "a marks file"), (b"S370EVD", "evidence"))


@dataclass
class Found:
    """What stands next among marks files: its bytes, whether they are a marks file, whole by its numbers, and the rows of the
    places of each of its modules."""

    data: bytes
    is_whole: bool = False
    places: Sequence[bytes] = ()

    def facts(self) -> int:
        """How many facts it has."""
        return sum(bin(it).count("1") for rows in self.places for it in rows[PLACE - 1 :: PLACE])


def read_one(file: BinaryIO) -> Found:
    """What stands next in a file; where that is no whole marks file so much of it that the program finds it bad. No bytes: the
    file ends."""
    magic = file.read(8)
    head = file.read(HEADS.get(magic, 8))
    parts, modules = [magic, head], int.from_bytes(head[-2:], "big")
    if len(head) != HEADS.get(magic) or not 1 <= modules <= MOST_MODULES:
        return Found(b"".join(parts))
    count, places = 0, list[bytes]()
    for _ in range(modules):
        module = file.read(MODULE)
        own = int.from_bytes(module[16:], "big")
        count += own
        parts.append(module)
        if len(module) != MODULE or count > MOST_PLACES:
            return Found(b"".join(parts))
        places.append(file.read(PLACE * own))
        parts.append(places[-1])
        if len(places[-1]) != PLACE * own:
            return Found(b"".join(parts))
    return Found(b"".join(parts), True, places)


def bad_marks(line: str, data: bytes, words: list[str], start: int = 0) -> list[str]:
    """What stands where the marks are bad that begin at an offset of what a command with these words has read."""
    found = re.fullmatch(r"BAD MARKS OFFSET ([0-9]+)", line)
    if not found:
        return []
    rest = data[start + int(found[1]) :]
    if not rest and int(found[1]) == 0:
        if words[:1] == ["combine"]:
            return ["the input is empty"]
        return [f"nothing stands behind the job: cat JOB MARKS | ./coverage {' '.join(words)}"]
    if not rest:
        return ["the input ends there: a file is cut short"]
    if words[:1] != ["combine"] and rest.startswith(b"S370COV") and found[1] != "0":
        return ["it is a second marks file, and one stands behind a job: ./coverage union FILES > MARKS makes one of several"]
    for start_of, what in ((b"COVERJOB", "a job"), *OTHER_TEXTS):
        if rest.startswith(start_of) and start_of != b"S370COV":
            return [f"what stands there is {what}"]
    return []


def other_table(line: str, words: list[str]) -> list[str]:
    """What the two rows say in which the tables of marks differ."""
    found = re.fullmatch(r"OTHER TABLE ROW [0-9]+ LEFT (-|[0-9A-F]+) RIGHT (-|[0-9A-F]+)", line)
    if not found:
        return []
    sides = ("the first file", "a later file") if words[:1] == ["combine"] else ("the job's session", "the marks")
    one, other = found[1], found[2]
    rows = [f"{side}: {row_text(row)}" for side, row in zip(sides, (one, other))]
    return [*rows, why_other_table(one, other)]


def row_text(row: str) -> str:
    """What a row of a table says."""
    if row == "-":
        return "no row any more"
    if len(row) == 40:
        data = bytes.fromhex(row)
        name = data[:8].decode("ascii", "replace").rstrip(" ")
        base, size, count = (int.from_bytes(data[at : at + 4], "big") for at in (8, 12, 16))
        return f"module {name} at {base:06X}, {size} bytes, {count} instruction lines"
    return f"the instruction at {int(row[:8], 16):06X}, of {int(row[8:10], 16)} bytes, that begins {row[-4:]}"


def why_other_table(one: str, other: str) -> str:
    """Why two rows of tables differ, probably."""
    if "-" in (one, other):
        return "one of the two has a module, or places, that the other lacks: the sessions are over other modules"
    if len(one) == len(other) == 40:
        if one[:16] != other[:16]:
            return "the sessions are over other modules, or have them in another order"
        if one[16:24] != other[16:24]:
            return "the module stood at another base: give it one base in all jobs whose marks are united"
        if one[24:32] == other[24:32]:
            return "the listings have not the same instruction lines: one has lost lines, or is of another assembly"
    return "the module was assembled anew between the two: marks are of one assembly alone"
