"""Which bytes are a job: cards that keep each rule or break it, alone and in whole jobs, and what `table` tells of them.

What is told stands in a row as the number of the first bad line; with a limit's name before it where that line passes the limit; and
as 0 where the input is a job, of which `table` then answers what models/answers.py has.
"""
from __future__ import annotations

import os
import subprocess
from concurrent.futures import ThreadPoolExecutor
from typing import Iterator, Union

from fixtures.harness import PROGRAM, SECONDS, equal
from fixtures.jobs import FIRST, HEADING
from models import answers

Told = Union[int, str]
Row = tuple[bytes, Told]

PLAIN, SERVED = ("table",), ("services", "table")
# A job of one module and one task.
LINES = [
    b"COVERJOB 1",
    b"MODULE M 100000 8",
    b"TEXT 411000051A1107FE",
    b"LISTING 4",
    *(it.encode() for it in FIRST.listing()),
    b"PHASE P",
    b"SESSION S M",
    b"TASK A 100000 80 100 0",
    b"REG 0 0000000A",
    b"REG 15 fedcba98",
    b"DATA 79 C1",
    b"INPUT D2",
    b"ENDJOB",
]
# The lines of its listing, which may be any bytes.
LISTING = range(4, 8)


def fault_of(words: tuple[str, ...], data: bytes, told: Told) -> str | None:
    """What is wrong with what comes of an input."""
    if told == 0:
        wanted = answers.answer(list(words), data)
        if wanted.output.startswith((b"BAD JOB", b"TOO LARGE")):
            return f"{data!r}: by models/answers.py {wanted.output!r}"
    elif isinstance(told, int):
        wanted = answers.Answer(2, b"BAD JOB LINE %d\n" % told)
    else:
        limit, line = told.split()
        wanted = answers.Answer(4, f"TOO LARGE {limit} LINE {line}\n".encode())
    ran = subprocess.run([PROGRAM, *words], input=data, capture_output=True, timeout=SECONDS, check=False)
    what = wanted.fault(ran.returncode, ran.stdout) or ran.stderr[:200]
    return f"{data[-300:]!r}: {what!r}" if what else None


def tells(rows: Iterator[Row] | list[Row], words: tuple[str, ...] = PLAIN) -> None:
    """Fails where something else comes of a row."""
    with ThreadPoolExecutor(os.cpu_count()) as pool:
        faults = [it for it in pool.map(lambda row: fault_of(words, *row), rows) if it]
    equal((len(faults), faults[:1]), (0, []))


def joined(lines: list[bytes]) -> bytes:
    return b"".join(it + b"\n" for it in lines)


def replaced(at: int, text: bytes) -> bytes:
    """The job with a text in place of a line, counted from 1."""
    return joined(LINES[: at - 1]) + text + joined(LINES[at:])


def exchanged() -> None:
    """cards: each line of a job behind the next"""
    def bad(n: int) -> int:
        # The listing takes the card that comes into it, and its own lines in any order; of SESSION and TASK, and of the cards behind
        # TASK, the earlier one is no longer taken.
        if n == 7:
            return 9
        return 0 if n in LISTING else n + 2 if n == 9 or n >= 11 else n + 1

    tells([(joined([*LINES[:n], LINES[n + 1], LINES[n], *LINES[n + 2 :]]), bad(n)) for n in range(15)])


def blanks() -> None:
    """cards: a blank too many at an end of a line or beside a blank of it"""
    tells([
        (replaced(n + 1, line[:at] + b" " + line[at:] + b"\n"), 0 if n in LISTING else n + 1)
        for n, line in enumerate(LINES)
        for at in range(len(line) + 1)
        if at in (0, len(line)) or line[at : at + 1] == b" "
    ])


def missing_or_doubled() -> None:
    """cards: each line of a job missing, and twice"""
    def without(n: int) -> int:
        # A listing without one of its lines takes the PHASE card; SESSION, REG, DATA and INPUT cards may be none.
        return 9 if n in LISTING else 0 if n == 9 or 11 <= n < 15 else n + 1

    def twice(n: int) -> int:
        # The listing's last line comes behind it, as where the LISTING card is one of its lines; DATA and INPUT cards may be the same.
        return 9 if n == 3 or n in LISTING else 0 if n in (13, 14) else n + 2

    tells([(replaced(n + 1, b""), without(n)) for n in range(16)])
    tells([(replaced(n + 1, joined([line, line])), twice(n)) for n, line in enumerate(LINES)])


def ended() -> None:
    """cards: a job that is cut in each line, behind it and behind its LF; a CR that no LF follows is part of the line"""
    rows: list[Row] = [(joined(LINES[:-1]) + b"ENDJOB", 0)]
    for n, line in enumerate(LINES):
        front = joined(LINES[:n])
        # A part of a listing line is one, and so many whole bytes are a TEXT card.
        rows += [(front + line[:at], n + 2 if n in LISTING or n == 2 and at > 5 and at % 2 else n + 1) for at in range(1, len(line))]
        rows += [(front + line + end, 0 if n == 15 else n + 2) for end in (b"", b"\n")]
        rows.append((front + line + b"\r", n + 2 if n in LISTING else n + 1))
    tells(rows)


# A line of the job, counted from 1, what stands in its place, and what is told.
REPLACED: list[tuple[int, bytes, Told]] = [
    (1, b"COVERJOB 2\n", 1),
    (2, b"MODULE M 100000 8\r\n", 2),
    (2, b"MODULE m 100000 8\n", 2),
    (2, b"MODULE ABCDEFGHI 100000 8\n", 2),
    (2, b"MODULE M 10000 8\n", 2),
    (2, b"MODULE M 100004 8\n", 2),
    (2, b"MODULE M 0FFFF8 8\n", 2),
    (2, b"MODULE M FFF000 8\n", 2),
    (2, b"MODULE M ffeff8 8\n", 0),
    (2, b"MODULE M 100000 08\n", 2),
    (2, b"MODULE M 100000 0\n", 2),
    (2, b"MODULE M 100000 7\n", 2),
    (2, b"MODULE M 100000 66\n", 4),
    (2, b"MODULE M 100000 64\n", 4),
    (2, b"MODULE M 100000 10\n", 4),
    (2, b"MODULE M 100000 6\n", 3),
    (3, b"TEXT 411000051A1107\n", 4),
    (3, b"TEXT 411000051A1107F\n", 3),
    (3, b"TEXT 411000051A1107FG\n", 3),
    (3, b"TEXT 411000051A114110\n", 0),
    (3, b"TEXT 41100005\nTEXT 1A1107FE\n", 0),
    (3, b"TEXT 411000051a1107fe\n", 0),
    (4, b"LISTING 3\n", 8),
    (4, b"LISTING 0\n", 5),
    (4, b"LISTING 5\n", 10),
    (4, b"LISTING 999999999\n", 17),
    (4, b"LISTING 04\n", 4),
    (4, b"LISTING 0000000004\n", 4),
    (4, b"LISTING -4\n", 4),
    (5, b"\n", 0),
    (5, b"\r\n", 0),
    (5, b"\x00\xff\r\r\n", 0),
    (5, b"PHASE P\n", 0),
    (9, b"PHASE p\n", 9),
    (9, b"PHASE 1\n", 9),
    (9, b"PHASE P\r\n", 9),
    (10, b"SESSION S X\n", 10),
    (10, b"SESSION S M M\n", 10),
    (10, b"SESSION S\n", 10),
    (11, b"TASK A 100000 1048577 100 0\n", "PRIVATE 11"),
    (11, b"TASK A 100000 16 50000001 0\n", "BUDGET 11"),
    (11, b"TASK A 100000 16 100 65537\n", "ROOM 11"),
    (11, b"TASK A 100000 16 0 0\n", 11),
    (11, b"TASK A FFFFFF 1048576 50000000 65536\n", 0),
    (11, b"TASK A FFFFFF 80 1 0\n", 0),
    (12, b"REG 0 0000000\n", 12),
    (12, b"REG 0 000000000\n", 12),
    (12, b"REG 0 0000000G\n", 12),
    (12, b"REG 00 00000000\n", 12),
    (12, b"REG 16 00000000\n", 12),
    (12, b"REG -1 00000000\n", 12),
    (12, b"REG 15\n", 12),
    (12, b"REG 15 00000000 00000000\n", 12),
    (12, b"REG 0 00000000\r\n", 12),
    (12, b"REG 14 ABCDEFab\n", 0),
    (12, b"REG 15 00000000\n", 13),
    (12, b"REG 3 00000000\nREG 2 00000000\n", 13),
    (12, b"REG 3 00000000\nREG 3 00000000\n", 13),
    (12, b"REG 3 00000000\nREG 4 00000000\n", 0),
    (13, b"REG 0 00000000\n", 13),
    (16, b"TASK B 100000 16 100 0\nENDJOB\n", 0),
    (16, b"PHASE Q\nENDJOB\n", 0),
    (16, b"MODULE N 200000 8\nENDJOB\n", 16),
    (16, b"ENDJOB\n\n", 17),
    # Private storage of no bytes, or of too few, holds no card.
    (11, b"TASK A 100000 0 100 0\n", 14),
    (11, b"TASK A 100000 79 100 0\n", 14),
]
# What stands in place of the lines from the DATA card on.
ENDS: list[Row] = [
    (b"ENDJOB\n", 0),
    (b"DATA 79 c1\nENDJOB\n", 0),
    (b"DATA 79 C1C2\nENDJOB\n", 14),
    (b"DATA 80 C1\nENDJOB\n", 14),
    (b"DATA 78 C1C2\nENDJOB\n", 0),
    (b"DATA 999999999 C1\nENDJOB\n", 14),
    (b"DATA 1000000000 C1\nENDJOB\n", 14),
    (b"DATA 4294967296 C1\nENDJOB\n", 14),
    (b"DATA 00 C1\nENDJOB\n", 14),
    (b"DATA 07 C1\nENDJOB\n", 14),
    (b"DATA -1 C1\nENDJOB\n", 14),
    (b"DATA A C1\nENDJOB\n", 14),
    (b"DATA\nENDJOB\n", 14),
    (b"DATA 0\nENDJOB\n", 14),
    (b"DATA 0 \nENDJOB\n", 14),
    (b"DATA C1\nENDJOB\n", 14),
    (b"DATA 0 C\nENDJOB\n", 14),
    (b"DATA 0 C1C\nENDJOB\n", 14),
    (b"DATA 0 C1CG\nENDJOB\n", 14),
    (b"DATA 0 C1 C2\nENDJOB\n", 14),
    (b"DATA 0 C1\r\nENDJOB\n", 14),
    (b"data 0 C1\nENDJOB\n", 14),
    (b"DATA 0 C1C2\nDATA 1 C3\nDATA 0 C4\nENDJOB\n", 0),
    (b"DATA 0 C1\nDATA 80 C1\nENDJOB\n", 15),
    (b"DATA 0 C1\nREG 15 00000000\nENDJOB\n", 15),
    (b"DATA 0 C1\nTASK B 100000 16 100 0\nENDJOB\n", 0),
    (b"INPUT C1\nENDJOB\n", 0),
    (b"INPUT C1c2\nINPUT C3\nINPUT C3\nENDJOB\n", 0),
    (b"INPUT\nENDJOB\n", 14),
    (b"INPUT \nENDJOB\n", 14),
    (b"INPUT C\nENDJOB\n", 14),
    (b"INPUT C1C\nENDJOB\n", 14),
    (b"INPUT C1CG\nENDJOB\n", 14),
    (b"INPUT 0 C1\nENDJOB\n", 14),
    (b"INPUT C1 C2\nENDJOB\n", 14),
    (b"INPUT C1\r\nENDJOB\n", 14),
    (b"input C1\nENDJOB\n", 14),
    (b"INPUT C1\nDATA 0 C1\nENDJOB\n", 15),
    (b"DATA 0 C1\nINPUT C1\nDATA 1 C1\nENDJOB\n", 16),
    (b"INPUT C1\nREG 15 00000000\nENDJOB\n", 15),
    (b"DATA 0 C1\nINPUT C1\nINPUT C\nENDJOB\n", 16),
]
# The words of a card before its bytes, and how many these are.
SIZES_OF_CARDS: list[tuple[bytes, int, Told]] = [
    (b"DATA 16 ", 64, 0),
    (b"DATA 17 ", 64, 14),
    (b"DATA 0 ", 65, 14),
    (b"INPUT ", 64, 0),
    (b"INPUT ", 65, 14),
]


def lines_replaced() -> None:
    """cards: lines that come near to those of a job, DATA and INPUT cards, and the bytes that a card may have"""
    tells([(replaced(at, text), told) for at, text, told in REPLACED])
    front = joined(LINES[:13])
    tells([(front + end, told) for end, told in ENDS])
    tells([(front + words + b"5A" * count + b"\nENDJOB\n", told) for words, count, told in SIZES_OF_CARDS])


BEGINNINGS: list[Row] = [
    (b"", 1),
    (b"\n", 1),
    (b"ENDJOB\n", 1),
    (b"COVERJOB 1\r\n", 1),
]
# Lines behind COVERJOB.
MODULES: list[Row] = [
    (b"", 2),
    (b"COVERJOB 1\n", 2),
    (b"ENDJOB\r\n", 2),
    (b"MODULE A 100000 2\nTEXT 0102\nENDJOB\n", 0),
    (b"MODULE A 100000 4\nTEXT 0102\nTEXT 0304\nENDJOB\n", 0),
    (b"MODULE A 100000 4\nTEXT 0102\nENDJOB\n", 4),
    (b"MODULE A 100000 4\nTEXT 0102\nTEXT 030405\n", 4),
    (b"MODULE A 100000 2\nTEXT 0102\nTEXT 03\n", 4),
    (b"MODULE A 100000 2\nENDJOB\n", 3),
    (b"MODULE A 100000 2\nPHASE P\n", 3),
    (b"MODULE A 100000 2\nLISTING 0\n", 3),
    (b"MODULE A 100000 2\nMODULE B 200000 2\n", 3),
    (b"MODULE A 100000 2\n", 3),
    (b"TEXT 0102\n", 2),
    (b"LISTING 0\n", 2),
    (b"MODULE A 100000 2\nTEXT 0102\nLISTING 0\nENDJOB\n", 0),
    (b"MODULE A 100000 2\nTEXT 0102\nLISTING 0\nLISTING 0\n", 5),
    (b"MODULE A 100000 2\nTEXT 0102\nLISTING 1\nLISTING 1\nENDJOB\n", 0),
    (b"MODULE A 100000 2\nTEXT 0102\nLISTING 2\n\nENDJOB\n", 7),
    (b"MODULE A 100000 2\nTEXT 0102\nLISTING 0\nTEXT 03\n", 5),
    (b"MODULE A 100000 2\nTEXT 0102\nMODULE A 200000 2\n", 4),
    (b"MODULE A 100000 8\nTEXT 0102030405060708\nMODULE B 100008 2\nTEXT 0102\nENDJOB\n", 0),
    (b"MODULE A 100008 2\nTEXT 0102\nMODULE B 100000 8\nTEXT 0102030405060708\nENDJOB\n", 0),
    (b"MODULE A 100000 10\nTEXT 01020304050607080900\nMODULE B 100008 2\n", 4),
    (b"MODULE A 100008 2\nTEXT 0102\nMODULE B 100000 10\n", 4),
    (b"MODULE A 100008 2\nTEXT 0102\nMODULE B 100000 32\n", 4),
    (b"MODULE A 100000 2\nTEXT 0102\nMODULE B 200000 2\nTEXT 03\nENDJOB\n", 6),
    (b"MODULE A 100000 2\nTEXT 0102\nMODULE B 200000 2\nTEXT 0304\nLISTING 0\nMODULE C 300000 2\nTEXT 0506\nENDJOB\n", 0),
    (b"PHASE P\nMODULE A 100000 2\n", 3),
    (b"REG 0 00000000\n", 2),
    (b"PHASE A\r\n", 2),
]
PHASES: list[Row] = [
    (b"PHASE P\nENDJOB\n", 0),
    (b"PHASE P\nPHASE Q\nENDJOB\n", 0),
    (b"PHASE P\nPHASE P\n", 3),
    (b"SESSION S A\n", 2),
    (b"TASK T 100000 0 1 0\n", 2),
    (b"PHASE P\nSESSION S A\n", 3),
    (b"MODULE A 100000 2\nTEXT 0102\nPHASE P\nSESSION S A\nSESSION T A\n", 6),
    (b"MODULE A 100000 2\nTEXT 0102\nPHASE P\nSESSION S A A\n", 5),
    (b"MODULE A 100000 2\nTEXT 0102\nPHASE P\nSESSION S A\nPHASE Q\nSESSION T A\nENDJOB\n", 0),
    (b"MODULE A 100000 2\nTEXT 0102\nPHASE P\nSESSION S A\nPHASE Q\nSESSION S A\n", 7),
    (b"MODULE A 100000 2\nTEXT 0102\nMODULE B 200000 2\nTEXT 0102\nPHASE P\nSESSION S A\nSESSION T B\nENDJOB\n", 0),
    (b"MODULE A 100000 2\nTEXT 0102\nMODULE B 200000 2\nTEXT 0102\nPHASE P\nSESSION S B\nSESSION T A B\n", 8),
    (b"MODULE A 100000 2\nTEXT 0102\nMODULE B 200000 2\nTEXT 0102\nPHASE P\nSESSION S A\nSESSION S B\n", 8),
    (b"MODULE A 100000 2\nTEXT 0102\nPHASE P\nTASK T 100000 0 1 0\nSESSION S A\n", 6),
    (b"MODULE A 100000 2\nTEXT 0102\nPHASE A\nSESSION A A\nTASK A 100000 0 1 0\nENDJOB\n", 0),
    (b"MODULE BY 100000 2\nTEXT 0102\nPHASE P\nSESSION S BY\nENDJOB\n", 5),
    (b"PHASE P\nTASK T 100000 0 1 0\nTASK T 100000 0 1 0\n", 4),
    (b"PHASE P\nTASK T 100000 0 1 0\nPHASE Q\nTASK T 100000 0 1 0\n", 5),
    (b"PHASE P\nTASK T 100000 0 1 0\nPHASE P\n", 4),
    (b"PHASE P\nTASK T 100000 0 0 0\n", 3),
    (b"PHASE P\nREG 0 00000000\n", 3),
    (b"PHASE P\nDATA 0 00\n", 3),
    (b"PHASE P\nINPUT 00\n", 3),
    (b"PHASE P\nTASK T 100000 1 1 0\nREG 3 00000000\nDATA 0 00\nINPUT 00\nTASK U 100000 1 1 0\nREG 2 00000000\nENDJOB\n", 0),
    (b"PHASE P\nTASK T 100000 1 1 0\nREG 3 00000000\nREG 3 00000000\n", 5),
    (b"PHASE P\nTASK T 100000 1 1 0\nDATA 1 00\n", 4),
    (b"PHASE P\nTASK T 100000 1 1 0\nINPUT 00\nDATA 0 00\n", 5),
    (b"PHASE P\nTASK T 100000 1 1 0\nINPUT 00\nREG 0 00000000\n", 5),
    (b"PHASE P\nTASK T 100000 1 1 0\nCOVERJOB 1\n", 4),
]
SIZES: list[Row] = [
    (b"MODULE A 100000 262144\nENDJOB\n", 3),
    (b"MODULE A 100000 262146\nENDJOB\n", "SIZE 2"),
    (b"MODULE A 100000 262145\n", 2),
    (b"MODULE A FBF000 262152\n", 2),
    (b"MODULE A FBEFF8 262152\n", "SIZE 2"),
    (b"MODULE A 100000 2\nTEXT 0102\nMODULE A 200000 262146\n", 4),
    (b"MODULE A 100000 2\nTEXT 0102\nMODULE B 200000 262146\n", "SIZE 4"),
    (b"PHASE P\nTASK T 100000 1048576 1 0\nENDJOB\n", 0),
    (b"PHASE P\nTASK T 100000 1048577 1 0\nENDJOB\n", "PRIVATE 3"),
    (b"PHASE P\nTASK T 100000 0 50000000 0\nENDJOB\n", 0),
    (b"PHASE P\nTASK T 100000 0 50000001 0\nENDJOB\n", "BUDGET 3"),
    (b"PHASE P\nTASK T 100000 0 1 65536\nENDJOB\n", 0),
    (b"PHASE P\nTASK T 100000 0 1 65537\nENDJOB\n", "ROOM 3"),
    (b"PHASE P\nTASK T 100000 1048577 50000001 65537\n", "PRIVATE 3"),
    (b"PHASE P\nTASK T 100000 0 50000001 65537\n", "BUDGET 3"),
    (b"PHASE P\nTASK T 100000 1048577 0 65537\n", 3),
    (b"PHASE P\nTASK T 100000 1048577 1 1000000000\n", 3),
    (b"PHASE P\nTASK T 100000 0 1 0\nTASK T 100000 1048577 1 0\n", 4),
    (b"PHASE P\nTASK T 100000 0 1 0\nTASK U 100000 1048577 1 0\nX\n", "PRIVATE 4"),
    (b"X\nPHASE P\nTASK U 100000 1048577 1 0\n", 2),
    (b"TASK U 100000 1048577 1 0\n", 2),
    (b"PHASE P\nTASK U 100000 999999999 1 0", "PRIVATE 3"),
]


def lines_of_any_job() -> None:
    """cards: modules, phases, sessions and tasks in each order, and sizes at their limits"""
    tells(BEGINNINGS)
    tells([(b"COVERJOB 1\n" + lines, told) for lines, told in [*MODULES, *PHASES, *SIZES]])
    tells([(joined(LINES[:10]) + b"TASK A 100000 1048577 100 0\nENDJOB\n", "PRIVATE 11")])


# How many bytes a listing's line has, what stands behind them, and what is told.
LONG: list[tuple[int, bytes, Told]] = [
    (150, b"\nENDJOB\n", 0),
    (150, b"\r\nENDJOB\n", 0),
    (149, b"\r\r\nENDJOB\n", 0),
    (151, b"\nENDJOB\n", "LINE 5"),
    (151, b"\r\nENDJOB\n", "LINE 5"),
    (150, b"\r\r\nENDJOB\n", "LINE 5"),
    (151, b"", "LINE 5"),
    (150, b"", 6),
    (149, b"\r", 6),
    (150, b"\r", "LINE 5"),
]
# Lines behind sixteen modules.
BEHIND_MODULES: list[Row] = [
    (b"ENDJOB\n", 0),
    (b"LISTING 0\nPHASE P\nENDJOB", 0),
    (b"MODULE N 200000 2\n", "MODULES 34"),
    (b"MODULE N 200000 262146\n", "MODULES 34"),
    (b"MODULE M03 200000 2\n", 34),
    (b"MODULE N 103000 2\n", 34),
]
# Behind sixteen phases, without a session and with one each.
BEHIND_PHASES: list[Row] = [
    (b"ENDJOB\n", 0),
    (b"PHASE Q\n", "PHASES 18"),
    (b"PHASE P00\n", 18),
    (b"SESSION T N\n", 18),
    (b"SESSION T M\n", 18),
    (b"SESSION S00 N\n", 18),
]
BEHIND_SESSIONS: list[Row] = [
    (b"ENDJOB\n", 0),
    (b"PHASE Q\n", "PHASES 38"),
    (b"PHASE P00\n", 38),
    (b"SESSION T N\n", "SESSIONS 38"),
    (b"SESSION T M\n", 38),
    (b"SESSION S00 N\n", 38),
]
# Behind 64 tasks; and where a module is there, of which a controller counts with its TASK card.
BEHIND_TASKS: list[Row] = [
    (b"ENDJOB\n", 0),
    (b"INPUT 00\nENDJOB\n", 0),
    (b"TASK U 100000 0 1 0\n", "TASKS 68"),
    (b"TASK U 100000 1048577 50000001 65537\n", "TASKS 68"),
    (b"TASK U 100000 0 0 0\n", 68),
    (b"TASK T05 100000 0 1 0\n", 68),
]
CONTROLLERS: list[Row] = [
    (b"PHASE R\nSESSION S BY U M\nTASK U 100000 0 1 0\n", "TASKS 72"),
    (b"PHASE R\nSESSION S BY U M\nENDJOB\n", 72),
]


def counted() -> None:
    """cards: a listing line of 150 bytes, 16 modules, phases and sessions and 64 tasks, and one more of each"""
    front = b"COVERJOB 1\nMODULE A 100000 2\nTEXT 0102\nLISTING 1\n"
    tells([(front + b"*" * count + end, told) for count, end, told in LONG])
    modules = [b"MODULE M%02d 1%02d000 2\nTEXT 07FE\n" % (it, it) for it in range(16)]
    phases = [b"PHASE P%02d\n" % it for it in range(16)]
    both = b"MODULE M 100000 2\nTEXT 07FE\nMODULE N 200000 2\nTEXT 07FE\n"
    sessions = [b"PHASE P%02d\nSESSION S%02d M\n" % (it, it) for it in range(16)]
    tasks = [b"PHASE Q\n" * (it == 31) + b"TASK T%02d 100000 0 1 0\n" % it for it in range(64)]
    for lines, rows in (
        (modules, BEHIND_MODULES),
        (phases, BEHIND_PHASES),
        ([both, *sessions], BEHIND_SESSIONS),
        ([b"PHASE P\n", *tasks], BEHIND_TASKS),
        ([b"MODULE M 100000 2\nTEXT 07FE\nPHASE P\n", *tasks], CONTROLLERS),
    ):
        tells([(b"COVERJOB 1\n" + b"".join(lines) + more, told) for more, told in rows])


# What stands behind modules M, N and BY and a phase.
RULES: list[Row] = [
    # One controller, two of them, and a whole session beside.
    (b"SESSION S BY T M\nTASK T 000000 0 1 0\nENDJOB\n", 0),
    (b"SESSION S BY T M\nSESSION R BY U N\nTASK U 000000 0 1 0\nTASK T 000000 0 1 0\nENDJOB\n", 0),
    (b"SESSION S N\nSESSION R BY T M\nTASK T 000000 0 1 0\nENDJOB\n", 0),
    # Its sessions share modules, and others don't.
    (b"SESSION S BY T M N\nSESSION R BY T N M\nTASK T 000000 0 1 0\nENDJOB\n", 0),
    (b"SESSION S BY T M\nSESSION R BY U M\nTASK T 000000 0 1 0\nTASK U 000000 0 1 0\nENDJOB\n", 10),
    (b"SESSION S BY T M\nSESSION R M\nTASK T 000000 0 1 0\nENDJOB\n", 10),
    (b"SESSION S M\nSESSION R BY T M\nTASK T 000000 0 1 0\nENDJOB\n", 10),
    (b"SESSION S BY T M\nTASK T 000000 0 1 0\nPHASE Q\nSESSION R BY U M\nTASK U 000000 0 1 0\nENDJOB\n", 0),
    # A module twice, an unknown one, and none.
    (b"SESSION S BY T M M\nTASK T 000000 0 1 0\nENDJOB\n", 9),
    (b"SESSION S BY T X\nTASK T 000000 0 1 0\nENDJOB\n", 9),
    (b"SESSION S BY T\nTASK T 000000 0 1 0\nENDJOB\n", 9),
    # A controller of an earlier phase, of a later one, and of none.
    (b"TASK T 000000 0 1 0\nPHASE Q\nSESSION S BY T M\nENDJOB\n", 11),
    (b"SESSION S BY T M\nTASK U 000000 0 1 0\nPHASE Q\nTASK T 000000 0 1 0\nENDJOB\n", 11),
    (b"SESSION S BY T M\nENDJOB\n", 10),
    (b"SESSION S BY T M\nTASK TT 000000 0 1 0\nENDJOB\n", 11),
    (b"SESSION S BY T M\n", 10),
    (b"SESSION S BY T M\nTASK T 000000 0 1 0\n", 11),
    # A controlled session behind the tasks, and a session twice.
    (b"TASK T 000000 0 1 0\nSESSION S BY T M\nENDJOB\n", 10),
    (b"SESSION S BY T M\nSESSION S BY T N\nTASK T 000000 0 1 0\nENDJOB\n", 10),
    # One controller of two is missing.
    (b"SESSION S BY T M\nSESSION R BY U N\nTASK T 000000 0 1 0\nENDJOB\n", 12),
]
# The word BY, and words that come near to it.
BY: list[Row] = [
    (b"SESSION S BY BY M\nTASK BY 000000 0 1 0\nENDJOB\n", 0),
    (b"SESSION S BY T BY\nTASK T 000000 0 1 0\nENDJOB\n", 0),
    (b"SESSION S BY T M BY\nTASK T 000000 0 1 0\nENDJOB\n", 0),
    (b"SESSION BY BY T M\nTASK T 000000 0 1 0\nENDJOB\n", 0),
    (b"SESSION S M BY\nENDJOB\n", 0),
    (b"SESSION BY M\nENDJOB\n", 0),
    (b"SESSION S BY\nENDJOB\n", 9),
    (b"SESSION S BY M\nENDJOB\n", 9),
    (b"SESSION S M BY T\nTASK T 000000 0 1 0\nENDJOB\n", 9),
    (b"SESSION S by T M\nTASK T 000000 0 1 0\nENDJOB\n", 9),
    (b"SESSION S BY t M\nENDJOB\n", 9),
    (b"SESSION S  BY T M\nTASK T 000000 0 1 0\nENDJOB\n", 9),
    (b"SESSION S BY T M \nTASK T 000000 0 1 0\nENDJOB\n", 9),
]


def controllers() -> None:
    """cards: a SESSION card with BY, each rule kept and broken at its line"""
    modules = [b"MODULE %s 1000%s 2\nTEXT 07FE\n" % it for it in ((b"M", b"00"), (b"N", b"08"), (b"BY", b"10"))]
    front = b"COVERJOB 1\n" + b"".join(modules) + b"PHASE P\n"
    tells([(front + lines, told) for lines, told in [*RULES, *BY]])


# A job without services, whose SERVICE cards may stand behind line 9.
SERVING = [
    b"COVERJOB 1",
    b"MODULE M 100000 10",
    b"TEXT 0A0A07FE4110000707FE",
    b"LISTING 5",
    HEADING.encode(),
    b"000000 0A0A                           1          SVC",
    b"000002 07FE                           2          BR",
    b"000004 4110 0007                      3          LA",
    b"000008 07FE                           4          BR",
    b"PHASE P",
    b"SESSION S M",
    b"TASK A 100000 16 100 0",
    b"ENDJOB",
]
CARD = b"SERVICE 10 100004\n"
# Lines from line 10 on.
SERVICES: list[Row] = [
    (b"SERVICE 10 100004\n", 0),
    (b"SERVICE 0 100004\n", 0),
    (b"SERVICE 6 100004\n", 0),
    (b"SERVICE 254 100004\n", 0),
    (b"SERVICE 9 f00000\nSERVICE 10 fFFffC\nSERVICE 11 FFFFFE\n", 0),
    (b"SERVICE 0 100003\nSERVICE 6 000000\nSERVICE 254 100003\n", 0),
    # The number.
    (b"SERVICE 1 100004\n", 10),
    (b"SERVICE 2 100004\n", 10),
    (b"SERVICE 3 100004\n", 10),
    (b"SERVICE 4 100004\n", 10),
    (b"SERVICE 5 100004\n", 10),
    (b"SERVICE 255 100004\n", 10),
    (b"SERVICE 256 100004\n", 10),
    (b"SERVICE 010 100004\n", 10),
    (b"SERVICE 00 100004\n", 10),
    (b"SERVICE -6 100004\n", 10),
    (b"SERVICE A 100004\n", 10),
    # The entry.
    (b"SERVICE 10 10004\n", 10),
    (b"SERVICE 10 0100004\n", 10),
    (b"SERVICE 10 10000G\n", 10),
    (b"SERVICE 10\n", 10),
    (b"SERVICE\n", 10),
    # The words.
    (b"SERVICE 10 100004 0\n", 10),
    (b"SERVICE  10 100004\n", 10),
    (b"SERVICE 10  100004\n", 10),
    (b" SERVICE 10 100004\n", 10),
    (b"SERVICE 10 100004 \n", 10),
    (b"SERVICE 10 100004\r\n", 10),
    (b"service 10 100004\n", 10),
    (b"SERVICES 10 100004\n", 10),
    # The order of the numbers.
    (b"SERVICE 10 100004\nSERVICE 10 100004\n", 11),
    (b"SERVICE 10 100004\nSERVICE 10 100006\n", 11),
    (b"SERVICE 35 100004\nSERVICE 10 100004\n", 11),
    (b"SERVICE 254 100004\nSERVICE 255 100004\n", 11),
    (b"SERVICE 0 100004\nSERVICE 0 100004\n", 11),
    (b"SERVICE 0 100004\nSERVICE 6 100004\nSERVICE 7 100004\nSERVICE 6 100004\n", 13),
    # The cards behind it.
    (b"SERVICE 10 100004\nMODULE N 100010 2\nTEXT 07FE\n", 11),
    (b"SERVICE 10 100004\nTEXT 07FE\n", 11),
    (b"SERVICE 10 100004\nLISTING 0\n", 11),
    (b"SERVICE 10 100004\nCOVERJOB 1\n", 11),
    (b"SERVICE 10 100004\nSESSION S M\n", 11),
    (b"SERVICE 10 100004\nTASK B 100000 16 100 0\n", 11),
    (b"SERVICE 10 100004\nREG 0 00000000\n", 11),
    (b"SERVICE 10 100004\nDATA 0 00\n", 11),
    (b"SERVICE 10 100004\nINPUT 00\n", 11),
    (b"SERVICE 10 100004\n\n", 11),
    (b"SERVICE 10 100004\nENDJOB\n", 12),
    (b"MODULE N 100010 2\nTEXT 07FE\nSERVICE 10 100004\n", 0),
    # The card behind others.
    (b"PHASE Q\nSERVICE 10 100004\n", 11),
    (b"MODULE N 100010 2\nSERVICE 10 100004\nTEXT 07FE\n", 11),
]
# Behind how many lines the card stands, and what is told with `services` before the command, and without it.
PLACES: list[tuple[int, Told, Told]] = [
    (0, 1, 1),
    (1, 3, 2),
    (2, 3, 3),
    (3, 5, 4),
    (9, 0, 10),
    (10, 11, 11),
    (11, 12, 12),
    (12, 13, 13),
    (13, 14, 14),
]
# Words behind which a card SERVICE is a bad line.
UNSERVED = [
    ("run",), ("exits",), ("early",), ("count",), ("ends",), ("replay",),
    *((it, "S") for it in ("marks", "show", "prove", "verify")),
]


def services() -> None:
    """cards: SERVICE cards, each rule kept and broken at its line, and the card in each place of a job and of each command"""
    tells([(joined(SERVING[:9]) + more + joined(SERVING[9:]), told) for more, told in SERVICES], SERVED)
    for behind, told, plain in PLACES:
        job = joined(SERVING[:behind]) + CARD + joined(SERVING[behind:])
        tells([(job, told)], SERVED)
        tells([(job, plain)])
    for words in UNSERVED:
        tells([(joined(SERVING[:9]) + CARD + joined(SERVING[9:]), 10)], words)


CHECKS = [exchanged, blanks, missing_or_doubled, ended, lines_replaced, lines_of_any_job, counted, controllers, services]
