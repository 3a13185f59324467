"""Damaged input: of each command a small input, cut after each byte, and each byte changed to 00, FF and a blank.

What must come of it is told by models/answers.py: the first bad line, field, listing or row, or the whole output.
"""
from __future__ import annotations

import os
import subprocess
from concurrent.futures import ThreadPoolExecutor
from dataclasses import dataclass
from typing import Iterator

from fixtures.harness import PROGRAM, SECONDS, Tally, equal
from fixtures.harness import run as run_command
from fixtures.jobs import COUNTED, FIRST, Program
from models import answers, marks_model

# The count begins with 2: it goes on once, and falls through; then the return is executed.
TASK = "TASK A 100000 16 9 0\nREG 1 00000002\nDATA 0 C1\nINPUT C2\n"
# The same of a count that begins with 3, and the first visits that show its facts.
FROM_3 = "TASK A 100000 16 100 0\nREG 1 00000003\n"
EVIDENCE_FROM_3 = bytes.fromhex("5333373045564431 00000000000000 00000000000200 00000000000300")
FIRSTS_FROM_3: marks_model.Firsts = {0x100000: {2: (0, 0, 0), 4: (0, 2, 0)}, 0x100004: {1: (0, 3, 0)}}
# SVC 4, BAL to the first job's instructions, SVC 5, SVC 4, SVC 5, and BR: the sixth and the eighth instruction close a session.
OPENING = "TASK C 000000 16 100 0\nREG 1 00100000\nREG 13 00FFFFFE\nDATA 0 0A0445E010000A050A040A0507FD\n"
ITEMS = b"FETCH A\nMARK A\nDO A\nFETCH A\nMARK A\nLIFT A\nGO A\nENDSCHED\n"
OTHER = Program.of("0 1A11 AR, 2 07FE BR")
SERVED = Program.of("0 0A0A SVC, 2 07FE BR, 4 41100007 LA, 8 07FE BR")
FILE = COUNTED.marks_file(4, 1)
BOTH = COUNTED.marks_file(6, 1)
EVIDENCE = bytes.fromhex("5333373045564431 00000000000000 00000000000100 00000000000200")
# Where the fields of that file begin in version 1.
FIELDS = (0, 8, 10, 18, 22, 26, 30, 34, 35, 36, 38, 39, 43, 44, 45, 47)
# A byte of the file in version 1, another value there, and the field that is then the first bad one; and the same in version 2, where
# none is in some.
OLD_BROKEN = ((0, 0, 0), (7, b"2"[0], 8), (9, 0, 8), (9, 17, 8), (10, b" "[0], 10), (38, 3, 38), (42, 2, 39), (47, 2, 47))
BROKEN: tuple[tuple[int, int, int | None], ...] = (
    (0, 0, 0), (7, b"3"[0], 0), (8, b" "[0], None), (8, b"1"[0], 8), (10, b"S"[0], 8), (15, 0, 8), (19, 0, 16),
    (21, 0, 20), (21, 17, 20), (22, b"1"[0], 22), (24, b"M"[0], 22), (22, b" "[0], 22), (33, 4, 30), (31, 0x0F, 30), (30, 1, 30),
    (37, 7, 34), (37, 0, 34), (35, 4, 34), (39, 1, 38), (38, 1, 38),
    # Of the places.
    (45, 1, 42), (45, 6, 42), (46, 5, 46), (45, 4, 46), (47, 2, 47), (47, 0, 48), (48, 0x41, 48),
    (50, 0, None), (50, 1, 50), (50, 3, 50), (50, 8, 50), (54, 2, 51), (55, 4, 55), (59, 2, 59), (59, 0, None),
)


@dataclass
class Command:
    """A command and its input."""

    words: list[str]
    input: bytes


def job() -> bytes:
    """A job whose first instruction line ends with CR and LF."""
    return COUNTED.job(TASK).replace(b"BCT\n", b"BCT\r\n")


def two_sessions() -> bytes:
    """A job of a task that opens and closes a session around the module's instructions, and then another around nothing."""
    return FIRST.job(OPENING).replace(b"SESSION S M\n", b"SESSION S1 BY C M\nSESSION S2 BY C M\n")


def served() -> bytes:
    """A job of a program that calls a service, and the service."""
    return SERVED.job(TASK).replace(b"PHASE P", b"SERVICE 10 100004\nSERVICE 35 fffffc\nPHASE P")


def three_modules() -> bytes:
    """A job of a module whose listing has print control characters, of one whose listing is wide too, and of one that has none."""
    cards = ["COVERJOB 1"]
    for name, base, program in (("MM", "200000", OTHER), ("W", "200010", OTHER.wide())):
        listing = [f" {it}" for it in program.listing()]
        cards += [f"MODULE {name} {base} 4", "TEXT 1A11", "TEXT 07fe", f"LISTING {len(listing)}", *listing]
    return "\n".join([*cards, "MODULE N 200008 2", "TEXT 07FE", "ENDJOB", ""]).encode()


def commands() -> list[Command]:
    """All that read their input."""
    return [
        Command(["run"], FIRST.job()),
        Command(["exits"], FIRST.job()),
        Command(["early"], two_sessions()),
        Command(["count"], job()),
        Command(["marks", "S"], job()),
        Command(["table"], three_modules()),
        Command(["ends"], FIRST.job()),
        Command(["services", "run"], served()),
        Command(["replay"], job() + ITEMS),
        Command(["combine"], FILE + COUNTED.marks_file(2, 0, version=1)),
        Command(["show", "S"], job() + BOTH),
        Command(["prove", "S"], job()),
        Command(["verify", "S"], job() + BOTH + EVIDENCE),
    ]


def damaged(data: bytes) -> Iterator[tuple[str, bytes]]:
    """The input, its cuts, and its changes of a byte."""
    yield "whole", data
    for at in range(len(data)):
        yield f"cut after {at} bytes", data[:at]
        for other in (b"\x00", b"\xff", b" "):
            if data[at : at + 1] != other:
                yield f"byte {at} changed to {other.hex()}", data[:at] + other + data[at + 1 :]


def fault_of(command: Command, name: str, data: bytes) -> str | None:
    """What is wrong with what comes of an input."""
    ran = subprocess.run([PROGRAM, *command.words], input=data, capture_output=True, timeout=SECONDS, check=False)
    what = answers.answer(command.words, data).fault(ran.returncode, ran.stdout) or ran.stderr[:200]
    return f"{name}: {what!r}" if what else None


def offsets() -> None:
    """a marks file that is cut is refused at the field that the cut is in, and one that breaks a rule at that rule's field"""
    def refused(data: bytes, offset: int) -> None:
        ran = run_command([PROGRAM, "combine"], data)
        equal((ran.status, ran.output, ran.error), (10, b"BAD MARKS OFFSET %d\n" % offset, ""))

    def taken(data: bytes) -> None:
        ran = run_command([PROGRAM, "combine"], data)
        equal((ran.status, ran.output, ran.error), (0, data, ""))

    first_version = (COUNTED.marks_file(4, 1, version=1), FIELDS, OLD_BROKEN)
    second = (FILE, [0, 8, 16, *(it + 12 for it in FIELDS[1:])], BROKEN)
    for file, fields, changes in (first_version, second):
        for size in range(len(file)):
            refused(file[:size], max(it for it in fields if it <= size))
        for at, byte, offset in changes:
            changed = file[:at] + bytes([byte]) + file[at + 1 :]
            if offset is None:
                taken(changed)
            else:
                refused(changed, offset)
    # The breakpoint is no original; modules differ in their names, and share no byte.
    refused(FILE[:57] + b"\x0a\xff" + FILE[59:], 57)
    taken(FILE[:57] + b"\x0a\xfe" + FILE[59:])
    two = FILE[:21] + b"\2" + FILE[22:]
    refused(two + FILE[22:], 60)
    refused(two + b"N" + FILE[23:], 72)


def evidence() -> Iterator[bytes]:
    """The evidence of a count from 3 with each bit of each byte changed, cut after each byte, with other bytes behind it, with an
    entry doubled, left out or put in another's place, and with entries exchanged."""
    whole = b"S370EVD1" + b"".join(marks_model.entry(it) for facts in FIRSTS_FROM_3.values() for it in facts.values())
    yield whole
    for at in range(len(whole)):
        yield whole[:at]
        yield from (whole[:at] + bytes([whole[at] ^ (1 << bit)]) + whole[at + 1 :] for bit in range(8))
    yield from (whole + bytes([it]) for it in (0, 1, 0x53))
    head, entries = whole[:8], [whole[at : at + 7] for at in range(8, len(whole), 7)]
    for at, it in enumerate(entries):
        yield head + b"".join([*entries[: at + 1], *entries[at:]])
        yield head + b"".join([*entries[:at], *entries[at + 1 :]])
        for other in range(len(entries)):
            yield head + b"".join([*entries[:other], it, *entries[other + 1 :]])
            changed = list(entries)
            changed[at], changed[other] = changed[other], changed[at]
            yield head + b"".join(changed)


def damaged_evidence() -> None:
    """evidence that is damaged in each way, behind each file that the sets of a count can have"""
    front = COUNTED.job(FROM_3)
    inputs = [front + COUNTED.marks_file(*sets) + it for sets in ((6, 1), (2, 1), (4, 1), (6, 0), (0, 0)) for it in evidence()]
    command = Command(["verify", "S"], front)
    with ThreadPoolExecutor(os.cpu_count()) as pool:
        faults = [it for it in pool.map(lambda data: fault_of(command, data[len(front) :].hex(), data), inputs) if it]
    equal((len(faults), faults[:1]), (0, []))


# Modules N, which has no listing, and O behind module M: no session observes them.
LOADS = Program.of("0 41100005 LA, 4 07FE BR")
MORE = "\n".join(["MODULE N 100008 2", "TEXT 07FE", "MODULE O 100010 6", "TEXT 4110000507FE", "LISTING 3", *LOADS.listing(), "PHASE P"])
WENT, STAYED, RAN = (f"REFUTED ROW {it}" for it in ("1 FACT W", "1 FACT S", "2 FACT R"))
# From which byte of the evidence on up to which one, and what is refuted where the lowest bit of one of them is turned, and where all
# its bits are; nothing where that is bad evidence at the first of them. A number stays below 50,000,000 unless its first byte is
# turned as a whole.
TURNED = [
    (0, 8, "", ""), (8, 10, "", ""), (10, 11, WENT, ""), (11, 14, WENT, WENT), (14, 15, WENT, ""),
    (15, 17, "", ""), (17, 18, STAYED, ""), (18, 21, STAYED, STAYED), (21, 22, STAYED, ""),
    (22, 24, "", ""), (24, 25, RAN, ""), (25, 28, RAN, RAN), (28, 29, RAN, ""),
]


def turned_evidence() -> None:
    """evidence with a byte turned, cut in each field, and with entries doubled or exchanged, behind a file of no session that is known"""
    front = COUNTED.job(FROM_3).replace(b"PHASE P", MORE.encode())
    whole = EVIDENCE_FROM_3
    head, went, stayed, ran = whole[:8], whole[8:15], whole[15:22], whole[22:]

    def tells(text: bytes, line: str, sets: tuple[int, int] = (6, 1)) -> None:
        status = {"V": 0, "B": 15, "R": 16}[line[0]]
        got = run_command([PROGRAM, "verify", "S"], front + COUNTED.marks_file(*sets, name="", runs=2) + text)
        equal((text.hex(), got.status, got.output, got.error), (text.hex(), status, f"{line}\n".encode(), ""))

    def bad(offset: int) -> str:
        return f"BAD EVIDENCE OFFSET {offset}"

    def proves(task: str, text: bytes) -> None:
        got = run_command([PROGRAM, "prove", "S"], front.replace(FROM_3.encode(), task.encode()))
        equal((got.status, got.output, got.error), (0, text, ""))

    proves(FROM_3, whole)
    # An EX of the return in the task's own storage, which is told apart from an execution.
    proves("TASK A 000000 16 100 0\nREG 2 00100000\nDATA 0 44002004\n", head + bytes(6) + b"\1")
    tells(whole, "VERIFIED S FACTS 3")
    for begin, end, low, every in TURNED:
        for at in range(begin, end):
            for mask, line in ((0x01, low), (0xFF, every)):
                tells(whole[:at] + bytes([whole[at] ^ mask]) + whole[at + 1 :], line or bad(begin))
    fields = (0, 8, 10, 14, 15, 17, 21, 22, 24, 28)
    for size in range(len(whole)):
        tells(whole[:size], bad(max(it for it in fields if it <= size)))
    tells(head + went + went + stayed + ran, bad(29))
    tells(head + stayed + went + ran, WENT)
    tells(head + went + ran + stayed, STAYED)
    # A fact is left out of the marks, and its entry with it; and more entries than are expected.
    tells(head + went + ran, STAYED, (2, 1))
    tells(whole, bad(22), (2, 1))
    tells(head, WENT, (0, 0))


CHECKS = [offsets, damaged_evidence, turned_evidence]


def run_all(tally: Tally) -> None:
    """Tries each command with each damaged input, and prints how many that were."""
    tried = []
    with ThreadPoolExecutor(os.cpu_count()) as pool:
        for command in commands():
            name = " ".join(command.words)
            if not tally.wants(name):
                continue
            inputs = list(damaged(command.input))
            faults = [it for it in pool.map(lambda it: fault_of(command, *it), inputs) if it]
            tally.note(name, f"{len(faults)} of {len(inputs)}, {faults[0]}" if faults else None, "a damaged input")
            tried.append(f"{name} {len(inputs)}")
    if tried:
        print(f"tests/command_line: damaged inputs: {', '.join(tried)}", flush=True)
