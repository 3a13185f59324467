"""The program: each command, each exit status that a user can provoke, and each way that a task ends."""
from __future__ import annotations

import os
import re
import subprocess
from dataclasses import replace

from cases.marks_cases import BOTH, FELL
from fixtures.harness import COVERAGE, PROGRAM, TOP, Case, equal, run, well
from fixtures.jobs import (
    COUNTED, FIRST, FIRST_REPORT, FIRST_RESULT, HEADING, OPENED_JOB, OPENED_REPLAY, TASK, USAGE, WIDE_HEADING, Program, Result,
    task,
)
from models.trial import summary

PRIVATE_END = 0xFFFFFC


def runs(name: str, program: Program, task: str, result: Result, marks: str, possible: int, *ranges: str) -> Case:
    """A job of one task that is run."""
    return Case(name, ["run"], program.job(task), program.report([result], marks, possible, *ranges))


def instructions() -> list[Case]:
    """Jobs whose results follow from the rows of docs/MACHINE.md."""
    link = Program.of("0 1222 LTR, 2 4530F006 BAL, 6 07FE BR")
    execute = Program.of("0 4410F006 EX, 4 07FE BR, 6 D20000000008 MVC")
    no_execute = Program.of("0 4400F004 EX, 4 4400F000 EX, 8 07FE BR")
    made = Program.of("0 4700F00A BC, 4 4410F000 EX, 8 1822 LR, A 07FE BR")
    mask = Program.of("0 0420 SPM, 2 FA0000000001 AP, 8 07FE BR")
    load = Program.of("0 58201008 L, 4 07FE BR")
    edit = Program.of("0 DE0300000008 ED, 6 07FE BR")
    test = Program.of("0 DD0300000010 TRT, 6 07FE BR")
    divide = Program.of("0 FD2000000004 DP, 6 07FE BR")
    move = Program.of("0 0E24 MVCL, 2 07FE BR")
    lengths = {2: 2, 3: 8, 4: 0, 5: 8}
    cards = "REG 2 00000002 / REG 3 00000008 / REG 4 00000000 / REG 5 00000008"
    sum_row, digits = "000000 0C1C0000000000000000000000000000", "DATA 0 9C1C"
    return [
        runs("an addition", FIRST, TASK, FIRST_RESULT, ":::", 3),
        Case("no task", ["run"], FIRST.job(""), FIRST.report([], "^^^", 3, "000000-000007")),
        runs("a count that goes on", COUNTED, task("REG 1 00000003"), Result("RETURNED", 4, 0), "&:", 3),
        runs("a count that ends", COUNTED, task("REG 1 00000001"), Result("RETURNED", 2, 0), "V:", 3),
        runs("a link", link, task("REG 2 00000001"), Result("RETURNED", 3, 2, {2: 1, 3: 0xA0100006}), ":::", 3),
        runs("EX", execute, task("REG 1 00000002 / DATA 8 010203"),
             Result("RETURNED", 2, 0, {1: 2}, rows=["000000 01020300000000000102030000000000"]), ":::", 3),
        runs("EX of EX", no_execute, TASK, Result("ABEND 3", 1), ":^^", 3, "000004-000009"),
        runs("EX that makes a branch", made, task("REG 1 000000F0"),
             Result("RETURNED", 3, 0, {1: 0xF0}), "::^:", 4, "000008-000009"),
        runs("an overflow that interrupts", mask, task(f"REG 2 04000000 / {digits}"),
             Result("ABEND A", 2, 3, {2: 0x04000000}, rows=[sum_row]), "::^", 3, "000008-000009"),
        runs("an overflow that goes on", mask, task(digits), Result("RETURNED", 3, 3, rows=[sum_row]), ":::", 3),
        runs("an overflow below zero", mask, task("DATA 0 9D1D"),
             Result("RETURNED", 3, 3, rows=["000000 0D1D0000000000000000000000000000"]), ":::", 3),
        runs("an address that wraps", load, task("REG 1 00FFFFFC / DATA 4 11223344"),
             Result("RETURNED", 2, 0, {1: PRIVATE_END, 2: 0x11223344}), "::", 2),
        runs("an edited number", edit, task("DATA 0 40202120 / DATA 8 007C"),
             Result("RETURNED", 2, 2, rows=["000000 404040F700000000007C000000000000"]), "::", 2),
        runs("a test of bytes", test, task("DATA 0 C1C25BC3 / DATA 107 0A", "TASK A 100000 300 100 0\n"),
             Result("RETURNED", 2, 1, {1: 2, 2: 10}), "::", 2),
        runs("a decimal quotient", divide, task("DATA 0 00017C / DATA 4 5C"),
             Result("RETURNED", 2, 0, rows=["000000 003C2C005C0000000000000000000000"]), "::", 2),
        runs("a move over its own source", move, task(cards), Result("RETURNED", 2, 3, lengths), "::", 2),
        two_tasks(),
    ]


def two_tasks() -> Case:
    """Two tasks of one phase, which take the two ways of a branch."""
    program = Program.of("0 1211 LTR, 2 4780F008 BE, 6 1822 LR, 8 07FE BR")
    second = Result("RETURNED", 4, 2, {1: 1}, name="B")
    report = program.report([Result("RETURNED", 3, 0), second], ":&::", 5)
    return Case("two tasks", ["run"], program.job(TASK + task("REG 1 00000001", "TASK B 100000 16 100 0\n")), report)


def wide_listings() -> list[Case]:
    """Listings with the wide heading, in the columns of docs/LISTING.md."""
    wide, counted = FIRST.wide(), COUNTED.wide()
    heading, first, *rest = wide.listing()
    narrow = FIRST.listing()
    front = "00000000 4110 0005 "
    assert first.startswith(front)

    def shown(name: str, lines: list[str], marks: str) -> Case:
        """A job whose listing has these lines, and the marks of its last ones."""
        places = len(marks.replace(" ", ""))
        return runs(name, Program(FIRST.code, lines), TASK, FIRST_RESULT, marks, places)

    def refused(name: str, new: str, why: str, line: str = front) -> Case:
        """A job whose first instruction line begins otherwise."""
        lines = [heading, new + first[len(line) :], *rest]
        return Case(name, ["run"], FIRST.job(listing=lines), f"BAD LISTING M LINE 2 {why}\n".encode(), 12)

    return [
        shown("a wide listing", wide.listing(), ":::"),
        shown("a wide listing with print control characters", [f"1{heading}", *(f" {it}" for it in (first, *rest))], ":::"),
        shown("a wide listing in the other case", [heading.upper(), *(it.lower() for it in (first, *rest))], ":::"),
        shown("a wide heading, then a narrow one and wide lines", [heading, HEADING, first, *rest], ":::"),
        shown("a wide heading, then a narrow one and narrow lines", [heading, *narrow], "   "),
        shown("a narrow heading, then a wide one and narrow lines", [HEADING, WIDE_HEADING, *narrow[1:]], ":::"),
        shown("a narrow heading, then a wide one and wide lines", [HEADING, *wide.listing()], "   "),
        shown("wide lines before the heading", [first, *rest, *wide.listing()], ":::"),
        shown("a location of seven digits", [heading, f"0000000 {first[8:]}", *rest], " ::"),
        shown("a location without a blank behind it", [heading, f"00000000_{first[9:]}", *rest], " ::"),
        shown("a byte behind the columns of object code", [heading, f"{first[:25]}_{first[26:]}", *rest], ":::"),
        shown("no blank before the source", [heading, f"{first[:44]}123456{first[50:]}", *rest], ":::"),
        shown("a wide comment", [heading, f"{first[:50]}* {first[52:]}", *rest], " ::"),
        shown("a wide line with a name", [heading, f"{first[:50]}NAME LA", *rest], ":::"),
        shown("an operation that begins a name", [heading, f"{first[:50]}LA NAME", *rest], " ::"),
        refused("a wide location past the module", "01000000 4110 0005 ", "OUTSIDE"),
        refused("the last wide location", "FFFFFFFE 4110 0005 ", "OUTSIDE"),
        refused("a wide location that is odd", "00000001 4110 0005 ", "ODD"),
        refused("half an instruction in a wide listing", "00000000 4110      ", "OBJECT"),
        refused("wide object code a column late", "00000000  4110 0005", "OBJECT"),
        refused("a byte in the last column of wide object code", first[:24] + "_", "OBJECT", first[:25]),
        Case("marks of a wide listing", ["marks", "S"], counted.job(task("REG 1 00000001")), FELL),
        Case("show of a wide listing", ["show", "S"], counted.job() + BOTH, counted.shown("&:", 3)),
        Case("other bytes in a wide listing", ["run"], FIRST.job(listing=[heading, first.replace("0005", "0006"), *rest]),
             b"MISMATCH M LINE 2 LOC 000000 LISTING 41100006 MODULE 41100005\n", 3),
    ]


def endings() -> list[Case]:
    """Each way that a task ends but RETURNED, which the others show."""
    put = Program.of("0 0A01 SVC, 2 0A01 SVC, 4 07FE BR")
    letters = bytes.fromhex("C1C2C3C4")
    touched = Program.of("0 41104120 LA, 4 07FE BR")
    own = Result("BADSVC 255", 1, entry=0)
    return [
        runs("code 5", Program.of("0 D203000E0000 MVC, 6 07FE BR"), TASK, Result("ABEND 5", 1), ":^", 2, "000006-000007"),
        runs("code 4", Program.of("0 5010F000 ST, 4 07FE BR"), TASK, Result("ABEND 4", 1), ":^", 2, "000004-000005"),
        runs("code 9", Program.of("0 1D24 DR, 2 07FE BR"), TASK, Result("ABEND 9", 1), ":^", 2, "000002-000003"),
        runs("EXIT", Program.of("0 0A03 SVC, 2 07FE BR"), TASK, Result("EXIT", 1), ":^", 2, "000002-000003"),
        runs("OUTFULL", put, task("REG 0 00000004 / DATA 0 C1C2C3C4", "TASK A 100000 16 100 4\n"),
             Result("OUTFULL", 2, 0, {0: 4}, letters), "::^", 3, "000004-000005"),
        runs("a budget that suffices", FIRST, "TASK A 100000 16 3 0\n", FIRST_RESULT, ":::", 3),
        runs("SPENT", FIRST, "TASK A 100000 16 2 0\n",
             replace(FIRST_RESULT, ending="SPENT", count=2), "::^", 3, "000006-000007"),
        runs("TOUCHED", touched, "TASK A 100002 16 100 0\n",
             Result("TOUCHED 100004", 1, entry=0x100002), "^^", 2, "000000-000005"),
        runs("BADSVC", FIRST, task("DATA 0 0AFF", "TASK A 000000 16 100 0\n"), own, "^^^", 3, "000000-000007"),
    ]


def controlled() -> list[Case]:
    """Sessions that a task opens and closes: through the module meanwhile, past it, and never opened."""

    def job(private: str, cards: str = "REG 1 00100000 / REG 13 00FFFFFE / ", before: str = "") -> bytes:
        """The first program under a session of the task C, whose private storage has these bytes."""
        text = FIRST.job(before + task(f"{cards}DATA 0 {private}", "TASK C 000000 32 100 0\n"))
        return text.replace(b"SESSION S M\n", b"SESSION S BY C M\n")

    through, past, never = job("0A0445E010000A0507FD"), job("0A0445E010080A0507FD"), job("07FE", "", TASK)
    link, none = {13: 0xFFFFFE, 14: 0x80000006}, "000000-000007"
    ended = Result("RETURNED", 7, 2, {1: 10, **link}, name="C", entry=0)
    astray = Result("ABEND 5", 3, 0, {1: 0x100000, **link}, name="C", entry=0)
    returned = Result("RETURNED", 1, 0, name="C", entry=0)
    every, nothing = FIRST.marks_file(1, 1, 1), FIRST.marks_file(0, 0, 0)
    return [
        Case("a session that its task opens and closes", ["run"], through, FIRST.report([ended], ":::", 3)),
        Case("a session that its task opens and goes past", ["run"], past, FIRST.report([astray], "^^^", 3, none)),
        Case("a session that is never opened", ["run"], never, FIRST.report([FIRST_RESULT, returned], "^^^", 3, none)),
        Case("marks of a session that its task opens and closes", ["marks", "S"], through, every),
        Case("marks of a session that its task opens and goes past", ["marks", "S"], past, nothing),
        Case("marks of a session that is never opened", ["marks", "S"], never, nothing),
        Case("combine of these", ["combine"], nothing + every, FIRST.marks_file(1, 1, 1, runs=2)),
        Case("show of these", ["show", "S"], never + FIRST.marks_file(1, 1, 1, runs=2), FIRST.shown(":::", 3)),
        Case("a controller that is missing", ["run"], through.replace(b"BY C", b"BY D"), b"BAD JOB LINE 15\n", 2),
        Case("two controllers of one module", ["marks", "S"], through.replace(b"TASK C", b"SESSION T BY D M\nTASK C"), b"BAD JOB LINE 11\n", 2),
    ]


def exits() -> list[Case]:
    """exits: tasks that name an exit, and one that doesn't; and what is refused as of `run`."""
    divide = Program.of("0 4110F00A LA, 4 0A06 SVC, 6 1D24 DR, 8 07FE BR, A 1850 LR, C 07FE BR")
    add = Program.of("0 4110F00C LA, 4 0A06 SVC, 6 0420 SPM, 8 1A34 AR, A 1822 LR, C 07FE BR")
    cards = task("REG 2 08000000 / REG 3 7FFFFFFF / REG 4 00000001")
    divided = Result("RETURNED", 5, 0, {0: 9, 1: 0x100006, 5: 9})
    added = Result("RETURNED", 5, 3, {0: 8, 1: 0x10000A, 2: 0x08000000, 3: 0x80000000, 4: 1})
    report = divide.report([divided], ":::^::", 6, "000008-000009")
    return [
        Case("an exit for a division that doesn't fit", ["exits"], divide.job(), report),
        Case("an exit for an overflow", ["exits"], add.job(cards), add.report([added], "::::^:", 6, "00000A-00000B")),
        runs("no exit under run", divide, TASK, Result("BADSVC 6", 2, 0, {1: 0x10000A}), "::^^^^", 6, "000006-00000D"),
        Case("exits of a task that has none", ["exits"], FIRST.job(), FIRST_REPORT),
        Case("exits by the script", ["exits"], divide.job(), report, command=COVERAGE),
        *where_interrupted(),
        Case("exits with a name", ["exits", "S"], divide.job(), USAGE, 1),
        Case("a line behind the job of exits", ["exits"], FIRST.job() + b"\n", b"BAD JOB LINE 13\n", 2),
        Case("a job's end that is missing, under exits", ["exits"], FIRST.job().removesuffix(b"ENDJOB\n"), b"BAD JOB LINE 12\n", 2),
    ]


def where_interrupted() -> list[Case]:
    """exits: docs/MACHINE.md's module in front of a program, which tells where that is interrupted"""
    with open(f"{TOP}/docs/MACHINE.md", encoding="utf-8") as file:
        cards = "".join(f"{it}\n" for it in re.findall(r"^    ((?:MODULE|TEXT) .*)$", file.read(), re.M))
    program = Program.of("0 1823 LR, 2 58402000 L, 6 07FE BR")

    def case(name: str, address: int, ending: str, count: int, registers: dict[int, int], marks: str, *ranges: str) -> Case:
        own = {2: address, 3: address, 11: 0x40, 12: 0x100000, 15: 0x100000, **registers}
        values = {3: address, 11: 0x40, 12: 0x100000}
        tasks = task(" / ".join(f"REG {at} {value:08X}" for at, value in values.items()), "TASK A 180000 16 100 0\n")
        job = program.job(tasks).replace(b"PHASE P\n", f"{cards}PHASE P\n".encode())
        return Case(name, ["exits"], job, program.report([Result(ending, count, 0, own)], marks, 3, *ranges))

    return [
        case("an interruption behind the module that tells where", 0xF00000, "EXIT", 8, {0: 5, 1: 0x100002}, "::^", "000006-000007"),
        case("none behind that module", 0, "RETURNED", 8, {1: 0x40}, ":::"),
    ]


def early() -> list[Case]:
    """early: sessions that their task closes, alone in its phase, and that it doesn't; and what is refused as of `run`."""
    def job(private: str, tasks: str = "", budget: int = 100) -> bytes:
        text = FIRST.job(tasks + task(f"DATA 0 {private}", f"TASK C 000000 16 {budget} 0\n"))
        return text.replace(b"SESSION S M\n", b"SESSION S BY C M\n")

    def report(results: list[Result], line: str) -> bytes:
        return FIRST.report(results, "^^^", 3, "000000-000007").replace(b"END\n", f"{line}\nEND\n".encode())

    def result(ending: str, count: int) -> Result:
        return Result(ending, count, name="C", entry=0)

    closed, opened, never = job("0A040A0507FE"), job("0A0407FE"), job("07FE", TASK)
    drained = report([result("RETURNED", 3)], "DRAINED COUNT 2")
    return [
        Case("early", ["early"], closed, drained),
        Case("early of a session that stays open", ["early"], opened, report([result("RETURNED", 2)], "NOT DRAINED")),
        Case("early of a session that is never opened", ["early"], never, report([FIRST_RESULT, result("RETURNED", 1)], "NOT DRAINED")),
        Case("early of a budget that ends with the session", ["early"], job("0A040A0507FE", budget=2), report([result("SPENT", 2)], "DRAINED COUNT 2")),
        Case("early of a session without a controller", ["early"], FIRST.job(), FIRST_REPORT),
        Case("early by the script", ["early"], closed, drained, command=COVERAGE),
        Case("early with a name", ["early", "S"], closed, USAGE, 1),
        Case("a job's end that is missing, under early", ["early"], closed.removesuffix(b"ENDJOB\n"), b"BAD JOB LINE 13\n", 2),
        Case("a line behind the job of early", ["early"], closed + b"\n", b"BAD JOB LINE 14\n", 2),
        Case("no memory, of early", ["early"], large_job(), b"NO MEMORY\n", 7, before="ulimit -v 40000"),
    ]


def counts() -> list[Case]:
    """count: how often each fact was met, by one task and by two, and as the subject of EX; and what is refused."""
    branch = Program.of("0 1211 LTR, 2 4780F008 BE, 6 1822 LR, 8 07FE BR")
    made = Program.of("0 4700F00A BC, 4 4410F000 EX, 8 1822 LR, A 07FE BR")
    both = TASK + task("REG 1 00000001", "TASK B 100000 16 100 0\n")
    results = [Result("RETURNED", 3, 0), Result("RETURNED", 4, 2, {1: 1}, name="B")]
    count, counted = COUNTED.job(task("REG 1 00000003")), COUNTED.counted([Result("RETURNED", 4, 0)], (2, 1), (1,))
    controlled = FIRST.job(TASK + task("DATA 0 0A040A050A040A0507FE", "TASK C 000000 16 100 0\n"))
    controlled = controlled.replace(b"SESSION S M\n", b"SESSION S1 BY C M\nSESSION S2 BY C M\n")
    mismatch = controlled.replace(b"000000 4110 0005", b"000000 4110 0006")
    return [
        Case("count", ["count"], count, counted),
        Case("count of two tasks", ["count"], branch.job(both), branch.counted(results, (2,), (1, 1), (1,), (2,))),
        Case("count of a subject of EX", ["count"], made.job(task("REG 1 000000F0")),
             made.counted([Result("RETURNED", 3, 0, {1: 0xF0})], (2,), (1,), (0,), (1,))),
        Case("count of no task", ["count"], COUNTED.job(""), COUNTED.counted([], (0, 0), (0,))),
        Case("count by the script", ["count"], count, counted, command=COVERAGE),
        Case("count with a name", ["count", "S"], count, USAGE, 1),
        Case("count of sessions with a controller", ["count"], controlled, b"CONTROLLED S1\n", 14),
        Case("count of these, of a listing that doesn't match", ["count"], mismatch, b"CONTROLLED S1\n", 14),
        Case("a line behind the job of count", ["count"], count + b"\n", b"BAD JOB LINE 13\n", 2),
        Case("INPUT, of count", ["count"], count + bytes(16_777_216), b"TOO LARGE INPUT\n", 4),
        Case("a folder as input, of count", ["count"], b"", b"READ FAULT\n", 5, redirect="</"),
        Case("no memory, of count", ["count"], large_job(), b"NO MEMORY\n", 7, before="ulimit -v 40000"),
    ]


def commands() -> list[Case]:
    """table and replay, and the words that are none."""
    table = b"COVERAGE TABLE\nMODULE M PLACES 2\nPLACE 000000 4 C 4610\nPLACE 000004 2 S 07FE\nEND\n"
    both = TASK + "TASK B 100000 16 100 0\n"
    items = "FETCH A,FETCH B,MARK A,LIFT A,DO A,MARK B,LIFT B,DO B,GO A,GO B,ENDSCHED".replace(",", "\n") + "\n"
    events = [
        "COVERAGE REPLAY", "EVENT 1 FETCH A TAG 1 HALF 0AFF", "EVENT 2 FETCH B TAG 1 HALF 0AFF", "EVENT 3 MARK A OLD -",
        "EVENT 4 LIFT A TAKEN", "EVENT 5 DO A", "EVENT 6 MARK B OLD R", "EVENT 7 LIFT B NOT TAKEN", "EVENT 8 DO B",
        "EVENT 9 GO A", "EVENT 10 GO B",
    ]
    replayed = FIRST.report([FIRST_RESULT, replace(FIRST_RESULT, name="B")], ":::", 3, title="\n".join(events))
    job = FIRST.job()
    return [
        Case("table", ["table"], COUNTED.job(), table),
        Case("replay", ["replay"], FIRST.job(both, more=items), replayed),
        Case("replay of a session that its task opens and closes", ["replay"], OPENED_JOB, OPENED_REPLAY),
        Case("run by the script", ["run"], job, FIRST_REPORT, command=COVERAGE),
        Case("table by the script", ["table"], COUNTED.job(), table, command=COVERAGE),
        Case("replay by the script", ["replay"], FIRST.job(both, more=items), replayed, command=COVERAGE),
        Case("no words", [], job, USAGE, 1),
        Case("an unknown word", ["runs"], job, USAGE, 1),
        Case("a word in capitals", ["RUN"], job, USAGE, 1),
        Case("a word too many", ["run", "now"], job, USAGE, 1),
        Case("many words, and a long one", ["run"] * 1000 + ["S" * 100_000], job, USAGE, 1),
        Case("an empty word", [""], job, USAGE, 1),
        Case("a word that is no UTF-8", ["\udcff"], job, USAGE, 1),
        Case("--help is no word of the program", ["--help"], job, USAGE, 1),
        Case("an unknown word by the script", ["runs"], job, USAGE, 1, "the words are none of its commands", command=COVERAGE),
        Case("an unknown word, nothing read", ["runs"], b"", USAGE, 1, redirect="</"),
    ]


def trials() -> list[Case]:
    """trial: what a model of the generated job comes to, and the words that are none."""
    eight = summary(7, 8)
    usage = [
        ["trial"], ["trial", "7"], ["trial", "7", "8", "9"], ["trials", "7", "8"], ["trial", "8", "7", ""],
        ["trial", "7", "0"], ["trial", "7", "65"], ["trial", "7", "08"], ["trial", "7", "+8"], ["trial", "7", "8 "], ["trial", "7", ""],
        ["trial", "07", "8"], ["trial", "00", "8"], ["trial", "-1", "8"], ["trial", "4294967296", "8"], ["trial", "S", "8"],
    ]
    return [
        Case("trial", ["trial", "7", "8"], b"", eight),
        Case("trial once more, and bytes that are left", ["trial", "7", "8"], b"no job\n", eight),
        Case("trial of number 0", ["trial", "0", "1"], b"", summary(0, 1)),
        Case("trial of the last number", ["trial", "4294967295", "2"], b"", summary(4294967295, 2)),
        Case("trial, nothing read", ["trial", "0", "1"], b"", summary(0, 1), redirect="</"),
        Case("trial by the script", ["trial", "7", "8"], b"", eight, command=COVERAGE),
        Case("a full output, of trial", ["trial", "0", "1"], b"", b"", 6, redirect=">/dev/full"),
        *[Case(" ".join(["no words of trial:", *it]), it, b"", USAGE, 1) for it in usage],
    ]


def refusals() -> list[Case]:
    """Each refusal of a job, of its listing and of its schedule."""
    job, listing = FIRST.job(), FIRST.listing()
    without_end = job[: -len(b"ENDJOB\n")]

    def of_listing(name: str, line: bytes, status: int, program: Program = FIRST, lines: list[str] | None = None) -> Case:
        return Case(name, ["run"], program.job(listing=lines), line, status)

    def changed(at: int, old: str, new: str) -> list[str]:
        return [it.replace(old, new) if number == at else it for number, it in enumerate(listing, 1)]

    def of_limit(name: str, old: bytes, new: bytes, line: bytes) -> Case:
        assert job.count(old) == 1, name
        return Case(name, ["run"], job.replace(old, new), line, 4)

    mismatch = b"MISMATCH M LINE 2 LOC 000000 LISTING 41100006 MODULE 41100005\n"
    schedule = b"BAD SCHEDULE LINE %d\n"
    phases = b"COVERJOB 1\n" + b"".join(b"PHASE P%d\n" % it for it in range(17)) + b"ENDJOB\n"
    tasks = b"COVERJOB 1\nPHASE P\n" + b"".join(b"TASK T%d 100000 0 1 0\n" % it for it in range(65)) + b"ENDJOB\n"
    return [
        Case("no job", ["run"], b"", b"BAD JOB LINE 1\n", 2),
        Case("a job without an end", ["run"], without_end, b"BAD JOB LINE 12\n", 2),
        Case("a job without an end, of table", ["table"], without_end, b"BAD JOB LINE 12\n", 2),
        Case("a line behind the job", ["run"], job + b"GO A\n", b"BAD JOB LINE 13\n", 2),
        Case("a line behind the job of table", ["table"], job + b"GO A\n", b"BAD JOB LINE 13\n", 2),
        Case("a card in small letters", ["run"], job.replace(b"PHASE", b"phase"), b"BAD JOB LINE 9\n", 2),
        Case("two blanks", ["run"], job.replace(b"PHASE P", b"PHASE  P"), b"BAD JOB LINE 9\n", 2),
        of_listing("other bytes", mismatch, 3, lines=changed(2, "0005", "0006")),
        of_listing("the own SVC", b"OWN SVC M LINE 2\n", 8, Program.of("0 0AFF SVC, 2 07FE BR")),
        of_listing("no heading", b"BAD LISTING M LINE 0 HEADING\n", 12, lines=listing[1:]),
        of_listing("an empty listing", b"BAD LISTING M LINE 0 HEADING\n", 12, lines=[]),
        of_listing("half an instruction", b"BAD LISTING M LINE 2 OBJECT\n", 12, lines=changed(2, "4110 0005", "4110     ")),
        of_listing("an odd location", b"BAD LISTING M LINE 3 ODD\n", 12, lines=changed(3, "000004", "000005")),
        of_listing("a location past the module", b"BAD LISTING M LINE 4 OUTSIDE\n", 12, lines=changed(4, "000006", "000008")),
        of_listing("instructions that overlap", b"BAD LISTING M LINE 3 OVERLAP\n", 12, lines=changed(3, "000004", "000002")),
        of_limit("PRIVATE", b" 16 100 0", b" 1048577 100 0", b"TOO LARGE PRIVATE LINE 11\n"),
        of_limit("BUDGET", b" 16 100 0", b" 16 50000001 0", b"TOO LARGE BUDGET LINE 11\n"),
        of_limit("ROOM", b" 16 100 0", b" 16 100 65537", b"TOO LARGE ROOM LINE 11\n"),
        of_limit("SIZE", b"M 100000 8", b"M 100000 262146", b"TOO LARGE SIZE LINE 2\n"),
        of_limit("LINE", b"          LA", b"          LA" + b" " * 100, b"TOO LARGE LINE LINE 6\n"),
        Case("MODULES", ["run"], modules(17), b"TOO LARGE MODULES LINE 34\n", 4),
        Case("PHASES", ["run"], phases, b"TOO LARGE PHASES LINE 18\n", 4),
        Case("TASKS", ["run"], tasks, b"TOO LARGE TASKS LINE 67\n", 4),
        Case("INPUT", ["run"], b"\n" * 16_777_217, b"TOO LARGE INPUT\n", 4),
        Case("an event that isn't possible", ["replay"], FIRST.job(more="MARK A\n"), schedule % 13, 9),
        Case("a schedule without an end", ["replay"], FIRST.job(more="GO A\n"), schedule % 14, 9),
        Case("a schedule of no phase", ["replay"], b"COVERJOB 1\nENDJOB\nENDSCHED\n", schedule % 0, 9),
        Case("a schedule of an unknown task", ["replay"], FIRST.job(more="GO B\nENDSCHED\n"), schedule % 13, 9),
    ]


def modules(count: int) -> bytes:
    """A job of so many modules of 8 bytes."""
    cards = [f"MODULE M{it} {0x100000 + 8 * it:06X} 8\nTEXT 0000000000000000\n" for it in range(count)]
    return f"COVERJOB 1\n{''.join(cards)}ENDJOB\n".encode()


# Words of each command that reads.
READING = (
    "run", "services run", "early", "exits", "count", "marks S", "table", "ends", "replay", "combine", "show S", "prove S", "verify S",
)


def streams() -> list[Case]:
    """Faults of standard input and output."""
    job = FIRST.job()
    return [
        *(Case(f"a folder as input and a full output, of {it}", it.split(), b"", b"", 6, redirect="</ >/dev/full") for it in READING),
        Case("a folder as input and a full output, of no command", [], b"", b"", 6, redirect="</ >/dev/full"),
        Case("a folder as input", ["run"], b"", b"READ FAULT\n", 5, redirect="</"),
        Case("a folder as input, of exits", ["exits"], b"", b"READ FAULT\n", 5, redirect="</"),
        Case("a folder as input, of early", ["early"], b"", b"READ FAULT\n", 5, redirect="</"),
        Case("a folder as input, of table", ["table"], b"", b"READ FAULT\n", 5, redirect="</"),
        Case("a folder as input, of replay", ["replay"], b"", b"READ FAULT\n", 5, redirect="</"),
        Case("a folder as input, of marks", ["marks", "S"], b"", b"READ FAULT\n", 5, redirect="</"),
        Case("a folder as input, of combine", ["combine"], b"", b"READ FAULT\n", 5, redirect="</"),
        Case("a folder as input, of show", ["show", "S"], b"", b"READ FAULT\n", 5, redirect="</"),
        Case("a folder as input, of prove", ["prove", "S"], b"", b"READ FAULT\n", 5, redirect="</"),
        Case("a folder as input, of verify", ["verify", "S"], b"", b"READ FAULT\n", 5, redirect="</"),
        Case("a full output", ["run"], job, b"", 6, redirect=">/dev/full"),
        Case("a full output, of verify", ["verify", "X"], job, b"", 6, redirect=">/dev/full"),
        Case("a full output for a refusal", ["run"], b"", b"", 6, redirect=">/dev/full"),
        Case("a full output for the usage", [], b"", b"", 6, redirect=">/dev/full"),
        Case("a full output by the script", ["run"], job, b"", 6, "standard output could not be written", ">/dev/full", command=COVERAGE),
        Case("a closed input", ["run"], b"", b"READ FAULT\n", 5, redirect="<&-"),
        Case("a closed output", ["run"], job, b"", 6, redirect=">&-"),
        Case("no memory", ["run"], large_job(), b"NO MEMORY\n", 7, before="ulimit -v 40000"),
        Case("a folder as input by the script", ["run"], b"", b"READ FAULT\n", 5, "standard input is a folder", "</", command=COVERAGE),
    ]


def large_job() -> bytes:
    """A job of 64 tasks with the most private storage: 64 MiB."""
    tasks = "".join(f"TASK T{it} 000000 1048576 1 0\n" for it in range(64))
    return f"COVERJOB 1\nPHASE P\n{tasks}ENDJOB\n".encode()


def broken_pipe() -> None:
    """an output that nobody reads"""
    read_end, write_end = os.pipe()
    os.close(read_end)
    ran = subprocess.run([PROGRAM, "run"], input=FIRST.job(), stdout=write_end, stderr=subprocess.PIPE, check=False)
    os.close(write_end)
    equal((ran.returncode, ran.stderr), (6, b""))


def counts_of_orders() -> None:
    """examples: the counts of the orders' loop, and a page of them behind the report"""
    with open(f"{TOP}/examples/orders.job", "rb") as file:
        job = file.read()
    counts = well(run([PROGRAM, "count"], job)).output
    lines = counts.decode().splitlines()
    # Two tasks with two records each, of which one has a bad number and one no name: the loop's end, the test of a length, that of a name
    # and the move under EX for the other two, and what only a short record reaches.
    for line in ("COUNT 00002E 2 4", "COUNT 000036 0 4", "COUNT 00005A 1 2", "COUNT 000106 2", "COUNT 0000E2 0"):
        assert line in lines, line
    report = well(run([PROGRAM, "run"], job)).output
    page = well(run([COVERAGE, "page"], report + counts)).output.decode()
    assert re.search(r"\n&amp; 2 4 00002E 4780 C08C ", page) and re.search(r">V 0 4 000036 4740 C0E0 ", page), page[:500]


CHECKS = [broken_pipe, counts_of_orders]


def cases() -> list[Case]:
    """All of the program's."""
    return [*instructions(), *wide_listings(), *endings(), *controlled(), *exits(), *early(), *counts(), *commands(), *trials(), *refusals(), *streams()]
