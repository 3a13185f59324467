"""What page and lcov read: reports of each kind, counts and ends behind them, and what is none."""
from __future__ import annotations

import os

from fixtures.harness import coverage, equal, folder, refused, well
from fixtures.jobs import COUNTED, FIRST, FIRST_REPORT, FIRST_RESULT, HEADING, WIDE_HEADING, Program, Result

RETURNED = [Result("RETURNED", 2)]
LF = b"\n"

# A listing with labels of each kind: location, code, mark and source. A place's label is its own name, a section's, or
# one of DS and EQU at it; none is a comment's, a constant's before it, or a field's of a dummy section, of which the second
# ends without a line. MAIN comes again as a section that is continued, and the last line is a generated one.
LABELLED_ROWS = """
000000            | MAIN     CSECT
000000 1211     : |          LTR   1,1
000002 4780F010 V |          BE    LATER
000006 1822     ^ |          LR    2,2
                  | *FALSE   IS    A COMMENT
000008 1833     : | NEAR     LR    3,3
00000A 0700     : |          NOPR  0
00000C C1C2       | DATA     DC    C'AB'
00000E 1844     ^ |          LR    4,4
000010            | LATER    DS    0H
000010 4780F000 > |          BE    MAIN
                  | HERE     EQU   *
000014 1855     ^ |          LR    5,5
000000            | AREA     DSECT
000016            | FIELD    DS    F
000016            | MAIN     CSECT
000016 1866     : |          LR    6,6
000018            | MORE     DSECT
000018            | OTHER    DS    F
000018 1877     ^ |          LR    7,7
00001A 07FE     : |+GEN      BR    14
"""
LABELLED_RANGES = ("000006-000007", "00000E-00000F", "000014-000015", "000018-000019")
# What a CNOP aligns has the label before it, or its own, but none where something else lies between.
ALIGNED_ROWS = """
000000 1211     : | MAIN     LTR   1,1
000002            | OVER     DS    0H
000002 0700       |+         CNOP  0,4
000004 1822     ^ |+         LR    2,2
000006 1833     : |          LR    3,3
000008 1844     ^ | NEXT     LR    4,4
00000A            | ABOVE    EQU   *
00000A            |+         DS    0H
00000A 07000700   | ALIGNED  CNOP  6,8
00000E 1855     : |          LR    5,5
000010 1866     ^ |          LR    6,6
000012 C1C2       | DATA     DC    C'AB'
000014            |          CNOP  0,4
000014 1877     ^ |          LR    7,7
000016            | ZERO     DS    0H
000016            |          CNOP  2,4
000016 07FE     ^ |          BR    14
"""
ALIGNED_RANGES = ("000004-000005", "000008-000009", "000010-000017")


def labelled(is_wide: bool = False, before: str = "") -> bytes:
    """The report over the first of these listings, of either width; with a print control character before each line."""
    return report_over(LABELLED_ROWS, 13, LABELLED_RANGES, is_wide, before)


def aligned(is_wide: bool = False, before: str = "") -> bytes:
    """The report over the second one, likewise."""
    return report_over(ALIGNED_ROWS, 8, ALIGNED_RANGES, is_wide, before)


def report_over(rows: str, facts: int, ranges: tuple[str, ...], is_wide: bool, before: str) -> bytes:
    """The report over the listing that rows tell, with so many facts that there can be."""
    lines, marks, code = [before + (WIDE_HEADING if is_wide else HEADING)], " ", []
    for number, row in enumerate(rows.strip("\n").split("\n"), 1):
        at, digits, mark, source = row[:6], row[7:15].strip(), row[16], row[19:]
        location = at.rjust(8, "0" if at.strip() else " ") if is_wide else at
        groups = " ".join(digits[it : it + 4] for it in range(0, len(digits), 4))
        lines.append(f"{before}{location} {groups:<{35 if is_wide else 27}}{number:>5}{source}")
        marks += mark
        code += [(int(at, 16), digits, source.split()[-2])] if mark != " " else []
    return Program(code, lines).report(RETURNED, marks, facts, *ranges)


MARKED = COUNTED.report(RETURNED, "V:", 3)
# The counts of this report.
COUNTS = COUNTED.counted(RETURNED, (0, 1), (1,))
NOT_RUN = COUNTED.report([], "^^", 3, "000000-000005")
WIDE_REPORT = FIRST.wide().report([FIRST_RESULT], ":::", 3)
# What early writes behind a session's part.
DRAINED, NOT_DRAINED = (FIRST_REPORT.replace(b"END\n", line + b"\nEND\n") for line in (b"DRAINED COUNT 1234", b"NOT DRAINED"))
# What a line of an event can tell, in no order that a schedule has.
EVENTS = [
    "FETCH A TAG 0 HALF 4110", "FETCH A TAG 32 HALF 0AFF", *(f"MARK A OLD {it}" for it in ("-", "R", "W", "S", "WS")),
    "LIFT A TAKEN", "LIFT A NOT TAKEN", "PLANT A S 100000", "CLOSE A S 100000", "DO A", "GO A",
]
# What is none, the last two by their number.
NO_EVENTS = [
    "1 STEP A", "1 GO", "1 GO a", "1 DO A S", "1 FETCH A TAG 1", "1 FETCH A TAG 1 HALF 0aff", "1 MARK A OLD RW", "1 LIFT A",
    "1 PLANT A S 10000", "1 CLOSE A 100000", "0 GO A", "2 GO A",
]


def replayed(*lines: str) -> bytes:
    """The report of a schedule with these lines of events."""
    return FIRST_REPORT.replace(b"COVERAGE REPORT", "\n".join(["COVERAGE REPLAY", *lines]).encode())


RUNNING = replayed().replace(b"RETURNED", b"RUNNING")


# Where tasks of the first program ended: at the return address, where the budget ended them, inside an instruction, in
# private storage, and where nothing is. What the report has of each, and what stands behind its count in `ends`.
ENDINGS = [
    (FIRST_RESULT, "AT FFFFFE"),
    (Result("SPENT", 1, name="B"), "AT 100004 M 000004"),
    (Result("ABEND 6", 1, name="C", entry=0x100007), "AT 100007 M 000007"),
    (Result("ABEND 1", 1, name="D", entry=0xE), "AT 00000E PRIVATE"),
    (Result("ABEND 5", 1, name="E", entry=0x100008), "AT 100008"),
]


def ends(*unlisted: str, tasks: list[tuple[Result, str]] = ENDINGS) -> bytes:
    """What `ends` writes of these tasks, and of these modules."""
    lines = [f"TASK {it.name} {it.ending} COUNT {it.count} {at}" for it, at in tasks]
    return "\n".join(["COVERAGE ENDS", *lines, *(f"UNLISTED {it}" for it in unlisted), "END", ""]).encode()


ENDED, ENDS = FIRST.report([it for it, _ in ENDINGS], ":::", 3), ends("M 0")
ONE_END = ends("M 0", tasks=ENDINGS[:1])
# What is none of ENDED's: the line of the ends at which it is refused, and why.
BAD_ENDS = [
    (ends("M 0", tasks=ENDINGS[:-1]), 6, "'UNLISTED M 0', and the report has task E ABEND 5 COUNT 1"),
    (
        ends("M 0", tasks=[*ENDINGS, (Result("SPENT", 1, name="F"), "AT FFFFFE")]), 7,
        "'TASK F SPENT COUNT 1 AT FFFFFE', and the report has no further task",
    ),
    (
        ends("M 0", tasks=[ENDINGS[1], ENDINGS[0], *ENDINGS[2:]]), 2,
        "task B SPENT COUNT 1, and the report has task A RETURNED COUNT 3",
    ),
    *[(ENDS.replace(b"RETURNED COUNT 3", it.encode()), 2, f"task A {it}, and the report has task A RETURNED COUNT 3") for it in (
        "EXIT COUNT 3", "RUNNING COUNT 3", "RETURNED COUNT 4",
    )],
    (ENDS.replace(b"C ABEND 6", b"C ABEND 1"), 4, "task C ABEND 1 COUNT 1, and the report has task C ABEND 6 COUNT 1"),
    (ends(), 7, "no line of module M, which has a listing"),
    (ends("N 0"), 8, "no line of module M, which has a listing"),
    (ends("M 0", "N 0", "M 0"), 9, "module M a second time"),
    *[(ENDS.replace(b"AT 100004 M 000004", it.encode()), 3, "and the report has task B SPENT COUNT 1") for it in (
        "AT 10004 M 000004", "AT 100004 M", "AT 100004 M 4", "AT 100004 000004", "AT 100004 PRIVATE M",
        "AT 100004 M 00000g", "",
    )],
    (ENDS.replace(b"UNLISTED M 0", b"UNLISTED M -1"), 7, "no line of ends: 'UNLISTED M -1'"),
    (ENDS.replace(b"UNLISTED M 0", b"UNLISTED M 0\nUNLISTED"), 8, "no line of ends: 'UNLISTED'"),
    (ENDS[:-4], 8, "ends early"),
    (ENDS + b"more\n", 9, "behind END: 'more'"),
    (ENDS + ENDS, 9, "behind END: 'COVERAGE ENDS'"),
]
# A session's module without a listing.
NO_LISTING = FIRST_REPORT[: FIRST_REPORT.index(b"MODULE ")] + b"MODULE M PLACES 0 EXECUTED 0 FACTS 0 OF 0\nEND\n"
BAD_REPORTS: list[tuple[bytes, str, str] | tuple[bytes, str, str, str]] = [
    (ENDS, "line 1", "behind the report of its job"),
    *[(ENDED + it, f"line {ENDED.count(LF) + at}", text) for it, at, text in BAD_ENDS],
    (COUNTED.shown("V:", 3) + ENDS, "line 8", "behind END: 'COVERAGE ENDS'"),
    (replayed() + ONE_END, "line 13", "behind END: 'COVERAGE ENDS'"),
    (NO_LISTING + ONE_END, "line 11", "a line of module M, which has no listing in the report"),
    (MARKED + COUNTED.counted(RETURNED, (1, 1), (1,)), "line 12", "location 000000 of module M is another there"),
    (MARKED + COUNTED.counted([Result("RETURNED", 3)], (0, 1), (1,)), "line 12", "task A is another there"),
    (
        MARKED + COUNTED.counted([*RETURNED, Result("SPENT", 1, name="B")], (0, 1), (1,)), "line 12",
        "task B, and the report has session S",
    ),
    (MARKED + COUNTED.counted([], (0, 1), (1,)), "line 12", "session S, and the report has task A"),
    (MARKED + COUNTS.replace(b"SESSION S", b"SESSION T"), "line 12", "session T, and the report has session S"),
    *[(MARKED + COUNTS.replace(it, by), "line 12", f"{told}, and the report has {has}") for it, by, told, has in (
        (b"MODULE M", b"MODULE N", "module N in session S", "module M in session S"),
        (b"END", b"SESSION T PHASE P\nEND", "session T", "nothing more"),
    )],
    (MARKED + COUNTS + COUNTS, "line 22", "behind END: 'COVERAGE COUNT'"),
    (b"", "line 1", "nothing"),
    # What other commands write.
    (b"COVERAGE TABLE\nMODULE M PLACES 0\nEND\n", "line 1", "no report"),
    (b"COVERAGE TRIAL 7 TASKS 8\n", "line 1", "no report"),
    (b"VERIFIED S FACTS 3\n", "line 1", "no report"),
    (FIRST.marks_file(1, 1, 1), "line 1", "no report", "a marks file: ./coverage show makes a report of it behind its job"),
    (FIRST.job(), "line 1", "no report", "'COVERJOB 1', a job: ./coverage run makes the report"),
    (b"BAD JOB LINE 9\n", "line 1", "no report", "'BAD JOB LINE 9', a refusal, which has come in place of a report"),
    (bytes.fromhex("5333373045564431 00000000000000"), "line 1", "no report"),
    *[(replayed(f"EVENT {it}"), "line 2", "event") for it in NO_EVENTS],
    (replayed("EVENT 1 GO A", "EVENT 3 GO B"), "line 3", "event"),
    (replayed("EVENT 1 GO A").replace(b"REPLAY", b"REPORT"), "line 2", "EVENT 1 GO A"),
    (RUNNING.replace(b"REPLAY", b"REPORT"), "line 2", "RUNNING"),
    (COUNTS.replace(b"RETURNED", b"RUNNING"), "line 2", "RUNNING"),
    (DRAINED.replace(b"DRAINED COUNT 1234\n", b"DRAINED COUNT 1234\nNOT DRAINED\n"), "line 13", "NOT DRAINED"),
    (DRAINED.replace(b"1234", b"-"), "line 12", "DRAINED COUNT -"),
    (COUNTED.shown("V:", 3).replace(b"END\n", b"NOT DRAINED\nEND\n"), "line 7", "NOT DRAINED"),
    (FIRST_REPORT.replace(b"REPORT", b"SHOW"), "line 2", "TASK A"),
    (b"COVERAGE SHOW\nEND\n", "line 2", "not one session"),
    (b"BAD JOB LINE 3\n", "line 1", "BAD JOB LINE 3"),
    (FIRST_REPORT[:-4], "line 12", "ends early"),
    (FIRST_REPORT + b"more\n", "line 13", "behind END"),
    (MARKED + COUNTED.counted(RETURNED, (1, 1), (1,)), "line 12", "not of the report's job"),
    (MARKED + COUNTED.counted(RETURNED, (0, 1), (0,)), "line 12", "not of the report's job"),
    (MARKED + COUNTED.counted([Result("RETURNED", 3)], (0, 1), (1,)), "line 12", "not of the report's job"),
    (MARKED + COUNTS.replace(b"SESSION S", b"SESSION T"), "line 12", "not of the report's job"),
    (MARKED + COUNTS.replace(b"COUNT 000004", b"COUNT 000006"), "line 12", "not of the report's job"),
    (MARKED + COUNTS.replace(b" 0 1\n", b" 1\n"), "line 12", "not of the report's job"),
    (MARKED + COUNTS.replace(b"PLACES 2", b"PLACES 3"), "line 18", "count of places"),
    (MARKED + COUNTS + b"more\n", "line 22", "behind END"),
    (MARKED + COUNTS[:-4], "line 21", "ends early"),
    (COUNTS + MARKED, "line 11", "behind END"),
    (COUNTS.replace(b" 0 1\n", b" 0 1 2\n"), "line 7", "count of places"),
    (COUNTED.shown("V:", 3) + COUNTS, "line 8", "behind END"),
    (FIRST_REPORT.replace(b"CC 2", b"CC 4"), "line 2", "a task"),
    (FIRST_REPORT.replace(b"0000000A", b"000000A"), "line 3", "registers"),
    (FIRST_REPORT.replace(b"OUT 0", b"OUT 1"), "line 6", "output"),
    (FIRST_REPORT.replace(b"EXECUTED 3", b"EXECUTED 2"), "line 7", "counts"),
    (FIRST_REPORT.replace(b"PLACES 3", b"PLACES x"), "line 7", "module"),
    (FIRST_REPORT.replace(b"PLACES 3", b"PLACES " + b"9" * 5000), "line 7", "module"),
    (FIRST_REPORT.replace(b": 000004", b"V 000004"), "line 10", "mark V"),
    (FIRST_REPORT.replace(b"    Loc", b":   Loc"), "line 8", "mark"),
    (FIRST_REPORT.replace(b"SESSION", b"SESSIONS"), "line 6", "SESSIONS"),
    # A wide heading, location and object code, each a column off; wide lines below a narrow heading, and the other way round.
    (WIDE_REPORT.replace(b"  Loc ", b" Loc "), "line 9", "mark"),
    (WIDE_REPORT.replace(b": 00000004", b": 0000004 "), "line 10", "mark"),
    (WIDE_REPORT.replace(b": 00000004 ", b": 000000041"), "line 10", "mark"),
    (WIDE_REPORT.replace(b"00000004 1A11", b"00000004  1A1"), "line 10", "mark"),
    (WIDE_REPORT.replace(b": 00000004", b"V 00000004"), "line 10", "mark V"),
    (WIDE_REPORT.replace(WIDE_HEADING.encode(), HEADING.encode()), "line 9", "mark"),
    (FIRST_REPORT.replace(HEADING.encode(), WIDE_HEADING.encode()), "line 9", "mark"),
]


# What no program writes, though each line has its form: the line at which it is refused, and why.
PLACES = Program.of("0 1A11 AR, 2 1A11 AR, 4 47F0F000 B, 8 07FE BR")
SPLICED = PLACES.report([Result("RETURNED", 2, output=bytes(40), rows=[f"0000{it}0 {'00' * 16}" for it in "012"])], "^:^^", 4, "000000-000001", "000004-000009")
for was, by, number, why in (
    (b"NOT EXECUTED 000000-000001\n", b"", 18, "no NOT EXECUTED 000000-000001, which the marks above ask for: 'NOT EXECUTED 000004-000009'"),
    (b"NOT EXECUTED 000004-000009\n", b"", 19, "no NOT EXECUTED 000004-000009, which the marks above ask for: 'END'"),
    (b"000000-000001", b"000000-000003", 18, "no NOT EXECUTED 000000-000001, which"),
    (b"NOT EXECUTED 000004-000009\n", b"NOT EXECUTED 000004-000009\n" * 2, 20, "a range that the marks above don't have"),
    (b"^ 000000 1A11", b"^ 000001 1A11", 14, "a place at an odd location"),
    (b": 000002", b": 000000", 15, "a place where another one stands"),
    (b"^ 000008", b"^ 000006", 17, "a place where another one stands"),
    (b"TASK A", SPLICED[SPLICED.index(b"TASK A") : SPLICED.index(b"SESSION")] + b"TASK A", 11, "A a second time"),
    (b"END\n", SPLICED[SPLICED.index(b"SESSION") :], 20, "S a second time"),
    (b"END\n", SPLICED[SPLICED.index(b"MODULE") :], 20, "M a second time"),
    (b"00" * 32 + b"\n" + b"00" * 8, b"00" * 8 + b"\n" + b"00" * 32, 6, "8 bytes of an output, of which 40 more are to stand 32 to a line"),
    (b"STOR 000010", b"STOR 000030", 10, "no row of storage that stands there"),
    (b"STOR 000010", b"STOR 000018", 9, "no row of storage that stands there"),
    (b"STOR 000010 00", b"STOR 000010 ", 10, "no row of storage that stands there"),
):
    assert was in SPLICED, was
    BAD_REPORTS.append((SPLICED.replace(was, by, 1), f"line {number}", why))
for was, by in ((b"COUNT 000004", b"COUNT 000005"), (b"COUNT 000004", b"COUNT 000000")):
    BAD_REPORTS.append((COUNTS.replace(was, by), "line 9", "no place that comes next"))


def bad_reports() -> None:
    """page and lcov: what is no report is refused by its line, and nothing is written"""
    well(coverage("page", data=SPLICED))
    with folder() as at:
        for data, *texts in BAD_REPORTS:
            refused(coverage("page", data=data), 2, "standard input", *texts)
            refused(coverage("lcov", f"{at}/out", data=data), 2, "standard input", *texts)
        equal(os.listdir(at), [])




def parts_in_any_order() -> None:
    """page and lcov: counts and ends stand behind a report in either order, and ends behind counts too"""
    found = ends("M 0", tasks=[(RETURNED[0], "AT FFFFFE")])
    one, other = (well(coverage("page", data=it)).output for it in (MARKED + COUNTS + found, MARKED + found + COUNTS))
    equal(one == other, True)
    for text in (b"Behind each mark", b"FFFFFE, the return address"):
        assert text in one
    assert b"FFFFFE, the return address" in well(coverage("page", data=COUNTS + found)).output
    with folder() as at:
        for data in (MARKED + COUNTS + found, MARKED + found + COUNTS, COUNTS + found):
            well(coverage("lcov", f"{at}/out", data=data))


CHECKS = [bad_reports, parts_in_any_order]
