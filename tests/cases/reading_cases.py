"""What a job has that was read, jobs that come in pieces, and the items of a schedule. Which bytes are a job, card_cases.py has."""
from __future__ import annotations

import os
from concurrent.futures import ThreadPoolExecutor

from cases.row_cases import came_of_pieces
from fixtures.harness import PROGRAM, Case, equal, run
from fixtures.jobs import FIRST, FIRST_RESULT, OPENED_JOB, OPENED_REPLAY, TASK, Program, Result, task
from models.answers import answer

BRANCHED = Program.of("0 1211 LTR, 2 4780F008 BE, 6 1822 LR, 8 07FE BR")
# Two calls, and the routines that answer them.
CALLING = Program.of("0 0A00 SVC, 2 0AFE SVC, 4 07FE BR, 6 41100007 LA, A 07FE BR, C 41000009 LA, 10 07FE BR")
# GET of eight bytes to X'10', and a load of what stands at 4.
TAKING = Program.of("0 0A02 SVC, 2 58300004 L, 6 07FE BR")
# A listing with print control characters and lines that end with CR and LF.
PROFILE = b"COVERJOB 1\nMODULE MAIN 100000 18\nTEXT 4110F00C5010001007FE0700C1C2000007FE\nLISTING 13\n" + b"\n".join([
    b"1                                 A SAMPLE",
    b"-  Loc  Object Code    Addr1 Addr2  Stmt   Source Statement\r",
    b" 000000                00000 0000E     1 MAIN     CSECT",
    b" 000000 4110 F00C            0000C     2          LA    1,12(,15)",
    b"                                       3          KEEP  1",
    b" 000004 5010 0010            00010     4+         ST    1,16\r",
    b" 000008 07FE                           5          BR    14",
    b" 00000A 0700                           6          CNOP  0,4",
    b" 00000C C1C2                           7 BUF      DC    C'AB'",
    b" 000000                00000 00004     8 AREA     DSECT",
    b" 000000                                9 F1       DS    F",
    b" 000010                00010 00002    10 TAIL     CSECT",
    b" 000010 07FE                          11          BR    14",
]) + b"\nPHASE P\nSESSION S MAIN\nTASK A 100000 32 100 0\nREG 1 00000001\nDATA 4 C1C2\nINPUT D1\nENDJOB\n"
# Inputs, with the first line that `run` writes and its status.
ENDS = [
    (b"", "BAD JOB LINE 1", 2), (b"\n", "BAD JOB LINE 1", 2), (b"COVERJOB 2\nENDJOB\n", "BAD JOB LINE 1", 2),
    (b"COVERJOB 1\nMODULE\nENDJOB\n", "BAD JOB LINE 2", 2), (b"COVERJOB 1\nMODULE", "BAD JOB LINE 2", 2), (b"COVERJOB 1\n", "BAD JOB LINE 2", 2),
    (b"COVERJOB 1\nENDJO", "BAD JOB LINE 2", 2), (b"COVERJOB 1\nENDJOB", "COVERAGE REPORT", 0), (b"COVERJOB 1\nENDJOB\n", "COVERAGE REPORT", 0),
    (b"COVERJOB 1\nENDJOB\n\n", "BAD JOB LINE 3", 2), (b"COVERJOB 1\nENDJOB\nFETCH A\nENDSCHED\n", "BAD JOB LINE 3", 2),
    (b"COVERJOB 1\nPHASE P\nENDJOB\n\xff", "BAD JOB LINE 4", 2), (b"COVERJOB 1\nMODULE M 100000 262146\nTEXT 00\n", "TOO LARGE SIZE LINE 2", 4),
    (b"COVERJOB 1\nPHASE P\nENDJOB\r\nENDJOB\n", "BAD JOB LINE 3", 2), (b"COVERJOB 1\nSERVICE 10 000006\nENDJOB\n", "BAD JOB LINE 2", 2),
]
# Lines that come near to an item of the tasks A, B1 and ABCDEFGH: two blanks, and blanks at the ends; a CR; lower case; no task of the
# job; words too few, too many or other.
NO_ITEMS = [
    "FETCH  A", "FETCH A ", " FETCH A", "FETCH A  ", " ENDSCHED", "ENDSCHED ", "FETCH\tA", "FETCH A\r", "ENDSCHED\r", "\r",
    "fetch A", "FETCH a", "Mark A", "endsched", "FETCH C", "FETCH B", "FETCH ABCDEFG", "FETCH ABCDEFGHI", "FETCH P", "FETCH 0",
    "", " ", "FETCH", "FETCH ", "A", "FETCH A B1", "FETCH A A", "ENDSCHED A", "ENDSCHE", "ENDSCHEDS", "FETCHA", "FETCHS A", "FETC A",
    "PLANT C", "ENDJOB", "FETCH A\0",
]
# The items of these tasks, each as its event tells it.
EVENTS = [
    "FETCH A TAG 1 HALF 0AFF", "FETCH ABCDEFGH TAG 1 HALF 0AFF", "MARK ABCDEFGH OLD -", "MARK A OLD R", "LIFT A TAKEN", "LIFT ABCDEFGH NOT TAKEN",
    "DO ABCDEFGH", "FETCH B1 TAG 1 HALF 4110", "DO A", "GO A", "GO B1", "GO ABCDEFGH",
]
NAMED = f"{TASK}TASK B1 100000 16 100 0\nTASK ABCDEFGH 100000 16 100 0\n"


def two_phases() -> Case:
    """Two phases with a session and a task each, of which the second has a budget of two."""
    job = FIRST.job().replace(b"ENDJOB\n", b"PHASE Q\nSESSION T M\nTASK B 100000 16 2 0\nENDJOB\n")
    other = FIRST.session("::^", 3, ("000006-000007",))
    spent = Result("SPENT", 2, 2, {1: 10}, name="B")
    lines = [*FIRST_RESULT.lines(), *spent.lines(), *FIRST.session(":::", 3), other[0].replace("SESSION S PHASE P", "SESSION T PHASE Q"), *other[1:]]
    return Case("two phases that were read", ["run"], job, "\n".join(["COVERAGE REPORT", *lines, "END", ""]).encode())


def controllers() -> Case:
    """Three sessions, of which the later two have the last of three tasks as their controller, and the first has none. It opens one
    after the other, and goes through the module from another instruction on under each."""
    front = FIRST.job().partition(b"PHASE P")[0].decode() + "MODULE N 100008 2\nTEXT 07FE\nMODULE BY 100010 2\nTEXT 07FE\n"
    calls = "REG 2 00100000 / REG 13 00FFFFFE / DATA 0 0A0445E020000A050A0445E020040A0507FD"
    tasks = "TASK B 000000 32 9 0\nDATA 0 07FE\n" + task(calls, "TASK C 000000 32 99 0\n")
    job = f"{front}PHASE P\nSESSION S N\nTASK A 000000 0 1 0\nPHASE Q\nSESSION R BY C M\nSESSION U BY C M N\n{tasks}ENDJOB\n"
    ended = Result("RETURNED", 12, 2, {1: 20, 2: 0x100000, 13: 0xFFFFFE, 14: 0xA000000E}, name="C", entry=0)
    results = [Result("ABEND 5", 1, entry=0), Result("RETURNED", 1, name="B", entry=0), ended]
    none = "MODULE N PLACES 0 EXECUTED 0 FACTS 0 OF 0"
    lines = [*(line for it in results for line in it.lines()), "SESSION S PHASE P", none, "SESSION R PHASE Q", *FIRST.session(":::", 3)[1:]]
    lines += ["SESSION U PHASE Q", *FIRST.session("^::", 3, ("000000-000003",))[1:], none]
    return Case("controllers that were read", ["run"], job.encode(), "\n".join(["COVERAGE REPORT", *lines, "END", ""]).encode())


def cases() -> list[Case]:
    """Jobs of which every card shows in what is written."""
    both = task("REG 0 0000000A / REG 15 fedcba98 / DATA 79 C1 / INPUT D2", "TASK A 100000 80 100 0\n")
    data = task("REG 0 00000008 / REG 1 00000010 / DATA 4 0102 / DATA 5 FF / INPUT C1C2 / INPUT 00 / INPUT c3", "TASK A 100000 80 100 0\n")
    taken = Result("RETURNED", 3, 0, {0: 8, 1: 16, 3: 0x01FF0000, 15: 4}, rows=["000010 C1C200C3" + 24 * "0"])
    two = BRANCHED.job(TASK + task("REG 1 00000001", "TASK B 100000 16 100 0\n"))
    two = two.replace(b"TEXT 12114780F008182207FE", b"TEXT 12114780F00818\nTEXT 2207fe")
    results = [Result("RETURNED", 3, 0), Result("RETURNED", 4, 2, {1: 1}, name="B")]
    served = b"COVERJOB 1\nSERVICE 10 000006\nENDJOB\n"
    answered = CALLING.job().replace(b"PHASE P", b"SERVICE 0 100006\nSERVICE 254 10000c\nPHASE P")
    came = Result("RETURNED", 7, 0, {0: 9, 1: 7, 15: 0x10000C})
    return [
        Case("one task that was read", ["run"], FIRST.job(both), FIRST.report([Result("RETURNED", 3, 2, {0: 10, 1: 10, 15: 0xFEDCBA98})], ":::", 3)),
        Case("no task that was read", ["run"], FIRST.job(""), FIRST.report([], "^^^", 3, "000000-000007")),
        two_phases(),
        Case("text of two cards, and a register", ["run"], two, BRANCHED.report(results, ":&::", 5)),
        Case("data and input in their order", ["run"], TAKING.job(data), TAKING.report([taken], ":::", 3)),
        controllers(),
        Case("services without a module", ["services", "run"], served, b"COVERAGE REPORT\nEND\n"),
        Case("services, each with its own entry", ["services", "run"], answered, CALLING.report([came], ":::::::", 7)),
    ]


def ends() -> None:
    """reading: inputs that end behind ENDJOB, before it and within it, whole, in two pieces cut at each byte, in small ones"""
    def pieces(data: bytes) -> list[list[bytes]]:
        # Byte by byte, in pieces of 64 bytes, and in these behind a first one that is shorter.
        sizes = ((1, 1), (64, 64), (27, 64))
        small = [[data[:first], *(data[at : at + size] for at in range(first, len(data), size))] for first, size in sizes]
        return [[data[:at], data[at:]] for at in range(1, len(data))] + small

    for data, first, status in ENDS:
        ran = run([PROGRAM, "run"], data)
        equal((data, ran.status, ran.output.split(b"\n")[0].decode(), ran.error), (data, status, first, ""))
        equal({came_of_pieces(["run"], it) for it in pieces(data)}, {(status, ran.output)})
    for data in (FIRST.job(), PROFILE):
        ran = run([PROGRAM, "run"], data)
        equal(answer(["run"], data).fault(ran.status, ran.output), None)
        with ThreadPoolExecutor(os.cpu_count()) as pool:
            equal(set(pool.map(lambda it: came_of_pieces(["run"], it), pieces(data))), {(0, ran.output)})
    # What stands behind a job is kept from wherever it begins in a piece.
    data = FIRST.job() + b"FETCH A\nMARK A\nLIFT A\nDO A\nGO A\nENDSCHED\n"
    ran = run([PROGRAM, "replay"], data)
    equal(answer(["replay"], data).fault(ran.status, ran.output), None)
    with ThreadPoolExecutor(os.cpu_count()) as pool:
        equal(set(pool.map(lambda it: came_of_pieces(["replay"], it), pieces(data))), {(0, ran.output)})


def items() -> None:
    """reading: each item of a schedule by the names of its tasks, and lines that come near to one"""
    job = FIRST.job(NAMED)
    for line in NO_ITEMS:
        ran = run([PROGRAM, "replay"], job + f"{line}\nFETCH A\nENDSCHED\n".encode())
        equal((line, ran.status, ran.output, ran.error), (line, 9, b"BAD SCHEDULE LINE 15\n", ""))
    done = "".join(f"{' '.join(it.split()[:2])}\n" for it in [*EVENTS, "ENDSCHED"])
    results = [FIRST_RESULT, *(Result("RETURNED", 3, 2, {1: 10}, name=it) for it in ("B1", "ABCDEFGH"))]
    title = "\n".join(["COVERAGE REPLAY", *(f"EVENT {number} {it}" for number, it in enumerate(EVENTS, 1))])
    ran = run([PROGRAM, "replay"], job + done.encode())
    equal(answer(["replay"], job + done.encode()).fault(ran.status, ran.output), None)
    equal((ran.status, ran.output), (0, FIRST.report(results, ":::", 3, title=title)))
    # PLANT and CLOSE of the task that controls the session.
    named = {b" C ": b" B1 ", b" C\n": b" B1\n"}
    texts = [OPENED_JOB, OPENED_REPLAY]
    for old, new in named.items():
        texts = [it.replace(old, new) for it in texts]
    ran = run([PROGRAM, "replay"], texts[0])
    equal((ran.status, ran.output), (0, texts[1]))


CHECKS = [ends, items]
