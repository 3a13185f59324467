"""ends: the worked rows, and random jobs beside models/ends_model.py."""
from __future__ import annotations

import os
import random
import subprocess
import tempfile
from concurrent.futures import ThreadPoolExecutor

from fixtures.harness import PROGRAM, SECONDS, Case, difference, equal
from fixtures.jobs import FIRST, TASK, USAGE, Program, code_of, listing_of, task
from models import ends_model
from models.model import Refused

ENDINGS = {"RETURNED", "SPENT", "EXIT", "BADSVC", "OUTFULL", "TOUCHED", *(f"ABEND {it}" for it in "123456789AB")}
# How many random jobs the tests make, and from which number.
JOBS, SEED = 200, 7

SPM_AR, OVERFLOWS = "0 0420 SPM, 2 1A34 AR, 4 07FE BR", "REG 2 08000000 / REG 3 7FFFFFFF / REG 4 00000001"
AP = "0 0420 SPM, 2 FA0000000001 AP, 8 07FE BR"
EX_AR = "0 0420 SPM, 2 4400F008 EX, 6 07FE BR, 8 1A34 AR"
FULL, FULL_TASK = "REG 0 00000004 / DATA 0 C1C2C3C4", "TASK A 100000 16 100 4\n"
IN_PRIVATE = "TASK A 000000 16 100 0\n"
AT_2 = "AT 100002 M 000002"


def told(*lines: str) -> bytes:
    """What `ends` writes."""
    return "\n".join(["COVERAGE ENDS", *lines, "END", ""]).encode()


def of(code: str, result: str, missed: int = 0, cards: str = "", without: str = "", head: str = TASK) -> Case:
    """A job of a module M whose listing has no line of some locations, with one task, and what comes of it."""
    program = Program.of(code)
    left = [it for it in program.code if f"{it[0]:X}" not in without.split()]
    name = f"ends of {code} without {without or 'nothing'}: {head.strip()}, {cards}"
    job = program.job(task(cards, head), listing_of(left))
    return Case(name, ["ends"], job, told(f"TASK A {result}", f"UNLISTED M {missed}"))


def entered(entry: str, result: str, missed: int = 0, size: int = 16) -> Case:
    """The first program, entered at another address, where the task also ends."""
    is_begun = result != "RETURNED"
    ending, _, there = result.partition(",")
    text = f"{ending} COUNT {int(is_begun)} AT {entry}{there}"
    return of("0 41100005 LA, 4 1A11 AR, 6 07FE BR", text, missed, "", "", f"TASK A {entry} {size} 100 0\n")


def first_rows() -> list[Case]:
    """Returns, budgets, and entries of every kind."""
    code, returned = "0 41100005 LA, 4 1A11 AR, 6 07FE BR", "RETURNED COUNT 3 AT FFFFFE"
    bare = FIRST.job().replace(b"LISTING 4\n" + "\n".join([*FIRST.listing(), ""]).encode(), b"")
    whole = b"COVERAGE ENDS\nTASK A RETURNED COUNT 3 AT FFFFFE\nUNLISTED M 0\nEND\n"
    fifth, sixth = ("000010", "0FFFFE", "100008", "F00000", "FFFFFC"), ("000011", "100009", "FFFFFF")
    return [
        Case("ends, the whole text", ["ends"], FIRST.job(), whole),
        of(code, returned, 1, without="4"),
        of(code, returned, 2, without="4 6"),
        of(code, returned, 3, without="0 4 6"),
        Case("ends without a listing", ["ends"], bare, told(f"TASK A {returned}")),
        of(code, "SPENT COUNT 1 AT 100004 M 000004", head="TASK A 100000 16 1 0\n"),
        of(code, "SPENT COUNT 2 AT 100006 M 000006", head="TASK A 100000 16 2 0\n"),
        of(code, returned, head="TASK A 100000 16 3 0\n"),
        Case("ends without a task", ["ends"], FIRST.job(""), told("UNLISTED M 0")),
        entered("FFFFFE", "RETURNED"),
        entered("100001", "ABEND 6, M 000001"),
        entered("100007", "ABEND 6, M 000007"),
        entered("100002", "ABEND 1, M 000002", 1),
        entered("00000E", "ABEND 1, PRIVATE"),
        entered("00000F", "ABEND 6, PRIVATE"),
        *(entered(it, "ABEND 5") for it in fifth),
        *(entered(it, "ABEND 6") for it in sixth),
        entered("000000", "ABEND 5", size=0),
        entered("0FFFFE", "ABEND 1, PRIVATE", size=1_048_576),
    ]


def interrupted() -> list[Case]:
    """Instructions that nullify and that complete, EX and its subject, touches and calls."""
    nine, three, touched = "ABEND 9 COUNT 1 AT 100000 M 000000", "ABEND 3 COUNT 1 AT 100000 M 000000", "5820F000 L"
    both, first = "0 4400F004 EX, 4 4400F000 EX, 8 07FE BR", "0 41100005 LA, 4 1A11 AR, 6 07FE BR"
    eight, call = f"ABEND 8 COUNT 2 {AT_2}", "0 1811 LR, 2 4420F008 EX, 6 07FE BR, 8 0A02 SVC"
    private, executed = "DATA 0 4400B00007FE", ((0, ""), (1, "8"), (1, "2"), (2, "2 8"), (3, "0 2 6 8"))
    return [
        of("0 1D24 DR, 2 07FE BR", nine),
        of("0 1D24 DR, 2 07FE BR", nine, 1, without="0"),
        of(SPM_AR, eight, 0, OVERFLOWS),
        of(AP, f"ABEND A COUNT 2 {AT_2}", 0, "REG 2 04000000 / DATA 0 9C1C"),
        *(of(EX_AR, eight, missed, OVERFLOWS, it) for missed, it in executed),
        of(call, f"BADSVC 10 COUNT 2 {AT_2}", 0, "REG 2 00000008"),
        of(call, f"EXIT COUNT 2 {AT_2}", 0, "REG 2 00000001"),
        of(f"0 1811 LR, 2 4400F008 EX, 6 07FE BR, 8 {touched}", f"TOUCHED 100000 COUNT 2 {AT_2}"),
        *(of(both, three, missed, without=without) for missed, without in ((0, ""), (0, "4"), (1, "0"), (1, "0 4 8"))),
        of("0 4400F003 EX, 4 07FE BR", "ABEND 6 COUNT 1 AT 100000 M 000000"),
        of("0 4400FFFE EX, 4 07FE BR", "ABEND 5 COUNT 1 AT 100000 M 000000"),
        of(first, "RETURNED COUNT 2 AT FFFFFE", 0, f"REG 11 00100004 / {private}", head=IN_PRIVATE),
        of(first, "RETURNED COUNT 2 AT FFFFFE", 1, f"REG 11 00100004 / {private}", "4", IN_PRIVATE),
        of(first, "ABEND 1 COUNT 1 AT 000000 PRIVATE", 1, f"REG 11 00100002 / {private}", head=IN_PRIVATE),
        of(first, "ABEND 6 COUNT 1 AT 000000 PRIVATE", 0, f"REG 11 00100001 / {private}", head=IN_PRIVATE),
        of(f"0 {touched}, 4 07FE BR", "TOUCHED 100000 COUNT 1 AT 100000 M 000000"),
        of(f"0 {touched}, 4 07FE BR", "RETURNED COUNT 2 AT FFFFFE", 1, without="0"),
        of("0 0A01 SVC, 2 0A01 SVC, 4 07FE BR", f"OUTFULL COUNT 2 {AT_2}", 0, FULL, head=FULL_TASK),
        of("0 1B11 SR, 2 0A03 SVC", f"EXIT COUNT 2 {AT_2}"),
        of("0 1B11 SR, 2 0A0A SVC", f"BADSVC 10 COUNT 2 {AT_2}"),
        of("0 0AFF SVC, 2 07FE BR", "BADSVC 255 COUNT 1 AT 100000 M 000000", 1, without="0"),
        of("0 4110F003 LA, 4 07F1 BR", "ABEND 6 COUNT 3 AT 100003 M 000003"),
        of("0 4110F002 LA, 4 07F1 BR", f"TOUCHED 100004 COUNT 3 {AT_2}"),
        of("0 4110F002 LA, 4 07F1 BR", f"ABEND 5 COUNT 3 {AT_2}", 1, without="4"),
        of("0 4110F002 LA, 4 07F1 BR, 6 07FE BR", f"ABEND 5 COUNT 3 {AT_2}", 2, without="4 6"),
    ]


def job_of(modules: list[str], *cards: str) -> bytes:
    """A job of modules, each 'name base digits' and behind '/' the code of its listing, where it has one."""
    rows = ["COVERJOB 1"]
    for it in modules:
        words, has, code = it.partition("/")
        name, base, digits = words.split()
        rows += [f"MODULE {name} {base} {len(digits) // 2}", f"TEXT {digits}"]
        lines = listing_of(code_of(code) if code else [])
        rows += [f"LISTING {len(lines)}", *lines] if has else []
    return "\n".join([*rows, *cards, "ENDJOB", ""]).encode()


def several() -> list[Case]:
    """No module and several, no task and several, and a task that opens and closes sessions."""
    def case(name: str, job: bytes, *lines: str) -> Case:
        return Case(f"ends of {name}", ["ends"], job, told(*lines))

    bare = ("PHASE P", "TASK A 000000 16 100 0", "DATA 0 1B111D24")
    across = ["M 100000 0700070007004110/0 0700 NOPR, 2 0700 NOPR, 4 0700 NOPR", "N 100008 000507FE/2 07FE BR"]
    three = ["N 100100 1D46", "O 100200 07FE/", "M 100000 4110F100052107FE/0 4110F100 LA, 4 0521 BALR, 6 07FE BR"]
    session, begin = ("PHASE P", "SESSION S M"), "TASK A 100000 16 100 0"
    branch = ["M 100000 12114780F008182207FE/0 1211 LTR, 8 07FE BR"]
    tasks = (begin, "TASK B 100000 16 100 0", "REG 1 00000001", "PHASE Q", "TASK C 100000 16 2 0", "REG 1 00000001")
    loop, spent = "0 4400F008 EX, 4 47F0F000 BC, 8 1811 LR", "SPENT COUNT 100 AT 100000 M 000000"
    opened = ["M 100000 411000051A1107FE/0 41100005 LA, 4 1A11 AR, 6 07FE BR"]
    calls = ("PHASE P", "SESSION S1 BY C M", "SESSION S2 BY C M", begin, "TASK C 000000 16 100 0",
             "DATA 0 0A040A050A040A0507FE")
    return [
        case("no module", job_of([], *bare), "TASK A ABEND 9 COUNT 2 AT 000002 PRIVATE"),
        case("no module, spent", job_of([], bare[0], "TASK A 000000 16 1 0", bare[2]),
             "TASK A SPENT COUNT 1 AT 000002 PRIVATE"),
        case("nothing", b"COVERJOB 1\nENDJOB\n"),
        case("an instruction across two modules", job_of(across, *session, begin),
             "TASK A RETURNED COUNT 5 AT FFFFFE", "UNLISTED M 1", "UNLISTED N 0"),
        case("the second of two modules", job_of(across, *session, "TASK A 100008 16 100 0"),
             "TASK A ABEND 1 COUNT 1 AT 100008 N 000000", "UNLISTED M 0", "UNLISTED N 1"),
        case("three modules", job_of(three, *session, begin),
             "TASK A ABEND 9 COUNT 3 AT 100100 N 000000", "UNLISTED O 0", "UNLISTED M 0"),
        case("three tasks in two phases", job_of(branch, *session, *tasks), "TASK A RETURNED COUNT 3 AT FFFFFE",
             "TASK B RETURNED COUNT 4 AT FFFFFE", "TASK C SPENT COUNT 2 AT 100006 M 000006", "UNLISTED M 4"),
        of(loop, spent),
        of(loop, spent, 50, without="8"),
        of(loop, spent, 150, without="0 4 8"),
        case("a task that opens and closes sessions", job_of(opened, *calls), "TASK A RETURNED COUNT 3 AT FFFFFE",
             "TASK C RETURNED COUNT 5 AT FFFFFE", "UNLISTED M 0"),
    ]


def refusals() -> list[Case]:
    """Refused jobs."""
    job, lines = FIRST.job(), FIRST.listing()
    other = FIRST.job(listing=[it.replace("4110 0005", "4110 0006") for it in lines])
    own, heading = Program.of("0 0AFF SVC, 2 07FE BR").job(), b"BAD LISTING M LINE 0 HEADING\n"
    mismatch = b"MISMATCH M LINE 2 LOC 000000 LISTING 41100006 MODULE 41100005\n"
    return [
        Case("ends with a line behind the job", ["ends"], job + b"\n", b"BAD JOB LINE 13\n", 2),
        Case("ends of a job without an end", ["ends"], job.replace(b"ENDJOB\n", b""), b"BAD JOB LINE 12\n", 2),
        Case("ends of another module", ["ends"], other, mismatch, 3),
        Case("ends of a listing without a heading", ["ends"], FIRST.job(listing=lines[1:]), heading, 12),
        Case("ends of an instruction line of SVC 255", ["ends"], own, b"OWN SVC M LINE 2\n", 8),
    ]


def rows() -> list[Case]:
    """All worked rows."""
    return [*first_rows(), *interrupted(), *several(), *refusals()]


def cases() -> list[Case]:
    """The rows, of the program, and its words."""
    words = [["ends", "x"], ["Ends"], ["ends", "services"], ["ends", ""]]
    return [*rows(), *(Case(f"the words {' '.join(it)}", it, b"", USAGE, 1) for it in words)]


def answer(data: bytes) -> tuple[int, bytes]:
    """The model's status and text."""
    try:
        return 0, ends_model.text(data)
    except Refused as refused:
        return refused.answer


def model_meets_rows() -> None:
    """ends: the model against the worked rows"""
    for it in rows():
        had = answer(it.input)
        assert had == (it.status, it.output), f"{it.name}: {had}, and not {(it.status, it.output)}"


def fault_of(program: str, data: bytes, wanted: bytes) -> str | None:
    """What is wrong with what the program says of a good job."""
    ran = subprocess.run([program, "ends"], input=data, capture_output=True, timeout=SECONDS, check=False)
    if ran.returncode or ran.stderr:
        return f"status {ran.returncode}, {ran.stdout[:200]!r}, {ran.stderr[:200]!r}"
    return None if ran.stdout == wanted else difference(wanted, ran.stdout)


def compare(program: str, jobs: int, seed: int) -> tuple[ends_model.Endings, list[str]]:
    """Random jobs of a program beside the model: the endings of their tasks, and what is wrong."""
    endings: ends_model.Endings = ends_model.Endings()
    drawn: list[tuple[str, bytes, bytes]] = []
    for number in range(jobs):
        data = ends_model.job(random.Random(f"{seed} {number}"))
        drawn.append((f"seed {seed}, job {number}", data, ends_model.text(data, endings)))
    with ThreadPoolExecutor(os.cpu_count()) as pool:
        faults = pool.map(lambda it: fault_of(program, it[1], it[2]), drawn)
    return endings, [f"{name}: {fault}; {kept(data)}" for (name, data, _), fault in zip(drawn, faults) if fault]


def kept(data: bytes) -> str:
    """Keeps a job in a file, and tells which."""
    with tempfile.NamedTemporaryFile(prefix="coverage-ends-", suffix=".job", delete=False) as file:
        file.write(data)
    return file.name


def random_jobs() -> None:
    """ends: random jobs beside the model"""
    endings, faults = compare(PROGRAM, JOBS, SEED)
    equal(set(endings), ENDINGS)
    equal((len(faults), faults[:1]), (0, []))


CHECKS = [model_meets_rows, random_jobs]
