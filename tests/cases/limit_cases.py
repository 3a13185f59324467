"""Each command at the limits of cards, places and input: no memory is wanting there, and nothing is lost or run in vain."""
from __future__ import annotations

import re
import resource
from functools import lru_cache

from fixtures.harness import PROGRAM, equal, run
from fixtures.jobs import FIRST, FIRST_REPORT, TASK, Program, Result, task
from fixtures.phase_jobs import Module, Session, Task
from fixtures.phase_jobs import job as job_of
from models.answers import answer

PLACES, TASKS, INPUT = 65_536, 64, 16_777_216
# How many places each task runs through.
STRETCH = PLACES // TASKS // 2
RAN = TASKS * STRETCH
ADD, RETURN = ("1A11", "AR"), ("07FE", "BR")
CONTROLLER = task("REG 2 00100000 / DATA 0 0A0405E20A050A03", "TASK C 000000 16 1000 0\n")


@lru_cache(None)
def program() -> Program:
    """65,536 places of two bytes; each stretch returns with its last one."""
    return Program([(2 * at, *(ADD if (at + 1) % STRETCH else RETURN)) for at in range(PLACES)])


def entry(number: int) -> int:
    return 0x100000 + 2 * STRETCH * number


@lru_cache(None)
def job() -> bytes:
    """64 tasks, each through its stretch: 32,768 facts."""
    return program().job("".join(task("", f"TASK T{it} {entry(it):06X} 16 1000 0\n") for it in range(TASKS)))


@lru_cache(None)
def controlled() -> bytes:
    """A controller that goes through the first stretch while its session is open, and 63 tasks that return at once."""
    others = "".join(task("DATA 0 07FE", f"TASK T{it} 000000 16 1000 0\n") for it in range(1, TASKS))
    return program().job(CONTROLLER + others).replace(b"SESSION S M\n", b"SESSION S BY C M\n")


def results() -> list[Result]:
    return [Result("RETURNED", STRETCH, name=f"T{it}", entry=entry(it)) for it in range(TASKS)]


def marks(ran: int) -> str:
    return ":" * ran + "^" * (PLACES - ran)


def rest(ran: int) -> str:
    """The range of the places behind those that ran."""
    return f"{2 * ran:06X}-{2 * PLACES - 1:06X}"


def report(title: str = "COVERAGE REPORT") -> bytes:
    return program().report(results(), marks(RAN), PLACES, rest(RAN), title=title)


def file(runs: int = 1) -> bytes:
    return program().marks_file(*[1] * RAN, *[0] * (PLACES - RAN), runs=runs)


def evidence() -> bytes:
    """Each place that ran was first shown by its task, when as many instructions had been done as stand before it."""
    entries = (bytes([at // STRETCH]).rjust(2, b"\0") + (at % STRETCH).to_bytes(4, "big") + b"\0" for at in range(RAN))
    return b"S370EVD1" + b"".join(entries)


def gives(words: list[str], data: bytes, wanted: bytes) -> None:
    ran = run([PROGRAM, *words], data)
    equal((ran.status, ran.error), (0, ""))
    assert ran.output == wanted, f"{len(ran.output)} bytes, and not the {len(wanted)} that are wanted"


def runs() -> None:
    """limits: run, exits, count and replay of 65,536 places and 64 tasks"""
    for word in ("run", "exits"):
        gives([word], job(), report())
    gives(["count"], job(), program().counted(results(), *[(1,)] * RAN, *[(0,)] * (PLACES - RAN)))
    schedule = "".join(f"GO T{it}\n" for it in range(TASKS))
    events = "".join(f"\nEVENT {it + 1} GO T{it}" for it in range(TASKS))
    gives(["replay"], job() + f"{schedule}ENDSCHED\n".encode(), report(f"COVERAGE REPLAY{events}"))


def early() -> None:
    """limits: early of a session over 65,536 places, which one of 64 tasks opens and closes"""
    ran = run([PROGRAM, "early"], controlled())
    done = Result("EXIT", STRETCH + 4, registers={2: 0x100000, 14: 0x40000004, 15: 0}, name="C")
    others = [Result("RETURNED", 1, name=f"T{it}", entry=0) for it in range(1, TASKS)]
    wanted = program().report([done, *others], marks(STRETCH), PLACES, rest(STRETCH))
    equal((ran.status, ran.error), (0, ""))
    had, count = re.subn(rb"(NOT DRAINED|DRAINED COUNT [0-9]+)\nEND\n$", b"END\n", ran.output)
    assert (had, count) == (wanted, 1), f"{len(had)} bytes, and not the {len(wanted)} that are wanted"


def files() -> None:
    """limits: marks, combine, show, prove and verify of 65,536 places and 32,768 facts"""
    gives(["marks", "S"], job(), file())
    gives(["combine"], file() + file(), file(2))
    gives(["show", "S"], job() + file(), program().shown(marks(RAN), PLACES, rest(RAN)))
    gives(["prove", "S"], job(), evidence())
    gives(["verify", "S"], job() + file() + evidence(), f"VERIFIED S FACTS {RAN}\n".encode())


def lists() -> None:
    """limits: table and ends of 65,536 places and 64 tasks"""
    places = "".join(f"PLACE {at:06X} 2 S {code}\n" for at, code, _ in program().code)
    gives(["table"], job(), f"COVERAGE TABLE\nMODULE M PLACES {PLACES}\n{places}END\n".encode())
    ended = "".join(f"TASK T{it} RETURNED COUNT {STRETCH} AT FFFFFE\n" for it in range(TASKS))
    gives(["ends"], job(), f"COVERAGE ENDS\n{ended}UNLISTED M 0\nEND\n".encode())


ENDLESS = "".join(task("DATA 0 47F00000", f"TASK T{it} 000000 16 50000000 0\n") for it in range(TASKS))
# The first program with tasks that run for half a minute of a processor; with a session that one of them controls, a line
# behind its end, and another module behind a listing.
LONG = FIRST.job(ENDLESS)
CONTROLLED = LONG.replace(b"SESSION S M\n", b"SESSION S BY T1 M\n")
LONGER = FIRST.job(ENDLESS, more="\n")
OTHER = LONG.replace(b"TEXT 4110", b"TEXT 4120")
FILE, OTHER_FILE = FIRST.marks_file(0, 0, 0), FIRST.marks_file(0, 0, 1).replace(b"\x1a\x11", b"\x1a\x12")
RUNLESS = [
    *((word.split(), LONGER, 2) for word in ("run", "exits", "early", "count", "marks S", "ends", "prove S")),
    *((word.split(), OTHER, 3) for word in ("run", "exits", "early", "count", "marks S", "ends", "prove S", "replay")),
    *((word.split(), LONG, 13) for word in ("marks X", "show X", "prove X", "verify X")),
    *((word.split(), CONTROLLED, 14) for word in ("count", "prove S", "verify S")),
    (["replay"], LONG + b"GO T\n", 9),
    *((word.split(), LONG + FILE[:-1], 10) for word in ("show S", "verify S")),
    *((word.split(), LONG + OTHER_FILE, 11) for word in ("show S", "verify S")),
    (["verify", "S"], LONG + FILE, 15),
    (["table"], LONG, 0),
    (["show", "S"], LONG + FILE, 0),
    (["replay"], LONG + b"ENDSCHED\n", 0),
]


def runless() -> None:
    """limits: no task is run of a job of 64 endless tasks that is refused, or of which a command runs none"""
    for words, data, status in RUNLESS:
        before = resource.getrusage(resource.RUSAGE_CHILDREN)
        equal((words, run([PROGRAM, *words], data).status), (words, status))
        after = resource.getrusage(resource.RUSAGE_CHILDREN)
        # Some hundredth of a second of a processor.
        assert after.ru_utime - before.ru_utime < 4, (words, after.ru_utime - before.ru_utime)


@lru_cache(None)
def most_cards() -> bytes:
    """16 modules with a listing each, 16 phases with a session and four tasks each, with the most private storage and room."""
    module = FIRST.job().partition(b"PHASE")[0].partition(b"\n")[2]
    modules = [module.replace(b"M 100000", f"M{it} {0x100000 + 8 * it:06X}".encode(), 1) for it in range(16)]
    phases = [f"PHASE P{it}\nSESSION S{it} M{it}\n" + "".join(
        f"TASK T{4 * it + n} {0x100000 + 8 * it:06X} 1048576 {n} 65536\n" for n in range(1, 5)) for it in range(16)]
    return b"COVERJOB 1\n" + b"".join(modules) + "".join(phases).encode() + b"ENDJOB\n"


def cards() -> None:
    """limits: each command of a job of 16 modules, phases and sessions, and 64 tasks"""
    job, session = most_cards(), ["S15"]
    marks, proved = (run([PROGRAM, word, *session], job).output for word in ("marks", "prove"))
    named = (("marks", b""), ("prove", b""), ("show", marks), ("verify", marks + proved))
    alone = [([it], b"") for it in ("run", "exits", "early", "count", "table", "ends")]
    for words, behind in [*alone, *(([it, *session], behind) for it, behind in named)]:
        ran, wanted = run([PROGRAM, *words], job + behind), answer(words, job + behind)
        equal((words, ran.status, wanted.fault(ran.status, ran.output)), (words, 0, None))


SIZE, MODULES = 262_144, 16


class Sparse(Module):
    """A module of as many bytes as one may have, of whose instructions each sixteenth is a place."""

    def located(self) -> list[tuple[int, str, str]]:
        return [(at, "41100000", "LA") for at in range(0, SIZE, 64)]


@lru_cache(None)
def widest(by: str | None) -> bytes:
    """16 modules of the most bytes, whose 65,536 places lie in all their pages, under a session, and each under one of C too."""
    modules: list[Module] = [Sparse(f"M{it}", 0x100000 + SIZE * it, ["41100000"] * (SIZE // 4)) for it in range(MODULES)]
    sessions = [Session("S0", modules, by)]
    sessions += [Session(f"S{it}", [modules[it]], by) for it in range(1, 16)] if by else []
    return job_of(modules, sessions, [Task("C", 0, 100, private="0A040A05" * 16 + "07FE" if by else "07FE")])


@lru_cache(None)
def fullest() -> bytes:
    """A task whose cards give each byte of its private storage, and some once more, and more than a mebibyte of input."""
    data = [f"DATA {at} {'C1' * 64}" for at in range(0, 1_048_576, 64)]
    cards = [*data, *["DATA 0 07FE"] * 1000, *[f"INPUT {'C1' * 64}"] * 40_000]
    return FIRST.job(task(" / ".join(cards), "TASK A 000000 1048576 100 0\n"))


def told(job: bytes, *words: str, behind: bytes = b"") -> bytes:
    """What a command tells of it, which is no refusal."""
    ran = run([PROGRAM, *words], job + behind)
    equal((words, ran.status, ran.error), (words, 0, ""))
    return ran.output


def wide() -> None:
    """limits: each command of 16 modules of the most bytes, over which is one session, and of 16 sessions of one task"""
    whole, every = widest(None), b"PLACES 4096 EXECUTED 0 "
    for word in ("run", "exits"):
        equal((told(whole, word).count(every), told(widest("C"), word).count(every)), (MODULES, 2 * MODULES - 1))
    for job, sessions in ((whole, MODULES), (widest("C"), 2 * MODULES - 1)):
        equal(told(job, "replay", behind=b"ENDSCHED\n").count(every), sessions)
    equal(told(widest("C"), "early").count(b"\nDRAINED COUNT "), 16)
    equal((told(whole, "count").count(b"COUNT 0"), told(whole, "table").count(b"\nPLACE ")), (PLACES, PLACES))
    equal(told(whole, "ends").count(b"\nUNLISTED "), MODULES)
    marks = told(whole, "marks", "S0")
    equal(told(whole, "show", "S0", behind=marks).count(every), MODULES)
    equal(told(whole, "verify", "S0", behind=marks + told(whole, "prove", "S0")), b"VERIFIED S0 FACTS 0\n")
    equal(len(told(marks, "combine", behind=marks)), len(marks))


def full() -> None:
    """limits: a task with cards for each byte of its private storage and beyond, and with input"""
    for word in ("run", "exits", "count", "ends"):
        equal(told(fullest(), word).splitlines()[1].split(b" AT")[0], b"TASK A RETURNED COUNT 1" + b" CC 0" * (word != "ends"))


def lines() -> None:
    """limits: inputs that are full of a listing's lines, of cards of storage, and of cards of input"""
    room = INPUT - len(FIRST.job())
    # The number of the listing's lines has seven digits more.
    job = FIRST.job(listing=[*FIRST.listing(), *[""] * (room - 7)])
    gives(["run"], job, FIRST_REPORT.replace(b"END\n", b"  \n" * (room - 7) + b"END\n"))
    for card in ("DATA 0 07\n", f"INPUT {'C1' * 64}\n"):
        gives(["run"], FIRST.job(TASK + card * (room // len(card))), FIRST_REPORT)


def services() -> None:
    """limits: a service for each number that may have one, of which the last is called"""
    served = "".join(f"SERVICE {it} 100004\n" for it in (0, *range(6, 255)))
    called = Program.of("0 0AFE SVC, 2 07FE BR, 4 41100007 LA, 8 07FE BR")
    job = called.job().replace(b"PHASE P", f"{served}PHASE P".encode())
    done = [Result("RETURNED", 4, registers={1: 7, 15: 0x100004})]
    gives(["services", "run"], job, called.report(done, "::::", 4))
    gives(["services", "count"], job, called.counted(done, *[(1,)] * 4))
    gives(["services", "ends"], job, b"COVERAGE ENDS\nTASK A RETURNED COUNT 4 AT FFFFFE\nUNLISTED M 0\nEND\n")


def inputs() -> None:
    """limits: combine of 16 MB of files, and replay of 16 MB of items"""
    file = FIRST.marks_file(1, 0, 1)
    count = INPUT // len(file)
    gives(["combine"], file * count, FIRST.marks_file(1, 0, 1, runs=count))
    job = FIRST.job(task("DATA 0 47F00000", "TASK A 000000 16 3000000 0\n"))
    # The last DO ends the task, which has done all of its budget.
    count = 3_000_001
    events = "".join(f"\nEVENT {it} DO A" for it in range(1, count + 1))
    spent = [Result("SPENT", count - 1, entry=0)]
    wanted = FIRST.report(spent, "^^^", 3, "000000-000007", title=f"COVERAGE REPLAY{events}")
    gives(["replay"], job + b"DO A\n" * count + b"ENDSCHED\n", wanted)


CHECKS = [runs, early, files, lists, cards, wide, full, lines, services, inputs, runless]
