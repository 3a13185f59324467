"""services: jobs whose routines answer supervisor calls, refused cards and words, each with what must come of it; and the model on them."""
from __future__ import annotations

from dataclasses import dataclass, replace

from fixtures.harness import Case
from fixtures.jobs import TASK, USAGE, Program, Result, code_of, listing_of, task
from models import answers

CODE = "0 0A0A SVC, 2 07FE BR, 4 41100007 LA, 8 07FE BR"
SHORT = "0 0A0A SVC, 2 07FE BR"
CARD = "SERVICE 10 100004"
IN_PRIVATE = "TASK A 000000 16 100 0\n"
WORDS = ["services", "run"]
# Registers 14 and 15 in a routine that begins at 100004.
INSIDE = "14=FFFFFC 15=100004"
# The commands that read a job, without the word before them.
PLAIN = ("run", "exits", "early", "count", "table", "replay", "ends", "marks S", "show S", "prove S", "verify S")
# A routine that writes, and calls another; and a call under EX.
WITHIN = "0 0A0A SVC, 2 07FE BR, 4 41000002 LA, 8 0A01 SVC, A 0A23 SVC, C 07FE BR"
EXECUTED = "0 4420F00C EX, 4 07FE BR, 6 41100007 LA, A 07FE BR, C 0A02 SVC"


def result(text: str, name: str = "A", entry: int = 0x100000, output: bytes = b"") -> Result:
    """What comes of a task, as 'RETURNED COUNT 4 CC 0, 1=7 15=100004'; registers that aren't named are as at the start."""
    front, _, named = text.partition(", ")
    ending, _, counts = front.partition(" COUNT ")
    count, _, condition = counts.partition(" CC ")
    registers = {int(key): int(value, 16) for key, value in (it.split("=") for it in named.split())}
    return Result(ending, int(count), int(condition or "0"), registers, output, name=name, entry=entry)


@dataclass
class Row:
    """A job of module M with a plain listing, SERVICE cards, session S and one task."""

    code: str
    services: list[str]
    cards: str = ""
    head: str = TASK

    def program(self) -> Program:
        return Program.of(self.code)

    def job(self) -> bytes:
        return with_services(self.program().job(task(self.cards, self.head)), self.services)

    def ranges(self, marks: str) -> list[str]:
        """What was not executed."""
        found: list[list[int]] = []
        for (at, digits, _), mark, before in zip(self.program().code, marks, f":{marks}"):
            if mark == "^" and before != "^":
                found.append([at, 0])
            if mark == "^":
                found[-1][1] = at + len(digits) // 2 - 1
        return [f"{first:06X}-{last:06X}" for first, last in found]

    def runs(self, text: str, marks: str, output: bytes = b"") -> Case:
        """`services run` of it; the registers that its REG cards give are as at the start."""
        entry = int(self.head.split()[2], 16)
        had = result(text, entry=entry, output=output)
        given = {int(it.split()[1]): int(it.split()[2], 16) for it in self.cards.split(" / ") if it.startswith("REG ")}
        had = replace(had, registers={**given, **had.registers})
        wanted = self.program().report([had], marks, len(self.program().code), *self.ranges(marks))
        return Case(self.name("run"), WORDS, self.job(), wanted)

    def ends(self, text: str, missed: int = 0, without: str = "") -> Case:
        """`services ends` of it, with a listing that has no line of some locations."""
        program = self.program()
        left = [it for it in program.code if f"{it[0]:X}" not in without.split()]
        job = with_services(program.job(task(self.cards, self.head), listing_of(left)), self.services)
        wanted = f"COVERAGE ENDS\nTASK A {text}\nUNLISTED M {missed}\nEND\n".encode()
        return Case(f"{self.name('ends')} without {without or 'nothing'}", ["services", "ends"], job, wanted)

    def name(self, command: str) -> str:
        return f"services {command} of {self.code}: {', '.join(self.services)}, {self.head.strip()}, {self.cards}"


def with_services(job: bytes, services: list[str]) -> bytes:
    """The job with these cards behind its modules."""
    front, end = job.split(b"PHASE P\n", 1)
    return front + "".join(f"{it}\n" for it in services).encode() + b"PHASE P\n" + end


def budget(of: int) -> str:
    return f"TASK A 100000 16 {of} 0\n"


def returning() -> list[Case]:
    """Routines that return: which number is served, and what of registers, condition code and mask stays."""
    first = Row(CODE, [CARD])
    whole = first.runs("RETURNED COUNT 4, 1=7 15=100004", "::::")
    counted = first.program().counted([result("RETURNED COUNT 4, 1=7 15=100004")], (1,), (1,), (1,), (1,))
    bad = "BADSVC 10 COUNT 1"
    mask = "0 0420 SPM, 2 0A0A SVC, 4 0580 BALR, 6 07FE BR, 8 0500 BALR, A 0430 SPM, C 0510 BALR, E 07FE BR"
    words = "".join(f"111111{it:02X}" for it in range(0x10, 0x1E)) + "00FFFFFC1111111F"
    loads = Row("0 0A0A SVC, 2 07FE BR, 4 980F0000 LM, 8 07FE BR", [CARD], f"REG 2 AAAAAAAA / REG 13 BBBBBBBB / DATA 0 {words}",
                "TASK A 100000 64 100 0\n")
    executed = Row(EXECUTED, ["SERVICE 10 100006"], "REG 2 00000008")
    return [
        whole,
        Case("services count of a routine", ["services", "count"], first.job(), counted),
        *(Case(f"{it} of a job with services", it.split(), first.job(), b"BAD JOB LINE 10\n", 2) for it in PLAIN),
        *(Row(CODE, it.splitlines()).runs(bad, ":^^^") for it in ("", "SERVICE 9 100004", "SERVICE 11 100004")),
        *(Row(CODE.replace("0A0A", f"0A{it:02X}"), [f"SERVICE {it} 100004"]).runs("RETURNED COUNT 4, 1=7 15=100004", "::::")
          for it in (0, 6, 254)),
        Row(mask, ["SERVICE 10 100008"], "REG 2 18000000 / REG 3 24000000").runs(
            "RETURNED COUNT 8 CC 1, 0=5810000A 1=6410000E 8=58100006 15=100008", "::::::::"),
        loads.runs("RETURNED COUNT 4, 0=11111110 1=11111111 15=1111111F", "::::"),
        executed.runs("RETURNED COUNT 4, 1=7 15=100006", ":::::"),
    ]


def ending() -> list[Case]:
    """Calls within a routine, entries of every kind, budgets, and routines that don't return."""
    within = Row(WITHIN, [CARD, "SERVICE 35 100002"], "DATA 0 C1C2", "TASK A 100000 16 100 4\n")
    odd, nowhere, back = ["SERVICE 10 100003"], ["SERVICE 10 F00000"], ["SERVICE 10 fffffc"]
    leaving = "0 0A0A SVC, 2 07FE BR, 4 41200005 LA, 8 41EE0002 LA, C 07FE BR"
    return [
        within.runs(f"BADSVC 35 COUNT 4, 0=2 {INSIDE}", ":^:::^", b"\xc1\xc2"),
        Row(SHORT, back).runs("RETURNED COUNT 2, 15=FFFFFC", "::"),
        Row("0 0A0A SVC, 2 07FF BR", back).runs("ABEND 5 COUNT 3, 15=FFFFFC", "::"),
        Row(SHORT, back, head="TASK A FFFFFC 16 100 0\n").runs("ABEND 5 COUNT 1", "^^"),
        Row(SHORT, odd).runs("ABEND 6 COUNT 2, 14=FFFFFC 15=100003", ":^"),
        Row(SHORT, nowhere).runs("ABEND 5 COUNT 2, 14=FFFFFC 15=F00000", ":^"),
        Row(SHORT, ["SERVICE 10 FFFFFE"]).runs("RETURNED COUNT 1, 14=FFFFFC 15=FFFFFE", ":^"),
        Row(CODE, [CARD], head=budget(4)).runs("RETURNED COUNT 4, 1=7 15=100004", "::::"),
        Row(CODE, [CARD], head=budget(3)).runs("SPENT COUNT 3, 1=7 15=100004", ":^::"),
        Row(CODE, [CARD], head=budget(2)).runs(f"SPENT COUNT 2, 1=7 {INSIDE}", ":^:^"),
        Row(CODE, [CARD], head=budget(1)).runs(f"SPENT COUNT 1, {INSIDE}", ":^^^"),
        Row(leaving, [CARD]).runs("RETURNED COUNT 4, 2=5 15=100004", ":^:::"),
        Row("0 0A0A SVC, 2 07FE BR, 4 47F0F000 BC", [CARD]).runs(f"SPENT COUNT 100, {INSIDE}", ":^:"),
        Row("0 0A0A SVC, 2 07FE BR, 4 41200005 LA, 8 0A03 SVC", [CARD]).runs(f"EXIT COUNT 3, 2=5 {INSIDE}", ":^::"),
    ]


def several() -> list[Case]:
    """A routine in a module of its own, one that opens and closes a session, two tasks, and no module."""
    calls, routine = Program.of("0 0A0A SVC, 2 0A0A SVC, 4 07FE BR"), Program.of("0 1211 LTR, 2 4780F008 BE, 6 1B11 SR, 8 07FE BR")
    modules = [it.job().partition(b"\n")[2].partition(b"PHASE P\n")[0] for it in (calls, routine)]
    own = modules[1].replace(b"MODULE M 100000", b"MODULE R 100100")
    job = b"COVERJOB 1\n" + modules[0] + own + b"SERVICE 10 100100\nPHASE P\nSESSION S R\n" + task("REG 1 00000001").encode() + b"ENDJOB\n"

    def of_routine(text: bytes) -> bytes:
        """What is written of module R in place of M."""
        return text.replace(b"\nMODULE M ", b"\nMODULE R ")

    end = result("RETURNED COUNT 10, 15=100100")
    bases = [name + base.to_bytes(4, "big") for name, base in ((b"M       ", 0x100000), (b"R       ", 0x100100))]
    file, united = (routine.marks_file(1, 6, 1, 1, runs=it).replace(bases[0], bases[1]) for it in (1, 2))
    tables = (b"COVERAGE TABLE\nMODULE M PLACES 3\nPLACE 000000 2 S 0A0A\nPLACE 000002 2 S 0A0A\nPLACE 000004 2 S 07FE\n"
              b"MODULE R PLACES 4\nPLACE 000000 2 S 1211\nPLACE 000002 4 C 4780\nPLACE 000006 2 S 1B11\nPLACE 000008 2 S 07FE\nEND\n")
    opening = Program.of("0 0A04 SVC, 2 41100007 LA, 6 0A05 SVC, 8 07FE BR")
    controlled = opening.job(task("DATA 0 0A0A07FE", "TASK C 000000 16 100 0\n")).replace(b"SESSION S M", b"SESSION S BY C M")
    controlled = with_services(controlled, ["SERVICE 10 100000"])
    opened = result("RETURNED COUNT 6, 1=7 15=100000", "C", 0)
    both = Program.of("0 1822 LR, 2 0A0A SVC, 4 1A12 AR, 6 07FE BR, 8 1812 LR, A 4120000F LA, E 07FE BR")
    tasks = task("REG 2 00000003") + task("REG 2 FFFFFFFF", "TASK B 100000 16 6 0\n")
    ends = [result("RETURNED COUNT 7 CC 2, 1=6 2=3 15=100008"), result("SPENT COUNT 6 CC 1, 1=FFFFFFFE 2=FFFFFFFF 15=100008", "B")]
    bare = "COVERJOB 1\nSERVICE 10 000006\nPHASE P\n" + task("DATA 0 0A0A07FE00001BFF07FE", IN_PRIVATE) + "ENDJOB\n"
    alone = ["COVERAGE REPORT", *result("RETURNED COUNT 4, 15=0", entry=0).lines(), "END", ""]
    return [
        Case("services run of a routine in a module of its own", WORDS, job, of_routine(routine.report([end], ":&::", 5))),
        Case("services count of it", ["services", "count"], job, of_routine(routine.counted([end], (2,), (1, 1), (1,), (2,)))),
        Case("services marks of it", ["services", "marks", "S"], job, file),
        Case("services table of it", ["services", "table"], job, tables),
        Case("combine of its marks and those of another run", ["combine"], file + file, united),
        Case("services marks of a session that it lacks", ["services", "marks", "X"], job, b"NO SESSION X\n", 13),
        Case("services show of it", ["services", "show", "S"], job + file, of_routine(routine.shown(":&::", 5))),
        Case("show of it", ["show", "S"], job + file, b"BAD JOB LINE 17\n", 2),
        Case("services show of it with a card behind its end", ["services", "show", "S"], job + b"SERVICE 10 100100\n", b"BAD MARKS OFFSET 0\n", 10),
        Case("services run of a routine that opens and closes a session", WORDS, controlled,
             opening.report([opened], "^::^", 4, "000000-000001", "000008-000009")),
        Case("services count of it", ["services", "count"], controlled, b"CONTROLLED S\n", 14),
        Case("services run of two tasks", WORDS, with_services(both.job(tasks), ["SERVICE 10 100008"]), both.report(ends, ":::::::", 7)),
        Case("services run without a module", WORDS, bare.encode(), "\n".join(alone).encode()),
        Case("services ends without a module", ["services", "ends"], bare.replace(" 16 100 0", " 16 3 0").encode(),
             b"COVERAGE ENDS\nTASK A SPENT COUNT 3 AT 000002 PRIVATE\nEND\n"),
    ]


def where_they_end() -> list[Case]:
    """Where tasks end, in a routine and in its caller."""
    first, left = Row(CODE, [CARD]), Row("0 41100005 LA, 4 1A11 AR, 6 07FE BR", [])
    within = Row(WITHIN, [CARD, "SERVICE 35 100002"], "DATA 0 C1C2", "TASK A 100000 16 100 4\n")
    executed = Row(EXECUTED, ["SERVICE 10 100006"], "REG 2 00000008")
    return [
        left.ends("RETURNED COUNT 3 AT FFFFFE"),
        first.ends("RETURNED COUNT 4 AT FFFFFE"),
        first.ends("RETURNED COUNT 4 AT FFFFFE", 2, "4 8"),
        Row(CODE, [CARD], head=budget(1)).ends("SPENT COUNT 1 AT 100004 M 000004"),
        Row(CODE, [CARD], head=budget(2)).ends("SPENT COUNT 2 AT 100008 M 000008"),
        Row(CODE, [CARD], head=budget(3)).ends("SPENT COUNT 3 AT 100002 M 000002"),
        Row(CODE, []).ends("BADSVC 10 COUNT 1 AT 100000 M 000000"),
        executed.ends("RETURNED COUNT 4 AT FFFFFE"),
        within.ends("BADSVC 35 COUNT 4 AT 10000A M 00000A"),
        Row("0 0A0A SVC, 2 07FF BR", ["SERVICE 10 FFFFFC"]).ends("ABEND 5 COUNT 3 AT FFFFFC"),
        Row(SHORT, ["SERVICE 10 100003"]).ends("ABEND 6 COUNT 2 AT 100003 M 000003"),
        Row(SHORT, ["SERVICE 10 F00000"]).ends("ABEND 5 COUNT 2 AT F00000"),
        Row(SHORT, ["SERVICE 10 FFFFFE"]).ends("RETURNED COUNT 1 AT FFFFFE"),
    ]


# Lines in place of the card on line 10, parted by '/', and the line that is bad.
BAD_CARDS = [
    *((f"SERVICE {it} 100004", 10) for it in ("1", "2", "3", "4", "5", "255", "256", "010", "00", "-6", "A", "1000000000")),
    *((f"SERVICE 10 {it}", 10) for it in ("10000", "1000004", "10000G", "100004 0")),
    *((it, 10) for it in ("SERVICE 10", "SERVICE", "SERVICE  10 100004", "SERVICE 10  100004", " SERVICE 10 100004", "SERVICE 10 100004 ")),
    *((it, 10) for it in ("SERVICE 10 100004\r", "service 10 100004", "SERVICES 10 100004", "SERVICE\t10 100004")),
    *((f"{CARD}/{it}", 11) for it in (CARD, "SERVICE 10 100006", "SERVICE 9 100004")),
    *((f"{CARD}/{it}", 11) for it in ("MODULE N 180000 2", "LISTING 0", "TEXT 07FE", "COVERJOB 1")),
    ("SERVICE 35 100004/SERVICE 10 100004", 11),
    ("SERVICE 254 100004/SERVICE 255 100004", 11),
    ("SERVICE 0 100004/SERVICE 0 100004", 11),
    ("SERVICE 0 100004/SERVICE 6 100004/SERVICE 7 100004/SERVICE 6 100004", 13),
    (f"PHASE Q/{CARD}", 11),
]
# How many lines of the job without the card stand before the card, and the line that is bad.
ELSEWHERE = [(0, 1), (1, 3), (2, 3), (3, 5), (10, 11), (11, 12), (12, 13), (13, 14)]


def refusals() -> list[Case]:
    """Cards that are bad, and the card in other places."""
    job, bare = Row(CODE, [CARD]).job(), Row(CODE, []).job()
    lines = bare.split(b"\n")

    def bad(name: str, data: bytes, line: int) -> Case:
        return Case(f"services run with {name}", WORDS, data, f"BAD JOB LINE {line}\n".encode(), 2)

    def elsewhere(before: int) -> bytes:
        return b"\n".join([*lines[:before], CARD.encode(), *lines[before:]])

    listed = elsewhere(6).replace(b"LISTING 5", b"LISTING 6")
    plain = Row(CODE, []).runs("BADSVC 10 COUNT 1", ":^^^").output
    # Behind the heading and the line of the first instruction.
    at = plain.index(b"\n^ 000002") + 1
    heading, line = listing_of(code_of("0 07FE BR"))
    among = Program(code_of("0 07FE BR"), [heading, CARD, line])
    return [
        *(bad(repr(it), job.replace(CARD.encode(), it.replace("/", "\n").encode()), line) for it, line in BAD_CARDS),
        *(bad(f"the card behind line {before}", elsewhere(before), line) for before, line in ELSEWHERE),
        Case("services show of a job with the card behind its end", ["services", "show", "S"], elsewhere(13), b"BAD MARKS OFFSET 0\n", 10),
        Case("services run with the card among the lines of a listing", WORDS, listed, plain[:at] + b"  SERVICE 10 100004\n" + plain[at:]),
        Case("services run with the card among the lines of a listing, and none", WORDS, among.job(), among.report([result("RETURNED COUNT 1")], ":", 1)),
        bad("a line behind the end", job + b"\n", 15),
        bad("no end", job.replace(b"ENDJOB\n", b""), 14),
    ]


NO_COMMANDS = [
    ["services"], ["services", ""], ["services", "exits"], ["services", "early"], ["services", "replay"], ["services", "combine"],
    ["services", "trial", "7", "8"], ["services", "prove", "S"], ["services", "verify", "S"], ["services", "services"],
    ["services", "services", "run"], ["services", "run", "x"], ["services", "run", "services"], ["services", "table", "S"],
    ["services", "count", "S"], ["services", "marks"], ["services", "marks", ""], ["services", "marks", "s"], ["services", "marks", "S", "S"],
    ["services", "show"], ["services", "show", "9X"], ["services", "ends", "x"], ["ends", "services"], ["Services", "run"],
    ["SERVICES", "run"], ["service", "run"],
    ["services", "Run"], ["run", "services"], ["marks", "services"], ["marks", "S", "services"],
]


def cases() -> list[Case]:
    """All rows."""
    data = Row(CODE, [CARD]).job()
    words = [Case(f"the words {' '.join(it)}", it, given, USAGE, 1) for it in NO_COMMANDS for given in (b"", data)]
    return [*returning(), *ending(), *several(), *where_they_end(), *refusals(), *words]


def model_meets_rows() -> None:
    """services: the model against the rows"""
    for it in cases():
        answer = answers.answer(it.words, it.input)
        fault = answer.fault(it.status, it.output)
        assert fault is None and answer.is_one() == (b" BY " not in it.input or it.status > 0), f"{it.name}: {fault}"


CHECKS = [model_meets_rows]
