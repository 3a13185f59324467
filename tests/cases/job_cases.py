"""job: how it puts cards together and refuses each rule that is broken; and job --check beside models/model.py and the program."""
from __future__ import annotations

import os
import random
import re
import resource
import subprocess
import sys
from concurrent.futures import ThreadPoolExecutor
from typing import Callable, Iterator

from fixtures.harness import PROGRAM, SECONDS, TOP, coverage, equal, folder, misused, refused, well
from fixtures.jobs import FIRST, HEADING
from models import model

sys.path.insert(0, f"{TOP}/scripts")
from common.command import Fault  # noqa: E402
from makers import job as job_script  # noqa: E402

EXAMPLES = f"{TOP}/examples"
NAME = "a name is 1 to 8 characters, the first of A to Z, @, #, $, the others of these or digits"
NUMBER = "a number is 1 to 9 decimal digits, without a leading zero but for 0 itself"
BYTES = "bytes are an even number of hexadecimal digits, for 1 to 64 bytes"
ADDRESS = "an address is six hexadecimal digits"
SERVED = "those of services are 0 and 6 to 254"
PARTED = "words are parted by exactly one blank"
# A module of 8 bytes with a listing of a line; a phase with a session; a task.
MODULE = "MODULE M 100000 8\nTEXT 411000051A1107FE\nLISTING 1\n\n"
PHASE = "PHASE P\nSESSION S M\n"
TASK = "TASK A 100000 16 100 0\n"


def said(main: Callable[[], object], path: str) -> str:
    """What a refusal says, with - for this path. The tables are tried without a process for each row; a few rows have one."""
    try:
        main()
    except (job_script.Refused, Fault) as refusal:
        place = f"{refusal.place}: " if isinstance(refusal, job_script.Refused) else ""
        return f"{place}{refusal}".replace(path, "-", 1)
    return "nothing"


def fault_of(at: str, cards: str) -> str:
    """What job says of cards, in a file of this folder, that it refuses."""
    with open(f"{at}/tasks", "wb") as file:
        file.write(cards.encode())
    return said(lambda: job_script.put_together([f"{at}/tasks"]), f"{at}/tasks")


def jobs() -> None:
    """job: the pieces between COVERJOB and ENDJOB, a last line without its end, standard input"""
    module, phase, tasks = FIRST.job().partition(b"\n")[2].partition(b"PHASE P\n")
    with folder() as at:
        for name, data in (("module", module), ("phase", (phase + tasks)[: -len(b"\nENDJOB\n")])):
            with open(f"{at}/{name}", "wb") as file:
                file.write(data)
        equal(well(coverage("job", "module", "phase", cwd=at)).output, FIRST.job())
        equal(well(coverage("job", "module", "-", data=phase + tasks[: -len(b"ENDJOB\n")], cwd=at)).output, FIRST.job())
    # Cards of one module in two files, and nothing at all but a phase.
    for data in (b"PHASE P\n", MODULE.encode(), (MODULE + PHASE + TASK).encode()):
        equal(well(coverage("job", "-", data=data)).output, b"COVERJOB 1\n" + data + b"ENDJOB\n")


def services() -> None:
    """job: SERVICE cards behind the last module, which --check refuses but with --services"""
    cards, tasks = MODULE + "SERVICE 10 100004\nSERVICE 35 fffffc\n", PHASE + TASK
    whole = f"COVERJOB 1\n{cards}{tasks}ENDJOB\n".encode()
    with folder() as at:
        for name, text in (("module", cards), ("tasks", tasks), ("job", whole.decode()), ("other", MODULE.replace(" M 1", " N 2"))):
            with open(f"{at}/{name}", "w", encoding="ascii") as file:
                file.write(text)
        equal(well(coverage("job", "module", "tasks", cwd=at)).output, whole)
        for words, redirect in ((("job",), ""), ((), "<job"), (("-",), "<job")):
            equal(well(coverage("job", "--check", "--services", *words, redirect=redirect, cwd=at)).output, b"")
            equal(well(coverage("job", "--services", "--check", *words, redirect=redirect, cwd=at)).output, b"")
        ran = coverage("job", "--check", "job", cwd=at)
        refused(ran, 2)
        what = "services are for the commands behind the word services alone, and job --check --services reads such a job"
        equal(ran.error, f"coverage: job: line 6: SERVICE: {what}\n")
        ran = coverage("job", "module", "other", cwd=at)
        refused(ran, 2)
        equal(ran.error, "coverage: other: line 1: MODULE: a module behind the service 35 of module: line 6; modules stand before all services\n")


# Each rule of docs/JOB.md, broken: the line of a text parted by /, and the whole message behind it.
BROKEN = [
    # Lines and words.
    (1, "", "no card: the line is empty"),
    (2, "PHASE P/TASK A 100000 16 100 0\r", "TASK: no card: a CR ends the line; lines end with LF alone"),
    (2, "PHASE P/TASK A  100000 16 100 0", f"TASK: two blanks stand in a row; {PARTED}, and none stands behind the last"),
    (2, "PHASE P/TASK A 100000 16 100 0 ", f"TASK: a blank ends the line; {PARTED}, and none stands behind the last"),
    (2, "PHASE P/ REG 1 00000001", "no card: a blank begins the line"),
    (2, "PHASE P/TASK\tA", f"no card: the line has a tab; {PARTED}"),
    (2, "PHASE P/* text", "no card: a job has no comments"),
    (2, "PHASE P/reg 1 00000001", "no card: reg is in lower case; the card is REG"),
    (2, "PHASE P/TASKS A", "no card: TASKS is none of COVERJOB, MODULE, TEXT, LISTING, SERVICE, PHASE, SESSION, TASK, REG, DATA, INPUT, ENDJOB"),
    (2, "PHASE P/INPUT Ä", "INPUT: no card: the line has the byte X'C3', which is no character of ASCII"),
    (1, "\ufeffPHASE P", "no card: a byte order mark begins the line; a job is ASCII text"),
    (1, "PHASE", "PHASE: 0 words behind PHASE; the card is PHASE name"),
    (1, "PHASE P Q", "PHASE: 2 words behind PHASE; the card is PHASE name"),
    # What stands around all files.
    (2, "PHASE P/ENDJOB", "ENDJOB: this card stands around all files, and job writes it itself; --check reads a whole job"),
    (1, "COVERJOB 1", "COVERJOB: this card stands around all files, and job writes it itself; --check reads a whole job"),
    # Names.
    (2, "PHASE P/TASK first 100000 16 100 0", f"TASK: the name first is in lower case; {NAME}"),
    (1, "PHASE 1P", f"PHASE: the name 1P begins with a digit; {NAME}"),
    (1, "PHASE ABCDEFGHI", f"PHASE: the name ABCDEFGHI has 9 characters; {NAME}"),
    (1, "PHASE A-B", f"PHASE: the name A-B has the character '-'; {NAME}"),
    # MODULE.
    (1, "MODULE M 100000", "MODULE: 2 words behind MODULE; the card is MODULE name base size"),
    (1, "MODULE M 10000 2", f"MODULE: the base 10000 has 5 digits; {ADDRESS}"),
    (1, "MODULE M 10000G 2", f"MODULE: the base 10000G has 'G', which is no hexadecimal digit; {ADDRESS}"),
    (1, "MODULE M 100004 2", "MODULE: the base 100004 is no multiple of 8"),
    (1, "MODULE M 0FFFF8 2", "MODULE: the base 0FFFF8 is below 100000, where modules begin"),
    (1, "MODULE M 100000 0", "MODULE: a module of 0 bytes: the least size is 2"),
    (1, "MODULE M 100000 3", "MODULE: a module of 3 bytes: the size is odd"),
    (1, "MODULE M 100000 02", f"MODULE: the size 02 has a leading zero; {NUMBER}"),
    (1, "MODULE M 100000 1000000000", f"MODULE: the size 1000000000 has 10 digits; {NUMBER}"),
    (1, "MODULE M 100000 +2", f"MODULE: the size +2 is no number; {NUMBER}"),
    (1, "MODULE M FFEFF8 10", "MODULE: a module of 10 bytes at FFEFF8 goes past FFF000"),
    (1, "MODULE M 100000 262146/TEXT 00", "MODULE: the size is 262146: the limit SIZE is 262144"),
    (5, MODULE + "MODULE M 200000 2", "MODULE: the module of line 1 has the name M; names of one kind differ over the whole job"),
    (5, MODULE + "MODULE N 100000 2", "MODULE: its bytes 100000-100001 overlap 100000-100007, those of the module M of line 1"),
    # TEXT.
    (1, "TEXT 00", "TEXT: TEXT stands behind MODULE, and there is none yet"),
    (5, MODULE + "TEXT 00", "TEXT: the module M of line 1 has 8 of its 8 bytes already"),
    (6, MODULE + "PHASE P/TEXT 00", "TEXT: TEXT stands behind MODULE, before the phases"),
    (2, "MODULE M 100000 4/TEXT 0102030405", "TEXT: 5 bytes go past the module's size; the module M of line 1 has 0 of its 4 bytes before it"),
    (3, "MODULE M 100000 4/TEXT 01/TEXT 01020304", "TEXT: 4 bytes go past the module's size; the module M of line 1 has 1 of its 4 bytes before it"),
    (2, "MODULE M 100000 4/TEXT 012", f"TEXT: the bytes have 3 digits, an odd number; {BYTES}"),
    (2, "MODULE M 100000 4/TEXT 0G", f"TEXT: the bytes have 'G', which is no hexadecimal digit; {BYTES}"),
    (2, "MODULE M 100000 400/TEXT " + "00" * 65, f"TEXT: 65 bytes; {BYTES}"),
    (3, "MODULE M 100000 4/TEXT 01/PHASE P", "PHASE: the module M of line 1 has 1 of its 4 bytes, and its other TEXT cards come first"),
    (1, "MODULE M 100000 4/TEXT 01", "MODULE: its TEXT cards have 1 of its 4 bytes"),
    # LISTING.
    (3, "MODULE M 100000 2/TEXT 07FE/LISTING 2/PHASE P", "LISTING: a listing of 2 lines, of which the file has 1"),
    (1, "LISTING 0", "LISTING: LISTING stands behind the TEXT cards of a module, and there is none yet"),
    (2, "MODULE M 100000 2/LISTING 0", "LISTING: the module M of line 1 has 0 of its 2 bytes, and its other TEXT cards come first"),
    (3, "MODULE M 100000 2/TEXT 07FE/LISTING 01", f"LISTING: the count of lines 01 has a leading zero; {NUMBER}"),
    (5, MODULE + "LISTING 0", "LISTING: the module M has a listing already"),
    (6, MODULE + "PHASE P/LISTING 0", "LISTING: a listing behind the phase P of line 5; modules stand before all phases"),
    (5, "MODULE M 100000 2/TEXT 07FE/LISTING 3/" + "x" * 150 + "/" + "x" * 151 + "/", "a listing line of 151 bytes: the limit LINE is 150"),
    # SERVICE.
    (1, "SERVICE 10", "SERVICE: 1 word behind SERVICE; the card is SERVICE number entry"),
    (1, "SERVICE 10 100004 0", "SERVICE: 3 words behind SERVICE; the card is SERVICE number entry"),
    (1, "SERVICE 010 100004", f"SERVICE: the number 010 has a leading zero; {NUMBER}"),
    (1, "SERVICE -6 100004", f"SERVICE: the number -6 is no number; {NUMBER}"),
    (1, "SERVICE 10 10000", f"SERVICE: the entry 10000 has 5 digits; {ADDRESS}"),
    (1, "SERVICE 10 10000G", f"SERVICE: the entry 10000G has 'G', which is no hexadecimal digit; {ADDRESS}"),
    *((1, f"SERVICE {it} 100004", f"SERVICE: SVC {it} is a call of the task's own, and no service answers it; {SERVED}") for it in (1, 2, 3, 4, 5)),
    (1, "SERVICE 255 100004", f"SERVICE: SVC 255 is the breakpoint's own, and no service answers it; {SERVED}"),
    (1, "SERVICE 256 100004", "SERVICE: there is no SVC 256; they are 0 to 255"),
    (3, "SERVICE 0 fffffc/SERVICE 6 000001/SERVICE 6 100004", "SERVICE: the service 6 behind 6; the numbers of services rise"),
    (2, "SERVICE 35 100004/SERVICE 10 100004", "SERVICE: the service 10 behind 35; the numbers of services rise"),
    (3, "MODULE M 100000 4/TEXT 01/SERVICE 10 100004", "SERVICE: the module M of line 1 has 1 of its 4 bytes, and its other TEXT cards come first"),
    (6, MODULE + "SERVICE 10 100004/MODULE N 180000 2", "MODULE: a module behind the service 10 of line 5; modules stand before all services"),
    (4, "MODULE M 100000 2/TEXT 07FE/SERVICE 10 100004/LISTING 0", "LISTING: a listing behind the service 10 of line 3; modules stand before all services"),
    (6, MODULE + "SERVICE 10 100004/TEXT 00", "TEXT: the module M of line 1 has 8 of its 8 bytes already"),
    (2, "SERVICE 10 100004/TASK A 100000 16 100 0", "TASK: TASK stands behind PHASE, and there is none yet"),
    (2, "PHASE P/SERVICE 10 100004", "SERVICE: a service behind the phase P of line 1; services stand before all phases"),
    (2, "PHASE P/service 10 100004", "no card: service is in lower case; the card is SERVICE"),
    # PHASE.
    (2, "PHASE P/MODULE M 100000 2", "MODULE: a module behind the phase P of line 1; modules stand before all phases"),
    (2, "PHASE P/PHASE P", "PHASE: the phase of line 1 has the name P; names of one kind differ over the whole job"),
    (17, "/".join(f"PHASE P{it}" for it in range(17)), "PHASE: the phase is number 17: the limit PHASES is 16"),
    # SESSION.
    (1, "SESSION S M", "SESSION: SESSION stands behind PHASE, and there is none yet"),
    (2, "PHASE P/SESSION S", "SESSION: 1 word behind SESSION; the card is SESSION name module .."),
    (2, "PHASE P/SESSION S M", "SESSION: there is no module M; they stand first, and there is none yet"),
    (6, MODULE + "PHASE P/SESSION S N", "SESSION: there is no module N; those of the job are M"),
    (6, MODULE + "PHASE P/SESSION S M M", "SESSION: it names the module M twice"),
    (6, MODULE + "PHASE P/SESSION S m", f"SESSION: the module m is in lower case; {NAME}"),
    (7, MODULE + PHASE + "SESSION T M", "SESSION: the session S of line 6 has the module M in this phase already"),
    (8, MODULE + PHASE + "PHASE Q/SESSION S M", "SESSION: the session of line 6 has the name S; names of one kind differ over the whole job"),
    (8, MODULE + PHASE + TASK + "SESSION T M", "SESSION: a session behind the task A of line 7; a phase's sessions stand before its tasks"),
    (6, MODULE + "PHASE P/SESSION S BY", "SESSION: a controlled session names its task and one or more modules behind BY; the card is SESSION name BY task module .."),
    (6, MODULE + "PHASE P/SESSION S BY C", "SESSION: a controlled session names its task and one or more modules behind BY; the card is SESSION name BY task module .."),
    (6, MODULE + "PHASE P/SESSION S BY c M", f"SESSION: the task c is in lower case; {NAME}"),
    (7, MODULE + "PHASE P/SESSION S BY C M/SESSION T BY D M", "SESSION: the session S of line 6 has the module M in this phase already"),
    (7, MODULE + "PHASE P/SESSION S BY C M/SESSION T M", "SESSION: the session S of line 6 has the module M in this phase already"),
    (9, MODULE + PHASE + TASK + "PHASE Q/SESSION T BY A M", "SESSION: its controller A is a task of an earlier phase, line 7"),
    (7, MODULE + "PHASE P/SESSION S BY C M/PHASE Q", "PHASE: the phase P ends without the task C, the controller of the session S of line 6"),
    (6, MODULE + "PHASE P/SESSION S BY C M/" + TASK, "SESSION: the phase P has no task C, which is to open and close it"),
    (22, MODULE + "PHASE P/" + "/".join(f"SESSION S{it} BY C M" for it in range(17)), "SESSION: the session is number 17: the limit SESSIONS is 16"),
    # TASK.
    (1, "TASK A 100000 16 100 0", "TASK: TASK stands behind PHASE, and there is none yet"),
    (2, "PHASE P/TASK A 100000 16 100", "TASK: 4 words behind TASK; the card is TASK name entry private budget room"),
    (2, "PHASE P/TASK A 10000 16 100 0", f"TASK: the entry 10000 has 5 digits; {ADDRESS}"),
    (2, "PHASE P/TASK A 100000 016 100 0", f"TASK: the private storage 016 has a leading zero; {NUMBER}"),
    (2, "PHASE P/TASK A 100000 16 0 0", "TASK: the budget is 0; the least is 1 instruction"),
    (2, "PHASE P/TASK A 100000 16 1e3 0", f"TASK: the budget 1e3 is no number; {NUMBER}"),
    (2, "PHASE P/TASK A 100000 16 100 -1", f"TASK: the room -1 is no number; {NUMBER}"),
    (4, "PHASE P/" + TASK + "PHASE Q/" + TASK, "TASK: the task of line 2 has the name A; names of one kind differ over the whole job"),
    (2, "PHASE P/TASK A 100000 1048577 100 0", "TASK: the private storage is 1048577: the limit PRIVATE is 1048576"),
    (2, "PHASE P/TASK A 100000 16 50000001 0", "TASK: the budget is 50000001: the limit BUDGET is 50000000"),
    (2, "PHASE P/TASK A 100000 16 100 65537", "TASK: the room is 65537: the limit ROOM is 65536"),
    (66, "PHASE P/" + "/".join(f"TASK T{it} 100000 16 100 0" for it in range(65)), "TASK: the task is number 65: the limit TASKS is 64"),
    # REG, DATA, INPUT.
    (2, "PHASE P/REG 1 00000001", "REG: REG stands behind TASK, and the phase P has none yet"),
    (1, "INPUT 00", "INPUT: INPUT stands behind PHASE, and there is none yet"),
    (3, "PHASE P/" + TASK + "REG 16 00000001", "REG: there is no register 16; they are 0 to 15"),
    (3, "PHASE P/" + TASK + "REG 1 1", "REG: the value 1 has 1 digit; a register's value is eight hexadecimal digits"),
    (3, "PHASE P/" + TASK + "REG 01 00000001", f"REG: the register 01 has a leading zero; {NUMBER}"),
    (4, "PHASE P/" + TASK + "REG 2 00000001/REG 1 00000001", "REG: the register 1 behind 2; the registers of a task rise"),
    (4, "PHASE P/" + TASK + "REG 2 00000001/REG 2 00000001", "REG: the register 2 behind 2; the registers of a task rise"),
    (4, "PHASE P/" + TASK + "DATA 0 00/REG 2 00000001", "REG: REG behind DATA; a task's cards are REG, then DATA, then INPUT"),
    (4, "PHASE P/" + TASK + "INPUT 00/DATA 0 00", "DATA: DATA behind INPUT; a task's cards are REG, then DATA, then INPUT"),
    (4, "PHASE P/" + TASK + "INPUT 00/REG 0 00000000", "REG: REG behind INPUT; a task's cards are REG, then DATA, then INPUT"),
    (3, "PHASE P/" + TASK + "DATA 15 0102", "DATA: 2 bytes at 15 end behind 16, the private storage of the task A"),
    (3, "PHASE P/" + TASK + "DATA 16 01", "DATA: 1 byte at 16 ends behind 16, the private storage of the task A"),
    (3, "PHASE P/" + TASK + "DATA 00 01", f"DATA: the offset 00 has a leading zero; {NUMBER}"),
    (3, "PHASE P/" + TASK + "DATA 0", "DATA: 1 word behind DATA; the card is DATA offset bytes"),
    (3, "PHASE P/" + TASK + "INPUT 0", f"INPUT: the bytes have 1 digit, an odd number; {BYTES}"),
    (3, "PHASE P/" + TASK + "INPUT ..", f"INPUT: the bytes have '.', which is no hexadecimal digit; {BYTES}"),
]


def bad_cards() -> None:
    """job: each rule that is broken is refused by its line, its card and its cause; job --check names the same line of the whole job"""
    rows = [(number, cards.replace("/", "\n"), text) for number, cards, text in BROKEN]
    with folder() as at:
        found = [fault_of(at, cards if cards.endswith("\n") else cards + "\n") for _, cards, _ in rows]
    for number, cards, text in rows[2::17]:
        ran = coverage("job", "-", data=(cards + "\n" * (not cards.endswith("\n"))).encode())
        equal((ran.status, ran.output, ran.error), (2, b"", f"coverage: -: line {number}: {text}\n"))
    for (number, cards, text), had in zip(rows, found):
        equal(had, f"-: line {number}: {text}")
        # Behind COVERJOB 1; what is missing at the end is told there.
        if "around all files" in text or "of which the file" in text:
            continue
        at_end = text.startswith("MODULE: its TEXT") or "has no task" in text
        lines = cards.count("\n") + 1 - cards.endswith("\n")
        data = ("COVERJOB 1\n" + cards + ("" if cards.endswith("\n") else "\n") + "ENDJOB\n").encode()
        equal(line_of(data, True)[0], lines + 2 if at_end else number + 1)


def files_of_a_job() -> None:
    """job: the line is that of its own file, also where another file has the name, the phase or the module's bytes before"""
    with folder() as at:
        files = {"a.cards": MODULE, "b.cards": MODULE.replace("100000", "200000"), "c.tasks": PHASE + TASK, "d.tasks": "PHASE Q\n" + TASK,
                 "part": "MODULE M 100000 4\nTEXT 07FE\n", "rest": "TEXT 0700\n", "open": "PHASE R\nSESSION T BY C M\n", "task": TASK.replace(" A ", " C ")}
        for name, cards in files.items():
            with open(f"{at}/{name}", "w", encoding="ascii") as file:
                file.write(cards)
        for names, text in (
            ("a.cards b.cards", "b.cards: line 1: MODULE: the module of a.cards: line 1 has the name M; names of one kind differ over the whole job"),
            ("c.tasks a.cards", "c.tasks: line 2: SESSION: there is no module M; they stand first, and there is none yet"),
            ("a.cards c.tasks b.cards", "b.cards: line 1: MODULE: a module behind the phase P of c.tasks: line 1; modules stand before all phases"),
            ("a.cards c.tasks d.tasks", "d.tasks: line 2: TASK: the task of c.tasks: line 3 has the name A; names of one kind differ over the whole job"),
            ("part c.tasks", "c.tasks: line 1: PHASE: the module M of part: line 1 has 2 of its 4 bytes, and its other TEXT cards come first"),
            ("part", "part: line 1: MODULE: its TEXT cards have 2 of its 4 bytes"),
            ("a.cards open", "open: line 2: SESSION: the phase R has no task C, which is to open and close it"),
            ("a.cards open c.tasks", "c.tasks: line 1: PHASE: the phase R ends without the task C, the controller of the session T of open: line 2"),
        ):
            ran = coverage("job", *names.split(" "), cwd=at)
            refused(ran, 2)
            equal(ran.error, f"coverage: {text}\n")
        for names in ("part rest c.tasks", "a.cards open task"):
            data = well(coverage("job", *names.split(" "), cwd=at)).output
            equal(data, b"COVERJOB 1\n" + "".join(files[it] for it in names.split(" ")).encode() + b"ENDJOB\n")
        refused(coverage("job", "a.cards", "empty", cwd=at), 2, "empty: No such file")
    refused(coverage("job", "-"), 2, "-: is empty")
    refused(coverage("job", "/no/such/file"), 2, "/no/such/file")
    refused(coverage("job"), 1, "usage: coverage job")
    for words, told in (
        ("--check a b", "b is a word too many"), ("--checks a", "--checks is none of its options"), ("--help a", "--help is none of its options"),
        ("a --check", "--check stands behind a, and not before it"), ("--services", "--services stands behind --check alone"),
        ("--services a", "--services stands behind --check alone"), ("--check a --services", "--services stands behind a, and not before it"),
        ("--check --check", "--check stands twice"), ("--check --services --services", "--services stands twice"),
        ("a --x", "--x is none of its options"),
    ):
        misused(coverage("job", *words.split(" ")), "job", told)
    refused(coverage("job", "-", redirect="</"), 5, "standard input")
    refused(coverage("job", "-", redirect="<&-"), 5, "standard input")


# A whole job, and many.


def line_of(data: bytes, has_services: bool = False) -> tuple[int, str]:
    """The line that job --check refuses, and the limit that it passes, where it does; 0 where it takes the job."""
    try:
        job_script.check("-", data, has_services)
    except job_script.Refused as refusal:
        return refusal.place.line, refusal.limit
    except Fault:
        return 0, "INPUT"
    return 0, ""


def program_line(data: bytes, has_services: bool = False) -> tuple[int, str]:
    """The same by the program, which goes on to the listings of a job that it takes."""
    words = [*["services"][: has_services], "table"]
    ran = subprocess.run([PROGRAM, *words], input=data, capture_output=True, timeout=SECONDS, check=False)
    found = re.fullmatch(rb"BAD JOB LINE ([0-9]+)\n|TOO LARGE ([A-Z]+) LINE ([0-9]+)\n|TOO LARGE (INPUT)\n", ran.stdout)
    if not found or ran.returncode not in (2, 4):
        equal((ran.returncode in (0, 4, 12), ran.stdout[:8] != b"BAD JOB "), (True, True))
        return 0, ""
    bad, limit, line, _ = found.groups()
    return (int(bad), "") if bad else (int(line), limit.decode()) if limit else (0, "INPUT")


def model_line(data: bytes, has_services: bool = False) -> tuple[int, str]:
    """The same by models/model.py."""
    try:
        model.job_of(data, True, has_services)
    except model.Refused as refusal:
        words = refusal.answer[1].split()
        return int(words[-1]), words[2].decode() if words[0] == b"TOO" else ""
    return 0, ""


def random_job(draw: random.Random) -> bytes:
    """A job of a few modules, phases, sessions and tasks."""
    names = [f"{it}{draw.choice(['', '1', '#A'])}" for it in "ABCDEFGH"]
    modules, lines = draw.sample(names, draw.randrange(4)), ["COVERJOB 1"]
    for at, name in enumerate(modules):
        size = draw.choice([2, 8, 40])
        lines.append(f"MODULE {name} {0x100000 + 0x40000 * at + 8 * draw.randrange(3):06X} {size}")
        left = size
        while left:
            part = min(left, draw.choice([1, 2, 64]))
            lines, left = [*lines, f"TEXT {'07' * part}"], left - part
        if draw.randrange(2):
            listing = [HEADING, "* text", "", "x" * draw.choice([3, 149, 150]), "ENDJOB", "000000 0707\r"]
            count = draw.randrange(len(listing) + 1)
            lines += [f"LISTING {count}", *listing[:count]]
    tasks = iter(f"T{it}" for it in range(99))
    sessions = iter(f"S{it}" for it in range(99))
    for phase in range(draw.randrange(4)):
        lines.append(f"PHASE P{phase}")
        controllers: list[str] = []
        for name in draw.sample(modules, draw.randrange(len(modules) + 1)):
            by = next(tasks) if draw.randrange(2) else ""
            controllers += [by] if by else []
            for _ in range(draw.choice([1, 2]) if by else 1):
                lines.append(f"SESSION {next(sessions)} {f'BY {by} ' if by else ''}{name}")
        for name in [*controllers, *(next(tasks) for _ in range(draw.randrange(3)))]:
            lines.append(f"TASK {name} 100000 {draw.choice([4, 100])} {draw.choice([1, 100, 50000000])} {draw.choice([0, 65536])}")
            lines += [f"REG {it} 0000000{it:X}" for it in sorted(draw.sample(range(16), draw.randrange(3)))]
            lines += [f"DATA {draw.randrange(4)} C1" for _ in range(draw.randrange(4))] + ["INPUT C1C2"] * draw.randrange(4)
    return ("\n".join([*lines, "ENDJOB"]) + draw.choice(["", "\n"])).encode()


def with_services(draw: random.Random, data: bytes) -> bytes:
    """The job with SERVICE cards, mostly where they may stand and in their order."""
    lines = data.split(b"\n")
    numbers = draw.sample((0, 6, 7, 10, 35, 254), draw.randrange(5))
    numbers = sorted(numbers) if draw.random() < 0.9 else [*numbers, draw.choice((1, 5, 255, 10))]
    ends = [at for at, it in enumerate(lines) if it == b"ENDJOB"]
    at = next((at for at, it in enumerate(lines) if it.startswith(b"PHASE")), ends[-1])
    at = at if draw.random() < 0.9 else draw.randrange(len(lines))
    lines[at:at] = [f"SERVICE {it} {draw.choice(('100000', 'fffffc', 'F00001'))}".encode() for it in numbers]
    return b"\n".join(lines)


def damage(draw: random.Random, data: bytes) -> bytes:
    """The job with a byte changed, lines moved, doubled, left out or exchanged, a word changed, or cut."""
    lines = data.split(b"\n")
    at, other = draw.randrange(len(lines)), draw.randrange(len(lines))
    way = draw.randrange(8)
    if way == 0 and data:
        place = draw.randrange(len(data))
        return data[:place] + draw.choice([b"\0", b"\xff", b" ", b"\n", b"\r", b"0", b"G", b"a", b"1"]) + data[place + draw.randrange(2) :]
    if way == 1:
        return data[: draw.randrange(len(data) + 1)]
    if way == 2:
        return b"\n".join([*lines[:at], *lines[at + 1 :]])
    if way == 3:
        return b"\n".join([*lines[:other], lines[at], *lines[other:]])
    if way == 4:
        lines[at], lines[other] = lines[other], lines[at]
        return b"\n".join(lines)
    words = lines[at].split(b" ")
    place = draw.randrange(len(words))
    if way == 5:
        words[place] = draw.choice([b"", b"0", b"1", b"16", b"00", b"100000", b"262146", b"1048577", b"50000001", b"65537", b"BY", b"A", b"T1", b"S1", b"P1", b"LISTING", b"9999999999"])
    elif way == 6:
        words = [*words[:place], *words[place + 1 :]]
    else:
        lines[at : at + 1] = lines[at : at + 1] * draw.choice([2, 17, 65])
        return b"\n".join(lines)
    lines[at] = b" ".join(words)
    return b"\n".join(lines)


def many(jobs: int = 2000, has_services: bool = False) -> Iterator[bytes]:
    """So many jobs of one seed: whole ones, and such with one and with two damages."""
    draw = random.Random(42)
    for number in range(jobs):
        data = random_job(draw)
        data = with_services(draw, data) if has_services else data
        for _ in range(number % 4 and 1 + number % 2):
            data = damage(draw, data)
        yield data


def checked_jobs() -> None:
    """job --check: of 2,000 random and damaged jobs the line that the program names, or none where it goes on, and that of the model"""
    data = list(many())
    own = [line_of(it) for it in data]
    with ThreadPoolExecutor(os.cpu_count()) as pool:
        wanted = list(pool.map(program_line, data))
    for it, had, told in zip(data, own, wanted):
        equal((it, had, model_line(it)), (it, told, told))
    # Most are bad, in many ways, and many pass.
    assert 300 < own.count((0, "")) < 1500 and len({it[1] for it in own}) > 2, own[:20]


def served_jobs() -> None:
    """job --check --services: of 1,000 random and damaged jobs with services the line that the program names behind that word, and
    without it"""
    data = list(many(1000, True))
    for has_services in (True, False):
        own = [line_of(it, has_services) for it in data]
        with ThreadPoolExecutor(os.cpu_count()) as pool:
            wanted = list(pool.map(lambda it: program_line(it, has_services), data))
        for it, had, told in zip(data, own, wanted):
            equal((it, had, model_line(it, has_services)), (it, told, told))
        passed = own.count((0, ""))
        assert (150 if has_services else 30) < passed < 750, passed


def limits() -> None:
    """job --check: each limit, one passed and one just kept, at the line that the program names"""
    head, module = "COVERJOB 1\n", "MODULE M%d %06X 2\nTEXT 07FE\n"
    modules = [module % (it, 0x100000 + 8 * it) for it in range(17)]
    phases, sessions = [f"PHASE P{it}\n" for it in range(17)], [f"SESSION S{it} BY C M0\n" for it in range(17)]
    tasks = [f"TASK T{it} 100000 1048576 50000000 65536\n" for it in range(65)]
    big = "MODULE M 100000 %d\n" + "TEXT " + "00" * 64 + "\n"
    for cards, line, limit in (
        ("".join(modules[:16]), 0, ""), ("".join(modules), 34, "MODULES"),
        (big % 262144 + "TEXT " + "00" * 64 + "\n" + ("TEXT " + "00" * 64 + "\n") * 4094, 0, ""), (big % 262146, 2, "SIZE"),
        ("".join(modules[:16]) + "MODULE M 200000 262146\n", 34, "MODULES"),
        ("".join(phases[:16]), 0, ""), ("".join(phases), 18, "PHASES"),
        (modules[0] + phases[0] + "".join(sessions[:16]) + "TASK C 100000 0 1 0\n", 0, ""), (modules[0] + phases[0] + "".join(sessions), 21, "SESSIONS"),
        (phases[0] + "".join(tasks[:64]), 0, ""), (phases[0] + "".join(tasks), 67, "TASKS"),
        (phases[0] + "TASK A 100000 1048577 50000001 65537\n", 3, "PRIVATE"), (phases[0] + "TASK A 100000 1 50000001 65537\n", 3, "BUDGET"),
        (phases[0] + "TASK A 100000 1 1 65537\n", 3, "ROOM"),
        (modules[0] + "LISTING 2\n" + "x" * 150 + "\r\n" + "x" * 150 + "\n", 0, ""),
        (modules[0] + "LISTING 2\n" + "x" * 150 + "\r\n" + "x" * 150 + "\r\r\n", 6, "LINE"), (modules[0] + "LISTING 9\n" + "x" * 151, 5, "LINE"),
    ):
        data = f"{head}{cards}ENDJOB\n".encode()
        equal((cards[:200], line_of(data)), (cards[:200], (line, limit)))
        equal((cards[:200], program_line(data), model_line(data)), (cards[:200], (line, limit), (line, limit)))


def whole_jobs() -> None:
    """job --check: a whole job of a file or of standard input; what stands behind ENDJOB, an early end, the examples"""
    for name in sorted(os.listdir(EXAMPLES)):
        if name.endswith(".job"):
            for words, redirect in (((f"{EXAMPLES}/{name}",), ""), ((), f"<{EXAMPLES}/{name}")):
                equal(well(coverage("job", "--check", "--services", *words, redirect=redirect)).output, b"")
                ran = coverage("job", "--check", *words, redirect=redirect)
                equal((ran.status, ran.output), (2 if name == "ledger.job" else 0, b""))
    whole = FIRST.job()
    for data, text in (
        (b"", "line 1: the input is empty; the first line of a job is COVERJOB 1"),
        (b"\n", "line 1: no card: the line is empty"),
        (b"COVERJOB 2\n", "line 1: COVERJOB: the version 2 is unknown; the first line of a job is COVERJOB 1"),
        (whole[11:], "line 1: MODULE: the first line of a job is COVERJOB 1"),
        (whole + b"ENDJOB\n", "line 13: ENDJOB: a line behind ENDJOB, which is the last"),
        (whole + b"FETCH A\n", "line 13: no card: FETCH is none of COVERJOB"),
        (whole.replace(b"PHASE", b"COVERJOB 1\nPHASE"), "line 9: COVERJOB: COVERJOB 1 stands on the first line alone"),
        (whole[: -len(b"ENDJOB\n")], "line 12: the input ends without ENDJOB"),
        (b"COVERJOB 1\nMODULE M 100000 8\nTEXT 4110", "line 4: the input ends: the module M of line 2 has 2 of its 8 bytes"),
        (b"COVERJOB 1\nMODULE M 100000 2\nTEXT 07FE\nLISTING 4\na\nb", "line 7: the input ends: the listing of line 4 has 2 of its 4 lines"),
    ):
        ran = coverage("job", "--check", data=data)
        refused(ran, 2, f"coverage: -: {text}")
        equal(ran.error.count("\n"), 1)
        equal(program_line(data)[0], int(text.split(":")[0].split(" ")[1]))
    assert b"doesn't look at what the lines of a listing say" in well(coverage("job", "--help")).output


def large_jobs() -> None:
    """job: a job of 16 MB in little time, of cards that are short and many; one byte more is refused"""
    limit = 16_777_216
    head, tail = b"COVERJOB 1\nPHASE P\nTASK A 100000 16 100 0\n", b"ENDJOB\n"
    lines = b"MODULE M 100000 2\nTEXT 07FE\nLISTING 8000000\n" + b"\n" * 8_000_000
    with folder() as at:
        for front, card in ((head, b"INPUT 00\n"), (head, b"DATA 0 00\n"), (b"COVERJOB 1\n" + lines + head[11:], b"INPUT 00\n")):
            middle = card * ((limit - len(front) - len(tail)) // len(card))
            with open(f"{at}/cards", "wb") as file:
                file.write(front[11:] + middle)
            before = resource.getrusage(resource.RUSAGE_CHILDREN)
            equal(well(coverage("job", "cards", cwd=at)).output == front + middle + tail, True)
            after = resource.getrusage(resource.RUSAGE_CHILDREN)
            # Some 1.5 seconds of a processor.
            assert after.ru_utime - before.ru_utime < 4, after.ru_utime - before.ru_utime
            equal(line_of(front + middle + tail), (0, ""))
            with open(f"{at}/cards", "ab") as file:
                file.write(card * 2)
            refused(coverage("job", "cards", cwd=at), 2, "the job: 167772", "the limit INPUT is 16777216")
            equal(line_of(front + middle + card * 2 + tail), (0, "INPUT"))


CHECKS = [jobs, services, bad_cards, files_of_a_job, whole_jobs, limits, checked_jobs, served_jobs, large_jobs]
