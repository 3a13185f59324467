"""How `coverage` calls the program: what it says behind a refusal and of tasks that haven't returned, signals, and the line
on a terminal that a long run is under way."""
from __future__ import annotations

import contextlib
import fcntl
import os
import pty
import re
import signal
import subprocess
import sys
import termios
import time
from dataclasses import dataclass, field, replace
from functools import partial
from typing import Callable, Optional

from cases.build_cases import RT, Copy, ended, wait_for
from fixtures.harness import COVERAGE, SECONDS, coverage, equal, folder, interruptible, misused, run
from fixtures.jobs import COUNTED, FIRST, FIRST_REPORT, FIRST_RESULT, HEADING, TASK, USAGE, Program, Result, listing_of, task

NOT_RETURNED = 80
NO_COMMAND = "the words are none of its commands: ./coverage alone says which there are"
NO_JOB = "no job goes on with that line, or the input ends before its job does: docs/JOB.md"
OTHER_BYTES = "the module has other bytes there than its listing says: docs/TROUBLE.md"
NO_MARKS = "the bytes there are no marks file, or one that is cut short or damaged: docs/MARKS.md"
NO_EVIDENCE = "the bytes behind the marks are no evidence of this job and these marks, or are cut short or damaged: " \
              "docs/EVIDENCE.md"
REFUTED = "marks, evidence and what the job's tasks show do not agree at that row and fact: docs/EVIDENCE.md"
ANEW = "the module was assembled anew between the two: marks are of one assembly alone"
OTHER_MARKS = "the marks are of other modules, or of another assembly of them: docs/MARKS.md"


@dataclass
class Row:
    """A call whose standard input and output are files: the words, the input, status, output, and the lines on standard error."""

    name: str
    words: list[str]
    input: bytes
    status: int
    output: bytes
    error: list[str] = field(default_factory=list)
    # Files that lie where it runs.
    files: tuple[str, ...] = ()


def check(row: Row) -> None:
    """Fails unless the call does what its row says."""
    with folder() as at:
        for name, data in (("input", row.input), *((it, b"") for it in row.files)):
            with open(f"{at}/{name}", "wb") as file:
                file.write(data)
        with open(f"{at}/input", "rb") as source, open(f"{at}/output", "wb") as sink:
            started = subprocess.Popen([COVERAGE, *row.words], stdin=source, stdout=sink, stderr=subprocess.PIPE, cwd=at)
            _, error = started.communicate(timeout=SECONDS)
        with open(f"{at}/output", "rb") as file:
            had = file.read()
        equal((started.returncode, had), (row.status, row.output))
        equal(error.decode().splitlines(), [f"coverage: {it}" for it in row.error])


def meant(words: list[str], *said: str, files: tuple[str, ...] = ()) -> Row:
    """Words that are no command's, and what is said of them behind the usage line."""
    return Row(f"the call that was meant by {' '.join(words)}", words, FIRST.job(), 1, USAGE, [NO_COMMAND, *said], files)


def of_job(name: str, words: list[str], data: bytes, status: int, line: str, *said: str) -> Row:
    """An input that is refused with a line, which standard error repeats with its meaning, and what is said further."""
    return Row(name, words, data, status, f"{line}\n".encode(), [f"{line}: {said[0]}", *said[1:]])


NO_ITEM_THERE = 'that line is no item of a schedule, or none that is possible there: docs/JOB.md, "Schedules"'
NO_ITEM = "is none of FETCH, MARK, LIFT, DO, PLANT, CLOSE, GO and ENDSCHED"
ITEM_FAULTS = (
    ("GO A\nfetch A\nENDSCHED\n", 14, f"'fetch' {NO_ITEM}: did you mean FETCH?"),
    ("COVERAGE REPORT\n", 13, f"'COVERAGE' {NO_ITEM}"),
    ("GO\nENDSCHED\n", 13, "behind GO stands no task"),
    ("GO  A\nENDSCHED\n", 13, "behind GO and one blank stands ' A', which is no task of the job: did you mean A?"),
    ("GO B\nENDSCHED\n", 13, "behind GO and one blank stands 'B', which is no task of the job"),
    ("GO A\nENDSCHED\nGO A\n", 15, "ENDSCHED, which ends a schedule, stands before it"),
)


def words_meant() -> list[Row]:
    """Files where there should be '<', words that are nearly a command, and names that are none."""
    job, both = ("cust.job",), ("cust.job", "a.marks")
    served = "behind services stands none but run, marks, show, table, count, ends"
    trial = "NUMBER is 0 to 4294967295, and TASKS 1 to 64, in digits without a sign and without a leading zero"
    name = "1 to 8 of A to Z, @, #, $ and, behind the first, digits"
    return [
        meant(["run", "cust.job"], "did you mean ./coverage run < cust.job ?", files=job),
        meant(["early", "cust.job"], "did you mean ./coverage early < cust.job ?", files=job),
        meant(["marks", "S", "cust.job"], "did you mean ./coverage marks S < cust.job ?", files=job),
        meant(["marks", "cust.job"], "did you mean ./coverage marks NAME < cust.job ?", files=job),
        meant(["prove", "s", "cust.job"], "did you mean ./coverage prove S < cust.job ?", files=job),
        meant(["show", "S", "cust.job", "a.marks"], "did you mean cat cust.job a.marks | ./coverage show S ?", files=both),
        meant(["combine", "cust.job", "a.marks"], "did you mean cat cust.job a.marks | ./coverage combine ?", files=both),
        meant(["run", "cust.job"], "its call is ./coverage run < JOB > REPORT"),
        meant(["marks"], "its call is ./coverage marks NAME < JOB > MARKS"),
        meant(["trial", "7"], "its call is ./coverage trial NUMBER TASKS > SUMMARY"),
        meant(["trial", "7", "65"], trial),
        meant(["trial", "07", "8"], trial),
        meant(["marks", "orders"], f"orders is no name: {name}: did you mean ORDERS?"),
        meant(["verify", "2ND"], f"2ND is no name: {name}"),
        meant(["runs"], "did you mean ./coverage run < JOB > REPORT ?"),
        meant(["RUN"], "did you mean ./coverage run < JOB > REPORT ?"),
        meant(["prov", "S"], "did you mean ./coverage prove NAME < JOB > EVIDENCE ?"),
        meant(["combin"], "did you mean ./coverage combine < MARKS-FILES > MARKS ?"),
        meant(["modul"], "did you mean ./coverage module [--strict] NAME BASE OBJECT [LISTING] [SYMBOL=ADDRESS ..] [--services] > CARDS ?"),
        meant(["services"], "its call is ./coverage services COMMAND < INPUT > OUTPUT"),
        meant(["services", "prove", "S"], served),
        meant(["services", "shwo", "S"], f"{served}: did you mean services show?"),
        meant(["services", "union", "--files-from", "cust.job"], served, files=job),
        meant(["services", "run", "--must-retrun"], "the word --must-retrun is none of its options: did you mean --must-return?"),
        meant(["marks", "S", "--second"], "the word --second is none of its options: did you mean --seconds?"),
        meant(["ends", "-x", "cust.job"], "the word -x is none of its options", files=job),
        meant(["services", "run", "cust.job"], "did you mean ./coverage services run < cust.job ?", files=job),
        meant(["services", "show", "S", "cust.job", "a.marks"], "did you mean cat cust.job a.marks | ./coverage services show S ?", files=both),
        meant(["services", "marks", "orders"], f"orders is no name: {name}: did you mean ORDERS?"),
        meant(["services", "ends", "x"], "its call is ./coverage services ends < JOB > ENDS"),
        meant(["service", "run"], "did you mean ./coverage services COMMAND < INPUT > OUTPUT ?"),
        meant(["help"], "did you mean ./coverage --help ?"),
        meant(["xyzzy"]),
    ]


def cards_refused() -> list[Row]:
    """Inputs that are no job, or not all of one, or none that passes."""
    job = FIRST.job()
    lines = job.decode().splitlines()

    def bad(name: str, data: bytes, line: int, *said: str, words: Optional[list[str]] = None) -> Row:
        return of_job(name, words or ["run"], data, 2, f"BAD JOB LINE {line}", NO_JOB, *said)

    return [
        bad("an empty input", b"", 1, "the input is empty"),
        bad("a report for a job", FIRST_REPORT, 1, "the input is a report or another output of ./coverage, and no job"),
        bad("cards that job hasn't put together", job.removeprefix(b"COVERJOB 1\n"), 1,
            "the input has cards, but does not begin COVERJOB 1: ./coverage job CARDS.. > JOB puts a job together"),
        bad("a card in small letters", job.replace(b"PHASE", b"phase"), 9, "line 9 of the input is 'phase P'",
            "no card: phase is in lower case; the card is PHASE"),
        bad("two blanks", job.replace(b"PHASE P", b"PHASE  P"), 9, "line 9 of the input is 'PHASE  P'",
            "two blanks stand in a row; words are parted by exactly one blank, and none stands behind the last"),
        bad("a service of a plain command", job.replace(b"PHASE P", b"SERVICE 10 100004\nPHASE P"), 9, "line 9 of the input is 'SERVICE 10 100004'",
            "a job with services is for ./coverage services run"),
        bad("a service of a plain command with a name", job.replace(b"PHASE P", b"SERVICE 10 100004\nPHASE P"), 9, "line 9 of the input is 'SERVICE 10 100004'",
            "a job with services is for ./coverage services marks S", words=["marks", "S"]),
        bad("a service of a command that takes none", job.replace(b"PHASE P", b"SERVICE 10 100004\nPHASE P"), 9, "line 9 of the input is 'SERVICE 10 100004'",
            "prove takes no job with services: run, marks, show, table, count, ends do, behind the word services", words=["prove", "S"]),
        bad("a service of a task call", job.replace(b"PHASE P", b"SERVICE 3 100004\nPHASE P"), 9, "line 9 of the input is 'SERVICE 3 100004'",
            "SVC 3 is a call of the task's own, and no service answers it; those of services are 0 and 6 to 254", words=["services", "run"]),
        bad("a job without its end", "\n".join(lines[:-1]).encode() + b"\n", 12, "the input ends with line 11, before ENDJOB"),
        bad("a line behind the job", job + b"GO A\n", 13, "line 13 stands behind ENDJOB, where run takes nothing: 'GO A'"),
        bad("a line behind a job with services", job + b"GO A\n", 13, "line 13 stands behind ENDJOB, where services marks takes nothing: 'GO A'",
            words=["services", "marks", "S"]),
        of_job("a limit", ["run"], job.replace(b" 16 100 0", b" 16 50000001 0"), 4, "TOO LARGE BUDGET LINE 11",
               'the input passes a limit: docs/JOB.md, "Limits"', "line 11 of the input is 'TASK A 100000 16 50000001 0'",
               "the budget is 50000001: the limit BUDGET is 50000000"),
        of_job("a long line of a listing", ["run"], FIRST.job(listing=[HEADING, "x" * 151]), 4, "TOO LARGE LINE LINE 6",
               'the input passes a limit: docs/JOB.md, "Limits"', f"line 6 of the input is '{'x' * 60}..'",
               "a listing line of 151 bytes: the limit LINE is 150"),
        of_job("a session's name that is nearly one", ["marks", "ORDER"], job.replace(b"SESSION S M", b"SESSION ORDERS M"), 13,
               "NO SESSION ORDER", "no session of the job has that name: docs/JOB.md", "the job's sessions are ORDERS", "did you mean ORDERS?"),
        of_job("a controlled session that is counted", ["count"], job.replace(b"SESSION S M", b"SESSION S BY A M"), 14, "CONTROLLED S",
               "a task opens and closes that session, so what it shows hangs on how tasks race: docs/JOB.md"),
        of_job("an item that isn't possible", ["replay"], FIRST.job(more="GO A\nMARK A\nENDSCHED\n"), 9,
               "BAD SCHEDULE LINE 14", NO_ITEM_THERE, "line 14 of the input is 'MARK A'",
               "it is an item, but there is no such event of the task A behind the items before it"),
        *(item(*it) for it in ITEM_FAULTS),
    ]


def item(schedule: str, number: int, said: str) -> Row:
    """A schedule behind a job of 12 lines, whose line of that number is none of its items."""
    line = (schedule.split("\n")[number - 13]).encode("unicode_escape").decode()
    return of_job(f"a schedule with {line!r}", ["replay"], FIRST.job(more=schedule), 9, f"BAD SCHEDULE LINE {number}",
                  NO_ITEM_THERE, f"line {number} of the input is '{line}'", said)


def listings_refused() -> list[Row]:
    """Listings that don't match their module, or can't be used."""
    six = Program.of("0 41100005 LA, 4 1A11 AR, 6 1A11 AR, 8 1A11 AR, A 1A11 AR, C 07FE BR")

    def differs(name: str, program: Program, listing: str, line: str, *said: str) -> Row:
        data = program.job(listing=listing_of([(int(it[0], 16), it[1], it[2]) for it in map(str.split, listing.split(","))]))
        return of_job(name, ["run"], data, 3, line, OTHER_BYTES, *said)

    def have(count: int, of: int) -> str:
        return f"{count} of the {of} instruction lines of M's listing {'has' if count == 1 else 'have'} other bytes than the module:"

    past = [*FIRST.listing()[:3], FIRST.listing()[3].replace("000006", "000008")]
    twice = [HEADING, *(it for it in listing_of(FIRST.code)[1:]), f"{'':34}    4 NEXT     CSECT", *listing_of(FIRST.code)[1:]]
    again = [*twice[:4], f"{'':34}    4          END", *twice[4:]]
    return [
        differs("a listing of which one line differs", FIRST, "0 41100006 LA, 4 1A11 AR, 6 07FE BR",
                "MISMATCH M LINE 2 LOC 000000 LISTING 41100006 MODULE 41100005", have(1, 3),
                "  line 2, location 000000: listing 41100006, module 41100005",
                "listing and object are probably of two assemblies: take both of one, and make the cards again by ./coverage module"),
        differs("a listing of which most lines differ", six, "0 41100005 LA, 4 1A12 AR, 6 1A12 AR, 8 1A12 AR, A 1A12 AR, C 07FE BR",
                "MISMATCH M LINE 3 LOC 000004 LISTING 1A12 MODULE 1A11", have(4, 6), "  line 3, location 000004: listing 1A12, module 1A11",
                "  line 4, location 000006: listing 1A12, module 1A11", "  line 5, location 000008: listing 1A12, module 1A11", "  ..",
                "most differ: the listing is probably that of another module, or of another assembly"),
        differs("a listing whose code stands elsewhere", six, "0 1A11 AR, 2 1A11 AR, 8 07FE BR",
                "MISMATCH M LINE 2 LOC 000000 LISTING 1A11 MODULE 4110", have(3, 3),
                "  line 2, location 000000: listing 1A11, module 4110",
                "  line 3, location 000002: listing 1A11, module 0005", "  line 4, location 000008: listing 07FE, module 1A11",
                "the listing's code stands in the module 4 bytes further: the object's origin is another than the listing's"),
        differs("a module whose bytes are lacking", Program([*FIRST.code[:2], (6, "0000", "BR")]),
                "0 41100005 LA, 4 1A11 AR, 6 07FE BR", "MISMATCH M LINE 4 LOC 000006 LISTING 07FE MODULE 0000", have(1, 3),
                "  line 4, location 000006: listing 07FE, module 0000",
                "the module's bytes are zero there: its object lacks text that the listing has"),
        of_job("a second section at 000000", ["run"], FIRST.job(listing=twice), 12, "BAD LISTING M LINE 6 OVERLAP",
               "that line stands where an earlier one does, as in a second section from 000000 on: docs/LISTING.md",
               "line 6 of M's listing is '000000 4110 0005                      1          LA'",
               "its instruction stands where that of line 2 does, at 000000",
               "a section begins between them, and its locations begin again: assemble with the option THREAD,"
               " or each section as a module"),
        of_job("a listing that stands there twice", ["run"], FIRST.job(listing=again), 12, "BAD LISTING M LINE 7 OVERLAP",
               "that line stands where an earlier one does, as in a second section from 000000 on: docs/LISTING.md",
               "line 7 of M's listing is '000000 4110 0005                      1          LA'",
               "its instruction stands where that of line 2 does, at 000000",
               "an END stands between them: the listing stands there twice, or that of a second assembly behind the first"),
        of_job("a listing past its module", ["run"], FIRST.job(listing=past), 12, "BAD LISTING M LINE 4 OUTSIDE",
               "that line's instruction ends past the module, as in the listing of a larger one: docs/LISTING.md",
               "line 4 of M's listing is '000008 07FE                           3          BR'", "the module has 8 bytes"),
        of_job("a listing without a heading", ["run"], FIRST.job(listing=FIRST.listing()[1:]), 12, "BAD LISTING M LINE 0 HEADING",
               "that module's listing has no heading line: docs/LISTING.md"),
        of_job("the breakpoint's own SVC", ["run"], Program.of("0 0AFF SVC, 2 07FE BR").job(), 8, "OWN SVC M LINE 2",
               "that instruction is SVC 255, the breakpoint's own, which no listing may have: docs/MACHINE.md"),
    ]


def marks_refused() -> list[Row]:
    """Marks files that are none, or of another table, and evidence that is none or refuted."""
    job, marks, other = COUNTED.job(), COUNTED.marks_file(4, 1), COUNTED.marks_file(4, 1, name="S")
    at = other.index(b"M       ")
    base, size = other[: at + 8] + (0x180000).to_bytes(4, "big") + other[at + 12 :], FIRST.marks_file(1, 1, 1)
    named = other.replace(b"M       ", b"N       ")
    evidence = b"S370EVD1" + bytes(7)
    row = {"M": "4D2020202020202000100000", "N": "4E2020202020202000100000"}
    second = "{}00000006{}".format(row["M"], "00000002")

    def table(name: str, data: bytes, right: str, *said: str) -> Row:
        line = f"OTHER TABLE ROW 0 LEFT {second} RIGHT {right}"
        return of_job(f"marks of {name}", ["combine"], data, 11, line, OTHER_MARKS, "the first file: module M at 100000, 6 bytes, 2 instruction lines", *said)

    def refuted(name: str, sets: bytes, counts: tuple[int, ...], line: str, *said: str) -> Row:
        proof = b"S370EVD1" + b"".join(bytes([0, 0, 0, 0, 0, it, 0]) for it in counts)
        data = COUNTED.job(task("REG 1 00000003")) + sets + proof
        return of_job(name, ["verify", "S"], data, 16, f"REFUTED {line}", REFUTED, *said)

    return [
        table("another base", marks + base, "4D20202020202020001800000000000600000002",
              "a later file: module M at 180000, 6 bytes, 2 instruction lines",
              "the module stood at another base: give it one base in all jobs whose marks are united"),
        table("another assembly", marks + size, f"{row['M']}0000000800000003",
              "a later file: module M at 100000, 8 bytes, 3 instruction lines", ANEW),
        table("another module", marks + named, f"{row['N']}0000000600000002",
              "a later file: module N at 100000, 6 bytes, 2 instruction lines",
              "the sessions are over other modules, or have them in another order"),
        of_job("a place of another assembly", ["show", "S"], job + Program.of("0 4620F000 BCT, 4 07FE BR").marks_file(4, 1), 11,
               "OTHER TABLE ROW 1 LEFT 0000000004014610 RIGHT 0000000004014620", OTHER_MARKS,
               "the job's session: the instruction at 000000, of 4 bytes, that begins 4610",
               "the marks: the instruction at 000000, of 4 bytes, that begins 4620", ANEW),
        of_job("no marks behind a job", ["show", "S"], job, 10, "BAD MARKS OFFSET 0", NO_MARKS,
               "nothing stands behind the job: cat JOB MARKS | ./coverage show S"),
        of_job("two marks files behind a job", ["show", "S"], job + 2 * COUNTED.marks_file(4, 1), 10, "BAD MARKS OFFSET 60",
               NO_MARKS, "it is a second marks file, and one stands behind a job: ./coverage union FILES > MARKS makes one of several"),
        of_job("a job for marks", ["combine"], job, 10, "BAD MARKS OFFSET 0", NO_MARKS, "what stands there is a job"),
        refuted("a branch that marks lack", COUNTED.marks_file(2, 1), (0, 3), "ROW 1 FACT S",
                "row 1 is location 000000 of M, line 2 of its listing, 'BCT'; the fact is whether it fell through"),
        refuted("an instruction that marks lack", COUNTED.marks_file(6, 0), (0, 2), "ROW 2 FACT R",
                "row 2 is location 000004 of M, line 3 of its listing, 'BR'; the fact is whether it was executed"),
        of_job("marks that are cut", ["combine"], marks[:-1], 10, f"BAD MARKS OFFSET {len(marks) - 1}", NO_MARKS,
               "the input ends there: a file is cut short"),
        of_job("no evidence behind marks", ["verify", "S"], job + COUNTED.marks_file(4, 1), 15, "BAD EVIDENCE OFFSET 0",
               NO_EVIDENCE, "nothing stands behind the marks: cat JOB MARKS EVIDENCE | ./coverage verify S"),
        of_job("a report for evidence", ["verify", "S"], job + COUNTED.marks_file(4, 1) + FIRST_REPORT, 15, "BAD EVIDENCE OFFSET 0",
               NO_EVIDENCE, "what stands there is a report or another output of ./coverage"),
        of_job("evidence of fewer facts", ["verify", "S"], job + COUNTED.marks_file(6, 1) + evidence, 15, "BAD EVIDENCE OFFSET 15",
               NO_EVIDENCE, "the evidence has 1 entry, and the marks have 3 facts: each fact has one entry"),
        of_job("evidence with bytes behind it", ["verify", "S"], job + COUNTED.marks_file(0, 1) + evidence + b"xy", 15,
               "BAD EVIDENCE OFFSET 15", NO_EVIDENCE,
               "the evidence has 1 entry and 2 more bytes, and the marks have 1 fact: each fact has one entry"),
    ]


def of_row(row: Row) -> Callable[[], None]:
    """The test of a row, which bears its name."""
    def test() -> None:
        check(row)
    test.__name__, test.__doc__ = row.name, f"coverage: {row.name}"
    return test


def into_pipe() -> None:
    """coverage: a refusal into a pipe, whose line can't be read again, is told by its status"""
    ran = coverage("run")
    equal((ran.status, ran.output, ran.error), (2, b"BAD JOB LINE 1\n", f"coverage: status 2: {NO_JOB}\n"))


def appended() -> None:
    """coverage: a refusal behind what a file has, and a job from where its file stands"""
    with folder() as at:
        for name, data in (("input", b"behind this line\n" + FIRST.job().replace(b"PHASE", b"phase")), ("output", b"marks\x00\n")):
            with open(f"{at}/{name}", "wb") as file:
                file.write(data)
        command = 'read -r line; exec "$0" run >> output'
        with open(f"{at}/input", "rb") as source:
            words = ["bash", "-c", command, COVERAGE]
            ran = subprocess.run(words, stdin=source, capture_output=True, cwd=at, timeout=SECONDS, check=False)
        with open(f"{at}/output", "rb") as file:
            equal((ran.returncode, file.read()), (2, b"marks\x00\nBAD JOB LINE 9\n"))
        said = [f"coverage: BAD JOB LINE 9: {NO_JOB}", "coverage: line 9 of the input is 'phase P'"]
        equal(ran.stderr.decode().splitlines()[:2], said)


def streams() -> None:
    """coverage: an input that can't be read, and an output that can't be written"""
    read = "status 5: standard input could not be read: it is closed, or its disk fails: docs/REPORT.md"
    written = "standard output could not be written whole: its disk is full, or its reader has ended: docs/REPORT.md"
    for redirect, status, output, said in (
        ("</", 5, b"READ FAULT\n", "status 5: standard input is a folder"), ("<&-", 5, b"READ FAULT\n", read), (">/dev/full", 6, b"", written), (">&-", 6, b"", written),
    ):
        ran = coverage("run", data=FIRST.job(), redirect=redirect)
        equal((redirect, ran.status, ran.output, ran.error), (redirect, status, output, f"coverage: {said}\n"))


def explains_in_time() -> None:
    """coverage: what explains a refusal takes a second of processor time at most, and is left out where that tells nothing"""
    many = 8_192
    twos = Program([(2 * at, "1811", "LR") for at in range(131_072)])
    last = listing_of([*twos.code[: many - 1], (2 * many - 2, "1822", "LR")])
    line = f"MISMATCH M LINE {many + 1} LOC {2 * many - 2:06X} LISTING 1822 MODULE 1811"
    for row in (
        of_job("", ["run"], twos.job(listing=last), 3, line, OTHER_BYTES, f"1 of the {many} instruction lines of M's listing has other bytes than the module:",
               f"  line {many + 1}, location {2 * many - 2:06X}: listing 1822, module 1811",
               "listing and object are probably of two assemblies: take both of one, and make the cards again by ./coverage module"),
        of_job("", ["run"], FIRST.job(task(" / ".join(["DATA 0 00"] * 1_000_000 + ["no card"]))), 2, "BAD JOB LINE 1000012", NO_JOB),
    ):
        before = os.times()
        check(row)
        spent = os.times()
        # Beside the front and the program, which take a tenth of it.
        assert sum(spent[2:4]) - sum(before[2:4]) < 3, (row.error, before, spent)


def must_return() -> None:
    """coverage: --must-return tells which tasks ended otherwise than RETURNED, and ends with a status of its own"""
    alone = "--must-return stands behind run, exits, early or services run alone, which tell how the tasks of a job ended"
    short = "TASK A 100000 16 2 0\n"
    spent = replace(FIRST_RESULT, ending="SPENT", count=2)
    named = Result("ABEND 5", 1, name="RETURNED", entry=0xF00000)
    many = "".join(f"TASK T{it} F00000 16 9 0\n" for it in range(7))
    results = [Result("ABEND 5", 1, name=f"T{it}", entry=0xF00000) for it in range(7)]
    behind, none = ": docs/TROUBLE.md says what each ending is", "000000-000007"
    for command in ("run", "exits", "early"):
        words = [command, "--must-return"]
        check(Row("", words, FIRST.job(), 0, FIRST_REPORT))
        report = FIRST.report([spent], "::^", 3, "000006-000007")
        check(Row("", words, FIRST.job(short), NOT_RETURNED, report, [f"not returned: A SPENT{behind}"]))
        check(Row("", words, FIRST.job(""), 0, FIRST.report([], "^^^", 3, none)))
    check(Row("", ["run", "--must-return"], FIRST.job(TASK + "TASK RETURNED F00000 16 9 0\n"), NOT_RETURNED,
              FIRST.report([FIRST_RESULT, named], ":::", 3), [f"not returned: RETURNED ABEND 5{behind}"]))
    check(Row("", ["run", "--must-return"], FIRST.job(many), NOT_RETURNED, FIRST.report(results, "^^^", 3, none),
              [f"not returned: {', '.join(f'T{it} ABEND 5' for it in range(5))}, ..{behind}"]))
    check(Row("", ["run", "--must-return"], b"", 2, b"BAD JOB LINE 1\n", [f"BAD JOB LINE 1: {NO_JOB}", "the input is empty"]))
    for words in (["marks", "S", "--must-return"], ["count", "--must-return"], ["--must-return"]):
        check(Row("", words, FIRST.job(), 1, b"", [alone]))


def must_return_streams() -> None:
    """coverage: --must-return into a pipe, into a full disk, and without room for the report meanwhile"""
    words = [COVERAGE, "run", "--must-return"]
    ran = run(words, FIRST.job())
    equal((ran.status, ran.output, ran.error), (0, FIRST_REPORT, ""))
    ran = run(words, FIRST.job(), redirect=">/dev/full")
    equal((ran.status, "standard output could not be written whole" in ran.error), (6, True))
    ran = run(words, FIRST.job(), before="export TMPDIR=/none")
    equal((ran.status, ran.output, "can be made in /none" in ran.error), (6, b"", True))


NOT_ENDED, NO_FILES = 83, 73


def seconds() -> None:
    """coverage: --seconds ends a command of the program after so many seconds, with a status of its own and nothing written"""
    with folder() as at:
        it = Front(at)
        call = partial(subprocess.run, capture_output=True, text=True, env=it.env, timeout=SECONDS, check=False)
        late = "coverage: {} had not ended after 1 s, and was ended by --seconds: nothing is written\n"
        for words in (["run", "--seconds", "1"], ["run", "--seconds=1", "--must-return"], ["--seconds", "1", "marks", "S"],
                      ["services", "--seconds=1", "count"], ["combine", "--seconds", "1"]):
            began = time.monotonic()
            # It has written a part by then.
            ran = call([f"{at}/coverage", *words], input="part 60\n")
            own = " ".join(word for word in words if word not in ("1", "--must-return") and not word.startswith("--seconds"))
            equal((words, ran.returncode, ran.stdout, ran.stderr), (words, NOT_ENDED, "", late.format(own)))
            assert 1 <= time.monotonic() - began < 30, "it took another time"
            equal(left_by(it), [])
        for words, status, output in ((["run", "--seconds", "60"], 0, "COVERAGE REPORT\n"), (["run", "--seconds=60"], 13, "COVERAGE REPORT\n")):
            ran = call([f"{at}/coverage", *words], input=f"0 {status}\n")
            equal((ran.returncode, ran.stdout), (status, output))


def left_by(it: Front) -> list[str]:
    """The processes that still run the program of a copy, or stand for its Python."""
    found = []
    for number in filter(str.isdigit, os.listdir("/proc")):
        with contextlib.suppress(OSError), open(f"/proc/{number}/environ", "rb") as file:
            if f"STARTED={it.env['STARTED']}".encode() in file.read().split(b"\0"):
                found.append(number)
    return found


def seconds_words() -> None:
    """coverage: --seconds takes a whole number of them, once, behind a command of the program; a full disk has its own status"""
    few: tuple[list[str], ...] = (["0"], ["-1"], ["01"], ["1.5"], ["1s"], [""], ["1000000000"], [])
    for words in few:
        said = f"coverage: --seconds takes a number from 1 to 999999999, in digits, and not '{''.join(words)}'\n"
        for call in (["run", "--seconds", *words], ["run", f"--seconds={''.join(words)}"], ["marks", "S", "--seconds", *words]):
            ran = coverage(*call, data=FIRST.job())
            equal((call, ran.status, ran.output, ran.error), (call, 1, b"", said))
    alone, twice = "--seconds stands behind a command of the program alone", "--seconds stands twice"
    for call, said in ((["--seconds", "1"], alone), (["--seconds", "1", "page"], alone), (["--seconds=1", "union"], alone),
                       (["run", "--seconds", "1", "--seconds=2"], twice)):
        ran = coverage(*call)
        equal((call, ran.status, ran.output, ran.error), (call, 1, b"", f"coverage: {said}\n"))
    ran = coverage("run", "--seconds", "99", data=FIRST.job())
    equal((ran.status, ran.output, ran.error), (0, FIRST_REPORT, ""))
    ran = coverage("run", "--seconds", "99", data=FIRST.job(), redirect=">/dev/full")
    equal((ran.status, "standard output could not be written whole" in ran.error), (6, True))
    ran = run([COVERAGE, "run", "--seconds", "99"], FIRST.job(), before="export TMPDIR=/none")
    equal((ran.status, ran.output, "can be made in /none" in ran.error), (6, b"", True))


def few_files() -> None:
    """coverage: a limit of open files is told in one line with a status of its own, and leaves no file; from 20 on all works"""
    with folder() as at:
        for limit in (4, 5, 6, 7, 9, 10, 11, 13, 14, 15, 16, 17, 19, 20, 21, 64, 300):
            for words in (["run"], ["run", "--must-return"], ["run", "--seconds", "99"]):
                ran = run([COVERAGE, *words], FIRST.job(), before=f"export TMPDIR={at}; ulimit -n {limit}")
                wanted = (0, FIRST_REPORT, "") if limit >= 20 else \
                    (NO_FILES, b"", "coverage: it needs 20 files that are open at once, and ulimit -n allows fewer\n")
                equal((limit, words, ran.status, ran.output, ran.error), (limit, words, *wanted))
                equal(os.listdir(at), [])
        ran = run([COVERAGE, "run", "--must-return"], b"", before="ulimit -n 20")
        equal((ran.status, ran.error.splitlines()), (2, [f"coverage: BAD JOB LINE 1: {NO_JOB}"]))


# Stands for a command that the front starts: sends a signal to what has started it, once, and does its work.
SIGNALLED = """#!/bin/sh
if [ -e "$STARTED.signal" ]; then
  number=$(cat "$STARTED.signal")
  rm -f "$STARTED.signal"
  kill -"$number" $PPID
fi
exec {} "$@"
"""


def signals_before_the_program() -> None:
    """coverage: a signal before the program has begun ends the call by it, QUIT too, and no file is left"""
    with folder() as at, interruptible():
        it = Front(at)
        held = it.env["TMPDIR"] = f"{at}/held"
        os.mkdir(held)
        # What it starts before the program: now, and a version before this.
        for name in ("readlink", "cmp", "mktemp", "rm"):
            it.write(f"bin/{name}", SIGNALLED.format(f"/usr/bin/{name}"))
            os.chmod(f"{at}/bin/{name}", 0o755)
            # An interrupt comes from the terminal to all of them, so that what it has started ends too.
            for number in (signal.SIGQUIT, signal.SIGTERM, signal.SIGHUP):
                it.write("started.signal", str(int(number)))
                words = [f"{at}/coverage", "run", "--must-return"]
                ran = subprocess.run(words, input=b"0\n", capture_output=True, env=it.env, timeout=SECONDS, check=False)
                if os.path.exists(f"{at}/started.signal"):
                    equal((name in ("mktemp", "rm"), ran.returncode, ran.stdout), (True, 0, b"COVERAGE REPORT\n"))
                else:
                    equal((name, ran.returncode, ran.stdout, ran.stderr), (name, -number, b"", b""))
                equal((name, os.listdir(held), left_by(it)), (name, [], []))
            os.remove(f"{at}/bin/{name}")


def bounded_reasons() -> None:
    """coverage: what explains a refusal is ended after some seconds, and by what ends the call; nothing is left running"""
    with folder() as at, interruptible():
        it = Front(at)
        it.write("input", "0 3\n")
        said = b"COVERAGE REPORT"
        for forever in ("exec sleep 60", "while :; do :; done"):
            it.write("bin/python3", f"#!/bin/sh\ntrap '' INT\ntouch {at}/asked\n{forever}\n")
            os.chmod(f"{at}/bin/python3", 0o755)
            for number in (None, signal.SIGTERM, signal.SIGINT, signal.SIGHUP, signal.SIGQUIT):
                if os.path.exists(f"{at}/asked"):
                    os.remove(f"{at}/asked")
                began = time.monotonic()
                with open(f"{at}/input", "rb") as source, open(f"{at}/output", "wb") as sink:
                    started = subprocess.Popen([f"{at}/coverage", "run"], stdin=source, stdout=sink, stderr=subprocess.PIPE, env=it.env)
                    if number is not None:
                        wait_for(lambda: os.path.exists(f"{at}/asked"))
                        started.send_signal(number)
                    _, error = started.communicate(timeout=SECONDS)
                equal((forever, number, started.returncode), (forever, number, 3 if number is None else -number))
                assert os.path.exists(f"{at}/asked") and error.count(b"\n") == 1 and said not in error, error
                assert time.monotonic() - began < 20, "it has gone on"
                equal(left_by(it), [])


def posix_mode() -> None:
    """coverage: a shell that is to keep to POSIX changes nothing"""
    spent = FIRST.report([replace(FIRST_RESULT, ending="SPENT", count=2)], "::^", 3, "000006-000007")
    short = FIRST.job("TASK A 100000 16 2 0\n")
    for mode in ("export POSIXLY_CORRECT=1", "set -o posix; export SHELLOPTS"):
        for words, data, status, output, said in (
            (["run"], FIRST.job(), 0, FIRST_REPORT, ""), (["run", "--seconds", "99"], FIRST.job(), 0, FIRST_REPORT, ""),
            (["run", "--must-return"], FIRST.job(), 0, FIRST_REPORT, ""),
            (["run", "--must-return"], short, NOT_RETURNED, spent,
             "coverage: not returned: A SPENT: docs/TROUBLE.md says what each ending is\n"),
            (["run"], b"", 2, b"BAD JOB LINE 1\n", f"coverage: status 2: {NO_JOB}\n"),
        ):
            ran = run([COVERAGE, *words], data, before=mode)
            equal((mode, words, ran.status, ran.output, ran.error), (mode, words, status, output, said))


def script_words() -> None:
    """coverage: a report that is named where the scripts want it on standard input"""
    with folder() as at:
        with open(f"{at}/orders.report", "wb"):
            pass
        own = ["--leave-out", "orders.report"]
        for words in (["page"], ["summary"], ["cobertura"], ["lcov", "f"], ["summary", "--json"], ["lcov", *own, "f"], ["page", *own]):
            misused(coverage(*words, "orders.report", cwd=at), words[0], "orders.report is a word too many", f"{' '.join(words)} < orders.report")
        # Of these no call comes by another '<'.
        for words, said in (
            (["page", "none"], "none is a word too many"), (["page", "none", "orders.report"], "none is a word too many"),
            (["lcov", "f", *own], "--leave-out stands behind f, and not before it"),
            (["lcov", "f", *own, "orders.report"], "--leave-out stands behind f, and not before it"),
            (["summary", "--jsn", "orders.report"], "--jsn is none of its options"),
        ):
            misused(coverage(*words, cwd=at), words[0], said)


def help_of_commands() -> None:
    """coverage: --help behind a command of the program writes what the help says of it; a disk that is full is told once"""
    whole = coverage("--help").output.decode()
    (of_all,) = re.findall(r"^  --seconds .*\n", whole, re.M)
    calls = dict(re.findall(r"^(?:usage:|      ) coverage ([a-z]+)(.*)$", whole.partition("       coverage module")[0], re.M))
    for name, call in calls.items():
        (own,) = re.findall(rf"^  {name} .*\n(?:    .*\n)*", whole, re.M)
        for words in ([name], ["services", name]):
            shown = coverage(*words, "--help").output.decode()
            if name not in ("run", "exits", "early", "services") and words == [name]:
                equal(shown, f"usage: coverage {name}{call}\n\n{own}{of_all}")
            elif words == [name]:
                assert shown.startswith(f"usage: coverage {name}{call}\n\n{own}  --must-return ") and of_all in shown, shown
            else:
                equal(shown, coverage("services", "--help").output.decode())
    equal(len(calls), 14)
    equal(coverage("marks", "S", "--help").output, coverage("marks", "--help").output)
    equal(coverage("runs", "--help").status, 1)
    for given in ((), ("--help",), ("--version",), ("run", "--help")):
        for redirect in (">/dev/full", ">&-"):
            ran = coverage(*given, redirect=redirect)
            said = "coverage: standard output could not be written whole: its disk is full, or it is closed\n"
            equal((given, ran.status, ran.error), (given, 6, said))


# A program that waits for as long as its input says, and writes what is left of it; it tells the signals that it gets.
PRETENDED = """#!/usr/bin/env python3
import os, signal, sys, time
if signal.getsignal(signal.SIGINT) == signal.default_int_handler:
    signal.signal(signal.SIGINT, signal.SIG_DFL)
words = sys.stdin.buffer.readline().split() if sys.argv[1:] != ['trial', '7', '8'] else [b'2.6']
if words[:1] == [b'COVERJOB']:
    words = [b'2.6']
open(os.environ['STARTED'], 'w').close()
if words[:1] == [b'kill']:
    if int(words[1]) != signal.SIGKILL:
        signal.signal(int(words[1]), signal.SIG_DFL)
    os.kill(os.getpid(), int(words[1]))
if words[:1] == [b'part']:
    os.write(1, b'COVERAGE')
    words.pop(0)
if words[1:] == [b'3']:
    os.write(1, b'MISMATCH M LINE 2\\n')
    sys.exit(3)
time.sleep(float(words[0]))
os.write(1, b'COVERAGE REPORT\\n')
sys.exit(int(words[1]) if len(words) > 1 else 0)
"""


class Front(Copy):
    """A copy of the scripts with a program that only pretends, which is built."""

    def __init__(self, at: str, program: str = PRETENDED.replace("/usr/bin/env python3", sys.executable)) -> None:
        super().__init__(at)
        before = RT.partition("printf '#!/bin/sh")[0]
        self.write("bin/rt", f'{before}cp "$TEST_TOP/program" $program\n')
        self.write("program", program)
        os.chmod(f"{at}/program", 0o755)
        self.env["STARTED"] = f"{at}/started"
        # The first call that comes a second or two later notes how the files stand; those behind it look for no more.
        until = time.monotonic() + SECONDS
        while not os.path.exists(f"{at}/out/seen"):
            assert time.monotonic() < until, "no call notes how the files stand"
            equal(subprocess.run([f"{at}/coverage", "run"], input=b"0\n", capture_output=True, env=self.env, check=False).returncode, 0)
            time.sleep(0.2)

    def begin(self, line: str) -> subprocess.Popen[str]:
        """Starts a call, which has started the program by the time that it is answered."""
        if os.path.exists(self.env["STARTED"]):
            os.remove(self.env["STARTED"])
        started = self.start("run")
        assert started.stdin
        started.stdin.write(f"{line}\n")
        started.stdin.flush()
        wait_for(lambda: os.path.exists(self.env["STARTED"]))
        return started


def statuses_and_signals() -> None:
    """coverage: statuses, and the signal that has ended the program, are passed on; a signal that it gets goes to the program"""
    with folder() as at, interruptible():
        it = Front(at)
        for status in (0, 1, 16, 77, 128):
            equal(ended(it.begin(f"0 {status}"))[0], status)
        for number in (signal.SIGTERM, signal.SIGINT, signal.SIGKILL, signal.SIGHUP, signal.SIGSEGV, signal.SIGPIPE):
            equal(ended(it.begin(f"kill {int(number)}")), (-number, "", ""))
        words = ["bash", "-c", f"{it.at}/coverage run <<< 'kill 9'; echo $?"]
        shell = subprocess.run(words, capture_output=True, text=True, env=it.env, check=False)
        equal(shell.stdout, "137\n")
        for number in (signal.SIGTERM, signal.SIGINT, signal.SIGQUIT, signal.SIGHUP, signal.SIGUSR1):
            started, began = it.begin("60"), time.monotonic()
            started.send_signal(number)
            equal(ended(started), (-number, "", ""))
            assert time.monotonic() - began < 30, "the program has gone on"


def ignored_signal() -> None:
    """coverage: a signal that it ignores is ignored by the program"""
    with folder() as at:
        it = Front(at)
        words, pipe = ["bash", "-c", f"trap '' HUP; rm {at}/started; exec {at}/coverage run"], subprocess.PIPE
        started = subprocess.Popen(words, stdin=pipe, stdout=pipe, stderr=pipe, text=True, env=it.env)
        assert started.stdin
        wait_for(lambda: not os.path.exists(it.env["STARTED"]))
        started.stdin.write("1\n")
        started.stdin.flush()
        wait_for(lambda: os.path.exists(it.env["STARTED"]))
        started.send_signal(signal.SIGHUP)
        equal(ended(started), (0, "COVERAGE REPORT\n", ""))


def no_python() -> None:
    """coverage: a call whose sources haven't changed starts no Python, whatever it writes to"""
    with folder() as at:
        it = Front(at)
        it.write("bin/python3", "#!/bin/sh\necho 'a python was started' >&2\nexit 99\n")
        os.chmod(f"{at}/bin/python3", 0o755)
        for words in (["run"], ["run", "--must-return"], ["combine"], ["marks", "S"]):
            ran = run([f"{at}/coverage", *words], b"0\n", env=it.env)
            equal((words, ran.status, ran.output, ran.error), (words, 0, b"COVERAGE REPORT\n", ""))
        ran = run([f"{at}/coverage", "run"], b"0 13\n", env=it.env)
        equal((ran.status, "status 13: no session" in ran.error), (13, True))


def on_terminal(it: Front, words: list[str], data: bytes, with_output: bool = False) -> tuple[int, bytes, bytes]:
    """A call whose standard error, or output too, is a terminal, and its input a file: its status, what the terminal got, its output."""
    it.write("input", data.decode())
    master, slave = pty.openpty()
    with open(f"{it.at}/input", "rb") as source, open(f"{it.at}/output", "wb") as sink:
        output = slave if with_output else sink.fileno()
        started = subprocess.Popen([f"{it.at}/coverage", *words], stdin=source, stdout=output, stderr=slave, env=it.env)
    os.close(slave)
    seen = b""
    with contextlib.suppress(OSError):
        while part := os.read(master, 4096):
            seen += part
    os.close(master)
    with open(f"{it.at}/output", "rb") as file:
        return started.wait(SECONDS), seen, file.read()


def progress() -> None:
    """coverage: from two seconds on a terminal has a line that tells what runs, since when and what bounds it, and is taken away"""
    job = FIRST.job(TASK + "TASK B 100000 16 2000 0\n")
    line = rb"(?:\r\x1b\[K\x1b\[\?7lcoverage: %s, 0:[0-9]{2} since [0-9]{2}:[0-9]{2}:[0-9]{2}%s\x1b\[\?7h)+\r\x1b\[K"
    tasks = b"; 2 tasks, each of at most 2000 instructions"
    with folder() as at:
        it = Front(at)
        for words, data, bounds in (
            (["run"], job, tasks), (["prove", "S"], job, tasks), (["run"], FIRST.job(), b"; 1 task of at most 100 instructions"),
            (["combine"], job, b""), (["trial", "7", "8"], b"", b"; 8 tasks, each of fewer than 250000 instructions"),
            (["run", "--must-return"], job, tasks),
        ):
            status, seen, output = on_terminal(it, words, data)
            equal((words, status, output), (words, 0, b"COVERAGE REPORT\n"))
            assert re.fullmatch(line % (words[0].encode(), bounds), seen), seen
        status, seen, _ = on_terminal(it, ["run"], job, True)
        assert not status and re.fullmatch(line % (b"run", tasks) + rb"COVERAGE REPORT\r\n", seen), seen


def no_progress() -> None:
    """coverage: a call that is over sooner says nothing on a terminal, and a long one nothing where standard error is a file"""
    with folder() as at:
        it = Front(at, "#!/bin/sh\necho COVERAGE REPORT\n")
        equal(on_terminal(it, ["run"], b""), (0, b"", b"COVERAGE REPORT\n"))
        equal(on_terminal(it, ["run"], b"", True), (0, b"COVERAGE REPORT\r\n", b""))
    with folder() as at:
        it = Front(at)
        with open(f"{at}/error", "wb") as error:
            words = [f"{at}/coverage", "run"]
            ran = subprocess.run(words, input=b"2.6\n", stdout=subprocess.PIPE, stderr=error, env=it.env, check=False)
        with open(f"{at}/error", "rb") as file:
            equal((ran.returncode, ran.stdout, file.read()), (0, b"COVERAGE REPORT\n", b""))


def in_session(it: Front, command: str, keys: bytes = b"") -> tuple[int, bytes]:
    """A shell's command whose terminal is its session's: its status, and what the terminal got; the keys are struck behind that."""
    if os.path.exists(it.env["STARTED"]):
        os.remove(it.env["STARTED"])
    master, slave = pty.openpty()
    take = partial(fcntl.ioctl, slave, termios.TIOCSCTTY, 0)
    words = ["bash", "-c", command]
    started = subprocess.Popen(words, stderr=slave, cwd=it.at, env=it.env, start_new_session=True, preexec_fn=take)
    os.close(slave)
    seen = b""
    with contextlib.suppress(OSError):
        while part := os.read(master, 4096):
            seen += part
            wait_for(lambda: os.path.exists(it.env["STARTED"]))
            os.write(master, keys)
            keys = b""
    os.close(master)
    return started.wait(SECONDS), seen


def keys_and_background() -> None:
    """coverage: Control-C ends the program and takes the line away; a job in the background of a shell leaves its terminal alone"""
    with folder() as at, interruptible():
        it = Front(at)
        status, seen = in_session(it, "exec ./coverage run < <(echo 60) > /dev/null", b"\x03")
        line = rb"\r\x1b\[K\x1b\[\?7lcoverage: run, .*\r\x1b\[K"
        assert status == -signal.SIGINT and re.fullmatch(line, seen, re.S), (status, seen[-200:])
        status, seen = in_session(it, "set -m; ./coverage run < <(echo 3.2) > output & wait $!")
        assert not status and b"since" not in seen, (status, seen[-200:])


def typed() -> None:
    """coverage: an input that is to be typed is asked for, and no line of progress stands there meanwhile"""
    with folder() as at:
        it = Front(at)
        master, slave = pty.openpty()
        words = [f"{at}/coverage", "run"]
        started = subprocess.Popen(words, stdin=slave, stdout=subprocess.PIPE, stderr=subprocess.PIPE, env=it.env)
        os.write(master, b"2.6\n")
        output, error = started.communicate(timeout=SECONDS)
        os.close(slave)
        os.close(master)
        said = b"coverage: run reads standard input, which is the terminal here: ./coverage alone says what each command reads\n"
        equal((started.returncode, output, error), (0, b"COVERAGE REPORT\n", said))


def refused_on_terminal() -> None:
    """coverage: on a terminal a refusal is told once, its meaning below it"""
    with folder() as at:
        status, seen, _ = on_terminal(Front(at), ["count"], b"0 14\n", True)
        said = b"coverage: a task opens and closes that session, so what it shows hangs on how tasks race: docs/JOB.md\r\n"
        equal((status, seen), (14, b"COVERAGE REPORT\r\n" + said))


def unbuilt_words() -> None:
    """coverage: words that are no command's are refused without a build, with the call that was meant"""
    with folder() as at:
        it = Copy(at)
        it.write("cust.job", "")
        for words, said in (
            (["runs"], ["runs is no command: ./coverage alone says which there are",
                        "did you mean ./coverage run < JOB > REPORT ?"]),
            (["run", "cust.job"], ["these are not the words of run: ./coverage alone says which they are",
                                   "did you mean ./coverage run < cust.job ?"]),
        ):
            ran = subprocess.run([f"{at}/coverage", *words], capture_output=True, text=True, env=it.env, cwd=at, check=False)
            equal((ran.returncode, ran.stdout, ran.stderr.splitlines()), (1, "", [f"coverage: {text}" for text in said]))
        for words in (["marks", "s"], ["show", "ABCDEFGHI"], ["prove", "2ND"], ["verify", ""], ["trial", "07", "8"],
                      ["trial", "7", "0"], ["trial", "7", "65"], ["trial", "4294967296", "8"], ["marks", "S", "T"], ["run", "--must-return", "x"], ["marks", "S", "--must-return"], [""]):
            equal((words, it.run(*words)[0]), (words, 1))
        equal(it.calls(), [])
        for words in (["marks", "@$#9ABCD"], ["trial", "0", "64"], ["trial", "4294967295", "1"]):
            equal(it.run(*words)[:2], (77, f"one: {' '.join(words)}\ninput\n"))


ROWS = [*words_meant(), *cards_refused(), *listings_refused(), *marks_refused()]
CHECKS = [
    *map(of_row, ROWS), into_pipe, appended, streams, explains_in_time, must_return, must_return_streams, posix_mode, script_words, seconds,
    seconds_words, few_files, signals_before_the_program, bounded_reasons, help_of_commands, statuses_and_signals,
    ignored_signal, no_python, progress, no_progress, keys_and_background, typed,
    refused_on_terminal, unbuilt_words,
]
