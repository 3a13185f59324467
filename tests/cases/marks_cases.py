"""The program's marks files and evidence: marks, combine, show, prove and verify."""
from __future__ import annotations

from fixtures.harness import COVERAGE, PROGRAM, TOP, Case, equal, run, well
from fixtures.jobs import COUNTED, FIRST, USAGE, Program, task

OTHER_COUNT = Program.of("0 4620F000 BCT, 4 07FE BR")
# Of the program that counts: what it shows where its count ends at once, where it is spent as it goes on, and the two runs together.
FELL, WENT, BOTH = COUNTED.marks_file(4, 1), COUNTED.marks_file(2, 0), COUNTED.marks_file(6, 1, runs=2)


def marks_files() -> list[Case]:
    """marks, combine and show: the file of a run, the union of several, the listings that it marks, and what is refused."""
    ends, goes_on = COUNTED.job(task("REG 1 00000001")), COUNTED.job(task("REG 1 00000002", "TASK A 100000 16 1 0\n"))
    digits = "53333730434F5632 5320202020202020 00000001 0001 4D20202020202020 00100000 00000006 00000002 00000000 04 01 4610 04 00000004 02 00 07FE 01"
    file, other = bytes.fromhex(digits), OTHER_COUNT.marks_file(4, 1)
    both = COUNTED.shown("&:", 3)
    mismatch = COUNTED.job(listing=[it.replace("F000", "F004") for it in COUNTED.listing()])
    offset = b"BAD MARKS OFFSET %d\n"
    row = b"OTHER TABLE ROW 1 LEFT 0000000004014610 RIGHT 0000000004014620\n"
    return [
        Case("marks", ["marks", "S"], ends, file),
        Case("marks of another input", ["marks", "S"], goes_on, WENT),
        Case("combine", ["combine"], file + WENT, BOTH),
        Case("combine in the other order", ["combine"], WENT + file, BOTH),
        Case("combine of a file of version 1", ["combine"], COUNTED.marks_file(4, 1, version=1) + file, COUNTED.marks_file(4, 1, name="", runs=2)),
        Case("combine of another session's file", ["combine"], COUNTED.marks_file(2, 0, name="T", runs=7) + file, COUNTED.marks_file(6, 1, name="T", runs=8)),
        Case("combine with another session's file", ["combine"], file + COUNTED.marks_file(4, 1, name="T", runs=5), COUNTED.marks_file(4, 1, runs=6)),
        Case("combine of another session's file and of version 1", ["combine"],
             COUNTED.marks_file(4, 1, name="T", runs=5) + COUNTED.marks_file(4, 1, version=1), COUNTED.marks_file(4, 1, name="T", runs=6)),
        Case("combine of version 1 alone", ["combine"], COUNTED.marks_file(4, 1, version=1), COUNTED.marks_file(4, 1, name="")),
        Case("combine of the most runs", ["combine"], COUNTED.marks_file(4, 1, runs=0xFFFFFFFF) + file, COUNTED.marks_file(4, 1, runs=0xFFFFFFFF)),
        Case("combine up to the most runs", ["combine"], COUNTED.marks_file(4, 1, runs=0xFFFFFFFE) + file, COUNTED.marks_file(4, 1, runs=0xFFFFFFFF)),
        Case("combine past the most runs", ["combine"], 2 * COUNTED.marks_file(4, 1, runs=0xFFFFFFFE), COUNTED.marks_file(4, 1, runs=0xFFFFFFFF)),
        Case("show", ["show", "S"], ends + BOTH, both),
        Case("show of a file of version 1", ["show", "S"], ends + COUNTED.marks_file(6, 1, version=1), both),
        Case("show of another session's file", ["show", "S"], ends + COUNTED.marks_file(6, 1, name="X", runs=9), both),
        Case("show of one file", ["show", "S"], ends + WENT, COUNTED.shown(">^", 3, "000004-000005")),
        Case("marks by the script", ["marks", "S"], ends, file, command=COVERAGE),
        Case("combine by the script", ["combine"], file + WENT, BOTH, command=COVERAGE),
        Case("show by the script", ["show", "S"], ends + BOTH, both, command=COVERAGE),
        Case("marks without a name", ["marks"], ends, USAGE, 1),
        Case("marks of what is no name", ["marks", "9X"], ends, USAGE, 1),
        Case("show of a name of nine letters", ["show", "ABCDEFGHI"], ends + file, USAGE, 1),
        Case("combine with a name", ["combine", "S"], file, USAGE, 1),
        Case("marks of a session that isn't there", ["marks", "X"], FIRST.job(), b"NO SESSION X\n", 13),
        Case("show of a session that isn't there, and no file", ["show", "X"], mismatch, b"NO SESSION X\n", 13),
        Case("a file behind the job of marks", ["marks", "S"], ends + file, b"BAD JOB LINE 13\n", 2),
        Case("show of a listing that doesn't match, and no file", ["show", "S"], mismatch,
             b"MISMATCH M LINE 2 LOC 000000 LISTING 4610F004 MODULE 4610F000\n", 3),
        Case("no file behind the job of show", ["show", "S"], ends, offset % 0, 10),
        Case("a byte past the file of show", ["show", "S"], ends + other + b"\n", offset % 60, 10),
        Case("another table behind the job of show", ["show", "S"], ends + other, row, 11),
        Case("combine of nothing", ["combine"], b"", offset % 0, 10),
        Case("combine of a file that is cut", ["combine"], file[:-1], offset % 59, 10),
        Case("combine of a second file that is cut", ["combine"], file + file[:-1], offset % 119, 10),
        Case("combine of another table", ["combine"], file + other + file[:-1], row, 11),
        Case("the most bytes of combine", ["combine"], b"\n" * 16_777_216, offset % 0, 10),
        Case("INPUT, of combine", ["combine"], b"\n" * 16_777_217, b"TOO LARGE INPUT\n", 4),
        Case("INPUT, of marks", ["marks", "X"], ends + bytes(16_777_216), b"TOO LARGE INPUT\n", 4),
        Case("INPUT, of show", ["show", "S"], ends + bytes(16_777_216), b"TOO LARGE INPUT\n", 4),
    ]


def evidence() -> list[Case]:
    """prove and verify: the evidence of a run, what it verifies, and what is refused."""
    count, short = COUNTED.job(task("REG 1 00000003")), COUNTED.job(task("REG 1 00000003", "TASK A 100000 16 2 0\n"))
    magic, went, stayed, left = (bytes.fromhex(it) for it in ("5333373045564431", "00000000000000", "00000000000200", "00000000000300"))
    proof, file = magic + went + stayed + left, COUNTED.marks_file(6, 1)
    execute = Program.of("0 4410F006 EX, 4 07FE BR, 6 D20000000008 MVC")
    moves = execute.job(task("REG 1 00000002 / DATA 8 010203"))
    moved = magic + bytes.fromhex("00000000000000 00000000000100 00000000000001")
    mismatch = COUNTED.job(listing=[it.replace("F000", "F004") for it in COUNTED.listing()])
    controlled = COUNTED.job().replace(b"SESSION S M", b"SESSION S BY A M")
    verified = b"VERIFIED S FACTS 3\n"

    def refuted(name: str, sets: bytes, text: bytes, line: bytes, job: bytes = count) -> Case:
        return Case(name, ["verify", "S"], job + sets + text, b"REFUTED ROW %s\n" % line, 16)

    def bad(name: str, text: bytes, offset: int) -> Case:
        return Case(name, ["verify", "S"], count + file + text, b"BAD EVIDENCE OFFSET %d\n" % offset, 15)

    return [
        Case("prove", ["prove", "S"], count, proof),
        Case("prove of a subject of EX", ["prove", "S"], moves, moved),
        Case("prove of no task", ["prove", "S"], COUNTED.job(""), magic),
        Case("prove by the script", ["prove", "S"], count, proof, command=COVERAGE),
        Case("verify", ["verify", "S"], count + file + proof, verified),
        Case("verify of a file of version 1", ["verify", "S"], count + COUNTED.marks_file(6, 1, version=1) + proof, verified),
        Case("verify of another session's file of two runs", ["verify", "S"], count + COUNTED.marks_file(6, 1, name="X", runs=2) + proof, verified),
        Case("verify of a subject of EX", ["verify", "S"], moves + execute.marks_file(1, 1, 1) + moved, verified),
        Case("verify by the script", ["verify", "S"], count + file + proof, verified, command=COVERAGE),
        Case("prove without a name", ["prove"], count, USAGE, 1),
        Case("verify of what is no name", ["verify", "9X"], count, USAGE, 1),
        Case("prove of a session that isn't there", ["prove", "X"], mismatch, b"NO SESSION X\n", 13),
        Case("verify of a session that isn't there", ["verify", "X"], mismatch, b"NO SESSION X\n", 13),
        Case("prove of a session with a controller", ["prove", "S"], controlled, b"CONTROLLED S\n", 14),
        Case("verify of a session with a controller", ["verify", "S"], controlled, b"CONTROLLED S\n", 14),
        Case("prove of a listing that doesn't match", ["prove", "S"], mismatch, b"MISMATCH M LINE 2 LOC 000000 LISTING 4610F004 MODULE 4610F000\n", 3),
        Case("a file behind the job of prove", ["prove", "S"], count + file, b"BAD JOB LINE 13\n", 2),
        Case("no file behind the job of verify", ["verify", "S"], count, b"BAD MARKS OFFSET 0\n", 10),
        Case("a file that is cut behind the job of verify", ["verify", "S"], count + file[:-1], b"BAD MARKS OFFSET 59\n", 10),
        Case("another table behind the job of verify", ["verify", "S"], count + OTHER_COUNT.marks_file(6, 1),
             b"OTHER TABLE ROW 1 LEFT 0000000004014610 RIGHT 0000000004014620\n", 11),
        bad("no evidence", b"", 0),
        bad("evidence without its last byte", proof[:-1], 28),
        bad("a byte behind evidence", proof + b"\n", 29),
        bad("evidence of a task that isn't there", magic + b"\0\1" + proof[10:], 8),
        refuted("a fact that is left out", COUNTED.marks_file(2, 1), magic + went + left, b"1 FACT S"),
        refuted("a later visit", file, magic + left + stayed + left, b"1 FACT W"),
        refuted("a return that is left out", COUNTED.marks_file(6, 0), magic + went + stayed, b"2 FACT R"),
        refuted("a subject as an instruction", execute.marks_file(1, 1, 1), moved[:-1] + b"\0", b"3 FACT R", moves),
        refuted("a fact of another job", file, proof, b"1 FACT S", short),
    ]


def two_runs() -> None:
    """examples: two runs of the orders, their files united in either order, and the listing with the marks of both"""
    with open(f"{TOP}/examples/orders.job", "rb") as job, open(f"{TOP}/examples/short.tasks", "rb") as tasks:
        first, short = job.read(), tasks.read()
    second = first[: first.index(b"PHASE ")] + short + b"ENDJOB\n"
    files = [well(run([PROGRAM, "marks", "ORDERS"], it)).output for it in (first, second)]
    union = well(run([PROGRAM, "combine"], files[0] + files[1])).output
    equal(well(run([PROGRAM, "combine"], files[1] + files[0])).output, union)
    shown = well(run([PROGRAM, "show", "ORDERS"], first + union)).output.splitlines()
    # A record that ends early takes the other side of one branch, and reaches four lines more: all but a branch behind a count.
    equal([it for it in shown if it.startswith((b"MODULE ORDERS ", b"NOT EXECUTED"))],
          [b"MODULE ORDERS PLACES 76 EXECUTED 75 FACTS 80 OF 83", b"NOT EXECUTED 0000E2-0000E5"])
    equal([it[:1] for it in shown if it[3:9] in (b"000036", b"0000E2", b"0000F6")], [b"&", b"^", b":"])


def evidence_of_two() -> None:
    """examples: evidence of a run of the orders verifies its file, and refutes it once another run's is united with it"""
    with open(f"{TOP}/examples/orders.job", "rb") as job, open(f"{TOP}/examples/short.tasks", "rb") as tasks:
        first, short = job.read(), tasks.read()
    second = first[: first.index(b"PHASE ")] + short + b"ENDJOB\n"
    for it, facts in ((first, 75), (second, 36)):
        file, proof = (well(run([PROGRAM, word, "ORDERS"], it)).output for word in ("marks", "prove"))
        said = well(run([PROGRAM, "verify", "ORDERS"], it + file + proof)).output
        equal((said, len(proof)), (b"VERIFIED ORDERS FACTS %d\n" % facts, 8 + 7 * facts))
    files = [well(run([PROGRAM, "marks", "ORDERS"], it)).output for it in (first, second)]
    union = well(run([PROGRAM, "combine"], files[0] + files[1])).output
    proof, other = (well(run([PROGRAM, "prove", "ORDERS"], it)).output for it in (first, second))
    # The short run doesn't branch at 00002E, row 14, where the first does too.
    ran = run([PROGRAM, "verify", "ORDERS"], first + files[1] + other)
    equal((ran.status, ran.output), (16, b"REFUTED ROW 14 FACT W\n"))
    # The union has five facts more than the evidence of the first run has entries. With entries for them the first is refuted, that the
    # branch at 000036, row 16, was taken.
    ran = run([PROGRAM, "verify", "ORDERS"], first + union + proof)
    equal((ran.status, ran.output), (15, b"BAD EVIDENCE OFFSET %d\n" % len(proof)))
    ran = run([PROGRAM, "verify", "ORDERS"], first + union + proof + proof[-7:] * 5)
    equal((ran.status, ran.output), (16, b"REFUTED ROW 16 FACT W\n"))


CHECKS = [two_runs, evidence_of_two]


def cases() -> list[Case]:
    """All of marks files and evidence."""
    return [*marks_files(), *evidence()]
