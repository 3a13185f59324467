"""The rows of tests/rows: jobs and other inputs, each with the status and the output that a command gives it.

Each command's file that has its word for a name has cases of jobs. One begins with `@case` and its name. Module M stands at X'100000';
its instructions, behind `@code`, are a location, object code and an operation, parted by commas. They make its listing, and its bytes
too, where no other bytes stand before a colon. Phase P follows, and behind it the job's own lines, those behind `@job`; session S over
M stands before them where they begin with no other session. Without instructions the job's own lines are all that it has. Behind
`@text` stand the status and, from the next line on, the text.

In the text a line as `task A RETURNED COUNT 3 CC 2 regs 1=0000000A` is the lines of a task without output, of whose registers those
that aren't named are as those of a task that begins at X'100000'. One as `session S PHASE P marks :^ EXECUTED 1 FACTS 1 OF 2`, with a
mark for each instruction, is the session's line, the module's and the annotated listing. Every other line stands for itself.

codes.txt has codes alone, for cases/listing_cases.py. The other files have rows of words, an input and an output, behind `@row`,
`@words`, `@input` and `@output`. There a line that begins with `%module` and instructions stands for the job's lines up to module
M's last, with `%phase` for those up to its phase, with `%code` for those up to session S, with `%task` for the lines of a task,
with `%marked` for module M's part of a listing (its instructions, and behind ` | ` the marks and how the module's line ends), with
`%bytes` for these bytes, with `%bare` for a line without its LF, and with `%use` for the lines of the sample of that name, which
stands before the rows or in samples.txt.
"""
from __future__ import annotations

import socket
import subprocess
from dataclasses import replace
from typing import Iterator

from fixtures.harness import PROGRAM, SECONDS, TOP, Case, equal, run, well
from fixtures.jobs import COUNTED, HEADING, USAGE

FOLDER = f"{TOP}/tests/rows"
WORDS = ("run", "exits", "early", "count", "table", "replay")
FILES = ("called", "versions", "files", "evidence", "services", "commands")

# A number, how many tasks, and the summary of the job that they make.
TRIALS = [
    ("7", "8", "COVERAGE TRIAL 7 TASKS 8\nPLACES 618 INSTRUCTIONS 894384\nMARKS NOT 58 EXECUTED 451 BRANCHED 58 FELL 47 BOTH 4\n"),
    ("0", "1", "COVERAGE TRIAL 0 TASKS 1\nPLACES 620 INSTRUCTIONS 113798\nMARKS NOT 49 EXECUTED 461 BRANCHED 49 FELL 55 BOTH 6\n"),
    ("4294967295", "2", "COVERAGE TRIAL 4294967295 TASKS 2\nPLACES 592 INSTRUCTIONS 216032\nMARKS NOT 44 EXECUTED 452 BRANCHED 44 FELL 43 BOTH 9\n"),
]

# What two runs have shown, where neither has executed the return; and the same where each was united twice.
UNION = "53333730434F5632 5320202020202020 00000002 0001 4D20202020202020 00100000 00000006 00000002 00000000 04 01 4610 06 00000004 02 00 07FE 00"
UNION_AGAIN = "53333730434F5632 5320202020202020 00000004 0001 4D20202020202020 00100000 00000006 00000002 00000000 04 01 4610 06 00000004 02 00 07FE 00"

# Words that are no command, though some are nearly one.
NO_COMMANDS: list[list[str]] = [
    [], ["tables"], ["Table"], ["table", "run"], ["count", "S"], ["Count"], ["early", "S"],
    ["trial"], ["trial", "7"], ["trial", "7", "8", "9"], ["trials", "7", "8"], ["trial", "7", "0"], ["trial", "7", "65"],
    ["trial", "7", "07"], ["trial", "7", "+1"], ["trial", "7", ""], ["trial", "00", "8"], ["trial", "07", "8"], ["trial", "-1", "8"],
    ["trial", "4294967296", "8"], ["trial", "S", "8"],
    ["marks"], ["marks", ""], ["marks", "9X"], ["marks", "s"], ["marks", "S "], ["marks", "ABCDEFGHI"], ["marks", "S", "S"],
    ["Marks", "S"], ["show"], ["show", ""], ["show", "9X"], ["show", "ABCDEFGHI"], ["show", "S", ""], ["prove"], ["prove", "9X"],
    ["verify"], ["verify", "S", "S"], ["combine", "S"], ["combine", ""], ["mark", "S"],
]


def instructions_of(code: str) -> tuple[str, list[str]]:
    """The digits of the module's bytes, and its instructions."""
    digits, colon, listed = code.partition(":")
    instructions = [it.strip() for it in (listed if colon else code).split(",") if it.strip()]
    return (digits if colon else "".join("".join(it.split()[1:-1]) for it in instructions)), instructions


def listing_of(instructions: list[str]) -> list[str]:
    """A line for each instruction, with its statement's number right in five columns behind 34."""
    parts = [it.rsplit(" ", 1) for it in instructions]
    return [f"{front:<34}{number:>5}{'':10}{operation}" for number, (front, operation) in enumerate(parts, 1)]


def text_lines(lines: list[str]) -> bytes:
    """The lines, each with its LF."""
    return "".join(f"{it}\n" for it in lines).encode()


def lines_of_front(code: str) -> list[str]:
    """The lines of a job up to module M's last."""
    digits, instructions = instructions_of(code)
    cards = ["COVERJOB 1", f"MODULE M 100000 {len(digits) // 2}", f"TEXT {digits}", f"LISTING {len(instructions) + 1}"]
    return [*cards, HEADING, *listing_of(instructions)]


def lines_of_phase(code: str) -> list[str]:
    """The lines of a job up to its phase."""
    return [*lines_of_front(code), "PHASE P"]


def job_of(code: str, own: str) -> bytes:
    """The job of these instructions and of its own lines."""
    front = lines_of_phase(code) if code else []
    session = ["SESSION S M"] if code and not own.startswith("SESSION") else []
    return text_lines([*front, *session]) + own.encode()


def lines_of_task(words: str) -> list[str]:
    """The lines of a task without output."""
    ending, _, named = words.partition(" regs")
    registers = ["00000000"] * 14 + ["00FFFFFE", "00100000"]
    for word in named.split():
        key, value = word.split("=")
        registers[int(key, 16)] = value
    return [f"TASK {ending}", f"R0 {' '.join(registers[:8])}", f"R8 {' '.join(registers[8:])}", "OUT 0"]


def lines_of_module(code: str, words: str) -> list[str]:
    """The module's line and the annotated listing, by the marks and how the module's line ends."""
    marks, _, counts = words.partition(" ")
    listing = listing_of(instructions_of(code)[1])
    assert len(marks) == len(listing), words
    shown = [f"{mark} {line}" for mark, line in zip(marks, listing)]
    return [f"MODULE M PLACES {len(listing)} {counts}", f"  {HEADING}", *shown]


def lines_of_session(code: str, words: str) -> list[str]:
    """The session's line, the module's and the annotated listing."""
    session, _, rest = words.partition(" marks ")
    return [f"SESSION {session}", *lines_of_module(code, rest)]


def text_of(code: str, text: str) -> bytes:
    """What is written."""
    lines: list[str] = []
    for line in text.splitlines():
        kind, _, words = line.partition(" ")
        if kind == "task":
            lines += lines_of_task(words)
        elif kind == "session":
            lines += lines_of_session(code, words)
        else:
            lines.append(line)
    return text_lines(lines)


def read(name: str) -> str:
    """The text of a file."""
    with open(f"{FOLDER}/{name}.txt", encoding="ascii") as file:
        return file.read()


def cases_of(word: str) -> Iterator[Case]:
    """The cases of the word's file."""
    for entry in read(word).split("@case ")[1:]:
        name, rest = entry.split("\n@code", 1)
        code, rest = rest.split("\n@job\n", 1)
        own, rest = rest.split("@text ", 1)
        status, text = rest.split("\n", 1)
        yield Case(f"{word}: {name}", [word], job_of(code.strip(), own), text_of(code.strip(), text), int(status))


def part_of(line: str) -> bytes:
    """What a line of a row stands for, but for a sample."""
    kind, _, words = line.partition(" ")
    if kind == "%module":
        return text_lines(lines_of_front(words))
    if kind == "%phase":
        return text_lines(lines_of_phase(words))
    if kind == "%code":
        return job_of(words, "")
    if kind == "%task":
        return text_lines(lines_of_task(words))
    if kind == "%marked":
        return text_lines(lines_of_module(*words.split(" | ")))
    if kind == "%bytes":
        return bytes.fromhex(words)
    if kind == "%bare":
        return words.encode()
    assert not kind.startswith("%"), line
    return text_lines([line])


def rows_of(name: str) -> Iterator[Case]:
    """The rows of a file."""
    front, *entries = read(name).split("@row ")
    samples = {}
    for sample in (it for text in (read("samples"), front) for it in text.split("@sample ")[1:]):
        title, lines = sample.split("\n", 1)
        samples[title.split(" - ")[0]] = b"".join(part_of(it) for it in lines.splitlines())

    def bytes_in(lines: str) -> bytes:
        return b"".join(samples[it[5:]] if it.startswith("%use ") else part_of(it) for it in lines.splitlines())

    for entry in entries:
        title, rest = entry.split("\n@words ", 1)
        words, rest = rest.split("\n@input\n", 1)
        data, rest = rest.split("@output ", 1)
        status, output = rest.split("\n", 1)
        yield Case(f"{name}: {title}", words.split(), bytes_in(data), bytes_in(output), int(status))


def cases() -> list[Case]:
    """All rows; and words that are no command with an input, with none, and where a read would fail."""
    rows = [*(case for word in WORDS for case in cases_of(word)), *(case for name in FILES for case in rows_of(name))]
    trials = [Case(f"trial of number {number}", ["trial", str(number), str(tasks)], b"no job\n", text.encode()) for number, tasks, text in TRIALS]
    usage = [Case("no command", words, b"", USAGE, 1) for words in NO_COMMANDS]
    unread = [replace(it, name=" ".join(["no command:", *it.words]), redirect="</") for it in usage]
    return [*rows, *trials, *trials, *usage, *(replace(it, input=b"GO A\n") for it in usage), *(replace(it, input=COUNTED.job()) for it in usage), *unread]


def came_of_pieces(words: list[str], pieces: list[bytes]) -> tuple[int, bytes]:
    """The status and the output where each read gives one of these pieces: a socket of packets gives one a read."""
    own, other = socket.socketpair(socket.AF_UNIX, socket.SOCK_SEQPACKET)
    with subprocess.Popen([PROGRAM, *words], stdin=other.fileno(), stdout=subprocess.PIPE, stderr=subprocess.STDOUT) as ran:
        other.close()
        with own:
            for piece in pieces:
                own.send(piece)
        output, _ = ran.communicate(timeout=SECONDS)
    return ran.returncode, output


def byte_by_byte() -> None:
    """each row of run, where a read gives one byte"""
    for case in cases_of("run"):
        pieces = [case.input[at : at + 1] for at in range(len(case.input))]
        equal((case.name, *came_of_pieces(case.words, pieces)), (case.name, case.status, case.output))


def unites_runs() -> None:
    """the files of two runs, united in both orders and each twice, and shown"""
    jobs = [COUNTED.job(f"TASK A 100000 16 {budget} 0\nREG 1 {count:08X}\n") for budget, count in ((2, 3), (1, 1))]
    one, other = (well(run([PROGRAM, "marks", "S"], it)).output for it in jobs)
    union, again = (bytes.fromhex(it) for it in (UNION, UNION_AGAIN))
    for both in (one + other, other + one):
        equal(well(run([PROGRAM, "combine"], both)).output, union)
        equal(well(run([PROGRAM, "combine"], both + both)).output, again)
    equal(well(run([PROGRAM, "show", "S"], jobs[0] + union)).output, COUNTED.shown("&^", 3, "000004-000005"))


CHECKS = [byte_by_byte, unites_runs]
