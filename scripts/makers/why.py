"""Says what a refusal of the program probably is; `coverage` calls it behind a refusal."""
from __future__ import annotations

import difflib
import io
import os
import re
import signal
from dataclasses import dataclass, field
from typing import Callable, NoReturn, Optional

from common.command import CALLED, one_line
from common.commands import COMMANDS, OF_PROGRAM, calls_of
from readers.cards import LIMITS, Broken
from readers.job_rules import NO_SERVICES, Place, Reader
from readers.listing import heading_of
from readers.listing_rows import Code, instructions, operation_of
from readers.marks import OTHER_TEXTS, bad_marks, other_table, read_one

HELP = """\
Says what a refusal of the program probably is, on standard output, a line each.

CALLED is how the command is called, as ./coverage, STATUS the program's exit status, and LINE its refusal, empty where
it can't be known. Standard input is the program's; FROM is where it stood, and empty where it is no regular file: then
nothing is read. The WORDs are those that the program was given. What isn't known, or isn't found within a second of processor
time, is left out. This script is not proved.
"""
INPUT_LIMIT, SHOWN, SECONDS = 16_777_216, 3, 1
# How many lines of code are compared while their origin is looked for: four times the places that a job may have.
MOST_COMPARED = 262_144
FACTS = {"R": "was executed", "W": "branched", "S": "fell through"}
NAME = re.compile(r"[A-Z@#$][A-Z@#$0-9]{0,7}")
OPTIONS = ("--must-return", "--seconds")
ITEMS = ("FETCH", "MARK", "LIFT", "DO", "PLANT", "CLOSE", "GO")
# The commands that the word `services` may stand before.
SERVED = ("run", "marks", "show", "table", "count", "ends")


@dataclass
class Module:
    """A module as its cards give it; `listing` is none where it has no such card."""

    name: str
    text: bytes = b""
    listing: Optional[list[bytes]] = None


@dataclass
class Job:
    """What a job's cards say, as far as they can be read: its modules, its sessions with the names of theirs, its tasks, and the
    lines up to its ENDJOB card."""

    modules: list[Module] = field(default_factory=list)
    sessions: dict[str, list[str]] = field(default_factory=dict)
    tasks: list[str] = field(default_factory=list)
    lines: int = 0
    has_end: bool = False


def read_job(data: bytes) -> Job:
    """Reads the cards, and passes over what is none."""
    job, lines, at = Job(), data.split(b"\n"), 0
    while at < len(lines) and not job.has_end:
        words = lines[at].decode("latin-1").split(" ")
        at += 1
        if words[0] == "MODULE" and len(words) > 1:
            job.modules.append(Module(words[1]))
        elif words[0] == "TEXT" and job.modules:
            job.modules[-1].text += bytes.fromhex(words[-1])
        elif words[0] == "LISTING" and job.modules:
            count = int(words[-1])
            job.modules[-1].listing = [it[:-1] if it.endswith(b"\r") else it for it in lines[at : at + count]]
            at += count
        elif words[0] == "SESSION" and len(words) > 1:
            job.sessions[words[1]] = words[4:] if words[2:3] == ["BY"] else words[2:]
        elif words[0] == "TASK" and len(words) > 1:
            job.tasks.append(words[1])
        job.has_end = words == ["ENDJOB"]
    job.lines = at
    return job


def code_of(lines: list[bytes]) -> list[Code]:
    """The instruction lines of a listing."""
    heading = heading_of(lines)
    return instructions(lines, heading) if heading else []


def module_of(data: Optional[bytes], name: str) -> Optional[Module]:
    """The module of the name in the job, where it has a listing."""
    found = [it for it in read_job(data).modules if it.name == name] if data is not None else []
    return found[0] if found and found[0].listing else None


def mismatch(line: str, data: Optional[bytes], _words: list[str]) -> list[str]:
    """How many lines of the module's listing differ from its bytes, the first of them, and why they may."""
    module = module_of(data, line.split(" ")[1]) if line else None
    if module is None or module.listing is None:
        return []
    code = code_of(module.listing)
    others = [it for it in code if bytes_at(module, it) != it.code]
    if not others:
        return []
    have = "has" if len(others) == 1 else "have"
    said = [f"{len(others)} of the {len(code)} instruction lines of {module.name}'s listing {have} other bytes than the module:"]
    for it in others[:SHOWN]:
        has = bytes_at(module, it).hex().upper()
        said.append(f"  line {it.line}, location {it.location:06X}: listing {it.code.hex().upper()}, module {has}")
    if len(others) > SHOWN:
        said.append("  ..")
    return [*said, why_other(module, code, others)]


def bytes_at(module: Module, it: Code) -> bytes:
    """The module's bytes where an instruction line stands."""
    return module.text[it.location : it.location + len(it.code)]


def why_other(module: Module, code: list[Code], others: list[Code]) -> str:
    """What the differences of a listing and its module come of, probably."""
    shift = shift_of(module, code)
    if shift:
        way = "further" if shift > 0 else "sooner"
        return f"the listing's code stands in the module {abs(shift)} bytes {way}: the object's origin is another than the listing's"
    if not any(any(bytes_at(module, it)) for it in others):
        return "the module's bytes are zero there: its object lacks text that the listing has"
    if 2 * len(others) > len(code):
        return "most differ: the listing is probably that of another module, or of another assembly"
    return "listing and object are probably of two assemblies: take both of one, and make the cards again by ./coverage module"


def shift_of(module: Module, code: list[Code]) -> int:
    """By how many bytes all the listing's code stands further in the module than the listing says; 0 where it doesn't, or where
    that many comparisons don't tell."""
    left, start = MOST_COMPARED, module.text.find(code[0].code) if code else -1
    while start >= 0 and left > 0:
        by = start - code[0].location
        for it in code:
            left -= 1
            if not module.text.startswith(it.code, max(0, it.location + by)):
                break
        else:
            if by:
                return by
        start = module.text.find(code[0].code, start + 1)
    return 0


def bad_listing(line: str, data: Optional[bytes], _words: list[str]) -> list[str]:
    """The line of a listing that can't be used, and of one that overlaps which line it meets."""
    words = line.split(" ")
    module = module_of(data, words[2]) if len(words) == 6 else None
    number = int(words[4]) if module else 0
    if module is None or module.listing is None or not number:
        return []
    said = [f"line {number} of {module.name}'s listing is {shown(module.listing[number - 1])}"]
    if words[5] == "OVERLAP":
        said += overlap(module.listing, number)
    if words[5] == "OUTSIDE":
        said.append(f"the module has {len(module.text)} bytes")
    return said


def overlap(lines: list[bytes], number: int) -> list[str]:
    """Which line the instruction of a line meets, and whether a section begins between them."""
    code = {it.line: it for it in code_of(lines[:number])}
    own = code[number]
    met = [it for it in code.values() if it is not own and it.location < own.end() and own.location < it.end()]
    if not met:
        return []
    heading = heading_of(lines)
    between = [operation_of(it, heading) for it in lines[met[0].line : number]] if heading else []
    said = [f"its instruction stands where that of line {met[0].line} does, at {met[0].location:06X}"]
    if "END" in between:
        said.append("an END stands between them: the listing stands there twice, or that of a second assembly behind the first")
    elif {"CSECT", "RSECT", "START"} & set(between):
        said.append(
            "a section begins between them, and its locations begin again: assemble with the option THREAD,"
            " or each section as a module"
        )
    return said


def bad_job(line: str, data: Optional[bytes], words: list[str]) -> list[str]:
    """The line with which no job goes on, and what the input is in place of a job."""
    found = re.fullmatch(r"BAD JOB LINE ([0-9]+)", line)
    if data is None or not found:
        return []
    if not data:
        return ["the input is empty"]
    number, lines, has_services = int(found[1]), data.split(b"\n"), words[0] == "services"
    for start, what in OTHER_TEXTS:
        if data.startswith(start):
            return [f"the input is {what}, and no job"]
    if number == 1 and re.match(rb"(MODULE|PHASE|SESSION|TASK) ", data):
        return ["the input has cards, but does not begin COVERJOB 1: ./coverage job CARDS.. > JOB puts a job together"]
    if number > len(lines) - (not lines[-1]):
        return [f"the input ends with line {number - 1}, before ENDJOB"]
    if b"ENDJOB" in lines[: number - 1]:
        command = " ".join(words[: 1 + has_services])
        return [f"line {number} stands behind ENDJOB, where {command} takes nothing: {shown(lines[number - 1])}"]
    said = card_fault(data, number, has_services)
    if said == [NO_SERVICES]:
        said = [f"a job with services is for ./coverage services {' '.join(words)}"]
        if words[0] not in SERVED:
            said = [f"{words[0]} takes no job with services: {', '.join(SERVED)} do, behind the word services"]
    return [f"line {number} of the input is {shown(lines[number - 1])}", *said]


def card_fault(data: bytes, number: int, has_services: bool) -> list[str]:
    """Which rule of cards the line breaks, the first that does."""
    reader, lines, at = Reader(has_services), data.split(b"\n"), 0
    try:
        while at < number:
            at += 1 + reader.card(Place("", at + 1), lines[at])
    except Broken as broken:
        return [str(broken)] if at + 1 == number else []
    return []


def too_large(line: str, data: Optional[bytes], words: list[str]) -> list[str]:
    """The line that passes a limit, by how much, and the limit."""
    found = re.fullmatch(r"TOO LARGE ([A-Z]+) LINE ([0-9]+)", line)
    if data is None or not found:
        return []
    number = int(found[2])
    own = data.split(b"\n")[number - 1]
    said = card_fault(data, number, words[0] == "services")
    if found[1] == "LINE":
        said = [f"a listing line of {len(own) - own.endswith(bytes([13]))} bytes: the limit LINE is {LIMITS['LINE']}"]
    return [f"line {number} of the input is {shown(own)}", *said]


def bad_schedule(line: str, data: Optional[bytes], _words: list[str]) -> list[str]:
    """The line that is no item of the schedule, or none that is possible."""
    found = re.fullmatch(r"BAD SCHEDULE LINE ([0-9]+)", line)
    if data is None or not found:
        return []
    number, lines = int(found[1]), data.split(b"\n")
    if number == 0:
        return ["a schedule is of a job of exactly one phase"]
    if number > len(lines) - (not lines[-1]):
        return [f"the input ends with line {number - 1}, before ENDSCHED"]
    job = read_job(data)
    said = f"line {number} of the input is {shown(lines[number - 1])}"
    if b"ENDSCHED" in lines[job.lines : number - 1]:
        return [said, "ENDSCHED, which ends a schedule, stands before it"]
    return [said, item_fault(lines[number - 1].decode("latin-1"), job.tasks)]


def item_fault(line: str, tasks: list[str]) -> str:
    """Why a line is no item of a schedule; where it is one the event can't be then."""
    word, _, name = line.partition(" ")
    if word not in ITEMS:
        meant = f": did you mean {word.upper()}?" if word.upper() in (*ITEMS, "ENDSCHED") else ""
        return f"{shown(word.encode('latin-1'))} is none of {', '.join(ITEMS)} and ENDSCHED{meant}"
    if not name:
        return f"behind {word} stands no task"
    if name not in tasks:
        near = difflib.get_close_matches(name.strip().upper(), tasks, 1)
        what = f"behind {word} and one blank stands {shown(name.encode('latin-1'))}, which is no task of the job"
        return what + (f": did you mean {near[0]}?" if near else "")
    return f"it is an item, but there is no such event of the task {name} behind the items before it"


def end_of_job(data: bytes) -> int:
    """Where what stands behind the job begins."""
    return len(b"\n".join(data.split(b"\n")[: read_job(data).lines])) + 1


def marks_behind(line: str, data: Optional[bytes], words: list[str]) -> list[str]:
    """What stands where marks are bad, which stand behind a job, but for combine."""
    if data is None:
        return []
    return bad_marks(line, data, words, 0 if words[:1] == ["combine"] else end_of_job(data))


def bad_evidence(line: str, data: Optional[bytes], words: list[str]) -> list[str]:
    """What stands where evidence is bad, and whether it has an entry for each fact of the marks."""
    found = re.fullmatch(r"BAD EVIDENCE OFFSET ([0-9]+)", line)
    if data is None or not found:
        return []
    marks = data[end_of_job(data) :]
    read = read_one(io.BytesIO(marks))
    facts, rest, at = read.facts(), marks[len(read.data) :], int(found[1])
    if not rest:
        return [f"nothing stands behind the marks: cat JOB MARKS EVIDENCE | ./coverage {' '.join(words)}"]
    if at == 0:
        others = ((b"COVERJOB", "a job"), *OTHER_TEXTS)
        return [f"what stands there is {what}" for start_of, what in others if rest.startswith(start_of)]
    entries, cut = divmod(len(rest) - 8, 7)
    if not cut and entries == facts:
        return []
    has = ("1 entry" if entries == 1 else f"{entries} entries") + (f" and {cut} more byte{'s' * (cut > 1)}" if cut else "")
    return [f"the evidence has {has}, and the marks have {facts} fact{'s' * (facts != 1)}: each fact has one entry"]


def refuted(line: str, data: Optional[bytes], words: list[str]) -> list[str]:
    """What the row and the fact are that are refuted."""
    found = re.fullmatch(r"REFUTED ROW ([0-9]+) FACT ([RWS])", line)
    if data is None or not found:
        return []
    job, left = read_job(data), int(found[1])
    for it in (module for name in job.sessions.get(words[-1], []) for module in job.modules if module.name == name):
        # The module's own row stands before those of its places (docs/MARKS.md).
        places = sorted(code_of(it.listing or []), key=lambda code: code.location)
        if 0 < left <= len(places) and it.listing:
            at, heading = places[left - 1], heading_of(it.listing)
            text = it.listing[at.line - 1][heading.shift + heading.columns.source :] if heading else b""
            where = f"location {at.location:06X} of {it.name}, line {at.line} of its listing"
            return [f"row {found[1]} is {where}, {shown(text.strip())}; the fact is whether it {FACTS[found[2]]}"]
        left -= 1 + len(places)
    return []


def no_session(_line: str, data: Optional[bytes], words: list[str]) -> list[str]:
    """The sessions that the job has."""
    names = list(read_job(data).sessions) if data is not None else []
    if not names:
        return []
    near = difflib.get_close_matches(words[-1], names, 1)
    return [f"the job's sessions are {', '.join(names)}"] + ([f"did you mean {near[0]}?"] if near else [])


def usages_here() -> dict[str, str]:
    """What stands behind each command that is called so."""
    rooms = ("makers.",) if CALLED == "coverage" else ("makers.", "developer.")
    own = [it for it, row in COMMANDS.items() if row.start == "coverage" and row.module.startswith(rooms)]
    others = {it: calls_of(it)[0].removeprefix(f"coverage {it}") for it in own}
    return {**{it: f" {words}" for it, words in OF_PROGRAM.items()}, **others}


def other_words(words: list[str]) -> list[str]:
    """The call that was meant, by the files among the words, by a word that is nearly a command, or by a name in small letters."""
    usages, front = usages_here(), words[:1] if words[:1] == ["services"] and words[1:2] else []
    words = words[len(front) :]
    first = words[0] if words else ""
    if front and first not in SERVED:
        near = difflib.get_close_matches(first.lower(), SERVED, 1)
        meant = f": did you mean services {near[0]}?" if near else ""
        return [f"behind services stands none but {', '.join(SERVED)}{meant}"]
    if first not in usages:
        known = [*usages, "--help", "--version"]
        near = difflib.get_close_matches(first.lower(), known, 1)
        return [f"did you mean ./coverage {near[0]}{usages.get(near[0], '')} ?"] if near else []
    wrong = next((it for it in words[1:] if it.startswith("-")), None)
    if wrong is not None:
        near = difflib.get_close_matches(wrong, OPTIONS, 1)
        return [f"the word {wrong} is none of its options" + (f": did you mean {near[0]}?" if near else "")]
    files = [it for it in words[1:] if os.path.isfile(it)]
    others = [it for it in words[1:] if it not in files]
    names = re.findall(r"^ ([A-Z][A-Z ]*?)(?= <| >|$)", usages[first])
    if names == ["NAME"]:
        others = [it.upper() for it in others]
    if files and " < " in usages[first]:
        call = " ".join(["./coverage", *front, first, *(others or names)])
        return [f"did you mean {call} < {files[0]} ?" if len(files) == 1 else f"did you mean cat {' '.join(files)} | {call} ?"]
    if first == "trial" and len(words) == 3:
        return ["NUMBER is 0 to 4294967295, and TASKS 1 to 64, in digits without a sign and without a leading zero"]
    if len(words) == 2 and names == ["NAME"] and not NAME.fullmatch(words[1]):
        meant = f": did you mean {words[1].upper()}?" if NAME.fullmatch(words[1].upper()) else ""
        return [f"{words[1]} is no name: 1 to 8 of A to Z, @, #, $ and, behind the first, digits{meant}"]
    return [f"its call is ./coverage {' '.join([*front, first])}{usages[first]}"]


REASONS: dict[int, Callable[[str, Optional[bytes], list[str]], list[str]]] = {
    2: bad_job, 3: mismatch, 4: too_large, 9: bad_schedule, 10: marks_behind, 11: lambda line, _data, words: other_table(line, words),
    12: bad_listing, 13: no_session, 15: bad_evidence, 16: refuted,
}


def shown(line: bytes) -> str:
    """A line in quotes, short."""
    text = line.decode("ascii", "backslashreplace")
    return repr(text if len(text) <= 60 else f"{text[:60]}..")


def input_from(start: str) -> Optional[bytes]:
    """The bytes of standard input from there on, which stay there; none where no place is given."""
    if not start:
        return None
    parts, at = [], int(start)
    while part := os.pread(0, 1 << 20, at):
        parts.append(part)
        at += len(part)
        if at - int(start) > INPUT_LIMIT:
            break
    return b"".join(parts)


def reasons(words: list[str]) -> list[str]:
    """The lines to be said."""
    called, status, start, line = words[:4]
    if status == "1":
        said = other_words(words[4:])
    else:
        reason = REASONS.get(int(status))
        said = reason(line, input_from(start), words[4:]) if reason else []
    return [it.replace("./coverage", called) for it in said]


def give_up(_number: int, _frame: object) -> NoReturn:
    raise TimeoutError


def main(words: list[str]) -> None:
    signal.signal(signal.SIGPROF, give_up)
    signal.setitimer(signal.ITIMER_PROF, SECONDS)
    try:
        said = reasons(words)
    except (OSError, ValueError, LookupError, MemoryError):
        # An input that can't be read so, or in that time, has no further reason.
        return
    for it in said:
        print(one_line(f"coverage: {it}"))
