"""Reports, counts and ends, as docs/REPORT.md has them: read line by line, and refused at the first line that is none."""
from __future__ import annotations

import itertools
import re
from dataclasses import dataclass, field
from typing import Iterable, NoReturn, Optional

from common.command import CALLED, Fault
from readers.listing import heading_of, object_code

REPORT, REPLAY, SHOW, COUNTS, ENDS = (b"COVERAGE " + it for it in (b"REPORT", b"REPLAY", b"SHOW", b"COUNT", b"ENDS"))
TITLES = (REPORT, REPLAY, SHOW, COUNTS)
NAME = rb"([A-Z@#$][A-Z@#$0-9]{0,7})"
ENDING = rb"(RETURNED|EXIT|ABEND [0-9A-F]|BADSVC [0-9]{1,3}|TOUCHED [0-9A-F]{6}|OUTFULL|SPENT|RUNNING)"
# What the line of an event tells behind its number.
EVENTS = (
    rb"FETCH NAME TAG [0-9]{1,9} HALF [0-9A-F]{4}",
    rb"MARK NAME OLD (?:-|R|W|S|WS)",
    rb"LIFT NAME (?:NOT )?TAKEN",
    rb"(?:PLANT|CLOSE) NAME NAME [0-9A-F]{6}",
    rb"(?:DO|GO) NAME",
)
EVENT = re.compile(rb"EVENT ([0-9]{1,9}) (?:" + b"|".join(EVENTS).replace(b"NAME", NAME) + b")")
TASK = re.compile(rb"TASK " + NAME + b" " + ENDING + rb" COUNT ([0-9]{1,9}) CC ([0-3])")
REGISTERS = re.compile(rb"R[08]((?: [0-9A-F]{8}){8})")
OUTPUT = re.compile(rb"OUT ([0-9]{1,9})")
BYTES = re.compile(rb"(?:[0-9A-F]{2}){1,32}")
ROW = re.compile(rb"STOR ([0-9A-F]{6}) ((?:[0-9A-F]{2}){1,16})")
SESSION = re.compile(rb"SESSION " + NAME + b" PHASE " + NAME)
MODULE = re.compile(rb"MODULE " + NAME + rb" PLACES ([0-9]{1,9}) EXECUTED ([0-9]{1,9}) FACTS ([0-9]{1,9}) OF ([0-9]{1,9})")
COUNTED = re.compile(rb"MODULE " + NAME + rb" PLACES ([0-9]{1,9})")
COUNT = re.compile(rb"COUNT ([0-9A-F]{6}) ([0-9]{1,20})(?: ([0-9]{1,20}))?")
RANGE = re.compile(rb"NOT EXECUTED ([0-9A-F]{6})-([0-9A-F]{6})")
WHERE = rb"([0-9A-F]{6})(?: PRIVATE()| " + NAME + rb" ([0-9A-F]{6}))?"
ENDED = re.compile(rb"TASK " + NAME + b" " + ENDING + rb" COUNT ([0-9]{1,9}) AT " + WHERE)
UNLISTED = re.compile(rb"UNLISTED " + NAME + rb" ([0-9]{1,10})")
DRAINED = re.compile(rb"DRAINED COUNT ([0-9]{1,9})|NOT DRAINED")
MARKED = re.compile(rb"[\^:>V& ] ")
# What may stand in place of a report, by how it begins.
REFUSALS = (
    "USAGE: |BAD (JOB|SCHEDULE|MARKS|EVIDENCE|LISTING) |MISMATCH |TOO LARGE |READ FAULT|NO MEMORY|OWN SVC |OTHER TABLE |"
    "NO SESSION |CONTROLLED |REFUTED "
)
OTHERS = (
    (re.compile(b"COVERJOB "), f"a job: {CALLED} run makes the report"),
    (re.compile(b"S370COV[12]"), f"a marks file: {CALLED} show makes a report of it behind its job"),
    (re.compile(REFUSALS.encode()), "a refusal, which has come in place of a report"),
)
# How many bytes of an output and of storage stand on a line.
OUTPUT_LINE, STORAGE_ROW = 32, 16
# How many facts a mark stands for, and in words.
FACTS = {"^": 0, ":": 1, ">": 1, "V": 1, "&": 2}
MARKS = {
    "^": "not executed", ":": "executed", ">": "branched only", "V": "fell through only", "&": "branched and fell through",
}


@dataclass
class Line:
    """A line of a listing; at a place its location, whether it branches on a condition, and where it was counted how often it
    ran, or how often it branched and how often it fell through; further its length in bytes, where a listing shows it, and
    whether it is left out of what counts."""

    mark: str
    text: bytes
    location: Optional[int] = None
    is_conditional: bool = False
    counts: Optional[tuple[int, ...]] = None
    length: int = 0
    is_left_out: bool = False

    def is_counted(self) -> bool:
        """Whether it is a place, and not left out."""
        return self.mark != " " and not self.is_left_out


@dataclass
class Module:
    """A module of a session, as its line counts it, with its listing."""

    name: str
    places: int
    executed: int
    facts: int
    possible: int
    lines: list[Line] = field(default_factory=list)
    ranges: list[tuple[int, int]] = field(default_factory=list)


@dataclass
class Session:
    """A session and its modules, and under `early` whether it was drained, and at which count of its controller."""

    name: str
    phase: str
    modules: list[Module] = field(default_factory=list)
    is_drained: Optional[bool] = None
    drained_at: Optional[int] = None


@dataclass
class Task:
    """What has come of a task."""

    name: str
    ending: str
    count: int
    condition: int
    registers: list[str]
    output: bytes
    rows: list[tuple[int, bytes]]


@dataclass
class End:
    """Where a task ended: its address, and the module and the location there, or whether that is private storage."""

    address: int
    is_private: bool = False
    module: Optional[str] = None
    location: int = 0


@dataclass
class Report:
    """All of a report. What `ends` tells of its job: where each task ended, by name, and for each module that has a listing
    how often an instruction ran that has no line there; none where it wasn't asked."""

    title: str
    events: list[str] = field(default_factory=list)
    tasks: list[Task] = field(default_factory=list)
    sessions: list[Session] = field(default_factory=list)
    ends: Optional[dict[str, End]] = None
    unlisted: dict[str, int] = field(default_factory=dict)


def mark_of(counts: tuple[int, ...]) -> str:
    """The mark of a place that was counted."""
    shown = sum((it > 0) << at for at, it in enumerate(counts))
    return "^>V&"[shown] if len(counts) == 2 else "^:"[shown]


def kind_is_conditional(code: bytes) -> bool:
    """Whether an instruction is a conditional place, by its first two bytes (docs/MACHINE.md, "Places")."""
    operation, mask, second = code[0], code[1] >> 4, code[1] & 15
    if operation in (0x46, 0x86, 0x87):
        return True
    if operation == 0x06:
        return second != 0
    return 1 <= mask <= 14 and (operation == 0x47 or operation == 0x07 and second != 0)


def length_of(code: bytes) -> int:
    """The length of an instruction in bytes, by its first one."""
    return (2, 4, 4, 6)[code[0] >> 6]


class Reader:
    """The lines of a report, read from the first on."""

    def __init__(self, place: str, data: bytes) -> None:
        self.place, self.lines, self.at = place, data.split(b"\n"), 0
        if not self.lines[-1]:
            self.lines.pop()

    def refuse(self, what: str, at: Optional[int] = None) -> NoReturn:
        raise Fault(f"{self.place}: line {(self.at if at is None else at) + 1}", what)

    def look(self) -> bytes:
        if self.at >= len(self.lines):
            self.refuse("the report ends early")
        return self.lines[self.at]

    def next_if(self, form: re.Pattern[bytes]) -> Optional[re.Match[bytes]]:
        """The next line, taken, where it has the form."""
        found = form.fullmatch(self.look())
        self.at += found is not None
        return found

    def next(self, form: re.Pattern[bytes], what: str) -> re.Match[bytes]:
        """The next line, taken, which has the form."""
        found = self.next_if(form)
        if found is None:
            self.refuse(f"no {what} of a report: {shown(self.look())}")
        return found

    def report(self) -> Report:
        """The whole input: a report, or counts; behind a report maybe the counts of its job, behind either the ends."""
        self.check_title()
        report = self.part()
        may_follow = {"COVERAGE REPORT": {COUNTS, ENDS}, "COVERAGE COUNT": {ENDS}}.get(report.title, set())
        while self.at < len(self.lines):
            title = self.look()
            if title not in may_follow:
                self.refuse(f"a line behind END: {shown(title)}")
            may_follow.remove(title)
            if title == COUNTS:
                self.add_counts(report)
            else:
                self.add_ends(report)
        return report

    def check_title(self) -> None:
        """Refuses what doesn't begin as a report."""
        if self.lines and self.lines[0] == ENDS:
            self.refuse("COVERAGE ENDS stands behind the report of its job, and not alone")
        if not self.lines or self.lines[0] not in TITLES:
            has = shown(self.lines[0]) if self.lines else "nothing"
            titles = "COVERAGE REPORT, COVERAGE REPLAY, COVERAGE SHOW or COVERAGE COUNT"
            kinds = [what for start, what in OTHERS if self.lines and start.match(self.lines[0])]
            self.refuse(f"no report, which begins {titles}: {has}{', ' if kinds else ''}{''.join(kinds)}")

    def part(self) -> Report:
        """A report or counts, from the first line to END."""
        title = self.look()
        report = Report(title.decode())
        self.at += 1
        while title == REPLAY and self.look().startswith(b"EVENT "):
            report.events.append(self.event(len(report.events) + 1))
        while title != SHOW and self.look().startswith(b"TASK "):
            self.refuse_again(b"TASK", [it.name for it in report.tasks])
            report.tasks.append(self.task(title))
        while self.look() != b"END":
            self.refuse_again(b"SESSION", [it.name for it in report.sessions])
            report.sessions.append(self.session(title))
        if title == SHOW and len(report.sessions) != 1:
            self.refuse("not one session, which COVERAGE SHOW has")
        self.at += 1
        return report

    def refuse_again(self, word: bytes, names: list[str]) -> None:
        """Refuses a line that begins the part of a task, a session, or a session's module whose part was read before."""
        words = self.look().split(b" ")
        if words[0] == word and words[1:] and words[1].decode("latin-1") in names:
            self.refuse(f"{words[1].decode()} a second time: {shown(self.look())}")

    def add_counts(self, report: Report) -> None:
        """Gives the places of a report the counts behind it, which are of the same job where all else in them is."""
        start = self.at
        counts = self.part()
        other = difference(outline(report), outline(counts))
        if other:
            self.refuse(f"these counts are not of the report's job: {other}", start)
        for module, counted in zip(modules_of(report), modules_of(counts)):
            for place, line in zip(places_of(module), counted.lines):
                place.counts = line.counts

    def add_ends(self, report: Report) -> None:
        """Gives a report where its tasks ended, and how often instructions ran that its modules' listings don't have."""
        self.at += 1
        report.ends = {task.name: self.end_of(task) for task in report.tasks}
        # Counts alone don't tell a module without a listing from one whose listing has no places.
        bare = {it.name for it in modules_of(report) if not it.lines and report.title != "COVERAGE COUNT"}
        while (found := self.next_if(UNLISTED)) is not None:
            name = found[1].decode()
            if name in report.unlisted:
                self.refuse(f"module {name} a second time", self.at - 1)
            if name in bare:
                self.other_ends(f"a line of module {name}, which has no listing in the report", self.at - 1)
            report.unlisted[name] = int(found[2])
        if self.look().startswith(b"TASK "):
            self.other_ends(f"{shown(self.look())}, and the report has no further task")
        if self.look() != b"END":
            self.refuse(f"no line of ends: {shown(self.look())}")
        for module in modules_of(report):
            if module.lines and module.name not in report.unlisted:
                self.other_ends(f"no line of module {module.name}, which has a listing in the report")
        self.at += 1

    def end_of(self, task: Task) -> End:
        """Where a task of the report ended, by the next line."""
        found, has = self.next_if(ENDED), f"task {task.name} {task.ending} COUNT {task.count}"
        if found is None:
            self.other_ends(f"{shown(self.look())}, and the report has {has}")
        told = f"task {found[1].decode()} {found[2].decode()} COUNT {int(found[3])}"
        if told != has:
            self.other_ends(f"{told}, and the report has {has}", self.at - 1)
        module = found[6].decode() if found[6] else None
        return End(int(found[4], 16), found[5] is not None, module, int(found[7] or b"0", 16))

    def other_ends(self, what: str, at: Optional[int] = None) -> NoReturn:
        self.refuse(f"these ends are not of the report's job: {what}", at)

    def event(self, number: int) -> str:
        found = self.next(EVENT, "line of an event")
        if int(found[1]) != number:
            self.refuse(f"no event of the number {number}: {shown(found[0])}", self.at - 1)
        return found[0].decode()

    def task(self, title: bytes) -> Task:
        head = self.next(TASK, "line of a task")
        if head[2] == b"RUNNING" and title != REPLAY:
            self.refuse(f"a task that hasn't ended: {shown(head[0])}", self.at - 1)
        registers = [self.next(REGISTERS, "line of registers")[1].decode().split() for _ in range(2)]
        count = int(self.next(OUTPUT, "line of an output")[1])
        output = b""
        while len(output) < count:
            line = bytes.fromhex(self.next(BYTES, "line of an output's bytes")[0].decode())
            if len(line) != min(count - len(output), OUTPUT_LINE):
                self.refuse(f"{len(line)} bytes of an output, of which {count - len(output)} more are to stand {OUTPUT_LINE} to a line", self.at - 1)
            output += line
        rows: list[tuple[int, bytes]] = []
        while (row := self.next_if(ROW)) is not None:
            at = int(row[1], 16)
            if at % STORAGE_ROW or rows and (at <= rows[-1][0] or len(rows[-1][1]) < STORAGE_ROW):
                self.refuse(f"no row of storage that stands there: {shown(row[0])}", self.at - 1)
            rows.append((at, bytes.fromhex(row[2].decode())))
        return Task(head[1].decode(), head[2].decode(), int(head[3]), int(head[4]), sum(registers, []), output, rows)

    def session(self, title: bytes) -> Session:
        module = self.counted if title == COUNTS else self.module
        head = self.next(SESSION, "line")
        session = Session(head[1].decode(), head[2].decode())
        while self.look().startswith(b"MODULE "):
            self.refuse_again(b"MODULE", [it.name for it in session.modules])
            session.modules.append(module())
        if title == REPORT and (found := self.next_if(DRAINED)) is not None:
            session.is_drained = found[1] is not None
            session.drained_at = int(found[1]) if found[1] else None
        return session

    def counted(self) -> Module:
        """A module's counts. In place of its listing it has a line for each place, with the location."""
        head, at = self.next(COUNTED, "line of a module's counts"), self.at - 1
        lines: list[Line] = []
        while (found := self.next_if(COUNT)) is not None:
            counts = tuple(int(it) for it in found.groups()[1:] if it is not None)
            location = int(found[1], 16)
            if location % 2 or lines and location <= (lines[-1].location or 0):
                self.refuse(f"no place that comes next: {shown(found[0])}", self.at - 1)
            lines.append(Line(mark_of(counts), found[1], location, len(counts) == 2, counts))
        module = Module(head[1].decode(), *counts_of(lines), lines)
        if module.places != int(head[2]):
            self.refuse("the count of places is not that of the lines below", at)
        return module

    def module(self) -> Module:
        head, at = self.next(MODULE, "line of a module"), self.at - 1
        places, executed, facts, possible = (int(it) for it in head.groups()[1:])
        module = Module(head[1].decode(), places, executed, facts, possible)
        first = self.at
        while MARKED.match(self.look()):
            line = self.look()
            module.lines.append(Line(chr(line[0]), line[2:]))
            self.at += 1
        self.find_places(module, first)
        if counts_of(module.lines) != (module.places, module.executed, module.facts, module.possible):
            self.refuse("the counts of places and facts are not those of the marks below", at)
        module.ranges = list(ranges_of(self.apart(module, first)))
        for range_ in module.ranges:
            line = b"NOT EXECUTED %06X-%06X" % range_
            if self.look() != line:
                self.refuse(f"no {line.decode()}, which the marks above ask for: {shown(self.look())}")
            self.at += 1
        if self.next_if(RANGE) is not None:
            self.refuse(f"a range that the marks above don't have: {shown(self.lines[self.at - 1])}", self.at - 1)
        return module

    def apart(self, module: Module, first: int) -> list[Line]:
        """The lines of a module's places by location, of which none begins before the one before it ends."""
        places = places_of(module)
        for one, other in zip(places, places[1:]):
            if (one.location or 0) + one.length > (other.location or 0):
                at = max(at for at, it in enumerate(module.lines) if it is one or it is other)
                self.refuse("a place where another one stands", first + at)
        return places

    def find_places(self, module: Module, first: int) -> None:
        """Gives each marked line its location and its kind, by the columns of the listing."""
        heading = heading_of([it.text for it in module.lines])
        for at, line in enumerate(module.lines):
            if line.mark == " ":
                continue
            found = object_code(line.text, heading) if heading and at > heading.at else None
            code = found and re.match(rb"[0-9A-Fa-f]{4}", found[1])
            if not found or not code:
                self.refuse("a mark on a line that is no instruction's", first + at)
            begin = bytes.fromhex(code[0].decode())
            line.location, line.is_conditional, line.length = found[0], kind_is_conditional(begin), length_of(begin)
            if found[0] % 2:
                self.refuse("a place at an odd location", first + at)
            if line.mark != "^" and line.is_conditional != (line.mark in ">V&"):
                self.refuse(f"the mark {line.mark} is none of this instruction", first + at)


def modules_of(report: Report) -> list[Module]:
    """The modules of all sessions."""
    return [module for session in report.sessions for module in session.modules]


def places_of(module: Module) -> list[Line]:
    """The lines of a module's places, by location."""
    return sorted((it for it in module.lines if it.mark != " "), key=lambda it: it.location or 0)


def ranges_of(places: list[Line]) -> Iterable[tuple[int, int]]:
    """The longest runs of places, by location, that were not executed: the first location and the last byte of each. A place
    that is left out ends a run."""
    first = end = None
    for it in places:
        location = it.location or 0
        if it.mark == "^" and it.is_counted():
            first, end = location if first is None else first, location + it.length - 1
        elif first is not None and end is not None:
            yield first, end
            first = None
    if first is not None and end is not None:
        yield first, end


def outline(report: Report) -> list[tuple[str, object]]:
    """What a report and the counts of its job have alike, part by part: what each is called, and what is told of it."""
    parts: list[tuple[str, object]] = [(f"task {it.name}", it) for it in report.tasks]
    for session in report.sessions:
        parts.append((f"session {session.name}", session.phase))
        for module in session.modules:
            parts.append((f"module {module.name} in session {session.name}", None))
            places = [(it, it.location or 0) for it in places_of(module)]
            parts += [(f"location {at:06X} of module {module.name}", (it.is_conditional, it.mark)) for it, at in places]
    return parts


def difference(parts: list[tuple[str, object]], others: list[tuple[str, object]]) -> str:
    """The first part in which the others differ, in words; empty where none does."""
    for one, other in itertools.zip_longest(parts, others, fillvalue=("nothing more", None)):
        if one != other:
            return f"{other[0]} is another there" if one[0] == other[0] else f"{other[0]}, and the report has {one[0]}"
    return ""


def counts_of(lines: list[Line]) -> tuple[int, int, int, int]:
    """Places, places with a fact, facts, and facts that there can be, by the lines; without those that are left out."""
    places = [it for it in lines if it.is_counted()]
    facts = [FACTS[it.mark] for it in places]
    return len(places), sum(it > 0 for it in facts), sum(facts), sum(1 + it.is_conditional for it in places)


def shown(line: bytes) -> str:
    """A line in quotes, short."""
    text = line.decode("ascii", "replace")
    return repr(text if len(text) <= 60 else f"{text[:60]}..")


def read_report(place: str, data: bytes) -> Report:
    """Reads a report."""
    return Reader(place, data).report()


def text_of(line: bytes) -> str:
    """A listing's line as text: in UTF-8, or else each byte a character of Latin 1."""
    try:
        return line.decode("utf-8")
    except UnicodeDecodeError:
        return line.decode("latin-1")
