"""Which jobs and listings the rules of docs/JOB.md and docs/LISTING.md allow, read again from these pages alone, slow and plain."""
from __future__ import annotations

import re
from dataclasses import dataclass, field
from typing import NoReturn

from fixtures.harness import TOP

NAME, NUMBER = rb"([A-Z@#$][A-Z0-9@#$]{0,7})", rb"(0|[1-9][0-9]{0,8})"
ADDRESS, WORD, BYTES = rb"([0-9A-Fa-f]{6})", rb"([0-9A-Fa-f]{8})", rb"((?:[0-9A-Fa-f]{2}){1,64})"
CARDS = {
    b"COVERJOB": rb"COVERJOB (1)",
    b"MODULE": rb"MODULE %s %s %s" % (NAME, ADDRESS, NUMBER),
    b"TEXT": rb"TEXT %s" % BYTES,
    b"LISTING": rb"LISTING %s" % NUMBER,
    b"SERVICE": rb"SERVICE %s %s" % (NUMBER, ADDRESS),
    b"PHASE": rb"PHASE %s" % NAME,
    b"SESSION": rb"SESSION %s((?: %s)+)" % (NAME, NAME),
    b"TASK": rb"TASK %s %s %s %s %s" % (NAME, ADDRESS, NUMBER, NUMBER, NUMBER),
    b"REG": rb"REG %s %s" % (NUMBER, WORD),
    b"DATA": rb"DATA %s %s" % (NUMBER, BYTES),
    b"INPUT": rb"INPUT %s" % BYTES,
    b"ENDJOB": rb"(ENDJOB)",
}
# Of a narrow and of a wide listing: the heading, the digits of a location, the first column behind the object code, and that of the source.
WIDTHS = (
    (b"loc  object code    addr1 addr2  stmt   source statement", 6, 22, 41),
    (b"loc    object code      address1 address2  stmt   source statement", 8, 26, 51),
)
EXTENDED = "B BR NOP NOPR BH BL BE BNH BNL BNE BO BP BM BNP BNM BNZ BZ BNO".split()
# docs/JOB.md, "Limits", in its order.
LIMITS = {
    "INPUT": 16_777_216, "MODULES": 16, "SIZE": 262_144, "LINE": 150, "PLACES": 65_536, "PHASES": 16, "SESSIONS": 16,
    "TASKS": 64, "PRIVATE": 1_048_576, "BUDGET": 50_000_000, "ROOM": 65_536,
}


class Refused(Exception):
    """A status and its line."""

    def __init__(self, status: int, line: str) -> None:
        super().__init__(line)
        self.answer = (status, f"{line}\n".encode())


def mnemonics() -> set[bytes]:
    """The names of docs/MACHINE.md's operations, and the extended ones."""
    with open(f"{TOP}/docs/MACHINE.md", encoding="utf-8") as file:
        rows = re.findall(r"^\| (?:[0-9A-F]{2} ?)+ \| ([A-Z ]+) \|", file.read(), re.M)
    names = {name for it in rows for name in it.split()}
    assert len(names) == 99, len(names)
    names |= {*EXTENDED, *(f"{it}R" for it in EXTENDED[4:])}
    return {it.encode() for it in names}


MNEMONICS = mnemonics()


@dataclass
class Place:
    """A place of a module."""

    address: int
    location: int
    length: int
    half: bytes

    def kind(self) -> int:
        return int(is_conditional(self.half))

    def row(self) -> bytes:
        return self.location.to_bytes(4, "big") + bytes([self.length, self.kind()]) + self.half


@dataclass
class Module:
    """A module of a job; its listing as lines, or none."""

    name: bytes
    base: int
    size: int
    text: bytes = b""
    listing: list[bytes] | None = None
    # For each line of the listing its place, where it is one.
    places: list[Place | None] = field(default_factory=list)

    def table(self) -> list[Place]:
        return sorted((it for it in self.places if it), key=lambda it: it.location)


@dataclass
class Job:
    """A job, its cards with their fields, and how many bytes and lines these are."""

    modules: list[Module] = field(default_factory=list)
    # Of each number of SVC that has one the entry of its service; none where the job is of the grammar without services.
    services: dict[int, int] | None = None
    phases: list[bytes] = field(default_factory=list)
    # Of each session its name, its phase and its modules.
    sessions: list[tuple[bytes, bytes, list[Module]]] = field(default_factory=list)
    # Of the sessions that have one the controller.
    controllers: dict[bytes, bytes] = field(default_factory=dict)
    tasks: list[bytes] = field(default_factory=list)
    cards: list[tuple[bytes, list[bytes]]] = field(default_factory=list)
    end: int = 0
    lines: int = 0


def is_conditional(half: bytes) -> bool:
    """Whether an instruction that begins so is a conditional branch."""
    mask, second = half[1] >> 4, half[1] & 15
    if half[0] in (0x47, 0x07):
        return 1 <= mask <= 14 and (half[0] == 0x47 or second != 0)
    return half[0] in (0x46, 0x86, 0x87) or (half[0] == 0x06 and second != 0)


def length_of(first: int) -> int:
    """How many bytes an instruction has that begins with this one."""
    return (2, 4, 4, 6)[first >> 6]


class Reader:
    """The lines of an input, card by card."""

    def __init__(self, data: bytes, has_services: bool) -> None:
        self.data, self.at, self.number, self.job = data, 0, 0, Job()
        # What stands behind the modules.
        self.behind = (b"SERVICE", b"PHASE", b"ENDJOB") if has_services else (b"PHASE", b"ENDJOB")
        self.job.services = {} if has_services else None

    def line(self) -> tuple[bytes, bool]:
        """The next line, and whether it ends with LF."""
        self.number += 1
        if self.at == len(self.data):
            self.bad()
        text, end, _ = self.data[self.at :].partition(b"\n")
        self.at += len(text) + len(end)
        return text, bool(end)

    def bad(self) -> NoReturn:
        raise Refused(2, f"BAD JOB LINE {self.number}")

    def need(self, holds: bool) -> None:
        if not holds:
            self.bad()

    def keep(self, **counts: int) -> None:
        """Refuses the first of these that passes its limit."""
        for what, count in counts.items():
            if count > LIMITS[what]:
                raise Refused(4, f"TOO LARGE {what} LINE {self.number}")

    def card(self, *kinds: bytes) -> tuple[bytes, list[bytes]]:
        """The next card, which must be of one of the kinds: its kind and its fields."""
        text, _ = self.line()
        for kind in kinds:
            found = re.fullmatch(CARDS[kind], text)
            if found:
                self.job.cards.append((kind, list(found.groups())))
                return self.job.cards[-1]
        self.bad()

    def read(self) -> Job:
        """Reads a job to its ENDJOB line."""
        self.card(b"COVERJOB")
        kind, fields = self.card(b"MODULE", *self.behind)
        while kind == b"MODULE":
            kind, fields = self.module(fields)
        while kind == b"SERVICE":
            kind, fields = self.service(fields)
        while kind == b"PHASE":
            kind, fields = self.phase(fields[0])
        self.job.end, self.job.lines = self.at, self.number
        return self.job

    def module(self, fields: list[bytes]) -> tuple[bytes, list[bytes]]:
        """A module with its text and its listing; answers the card behind it."""
        it = Module(fields[0], int(fields[1], 16), int(fields[2]))
        self.need(it.base % 8 == 0 and it.base >= 0x100000 and it.size % 2 == 0 and it.size >= 2)
        self.need(it.base + it.size <= 0xFFF000)
        for other in self.job.modules:
            self.need(it.name != other.name and not overlap(it.base, it.size, other.base, other.size))
        self.job.modules.append(it)
        self.keep(MODULES=len(self.job.modules), SIZE=it.size)
        while len(it.text) < it.size:
            it.text += bytes.fromhex(self.card(b"TEXT")[1][0].decode())
            self.need(len(it.text) <= it.size)
        kind, fields = self.card(b"LISTING", b"MODULE", *self.behind)
        if kind == b"LISTING":
            it.listing = [self.listing_line() for _ in range(int(fields[0]))]
            kind, fields = self.card(b"MODULE", *self.behind)
        return kind, fields

    def service(self, fields: list[bytes]) -> tuple[bytes, list[bytes]]:
        """A service; answers the card behind it."""
        number, services = int(fields[0]), self.job.services
        assert services is not None
        self.need((number == 0 or 6 <= number <= 254) and all(it < number for it in services))
        services[number] = int(fields[1], 16)
        return self.card(*self.behind)

    def listing_line(self) -> bytes:
        text, ended = self.line()
        text = text[:-1] if ended and text.endswith(b"\r") else text
        self.keep(LINE=len(text))
        return text

    def phase(self, name: bytes) -> tuple[bytes, list[bytes]]:
        """A phase with its sessions and tasks; answers the card behind it."""
        self.need(name not in self.job.phases)
        self.job.phases.append(name)
        self.keep(PHASES=len(self.job.phases))
        observed: dict[bytes, bytes] = {}
        kind, fields = self.card(b"SESSION", b"TASK", b"PHASE", b"ENDJOB")
        while kind == b"SESSION":
            self.session(fields[0], name, fields[1].split(), observed)
            kind, fields = self.card(b"SESSION", b"TASK", b"PHASE", b"ENDJOB")
        while kind == b"TASK":
            kind, fields = self.task(fields)
        self.need(all(it in self.job.tasks for it in observed.values() if it))
        return kind, fields

    def session(self, name: bytes, phase: bytes, words: list[bytes], observed: dict[bytes, bytes]) -> None:
        """A session with these words behind its name. Of the phase's modules that sessions observe the controller is noted, which is
        empty where there is none."""
        self.need(all(name != it for it, _, _ in self.job.sessions))
        by, modules = (b"", words) if words[0] != b"BY" else (b"".join(words[1:2]), words[2:])
        self.need(words[0] != b"BY" or (len(modules) > 0 and by not in self.job.tasks))
        known = {it.name: it for it in self.job.modules}
        self.need(len(set(modules)) == len(modules) and all(it in known for it in modules))
        self.need(all(it not in observed or by == observed[it] != b"" for it in modules))
        observed.update(dict.fromkeys(modules, by))
        self.job.sessions.append((name, phase, [known[it] for it in modules]))
        self.job.controllers |= {name: by} if by else {}
        self.keep(SESSIONS=len(self.job.sessions))

    def task(self, fields: list[bytes]) -> tuple[bytes, list[bytes]]:
        """A task with its cards; answers the card behind it."""
        private, budget = int(fields[2]), int(fields[3])
        self.need(fields[0] not in self.job.tasks and budget >= 1)
        self.job.tasks.append(fields[0])
        self.keep(TASKS=len(self.job.tasks), PRIVATE=private, BUDGET=budget, ROOM=int(fields[4]))
        after, last = [b"REG", b"DATA", b"INPUT", b"TASK", b"PHASE", b"ENDJOB"], -1
        while True:
            kind, fields = self.card(*after)
            if kind == b"REG":
                self.need(last < int(fields[0]) <= 15)
                last = int(fields[0])
            elif kind == b"DATA":
                self.need(int(fields[0]) + len(fields[1]) // 2 <= private)
            elif kind != b"INPUT":
                return kind, fields
            after = after[after.index(kind) :]


def overlap(base: int, size: int, other: int, its: int) -> bool:
    """Whether two ranges of bytes share one."""
    return base < other + its and other < base + size


def job_of(data: bytes, alone: bool, has_services: bool = False) -> Job:
    """The job that the first lines spell, or all lines, with the places of its listings; with services or without them."""
    reader = Reader(data, has_services)
    job = reader.read()
    if alone and job.end < len(data):
        raise Refused(2, f"BAD JOB LINE {job.lines + 1}")
    return job


def read_listings(job: Job) -> None:
    """Finds the places of all modules, or the first fault."""
    room = LIMITS["PLACES"]
    for it in job.modules:
        if it.listing is not None:
            it.places = places_of(it, it.listing, room)
            room -= len(it.table())


def places_of(module: Module, listing: list[bytes], room: int) -> list[Place | None]:
    """The place of each line, of which so many have room."""
    name = module.name.decode()
    heads = [(at, column - 3, *width) for at, it in enumerate(listing) for width in WIDTHS for column in (3, 4)
             if it[column - 1 :].lower().startswith(width[0])]
    if not heads:
        raise Refused(12, f"BAD LISTING {name} LINE 0 HEADING")
    first, shift, _, digits, end, source = heads[0]
    found: list[tuple[int, bytes] | None] = [None] * (first + 1)
    for number, line in enumerate(listing[first + 1 :], first + 2):
        code = object_code(line[shift:].ljust(150), digits, end, source)
        if code == b"":
            raise Refused(12, f"BAD LISTING {name} LINE {number} OBJECT")
        found.append((int(line[shift : shift + digits], 16), code) if code else None)
    taken: set[int] = set()
    places: list[Place | None] = []
    for number, it in enumerate(found, 1):
        places.append(it and place_of(module, number, *it, taken, room))
        room -= it is not None
    return places


def place_of(module: Module, number: int, location: int, code: bytes, taken: set[int], room: int) -> Place:
    """The place of a line, unless it has a fault; its bytes are taken then."""
    name, own, text = module.name.decode(), range(location, location + len(code)), module.text[location : location + len(code)]
    why = "ODD" if location % 2 else "OUTSIDE" if len(text) < len(code) else "" if taken.isdisjoint(own) else "OVERLAP"
    if why:
        raise Refused(12, f"BAD LISTING {name} LINE {number} {why}")
    taken.update(own)
    if not room:
        raise Refused(4, f"TOO LARGE PLACES {name} LINE {number}")
    if code[:2] == b"\x0a\xff":
        raise Refused(8, f"OWN SVC {name} LINE {number}")
    if code != text:
        raise Refused(3, f"MISMATCH {name} LINE {number} LOC {location:06X} LISTING {code.hex().upper()} MODULE {text.hex().upper()}")
    return Place(module.base + location, location, len(code), code[:2])


def object_code(line: bytes, digits: int, end: int, source: int) -> bytes | None:
    """The bytes of an instruction line; empty where they are bad, and none of a text line."""
    columns = line[digits + 1 : end - 1]
    is_located = re.fullmatch(rb"[0-9A-Fa-f]{%d} " % digits, line[: digits + 1])
    if not is_located or operation(line[source - 1 :]) not in MNEMONICS or not columns.strip(b" "):
        return None
    found = re.fullmatch(rb"([0-9A-Fa-f]{4}(?: [0-9A-Fa-f]{4}){0,2}) *", columns)
    code = bytes.fromhex(found[1].decode()) if found else b""
    return code if code and len(code) == length_of(code[0]) else b""


def operation(source: bytes) -> bytes | None:
    """The operation of a source statement."""
    if source[:1] == b"*":
        return None
    runs = [it for it in source.split(b" ") if it]
    at = 0 if source[:1] == b" " else 1
    return runs[at].upper() if len(runs) > at else None
