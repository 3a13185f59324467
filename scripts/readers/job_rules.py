"""The rules of a job, card by card (docs/JOB.md), each with the sentence that refuses what breaks it; with services or without them.

A card that is refused here is the line that the program names, and the other way round: see tests/cases/job_cases.py. What the
lines of a listing say is not looked at.
"""
from __future__ import annotations

from dataclasses import dataclass
from typing import NamedTuple, Optional

from readers.cards import Broken, address_of, base_of, check_bytes, check_limit, check_service, check_size, digits_of, name_of, number_of

# What stands behind the word of each card.
FIELDS = {
    "COVERJOB": "1", "MODULE": "name base size", "TEXT": "bytes", "LISTING": "n", "SERVICE": "number entry", "PHASE": "name", "SESSION": "name module ..",
    "TASK": "name entry private budget room", "REG": "n value", "DATA": "offset bytes", "INPUT": "bytes", "ENDJOB": "",
}
OF_TASKS = ("REG", "DATA", "INPUT")
# What is said of the first SERVICE card where none may stand.
NO_SERVICES = "services are for the commands behind the word services alone, and job --check --services reads such a job"


class Place(NamedTuple):
    """A line of a file, counted from 1."""

    path: str
    line: int

    def __str__(self) -> str:
        return f"{self.path}: line {self.line}"


@dataclass
class Module:
    """A module: where its card stands, its base and size, how many bytes its TEXT cards have, and whether it has a listing."""

    name: str
    place: Place
    base: int
    size: int
    text: int = 0
    has_listing: bool = False


@dataclass
class Session:
    """A session of the phase in hand, its controller where it has one, and its modules."""

    name: str
    place: Place
    by: str
    modules: list[str]


def words_of(line: bytes) -> list[str]:
    """The words of a line that is a card by its form: its first word is that of a card, and one blank parts the words."""
    check_characters(line)
    words = line.decode("ascii").split(" ")
    key = words[0]
    if key not in FIELDS:
        raise Broken(no_card(key))
    if "" in words:
        where = "a blank ends the line" if not words[-1] else "two blanks stand in a row"
        raise Broken(f"{where}; words are parted by exactly one blank, and none stands behind the last")
    return words


def check_characters(line: bytes) -> None:
    """Refuses an empty line, a blank before the first word, and whatever is no printed character of ASCII."""
    if not line:
        raise Broken("no card: the line is empty")
    if line.endswith(b"\r"):
        raise Broken("no card: a CR ends the line; lines end with LF alone")
    if line.startswith(b"\xef\xbb\xbf"):
        raise Broken("no card: a byte order mark begins the line; a job is ASCII text")
    other = next((it for it in line if not 0x20 <= it <= 0x7E), None)
    if other == 0x09:
        raise Broken("no card: the line has a tab; words are parted by exactly one blank")
    if other is not None:
        raise Broken(f"no card: the line has the byte X'{other:02X}', which is no character of ASCII")
    if line.startswith(b" "):
        raise Broken("no card: a blank begins the line")


def no_card(key: str) -> str:
    """Why a line that begins with this word is none."""
    if key.upper() in FIELDS:
        return f"no card: {key} is in lower case; the card is {key.upper()}"
    if key.startswith("*"):
        return "no card: a job has no comments"
    return f"no card: {key[:40]} is none of {', '.join(FIELDS)}"


class Reader:
    """What the cards of a job have said so far."""

    def __init__(self, has_services: bool = False) -> None:
        self.here, self.has_services = Place("", 0), has_services
        self.begun = self.ended = False
        self.modules: dict[str, Module] = {}
        self.services: dict[int, Place] = {}
        self.phases: dict[str, Place] = {}
        self.sessions: dict[str, Place] = {}
        self.tasks: dict[str, Place] = {}
        self.module: Optional[Module] = None
        # Of the phase in hand.
        self.phase = ""
        self.observed: list[Session] = []
        self.own_tasks: set[str] = set()
        # Of the task in hand: its private storage, its last register, and which card stood last.
        self.task = ""
        self.private, self.register, self.last = 0, -1, "REG"

    def card(self, place: Place, line: bytes) -> int:
        """Reads a card, and answers how many listing lines follow it."""
        self.here = place
        words = words_of(line)
        key, values = words[0], words[1:]
        self.stand(key)
        fields = FIELDS[key].split()
        if len(values) != len(fields) and not (key == "SESSION" and len(values) >= 2):
            count, due = f"{len(values)} {'word' if len(values) == 1 else 'words'}", " ".join([key, *fields])
            raise Broken(f"{count} behind {key}; the card is {due}")
        following = getattr(self, f"read_{key.lower()}")(*values)
        return following or 0

    def shown(self, place: Place) -> str:
        """An earlier place, as one says it at this one."""
        return f"line {place.line}" if place.path == self.here.path else str(place)

    def check_name(self, name: str, of: str, others: dict[str, Place]) -> None:
        """Refuses a name that another of its kind has."""
        if name in others:
            taken = f"the {of} of {self.shown(others[name])} has the name {name}"
            raise Broken(f"{taken}; names of one kind differ over the whole job")

    # Where a card may stand.

    def stand(self, key: str) -> None:
        """Refuses a card that may not stand here."""
        if not self.begun:
            if key != "COVERJOB":
                raise Broken("the first line of a job is COVERJOB 1")
        elif self.ended:
            raise Broken("a line behind ENDJOB, which is the last")
        elif key == "COVERJOB":
            raise Broken("COVERJOB 1 stands on the first line alone")
        elif key == "TEXT":
            self.stand_text()
        elif self.module and self.module.text < self.module.size:
            raise Broken(f"{self.lacking(self.module)}, and its other TEXT cards come first")
        elif key in ("MODULE", "LISTING"):
            self.stand_module(key)
        elif key == "SERVICE":
            self.stand_service()
        elif key not in ("PHASE", "ENDJOB"):
            self.stand_phase(key)

    def lacking(self, it: Module) -> str:
        return f"the module {it.name} of {self.shown(it.place)} has {it.text} of its {it.size} bytes"

    def stand_text(self) -> None:
        if self.module is None:
            raise Broken("TEXT stands behind MODULE" + (", before the phases" if self.phase else ", and there is none yet"))
        if self.module.text == self.module.size or self.module.has_listing:
            raise Broken(f"{self.lacking(self.module)} already")

    def stand_module(self, key: str) -> None:
        if self.phase:
            what = "a module" if key == "MODULE" else "a listing"
            phase = f"the phase {self.phase} of {self.shown(self.phases[self.phase])}"
            raise Broken(f"{what} behind {phase}; modules stand before all phases")
        if self.services:
            what, number = "a module" if key == "MODULE" else "a listing", max(self.services)
            service = f"the service {number} of {self.shown(self.services[number])}"
            raise Broken(f"{what} behind {service}; modules stand before all services")
        if key == "LISTING" and self.module is None:
            raise Broken("LISTING stands behind the TEXT cards of a module, and there is none yet")
        if key == "LISTING" and self.module and self.module.has_listing:
            raise Broken(f"the module {self.module.name} has a listing already")

    def stand_service(self) -> None:
        if not self.has_services:
            raise Broken(NO_SERVICES)
        if self.phase:
            phase = f"the phase {self.phase} of {self.shown(self.phases[self.phase])}"
            raise Broken(f"a service behind {phase}; services stand before all phases")

    def stand_phase(self, key: str) -> None:
        if not self.phase:
            raise Broken(f"{key} stands behind PHASE, and there is none yet")
        if key == "SESSION" and self.task:
            task = f"the task {self.task} of {self.shown(self.tasks[self.task])}"
            raise Broken(f"a session behind {task}; a phase's sessions stand before its tasks")
        if key not in OF_TASKS:
            return
        if not self.task:
            raise Broken(f"{key} stands behind TASK, and the phase {self.phase} has none yet")
        if OF_TASKS.index(key) < OF_TASKS.index(self.last):
            raise Broken(f"{key} behind {self.last}; a task's cards are REG, then DATA, then INPUT")

    # What the cards say.

    def read_coverjob(self, version: str) -> None:
        if version != "1":
            raise Broken(f"the version {version} is unknown; the first line of a job is COVERJOB 1")
        self.begun = True

    def read_module(self, name: str, base_word: str, size_word: str) -> None:
        name_of(name)
        base, size = base_of(base_word), number_of(size_word, "size")
        check_size(base, size)
        self.check_name(name, "module", {it.name: it.place for it in self.modules.values()})
        for it in self.modules.values():
            if base < it.base + it.size and it.base < base + size:
                mine, its = f"{base:06X}-{base + size - 1:06X}", f"{it.base:06X}-{it.base + it.size - 1:06X}"
                raise Broken(f"its bytes {mine} overlap {its}, those of the module {it.name} of {self.shown(it.place)}")
        check_limit("MODULES", len(self.modules) + 1, "the module is number")
        check_limit("SIZE", size, "the size is")
        self.module = self.modules[name] = Module(name, self.here, base, size)

    def read_text(self, digits: str) -> None:
        self.put_text(check_bytes(digits))

    def put_text(self, count: int) -> None:
        """Notes so many further bytes of the module."""
        it = self.module
        if it is None or it.text + count > it.size:
            what = "" if it is None else f"; {self.lacking(it)} before it"
            raise Broken(f"{count} bytes go past the module's size{what}")
        it.text += count

    def read_listing(self, count_word: str) -> int:
        count = number_of(count_word, "count of lines")
        if self.module:
            self.module.has_listing = True
        return count

    def read_service(self, number_word: str, entry: str) -> None:
        number = number_of(number_word, "number")
        address_of(entry, "entry")
        check_service(number)
        last = max(self.services, default=-1)
        if number <= last:
            raise Broken(f"the service {number} behind {last}; the numbers of services rise")
        self.services[number] = self.here

    def read_phase(self, name: str) -> None:
        name_of(name)
        self.end_phase()
        self.check_name(name, "phase", self.phases)
        check_limit("PHASES", len(self.phases) + 1, "the phase is number")
        self.phases[name] = self.here
        self.phase, self.observed, self.own_tasks, self.task, self.module = name, [], set(), "", None

    def end_phase(self) -> None:
        """Refuses the end of a phase in which a session's controller is missing."""
        it = self.without_controller()
        if it:
            session = f"the session {it.name} of {self.shown(it.place)}"
            raise Broken(f"the phase {self.phase} ends without the task {it.by}, the controller of {session}")

    def without_controller(self) -> Optional[Session]:
        """The first session of the phase whose controller is still missing."""
        return next((it for it in self.observed if it.by and it.by not in self.own_tasks), None)

    def read_session(self, name: str, *words: str) -> None:
        name_of(name)
        by, modules = "", list(words)
        if words[0] == "BY":
            if len(words) < 3:
                what = "a controlled session names its task and one or more modules behind BY"
                raise Broken(f"{what}; the card is SESSION name BY task module ..")
            by, modules = name_of(words[1], "task"), list(words[2:])
        for it in modules:
            name_of(it, "module")
        self.check_name(name, "session", self.sessions)
        if by in self.tasks:
            raise Broken(f"its controller {by} is a task of an earlier phase, {self.shown(self.tasks[by])}")
        for at, it in enumerate(modules):
            self.check_observed(it, by, modules[:at])
        check_limit("SESSIONS", len(self.sessions) + 1, "the session is number")
        self.sessions[name] = self.here
        self.observed.append(Session(name, self.here, by, modules))

    def check_observed(self, module: str, by: str, before: list[str]) -> None:
        """Refuses a module that the session can't observe."""
        if module not in self.modules:
            known = f"those of the job are {', '.join(self.modules)}" if self.modules else "they stand first, and there is none yet"
            raise Broken(f"there is no module {module}; {known}")
        if module in before:
            raise Broken(f"it names the module {module} twice")
        other = next((it for it in self.observed if module in it.modules and (not by or it.by != by)), None)
        if other:
            session = f"the session {other.name} of {self.shown(other.place)}"
            raise Broken(f"{session} has the module {module} in this phase already")

    def read_task(self, name: str, entry: str, private_word: str, budget_word: str, room_word: str) -> None:
        name_of(name)
        address_of(entry, "entry")
        private, budget = number_of(private_word, "private storage"), number_of(budget_word, "budget")
        room = number_of(room_word, "room")
        if budget < 1:
            raise Broken("the budget is 0; the least is 1 instruction")
        self.check_name(name, "task", self.tasks)
        check_limit("TASKS", len(self.tasks) + 1, "the task is number")
        check_limit("PRIVATE", private, "the private storage is")
        check_limit("BUDGET", budget, "the budget is")
        check_limit("ROOM", room, "the room is")
        self.tasks[name] = self.here
        self.own_tasks.add(name)
        self.task, self.private, self.register, self.last = name, private, -1, "REG"

    def read_reg(self, number_word: str, value: str) -> None:
        number = number_of(number_word, "register")
        digits_of(value, "value", 8, "a register's value is eight hexadecimal digits")
        if number > 15:
            raise Broken(f"there is no register {number}; they are 0 to 15")
        if number <= self.register:
            raise Broken(f"the register {number} behind {self.register}; the registers of a task rise")
        self.register = number

    def read_data(self, offset_word: str, digits: str) -> None:
        self.put_data(number_of(offset_word, "offset"), check_bytes(digits))

    def put_data(self, offset: int, count: int) -> None:
        """Notes so many bytes of private storage."""
        if offset + count > self.private:
            bytes_there = f"1 byte at {offset} ends" if count == 1 else f"{count} bytes at {offset} end"
            raise Broken(f"{bytes_there} behind {self.private}, the private storage of the task {self.task}")
        self.last = "DATA"

    def read_input(self, digits: str) -> None:
        check_bytes(digits)
        self.last = "INPUT"

    def read_endjob(self) -> None:
        self.end_phase()
        self.ended = True

    def rest(self) -> str:
        """What is still to come where the input ends."""
        if not self.begun:
            return "the input is empty; the first line of a job is COVERJOB 1"
        if self.module and self.module.text < self.module.size:
            return f"the input ends: {self.lacking(self.module)}"
        return "the input ends without ENDJOB"
