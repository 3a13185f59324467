"""What each command answers to any input, by docs/ alone: its status and its text, or between which bounds the text lies.

The input is read by models/model.py, its tasks run by models/task_runs.py, and schedules are played by models/core_model.py.
"""
from __future__ import annotations

import os
import re
from dataclasses import dataclass, field
from typing import Callable

from fixtures.harness import difference
from fixtures.jobs import USAGE
from models import core_model, ends_model, marks_model, model, trial
from models.model import Refused
from models.task_runs import Bounds, Run, Runner, bounds, union

FACTS = {mark: bits for bits, mark in marks_model.MARKS.items()}
DRAINED = re.compile(rb"DRAINED COUNT ([0-9]+)|NOT DRAINED")


@dataclass
class Answer:
    """A status and a text."""

    status: int
    output: bytes

    def is_one(self) -> bool:
        """Whether there is one text alone that can come."""
        return True

    def fault(self, status: int, output: bytes) -> str | None:
        """What is wrong with what came."""
        if status != self.status:
            return f"status {status}, and not {self.status}; {output[:200]!r}, and not {self.output[:200]!r}"
        return self.fault_in(output)

    def fault_in(self, output: bytes) -> str | None:
        return None if output == self.output else difference(self.output, output)


@dataclass
class Session:
    """A session of a job with its bounds."""

    name: bytes
    phase: bytes
    modules: list[model.Module]
    has_controller: bool
    within: Bounds

    def check(self, facts: marks_model.Facts) -> None:
        """Fails where the facts of a place don't lie within the bounds."""
        for place in (place for it in self.modules for place in it.table()):
            had, least, most = (it.get(place.address, 0) for it in (facts, self.within.least, self.within.most))
            assert least & ~had == 0 == had & ~most, f"{self.name!r} at {place.address:06X} has {had}, and not {least} to {most}"

    def facts(self, lines: list[bytes]) -> marks_model.Facts:
        """The facts by the marks of the part that the lines begin with."""
        found, at = {}, 1
        for it in self.modules:
            marks = lines[at + 1 : at + 1 + len(it.places)]
            found.update({place.address: FACTS.get(line[:1].decode("latin-1"), 0) for line, place in zip(marks, it.places) if place})
            # The lines of what was not executed come behind the listing.
            at += 1 + len(it.places)
            at += len(marks_model.not_executed(it.table(), [found[place.address] for place in it.table()]))
        return found


@dataclass
class Report(Answer):
    """A report whose controlled sessions lie within bounds; in that of `early` each has a line on its drain."""

    front: bytes = b""
    sessions: list[Session] = field(default_factory=list)
    is_early: bool = False

    def is_one(self) -> bool:
        return not any(it.has_controller for it in self.sessions)

    def fault_in(self, output: bytes) -> str | None:
        if not output.startswith(self.front):
            return difference(self.front, output)
        rest, whole = output[len(self.front) :].split(b"\n"), self.front
        try:
            for it in self.sessions:
                facts = it.facts(rest) if it.has_controller else it.within.least
                it.check(facts)
                part = marks_model.session_part(it.name, it.phase, it.modules, facts)
                whole, rest = whole + part, rest[part.count(b"\n") :]
                if it.has_controller and self.is_early:
                    whole += drained(it, rest[0] if rest else b"")
                    rest = rest[1:]
        except AssertionError as error:
            return str(error)
        return None if output == whole + b"END\n" else difference(whole + b"END\n", output)


def drained(session: Session, line: bytes) -> bytes:
    """The line on a drain, where it is one that there can be."""
    found = DRAINED.fullmatch(line)
    assert found, f"{line!r} tells no drain of {session.name!r}"
    holds = int(found[1]) in session.within.drained if found[1] else session.within.may_not
    assert holds, f"{session.name!r} says {line!r}; it may be drained at {session.within.drained}, or not: {session.within.may_not}"
    return line + b"\n"


@dataclass
class Marks(Answer):
    """A marks file of a controlled session."""

    session: Session | None = None

    def is_one(self) -> bool:
        return False

    def fault_in(self, output: bytes) -> str | None:
        it = self.session
        assert it
        try:
            file = marks_model.file_of(output, 0)
            marks_model.compare(marks_model.session_file(it.name, it.modules, {}), file)
            facts = facts_of(it.modules, file)
            it.check(facts)
        except (Refused, AssertionError) as fault:
            return f"{fault}"
        wanted = marks_model.session_file(it.name, it.modules, facts).data()
        return None if output == wanted else f"{output[:40].hex()}, and not {wanted[:40].hex()}"


def facts_of(modules: list[model.Module], file: marks_model.File) -> marks_model.Facts:
    """The facts of a file with the table of these modules."""
    places = [place for module in modules for place in module.table()]
    return {place.address: bits for place, bits in zip(places, (it for it in file.sets if it is not None))}


# ---- the commands


def listed(data: bytes, alone: bool, check: Callable[[model.Job], None] = lambda _: None, has_services: bool = False) -> model.Job:
    """The job of the bytes, whose sessions are checked before its places are found."""
    it = model.job_of(data, alone, has_services)
    check(it)
    model.read_listings(it)
    return it


def named(name: bytes, is_whole: bool) -> Callable[[model.Job], None]:
    """Refuses a job without the session, or one where that has a controller and may not."""

    def check(job: model.Job) -> None:
        if name not in [it for it, _, _ in job.sessions]:
            raise Refused(13, f"NO SESSION {name.decode()}")
        if is_whole and name in job.controllers:
            raise Refused(14, f"CONTROLLED {name.decode()}")

    return check


def session_of(job: model.Job, name: bytes) -> tuple[bytes, bytes, list[model.Module]]:
    return next(it for it in job.sessions if it[0] == name)


def bounded(job: model.Job, runs: list[Run], session: tuple[bytes, bytes, list[model.Module]]) -> Session:
    name, phase, modules = session
    return Session(name, phase, modules, name in job.controllers, bounds(job, runs, name, phase))


def report(word: bytes, data: bytes, has_services: bool = False) -> Answer:
    """What `run`, `exits` and `early` write."""
    job = listed(data, True, has_services=has_services)
    runs = Runner(job, word == b"exits").all()
    front = b"COVERAGE REPORT\n" + b"".join(it.lines() for it in runs)
    return Report(0, b"", front, [bounded(job, runs, it) for it in job.sessions], word == b"early")


def count(data: bytes, has_services: bool) -> Answer:
    def check(job: model.Job) -> None:
        for name in [it for it, _, _ in job.sessions if it in job.controllers][:1]:
            raise Refused(14, f"CONTROLLED {name.decode()}")

    job = listed(data, True, check, has_services)
    runs = Runner(job).all()
    parts = [b"COVERAGE COUNT\n", *(it.lines() for it in runs)]
    for name, phase, modules in job.sessions:
        met = union([it.shown for it in runs if it.phase == phase]).counts()
        parts.append(marks_model.counts_part(name, phase, modules, met))
    return Answer(0, b"".join([*parts, b"END\n"]))


def marks(name: bytes, data: bytes, has_services: bool) -> Answer:
    job = listed(data, True, named(name, False), has_services)
    it = bounded(job, Runner(job).all(), session_of(job, name))
    if it.has_controller:
        return Marks(0, b"", it)
    return Answer(0, marks_model.session_file(name, it.modules, it.within.least).data())


def firsts_of(job: model.Job, phase: bytes) -> marks_model.Firsts:
    return union([it.shown for it in Runner(job).all() if it.phase == phase]).firsts


def prove(name: bytes, data: bytes, _has_services: bool) -> Answer:
    job = listed(data, True, named(name, True))
    _, phase, modules = session_of(job, name)
    return Answer(0, marks_model.evidence_of(modules, firsts_of(job, phase)))


def show(name: bytes, data: bytes, has_services: bool) -> Answer:
    job = listed(data, False, named(name, False), has_services)
    _, phase, modules = session_of(job, name)
    file = marks_model.file_of(data[job.end :], 0)
    if job.end + file.end < len(data):
        raise Refused(10, f"BAD MARKS OFFSET {file.end}")
    marks_model.compare(marks_model.session_file(name, modules, {}), file)
    return Answer(0, b"COVERAGE SHOW\n" + marks_model.session_part(name, phase, modules, facts_of(modules, file)) + b"END\n")


def verify(name: bytes, data: bytes, _has_services: bool) -> Answer:
    job = listed(data, False, named(name, True))
    _, phase, modules = session_of(job, name)
    file = marks_model.file_of(data[job.end :], 0)
    marks_model.compare(marks_model.session_file(name, modules, {}), file)
    return Answer(0, marks_model.verified(name, len(job.tasks), file, data[job.end + file.end :], firsts_of(job, phase)))


def replay(data: bytes) -> Answer:
    job = listed(data, False)
    if len(job.phases) != 1:
        raise Refused(9, "BAD SCHEDULE LINE 0")
    lines = data[job.end :].split(b"\n")
    lines = lines[:-1] if lines[-1] == b"" else lines
    core, told = core_model.Core(job), [b"COVERAGE REPLAY\n"]
    for number, line in enumerate(lines, 1):
        key, _, name = line.decode("latin-1").partition(" ")
        if line == b"ENDSCHED" and number == len(lines):
            return Answer(0, b"".join([*told, core.report()]))
        # Behind ENDSCHED the next line is bad.
        if key not in core_model.KEYS or name not in core.tasks or not core.is_possible(key, name):
            raise Refused(9, f"BAD SCHEDULE LINE {job.lines + number + (line == b'ENDSCHED')}")
        told.append(f"EVENT {number} {key} {name}{core.play(key, name)}\n".encode())
    raise Refused(9, f"BAD SCHEDULE LINE {job.lines + len(lines) + 1}")


# Of the commands without a name and of those with one what each makes of its input, whose job has services or not.
ALONE: dict[bytes, Callable[[bytes, bool], Answer]] = {
    b"run": lambda data, has_services: report(b"run", data, has_services), b"exits": lambda data, _: report(b"exits", data),
    b"early": lambda data, _: report(b"early", data), b"count": count,
    b"table": lambda data, has_services: Answer(0, marks_model.table_text(listed(data, True, has_services=has_services))),
    b"ends": lambda data, has_services: Answer(0, ends_model.text(data, None, has_services)),
    b"combine": lambda data, _: Answer(0, marks_model.combined(data)), b"replay": lambda data, _: replay(data),
}
NAMED: dict[bytes, Callable[[bytes, bytes, bool], Answer]] = {b"marks": marks, b"show": show, b"prove": prove, b"verify": verify}
# The commands that the word `services` may stand before.
SERVED = (b"run", b"marks", b"show", b"table", b"count", b"ends")


def answer(words: list[str], data: bytes) -> Answer:
    """What comes of words and an input; TooLong where that takes too long to tell."""
    try:
        return answer_of([os.fsencode(it) for it in words], data)
    except Refused as refused:
        return Answer(*refused.answer)


def answer_of(words: list[bytes], data: bytes) -> Answer:
    if len(words) == 3 and words[0] == b"trial":
        numbers = [int(it) if re.fullmatch(rb"0|[1-9][0-9]{0,9}", it) else 1 << 32 for it in words[1:]]
        if numbers[0] < 1 << 32 and 1 <= numbers[1] <= 64:
            return Answer(0, trial.summary(*numbers))
    has_services = words[:1] == [b"services"] and len(words) > 1 and words[1] in SERVED
    words = words[has_services:]
    is_named = len(words) == 2 and words[0] in NAMED and re.fullmatch(model.NAME, words[1])
    if not is_named and not (len(words) == 1 and words[0] in ALONE):
        return Answer(1, USAGE)
    if len(data) > model.LIMITS["INPUT"]:
        raise Refused(4, "TOO LARGE INPUT")
    return NAMED[words[0]](words[1], data, has_services) if is_named else ALONE[words[0]](data, has_services)
