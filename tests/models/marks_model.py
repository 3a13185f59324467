"""What places have shown, as marks files, evidence and parts of texts, by docs/MARKS.md, docs/EVIDENCE.md and docs/REPORT.md alone.

It runs no task: what the places have shown, and when first, is given to it.
"""
from __future__ import annotations

import re
from dataclasses import dataclass, field

from models import model
from models.model import Job, Module, Place, Refused, is_conditional, length_of, overlap

MARKS = {0: "^", 1: ":", 2: ">", 4: "V", 6: "&"}
# The facts in their order, by their letters and their numbers in a set.
FACTS = (("R", 1), ("W", 2), ("S", 4))
# The facts at an address, and how often each was met, one after the other.
Facts = dict[int, int]
Counts = dict[int, tuple[int, ...]]
# Of an address, for each of its facts the task, the instructions before and whether a subject, of the first visit.
Firsts = dict[int, dict[int, tuple[int, int, int]]]


@dataclass
class Shown:
    """What visits show: the facts at each address, how often each was met, and the first visit of each."""

    facts: Facts = field(default_factory=dict)
    met: dict[int, dict[int, int]] = field(default_factory=dict)
    firsts: Firsts = field(default_factory=dict)

    def add(self, place: Place, went: bool, visit: tuple[int, int, int]) -> None:
        bit = 1 if not place.kind() else 2 if went else 4
        self.facts[place.address] = self.facts.get(place.address, 0) | bit
        met = self.met.setdefault(place.address, {})
        met[bit] = met.get(bit, 0) + 1
        self.firsts.setdefault(place.address, {}).setdefault(bit, visit)

    def counts(self) -> Counts:
        """How often each fact was met, in their order."""
        return {at: (met[1],) if 1 in met else (met.get(2, 0), met.get(4, 0)) for at, met in self.met.items()}


@dataclass
class File:
    """The rows of a marks file's table, and the set of each row that is a place's; where the file ends, its session and runs."""

    rows: list[bytes]
    sets: list[int | None]
    end: int = 0
    session: bytes = b" " * 8
    runs: int = 1

    def data(self) -> bytes:
        modules = sum(len(it) == 20 for it in self.rows)
        parts = [row if it is None else row + bytes([it]) for row, it in zip(self.rows, self.sets)]
        head = b"S370COV2" + self.session + self.runs.to_bytes(4, "big")
        return head + modules.to_bytes(2, "big") + b"".join(parts)


def file_of(data: bytes, start: int) -> File:
    """The marks file that begins there."""
    at = start

    def take(size: int) -> bytes:
        nonlocal at
        need(at + size <= len(data))
        at += size
        return data[at - size : at]

    def need(holds: bool, size: int = 0) -> None:
        if not holds:
            raise Refused(10, f"BAD MARKS OFFSET {at - size}")

    session, runs = b" " * 8, 1
    magic = take(8)
    need(magic in (b"S370COV1", b"S370COV2"), 8)
    if magic == b"S370COV2":
        session = take(8)
        need(session == b" " * 8 or re.fullmatch(model.NAME, session.rstrip(b" ")) is not None, 8)
        runs = int.from_bytes(take(4), "big")
        need(runs >= 1, 4)
    count = int.from_bytes(take(2), "big")
    need(1 <= count <= 16, 2)
    rows: list[bytes] = []
    sets: list[int | None] = []
    bases: list[tuple[int, int]] = []
    names: list[bytes] = []
    for _ in range(count):
        name = take(8)
        need(re.fullmatch(model.NAME, name.rstrip(b" ")) is not None and name not in names, 8)
        base = int.from_bytes(take(4), "big")
        need(base % 8 == 0 and 0x100000 <= base <= 0xFFEFF8, 4)
        size = int.from_bytes(take(4), "big")
        need(size % 2 == 0 and 2 <= size <= 262_144 and base + size <= 0xFFF000, 4)
        need(not any(overlap(base, size, *it) for it in bases), 4)
        places = int.from_bytes(take(4), "big")
        need(places + sum(len(it) == 8 for it in rows) <= 65_536, 4)
        names.append(name)
        bases.append((base, size))
        rows.append(data[at - 20 : at])
        sets.append(None)
        last = 0
        for _ in range(places):
            location = int.from_bytes(take(4), "big")
            need(location % 2 == 0 and last <= location < size, 4)
            length = take(1)[0]
            need(length in (2, 4, 6) and location + length <= size, 1)
            kind = take(1)[0]
            need(kind <= 1, 1)
            half = take(2)
            need(length_of(half[0]) == length and is_conditional(half) == bool(kind) and half != b"\x0a\xff", 2)
            bits = take(1)[0]
            need(bits in ((0, 2, 4, 6) if kind else (0, 1)), 1)
            rows.append(data[at - 9 : at - 1])
            sets.append(bits)
            last = location + length
    return File(rows, sets, at, session, runs)


def compare(left: File, right: File) -> None:
    """Refuses files of other tables by the first row in which they differ."""
    for at in range(max(len(left.rows), len(right.rows))):
        one, other = (it.rows[at].hex().upper() if at < len(it.rows) else "-" for it in (left, right))
        if one != other:
            raise Refused(11, f"OTHER TABLE ROW {at} LEFT {one} RIGHT {other}")


def combined(data: bytes) -> bytes:
    """The file of the union of the files that the bytes are."""
    first = file_of(data, 0)
    end = first.end
    while end < len(data):
        other = file_of(data, end)
        compare(first, other)
        first.sets = [None if a is None or b is None else a | b for a, b in zip(first.sets, other.sets)]
        first.runs = min(first.runs + other.runs, 0xFFFF_FFFF)
        end = other.end
    return first.data()


def session_file(name: bytes, modules: list[Module], facts: Facts) -> File:
    """The marks of a session's modules, whose places have these facts, after one run."""
    rows: list[bytes] = []
    sets: list[int | None] = []
    for it in modules:
        table = it.table()
        numbers = b"".join(n.to_bytes(4, "big") for n in (it.base, it.size, len(table)))
        rows += [it.name.ljust(8) + numbers, *(place.row() for place in table)]
        sets += [None, *(facts.get(place.address, 0) for place in table)]
    return File(rows, sets, session=name.ljust(8))


def entry(first: tuple[int, int, int]) -> bytes:
    """What evidence has of a first visit."""
    task, before, subject = first
    return task.to_bytes(2, "big") + before.to_bytes(4, "big") + bytes([subject])


def evidence_of(modules: list[Module], firsts: Firsts) -> bytes:
    """The evidence of a session's modules, whose places have these first visits."""
    shown = [firsts.get(place.address, {}) for it in modules for place in it.table()]
    return b"S370EVD1" + b"".join(entry(it[bit]) for it in shown for _, bit in FACTS if bit in it)


def verified(name: bytes, tasks: int, file: File, data: bytes, firsts: Firsts) -> bytes:
    """What `verify` says of a file with the session's table, where its places have these first visits, and of evidence."""
    facts = sum(f"{it:b}".count("1") for it in file.sets if it is not None)

    def need(holds: bool, offset: int) -> None:
        if not holds:
            raise Refused(15, f"BAD EVIDENCE OFFSET {offset}")

    need(data[:8] == b"S370EVD1", 0)
    for at in range(8, 8 + 7 * facts, 7):
        need(len(data) >= at + 2 and int.from_bytes(data[at : at + 2], "big") < tasks, at)
        need(len(data) >= at + 6 and int.from_bytes(data[at + 2 : at + 6], "big") < 50_000_000, at + 2)
        need(len(data) >= at + 7 and data[at + 6] <= 1, at + 6)
    need(len(data) == 8 + 7 * facts, 8 + 7 * facts)
    at, base = 8, 0
    for number, (row, bits) in enumerate(zip(file.rows, file.sets)):
        base = int.from_bytes(row[8:12], "big") if bits is None else base
        shown = {} if bits is None else firsts.get(base + int.from_bytes(row[:4], "big"), {})
        for letter, bit in FACTS if bits is not None else ():
            has = bool((bits or 0) & bit)
            if has != (bit in shown) or (has and data[at : at + 7] != entry(shown[bit])):
                raise Refused(16, f"REFUTED ROW {number} FACT {letter}")
            at += 7 * has
    return b"VERIFIED %s FACTS %d\n" % (name, facts)


def session_part(name: bytes, phase: bytes, modules: list[Module], facts: Facts) -> bytes:
    """A session's part of a report."""
    lines = [b"SESSION %s PHASE %s" % (name, phase)]
    for it in modules:
        table = it.table()
        sets = [facts.get(place.address, 0) for place in table]
        counts = (len(table), sum(bits > 0 for bits in sets), sum(f"{bits:b}".count("1") for bits in sets))
        possible = sum(1 + place.kind() for place in table)
        lines.append(b"MODULE %s PLACES %d EXECUTED %d FACTS %d OF %d" % (it.name, *counts, possible))
        for line, place in zip(it.listing or [], it.places):
            mark = MARKS[facts.get(place.address, 0)] if place else " "
            lines.append(mark.encode() + b" " + line)
        lines += not_executed(table, sets)
    return b"".join(it + b"\n" for it in lines)


def counts_part(name: bytes, phase: bytes, modules: list[Module], counts: Counts) -> bytes:
    """A session's part of counts."""
    lines = [b"SESSION %s PHASE %s" % (name, phase)]
    for it in modules:
        lines.append(b"MODULE %s PLACES %d" % (it.name, len(it.table())))
        for place in it.table():
            met = counts.get(place.address, (0,) * (1 + place.kind()))
            lines.append(b"COUNT %06X %s" % (place.location, b" ".join(b"%d" % it for it in met)))
    return b"".join(it + b"\n" for it in lines)


def not_executed(table: list[Place], sets: list[int]) -> list[bytes]:
    """The line of each longest run of places without a fact."""
    lines, begun = [], None
    for at, place in enumerate(table):
        begun = place if begun is None and not sets[at] else begun
        if begun and not sets[at] and (at + 1 == len(table) or sets[at + 1]):
            lines.append(b"NOT EXECUTED %06X-%06X" % (begun.location, place.location + place.length - 1))
            begun = None
    return lines


def table_text(job: Job) -> bytes:
    """What `table` writes."""
    lines = [b"COVERAGE TABLE"]
    for it in job.modules:
        if it.listing is not None:
            lines.append(b"MODULE %s PLACES %d" % (it.name, len(it.table())))
            for place in it.table():
                kind, half = b"SC"[place.kind() :][:1], place.half.hex().upper().encode()
                lines.append(b"PLACE %06X %d %s %s" % (place.location, place.length, kind, half))
    return b"\n".join([*lines, b"END", b""])
