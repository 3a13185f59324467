"""Listings: the columns that docs/LISTING.md reads, and the lines that a job takes."""
from __future__ import annotations

import functools
import re
from dataclasses import dataclass
from typing import Optional

from common.command import Fault
from readers.ebcdic import to_ascii


@dataclass(frozen=True)
class Columns:
    """The heading of a width of listing and its columns, counted from 0 behind a print control character."""

    heading: bytes
    location: slice
    object_code: slice
    statement: slice
    source: int

    @functools.cached_property
    def code(self) -> re.Pattern[bytes]:
        """A location and what stands behind it in the columns of object code."""
        width = self.object_code.stop - self.object_code.start
        return re.compile(rb"([0-9A-Fa-f]{%d}) (.{1,%d})" % (self.location.stop, width), re.S)


NARROW = Columns(
    b"Loc  Object Code    Addr1 Addr2  Stmt   Source Statement", slice(0, 6), slice(7, 21), slice(34, 39), 40
)
WIDE = Columns(
    b"Loc    Object Code      Address1 Address2  Stmt   Source Statement", slice(0, 8), slice(9, 25), slice(44, 49), 50
)
HEADING_COLUMNS, LONGEST = (2, 3), 150
NEW_LINES = re.compile(b"\x0d?[\x15\x25]")
RECORDS = (121, 133)


@dataclass(frozen=True)
class Heading:
    """The first heading line: its number, from 0; 1 where its lines have a print control character, else 0; its columns."""

    at: int
    shift: int
    columns: Columns


def is_ebcdic(data: bytes) -> bool:
    """Whether the text has more EBCDIC blanks than ASCII ones."""
    return data.count(b"\x40") > data.count(b"\x20")


def heading_of(lines: list[bytes]) -> Optional[Heading]:
    """The first heading line of either width."""
    for at, line in enumerate(lines):
        for columns in (NARROW, WIDE):
            for begin in HEADING_COLUMNS:
                if line[begin : begin + len(columns.heading)].lower() == columns.heading.lower():
                    return Heading(at, begin - HEADING_COLUMNS[0], columns)
    return None


def object_code(line: bytes, heading: Heading) -> Optional[tuple[int, bytes]]:
    """The location of a line and what stands in its columns of object code, where it can be an instruction's line."""
    columns = heading.columns
    found = columns.code.match(line, heading.shift)
    if found is None or not found[2].strip(b" "):
        return None
    return int(found[1], 16), found[2].ljust(columns.object_code.stop - columns.object_code.start)


def statement_number(text: str, columns: Columns) -> Optional[int]:
    """The number of the statement on a line, which stands at the right of its columns: what a line of usings has there, as the 13
    of R13, is none."""
    found = re.fullmatch(" +([0-9]{1,5})", text[columns.statement.start - 1 : columns.statement.stop])
    return int(found[1]) if found else None


def read_listing(path: str, data: bytes) -> list[bytes]:
    """The lines of a listing, in ASCII, each within the limit."""
    lines = ebcdic_lines(path, data) if is_ebcdic(data) else ascii_lines(data)
    heading = heading_of(lines)
    if heading is None:
        raise Fault(path, "no line has the heading of a source listing, at column 3 or 4")
    check_columns(path, lines, heading)
    return [cut(f"{path}: line {at + 1}", it, heading, at > heading.at) for at, it in enumerate(lines)]


def is_listing(data: bytes) -> bool:
    """Whether the bytes are a listing: some of their lines, or of their records, have a heading, and one behind it object code."""
    ways = [ascii_lines(data), ended_lines(data), *(records_of(data, length) for length in RECORDS)]
    return any(heading is not None and has_code(lines, heading) for lines in ways for heading in [heading_of(lines)])


def has_code(lines: list[bytes], heading: Heading) -> bool:
    """Whether a line behind the heading has a location and object code in its columns."""
    return any(object_code(it, heading) for it in lines[heading.at + 1 :])


def check_columns(path: str, lines: list[bytes], heading: Heading) -> None:
    """Refuses a listing whose lines stand in other columns than its heading says, all of them or those of a later page: the
    program would take them for text, and report fewer places than there are."""
    for at, line in enumerate(lines):
        other = heading_of([line])
        if other is not None and (other.shift, other.columns) != (heading.shift, heading.columns):
            raise Fault(f"{path}: line {at + 1}", f"a heading of another column or width than that of line {heading.at + 1}")
    if not has_code(lines, heading):
        where = f"in the columns of its heading, line {heading.at + 1} (docs/LISTING.md)"
        raise Fault(path, f"no line has a location and object code {where}; a module of which nothing is to be marked needs no listing")


def ascii_lines(data: bytes) -> list[bytes]:
    """The lines of a text in ASCII, each without a CR before its LF."""
    lines = data.split(b"\n")
    if not lines[-1]:
        lines.pop()
    return [it[:-1] if it.endswith(b"\r") else it for it in lines]


def ebcdic_lines(path: str, data: bytes) -> list[bytes]:
    """The lines of a text in EBCDIC: those that line ends part, or records of one length. A record may hold the byte of a line
    end, so the first of these in which a line has object code is taken, else the first that has a heading."""
    ways = [it for it in (ended_lines(data), *(records_of(data, length) for length in RECORDS)) if heading_of(it) is not None]
    for lines in ways:
        heading = heading_of(lines)
        if heading is not None and has_code(lines, heading):
            return lines
    if ways:
        return ways[0]
    lengths = " or ".join(map(str, RECORDS))
    raise Fault(path, f"{len(data)} bytes in EBCDIC: neither their lines nor records of {lengths} bytes have the heading of a source listing")


def ended_lines(data: bytes) -> list[bytes]:
    """The lines that line ends part."""
    lines = NEW_LINES.split(data)
    if not lines[-1]:
        lines.pop()
    return [to_ascii(it).rstrip(b" ") for it in lines]


def records_of(data: bytes, length: int) -> list[bytes]:
    """The records of this length, none where they are not whole."""
    if len(data) % length:
        return []
    return [to_ascii(data[at : at + length]).rstrip(b" ") for at in range(0, len(data), length)]


def cut(place: str, line: bytes, heading: Heading, may_be_read: bool) -> bytes:
    """The line, cut to what a job takes; refused where its operation would be cut."""
    if len(line) <= LONGEST:
        return line
    line = line.rstrip(b" ")
    if len(line) > LONGEST and may_be_read and object_code(line, heading) and not holds_operation(line[:LONGEST], heading):
        raise Fault(place, f"a line of {len(line)} bytes whose operation does not end within the {LONGEST} that are kept")
    return line[:LONGEST]


def holds_operation(line: bytes, heading: Heading) -> bool:
    """Whether a blank ends the operation of a cut line, or the line is a comment."""
    source = line[heading.shift + heading.columns.source :]
    if source.startswith(b"*"):
        return True
    runs = 1 if source.startswith(b" ") else 2
    return re.match(rb" *" + rb"[^ ]+ +" * (runs - 1) + rb"[^ ]+ ", source) is not None
