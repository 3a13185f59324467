"""What a listing says of its places beside their code: the labels at them, and their statements' numbers."""
from __future__ import annotations

import re
from dataclasses import dataclass
from typing import Optional

from readers.listing import Heading, heading_of, statement_number
from readers.report import Line

# A statement with an operation: its name, the operation and the operands; no comment is one, and none of a macro's body
# with a variable for its name.
SOURCE = re.compile(rb"([A-Za-z@#$_][A-Za-z0-9@#$_]*)? +([A-Za-z@#$_][A-Za-z0-9@#$_]*)(?: +([^ ]+))?")
SECTIONS, DUMMIES = (b"CSECT", b"RSECT", b"START", b"LOCTR"), (b"DSECT", b"COM", b"DXD")


@dataclass(frozen=True)
class Spot:
    """Of a place: the label at it, the last one above it, and its statement's number; each none where there is none."""

    label: Optional[str]
    behind: Optional[str]
    statement: Optional[int]

    def words(self) -> str:
        """Where the place is, in words."""
        words = [self.label] if self.label else [f"behind {self.behind}"] if self.behind else []
        return ", ".join([*words, *([] if self.statement is None else [f"statement {self.statement}"])])


@dataclass(frozen=True)
class Statement:
    """A line's statement: its name, operation and operands, each empty where there is none, its location, and how many bytes
    of object code it shows."""

    name: str
    operation: bytes
    operands: bytes
    location: Optional[int]
    size: int


def location_of(text: bytes, heading: Heading) -> Optional[int]:
    """The location on a line, counted behind its print control character, that has one."""
    found = re.match(rb"[0-9A-Fa-f]{%d}(?= |$)" % heading.columns.location.stop, text)
    return int(found[0], 16) if found else None


def statement_of(line: Line, heading: Heading) -> Statement:
    """The statement on a line."""
    text = line.text[heading.shift :]
    found = SOURCE.match(text, heading.columns.source)
    name, operation, operands = (found[at] or b"" for at in (1, 2, 3)) if found else (b"", b"", b"")
    location = location_of(text, heading) if line.location is None else line.location
    size = len(text[heading.columns.object_code].replace(b" ", b"")) // 2
    return Statement(name.decode("ascii"), operation.upper(), operands, location, size)


def number_of(line: Line, heading: Heading) -> Optional[int]:
    """The statement's number on a line that has one."""
    return statement_number(line.text[heading.shift :].decode("latin-1"), heading.columns)


class Labels:
    """Goes through a listing's lines, and finds the label at each place that has one."""

    def __init__(self) -> None:
        self.taken: set[str] = set()
        # The last name above that may be a place's label, and its location where its line has one.
        self.name = ""
        self.location: Optional[int] = None
        self.is_dummy = False

    def label_of(self, line: Line, statement: Statement) -> Optional[str]:
        """The label at a place: its own name, or one above it of the same location. A name that comes again, as that of
        a section which is continued, has the location with it, so that no two labels are the same."""
        name = statement.name or (self.name if self.location in (None, line.location) else "")
        self.name, self.is_dummy = "", False
        if not name:
            return None
        if name in self.taken:
            name = f"{name}.{line.location:06X}"
        self.taken.add(name)
        return name

    def pass_by(self, statement: Statement) -> None:
        """Notes what a text line says of the places below it."""
        if statement.operation in SECTIONS + DUMMIES:
            self.is_dummy = statement.operation in DUMMIES
            self.name = ""
        is_here = statement.operation == b"EQU" and statement.operands == b"*"
        if statement.name and not self.is_dummy and (is_here or statement.location is not None):
            self.name, self.location = statement.name, statement.location
        if statement.operation == b"CNOP" and self.location is not None and self.location == statement.location:
            # What it aligns has the label before it, as of ABEND, whose code begins so.
            self.location += statement.size


def spots_of(lines: list[Line]) -> dict[int, Spot]:
    """Each place of a listing, by the line's index. Counts alone have no listing: neither labels nor statements."""
    heading, labels, behind = heading_of([it.text for it in lines]), Labels(), None
    found: dict[int, Spot] = {}
    for at, line in enumerate(lines):
        if heading is None:
            if line.mark != " ":
                found[at] = Spot(None, None, None)
        elif line.mark == " ":
            # A page's title, which is no statement, may have words of one.
            if at > heading.at and number_of(line, heading) is not None:
                labels.pass_by(statement_of(line, heading))
        else:
            label = labels.label_of(line, statement_of(line, heading))
            found[at] = Spot(label, behind, number_of(line, heading))
            behind = label or behind
    return found
