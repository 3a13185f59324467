"""The lines behind a listing's heading: which of them the program reads as instructions (docs/LISTING.md), what the others
have, and why one is no instruction line though a reader takes it for one."""
from __future__ import annotations

import re
from dataclasses import dataclass
from typing import Optional

from readers.constant_sizes import size_of
from readers.listing import Heading, heading_of, object_code, statement_number
from readers.operations import OPERATIONS

# Instructions to the assembler and to its macro processor (HLASM Language Reference): none is executed, and none is a macro.
DIRECTIVES = frozenset(
    "ACONTROL ACTR ADATA AEJECT AGO AGOB AIF AIFB AINSERT ALIAS AMODE ANOP AREAD ASPACE CATTR CCW CCW0 CCW1 CEJECT CNOP COM COPY CSECT"
    " CXD DC DROP DS DSECT DXD EJECT END ENTRY EQU EXITCTL EXTRN GBLA GBLB GBLC ICTL ISEQ LCLA LCLB LCLC LOCTR LTORG MACRO MEND"
    " MEXIT MHELP MNOTE OPSYN ORG POP PRINT PUNCH PUSH REPRO RMODE RSECT SETA SETAF SETB SETC SETCF SPACE START TITLE USING WXTRN"
    " XATTR".split()
)
# Those of them that show bytes.
OF_DATA = ("DC", "DS", "CNOP", "CXD", "DXD", "CCW", "CCW0", "CCW1")
GROUPS = re.compile(r"([0-9A-Fa-f]{4}(?: [0-9A-Fa-f]{4}){0,2}) *")
CUT_GROUPS = re.compile(r"[0-9A-Fa-f]{4} [0-9A-Fa-f]{0,4}(?: [0-9A-Fa-f]{0,4})?")
DATA = re.compile(r"(?:[0-9A-Fa-f]{2}){1,8}(?= |$)")
# An operation behind a statement's name, or without one; a comment has none.
OPERATION = re.compile(rb"[^ *][^ ]* +([^ ]+)| +([^ ]+)")
# Where a statement has the character that continues it on the next line.
CONTINUATION = 71
# What parts words for a reader: blanks, tabs, and blanks that don't break lines.
GAPS, BLANK = re.compile("[ \t\xa0]+"), "a blank of another kind than X'20'"
# A line as a reader takes it in whatever columns: location, object code, addresses, statement number, statement.
LOOSE = re.compile(
    r"[ +\-]*([0-9A-Fa-f]{4,9}) +([0-9A-Fa-f]{4}(?: [0-9A-Fa-f]{4}){0,2})"
    r"((?: +[0-9A-Fa-f]{5,8}){0,2}) +([0-9]{1,6})[+=-]?( .*)"
)


@dataclass(frozen=True)
class Code:
    """An instruction line, counted from 1, with its location and its object code."""

    line: int
    location: int
    code: bytes

    def end(self) -> int:
        """The location behind it."""
        return self.location + len(self.code)

    def is_in(self, text: bytes) -> bool:
        """Whether the text has the code there."""
        return text[self.location : self.end()] == self.code


@dataclass
class Row:
    """A line: its number, whether it is an instruction line, its location, and from there on the bytes that stand on it,
    None where it doesn't say how many; its statement number, and its statement behind that. `amiss` says why a line that
    looks like an instruction's is none; whether a macro has generated the statement comes last."""

    number: int
    is_instruction: bool = False
    location: Optional[int] = None
    size: Optional[int] = 0
    statement: Optional[int] = None
    source: str = ""
    amiss: str = ""
    is_generated: bool = False

    def name(self) -> str:
        """The name of the statement; empty where it has none."""
        return "" if self.source[:1] in (" ", "\t", "") else GAPS.split(self.source)[0]

    def is_literal(self) -> bool:
        """Whether it is a literal of a pool."""
        return self.source.lstrip().startswith("=")

    def operation(self) -> str:
        """The operation as a reader sees it, in capitals; empty where there is none."""
        if self.source.startswith("*"):
            return ""
        words = GAPS.split(self.source.rstrip())
        return words[1].upper() if len(words) > 1 else ""

    def of_statement(self) -> str:
        """The operation of a statement; empty of a line that is none, as the title of a page, whatever words it has there."""
        return self.operation() if self.statement is not None else ""


def length_of(code: str) -> int:
    """How many digits an instruction has that begins with these."""
    return (4, 8, 8, 12)[int(code[0], 16) >> 2]


def whole_code(text: str) -> int:
    """How many bytes of one instruction the groups of digits are; 0 where they are none."""
    found = GROUPS.fullmatch(text)
    digits = found[1].replace(" ", "") if found else ""
    return len(digits) // 2 if digits and len(digits) == length_of(digits) else 0


def operation_of(line: bytes, heading: Heading) -> str:
    """The operation of a line's statement as the program reads it, in capitals; empty where it has none."""
    found = OPERATION.match(line, heading.shift + heading.columns.source)
    return (found[1] or found[2]).decode("latin-1").upper() if found else ""


def instructions(lines: list[bytes], heading: Heading) -> list[Code]:
    """The instruction lines whose columns have whole bytes; of others the program tells the fault."""
    found = []
    for number, line in enumerate(lines[heading.at + 1 :], heading.at + 2):
        own = object_code(line, heading)
        if own and operation_of(line, heading) in OPERATIONS and GROUPS.fullmatch(own[1].decode("latin-1")):
            found.append(Code(number, own[0], bytes.fromhex(own[1].decode())))
    return found


def rows_of(lines: list[bytes], heading: Heading) -> list[Row]:
    """The lines behind the first heading that are no heading themselves."""
    found = enumerate(lines[heading.at + 1 :], heading.at + 2)
    return [row_of(number, it, heading) for number, it in found if heading_of([it]) is None]


def row_of(number: int, line: bytes, heading: Heading) -> Row:
    """What a line has."""
    columns, whole = heading.columns, line.decode("latin-1")
    padded = whole[heading.shift :].ljust(columns.source + 1)
    code = padded[columns.object_code]
    row = Row(number, source=padded[columns.source :], statement=statement_number(padded, columns))
    row.is_generated = padded[columns.source - 1] == "+"
    found, location = object_code(line, heading), padded[columns.location]
    if found is not None and operation_of(line, heading) in OPERATIONS:
        row.is_instruction, row.location, row.size = True, found[0], whole_code(code) or len(code.replace(" ", "")) // 2
    elif set_loose(row, whole, heading):
        pass
    elif found is not None:
        row.location = found[0]
        set_other(row, whole[heading.shift :], padded[columns.object_code.start :], code, heading)
    elif re.fullmatch("[0-9A-Fa-f]+", location) and padded[columns.location.stop] == " ":
        row.location, row.size = int(location, 16), storage_size(row, int(location, 16))
    elif whole_code(code) and row.statement is not None and operation_of(line, heading) in OPERATIONS:
        digits = columns.location.stop
        where = f"columns {1 + heading.shift} to {digits + heading.shift}"
        row.amiss = f"its {where} are no location of {digits} hexadecimal digits with a blank behind"
    return row


def storage_size(row: Row, location: int) -> Optional[int]:
    """The bytes that a line without object code keeps: those of a DS."""
    return constant_size(row, location) if row.operation() == "DS" else 0


def constant_size(row: Row, location: int) -> Optional[int]:
    """The bytes of a DC, a DS or a literal."""
    if row.source[CONTINUATION : CONTINUATION + 1].strip():
        return None
    at_operands = 1 if row.is_literal() else 2
    parts = re.split(" +", row.source, maxsplit=at_operands)
    if len(parts) <= at_operands:
        return None if at_operands == 2 else size_of(parts[-1][1:], location)
    return size_of(parts[at_operands], location)


def set_other(row: Row, text: str, shown: str, code: str, heading: Heading) -> None:
    """Sets what a line has whose location and object code stand in their columns, but whose operation is no instruction's."""
    operation = row.operation()
    if row.source.startswith("*"):
        return
    if row.is_literal() or operation in OF_DATA:
        set_data(row, shown, operation)
        return
    length, is_source_blank = whole_code(code) or cut_code(text, code, heading), not row.source.strip()
    if is_source_blank and row.statement is None and length <= 2:
        # More bytes of the constant of a line before, or an instruction's first two.
        set_data(row, shown, operation)
        return
    row.size = length or (None if shown_bytes(shown) == 8 else shown_bytes(shown))
    if is_source_blank and length:
        row.amiss = "it ends before its operation"
    elif length and operation not in DIRECTIVES:
        row.amiss = why_no_operation(row, text)


def cut_code(text: str, code: str, heading: Heading) -> int:
    """The bytes of an instruction where the line ends within its object code, behind its first two bytes; else 0."""
    is_short = len(text.rstrip()) < heading.columns.object_code.stop and CUT_GROUPS.fullmatch(code.rstrip()) is not None
    return length_of(code) // 2 if is_short and len(code.replace(" ", "")) < length_of(code) else 0


def shown_bytes(shown: str) -> int:
    """How many bytes the digits are that a line of constants shows."""
    found = DATA.match(shown)
    return len(found[0]) // 2 if found else 0


def set_data(row: Row, shown: str, operation: str) -> None:
    """Sets the bytes of a line of constants: what its operands say, or what it shows where that is less than eight bytes."""
    count = shown_bytes(shown)
    known = constant_size(row, row.location or 0) if operation in ("DC", "DS") or row.is_literal() else None
    if known is not None:
        row.size = max(known, count)
    elif operation == "CNOP":
        row.size = None
    else:
        row.size = count if count < 8 or not operation and not row.source.strip() else None


def why_no_operation(row: Row, text: str) -> str:
    """Why the operation of a line with an instruction's object code is none."""
    words = GAPS.split(row.source.rstrip())
    candidate = row.operation()
    if candidate in OPERATIONS:
        return f"{'a tab' if chr(9) in row.source else BLANK} stands beside its operation"
    if not words[0] and len(words) > 2 and words[2].upper() in OPERATIONS:
        return f"a blank stands before its name, so that {words[1]} is read as its operation"
    if words[0] and words[0].upper() in OPERATIONS and len(words) > 1:
        return "its operation stands where a name does, at the first column of the statement"
    if text.rstrip().endswith(words[-1]) and len(words) <= 2 and any(it.startswith(candidate) for it in OPERATIONS):
        return "it ends within its operation"
    return f"{candidate or words[0]} is none of the operations that are executed (docs/MACHINE.md)"


def set_loose(row: Row, whole: str, heading: Heading) -> bool:
    """Sets what a line has that a reader takes for an instruction's, but whose columns in front of its statement are others
    than those of the heading; and answers whether it is such."""
    front, digits = whole[: heading.shift + heading.columns.source], heading.columns.location.stop
    spread = whole.replace("\xc2\xa0", " ").replace("\xa0", " ").expandtabs(8)
    tries = [(it, LOOSE.fullmatch(spread, it)) for it in sorted({heading.shift, 0}, reverse=True)]
    matches = sorted((len(found[1]) != digits, -shift, found) for shift, found in tries if found)
    if not matches:
        return False
    found = matches[0][2]
    words = [it.upper() for it in GAPS.split(found[5].rstrip())[1:3]]
    if not whole_code(found[2]) or words[:1] and words[0] in DIRECTIVES or not any(it in OPERATIONS for it in words):
        return False
    why = why_off(found, front, heading)
    if why:
        row.location, row.size, row.statement, row.amiss = int(found[1], 16), whole_code(found[2]), int(found[4]), why
    return bool(why)


def why_off(found: re.Match[str], front: str, heading: Heading) -> str:
    """Where the columns in front of a statement are off; empty where they aren't."""
    digits, first = heading.columns.location.stop, 1 + heading.shift
    if "\t" in front:
        return "a tab stands in its columns"
    if "\xa0" in front:
        return f"{BLANK} stands in its columns"
    if len(found[1]) != digits:
        return f"its location has {len(found[1])} digits, and not {digits}"
    if found.start(1) + 1 != first:
        return f"its location begins at column {found.start(1) + 1}, and not {first}"
    code = heading.columns.object_code.start + first
    return f"its object code begins at column {found.start(2) + 1}, and not {code}" if found.start(2) + 1 != code else ""
