"""What a listing seems to lack: pages, its end, lines for bytes of the module; and lines that look like instructions, but
aren't read as such (docs/LISTING.md, "What module warns of")."""
from __future__ import annotations

import re
from bisect import bisect_right
from dataclasses import dataclass
from typing import Iterator, Optional

from readers.listing import Heading, heading_of, statement_number
from readers.listing_rows import DIRECTIVES, Code, Row, instructions, rows_of
from readers.operations import OPERATIONS

PAGE = re.compile(rb"(?:^|.* )page *([0-9]{1,5}) *", re.I)
SECTIONS, OTHER_SECTIONS = ("CSECT", "RSECT", "START"), ("DSECT", "COM")
END_OF_ADDRESSES = 1 << 32
# The calls that WAIT, POST, and some forms of GETMAIN and FREEMAIN make, and what they do here (docs/MACHINE.md).
TASK_CALLS = {
    1: "writes output here, and waits for nothing", 2: "reads input here, and posts nothing",
    4: "opens a controlled session here, and gives no storage", 5: "closes a controlled session here, and frees no storage",
}
# A program's own macros may generate these for what they do here, so that they are told of the system's alone.
OF_MACROS = {1: ("WAIT", "WAITR"), 2: ("POST",)}
# How many lines or ranges of one kind are told each by itself.
MOST = 5

Ranges = list[tuple[int, int]]


@dataclass(frozen=True)
class Jump:
    """Statement numbers that are left out behind a line: the first and the last, 0 behind the last line of all; the line's
    number, the macro that it calls, where it calls one; the end of the bytes on lines before, and where those on lines
    behind begin."""

    first: int
    last: int
    line: int
    macro: str
    low: int
    high: int


def warnings_of(path: str, lines: list[bytes], text: bytes, ranges: Ranges) -> list[str]:
    """What the listing seems to lack, whose module has this text, in these ranges; each with its file and line."""
    heading = heading_of(lines)
    if heading is None:
        return []
    rows = rows_of(lines, heading)
    again = second_section(rows)
    found = [*page_jumps(lines, heading), *not_read(rows), *other_calls(rows, text), *again]
    if not any(it.of_statement() == "END" for it in rows):
        found.append(": no line has the statement END: the listing may be cut")
    if not again:
        code = instructions(lines, heading)
        others = [it for it in code if not it.is_in(text)]
        found += other_bytes(text, code, others)
        # Of a listing that isn't the object's nothing is to be told of bytes without a line.
        if 2 * len(others) <= len(code):
            found += bare_ranges(rows, text, ranges)
    return [f"{path}{it}" for it in found]


def other_bytes(text: bytes, code: list[Code], others: list[Code]) -> Iterator[str]:
    """How many instruction lines have other bytes than the object, and the first of them."""
    for it in others[:1]:
        has = "has" if len(others) == 1 else "have"
        what = f"{len(others)} of the {len(code)} instruction lines {has} other bytes than the object"
        there = text[it.location : it.location + len(it.code)].hex().upper() or "nothing"
        here = f"here {it.code.hex().upper()} at {it.location:06X}, where the object has {there}"
        yield f": line {it.line}: {what}, {here}; the program refuses such a listing: take both of one assembly"


def page_jumps(lines: list[bytes], heading: Heading) -> Iterator[str]:
    """Pages of the source section whose numbers don't follow each other. A page's number stands at the end of a line, between it and
    the heading no statement."""
    before, page = None, None
    for number, line in enumerate(lines, 1):
        found = PAGE.fullmatch(line)
        if found:
            page = int(found[1])
        elif page is not None and heading_of([line]) is not None:
            if before is not None and page != before + 1:
                yield f": line {number}: page {page} stands behind page {before}" + missing_pages(before, page)
            before, page = page, None
        elif page is not None and statement_number(line[heading.shift :].decode("latin-1"), heading.columns) is not None:
            page = None


def missing_pages(before: int, page: int) -> str:
    """Which pages are missing between two."""
    if page <= before + 1:
        return ""
    return f": page {before + 1} is missing" if page == before + 2 else f": pages {before + 1} to {page - 1} are missing"


def not_read(rows: list[Row]) -> Iterator[str]:
    """Lines that look like instructions but are none, those of one cause together."""
    causes: dict[str, list[int]] = {}
    for it in rows:
        if it.amiss:
            causes.setdefault(it.amiss, []).append(it.number)
    for cause, numbers in causes.items():
        yield f": line {numbers[0]}: no instruction line, so that it bears no mark: {cause}{likewise(numbers)}"


def likewise(numbers: list[int]) -> str:
    """How many lines more have a cause, beside the first."""
    return f"; likewise {len(numbers) - 1} more, the last of them line {numbers[-1]}" if len(numbers) > 1 else ""


def other_calls(rows: list[Row], text: bytes) -> Iterator[str]:
    """The supervisor calls of macros that are task calls here, and do something else; those of one macro together."""
    found, macro = dict[tuple[int, str], list[int]](), ""
    for it in rows:
        macro = macro if it.is_generated else macro_of(it) or macro
        code = text[it.location : it.location + 2] if it.is_generated and it.location is not None else b""
        number = int.from_bytes(code[1:], "big")
        if it.is_instruction and code[:1] == b"\x0a" and number in TASK_CALLS and macro in OF_MACROS.get(number, (macro,)):
            found.setdefault((number, macro), []).append(it.number)
    for (number, name), numbers in found.items():
        whose = f"of the macro {name}" if name else "of a macro"
        yield f": line {numbers[0]}: SVC {number} {whose} {TASK_CALLS[number]}{likewise(numbers)}"


def second_section(rows: list[Row]) -> list[str]:
    """A section that begins at 0 again, behind one that has bytes there."""
    names, has_bytes, has_ended = set[str](), False, False
    for it in rows:
        operation = it.of_statement()
        if operation in SECTIONS:
            if has_bytes and it.location == 0 and (has_ended or it.name() not in names):
                cause = "a second assembly behind the END of the first" if has_ended else "the assembler's option NOTHREAD"
                advice = "give each assembly's listing to a module of its own" if has_ended else "assemble with THREAD, its default"
                name = it.name() or "without a name"
                what = f"the section {name} begins at 0, where lines before have bytes: {cause}"
                return [f": line {it.number}: {what}; the program refuses instructions that meet so as OVERLAP; {advice}"]
            names.add(it.name())
        has_bytes = has_bytes or it.is_instruction
        has_ended = has_ended or operation == "END"
    return []


def bare_ranges(rows: list[Row], text: bytes, ranges: Ranges) -> Iterator[str]:
    """The ranges of the text that stand on no line, but those of zeros, which are no instructions."""
    bare = bytearray(len(text))
    for begin, end in ranges:
        bare[begin:end] = b"\x01" * (end - begin)
    own = with_bytes(rows)
    for begin, end in extents(own):
        bare[begin:end] = bytes(len(bare[begin:end]))
    runs = [it.span() for it in re.finditer(rb"\x01+", bare)]
    runs = [(begin, end) for begin, end in runs if text[begin:end].strip(b"\0")]
    jumps = jumps_of(rows, own)
    for begin, end in runs[:MOST]:
        what = f"{bytes_of(end - begin)} of the object stand on no line{why_bare(begin, end, jumps)}"
        yield f": {begin:06X}-{end - 1:06X}: {what}"
    if len(runs) > MOST:
        left = sum(end - begin for begin, end in runs[MOST:])
        ranges_left = "1 more range" if len(runs) == MOST + 1 else f"{len(runs) - MOST} more ranges"
        yield f": {bytes_of(left)} more stand on no line, in {ranges_left}"


def bytes_of(count: int) -> str:
    return f"{count} byte" if count == 1 else f"{count} bytes"


def with_bytes(rows: list[Row]) -> list[Row]:
    """The rows that have bytes of the module; what a dummy section reserves is none of it."""
    found, kinds, is_dummy = [], dict[str, bool](), False
    for it in rows:
        operation = it.of_statement()
        if operation in SECTIONS or operation in OTHER_SECTIONS:
            is_dummy = kinds.setdefault(it.name(), operation in OTHER_SECTIONS)
        elif operation == "LOCTR":
            is_dummy = kinds.setdefault(it.name(), is_dummy)
        elif it.location is not None and it.size != 0 and (it.is_instruction or not is_dummy):
            found.append(it)
    return found


def extents(rows: list[Row]) -> Iterator[tuple[int, int]]:
    """Where the bytes of each row begin and end; those of a row that doesn't say so end where the next begin."""
    starts = sorted({it.location for it in rows if it.location is not None})
    for it in rows:
        if it.location is None:
            continue
        if it.size is not None:
            yield it.location, it.location + it.size
            continue
        at = bisect_right(starts, it.location)
        yield it.location, starts[at] if at < len(starts) else it.location + 8


def jumps_of(rows: list[Row], own: list[Row]) -> list[Jump]:
    """Where statement numbers are left out."""
    found: list[Jump] = []
    ends = {id(row): end for row, (_, end) in zip(own, extents(own))}
    before: Optional[Row] = None
    low, open_jumps = 0, list[Jump]()
    for it in rows:
        last_number = before.statement if before is not None else None
        if before is not None and last_number is not None and it.statement is not None and it.statement > last_number + 1:
            open_jumps.append(Jump(last_number + 1, it.statement - 1, before.number, macro_of(before), low, 0))
        if id(it) in ends and it.location is not None:
            found += [Jump(j.first, j.last, j.line, j.macro, j.low, it.location) for j in open_jumps]
            open_jumps, low = [], ends[id(it)]
        before = it if it.statement is not None else before
    last = [Jump(0, 0, rows[-1].number, "", low, 0)] if rows else []
    return found + [Jump(j.first, j.last, j.line, j.macro, j.low, END_OF_ADDRESSES) for j in [*open_jumps, *last]]


def macro_of(row: Row) -> str:
    """The macro that a row calls; empty where it calls none."""
    operation = row.of_statement()
    return operation if row.size == 0 and operation not in DIRECTIVES and operation not in OPERATIONS else ""


def why_bare(begin: int, end: int, jumps: list[Jump]) -> str:
    """Which statements are left out where a range would stand."""
    around = [it for it in jumps if it.low <= begin and end <= it.high]
    if not around:
        return ""
    it = next((jump for jump in around if jump.macro), around[0])
    if not it.last:
        return f": the listing ends with line {it.line}"
    which = f"statement {it.first} is" if it.first == it.last else f"statements {it.first} to {it.last} are"
    if it.macro:
        return f": {which} not printed, which the macro {it.macro} of line {it.line} generates: PRINT GEN prints such"
    return f": {which} missing behind line {it.line}"
