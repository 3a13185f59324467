"""What an assembly is written as: an object deck, and a listing."""
from __future__ import annotations

from dataclasses import dataclass
from typing import Iterator, Optional

from developer.assembler.constants import Reference
from developer.assembler.expressions import Section, Value
from developer.assembler.statements import Assembly, Statement
from readers.listing import NARROW, WIDE, Columns
from readers.operations import OPERATIONS

TEXT_BYTES, LINES_A_PAGE = 56, 55


@dataclass(frozen=True)
class Style:
    """How wide a listing is with its print control characters, its columns, and the digits of an address that they show."""

    record: int
    columns: Columns
    digits: int


STYLES = {"narrow": Style(121, NARROW, 5), "wide": Style(133, WIDE, 8)}


def record(kind: str, fields: dict[int, bytes], number: int) -> bytes:
    """A card image: X'02', its letters, fields by their column, and its number in columns 73 to 80."""
    card = bytearray(b"\x40" * 80)
    card[0:4] = b"\x02" + kind.encode("cp037")
    for column, data in fields.items():
        card[column - 1 : column - 1 + len(data)] = data
    card[72:80] = f"{number:08}".encode("cp037")
    return bytes(card)


def control_sections(assembly: Assembly) -> list[Section]:
    """The sections that have text."""
    return [it for it in assembly.sections.values() if not it.is_dummy]


def number_of(assembly: Assembly, name: str, is_external: bool) -> int:
    """The number of a section, or of an external name: these follow the sections."""
    if is_external:
        return len(control_sections(assembly)) + 1 + externals(assembly).index(name)
    return assembly.sections[name].number


def externals(assembly: Assembly) -> list[str]:
    """The names of EXTRN and of V constants, in their order: external also where the deck has a section of the name."""
    referred = [it.refers for statement in assembly.statements for it in statement.references if it.is_external]
    return list(dict.fromkeys([*assembly.externals, *referred]))


def eight(name: str) -> bytes:
    """A name as a deck has it."""
    return name.ljust(8).encode("cp037")


def section_number(assembly: Assembly, value: Value) -> int:
    """The number of the section that an address is in."""
    return assembly.sections[value.section or ""].number


def symbol_items(assembly: Assembly) -> Iterator[tuple[int, bytes]]:
    """The items of the external symbol dictionary, each with its number, 0 of a label."""
    for section in control_sections(assembly):
        origin, size = section.origin.to_bytes(3, "big"), section.size.to_bytes(3, "big")
        yield section.number, eight(section.name) + b"\x00" + origin + b"\x00" + size
    for name in externals(assembly):
        yield number_of(assembly, name, True), eight(name) + b"\x02" + b"\x40" * 7
    for name in assembly.entries:
        value = assembly.symbols[name]
        address, number = assembly.number_of(value).to_bytes(3, "big"), section_number(assembly, value).to_bytes(3, "big")
        yield 0, eight(name) + b"\x01" + address + b"\x40" + number


def text_runs(assembly: Assembly) -> Iterator[tuple[int, int, bytes]]:
    """The text as runs of bytes without a gap, each with its section's number and its address."""
    with_text = [(it.at, it.data) for it in assembly.statements if it.at and it.data]
    pieces = [(assembly.number_of(at), section_number(assembly, at), data) for at, data in with_text]
    begun, section, run = 0, 0, b""
    for address, number, data in sorted(pieces):
        if (number, address) != (section, begun + len(run)):
            yield section, begun, run
            begun, section, run = address, number, b""
        run += data
    yield section, begun, run


def constants(assembly: Assembly) -> list[tuple[int, int, int, Reference]]:
    """The address constants: the numbers of what they refer to and of their section, and their address."""
    found = []
    for statement in assembly.statements:
        if statement.at is None:
            continue
        for it in statement.references:
            at = assembly.number_of(statement.at) + it.offset
            found.append((number_of(assembly, it.refers, it.is_external), section_number(assembly, statement.at), at, it))
    return sorted(found, key=lambda it: it[:3])


def constant_items(assembly: Assembly) -> list[bytes]:
    """The items of the relocation dictionary; one with the same two numbers as the item before leaves them out."""
    found, items = constants(assembly), []
    for at, (refers, section, address, it) in enumerate(found):
        is_same = at > 0 and found[at - 1][:2] == (refers, section)
        is_followed = at + 1 < len(found) and found[at + 1][:2] == (refers, section)
        flags = 0x10 * it.is_external | (it.length - 1) << 2 | is_followed
        head = b"" if is_same else refers.to_bytes(2, "big") + section.to_bytes(2, "big")
        items.append(head + bytes([flags]) + address.to_bytes(3, "big"))
    return items


def deck(assembly: Assembly) -> bytes:
    """The object deck."""
    cards: list[tuple[str, dict[int, bytes]]] = []
    for number, item in symbol_items(assembly):
        cards.append(("ESD", {11: b"\x00\x10", 15: number.to_bytes(2, "big") if number else b"\x40\x40", 17: item}))
    for section, address, data in text_runs(assembly):
        for at in range(0, len(data), TEXT_BYTES):
            part = data[at : at + TEXT_BYTES]
            where = (address + at).to_bytes(3, "big")
            cards.append(("TXT", {6: where, 11: len(part).to_bytes(2, "big"), 15: section.to_bytes(2, "big"), 17: part}))
    items = b"".join(constant_items(assembly))
    if len(items) > TEXT_BYTES:
        raise ValueError("more address constants than one record holds")
    if items:
        cards.append(("RLD", {11: len(items).to_bytes(2, "big"), 17: items}))
    cards.append(("END", {6: b"\x00\x00\x00", 15: b"\x00\x01"}))
    return b"".join(record(kind, fields, at) for at, (kind, fields) in enumerate(cards, 1))


def object_columns(statement: Statement) -> str:
    """What the columns of object code show: halfwords of an instruction, else the first eight bytes."""
    digits = statement.data.hex().upper()
    if statement.operation in OPERATIONS:
        return " ".join(digits[at : at + 4] for at in range(0, len(digits), 4))
    return digits[:16]


def listing_line(assembly: Assembly, statement: Statement, number: int, style: Style) -> str:
    """A line of the listing behind its print control character."""
    columns = style.columns
    addresses = columns.statement.start - 2 * (style.digits + 1)
    line = [" "] * columns.source

    def put(at: int, text: str) -> None:
        line[at : at + len(text)] = text

    def put_address(which: int, address: Optional[int]) -> None:
        if address is not None:
            put(addresses + which * (style.digits + 1), f"{address:0{style.digits}X}")

    if statement.using:
        put(columns.object_code.start + 9, statement.using)
    elif statement.at:
        put(0, f"{assembly.shown(statement.at):0{columns.location.stop}X}")
        put(columns.object_code.start, object_columns(statement))
    is_section = statement.operation == "CSECT"
    put_address(0, 0 if is_section else statement.first)
    put_address(1, assembly.sections[statement.name].size if is_section else statement.second)
    put(columns.statement.start, f"{number:>5}{'+' * statement.is_generated}")
    return "".join(line) + statement.text


def listing(assembly: Assembly, title: str, style: Style) -> list[str]:
    """The listing's lines, each with a print control character, in pages."""
    lines: list[str] = []
    for number, statement in enumerate(assembly.statements, 1):
        if (number - 1) % LINES_A_PAGE == 0:
            page = (number - 1) // LINES_A_PAGE + 1
            lines += [f"1{title:<{style.record - 12}}Page {page:>4}", f"0  {style.columns.heading.decode()}"]
        lines.append(f" {listing_line(assembly, statement, number, style)}"[: style.record])
    return lines
