"""Object decks as the assembler writes them (HLASM Programmer's Guide, "Object Deck Output"): the text of their control
sections, laid out where the assembler's locations have them, and relocated.

A record is a card image of 80 bytes: X'02', three letters in EBCDIC, and fields at fixed columns.
"""
from __future__ import annotations

import re
from dataclasses import dataclass, field

from common.command import Fault
from readers.cards import check_module
from readers.ebcdic import shown

RECORD = 80
KINDS = {0x00: "SD", 0x01: "LD", 0x02: "ER", 0x04: "PC", 0x05: "CM", 0x0A: "WX"}
SECTIONS, REFERENCES = ("SD", "PC", "CM"), ("ER", "WX")
ITEM, ITEMS, MOST_DATA = 16, (16, 32, 48), 56
# How the first record begins, and how far behind it the next does: with four bytes more where a transfer has kept its length.
FIRST_LETTERS, RECORD_STEPS = b"\x02\xc5\xe2\xc4", (RECORD, RECORD + 4)
NAMES = ("ESD", "TXT", "RLD", "SYM", "END")
BEGINS = b"(?=\x02(?:" + b"|".join(it.encode("cp037") for it in NAMES) + b"))"
# What may part card images that went through a transfer of text.
LINE_ENDS = (b"\x0d\x0a", b"\x0d\x25", b"\x0a", b"\x15", b"\x25")
NO_ITEM, LETTERS = (b"\x40\x40", b"\x00\x00"), (*range(0xC1, 0xCA), *range(0xD1, 0xDA), *range(0xE2, 0xEA))


@dataclass
class Symbol:
    """An item of the external symbol dictionary: a section has its origin and its length, a label its section."""

    kind: str
    name: str
    place: str
    origin: int = 0
    length: int = 0
    section: int = 0
    at: int = 0


@dataclass
class Piece:
    """Text, or an address constant, of a section, with the record that has it."""

    place: str
    section: int
    address: int
    data: bytes = b""
    refers: int = 0
    length: int = 0
    is_negative: bool = False
    is_branch: bool = False


@dataclass
class Deck:
    """What the records of a deck say."""

    symbols: dict[int, Symbol] = field(default_factory=dict)
    labels: list[Symbol] = field(default_factory=list)
    texts: list[Piece] = field(default_factory=list)
    constants: list[Piece] = field(default_factory=list)


def is_deck(data: bytes) -> bool:
    """Whether the bytes begin as a record does: X'02', which begins no instruction, and three letters."""
    return len(data) >= 4 and data[0] == 0x02 and all(it in LETTERS for it in data[1:4])


def check_form(path: str, data: bytes) -> None:
    """Refuses what is an object, but no deck that can be read. None of its first bytes begins an instruction that is executed."""
    if data[:2] == b"\x03\xf0":
        raise Fault(path, "a generalized object file: assemble with the options OBJECT and NOGOFF")
    if data[:1] in (b"\x02", b".", b"?") and data[1:4] in (b"ESD", b"SYM", b"TXT"):
        raise Fault(path, "an object deck that was translated to ASCII: transfer it as binary")
    at = data.find(FIRST_LETTERS)
    if at > 0 and not is_deck(data) and any(data[at + it : at + it + 1] == b"\x02" for it in RECORD_STEPS):
        raise Fault(path, f"an object deck with {at} bytes before its first ESD record: transfer its card images of 80 bytes alone")


def number(data: bytes) -> int:
    """The number that big-endian bytes give."""
    return int.from_bytes(data, "big")


def read_deck(path: str, data: bytes) -> Deck:
    """Reads the records of a deck up to its END record, which is the last."""
    check_records(path, data)
    deck, readers = Deck(), {"ESD": read_symbols, "TXT": read_text, "RLD": read_constants}
    count = len(data) // RECORD
    for at in range(count):
        record, place = data[at * RECORD : (at + 1) * RECORD], f"{path}: record {at + 1}"
        name = shown(record[1:4])
        if record[0] != 0x02 or name not in NAMES:
            begins = record[:4].hex().upper()
            raise Fault(place, f"an unknown record, which begins {begins}: it is none of ESD, TXT, RLD, SYM and END")
        if name == "END":
            if at + 1 < count:
                raise Fault(f"{path}: record {at + 2}", "a record behind the END record")
            return deck
        if name != "SYM":
            readers[name](deck, place, record)
    raise Fault(f"{path}: record {count + 1}", "the END record is missing")


def check_records(path: str, data: bytes) -> None:
    """Refuses what is not made of card images alone."""
    rest = len(data) % RECORD
    whole = f", which is no multiple of {RECORD}" if rest else ""
    for end in LINE_ENDS:
        images = re.split(re.escape(end) + BEGINS, data)
        if len(images) > 1 and all(len(it) <= RECORD for it in [*images[:-1], images[-1].removesuffix(end)]):
            ends, advice = f"its card images end with line ends, X'{end.hex().upper()}'", "transfer it as binary, without line ends"
            raise Fault(path, f"an object deck of {len(data)} bytes{whole}: {ends}; {advice}")
    if rest:
        raise Fault(path, f"an object deck of {len(data)} bytes{whole}: its last record has {rest} bytes")


def ranges_of(deck: Deck) -> list[tuple[int, int]]:
    """Where the bytes of the module begin and end that the records have text for, once the sections have their places."""
    pieces = [(section_of(deck, it.place, it.section), it) for it in deck.texts]
    begins = [(section.at + it.address - section.origin, it) for section, it in pieces]
    return [(at, at + len(it.data)) for at, it in begins]


def data_of(place: str, record: bytes) -> bytes:
    """The bytes from column 17 on, as many as columns 11 and 12 say."""
    count = number(record[10:12])
    if count > MOST_DATA:
        raise Fault(place, f"a count of {count} bytes: a record has room for {MOST_DATA}")
    return record[16 : 16 + count]


def read_symbols(deck: Deck, place: str, record: bytes) -> None:
    """Reads one to three items of the external symbol dictionary. Labels have no number of their own."""
    items = data_of(place, record)
    if len(items) not in ITEMS:
        raise Fault(place, f"an ESD record of {len(items)} bytes: its items have {ITEM} bytes, and there are one to three")
    next_number = number(record[14:16])
    for at in range(0, len(items), ITEM):
        symbol = symbol_of(place, items[at : at + ITEM])
        if symbol.kind == "LD":
            deck.labels.append(symbol)
            continue
        if record[14:16] in NO_ITEM or next_number in deck.symbols:
            raise Fault(place, f"the symbol {symbol.name or '(blank)'} has no number, or that of another")
        deck.symbols[next_number] = symbol
        next_number += 1


def symbol_of(place: str, item: bytes) -> Symbol:
    """The symbol that an item of 16 bytes states."""
    name, kind = shown(item[:8]), KINDS.get(item[8])
    if kind is None:
        raise Fault(place, f"the symbol {name or '(blank)'} is of type {item[8]:02X}, which is none of SD, LD, ER, PC, CM and WX")
    address = number(item[9:12])
    if kind in SECTIONS:
        return Symbol(kind, name, place, origin=address, length=number(item[13:16]))
    return Symbol(kind, name, place, origin=address, section=number(item[14:16]) if kind == "LD" else 0)


def read_text(deck: Deck, place: str, record: bytes) -> None:
    """Reads the text of a section from an address on."""
    deck.texts.append(Piece(place, number(record[14:16]), number(record[5:8]), data_of(place, record)))


def read_constants(deck: Deck, place: str, record: bytes) -> None:
    """Reads the address constants: each an item of 8 bytes, or of 4 where the item before says that its first four
    bytes, the numbers of the symbol and of the section, hold here too."""
    items, at, is_chained, refers, section = data_of(place, record), 0, False, 0, 0
    while at < len(items):
        size = 4 if is_chained else 8
        item = items[at : at + size]
        if len(item) < size:
            raise Fault(place, f"an item of the relocation dictionary is cut short: {len(item)} bytes of {size}")
        if not is_chained:
            refers, section = number(item[0:2]), number(item[2:4])
        flags, address = item[-4], number(item[-3:])
        deck.constants.append(Piece(place, section, address, b"", refers, length_of(place, flags), bool(flags & 2), flags >> 4 == 1))
        is_chained, at = bool(flags & 1), at + size
    if is_chained:
        raise Fault(place, "the last item of the relocation dictionary says that another follows, and none does")


def length_of(place: str, flags: int) -> int:
    """The bytes of an address constant, 3 or 4, by its flags."""
    if flags >> 4 not in (0, 1):
        raise Fault(place, f"an address constant with the flags {flags:02X}: it is neither an A nor a V constant")
    length = (flags >> 2 & 3) + 1
    if length < 3:
        raise Fault(place, f"an address constant of {length} bytes: those of 3 and 4 can be relocated")
    return length


def text_of(path: str, deck: Deck, base: int, given: dict[str, int]) -> bytes:
    """The module of the deck at this base: its sections' text, each constant with the addresses that it stands for. Names that
    other modules define have the addresses that are given."""
    size = lay_out(path, deck)
    check_module(path, base, size)
    addresses = addresses_of(deck, base, given)
    text = bytearray(size)
    for piece in deck.texts:
        put(deck, piece, text)
    for piece in deck.constants:
        relocate(deck, piece, text, addresses)
    return bytes(text)


def lay_out(path: str, deck: Deck) -> int:
    """Gives each section its place, and answers the size of all, made even. A section stands at its origin, as the listing has
    it, or, where another reaches past that, at the next doubleword behind. A common section, whose origin is 0, comes last."""
    sections = [(it.kind == "CM", it.origin, number) for number, it in deck.symbols.items() if it.kind in SECTIONS]
    if not sections:
        raise Fault(path, "an object deck without a section")
    end = 0
    for _, origin, number in sorted(sections):
        symbol = deck.symbols[number]
        symbol.at = max(origin, (end + 7) // 8 * 8)
        end = symbol.at + symbol.length
    return end + end % 2


def section_of(deck: Deck, place: str, section: int) -> Symbol:
    """The section of that number."""
    symbol = deck.symbols.get(section)
    if symbol is None or symbol.kind not in SECTIONS:
        raise Fault(place, f"there is no section with the number {section}")
    return symbol


def put(deck: Deck, piece: Piece, text: bytearray) -> None:
    """Puts a piece of text where its section stands. Text behind an ORG back to bytes that have text takes their place."""
    offset = offset_in(piece, section_of(deck, piece.place, piece.section), len(piece.data), "text")
    text[offset : offset + len(piece.data)] = piece.data


def offset_in(piece: Piece, section: Symbol, length: int, what: str) -> int:
    """Where a piece stands in the module, all of it in its section."""
    offset = piece.address - section.origin
    if offset < 0 or offset + length > section.length:
        name, at = section.name or "a section", f"{piece.address:06X}"
        whole = f"{name} has {section.length} bytes from {section.origin:06X} on"
        raise Fault(piece.place, f"{what} past the section: {length} bytes from {at} on, and {whole}")
    return section.at + offset


def addresses_of(deck: Deck, base: int, given: dict[str, int]) -> dict[int, int]:
    """What is added for each symbol: how far its section has moved, or where what it refers to stands."""
    for name in given:
        if name not in (it.name for it in deck.symbols.values() if it.kind in REFERENCES):
            raise Fault(f"{name}={given[name]:06X}", f"the deck has no external reference {name}")
    defined = exports_of(deck, base, given)
    return {of: address_of(symbol, defined, base) for of, symbol in deck.symbols.items()}


def exports_of(deck: Deck, base: int, given: dict[str, int]) -> dict[str, int]:
    """The addresses of the names of sections and labels, once the sections have their places, beside those that are given."""
    defined = dict(given)
    for symbol in deck.symbols.values():
        if symbol.kind in SECTIONS and symbol.name:
            define(defined, symbol, base + symbol.at)
    for label in deck.labels:
        section = section_of(deck, label.place, label.section)
        define(defined, label, base + section.at + label.origin - section.origin)
    return defined


def define(defined: dict[str, int], symbol: Symbol, address: int) -> None:
    """Notes where a name stands; no name is defined twice."""
    if symbol.name in defined:
        raise Fault(symbol.place, f"{symbol.name} is defined twice")
    defined[symbol.name] = address


def address_of(symbol: Symbol, defined: dict[str, int], base: int) -> int:
    """What is added for a symbol; 0 for a weak reference that nothing defines."""
    if symbol.kind in SECTIONS:
        return base + symbol.at - symbol.origin
    if symbol.name not in defined and symbol.kind == "ER":
        raise Fault(symbol.place, f"nothing defines the external reference {symbol.name}: give its address, as {symbol.name}=180000")
    return defined.get(symbol.name, 0)


def relocate(deck: Deck, piece: Piece, text: bytearray, addresses: dict[int, int]) -> None:
    """Adds to an address constant what its symbol has moved by, or subtracts it."""
    section = section_of(deck, piece.place, piece.section)
    if piece.refers not in addresses:
        raise Fault(piece.place, f"an address constant of the symbol {piece.refers}, which no ESD record has")
    offset = offset_in(piece, section, piece.length, "an address constant")
    end, change = offset + piece.length, addresses[piece.refers]
    if piece.is_branch and deck.symbols[piece.refers].kind in SECTIONS:
        # A V constant holds nothing of its section's origin.
        change += deck.symbols[piece.refers].origin
    value = number(text[offset:end]) + (-change if piece.is_negative else change)
    text[offset:end] = (value % 256**piece.length).to_bytes(piece.length, "big")
