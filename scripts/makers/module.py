"""Writes the cards of a module from its object and its listing."""
from __future__ import annotations

import re
from dataclasses import dataclass
from typing import Callable, Optional, TypeVar

from common.command import BAD_INPUT, Fault, UsageError, complain, one_line, read_file, write_output
from makers.listing_warnings import Ranges, warnings_of
from readers.cards import Broken, base_of, check_module, check_service, module_cards, name_of, service_cards
from readers.listing import is_listing, read_listing
from readers.object_deck import check_form, exports_of, is_deck, ranges_of, read_deck, text_of

HELP = """\
Writes the cards MODULE, TEXT and LISTING of a module.

  NAME     its name in the job: 1 to 8 characters of A to Z, @, #, $ and, behind the first, digits
  BASE     where it is to stand: six hexadecimal digits, a multiple of 8, 100000 or above
  OBJECT   a file with its bytes, or an object deck: card images of 80 bytes, the records ESD, TXT, RLD and END in
           EBCDIC (SYM is passed over), each with X'02' before it. The sections of a deck stand at their origins, or
           where these are taken at the next doubleword behind, and common ones last. Bytes without text are zero, of
           text that comes twice the later one counts, and address constants of 3 and 4 bytes are relocated to BASE. A
           size that is odd gets a byte of zero behind it, in a deck
  LISTING  a file with its listing, narrow or wide (docs/LISTING.md), in ASCII lines, or in EBCDIC (code page 037 or
           1047), as lines or as records of 121 or 133 bytes. A location is an offset from BASE. Lines are cut to
           150 bytes, and what ASCII lacks becomes ?. Without it the module runs, and nothing of it is monitored
  SYMBOL   an external reference of the deck, with the six hexadecimal digits of the address at which another module
           has what it names

What is wrong is said on standard error, with its file and record or line; then the status is 2, and nothing is
written. What the listing seems to lack is warned of there, and the cards are written all the same: pages whose numbers
jump, a missing END, bytes of the object that stand on no line, with what PRINT NOGEN leaves out, lines that look like
instructions but whose columns are off, a section that begins at 0 again (docs/LISTING.md, "What module warns of").
Coverage of such a listing is better than that of the program. Warned of are too instruction lines with other bytes than
the object, as of another assembly, whose listing the program refuses; and SVC 1, 2, 4 and 5 of macros, as of WAIT, POST
and GETMAIN: they write, read, and open and close sessions here.

  --strict    refuses the listing where there is something to warn of, with the status 2
  --services  writes behind them the SERVICE cards of the names that the deck exports, sections' and of ENTRY, and that
              are SVC and three digits, as SVC010: the routines there answer these supervisor calls. They stand behind
              the last module of a job, so this module is to be its last

The program that reads the cards compares each instruction line with the bytes. This script is not proved.
"""

SERVICE = re.compile("SVC[0-9]{3}")
GIVEN = re.compile(r"([A-Z@#$_][A-Z@#$_0-9]{0,7})=([0-9A-Fa-f]{6})")
OPTIONS = {"--strict": "stands before NAME, once", "--services": "stands behind all other words, once"}
WORDS = "the words are NAME BASE OBJECT LISTING"
Value = TypeVar("Value")


@dataclass
class Object:
    """What an object is: the bytes of a module, which of them are text, and the addresses of the names that it exports."""

    text: bytes
    ranges: Ranges
    exports: dict[str, int]


def object_from(path: str, data: bytes, base: int, given: dict[str, int], wants_services: bool) -> Object:
    """The module that the bytes are, or that their records say."""
    check_form(path, data)
    if is_deck(data):
        deck = read_deck(path, data)
        text = text_of(path, deck, base, given)
        return Object(text, ranges_of(deck), exports_of(deck, base, {}))
    check_no_text(path, data)
    if given:
        raise Fault(path, "no object deck, which alone has external references")
    if wants_services:
        raise Fault(path, "no object deck, which alone has names of services")
    check_module(path, base, len(data))
    return Object(data, [(0, len(data))], {})


def services_of(path: str, exports: dict[str, int]) -> dict[int, int]:
    """The entries of services among the addresses of names, by their numbers."""
    found = {int(name[3:]): address for name, address in exports.items() if SERVICE.fullmatch(name)}
    if not found:
        raise Fault(path, "the deck exports no name of a service: these are SVC and three digits, as SVC010")
    for number in sorted(found):
        try:
            check_service(number)
        except Broken as broken:
            raise Fault(path, f"the deck exports SVC{number:03}: {broken}") from None
    return found


def check_no_text(path: str, data: bytes) -> None:
    """Refuses a listing, cards and a text of other kinds in the place of an object; no program begins so, or is lines of ASCII."""
    if data.startswith((b"MODULE ", b"COVERJOB ")):
        raise Fault(path, f"cards of a job, and no object; {WORDS}")
    if is_listing(data):
        raise Fault(path, f"a listing, and no object; {WORDS}")
    if data.endswith(b"\n") and re.fullmatch(rb"[\t\r\n -~]+", data):
        raise Fault(path, f"lines of text, and no object: neither a module's bytes nor an object deck; {WORDS}")


def listing_from(path: str, data: bytes) -> list[bytes]:
    """The lines of a listing."""
    if is_deck(data):
        raise Fault(path, f"an object deck, and no listing; {WORDS}")
    return read_listing(path, data)


def addresses(words: list[str]) -> dict[str, int]:
    """What the words behind all others give, by name."""
    given: dict[str, int] = {}
    for it in words:
        found = GIVEN.fullmatch(it)
        if found is None or found[1] in given:
            what = "gives a second address" if found else "is no SYMBOL=ADDRESS, whose address is six hexadecimal digits"
            raise UsageError(f"{it} {what}")
        given[found[1]] = int(found[2], 16)
    return given


def value_of(read: Callable[[str], Value], word: str, what: str, other: str) -> Value:
    """What is read of a word; where it can't be, and could where another word stands, they were exchanged."""
    try:
        return read(word)
    except Broken as broken:
        raise Fault(what, f"{broken}{exchanged(read, other)}") from None


def exchanged(read: Callable[[str], Value], other: str) -> str:
    """Whether the other word would do."""
    try:
        read(other)
    except Broken:
        return ""
    return f"; NAME and BASE seem to be exchanged: {WORDS}"


def warn(path: str, warnings: list[str], is_strict: bool) -> None:
    """Says what the listing seems to lack, and refuses it where that is asked for."""
    for it in warnings:
        complain(one_line(f"coverage: warning: {it}"))
    if warnings and is_strict:
        raise Fault(path, "--strict refuses what is warned of", BAD_INPUT)


def main(words: list[str]) -> None:
    is_strict = words[:1] == ["--strict"]
    wants_services = words[-1:] == ["--services"]
    words = words[is_strict : len(words) - wants_services]
    for it in words:
        if it.startswith("--"):
            raise UsageError(f"{it} {OPTIONS.get(it, 'is none of its options')}")
    if len(words) < 3:
        raise UsageError
    has_listing = len(words) > 3 and not GIVEN.fullmatch(words[3])
    given = addresses(words[4:] if has_listing else words[3:])
    name, base = value_of(name_of, words[0], "NAME", words[1]), value_of(base_of, words[1], "BASE", words[0])
    found = object_from(words[2], read_file(words[2]), base, given, wants_services)
    services = services_of(words[2], found.exports) if wants_services else {}
    listing: Optional[list[bytes]] = None
    if has_listing:
        listing = listing_from(words[3], read_file(words[3]))
        warn(words[3], warnings_of(words[3], listing, found.text, found.ranges), is_strict)
    write_output(module_cards(name, base, found.text, listing) + service_cards(services))
