"""The values of job cards with their rules and limits (docs/JOB.md), and the cards that the scripts write."""
from __future__ import annotations

import re
from typing import Optional

from common.command import Fault

NAME, NUMBER = re.compile(r"[A-Z@#$][A-Z@#$0-9]{0,7}"), re.compile(r"0|[1-9][0-9]{0,8}")
HEXADECIMAL = "0123456789ABCDEFabcdef"
LOWEST_BASE, END_OF_MODULES = 0x100000, 0xFFF000
BYTES_A_CARD, MOST_BYTES = 32, 64
# The most of each; of INPUT the bytes of a job, of LINE those of a listing line.
LIMITS = {
    "INPUT": 16_777_216, "MODULES": 16, "SIZE": 262_144, "LINE": 150, "PHASES": 16, "SESSIONS": 16, "TASKS": 64,
    "PRIVATE": 1_048_576, "BUDGET": 50_000_000, "ROOM": 65_536,
}
NAME_RULE = "a name is 1 to 8 characters, the first of A to Z, @, #, $, the others of these or digits"
NUMBER_RULE = "a number is 1 to 9 decimal digits, without a leading zero but for 0 itself"
BYTES_RULE = f"bytes are an even number of hexadecimal digits, for 1 to {MOST_BYTES} bytes"


class Broken(Exception):
    """Which rule is broken, in words, and of a limit that is passed its name."""

    def __init__(self, what: str, limit: str = "") -> None:
        super().__init__(what)
        self.limit = limit


def name_of(word: str, of: str = "name") -> str:
    """The word, which is a name."""
    if NAME.fullmatch(word):
        return word
    if NAME.fullmatch(word.upper()):
        why = "is in lower case"
    elif len(word) > 8:
        why = f"has {len(word)} characters"
    elif not word:
        why = "is empty"
    elif word[0] in "0123456789":
        why = "begins with a digit"
    else:
        why = f"has the character {next(it for it in word if not NAME.fullmatch('A' + it.upper()))!r}"
    raise Broken(f"the {of} {word or '(none)'} {why}; {NAME_RULE}")


def number_of(word: str, of: str) -> int:
    """The number that the word spells."""
    if NUMBER.fullmatch(word):
        return int(word)
    if not re.fullmatch("[0-9]+", word):
        why = "is no number"
    else:
        why = "has a leading zero" if word.startswith("0") else f"has {len(word)} digits"
    raise Broken(f"the {of} {word} {why}; {NUMBER_RULE}")


def digits_of(word: str, of: str, count: int, rule: str) -> int:
    """What so many hexadecimal digits spell."""
    other = next((it for it in word if it not in HEXADECIMAL), None)
    if other is not None:
        raise Broken(f"the {of} {word} has {other!r}, which is no hexadecimal digit; {rule}")
    if len(word) != count:
        raise Broken(f"the {of} {word} has {len(word)} {'digit' if len(word) == 1 else 'digits'}; {rule}")
    return int(word, 16)


def address_of(word: str, of: str) -> int:
    """The address that the word spells."""
    return digits_of(word, of, 6, "an address is six hexadecimal digits")


def check_bytes(word: str) -> int:
    """How many bytes the hexadecimal digits are."""
    other = next((it for it in word if it not in HEXADECIMAL), None)
    if other is not None:
        raise Broken(f"the bytes have {other!r}, which is no hexadecimal digit; {BYTES_RULE}")
    if len(word) % 2:
        raise Broken(f"the bytes have {len(word)} {'digit' if len(word) == 1 else 'digits'}, an odd number; {BYTES_RULE}")
    if not 2 <= len(word) <= 2 * MOST_BYTES:
        raise Broken(f"{len(word) // 2} bytes; {BYTES_RULE}")
    return len(word) // 2


def base_of(word: str) -> int:
    """The address that the word spells, where a module can begin there."""
    base = address_of(word, "base")
    if base % 8:
        raise Broken(f"the base {word} is no multiple of 8")
    if base < LOWEST_BASE:
        raise Broken(f"the base {word} is below {LOWEST_BASE:06X}, where modules begin")
    return base


def check_size(base: int, size: int) -> None:
    """Refuses a size that no module can have at this base, but for the limit."""
    if size < 2:
        raise Broken(f"a module of {size} {'byte' if size == 1 else 'bytes'}: the least size is 2")
    if size % 2:
        raise Broken(f"a module of {size} bytes: the size is odd")
    if base + size > END_OF_MODULES:
        raise Broken(f"a module of {size} bytes at {base:06X} goes past {END_OF_MODULES:06X}")


def check_service(number: int) -> None:
    """Refuses the number of an SVC that no service can answer."""
    if number > 255:
        raise Broken(f"there is no SVC {number}; they are 0 to 255")
    if 1 <= number <= 5:
        raise Broken(f"SVC {number} is a call of the task's own, and no service answers it; those of services are 0 and 6 to 254")
    if number == 255:
        raise Broken("SVC 255 is the breakpoint's own, and no service answers it; those of services are 0 and 6 to 254")


def check_limit(name: str, value: int, of: str) -> None:
    """Refuses a value past its limit."""
    if value > LIMITS[name]:
        raise Broken(f"{of} {value}: the limit {name} is {LIMITS[name]}", name)


def check_module(place: str, base: int, size: int) -> None:
    """Refuses a size that no MODULE card can have at this base, for what stands at that place."""
    try:
        check_size(base, size)
        check_limit("SIZE", size, "the size is")
    except Broken as broken:
        raise Fault(place, str(broken)) from None


def service_cards(entries: dict[int, int]) -> bytes:
    """The SERVICE cards of these entries by their numbers."""
    return b"".join(f"SERVICE {number} {entry:06X}\n".encode() for number, entry in sorted(entries.items()))


def module_cards(name: str, base: int, text: bytes, listing: Optional[list[bytes]]) -> bytes:
    """The MODULE card of the bytes, their TEXT cards, and the listing behind its card, where there is one."""
    lines = [f"MODULE {name} {base:06X} {len(text)}".encode()]
    for at in range(0, len(text), BYTES_A_CARD):
        lines.append(b"TEXT " + text[at : at + BYTES_A_CARD].hex().upper().encode())
    if listing is not None:
        lines += [f"LISTING {len(listing)}".encode(), *listing]
    return b"".join(it + b"\n" for it in lines)
