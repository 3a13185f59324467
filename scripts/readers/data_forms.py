"""Forms that data may have in the files of `coverage job` (docs/JOB.md, "Data in other forms")."""
from __future__ import annotations

import os
import re
from typing import Optional

from common.command import reason
from readers.cards import MOST_BYTES, Broken, number_of
from readers.ebcdic import to_ebcdic

# A card with a form in place of its bytes: its front, the form, and what stands behind it.
CARD = re.compile(rb"(INPUT|DATA ([^ ]*)) (TEXT|TEXT-ASCII|FILE|PACKED|FULL)(?: ([^\n]*))?")
NO_NUMBER = "is no whole number: decimal digits, with + or - before them or nothing"
LEAST_WORD, END_OF_WORDS = -(2**31), 2**32
LONGEST_PACKED = 16
# The bytes of a file that can stand in a job of 16,777,216 bytes, two digits each.
LARGEST_FILE = 8_388_608


def bytes_of(form: bytes, text: Optional[bytes], folder: str) -> bytes:
    """The bytes of what stands behind a form; files are found from the folder on."""
    if form == b"FILE":
        return file_bytes(text or b"", folder)
    word = (text or b"").decode("ascii", "replace")
    if form in (b"TEXT", b"TEXT-ASCII"):
        characters = quoted(form.decode(), word)
        return to_ebcdic(characters) if form == b"TEXT" else characters.encode("ascii")
    return packed(word.split(" ")) if form == b"PACKED" else b"".join(fullword(it) for it in word.split(" "))


def quoted(form: str, text: str) -> str:
    """The characters between quotes, each doubled quote one."""
    if not text.startswith("'"):
        raise Broken(f"the text of {form} stands between quotes, as {form} 'FIRST  0012'")
    found = re.match("'((?:[^']|'')*)'(?!')", text)
    if not found:
        raise Broken(f"no quote ends the text of {form}; a quote within it is doubled")
    if found.end() < len(text):
        behind = repr(text[found.end() :][:20])
        raise Broken(f"{behind} stands behind the quote that ends the text of {form}; a quote within it is doubled")
    other = next((it for it in found[1] if not " " <= it <= "~"), None)
    if other is not None:
        what = "a control character" if other < " " or other == "\x7f" else "a character that ASCII lacks"
        raise Broken(f"the text of {form} has {what}; give such bytes as hexadecimal digits, or by FILE")
    return found[1].replace("''", "'")


def packed(words: list[str]) -> bytes:
    """A packed decimal number of so many bytes: its digits, and the sign C of plus or D of minus."""
    if len(words) != 2:
        raise Broken("PACKED has a value and its length in bytes, as PACKED -123 5")
    value, length = words[0], number_of(words[1], "length")
    if not re.fullmatch("[+-]?[0-9]+", value):
        raise Broken(f"the value {value or '(none)'} {NO_NUMBER}")
    if not 1 <= length <= LONGEST_PACKED:
        raise Broken(f"the length {length}: a packed number has 1 to {LONGEST_PACKED} bytes")
    digits, room = value.lstrip("+-").lstrip("0"), 2 * length - 1
    if len(digits) > room:
        what = "1 byte has" if length == 1 else f"{length} bytes have"
        raise Broken(f"the value {value} has {len(digits)} digits; {what} room for {room}")
    return bytes.fromhex(digits.rjust(room, "0") + ("D" if value.startswith("-") else "C"))


def fullword(word: str) -> bytes:
    """A whole number as four bytes."""
    if not re.fullmatch("[+-]?[0-9]+", word):
        raise Broken(f"the value {word or '(none)'} {NO_NUMBER}")
    digits = word.lstrip("+-").lstrip("0") or "0"
    value = int(digits[:20]) * (-1 if word.startswith("-") else 1)
    if not LEAST_WORD <= value < END_OF_WORDS:
        raise Broken(f"the value {word[:40]} is none of {LEAST_WORD} to {END_OF_WORDS - 1}, which four bytes hold")
    return (value % END_OF_WORDS).to_bytes(4, "big")


def file_bytes(name: bytes, folder: str) -> bytes:
    """The bytes of a file, as they stand."""
    if not name.strip():
        raise Broken("FILE has the name of a file behind it")
    path = os.path.join(folder or ".", os.fsdecode(name))
    try:
        with open(path, "rb") as file:
            data = file.read(LARGEST_FILE + 1)
    except (OSError, ValueError) as error:
        raise Broken(f"{path}: {reason(error)}") from None
    if len(data) > LARGEST_FILE:
        raise Broken(f"{path}: more than {LARGEST_FILE} bytes, which no job has room for")
    return data


def input_cards(data: bytes) -> bytes:
    """The INPUT cards of the bytes; none where there are none."""
    parts = (data[at : at + MOST_BYTES] for at in range(0, len(data), MOST_BYTES))
    return b"".join(b"INPUT %s\n" % it.hex().upper().encode() for it in parts)


def data_cards(offset: int, data: bytes) -> bytes:
    """The DATA cards of the bytes from an offset on; none where there are none."""
    parts = ((offset + at, data[at : at + MOST_BYTES]) for at in range(0, len(data), MOST_BYTES))
    return b"".join(b"DATA %d %s\n" % (at, it.hex().upper().encode()) for at, it in parts)
