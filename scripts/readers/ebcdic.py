"""EBCDIC text, as object decks and listings have it."""
from __future__ import annotations

# Where code pages 037 and 1047 differ: each has its brackets and its caret at two of these codes, and elsewhere
# characters that ASCII lacks. So one table reads both.
EITHER_PAGE = {0xAD: "[", 0xBD: "]", 0xBA: "[", 0xBB: "]", 0x5F: "^", 0xB0: "^"}


def table_of(other: str) -> bytes:
    """The ASCII character of each EBCDIC code; the other one where ASCII has none that can be printed."""
    found = [EITHER_PAGE.get(code) or bytes([code]).decode("cp037") for code in range(256)]
    return "".join(it if " " <= it <= "~" else other for it in found).encode("ascii")


TEXT, DUMP = table_of("?"), table_of(".")


def to_ascii(text: bytes, table: bytes = TEXT) -> bytes:
    """The text in ASCII, a byte for a byte."""
    return text.translate(table)


def shown(text: bytes) -> str:
    """The text in ASCII, without the blanks at its end."""
    return to_ascii(text).decode("ascii").rstrip(" ")


def to_ebcdic(text: str) -> bytes:
    """Printed characters of ASCII in code page 037, a byte for each; 1047 differs in brackets and caret alone."""
    return text.encode("cp037")
