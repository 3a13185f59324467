"""How many bytes the constants of DC, DS and literals take (HLASM Language Reference, "DC instruction"), where their operands
say so in plain numbers."""
from __future__ import annotations

import re
from typing import Optional

CONSTANT = re.compile(r"([0-9]*)([ABCDEFHJLPQSVXYZ])([ABDEHU]?)(?:L([0-9]+))?", re.I)
# The bytes, and the boundary, of each type that has them by itself; with D behind it 8, of extended floating point 16.
NATURAL = {"A": 4, "D": 8, "E": 4, "F": 4, "H": 2, "J": 4, "L": 16, "Q": 4, "S": 2, "V": 4, "Y": 2}
QUOTED = re.compile("'((?:[^']|'')*)'")
ATTRIBUTE = re.compile(r"(?<![A-Z0-9@#$_])[LTKNSID]'(?=[A-Z@#$_&])", re.I)



def size_of(operands: str, location: int) -> Optional[int]:
    """The bytes of the operands at this location, those skipped for alignment between them included; None where they don't say."""
    at, end = 0, location
    while True:
        found = CONSTANT.match(operands, at)
        if not found:
            return None
        value = value_at(operands, found.end())
        if value is None:
            return None
        text, at = value
        size = sizes(found, text)
        if size is None:
            return None
        count, each, boundary = size
        end = -(-end // boundary) * boundary + count * each
        if at == len(operands) or operands[at] == " ":
            return end - location
        if operands[at] != ",":
            return None
        at += 1


def value_at(operands: str, at: int) -> Optional[tuple[Optional[str], int]]:
    """The value that begins there, between quotes or parentheses, where there is one, and where it ends; None of one that isn't
    closed, or holds what can't be told here."""
    if operands[at : at + 1] == "'":
        found = QUOTED.match(operands, at)
        return (found[1].replace("''", "'"), found.end()) if found else None
    if operands[at : at + 1] != "(":
        return None, at
    plain = ATTRIBUTE.sub(lambda it: " " * len(it[0]), operands)
    depth, end = 0, at
    while end < len(operands):
        depth += (plain[end] == "(") - (plain[end] == ")")
        if plain[end] in "'\"":
            return None
        end += 1
        if depth == 0:
            return operands[at + 1 : end - 1], end
    return None


def sizes(found: re.Match[str], text: Optional[str]) -> Optional[tuple[int, int, int]]:
    """How often a constant comes, the bytes of each value together, and its boundary."""
    count = int(found[1]) if found[1] else 1
    kind, extension = found[2].upper(), found[3].upper()
    if text is not None and re.search("(?<!&)(?:&&)*&(?!&)", text):
        return None
    values = [] if text is None else [text] if kind == "C" else split(text)
    if found[4]:
        return count, int(found[4]) * max(1, len(values)), 1
    if kind in NATURAL:
        own = 8 if extension == "D" and kind in "AFJQV" else NATURAL[kind]
        return count, own * max(1, len(values)), min(own, 8)
    return count, sum(plain_size(kind, extension, it) for it in values) if values else 1, 1


def plain_size(kind: str, extension: str, value: str) -> int:
    """The bytes of a value whose text gives its length."""
    if kind == "C":
        return len(value.replace("&&", "&")) * (2 if extension == "U" else 1)
    digits = sum(it.isalnum() for it in value)
    return {"X": (digits + 1) // 2, "B": (digits + 7) // 8, "P": digits // 2 + 1, "Z": digits}[kind]


def split(text: str) -> list[str]:
    """What commas outside of parentheses part."""
    parts, depth = [""], 0
    for it in text:
        depth += (it == "(") - (it == ")")
        if it == "," and depth == 0:
            parts.append("")
        else:
            parts[-1] += it
    return parts
