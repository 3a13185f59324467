"""The constants of DC, DS and literals."""
from __future__ import annotations

import re
from dataclasses import dataclass
from typing import Optional

from common.command import Fault
from developer.assembler.expressions import Evaluator, Value, split_at

FORM = re.compile(r"([0-9]*)([CXBFHDPAV])(?:L([0-9]+))?(?:'((?:[^']|'')*)'|\((.*)\))?")
ALIGNED = {"F": 4, "H": 2, "D": 8, "A": 4, "V": 4}


@dataclass
class Constant:
    """One operand of DC or DS: how often, of which type and length, and its value's text."""

    count: int
    kind: str
    length: int
    alignment: int
    text: Optional[str]

    def size(self) -> int:
        """The bytes of all."""
        return self.count * self.length * max(1, len(self.values()))

    def values(self) -> list[str]:
        """The values of one, such as those of F'1,2'; a character constant has one."""
        if self.text is None or self.kind in "CXB":
            return [] if self.text is None else [self.text]
        return split_at(self.text, ",")


@dataclass
class Reference:
    """An address constant: where it stands in its statement, its bytes, and what it refers to."""

    offset: int
    length: int
    refers: str
    is_external: bool


def parse(place: str, text: str) -> Constant:
    """Reads an operand such as 3CL5'AB', F'7' or AL3(NAME)."""
    found = FORM.fullmatch(text)
    if not found:
        raise Fault(place, f"the constant {text!r}")
    count, kind, length, quoted, listed = found.groups()
    value = quoted if listed is None else listed
    own = int(length) if length else natural(kind, value)
    return Constant(int(count) if count else 1, kind, own, 1 if length else ALIGNED.get(kind, 1), value)


def natural(kind: str, value: Optional[str]) -> int:
    """The bytes of a constant that states no length."""
    if kind in ALIGNED:
        return ALIGNED[kind]
    if value is None:
        return 1
    if kind == "C":
        return len(value.replace("''", "'"))
    if kind == "P":
        return len(value.lstrip("+-")) // 2 + 1
    return (len(value) + 1) // 2 if kind == "X" else (len(value) + 7) // 8


def packed(value: str) -> str:
    """The digits of a decimal number, and its sign, as hexadecimal digits."""
    return value.lstrip("+-") + ("D" if value.startswith("-") else "C")


def data_of(constant: Constant, values: Evaluator, origins: dict[str, int]) -> tuple[bytes, list[Reference]]:
    """The bytes of a constant at the evaluator's place, and the addresses among them."""
    data, references, began = b"", [], values.here
    for _ in range(constant.count):
        for text in constant.values():
            values.here = Value(began.number + len(data), began.section)
            item, refers = item_of(constant, text, values, origins)
            if refers is not None:
                references.append(Reference(len(data), constant.length, refers, constant.kind == "V"))
            data += item
    values.here = began
    return data, references


def item_of(constant: Constant, text: str, values: Evaluator, origins: dict[str, int]) -> tuple[bytes, Optional[str]]:
    """The bytes of one value, and the section or the name that it refers to."""
    length, kind = constant.length, constant.kind
    if kind == "C":
        return text.replace("''", "'").encode("cp037").ljust(length, b"\x40")[:length], None
    if kind in "XP":
        digits = text if kind == "X" else packed(text)
        return bytes.fromhex(digits.rjust(2 * length, "0"))[-length:], None
    if kind == "B":
        return int(text, 2).to_bytes(length, "big"), None
    if kind == "V":
        return bytes(length), text
    value = values.value(text) if kind == "A" else Value(int(text))
    number = value.number + (origins[value.section] if value.section else 0)
    if kind == "A" and value.section and length < 3:
        raise Fault(values.place, f"{text!r} is an address: a length of {length} has no room for it")
    if not -(256**length) // 2 <= number < 256**length:
        raise Fault(values.place, f"{text!r} comes to {number}: a length of {length} has no room for it")
    return (number % 256**length).to_bytes(length, "big"), value.section
