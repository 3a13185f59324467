"""Operands: how they are parted, and what their expressions come to."""
from __future__ import annotations

import re
from dataclasses import dataclass
from typing import Callable, Optional

from common.command import Fault

TERM = re.compile(r"L'[A-Z@#$][A-Z@#$0-9]*|[XCB]'[^']*'|[A-Z@#$][A-Z@#$0-9]*|[0-9]+|[-+*/()]")


@dataclass
class Section:
    """A control section, or a dummy one, with how far it has come."""

    name: str
    is_dummy: bool
    counter: int = 0
    size: int = 0
    origin: int = 0
    number: int = 0


@dataclass(frozen=True)
class Value:
    """A number, or an address: its offset and its section's name."""

    number: int
    section: Optional[str] = None


def is_quote(text: str, at: int) -> bool:
    """Whether an apostrophe begins or ends a text, and isn't that of a length such as L'NAME."""
    return text[at] == "'" and not re.search(r"(?<![A-Z0-9@#$])L$", text[:at])


def split_at(text: str, stops: str, most: int = -1) -> list[str]:
    """The parts of a text between these characters, where they stand outside texts and parentheses."""
    parts: list[str] = []
    part, depth, quoted = "", 0, False
    for at, it in enumerate(text):
        if it == "'" and (quoted or is_quote(text, at)):
            quoted = not quoted
        depth += (it == "(") - (it == ")") if not quoted else 0
        if it in stops and not quoted and depth == 0 and len(parts) != most:
            parts.append(part)
            part = ""
        else:
            part += it
    return [*parts, part]


def fields(text: str) -> tuple[str, str, str]:
    """The name, the operation and the operands of a statement; what follows the operands is a remark."""
    name, _, rest = text.partition(" ")
    operation, _, rest = rest.strip().partition(" ")
    return name, operation, split_at(rest.lstrip(" "), " ", 1)[0]


class Evaluator:
    """Computes expressions, by the values and the lengths of symbols and the place where they stand."""

    def __init__(self, place: str, symbol: Callable[[str], Value], length: Callable[[str], int], here: Value) -> None:
        self.place, self.symbol, self.length, self.here = place, symbol, length, here

    def value(self, text: str) -> Value:
        """What the expression comes to."""
        self.terms = TERM.findall(text)
        if "".join(self.terms) != text or not text:
            raise Fault(self.place, f"the expression {text!r}")
        found = self.sum()
        if self.terms:
            raise Fault(self.place, f"the expression {text!r}")
        return found

    def absolute(self, text: str) -> int:
        """What the expression comes to, which is no address."""
        found = self.value(text)
        if found.section is not None:
            raise Fault(self.place, f"{text!r} is an address")
        return found.number

    def sum(self) -> Value:
        total = self.product()
        while self.terms and self.terms[0] in "+-":
            is_less, other = self.terms.pop(0) == "-", self.product()
            total = self.less(total, other) if is_less else self.more(total, other)
        return total

    def more(self, one: Value, other: Value) -> Value:
        if one.section and other.section:
            raise Fault(self.place, "a sum of two addresses")
        return Value(one.number + other.number, one.section or other.section)

    def less(self, one: Value, other: Value) -> Value:
        if other.section and other.section != one.section:
            raise Fault(self.place, "a difference of addresses of two sections")
        return Value(one.number - other.number, None if other.section else one.section)

    def product(self) -> Value:
        total = self.term()
        while self.terms and self.terms[0] in "*/":
            is_product, other = self.terms.pop(0) == "*", self.term()
            if total.section or other.section:
                raise Fault(self.place, "a product of addresses")
            total = Value(total.number * other.number if is_product else total.number // other.number)
        return total

    def term(self) -> Value:
        if not self.terms:
            raise Fault(self.place, "an expression that ends early")
        it = self.terms.pop(0)
        if it == "*":
            return self.here
        if it == "(":
            inner = self.sum()
            if not self.terms or self.terms.pop(0) != ")":
                raise Fault(self.place, "a parenthesis that isn't closed")
            return inner
        if it.startswith("L'"):
            return Value(self.length(it[2:]))
        if it[1:2] == "'":
            return Value(self_defining(it))
        return Value(int(it)) if it.isdigit() else self.symbol(it)


def self_defining(text: str) -> int:
    """The number of a term such as X'1F', B'101' or C'A'."""
    inner = text[2:-1]
    if text[0] == "C":
        return int.from_bytes(inner.encode("cp037"), "big")
    return int(inner, 16 if text[0] == "X" else 2)
