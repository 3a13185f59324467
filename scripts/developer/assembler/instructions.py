"""Instructions: their operands, and their bytes."""
from __future__ import annotations

import re
from typing import Optional

from common.command import Fault
from developer.assembler.expressions import Evaluator, Value, split_at
from readers.operations import OPERATIONS


def literals_of(operands: str) -> list[str]:
    """The literals among the operands."""
    return [it for it in split_at(operands, ",") if it.startswith("=")]


def parted(operand: str) -> tuple[str, list[str]]:
    """An operand's expression, and the parts of the parentheses behind it."""
    if operand.endswith(")"):
        depth = 0
        for at in range(len(operand) - 1, -1, -1):
            depth += (operand[at] == ")") - (operand[at] == "(")
            if depth == 0:
                if at > 0 and operand[at - 1] not in "+-*/(":
                    return operand[:at], operand[at + 1 : -1].split(",")
                break
    return operand, []


class Encoder:
    """Encodes one instruction. `first` and `second` are the addresses that its line shows."""

    def __init__(self, values: Evaluator, usings: dict[int, Value], symbols: dict[str, Value], lengths: dict[str, int]) -> None:
        self.values, self.usings, self.symbols, self.lengths = values, usings, symbols, lengths
        self.first: Optional[Value] = None
        self.second: Optional[Value] = None

    def refuse(self, what: str) -> Fault:
        return Fault(self.values.place, what)

    def number(self, text: str, most: int = 15) -> int:
        found = self.values.absolute(text)
        if not 0 <= found <= most:
            raise self.refuse(f"{text} is not from 0 to {most}")
        return found

    def encode(self, operation: str, operands: str) -> bytes:
        """The bytes of the instruction."""
        form, code = OPERATIONS[operation]
        words = split_at(operands, ",") if operands else []
        try:
            data: bytes = getattr(self, f"form_{form.lower()}")(code, *words)
            return data
        except TypeError:
            raise self.refuse(f"{len(words)} operands of {operation}") from None

    def based(self, value: Value) -> tuple[int, int]:
        """The base register and the displacement of an address."""
        if value.section is None:
            if not 0 <= value.number < 4096:
                raise self.refuse(f"the displacement {value.number}")
            return 0, value.number
        found = [
            (value.number - at.number, -register)
            for register, at in self.usings.items()
            if at.section == value.section and 0 <= value.number - at.number < 4096
        ]
        if not found:
            raise self.refuse(f"no register is in use for {value.section}+{value.number:X}")
        displacement, register = min(found)
        return -register, displacement

    def expression(self, text: str) -> Value:
        """The value of an expression, or of a literal."""
        return self.symbols[text] if text.startswith("=") else self.values.value(text)

    def address(self, text: str) -> tuple[Value, int, list[str]]:
        """An operand's value, its base and displacement as four half bytes, and what stands in parentheses before the
        base: an index or a length."""
        expression, inner = parted(text) if not text.startswith("=") else (text, [])
        value = self.expression(expression)
        if value.section is not None:
            base, displacement = self.based(value)
            return value, base << 12 | displacement, inner
        base = self.number(inner[-1]) if inner else 0
        if not 0 <= value.number < 4096:
            raise self.refuse(f"the displacement {value.number}")
        return value, base << 12 | value.number, inner[:-1]

    def field(self, text: str, limit: int) -> tuple[Value, int, int]:
        """An operand with a length: its value, its base and displacement, and its length less 1."""
        expression, inner = parted(text) if not text.startswith("=") else (text, [])
        value = self.expression(expression)
        if value.section is None and len(inner) == 1:
            raise self.refuse(f"{text} has no base")
        given = inner[0] if inner else ""
        length = self.values.absolute(given) if given else self.implied(expression)
        value, where, _ = self.address(text if value.section is None else expression)
        if not 0 <= length <= limit:
            raise self.refuse(f"a length of {length}")
        return value, where, max(0, length - 1)

    def implied(self, expression: str) -> int:
        """The length of what an expression begins with."""
        if expression.startswith("="):
            return self.lengths[expression]
        name = re.match(r"[A-Z@#$][A-Z@#$0-9]*", expression)
        return self.lengths.get(name[0], 1) if name else 1

    def form_rr(self, code: int, one: str, other: str) -> bytes:
        return bytes([code, self.number(one) << 4 | self.number(other)])

    def form_r(self, code: int, one: str) -> bytes:
        return bytes([code, self.number(one) << 4])

    def form_i(self, code: int, one: str) -> bytes:
        return bytes([code, self.number(one, 255)])

    def form_branch_r(self, mask: int, one: str = "0") -> bytes:
        return bytes([0x07, mask << 4 | self.number(one)])

    def form_branch(self, mask: int, one: str) -> bytes:
        return self.form_rx(0x47, str(mask), one)

    def form_rx(self, code: int, one: str, other: str) -> bytes:
        expression, inner = parted(other) if not other.startswith("=") else (other, [])
        value = self.expression(expression)
        if value.section is None and len(inner) == 1:
            # A register alone is the index.
            inner = [inner[0], "0"]
        index = self.number(inner[0]) if inner and inner[0] else 0
        if value.section is not None:
            base, displacement = self.based(value)
        else:
            base, displacement = self.number(inner[1]) if len(inner) == 2 else 0, self.based(value)[1]
        self.second = value
        return bytes([code, self.number(one) << 4 | index]) + (base << 12 | displacement).to_bytes(2, "big")

    def form_rs(self, code: int, one: str, other: str, third: str) -> bytes:
        self.second, where, _ = self.address(third)
        return bytes([code, self.number(one) << 4 | self.number(other)]) + where.to_bytes(2, "big")

    def form_shift(self, code: int, one: str, other: str) -> bytes:
        return self.form_rs(code, one, "0", other)

    def form_si(self, code: int, one: str, other: str) -> bytes:
        self.first, where, _ = self.address(one)
        return bytes([code, self.number(other, 255)]) + where.to_bytes(2, "big")

    def form_s(self, code: int, one: str) -> bytes:
        return self.form_si(code, one, "0")

    def form_ss(self, code: int, one: str, other: str) -> bytes:
        self.first, where, length = self.field(one, 256)
        self.second, to, _ = self.address(other)
        return bytes([code, length]) + where.to_bytes(2, "big") + to.to_bytes(2, "big")

    def form_ss2(self, code: int, one: str, other: str) -> bytes:
        self.first, where, length = self.field(one, 16)
        self.second, to, second = self.field(other, 16)
        return bytes([code, length << 4 | second]) + where.to_bytes(2, "big") + to.to_bytes(2, "big")

    def form_srp(self, code: int, one: str, other: str, third: str) -> bytes:
        self.first, where, length = self.field(one, 16)
        self.second, to, _ = self.address(other)
        return bytes([code, length << 4 | self.number(third, 9)]) + where.to_bytes(2, "big") + to.to_bytes(2, "big")
