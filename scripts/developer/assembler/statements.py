"""The statements of a source, and their two passes: places and symbols, then bytes."""
from __future__ import annotations

from dataclasses import dataclass, field
from typing import Optional

from common.command import Fault
from developer.assembler.constants import Reference, data_of, parse
from developer.assembler.expressions import Evaluator, Section, Value, fields, split_at
from developer.assembler.instructions import Encoder, literals_of
from readers.operations import OPERATIONS, length_of

NOPR = b"\x07\x00"


@dataclass
class Statement:
    """A line of the source, or a literal of a pool, with what has become of it."""

    place: str
    text: str
    name: str = ""
    operation: str = ""
    operands: str = ""
    at: Optional[Value] = None
    data: bytes = b""
    references: list[Reference] = field(default_factory=list)
    first: Optional[int] = None
    second: Optional[int] = None
    using: Optional[str] = None
    is_generated: bool = False


class Assembly:
    """A source under assembly."""

    def __init__(self, path: str, source: str) -> None:
        self.path = path
        self.statements: list[Statement] = []
        self.symbols: dict[str, Value] = {}
        self.lengths: dict[str, int] = {}
        self.sections: dict[str, Section] = {}
        self.current: Optional[Section] = None
        self.pool: dict[str, None] = {}
        self.externals: list[str] = []
        self.entries: list[str] = []
        self.usings: dict[int, Value] = {}
        lines = [it.rstrip() for it in source.splitlines()]
        for number, (text, following) in enumerate(zip(lines, [*lines[1:], ""]), 1):
            self.read_line(f"{path}: line {number}", text, following.startswith("+"))
        if self.pool:
            raise Fault(path, "literals behind the last LTORG")
        self.set_origins()
        for statement in self.statements:
            self.encode(statement)

    # The first pass.

    def read_line(self, place: str, text: str, calls: bool) -> None:
        """Gives a line its place, and its name its value. A line that a macro would make begins with +, and the one before the first of
        them calls the macro: it is printed alone."""
        statement = Statement(place, text.removeprefix("+"), is_generated=text.startswith("+"))
        text = statement.text
        self.statements.append(statement)
        if not text.strip() or text.startswith("*") or (calls and not statement.is_generated):
            return
        statement.name, statement.operation, statement.operands = fields(text)
        directive = getattr(self, f"place_{statement.operation.lower()}", None)
        if directive:
            directive(statement)
        elif statement.operation in OPERATIONS:
            self.align(2)
            self.pool.update(dict.fromkeys(literals_of(statement.operands)))
            self.take(statement, length_of(statement.operation))
        elif statement.operation not in ("USING", "DROP", "TITLE", "PRINT"):
            raise Fault(place, f"the operation {statement.operation!r}")

    def here(self) -> Value:
        """Where the next byte of the current section stands."""
        if self.current is None:
            raise Fault(self.path, "a statement outside all sections")
        return Value(self.current.counter, self.current.name)

    def align(self, to: int) -> None:
        """Goes on to the next multiple."""
        if self.current:
            self.current.counter = -(-self.current.counter // to) * to

    def take(self, statement: Statement, size: int, length: Optional[int] = None) -> None:
        """Gives the statement the next bytes of the section."""
        statement.at = self.here()
        self.define(statement, statement.at, size if length is None else length)
        section = self.sections[statement.at.section or ""]
        section.counter += size
        section.size = max(section.size, section.counter)

    def define(self, statement: Statement, value: Value, length: int) -> None:
        """Gives the statement's name its value."""
        if statement.name:
            if statement.name in self.symbols:
                raise Fault(statement.place, f"{statement.name} is defined twice")
            self.symbols[statement.name], self.lengths[statement.name] = value, length

    def place_csect(self, statement: Statement, is_dummy: bool = False) -> None:
        name = statement.name
        if name not in self.sections:
            self.sections[name] = Section(name, is_dummy)
            self.symbols[name], self.lengths[name] = Value(0, name), 1
        self.current = self.sections[name]
        statement.at = self.here()

    def place_dsect(self, statement: Statement) -> None:
        self.place_csect(statement, True)

    def place_ds(self, statement: Statement) -> None:
        constants = [parse(statement.place, it) for it in split_at(statement.operands, ",")]
        self.align(constants[0].alignment)
        self.take(statement, sum(it.size() for it in constants), constants[0].length)

    place_dc = place_ds

    def place_cnop(self, statement: Statement) -> None:
        """Fills up to so many bytes behind a multiple, as `CNOP 0,4` up to a fullword, with instructions that do nothing."""
        self.align(2)
        values = self.evaluator(statement.place, self.here())
        words = statement.operands.split(",")
        behind, to = (values.absolute(it) for it in words) if len(words) == 2 else (0, 0)
        if to not in (4, 8) or behind not in range(0, to, 2):
            raise Fault(statement.place, f"CNOP {statement.operands}")
        statement.data = NOPR * ((behind - self.here().number) % to // 2)
        self.take(statement, len(statement.data))

    def place_equ(self, statement: Statement) -> None:
        values = self.evaluator(statement.place, self.here() if self.current else Value(0))
        value = values.value(statement.operands)
        self.define(statement, value, self.lengths.get(statement.operands, 1))
        statement.first = value.number

    def place_ltorg(self, statement: Statement) -> None:
        self.align(8)
        statement.at = self.here()
        parsed = [(parse(statement.place, it[1:]), it) for it in self.pool]
        for constant, text in sorted(parsed, key=lambda it: -(it[0].size() & -it[0].size())):
            literal = Statement(statement.place, f"{'':15}{text}", text, "DC", text[1:])
            self.take(literal, constant.size(), constant.length)
            self.statements.append(literal)
        self.pool.clear()

    def place_entry(self, statement: Statement) -> None:
        self.entries += statement.operands.split(",")

    def place_extrn(self, statement: Statement) -> None:
        self.externals += statement.operands.split(",")

    def place_end(self, _statement: Statement) -> None:
        self.current = None

    def set_origins(self) -> None:
        """Lets the control sections follow one another, each on a doubleword."""
        end = 0
        for number, section in enumerate((it for it in self.sections.values() if not it.is_dummy), 1):
            section.origin, section.number = -(-end // 8) * 8, number
            end = section.origin + section.size

    # The second pass.

    def evaluator(self, place: str, here: Value) -> Evaluator:
        def symbol(name: str) -> Value:
            if name not in self.symbols:
                raise Fault(place, f"{name} is not defined")
            return self.symbols[name]

        return Evaluator(place, symbol, lambda name: self.lengths.get(name, 1), here)

    def encode(self, statement: Statement) -> None:
        """Makes the statement's bytes, and what its line of the listing shows."""
        values = self.evaluator(statement.place, statement.at or Value(0))
        if statement.operation == "USING":
            self.use(statement, values)
        elif statement.operation == "DROP":
            for register in statement.operands.split(","):
                self.usings.pop(values.absolute(register), None)
        elif statement.operation == "DC":
            self.encode_constants(statement, values)
        elif statement.operation in OPERATIONS:
            encoder = Encoder(values, self.usings, self.symbols, self.lengths)
            statement.data = encoder.encode(statement.operation, statement.operands)
            statement.first, statement.second = (self.shown(it) for it in (encoder.first, encoder.second))

    def number_of(self, value: Value) -> int:
        """The number that a listing shows of a value: of an address, the one that counts on over all sections."""
        return value.number + (self.sections[value.section].origin if value.section else 0)

    def shown(self, value: Optional[Value]) -> Optional[int]:
        """What a listing shows of a value that it may have."""
        return None if value is None else self.number_of(value)

    def use(self, statement: Statement, values: Evaluator) -> None:
        """Notes which registers have which address."""
        where, *registers = statement.operands.split(",")
        index = self.statements.index(statement)
        following = next((it.at for it in self.statements[index + 1 :] if it.at is not None), None)
        values.here = following or Value(0)
        address = values.value(where)
        for at, register in enumerate(registers):
            self.usings[values.absolute(register)] = Value(address.number + 4096 * at, address.section)
        statement.using, statement.second = f"R:{values.absolute(registers[0]):X}", self.shown(address)

    def encode_constants(self, statement: Statement, values: Evaluator) -> None:
        origins = {it.name: it.origin for it in self.sections.values()}
        for operand in split_at(statement.operands, ","):
            constant = parse(statement.place, operand)
            data, references = data_of(constant, values, origins)
            for it in references:
                statement.references.append(Reference(it.offset + len(statement.data), it.length, it.refers, it.is_external))
            statement.data += data
            values.here = Value(values.here.number + len(data), values.here.section)
