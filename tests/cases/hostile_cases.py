"""Hostile programs: wild addresses, EX of what it may not execute, operands of 16 MB, code that changes itself, many tasks.

Each result is worked out by hand from the rules of docs/MACHINE.md: the order of tests, and which bytes each operation tests.
"""
from __future__ import annotations

from dataclasses import dataclass, field

from fixtures.harness import PROGRAM, Case, equal, run
from fixtures.jobs import COUNTED, FIRST, FIRST_RESULT, TASK, Program, Result

PRIVATE = "TASK A 000000 16 100 0"
LARGER = "TASK A 000000 32 100 0"
LARGEST = "TASK A 000000 1048576 100 0"
TASKS = 64


@dataclass
class Wild:
    """A task's cards, parted by ' / ', and how it ends. Registers are those of its cards but for those that it has changed."""

    name: str
    head: str
    cards: str
    ending: str
    count: int
    condition: int = 0
    changed: dict[int, int] = field(default_factory=dict)
    row: str = ""
    output: str = ""

    def job_lines(self) -> str:
        return "".join(f"{it}\n" for it in (self.head, *self.cards.split(" / ")) if it)

    def result(self) -> Result:
        words = [it.split() for it in self.cards.split(" / ")]
        given = {int(it[1]): int(it[2], 16) for it in words if it and it[0] == "REG"}
        entry = int(self.head.split()[2], 16)
        rows, output = [self.row] if self.row else [], bytes.fromhex(self.output)
        return Result(self.ending, self.count, self.condition, {**given, **self.changed}, output, rows, "A", entry)

    def alone(self) -> Case:
        """In a job that has no module."""
        job = f"COVERJOB 1\nPHASE P\n{self.job_lines()}ENDJOB\n"
        report = "\n".join(["COVERAGE REPORT", *self.result().lines(), "END", ""])
        return Case(self.name, ["run"], job.encode(), report.encode())

    def over(self, program: Program, marks: str, possible: int, *ranges: str) -> Case:
        """Over a module that is observed."""
        return Case(self.name, ["run"], program.job(self.job_lines()), program.report([self.result()], marks, possible, *ranges))


def entry(address: str, private: int) -> str:
    """The card of a task that begins there."""
    return f"TASK A {address} {private} 100 0"


def addresses() -> list[Case]:
    """Tasks that begin or jump where nothing is, at odd addresses, and at the last ones."""
    wild = [
        Wild("the address past private storage", entry("000010", 16), "", "ABEND 5", 1),
        Wild("no private storage", entry("000000", 0), "", "ABEND 5", 1),
        Wild("half a halfword at the end", entry("00000E", 15), "DATA 14 07", "ABEND 5", 1),
        Wild("a second halfword past the end", entry("00000E", 16), "DATA 14 4700", "ABEND 5", 1),
        Wild("a third halfword past the end", entry("00000C", 16), "DATA 12 D2000000", "ABEND 5", 1),
        Wild("a privileged operation at the end", entry("00000E", 16), "DATA 14 0800", "ABEND 2", 1),
        # Its later halfword is tested before its operation.
        Wild("a privileged operation past the end", entry("00000E", 16), "DATA 14 8200", "ABEND 5", 1),
        Wild("an instruction before the end", entry("00000E", 16), "DATA 14 0700", "ABEND 5", 2),
        Wild("the last address", entry("FFFFFF", 16), "", "ABEND 6", 1),
        Wild("the last halfword but one", entry("FFFFFC", 16), "", "ABEND 5", 1),
        Wild("the return address", entry("FFFFFE", 16), "", "RETURNED", 0),
        Wild("the return address, no private storage", entry("FFFFFE", 0), "", "RETURNED", 0),
        Wild("a branch to the return address, with other bits", PRIVATE, "REG 1 FFFFFFFE / DATA 0 07F1", "RETURNED", 1),
        Wild("a branch to the last address", PRIVATE, "REG 1 00FFFFFF / DATA 0 07F1", "ABEND 6", 2),
        Wild("a branch to nowhere", PRIVATE, "REG 1 00FFF000 / DATA 0 07F1", "ABEND 5", 2),
        Wild("a branch to an odd address of nowhere", PRIVATE, "REG 1 00FFF001 / DATA 0 07F1", "ABEND 6", 2),
        Wild("a branch to itself", PRIVATE, "REG 1 00000000 / DATA 0 07F1", "SPENT", 100),
        Wild("a branch to zeros", PRIVATE, "REG 1 FF000008 / DATA 0 07F1", "ABEND 1", 2),
    ]
    jump = Program.of("0 07F1 BR, 2 07FE BR")
    unreached, rest = "000000-000007", "000002-000003"
    return [it.alone() for it in wild] + [
        Wild("an odd entry", entry("100001", 16), "", "ABEND 6", 1).over(FIRST, "^^^", 3, unreached),
        Wild("the return address as entry", entry("FFFFFE", 16), "", "RETURNED", 0).over(FIRST, "^^^", 3, unreached),
        Wild("the address past a module", entry("100008", 16), "", "ABEND 5", 1).over(FIRST, "^^^", 3, unreached),
        Wild("an odd branch in a module", TASK.strip(), "REG 1 00100003", "ABEND 6", 2).over(jump, ":^", 2, rest),
        Wild("a branch with other bits", TASK.strip(), "REG 1 FF100002", "RETURNED", 2).over(jump, "::", 2),
        Wild("a branch out of a module", TASK.strip(), "REG 1 00100004", "ABEND 5", 2).over(jump, ":^", 2, rest),
        # The private storage ends where the module begins: the task runs on into it, and its later halfword is a touch there.
        Wild("from private storage into a module", entry("0FFFFE", 1 << 20), "DATA 1048574 0700", "RETURNED", 4, 2, {1: 10})
        .over(FIRST, ":::", 3),
        Wild("an instruction that ends in a module", entry("0FFFFE", 1 << 20), "DATA 1048574 4110", "TOUCHED 100000", 1)
        .over(FIRST, "^^^", 3, unreached),
    ]


def executes() -> list[Case]:
    """EX of what it may not execute, and of what lies elsewhere."""
    wild = [
        Wild("EX of itself in storage", PRIVATE, "DATA 0 44000000", "ABEND 3", 1),
        # The subject's code comes before its later halfwords.
        Wild("EX of half an EX at the end", PRIVATE, "DATA 0 4400000E / DATA 14 4400", "ABEND 3", 1),
        Wild("EX of half an instruction at the end", PRIVATE, "DATA 0 4400000E / DATA 14 4100", "ABEND 5", 1),
        Wild("EX of an odd address", PRIVATE, "DATA 0 4400000D", "ABEND 6", 1),
        Wild("EX of an odd address of nowhere", PRIVATE, "DATA 0 44000FFF", "ABEND 6", 1),
        Wild("EX of nowhere", PRIVATE, "DATA 0 44000FFE", "ABEND 5", 1),
        Wild("EX of the return address", PRIVATE, "REG 1 00FFFFFE / DATA 0 44001000", "ABEND 5", 1),
        Wild("EX of a privileged operation", PRIVATE, "DATA 0 44000008 / DATA 8 0800", "ABEND 2", 1),
        Wild("EX that makes the breakpoint's SVC", PRIVATE, "REG 2 000000FF / DATA 0 44200008 / DATA 8 0A00", "BADSVC 255", 1),
        Wild("EX that makes an exit", PRIVATE, "REG 2 FFFFFF03 / DATA 0 44200008 / DATA 8 0A00", "EXIT", 1),
        # EX of MVI makes itself X'0720', which is BCR of register 0; then B goes to it, and behind it is X'0008', no operation.
        Wild("EX that overwrites itself", PRIVATE, "REG 2 00000007 / DATA 0 4420000847F0000092000000", "ABEND 1", 4,
             row="000000 0720000847F000009200000000000000"),
    ]
    itself, middle = Program.of("0 4400F000 EX, 4 07FE BR"), Program.of("0 4400F006 EX, 4 411007FE LA, 8 07FE BR")
    service = Program.of("0 4420F006 EX, 4 07FE BR, 6 0A00 SVC")
    odd, outside = Program.of("0 4400F001 EX, 4 07FE BR"), Program.of("0 4400F006 EX, 4 07FE BR")
    head, rest = TASK.strip(), "000004-000005"
    return [it.alone() for it in wild] + [
        Wild("EX of itself", head, "", "ABEND 3", 1).over(itself, ":^", 2, rest),
        Wild("EX of an odd address in a module", head, "", "ABEND 6", 1).over(odd, ":^", 2, rest),
        Wild("EX of an address past the module", head, "", "ABEND 5", 1).over(outside, ":^", 2, rest),
        # The subject at 6 is no place: its two bytes are BR of register 14.
        Wild("EX of the middle of an instruction", head, "", "RETURNED", 1).over(middle, ":^^", 3, "000004-000009"),
        Wild("EX that makes the breakpoint's SVC at a place", head, "REG 2 000000FF", "BADSVC 255", 1)
        .over(service, ":^:", 3, rest),
        Wild("EX of a subject that ends in a module", LARGEST, "REG 1 000FFFFE / DATA 0 44001000 / DATA 1048574 4110",
             "TOUCHED 100000", 1).over(FIRST, "^^^", 3, "000000-000007"),
        other_module(),
    ]


def other_module() -> Case:
    """EX whose subject is a conditional place of a module of another session.

    The subject BL doesn't branch on condition code 0. The OR with X'80' makes it branch, to the return address.
    """
    first, second = Program.of("0 44201000 EX, 4 07FE BR"), Program.of("0 4740E000 BL, 4 07FE BR")
    lines = ["COVERJOB 1"]
    for name, base, it in (("M", "100000", first), ("N", "100100", second)):
        listing = it.listing()
        lines += [f"MODULE {name} {base} 6", f"TEXT {it.text().hex()}", f"LISTING {len(listing)}", *listing]
    lines += ["PHASE P", "SESSION S M", "SESSION T N"]
    for name, value in (("A", 0x80), ("B", 0)):
        lines += [f"TASK {name} 100000 16 100 0", "REG 1 00100100", f"REG 2 {value:08X}"]
    results = [
        Result("RETURNED", 1, 0, {1: 0x100100, 2: 0x80}),
        Result("RETURNED", 2, 0, {1: 0x100100}, name="B"),
    ]
    other = second.session("&^", 3, ("000004-000005",))
    other[0], other[1] = "SESSION T PHASE P", other[1].replace("MODULE M", "MODULE N")
    parts = [line for it in results for line in it.lines()]
    report = ["COVERAGE REPORT", *parts, *first.session("::", 2), *other, "END", ""]
    return Case("EX over a place of another module", ["run"], "\n".join([*lines, "ENDJOB", ""]).encode(), "\n".join(report).encode())


def long_moves() -> list[Case]:
    """MVCL and CLCL, of registers 2 and 4, across the end of storage and of 16 MB."""

    def of(code: str, first: str, length: str, second: str, other: str, more: str = "") -> str:
        cards = [f"REG {n} {it}" for n, it in zip((2, 3, 4, 5), (first, length, second, other))]
        return " / ".join([*cards, f"DATA 0 {code}07FE", *([more] if more else [])])

    def move(*registers: str) -> str:
        return of("0E24", *registers)

    def compare(*registers: str) -> str:
        return of("0F24", *registers)

    zero, most, wild = "00000000", "00FFFFFF", "FFFFF000"
    letters = "DATA 16 C1C2C3C4C5C6C7C8"
    cases = [
        Wild("MVCL of 16 MB", LARGER, move(zero, most, zero, most), "ABEND 5", 1),
        # Over its own source it tests nothing.
        Wild("MVCL of 16 MB over its source", LARGER, move("00000001", most, zero, most), "RETURNED", 2, 3),
        Wild("MVCL over its source, across the last address", LARGER, move(zero, "00000002", most, "00000002"), "RETURNED", 2, 3),
        Wild("MVCL of the last address", LARGER, move(zero, "00000001", most, "00000001"), "ABEND 5", 1),
        Wild("MVCL right behind its source", LARGER, move("00000018", "00000008", "00000010", "00000008", letters),
             "RETURNED", 2, 0, {2: 0x20, 3: 0, 4: 0x18, 5: 0}, "000010 C1C2C3C4C5C6C7C8C1C2C3C4C5C6C7C8"),
        Wild("MVCL to the end of storage", LARGER, move("00000018", "00000008", zero, "C1000000"),
             "RETURNED", 2, 2, {2: 0x20, 3: 0}, "000010 0000000000000000C1C1C1C1C1C1C1C1"),
        Wild("MVCL past the end of storage", LARGER, move("00000018", "00000009", zero, "C1000000"), "ABEND 5", 1),
        # Of the second operand nothing is moved, and so nothing is tested; bits 0-7 of an address become zero.
        Wild("MVCL of nothing from 16 MB", LARGER, move("00000018", "AB000000", wild, most), "RETURNED", 2, 1, {4: 0xFFF000}),
        Wild("MVCL of odd registers", LARGER, "REG 4 00FFF000 / REG 5 00FFFFFF / DATA 0 0E34", "ABEND 6", 1),
        Wild("CLCL of 16 MB", LARGER, compare(zero, most, zero, most), "ABEND 5", 1),
        # Both operands are tested whole, though their first bytes differ.
        Wild("CLCL past the end of storage", LARGER, compare("00000010", "00000001", "00000018", "00000009", "DATA 16 01"),
             "ABEND 5", 1),
        Wild("CLCL to the end of storage", LARGER, compare("00000010", "00000001", "00000018", "00000008", "DATA 16 01"),
             "RETURNED", 2, 2),
        Wild("CLCL of nothing with padding that is equal", LARGER, compare(wild, "AA000000", "00000010", "00000010"),
             "RETURNED", 2, 0, {2: 0xFFF000, 4: 0x20, 5: 0}),
        Wild("CLCL of nothing with padding that is low", LARGER, compare(wild, "AA000000", "00000010", "00000010", "DATA 21 01"),
             "RETURNED", 2, 1, {2: 0xFFF000, 4: 0x15, 5: 0x0B}),
    ]
    over = [
        Wild("MVCL from private storage into a module", LARGEST, move("000FFFFE", "00000004", zero, zero), "ABEND 4", 1),
        Wild("CLCL from private storage into a module", LARGEST, compare("000FFFFE", "00000004", zero, zero), "TOUCHED 100000", 1),
        # Every access comes before every touch.
        Wild("CLCL past the end of a module", LARGEST, compare("00100000", "00000009", zero, zero), "ABEND 5", 1),
    ]
    return [it.alone() for it in cases] + [it.over(FIRST, "^^^", 3, "000000-000007") for it in over]


def calls() -> list[Case]:
    """PUT and GET across the end of storage, and into a module."""
    put, get = "DATA 0 0A0107FE", "DATA 0 0A0207FE"
    room = "TASK A 000000 16 100 16"
    cases = [
        Wild("PUT of 4 GB", PRIVATE, f"REG 0 FFFFFFFF / {put}", "ABEND 5", 1),
        Wild("PUT of 16 MB", PRIVATE, f"REG 0 01000000 / {put}", "ABEND 5", 1),
        Wild("PUT of all storage", room, f"REG 0 00000010 / {put}", "RETURNED", 2, output=f"0A0107FE{'00' * 12}"),
        Wild("PUT of a byte more than storage", room, f"REG 0 00000011 / {put}", "ABEND 5", 1),
        Wild("PUT up to the end, with other bits", room, f"REG 0 0000000F / REG 1 AB000001 / {put}", "RETURNED", 2,
             output=f"0107FE{'00' * 12}"),
        Wild("PUT past the end, with other bits", room, f"REG 0 00000010 / REG 1 AB000001 / {put}", "ABEND 5", 1),
        Wild("PUT across the last address", room, f"REG 0 00000002 / REG 1 00FFFFFF / {put}", "ABEND 5", 1),
        Wild("PUT of nothing from nowhere", PRIVATE, f"REG 0 00000000 / REG 1 00FFF000 / {put}", "RETURNED", 2),
        Wild("GET of 4 GB up to the end", PRIVATE, f"REG 0 FFFFFFFF / REG 1 0000000D / {get} / INPUT C1C2C3", "RETURNED", 2, 0,
             {15: 3}, f"000000 0A0207FE{'00' * 9}C1C2C3"),
        Wild("GET past the end", PRIVATE, f"REG 0 FFFFFFFF / REG 1 0000000E / {get} / INPUT C1C2C3", "ABEND 5", 1),
        Wild("GET of nothing that is left, to nowhere", PRIVATE, f"REG 0 FFFFFFFF / REG 1 00FFF000 / REG 15 00000007 / {get}",
             "RETURNED", 2, 0, {15: 0}),
        Wild("GET of no bytes, to nowhere", PRIVATE, f"REG 1 00FFF000 / REG 15 00000007 / {get} / INPUT C1", "RETURNED", 2, 0,
             {15: 0}),
        Wild("GET across the last address", PRIVATE, f"REG 0 00000002 / REG 1 00FFFFFF / {get} / INPUT C1C2", "ABEND 5", 1),
        # The two bytes that it reads are the instruction behind it.
        Wild("GET of its own next instruction", PRIVATE, "REG 0 00000002 / REG 1 00000002 / DATA 0 0A02 / INPUT 0A03", "EXIT", 2, 0,
             {15: 2}, f"000000 0A020A03{'00' * 12}"),
    ]
    over = [
        # Touch comes before the room for output, which is none.
        Wild("PUT from private storage into a module", LARGEST, f"REG 0 00000004 / REG 1 000FFFFE / {put}", "TOUCHED 100000", 1),
        Wild("GET from private storage into a module", LARGEST, f"REG 0 00000004 / REG 1 000FFFFE / {get} / INPUT C1C2C3C4",
             "ABEND 4", 1),
        Wild("GET past the end of a module", LARGEST, f"REG 0 00000002 / REG 1 00100007 / {get} / INPUT C1C2", "ABEND 5", 1),
    ]
    return [it.alone() for it in cases] + [it.over(FIRST, "^^^", 3, "000000-000007") for it in over]


def translations() -> list[Case]:
    """TR and TRT whose tables end outside, across the last address, or in a module."""
    here, wrapped = "DATA 0 DC000010001007FE", "REG 1 00FFFFFF / DATA 0 DC000010100007FE"
    looked, single = "DATA 0 DD010010001807FE", "DATA 0 DD00001F001007FE"
    module = "REG 1 00100000 / DATA 0 DC01000E100007FE"
    cases = [
        Wild("TR by the last byte", LARGER, f"{here} / DATA 16 0F / DATA 31 C1", "RETURNED", 2, row=f"000010 C1{'00' * 14}C1"),
        Wild("TR by the byte past it", LARGER, f"{here} / DATA 16 10", "ABEND 5", 1),
        Wild("TR by a table across the last address", LARGER, f"{wrapped} / DATA 16 12C5", "RETURNED", 2,
             row=f"000010 C5C5{'00' * 14}"),
        Wild("TR by the last address", LARGER, f"{wrapped} / DATA 16 00C5", "ABEND 5", 1),
        Wild("TR past the end", LARGER, "DATA 0 DC01001F0010", "ABEND 5", 1),
        # The second byte's function byte would lie at 279: it isn't looked at.
        Wild("TRT that ends before its table does", LARGER, f"{looked} / DATA 16 07FF / DATA 31 09", "RETURNED", 2, 1,
             {1: 0x10, 2: 9}),
        Wild("TRT that goes on past its table", LARGER, f"{looked} / DATA 16 07FF", "ABEND 5", 1),
        Wild("TRT of the last byte, by itself", LARGER, f"{single} / DATA 31 0F", "RETURNED", 2, 2, {1: 0x1F, 2: 0x0F}),
        # The first operand is tested whole, though its first byte would end it.
        Wild("TRT past the end", LARGER, "DATA 0 DD01001F0010 / DATA 31 0F", "ABEND 5", 1),
    ]
    # The module's bytes are 41100005 1A11 07FE: the first two of each instruction are touch bytes.
    over = [
        Wild("TR by a module", PRIVATE, f"{module} / DATA 14 0302", "RETURNED", 2, row=f"000000 DC01000E100007FE{'00' * 6}0500"),
        Wild("TR by a touch byte", PRIVATE, f"{module} / DATA 14 0305", "TOUCHED 100005", 1),
        Wild("TR by two touch bytes", PRIVATE, f"{module} / DATA 14 0501", "TOUCHED 100005", 1),
        Wild("TR by a touch byte, and by one outside", PRIVATE, f"{module} / DATA 14 0508", "ABEND 5", 1),
    ]
    return [it.alone() for it in cases] + [it.over(FIRST, "^^^", 3, "000000-000007") for it in over]


def middles() -> list[Case]:
    """Tasks that begin in an instruction's middle: what stands there is executed, and is no place."""
    branch = Program.of("0 411007FE LA, 4 07FE BR")
    load = Program.of("0 D20341100007 MVC, 6 07FE BR")
    into = Program.of("0 47F0F002 B, 4 07FE BR, 6 07FE BR")
    return [
        Wild("a return in an instruction", entry("100002", 16), "", "RETURNED", 1).over(branch, "^^", 2, "000000-000005"),
        Wild("a load in an instruction", entry("100002", 16), "", "RETURNED", 2, 0, {1: 7})
        .over(load, "^:", 2, "000000-000005"),
        # X'F002' is SRP, whose later halfwords are the next two instructions.
        Wild("a branch into its own middle", TASK.strip(), "", "TOUCHED 100004", 2).over(into, ":^^", 3, "000004-000007"),
    ]


def changes() -> list[Case]:
    """Code in private storage that changes itself."""
    cases = [
        # MVI makes the branch mask behind it 15.
        Wild("MVI into the next instruction", PRIVATE, "DATA 0 92FE00050700", "RETURNED", 2,
             row="000000 92FE000507FE00000000000000000000"),
        # MVC over its own first bytes, B back to them, and there is SVC 3 now.
        Wild("MVC over itself", LARGER, "DATA 0 D2030000001047F00000 / DATA 16 0A030A03", "EXIT", 3,
             row="000000 0A030A03001047F00000000000000000"),
        # The copy makes the copy again; behind it are zeros, which are no operation.
        Wild("MVC of itself to where it goes on", PRIVATE, "DATA 0 D20500060000", "ABEND 1", 3,
             row="000000 D20500060000D2050006000000000000"),
    ]
    return [it.alone() for it in cases]


def together() -> None:
    """64 tasks that all end at once: at no instruction, at one, at one breakpoint of two facts"""
    leave = Program.of("0 0A03 SVC, 2 07FE BR")

    def check(program: Program, marks: str, possible: int, ranges: tuple[str, ...], card: str, results: list[Result]) -> None:
        cards, expected = "", []
        for at in range(TASKS):
            which = results[at % len(results)]
            cards += f"TASK T{at} {card}\n" + "".join(f"REG {n} {it:08X}\n" for n, it in which.registers.items() if len(results) > 1)
            left = {} if len(results) > 1 else which.registers
            expected.append(Result(which.ending, which.count, which.condition, left, name=f"T{at}", entry=int(card[:6], 16)))
        job, report = program.job(cards), program.report(expected, marks, possible, *ranges)
        # As the threads may meet in other orders each time.
        for _ in range(8):
            ran = run([PROGRAM, "run"], job)
            equal((ran.status, ran.error, ran.output), (0, "", report))

    check(FIRST, "^^^", 3, ("000000-000007",), "FFFFFE 0 1 0", [Result("RETURNED", 0)])
    check(FIRST, "^^:", 3, ("000000-000005",), "100006 0 1 0", [Result("RETURNED", 1)])
    check(FIRST, ":::", 3, (), "100000 16 100 0", [FIRST_RESULT])
    check(leave, ":^", 2, ("000002-000003",), "100000 0 1 0", [Result("EXIT", 1)])
    # Every second task goes on once, and all have counted down to 0 in the end.
    falls, goes_on = Result("RETURNED", 2, 0, {1: 1}), Result("RETURNED", 3, 0, {1: 2})
    check(COUNTED, "&:", 3, (), "100000 0 100 0", [falls, goes_on])


CHECKS = [together]


def cases() -> list[Case]:
    """All of them."""
    return [*addresses(), *executes(), *long_moves(), *calls(), *translations(), *middles(), *changes()]
