"""Listings as the assembler lays them out, and lines with one thing changed: what each line is read as (docs/LISTING.md).

A report of no task marks the lines that are instructions, `table` has where they stand, and each has all its bytes in the module.
"""
from __future__ import annotations

import re
from typing import Iterator

from fixtures.harness import PROGRAM, TOP, equal, run
from fixtures.jobs import HEADING, WIDE_HEADING, listing_of
from models.machine_task import CODES
from trials.outside_instructions import mnemonic_of

SIZE = 0xB0
# What stands in the module but zeros, where no test has bytes of its own.
CODE = {0x00: "4110F00C", 0x06: "D20000000008", 0x0E: "41100005", 0xA0: "47F0F00C"}

# A page with print control characters, and the locations of the lines that are instructions.
PAGE = [
    "1                                 A SAMPLE",
    "-  Loc  Object Code    Addr1 Addr2  Stmt   Source Statement",
    " 000000                00000 0000E     1 MAIN     CSECT",
    " 000000 4110 F00C            0000C     2          LA    1,12(,15)",
    "                                       3          KEEP  1",
    " 000004 5010 0010            00010     4+         ST    1,16",
    " 000008 07FE                           5          BR    14",
    " 00000A 0700                           6          CNOP  0,4",
    " 00000C C1C2                           7 BUF      DC    C'AB'",
    " 000000                00000 00004     8 AREA     DSECT",
    " 000000                                9 F1       DS    F",
    " 000010                00010 00002    10 TAIL     CSECT",
    " 000010 07FE                          11          BR    14",
]
PAGE_CODE = {0x00: "4110F00C", 0x04: "50100010", 0x08: "07FE", 0x0A: "0700", 0x0C: "C1C2", 0x10: "07FE"}
PAGE_SAYS = {3: 0x00, 5: 0x04, 6: 0x08, 12: 0x10}

# Lines behind the heading, and the location where they are instructions.
LINES = [
    ("0000a0 47F0 F00C            0000C     2 HERE     B     12(,15)", 0xA0),
    ("0000A0 47F0 F00C            0000C     2*         B     12(,15)", 0xA0),
    ("0000A0 47F0 F00C            0000C     2 *        B     12(,15)", None),
    ("0000A0 47F0 F00C                     12          nop", 0xA0),
    ("0000A0 47F0 F00C                     12          JUMP  12(,15)", None),
    ("0000A0 47F0 F00C                     12          B12", None),
    ("0000A0 47F0 F00C                     12", None),
    ("0000A0", None),
    ("", None),
    ("0000A  47F0 F00C            0000C     2          B     12(,15)", None),
    ("0000A0047F0 F00C            0000C     2          B     12(,15)", None),
    ("0000A0                      0000C     2          B     12(,15)", None),
    ("000006 D200 0000 0008 XXXXXXXXXXXX    2          MVC   0(1),8", 0x06),
]
# Lines whose object code has another form, behind the heading.
REFUSED = [
    "000006 D20000000008                   2          MVC   0(1),8",
    "000006 D200 0000  0008                2          MVC   0(1),8",
    "000006 D200  0000 008                 2          MVC   0(1),8",
    "000006  D200 0000 0008                2          MVC   0(1),8",
    "000006 D200 0000                      2          MVC   0(1),8",
    "000006 4110                           2          LA    1,5",
    "000006 07FE X                         2          BR    14",
    "000006 0XFE                           2          BR    14",
]
RETURN = "000006 07FE                           2          BR    14"
# A line of either width, both of 72 columns.
LINE = f"{'00000E 4110 0005                      1          LA':<72}"
WIDE_LINE = f"{'0000000E 4110 0005                              1          LA':<72}"
# Whether the line is wide; the columns, from one up to the one before another; the byte that stands in one of them; and whether the
# line then is an instruction still, text or refused.
KEPT, TEXT, BAD = "kept", "text", "bad"
CHANGED = [
    (False, 1, 8, "Z", TEXT), (False, 8, 22, "Z", BAD), (False, 22, 42, "Z", KEPT), (False, 42, 53, "Z", TEXT), (False, 53, 73, "Z", KEPT),
    (False, 1, 7, " ", TEXT), (False, 8, 12, " ", BAD), (False, 13, 17, " ", BAD), (False, 50, 52, " ", KEPT), (False, 17, 22, "4", BAD),
    (False, 7, 8, "4", TEXT),
    (True, 1, 10, "Z", TEXT), (True, 10, 26, "Z", BAD), (True, 26, 52, "Z", KEPT), (True, 52, 63, "Z", TEXT), (True, 63, 73, "Z", KEPT),
    (True, 1, 9, " ", TEXT), (True, 10, 14, " ", BAD), (True, 15, 19, " ", BAD), (True, 60, 62, " ", KEPT), (True, 19, 26, "4", BAD),
    (True, 9, 10, "4", TEXT),
]
# Two headings and a line: its location, or how it is refused, or none where it is text.
WIDE: list[tuple[str, str, str, int | str | None]] = [
    (WIDE_HEADING, HEADING, "00000006 d200 0000 0008                         2          mvc   0(1),8", 0x06),
    (WIDE_HEADING, HEADING, "FFFFFFFE d200 0000 0008                         2          mvc   0(1),8", "OUTSIDE"),
    (WIDE_HEADING, HEADING, "FFFFFFFF d200 0000 0008                         2          mvc   0(1),8", "ODD"),
    (WIDE_HEADING, HEADING, "01000000 D200 0000 0008 X                       2          MVC   0(1),8", "OBJECT"),
    (WIDE_HEADING, HEADING, "01000000 D200 0000 0008 00                      2          MVC   0(1),8", "OBJECT"),
    (WIDE_HEADING, HEADING, "01000000 D200 0000 0008  X                      2+         MVC   0(1),8", "OUTSIDE"),
    (WIDE_HEADING, HEADING, "00000006 D200 0000 0008  X                      2+         MVC   0(1),8", 0x06),
    (WIDE_HEADING, HEADING, "01000000 07FE                                   2+*        BR    14", None),
    (WIDE_HEADING, HEADING, "01000000 07FE                                   2+NAME     BR    14", "OUTSIDE"),
    (WIDE_HEADING, HEADING, "00000E 4110 0005                      1          LA", None),
    (HEADING, WIDE_HEADING, "00000E 4110 0005                      1          LA", 0x0E),
    (HEADING, WIDE_HEADING, "0000000E 4110 0005                              1          LA", None),
]
# Lines in each form in which a heading has the lines behind it read, of which that one is an instruction alone.
FORMS = {"narrow": LINE, "narrow, shifted": f" {LINE}", "wide": WIDE_LINE, "wide, shifted": f" {WIDE_LINE}"}
SHIFTED, WIDE_SHIFTED = f" {HEADING}", f" {WIDE_HEADING}"
# Lines, and in which form those behind them are read; none where none of them is a heading.
HEADINGS: list[tuple[list[str], str | None]] = [
    ([HEADING], "narrow"), ([SHIFTED], "narrow, shifted"), ([WIDE_HEADING], "wide"),
    (["-  loc    object code      address1 address2  stmt   source statement  X"], "wide, shifted"),
    ([" Loc    Object Code      Address1 Address2  Stmt   Source Statement"], None),
    (["    Loc    Object Code      Address1 Address2  Stmt   Source Statement"], None),
    (["  Loc    Object Code      Address1 Address2  Stmt   Source Statemen"], None),
    (["   Loc    Object Code      Address1 Address2  Stmt   Source Statemen"], None),
    (["  Loc   Object Code      Address1 Address2  Stmt   Source Statement"], None),
    (["  Loc    Object Code    Address1 Address2  Stmt   Source Statement"], None),
    (["  Loc    Object Code    Addr1 Addr2  Stmt   Source Statement"], None),
    (["  Loc  Object Code      Address1 Address2  Stmt   Source Statement"], None),
    (["1                                 A SAMPLE", "-  Loc  Object Code    Addr1 Addr2  Stmt   Source Statement"], "narrow, shifted"),
    (["  Loc  Object Code    Addr1 Addr2  Stmt   Source Statemen", " Loc  Object Code    Addr1 Addr2  Stmt   Source Statement", LINE,
      "  LOC  OBJECT CODE    ADDR1 ADDR2  STMT   SOURCE STATEMENT    PAGE    3"], "narrow"),
    (["  Loc  Object Code    Addr1 Addr2  Stmt   Source Statemen", " Loc  Object Code    Addr1 Addr2  Stmt   Source Statement"], None),
    ([*("-" * (it % 151) for it in range(1000)), HEADING], "narrow"),
    (["", WIDE_SHIFTED, HEADING], "wide, shifted"), ([HEADING, WIDE_HEADING], "narrow"), ([], None),
]
# The first two halfwords of instructions with the kind of their places.
CONDITIONAL = "4710 47E0 47EF 071E 07E1 4600 4630 0601 063F 8600 87FF"
STRAIGHT = "4700 47F0 470F 07FE 070E 07E0 0600 06F0 45E0 05EF 4400 0A03 1812 8800"
# The length that the first two bits tell.
LENGTHS = {"0000": 2, "07FE": 2, "3FFF": 2, "4000": 4, "8B10": 4, "BFFF": 4, "C000": 6, "FFFF": 6}
# The mnemonics of the lists of instructions, then the extended ones of branches; and words that are none.
MNEMONICS = (
    "LR L LH LTR LCR LPR LNR LA ST STH LM STM AR A AH SR S SH ALR AL SLR SL CR C CH MR M MH DR D SLL SRL SLA SRA SLDL SRDL SLDA SRDA CVB CVD "
    "NR N NI NC OR O OI OC XR X XI XC CLR CL CLI CLC IC STC ICM STCM CLM TM MVI TS CS CDS SPM MVC MVN MVZ MVCIN TR TRT MVCL CLCL PACK UNPK "
    "MVO AP SP ZAP CP MP DP SRP ED EDMK BC BCR BCT BCTR BAL BALR BAS BASR BXH BXLE EX SVC B BR NOP NOPR BH BL BE BNH BNL BNE BO BP BM BNP "
    "BNM BNZ BZ BNO BHR BLR BER BNHR BNLR BNER BOR BPR BMR BNPR BNMR BNZR BZR BNOR"
).split()
NO_MNEMONICS = ["LRX", "CNOP", "DC", "DS", "E", "MVCI", "MVCINX", "BNOTR", "MVC\0", "\0L", "USING"]
# Names, and words that are none.
NAMES = ["A", "Z9", "@", "#1", "$A", "M@#$0123", "ABCDEFGH"]
NO_NAMES = ["", "1A", "a", "Ab", "A B", "A ", " A", "A-B", "A_", "ABCDEFGHI", "[", "\u00e9"]


def job(lines: list[str], code: dict[int, str], size: int = SIZE, more: str = "") -> bytes:
    """A job of module M with these bytes and this listing, of the session S over it, and of no task where none is given."""
    text = bytearray(size)
    for at, digits in code.items():
        text[at : at + len(digits) // 2] = bytes.fromhex(digits)
    cards = ["COVERJOB 1", f"MODULE M 100000 {size}", *(f"TEXT {text[at : at + 64].hex()}" for at in range(0, size, 64))]
    return "\n".join([*cards, f"LISTING {len(lines)}", *lines, "PHASE P", "SESSION S M", f"{more}ENDJOB", ""]).encode("latin-1")


def says(lines: list[str], wanted: dict[int, int], code: dict[int, str] | None = None, size: int = SIZE) -> None:
    """Fails unless these lines, by their index, are instructions at these locations, and the others are text."""
    code = CODE if code is None else code
    data = job(lines, code, size)
    ran = run([PROGRAM, "run"], data)
    listing = ran.output.split(b"\n")[3 : 3 + len(lines)]
    marked = [f"{'^' if at in wanted else ' '} {it}".encode("latin-1") for at, it in enumerate(lines)]
    equal((ran.status, ran.error, listing), (0, "", marked))
    rows = []
    for at in sorted(wanted.values()):
        size_of = (2, 4, 4, 6)[int(code[at][:2], 16) >> 6]
        assert len(code[at]) == 2 * size_of, code[at]
        rows.append((at, size_of, code[at][:4]))
    found = re.findall(rb"^PLACE ([0-9A-F]{6}) ([246]) [CS] ([0-9A-F]{4})$", run([PROGRAM, "table"], data).output, re.M)
    equal([(int(at, 16), int(it), half.decode()) for at, it, half in found], rows)


def refused(lines: list[str], status: int, text: str, code: dict[int, str] | None = None, size: int = SIZE) -> None:
    """Fails unless the listing of these lines is refused so."""
    ran = run([PROGRAM, "table"], job(lines, CODE if code is None else code, size))
    equal((ran.status, ran.output, ran.error, lines[-1:]), (status, f"{text}\n".encode(), "", lines[-1:]))


def bad(lines: list[str], line: int, why: str) -> None:
    """Fails unless the line of that number is refused for that."""
    refused(lines, 12, f"BAD LISTING M LINE {line} {why}")


def pages() -> None:
    """listing: a page with print control characters, in either case"""
    for page in (PAGE, [it.lower() for it in PAGE], [it.upper() for it in PAGE]):
        says(page, PAGE_SAYS, PAGE_CODE)


def lines_alone() -> None:
    """listing: lines by their columns, the longest one, and object code of another form"""
    for line, at in LINES:
        says([HEADING, line], {} if at is None else {1: at})
    says([HEADING, "A" * 150, LINE], {2: 0x0E})
    for line in REFUSED:
        bad([HEADING, line], 2, "OBJECT")
    bad([RETURN], 0, "HEADING")
    bad([REFUSED[5], HEADING, RETURN, REFUSED[5]], 4, "OBJECT")


def columns() -> None:
    """listing: another byte in each column of a narrow line and of a wide one"""
    for is_wide, first, behind, byte, what in CHANGED:
        heading, line = (WIDE_HEADING, WIDE_LINE) if is_wide else (HEADING, LINE)
        for at in range(first - 1, behind - 1):
            changed = [heading, line[:at] + byte + line[at + 1 :]]
            if what == BAD:
                bad(changed, 2, "OBJECT")
            else:
                says(changed, {1: 0x0E} if what == KEPT else {})


def headings() -> None:
    """listing: where a heading begins, its width, and the first of several"""
    for first, second, line, wanted in WIDE:
        if isinstance(wanted, str):
            bad([first, second, line], 3, wanted)
        else:
            says([first, second, line], {} if wanted is None else {2: wanted})
    for front, form in HEADINGS:
        lines = [*front, *FORMS.values()]
        if form is None:
            bad(lines, 0, "HEADING")
        else:
            says(lines, {len(front) + list(FORMS).index(form): 0x0E})


def faults() -> None:
    """listing: each fault at its line, and places in the order of their addresses"""
    code = {0: "41100005", 4: "1A11", 6: "07FE"}
    _, load, add, back = listing_of([(0, "41100005", "LA"), (4, "1A11", "AR"), (6, "07FE", "BR")])

    def middle(text: str) -> list[str]:
        return [HEADING, load, text + add[len(text) :], back]

    for text, status, line in (
        ("000005 1A11", 12, "BAD LISTING M LINE 3 ODD"), ("000008 1A11", 12, "BAD LISTING M LINE 3 OUTSIDE"),
        ("000002 1A11", 12, "BAD LISTING M LINE 3 OVERLAP"), ("000004 0AFF", 8, "OWN SVC M LINE 3"),
        ("000004 1A12", 3, "MISMATCH M LINE 3 LOC 000004 LISTING 1A12 MODULE 1A11"),
    ):
        refused(middle(text), status, line, code, 8)
    refused([HEADING, load.replace("0005", "0006")], 3, "MISMATCH M LINE 2 LOC 000000 LISTING 41100006 MODULE 41100005", code, 8)
    mixed = [HEADING, back, f"{'000002':<38}2 X        DS    F", load, add]
    says(mixed, {1: 6, 3: 0, 4: 4}, code, 8)
    # The task begins at the second of them: each line has the mark of its own place.
    listing = run([PROGRAM, "run"], job(mixed, code, 8, "TASK A 100004 0 9 0\n")).output.decode().split("\n")[7:12]
    equal(listing, [f"{mark} {it}" for mark, it in zip(" : ^:", mixed)])
    many = listing_of([(2 * at, "1A11", "AR") for at in range(65_537)])
    refused(many, 4, "TOO LARGE PLACES M LINE 65538", {0: "1A11" * 65_537}, 2 * 65_537)


def operations() -> None:
    """listing: the mnemonics of operations, the kinds of places and the lengths of instructions"""
    equal(len(set(MNEMONICS)), 131)
    words = [*MNEMONICS, *(it.lower() for it in MNEMONICS), *NO_MNEMONICS]
    code = {2 * at: "1A11" for at in range(len(words))}
    lines = listing_of([(at, digits, it) for (at, digits), it in zip(code.items(), words)])
    says(lines, {1 + at: 2 * at for at in range(2 * len(MNEMONICS))}, code, 2 * len(words))
    halves = [*CONDITIONAL.split(), *STRAIGHT.split(), *LENGTHS]
    code = {8 * at: it + "0000" * ((1, 2, 2, 3)[int(it[0], 16) >> 2] - 1) for at, it in enumerate(halves)}
    lines = listing_of([(at, it, "LR") for at, it in code.items()])
    output = run([PROGRAM, "table"], job(lines, code, 8 * len(halves))).output.decode()
    kinds = ["C"] * len(CONDITIONAL.split()) + ["S"] * len(STRAIGHT.split())
    found = re.findall("^PLACE ([0-9A-F]{6}) ([246]) ([CS]) ([0-9A-F]{4})$", output, re.M)
    equal([(it[2], it[3]) for it in found[: len(kinds)]], list(zip(kinds, halves)))
    equal({it[3]: int(it[1]) for it in found[len(kinds) :]}, LENGTHS)


def kept() -> None:
    """listing: the instruction of each place is executed as the listing has it"""
    code = {0x00: "4110000A", 0x04: "1A11", 0x06: "D20310002004", 0x0C: "1A11", 0x0E: "07FE"}
    lines = listing_of([(at, it, "LR") for at, it in code.items()])
    task = "TASK A 100000 32 100 0\nREG 2 00000004\nDATA 8 C1C2C3C4\n"
    output = run([PROGRAM, "run"], job(lines, code, 16, task)).output.decode().split("\n")
    wanted = ["TASK A RETURNED COUNT 5 CC 2", "R0 00000000 00000028 00000004" + 5 * " 00000000", "R8" + 6 * " 00000000" + " 00FFFFFE 00100000", "OUT 0"]
    equal(output[1:6], [*wanted, "STOR 000010 00000000C1C2C3C40000000000000000"])


def names() -> None:
    """listing: names of modules, and words that are none"""
    for name in (*NAMES, *NO_NAMES):
        data = job([HEADING], {}, 2).replace(b"MODULE M ", f"MODULE {name} ".encode()).replace(b"SESSION S M", f"SESSION S {name}".encode())
        ran = run([PROGRAM, "table"], data)
        wanted = (0, f"COVERAGE TABLE\nMODULE {name} PLACES 0\nEND\n") if name in NAMES else (2, "BAD JOB LINE 2\n")
        equal((name, ran.status, ran.output.decode()), (name, *wanted))


def codes() -> Iterator[tuple[int, str]]:
    """Each code with the ending of a task that comes to it, where that ends it: 1 where it is none, 2 of the supervisor state."""
    with open(f"{TOP}/tests/rows/codes.txt", encoding="ascii") as file:
        rows = [it.split() for it in file.read().splitlines()[1:]]
    names = {int(code, 16): name for code, name in rows}
    equal((len(rows), len(names), sum(it == "-" for it in names.values())), (116, 116, 17))
    equal({code: name for code, name in mnemonic_of().items() if code in CODES}, {code: name for code, name in names.items() if name != "-"})
    for code in range(256):
        yield code, "ABEND 1" if code not in names else "ABEND 2" if names[code] == "-" else ""


def each_code() -> None:
    """codes: each that no operation has ends with code 1, each of the supervisor state with 2, and others with neither"""
    found = list(codes())
    for second in ("00", "FF"):
        for at in range(0, 256, 64):
            tasks = "".join(f"TASK T{code} 000000 4096 1 0\nDATA 0 {code:02X}{second}00000000\n" for code, _ in found[at : at + 64])
            output = run([PROGRAM, "ends"], f"COVERJOB 1\nPHASE P\n{tasks}ENDJOB\n".encode()).output.decode()
            ended = re.findall(r"^TASK T(\d+) (.*) COUNT 1 AT", output, re.M)
            equal([(int(code), it if it in ("ABEND 1", "ABEND 2") else "") for code, it in ended], found[at : at + 64])


CHECKS = [pages, lines_alone, columns, headings, faults, operations, kept, names, each_code]
