"""What module warns of: a listing that lost lines, or has some that look like instructions and aren't read as such."""
from __future__ import annotations

import re
import sys
from dataclasses import dataclass, replace
from typing import Callable

from fixtures.decks import END, esd, item, txt
from fixtures.harness import TOP, Ran, coverage, equal, folder, misused, refused, well
from fixtures.jobs import HEADING, WIDE_HEADING

sys.path.insert(0, f"{TOP}/scripts")
from makers import module as module_script  # noqa: E402
from makers.listing_warnings import warnings_of  # noqa: E402

LISTED = "listing"
NONE = "no instruction line, so that it bears no mark: "
NO_END = "no line has the statement END: the listing may be cut"
BARE = "of the object stand on no line"


@dataclass(frozen=True)
class Line:
    """A line of a listing: statement number, location, object code, what stands in column 40, and the statement."""

    number: int
    location: str
    code: str
    source: str
    plus: str = " "

    def text(self, is_wide: bool = False) -> str:
        at = self.location.rjust(8, "0") if is_wide and self.location else self.location
        front = f"{at:8} {self.code:<35}" if is_wide else f"{at:6} {self.code:<27}"
        return f"{front}{self.number:>5}{self.plus}{self.source}".rstrip()


def lines_of(text: str) -> list[Line]:
    """Lines of 'number location code source', with - for no location or no code, _ for the blanks in code; + for generated."""
    found = []
    for row in text.strip("\n").split("\n"):
        number, location, code, source = row.split(" ", 3)
        location, code = ("" if it == "-" else it.replace("_", " ") for it in (location, code))
        found.append(Line(int(number.rstrip("+")), location, code, source, "+" if "+" in number else " "))
    return found


# A macro generates two instructions; what the constant and the storage of two words are followed by is aligned.
PROGRAM = lines_of(
    """
1 000000 - PROG     CSECT
2 - - *        a comment
3 000000 1BFF          SR    15,15
4 - -          TWICE 1,2
5+ 000002 4110_0005          LA    1,5
6+ 000006 4122_0001          LA    2,1(2)
7 00000A 4740_F000 LOOP     BL    PROG
8 00000E 07FE          BR    14
9 000010 C1C2C3C4C5C6C7C8 TEXT     DC    C'ABCDEFGHIJ'
10 00001C 00000007          DC    F'7'
11 000020 - AREA     DS    2F
12 000028 -          LTORG
13 000028 0006                =H'6'
14 000000 - WORK     DSECT
15 000000 -          DS    4F
16 - -          END   PROG
"""
)
TEXT = "1BFF41100005412200014740F00007FE" + "C1C2C3C4C5C6C7C8C9D1"
RAW = bytes.fromhex(TEXT + "0000" + "00000007" + "00" * 8 + "0006")
DECK = esd(1, item("PROG", 0, 0, 0x2A)) + txt(1, 0, TEXT) + txt(1, 0x1C, "00000007") + txt(1, 0x28, "0006") + END


def title(page: int) -> str:
    return f"{'PROG':<106}Page {page:>4}"


def in_pages(lines: list[Line], is_wide: bool = False, before: str = "") -> list[str]:
    """The listing in pages: statements 1 to 4, 5 to 8, and the rest. Where there are control characters `before` is a blank."""
    heading = WIDE_HEADING if is_wide else HEADING
    pages = [[it for it in lines if it.number in numbers] for numbers in (range(1, 5), range(5, 9), range(9, 99))]
    found = []
    for number, page in enumerate(pages, 3):
        usings = "  Active Usings: PROG,R15"
        found += [title(number), usings, heading, *(it.text(is_wide) for it in page)]
    return [before + it for it in found]


def made(listing: list[str], data: bytes = DECK, *words: str) -> Ran:
    """What module makes of a listing, in ASCII, of an object."""
    with folder() as at:
        for name, content in (("object", data), ("listing", bytes_of(listing))):
            with open(f"{at}/{name}", "wb") as file:
                file.write(content)
        return coverage("module", *words, "M", "100000", "object", "listing", cwd=at)


def bytes_of(listing: list[str]) -> bytes:
    return "".join(f"{it}\n" for it in listing).encode("latin-1")


def warns(listing: list[str], *texts: str, data: bytes = DECK) -> None:
    """Fails unless these are warned of and no others. The tables are tried without a process for each row; see said_by_module."""
    it = module_script.object_from("object", data, 0x100000, {}, False)
    found = warnings_of(LISTED, module_script.listing_from(LISTED, bytes_of(listing)), it.text, it.ranges)
    equal(found, [f"{LISTED}: {it}" for it in texts])


def said_by_module() -> None:
    """module: warnings stand on standard error, and the cards are the same; with --strict the listing is refused behind them"""
    pages = in_pages(PROGRAM)
    cards = well(made(pages)).output
    equal((cards[:19], well(made(pages, DECK, "--strict")).output), (b"MODULE M 100000 42\n", cards))
    for listing, texts in ((pages[:-1], [NO_END]), (["* before", *in_pages(without(7))[:-1]], [NO_END, f"00000A-00000D: 4 bytes {BARE}: statement 7 is missing behind line 13"])):
        ran, strict = made(listing), made(listing, DECK, "--strict")
        equal(ran.error.splitlines(), [f"coverage: warning: {LISTED}: {it}" for it in texts])
        equal((ran.status, ran.output.split(b"LISTING ")), (0, [cards.split(b"LISTING ")[0], b"%d\n" % len(listing) + bytes_of(listing)]))
        refused(strict, 2)
        equal(strict.error, f"{ran.error}coverage: {LISTED}: --strict refuses what is warned of\n")
    refused(coverage("module", "--strict"), 1, "usage: coverage module")
    for words in (["M", "100000", "--strict"], ["--strict", "--strict", "M", "100000", "o"], ["--stricter", "M", "100000", "o"]):
        what = "is none of its options" if words[0] == "--stricter" else "stands before NAME, once"
        misused(coverage("module", *words), "module", f"{words[0] if what[0] == 'i' else '--strict'} {what}")


def without(*numbers: int) -> list[Line]:
    return [it for it in PROGRAM if it.number not in numbers]


def nothing_to_warn_of() -> None:
    """module: a whole listing has no warning, narrow, wide, with control characters, among other parts of a listing, of a deck or bytes"""
    around = [title(1), "                High Level Assembler Option Summary", title(2), "Symbol   Type   Id     Address  Length   LD ID  Flags Alias-of",
              "PROG      SD  00000001 00000000 0000002A             00"]
    behind = [title(6), "  Pos.Id   Rel.Id   Address  Type  Action", title(7), "Symbol   Length   Value     Id    R Type Asm  Program   Defn References",
              "LOOP          4 0000000A 00000001     I                    7", "  No Statements Flagged in this Assembly"]
    for data in (DECK, RAW):
        for is_wide in (False, True):
            for before in ("", " "):
                warns(in_pages(PROGRAM, is_wide, before), data=data)
        warns([*around, *in_pages(PROGRAM), *behind], data=data)
        # Statements that aren't printed and have no bytes, as SPACE and TITLE; and a listing of one page without a title.
        gaps = [replace(it, number=it.number + it.number // 3) for it in PROGRAM]
        warns([HEADING, *(it.text() for it in gaps)], data=data)


def words_of_titles() -> None:
    """module: what a page's title says where a statement stands is no operation"""
    for is_wide in (False, True):
        for before in ("", " "):
            for words in ("DSECT", "NAME     DSECT", "CSECT", "END", "GETMAIN R"):
                top = f"{'PROG     ALL THE PARTS OF THE':<{50 if is_wide else 40}} {words:<64} Page "
                pages = [before + top + it[-4:] if it.startswith(f"{before}PROG  ") and "Page" in it else it for it in in_pages(PROGRAM, is_wide, before)]
                warns(pages)
                warns(pages[:-1], NO_END)


def usings_in_the_columns_of_numbers() -> None:
    """module: a page's usings, whose registers and labels have digits where a statement has its number, are no statement"""
    for is_wide in (False, True):
        for before in ("", " "):
            pages = in_pages(PROGRAM, is_wide, before)
            at = [number for number, it in enumerate(pages) if "Active Usings" in it]
            for width in range(1, 35):
                for other in ("WORK,R13", "W12345,R9", "IN(X'FF0'),R13", "A1234567,R1"):
                    for it in at:
                        pages[it] = f"{before}  Active Usings: {'P' * width},R12  {other}"
                    warns(pages)
                    warns([*pages[:7], *pages[14:-1]], "line 10: page 5 stands behind page 3: page 4 is missing", NO_END,
                          f"000002-00000F: 14 bytes {BARE}: statements 5 to 8 are not printed, which the macro TWICE of line 7 generates: PRINT GEN prints such")


def constants_of_other_lengths() -> None:
    """module: constants that show eight of their bytes, or whose operands don't say how many they are, have no warning"""
    for constant in ("CL10'ABCDEFGHIJ'", "(TEN)C'A'", "CL(L'TEXT)'A'", "X'C1C2C3C4C5C6C7C8',XL2'C9D1'", "C'&&',CL9'A'", "C'&TEN'", "8C'A',H'-1'",
                     "2AL1(L'TEXT,*-PROG,3),AL4(0)", "PL8'1',P'123'", "C'it''s quoted'"):
        lines = [replace(it, source=f"TEXT     DC    {constant}") if it.number == 9 else it for it in PROGRAM]
        warns(in_pages(lines))
    # All bytes on lines, as PRINT DATA has it; and a continued operand.
    shown = in_pages(PROGRAM)
    at = next(number for number, it in enumerate(shown) if "C'ABC" in it)
    warns([*shown[: at + 1], "000018 C9D1", *shown[at + 1 :]])
    continued = shown[at][:40] + "TEXT     DC    C'ABCDEFGH',".ljust(71) + "X"
    warns([*shown[:at], continued, " " * 55 + "C'IJ'", *shown[at + 1 :]])


def lost_lines() -> None:
    """module: pages that are missing or in another order, a listing without its end, lines that were lost, each with its bytes"""
    lost = f"000002-00000F: 14 bytes {BARE}: statements 5 to 8 are missing behind line 7"
    for is_wide in (False, True):
        for before in ("", " "):
            pages = in_pages(PROGRAM, is_wide, before)
            # Title, usings and heading stand before the four lines of each of the first two pages.
            warns([*pages[:7], *pages[14:]], "line 10: page 5 stands behind page 3: page 4 is missing", lost.replace("are missing", "are not printed, which the macro TWICE of line 7 generates: PRINT GEN prints such").replace(" behind line 7", ""))
            turned = [*pages[:7], *pages[14:], *pages[7:14]]
            warns(turned, "line 10: page 5 stands behind page 3: page 4 is missing", "line 21: page 4 stands behind page 5")
            warns(pages[:-1], NO_END)
            warns(
                pages[:13], NO_END, f"00000E-000019: 12 bytes {BARE}: the listing ends with line 13",
                f"00001C-00001F: 4 bytes {BARE}: the listing ends with line 13", f"000028-000029: 2 bytes {BARE}: the listing ends with line 13",
            )
    two = [it for it in in_pages(PROGRAM) if not it.endswith("Page    3") and not it.endswith("Page    4")]
    warns(two)
    lines = [title(1), HEADING, *(it.text() for it in PROGRAM[:4]), title(4), HEADING, *(it.text() for it in PROGRAM[4:])]
    warns(lines, "line 8: page 4 stands behind page 1: pages 2 to 3 are missing")
    warns(in_pages(without(7)), f"00000A-00000D: 4 bytes {BARE}: statement 7 is missing behind line 12")
    warns(in_pages(without(9, 10)), f"000010-000019: 10 bytes {BARE}: statements 9 to 10 are missing behind line 14",
          f"00001C-00001F: 4 bytes {BARE}: statements 9 to 10 are missing behind line 14")
    every_other = [HEADING, *(Line(number, f"{4 * number - 4:06X}", "4110_0005".replace("_", " "), "         LA    1,5").text() for number in range(1, 20, 2)), Line(20, "", "", "         END").text()]
    told = [f"{8 * it - 4:06X}-{8 * it - 1:06X}: 4 bytes {BARE}: statement {2 * it} is missing behind line {it + 1}" for it in range(1, 6)]
    warns(every_other, *told, "20 bytes more stand on no line, in 5 more ranges", data=bytes.fromhex("41100005") * 20)


def not_printed() -> None:
    """module: what PRINT NOGEN leaves out, told with its macro and its bytes"""
    for is_wide in (False, True):
        warns(
            in_pages(without(5, 6), is_wide),
            f"000002-000009: 8 bytes {BARE}: statements 5 to 6 are not printed, which the macro TWICE of line 7 generates: PRINT GEN prints such",
        )
    # A macro that generates no bytes.
    warns(in_pages([*(it for it in PROGRAM if it.number < 8), Line(8, "", "", "         NAMES"), *(replace(it, number=it.number + 4) for it in PROGRAM[7:])]))


def sections_again() -> None:
    """module: a section that begins at 0 again, as of NOTHREAD, or of a second assembly"""
    first, last = PROGRAM[:13], PROGRAM[-1]
    other = [Line(20, "000000", "", "OTHER    CSECT"), Line(21, "000000", "07FE", "         BR    14")]
    advice = "the program refuses instructions that meet so as OVERLAP; assemble with THREAD, its default"
    told = f"the section OTHER begins at 0, where lines before have bytes: the assembler's option NOTHREAD; {advice}"
    plain = [HEADING, *(it.text() for it in first)]
    warns([*plain, *(it.text() for it in [*other, replace(last, number=30)])], f"line 15: {told}")
    second = "a second assembly behind the END of the first; the program refuses instructions that meet so as OVERLAP; give each assembly's listing to a module of its own"
    warns([*plain, last.text(), *(it.text() for it in other)], f"line 16: the section OTHER begins at 0, where lines before have bytes: {second}")
    # The same assembly a second time.
    once = [*plain, last.text()]
    warns([*once, *once[1:]], f"line 16: the section PROG begins at 0, where lines before have bytes: {second}")
    # A section that goes on, and one behind a dummy section.
    again = [replace(other[0], source="PROG     CSECT"), replace(last, number=30)]
    warns([*plain, *(it.text() for it in again)])
    warns([HEADING, Line(1, "000000", "", "WORK     DSECT").text(), Line(1, "000000", "", "         DS    4F").text(), *(it.text() for it in PROGRAM)])


def other_assemblies() -> None:
    """module: instruction lines with other bytes than the object, as of another assembly; where most differ no range is told"""
    def told(line: int, count: int, of: int, listed: str, at: int, has: str) -> str:
        what = f"{count} of the {of} instruction lines {'has' if count == 1 else 'have'} other bytes than the object"
        here = f"here {listed} at {at:06X}, where the object has {has}"
        return f"line {line}: {what}, {here}; the program refuses such a listing: take both of one assembly"

    other = [replace(it, code="4110 0006") if it.number == 5 else it for it in PROGRAM]
    for is_wide in (False, True):
        for before in ("", " "):
            warns(in_pages(other, is_wide, before), told(11, 1, 5, "41100006", 2, "41100005"))
    missing = f"00000E-00000F: 2 bytes {BARE}: statement 8 is missing behind line 13"
    warns(in_pages([it for it in other if it.number != 8]), told(11, 1, 4, "41100006", 2, "41100005"), missing)
    warns(in_pages(PROGRAM), told(6, 5, 5, "1BFF", 0, "0A00"), data=bytes.fromhex("0A00") * 20)
    warns(in_pages(PROGRAM), told(11, 4, 5, "41100005", 2, "nothing"), data=bytes.fromhex("1BFF"))
    refused(made(in_pages(other), DECK, "--strict"), 2)


def changed(number: int, change: Callable[[str], str], is_wide: bool = False, before: str = "") -> list[str]:
    """The listing with the line of a statement changed."""
    own = next(it for it in PROGRAM if it.number == number).text(is_wide)
    return [before + change(own) if it == before + own else it for it in in_pages(PROGRAM, is_wide, before)]


def columns_off() -> None:
    """module: lines that look like instructions and aren't read as such, each with its cause"""
    # Statement 7 stands on line 13, with a name; statement 5 on line 11.
    table: list[tuple[int, Callable[[str], str], str]] = [
        (7, lambda it: it.replace("BL    ", "BL\t"), "line 13: {}a tab stands beside its operation"),
        (7, lambda it: it.replace("LOOP     BL", "LOOP\tBL"), "line 13: {}a tab stands beside its operation"),
        (5, lambda it: it.replace("         LA", "\tLA"), "line 11: {}a tab stands beside its operation"),
        (7, lambda it: it.replace("BL    ", "BL\xa0"), "line 13: {}a blank of another kind than X'20' stands beside its operation"),
        (7, lambda it: it.replace("            ", "\t", 1), "line 13: {}a tab stands in its columns"),
        (7, lambda it: it.replace("A 4740 ", "A\t4740 "), "line 13: {}a tab stands in its columns"),
        (7, lambda it: it.replace("A 4740", "A\xa04740"), "line 13: {}a blank of another kind than X'20' stands in its columns"),
        (7, lambda it: it[: it.index("LOOP")], "line 13: {}it ends before its operation"),
        (7, lambda it: it[: it.index("F000") + 4], "line 13: {}it ends before its operation"),
        (7, lambda it: it[: it.index("F000") + 2], "line 13: {}it ends before its operation"),
        # Four digits alone may be those of a constant that a line before begins.
        (7, lambda it: it[: it.index("4740") + 4], f"00000C-00000D: 2 bytes {BARE}: statement 7 is missing behind line 12"),
        (5, lambda it: it.replace("LA    1,5", "MV"), "line 11: {}it ends within its operation"),
        (7, lambda it: it[: it.index("BL")], "line 13: {}it ends within its operation"),
        (7, lambda it: it.replace("LOOP     BL", " LOOP    BL"), "line 13: {}a blank stands before its name, so that LOOP is read as its operation"),
        (5, lambda it: it.replace("         LA  ", "LA  "), "line 11: {}its operation stands where a name does, at the first column of the statement"),
        (7, lambda it: it.replace("BL ", "JL "), "line 13: {}JL is none of the operations that are executed (docs/MACHINE.md)"),
    ]
    for is_wide in (False, True):
        for before in ("", " "):
            for number, change, told in table:
                warns(changed(number, change, is_wide, before), told.format(NONE))
    for change, what in (
        (lambda it: " " + it, "its location begins at column 2, and not 1"),
        (lambda it: it[1:], "its location has 5 digits, and not 6"),
        (lambda it: it.replace("A 4740", "A  4740"), "its object code begins at column 9, and not 8"),
        (lambda it: "00000G" + it[6:], None),
    ):
        if what:
            warns(changed(7, change), f"line 13: {NONE}{what}")
        else:
            bad = f"line 13: {NONE}its columns 1 to 6 are no location of 6 hexadecimal digits with a blank behind"
            warns(changed(7, change), bad, f"00000A-00000D: 4 bytes {BARE}")
    whole = [it[1:] if "LOOP" in it else it for it in in_pages(PROGRAM, before=" ")]
    warns(whole, f"line 13: {NONE}its location begins at column 1, and not 2")
    # Those of one cause together, of a listing of which each line was cut: the lines 6, 11, 12, 13, 14, and that of the literal.
    cut = [it if "Active" in it or "Loc" in it or "PROG " in it[:9] else it[:40] for it in in_pages(PROGRAM, before=" ")]
    warns(cut, f"line 6: {NONE}it ends before its operation; likewise 5 more, the last of them line 22", NO_END)


# Calls of macros, of which those of sessions are warned of, beside such that stand in the program itself.
CALLS = lines_of(
    """
1 000000 - PROG     CSECT
2 - -          GETMAIN EU,LV=8,A=PLACE
3+ 000000 0A04          SVC   4
4 - - NAME     FREEMAIN E,LV=8,A=PLACE
5+ 000002 0A05          SVC   5
6 - -          GETMAIN EU,LV=8,A=PLACE
7+ 000004 0A04          SVC   4
8 000006 0A04          SVC   4
9 000008 0A05          SVC   5
10 - -          GETMAIN R,LV=8
11+ 00000A 0A0A          SVC   10
12 - -          ONE
13+ 00000C 0A01          SVC   1
14 - -          WAIT  1,ECB=EVENT
15+ 00000E 0A01          SVC   1
16 - -          POST  EVENT
17+ 000010 0A02          SVC   2
18 - -          ONE
19+ 000012 0A02          SVC   2
20 000014 07FE          BR    14
21 - -          END   PROG
"""
)


def calls_of_macros() -> None:
    """module: SVC 4 and 5 that macros generate are warned of, since they open and close sessions here, and 1 and 2 of WAIT and POST"""
    data = bytes.fromhex("0A040A050A040A040A050A0A0A010A010A020A0207FE")
    opens = "line 4: SVC 4 of the macro GETMAIN opens a controlled session here, and gives no storage; likewise 1 more, the last of them line 8"
    closes = "line 6: SVC 5 of the macro FREEMAIN closes a controlled session here, and frees no storage"
    waits, posts = "line 16: SVC 1 of the macro WAIT writes output here, and waits for nothing", "line 18: SVC 2 of the macro POST reads input here, and posts nothing"
    calls = (opens, closes, waits, posts)
    for is_wide, heading in ((False, HEADING), (True, WIDE_HEADING)):
        for before in ("", " "):
            lines = [before + it for it in (heading, *(it.text(is_wide) for it in CALLS))]
            warns(lines, *calls, data=data)
            # A page that begins among the lines of the macro, whose title and usings are no call of another.
            top = [before + it for it in ("PROG     HOW IT IS CALLED".ljust(106) + "Page    2", "  Active Usings: PROGRAM1(X'FF0'),R15  WORK,R13  AREA,R12", heading)]
            later = [re.sub("line ([0-9]+)(?=:|$)", lambda found: f"line {int(found[1]) + 3}", it) for it in calls]
            warns([*lines[:3], *top, *lines[3:]], *later, data=data)
    waits, posts = (re.sub("line ([0-9]+)", lambda found: f"line {int(found[1]) - 6}", it) for it in (waits, posts))
    warns([HEADING, CALLS[0].text(), *(it.text() for it in CALLS[7:])], waits, posts, f"000000-000005: 6 bytes {BARE}: statements 2 to 7 are missing behind line 2", data=data)


CHECKS = [said_by_module, nothing_to_warn_of, words_of_titles, usings_in_the_columns_of_numbers, calls_of_macros,
          constants_of_other_lengths, lost_lines, not_printed,
          sections_again, other_assemblies, columns_off]
