"""module: from an object and a listing to cards."""
from __future__ import annotations

from fixtures.decks import END, ebcdic, esd, item, record, rld, txt
from fixtures.harness import TOP, Ran, coverage, equal, folder, misused, refused, well
from fixtures.jobs import FIRST, WIDE_HEADING, Program

SD, LD, ER, CM, WX = 0, 1, 2, 5, 10
EXAMPLES = f"{TOP}/examples"


def module_of(data: bytes, base: str = "100000", listing: bytes | None = None, given: tuple[str, ...] = ()) -> Ran:
    """What `module` makes of an object and a listing, and of the addresses of external references."""
    with folder() as at:
        words = ["module", "M", base, "object"]
        with open(f"{at}/object", "wb") as file:
            file.write(data)
        if listing is not None:
            with open(f"{at}/listing", "wb") as file:
                file.write(listing)
            words.append("listing")
        return coverage(*words, *given, cwd=at)


def text_of(ran: Ran) -> str:
    """The bytes of the TEXT cards, as hexadecimal digits."""
    return "".join(it[5:] for it in well(ran).output.decode().splitlines() if it.startswith("TEXT "))


def listing_text(listing: list[str]) -> bytes:
    return "".join(f"{it}\n" for it in listing).encode()


def whole(program: Program) -> list[str]:
    """The listing of a program with its END statement, so that module has nothing to warn of."""
    lines = program.listing()
    return [*lines, f"{'':{44 if lines[0] == WIDE_HEADING else 34}}{len(lines):>5}{'':10}END"]


def warned(ran: Ran, *texts: str) -> Ran:
    """Fails unless a command ended with 0 and warned of exactly these, each in a line."""
    equal((ran.status, ran.error.count("\n")), (0, len(texts)))
    for line, text in zip(ran.error.splitlines(), texts):
        assert line.startswith("coverage: warning: listing: ") and text in line, f"{line!r} has not {text!r}"
    return ran


# module


def raw_bytes() -> None:
    """module: raw bytes and a listing in ASCII, narrow or wide, as the cards of docs/JOB.md"""
    for program in (FIRST, FIRST.wide()):
        for before in ("", " "):
            listing = [before + it for it in whole(program)]
            ran = well(module_of(FIRST.text(), listing=listing_text(listing)))
            equal(ran.output, FIRST.job(listing=listing).split(b"\n", 1)[1].split(b"PHASE")[0])


def no_listing() -> None:
    """module: without a listing there is no LISTING card, and 100 bytes have four TEXT cards"""
    lines = well(module_of(bytes(100))).output.decode().splitlines()
    equal([lines[0], len(lines), lines[4]], ["MODULE M 100000 100", 5, "TEXT 00000000"])


def listings() -> None:
    """module: the same listing in ASCII with CR, in EBCDIC of both pages, and as records of 121 and 133 bytes"""
    for program in (FIRST, FIRST.wide()):
        same_listings(whole(program))


def same_listings(lines: list[str]) -> None:
    wanted = well(module_of(FIRST.text(), listing=listing_text(lines))).output
    ends = "\r\n", b"\x15", b"\x25", b"\x0d\x25"
    texts = ["".join(it + ends[0] for it in lines).encode()]
    texts += [b"".join(ebcdic(it) + end for it in lines) for end in ends[1:]]
    texts += [b"".join(ebcdic(it.ljust(width)) for it in lines) for width in (121, 133)]
    for text in texts:
        equal(well(module_of(FIRST.text(), listing=text)).output, wanted)


def brackets() -> None:
    """module: brackets of code pages 037 and 1047, and what ASCII lacks"""
    line = ebcdic("* ") + b"\xba\xbb\xad\xbd\x4a"
    text = b"".join(it + b"\x15" for it in [*map(ebcdic, whole(FIRST)), line])
    equal(well(module_of(FIRST.text(), listing=text)).output.splitlines()[-1], b"* [][]?")


def long_lines() -> None:
    """module: lines are cut to 150 bytes, and refused where the operation would be cut"""
    for program, source in ((FIRST, 40), (FIRST.wide(), 50)):
        heading, first, *rest = whole(program)
        long = f"{first}  {'remark ' * 30}"
        lines = well(module_of(FIRST.text(), listing=listing_text([heading, long, *rest]))).output.decode().splitlines()
        equal(lines[4], long[:150])
        front, gap = first[:source], " " * 120
        refused(module_of(FIRST.text(), listing=listing_text([heading, f"{front}{gap}LA 1,5"])), 2, "listing: line 2", "150")
        # A blank, a comment, and what has no location are no instruction lines; nor is one of the other width.
        bare = "000000-000003: 4 bytes of the object stand on no line"
        for line, warning in (
            (f"{front}{gap}", "line 2: no instruction line, so that it bears no mark: it ends before its operation"), (f"{front}*{gap}LA", bare),
            (f"_{front[1:]}{gap}LA", bare), (f"{front.replace('000000 ', '000000_', 1)}{gap}LA", bare),
        ):
            ran = warned(module_of(FIRST.text(), listing=listing_text([heading, line, *rest])), warning)
            equal(ran.output.splitlines()[4], line.rstrip()[:150].encode())


def bad_headings() -> None:
    """module: a heading of either width a byte off is none"""
    for program in (FIRST, FIRST.wide()):
        heading, *rest = whole(program)
        for off in (heading[1:], f"  {heading}", heading.replace("  Stmt", " Stmt"), heading[:-1], heading.replace("Code ", "Code  ")):
            refused(module_of(FIRST.text(), listing=listing_text([off, *rest])), 2, "listing", "heading")
        well(module_of(FIRST.text(), listing=listing_text([f" {it}" for it in (heading, *rest)])))
        for good in (heading, heading.upper(), heading.lower(), f"{heading}  more", f"D-{heading[2:]}"):
            well(module_of(FIRST.text(), listing=listing_text([good, *rest])))


def other_columns() -> None:
    """module: a listing with no object code in the columns of its heading, or with a later heading in others, is refused"""
    for program, other in ((FIRST, FIRST.wide()), (FIRST.wide(), FIRST)):
        heading, *rest = whole(program)
        shifted, lines = [f" {it}" for it in rest], len(rest)
        for listing in ([heading, *shifted], [f" {heading}", *rest], [heading, *other.listing()[1:]], [heading], [heading, "* text"]):
            refused(module_of(FIRST.text(), listing=listing_text(listing)), 2, "listing", "object code", "line 1")
        for again in (f"1{heading}", other.listing()[0], other.listing()[0].lower()):
            refused(module_of(FIRST.text(), listing=listing_text([heading, *rest, again, *rest])), 2, f"listing: line {lines + 2}", "line 1")
        well(module_of(FIRST.text(), listing=listing_text([heading, *rest, heading, "-".ljust(20)])))
        # Records without line ends, in ASCII.
        records = "".join(it.ljust(121) for it in (heading, *rest)).encode()
        refused(module_of(FIRST.text(), listing=records), 2, "listing", "object code")


def ends_within() -> None:
    """module: a byte of a line end within records of 121 and 133 bytes in EBCDIC is one of their text"""
    for width in (121, 133):
        lines = [*map(ebcdic, whole(FIRST)), ebcdic("* A") + b"\x15" + ebcdic("B")]
        ran = module_of(FIRST.text(), listing=b"".join(it.ljust(width, b"\x40") for it in lines))
        equal(well(ran).output.splitlines()[2:], [b"LISTING 6", *(it.encode() for it in whole(FIRST)), b"* A?B"])


def sections() -> None:
    """module: sections at their origins, or from the next doubleword on, with zeros between, and an odd size filled"""
    deck = esd(1, item("A", SD, 0, 5), item("B", SD, 8, 3)) + txt(2, 8, "AABBCC") + txt(1, 1, "0102") + END
    equal(text_of(module_of(deck)), "0001020000000000AABBCC00")
    apart = esd(1, item("A", SD, 0, 5), item("B", SD, 0, 3)) + txt(2, 0, "AABBCC") + txt(1, 1, "0102") + END
    equal(text_of(module_of(apart)), "0001020000000000AABBCC00")
    # By origins, as START and alignment make them; a common section, of origin 0, last, whatever its number.
    begun = esd(1, item("A", SD, 0x10, 2), item("C", CM, 0, 3), item("B", SD, 0x20, 2)) + txt(1, 0x10, "0102") + txt(3, 0x20, "0304") + END
    equal(text_of(module_of(begun)), "00" * 16 + "0102" + "00" * 14 + "0304" + "00" * 10)


def texts_again() -> None:
    """module: text behind an ORG back, which comes twice, as of a table for TR; the later one counts"""
    deck = esd(1, item("A", SD, 0, 8)) + txt(1, 0, "0000000000000000") + txt(1, 2, "C1C2") + txt(1, 3, "C3") + END
    equal(text_of(module_of(deck)), "0000C1C300000000")


def given_addresses() -> None:
    """module: external references by addresses that are given, weak ones too, of a deck that has them"""
    names = esd(1, item("A", SD, 0, 12)) + esd(2, item("SUB", ER, 0, 0), item("#WEAK", WX, 0, 0))
    items = rld("00020001" "1C" "000000" "00030001" "0C" "000004" "00030001" "08" "000009")
    deck = names + txt(1, 0, "000000000000000400000008") + items + END
    equal(text_of(module_of(deck, given=("SUB=18000a",))), "0018000A" "00000004" "00000008")
    equal(text_of(module_of(deck, given=("SUB=18000A", "#WEAK=200000"))), "0018000A" "00200004" "00200008")
    refused(module_of(deck, given=("#WEAK=200000",)), 2, "record 2", "SUB=")
    refused(module_of(deck, given=("SUB=180000", "OTHER=180000")), 2, "OTHER=180000", "no external reference OTHER")
    refused(module_of(deck, given=("SUB=180000", "A=180000")), 2, "A=180000", "no external reference A")
    refused(module_of(bytes(8), given=("SUB=180000",)), 2, "object", "no object deck")
    what = "is no SYMBOL=ADDRESS, whose address is six hexadecimal digits"
    for bad, said in (
        (("SUB=180000", "SUB=180000"), "SUB=180000 gives a second address"), (("SUB=180000", "listing"), f"listing {what}"),
        (("SUB=180000", "SUB2=18000"), f"SUB2=18000 {what}"), (("listing", "SUB=1800000"), f"SUB=1800000 {what}"),
    ):
        misused(module_of(deck, given=bad), "module", said)


def constants() -> None:
    """module: address constants of 4 and 3 bytes, added and subtracted, chained, and by name"""
    # A at 0, B from 10 on. A has B+4 (4 bytes), A+2 (3 bytes, chained with a second), less A (4 bytes), B by name.
    names = esd(1, item("A", SD, 0, 24), item("B", SD, 0x18, 8), item("B", ER, 0x404040, 0x404040))
    text = txt(1, 0, "0000001C" "000002" "00" "000003" "00" "00200000" "00000000" "00000001")
    chained = "00010001" "09" "000004" "08" "000008"
    items = rld("00020001" "0C" "000000" + chained + "00010001" "0E" "00000C" "00030001" "1C" "000010")
    wanted = "0020001C" "200002" "00" "200003" "00" "00000000" "00200018" "00000001" + "0" * 16
    equal(text_of(module_of(names + text + items + END, "200000")), wanted)
    # A V constant of a section that was assembled from 8 on.
    own = esd(1, item("A", SD, 0, 8), item("B", SD, 8, 8)) + rld("00020001" "1C" "000000") + END
    equal(text_of(module_of(own, "200000")), "00200008" + "0" * 24)


def labels() -> None:
    """module: a label of a section that was assembled elsewhere, and a weak reference that nothing defines"""
    names = esd(1, item("A", SD, 0, 8)) + esd(2, item("B", SD, 0x100, 8)) + esd(None, item("L", LD, 0x104, 2))
    names += esd(3, item("L", ER, 0, 0), item("NONE", WX, 0, 0))
    items = rld("00030001" "0C" "000000" "00040001" "0C" "000004")
    deck = names + txt(1, 0, "0000000100000007") + items + END
    equal(text_of(module_of(deck)), "0010010500000007" + "00" * 0x100)


DECK = esd(1, item("A", SD, 0, 8))


def services() -> None:
    """module --services: a SERVICE card of each section and label whose name is SVC and three digits, by rising numbers"""
    # Labels in the second section, which was assembled from 10 on and stands there; names that are none of services.
    names = esd(1, item("SVC254", SD, 0, 8), item("B", SD, 0x10, 8)) + esd(None, item("SVC035", LD, 0x12, 2), item("SVC000", LD, 0x17, 2))
    names += esd(None, item("SVC10", LD, 0x10, 2), item("SVCLIST", LD, 0x10, 2), item("SVC0100", LD, 0x10, 2)) + esd(3, item("SVC011", ER, 0, 0))
    deck = names + txt(1, 0, "07FE") + txt(2, 0x10, "07FE") + END
    given = ("SVC011=200000", "--services")
    lines = well(module_of(deck, "180000", None, given)).output.decode().splitlines()
    equal(lines[0], "MODULE M 180000 24")
    equal(lines[2:], ["SERVICE 0 180017", "SERVICE 35 180012", "SERVICE 254 180000"])
    plain = well(module_of(deck, "180000", None, given[:1])).output.decode().splitlines()
    equal(plain, lines[:2])
    for words in (given[::-1], (*given, "--services")):
        misused(module_of(deck, "180000", None, words), "module", "--services stands behind all other words, once")
    refused(module_of(DECK + txt(1, 0, "07FE") + END, given=("--services",)), 2, "object: the deck exports no name of a service", "SVC010")
    refused(module_of(bytes(8), given=("--services",)), 2, "object: no object deck")
    for name, what in (("SVC003", "SVC 3 is a call of the task's own"), ("SVC255", "SVC 255 is the breakpoint's"), ("SVC256", "no SVC 256")):
        bad = esd(1, item("A", SD, 0, 8)) + esd(None, item(name, LD, 0, 1), item("SVC010", LD, 0, 1)) + END
        refused(module_of(bad, given=("--services",)), 2, f"object: the deck exports {name}: ", what)
        well(module_of(bad))


def bad_decks() -> None:
    """module: each bad deck is refused by its record"""
    text = txt(1, 0, "0102030400000000")
    reference = esd(2, item("OUT", ER, 0, 0))
    table = [
        ((DECK + text + END)[:-1], "object", "no multiple of 80"),
        (DECK + record("XYZ", {}) + END, "record 2", "unknown record"),
        (DECK + b"\x01" + text[1:] + END, "record 2", "unknown record"),
        (DECK + txt(1, 4, "0102030405") + END, "record 2", "text past the section"),
        (DECK + txt(7, 0, "01") + END, "record 2", "no section with the number 7"),
        (DECK + reference + text + END, "record 2", "nothing defines the external reference OUT"),
        (DECK + text, "record 3", "END record is missing"),
        (DECK + text + END + text, "record 4", "behind the END record"),
        (esd(1, item("A", 3, 0, 8)) + END, "record 1", "type 03"),
        (esd(1, item("A", 6, 0, 8)) + END, "record 1", "type 06"),
        (DECK + esd(1, item("B", SD, 0, 8)) + END, "record 2", "B has no number"),
        (DECK + esd(2, item("A", SD, 0, 8)) + END, "record 2", "A is defined twice"),
        (record("ESD", {11: b"\x00\x0f", 15: b"\x00\x01"}) + END, "record 1", "15 bytes"),
        (DECK + record("TXT", {6: b"\0\0\0", 11: b"\x00\x39", 15: b"\x00\x01"}) + END, "record 2", "count of 57 bytes"),
        (DECK + text + rld("00010001" "04" "000000") + END, "record 3", "2 bytes"),
        (DECK + text + rld("00010001" "2C" "000000") + END, "record 3", "flags 2C"),
        (DECK + text + rld("00010001" "0C" "000006") + END, "record 3", "an address constant past the section"),
        (DECK + text + rld("00010001" "0C" "0000") + END, "record 3", "cut short"),
        (DECK + text + rld("00010001" "0D" "000000") + END, "record 3", "says that another follows"),
        (DECK + text + rld("00090001" "0C" "000000") + END, "record 3", "symbol 9"),
        (record("TXT", {6: b"\0\0\0", 11: b"\0\0"}) + END, "object", "without a section"),
        (esd(1, item("A", SD, 0, 262_146)) + END, "object", "SIZE"),
        (esd(1, item("A", SD, 0, 0)) + END, "object", "0 bytes"),
        (b"\x03\xf0" + bytes(78), "object", "generalized object file"),
        *[((first + b"ESD" + b" " * 76) * 2, "object", "translated to ASCII") for first in (b"\x02", b".", b"?")],
        (b"\x00\x54\x00\x00" + DECK + b"\x00\x54\x00\x00" + text, "object", "4 bytes before its first ESD record"),
        (b"\x40" * 80 + DECK + text + END, "object", "80 bytes before its first ESD record"),
    ]
    for data, place, what in table:
        refused(module_of(data), 2, place, what)


def bad_modules() -> None:
    """module: a name, a base, a size, a file and a listing that no card can have"""
    for base in ("0FFFF8", "100001", "100", "10000G", "1000000", ""):
        refused(module_of(bytes(8), base), 2, "BASE")
    for size, what in ((0, "0 bytes"), (7, "odd"), (262_146, "SIZE")):
        refused(module_of(bytes(size)), 2, what)
    refused(module_of(bytes(0x1000), "FFE008"), 2, "FFF000")
    text_of(module_of(bytes(0xFF8), "FFE008"))
    for name in ("m", "1M", "", "ABCDEFGHI", "A B"):
        refused(coverage("module", name, "100000", f"{EXAMPLES}/first.job"), 2, "NAME")
    refused(coverage("module", "M", "100000", "/no/such/file"), 2, "/no/such/file")
    refused(coverage("module", "M", "100000", "/"), 2, "/: ")
    refused(module_of(bytes(8), listing=b"no heading\n"), 2, "listing", "heading")
    refused(module_of(bytes(8), listing=ebcdic("no heading at all")), 2, "listing", "heading")
    # Bytes that a program has, which looks for decks itself, are no deck.
    text_of(module_of(b"\x18\x54\x58\x54\x00\x00" + DECK[:4] + bytes(100)))
    for few in ((), ("M",), ("M", "100000")):
        refused(coverage("module", *few), 1, "usage: coverage module")
    for words, said in (
        (["M", "100000", "a", "b", "c"], "c is no SYMBOL=ADDRESS, whose address is six hexadecimal digits"),
        (["M", "100000", "a", "b", "--strict"], "--strict stands before NAME, once"), (["--x", "M", "100000", "a"], "--x is none of its options"),
    ):
        misused(coverage("module", *words), "module", said)


def exchanged() -> None:
    """module: words in another order, other files and decks with line ends are told as such"""
    order = "the words are NAME BASE OBJECT LISTING\n"
    deck, listing = f"{EXAMPLES}/orders.object", f"{EXAMPLES}/orders.listing"
    name = "a name is 1 to 8 characters, the first of A to Z, @, #, $, the others of these or digits"
    for words, text in (
        (("100000", "M", deck), f"NAME: the name 100000 begins with a digit; {name}; NAME and BASE seem to be exchanged: {order}"),
        (("M", "N", deck), "BASE: the base N has 'N', which is no hexadecimal digit; an address is six hexadecimal digits\n"),
        (("M", "100000", listing, deck), f"{listing}: a listing, and no object; {order}"),
        (("M", "100000", f"{EXAMPLES}/tariff.listing", deck), f"{EXAMPLES}/tariff.listing: a listing, and no object; {order}"),
        (("M", "100000", listing), f"{listing}: a listing, and no object; {order}"),
        (("M", "100000", deck, deck), f"{deck}: an object deck, and no listing; {order}"),
        (("M", "100000", f"{EXAMPLES}/first.job"), f"{EXAMPLES}/first.job: cards of a job, and no object; {order}"),
        (("M", "100000", f"{EXAMPLES}/orders.asm"), f"{EXAMPLES}/orders.asm: lines of text, and no object: neither a module's bytes nor an object deck; {order}"),
    ):
        ran = coverage("module", *words)
        refused(ran, 2)
        equal(ran.error, f"coverage: {text}")
    # SVC 2 before a record is no line end.
    images = [DECK, txt(1, 0, "0A020A020A020A02"), END]
    equal(text_of(module_of(b"".join(images))), "0A02" * 4)
    for end in (b"\n", b"\r\n", b"\x15", b"\x25", b"\r\x25"):
        ends = f"its card images end with line ends, X'{end.hex().upper()}'; transfer it as binary, without line ends\n"
        for data in (b"".join(it + end for it in images), b"".join(it.rstrip(b"\x40") + end for it in images), end.join(images)):
            ran = module_of(data)
            equal((ran.status, ran.error), (2, f"coverage: object: an object deck of {len(data)} bytes, which is no multiple of 80: {ends}"))
    # 80 records of 81 bytes are a multiple of 80.
    refused(module_of(b"".join(it + b"\n" for it in [DECK, *[txt(1, 0, "00")] * 78, END])), 2, "object: an object deck of 6480 bytes: its card images")
    refused(module_of((DECK + END)[:-7]), 2, "object: an object deck of 153 bytes, which is no multiple of 80: its last record has 73 bytes\n")
    refused(module_of(b"\xff" * 7), 2, "object: a module of 7 bytes: the size is odd\n")


CHECKS = [
    raw_bytes, no_listing, listings, brackets, long_lines, bad_headings, other_columns, ends_within, sections, texts_again, given_addresses,
    constants, labels, services, bad_decks, bad_modules, exchanged,
]
