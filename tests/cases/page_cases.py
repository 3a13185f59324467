"""The page: tasks and where they ended, listings with their marks, labels and links."""
from __future__ import annotations

import functools
import re
import struct
import zlib
from html.parser import HTMLParser

from cases.report_cases import (
    DRAINED, ENDED, ENDINGS, ENDS, EVENTS, MARKED, NOT_DRAINED, NOT_RUN, RETURNED, RUNNING, WIDE_REPORT, aligned, ends, labelled,
    replayed,
)
from fixtures import browser
from fixtures.harness import TOP, Tally, coverage, equal, example_report, folder, run, run_checks, well
from fixtures.jobs import COUNTED, FIRST, FIRST_REPORT, OPENED_LINES, OPENED_REPLAY, Program, Result

VOID = {"meta", "link", "br", "hr", "img", "input"}


class Page(HTMLParser):
    """What a page has: its text, its ids, what its links name, its rows and items as text, and that its tags close."""

    def __init__(self, text: str) -> None:
        super().__init__()
        self.text = ""
        self.ids: list[str | None] = []
        self.links: list[str | None] = []
        self.tags: list[tuple[str, dict[str, str | None]]] = []
        self.open: list[str] = []
        self.rows: list[list[str]] = []
        self.items: list[str] = []
        self.feed(text)
        equal(self.open, [])

    def handle_starttag(self, tag: str, attrs: list[tuple[str, str | None]]) -> None:
        values = dict(attrs)
        self.tags.append((tag, values))
        self.ids += [values["id"]] if "id" in values else []
        self.links += [values["href"]] if "href" in values else []
        if tag not in VOID:
            self.open.append(tag)
        if tag == "tr":
            self.rows.append([])
        elif tag in ("th", "td"):
            self.rows[-1].append("")
        elif tag == "li":
            self.items.append("")

    def handle_endtag(self, tag: str) -> None:
        equal(self.open.pop(), tag)

    def handle_data(self, data: str) -> None:
        self.text += data
        if {"th", "td"} & set(self.open):
            self.rows[-1][-1] += data
        if "li" in self.open:
            self.items[-1] += data


def page_of(report: bytes) -> Page:
    """The page of a report, whose names are single, and whose links are to what it has."""
    page = Page(well(coverage("page", data=report)).output.decode())
    equal(len(set(page.ids)), len(page.ids))
    for link in page.links:
        assert link and link[:1] == "#" and link[1:] in page.ids, link
    return page


def listed_line(line: str, has_control: bool) -> str:
    """A line of a report as the page has it: without its print control character."""
    return line[:2] + line[3:] if has_control else line


def pages() -> None:
    """page: each line with its mark, ranges and one-way branches as links, tasks folded, no script, light and dark"""
    shown, wide = COUNTED.shown("&:", 3), COUNTED.wide().report([], "^^", 3, "000000-000005")
    examples = [example_report(it) for it in ("orders", "palindrome", "tariff")]
    for report in (FIRST_REPORT, WIDE_REPORT, MARKED, NOT_RUN, wide, shown, *examples):
        text = well(coverage("page", data=report)).output.decode()
        page = page_of(report)
        for line in report.decode().splitlines():
            if re.match(r"[\^:>V& ] ", line):
                assert f"{listed_line(line, report in examples)}\n" in page.text, line
        equal(page.links.count("#S.M.000000"), int(report in (NOT_RUN, wide, MARKED)))
        equal(sum(tag == "details" and "open" not in values for tag, values in page.tags), report.count(b"\nTASK "))
        assert not [tag for tag, values in page.tags if tag in ("script", "link", "img") or "src" in values]
        assert "prefers-color-scheme: dark" in text and "@media print" in text and '<html lang="en">' in text


def control_characters() -> None:
    """page: print control characters and form feeds are no text: empty lines and new pages stand for them"""
    heading, first, second, third = FIRST.listing()
    lines = ["1A TITLE", f"0{heading}", f"-{first}", f"+{second}", "1A SECOND", f" {third}"]
    text = well(coverage("page", data=Program(FIRST.code, lines).report([], "  :: :", 3))).output.decode()
    wanted = f"""<pre>  A TITLE

  {heading}


: {first}
: {second}
<span class="new"></span>  A SECOND
: {third}
</pre>"""
    assert wanted in text, text
    # Without print control characters the first column is text, but for a form feed.
    lines = ["1 TITLE", *FIRST.listing()[:2], "\f2 TITLE", *FIRST.listing()[2:]]
    text = well(coverage("page", data=Program(FIRST.code, lines).report([], "  : ::", 3))).output.decode()
    assert '<pre>  1 TITLE\n  ' in text and '\n<span class="new"></span>  2 TITLE\n: 000004' in text, text


def labels() -> None:
    """page: ranges and branches that went one way only, with the label or the statement that they are behind"""
    wanted = [
        "000006-000007 behind MAIN, statement 4", "00000E-00000F behind NEAR, statement 9",
        "000014-000015 HERE, statement 13", "000018-000019 behind MAIN.000016, statement 20",
        "000002 fell through only, behind MAIN, statement 3", "000010 branched only, LATER, statement 11",
    ]
    for report in (labelled(), labelled(True), labelled(False, " "), labelled(True, " ")):
        page = page_of(report)
        equal(page.items[:6], wanted)
        assert "4 ranges not executed:" in page.text and "2 branches went one way only:" in page.text
        equal([it for it in page.links if str(it).startswith("#S.M.")], [f"#S.M.{it[:6]}" for it in wanted])
    # A page that begins between a label and its place, whose title has words of a statement.
    for is_wide in (False, True):
        for words in (b"DSECT", b"CSECT", b"NAME EQU *", b"DS    0H"):
            for name in (b"LATER    DS    0H\n", b"HERE     EQU   *\n"):
                title = b"  MAIN".ljust(52 if is_wide else 42) + b" " + words.ljust(60) + b"Page    2\n"
                equal(page_of(labelled(is_wide).replace(name, name + title)).items[:6], wanted)
    # Without labels the statement alone; counts alone have neither.
    equal(page_of(NOT_RUN).items[0], "000000-000005 statement 1")
    equal(page_of(COUNTED.counted(RETURNED, (0, 1), (1,))).items[0], "000000 fell through only")


def labels_before_alignment() -> None:
    """page: a place behind the bytes of a CNOP has the label in front of it"""
    wanted = ["000004-000005 OVER, statement 4", "000008-000009 NEXT, statement 6", "000010-000017 behind ALIGNED, statement 11"]
    for report in (aligned(), aligned(True), aligned(False, " "), aligned(True, " "), aligned().replace(b"0700 0700", b"07000700 ")):
        page = page_of(report)
        equal(page.items[:3], wanted)
        with folder() as at:
            with open(f"{at}/rules", "wb") as file:
                file.write(b"M OVER\nM ALIGNED\nM ZERO\n")
            text = well(coverage("summary", "--leave-out", "rules", data=report, cwd=at)).output.decode()
            assert text.splitlines()[1].endswith("6, 2 executed"), text


def many(count: int) -> bytes:
    """The report of a module of so many pairs, a branch that only fell through and an instruction that didn't run."""
    code = [pair for at in range(0, 6 * count, 6) for pair in ((at, "4780F000", "BE"), (at + 4, "1A11", "AR"))]
    not_run = [f"{at + 4:06X}-{at + 5:06X}" for at in range(0, 6 * count, 6)]
    return Program(code).report(RETURNED, "V^" * count, 3 * count, *not_run)


def folded(page: Page) -> int:
    """How many parts of a page are folded."""
    return sum(tag == "details" and "open" not in values for tag, values in page.tags)


def folded_lists() -> None:
    """page: up to twelve ranges and branches stand open, and more are folded"""
    few, more = page_of(many(12)), page_of(many(230))
    equal(folded(few), 1)
    assert "12 ranges not executed:" in few.text and "12 branches went one way only:" in few.text
    equal(folded(more), 3)
    assert "230 ranges not executed" in more.text and "230 branches went one way only" in more.text
    equal(len(more.items), 2 * 230 + 5)


def back_to_the_top() -> None:
    """page: behind each listing's title, and that of the results, stands the way back"""
    page = page_of(FIRST_REPORT)
    equal((page.links.count("#top"), page.text.count("Back to the top")), (2, 2))
    equal(page.ids[0], "top")


def in_order(text: str, *parts: str) -> None:
    """Fails unless the text has the parts, and each for the first time behind the one before."""
    places = [text.index(it) for it in parts]
    equal(places, sorted(places))


def tasks_first() -> None:
    """page: the tasks stand before the sessions, those first that have not returned, with ending and count"""
    page = page_of(ENDED)
    equal(page.rows[:6], [
        ["Task", "Ending", "Instructions"], ["B", "SPENT its budget is used up", "1"],
        ["C", "ABEND 6 specification", "1"], ["D", "ABEND 1 operation", "1"], ["E", "ABEND 5 addressing", "1"],
        ["A", "RETURNED", "3"],
    ])
    in_order(page.text, "4 of 5 tasks did not return.", "ABEND 6 specification", "Sessions and modules")
    equal(page.links[:5], [f"#task.{it}" for it in "BCDEA"])
    assert "did not return" not in page_of(FIRST_REPORT).text
    # Those that returned are folded where they are many, and the others aren't.
    results = [Result("RETURNED", 3, name=f"T{it}") for it in range(13)]
    page = page_of(FIRST.report([*results, Result("OUTFULL", 2, name="LATE")], ":::", 3))
    equal(page.rows[1], ["LATE", "OUTFULL no room for its output", "2"])
    equal([it[0] for it in page.rows[2:16]], ["Task", *(it.name for it in results)])
    # Read as data, or run into from an address within another.
    page_row = page_of(FIRST.report([Result("TOUCHED 100004", 2)], ":::", 3)).rows[1]
    equal(page_row[1], "TOUCHED 100004 an instruction read as data, or as a part of another")
    assert "13 tasks returned" in page.text and "1 of 14 tasks did not return." in page.text


def task_ends() -> None:
    """page: behind a report's ends each task has a link to the line where it ended, which names it"""
    page = page_of(ENDED + ENDS)
    equal([it[3] for it in page.rows[:6]], [
        "Ended at", "M 000004", "M 000007", "00000E in private storage", "100008, where nothing is",
        "FFFFFE, the return address",
    ])
    # Inside an instruction: the line of that.
    equal(page.links[:7], ["#task.B", "#S.M.000004", "#task.C", "#S.M.000006", "#task.D", "#task.E", "#task.A"])
    for line in ("2          AR  \u2190 B SPENT\n", "3          BR  \u2190 C ABEND 6\n"):
        assert line in page.text, page.text
    equal(page.text.count("\u2190"), 2)
    # On the line of a constant; at a location that no line shows; in a module that no session shows.
    for at, words, link in (
        ("10000D M 00000D", "M 00000D", "#S.M.line9"), ("10000B M 00000B", "M 00000B", "#S.M.00000A"),
        ("10001C M 00001C", "M 00001C, on no line of the listing", None),
        ("10000C N 00000C", "N 00000C, which has no listing here", None),
        ("FFFFFE", "FFFFFE, the return address", None),
    ):
        for report in (labelled(), labelled(True, " ")):
            page = page_of(report + ends("M 0", tasks=[(RETURNED[0], f"AT {at}")]))
            equal((page.rows[1][3], page.links[1] if link else None), (words, link))
    # A module of two sessions: a link for each. Counts alone have the lines of places.
    session = b"".join(FIRST_REPORT.partition(b"SESSION S")[1:])
    two = FIRST_REPORT[:-4] + session.replace(b"SESSION S", b"SESSION T")
    page = page_of(two + ends("M 0", tasks=[(ENDINGS[0][0], "AT 100004 M 000004")]))
    equal((page.rows[1][3], page.links[1:3]), ("M 000004 in S, T", ["#S.M.000004", "#T.M.000004"]))
    page = page_of(COUNTED.counted(RETURNED, (0, 1), (1,)) + ends("M 0", tasks=[(RETURNED[0], "AT 100004 M 000004")]))
    assert ":   1 000004  \u2190 A RETURNED\n" in page.text, page.text


def many_at_a_line() -> None:
    """page: of many tasks that ended on one line it names three"""
    results = [Result("SPENT", 1, name=f"T{it}") for it in range(5)]
    page = page_of(FIRST.report(results, ":::", 3) + ends("M 0", tasks=[(it, "AT 100004 M 000004") for it in results]))
    assert "AR  \u2190 T0 SPENT, T1 SPENT, T2 SPENT and 2 more\n" in page.text
    equal(page.links.count("#S.M.000004"), 5)


def unlisted() -> None:
    """page: instructions that ran on no line are told first, in the table and at the listing, where there are any"""
    page = page_of(ENDED + ends("M 6400000000", "N 1"))
    told = "6,400,000,000 executions in M on no instruction line of its listing."
    equal(page.text.count(told), 2)
    in_order(page.text, told, "1 execution in N on no instruction line", "Ended at")
    equal([it[-1] for it in page.rows if "On no line" in it or it[2:3] == ["M"]], ["On no line", "6,400,000,000"])
    for report in (ENDED + ENDS, ENDED):
        page = page_of(report)
        assert "no instruction line" not in page.text and "On no line" not in page.text


def texts() -> None:
    """page: output and storage as text in the code page that reads better"""
    text = "FIRST  0012 (a,b)"
    ebcdic, ascii_ = text.encode("cp037"), text.encode()
    for output, stored, names, rows in (
        (ebcdic, ascii_, ("EBCDIC", "ASCII"), ("|FIRST  0012 (a,b|", "|)|", "|FIRST  0012 (a,b|")),
        (ascii_, ebcdic, ("ASCII", "EBCDIC"), ("|FIRST  0012 (a,b|", "|)|", "|FIRST  0012 (a,b|")),
        # What can't be printed; nothing that either reads, and as much as the other: EBCDIC.
        (b"ab\x00\x7f\xffcd", bytes(16), ("ASCII", "EBCDIC"), ("|ab...cd|", "|................|")),
        (b"A\xc1", bytes(16), ("EBCDIC", "EBCDIC"), ("|.A|", "|................|")),
    ):
        result = Result("RETURNED", 3, output=output, rows=[f"000010 {stored[:16].hex().upper()}"])
        page = page_of(FIRST.report([result], ":::", 3))
        for title in (f"Output, as {names[0]} text", f"Private storage that changed, as {names[1]} text"):
            assert title in page.text, page.text
        equal(tuple(re.findall(r"\|[^|\n]*\|", page.text)), rows)


def large_pages() -> None:
    """page: sixteen modules of 4,096 places make a page that is hardly longer than its report, and has few elements"""
    code = [(2 * at, "1A11", "AR") for at in range(4096)]
    lines = Program(code).session(":" * 4000 + "^" * 96, 4096, ("001F40-001FFF",))
    modules = [line for it in range(16) for line in [lines[1].replace("MODULE M", f"MODULE M{it}"), *lines[2:]]]
    report = "\n".join(["COVERAGE REPORT", lines[0], *modules, "END", ""]).encode()
    text = well(coverage("page", data=report)).output
    assert len(text) < len(report) + 60_000, (len(text), len(report))
    page = Page(text.decode())
    assert len(page.tags) < 16 * 60 + 100
    # All listings are folded.
    equal(folded(page), 16)


def contrast() -> None:
    """page: text stands out from its ground by 4.5 to 1 and more, in light and in dark"""
    with open(f"{TOP}/scripts/makers/page.css", encoding="utf-8") as file:
        schemes = file.read().split("@media screen")[:2]
    grounds = ("ground", "panel", "not-ground", "half-ground", "lost-ground", "gained-ground", "fresh-ground")
    # Lines that have changed have text alone on their grounds, and what ended there.
    pairs = [(text, ground) for text in ("text", "not") for ground in grounds]
    pairs += [(text, ground) for text in ("dim", "link") for ground in grounds[:4]]
    for scheme in (dict(re.findall(r"--([a-z-]+): (#[0-9a-f]{6});", it)) for it in schemes):
        equal(len(scheme), 18)
        for text, ground in [*pairs, ("half", "half-ground"), ("done", "ground")]:
            lighter, darker = sorted((luminance(scheme[it]) for it in (text, ground)), reverse=True)
            assert (lighter + 0.05) / (darker + 0.05) >= 4.5, (text, ground)


def luminance(color: str) -> float:
    """The relative luminance of a colour, as the Web Content Accessibility Guidelines define it."""
    parts = [int(color[at : at + 2], 16) / 255 for at in (1, 3, 5)]
    red, green, blue = (it / 12.92 if it <= 0.04045 else ((it + 0.055) / 1.055) ** 2.4 for it in parts)
    return 0.2126 * red + 0.7152 * green + 0.0722 * blue


def page_escapes() -> None:
    """page: a listing's bytes are text: markup, control characters, and what is no UTF-8"""
    report = FIRST_REPORT.replace(b"          AR", b" <b>&amp;\x1b\xff AR")
    equal("<b>" in well(coverage("page", data=report)).output.decode(), False)
    assert "<b>&amp;\ufffd\xff AR" in Page(coverage("page", data=report).output.decode()).text


def replays() -> None:
    """page: the events of a schedule, each that docs/REPORT.md has"""
    with open(f"{TOP}/docs/REPORT.md", encoding="utf-8") as file:
        keys = re.findall(r"`EVENT n ([A-Z]+) ", file.read())
    equal(sorted(set(keys)), sorted({it.split()[0] for it in EVENTS}))
    lines = [f"EVENT {number} {it}" for number, it in enumerate(EVENTS, 1)]
    assert "A RUNNING, 3 instructions" in Page(well(coverage("page", data=RUNNING)).output.decode()).text
    for report, told in ((OPENED_REPLAY, OPENED_LINES), (replayed(*lines), lines)):
        text = Page(well(coverage("page", data=report)).output.decode()).text
        assert "\n".join(told) in text and f"{len(told)} events of the schedule" in text, text


def show_page() -> None:
    """page: what `show` writes, which has no task"""
    text = Page(well(coverage("page", data=COUNTED.shown("&:", 3))).output.decode()).text
    assert "Coverage by a marks file" in text and "Tasks" not in text and "1 session: " in text


def counted_pages() -> None:
    """page: counts behind a report stand behind its marks; counts alone have locations for a listing"""
    for program, marks, counts, columns in (
        (COUNTED, "&:", ((2, 1), (1,)), ("2 1", "  1")),
        (COUNTED.wide(), "V:", ((0, 12), (12,)), ("0 12", "  12")),
        (COUNTED, "^^", ((0, 0), (0,)), ("0 0", "  0")),
    ):
        ranges = ("000000-000005",) if marks == "^^" else ()
        report, counted = program.report(RETURNED, marks, 3, *ranges), program.counted(RETURNED, *counts)
        both, alone = (Page(well(coverage("page", data=it)).output.decode()) for it in (report + counted, counted))
        for mark, column, line, (at, _, _) in zip(marks, columns, program.listing()[1:], program.code):
            assert f"{mark} {column} {line}" in both.text, both.text
            assert f"{mark} {column} {at:06X}" in alone.text, alone.text
        for page, title in ((both, "Coverage report"), (alone, "Coverage by counts")):
            assert title in page.text and "1 session, 1 task: " in page.text and "Behind each mark: how often" in page.text
    # Lines of a listing may stand in another order than places.
    heading, first, second = COUNTED.listing()
    turned = Program(COUNTED.code, [heading, second, first])
    report = turned.report(RETURNED, ":&", 3) + turned.counted(RETURNED, (2, 1), (1,))
    text = Page(well(coverage("page", data=report)).output.decode()).text
    assert f":   1 {second}\n& 2 1 {first}" in text, text


def early_pages() -> None:
    """page: a report of early says when a session was drained, and is else one of run"""
    for report, words in (
        (DRAINED, "Final when its controller had done 1,234 instructions."),
        (NOT_DRAINED, "Not known to be final while its controller ran."),
    ):
        text = well(coverage("page", data=report)).output.decode()
        equal(text.replace(f"<p>{words}</p>\n", ""), well(coverage("page", data=FIRST_REPORT)).output.decode())
        assert words in Page(text).text
    # That of a session without a listing stands by itself.
    bare = FIRST_REPORT[: FIRST_REPORT.index(b"MODULE ")] + b"DRAINED COUNT 1\nEND\n"
    text = Page(well(coverage("page", data=bare)).output.decode()).text
    assert "Session S\nBack to the top\nFinal when its controller had done 1 instruction." in text, text


def size_of(png: bytes) -> tuple[int, int, bytes]:
    """The width, the height, and the pixels of the picture, still filtered."""
    width, height = struct.unpack(">II", png[16:24])
    at, data = 8, b""
    while at < len(png):
        length, kind = struct.unpack(">I4s", png[at : at + 8])
        data += png[at + 8 : at + 8 + length] if kind == b"IDAT" else b""
        at += length + 12
    return width, height, zlib.decompress(data)


def browse(path: str, at: str, name: str, *words: str) -> None:
    """Runs a browser over a page of the folder, which makes a file there."""
    fixed = ["--headless", "--no-sandbox", "--disable-gpu", "--disable-dev-shm-usage", f"--user-data-dir={at}/profile"]
    equal(run([path, *fixed, *words, f"file://{at}/{name}"], cwd=at).status, 0)


def in_print(path: str) -> None:
    """page: a browser prints what is folded: as many sheets as of the page with nothing folded"""
    sheets = []
    page = well(coverage("page", data=many(230))).output
    with folder() as at:
        unfolded = page.replace(b"<details>", b"<details open>")
        for text in (page, unfolded, re.sub(rb"<details>.*?</details>", b"", page, flags=re.S)):
            with open(f"{at}/page.html", "wb") as file:
                file.write(text)
            browse(path, at, "page.html", f"--print-to-pdf={at}/page.pdf")
            with open(f"{at}/page.pdf", "rb") as file:
                sheets.append(len(re.findall(rb"/Type */Page\b", file.read())))
    equal(sheets[0], sheets[1])
    assert sheets[0] > sheets[2], sheets


def in_browser(path: str) -> None:
    """page: a browser draws it, in light and in dark"""
    pictures = []
    with folder() as at:
        with open(f"{at}/page.html", "wb") as file:
            file.write(well(coverage("page", data=MARKED)).output)
        for scheme in ("1", "0"):
            words = ["--window-size=900,600", f"--blink-settings=preferredColorScheme={scheme}"]
            browse(path, at, "page.html", f"--screenshot={at}/{scheme}.png", *words)
            with open(f"{at}/{scheme}.png", "rb") as file:
                pictures.append(size_of(file.read()))
    for width, height, pixels in pictures:
        equal((width, height), (900, 600))
        assert len(set(pixels)) > 20, "the picture has next to no colours"
    assert pictures[0] != pictures[1], "light and dark are the same"


def run_all(tally: Tally) -> None:
    """Runs a browser over pages, where there is one."""
    path = browser.found()
    if path:
        run_checks(tally, [functools.partial(it, path) for it in (in_browser, in_print)])
    else:
        tally.left_out.append("the page in a browser, since there is no chromium")


CHECKS = [
    pages, page_escapes, control_characters, labels, labels_before_alignment, folded_lists, back_to_the_top, tasks_first, task_ends,
    many_at_a_line, unlisted, texts, large_pages, contrast, replays, show_page, counted_pages, early_pages,
]
