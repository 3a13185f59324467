"""The page of many sessions: its index, which headings sort; changes against an old report; and how fast it loads."""
from __future__ import annotations

import base64
import functools
import random
import re

from cases.diff_cases import of_rows
from cases.page_cases import Page, browse, folded, size_of
from cases.report_cases import COUNTS, ENDED, MARKED, RETURNED, ends, labelled
from fixtures import browser
from fixtures.harness import TOP, Tally, coverage, equal, folder, misused, refused, run_checks, well
from fixtures.jobs import COUNTED, FIRST_REPORT, Program

SECOND = 1000


def page_of(report: bytes, *words: str, **files: bytes) -> Page:
    """The page of a report, with these files beside it."""
    with folder() as at:
        for name, data in files.items():
            with open(f"{at}/{name}", "wb") as file:
                file.write(data)
        page = Page(well(coverage("page", *words, data=report, cwd=at)).output.decode())
    equal(len(set(page.ids)), len(page.ids))
    for link in page.links:
        assert link and link[:1] == "#" and link[1:] in page.ids, link
    return page


def sessions(*marks: str) -> bytes:
    """A report with a session for each, S0 and further, whose module has a branch and another instruction."""
    parts = []
    for at, it in enumerate(marks):
        ranges = {"^^": ("000000-000005",), "^:": ("000000-000003",)}.get(it, ("000004-000005",) if it[1] == "^" else ())
        parts += ["\n".join(COUNTED.session(it, 3, ranges)).replace("SESSION S", f"SESSION S{at}")]
    return "\n".join(["COVERAGE REPORT", *parts, "END", ""]).encode()


def ranks(page: Page) -> list[dict[str, int]]:
    """The ranks of each row of the index."""
    styles = [style for tag, values in page.tags if tag == "tr" and (style := values.get("style"))]
    pairs = [[it.removeprefix("--by-").split(":") for it in style.split(";")] for style in styles]
    return [{name: int(rank) for name, rank in it} for it in pairs]


def classes(page: Page) -> list[str]:
    """How the lines are drawn that are drawn otherwise than most."""
    found = [values.get("class") or "" for tag, values in page.tags if tag == "span" and "style" not in values]
    return [it for it in found if it != "bar"]


def sorted_columns() -> None:
    """page: with more than three rows each has its rank by each column: shares from the lowest, numbers from the largest"""
    report = sessions("&:", "^^", "V:", ">^", "&:")
    page = page_of(report)
    wanted = {
        "report": [0, 1, 2, 3, 4], "session": [0, 1, 2, 3, 4], "phase": [0] * 5, "module": [0] * 5,
        # Two of two, none, two, one, two places; three of three, none, two, one, three facts.
        "places": [2, 0, 2, 1, 2], "facts": [3, 0, 2, 1, 3], "ranges": [1, 0, 1, 0, 1],
    }
    equal(ranks(page), [{name: it[at] for name, it in wanted.items()} for at in range(5)])
    choices = [(values.get("type"), values.get("id"), "checked" in values) for tag, values in page.tags if tag == "input"]
    others = [("radio", f"by-{it}", False) for it in [*wanted][1:]]
    equal(choices, [("radio", "by-report", True), ("checkbox", "turned", False), *others])
    with open(f"{TOP}/scripts/makers/page.css", encoding="utf-8") as file:
        css = file.read()
    # Each column that there can be has its rule.
    found: set[str] = set()
    calls: list[tuple[bytes, tuple[str, ...], dict[str, bytes]]] = [
        (ENDED[:-4] + report.partition(b"\n")[2] + ends("M 5"), (), {}), (report, ("--against", "old"), {"old": report}),
        (report, ("--leave-out", "rules"), {"rules": b"M 000000-000000"}),
    ]
    for data, words, files in calls:
        found |= set(ranks(page_of(data, *words, **files))[0])
    equal(found - set(wanted), {"lost", "less", "more", "fresh", "out"})
    for name in found - {"report"}:
        assert f"#by-{name}:checked) tbody tr {{ --key: var(--by-{name}); }}" in css, name
    for few in (sessions("&:", "^^", "V:"), FIRST_REPORT):
        page = page_of(few)
        equal((ranks(page), [tag for tag, _ in page.tags if tag == "input"]), ([], []))


def listings_fold() -> None:
    """page: each listing folds, and all of them are folded at first where they are more than four"""
    for count, closed in ((1, 0), (4, 0), (5, 5), (13, 13)):
        page = page_of(sessions(*["&:"] * count))
        equal((page.text.count("Listing, 3 lines"), folded(page)), (count, closed))


def against_old() -> None:
    """page: against an old report it tells what diff tells, colours each line that has changed, and links to it"""
    page = page_of(of_rows(1), "--against", "old", old=of_rows(0))
    told = "Against old: 3 facts lost, 0 gained; 4 facts of new places not shown; 3 places gone."
    assert told in page.text and page.text.index(told) < page.text.index("Tasks"), page.text
    assert "Against old: 9 of 12 facts, 75 %, before; 7 of 15 facts, 46 %, now; 3 places gone." in page.text, page.text
    equal(page.items[:5], [
        "000002 no longer branched, behind MAIN, statement 2",
        "000008-00000B no longer executed, 2 places, behind MAIN, statement 4",
        "000006 not executed, behind MAIN, statement 3", "000016 branched only, FRESH, statement 9",
        "00001A-00001D not executed, 2 places, behind FRESH, statement 10",
    ])
    for title in ("3 facts lost:", "4 facts of new places not shown:"):
        assert title in page.text, page.text
    assert "facts gained:" not in page.text
    equal(classes(page), ["lost", "fresh", "lost", "half", "fresh", "fresh"])
    for line in (
        "BE    LATER  \u2190 no longer branched\n", "LR    3,3  \u2190 no longer executed\n",
        "LR    7,7  \u2190 new, not executed\n",
    ):
        assert line in page.text, page.text
    rows = [it for it in page.rows if it[:1] == ["S"]]
    equal([it[-3:] for it in rows], [["3", "0", "4"]])
    # A branch that went the other way has lost one fact and gained one.
    old, new = (COUNTED.report(RETURNED, it, 3) for it in (">:", "V:"))
    page = page_of(new, "--against", "old", old=old)
    equal([it[-3:] for it in page.rows if it[:1] == ["S"]], [["1", "1", "0"]])
    assert "\u2190 no longer branched, fell through now\n" in page.text, page.text
    # Of what hasn't changed the page is that without, but for its sums.
    page = page_of(MARKED, "--against", "old", old=MARKED)
    assert "Against old: 0 facts lost, 0 gained; 0 facts of new places not shown." in page.text
    equal([values.get("class") for tag, values in page.tags if tag == "span" and values.get("id")], ["half"])


def against_others() -> None:
    """page: against a report with another session it tells which this one lacks; what is none is refused"""
    session = b"".join(FIRST_REPORT.partition(b"SESSION S")[1:])
    two = FIRST_REPORT[:-4] + session.replace(b"SESSION S", b"SESSION T")
    assert "Not in this report: M in session T." in page_of(FIRST_REPORT, "--against", "old", old=two).text
    page = page_of(two, "--against", "old", old=FIRST_REPORT)
    assert "Against old: not in the old report; 3 of 3 facts, 100 %, now." in page.text, page.text
    with folder() as at:
        for name, data in (("bad", b"x"), ("other", two.replace(b"MODULE M", b"MODULE N")), ("counts", COUNTS)):
            with open(f"{at}/{name}", "wb") as file:
                file.write(data)
        for name, text in (
            ("none", "coverage: none: No such file"), ("bad", "coverage: bad: line 1: no report"),
            ("counts", "coverage: counts: counts alone"),
            ("other", "coverage: standard input: no listing is of a session and a module that other has too"),
        ):
            refused(coverage("page", "--against", name, data=FIRST_REPORT, cwd=at), 2, text)
    for words, said in (
        (["--against"], "--against lacks the word behind it"), (["--against", "a", "b"], "b is a word too many"),
        (["--against", "a", "--against", "a"], "--against stands twice"), (["--new"], "--new is none of its options"),
    ):
        misused(coverage("page", *words, data=FIRST_REPORT), "page", said)


def left_out() -> None:
    """page: what is left out stands with its mark and without its colour, and in no list"""
    page = page_of(labelled(), "--leave-out", "rules", rules=b"M HERE\nM LATER\n")
    assert "3 ranges not executed:" in page.text and "1 branch went one way only:" in page.text, page.text
    # The first is the legend's; a line stands between the two that are left out.
    equal(classes(page), ["out", "half", "not", "not", "out", "out", "not"])
    assert "left out: 2" in page.text, page.text


# In a browser

ROWS = """[...document.querySelectorAll('tbody tr')].filter(row => row.style.length)
.sort((one, other) => one.getBoundingClientRect().top - other.getBoundingClientRect().top)
.map(row => row.cells[0].innerText)"""
COLOURS = "[...document.querySelectorAll('pre span')].map(line => getComputedStyle(line).backgroundColor)"
LOADED = "performance.getEntriesByType('navigation')[0].loadEventEnd"


def large(seed: int) -> bytes:
    """A report of sixteen modules of 4,096 places, of which some hundred ranges didn't run."""
    draw = random.Random(seed)
    parts = []
    for number in range(16):
        marks = "".join(draw.choice(("^" * 8, ":" * 24)) for _ in range(256))[:4096].ljust(4096, ":")
        begins = [at for at in range(4096) if marks[at] == "^" and (at == 0 or marks[at - 1] != "^")]
        spans = [(at, at + len(marks[at:]) - len(marks[at:].lstrip("^")) - 1) for at in begins]
        ranges = tuple(f"{2 * first:06X}-{2 * last + 1:06X}" for first, last in spans)
        code = [(2 * at, "1A11", f"AR    1,{at % 16}") for at in range(4096)]
        lines = Program(code).session(marks, 4096, ranges)
        parts += ([lines[0]] if number == 0 else []) + [lines[1].replace("MODULE M", f"MODULE M{number}"), *lines[2:]]
    return "\n".join(["COVERAGE REPORT", *parts, "END", ""]).encode()


def is_sorted(it: browser.Browser, at: str) -> None:
    """page: in a browser a click on a heading sorts the index, and another box turns it"""
    with open(f"{at}/page.html", "wb") as file:
        file.write(well(coverage("page", data=sessions("&:", "^^", "V:", ">^", "&:"))).output)
    it.draw("light", 1200, 800)
    it.open(f"{at}/page.html")
    equal(it.value(ROWS), ["S0", "S1", "S2", "S3", "S4"])
    for selector, wanted in (
        ("label:has(#by-facts)", "13204"), ("#turned", "04231"), ("label:has(#by-ranges)", "02413"), ("#turned", "13024"),
        ("label:has(#by-session)", "01234"), ("#turned", "43210"), ("label:has(#by-report)", "43210"), ("#turned", "01234"),
    ):
        it.press(selector)
        equal((selector, it.value(ROWS)), (selector, [f"S{number}" for number in wanted]))


def opens_folds(it: browser.Browser, at: str) -> None:
    """page: in a browser a link to a line of a listing that is folded opens it"""
    with open(f"{at}/page.html", "wb") as file:
        file.write(well(coverage("page", data=sessions("&:", "^^", "V:", ">^", "&:"))).output)
    it.open(f"{at}/page.html")
    opened = "[...document.querySelectorAll('details.fold')].map(fold => fold.open)"
    equal(it.value(opened), [False] * 5)
    it.press("a[href='#S1.M.000000']")
    equal(it.value(opened), [False, True, False, False, False])


def loads(it: browser.Browser, at: str) -> None:
    """page: sixteen modules of 4,096 places load within a second, against an old report too"""
    with open(f"{at}/old", "wb") as file:
        file.write(large(2))
    for words in ((), ("--against", "old")):
        with open(f"{at}/page.html", "wb") as file:
            file.write(well(coverage("page", *words, data=large(1), cwd=at)).output)
        times: list[float] = []
        while len(times) < 5 and min(times, default=SECOND) >= SECOND:
            it.open(f"{at}/page.html")
            times.append(it.value(LOADED))
        assert min(times) < SECOND, f"{words}: {times} milliseconds"


def in_colour(it: browser.Browser, at: str) -> None:
    """page: in a browser changes are drawn, in light and in dark, and differ from the page without them"""
    with open(f"{at}/old", "wb") as file:
        file.write(of_rows(0))
    pictures = []
    for words in ((), ("--against", "old")):
        with open(f"{at}/page.html", "wb") as file:
            file.write(well(coverage("page", *words, data=of_rows(1), cwd=at)).output)
        it.open(f"{at}/page.html")
        for scheme in ("light", "dark"):
            picture = size_of(base64.b64decode(it.draw(scheme, 1000, 1200)))
            equal(picture[:2], (1000, 1200))
            pictures.append(picture[2])
            colours = it.value(COLOURS)
            assert len(set(colours)) == (3 if words else 2), colours
    equal(len(set(pictures)), 4)


def prints(path: str) -> None:
    """page: a browser prints listings that are folded: as many sheets as where they are open"""
    page = well(coverage("page", data=sessions(*["&:"] * 60))).output
    sheets = []
    with folder() as at:
        for text in (page, page.replace(b'<details class="fold">', b'<details class="fold" open>')):
            with open(f"{at}/page.html", "wb") as file:
                file.write(text)
            browse(path, at, "page.html", f"--print-to-pdf={at}/page.pdf")
            with open(f"{at}/page.pdf", "rb") as file:
                sheets.append(len(re.findall(rb"/Type */Page\b", file.read())))
    equal(page.count(b'<details class="fold">'), 60)
    equal(*sheets)
    assert sheets[0] > 4, sheets


def run_all(tally: Tally) -> None:
    """Runs a browser over pages, where there is one."""
    path = browser.found()
    if not path:
        tally.left_out.append("the index and the changes of a page in a browser, since there is no chromium")
        return
    run_checks(tally, [functools.partial(prints, path)])
    with folder() as at, browser.browsing(path) as it:
        run_checks(tally, [functools.partial(check, it, at) for check in (is_sorted, opens_folds, loads, in_colour)])


CHECKS = [sorted_columns, listings_fold, against_old, against_others, left_out]
