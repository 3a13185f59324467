"""Differences of two reports (docs/SUMMARY.md): of one listing, and of one that has changed."""
from __future__ import annotations

import itertools
import random
import shutil
import sys

from cases.report_cases import COUNTS, ENDED, ENDS, MARKED, NO_LISTING, RETURNED, labelled
from fixtures.harness import TOP, Tally, coverage, equal, folder, misused, refused, run, run_checks, well
from fixtures.jobs import FACTS, FIRST_REPORT, HEADING, WIDE_HEADING, Program

sys.path.insert(0, f"{TOP}/scripts")

from readers import difference, in_common  # noqa: E402
from readers.report import Line, read_report  # noqa: E402

# What a place shows and then shows, by its marks: what is told, lost facts and gained ones.
STRAIGHT = {("^", ":"): ["gained executed now"], (":", "^"): ["lost no longer executed"]}
BRANCHES = {
    ("^", ">"): ["gained executed now"], ("^", "V"): ["gained executed now"], ("^", "&"): ["gained executed now"],
    (">", "^"): ["lost no longer executed"], ("V", "^"): ["lost no longer executed"],
    ("&", "^"): ["lost no longer executed"],
    (">", "&"): ["gained fell through now"], ("V", "&"): ["gained branched now"],
    ("&", ">"): ["lost no longer fell through"], ("&", "V"): ["lost no longer branched"],
    (">", "V"): ["lost no longer branched", "gained fell through now"],
    ("V", ">"): ["lost no longer fell through", "gained branched now"],
}
# A source statement and its object code, and its marks before and now, where it is there. SPARE has moved, and what stands
# before it has other locations and numbers; remarks, kinds and constants have changed.
ROWS = """
MAIN     LTR   1,1               |1211    |:|:
         BE    LATER             |4780F010|&|V
         LR    2,2    old remark |1822    |:|
         LR    2,2    new remark |1822    | |^
         LR    3,3               |1833    |:|^
         LR    4,4               |1844    |:|^
SPARE    LR    5,5               |1855    |^|
DATA     DC    C'AB'             |C1C2    | |
         BC    MASK,MAIN         |4780F000|V|
         BC    MASK,MAIN         |47F0F000| |:
LATER    BCT   6,MAIN            |4660F000|>|>
FRESH    BE    MAIN              |4780F000| |>
         LR    7,7               |1877    | |^
         LR    8,8               |1888    | |^
         BR    14                |07FE    |:|:
SPARE    LR    5,5               |1855    | |:
"""
WANTED = """\
M in session S: 9 of 12 facts, 75 %, before; 7 of 15 facts, 46 %, now; 3 places gone
  lost  000002         no longer branched            behind MAIN, statement 2    BE    LATER
  new   000006         not executed                  behind MAIN, statement 3    LR    2,2    new remark
  lost  000008-00000B  no longer executed, 2 places  behind MAIN, statement 4    LR    3,3
  new   000016         branched only                 FRESH, statement 9          FRESH    BE    MAIN
  new   00001A-00001D  not executed, 2 places        behind FRESH, statement 10  LR    7,7
3 facts lost, 0 gained; 4 facts of new places not shown; 3 places gone.
"""


def written(lines: list[tuple[str, str, str]], is_wide: bool = False, before: str = "", numbered: bool = False) -> bytes:
    """The report over a listing of these statements, with their object codes and marks."""
    texts, marks, code, at = [before + (WIDE_HEADING if is_wide else HEADING)], " ", [], 0
    ranges: list[str] = []
    for number, (source, digits, mark) in enumerate(lines, 1):
        groups = " ".join(digits[it : it + 4] for it in range(0, len(digits), 4))
        front = f"{at:08X} {groups:<35}" if is_wide else f"{at:06X} {groups:<27}"
        texts.append(f"{before}{front}{number:>5} {f'{source:<72}{number * 10:08}' if numbered else source}")
        marks += mark
        if mark != " ":
            code.append((at, digits, "BE" if mark in ">V&" else "LR"))
            if mark == "^":
                begin = ranges.pop()[:6] if marks[:-1].rstrip().endswith("^") else f"{at:06X}"
                ranges.append(f"{begin}-{at + len(digits) // 2 - 1:06X}")
        at += len(digits) // 2
    # 47 with a mask of 1 to 14 and BCT are conditional, and so have two facts.
    possible = sum(1 + (it.startswith("46") or it.startswith("478")) for it in (digits for _, digits, _ in code))
    return Program(code, texts).report(RETURNED, marks, possible, *ranges)


def of_rows(column: int, **form: object) -> bytes:
    """The report before or now."""
    rows = [it.split("|") for it in ROWS.strip("\n").split("\n")]
    names = [(source.rstrip(), digits.strip(), marks[column] or " ") for source, digits, *marks in rows]
    # A constant stands there in both.
    lines = [(source, digits, mark) for source, digits, mark in names if mark != " " or "DC" in source]
    return written(lines, **form)  # type: ignore[arg-type]


def told(old: bytes, new: bytes, *words: str, rules: str = "") -> str:
    """What diff says of two reports."""
    with folder() as at:
        for name, data in (("old", old), ("new", new), ("rules", rules.encode())):
            with open(f"{at}/{name}", "wb") as file:
                file.write(data)
        return well(coverage("diff", *words, "old", "new", cwd=at)).output.decode()


def each_change() -> None:
    """diff: of each mark before and now it tells what was lost and gained"""
    for code, marks, wanted in (("1A11", "^:", STRAIGHT), ("4780F000", "^>V&", BRANCHES)):
        for before, now in itertools.product(marks, repeat=2):
            program = Program([(0, code, "BE" if code[0] == "4" else "AR")])
            last = f"00000{len(code) // 2 - 1}"
            possible = len(code) // 4
            ranges = {it: ((f"000000-{last}",) if it == "^" else ()) for it in marks}
            old, new = (program.report([], it, possible, *ranges[it]) for it in (before, now))
            lines = told(old, new).splitlines()
            had = [" ".join(it.split()).replace(" 000000 ", " ").partition(" statement")[0] for it in lines[1:-1]]
            equal((before, now, had), (before, now, wanted.get((before, now), [])))
            known = wanted.get((before, now), [])
            more = FACTS[now] - FACTS[before]
            lost = max(-more, 0) or int(len(known) == 2)
            gained = max(more, 0) or int(len(known) == 2)
            noun = "fact" if lost == 1 else "facts"
            equal(lines[-1], f"{lost} {noun} lost, {gained} gained; 0 facts of new places not shown.")


def a_changed_listing() -> None:
    """diff: lines are found by their statements, whatever their locations, numbers, widths and print control characters"""
    all_of_it: dict[str, object] = {"is_wide": True, "before": "0", "numbered": True}
    forms: list[dict[str, object]] = [{}, {"is_wide": True}, {"before": " "}, {"numbered": True}, all_of_it]
    for one, other in itertools.product(forms, forms):
        equal(told(of_rows(0, **one), of_rows(1, **other)), WANTED)
    same = of_rows(0)
    equal(told(same, same), "0 facts lost, 0 gained; 0 facts of new places not shown.\n")


def modules_of_one() -> None:
    """diff: modules and sessions of one report alone are told, and all places of a new one are new"""
    session = b"".join(FIRST_REPORT.partition(b"SESSION S")[1:])
    not_run = Program.of("0 1A11 AR, 2 1A11 AR").report([], "^^", 2, "000000-000003").partition(b"SESSION S")[2]
    two = FIRST_REPORT[:-4] + b"SESSION T" + not_run
    more = FIRST_REPORT[:-4] + b"MODULE N" + not_run.partition(b"MODULE M")[2]
    none = "0 facts lost, 0 gained; 0 facts of new places not shown"
    gone = "M in session T: not in the new report; 0 of 2 facts, 0 %, before\n"
    equal(told(two, FIRST_REPORT), f"{gone}{none}; 2 places gone.\n")
    for report, name in ((two, "M in session T"), (more, "N in session S")):
        equal(told(FIRST_REPORT, report), f"""\
{name}: not in the old report; 0 of 2 facts, 0 %, now
  new  000000-000003  not executed, 2 places  statement 1  AR
0 facts lost, 0 gained; 2 facts of new places not shown.
""")
    # Counts and ends that stand behind, and tasks, change nothing; a schedule and a marks file are compared likewise.
    for report in (ENDED + ENDS, b"COVERAGE SHOW\n" + session):
        equal(told(FIRST_REPORT, report), f"{none}.\n")
    equal(told(MARKED + COUNTS, MARKED), f"{none}.\n")


def left_out() -> None:
    """diff: what is left out is told in no change, and how many that is of; labels leave out what is gone too"""
    text = told(of_rows(0), of_rows(1), "--leave-out", "rules", rules="M 000008-00000B\nM FRESH an exit\nM SPARE\n")
    equal(text, """\
M in session S: 5 of 6 facts, 83 %, before; 4 of 7 facts, 57 %, now; 1 place gone; 7 places left out, 3 of them executed
  lost  000002  no longer branched  behind MAIN, statement 2  BE    LATER
  new   000006  not executed        behind MAIN, statement 3  LR    2,2    new remark
1 fact lost, 0 gained; 1 fact of new places not shown; 1 place gone.
""")
    # A range is of the new report's locations: what was there before, and is gone, counts.
    text = told(of_rows(0), of_rows(1), "--leave-out", "rules", rules="M 000006-000007\n")
    before, now = "9 of 12 facts, 75 %, before", "7 of 14 facts, 50 %, now"
    equal(text.splitlines()[0], f"M in session S: {before}; {now}; 3 places gone; 1 place left out")


def refusals() -> None:
    """diff: words that it hasn't, reports that have no module in common, counts alone, and what is no report"""
    with folder() as at:
        other = FIRST_REPORT.replace(b"SESSION S", b"SESSION T")
        for name, data in (("a", FIRST_REPORT), ("b", b"BAD JOB LINE 1\n"), ("c", COUNTS), ("d", other), ("e", NO_LISTING)):
            with open(f"{at}/{name}", "wb") as file:
                file.write(data)
        for none in ((), ("a",), ("", "a"), ("--leave-out", "a")):
            refused(coverage("diff", *none, cwd=at), 1, "usage: coverage diff")
        for words, said in (
            (["a", "b", "c"], "c is a word too many"), (["--x", "a", "a"], "--x is none of its options"),
            (["a", "a", "--leave-out", "a"], "--leave-out stands behind a, and not before it"),
        ):
            misused(coverage("diff", *words, cwd=at), "diff", said)
        for words, text in (
            (["a", "b"], "b: line 1: no report"), (["b", "a"], "b: line 1: no report"),
            (["none", "a"], "none: No such file"),
            (["a", "c"], "c: counts alone"), (["c", "a"], "c: counts alone"),
            (["a", "d"], "d: no listing is of a session and a module that a has too"), (["e", "a"], "a: no listing is of"),
        ):
            refused(coverage("diff", *words, cwd=at), 2, f"coverage: {text}")
        equal(well(coverage("diff", "-", "a", data=FIRST_REPORT, cwd=at)).output.count(b"\n"), 1)
        refused(coverage("diff", "a", "-", data=b"x", cwd=at), 2, "coverage: standard input: line 1: no report")


def paged(lines: list[tuple[str, str, str]], page: int) -> bytes:
    """The report over a listing of so many lines a page, each page with its title and its heading."""
    report = written(lines).decode().splitlines(True)
    at = next(at for at, it in enumerate(report) if HEADING in it)
    end = at + 1 + len(lines)
    pages = [report[it : min(it + page, end)] for it in range(at + 1, end, page)]
    found = [[f"  TITLE{'':98}Page {number:4}\n", report[at], *part] for number, part in enumerate(pages, 1)]
    return "".join([*report[:at], *itertools.chain(*found), *report[end:]]).encode()


def pages_that_move() -> None:
    """diff: remarks that move the pages, and statements that are no places, cost no place, whatever comes again"""
    draw = random.Random(6)
    nothing = "0 facts lost, 0 gained; 0 facts of new places not shown.\n"
    for _ in range(12):
        lines = drawn(draw, draw.randrange(1, 60))
        now = lines[:]
        for _ in range(draw.randrange(1, 20)):
            at = draw.randrange(len(now) + 1)
            now[at:at] = [(draw.choice(["* one remark", "* another", "NAME     EQU   *"]), "", " ")] * draw.randrange(1, 9)
        equal(told(paged(lines, 5), paged(now, 5)), nothing)
        equal(told(paged(now, 3), paged(lines, 7)), nothing)
    with folder() as room:
        with open(f"{room}/old", "wb") as file:
            file.write(paged(lines, 5))
        page = well(coverage("page", "--against", "old", data=paged(now, 5), cwd=room)).output.decode()
        assert f"Against old: {nothing.strip()}" in page, page[-2000:]
    # A block that has moved behind one place: so its remarks would be found rather than that.
    remarks = [(f"* remark {it}", "", " ") for it in range(9)]
    one, two = ("         LR    1,1", "1811", ":"), ("         LR    2,2", "1822", ":")
    equal(told(written([one, two, *remarks]), written([one, *remarks, two])), nothing)
    text = told(written([one, *remarks, two, two]), written([*remarks, one, two]))
    equal(text.splitlines()[-1], "0 facts lost, 0 gained; 0 facts of new places not shown; 1 place gone.")


def text_decides() -> None:
    """diff: of places that are alike that is found again which stands behind the same remark, at either end of a page"""
    def routine(number: int, mark: str) -> list[tuple[str, str, str]]:
        return [(f"* routine {number}", "", " "), ("         LR    5,5", "1855", mark), ("         BR    14", "07FE", mark)]

    def text(old: list[tuple[str, str, str]], new: list[tuple[str, str, str]]) -> list[str]:
        return [" ".join(it.split()[:2]) for it in told(paged(old, 4), paged(new, 4)).splitlines()[1:-1]]

    equal(text([*routine(1, ":"), *routine(3, ":")], [*routine(1, ":"), *routine(2, "^"), *routine(3, ":")]), ["new 000004-000007"])
    equal(text(routine(1, ":"), [*routine(0, "^"), *routine(1, ":")]), ["new 000000-000003"])
    equal(text(routine(1, ":"), [*routine(1, ":"), *routine(2, "^")]), ["new 000004-000007"])


def drawn(draw: random.Random, count: int) -> list[tuple[str, str, str]]:
    """Statements of few kinds, many of them alike, with marks."""
    kinds = [(f"         LR    {it},{it}", f"18{it}{it}", "^:") for it in range(4)]
    kinds.append(("         BE    X", "4780F000", "^>V&"))
    return [(source, digits, draw.choice(marks)) for source, digits, marks in draw.choices(kinds, k=count)]


def edited(draw: random.Random, lines: list[tuple[str, str, str]]) -> list[tuple[str, str, str]]:
    """The same with lines taken out and put in, and other marks."""
    found = []
    for source, digits, mark in lines:
        if draw.random() < 0.1:
            continue
        if draw.random() < 0.1:
            found += drawn(draw, 1)
        found.append((source, digits, draw.choice("^:" if digits[0] == "1" else "^>V&") if draw.random() < 0.3 else mark))
    return found


def with_remarks(draw: random.Random, lines: list[tuple[str, str, str]]) -> list[tuple[str, str, str]]:
    """The same with remarks of few kinds put in."""
    found = lines[:]
    for _ in range(draw.randrange(20)):
        found.insert(draw.randrange(len(found) + 1), (f"* remark {draw.randrange(4)}", "", " "))
    return found


def sums_agree() -> None:
    """diff: over random edits as many places are found in order by their statements as can be; the sums are the facts'"""
    draw = random.Random(4)
    for _ in range(150):
        lines = with_remarks(draw, drawn(draw, draw.randrange(1, 60)))
        now = with_remarks(draw, edited(draw, [it for it in lines if it[2] != " "]) or drawn(draw, 1))
        old, new = (read_report("", written(it)) for it in (lines, now))
        one, other = (it.sessions[0].modules[0] for it in (old, new))
        pairs = difference.pairs_of(one.lines, other.lines)
        places = sorted(pairs)
        equal([pairs[it] for it in places], sorted(set(pairs.values())))
        equal([source_of(other.lines[it]) for it in places], [source_of(one.lines[pairs[it]]) for it in places])
        equal(len(pairs), longest(*([source_of(it) for it in module.lines if it.mark != " "] for module in (one, other))))
        found = difference.compare("S", "M", one, other)
        lost, gained, fresh = (found.facts(it) for it in (difference.LOST, difference.GAINED, difference.FRESH))
        kept, had = set(places), set(pairs.values())
        new_shown = sum(FACTS[it.mark] for at, it in enumerate(other.lines) if it.mark != " " and at not in kept)
        gone_shown = sum(FACTS[it.mark] for at, it in enumerate(one.lines) if it.mark != " " and at not in had)
        equal(other.facts - one.facts, gained - lost + new_shown - gone_shown)
        new_possible = sum(1 + it.is_conditional for at, it in enumerate(other.lines) if it.mark != " " and at not in kept)
        equal(fresh, new_possible - new_shown)


def rows_as_pairs() -> None:
    """diff: lists with many items that are alike are compared by rows, whole and halved, and have as much in common"""
    draw, kept = random.Random(5), in_common.MOST_BITS
    for bits in (kept, 40, 1):
        in_common.MOST_BITS = bits
        for _ in range(400):
            one, other = ([b"%d" % draw.randrange(4) for _ in range(draw.randrange(25))] for _ in range(2))
            found = in_common.by_rows(one, other)
            equal(len(found), longest(one, other))
            equal([one[was] for was, _ in found], [other[at] for _, at in found])
            assert all(it[0] < then[0] and it[1] < then[1] for it, then in zip(found, found[1:])), found
    in_common.MOST_BITS = kept
    # More pairs that are alike than are gone through one by one.
    one, other = [b"A"] * 1500, [b"B", *[b"A"] * 1400]
    equal(in_common.in_common(one, other), [(it, it + 1) for it in range(1400)])


def longest(one: list[bytes], other: list[bytes]) -> int:
    """How many items two lists have in common, in one order."""
    row = [0] * (len(other) + 1)
    for item in one:
        before = row[:]
        for at, it in enumerate(other):
            row[at + 1] = before[at] + 1 if item == it else max(row[at], before[at + 1])
    return row[-1]


def source_of(line: Line) -> bytes:
    """A narrow line's source statement."""
    return line.text[40:].rstrip()


def labels_stand() -> None:
    """diff: the label at a change is that of the new report"""
    now = labelled().replace(b": 000008", b"^ 000008").replace(b"EXECUTED 7 FACTS 7", b"EXECUTED 6 FACTS 6").replace(b"000006-000007", b"000006-000009")
    text = told(labelled(), now)
    equal(text.splitlines()[1].split()[:6], ["lost", "000008", "no", "longer", "executed", "NEAR,"])


def as_diff_finds() -> None:
    """diff: as many places are found again as the program diff finds by its smallest difference"""
    draw = random.Random(9)
    with folder() as at:
        for _ in range(60):
            lines = drawn(draw, draw.randrange(1, 80))
            now = edited(draw, lines) or drawn(draw, 1)
            one, other = (read_report("", written(it)).sessions[0].modules[0].lines for it in (lines, now))
            for name, found in (("one", one), ("other", other)):
                with open(f"{at}/{name}", "wb") as file:
                    file.write(b"".join(source_of(it) + b"\n" for it in found if it.mark != " "))
            ran = run(["diff", "--minimal", "one", "other"], cwd=at)
            kept = sum(it.mark != " " for it in one) - sum(it.startswith(b"<") for it in ran.output.splitlines())
            equal(len(difference.pairs_of(one, other)), kept)


def run_all(tally: Tally) -> None:
    """Runs the program diff over listings, where it is."""
    if shutil.which("diff"):
        run_checks(tally, [as_diff_finds])
    else:
        tally.left_out.append("the program diff over listings, since it isn't there")


CHECKS = [
    each_change, a_changed_listing, modules_of_one, left_out, refusals, pages_that_move, text_decides, sums_agree, rows_as_pairs,
    labels_stand,
]
