"""Summaries, and what is left out of them (docs/SUMMARY.md)."""
from __future__ import annotations

import functools
import json
import os
import shutil
from typing import Any, Optional

from cases.report_cases import COUNTS, ENDED, MARKED, NO_LISTING, RETURNED, ends, labelled
from fixtures.harness import TOP, Tally, coverage, equal, example_report, folder, misused, refused, run, run_checks, well
from fixtures.jobs import COUNTED, FIRST_REPORT, HEADING, Program

BAD_SHARES = ("", "x", "-1", "101", "100.1", "9e1", "1.", ".5", "50 %", "50%%", "1234", "\u0661")
# Rules, and what comes of the report of labels: places, executed, facts, facts that there can be, left out, of these
# executed; and the ranges that are left, each by its first location.
RULES = [
    ("", (11, 7, 7, 13, 0, 0), "06 0E 14 18"),
    ("// none\n\n", (11, 7, 7, 13, 0, 0), "06 0E 14 18"),
    ("M 000006-000007", (10, 7, 7, 12, 1, 0), "0E 14 18"),
    ("M 000006-000006 why\r\n", (10, 7, 7, 12, 1, 0), "0E 14 18"),
    ("M 000000-FFFFFF", (0, 0, 0, 0, 11, 7), ""),
    # A label's places are those up to the next, and those of the section where it goes on.
    ("M NEAR", (8, 5, 5, 10, 3, 2), "06 14 18"),
    ("M MAIN", (6, 4, 4, 7, 5, 3), "0E 14"),
    ("M main", (6, 4, 4, 7, 5, 3), "0E 14"),
    ("* MA*", (6, 4, 4, 7, 5, 3), "0E 14"),
    ("* HERE\nM LATER", (9, 6, 6, 10, 2, 1), "06 0E 18"),
    ("M HERE\nM HERE\nM 000014-000015", (10, 7, 7, 12, 1, 0), "06 0E 18"),
    ("N MAIN", (11, 7, 7, 13, 0, 0), "06 0E 14 18"),
]
# Rules of the module that name no place: within an instruction, a constant, a comment, what labels begin with.
IDLE = ["M 000003-000005", "M 00000C-00000D", "M DATA", "M FALSE", "M LATE", "* OTHER", "* X*"]
BAD_RULES = [
    "M", "MAIN", "M 000006", "M 00006-000007", "M 000006-0000007", "m MAIN", " M MAIN", "M  MAIN", "M MA*N", "M *",
    "M\tMAIN", "LONGERNAME MAIN", "*", "* 1*", "M MAIN*x", "/ M MAIN", "M 000008-000006",
]


def summed(*words: str, data: bytes, rules: Optional[str] = None) -> dict[str, Any]:
    """The summary in JSON, with the rules of a file."""
    with folder() as at:
        if rules is not None:
            with open(f"{at}/rules", "w", encoding="ascii", newline="") as file:
                file.write(rules)
            words = ("--leave-out", "rules", *words)
        found: dict[str, Any] = json.loads(well(coverage("summary", "--json", *words, data=data, cwd=at)).output)
        return found


def totals(found: dict[str, Any]) -> tuple[int, ...]:
    """The numbers of a module, or of all."""
    names = "places of, places executed, facts shown, facts of, left_out places, left_out executed"
    return tuple(found[one][it] for one, it in (pair.split() for pair in names.split(", ")))


def tables() -> None:
    """summary: a line for each module of each session, one with the sums, and one for each module that ran on no line"""
    session = b"".join(FIRST_REPORT.partition(b"SESSION S")[1:])
    # The second session has branched alone, of four facts, and a module without a listing.
    other = COUNTED.report([], ">^", 3, "000004-000005").partition(b"SESSION S")[2].replace(b"END\n", b"")
    empty = b"MODULE NONE PLACES 0 EXECUTED 0 FACTS 0 OF 0\nEND\n"
    report = FIRST_REPORT[: -len(session)] + session[:-4] + b"SESSION LONGER" + other + empty
    wanted = """\
Session     Module     Places executed         Facts shown         Ranges not executed
S           M          3 of 3           100 %  3 of 3       100 %  0
LONGER      M          1 of 2           50 %   1 of 3       33 %   1
LONGER      NONE       none                    none                0
2 sessions  3 modules  4 of 5           80 %   4 of 6       66 %   1
"""
    equal(well(coverage("summary", data=report)).output.decode(), wanted)
    text = well(coverage("summary", data=ENDED + ends("M 1000", "N 1", "O 0"))).output.decode().splitlines()
    told = "on no instruction line of its listing. Where lines are missing, its counts are better than the truth."
    equal(text[-2:], [f"1,000 executions in M {told}", f"1 execution in N {told}"])
    equal(len(text), 5)
    # Counts alone tell of no ranges.
    text = well(coverage("summary", data=COUNTS)).output.decode().splitlines()
    wanted_words = ["Session Module Places executed Facts shown", "S M 2 of 2 100 % 2 of 3 66 %"]
    equal([" ".join(it.split()) for it in text[:2]], wanted_words)
    equal(well(coverage("summary", data=COUNTED.shown("V:", 3))).output, well(coverage("summary", data=MARKED)).output)


def in_json() -> None:
    """summary: JSON has what docs/SUMMARY.md says, and nothing else"""
    sums: dict[str, object] = {"places": {"executed": 1, "of": 2}, "facts": {"shown": 1, "of": 3}, "left_out": {"places": 0, "executed": 0}}
    module: dict[str, object] = {"name": "M", **sums, "not_executed": [{"first": "000004", "last": "000005"}]}
    session: dict[str, object] = {"name": "S", "phase": "P", "modules": [module]}
    wanted: dict[str, object] = {"form": "coverage summary 1", "of": "COVERAGE REPORT", "sessions": [session], **sums}
    report = COUNTED.report(RETURNED, ">^", 3, "000004-000005")
    equal(summed(data=report), wanted)
    found = summed("--fail-under", "33.3", data=report)
    equal(found.pop("fail_under"), {"asked": 33.3, "is_below": False})
    equal(found, wanted)
    module["on_no_line"] = 7
    equal(summed(data=report + ends("M 7", tasks=[(RETURNED[0], "AT FFFFFE")])), wanted)
    del module["not_executed"], module["on_no_line"]
    equal(summed(data=COUNTED.counted(RETURNED, (9, 0), (0,))), dict(wanted, of="COVERAGE COUNT"))
    with open(f"{TOP}/docs/SUMMARY.md", encoding="utf-8") as file:
        section = file.read().partition("## As JSON\n")[2].partition("\n## ")[0]
    names = [line.split("`")[1] for line in section.splitlines() if line.startswith("| `")]
    inner = {"form", "of", "sessions", "modules", "places", "facts", "left_out", "not_executed", "on_no_line", "fail_under"}
    equal(set(names), inner)


def shares() -> None:
    """summary: the status is 81 where the share of all facts is below what is asked, and not where it is that"""
    # Two of three facts.
    for asked, status in (
        ("0", 0), ("66", 0), ("66%", 0), ("66.666666666", 0), ("66.666666667", 81), ("67%", 81), ("100", 81),
    ):
        for more in ((), ("--json",)):
            ran = coverage("summary", "--fail-under", asked, *more, data=MARKED)
            equal((asked, ran.status), (asked, status))
            equal(bool(more), ran.output.startswith(b"{"))
            told = f"coverage: 2 of 3 facts shown, which is less than {asked.rstrip('%')} %; below it: M in session S\n"
            equal(ran.error, told if status else "")
            if more:
                equal(json.loads(ran.output)["fail_under"]["is_below"], bool(status))
            else:
                equal(ran.output, well(coverage("summary", data=MARKED)).output)
    equal(coverage("summary", "--fail-under", "100%", data=FIRST_REPORT).status, 0)
    for asked in BAD_SHARES:
        told = f"--fail-under {asked} is no share: 0 to 100, as 90, 90% or 90.5"
        misused(coverage("summary", "--fail-under", asked, data=MARKED), "summary", told)
    misused(coverage("summary", "--fail-under", "90.5", "%", data=MARKED), "summary", "% is a word too many")
    for data in (NO_LISTING, b"COVERAGE REPORT\nEND\n"):
        told = "has no fact of which --fail-under could ask a share"
        refused(coverage("summary", "--fail-under", "1", data=data), 2, told)
    # Of seven modules below the share five are named.
    lines = Program([(0, "1A11", "AR")]).session("^", 1, ("000000-000001",))
    parts = [line for it in range(7) for line in [lines[1].replace("MODULE M", f"MODULE M{it}"), *lines[2:]]]
    report = "\n".join(["COVERAGE REPORT", lines[0], *parts, "END", ""]).encode()
    ran = coverage("summary", "--fail-under", "1", data=report)
    names = ", ".join(f"M{it} in session S" for it in range(5))
    equal((ran.status, ran.error), (81, f"coverage: 0 of 7 facts shown, which is less than 1 %; below it: {names}, ..\n"))


def leaves_out() -> None:
    """--leave-out: places by ranges and by labels, which count nowhere, and are told by their number"""
    for rules, wanted, firsts in RULES:
        for report in (labelled(), labelled(True, " ")):
            found = summed(data=report, rules=rules)
            equal((rules, totals(found)), (rules, wanted))
            module = found["sessions"][0]["modules"][0]
            equal(totals(module), wanted)
            equal([it["first"][4:] for it in module["not_executed"]], firsts.split())
    # A place that is left out ends a range, and so does one that ran.
    program = Program([(2 * at, "1A11", "AR") for at in range(6)])
    report = program.report([], "^^^^:^", 6, "000000-000007", "00000A-00000B")
    found = summed(data=report, rules="M 000002-000002\nM 000008-000008")["sessions"][0]["modules"][0]
    equal([(it["first"], it["last"]) for it in found["not_executed"]], [
        ("000000", "000001"), ("000004", "000007"), ("00000A", "00000B"),
    ])
    equal(totals(found), (4, 0, 0, 4, 2, 1))


def example() -> None:
    """--leave-out: the example's file leaves out what is behind the label SHORT, four places without a fact"""
    words = ["summary", "--leave-out", f"{TOP}/examples/orders.left", "--json"]
    found = json.loads(well(coverage(*words, data=example_report("orders"))).output)
    equal(totals(found), (72, 71, 75, 79, 4, 0))
    equal(found["sessions"][0]["modules"][0]["not_executed"], [{"first": "0000E2", "last": "0000E5"}])


def every_command() -> None:
    """--leave-out: page, summary, diff, lcov and cobertura leave out the same places, and say how many where they can"""
    with folder() as at:
        for name, data in (("rules", b"M NEAR\n"), ("report", labelled())):
            with open(f"{at}/{name}", "wb") as file:
                file.write(data)
        text = well(coverage("summary", "--leave-out", "rules", data=labelled(), cwd=at)).output.decode()
        equal([it.split("  ")[-1].strip() for it in text.splitlines()], ["Left out", "3, 2 executed", "3, 2 executed"])
        page = well(coverage("page", "--leave-out", "rules", data=labelled(), cwd=at)).output.decode()
        equal(page.count("5 of 8 places executed, 5 of 10 facts shown. 3 places left out, 2 of them executed."), 2)
        equal(page.count('<span class="out">'), 3)
        well(coverage("lcov", "--leave-out", "rules", "out", data=labelled(), cwd=at))
        with open(f"{at}/out/coverage.info", encoding="ascii") as file:
            info = file.read()
        assert "LF:8\nLH:5\n" in info and "NEAR" not in info, info
        xml = well(coverage("cobertura", "--leave-out", "rules", data=labelled(), cwd=at)).output.decode()
        assert 'lines-covered="5" lines-valid="8" branches-covered="2" branches-valid="4"' in xml and "NEAR" not in xml, xml
        equal(well(coverage("diff", "--leave-out", "rules", "report", "report", cwd=at)).output.count(b"\n"), 1)


def idle_rules() -> None:
    """--leave-out: a rule that names no place is told by its line, and leaves out nothing; one of another module isn't"""
    with folder() as at:
        with open(f"{at}/rules", "w", encoding="ascii") as file:
            file.write("N MAIN\n" + "\n".join(IDLE))
        for words in (["summary"], ["page"], ["cobertura"], ["lcov"]):
            behind = ["out"] if words == ["lcov"] else []
            ran = coverage(*words, "--leave-out", "rules", *behind, data=labelled(), cwd=at)
            said = "no place of the report is there"
            told = [f"coverage: rules: line {number}: {said}: {rule!r}" for number, rule in enumerate(IDLE, 2)]
            equal((ran.status, ran.error.splitlines()), (0, told))
            if words == ["summary"]:
                alone = well(coverage("summary", "--json", data=labelled())).output
                equal(coverage("summary", "--leave-out", "rules", "--json", data=labelled(), cwd=at).output, alone)


def bad_rules() -> None:
    """--leave-out: what is no rule is refused by its line, and a file that can't be read"""
    with folder() as at:
        for rule in BAD_RULES:
            with open(f"{at}/rules", "w", encoding="ascii") as file:
                file.write(f"M MAIN\n\n{rule}\n")
            for words in (["summary"], ["page"], ["cobertura"], ["lcov"], ["diff"]):
                behind = {"lcov": ["out"], "diff": ["-", "-"]}.get(words[0], [])
                ran = coverage(*words, "--leave-out", "rules", *behind, data=labelled(), cwd=at)
                refused(ran, 2, "coverage: rules: line 3: ", repr(rule))
        refused(coverage("summary", "--leave-out", "none", data=labelled(), cwd=at), 2, "coverage: none: No such file")
        equal(os.listdir(at), ["rules"])


def jq(path: str) -> None:
    """summary: jq takes what it writes"""
    data = well(coverage("summary", "--json", data=labelled())).output
    wanted = ".sessions[0].modules[0] | [.places.executed, .facts.of, (.not_executed | length)] | @csv"
    ran = well(run([path, wanted, "-r"], data))
    equal(ran.output, b"7,13,4\n")


def run_all(tally: Tally) -> None:
    """Runs jq over a summary, where it is."""
    if path := shutil.which("jq"):
        run_checks(tally, [functools.partial(jq, path)])
    else:
        tally.left_out.append("jq over a summary, since it isn't there")


def many_rules() -> None:
    """--leave-out: 1,000 rules over the 65,536 places that there may be take no more than some seconds of a slow processor"""
    count, rows = 65_536, 1_000
    lines = [f": {2 * at:06X} 1A11{'':23}{at % 99_999 + 1:>5} L{at:05}   AR    1,1" for at in range(count)]
    head = ["COVERAGE REPORT", "SESSION S PHASE P", f"MODULE M PLACES {count} EXECUTED {count} FACTS {count} OF {count}", f"  {HEADING}"]
    with folder() as at:
        with open(f"{at}/rules", "w", encoding="ascii") as file:
            file.write("".join(f"M L{65 * it:05}\n* L{65 * it + 1:05}*\nM {130 * it + 4:06X}-{130 * it + 7:06X}\n" for it in range(rows)))
        before = os.times()
        ran = well(coverage("summary", "--leave-out", "rules", data="\n".join([*head, *lines, "END", ""]).encode(), cwd=at))
        spent = os.times()
    # Of each 65 places the first two have a label that is named, and the next two are in a range.
    left = count - 4 * rows
    assert f"{left:,} of {left:,}  100 %".encode() in ran.output and b"  4,000, 4,000 executed" in ran.output, ran.output
    assert sum(spent[2:4]) - sum(before[2:4]) < 6, (before, spent)


CHECKS = [tables, in_json, shares, leaves_out, example, every_command, idle_rules, bad_rules, many_rules]
