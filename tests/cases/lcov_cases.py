"""The tracefile: files, functions, lines and branches, what unites, and what genhtml makes of it."""
from __future__ import annotations

import itertools
import os
import re
import shutil

from cases.install_cases import bytes_below
from cases.report_cases import DRAINED, MARKED, RETURNED, ends, labelled
from fixtures.harness import COVERAGE, Tally, coverage, equal, example_report, folder, refused, run, run_checks, well
from fixtures.jobs import COUNTED, FIRST_REPORT, OPENED_REPLAY, OPENED_REPORT, Program

# What genhtml and lcov say of what they don't like.
COMPLAINT = re.compile("warning|error|cannot|mismatch", re.I)


def traced(report: bytes) -> str:
    """The tracefile that lcov makes of a report."""
    with folder() as at:
        equal(well(coverage("lcov", "out", data=report, cwd=at)).output, b"")
        with open(f"{at}/out/coverage.info", encoding="ascii") as file:
            return file.read()


def same_tracefiles() -> None:
    """lcov: of a schedule, of early and of a report with its ends it makes what it makes of the report"""
    equal(traced(OPENED_REPLAY), traced(OPENED_REPORT))
    equal(traced(DRAINED), traced(FIRST_REPORT))
    equal(traced(MARKED + ends("M 0", tasks=[(RETURNED[0], "AT FFFFFE")])), traced(MARKED))


def functions() -> None:
    """lcov: each label at an instruction is a function, which begins at its line; without one it is the module"""
    # The lines are those of the listing, whose heading is the first.
    wanted = ["3,MAIN", "7,NEAR", "12,LATER", "14,HERE", "18,MAIN.000016", "22,GEN"]
    for report in (labelled(), labelled(True), labelled(True, " ")):
        text = traced(report)
        equal(re.findall(r"^FN:(.*)$", text, re.M), wanted)
        hits = ["1,MAIN", "1,NEAR", "1,LATER", "0,HERE", "1,MAIN.000016", "1,GEN"]
        equal(re.findall(r"^FNDA:(.*)$", text, re.M), hits)
        assert "FNF:6\nFNH:5\n" in text
    # The module's name where a label below has it.
    heading, first, second = COUNTED.listing()
    lines = [heading, first, second.replace("          BR", " M        BR")]
    text = traced(Program(COUNTED.code, lines).report(RETURNED, "V:", 3))
    assert "FN:2,M.000000\nFN:3,M\n" in text, text


def names_of_files() -> None:
    """lcov: the listing of each session's module, by names that are the same for every folder, and single"""
    session = b"".join(FIRST_REPORT.partition(b"SESSION S")[1:])
    report = FIRST_REPORT[:-4] + session.replace(b"SESSION S", b"SESSION @#$A").replace(b"MODULE M", b"MODULE $M")
    texts = []
    for name in ("one", "an other/2\n3", "./x/"):
        with folder() as at:
            well(coverage("lcov", name, data=report, cwd=at))
            equal(sorted(os.listdir(f"{at}/{name}")), ["S", "andA", "coverage.info"])
            equal((os.listdir(f"{at}/{name}/S"), os.listdir(f"{at}/{name}/andA")), (["M.lst"], ["dM.lst"]))
            with open(f"{at}/{name}/coverage.info", encoding="ascii") as file:
                texts.append(file.read())
    equal(set(texts), {texts[0]})
    equal(re.findall("^(?:SF|TN):(.*)$", texts[0], re.M), ["S", "S/M.lst", "andA", "andA/dM.lst"])


def lcov_files() -> None:
    """lcov: the listing as a file, and DA, BRDA and the totals of both branches"""
    wanted = (
        "TN:S\nSF:S/M.lst\nFN:2,M\nFNDA:{},M\nFNF:1\nFNH:{}\nBRDA:2,0,0,{}\nBRDA:2,0,1,{}\nBRF:2\nBRH:{}\n"
        "DA:2,{}\nDA:3,{}\nLF:2\nLH:{}\nend_of_record\n"
    )
    ways = [
        ("V:", (1, 1, 0, 1, 1, 1, 1, 2)), (">:", (1, 1, 1, 0, 1, 1, 1, 2)), ("&:", (1, 1, 1, 1, 2, 1, 1, 2)),
        ("^^", (0, 0, "-", "-", 0, 0, 0, 0)),
    ]
    for program, (marks, counts) in itertools.product((COUNTED, COUNTED.wide()), ways):
        report = program.report([], marks, 3, *["000000-000005"][: marks == "^^"])
        with folder() as at:
            equal(well(coverage("lcov", "out", data=report, cwd=at)).output, b"")
            equal(sorted(os.listdir(f"{at}/out")), ["S", "coverage.info"])
            with open(f"{at}/out/S/M.lst", encoding="ascii") as file:
                equal(file.read().splitlines(), program.listing())
            with open(f"{at}/out/coverage.info", encoding="ascii") as file:
                equal(file.read(), wanted.format(*counts))
    # The listings of an earlier call, and nothing else, are taken away.
    report = COUNTED.report([], "V:", 3)
    with folder() as at:
        for session in (b"SESSION OLD ", b"SESSION KEPT ", b"SESSION S "):
            well(coverage("lcov", "out", data=report.replace(b"SESSION S ", session), cwd=at))
            for name in os.listdir(f"{at}/out") if session.endswith(b"KEPT ") else ():
                if name == "KEPT":
                    with open(f"{at}/out/KEPT/M.text", "w", encoding="ascii"):
                        pass
        equal(sorted(os.listdir(f"{at}/out")), ["KEPT", "S", "coverage.info"])
        equal(os.listdir(f"{at}/out/KEPT"), ["M.text"])
    with folder() as at:
        refused(coverage("lcov", f"{at}/out", data=b"COVERAGE REPORT\nEND\n"), 2, "standard input", "no listing")
        refused(coverage("lcov", f"{at}/out", data=b"COVERAGE COUNT\nEND\n"), 2, "standard input", "no listing")
        equal(os.path.lexists(f"{at}/out"), False)


def lcov_fails() -> None:
    """lcov: one that can't write all of its files leaves an earlier call's as they were, and nothing of its own"""
    first, long = COUNTED.report([], "V:", 3), COUNTED.listing()
    second = Program(COUNTED.code, [*long, *["x" * 100] * 40]).report([], "V:" + " " * 40, 3).replace(b"SESSION S", b"SESSION T")
    with folder() as at:
        earlier: dict[str, bytes] = {}
        for is_again in (False, True):
            if is_again:
                well(coverage("lcov", "out", data=first, cwd=at))
                with open(f"{at}/out/coverage.info", "rb") as file:
                    earlier = {"S/M.lst": "\n".join([*long, ""]).encode(), "coverage.info": file.read()}
            # In blocks of 1,024 bytes: more than the tracefile has, and less than the listing.
            refused(run([COVERAGE, "lcov", "out"], second, at, before="ulimit -f 2"), 6, "out/T/M.lst: File too large")
            equal((bytes_below(f"{at}/out"), sorted(os.listdir(at))), (earlier, ["out"] if earlier else []))
            equal(os.path.exists(f"{at}/out/T"), False)
        os.makedirs(f"{at}/out/T/M.lst")
        refused(coverage("lcov", "out", data=second, cwd=at), 6, "out/T/M.lst: Is a directory")
        equal(bytes_below(f"{at}/out"), earlier)


def lcov_counts() -> None:
    """lcov: how often lines and branches were hit, by counts behind a report; counts alone have locations for a listing"""
    totals = "BRF:2\nBRH:{}\nDA:{},{}\nDA:{},{}\nLF:2\nLH:{}\nend_of_record\n"
    for marks, counts, branches, hits in (
        ("&:", ((7, 64), (64,)), (7, 64, 2), (71, 64, 2)),
        ("V:", ((0, 12), (12,)), (0, 12, 1), (12, 12, 2)),
        (">^", ((9, 0), (0,)), (9, 0, 1), (9, 0, 1)),
        ("^^", ((0, 0), (0,)), ("-", "-", 0), (0, 0, 0)),
    ):
        ranges = ("000000-000005",) if marks == "^^" else ("000004-000005",) if marks == ">^" else ()
        report, counted = COUNTED.report(RETURNED, marks, 3, *ranges), COUNTED.counted(RETURNED, *counts)
        for data, first, listing in ((report + counted, 2, COUNTED.listing()), (counted, 1, ["000000", "000004"])):
            head = f"TN:S\nSF:S/M.lst\nFN:{first},M\nFNDA:{hits[0]},M\nFNF:1\nFNH:{int(hits[0] > 0)}\n"
            head += f"BRDA:{first},0,0,{branches[0]}\nBRDA:{first},0,1,{branches[1]}\n"
            wanted = head + totals.format(branches[2], first, hits[0], first + 1, hits[1], hits[2])
            with folder() as at:
                equal(well(coverage("lcov", "out", data=data, cwd=at)).output, b"")
                with open(f"{at}/out/coverage.info", encoding="ascii") as file:
                    equal(file.read(), wanted)
                with open(f"{at}/out/S/M.lst", encoding="ascii") as file:
                    equal(file.read().splitlines(), listing)


def calm(words: list[str], at: str) -> str:
    """What a tool says that ends well and complains of nothing."""
    ran = run(words, cwd=at)
    text = ran.output.decode() + ran.error
    assert ran.status == 0 and not COMPLAINT.search(text), text
    return text


def genhtml() -> None:
    """lcov: genhtml takes the tracefile without a warning, and finds its lines, functions and branches"""
    with folder() as at:
        well(coverage("lcov", "cov", data=labelled(), cwd=at))
        text = calm(["genhtml", "--branch-coverage", "--output-directory", "../html", "coverage.info"], f"{at}/cov")
        for it in ("(7 of 11 lines)", "(5 of 6 functions)", "(2 of 4 branches)"):
            assert it in text, text
        with open(f"{at}/html/S/M.lst.func.html", encoding="utf-8") as file:
            assert "MAIN.000016" in file.read()


def united() -> None:
    """lcov: runs that were written into two folders unite, and genhtml takes the union in either"""
    # One branches and the other falls through; the counts of both are added.
    runs = ((">:", ((9, 0), (1,))), ("V:", ((0, 12), (12,))))
    with folder() as at:
        for name, (marks, counts) in zip(("one", "other/two"), runs):
            data = COUNTED.report(RETURNED, marks, 3) + COUNTED.counted(RETURNED, *counts)
            well(coverage("lcov", name, data=data, cwd=at))
        words = ["-a", "one/coverage.info", "-a", "other/two/coverage.info", "-o", "all.info"]
        calm(["lcov", "--rc", "lcov_branch_coverage=1", *words], at)
        with open(f"{at}/all.info", encoding="ascii") as file:
            lines = file.read().splitlines()
        for it in ("SF:S/M.lst", "FN:2,M", "FNDA:21,M", "BRDA:2,0,0,9", "BRDA:2,0,1,12", "DA:2,21", "DA:3,13"):
            equal(lines.count(it), 1)
        equal(sum(it.startswith("SF:") for it in lines), 1)
        for name, back in (("one", ".."), ("other/two", "../..")):
            words = ["genhtml", "--branch-coverage", "--output-directory", "html", f"{back}/all.info"]
            text = calm(words, f"{at}/{name}")
            assert "(2 of 2 branches)" in text and "(1 of 1 function)" in text, text


def genhtml_of_example() -> None:
    """lcov: genhtml takes the tracefile of an example without a warning"""
    with folder() as at:
        well(coverage("lcov", "cov", data=example_report("orders"), cwd=at))
        text = calm(["genhtml", "--branch-coverage", "--output-directory", "html", "coverage.info"], f"{at}/cov")
        assert "(71 of 76 lines)" in text and "(11 of 14 branches)" in text, text


def run_all(tally: Tally) -> None:
    """Runs genhtml and lcov over tracefiles, where they are."""
    if shutil.which("genhtml") and shutil.which("lcov"):
        run_checks(tally, [genhtml, united, genhtml_of_example])
    else:
        tally.left_out.append("genhtml and lcov over the tracefile, since they aren't there")


CHECKS = [same_tracefiles, functions, names_of_files, lcov_files, lcov_fails, lcov_counts]
