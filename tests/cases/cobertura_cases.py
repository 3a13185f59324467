"""The XML of Cobertura: the elements and attributes that its DTD has, and the numbers of a report."""
from __future__ import annotations

import re
import shutil
import time
from xml.etree import ElementTree
from xml.etree.ElementTree import Element

from cases.lcov_cases import traced
from cases.report_cases import COUNTS, DRAINED, MARKED, NO_LISTING, RETURNED, ends, labelled
from fixtures.harness import Tally, coverage, equal, example_report, folder, refused, run, run_checks, well
from fixtures.jobs import COUNTED, FIRST_REPORT, OPENED_REPLAY

RATES = ("line-rate", "branch-rate", "complexity")
# The elements of coverage-04.dtd as they are published: what each has in it, and its attributes, where * says that one may
# be missing.
ELEMENTS = {
    "coverage": ("(sources?,packages)", (
        "line-rate", "branch-rate", "lines-covered", "lines-valid", "branches-covered", "branches-valid", "complexity",
        "version", "timestamp",
    )),
    "sources": ("(source*)", ()),
    "source": ("(#PCDATA)", ()),
    "packages": ("(package*)", ()),
    "package": ("(classes)", ("name", *RATES)),
    "classes": ("(class*)", ()),
    "class": ("(methods,lines)", ("name", "filename", *RATES)),
    "methods": ("(method*)", ()),
    "method": ("(lines)", ("name", "signature", *RATES)),
    "lines": ("(line*)", ()),
    "line": ("(conditions*)", ("number", "hits", "branch*", "condition-coverage*")),
    "conditions": ("(condition*)", ()),
    "condition": ("EMPTY", ("number", "type", "coverage")),
}


def made(report: bytes, *words: str) -> Element:
    """What cobertura makes of a report, with the elements and the attributes that it may have."""
    text = well(coverage("cobertura", *words, data=report)).output
    url = b"http://cobertura.sourceforge.net/xml/coverage-04.dtd"
    begin = b'<?xml version="1.0" encoding="UTF-8"?>\n<!DOCTYPE coverage SYSTEM "%s">\n' % url
    assert text.startswith(begin), text[:200]
    root = ElementTree.fromstring(text)
    equal(root.tag, "coverage")
    for it in root.iter():
        content, attributes = ELEMENTS[it.tag]
        names = {name.rstrip("*") for name in attributes}
        needed = {name for name in attributes if not name.endswith("*")}
        assert needed <= set(it.attrib) <= names, (it.tag, it.attrib)
        form = re.sub(r"([a-z]+)", r"(?:\1;)", re.sub(r"#PCDATA|EMPTY", "", content)).replace(",", "")
        children = "".join(f"{child.tag};" for child in it)
        assert re.fullmatch(form, children), (it.tag, children)
    return root


def lines_of(it: Element) -> list[tuple[str, ...]]:
    """The lines directly in a class or a method: number, hits, whether it is a branch, its share, and its condition's."""
    found = []
    for line in it.findall("lines/line"):
        conditions = [(at.get("number"), at.get("type"), at.get("coverage")) for at in line.findall("conditions/condition")]
        assert conditions in ([], [("0", "jump", line.get("condition-coverage", "").split(" ")[0])]), conditions
        found.append(tuple(line.get(name, "-") for name in ("number", "hits", "branch", "condition-coverage")))
    return found


def rates(it: Element) -> tuple[str, ...]:
    """The rates of an element."""
    return tuple(it.get(name, "-") for name in RATES)


def elements() -> None:
    """cobertura: lines with their hits, branches with their ways, rates and totals; counts behind a report are the hits"""
    for marks, counts, line, share, totals, branch in (
        ("V:", ((0, 12), (12,)), ("1", "12", "12"), "50% (1/2)", "2 2 1 2", "0.5"),
        (">:", ((9, 0), (1,)), ("1", "9", "1"), "50% (1/2)", "2 2 1 2", "0.5"),
        ("&:", ((7, 64), (64,)), ("1", "71", "64"), "100% (2/2)", "2 2 2 2", "1"),
        ("^^", ((0, 0), (0,)), ("0", "0", "0"), "0% (0/2)", "0 2 0 2", "0"),
        (">^", ((9, 0), (0,)), ("1", "9", "0"), "50% (1/2)", "1 2 1 2", "0.5"),
    ):
        ranges = {"^^": ("000000-000005",), ">^": ("000004-000005",)}.get(marks, ())
        report, counted = COUNTED.report(RETURNED, marks, 3, *ranges), COUNTED.counted(RETURNED, *counts)
        for data, first, hits in (
            (report, 2, (line[0], "0" if marks[1] == "^" else "1")), (report + counted, 2, line[1:]), (counted, 1, line[1:]),
        ):
            root = made(data)
            wanted = [(str(first), hits[0], "true", share), (str(first + 1), hits[1], "false", "-")]
            of_lines = {"0": "0", "1": "0.5", "2": "1"}[totals[0]]
            one = root.findall("packages/package/classes/class")
            equal([(it.get("name"), it.get("filename"), lines_of(it)) for it in one], [("M", "S/M.lst", wanted)])
            methods_of = one[0].findall("methods/method")
            equal([(it.get("name"), it.get("signature"), lines_of(it)) for it in methods_of], [("M", "", wanted)])
            for it in (root, one[0], methods_of[0], root.findall("packages/package")[0]):
                equal(rates(it), (of_lines, branch, "0"))
            names = ("lines-covered", "lines-valid", "branches-covered", "branches-valid")
            equal(" ".join(root.get(name, "-") for name in names), totals)
            equal([it.text for it in root.findall("sources/source")], ["."])


def rounding() -> None:
    """cobertura: rates are rounded down, so that 1 is all"""
    # Seven of eleven places, two of four ways.
    root = made(labelled())
    equal(rates(root), ("0.6363", "0.5", "0"))
    equal(rates(made(FIRST_REPORT)), ("1", "1", "0"))


def methods() -> None:
    """cobertura: each label at an instruction is a method, with the lines up to the next"""
    for report in (labelled(), labelled(True, " ")):
        found = made(report).findall("packages/package/classes/class/methods/method")
        equal([(it.get("name"), [line[0] for line in lines_of(it)]) for it in found], [
            ("MAIN", ["3", "4", "5"]), ("NEAR", ["7", "8", "10"]), ("LATER", ["12"]), ("HERE", ["14"]),
            ("MAIN.000016", ["18", "21"]), ("GEN", ["22"]),
        ])


def sessions() -> None:
    """cobertura: each session is a package, and each of its modules a class; those without a listing are left out"""
    session = b"".join(FIRST_REPORT.partition(b"SESSION S")[1:])
    other = session.replace(b"SESSION S", b"SESSION @#$A").replace(b"MODULE M", b"MODULE $M")
    bare = NO_LISTING[NO_LISTING.index(b"SESSION ") :].replace(b"SESSION S", b"SESSION T")
    root = made(FIRST_REPORT[:-4] + other[:-4] + bare)
    equal([it.get("name") for it in root.findall("packages/package")], ["S", "@#$A"])
    equal([(it.get("name"), it.get("filename")) for it in root.iter("class")], [("M", "S/M.lst"), ("$M", "andA/dM.lst")])
    equal([root.get(it) for it in ("lines-covered", "lines-valid")], ["6", "6"])
    for data in (NO_LISTING, b"COVERAGE REPORT\nEND\n"):
        refused(coverage("cobertura", data=data), 2, "standard input", "no listing")


def same_reports() -> None:
    """cobertura: early, a schedule, ends and a marks file make what the report makes; the numbers are lcov's"""
    def text(data: bytes) -> bytes:
        return re.sub(rb' timestamp="[0-9]+"', b"", well(coverage("cobertura", data=data)).output)

    equal(text(DRAINED), text(FIRST_REPORT))
    equal(text(MARKED + ends("M 0", tasks=[(RETURNED[0], "AT FFFFFE")])), text(MARKED))
    equal(text(COUNTED.shown("V:", 3)), text(MARKED))
    for data in (example_report("orders"), example_report("tariff"), OPENED_REPLAY, MARKED + COUNTS):
        root, info = made(data), traced(data)
        sums = {it: str(sum(map(int, re.findall(rf"^{it}:([0-9]+)$", info, re.M)))) for it in ("LH", "LF", "BRH", "BRF")}
        names = ("lines-covered", "lines-valid", "branches-covered", "branches-valid")
        equal([root.get(it) for it in names], list(sums.values()))
        lines = [(it.get("number"), it.get("hits")) for one in root.iter("class") for it in one.findall("lines/line")]
        equal(lines, re.findall(r"^DA:([0-9]+),([0-9]+)$", info, re.M))


def timestamps() -> None:
    """cobertura: the timestamp is that of the call, or that of SOURCE_DATE_EPOCH, in milliseconds"""
    before = int(1000 * time.time())
    # A variable that is no number of seconds is none.
    for said in ("", "x", "-1", "9" * 5_000):
        ran = run(["bash", "-c", 'SOURCE_DATE_EPOCH=$0 ./coverage cobertura', said], FIRST_REPORT)
        (had,) = re.findall(rb'timestamp="([0-9]+)"', well(ran).output)
        assert before <= int(had) <= 1000 * time.time(), (said, had)
    ran = run(["bash", "-c", "SOURCE_DATE_EPOCH=1700000000 ./coverage cobertura"], FIRST_REPORT)
    equal(re.findall(rb'timestamp="([0-9]+)"', well(ran).output), [b"1700000000000"])


def dtd() -> str:
    """The DTD, made of the lists above."""
    lines = []
    for name, (content, attributes) in ELEMENTS.items():
        lines.append(f"<!ELEMENT {name} {content}>")
        for it in attributes:
            lines.append(f"<!ATTLIST {name} {it.rstrip('*')} CDATA {'#IMPLIED' if it.endswith('*') else '#REQUIRED'}>")
    return "\n".join(lines)


def xmllint() -> None:
    """cobertura: xmllint finds it valid by the elements and attributes of its DTD, and not with another attribute"""
    with folder() as at:
        with open(f"{at}/dtd", "w", encoding="ascii") as file:
            file.write(dtd())
        for report in (example_report("orders"), labelled(), MARKED + COUNTS, example_report("palindrome")):
            # Without the line that names the DTD, which would have to be fetched.
            text = re.sub(rb"<!DOCTYPE.*\n", b"", well(coverage("cobertura", data=report)).output)
            words = ["xmllint", "--noout", "--nonet", "--dtdvalid", f"{at}/dtd", "-"]
            well(run(words, text))
            equal(run(words, text.replace(b"<lines>", b'<lines x="">', 1)).status != 0, True)


def run_all(tally: Tally) -> None:
    """Runs xmllint over what is written, where it is."""
    if shutil.which("xmllint"):
        run_checks(tally, [xmllint])
    else:
        tally.left_out.append("xmllint over the XML of cobertura, since it isn't there")


CHECKS = [elements, rounding, methods, sessions, same_reports, timestamps]
