"""Makes a report, or counts, the XML of Cobertura, which build servers take."""
from __future__ import annotations

import os
import re
import time
from typing import Mapping
from xml.etree.ElementTree import Element, SubElement, indent, tostring

from common.command import read_input, refuse_more, take_options, write_output
from readers.hits import branch_hits, file_of, hits, labels_of, listings_of
from readers.leave_out import OPTION, leave_out, read_rules, tell_idle
from readers.report import Line, Module, Session, read_report

HELP = """\
Makes a report (of run, early, exits, replay or show) the XML of Cobertura, as its coverage-04.dtd has it. Each session
is a package, and each of its modules a class, whose file is SESSION/MODULE.lst: the listing that lcov writes. So that a
server shows the listings too:

  coverage lcov FOLDER < REPORT && coverage cobertura < REPORT > FOLDER/cobertura.xml

Each instruction line is a line; each line of a conditional branch has a condition with two ways, taken and not taken;
each label at an instruction is a method, of the instructions up to the next. Where the counts of the same job (of
count) stand behind the report, lines have these as hits, and else 0 or 1. Rates are rounded down, so that 1 is all.
The timestamp, in milliseconds, is that of the call, or of the variable SOURCE_DATE_EPOCH, which is in seconds. The places
that FILE names count nowhere (docs/SUMMARY.md).

What is no report is refused by its line on standard error; then the status is 2, and nothing is written. This script
is not proved.
"""
DTD = "http://cobertura.sourceforge.net/xml/coverage-04.dtd"
# The numbers of lines and of the ways of branches: those that were hit, and all.
Numbers = tuple[int, int, int, int]


def numbers_of(lines: list[Line]) -> Numbers:
    """How many lines were hit, of how many, and how many ways of branches, of how many."""
    ways = [count for it in lines if it.is_conditional for count in branch_hits(it)]
    return sum(it.mark != "^" for it in lines), len(lines), sum(it > 0 for it in ways), len(ways)


def rate(part: int, whole: int) -> str:
    """A share of 1, rounded down."""
    return f"{(10000 * part // whole if whole else 10000) / 10000:.4f}".rstrip("0").rstrip(".")


def add(parent: Element, element: str, **attributes: object) -> Element:
    """An element below another, with its attributes."""
    return SubElement(parent, element, texts(attributes))


def texts(attributes: Mapping[str, object]) -> dict[str, str]:
    """Attributes as they are written: their names have hyphens for underscores."""
    return {it.replace("_", "-"): str(value) for it, value in attributes.items()}


def rates(numbers: Numbers) -> dict[str, object]:
    """The attributes that each element has which counts lines."""
    executed, lines, taken, ways = numbers
    return {"line_rate": rate(executed, lines), "branch_rate": rate(taken, ways), "complexity": 0}


def add_lines(parent: Element, lines: list[tuple[int, Line]]) -> None:
    """Lines, with their numbers from 1; that of a conditional branch with its two ways as one condition."""
    found = add(parent, "lines")
    for number, line in lines:
        it = add(found, "line", number=number, hits=hits(line), branch=str(line.is_conditional).lower())
        if line.is_conditional:
            taken = sum(it > 0 for it in branch_hits(line))
            it.set("condition-coverage", f"{50 * taken}% ({taken}/2)")
            add(add(it, "conditions"), "condition", number=0, type="jump", coverage=f"{50 * taken}%")


def add_class(parent: Element, session: Session, module: Module) -> None:
    """A module, with its labels as methods."""
    lines = [(at, it) for at, it in enumerate(module.lines, 1) if it.is_counted()]
    numbers = numbers_of([it for _, it in lines])
    found = add(parent, "class", name=module.name, filename=file_of(session, module), **rates(numbers))
    labels, methods = sorted(labels_of(module).items()), add(found, "methods")
    for (first, label), (stop, _) in zip(labels, [*labels[1:], (len(module.lines), "")]):
        own = [(at, it) for at, it in lines if first < at <= stop]
        add_lines(add(methods, "method", name=label, signature="", **rates(numbers_of([it for _, it in own]))), own)
    add_lines(found, lines)


def add_package(parent: Element, session: Session) -> None:
    """A session, with its modules that have a listing."""
    modules = [it for it in session.modules if it.lines]
    numbers = numbers_of([line for it in modules for line in it.lines if line.is_counted()])
    classes = add(add(parent, "package", name=session.name, **rates(numbers)), "classes")
    for it in modules:
        add_class(classes, session, it)


def milliseconds() -> int:
    """The time of the call, or that which the variable says."""
    said = os.environ.get("SOURCE_DATE_EPOCH", "")
    return 1000 * int(said) if re.fullmatch("[0-9]{1,18}", said) else int(1000 * time.time())


def xml(sessions: list[Session]) -> str:
    """The whole text."""
    numbers = numbers_of([line for it in sessions for module in it.modules for line in module.lines if line.is_counted()])
    executed, lines, taken, ways = numbers
    counts = {"lines_covered": executed, "lines_valid": lines, "branches_covered": taken, "branches_valid": ways}
    whole = Element("coverage", texts({**counts, "version": "coverage", "timestamp": milliseconds(), **rates(numbers)}))
    add(add(whole, "sources"), "source").text = "."
    packages = add(whole, "packages")
    for it in sessions:
        add_package(packages, it)
    indent(whole, space="")
    head = f'<?xml version="1.0" encoding="UTF-8"?>\n<!DOCTYPE coverage SYSTEM "{DTD}">\n'
    return head + tostring(whole, encoding="unicode") + "\n"


def main(words: list[str]) -> None:
    options, left = take_options("cobertura", words)
    refuse_more(left)
    rules = read_rules(options.get(OPTION))
    report = read_report("standard input", read_input())
    listed = {session.name for session, _ in listings_of(report)}
    idle = leave_out(report, rules)
    write_output(xml([it for it in report.sessions if it.name in listed]).encode("ascii"))
    tell_idle(idle)
