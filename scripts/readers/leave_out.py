"""Places that a team has decided not to count: the file that names them, and a report without them."""
from __future__ import annotations

import re
from bisect import bisect_left, bisect_right
from dataclasses import dataclass
from typing import Any, Iterable, Iterator, Optional

from common.command import Fault, complain, one_line, read_file
from readers.labels import Spot, spots_of
from readers.report import Line, Module, Report, counts_of, modules_of, places_of, ranges_of, shown

OPTION = "--leave-out"
# Behind a module's name, or * for all, a range of locations, or a label, with * behind it for all that begin so; then, if
# anything, the reason.
RULE = re.compile(
    rb"(\*|[A-Z@#$][A-Z@#$0-9]{0,7}) (?:([0-9A-Fa-f]{6})-([0-9A-Fa-f]{6})|([A-Za-z@#$_][A-Za-z0-9@#$_]*)(\*?))(?: .*)?"
)
COMMENT = b"//"
# No label has such a character, and all have lower ones.
AFTER_LABELS = "~"


@dataclass(frozen=True)
class Rule:
    """Which places of a module are left out, or of all modules, where it names none: those that begin in a range, or those
    at and behind a label, or behind all labels that begin so."""

    place: str
    text: str
    module: Optional[str]
    range: Optional[tuple[int, int]]
    label: str
    is_prefix: bool

    def is_of(self, module: Module) -> bool:
        """Whether it is of the module."""
        return self.module in (None, module.name)


def rule_of(place: str, line: bytes) -> Rule:
    """The rule on a line of the file."""
    found = RULE.fullmatch(line)
    if found is None:
        raise Fault(place, f"no module, or *, with a range as 0000E2-0000F9 or a label behind it: {shown(line)}")
    module = None if found[1] == b"*" else found[1].decode()
    span = (int(found[2], 16), int(found[3], 16)) if found[2] else None
    if span and span[0] > span[1]:
        raise Fault(place, f"a range that ends before it begins: {shown(line)}")
    return Rule(place, shown(line), module, span, (found[4] or b"").decode().upper(), bool(found[5]))


def read_rules(path: Optional[str]) -> list[Rule]:
    """The rules of a file, none where no file is named."""
    if path is None:
        return []
    lines = [it.removesuffix(b"\r") for it in read_file(path).split(b"\n")]
    wanted = [(at, it) for at, it in enumerate(lines, 1) if it.strip(b" ") and not it.startswith(COMMENT)]
    return [rule_of(f"{path}: line {at}", it) for at, it in wanted]


def key_of(line: Line, spot: Spot, by_range: bool) -> int | str:
    """The location of a place, or the label at or before it. A name that comes again in a listing has its location after it."""
    return (line.location or 0) if by_range else (spot.label or spot.behind or "").partition(".")[0].upper()


def span_of(rule: Rule, keys: list[Any]) -> range:
    """Which places a rule leaves out, of which these are the locations, or else the labels, in order."""
    first, last = rule.range or (rule.label, rule.label + AFTER_LABELS * rule.is_prefix)
    return range(bisect_left(keys, first), bisect_right(keys, last))


def inside(spans: Iterable[range]) -> Iterator[int]:
    """The numbers in any of the spans, each once."""
    end = 0
    for it in sorted(spans, key=lambda span: span.start):
        yield from range(max(end, it.start), it.stop)
        end = max(end, it.stop)


def leave_out(report: Report, rules: list[Rule]) -> list[Rule]:
    """Leaves the places that the rules name out of what a report counts. Answers the rules of its modules that name none."""
    named: set[Rule] = set()
    for module in modules_of(report):
        own = [it for it in rules if it.is_of(module)]
        spots = spots_of(module.lines) if own else {}
        for by_range in (True, False):
            places = sorted((key_of(module.lines[at], spot, by_range), at) for at, spot in spots.items())
            keys = [key for key, _ in places]
            spans = {it: span_of(it, keys) for it in own if bool(it.range) == by_range}
            for at in inside(spans.values()):
                module.lines[places[at][1]].is_left_out = True
            named.update(it for it, span in spans.items() if span)
        recount(module)
    names = {it.name for it in modules_of(report) if it.lines}
    return [it for it in rules if it not in named and (it.module is None or it.module in names)]


def tell_idle(rules: list[Rule]) -> None:
    """Says which rules name no place, as what they were written for may have moved."""
    for rule in rules:
        complain(one_line(f"coverage: {rule.place}: no place of the report is there: {rule.text}"))


def recount(module: Module) -> None:
    """Makes a module's counts and ranges those of the places that are not left out."""
    module.places, module.executed, module.facts, module.possible = counts_of(module.lines)
    module.ranges = list(ranges_of(places_of(module))) if module.ranges else []
