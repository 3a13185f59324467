"""Sums a report up: a short table, or JSON; and a status of its own where too few facts are shown."""
from __future__ import annotations

import re
from typing import TYPE_CHECKING, Optional

from common.command import Fault, UsageError, complain, read_input, refuse_more, take_options, write_output
from common.markup import count_of
from readers.leave_out import OPTION, leave_out, read_rules, tell_idle
from readers.report import Module, Report, Session, modules_of, read_report
from readers.totals import Totals, percent, totals_of, unlisted_words

HELP = """\
Sums a report up (of run, early, exits, replay or show, with what may stand behind it; or counts): a table of the
sessions' modules with their places, facts and ranges that were not executed, and with the sums of all.

  --fail-under 90   the status is 81 where fewer of all facts are shown, of 100; 90% and 90.5 are said so too. Standard
                    error names the modules below it, and the summary is written all the same
  --json            writes JSON in place of the table
  --leave-out FILE  the places that FILE names count nowhere, and are told by their number

docs/SUMMARY.md has the form of each. What is no report is refused by its line on standard error; then the status is 2,
and nothing is written. This script is not proved.
"""
FAIL_UNDER, JSON, FORM = "--fail-under", "--json", "coverage summary 1"
TOO_FEW, NAMED = 81, 5
Row = tuple[Session, Module]
# What few calls need is imported where they do: some milliseconds for all others.
if TYPE_CHECKING:
    from fractions import Fraction


def share_asked(word: str) -> Fraction:
    """The share of facts that is asked for, of 100."""
    from fractions import Fraction

    if not re.fullmatch(r"[0-9]{1,3}(\.[0-9]{1,9})?%?", word) or Fraction(word.rstrip("%")) > 100:
        raise UsageError(f"{FAIL_UNDER} {word} is no share: 0 to 100, as 90, 90% or 90.5")
    return Fraction(word.rstrip("%"))


def is_under(totals: Totals, share: Fraction) -> bool:
    """Whether fewer facts are shown than the share asks for."""
    return 100 * totals.facts < share * totals.possible


def share_words(part: int, whole: int) -> list[str]:
    """A part of a whole in words, and its share."""
    return [f"{part:,} of {whole:,}", f"{percent(part, whole)} %"] if whole else ["none", ""]


def cells(names: list[str], modules: list[Module], has_ranges: bool, has_left_out: bool) -> list[str]:
    """A row of the table."""
    it = totals_of(modules)
    found = [*names, *share_words(it.executed, it.places), *share_words(it.facts, it.possible)]
    found += [f"{sum(len(module.ranges) for module in modules):,}"] if has_ranges else []
    executed = f", {it.left_out_executed:,} executed" if it.left_out_executed else ""
    return [*found, *([f"{it.left_out:,}{executed}"] if has_left_out else [])]


def table(report: Report, rows: list[Row], has_left_out: bool) -> list[str]:
    """The table: a row for each module of a session, and the sums of all. Counts alone tell of no ranges."""
    has_ranges = report.title != "COVERAGE COUNT"
    heads = ["Session", "Module", "Places executed", "", "Facts shown", ""]
    heads += [*(["Ranges not executed"] if has_ranges else []), *(["Left out"] if has_left_out else [])]
    modules = [module for _, module in rows]
    sums = [count_of(len(report.sessions), "session"), count_of(len(modules), "module")]
    found = [heads, *(cells([it.name, module.name], [module], has_ranges, has_left_out) for it, module in rows)]
    found.append(cells(sums, modules, has_ranges, has_left_out))
    widths = [max(map(len, column)) for column in zip(*found)]
    return ["  ".join(f"{cell:{width}}" for cell, width in zip(cells_, widths)).rstrip() for cells_ in found]


def text(report: Report, rows: list[Row], has_left_out: bool) -> str:
    """The summary as text: the table, and where instructions ran on no line."""
    lost = [" ".join(unlisted_words(name, count)) for name, count in report.unlisted.items() if count]
    return "".join(f"{it}\n" for it in [*table(report, rows, has_left_out), *lost])


def totals_in_json(it: Totals) -> dict[str, object]:
    """The totals, of a module or of all."""
    return {
        "places": {"executed": it.executed, "of": it.places},
        "facts": {"shown": it.facts, "of": it.possible},
        "left_out": {"places": it.left_out, "executed": it.left_out_executed},
    }


def module_in_json(report: Report, module: Module) -> dict[str, object]:
    """A module. What the report doesn't tell is left out."""
    found: dict[str, object] = {"name": module.name, **totals_in_json(totals_of([module]))}
    if report.title != "COVERAGE COUNT":
        found["not_executed"] = [{"first": f"{first:06X}", "last": f"{last:06X}"} for first, last in module.ranges]
    if module.name in report.unlisted:
        found["on_no_line"] = report.unlisted[module.name]
    return found


def in_json(report: Report, asked: Optional[Fraction], is_below: bool) -> str:
    """The summary as JSON."""
    import json

    sessions = [
        {"name": it.name, "phase": it.phase, "modules": [module_in_json(report, module) for module in it.modules]}
        for it in report.sessions
    ]
    found: dict[str, object] = {"form": FORM, "of": report.title, "sessions": sessions}
    found.update(totals_in_json(totals_of(modules_of(report))))
    if asked is not None:
        found["fail_under"] = {"asked": float(asked), "is_below": is_below}
    return json.dumps(found, indent=2) + "\n"


def tell_below(rows: list[Row], totals: Totals, asked: str, share: Fraction) -> None:
    """Says that too few facts are shown, and in which modules."""
    below = [f"{it.name} in session {session.name}" for session, it in rows if is_under(totals_of([it]), share)]
    named = ", ".join([*below[:NAMED], *([".."] if len(below) > NAMED else [])])
    told = f"{totals.facts:,} of {count_of(totals.possible, 'fact')} shown, which is less than {asked.rstrip('%')} %"
    complain(f"coverage: {told}; below it: {named}")


def main(words: list[str]) -> Optional[int]:
    options, left = take_options("summary", words)
    refuse_more(left)
    asked = options.get(FAIL_UNDER)
    share = None if asked is None else share_asked(asked)
    rules = read_rules(options.get(OPTION))
    report = read_report("standard input", read_input())
    idle = leave_out(report, rules)
    totals = totals_of(modules_of(report))
    if share is not None and not totals.possible:
        raise Fault("standard input", f"has no fact of which {FAIL_UNDER} could ask a share")
    rows = [(session, it) for session in report.sessions for it in session.modules]
    is_below = share is not None and is_under(totals, share)
    found = in_json(report, share, is_below) if JSON in options else text(report, rows, OPTION in options)
    write_output(found.encode("ascii"))
    tell_idle(idle)
    if asked is not None and share is not None and is_below:
        tell_below(rows, totals, asked, share)
        return TOO_FEW
    return None
