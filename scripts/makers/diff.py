"""Says what two reports differ in: what was lost, what was gained, and what is new and not covered."""
from __future__ import annotations

from typing import Optional

from common.command import UsageError, read_file, refuse_more, take_options, write_output
from common.markup import count_of, printed
from readers.difference import Change, Difference, differences, source_of, sums
from readers.leave_out import OPTION, read_rules, tell_idle
from readers.listing import Heading, heading_of
from readers.report import Module, read_report, text_of

HELP = """\
Says what the report in the file NEW has lost and gained against that in OLD, both of run, early, exits, replay or show,
or what of several runs combine and show have made; - is standard input. The listings may differ: a place is found again
by its source statement, as diff finds it, wherever it stands now.

Each module of a session that has changed has a line with its facts before and now, and below it a line for each change:
  lost    a place or a branch that showed more before
  gained  one that shows more now
  new     a place that OLD lacks, and that lacks facts
with its locations in NEW, the label and the statement there, and the first source statement. The last line has the sums.

The places that FILE names count in neither (docs/SUMMARY.md). What is no report is refused by its line on standard
error; then the status is 2, and nothing is written. Else it is 0, whatever was lost. This script is not proved.
"""


def title(it: Difference) -> str:
    """The line of a module that has changed."""
    return f"{it.name} in session {it.session}: {it.words()}"


def row(it: Difference, module: Module, change: Change, heading: Optional[Heading]) -> list[str]:
    """The columns of a change."""
    more = f", {count_of(len(change.lines), 'place')}" if len(change.lines) > 1 else ""
    first = change.lines[0]
    source = printed(text_of(source_of(module.lines[first], heading))).strip()
    return [change.kind, change.where(module), change.words + more, it.spots[first].words(), source]


def lines_of(it: Difference) -> list[str]:
    """The lines of a module that has changed: its title, and its changes in columns."""
    if it.new is None:
        return [title(it)]
    heading = heading_of([line.text for line in it.new.lines])
    rows = [row(it, it.new, change, heading) for change in it.changes]
    widths = [max(map(len, column)) for column in zip(*rows)][:-1]
    texts = ["  ".join([*(f"{cell:{width}}" for cell, width in zip(cells, widths)), cells[-1]]) for cells in rows]
    return [title(it), *(f"  {text}".rstrip() for text in texts)]


def text(found: list[Difference]) -> str:
    """All that is told."""
    lines = [line for it in found if not it.is_same() for line in lines_of(it)]
    return "".join(f"{it}\n" for it in [*lines, sums(found)])


def main(words: list[str]) -> None:
    options, files = take_options("diff", words)
    refuse_more(files, 2)
    if len(files) < 2 or not all(files):
        raise UsageError
    rules = read_rules(options.get(OPTION))
    old, new = (read_report("standard input" if it == "-" else it, read_file(it)) for it in files)
    found, idle = differences(old, new, rules, *files)
    write_output(text(found).encode("utf-8"))
    tell_idle(idle)
