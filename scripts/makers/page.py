"""Makes a report one page for a browser."""
from __future__ import annotations

from typing import Optional

from common.command import TOP, read_file, read_input, refuse_more, take_options, write_output
from common.markup import count_of
from makers.page_against import Against
from makers.page_index import index
from makers.page_listing import LISTINGS_OPEN, Shown, bare_part, module_part, shown_modules, unlisted_alert
from makers.page_tasks import failures, note_ends, results_part, tasks_part
from readers.difference import differences
from readers.leave_out import OPTION, leave_out, read_rules, tell_idle
from readers.report import Report, modules_of, read_report
from readers.totals import totals_of

HELP = """\
Makes a report (of run, early, exits, replay or show) one HTML page, which stands alone: the tasks, those first that did
not return; an index of the sessions' modules with their places and facts, which its headings sort; each listing with its
marks, which folds, and links to what wasn't executed and to branches that went one way only, with the labels there; and
the tasks' results, folded. Output and storage stand there as text too, EBCDIC or ASCII, whichever reads better. Marks
files have no tasks. The page has no script, follows the browser's light or dark, and prints with all that it folds; its
wide listings scroll.

  --against OLD     the page shows too what was lost and gained against the report in the file OLD, and which new places
                    lack facts, as coverage diff tells it
  --leave-out FILE  the places that FILE names count nowhere, and are told by their number (docs/SUMMARY.md)

Behind a report of run, early or exits may stand, in any order and with nothing between, what else is known of its job:
  its counts (of count)  each line has behind its mark how often it ran, or how often it branched and fell through
  its ends (of ends)     each task has a link to the line where it ended, and where instructions ran that a module's
                         listing doesn't have, their number is told
What is of another job is refused. Counts, with ends or without, make a page too, with locations in place of listings.

What is no report is refused by its line on standard error; then the status is 2, and nothing is written. This script
is not proved.
"""
AGAINST = "--against"
HEADINGS = {
    "COVERAGE REPORT": "Coverage report",
    "COVERAGE REPLAY": "Coverage of a schedule",
    "COVERAGE SHOW": "Coverage by a marks file",
    "COVERAGE COUNT": "Coverage by counts",
}


def whole(report: Report) -> str:
    """The counts of the report in one sentence."""
    whose = [count_of(len(report.sessions), "session")]
    if report.title != "COVERAGE SHOW":
        whose.append(count_of(len(report.tasks), "task"))
    return f"{', '.join(whose)}: {totals_of(modules_of(report)).words()}"


def alerts(report: Report) -> str:
    """What is to be seen before all else: tasks that have not returned, and instructions that ran on no line."""
    lost = [unlisted_alert(name, count) for name, count in report.unlisted.items() if count]
    return failures(report) + "".join(lost)


def style() -> str:
    """The page's style sheet."""
    with open(f"{TOP}/scripts/makers/page.css", encoding="utf-8") as file:
        return file.read()


def modules_part(report: Report, shown: list[Shown], against: Optional[Against]) -> str:
    """All listings, folded where they are many."""
    is_open = len(shown) <= LISTINGS_OPEN
    found = []
    for it in shown:
        if against:
            against.note(it)
        changes = against.part(it) if against else ""
        found.append(module_part(it, report.unlisted.get(it.module.name, 0), changes, is_open))
    return "\n".join(found)


def page(report: Report, against: Optional[Against]) -> str:
    """The whole page."""
    title, shown = HEADINGS[report.title], shown_modules(report)
    # First of all, since the listings show which tasks ended on their lines.
    ends = note_ends(report, shown)
    return f"""<!DOCTYPE html>
<html lang="en">
<head>
<meta charset="utf-8">
<meta name="viewport" content="width=device-width, initial-scale=1">
<meta http-equiv="Content-Security-Policy" content="default-src 'none'; style-src 'unsafe-inline'">
<title>{title}</title>
<style>
{style()}</style>
</head>
<body>
<header id="top"><h1>{title}</h1>
<p class="dim">{whole(report)}</p>
{against.top() if against else ""}{alerts(report)}</header>
<main>
{tasks_part(report, ends)}{index(report, against)}
{modules_part(report, shown, against)}
{"".join(map(bare_part, report.sessions))}{results_part(report)}
</main>
</body>
</html>
"""


def main(words: list[str]) -> None:
    options, left = take_options("page", words)
    refuse_more(left)
    rules, old = read_rules(options.get(OPTION)), options.get(AGAINST)
    report = read_report("standard input", read_input())
    if old is None:
        against, idle = None, leave_out(report, rules)
    else:
        found, idle = differences(read_report(old, read_file(old)), report, rules, old, "standard input")
        against = Against(old, found)
    write_output(page(report, against).encode("utf-8"))
    tell_idle(idle)
