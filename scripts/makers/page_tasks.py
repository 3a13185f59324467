"""The tasks on a page: how and where each ended, at its top, and what each has left, at its end."""
from __future__ import annotations

from common.markup import OPEN, count_of, folds, headed, safe
from makers.page_listing import Shown
from readers.ebcdic import DUMP, to_ascii
from readers.report import End, Report, Task

ROW = 16
RETURN_ADDRESS = 0xFFFFFE
# What an ending says, by its first words (docs/MACHINE.md).
MEANINGS = {
    "ABEND 1": "operation", "ABEND 2": "privileged operation", "ABEND 3": "execute", "ABEND 4": "protection",
    "ABEND 5": "addressing", "ABEND 6": "specification", "ABEND 7": "data", "ABEND 8": "fixed-point overflow",
    "ABEND 9": "fixed-point divide", "ABEND A": "decimal overflow", "ABEND B": "decimal divide",
    "BADSVC": "no task call", "OUTFULL": "no room for its output", "TOUCHED": "an instruction read as data, or as a part of another",
    "SPENT": "its budget is used up", "EXIT": "by SVC 3", "RUNNING": "not ended",
}
# The ASCII character of each code of ASCII; a dot where it can't be printed.
ASCII = bytes(code if 0x20 <= code <= 0x7E else 0x2E for code in range(256))
# What text is mostly made of.
FREQUENT = frozenset(b"ABCDEFGHIJKLMNOPQRSTUVWXYZabcdefghijklmnopqrstuvwxyz0123456789 ")


def has_failed(task: Task) -> bool:
    """Whether a task has ended otherwise than by its return."""
    return task.ending != "RETURNED"


def in_sight(tasks: list[Task]) -> list[Task]:
    """The tasks, those first that have not returned."""
    return sorted(tasks, key=lambda it: not has_failed(it))


def failures(report: Report) -> str:
    """What is told first of the tasks that have not returned."""
    failed = [it for it in report.tasks if has_failed(it)]
    if not failed:
        return ""
    told = f"{len(failed):,} of {count_of(len(report.tasks), 'task')} did not return."
    return f'<p class="alert"><strong>{told}</strong></p>\n'


def ending_words(task: Task) -> str:
    """A task's ending, and what it says."""
    words = task.ending.split()
    meaning = MEANINGS.get(task.ending) or MEANINGS.get(words[0])
    ending = f"<strong>{safe(task.ending)}</strong>" if has_failed(task) else safe(task.ending)
    return f'{ending} <span class="dim">{meaning}</span>' if meaning else ending


def note_ends(report: Report, modules: list[Shown]) -> dict[str, str]:
    """Where each task ended, by its name, with links to the lines there, which note it."""
    ends = report.ends or {}
    return {it.name: end_words(it, ends[it.name], modules) for it in report.tasks if it.name in ends}


def end_words(task: Task, end: End, modules: list[Shown]) -> str:
    """Where a task ended: a link to the line, or one for each session that shows the module, since a report doesn't
    tell the phase of a task."""
    address = f"{end.address:06X}"
    if end.is_private:
        return f"{address} in private storage"
    if end.module is None:
        return f"{address}, the return address" if end.address == RETURN_ADDRESS else f"{address}, where nothing is"
    text, shown = f"{safe(end.module)} {end.location:06X}", [it for it in modules if it.module.name == end.module]
    found = [(it, at) for it in shown if (at := it.note(end.location, f"{task.name} {task.ending}")) is not None]
    if len(found) == 1:
        return found[0][0].link(found[0][1], text)
    if found:
        return f"{text} in {', '.join(it.link(at, safe(it.session.name)) for it, at in found)}"
    return f"{text}, on no line of the listing" if shown else f"{text}, which has no listing here"


def table(tasks: list[Task], ends: dict[str, str], caption: str) -> str:
    """A table of tasks."""
    rows = []
    for task in tasks:
        end = f"<td>{ends[task.name]}</td>" if ends else ""
        name = f'<th scope="row"><a href="#task.{safe(task.name)}">{safe(task.name)}</a></th>'
        kind = ' class="not"' if has_failed(task) else ""
        rows.append(f'<tr{kind}>{name}<td>{ending_words(task)}</td><td class="number">{task.count:,}</td>{end}</tr>')
    heads = '<th scope="col">Task</th><th scope="col">Ending</th><th scope="col" class="number">Instructions</th>'
    heads += '<th scope="col">Ended at</th>' if ends else ""
    return f"""<div class="wide" tabindex="0" role="region" aria-label="{caption}"><table>
<thead><tr>{heads}</tr></thead>
<tbody>
{chr(10).join(rows)}
</tbody></table></div>
"""


def tasks_part(report: Report, ends: dict[str, str]) -> str:
    """All tasks: first those that have not returned; the others fold where they are many. Marks files have none."""
    if report.title == "COVERAGE SHOW":
        return ""
    tasks = in_sight(report.tasks)
    failed, returned = [it for it in tasks if has_failed(it)], [it for it in tasks if not has_failed(it)]
    if not tasks:
        found = "<p>The job has no task.</p>\n"
    elif len(returned) <= OPEN:
        found = table(tasks, ends, "Tasks")
    else:
        found = table(failed, ends, "Tasks that did not return") if failed else ""
        found += folds(f"{count_of(len(returned), 'task')} returned", table(returned, ends, "Tasks that returned"))
    return f'<section aria-labelledby="tasks">\n<h2 id="tasks">Tasks</h2>\n{found}</section>\n'


def text_reading(data: bytes) -> tuple[bytes, str]:
    """The table by which bytes read better as text, and its name: that which makes more of them letters, digits and
    blanks; EBCDIC where both make as many."""
    as_ebcdic, as_ascii = (sum(it in FREQUENT for it in to_ascii(data, by)) for by in (DUMP, ASCII))
    return (ASCII, "ASCII") if as_ascii > as_ebcdic else (DUMP, "EBCDIC")


def dump(title: str, rows: list[tuple[int, bytes]]) -> str:
    """Bytes in rows, each with its address, and as text."""
    by, name = text_reading(b"".join(data for _, data in rows))
    lines = []
    for at, data in rows:
        digits = " ".join(data[it : it + 4].hex().upper() for it in range(0, len(data), 4))
        lines.append(f"{at:06X}  {digits:<35}  |{safe(to_ascii(data, by).decode('ascii'))}|")
    return f"<h3>{title}, as {name} text</h3><pre>{chr(10).join(lines)}</pre>"


def result(task: Task) -> str:
    """A task's result, folded. Its name is behind the fold, so that a link to it opens it."""
    registers = "\n".join(
        f"R{at:<2} {' '.join(task.registers[at : at + 4])}" for at in range(0, len(task.registers), 4)
    )
    said = f"{safe(task.ending)}, {count_of(task.count, 'instruction')}, condition code {task.condition}"
    parts = [f'<h3 id="task.{safe(task.name)}">Registers of {safe(task.name)}</h3><pre>{registers}</pre>']
    output = [(at, task.output[at : at + ROW]) for at in range(0, len(task.output), ROW)]
    if output:
        parts.append(dump("Output", output))
    if task.rows:
        parts.append(dump("Private storage that changed", task.rows))
    said += f", {count_of(len(task.output), 'byte')} of output"
    return folds(f"<strong>{safe(task.name)}</strong> {said}", "".join(parts))


def events_part(report: Report) -> str:
    """The events of a schedule, folded."""
    if not report.events:
        return ""
    lines = "\n".join(map(safe, report.events))
    return folds(f"{count_of(len(report.events), 'event')} of the schedule", f"<pre>{lines}</pre>")


def results_part(report: Report) -> str:
    """What all tasks have left; marks files and jobs without tasks have nothing."""
    found = [*map(result, in_sight(report.tasks)), *([events_part(report)] if report.events else [])]
    if not found:
        return ""
    title = headed("h2", "results", "Results of the tasks")
    return f'<section aria-labelledby="results">\n{title}\n{chr(10).join(found)}\n</section>'
