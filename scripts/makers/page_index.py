"""The index of a page: a row for each module of a session, sorted by any column without a script."""
from __future__ import annotations

from dataclasses import dataclass
from typing import Any, Optional

from common.markup import safe
from makers.page_against import Against
from readers.difference import FRESH, GAINED, LOST
from readers.report import Module, Report, Session
from readers.totals import percent, totals_of

# Fewer rows are seen at once, and need no sorting.
SORTED = 3
CAPTION = """Places are instruction lines. A place has one fact, that it ran; a conditional branch has two, that it branched
and that it fell through."""
Row = tuple[Session, Module]


@dataclass
class Column:
    """A column: its name for the style sheet, its title, its width in cells, its cells, and by what they are sorted."""

    name: str
    title: str
    width: int
    is_number: bool
    cells: list[str]
    keys: list[Any]

    def head(self, is_sorted: bool) -> str:
        """The cell of the heading, which sorts the rows."""
        span = f' colspan="{self.width}"' if self.width > 1 else ""
        kind = ' class="number"' if self.is_number else ""
        return f'<th scope="col"{span}{kind}>{choice(self.name, self.title) if is_sorted else self.title}</th>'

    def ranks(self) -> list[str]:
        """The rank of each row by this column, as the style sheet takes it."""
        ranks = {key: rank for rank, key in enumerate(sorted(set(self.keys)))}
        return [f"--by-{self.name}:{ranks[key]}" for key in self.keys]


def choice(name: str, title: str, is_first: bool = False) -> str:
    """One of the orders to choose from."""
    return f'<label><input type="radio" name="order" id="by-{name}"{" checked" if is_first else ""}>{title}</label>'


def bar(part: int, whole: int, what: str) -> str:
    """The two cells of a part and its whole: the numbers, and a bar."""
    if not whole:
        return '<td class="number">none</td><td></td>'
    share = percent(part, whole)
    return (
        f'<td class="number">{part:,} of {whole:,}</td>'
        f'<td><span class="bar" role="img" aria-label="{share} % of {what}"><span style="width:{share}%"></span></span>'
        f" {share} %</td>"
    )


def shares(name: str, title: str, what: str, pairs: list[tuple[int, int]]) -> Column:
    """The column of parts and their wholes, sorted by their shares; where there is no whole that comes last."""
    keys = [(not whole, part / (whole or 1)) for part, whole in pairs]
    return Column(name, title, 2, False, [bar(*it, what) for it in pairs], keys)


def numbers(name: str, title: str, counts: list[int], is_bad: bool = False) -> Column:
    """The column of numbers, sorted from the largest on; of bad ones those that aren't 0 stand out."""
    texts = [f"<strong>{it:,}</strong>" if it and is_bad else f"{it:,}" for it in counts]
    return Column(name, title, 1, True, [f'<td class="number">{it}</td>' for it in texts], [-it for it in counts])


def name_cell(session: Session, module: Module) -> str:
    """A module's name, with a link to its listing."""
    name = safe(module.name)
    link = f'<a href="#{safe(session.name)}.{name}">{name}</a>' if module.lines else name
    return f'<th scope="row">{link}</th>'


def names(name: str, title: str, texts: list[str]) -> Column:
    """The column of names."""
    return Column(name, title, 1, False, [f"<td>{safe(it)}</td>" for it in texts], list(texts))


def columns(report: Report, rows: list[Row], against: Optional[Against]) -> list[Column]:
    """All columns: of what can't be, or isn't, there is none."""
    sessions, modules = [it for it, _ in rows], [it for _, it in rows]
    totals = [totals_of([it]) for it in modules]
    found = [names("session", "Session", [it.name for it in sessions])]
    found.append(names("phase", "Phase", [it.phase for it in sessions]))
    found.append(Column("module", "Module", 1, False, [name_cell(*it) for it in rows], [it.name for it in modules]))
    found.append(shares("places", "Places executed", "places", [(it.executed, it.places) for it in totals]))
    found.append(shares("facts", "Facts shown", "facts", [(it.facts, it.possible) for it in totals]))
    if report.title != "COVERAGE COUNT":
        found.append(numbers("ranges", "Ranges not executed", [len(it.ranges) for it in modules]))
    if any(it.left_out for it in totals):
        found.append(numbers("out", "Left out", [it.left_out for it in totals]))
    if against:
        found += changes(rows, against)
    if any(report.unlisted.values()):
        found.append(numbers("lost", "On no line", [report.unlisted.get(it.name, 0) for it in modules], True))
    return found


def changes(rows: list[Row], against: Against) -> list[Column]:
    """The columns of facts that were lost and gained, and of those that new places lack."""
    kinds = (("less", "Facts lost", LOST), ("more", "Gained", GAINED), ("fresh", "New, not shown", FRESH))
    found = [against.by_names.get((session.name, it.name)) for session, it in rows]
    return [numbers(name, title, [it.facts(kind) if it else 0 for it in found], kind == LOST) for name, title, kind in kinds]


def table(found: list[Column], count: int) -> str:
    """The table: with more rows than a few its headings choose by which column they are sorted."""
    is_sorted = count > SORTED
    heads = "\n".join(it.head(is_sorted) for it in found)
    ranks = list(zip(*(it.ranks() for it in found))) if is_sorted else []
    styles = [f' style="--by-report:{at};{";".join(it)}"' for at, it in enumerate(ranks)] if is_sorted else [""] * count
    rows = "\n".join(f"<tr{style}>{''.join(cells)}</tr>" for style, cells in zip(styles, zip(*(it.cells for it in found))))
    turned = '<label><input type="checkbox" id="turned">the other way round</label>'
    orders = f'<p class="orders">Sorted by a heading, or {choice("report", "as in the report", True)}, {turned}</p>\n'
    width = sum(it.width for it in found)
    return f"""{orders if is_sorted else ""}<div class="wide" tabindex="0" role="region" aria-label="Sessions and modules">
<table style="--width:{width}"><caption>{CAPTION}</caption>
<thead><tr>{heads}</tr></thead>
<tbody>
{rows}
</tbody></table></div>"""


def index(report: Report, against: Optional[Against]) -> str:
    """The part of the sessions and their modules."""
    rows = [(session, it) for session in report.sessions for it in session.modules]
    is_sorted = ' class="sorted"' if len(rows) > SORTED else ""
    none = "<p>The report has no session with a module.</p>"
    found = table(columns(report, rows, against), len(rows)) if rows else none
    title = '<h2 id="sessions">Sessions and modules</h2>'
    return f'<section{is_sorted} aria-labelledby="sessions">\n{title}\n{found}\n</section>'
