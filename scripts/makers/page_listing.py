"""The listings on a page: a module's lines with their marks, and links to what was not executed."""
from __future__ import annotations

import re
from typing import Optional

from common.markup import count_of, headed, listed, safe
from readers.labels import Spot, spots_of
from readers.listing import Heading, heading_of, object_code
from readers.report import MARKS, Line, Module, Report, Session, text_of
from readers.totals import totals_of, unlisted_words

# How lines of a mark are drawn, and whatever else a line is.
KINDS = {"^": "not", ">": "half", "V": "half"}
LEFT_OUT, ENDED = "out", "ended"
# More listings than these are folded at first.
LISTINGS_OPEN = 4
# What a print control character asks for before its line: empty lines, or a new page.
NEW_PAGE, FORM_FEED = '<span class="new"></span>', "\f"
SKIPS = {"0": "\n", "-": "\n\n", "1": NEW_PAGE, FORM_FEED: NEW_PAGE}


class Shown:
    """A module of a session as the page shows it: its lines with their labels, the tasks that ended on each, and how lines
    are drawn that have changed against another report, with what is told of them."""

    def __init__(self, session: Session, module: Module) -> None:
        self.session, self.module = session, module
        # The name of the listing on the page. Names of sessions differ, and those of modules too.
        self.name = f"{session.name}.{module.name}"
        self.title = f"{safe(module.name)} in session {safe(session.name)}"
        self.heading = heading_of([it.text for it in module.lines])
        self.spots = spots_of(module.lines)
        self.places = {module.lines[at].location: at for at in self.spots}
        self.ended: dict[int, list[str]] = {}
        self.changed: dict[int, str] = {}
        self.told: dict[int, list[str]] = {}
        self.covered: Optional[dict[int, int]] = None

    def line_at(self, location: int) -> Optional[int]:
        """The line whose bytes have the location: an instruction, or else a constant as far as the listing shows it."""
        if self.covered is None:
            self.covered = {}
            for at, line in enumerate(self.module.lines):
                for it in bytes_of(line, self.heading):
                    if line.mark != " " or it not in self.covered:
                        self.covered[it] = at
        return self.covered.get(location)

    def kind_of(self, at: int) -> str:
        """How a line is drawn; empty where it needs no colour."""
        line = self.module.lines[at]
        return LEFT_OUT if line.is_left_out else self.changed.get(at, "") or KINDS.get(line.mark, "")

    def link(self, at: int, text: str) -> str:
        """A link to a line."""
        return f'<a href="#{self.anchor(at)}">{text}</a>'

    def anchor(self, at: int) -> str:
        """The name of a line on the page: by its location that of a place, and of another by its number."""
        location = self.module.lines[at].location
        return f"{self.name}.line{at + 1}" if location is None else f"{self.name}.{location:06X}"

    def note(self, location: int, text: str) -> Optional[int]:
        """Notes at the line that has the location that a task ended there, and answers the line."""
        at = self.line_at(location)
        if at is not None:
            self.ended.setdefault(at, []).append(text)
        return at


def bytes_of(line: Line, heading: Optional[Heading]) -> range:
    """The locations of the bytes that a line shows. Counts alone show the first of each place."""
    if heading is None:
        return range(0) if line.location is None else range(line.location, line.location + 1)
    found = object_code(line.text, heading)
    code = found[1].replace(b" ", b"") if found else b""
    if not found or not re.fullmatch(rb"([0-9A-Fa-f]{2})+", code):
        return range(0)
    return range(found[0], found[0] + len(code) // 2)


def shown_modules(report: Report) -> list[Shown]:
    """Each module of each session that has lines."""
    return [Shown(session, it) for session in report.sessions for it in session.modules if it.lines]


def unlisted_alert(name: str, count: int) -> str:
    """What is told of a module in which instructions ran that its listing doesn't have."""
    told, why = unlisted_words(name, count)
    return f'<p class="alert"><strong>{safe(told)}</strong> {why}</p>\n'


def legend(module: Module) -> str:
    """What the marks say, and how many lines that count have each; and how many are left out."""
    marks = [it.mark for it in module.lines if it.is_counted()]
    items = [
        f'<li><code class="{KINDS.get(mark, "done")}">{safe(mark)}</code> {words}: {marks.count(mark):,}</li>'
        for mark, words in MARKS.items()
    ]
    left_out = totals_of([module]).left_out
    items += [f'<li><span class="{LEFT_OUT}">left out</span>: {left_out:,}</li>'] if left_out else []
    return f'<ul class="marks">{"".join(items)}</ul>'


def counts_text(line: Line) -> str:
    """How often a place ran, or how often it branched and fell through."""
    return " ".join(map(str, line.counts or ()))


def text_line(line: Line, heading: Optional[Heading], width: int) -> tuple[str, str]:
    """What stands before a line, and the line: behind its mark and, where places were counted, its counts in so many
    columns. Its print control character is no text."""
    text, before = text_of(line.text), ""
    if heading and heading.shift:
        control, text = text[:1], text[1:]
        before = SKIPS.get(control, "")
    elif text.startswith(FORM_FEED):
        before, text = NEW_PAGE, text[1:]
    counts = f"{counts_text(line):>{width}} " if width else ""
    return before, f"{safe(line.mark)} {counts}{safe(text)}\n"


def listing_text(it: Shown, anchors: set[int], width: int) -> str:
    """The lines of a listing. Those that need no colour and that nothing links to are text alone; lines that follow
    each other and are drawn alike are one element."""
    parts: list[str] = []
    is_open = ""
    for at, line in enumerate(it.module.lines):
        kind = it.kind_of(at) or (ENDED if at in anchors else "")
        before, text = text_line(line, it.heading, width)
        if is_open and (kind != is_open or at in anchors or before):
            parts.append("</span>")
            is_open = ""
        parts.append(before if at else "")
        if kind and not is_open:
            name = f' id="{it.anchor(at)}"' if at in anchors else ""
            parts.append(f'<span class="{kind}"{name}>')
            is_open = kind
        parts.append(noted_text(text, it.ended.get(at, []), it.told.get(at, [])))
        if is_open and at in it.ended:
            parts.append("</span>")
            is_open = ""
    return "".join(parts) + ("</span>" if is_open else "")


def noted_text(text: str, ended: list[str], told: list[str]) -> str:
    """A line, and behind it what has changed there, and the tasks that ended there, of many the first."""
    more = f" and {len(ended) - 3:,} more" if len(ended) > 3 else ""
    notes = [f"  <i>\u2190 {safe(', '.join(told))}</i>"] if told else []
    notes += [f"  <b>\u2190 {safe(', '.join(ended[:3]) + more)}</b>"] if ended else []
    return f"{text.rstrip()}{''.join(notes)}\n" if notes else text


def place_words(spot: Spot, *words: str) -> str:
    """What is told of a place behind its link."""
    return safe(", ".join(it for it in (*words, spot.words()) if it))


def ranges(it: Shown) -> str:
    """Links to the first line of each range that was not executed. Counts alone tell of no ranges."""
    module = it.module
    if not module.places:
        return "<p>The listing has no instruction line.</p>\n"
    if module.executed == module.places:
        return "<p>Every place was executed.</p>\n"
    found = [(it.places[first], f"{first:06X}-{last:06X}") for first, last in module.ranges if first in it.places]
    items = [f"{it.link(at, text)} {place_words(it.spots[at])}" for at, text in found]
    return listed(f"{count_of(len(items), 'range')} not executed", items)


def one_way(it: Shown) -> list[int]:
    """The branches that went one way only, in order of location."""
    found = [at for at in it.spots if it.module.lines[at].is_counted() and it.module.lines[at].mark in ">V"]
    return sorted(found, key=lambda at: it.module.lines[at].location or 0)


def one_way_part(it: Shown) -> str:
    """Links to the branches that went one way only."""
    items = []
    for at in one_way(it):
        line = it.module.lines[at]
        items.append(f"{it.link(at, f'{line.location:06X}')} {place_words(it.spots[at], MARKS[line.mark])}")
    return listed(f"{count_of(len(items), 'branch', 'branches')} went one way only", items)


def drained(session: Session) -> str:
    """Whether and when a session's sets were final while its controller ran, where the report tells."""
    if session.is_drained is None:
        return ""
    if session.drained_at is None:
        return "<p>Not known to be final while its controller ran.</p>\n"
    return f"<p>Final when its controller had done {count_of(session.drained_at, 'instruction')}.</p>\n"


def bare_part(session: Session) -> str:
    """What is told of a session that has no listing, under its name."""
    name = safe(session.name)
    if session.is_drained is None or any(it.lines for it in session.modules):
        return ""
    title = headed("h2", f"{name}.title", f"Session {name}")
    return f'<section id="{name}" aria-labelledby="{name}.title">\n{title}\n{drained(session)}</section>\n'


def module_part(it: Shown, unlisted: int, changes: str, is_open: bool) -> str:
    """A module's listing with its marks, which folds, below what is told of it and of its changes."""
    module, name = it.module, it.name
    width = max(len(counts_text(line)) for line in module.lines)
    firsts = {it.places[first] for first, _ in module.ranges if first in it.places}
    lines = listing_text(it, {*firsts, *one_way(it), *it.ended, *it.told}, width)
    counted = "<p>Behind each mark: how often it ran, or how often it branched and fell through.</p>\n" if width else ""
    lost = unlisted_alert(module.name, unlisted) if unlisted else ""
    region = f'tabindex="0" role="region" aria-label="Listing of {it.title}"'
    return f"""<section id="{name}" aria-labelledby="{name}.title">
{headed("h2", f"{name}.title", it.title)}
<p>{totals_of([module]).words()}</p>
{lost}{drained(it.session)}{changes}{ranges(it)}{one_way_part(it)}{legend(module)}
{counted}<details class="fold"{' open' if is_open else ''}><summary>Listing, {count_of(len(module.lines), 'line')}</summary>
<div class="wide listing" style="--lines:{len(module.lines)}" {region}>
<pre>{lines}</pre></div></details>
</section>"""
