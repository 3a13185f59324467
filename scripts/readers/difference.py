"""What two reports differ in: facts that were lost and gained, and new places that lack facts."""
from __future__ import annotations

from dataclasses import dataclass, field
from typing import Iterable, Optional

from common.command import Fault
from common.markup import count_of
from readers.in_common import Pairs, in_common
from readers.labels import Spot, number_of, spots_of
from readers.leave_out import Rule, leave_out, recount
from readers.listing import Heading, heading_of
from readers.report import FACTS, MARKS, Line, Module, Report
from readers.totals import percent, totals_of

# The columns of a source statement; a sequence number stands behind them.
SOURCE = 72
# The kinds of a change; a place is new where the old report lacks it, and is told where it lacks a fact.
LOST, GAINED, FRESH = "lost", "gained", "new"
# What each mark of a branch that went one way has shown.
WAYS = {">": "branched", "V": "fell through"}
# By what a line is found again: whether and how it is a place, and its source statement; and lines by their numbers with it.
Key = tuple[Optional[bool], bytes]
Keyed = list[tuple[int, Key]]


@dataclass
class Change:
    """Places of one kind of change, in words, which follow each other in a listing: their lines, counted from 0, and how
    many facts that is of."""

    kind: str
    words: str
    lines: list[int]
    facts: int


    def where(self, module: Module) -> str:
        """From where to where its places reach in the module."""
        first, last = module.lines[self.lines[0]], module.lines[self.lines[-1]]
        begin, end = first.location or 0, (last.location or 0) + max(last.length, 1) - 1
        return f"{begin:06X}" if len(self.lines) == 1 else f"{begin:06X}-{end:06X}"


@dataclass
class Difference:
    """A session's module in two reports, its changes in order of location, and how many places of the old one are gone. One
    of the two is none where the report lacks it."""

    session: str
    name: str
    old: Optional[Module]
    new: Optional[Module]
    changes: list[Change] = field(default_factory=list)
    spots: dict[int, Spot] = field(default_factory=dict)
    gone: int = 0

    def facts(self, kind: str) -> int:
        """Of how many facts the changes of a kind are."""
        return sum(it.facts for it in self.changes if it.kind == kind)

    def is_same(self) -> bool:
        """Whether nothing has changed that is told."""
        return not self.changes and not self.gone and self.old is not None and self.new is not None

    def words(self) -> str:
        """The facts before and now, and what is gone or left out."""
        if self.old is None or self.new is None:
            one, which, when = (self.old, "new", "before") if self.old else (self.new, "old", "now")
            return f"not in the {which} report; {facts_words(one)}, {when}" if one else ""
        found = [f"{facts_words(self.old)}, before", f"{facts_words(self.new)}, now"]
        found += [f"{count_of(self.gone, 'place')} gone"] if self.gone else []
        left_out = totals_of([self.new])
        return "; ".join([*found, *([left_out.left_out_words().rstrip(".")] if left_out.left_out else [])])


def facts_words(module: Module) -> str:
    """The facts of a module, with their share."""
    return f"{module.facts:,} of {count_of(module.possible, 'fact')}, {percent(module.facts, module.possible)} %"


def sums(found: list[Difference]) -> str:
    """What was lost, gained, is new and is gone, of all."""
    lost, gained, fresh = (sum(it.facts(kind) for it in found) for kind in (LOST, GAINED, FRESH))
    gone = sum(it.gone for it in found)
    told = f"{count_of(lost, 'fact')} lost, {gained:,} gained; {count_of(fresh, 'fact')} of new places not shown"
    return f"{told}; {count_of(gone, 'place')} gone." if gone else f"{told}."


def source_of(line: Line, heading: Optional[Heading]) -> bytes:
    """The source statement on a line."""
    if heading is None:
        return line.text
    return line.text[heading.shift + heading.columns.source :][:SOURCE].rstrip(b" ")


def key_of(line: Line, heading: Optional[Heading]) -> Key:
    """By what a line is found again."""
    return None if line.mark == " " else line.is_conditional, source_of(line, heading)


def keys_of(lines: list[Line]) -> Keyed:
    """The lines that can be found again, by their numbers from 0, with what they are found by: places, and others that are
    numbered statements with a text. What comes again at each page has no number, and would be found in place of these."""
    heading = heading_of([it.text for it in lines])
    keys = [(at, key_of(it, heading)) for at, it in enumerate(lines)]
    return [(at, key) for at, key in keys if key[0] is not None or key[1] and heading and number_of(lines[at], heading) is not None]


def pairs_of(old: list[Line], new: list[Line]) -> dict[int, int]:
    """For each place of the new listing that the old one has its line's number there: of the pairs of places that are alike
    as many as stand in one order in both. Where there is a choice, text lines that both have decide it."""
    olds, news = keys_of(old), keys_of(new)
    places = [[it for it in found if it[1][0] is not None] for found in (olds, news)]
    helped = [(was, at) for was, at in matched(olds, news) if new[at].mark != " "]
    if len(helped) < min(map(len, places)):
        helped = at_least(helped, matched(*places))
    return {at: was for was, at in helped}


def matched(olds: Keyed, news: Keyed) -> Pairs:
    """The longest row of pairs of lines that are alike, by their numbers."""
    one, other = [key for _, key in olds], [key for _, key in news]
    # What is alike at both ends is paired at once, so that it costs nothing.
    begin = alike(zip(one, other))
    end = alike(zip(reversed(one[begin:]), reversed(other[begin:])))
    stop, other_stop = len(one) - end, len(other) - end
    found = [(it, it) for it in range(begin)]
    found += [(begin + was, begin + at) for was, at in in_common(one[begin:stop], other[begin:other_stop])]
    found += [(stop + it, other_stop + it) for it in range(end)]
    return [(olds[was][0], news[at][0]) for was, at in found]


def at_least(helped: Pairs, most: Pairs) -> Pairs:
    """As many pairs as the second row has, which is the longest: the first, but the second's from a pair that both have to the
    next wherever that has more."""
    both, rows = set(helped) & set(most), []
    for pairs in (helped, most):
        cuts = [0, *(at for at, it in enumerate(pairs, 1) if it in both), len(pairs)]
        rows.append([pairs[begin:end] for begin, end in zip(cuts, cuts[1:])])
    return [it for parts in zip(*rows) for it in max(parts, key=len)]


def alike(pairs: Iterable[tuple[object, object]]) -> int:
    """How many pairs are alike before the first that isn't."""
    count = 0
    for one, other in pairs:
        if one != other:
            break
        count += 1
    return count


def shows(line: Line) -> list[str]:
    """The facts at a place, in words."""
    if line.mark in WAYS:
        return [WAYS[line.mark]]
    others: dict[str, list[str]] = {"^": [], ":": ["executed"]}
    return others.get(line.mark, list(WAYS.values()))


def changes_at(line: Line, was: Optional[Line]) -> list[tuple[str, str, int]]:
    """What has changed at a place: of each kind in words, and how many facts that is of."""
    if was is None:
        missing = 1 + line.is_conditional - FACTS[line.mark]
        return [(FRESH, MARKS[line.mark], missing)] if missing else []
    before, now, found = shows(was), shows(line), []
    lost, gained = [it for it in before if it not in now], [it for it in now if it not in before]
    if lost:
        found.append((LOST, f"no longer {' and '.join(lost) if now else 'executed'}", len(lost)))
    if gained:
        found.append((GAINED, f"{' and '.join(gained) if before else 'executed'} now", len(gained)))
    return found


def changes_of(new: list[Line], before: dict[int, Line]) -> list[Change]:
    """The changes of a listing, by its lines as they were before. Those of places that follow each other are one where they
    are alike."""
    found: list[Change] = []
    last: dict[tuple[str, str], Change] = {}
    for at, line in enumerate(new):
        if line.mark == " ":
            continue
        here = {}
        for kind, words, facts in changes_at(line, before.get(at)) if line.is_counted() else ():
            change = last.get((kind, words))
            if change is None:
                change = Change(kind, words, [], 0)
                found.append(change)
            change.lines.append(at)
            change.facts += facts
            here[kind, words] = change
        last = here
    return found


def compare(session: str, name: str, old: Optional[Module], new: Optional[Module]) -> Difference:
    """What differs in a module of a session. A place that both reports have is left out of both where it is in the new."""
    if old is None or new is None:
        gone = old.places if old else 0
        changes = changes_of(new.lines, {}) if new else []
        return Difference(session, name, old, new, changes, spots_of(new.lines) if new else {}, gone)
    pairs = pairs_of(old.lines, new.lines)
    for at, was in pairs.items():
        old.lines[was].is_left_out = new.lines[at].is_left_out
    recount(old)
    kept = set(pairs.values())
    gone = sum(it.is_counted() and at not in kept for at, it in enumerate(old.lines))

    before = {at: old.lines[was] for at, was in pairs.items()}
    return Difference(session, name, old, new, changes_of(new.lines, before), spots_of(new.lines), gone)


def differences(
    old: Report, new: Report, rules: list[Rule], old_place: str, new_place: str,
) -> tuple[list[Difference], list[Rule]]:
    """What differs in each module of each session, by their names: those of the new report first, in its order, and then
    those that it lacks; and the rules that name no place. The rules leave out places of the new one, and by their labels
    also such as it lacks. Refused are counts alone, and reports that have no module in common; the places say which."""
    for place, report in ((old_place, old), (new_place, new)):
        if report.title == "COVERAGE COUNT":
            raise Fault(place, "counts alone have no source statements: they stand behind a report")
    if not by_names(old).keys() & by_names(new).keys():
        raise Fault(new_place, f"no listing is of a session and a module that {old_place} has too")
    idle = leave_out(new, rules)
    leave_out(old, [it for it in rules if not it.range])
    olds, news = by_names(old), by_names(new)
    return [compare(*names, olds.get(names), news.get(names)) for names in dict.fromkeys([*news, *olds])], idle


def by_names(report: Report) -> dict[tuple[str, str], Module]:
    """The modules of a report that have lines, by the names of their sessions and their own."""
    return {(session.name, it.name): it for session in report.sessions for it in session.modules if it.lines}
