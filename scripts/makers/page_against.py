"""What has changed against another report, on a page: in its listings, above each of them, and at its top."""
from __future__ import annotations

from common.markup import count_of, listed, safe
from makers.page_listing import Shown, place_words
from readers.difference import FRESH, GAINED, LOST, Change, Difference, sums

# How a change is drawn, and how a list of such is called behind the number of facts. Of two at one line the first is drawn.
KINDS = {LOST: ("lost", "lost"), FRESH: ("fresh", "of new places not shown"), GAINED: ("gained", "gained")}


class Against:
    """The differences of a page's modules against an old report, by the name of its file."""

    def __init__(self, old: str, found: list[Difference]) -> None:
        self.old, self.found = old, found
        self.by_names = {(it.session, it.name): it for it in found}

    def of(self, it: Shown) -> Difference:
        """What differs in a module that the page shows."""
        return self.by_names[it.session.name, it.module.name]

    def note(self, it: Shown) -> None:
        """Notes at a module's lines what has changed there."""
        changes = self.of(it).changes
        for kind, (drawn, _) in KINDS.items():
            for change in changes:
                if change.kind == kind:
                    for at in change.lines:
                        it.changed.setdefault(at, drawn)
                    words = f"new, {change.words}" if kind == FRESH else change.words
                    it.told.setdefault(change.lines[0], []).append(words)

    def part(self, it: Shown) -> str:
        """What has changed in a module, with links to the lines."""
        found = self.of(it)
        lists = []
        for kind, (_, words) in KINDS.items():
            changes = [change for change in found.changes if change.kind == kind]
            title = f"{count_of(found.facts(kind), 'fact')} {words}"
            lists.append(listed(title, [item(it, change) for change in changes]))
        return f"<p>Against {safe(self.old)}: {safe(found.words())}.</p>\n{''.join(lists)}"

    def top(self) -> str:
        """The sums, and which modules the page lacks."""
        lost = sum(it.facts(LOST) for it in self.found)
        told = f"Against {safe(self.old)}: {sums(self.found)}"
        missing = [f"{it.name} in session {it.session}" for it in self.found if it.new is None]
        more = f" Not in this report: {safe(', '.join(missing))}." if missing else ""
        return f'<p class="alert"><strong>{told}</strong>{more}</p>\n' if lost or missing else f"<p>{told}</p>\n"


def item(it: Shown, change: Change) -> str:
    """A change, with a link to its first line."""
    first = change.lines[0]
    words = [change.words, *([count_of(len(change.lines), "place")] if len(change.lines) > 1 else [])]
    return f"{it.link(first, change.where(it.module))} {place_words(it.spots[first], *words)}"
