"""What the parts of a page share: text as markup, counts in words, lists that fold."""
from __future__ import annotations

import re
from html import escape

# What no page may hold: control characters.
CONTROLS = re.compile("[\x00-\x1f\x7f-\x9f\ud800-\udfff]")
# More items than these are folded.
OPEN = 12


def printed(text: str) -> str:
    """The text without control characters, of which each is the character that stands for such."""
    return CONTROLS.sub("\ufffd", text)


def safe(text: str) -> str:
    """The text for a page."""
    return escape(printed(text))


def count_of(count: int, what: str, many: str = "") -> str:
    """A count in words: 1 line, 2 lines."""
    return f"{count:,} {what if count == 1 else many or what + 's'}"


def folds(title: str, content: str, is_open: bool = False) -> str:
    """A part that folds below its title."""
    return f"<details{' open' if is_open else ''}><summary>{title}</summary><div>{content}</div></details>"


def listed(title: str, items: list[str]) -> str:
    """A list below its title, folded where it is long; nothing of no item."""
    if not items:
        return ""
    found = f'<ul class="places">\n{chr(10).join(f"<li>{it}</li>" for it in items)}\n</ul>'
    return folds(title, found) + "\n" if len(items) > OPEN else f"<p>{title}:</p>\n{found}\n"


def headed(level: str, name: str, title: str) -> str:
    """The heading of a part of the page, which stays in sight, with the way back."""
    return f'<div class="head"><{level} id="{name}">{title}</{level}>\n<a href="#top">Back to the top</a></div>'
