"""What two lists have in common, in one order: the longest row of pairs of items that are alike."""
from __future__ import annotations

import bisect
from typing import Any, Hashable, Iterator, Sequence

Pairs = list[tuple[int, int]]
# The last pair of a row of pairs, and the row before it.
Row = tuple[int, int, Any]
# From so many pairs of items that are alike on, all rows at once cost less than pair by pair.
MANY_PAIRS = 1_000_000
# So many bits of rows are kept at once, and of longer lists the halves one after the other.
MOST_BITS = 1 << 28


def in_common(one: Sequence[Hashable], other: Sequence[Hashable]) -> Pairs:
    """The longest row of pairs, each of the items' numbers from 0 in both lists."""
    places: dict[Hashable, list[int]] = {}
    for at in reversed(range(len(other))):
        places.setdefault(other[at], []).append(at)
    is_dense = sum(len(places.get(it, ())) for it in one) > MANY_PAIRS
    return by_rows(one, other) if is_dense else by_pairs(one, places)


def by_pairs(one: Sequence[Hashable], places: dict[Hashable, list[int]]) -> Pairs:
    """The same, pair by pair, by where each item stands in the other list, from the last place on (Hunt and Szymanski)."""
    # Of the rows of each length that which ends first in the other list: where it ends, and its pairs from the last on.
    ends: list[int] = []
    rows: list[Row] = []
    for at, item in enumerate(one):
        for to in places.get(item, ()):
            length = bisect.bisect_left(ends, to)
            ends[length : length + 1] = [to]
            rows[length : length + 1] = [(at, to, rows[length - 1] if length else None)]
    found, row = [], rows[-1] if rows else None
    while row is not None:
        found.append((row[0], row[1]))
        row = row[2]
    return found[::-1]


def by_rows(one: Sequence[Hashable], other: Sequence[Hashable]) -> Pairs:
    """The same, by a number for each beginning of the one list; of long lists first where to part the other one."""
    if len(one) < 2 or len(one) * len(other) <= MOST_BITS:
        return traced(list(steps(one, other)), len(other))
    half = len(one) // 2
    before = lengths(list(steps(one[:half], other))[-1], len(other))
    behind = lengths(list(steps(one[:half - 1:-1], other[::-1]))[-1], len(other))
    cut = max(range(len(other) + 1), key=lambda at: before[at] + behind[len(other) - at])
    second = by_rows(one[half:], other[cut:])
    return by_rows(one[:half], other[:cut]) + [(half + was, cut + at) for was, at in second]


def steps(one: Sequence[Hashable], other: Sequence[Hashable]) -> Iterator[int]:
    """For each beginning of the one list a number: its bit is 0 where the other list up to that item has a longer row in
    common with it than without that item (Hyyr\u00f6)."""
    masks: dict[Hashable, int] = dict.fromkeys(one, 0)
    for at, item in enumerate(other):
        if item in masks:
            masks[item] |= 1 << at
    every = row = (1 << len(other)) - 1
    for item in one:
        both = row & masks[item]
        row = (row + both | row - both) & every
        yield row


def lengths(row: int, count: int) -> list[int]:
    """How long the longest row is with each beginning of the other list, by such a number."""
    found = [0]
    for bit in reversed(f"{row:0{count}b}" if count else ""):
        found.append(found[-1] + (bit == "0"))
    return found


def traced(rows: list[int], count: int) -> Pairs:
    """The pairs, from the last on, by the numbers of all beginnings of the one list."""
    found, at, to = [], len(rows), count
    while at and to:
        if rows[at - 1] >> to - 1 & 1:
            to -= 1
        elif at > 1 and not rows[at - 2] >> to - 1 & 1:
            at -= 1
        else:
            at, to = at - 1, to - 1
            found.append((at, to))
    return found[::-1]
