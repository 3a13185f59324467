"""Bodies of functions, and how a check passes over them: a copy of a crate keeps those of some functions alone.

The contract of another function is what a proof knows of it. So in the copy its body is `unreachable!()`, which reaches
nothing further, and its proof is a hole, which the prover takes as it is: a tenth of the crate is left to check, or less.
"""
from __future__ import annotations

import os
import re
import shutil
from itertools import takewhile
from typing import Collection, Iterator

from common.command import write_file
from developer.edit_files import ITEM, Unfit, column_of, function_at, sources_of

# A proof by hand of a function, as the toolchain wants it, that says nothing.
HOLE = """\
use Rattle.{crate}.proofs.{path}.Statement.{{statement}}

pub {name}_spec : {{M : Type 1}} → statement M
{name}_spec = ?
"""
EMPTY = "unreachable!()"
CONST = re.compile(r" *(?:pub(?:\([^)]*\))? )?const ")


def bodies_in(lines: list[str]) -> Iterator[tuple[int, int, int]]:
    """The functions of a file that have a body in lines of its own, by the layout of `rt fmt`: the line in which their heads begin,
    that of the brace that opens the body, and that of the one that closes it."""
    for first, line in enumerate(lines):
        item = ITEM.match(line)
        if not item or item[1] != "fn":
            continue
        column = column_of(line)
        # (a head may end on its first line, in a line of its own, or behind its parameters; none goes on past an empty line)
        head = takewhile(lambda at: lines[at].strip(), range(first, len(lines)))
        own = (at for at in head if at == first or column_of(lines[at]) <= column)
        opens = next((at for at in own if lines[at].endswith(("{", ";", "}"))), first)
        if lines[opens].endswith("{"):
            closes = (at for at in range(opens + 1, len(lines)) if lines[at] == " " * column + "}")
            end = next(closes, None)
            if end is not None:
                yield first, opens, end


def take_away(place: str, crate: str, keep: Collection[str]) -> None:
    """Takes the bodies of all functions but some from a copy of a crate, and their proofs."""
    for path, text in list(sources_of(place)):
        lines = text.split("\n")
        for first, opens, end in reversed(list(bodies_in(lines))):
            try:
                function = function_at(place, path, text, sum(len(it) + 1 for it in lines[:first]) + column_of(lines[first]))
            except Unfit:
                continue
            if function not in keep and not CONST.match(lines[first]):
                # (as many lines as before, so that a fault of the toolchain's tells the line of the source)
                lines[opens + 1:end] = [" " * (column_of(lines[first]) + 4) + EMPTY, *[""] * (end - opens - 2)]
                take_proof_away(place, crate, function)
        write_file(f"{place}/{path}", "\n".join(lines).encode())


def take_proof_away(place: str, crate: str, function: str) -> None:
    """Puts a hole in the place of a function's proof."""
    words = function.split("::")
    folder = "/".join([place, "proofs", *words])
    shutil.rmtree(folder, ignore_errors=True)
    os.makedirs(folder)
    write_file(f"{folder}/Proof.antt", HOLE.format(crate=crate, path=".".join(words), name=words[-1]).encode())
