"""Rooms for the toolchain: copies of crates as they stood at one moment, in which nothing else works.

They lie among the temporary files: the toolchain refuses a checkout with a second list of crates, also one in its .git.
"""
from __future__ import annotations

import contextlib
import os
import re
import shutil
import tempfile
from typing import Iterator

from common.command import TOP
from developer.crate_sources import TOP_CRATE, crates, rows, sources

# By these the toolchain runs the program once it is built: its words, its input, and what it has to write.
RUN_BY = ("args", "stdin", "stdout")


@contextlib.contextmanager
def room(name: str) -> Iterator[str]:
    """A new folder of that name. What calls that were killed left there goes."""
    among = tempfile.gettempdir()
    for it in os.listdir(among):
        of = re.match(rf"{name}-(\d+)-", it)
        if of and not os.path.exists(f"/proc/{of[1]}"):
            shutil.rmtree(f"{among}/{it}", ignore_errors=True)
    at = tempfile.mkdtemp(prefix=f"{name}-{os.getpid()}-")
    try:
        # By it the folder is the top of a repository, as the toolchain wants it. What that sets aside lies there too.
        os.mkdir(f"{at}/.git")
        yield at
    finally:
        shutil.rmtree(at, ignore_errors=True)


def bring(at: str, *tops: str) -> list[str]:
    """Copies these crates, or the program, with those below them, and returns the copies of their sources."""
    found = [os.path.relpath(it, TOP) for it in sources(*tops)]
    for it in [*found, *(f"crates/{TOP_CRATE}/{name}" for name in RUN_BY)]:
        if os.path.isfile(f"{TOP}/{it}") and (it in found or os.path.isdir(f"{at}/crates/{TOP_CRATE}")):
            os.makedirs(os.path.dirname(f"{at}/{it}"), exist_ok=True)
            shutil.copyfile(f"{TOP}/{it}", f"{at}/{it}")
    return [f"{at}/{it}" for it in found]


def list_crates(at: str, *tops: str) -> dict[str, list[str]]:
    """Leaves in a room's list these crates, or the program, with those below them, as it has them; returns these."""
    lines, below = rows(at), crates(*tops, top=at)
    with open(f"{at}/crates.txt", "w", encoding="utf-8") as file:
        file.writelines(lines[it] for it in below)
    return below
