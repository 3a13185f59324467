"""Proves the program and the crates below it as the gate does, and tells how far that is.

`rt ci` does it, in a room that holds their sources and nothing else: no tests and no wrong bodies. It proves as many
crates at once as the machine holds, each from nothing over the statements of those below it, builds the program and runs
it. What it has proved it keeps beside itself for every checkout on the machine, by all that the proof has read.
"""
from __future__ import annotations

import contextlib
import os
import re
import sys
import time
from typing import Callable, Collection, Sequence

from common.command import TOP
from developer.crate_sources import TOP_CRATE, sum_of_files
from developer.rooms import bring, list_crates
from developer.toolchain import Call

# What the toolchain said in this build.
LOG = f"{TOP}/out/log"
# The program where the toolchain links it, below the folder whose crates it has proved.
LINKED = f"crates/{TOP_CRATE}/out/{TOP_CRATE}"
# What it says once a crate is proved, now or before, or that it isn't; and what is worth to be passed on.
PROVED = re.compile(r"rt: (\w+) (?:proved$|is kept: )")
OPEN = re.compile(r"rt: (\w+)(?:: its tests are)? NOT PROVED")
PASSED_ON = re.compile(r"rt: (.*(?:; waiting for it|so nothing is kept: the next run).*)$")
# How many of its lines are shown where a build fails.
LAST = 20


class ProofFailed(Exception):
    """What failed, and the last lines of what the toolchain said of that."""

    def __init__(self, what: str, lines: Sequence[str]) -> None:
        super().__init__(f"{what}; the last lines in {LOG}:\n" + "\n".join(lines[-LAST:]))


class Progress:
    """One line on a terminal that is written anew, and elsewhere one line a crate."""

    def __init__(self, crates: Collection[str], say: Callable[[str], None]) -> None:
        self.crates, self.say = crates, say
        self.done: set[str] = set()
        self.began = time.monotonic()
        self.is_terminal = sys.stderr is not None and sys.stderr.isatty()

    def spent(self) -> str:
        """How long the build has taken, in minutes and seconds."""
        seconds = int(time.monotonic() - self.began)
        return f"{seconds // 60}:{seconds % 60:02}"

    def add(self, crate: str) -> None:
        """Notes that a crate is proved."""
        if crate in self.crates and crate not in self.done:
            self.done.add(crate)
            if not self.is_terminal:
                self.say(f"proved {crate}, {len(self.done)} of {len(self.crates)}, {self.spent()} so far")

    def tell(self) -> None:
        """Says on a terminal how many crates are proved."""
        if self.is_terminal:
            self.show(f"coverage: {len(self.done)} of {len(self.crates)} crates proved, {self.spent()} so far")

    def show(self, text: str) -> None:
        """Writes the line anew on the terminal, which cuts it at its edge, and may be gone."""
        with contextlib.suppress(OSError, ValueError):
            print(f"\r\x1b[K\x1b[?7l{text}\x1b[?7h", end="", file=sys.stderr, flush=True)

    def clear(self) -> None:
        """Takes the line away."""
        if self.is_terminal:
            self.show("")


class Proving:
    """One build: what the toolchain has said so far."""

    def __init__(self, at: str, say: Callable[[str], None]) -> None:
        self.at, self.say = at, say
        files = bring(at)
        self.of_sources = sum_of_files(files, at)
        self.progress = Progress(list_crates(at), say)
        # What the toolchain said last: it says all of a crate at once, behind a line with its name.
        self.said: list[str] = []

    def prove(self) -> None:
        """Proves and builds all crates, the program last."""
        call = Call(["rt", "ci"], self.at)
        try:
            with open(LOG, "w", encoding="utf-8") as log:
                for lines in call.lines():
                    log.writelines(f"{it}\n" for it in lines)
                    log.flush()
                    for line in lines:
                        self.take(line)
                    self.progress.tell()
        finally:
            call.end()
            self.progress.clear()
        if call.process.returncode or not os.path.isfile(f"{self.at}/{LINKED}"):
            raise ProofFailed("the build failed", self.said)

    def take(self, line: str) -> None:
        """Takes a line of the toolchain's."""
        if line.startswith("== "):
            self.said.clear()
        self.said.append(line)
        proved, is_open, said = (it.match(line) for it in (PROVED, OPEN, PASSED_ON))
        if is_open:
            raise ProofFailed(f"the build of {is_open[1]} failed", self.said)
        if proved:
            self.progress.add(proved[1])
        if said:
            self.progress.clear()
            self.say(said[1])
