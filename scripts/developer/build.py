"""Builds the program where it isn't built of the sources as they stand.

The program is taken from the toolchain to out/coverage_program, and out/built, which is written last, holds the
checksums of the sources and of the program, and the toolchain's line. Whatever a build that was cut off leaves has no
such file, and is built again. One build runs at a time: a second waits for it. What the toolchain says stands in out/log.

out/seen lists the sizes, times and numbers of the files as they stood when the checksums were last known to match.
Where they still are so, `coverage` starts the program without this script.
"""
from __future__ import annotations

import fcntl
import os
import shutil
import sys
from typing import IO

from common.command import TOP, UsageError, complain
from developer.built import FAILED, OUT, PROGRAM, STAMP, end_by_signals, is_built, stamp, toolchain
from developer.crate_sources import sum_of_sources
from developer.proving import LINKED, ProofFailed, Proving
from developer.rooms import room

HELP = """\
Builds the program where that is due. `sources` writes the checksum of the sources, `keep` takes the program that `rt ci`
has made of the sources of this checksum, the status of `is-built` is 0 where the program is built of the sources as they
stand, else 1, and `seen` builds it where that is due and notes how the files stood that standard input lists.
"""
SEEN, LOCK = f"{OUT}/seen", f"{OUT}/lock"
HOW_LONG = "a quarter of an hour or so on four processors"
MEANWHILE = "./coverage try COMMAND .. answers within a minute or so, without proof"


class BuildFailed(Exception):
    """Why there is no program."""


def say(text: str) -> None:
    """Tells the user on standard error."""
    complain(f"coverage: {text}")


def may_be_seen(taken: int, rows: list[bytes]) -> bool:
    """Whether the program is among these files, and a change of any of them shows in its row.

    A file's time has the steps of the kernel's clock, some milliseconds: two changes in one step have the same time. So
    each must have been changed last a second before they were listed, or earlier.
    """
    has_program = all(any(row.startswith(f"{it} ".encode()) for row in rows) for it in (PROGRAM, STAMP))
    return has_program and max(float(row.rsplit(b" ", 2)[1]) for row in rows) < taken - 1


def note_seen(listed: bytes) -> None:
    """Notes how the files stood before their checksums were found to match: the second, and a row for each file."""
    taken, _, rows = listed.partition(b"\n")
    room = f"{SEEN}.{os.getpid()}"
    try:
        if may_be_seen(int(taken), rows.splitlines()):
            with open(room, "wb") as file:
                file.write(rows)
            os.replace(room, SEEN)
    except (OSError, ValueError, IndexError):
        # Without that note the next call costs the checksums.
        pass


def keep(linked: str, of_sources: str) -> None:
    """Takes the program that the toolchain has linked, and notes, last, that it is built."""
    shutil.copyfile(linked, f"{PROGRAM}.new")
    os.chmod(f"{PROGRAM}.new", 0o755)
    os.replace(f"{PROGRAM}.new", PROGRAM)
    with open(f"{STAMP}.new", "w", encoding="utf-8") as file:
        file.write(f"{stamp(of_sources)}toolchain {toolchain()}\n")
    os.replace(f"{STAMP}.new", STAMP)


def build() -> None:
    """Proves and builds all crates, and keeps the program where the sources are still those that were proved."""
    if os.path.lexists(STAMP):
        os.remove(STAMP)
    say(f"building: proving the program and the crates below it, which takes {HOW_LONG} the first time; {MEANWHILE}")
    with room("coverage-build") as at:
        proving = Proving(at, say)
        try:
            proving.prove()
        except FileNotFoundError as error:
            if error.filename != "rt":
                raise
            raise BuildFailed("there is no toolchain: the command rt isn't found") from None
        if sum_of_sources() != proving.of_sources:
            raise BuildFailed("the sources changed while they were built: build again")
        keep(f"{at}/{LINKED}", proving.of_sources)
    say(f"built: {len(proving.progress.crates)} crates proved in {proving.progress.spent()}")


def holder(lock: IO[str]) -> str:
    """The number of the process that holds the lock, as it has noted it."""
    lock.seek(0)
    return lock.read().strip() or "of another user"


def take_lock() -> IO[str]:
    """Waits until no other build runs in this copy, and says so."""
    lock = open(LOCK, "a+", encoding="utf-8")
    try:
        fcntl.flock(lock, fcntl.LOCK_EX | fcntl.LOCK_NB)
    except BlockingIOError:
        say(f"another build runs in this copy (process {holder(lock)}): waiting for it")
        fcntl.flock(lock, fcntl.LOCK_EX)
    lock.seek(0)
    lock.truncate()
    lock.write(f"{os.getpid()}\n")
    lock.flush()
    return lock


def make_built() -> None:
    """Builds the program where that is due."""
    if is_built():
        return
    os.makedirs(OUT, exist_ok=True)
    with take_lock():
        if is_built():
            return
        build()


def keep_proved(of_sources: str) -> None:
    """Takes the program that `rt ci` has just proved and linked, where the sources are still those."""
    os.makedirs(OUT, exist_ok=True)
    with take_lock():
        if sum_of_sources() != of_sources:
            raise BuildFailed("the sources changed while they were proved")
        if not os.path.isfile(f"{TOP}/{LINKED}"):
            raise BuildFailed("the toolchain has left no program")
        keep(f"{TOP}/{LINKED}", of_sources)


def main(words: list[str]) -> int:
    end_by_signals()
    try:
        if words == ["sources"]:
            print(sum_of_sources())
        elif words[:1] == ["keep"] and len(words) == 2:
            keep_proved(words[1])
        elif words == ["is-built"]:
            return 0 if is_built() else 1
        elif words == ["seen"]:
            listed = sys.stdin.buffer.read()
            make_built()
            note_seen(listed)
        elif words:
            raise UsageError
        else:
            make_built()
        return 0
    except (BuildFailed, ProofFailed) as failure:
        say(str(failure))
        return FAILED
    except OSError as error:
        say(f"the build failed: {error}")
        return FAILED
    except KeyboardInterrupt:
        say("interrupted: nothing was built; the next build goes on from the crates that were proved")
        return 130
