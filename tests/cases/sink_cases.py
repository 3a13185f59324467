"""Outputs that are lost in part: on a full disk and behind a limit on a file's size, at sizes around that of the program's buffer."""
from __future__ import annotations

import signal
from typing import Callable

from fixtures.harness import COVERAGE, PROGRAM, equal, folder, run, well
from fixtures.jobs import FIRST, TASK, Program

# What the program holds before it writes, and what files are limited to here: 64 times 1,024 bytes.
BUFFER, LIMIT = 65_536, "ulimit -f 64"


def padded(more: int) -> bytes:
    """The first job with text lines behind its listing, with which a report of it is so much longer."""
    # A mark and a blank stand before each line, and a line's end behind it.
    lines = ["*" * 100] * (more // 103 - 1) + ["*" * 50]
    lines.append("*" * (more - sum(len(it) + 3 for it in lines) - 3))
    return FIRST.job(listing=[*FIRST.listing(), *lines])


def of_places(count: int) -> bytes:
    """A job with so many places, each of which runs."""
    code = [(2 * at, "1A11", "AR") for at in range(count - 1)] + [(2 * count - 2, "07FE", "BR")]
    return Program(code).job(TASK.replace(" 100 ", " 50000 "))


def file_of(data: bytes) -> bytes:
    return well(run([PROGRAM, "marks", "S"], data)).output


def alone(data: bytes) -> bytes:
    return data


def twice(data: bytes) -> bytes:
    """What combine takes of a job."""
    return 2 * file_of(data)


def with_file(data: bytes) -> bytes:
    return data + file_of(data)


def with_schedule(data: bytes) -> bytes:
    return data + b"GO A\nENDSCHED\n"


def lost(words: list[str], data: bytes) -> int:
    """Fails where a part of the output is lost and the status doesn't tell; answers how long the output is."""
    whole = well(run([PROGRAM, *words], data)).output
    for redirect in (">/dev/full", ">&-"):
        equal(run([PROGRAM, *words], data, redirect=redirect).status, 6)
    with folder() as at:
        path = f"{at}/output"
        ran = run([COVERAGE, *words], data, before=LIMIT, redirect=f"> {path}")
        equal(ran.status, 0 if len(whole) <= BUFFER else 6)
        with open(path, "rb") as file:
            equal(file.read() == whole[:BUFFER], True)
    return len(whole)


def of_listing(words: list[str], take: Callable[[bytes], bytes]) -> None:
    """Outputs with listings, one byte below the buffer, as long, and one byte above."""
    least = len(well(run([PROGRAM, *words], take(padded(1_000)))).output) - 1_000
    for size in (BUFFER - 1, BUFFER, BUFFER + 1):
        equal(lost(words, take(padded(size - least))), size)


def of_rows(words: list[str], width: int, take: Callable[[bytes], bytes]) -> None:
    """Outputs with so many bytes a place: the longest that the buffer holds, and the next."""
    count = BUFFER // width
    while len(well(run([PROGRAM, *words], take(of_places(count)))).output) > BUFFER:
        count -= 1
    assert lost(words, take(of_places(count))) <= BUFFER < lost(words, take(of_places(count + 1)))


def named(check: Callable[..., None], words: list[str], *others: object) -> Callable[[], None]:
    """A check of a command, with a name of its own."""
    def checked() -> None:
        check(words, *others)
    checked.__name__ = words[0]
    checked.__doc__ = f"an output that is lost, of {words[0]}, at sizes around the buffer's"
    return checked


def by_signal() -> None:
    """a limit on a file's size: the program itself ends by the signal, coverage with 6"""
    with folder() as at:
        redirect = f"> {at}/output"
        equal(run([PROGRAM, "run"], FIRST.job(), before="ulimit -f 0", redirect=redirect).status, -signal.SIGXFSZ)
        equal(run([COVERAGE, "run"], FIRST.job(), before="ulimit -f 0", redirect=redirect).status, 6)


CHECKS = [
    *(named(of_listing, [word], alone) for word in ("run", "exits", "early")),
    named(of_listing, ["show", "S"], with_file), named(of_listing, ["replay"], with_schedule),
    named(of_rows, ["count"], 15, alone), named(of_rows, ["table"], 22, alone), named(of_rows, ["marks", "S"], 9, alone),
    named(of_rows, ["combine"], 9, twice), named(of_rows, ["prove", "S"], 7, alone),
    by_signal,
]
