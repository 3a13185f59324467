"""What stands as built: the program, and of which sources; and how what works for long ends by a signal."""
from __future__ import annotations

import os
import signal
import subprocess

from common.command import TOP
from developer.crate_sources import sum_of, sum_of_sources

OUT = f"{TOP}/out"
PROGRAM, STAMP = f"{OUT}/coverage_program", f"{OUT}/built"
FAILED = 70


def toolchain() -> str:
    """The toolchain's own line: its name, and the logic in which it proves."""
    ran = subprocess.run(["rt", "version"], stdin=subprocess.DEVNULL, stdout=subprocess.PIPE, check=False)
    return ran.stdout.decode(errors="replace").strip()


def stamp(of_sources: str) -> str:
    """What out/built begins with where the program that stands there was built of these sources."""
    return f"sources {of_sources}\nprogram {sum_of(PROGRAM)}\n"


def is_built() -> bool:
    """Whether the program that stands there was built of the sources as they stand."""
    try:
        with open(STAMP, encoding="utf-8") as file:
            said = file.read()
        return os.access(PROGRAM, os.X_OK) and said.startswith(stamp(sum_of_sources()))
    except OSError:
        return False


def end_by_signals() -> None:
    """Makes the signals that end a process end it as an interrupt does, but for those that are ignored."""
    for number in (signal.SIGTERM, signal.SIGHUP):
        if signal.getsignal(number) != signal.SIG_IGN:
            signal.signal(number, interrupt)


def interrupt(number: int, _frame: object) -> None:
    raise KeyboardInterrupt(number)
