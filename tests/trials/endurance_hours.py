"""Runs the cases of tests/endurance for a time, on some processes, and tells what came."""
from __future__ import annotations

import os
import signal
import subprocess
import tempfile
import threading
import time
from collections import Counter
from concurrent.futures import FIRST_COMPLETED, Future, ProcessPoolExecutor, wait

from cases import damaged_cases
from fixtures import refusals
from fixtures.harness import folder
from trials.endurance_trials import Fault, Found, Trials

# How many cases a process does before it tells of them, how many faults are kept, and how often the counts are told.
BATCH, MOST, MINUTE = 10, 50, 60.0
trials: Trials


def begin(program: str, seed: int, place: str) -> None:
    """Makes a process ready. What interrupts the others leaves it to end its batch."""
    global trials
    for number in (signal.SIGINT, signal.SIGTERM):
        signal.signal(number, signal.SIG_IGN)
    trials = Trials(program, seed, place)


def batch(first: int, count: int) -> list[tuple[int, Found]]:
    """So many cases from one on."""
    return [(number, trials.case(number)) for number in range(first, first + count)]


def held(room: str) -> dict[str, int]:
    """What this process holds, and the temporary files in their folder."""
    children = subprocess.run(["ps", "--no-headers", "--ppid", str(os.getpid())], capture_output=True, check=False).stdout
    return {
        "descriptors": len(os.listdir("/proc/self/fd")), "threads": threading.active_count(),
        "processes": children.count(b"\n"), "temporary files": len(os.listdir(room)),
    }


def kept_by(program: str, place: str) -> list[tuple[int, ...]]:
    """What runs of one input of each command ask for and leave."""
    watch = refusals.Trial(program, place)
    found: list[tuple[int, ...]] = []
    for it in damaged_cases.commands():
        seen = watch.run(it.words, it.input)
        found.append((seen.growths, seen.elsewhere, seen.kept, seen.reads, seen.writes, seen.descriptors, seen.running, seen.threads))
    return found


class Hours:
    """The counts and faults so far."""

    def __init__(self, program: str, seed: int, processes: int) -> None:
        self.program, self.seed, self.processes = program, seed, processes
        self.counts: Counter[str] = Counter()
        self.faults, self.next = 0, 0
        # Where the folder of failing cases is made, and the folder.
        self.outside, self.kept = tempfile.gettempdir(), ""

    def run(self, seconds: float, case: int | None = None) -> int:
        """Runs for so long, or one case; answers the exit status."""
        print(f"seed {self.seed}", flush=True)
        with folder() as place, folder() as room:
            # All that is started from here on has its temporary files in a folder of its own.
            tempfile.tempdir = os.environ["TMPDIR"] = room
            asked, before = kept_by(self.program, place), held(room)
            if case is None:
                self.run_all(seconds, place)
            else:
                begin(self.program, self.seed, place)
                self.note(batch(case, 1))
            if kept_by(self.program, place) != asked:
                self.fault(self.next, Fault("all", "the same inputs ask for or leave something else than in the beginning", b""))
            after = held(room)
        if after != before:
            self.fault(self.next, Fault("all", f"{after} in the end, and {before} in the beginning", b""))
        told = ", ".join(f"{count} {name}" for name, count in after.items())
        print(f"in the end {told}, as in the beginning: {after == before}", flush=True)
        print(f"tests/endurance: {sum(self.counts.values())} cases, {self.faults} faults", flush=True)
        return 1 if self.faults or not self.counts else 0

    def run_all(self, seconds: float, place: str) -> None:
        """Draws cases until the time is over, or an interrupt comes, and tells of each minute."""
        begun, minutes = time.monotonic(), 0
        with ProcessPoolExecutor(self.processes, initializer=begin, initargs=(self.program, self.seed, place)) as pool:
            running: set[Future[list[tuple[int, Found]]]] = set()
            try:
                while (gone := time.monotonic() - begun) < seconds:
                    while len(running) <= self.processes:
                        running.add(pool.submit(batch, self.next, BATCH))
                        self.next += BATCH
                    done, running = wait(running, min(MINUTE, seconds - gone), FIRST_COMPLETED)
                    for it in done:
                        self.note(it.result())
                    if time.monotonic() - begun >= MINUTE * (minutes + 1):
                        minutes = int((time.monotonic() - begun) / MINUTE)
                        print(f"minute {minutes}: {self.told()}", flush=True)
            except KeyboardInterrupt:
                print("interrupted", flush=True)
            for it in running:
                if not it.cancel():
                    self.note(it.result())
        print(f"in all: {self.told()}", flush=True)

    def told(self) -> str:
        """The counts and faults so far."""
        return ", ".join(f"{name} {count}" for name, count in sorted(self.counts.items())) + f": {self.faults} faults"

    def note(self, done: list[tuple[int, Found]]) -> None:
        for number, found in done:
            self.counts.update(found.counts)
            for it in found.faults:
                self.fault(number, it)

    def fault(self, number: int, it: Fault) -> None:
        """Tells a fault, and keeps its input."""
        self.faults += 1
        if self.faults > MOST:
            return
        self.kept = self.kept or tempfile.mkdtemp(prefix="coverage-endurance-", dir=self.outside)
        path = f"{self.kept}/{number}.{it.command.replace(' ', '_')}"
        with open(path, "wb") as file:
            file.write(it.data)
        print(f"FAULT seed {self.seed}, case {number}, {it.command}: {it.what[:1500]}; {path}", flush=True)
