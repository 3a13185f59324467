"""Rows of tests/rows where each read and each write fails in turn (fixtures/refuse.c): a read gives 64 bytes, a write takes 16."""
from __future__ import annotations

import os
from concurrent.futures import ThreadPoolExecutor

from cases import row_cases
from fixtures import refusals
from fixtures.harness import PROGRAM, Case, equal, folder

# The files whose rows these are, and the bytes of a read and of a write.
FILES = ("files", "evidence", "services", "commands")
READ, WRITE = 64, 16
FAULT = b"READ FAULT\n"


def faults_of(trial: refusals.Trial, case: Case) -> int:
    """Lets each read of the row fail, each write with all behind it and alone, and the first of both; answers how many these were."""
    def runs(read: int = 0, write: int = 0, every: bool = True) -> refusals.Seen:
        seen = trial.run(case.words, case.input, every=every and write > 0, read=f"{read} 0 {READ}", write=f"{write} 0 {WRITE}")
        refusals.settled(seen)
        return seen

    def came(seen: refusals.Seen) -> tuple[str, int, bytes, bytes]:
        return case.name, seen.status, seen.output, seen.error

    whole = runs()
    equal(came(whole), (case.name, case.status, case.output, b""))
    # The last read finds the end, and none is made behind it.
    reads, writes = -(-len(case.input) // READ) + 1, -(-len(case.output) // WRITE)
    equal((case.name, whole.reads, whole.writes), (case.name, reads, writes))
    for number in range(1, reads + 1):
        equal(came(runs(read=number)), (case.name, 5, FAULT, b""))
    for number in range(1, writes + 1):
        equal(came(runs(write=number)), (case.name, 6, case.output[: WRITE * (number - 1)], b""))
        # Where the later ones are taken, the buffer hands on what it still holds, and the status tells all the same.
        equal(came(runs(write=number, every=False)), (case.name, 6, case.output, b""))
    equal(came(runs(read=1, write=1)), (case.name, 6, b"", b""))
    return reads + 2 * writes + 1


def each_call() -> None:
    """rows: each read that fails, and each write, with all behind it and alone"""
    with folder() as place, ThreadPoolExecutor(os.cpu_count()) as pool:
        trial = refusals.Trial(PROGRAM, place)
        rows = [it for name in FILES for it in row_cases.rows_of(name)]
        tried = list(pool.map(lambda it: faults_of(trial, it), rows))
    print(f"tests/command_line: {sum(tried)} faults of reads and writes in {len(rows)} rows", flush=True)


CHECKS = [each_call]
