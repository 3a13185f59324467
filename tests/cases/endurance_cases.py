"""The short form of tests/endurance: its model beside the worked rows, and its cases with one seed; and that it finds defects."""
from __future__ import annotations

import os
import random
import stat
import subprocess
from collections import Counter
from concurrent.futures import ProcessPoolExecutor, ThreadPoolExecutor

from cases import damaged_cases, ends_cases, hostile_cases, marks_cases, program_cases, row_cases, services_rows
from drawing import endurance_inputs
from fixtures import refusals
from fixtures.harness import PROGRAM, TOP, Case, equal, folder
from models import answers
from trials.endurance_trials import Found, Trials

# How many cases there are, by which seed; and how many of a program that says something else.
CASES, SEED, OTHERWISE = 300, 1, 80
# A program whose output has another first byte.
WRAPPER = """#!/bin/bash
"{program}" "$@" | LC_ALL=C sed '1s/^./Z/'
exit "${{PIPESTATUS[0]}}"
"""


def worked() -> list[Case]:
    """The worked rows of the program whose input is a text."""
    tables = (row_cases, hostile_cases, marks_cases, ends_cases, services_rows, program_cases)
    found = [it for table in tables for it in table.cases() if it.command == PROGRAM]
    return [it for it in found if not it.redirect and it.before == ":"]


def model_meets_rows() -> None:
    """endurance: the model against the worked rows of all commands"""
    rows = worked()
    faults = [(it.name, answers.answer(it.words, it.input).fault(it.status, it.output)) for it in rows]
    equal((len(rows) > 600, [it for it in faults if it[1]]), (True, []))


def drawn(trials: Trials, numbers: range) -> Found:
    """What comes of cases, without those beside Hercules, which tests/outside has."""
    trials.ways.pop("hercules", None)
    found = Found()
    for number in numbers:
        one = trials.case(number)
        found.counts.update(one.counts)
        found.faults += one.faults
    return found


def part(place: str, first: int) -> Found:
    """A part of the cases, in a process of its own."""
    return drawn(Trials(PROGRAM, SEED, place), range(first, CASES, os.cpu_count() or 1))


def by_one_seed() -> None:
    """endurance: all commands and scripts on random inputs, good, damaged and hostile, with memory, reads and writes refused"""
    parts = range(os.cpu_count() or 1)
    counts: Counter[str] = Counter()
    with folder() as place, ProcessPoolExecutor(len(parts)) as pool:
        refusals.Trial(PROGRAM, place)
        faults = []
        for it in pool.map(part, [place] * len(parts), parts):
            counts.update(it.counts)
            faults += [(fault.command, fault.what) for fault in it.faults]
    equal((len(faults), faults[:1]), (0, []))
    told = ", ".join(f"{name} {count}" for name, count in sorted(counts.items()))
    print(f"tests/command_line: endurance: {told}", flush=True)


def each_refused() -> None:
    """endurance: of a small input of each command each read and each write that fails, and that takes fewer bytes"""
    with folder() as place, ThreadPoolExecutor(os.cpu_count()) as pool:
        trials = Trials(PROGRAM, SEED, place)
        asked: list[tuple[endurance_inputs.Input, refusals.Seen, str, int]] = []
        for it in damaged_cases.commands():
            known = endurance_inputs.Input(it.words, it.input, answers.answer(it.words, it.input))
            whole = trials.watch.run(it.words, it.input)
            calls = [("read", n) for n in range(1, whole.reads + 1)] + [("write", n) for n in range(1, whole.writes + 1)]
            asked += [(known, whole, f"{how}{kind}", n) for how in ("", "short ") for kind, n in calls]
        found = pool.map(lambda it: trials.fault_of_refusal(random.Random(SEED), *it), asked)
        faults = [(it[0].words, it[2:], fault) for it, fault in zip(asked, found) if fault]
    equal((len(asked) > 60, len(faults), faults[:1]), (True, 0, []))


def finds() -> None:
    """endurance: of a program that says something else each command is found, and the case is kept"""
    with folder() as place:
        path = f"{place}/otherwise"
        with open(path, "w", encoding="ascii") as file:
            file.write(WRAPPER.format(program=PROGRAM))
        os.chmod(path, stat.S_IRWXU)
        trials = Trials(path, SEED, place)
        trials.ways = {"plain": 1}
        found = drawn(trials, range(OTHERWISE))
        equal(sum(found.counts.values()) - found.counts["left out"], len(found.faults))
        words = ["python3", "-B", f"{TOP}/tests/endurance", "--program", path, "--seed", str(SEED), "--case", "1"]
        ran = subprocess.run(words, capture_output=True, text=True, check=False, env={**os.environ, "TMPDIR": place})
        kept = [it for it in os.listdir(place) if it.startswith("coverage-endurance-")]
        equal((ran.returncode, ran.stderr, len(kept), f"FAULT seed {SEED}, case 1, " in ran.stdout), (1, "", 1, True))


CHECKS = [model_meets_rows, by_one_seed, each_refused, finds]
