"""services: random inputs of its commands beside models/answers.py."""
from __future__ import annotations

import os
import random
import re
import subprocess
import tempfile
from collections import Counter
from concurrent.futures import ThreadPoolExecutor
from dataclasses import dataclass, field

from drawing import endurance_inputs
from fixtures.harness import PROGRAM, SECONDS, equal
from models.task_runs import TooLong

# How many random inputs the tests make, and from which number.
INPUTS, SEED = 300, 11
ENDING = re.compile(rb"^TASK \S+ (RETURNED|SPENT|EXIT|BADSVC|OUTFULL|TOUCHED|ABEND [1-9AB]) ", re.M)


@dataclass
class Found:
    """How many inputs there were of each command and status, how the tasks of reports end, and what is wrong."""

    commands: Counter[str] = field(default_factory=Counter)
    endings: Counter[str] = field(default_factory=Counter)
    faults: list[str] = field(default_factory=list)


def fault_of(program: str, it: endurance_inputs.Input) -> str | None:
    """What is wrong with what the program says of an input."""
    ran = subprocess.run([program, *it.words], input=it.data, capture_output=True, timeout=SECONDS, check=False)
    return it.answer.fault(ran.returncode, ran.stdout) or (repr(ran.stderr[:200]) if ran.stderr else None)


def kept(it: endurance_inputs.Input) -> str:
    """Keeps an input in a file, and tells which."""
    with tempfile.NamedTemporaryFile(prefix="coverage-services-", suffix=".job", delete=False) as file:
        file.write(it.data)
    return f"{' '.join(it.words)} < {file.name}"


def drawn(seed: int, inputs: int, found: Found) -> list[tuple[str, endurance_inputs.Input]]:
    """The inputs, but for those that take too long to tell what comes."""
    made: list[tuple[str, endurance_inputs.Input]] = []
    for number in range(inputs):
        try:
            it = endurance_inputs.served_of(random.Random(f"{seed} {number}"))
        except TooLong:
            found.commands["left out"] += 1
            continue
        made.append((f"seed {seed}, input {number}", it))
        found.commands[f"{' '.join(it.words[:2])} {it.answer.status}"] += 1
        front = getattr(it.answer, "front", b"") or it.answer.output
        found.endings.update(ending.decode() for ending in ENDING.findall(front))
    return made


def compare(program: str, inputs: int, seed: int) -> Found:
    """Random inputs of a program beside what must come of them."""
    found = Found()
    tried = drawn(seed, inputs, found)
    with ThreadPoolExecutor(os.cpu_count()) as pool:
        faults = pool.map(lambda it: fault_of(program, it[1]), tried)
        found.faults = [f"{name}: {fault}; {kept(it)}" for (name, it), fault in zip(tried, faults) if fault]
    return found


def random_inputs() -> None:
    """services: random inputs beside the model"""
    found = compare(PROGRAM, INPUTS, SEED)
    equal((len(found.faults), found.faults[:1]), (0, []))


CHECKS = [random_inputs]
