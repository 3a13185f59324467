"""The cases of tests/endurance: each is drawn by a seed and its number, run, and judged."""
from __future__ import annotations

import random
import subprocess
import traceback
from collections import Counter
from dataclasses import dataclass, field

from drawing import endurance_inputs, endurance_scripts
from drawing.endurance_inputs import Input
from fixtures import hercules, refusals
from fixtures.harness import SECONDS
from trials import outside_instructions, outside_programs

# What a case does, and how often: runs an input, as it is or watched by refuse.c, refuses it memory, reads and writes, calls a
# script, or goes beside Hercules.
WAYS = {"plain": 60, "watched": 20, "refused": 10, "script": 9, "hercules": 1}
# How many growths, reads or writes of one input are refused.
REFUSED = 4


@dataclass
class Fault:
    """What is wrong, and with what."""

    command: str
    what: str
    data: bytes


@dataclass
class Found:
    """How many cases there were of each command, and what is wrong."""

    counts: Counter[str] = field(default_factory=Counter)
    faults: list[Fault] = field(default_factory=list)

    def add(self, command: str, what: str | None, data: bytes) -> None:
        self.counts[command] += 1
        if what:
            self.faults.append(Fault(command, what, data))


class Trials:
    """The cases of a program by a seed; Hercules takes part where it is installed."""

    def __init__(self, program: str, seed: int, place: str) -> None:
        self.program, self.seed = program, seed
        self.watch = refusals.Trial(program, place)
        self.ways = {way: share for way, share in WAYS.items() if way != "hercules" or hercules.is_there()}

    def case(self, number: int) -> Found:
        """The case of this number. An error of the test itself is a fault."""
        found, draw = Found(), random.Random(f"{self.seed} {number}")
        (way,) = draw.choices(list(self.ways), list(self.ways.values()))
        try:
            if way == "script":
                call = endurance_scripts.drawn(draw, self.program)
                found.add(call.name(), endurance_scripts.fault_of(call), call.kept())
            elif way == "hercules":
                self.beside(draw, found)
            else:
                it = endurance_inputs.drawn(draw)
                if it is None:
                    found.counts["left out"] += 1
                else:
                    {"plain": self.plain, "watched": self.watched, "refused": self.refused}[way](draw, found, it)
        except Exception:
            found.faults.append(Fault(way, f"the test failed: {traceback.format_exc(limit=-4)}", b""))
        return found

    def plain(self, _: random.Random, found: Found, it: Input) -> None:
        for _again in range(it.runs):
            try:
                ran = subprocess.run([self.program, *it.words], input=it.data, capture_output=True, timeout=SECONDS, check=False)
                what = it.answer.fault(ran.returncode, ran.stdout) or (repr(ran.stderr[:200]) if ran.stderr else None)
            except subprocess.TimeoutExpired:
                what = f"no end after {SECONDS} seconds"
            found.add(name(it), what, it.data)

    def watched(self, _: random.Random, found: Found, it: Input) -> None:
        seen = self.watch.run(it.words, it.data)
        found.add(f"{name(it)} watched", fault_in(it, seen), it.data)

    def refused(self, draw: random.Random, found: Found, it: Input) -> None:
        """Some growths, reads and writes of an input with one answer, each alone."""
        whole = self.watch.run(it.words, it.data)
        found.add(f"{name(it)} watched", fault_in(it, whole), it.data)
        for _ in range(REFUSED if it.answer.is_one() and not found.faults else 0):
            kind = draw.choice(("growth", "growths", "read", "write", "short read", "short write"))
            most = whole.growths if "growth" in kind else whole.reads if "read" in kind else whole.writes
            if most:
                number = draw.randrange(1, most + 1)
                what = self.fault_of_refusal(draw, it, whole, kind, number)
                found.add(f"{kind} refused" if "short" not in kind else kind, what and f"{kind} {number} of {most}: {what}", it.data)

    def fault_of_refusal(self, draw: random.Random, it: Input, whole: refusals.Seen, kind: str, number: int) -> str | None:
        """What is wrong where one growth, read or write is refused, or takes fewer bytes."""
        try:
            if kind.startswith("growth"):
                seen = self.watch.run(it.words, it.data, number, kind == "growths")
            else:
                size = draw.choice((1, 2, 100, 4095)) if "short" in kind else 0
                which = f"{number} {size}"
                read, write = (which if kind.endswith(it) else "" for it in ("read", "write"))
                seen = self.watch.run(it.words, it.data, read=read, write=write)
            refusals.settled(seen)
        except refusals.Fault as fault:
            return str(fault)
        had, wanted = (seen.status, seen.output), (whole.status, whole.output)
        if kind.startswith("growth") and seen.status == 7:
            # Else it was done without, as tests/refused_memory has it.
            wanted = (7, b"NO MEMORY\n" if seen.output else b"")
        if kind == "read":
            wanted = (5, b"READ FAULT\n")
        if kind == "write":
            # A first part of the text, which may be all of it where what failed is written again as the program ends.
            wanted = (6, whole.output[: len(seen.output)])
        return None if had == wanted and not seen.error else f"{had[0]} {had[1][-80:]!r}, and not {wanted[0]} {wanted[1][-80:]!r}"

    def beside(self, draw: random.Random, found: Found) -> None:
        """A case of each operation, and a program step by step, beside Hercules."""
        seed = draw.randrange(1 << 32)
        told, faults = outside_instructions.compare(self.program, seed, 1)
        runs, more = outside_programs.compare(self.program, seed, 1)
        found.counts["instruction beside Hercules"] += told.cases
        found.counts["step beside Hercules"] += sum(it.steps for run in runs for it in run.others)
        found.faults += [Fault("beside Hercules", it, b"") for it in (*faults, *more)]


def name(it: Input) -> str:
    """The command as it is counted."""
    return " ".join(it.words[: 1 + (it.words[0] == "services")]) if it.words and it.answer.status != 1 else "no command"


def fault_in(it: Input, seen: refusals.Seen) -> str | None:
    """What is wrong with a run to which nothing was refused."""
    try:
        refusals.settled(seen)
    except refusals.Fault as fault:
        return str(fault)
    return it.answer.fault(seen.status, seen.output) or (repr(seen.error[:200]) if seen.error else None)
