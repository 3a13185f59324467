"""Checks of crates with edits applied: which function of each edit the prover refuses, and why.

A check reads the functions that the edits change, by the contracts of those that they call, over the statements of the
crates below. Several edits of a crate stand in one check where they change different functions, and each is judged by
what the check says of its own.
"""
from __future__ import annotations

import importlib.machinery
import os
import re
import select
import shutil
import sys
from dataclasses import dataclass, field
from types import ModuleType
from typing import Callable, Iterator, NamedTuple, Optional, Sequence

from common.command import Fault
from developer.edit_bodies import take_away
from developer.edit_files import Applied, Edit, Unfit, applied
from developer.toolchain import Call

FAILED = 70
# What came of an edit. Only the first is as it must be.
REFUSED, PASSED, FOR_A_NAME, NO_VERDICT = "refused", "LET THROUGH", "REFUSED FOR A NAME ALONE", "NO VERDICT"
PARTS = ("src", "specs", "proofs")
# The most memory that such a check has been seen to take, about, in bytes.
MEMORY = 2_000_000_000
# How long a look at the checks waits, in seconds.
LOOK = 1.0
# A function's line; of what it says: that it is proved but for holes, what of its proof is refused, and what it calls.
FUNCTION = re.compile(r"fn (\S+): (.*)")
PROVED = ("proved", "no holes", "depends on a hole")
OPEN = re.compile(r"`search` did not prove")
# A note before a function's line, on a goal of it that no file answers.
GOAL = re.compile(r"note: \S+: it is not proved that ")
STANDS_ON = re.compile(r"it stands on (.*?), which antt refuses")
BY_A_CALL = re.compile(r"it calls|it passes|a call of")
# What a note says where values are known that make a goal false.
IS_FALSE = "at which this goal is false"
# A line on a place: its file, its line, and what is said of it.
PLACE = re.compile(r"(?:note: )?(?:\./)?(\S+?):(\d+):\d+: (.*)")
# Of a place: that a name is gone, that something isn't of its language, or what only follows from another fault.
OF_A_NAME = re.compile(
    r"is not in scope|has no field|has no `|\(nearest: |is no name|was not admitted"
    r"|operand is missing|expected the end|cannot continue"
)
# The prover's own limits, which it meets before it has a verdict.
LIMIT = re.compile(r"could not tell|antt ran out of|outgrew the memory limit|stopped at the step limit")
# The last line of a check that came to its end.
ENDED = re.compile(r"only=\d+ ")


class Verdict(NamedTuple):
    """What came of an edit, and by what it shows."""

    kind: str
    why: str


def module() -> ModuleType:
    """The toolchain's own module beside the command `rt`. It alone gives the words of a check over libraries that `rt ci` has made:
    `rt check --only` builds those below anew, which takes minutes, as it trusts none of another command."""
    command = shutil.which("rt")
    if not command:
        raise Fault("there is no toolchain", "the command rt isn't found", FAILED)
    path = f"{os.path.dirname(os.path.realpath(command))}/rtlib.py"
    if not os.path.isfile(path):
        raise Fault("there is no toolchain", f"beside the command rt stands no {path}", FAILED)
    if "rtlib" not in sys.modules:
        loader = importlib.machinery.SourceFileLoader("rtlib", path)
        sys.modules["rtlib"] = ModuleType("rtlib")
        sys.modules["rtlib"].__file__ = path
        was, sys.dont_write_bytecode = sys.dont_write_bytecode, True
        loader.exec_module(sys.modules["rtlib"])
        sys.dont_write_bytecode = was
    return sys.modules["rtlib"]


@dataclass
class Check:
    """One check: its edits, and what the toolchain has said so far."""

    crate: str
    # What each edit alone comes to, and the texts of the files with all of them.
    edits: dict[Edit, Applied] = field(default_factory=dict)
    texts: dict[str, str] = field(default_factory=dict)
    said: bytes = b""
    call: Optional[Call] = None

    def functions(self) -> list[str]:
        return list(dict.fromkeys(it for one in self.edits.values() for it in one.functions))

    def takes(self, edit: Edit, at: str) -> bool:
        """Adds an edit where it changes other functions than those that are here."""
        alone = applied(edit, at)
        if {*alone.functions} & {*self.functions()}:
            return False
        try:
            self.texts = applied(edit, at, self.texts).texts
        except Unfit:
            # (its place stands no longer once, with the others)
            return False
        self.edits[edit] = alone
        return True

    def begin(self, at: str, libraries: str, place: str) -> None:
        """Begins it in a copy of the crate, with the crates below it as they stand built in another folder."""
        for part in PARTS:
            if os.path.isdir(f"{at}/crates/{self.crate}/{part}"):
                shutil.copytree(f"{at}/crates/{self.crate}/{part}", f"{place}/{part}")
        for file, text in self.texts.items():
            with open(f"{place}/{file}", "w", encoding="utf-8") as changed:
                changed.write(text)
        take_away(place, self.crate, self.functions())
        rtlib = module()
        try:
            words = rtlib.Crate(f"{libraries}/crates/{self.crate}", libraries, {}).words(["--jobs", "1"], keeps=False)
        except SystemExit:
            raise Fault(self.crate, "the toolchain doesn't take it", FAILED) from None
        only = [word for it in self.functions() for word in ("--only", it)]
        self.call = Call([rtlib.RATTLE, "check", *words, "--allow-holes", *only], place)

    def end(self) -> None:
        if self.call:
            self.call.end()

    def has_ended(self) -> bool:
        """Takes what there is of its lines; whether it has ended."""
        assert self.call and self.call.process.stdout
        found = os.read(self.call.process.stdout.fileno(), 65536)
        self.said += found
        if not found:
            self.call.process.wait()
        return not found

    def lines(self) -> list[str]:
        return self.said.decode(errors="replace").split("\n")

    def verdicts(self) -> tuple[dict[Edit, Verdict], list[list[Edit]]]:
        """What came of the edits, and which are to be tried again, in checks of their own."""
        lines = self.lines()
        assert self.call
        status = self.call.process.returncode
        if not any(ENDED.match(it) for it in lines):
            return self.unfinished(status)
        found: dict[Edit, Verdict] = {}
        again: list[list[Edit]] = []
        for edit, alone in self.edits.items():
            came = [judge(lines, self.crate, it, edit.breaks) for it in alone.functions]
            best = next(it for kind in (REFUSED, NO_VERDICT, FOR_A_NAME, PASSED) for it in came if it.kind == kind)
            # Beside a function that isn't proved either it says little of one that calls it.
            if best.kind != REFUSED and len(self.edits) > 1 and any(BY_A_CALL.search(it.why) for it in came):
                again.append([edit])
            else:
                found[edit] = best
        return found, again

    def unfinished(self, status: int) -> tuple[dict[Edit, Verdict], list[list[Edit]]]:
        """The same for a check that judged nothing: an edit on whose line there is a fault is none, and the others go again."""
        faults = [(it[1], int(it[2]), it[0]) for it in map(PLACE.match, self.lines()) if it and ": error" in it[0]]
        found = {}
        for edit, alone in self.edits.items():
            said = next((text for file, line, text in faults if (file, line) in alone.lines), "")
            if said:
                found[edit] = Verdict(FOR_A_NAME, said)
        rest = [it for it in self.edits if it not in found]
        if len(self.edits) > 1:
            return found, [rest] if found and rest else [[it] for it in rest]
        first = next((text for _, _, text in faults), "") or next((it for it in reversed(self.lines()) if it.strip()), "")
        kind = FOR_A_NAME if faults else NO_VERDICT
        return {**found, **{it: Verdict(kind, f"the check ended with status {status}: {first}") for it in rest}}, []


def judge(lines: Sequence[str], crate: str, function: str, breaks: str) -> Verdict:
    """What a check says of a function, and of the closures in it: of goals that are open one that is known to be false before the
    others, and then one of the clause that is to break."""
    whole = f"{crate}::{function}"
    said, goals = by_function(lines)
    own = [it for it in said if it == whole or f"{it.replace('::fn::', '::')}::".startswith(f"{whole}::")]
    if whole not in own:
        return Verdict(NO_VERDICT, f"the check says nothing of {whole}")
    left = [it for it in own if not said[it].startswith(PROVED)]
    if not left:
        return Verdict(PASSED, f"{whole} is still proved")
    told = "; ".join(f"{it}: {said[it]}" for it in left)
    faults = [fault for it in left for fault in refused_parts(lines, crate, said[it])]
    wrong = [it[0] for it in faults if not OF_A_NAME.search(it[3]) and not LIMIT.search(it[3])]
    # (an answer by hand is refused for a false goal and for another form of a true one alike)
    are_open = [*wrong, *(note for it in left for note in goals[it])]
    are_open.sort(key=lambda it: (IS_FALSE not in it, f"clause-{breaks}`" not in it))
    goal = next(iter(are_open), told if OPEN.search(told) else "")
    if goal:
        return Verdict(REFUSED, goal)
    if LIMIT.search(told) or any(LIMIT.search(it[3]) for it in faults):
        return Verdict(NO_VERDICT, next((it[0] for it in faults if LIMIT.search(it[3])), told))
    return Verdict(FOR_A_NAME, faults[0][0] if faults else told)


def by_function(lines: Sequence[str]) -> tuple[dict[str, str], dict[str, list[str]]]:
    """What is said of each function of a check, and the notes on its goals before that."""
    said: dict[str, str] = {}
    goals: dict[str, list[str]] = {}
    notes: list[str] = []
    for line in lines:
        found = FUNCTION.match(line)
        if found:
            said[found[1]], goals[found[1]], notes = found[2], notes, []
        elif GOAL.match(line):
            notes.append(line.removeprefix("note: "))
    return said, goals


def refused_parts(lines: Sequence[str], crate: str, said: str) -> list[re.Match[str]]:
    """The faults of what a function stands on, by its line: of a declaration of a file of proofs/."""
    found = STANDS_ON.search(said)
    parts = [it.removeprefix(f"Rattle.{crate}.").rpartition(".") for it in re.findall(r"`([^`]*)`", found[1] if found else "")]
    wanted = {(f"{file.replace('.', '/')}.antt", f"error: `{name}`: ") for file, _, name in parts}
    places = [it for it in map(PLACE.match, lines) if it]
    return [it for it in places if any(it[1] == file and it[3].startswith(name) for file, name in wanted)]


# What makes the checks of edits in a room.
Making = Callable[[Sequence[Edit], str], list[Check]]


def unedited(edits: Sequence[Edit], at: str) -> list[Check]:
    """A check for each crate of these edits, of the functions that they change, as these stand."""
    found: dict[str, Check] = {}
    for edit in edits:
        found.setdefault(edit.crate, Check(edit.crate)).edits[edit] = applied(edit, at)
    return list(found.values())


def rounds(edits: Sequence[Edit], at: str) -> list[Check]:
    """The checks of these edits, as few of each crate as hold them, and those of the most functions first, which take longest."""
    found: list[Check] = []
    for edit in edits:
        fits = (it for it in found if it.crate == edit.crate and it.takes(edit, at))
        if next(fits, None) is None:
            found.append(Check(edit.crate))
            found[-1].takes(edit, at)
    return sorted(found, key=lambda it: -len(it.functions()))


def lanes() -> int:
    """How many checks run at once: as many as processors, as far as the memory that is free now holds them."""
    with open("/proc/meminfo", encoding="utf-8") as file:
        free = re.search(r"MemAvailable: +(\d+) kB", file.read())
    holds = int(free[1]) * 1024 // MEMORY if free else 1
    return max(1, min(len(os.sched_getaffinity(0)), holds))


def attempt(makes: Making, edits: Sequence[Edit], at: str, libraries: str, tell: Callable[[Edit, Verdict], None]) -> None:
    """Makes the checks of these edits in a room of their crates, and tells what came of each as it is known."""
    waiting, running, count, most = makes(edits, at), list[Check](), 0, lanes()
    try:
        while waiting or running:
            while waiting and len(running) < most:
                check, count = waiting.pop(0), count + 1
                running.append(check)
                check.begin(at, libraries, f"{at}/checks/{count}")
            for check in list(ended(running)):
                running.remove(check)
                check.end()
                found, again = check.verdicts()
                for edit, verdict in found.items():
                    tell(edit, verdict)
                waiting = [it for some in again for it in makes(some, at)] + waiting
    finally:
        for check in running:
            check.end()


def ended(running: Sequence[Check]) -> Iterator[Check]:
    """Those of the checks that have ended, once one has said something."""
    pipes = {it.call.process.stdout.fileno(): it for it in running if it.call and it.call.process.stdout}
    for it in select.select([*pipes], [], [], LOOK)[0]:
        if pipes[it].has_ended():
            yield pipes[it]
