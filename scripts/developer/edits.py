"""Tries edits: wrong bodies of crates, which the prover must refuse."""
from __future__ import annotations

import hashlib
import os
from typing import Sequence

from common.command import BAD_INPUT, TOP, Fault, UsageError, complain, write_output
from developer.built import FAILED, end_by_signals, toolchain
from developer.crate_sources import crates, rows, sum_of
from developer.edit_checks import PARTS, PASSED, REFUSED, Making, Verdict, attempt, module, rounds, unedited
from developer.edit_files import GATE, TESTS, Edit, Unfit, applied, edits_of
from developer.rooms import bring, list_crates, room
from developer.toolchain import Call

HELP = """\
Tries the edits of these crates, or of all: those of crates/CRATE/wrong-bodies.txt that the gate tries, and with --all
the others too. Each is a wrong body, which the prover must refuse: of the function that it changes, or of those that
its lines `function: PATH` name, a goal must stay open. What came of each is said: of a refusal a goal that is open, and
one that the prover knows to be false before the others, and then one of the clause that a line `breaks: CLAUSE` names.

It needs the libraries of the crates below. With --here it takes those that `rt ci` has left in crates/*/out, where they
are of the sources as they stand. Else it proves the crates and those below them in a copy, by `rt ci`, which takes what
it has proved before on this machine. Refusals are kept in out/edits: an edit is tried again where it, its crate, one
below, or the toolchain has changed.

The status is 0 where the prover refuses each for a goal; 1 where it lets one through, refuses one for a name alone, or
gives no verdict, and where the crates themselves aren't proved; 2 where one can't be applied to the sources as they
stand or isn't written as an edit is, or a name is no crate that has such edits, and then nothing is tried; 70 where the
toolchain is missing. With --look nothing is tried, and of all edits it is said which can't be applied.

With --unedited no edit is applied, and each of these functions must be proved: else the way in which they are checked,
and no edit, would have it refused.
"""
KEPT = f"{TOP}/out/edits"
# How many of its lines are shown where the toolchain doesn't prove the crates themselves.
LAST = 20


def chosen(names: Sequence[str], has_more: bool) -> list[Edit]:
    """The edits that the gate tries, and the others where they are asked for, of the crates of these names, or of all."""
    found = {it: [edit for edit in edits_of(it) if has_more or edit.kind == GATE] for it in rows()}
    for it in names:
        if not found.get(it):
            raise Fault(it, f"is no crate with edits{'' if has_more else ' that the gate tries'}")
    return [edit for it in found if it in names or not names for edit in found[it]]


def look(edits: Sequence[Edit]) -> int:
    """How many of these edits can't be applied, each of which is told."""
    faults = 0
    for edit in edits:
        try:
            applied(edit)
        except Unfit as why:
            complain(f"{edit.place}: {why}")
            faults += 1
    return faults


def sum_of_crate(crate: str, top: str) -> str:
    """A checksum of a crate's sources without its tests, which no check of an edit reads."""
    whole = hashlib.sha256()
    for part in PARTS:
        for folder, folders, files in os.walk(f"{top}/crates/{crate}/{part}"):
            folders.sort()
            for path in (os.path.relpath(f"{folder}/{it}", f"{top}/crates/{crate}") for it in sorted(files)):
                if path.endswith((".rt", ".antt")) and not path.startswith(TESTS):
                    whole.update(f"{path} {sum_of(f'{top}/crates/{crate}/{path}')}\n".encode())
    return whole.hexdigest()


class Sums:
    """A checksum for each edit over all that its verdict stands on."""

    def __init__(self, top: str) -> None:
        self.top, self.toolchain, self.rows = top, toolchain(), rows(top)
        self.of_crates: dict[str, str] = {}

    def of(self, edit: Edit) -> str:
        whole = hashlib.sha256(f"{self.toolchain}\n{edit.functions} {edit.changes}\n".encode())
        for it in crates(edit.crate, top=self.top):
            if it not in self.of_crates:
                self.of_crates[it] = sum_of_crate(it, self.top)
            whole.update(f"{self.rows[it]}{self.of_crates[it]}\n".encode())
        return whole.hexdigest()


def kept(edit: Edit) -> str:
    """Where it is kept that an edit was refused."""
    return f"{KEPT}/{edit.crate}.{edit.name}"


def was_refused(edit: Edit, of: str) -> bool:
    """Whether the edit was refused as it and all that it stands on are now."""
    try:
        with open(kept(edit), encoding="utf-8") as file:
            return file.readline() == f"{of}\n"
    except (OSError, ValueError):
        return False


def keep(edit: Edit, of: str, why: str) -> None:
    """Keeps that an edit was refused."""
    os.makedirs(KEPT, exist_ok=True)
    made = f"{kept(edit)}.{os.getpid()}"
    with open(made, "w", encoding="utf-8") as file:
        file.write(f"{of}\n{why}\n")
    os.replace(made, kept(edit))


def are_here(names: Sequence[str]) -> bool:
    """Whether `rt ci` has left the libraries of these crates and those below, of the sources as they stand.

    Behind itself it puts back what `rt check` had built before, which has a stamp, and what an earlier run of its own had left.
    """
    newest: dict[str, float] = {}
    for it, below in crates(*names).items():
        whole = f"{TOP}/crates/{it}"
        found = [f"{folder}/{name}" for part in PARTS for folder, _, files in os.walk(f"{whole}/{part}") for name in ("", *files)]
        newest[it] = max([0.0, *(os.stat(path).st_ctime for path in found), *(newest[other] for other in below)])
        if os.path.isfile(f"{whole}/src/lib.rt"):
            library = f"{whole}/out/rlib/{it}.rlib"
            if os.path.exists(f"{whole}/out/rlib/stamp") or not os.path.isdir(library) or os.stat(library).st_mtime <= newest[it]:
                return False
    return True


def prove(at: str) -> None:
    """Has the toolchain prove the crates of a room, whose libraries it leaves there. It ends where this is ended."""
    call, said = Call(["rt", "ci"], at), list[str]()
    try:
        for lines in call.lines():
            said += lines
    finally:
        call.end()
    if call.process.returncode:
        last = "\n".join(said[-LAST:])
        raise Fault("the crates themselves", "are not proved; the last lines of what the toolchain said:", 1, last)


def attempt_all(edits: Sequence[Edit], here: bool, makes: Making) -> int:
    """Tries edits, and says whether all were refused; or whether all functions are proved, where the checks apply none."""
    module()
    of, wanted = Sums(TOP), REFUSED if makes is rounds else PASSED
    left = [it for it in edits if makes is unedited or not was_refused(it, of.of(it))]
    came: dict[Edit, Verdict] = {}

    def tell(edit: Edit, verdict: Verdict) -> None:
        came[edit] = verdict
        kind = "as it must be" if verdict.kind == wanted == PASSED else verdict.kind
        breaks = f" (breaks {edit.breaks})" if edit.breaks else ""
        write_output(f"{edit.crate}/{edit.name}{breaks}: {kind}: {verdict.why}\n".encode())
        if verdict.kind == REFUSED:
            keep(edit, in_room.of(edit), verdict.why)

    if left:
        names = list(dict.fromkeys(it.crate for it in left))
        with room("coverage-edits") as at:
            bring(at, *names)
            list_crates(at, *names)
            in_room = Sums(at)
            takes_these = here and are_here(names)
            if not takes_these:
                prove(at)
            attempt(makes, left, at, TOP if takes_these else at, tell)
    well = all(came[it].kind == wanted for it in left)
    before = f", {len(edits) - len(left)} of them before" if len(left) < len(edits) else ""
    said = "edits tried: {}{}; {} refused" if makes is rounds else "functions of edits looked at: {}{}; {} proved"
    write_output(f"{said.format(len(edits), before, 'each was' if well else 'not each was')}\n".encode())
    return 0 if well else 1


def main(words: list[str]) -> int:
    options = [it for it in words if it.startswith("-")]
    names, looks = words[len(options):], options == ["--look"]
    in_order = [it for it in ("--all", "--here", "--unedited") if it in options]
    if options != words[:len(options)] or not looks and options != in_order:
        raise UsageError
    end_by_signals()
    try:
        edits = chosen(names, looks or "--all" in options)
        faults = look(edits)
        if looks:
            write_output(f"edits looked at: {len(edits)}; {faults} can't be applied\n".encode())
        if faults or looks:
            return BAD_INPUT if faults else 0
        return attempt_all(edits, "--here" in options, unedited if "--unedited" in options else rounds)
    except Unfit as why:
        raise Fault("the sources", f"changed as they were copied: {why}") from None
    except OSError as error:
        raise Fault(error.filename or "the system", error.strerror or str(error), FAILED) from None
