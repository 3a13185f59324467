"""A report's listings as files: their names, how often each line of them ran, and the labels that are their functions."""
from __future__ import annotations

from common.command import Fault
from readers.labels import spots_of
from readers.report import Line, Module, Report, Session

# Names have capital letters alone, so that these small ones make no two names the same.
IN_FILES = str.maketrans({"@": "a", "#": "n", "$": "d"})


def file_of(session: Session, module: Module) -> str:
    """The name of a listing's file, from the folder of the tracefile on."""
    return f"{session.name.translate(IN_FILES)}/{module.name.translate(IN_FILES)}.lst"


def hits(line: Line) -> int:
    """How often a place ran; where that wasn't counted 1 stands for once or more."""
    return sum(line.counts) if line.counts else int(line.mark != "^")


def branch_hits(line: Line) -> list[int]:
    """How often a conditional branch was taken, and how often it wasn't."""
    return list(line.counts or (int(line.mark in marks) for marks in (">&", "V&")))


def labels_of(module: Module) -> dict[int, str]:
    """The labels at places, each by its line, counted from 0; the places before the first have the module's name for one.
    That of a place which is left out is none."""
    spots = {at: it for at, it in spots_of(module.lines).items() if module.lines[at].is_counted()}
    found = {at: it.label for at, it in spots.items() if it.label}
    for at in list(spots)[:1]:
        is_taken = module.name in found.values() and at not in found
        found.setdefault(at, f"{module.name}.{module.lines[at].location:06X}" if is_taken else module.name)
    return found


def listings_of(report: Report) -> list[tuple[Session, Module]]:
    """The modules of a report's sessions that have a listing, with their sessions; refused where there is none."""
    found = [(session, it) for session in report.sessions for it in session.modules if it.lines]
    if not found:
        raise Fault("standard input", "the report has no listing")
    return found
