"""Makes a report, or counts, a tracefile, with each listing as a file."""
from __future__ import annotations

import contextlib
import errno
import os
import re

from common.command import UsageError, read_input, refuse_more, take_options, write_beside, writing
from readers.hits import IN_FILES, branch_hits, file_of, hits, labels_of, listings_of
from readers.leave_out import OPTION, leave_out, read_rules, tell_idle
from readers.report import Line, Module, Session, read_report

HELP = """\
Writes the listings of a report (of run, early, exits, replay or show) into FOLDER, that of each session's module as
SESSION/MODULE.lst, and coverage.info beside them, a tracefile that genhtml and others take. It names the listings from
FOLDER on, so that genhtml runs there:

  cd FOLDER && genhtml --branch-coverage --output-directory PAGES coverage.info

The names are the same for every run, whatever FOLDER is, so that tracefiles of several runs unite:

  lcov --rc lcov_branch_coverage=1 -a ONE/coverage.info -a OTHER/coverage.info -o ALL.info

genhtml takes ALL.info likewise, in either folder. Listings that an earlier call has written into FOLDER, and this one
hasn't, are taken away. In names of files the characters @, # and $ are a, n and d.

Each session is a test of the tracefile. Each instruction line is a line of it, executed or not: a report counts no
executions, so that counts are 0 and 1. Each line of a conditional branch has two branches, taken and not taken. Each
label at an instruction is a function, as often called as that was executed; the instructions before the first label are
one of the module's name. A label that comes again has its location behind it. Where the counts of the same job (of
count) stand behind a report, the tracefile has these; the ends of its tasks (of ends), which may stand there too, leave
nothing in it. Counts alone have no listings: then MODULE.lst has a line for each place, with its location, and one
function. The places that FILE names count nowhere (docs/SUMMARY.md): they are no lines of the tracefile.

What is no report is refused by its line on standard error; then the status is 2, and nothing is written. This script
is not proved.
"""
TRACEFILE = "coverage.info"
# A file that file_of names, in a tracefile.
LISTED = re.compile(rb"^SF:([A-Zand0-9]{1,8}/[A-Zand0-9]{1,8}\.lst)$", re.M)


def branches(number: int, line: Line) -> list[str]:
    """The two branches of a conditional line: taken, and not taken."""
    counts = [str(it) for it in branch_hits(line)] if line.mark != "^" else ["-", "-"]
    return [f"BRDA:{number},0,{branch},{count}" for branch, count in enumerate(counts)]


def functions(module: Module) -> list[str]:
    """The labels of a listing as functions: where each begins, and how often that place ran."""
    found = labels_of(module)
    counts = {at: hits(module.lines[at]) for at in found}
    return [
        *(f"FN:{at + 1},{found[at]}" for at in sorted(found)),
        *(f"FNDA:{counts[at]},{found[at]}" for at in sorted(found)),
        f"FNF:{len(found)}",
        f"FNH:{sum(it > 0 for it in counts.values())}",
    ]


def record(session: Session, module: Module) -> list[str]:
    """The record of a module's listing in one session."""
    lines = [(at, it) for at, it in enumerate(module.lines, 1) if it.is_counted()]
    conditional = [(at, it) for at, it in lines if it.is_conditional]
    hit = sum(count > 0 for _, it in conditional for count in branch_hits(it))
    return [
        f"TN:{session.name.translate(IN_FILES)}",
        f"SF:{file_of(session, module)}",
        *functions(module),
        *(text for at, it in conditional for text in branches(at, it)),
        f"BRF:{2 * len(conditional)}",
        f"BRH:{hit}",
        *(f"DA:{at},{hits(it)}" for at, it in lines),
        f"LF:{len(lines)}",
        f"LH:{sum(it.mark != '^' for _, it in lines)}",
        "end_of_record",
    ]


def make_folders(path: str) -> list[str]:
    """Makes the folders down to this one where they are missing, and answers them."""
    if not path or os.path.isdir(path):
        return []
    made = make_folders(os.path.dirname(path))
    os.mkdir(path)
    return [*made, path]


def take_away(folder: str, kept: set[str]) -> None:
    """Takes the listings away that an earlier tracefile of the folder names, but those that are kept."""
    try:
        with open(os.path.join(folder, TRACEFILE), "rb") as file:
            named = {it.decode() for it in LISTED.findall(file.read())}
    except OSError:
        return
    for it in named - kept:
        path = os.path.join(folder, it)
        with contextlib.suppress(OSError):
            os.remove(path)
            os.rmdir(os.path.dirname(path))


def replace(folder: str, texts: dict[str, bytes]) -> None:
    """Puts these files into a folder, in place of those of an earlier call: all are written beside their places first, and where
    that fails nothing has changed."""
    rooms: dict[str, str] = {}
    folders: list[str] = []
    try:
        for name, text in texts.items():
            path = os.path.join(folder, name)
            with writing(path):
                folders += make_folders(os.path.dirname(path))
                if os.path.isdir(path):
                    raise IsADirectoryError(errno.EISDIR, os.strerror(errno.EISDIR))
                rooms[path] = write_beside(path, text)
        take_away(folder, set(texts))
        for path in list(rooms):
            with writing(path):
                os.replace(rooms[path], path)
            del rooms[path]
    except BaseException:
        with contextlib.suppress(OSError):
            for it in rooms.values():
                os.remove(it)
            for it in reversed(folders):
                os.rmdir(it)
        raise


def main(words: list[str]) -> None:
    options, folders = take_options("lcov", words)
    # A word like -h is meant for an option, which there is none of.
    refuse_more([it for it in folders if it.startswith("-")] or folders[1:])
    if not folders or not folders[0]:
        raise UsageError
    folder, rules = folders[0], read_rules(options.get(OPTION))
    report = read_report("standard input", read_input())
    found = listings_of(report)
    idle = leave_out(report, rules)
    tracefile = [line for session, it in found for line in record(session, it)]
    texts = {file_of(session, it): b"".join(line.text + b"\n" for line in it.lines) for session, it in found}
    replace(folder, {**texts, TRACEFILE: "".join(f"{it}\n" for it in tracefile).encode("ascii")})
    tell_idle(idle)
