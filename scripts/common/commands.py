"""The table of all commands: where each stands, its words and its options, and what the help tells of it."""
from __future__ import annotations

from typing import Mapping, NamedTuple

# What the commands of the program have behind their names, which the program reads itself.
OF_PROGRAM = {
    "run": "< JOB > REPORT", "exits": "< JOB > REPORT", "early": "< JOB > REPORT", "count": "< JOB > COUNTS",
    "marks": "NAME < JOB > MARKS", "combine": "< MARKS-FILES > MARKS", "show": "NAME < JOB-AND-MARKS > LISTINGS",
    "prove": "NAME < JOB > EVIDENCE", "verify": "NAME < JOB-AND-MARKS-AND-EVIDENCE", "table": "< JOB > PLACES", "ends": "< JOB > ENDS",
    "services": "COMMAND < INPUT > OUTPUT", "trial": "NUMBER TASKS > SUMMARY", "replay": "< JOB-AND-SCHEDULE > EVENTS",
}


class Command(NamedTuple):
    """A command's module; what stands behind its name in each of its calls, with OPTIONS for its options; these with the names of
    their values, empty where they have none; what the help tells of it; and how it is started."""

    module: str
    calls: tuple[str, ...]
    options: Mapping[str, str] = {}
    told: str = ""
    start: str = "coverage"


LEFT_OUT = {"--leave-out": "FILE"}
COMMANDS = {
    "module": Command(
        "makers.module", ("[--strict] NAME BASE OBJECT [LISTING] [SYMBOL=ADDRESS ..] [--services] > CARDS",),
        told="writes a module's cards from its bytes or its object deck, and from its listing; warns where that seems to lack lines",
    ),
    "job": Command(
        "makers.job", ("CARDS.. > JOB", "--check [--services] [JOB]"), {"--check": "", "--services": ""},
        "puts the cards of a job together, with texts, numbers and files in place of digits; refuses what is no job",
    ),
    "union": Command(
        "makers.union", ("OPTIONS [FILES..] > MARKS",), {"--processes": "N", "-0": "", "--files-from": "LIST"},
        "unites any number of marks files as combine does, by the program on all processors at once",
    ),
    "page": Command(
        "makers.page", ("OPTIONS < REPORT > PAGE",), {"--against": "OLD", **LEFT_OUT},
        "makes a report a page for a browser, with the counts and the ends that may stand behind it, and with what has changed"
        " against an old report",
    ),
    "summary": Command(
        "makers.summary", ("OPTIONS < REPORT > SUMMARY",), {"--fail-under": "FACTS%", "--json": "", **LEFT_OUT},
        "sums a report up as a table or as JSON",
    ),
    "diff": Command(
        "makers.diff", ("OPTIONS OLD NEW > DIFFERENCE",), LEFT_OUT,
        "says what one report has lost and gained against another, of the same or of a changed listing",
    ),
    "lcov": Command(
        "makers.lcov", ("OPTIONS FOLDER < REPORT",), LEFT_OUT,
        "makes a report a tracefile, for genhtml and others, with the listings as its files; likewise with counts",
    ),
    "cobertura": Command(
        "makers.cobertura", ("OPTIONS < REPORT > XML",), LEFT_OUT, "makes a report the XML that build servers take",
    ),
    "try": Command(
        "developer.try", ("COMMAND ..",),
        told="answers a command of the program within a minute or so, by the same sources compiled with checks, not proved",
    ),
    "install": Command(
        "developer.install", ("OPTIONS FOLDER",), {"--uninstall": ""},
        "puts the proved program, the scripts, the manual page and the documents under FOLDER",
    ),
    "why": Command("makers.why", ("CALLED STATUS FROM LINE WORD..",), start="python3 scripts"),
    "build": Command("developer.build", ("[sources | keep SUM | is-built | seen]",), start="python3 scripts"),
    "edits": Command("developer.edits", ("[--look | --all] [--here] [--unedited] [CRATE ..]",), start="python3 scripts"),
    "assemble": Command("developer.assemble", ("SOURCE OBJECT LISTING ascii|ebcdic [narrow|wide]",), start="python3 scripts"),
}


def calls_of(name: str) -> list[str]:
    """The calls of a command, as its usage shows them."""
    options = " ".join(f"[{it} {value}]" if value else f"[{it}]" for it, value in COMMANDS[name].options.items())
    return [f"{COMMANDS[name].start} {name} {it.replace('OPTIONS', options)}" for it in COMMANDS[name].calls]


def usage_of(name: str) -> str:
    """The first lines of a command's help."""
    return "usage: " + "\n       ".join(calls_of(name)) + "\n"
