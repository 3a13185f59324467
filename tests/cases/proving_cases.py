"""The build's proofs: what an interrupt leaves, which text is proved, and what is told meanwhile."""
from __future__ import annotations

import os
import signal

from cases.build_cases import all_ended, copy, ended, wait_for
from fixtures.harness import equal, interruptible

# Two crates over one, and the program over all.
FORK = "low:\nleft: low\nright: low\ncoverage_program: low left right\n"
ALL = ["low one", "left one", "right one", "coverage_program one"]
WELL = (77, "one: run\ninput\n")


def is_interrupted() -> None:
    """proving: an interrupt ends all that is at work, and leaves no room; what was proved isn't proved again"""
    for number in (signal.SIGINT, signal.SIGTERM, signal.SIGHUP, signal.SIGKILL):
        with copy(FORK) as it, interruptible():
            it.write("hold-right", "")
            started = it.start("run")
            wait_for(lambda: it.lines("begun-right"))
            equal((number, len(it.rooms())), (number, 1))
            os.killpg(started.pid, number)
            status, output, error = ended(started)
            assert status != 0, number
            wait_for(lambda: all_ended(it))
            equal((number, output, it.is_built(), os.path.exists(f"{it.at}/crates/low/out")), (number, "", False, False))
            if number != signal.SIGKILL:
                equal((number, it.rooms()), (number, []))
                assert "interrupted: nothing was built" in error, (number, error)
            os.remove(f"{it.at}/hold-right")
            equal((number, it.run("run")[:2]), (number, WELL))
            equal((number, it.lines("proofs"), it.rooms()), (number, ALL, []))


def is_of_one_moment() -> None:
    """proving: what is proved are the sources as they stood when the build began, also where one changes meanwhile"""
    for text, status in (("two", 70), ("one", 77)):
        with copy(FORK) as it:
            started = it.hold()
            it.write("crates/left/src/lib.rt", "two")
            it.write("hold-coverage_program", "")
            it.let_go()
            wait_for(lambda: it.lines("begun-coverage_program"))
            it.write("crates/left/src/lib.rt", text)
            os.remove(f"{it.at}/hold-coverage_program")
            equal((text, ended(started)[0]), (text, status))
            equal((text, it.lines("proofs")), (text, ALL))


def is_told() -> None:
    """proving: each crate is told once it is proved; so is that another run proves it, or that nothing is kept"""
    said = {
        "low: another run on this machine is proving the same; waiting for it": True,
        "note: /opt/kept cannot be used, so nothing is kept: the next run, and the merge, prove all again": True,
        "note: low keeps its work": False,
        # The tests in a crate's sources may be proved before the crate is.
        "low: its tests are proved": False,
    }
    with copy(FORK) as it:
        with open(f"{it.at}/bin/rt", encoding="utf-8") as file:
            pretended = file.read()
        it.write("bin/rt", pretended.replace('echo "rt: ok"', "".join(f"echo 'rt: {line}'\n" for line in said)))
        it.write("hold-left", "")
        started = it.start("run")
        assert started.stderr
        seen = [started.stderr.readline() for _ in range(2)]
        assert seen[1].startswith("coverage: proved low, 1 of 4, 0:0") and seen[1].endswith(" so far\n"), seen
        wait_for(lambda: it.lines("begun-left"))
        os.remove(f"{it.at}/hold-left")
        status, output, error = ended(started)
        equal((status, output), WELL)
        for line, is_told_too in said.items():
            equal((line, f"coverage: {line}\n" in error), (line, is_told_too))
        assert "proved coverage_program, 4 of 4, " in error and "built: 4 crates proved in 0:0" in error, error


CHECKS = [is_interrupted, is_of_one_moment, is_told]
