"""The programs of tests/speed without its clocks: what is measured is what it should be."""
from __future__ import annotations

from fixtures import hercules
from fixtures.harness import PROGRAM, equal, run, well
from trials import speed_jobs

ROUNDS = 20


def report(job: bytes) -> bytes:
    return well(run([PROGRAM, "run"], job)).output


def rounds() -> None:
    """speed: each program goes its rounds, observed or not, and to the same registers as on Hercules, where that is installed"""
    with hercules.if_there() as herc:
        for it in speed_jobs.subjects():
            alone = report(it.job(ROUNDS, observed=False)).removesuffix(b"END\n")
            _, task, *rows = alone.decode().split("\n")
            assert task.startswith("TASK T0 RETURNED COUNT ") and report(it.job(ROUNDS)).startswith(alone), it.name
            if herc:
                had, other = [int(word, 16) for row in rows[:2] for word in row.split()[1:]], it.seconds(herc, ROUNDS)[1]
                equal((it.name, had[:14], had[15]), (it.name, other[:14], other[15]))


def places() -> None:
    """speed: four tasks go through 900 places at once, and one through as many as there may be"""
    few, many = speed_jobs.straight(1, 900), speed_jobs.straight(16, 4096)
    equal(speed_jobs.done(report(few.job(0, 4, budget=1000))), 4000)
    shown = report(many.job(0, budget=65_536))
    equal((speed_jobs.done(shown), shown.count(b"PLACES 4096 EXECUTED 4096")), (65_536, 16))


CHECKS = [rounds, places]
