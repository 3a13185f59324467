"""examples/many on one machine: jobs to marks by one, their union by gather, and both by make."""
from __future__ import annotations

import os
import shutil
import subprocess
import time
from typing import Iterable

from cases.services_rows import CARD, CODE, Row
from fixtures.harness import COVERAGE, TOP, Ran, Tally, equal, folder, refused, run, run_checks, well
from fixtures.jobs import Program

MANY = f"{TOP}/examples/many"
PLACES = 200
# BR after BR: a task that begins at one of them executes that one alone.
PROGRAM = Program([(2 * at, "07FE", "BR") for at in range(PLACES)])
# What is wrong with a job of a number, and what its line in the summary says: a card, the session's name, an instruction of the listing.
FAILING = {
    17: (b"PHASE P", b"phase P", "STATUS 2 BAD JOB LINE 212"),
    44: (b"SESSION S ", b"SESSION T ", "STATUS 13 NO SESSION S"),
    120: (b"000000 07FE ", b"000000 07FF ", "STATUS 3 MISMATCH M LINE 2 LOC 000000 LISTING 07FF MODULE 07FE"),
}


def job(number: int, fails: bool = False) -> bytes:
    """The job of a number, whose task executes the place of that number alone; or the one that fails in its place."""
    whole = PROGRAM.text().hex().upper()
    cards = "\n".join(f"TEXT {whole[at : at + 128]}" for at in range(0, len(whole), 128))
    data = PROGRAM.job(f"TASK A {0x100000 + 2 * number:06X} 16 100 0\n").replace(f"TEXT {whole}".encode(), cards.encode())
    if not fails:
        return data
    old, new, _ = FAILING[number]
    assert data.count(old) == 1, (number, data.count(old))
    return data.replace(old, new)


def name(number: int) -> str:
    return f"J{number:03}"


def put_jobs(at: str, numbers: Iterable[int], failing: Iterable[int] = ()) -> None:
    """Writes jobs into a folder."""
    os.makedirs(at, exist_ok=True)
    for number in numbers:
        with open(f"{at}/{name(number)}.job", "wb") as file:
            file.write(job(number, number in failing))


def marks(numbers: Iterable[int]) -> bytes:
    """The union of the marks of some jobs."""
    ended = set(numbers)
    return PROGRAM.marks_file(*(int(it in ended) for it in range(PLACES)), runs=len(ended))


def summary(numbers: Iterable[int], failing: Iterable[int] = (), missing: Iterable[int] = ()) -> str:
    """What the summary says of jobs, of which some have failed and others not ended."""
    count, lacking = len(list(numbers)), sorted([*failing, *missing])
    said = [f"LACKING {name(it)} {FAILING[it][2] if it in failing else 'NO STATUS'}\n" for it in lacking]
    union = f"UNION {'lacking' if lacking else 'union'}.marks" if len(lacking) < count else "NO UNION"
    return f"JOBS {count} MARKS {count - len(lacking)} LACKING {len(lacking)}\n{''.join(said)}{union}\n"


def read(path: str) -> bytes:
    with open(path, "rb") as file:
        return file.read()


def holds(out: str, numbers: Iterable[int], failing: Iterable[int] = (), missing: Iterable[int] = ()) -> None:
    """Fails unless a folder has the union of the jobs that ended, under the name that says whether some lack, and the summary."""
    numbers, ended = list(numbers), sorted(set(numbers) - set(failing) - set(missing))
    own = f"{out}/all"
    equal(read(f"{own}/summary").decode(), summary(numbers, failing, missing))
    unions = [it for it in ("union.marks", "lacking.marks") if os.path.exists(f"{own}/{it}")]
    equal(unions, [] if not ended else ["union.marks" if ended == numbers else "lacking.marks"])
    assert unions == ["union.marks"] or not os.path.exists(f"{own}/union.html"), "the page of an earlier union stands"
    if unions:
        equal(read(f"{own}/{unions[0]}") == marks(ended), True)
    equal([it for it in [*os.listdir(out), *os.listdir(own)] if it.startswith(".")], [])


def noting(at: str) -> dict[str, str]:
    """An environment in which the command notes each call in the file `calls`, of one behind `services` that."""
    with open(f"{at}/command", "w", encoding="utf-8") as file:
        file.write(f'#!/bin/sh\n[ "$1" = services ] && it=$2 || it=$1\necho "$it" >> {at}/calls\nexec {COVERAGE} "$@"\n')
    os.chmod(f"{at}/command", 0o755)
    return {**os.environ, "COVERAGE": f"{at}/command"}


def calls(at: str) -> dict[str, int]:
    """How often each command was called since this was asked last."""
    with open(f"{at}/calls", "a+", encoding="utf-8") as file:
        file.seek(0)
        said = file.read().split()
        file.truncate(0)
    return {it: said.count(it) for it in sorted(set(said))}


def make(at: str, *words: str) -> Ran:
    """Calls make on the jobs of a folder, four at once."""
    given = [f"JOBS={at}/jobs", "SESSION=S", f"OUT={at}/out"]
    return run(["make", "-s", "-j", "4", "-f", f"{MANY}/Makefile", *given, *words], cwd=at, env=noting(at))


def by_make() -> None:
    """examples/many/Makefile: jobs become marks, one union and a page; what has changed, come or gone is made again, and that alone"""
    with folder() as at:
        put_jobs(f"{at}/jobs", range(12))
        equal(well(make(at)).output, b"")
        holds(f"{at}/out", range(12))
        assert b"12 of 200" in read(f"{at}/out/all/union.html"), "the page has not twelve places executed"
        equal(calls(at), {"marks": 12, "page": 1, "show": 1, "union": 1})
        well(make(at))
        equal(calls(at), {})
        later(f"{at}/jobs", 5, 30)
        well(make(at))
        equal(calls(at), {"marks": 1, "page": 1, "show": 1, "union": 1})
        equal(read(f"{at}/out/all/union.marks") == marks([*range(5), *range(6, 12), 30]), True)
        later(f"{at}/jobs", 5, 5)
        put_jobs(f"{at}/jobs", [40])
        well(make(at))
        equal(calls(at), {"marks": 2, "page": 1, "show": 1, "union": 1})
        holds(f"{at}/out", [*range(12), 40])
        os.remove(f"{at}/jobs/J003.job")
        well(make(at))
        equal(calls(at), {"page": 1, "show": 1, "union": 1})
        holds(f"{at}/out", [0, 1, 2, *range(4, 12), 40])


def words_that_lack() -> None:
    """examples/many: words that lack are told before anything is written"""
    with folder() as at:
        put_jobs(f"{at}/jobs", range(2))
        os.mkdir(f"{at}/none")
        before = sorted(os.listdir("/"))
        rows = [(f"{it}=", f"{it} is missing: make -f examples/many/Makefile JOBS=folder SESSION=NAME OUT=folder.") for it in ("JOBS", "SESSION", "OUT")]
        for word, said in [*rows, ("OUT= ", rows[2][1]), (f"JOBS={at}/none", f"no file is {at}/none/NAME.job.")]:
            ran = make(at, word)
            assert ran.status == 2 and said in ran.error, (word, ran.status, ran.error)
        for words in (["one", "job", "S"], ["gather"], ["gather", f"{at}/none"], ["slurm", "jobs", "S"], ["slurm"]):
            ran = run(["bash", f"{MANY}/{words[0]}", *words[1:]], cwd=at)
            assert ran.status == 1 and ran.error.startswith(f"usage: {words[0]} "), (words, ran.status, ran.error)
        equal((sorted(os.listdir("/")), sorted(os.listdir(at)), os.listdir(f"{at}/none")), (before, ["command", "jobs", "none"], []))


def later(at: str, number: int, other: int) -> None:
    """Puts another job in the place of one, later than all that was made."""
    time.sleep(0.02)
    with open(f"{at}/{name(number)}.job", "wb") as file:
        file.write(job(other))


def failing_by_make() -> None:
    """examples/many/Makefile: a job that fails ends it without a union; the others go on with -k, and gather unites them"""
    numbers = [*range(6), 17, 44]
    with folder() as at:
        put_jobs(f"{at}/jobs", numbers, FAILING)
        ran = make(at)
        equal((ran.status, os.path.exists(f"{at}/out/all/union.marks"), os.path.exists(f"{at}/out/all/union.html")), (2, False, False))
        ran = make(at, "-k")
        assert ran.status == 2 and "NO SESSION S" in ran.error and "BAD JOB LINE 212" in ran.error, ran
        equal(os.path.exists(f"{at}/out/all/union.marks"), False)
        gather(at, 3)
        holds(f"{at}/out", numbers, [17, 44])
        calls(at)
        put_jobs(f"{at}/jobs", [17, 44])
        well(make(at))
        equal(calls(at), {"marks": 2, "page": 1, "show": 1, "union": 1})
        holds(f"{at}/out", numbers)
        put_jobs(f"{at}/jobs", [17], FAILING)
        make(at, "-k")
        gather(at, 3)
        holds(f"{at}/out", numbers, [17])


def gather(at: str, status: int) -> Ran:
    """Calls gather, and fails unless its status is that one."""
    ran = run(["bash", f"{MANY}/gather", f"{at}/out"], cwd=at, env=noting(at))
    equal((ran.status, ran.output), (status, b""))
    return ran


def list_jobs(at: str, names: Iterable[str]) -> None:
    """Writes the list of jobs that gather reads."""
    os.makedirs(f"{at}/out/all")
    with open(f"{at}/out/all/jobs", "w", encoding="utf-8") as file:
        file.writelines(f"{at}/jobs/{it}\n" for it in names)


def gathers() -> None:
    """examples/many/gather: what has marks is united, what has none is told with its status, and no earlier union stays"""
    with folder() as at:
        put_jobs(f"{at}/jobs", range(4))
        list_jobs(at, (f"{name(it)}.job" for it in range(4)))
        gather(at, 3)
        holds(f"{at}/out", range(4), missing=range(4))
        for number in (0, 2, 3):
            well(one(at, number))
        gather(at, 3)
        holds(f"{at}/out", range(4), missing=[1])
        well(one(at, 1))
        gather(at, 0)
        holds(f"{at}/out", range(4))
        os.remove(f"{at}/out/J002.marks")
        gather(at, 3)
        holds(f"{at}/out", range(4), missing=[2])
        # Marks that were cut by others.
        with open(f"{at}/out/J002.marks", "wb") as cut:
            cut.write(marks([2])[:-1])
        said = gather(at, 10).error
        assert said.startswith(f"coverage: {at}/out/J002.marks: BAD MARKS OFFSET "), said
        equal(read(f"{at}/out/all/summary"), b"JOBS 4 MARKS 4 LACKING 0\nNO UNION\n")
        equal([it for it in os.listdir(f"{at}/out/all") if it in ("union.marks", "lacking.marks")], [])


def one(at: str, number: int) -> Ran:
    """Calls one on a job."""
    return one_named(at, name(number))


def one_named(at: str, called: str) -> Ran:
    """The same by the job's name."""
    words = [f"{at}/jobs/{called}.job", "S", f"{at}/out/{called}.marks"]
    return run(["bash", f"{MANY}/one", *words], cwd=at, env=noting(at))


def one_again() -> None:
    """examples/many/one: marks are there whole or not at all, and each run says anew what came of the job"""
    with folder() as at:
        put_jobs(f"{at}/jobs", [17, 20])
        os.mkdir(f"{at}/out")
        for _ in range(2):
            well(one(at, 17))
            equal((sorted(os.listdir(f"{at}/out")), read(f"{at}/out/J017.marks") == marks([17])), (["J017.marks"], True))
        put_jobs(f"{at}/jobs", [17], FAILING)
        refused(one(at, 17), 2, "coverage: BAD JOB LINE 212: ")
        equal(os.listdir(f"{at}/out"), ["J017.marks.failed"])
        equal(read(f"{at}/out/J017.marks.failed").splitlines()[0], b"STATUS 2 BAD JOB LINE 212")
        put_jobs(f"{at}/jobs", [17])
        well(one(at, 17))
        equal(os.listdir(f"{at}/out"), ["J017.marks"])
        # A disk that is full, and a command that isn't there.
        words = ["bash", "-c", f"ulimit -f 1; exec bash {MANY}/one {at}/jobs/J020.job S {at}/out/J020.marks"]
        ran = run(words, env={**os.environ, "COVERAGE": COVERAGE})
        assert ran.status in (6, 153), ran
        equal(os.path.exists(f"{at}/out/J020.marks"), False)
        ran = run(["bash", f"{MANY}/one", f"{at}/jobs/J020.job", "S", f"{at}/out/J020.marks"], env={**os.environ, "COVERAGE": "none"})
        equal((ran.status, read(f"{at}/out/J020.marks.failed").splitlines()[0].rstrip()), (127, b"STATUS 127"))


def with_services() -> None:
    """examples/many/one: a job with SERVICE cards has its marks too"""
    with folder() as at:
        row = Row(CODE, [CARD])
        os.makedirs(f"{at}/jobs")
        os.mkdir(f"{at}/out")
        with open(f"{at}/jobs/J001.job", "wb") as file:
            file.write(row.job())
        well(one(at, 1))
        equal(read(f"{at}/out/J001.marks"), row.program().marks_file(1, 1, 1, 1))


def killed() -> None:
    """examples/many/one: where it is killed in between no marks are there, and a second run makes them"""
    with folder() as at:
        put_jobs(f"{at}/jobs", [7])
        os.mkdir(f"{at}/out")
        with open(f"{at}/command", "w", encoding="utf-8") as file:
            file.write(f"#!/bin/sh\nprintf S370COV2\ntouch {at}/begun\nexec sleep 60\n")
        os.chmod(f"{at}/command", 0o755)
        words = ["bash", f"{MANY}/one", f"{at}/jobs/J007.job", "S", f"{at}/out/J007.marks"]
        with subprocess.Popen(words, env={**os.environ, "COVERAGE": f"{at}/command"}, start_new_session=True) as started:
            while not os.path.exists(f"{at}/begun"):
                time.sleep(0.05)
            os.killpg(started.pid, 9)
        equal([it for it in os.listdir(f"{at}/out") if not it.startswith(".")], [])
        well(one(at, 7))
        equal(read(f"{at}/out/J007.marks") == marks([7]), True)


# What a shell, make, or another that reads it as text would run, or take apart.
ODD = ["$(touch${IFS}X)", "`touch X`", "a; touch X", "a & touch X", "a|touch X", "a'b", 'a"b', "two  blanks", " front", "a\tb", "a\nb", "-rf", "a\\b",
       "a%b", "#a", "a*", "[a]", "~", "a:b", "a=b", "(a)", "$$", "a,b", "{a,b}", "<a", ">a", "!a", "^a", "\u00e4"]
# What the results of the recipe's own, and the files of its own, are called, or were once.
OWN = ["all", "jobs", "summary", "union", "lacking", "due", "J000.marks", "J000.marks.part.a.1", "union.marks", "J000.part.x"]
NO_NAME = "make takes no name with a blank or any of $ % # : ; | = * ? [ ] \\ ~ ( )."


def put_named(at: str, names: Iterable[str]) -> None:
    """Writes the jobs of the numbers from 0 on, of which each has one of the names."""
    os.makedirs(f"{at}/jobs", exist_ok=True)
    for number, it in enumerate(names):
        with open(f"{at}/jobs/{it}.job", "wb") as file:
            file.write(job(number))


def has_named(at: str, names: list[str]) -> None:
    """Fails unless each such job has left its marks, and nothing else is there but the union of all."""
    equal(sorted(os.listdir(f"{at}/out")), sorted(["all", *(f"{it}.marks" for it in names)]))
    for number, it in enumerate(names):
        equal((it, read(f"{at}/out/{it}.marks") == marks([number])), (it, True))
    equal(read(f"{at}/out/all/union.marks") == marks(range(len(names))), True)


def odd_names() -> None:
    """examples/many: one and gather take a job's name as it is, whatever a shell would make of it"""
    names = [it for it in ODD if "\n" not in it]
    with folder() as at:
        put_named(at, names)
        list_jobs(at, (f"{it}.job" for it in names))
        for it in names:
            well(one_named(at, it))
        gather(at, 0)
        has_named(at, names)
        equal(sorted(os.listdir(at)), ["calls", "command", "jobs", "out"])
        # A folder, and files in the current one, that begin with a dash.
        os.rename(f"{at}/out", f"{at}/-out")
        well(run(["bash", f"{MANY}/gather", "-out"], cwd=at, env=noting(at)))
        well(run(["bash", f"{MANY}/one", "jobs/-rf.job", "S", "-rf.marks"], cwd=at, env=noting(at)))
        equal(read(f"{at}/-rf.marks") == read(f"{at}/-out/-rf.marks"), True)


def odd_names_by_make() -> None:
    """examples/many/Makefile: a name that make, or a shell, would take for something else works or is refused, and none runs"""
    for it in ODD:
        with folder() as at:
            put_named(at, ["before", it])
            ran = make(at)
            works = it in ("a'b", 'a"b', "-rf", "a,b", "{a,b}", "<a", ">a", "!a", "^a", "\u00e4")
            if works:
                equal((it, ran.status, ran.error), (it, 0, ""))
                has_named(at, ["before", it])
            else:
                shown = " ".join(f"jobs/{it}.job".split())
                assert ran.status == 2 and f"{at}/{shown}: {NO_NAME}" in ran.error, (it, ran.status, ran.error)
                equal(sorted(os.listdir(at)), ["command", "jobs"])


def folders_by_make() -> None:
    """examples/many/Makefile: a folder whose name it doesn't take is refused, and a command with a blank in its path is called"""
    for it in ("JOBS", "OUT"):
        for value in ("x y", "x:y", "x "):
            with folder() as at:
                put_jobs(f"{at}/jobs", range(2))
                ran = make(at, f"{it}={value}")
                assert ran.status == 2 and f"{it} is {value}: {NO_NAME}" in ran.error, (it, value, ran.error)
                equal(sorted(os.listdir(at)), ["command", "jobs"])
    with folder() as at:
        put_jobs(f"{at}/jobs", range(2))
        os.symlink(MANY, f"{at}/a b")
        words = ["make", "-s", "JOBS=jobs", "SESSION=S", "OUT=out", "-f"]
        ran = run([*words, "a b/Makefile"], cwd=at)
        assert ran.status == 2 and f"a b/Makefile: {NO_NAME}" in ran.error, ran
        os.symlink(COVERAGE, f"{at}/the command")
        well(run([*words, f"{MANY}/Makefile"], cwd=at, env={**os.environ, "COVERAGE": f"{at}/the command"}))
        holds_union(at, 2)


def holds_union(at: str, count: int) -> None:
    equal(read(f"{at}/out/all/union.marks") == marks(range(count)), True)


def own_names_by_make() -> None:
    """examples/many: jobs that are called as the recipe's own results have their marks, and are united"""
    with folder() as at:
        put_named(at, ["J000", *OWN])
        well(make(at))
        has_named(at, ["J000", *OWN])
        well(make(at))
        gather(at, 0)
        has_named(at, ["J000", *OWN])
        os.remove(f"{at}/out/J000.marks")
        gather(at, 3)
        equal(read(f"{at}/out/all/lacking.marks") == marks(range(1, 1 + len(OWN))), True)
        equal(sorted(os.listdir(f"{at}/out")), sorted(["all", *(f"{it}.marks" for it in OWN)]))


def run_all(tally: Tally) -> None:
    """Runs those of make where that is installed, and the others."""
    run_checks(tally, [one_again, with_services, killed, gathers, odd_names])
    if shutil.which("make"):
        run_checks(tally, [by_make, failing_by_make, words_that_lack, odd_names_by_make, folders_by_make, own_names_by_make])
    else:
        tally.left_out.append("examples/many/Makefile, since make isn't installed")
