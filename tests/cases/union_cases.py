"""union: the union of any number of marks files beside that of combine, the first bad file, and lists; and the makefile."""
from __future__ import annotations

import os
import random
import re
import signal
import subprocess
import time

from cases.build_cases import Copy, wait_for
from cases.front_cases import Front, on_terminal
from cases.marks_cases import BOTH, FELL, OTHER_COUNT, WENT
from fixtures.checkout import checkout
from fixtures.harness import COVERAGE, PROGRAM, SECONDS, Ran, coverage, equal, folder, interruptible, misused, refused, run, well
from fixtures.jobs import COUNTED, Program

NO_MARKS = "the bytes there are no marks file, or one that is cut short or damaged: docs/MARKS.md"
ROW = "OTHER TABLE ROW 1 LEFT 0000000004014610 RIGHT 0000000004014620"
# Beyond what one combine reads.
INPUT = 16_777_216
# A module of 2,000 places, BR after BR, so that a file of its marks has 18,042 bytes.
PLACES = 2_000
WIDE = Program([(2 * at, "07FE", "BR") for at in range(PLACES)])


def write(at: str, **files: bytes) -> None:
    """Writes marks files, each by its name."""
    for name, data in files.items():
        with open(f"{at}/{name}.marks", "wb") as file:
            file.write(data)


def union(at: str, *words: str, data: bytes = b"", redirect: str = "") -> Ran:
    """Calls union in a folder; words without a dash are names of marks files there."""
    return coverage("union", *(it if it.startswith("-") else f"{it}.marks" for it in words), data=data, cwd=at, redirect=redirect)


def bad(at: str, name: str, offset: int, *words: str, why: str = "") -> None:
    """Fails unless union tells a file as bad at an offset, and nothing of others, on one processor and on several."""
    files = [f"{it}.marks" for it in words]
    for processes in ("1", "4"):
        ran = coverage("union", "--processes", processes, *files, cwd=at)
        refused(ran, 10, f"coverage: {name}.marks: BAD MARKS OFFSET {offset}: {NO_MARKS}\n", why)
        equal(re.findall(r"\w+\.marks", ran.error), [f"{name}.marks"])


def few() -> None:
    """union: of few files it is as docs/MARKS.md has it: sets, the first file's session, the sum of the runs, version 2"""
    old, other = COUNTED.marks_file(4, 1, version=1), COUNTED.marks_file(2, 0, name="T", runs=7)
    most = COUNTED.marks_file(4, 1, runs=0xFFFFFFFF)
    for files, wanted in (
        ([FELL], FELL), ([old], COUNTED.marks_file(4, 1, name="")), ([FELL, WENT], BOTH), ([WENT, FELL], BOTH),
        ([FELL, FELL], COUNTED.marks_file(4, 1, runs=2)), ([old, WENT], COUNTED.marks_file(6, 1, name="", runs=2)),
        ([other, FELL], COUNTED.marks_file(6, 1, name="T", runs=8)), ([FELL, other], COUNTED.marks_file(6, 1, runs=8)),
        ([most, FELL, WENT], COUNTED.marks_file(6, 1, runs=0xFFFFFFFF)),
        ([FELL + WENT, old + other], COUNTED.marks_file(6, 1, runs=10)),
    ):
        with folder() as at:
            names = [f"f{number}" for number in range(len(files))]
            write(at, **dict(zip(names, files)))
            equal(well(union(at, *names)).output, wanted)
            equal(well(coverage("combine", data=b"".join(files))).output, wanted)
    with folder() as at:
        write(at, fell=FELL)
        equal(well(union(at, "fell", "-", data=WENT)).output, BOTH)
        equal(well(union(at, "fell", "fell", "fell")).output, COUNTED.marks_file(4, 1, runs=3))


def many() -> None:
    """union: of files that pass the limit of combine, on one processor and on several, it is their sets united; else as combine"""
    source = random.Random(49)
    sets = [[int(source.random() < 0.02) for _ in range(PLACES)] for _ in range(40)]
    files = [WIDE.marks_file(*it, name=f"S{number}") for number, it in enumerate(sets)]
    whole = [int(any(it)) for it in zip(*sets)]
    assert 0 < sum(whole) < PLACES
    with folder() as at:
        write(at, **{f"f{number:02}": it for number, it in enumerate(files)})
        names = [f"f{number:02}" for number in range(40)]
        equal(union(at, *names).output, well(coverage("combine", data=b"".join(files))).output)
        for times, processes in ((1, 1), (1, 7), (24, 1), (24, 4), (24, 64)):
            assert times == 1 or len(files[0]) * 40 * times > INPUT
            text = "".join(f"{it}.marks\n" for it in names * times)
            words = ["--processes", str(processes), "--files-from", "-"]
            wanted = WIDE.marks_file(*whole, name="S0", runs=40 * times)
            equal(well(coverage("union", *words, data=text.encode(), cwd=at)).output == wanted, True)
        # One file that is as long.
        equal(well(union(at, "-", data=b"".join(files) * 24)).output == wanted, True)
        equal(coverage("combine", data=b"".join(files) * 24).output, b"TOO LARGE INPUT\n")


def lists() -> None:
    """union: files of lists, whose names end with a line or with a zero byte, in the order of the words"""
    with folder() as at:
        names: list[str | bytes] = ["a.marks", "b c.marks", "d\ne.marks", "-f.marks", b"\xff.marks"]
        paths = [os.fsencode(at) + b"/" + (it if isinstance(it, bytes) else it.encode()) for it in names]
        for path, data in zip(paths, (FELL, WENT, WENT, FELL, COUNTED.marks_file(0, 0, name="LAST"))):
            with open(path, "wb") as file:
                file.write(data)
        wanted, last = COUNTED.marks_file(6, 1, runs=5), COUNTED.marks_file(2, 0, name="LAST", runs=2)
        for text in (b"\0".join(paths), b"\0".join(paths) + b"\0"):
            for words in (["-0", "--files-from", "-"], ["--files-from", "-", "-0"]):
                equal(well(coverage("union", *words, data=text)).output, wanted)
        lines = paths[4] + b"\n" + paths[1]
        for text in (lines, lines + b"\n"):
            equal(well(coverage("union", "--files-from", "-", data=text)).output, last)
        with open(f"{at}/list", "wb") as file:
            file.write(lines)
        equal(well(coverage("union", "a.marks", "--files-from", "list", cwd=at)).output, COUNTED.marks_file(6, 1, runs=3))
        equal(well(coverage("union", "--files-from", "list", "a.marks", cwd=at)).output[8:12], b"LAST")
        equal(well(coverage("union", "--", "-f.marks", "b c.marks", cwd=at)).output, BOTH)
        refused(coverage("union", "--files-from", "none", cwd=at), 2, "coverage: none: No such file or directory\n")
        refused(coverage("union", "--files-from", "-"), 2, "coverage: -: names no file\n")
        refused(coverage("union", "--files-from", "-", data=b"a\n\nb\n"), 2, "coverage: -: name 2 is empty\n")
        well(coverage("union", "--files-from", "-", "a.marks", cwd=at))


def first_bad() -> None:
    """union: the first bad file is told by its name, with its own offset or the first row in which it differs from the first file"""
    other = OTHER_COUNT.marks_file(4, 1)
    told = f"{ROW}: the marks are of other modules than those of fell.marks, or of another assembly of them: docs/MARKS.md\n"
    rows = "coverage: the first file: the instruction at 000000, of 4 bytes, that begins 4610\ncoverage: a later file: "
    with folder() as at:
        write(at, fell=FELL, went=WENT, cut=FELL[:-1], other=other, behind=FELL + b"\n", second=FELL + WENT[:30])
        write(at, none=b"", job=COUNTED.job())
        bad(at, "cut", 59, "fell", "went", "cut", "other", "none", why="coverage: the input ends there: a file is cut short\n")
        bad(at, "behind", 60, "fell", "behind", "other")
        bad(at, "second", 90, "fell", "second", "cut")
        bad(at, "none", 0, "fell", "went", "none", "cut", why="coverage: the file is empty\n")
        bad(at, "job", 0, "job", "cut", why="coverage: what stands there is a job\n")
        bad(at, "none", 0, "none")
        # Two halves that make a whole, which combine takes for one: cut in the magic, the runs, the module and its places.
        for cut, offset in ((5, 0), (18, 16), (30, 30), (45, 42)):
            write(at, half=FELL[:cut], rest=FELL[cut:])
            bad(at, "half", offset, "fell", "went", "half", "rest")
            equal(well(coverage("combine", data=FELL + FELL[:cut] + FELL[cut:])).output, COUNTED.marks_file(4, 1, runs=2))
        for words in (["fell", "went", "other", "cut"], ["fell", "other", "other", "missing"]):
            ran = union(at, *words)
            refused(ran, 11, f"coverage: other.marks: {told}", rows)
            equal(ran.error.count("other.marks"), 1)


def damaged() -> None:
    """union: of a file that is cut, or of which a byte is changed, in any field, it says what combine says"""
    # Magic, session, runs, modules, a name, base, size, count; location, length, kind, original and set of the last place.
    fields = (0, 7, 8, 13, 16, 19, 20, 21, 22, 31, 35, 38, 41, 51, 54, 55, 56, 58, 59)
    damages = [FELL[:at] for at in fields] + [FELL[:at] + b"\xff" + FELL[at + 1 :] for at in fields]
    with folder() as at:
        write(at, fell=FELL)
        for damage in damages:
            write(at, damage=damage)
            alone, behind = run([PROGRAM, "combine"], damage), run([PROGRAM, "combine"], FELL + damage)
            had = union(at, "fell", "damage")
            if alone.status == 10:
                refused(had, 10, f"coverage: damage.marks: {alone.output.decode().rstrip()}: ")
            elif behind.status == 11:
                refused(had, 11, f"coverage: damage.marks: {behind.output.decode().rstrip()}: ")
            else:
                equal((had.status, had.output, had.error), (0, behind.output, ""))


def first_of_many() -> None:
    """union: of bad files among many the first is told, whichever process meets one first"""
    file, other = WIDE.marks_file(*[1] * PLACES), WIDE.marks_file(*[0] * PLACES).replace(b"M       ", b"N       ")
    with folder() as at:
        write(at, good=file, other=other, others=other, cut=file[:-1])
        for places, said in (
            ({700: "cut", 701: "other", 1300: "missing"}, "cut.marks: BAD MARKS OFFSET 18041: "),
            ({5: "other", 6: "cut"}, "other.marks: OTHER TABLE ROW 0 LEFT 4D20"), ({1499: "missing"}, "missing.marks: No such file"),
            ({1498: "missing", 1499: "cut"}, "missing.marks: No such file"),
            ({450: "cut", 449: "other"}, "other.marks: OTHER TABLE ROW 0 "),
            # From there on all are of one table, that of the first of them.
            ({300: "other", **dict.fromkeys(range(301, 1500), "others")}, "other.marks: OTHER TABLE ROW 0 "),
        ):
            names = [f"{places.get(it, 'good')}.marks" for it in range(1500)]
            for processes in ("1", "4", "16"):
                ran = coverage("union", "--processes", processes, "--files-from", "-", data="\n".join(names).encode(), cwd=at)
                refused(ran, 11 if "TABLE" in said else 10 if "BAD" in said else 2, f"coverage: {said}")


def unreadable() -> None:
    """union: a file that can't be read is told with the system's words, and one that the output goes to as such"""
    with folder() as at:
        write(at, fell=FELL)
        os.mkdir(f"{at}/folder.marks")
        refused(union(at, "fell", "folder", "missing"), 2, "coverage: folder.marks: Is a directory\n")
        words = ["union", "--processes", "1", "fell.marks", "fell.marks", "missing.marks"]
        refused(coverage(*words, cwd=at), 2, "coverage: missing.marks: No such file or directory\n")
        refused(union(at, "missing", "fell"), 2, "coverage: missing.marks: No such file or directory\n")
        refused(coverage("union", "/proc/self/mem"), 2, "coverage: /proc/self/mem: Input/output error\n")
        refused(coverage("union", f"{at}/fell.marks", "a\0b".replace("\0", "\udcff")), 2, "No such file or directory\n")
        refused(union(at, "fell", "-", redirect="<&-"), 5, "coverage: standard input: is closed\n")
        refused(union(at, "fell", redirect=">/dev/full"), 6, "coverage: standard output: No space left on device\n")
        emptied = "is the file that standard output goes to, which has so been emptied"
        refused(union(at, "fell", "all", redirect="> all.marks"), 2, f"coverage: all.marks: {emptied}\n")
        equal(os.path.getsize(f"{at}/all.marks"), 0)
        refused(union(at, "fell", redirect=">> fell.marks"), 2, "coverage: fell.marks: is the file that standard output goes to\n")
        equal(os.path.getsize(f"{at}/fell.marks"), len(FELL))


def words() -> None:
    """union: words that it doesn't have are refused by what is wrong, and build nothing; a call that can be answered builds"""
    with folder() as at:
        it = Copy(at)
        it.write("a", "")
        refused(run([f"{at}/coverage", "union"], env=it.env, cwd=at), 1, "usage: coverage union ")
        for given in (["-x", "a"], ["a", "-1"], ["--files=a"], ["--help", "a"], ["a", "--processors", "2"]):
            wrong = next(word for word in given if word.startswith("-"))
            misused(run([f"{at}/coverage", "union", *given], env=it.env, cwd=at), "union", f"{wrong} is none of its options")
        well(run([f"{at}/coverage", "union", "--help"], env=it.env, cwd=at))
        equal(it.calls(), [])
        run([f"{at}/coverage", "union", "a"], env=it.env, cwd=at)
        assert it.calls(), "nothing was built"
    for given in (["-0"], ["--"]):
        refused(coverage("union", *given), 1, "usage: coverage union ")
    for given in (["--files-from"], ["--processes"]):
        misused(coverage("union", *given), "union", f"{given[0]} lacks the word behind it")
    for count in ("0", "65", "x", "", "-1", "\u0661", "9" * 5_000):
        misused(coverage("union", "--processes", count, "a"), "union", f"--processes {count} is no number from 1 to 64")
    with folder() as path:
        write(path, a=FELL)
        equal(well(coverage("union", "--processes=2", "--files-from=-", data=f"{path}/a.marks\n".encode())).output, FELL)


def installed() -> None:
    """union: an installed copy has it"""
    with checkout() as it:
        it.make_built()
        well(it.call("install", "there"))
        write(it.at, fell=FELL, went=WENT)
        equal(well(run([f"{it.at}/there/bin/coverage", "union", "fell.marks", "went.marks"], cwd=it.at)).output, BOTH)


def pretended(at: str) -> Front:
    """A copy whose program does first what the file `how` says."""
    it = Front(at, f'#!/bin/sh\n[ "$1" = combine ] || exit 0\n. "$TEST_TOP/how"\nexec {PROGRAM} combine\n')
    write(at, fell=FELL, went=WENT, wide=WIDE.marks_file(*[1] * PLACES))
    return it


def at_once() -> None:
    """union: so many processes run at once as are asked for"""
    # Each notes how many run beside it.
    running = '"$TEST_TOP/running.$$"'
    note = f'touch {running}\nsleep 0.3\nls "$TEST_TOP" | grep -c running >> "$TEST_TOP/counts"\nrm {running}\n'
    with folder() as at:
        it = pretended(at)
        it.write("how", note)
        for processes in (1, 3):
            words = ["union", "--processes", str(processes), "--files-from", "-"]
            ran = well(run([f"{at}/coverage", *words], b"wide.marks\n" * 1000, at, env=it.env))
            equal(ran.output == WIDE.marks_file(*[1] * PLACES, runs=1000), True)
            equal(max(map(int, it.lines("counts"))), processes)
            os.remove(f"{at}/counts")


def program_fails() -> None:
    """union: where the program lacks memory, is killed, or doesn't start, it says so with its status, and writes nothing"""
    with folder() as at:
        it = pretended(at)
        # The first call, of one file, and those of two.
        late = '[ "$(stat -Lc %s /dev/stdin)" -le 60 ] || '
        for how, status, said in (
            ("echo NO MEMORY; exit 7", 7, "ended with status 7: NO MEMORY\n"), ("kill -9 $$", 137, "was ended by signal 9\n"),
            (f"{late}{{ echo NO MEMORY; exit 7; }}", 7, "ended with status 7: NO MEMORY\n"),
            (f"{late}kill -9 $$", 137, "was ended by signal 9\n"),
        ):
            it.write("how", how)
            ran = run([f"{at}/coverage", "union", "fell.marks", "went.marks"], cwd=at, env=it.env)
            refused(ran, status, f"coverage: {at}/out/coverage_program: {said}")
        # Behind the front's back.
        it.write("how", f"{late}rm {at}/out/coverage_program")
        ran = run([f"{at}/coverage", "union", *["went.marks"] * 3], cwd=at, env=it.env)
        refused(ran, 2, f"coverage: {at}/out/coverage_program: No such file or directory\n")


def progress() -> None:
    """union: from two seconds on a terminal has a line that tells how far it is, and is taken away"""
    line = rb"(?:\r\x1b\[K\x1b\[\?7lcoverage: union, 0:[0-9]{2} since [0-9]{2}:[0-9]{2}:[0-9]{2}; 2 of 2 files\x1b\[\?7h)+\r\x1b\[K"
    with folder() as at:
        it = pretended(at)
        words = ["union", f"{at}/fell.marks", f"{at}/went.marks"]
        it.write("how", "")
        equal(on_terminal(it, words, b""), (0, b"", BOTH))
        it.write("how", "sleep 1.2")
        status, seen, output = on_terminal(it, words, b"")
        assert (status, output) == (0, BOTH) and re.fullmatch(line, seen), (status, seen, output)


def waits(process: int, script: str) -> bool:
    """Whether a process has come to a script, and was found asleep for a second: what is begun or goes on isn't."""
    for _ in range(20):
        with open(f"/proc/{process}/cmdline", "rb") as words, open(f"/proc/{process}/stat", encoding="ascii") as state:
            if script.encode() not in words.read() or state.read().rpartition(")")[2].split()[0] != "S":
                return False
        time.sleep(0.05)
    return True


def interrupted() -> None:
    """union: an interrupt ends it with 130 and no output, also while it waits for a file"""
    with folder() as at, interruptible():
        write(at, fell=FELL)
        os.mkfifo(f"{at}/pipe.marks")
        for names in (["pipe", "fell"], ["fell", "pipe"]):
            words = [COVERAGE, "union", *(f"{it}.marks" for it in names)]
            started = subprocess.Popen(words, cwd=at, stdin=subprocess.DEVNULL, stdout=subprocess.PIPE, stderr=subprocess.PIPE)
            wait_for(lambda: waits(started.pid, "/scripts\0union\0"))
            started.send_signal(signal.SIGINT)
            output, error = started.communicate(timeout=SECONDS)
            equal((started.returncode, output, error), (130, b"", b""))


CHECKS = [
    few, many, lists, first_bad, damaged, first_of_many, unreadable, words, installed, at_once, program_fails, progress, interrupted,
]
