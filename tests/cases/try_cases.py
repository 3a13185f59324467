"""`coverage try`: a toolchain that runs the proved program and says what the real one would, and twice the real one."""
from __future__ import annotations

import os
import signal
import subprocess
import time

from fixtures.checkout import Checkout, checkout, ended
from fixtures.harness import PROGRAM, TOP, Ran, equal, folder, interruptible, refused, run
from fixtures.jobs import FIRST, FIRST_REPORT, USAGE

# It notes its folder and its words, and whether it reads a file; what it says in place of an answer stands in `says`.
RT = f"""#!/usr/bin/env bash
top=$PWD/../..
{{ echo "${{PWD#"$(readlink -f "$top")"/}}"; printf '%s\\n' "$@"; [ -f /dev/stdin ] && echo 'a file'; }} > "$top/asked"
[ -e "$top/hold" ] && {{ echo $$ > "$top/held"; exec sleep 300; }}
[ -e "$top/says" ] && {{ echo 'a first part'; cat "$top/says" >&2; exit 4; }}
shift 2
{PROGRAM} "$@"
status=$?
echo "checked: ended status=$status" >&2
echo 'races: not looked for, since a kit has no ThreadSanitizer' >&2
echo "run=ended status=$status runners=1 races=unchecked proved=no" >&2
exit $status
"""
# How many seconds a call of the real one may take, on a machine that is at work.
LONGEST = 600
NOT_PROVED = "this is not the proved program"
# What the toolchain says in place of an answer, as it stood there; the exit status, and what is to be said.
WITHOUT_ANSWER = [
    (
        "the end of the program's standard output:\n| 0123456789\nchecked: no-answer: the program wrote more than "
        "1048576 bytes to standard output or to standard error, the limit on each\nrun=no-answer proved=no\n",
        71, "no answer: the program wrote more than 1048576 bytes to standard output",
    ),
    (
        "interpreter: no-answer: a call of a function of an `extern` block is not supported by the interpreter yet\n"
        "checked: no-answer: the program did not end within the time limit\nrun=no-answer proved=no\n",
        71, "no answer: the program did not end within the time limit",
    ),
    (
        "checked: no-answer: the program ran out of stack\nrun=no-answer races=unchecked proved=no\n",
        71, "no answer: the program ran out of stack",
    ),
    (
        "the end of the program's standard output:\n| begun\nchecked: fault kind=index-out-of-bounds in=vec::index "
        "at=/x/vec.rt:49:9: an index at or past the length\nrun=fault proved=no\n",
        72, "a fault in the program: kind=index-out-of-bounds in=vec::index at=/x/vec.rt:49:9: an index",
    ),
    (
        "src/main.rt:78:18: error[unsupported]: a hole holds a plain name\nrun=none proved=no\n",
        70, "src/main.rt:78:18: error[unsupported]",
    ),
    ("rt: RT_SECONDS takes a number of seconds above 0\n", 70, "rt: RT_SECONDS takes a number"),
    # What the program itself wrote is no verdict of the toolchain.
    ("run=ended status=0 proved=no\nKilled\n", 70, "Killed"),
]
# A program that writes 20,000 lines of 60 bytes.
LONG = """//! Writes more than the toolchain answers with.
#![tactic(auto)]

use std::io;

fn main(rt: HostRuntime) -> io::Result<()> {
    let mut left: u32 = 20_000;
    while left > 0 {
        println!(rt; "01234567890123456789012345678901234567890123456789012345678")?;
        left -= 1;
    }
    Ok(())
}
"""


def answered(ran: Ran, command: str) -> Ran:
    """Fails unless standard error has the one line that the program wasn't the proved one, and how to get that."""
    lines, proved = ran.error.splitlines(), f": ./coverage {command} is the proved one"
    assert len(lines) == 1 and NOT_PROVED in lines[0] and proved in lines[0], ran.error
    return ran


def words_of(usage: str) -> list[str]:
    """The words of a command by the program's line of usage."""
    values = {"NAME": "S", "NUMBER": "7", "TASKS": "2", "COMMAND": "run"}
    return [values.get(it, it) for it in usage.split()]


def each_command() -> None:
    """try: each command's output and exit status are the program's, also where it refuses its input"""
    usages = USAGE.decode().strip().removeprefix("USAGE: ").split(" | ")
    with checkout(RT) as it:
        for words in map(words_of, usages):
            own = run([PROGRAM, *words], FIRST.job())
            had = answered(it.call("try", *words, data=FIRST.job()), words[0])
            equal((words, had.output, had.status), (words, own.output, own.status))
            equal(it.read("asked").splitlines(), ["crates/coverage_program", "try", "--", *words, "a file"])
        equal(it.call("try", "run", data=FIRST.job()).output, FIRST_REPORT)
        equal(it.call("try", "run", data=b"no job").output, b"BAD JOB LINE 1\n")
        # Nothing is kept of it, and nothing that is taken for the program.
        assert not os.path.exists(f"{it.at}/out"), "there is an out/"


def no_command() -> None:
    """try: words that are no command's are refused before the toolchain is asked"""
    with checkout(RT) as it:
        for word in ("runs", "page", "try", "run exits", ""):
            no = f"coverage: {word} is no command: ./coverage alone says which there are\n"
            refused(it.call("try", word), 1, no)
        refused(it.call("try"), 1, "usage: coverage try COMMAND ..\n")
        for words in (["run", "x"], ["marks", "s"], ["marks", "\udcff"], ["trial", "7"]):
            refused(it.call("try", *words), 1, f"coverage: these are not the words of {words[0]}: ./coverage alone says")
        assert not os.path.exists(f"{it.at}/asked"), "the toolchain was asked"
        assert it.call("try", "--help").output.startswith(b"usage: coverage try COMMAND ..\n")


def without_answer() -> None:
    """try: what the toolchain can't answer is refused by name, with nothing of an output"""
    with checkout(RT) as it:
        for says, status, wanted in WITHOUT_ANSWER:
            it.write("says", says)
            had = it.call("try", "run", data=FIRST.job())
            refused(had, status, "coverage: the toolchain gave no answer:" if status == 70 else "coverage: ", wanted)
            equal(had.error.count(NOT_PROVED), 1)
        os.remove(f"{it.at}/bin/rt")
        it.env["PATH"] = ":".join(at for at in it.env["PATH"].split(":") if not os.path.exists(f"{at}/rt"))
        refused(it.call("try", "run"), 70, "coverage: there is no toolchain: the command rt isn't found\n")


def its_input() -> None:
    """try: input that comes slowly, is large or never ends is read as the program reads it"""
    with checkout(RT) as it:
        started = it.start("try", "run")
        first, last = FIRST.job()[:40], FIRST.job()[40:]
        assert started.stdin
        started.stdin.write(first)
        started.stdin.flush()
        # The toolchain itself waits for two seconds.
        time.sleep(2.5)
        started.stdin.write(last)
        equal(ended(started).output, FIRST_REPORT)
        blanks = FIRST.job(more=" " * (16_777_216 - len(FIRST.job())))
        equal(it.call("try", "run", data=blanks).output, b"BAD JOB LINE 13\n")
        equal(it.call("try", "run", data=blanks + b" ").output, b"TOO LARGE INPUT\n")
        equal(it.call("try", "run", redirect="</dev/zero").output, b"TOO LARGE INPUT\n")
        started = it.start("try", "trial", "7", "1")
        # Its standard input stays open.
        equal(started.wait(30), 0)
        ended(started)


def its_streams() -> None:
    """try: a standard input or output that fails is refused"""
    with checkout(RT) as it:
        refused(it.call("try", "run", redirect="</"), 5, "standard input")
        refused(it.call("try", "run", redirect="<&-"), 5, "standard input: is closed")
        for redirect in (">/dev/full", ">&-"):
            refused(it.call("try", "run", data=FIRST.job(), redirect=redirect), 6, "standard output")


def is_gone(number: int) -> bool:
    """Whether no process has that number any more."""
    try:
        os.kill(number, 0)
    except ProcessLookupError:
        return True
    return False


def wait_until(it: Checkout, name: str) -> int:
    """The number that a file of the checkout has, once it is there."""
    for _ in range(600):
        if os.path.exists(f"{it.at}/{name}") and it.read(name):
            return int(it.read(name))
        time.sleep(0.05)
    raise AssertionError(f"{name} never came")


def is_interrupted() -> None:
    """try: an interrupt ends the toolchain with it, and writes nothing"""
    for number in (signal.SIGINT, signal.SIGTERM, signal.SIGHUP):
        with checkout(RT) as it, interruptible():
            it.write("hold", "")
            started = it.start("try", "trial", "7", "1")
            held = wait_until(it, "held")
            os.kill(started.pid, number)
            had = ended(started)
            equal((had.status, had.output), (130, b""))
            assert is_gone(held), f"signal {number} left the toolchain at work"


def with_toolchain() -> None:
    """try: with the real toolchain the first example has its report, and too large an output is refused"""
    with folder() as at, open(f"{TOP}/examples/first.job", "rb") as job:
        it, pipe = Checkout(at, ""), subprocess.PIPE
        os.remove(f"{it.at}/bin/rt")
        it.write("crates/coverage_program/src/main.rt", LONG)
        long = it.start("try", "trial", "7", "1")
        first = subprocess.Popen([f"{TOP}/coverage", "try", "run"], stdin=job, stdout=pipe, stderr=pipe)
        had = answered(ended(first, LONGEST), "run")
        equal((had.status, had.output), (0, FIRST_REPORT))
        refused(ended(long, LONGEST), 71, "coverage: no answer: the program wrote more than 1048576 bytes")


CHECKS = [each_command, no_command, without_answer, its_input, its_streams, is_interrupted, with_toolchain]
