"""Answers a command of the program from its sources as they stand, compiled with checks and without its proof."""
from __future__ import annotations

import re
import subprocess
import tempfile

from common.command import TOP, Fault, UsageError, complain, read_input, write_output
from developer.built import FAILED, end_by_signals
from developer.crate_sources import TOP_CRATE

HELP = """\
Answers a command of the program, as run, from the sources as they stand and within a minute or so: the toolchain
compiles the program with checks and without its proof, and runs it once. Output and exit status are the program's. A
line on standard error says that this is not the proved program. Of what is compiled here nothing is kept.

What it can't do is refused by name on standard error, and nothing is written: the status is 71 where a limit of the
toolchain was passed (1,048,576 bytes of output; 60 seconds, or as many as the variable RT_SECONDS says; the room of a
call), 72 where the checks found a fault in the program, and 70 where the toolchain is missing or could not compile it.
The proved program has neither limit of output nor of time.
"""
NO_ANSWER, FAULTY = 71, 72
# The program refuses input that is longer, once it has read one byte more.
LONGEST_INPUT = 16_777_216
# The command for which the program reads nothing.
READS_NOTHING = "trial"
# The last line of `rt try`: what came of it, and the program's exit status where that ended.
VERDICT = re.compile(r"^run=(\S+)(?: status=([0-9]+))?.* proved=no\Z", re.M)
# What it says, before, of the one run that counts: the program reads words, which its interpreter lacks.
CHECKED = re.compile(r"^checked: (?:no-answer: |fault )(.*)$", re.M)


def given_input(command: str) -> bytes:
    """What the program is to read, so much of it that the program would read no more."""
    return b"" if command == READS_NOTHING else read_input(LONGEST_INPUT + 1)


def attempt(words: list[str], given: bytes) -> tuple[bytes, str]:
    """What the program writes, and the toolchain's own lines. The toolchain ends where this is ended."""
    # It takes a file whole, and cuts what comes through a pipe where that is silent for two seconds.
    with tempfile.TemporaryFile() as file:
        file.write(given)
        file.seek(0)
        command, pipe = ["rt", "try", "--", *words], subprocess.PIPE
        folder = f"{TOP}/crates/{TOP_CRATE}"
        with subprocess.Popen(command, cwd=folder, stdin=file, stdout=pipe, stderr=pipe) as ran:
            try:
                output, error = ran.communicate()
            except BaseException:
                ran.terminate()
                ran.wait()
                raise
    return output, error.decode(errors="replace").rstrip("\n")


def status_of(said: str) -> int:
    """The program's exit status by the toolchain's lines, where there is an answer."""
    verdict, checked = VERDICT.search(said), CHECKED.search(said)
    came, status = verdict.groups() if verdict else ("none", None)
    if came == "ended" and status is not None:
        return int(status)
    if came == "no-answer" and checked:
        raise Fault("no answer", checked[1], NO_ANSWER)
    if came in ("fault", "differs"):
        raise Fault("a fault in the program", checked[1] if checked else "the toolchain said:", FAULTY, "" if checked else said)
    raise Fault("the toolchain gave no answer", "its last lines:", FAILED, said[-2000:])


def is_text(words: list[str]) -> bool:
    """Whether all words are text, as those of each command are; the toolchain takes no others."""
    try:
        "".join(words).encode()
    except UnicodeEncodeError:
        return False
    return True


def main(words: list[str]) -> int:
    if not words or not is_text(words):
        raise UsageError
    end_by_signals()
    complain(
        "coverage: this is not the proved program, but the same sources compiled with checks, within a minute or so: "
        f"./coverage {words[0]} is the proved one"
    )
    try:
        output, said = attempt(words, given_input(words[0]))
    except FileNotFoundError:
        raise Fault("there is no toolchain", "the command rt isn't found", FAILED) from None
    except OSError as error:
        raise Fault("the toolchain", error.strerror or str(error), FAILED) from None
    status = status_of(said)
    write_output(output)
    return status
