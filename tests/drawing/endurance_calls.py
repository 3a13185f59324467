"""Calls of `coverage` as a hostile or unlucky user makes them, and what is wrong with what comes of each.

A call runs in a room of its own, by a copy of the front over links to the scripts and the program, so that nothing is built.
Whatever it meets, as limits, signals, closed descriptors or a second call at once, it ends in time, with a status that
docs/REPORT.md has and without a traceback; a refusal stands on standard error alone; no process and no temporary file is left;
files of others are as they were; and each file that it writes into a folder is there whole, or as it was before.
"""
from __future__ import annotations

import contextlib
import os
import re
import resource
import shutil
import signal
import subprocess
import time
from dataclasses import dataclass, field, replace
from typing import Callable

from fixtures.harness import COVERAGE, PROGRAM, TOP, Ran, folder
from models.answers import Answer

# What stands at a name in place of a file; another text is what a link there names.
FOLDER, PIPE = "a folder", "a pipe"
# How many seconds of a processor a call may take, what explains a refusal, and any by the clock, however busy the machine is.
SECONDS, EXPLAINING, WALL = 10.0, 2.0, 30.0
# By whom nothing is left a moment after the end.
MOMENT = 2.0
# The statuses of all scripts and those of single ones; and of the program and what calls it.
STATUSES, OWN = {0, 1, 2, 5, 6, 7}, {"union": {10, 11}, "summary": {81}}
OF_PROGRAM, NO_FILES, NOT_RETURNED, NOT_ENDED, INTERRUPTED = {*range(17), 80}, 73, 80, 83, 130
# What may end a command of the program before it has ended; none takes as long as the other.
SHORT, LONG = ["--seconds", "1"], ["--seconds", "99"]
# Statuses behind which standard output may have something: the whole, or a first part.
WRITTEN = {0, 6, 81}
# The bytes of address space that no call passes, so that one that reads without end doesn't take the machine's.
ROOM_OF_SCRIPTS, ROOM_OF_PROGRAM = 400 << 20, 8 << 30
SIGNALS = (signal.SIGHUP, signal.SIGINT, signal.SIGQUIT, signal.SIGPIPE, signal.SIGTERM)
CRASHES = ("Traceback", "Fatal Python error", "Exception ignored", "Segmentation fault")
# A tree: by its path each file's bytes, a link's text, or nothing of a folder.
Tree = dict[str, "bytes | str | None"]


def nothing(_: Ran, __: str) -> str | None:
    """What is wrong with an answer of which no more is known."""
    return None


@dataclass
class Met:
    """What a call meets."""

    kind: str = ""
    limits: dict[int, int] = field(default_factory=dict)
    # A signal, after how many seconds it comes, and whether all processes of the call get it, as from a terminal.
    signal: int = 0
    after: float = 0.0
    is_for_all: bool = False
    closed: tuple[int, ...] = ()
    # Where standard input comes from and output goes: a pipe, a file, a pipe without another end, or what stands at a path.
    source: str = "pipe"
    sink: str = "pipe"
    environment: dict[str, str] = field(default_factory=dict)

    def is_harmless(self) -> bool:
        """Whether what is known of the call's answer holds all the same."""
        harms = self.limits or self.signal or self.closed or "TMPDIR" in self.environment
        return not harms and {self.source, self.sink} <= {"pipe", "file"}


@dataclass
class Call:
    """A command with words, files and standard input, and what is wrong with what came where it ended with 0."""

    words: list[str]
    files: dict[str, bytes | str] = field(default_factory=dict)
    data: bytes = b""
    check: Callable[[Ran, str], str | None] = nothing
    # What it must end with, where that is known, and what standard error has then; of a command of the program its answer.
    status: int | None = None
    error: str = ""
    answer: Answer | None = None
    is_program: bool = False
    met: Met = field(default_factory=Met)
    # The folder that it writes into, the call that has done so before, and one that does so at once.
    made: str = ""
    first: Call | None = None
    second: Call | None = None
    seconds: float = SECONDS
    program: str = PROGRAM

    def name(self) -> str:
        """What the call is counted as: what it meets, or its script."""
        return self.met.kind or ("front" if self.is_program else "job --check" if self.words[1:2] == ["--check"] else self.words[0])

    def kept(self) -> bytes:
        """All that the call was given."""
        texts = {name: it if isinstance(it, bytes) else ascii(it).encode() for name, it in self.files.items()}
        files = b"".join(b"%s\n%s\n" % (ascii(name).encode(), it) for name, it in texts.items())
        more = b"".join(it.kept() for it in (self.first, self.second) if it)
        return f"{self.words!a} {self.met}\n".encode() + files + b"-\n" + self.data + b"\n" + more

    def statuses(self) -> set[int]:
        """Those that it may end with."""
        found = OF_PROGRAM if self.is_program else STATUSES | OWN.get(self.words[0], set())
        if resource.RLIMIT_NOFILE in self.met.limits:
            found = found | {NO_FILES}
        if self.words[-2:] == SHORT:
            found = found | {NOT_ENDED}
        at = self.met.signal
        return found | ({-at, 128 + at} | ({INTERRUPTED} if at == signal.SIGINT else set()) if at else set())


# ---- where a call runs


class Room:
    """A folder with a place for the files of a call, one for temporary files, and the front."""

    def __init__(self, room: str, call: Call) -> None:
        self.room, self.at, self.tmp = room, f"{room}/at", f"{room}/tmp"
        for it in (self.at, self.tmp, f"{room}/bin", f"{room}/lib/coverage"):
            os.makedirs(it)
        shutil.copy(COVERAGE, f"{room}/bin")
        os.symlink(f"{TOP}/scripts", f"{room}/lib/coverage/scripts")
        os.symlink(call.program, f"{room}/lib/coverage/coverage_program")
        for name, what in call.files.items():
            with contextlib.suppress(OSError):
                stand(f"{self.at}/{name}", what)
        if call.first:
            plain = replace(call.first, met=Met(source="file"))
            self.end(plain, self.begin(plain))

    def descriptor(self, at: str, data: bytes | None = None) -> int:
        """What standard input reads from, or where there is no data what output writes to."""
        if at == "file":
            path = f"{self.room}/{'output' if data is None else 'input'}"
            with open(path, "wb") as file:
                file.write(data or b"")
            return os.open(path, os.O_RDWR)
        if at == "ended":
            ends = os.pipe()
            os.close(ends[data is not None])
            return ends[data is None]
        return os.open(at, os.O_RDONLY if data is not None or os.path.isdir(at) else os.O_WRONLY)

    def begin(self, call: Call) -> subprocess.Popen[bytes]:
        """Starts a call, in a group of its own."""
        met, most = call.met, ROOM_OF_PROGRAM if call.is_program else ROOM_OF_SCRIPTS

        def ready() -> None:
            for it in SIGNALS:
                signal.signal(it, signal.SIG_DFL)
            for number in met.closed:
                os.close(number)
            for number, limit in {resource.RLIMIT_CORE: 0, resource.RLIMIT_AS: most, **met.limits}.items():
                resource.setrlimit(number, (limit, limit))

        # What installs has to be a checkout.
        front = COVERAGE if call.words[0] == "install" else f"{self.room}/bin/coverage"
        source = subprocess.PIPE if met.source == "pipe" else self.descriptor(met.source, call.data)
        sink = subprocess.PIPE if met.sink == "pipe" else self.descriptor(met.sink)
        process = subprocess.Popen(
            [front, *call.words], stdin=source, stdout=sink, stderr=subprocess.PIPE, cwd=self.at, preexec_fn=ready,
            env={**os.environ, "TMPDIR": self.tmp, **met.environment}, start_new_session=True,
        )
        for it in (source, sink):
            if it != subprocess.PIPE:
                os.close(it)
        return process

    def end(self, call: Call, process: subprocess.Popen[bytes]) -> Ran | str:
        """What came of a call; or what is wrong where it didn't end, or something of it goes on."""
        if call.met.signal:
            time.sleep(call.met.after)
            (os.killpg if call.met.is_for_all else os.kill)(process.pid, call.met.signal)
        try:
            output, error = process.communicate(call.data if process.stdin else None, WALL)
        except subprocess.TimeoutExpired:
            kill(process.pid)
            process.communicate()
            return f"no end after {WALL} seconds"
        if living := lasting(process.pid):
            kill(process.pid)
            return f"processes are left: {living}"
        if call.met.sink == "file":
            with open(f"{self.room}/output", "rb") as file:
                output = file.read()
        return Ran(output or b"", error.decode(errors="replace"), process.returncode)


def stand(path: str, it: bytes | str) -> None:
    """Puts a file, a folder, a pipe or a link there."""
    os.makedirs(os.path.dirname(path), exist_ok=True)
    if isinstance(it, bytes):
        with open(path, "xb") as file:
            file.write(it)
    elif it == FOLDER:
        os.mkdir(path)
    elif it == PIPE:
        os.mkfifo(path)
    else:
        os.symlink(it, path)


def kill(group: int) -> None:
    with contextlib.suppress(ProcessLookupError):
        os.killpg(group, signal.SIGKILL)


def lasting(group: int) -> list[str]:
    """What runs of a group a moment after its first process has ended."""
    until = time.monotonic() + MOMENT
    while found := members(group):
        if time.monotonic() > until:
            return found
        time.sleep(0.05)
    return []


def members(group: int) -> list[str]:
    """The processes of a group by their names, but for those that have ended."""
    try:
        os.killpg(group, 0)
    except ProcessLookupError:
        return []
    found = []
    for number in filter(str.isdigit, os.listdir("/proc")):
        with contextlib.suppress(OSError), open(f"/proc/{number}/stat", encoding="utf-8", errors="replace") as file:
            name, _, rest = file.read().rpartition(") ")
            if rest.split()[2] == str(group) and rest[0] not in "ZX":
                found.append(name.partition("(")[2])
    return found


def tree_of(at: str) -> Tree:
    """All that stands below a folder."""
    found: Tree = {}
    for place, folders, names in os.walk(at):
        for path in (f"{place}/{it}" for it in (*folders, *names)):
            key = os.path.relpath(path, at)
            if os.path.islink(path):
                found[key] = os.readlink(path)
            elif os.path.isfile(path):
                with open(path, "rb") as file:
                    found[key] = file.read()
            else:
                found[key] = None
    return found


# ---- what is wrong


def fault_of(call: Call) -> str | None:
    """What is wrong with what comes of a call, and of one beside it."""
    calls = [call, *([call.second] if call.second else [])]
    with folder() as at:
        room = Room(at, call)
        before, used = tree_of(room.at), processor()
        processes = [room.begin(it) for it in calls]
        ends = [room.end(it, process) for it, process in zip(calls, processes)]
        used = processor() - used
        after, left = tree_of(room.at), os.listdir(room.tmp)
        for it, ran in zip(calls, ends):
            what = ran if isinstance(ran, str) else fault_in(it, ran, room.at)
            if what:
                return what
        if left:
            return f"{after_end(ends)}, it leaves temporary files: {left}"
        if used > len(calls) * call.seconds:
            return f"it takes {used:.1f} seconds of a processor: {ends[0]}"[:300]
    return fault_in_files(calls, ends, before, after)


def processor() -> float:
    """The seconds of a processor that ended processes have taken."""
    it = resource.getrusage(resource.RUSAGE_CHILDREN)
    return it.ru_utime + it.ru_stime


def after_end(ends: list[Ran | str]) -> str:
    return " and ".join(f"after status {it.status}, {it.error[:200]!r}" for it in ends if isinstance(it, Ran))


def fault_in(call: Call, ran: Ran, at: str) -> str | None:
    """What is wrong with status, standard output and error."""
    told = f"status {ran.status}, {ran.output[:80]!r}, {ran.error[-1500:]!r}"
    if ran.status not in call.statuses() or any(it in ran.error for it in CRASHES) or not is_told(ran.error):
        return told
    if call.met.is_harmless():
        if call.answer:
            return fault_in_answer(call, ran)
        if call.status is not None and (ran.status != call.status or call.error not in ran.error):
            return f"{told}, and not {call.status}, {call.error!r}"
        if ran.status == 0:
            return call.check(ran, at)
    is_ended = ran.status < 0 or ran.status in (INTERRUPTED, 128 + call.met.signal)
    if is_ended or call.is_program or ran.status == 0:
        return None
    if ran.output and ran.status not in WRITTEN:
        return f"{told}, with an output"
    return None if ran.error or 2 in call.met.closed else f"{told}, without a word"


def is_told(error: str) -> bool:
    """Whether standard error has usage, or lines of `coverage` alone."""
    return error.startswith("usage: coverage ") or all(re.match("coverage: .", it) for it in error.split("\n")[:-1])


def fault_in_answer(call: Call, ran: Ran) -> str | None:
    """What is wrong with the answer of a command of the program."""
    assert call.answer
    if ran.status == NOT_ENDED:
        return f"status {ran.status}, with an output" if ran.output else None
    is_late = any(re.match(rb"TASK \S+ (?!RETURNED )", it) for it in ran.output.split(b"\n"))
    if "--must-return" in call.words and ran.status in (0, NOT_RETURNED):
        if (ran.status == NOT_RETURNED) != is_late:
            return f"status {ran.status} of {ran.output[:300]!r}"
        return call.answer.fault(0, ran.output)
    return call.answer.fault(ran.status, ran.output)


def fault_in_files(calls: list[Call], ends: list[Ran | str], before: Tree, after: Tree) -> str | None:
    """What is wrong with the files behind the calls: those in the folder that they write into are as before, or as one of the calls
    alone makes them, and a refusal of one call leaves all of them; the others are as they were."""
    call, states = calls[0], [before]
    is_refused = len(calls) == 1 and isinstance(ends[0], Ran) and 0 < ends[0].status < 128 and call.words[0] != "install"
    if call.made and not is_refused:
        states += [alone(call, it) for it in calls]
    for path in sorted({*before, *after, *(it for state in states for it in state)}):
        wanted = [state.get(path, "nothing") for state in (states if is_below(path, call.made) else states[:1])]
        had = after.get(path, "nothing")
        # Folders that are empty again may stand.
        if had not in wanted and had is not None:
            return f"{after_end(ends)}, {path!a} has {had[:80]!r}, and not {[it and it[:80] for it in wanted]}"
    return None


def is_below(path: str, made: str) -> bool:
    """Whether a path is that of a folder, or below it."""
    return bool(made) and f"{path}/".startswith(f"{os.path.normpath(made)}/")


def alone(call: Call, one: Call) -> Tree:
    """What stands behind one call that meets nothing."""
    with folder() as at:
        room = Room(at, call)
        plain = replace(one, met=Met(source="file", environment=one.met.environment))
        room.end(plain, room.begin(plain))
        return tree_of(room.at)
