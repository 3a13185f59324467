"""Unites any number of marks files, by as many processes of the program at once as there are processors.

The program alone reads and unites marks. What is found here is where one file ends and the next begins, so that each process
gets whole ones, and which file it is that the program refuses.
"""
from __future__ import annotations

import contextlib
import errno
import os
import re
import stat
import subprocess
import sys
import threading
import time
from concurrent.futures import ThreadPoolExecutor, wait
from dataclasses import dataclass, field
from typing import BinaryIO, Iterator, Optional, Sequence

from common.command import BAD_INPUT, INTERRUPTED, NO_MEMORY, READ_FAULT, TOP, Fault, UsageError
from common.command import read_file, reason, take_word, tell_terminal, write_output
from readers.marks import bad_marks, other_table, read_one

HELP = """\
Unites marks files to one, as combine does with those that stand one behind the other, and byte by byte to the same one. But
there may be any number of them, of any size together: the program unites some at a time, on all processors at once.

The files are those among the words and those that a LIST names, in this order: a name on each line, or with -0 a zero byte
behind each, as find -print0 writes them. - is standard input, as a file or as a LIST. A file may hold several marks files,
one right behind the other. The session is that of the first, and a file that comes twice counts its runs twice.

With --processes at most N processes of the program run at once, 1 to 64.

The first file that is missing or bad, in the order of the words, is told on standard error by its name and the program's
line: offsets are from that file's first byte on, and of two rows the left one is the first file's. Nothing is written
then, and the status is the program's, 10 or 11, or 2 where a file can't be read. This script is not proved.
"""
# In a checkout, and in an installed copy.
PROGRAM = f"{TOP}/out/coverage_program" if os.path.exists(f"{TOP}/crates.txt") else f"{TOP}/coverage_program"
BAD_MARKS, OTHER_TABLE = 10, 11
VALUED = ("--files-from", "--processes")
MOST_PROCESSES = 64
# How many bytes of marks a process gets beside a union: so few that each gets its part soon, and so many that its start
# costs little. A union has 590,166 bytes at most, and the program reads 16,777,216.
ROOM = 4_000_000
# How many files a thread takes at once, at most, and how often each takes some where they are fewer.
MOST_SHARE = 32
# From when on the terminal is told, and how often, in seconds.
QUIET, STEP = 2, 1


@dataclass(frozen=True)
class Marks:
    """What stands at an offset of a file, which is that of this number: a marks file, whole by its numbers of modules and
    places, or something else, which the program is given by itself. There is a fault where the file can't be read."""

    name: str
    number: int
    at: int
    data: bytes
    is_whole: bool = False
    fault: Optional[Fault] = None


@dataclass(frozen=True)
class Answer:
    """What the program makes of marks: their union, or else the line by which it refuses them."""

    union: bytes
    line: str = ""


@dataclass
class Call:
    """What the words ask for: the sources, each a name and whether it is that of a list; what ends a name in a list; and how
    many processes there may be."""

    sources: list[tuple[str, bool]] = field(default_factory=list)
    end: bytes = b"\n"
    processes: int = field(default_factory=lambda: min(len(os.sched_getaffinity(0)), MOST_PROCESSES))

    def names(self) -> list[str]:
        """The names of all files, in order."""
        return [it for name, is_list in self.sources for it in (self.listed(name) if is_list else [name])]

    def listed(self, path: str) -> list[str]:
        """The names in a list."""
        names = read_file(path).split(self.end)
        if not names[-1]:
            names.pop()
        if b"" in names:
            raise Fault(path, f"name {names.index(b'') + 1} is empty")
        return [os.fsdecode(it) for it in names]


def read_call(words: Sequence[str]) -> Call:
    """What the words ask for."""
    call, rest = Call(), list(words)
    while rest:
        word = take_word(rest, VALUED)
        if word in VALUED and not rest:
            raise UsageError(f"{word} lacks the word behind it")
        if word == "-0":
            call.end = b"\0"
        elif word == "--files-from":
            call.sources.append((rest.pop(0), True))
        elif word == "--processes":
            call.processes = count_asked(rest.pop(0))
        elif word.startswith("-") and word not in ("-", "--"):
            raise UsageError(f"{word} is none of its options")
        else:
            names = rest if word == "--" else [word]
            call.sources += [(it, False) for it in names]
            rest = [] if word == "--" else rest
    if not call.sources:
        raise UsageError
    return call


def count_asked(word: str) -> int:
    """The number of processes that is asked for."""
    if not (re.fullmatch("[0-9]{1,9}", word) and 1 <= int(word) <= MOST_PROCESSES):
        raise UsageError(f"--processes {word} is no number from 1 to {MOST_PROCESSES}")
    return int(word)


# Reading

@contextlib.contextmanager
def opened(name: str) -> Iterator[BinaryIO]:
    """A file, or standard input, whose faults become a `Fault`."""
    is_input = name == "-"
    try:
        if is_input and sys.stdin is None:
            raise OSError("is closed")
        with contextlib.ExitStack() as ends:
            file: BinaryIO = sys.stdin.buffer if is_input else ends.enter_context(open(name, "rb"))
            if is_output(file):
                emptied = "" if os.fstat(1).st_size else ", which has so been emptied"
                raise OSError(f"is the file that standard output goes to{emptied}")
            if is_input:
                tell_terminal()
            yield file
    except (OSError, ValueError) as error:
        place, status = ("standard input", READ_FAULT) if is_input else (name, BAD_INPUT)
        raise Fault(place, reason(error), status) from None


def is_output(file: BinaryIO) -> bool:
    """Whether a file is the one that standard output is."""
    try:
        one, other = os.fstat(file.fileno()), os.fstat(1)
    except OSError:
        return False
    return stat.S_ISREG(one.st_mode) and os.path.samestat(one, other)


def read_all(file: BinaryIO, name: str, number: int) -> Iterator[Marks]:
    """What stands in a file, one behind the other; of an empty one that it is empty."""
    at = 0
    found = read_one(file)
    while found.data or not at:
        yield Marks(name, number, at, found.data, found.is_whole)
        at += max(len(found.data), 1)
        found = read_one(file)


class Files:
    """The names of all files, a few at a time for whichever thread asks."""

    def __init__(self, names: Sequence[str], threads: int) -> None:
        self.names = names
        # How many are handed out, and whether no more are to be.
        self.count = 0
        self.is_over = False
        self.share = max(1, min(MOST_SHARE, len(names) // (threads * MOST_SHARE)))
        self.lock = threading.Lock()

    def take(self) -> range:
        """The numbers of the next files; none where there are no more."""
        with self.lock:
            first = self.count
            if not self.is_over:
                self.count = min(first + self.share, len(self.names))
            return range(first, self.count)

    def read(self) -> Iterator[Marks]:
        """What stands in the files that the caller takes, in order."""
        while numbers := self.take():
            for number in numbers:
                name = self.names[number]
                try:
                    with opened(name) as file:
                        yield from read_all(file, name, number)
                except Fault as fault:
                    yield Marks(name, number, 0, b"", fault=fault)


def parts(found: Iterator[Marks]) -> Iterator[list[Marks]]:
    """Marks in parts that fit beside a union; what isn't whole is one of its own."""
    part: list[Marks] = []
    size = 0
    for marks in found:
        size += len(marks.data)
        if part and (size > ROOM or not marks.is_whole or not part[-1].is_whole):
            yield part
            part, size = [], len(marks.data)
        part.append(marks)
    if part:
        yield part


# Uniting

def combine(parts: Sequence[bytes]) -> Answer:
    """What the program makes of marks that stand one behind the other."""
    try:
        with os.fdopen(os.memfd_create("marks"), "w+b") as file:
            file.writelines(parts)
            file.seek(0)
            ran = subprocess.run([PROGRAM, "combine"], stdin=file, stdout=subprocess.PIPE, check=False)
    except OSError as error:
        raise Fault(PROGRAM, reason(error), NO_MEMORY if error.errno == errno.ENOMEM else BAD_INPUT) from None
    if ran.returncode in (0, BAD_MARKS, OTHER_TABLE):
        return Answer(b"", ran.stdout.decode().rstrip("\n")) if ran.returncode else Answer(ran.stdout)
    if ran.returncode < 0:
        raise Fault(PROGRAM, f"was ended by signal {-ran.returncode}", 128 - ran.returncode)
    line = ran.stdout[:100].decode(errors="replace").rstrip()
    raise Fault(PROGRAM, f"ended with status {ran.returncode}: {line}", ran.returncode)


class Uniting:
    """The uniting of all files by several threads, each with a process of the program and a union of its own."""

    def __init__(self, files: Files) -> None:
        self.files = files
        # What every table is held against: the first marks, which are taken out of the first thread's.
        self.begun = files.read()
        self.name, self.first = "", b""
        self.faults: dict[int, Fault] = {}

    def begin(self) -> None:
        """Takes the first marks."""
        marks = next(self.begun)
        answer = combine([marks.data]) if not marks.fault else Answer(b"")
        if not answer.union:
            raise self.fault_of([marks])[1]
        self.name, self.first = marks.name, answer.union

    def work(self, found: Iterator[Marks]) -> bytes:
        """Unites what is found, part by part, until a part is bad; empty where there is nothing."""
        union = b""
        try:
            for part in parts(found):
                answer = self.unite(union, part)
                if not answer.union:
                    # Others may have earlier files at work: of all faults that of the first file counts.
                    number, fault = self.fault_of(part)
                    self.faults[number] = fault
                    break
                union = answer.union
        finally:
            self.files.is_over = True
        return union

    def unite(self, union: bytes, part: list[Marks]) -> Answer:
        """What the program makes of a union, which may be empty, and a part; no union where the part is bad."""
        first = part[0]
        if not first.is_whole and (first.fault or combine([first.data]).line):
            return Answer(b"")
        answer = combine([union, *(it.data for it in part)])
        return Answer(b"") if not union and combine([self.first, answer.union]).line else answer

    def fault_of(self, part: list[Marks]) -> tuple[int, Fault]:
        """Of a bad part which file is the first that the program refuses behind the first marks, by its number, and why."""
        while len(part) > 1:
            half = len(part) // 2
            is_there = combine([self.first, *(it.data for it in part[:half])]).line
            part = part[:half] if is_there else part[half:]
        (marks,) = part
        return marks.number, marks.fault or self.told_bad(marks) or self.told_other(marks)

    def told_bad(self, marks: Marks) -> Optional[Fault]:
        """What is bad in marks by themselves."""
        line = combine([marks.data]).line
        if not line:
            return None
        front, _, offset = line.rpartition(" ")
        why = bad_marks(line, marks.data, ["combine"]) if marks.data else ["the file is empty"]
        said = "the bytes there are no marks file, or one that is cut short or damaged: docs/MARKS.md"
        return Fault(marks.name, f"{front} {marks.at + int(offset)}: {said}", BAD_MARKS, in_lines(why))

    def told_other(self, marks: Marks) -> Fault:
        """In what the table of marks is another than that of the first."""
        line = combine([self.first, marks.data]).line
        said = f"the marks are of other modules than those of {self.name}, or of another assembly of them: docs/MARKS.md"
        return Fault(marks.name, f"{line}: {said}", OTHER_TABLE, in_lines(other_table(line, ["combine"])))

    def end(self, unions: Sequence[bytes]) -> bytes:
        """The union of the first marks and of all threads' unions; or the first fault is raised."""
        if self.faults:
            raise self.faults[min(self.faults)]
        union = self.first
        for it in unions:
            answer = combine([union, it])
            if answer.line:
                raise Fault(PROGRAM, f"doesn't take what it has written: {answer.line}")
            union = answer.union
        return union


def in_lines(said: Sequence[str]) -> str:
    """What is said, each in a line of standard error."""
    return "\n".join(f"coverage: {it}" for it in said)


# On the terminal

class Progress:
    """A line on the terminal that is written anew, and taken away in the end."""

    def __init__(self, files: Files) -> None:
        self.files = files
        self.began, self.since = time.monotonic(), time.strftime("%H:%M:%S")
        self.is_there = False

    def tell(self) -> None:
        """Says how many files are begun, once some time has passed."""
        spent = int(time.monotonic() - self.began)
        if spent >= QUIET:
            count = f"{self.files.count} of {len(self.files.names)} files"
            self.write(f"\r\x1b[K\x1b[?7lcoverage: union, {spent // 60}:{spent % 60:02} since {self.since}; {count}\x1b[?7h")
            self.is_there = True

    def end(self) -> None:
        """Takes the line away."""
        if self.is_there:
            self.write("\r\x1b[K")

    def write(self, text: str) -> None:
        """Writes to standard error, where that is the terminal of a call that has it."""
        with contextlib.suppress(OSError, ValueError, AttributeError):
            if sys.stderr.isatty() and not in_background():
                print(text, end="", file=sys.stderr, flush=True)


def in_background() -> bool:
    """Whether the terminal is another job's, as that of a shell which has this one in the background."""
    try:
        return os.tcgetpgrp(2) != os.getpgrp()
    except OSError:
        return False


def unite(names: Sequence[str], threads: int) -> bytes:
    """The union of all files."""
    files = Files(names, threads)
    uniting, progress = Uniting(files), Progress(files)
    uniting.begin()
    try:
        with ThreadPoolExecutor(threads) as pool:
            try:
                found = [uniting.begun, *(files.read() for _ in range(threads - 1))]
                works = [pool.submit(uniting.work, it) for it in found]
                while wait(works, STEP).not_done:
                    progress.tell()
            except RuntimeError as error:
                files.is_over = True
                raise Fault("union", str(error), NO_MEMORY) from None
            except KeyboardInterrupt:
                # A thread may wait for a pipe, and can't be told not to.
                progress.end()
                os._exit(INTERRUPTED)
        return uniting.end([it.result() for it in works])
    finally:
        progress.end()


def main(words: list[str]) -> None:
    call = read_call(words)
    names = call.names()
    if not names:
        raise Fault(call.sources[0][0], "names no file")
    write_output(unite(names, call.processes))
