"""The build: its progress, its lock, and what a build that was cut off leaves, with a toolchain that only pretends."""
from __future__ import annotations

import contextlib
import os
import pty
import shutil
import signal
import subprocess
import sys
import time
from concurrent import futures
from typing import Callable, Iterator

from fixtures.harness import SECONDS, TOP, equal, folder, interruptible

# It notes each call, refuses a folder that is the top of no repository, proves the crates of its list in order, each once
# a file `hold-CRATE` or `hold` at the top is gone, and makes a program that tells its words. What it has proved it keeps,
# by the crate's text.
RT = """#!/usr/bin/env bash
[ "$1" = version ] && { echo 'pretended-kit logic 0123456789abcdef'; exit; }
echo "$*" >> "$TEST_TOP/calls"
echo $$ >> "$TEST_TOP/processes"
[ -d .git ] || { echo 'rt: crates.txt stands below the top of its repository'; exit 2; }
while IFS=: read -r crate _; do
  text=$(cat crates/$crate/src/*) kept=$TEST_TOP/kept-$crate
  [ "$(cat "$kept" 2>/dev/null)" = "$text" ] && { echo "rt: $crate is kept: an earlier run proved the same"; continue; }
  echo $crate > "$TEST_TOP/begun-$crate"
  while [ -e "$TEST_TOP/hold" ] || [ -e "$TEST_TOP/hold-$crate" ]; do sleep 0.1; done
  echo "== $crate"
  { [ -e "$TEST_TOP/fail" ] || [ -e "$TEST_TOP/fail-$crate" ]; } &&
    { echo "a goal of $crate is open"; echo "rt: $crate NOT PROVED"; echo "== other"; sleep 300; }
  echo "$crate $text" >> "$TEST_TOP/proofs"
  printf '%s' "$text" > "$kept"
  echo "rt: $crate proved"
done < crates.txt
[ -e "$TEST_TOP/fail-run" ] && { printf 'rt: FAILED: coverage_program (run), cut'; exit 1; }
mkdir -p crates/coverage_program/out
program=crates/coverage_program/out/coverage_program
printf '#!/bin/sh\necho "%s: $*"\ncat\nexit 77\n' "$(cat crates/coverage_program/src/main.rt)" > $program
chmod +x $program
echo "rt: ok"
"""
LIBRARY, PROGRAM = "proved low, 1 of 2", "proved coverage_program, 2 of 2"
# How long the first build takes, wherever it is said.
HOW_LONG = "a quarter of an hour or so on four processors"


class Copy:
    """A copy of the scripts over some crates, with the pretended toolchain first on the path.

    `listed` is the list of crates; all sources say "one".
    """

    def __init__(self, at: str, listed: str = "coverage_program: low arrayvec\nlow:\n") -> None:
        self.at = at
        shutil.copy(f"{TOP}/coverage", at)
        shutil.copytree(f"{TOP}/scripts", f"{at}/scripts")
        for crate in [line.partition(":")[0] for line in listed.splitlines()]:
            os.makedirs(f"{at}/crates/{crate}/src")
            self.write(f"crates/{crate}/src/{'main' if crate == 'coverage_program' else 'lib'}.rt", "one")
        self.write("crates.txt", listed)
        self.write("HANDLES", "none\n")
        for name in (".git", "bin", "tmp"):
            os.mkdir(f"{at}/{name}")
        self.write("bin/rt", RT)
        os.chmod(f"{at}/bin/rt", 0o755)
        # There the rooms lie, and so what a killed build leaves goes with the copy.
        self.env = {**os.environ, "PATH": f"{at}/bin:{os.environ['PATH']}", "TEST_TOP": at, "TMPDIR": f"{at}/tmp"}

    def write(self, name: str, text: str) -> None:
        with open(f"{self.at}/{name}", "w", encoding="utf-8") as file:
            file.write(text)

    def lines(self, name: str) -> list[str]:
        """The lines of a file; none where there is none."""
        if not os.path.exists(f"{self.at}/{name}"):
            return []
        with open(f"{self.at}/{name}", encoding="utf-8") as file:
            return file.read().splitlines()

    def calls(self) -> list[str]:
        """The calls of the toolchain so far."""
        return self.lines("calls")

    def start(self, *words: str) -> subprocess.Popen[str]:
        pipe, call = subprocess.PIPE, [f"{self.at}/coverage", *words]
        return subprocess.Popen(call, stdin=pipe, stdout=pipe, stderr=pipe, text=True, start_new_session=True, env=self.env)

    def hold(self) -> subprocess.Popen[str]:
        """A build that waits with its first call."""
        self.write("hold", "")
        started = self.start("run")
        wait_for(lambda: self.lines("begun-low"))
        return started

    def let_go(self) -> None:
        os.remove(f"{self.at}/hold")

    def run(self, *words: str) -> tuple[int, str, str]:
        return ended(self.start(*words))

    def is_built(self) -> bool:
        return os.path.exists(f"{self.at}/out/built")

    def rooms(self) -> list[str]:
        """The copies of crates that stand; none may be within a checkout."""
        equal(os.listdir(f"{self.at}/.git"), [])
        return os.listdir(f"{self.at}/tmp")

    def count_python(self) -> Callable[[], int]:
        """Has a python3 first on the path that notes each start; what it returns tells how many began since last asked."""
        real = shutil.which("python3")
        self.write("bin/python3", f'#!/bin/sh\necho >> {self.at}/starts\nexec {real} "$@"\n')
        os.chmod(f"{self.at}/bin/python3", 0o755)

        def since() -> int:
            with open(f"{self.at}/starts", "a+", encoding="utf-8") as file:
                file.seek(0)
                found = len(file.readlines())
                file.truncate(0)
            return found

        return since


def all_ended(it: Copy) -> bool:
    """Whether no process of the pretended toolchain runs any more."""
    return not [number for number in it.lines("processes") if os.path.exists(f"/proc/{number}")]


def ended(started: subprocess.Popen[str]) -> tuple[int, str, str]:
    output, error = started.communicate("input\n", SECONDS)
    return started.returncode, output, error


def wait_for(what: Callable[[], object]) -> None:
    """Waits until the call answers true."""
    for _ in range(SECONDS * 20):
        if what():
            return
        time.sleep(0.05)
    raise AssertionError("nothing came of it")


@contextlib.contextmanager
def copy(*listed: str) -> Iterator[Copy]:
    with folder() as at:
        yield Copy(at, *listed)


def builds_once() -> None:
    """build: each crate once, in order, told on standard error; then again only where a source has changed"""
    with copy() as it:
        status, output, error = it.run("marks", "S")
        equal((status, output), (77, "one: marks S\ninput\n"))
        assert "./coverage try COMMAND .. answers within a minute or so, without proof" in error.splitlines()[0], error
        assert error.index(LIBRARY) < error.index(PROGRAM) < error.index("built: 2 crates"), error
        equal((it.calls(), it.lines("proofs")), (["ci"], ["low one", "coverage_program one"]))
        equal(it.lines("out/log"), ["== low", "rt: low proved", "== coverage_program", "rt: coverage_program proved", "rt: ok"])
        equal(it.run("table"), (77, "one: table\ninput\n", ""))
        equal(it.run("runs"), (77, "one: runs\ninput\n", ""))
        it.write("crates/coverage_program/src/main.rt", "two")
        equal(it.run("run")[:2], (77, "two: run\ninput\n"))
        equal((len(it.calls()), it.lines("proofs")[2:]), (2, ["coverage_program two"]))
        os.remove(f"{it.at}/crates/low/src/lib.rt")
        it.run("run")
        equal(len(it.calls()), 3)


def how_long() -> None:
    """build: standard error, the help and the documents say the same of how long the first one takes"""
    with copy() as it:
        said = [it.run("run")[2], it.run("--help")[1]]
    for name in ("README.md", "docs/CHANGING.md"):
        with open(f"{TOP}/{name}", encoding="utf-8") as file:
            said.append(file.read())
    equal([HOW_LONG in it.replace("\n", " ") for it in said], [True] * len(said))


def needs_no_build() -> None:
    """build: help, the scripts and what is no command need no program"""
    with copy() as it:
        status, output, error = it.run()
        equal((status, error), (1, ""))
        equal(it.run("--help"), (0, output, ""))
        assert output.startswith("usage: coverage run < JOB > REPORT\n"), output
        equal(it.run("page")[0], 2)
        for word in ("runs", "help", "-h", "RUN"):
            status, output, error = it.run(word)
            equal((status, output, error.splitlines()[0]), (1, "", f"coverage: {word} is no command: ./coverage alone says which there are"))
        equal(it.calls(), [])
        assert not os.path.exists(f"{it.at}/out")


def fails() -> None:
    """build: a crate that isn't proved ends it with 70, with the toolchain's lines, and leaves no program"""
    with copy() as it:
        it.run("run")
        it.write("crates/low/src/lib.rt", "two")
        it.write("fail", "")
        status, output, error = it.run("run")
        equal((status, output), (70, ""))
        lines = error.splitlines()
        equal(lines[lines.index(f"coverage: the build of low failed; the last lines in {it.at}/out/log:"):][1:],
              ["== low", "a goal of low is open", "rt: low NOT PROVED"])
        assert not it.is_built() and all_ended(it) and not it.rooms(), error
        os.remove(f"{it.at}/fail")
        it.write("fail-run", "")
        status, output, error = it.run("run")
        equal((status, output), (70, ""))
        shown = error[error.index("/out/log:\n"):].splitlines()
        equal((shown[1:3], shown[-1]), (["== low", "rt: low proved"], "rt: FAILED: coverage_program (run), cut"))
        assert not it.is_built()
        os.remove(f"{it.at}/fail-run")
        equal(it.run("run")[0], 77)


def no_toolchain() -> None:
    """build: without a toolchain it ends with 70, and says so"""
    with copy() as it:
        os.remove(f"{it.at}/bin/rt")
        os.symlink("/usr/bin/env", f"{it.at}/bin/env")
        for tool in ("bash", "python3", "dirname", "readlink"):
            os.symlink(os.path.realpath(shutil.which(tool) or tool), f"{it.at}/bin/{tool}")
        it.env["PATH"] = f"{it.at}/bin"
        status, _, error = it.run("run")
        equal(status, 70)
        assert "rt isn't found" in error, error


def is_interrupted() -> None:
    """build: one that is cut off, by a signal or killed, leaves nothing that is taken for a program"""
    for number, status in ((signal.SIGINT, 130), (signal.SIGTERM, None), (signal.SIGKILL, None)):
        with copy() as it, interruptible():
            started = it.hold()
            os.killpg(started.pid, number)
            had, output, _ = ended(started)
            assert had != 0 and (status is None or had in (status, -number)), had
            equal((output, it.is_built()), ("", False))
            it.let_go()
            equal(it.run("run")[:2], (77, "one: run\ninput\n"))


def half_a_program() -> None:
    """build: a program without its note, or another than its note says, is built again"""
    with copy() as it:
        it.run("run")
        it.write("out/coverage_program", "#!/bin/sh\necho wrong\n")
        equal(it.run("run")[:2], (77, "one: run\ninput\n"))
        os.remove(f"{it.at}/out/built")
        equal(it.run("run")[:2], (77, "one: run\ninput\n"))
        equal((len(it.calls()), len(it.lines("proofs"))), (3, 2))


def waits() -> None:
    """build: a second one waits, says so, and takes what the first has built"""
    with copy() as it:
        first = it.hold()
        second = it.start("table")
        seen = second.stderr.readline() if second.stderr else ""
        assert "another build runs in this copy" in seen, seen
        it.let_go()
        equal(ended(first)[:2], (77, "one: run\ninput\n"))
        equal(ended(second), (77, "one: table\ninput\n", ""))
        equal(len(it.calls()), 1)


def changes_meanwhile() -> None:
    """build: sources that change while they are built make no program"""
    with copy() as it:
        started = it.hold()
        it.write("crates/low/src/lib.rt", "two")
        it.let_go()
        status, _, error = ended(started)
        equal((status, it.is_built()), (70, False))
        assert "changed" in error, error


def no_standard_error() -> None:
    """build: without a standard error it is silent, and says nothing on standard output"""
    with copy() as it:
        os.symlink(sys.executable, f"{it.at}/bin/python3")
        silent, pipe, call = subprocess.DEVNULL, subprocess.PIPE, ["bash", "-c", 'exec "$0" run 2>&-', f"{it.at}/coverage"]
        ran = subprocess.run(call, stdin=silent, stdout=pipe, text=True, check=False, timeout=SECONDS, env=it.env)
        equal((ran.returncode, ran.stdout), (77, "one: run\n"))


def on_terminal() -> None:
    """build: on a terminal the progress is one line that is written anew, cut at its edge; other lines take its place"""
    with copy() as it:
        it.write("bin/rt", RT.replace('echo "== $crate"', 'echo "rt: $crate: another run proves the same; waiting for it"\n'))
        master, slave = pty.openpty()
        pipe = subprocess.PIPE
        it.write("hold", "")
        started = subprocess.Popen([f"{it.at}/coverage", "run"], stdin=subprocess.DEVNULL, stdout=pipe, stderr=slave, env=it.env)
        os.close(slave)
        wait_for(lambda: it.lines("begun-low"))
        time.sleep(2.5)
        it.let_go()
        started.communicate(timeout=SECONDS)
        seen = b""
        with contextlib.suppress(OSError):
            while data := os.read(master, 4096):
                seen += data
        os.close(master)
        lines = seen.decode().split("\n")
        progress = [part for line in lines for part in line.split("\r") if "0 of 2 crates proved, 0:0" in part]
        assert len(progress) >= 2 and all(part.startswith("\x1b[K\x1b[?7lcoverage: ") and "\x1b[?7h" in part for part in progress), seen
        others = [line.rpartition("\x1b[?7h")[::2] for line in lines if "another run" in line or "built: " in line]
        equal([it[:14] for _, it in others], ["coverage: low:", "coverage: cove", "coverage: buil"])
        assert all(before.endswith("\r\x1b[K\x1b[?7l") for before, _ in others), seen


def is_kept() -> None:
    """build: what the gate has proved is kept for the command, for the same sources alone"""
    with copy() as it:
        words = ["python3", "-I", "-B", f"{it.at}/scripts", "build"]

        def call(*more: str) -> subprocess.CompletedProcess[str]:
            return subprocess.run([*words, *more], capture_output=True, text=True, env=it.env, check=False)

        of_sources = call("sources").stdout.strip()
        equal(call("keep", of_sources).returncode, 70)
        os.makedirs(f"{it.at}/crates/coverage_program/out")
        it.write("crates/coverage_program/out/coverage_program", "#!/bin/sh\necho kept\n")
        equal(call("keep", "0" * 64).returncode, 70)
        equal(it.is_built(), False)
        equal(call("keep", of_sources).returncode, 0)
        equal(it.run("run"), (0, "kept\n", ""))
        equal(it.calls(), [])


SOURCE, MADE = "crates/low/src/lib.rt", "out/coverage_program"


def change_alike(it: Copy) -> None:
    """Another text of the same size and time."""
    was = os.stat(f"{it.at}/{SOURCE}")
    it.write(SOURCE, "eno")
    os.utime(f"{it.at}/{SOURCE}", ns=(was.st_atime_ns, was.st_mtime_ns))


def remove(*names: str) -> Callable[[Copy], None]:
    def change(it: Copy) -> None:
        for name in names:
            os.remove(f"{it.at}/{name}")
    return change


# What is done to a copy that is built, and whether the crates are then built anew.
CHANGES: list[tuple[str, Callable[[Copy], None], bool]] = [
    ("nothing", lambda it: None, False),
    ("the same size and time", change_alike, True),
    ("a file more", lambda it: it.write("crates/low/src/more.rt", "more"), True),
    ("a file less", remove(SOURCE), True),
    ("the list of crates", lambda it: it.write("crates.txt", "coverage_program: low\nlow:\n"), True),
    ("the handles", lambda it: it.write("HANDLES", "some\n"), True),
    ("another program", lambda it: it.write(MADE, "#!/bin/sh\nexit 0\n"), True),
    ("no program", remove(MADE), True),
    ("no note", remove("out/built"), True),
    ("neither", remove(MADE, "out/built"), True),
    ("another time alone", lambda it: os.utime(f"{it.at}/{SOURCE}"), False),
]


def is_seen() -> None:
    """build: where nothing has changed a call starts no Python; a change is seen, also one of the same size and time"""
    well = (77, "one: run\ninput\n", "")

    def one(row: tuple[str, Callable[[Copy], None], bool]) -> None:
        name, change, is_anew = row
        with copy() as it:
            starts = it.count_python()
            it.run("run")
            # What it has seen is noted where all that was changed last more than a second before.
            time.sleep(2.1)
            equal((name, it.run("run"), starts()), (name, well, 2))
            equal((name, it.run("run"), it.run("runs"), starts()), (name, well, (77, "one: runs\ninput\n", ""), 0))
            change(it)
            equal((name, it.run("run")[:2], len(it.calls())), (name, well[:2], 2 if is_anew else 1))
            equal((name, starts()), (name, 0 if name == "nothing" else 1))

    with futures.ThreadPoolExecutor(len(CHANGES)) as pool:
        for _ in pool.map(one, CHANGES):
            pass


def is_seen_at_once() -> None:
    """build: a source that is changed right behind a build, at the same size, is seen, however soon"""
    with copy() as it:
        it.run("run")
        for number in range(10):
            it.write("crates/coverage_program/src/main.rt", f"{number} x")
            equal(it.run("run")[1], f"{number} x: run\ninput\n")


CHECKS = [
    is_seen, is_seen_at_once, builds_once, how_long, needs_no_build, fails, no_toolchain, is_interrupted, half_a_program,
    waits, changes_meanwhile, no_standard_error, on_terminal, is_kept,
]
