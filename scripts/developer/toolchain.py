"""One call of the toolchain: its lines as they come, and its end."""
from __future__ import annotations

import contextlib
import ctypes
import os
import select
import signal
import subprocess
import time
from typing import Iterator, Sequence

# The longest time between two looks at the lines, in seconds.
LOOK = 1.0
# How long they have to end, in seconds, once they were told to.
PATIENCE = 10.0
DIES_WITH_PARENT = 1


def of_session(session: int) -> Iterator[int]:
    """The numbers of a session's processes."""
    for name in filter(str.isdigit, os.listdir("/proc")):
        with contextlib.suppress(OSError, ValueError, IndexError), open(f"/proc/{name}/stat", encoding="utf-8") as file:
            words = file.read().rpartition(")")[2].split()
            if words[0] != "Z" and int(words[3]) == session:
                yield int(name)


class Call:
    """A call in a session of its own, so that a signal reaches it by this script alone. It ends with this script, also
    where that is killed."""

    # Those that haven't been ended.
    alive: list[Call] = []

    def __init__(self, words: Sequence[str], folder: str) -> None:
        libc, parent = ctypes.CDLL(None), os.getpid()

        def begin() -> None:
            libc.prctl(DIES_WITH_PARENT, signal.SIGTERM)
            if os.getppid() != parent:
                os._exit(1)

        # It is to write its lines as they come, and not a block at a time.
        env = {**os.environ, "PYTHONUNBUFFERED": "1"}
        self.process = subprocess.Popen(
            words, stdin=subprocess.DEVNULL, stdout=subprocess.PIPE, stderr=subprocess.STDOUT,
            start_new_session=True, cwd=folder, env=env, preexec_fn=begin,
        )
        if signal.getsignal(signal.SIGTSTP) is signal.SIG_DFL:
            signal.signal(signal.SIGTSTP, self.pause)
        self.alive.append(self)

    def lines(self) -> Iterator[list[str]]:
        """The lines that came since the last look, each second or sooner, until it has ended."""
        assert self.process.stdout
        pipe, rest = self.process.stdout.fileno(), b""
        while True:
            has_more = select.select([pipe], [], [], LOOK)[0]
            found = os.read(pipe, 65536) if has_more else b""
            *whole, rest = (rest + found).split(b"\n")
            is_last = bool(has_more) and not found
            yield [it.decode(errors="replace") for it in ([*whole, rest] if is_last and rest else whole)]
            if is_last:
                self.process.wait()
                return

    def pause(self, _number: int, _frame: object) -> None:
        """Stops with all that is at work, and goes on with it, as a terminal's Ctrl-Z asks."""
        self.tell_all(signal.SIGTSTP)
        os.kill(os.getpid(), signal.SIGSTOP)
        self.tell_all(signal.SIGCONT)

    def tell_all(self, number: int) -> None:
        for it in self.alive:
            with contextlib.suppress(ProcessLookupError):
                it.process.send_signal(number)

    def end(self) -> None:
        """Ends it with all that it has started, and waits until these are gone."""
        if self in self.alive:
            self.alive.remove(self)
        for number in (signal.SIGTERM, signal.SIGKILL):
            with contextlib.suppress(ProcessLookupError):
                self.process.send_signal(number)
            until = time.monotonic() + PATIENCE
            while time.monotonic() < until:
                rest = list(of_session(self.process.pid))
                if self.process.poll() is not None and not rest:
                    return
                if number == signal.SIGKILL:
                    for it in rest:
                        with contextlib.suppress(ProcessLookupError):
                            os.kill(it, number)
                time.sleep(0.05)
