"""What the scripts share: how they refuse input, read it, and write their output whole or not at all."""
from __future__ import annotations

import contextlib
import itertools
import os
import signal
import sys
from types import ModuleType
from typing import Callable, Iterator, Optional, Sequence

from common.commands import COMMANDS, usage_of

USAGE, BAD_INPUT, READ_FAULT, WRITE_FAULT, NO_MEMORY, INTERRUPTED = 1, 2, 5, 6, 7, 130
# What a checkout or an installed copy has: the folder in which scripts stands; and how the command is called there.
TOP = os.path.realpath(f"{os.path.dirname(os.path.realpath(__file__))}/../..")
CALLED = "./coverage" if os.path.exists(f"{TOP}/crates.txt") else "coverage"


class Fault(Exception):
    """Why a command ends: a place (a file and what of it), what is wrong there, the exit status, and lines that tell more."""

    def __init__(self, place: str, what: str, status: int = BAD_INPUT, lines: str = "") -> None:
        super().__init__(one_line(f"{place}: {what}") + (lines and f"\n{lines}"))
        self.status = status


def one_line(text: str) -> str:
    """A text as one line: what isn't printable, as a file's name may have it, is escaped."""
    return "".join(it if it.isprintable() else it.encode("unicode_escape").decode("ascii") for it in text)


def read_file(path: str) -> bytes:
    """The bytes of a file; of standard input where the path is '-'."""
    if path == "-":
        return read_input()
    try:
        with open(path, "rb") as file:
            return file.read()
    except (OSError, ValueError) as error:
        raise Fault(path, reason(error)) from None


def read_input(most: int = -1) -> bytes:
    """The bytes of standard input, and at most so many where a number is given."""
    try:
        if sys.stdin is None:
            raise Fault("standard input", "is closed", READ_FAULT)
        tell_terminal()
        return sys.stdin.buffer.read(most)
    except OSError as error:
        raise Fault("standard input", reason(error), READ_FAULT) from None


def tell_terminal() -> None:
    """Says that a terminal is read from, which looks as if nothing went on."""
    if sys.stdin.isatty():
        name = sys.argv[1]
        complain(f"coverage: {name} reads standard input, which is the terminal here: {CALLED} {name} --help says what it reads")


def write_output(data: bytes) -> None:
    """Writes all of standard output."""
    try:
        if sys.stdout is None:
            raise Fault("standard output", "is closed", WRITE_FAULT)
        sys.stdout.buffer.write(data)
        sys.stdout.buffer.flush()
    except OSError as error:
        drop_output()
        raise Fault("standard output", reason(error), WRITE_FAULT) from None


def drop_output() -> None:
    """Turns standard output away, so that what it still holds makes no second fault as Python ends."""
    nothing = os.open(os.devnull, os.O_WRONLY)
    os.dup2(nothing, sys.stdout.fileno())
    os.close(nothing)


def write_file(path: str, data: bytes) -> None:
    """Writes a file."""
    with writing(path), open(path, "wb") as file:
        file.write(data)


@contextlib.contextmanager
def writing(path: str) -> Iterator[None]:
    """Turns the system's refusal of a change there into a fault."""
    try:
        yield
    except OSError as error:
        raise Fault(path, reason(error), WRITE_FAULT) from None


def write_beside(path: str, data: bytes, mode: Optional[int] = None) -> str:
    """Writes a new file in the folder of another, which it is to replace, and answers its path; what it hasn't written whole it
    takes away. The name is of no file that is there."""
    for count in itertools.count():
        room = f"{path}.{os.getpid()}.{count}"
        with contextlib.suppress(FileExistsError):
            number = os.open(room, os.O_WRONLY | os.O_CREAT | os.O_EXCL, 0o666)
            break
    try:
        with open(number, "wb") as file:
            file.write(data)
            if mode is not None:
                os.fchmod(number, mode)
    except BaseException:
        os.remove(room)
        raise
    return room


def reason(error: Exception) -> str:
    """The system's words for a fault."""
    return getattr(error, "strerror", None) or str(error)


def run(name: str, load: Callable[[], ModuleType], words: list[str]) -> int:
    """Runs a command, whose module is loaded first, on its words, and answers the exit status: 0, or that which its main answers.
    `--help` prints its usage and what the module tells below it; main raises `UsageError` if the words are not the command's."""
    told = ""
    try:
        try:
            module = load()
        except (ImportError, OSError, SyntaxError, SystemError) as error:
            # Python ends by any of them where memory is wanting.
            raise Fault("its script", f"could not be loaded, probably for want of memory: {error}", NO_MEMORY) from None
        # The front has blocked it, so that Python's own start and what it loads are not interrupted.
        signal.pthread_sigmask(signal.SIG_UNBLOCK, {signal.SIGINT})
        told = module.HELP
        if words != ["--help"]:
            return module.main(words) or 0
        write_output(f"{usage_of(name)}\n{told}".encode())
        return 0
    except KeyboardInterrupt:
        return INTERRUPTED
    except UsageError as error:
        more = f"{CALLED} {name} --help says which words it has"
        said = [one_line(f"coverage: {error}: {more}")] if error.args else [f"{usage_of(name)}\n{told}".rstrip("\n")]
        complain("\n".join([*said, *map(one_line, call_meant(name, words))]))
        return USAGE
    except Fault as fault:
        complain(f"coverage: {fault}")
        return fault.status
    except MemoryError:
        pass
    # By here what the command had is given back.
    complain("coverage: there was too little memory for it")
    return NO_MEMORY


class UsageError(Exception):
    """The words are not those of the command; where it says why, that is told in place of the usage."""


def take_options(name: str, words: list[str]) -> tuple[dict[str, str], list[str]]:
    """The options of a command among its words, each once at most and before all other words, with their values; and the words
    that are left."""
    options = COMMANDS[name].options
    if not any(it.startswith("-") for it in words):
        return {}, words
    # It takes longer to import than Python to start, and most calls have no option.
    import argparse

    class Once(argparse.Action):
        """Notes an option's value."""

        def __call__(self, parser: object, found: argparse.Namespace, value: object, option: Optional[str] = None) -> None:
            if option in vars(found) or value is None:
                raise UsageError(f"{option} {'lacks the word behind it' if value is None else 'stands twice'}")
            setattr(found, str(option), value or "")

    parser = argparse.ArgumentParser(add_help=False, allow_abbrev=False, exit_on_error=False)
    for it, value in options.items():
        parser.add_argument(it, action=Once, nargs="?" if value else 0, default=argparse.SUPPRESS)
    parser.add_argument("left", nargs=argparse.REMAINDER)
    try:
        given, others = parser.parse_known_args(words)
    except argparse.ArgumentError as error:
        raise UsageError(f"{error.argument_name} takes no value behind =") from None
    found = vars(given)
    left = [*others, *found.pop("left")]
    for it in left:
        if it.startswith("--") and it in others or it == left[0] == "--":
            raise UsageError(f"{it} is none of its options")
        if it.partition("=")[0] in options:
            raise UsageError(f"{it} stands behind {left[0]}, and not before it")
    return found, left


def take_word(words: list[str], valued: Sequence[str]) -> str:
    """Takes the first word. Where that is an option with its value, as --leave-out=FILE, the value is the next then."""
    option, equals, value = words.pop(0).partition("=")
    if option in valued and equals:
        words.insert(0, value)
        return option
    return option + equals + value


def refuse_more(words: list[str], most: int = 0) -> None:
    """Refuses a word behind so many."""
    if len(words) > most:
        raise UsageError(f"{words[most]} is a word too many")


def call_meant(name: str, words: list[str]) -> list[str]:
    """A line with the call that was meant, where the last word is a file, and all before it are those of a command that wants
    one on standard input."""
    call, reads, _ = COMMANDS[name].calls[0].partition(" < ")
    if not reads or not words or not os.path.isfile(words[-1]):
        return []
    try:
        _, left = take_options(name, words[:-1])
    except UsageError:
        return []
    if len(left) != len(call.replace("OPTIONS", "").split()):
        return []
    return [f"coverage: did you mean {CALLED} {' '.join([name, *words[:-1]])} < {words[-1]} ?"]


def complain(text: str) -> None:
    """Writes to standard error, where there is one."""
    # Python prints to standard output where there is none.
    if sys.stderr is not None:
        try:
            print(text, file=sys.stderr, flush=True)
        except (OSError, ValueError):
            # What it still holds would else make a second fault, with a status of its own, as Python ends.
            sys.stderr = open(os.devnull, "w", encoding="ascii")
