"""Scripts and tests as mypy, for README's lowest Python, pyflakes and shellcheck (Debian's packages) read them."""
from __future__ import annotations

import ast
import os
import re
import shutil

from fixtures.harness import TOP, Tally, folder, run, run_checks

TYPES = (
    "mypy", "--disallow-untyped-defs", "--warn-unused-ignores", "--scripts-are-modules",
    "--namespace-packages", "--explicit-package-bases", "--no-error-summary",
)


def text_of(path: str) -> str:
    with open(path, encoding="utf-8", errors="replace") as file:
        return file.read()


def files(first: str, *suffixes: str) -> list[str]:
    """The checkout's files with a suffix, and those whose first line is such a command's."""
    found = []
    for room in ("", ".ci", "examples", "scripts", "tests"):
        for at, rooms, names in os.walk(f"{TOP}/{room}"):
            rooms[:] = [] if not room else sorted(it for it in rooms if it not in ("rows", "__pycache__"))
            paths = [f"{at}/{it}" for it in sorted(names) if os.path.isfile(f"{at}/{it}")]
            found += [os.path.relpath(it, TOP) for it in paths if it.endswith(suffixes) or re.match(f"#!.*{first}", text_of(it))]
    return found


def lowest() -> str:
    """The lowest Python by README."""
    found = re.search(r"Python (\d\.\d+) or later", text_of(f"{TOP}/README.md"))
    assert found, "README names no Python"
    return found[1]


def says_nothing(*words: str) -> None:
    ran = run([*words], env={**os.environ, "MYPYPATH": f"{TOP}/scripts:{TOP}/tests"})
    assert not ran.status and not ran.output and not ran.error, f"status {ran.status}\n{ran.output.decode()}{ran.error}"


def syntax() -> None:
    """python: scripts and tests have the syntax of the lowest version"""
    version = tuple(map(int, lowest().split(".")))
    found = files("python3", ".py")
    assert len(found) > 80, found
    for it in found:
        ast.parse(text_of(f"{TOP}/{it}"), it, feature_version=(version[0], version[1]))


def types() -> None:
    """mypy: types of scripts and tests, and what the library of the lowest version has"""
    with folder() as at:
        says_nothing(*TYPES, "--python-version", lowest(), "--cache-dir", at, *files("python3", ".py"))


def names() -> None:
    """pyflakes: names that are unknown or unused"""
    says_nothing("pyflakes3", *files("python3", ".py"))


def shell() -> None:
    """shellcheck: the command, what it reads, and the examples in bash"""
    says_nothing("shellcheck", "-s", "bash", *files("(bash|/sh)", ".bash"))


CHECKS = [syntax]


def run_all(tally: Tally) -> None:
    """Runs what is installed."""
    for name, check in (("mypy", types), ("pyflakes3", names), ("shellcheck", shell)):
        if shutil.which(name):
            run_checks(tally, [check])
        else:
            tally.left_out.append(f"{name} isn't installed")
