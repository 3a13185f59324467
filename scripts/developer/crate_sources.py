"""The crates below the program, their sources, and the checksums of these."""
from __future__ import annotations

import hashlib
import os
from typing import Sequence

from common.command import TOP

TOP_CRATE = "coverage_program"


def rows(top: str = TOP) -> dict[str, str]:
    """The line of crates.txt of each crate."""
    found: dict[str, str] = {}
    with open(f"{top}/crates.txt", encoding="utf-8") as file:
        for line in file:
            said, colon, _ = line.split("#")[0].partition(":")
            if colon and said.split():
                found[said.split()[0]] = line.rstrip("\n") + "\n"
    return found


def crates(*names: str, top: str = TOP) -> dict[str, list[str]]:
    """These crates, or the program's, and those below them, each behind those that it stands on, with all of these."""
    lines = rows(top)
    below: dict[str, list[str]] = {}

    def visit(name: str) -> None:
        own: list[str] = []
        for it in lines[name].split("#")[0].partition(":")[2].split():
            if it in lines:
                if it not in below:
                    visit(it)
                own += [other for other in (*below[it], it) if other not in own]
        below[name] = own

    for name in names or (TOP_CRATE,):
        visit(name)
    return below


def sources(*tops: str) -> list[str]:
    """Whatever a build of these crates, or of the program, reads: sources, definitions and proofs, and the lists at the top."""
    found = [f"{TOP}/crates.txt", f"{TOP}/HANDLES"]
    for crate in crates(*tops):
        for part in ("src", "specs", "proofs"):
            for folder, _, files in os.walk(f"{TOP}/crates/{crate}/{part}"):
                found += [f"{folder}/{it}" for it in files if it.endswith((".rt", ".antt"))]
    return sorted(found)


def sum_of(path: str) -> str:
    """The checksum of a file."""
    with open(path, "rb") as file:
        return hashlib.sha256(file.read()).hexdigest()


def sum_of_files(files: Sequence[str], top: str) -> str:
    """One checksum over the names and the texts of files below a folder."""
    whole = hashlib.sha256()
    for path in files:
        whole.update(f"{os.path.relpath(path, top)} {sum_of(path)}\n".encode())
    return whole.hexdigest()


def sum_of_sources() -> str:
    """One checksum over the names and the texts of all sources."""
    return sum_of_files(sources(), TOP)
