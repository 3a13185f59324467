"""Puts the proved program, the scripts and the documents under a folder, where they need neither sources nor toolchain.
"""
from __future__ import annotations

import contextlib
import hashlib
import os
import subprocess
from dataclasses import dataclass

from common.command import TOP, Fault, UsageError, read_file, reason, write_beside, write_output, writing
from developer.built import PROGRAM, STAMP, is_built

HELP = """\
Puts the proved program, the scripts, the manual page and the documents under FOLDER, as bin/coverage, lib/coverage,
share/man and share/doc/coverage, and writes the path of each file. What stands there needs neither these sources nor
the toolchain, and FOLDER can be moved and copied. With --uninstall it takes away what an earlier call has put there.

Files are replaced one by one, each whole. Those of an earlier call that are none any more are taken away. A file that
no earlier call has put there is left as it is, and refused. FOLDER/lib/coverage/files lists them all. Where the
variable DESTDIR is set, all of it goes to that folder, followed by FOLDER.

The program must be built of the sources as they stand: else the status is 2, and nothing is put; then ./coverage run
builds it.
"""
LISTED, VERSION = "lib/coverage/files", "lib/coverage/version"
# An installed copy has all scripts but those of a room that is the checkout's alone.
SCRIPTS, IN_CHECKOUT = (".py", ".bash", ".css"), "scripts/developer/"
# What is proved or installed stands in these.
TAKEN = ("HANDLES", "README.md", "coverage", "coverage.1", "crates", "crates.txt", "docs", "examples", "scripts")


@dataclass(frozen=True)
class File:
    """A file as it is to stand: its path below the folder, its bytes, and its mode."""

    place: str
    data: bytes
    mode: int = 0o644


def git(*words: str) -> str:
    """What git says of this checkout."""
    try:
        ran = subprocess.run(["git", "-C", TOP, *words], stdin=subprocess.DEVNULL, capture_output=True, check=False)
    except OSError as error:
        raise Fault("git", reason(error)) from None
    if ran.returncode:
        raise Fault("git", ran.stderr.decode(errors="replace").strip())
    return ran.stdout.decode(errors="replace").strip()


def commit() -> str:
    """The commit at which this checkout stands, and whether what is taken differs from it."""
    if not os.path.lexists(f"{TOP}/.git"):
        return "no commit"
    changes = git("status", "--porcelain", "--untracked-files=all", "--", *TAKEN)
    return f"commit {git('rev-parse', 'HEAD')}{', and changes since' if changes else ''}"


def built() -> tuple[bytes, dict[str, str]]:
    """The program, and what is told of it: the checksums of its sources and of itself, and the toolchain."""
    if not is_built():
        raise Fault(PROGRAM, "isn't built of the sources as they stand: ./coverage run builds it")
    program = read_file(PROGRAM)
    told = dict(it.partition(" ")[::2] for it in read_file(STAMP).decode().splitlines())
    if told.get("program") != hashlib.sha256(program).hexdigest():
        raise Fault(PROGRAM, "has changed meanwhile")
    if not told.get("toolchain"):
        raise Fault(STAMP, "doesn't tell the toolchain: remove it, and ./coverage run builds the program again")
    return program, told


def below(part: str) -> list[str]:
    """The files in a folder of the checkout by their paths from the top, but for hidden ones and what Python keeps."""
    found = []
    for folder, folders, names in os.walk(f"{TOP}/{part}"):
        folders[:] = [it for it in folders if it != "__pycache__"]
        found += [os.path.relpath(f"{folder}/{it}", TOP) for it in names if not it.startswith(".")]
    return sorted(found)


def scripts() -> list[str]:
    """The scripts that an installed copy needs, by their paths from the top."""
    return [it for it in below("scripts") if it.endswith(SCRIPTS) and not it.startswith(IN_CHECKOUT)]


def files() -> list[File]:
    """All that is put, but for the list of it."""
    program, told = built()
    sums = [f"{it} SHA-256 {told[it]}" for it in ("sources", "program")]
    version = [f"coverage, {commit()}", told["toolchain"], *sums, ""]
    found = [
        File("lib/coverage/coverage_program", program, 0o755),
        File(VERSION, "\n".join(version).encode()),
        File("share/man/man1/coverage.1", read_file(f"{TOP}/coverage.1")),
        File("share/doc/coverage/README.md", read_file(f"{TOP}/README.md")),
    ]
    for place in scripts():
        found.append(File(f"lib/coverage/{place}", read_file(f"{TOP}/{place}")))
    for place in [*below("docs"), *below("examples")]:
        found.append(File(f"share/doc/coverage/{place}", read_file(f"{TOP}/{place}")))
    # Last what a user calls.
    return [*found, File("bin/coverage", read_file(f"{TOP}/coverage"), 0o755)]


def listed(at: str) -> list[str]:
    """What an earlier call has put there, by its list."""
    path = f"{at}/{LISTED}"
    if not os.path.lexists(path):
        return []
    places = read_file(path).decode(errors="surrogateescape").splitlines()
    for place in places:
        if os.path.isabs(place) or place != os.path.normpath(place) or place.startswith(".."):
            raise Fault(path, f"no list of what was installed: {place!r}")
    return places


def make_folder(path: str) -> None:
    """Makes the folders down to this one where they are missing, open to all readers whatever the umask is."""
    if os.path.isdir(path):
        return
    make_folder(os.path.dirname(path))
    os.mkdir(path)
    os.chmod(path, 0o755)


def put(at: str, file: File) -> None:
    """Puts a file in its place, whole or not at all."""
    path = f"{at}/{file.place}"
    with writing(path):
        make_folder(os.path.dirname(path))
        room = write_beside(path, file.data, file.mode)
        try:
            os.replace(room, path)
        except BaseException:
            os.remove(room)
            raise


def put_list(at: str, places: set[str]) -> None:
    """Writes the list of what stands there."""
    text = "".join(f"{place}\n" for place in sorted(places))
    put(at, File(LISTED, text.encode(errors="surrogateescape")))


def take_away(at: str, places: set[str]) -> None:
    """Removes files, and then the program's own folders where they are empty."""
    for place in places:
        with writing(f"{at}/{place}"), contextlib.suppress(FileNotFoundError, NotADirectoryError):
            os.remove(f"{at}/{place}")
    folders = {place[:cut] for place in places for cut, it in enumerate(place) if it == "/"}
    for folder in sorted(folders, reverse=True):
        if "coverage" in folder.split("/"):
            with contextlib.suppress(OSError):
                os.rmdir(f"{at}/{folder}")


def install(at: str) -> set[str]:
    """Puts all files there, and takes away those of an earlier call that are none any more."""
    made, before = files(), set(listed(at))
    places = {LISTED, *(it.place for it in made)}
    for place in sorted(places - before):
        if os.path.lexists(f"{at}/{place}"):
            raise Fault(f"{at}/{place}", "stands there, and was not installed by this program")
    # Whatever stands there at any moment is listed.
    put_list(at, places | before)
    for file in made:
        put(at, file)
    take_away(at, before - places)
    put_list(at, places)
    return places


def uninstall(at: str) -> set[str]:
    """Takes away what stands there by the list, and the list last."""
    places = set(listed(at))
    if not places:
        raise Fault(f"{at}/{LISTED}", "isn't there: nothing is installed")
    take_away(at, places - {LISTED})
    take_away(at, {LISTED})
    return places


def main(words: list[str]) -> None:
    is_away = words[:1] == ["--uninstall"]
    folders = words[1:] if is_away else words
    if len(folders) != 1 or not folders[0] or folders[0].startswith("-"):
        raise UsageError
    at, stage = os.path.abspath(folders[0]), os.environ.get("DESTDIR", "")
    if stage:
        at = os.path.abspath(stage) + at
    at = at.rstrip("/")
    places = uninstall(at) if is_away else install(at)
    text = "".join(f"{at}/{place}\n" for place in sorted(places))
    write_output(text.encode(errors="surrogateescape"))
