"""README's commands, as they are written, as recipe_cases has other pages'; and which commands the help and the documents list."""
from __future__ import annotations

import os
import re
import shutil
import subprocess
import sys
import textwrap

from fixtures.harness import TOP, Tally, coverage, equal, folder, run, well
from fixtures.jobs import USAGE

sys.path.insert(0, f"{TOP}/scripts")
from common.commands import COMMANDS, usage_of  # noqa: E402

BLOCK = re.compile(r"^```.*\n((?:.*\n)*?)```$|((?:^ {4,}.*\n)+)", re.M)
# What a reader types begins so. Samples, as cards and lines of reports, begin with capitals, digits or marks.
TYPED = re.compile(r"[a-z.(]")


def text_of(path: str) -> str:
    with open(f"{TOP}/{path}", encoding="utf-8") as file:
        return file.read()


def blocks(text: str, typed: bool = True) -> list[str]:
    """The blocks of a page that are commands; or those that are samples."""
    found = [fenced or textwrap.dedent(indented) for fenced, indented in BLOCK.findall(text)]
    return [it for it in found if bool(TYPED.match(it)) == typed]


def commands() -> list[str]:
    """README's commands but the gate, which runs this, without the words that explain them, two blanks and more behind."""
    found = [it for block in blocks(text_of("README.md")) for it in block.splitlines()]
    return [re.split(r" {2,}", it)[0] for it in found if not it.startswith(".ci/run ")]


def run_all(tally: Tally) -> None:
    """Runs README's commands one after the other, up to the last that is wanted, in a folder that looks like a clone."""
    found = commands()
    if tally.wants("commands"):
        tally.note("commands", None if found else "there are none", "README has commands")
    last = max((at for at, it in enumerate(found, 1) if tally.wants(it)), default=0)
    with folder() as at:
        for name in ("coverage", "examples", "docs"):
            os.symlink(f"{TOP}/{name}", f"{at}/{name}")
        for command in found[:last]:
            if re.search(r"\b(genhtml|lcov) -", command) and not shutil.which("genhtml"):
                tally.left_out.append(f"README's {command}")
                continue
            try:
                ran = run(["bash", "-c", command], cwd=at)
                fault = f"status {ran.status}: {ran.error[:300]}{ran.output[:200]!r}" if ran.status else None
            except subprocess.TimeoutExpired:
                fault = "it took too long"
            tally.note(command, fault, "README")


def section(path: str, title: str) -> str:
    """A section of a document, up to the next title."""
    return text_of(path).partition(f"## {title}\n")[2].partition("\n## ")[0]


def usages_in(text: str) -> list[str]:
    """What the first lines of a help say behind `coverage`."""
    return re.findall(r"^(?:usage:|      ) coverage (.*)$", text, re.M)


def scripts(*endings: str) -> list[str]:
    """The texts of the scripts whose names end so."""
    paths = [f"{at}/{name}" for at, _, names in os.walk(f"{TOP}/scripts") for name in sorted(names) if name.endswith(endings)]
    return [text_of(os.path.relpath(it, TOP)) for it in paths]


def usages_of_scripts() -> list[str]:
    """What the table of commands has so."""
    return [usage for it in COMMANDS for usage in usages_in(usage_of(it))]


def commands_in_help() -> None:
    """coverage: the help and docs/REPORT.md have the commands of the program's usage line, and the help those of the scripts"""
    own, others = USAGE.decode().strip().removeprefix("USAGE: ").split(" | "), usages_of_scripts()
    names = [it.split()[0] for it in others]
    text = well(coverage("--help")).output.decode()
    usages = usages_in(text)
    equal(sorted(it for it in usages if it.split()[0] in names), sorted(others))
    equal(sorted(re.sub(r" [<>].*", "", it) for it in usages if it.split()[0] not in names), sorted(own))
    words = list(dict.fromkeys(it.split()[0] for it in usages))
    # The words for which the script builds the program.
    arms = re.findall(r"^  ([a-z]+(?: \| [a-z]+)*)\) \[", text_of("scripts/front.bash").partition("fits() {")[2].partition("\n}\n")[0], re.M)
    equal(sorted(" | ".join(arms).split(" | ")), sorted(it.split()[0] for it in own))
    told = dict(re.findall(r"^  ([a-z]+) +([a-z].*(?:\n {13}.*)*)", text, re.M))
    equal(list(told), words)
    equal({it: " ".join(told[it].split()) for it in names}, {it: COMMANDS[it].told for it in names})
    for name, usage in zip(names, others):
        assert usage in usages_in(well(coverage(name, "--help")).output.decode()), usage
    equal(sorted(re.findall(r"^\| `([a-z]+[A-Z ]*)` \|", section("docs/REPORT.md", "Words"), re.M)), sorted(own))
    assert f"`{USAGE.decode().strip()}`" in section("docs/REPORT.md", "Exit status").replace("\n", " "), "docs/REPORT.md has another usage line"
    for word in words:
        assert re.search(rf"`{word}[` ]|\./coverage {word} ", text_of("README.md")), f"README.md lacks {word}"


def first_cells(text: str) -> list[str]:
    """What stands as code in the first column of a text's tables."""
    rows = [it.split(" | ")[0] for it in text.splitlines() if it.startswith("| ") and not it.startswith("| -")]
    return [code for row in rows for code in re.findall(r"`([^`]+)`", row)]


def endings() -> list[str]:
    """Each way that a task ends (docs/MACHINE.md), with each code of an interruption, and RUNNING (docs/REPORT.md)."""
    table, _, codes = section("docs/MACHINE.md", "How a task ends").partition("The interruption codes")
    found = [code for row in codes.splitlines() if row.startswith("| ") for code in re.findall(r"(?<=\| )([1-9A-F])(?= \|)", row)]
    return [*(it for it in first_cells(table) if it != "ABEND c"), *(f"ABEND {it}" for it in found), "RUNNING"]


def trouble() -> None:
    """docs/TROUBLE.md: it has each line of the program and each ending, and no others; what the scripts say is what they say"""
    table = section("docs/REPORT.md", "Exit status")
    lines = [it[1] for it in re.finditer(r"^\| [0-9]+ \| `([^`]+)` \|", table, re.M)]
    assert len(lines) == 17 and len(endings()) == 18, (lines, endings())
    refused = [it for it in first_cells(section("docs/TROUBLE.md", "What the program refuses"))]
    equal(sorted(refused), sorted(lines))
    equal([it for it in re.findall(r"^\| [^|]+ \| ([0-9]+) \|", section("docs/TROUBLE.md", "What the program refuses"), re.M)],
          [it for it in re.findall(r"^\| ([0-9]+) \|", table, re.M) if it != "0"])
    equal(sorted(first_cells(section("docs/TROUBLE.md", "How a task ended"))), sorted(endings()))
    said = "\n".join([text_of("coverage"), *scripts(".py", ".bash")])
    warned = first_cells(section("docs/TROUBLE.md", "What `module` warns of"))
    assert len(warned) == 11, warned
    for message in first_cells(section("docs/TROUBLE.md", "Before anything runs")) + warned:
        for part in re.split(r"\b[A-Z]+\b", message):
            assert part in said, f"no script says {part!r}"


def length_of_readme() -> None:
    """README.md: it has fewer than 1,200 words"""
    words = len(text_of("README.md").split())
    assert words < 1200, f"{words} words"


def listed_crates() -> list[str]:
    """The crates of crates.txt, in their order."""
    return [it.partition(":")[0] for it in text_of("crates.txt").splitlines() if ":" in it and not it.startswith("#")]


def crates_of_readme() -> None:
    """README.md: it names the crates of crates.txt, in their order"""
    named = " ".join(text_of("README.md").split()).partition("Its crates (")[2].partition("): ")[2]
    equal(named, ", ".join(listed_crates()) + ".")


def crates_described() -> None:
    """docs/ARCHITECTURE.md: its table has each crate of crates.txt once, and no other"""
    table = text_of("docs/ARCHITECTURE.md").partition("| Crate |")[2].partition("\n\n")[0]
    equal(sorted(", ".join(re.findall(r"(?m)^\| (\w[\w, ]*) \|", table)).split(", ")), sorted(listed_crates()))


CHECKS = [commands_in_help, trouble, length_of_readme, crates_of_readme, crates_described]
