"""What must be read to know what `cover` claims stands in its place, and tests/meaning tells where that isn't so."""
import os
import pathlib
import re
import shutil
import subprocess

from fixtures.harness import TOP, equal, folder


def meaning(top: str, *words: str) -> subprocess.CompletedProcess[str]:
    return subprocess.run([f"{top}/tests/meaning", *words], capture_output=True, text=True, check=False)


def copy(at: str) -> None:
    """The script and what it reads."""
    for part in ("tests", "docs"):
        os.mkdir(f"{at}/{part}")
    shutil.copy2(f"{TOP}/docs/MEANING.md", f"{at}/docs/MEANING.md")
    shutil.copy2(f"{TOP}/tests/meaning", f"{at}/tests/meaning")
    for crate in os.listdir(f"{TOP}/crates"):
        for part in ("src", "specs"):
            if os.path.isdir(f"{TOP}/crates/{crate}/{part}"):
                shutil.copytree(f"{TOP}/crates/{crate}/{part}", f"{at}/crates/{crate}/{part}")


def in_place() -> None:
    """tests/meaning: what the clause of cover reaches stands in specs/Meaning*.antt, and nothing else stands there"""
    ran = meaning(TOP)
    equal((ran.returncode, ran.stderr), (0, ""))
    definitions, lines = (int(word.split()[0]) for word in ran.stdout.split(", ")[:2])
    assert 800 < definitions < 1400 and 3 * definitions < lines < 6 * definitions, ran.stdout.split("\n", maxsplit=1)[0]


def elsewhere() -> None:
    """tests/meaning: a definition that stands elsewhere, and one that isn't reached, are told by name and line"""
    with folder() as at:
        copy(at)
        marks, other = f"{at}/crates/cov_base/specs/Meaning.antt", f"{at}/crates/cov_base/specs/Elsewhere.antt"
        with open(marks, encoding="utf-8") as file:
            text = file.read()
        body = "branch_mark true true = Both\n"
        assert text.count(body) == 1
        with open(marks, "w", encoding="utf-8") as file:
            file.write(text.replace(body, "branch_mark true true = both\n").replace("\nuse ", "\nuse Rattle.cov_base.specs.Elsewhere.{both}\nuse ", 1))
            file.write("\nabbrev pub never_read : Mark\nnever_read = Both\n")
        with open(other, "w", encoding="utf-8") as file:
            file.write("use Rattle.cov_base.specs.declared.marks.Mark.{Mark}\n\nabbrev pub both : Mark\nboth = Both\n")
        ran = meaning(at)
        told = [line for line in ran.stdout.split("\n") if line.startswith(("outside", "not reached"))]
        last = text.count("\n") + 3
        equal(ran.returncode, 1)
        equal(told, ["outside the place: both crates/cov_base/specs/Elsewhere.antt:3",
                     f"not reached: never_read crates/cov_base/specs/Meaning.antt:{last}"])


def counts() -> None:
    """docs/MEANING.md: the counts of its rows are those of the definitions, those of the first table are what `run` has"""
    ran = meaning(TOP, "--commands")
    equal((ran.returncode, ran.stderr), (0, ""))
    had = dict(re.findall(r"^([\w, ]+): (\d+, \d+)", ran.stdout, re.M))
    rows = [[int(number) for number in had[f"{row}"].split(", ")] for row in range(1, 11)]
    equal(", ".join(str(sum(column)) for column in zip(*rows)), had["run"])
    with folder() as at:
        copy(at)
        claim, page = pathlib.Path(at, "crates/coverage_commands/specs/Meaning.antt"), pathlib.Path(at, "docs/MEANING.md")
        # a line and a definition more for `table` alone, and a command whose row is gone
        case = "IsAnswerOf (Table g) r status text = "
        text = claim.read_text("utf-8")
        assert text.count(case) == 1
        claim.write_text(text.replace(case, case + "Added × ") + "\nabbrev pub Added : Type 0\nAdded = Unit {0}\n", "utf-8")
        page.write_text(re.sub(r"^\| `trial`.*\n", "", page.read_text("utf-8"), flags=re.M), "utf-8")
        ran = meaning(at, "--commands")
        equal(ran.returncode, 1)
        old = had["table, ends"]
        definitions, lines = (int(number) for number in old.split(", "))
        wrong = [line for line in ran.stdout.split("\n") if "the page has" in line]
        equal([re.sub(", alone [0-9, ]+", "", line) for line in wrong],
              [f"table, ends: {definitions + 1}, {lines + 2}; the page has {old}"])
        assert "in no row: trial_job crates/job_gen/" in ran.stdout, ran.stdout


def widths() -> None:
    """crates: a clause has at most 120 characters, and a line of specs/Meaning*.antt 132, but for imports and texts"""
    crates = pathlib.Path(TOP, "crates")
    clause, text = re.compile(r" *((?:requires|ensures)\b.*)"), re.compile(r'use |.*"')
    wide, clauses = [], 0
    for path in sorted([*crates.glob("*/src/**/*.rt"), *crates.glob("*/specs/Meaning*.antt")]):
        for number, line in enumerate(path.read_text("utf-8").split("\n"), 1):
            found = clause.fullmatch(line)
            clauses += bool(found)
            if len(found[1]) > 120 if found else path.suffix == ".antt" and len(line) > 132 and not text.match(line):
                wide.append(f"{path.relative_to(crates)}:{number}")
    equal(wide, [])
    assert clauses > 3000, clauses


CHECKS = [in_place, elsewhere, counts, widths]
