"""While names are read they are searched in one place, the crate names: elsewhere only the functions told here compare names."""
import os
import re

from fixtures.harness import TOP, equal

# A name and its equality, and what searches names.
OWN = ("cov_base", "names")
# Two names of which neither is searched, and what finds a name in a job that was read.
COMPARED = {
    "job_text/src/drafts.rt: is_same_controller", "session_book/src/job.rt: session_index", "session_book/src/job.rt: task_index",
}
FUNCTION = re.compile(r"^ *(?:pub(?:\([^)]*\))? )?fn (\w+)", re.M)
CLAUSE = re.compile(r"^ *(?:ensures|requires|ghost)\b.*$", re.M)
# A name, or its bytes, by field or variable; a phase, which is its name; a call that compares a name.
NAMED = re.compile("|".join((
    r"\bname(?:\.\w+\(\))* *[=!]= ",
    r"[=!]= *[*&]?(?:\w+(?:\[[^\]]*\])?\.)*name\b",
    r"\bphases\[[^\]]*\] *[=!]= ",
    r"[=!]= *[*&]?(?:\w+\.)*phases\[",
    r"\.(?:eq|ne|cmp|contains|starts_with)\([*&]*(?:\w+(?:\[[^\]]*\])?\.)*name\b",
)))
# What a reference refers to, where a function is given names.
REFERRED = re.compile(r"\*\w+ *[=!]= |[=!]= *\*\w+")


def comparing(text: str) -> list[str]:
    """The functions of a file that compare names."""
    found = []
    _, *parts = FUNCTION.split(CLAUSE.sub("", text))
    for function, code in zip(parts[::2], parts[1::2]):
        takes_names = re.search(r"\bName\b", code.split("\n{")[0].split("{\n")[0])
        if NAMED.search(code) or takes_names and REFERRED.search(code):
            found.append(function)
    return found


def sources() -> list[str]:
    """The files of the crates that aren't tests, but for those that may compare names."""
    crates = [it for it in sorted(os.listdir(f"{TOP}/crates")) if it not in OWN and not it.endswith("_tests")]
    folders = [f"{crate}/src" for crate in crates if os.path.isdir(f"{TOP}/crates/{crate}/src")]
    files = [f"{folder}/{file}" for folder in folders for file in sorted(os.listdir(f"{TOP}/crates/{folder}"))]
    return [it for it in files if it.endswith(".rt") and not it.endswith("/tests.rt")]


def read(path: str) -> str:
    """A file of the crates."""
    with open(f"{TOP}/crates/{path}", encoding="utf-8") as file:
        return file.read()


def in_one_place() -> None:
    """no function outside of the crate names searches names: those that compare two are known"""
    equal({f"{path}: {name}" for path in sources() for name in comparing(read(path))}, COMPARED)


def told() -> None:
    """a search of names by hand is told, in each of the forms that the code had"""
    text, before = read("job_text/src/drafts.rt"), "\nfn has_index("
    equal(text.count(before), 1)
    for search in (
        "job.tasks.iter().any(|task| task.name == *name)",
        "job.phases.iter().any(|phase| *phase == *name)",
        "job.images.iter().position(|image| image.name == *name)",
        "job.images.iter().all(|image| image.name != *name)",
        "job.phases.contains(name)",
        "job.tasks.iter().any(|it| it.name.bytes() == word)",
        "job.phases.iter().any(|it| *it == *wanted)",
        "(1..job.phases.len()).any(|i| job.phases[i] == job.phases[0])",
    ):
        more = f"\nfn finds(job: &Draft, name: &Name) -> bool\n    ensures {{ result ≡ true }}\n{{\n    {search}\n}}\n"
        equal(comparing(text.replace(before, more + before)), ["finds", "is_same_controller"])


CHECKS = [in_one_place, told]
