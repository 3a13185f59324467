"""The commands and samples of the users' pages, as they are written, and what these say comes of them."""
from __future__ import annotations

import contextlib
import os
import re
import shutil
from typing import Iterator

from cases import many_cases
from cases.many_cases import read
from cases.readme_cases import blocks, commands, section, text_of, usages_in
from fixtures.harness import COVERAGE, TOP, Ran, Tally, coverage, equal, folder, run, run_checks, well
from fixtures.jobs import COUNTED, HEADING, WIDE_HEADING, task

MANY, SUMMARY, MANUAL = "docs/MANY.md", "docs/SUMMARY.md", "coverage.1"
JOB, LISTING, MARKS, EVIDENCE, MACHINE = (f"docs/{it}.md" for it in ("JOB", "LISTING", "MARKS", "EVIDENCE", "MACHINE"))
# The sections with commands, each of which is run here.
SECTIONS = {
    MANY: ["What is a unit", "On one machine", "Which job reached a line", "By Slurm", "By GNU parallel over ssh", "Figures"],
    SUMMARY: ["Each night", "For build servers"],
}
# The parts with samples, each of which is compared with what comes, here or by program_cases' `where_interrupted`.
SAMPLES = {
    EVIDENCE: ["An example"], JOB: ["Services", "Data in other forms"], LISTING: ["# The listing"], MACHINE: ["How a task ends"],
    MANY: ["What a job that failed leaves"], MARKS: ["An example"], SUMMARY: ["The summary", "What is left out", "The difference"],
}
# Files of README that stand for the words of a call within a page's text.
FILES = {"JOB": "orders.job", "MARKS": "orders.marks", "EVIDENCE": "orders.evidence"}
# Of these pages' commands the readers are those who change the program.
OF_DEVELOPERS = ("docs/ARCHITECTURE.md", "docs/CHANGING.md", "docs/DECISIONS.md")
# Examples' tasks. At 000036, where a record that is too short is branched for, the second's branches, and none of the first's does.
NAMES = ("orders", "short")
# Stand for Slurm: what is submitted runs at once, and with which words is noted.
SLURM = {
    "sbatch": """#!/bin/bash
at=${0%/*} last=0
echo "$*" >> "$at/submitted"
for it; do [[ $it != --array=0-* ]] || last=${it##*-}; done
export SLURM_ARRAY_TASK_ID SLURM_ARRAY_TASK_COUNT=$((last + 1))
for ((SLURM_ARRAY_TASK_ID = 0; SLURM_ARRAY_TASK_ID <= last; SLURM_ARRAY_TASK_ID++)); do bash -c "${!#}" > /dev/null 2>&1; done
wc -l < "$at/submitted"
""",
    "scontrol": "#!/bin/sh\necho 'MaxArraySize            = 1001'\n",
}
# Stands for GNU parallel where that isn't installed: one job after the other, on this machine.
PARALLEL = """#!/bin/bash
[ "$1" = -0 ] && shift
while [[ $1 == --* ]]; do [ "$1" != --joblog ] || log=$2; shift 2; done
printf 'Seq\\tHost\\tStarttime\\tJobRuntime\\tSend\\tReceive\\tExitval\\tSignal\\tCommand\\n' > "$log"
while IFS= read -rd '' it; do
  printf -v own %q "$it"
  printf -v part %q "${it%.*}"
  call=${1//'{.}'/"$part"} call=${call//'{}'/"$own"}
  bash -c "$call" < /dev/null
  printf '1\\t:\\t0\\t0\\t0\\t0\\t%s\\t0\\t%s\\n' "$?" "$call" >> "$log"
done
"""


class Reader:
    """One who types a page's commands in a folder, where `coverage` stands in it and on the path."""

    def __init__(self, at: str) -> None:
        self.at = at
        for name in ("bin", "behind", "tests"):
            os.mkdir(f"{at}/{name}")
        for name in ("coverage", "bin/coverage"):
            os.symlink(COVERAGE, f"{at}/{name}")
        os.symlink(f"{TOP}/examples", f"{at}/examples")
        for name, text in {**{f"bin/{it}": text for it, text in SLURM.items()}, "behind/parallel": PARALLEL}.items():
            self.write(name, text.encode())
            os.chmod(f"{at}/{name}", 0o755)
        self.env = {**os.environ, "PATH": f"{at}/bin:{os.environ['PATH']}:{at}/behind"}
        self.env.pop("COVERAGE", None)

    def types(self, text: str) -> Ran:
        """What comes of commands."""
        return run(["bash", "-c", text], cwd=self.at, env=self.env)

    def makes(self, *names: str) -> None:
        """Makes files by README's commands."""
        found = [it for it in commands() if it.endswith(tuple(f" > {name}" for name in names))]
        equal(len(found), len(names))
        for command in found:
            well(self.types(command))

    def has(self, name: str) -> bytes:
        """The bytes of a file."""
        return read(f"{self.at}/{name}")

    def write(self, name: str, data: bytes) -> None:
        """Writes a file."""
        with open(f"{self.at}/{name}", "wb") as file:
            file.write(data)

    def copies(self, *names: str) -> None:
        """Takes files of the examples."""
        for name in names:
            self.write(os.path.basename(name), self.has(f"examples/{name}"))


@contextlib.contextmanager
def reader() -> Iterator[Reader]:
    """A reader whose folder is removed in the end."""
    with folder() as at:
        yield Reader(at)


def of(page: str, title: str) -> str:
    """The commands of a section, which are one block."""
    [found] = blocks(section(page, title))
    return found


@contextlib.contextmanager
def with_jobs() -> Iterator[Reader]:
    """A reader with a folder of jobs, by the page's commands."""
    with reader() as it:
        it.makes("orders.cards")
        for name in NAMES:
            it.write(f"tests/{name}.tasks", it.has(f"examples/{name}.tasks"))
        equal(well(it.types(of(MANY, "What is a unit"))).output, b"")
        equal(sorted(os.listdir(f"{it.at}/jobs")), [f"{name}.job" for name in NAMES])
        equal(it.has("jobs/orders.job"), it.has("examples/orders.job"))
        yield it


def add_failing(it: Reader) -> None:
    """A job more, whose session has another name."""
    it.write("jobs/other.job", it.has("jobs/orders.job").replace(b"SESSION ORDERS ", b"SESSION OTHER "))


def has_marks(it: Reader, of_jobs: str, union: str) -> None:
    """Fails unless the marks of each job stand in a folder, and their union has a name."""
    own = [well(coverage("marks", "ORDERS", data=it.has(f"jobs/{name}.job"))).output for name in NAMES]
    equal([it.has(f"{of_jobs}/{name}.marks") for name in NAMES], own)
    equal(it.has(union), well(coverage("combine", data=b"".join(own))).output)


def by_make() -> None:
    """docs/MANY.md: by make jobs become marks, their union and a page; what fails is told; and which job reached a line"""
    call, reached = of(MANY, "On one machine"), of(MANY, "Which job reached a line")
    with with_jobs() as it:
        well(it.types(call))
        has_marks(it, "out", "out/all/union.marks")
        shown = well(coverage("show", "ORDERS", data=it.has("jobs/orders.job") + it.has("out/all/union.marks"))).output
        equal(it.has("out/all/union.html"), well(coverage("page", data=shown)).output)
        for marks, wanted in (("[>&]", "short:>"), ("[V&]", "orders:V"), ("[:>V&]", "orders:V, short:>")):
            assert "[>&]" in reached and f"`{marks}`" in section(MANY, "Which job reached a line"), marks
            found = well(it.types(reached.replace("[>&]", marks))).output.decode().splitlines()
            equal(", ".join(line.partition("  000036 4740 C0E0 ")[0] for line in found), wanted)
        add_failing(it)
        equal(it.types(call).status, 2)
        [gather] = re.findall(r"`(bash [^`]*)`", section(MANY, "On one machine"))
        it.types(f"{call.strip()} -k")
        equal(it.types(gather).status, 3)
        equal(it.has("out/all/summary").decode(), """JOBS 3 MARKS 2 LACKING 1
LACKING other STATUS 13 NO SESSION ORDERS
UNION lacking.marks
""")
        has_marks(it, "out", "out/all/lacking.marks")
        assert it.has("out/other.marks.failed").startswith(b"STATUS 13 NO SESSION ORDERS\n"), it.has("out/other.marks.failed")
    [sample] = blocks(section(MANY, "What a job that failed leaves"), typed=False)
    equal(sample, many_cases.summary(range(200), [17, 44], [120]).replace("SESSION S\n", "SESSION ORDERS\n"))


def measured() -> None:
    """docs/MANY.md: what is measured are the marks of all jobs, and their union"""
    with with_jobs() as it:
        for number in range(6):
            it.write(f"jobs/copy{number}.job", it.has("jobs/orders.job"))
        ran = it.types(of(MANY, "Figures"))
        equal((ran.status, ran.output, len(re.findall("^real", ran.error, re.M))), (0, b"", 2))
        equal(it.has("list").count(b"\0"), 8)
        equal(it.has("all.marks"), it.has("out/all/union.marks"))
        equal(sum(name.endswith(".marks") for name in os.listdir(f"{it.at}/out")), 8)


def by_slurm() -> None:
    """docs/MANY.md: by Slurm an array runs over the jobs and behind it their union, with the options; again over none"""
    with with_jobs() as it:
        call = of(MANY, "By Slurm")
        equal(well(it.types(call)).output, b"JOBS 2 ARRAY 1 UNION 2\n")
        has_marks(it, "out", "out/all/union.marks")
        equal(well(it.types(call)).output, b"JOBS 0 ARRAY none UNION 3\n")
        submitted = it.has("bin/submitted").decode().splitlines()
        equal(["--partition=night --time=60 " in line for line in submitted], [True] * 3)
        equal([re.findall("--(?:array|dependency)=[^ ]*", line) for line in submitted], [["--array=0-1"], ["--dependency=afterany:1"], []])


def odd_names() -> None:
    """docs/MANY.md: by Slurm and GNU parallel a job's name is taken as it is; Slurm's recipe refuses one with a line's end"""
    for page, under in (("By Slurm", "out"), ("By GNU parallel over ssh", "jobs")):
        with with_jobs() as it:
            names = [name for name in many_cases.ODD if "\n" not in name]
            for name in names:
                it.write(f"jobs/{name}.job", it.has("jobs/orders.job"))
            it.write("hosts", b":\n")
            before = sorted([*os.listdir(it.at), *({"out"} if under == "out" else {"all.marks", "ran.log"})])
            well(it.types(of(MANY, page)))
            equal([(name, it.has(f"{under}/{name}.marks")) for name in names], [(name, it.has(f"{under}/orders.marks")) for name in names])
            assert sorted(os.listdir(it.at)) == before and not os.path.exists(f"{it.at}/jobs/X"), (page, os.listdir(it.at))
    with with_jobs() as it:
        it.write("jobs/a\nb.job", it.has("jobs/orders.job"))
        ran = it.types(of(MANY, "By Slurm"))
        equal((ran.status, ran.output, os.listdir(f"{it.at}/out/all"), "a\\nb.job': a name with a line's end" in ran.error), (1, b"", [], True))


def by_parallel() -> None:
    """docs/MANY.md: by GNU parallel marks stand beside their jobs, what failed is told, and again that alone runs"""
    with with_jobs() as it:
        call = of(MANY, "By GNU parallel over ssh")
        add_failing(it)
        jobs = os.listdir(f"{it.at}/jobs")
        # This machine, which GNU parallel reaches without ssh.
        it.write("hosts", b":\n")
        for count in (3, 1):
            ran = it.types(call)
            assert ran.status == 0 and ran.output.startswith(b"13 coverage ") and ran.output.count(b"\n") == 1, ran
            has_marks(it, "jobs", "all.marks")
            equal(len(it.has("ran.log").splitlines()), 1 + count)
            equal([name for name in sorted(os.listdir(f"{it.at}/jobs")) if name not in jobs], ["orders.marks", "other.part", "short.marks"])


def each_night() -> None:
    """docs/SUMMARY.md: each night's report, its difference, page and summary; and the samples are what comes of the examples"""
    with reader() as it:
        it.makes("orders.cards", "orders.job", "orders.report", "short.job", "orders.marks", "short.marks")
        it.copies("orders.left")
        show = of(SUMMARY, "Each night").splitlines()[0]
        it.write("all.marks", it.has("short.marks"))
        well(it.types(show))
        os.rename(f"{it.at}/tonight.shown", f"{it.at}/yesterday.shown")
        it.makes("all.marks")
        said = well(it.types(of(SUMMARY, "Each night"))).output.decode()
        found = [line.partition("  ")[0] for line in said.splitlines() if line[:1] != " "]
        equal([re.sub(r"[0-9]+", "n", line) for line in found], [
            "ORDERS in session ORDERS: n of n facts, n %, before; n of n facts, n %, now; n places left out, n of them executed",
            "n facts lost, n gained; n facts of new places not shown.", "Session", "ORDERS", "n session",
        ])
        [sums] = re.findall("^[0-9]+ facts lost, [0-9]+ gained", said, re.M)
        assert it.has("tonight.html").startswith(b"<!DOCTYPE html>") and sums.encode() in it.has("tonight.html"), sums
        well(it.types(of(SUMMARY, "For build servers")))
        assert it.has("pages/cobertura.xml").startswith(b"<?xml ") and b"\nSF:" in it.has("pages/coverage.info"), os.listdir(f"{it.at}/pages")
        [table] = blocks(section(SUMMARY, "The summary"), typed=False)
        equal(well(it.types("./coverage summary < orders.report")).output.decode(), table)
        [rules] = blocks(section(SUMMARY, "What is left out"), typed=False)
        it.write("rules", rules.encode())
        ran = it.types("./coverage summary --leave-out rules < orders.report")
        equal((ran.status, ran.error), (0, "coverage: rules: line 4: no place of the report is there: '* ABND* in every module'\n"))
        [lines] = blocks(section(SUMMARY, "The difference"), typed=False)
        it.write("short.shown", well(coverage("show", "ORDERS", data=it.has("short.job") + it.has("short.marks"))).output)
        found = well(it.types("./coverage diff short.shown orders.report")).output.decode().splitlines()
        equal([line for line in found if line in lines.splitlines()], lines.splitlines())


def manual() -> None:
    """coverage.1: the commands of its examples make what they name; the others are README's, and the call that installs"""
    made, united, others = re.findall(r"^\.Bd -literal .*\n((?:.*\n)*?)\.Ed$", text_of(MANUAL), re.M)
    with reader() as it:
        it.copies("orders.object", "orders.listing", "orders.tasks")
        well(it.types(made))
        equal(it.has("orders.job"), it.has("examples/orders.job"))
        equal(it.has("orders.html"), well(coverage("page", data=it.has("orders.report"))).output)
        it.makes("short.job")
        well(it.types(united))
        equal(it.has("all.marks"), well(coverage("combine", data=it.has("orders.marks") + it.has("short.marks"))).output)
        assert it.has("orders.shown").startswith(b"COVERAGE SHOW\nSESSION ORDERS "), it.has("orders.shown")[:80]
    equal([it for it in others.replace(r"\&", "").splitlines() if it not in commands()], ["./coverage install /usr/local"])


def pages() -> list[str]:
    """The users' pages but README."""
    found = sorted(f"docs/{it}" for it in os.listdir(f"{TOP}/docs") if it.endswith(".md"))
    return [it for it in found if it not in OF_DEVELOPERS]


def sections(typed: bool) -> dict[str, list[str]]:
    """The parts of pages that have commands, or samples, by their titles."""
    found: dict[str, list[str]] = {}
    for page in pages():
        titles = [it.partition("\n")[0] for it in re.split("^## ", text_of(page), flags=re.M) if blocks(it, typed)]
        found.update({page: titles} if titles else {})
    return found


def all_pages() -> None:
    """docs: commands and samples stand in those sections alone whose commands are run, and whose samples are compared"""
    equal(sections(True), SECTIONS)
    equal(sections(False), SAMPLES)


def spans(page: str) -> list[str]:
    """What stands as code within the text of a page."""
    text = re.sub("^ {4,}.*$", "", text_of(page), flags=re.M)
    return [it.replace("\n", " ") for it in re.findall("`([^`]+)`", text)]


def within_text() -> None:
    """README.md and docs: of calls within the text those with a file are run, and the others have words that the help has"""
    usages = usages_in(well(coverage("--help")).output.decode())
    calls = sorted({it for page in ("README.md", *pages()) for it in spans(page) if it.startswith(("./coverage ", "cat "))})
    with reader() as it:
        it.makes("orders.cards", "orders.job", "orders.marks", "orders.evidence")
        for call in calls:
            words = call.split()
            if words[0] == "cat":
                command = "verify" if "EVIDENCE" in words else "show"
                well(it.types(f"cat {' '.join(FILES[word] for word in words[1:])} | ./coverage {command} ORDERS"))
            elif "<" in words:
                well(it.types(call))
            else:
                own = [usage for usage in usages if usage.split()[0] == words[1]]
                options = [word for word in words[2:] if word.startswith("-")]
                assert own and all(any(option in usage for usage in own) for option in options), call
        equal([call for call in calls if "<" in call or call.startswith("cat ")],
              ["./coverage ends < orders.job", "./coverage run < orders.job", "cat JOB MARKS", "cat JOB MARKS EVIDENCE"])
        equal(well(it.types("./coverage ends < orders.job")).output, well(it.types("./coverage services ends < orders.job")).output)


def sample(page: str, title: str) -> str:
    """The sample of a section, which has one."""
    [found] = blocks(section(page, title), typed=False)
    return found


def samples() -> None:
    """README.md and docs: samples of cards, listings and files are what the commands take and write"""
    with reader() as it:
        it.makes("orders.cards", "orders.job", "orders.report", "services.cards")
        listing, tasks = blocks(text_of("README.md"), typed=False)
        equal([line for line in listing.splitlines() if line not in it.has("orders.report").decode().splitlines()], [])
        equal(tasks.encode(), it.has("examples/short.tasks"))
        services = it.has("services.cards").decode().splitlines()
        equal([line for line in sample(JOB, "Services").splitlines() if line not in services], [])
        data = [span for span in spans(JOB) if re.match("DATA [0-9]", span)]
        inputs = [*(span for span in spans(JOB) if re.match("INPUT [A-Z]", span)), *sample(JOB, "Data in other forms").splitlines()]
        it.write("forms", "\n".join(["PHASE P", "TASK T 100000 4096 1 0", *data, *inputs, ""]).encode())
        made = well(it.types("./coverage job forms")).output.decode().splitlines()
        equal(made[3:-1], [
            "DATA 16 00000800", "DATA 2048 0000000000000800", "DATA 128 0000002A", "INPUT C6C9D9E2E34040F0F0F1F2",
            "INPUT E6C9C4C7C5E3404040404040", "INPUT 01200C", "INPUT FFFFFFFF",
        ])
    [headings] = blocks(text_of(LISTING), typed=False)
    equal(headings.splitlines(), [HEADING.strip(), WIDE_HEADING.strip()])
    for page, command, register in ((MARKS, "marks", 1), (EVIDENCE, "prove", 3)):
        job = COUNTED.job(task(f"REG 1 {register:08X}"))
        equal(bytes.fromhex(sample(page, "An example")), well(coverage(command, "S", data=job)).output)


def run_all(tally: Tally) -> None:
    """Runs those of make where that is installed, and the others."""
    run_checks(tally, [all_pages, within_text, samples, manual, each_night, by_slurm, by_parallel, odd_names])
    if shutil.which("make"):
        run_checks(tally, [by_make, measured])
    else:
        tally.left_out.append(f"the commands of {MANY} by make, since that isn't installed")
