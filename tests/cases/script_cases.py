"""The words and streams of all scripts; and the examples."""
from __future__ import annotations

import itertools
import os
import pty
import re
import signal
import subprocess
import sys
import time

from fixtures.harness import (
    COVERAGE, SECONDS, TOP, coverage, equal, example_report, folder, interruptible, misused, refused, run, well,
)
from fixtures.jobs import FIRST_REPORT, HEADING

EXAMPLES = f"{TOP}/examples"

def words_and_streams() -> None:
    """scripts: words that they don't have, and faults of input and output"""
    for command in ("page", "summary", "diff", "lcov", "cobertura", "module", "job", "union"):
        ran = well(coverage(command, "--help"))
        assert f"usage: coverage {command}".encode() in ran.output and b"not proved" in ran.output
        refused(coverage(command, "--help", redirect=">/dev/full"), 6, "standard output")
    for command in ("page", "summary", "cobertura"):
        for words, said in (
            (["x"], "x is a word too many"), (["-h"], "-h is a word too many"), (["--leave-out"], "--leave-out lacks the word behind it"),
            (["--leave-out", "a", "--leave-out=b"], "--leave-out stands twice"), (["--leave-out", "a", "b"], "b is a word too many"),
            (["--leave-outs=a"], "--leave-outs=a is none of its options"), (["x", "--leave-out=a"], "--leave-out=a stands behind x, and not before it"),
        ):
            misused(coverage(command, *words), command, said)
    for none in ((), ("",)):
        refused(coverage("lcov", *none), 1, "usage: coverage lcov")
    for words, said in (
        (["a", "b"], "b is a word too many"), (["-h"], "-h is a word too many"), (["--output"], "--output is none of its options"),
        (["a", "--leave-out", f"{EXAMPLES}/orders.left"], "--leave-out stands behind a, and not before it"),
    ):
        misused(coverage("lcov", *words, data=FIRST_REPORT), "lcov", said)
    for words in (["page"], ["summary"], ["cobertura"], ["diff", "-", "-"], ["lcov", "/dev/null/x"]):
        refused(coverage(*words, redirect="</"), 5, "standard input")
        refused(coverage(*words, redirect="<&-"), 5, "standard input")
    with folder() as at:
        with open(f"{at}/report", "wb") as file:
            file.write(FIRST_REPORT)
        for words in (["page"], ["summary"], ["summary", "--json"], ["cobertura"], ["diff", "report", "report"]):
            for redirect in (">/dev/full", ">&-", "1</"):
                refused(coverage(*words, data=FIRST_REPORT, redirect=redirect, cwd=at), 6, "coverage: standard output: ")
            # Where nothing can be said.
            for redirect in ("2>&-", "2</"):
                assert well(coverage(*words, data=FIRST_REPORT, redirect=redirect, cwd=at)).output
    refused(coverage("module", "M", "100000", f"{EXAMPLES}/orders.object", redirect=">/dev/full"), 6, "standard output")
    refused(coverage("job", "-", data=b"PHASE P\n", redirect=">/dev/full"), 6, "standard output")
    refused(coverage("lcov", "/dev/null/x", data=FIRST_REPORT), 6, "/dev/null/x")


def names_of_any_bytes() -> None:
    """scripts: what isn't printable in a word or a file's name is escaped, so that each thing said is one line"""
    for words, status, said in (
        (["summary", "--leave-out", "a\nb"], 2, "a\\nb: No such file or directory"),
        (["summary", "--leave-out", "a\x1b[31mb\u00e9"], 2, "a\\x1b[31mb\u00e9: No such file or directory"),
        (["summary", "a\nb"], 1, "a\\nb is a word too many: ./coverage summary --help says which words it has"),
    ):
        ran = coverage(*words, data=FIRST_REPORT)
        equal((ran.status, ran.output, ran.error), (status, b"", f"coverage: {said}\n"))
    with folder() as at:
        for name in ("a\nb", "c\rd"):
            with open(f"{at}/{name}", "wb") as file:
                file.write(b"* NONE\n")
            said = name.encode("unicode_escape").decode()
            ran = coverage("summary", "--leave-out", name, data=FIRST_REPORT, cwd=at)
            equal(ran.error, f"coverage: {said}: line 1: no place of the report is there: '* NONE'\n")
            ran = coverage("summary", name, data=FIRST_REPORT, cwd=at)
            equal(ran.error.splitlines()[1:], [f"coverage: did you mean ./coverage summary < {said} ?"])
            equal(coverage("run", name, cwd=at).error.splitlines()[1:], [f"coverage: did you mean ./coverage run < {said} ?"])


def values_behind_equals() -> None:
    """scripts: an option's value may stand behind = too"""
    left = f"{EXAMPLES}/orders.left"
    report = example_report("orders")
    with folder() as at:
        with open(f"{at}/old", "wb") as file:
            file.write(report)
        for words in ("summary --fail-under 1 --leave-out LEFT", "page --against old --leave-out LEFT", "diff --leave-out LEFT old -"):
            parted = re.sub("(--[a-z-]+) ", r"\1=", words)
            one, other = (well(coverage(*it.replace("LEFT", left).split(), data=report, cwd=at)).output for it in (words, parted))
            equal((one == other, bool(one)), (True, True))


def isolated() -> None:
    """scripts: none of a user's own modules runs in them, whatever the variables of Python and the current folder are"""
    with folder() as at:
        for name in ("json", "re", "common", "readers", "sitecustomize"):
            with open(f"{at}/{name}.py", "w", encoding="ascii") as file:
                file.write("raise SystemExit(99)\n")
        for given in ((), ("PYTHONPATH",), ("PYTHONSAFEPATH",), ("PYTHONHOME",), ("PYTHONPATH", "PYTHONSAFEPATH")):
            env = {**os.environ, **{it: at for it in given}}
            ran = well(run([COVERAGE, "summary", "--json"], FIRST_REPORT, at, env=env))
            assert ran.output.startswith(b'{\n  "form": "coverage summary 1",'), ran.output
            why = run([COVERAGE, "run", "json.py"], cwd=at, env=env)
            assert why.status == 1 and why.error.endswith("coverage: did you mean ./coverage run < json.py ?\n"), why.error


def reads_a_terminal() -> None:
    """scripts: one that waits for a terminal says so"""
    for words in (["summary"], ["page"], ["job", "-"], ["job", "--check"], ["union", "-"]):
        master, slave = pty.openpty()
        started = subprocess.Popen([COVERAGE, *words], stdin=slave, stdout=subprocess.PIPE, stderr=subprocess.PIPE, text=True)
        os.close(slave)
        said = f"coverage: {words[0]} reads standard input, which is the terminal here: ./coverage {words[0]} --help says what it reads\n"
        assert started.stderr
        equal(started.stderr.readline(), said)
        started.kill()
        started.communicate(timeout=SECONDS)
        os.close(master)


def interrupted() -> None:
    """page: an interrupt ends it with 130, while it reads"""
    pipe = subprocess.PIPE
    command = [COVERAGE, "page"]
    with interruptible(), subprocess.Popen(command, stdin=pipe, stdout=pipe, stderr=pipe, start_new_session=True) as started:
        # More than a pipe holds, so that it is read from by then.
        os.write(started.stdin.fileno() if started.stdin else -1, FIRST_REPORT * 500)
        started.send_signal(signal.SIGINT)
        output, error = started.communicate(timeout=SECONDS)
    equal((started.returncode, output, error), (130, b"", b""))


def interrupted_at_once() -> None:
    """scripts: an interrupt in the first moments ends them with 130, in no words of Python's"""
    pipe = subprocess.PIPE
    # As the front starts a script, and through the front: there bash passes over an interrupt with which a command of its own has ended.
    script = ["env", "--block-signal=INT", sys.executable, "-I", "-S", "-B", f"{TOP}/scripts"]
    for front, wait in itertools.product((script, [COVERAGE]), range(0, 160, 5)):
        with interruptible(), subprocess.Popen([*front, "summary"], stdin=pipe, stdout=pipe, stderr=pipe, start_new_session=True) as started:
            time.sleep(wait / 1000)
            os.killpg(started.pid, signal.SIGINT)
            output, error = started.communicate(timeout=SECONDS)
        if front is script or started.returncode != 2:
            equal((wait, started.returncode in (130, -signal.SIGINT), output, error), (wait, True, b"", b""))


def want_of_memory() -> None:
    """scripts: where memory is wanting, as they are loaded, read or make, one line says so, and the status is 7"""
    modules = "import importlib, re, signal, sys, types, typing"
    starts = [it for it in range(8_000, 80_000, 1_000) if run([sys.executable, "-I", "-S", "-B", "-c", modules], before=f"ulimit -v {it}").status == 0]
    report = FIRST_REPORT.replace(b"  " + HEADING.encode(), b"  " + HEADING.encode() + b"\n  text" * 1_000_000)
    with folder() as at:
        with open(f"{at}/report", "wb") as file:
            file.write(report)
        for words in (["summary"], ["page"], ["diff", "report", "report"], ["lcov", "out"], ["cobertura"], ["job", "report"], ["module", "M", "100000", "report"], ["union", "report"]):
            # Those that read a report read this one of 7 MB.
            has_report = words[0] not in ("job", "module", "union")
            for limit in (starts[0] + 1_500, starts[0] + 3_000, *[starts[0] + 10_000, 60_000][: 2 * has_report]):
                ran = run([sys.executable, "-I", "-S", "-B", f"{TOP}/scripts", *words], report, at, "", f"ulimit -v {limit}")
                said = ran.error.splitlines()
                equal((words, limit, ran.status, ran.output, len(said)), (words, limit, 7, b"", 1))
                assert re.match("coverage: (there was too little memory for it$|its script: could not be loaded, probably for want of memory: )", said[0]), said
            equal(os.listdir(at), ["report"])


# the examples


def examples_are_made() -> None:
    """examples: the decks, the listings and the jobs are those of their sources"""
    for name, *modules in (
        ("orders", ("orders", "ORDERS", "100000", "ebcdic")), ("palindrome", ("palindrome", "PALIN", "200000", "ascii")),
        ("tariff", ("tariff", "TARIFF", "100000", "ascii", "wide")),
        ("ledger", ("ledger", "LEDGER", "100000", "ascii"), ("services", "SERVICES", "180000", "ascii")),
    ):
        with folder() as at:
            for it in modules:
                make_cards(at, *it)
            cards = [f"{at}/{it[0]}.cards" for it in modules]
            with open(f"{EXAMPLES}/{name}.job", "rb") as file:
                equal(well(coverage("job", *cards, f"{EXAMPLES}/{name}.tasks")).output == file.read(), True)


def make_cards(at: str, source: str, module: str, base: str, *style: str) -> None:
    """Makes the cards of an example's module in a folder; those of the services too where it is their module."""
    words = ["python3", "-I", "-B", "scripts", "assemble", f"examples/{source}.asm", f"{at}/object", f"{at}/listing", *style]
    well(run(words))
    for one in ("object", "listing"):
        with open(f"{at}/{one}", "rb") as made, open(f"{EXAMPLES}/{source}.{one}", "rb") as kept:
            equal(made.read() == kept.read(), True)
    words = ["module", module, base, f"{at}/object", f"{at}/listing", *["--services"][: source == "services"]]
    with open(f"{at}/{source}.cards", "wb") as file:
        file.write(well(coverage(*words)).output)


def example_jobs() -> None:
    """examples: each job runs, each schedule is played, and page takes what comes"""
    commands = {".job": "run", ".replay": "replay"}
    found = [it for it in os.listdir(EXAMPLES) if os.path.splitext(it)[1] in commands]
    equal(sorted({os.path.splitext(it)[1] for it in found}), sorted(commands))
    for name in found:
        with open(f"{EXAMPLES}/{name}", "rb") as file:
            data = file.read()
        words = [*["services"][: b"\nSERVICE " in data], commands[os.path.splitext(name)[1]]]
        ran = well(coverage(*words, data=data))
        well(coverage("page", data=ran.output))


def outputs_of(report: bytes) -> list[str]:
    """The output of each task of a report, as text."""
    tasks = re.findall(rb"\nOUT [0-9]+\n((?:[0-9A-F]+\n)*)", report)
    return [bytes.fromhex(it.decode().replace("\n", "")).decode("cp037") for it in tasks]


def line(name: str, money: str) -> str:
    return f"{name:<17}{money:>15}"


def orders() -> None:
    """examples: the prices, totals and marks of an order, from an object deck and a listing in EBCDIC"""
    report = example_report("orders")
    # 12 at 2.50; 150 at 0.05, a tenth off; 1 at 0.99 without a name; a quantity with a letter.
    first = line("WIDGET", "$30.00") + line("BOLT", "$6.75") + line("TOTAL", "$36.75")
    second = line("NO NAME", "$0.99") + line("NUT", "NO NUMBER      ") + line("TOTAL", "$0.99")
    equal(outputs_of(report), [first, second])
    equal(report.count(b" RETURNED COUNT "), 2)
    marked = {at: mark for mark, at in re.findall(r"^([\^:>V&])  ([0-9A-F]{6}) ", report.decode(), re.M)}
    # The branches: no record left, too short, no number, no name, two counts, below 100; and what only a short one reaches.
    wanted = {"00002E": "&", "000036": "V", "000046": "&", "00005A": "&", "00008E": ">", "0000DE": ">", "000386": "&"}
    wanted.update(dict.fromkeys(("0000E2", "0000E6", "0000EC", "0000F2", "0000F6"), "^"))
    equal({at: mark for at, mark in marked.items() if mark != ":"}, wanted)
    assert b"\nMODULE ORDERS PLACES 76 EXECUTED 71 FACTS 75 OF 83\n" in report
    assert b"\nNOT EXECUTED 0000E2-0000F9\n" in report


def palindromes() -> None:
    """examples: which texts read the same backwards, in two phases"""
    report = example_report("palindrome")
    wanted = ["READS THE SAME:  11 LETTERS", "READS OTHERWISE   9 LETTERS", "NO LETTERS", "NO LETTERS"]
    equal(outputs_of(report), [it.ljust(32) for it in wanted])
    one, two = report.decode().split("SESSION ")[1:]
    # No text at all, a blank, a last byte, no letters, unequal.
    branches = ("00001C", "00003A", "000048", "000052", "000066")
    for part, marks in ((one, "V&&VV"), (two, "&&&&>")):
        found = dict(re.findall(r"^(?=.  ([0-9A-F]{6}) )(.)", part, re.M))
        equal("".join(found[at] for at in branches), marks)


def tariff() -> None:
    """examples: the prices and marks of three parcels, from a wide listing"""
    report = example_report("tariff")
    # 12 at 2.10; 1 at 1.25, of which the least price is 3.50; a zone that the table hasn't.
    equal(outputs_of(report), ["SUD 012 KG    25.20", "NOR 001 KG     3.50", "NO ZONE".ljust(19)])
    equal(report.count(b" RETURNED COUNT "), 3)
    marked = dict(re.findall(r"^(?=.  ([0-9A-F]{8}) )([\^:>V&])", report.decode(), re.M))
    # The branches: a whole record, a zone found and the table's end, digits alone and their count, the least price or more.
    wanted = dict(zip(("00000022", "00000034", "0000003C", "00000056", "0000005E", "00000074"), "V&&V&&"))
    wanted.update({"000000AE": "^", "000000B4": "^"})
    equal({at: mark for at, mark in marked.items() if mark != ":"}, wanted)
    assert b"\nMODULE TARIFF PLACES 42 EXECUTED 40 FACTS 44 OF 48\n" in report
    assert b"\nNOT EXECUTED 0000AE-0000B7\n" in report


CHECKS = [
    words_and_streams, names_of_any_bytes, values_behind_equals, isolated, reads_a_terminal, interrupted, interrupted_at_once,
    want_of_memory, examples_are_made, example_jobs, orders, palindromes, tariff,
]
