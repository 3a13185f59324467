"""`coverage install`: what is put where, how it stands without the checkout, what is refused; and the manual page."""
from __future__ import annotations

import hashlib
import os
import re
import shutil
import stat
import subprocess
import sys
from typing import Optional

from fixtures.checkout import TOOLCHAIN, checkout
from fixtures.harness import PROGRAM, TOP, coverage, equal, refused, run, well
from fixtures.jobs import FIRST, FIRST_REPORT, USAGE

NOT_BUILT = "isn't built of the sources as they stand: ./coverage run builds it\n"
# Some of what is put.
PUT = (
    "bin/coverage", "lib/coverage/coverage_program", "lib/coverage/scripts/makers/page.css", "share/man/man1/coverage.1",
    "share/doc/coverage/README.md", "share/doc/coverage/docs/JOB.md", "share/doc/coverage/examples/first.job",
)
# What an installed copy may call; rt and python3 are none of it.
TOOLS = ("bash", "cat", "dirname", "env", "head", "mktemp", "readlink", "rm", "sed", "tail", "tr", "grep", "wc", "awk")


def files_below(at: str) -> list[str]:
    """All files below a folder, by their paths from there."""
    return sorted(os.path.relpath(f"{folder}/{it}", at) for folder, _, names in os.walk(at) for it in names)


def modes_below(at: str) -> dict[str, int]:
    """The mode of each file and folder below a folder, and of that."""
    found = [at, *(f"{folder}/{it}" for folder, folders, names in os.walk(at) for it in [*folders, *names])]
    return {os.path.relpath(it, at): stat.S_IMODE(os.stat(it).st_mode) for it in found}


def bytes_below(at: str) -> dict[str, bytes]:
    """The bytes of each file below a folder."""
    found = {}
    for it in files_below(at):
        with open(f"{at}/{it}", "rb") as file:
            found[it] = file.read()
    return found


def is_put() -> None:
    """install: all files are put, whatever the umask is, are listed, and are the same after a second call"""
    with checkout() as it:
        it.make_built()
        at = f"{it.at}/a/b"
        first = well(it.call("install", "a/b", before="umask 077"))
        listed = first.output.decode().splitlines()
        equal(listed, [f"{at}/{name}" for name in files_below(at)])
        equal(it.read("a/b/lib/coverage/files").splitlines(), files_below(at))
        equal([name for name in PUT if f"{at}/{name}" not in listed], [])
        equal([name for name in listed if "/developer/" in name or "/assemble" in name], [])
        for name, mode in modes_below(f"{it.at}/a").items():
            runs = name in ("b/bin/coverage", "b/lib/coverage/coverage_program") or os.path.isdir(f"{it.at}/a/{name}")
            equal((name, oct(mode)), (name, oct(0o755 if runs else 0o644)))
        had = bytes_below(at)
        equal(well(it.call("install", at)).output, first.output)
        equal(bytes_below(at), had)


def without(tools: tuple[str, ...], at: str) -> dict[str, str]:
    """An environment whose path has these tools alone."""
    os.makedirs(at)
    for tool in tools:
        os.symlink(os.path.realpath(shutil.which(tool) or tool), f"{at}/{tool}")
    return {"PATH": at}


def stands_alone() -> None:
    """install: what was put runs elsewhere and through links, with the checkout gone, no toolchain and no Python"""
    with checkout() as it:
        of_sources, room = it.make_built(), os.path.dirname(it.at)
        well(it.call("install", f"{room}/first"))
        shutil.rmtree(it.at)
        os.rename(f"{room}/first", f"{room}/second")
        os.symlink("second/bin/coverage", f"{room}/link")
        os.symlink(f"{room}/link", f"{room}/coverage")
        env = without(TOOLS, f"{room}/tools")
        for command in (f"{room}/second/bin/coverage", f"{room}/link", f"{room}/coverage"):
            equal(well(run([command, "run"], FIRST.job(), "/", env=env)).output, FIRST_REPORT)
        on_path = {"PATH": f"{room}/second/bin:{room}/tools"}
        equal(well(run(["bash", "-c", "coverage run"], FIRST.job(), "/", env=on_path)).output, FIRST_REPORT)
        had = run([command, "run"], b"no job", "/", env=env)
        equal((had.output, had.status, "No such file" in had.error), (b"BAD JOB LINE 1\n", 2, False))
        equal(run([command, "runs"], env=env).output, USAGE)
        for word in ("try", "install"):
            refused(run([command, word, "run"], env=env), 1, f"coverage: {word} is for a checkout alone")
        with open(PROGRAM, "rb") as file:
            of_program = hashlib.sha256(file.read()).hexdigest()
        sums = f"sources SHA-256 {of_sources}\nprogram SHA-256 {of_program}\n"
        equal(well(run([command, "--version"], env=env)).output.decode(), f"coverage, no commit\n{TOOLCHAIN}\n{sums}")
        os.symlink(os.path.realpath(sys.executable), f"{room}/tools/python3")
        of_scripts(command, env, f"{room}/second")


def of_scripts(command: str, env: dict[str, str], at: str) -> None:
    """Fails unless each script that the installed help lists is there, and they make a page of a job's report."""
    text = well(run([command, "--help"], env=env)).output.decode()
    assert f"{at}/share/doc/coverage" in text and "checkout" not in text and "builds" not in text, text
    scripts = text.partition("The scripts around it")[2]
    names = re.findall(r"^  ([a-z]+) +[a-z]", scripts, re.M)
    assert {"module", "job", "union", "page", "summary", "diff", "lcov", "cobertura"} <= set(names), names
    for name in names:
        said = well(run([command, name, "--help"], env=env)).output
        assert said.startswith(f"usage: coverage {name} ".encode()), said[:80]
    examples = f"{at}/share/doc/coverage/examples"
    words = ["module", "ORDERS", "100000", f"{examples}/orders.object", f"{examples}/orders.listing"]
    cards = well(run([command, *words], env=env)).output
    assert cards.startswith(b"MODULE ORDERS 100000 "), cards[:80]
    job = well(run([command, "job", "-", f"{examples}/orders.tasks"], cards, env=env)).output
    with open(f"{examples}/orders.job", "rb") as file:
        equal(job, file.read())
    page = well(run([command, "page"], well(run([command, "run"], job, env=env)).output, env=env)).output
    assert page.startswith(b"<!DOCTYPE html>"), page[:80]
    error = run([command, "page", f"{examples}/orders.job"], env=env).error
    assert error.endswith(f"\ncoverage: did you mean coverage page < {examples}/orders.job ?\n"), error[-200:]
    equal([name for name in files_below(at) if "__pycache__" in name], [])


def names_its_commit() -> None:
    """install: the version names the commit, and says where what is taken differs from it"""
    with checkout() as it:
        it.git("init", "--quiet")
        it.git("add", "--all")
        it.git("commit", "--quiet", "--message", "first")
        commit = it.git("rev-parse", "HEAD")
        it.make_built()

        def named() -> str:
            well(it.call("install", "there"))
            return well(run([f"{it.at}/there/bin/coverage", "--version"])).output.decode().splitlines()[0]

        equal(named(), f"coverage, commit {commit}")
        it.write("another", "what isn't taken")
        equal(named(), f"coverage, commit {commit}")
        it.write("docs/NEW.md", "new")
        equal(named(), f"coverage, commit {commit}, and changes since")
        os.remove(f"{it.at}/docs/NEW.md")
        equal(named(), f"coverage, commit {commit}")
        it.write("README.md", "another")
        equal(named(), f"coverage, commit {commit}, and changes since")
        shutil.rmtree(f"{it.at}/.git/objects")
        refused(it.call("install", "other"), 2, "coverage: git: ")
        assert not os.path.exists(f"{it.at}/other")


def is_refused() -> None:
    """install: it puts nothing where the program isn't built, a file of others is in its way, or the words are wrong"""
    with checkout() as it:
        for other in ((), ("a", "b"), ("",), ("--uninstall",), ("--force", "a"), ("-x",)):
            refused(it.call("install", *other), 1, "usage: coverage install [--uninstall] FOLDER\n")
        refused(it.call("install", "a"), 2, f"/out/coverage_program: {NOT_BUILT}")
        it.make_built()
        it.write("crates/coverage_program/src/main.rt", "two")
        refused(it.call("install", "a"), 2, NOT_BUILT)
        it.write("crates/coverage_program/src/main.rt", "one")
        stamp = it.read("out/built")
        it.write("out/built", stamp.replace(f"toolchain {TOOLCHAIN}\n", ""))
        refused(it.call("install", "a"), 2, "/out/built: doesn't tell the toolchain: remove it, and ./coverage run")
        it.write("out/built", stamp)
        assert not os.path.exists(f"{it.at}/a")
        os.makedirs(f"{it.at}/a/bin")
        it.write("a/bin/coverage", "another's")
        refused(it.call("install", "a"), 2, "/a/bin/coverage: stands there, and was not installed by this program\n")
        equal(bytes_below(f"{it.at}/a"), {"bin/coverage": b"another's"})
        refused(it.call("install", "README.md"), 6, "coverage: ")
        refused(it.call("install", "--uninstall", "a"), 2, "/a/lib/coverage/files: isn't there: nothing is installed\n")
        well(it.call("install", "b"))
        it.write("b/lib/coverage/files", "bin/coverage\n../../README.md\n")
        for words in (["b"], ["--uninstall", "b"]):
            refused(it.call("install", *words), 2, "no list of what was installed: '../../README.md'\n")
        equal(it.read("b/bin/coverage"), it.read("coverage"))


def is_staged() -> None:
    """install: where DESTDIR is set all goes to that folder, followed by the one that is named"""
    with checkout() as it:
        it.make_built()
        it.env["DESTDIR"] = "stage"
        listed = well(it.call("install", "/usr/local")).output.decode().splitlines()
        equal(listed, [f"{it.at}/stage/usr/local/{name}" for name in files_below(f"{it.at}/stage/usr/local")])
        equal(well(run([f"{it.at}/stage/usr/local/bin/coverage", "run"], FIRST.job())).output, FIRST_REPORT)
        equal(well(it.call("install", "--uninstall", "/usr/local")).output.decode().splitlines(), listed)
        equal(files_below(f"{it.at}/stage"), [])


def is_taken_away() -> None:
    """install: files that are none any more are taken away, all of them by --uninstall, and those of others stay"""
    with checkout() as it:
        it.make_built()
        well(it.call("install", "a"))
        os.remove(f"{it.at}/examples/first.job")
        it.write("a/bin/other", "another's")
        it.write("a/lib/coverage/scripts/other", "another's")
        # Names of temporary files are none of others'.
        it.write("a/bin/other.target", "another's")
        it.write("a/bin/other.new", "another's")
        os.symlink("other.target", f"{it.at}/a/bin/coverage.new")
        well(it.call("install", "a"))
        equal(os.path.exists(f"{it.at}/a/share/doc/coverage/examples/first.job"), False)
        own = [name for name in files_below(f"{it.at}/a") if "other" not in name and name != "bin/coverage.new"]
        equal(it.read("a/lib/coverage/files").splitlines(), own)
        well(it.call("install", "--uninstall", "a"))
        names = ("bin/other", "bin/other.new", "bin/other.target", "bin/coverage.new", "lib/coverage/scripts/other")
        equal(bytes_below(f"{it.at}/a"), dict.fromkeys(sorted(names), b"another's"))
        equal(sorted(os.listdir(f"{it.at}/a/share")), ["doc", "man"])
        equal(os.listdir(f"{it.at}/a/share/doc"), [])
        refused(it.call("install", "--uninstall", "a"), 2, "nothing is installed\n")


def is_cut_off() -> None:
    """install: one that can't write a file leaves the earlier one whole, and is mended by the next"""
    with checkout() as it:
        it.make_built()
        well(it.call("install", "a"))
        had = bytes_below(f"{it.at}/a")
        # In blocks of 1,024 bytes: less than the program has.
        refused(it.call("install", "a", before="ulimit -f 64"), 6, "/a/lib/coverage/coverage_program: File too large\n")
        equal(bytes_below(f"{it.at}/a"), had)
        refused(it.call("install", "b", before="ulimit -f 64"), 6, "/b/lib/coverage/coverage_program: File too large\n")
        assert not os.path.exists(f"{it.at}/b/bin/coverage")
        well(it.call("install", "b"))
        equal(bytes_below(f"{it.at}/b"), had)
        # What stands where a folder is wanted is another's, and is in the way of no --uninstall.
        os.makedirs(f"{it.at}/c/share")
        it.write("c/share/man", "another's")
        refused(it.call("install", "c"), 6, "/c/share/man/man1/coverage.1: File exists\n")
        well(it.call("install", "--uninstall", "c"))
        equal(bytes_below(f"{it.at}/c"), {"share/man": b"another's"})


# The manual page

def page_source() -> str:
    """The source of the manual page."""
    with open(f"{TOP}/coverage.1", encoding="utf-8") as file:
        return file.read()


def section_of(title: str) -> str:
    """A section of the page's source."""
    return page_source().partition(f".Sh {title}\n")[2].partition("\n.Sh ")[0]


def page_as_help() -> None:
    """coverage.1: it has the commands with their words and the options that --help has, and no others"""
    text = well(coverage("--help")).output.decode()
    usages = re.findall(r"^(?:usage:|      ) coverage (.*)$", text, re.M)
    equal(re.findall(r"^\.It Cm (.*)$", section_of("COMMANDS"), re.M), usages)
    options = {it[2:] for it in re.findall(r"--[a-z-]+", text) if it != "--help"} | {"help"}
    equal(set(re.findall(r"^\.(?:It )?Fl -([a-z-]+)", page_source(), re.M)), options)
    equal(set(re.findall(r"^\.It Fl -([a-z-]+)", section_of("OPTIONS"), re.M)), options)


def page_has_statuses() -> None:
    """coverage.1: it has each exit status of docs/REPORT.md with its line, and those of the command itself"""
    with open(f"{TOP}/docs/REPORT.md", encoding="utf-8") as file:
        rows = re.findall(r"^\| ([0-9]+) \| (?:`([A-Z ]+)[^`]*`|)", file.read().partition("## Exit status\n")[2], re.M)
    items = [it.partition("\n") for it in re.split(r"^\.It Li ", section_of("EXIT STATUS"), flags=re.M)[1:]]
    told = {status: text.replace("\n", " ") for status, _, text in items}
    equal(list(told), [*dict(rows), "80", "81", "83", "70", "71", "72", "73", "130"])
    for status, line in rows:
        # Its first words in capitals.
        begin = " ".join(it for it in line.split() if len(it) > 1)
        assert begin in told[status], (status, line, told[status])


def formats(words: list[str]) -> Optional[str]:
    """What a formatter has to say of the page; none where it isn't there."""
    if not shutil.which(words[0]):
        return None
    ran = subprocess.run([*words, f"{TOP}/coverage.1"], stdin=subprocess.DEVNULL, capture_output=True, check=False)
    said = ran.stderr.decode() + ran.stdout.decode() * ("lint" in words)
    # Of pages that it has not looked at yet.
    return "".join(it for it in said.splitlines(True) if "outdated mandoc.db" not in it)


def page_is_well_formed() -> None:
    """coverage.1: no formatter that is here complains of it"""
    for words in (["mandoc", "-T", "lint"], ["groff", "-mandoc", "-ww", "-z"], ["man", "--warnings", "-l"]):
        equal((words, formats(words) or ""), (words, ""))


CHECKS = [
    is_put, stands_alone, names_its_commit, is_refused, is_staged, is_taken_away, is_cut_off,
    page_as_help, page_has_statuses, page_is_well_formed,
]
