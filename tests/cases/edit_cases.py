"""The command edits: whether each edit can be applied here, and what comes of edits by a toolchain that only pretends."""
from __future__ import annotations

import os
import signal
import subprocess
import sys
from typing import Iterator

from cases.build_cases import Copy, copy, wait_for
from fixtures.harness import SECONDS, TOP, Ran, equal, interruptible, refused, run, well

sys.path.insert(0, f"{TOP}/scripts")

from developer.edit_files import name_of_impl

# It tells its line, and proves the crates of a room: of each it leaves a library there.
RT = """#!/usr/bin/env bash
[ "$1" = version ] && { cat "$TEST_TOP/version"; exit; }
echo "$*" >> "$TEST_TOP/asked"
[ -d .git ] || exit 2
[ -e "$TEST_TOP/hold-ci" ] && { echo $$ > "$TEST_TOP/held"; exec sleep 300; }
[ -e "$TEST_TOP/open" ] && { echo 'rt: low NOT PROVED'; exit 1; }
while IFS=: read -r crate _; do mkdir -p crates/$crate/out/rlib/$crate.rlib; done < crates.txt
"""
# The words of a check, by the toolchain's module.
MODULE = """import os
RATTLE = os.path.dirname(os.path.realpath(__file__)) + "/rattle"


class Crate:
    def __init__(self, folder, root, known):
        self.folder, self.root = folder, root

    def words(self, flags, keeps):
        return [self.folder, *flags]
"""
# A check: what a function says stands in its body, `let NAME = WORD;`, and the word tells what comes of it.
RATTLE = """#!/usr/bin/env python3
import glob, os, re, signal, sys, time
top, (verb, crate, *words) = os.environ["TEST_TOP"], sys.argv[1:]
only = [words[at + 1] for at, it in enumerate(words) if it == "--only"]
name = os.path.basename(crate)
where = "here" if crate.startswith(top + "/crates/") else "a room"
assert verb == "check" and words[:3] == ["--jobs", "1", "--allow-holes"]
assert where == "here" or os.path.isdir(f"{crate}/out/rlib/{name}.rlib")
with open(f"{top}/asked", "a") as file:
    file.write(f"check {name} over {where}: {' '.join(only)}\\n")
lines = [(path, number, line) for path in sorted(glob.glob("src/**/*.rt", recursive=True))
         for number, line in enumerate(open(path), 1)]
says = {found[1]: found[2] for *_, line in lines for found in [re.match(r" *let (\\w+) = (\\w+);", line)] if found}
for path, number, line in lines:
    if "nonsense" in line:
        sys.exit(f"{path}:{number}:5: error: nonsense isn't in scope")
if "held" in says.values():
    with open(f"{top}/held", "w") as file:
        file.write(str(os.getpid()))
    time.sleep(300)
if "killed" in says.values():
    os.kill(os.getpid(), signal.SIGKILL)
for it in only:
    if it.split("::")[-1] not in says:
        sys.exit(f"error: `{it}` fits no function")
for it in only:
    last, file = it.split("::")[-1], it.replace("::", "/")
    hole = f"proofs/{file}/Proof.antt"
    assert not os.path.exists(hole) and os.path.exists("proofs/" + file.replace(last, "other") + "/Proof.antt"), hole
    word, answers = says[last], f"Rattle.{name}.proofs.{it.replace('::', '.')}.Answers"
    found = {"gone": "`u` is not in scope", "spent": "antt ran out of the steps", "differs": "expected 1, found 2"}.get(word)
    if found:
        print(f"./proofs/{file}/Answers.antt:2:1: error: `x`: {found}")
    if word in ("open", "false"):
        notes = ["so (`bounds`)", "so (`returns-clause-mosts`)", "so (`returns-clause-most`)"]
        notes += ["so (`returns`); the facts known there allow values at which this goal is false"] * (word == "false")
        for note in notes:
            print(f"note: src/lib.rt:2:5: it is not proved that {note}")
    called = word.removeprefix("calls_")
    print(f"fn {name}::{it}: " + (
        "no holes" if word in ("good", "same") else f"depends on a hole in `{answers}`" if word == "upon" else
        f"not proved; it stands on `{answers}.x`, which antt refuses" if found else
        f"not proved; it calls `{name}::{called}`, which is not proved" if word != called and called in says else
        "could not tell" if word == "unclear" else
        f"no proof: expected answers in ./proofs/{file}/Answers.antt; `search` did not prove `x`"))
print(f"only={len(only)} holes=1")
"""
LISTED = "low:\ncoverage_program: low arrayvec\nother: low\n"
SOURCE = """const MOST: u8 = 1;

fn other() {
    let other = nonsense;
    let none = 1;
    none
}

pub fn first(
    a: u8,
) -> u8
    ensures most { result ≤ 1 }
    ensures { result ≡ 1 }
{
    let first = good;
    if a {
        let not_first = 2;
    }
}

mod inner {
    pub struct Pair;

    impl<'a, T: Drop> From<Fault<T>> for Pair<'a> {
        fn second() {
            let second = good;
        }

        fn other()
            ensures { result ≡ 1 }
        {
            let other = nonsense;
        }
    }
}
"""


def body(function: str, word: str, file: str = "lib") -> str:
    """An edit by which a function says that word."""
    return f"file: src/{file}.rt\nold: let {function} = good;\nnew: let {function} = {word};\n"


def goal(path: str) -> str:
    """What is told of a function with an open goal."""
    return f"low::{path}: no proof: expected answers in ./proofs/{path.replace('::', '/')}/Answers.antt; `search` did not prove `x`"


def listed(it: Copy, crate: str = "low", **edits: str) -> None:
    """Lists these edits of a crate: one whose name begins with more_ isn't the gate's."""
    of = {name: name.removeprefix("more_") for name in edits}
    heads = {name: f"{'gate' if name == of[name] else 'more'}: {of[name]}" for name in edits}
    it.write(f"crates/{crate}/wrong-bodies.txt", "# some\n" + "".join(f"\n{heads[name]}\n{text}" for name, text in edits.items()))


def prepare(it: Copy, **edits: str) -> None:
    """Gives the crate low its source, and these edits."""
    for name, text in {"rt": RT, "rtlib.py": MODULE, "rattle": RATTLE}.items():
        it.write(f"bin/{name}", text)
        os.chmod(f"{it.at}/bin/{name}", 0o755)
    it.write("version", "pretended-kit\n")
    it.write("crates/low/src/lib.rt", SOURCE)
    listed(it, **edits)


def call(it: Copy, *words: str) -> Ran:
    return run(["python3", "-I", "-B", f"{it.at}/scripts", "edits", *words], env=it.env)


def said(ran: Ran) -> list[str]:
    return sorted(ran.output.decode().splitlines()[:-1])


def last(ran: Ran) -> tuple[int, str]:
    return ran.status, ran.output.decode().splitlines()[-1]


def can_be_applied() -> None:
    """edits: each edit can be applied to the sources as they stand, and the function that it changes is known"""
    ran = run(["python3", "-I", "-B", f"{TOP}/scripts", "edits", "--look"])
    words = well(ran).output.decode().split()
    assert words[:3] == ["edits", "looked", "at:"] and 250 < int(words[3].rstrip(";")) < 500 and words[4] == "0", ran


def are_named() -> None:
    """edits: what a check calls an impl, by its head"""
    equal([name_of_impl(it) for it in (
        "impl Addr", "impl<'a> Core<'a>", "impl<C: Cells<Pass: Send>, const N: usize> Planted<C, N>",
        "impl<W: Write> StdSink<BufWriter<W>>",
        "impl Copy for Addr", "impl<'a, C: Cells> Observer for Planted<'a, C>", "impl<T: Drop> From<AllocFailed<T>> for NoMemory",
        "impl Rank for &u8", "impl<O: Observer> Hook<O> for NoHook", "impl<K: Marking> Play<NoSlot, View> for Read<K>",
        "impl<T> module::Tr for Of<T> where T: Drop",
    )], [
        "Addr", "Core", "Planted", "StdSink+BufWriter+W", "AddrCopy", "PlantedObserver", "NoMemoryFromAllocFailed", "RefU8Rank",
        "NoHookHook", "ReadPlayNoSlotView", "OfTr",
    ])


def are_tried() -> None:
    """edits: a crate's edits stand in one check, each is judged by its own function, and those that pass are told"""
    with copy(LISTED) as it:
        both = {"a": f"breaks: most\n{body('first', 'wrong')}", "b": body("second", "differs")}
        prepare(it, **both)
        ran = well(call(it))
        second_path = "inner::PairFromFault::second"
        second = "proofs/inner/PairFromFault/second/Answers.antt:2:1: error: `x`: expected 1, found 2"
        equal(said(ran), [f"low/a (breaks most): refused: {goal('first')}", f"low/b: refused: ./{second}"])
        equal(last(ran), (0, "edits tried: 2; each was refused"))
        equal(it.lines("asked"), ["ci", "check low over a room: first inner::PairFromFault::second"])
        # The others are tried where they are asked for.
        listed(it, **both, more_c=body("first", "upon"))
        equal(well(call(it, "low")).output, b"edits tried: 2, 2 of them before; each was refused\n")
        ran = call(it, "--all", "low")
        equal(said(ran), ["low/c: LET THROUGH: low::first is still proved"])
        equal(last(ran), (1, "edits tried: 3, 2 of them before; not each was refused"))
        # As it stands each function is proved.
        ran = well(call(it, "--all", "--unedited"))
        paths = ("first", second_path, "first")
        names = ("a (breaks most)", "b", "c")
        equal(said(ran), [f"low/{name}: as it must be: low::{path} is still proved" for name, path in zip(names, paths)])
        equal(last(ran), (0, "functions of edits looked at: 3; each was proved"))
        equal((it.rooms(), sorted(os.listdir(f"{it.at}/crates/low"))), ([], ["src", "wrong-bodies.txt"]))


def are_told_apart() -> None:
    """edits: a refusal for a name alone, a limit, and what doesn't compile show nothing, and are no refusals"""
    for word, came in (
        ("gone", "REFUSED FOR A NAME ALONE: ./proofs/first/Answers.antt:2:1: error: `x`: `u` is not in scope"),
        ("spent", "NO VERDICT: ./proofs/first/Answers.antt:2:1: error: `x`: antt ran out of the steps"),
        ("unclear", "NO VERDICT: low::first: could not tell"),
        ("nonsense", "REFUSED FOR A NAME ALONE: src/lib.rt:15:5: error: nonsense isn't in scope"),
        ("killed", "NO VERDICT: the check ended with status -9: "),
    ):
        with copy(LISTED) as it:
            prepare(it, a=body("first", word), b=body("second", "wrong"))
            ran = call(it)
            path = "inner::PairFromFault::second"
            equal((word, said(ran)), (word, [f"low/a: {came}", f"low/b: refused: {goal(path)}"]))
            equal(last(ran), (1, "edits tried: 2; not each was refused"))
            # What had no verdict is tried again.
            well_then = call(it, "low")
            equal(said(well_then), [f"low/a: {came}"])


def false_goals_first() -> None:
    """edits: of the goals that are open one that is known to be false is told, or else one of the clause that is to break"""
    with copy(LISTED) as it:
        breaks = "breaks: most\n"
        prepare(it, a=body("first", "open"), b=breaks + body("first", "open"), c=breaks + body("first", "false"))
        goals = ("bounds`)", "returns-clause-most`)", "returns`); the facts known there allow values at which this goal is false")
        names = ("a", "b (breaks most)", "c (breaks most)")
        place = "src/lib.rt:2:5: it is not proved that so (`"
        equal(said(well(call(it))), [f"low/{name}: refused: {place}{goal}" for name, goal in zip(names, goals)])


def stand_apart() -> None:
    """edits: two of one function stand in two checks, and one that calls another function with an edit is tried again alone"""
    with copy(LISTED) as it:
        prepare(it, a=body("first", "wrong"), b=body("first", "differs"), c=body("second", "calls_first"))
        ran = well(call(it))
        equal(last(ran), (0, "edits tried: 3; each was refused"))
        asked = [line.partition(": ")[2] for line in it.lines("asked")[1:]]
        equal(sorted(asked), ["first", "first inner::PairFromFault::second", "inner::PairFromFault::second"])
    # Where the one that it calls is no edit's it is judged at once.
    with copy(LISTED) as it:
        prepare(it, c=body("second", "calls_first"))
        well(call(it))
        equal(len(it.lines("asked")), 2)


def are_named_by_themselves() -> None:
    """edits: where a place is in no function a line must name one, and there must be one of that name"""
    constant = "file: src/lib.rt\nold: MOST: u8 = 1\nnew: MOST: u8 = 2\n"
    with copy(LISTED) as it:
        prepare(it, a=constant)
        why = "src/lib.rt: its place is in no function, or in one within another: a line function: must say whose proof breaks"
        refused(call(it), 2, f"crates/low/wrong-bodies.txt: a: {why}\n")
        listed(it, a=f"function: third\n{constant}")
        ran = call(it)
        equal(said(ran), ["low/a: NO VERDICT: the check ended with status 1: error: `third` fits no function"])
        # Of a published constant no function's proof tells.
        os.mkdir(f"{it.at}/crates/low/specs")
        it.write("crates/low/specs/Published.antt", "use some.{MOST}\n\npub most_is : MOST ≡ 1\nmost_is = refl\n")
        why = "specs/Published.antt fixes MOST, which a check of the crate sees, and none of a function"
        refused(call(it), 2, f"crates/low/wrong-bodies.txt: a: {why}\n")


def are_kept() -> None:
    """edits: a refusal is kept until the edit, its crate, one below, or the toolchain changes; tests change nothing"""
    with copy(LISTED) as it:
        prepare(it)
        it.write("crates/coverage_program/src/main.rt", "fn main() {\n    let main = good;\n}\n\nfn other() {\n    a\n}\n")
        listed(it, "coverage_program", a=body("main", "wrong", "main"))

        def checks() -> int:
            before = len(it.lines("asked"))
            well(call(it))
            return len(it.lines("asked")) - before

        equal([checks(), checks()], [2, 0])
        listed(it, "coverage_program", a=body("main", "worse", "main"))
        equal([checks(), checks()], [2, 0])
        # (what else is said of it, and of others, changes nothing)
        listed(it, "coverage_program", more_b=body("main", "bad", "main"), a=f"\n# more\n{body('main', 'worse', 'main')}")
        equal(checks(), 0)
        for name, text, count in (
            ("crates/low/src/lib.rt", "fn other() {}\n", 2),
            ("crates/low/src/tests.rt", "", 0), ("crates/coverage_program/src/other.rt", "", 2), ("version", "a newer kit\n", 2),
            ("crates/other/src/lib.rt", "", 0),
        ):
            it.write(name, text)
            equal((name, checks(), checks()), (name, count, 0))


def are_here() -> None:
    """edits: --here takes the libraries that the gate has left, where they are newer than the sources and of no other command"""
    with copy(LISTED) as it:
        prepare(it, a=body("first", "wrong"))
        library = f"{it.at}/crates/low/out/rlib/low.rlib"

        def over() -> str:
            listed(it, a=body("first", f"wrong_{os.urandom(4).hex()}"))
            well(call(it, "--here"))
            return it.lines("asked")[-1].partition(" over ")[2].partition(":")[0]

        equal(over(), "a room")
        os.makedirs(library)
        equal(over(), "here")
        it.write("crates/low/out/rlib/stamp", "")
        equal(over(), "a room")
        os.remove(f"{it.at}/crates/low/out/rlib/stamp")
        os.utime(library, (1, 1))
        equal(over(), "a room")


def are_refused() -> None:
    """edits: words that it doesn't have, an edit that can't be applied, crates that aren't proved, and a missing toolchain"""
    first = body("first", "wrong")
    with copy(LISTED) as it:
        prepare(it, a=first)
        for words in (["--x"], ["low", "--look"], ["--look", "--all"], ["--here", "--all"]):
            refused(call(it, *words), 1, "usage: python3 scripts edits [--look | --all] [--here] [--unedited] [CRATE ..]\n")
        refused(call(it, "low", "other"), 2, "coverage: other: is no crate with edits that the gate tries\n")
        refused(call(it, "--all", "other"), 2, "coverage: other: is no crate with edits\n")
        listed(it, a=first, more_b=first)
        equal(well(call(it, "--look")).output, b"edits looked at: 2; 0 can't be applied\n")
        for text, why in (
            (first.replace("good", "none"), "the text of old: stands 0 times in src/lib.rt, and not once: let first = none;"),
            (first + "old: let\nnew: e\n", "the text of old: stands 6 times in src/lib.rt, and not once: let"),
            (first.replace("lib.rt", "main.rt"), "there is no file src/main.rt"),
            (first.partition("new:")[0], "no new: follows its last old: let first = good;"), ("", "it changes nothing"),
            (first.replace("wrong", "good"), "it changes nothing"),
            (f"breaks: least\n{first}", "no contract has a clause least, which is to break"),
        ):
            listed(it, a=text, more_b=first)
            refused(call(it), 2, f"crates/low/wrong-bodies.txt: a: {why}\n")
            equal(call(it, "--look", "low").output, b"edits looked at: 2; 1 can't be applied\n")
        # Each line must be one of an edit, in its place, and each name another.
        for text, number, line in (
            ("gate: a\na word\n", 2, "a word"), (f"gate: a\n{first}gate: a\n", 5, "gate: a"), (first, 1, "file: src/lib.rt"),
            ("gate: a\nold: one\n", 2, "old: one"), ("gate: a\nfile: one\nnew: two\n", 3, "new: two"),
            ("gate: a\nfile: one\nold: one\nold: two\n", 4, "old: two"), ("gate: a/b\n", 1, "gate: a/b"),
        ):
            it.write("crates/low/wrong-bodies.txt", text)
            why = f"is no line of an edit, or not in its place, or its name is another's too: {line}"
            refused(call(it, "--look"), 2, f"coverage: crates/low/wrong-bodies.txt:{number}: {why}\n")
        equal(it.lines("asked"), [])
        listed(it, a=first)
        it.write("open", "")
        why = "the crates themselves: are not proved; the last lines of what the toolchain said:\nrt: low NOT PROVED\n"
        refused(call(it), 1, why)
        os.remove(f"{it.at}/bin/rt")
        os.symlink(os.path.realpath(sys.executable), f"{it.at}/bin/python3")
        it.env["PATH"] = f"{it.at}/bin"
        refused(call(it), 70, "coverage: there is no toolchain: the command rt isn't found\n")
        equal(it.rooms(), [])


def ways_to_hold(it: Copy) -> Iterator[None]:
    """Has the toolchain wait as it proves the crates, and then in a check."""
    it.write("hold-ci", "")
    yield
    os.remove(f"{it.at}/hold-ci")
    listed(it, a=body("first", "held"))
    yield


def is_ended() -> None:
    """edits: a signal ends the toolchain too, and the copy goes; that of a killed call goes with the next"""
    for number, status, left in ((signal.SIGTERM, 130, 0), (signal.SIGINT, 130, 0), (signal.SIGKILL, -signal.SIGKILL, 1)):
        with copy(LISTED) as it, interruptible():
            prepare(it, a=body("first", "wrong"))
            for _ in ways_to_hold(it):
                command, pipe = ["python3", "-I", "-B", f"{it.at}/scripts", "edits"], subprocess.PIPE
                with subprocess.Popen(command, env=it.env, stdout=pipe, stderr=pipe, start_new_session=True) as started:
                    wait_for(lambda: it.lines("held"))
                    started.send_signal(number)
                    wait_for(lambda: not os.path.exists(f"/proc/{it.lines('held')[0]}"))
                    output, error = started.communicate(timeout=SECONDS)
                equal((started.returncode, output, error, len(it.rooms())), (status, b"", b"", left))
                os.remove(f"{it.at}/held")
            listed(it, a=body("first", "wrong"))
            well(call(it))
            equal(it.rooms(), [])


CHECKS = [
    can_be_applied, are_named, are_tried, are_told_apart, false_goals_first, stand_apart, are_named_by_themselves, are_kept,
    are_here, are_refused, is_ended,
]
