"""Random calls of the scripts and of the front, on good, damaged and hostile files, and under what drawing/endurance_calls.py has.

What is good is told by docs/: cards that make a job, a job's first bad line, a union, the sums of a report, and what the program
answers. The rest is judged by what no call may do.
"""
from __future__ import annotations

import json
import os
import random
import re
import resource
import signal
import xml.etree.ElementTree as tree
from typing import Callable

from drawing import endurance_inputs, services_inputs
from drawing.endurance_calls import EXPLAINING, FOLDER, LONG, PIPE, SHORT, Call, Met, Ran, fault_of, nothing
from drawing.operands import BASE
from drawing.programs import Writer
from fixtures import decks
from fixtures.harness import PROGRAM, run
from fixtures.jobs import HEADING, listing_of
from models import marks_model, model

__all__ = ["drawn", "fault_of"]
REPORTS = ("page", "summary", "lcov", "cobertura", "diff")
SCRIPTS = ("module", "job", "check", "union", *REPORTS)
# The folder that lcov and install write into.
MADE = "made"
FORMS = (
    "INPUT TEXT 'FIRST  0012'", "INPUT TEXT-ASCII 'it''s'", "INPUT PACKED -123 5", "INPUT PACKED 1 17", "INPUT FULL 42 -1",
    "INPUT FULL", "INPUT FILE none", "INPUT TEXT 'a", "DATA 0 FULL 4294967296", "INPUT PACKED 12345 2", "INPUT FILE one",
    "INPUT FILE ..", "INPUT FILE /dev/zero",
)
# Names of files; the first of them also of a folder that install is called with.
NAMES = (
    " a b", "a\nb", "$(touch ran)", "it's \"q\"", "100%s%n", "\udcff\udcfe", "-dash", "--leave-out", "`touch ran`", "a;touch ran",
    "*", "~", "a\\b", "\x1b[31m", "\u00e9\u4e00", "n" * 255, "n" * 256, "no/such", "./a", "CON=FFFFFF",
)
OF_FOLDERS = NAMES[:6]
# Numbers of processes, and shares that --fail-under asks for.
COUNTS = ("1", "2", "1", "2", "0", "65", "x", "-1", "", "9" * 5000)
SHARES = ("0", "50", "90%", "99.5", "100", "101", "-1", "1e1", "9" * 5000, "", "nan", "90.1234567890")
# Files of others in a folder that install is called with: by their names their bytes, or what a link names.
FOREIGN: tuple[tuple[str, bytes | str], ...] = (
    ("bin/coverage", b"mine"), ("bin/coverage.new", b"mine"), ("bin/mine", b"mine"), ("lib/coverage/files.new", "../../mine"),
    ("lib/coverage/coverage_program.new", FOLDER), ("lib/coverage/scripts/mine.py", b"mine"), ("share/man", b"mine"),
    ("share/doc/coverage/README.md.new", b"mine"), ("mine", b"mine"), ("bin/coverage", "../mine"),
)
# What a link at the name of a file names.
OTHERS = ("missing", "/dev/full", "/dev/zero", "/dev/null", "/proc/self/mem", "/dev/stdin")
# What stands in the environment.
SURROUNDINGS = (
    ("PYTHONSAFEPATH", "1"), ("PYTHONPATH", "."), ("PYTHONWARNINGS", "error"), ("PYTHONIOENCODING", "latin-1"), ("LC_ALL", "C"),
    ("PYTHONOPTIMIZE", "2"), ("POSIXLY_CORRECT", "1"), ("TMPDIR", "/no/such"), ("HOME", "/no/such"), ("PYTHONHASHSEED", "7"),
    ("PYTHONUTF8", "0"), ("PYTHONINSPECT", "1"), ("GREP_COLORS", "mt=1"), ("me", "x"), ("CDPATH", "/"), ("program", "/bin/true"),
)


# ---- decks, cards and marks


def is_job(front: bytes, end: bytes) -> Callable[[Ran, str], str | None]:
    """Checks that what is written, between these lines, is a job."""

    def check(ran: Ran, _: str) -> str | None:
        try:
            model.job_of(front + ran.output + end, True, True)
        except model.Refused as refused:
            return f"{refused} of {ran.output[:200]!r}"
        return None

    return check


def deck(draw: random.Random, text: bytes) -> bytes:
    """An object deck of a section with the text, and of others at times."""
    size = len(text)
    cards = [decks.esd(1, decks.item("ONE", 0, 0, size))]
    for number in range(2, draw.choice((2, 2, 3, 4))):
        cards.append(decks.esd(number, decks.item(f"S{number}", draw.choice((0, 2, 4, 5)), 4096 * number, draw.choice((0, 4, 8)))))
    if draw.random() < 0.3:
        names = draw.sample(("SVC000", "SVC010", "SVC035", "SVC254", "SVC003", "SVC10"), 2)
        cards.append(decks.esd(None, *(decks.item(it, 1, draw.choice((0, 2, size)), 1) for it in names)))
    cards += [decks.txt(1, at, text[at : at + 56].hex()) for at in range(0, size, 56)]
    if draw.random() < 0.3:
        cards.append(decks.rld(f"000100010C{draw.randrange(0, 16):06X}"))
    return b"".join([*cards, decks.END])


def module_call(draw: random.Random) -> Call:
    """`module` with an object, a deck or only bytes, and a listing."""
    program = Writer(draw).program()
    text = bytes(program.text[: draw.choice((2, 40, 500, 2048))])
    code = [it for it in program.code if it[0] + len(it[1]) // 2 <= len(text)]
    lines = listing_of(code, draw.random() < 0.2) if code else [HEADING]
    source = ("\n".join([*lines, ""])).encode("cp037" if draw.random() < 0.1 else "ascii")
    files = {"object": deck(draw, text) if draw.random() < 0.7 else text, "listing": source}
    if draw.random() < 0.5:
        name = draw.choice(list(files))
        files[name] = endurance_inputs.damaged(draw, files[name])
    base = draw.choice((f"{BASE:06X}", "180000", "FFE000", "100004", "FFEFF8", "0FFFF8", "1000"))
    words = ["module", *(["--strict"] if draw.random() < 0.2 else []), draw.choice(("M", "M", "ORDERS", "9X")), base, "object"]
    words += [*(["listing"] if draw.random() < 0.8 else []), *(["S2=180000"] if draw.random() < 0.2 else [])]
    words += ["--services"] if draw.random() < 0.2 else []
    return Call(words, {**files}, check=is_job(b"COVERJOB 1\n", b"ENDJOB\n"))


def job_call(draw: random.Random) -> Call:
    """`job` of the cards of a job in one file or two, with services and with forms of data at times."""
    lines = (services_inputs.job(draw) if draw.random() < 0.3 else endurance_inputs.job(draw)).split(b"\n")[1:]
    cut = draw.choice([n for n, it in enumerate(lines) if it.startswith((b"PHASE", b"ENDJOB"))] or [0])
    own = lines[: lines.index(b"ENDJOB")] if b"ENDJOB" in lines else lines
    if draw.random() < 0.4 and len(own) > 1:
        own.insert(draw.randrange(1, len(own)), draw.choice(FORMS).encode())
    files = {"one": b"\n".join([*own[:cut], b""]), "two": b"\n".join([*own[cut:], b""])}
    if draw.random() < 0.4:
        files["two"] = endurance_inputs.damaged(draw, files["two"])
    return Call(["job", "one", "two"], {**files}, check=is_job(b"", b""))


def check_call(draw: random.Random) -> Call:
    """`job --check` of a job, whose first bad line is the program's."""
    data = services_inputs.job(draw) if draw.random() < 0.3 else endurance_inputs.job(draw)
    data = endurance_inputs.damaged(draw, data) if draw.random() < 0.8 else data
    has_services = draw.random() < 0.5
    words = ["job", "--check", *["--services"][:has_services]]
    try:
        model.job_of(data, True, has_services)
    except model.Refused as refused:
        return Call(words, data=data, status=2, error=f"line {refused.answer[1].split()[-1].decode()}")
    return Call(words, data=data, status=0)


def united(files: dict[str, bytes]) -> tuple[int, str, bytes]:
    """The status of `union`, what standard error has, and the union."""
    first: marks_model.File | None = None
    for name, data in files.items():
        at = 0
        try:
            while at < len(data) or not at:
                file = marks_model.file_of(data, at)
                marks_model.compare(first or file, file)
                first, at = first or file, file.end
        except model.Refused as refused:
            return refused.answer[0], f"{name}: {refused}", b""
    return 0, "", marks_model.combined(b"".join(files.values()))


def union_call(draw: random.Random) -> Call:
    """`union` of files."""
    whole = endurance_inputs.files(draw)
    files: dict[str, bytes] = {}
    at = 0
    while at < len(whole):
        end = marks_model.file_of(whole, at).end
        files[f"f{len(files):02}.marks"], at = whole[at:end], end
    if not files or draw.random() < 0.3:
        files["last.marks"] = endurance_inputs.damaged(draw, whole)
    status, error, output = united(files)
    processes = draw.choice(("", *COUNTS))
    given: dict[str, bytes | str] = dict(files)
    words = [*files]
    if draw.random() < 0.3:
        last = draw.choice(("\n", "\0"))
        given["list"] = "".join(f"{it}{last}" for it in files).encode()
        words = [*(["-0"] if last == "\0" else []), "--files-from", "list"]
    words = ["union", *(["--processes", processes] if processes else []), *words]
    if processes not in ("", "1", "2"):
        return Call(words, given)

    def check(ran: Ran, _: str) -> str | None:
        return None if ran.output == output else f"{ran.output[:60].hex()}, and not {output[:60].hex()}"

    return Call(words, given, check=check, status=status, error=error)


# ---- reports


def report_of(draw: random.Random, program: str) -> bytes:
    """A report of the program's, and counts and ends of the same job behind it at times."""
    while True:
        word = draw.choice(("run", "run", "exits", "early", "show", "count", "replay"))
        if word == "replay":
            it = endurance_inputs.replay_of(draw)
        else:
            it = endurance_inputs.input_of(draw, word)
        if it.answer.status == 0:
            break
    text = run([program, *it.words], it.data).output
    for more in ("count", "ends") if word == "run" and draw.random() < 0.4 else ():
        ran = run([program, more], it.data)
        text += ran.output if ran.status == 0 else b""
    return text


def sums(text: bytes) -> list[int]:
    """The places, executed places, facts and facts that there can be of a report's modules together."""
    rows = re.findall(rb"^MODULE \S+ PLACES ([0-9]+) EXECUTED ([0-9]+) FACTS ([0-9]+) OF ([0-9]+)$", text, re.M)
    return [sum(map(int, column)) for column in zip(*rows)] if rows else [0, 0, 0, 0]


def left_by(draw: random.Random, text: bytes) -> bytes:
    """A file of rules on what a report doesn't count, at times damaged or long."""
    modules, labels = re.findall(rb"^MODULE (\S+)", text, re.M) or [b"M"], (b"ABC*", b"L1", b"LOOP", b"X*", b"ABCDEFGH")
    rules = []
    for _ in range(draw.choice((0, 1, 3, 3, 1000))):
        first = draw.randrange(0, 64, 2)
        spot = draw.choice((b"%06X-%06X" % (first, first + draw.choice((0, 2, 64))), draw.choice(labels)))
        rules.append(b"%s %s%s" % (draw.choice((*modules, b"*", b"Z")), spot, draw.choice((b"", b" why", b" \xff", b"\r"))))
    data = b"".join(it + b"\n" for it in (b"// Not to be counted", *rules, b""))
    return endurance_inputs.damaged(draw, data) if draw.random() < 0.3 else data


def spliced(draw: random.Random, text: bytes) -> bytes | None:
    """A report of which a whole part is lost or stands twice, as no run writes it; none where it has no such part."""
    parts = {
        "lost": rb"^NOT EXECUTED .*\n", "task": rb"^TASK (?:.*\n)+?(?=TASK|SESSION|END\n)",
        "session": rb"^SESSION (?:.*\n)+?(?=SESSION|END\n)", "module": rb"^MODULE (?:.*\n)+?(?=MODULE|SESSION|END\n)",
    }
    kind = draw.choice(list(parts))
    found = list(re.finditer(parts[kind], text, re.M))
    if not found or not text.startswith(b"COVERAGE REPORT\n") or text.count(b"\nEND\n") != 1:
        return None
    it = draw.choice(found)
    return text[: it.start()] + (b"" if kind == "lost" else 2 * it[0]) + text[it.end() :]


def fits(script: str, text: bytes) -> Callable[[Ran, str], str | None]:
    """Checks sums of what is written."""
    places, executed, facts, possible = sums(text)

    def check(ran: Ran, at: str) -> str | None:
        if script == "summary":
            found = json.loads(ran.output)
            had = [found["places"]["of"], found["places"]["executed"], found["facts"]["shown"], found["facts"]["of"]]
            left = [found["left_out"]["places"], found["left_out"]["executed"]]
            is_same = had == [places, executed, facts, possible] if not any(left) else True
            is_same = is_same and [had[0] + left[0], had[1] + left[1]] == [places, executed]
            return None if is_same else f"{had} and {left} left out, and not {[places, executed, facts, possible]}"
        if script == "cobertura":
            lines = [it for it in tree.fromstring(ran.output).iter("class")]
            count = sum(len(it.findall("./lines/line")) for it in lines)
            return None if count == places else f"{count} lines, and not {places}"
        if script == "lcov":
            path = next(f"{place}/coverage.info" for place, _, names in os.walk(at) if "coverage.info" in names)
            with open(path, encoding="ascii") as file:
                hits = re.findall(r"^DA:[0-9]+,([0-9]+)", file.read(), re.M)
            had = [len(hits), sum(it != "0" for it in hits)]
            return None if had == [places, executed] else f"{had} lines and executed ones, and not {[places, executed]}"
        return None if script != "page" or ran.output.startswith(b"<!DOCTYPE html>") else f"no page: {ran.output[:40]!r}"

    return check


def report_call(draw: random.Random, script: str, program: str = PROGRAM) -> Call:
    """A script that reads a report, at times with places that don't count, or in place of an earlier result."""
    text = report_of(draw, program)
    bad = spliced(draw, text) if draw.random() < 0.25 else None
    # Some scripts refuse a report without a listing, and counts alone.
    is_good = bad is None and draw.random() < 0.6 and sums(text)[0] > 0
    data = bad or (text if is_good else endurance_inputs.damaged(draw, text))
    words = {"summary": ["--json"], "lcov": [MADE], "diff": ["old", "new"]}.get(script, [])
    if script == "page" and draw.random() < 0.3:
        words = ["--against", "old"]
    files: dict[str, bytes | str] = {"old": text, "new": data} if "old" in words else {}
    it = Call([script, *words], files, b"" if "new" in words else data, status=2 if bad else None)
    if is_good:
        it.check, it.status = fits(script, text), 0 if script not in ("diff", "page") else None
    if script == "summary" and draw.random() < 0.3:
        it.words[1:], it.check, it.status = ["--fail-under", draw.choice(SHARES)], nothing, None
    if script == "cobertura" and draw.random() < 0.3:
        it.met.environment["SOURCE_DATE_EPOCH"] = draw.choice((*COUNTS, "1700000000", "1e9", "9" * 17))
        it.check, it.status = nothing, None
    if draw.random() < 0.3:
        it.words[1:1], it.files["left"] = ["--leave-out", "left"], left_by(draw, text)
        it.check, it.status = it.check if script == "summary" else nothing, None
    if script == "lcov":
        it.made = MADE
        it.first = Call(["lcov", MADE], data=report_of(draw, program)) if draw.random() < 0.7 else None
    return it


# ---- the program, what explains its refusals, and install


def program_call(draw: random.Random) -> Call:
    """A command of the program."""
    it = endurance_inputs.drawn(draw)
    while it is None or it.runs > 1 or not it.words or not it.words[0]:
        it = endurance_inputs.drawn(draw)
    is_late = it.words in (["run"], ["exits"], ["early"], ["services", "run"]) and draw.random() < 0.3
    words, source = [*it.words, *(["--must-return"] if is_late else [])], draw.choice(("pipe", "file"))
    if it.answer.status != 1 and draw.random() < 0.2:
        words += draw.choice((SHORT, LONG, LONG))
    return Call(words, data=it.data, answer=it.answer, is_program=True, met=Met(source=source))


def explained_call(draw: random.Random) -> Call:
    """A job whose refusal asks for much to explain: a large module of few different instructions, and a line that isn't its own."""
    size, code = draw.choice((64, 4096, 262_144, 262_144)), draw.choice(("1811", "1811", "41100001", "0000"))
    length = len(code) // 2
    count = min(draw.choice((3, 500, 8192, 8192)), size // length - 1)
    rows = [(at * length, code, "LR") for at in range(count)]
    at = draw.choice((0, count // 2, count - 1, count - 1))
    digits, name = draw.choice(("1822 LR", "1822 LR", "47F0C000 B", "18 LR", "0AFF SVC", "D2000000000000 MVC")).split()
    rows[at] = (at * length, digits, name)
    lines = ["COVERJOB 1", f"MODULE M 100000 {size}", *[f"TEXT {64 // length * code}"] * (size // 64)]
    lines += [f"LISTING {count + 1}", *listing_of(rows), "PHASE P", "SESSION S M", "TASK A 100000 16 9 0", "ENDJOB", ""]
    data = "\n".join(lines).encode()
    if draw.random() < 0.2:
        data = endurance_inputs.damaged(draw, data)
    words = draw.choice((["run"], ["table"], ["count"], ["services", "run"], ["marks", "S"]))
    return Call(words, data=data, is_program=True, met=Met("explained", source="file", sink="file"), seconds=EXPLAINING)


def install_call(draw: random.Random) -> Call:
    """`install` into a folder that has files of others, and mostly an earlier installation, which is put again or taken away."""
    made = draw.choice((MADE, *OF_FOLDERS))
    foreign = draw.sample(FOREIGN, draw.choice((0, 1, 3)))
    files: dict[str, bytes | str] = {f"{made}/{name}": it for name, it in foreign}
    call = Call(["install", made], files, made=made)
    if draw.random() < 0.7:
        call.first = Call(["install", made])
        call.words[1:1] = ["--uninstall"] * (draw.random() < 0.5)
    if draw.random() < 0.2:
        call.met.environment["DESTDIR"] = f"{made}/stage"
        call.words[-1] = "/proc/none"
    return call


# ---- what calls meet


def names_in(call: Call) -> list[str]:
    """The files of a call and the folder that it writes into."""
    return [*call.files, *([call.made] if call.made else [])]


def named(draw: random.Random, call: Call) -> None:
    """A file or the folder has another name."""
    new, old = draw.choice(NAMES), draw.choice([*names_in(call), ""])
    if not old or call.words[0] == "install":
        return
    for it in (call, call.first):
        if it:
            it.words = [new if word == old else word for word in it.words]
    call.files = {new if name == old else name: data for name, data in call.files.items()}
    call.made, call.error = new if call.made == old else call.made, ""
    if new.startswith("-") or len(new) > 255 or "list" in call.files:
        call.status, call.check = None, nothing


def replaced(draw: random.Random, call: Call) -> None:
    """Something else stands where a file is to be."""
    call.status, call.check = None, nothing
    if names := names_in(call):
        it = draw.choice(names)
        call.files[it] = draw.choice((FOLDER, PIPE, it, *OTHERS))
    # Nobody writes the pipe.
    call.met.signal, call.met.after = draw.choice((signal.SIGINT, signal.SIGTERM)), draw.uniform(1, 2)
    call.met.source = "file"


def limited(draw: random.Random, call: Call) -> None:
    """Memory, descriptors or the sizes of files are limited."""
    call.met.source = "file"
    number = draw.choice((resource.RLIMIT_AS, resource.RLIMIT_NOFILE, resource.RLIMIT_FSIZE))
    if number == resource.RLIMIT_FSIZE:
        call.met.sink = "file"
    most = {
        resource.RLIMIT_AS: [it << 20 for it in (40, 50, 60, 80, 120)], resource.RLIMIT_NOFILE: range(5, 20),
        resource.RLIMIT_FSIZE: [0, 1, 1000, 4096, 10_000, 100_000],
    }
    call.met.limits[number] = draw.choice(most[number])


def signalled(draw: random.Random, call: Call) -> None:
    """A signal comes, mostly soon; at times while standard input is waited for."""
    numbers = (signal.SIGINT, signal.SIGINT, signal.SIGTERM, signal.SIGHUP, signal.SIGPIPE, signal.SIGQUIT)
    call.met.signal, call.met.is_for_all = draw.choice(numbers), draw.random() < 0.5
    call.met.after = draw.choice((draw.uniform(0, 0.1), draw.uniform(0, 1.2 if call.made else 0.5)))
    call.met.source = draw.choice(("pipe", "file"))


def closed(draw: random.Random, call: Call) -> None:
    """Some of the first descriptors are closed."""
    call.met.closed = tuple(draw.sample((0, 1, 2), draw.choice((1, 1, 2, 3))))


def turned(draw: random.Random, call: Call) -> None:
    """Standard input or output is something else."""
    call.met.source = draw.choice(("pipe", "file", "ended", "/", "/dev/null", "/proc/self/mem"))
    call.met.sink = draw.choice(("pipe", "file", "ended", "/dev/full", "/", "/dev/null"))


def surrounded(draw: random.Random, call: Call) -> None:
    """The environment has what Python, Bash or the tools go by."""
    call.met.environment.update(draw.sample(SURROUNDINGS, 2))
    call.files = {"json.py": b"open('ran', 'w').close()\n", **call.files}


def doubled(draw: random.Random, call: Call) -> None:
    """A second call into the same folder runs at once."""
    if call.made:
        call.met.source = "file"
        other = [it for it in call.words if it != "--uninstall"]
        data = call.first.data if call.first and call.words[0] == "lcov" else call.data
        call.second = Call(other, data=data, met=Met(source="file", environment=call.met.environment))
        call.check = nothing


MEETING = {
    "name": named, "other file": replaced, "limit": limited, "signal": signalled, "closed": closed, "turned": turned,
    "environment": surrounded, "two at once": doubled,
}


def drawn(draw: random.Random, program: str = PROGRAM) -> Call:
    """A call of any command, and what it meets."""
    makers = {
        "module": module_call, "job": job_call, "check": check_call, "union": union_call, "program": program_call,
        "explained": explained_call, "install": install_call,
    }
    kind = draw.choice((*SCRIPTS, *SCRIPTS, "program", "program", "program", "explained", "install"))
    call = makers[kind](draw) if kind in makers else report_call(draw, kind, program)
    call.program = program
    if kind != "explained" and draw.random() < 0.6:
        call.met.kind = draw.choice([it for it in MEETING if it != "two at once" or call.made])
        MEETING[call.met.kind](draw, call)
    return call
