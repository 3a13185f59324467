"""Random inputs of the program's commands, good, damaged and hostile, each with what must come of it.

Jobs are drawn by models/ends_model.py, operands.py, programs.py, cases/race_cases.py and contention.py, those with services by
services_inputs.py, or are those of the worked rows; damage falls on any of them, and models/answers.py tells what comes.
Schedules are drawn by cases/replay_cases.py.
"""
from __future__ import annotations

import functools
import random
import re
from dataclasses import dataclass

from cases import damaged_cases, hostile_cases, marks_cases, race_cases, replay_cases, row_cases
from drawing import contention, operands, programs, services_inputs
from fixtures.harness import PROGRAM
from fixtures.jobs import HEADING, listing_of
from models import answers, core_model, ends_model, marks_model, model, task_runs
from models.machine_task import CODES
from trials import outside_instructions

REPORTS = ("run", "exits", "early", "count", "ends")
NAMED = ("marks", "show", "prove", "verify")
# Numbers of cards, among them those beside the limits of docs/JOB.md.
NUMBERS = (
    *("0", "1", "2", "8", "15", "16", "17", "00", "-1", "+1", "9", "150", "999999999", "1000000000", ""),
    *(str(limit + more) for limit in model.LIMITS.values() for more in (-1, 0, 1)),
)
# Bytes that damage brings.
BYTES = (b"\0", b"\xff", b" ", b"\n", b"\r", b"\r\n", b"0", b"F", b"f", b"A", b"S370COV1", b"S370COV2", b"\t", b"-")
CARDS = (
    b"COVERJOB 1", b"ENDJOB", b"PHASE P0", b"PHASE Z", b"MODULE M0 100000 8", b"MODULE Z 180000 2", b"TEXT 07FE", b"LISTING 1",
    b"TASK Z 100000 16 9 0", b"TASK T0 000000 0 1 0", b"REG 15 00000000", b"REG 0 FFFFFFFF", b"DATA 0 07FE", b"INPUT C1", b"",
    b"SERVICE 10 100000", b"SERVICE 254 fffffc", b"SERVICE 0 000000",
    b"SESSION Z M0", b"SESSION S00 M0 M0", b"SESSION Z BY T0 M0", b"SESSION Z BY Z M1", b"GO T0", b"ENDSCHED",
)


@dataclass
class Input:
    """Words and their input, what must come, and how often they are run."""

    words: list[str]
    data: bytes
    answer: answers.Answer
    runs: int = 1


# ---- jobs


@functools.cache
def rows() -> list[bytes]:
    """The jobs of the worked rows."""
    tables = (row_cases, hostile_cases, marks_cases)
    found = [it.input for table in tables for it in table.cases() if it.command == PROGRAM and it.input.startswith(b"COVERJOB")]
    return [*(it for it in found if len(it) < 20_000), *(it.input for it in damaged_cases.commands())]


def written(draw: random.Random) -> bytes:
    """A job of a drawn program: one to five tasks, with what budget ever, and two at times in a phase of their own."""
    program = programs.Writer(draw).program()
    tasks = []
    for n in range(draw.choice((1, 2, 2, 5))):
        first, storage = programs.registers(draw), programs.private(draw)
        tasks.append((operands.Task(f"T{n}", first, operands.BASE, storage, program.text, 0), draw.choice((1, 7, 60, 250, 2000))))
    data = outside_instructions.job(program.text, tasks, listing_of(program.code))
    if draw.random() < 0.3:
        data = data.replace(b"TASK T1 ", b"PHASE Q\nSESSION S1 M\nTASK T1 ")
    return data


def single(draw: random.Random) -> bytes:
    """A job of tasks that execute one operation each, with random and edge operands."""
    module = operands.filled(operands.BASE, operands.MODULE)
    codes = draw.choices((*sorted(CODES), operands.OTHER), k=draw.choice((8, operands.SHARING)))
    tasks = [operands.task_of(draw, code, f"T{slot}", module, slot) for slot, code in enumerate(codes)]
    return outside_instructions.job(bytes(module), [(it, it.limit) for it in tasks], [HEADING])


def joined(draw: random.Random, data: bytes) -> bytes:
    """The job whose sessions of one kind, one behind the other, are one at times."""
    pair = re.compile(rb"^(SESSION \S+(?: BY (\S+))?((?: M[0-9])+))\nSESSION \S+(?: BY (\S+))?((?: M[0-9])+)$", re.M)

    def both(found: re.Match[bytes]) -> bytes:
        is_one = found[2] == found[4] and not {*found[3].split()} & {*found[5].split()} and draw.random() < 0.6
        return found[1] + found[5] if is_one else found[0]

    return pair.sub(both, data)


def job(draw: random.Random) -> bytes:
    """A job."""
    kind = draw.random()
    if kind < 0.45:
        return joined(draw, ends_model.job(draw))
    if kind < 0.55:
        return single(draw)
    if kind < 0.75:
        return written(draw)
    if kind < 0.8:
        return race_cases.job_of(draw)
    return draw.choice(rows())


def name_of(draw: random.Random, data: bytes) -> str:
    """A session of the job, mostly."""
    names = re.findall(rb"^SESSION ([A-Z][A-Z0-9]{0,7}) ", data, re.M)
    return draw.choice(names).decode() if names and draw.random() < 0.95 else draw.choice(("S", "T0", "Z9999999"))


# ---- marks files and evidence


def file_like(draw: random.Random, file: marks_model.File, share: float) -> bytes:
    """The file with other facts at a share of its places, of either version, any name and any runs."""
    for at, (row, bits) in enumerate(zip(file.rows, file.sets)):
        if bits is not None and draw.random() < share:
            file.sets[at] = draw.choice((0, 2, 4, 6) if row[5] else (0, 1))
    file.session = draw.choice((file.session, b"X       ", b"ABCDEFGH", b" " * 8))
    file.runs = draw.choice((1, 1, 2, 1000, 0xFFFFFFFE, 0xFFFFFFFF))
    data = file.data()
    return b"S370COV1" + data[20:] if draw.random() < 0.2 else data


def table_of(data: bytes, name: str, has_services: bool = False) -> marks_model.File | None:
    """The file of a job's session without a fact, where the job is good and has the session."""
    try:
        it = answers.listed(data, False, has_services=has_services)
        _, _, modules = answers.session_of(it, name.encode())
        return marks_model.session_file(name.encode(), modules, {})
    except (model.Refused, StopIteration):
        return None


def files(draw: random.Random) -> bytes:
    """Marks files one behind the other, mostly of one table."""
    found = b""
    table: marks_model.File | None = None
    for _ in range(draw.choice((1, 1, 2, 3, 8, 30))):
        if table is None or draw.random() < 0.04:
            data = job(draw)
            table = table_of(data, name_of(draw, data))
        found += file_like(draw, table, draw.random()) if table else b""
    return found


def behind(draw: random.Random, words: list[str], data: bytes) -> bytes:
    """What stands behind the job for `show` and `verify`: a file of its session, true, nearly or not, and evidence."""
    *front, word, name = words
    table = table_of(data, name, bool(front))
    if table is None:
        return draw.choice((b"", damaged_cases.FILE + damaged_cases.EVIDENCE))
    true = [answers.answer([*front, it, name], data) for it in ("marks", "prove")]
    facts = true[0].output if true[0].status == 0 and true[0].output else table.data()
    file = file_like(draw, marks_model.file_of(facts, 0), 0.0 if draw.random() < 0.6 else 0.3)
    if draw.random() < 0.04:
        file = damaged_cases.FILE
    entries = true[1].output
    if draw.random() < 0.3 and len(entries) > 8:
        at = draw.randrange(8, len(entries))
        entries = entries[:at] + bytes([draw.choice((0, 1, 255, entries[at] ^ 1))]) + entries[at + 1 :]
    return file + (entries if word == "verify" else b"")


# ---- damage


def with_number(draw: random.Random, data: bytes) -> bytes:
    """A number of a card becomes another."""
    found = list(re.finditer(rb"(?<= )[0-9]{1,9}(?=[ \n])", data))
    it = draw.choice(found) if found else None
    return data[: it.start()] + draw.choice(NUMBERS).encode() + data[it.end() :] if it else data


def with_lines(draw: random.Random, data: bytes) -> bytes:
    """A line is lost, doubled, put elsewhere, or new."""
    lines = data.split(b"\n")
    at, to, kind = draw.randrange(len(lines)), draw.randrange(len(lines)), draw.randrange(5)
    if kind == 0:
        lines[at:at] = [draw.choice(CARDS)]
    elif kind == 1:
        lines[to:to] = [lines[at]]
    elif kind == 2:
        lines[at], lines[to] = lines[to], lines[at]
    elif kind == 3:
        lines[at] = lines[at] + draw.choice((b" ", b"X", b" 0", b"\r", b" " * 150))
    else:
        del lines[at : at + draw.choice((1, 1, 2, 5))]
    return b"\n".join(lines)


def with_bytes(draw: random.Random, data: bytes) -> bytes:
    """Bytes are changed, lost or new; one that is changed is mostly another of its kind."""
    at, kind = draw.randrange(len(data) + 1), draw.random()
    if kind < 0.15:
        return data[:at]
    if kind < 0.3:
        return data[:at] + data[at + draw.choice((1, 1, 2, 40)) :]
    if kind < 0.5:
        return data[:at] + draw.choice((*BYTES, draw.randbytes(1))) + data[at:]
    if kind < 0.7:
        return data[:at] + draw.choice(BYTES)[:1] + data[at + 1 :]
    one = data[at : at + 1]
    other = draw.choice(b"0123456789ABCDEF") if one in b"0123456789ABCDEF" else (one[0] if one else 0) ^ 1 << draw.randrange(8)
    return data[:at] + bytes([other]) + data[at + 1 :]


def damaged(draw: random.Random, data: bytes) -> bytes:
    """The input with one to three damages."""
    for _ in range(draw.choice((1, 1, 1, 2, 3))):
        data = draw.choice((with_number, with_lines, with_lines, with_bytes, with_bytes, with_bytes))(draw, data)
    return data


# ---- inputs


def input_of(draw: random.Random, word: str) -> Input:
    """Of a command but `replay` and `trial` an input."""
    words = [word]
    if word == "combine":
        data = files(draw)
    else:
        data = contention.job(draw) if word == "early" and draw.random() < 0.5 else job(draw)
        words += [name_of(draw, data)] if word in NAMED else []
        data += behind(draw, words, data) if word in ("show", "verify") else b""
    if draw.random() < 0.45:
        data = damaged(draw, data)
    if draw.random() < 0.01:
        words = draw.choice((words + ["S"], words[:1] * 2, [it.lower() for it in words], [word[:-1]], [*words, ""], words[:0]))
    return Input(words, data, answers.answer(words, data))


def served_of(draw: random.Random) -> Input:
    """Of a command behind the word `services` an input, at times of a job without services."""
    word = draw.choice((*("run",) * 6, "count", "count", "ends", "ends", "marks", "marks", "show", "table"))
    data = services_inputs.job(draw) if draw.random() < 0.95 else job(draw)
    words = ["services", word, *([name_of(draw, data)] if word in NAMED else [])]
    data += behind(draw, words, data) if word == "show" else b""
    if draw.random() < 0.25:
        data = damaged(draw, data)
    if draw.random() < 0.02:
        words = draw.choice((words[1:], words[:1], ["services", *words], [*words, "S"], ["services", "exits"], [it.upper() for it in words]))
    return Input(words, data, answers.answer(words, data))


def trial_of(draw: random.Random) -> Input:
    number = draw.choice((0, 1, 0xFFFFFFFF, draw.randrange(1 << 32), 1 << 32))
    words = ["trial", str(number), str(draw.choice((1, 1, 2, 3, 0, 65)))]
    return Input(words, b"", answers.answer(words, b""))


def replay_of(draw: random.Random) -> Input:
    """A schedule behind a job, at times with other items, or damaged."""
    data = replay_cases.job_of(draw) if draw.random() < 0.6 else job(draw)
    try:
        lines = replay_cases.items_of(draw, core_model.Core(answers.listed(data, True)))
    except model.Refused:
        lines = ["ENDSCHED"]
    for _ in range(draw.choice((0, 0, 0, 1, 2)) if lines else 0):
        at, other = draw.randrange(len(lines)), f"{draw.choice(core_model.KEYS)} {draw.choice(('A', 'B', 'C', 'D', 'T0', 'T1'))}"
        items = (other, other, other, "ENDSCHED", "GO E", "GO  A", "go A", "", "GO A ")
        lines[at : at + draw.randrange(2)] = [draw.choice(items)]
    data += "\n".join([*lines, ""]).encode()
    data = damaged(draw, data) if draw.random() < 0.2 else data
    return Input(["replay"], data, answers.answer(["replay"], data))


def race_of(draw: random.Random) -> Input:
    """A job whose tasks run one loop at once, or open and close sessions, several times."""
    if draw.random() < 0.5:
        data = contention.job(draw)
    else:
        data = race_cases.job_of(draw)
    words = draw.choice((["run"], ["run"], ["early"], ["count"], ["exits"], ["marks", name_of(draw, data)]))
    return Input(words, data, answers.answer(words, data), 10)


def drawn(draw: random.Random) -> Input | None:
    """An input of any command, or none where it takes too long to tell what comes."""
    others = ("table", "combine", "combine", "replay", "replay", "race", "race", "trial", "services", "services", "services")
    word = draw.choice((*REPORTS, *NAMED, *REPORTS, *NAMED, *others))
    if word == "trial" and draw.random() < 0.8:
        word = "run"
    try:
        if word in ("race", "replay", "trial", "services"):
            return {"race": race_of, "replay": replay_of, "trial": trial_of, "services": served_of}[word](draw)
        return input_of(draw, word)
    except task_runs.TooLong:
        return None
