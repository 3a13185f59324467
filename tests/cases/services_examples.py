"""The examples of services: what the ledger writes, and what the routines of GETMAIN, FREEMAIN, WTO, ABEND and TIME do.

Each is shown by the model, and by the program.
"""
from __future__ import annotations

import random
import re
from functools import cache, partial
from typing import Callable

from fixtures.harness import PROGRAM, TOP, coverage, equal, run, well
from models import answers, marks_model

EXAMPLES = f"{TOP}/examples"
# Gives a job's report.
Way = Callable[[bytes], bytes]
# Where the free storage of these jobs begins, how much it is, and where a program finds sizes and puts addresses.
POOL, POOL_SIZE, SIZES, ADDRESSES = 0x4000, 0x1000, 0x1000, 0x2000


def by_model(job: bytes) -> bytes:
    """The report by the tests' model."""
    it = answers.answer(["services", "run"], job)
    assert isinstance(it, answers.Report) and it.is_one(), it.output
    parts = [marks_model.session_part(session.name, session.phase, session.modules, session.within.least) for session in it.sessions]
    return b"".join([it.front, *parts, b"END\n"])


def by_program(job: bytes) -> bytes:
    """The report by the program."""
    return well(run([PROGRAM, "services", "run"], job)).output


@cache
def services() -> bytes:
    """The cards of the module of routines."""
    return well(coverage("module", "SERVICES", "180000", f"{EXAMPLES}/services.object", "--services")).output


def job_of(code: str, data: dict[int, str], routines: bytes = b"") -> bytes:
    """A job of a module D of this code at 140000, which a task enters with registers 10 and 11 at its sizes and addresses."""
    cards = [f"MODULE D 140000 {len(code) // 2}", *(f"TEXT {code[at : at + 128]}" for at in range(0, len(code), 128))]
    storage = {16: f"{POOL:08X}093015000095032F", POOL: f"00000000{POOL_SIZE:08X}", **data}
    tasks = ["PHASE P", f"TASK A 140000 {POOL + POOL_SIZE} 100000 256", f"REG 10 {SIZES:08X}", f"REG 11 {ADDRESSES:08X}"]
    for at, digits in sorted(storage.items()):
        tasks += [f"DATA {at + n // 2} {digits[n : n + 128]}" for n in range(0, len(digits), 128)]
    return b"COVERJOB 1\n" + "\n".join([*cards, ""]).encode() + (routines or services()) + "\n".join([*tasks, "ENDJOB", ""]).encode()


def ended(report: bytes) -> tuple[str, list[str], bytes]:
    """How the first task ends, its registers, and its output."""
    found = re.search(rb"^TASK \S+ (.*) COUNT .*\nR0 (.*)\nR8 (.*)\nOUT [0-9]+\n((?:[0-9A-F]+\n)*)", report, re.M)
    assert found, report
    return found[1].decode(), (found[2] + b" " + found[3]).decode().split(), bytes.fromhex(found[4].decode())


def storage_of(report: bytes, first: bytes) -> bytes:
    """The storage of the first task in the end."""
    last = bytearray(first)
    for at, digits in re.findall(r"^STOR ([0-9A-F]{6}) ([0-9A-F]+)$", report.decode().partition("\nTASK")[2].partition("\nTASK")[0], re.M):
        last[int(at, 16) : int(at, 16) + len(digits) // 2] = bytes.fromhex(digits)
    return bytes(last)


class Storage:
    """Free blocks, each with its address and length, in order of address."""

    def __init__(self) -> None:
        self.blocks = [(POOL, POOL_SIZE)]

    def get(self, size: int) -> int | None:
        """The address of so many bytes, from the front of the first block that has them."""
        size = -(-size // 8) * 8
        for at, (begin, length) in enumerate(self.blocks):
            if length >= size:
                self.blocks[at : at + 1] = [(begin + size, length - size)] if length > size else []
                return begin
        return None

    def give(self, begin: int, size: int) -> None:
        """Takes a block back, and joins what stands side by side."""
        joined: list[tuple[int, int]] = []
        for it in sorted([*self.blocks, (begin, -(-size // 8) * 8)]):
            if joined and joined[-1][0] + joined[-1][1] == it[0]:
                it = (joined[-1][0], joined.pop()[1] + it[1])
            joined.append(it)
        self.blocks = joined


def got_and_given(way: Way) -> None:
    """examples: storage that is got and given back in any order comes of the first block that has it, and is joined again"""
    cards = services()
    for seed in range(20):
        draw, storage = random.Random(seed), Storage()
        code, sizes, addresses = "", b"", b""
        held: list[tuple[int, int, int]] = []
        for number in range(60):
            # The last third gives all back.
            if number >= 40 and not held:
                break
            size = draw.choice((1, 7, 8, 9, 40, 100, 256, draw.randrange(1, 500)))
            begin = None
            wants = number < 40 and (not held or draw.random() < 0.6) and any(length >= size + 7 for _, length in storage.blocks)
            if wants:
                begin = storage.get(size)
                assert begin is not None
                held.append((number, begin, size))
                code += f"5800A{4 * number:03X}411000011311" + "0A0A" + f"5010B{4 * number:03X}"
            elif held:
                slot, begin, size = held.pop(draw.randrange(len(held)))
                storage.give(begin, size)
                code += f"5800A{4 * number:03X}5810B{4 * slot:03X}0A0A"
            # What stands before the bytes' number isn't read.
            sizes += (size | draw.choice((0, 0, 0x7F000000, 0x81000000))).to_bytes(4, "big")
            addresses += (begin if wants and begin else 0).to_bytes(4, "big")
        job = job_of(f"{code}07FE", {SIZES: sizes.hex()}, cards)
        report = way(job)
        last = storage_of(report, first_of(job))
        equal((seed, ended(report)[0], last[ADDRESSES : ADDRESSES + len(addresses)].hex()), (seed, "RETURNED", addresses.hex()))
        equal((seed, blocks_of(last)), (seed, storage.blocks))
        equal(ended(report)[1][15], "00000000")


def first_of(job: bytes) -> bytes:
    """The storage that the first task begins with."""
    size = int(re.search(rb"^TASK \S+ \S+ ([0-9]+) ", job, re.M)[1])  # type: ignore[index]
    storage = bytearray(size)
    for at, digits in re.findall(r"^DATA ([0-9]+) ([0-9A-Fa-f]+)$", job.decode().partition("\nTASK")[2].partition("\nTASK")[0], re.M):
        storage[int(at) : int(at) + len(digits) // 2] = bytes.fromhex(digits)
    return bytes(storage)


def blocks_of(storage: bytes) -> list[tuple[int, int]]:
    """The free blocks, from the word at 16 on."""
    found: list[tuple[int, int]] = []
    at = int.from_bytes(storage[16:20], "big")
    while at:
        found.append((at, int.from_bytes(storage[at + 4 : at + 8], "big")))
        at = int.from_bytes(storage[at : at + 4], "big")
    return found


# Instructions: register 0 and 1 from these words of the sizes, and the call.
CALL = "9801A{at:03X}0A0A"
ASKED, BYTES = "FFFFFFFF", f"{POOL_SIZE:08X}"


def storage_calls(way: Way) -> None:
    """examples: storage that there isn't ends a task BADSVC 80, and what can't be given back BADSVC 90; no bytes are always there"""
    for calls, ending in (
        ((BYTES, ASKED), "RETURNED"), ((f"{POOL_SIZE + 1:08X}", ASKED), "BADSVC 80"), (("00FFFFFF", ASKED), "BADSVC 80"),
        ((BYTES, ASKED, "00000008", ASKED), "BADSVC 80"), ((BYTES, ASKED, "00000000", ASKED), "BADSVC 80"),
        ((BYTES, ASKED, BYTES, f"{POOL:08X}", BYTES, ASKED), "RETURNED"), (("00000000", "00000000"), "RETURNED"),
        (("00000000", ASKED, BYTES, ASKED), "RETURNED"), (("00000008", f"{POOL:08X}"), "BADSVC 90"),
        (("00000020", ASKED, "00000008", f"{POOL + 4:08X}"), "BADSVC 90"), (("00000020", ASKED, "00000028", f"{POOL:08X}"), "BADSVC 90"),
        (("00000020", ASKED, "00000020", f"{POOL:08X}", "00000020", f"{POOL:08X}"), "BADSVC 90"),
        (("00000020", ASKED, "00000008", f"{POOL:08X}", "00000008", f"{POOL:08X}"), "BADSVC 90"),
        (("00000020", ASKED, "00000010", f"{POOL:08X}", "00000008", f"{POOL + 8:08X}"), "BADSVC 90"),
        (("00000008", "00000010"), "BADSVC 90"), (("00000008", "00000000"), "BADSVC 90"), (("00000001", "01FFFFFF"), "BADSVC 90"),
    ):
        code = "".join(CALL.format(at=8 * at) for at in range(len(calls) // 2)) + "07FE"
        had = ended(way(job_of(code, {SIZES: "".join(calls)})))[0]
        equal((calls, had), (calls, ending))


def other_calls(way: Way) -> None:
    """examples: WTO writes a text and the end of its line, TIME answers what the job gives it, ABEND leaves its code and ends the task"""
    text = f"{3 + 4:04X}0000E3C5D5FF"
    had = ended(way(job_of("5810A000" + "0A23" + "07FE", {SIZES: f"{ADDRESSES:08X}", ADDRESSES: text})))
    equal((had[0], had[1][15], had[2]), ("RETURNED", "00000000", b"\xe3\xc5\xd5\x15"))
    had = ended(way(job_of("5810A000" + "0A23" + "07FE", {SIZES: f"{ADDRESSES:08X}", ADDRESSES: "00040000"})))
    equal((had[0], had[2]), ("RETURNED", b"\x15"))
    had = ended(way(job_of("41100002" + "0A0B" + "07FE", {})))
    equal((had[0], had[1][0], had[1][1], had[1][15]), ("RETURNED", "09301500", "0095032F", "00000000"))
    for code, last in (("80000064", "00000064"), ("000C4FFF", "00000FFF"), ("00001000", "00000000")):
        had = ended(way(job_of("5810A000" + "0A0D" + "07FE", {SIZES: code})))
        equal((had[0], had[1][1], had[1][15]), ("EXIT", code, last))


def ledger_job() -> bytes:
    with open(f"{EXAMPLES}/ledger.job", "rb") as file:
        return file.read()


def texts_of(report: bytes) -> list[list[str]]:
    """The lines that each task writes."""
    outputs = re.findall(rb"^OUT [0-9]+\n((?:[0-9A-F]+\n)*)", report, re.M)
    return [bytes.fromhex(it.decode()).replace(b"\x15", b"\x25").decode("cp037").splitlines() for it in outputs]


def ledger(way: Way) -> None:
    """examples: two accounts at once, the lines of each, and all storage that was got is one free block again"""
    job = ledger_job()
    report = way(job)
    first = ["LEDGER OF SMITH    AT 09.30.15", "SALARY         1,850.00C", "RENT             640.50D", "NOTE      NO ENTRY      ",
             "GROCERIES          0.09D", "BALANCE        1,209.41 "]
    second = ["LEDGER OF JONES    AT 17.45.59", "REPAIRS    1,234,567.89D", "REFUND             0.01C", "BALANCE    1,234,567.88-", "OVERDRAWN"]
    equal(texts_of(report), [first, second])
    equal(re.findall(rb"^TASK (.*) COUNT", report, re.M), [b"FIRST RETURNED", b"SECOND RETURNED"])
    # 15 is 4 where an entry was neither; the caller's other registers are as they were.
    equal(ended(report)[1], ["00000000", "00000020", *["00000000"] * 11, "00000040", "00FFFFFE", "00000004"])
    equal(blocks_of(storage_of(report, first_of(job))), [(0x800, 0x800)])
    marked = {at: mark for mark, at in re.findall(r"^([\^:>V&])  ([0-9A-F]{6}) ", report.decode().partition("SESSION SERVICES")[0], re.M)}
    # The branches: the last entry, an entry that is none, none posted, a balance below zero, and a debit and a credit.
    wanted = {"000060": "&", "000080": "&", "000098": "V", "0000B4": "&", "000172": "&", "00017A": "&"}
    wanted.update(dict.fromkeys(("0000E8", "0000F0", "0000F4"), "^"))
    equal({at: mark for at, mark in marked.items() if mark != ":"}, wanted)
    assert b"\nMODULE LEDGER PLACES 95 EXECUTED 92 FACTS 97 OF 101\n" in report


def job_without_entries() -> bytes:
    """The ledger's job whose first account has none."""
    job = ledger_job().replace(b"DATA 272 C3E2C1D3C1D9E8", b"DATA 272 FFE2C1D3C1D9E8")
    assert job != ledger_job()
    return job


def no_entry(way: Way) -> None:
    """examples: an account of which no entry was posted ends by ABEND 100"""
    report = way(job_without_entries())
    ending, registers, _ = ended(report)
    equal((ending, registers[1], registers[15]), ("EXIT", "00000064", "00000064"))
    equal(texts_of(report)[0], ["LEDGER OF SMITH    AT 09.30.15"])


def unites(say: Callable[[list[str], bytes], bytes]) -> None:
    """examples: the marks of two runs unite, and show what either has executed; its counts and its places are those of the run"""
    job = ledger_job()
    files = [say(["services", "marks", "LEDGER"], it) for it in (job, job_without_entries())]
    shown = say(["services", "show", "LEDGER"], job + say(["combine"], b"".join(files)))
    assert b"\nMODULE LEDGER PLACES 95 EXECUTED 95 FACTS 101 OF 101\n" in shown, shown[:200]
    counts = dict(re.findall(rb"^COUNT ([0-9A-F]{6}) (.*)$", say(["services", "count"], job).partition(b"SESSION SERVICES")[0], re.M))
    # The two accounts have six entries, three of them debits, and each its end.
    equal([counts[it] for it in (b"000000", b"00001C", b"00005C", b"000060", b"000172")], [b"2", b"2", b"8", b"2 6", b"3 3"])
    assert b"\nMODULE LEDGER PLACES 95\n" in say(["services", "table"], job)
    ends = say(["services", "ends"], job).split(b"\n")
    equal([it.partition(b" COUNT")[0] for it in ends[1:3]], [b"TASK FIRST RETURNED", b"TASK SECOND RETURNED"])
    equal(ends[3:], [b"UNLISTED LEDGER 0", b"UNLISTED SERVICES 0", b"END", b""])


def said_by_model(words: list[str], data: bytes) -> bytes:
    """What a command writes, by the tests' model."""
    it = answers.answer(words, data)
    equal(it.status, 0)
    return it.output


def said_by_program(words: list[str], data: bytes) -> bytes:
    """What a command writes, by the program."""
    return well(run([PROGRAM, *words], data)).output


CHECKS = [
    *(partial(it, way) for it in (got_and_given, storage_calls, other_calls, ledger, no_entry) for way in (by_model, by_program)),
    partial(unites, said_by_model), partial(unites, said_by_program),
]
