"""EX: where its subject stands, what the OR makes of its second byte, and that one code alone is EX (docs/MACHINE.md)."""
from __future__ import annotations

import re

from fixtures.harness import PROGRAM, equal, run
from models.machine_task import CODES, PRIVILEGED

# An EX, and the address of its subject where register 2 has X'FF000100', register 3 X'00200000' and the others X'00777777'.
SUBJECTS = [
    ("44123006", 0x200106), ("44103006", 0x200006), ("44120006", 0x000106), ("44100FFE", 0x000FFE), ("44120007", 0x000107), ("44100FFF", 0x000FFF),
]
# The register of EX, the word of all registers but those of the operands, and the second byte that MVC of X'0F' then has.
ORED = [
    (1, 0x00000000, 0x0F), (1, 0x000000F0, 0xFF), (1, 0x00000003, 0x0F), (1, 0xFFFFFF30, 0x3F), (1, 0xFFFFFF00, 0x0F), (15, 0x12345681, 0x8F),
    (0, 0x000000F0, 0x0F), (0, 0xFFFFFFFF, 0x0F),
]


def written(word: str, cards: list[str], modules: str = "") -> list[str]:
    """The lines that a command writes of a job of these cards."""
    ran = run([PROGRAM, word], "\n".join([f"COVERJOB 1\n{modules}PHASE P", *cards, "ENDJOB", ""]).encode())
    equal((ran.status, ran.error), (0, ""))
    return ran.output.decode().splitlines()


def subjects() -> None:
    """EX: the subject stands at the second operand's address, with an index and a base or without"""
    for code, at in SUBJECTS:
        # AR of register 1 stands there and nowhere else; the OR makes it one of register 7.
        registers = {2: 0xFF000100, 3: 0x00200000}
        cards = ["TASK A 000080 4096 1 0", *(f"REG {n} {registers.get(n, 0x00777777):08X}" for n in range(16)), f"DATA 128 {code}"]
        text = bytearray(0x208)
        if at % 2 == 0 and at < 4096:
            cards += [f"DATA {at} 1A11"]
        elif at % 2 == 0:
            text[at - 0x200000 : at - 0x200000 + 2] = b"\x1a\x11"
        rows = "".join(f"TEXT {text[it : it + 64].hex()}\n" for it in range(0, len(text), 64))
        lines = written("run", cards, f"MODULE N 200000 {len(text)}\n{rows}")
        wanted = ("TASK A SPENT COUNT 1 CC 2", "00EEEEEE") if at % 2 == 0 else ("TASK A ABEND 6 COUNT 1 CC 0", "00777777")
        equal((code, lines[1], lines[2].split()[8]), (code, *wanted))


def ored() -> None:
    """EX: the OR of a register's last byte with the subject's second, and none of register 0"""
    for number, word, second in ORED:
        registers = {11: 0x400, 12: 0x200}
        cards = ["TASK A 000080 2048 1 0", *(f"REG {n} {registers.get(n, word):08X}" for n in range(16))]
        cards += [f"DATA 128 44{number:X}000C0", "DATA 192 D20FB000C008", *(f"DATA {it} {'C1' * 64}" for it in range(0x208, 0x308, 64))]
        lines = written("run", cards)
        moved = "".join(it.split()[2] for it in lines if it.startswith("STOR "))
        equal((number, word, lines[1], moved.count("C1")), (number, word, "TASK A SPENT COUNT 1 CC 0", second + 1))


def one_code() -> None:
    """EX: EX of one code alone is EX of EX, whatever its second byte is"""
    for second in ("00", "44", "FF"):
        for at in range(0, 256, 64):
            cards = [f"TASK T{it} 000000 4096 1 0\nDATA 0 44000008\nDATA 8 {it:02X}{second}00000000" for it in range(at, at + 64)]
            ended = re.findall(r"^TASK T(\d+) (.*) COUNT 1 AT", "\n".join(written("ends", cards)), re.M)
            equal([int(it) for it, _ in ended], list(range(at, at + 64)))
            for it, ending in ended:
                equal((it, ending == "ABEND 3"), (it, int(it) == 0x44))
                equal((it, ending in ("ABEND 1", "ABEND 2")), (it, int(it) not in CODES or int(it) in PRIVILEGED))


CHECKS = [subjects, ored, one_code]
