"""What job makes of INPUT and DATA whose bytes are text, packed numbers, fullwords or files (docs/JOB.md, "Data in other forms")."""
from __future__ import annotations

import os

from cases.job_cases import NUMBER, TASK, fault_of, job_script, line_of, said
from fixtures.harness import coverage, equal, folder, refused, well

# Forms of data: what stands behind INPUT, and the bytes.
FORMS = [
    ("TEXT 'FIRST  0012'", "C6C9D9E2E34040F0F0F1F2"),
    ("TEXT 'it''s [a] ^'", "89A37DA240BA81BB40B0"),
    ("TEXT '''", None), ("TEXT ''''", "7D"), ("TEXT ' '", "40"),
    ("TEXT-ASCII 'FIRST  0012'", "46495253542020303" "0" "3132"),
    ("TEXT-ASCII 'it''s ~'", "69742773207E"),
    ("PACKED -123 5", "000000123D"), ("PACKED 123 2", "123C"), ("PACKED +0 1", "0C"), ("PACKED -0 1", "0D"), ("PACKED 0012 2", "012C"),
    ("PACKED 9999999999999999999999999999999 16", "9" * 31 + "C"), ("PACKED -1 16", "0" * 30 + "1D"),
    ("FULL 42", "0000002A"), ("FULL -1", "FFFFFFFF"), ("FULL 4294967295", "FFFFFFFF"), ("FULL -2147483648 2147483648 +7", "800000008000000000000007"),
    ("FULL 000000000000000000000007 -000000000000000000000001 -0 +00", "00000007FFFFFFFF0000000000000000"),
    ("FILE data", "00FF0A0D"), ("FILE in it/more data", "C1"),
]
# What is refused of a form, with its cause.
BAD_FORMS = [
    ("TEXT FIRST", "the text of TEXT stands between quotes, as TEXT 'FIRST  0012'"),
    ("TEXT", "the text of TEXT stands between quotes, as TEXT 'FIRST  0012'"),
    ("TEXT-ASCII \"A\"", "the text of TEXT-ASCII stands between quotes, as TEXT-ASCII 'FIRST  0012'"),
    ("TEXT 'FIRST", "no quote ends the text of TEXT; a quote within it is doubled"),
    ("TEXT '''", "no quote ends the text of TEXT; a quote within it is doubled"),
    ("TEXT 'IT'S'", "\"S'\" stands behind the quote that ends the text of TEXT; a quote within it is doubled"),
    ("TEXT 'A' ", "' ' stands behind the quote that ends the text of TEXT; a quote within it is doubled"),
    ("TEXT 'A\tB'", "the text of TEXT has a control character; give such bytes as hexadecimal digits, or by FILE"),
    ("TEXT 'Ä'", "the text of TEXT has a character that ASCII lacks; give such bytes as hexadecimal digits, or by FILE"),
    ("TEXT 'A'\r", "no card: a CR ends the line; lines end with LF alone"),
    ("text 'A'", "the form text is in lower case; it is TEXT"),
    ("Full 1", "the form Full is in lower case; it is FULL"),
    ("HALF 5", "HALF is no form of data: they are TEXT, TEXT-ASCII, PACKED, FULL and FILE"),
    ("PACKED 123", "PACKED has a value and its length in bytes, as PACKED -123 5"),
    ("PACKED", "PACKED has a value and its length in bytes, as PACKED -123 5"),
    ("PACKED 123 2 3", "PACKED has a value and its length in bytes, as PACKED -123 5"),
    ("PACKED 1234 2", "the value 1234 has 4 digits; 2 bytes have room for 3"),
    ("PACKED -10 1", "the value -10 has 2 digits; 1 byte has room for 1"),
    ("PACKED 1.5 2", "the value 1.5 is no whole number: decimal digits, with + or - before them or nothing"),
    ("PACKED 1 0", "the length 0: a packed number has 1 to 16 bytes"),
    ("PACKED 1 17", "the length 17: a packed number has 1 to 16 bytes"),
    ("PACKED 1 02", f"the length 02 has a leading zero; {NUMBER}"),
    ("PACKED  1 2", "PACKED has a value and its length in bytes, as PACKED -123 5"),
    ("FULL", "the value (none) is no whole number: decimal digits, with + or - before them or nothing"),
    ("FULL 1  2", "the value (none) is no whole number: decimal digits, with + or - before them or nothing"),
    ("FULL 0x1", "the value 0x1 is no whole number: decimal digits, with + or - before them or nothing"),
    ("FULL 4294967296", "the value 4294967296 is none of -2147483648 to 4294967295, which four bytes hold"),
    ("FULL 42949672959999999999999", "the value 42949672959999999999999 is none of -2147483648 to 4294967295, which four bytes hold"),
    ("FULL -2147483649", "the value -2147483649 is none of -2147483648 to 4294967295, which four bytes hold"),
    ("FILE", "FILE has the name of a file behind it"),
    ("FILE no", "no: No such file or directory"),
    ("FILE in it", "in it: Is a directory"),
    ("FILE /dev/zero", "/dev/zero: more than 8388608 bytes, which no job has room for"),
]


def with_files(at: str) -> None:
    """Makes the folder in which the forms' files stand."""
    os.makedirs(f"{at}/cards/in it")
    for name, data in (("data", b"\x00\xff\x0a\x0d"), ("in it/more data", b"\xc1"), ("none", b""), ("long", bytes(range(200)))):
        with open(f"{at}/cards/{name}", "wb") as file:
            file.write(data)


def forms() -> None:
    """job: INPUT and DATA from text, packed numbers, fullwords and files, cut into cards of 64 bytes; files from the cards' folder on"""
    with folder() as at:
        with_files(at)
        good = [(form, digits) for form, digits in FORMS if digits is not None]
        long = bytes(range(200)).hex().upper()
        inputs = [f"INPUT {form}" for form, _ in good] + ["INPUT FILE none", "INPUT TEXT ''", "INPUT FILE long", "INPUT 00"]
        data = [f"DATA {50 * number} {form}" for number, (form, _) in enumerate(good)] + ["DATA 4000 FILE none", "DATA 3800 FILE long", "DATA 0 00"]
        with open(f"{at}/cards/tasks", "w", encoding="ascii") as file:
            file.write("\n".join(["PHASE P", "TASK A 100000 4000 100 0", *data, *inputs]))
        cut = [long[it : it + 128] for it in range(0, 400, 128)]
        wanted = [f"DATA {50 * number} {digits}" for number, (_, digits) in enumerate(good)]
        wanted += [*(f"DATA {3800 + 64 * number} {it}" for number, it in enumerate(cut)), "DATA 0 00"]
        wanted += [f"INPUT {digits}" for _, digits in good] + [*(f"INPUT {it}" for it in cut), "INPUT 00"]
        job = "\n".join(["COVERJOB 1", "PHASE P", "TASK A 100000 4000 100 0", *wanted, "ENDJOB", ""]).encode()
        equal(well(coverage("job", "cards/tasks", cwd=at)).output, job)
        with open(f"{at}/cards/tasks", "rb") as file:
            equal(well(coverage("job", "-", data=file.read(), cwd=f"{at}/cards")).output, job)
        equal(line_of(job), (0, ""))


def bad_forms() -> None:
    """job: a form that has no bytes is refused by its line and its cause, and each form of a whole job"""
    with folder() as at:
        with_files(at)
        for form, text in BAD_FORMS:
            name = f"{at}/cards/" if form in ("FILE no", "FILE in it") else ""
            for front, word in (("INPUT", "INPUT"), ("DATA 0", "DATA")):
                had = fault_of(f"{at}/cards", f"PHASE P\n{TASK}{front} {form}\n")
                equal(had, f"-: line 3: {word}: {name}{text}")
        for card, text in (
            ("DATA 13 FULL 1", "DATA: 4 bytes at 13 end behind 16, the private storage of the task A"),
            ("DATA 0 FILE long", "DATA: 200 bytes at 0 end behind 16, the private storage of the task A"),
            ("DATA 01 FULL 1", f"DATA: the offset 01 has a leading zero; {NUMBER}"),
            ("DATA  FULL 1", f"DATA: the offset  is no number; {NUMBER}"),
            ("DATA FULL 1", f"DATA: the offset FULL is no number; {NUMBER}"),
            ("REG 1 FULL 1", "REG: 3 words behind REG; the card is REG n value"),
        ):
            equal(fault_of(f"{at}/cards", f"PHASE P\n{TASK}{card}\n"), f"-: line 3: {text}")
        for card, text in (
            ("INPUT 00\nDATA 0 FULL 1", "DATA: DATA behind INPUT; a task's cards are REG, then DATA, then INPUT"),
            ("PHASE Q\nINPUT FULL 1", "INPUT: INPUT stands behind TASK, and the phase Q has none yet"),
        ):
            equal(fault_of(f"{at}/cards", f"PHASE P\n{TASK}{card}\n"), f"-: line 4: {text}")
        ran = coverage("job", "-", data=f"PHASE P\n{TASK}INPUT FILE no\n".encode(), cwd=f"{at}/cards")
        refused(ran, 2, "coverage: -: line 3: INPUT: ./no: No such file or directory\n")
        told = "is a form of the files that coverage job puts together; a job has hexadecimal digits alone"
        for form, digits in FORMS:
            if digits is not None:
                data = f"COVERJOB 1\nPHASE P\n{TASK}INPUT {form}\nENDJOB\n".encode()
                equal(said(lambda: job_script.check("-", data), "-"), f"-: line 4: INPUT: {form.split(' ')[0]} {told}")


CHECKS = [forms, bad_forms]
