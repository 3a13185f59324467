"""The assembler of the examples: constants, alignment and parameters within the code, as macros make them."""
from __future__ import annotations

from cases.module_cases import text_of
from fixtures.harness import coverage, equal, folder, refused, run, well

# What macros that call a supervisor expand to.
CALLS = """\
CALLS    CSECT
         BALR  12,0
         USING *,12
         LA    0,LONG(0,0)
         BAL   1,*+4               the leftmost bit of 1 asks
         SVC   10
         WTO   'TEN'
+        CNOP  0,4
+        BAL   1,BEHIND            the text is behind
+        DC    AL2(TEXTEND-*)
+        DC    B'0000000000000000'
+        DC    C'TEN'
+TEXTEND EQU   *
+BEHIND  DS    0H
+        SVC   35
         CNOP  0,4
         B     *+8
         DC    AL1(128),AL3(100)
         L     1,*-4
         SVC   13
         CNOP  0,4
         BAL   1,*+12
         DC    A(BEHIND)
         DC    X'80',AL3(TEXTEND)
         BR    14
LONG     EQU   256
         END   CALLS
"""
BYTES = (
    "05C0" "41000100" "4510C008" "0A0A" "4510C016" "0007" "0000" "E3C5D5" "00" "0A23" "0700" "47F0C022" "80000064" "5810C01E" "0A0D"
    "0700" "4510C036" "00180018" "80180017" "07FE"
)


def assembled(source: str, at: str) -> None:
    """Assembles a source in a folder."""
    with open(f"{at}/source", "w", encoding="ascii") as file:
        file.write(source)
    well(run(["python3", "-I", "-B", "scripts", "assemble", f"{at}/source", f"{at}/object", f"{at}/listing", "ascii"]))


def calls() -> None:
    """assemble: lengths of two bytes, codes of one and three, parameters behind BAL, addresses of three bytes, CNOP, a macro's lines"""
    with folder() as at:
        assembled(CALLS, at)
        ran = well(coverage("module", "CALLS", "180000", f"{at}/object", f"{at}/listing"))
        equal(text_of(ran), BYTES)
        with open(f"{at}/listing", encoding="ascii") as file:
            text = file.read()
    lines = [it[1:40].split() for it in text.splitlines()]
    found = {int(it[0], 16): it[1:-1] for it in lines if it and len(it[0]) == 6}
    # Location, object code, and the addresses of the operands.
    equal(found[0x06], ["4510", "C008", "0000A"])
    equal(found[0x10], ["0007"])
    equal(found[0x18], ["0A23"])
    equal(found[0x1A], ["0700"])
    equal(found[0x20], ["80000064"])
    equal(found[0x34], ["80000017"])
    # The macro's call has a number alone, and its lines have a sign behind theirs.
    for line in (f"{'':39}7          WTO   'TEN'", f" 000018 0A23{'':26}15+        SVC   35", f"{'':23}00017{'':10}13+TEXTEND EQU   *"):
        assert f"\n{line}\n" in text, (line, text)


def filled() -> None:
    """assemble: CNOP up to each halfword of a fullword and a doubleword, from each byte"""
    source, wanted = "A CSECT\n", ""
    for to, behind, start in ((to, behind, start) for to in (4, 8) for behind in range(0, to, 2) for start in range(8)):
        source += f" DS 0D,{start}X\n CNOP {behind},{to}\n BR 14\n"
        # A byte before a halfword is filled by a zero, as by an alignment.
        part = "00" * (start + start % 2) + "0700" * ((behind - start - start % 2) % to // 2) + "07FE"
        wanted += part.ljust(-(-len(part) // 16) * 16, "0")
    with folder() as at:
        assembled(f"{source} DS 0D\n END A\n", at)
        equal(text_of(coverage("module", "A", "100000", f"{at}/object")), wanted)


def refusals() -> None:
    """assemble: values without room, addresses of one and two bytes, and CNOP of other numbers are refused by their line"""
    for line, what in (
        ("DC AL1(256)", "'256' comes to 256: a length of 1 has no room for it"), ("DC AL1(0-129)", "comes to -129"), ("DC AL2(65536)", "of 2 "),
        ("DC AL2(A)", "'A' is an address: a length of 2 has no room for it"), ("DC AL1(*)", "'*' is an address"), ("CNOP 1,4", "CNOP 1,4"),
        ("CNOP 4,4", "CNOP 4,4"), ("CNOP 0,6", "CNOP 0,6"), ("CNOP 0", "CNOP 0"), ("CNOP 0,4,8", "CNOP 0,4,8"), ("CNOP A,4", "'A' is an address"),
        ("WTO 'TEN'", "the operation 'WTO'"),
    ):
        with folder() as at:
            with open(f"{at}/source", "w", encoding="ascii") as file:
                file.write(f"A CSECT\n {line}\n END A\n")
            words = ["python3", "-I", "-B", "scripts", "assemble", f"{at}/source", f"{at}/object", f"{at}/listing", "ascii"]
            refused(run(words), 2, f"{at}/source: line 2", what)


CHECKS = [calls, filled, refusals]
