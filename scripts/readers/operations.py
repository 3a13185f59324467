"""The operations by mnemonic: their codes and the forms of their operands."""
from __future__ import annotations

# Of each form the mnemonics, each with its code.
FORMS = {
    "RR": "LR 18 LTR 12 LCR 13 LPR 10 LNR 11 AR 1A SR 1B ALR 1E SLR 1F CR 19 MR 1C DR 1D NR 14 OR 16 XR 17 CLR 15"
    " MVCL 0E CLCL 0F BALR 05 BASR 0D BCTR 06 BCR 07",
    "R": "SPM 04",
    "I": "SVC 0A",
    "RX": "L 58 LH 48 LA 41 ST 50 STH 40 A 5A AH 4A S 5B SH 4B AL 5E SL 5F C 59 CH 49 M 5C MH 4C D 5D CVB 4F CVD 4E"
    " N 54 O 56 X 57 CL 55 IC 43 STC 42 BC 47 BCT 46 BAL 45 BAS 4D EX 44",
    "RS": "LM 98 STM 90 ICM BF STCM BE CLM BD CS BA CDS BB BXH 86 BXLE 87",
    "SHIFT": "SLL 89 SRL 88 SLA 8B SRA 8A SLDL 8D SRDL 8C SLDA 8F SRDA 8E",
    "SI": "NI 94 OI 96 XI 97 CLI 95 TM 91 MVI 92",
    "S": "TS 93",
    "SS": "NC D4 OC D6 XC D7 CLC D5 MVC D2 MVN D1 MVZ D3 MVCIN E8 TR DC TRT DD ED DE EDMK DF",
    "SS2": "PACK F2 UNPK F3 MVO F1 AP FA SP FB ZAP F8 CP F9 MP FC DP FD",
    "SRP": "SRP F0",
}
MASKS = {"B": 15, "NOP": 0, "H": 2, "L": 4, "E": 8, "NH": 13, "NL": 11, "NE": 7, "O": 1, "P": 2, "M": 4, "Z": 8}
MASKS.update({"NP": 13, "NM": 11, "NZ": 7, "NO": 14})


def operations() -> dict[str, tuple[str, int]]:
    """Each mnemonic with its form and code, the extended branches with their mask in place of the code."""
    found = {}
    for form, text in FORMS.items():
        words = text.split()
        found.update({name: (form, int(code, 16)) for name, code in zip(words[::2], words[1::2])})
    for condition, mask in MASKS.items():
        stem = condition if condition in ("B", "NOP") else f"B{condition}"
        found[stem] = ("BRANCH", mask)
        found["BR" if stem == "B" else f"{stem}R"] = ("BRANCH_R", mask)
    return found


OPERATIONS = operations()


def length_of(operation: str) -> int:
    """The bytes of an instruction."""
    form, _ = OPERATIONS[operation]
    if form in ("RR", "R", "I", "BRANCH_R"):
        return 2
    return 6 if form in ("SS", "SS2", "SRP") else 4
