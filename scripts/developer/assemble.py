"""Assembles the examples."""
from __future__ import annotations


from common.command import Fault, UsageError, read_file, write_file
from developer.assembler.outputs import STYLES, deck, listing
from developer.assembler.statements import Assembly

HELP = """\
Assembles SOURCE, and writes its object deck and its listing, in ASCII lines or in EBCDIC records of 121 bytes, or of
133 bytes where it is wide. A small assembler that makes the examples of this repository: no macros, no conditional
assembly, one line a statement. A line that begins with + stands for one that a macro has made, and the line before the
first of them for the macro's call. It is no part of the product, and not proved.
"""


def main(words: list[str]) -> None:
    if len(words) == 4:
        words = [*words, "narrow"]
    if len(words) != 5 or words[3] not in ("ascii", "ebcdic") or words[4] not in STYLES:
        raise UsageError
    path, to_deck, to_listing, code, width = words
    try:
        source = read_file(path).decode("ascii")
    except UnicodeDecodeError:
        raise Fault(path, "is not in ASCII") from None
    assembly = Assembly(path, source)
    lines = listing(assembly, next(iter(assembly.sections), ""), STYLES[width])
    write_file(to_deck, deck(assembly))
    if code == "ascii":
        write_file(to_listing, "".join(f"{it.rstrip()}\n" for it in lines).encode("ascii"))
    else:
        write_file(to_listing, "".join(it.ljust(STYLES[width].record) for it in lines).encode("cp037"))
