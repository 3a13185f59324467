"""Puts the cards of a job together, or checks a whole job."""
from __future__ import annotations

import os
import re
from typing import Any, Iterator, Optional

from common.command import Fault, UsageError, read_file, refuse_more, take_options, write_output
from readers.cards import LIMITS, MOST_BYTES, Broken, number_of
from readers.data_forms import CARD as FORM
from readers.data_forms import bytes_of, data_cards, input_cards
from readers.job_rules import FIELDS, Place, Reader

HELP = """\
Writes COVERJOB 1, the cards of the files in their order, and ENDJOB. A file has cards of modules, as `coverage module`
writes them, or of phases, sessions and tasks (docs/JOB.md); those of the modules stand first. Behind the last module
may stand SERVICE cards, as `coverage module` writes them behind its own with --services: a job that has them is for
`coverage services` alone. - is standard input.

In place of the hexadecimal digits of INPUT and DATA a file may have

  TEXT 'FIRST  0012'       the text in EBCDIC, code page 037; a quote within it is doubled
  TEXT-ASCII 'FIRST'       the text in ASCII
  PACKED -123 5            the packed decimal number of so many bytes, 1 to 16, with the sign C or D
  FULL 42 -1               the numbers, each of four bytes
  FILE name                the bytes of a file, from the folder of the file of cards on

of which it makes the cards of the program, of 64 bytes each. docs/JOB.md, "Data in other forms", has the rules.

Each card is read by the rules of docs/JOB.md. The first that breaks one is refused by its file, its line there, the
card and the rule, with the status 2, and nothing is written. A file may not begin or end a job of its own, nor end
within a listing.

--check reads a whole job, of a file or of standard input, and writes nothing. The line that it refuses is the one that
the program names as BAD JOB LINE or TOO LARGE. It doesn't look at what the lines of a listing say, which the program
compares with the module (docs/LISTING.md), and takes nothing behind ENDJOB, as `run`. With --services it is the line
that the program names behind the word services, and without it a SERVICE card is refused. This script is not proved.
"""
PIECE = 1 << 16
DIGITS = rb"([0-9A-Fa-f]{2,%d})\n" % (2 * MOST_BYTES)
# Many cards of one kind in a row, and one of them.
RUNS = {
    b"T": (re.compile(rb"(?:TEXT %s)+" % DIGITS), re.compile(rb"TEXT %s" % DIGITS)),
    b"I": (re.compile(rb"(?:INPUT %s)+" % DIGITS), re.compile(rb"INPUT %s" % DIGITS)),
    b"D": (re.compile(rb"(?:DATA [0-9]{1,9} %s)+" % DIGITS), re.compile(rb"DATA (0|[1-9][0-9]{0,8}) %s" % DIGITS)),
}
LOWER_FORM = re.compile(rb"(?:INPUT|DATA [^ ]*) (TEXT|TEXT-ASCII|FILE|PACKED|FULL)(?= |$)", re.I)
# A word where a form would stand, with more behind it, that isn't digits.
OTHER_FORM = re.compile(rb"(?:INPUT|DATA [0-9]+) (?![0-9A-Fa-f]+ )([A-Za-z][A-Za-z-]*) ")
# A line of a listing is as long as its bytes without one CR before its LF.
TOO_LONG = re.compile(rb"^(?![^\n]{%d}\r\n)[^\n]{%d}" % (LIMITS["LINE"], LIMITS["LINE"] + 1), re.M)


class Refused(Exception):
    """A line that breaks a rule: where it stands, the word of its card where it has one, and the rule."""

    def __init__(self, place: Place, word: str, broken: Broken) -> None:
        super().__init__(f"{word}: {broken}" if word else str(broken))
        self.place, self.limit = place, broken.limit


class Lines:
    """The lines of a file, as far as they were read."""

    def __init__(self, path: str, data: bytes) -> None:
        self.path, self.data = path, data
        # Where the next line begins, and how many stand before it.
        self.at = self.count = 0

    def place(self) -> Place:
        """That of the next line."""
        return Place(self.path, self.count + 1)

    def next(self) -> bytes:
        """The next line, without its end."""
        end = self.data.find(b"\n", self.at)
        line = self.data[self.at :] if end < 0 else self.data[self.at : end]
        self.skip(len(self.data) if end < 0 else end + 1, 1)
        return line

    def skip(self, end: int, count: int) -> None:
        """Goes on behind so many lines, which end there."""
        self.at, self.count = end, self.count + count

    def behind(self, count: int) -> tuple[int, int]:
        """Where the next lines end, so many or all that there are, and how many these are."""
        at, left = self.at, count
        while left and at < len(self.data):
            found = self.data.count(b"\n", at, at + PIECE)
            if found >= left:
                for _ in range(left):
                    at = self.data.index(b"\n", at) + 1
                return at, count
            at, left = at + PIECE, left - found
        if left and at > self.at and not self.data.endswith(b"\n"):
            left -= 1
        return min(at, len(self.data)), count - left


def skip_run(reader: Reader, lines: Lines) -> int:
    """Reads cards TEXT, INPUT or DATA that stand in a row at once, where all are good and may stand here. Else nothing is
    read, and the answer is where they end: up to there cards are read one by one."""
    run_of, card = RUNS.get(lines.data[lines.at : lines.at + 1], (None, None))
    found = run_of.match(lines.data, lines.at, lines.at + PIECE) if run_of else None
    if not found or not card:
        return lines.at
    values = card.findall(lines.data, lines.at, found.end())
    reader.here = lines.place()
    try:
        take_run(reader, found[0][:5].split(b" ")[0].decode(), values, lines.data.count(b"\n", lines.at, found.end()))
    except Broken:
        return found.end()
    lines.skip(found.end(), len(values))
    return lines.at


def take_run(reader: Reader, key: str, values: list[Any], count: int) -> None:
    """Notes the values of so many cards in a row: the digits of TEXT and INPUT, the offset and the digits of DATA."""
    digits = [it[1] for it in values] if key == "DATA" else values
    if len(values) < count or any(len(it) % 2 for it in digits):
        raise Broken("a card of the row")
    reader.stand(key)
    if key == "TEXT":
        reader.put_text(sum(map(len, digits)) // 2)
    elif key == "INPUT":
        reader.last = key
    else:
        reader.put_data(max(int(offset) + len(it) // 2 for offset, it in values), 0)


def word_of(line: bytes) -> str:
    """The word of the card that the line is meant for; none where it is no card."""
    word = line.split(b" ")[0].decode("ascii", "replace")
    return word if word in FIELDS else ""


def read_card(reader: Reader, place: Place, line: bytes) -> int:
    """Reads a card, and answers how many listing lines follow it."""
    try:
        return reader.card(place, line)
    except Broken as broken:
        raise Refused(place, word_of(line), broken) from None


def pass_listing(lines: Lines, count: int) -> int:
    """Goes behind so many listing lines, or as many as there are, and answers how many."""
    end, found = lines.behind(count)
    long = TOO_LONG.search(lines.data, lines.at, end)
    if long:
        before = lines.data.count(b"\n", lines.at, long.start())
        size = len(lines.data[long.start() : end].split(b"\n", 1)[0])
        what = Broken(f"a listing line of {size} bytes: the limit LINE is {LIMITS['LINE']}", "LINE")
        raise Refused(Place(lines.path, lines.count + before + 1), "", what)
    lines.skip(end, found)
    return found


# A job that is put together.


def made_of(reader: Reader, place: Place, line: bytes) -> Optional[bytes]:
    """The cards that a line with a form of data makes; None of any other line."""
    found = FORM.fullmatch(line)
    if not found or line.endswith(b"\r"):
        return None
    reader.here = place
    front, offset_word, form, text = found.groups()
    key = "INPUT" if offset_word is None else "DATA"
    try:
        reader.stand(key)
        offset = number_of(offset_word.decode("ascii", "replace"), "offset") if offset_word is not None else 0
        data = bytes_of(form, text, os.path.dirname(place.path))
        if key == "DATA":
            reader.put_data(offset, len(data))
            return data_cards(offset, data)
        reader.last = key
        return input_cards(data)
    except Broken as broken:
        raise Refused(place, key, broken) from None


def check_piece_card(place: Place, line: bytes) -> None:
    """Refuses the cards that stand around all files, and a form in lower case."""
    word = word_of(line)
    if word in ("COVERJOB", "ENDJOB"):
        why = "this card stands around all files, and job writes it itself; --check reads a whole job"
        raise Refused(place, word, Broken(why))
    if FORM.fullmatch(line):
        return
    form = LOWER_FORM.match(line)
    if form:
        name = form[1].decode()
        raise Refused(place, word, Broken(f"the form {name} is in lower case; it is {name.upper()}"))
    form = OTHER_FORM.match(line)
    if form:
        raise Refused(place, word, Broken(f"{form[1].decode()} is no form of data: they are TEXT, TEXT-ASCII, PACKED, FULL and FILE"))


def single_lines(reader: Reader, lines: Lines) -> Iterator[tuple[int, Place, bytes]]:
    """The lines that no run of like cards skips, each with its offset and place."""
    one_by_one = 0
    while lines.at < len(lines.data):
        at = lines.at
        if at >= one_by_one:
            one_by_one = skip_run(reader, lines)
        if lines.at == at:
            place = lines.place()
            yield at, place, lines.next()


def piece(reader: Reader, path: str) -> Iterator[bytes]:
    """Reads the cards of a file, and answers them, whole lines, with the cards that forms of data make."""
    data = read_file(path)
    if not data:
        raise Fault(path, "is empty")
    lines = Lines(path, data if data.endswith(b"\n") else data + b"\n")
    kept = 0
    for at, place, line in single_lines(reader, lines):
        made = made_of(reader, place, line)
        if made is None:
            check_piece_card(place, line)
            pass_piece_listing(place, lines, read_card(reader, place, line))
        else:
            yield from (lines.data[kept:at], made)
            kept = lines.at
    yield lines.data[kept:]


def pass_piece_listing(place: Place, lines: Lines, count: int) -> None:
    """Goes behind the listing of a card, which ends in its file."""
    found = pass_listing(lines, count)
    if found < count:
        raise Refused(place, "LISTING", Broken(f"a listing of {count} lines, of which the file has {found}"))


def end(reader: Reader) -> None:
    """Reads the ENDJOB behind the last file, and tells what is missing by then at the card that needs it."""
    session, module = reader.without_controller(), reader.module
    if module and module.text < module.size:
        reader.here = module.place
        raise Refused(module.place, "MODULE", Broken(f"its TEXT cards have {module.text} of its {module.size} bytes"))
    if session:
        why = f"the phase {reader.phase} has no task {session.by}, which is to open and close it"
        raise Refused(session.place, "SESSION", Broken(why))
    reader.card(Place("the job", 0), b"ENDJOB")


def put_together(paths: list[str]) -> bytes:
    """The job of the files' cards."""
    reader = Reader(has_services=True)
    reader.card(Place("the job", 1), b"COVERJOB 1")
    parts = [b"COVERJOB 1\n"]
    for path in paths:
        parts += piece(reader, path)
    end(reader)
    job = b"".join([*parts, b"ENDJOB\n"])
    check_input("the job", job)
    return job


# A whole job.


def check_input(path: str, data: bytes) -> None:
    """Refuses a job that has more bytes than an input may have."""
    if len(data) > LIMITS["INPUT"]:
        raise Fault(path, f"{len(data)} bytes: the limit INPUT is {LIMITS['INPUT']}")


def check(path: str, data: bytes, has_services: bool = False) -> None:
    """Refuses the first line that breaks a rule of jobs with services, or of those without, where there is one."""
    check_input(path, data)
    reader, lines = Reader(has_services), Lines(path, data)
    for _, place, line in single_lines(reader, lines):
        check_form(place, line)
        count = read_card(reader, place, line)
        found = pass_listing(lines, count)
        if found < count:
            why = f"the input ends: the listing of line {place.line} has {found} of its {count} lines"
            raise Refused(lines.place(), "", Broken(why))
    if not reader.ended:
        raise Refused(lines.place(), "", Broken(reader.rest()))


def check_form(place: Place, line: bytes) -> None:
    """Refuses a form of data, which the program doesn't know."""
    found = FORM.fullmatch(line)
    if found:
        what = "is a form of the files that coverage job puts together; a job has hexadecimal digits alone"
        raise Refused(place, word_of(line), Broken(f"{found[3].decode()} {what}"))


def main(words: list[str]) -> None:
    options, words = take_options("job", words)
    is_check = "--check" in options
    for it in words:
        if it.startswith("--"):
            raise UsageError(f"{it} is none of its options")
    if options and not is_check:
        raise UsageError("--services stands behind --check alone")
    if is_check:
        refuse_more(words, 1)
    elif not words:
        raise UsageError
    try:
        if is_check:
            path = words[0] if words else "-"
            check(path, read_file(path), "--services" in options)
        else:
            write_output(put_together(words))
    except Refused as refused:
        raise Fault(str(refused.place), str(refused)) from None
