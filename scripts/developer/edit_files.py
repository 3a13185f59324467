"""Edits: wrong bodies of crates, which the prover must refuse, as a file of each crate lists them, and the functions that they
change."""
from __future__ import annotations

import os
import re
from dataclasses import dataclass, field
from functools import cache
from typing import Iterator, Mapping, Optional

from common.command import TOP, Fault, read_file
from developer.crate_sources import crates

# The file of a crate's edits, and the words with which they begin: those that the gate tries, and the others.
FILE, GATE, MORE = "wrong-bodies.txt", "gate", "more"
# Where a crate's tests stand.
TESTS = ("src/tests.rt", "src/tests/")
NAME = re.compile(r"\w+")
# A line that begins an item, by the layout of `rt fmt`: what it is, and its name.
ITEM = re.compile(
    r" *(?:(?:pub(?:\([^)]*\))?|const|final|unsafe) )*"
    r"(fn|impl|mod|trait|struct|enum|union|type|use|const|static|ghost|macro_rules!)\b ?(\w*)"
)
# What goes on with an item's head that has more than one line, in the column of its first.
GOES_ON = re.compile(r" *(?:[{)\]>]|where\b)")
WORD = re.compile(r"'\w+|\w+|::|->|\S")
# A clause of a contract that has a name, and what a file of specs/ says of a published constant.
CLAUSE = re.compile(r"\b(?:ensures|requires) (\w+) \{")
PUBLISHED = re.compile(r"^pub \w+ : (\w+) ≡ ", re.MULTILINE)
# Words of a type that its name doesn't have.
LEFT_OUT = ("mut", "dyn", "const", "for")


class Unfit(Exception):
    """Why an edit can't be applied to the crate as it stands, or whose proof it is to break isn't known."""


@dataclass(eq=False)
class Edit:
    """A wrong body of a crate."""

    crate: str
    # The word before its name: GATE or MORE.
    kind: str
    name: str
    # The clause that is false of it, where its line says so.
    breaks: str = ""
    # The functions that its lines name, as `rt check` prints them, below their crate.
    functions: list[str] = field(default_factory=list)
    # Each file of the crate in which a text is replaced, that text, and what it is replaced by, in order.
    changes: list[tuple[str, str, str]] = field(default_factory=list)
    # While it is read: the file, and the text that is to be replaced next.
    file: str = ""
    old: str = ""

    @property
    def place(self) -> str:
        return f"crates/{self.crate}/{FILE}: {self.name}"

    def takes(self, word: str, text: str) -> bool:
        """Takes a line of it, by its word and what follows that; whether it is one, in its place."""
        if word == "breaks":
            self.breaks = text
        elif word == "function":
            self.functions.append(text)
        elif word == "file" and not self.old:
            self.file = text
        elif word == "old" and self.file and text and not self.old:
            self.old = text
        elif word == "new" and self.old:
            self.changes.append((self.file, self.old, text))
            self.old = ""
        else:
            return False
        return True


def edits_of(crate: str) -> list[Edit]:
    """The crate's edits, in order; none where it has no file of them."""
    path, found = f"crates/{crate}/{FILE}", dict[str, Edit]()
    edit: Optional[Edit] = None
    lines = read_file(f"{TOP}/{path}").decode(errors="replace").split("\n") if os.path.isfile(f"{TOP}/{path}") else []
    for number, line in enumerate(lines, 1):
        word, _, text = line.partition(":")
        text = text.removeprefix(" ")
        if word in (GATE, MORE) and NAME.fullmatch(text) and text not in found:
            edit = found[text] = Edit(crate, word, text)
        elif line and not line.startswith("#") and not (edit and edit.takes(word, text)):
            raise Fault(f"{path}:{number}", f"is no line of an edit, or not in its place, or its name is another's too: {line}")
    return list(found.values())


@dataclass
class Applied:
    """What comes of edits of a crate: the texts of the files that they change, their functions, and the lines that are changed."""

    texts: dict[str, str]
    functions: list[str]
    lines: set[tuple[str, int]]


def applied(edit: Edit, top: str = TOP, to: Optional[Mapping[str, str]] = None) -> Applied:
    """Applies an edit to its crate as it stands below a folder, or as other edits have changed it: each text that is to be replaced
    is one line's, and stands once in its file."""
    texts, found, lines = dict(to or {}), list(edit.functions), set()
    is_derived, has_changed, whole = not found, False, f"{top}/crates/{edit.crate}"
    if edit.old:
        raise Unfit(f"no new: follows its last old: {edit.old.strip()}")
    if edit.breaks and not any(edit.breaks in clauses(f"{top}/crates/{it}") for it in crates(edit.crate, top=top)):
        raise Unfit(f"no contract has a clause {edit.breaks}, which is to break")
    for file, old, new in edit.changes:
        if not os.path.isfile(f"{whole}/{file}"):
            raise Unfit(f"there is no file {file}")
        text = texts.get(file) or read_file(f"{whole}/{file}").decode(errors="replace")
        if text.count(old) != 1:
            raise Unfit(f"the text of old: stands {text.count(old)} times in {file}, and not once: {old.strip()}")
        # (its first words tell better where it stands than the space before them)
        at = text.index(old) + len(old) - len(old.lstrip())
        constant = next(((it[1] for it in items_around(text.split("\n"), text.count("\n", 0, at)) if it[0] == "const")), "")
        if constant in published(whole):
            raise Unfit(f"specs/Published.antt fixes {constant}, which a check of the crate sees, and none of a function")
        if is_derived:
            found.append(function_at(whole, file, text, at))
        lines.add((file, text.count("\n", 0, at) + 1))
        texts[file], has_changed = text.replace(old, new), has_changed or old != new
    if not has_changed:
        raise Unfit("it changes nothing")
    return Applied(texts, list(dict.fromkeys(found)), lines)


@cache
def clauses(whole: str) -> frozenset[str]:
    """The names of the clauses of a crate's contracts."""
    return frozenset(name for _, text in sources_of(whole) for name in CLAUSE.findall(text))


@cache
def published(whole: str) -> frozenset[str]:
    """The constants whose numbers a crate's specs/Published.antt fixes."""
    path = f"{whole}/specs/Published.antt"
    return frozenset(PUBLISHED.findall(read_file(path).decode(errors="replace")) if os.path.isfile(path) else ())


def function_at(whole: str, file: str, text: str, at: int) -> str:
    """The function around a place of a file of a crate's folder, as `rt check` prints it, below the crate."""
    items = list(items_around(text.split("\n"), text.count("\n", 0, at)))
    kinds = [kind for kind, _, _ in items]
    if not file.startswith("src/") or kinds[:1] != ["fn"] or {*kinds[1:]} - {"impl", "trait", "mod"}:
        raise Unfit(f"{file}: its place is in no function, or in one within another: a line function: must say whose proof breaks")
    module, names = module_of(file), [name for kind, name, _ in reversed(items) if kind != "impl"]
    for head in [head for kind, _, head in items if kind == "impl"]:
        names.insert(-1, name_of_impl(head))
        # A type's own functions go by the place of the type, also where they stand elsewhere.
        if " for " not in head and not declares(text, names[-2]):
            module = next((module_of(it) for it, other in sources_of(whole) if declares(other, names[-2])), module)
    return "::".join([*module, *names])


def module_of(file: str) -> list[str]:
    return [it for it in file.removeprefix("src/").removesuffix(".rt").split("/") if it not in ("lib", "main", "mod")]


def sources_of(whole: str) -> Iterator[tuple[str, str]]:
    """The files of a crate's folder, by their places in it, and their texts; its tests aren't among them."""
    for folder, _, files in os.walk(f"{whole}/src"):
        for path in (os.path.relpath(f"{folder}/{it}", whole) for it in sorted(files)):
            if not path.startswith(TESTS):
                yield path, read_file(f"{whole}/{path}").decode(errors="replace")


def declares(text: str, name: str) -> bool:
    """Whether a file declares the type that is the first word of a name."""
    return re.search(rf"^ *(?:pub(?:\([^)]*\))? )?(?:struct|enum|union) {name.partition('+')[0]}\b", text, re.MULTILINE) is not None


def items_around(lines: list[str], at: int) -> Iterator[tuple[str, str, str]]:
    """The items around a line, the inmost first: what each is, its name, and its head."""
    most = column_of(lines[at])
    for number in range(at, -1, -1):
        line = lines[number]
        if line.strip() and column_of(line) <= most:
            item = ITEM.match(line)
            if item:
                yield item[1], item[2], " ".join(it.strip() for it in lines[number:at + 1]).partition("{")[0]
            most = column_of(line) - (0 if GOES_ON.match(line) else 1)


def column_of(line: str) -> int:
    return len(line) - len(line.lstrip())


def words_of(text: str) -> list[str]:
    """The words of a type, without lifetimes, paths and what its name leaves out; & is a word of it."""
    found = [it for it in WORD.findall(text) if it not in LEFT_OUT and not it.startswith("'")]
    return [it for it, then in zip(found, [*found[1:], ""]) if (it.isidentifier() or it == "&") and then != "::"]


def split_generics(text: str) -> tuple[str, str]:
    """The text between the angle brackets that a text begins with, and what follows these."""
    depth = 0
    for at, it in enumerate(text if text.startswith("<") else ""):
        depth += (it == "<") - (it == ">" and text[at - 1] != "-")
        if not depth:
            return text[1:at], text[at + 1:]
    return "", text


def name_of_impl(head: str) -> str:
    """What a check calls an impl: the words of its type, and of its trait with that's arguments, without its own parameters; of a
    type's own impl the type, and its arguments where they are more than parameters."""
    between, rest = split_generics(head.strip().removeprefix("impl"))
    own = parameters(between)
    rest = rest.partition(" where ")[0].strip()
    # (a trait's name has no space before its arguments)
    trait, is_of_trait, of = rest.partition(" for ")
    if not is_of_trait:
        words = words_of(rest)
        return words[0] if {*words[1:]} <= own else "+".join(words)
    words = [it for it in (*words_of(of), *words_of(trait)) if it not in own]
    return "".join("Ref" if it == "&" else it[0].upper() + it[1:] for it in words)


def parameters(between: str) -> set[str]:
    """The parameters of types and constants that are declared in angle brackets."""
    found, depth, begins = set(), 0, True
    for it in WORD.findall(between):
        if begins and it != "const":
            found.add(it)
            begins = False
        depth += (it in "<([") - (it in ">)]")
        begins = begins or it == "," and not depth
    return found
