"""Reads the files of rows that tests/runs.py and tests/steps.py make: their lines, tables and texts, and their spelling."""

import glob
import itertools
import os
import re
from dataclasses import dataclass, field

from checking import TOP, Broken

SHARED = "tests/data/rows/shared.txt"
SHOWN = 2000  # bytes of a text that a failure shows


class BadRows(Broken):
    """A file of rows can't be read; the message says where and why."""


# ---- Reading rows -----------------------------------------------------------------------------------------------


@dataclass(frozen=True)
class Item:
    """A line of a file of rows, with the lines below it."""

    path: str
    number: int
    key: str
    rest: str
    below: tuple

    @property
    def place(self):
        return f"{self.path}:{self.number}"

    @property
    def lines(self):
        """The lines of a text that may begin beside its key."""
        return (self.rest, *self.below) if self.rest else self.below


@dataclass(frozen=True)
class Named:
    """A text that has a name."""

    lines: tuple
    is_file: bool = False


@dataclass
class Section:
    """Rows, and the texts and tables that hold for them."""

    named: dict
    tables: list = field(default_factory=list)
    rows: list = field(default_factory=list)
    head: Item = None  # its title

    def lines(self):
        """For each line of its tables with each of the others: what names it, and a speller that knows its cells."""
        for lines in itertools.product(*self.tables):
            named = dict(self.named)
            for _, cells in lines:
                named.update(cells)
            yield [told for told, _ in lines], Speller(named)


def items_of(path, text):
    """Each line that says something, with the lines below it."""
    items = []
    for number, line in enumerate(text.split("\n"), 1):
        if line.startswith("    "):
            if not items:
                raise BadRows(f"{path}:{number}: a text of nothing")
            last = items[-1]
            items[-1] = Item(path, last.number, last.key, last.rest, (*last.below, line[4:]))
        elif line.startswith("["):
            items.append(Item(path, number, "[", line, ()))
        elif line and not line.startswith("#"):
            key, _, rest = line.partition(" ")
            items.append(Item(path, number, key, rest, ()))
    return items


def cells_of(line):
    return [cell.strip() for cell in line.split(" | ")]


def numbers_of(cell):
    """The cells that a cell `N..M` stands for; any other cell stands for itself."""
    span = re.fullmatch(r"(\d+)\.\.(\d+)", cell)
    return [str(it) for it in range(int(span[1]), int(span[2]) + 1)] if span else [cell]


def table_of(item):
    """The lines of a table: for each, what distinguishes it from the others, and its cells by their names."""
    names = cells_of(item.rest)
    table = []
    for number, line in enumerate(item.below, item.number + 1):
        cells = cells_of(line)
        if len(cells) != len(names):
            raise BadRows(f"{item.path}:{number}: {len(cells)} cells under {len(names)} names")
        for row in itertools.product(*map(numbers_of, cells)):
            told = f"line {number}, {names[0]} {row[0]}"
            table.append((told, {name: Named((f"{cell}\\",)) for name, cell in zip(names, row)}))
    return table


def take(section, item, take_row):
    """Adds to a section what an item says: a text, a table, or what `take_row` takes."""
    if item.key in ("file", "text"):
        if item.rest in section.named:
            raise BadRows(f"{item.place}: {item.rest} has a text already")
        section.named[item.rest] = Named(item.below, item.key == "file")
    elif item.key == "each":
        section.tables.append(table_of(item))
    else:
        take_row(section, item)


def sections_of(path, named, take_row):
    """The sections of a file of rows, the first of which is what stands above the others."""
    with open(f"{TOP}/{path}", encoding="utf-8") as file:
        items = items_of(path, file.read())
    sections = [Section(dict(named), head=Item(path, 1, "[", "", ()))]
    for item in items:
        if item.key == "[":
            sections.append(Section(dict(sections[0].named), list(sections[0].tables), head=item))
        else:
            take(sections[-1], item, take_row)
    return sections


def takes_no_row(_, item):
    raise BadRows(f"{item.place}: {item.key} says nothing here")


def paths_in(folder):
    """The files of rows in a folder, without that of the shared texts."""
    return sorted({os.path.relpath(it, TOP) for it in glob.glob(f"{TOP}/{folder}/*.txt")} - {SHARED})


def shared_texts():
    """The texts that have a name in every file of rows."""
    return sections_of(SHARED, {}, takes_no_row)[0].named


def sections_in(paths, take_row):
    """For each file of rows: its sections, which know the shared texts."""
    shared = shared_texts()
    for path in paths:
        yield sections_of(path, shared, take_row)


def row_name(part, item):
    """The words that run the row alone which has this first line."""
    return f"{part} {os.path.basename(item.path).removesuffix('.txt')}:{item.number}"


# ---- Spelling ---------------------------------------------------------------------------------------------------

REPEATED = re.compile(r"for (\w+) in (\d+)\.\.(\d+): (.*)")
SIGNS = re.compile(r"\{([\w.-]+)(?::([\w.-]+))?\}|<(\d+) ([^<>]+)>|\\(n|\\|x[0-9a-f]{2})|''")


class Speller:
    """Spells out what rows say, with the texts that have names."""

    def __init__(self, named):
        self.named = named

    def spelled(self, raw):
        """The bytes that a part of a line stands for."""
        spelled, end = b"", 0
        for sign in SIGNS.finditer(raw):
            spelled += raw[end : sign.start()].encode() + self.meaning(*sign.groups())
            end = sign.end()
        return spelled + raw[end:].encode()

    def meaning(self, name, limit, count, repeated, byte):
        if name:
            return self.text_named(name) if limit is None else self.text_named(name)[: self.limit(limit)]
        if count:
            return self.spelled(repeated) * int(count)
        if not byte:
            return b""
        return {"n": b"\n", "\\": b"\\"}.get(byte) or bytes.fromhex(byte[1:])

    def text_named(self, name):
        if name not in self.named:
            raise BadRows(f"no text {name}")
        return self.text(self.named[name].lines)

    def limit(self, limit):
        """The number that a word is, or the text that it names."""
        return int(limit if limit.isdigit() else self.text_named(limit))

    def repeated(self, name, first, last, raw):
        """A line for each number, for which the name stands; with `.next` after it, for the next number."""
        speller = Speller(dict(self.named))
        for number in range(int(first), int(last) + 1):
            speller.named[name] = Named((f"{number}\\",))
            speller.named[f"{name}.next"] = Named((f"{number + 1}\\",))
            yield speller.line(raw)

    def line(self, raw):
        repeated = REPEATED.fullmatch(raw)
        if repeated:
            return b"".join(self.repeated(*repeated.groups()))
        if raw.endswith("\\"):
            return self.spelled(raw[:-1])
        spelled = self.spelled(raw)
        return spelled if spelled.endswith(b"\n") else spelled + b"\n"

    def text(self, lines):
        return b"".join(map(self.line, lines))

    def words(self, raw):
        """The words of a run. A word that is a text's name in braces stands for the words of that text."""
        words = []
        for word in raw.split():
            alone = re.fullmatch(r"\{[\w.-]+\}", word)
            spelled = self.spelled(word)
            words += spelled.split() or [b""] if alone else [spelled]
        return words

    def number(self, item, otherwise):
        return int(self.spelled(item.rest)) if item else otherwise


# ---- Showing ----------------------------------------------------------------------------------------------------


def shown(value):
    """A status or a text as a failure shows it."""
    if not isinstance(value, bytes):
        return "nothing" if value is None else str(value)
    rest = f".. {len(value)} bytes in all" if len(value) > SHOWN else ""
    return "'" + value[:SHOWN].decode(errors="backslashreplace") + "'" + rest
