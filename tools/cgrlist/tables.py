"""Rows of values as tables: aligned columns for people, comma-separated values, JSON, and HTML for notebooks.

A table's columns have a kind each, which says how its values are spelled. All tools print by these kinds, so that their
JSON has one form: times of ISO 8601, lists as lists, and nodes as numbers, with their names beside them.
"""

import csv
import functools
import html
import io
import itertools
import json
import re
from typing import NamedTuple

from .times import iso_text
from .version import VERSION

TEXT, CSV, JSON = "text", "csv", "json"  # the forms of a table
FORMULAS = ("=", "+", "-", "@", "\t", "\r")  # how a cell begins that spreadsheets compute
NUMERAL = re.compile(r"[+-]?\d*", re.ASCII)
EXACT = 2**53 - 1  # up to here, numbers of JSON are read exactly everywhere


class Columns:
    """Columns of text, each moved to its side. A column grows if a later line needs that, and never gets narrower."""

    def __init__(self, sides):
        self._sides, self._widths = list(sides), itertools.repeat(0)

    def lines(self, rows):
        """Rows of words as lines, without blanks at their ends."""
        rows = [list(map(str, row)) for row in rows]
        self._widths = [max(width, *map(len, column)) for width, column in zip(self._widths, zip(*rows))] or self._widths
        pad = [*zip(self._sides, self._widths)]
        return ["  ".join(side(word, width) for (side, width), word in zip(pad, row)).rstrip() for row in rows]


def csv_lines(rows):
    """Rows of cells as lines of comma-separated values."""
    text = io.StringIO()
    csv.writer(text, lineterminator="\n").writerows(map(_cell, row) for row in rows)
    return text.getvalue()


def _cell(value):
    """A cell that no spreadsheet takes for a formula: an apostrophe is before what begins as one, unless it is a number."""
    is_formula = str(value)[:1] in FORMULAS and not NUMERAL.fullmatch(str(value)) if value else False
    return f"'{value}" if is_formula else value


def html_table(head, rows):
    """A table of words in HTML."""
    lines = ["".join(f"<{kind}>{html.escape(str(word))}</{kind}>" for word in row) for kind, row in
             [("th", head), *(("td", row) for row in rows)]]
    return "<table>" + "".join(f"<tr>{line}</tr>" for line in lines) + "</table>"


# ---- Values -----------------------------------------------------------------------------------------------------


class Spelling:
    """How values are spelled: by names of nodes and a function for times. Nodes are texts in JSON if one of the contacts that
    a function gives has one above 2^53 - 1, and so are bytes that may be so many.
    """

    def __init__(self, names, time_text, contacts):
        self.names, self.time_text, self._contacts = names, time_text, contacts
        self._nodes = set()  # those that were spelled as JSON

    def path(self, nodes):
        """Nodes by their names, with arrows between them."""
        return " > ".join(map(self.names.of, nodes))

    def node(self, node):
        """A node as JSON has it."""
        self._nodes.add(node)
        return self._node(node)

    @functools.cached_property
    def amount(self):
        """A function that gives a number of bytes as JSON has it."""
        return _exact(it.rate * (it.end - it.start) for it in self._contacts())

    @functools.cached_property
    def _node(self):
        return _exact(node for it in self._contacts() for node in it.link)

    def told_names(self):
        """The names of the nodes that were spelled as JSON since the last call."""
        named = {node: self.names.of(node) for node in sorted(self._nodes)}
        self._nodes = set()
        return {str(node): name for node, name in named.items() if name != str(node)}


def _exact(numbers):
    """A function that leaves a number as it is, or makes it a text if one of some numbers isn't exact in JSON."""
    return (lambda number: number) if max(numbers, default=0) <= EXACT else str


class Kind(NamedTuple):
    """A kind of values: the side of their column, and functions that spell a value by a `Spelling`, as text and as JSON."""

    side: "Callable"
    text: "Callable"
    json: "Callable"


NUMBER = Kind(str.rjust, lambda it, how: str(it), lambda it, how: it)
AMOUNT = Kind(str.rjust, lambda it, how: str(it), lambda it, how: how.amount(it))
WORD = Kind(str.ljust, lambda it, how: it, lambda it, how: it)
TIME = Kind(str.ljust, lambda it, how: how.time_text(it), lambda it, how: iso_text(it))
NUMBERS = Kind(str.ljust, lambda it, how: " ".join(map(str, it)), lambda it, how: [*it])
NODE = Kind(str.ljust, lambda it, how: how.names.of(it), lambda it, how: how.node(it))
NODES = Kind(str.ljust, lambda it, how: ",".join(map(how.names.of, it)), lambda it, how: [*map(how.node, it)])
PATH = Kind(str.ljust, lambda it, how: how.path(it), lambda it, how: [*map(how.node, it)])

REQUEST = {"from": NODE, "to": NODE, "at": TIME, "margin_ppm": NUMBER, "max_hops": NUMBER, "avoid": NODES}
LIMITS = ("margin_ppm", "max_hops", "avoid")


def texts_of(columns, row, how):
    """The values of a row as texts, under their fields; nothing for None."""
    return {field: "" if row[field] is None else kind.text(row[field], how) for field, kind in columns.items()}


def json_of(columns, row, how):
    """The values of a row as JSON has them, under their fields."""
    return {field: None if row[field] is None else kind.json(row[field], how) for field, kind in columns.items()}


def request_row(it):
    """The values of a request."""
    avoid = it.avoid.split(",") if isinstance(it.avoid, str) and it.avoid else it.avoid
    most = it.max_hops if it.max_hops is None else int(it.max_hops)
    return dict(zip(REQUEST, [it.source, it.destination, it.at, int(it.margin_ppm or 0), most, [*map(int, avoid)]]))


def request_text(it, how):
    """A request in a line, with its limits."""
    row, texts = request_row(it), texts_of(REQUEST, request_row(it), how)
    limits = "".join(f" {field.replace('_', ' ')} {texts[field]}" for field in LIMITS if row[field])
    return f"request from {texts['from']} to {texts['to']} at {texts['at']}{limits}\n"


def request_json(it, how):
    """A request as JSON has it."""
    return json_of(REQUEST, request_row(it), how)


# ---- Tables -----------------------------------------------------------------------------------------------------


class Table(NamedTuple):
    """A table: the kinds of its columns under their fields, rows of values in blocks that are printed as they come, and a
    spelling. As JSON it is an object, in which the rows have a name, and a function gives what stands after them.
    """

    columns: dict
    blocks: "Iterable"
    how: Spelling
    name: str = "rows"
    about: "Callable" = dict

    def pieces(self, form):
        """The table in a form, in pieces."""
        return {TEXT: self.text, CSV: self.csv, JSON: self.json}[form]()

    def text(self):
        """Aligned columns below their fields, with blanks for underscores."""
        columns = Columns(kind.side for kind in self.columns.values())
        head = [[field.replace("_", " ") for field in self.columns]]
        for block in self.blocks:
            rows = [[*texts_of(self.columns, row, self.how).values()] for row in block]
            if rows:
                yield "".join(f"{line}\n" for line in columns.lines([*head, *rows]))
                head = []
        yield "".join(f"{line}\n" for line in columns.lines(head))

    def csv(self):
        """Comma-separated values below their fields."""
        yield csv_lines([self.columns])
        for block in self.blocks:
            yield csv_lines(texts_of(self.columns, row, self.how).values() for row in block)

    def json(self):
        """An object with a row a line."""
        rows = (json.dumps(json_of(self.columns, row, self.how)) for block in self.blocks for row in block)
        return object_text(self.name, rows, self.about)


def object_text(name, rows, about):
    """An object of JSON, in pieces: rows as they come, a line each, under a name, and what a function gives after them."""
    before = f'{{"{name}": ['
    for row in rows:
        yield f"{before}\n  {row}"
        before = ","
    yield "]" if before == "," else f"{before}]"
    yield "".join(f",\n {json.dumps(key)}: {json.dumps(value)}" for key, value in about().items()) + "}\n"


def about(how, plan, request=None, **further):
    """What stands after the rows of JSON: the request, further values, names, the plan's digest, and the version."""
    asked = {"request": request_json(request, how)} if request else {}
    return {**asked, **further, "names": how.told_names(), "plan": plan.digest, "version": VERSION}
