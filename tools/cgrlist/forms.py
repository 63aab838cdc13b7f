"""The forms of a report: a table for people, comma-separated values, and JSON. Each is printed as the routes come."""

import itertools
import json
from dataclasses import dataclass

from .tables import (AMOUNT, CSV, JSON, NODE, NUMBER, NUMBERS, PATH, REQUEST, TEXT, TIME, Columns, about, csv_lines, json_of,
                     object_text, request_json, request_row, request_text, texts_of)
from .times import kept

ROUTE = {  # the fields of a route
    "rank": NUMBER,
    "delivery": TIME,
    "hops": NUMBER,
    "entry": NODE,
    "until": TIME,
    "send_by": TIME,
    "contacts": NUMBERS,
    "nodes": PATH,
    "room": AMOUNT,
}
HOP = {"contact": NUMBER, "from": NODE, "to": NODE, "send": TIME, "arrive": TIME, "room": AMOUNT}


def route_row(it, room=None):
    """The values of a route, and its room if that is known."""
    times = {"delivery": it.delivery, "until": it.until, "send_by": it.send_by}
    return {"rank": it.rank, "hops": len(it.contacts), "entry": it.entry, **times, "contacts": it.contacts, "nodes": it.nodes,
            "room": room}


@dataclass(frozen=True)
class Form:
    """How answers are printed: for what was asked, which has a plan and a spelling, and with what of their routes."""

    asked: "Asked"
    with_hops: bool = False
    with_room: bool = False
    with_send_by: bool = False

    @property
    def how(self):
        """How values are spelled."""
        return self.asked.spelling

    def shown(self, columns, fields=None):
        """The columns that are shown, of some fields or of all."""
        hidden = {"room": not self.with_room, "send_by": not self.with_send_by}
        return {field: columns[field] for field in fields or columns if not hidden.get(field)}

    def row(self, route):
        """The values of a route."""
        return route_row(route, self.asked.plan.room(route) if self.with_room else None)

    def hop_row(self, it):
        """The values of a hop."""
        room = self.asked.plan.room_of(it) if self.with_room else None
        return dict(zip(HOP, (it.contact, it.sender, it.receiver, it.send, it.arrive, room)))

    def pieces(self, form, answers):
        """Answers, each with its request or None, in a form, in pieces."""
        return {TEXT: table_text, CSV: csv_text, JSON: json_text}[form](answers, self)


# ---- The table --------------------------------------------------------------------------------------------------

COLUMNS = ("rank", "delivery", "hops", "until", "send_by", "room", "contacts", "nodes")  # the entry node is the second one
HOP_SIDES = [str.rjust, str.ljust, str.ljust, str.ljust, str.ljust, str.ljust]


def table_text(answers, form):
    """A table for people, in pieces. Each answer ends as a report does."""
    for place, (request, listing) in enumerate(answers):
        if request:
            yield "\n" * (place > 0) + request_text(request, form.how)
        yield from listing_text(listing, form)
        yield "end\n" if listing.is_whole else "more\n"


def listing_text(listing, form):
    """The routes of a listing, in pieces, below the names of the columns."""
    shown = form.shown(ROUTE, COLUMNS)
    columns, hops = Columns(kind.side for kind in shown.values()), Columns(HOP_SIDES)
    head = [[field.replace("_", " ") for field in shown]]
    for block in listing.blocks():
        if block:
            rows = (texts_of(shown, form.row(route), form.how) for route in block)
            lines = columns.lines([*head, *({**row, "rank": row["rank"] or "-"}.values() for row in rows)])
            lines = [*lines[: len(head)], *with_hops(block, lines[len(head) :], hops, form)]
            yield "".join(f"{line}\n" for line in lines)
            head = []
    yield "".join(f"{line}\n" for line in columns.lines(head))


def with_hops(routes, lines, columns, form):
    """The lines of routes, each with the lines of its hops below it if they are shown."""
    words = [hop_words(place, hop, form) for route in routes for place, hop in enumerate(route.hops, 1)]
    hop_lines = iter(columns.lines(words) if form.with_hops else ())
    for route, line in zip(routes, lines):
        yield line
        yield from (f"      {it}" for it in itertools.islice(hop_lines, len(route.hops)))


def hop_words(place, hop, form):
    """The words of a hop's line in the table."""
    texts = texts_of(HOP, form.hop_row(hop), form.how)
    room = f"room {texts['room']}" if form.with_room else ""
    times = [f"send {texts['send']}", f"arrive {texts['arrive']}"]
    return [f"hop {place}", f"contact {hop.contact}", form.how.path(hop.link), *times, room]


# ---- Comma-separated values -------------------------------------------------------------------------------------


def csv_text(answers, form):
    """Comma-separated values, in pieces, a line for each route or for each hop, below a line with the fields.

    If answers have requests, each line begins with its request, and an answer without a route has a line, too.
    """
    fields = ["rank", "hop", *form.shown(HOP)] if form.with_hops else [*form.shown(ROUTE)]
    text_of = hops_text_of(form) if form.with_hops else routes_text_of(form)
    for place, (request, listing) in enumerate(answers):
        cells = [*texts_of(REQUEST, request_row(request), form.how).values()] if request else []
        if not place:
            yield csv_lines([[*(REQUEST_FIELDS if request else ()), *fields]])
        for block in listing.blocks():
            yield text_of(block, cells)
        if cells and not listing.shown:
            yield csv_lines([[*cells, *([""] * len(fields))]])


REQUEST_FIELDS = ("source", "destination", *[*REQUEST][2:])  # a hop has fields from and to


def routes_text_of(form):
    """A function that gives the lines of routes, each after some cells."""
    shown = form.shown(ROUTE)
    return lambda routes, cells: csv_lines([*cells, *texts_of(shown, form.row(it), form.how).values()] for it in routes)


def hops_text_of(form):
    """The same of each hop of routes. Many of them share a hop, and what its line ends with is made once."""
    shown = form.shown(HOP)

    @kept
    def rest(hop):
        return csv_lines([texts_of(shown, form.hop_row(hop), form.how).values()])

    def text(routes, cells):
        before = csv_lines([[*cells, ""]])[:-1] if cells else ""
        return "".join(f"{before}{it.rank or ''},{at},{rest(hop)}" for it in routes for at, hop in enumerate(it.hops, 1))

    return text


# ---- JSON -------------------------------------------------------------------------------------------------------


def json_text(answers, form):
    """One object with its routes, one a line; if answers have requests, an object in a line for each. In pieces."""
    for request, listing in answers:
        if request:
            told = {"request": request_json(request, form.how), "routes": [route_json(it, form) for it in listing.routes()]}
            yield json.dumps({**told, **end_json(listing, form)}) + "\n"
        else:
            rows = (json.dumps(route_json(route, form)) for block in listing.blocks() for route in block)
            yield from object_text("routes", rows, lambda: end_json(listing, form, form.asked.request_or_none()))


def end_json(listing, form, request=None):
    """What stands after the routes of an answer."""
    return about(form.how, form.asked.plan, request, looked_at=listing.looked, end=listing.is_whole)


def route_json(route, form):
    """A route as JSON has it."""
    row = json_of(form.shown(ROUTE), form.row(route), form.how)
    hops = [json_of(form.shown(HOP), form.hop_row(hop), form.how) for hop in route.hops] if form.with_hops else None
    return row if hops is None else {**row, "path": hops}
