"""Requests, routes and answers, and the lines in which the program takes and prints them.

Times are seconds since 1970 in UTC, nodes and contacts their numbers. Text that can't be read is `Refused`.
"""

import re
from dataclasses import dataclass, field
from datetime import datetime
from numbers import Integral
from typing import Dict, Iterator, List, NamedTuple, Optional, Tuple, Union

from .errors import Refused
from .limits import HOPS
from .plans import Plan
from .times import date_of, kept, seconds_of, time_text

MARGIN = "0"  # of a request without limits
REPORT_LINES = 10000000  # the most of a report or of explanations


@dataclass(frozen=True)
class Request:
    """What the program is asked: two nodes, when the bundle is at the first, and limits.

    `margin_ppm` is a margin on each light time in parts in a million of it, `max_hops` the most contacts of a route,
    and `avoid` has the nodes that no route passes, rising; one number alone and numbers joined by commas are taken, too.
    The program judges them: a limit may be any text.
    """

    source: int
    destination: int
    at: int
    margin_ppm: Union[int, str, None] = None
    max_hops: Union[int, str, None] = None
    avoid: Tuple[int, ...] = ()

    def __post_init__(self):
        if not isinstance(self.avoid, tuple):
            object.__setattr__(self, "avoid", tuple(map(int, listed(self.avoid))))

    @property
    def at_time(self) -> datetime:
        """When the bundle is at the source, in UTC."""
        return date_of(self.at)

    def words(self):
        """The request as the program takes it on the command line."""
        limits = {"--margin-ppm": self.margin_ppm, "--max-hops": self.max_hops, "--avoid": self.avoided_text or None}
        given = [word for name, value in limits.items() if value is not None for word in (name, str(value))]
        return ["--from", str(self.source), "--to", str(self.destination), "--at", time_text(self.at), *given]

    @kept
    def line(self):
        """The request as a line of many; None if a limit isn't one word."""
        limits = [MARGIN if self.margin_ppm is None else str(self.margin_ppm)]
        limits.append(str(HOPS) if self.max_hops is None else str(self.max_hops))
        words = [str(self.source), str(self.destination), time_text(self.at), *limits, *filter(None, [self.avoided_text])]
        return " ".join(words) if all(len(word.split()) == 1 for word in words) else None

    @property
    def avoided_text(self):
        """The nodes to avoid, joined by commas."""
        return ",".join(map(str, self.avoid))


def listed(nodes):
    """Nodes in a list: one number alone, a text of nodes that commas join, or any number of them."""
    if isinstance(nodes, str):
        return nodes.split(",") if nodes else []
    return [nodes] if isinstance(nodes, Integral) else list(nodes)


# ---- Routes -----------------------------------------------------------------------------------------------------


class Hop(NamedTuple):
    """A hop of a route: its contact's number and nodes, and the seconds of sending and of arrival."""

    contact: int
    sender: int
    receiver: int
    send: int
    arrive: int

    @property
    def link(self):
        """The sender and the receiver."""
        return self.sender, self.receiver

    @property
    def send_time(self) -> datetime:
        """The time of sending, in UTC."""
        return date_of(self.send)

    @property
    def arrive_time(self) -> datetime:
        """The time of arrival, in UTC."""
        return date_of(self.arrive)


@dataclass(frozen=True)
class Route:
    """A route as the program prints it.

    `rank` is its place in the list, from 1, and None if that isn't known. It has `hops` only if the program told them,
    `nodes`, which it passes in order, only if they were looked up in the plan, and `send_by`, the last second at the
    source for these contacts, only if that was asked for.
    """

    rank: Optional[int]
    delivery: int
    entry: int
    until: int
    contacts: Tuple[int, ...]
    hops: Tuple[Hop, ...] = ()
    nodes: Tuple[int, ...] = ()
    send_by: Optional[int] = None

    @property
    def delivery_time(self) -> datetime:
        """The time of delivery, in UTC."""
        return date_of(self.delivery)

    @property
    def until_time(self) -> datetime:
        """The earliest end of a contact of the route, in UTC."""
        return date_of(self.until)

    @property
    def send_by_time(self) -> Optional[datetime]:
        """The last time at the source for these contacts, in UTC; None if that wasn't asked for."""
        return None if self.send_by is None else date_of(self.send_by)

    @property
    def told(self):
        """What tells it from other routes of its request."""
        return self.delivery, self.entry, self.until, self.contacts

    def having(self, **values):
        """The route with other values: what `dataclasses.replace` makes, in half of the time."""
        return Route(**{**vars(self), **values})

    def text(self, time_text=time_text, node_text=str):
        """What the program prints of it after the rank, with times and nodes as functions spell them."""
        contacts = " ".join(map(str, self.contacts))
        return (
            f"delivery {time_text(self.delivery)} hops {len(self.contacts)} entry {node_text(self.entry)}"
            f" until {time_text(self.until)} contacts {contacts}"
        )


@dataclass(frozen=True)
class Fault:
    """Why a list of contacts makes no route, in the program's words; and the hops before that."""

    text: str
    hops: Tuple[Hop, ...] = ()


@dataclass(frozen=True)
class Answer:
    """Routes of a request, best first; `is_whole` says whether the list ends with them, None if that isn't known.

    It is a sequence of its routes. In a notebook it shows itself as a table and, if the plan and the hops are known, as a
    picture, too.
    """

    routes: Tuple[Route, ...]
    is_whole: Optional[bool]
    request: Optional[Request] = None
    plan: Optional[Plan] = field(default=None, repr=False, compare=False)

    def __iter__(self) -> Iterator[Route]:
        return iter(self.routes)

    def __len__(self) -> int:
        return len(self.routes)

    def __getitem__(self, place):
        return self.routes[place]

    def to_records(self, times: type = int) -> List[Dict[str, Union[int, str, datetime, None]]]:
        """The routes as flat rows, as pandas.DataFrame takes them: each a mapping of names to values, with the request's ends and
        time if it is known. Contacts and nodes are texts with blanks between. Times are seconds since 1970, or with
        `datetime` in place of `int` they are in UTC.
        """
        at = {int: int, datetime: date_of}[times]
        asked = self.request
        ends = {"source": asked.source, "destination": asked.destination, "at": at(asked.at)} if asked else {}
        return [{**ends, **_record(route, at)} for route in self.routes]

    def svg(self) -> str:
        """A picture of the routes in time, as an SVG. It needs the plan and the hops."""
        from . import showing

        return showing.answer_svg(self)

    def page(self) -> str:
        """A page to touch with the plan and the routes, as HTML. It needs the plan, the request and the hops."""
        from . import showing

        return showing.answer_page(self)

    def _repr_html_(self):
        from . import showing

        return showing.answer_html(self)


def _record(route, at):
    """A route as a flat row, with times as a function gives them."""
    send_by = None if route.send_by is None else at(route.send_by)
    times = {"delivery": at(route.delivery), "until": at(route.until), "send_by": send_by}
    texts = {name: " ".join(map(str, getattr(route, name))) for name in ("contacts", "nodes")}
    return {"rank": route.rank, "hops": len(route.contacts), "entry": route.entry, **times, **texts}


# ---- What the program prints ------------------------------------------------------------------------------------

_ROUTE = r"delivery (\S+) hops \d+ entry (\d+) until (\S+) contacts (\d+(?: \d+)*)"
_REPORTED = re.compile(r"(\d+) " + _ROUTE)
_EXPLAINED = re.compile(_ROUTE)
_HOP = re.compile(r"hop \d+ contact (\d+) from (\d+) to (\d+) send (\S+) arrive (\S+)")
_FAULT = re.compile(r"refused(?: hop \d+)?: \w+")


def _told_second(text):
    """A time of a report or an explanation."""
    try:
        return seconds_of(text)
    except ValueError as error:
        raise Refused(f"this is no time of a report: {text}") from error


def _route(rank, words, hops=()):
    delivery, entry, until, contacts = words
    numbers = tuple(map(int, contacts.split()))
    return Route(rank, _told_second(delivery), int(entry), _told_second(until), numbers, hops)


@kept
def _hop(line):
    """Reads a hop's line. Many routes share it."""
    found = _HOP.fullmatch(line)
    if not found:
        raise Refused(f"this is no line of a route's explanation: {line}")
    contact, sender, receiver, send, arrive = found.groups()
    return Hop(int(contact), int(sender), int(receiver), _told_second(send), _told_second(arrive))


def report_of(lines, request=None):
    """Reads a report, or pages of one: its routes, without hops, and its last `more` or `end`."""
    routes, is_whole = [], None
    for line in map(str.strip, lines):
        if found := _REPORTED.fullmatch(line):
            routes.append(_route(int(found[1]), found.groups()[1:]))
            is_whole = None
        elif line in ("more", "end"):
            is_whole = line == "end"
        elif line:
            raise Refused(f"this is no line of a report: {line}")
    return Answer(tuple(routes), is_whole, request)


def whole_report_of(lines, request=None):
    """Reads a report that must not be cut."""
    answer = report_of(lines, request)
    if answer.is_whole is None:
        raise Refused("the report is cut: its last line is neither 'more' nor 'end'")
    return answer


def parts_of(text, word):
    """The lines of each part of a text; a part begins with a line that has a word and a blank at its beginning."""
    before, *parts = f"\n{text}".split(f"\n{word}")
    if before.strip("\n"):
        raise Refused(f"this is no answer to a {word.strip()}: {before.strip().splitlines()[0]}")
    return [[*filter(None, part.split("\n")[1:])] for part in parts]


def followed(lines):
    """Reads an explanation: a route with its hops, and without a rank, or a fault."""
    *lines, last = lines or [""]
    hops = tuple(map(_hop, lines))
    if found := _EXPLAINED.fullmatch(last):
        return _route(None, found.groups(), hops)
    if _FAULT.fullmatch(last):
        return Fault(last, hops)
    raise Refused("the explanations are cut: the last one has no line 'delivery'" if _HOP.fullmatch(last)
                  else f"this is no line of a route's explanation: {last}")


def explained_routes(lines):
    """Reads explanations of routes, one after the other. Their ranks are 1, 2, .."""
    routes, part = [], []
    for line in filter(None, map(str.strip, lines)):
        part.append(line)
        if not _HOP.fullmatch(line):
            told = followed(part)
            if isinstance(told, Fault):
                raise Refused(f"this is no line of a route's explanation: {line}")
            routes.append(told.having(rank=len(routes) + 1))
            part = []
    if part:
        followed(part)
    return routes
