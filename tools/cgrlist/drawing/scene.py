"""What tools/timeline shows, as a picture or as text: rows of windows, the stages of routes, and remarks."""

import bisect
import unicodedata
from collections import defaultdict
from dataclasses import dataclass
from functools import cached_property

from ..errors import WORDS_STATUS, Refused
from ..names import Names
from ..plans import links_of
from ..routes import Hop
from .axis import Span, span_of

# ---- Routes -----------------------------------------------------------------------------------------------------


@dataclass(frozen=True)
class Stage:
    """A stage of a route: the wait at a node, from the hop before on, and the hop to the next node."""

    at: int  # the route's place among all
    before: "Hop | None"
    start: int  # when it begins
    hop: Hop
    is_last: bool


def stages_of(routes, source_second=None):
    """The stages of routes, one after the other. The first wait begins when the bundle is at the source, if that is known."""
    for at, route in enumerate(routes):
        for before, hop in zip([None, *route.hops], route.hops):
            first = hop.send if source_second is None else source_second
            yield Stage(at, before, before.arrive if before else first, hop, hop is route.hops[-1])


# ---- Rows -------------------------------------------------------------------------------------------------------


class Lane:
    """A lane for what doesn't overlap: starts and ends, from left to right."""

    def __init__(self):
        self.starts, self.ends = [], []

    def takes(self, start, end):
        """Whether a span has room, which it then takes."""
        at = bisect.bisect(self.starts, start)
        if at > 0 and self.ends[at - 1] > start or at < len(self.starts) and self.starts[at] < end:
            return False
        self.starts.insert(at, start)
        self.ends.insert(at, end)
        return True


def lanes_of(spans):
    """The lane of each of some spans, counted from 0: the first one with room."""
    lanes, given = [], []
    for span in spans:
        place = next((place for place, lane in enumerate(lanes) if lane.takes(*span)), None)
        if place is None:
            place = len(lanes)
            lanes.append(Lane())
            lanes[place].takes(*span)
        given.append(place)
    return given


@dataclass(frozen=True)
class Row:
    """A link with its strips: windows that don't overlap. There are as many strips as its windows need."""

    link: tuple
    strips: list


def row_of(windows):
    """The row of a link with these windows."""
    lanes = lanes_of([(it.start, it.end) for it in windows])
    strips = [[] for _ in range(max(lanes) + 1)]
    for lane, window in zip(lanes, windows):
        strips[lane].append(window)
    return Row(windows[0].link, strips)


@dataclass(frozen=True)
class Choice:
    """Which links have rows, and in which order."""

    used: "bool | None" = None  # those of the routes and of lost contacts alone; None: if there are routes
    links: "frozenset | None" = None  # these alone
    nodes: "tuple | None" = None  # those from and to these nodes alone
    by_route: bool = False  # in the order of the routes, the others after them

    def of(self, links, used, lost=()):
        """The links that are chosen, with their windows, in their order.

        `used` are those of routes, in order, and `lost` those of lost contacts.
        """
        self.check(links)
        places = {link: place for place, link in reversed(list(enumerate([*used, *lost])))}
        is_used = bool(used) if self.used is None else self.used
        chosen = [link for link in links if self.has(link) and (not is_used or link in places)]
        chosen.sort(key=lambda link: (places.get(link, len(used)) if self.by_route else 0, link))
        return {link: links[link] for link in chosen}

    def has(self, link):
        """Whether a link is among those chosen by name."""
        by_link = self.links is None or link in self.links
        return by_link and (self.nodes is None or any(node in self.nodes for node in link))

    def check(self, links):
        """Refuses links and nodes that no contact of a plan has."""
        for sender, receiver in sorted((self.links or set()) - set(links)):
            raise Refused(f"--links: the plan has no contact from {sender} to {receiver}", WORDS_STATUS)
        for node in sorted(set(self.nodes or ()).difference(*links)):
            raise Refused(f"--nodes: the plan has no contact of node {node}", WORDS_STATUS)


# ---- The scene --------------------------------------------------------------------------------------------------


@dataclass(frozen=True)
class Scene:
    """What a picture shows. Where there is nothing in time to show, there is no span."""

    title: str
    rows: list
    routes: list
    stages: list  # those that the span and the rows show
    kinds: "Dict[int, str]"  # of contacts that are drawn otherwise, by number: one of KINDS
    span: "Span | None"
    names: Names
    time_text: "Callable[[int], str]"
    remarks: list  # lines of words
    source_second: "int | None" = None  # when the bundle is at the source, if that is known

    def label(self, link, arrow):
        """A link's nodes with an arrow between them."""
        return f"{self.names.of(link[0])} {arrow} {self.names.of(link[1])}"

    def stages_by(self, key):
        """The stages by what a function says of each."""
        groups = defaultdict(list)
        for stage in self.stages:
            groups[key(stage)].append(stage)
        return groups

    @cached_property
    def drawn(self):
        """The places of the routes of which something is shown."""
        return {stage.at for stage in self.stages}

    def summary(self, route):
        """A route in words."""
        return f"delivery {self.time_text(route.delivery)}, contacts {' '.join(map(str, route.contacts))}"

    def told(self, at, most=None):
        """A route in words, not longer than so many characters, and why nothing of it is shown if that is so."""
        told = shortened(self.summary(self.routes[at]), most)
        return told if at in self.drawn else f"{told} ({self.place(self.routes[at])})"

    def place(self, route):
        """Where a route lies of which nothing is shown."""
        if route.hops[-1].arrive < self.span.first:
            return "before this span"
        return "after this span" if route.hops[0].send > self.span.last else "not over these links"

    def signs(self):
        """What is drawn: windows of which kinds, and any of hop, wait and delivery."""
        shown = {"hop": self.span.shows_hop, "wait": self.span.shows_wait, "delivery": self.shows_delivery}
        signs = {sign for sign, is_shown in shown.items() if any(map(is_shown, self.stages))}
        windows = (it for row in self.rows for strip in row.strips for it in strip)
        return signs | {self.kinds.get(it.number, "contact") for it in windows if self.span.shows(it)}

    def shows_delivery(self, stage):
        """Whether the delivery of a route is drawn at the end of a stage."""
        return stage.is_last and self.span.shows_arrival(stage)


@dataclass(frozen=True)
class View:
    """How a plan is to be shown."""

    title: str
    choice: Choice
    span: "Span | None"  # if none is given, that of the routes or of the contacts
    names: Names
    time_text: "Callable[[int], str]"
    remarks: tuple = ()  # lines of words about the plan

    def scene(self, plan, routes, lost=(), is_list=False, source_second=None):
        """What is to be shown of a plan, of routes, which are None if none were asked for, and of lost contacts."""
        links, hops = links_of([*plan.contacts, *lost]), [hop for route in routes or [] for hop in route.hops]
        chosen = self.choice.of(links, [hop.link for hop in hops], [it.link for it in lost])
        span = self.span or span_of([it for windows in chosen.values() for it in windows], [] if is_list else hops, source_second)
        stages = [it for it in stages_of(routes or [], source_second) if it.hop.link in chosen and span.shows_stage(it)]
        numbers = {stage.hop.contact for stage in stages}
        shown = [[it for it in windows if span.shows(it) or it.number in numbers] for windows in chosen.values()]
        rows = [row_of(windows) for windows in shown if windows]
        remarks = [*remarks_of(links, routes, len(chosen) - len(rows)), *self.remarks]
        kinds = {it.number: "lost" for it in lost}
        is_shown = routes and source_second is not None and span.first <= source_second <= span.last
        second = source_second if is_shown else None
        return Scene(self.title, rows, routes or [], stages, kinds, span, self.names, self.time_text, remarks, second)


def date_sign(time_text):
    """What stands between the numbers of a date as a function spells times."""
    return time_text(0)[4]


def remarks_of(links, routes, hidden):
    """What a picture says of what it doesn't show."""
    if not links:
        yield "no contacts"
    if hidden:
        yield f"{hidden} more {'link has' if hidden == 1 else 'links have'} no contact in this span"
    if routes == []:
        yield "no route"


def columns_of(text):
    """How many columns a text takes."""
    return sum(2 if unicodedata.east_asian_width(it) in "WF" else 1 for it in text)


def shortened(text, most):
    """A text, without the words in its middle if it is longer than so many characters."""
    if most is None or len(text) <= most:
        return text
    return f"{text[: most // 2].rsplit(' ', 1)[0]} .. {text[-(most // 2) :].split(' ', 1)[1]}"
