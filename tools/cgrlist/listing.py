"""Which routes are shown: the first ones, all by a time, those through a node, those with room, distinct ones."""

import argparse
import re
from collections import defaultdict
from dataclasses import dataclass, replace
from typing import Optional

from .errors import Refused
from .limits import ROUTES
from .routes import Answer
from .times import time_text
from .tool import Progress, tell
from .words import time_word

NUMBER = re.compile(r"[1-9]\d{0,17}", re.ASCII)
LOOK = 100000  # so many routes are looked at for distinct ones if no other number is given

DISTINCT = {  # what a route has that no other shown one may have
    "entry": lambda route: [route.entry],
    "nodes": lambda route: route.nodes[1:-1],  # the relays, of which direct routes have none
    "contacts": lambda route: route.contacts,
}


@dataclass(frozen=True)
class Choice:
    """Which of the routes are shown, None where any are.

    They deliver by a second, pass a node, have room for so many bytes, and are distinct in something. There are so many
    at most, and so many at most are looked at.
    """

    by: Optional[int] = None
    via: Optional[int] = None
    fits: Optional[int] = None
    distinct: Optional[str] = None
    count: Optional[int] = None
    look: Optional[int] = None


class Listing:
    """The chosen routes of pages, which are answers of the program, with their nodes, and with what a function adds to the
    routes of a page. Once the blocks are read, `is_whole` says whether the list of all routes ends with them, `looked`
    how many routes were looked at, and `shown` how many are shown.
    """

    def __init__(self, choice, pages, asked, add):
        self._choice, self._pages, self._asked, self._add = choice, pages, asked, add
        self._values, self._last = set(), None  # what no further route may have, and the last one that was looked at
        self.is_whole, self.looked, self.shown = False, 0, 0

    def blocks(self):
        """The routes, a block for each page, as they come. How far it is is told meanwhile."""
        progress, page, is_over = Progress(), None, False
        for page in self._pages:
            block = []
            for route in page.routes if self._choice.fits is None else self._add(page):
                is_over = self._is_over(route)
                if is_over:
                    break
                self.looked, self._last = self.looked + 1, route
                route = self._asked.plan.with_nodes(route)
                if self._takes(route):
                    self.shown += 1
                    block.append(route)
            yield self._add(replace(page, routes=block)) if self._choice.fits is None else block
            if is_over:
                break
            progress.tell(self._told())
        progress.end()
        self.is_whole = page.is_whole and not is_over

    def read(self):
        """Reads all blocks, so that no more is asked. Returns this."""
        blocks = [*self.blocks()]
        self.blocks = lambda: iter(blocks)
        return self

    def forget(self):
        """Keeps the counts alone."""
        self.blocks, self._pages, self._last, self._values = None, None, None, None

    def routes(self):
        """All the routes."""
        return [route for block in self.blocks() for route in block]

    def _is_over(self, route):
        """Whether neither a route nor one after it is chosen."""
        it = self._choice
        return (
            (it.by is not None and it.by < route.delivery)
            or (it.count is not None and it.count <= self.shown)
            or (it.look is not None and it.look <= self.looked)
        )

    def _takes(self, route):
        """Whether a route with its nodes is chosen."""
        it = self._choice
        if it.via is not None and it.via not in route.nodes:
            return False
        if it.fits is not None and not self._fits(route):
            return False
        values = DISTINCT[it.distinct](route) if it.distinct else ()
        if not self._values.isdisjoint(values):
            return False
        self._values.update(values)
        return True

    def _fits(self, route):
        """Whether a route has room for the bytes that are asked for, or its room isn't known."""
        room = self._asked.plan.room(route)
        return room is None or self._choice.fits <= room

    def _told(self):
        """How far the choice is."""
        last = f", the last delivers at {time_text(self._last.delivery)}" if self._last else ""
        return f"{self.shown} routes of {self.looked} looked at{last}"


def asked_again(program, plan, request, distinct):
    """The best route of a request, and then each time the best one over the plan without what is distinct of those
    before, a page for each. What their places are in the list of all routes isn't known. That list holds each of them, in
    the same order (sabr_laws::fewer_contacts_take_their_routes).
    """
    passing, lost = {}, set()
    while True:
        (route,) = program.without(lost).best([request])
        if route is None:
            yield Answer((), True, request)
            return
        passing = passing or _passing(plan.contacts, request, distinct)  # once the program has accepted the plan
        route = plan.with_nodes(route)
        yield Answer((route.having(rank=None),), False, request)
        if not lost.isdisjoint(route.contacts):
            raise Refused("the program lists a route over what was taken out of the plan")
        lost.update([number for value in DISTINCT[distinct](route) for number in passing[value]] or route.contacts)


def _passing(contacts, request, distinct):
    """Under each value that distinct routes don't share: the contacts that only routes with that value pass, by number. A
    route with an entry node begins with a contact from the source to it.
    """
    found = defaultdict(list)
    for it in contacts:
        if distinct == "contacts":
            found[it.number].append(it.number)
        elif distinct == "nodes":
            for node in it.link:
                found[node].append(it.number)
        elif it.sender == request.source:
            found[it.receiver].append(it.number)
    return found


# ---- The words that choose routes -------------------------------------------------------------------------------


def number_word(text):
    """Reads a number above 0."""
    if not NUMBER.fullmatch(text):
        raise argparse.ArgumentTypeError(f"no number above 0: {text}")
    return int(text)


def add_choice_words(parser):
    """Adds the group of options that choose routes, which it returns."""
    group = parser.add_argument_group("Which routes")
    count = f"the first K routes, 1 to {ROUTES}, of which --via and --fits keep some; with --by or --distinct, at most K routes are shown"
    group.add_argument("--count", metavar="K", help=count)
    group.add_argument("--by", type=time_word, metavar="T", help="all routes that deliver by T")
    group.add_argument("--via", metavar="N", help="only routes through node N")
    group.add_argument("--fits", type=number_word, metavar="BYTES", help="only routes with enough room for BYTES")
    group.add_argument("--distinct", choices=DISTINCT, help="only the first of routes that share their entry node, a relay or a contact")
    look = f"search only the first N routes, for --distinct with --via or --fits; {LOOK} if not given"
    group.add_argument("--look", type=number_word, metavar="N", help=look)
    return group


def check_choice_words(parser, words):
    """Refuses words that choose routes without those that they need."""
    if words.look and not (words.distinct and words.count and (words.via or words.fits)):
        parser.error("--look needs --distinct, --count, and --via or --fits")
    if words.count and (words.distinct or words.by is not None) and not NUMBER.fullmatch(words.count):
        parser.error(f"argument --count: no number above 0: {words.count}")


def choice_of(words):
    """Which routes the words choose."""
    count = int(words.count) if words.count and not is_counted(words) else None
    if words.distinct:
        look = (words.look or LOOK) if count and not is_asked_again(words) else None
        return Choice(words.by, words.via, words.fits, words.distinct, count, look)
    return Choice(words.by, words.via, words.fits, look=count)


def is_counted(words):
    """Whether the routes are chosen of the first page alone, of so many routes."""
    return bool(words.count) and not words.distinct and words.by is None


def is_asked_again(words):
    """Whether the program is asked for each distinct route by itself."""
    return bool(words.distinct) and words.via is None and words.fits is None and not getattr(words, "report", None)


def pages_of(asked, request):
    """The pages of the list of which routes are chosen."""
    if is_counted(asked.words):
        return [asked.router.first(request, asked.words.count)]
    if is_asked_again(asked.words):
        return asked_again(asked.router, asked.plan, request, asked.words.distinct)
    return asked.program.pages(request)


def added(asked, answers, with_hops=False, with_send_by=False):
    """Answers with what is needed of their routes: the hops, and until when they may be sent."""
    if with_hops or asked.words.fits is not None:
        answers = asked.router.with_hops(answers)
    return asked.router.with_send_by(answers) if with_send_by else answers


def listing_of(asked, pages, add=lambda answers: answers):
    """The routes of pages that the words choose, with what a function adds to answers."""
    return Listing(choice_of(asked.words), pages, asked, lambda page: add([page])[0].routes)


def tell_looked(listings, words):
    """Tells how many routes are shown, and of how many, if distinct ones were looked for; and if there may be more."""
    if words.distinct and not is_asked_again(words):
        shown, looked = sum(it.shown for it in listings), sum(it.looked for it in listings)
        is_cut = words.count and any(it.shown < int(words.count) and not it.is_whole for it in listings)
        tell(f"{shown} routes are shown of {looked} looked at{'; --look N looks at more' if is_cut else ''}")
