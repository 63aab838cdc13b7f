"""Compares two plans, and the routes of requests over them.

    tools/compare OLD NEW [OPTION ..]
    tools/compare OLD NEW --from N --to N --at T --count K [OPTION ..]
    tools/compare OLD NEW --requests G --count K [OPTION ..]

Contacts with the same nodes and the same start are the same. Their numbers
may differ, since one more contact gives all those after it another number.
The other contacts of a link are paired, the nearest first. A pair counts as
`moved` if the gap between the two is at most the length of the longer one.
`number` is that in the new plan, or in the old plan if the contact went.

A route is shown with its rank and its delivery over the old plan and over the
new one, and `later` is how many seconds later it delivers now. Ranks are
searched among the first 100000 routes.

A picture has the links that differ. What came, moved or changed has a colour,
with the old contact below it; what went is crossed out. With a request it
also has the links of the routes: the routes over the new plan, and as `old 1`
those over the old plan that went or moved.

Examples:

    $ sed '1a a contact +1 +20 2 3 1000' examples/a.txt | tools/compare examples/a.txt - --from 1 --to 3 --at 2030-01-01 --count 1
    contacts: 4 stay, 1 came, 0 went, 0 moved, 0 changed
    change  number  nodes  start                end                  rate  light  old
    came         1  2 > 3  2030/01/01-00:00:01  2030/01/01-00:00:20  1000      5

    request from 1 to 3 at 2030/01/01-00:00:00
    routes: 0 stay, 1 came, 0 went, 1 moved
    change  old rank  rank  old delivery         delivery             later  contacts  nodes
    came           -     1  -                    2030/01/01-00:00:15      -  2 1       1 > 2 > 3
    moved          1     2  2030/01/01-00:00:15  2030/01/01-00:00:15      0  2 5       1 > 2 > 3

Exit status:
  0      the answer was printed
  1      with --exit-code, a contact differs, or with requests a route
  2      the options are invalid
  3      a plan is refused
  4      the names or the requests can't be used
  5      a file can't be read, or the answer can't be written
  6      no memory
  125    there is no program
  128+N  signal N ended the program
"""

import json
import os
from dataclasses import dataclass
from typing import Optional

from .. import hints
from ..choosing import RANK, ranks_of
from ..comparing import Change, contact_changes, route_changes, same_contacts
from ..errors import NO_STATUS, PLAN_STATUS, Refused
from ..listing import LOOK
from ..plans import Plan
from ..limits import ROUTES
from ..reading import kept_file
from ..requests import requests_in
from ..routes import Fault, Request, Route
from ..tables import (JSON, NUMBER, NUMBERS, PATH, TEXT, TIME, WORD, Kind, Spelling, Table, json_of, request_json, request_text)
from ..tool import run_tool
from ..version import VERSION
from ..words import Asked, Words, add_form_words, add_names_word, add_other_words, add_request_words, request_words, router_over

SVG = "svg"
LIGHT = Kind(str.rjust, lambda it, how: str(it), lambda it, how: None if it == "-" else it)
CONTACT = {"change": WORD, "number": NUMBER, "nodes": PATH, "start": TIME, "end": TIME, "rate": NUMBER, "light": LIGHT}
WAS = ("start", "end", "rate", "light")  # what may have been otherwise
ROUTE = {"change": WORD, "old_rank": RANK, "rank": RANK, "old_delivery": TIME, "delivery": TIME, "later": NUMBER, "contacts": NUMBERS,
         "nodes": PATH}


def parser_of_words():
    """A parser of the command line."""
    parser = Words(__doc__)
    group = parser.add_argument_group("Plans")
    group.add_argument("old", metavar="OLD", help="the old plan's file, or - for standard input")
    group.add_argument("new", metavar="NEW", help="the new plan's file, likewise")
    add_names_word(group)
    group = add_request_words(parser)
    group.add_argument("--requests", metavar="G", help="requests of a file, in place of --from, --to and --at: a line FROM TO AT for each")
    group.add_argument("--count", metavar="K", help=f"the first K routes of each request: 1 to {ROUTES}")
    group, form = add_form_words(parser, json=", in which `old` is what was otherwise")
    form.add_argument("--svg", dest="form", action="store_const", const=SVG, help="a picture of both plans, with the routes over each")
    group.add_argument("--exit-code", action="store_true", help="status 1 if a contact differs, or with requests a route")
    add_other_words(parser)
    return parser


def read_words():
    """What the words of the command line ask for."""
    parser = parser_of_words()
    asked = Asked(parser)
    check_words(parser, asked.words)
    return asked


def check_words(parser, words):
    """Refuses words without those that they need, and words that take each other's place."""
    given, missing = request_words(words)
    if words.requests and words.form == SVG:
        parser.error("--svg has the routes of one request: --from, --to and --at")
    if words.requests and given:
        parser.error("--requests takes the place of --from, --to and --at")
    if (given or words.count) and not words.requests and missing:
        parser.error(f"these words are missing: {', '.join(missing)}")
    if bool(words.count) != bool(given or words.requests):
        parser.error("a request and --count need each other")


def requests_asked(asked):
    """The requests of the words, or of their file."""
    if asked.words.requests:
        return [line.request for line in requests_in(asked)]
    return [asked.request()] if asked.words.count else []


# ---- What differs -----------------------------------------------------------------------------------------------


class Side:
    """A plan of the two: its file, its program and itself."""

    def __init__(self, path, words, names):
        hints.check_file(path)
        file, self.name = kept_file(path), os.path.basename(path)
        self.router = router_over(file, words)
        try:
            self.router.check()
        except Refused as refused:
            if refused.status == PLAN_STATUS:
                message = refused.message.removeprefix("cgrlist: ").rstrip()
                raise Refused(f"{path}: {message}", PLAN_STATUS, hints=refused.hints) from refused
            raise
        self.plan = Plan.from_file(file, names)

    def ranked(self, request, routes):
        """Routes of another plan by these contacts, each under its contacts with its rank here; those that are none are left out."""
        told = [it for it in self.router.follow((contacts, request) for contacts in routes) if not isinstance(it, Fault)]
        wanted = {it.contacts: it.delivery for it in told}
        ranks = ranks_of(self.router.pages(request), wanted, LOOK)[0] if wanted else {}
        return {it.contacts: self.plan.with_nodes(it.having(rank=ranks.get(it.contacts, f">{LOOK}"))) for it in told}


@dataclass(frozen=True)
class Differing:
    """The contacts that differ, or the routes of a request with its answers over both plans; and how many stay and differ."""

    changes: list
    counts: dict
    request: Optional[Request] = None
    answers: tuple = ()


class Comparison:
    """Two sides, and which of their contacts are the same."""

    def __init__(self, old, new):
        self.old, self.new, self.title = old, new, f"{old.name} and {new.name}"
        self.same = same_contacts(old.plan, new.plan)
        self.numbers = {it.number: other.number for it, other in self.same}  # in the new plan, of the old one's contacts

    def contacts(self):
        """What differs of the contacts, by start."""
        changes = sorted(contact_changes(self.old.plan, self.new.plan, self.same), key=lambda it: (it.new or it.old).start)
        return Differing(changes, counted(changes, {it.number for it in self.new.plan.contacts}, CONTACT_KINDS))

    def routes(self, request, answers):
        """The routes that differ. One that is in one list alone has its rank over the other plan, too, if it is a route there."""
        changes = route_changes(self.old.plan, self.new.plan, *(answer.routes for answer in answers), self.same)
        to_old = {other: number for number, other in self.numbers.items()}
        olds = self._elsewhere(self.old, request, to_old, [it.new for it in changes if it.old is None])
        news = self._elsewhere(self.new, request, self.numbers, [it.old for it in changes if it.new is None])
        return [Change(it.old or olds.get(it.new.contacts), it.new or news.get(it.old.contacts)) for it in changes]

    def answers(self, requests, count):
        """For each request what differs of its routes."""
        for request, *answers in zip(requests, *(it.router.answers(requests, count) for it in (self.old, self.new))):
            changes = self.routes(request, answers)
            yield Differing(changes, counted(changes, {it.contacts for it in answers[1].routes}, ROUTE_KINDS), request, answers)

    def drawn_routes(self, differing):
        """The routes of a request that a picture shows, with their hops."""
        from ..drawing.both import Routes

        sides = zip((self.old, self.new), differing.answers)
        olds, news = (side.router.with_hops([answer])[0].routes for side, answer in sides)
        changes = route_changes(self.old.plan, self.new.plan, olds, news, self.same)
        return Routes(differing.request, list(news), [it.old for it in changes if it.old])

    @staticmethod
    def _elsewhere(side, request, numbers, routes):
        """Routes as they are over a side, under their contacts; those that have a contact that isn't there are left out."""
        mapped = {it.contacts: tuple(map(numbers.get, it.contacts)) for it in routes}
        found = side.ranked(request, [it for it in mapped.values() if None not in it])
        return {contacts: found[there] for contacts, there in mapped.items() if there in found}


def counted(changes, news, kinds):
    """How many of the new ones, by their numbers or contacts, stay, and how many of each kind differ."""
    found = [it.kind for it in changes]
    stay = news - {it.new.contacts if isinstance(it.new, Route) else it.new.number for it in changes if it.new}
    return {"stay": len(stay), **{kind: found.count(kind) for kind in kinds}}


def counts_text(what, counts):
    """The counts in a line."""
    return f"{what}: {', '.join(f'{count} {kind}' for kind, count in counts.items())}\n"


CONTACT_KINDS, ROUTE_KINDS = ("came", "went", "moved", "changed"), ("came", "went", "moved")


def span_text(seconds):
    """A number of seconds with its sign, in days, hours, minutes and seconds."""
    left, parts = abs(seconds), []
    for unit, length in (("d", 86400), ("h", 3600), ("min", 60), ("s", 1)):
        parts += [f"{left // length} {unit}"] * (left >= length)
        left %= length
    return f"{'-' if seconds < 0 else '+'}{' '.join(parts)}"


def contact_row(change):
    """The values of a contact's line."""
    it = change.new or change.old
    return dict(zip(CONTACT, [change.kind, it.number, it.link, it.start, it.end, it.rate, "-" if it.light is None else it.light]))


def was_otherwise(change):
    """The values that were otherwise, under their fields."""
    if change.old is None or change.new is None:
        return {}
    old, new = contact_row(Change(change.old, None)), contact_row(change)
    return {field: old[field] for field in WAS if old[field] != new[field]}


def route_row(change):
    """The values of a route's line."""
    old, new = change.old, change.new
    sides = [getattr(it, field) if it else None for field in ("rank", "delivery") for it in (old, new)]
    it = new or old
    return dict(zip(ROUTE, [change.kind, *sides, change.later, it.contacts, it.nodes]))


# ---- The text and the JSON --------------------------------------------------------------------------------------


def contacts_text(contacts, how):
    """How many contacts stay, and the others."""
    yield counts_text("contacts", contacts.counts)
    rows = []
    for it in contacts.changes:
        kind = f"moved, {span_text(it.later)}" if it.kind == "moved" else it.kind
        was = ", ".join(f"{field} {CONTACT[field].text(value, how)}" for field, value in was_otherwise(it).items())
        rows.append({**contact_row(it), "change": kind, "old": was})
    if rows:
        yield from Table({**CONTACT, "old": WORD}, [rows], how).text()


def routes_text(routes, how):
    """A request, how many of its routes stay, and the others."""
    yield f"\n{request_text(routes.request, how)}{counts_text('routes', routes.counts)}"
    rows = [{field: "-" if value is None else value for field, value in route_row(it).items()} for it in routes.changes]
    columns = {**ROUTE, **dict.fromkeys(("old_delivery", "delivery"), DELIVERY)}
    if rows:
        yield from Table(columns, [rows], how).text()


DELIVERY = Kind(str.ljust, lambda it, how: it if it == "-" else how.time_text(it), None)


def contact_json(change, how):
    """A contact as JSON has it."""
    was = {field: CONTACT[field].json(value, how) for field, value in was_otherwise(change).items()}
    return {**json_of(CONTACT, contact_row(change), how), "later": change.later, "old": was}


def routes_json(routes, how):
    """A request with its routes that differ as JSON has them."""
    rows = [json_of(ROUTE, route_row(it), how) for it in routes.changes]
    return {"request": request_json(routes.request, how), "counts": routes.counts, "routes": rows}


def whole_text(both, contacts, answers, how):
    """What differs as text, in pieces."""
    yield from contacts_text(contacts, how)
    for routes in answers:
        yield from routes_text(routes, how)


def whole_json(both, contacts, answers, how):
    """What differs as JSON."""
    rows, told = [contact_json(it, how) for it in contacts.changes], [routes_json(it, how) for it in answers]
    plans = {"old_plan": both.old.plan.digest, "plan": both.new.plan.digest, "version": VERSION}
    yield json.dumps({"counts": contacts.counts, "contacts": rows, "requests": told, "names": how.told_names(), **plans}) + "\n"


def picture(both, contacts, answers, how):
    """Both plans and the routes over each as an SVG."""
    from ..drawing.both import Both
    from ..drawing.picture import Picture

    routes = next((both.drawn_routes(it) for it in answers), None)
    scene = Both(both.title, both.new.plan.contacts, contacts.changes, both.numbers, routes).scene(how.names, how.time_text)
    yield Picture(scene).svg()


FORMS = {TEXT: whole_text, JSON: whole_json, SVG: picture}


def tool():
    """What differs, in pieces."""
    asked = read_words()
    words, requests = asked.words, requests_asked(asked)
    both = Comparison(*(Side(path, words, asked.names) for path in (words.old, words.new)))
    how = Spelling(asked.names, asked.time_text, lambda: [*both.old.plan.contacts, *both.new.plan.contacts])
    contacts, answers = both.contacts(), []
    yield from FORMS[words.form](both, contacts, kept(both.answers(requests, words.count), answers), how)
    if words.exit_code and (any(it.changes for it in answers) if requests else contacts.changes):
        raise Refused(None, NO_STATUS)


def kept(them, into):
    """Some things as they come, which a list keeps."""
    for it in them:
        into.append(it)
        yield it


def main():
    """Runs the command."""
    run_tool(tool)
