"""Compares what the libraries answer over small plans with the listing of all routes of tests/oracle.py.

There are 500 plans drawn from seeds, of 3 to 6 nodes and some 12 contacts, each with a request. There are five plans
worked out by hand, each with five requests, four times. And there are 30 drawn crowded plans, with many routes in each of
a few seconds, whose parts have dead ends. Each plan is made by calls for one of the finders, and read from its text for
the other. From the listing alone follows what must be answered:

    finders         the least route of drawn parts; which drawn chains routes may begin with; bounds on looks
    sessions        pages and pages taken back: the routes, the place, the parts and the text. A place has one text,
                    whatever the way that led there; on some ways the session passes through its text, or its parts
    last pages      of sessions that begin, that gave pages, and that passed through their texts: the routes, and whether
                    one is left; of each number from 0 to 8, and of what is drawn, also up to the listing's end and beyond
    verifying       yes to the text of each place, in both versions; to a text with another digit, or with the line of
                    another request, yes only if it is the text of a place
    a long listing  pages of 200 and 1000 over a chain of eleven double hops, and a passage through the text between

Both finders live on from plan to plan: one run of the program `steps` answers all. `cgrlist` is asked for

    many            what it prints for six requests over the text of a drawn plan, between drawn nodes and with drawn
                    limits, and over a crowded one for its request, others and it again; over every tenth plan, the same
                    of a run of `first` for each of them

There is a check for each answer that is compared, and for each count of what was drawn. Of a case that fails, lines of its
plan are left out as long as it still fails (tests/shrinking.py), and the smallest plan is told.
"""

import itertools
import random
import re
import subprocess
import tempfile
from collections import Counter
from dataclasses import dataclass, field
from functools import partial
from operator import itemgetter

from checking import Check
from oracle import NO_LIMIT, Bad, Listing, Plan, Request, Route, spelled, time_text
from shrinking import Shrinker
from steps import answers_of as answers_to

SECONDS = 600
DRAWN = 500  # plans that are drawn
WORKED_OUT = 100  # cases of the plans worked out by hand
CROWDED = 30  # crowded plans that are drawn

FINDERS = ("settled", "layered")
BEGIN = 1893456000  # 2030/01/01-00:00:00
RATE = 1000
ALL = 18446744073709551615  # the limit of a reader without one

# ---- Plans ------------------------------------------------------------------------------------------------------


class Drawing:
    """A plan as lines make it, with the steps that make it by calls and what each answers. Times are given in seconds
    after BEGIN."""

    def __init__(self, taken=()):
        self.plan = Plan()
        self.lines = []  # those that are good
        self.steps = [("new", "ok")]
        self.taken = []  # all lines, each with its step
        for line, step in taken:
            self.take(line, step)

    def take(self, line, step):
        """Changes the plan by a line if it is good, and by a step, which answers the contact's number, `ok`, or the
        refusal."""
        before = set(self.plan.contacts)
        self.taken.append((line, step))
        try:
            self.plan.line(line.encode())
            self.lines.append(line)
            self.steps.append((step, "".join(map(str, before ^ set(self.plan.contacts))) or "ok"))
        except Bad as kind:
            self.steps.append((step, str(kind)))

    def add_light(self, one, other, start, end, light):
        times = f"{time_text(BEGIN + start)} {time_text(BEGIN + end)}"
        self.take(f"a range {times} {one} {other} {light}", f"range {one} {other} {BEGIN + start} {BEGIN + end} {light}")

    def add_contact(self, sender, receiver, start, end):
        times = f"{time_text(BEGIN + start)} {time_text(BEGIN + end)}"
        step = f"contact {sender} {receiver} {BEGIN + start} {BEGIN + end} {RATE}"
        self.take(f"a contact {times} {sender} {receiver} {RATE}", step)

    def drop_contact(self, number):
        it = self.plan.contacts[number]
        line = f"d contact {time_text(it.start)} {it.sender} {it.receiver}"
        self.take(line, f"drop-contact {it.sender} {it.receiver} {it.start}")

    def text(self):
        return "".join(f"{line}\n" for line in self.lines)

    def reading(self):
        """The steps that read the plan from its text."""
        text = self.text().encode().hex()
        return [(f"plan-text {text}".strip(), "ok"), (f"plan-given 4096 {ALL} ends", "ok"), ("read", "ok")]


# ---- What is drawn ----------------------------------------------------------------------------------------------


class Draws:
    """Numbers that a seed alone decides."""

    def __init__(self, seed):
        self.seed, self.random = seed, random.Random(seed)

    def below(self, bound):
        return int(self.random.random() * bound)

    def once_in(self, times):
        return self.below(times) == 0

    def one_of(self, values):
        return values[self.below(len(values))]


def draw_light(drawing, draws, one, other):
    """Draws a light time: none, one way from the greater node, both ways, or both."""
    ways = draws.below(8)
    light = draws.below(5)
    start = max(draws.below(20) - 14, 0)
    end = max(draws.below(90), 60)
    if ways > 1:
        drawing.add_light(one, other, start, end, light)
    if ways in (1, 2):
        drawing.add_light(other, one, 0, end, draws.below(9))


def draw_contact(drawing, draws, nodes):
    """Draws a contact, mostly from the lesser node; now and then it is none, and the plan refuses it."""
    one, other = draws.below(nodes) + 1, draws.below(nodes) + 1
    if not draws.once_in(4):
        one, other = min(one, other), max(one, other)
    start = draws.below(20)
    drawing.add_contact(one, other, start, start + draws.below(60))


def drop_some(drawing, draws):
    """Deletes one of the contacts, so that its number is a gap."""
    place = draws.below(16)
    for number in list(drawing.plan.contacts)[place : place + 1]:
        drawing.drop_contact(number)


def draw_plan(draws, nodes):
    drawing = Drawing()
    for other in range(2, nodes + 1):
        for one in range(1, other):
            draw_light(drawing, draws, one, other)
    for _ in range(draws.below(8) + 12):
        draw_contact(drawing, draws, nodes)
        if draws.once_in(6):
            drop_some(drawing, draws)
    return drawing


def draw_request(draws, nodes):
    source, at = 1 + draws.below(2), BEGIN + draws.below(8)
    margin = draws.one_of((0, 0, 0, 1, 250000, 1000000))
    if not draws.once_in(3):
        return Request(source, nodes, at, margin)
    avoided = tuple(node for node in range(1, 7) if node not in (source, nodes) and draws.once_in(6))
    hops = NO_LIMIT if draws.once_in(2) else draws.below(4) + 1
    return Request(source, nodes, at, margin, hops, avoided)


def draw_pair(draws, nodes):
    """Draws a request, mostly from the lesser node, now and then to none of the plan's; half of them have limits."""
    source = draws.below(nodes) + 1
    target = nodes + 1 if draws.once_in(12) else (source + draws.below(nodes - 1)) % nodes + 1
    if not draws.once_in(4):
        source, target = min(source, target), max(source, target)
    at, margin = BEGIN + draws.below(40), draws.one_of((0, 0, 250000, 1000000))
    if draws.once_in(2):
        return Request(source, target, at, margin)
    avoided = tuple(it for it in range(1, nodes + 1) if it not in (source, target) and draws.once_in(4))
    return Request(source, target, at, margin, draws.one_of((1, 2, 3, NO_LIMIT)), avoided)


def draw_changed(draws, request):
    """Draws a request with another time, limit on hops or margin; now and then it is the same."""
    at = request.at + draws.below(3)
    hops = max(request.hops - draws.below(3), 1)
    return Request(request.source, request.target, at, draws.below(2) * 250000, hops, request.avoided)


def draw_prefix(draws, listing):
    """Draws a beginning of a listed route, or a chain that needn't lead to the destination."""
    hops, listed = draws.below(4), draws.below(12)
    if listed < len(listing.routes):
        return listing.routes[listed].contacts[:-1][:hops]
    prefix = ()
    for _ in range(hops * 8):
        longer = (*prefix, draws.below(18))
        if listing.fits(longer):
            prefix = longer
    return prefix


def draw_excluded(draws):
    """Draws some numbers, falling: the order of those excluded doesn't matter."""
    times = draws.below(12) + 2
    return [number for number in range(18, 0, -1) if draws.once_in(times)]


def draw_parts(draws, listing):
    """The part of all routes, and some more."""
    return [((), [])] + [(draw_prefix(draws, listing), draw_excluded(draws)) for _ in range(4)]


def with_another_digit(draws, text):
    """The text with another digit in place of one after the request's line."""
    head = len("".join(text.splitlines(True)[:3]))
    place = draws.one_of([place for place in range(head, len(text)) if text[place].isdigit()])
    digit = (int(text[place]) + draws.below(9) + 1) % 10
    return f"{text[:place]}{digit}{text[place + 1 :]}"


# ---- Crowded plans ----------------------------------------------------------------------------------------------


def draw_mesh(draws):
    """Draws the links of nodes that all see each other: how many nodes there are, and pairs of them."""
    nodes = draws.below(3) + 8
    return nodes, list(itertools.permutations(range(1, nodes + 1), 2))


def draw_rows(draws):
    """Draws the links of nodes in rows, from each row mostly to the next one, less often back, and within it. So ways
    lead back to nodes where they were, and end there."""
    sizes = draws.one_of(((1, 3, 3, 3, 1), (1, 3, 3, 3, 1), (1, 2, 3, 3, 1), (1, 4, 4, 1)))
    ends = list(itertools.accumulate(sizes))
    rows = [range(end - size + 1, end + 1) for size, end in zip(sizes, ends)]
    pairs = []
    for here, after in zip(rows, rows[1:]):
        pairs += [pair for pair in itertools.product(here, after) if not draws.once_in(10)]
        pairs += [pair for pair in itertools.product(after, here) if draws.once_in(2)]
        pairs += [pair for pair in itertools.permutations(here, 2) if draws.once_in(2)]
    return ends[-1], pairs


def draw_crowded(draws, nodes, pairs):
    """Draws a plan over links: no light time, or seldom some, and contacts that begin at once, but for those to the last
    node. Some links have none, and some two."""
    drawing = Drawing()
    lights, starts = draws.one_of((((0,), (0,)), ((0,), (0, 10, 10, 20)), ((0, 0, 0, 1), (0, 10, 10, 20))))
    for one, other in sorted({(min(pair), max(pair)) for pair in pairs}):
        drawing.add_light(one, other, 0, 1000, draws.one_of(lights))
    draws.random.shuffle(pairs)
    for sender, receiver in pairs:
        start = draws.one_of(starts) if receiver == nodes else 0
        if not draws.once_in(12):
            drawing.add_contact(sender, receiver, start, 100)
        if draws.once_in(12):
            drawing.add_contact(sender, receiver, start + 1, 50)
    return drawing


def draw_crowded_request(draws, nodes, most_hops):
    """Draws a request from the first node to the last, within one of these limits on hops."""
    avoided = tuple(node for node in range(2, nodes) if draws.once_in(20))
    margin, hops = draws.one_of((0, 0, 250000, 1000000)), draws.one_of(most_hops)
    return Request(1, nodes, BEGIN + draws.below(3), margin, hops, avoided)


# ---- Plans worked out by hand -----------------------------------------------------------------------------------

LIGHTS_OF_A = ((1, 2, 10), (2, 3, 5), (1, 3, 40))
WINDOWS_OF_A = ((1, 2, 0, 100), (2, 3, 20, 60), (1, 3, 50, 90), (2, 3, 0, 200))
NO_LIGHT = ((1, 2, 0), (2, 3, 0), (1, 3, 0), (1, 4, 0), (3, 4, 0), (2, 4, 0))
WINDOWS_OF_B = ((1, 2, 0, 100), (2, 3, 10, 100), (1, 3, 10, 100), (1, 4, 0, 100), (4, 3, 10, 100))
BETWEEN_RELAYS = ((2, 4, 0, 100), (4, 2, 0, 100))

# Of each plan its name, light times, contacts, the numbers of those that are deleted then, and the contacts added last.
WORKED = (
    ("A", LIGHTS_OF_A, WINDOWS_OF_A, (), ()),
    ("B", NO_LIGHT, WINDOWS_OF_B, (), ()),
    ("C", NO_LIGHT, WINDOWS_OF_B, (), BETWEEN_RELAYS),
    ("A with a gap", LIGHTS_OF_A, WINDOWS_OF_A, (4,), ((2, 3, 0, 200),)),
    ("C with gaps", NO_LIGHT, WINDOWS_OF_B, (1, 3), (*BETWEEN_RELAYS, (1, 2, 0, 100))),
)

# What is asked over them from node 1 to node 3: seconds after BEGIN, limit on hops, nodes to avoid.
ASKED = ((0, NO_LIMIT, ()), (0, 2, ()), (0, 1, ()), (0, NO_LIMIT, (4,)), (60, NO_LIMIT, ()))


def worked_plan(lights, windows, deleted, more):
    drawing = Drawing()
    for one, other, light in lights:
        drawing.add_light(one, other, 0, 1000, light)
    for window in windows:
        drawing.add_contact(*window)
    for number in deleted:
        drawing.drop_contact(number)
    for window in more:
        drawing.add_contact(*window)
    return drawing


# ---- Cases ------------------------------------------------------------------------------------------------------


@dataclass
class Case:
    """A listing, and what is said over it: steps, each with what it has to answer."""

    title: str
    draws: Draws
    drawing: Drawing
    listing: Listing
    said: list = field(default_factory=list)
    counts: Counter = field(default_factory=Counter)  # how many of its last pages are of each kind

    def __post_init__(self):
        self.drawn = self.draws.random.getstate()  # before anything is said

    def over(self, taken):
        """The case over a plan of these lines, with what is said over that."""
        draws, drawing = Draws(self.draws.seed), Drawing(taken)
        draws.random.setstate(self.drawn)
        case = case_of(self.title, draws, drawing, self.listing.request)
        case.say_all()
        return case

    def say_all(self):
        """Says what belongs to its title."""
        SAYING.get(self.title.partition(" ")[0], say_all)(self)

    def say(self, step, wanted="ok"):
        self.said.append((step, wanted))

    def steps(self):
        return [step for step, _ in self.said]

    def make_plan(self, from_text):
        """Makes the plan: from its text, or by calls."""
        self.said += self.drawing.reading() if from_text else self.drawing.steps
        self.say("digest", self.listing.digest)


def case_of(title, draws, drawing, request):
    return Case(title, draws, drawing, Listing(drawing.plan, request))


def drawn_case(seed):
    draws = Draws(seed)
    nodes = min(draws.below(4), draws.below(4)) + 3
    drawing = draw_plan(draws, nodes)
    return case_of(f"seed {seed}", draws, drawing, draw_request(draws, nodes))


def crowded_case(number):
    draws = Draws(f"crowded {number}")
    nodes, pairs = (draw_mesh if number % 3 == 0 else draw_rows)(draws)
    drawing = draw_crowded(draws, nodes, pairs)
    request = draw_crowded_request(draws, nodes, (4, 4, 5) if number % 3 == 0 else (NO_LIMIT, NO_LIMIT, 7, 8))
    return case_of(f"crowded {number}", draws, drawing, request)


def worked_case(number):
    """A case of a worked plan: with each request, and drawn parts and pages of their own."""
    name, *table = WORKED[number % 5]
    after, hops, avoided = ASKED[number // 5 % 5]
    request = Request(1, 3, BEGIN + after, 0, hops, avoided)
    return case_of(f"number {number}, plan {name}", Draws(DRAWN + number), worked_plan(*table), request)


def long_case():
    """A chain of eleven hops, each over either of two contacts."""
    drawing = Drawing()
    for node in range(1, 12):
        drawing.add_light(node, node + 1, 0, 1000, 0)
        drawing.add_contact(node, node + 1, 0, 1000)
        drawing.add_contact(node, node + 1, 1, 1000)
    return case_of("the long chain", Draws(0), drawing, Request(1, 12, BEGIN))


# ---- What is said over a listing --------------------------------------------------------------------------------


def routes_told(routes):
    return " ; ".join([f"{len(routes)} routes", *map(Route.spelled, routes)])


def place_told(listing, walk):
    more = "more" if walk.place < len(listing.routes) else "end"
    back = "back" if walk.former else "-"
    given = f"emitted {walk.place} last {spelled(listing.last(walk.place))} {more}"
    return f"{given} parts {len(listing.parts(walk.place))} {back} searches {walk.searches}"


def part_told(prefix, excluded, route):
    return f"{spelled(prefix)} / {spelled(excluded)} / {route.spelled() if route else '-'}"


def parts_told(parts):
    return " ; ".join([f"{len(parts)} parts", *itertools.starmap(part_told, parts)])


def looks_of(finder, listing, prefix, answer):
    """How many looks a finder may take for an answer: at least one for each of its hops."""
    hops = len(answer.contacts) if answer else 0
    times = 3 * len(listing.plan.nodes()) + 1
    if finder == "settled" and listing.request.hops == NO_LIMIT:
        times = min(times, 3 * max(hops - len(prefix), 0) + 3)
    return range(hops, times * len(listing.plan.contacts) + 1)


def ask_part(case, finder, prefix, excluded):
    """Asks for the least route of a part."""
    least = case.listing.least(prefix, excluded)
    case.say(f"best {spelled(prefix)} / {spelled(excluded)}", f"route {least.spelled()}" if least else "none")
    case.say("looks", looks_of(finder, case.listing, prefix, least))
    return least


def ask_parts_on(case, finder, prefix, excluded):
    """Asks for the least route of a part, then for the least that goes on otherwise, and so on, a few times."""
    case.say(f"fits {spelled(prefix)}", "yes")
    for _ in range(4):
        least = ask_part(case, finder, prefix, excluded)
        if not least:
            return
        excluded = [*excluded, least.contacts[len(prefix)]]


def ask_longer(case, prefix):
    """Asks whether routes begin with the prefix and one number more."""
    longer = (*prefix, case.draws.below(18))
    fits = case.listing.fits(longer)
    case.say(f"fits {spelled(longer)}", "yes" if fits else "no")
    if not fits:
        case.say(f"best {spelled(longer)} / -", "no prefix")


def ask_parts(case, finder, parts):
    for prefix, excluded in parts:
        ask_parts_on(case, finder, prefix, excluded)
        ask_longer(case, prefix)


class Walk:
    """A session that is taken through pages and back, and the place in the listing where it has to be."""

    def __init__(self, case):
        self.case = case
        self.place = 0
        self.searches = 1
        self.former = []  # the places before the pages that can be taken back
        case.say("start")
        self.stand()

    def stand(self):
        """Says what the session has to show at its place."""
        listing = self.case.listing
        self.case.say("certify", "yes")
        self.case.say("place", place_told(listing, self))
        self.case.say("parts", parts_told(listing.parts(self.place)))
        self.case.say("write", "ok " + listing.text(self.place).encode().hex())

    def page(self, count):
        start = self.place
        routes = self.case.listing.routes[start : start + count]
        self.case.say(f"page {count}", routes_told(routes))
        self.place += len(routes)
        self.searches = sum(map(self.case.listing.searches_for, range(start, self.place)))
        if routes:
            self.former.append(start)
        self.stand()

    def back(self):
        """Takes a page back, if there is one."""
        self.case.say("back", "yes" if self.former else "no")
        if self.former:
            self.place = self.former.pop()
            self.searches = 0
        self.stand()

    def pass_through_text(self):
        """Goes on with the session that is read from the text of this one."""
        self.case.say("keep")
        self.case.say(f"session-given {draw_piece(self.case.draws)} {ALL} ends")
        self.case.say("read")
        self.begin_here()

    def pass_through_parts(self):
        """Goes on with a session that is loaded from the parts of this one."""
        listing = self.case.listing
        self.case.say("load")
        for prefix, excluded, route in listing.parts(self.place):
            carried = spelled(route.contacts if route else ())
            self.case.say(f"part {spelled(prefix)} / {spelled(excluded)} / {carried}")
        self.case.say(f"finish {self.place} {spelled(listing.last(self.place))}")
        self.begin_here()

    def begin_here(self):
        """Stands where the session is new: it has made no search, and no page can be taken back."""
        self.searches = 0
        self.former = []
        self.stand()


def draw_piece(draws):
    """Draws how many bytes of a text are given at a time."""
    return draws.one_of((1, 2, 4096))


def walk_about(case):
    """A few pages and steps back as drawn, then all that is left, and back to the start."""
    walk = Walk(case)
    for _ in range(12):
        if case.draws.once_in(3):
            walk.back()
        else:
            walk.page(case.draws.below(5))
    walk.page(10000)
    walk.page(1)
    for _ in range(len(walk.former) + 1):
        walk.back()


def walk_through_texts(case):
    """Pages and steps back, and in half of the cases a passage through the text after them; then one through the parts, and
    all that is left."""
    walk = Walk(case)
    for _ in range(10):
        if case.draws.once_in(4):
            walk.back()
        else:
            walk.page(case.draws.below(4))
        if case.draws.once_in(2):
            walk.pass_through_text()
    walk.pass_through_parts()
    walk.page(10000)


def say_last(case, place, count):
    """Says the last page of a session at a place, and counts of which kinds it is."""
    routes = case.listing.routes[place:]
    case.say(f"last {count}", f"{routes_told(routes[:count])} {'more' if len(routes) > count else 'end'}")
    case.counts["last pages"] += 1
    case.counts["last pages with fewer routes than asked for"] += len(routes) < count
    if 0 < count < len(routes):
        last, left = (route.key() for route in routes[count - 1 : count + 1])
        case.counts["last pages cut between routes of one second"] += last[0] == left[0]
        case.counts["last pages cut between routes of one second and as many hops"] += last[:2] == left[:2]


def start_and_page(case, size):
    """Starts a session, and says a page of it; returns its place."""
    case.say("start")
    if size:
        case.say(f"page {size}", routes_told(case.listing.routes[:size]))
    return min(size, len(case.listing.routes))


def say_last_pages(case, counts, places):
    """Says last pages of sessions that begin, and such after a page, half of them through the text."""
    for count in counts:
        say_last(case, start_and_page(case, 0), count)
    for size in places:
        place = start_and_page(case, size)
        if case.draws.once_in(2):
            case.say("keep")
            case.say(f"session-given {draw_piece(case.draws)} {ALL} ends")
            case.say("read")
        say_last(case, place, case.draws.below(9))


def judge(case, texts, text):
    """Says what verifying must answer for a text: yes if it is one of these."""
    case.say(f"session-text {text.encode().hex()}")
    case.say(f"session-given {draw_piece(case.draws)} {ALL} ends")
    case.say("verify", "yes" if text in texts else "no")


def judge_texts(case):
    """Judges the text of each place as it is, and with another digit."""
    versions = (2,) if case.listing.request.is_limited else (2, 1)
    texts = [text for version in versions for text in case.listing.texts(version)]
    for text in texts:
        judge(case, texts, text)
        judge(case, texts, with_another_digit(case.draws, text))


def judge_under_another(case):
    """Judges the text of each place with the line of another request, by the texts of that one's listing."""
    listing = case.listing
    other = Listing(listing.plan, draw_changed(case.draws, listing.request))
    case.say(other.request.step())
    texts = other.texts()
    for text in listing.texts():
        judge(case, texts, text.replace(listing.request.line(2), other.request.line(2)))


def say_all(case):
    """Says all that is asked over a listing, of each finder."""
    parts = draw_parts(case.draws, case.listing)
    for place, finder in enumerate(FINDERS):
        case.make_plan(from_text=place == case.draws.seed % 2)
        case.say(finder)
        case.say(case.listing.request.step())
        ask_parts(case, finder, parts)
        walk_about(case)
        walk_through_texts(case)
        say_last_pages(case, [*range(9), 10000], [case.draws.below(5) for _ in range(4)])
        judge_texts(case)
        judge_under_another(case)
        case.say("done")


def say_crowded(case):
    """Says last pages of few routes over a crowded plan, and of many for the finder that keeps layers."""
    routes = min(len(case.listing.routes), 450)
    many, few = case.draws.below(routes + 1), case.draws.below(min(routes, 60) + 1)
    places = [case.draws.below(few + 1) for _ in range(3)]
    for finder, counts in zip(FINDERS, ([*range(9), many, routes, routes + 1], [*range(9), few])):
        case.make_plan(from_text=finder == "settled")
        case.say(finder)
        case.say(case.listing.request.step())
        say_last_pages(case, counts, places)
        case.say("done")


def say_long(case):
    """Says two pages of a long listing. Between them the session, which has some two hundred parts with prefixes of up
    to ten contacts, passes through its text."""
    for finder in FINDERS:
        case.make_plan(from_text=True)
        case.say(finder)
        case.say(case.listing.request.step())
        walk = Walk(case)
        walk.page(200)
        walk.pass_through_text()
        case.say("verify", "yes")
        walk.page(1000)
        case.say("done")


# By the first word of a title what is said, other than all.
SAYING = {"the": say_long, "crowded": say_crowded}

# ---- Many requests over a plan's text ---------------------------------------------------------------------------


@dataclass(frozen=True)
class Asked:
    """Requests over a drawn plan, how many routes are asked for, and the listing that answers each."""

    case: Case
    count: int
    listings: list

    def requests_text(self):
        return "".join(f"{it.request.many_line()}\n" for it in self.listings)

    def answers(self):
        """What `many` must print."""
        return "".join(f"request {it.request.many_line()}\n{it.report(self.count)}" for it in self.listings)


def draw_asked(case):
    """Draws six requests over a drawn plan. Over a crowded one they are its own, two others, and its own again."""
    draws, plan, target = Draws(f"many, {case.title}"), case.drawing.plan, case.listing.request.target
    if case.title.startswith("crowded"):
        others = [Listing(plan, draw_crowded_request(draws, target, (3, 4, 5))) for _ in range(2)]
        return Asked(case, draws.one_of((1, 2, 3, 7, 40, 150, 10000)), [case.listing, *others, case.listing])
    listings = [Listing(plan, draw_pair(draws, target)) for _ in range(6)]
    return Asked(case, draws.one_of((1, 1, 1, 2, 2, 2, 3, 4, 5, 6, 7, 10000)), listings)


def answer_of(program, folder, command, words, asked):
    """What a command prints over a plan in the folder, or how it ended."""
    words = [program, command, "--plan", "plan", *words, "--count", str(asked.count)]
    how = {"stdin": subprocess.DEVNULL, "stdout": subprocess.PIPE, "text": True, "timeout": SECONDS}
    try:
        ran = subprocess.run(words, cwd=folder, **how)
    except subprocess.TimeoutExpired:
        return f"no end after {SECONDS} seconds"
    return ran.stdout if ran.returncode == 0 else f"status {ran.returncode}"


def compare_asked(program, folder, asked, with_first):
    """How the answers to requests failed, and how each of `first` did if it is asked; empty if it passed."""
    for name, text in (("plan", asked.case.drawing.text()), ("requests", asked.requests_text())):
        with open(f"{folder}/{name}", "w", encoding="ascii") as file:
            file.write(text)
    found = answer_of(program, folder, "many", ["--requests", "requests"], asked)
    yield "" if found == asked.answers() else differing(asked, "many", asked.answers(), found)
    for listing in asked.listings if with_first else ():
        wanted, found = listing.report(asked.count), answer_of(program, folder, "first", listing.request.words(), asked)
        yield "" if found == wanted else differing(asked, f"first {listing.request}", wanted, found)


def differing(asked, command, wanted, found):
    plan = asked.case.drawing.text()
    return f"FAILED: {asked.case.title}: {command}, count {asked.count}\nwanted: {wanted}\nfound: {found}\nplan: {plan}"


def compare_many(program, asked, with_first):
    """For each run over a drawn plan: how it failed, which is empty if it passed."""
    with tempfile.TemporaryDirectory() as folder:
        yield from compare_asked(program, folder, asked, with_first)


# ---- Comparing --------------------------------------------------------------------------------------------------

# What is drawn has to have at least so many of these.
LEAST = {
    "listings without a route": 100,
    "listings with several routes": 200,
    "listings with six routes or more": 30,
    "parts with a route": 4000,
    "parts without a route": 2500,
    "texts that are those of a place": 6000,
    "texts that are none": 4000,
    "last pages": 17000,
    "last pages with fewer routes than asked for": 10000,
    "last pages cut between routes of one second": 1500,
    "last pages cut between routes of one second and as many hops": 1200,
}
LEAST_ASKED = {
    "requests with a route": 1200,
    "requests with limits and a route": 500,
    "requests without a route": 900,
    "answers that say more": 500,
}


def counted(cases):
    """How many were drawn of each kind that the comparing needs."""
    counts = Counter()
    for case in cases:
        counts += case.counts
        counts["listings without a route"] += not case.listing.routes
        counts["listings with several routes"] += len(case.listing.routes) > 1
        counts["listings with six routes or more"] += len(case.listing.routes) > 5
        for step, wanted in case.said:
            if step.startswith("best "):
                counts["parts with a route"] += wanted.startswith("route ")
                counts["parts without a route"] += wanted == "none"
            elif step == "verify":
                counts["texts that are those of a place"] += wanted == "yes"
                counts["texts that are none"] += wanted == "no"
    return counts


def counted_asked(all_asked):
    """How many requests were drawn of each kind."""
    counts = Counter()
    for asked in all_asked:
        for it in asked.listings:
            counts["requests with a route"] += bool(it.routes)
            counts["requests with limits and a route"] += bool(it.routes) and it.request.is_limited
            counts["requests without a route"] += not it.routes
            counts["answers that say more"] += len(it.routes) > asked.count
    return counts


def is_wanted(wanted, found):
    """Whether an answer is the one that is wanted: a number in a range, a fault of that name, or that text."""
    if isinstance(wanted, range):
        return found.isdigit() and int(found) in wanted
    return wanted in (found, found.partition(":")[0])


def steps_up_to(said, place):
    """The steps that lead to an answer: those that make the plan, and those with the finder."""
    steps = [step for step, _ in said[: place + 1]]
    ended = [at for at, step in enumerate(steps[:-1]) if step == "done"]
    return steps[ended[-1] + 1 :] if ended else steps


def readable(answer):
    """An answer as a failure shows it: a range by its ends, and a session's text as it is."""
    if isinstance(answer, range):
        return f"{answer.start} to {answer.stop - 1}"
    digits = re.fullmatch("ok ((?:[0-9a-f]{2})+)", answer)
    return bytes.fromhex(digits[1]).decode(errors="backslashreplace") if digits else answer


def failure(case, place, found):
    """Describes an answer that isn't the one that is wanted, with the steps that lead to it."""
    step, wanted = case.said[place]
    steps = "\n    ".join(steps_up_to(case.said, place))
    told = f"FAILED: {case.title}: {step}\nwanted: {readable(wanted)}\nfound: {readable(found)}"
    return f"{told}\nthe steps that lead there:\n    {steps}"


def failures_of(case, answers):
    """For each step: how its answer failed, which is empty if it passed."""
    for place, ((_, wanted), found) in enumerate(zip(case.said, answers)):
        yield "" if is_wanted(wanted, found) else failure(case, place, found)


def failures_of_counts(counts, leasts):
    """For each count of what was drawn: how it failed, which is empty if it passed."""
    for what, least in leasts.items():
        yield "" if counts[what] >= least else f"FAILED: {counts[what]} {what}, and not {least}"


def other_cases():
    """The cases that no seed draws by itself."""
    return [*map(worked_case, range(WORKED_OUT)), *map(crowded_case, range(CROWDED)), long_case()]


def cases_of(asked):
    """The cases that are asked for, with what is said over them."""
    drawn = [*map(drawn_case, range(DRAWN) if asked.seed is None else [asked.seed])]
    others = other_cases() if asked.seed is None else []
    cases = [case for case in drawn + others if asked.text in case.title]
    for case in cases:
        case.say_all()
    return cases


def words_of(case):
    """The words that run a case alone."""
    return f"drawn --seed {case.draws.seed}" if case.title.startswith("seed") else f"drawn -k '{case.title}'"


def checks(asked):
    """The cases that are asked for, and the counts of what was drawn if all are."""
    program, cgrlist, cases = asked.program("steps"), asked.program("cgrlist"), cases_of(asked)
    answers = iter(answers_to(program, [step for case in cases for step in case.steps()]))
    all_asked, shrinker = [], Shrinker()

    def check_of(case, failures, again):
        """A check of a case that has these failures; `again` finds those of the case over fewer lines."""
        smallest = partial(shrinker.after, failures, case.drawing.taken, lambda taken: again(case.over(taken)), itemgetter(0))
        return Check(words_of(case), smallest, case.title)

    for case in cases:
        own = list(itertools.islice(answers, len(case.said)))
        yield check_of(case, failures_of(case, own), lambda it: failures_of(it, answers_to(program, it.steps())))
        if case.title.startswith(("seed", "crowded")):
            all_asked.append(draw_asked(case))
            many = partial(compare_many, cgrlist, with_first=case.title.endswith("0"))
            yield check_of(case, many(all_asked[-1]), lambda it, many=many: many(draw_asked(it)))
    if asked.seed is None and not asked.text:
        yield Check("drawn", partial(failures_of_counts, counted(cases), LEAST))
        yield Check("drawn", partial(failures_of_counts, counted_asked(all_asked), LEAST_ASKED))
