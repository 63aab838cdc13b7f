"""What a plan's text says, and what follows from it: found here by reading each line, and by trying every chain.

`Plan` takes the lines of a text one after another, and refuses a bad one by its kind. `Listing` has all routes of a request
over a plan, best first, and what sessions, finders and reports must say of them. It tries each contact after each chain
that a route may begin with, by what a route is and by nothing else.
"""

import datetime
import itertools
import math
import re
from dataclasses import dataclass
from fractions import Fraction
from hashlib import sha256

EPOCH = datetime.datetime(1970, 1, 1)
LAST_TIME = 253370764799  # 9998/12/31-23:59:59
MOST_NUMBER = 18446744073709551615
MOST_LIGHT = 1000000
NO_LIMIT = 20000  # hops of a request without a limit on them

# ---- Plans ------------------------------------------------------------------------------------------------------


class Bad(Exception):
    """A line is refused; the message is the kind."""


def time_text(second):
    return (EPOCH + datetime.timedelta(seconds=second)).strftime("%Y/%m/%d-%H:%M:%S")


def absolute_time(word):
    """The second of a word in 19 bytes, or none."""
    match = re.fullmatch(rb"([0-9]{4})/([0-9]{2})/([0-9]{2})-([0-9]{2}):([0-9]{2}):([0-9]{2})", word)
    if not match:
        return None
    try:
        at = datetime.datetime(*map(int, match.groups()))
    except ValueError:
        return None
    second = (at - EPOCH).days * 86400 + (at - EPOCH).seconds
    return second if 0 <= second <= LAST_TIME else None


def number(word, low, high):
    """The number of a word in decimal digits without leading zeros, or none."""
    if not re.fullmatch(rb"0|[1-9][0-9]*", word) or not low <= int(word) <= high:
        return None
    return int(word)


def given(value, kind):
    if value is None:
        raise Bad(kind)
    return value


@dataclass(frozen=True)
class Contact:
    """A contact that stands."""

    number: int
    start: int
    end: int
    sender: int
    receiver: int
    rate: int


class Plan:
    """The plan that lines make, one after another."""

    def __init__(self):
        self.reference = None
        self.contacts = {}  # by number
        self.ranges = []  # one, other, start, end, light
        self.greatest = 0

    def time(self, word):
        """The second of a time operand, or the kind of what is wrong with it."""
        if not re.fullmatch(rb"\+[0-9]{1,12}", word):
            second = absolute_time(word)
            return "BadTime" if second is None else second
        if self.reference is None:
            return "NoReference"
        second = self.reference + int(word[1:])
        return second if second <= LAST_TIME else "BadTime"

    def times(self, *words):
        """The seconds of time operands. What is wrong with any is told, BadTime before NoReference."""
        found = [self.time(word) for word in words]
        for kind in ("BadTime", "NoReference"):
            if kind in found:
                raise Bad(kind)
        return found

    def line(self, line):
        """Does what a line says."""
        if len(line) > 255:
            raise Bad("LineTooLong")
        if line.startswith(b"#"):
            return
        if re.search(rb"[^\t -~]", line):
            raise Bad("BadByte")
        words = re.findall(rb"[^\t ]+", line)
        if words:
            self.command(*words)

    def command(self, name, *words):
        if name == b"@":
            if len(words) != 1:
                raise Bad("WrongOperands")
            self.reference = given(absolute_time(words[0]), "BadTime")
        elif name in (b"a", b"d") and words and words[0] in (b"contact", b"range"):
            if len(words) != (6 if name == b"a" else 4):
                raise Bad("WrongOperands")
            (self.add if name == b"a" else self.delete)(*words)
        else:
            raise Bad("UnknownCommand")

    def add(self, name, start, end, one, other, value):
        start, end = self.times(start, end)
        one, other = (given(number(word, 1, MOST_NUMBER), "BadNode") for word in (one, other))
        value = given(number(value, 0, MOST_LIGHT if name == b"range" else MOST_NUMBER), "BadNumber")
        if start >= end:
            raise Bad("EmptyWindow")
        if one == other:
            raise Bad("SelfPair")
        (self.add_range if name == b"range" else self.add_contact)(start, end, one, other, value)

    def add_contact(self, start, end, one, other, rate):
        if self.numbers(start, one, other):
            raise Bad("DuplicateContact")
        self.greatest += 1
        self.contacts[self.greatest] = Contact(self.greatest, start, end, one, other, rate)

    def add_range(self, start, end, one, other, light):
        if any(it[:2] == (one, other) and it[2] < end and start < it[3] for it in self.ranges):
            raise Bad("RangeOverlap")
        self.ranges.append((one, other, start, end, light))

    def numbers(self, start, one, other):
        """The number of the contact with that start, sender and receiver, in a list, which is empty if there is none."""
        return [it.number for it in self.contacts.values() if (it.start, it.sender, it.receiver) == (start, one, other)]

    def delete(self, name, start, one, other):
        (start,) = self.times(start)
        one, other = (given(number(word, 1, MOST_NUMBER), "BadNode") for word in (one, other))
        if name == b"range":
            left = [it for it in self.ranges if it[:3] != (one, other, start)]
            given(None if left == self.ranges else left, "NothingToDelete")
            self.ranges = left
        else:
            (found,) = self.numbers(start, one, other) or [None]
            del self.contacts[given(found, "NothingToDelete")]

    def nodes(self):
        """The nodes that send or receive a contact."""
        return {it.sender for it in self.contacts.values()} | {it.receiver for it in self.contacts.values()}

    def light(self, contact):
        """The light time in force at the contact's start, or none. One from the greater node on holds that way alone,
        and wins over that of both ways."""
        pairs = [(contact.sender, contact.receiver)]
        if contact.sender > contact.receiver:
            pairs.append((contact.receiver, contact.sender))
        for pair in pairs:
            for one, other, start, end, light in self.ranges:
                if (one, other) == pair and start <= contact.start < end:
                    return light
        return None

    def canonical(self):
        """The canonical text."""
        contacts = [("c", it.number, it.start, it.end, it.sender, it.receiver, it.rate) for it in self.contacts.values()]
        lines = [" ".join(map(str, it)) for it in [*contacts, *(("r", *it) for it in sorted(self.ranges))]]
        return "\n".join(["cgr-plan 1", *lines, "end", ""])

    def digest(self):
        return sha256(self.canonical().encode()).hexdigest()


def lines_of(text):
    lines = text.split(b"\n")
    return lines if lines[-1] else lines[:-1]


def read(text):
    """The plan of a text, or none, and `ok`, or the number of the first bad line and the kind."""
    plan = Plan()
    for place, line in enumerate(lines_of(text)):
        try:
            plan.line(line)
        except Bad as kind:
            return None, f"{place + 1} {kind}"
    return plan, "ok"


# ---- Requests and routes ----------------------------------------------------------------------------------------


@dataclass(frozen=True)
class Request:
    """What is asked of a plan."""

    source: int
    target: int
    at: int
    margin: int = 0  # parts in a million
    hops: int = NO_LIMIT
    avoided: tuple = ()

    @property
    def is_limited(self):
        return self.hops < NO_LIMIT or bool(self.avoided)

    def step(self):
        return " ".join(map(str, ("ask", self.source, self.target, self.at, self.margin, self.hops, *self.avoided)))

    def line(self, version):
        """The line of a session's text."""
        limits = f" {self.hops} / {spelled(self.avoided)}" if version > 1 else ""
        return f"request {self.source} {self.target} {time_text(self.at)} {self.margin}{limits}"

    def many_line(self):
        """The line of a text of requests, without the limits at its end that are none."""
        limits = [str(self.margin), str(self.hops), ",".join(map(str, self.avoided))]
        while limits and limits[-1] == ("0", str(NO_LIMIT), "")[len(limits) - 1]:
            limits.pop()
        return " ".join([str(self.source), str(self.target), time_text(self.at), *limits])

    def words(self):
        """The words of `first`."""
        words = ["--from", self.source, "--to", self.target, "--at", time_text(self.at)]
        words += ["--margin-ppm", self.margin, "--max-hops", self.hops]
        return [*map(str, words), *(["--avoid", ",".join(map(str, self.avoided))] if self.avoided else [])]


@dataclass(frozen=True)
class Chain:
    """Contacts that a route may begin with: their numbers, the source and the receivers, and when it ends."""

    numbers: tuple
    nodes: tuple
    at: int


@dataclass(frozen=True)
class Route:
    """A route as it is answered."""

    contacts: tuple
    delivery: int
    until: int
    entry: int

    def key(self):
        return self.delivery, len(self.contacts), self.contacts

    def spelled(self):
        return f"{spelled(self.contacts)} / {self.delivery} {self.until} {self.entry}"

    def line(self):
        """What a report's line says after the rank."""
        delivery = f"delivery {time_text(self.delivery)} hops {len(self.contacts)} entry {self.entry}"
        return f"{delivery} until {time_text(self.until)} contacts {spelled(self.contacts)}"


def spelled(numbers):
    return " ".join(map(str, numbers)) or "-"


# ---- Listing ----------------------------------------------------------------------------------------------------


def may_visit(request, chain, node):
    """Whether a chain may go on to a node within the limits, without meeting a node twice."""
    return len(chain.numbers) < request.hops and node not in chain.nodes and node not in request.avoided


def arrival(plan, request, at, contact):
    """When a bundle that is at the contact's sender in that second arrives over it, or none."""
    sent, light = max(at, contact.start), plan.light(contact)
    if light is None or sent >= contact.end:
        return None
    return sent + light + math.ceil(Fraction(light * request.margin, 1000000))


def lengthened(plan, request, chain, number):
    """The chain with that contact after it, or none if no route begins so."""
    contact = plan.contacts.get(number)
    if not contact or contact.sender != chain.nodes[-1] or not may_visit(request, chain, contact.receiver):
        return None
    at = arrival(plan, request, chain.at, contact)
    return None if at is None else Chain((*chain.numbers, number), (*chain.nodes, contact.receiver), at)


def routes_after(plan, request, chain):
    """Each chain that begins with this one and ends at the destination."""
    if chain.nodes[-1] == request.target:
        yield chain
        return
    for number in plan.contacts:
        longer = lengthened(plan, request, chain, number)
        if longer:
            yield from routes_after(plan, request, longer)


def route_over(plan, chain):
    until = min(plan.contacts[number].end for number in chain.numbers)
    return Route(chain.numbers, chain.at, until, chain.nodes[1])


def is_in(route, prefix, excluded):
    """Whether the route is longer than the prefix, begins with it, and goes on with a number that isn't excluded."""
    after = route.contacts[len(prefix) :]
    return route.contacts[: len(prefix)] == prefix and bool(after) and after[0] not in excluded


def shared(one, other):
    """How many numbers from the front two lists share."""
    return sum(1 for _ in itertools.takewhile(lambda pair: pair[0] == pair[1], zip(one, other)))


class Listing:
    """All routes of a request over a plan, best first, and what follows from them."""

    def __init__(self, plan, request):
        self.plan = plan
        self.request = request
        self.start = Chain((), (request.source,), request.at)
        chains = routes_after(plan, request, self.start)
        self.routes = sorted((route_over(plan, chain) for chain in chains), key=Route.key)
        self.digest = plan.digest()
        self.kept_parts = {}

    def fits(self, prefix):
        """Whether routes may begin with the prefix, and go on."""
        chain = self.start
        for number in prefix:
            chain = chain and lengthened(self.plan, self.request, chain, number)
        return bool(chain) and self.request.target not in chain.nodes

    def least(self, prefix, excluded):
        """The least route of a part, or none."""
        return next((it for it in self.routes if is_in(it, prefix, excluded)), None)

    def last(self, place):
        """The contacts of the route that was given last."""
        return self.routes[place - 1].contacts if place else ()

    def parts(self, place):
        """The parts that are left after so many routes were given, by their prefixes: prefix, excluded numbers, and
        the least route. There is one for each list that a given route begins with, and the empty list."""
        if place not in self.kept_parts:
            nexts = {(): set()}
            for route in self.routes[:place]:
                for hops, number in enumerate(route.contacts):
                    nexts.setdefault(route.contacts[:hops], set()).add(number)
            parts = [(prefix, sorted(numbers)) for prefix, numbers in sorted(nexts.items())]
            self.kept_parts[place] = [(*part, self.least(*part)) for part in parts]
        return self.kept_parts[place]

    def searches_for(self, place):
        """How many searches the route at a place takes: one for each hop after the prefix of the part that carried
        it, which is what it shares with a route before it."""
        contacts = self.routes[place].contacts
        return len(contacts) - max((shared(contacts, it.contacts) for it in self.routes[:place]), default=0)

    def text(self, place, version=2):
        """The session's text after so many routes were given."""
        lines = [f"cgr-session {version}", f"plan {self.digest}", self.request.line(version), f"emitted {place}"]
        lines += [f"last {spelled(self.last(place))}", f"parts {len(self.parts(place))}"]
        for prefix, excluded, route in self.parts(place):
            lines.append(f"part {spelled(prefix)} / {spelled(excluded)} / {spelled(route.contacts if route else ())}")
        return "\n".join([*lines, "end", ""])

    def report(self, count):
        """What `first` prints of so many routes."""
        lines = [f"{rank} {route.line()}" for rank, route in enumerate(self.routes[:count], 1)]
        return "\n".join([*lines, "more" if len(self.routes) > count else "end", ""])

    def texts(self, version=2):
        """The texts of all places."""
        return [self.text(place, version) for place in range(len(self.routes) + 1)]
