"""What becomes of the contacts that a router chose: their rank, how much later they deliver than the best, or their fault."""

import functools
import json
import re
from dataclasses import dataclass
from typing import Optional, Tuple, Union

from .errors import NO_STATUS, WORDS_STATUS, Refused
from .listing import LOOK, number_word
from .limits import ROUTES
from .requests import FIELDS, request_of, requests_of
from .routes import Fault, Request, Route
from .tables import (CSV, JSON, LIMITS, NUMBER, NUMBERS, REQUEST, TIME, WORD, Kind, Table, about, json_of, object_text,
                     request_json, request_row)
from .times import time_of
from .tool import in_order, lines_of, tell

LOOK_OF_EACH = 100  # routes that are looked at for the ranks of the choices of each of several requests
PART = 50  # requests that one run answers

RANK = Kind(str.rjust, lambda it, how: str(it), lambda it, how: it if isinstance(it, int) else None)
CONTACTS = NUMBERS._replace(text=lambda it, how: NUMBERS.text(it, how) or NO_ROUTE)
CHOICE = {"line": NUMBER, "rank": RANK, "delivery": TIME, "later": NUMBER, "contacts": CONTACTS, "fault": WORD}
NO_ROUTE = "-"  # a router's choice of none
HAS_ROUTE = Fault("HasRoute")  # what is wrong with that if there is a route
ANY = (1,)  # contacts that are followed in place of none, so that the request is judged
JUDGING = ("exit_code", "later", "wrong", "first_number")  # words that go with --choices


# ---- A file of choices ------------------------------------------------------------------------------------------


@dataclass(frozen=True)
class Choice:
    """A list of contacts that a router chose for a request, which is empty if it has no route, and the number of its line."""

    place: int
    contacts: Tuple[int, ...]
    request: Request


class Reader:
    """Reads choices. The plan's first contact has a number for the router, and lines without a request have that of the words."""

    def __init__(self, plan, request, limits, first_number=1):
        self._request, self._limits, self._shift, self._names = request, limits, 1 - first_number, plan.names
        self._by_start = {(*it.link, it.start): it.number for it in plan.contacts}

    def choices(self, lines):
        """The choices of lines: contacts as `4,11,2` or `A>B@START,..`, or `-`, and then a request if the words have none; or JSON."""
        found = []
        for place, line in enumerate(map(str.strip, lines), 1):
            if line and not line.startswith("#"):
                try:
                    found.append(Choice(place, *(self._of_json if line[0] in "[{" else self._choice)(line)))
                except ValueError as error:
                    raise Refused(f"choices line {place}: {error}: {line}") from error
        return found

    def _of_json(self, line):
        """The contacts and the request of a line of JSON: a list of contacts, or an object that has one and a request's fields."""
        try:
            told = json.loads(line)
        except (ValueError, RecursionError):
            raise ValueError("it is no JSON") from None
        told = {"contacts": told} if isinstance(told, list) else told
        if "contacts" not in told:
            raise ValueError("it has no contacts")
        contacts = told["contacts"]
        if not isinstance(contacts, (list, type(None))) or not all(isinstance(it, (int, str)) for it in contacts or ()):
            raise ValueError("its contacts are no list of numbers or texts")
        if self._request:
            return self._contacts_of(map(str, contacts or ())), self._request
        request = told.get("request") or {field: told[field] for field in FIELDS if field in told}
        return self._contacts_of(map(str, contacts or ())), request_of(request, self._names, self._limits)

    def _choice(self, line):
        """The contacts and the request of a line. Names may have spaces, so each place of the request is tried."""
        if self._request:
            return self._contacts(line), self._request
        words = line.split()
        if len(words) < 4:
            raise ValueError("it needs contacts, from, to and at")
        for at in range(1, len(words) - 2 if ">" in line else 2):
            try:
                (told,) = requests_of([" ".join(words[at:])], self._names, self._limits)
            except Refused as refused:
                why = refused.message.split(": ")[1]
            else:
                return self._contacts(" ".join(words[:at])), told.request
        raise ValueError(f"after its contacts, {why}")

    def _contacts(self, text):
        words = text.split(",") if ">" in text else re.split(r"[,\s]+", text)
        return self._contacts_of(() if text == NO_ROUTE else words)

    def _contacts_of(self, words):
        return tuple(map(self._contact, words))

    def _contact(self, word):
        """The number of a contact that a word says."""
        if re.fullmatch(r"0|[1-9]\d{0,8}", word, re.ASCII) and int(word) + self._shift > 0:
            return int(word) + self._shift
        if word == "0":
            raise ValueError("contacts are counted from 1 without --first-number 0")
        link, _, start = word.rpartition("@")
        sender, _, receiver = link.partition(">")
        key = (self._names.node(sender.strip()), self._names.node(receiver.strip()), time_of(start.strip()))
        if key not in self._by_start:
            raise ValueError("the plan has no contact with these nodes and that start")
        return self._by_start[key]


# ---- Judging ----------------------------------------------------------------------------------------------------


@dataclass(frozen=True)
class Judged:
    """A choice with what it does, its rank in the list of all routes of its request, None if it isn't among those that were
    looked at, and the delivery of the best one. Without contacts it does nothing, None, or has a fault if there is a route.
    """

    choice: Choice
    told: Union[Route, Fault, None]
    rank: Optional[int]
    best: Optional[int]

    @property
    def later(self):
        """How many seconds after the best route it delivers; None if it is no route."""
        return self.told.delivery - self.best if isinstance(self.told, Route) else None

    def is_wrong(self, later):
        """Whether it has a fault, or delivers after the best one by more than so many seconds."""
        return isinstance(self.told, Fault) or (self.later or 0) > later


def judged(program, choices, look):
    """What choices do, in their order. So many routes of each request are looked at for their ranks."""
    told = _told(program, choices)
    # Of each request with a route or a choice of none, the deliveries of the routes that were chosen by their contacts.
    wanted = {it.request: {} for it, route in zip(choices, told) if not it.contacts or isinstance(route, Route)}
    for it, route in zip(choices, told):
        if isinstance(route, Route):
            wanted[it.request][it.contacts] = route.delivery
    ranks = dict(_ranks(program, wanted, look))
    for it, route in zip(choices, told):
        known, best = ranks.get(it.request, ({}, None))
        yield Judged(it, route if it.contacts or best is None else HAS_ROUTE, known.get(it.contacts), best)


def _told(program, choices):
    """What the contacts of choices do, in their order, None without contacts. If a request is refused, the choice's line is named."""
    try:
        told = program.follow((it.contacts or ANY, it.request) for it in choices)
    except Refused as refused:
        line = _refused_line(program, choices, refused)
        if line is None:
            raise
        raise Refused(f"choices line {line}: {refused.message.strip().rpartition(': ')[2]}") from refused
    return [route if it.contacts else None for it, route in zip(choices, told)]


def _refused_line(program, choices, refused):
    """The line of a choice whose request is refused, None if it is something else. The library doesn't say which request it is."""
    found = re.match(r"cgrlist: lists line (\d+): ", refused.message or "")
    if found:
        return choices[int(found[1]) - 1].place
    if refused.status != WORDS_STATUS:
        return None
    return next((it.place for it in choices if _is_refused(program, it.request)), None)


def _is_refused(program, request):
    try:
        program.follow([(ANY, request)])
    except Refused:
        return True
    return False


def _ranks(program, wanted, look):
    """Each of some requests, with the ranks of the wanted ones of its first routes, and the best delivery."""
    if len(wanted) < 2 or look > ROUTES:
        for request, deliveries in wanted.items():
            yield request, ranks_of(program.pages(request), deliveries, look)
        return
    requests = [*wanted]
    parts = [requests[start : start + PART] for start in range(0, len(requests), PART)]
    for answers in in_order(functools.partial(program.many, count=look), parts):
        for answer in answers:
            yield answer.request, ranks_of([answer], wanted[answer.request], look)


def ranks_of(pages, wanted, look):
    """The ranks of routes, of which the deliveries are given by their contacts, among so many of some pages; and the best
    delivery.
    """
    ranks, looked, best, last = {}, 0, None, max(wanted.values(), default=0)
    for route in (route for page in pages for route in page.routes):
        best = route.delivery if best is None else best
        if route.delivery > last or len(ranks) == len(wanted) or looked == look:
            break
        looked += 1
        if route.contacts in wanted:
            ranks[route.contacts] = route.rank
    return ranks, best


# ---- What tools/report prints -----------------------------------------------------------------------------------


def add_judging_words(parser):
    """Adds the group of options about choices."""
    group = parser.add_argument_group("Choices of a router, in place of routes")
    choices = "judge what a router chose, a line for each choice; - is standard input"
    group.add_argument("--choices", metavar="G", help=choices)
    group.add_argument("--exit-code", action="store_true", help="status 1 if a choice is wrong; standard error counts the wrong ones")
    later = "a choice is wrong if it delivers more than S seconds after the best route; 0 if not given"
    group.add_argument("--later", type=number_word, metavar="S", help=later)
    group.add_argument("--wrong", action="store_true", help="only the wrong choices")
    group.add_argument("--first-number", choices=("0", "1"), help="the router's number of the plan's first contact; 1 if not given, and always 1 in the answer")


def choices_text(asked):
    """The table of the choices of a file, in pieces; then, if that is asked for, the status that tells of wrong ones."""
    words, request, plan = asked.words, asked.request_or_none(), asked.plan_after_check
    reader = Reader(plan, request, asked.limits, int(words.first_number or 1))
    choices = reader.choices(lines_of(words.choices))
    if not choices:
        raise Refused(f"there is no choice in {words.choices}")
    look = words.look or (LOOK if len({it.request for it in choices}) < 2 else LOOK_OF_EACH)
    told = [*judged(asked.router, choices, look)]
    wrong = [it for it in told if it.is_wrong(words.later or 0)]
    yield from _pieces(asked, wrong if words.wrong else told, request, look)
    asked.tell_hints(dict.fromkeys(it.request for it in choices))
    if words.exit_code:
        tell(_counted(told, wrong, words.later or 0))
        if wrong:
            raise Refused(None, NO_STATUS)


def _counted(told, wrong, later):
    """How many of some choices are wrong, by kind; choices of none are counted if there are some."""
    none = sum(not it.choice.contacts for it in wrong)
    faults = sum(isinstance(it.told, Fault) for it in wrong) - none
    missed = f"route missed {none}, " if any(not it.choice.contacts for it in told) else ""
    late = len(wrong) - none - faults
    return f"choices {len(told)}; wrong: not a route {faults}, {missed}more than {later} s after the best {late}"


def _pieces(asked, told, request, look):
    how, plan = asked.spelling, asked.plan
    if asked.words.form == JSON:
        rows = ({**json_of(CHOICE, _row(it, look), how), **({} if request else {"request": request_json(it.choice.request, how)})}
                for it in told)
        return object_text("choices", map(json.dumps, rows), lambda: about(how, plan, request, looked_at=look))
    rows = [{**request_row(it.choice.request), **_row(it, look)} for it in told]
    is_csv = asked.words.form == CSV
    of_requests = [] if request else [field for field in REQUEST if is_csv or field not in LIMITS or any(row[field] for row in rows)]
    columns = {"line": NUMBER, **{field: REQUEST[field] for field in of_requests}, **CHOICE}
    return Table(columns, [rows], how).pieces(asked.words.form)


def _row(it, look):
    """The values of a choice's line. A rank that is greater than what was looked at is told as such."""
    if not isinstance(it.told, Route):
        fault = it.told and it.told.text.removeprefix("refused").strip(" :")
        return dict(zip(CHOICE, [it.choice.place, None, None, None, it.choice.contacts, fault]))
    rank = f">{look}" if it.rank is None else it.rank
    return dict(zip(CHOICE, [it.choice.place, rank, it.told.delivery, it.later, it.choice.contacts, None]))
