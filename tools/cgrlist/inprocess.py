"""The library `libcgrlist.so.2` in this process: it answers as the program does, and no process has to begin.

It is used where it lies beside the program, or at the path that `CGRLIST_LIBRARY` in the environment names. With
`CGRLIST_IN_PROCESS=0` the program is asked.
"""

import contextlib
import functools
import os
import re
import threading

from . import clone, hints, libcgrlist
from .errors import PLAN_STATUS, REQUESTS_STATUS, START_STATUS, WORDS_STATUS, Refused
from .libcgrlist import ABI, MEMORY
from .limits import AVOIDED, GREATEST, HOPS, ROUTES
from .limits import MARGIN as MOST_MARGIN
from .program import Counts, Program
from .router import Router
from .routes import MARGIN, Answer, Fault, Hop, Route
from .times import LAST
from .tool import scratch_with

NAME = f"libcgrlist.so.{ABI}"
# From the program's folder: beside it, installed, a package's of Debian, a clone's.
PLACES = (NAME, f"../lib/{NAME}", f"../lib/{os.uname().machine}-linux-gnu/{NAME}", f"../../../library/out/{NAME}")
REQUEST, LINE, CHANGE, SESSION = 16, 32, 48, 80  # the first status of each kind
MEMORY_STATUS = 6  # the program's
LAST_NUMBER = 2**32 - 1
FIRST_PAGE = 100  # routes of a list that are asked for at first, as the program is


# ---- The library ------------------------------------------------------------------------------------------------


def library(program_path, is_named=False):
    """The library that the environment names, unless a word names the program, or that lies beside the program, whose path a
    function gives; None if there is none, or if the program is to be asked.
    """
    if os.environ.get("CGRLIST_IN_PROCESS") == "0":
        return None
    path = None if is_named else os.environ.get("CGRLIST_LIBRARY") or _inside()
    path = path or _beside(program_path)
    return path and loaded(path)


def _inside():
    """The library in this package, as a wheel of a release has it, unless the environment names a program."""
    path = os.path.join(clone.PACKAGE, NAME)
    return path if os.path.isfile(path) and not os.environ.get("CGRLIST") else None


def _beside(program_path):
    path = program_path()
    if path == clone.TRIAL:  # the library may be older than the sources, as the proved program is
        return None
    folder = os.path.dirname(os.path.realpath(path))
    return next((it for it in (os.path.join(folder, place) for place in PLACES) if os.path.isfile(it)), None)


def answering(program_path, text, file=None, is_named=False):
    """What answers over a plan's text, which may be that of a file: the library, or else the program, whose path a function
    gives, and which a word may name.
    """
    found, program = library(program_path, is_named), functools.partial(_program_over, program_path, text, file)
    return InProcess(found, text, file, program) if found else program()


def _program_over(program_path, text, file):
    return Program(program_path(), scratch_with(text) if file is None else file)


@functools.lru_cache(maxsize=None)
def loaded(path):
    """The library at a path."""
    try:
        return libcgrlist.Library(path)
    except (OSError, AttributeError) as error:
        raise Refused(f"cannot use {path}: {error}", START_STATUS) from error
    except ValueError as error:
        raise Refused(f"{error}; CGRLIST_IN_PROCESS=0 asks the program", START_STATUS) from error


@contextlib.contextmanager
def _refusing():
    """What the library refuses is refused as the program does."""
    try:
        yield
    except libcgrlist.Refusal as refusal:
        raise _refused(refusal) from None


def _refused(refusal):
    word = _word_of(refusal.name.removeprefix("CGRLIST_"))
    if REQUEST <= refusal.status < LINE:
        return Refused(f"cgrlist: request: {word}\n", WORDS_STATUS, is_told=True)
    if LINE <= refusal.status < CHANGE:
        return Refused(f"cgrlist: plan line {refusal.line}: {word}\n", PLAN_STATUS, is_told=True)
    if refusal.status == MEMORY:
        return Refused("cgrlist: no memory\n", MEMORY_STATUS, is_told=True)
    return Refused(f"the library answers {refusal.status} {refusal.name}")


def _word_of(constant):
    """What the program writes for a constant: `TooMany` for `LINE_TOO_MANY`."""
    name = constant if constant == "LINE_TOO_LONG" else re.sub("^(LINE|FAULT)_", "", constant)
    return "".join(it.capitalize() for it in name.split("_"))


def _answer(page, rank, request):
    """A page of a request from a rank on."""
    routes = (Route(place, it.delivery, it.entry, it.until, it.contacts) for place, it in enumerate(page.routes, rank))
    return Answer(tuple(routes), not page.more, request)


def _followed(plan, asked, contacts):
    """What contacts do: a route with its hops, and without a rank, or a fault."""
    outcome = plan.follow(asked, contacts)
    hops = tuple(Hop(it.contact, it.source, it.to, it.sent, it.arrival) for it in plan.hops(asked, contacts))
    if outcome.route:
        it = outcome.route
        return Route(None, it.delivery, it.entry, it.until, it.contacts, hops)
    place = f" hop {outcome.place}" if outcome.place else ""
    return Fault(f"refused{place}: {_word_of(outcome.fault.removeprefix('CGRLIST_'))}", hops)


# ---- What answers -----------------------------------------------------------------------------------------------


class InProcess(Router):
    """The library over a plan's text, which may be that of a file. It answers as `program.Program` does, and is refused alike.

    The plan is read once, at the first question. Threads may ask together, and wait for each other: the plan isn't prepared
    for calls at the same time, which takes longer than reading it. A function gives the program over the same plan.
    """

    at_once = 1

    def __init__(self, library, text, file=None, program=None):
        self.text = text
        self._library, self._file, self._program, self._lock = library, file, program, threading.Lock()

    @functools.cached_property
    def _plan(self):
        try:
            with _refusing():
                return self._library.read(self.text)
        except Refused as refused:
            if self._file and refused.status == PLAN_STATUS:
                refused.hints = tuple(hints.of_refusal(self._file, refused.message))
            raise

    @contextlib.contextmanager
    def _opened(self):
        """The plan, for one call at a time."""
        with self._lock, _refusing():
            yield self._plan

    def check(self):
        """Refuses a plan that the library refuses."""
        with self._opened():
            pass

    def counts(self):
        """What the plan has."""
        with self._opened() as plan:
            return Counts(*plan.counts()[:4])

    def digest(self):
        """The plan's digest."""
        with self._opened() as plan:
            return plan.digest().hex()

    def verify(self, text):
        """Whether a text, as bytes, is the session text of a place in the list of its request over the plan."""
        with self._opened() as plan:
            return plan.verify(text)

    def best(self, requests):
        """The best route of each of some requests; None where there is none."""
        asked = map(_asked, requests)
        with self._opened() as plan:
            found = map(plan.best, asked)
            return [it and Route(1, it.delivery, it.entry, it.until, it.contacts) for it in found]

    def first(self, request, count):
        """The answer with the first routes of a request, at most 10000."""
        asked, count = _asked(request), _number(count, 1, ROUTES, "--count")
        with self._opened() as plan:
            return _answer(plan.first(asked, count), 1, request)

    def many(self, requests, count):
        """The answers with the first routes of requests; None if one of them is refused."""
        count = _number(count, 1, ROUTES, "--count")
        try:
            return [self.first(request, count) for request in requests]
        except Refused as refused:
            if refused.status != WORDS_STATUS:
                raise
            return None

    def follow(self, lists):
        """What lists of contacts do, each with its request: for each a route with its hops, or a `Fault`."""
        found = []
        for place, (contacts, request) in enumerate(lists, 1):
            if not contacts or not all(1 <= number <= LAST_NUMBER for number in contacts):
                raise Refused(f"cgrlist: lists line {place}: BadContacts\n", REQUESTS_STATUS, is_told=True)
            asked = _asked(request)
            with self._opened() as plan:
                found.append(_followed(plan, asked, contacts))
        return found

    def pages(self, request):
        """The pages of a request's list, to its end."""
        asked, count, rank, is_whole = _asked(request), FIRST_PAGE, 1, False
        with self._opened() as plan:
            listing = plan.listing(asked)
        with listing:
            while not is_whole:
                with _refusing():
                    answer = _answer(listing.next(count), rank, request)
                yield answer
                is_whole, rank, count = answer.is_whole, rank + len(answer.routes), min(count * 4, ROUTES)

    @contextlib.contextmanager
    def over(self, text):
        """The library over another plan's text."""
        yield InProcess(self._library, text)

    def apart(self):
        """What other processes may use: the program."""
        return self._program()


def _asked(request):
    """A request as the library takes it. What isn't within its limits is refused as the program does."""
    source, to = _number(request.source, 1, GREATEST, "--from"), _number(request.destination, 1, GREATEST, "--to")
    margin = _number(MARGIN if request.margin_ppm is None else request.margin_ppm, 0, MOST_MARGIN, "--margin-ppm")
    hops = _number(HOPS if request.max_hops is None else request.max_hops, 1, HOPS, "--max-hops")
    at = _number(request.at, 0, LAST, "--at")
    nodes = [_number(node, 1, GREATEST, "--avoid") for node in request.avoid]
    if len(nodes) > AVOIDED:
        _refuse("--avoid", request.avoided_text)
    return libcgrlist.request(source, to, at, margin, hops, nodes)


def _number(value, least, most, option):
    """A value that is a number within limits, or is a text that spells one."""
    if isinstance(value, int):
        number = value
    else:
        number = int(value) if re.fullmatch(r"0|[1-9]\d{0,19}", str(value), re.ASCII) else -1
    return number if least <= number <= most else _refuse(option, value)


def _refuse(option, value):
    raise Refused(f"cgrlist: bad {option}\n", WORDS_STATUS, is_told=True, value=str(value))
