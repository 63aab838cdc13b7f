"""A plan that can be asked: each call has a method, and a function of the package with the same name and words."""

import os
from datetime import date, datetime
from typing import Iterable, Iterator, List, Optional, Sequence, Union

from . import plans
from .choosing import LOOK, Choice, Judged, judged
from .errors import WORDS_STATUS, Refused
from .inprocess import answering
from .lost import Loss, losses
from .program import Counts, program_path
from .router import Router
from .routes import Answer, Fault, Request, Route, listed
from .times import second_of
from .timetable import Start, Stretch, latest_start, stretches

PART = 200  # requests that a worker answers at a time

Node = Union[int, str]  # a number or a name
Time = Union[int, str, datetime, date]
Limit = Union[int, str, None, Iterable[Node]]  # of a margin or of hops, or nodes to avoid
Source = Union[Node, Request]  # a source, or a whole request


class Plan(plans.Plan):
    """A contact plan, from a file or from lines, which can be asked.

    The calls that take a request take a `Request`, or its parts: source, destination and the time at the source, and by
    name `margin_ppm`, `max_hops` and `avoid`. `file` is the path of the plan's text, None for a plan made of lines, and
    `names` may say names of its nodes, as `Names`, `{31: "lander"}` or a file's path. In a notebook the plan shows itself as
    a table of its contacts and as a picture.
    """

    def __init__(self, lines, file=None, names=None):
        self._text, self._asked = _text_of(lines), None
        super().__init__(self._text, file, names)

    def __len__(self) -> int:
        return len(self._numbered)

    def __bool__(self) -> bool:
        return True

    def __repr__(self) -> str:
        nodes = {node for it in self.contacts for node in it.link}
        return f"<Plan {self.file or 'of lines'}: {len(self)} contacts, {len(nodes)} nodes>"

    def __getstate__(self):
        return {**vars(self), "_asked": None}

    # ---- Plans ----

    def without(self, numbers: Iterable[int]) -> "Plan":
        """The plan without the contacts with some numbers, of which there must be some; the others keep theirs."""
        lost = sorted(set(numbers))
        plan = super().without(lost)
        plan._text, plan._asked = _joined(self._text, [self.contact(number).deletion() for number in lost]), None
        return plan

    def with_lines(self, lines: Iterable[str]) -> "Plan":
        """The plan with further lines at its end, as `d contact 2030/01/01-01:00:00 31 22`. Contacts keep their numbers."""
        return Plan(_joined(self._text, lines), None, self.names)

    @property
    def asked(self) -> Router:
        """What answers over the plan."""
        if self._asked is None:
            self._asked = answering(_program_path, self._text, self.file)
        return self._asked

    @property
    def text(self) -> bytes:
        """The bytes of the plan's text."""
        return self._text

    def check(self) -> Counts:
        """What the plan has; it is refused if the program refuses it."""
        return self.asked.counts()

    @property
    def digest(self) -> str:
        """The plan's digest, which session texts have, too."""
        return self.asked.digest()

    def verify(self, session: Union[str, bytes]) -> bool:
        """Whether a session text is that of a place in the list of its request over this plan."""
        return self.asked.verify(session.encode() if isinstance(session, str) else session)

    # ---- Requests ----

    def request(self, source: Source, destination: Optional[Node] = None, at: Optional[Time] = None, **limits: Limit) -> Request:
        """A request, with the limits `margin_ppm`, `max_hops` and `avoid`. Nodes may be numbers or names, as texts too; those to
        avoid are any number of them, one number, or a text in which commas join them. Refused if there is no such node or time.
        """
        if isinstance(source, Request):
            if destination is not None or at is not None or limits:
                raise TypeError("a Request has all parts of a request")
            return source
        ends = self._node(source), self._node(destination)
        avoided = tuple(sorted(map(self._node, listed(limits.pop("avoid", ())))))
        return Request(*ends, _second(at), avoid=avoided, **limits)

    def routes(self, source: Source, destination: Optional[Node] = None, at: Optional[Time] = None, **limits) -> Iterator[Route]:
        """All routes of a request, best first, with their nodes and without their hops, as an iterator.

        They are asked for in pages, at first of 100 routes, and for more once they are taken. So the first routes cost as
        much as 100 do, and the memory doesn't grow with the list.
        """
        for page in self.asked.pages(self.request(source, destination, at, **limits)):
            yield from map(self.with_nodes, page.routes)

    def first(self, source: Source, destination: Optional[Node] = None, at: Optional[Time] = None, *, count: int = 10,
              **limits) -> Answer:
        """The answer with the first routes of a request, at most 10000, with their nodes and hops."""
        router = self.asked
        (answer,) = router.with_hops([router.first(self.request(source, destination, at, **limits), count)])
        return self._shown(answer)

    def many(self, requests: Iterable[Request], count: int = 10, executor=None, hops: bool = False) -> Iterator[Answer]:
        """The answers to requests, in their order, each with its first routes, as an iterator.

        With an executor, as of `concurrent.futures` or of a cluster, parts of 200 requests are answered by its workers, which
        need the plan's file and the program at the same places. Without one, they are answered here, one part at a time.
        """
        requests = list(requests)
        parts = [requests[start : start + PART] for start in range(0, len(requests), PART)]
        router = self.asked.apart() if executor else self.asked
        tasks = ((router, part, count, hops) for part in parts)
        for answers in (executor.map if executor else map)(_answered, *zip(*tasks)) if parts else ():
            yield from map(self._shown, answers)

    def follow(self, lists: Iterable[Sequence[int]], source: Source, destination: Optional[Node] = None, at: Optional[Time] = None,
               **limits) -> List[Union[Route, Fault]]:
        """What lists of contact numbers do for a request, for each a `Route` with its hops or a `Fault`."""
        request = self.request(source, destination, at, **limits)
        found = self.asked.follow((tuple(numbers), request) for numbers in lists)
        return [self.with_nodes(it) if isinstance(it, Route) else it for it in found]

    def choices(self, lists: Iterable[Sequence[int]], source: Source, destination: Optional[Node] = None, at: Optional[Time] = None,
                look: int = LOOK, **limits) -> List[Judged]:
        """What lists of contact numbers that a router chose do for a request, for each a `Judged`: a route, with its rank if
        it is among so many that are looked at, and how many seconds later it delivers than the best; or a fault. An empty
        list is a choice of no route.
        """
        request = self.request(source, destination, at, **limits)
        chosen = [Choice(place, tuple(numbers), request) for place, numbers in enumerate(lists, 1)]
        return [*judged(self.asked, chosen, look)]

    def losses(self, source: Source, destination: Optional[Node] = None, at: Optional[Time] = None, *,
               routes: Optional[Iterable[Route]] = None, count: int = 10, **limits) -> List[Loss]:
        """For each contact of some routes of a request, of its first ones if none are given, a `Loss`: the best route if
        that contact alone is lost.
        """
        request = self.request(source, destination, at, **limits)
        routes = self.asked.first(request, count) if routes is None else routes
        return losses(self.asked, self, request, list(routes))

    def latest(self, source: Source, destination: Optional[Node] = None, *, by: Time, after: Time = 0,
               **limits) -> Optional[Start]:
        """The latest `Start`: the last second at the source, not before `after`, from which a bundle is delivered by a
        deadline, and its best route then; None if there is none. Of a `Request`, its time stands for `after`.
        """
        request = self.request(source, destination, None if isinstance(source, Request) else after, **limits)
        start = latest_start(self.asked, request, _second(by))
        return start and Start(start.second, self.with_nodes(start.route))

    def timetable(self, source: Source, destination: Optional[Node] = None, at: Optional[Time] = None, *, last: Time,
                  **limits) -> Iterator[Stretch]:
        """The stretches of time, from a request's second to a last one, with the best route of each, as an iterator."""
        request = self.request(source, destination, at, **limits)
        for it in stretches(self.asked, request, _second(last)):
            yield it.route and Stretch(it.first, it.last, self.with_nodes(it.route), it.rises) or it

    # ---- How it shows itself ----

    def svg(self) -> str:
        """A picture of the windows in time, as an SVG."""
        from . import showing

        return showing.plan_svg(self)

    def page(self) -> str:
        """A page to touch with the plan, as HTML."""
        from . import showing

        return showing.plan_page(self)

    def _repr_html_(self):
        from . import showing

        return showing.plan_html(self)

    def _node(self, node):
        try:
            return self.names.node(str(node))
        except ValueError as error:
            raise Refused(str(error), WORDS_STATUS) from error

    def _shown(self, answer):
        """An answer with its plan, and with the nodes of its routes."""
        return Answer(tuple(map(self.with_nodes, answer.routes)), answer.is_whole, answer.request, self)


def _text_of(lines):
    """The bytes of a plan's text, which may be lines, with or without line feeds."""
    if isinstance(lines, bytes):
        return lines
    return (lines if isinstance(lines, str) else "\n".join(line.rstrip("\n") for line in lines)).encode()


def _joined(text, lines):
    """A plan's text with further lines."""
    return b"\n".join([text, _text_of(lines), b""])


def _program_path():
    return program_path(os.environ.get("CGRLIST"))


def _second(time):
    try:
        return second_of(time)
    except ValueError as error:
        raise Refused(str(error), WORDS_STATUS) from error


def _answered(router, requests, count, hops):
    """The answers to some requests."""
    answers = router.answers(requests, count)
    return router.with_hops(answers) if hops else answers
