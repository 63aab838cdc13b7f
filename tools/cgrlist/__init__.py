"""Routes through contact plans, as the program cgrlist lists them. This package asks it, and has no rules of its own.

    import cgrlist

    plan = cgrlist.Plan.from_file("examples/relay.txt")
    for route in plan.routes(31, 1, at="2030-01-01T00:45:00Z"):
        print(route.rank, route.text(), route.nodes)

A request is written so in each call, with `margin_ppm`, `max_hops` and `avoid` by name, or is a `Request`, as that of
`plan.request(31, 1, at=..)`; the functions of the package have the methods' names, and take a plan and a `Request`.

Times are whole seconds since 1970 in UTC; where one is asked for, a `datetime` with a zone, a `date` and the spellings of
the command line are taken, too, and what has a time has it as a `datetime` in UTC, too, as `route.delivery_time`. Nodes are
numbers, and where one is asked for, the plan's names for them are taken. Light times are seconds, rates and rooms bytes,
the former in a second, the latter in all.

What can't be done is `Refused`, a ValueError with a message and a status: 2 for what is asked, 3 for the plan, 4 for names, lists
or a report, 5 for a file,
125 if there is no program. The program is the clone's or that in the path; `CGRLIST` in the environment names another one.
Where the library `libcgrlist.so.2` lies beside it, or `CGRLIST_LIBRARY` names one, that answers in this process, many times
as fast, and the same; `CGRLIST_IN_PROCESS=0` turns that off.
"""

from typing import Iterable, Iterator, List, Optional, Sequence, Union

from .asking import Limit, Node, Plan, Source, Time
from .choosing import Judged
from .comparing import contact_changes, route_changes
from .errors import Refused
from .lost import Loss
from .names import Names
from .plans import Contact
from .program import Counts
from .routes import Answer, Fault, Hop, Request, Route
from .times import iso_text, second_of, time_text
from .timetable import Start, Stretch
from .version import VERSION

__version__ = VERSION

__all__ = [
    *("Answer", "Contact", "Counts", "Fault", "Hop", "Judged", "Loss", "Names", "Plan", "Refused", "Request", "Route"),
    *("Start", "Stretch", "check", "choices", "contact_changes", "digest", "first", "follow", "iso_text", "latest", "losses"),
    *("many", "request", "route_changes", "routes", "second_of", "time_text", "timetable", "verify"),
]


def request(plan: Plan, source: Source, destination: Node, at: Time, **limits: Limit) -> Request:
    """A request over a plan, as `Plan.request`."""
    return plan.request(source, destination, at, **limits)


def routes(plan: Plan, source, destination=None, at: Optional[Time] = None, **limits) -> Iterator[Route]:
    """All routes of a request, best first, as `Plan.routes`."""
    return plan.routes(source, destination, at, **limits)


def first(plan: Plan, asked: Request, count: int = 10) -> Answer:
    """The first routes of a request with their hops, as `Plan.first`."""
    return plan.first(asked, count=count)


def many(plan: Plan, requests: Iterable[Request], count: int = 10, executor=None, hops: bool = False) -> Iterator[Answer]:
    """The first routes of each of some requests, as `Plan.many`."""
    return plan.many(requests, count, executor, hops)


def follow(plan: Plan, asked: Request, lists: Iterable[Sequence[int]]) -> List[Union[Route, Fault]]:
    """What lists of contact numbers do for a request, as `Plan.follow`."""
    return plan.follow(lists, asked)


def choices(plan: Plan, asked: Request, lists: Iterable[Sequence[int]]) -> List[Judged]:
    """What lists of contact numbers do for a request, with their ranks, as `Plan.choices`."""
    return plan.choices(lists, asked)


def losses(plan: Plan, asked: Request, routes: Iterable[Route]) -> List[Loss]:
    """What is best if a contact of some routes of a request is lost, as `Plan.losses`."""
    return plan.losses(asked, routes=routes)


def latest(plan: Plan, asked: Request, by: Time) -> Optional[Start]:
    """The last second at the source that is in time, as `Plan.latest`."""
    return plan.latest(asked, by=by)


def timetable(plan: Plan, asked: Request, last: Time) -> Iterator[Stretch]:
    """The best route by the second at the source, as `Plan.timetable`."""
    return plan.timetable(asked, last=last)


def check(plan: Plan) -> Counts:
    """What a plan has, as `Plan.check`."""
    return plan.check()


def digest(plan: Plan) -> str:
    """The digest of a plan, as `Plan.digest`."""
    return plan.digest


def verify(plan: Plan, session: Union[str, bytes]) -> bool:
    """Whether a text is the session text of a place in a list over a plan, as `Plan.verify`."""
    return plan.verify(session)
