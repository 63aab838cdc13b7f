"""The best route by the second at which the bundle is at the source: over a span of time, and exactly; and the last second
that is in time.
"""

from dataclasses import dataclass, replace
from datetime import datetime
from typing import Iterator, List, Optional, Tuple

from .router import Router
from .routes import Request, Route
from .times import date_of

WIDE = 256  # seconds that are asked for at a time where not each is
PART = 16384  # seconds of a span after which its stretches are told
STEPS = (512, 32, 1)  # of a part, the seconds between those that are asked for, until all between are known


@dataclass(frozen=True)
class Stretch:
    """Seconds at the source with one best route; None if there is no route.

    Over `first` to `last` it delivers at `delivery`, or that many seconds later as the bundle is there later if `rises`.
    """

    first: int
    last: int
    route: Optional[Route]
    rises: bool = False

    @property
    def delivery(self) -> int:
        """The delivery from the first second."""
        return self.route.delivery

    @property
    def last_delivery(self) -> int:
        """The delivery from the last second."""
        return self.route.delivery + (self.last - self.first) * self.rises

    @property
    def first_time(self) -> datetime:
        """The first second, in UTC."""
        return date_of(self.first)

    @property
    def last_time(self) -> datetime:
        """The last second, in UTC."""
        return date_of(self.last)


@dataclass(frozen=True)
class Start:
    """A second at which a bundle is at the source, and its best route from then on; None if there is none."""

    second: int
    route: Optional[Route]

    @property
    def time(self) -> datetime:
        """The second, in UTC."""
        return date_of(self.second)


# ---- A timetable ------------------------------------------------------------------------------------------------


def stretches(router: Router, request: Request, last: int) -> Iterator[Stretch]:
    """The stretches from the request's second to a last one, in their order, each once it has ended."""
    return _joined_all(_known(router, request, last), last)


def known_stretches(router: Router, request: Request, span: Tuple[int, int], most: int) -> List[Stretch]:
    """Stretches of a span whose best route is known, of whose seconds no more than so many are asked for: that of the request,
    some that are equally far from each other, and then those in the middle of the widest gaps.
    """
    first, last = span
    asked = sorted({first, request.at, last, *_between(first, last, min(most, WIDE))})
    found = {}
    while asked:
        found.update(zip(asked, _best_at(router, request, asked)))
        gaps = sorted(_gaps(found), key=lambda gap: gap[0] - gap[1])
        asked = [(one + other) // 2 for one, other in gaps[: max(min(WIDE, most - len(found)), 0)]]
    return [*_joined_all(sorted(found.items()), last)]


def _joined_all(known, last):
    """The stretches of seconds with their best routes, each once it has ended."""
    begun = None
    for second, route in known:
        following = Stretch(second, second, route) if begun is None else _joined(begun, second, route)
        if begun and following.first != begun.first:
            yield begun
        begun = following
        if route is None:  # and none later
            break
    if begun:
        yield begun if begun.route else replace(begun, last=last)


def _joined(begun, second, route):
    """A stretch with a further second, or the one that begins there."""
    if not (begun.route and route) or begun.route.contacts != route.contacts:
        return Stretch(second, second, route)
    if route.delivery == begun.delivery:
        return replace(begun, last=second)
    if second > begun.last + 1:
        return Stretch(second, second, route)
    if begun.rises or begun.first == begun.last:
        return replace(begun, last=second, rises=True)
    return Stretch(second, second, route, rises=True)


def _known(router, request, last):
    """The best route, None if there is none, at seconds from the request's to a last one. Of those between two of them there
    is either none, or all have the same best route and delivery.
    """
    for first in range(request.at, last + 1, PART):
        found = _of_part(router, request, first, min(first + PART - 1, last))
        for second in sorted(found):
            yield second, found[second]


def _of_part(router, request, first, last):
    """The best routes at seconds of a part, by second.

    A bundle that is at the source later arrives no earlier, over the same contacts, too. So where two seconds have the same
    best route and delivery, all between have: another one that is better between would be better at the first of them.
    """
    asked = sorted({*range(first, last + 1, STEPS[0]), last})
    found = dict(zip(asked, _best_at(router, request, asked)))
    for step in STEPS[1:]:
        asked = [at for one, other in _gaps(found) for at in range(one + step - (one - first) % step, other, step)]
        found.update(zip(asked, _best_at(router, request, asked)))
    return found


def _gaps(found):
    """The seconds beside those that have to be asked for, which aren't between two with the same answer, nor after one without
    a route.
    """
    known = sorted(found)
    return [(one, other) for one, other in zip(known, known[1:]) if other - one > 1 and not _are_alike(found[one], found[other])]


def _are_alike(one, other):
    return one is None or other is not None and (one.delivery, one.contacts) == (other.delivery, other.contacts)


def _best_at(router, request, seconds):
    return router.best([replace(request, at=second) for second in seconds])


# ---- The last second --------------------------------------------------------------------------------------------


def latest_start(router: Router, request: Request, deadline: int) -> Optional[Start]:
    """The latest start of a request, at its second or later, that is delivered by a deadline; None if there is none.

    It is a search for the first second that is too late, among as many at a time as are best asked together. A bundle that
    is at the source later never arrives earlier, so no start after that is in time.
    """
    start = _in_time(request.at, router.best([request])[0], deadline)
    too_late = deadline + 1
    while start and too_late - start.second > 1:
        seconds = _between(start.second, too_late, router.at_once)
        for second, route in zip(seconds, _best_at(router, request, seconds)):
            found = _in_time(second, route, deadline)
            if not found:
                too_late = second
                break
            start = found
    return start


def _in_time(second: int, route: Optional[Route], deadline: int) -> Optional[Start]:
    return Start(second, route) if route and route.delivery <= deadline else None


def _between(first: int, last: int, count: int) -> List[int]:
    """Up to so many seconds between two, as far from each other as can be."""
    count = min(count, last - first - 1)
    return [first + (last - first) * place // (count + 1) for place in range(1, count + 1)]
