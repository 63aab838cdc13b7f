"""What the program and the library have in common: each answers over one plan, and more follows from their answers."""

import functools
from dataclasses import replace

from .errors import Refused
from .routes import Fault


class Router:
    """What answers over one plan.

    It has `text`, the bytes of the plan's text, `at_once`, how many requests are best asked together, and the calls `first`,
    `many`, `follow`, `pages`, `check`, `digest` and `verify`, as those of `program.Program`; and `over`, which gives one over
    another text for a while.
    """

    def with_hops(self, answers):
        """Answers with the hops of their routes; refused if a request makes another one of a route's contacts."""
        told = iter(self.follow((route.contacts, it.request) for it in answers for route in it.routes))
        return [replace(it, routes=tuple(_as_listed(route, next(told)) for route in it.routes)) for it in answers]

    def with_send_by(self, answers):
        """Answers with the last second at the source for each route's contacts. None is after the first of their ends."""
        lists = [(route.contacts, it.request) for it in answers for route in it.routes]
        seconds = iter(self._latest(lists, [route.until for it in answers for route in it.routes]))
        return [replace(it, routes=tuple(route.having(send_by=next(seconds)) for route in it.routes)) for it in answers]

    def _latest(self, lists, lasts):
        """For each of some lists of contacts with its request: the last second, of those from the request's on and up to
        that in `lasts`, at which the contacts make a route. It is a binary search for all of them at once.
        """
        seconds, lates = [request.at for _, request in lists], [last + 1 for last in lasts]
        while left := [place for place in range(len(lists)) if lates[place] - seconds[place] > 1]:
            middles = [(seconds[place] + lates[place]) // 2 for place in left]
            asked = [(lists[place][0], replace(lists[place][1], at=at)) for place, at in zip(left, middles)]
            for place, at, told in zip(left, middles, self.follow(asked)):
                (lates if isinstance(told, Fault) else seconds)[place] = at
        return seconds

    def answers(self, requests, count):
        """The answers with the first routes of requests. What refuses one says why."""
        answers = self.many(requests, count) if len(requests) > 1 else None
        if answers is None:  # asked one by one, it says which limit or node it refuses
            answers = [self.first(request, count) for request in requests]
        return answers

    def best(self, requests):
        """The best route of each of some requests; None where there is none."""
        return [next(iter(it), None) for it in self.answers(requests, 1)]

    def without(self, numbers):
        """What answers over the plan without the contacts with some numbers; the others keep theirs."""
        return Without(self, frozenset(numbers)) if numbers else self

    @functools.cached_property
    def lines(self):
        """The lines of the plan's text."""
        return Lines(self.text)


class Lines:
    """The lines of a plan's text, and which of them add the contacts 1, 2, .."""

    def __init__(self, text):
        self._lines = text.split(b"\n")
        self._added = [place for place, line in enumerate(self._lines) if line.split(None, 2)[:2] == [b"a", b"contact"]]

    def without(self, numbers):
        """The text without the lines of some contacts that stand at its end, and the numbers of those that are left.

        So a contact is left out in no time, where a line that deletes it takes as long as the plan.
        """
        lines = self._lines[:]
        for number in numbers:
            lines[self._added[number - 1]] = b""
        return b"\n".join(lines), [it for it in range(1, len(self._added) + 1) if it not in numbers]


class Without:
    """What answers over a plan without some contacts. They are left out of its text, in which the others keep their order,
    and so the routes theirs; the numbers in an answer are those of the whole plan.
    """

    def __init__(self, router, numbers):
        self._router, self._numbers = router, numbers

    def best(self, requests):
        """The best route of each of some requests; None where there is none."""
        text, numbers = self._router.lines.without(self._numbers)
        with self._router.over(text) as left:
            found = left.best(requests)
        return [it and it.having(contacts=tuple(numbers[number - 1] for number in it.contacts)) for it in found]


def _as_listed(route, told):
    """A listed route with the hops that were told of its contacts."""
    if isinstance(told, Fault) or told.told != route.told:
        found = told.text if isinstance(told, Fault) else told.text()
        raise Refused(f"route {route.rank} isn't one of this request: cgrlist follow says {found}")
    return route.having(hops=told.hops)
