"""What a page knows when it is opened: the program's answers to its first questions, as the texts that it prints."""

from dataclasses import dataclass, replace
from typing import List, Optional

from ..lost import Lost, best_without
from ..routes import Answer, Route
from ..times import time_text
from ..timetable import Stretch, known_stretches
from ..tool import waiting

STARTS = 1024  # seconds at the source that are asked for, at most


@dataclass(frozen=True)
class Starts:
    """The best routes by the second at the source, as stretches of time, and each of them once with the hops that it has from
    the first second of its first stretch on.
    """

    stretches: List[Stretch]
    routes: List[Route]


@dataclass(frozen=True)
class Told:
    """The routes that are shown, with their hops, and with their request if there is one; then also the best routes without
    parts of them, and by the second at the source.
    """

    answer: Answer
    lost: Lost = Lost()
    starts: Optional[Starts] = None

    @property
    def is_listed(self):
        """Whether the routes begin the list of their request."""
        ranks = [route.rank for route in self.answer.routes]
        return self.answer.request is not None and ranks == [*range(1, len(ranks) + 1)]


def told_of(router, plan, answer):
    """What a page tells of the routes of a request, as the program or the library answers over the plan."""
    request, routes = answer.request, answer.routes
    return Told(answer, best_without(router, plan, request, routes), _starts(router, plan, request) if routes else None)


def _starts(router, plan, request):
    """The best routes of bundles that are at the source at any second, from the plan's first start, or the request's second,
    to its last end.
    """
    span = min(request.at, *(it.start for it in plan.contacts)), max(it.end for it in plan.contacts)
    with waiting("the best routes by the second at the source are looked for"):
        stretches = known_stretches(router, request, span, STARTS)
        firsts = {it.route.contacts: it for it in reversed(stretches) if it.route}
        asked = [Answer((it.route,), None, replace(request, at=it.first)) for it in firsts.values()]
        return Starts(stretches, [route for answer in router.with_hops(asked) for route in answer.routes])


# ---- Texts ------------------------------------------------------------------------------------------------------


def report_text(routes, is_whole=None):
    """The report of routes, without its last line if it isn't known whether further routes follow."""
    lines = [f"{place if route.rank is None else route.rank} {route.text()}\n" for place, route in enumerate(routes, 1)]
    return "".join([*lines, {True: "end\n", False: "more\n", None: ""}[is_whole]])


def explanations(routes):
    """The explanations of routes, one after the other, each below a line with its contacts."""
    return "".join(f"{line}\n" for route in routes for line in [*_lines_above(route), route.text()])


def _lines_above(route):
    yield f"list {','.join(map(str, route.contacts))}"
    for place, it in enumerate(route.hops, 1):
        ends = f"from {it.sender} to {it.receiver} send {time_text(it.send)} arrive {time_text(it.arrive)}"
        yield f"hop {place} contact {it.contact} {ends}"


def texts_of(request, count=""):
    """A request as the page asks it; what isn't given is empty."""
    margin, hops = ("" if it is None else str(it) for it in (request.margin_ppm, request.max_hops))
    limits = {"marginPpm": margin, "maxHops": hops, "avoid": request.avoided_text, "count": str(count)}
    return {"from": str(request.source), "to": str(request.destination), "at": time_text(request.at), **limits}


# ---- Questions with their answers -------------------------------------------------------------------------------


def _seed(run, texts, report, lost=((), ())):
    """A question of the page's cache, over the plan without some contacts and nodes, and its answer."""
    contacts, nodes = lost
    answer = {"status": 0, "report": report, "session": "", "message": ""}
    return {"run": run, "lost": {"contacts": sorted(contacts), "nodes": [*map(str, nodes)]}, "texts": texts, "answer": answer}


def seeds_of(told, plan, missing):
    """The questions that a page asks over a plan without some contacts, with their answers."""
    yield _seed("canonical", {}, plan.canonical)
    yield _seed("check", {}, _check_text(plan))
    request, routes = told.answer.request, told.answer.routes
    if request is None:
        return
    if told.is_listed or not routes:
        yield _seed("first", texts_of(request, len(routes) or 1), report_text(routes, told.answer.is_whole), (missing, ()))
        yield _followed(routes, request, missing)
    yield from _seeds_of_losses(told, missing)
    if told.starts:
        seed = _seed("timetable", texts_of(request), explanations(told.starts.routes), (missing, ()))
        yield {**seed, "answer": {**seed["answer"], "rows": _rows(told.starts)}}


def _check_text(plan):
    """What the program prints of a plan."""
    contacts, nodes = plan.contacts, {node for it in plan.contacts for node in it.link}
    dark = sum(it.light is None for it in contacts)
    counts = {"contacts": len(contacts), "ranges": plan.range_count, "nodes": len(nodes), "without light": dark}
    return "".join(f"{name} {value}\n" for name, value in {**counts, "digest": plan.digest}.items())


def _followed(routes, request, missing):
    """The explanations of routes."""
    lists = "".join(f"{','.join(map(str, it.contacts))} {request.line()}\n" for it in routes)
    return _seed("follow", {"lists": lists}, explanations(routes), (missing, ()))


def _seeds_of_losses(told, missing):
    """What is best without each contact and node, where the page doesn't see that from the routes that it lists."""
    request = told.answer.request
    seen = {it.contacts for it in told.answer.routes} if told.is_listed else ()
    losses = {((*missing, contact), ()): route for contact, route in told.lost.contacts.items()}
    losses.update({(tuple(missing), (node,)): route for node, route in told.lost.nodes.items()})
    for lost, route in losses.items():
        if route is None or route.contacts not in seen:
            report = report_text([route.having(rank=1)]) if route else report_text([], True)
            yield _seed("first", texts_of(request, 1), report, lost)
        if route and route.contacts not in seen:
            yield _followed([route], request, missing)


def _rows(starts):
    """The stretches, each with the place of its route among those that are told once, and its first and last delivery."""
    places = {route.contacts: place for place, route in enumerate(starts.routes)}
    told = lambda it: [places[it.route.contacts], it.delivery, it.last_delivery] if it.route else []
    return [[it.first, it.last, *told(it)] for it in starts.stretches]
