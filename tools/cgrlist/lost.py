"""What if a contact of a route is lost, or a node."""

import functools
from dataclasses import dataclass, field, replace
from typing import Dict, Optional

from .routes import Answer, Route
from .tool import Progress, in_order, waiting


@dataclass(frozen=True)
class Loss:
    """A contact that is lost, and the best route then; None if there is none. Its rank is that in the list of all routes, None
    if that isn't known.
    """

    contact: int
    route: Optional[Route]


@dataclass(frozen=True)
class Lost:
    """The best route of a request, or None, under the number of each contact that is lost, and under each node."""

    contacts: Dict[int, Optional[Route]] = field(default_factory=dict)
    nodes: Dict[int, Optional[Route]] = field(default_factory=dict)

    def routes(self):
        """All these routes."""
        return [route for route in (*self.contacts.values(), *self.nodes.values()) if route]


def losses(program, plan, request, routes):
    """For each contact of some routes, in their order, what is best if it alone is lost."""
    # Of routes that begin the list of all, the first without a contact is the best one: without the contact, a plan lists
    # the routes that don't have it, in the same order (sabr_laws::lost_contacts_take_their_routes).
    begins = [route.rank for route in routes] == [*range(1, len(routes) + 1)]
    numbers = dict.fromkeys(number for route in routes for number in route.contacts)
    progress, found = Progress(), []
    for it in in_order(functools.partial(_loss, program, plan, request, routes if begins else ()), numbers):
        found.append(it)
        progress.tell(f"{len(found)} of {len(numbers)} contacts are lost")
    progress.end()
    return found


def _loss(program, plan, request, listed, number):
    route = next((it for it in listed if number not in it.contacts), None)
    if route is None:
        (route,) = program.without({number}).best([request])
        route = route and route.having(rank=None)
    return Loss(number, route and plan.with_nodes(route))


def best_without(program, plan, request, routes):
    """What is best without each contact of some routes, and without each node between their ends, with hops."""
    contacts = {it.contact: it.route for it in losses(program, plan, request, routes)}
    nodes = sorted({hop.receiver for route in routes for hop in route.hops[:-1]})
    without = [replace(request, avoid=tuple(sorted({*request.avoid, node}))) for node in nodes]
    with waiting("routes without nodes are looked for"):
        answers = (program.many(without, 1) if nodes else None) or ()  # more nodes may be avoided than the program takes
        of_nodes = {node: next(iter(answer), None) for node, answer in zip(nodes, answers)}
        found = Lost(contacts, of_nodes)
        (answer,) = program.with_hops([Answer(tuple(found.routes()), None, request)])
    with_hops = iter(answer.routes)
    return Lost(*({of: route and next(with_hops) for of, route in it.items()} for it in (contacts, of_nodes)))
