"""Finds the last second at the source from which a bundle is delivered in time.

    tools/latest --plan F --from N --to N --by T [OPTION ..]

The answer is that second, and the best route from then on, as `cgrlist first`
prints it. The `until` of a route is another time: the earliest end of its
contacts, which is often later.

It asks for the best route at hundreds of seconds, four or five times, each
time between the last second in time and the first one that is too late. This
misses none: it is proved that a bundle that starts later never arrives
earlier (EveryWayIsListed in docs/proved.md of the sources).

Hints on standard error point out what may be mistyped. They change neither
the answer nor the status.

Examples:

    $ tools/latest --plan examples/relay.txt --from 31 --to 1 --by 2030-01-01T06:30:00Z
    latest 2030/01/01-05:11:59
    1 delivery 2030/01/01-06:27:22 hops 3 entry 21 until 2030/01/01-05:12:00 contacts 6 12 2

Exit status:
  0      the answer was printed
  1      no second is in time; one line has the best delivery
  2      the options are invalid
  3      the plan is refused
  4      the names can't be used
  5      a file can't be read, or the answer can't be written
  6      no memory
  125    there is no program
  128+N  signal N ended the program
"""

import json
import sys

from ..errors import NO_STATUS, Refused
from ..forms import ROUTE, route_row
from ..tables import JSON, about, json_of
from ..times import iso_text
from ..timetable import Start, latest_start
from ..tool import run_tool
from ..words import Asked, Words, add_form_words, add_other_words, add_plan_words, add_request_words, time_word


def none_text(start, time_text):
    """Says that no start is in time, and what the earliest one brings."""
    if start.route is None:
        return "none: there is no route\n"
    return f"none: the best delivery is {time_text(start.route.delivery)}\n"


def start_text(start, time_text):
    """Prints a start, and its route as a report does."""
    return f"latest {time_text(start.second)}\n{start.route.rank} {start.route.text(time_text)}\n"


def nodes_text(route, plan, names):
    """The nodes of a route by their names."""
    return " > ".join(map(names.of, plan.nodes_of(route.contacts))) + "\n"


def parser_of_words():
    """A parser of the command line."""
    parser, time = Words(__doc__), {"type": time_word, "metavar": "T"}
    add_plan_words(parser)
    group = add_request_words(parser, required=("from", "to"), without=("at",))
    group.add_argument("--by", required=True, **time, help="the deadline; a delivery at T is in time")
    group.add_argument("--after", default=0, **time, help="only seconds from T on; 1970 if not given")
    add_form_words(parser, json=", with the nodes of the route and the request")
    add_other_words(parser)
    return parser


def answer_json(asked, request, start, is_found):
    """The answer as JSON. Without a second that is in time, the route is the best one from the first second on."""
    how, route = asked.spelling, start.route and asked.plan.with_nodes(start.route)
    columns = {field: kind for field, kind in ROUTE.items() if field not in ("room", "send_by")}
    row = route and json_of(columns, route_row(route), how)
    told = {"latest": iso_text(start.second) if is_found else None, "by": iso_text(asked.words.by), "route": row}
    return json.dumps({**told, **about(how, asked.plan, request)}) + "\n"


def answer(asked):
    """The text of the answer, and whether there is a start that is in time."""
    request = asked.request(asked.words.after)
    (best,) = asked.router.best([request])
    asked.tell_hints([request])
    found = latest_start(asked.router, request, asked.words.by)
    latest, is_found = found or Start(request.at, best), found is not None
    if asked.words.form == JSON:
        return answer_json(asked, request, latest, is_found), is_found
    if not is_found:
        return none_text(latest, asked.time_text), False
    text = start_text(latest, asked.time_text)
    if asked.words.names:
        text += nodes_text(latest.route, asked.plan, asked.names)
    return text, True


def tool():
    """What is printed."""
    text, is_found = answer(Asked(parser_of_words()))
    if not is_found:
        sys.stdout.write(text)
        sys.stdout.flush()
        raise Refused(None, NO_STATUS)
    return text


def main():
    """Runs the command."""
    run_tool(tool)
