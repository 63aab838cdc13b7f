"""Lists the best route for each second at the source.

    tools/timetable --plan F --from N --to N --between T T [OPTION ..]

A line covers all seconds between `from` and `to`, both included, over which
one route is best. A bundle that is at the source at the first of them is
delivered at `delivery`, and at the last of them at `last delivery`: either the
same time, or later by as many seconds as the bundle starts later. Without a
route, a line has no delivery.

Lines are printed as they are found. They hold at every second, though the
program isn't asked at each: it is proved that a bundle that starts later never
arrives earlier (EveryWayIsListed in docs/proved.md of the sources).

Hints on standard error point out what may be mistyped. They change neither
the answer nor the status.

Examples:

    $ tools/timetable --plan examples/a.txt --from 1 --to 3 --between 2030-01-01 2030-01-01T00:02:00Z
    from                 to                   delivery             last delivery        contacts  nodes
    2030/01/01-00:00:00  2030/01/01-00:00:09  2030/01/01-00:00:15  2030/01/01-00:00:24  1 4       1 > 2 > 3
    2030/01/01-00:00:10  2030/01/01-00:00:49  2030/01/01-00:00:25  2030/01/01-00:01:04  1 2       1 > 2 > 3
    2030/01/01-00:00:50  2030/01/01-00:01:39  2030/01/01-00:01:05  2030/01/01-00:01:54  1 4       1 > 2 > 3
    2030/01/01-00:01:40  2030/01/01-00:02:00

Exit status:
  0      the answer was printed
  2      the options are invalid
  3      the plan is refused
  4      the names can't be used
  5      a file can't be read, or the answer can't be written
  6      no memory
  125    there is no program
  128+N  signal N ended the program
"""

from dataclasses import replace

from ..errors import WORDS_STATUS, Refused
from ..tables import NUMBERS, PATH, TIME, Table, about
from ..times import time_text
from ..timetable import stretches
from ..tool import Progress, run_tool
from ..words import Asked, Words, add_form_words, add_other_words, add_plan_words, add_request_words, time_word

STRETCH = {"from": TIME, "to": TIME, "delivery": TIME, "last_delivery": TIME, "contacts": NUMBERS, "nodes": PATH}


def parser_of_words():
    """A parser of the command line."""
    parser = Words(__doc__)
    add_plan_words(parser)
    span = {"nargs": 2, "type": time_word, "metavar": ("T", "T"), "required": True}
    group = add_request_words(parser, required=("from", "to"), without=("at",))
    group.add_argument("--between", **span, help="the first second at the source, and the last")
    _, form = add_form_words(parser, csv="", json="")
    form.add_argument("--svg", action="store_true", help="a plot of the delivery by the second at the source")
    add_other_words(parser)
    return parser


def read_words():
    """What the words of the command line ask for."""
    asked = Asked(parser_of_words())
    if asked.words.between[0] > asked.words.between[1]:
        raise Refused("--between: the first time is after the second; see --help", WORDS_STATUS)
    return asked


def found_stretches(asked):
    """The stretches, with the nodes of their routes, as they come."""
    first, last = asked.words.between
    progress = Progress()
    for it in stretches(asked.router, asked.request(first), last):
        yield it.route and replace(it, route=asked.plan.with_nodes(it.route)) or it
        progress.tell(f"told up to {time_text(it.last)}")
    progress.end()
    asked.tell_hints([asked.request(first)])


def row_of(it):
    """The values of a stretch's line."""
    others = [it.delivery, it.last_delivery, it.route.contacts, it.route.nodes] if it.route else [None] * 4
    return dict(zip(STRETCH, [it.first, it.last, *others]))


def tool():
    """The stretches, in the form that is asked for."""
    asked = read_words()
    words, found = asked.words, found_stretches(asked)
    if words.svg:
        from ..drawing.plot import plot_svg

        title = f"{asked.names.of(vars(words)['from'])} to {asked.names.of(words.to)}"
        return "".join(plot_svg([*found], title, asked.time_text, asked.plan.path_text))
    request = asked.request(words.between[0])
    told = lambda: about(asked.spelling, asked.plan, request)
    return Table(STRETCH, ([row_of(it)] for it in found), asked.spelling, "stretches", told).pieces(words.form)


def main():
    """Runs the command."""
    run_tool(tool)
