"""Lists routes with the nodes that they pass, as a table, CSV or JSON.

    tools/report --plan F --from N --to N --at T --count K [OPTION ..]
    tools/report --plan F --from N --to N --at T --by T [OPTION ..]
    tools/report --plan F --from N --to N --at T --count K --lost [OPTION ..]
    tools/report --plan F --requests G --count K [OPTION ..]
    tools/report --plan F --choices G [--from N --to N --at T] [OPTION ..]
    tools/report --plan F --report G [OPTION ..]

Routes are printed as they are found. The answer ends with `more`, or with
`end` if there are no further routes. After Ctrl-C, standard error shows a
command that goes on.

For --distinct, each route is found in the plan without the contacts, or
nodes, of the routes already shown. Its rank in the list of all routes is
therefore unknown. With --via, --fits or --report, that list is searched, and
routes have ranks.

Room is an estimate, not a promise. At a hop it is the rate times the seconds
from sending to the end of the contact, and for a route the smallest of its
hops. A rate of 0 is unknown and limits nothing. Room ignores other traffic,
and the delay when a slow hop is still sending to the next one.

A choice is `4,11,2`, or `31>22@2030-01-01T01:00:00Z,..` by nodes and starts,
or `-` if the router found no route. Then comes its request, if the options
give none, as in a file of requests. A choice may also be JSON: [4, 11, 2], or
{"contacts": [4, 11, 2], "from": 31, "to": 1, "at": 1893458700}; and a time
seconds since 1970. The answer shows the rank and the delivery of each choice,
and how many seconds after the best route that is; or its fault. The fault of
`-` is HasRoute if there is a route. Ranks are searched among the first N
routes of --look: if not given, 100000 for one request, and 100 for several.

In JSON, nodes and rooms are texts if some may be above 2^53 - 1, which many
readers of JSON would round.

Hints on standard error point out what may be mistyped. They change neither
the answer nor the status.

Examples:

    $ tools/report --plan examples/relay.txt --from 31 --to 1 --at 2030-01-01T00:45:00Z --count 2
    rank  delivery             hops  until                contacts  nodes
       1  2030/01/01-02:47:22     3  2030/01/01-02:20:00  4 11 2    31 > 22 > 12 > 1
       2  2030/01/01-06:27:22     3  2030/01/01-03:19:00  5 12 2    31 > 21 > 12 > 1
    more

    $ tools/report --plan examples/relay.txt --from 31 --to 1 --at 2030-01-01T00:45:00Z --count 1 --lost
    lost  link     delivery             later  contacts  nodes
       4  31 > 22  2030/01/01-06:27:22  13200  5 12 2    31 > 21 > 12 > 1
      11  22 > 12  2030/01/01-06:27:22  13200  5 12 2    31 > 21 > 12 > 1
       2  12 > 1   2030/01/01-15:17:21  44999  5 13 1    31 > 21 > 11 > 1

    $ echo '5,12,2 31 1 2030-01-01T00:45:00Z' | tools/report --plan examples/relay.txt --choices -
    line  from  to  at                   rank  delivery             later  contacts  fault
       1  31    1   2030/01/01-00:45:00     2  2030/01/01-06:27:22  13200  5 12 2

Exit status:
  0      the answer was printed
  1      with --exit-code, a choice is wrong
  2      the options are invalid
  3      the plan is refused
  4      the choices, requests, report or names can't be used, or the report
         isn't one of this plan
  5      a file can't be read, or the answer can't be written
  6      no memory
  125    there is no program
  128+N  signal N ended the program
"""

import functools
import os
import shlex
import shutil
import tempfile

from ..choosing import JUDGING, add_judging_words, choices_text
from ..errors import INPUT_STATUS, WORDS_STATUS, Refused
from ..forms import Form
from ..limits import ROUTES
from ..listing import add_choice_words, added, check_choice_words, is_counted, listing_of, pages_of, tell_looked
from ..lost import losses
from ..requests import parts_of, requests_in
from ..routes import REPORT_LINES, whole_report_of
from ..tables import NUMBER, NUMBERS, PATH, TIME, Table, about
from ..tool import Progress, Tool, in_order, lines_of, run_tool, say, tell
from ..words import Asked, Words, add_form_words, add_other_words, add_plan_words, add_request_words, request_words


# ---- Answers ----------------------------------------------------------------------------------------------------


def adding(asked):
    """A function that adds to answers what is printed of their routes."""
    words = asked.words
    return functools.partial(added, asked, with_hops=words.hops or words.room, with_send_by=words.send_by)


def only_answer(asked):
    """The answer to the request of the words, or to their report: no request, and a listing."""
    words = asked.words
    request = asked.request() if words.at is not None else None
    pages = [whole_report_of(lines_of(words.report, REPORT_LINES), request)] if words.report else pages_of(asked, request)
    Tool.when_ended = functools.partial(tell_how_to_go_on, words, pages)
    listing = listing_of(asked, pages, *([adding(asked)] * bool(request)))
    yield None, listing
    asked.tell_hints([request] if request else [])
    tell_looked([listing], words)


def tell_how_to_go_on(words, pages):
    """Tells how the list of all routes goes on after the last page, and keeps the text of its session."""
    session = getattr(pages, "session", None)
    if session and not words.without and os.path.isfile(words.plan):
        kept, path = tempfile.mkstemp(prefix="cgrlist-", suffix=".session")
        os.close(kept)
        shutil.copyfile(session, path)
        command = f"cgrlist next --plan {shlex.quote(words.plan)} --session {path} --count {ROUTES}"
        tell(f"this command goes on after the routes that were looked at: {command}")


def answers_of(asked):
    """The answers to the requests of a file, each a request and a listing, in their order and as they come."""
    lines = requests_in(asked)
    asked.router.check()  # so that a plan is refused once
    listings, progress = [], Progress()
    for answers in in_order(functools.partial(part_answered, asked), parts_of(lines, is_counted(asked.words))):
        for answer in answers:
            yield answer
            answer[1].forget()
            listings.append(answer[1])
        progress.tell(f"{len(listings)} of {len(lines)} requests are answered")
    progress.end()
    asked.tell_hints([line.request for line in lines])
    tell_looked(listings, asked.words)


def part_answered(asked, lines):
    """The answers to some requests of a file, by one run of the program if each has one page and none is refused."""
    requests, add = [line.request for line in lines], adding(asked)
    pages = asked.router.many(requests, asked.words.count) if is_counted(asked.words) else None
    if pages is None:
        return [(line.request, line_answered(asked, line, add)) for line in lines]
    return [(it.request, listing_of(asked, [it]).read()) for it in add(pages)]


def line_answered(asked, line, add):
    """The listing of a request of a file, which is read; if it is refused, its line is named."""
    try:
        return listing_of(asked, pages_of(asked, line.request), add).read()
    except Refused as refused:
        if refused.is_told:
            say(refused.message.rstrip("\n") + "\n")
        message = "it is refused" if refused.is_told else refused.message
        status = INPUT_STATUS if refused.status == WORDS_STATUS else refused.status
        raise Refused(f"requests line {line.place}: {message}", status, hints=refused.hints) from refused


# ---- Lost contacts, and a router's choices ----------------------------------------------------------------------

LOSS = {"lost": NUMBER, "link": PATH, "delivery": TIME, "later": NUMBER, "contacts": NUMBERS, "nodes": PATH}


def losses_table(asked):
    """A table of the contacts of the shown routes: the best route if each is lost."""
    request, plan = asked.request(), asked.plan_after_check
    routes = listing_of(asked, pages_of(asked, request)).routes()
    best = next((route for route in routes if route.rank == 1), None) or next(iter(asked.router.first(request, 1)), None)
    rows = [loss_row(it, plan, best) for it in losses(asked.router, plan, request, routes)]
    if not rows:
        tell("there is no route, so no contact can be lost")
    asked.tell_hints([request])
    return Table(LOSS, [rows], asked.spelling, "lost", lambda: about(asked.spelling, plan, request))


def loss_row(loss, plan, best):
    """The values of a lost contact."""
    told = [loss.contact, plan.contact(loss.contact).link]
    route = loss.route
    others = [route.delivery, route.delivery - best.delivery, route.contacts, route.nodes] if route else [None] * 4
    return dict(zip(LOSS, [*told, *others]))


# ---- The command line -------------------------------------------------------------------------------------------


def parser_of_words():
    """A parser of the command line."""
    parser = Words(__doc__)
    add_plan_words(parser)
    requests = "requests of a file, in place of --from, --to and --at: a line FROM TO AT for each, which may go on with a margin, a limit on hops and nodes to avoid; - is standard input"
    add_request_words(parser).add_argument("--requests", metavar="G", help=requests)
    report = "the routes of this report, or of its pages, in place of --count or --by; --hops, --room and --send-by then need its request; - is standard input"
    add_choice_words(parser).add_argument("--report", metavar="G", help=report)
    group = parser.add_argument_group("What is shown of them")
    group.add_argument("--hops", action="store_true", help="also each hop: its contact, nodes, sending and arrival; in CSV a line for each")
    group.add_argument("--room", action="store_true", help="also the most bytes that fit, by the rates of the contacts")
    group.add_argument("--send-by", action="store_true", help="also the last second at the source for exactly these contacts")
    lost = "in place of the routes, for each of their contacts: the best route without it, and how many seconds later that delivers"
    group.add_argument("--lost", action="store_true", help=lost)
    add_judging_words(parser)
    add_form_words(parser, csv="", json="; its `end` says whether the list ends there; with --requests a line for each request")
    add_other_words(parser)
    return parser


def read_words():
    """What the words of the command line ask for."""
    parser = parser_of_words()
    asked = Asked(parser)
    check_words(parser, asked.words)
    return asked


def check_words(parser, words):
    """Refuses words without those that they need, and words that take each other's place."""
    given, missing = request_words(words)
    if words.requests and (given or words.report):
        parser.error("--requests takes the place of --from, --to, --at and --report")
    judging = [f"--{name.replace('_', '-')}" for name in JUDGING if vars(words)[name]]
    if judging and not words.choices:
        parser.error(f"these words need --choices: {', '.join(judging)}")
    if words.choices or words.lost:
        check_table_words(parser, words, missing)
        return
    if words.report and (words.count or words.by):
        parser.error("--report takes the place of --count and --by")
    limits = words.margin_ppm or words.max_hops or words.avoid
    needs_hops = words.hops or words.room or words.fits or words.send_by
    if words.report and missing and (given or limits or needs_hops):
        parser.error(f"these words of the report's request are missing: {', '.join(missing)}")
    if not words.report:
        missing = [] if words.requests else missing
        missing += [] if words.count or words.by is not None else ["--count or --by"]
        if missing:
            parser.error(f"these words are missing: {', '.join(missing)}")
    check_choice_words(parser, words)


def check_table_words(parser, words, missing):
    """Refuses words that don't go with --lost or --choices."""
    if words.requests or words.report or words.hops or words.room or words.send_by or (words.lost and words.choices):
        parser.error("--lost and --choices don't go with each other, nor with --requests, --report, --hops, --room or --send-by")
    if words.choices:
        missing = [] if len(missing) == 3 else missing
    elif not words.count and words.by is None:
        missing = [*missing, "--count or --by"]
    if missing:
        parser.error(f"these words are missing: {', '.join(missing)}")
    if words.choices and (words.count or words.by is not None or words.via or words.fits or words.distinct):
        parser.error("--choices takes the place of --count, --by, --via, --fits and --distinct")
    if not words.choices:
        check_choice_words(parser, words)


def tool():
    """The answers' text, in the form that is asked for, in pieces."""
    asked = read_words()
    words = asked.words
    if words.choices:
        return choices_text(asked)
    if words.lost:
        return losses_table(asked).pieces(words.form)
    answers = only_answer(asked) if words.requests is None else answers_of(asked)
    return Form(asked, words.hops, words.room, words.send_by).pieces(words.form, answers)


def main():
    """Runs the command."""
    run_tool(tool)
