"""Draws a plan in time, with the routes of a request.

    tools/timeline --plan F [OPTION ..] >picture.svg
    tools/timeline --plan F --from N --to N --at T --count K [OPTION ..]
    tools/timeline --plan F --explained G [OPTION ..]
    tools/timeline --plan F [--from N --to N --at T --count K] --html H
    tools/timeline --plan F --list [--csv | --json]

A row is a link, with its contacts as bars, and the routes below the bars that
they use. With routes, only the links of the routes are shown, those of the
first route on top, in order, so that the route descends like stairs. Contacts
that are lost are crossed out. A picture has at most 20000 pixels of height,
and a page at most 1000 routes, unless --all is given.

The page is the program: one file that any browser opens, without a network,
and that answers any request over any plan. It begins with the plan and the
question of the command line, and their answers. A browser that can't run the
program shows these. A click on a contact shows the best route without it. You
can mark more contacts, or nodes, as lost. The timetable below the picture asks
for at most 1024 start times. Between two of them with the same route and
delivery, the answer is the same. `?` lists the keys, and the address keeps
what is chosen.

Examples:

    $ tools/timeline --plan examples/relay.txt --from 31 --to 1 --at 2030-01-01T00:45:00Z --count 1 --text --columns 72
                       2030/01/01
    UTC                01:00       01:30       02:00       02:30
    31 > 22            4===============================
      route 1    ......#
    22 > 12                                                11========
      route 1          ....................................########
    12 > 1     2=====================================================
      route 1                                                     #
    = contact, with its number   # sending to arrival   . wait
    route 1: delivery 2030/01/01-02:47:22, contacts 4 11 2

    $ tools/timeline --plan examples/a.txt --list
    contact  from  to  start                end                  rate  light
          1     1   2  2030/01/01-00:00:00  2030/01/01-00:01:40  1000     10
          2     2   3  2030/01/01-00:00:20  2030/01/01-00:01:00  1000      5
          3     1   3  2030/01/01-00:00:50  2030/01/01-00:01:30  1000     40
          4     2   3  2030/01/01-00:00:00  2030/01/01-00:03:20  1000      5

Exit status:
  0      the answer was written
  2      the options are invalid, or the picture is too high
  3      the plan is refused
  4      the names or the routes can't be used, or the routes aren't of this
         plan
  5      a file can't be read, or the answer can't be written
  6      no memory
  125    there is no program
  128+N  signal N ended the program
"""

import os
from dataclasses import replace

from ..drawing.axis import Span
from ..drawing.page import MOST_ROUTES, Page
from ..drawing.picture import LINE, MOST, Picture
from ..drawing.scene import Choice, View
from ..drawing.text import Text
from ..drawing.told import Told, told_of
from ..errors import FILE_STATUS, WORDS_STATUS, Refused
from ..listing import add_choice_words, added, check_choice_words, listing_of, pages_of, tell_looked
from ..reading import plan_bytes
from ..routes import REPORT_LINES, Answer, explained_routes, report_of
from ..tables import JSON, NODE, NUMBER, PATH, TEXT, TIME, Table, about
from ..tool import lines_of, run_tool
from ..words import REQUEST, Asked, Words, add_form_words, add_other_words, add_plan_words, add_request_words, time_word

NOT_CHECKED = "cgrlist did not check this plan: there is no program"
OTHERS = ("margin-ppm", "max-hops", "avoid", "via", "fits", "distinct", "look")  # words that go with a request


# ---- The command line -------------------------------------------------------------------------------------------


def parser_of_words():
    """A parser of the command line."""
    parser = Words(__doc__)
    add_plan_words(parser)
    add_request_words(parser)
    group = add_choice_words(parser)
    group.add_argument("--report", metavar="G", help="the routes of this report of the request, in place of --count or --by")
    group.add_argument("--explained", metavar="G", help="the routes of these explanations, in place of a request")
    add_view_words(parser)
    add_shape_words(parser)
    add_other_words(parser)
    return parser


def add_view_words(parser):
    """Adds the group of options that say what is shown."""
    group = parser.add_argument_group("Which part of the plan")
    span = {"nargs": 2, "type": time_word, "metavar": ("T", "T")}
    group.add_argument("--between", **span, help="a span of time; if not given, that of the routes, or else of the plan")
    used = group.add_mutually_exclusive_group()
    used.add_argument("--used", action="store_true", default=None, help="only the links that the routes use; if not given, all with --links, --nodes or --list")
    unused = {"action": "store_false", "dest": "used", "default": None}
    used.add_argument("--unused", **unused, help="also the links that no route uses")
    group.add_argument("--links", metavar="LIST", help="only these links: 'A>B', joined by commas")
    group.add_argument("--nodes", metavar="LIST", help="only the links from and to these nodes, joined by commas")
    group.add_argument("--order", choices=("link", "route"), help="links by their nodes, or as the routes go; if not given, as the routes go")


def add_shape_words(parser):
    """Adds the group of options that say how it is shown: as a picture, or otherwise."""
    group, _ = add_form_words(parser, csv="; for --list", json="; for --list")
    shape = group.add_mutually_exclusive_group()
    shape.add_argument("--text", action="store_true", help="draw with characters")
    shape.add_argument("--list", action="store_true", help="list the contacts, each with its number")
    shape.add_argument("--html", metavar="H", help="write an interactive page into the file H; - is standard output")
    group.add_argument("--columns", type=int, default=100, metavar="N", help="the width of --text; 100 if not given")
    group.add_argument("--width", type=int, metavar="PX", help="the width of a picture, in pixels")
    group.add_argument("--all", action="store_true", help=f"also a picture higher than {MOST}, and a page with more than {MOST_ROUTES} routes")


def check_words(parser, words):
    """Refuses words without those that they need."""
    given = [f"--{name}" for name in (*REQUEST, *OTHERS) if getattr(words, name.replace("-", "_")) not in (None, [])]
    asks = asks_for_routes(words)
    if given and words.explained is not None:
        parser.error(f"--explained takes the place of a request: {', '.join(given)}")
    needed = [f"--{name}" for name in REQUEST] + ["--count or --by"] * (not asks)
    missing = [name for name in needed if name not in given]
    if missing and (given or asks):
        parser.error(f"these words are missing: {', '.join(missing)}")
    if words.form != TEXT and not words.list:
        parser.error(f"--{words.form} needs --list")
    if (words.used or words.order == "route") and not has_routes(words):
        parser.error("--used and --order route need routes: --count, --by, --report or --explained")
    check_choice_words(parser, words)


def asks_for_routes(words):
    """Whether the routes of a request are asked for."""
    return any(it is not None for it in (words.count, words.by, words.report))


def has_routes(words):
    """Whether routes are to be shown."""
    return asks_for_routes(words) or words.explained is not None


def view_of(asked, parser):
    """How the words ask for a plan to be shown."""
    words = asked.words
    is_by_name = words.links is not None or words.nodes is not None
    used = False if words.used is None and (is_by_name or words.list) else words.used
    by_route = has_routes(words) and words.order != "link"
    choice = Choice(used, links_of(asked), nodes_of(asked, "nodes", words.nodes), by_route)
    span = Span(*words.between) if words.between else None
    if span and span.first >= span.last:
        parser.error("--between: the first time isn't before the second")
    remarks = () if asks_for_routes(words) or asked.is_plan_checked() else (NOT_CHECKED,)
    return View(os.path.basename(words.plan), choice, span, asked.names, asked.time_text, remarks)


def nodes_of(asked, word, text, sign=","):
    """The nodes in a word's value, in which a sign joins them; None if it isn't given."""
    return text if text is None else tuple(asked.node(word, node) for node in text.split(sign))


def links_of(asked):
    """The links that the words choose, as pairs of nodes; None if they don't."""
    if asked.words.links is None:
        return None
    links = [nodes_of(asked, "links", text, ">") for text in asked.words.links.split(",")]
    if any(len(link) != 2 for link in links):
        raise Refused(f"argument --links: not nodes as 'A>B': {asked.words.links}; see --help", WORDS_STATUS)
    return frozenset(links)


# ---- The answer -------------------------------------------------------------------------------------------------


def answer_of(asked):
    """The routes that are asked for, with their hops; None if none are."""
    words = asked.words
    if words.explained is not None:
        return Answer(tuple(explained_routes(lines_of(words.explained, REPORT_LINES))), None)
    if not asks_for_routes(words):
        return None
    request = asked.request()
    pages = pages_of(asked, request) if words.report is None else [given_report(words.report, request)]
    listing = listing_of(asked, pages, lambda answers: added(asked, answers))
    routes = tuple(listing.routes())
    asked.tell_hints([request])
    tell_looked([listing], words)
    check_count(words, len(routes))
    (answer,) = asked.router.with_hops([Answer(routes, listing.is_whole, request)])
    return answer


def ranked(routes):
    """Routes with ranks: those in the list of all, or if these aren't known, their places here."""
    return [route.having(rank=route.rank or place) for place, route in enumerate(routes, 1)]


def given_report(path, request):
    """The routes of a report's file, as of a report that may go on."""
    return replace(report_of(lines_of(path, REPORT_LINES), request), is_whole=False)


def check_count(words, count):
    """Refuses more routes than have room, before they are explained."""
    what, most = ("a page", MOST_ROUTES) if words.html is not None else (f"a picture of {MOST} px", MOST // LINE)
    if count > most and not (words.all or words.text or words.list):
        smaller = "a smaller --count, --via and --distinct choose fewer; --all draws them"
        raise Refused(f"there are {count} routes, and {what} has room for {most}: {smaller}", WORDS_STATUS)


def check_routes(plan, routes):
    """Refuses routes that are not of a plan."""
    known = {it.number: it.link for it in plan.contacts}
    for hop in (hop for route in routes for hop in route.hops):
        if known.get(hop.contact) != hop.link:
            told = f"it has no contact {hop.contact} from {hop.sender} to {hop.receiver}"
            raise Refused(f"the routes are not of this plan: {told}")


def picture_text(scene, words):
    """The scene as an SVG, if it isn't too high."""
    picture = Picture(scene, words.width)
    if picture.height > MOST and not words.all:
        smaller = "--links, --nodes and --between choose links, a smaller --count routes; --all draws it so"
        raise Refused(f"the picture would be {picture.height} px high, more than {MOST}: {smaller}", WORDS_STATUS)
    return picture.svg()


CONTACT = {"contact": NUMBER, "from": NUMBER, "to": NUMBER, "start": TIME, "end": TIME, "rate": NUMBER, "light": NUMBER}


def list_table(asked, scene):
    """A table of each contact that the rows show, by its number, with its nodes by their names if there are some."""
    how, is_json = asked.spelling, asked.words.form == JSON
    nodes = {"nodes": PATH} if asked.words.names and not is_json else {}
    columns = {**CONTACT, **({"from": NODE, "to": NODE} if is_json else {}), **nodes}
    shown = sorted((it for row in scene.rows for windows in row.strips for it in windows), key=lambda it: it.number)
    rows = [{**contact_row(it), "nodes": it.link} for it in shown]
    dark = "-" if asked.words.form == TEXT else None
    rows = [{**row, "light": dark} if row["light"] is None else row for row in rows]
    return Table(columns, [rows], how, "contacts", lambda: about(how, asked.plan))


def contact_row(it):
    """The values of a contact."""
    return dict(zip(CONTACT, [it.number, *it.link, it.start, it.end, it.rate, it.light]))


def write_page(asked, view, answer):
    """Writes the page into its file."""
    words = asked.words
    for word in ("plan", "names", "report", "explained"):
        check_apart(word, getattr(words, word), words.html)
    if answer is None or answer.request is None:
        told = Told(answer or Answer((), None))
    else:
        told = told_of(asked.router, asked.plan, replace(answer, routes=tuple(ranked(answer.routes))))
    text = Page(view, asked.whole_plan, plan_bytes(asked.plan_file), told, asked.lost).html()
    if words.html == "-":
        return text
    write_whole(words.html, text)
    return ""


def check_apart(word, path, page):
    """Refuses a page's file that is read, too."""
    path = "/dev/stdin" if path == "-" else path
    if path is not None and page != "-" and os.path.isfile(page) and os.path.exists(path) and os.path.samefile(path, page):
        raise Refused(f"--html: {page} is the file of --{word}; it would be lost", WORDS_STATUS)


def write_whole(path, text):
    """Writes a file. If that fails, what stood there stays: a file beside it is written, which then takes its name."""
    is_special = os.path.exists(path) and not os.path.isfile(path)  # a pipe or a device, written as it stands
    path = path if is_special else os.path.realpath(path)
    beside = path if is_special else f"{path}.{os.getpid()}"
    try:
        with open(beside, "w", encoding="utf-8", newline="\n") as file:
            file.write(text)
        if not is_special:
            os.replace(beside, path)
    except OSError as error:
        raise Refused(f"{path}: {error.strerror}", FILE_STATUS) from error
    finally:
        if beside != path and os.path.exists(beside):
            os.unlink(beside)


def timeline():
    """The text that the words ask for."""
    parser = parser_of_words()
    asked = Asked(parser)
    words = asked.words
    check_words(parser, words)
    view = view_of(asked, parser)
    answer = answer_of(asked)  # first, since the program says more of a plan that it refuses
    routes = None if answer is None else list(answer.routes)
    check_routes(asked.plan, routes or [])
    if words.html is not None:
        return write_page(asked, view, answer)
    second = words.at if asks_for_routes(words) else None
    scene = view.scene(asked.plan, routes and ranked(routes), () if words.list else asked.lost, words.list, second)
    if words.list:
        return list_table(asked, scene).pieces(words.form)
    return Text(scene, words.columns).text() if words.text else picture_text(scene, words)


def main():
    """Runs the command."""
    run_tool(timeline)
