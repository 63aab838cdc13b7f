"""Tries the package `tools/cgrlist` as a library: what its calls answer over the worked plans, what they refuse, how plans and
answers show themselves, and what becomes of the program if a signal ends what waits for it.
"""

import base64
import contextlib
import functools
import inspect
import itertools
import json
import lzma
import os
import pickle
import random
import re
import signal
import subprocess
import sys
import time
import typing
from concurrent.futures import ProcessPoolExecutor, ThreadPoolExecutor
from datetime import date, datetime, timedelta, timezone
from multiprocessing import get_context

from checking import SECONDS, TOP, Room, checks_of

sys.path.insert(0, f"{TOP}/tools")
import cgrlist
from cgrlist.choosing import Choice, judged
from cgrlist.inprocess import InProcess, library, loaded
from cgrlist.listing import asked_again
from cgrlist.program import Program
from cgrlist.reading import plan_bytes
from cgrlist.tool import Progress, Tool

AT = "2030-01-01T00:45:00Z"
BEGIN = 1893456000  # 2030-01-01T00:00:00Z
MORNING = BEGIN + 2700  # 00:45:00
SOUTH, NORTH, HIGH = (5, 12, 2), (5, 13, 1), (4, 11, 2)


class Package(Room):
    def __init__(self, program):
        super().__init__()
        os.environ["CGRLIST"] = self.program = program
        self.relay = cgrlist.Plan.from_file(f"{TOP}/examples/relay.txt", cgrlist.Names(["31 lander", "12 south"]))
        self.morning = self.relay.request(31, 1, AT)


def refused(act, *given, **further):
    """What is said of what is refused, with its status."""
    try:
        return act(*given, **further)
    except cgrlist.Refused as error:
        return f"{error} [{error.status}]"


def contacts_of(routes):
    return [it.contacts for it in routes]


def nodes_to_avoid(room):
    """A text is read as the command line does, and one number is one node."""
    plan = room.relay
    for title, wanted, avoid in (
        ("a text", (12,), "12"), ("a text with two", (12, 21), "21,12"), ("a name", (12,), "south"), ("a number", (12,), 12),
        ("numbers", (12, 21), [21, 12]), ("texts", (12, 21), ["21", "south"]), ("none", (), ""), ("an empty list", (), []),
    ):
        yield f"nodes to avoid: {title}", wanted, lambda avoid=avoid: plan.request(31, 1, AT, avoid=avoid).avoid
    yield "a request of numbers alone: a text", (12, 21), lambda: cgrlist.Request(31, 1, MORNING, avoid="12,21").avoid
    yield "a request of numbers alone: a number", (12,), lambda: cgrlist.Request(31, 1, MORNING, avoid=12).avoid
    yield "its words", "12,21", lambda: cgrlist.Request(31, 1, MORNING, avoid=(12, 21)).words()[-1]
    yield "a name that is none", "no node's number and no name: north [2]", lambda: refused(plan.request, 31, 1, AT, avoid="north")
    yield "without the southern station", [NORTH], lambda: contacts_of(plan.first(31, 1, AT, count=1, avoid="12"))


def times(room):
    """A time is whole seconds. Midnight in the zone five hours east of UTC is 19:00 on the day before."""
    east = timezone(timedelta(hours=5))
    for title, wanted, given in (
        ("a datetime in UTC", MORNING, datetime(2030, 1, 1, 0, 45, tzinfo=timezone.utc)),
        ("a datetime of a zone", BEGIN - 5 * 3600, datetime(2030, 1, 1, tzinfo=east)),
        ("a date", BEGIN, date(2030, 1, 1)), ("a number", MORNING, MORNING), ("a float without a fraction", MORNING, float(MORNING)),
        ("a text", MORNING, AT),
    ):
        yield f"a time: {title}", wanted, cgrlist.second_of, given
    for title, wanted, given in (
        ("a datetime without a zone", "a time without a zone: 2030-01-01 00:00:00; .replace(tzinfo=timezone.utc) gives it one [2]",
         datetime(2030, 1, 1)),
        ("a fraction", "a time is whole seconds: 0.5 [2]", 0.5),
        ("a text with a fraction", "a time is whole seconds: 2030-01-01T00:45:00.5Z [2]", "2030-01-01T00:45:00.5Z"),
        ("a datetime with a fraction", "a time is whole seconds: 2030-01-01 00:00:00.000001+00:00 [2]",
         datetime(2030, 1, 1, 0, 0, 0, 1, timezone.utc)),
        ("before 1970", "no time of the years 1970 to 9998: -1 [2]", -1),
        ("after 9998", "no time of the years 1970 to 9998: 253370764800 [2]", 253370764800),
        ("none", "no time: None [2]", None),
    ):
        yield f"no time: {title}", wanted, lambda given=given: refused(room.relay.request, 31, 1, given)
    route = room.relay.first(room.morning, count=1)[0]
    yield ("datetimes of a route", ["2030-01-01T02:47:22+00:00", "2030-01-01T02:20:00+00:00", "2030-01-01T01:00:00+00:00"],
           lambda: [it.isoformat() for it in (route.delivery_time, route.until_time, route.hops[0].send_time)])
    yield "in another zone", "2030-01-01T07:47:22+05:00", lambda: route.delivery_time.astimezone(east).isoformat()
    yield "and back", route.delivery, lambda: cgrlist.second_of(route.delivery_time.astimezone(east))


def forms_of_calls(room):
    """examples/README.md works these answers out. A call takes a request or its parts, and functions the same as methods."""
    plan, asked = room.relay, room.morning
    best = [HIGH, SOUTH]
    yield "the parts of a request", best, lambda: contacts_of(plan.first(31, 1, at=AT, count=2))
    yield "by names", best, lambda: contacts_of(plan.first("lander", "1", at=AT, count=2))
    yield "a request", best, lambda: contacts_of(plan.first(asked, count=2))
    yield "a function", best, lambda: contacts_of(cgrlist.first(plan, asked, 2))
    yield "limits", [NORTH], lambda: contacts_of(plan.first(31, 1, at=AT, count=1, max_hops=3, avoid=[12]))
    yield "routes", (HIGH, (31, 22, 12, 1)), lambda: next((it.contacts, it.nodes) for it in plan.routes(31, 1, at=AT))
    yield "routes of a function", HIGH, lambda: next(cgrlist.routes(plan, 31, 1, AT)).contacts
    yield "many", [best, []], lambda: [contacts_of(it) for it in plan.many([asked, plan.request(31, 1, BEGIN + 86400)], 2)]
    yield "many with hops", 3, lambda: len(next(plan.many([asked], 1, hops=True))[0].hops)
    yield ("lists of contacts", [BEGIN + 10042, "refused hop 2: NotChained"],
           lambda: [getattr(it, "delivery", None) or it.text for it in plan.follow([HIGH, (4, 5)], asked)])
    # Route 4 of the list delivers at 15:17:21, the best one at 02:47:22.
    yield ("a router's choices", [(1, 0), (4, 44999), (None, None)],
           lambda: [(it.rank, it.later) for it in plan.choices([HIGH, NORTH, (1, 3)], 31, 1, at=AT)])
    yield ("a router's choice of no route", [("HasRoute", True), (None, False)], lambda: [
        (it.told and it.told.text, it.is_wrong(0)) for at in (AT, BEGIN + 86400) for it in plan.choices([()], 31, 1, at=at)])
    # Without contact 4 or 11 the bundle takes contacts 5 12 2, and without contact 2 it goes by the northern station.
    yield ("losses", [(4, SOUTH), (11, SOUTH), (2, NORTH)],
           lambda: [(it.contact, it.route.contacts) for it in plan.losses(31, 1, at=AT, count=1)])
    # Without contact 2 the plan's best route is the fourth of all. Without another one, a route of the two is the best.
    yield ("losses of two routes, with ranks in the list of all", [(4, 2), (11, 2), (2, None), (5, 1), (12, 1)],
           lambda: [(it.contact, it.route.rank) for it in plan.losses(31, 1, at=AT, count=2)])
    # The last pass of the lander that reaches Earth by 06:27:22 ends at 05:12:00.
    yield ("the last second", ("2030-01-01T05:11:59+00:00", (6, 12, 2)),
           lambda: (lambda it: (it.time.isoformat(), it.route.contacts))(plan.latest(31, 1, by="2030/01/01-06:27:22")))
    yield "none is in time", None, lambda: plan.latest(31, 1, by="2030/01/01-02:00:00")
    yield "nor after that", None, lambda: cgrlist.latest(plan, plan.request(31, 1, "2030-01-01T05:12:00Z"), "2030/01/01-06:27:22")
    yield ("a request and a part of one", "a Request has all parts of a request",
           lambda: said_by(TypeError, plan.first, asked, 1))
    yield "what a plan has", (20, 14, 6, 0), lambda: tuple(plan.check())
    yield "a digest", "1742355ab40bb9304358b80eea1f07137fa6c7a830d70d3ebaadf26f2add99e2", lambda: cgrlist.digest(plan)
    a = cgrlist.Plan.from_file(f"{TOP}/examples/a.txt")
    text = SESSION.replace("DIGEST", a.digest)
    yield "the text of a place", True, lambda: a.verify(text)
    yield "and without a route", False, lambda: cgrlist.verify(a, text.replace("emitted 2", "emitted 1").encode())


class Library:
    """What refuses a request as the library does, whichever of some it is."""

    def follow(self, lists):
        for _, request in lists:
            if request.source == request.destination:
                raise cgrlist.Refused("cgrlist: request: SameNode\n", 2, is_told=True)
        return []


def refused_choices(room):
    """The line of the request that is refused is named."""
    chosen = [Choice(line, (), cgrlist.Request(31, to, MORNING)) for line, to in ((3, 1), (7, 31), (8, 31))]
    yield "a choice whose request the library refuses", "choices line 7: SameNode [4]", lambda: refused(lambda: [*judged(Library(), chosen, 1)])


def said_by(kind, act, *given):
    try:
        return act(*given)
    except kind as error:
        return str(error)


# As docs and examples show it.
SESSION = """\
cgr-session 2
plan DIGEST
request 1 3 2030/01/01-00:00:00 0 20000 / -
emitted 2
last 1 2
parts 2
part - / 1 / 3
part 1 / 2 4 / -
end
"""


def answers_and_plans(room):
    plan = room.relay
    answer = plan.first(room.morning, count=2)
    yield "an answer by places", [HIGH, SOUTH, [SOUTH]], lambda: [answer[0].contacts, answer[-1].contacts, contacts_of(answer[1:])]
    yield "how many", (2, 20), lambda: (len(answer), len(plan))
    yield "a plan in words", f"<Plan {TOP}/examples/relay.txt: 20 contacts, 6 nodes>", lambda: repr(plan)
    lines = room.relay_lines = [*open(f"{TOP}/examples/relay.txt", encoding="utf-8")]
    for title, made in (("lines", lines), ("lines without line feeds", [it.rstrip("\n") for it in lines]), ("a text", "".join(lines))):
        made = cgrlist.Plan(made)
        yield f"a plan of {title}", [HIGH, SOUTH], lambda made=made: contacts_of(made.first(31, 1, at=AT, count=2))
        yield f"a plan of {title}, without a contact", [SOUTH], lambda made=made: contacts_of(
            made.without([11]).first(31, 1, at=AT, count=1))
        yield f"a plan of {title}, in words", "<Plan of lines: 20 contacts, 6 nodes>", lambda made=made: repr(made)
    # The high relay's pass is lost, and a later one begins at 01:10:00, before contact 11, as contact 22.
    changed = ["d contact 2030/01/01-01:00:00 31 22", "a contact 2030/01/01-01:10:00 2030/01/01-02:00:00 31 22 1000"]
    yield "a plan with further lines", [(22, 11, 2), SOUTH], lambda: contacts_of(plan.with_lines(changed).first(31, 1, at=AT, count=2))
    yield "a plan that was kept", [SOUTH], lambda: contacts_of(
        pickle.loads(pickle.dumps(cgrlist.Plan(lines).without([11]))).first(31, 1, at=AT, count=1))
    yield "no contacts", (0, True), lambda: (len(cgrlist.Plan([])), bool(cgrlist.Plan([])))
    for title, names in (("a mapping", {31: "lander", 12: "south"}), ("a text", "31 lander\n12 south\n"), ("lines", ["31 lander", "12 south"])):
        yield f"names: {title}", ("lander", 12), lambda names=names: (cgrlist.Names(names).of(31), cgrlist.Names(names).node("south"))
    yield "names of a plan as a mapping", [HIGH], lambda: contacts_of(
        cgrlist.Plan.from_file(f"{TOP}/examples/relay.txt", {31: "lander"}).first("lander", 1, AT, count=1))
    yield "names that are none", "names line 1: its name has '>' or ',', which join nodes: 31 a>b [4]", lambda: refused(cgrlist.Names, {31: "a>b"})


def what_is_told(room):
    """A call tells nobody how far it is."""
    yield "a call is no tool", None, lambda: (Progress(), Tool.progress)[1]


def flat_rows(room):
    """What pandas takes for a table."""
    answer = room.relay.first(room.morning, count=2)
    row = {"source": 31, "destination": 1, "at": MORNING, "rank": 1, "hops": 3, "entry": 22, "delivery": BEGIN + 10042, "until": BEGIN + 8400,
           "send_by": None, "contacts": "4 11 2", "nodes": "31 22 12 1"}
    yield "flat rows", (2, row), lambda: (len(answer.to_records()), answer.to_records()[0])
    times = {name: datetime.fromtimestamp(row[name], timezone.utc) for name in ("at", "delivery", "until")}
    yield "with datetimes", {**row, **times}, lambda: answer.to_records(datetime)[0]
    yield "of a page of a list, whose request isn't known", [*row][3:], lambda: [*cgrlist.Answer(answer.routes, None).to_records()[0]]


def what_is_refused(room):
    plan = room.relay
    for title, wanted, further in (
        ("a count", "cgrlist: bad --count: 20000 [2]", {"count": 20000}), ("a margin", "cgrlist: bad --margin-ppm: 1000001 [2]", {"margin_ppm": 1000001}),
        ("hops", "cgrlist: bad --max-hops: 0 [2]", {"max_hops": 0}), ("nodes", "cgrlist: request: BadAvoid [2]", {"avoid": 31}),
    ):
        yield f"it is refused: {title}", wanted, lambda further=further: refused(plan.first, 31, 1, at=AT, **further)
    yield "the value", 20000, lambda: int(error_of(plan, count=20000).value)
    yield "it is a ValueError", ValueError, lambda: type(error_of(plan, count=0)).__base__
    yield "equal nodes", "cgrlist: request: SameNode [2]", refused, plan.first, 31, 31, AT
    yield "a node that is none", "no node's number and no name: 0 [2]", refused, plan.first, 0, 31, AT
    yield "one of many", "cgrlist: request: SameNode [2]", lambda: refused(lambda: [*plan.many([room.morning, plan.request(1, 1, AT)])])
    bad = room.file("bad.txt", "a range +0 +10 1 2 1\n")
    yield "a plan", 3, lambda: getattr(raised(lambda: cgrlist.Plan.from_file(bad).check()), "status", None)


def raised(act):
    try:
        return act()
    except cgrlist.Refused as error:
        return error


def error_of(plan, **further):
    return raised(lambda: plan.first(31, 1, at=AT, **further))


def hints_of_types(room):
    """Each public name, and each public method of one, has hints that Python can read."""
    def unread():
        things = [(name, getattr(cgrlist, name)) for name in cgrlist.__all__]
        things += [(f"{name}.{it}", inner.fget if isinstance(inner, property) else inner) for name, thing in things
                   if inspect.isclass(thing) for it, inner in vars(thing).items() if not it.startswith("_")
                   and (inspect.isfunction(inner) or isinstance(inner, property))]
        for name, thing in things:
            try:
                typing.get_type_hints(thing)
            except Exception as error:
                yield f"{name}: {error}"

    yield "hints that can be read", [], lambda: [*unread()]
    yield ("what a field is", (typing.Tuple[int, ...], typing.Optional[int]),
           lambda: (typing.get_type_hints(cgrlist.Route)["contacts"], typing.get_type_hints(cgrlist.Route)["rank"]))
    yield "the package says that it has them", 1, os.listdir(f"{TOP}/tools/cgrlist").count, "py.typed"
    yield "a version", f"cgrlist {cgrlist.__version__}", lambda: room.run([room.program, "--version"]).err.strip()


def in_notebooks(room):
    """A notebook shows the HTML alone, so the picture is in it."""
    answer, bare = room.relay.first(room.morning, count=2), next(room.relay.many([room.morning], 2))
    for title, it, titled in (("an answer", answer, "relay.txt"), ("a plan", room.relay, "relay.txt")):
        yield f"the table and the picture: {title}", (1, [it.svg()], False), lambda it=it: (
            it._repr_html_().count("<table>"), images(it._repr_html_()), hasattr(it, "_repr_svg_"))
        yield f"the picture: {title}", ("<svg ", "</svg>"), lambda it=it: (it.svg()[:5], it.svg().rstrip()[-6:])
        yield f"the page: {title}", "<!DOCTYPE html>", lambda it=it: it.page().partition("\n")[0]
    yield "an answer without hops: the table alone", (1, []), lambda: (
        bare._repr_html_().count("<table>"), images(bare._repr_html_()))
    yield ("it can't be drawn", "the hops of the routes aren't known: first and hops=True tell them [4]", refused, bare.svg)
    yield "the page knows what is best without contact 2 and node 12, which both routes have", ["2", "12"], lambda: losses_on(answer.page())


def losses_on(page):
    """What is lost in the questions whose answers a page knows."""
    data = json.loads(re.search(r'<script type="application/json" id="data">(.*?)</script>', page)[1])
    lost = [it["lost"] for it in data["answers"] if it["run"] == "first"]
    return [str(number) for it in lost for number in [*it["contacts"], *it["nodes"]]]


def images(text):
    """The pictures in a text of HTML."""
    return [base64.b64decode(it).decode() for it in re.findall(r'src="data:image/svg\+xml;base64,([^"]*)"', text)]


def signals(room):
    """A signal to a tool ends the program that it waits for, too."""
    sleeps = room.stub("sleeps", f"""#!/bin/sh
echo $$ >"{room.path}/pid.new" && mv "{room.path}/pid.new" "{room.path}/pid.$1" && exec sleep {SECONDS}
""")
    for number in (signal.SIGINT, signal.SIGTERM, signal.SIGHUP):
        for tool, words, command in (
            ("latest", ["--by", "2030-01-02"], "first"), ("report", ["--at", AT, "--count", "1"], "first"),
            ("timetable", ["--between", "2030-01-01", "2030-01-02"], "many"),
        ):
            yield (f"{tool} is ended by {number.name}: what it waits for is, too", (-number, False),
                   ended_by, room, number, [f"{TOP}/tools/{tool}", "--program", sleeps, "--plan", f"{TOP}/examples/relay.txt",
                                            "--from", "31", "--to", "1", *words], f"{room.path}/pid.{command}")


def ended_by(room, number, words, pid):
    """How a tool ends by a signal, and whether the program that it waited for still runs a while later."""
    if os.path.exists(pid):
        os.remove(pid)
    how = {"stdin": subprocess.DEVNULL, "stdout": subprocess.DEVNULL, "stderr": subprocess.DEVNULL}
    # What runs the tests may ignore the signal, and a program that is started would go on to.
    with subprocess.Popen(words, preexec_fn=lambda: signal.signal(number, signal.SIG_DFL), **how) as ran:
        while not os.path.exists(pid) and ran.poll() is None:
            time.sleep(0.05)
        ran.send_signal(number)
        status = ran.wait(SECONDS)
    with open(pid, encoding="utf-8") as file:
        child = int(file.read())
    for _ in range(50):
        if not runs(child):
            return status, False
        time.sleep(0.1)
    os.kill(child, signal.SIGKILL)
    return status, True


def runs(process):
    """Whether a process is there, and hasn't ended with nobody to ask for its status."""
    try:
        with open(f"/proc/{process}/stat", encoding="utf-8") as file:
            return file.read().rpartition(") ")[2][0] != "Z"
    except OSError:
        return False


# ---- The library in process, beside the program -----------------------------------------------------------------


@contextlib.contextmanager
def environment(**variables):
    """Variables of the environment, None for those that aren't there, for a while."""
    before = {name: os.environ.pop(name, None) for name in variables}
    os.environ.update({name: value for name, value in variables.items() if value is not None})
    yield
    for name, value in before.items():
        os.environ.pop(name, None)
        os.environ.update({} if value is None else {name: value})


KINDS = ("Program", "InProcess")


def asking(kind, make, *given):
    """A new plan that asks the program, or the library."""
    with environment(CGRLIST_IN_PROCESS="0" if kind == "Program" else None, CGRLIST_LIBRARY=LIBRARY):
        plan = make(*given)
        assert type(plan.asked).__name__ == kind
    return plan


def answers_over(plan, requests, lists, count):
    """What each call answers over a plan."""
    asked = requests[0]
    return {
        "many": lambda: [*plan.many(requests, count, hops=True)],
        "each alone": lambda: [refused(plan.first, it, count=1) for it in requests[:3]],
        "the best": lambda: plan.asked.best(requests),
        "the list": lambda: [*itertools.islice(plan.routes(asked), 700)],
        "lists of contacts": lambda: plan.follow(lists, asked),
        "choices": lambda: plan.choices(lists, asked),
        "losses": lambda: plan.losses(asked, count=2),
        "the last second": lambda: plan.latest(asked, by=asked.at + 3600),
        "a timetable": lambda: [*plan.timetable(asked, last=asked.at + 100)],
        "until when to send": lambda: plan.asked.with_send_by([plan.first(asked, count=3)]),
        "distinct routes": lambda: [it.routes for it in itertools.islice(asked_again(plan.asked, plan, asked, "nodes"), 5)],
        "what it has": lambda: (plan.check(), plan.digest),
    }


def compared(title, make, requests, lists, count=10, calls=None):
    """A check for each call: the library answers as the program does."""
    by_program, by_library = (answers_over(asking(kind, make), requests, lists, count) for kind in KINDS)
    for call in calls or by_program:
        yield f"in process: {title}: {call}", "the same", same, by_program[call], by_library[call]


def same(one, other):
    """Whether two calls have the same result, or else both."""
    one, other = one(), other()
    return "the same" if one == other else f"{one}\nand\n{other}"


def worked_plans(room):
    plan, path = room.relay, f"{TOP}/examples/relay.txt"
    limits = [{}, {"margin_ppm": 224}, {"max_hops": 3}, {"avoid": 12}, {"avoid": [11, 22], "max_hops": 4}, {"margin_ppm": 1000000}]
    requests = [plan.request(*ends, at, **it) for ends in ((31, 1), (1, 31), (31, 12)) for at in (AT, "2030-01-01T16:00:00Z")
                for it in limits if it.get("avoid") not in ends]
    lists = [HIGH, SOUTH, NORTH, (1, 3), (4,), (4, 11), (4, 11, 2, 1), (20,), (999,), (4, 5), (3, 19, 21)]
    further = ["d contact 2030/01/01-01:00:00 31 22", "a contact 2030/01/01-03:00:00 2030/01/01-04:00:00 31 22 1000"]
    for title, make in (
        ("relay.txt", lambda: cgrlist.Plan.from_file(path)),
        ("relay.txt without contacts", lambda: cgrlist.Plan.from_file(path).without([11, 5])),
        ("relay.txt with further lines", lambda: cgrlist.Plan.from_file(path).with_lines(further)),
    ):
        yield from compared(title, make, requests, lists)


def satellites(room):
    """20,000 contacts: each question is one run of the program."""
    with lzma.open(f"{TOP}/bench/real/iridium.txt.xz", "rt") as file:
        lines = file.read().split("\n")
    path = room.file("iridium.txt", "\n".join(lines))
    requests = [cgrlist.Request(1, 2, 1516579200 + 60 * minute, max_hops=hops) for minute in range(50) for hops in (None, 7)]
    make = functools.partial(cgrlist.Plan.from_file, path)
    found = contacts_of(asking("InProcess", make).first(requests[0], count=50))
    lists = [*found, *(it[:-1] for it in found[:10]), *(it[1:] for it in found[:10])]
    yield from compared("iridium", make, requests, lists, calls=["many", "lists of contacts", "the list", "a timetable"])


DRAWN = 30  # plans


def drawn_plans(room):
    for seed in range(DRAWN):
        draw = random.Random(seed)
        lines, nodes, contacts = drawn_lines(draw)
        requests = [drawn_request(draw, nodes) for _ in range(30)]
        lists = [tuple(draw.randint(1, contacts + 1) for _ in range(draw.randint(1, 4))) for _ in range(30)]
        calls = ["many", "lists of contacts", *draw.sample(["the list", "losses", "a timetable", "distinct routes", "what it has"], 2)]
        yield from compared(f"drawn plan {seed}", functools.partial(cgrlist.Plan, lines), requests, lists, 4, calls)


def drawn_lines(draw):
    """The lines of a plan with some nodes, how many these are, and how many contacts were added, of which some are deleted."""
    nodes, keys = draw.randint(3, 6), []
    lines = ["@ 2030/01/01-00:00:00"]
    for one, other in itertools.combinations(range(1, nodes + 1), 2):
        if draw.random() < 0.9:
            lines.append(f"a range +0 +{draw.choice([60, 200])} {one} {other} {draw.randint(0, 20)}")
    for _ in range(draw.randint(6, 20)):
        start, ends = draw.randint(0, 90), draw.sample(range(1, nodes + 1), 2)
        if (start, *ends) not in keys:
            keys.append((start, *ends))
            lines.append(f"a contact +{start} +{start + draw.randint(1, 100)} {ends[0]} {ends[1]} 1000")
    lines += (f"d contact +{start} {one} {other}" for start, one, other in draw.sample(keys, draw.randint(0, 3)))
    return lines, nodes, len(keys)


def drawn_request(draw, nodes):
    """A request, which may be refused by nobody."""
    ends = draw.sample(range(1, nodes + 1), 2)
    others = [node for node in range(1, nodes + 2) if node not in ends]
    avoid = tuple(sorted(draw.sample(others, draw.choice([0, 0, 1, 2]))))
    return cgrlist.Request(*ends, BEGIN + draw.randint(0, 120), draw.choice([None, 0, 300000]), draw.choice([None, 1, 2, 3]), avoid)


def refusals_in_process(room):
    """The library's refusals are those of the program."""
    bad = room.file("refused.txt", "@ 2030/01/01-00:00:00\na range +0 +10 1 2 1\na range +5 +10 1 2 1\n")
    plans = {kind: asking(kind, cgrlist.Plan.from_file, f"{TOP}/examples/relay.txt") for kind in KINDS}
    relay = f"{TOP}/examples/relay.txt"

    def first(plan, ends=(31, 1), **further):
        return plan.first(*ends, AT, **further)

    for title, act in (
        ("equal nodes", lambda plan: first(plan, ends=(31, 31))), ("a source to avoid", lambda plan: first(plan, avoid=31)),
        ("nodes to avoid twice", lambda plan: first(plan, avoid="12,12")), ("17 nodes to avoid", lambda plan: first(plan, avoid=range(100, 117))),
        ("a count", lambda plan: first(plan, count=10001)), ("no count", lambda plan: first(plan, count=0)),
        ("a margin", lambda plan: first(plan, margin_ppm=1000001)), ("a margin in words", lambda plan: first(plan, margin_ppm="some")),
        ("hops", lambda plan: first(plan, max_hops=20001)), ("a node", lambda plan: first(plan, ends=(2**64, 1))),
        ("a list of none", lambda plan: plan.follow([HIGH, ()], room.morning)), ("a contact 0", lambda plan: plan.follow([(0,)], room.morning)),
    ):
        yield f"it is refused in process: {title}", "the same", same, *(functools.partial(refusal_of, act, it) for it in plans.values())
    routers = Program(room.program, bad), InProcess(loaded(LIBRARY), plan_bytes(bad), bad)
    yield "it is refused in process: a plan", "the same", same, *(functools.partial(refusal_of, digest_of, it) for it in routers)
    texts = [SESSION.replace("DIGEST", digest) for digest in (plans["Program"].digest, "0" * 64)]
    yield "session texts in process", "the same", same, *(lambda plan=it: [*map(plan.verify, (*texts, "", "x"))] for it in plans.values())
    a = asking("InProcess", cgrlist.Plan.from_file, f"{TOP}/examples/a.txt")
    yield "the text of a place in process", True, lambda: a.verify(SESSION.replace("DIGEST", a.digest))
    yield "no library", "cannot use /none.so: /none.so: cannot open shared object file: No such file or directory [125]", \
        lambda: in_environment(lambda: refused(cgrlist.Plan.from_file(relay).check), CGRLIST_LIBRARY="/none.so")
    for folder in ("bin", "lib"):
        os.makedirs(f"{room.path}/there/{folder}")
    os.symlink(LIBRARY, f"{room.path}/there/lib/libcgrlist.so.2")
    for title, wanted, off in (("beside the program", True, None), ("it is turned off", False, "0")):
        yield f"the library: {title}", wanted, lambda off=off: in_environment(
            lambda: library(lambda: f"{room.path}/there/bin/cgrlist") is not None, CGRLIST_LIBRARY=None, CGRLIST_IN_PROCESS=off)


def in_environment(act, **variables):
    with environment(**variables):
        return act()


def digest_of(router):
    return router.digest()


def refusal_of(act, given):
    """What is told of what is refused."""
    it = raised(lambda: act(given))
    return str(it), it.message, it.status, it.is_told, it.hints, it.value


def at_the_same_time(room):
    """Lists that are read in turn, and threads, over one plan."""
    plan = asking("InProcess", cgrlist.Plan.from_file, f"{TOP}/examples/relay.txt")
    one, other = room.morning, plan.request(1, 31, AT)
    alone = [[it.contacts for it in plan.routes(asked)] for asked in (one, other)]
    yield "lists with routes", [True, True], lambda: [*map(bool, alone)]
    yield "lists in turn", alone, lambda: in_turn(plan, [one, other])
    yield "a list that isn't read to its end", alone[0][:3], lambda: [
        [it.contacts for it in itertools.islice(plan.routes(one), 3)] for _ in range(3)][-1]
    requests = [plan.request(31, 1, MORNING + 600 * it) for it in range(100)]
    wanted = [contacts_of(plan.first(it, count=5)) for it in requests]

    def by_threads():
        with ThreadPoolExecutor(4) as pool:
            return [*pool.map(lambda it: contacts_of(plan.first(it, count=5)), requests)]

    yield "threads", wanted, by_threads

    def by_processes():
        with ProcessPoolExecutor(2, get_context("fork")) as pool:
            return [*map(contacts_of, plan.many(requests * 3, 5, pool))]

    yield "other processes", wanted * 3, by_processes


def in_turn(plan, requests):
    """The contacts of the routes of requests, of which the lists are read in turn."""
    lists, found = [plan.routes(it) for it in requests], [[] for _ in requests]
    for rows in itertools.zip_longest(*lists):
        for place, route in enumerate(rows):
            found[place] += [route.contacts] if route else []
    return found


LIBRARY = os.environ.get("CGRLIST_LIBRARY") or f"{TOP}/library/out/libcgrlist.so.2"


def checks(asked):
    os.environ.pop("CGRLIST_LIBRARY", None)
    sections = [nodes_to_avoid, times, forms_of_calls, answers_and_plans, what_is_told, refused_choices, flat_rows, what_is_refused, hints_of_types, in_notebooks, signals]
    if os.path.exists(LIBRARY) or not asked.trials:  # a trial has none, unless it was built
        sections += [refusals_in_process, at_the_same_time, worked_plans, drawn_plans, satellites]
    else:
        print(f"package: in process: left out, there is no {LIBRARY}")
    return checks_of("package", Package(asked.program("cgrlist")), sections)
