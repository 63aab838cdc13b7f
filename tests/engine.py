"""Asks the engine in JavaScript, in node, what the program is asked, and compares what both answer byte for byte.

    drawn       over drawn plans, some with bad lines: each of the engine's runs, with drawn requests, limits, margins and
                lists; sessions that one of both wrote and the other goes on from
    refusals    values, lines, sessions and plans that are refused
    memory      memory that is lent in steps from nothing, and buffers in which a text just fits, or doesn't
    hostile     texts that are binary or huge, a million lines, and a chain of 20000 hops
    objects     the objects of cgrlist.mjs, written again as the program's texts; its types and its repairs

Without the module or node, this is left out, and a line says so. A trial isn't asked over the
hostile texts.
"""

import base64
import json
import lzma
import os
import random
import re
import shutil
import subprocess
import sys
import tempfile
from typing import NamedTuple

from checking import TOP, Room, checks_of
from drawn import Draws, draw_pair, drawn_case, with_another_digit
from oracle import read, spelled, time_text

sys.path.insert(0, f"{TOP}/tools")
from cgrlist.hints import REPAIRS

ENGINE = f"{TOP}/tools/cgrlist/engine"
MODULE = f"{ENGINE}/cgrlist.wasm.gz"
SECONDS = 600
DRAWN = 120
ALL_ROOM = {"report": 1 << 22, "session": 1 << 22, "message": 1 << 12}

# ---- Questions --------------------------------------------------------------------------------------------------

# The option of the program for each value, and what each run takes beside the plan.
OPTIONS = {"from": "--from", "to": "--to", "at": "--at", "marginPpm": "--margin-ppm", "maxHops": "--max-hops",
           "avoid": "--avoid", "count": "--count", "contacts": "--contacts"}
REQUEST = ["from", "to", "at", "marginPpm", "maxHops", "avoid"]
LIMITS = REQUEST[3:]
TAKEN = {"check": [], "first": [*REQUEST, "count"], "next": ["count"], "verify": [], "explain": [*REQUEST, "contacts"],
         "many": ["count"], "follow": []}
FILES = {"next": "session", "verify": "session", "many": "requests", "follow": "lists"}


class Question(NamedTuple):
    """A run and its texts, as the engine takes them; a text that is huge or isn't one is written so that it can be made."""

    title: str
    run: str
    texts: dict

    def told(self, **how):
        return {"run": self.run, "texts": self.texts, **how}

    def having(self, **texts):
        return self._replace(texts={**self.texts, **texts})


class Answer(NamedTuple):
    """What is answered to a question."""

    status: int
    report: str
    session: str
    message: str


def times(count, text):
    """A text so many times."""
    return {"times": count, "text": text}


def binary(data):
    return {"base64": base64.b64encode(data).decode()}


def bytes_of(text):
    if isinstance(text, str):
        return text.encode()
    return base64.b64decode(text["base64"]) if "base64" in text else text["text"].encode() * text["times"]


def of_request(request, **further):
    """The texts of a request."""
    limits = {"marginPpm": str(request.margin), "maxHops": str(request.hops), "avoid": ",".join(map(str, request.avoided))}
    return {"from": str(request.source), "to": str(request.target), "at": time_text(request.at), **limits, **further}


def by_program(program, question):
    """What the program answers to a question."""
    with tempfile.TemporaryDirectory() as folder:
        words = [program, question.run, "--plan", "plan"]
        for name in ("plan", FILES.get(question.run)):
            if name:
                with open(f"{folder}/{name}", "wb") as file:
                    file.write(bytes_of(question.texts[name]))
        words += ["--" + FILES[question.run], FILES[question.run]] if question.run in FILES else []
        given = [(name, question.texts.get(name, "")) for name in TAKEN[question.run]]
        words += [it for name, text in given if text or name not in LIMITS for it in (OPTIONS[name], text)]
        words += ["--session-out", "out"] if question.texts.get("keep") and question.run in ("first", "next") else []
        ran = subprocess.run(words, cwd=folder, capture_output=True, timeout=SECONDS)
        session = ""
        if os.path.exists(f"{folder}/out"):
            with open(f"{folder}/out", encoding="ascii") as file:
                session = file.read()
    return Answer(ran.returncode, ran.stdout.decode(), session, ran.stderr.decode())


# ---- What is drawn ----------------------------------------------------------------------------------------------


def draw_numbers(draws, plan):
    """Draws a list of contacts: a chain, or any."""
    numbers = [number for number in plan.contacts if draws.once_in(5)] or [draws.below(20) + 1]
    return ",".join(map(str, numbers))


def questions_of(seed):
    """What is asked over a drawn plan: each run, with a request that may have limits."""
    case, draws = drawn_case(seed), Draws(f"engine, {seed}")
    plan = case.drawing.plan
    nodes = max([*plan.nodes(), 2])
    requests = [case.listing.request, *(draw_pair(draws, nodes) for _ in range(3))]
    listed = [route.contacts for route in case.listing.routes[:2]]
    numbers = [*(",".join(map(str, it)) for it in listed), *(draw_numbers(draws, plan) for _ in range(2))]
    count = str(draws.one_of((1, 2, 3, 5, 10000)))
    texts = {"plan": case.drawing.text(), "count": count}
    for place, request in enumerate(requests[:2]):
        yield Question(f"seed {seed}, first {place}", "first", {**texts, **of_request(request), "keep": place == 0})
    for place, contacts in enumerate(numbers):
        asked = of_request(requests[0], contacts=contacts)
        yield Question(f"seed {seed}, explain {place}", "explain", {**texts, **asked})
    lines = "".join(f"{it.many_line()}\n" for it in requests)
    yield Question(f"seed {seed}, many", "many", {**texts, "requests": lines})
    lists = "".join(f"{it} {request.many_line()}\n" for it, request in zip(numbers, requests))
    yield Question(f"seed {seed}, follow", "follow", {**texts, "lists": lists})
    yield Question(f"seed {seed}, check", "check", texts)
    all_lines = "".join(f"{line}\n" for line, _ in case.drawing.taken)  # the first bad line is named
    yield Question(f"seed {seed}, all lines", "check", {"plan": all_lines})
    text = case.listing.text(draws.below(len(case.listing.routes) + 1))
    for title, it in (("verify", text), ("verify with another digit", with_another_digit(draws, text))):
        yield Question(f"seed {seed}, {title}", "verify", {**texts, "session": it})


# ---- Refusals ---------------------------------------------------------------------------------------------------

LINE = "31 1 2030/01/01-00:45:00"
NODES = ",".join(map(str, range(100, 117)))
SESSIONS = ("", "cgr-session 3\n", "cgr-session 2\nplan x\n", "é", times(700000, "x"))
# Of each, the run and the values in place of good ones.
REFUSED = [
    *(("first", {name: value}) for name in ("from", "to") for value in ("", "0", "01", "+1", " 1", "1\n", "é", str(2**64))),
    *(("first", {"at": value}) for value in ("", "now", "2030/1/1-00:00:00", "2030/02/30-00:00:00", "9999/01/01-00:00:00")),
    *(("first", {"marginPpm": value}) for value in ("1000001", "1.0", "00")),
    *(("first", {"maxHops": value}) for value in ("0", "20001", "x")),
    *(("first", {"avoid": value}) for value in ("0", "1,", "12,,21", "21,12", "12,12", "31", "1", "12 21", NODES)),
    *(("first", {"count": value}) for value in ("", "0", "10001", "01", str(2**64))),
    ("first", {"to": "31"}), ("first", {"to": "31", "at": "x"}), ("first", {"from": "x", "count": "0"}),
    *(("explain", {"contacts": value}) for value in ("", "0", "4,", ",4", "4,,11", "4 11", str(2**32))),
    ("explain", {"to": "x", "contacts": "x"}),
    *(("many", {"requests": text}) for text in ("\n", "x", "31 1\n", f"{LINE}\n\n", "31 31 2030/01/01-00:45:00", f"{LINE} 0 0\n")),
    *(("many", {"requests": text}) for text in (times(412, "x"), f"{LINE} 0 1 31", f"{LINE} 0 20000 2,1", f"{LINE} 0 1 2 3")),
    ("many", {"count": "0"}), ("many", {"requests": ""}),
    *(("follow", {"lists": text}) for text in ("", "\n", "4 31 1\n", f"x {LINE}\n", f"4,11,2 {LINE}\nx")),
    *((run, {"session": text}) for run in ("next", "verify") for text in SESSIONS),
    ("next", {"session": "", "count": "0"}), ("next", {"session": "x", "plan": "x"}), ("first", {"plan": "x", "from": "x"}),
    *((run, {"plan": "@ x\n"}) for run in ("check", "first", "next", "verify", "explain", "many", "follow")),
    ("check", {"plan": ""}), ("check", {"plan": "# é\n\n"}), ("check", {"plan": "\ufeff@ 2030/01/01-00:00:00\n"}),
]
RELAYED = {"from": "31", "to": "1", "at": LINE[5:], "count": "3", "contacts": "4,11,2", "requests": f"{LINE}\n",
           "lists": f"4,11,2 {LINE}\n", "session": "x", "keep": True}


def relay_plan():
    with open(f"{TOP}/examples/relay.txt", encoding="ascii") as file:
        return file.read()


def refused_questions():
    good = {"plan": relay_plan(), **RELAYED}
    for run, texts in REFUSED:
        kept = {"keep": run in ("first", "next")}
        yield Question(f"{run} {json.dumps(texts)[:60]}", run, {**good, **kept, **texts})


# ---- Node -------------------------------------------------------------------------------------------------------

def lack():
    """What the engine needs and isn't there; None if all is."""
    if not os.path.exists(MODULE):
        return f"there is no {os.path.relpath(MODULE, TOP)}"
    return None if shutil.which("node") else "there is no node"


class Asking(Room):
    """The program, and an engine beside it that is asked the same."""

    def __init__(self, program):
        super().__init__()
        self.program, self.known = program, {}

    def by_program(self, question):
        """What the program answers to a question, which it is asked once."""
        if question.title not in self.known:
            self.known[question.title] = by_program(self.program, question)
        return self.known[question.title]

    def answers(self, questions):
        """What the engine answers to questions."""
        return [*map(answer_in, self.asked("runs", questions=[it.told() for it in questions]))]

    def in_steps(self, questions):
        """What it answers to questions with more and more memory."""
        return self.asked("steps", questions=questions)


class Node(Asking):
    """The engine in node."""

    def __init__(self, program):
        super().__init__(program)
        self.words = ["node", f"{TOP}/tests/engine/node.mjs", MODULE]

    def asked(self, what, **asked):
        """What the engine answers."""
        text = json.dumps({"what": what, **asked})
        ran = subprocess.run(self.words, input=text.encode(), capture_output=True, timeout=SECONDS)
        if ran.returncode:
            raise RuntimeError(ran.stderr.decode())
        return json.loads(ran.stdout)


def answer_in(told):
    """The answer that JavaScript told; how it failed if there is none."""
    return Answer(*map(told.get, Answer._fields)) if "failure" not in told else told["failure"]


def compared(room, questions):
    """Questions, each with what the program answers and what the engine did."""
    questions = [*questions]
    for question, found in zip(questions, room.answers(questions)):
        yield question.title, room.by_program(question), lambda found=found: found


# ---- Sections ---------------------------------------------------------------------------------------------------


def drawn(room):
    questions = [it for seed in range(DRAWN) for it in questions_of(seed)]
    yield from compared(room, questions)


def canonical(room):
    """The canonical text, which the program doesn't print, is that of the oracle."""
    plans = [drawn_case(seed).drawing.text() for seed in range(DRAWN)] + [relay_plan(), ""]
    found = room.answers([Question("", "canonical", {"plan": text}) for text in plans])
    for place, text in enumerate(plans):
        wanted = Answer(0, read(text.encode())[0].canonical(), "", "")
        yield f"canonical text {place}", wanted, lambda place=place: found[place]
    bad = "a contact\n"
    wanted = room.by_program(Question("a bad plan", "check", {"plan": bad}))
    yield "no canonical text of a bad plan", wanted, lambda: room.answers([Question("", "canonical", {"plan": bad})])[0]


def sessions(room):
    """Sessions that the engine wrote and the program goes on from, and the other way round."""
    asked = [it for seed in range(DRAWN) for it in questions_of(seed) if it.texts.get("keep")]
    theirs, ours = [room.by_program(it) for it in asked], room.answers(asked)
    after = [it._replace(run="next").having(session=session.session) for it, session in zip(asked, theirs)]
    for question, found, session in zip(after, room.answers(after), ours):
        question = question.having(session=session.session)._replace(title=f"{question.title}, next")
        yield question.title, room.by_program(question), lambda found=found: found


def refusals(room):
    yield from compared(room, refused_questions())


def memory(room):
    """With too little lent memory or room the status is 6, and else the answer is right."""
    good = {"plan": relay_plan(), **RELAYED}
    session = room.by_program(Question("relay, first", "first", good)).session
    lent = {"step": 4096, "most": 1 << 20, "rooms": ALL_ROOM}
    for run in (*TAKEN, "canonical"):
        question = Question(run, run, {**good, "session": session, "keep": run in ("first", "next")})
        wanted = room.answers([question])[0]
        answers = room.in_steps([question.told(**lent)])[0]
        yield f"{run}, with more and more lent memory", {6}, lambda: {it["status"] for it in answers[:-1]}
        yield f"{run}, with enough", wanted, lambda: answer_in(answers[-1])
        yield f"{run}, the message", {"cgrlist: no memory\n"}, lambda: {it["message"] for it in answers[:-1]}
        yield from fitting(room, question, wanted)
    refused = Question("a refused plan", "check", {"plan": "x"})
    yield from fitting(room, refused, room.by_program(refused))


def fitting(room, question, wanted):
    """Each text of an answer without room for it, with a byte too little, and with enough: the status, and the length."""
    lengths = {name: len(text) for name, text in wanted._asdict().items() if name != "status" and text}
    for name, size in lengths.items():
        asked = [question.told(step=1 << 22, most=1 << 22, rooms={**ALL_ROOM, name: it}) for it in (0, size - 1, size)]
        told = [(6, size), (6, size), (wanted.status, size)]
        yield (f"{question.title}, room for the {name}", told,
               lambda asked=asked, name=name: [(it[-1]["status"], it[-1]["lengths"][name]) for it in room.in_steps(asked)])


def chain(hops):
    """A plan of so many hops one after the other, and the numbers of its contacts."""
    links = [f"+0 +9000000 {node} {node + 1} 1\n" for node in range(1, hops + 1)]
    lines = "".join(f"a range {link}a contact {link}" for link in links)
    return f"@ 2030/01/01-00:00:00\n{lines}", ",".join(map(str, range(1, hops + 1)))


def hostile_questions():
    """What is asked over texts that nobody means well with."""
    data = random.Random(1).randbytes(1 << 20)
    plan, numbers = chain(20000)
    at = "2030/01/01-00:00:00"
    chained = {"plan": plan, "from": "1", "to": "20001", "at": at, "count": "2", "contacts": numbers}
    relayed = {"plan": relay_plan(), **RELAYED}
    yield Question("binary plan", "check", {"plan": binary(data)})
    yield Question("binary plan after a comment", "check", {"plan": binary(b"#" + data)})
    yield Question("plan of zeros", "check", {"plan": times(1 << 20, "\0")})
    yield Question("plan of 300 MB in one line", "check", {"plan": times(300_000_000, "#")})
    yield Question("plan of 300 MB in lines", "check", {"plan": times(1_500_000, "#" * 199 + "\n")})
    yield Question("plan of 1000000 lines", "check", {"plan": times(1_000_000, "\n")})
    yield Question("plan of 1000001 lines", "check", {"plan": times(1_000_001, "\n")})
    yield Question("plan of 20001 contacts", "check", {"plan": plan + "a contact +0 +1 1 3 1\n"})
    for run in ("requests", "lists"):
        name = {"requests": "many", "lists": "follow"}[run]
        yield Question(f"binary {run}", name, {**relayed, run: binary(data)})
        yield Question(f"{run} of 30 MB in one line", name, {**relayed, run: times(30_000_000, "1")})
        yield Question(f"1000001 {run}", name, {**relayed, run: times(1_000_001, relayed[run])})
    yield Question("binary session", "next", {**relayed, "session": binary(data)})
    yield Question("session of 30 MB in one line", "verify", {**relayed, "session": times(30_000_000, "1 ")})
    yield Question("value of 100 KB", "first", {**relayed, "from": "1" * 100_000})
    for run in ("first", "explain"):
        yield Question(f"{run} over a chain of 20000 hops", run, chained)
    yield Question("a list of 20000 hops", "follow", {**chained, "lists": f"{numbers} 1 20001 {at}\n"})
    # Of a chain of 2000 hops, the session text has 12 MB, since it has each beginning of the route.
    yield Question("the session after a chain of 2000 hops", "first", {**chained, "plan": chain(2000)[0], "to": "2001", "keep": True})


def hostile(room):
    yield from compared(room, hostile_questions())


def long_lists(room):
    """Lists of 1000 and 10000 routes over windows of real satellites, and a session after them."""
    with lzma.open(f"{TOP}/bench/real/iridium.txt.xz", "rt", encoding="ascii") as file:
        texts = {"plan": file.read(), "from": "1", "to": "2", "at": "2018/01/22-00:20:00", "keep": True}
    counts = ("1000", "10000")
    yield from compared(room, [Question(f"iridium, {count} routes", "first", {**texts, "count": count}) for count in counts])


# ---- Objects ----------------------------------------------------------------------------------------------------


def route_text(it):
    rank = f"{it['rank']} " if it.get("rank") else ""
    ends = f"hops {it['hops']} entry {it['entry']} until {time_text(it['until'])}"
    return f"{rank}delivery {time_text(it['delivery'])} {ends} contacts {' '.join(map(str, it['contacts']))}\n"


def page_text(page):
    return "".join(map(route_text, page["routes"])) + ("more\n" if page["more"] else "end\n")


def hop_text(place, it):
    times = f"send {time_text(it['send'])} arrive {time_text(it['arrive'])}"
    return f"hop {place} contact {it['contact']} from {it['from']} to {it['to']} {times}\n"


def explanation_text(told):
    hops, fault = "".join(hop_text(*it) for it in enumerate(told["hops"], 1)), told.get("fault")
    hop = f" hop {fault['hop']}" if fault and "hop" in fault else ""
    return hops + (f"refused{hop}: {fault['reason']}\n" if fault else route_text(told["route"]))


def answers_text(head, answers, spelling):
    return "".join(f"{head} {it['line']}\n{spelling(it)}" for it in answers)


def standing_text(told):
    """The canonical text of a plan's objects."""
    contacts = [[it[name] for name in ("number", "start", "end", "from", "to", "rate")] for it in told["contacts"]]
    ranges = [[it[name] for name in ("one", "other", "start", "end", "light")] for it in told["ranges"]]
    lines = [f"{kind} {' '.join(map(str, it))}\n" for kind, rows in (("c", contacts), ("r", ranges)) for it in rows]
    return "".join(["cgr-plan 1\n", *lines, "end\n"])


def check_text(told):
    counts = told["counts"]
    return (f"contacts {counts['contacts']}\nranges {counts['ranges']}\nnodes {counts['nodes']}\n"
            f"without light {counts['withoutLight']}\ndigest {told['digest']}\n")


def objects(room):
    for seed in range(20):
        yield from over_objects(room, f"objects of seed {seed}", drawn_case(seed))
    most, window = 2**64 - 1, "2030/01/01-00:00:00 2031/01/01-00:00:00"
    found = room.asked("objects", plan=f"a contact {window} 1 {most} {most}\n", calls=[])
    told = lambda: (found["nodes"], found["contacts"][0]["rate"], found["contacts"][0]["light"])
    yield "nodes and rates above 2 ** 53", (["1", str(most)], str(most), None), told


def over_objects(room, title, case):
    """The objects over a drawn plan, as the program's texts."""
    text, plan, request = case.drawing.text(), case.drawing.plan, case.listing.request
    numbers = next((list(route.contacts) for route in case.listing.routes), [1])
    limits = {"marginPpm": request.margin, "maxHops": request.hops, "avoid": list(request.avoided)}
    asked = {"from": request.source, "to": request.target, "at": request.at, **limits}
    calls = [["first", {**asked, "count": 3}], ["explain", asked, numbers], ["many", [asked, asked], 3]]
    found = room.asked("objects", plan=text, calls=[*calls, ["follow", [{**asked, "contacts": numbers}]]])
    first, explained, many, followed = found["answers"]
    texts = of_request(request, plan=text, count="3", contacts=",".join(map(str, numbers)))
    line = " ".join(texts[name] for name in REQUEST if texts[name])
    texts.update(requests=f"{line}\n" * 2, lists=f"{texts['contacts']} {line}\n")
    yield f"{title}, the plan", plan.canonical(), lambda: standing_text(found)
    yield f"{title}, light times", [*map(plan.light, plan.contacts.values())], lambda: [it["light"] for it in found["contacts"]]
    for run, told in (
        ("check", lambda: check_text(found)),
        ("first", lambda: page_text(first)),
        ("explain", lambda: explanation_text(explained)),
        ("many", lambda: answers_text("request", many, page_text)),
        ("follow", lambda: answers_text("list", followed, explanation_text)),
    ):
        yield f"{title}, {run}", room.by_program(Question(f"{title}, {run}", run, texts)).report, told


ASKED = {"from": 31, "to": 1, "at": LINE[5:]}
REFUSED_CALLS = [  # each call, with the status, the message, the line and the hint
    (["first", {**ASKED, "at": "x"}], (2, "bad --at", None, None)),
    (["first", {**ASKED, "from": 1}], (2, "request: SameNode", None, None)),
    (["next", {"session": "x"}], (4, "session: BadHeader", None, None)),
    (["many", f"{LINE}\nx\n"], (4, "requests line 2: BadLine", 2, None)),
    (["follow", "x\n"], (4, "lists line 1: BadLine", 1, None)),
]


def refused_objects(room):
    found = room.asked("objects", plan=relay_plan(), calls=[call for call, _ in REFUSED_CALLS])["answers"]
    told = ("status", "message", "line", "hint")
    for (call, wanted), it in zip(REFUSED_CALLS, found):
        yield f"refused: {call[0]} {wanted[1]}", wanted, lambda it=it: tuple(map(it.get, told))
    yield "the repairs are those of the tools", REPAIRS, room.asked, "repairs"


def types(room):
    """The names in cgrlist.d.mts are those that the module has."""
    with open(f"{ENGINE}/cgrlist.d.mts", encoding="ascii") as file:
        text = file.read()
    found = room.asked("names")
    exported = re.findall(r"^export (?:class|const|function) (\w+)", text, re.M)
    yield "what the types export", sorted(exported), lambda: sorted(found["module"])
    for name in ("Plan", "Engine"):
        inside = re.search(rf"^export class {name} .*?^}}|^export class {name} {{.*?^}}", text, re.M | re.S)[0]
        declared = re.findall(r"^  (?!readonly|static|private|constructor)(\w+)[(:]", inside, re.M)
        yield f"the methods of {name}", sorted(declared), lambda name=name: sorted(found[name])


def compiled(room):
    """A compiler of TypeScript, such as that of Debian's package node-typescript, takes each name with its type."""
    words = "tsc --noEmit --strict --module nodenext --target es2022 tests/engine/use.mts"
    yield "the types, compiled", (0, ""), lambda: room.run(words)[:2]


SHARED = (drawn, canonical, sessions, refusals, memory, long_lists)  # with the engine of the page


def shared_sections(asked):
    """Those that are asked of any engine. A trial would take minutes for each of the hostile texts."""
    return SHARED if asked.trials else (*SHARED, hostile)


def checks(asked):
    if lack():
        print(f"note: engine is left out, {lack()}")
        return ()
    sections = [*shared_sections(asked), objects, refused_objects, types]
    if shutil.which("tsc"):
        sections.append(compiled)
    else:
        print("note: there is no tsc, which compiles the types")
    return checks_of("engine", Node(asked.program("cgrlist")), sections)
