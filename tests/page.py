"""Tries the page that tools/timeline --html writes, in a browser: what it shows, asks and answers, and what mouse, touch and
keys do.

What the page says is compared with what the program answers, over the plan and over the plan without a contact, and
with values that were worked out by hand from examples/relay.txt. Without Chromium, its driver or selenium (on Debian
the packages chromium, chromium-driver and python3-selenium) only the file is looked at, and without the engine's module
nothing is asked; a line says so. The name of a check begins with its section, and only this section is driven if -k has
the name.
"""

import base64
import calendar
import hashlib
import json
import os
import re
import time
import xml.etree.ElementTree as tree
from functools import cache, cached_property, partial

from browsers import SECONDS, Chromium
from browsers import lack_of_chromium as lack
from checking import TOP, Broken, Room, checks_of, found_in
from picture_faults import LEAST_CONTRAST, contrast

try:
    from selenium.webdriver.common.action_chains import ActionChains
    from selenium.webdriver.common.actions.wheel_input import ScrollOrigin
    from selenium.webdriver.common.by import By
    from selenium.webdriver.common.keys import Keys
    from selenium.webdriver.support.ui import Select
except ImportError:
    ActionChains = ScrollOrigin = By = Keys = Select = None  # `lack` says so

MODULE = f"{TOP}/tools/cgrlist/engine/cgrlist.wasm.gz"
RELAY = f"{TOP}/examples/relay.txt"
ASKED = ["--from", "31", "--to", "1", "--at", "2030/01/01-00:45:00"]
NAMES = {1: "control centre", 11: "north station", 12: "south station", 21: "low relay", 22: "high relay", 31: "lander"}
BEGIN = 1893456000  # 2030/01/01-00:00:00
MEASURED = 3  # so often is measured how long a page takes to open; the least counts


def within(what, most, act, *given):
    """A check that what is measured is at most so much."""

    def found():
        it = act(*given)
        return f"at most {most}" if it <= most else it

    return what, f"at most {most}", found


def starts_of(plan):
    """The start and the nodes of each contact of a plan, by number."""
    found, reference = [], 0
    for words in map(str.split, text_of(plan).split("\n")):
        if words[:1] == ["@"]:
            reference = seconds(words[1])
        elif words[:2] == ["a", "contact"]:
            start = reference + int(words[2]) if words[2].startswith("+") else seconds(words[2])
            found.append((time.strftime("%Y/%m/%d-%H:%M:%S", time.gmtime(start)), *words[4:6]))
    return dict(enumerate(found, 1))


def seconds(text):
    return calendar.timegm(time.strptime(text, "%Y/%m/%d-%H:%M:%S"))


def lasting(count):
    """A number of seconds in words, as the page has it."""
    parts = [(count // 86400, "d"), (count // 3600 % 24, "h"), (count // 60 % 60, "min"), (count % 60, "s")]
    return " ".join(f"{number} {unit}" for number, unit in parts if number)


def text_of(path):
    with open(path, encoding="utf-8") as file:
        return file.read()


def data_of(path):
    """What a page opens with."""
    return json.loads(re.search(r'<script type="application/json" id="data">(.*?)</script>\n', text_of(path), re.S)[1])


def kept_of(path, run):
    """The answers of a run that a page opens with, each as what is lost, the question and the answer."""
    return [(it["lost"], it["texts"], it["answer"]) for it in data_of(path)["answers"] if it["run"] == run]


class Pages(Room):
    """The program's own answers, and pages."""

    def __init__(self, program):
        super().__init__()
        self.program = program
        names = self.file("names.txt", "".join(f"{node} {name}\n" for node, name in NAMES.items()))
        self.relay = self.make("relay", "--plan", RELAY, "--names", names, *ASKED, "--count", "3")

    @cached_property
    def browser(self):
        return Browser()

    def routes_of(self, plan, count, asked=ASKED):
        """The first routes, each as delivery, end and contacts."""
        said = self.run([self.program, "first", "--plan", plan, *asked, "--count", str(count)]).out
        found = re.findall(r"^\d+ delivery (\S+) .* until (\S+) contacts ([\d ]+)$", said, re.M)
        return [(delivery, until, [*map(int, contacts.split())]) for delivery, until, contacts in found]

    def hops_of(self, plan, contacts, asked=ASKED):
        """The hops over some contacts, each as contact, receiver, sending and arrival."""
        numbers = ",".join(map(str, contacts))
        said = self.run([self.program, "explain", "--plan", plan, *asked, "--contacts", numbers]).out
        found = re.findall(r"^hop \d+ contact (\d+) from \d+ to (\d+) send (\S+) arrive (\S+)$", said, re.M)
        return [(int(contact), int(to), send, arrive) for contact, to, send, arrive in found]

    def without(self, plan, number):
        """A file with a plan whose contact is lost."""
        return self.file(f"without-{number}.txt", f"{text_of(plan)}\nd contact {' '.join(starts_of(plan)[number])}\n")

    def timeline(self, name, *words, by=None):
        """Runs tools/timeline for a page of that name."""
        return self.run([f"{TOP}/tools/timeline", "--program", by or self.program, *words, "--html", f"{self.path}/{name}.html"])

    def make(self, name, *words):
        """Writes a page, and returns its path."""
        ran = self.timeline(name, *words)
        if ran.status or ran.out:
            raise Broken(f"tools/timeline doesn't make the page {name}: {ran.all()}")
        return f"{self.path}/{name}.html"

    def ring_plan(self, nodes, contacts, name):
        """A plan in which each of some nodes sends to the next ones, again and again, for many contacts."""
        lines = ["@ 2030/01/01-00:00:00\n"]
        for node in range(1, nodes + 1):
            one, other = sorted((node, node % nodes + 1))
            lines.append(f"a range +0 +9000000 {one} {other} {node % 7}\n")
        for place in range(contacts):
            sender, turn = place % nodes + 1, place // nodes
            window = f"+{turn * 1800 + sender * 5} +{turn * 1800 + 1200}"
            lines.append(f"a contact {window} {sender} {sender % nodes + 1} {1000 + turn}\n")
        return self.file(f"{name}.txt", "".join(lines))


# ---- The file ---------------------------------------------------------------------------------------------------


def what_stands_there(room):
    yield within("the bytes of relay", 500_000, os.path.getsize, room.relay)
    text = text_of(room.relay)
    loads = r"""https?:(?!//www\.w3\.org/2000/svg)|\bsrc=|\bhref=|url\((?!#)|@import|\bfetch\(|XMLHttp|\bimport\("""
    yield "nothing is loaded", [], re.findall, loads, text
    parts = [it for name in ("style", "script") for it in re.findall(rf"<{name}>(.*?)</{name}>", text, re.S)]
    hashes = [f"'sha256-{base64.b64encode(hashlib.sha256(it.encode()).digest()).decode()}'" for it in parts]
    policy = "default-src 'none'; style-src {}; script-src {} {} 'wasm-unsafe-eval'; worker-src blob:".format(*hashes)
    yield "the engine begins before the page is laid out", ["new Engine(", "<body>"], lambda: sorted(("new Engine(", "<body>"), key=text.index)
    yield "the policy", policy, lambda: re.search(r'Policy" content="(.*?)"', text)[1]
    yield "nothing of where it was made", [], re.findall, r"/work|/home|/tmp|/root", text
    names = room.file("bad-names.txt", "31 <!--<script & co\n")
    bad = room.make("bad", "--plan", RELAY, "--names", names, *ASKED, "--count", "1")
    yield "a name with a tag stays a text", "<!--<script & co", lambda: data_of(bad)["names"]["31"]
    yield "the plan's text", text_of(RELAY), lambda: data_of(room.relay)["plan"]
    latin = room.file("latin.txt", "# f\xfcr\n".encode("latin-1") + b"a contact 2030/01/01-00:00:00 2030/01/01-01:00:00 1 2 5\n")
    yield "bytes that aren't UTF-8", "# f\x7fr", lambda: data_of(room.make("latin", "--plan", latin))["plan"].split("\n")[0]


def what_it_knows(room):
    """What a page knows when it is opened is what the program says: of the plan, of the routes, and of what is lost."""
    (_, _, check), = kept_of(room.relay, "check")
    yield "check", room.run([room.program, "check", "--plan", RELAY]).out, lambda: check["report"]
    (_, _, canonical), = kept_of(room.relay, "canonical")
    digest = hashlib.sha256(canonical["report"].encode()).hexdigest()
    yield "the canonical text", check["report"].split()[-1], lambda: digest
    firsts = kept_of(room.relay, "first")
    whole = room.run([room.program, "first", "--plan", RELAY, *ASKED, "--count", "3"]).out
    yield "the routes", whole, lambda: next(answer["report"] for lost, _, answer in firsts if not any(lost.values()))
    routes = room.routes_of(RELAY, 3)
    told = {lost["contacts"][0]: answer["report"] for lost, _, answer in firsts if lost["contacts"]}
    seen = {number for _, _, numbers in routes for number in numbers if any(number not in it[2] for it in routes)}
    contacts = {number for _, _, numbers in routes for number in numbers}
    yield "contacts whose loss the routes don't answer", sorted(contacts - seen), lambda: sorted(told)
    for number, report in told.items():
        best = room.run([room.program, "first", "--plan", room.without(RELAY, number), *ASKED, "--count", "1"]).out.split("\n")[0]
        yield f"the best route without contact {number}", f"{best}\n", lambda: report
    explained = "".join(answer["report"] for _, _, answer in kept_of(room.relay, "follow"))
    for _, _, numbers in routes:
        asked = ["--contacts", ",".join(map(str, numbers))]
        hops = room.run([room.program, "explain", "--plan", RELAY, *ASKED, *asked]).out
        yield f"the hops of {numbers}", True, lambda: hops in explained or explained


def example(room):
    """The page in examples/ is what page/example makes now."""
    yield within("its bytes", 500_000, os.path.getsize, f"{TOP}/examples/cgrlist.html")
    yield "it is as it would be made", 0, lambda: room.run(f"env CGRLIST={room.program} {TOP}/page/example --check").status


def writing(room):
    """A page goes to standard output; one that can't be written leaves what stood there."""
    told = room.run(f"{TOP}/tools/timeline --plan {RELAY} --html -", at=room.path)
    yield "standard output", ("<!DOCTYPE html>", "</html>"), lambda: (told.out[:15], told.out.split()[-1])
    yield "no file of that name", False, os.path.exists, f"{room.path}/-"
    old = room.file("old.html", "old")
    before = sorted(os.listdir(room.path))
    ran = room.run("bash -c", ['ulimit -f 8; exec "$@"'], f"bash {TOP}/tools/timeline --plan {RELAY} --html {old}")
    yield "no room", (5, "", f"timeline: {old}: File too large\n"), lambda: tuple(ran)
    yield "what stood there", ("old", before), lambda: (text_of(old), sorted(os.listdir(room.path)))
    plan = room.file("mine.txt", text_of(RELAY))
    ran = room.run(f"{TOP}/tools/timeline --plan {plan} --html {room.path}/../{os.path.basename(room.path)}/mine.txt")
    yield "the plan's file", (2, "mine.txt is the file of --plan; it would be lost\n"), lambda: (ran.status, ran.err.rpartition("/")[2])
    yield "the plan stays", text_of(RELAY), text_of, plan


def refusals(room):
    """A page isn't written if there are too many routes; they are refused before one is explained."""
    route = "delivery 2030/01/01-01:00:01 hops 1 entry 22 until 2030/01/01-02:20:00 contacts 4"
    stub = room.stub("stub", f'#!/usr/bin/env bash\necho "$1" >>"$0.asked"\nseq -f "%g {route}" 1001\necho end\n')
    asked = ["--plan", RELAY, "--from", "31", "--to", "22", "--at", "2030/01/01-00:45:00", "--count", "1001"]
    found = room.timeline("refused", *asked, by=stub)
    told = "there are 1001 routes, and a page has room for 1000: a smaller --count, --via and --distinct choose fewer"
    yield "too many routes", (2, "", f"timeline: {told}; --all draws them\n"), lambda: tuple(found)
    yield "none was explained", "first\n", room.read, "stub.asked"
    yield "no page", False, os.path.exists, f"{room.path}/refused.html"
    found = room.timeline("nowhere/page", "--plan", RELAY)
    yield ("no folder", (5, "", f"timeline: {room.path}/nowhere/page.html: No such file or directory\n"),
           lambda: tuple(found))


# ---- The browser ------------------------------------------------------------------------------------------------


# Waits until nothing is asked, and two frames were drawn.
QUIET = """
const quiet = (left) => requestAnimationFrame(() => {
  if (typeof waiting === "object" && waiting.size) quiet(2);
  else if (left) quiet(left - 1);
  else done();
});
quiet(2);
"""


class Browser(Chromium):
    """A page in Chromium."""

    def __init__(self, width=1440, height=900):
        super().__init__(width, height)
        self.command("Performance.enable", timeDomain="threadTicks")

    def open(self, path, state=""):
        self.driver.get("about:blank")
        self.driver.get(f"file://{path}{state}")
        self.settle()

    def settle(self, rest=0.3):
        """Waits until what moves has come to rest, and what is asked is answered and drawn."""
        time.sleep(rest)
        self.wait_for(QUIET)

    def wait_for(self, script):
        return self.driver.execute_async_script(f"const done = arguments[0]; {script}")

    def run(self, script, *words):
        return self.driver.execute_script(script, *words)

    def part(self, name):
        return self.driver.find_element(By.ID, name)

    def all(self, selector):
        return self.driver.find_elements(By.CSS_SELECTOR, selector)

    def says(self, name):
        """The text of a part, also of one that only a screen reader reads."""
        return self.run("return document.getElementById(arguments[0]).innerText", name).replace("\xa0", " ")

    def view(self):
        return self.run("return [view.first, view.last]")

    def keys(self, *keys):
        self.driver.switch_to.active_element.send_keys(*keys)
        self.settle()

    def place(self, number):
        """Where a contact is drawn, from the left upper corner of the canvas."""
        script = "const it = placeOf(contactWith.get(arguments[0]));"
        script += "return [Math.max(it.left, size.left) + 3, AXIS + it.top - scroller.scrollTop + 8]"
        return self.run(script, number)

    def mouse(self, x, y):
        """The mouse over a place of the canvas."""
        chart = self.part("chart")
        size = chart.size
        x, y = int(x - size["width"] / 2), int(y - size["height"] / 2)
        return ActionChains(self.driver, duration=50).move_to_element_with_offset(chart, x, y)

    def hover(self, number):
        self.mouse(*self.place(number)).perform()
        self.settle(0.1)

    def click(self, number):
        self.mouse(*self.place(number)).click().perform()
        self.settle()

    def wheel(self, turned):
        origin = ScrollOrigin.from_element(self.part("chart"), 100, 0)
        ActionChains(self.driver, duration=50).scroll_from_origin(origin, 0, turned).perform()
        self.settle()

    def touch(self, *steps):
        """Fingers: each step has their places on the canvas; at the end they are taken off."""
        corner = self.part("chart").rect
        for at, step in enumerate(steps):
            points = [{"x": corner["x"] + x, "y": corner["y"] + y, "id": finger} for finger, (x, y) in enumerate(step)]
            self.command("Input.dispatchTouchEvent", type="touchMove" if at else "touchStart", touchPoints=points)
        self.command("Input.dispatchTouchEvent", type="touchEnd", touchPoints=[])
        self.settle()

    def spent(self):
        """The milliseconds of the processor that the page took, whatever else the machine does."""
        found = {it["name"]: it["value"] for it in self.command("Performance.getMetrics")["metrics"]}
        return found["TaskDuration"] * 1000

    def choose(self, name, value):
        """Chooses a value of the question's bar."""
        Select(self.part(name)).select_by_value(value)
        self.settle()

    def ask(self, name, text):
        """Writes a text into a field of the question's bar, and presses Enter."""
        field = self.part(name)
        field.clear()
        field.send_keys(text, Keys.ENTER)
        self.settle()

    def deliveries(self):
        """The deliveries of the listed routes."""
        return [it.text for it in self.all("#routes .delivery")]


# ---- What the page tells ----------------------------------------------------------------------------------------


def beside(time_text, other):
    """A time without the day if that is the other one's."""
    return time_text[11:] if time_text[:10] == other[:10] else time_text


def head(it, room):
    """The head, and the list of routes beside the picture."""
    yield "the title", "relay.txt", it.says, "title"
    yield "the request", "31 lander → 1 control centre, bundle at the source 2030/01/01-00:45:00 UTC", it.says, "asks"
    digest = room.run([room.program, "check", "--plan", RELAY]).out.split()[-1]
    yield "the digest", digest, lambda: it.says("digest")
    yield "a number and its unit stay in one line", "12\xa0h 29\xa0min 59\xa0s", it.run, "return durationText(44999)"
    best = room.routes_of(RELAY, 1)[0][0]
    for at, (delivery, until, contacts) in enumerate(room.routes_of(RELAY, 3)):
        hops = room.hops_of(RELAY, contacts)
        card = it.all("#routes .route")[at]
        told = card.text.split("\n")
        yield f"route {at + 1}, its rank", str(at + 1), lambda: told[0]
        yield f"route {at + 1}, its delivery", delivery, lambda: told[1]
        later = seconds(delivery) - seconds(best)
        yield f"route {at + 1}, how late", "best" if at == 0 else f"+ {lasting(later)}", lambda: told[2]
        path = " → ".join(NAMES[node] for node in [31, *(to for _, to, _, _ in hops)])
        yield f"route {at + 1}, its nodes", path, lambda: told[3]
        held = it.all("#routes .route .volume")[at].get_attribute("title").split(":")[0]
        yield f"route {at + 1}, its volume", ["19200000 bytes", "138240000 bytes", "122880000 bytes"][at], lambda: held
        took = lasting(seconds(delivery) - seconds("2030/01/01-00:45:00"))
        # The last second of the first contact, which is in time for those after it.
        last = time.strftime("%H:%M:%S", time.gmtime(seconds(until) - 1))
        end = [f"3 hops in {took}", f"send by {last} · volume {['19.2', '138.2', '122.9'][at]} MB"]
        yield f"route {at + 1}, its end", end, lambda: told[4:6]
        yield from single(it, at, delivery, hops)


def single(it, at, delivery, hops):
    """A click on a route's card singles it out, and shows its hops."""
    it.all("#routes .route")[at].click()
    it.settle()
    yield f"route {at + 1} is singled out", at, lambda: it.run("return chosen.route")
    yield f"route {at + 1}, the others stand back", 1, it.run, "return routes.filter((it) => !isFaint(it)).length"
    rows = [[cell.text for cell in row.find_elements(By.TAG_NAME, "td")] for row in it.all("#routes li.on tr")[1:]]
    wanted = [
        [str(number), NAMES[to], beside(send, delivery), beside(arrive, delivery)] for number, to, send, arrive in hops
    ]
    yield f"route {at + 1}, its hops", wanted, lambda: [row[:4] for row in rows]
    cut = it.run("""const { right } = document.querySelector("#routes .on .hops").getBoundingClientRect();
        return [...document.querySelectorAll("#routes .on .hops button")].filter((it) => it.getBoundingClientRect().right > right).length""")
    yield f"route {at + 1}, its buttons aren't cut", 0, lambda: cut
    it.all("#routes .route")[at].click()
    it.settle()
    yield f"route {at + 1}, all are shown again", None, it.run, "return chosen.route"


def tips(it, _):
    """What the mouse tells of a contact and of a route. The values stand in the plan, and are reckoned from it."""
    it.hover(11)
    yield "contact 11", """Contact 11
from
22 high relay
to
12 south station
start
2030/01/01-02:30:00
end
04:00:00
lasts
1 h 30 min
rate
62500 bytes/s
light time
1039 s
volume
337.5 MB, 337500000 bytes
routes
1
Click: what if it is lost?""", it.says, "tip"
    it.hover(10)
    told = it.says("tip").split("\n")
    wanted = ["Contact 10", "2030/01/01-00:30:00", "525 MB, 525000000 bytes"]
    yield "contact 10, of no route", wanted, lambda: [told[0], told[6], told[-2]]
    where = "const it = traced.find((it) => it.route.place === 0 && !it.isWait && it.right - it.left > 15);"
    it.mouse(*it.run(f"{where} return [(it.left + it.right) / 2, it.low]")).perform()
    it.settle()
    found = it.says("tip").split("\n")
    yield "a hop's route", "Route 1: 2030/01/01-02:47:22", lambda: found[0]
    yield "a hop's route, its second hop", ["11", "south station", "02:30:00", "02:47:19"], found[3].split, "\t"
    where = "const it = traced.filter((it) => it.route.place === 1 && it.isWait)[2];"
    it.mouse(*it.run(f"{where} return [(it.left + it.right) / 2 + 20, it.low]")).perform()
    it.settle()
    yield "a wait", "waits at 21 low relay until 06:10:00", lambda: it.says("tip").split("\n")[-1]


def losses(it, room):
    """A click on each contact of a route says what the program says of the plan without it."""
    first = room.routes_of(RELAY, 1)[0][0]
    for number in (2, 4, 5, 6, 11, 12):
        it.run("showPlan()")
        it.settle()
        it.click(number)
        lines = it.says("lost").split("\n")
        best = room.routes_of(room.without(RELAY, number), 1)
        later = seconds(best[0][0]) - seconds(first)
        nodes = [31, *(to for _, to, _, _ in room.hops_of(RELAY, best[0][2]))]
        shown = [contacts for _, _, contacts in room.routes_of(RELAY, 3)]
        rank = f", route {shown.index(best[0][2]) + 1}" if best[0][2] in shown else ""
        wanted = [
            f"{lasting(later)} later" if later else "Route 1 still holds",
            f"Next is: {best[0][0]}",
            " → ".join(NAMES[node] for node in nodes) + rank,
        ]
        yield f"contact {number} lost", wanted, lambda: lines[1:4]
        struck = sum(number in contacts for contacts in shown)
        yield f"contact {number} lost, its routes are struck", struck, lambda: len(it.all("li.gone"))
        yield f"contact {number} lost, the address", f"lost={number}", lambda: found_in(f"lost={number}", it.driver.current_url)
        it.click(number)
        yield f"contact {number} is there again", "", lambda: it.says("lost")
    for number, text in ((4, "4"), (5, "4, 5")):
        it.click(number)
        yield f"contacts {text} lost", f"Contact{'s' * (number == 5)} {text} lost", lambda: it.says("lost").split("\n")[0][:len(f"Contact{'s' * (number == 5)} {text} lost")]
    both = room.run([room.program, "first", "--plan", room.without(room.without(RELAY, 4), 5), *ASKED, "--count", "1"]).out
    yield "what is best without both", beside(both.split()[2], ""), lambda: it.says("lost").split("\n")[2].split()[-1]
    deletions = [f"d contact {' '.join(starts_of(RELAY)[number])}" for number in (4, 5)]
    yield "the lines that delete both", deletions, lambda: it.all("#lost pre")[0].text.split("\n")
    it.open(room.relay, "#lost=4,5")
    yield "both, as the address says", "Contacts 4, 5 lost", lambda: it.says("lost").split("\n")[0]
    it.open(room.relay)
    for node, button in ((22, "0 node"), (12, "1 node")):
        it.run("startOver()")
        it.all("#routes .route")[int(button[0])].click()
        it.settle()
        next(it for it in it.all("#routes .nodes button") if it.text == NAMES[node]).click()
        it.settle()
        best = room.run([room.program, "first", "--plan", RELAY, *ASKED, "--avoid", str(node), "--count", "1"]).out.split()[2]
        yield f"node {node} lost", [f"Node {node} {NAMES[node]} lost", f"Next is: {best}"], lambda: it.says("lost").split("\n")[:3:2]
        yield f"node {node} lost, the address", f"avoid={node}", lambda: found_in(f"avoid={node}", it.driver.current_url)
    it.run("startOver()")


# ---- Mouse, keys, touch -----------------------------------------------------------------------------------------


def width(span):
    return span[1] - span[0]


def mouse(it, _):
    """Wheel and drag."""
    before = it.view()
    it.wheel(-300)
    near = it.view()
    yield "the wheel zooms", True, lambda: width(near) < width(before) * 0.8 or (near, before)
    it.mouse(700, 440).click_and_hold().move_by_offset(-200, 0).release().perform()
    it.settle()
    moved = it.view()
    shift = 200 / it.run("return plotWidth()") * width(near)
    yield "a drag moves", True, lambda: abs(moved[0] - near[0] - shift) < shift / 20 and abs(width(moved) - width(near)) < 1 or (moved, near, shift)
    it.wheel(600)
    yield "the wheel zooms out", True, lambda: width(it.view()) > width(moved) or (it.view(), moved)
    for button, sign in (("in", -1), ("out", 1)):
        before = it.view()
        it.part(button).click()
        it.settle()
        yield f"the button {button}", True, lambda: sign * (width(it.view()) - width(before)) > 0 or (it.view(), before)
    it.part("whole").click()
    it.settle()
    yield "the button for the whole plan", True, it.run, "return view.first <= earliest && latest <= view.last || [view.first, earliest, latest, view.last]"
    it.part("fit").click()
    it.settle()
    in_view = "routes.every((it) => view.first < it.hops[0].send && it.delivery < view.last)"
    yield "the button for the routes", True, lambda: it.run(f"return {in_view} || [view.first, view.last]")
    rows = it.run("return rows.list.length")
    it.part("some").click()
    it.settle()
    yield "the links of the routes", (15, 5), lambda: (rows, it.run("return rows.list.length"))
    it.part("all").click()
    it.settle()


def said(it, wanted):
    """What a screen reader is told begins with a text."""
    yield f"it is said, {re.split('[:.]', wanted)[0]}", wanted, lambda: it.says("said")[: len(wanted)]


def keys(it, _):
    """Everything by keys alone, from the first part of the page on."""
    reached, clear = [], []
    for _ in range(22):
        ActionChains(it.driver).send_keys(Keys.TAB).perform()
        reached.append(it.run("const it = document.activeElement; return it.id || it.className || it.textContent"))
        clear.append(it.run("return routes.filter((it) => !isFaint(it)).length"))
    wanted = ["open", "from", "to", "at", "count", "Limits", "ask", "find", "some", "all", "out", "in", "fit", "whole", "theme"]
    wanted += ["keys", "chart", "starts", "tab-routes", *["route"] * 3]
    yield "Tab goes through the page", wanted, lambda: reached
    yield "a route is singled out by the focus", [1] * 3, lambda: clear[-3:]
    it.run("byId('chart').focus()")
    it.keys(Keys.ARROW_RIGHT)
    yield from said(it, "Contact 4: from 31 lander, to 22 high relay, start 2030/01/01-01:00:00, end 02:20:00, lasts 1 h 20")
    tip = it.says("tip")
    yield "the tip of contact 4", ("Contact 4", "Enter: what if it is lost?"), lambda: (tip.split("\n")[0], tip.split("\n")[-1])
    where = [*map(round, it.place(4))]
    it.keys("+")
    yield "a zoom leaves it where it is", (where, tip), lambda: ([*map(round, it.place(4))], it.says("tip"))
    it.keys(Keys.SHIFT + Keys.ARROW_RIGHT + Keys.NULL)
    yield "no tip after a move", False, lambda: it.part("tip").is_displayed()
    it.keys("0")
    for key, contact in ((Keys.ARROW_DOWN, 5), (Keys.ARROW_RIGHT, 6), (Keys.ARROW_UP, 4)):
        it.keys(key)
        yield from said(it, f"Contact {contact}: from 31 lander, to ")
    it.keys(Keys.ENTER)
    yield from said(it, "Contact 4 lost lander → high relay. 3 h 40 min later. Next is: 2030/01/01-06:27:22")
    it.keys("?")
    yield "the list of keys", (True, 13), lambda: (it.part("help").is_displayed(), len(it.all("#help dt")))
    it.keys(Keys.ESCAPE)
    yield "Escape closes the list alone", (False, True), lambda: (it.part("help").is_displayed(), it.run("return isLosing()"))
    it.run("chart.focus()")
    it.keys(Keys.ESCAPE)
    yield "Escape takes that back", "", it.says, "lost"
    before = it.view()
    for name, pressed, holds in (
        ("plus", "+", lambda view: width(view) < width(before)),
        ("minus", "-", lambda view: abs(width(view) - width(before)) < 2),
        ("Shift and an arrow", Keys.SHIFT + Keys.ARROW_RIGHT, lambda view: view[0] > before[0]),
        ("9", Keys.NULL + "9", lambda view: width(view) > width(before) * 2),
        ("0", "0", lambda view: abs(view[0] - before[0]) < 2),
    ):
        it.keys(pressed)
        yield f"the key {name}", True, lambda: holds(it.view()) or (it.view(), before)
    yield from focus(it)


def focus(it):
    """The focus stays in the page, and can be seen, if its button goes away."""
    focused = "const it = document.activeElement; return [it.id || it.innerText.split('\\n')[0], it.matches(':focus-visible')]"
    card = "byId('routes').children[arguments[0]].firstChild.focus()"
    for what, tabs in (("contact", 1), ("node", 4)):
        it.run(card, 1)
        it.keys(Keys.ENTER, *[Keys.TAB] * tabs)
        it.keys(Keys.SPACE)
        yield f"after a lost {what}", ["Take back", True], it.run, focused
        it.keys(Keys.ENTER)
        yield f"after the lost {what} is taken back", (["chart", True], ""), lambda: (it.run(focused), it.says("lost"))
    it.run(card, 2)
    it.keys(Keys.ENTER, Keys.TAB)
    it.keys(Keys.ESCAPE)
    yield "after Escape in a card", ["3", True], it.run, focused
    for key in (Keys.ENTER, Keys.ESCAPE):
        it.run("showLinks('all', 3); byId('one').focus()")
        it.keys(key)
        yield f"after a node's links, by {'Enter' if key == Keys.ENTER else 'Escape'}", ["all", True], it.run, focused


def finding(it, _):
    """Contacts and nodes are found."""
    it.run("chart.focus()")
    it.keys("/")
    yield "a slash goes to the field", "find", it.driver.switch_to.active_element.get_attribute, "id"
    it.keys("12")
    hits = [hit.text.split("\n")[0] for hit in it.all("#found li")]
    yield "a node and a contact", ["Node 12 south station", "Contact 12"], lambda: hits
    it.keys(Keys.ARROW_DOWN, Keys.ENTER)
    yield from said(it, "Contact 12: from 21 low relay, to 12 south station")
    it.keys("/")
    it.keys("high", Keys.ENTER)
    yield "a node by its name", "22 high relay ✕", lambda: it.part("one").text
    yield "after that, keys go to the picture", "chart", it.run, "return document.activeElement.id"
    wanted = len({tuple(link) for _, *link in starts_of(RELAY).values() if "22" in link})
    yield "the links of the node alone", wanted, it.run, "return rows.list.length"
    it.part("one").click()
    it.settle()
    for text, hits, wanted in (
        ("31 > 22", [["lander → high relay", "2 contacts"]], "Contact 4: from 31 lander, to 22 high relay"),
        ("low>south", [["low relay → south station", "2 contacts"]], "Contact 10: from 21 low relay"),
    ):
        it.keys("/")
        it.keys(text)
        yield f"links {text}", hits, lambda: [hit.text.split("\n") for hit in it.all("#found li")]
        it.keys(Keys.ENTER)
        yield from said(it, wanted)
    for text in ("6:00", "06:00:00", "2030-01-01T06:00"):
        it.run("showPlan()")
        it.keys("/")
        it.keys(text)
        yield f"a time {text}", ["2030/01/01-06:00:00"], lambda: [hit.text.split("\n")[0] for hit in it.all("#found li")]
        it.keys(Keys.ENTER)
        yield f"a time {text} is in the middle", BEGIN + 6 * 3600, lambda: round(sum(it.view()) / 2)
    yield "other links again", 15, it.run, "return rows.list.length"
    it.click(11)
    it.part("find").send_keys("nobody")
    yield "nothing is found", "Nothing found", it.says, "found"
    it.keys(Keys.ESCAPE)
    yield "Escape there takes the text alone back", ("", 11), lambda: (
        it.part("find").get_property("value"), it.run("return known.number[[...chosen.lost][0]]"))
    it.keys("/")
    yield "after that, a slash goes to the field again", ("find", ""), lambda: (
        it.run("return document.activeElement.id"), it.part("find").get_property("value"))
    it.run("startOver()")


def touch(it, _):
    """Two fingers zoom, one moves; a tap tells, and a second one loses."""
    it.command("Emulation.setTouchEmulationEnabled", enabled=True, maxTouchPoints=2)
    it.run("showRoutes()")
    it.settle()
    before = it.view()
    it.touch(*([(500 - 15 * step, 300), (600 + 15 * step, 300)] for step in range(9)))
    yield "a pinch zooms", True, lambda: width(it.view()) < width(before) * 0.6 or (it.view(), before)
    before = it.view()
    it.touch(*([(600 - 20 * step, 440)] for step in range(9)))
    yield "a finger moves", True, lambda: it.view()[0] > before[0] or (it.view(), before)
    it.run("showRoutes()")
    it.settle()
    where = [tuple(it.place(12))]
    it.touch(where)
    yield "a tap tells", ["Contact 12", "Tap again"], lambda: [found_in(part, it.says("tip")) for part in ("Contact 12", "Tap again")]
    yield "a tap loses nothing", "", it.says, "lost"
    it.touch(where)
    yield "a second tap loses", "Contact 12 lost low relay → south station", lambda: it.says("lost").split("\n")[0]
    it.command("Emulation.setTouchEmulationEnabled", enabled=False)
    it.run("startOver()")


def surroundings(it, room):
    """Light and dark, prints, and what a screen reader reads."""
    back = "return getComputedStyle(document.body).backgroundColor"
    yield "light", "rgb(255, 255, 255)", it.run, back
    it.part("theme").click()
    yield "dark by the button", "rgb(13, 17, 23)", it.run, back
    it.part("theme").click()
    it.command("Emulation.setEmulatedMedia", features=[{"name": "prefers-color-scheme", "value": "dark"}])
    it.open(room.relay)
    yield "dark as the surroundings are", "rgb(13, 17, 23)", it.run, back
    it.command("Emulation.setEmulatedMedia", features=[])
    it.open(room.relay, "#theme=dark&lost=11")
    yield "dark, as the address says", "rgb(13, 17, 23)", it.run, back
    yield "lost, as the address says", "3 h 40 min later", lambda: it.says("lost").split("\n")[1]
    it.run("location.hash = 'lost=12'")
    it.settle()
    yield "another address", "Contact 12 lost low relay → south station", lambda: it.says("lost").split("\n")[0]
    it.open(room.relay)
    printed = base64.b64decode(it.command("Page.printToPDF", preferCSSPageSize=True, printBackground=True)["data"])
    sheets = len(re.findall(rb"/Type\s*/Page\b", printed))
    yield "a print", (b"%PDF", True), lambda: (printed[:4], 1 <= sheets <= 3 or sheets)
    it.command("Emulation.setEmulatedMedia", media="print")
    display = "return getComputedStyle(document.querySelector(arguments[0])).display"
    parts = ("header", "#chart", "#legend", ".route", ".tools", "#over")
    yield "what isn't printed", [".tools", "#over"], lambda: [part for part in parts if it.run(display, part) == "none"]
    it.command("Emulation.setEmulatedMedia", media="")
    tables = "dispatchEvent(new Event(arguments[0])); return document.querySelectorAll('.hops table').length"
    printed = [it.run(tables, event) for event in ("beforeprint", "afterprint")]
    yield "the hops of all routes are printed", [3, 0], lambda: printed


PAPER = (1047, 718)  # A4 across, without its margins, in pixels


def prints(it, room):
    """A print has all rows, on sheets of which each has the axis and fits its paper."""
    it.open(room.make("twelve", "--plan", RELAY, *ASKED, "--count", "12"))
    wanted = {f"{sender} → {receiver}" for _, sender, receiver in starts_of(RELAY).values()}
    it.command("Emulation.setEmulatedMedia", media="print")
    it.command("Emulation.setDeviceMetricsOverride", width=PAPER[0], height=PAPER[1], deviceScaleFactor=1, mobile=False)
    it.run("dispatchEvent(new Event('beforeprint'))")
    told = it.run("return [...document.querySelectorAll('#sheets svg')].map((sheet) => ["
                  "[...sheet.querySelectorAll('text')].map((it) => it.textContent), sheet.getBoundingClientRect().height])")
    first = it.run("return document.querySelector('#sheets svg').getBoundingClientRect().bottom")
    asked = it.run("return [byId('asks').getClientRects().length, byId('asks').clientHeight, byId('size').clientHeight]")
    places = "const [{ bottom }, { top }] = ['legend', 'sheets'].map((it) => byId(it).getBoundingClientRect());"
    legend = it.run(f"{places} return bottom <= top || [bottom, top]")
    alone = it.run("return getComputedStyle(byId('told-routes')).breakAfter")
    beside = it.run("showPanel('save'); return ['routes', 'save'].map((it) => getComputedStyle(byId(`panel-${it}`)).display)")
    it.run("showPanel('routes')")
    it.run("dispatchEvent(new Event('afterprint'))")
    it.command("Emulation.clearDeviceMetricsOverride")
    it.command("Emulation.setEmulatedMedia", media="")
    yield "all rows", wanted, lambda: {text for texts, _ in told for text in texts if " → " in text}
    yield "the axis on each sheet", (True, []), lambda: (len(told) > 1 or told, [texts for texts, _ in told if "UTC" not in texts])
    yield "the first sheet has room below the heading", True, lambda: first <= PAPER[1] or first
    yield "the legend stands above the first sheet", True, lambda: legend
    yield "the question has one line", True, lambda: asked[0] == 1 and asked[1] < 1.5 * 20 or asked
    yield "the heading of the routes doesn't end a page", "avoid", lambda: alone
    yield "the routes are printed whichever panel is open", ["block", "none"], lambda: beside
    yield "no sheet is higher than its paper", [], lambda: [high for _, high in told if high > PAPER[1]]
    it.part("some").click()
    it.run("dispatchEvent(new Event('beforeprint'))")
    hidden = len(wanted) - len({link for route in room.routes_of(RELAY, 12) for link in links_in(route[2])})
    left_out = it.run("return byId('sheets').lastChild.textContent")
    it.run("dispatchEvent(new Event('afterprint'))")
    yield "links that aren't shown", f"{hidden} more links of the plan not shown", lambda: left_out
    yield from long_print(it, room)


def long_print(it, room):
    """A print lists the first 100 routes with their hops, and says how many more there are. The list is whole again after it."""
    asked = ["--from", "1", "--to", "3", "--at", "2030/01/01-00:00:00", "--count", "103"]
    it.open(room.make("long", "--plan", room.ring_plan(5, 100, "long"), *asked))
    found = """dispatchEvent(new Event(arguments[0]));
        const items = [...document.querySelectorAll('#routes li:not(.rest)')];
        return [items.length, document.querySelectorAll('.hops table').length, items[99].querySelector('.rank').textContent];"""
    printed = it.run(found, "beforeprint")
    left = it.run("return byId('routes').lastChild.textContent")
    whole = it.run(found, "afterprint")
    yield "the first 100 routes are printed", [101, 100, "100"], lambda: printed
    yield "and how many are not", "3 more routes not printed", lambda: left
    yield "all are listed after a print", [103, 0, "100"], lambda: whole


def links_in(contacts):
    return [starts_of(RELAY)[number][1:] for number in contacts]


def in_view(it, room):
    """What was chosen is brought into view."""
    it.open(room.make("twelve", "--plan", RELAY, *ASKED, "--count", "12"))
    it.run("showSpan(0, 3600); scroller.scrollTop = 0")
    for rank in (12, 1):
        it.all("#routes .route")[rank - 1].click()
        it.settle()
        is_in_time = "view.first <= routes[chosen.route].hops[0].send && routes[chosen.route].delivery <= view.last"
        yield f"route {rank}, its time", [rank - 1, True], it.run, f"return [chosen.route, {is_in_time} || [view.first, view.last]]"


SQUEEZED = """
const found = [], real = paper.fillText;
paper.fillText = function (text, x, y, most = Infinity) {
  if (this.measureText(text).width > most) found.push(text);
  return real.call(this, text, x, y, most);
};
paint();
delete paper.fillText;
return found;
"""

AXIS_TEXTS = """
const found = [], real = paper.fillText;
paper.fillText = function (text, x, y, ...more) {
  const wide = this.measureText(text).width, left = x - { left: 0, center: wide / 2, right: wide }[this.textAlign];
  if (y < AXIS) found.push([text, y, left, left + wide]);
  return real.call(this, text, x, y, ...more);
};
paint();
delete paper.fillText;
return found;
"""


def rooms(it, room):
    """Texts don't hide each other."""
    for first in range(-36000, 3600, 1800):
        it.run("showSpan(arguments[0], arguments[0] + 90000)", BEGIN + first)
        texts = it.run(AXIS_TEXTS)
        hiding = [(one[0], other[0]) for at, one in enumerate(texts) for other in texts[:at]
                  if one[1] == other[1] and max(one[2], other[2]) < min(one[3], other[3])]
        yield f"the axis from {first} on", [], lambda: hiding
    late = room.file("late.txt", """\
a contact 2030/01/01-00:00:00 2030/01/01-00:01:00 1 2 5
a contact 2030/01/24-03:33:27 2030/01/24-04:00:00 1 2 5
a range 2030/01/01-00:00:00 2030/01/25-00:00:00 1 2 1
""")
    it.open(room.make("late", "--plan", late, "--from", "1", "--to", "2", "--at", "2030/01/01-00:00:00", "--count", "2"))
    places = "const [card, ...parts] = ['', ' .delivery', ' .late'].map((it) => "
    places += "document.querySelectorAll('#routes li' + it)[1].getBoundingClientRect());"
    yield "a long lateness", ["+ 23 d 3 h 33 min 27 s", True, True], it.run, (
        f"{places} return [document.querySelectorAll('.late')[1].innerText.replaceAll('\\u00a0', ' '), parts[0].right <= parts[1].left, "
        "parts[1].right < card.right]")


def followed(it, _):
    """Routes that stand back can be followed, in light and in dark."""
    it.run("single(0)")
    for name in ("light", "dark"):
        it.run("changeTheme(arguments[0])", name == "dark")
        colours = it.run("return [ink.faint, ...ink.faintRoutes]")
        grounds = it.run("return [ink.back, ink.band]")
        low = [colour for colour in colours if min(contrast(colour, ground) for ground in grounds) < LEAST_CONTRAST]
        yield f"{name}: contrasts", [], lambda: low
        yield f"{name}: they stand back", [], lambda: [it for it in it.run("return ink.routes") if it in colours]
    it.run("changeTheme(false)")
    drawn = "return routes.map((it) => [...ink.routes, ...ink.faintRoutes].indexOf(colourOf(it)))"
    yield "their colours", [0, 9, 10], it.run, drawn
    it.run("startOver()")


def starts(it, room):
    """The timetable below the picture is that of tools/timetable, and its line tells what the program answers for each second."""
    words = ["--program", room.program, "--plan", RELAY, *ASKED[:4], "--between", "2030-01-01", "2030-01-02", "--json"]
    told = json.loads(room.run([f"{TOP}/tools/timetable", *words]).out)
    stretches = [[it["from"], it["delivery"], it["contacts"]] for it in told["stretches"]]
    yield "the timetable", stretches, lambda: it.run("""return starts.map(({first, route, delivery}) => [first, route && delivery].map(
        (second) => second === null ? null : new Date(second * 1000).toISOString().replace(".000", "")).concat(
        [route && route.hops.map((hop) => known.number[hop.contact])]))""")
    it.run("showPlan()")
    it.settle()
    for wanted in (BEGIN + 3 * 3600 + 900, BEGIN + 10 * 3600, BEGIN + 600):
        x, high = it.run("return [xOf(arguments[0]), HIGH / 2]", wanted)
        table = it.part("starts")
        across, down = int(x - table.size["width"] / 2), int(high - table.size["height"] / 2)
        ActionChains(it.driver, duration=50).move_to_element_with_offset(table, across, down).click().perform()
        it.settle()
        yield f"a second near {wanted}", True, lambda: abs(it.run("return chosen.start") - wanted) < 300 or it.run("return chosen.start")
        yield from answers_at(it, room)
    it.run("table.focus()")
    for key, second in ((Keys.PAGE_UP, "02:20:00"), (Keys.PAGE_UP, "03:19:00"), (Keys.ARROW_RIGHT, None), (Keys.PAGE_DOWN, "03:19:00")):
        it.keys(key)
        yield f"a key leads to {second or 'a further second'}", second or "", lambda: found_in(second or "", it.run("return timeText(chosen.start)"))
        yield from answers_at(it, room)
    yield from ends_of_line(it)
    it.open(room.relay, "#at=2030/01/01-04:01:00")
    yield from answers_at(it, room)
    it.keys(Keys.ESCAPE)
    yield "Escape takes that back", ("", None), lambda: (it.says("lost"), it.run("return chosen.start"))


def ends_of_line(it):
    """The line goes to both ends and over seconds of which the page knows nothing, and stays in view."""
    seen = "const at = startSecond(); return [at, view.first <= at && at <= view.last || [view.first, view.last]]"
    it.run("zoom(0.02)")
    for name, second in (("END", 86400), ("HOME", 0), ("PAGE_UP", 8400)):
        it.keys(getattr(Keys, name))
        yield f"the key {name.lower()}", [BEGIN + second, True], it.run, seen
    it.run("startAt(request.at + 99); showSpan(request.at + 100, request.at + 10000)")
    it.keys(Keys.ARROW_LEFT)
    yield "the request's second", [BEGIN + 2700, True], it.run, seen
    it.run("startAt(starts[0].last); [starts[1].first, starts[2].first] = [starts[1].last, starts[2].last]")
    for key, second in ((Keys.ARROW_RIGHT, "starts[1].first"), (Keys.ARROW_RIGHT, "starts[2].first"), (Keys.ARROW_LEFT, "starts[1].last")):
        it.keys(key)
        yield f"over unknown seconds to {second}", True, it.run, f"return chosen.start === {second} || [chosen.start, {second}]"
    it.run("document.querySelector('#lost .back').focus()")
    it.keys(Keys.ENTER)
    yield "after that is taken back", ["starts", None], it.run, "return [document.activeElement.id, chosen.start]"
    it.keys(Keys.END)
    it.keys(Keys.ESCAPE)
    it.settle()
    in_view = "view.first <= routes[0].hops[0].send && routes[0].delivery <= view.last"
    yield "the routes are in view again", True, it.run, f"return {in_view} || [view.first, view.last]"


def answers_at(it, room):
    """What is told for the second at the line, and drawn, is what the program says."""
    second = it.run("return timeText(chosen.start)")
    asked = [*ASKED[:4], "--at", second]
    delivery, _, contacts = room.routes_of(RELAY, 1, asked)[0]
    yield f"{second}, its delivery", f"Delivery {beside(delivery, second)}", lambda: it.says("lost").split("\n")[1]
    told = it.run("return bestThen().hops.map((hop) => [known.number[hop.contact], timeText(hop.send), timeText(hop.arrive)])")
    hops = [[contact, send, arrive] for contact, _, send, arrive in room.hops_of(RELAY, contacts, asked)]
    yield f"{second}, its hops", hops, lambda: told


def groups(it, room):
    """Many links stand under rows for their senders, which open and close."""
    links = [(sender, to) for sender in range(1, 13) for to in range(1, 13) if sender != to]
    lines = "".join(f"a contact +{60 * to} +{60 * to + 30} {sender} {to} 5\n" for sender, to in links)
    plan = room.file("mesh.txt", f"@ 2030/01/01-00:00:00\na range +0 +9000 1 2 1\n{lines}")
    it.open(room.make("mesh", "--plan", plan))
    it.part("all").click()
    it.settle()
    names = "return rows.list.map(rowName)"
    closed = [f"▸ {node} → (11)" for node in range(1, 13)]
    yield "a row for each sender", closed, it.run, names
    it.mouse(300, 46 + 28 + 12).click().perform()
    it.settle()
    opened = ["▸ 1 → (11)", "▾ 2 → (11)", *(f"2 → {to}" for to in range(1, 13) if to != 2), *closed[2:]]
    yield "it opens", opened, it.run, names
    it.mouse(300, 46 + 28 + 12).click().perform()
    it.settle()
    yield "it closes", closed, it.run, names
    it.run("chart.focus()")
    it.keys(Keys.ARROW_DOWN)
    yield from said(it, "Contact 1: from 1, to 2")
    yield "it opens by keys", 23, it.run, "return rows.list.length"
    it.keys(Keys.BACKSPACE)
    yield "it closes by keys", closed, it.run, names
    it.keys(Keys.ARROW_DOWN)
    yield from said(it, "Contact 12: from 2, to 1")


def saving(it, room):
    """The picture can be saved."""
    it.command("Browser.setDownloadBehavior", behavior="allow", downloadPath=room.path)
    it.run("savePicture()")
    until = time.monotonic() + SECONDS
    while not os.path.exists(f"{room.path}/relay.svg") and time.monotonic() < until:
        time.sleep(0.1)
    picture = tree.fromstring(room.read("relay.svg"))
    texts = {part.text for part in picture.iter() if part.tag.endswith("}text")}
    links = {f"{NAMES[int(one)]} → {NAMES[int(other)]}" for _, one, other in starts_of(RELAY).values()}
    yield "the picture", set(), lambda: links - texts


def reader(it, _):
    """Each part has a role and a name for a screen reader."""
    it.all("#routes .route")[0].click()
    it.settle()
    tree = it.command("Accessibility.getFullAXTree")["nodes"]
    found = {(node["role"]["value"], node.get("name", {}).get("value", "")) for node in tree if not node["ignored"]}
    wanted = {
        ("application", "20 contacts, 15 links, 3 routes. Arrow keys go from contact to contact."),
        ("combobox", "Find a contact, node, link or time"), ("button", "Zoom in"), ("button", "Light or dark"),
        ("button", "Contact 11 lost"), ("complementary", "Routes and more"), ("region", "Timeline"), ("toolbar", "View"),
        ("form", "Question"), ("combobox", "from"), ("combobox", "to"), ("textbox", "at the source"), ("button", "Open plan"),
        ("spinbutton", "routes"), ("button", "Ask"), ("tab", "Routes"), ("tabpanel", "Routes"), ("slider", "Bundle at the source"),
    }
    yield "roles and names", set(), lambda: wanted - found
    nameless = [role for role, name in found if role in ("button", "combobox", "application", "textbox") and not name]
    yield "nothing is without a name", [], lambda: nameless
    it.all("#routes .route")[0].click()


# ---- Other pages ------------------------------------------------------------------------------------------------


def others(it, room):
    """A plan alone, lost contacts, ISO times, explained routes, no route, limits, names of links."""
    it.open(room.make("alone", "--plan", RELAY))
    yield "a plan alone", ("20 contacts", True), lambda: (it.says("asks"), it.part("empty").is_displayed())
    yield "a plan alone has no button for routes", [], lambda: [name for name in ("some", "fit") if it.part(name).is_displayed()]
    it.open(room.make("lost", "--plan", RELAY, "--without", "11,12", *ASKED, "--count", "2"))
    it.hover(11)
    yield "a lost contact stays", "Contact 11, lost", lambda: it.says("tip").split("\n")[0]
    wanted = room.routes_of(room.without(room.without(RELAY, 11), 12), 2)
    yield "the routes without them", [route[0] for route in wanted], it.deliveries
    yield "they are told", "without 2 contacts ✕", lambda: it.part("without").text
    it.open(room.make("iso", "--plan", RELAY, "--iso", *ASKED, "--count", "1"))
    yield "ISO times", "2030-01-01T02:47:22Z", lambda: it.all(".delivery")[0].text
    dates = it.run("return [dayText(request.at), tickLabel(request.at, { seconds: DAY, months: 0 })]")
    yield "ISO dates", ["2030-01-01", "01-01"], lambda: dates
    it.open(room.make("explained", "--plan", RELAY, "--explained", f"{TOP}/examples/relay-routes.txt"))
    yield "explained routes", ("3 routes", 0), lambda: (it.says("told-routes"), len(kept_of(f"{room.path}/explained.html", "first")))
    it.open(room.make("none", "--plan", RELAY, *ASKED, "--max-hops", "1", "--count", "1"))
    yield "no route", ("No route", "UTC, at most 1 hop"), lambda: (it.says("told-routes"), it.says("asks")[-18:])
    between = ("--between", "2030-01-01T06:00:00Z", "2030-01-01T07:00:00Z")
    it.open(room.make("between", "--plan", RELAY, *ASKED, "--count", "3", *between, "--used"))
    yield "a span, and the routes' links", (3600, 5), lambda: (width(it.view()), it.run("return rows.list.length"))
    it.open(room.make("empty", "--plan", "/dev/null"))
    yield "an empty plan", "0 contacts", it.says, "asks"


# ---- Without an engine ------------------------------------------------------------------------------------------


def without_engine(it, room):
    """Where nothing answers, the page shows what it knows, and says which browsers answer the rest."""
    text = re.sub(r'(<script type="text/plain" id="module">)[^<]*', r"\1", text_of(room.relay))
    it.open(room.file("silent.html", text))
    yield "the routes", [route[0] for route in room.routes_of(RELAY, 3)], it.deliveries
    made = "This page shows what was found when it was made. Chrome"
    yield "it says so", made, lambda: it.says("told")[: len(made)]
    yield "the timetable", True, lambda: it.part("below").is_displayed() or (it.part("below").rect, it.says("told"))
    for number in (2, 4, 11):
        it.run("showPlan()")
        it.settle()
        it.click(number)
        best = room.routes_of(room.without(RELAY, number), 1)[0][0]
        yield f"contact {number} lost", f"Next is: {best}", lambda: it.says("lost").split("\n")[2]
        it.click(number)
    for number in (2, 11, 12):
        it.click(number)
    known = room.routes_of(room.without(RELAY, 2), 1)[0]
    yield "contacts 2, 11 and 12 lost", f"Next is: {known[0]}", lambda: it.says("lost").split("\n")[2]
    it.run("startOver()")
    for number in (11, 12):
        it.click(number)
    yield "what it doesn't know", "This browser can't answer that", lambda: it.says("lost").split("\n")[1][:30]
    it.ask("at", "2030/01/01-05:00:00")
    yield "another question", ["This browser can't answer that", "Firefox"], lambda: [
        found_in(part, it.says("refused")) for part in ("This browser can't answer that", "Firefox")]
    it.all(".rest button")[0].click()
    it.settle()
    yield "a further page", "This browser can't answer that", lambda: it.says("refused")[:30]
    it.run("openPlan('other.txt', 'a contact +0 +1 1 2 3\\n')")
    it.settle()
    yield "another plan", "other.txt isn't opened: This browser can't answer that", lambda: it.says("refused")[:54]
    yield "the routes stay", 3, lambda: len(it.deliveries())


# ---- Asking -----------------------------------------------------------------------------------------------------

TWO = """\
# two contacts
a range 2030/01/01-00:00:00 2030/01/02-00:00:00 1 2 1
a range 2030/01/01-00:00:00 2030/01/02-00:00:00 2 3 40
a contact 2030/01/01-00:10:00 2030/01/01-00:20:00 1 2 100
a contact 2030/01/01-00:15:00 2030/01/01-00:25:00 2 3 100
"""
OTHER = {"from": "1", "to": "3"}

DROPPED = """
const data = new DataTransfer();
data.items.add(new File([arguments[0]], arguments[1]));
for (const kind of ["dragover", "drop"]) {
  document.body.dispatchEvent(new DragEvent(kind, { dataTransfer: data, bubbles: true, cancelable: true }));
}
"""
PASTED = """
const data = new DataTransfer();
data.setData("text", arguments[0]);
document.body.dispatchEvent(new ClipboardEvent("paste", { clipboardData: data, bubbles: true, cancelable: true }));
"""


def another_plan(it, room):
    """Another plan is chosen, dropped or pasted, and asked."""
    path = room.file("two.txt", TWO)
    digest = room.run([room.program, "check", "--plan", path]).out.split()[-1]
    asked = ["--from", "1", "--to", "3", "--at", "2030/01/01-00:10:00"]
    (delivery, _, contacts), = room.routes_of(path, 3, asked)
    acts = {
        "two.txt": lambda: (it.run("byId('file').hidden = false"), it.part("file").send_keys(path)),
        "dropped.txt": lambda: it.run(DROPPED, TWO, "dropped.txt"),
        "pasted plan": lambda: it.run(PASTED, TWO),
    }
    for name, act in acts.items():
        it.open(room.relay)
        act()
        it.settle()
        yield f"{name}: its name and size", (name, "2 contacts, 2 links"), lambda: (it.says("title"), it.says("size"))
        yield f"{name}: its digest", digest, lambda: it.says("digest")
        yield f"{name}: its nodes, without the names of others", ["choose", "1", "2", "3"], lambda: [
            option.text for option in Select(it.part("from")).options]
        yield f"{name}: nothing is asked yet", ("", True), lambda: (it.says("told-routes"), it.part("empty").is_displayed())
        for end, node in OTHER.items():
            it.choose(end, node)
        yield f"{name}: its route", [delivery], it.deliveries
        found = it.run("return routes[0].hops.map((hop) => [known.number[hop.contact], timeText(hop.send), timeText(hop.arrive)])")
        hops = [[contact, send, arrive] for contact, _, send, arrive in room.hops_of(path, contacts, asked)]
        yield f"{name}: its hops", hops, lambda: found
    bad = f"{TWO}a contact 2030/01/01-00:10:00 2030/01/01-00:20:00 1 2 100\n"
    it.run(DROPPED, bad, "bad.txt")
    it.settle()
    told = room.run([room.program, "check", "--plan", room.file("bad.txt", bad)]).err.strip().removeprefix("cgrlist: ")
    repair = "a contact with that start, sender and receiver stands above: take one out"
    yield "a plan that is refused", f"bad.txt isn't opened: {told}: {repair}", lambda: it.says("refused").removesuffix("Show the text")
    yield "nothing else is changed", ("pasted plan", [delivery]), lambda: (it.says("title"), it.deliveries())
    it.run(PASTED, f"{text_of(RELAY)}\n")
    it.settle()
    yield "a good one after it", ("pasted plan", "20 contacts, 15 links", ""), lambda: tuple(map(it.says, ("title", "size", "refused")))


def questions(it, room):
    """Another question is answered as the program answers it, with its timetable."""
    def wanted(**words):
        asked = [word for name, value in {"from": "31", "to": "1", "at": "2030/01/01-00:45:00", **words}.items()
                 for word in (f"--{name.replace('_', '-')}", value)]
        return [route[0] for route in room.routes_of(RELAY, 3, asked)]

    it.ask("at", "2030/01/01-02:30:00")
    yield "another time", wanted(at="2030/01/01-02:30:00"), it.deliveries
    yield "its timetable", True, it.run, "return starts.length > 3 && starts[0].first === earliest || [starts.length, starts[0], earliest]"
    it.ask("at", "2030-01-01T00:45:00Z")
    yield "a time of ISO 8601", (wanted(), "2030/01/01-00:45:00"), lambda: (it.deliveries(), it.part("at").get_property("value"))
    it.ask("at", "04:00")
    yield "a clock alone", wanted(at="2030/01/01-04:00:00"), it.deliveries
    it.choose("to", "11")
    yield "another destination", wanted(at="2030/01/01-04:00:00", to="11"), it.deliveries
    it.run("byId('limits').open = true")
    it.ask("maxHops", "1")
    yield "at most one hop", (wanted(at="2030/01/01-04:00:00", to="11", max_hops="1"), "No route"), lambda: (
        it.deliveries(), it.says("told-routes"))
    it.part("maxHops").clear()
    it.choose("to", "1")
    it.choose("further", "12")
    yield "a node to avoid", (wanted(at="2030/01/01-04:00:00", avoid="12"), "12"), lambda: (
        it.deliveries(), it.part("avoid").get_property("value"))
    it.ask("marginPpm", "1000000")
    yield "a margin", wanted(at="2030/01/01-04:00:00", avoid="12", margin_ppm="1000000"), it.deliveries
    yield "limits are marked", "set", lambda: found_in("set", it.part("limits").get_attribute("class"))
    it.part("marginPpm").send_keys(Keys.ESCAPE)
    yield "Escape closes the limits", (None, "SUMMARY"), lambda: (
        it.part("limits").get_attribute("open"), it.run("return document.activeElement.tagName"))
    it.open(room.relay)
    it.run("startAt(request.at + 9 * 3600); change()")
    button = next(part for part in it.all("#lost button") if part.text.startswith("List"))
    button.click()
    it.settle()
    yield "the second of the timetable's line", wanted(at="2030/01/01-09:45:00"), it.deliveries


def paging(it, room):
    """Pages follow each other as the program's do, to the end of the list."""
    asked = ["--from", "11", "--to", "31", "--at", "2030/01/01-00:45:00"]
    routes = room.routes_of(RELAY, 1000, asked)
    it.run("byId('from').value = '11'; byId('to').value = '31'; byId('count').value = '2'; form.requestSubmit()")
    it.settle()
    for shown in range(2, len(routes) + 2, 2):
        yield f"the first {shown}", [route[0] for route in routes[:shown]], it.deliveries
        rest = it.all(".rest button")
        yield f"after {shown}, a button for more", shown < len(routes), lambda: bool(rest)
        if rest:
            rest[0].click()
            it.settle()
    whole = room.run([room.program, "first", "--plan", RELAY, *asked, "--count", "1000"]).out
    yield "the report of all pages", whole, it.run, "return listing.report"


def losing(it, room):
    """Any contacts and nodes can be lost: by mouse, keys and touch. What is best then is what the program says."""
    def best_of(*numbers, avoid=()):
        plan = RELAY
        for number in numbers:
            plan = room.file("lost.txt", f"{text_of(plan)}\nd contact {' '.join(starts_of(RELAY)[number])}\n")
        return room.routes_of(plan, 3, [*ASKED, *(("--avoid", ",".join(avoid)) if avoid else ())])

    def told():
        return it.says("lost").split("\n")

    for number in (11, 12):
        it.click(number)
    yield "by mouse", ["Contacts 11, 12 lost", f"Next is: {best_of(11, 12)[0][0]}"], lambda: told()[:3:2]
    it.run("chart.focus()")
    it.keys(Keys.ESCAPE)
    for number in (2, 4):
        it.run("goTo(contactWith.get(arguments[0]))", number)
        it.keys(Keys.ENTER)
    yield "by keys", ["Contacts 2, 4 lost", f"Next is: {best_of(2, 4)[0][0]}"], lambda: told()[:3:2]
    it.keys(Keys.ESCAPE)
    it.command("Emulation.setTouchEmulationEnabled", enabled=True, maxTouchPoints=2)
    for number in (10, 11):
        for _ in range(2):
            it.touch([tuple(it.place(number))])
    yield "by touch", ["Contacts 10, 11 lost", f"Next is: {best_of(10, 11)[0][0]}"], lambda: told()[:3:2]
    it.command("Emulation.setTouchEmulationEnabled", enabled=False)
    it.run("startOver(); loseNode(known.nodes.indexOf('21'))")
    it.settle()
    it.run("loseNode(known.nodes.indexOf('12'))")
    it.settle()
    yield "nodes", ["Node 21 low relay and node 12 south station lost", f"Next is: {best_of(avoid=('12', '21'))[0][0]}"], lambda: told()[:3:2]
    it.run("startOver(); showLinks('all', known.nodes.indexOf('22'))")
    it.part("none").click()
    it.settle()
    yield "the node whose links are shown", "Node 22 high relay lost", lambda: told()[0]
    it.run("startOver(); loseNode(known.nodes.indexOf('31'))")
    it.settle()
    yield "the source", ["Node 31 lander lost", "No route is left"], lambda: told()[:2]
    it.run("startOver()")
    for number in (11, 12):
        it.click(number)
    next(part for part in it.all("#lost button") if part.text.startswith("List")).click()
    it.settle()
    yield "the routes without both", [route[0] for route in best_of(11, 12)], it.deliveries
    it.part("without").click()
    it.settle()
    yield "the routes with both again", [route[0] for route in room.routes_of(RELAY, 3)], it.deliveries


def stopping(it, room):
    """What takes long shows that it runs, and can be stopped; a later question doesn't wait for it."""
    plan = room.ring_plan(60, 20000, "ring")
    it.open(room.make("ring", "--plan", plan))
    it.run("""const requests = Array.from({ length: 2000 }, (_, place) => `1 30 ${programTime(earliest + 60 * place)}\\n`).join("");
        askHere("many", { requests, count: "100" }).then((it) => (globalThis.ended = it))""")
    it.wait_for("const look = () => (byId('stop').hidden ? setTimeout(look, 20) : done()); look()")
    yield "it shows that it runs", "busy", lambda: found_in("busy", it.all("body")[0].get_attribute("class"))
    it.part("stop").click()
    it.settle()
    yield "it is stopped", [None, "Stopped."], it.run, "return [ended.status, ended.message]"
    yield "nothing runs", False, it.part("stop").is_displayed
    for end, node in (("from", "1"), ("to", "5")):
        it.choose(end, node)
    asked = ["--from", "1", "--to", "5", "--at", "2030/01/01-00:00:05"]
    it.ask("at", asked[-1])
    yield "a later question", [route[0] for route in room.routes_of(plan, 3, asked)], it.deliveries


def refused(it, room):
    """Values that the program refuses get its message, and the routes stay."""
    before = it.deliveries()
    for name, option, text in (
        ("at", "at", "noon"), ("at", "at", "2030/02/30-00:00:00"), ("count", "count", "0"), ("count", "count", "10001"),
        ("marginPpm", "margin-ppm", "1.5"), ("maxHops", "max-hops", "x"), ("avoid", "avoid", "31"), ("avoid", "avoid", "x"),
    ):
        it.open(room.relay)
        it.run("byId('limits').open = true; form.noValidate = true")
        it.ask(name, text)
        words = ["--from", "31", "--to", "1", "--at", ASKED[-1], "--count", "3", f"--{option}", text]
        given = [word for at, word in enumerate(words) if not (word == f"--{option}" and at < 8 or words[at - 1] == f"--{option}" and at < 9)]
        told = room.run([room.program, "first", "--plan", RELAY, *given]).err.strip().removeprefix("cgrlist: ")
        yield f"{option} {text}", (told, before), lambda: (it.says("refused"), it.deliveries())
    it.open(room.relay)
    it.choose("to", "31")
    yield "the same node twice", "request: SameNode", lambda: it.says("refused")
    it.choose("to", "1")
    yield "a good question after it", ("", before), lambda: (it.says("refused"), it.deliveries())


def markup(it, room):
    """Texts of a plan, of a file's name and of a message are never markup."""
    tag = "<img src=x onerror=alert(1)><b id=bold>"
    it.run(DROPPED, f"# {tag}</script><script>\n{TWO}", f"{tag}.txt")
    it.settle()
    found = "return document.querySelectorAll('img, #bold').length"
    yield "a plan and its name", (f"{tag}.txt", 0), lambda: (it.says("title"), it.run(found))
    it.run(DROPPED, f"{tag}\n", f"{tag}.txt")
    it.settle()
    yield "a refused plan", (tag, 0), lambda: (found_in(tag, it.says("refused")), it.run(found))
    it.choose("from", "1")
    it.choose("to", "3")
    it.ask("at", tag)
    yield "a value", ("bad --at", 0), lambda: (it.says("refused"), it.run(found))
    saved = room.file("saved.html", it.run("return pageText(dataNow())"))
    it.open(saved)
    yield "the page that is saved", (f"{tag}.txt", 0, 1), lambda: (it.says("title"), it.run(found), len(it.deliveries()))


# ---- A week, many nodes, many contacts --------------------------------------------------------------------------


FRAMES = 120
PANNING = f"""
let count = 0;
function step() {{
  pan(count % 80 < 40 ? 9 : -9);
  if (++count < {FRAMES}) requestAnimationFrame(step);
  else done();
}}
step();
"""


def opening(it, path):
    """How many milliseconds of the processor it takes from opening a page to its second frame, at least."""
    times = []
    for _ in range(MEASURED):
        it.driver.get("about:blank")
        before = it.spent()
        it.driver.get(f"file://{path}")
        it.settle(0)
        times.append(it.spent() - (before if before < it.spent() else 0))
    return round(min(times))


def panning(it):
    """How many milliseconds of the processor a frame takes while the view moves."""
    before = it.spent()
    it.wait_for(PANNING)
    return round((it.spent() - before) / FRAMES, 1)


def sizes(it, room):
    """A plan of so many contacts opens within a second, and pans at 30 frames a second at least, 33 ms for each."""
    asked = ["--from", "1", "--to", "5", "--at", "2030/01/01-00:10:00"]
    for name, nodes, contacts in (("week", 20, 20 * 48 * 7), ("sixty", 60, 60 * 48), ("many", 200, 20000)):

        @cache
        def measured():
            plan = room.ring_plan(nodes, contacts, name)
            path = room.make(name, "--plan", plan, *asked, "--count", "5")
            opened = opening(it, path)
            it.part("all").click()
            it.part("whole").click()
            it.settle()
            counts = it.run("return [contactCount, rows.list.length]")
            best = room.routes_of(plan, 1, asked)[0][0], it.all(".delivery")[0].text
            return os.path.getsize(path), opened, counts, panning(it), best

        yield within(f"{name}, bytes", 2_500_000, lambda: measured()[0])
        yield within(f"{name}, milliseconds to open", 1000, lambda: measured()[1])
        yield f"{name}, contacts and links", [contacts, nodes], lambda: measured()[2]
        yield within(f"{name}, milliseconds for a frame", 33, lambda: measured()[3])
        yield f"{name}, the best route is the program's", True, lambda: len(set(measured()[4])) == 1 or measured()[4]


# How many pixels of the hops of an open route don't fit into its card, or its buttons.
BESIDE_THE_CARD = """
const card = document.querySelector('.hops').parentElement, edge = card.getBoundingClientRect().right;
const over = [...card.querySelectorAll('button, td')].map((it) => it.getBoundingClientRect().right - edge);
return Math.max(0, card.scrollWidth - card.clientWidth, ...over.map(Math.ceil))"""


def narrow(room):
    it = Browser(500, 800)
    try:
        it.command("Emulation.setDeviceMetricsOverride", width=360, height=740, deviceScaleFactor=2, mobile=True)
        it.open(room.relay)
        yield "a page isn't wider than its window", 360, it.run, "return document.documentElement.scrollWidth"
        squeezed = it.run(SQUEEZED)
        yield "no name is squeezed", [], lambda: squeezed
        it.run("chart.scrollIntoView()")
        it.click(11)
        yield "the answer is in view", True, lambda: it.run(
            "const { top, bottom } = byId('lost').getBoundingClientRect(); return 0 <= top && bottom <= innerHeight || [top, bottom, innerHeight]")
        yield "hops are no wider than their card", 0, it.run, BESIDE_THE_CARD
        it.run("scroller.style.width = '3px'")
        it.settle()
        yield "no complaint, though the picture is narrower than a name", [], it.faults
        for wide in (1100, 1280, 1920):
            it.command("Emulation.setDeviceMetricsOverride", width=wide, height=800, deviceScaleFactor=1, mobile=False)
            it.open(room.relay)
            it.run("single(0)")
            it.settle()
            yield f"nor are they in a window of {wide} px", 0, it.run, BESIDE_THE_CARD
    finally:
        it.driver.quit()


# ---- The sections -----------------------------------------------------------------------------------------------


def driven(section, room):
    """What a section checks over the page of examples/relay.txt, and what the browser tells then."""
    room.browser.open(room.relay)
    yield from section(room.browser, room)
    yield "no complaint, and nothing loaded", [], room.browser.faults


FILE = (what_stands_there, what_it_knows, example, writing, refusals)
DRIVEN = (head, tips, losses, mouse, keys, finding, touch, surroundings, prints, in_view, rooms, followed, starts, groups, saving)
DRIVEN += (reader, others, sizes, without_engine)
ASKING = (another_plan, questions, paging, losing, stopping, refused, markup)  # these need the engine
SECTIONS = {it.__name__.replace("_", " "): it for it in FILE}
BROWSED = {**{it.__name__.replace("_", " "): partial(driven, it) for it in DRIVEN}, "narrow": narrow}
ASKED_HERE = {it.__name__.replace("_", " "): partial(driven, it) for it in ASKING}


def lacking():
    """What asking in the browser needs and isn't there; None if all is."""
    return lack() or (None if os.path.exists(MODULE) else "the engine's module isn't built")


def named(name, section, room):
    for title, *further in section(room):
        yield f"{name}: {title}", *further


def checks(asked):
    sections = {**SECTIONS, **({} if lack() else BROWSED), **({} if lacking() else ASKED_HERE)}
    if lacking():
        print(f"page: what a browser {'shows' if lack() else 'asks'} is left out, {lacking()}")
    alone, room = asked.text.partition(": ")[0], Pages(asked.program("cgrlist"))
    chosen = [alone] if alone in sections else [*sections]
    try:
        yield from checks_of("page", room, [partial(named, it, sections[it]) for it in chosen])
    finally:
        if "browser" in vars(room):
            room.browser.driver.quit()
