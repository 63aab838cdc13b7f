"""Tries the panels of the page in a browser: the plan's text and its bad lines, judging, sessions, what is saved, and links.

What a panel says is compared with what the program and the tools say of the same texts. Without a browser, or without the
engine's module, nothing is tried, and a line says so. The name of a check begins with its section, as those of page do.
"""

import json
import os
import time
from functools import partial

from checking import TOP, Broken, checks_of
from page import ASKED, NAMES, RELAY, SQUEEZED, Browser, Pages, lack, named, text_of

try:
    from selenium.webdriver.common.keys import Keys
except ImportError:
    Keys = None

MODULE = f"{TOP}/tools/cgrlist/engine/cgrlist.wasm.gz"
SECONDS = 60  # so long may an answer take on a machine that is busy
PANELS = ("plan", "judge", "session", "save")


def lacking():
    """What the panels need and isn't there; None if all is."""
    return lack() or (None if os.path.exists(MODULE) else "the engine's module isn't built")


# ---- What a hand does -------------------------------------------------------------------------------------------


def waited(it, script, *words):
    """What a script gives, as soon as that is something."""
    until = time.monotonic() + SECONDS
    while time.monotonic() < until:
        if found := it.run(f"return {script}", *words):
            return found
        time.sleep(0.05)
    raise Broken(f"nothing comes of {script}")


def show(it, panel):
    it.part(f"tab-{panel}").click()
    it.settle(0.1)


def write(it, name, text):
    """Writes a text into a field, in place of what stands there."""
    script = "const it = document.getElementById(arguments[0]); it.value = arguments[1]; it.dispatchEvent(new Event('input'))"
    it.run(script, name, text)


def press(it, panel, label):
    """Presses a button of a panel."""
    script = "[...document.querySelectorAll(`#panel-${arguments[0]} button`)].find((it) => [it.textContent, it.ariaLabel].includes(arguments[1]))"
    waited(it, script, panel, label).click()


def state(it, panel):
    """What a panel tells, as soon as nothing runs."""
    script = "(() => { const it = document.querySelector(`#panel-${arguments[0]} .status`).textContent; return it.endsWith('..') ? '' : it })()"
    it.settle(0.5)
    return waited(it, script, panel)


def given(it, panel, path):
    """Opens a file in a panel."""
    it.run("for (const one of document.querySelectorAll('input[type=file]')) one.hidden = false")
    it.all(f"#panel-{panel} input[type=file]")[0].send_keys(path)
    it.run("for (const one of document.querySelectorAll('#panels input[type=file]')) one.hidden = true")


def table_of(it, selector):
    """The texts of a table's cells."""
    script = "return [...document.querySelectorAll(arguments[0])].map((row) => [...row.children].map((it) => it.innerText.trim()))"
    return it.run(script, selector)


def saved(it, room, panel, label, name):
    """The text of the file that a button saves."""
    path = f"{room.path}/{name}"
    if os.path.exists(path):
        os.remove(path)
    it.command("Browser.setDownloadBehavior", behavior="allow", downloadPath=room.path)
    press(it, panel, label)
    until = time.monotonic() + SECONDS
    while not (os.path.exists(path) and os.path.getsize(path)) and time.monotonic() < until:  # it is empty at first
        time.sleep(0.05)
    return room.read(name)


def routes_shown(it):
    """The routes in the list, each as rank, delivery and contacts."""
    return it.run("return routes.map((it) => [it.rank, timeText(it.delivery), it.contacts])")


def tool(room, *words):
    return room.run([f"{TOP}/tools/{words[0]}", *words[1:]], CGRLIST=room.program).out


# ---- The plan's text --------------------------------------------------------------------------------------------

FAULTY = """@ 2030/01/01-00:00:00
a contact +0 +100 1 2 1000
m production 1000000
a contact +0 +200 1 2 1000
a contact +0 +100 1 2 1000 0.5
a range +0 +100 1 2 1.5
a range +0 +100 1 2 1
a range +50 +150 1 2 2
a contact 2030/1/1-00:00:00 +100 1 2 5
a contact +0 +100 ipn:1.0 2 5
a contact +100 +50 1 2 5
a contact +0 +100 1 1 5
d contact +0 2 1
A contact +0 +100 2 1 5
<img src=x onerror=alert(1)>
a contact +0 +100 2 1 5 é
"""


def bad_lines(it, room, text):
    """The lines, reasons and repairs that the tool has of a text and that the panel shows."""
    told = json.loads(tool(room, "check", "--plan", room.file("faulty.txt", text), "--json"))["bad_lines"]
    first = {bad["reason"]: bad["line"] for bad in reversed(told)}
    wanted = [[f"line {bad['line']}", bad["reason"], bad["text"], f"{bad['reason']}: {bad['repair']}" * (first[bad["reason"]] == bad["line"])]
              for bad in told]
    script = "[...document.querySelectorAll('.faults li')].map((it) => ['button', 'b', 'code', 'p'].map((part) => it.querySelector(part)?.textContent ?? ''))"
    return wanted, it.run(f"return {script}")


def facts_of(room, plan):
    """What the program tells of a plan, but for the digest."""
    return ", ".join(room.run([room.program, "check", "--plan", plan]).out.splitlines()[:4]) + "."


def plan_text(it, room):
    show(it, "plan")
    yield "the text", text_of(RELAY), it.run, "return planArea.value"
    yield "whose it is", f"This is the plan that is shown, relay.txt: {facts_of(room, RELAY)}", state, it, "plan"
    write(it, "planText", FAULTY)
    told = state(it, "plan")
    yield "the sum", "13 bad lines: each adds nothing, so another may be bad because of it alone.", lambda: told
    wanted, found = bad_lines(it, room, FAULTY)
    yield "the bad lines", wanted, lambda: found
    yield "the numbers beside them", ["3", "4", "5"], it.run, "return [...document.querySelectorAll('.gutter .bad')].slice(0, 3).map((it) => it.textContent.trim())"
    yield "no markup", 0, it.run, "return document.querySelectorAll('#panels img').length"
    press(it, "plan", "line 9")
    yield "a jump", FAULTY.split("\n")[8], it.run, "const it = document.activeElement; return it.value.slice(it.selectionStart, it.selectionEnd)"
    press(it, "plan", "Use this text")
    waited(it, "document.getElementById('refused').innerText")
    yield "a refused text", ["# A day at Mars", "relay.txt"], it.run, "return [app.plan.text.slice(0, 15), app.plan.name]"
    press(it, "plan", "Take changes back")
    yield "changes are taken back", text_of(RELAY), it.run, "return planArea.value"


def used_text(it, room):
    """A changed text is the page's plan, of which the same question is asked."""
    show(it, "plan")
    text = f"{text_of(RELAY)}\nd contact 2030/01/01-01:00:00 31 22\n"
    write(it, "planText", text)
    path = room.file("changed.txt", text)
    yield "no bad line", f"No bad line: {facts_of(room, path)}", state, it, "plan"
    it.run("planArea.focus()")
    it.keys(Keys.CONTROL, Keys.ENTER)
    waited(it, "routes.length && app.plan.text === arguments[0] && routes[0].contacts[0] === 5", text)
    best = room.routes_of(path, 1)[0]
    yield "its best route", [best[0], best[2]], lambda: routes_shown(it)[0][1:]
    yield "whose it is then", f"This is the plan that is shown, relay.txt: {facts_of(room, path)}", state, it, "plan"
    it.part("ask").click()
    yield "the routes are beside the picture when they are asked for", [False, True], it.run, """
        return [byId("panel-routes").hidden, byId("panel-plan").hidden]"""
    show(it, "plan")
    write(it, "planText", "a contact 2030/01/01-00:00:00 2030/01/01-01:00:00 8 9 100\n")
    press(it, "plan", "Use this text")
    waited(it, "contactCount === 1")
    it.settle()
    yield "a plan without the question's nodes isn't asked it", [None, "", "2030/01/01-00:00:00"], it.run, """
        return [request, byId("from").value, byId("at").value]"""
    yield "the words beside the timetable aren't squeezed", True, it.run, """
        paper.font = SMALL; const width = paper.measureText("best delivery,").width;
        return width <= size.left - 16 || [width, size.left]"""


def other_texts(it, room):
    """Texts that are no plan's: what they are and how they are converted; line ends; more bad lines than are shown."""
    show(it, "plan")
    for name, text, wanted in (
        ("JSON", '{"contacts": []}', "This is JSON: if it is HDTN's, tools/from_ionrc --form hdtn FILE makes a plan of it"),
        ("XML", "<plan/>", "This is XML, which has no plan's lines"),
        ("a zip archive", "PK\x03\x04", "This is compressed: unpack it first"),
        ("201 bad lines", "m\n" * 201, "The first 200 bad lines; there may be more: each adds nothing, so another may be bad because of it alone."),
    ):
        write(it, "planText", text)
        yield name, wanted, state, it, "plan"
    ends = room.file("ends.txt", "\ufeff" + text_of(RELAY).replace("\n", "\r\n"))
    it.part("file").send_keys(ends)
    waited(it, "app.refused")
    yield "line ends", f"No bad line: {facts_of(room, RELAY)} Here its lines end with LF, and it has no byte order mark.", state, it, "plan"
    press(it, "plan", "Use this text")
    yield "written as LF", "ends.txt", waited, it, "app.plan.name === 'ends.txt' && app.plan.name"


# ---- Judging ----------------------------------------------------------------------------------------------------

CHOSEN = """# chosen
4,11,2 31 1 2030-01-01T00:45:00Z
5,12,2 31 1 2030-01-01T00:45:00Z
4,12,2 31 1 2030/01/01-00:45:00
31>21@2030-01-01T05:04:00Z,21>12@2030-01-01T06:10:00Z,12>1@2030-01-01 31 1 2030-01-01T03:30:00Z
4,11,2 31 1 2030-01-01T00:45:00Z 0 2
4,11,2 31 1 2030-01-01T00:45:00Z 100000 40 12
7,3 31 1 2030-01-01T00:45:00Z
4 31 1 2030-01-01T00:45:00Z
4,99 31 1 2030-01-01T00:45:00Z
4,11,2 lander control centre 2030-01-01T00:45:00Z
- 31 1 2030-01-01T00:45:00Z
- 31 1 1893542400
{"contacts": [4, 11, 2], "from": 31, "to": "control centre", "at": 1893458700}
{"contacts": [5, 12, 2], "request": {"from": 31, "to": 1, "at": "2030-01-01T00:45:00Z", "avoid": [22], "max_hops": 5}}
{"contacts": null, "from": 31, "to": 1, "at": 1893458700}
"""
ROWS = ".judged > table > tr:not(.more)"


def judged(it, room, text):
    """What the tool says of choices, and what the panel saves."""
    words = ["--plan", RELAY, "--names", f"{room.path}/names.txt", "--choices", room.file("chosen.txt", text), "--csv"]
    write(it, "choices", text)
    press(it, "judge", "Judge")
    state(it, "judge")
    return tool(room, "report", *words), saved(it, room, "judge", "Save CSV", "relay.choices.csv")


def judging(it, room):
    show(it, "judge")
    wanted, found = judged(it, room, CHOSEN)
    yield "choices of all kinds", wanted, lambda: found
    yield "the sum", "Of 15 choices, 6 aren't routes, 2 missed a route, and 1 delivers after the best.", state, it, "judge"
    rows = table_of(it, ROWS)
    yield "a row", ["3", "2", "2030/01/01-06:27:22", "3 h 40 min", "5 12 2"], lambda: [text.replace("\xa0", " ") for text in rows[2]]
    yield "a row of a fault", ["4", "hop 2: NotChained", "4 12 2"], lambda: rows[3]
    words = "return document.querySelector('.judged td.bad').title"
    yield "what it means, under the mouse", "Hop 2, contact 12 (low relay → south station): the contact's sender isn't the node where the bundle is", it.run, words
    press(it, "judge", "Line 4")
    told = it.run("return document.querySelector('.judged .more:not([hidden])').innerText")
    hops = room.hops_of(RELAY, [4])
    yield "in words", "Hop 2, contact 12 (low relay → south station): the contact's sender isn't the node where the bundle is", lambda: told.split("\n")[0]
    yield "the hops before", [[str(contact), NAMES[to], send[11:], arrive[11:]] for contact, to, send, arrive in hops], lambda: table_of(it, ".judged .more:not([hidden]) tr")[1:]
    it.run("lateAfter.value = 20000; lateAfter.onchange()")
    yield "late later", "Of 15 choices, 6 aren't routes, 2 missed a route, and 0 deliver more than 5 h 33 min 20 s after the best.", lambda: state(it, "judge").replace("\xa0", " ")
    it.run("onlyWrong.click()")
    yield "only wrong ones", 8, lambda: len(table_of(it, ROWS)) - 1
    it.run("onlyWrong.click(); lateAfter.value = 0; lateAfter.onchange()")
    times = "".join(f"6,12,2 31 1 2030-01-01T0{at // 3600}:{at // 60 % 60:02}:{at % 60:02}Z\n" for at in range(3600, 3600 + 120 * 7, 7))
    wanted, found = judged(it, room, times)
    yield "many requests", (121, wanted), lambda: (len(wanted.splitlines()), found)


def judged_alone(it, room):
    """Contacts alone are judged for the page's question, and what can't be read says so."""
    show(it, "judge")
    write(it, "choices", "5 12 2")
    it.run("choiceField.area.focus()")
    it.keys(Keys.CONTROL, Keys.ENTER)
    state(it, "judge")
    told = it.run("return document.querySelector('.judged .more').innerText").replace("\xa0", " ")
    yield "a route", "Route 2 of all: delivery 2030/01/01-06:27:22, 3 h 40 min after the best one", lambda: told.split("\n")[0]
    wanted = [[str(contact), NAMES[to], send[11:], arrive[11:]] for contact, to, send, arrive in room.hops_of(RELAY, [5, 12, 2])]
    yield "its hops", wanted, table_of, it, ".judged .more table tr:not(:first-child)"
    path = room.file("router.txt", "4,11,1\n4,x\n31>22@2031-01-01\n<b>4</b>\n4,12,2 31 2030-01-01T00:45:00Z\n[4, 11, 1]\n-\n{4\n{}\n[5, true]\n")
    it.run("firstNumber.value = '0'")
    given(it, "judge", path)
    waited(it, "choiceField.area.value.startsWith('4,11,1')")
    state(it, "judge")
    none = "the plan has no such contact, or it is no number"
    wanted = ["2", f"{none}: x", f"{none}: 31>22@2031-01-01", f"{none}: <b>4</b>", "it needs from, to and time after its contacts",
              "2", "HasRoute", "it is no JSON", "it has no contacts", f"{none}: true"]
    yield "a file of a router that counts from 0", wanted, lambda: [row[1] for row in table_of(it, ROWS)[1:]]
    it.run("firstNumber.value = '1'")
    it.run("""const dropped = new DataTransfer();
        dropped.items.add(new File(["4,11,2"], "dropped.txt"));
        choiceField.area.dispatchEvent(new DragEvent("drop", { dataTransfer: dropped, bubbles: true, cancelable: true }))""")
    yield "a file that is dropped", "4,11,2", waited, it, "choiceField.area.value === '4,11,2' && choiceField.area.value"
    yield "is no plan", "Of 1 choice, 0 aren't routes, and 0 deliver after the best.", state, it, "judge"
    it.run("lose(contactWith.get(4))")
    write(it, "choices", "4,11,2\n5,12,2")
    press(it, "judge", "Judge")
    told = state(it, "judge")
    yield "a lost contact", "Of 2 choices, 1 isn't a route, and 0 deliver after the best, over the plan without contact 4.", lambda: told
    yield "then", [["hop 1: NoSuchContact", "4 11 2"], ["1", "2030/01/01-06:27:22", "", "5 12 2"]], lambda: [row[1:] for row in table_of(it, ROWS)[1:]]
    it.run("loseNothing(); change()")


# ---- Sessions ---------------------------------------------------------------------------------------------------


def session_of(room, count):
    """The program's session text after so many routes."""
    path = f"{room.path}/session{count}"
    if not os.path.exists(path):
        room.run([room.program, "first", "--plan", RELAY, *ASKED, "--count", str(count), "--session-out", path])
    return room.read(f"session{count}")


def sessions(it, room):
    show(it, "session")
    yield "the program's text", session_of(room, 3), saved, it, room, "session", "Save the session after these routes", "relay.session"
    yield "is told", "Saved: the session after 3 routes of 31 lander → 1 control centre at 2030/01/01-00:45:00.", state, it, "session"
    given(it, "session", f"{room.path}/relay.session")
    waited(it, "sessionField.area.value.startsWith('cgr-session')")
    about = "after 3 routes of 31 lander → 1 control centre at 2030/01/01-00:45:00"
    yield "a sound one", f"Yes: this is the session {about}, its routes are the best ones, and none is left out.", state, it, "session"
    for name, old, new, why in (
        ("another count", "emitted 3", "emitted 4", "session: BadCount: its count of routes or its last route isn't that of its parts"),
        ("a bad line", "parts 7", "parts seven", "session line 6: BadLine: this line isn't as a session text has it"),
        ("another plan", "plan 1", "plan 2", "session: OtherPlan: it is of another plan"),
        ("a route that isn't the best", "/ 7 14 1", "/ 8 14 1", None),
    ):
        write(it, "sessionText", session_of(room, 3).replace(old, new))
        press(it, "session", "Check")
        told = state(it, "session")
        why = why or tool(room, "check", "--plan", RELAY, "--session", room.file("forged", session_of(room, 3).replace(old, new)), "--json")
        why = json.loads(why)["fault"] if why[:1] == "{" else why
        yield name, f"No: {why}", lambda told=told, why=why: told[: len(f"No: {why}")]
    write(it, "sessionText", session_of(room, 3))
    press(it, "session", "Go on after it")
    waited(it, "routes[0].rank === '4'")
    wanted = [[str(rank), delivery, contacts] for rank, (delivery, _, contacts) in enumerate(room.routes_of(RELAY, 6), 1)][3:]
    yield "the next page", wanted, routes_shown, it
    yield "its report", room.run([room.program, "next", "--plan", RELAY, "--session", f"{room.path}/session3", "--count", "3"]).out, it.run, "return listing.report"
    yield "the session after it", session_of(room, 6), saved, it, room, "session", "Save the session after these routes", "relay.session"


# ---- What is saved ----------------------------------------------------------------------------------------------


def saving(it, room):
    show(it, "save")
    asked = ["--plan", RELAY, "--names", f"{room.path}/names.txt", *ASKED, "--count", "3"]
    yield "the report", room.run([room.program, "first", "--plan", RELAY, *ASKED, "--count", "3"]).out, saved, it, room, "save", "Report", "relay.report"
    yield "routes", tool(room, "report", *asked, "--csv", "--send-by", "--room"), saved, it, room, "save", "CSV", "relay.csv"
    yield "hops", tool(room, "report", *asked, "--csv", "--hops", "--room"), saved, it, room, "save", "CSV of hops", "relay.hops.csv"
    wanted = json.loads(tool(room, "report", *asked, "--json", "--hops", "--room", "--send-by"))
    found = json.loads(saved(it, room, "save", "JSON", "relay.json"))
    yield "JSON", wanted, lambda: found
    yield "the picture", "<svg", lambda: saved(it, room, "save", "SVG", "relay.svg")[:4]
    yield "the plan", text_of(RELAY), saved, it, room, "save", "Text", "relay.txt"
    it.run("lose(contactWith.get(4))")
    yield "the plan without what is lost", f"{text_of(RELAY)}\nd contact 2030/01/01-01:00:00 31 22\n", saved, it, room, "save", "Text", "relay.txt"
    it.run("loseNothing(); change()")
    formula = ["'=1+1", "'@x", "'+a", "'-b", "-12", "+3", '"a,""b"""']
    yield "cells that a spreadsheet would run", formula, it.run, "return ['=1+1', '@x', '+a', '-b', '-12', '+3', 'a,\"b\"'].map(cell)"


def saved_page(it, room):
    """A page that is saved opens with its plan, question and routes, and so does a link."""
    text = f"{text_of(RELAY)}\n# <!--<script>alert(1)</script>\nd contact 2030/01/01-01:00:00 31 22\n"
    it.wait_for("openPlan('other.txt', arguments[0], { ...request.texts, maxHops: '5' }).then(done)".replace("arguments[0]", json.dumps(text)))
    show(it, "save")
    before = routes_shown(it), it.run("return [app.plan.text, app.plan.name, request.texts, listing.report]")
    text = saved(it, room, "save", "HTML", "other.html")
    it.open(room.file("opened.html", text))
    waited(it, "app.plan && routes.length")
    yield "the saved page", before, lambda: (routes_shown(it), it.run("return [app.plan.text, app.plan.name, request.texts, listing.report]"))


def links(it, room):
    """The address keeps the question, and the panel shows it."""
    it.wait_for("setRequest({ ...request.texts, to: '12', maxHops: '4', avoid: '21' }).then(done)")
    show(it, "save")
    link = it.run("return byId('link').value")
    before = routes_shown(it)
    yield "a link", "#ask=31+12+2030%2F01%2F01-00%3A45%3A00+0+4+21", lambda: link[link.index("#"):]
    it.open(room.relay, link[link.index("#"):])
    waited(it, "request && request.texts.to === '12'")
    yield "opens the same question", before, lambda: waited(it, "routes.length") and routes_shown(it)
    it.open(room.relay, "#plan=12345")
    yield "a link of another plan", "This link is of another plan than this page has: open that plan, too.", it.says, "told"


# ---- Keys, small screens, screen readers ------------------------------------------------------------------------


def keys(it, _):
    """Panels are reached and left by keys alone."""
    it.run("document.getElementById('tab-routes').focus()")
    found = []
    for _ in PANELS:
        it.keys(Keys.ARROW_RIGHT)
        found.append(it.run("return [document.activeElement.id, [...document.querySelectorAll('#panels > [role=tabpanel]')].filter((it) => !it.hidden).map((it) => it.id).join()]"))
    yield "arrows go from panel to panel", [[f"tab-{name}", f"panel-{name}"] for name in PANELS], lambda: found
    show(it, "judge")
    it.keys(Keys.TAB)
    yield "then into it", "choices", it.run, "return document.activeElement.id"


def reader(it, _):
    for name in PANELS:
        show(it, name)
        nodes = it.command("Accessibility.getFullAXTree")["nodes"]
        found = [(node["role"]["value"], node.get("name", {}).get("value", "")) for node in nodes if not node["ignored"]]
        kinds = ("button", "combobox", "textbox", "checkbox", "spinbutton", "tab")
        yield f"nothing of {name} is without a name", [], lambda found=found: [role for role, text in found if role in kinds and not text]


def narrow(room):
    it = Browser(360, 760)
    try:
        it.command("Emulation.setDeviceMetricsOverride", width=360, height=760, deviceScaleFactor=2, mobile=True)
        it.open(room.relay)
        for name in PANELS:
            show(it, name)
            if name == "judge":
                write(it, "choices", CHOSEN)
                press(it, "judge", "Judge")
                state(it, "judge")
            it.settle()
            yield f"{name} isn't wider than its window", True, it.run, "const wide = document.documentElement.scrollWidth; return wide <= innerWidth || [wide, innerWidth]"
            found = it.run(SQUEEZED)
            yield f"no name of {name} is squeezed", [], lambda found=found: found
            small = "[...document.querySelectorAll(`#panel-${arguments[0]} button`)].filter((it) => it.offsetParent && it.offsetHeight < 32).length"
            yield f"a finger finds the buttons of {name}", 0, it.run, f"return {small}", name
        yield "no complaint", [], it.faults
    finally:
        it.driver.quit()


# ---- The sections -----------------------------------------------------------------------------------------------


def driven(section, room):
    """What a section checks over the page of examples/relay.txt, and what the browser tells then."""
    room.browser.open(room.relay)
    waited(room.browser, "app.plan && routes.length && engine.state === 'ready'")
    yield from section(room.browser, room)
    yield "no complaint, and nothing loaded", [], room.browser.faults


DRIVEN = (plan_text, used_text, other_texts, judging, judged_alone, sessions, saving, saved_page, links, keys, reader)
SECTIONS = {**{it.__name__.replace("_", " "): partial(driven, it) for it in DRIVEN}, "narrow": narrow}


def checks(asked):
    if lacking():
        print(f"panels: left out, {lacking()}")
        return
    alone, room = asked.text.partition(": ")[0], Pages(asked.program("cgrlist"))
    chosen = [alone] if alone in SECTIONS else [*SECTIONS]
    try:
        yield from checks_of("page_panels", room, [partial(named, it, SECTIONS[it]) for it in chosen])
    finally:
        if "browser" in vars(room):
            room.browser.driver.quit()
