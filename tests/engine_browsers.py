"""Asks the engine of the page examples/cgrlist.html, in Chromium and in Firefox, what the program is asked.

The sections are those of tests/engine.py: drawn requests, sessions, refusals, memory in steps, hostile texts, and lists of
1000 and 10000 routes, each compared with the program byte for byte. Further ones are about the worker. The page is opened
as a file, and once from a server of this machine. Nothing may be loaded from a network. A browser that isn't there is left
out, and a line says so.
"""

import http.server
import json
import os
import threading
from functools import partial

import engine
from browsers import BROWSERS
from checking import TOP, checks_of
from engine import Asking, Question, of_request, relay_plan, times
from oracle import Request

PAGE = f"{TOP}/examples/cgrlist.html"
BATCH = 200  # questions that a page is given at once

# An engine of its own, beside the page's, and the module in the page's thread, where memory is lent in steps.
BEGIN = """
const bytes = document.getElementById("module").textContent.trim();
globalThis.tested = new Engine(bytes);
globalThis.direct = new Program(await compiledModule(bytes));
return await tested.started;
"""
ASKED = {
    "runs": "return await answersTo(questions, (run, texts) => tested.ask(run, texts));",
    "steps": "return await answersTo(questions, (run, texts, how) => answersInSteps(direct, run, texts, how));",
}


def asking():
    """The functions of asking.mjs, as a script of a page has them."""
    with open(f"{TOP}/tests/engine/asking.mjs", encoding="ascii") as file:
        return file.read().replace("export ", "")


class Pages(Asking):
    """The engine of the page, in one browser after the other."""

    browser = None

    def begin(self, address):
        """Opens the page; returns the engine's state."""
        self.browser.open(address)
        return self.browser.value(BEGIN)

    def asked(self, what, questions):
        found = []
        for place in range(0, len(questions), BATCH):
            script = f"{asking()} const questions = {json.dumps(questions[place:place + BATCH])}; {ASKED[what]}"
            found += self.browser.value(script)
        return found


# ---- The worker -------------------------------------------------------------------------------------------------

LONG = {"plan": times(1, relay_plan()), "requests": times(1_000_000, "31 1 2030/01/01-00:45:00\n"), "count": "10"}
STOPS = """
const made = ({ text, times }) => text.repeat(times);
const ended = (asked) => asked.then(({ status }) => status, ({ status, message }) => [status, message]);
const small = { plan: made(LONG.plan) };
const long = ended(tested.ask("many", { ...LONG, plan: small.plan, requests: made(LONG.requests) }));
const waiting = ended(tested.ask("check", small));
await new Promise((done) => setTimeout(done, 500));
const since = performance.now();
tested.stop();
const later = await ended(tested.ask("check", small));
return [await long, await waiting, later, performance.now() - since < 2000];
"""
STOPS_AT_ONCE = """
const ended = (asked) => asked.then(({ status }) => status, ({ status }) => status);
const other = new Engine(bytes());
const asked = [1, 2].map(() => ended(other.ask("check", { plan: "" })));
other.stop();
return [await Promise.all(asked), await other.started, await ended(other.ask("check", { plan: "" }))];
"""
LACKS = """
const { validate } = WebAssembly;
WebAssembly.validate = () => false;
const without = new Engine(bytes());
const asked = without.ask("check", { plan: "" }).catch(({ name, status, message }) => [name, status, message]);
const told = [await without.started, await asked];
WebAssembly.validate = validate;
const other = new Engine("AGFzbQ==");
return [...told, (await other.started) === "ready", await other.ask("check", { plan: "" }).catch(({ status }) => status)];
"""
BYTES = 'const bytes = () => document.getElementById("module").textContent.trim();'
LACK = "no bulk memory operations in WebAssembly"


def worker(room):
    value = room.browser.value
    yield ("a question is stopped, and the others are answered", [[130, "stopped"], 0, 0, True],
           value, f"const LONG = {json.dumps(LONG)}; {STOPS}")
    yield "a question is stopped before the engine is ready", [[130, 0], "ready", 0], value, BYTES + STOPS_AT_ONCE
    yield ("an engine that can't be", [LACK, ["CgrlistError", 125, LACK], False, 125], value, BYTES + LACKS)
    bad = 'try { await tested.ask("nothing", { plan: "" }); } catch ({ status }) { return status; }'
    yield "a run that there isn't", 125, value, bad
    yield "and the next question", 0, value, 'return (await tested.ask("check", { plan: "" })).status;'


class Quiet(http.server.SimpleHTTPRequestHandler):
    def log_message(self, *_):
        pass


def served(room):
    """The page from a server."""
    with http.server.ThreadingHTTPServer(("127.0.0.1", 0), partial(Quiet, directory=os.path.dirname(PAGE))) as server:
        threading.Thread(target=server.serve_forever, daemon=True).start()
        address = f"http://127.0.0.1:{server.server_port}/{os.path.basename(PAGE)}"
        yield "the state", "ready", room.begin, address
        texts = of_request(Request(31, 1, 1893458700), plan=relay_plan(), count="3")
        question = Question("relay, served", "first", texts)
        yield "an answer", room.by_program(question), lambda: room.answers([question])[0]
        yield "nothing else is loaded", [address], lambda: [it for it in room.browser.faults() if "favicon" not in it]
        server.shutdown()


# ---- The sections -----------------------------------------------------------------------------------------------


def over_the_file(room, sections):
    yield "the state", "ready", room.begin, f"file://{PAGE}"
    for section in sections:
        yield from section(room)
    yield "no complaint, and nothing loaded", [], room.browser.faults


def in_browser(name, sections, room):
    room.browser = BROWSERS[name][0]()
    try:
        for found in (over_the_file(room, sections), served(room)):
            for title, *further in found:
                yield f"{name}: {title}", *further
    finally:
        room.browser.close()


def checks(asked):
    if not os.path.exists(PAGE) or not os.path.exists(engine.MODULE):
        print("note: engine_browsers is left out, there is no page with a module")
        return ()
    lacks = {name: lack() for name, (_, lack) in BROWSERS.items()}
    for name in filter(lacks.get, lacks):
        print(f"note: {name} is left out, {lacks[name]}")
    sections = [worker, *engine.shared_sections(asked)]
    driven = [partial(in_browser, name, sections) for name in BROWSERS if not lacks[name]]
    return checks_of("engine_browsers", Pages(asked.program("cgrlist")), driven)
