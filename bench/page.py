#!/usr/bin/env python3
"""Measures the engine of the page examples/cgrlist.html, in Chromium and Firefox, beside whole runs of the program.

    page.py [PROGRAM] [--only NAME,..] [--counts N,N,..] [--repeats N] [--browsers NAME,..] [--out FOLDER]

calls    warm calls of `first` over six plans: what the page waits for an answer, by its own clock, the best of some in turns
         with runs of the program, and as multiples of these, beside what is the most in Chromium; and the least memory that
         has to be lent, in MB, beside the program's
opening  the time from opening the page to the answer of a question that is asked as soon as its script has run, in a browser
         that has opened no page before, and the best of further pages

All of it takes some minutes. What is above its most is bold. The plans are those of plans.py; reports are compared byte for
byte. A browser that isn't there is left out. Status 1: a run failed, or two reports differ.
"""
import argparse
import base64
import hashlib
import json
import os
import re
import sys
from contextlib import ExitStack
from functools import partial

import plans
from measure import built_program
from running import TOP, Program, peak_kb, run
from tables import Machine, megabytes, print_head, print_row, ratio, shown

sys.path.insert(0, os.path.join(TOP, "tests"))
from browsers import BROWSERS

PAGE = os.path.join(TOP, "examples", "cgrlist.html")
PLANS = ["relay-mars-2000", "relay-mars-20000", "walker-66-5000", "grid-8", "sparse-2000", "iridium-1-2"]
IN_A_ROW = 3  # runs and calls before the other one's turn
WARMING = 5  # calls that aren't measured
MEGABYTE = 1 << 20
MOST = {1: 1.3, 1000: 1.8, 10000: 1.5}  # by the number of routes, times the program's in Chromium
MOST_OPENING = 500  # milliseconds from opening the page to an answer in Chromium

# What the page waits for an answer, several times, and the report.
CALLS = """
const times = [];
let answer;
for (let left = repeats; left; left -= 1) {
  const since = performance.now();
  answer = await engine.ask("first", asked);
  times.push(performance.now() - since);
}
return { times, report: answer.report, status: answer.status };
"""
# The least lent memory in steps with which the answer isn't status 6.
MEMORY = """
const direct = new Program(await compiledModule(document.getElementById("module").textContent.trim()));
const rooms = { report: 2 ** 24, session: 0, message: 4096 };
let steps = 1;
while (direct.once("first", asked, steps * step, rooms).status === 6) steps += 1;
return steps;
"""


def script(text, **names):
    """A script with names for values."""
    return "".join(f"const {name} = {json.dumps(value)};" for name, value in names.items()) + text


def judged(number, most, digits=2):
    """A number, which is bold if it is above its most."""
    text = shown(number, digits)
    return f"**{text}**" if number and most and number > most else text


# ---- Calls ------------------------------------------------------------------------------------------------------


class Side:
    """The program, or a browser that has the page open: its times for a question, in milliseconds, and its reports."""

    def __init__(self, name, asked):
        self.name, self.asked = name, asked
        self.times, self.reports = [], set()

    def take_turn(self):
        times, reports = self.asked()
        self.times += times
        self.reports |= set(reports)


def by_program(words):
    """Some runs."""
    ran = [run(words, 600) for _ in range(IN_A_ROW)]
    return [it.seconds * 1000 for it in ran], [it.text.decode() if it.status == 0 else None for it in ran]


def by_page(browser, asked, repeats=IN_A_ROW):
    """Some calls."""
    told = browser.value(script(CALLS, asked=asked, repeats=repeats))
    return told["times"], [told["report"] if told["status"] == 0 else None]


def measured(program, browsers, question, count, repeats):
    """The cells of a question's row, and whether the reports are alike."""
    with open(question.path, encoding="ascii") as file:
        asked = {"plan": file.read(), "from": question.source, "to": question.target, "at": question.at, "count": str(count)}
    words = program.words(question.words(count))
    sides = [Side("program", partial(by_program, words))]
    for browser in browsers:
        by_page(browser, asked, WARMING)
        sides.append(Side(browser.name, partial(by_page, browser, asked)))
    for _ in range(repeats):
        for side in sides:
            side.take_turn()
    reports = set.union(*(side.reports for side in sides))
    is_alike = len(reports) == 1 and None not in reports
    mine, *theirs = (min(side.times) for side in sides)
    cells = [shown(mine, 1)]
    for browser, best in zip(browsers, theirs):
        most = MOST.get(count) if browser.name == "Chromium" else None
        cells += [shown(best, 1), judged(ratio((best, mine)), most) if is_alike else "DIFFERENT", *most_cell(browser, most)]
    lent = browsers[0].value(script(MEMORY, asked=asked, step=MEGABYTE))
    return [*cells, lent, megabytes(peak_kb(words, 600))], is_alike


def most_cell(browser, most):
    return [most or "-"] if browser.name == "Chromium" else []


def calls(program, browsers, given):
    """The table of calls; whether all reports are the program's."""
    heads = [head for it in browsers for head in (f"{it.name} ms", "ratio", *["at most"] * (it.name == "Chromium"))]
    print_head("Warm calls.", ["Plan", "routes", "program ms", *heads, "MB lent", "program MB"])
    all_alike = True
    for question in plans.questions(given.only or PLANS, given.out):
        for count in given.counts:
            cells, is_alike = measured(program, browsers, question, count, given.repeats)
            print_row([question.name, count, *cells])
            all_alike = all_alike and is_alike
    return all_alike


# ---- Opening ----------------------------------------------------------------------------------------------------

ASKS = """engine.ask("first", {plan: JSON.parse(document.getElementById("data").textContent).plan, from: "31", to: "1", at: "2030/01/01-00:50:00", count: "5"})
.then(({ status }) => { globalThis.answered = [performance.now(), status]; });"""
ANSWERED = "while (!globalThis.answered) await new Promise((done) => setTimeout(done, 10)); return globalThis.answered;"


def asking_page(folder):
    """The path of a copy of the page that asks a question of its own when its script has run."""
    with open(PAGE, encoding="utf-8") as file:
        text = file.read()
    hashed = base64.b64encode(hashlib.sha256(ASKS.encode()).digest()).decode()
    text = re.sub("script-src ", f"script-src 'sha256-{hashed}' ", text, count=1)
    path = os.path.join(os.path.abspath(folder), "asking.html")
    with open(path, "w", encoding="utf-8") as file:
        file.write(text.replace("</body>", f"<script>{ASKS}</script></body>"))
    return path


def opening(name, given):
    """The milliseconds from opening the page to an answer: of the first page, and the best of further ones."""
    browser, path, times = BROWSERS[name][0](), asking_page(given.out), []
    try:
        for _ in range(1 + given.repeats * IN_A_ROW):
            browser.open("about:blank")
            browser.open(f"file://{path}")
            took, status = browser.value(ANSWERED)
            times.append(took if status == 0 else None)
    finally:
        browser.close()
    most = MOST_OPENING if name == "Chromium" else None
    further = min(filter(None, times[1:]), default=None)
    print_row([name, judged(times[0], most, 0), judged(further, most, 0), most or "-"])
    return None not in times


def main():
    words = argparse.ArgumentParser(description=__doc__, formatter_class=argparse.RawDescriptionHelpFormatter)
    words.add_argument("program", nargs="?", metavar="PROGRAM", help="in place of the one that ./cgrlist --prove makes")
    words.add_argument("--counts", type=plans.numbers, default=[1, 1000, 10000], help="routes, joined by commas")
    words.add_argument("--repeats", type=int, default=5, help=f"turns, each of {IN_A_ROW} runs and calls")
    words.add_argument("--browsers", type=plans.names_of("browsers", BROWSERS), default=[*BROWSERS], help="joined by commas")
    plans.add_words(words)
    given = words.parse_args()
    os.makedirs(given.out, exist_ok=True)
    program, machine = Program(given.program or built_program()), Machine(given.repeats)
    lacks = {name: BROWSERS[name][1]() for name in given.browsers}
    for name in filter(lacks.get, lacks):
        print(f"{name} is left out: {lacks[name]}")
    names = [name for name in given.browsers if not lacks[name]]
    heads = ["Browser", "the first page", "the best of further ones", "at most"]
    print_head("From opening the page to an answer, in milliseconds.", heads)
    are_good = [opening(name, given) for name in names]
    with ExitStack() as stack:
        browsers = [BROWSERS[name][0]() for name in names]
        for browser in browsers:
            stack.callback(browser.close)
            browser.open(f"file://{PAGE}")
        are_good.append(not browsers or calls(program, browsers, given))
    machine.end()
    return 0 if all(are_good) else 1


if __name__ == "__main__":
    sys.exit(main())
