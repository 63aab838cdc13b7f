"""Tries the tools that ask the program: over the worked plans, with answers that were worked out by hand, and over stubs in
place of the program."""

import functools
import gzip
import hashlib
import json
import lzma
import os
import random
import re
import shutil
import signal
import subprocess
import textwrap
import time
from collections import Counter
from datetime import datetime, timezone
from itertools import groupby

from checking import SECONDS, TOP, VERSION, Room, checks_of, differing, last_of, lines_with, parts_of, unlike, without_progress

DAY = "2030/01/01"
RELAY_DIGEST = "1742355ab40bb9304358b80eea1f07137fa6c7a830d70d3ebaadf26f2add99e2"
NAMES = "# the names of the nodes\n31 lander\n22 relay high\n"
TIMES = "a time is 2031/03/03-01:00:00, 2031-03-03T01:00:00Z, 2031-03-03 01:00, 2031-062, now or now+2h"
HEAD = "rank  delivery             hops  until                contacts  nodes"
FIRST = f"""\
1 delivery {DAY}-00:00:15 hops 2 entry 2 until {DAY}-00:01:40 contacts 1 4
2 delivery {DAY}-00:00:25 hops 2 entry 2 until {DAY}-00:01:00 contacts 1 2
more
"""
NEXT = f"3 delivery {DAY}-00:01:30 hops 1 entry 3 until {DAY}-00:01:30 contacts 3\nend\n"
CUT = "the report is cut: its last line is neither 'more' nor 'end'"
MISSING = "No such file or directory"


def read(path):
    with open(f"{TOP}/{path}", encoding="utf-8") as file:
        return file.read()


def routes_in(text):
    """How many routes a table has, the last rank, and the last line."""
    ranks = re.findall(r"^ +(\d+) ", text, re.M)
    return len(ranks), ranks[-1] if ranks else "", last_of(text)


class Tools(Room):
    def __init__(self, program):
        super().__init__()
        self.program = program
        self.names = ["--names", self.file("names", NAMES)]

    def ask(self, words, *further, by=None, **how):
        """Runs a tool, with which the words begin."""
        tool, _, words = words.partition(" ")
        return self.run(f"tools/{tool} --program", [by or self.program], words, *further, **how)

    def told(self, *words, **further):
        """What a tool prints, its messages but for how far it is, and its status."""
        return without_progress(self.ask(*words, **further).all()).rstrip("\n")

    def from_a(self, *words, **further):
        return self.told("latest --plan examples/a.txt --from 1 --to 3", *words, **further)

    def from_lander(self, *words, **further):
        return self.told("report --plan examples/relay.txt --from 31 --to 1", *words, **further)

    def read_report(self, given, *words, plan="examples/a.txt"):
        """A report that is read stands alone: no program is asked."""
        return self.told("report --report /dev/stdin --plan", [plan], *words, given=given, by="/nowhere")

    def of_requests(self, given, *words, **further):
        return self.told("report --plan examples/relay.txt --requests - --count 1", *words, given=given, **further)

    def hinted(self, plan, *words):
        """The hints about a plan and a request."""
        return parts_of("^report: hint: (.*)", self.told("report --count 1 --plan", [plan], *words))


def latest(second, route):
    return f"latest {DAY}-{second}\n1 delivery {DAY}-{route}"


def none_by(second):
    return f"none: the best delivery is {DAY}-{second}\nstatus 1"


def latest_seconds(room):
    """In examples/a.txt, from 1 to 3, a bundle that is at node 1 at second t is at node 3
        by contacts 1 4   at t + 15            if t < 100, when contact 1 ends
        by contacts 1 2   at max(t + 15, 25)   if t + 10 < 60, when contact 2 ends
        by contact 3      at max(t, 50) + 40   if t < 90, when contact 3 ends;
    of those that arrive together, contacts 1 2 come first."""
    by_4, by_2 = f"hops 2 entry 2 until {DAY}-00:01:40 contacts 1 4", f"hops 2 entry 2 until {DAY}-00:01:00 contacts 1 2"
    for title, wanted, words in (
        ("the deadline is a second too early", none_by("00:00:15"), f"--by {DAY}-00:00:14"),
        ("a delivery at the deadline counts", latest("00:00:00", f"00:00:15 {by_4}"), f"--by {DAY}-00:00:15"),
        ("the deadline decides", latest("00:01:00", f"00:01:15 {by_4}"), f"--by {DAY}-00:01:15"),
        ("the end of contact 1 decides", latest("00:01:39", f"00:01:54 {by_4}"), "--by 9998/12/31-23:59:59"),
        ("a deadline long before the plan", none_by("00:00:15"), "--by 1970/01/01-00:00:00"),
        ("contact 3 alone, a second too early", none_by("00:01:30"), f"--max-hops 1 --by {DAY}-00:01:29"),
        ("contact 3 alone", latest("00:00:50", f"00:01:30 hops 1 entry 3 until {DAY}-00:01:30 contacts 3"),
         f"--avoid 2 --by {DAY}-00:01:30"),
        # With a quarter more, 10 seconds of light are 13 and 5 are 7: contacts 1 4 deliver at t + 20.
        ("a margin", latest("00:00:55", f"00:01:15 {by_4}"), f"--margin-ppm 250000 --by {DAY}-00:01:15"),
        ("the first second that is asked for", latest("00:00:25", f"00:00:40 {by_2}"), f"--after {DAY}-00:00:25 --by {DAY}-00:00:40"),
        ("after that there is none", none_by("00:00:41"), f"--after {DAY}-00:00:26 --by {DAY}-00:00:40"),
        ("no second is asked for", none_by("00:01:05"), f"--after {DAY}-00:00:50 --by {DAY}-00:00:40"),
    ):
        yield title, wanted, room.from_a, words
    # If light takes no time, the deadline itself is in time.
    near = room.file("near.txt", f"@ {DAY}-00:00:00\na range +0 +100 1 2 0\na contact +0 +100 1 2 1\n")
    # Without contact 4, contacts 1 2 are left: the last second is 49, and `until` is second 60.
    lost = room.file("lost.txt", f"{read('examples/a.txt')}d contact +0 2 3\n")
    # In examples/relay.txt the last pass of the lander that reaches Earth by 06:27:22 ends at 05:12:00. A command that goes
    # to the lander by 18:00 is a second of light before contact 19 ends at 14:10:00: at the latest sent at 14:09:58.
    for title, wanted, plan, words, *further in (
        ("no route", "none: there is no route\nlatest: hint: node 9 is in no contact of the plan\nstatus 1", "examples/a.txt",
         f"--from 9 --to 3 --by {DAY}-23:00:00"),
        ("the deadline itself", latest("00:00:50", f"00:00:50 hops 1 entry 2 until {DAY}-00:01:40 contacts 1"), near,
         f"--from 1 --to 2 --by {DAY}-00:00:50"),
        ("until is later", latest("00:00:49", f"00:01:04 {by_2}"), lost, f"--from 1 --to 3 --by {DAY}-00:01:10"),
        ("the latest second without a contact", latest("00:00:49", f"00:01:04 {by_2}"), "examples/a.txt",
         f"--from 1 --to 3 --without 4 --by {DAY}-00:01:10"),
        ("the deadline decides there, too", latest("00:00:48", f"00:01:03 {by_2}"), lost, f"--from 1 --to 3 --by {DAY}-00:01:03"),
        ("from the lander, with names",
         latest("05:11:59", f"06:27:22 hops 3 entry 21 until {DAY}-05:12:00 contacts 6 12 2\nlander > 21 > 12 > 1"),
         "examples/relay.txt", f"--from 31 --to 1 --by {DAY}-06:27:22", room.names),
        ("to the lander", latest("14:09:58", f"17:26:01 hops 3 entry 11 until {DAY}-14:10:00 contacts 3 19 21"),
         "examples/relay.txt", f"--from 1 --to 31 --by {DAY}-18:00:00"),
        ("a hint of latest", "none: there is no route\nlatest: hint: node 9 is in no contact of the plan\nstatus 1",
         "examples/a.txt", "--from 1 --to 9 --by 2030-01-02"),
    ):
        yield title, wanted, room.told, "latest --plan", [plan], words, *further


def versions_and_environments(room):
    for tool in sorted(os.listdir(f"{TOP}/tools")):
        if tool not in ("cgrlist", "manual_pages", "mutations", "refusals.py", "reference", "pyproject.toml", "completions", "wheel.py"):
            yield f"the version of {tool}", f"{tool} {VERSION}", lambda: room.run(f"tools/{tool} --version").all()
    by_environment = {"CGRLIST_PLAN": f"{TOP}/examples/relay.txt", "CGRLIST_NAMES": room.names[1], "CGRLIST": room.program}
    yield ("plan, names and program by the environment", "lander > relay high > 12 > 1", lambda: parts_of("lander.*", room.run(
        f"tools/report --from lander --to 1 --at {DAY}-00:45:00 --count 1", **by_environment).all()))
    yield "the program of the environment is the one that is asked", "report: there is no program: looked for /none\nstatus 125", lambda: room.run(
        f"tools/report --from 31 --to 1 --at {DAY}-00:45:00 --count 1", **{**by_environment, "CGRLIST": "/none"}).all()
    yield "words come first", "lander > relay high > 12 > 1", lambda: parts_of("lander.*", room.told(
        "report --plan examples/relay.txt --from lander --to 1 --count 1", f"--at {DAY}-00:45:00", room.names, CGRLIST="/none",
        CGRLIST_PLAN="/none", CGRLIST_NAMES="/none"))
    latest = "latest --plan examples/a.txt --from 1 --to 3 --json"
    found = {"rank": 1, "delivery": "2030-01-01T00:00:15Z", "hops": 2, "entry": 2, "until": "2030-01-01T00:01:40Z", "contacts": [1, 4], "nodes": [1, 2, 3]}
    for by, second in (("15", "2030-01-01T00:00:00Z"), ("14", None)):
        yield f"latest as JSON, by second {by}", (second, f"2030-01-01T00:00:{by}Z", found, int(second is None)), lambda: (
            lambda ran: (lambda it: (it["latest"], it["by"], it["route"], ran.status))(json.loads(ran.out)))(room.ask(latest, f"--by {DAY}-00:00:{by}"))
    listed = {"contact": 3, "from": 1, "to": 3, "start": "2030-01-01T00:00:50Z", "end": "2030-01-01T00:01:30Z", "rate": 1000, "light": 40}
    yield "the list as JSON", listed, lambda: json.loads(room.ask("timeline --plan examples/a.txt --list --json").out)["contacts"][2]
    yield ("the list as CSV", "3,1,3,2030-01-01 00:00:50,2030-01-01 00:01:30,1000,40",
           lambda: room.told("timeline --plan examples/a.txt --list --csv").splitlines()[3])


def help_of_tools(room):
    """The examples of each tool's help print what stands below them, and its lines have room in a narrow terminal, but for examples."""
    for tool in ("check", "compare", "from_ionrc", "latest", "report", "timeline", "timetable"):
        told, examples, ends = re.split(r"\nExamples:\n|\nExit status:\n", room.run(f"tools/{tool} --help", COLUMNS="80").out)
        yield f"{tool}: no line of help is too long", [], lambda: [it for it in (told + ends).splitlines() if len(it) > 84]
        for command, answer in re.findall(r"^\$ (.*)\n((?:(?!\$ ).*\n)*)", textwrap.dedent(examples), re.M):
            yield f"{tool}: an example of help: {command}", answer.rstrip("\n"), lambda: without_progress(
                room.run("bash -c", [f"exec 2>&1; {command}"], CGRLIST=room.program).out).rstrip("\n")


def refusal(tool):
    """What is told of the plan `bad`."""
    return f"""\
cgrlist: plan line 1: NoReference
{tool}: hint: plan line 1 is: a range +0 +10 1 2 1
{tool}: hint: put a line '@ TIME' in front, with the time from which relative times count
status 3"""


def refusals(room):
    bad, report = room.file("bad.txt", "a range +0 +10 1 2 1\n"), f"--from 1 --to 2 --at {DAY}-00:00:00 --count 1"
    yield "a plan that is refused", refusal("latest"), room.told, "latest --plan", [bad], f"--from 1 --to 2 --by {DAY}-00:00:00"
    yield "and for a report", refusal("report"), room.told, "report --plan", [bad], report
    yield ("a plan that is refused is refused by the program", refusal("report"),
           room.told, "report --plan", [bad], report, "--without 1")
    requests = room.file("requests", REQUESTS)
    yield ("a plan is refused once", refusal("report"),
           room.told, "report --plan", [bad], "--count 1 --requests", [requests], room.names)
    yield ("no request", "cgrlist: request: SameNode\nlatest: hint: the source and the destination are the same node\nstatus 2",
           room.told, f"latest --plan examples/a.txt --from 1 --to 1 --by {DAY}-00:00:00")
    yield ("no plan", f"latest: /nowhere: {MISSING}\nstatus 5",
           room.told, f"latest --plan /nowhere --from 1 --to 3 --by {DAY}-00:00:00")
    for by in ("2030/1/1-00:00:00", "1969/12/31-23:59:59", "9999/01/01-00:00:00", "2030-01-01T00", "2030-02-29", "2030-366",
               "2030-000", "2030-01-01T00:00+1", "2030-01/01", "now+2", "now+99999999h"):
        yield (f"no deadline: {by}", f"latest: argument --by: no time of the years 1970 to 9998: {by}; {TIMES}; see --help\nstatus 2",
               room.from_a, "--by", by)
    names = room.file("bad-names", "lander 31\n")
    yield ("bad names are no answer", "latest: names line 1: it doesn't begin with a node's number: lander 31\nstatus 4",
           room.from_a, f"--by {DAY}-00:01:00 --names", [names])
    yield ("words that are missing", "report: these words are missing: --at, --count or --by; see --help\nstatus 2",
           room.told, "report --plan examples/a.txt --from 1 --to 3")
    programs = (
        ("a program that fails", "cgrlist: no memory\nstatus 6", room.stub("fails", '#!/bin/sh\necho "cgrlist: no memory" >&2\nexit 6\n')),
        ("a program that is ended", "TOOL: cgrlist first was ended by signal 9\nstatus 137", room.stub("dies", "#!/bin/sh\nkill -9 $$\n")),
        ("no program", "TOOL: there is no program: looked for /none\nstatus 125", "/none"),
    )
    for tool, words in (("latest", f"--by {DAY}-00:00:00"), ("report", f"--at {DAY}-00:00:00 --count 1")):
        for title, wanted, program in programs:
            ask = f"{tool} --plan examples/a.txt --from 1 --to 3 {words}"
            yield f"{tool}: {title}", wanted.replace("TOOL", tool), lambda: room.told(ask, by=program)
    raves = room.stub("raves", "#!/bin/sh\necho 1 delivery\n")
    yield ("what is no report is no answer", "latest: this is no line of a report: 1 delivery\nstatus 4",
           lambda: room.from_a(f"--by {DAY}-00:00:00", by=raves))


def reports(room):
    """The routes from the lander that examples/README.md works out, with the nodes of their contacts in the plan."""
    through_11 = f"   4  {DAY}-15:17:21     3  {DAY}-03:19:00  5 13 1    31 > 21 > 11 > 1"
    yield "a table", f"""\
{HEAD}
   1  {DAY}-02:47:22     3  {DAY}-02:20:00  4 11 2    31 > 22 > 12 > 1
   2  {DAY}-06:27:22     3  {DAY}-03:19:00  5 12 2    31 > 21 > 12 > 1
more""", room.from_lander, f"--at {DAY}-00:45:00 --count 2"
    yield ("the end, and names", f"{HEAD}\n   1  {DAY}-20:37:21     3  {DAY}-17:34:00  9 15 1    lander > 21 > 11 > 1\nend",
           room.from_lander, f"--at {DAY}-16:00:00 --count 10", room.names)
    yield ("through a node, of those that were asked for",
           f"{HEAD}\n{through_11}\n   5  {DAY}-15:17:21     3  {DAY}-05:12:00  6 13 1    31 > 21 > 11 > 1\nmore",
           room.from_lander, f"--at {DAY}-00:45:00 --count 5 --via 11")
    yield "for spreadsheets, with room", """\
rank,delivery,hops,entry,until,contacts,nodes,room
1,2030-01-01 02:47:22,3,relay high,2030-01-01 02:20:00,4 11 2,lander > relay high > 12 > 1,19200000
2,2030-01-01 06:27:22,3,21,2030-01-01 03:19:00,5 12 2,lander > 21 > 12 > 1,138240000""", \
        room.from_lander, f"--at {DAY}-00:45:00 --count 2 --csv --room", room.names
    yield "for scripts", """\
{"routes": [
  {"rank": 1, "delivery": "2030-01-01T20:37:21Z", "hops": 3, "entry": 21, "until": "2030-01-01T17:34:00Z", \
"contacts": [9, 15, 1], "nodes": [31, 21, 11, 1], "room": 122880000}],
 "request": {"from": 31, "to": 1, "at": "2030-01-01T16:00:00Z", "margin_ppm": 0, "max_hops": 5, "avoid": [12]},
 "looked_at": 1,
 "end": true,
 "names": {"31": "lander"},
 "plan": "1742355ab40bb9304358b80eea1f07137fa6c7a830d70d3ebaadf26f2add99e2",
 "version": "%s"}""" % VERSION, room.from_lander, f"--at {DAY}-16:00:00 --count 10 --json --room --max-hops 5 --avoid 12", room.names
    asked = [f"report --plan examples/relay.txt --from 31 --to 1 --at {DAY}-{at} --count 2 --json" for at in ("00:45:00", "17:34:00")]
    yield ("it is JSON", [(2, False), (0, True)],
           lambda: [(len(it["routes"]), it["end"]) for it in (json.loads(room.ask(words).out) for words in asked)])
    yield ("no route", f"rank  delivery  hops  until  contacts  nodes\nend\n\
report: hint: nothing leaves node 31 after {DAY}-17:34:00: its last contact ends at {DAY}-17:34:00",
           room.from_lander, f"--at {DAY}-17:34:00 --count 2")
    yield ("without two contacts", f"{HEAD}\n{through_11.replace('4', '1', 1)}\nmore",
           room.from_lander, f"--at {DAY}-00:45:00 --count 1 --without 12,11")
    for title, wanted, words in (
        ("a node that is none", "argument --via: no node's number: relay; see --help\nstatus 2", "--via relay"),
        ("no contacts", "argument --without: no numbers of contacts, joined by commas: 1,; see --help\nstatus 2", "--without 1,"),
        ("a contact that isn't there to be lost", "the plan has no contact 8\nstatus 2", "--without 8"),
        ("an option that is given twice", "argument --count: it is given twice; see --help\nstatus 2", "--count 1"),
    ):
        yield title, f"report: {wanted}", room.from_lander, f"--at {DAY}-00:45:00 --count 1", words


def reports_that_are_read(room):
    row_1 = f"   1  {DAY}-00:00:15     2  {DAY}-00:01:40  1 4       1 > 2 > 3"
    row_3 = f"   3  {DAY}-00:01:30     1  {DAY}-00:01:30  3         1 > 3"
    pages, lost = FIRST.replace("more\n", "") + NEXT, room.file("lost.txt", f"{read('examples/a.txt')}d contact +0 2 3\n")
    paged = FIRST + NEXT
    yield ("two pages", f"{HEAD}\n{row_1}\n   2  {DAY}-00:00:25     2  {DAY}-00:01:00  1 2       1 > 2 > 3\n{row_3}\nend",
           room.read_report, paged)
    yield "those of a report with no contact in common", f"""\
{HEAD}
{row_1}
{row_3}
end
report: 2 routes are shown of 3 looked at""", room.read_report, paged, "--distinct contacts"
    for title, wanted, given, *words in (
        ("a page that is cut", f"{CUT}\nstatus 4", FIRST.replace("more\n", "")),
        ("nothing", f"{CUT}\nstatus 4", ""),
        ("no report", "this is no line of a report: refused: Empty\nstatus 4", "refused: Empty\n"),
        ("a time that is none", "this is no time of a report: 2030/13/01-00:01:30\nstatus 4", NEXT.replace(f"{DAY}-", "2030/13/01-")),
        ("a report of a plan that has lost a contact", "the plan has no contact 4\nstatus 4", FIRST, "--without 4"),
        ("a report and a count", "--report takes the place of --count and --by; see --help\nstatus 2", "", "--count 1"),
        ("hops of a report need its request", "these words of the report's request are missing: --to, --at; see --help\nstatus 2",
         "", "--from 1 --hops"),
    ):
        yield title, f"report: {wanted}", room.read_report, given, *words
    for title, wanted, plan in (
        ("a contact that is not there", "the plan has no contact 4\nstatus 4", lost),
        ("another plan", "route 1 isn't one of this plan: its contacts don't go from node to node\nstatus 4", "examples/relay.txt"),
    ):
        yield title, f"report: {wanted}", lambda: room.read_report(FIRST, plan=plan)
    following = ["report --plan examples/a.txt --from 1 --to 3 --hops --report", [room.file("next", NEXT)], "--at"]
    yield ("hops of a report", f"{HEAD}\n{row_3}\n      hop 1  contact 3  1 > 3  send {DAY}-00:00:50  arrive {DAY}-00:01:30\nend",
           room.told, *following, "2030-01-01")
    yield ("another request", f"report: route 3 isn't one of this request: cgrlist follow says delivery {DAY}-00:01:31 hops 1 \
entry 3 until {DAY}-00:01:30 contacts 3\nstatus 4", room.told, *following, "2030-01-01T00:00:51Z")
    yield ("room is a choice", "rank,delivery,hops,entry,until,contacts,nodes\n3,2030-01-01 00:01:30,1,3,2030-01-01 00:01:30,3,1 > 3",
           room.read_report, NEXT, "--csv")
    long = room.file("long", FIRST.splitlines()[0].join(["", "\n"]) * 10000 + "end\n")
    yield ("a reader that goes away is no failure", "rank  delivery", lambda: room.run(
        "bash -c", ['tools/report "$@" 2>&1 | sed 1q'], "report --plan examples/a.txt --report", [long]).all()[:14])


def times_and_names(room):
    best = """\
rank  delivery              hops  until                 contacts  nodes
   1  2030-01-01T02:47:22Z     3  2030-01-01T02:20:00Z  4 11 2    lander > relay high > 12 > 1
more"""
    for at in (f"{DAY}-00:45:00", "2030-01-01T00:45:00Z", "2030-01-01", "2030-01-01 00:45:00", "2030-01-01T00:45",
               "2030-001T00:45:00Z", "2030-01-01T02:15:00+01:30", "2029-365T23:45-0100"):
        yield (f"at {at}, and names for nodes", best, room.told,
               "report --plan examples/relay.txt --from lander --to 1 --count 1 --iso --at", [at], room.names)
    yield ("through a node with a name", best, room.from_lander, "--at 2030-01-01 --count 1 --via 'relay high' --iso", room.names)
    names = room.file("short", "21 low\n22 high\n")
    yield "not over a node with a name", """\
latest 2030-01-01T03:18:59Z
1 delivery 2030-01-01T06:27:22Z hops 3 entry 21 until 2030-01-01T03:19:00Z contacts 5 12 2
31 > low > 12 > 1""", room.told, "latest --plan examples/relay.txt --from 31 --to 1 --by 2030-01-01T06:27:22Z --max-hops 3 \
        --after 2030-01-01 --avoid high,11 --without 6 --iso --names", [names]
    yield ("no name", "report: argument --to: no node's number and no name: earth; see --help\nstatus 2",
           room.told, "report --plan examples/relay.txt --from 31 --to earth --at 2030-01-01 --count 1", room.names)
    for name in ("22", "a>b", "a,b"):
        why = "its name is the number of another node" if name == "22" else "its name has '>' or ',', which join nodes"
        yield (f"a name that is refused: {name}", f"report: names line 1: {why}: 31 {name}\nstatus 4",
               room.from_lander, f"--at {DAY}-00:45:00 --count 1 --names", [room.file("refused", f"31 {name}\n")])
    # A contact from yesterday to tomorrow, over which light takes no time.
    begin = datetime.fromtimestamp(int(time.time()) - 86400, timezone.utc)
    plan = room.file("now.txt", f"@ {begin:%Y/%m/%d-%H:%M:%S}\na range +0 +1 1 2 0\na contact +0 +172800 1 2 1\n")

    def off_by(at, seconds):
        """How long before or after now what is delivered at once is delivered, but for so many seconds; 0 if it is now."""
        before = int(time.time())
        text = room.told("report --from 1 --to 2 --count 1 --iso --plan", [plan], f"--at {at}")
        told = datetime.strptime(re.search(r"\n +1 +(\S*)", text)[1], "%Y-%m-%dT%H:%M:%SZ").replace(tzinfo=timezone.utc)
        second = told.timestamp() - seconds
        return min(second - before, 0) or max(second - time.time(), 0)

    for at, seconds in (("now", 0), ("now+90s", 90), ("now+30m", 1800), ("now-2h", -7200)):
        yield at, 0, off_by, at, seconds


def hops_and_room(room):
    """Contact 4 sends 4000 bytes a second for 4800 s, contact 11 62500 for 5400 s. Contact 2 sends 2500000 from the arrival
    over contact 11 at 02:47:19 to 08:30:00, which is 20561 s."""
    asked = [f"--at {DAY}-00:45:00 --count 1 --hops --room", room.names]
    yield "hops and room", f"""\
rank  delivery             hops  until                    room  contacts  nodes
   1  {DAY}-02:47:22     3  {DAY}-02:20:00  19200000  4 11 2    lander > relay high > 12 > 1
      hop 1  contact 4   lander > relay high  send {DAY}-01:00:00  arrive {DAY}-01:00:01  room 19200000
      hop 2  contact 11  relay high > 12      send {DAY}-02:30:00  arrive {DAY}-02:47:19  room 337500000
      hop 3  contact 2   12 > 1               send {DAY}-02:47:19  arrive {DAY}-02:47:22  room 51402500000
more""", room.from_lander, *asked
    yield "hops for spreadsheets", """\
rank,hop,contact,from,to,send,arrive,room
1,1,4,lander,relay high,2030-01-01 01:00:00,2030-01-01 01:00:01,19200000
1,2,11,relay high,12,2030-01-01 02:30:00,2030-01-01 02:47:19,337500000
1,3,2,12,1,2030-01-01 02:47:19,2030-01-01 02:47:22,51402500000""", room.from_lander, *asked, "--csv"

    def as_json(plan, *words):
        text = room.ask("report --from 1 --to 3 --json --room --plan", [plan], *words).out
        return json.loads(text)["routes"][-1]

    hop = {"contact": 3, "from": 1, "to": 3, "send": "2030-01-01T00:00:50Z", "arrive": "2030-01-01T00:02:00Z", "room": 40000}
    yield ("hops for scripts", [hop],
           lambda: as_json("examples/a.txt", f"--at {DAY}-00:00:00 --count 3 --margin-ppm 750000 --hops")["path"])
    # Readers of JSON round numbers above 2^53 - 1 = 9007199254740991. Here node 2 becomes such a one, and then a rate.
    great, plan = "9007199254740992", read("examples/a.txt")
    for title, changed, wanted in (
        ("great nodes are texts", re.sub("(?m) 2 ", f" {great} ", plan), (great, ["1", great, "3"], 100000)),
        ("great rooms are texts", re.sub("(?m)1 2 1000$", "1 2 90071992547410", plan), (2, [1, 2, 3], "190000")),
    ):
        route = as_json(room.file("great.txt", changed), "--at 2030-01-01 --count 1")
        yield title, wanted, lambda: (route["entry"], route["nodes"], route["room"])


def many_routes(room):
    """Twelve contacts from 1 to 2 and twelve from 2 to 3, each a route with each: i and j start at 10 i and 10 j, so the
    bundle arrives at max(10 i + 1, 10 j) + 1. These 144 routes are more than a page."""
    twelve = room.file("twelve.txt", f"@ {DAY}-00:00:00\na range +0 +1000 1 2 1\na range +0 +1000 2 3 1\n" + "".join(
        f"a contact +{at} +1000 {link} 10\n" for at in range(0, 120, 10) for link in ("1 2", "2 3")))
    request = ["--plan", twelve, "--from", "1", "--to", "3", "--at", f"{DAY}-00:00:00"]

    def from_twelve(*words):
        return room.told("report", request, *words)

    for title, wanted, by in (
        ("none by a time", (0, "", "more"), f"{DAY}-00:00:01"),
        ("the first by a time", (1, "1", "more"), f"{DAY}-00:00:02"),
        ("all by a time, on two pages", (132, "132", "more"), f"{DAY}-00:01:51"),
        ("all", (144, "144", "end"), "2030-01-01T00:01:52Z"),
    ):
        yield title, wanted, lambda: routes_in(from_twelve("--by", by))
    # Each distinct route is asked for by itself, over the plan without what the ones before it have, so it has no rank.
    one = f"{HEAD}\n   -  {DAY}-00:00:02     2  {DAY}-00:16:40  1 2       1 > 2 > 3\nend"
    yield "one with these nodes", one, from_twelve, "--distinct nodes --count 2"
    yield "one with this entry", "   - \nend", lambda: parts_of("^   - |^end", from_twelve("--distinct entry --count 1"))

    def in_common():
        told = json.loads(room.ask("report", request, "--distinct contacts --count 13 --json").out)
        return len(told["routes"]), Counter(it for route in told["routes"] for it in route["contacts"]).most_common(1)[0][1], told["looked_at"]

    yield "twelve with no contact in common", (12, 1, 12), in_common
    eleven = from_twelve("--distinct contacts --count 11")
    yield "more may be there", (11, "more"), lambda: (eleven.count("\n  "), last_of(eleven))
    yield ("enough are looked at", "report: 1 routes are shown of 50 looked at; --look N looks at more",
           lambda: last_of(from_twelve("--distinct entry --via 2 --count 2 --look 50")))
    through = room.from_lander(f"--at {DAY}-00:45:00 --via 11 --distinct nodes --count 1")
    yield "through a node, and distinct", (1, "4", "more"), lambda: (*routes_in(through)[:2], lines_with("^(more|end)$", through))

    # A terminal is told how far a slow run is. A run that is ended leaves no file.
    slow = room.stub("slow", f"""#!/bin/sh
for last; do :; done
: >"$last"
case $1 in
first) echo '1 delivery {DAY}-00:00:02 hops 2 entry 2 until {DAY}-00:16:40 contacts 1 2' && echo more && sleep 1.1 ;;
next) : >"{room.path}/next-begins"; [ -z "$SLEEP" ] || exec sleep $SLEEP; sleep 0.5; echo end ;;
esac
""")
    words = [f"{TOP}/tools/report", "--program", slow, *request, "--by", f"{DAY}-01:00:00"]

    far = f"report: 1 routes of 1 looked at, the last delivers at {DAY}-00:00:02"
    yield "how far it is", far, lambda: parts_of(f"(?<=\033\\[K){far}", room.on_a_terminal(words, "shown")).partition("\n")[0]
    os.mkdir(f"{room.path}/tmp")

    def ended_by(number):
        """Its status, what it prints and tells, and the files that it leaves, if a signal ends it while the next page is made."""
        if os.path.exists(f"{room.path}/next-begins"):
            os.remove(f"{room.path}/next-begins")
        how = {"stdin": subprocess.DEVNULL, "stdout": subprocess.PIPE, "stderr": subprocess.PIPE, "text": True}
        how["preexec_fn"] = lambda: signal.signal(number, signal.SIG_DFL)  # what runs the tests may ignore it
        with subprocess.Popen(words, env={**os.environ, "SLEEP": "9", "TMPDIR": f"{room.path}/tmp"}, **how) as ran:
            while not os.path.exists(f"{room.path}/next-begins") and ran.poll() is None:
                time.sleep(0.1)
            ran.send_signal(number)
            return ran.wait(SECONDS), ran.stdout.read(), ran.stderr.read(), os.listdir(f"{room.path}/tmp")

    ended = ended_by(signal.SIGTERM)
    yield "it is ended", -signal.SIGTERM, lambda: ended[0]
    yield "and leaves no file", [], lambda: ended[3]
    status, shown, told, left = ended_by(signal.SIGINT)
    yield "by the keyboard: the routes so far are shown", (-signal.SIGINT, f"   1  {DAY}-00:00:02"), \
        lambda: (status, shown.splitlines()[1][:25])
    goes_on = "report: this command goes on after the routes that were looked at: cgrlist next --plan"
    yield ("and the session is kept, to go on from", f"{goes_on} {twelve} --session {room.path}/tmp/{''.join(left)} --count 10000\n",
           lambda: told)


def a_planners_questions(room):
    """Without contact 4 or 11 the bundle takes contacts 5 12 2 and is four hours less 20 minutes later, without contact 2
    it goes by the northern station: 15:17:21 - 02:47:22 = 12:29:59. Contacts 5 and 12 aren't in the best route."""
    morning = f"--at {DAY}-00:45:00"
    yield "lost contacts", """\
lost,link,delivery,later,contacts,nodes
4,31 > 22,2030-01-01 06:27:22,13200,5 12 2,31 > 21 > 12 > 1
11,22 > 12,2030-01-01 06:27:22,13200,5 12 2,31 > 21 > 12 > 1
2,12 > 1,2030-01-01 15:17:21,44999,5 13 1,31 > 21 > 11 > 1
5,31 > 21,2030-01-01 02:47:22,0,4 11 2,31 > 22 > 12 > 1
12,21 > 12,2030-01-01 02:47:22,0,4 11 2,31 > 22 > 12 > 1""", room.from_lander, morning, "--count 2 --lost --csv"
    near = room.file("near.txt", f"@ {DAY}-00:00:00\na range +0 +100 1 2 0\na contact +0 +100 1 2 1\n")
    yield ("nothing is left", "lost  link   delivery  later  contacts  nodes\n   1  1 > 2",
           room.told, "report --plan", [near], f"--from 1 --to 2 --at {DAY}-00:00:00 --count 1 --lost")
    choices = room.file("choices", f"""\
# what a router chose
4,11,2
5 13 1
1,3
31>22@2030-01-01T01:00:00Z,22 > 12@{DAY}-02:30:00,12>1@2030-01-01
""")
    yield "a router's choices", f"""\
line  rank  delivery             later  contacts  fault
   2     1  {DAY}-02:47:22      0  4 11 2
   3     4  {DAY}-15:17:21  44999  5 13 1
   4                                    1 3       hop 1: NotChained
   5     1  {DAY}-02:47:22      0  4 11 2""", room.from_lander, morning, "--choices", [choices]
    yield ("a choice that is none", "report: choices line 1: the plan has no contact with these nodes and that start: 31>22@2030-01-02\n\
status 4", lambda: room.from_lander(morning, "--choices /dev/stdin", given="31>22@2030-01-02\n"))

    def as_json(*words):
        return json.loads(room.ask(*words).out)

    lander = f"report --plan examples/relay.txt --from 31 --to 1 {morning} --json"
    lost = {"lost": 4, "link": [31, 22], "delivery": "2030-01-01T06:27:22Z", "later": 13200, "contacts": [5, 12, 2], "nodes": [31, 21, 12, 1]}
    yield "lost contacts as JSON", (lost, {"31": "lander", "22": "relay high"}, RELAY_DIGEST), lambda: (
        lambda it: (it["lost"][0], it["names"], it["plan"]))(as_json(lander, "--count 1 --lost", room.names))
    yield "choices as JSON", [
        {"line": 2, "rank": 1, "delivery": "2030-01-01T02:47:22Z", "later": 0, "contacts": [4, 11, 2], "fault": None},
        {"line": 4, "rank": None, "delivery": None, "later": None, "contacts": [1, 3], "fault": "hop 1: NotChained"},
    ], lambda: as_json(lander, "--choices", [choices])["choices"][::2]
    routed = room.file("routed", f"""\
4,11,2 31 1 {DAY}-00:45:00
5 12 2 31 1 {DAY}-00:45:00
31>21@2030-01-01T03:10:00Z,21>12@2030-01-01T06:10:00Z,12>1@2030-01-01 lander 1 2030-01-01T00:45:00Z 0 20 22
4,11,2 31 1 2030-01-01T02:20:00Z
""".replace("5 12 2 ", "5,12,2 "))
    # Without node 22, contacts 5 12 2 are the best; at 02:20:00 contact 4 has ended.
    judged = """\
line,from,to,at,margin_ppm,max_hops,avoid,rank,delivery,later,contacts,fault
1,lander,1,2030-01-01 00:45:00,0,,,1,2030-01-01 02:47:22,0,4 11 2,
2,lander,1,2030-01-01 00:45:00,0,,,2,2030-01-01 06:27:22,13200,5 12 2,
3,lander,1,2030-01-01 00:45:00,0,20,relay high,1,2030-01-01 06:27:22,0,5 12 2,
4,lander,1,2030-01-01 02:20:00,0,,,,,,4 11 2,hop 1: TooLate"""
    asked = ["report --plan examples/relay.txt --csv --choices", [routed], room.names]
    yield "choices of several requests", judged, room.told, *asked
    counts = "report: choices 4; wrong: not a route 1, more than {} s after the best {}\nstatus 1"
    yield ("wrong choices alone, and a status", f"{judged.splitlines()[0]}\n{judged.splitlines()[2]}\n{judged.splitlines()[4]}\n{counts.format(13199, 1)}",
           room.told, *asked, "--wrong --exit-code --later 13199")
    yield ("a later one may be right", counts.format(13200, 0), lambda: room.told(*asked, "--exit-code --later 13200").split("\n", 5)[5])
    yield ("no wrong choice", "report: choices 1; wrong: not a route 0, more than 0 s after the best 0",
           lambda: last_of(room.from_lander(morning, "--exit-code --choices -", given="4,11,2\n")))
    yield "not among the first ones", ">3", lambda: parts_of("^ +1 +(\\S+)", room.from_lander(morning, "--look 3 --choices -", given="5,13,1\n"))
    yield "numbers that begin with 0", "4 11 2", lambda: parts_of("4 11 2", room.from_lander(
        morning, "--first-number 0 --choices -", given="3,10,1\n"))
    for line, why in (("0,1 31 1 2030-01-01", "contacts are counted from 1 without --first-number 0"), ("4,11,2 31 1", "it needs contacts, from, to and at"),
                      ("4,11,2 31 earth 2030-01-01", "after its contacts, it names no two nodes")):
        yield (f"a bad choice: {line}", f"report: choices line 1: {why}: {line}\nstatus 4",
               lambda: room.told("report --plan examples/relay.txt --choices -", given=f"{line}\n"))
    yield ("words without choices", "report: these words need --choices: --exit-code, --later; see --help\nstatus 2",
           room.from_lander, morning, "--count 1 --exit-code --later 5")

    def column(number, *words):
        rows = room.from_lander(morning, "--csv", *words).splitlines()
        return [row.split(",")[number - 1] for row in rows if row[:1].isdigit()]

    # Contact 4 ends at 02:20:00, and nothing else is missed by then; contact 5 ends at 03:19:00.
    yield "until when to send", ["2030-01-01 02:19:59", "2030-01-01 03:18:59"], column, 6, "--count 2 --send-by"
    yield "only what fits", ["2", "3"], column, 1, "--count 3 --fits 19200001"
    yield "by a time, but not all", (2, "more"), lambda: routes_in(room.from_lander(morning, f"--by {DAY}-16:00:00 --count 2"))[::2]
    # In a.txt contacts 1 4 take t + 15, contacts 1 2 the same from second 10 to 49 and come first, and 25 before.
    yield "a timetable", """\
from,to,delivery,last_delivery,contacts,nodes
2030-01-01 00:00:00,2030-01-01 00:00:09,2030-01-01 00:00:15,2030-01-01 00:00:24,1 4,1 > 2 > 3
2030-01-01 00:00:10,2030-01-01 00:00:49,2030-01-01 00:00:25,2030-01-01 00:01:04,1 2,1 > 2 > 3
2030-01-01 00:00:50,2030-01-01 00:01:39,2030-01-01 00:01:05,2030-01-01 00:01:54,1 4,1 > 2 > 3
2030-01-01 00:01:40,2030-01-01 00:02:00,,,,""", lambda: room.told(
        "timetable --plan examples/a.txt --from 1 --to 3 --between 2030-01-01 2030-01-01T00:02:00Z --csv")

    yield "a timetable's first stretch comes while the program is asked", [MORNING_STRETCH, "before"], stretch_and_when, room

    table = ["timetable --plan examples/a.txt --from 1 --to 3 --between 2030-01-01 2030-01-01T00:02:00Z"]
    yield "a timetable as JSON", [
        {"from": "2030-01-01T00:01:40Z", "to": "2030-01-01T00:02:00Z", **dict.fromkeys(("delivery", "last_delivery", "contacts", "nodes"))}
    ], lambda: as_json(*table, "--json")["stretches"][3:]

    def each_second():
        """How many seconds in turn have the same best route, if each is asked for by itself."""
        seconds = "".join(f"1 3 {DAY}-00:{at // 60:02}:{at % 60:02}\n" for at in range(100))
        words = [room.program, "many --plan examples/a.txt --count 1 --requests", [room.file("seconds", seconds)]]
        return [(len(list(same)), contacts) for contacts, same in groupby(re.findall(" contacts (.*)", room.run(*words).out))]

    yield "it tells each second", [(10, "1 4"), (40, "1 2"), (50, "1 4")], each_second


MORNING_STRETCH = "2030-01-01 00:45:00,2030-01-01 02:19:59,2030-01-01 02:47:22,2030-01-01 02:47:22,4 11 2,31 > 22 > 12 > 1"


def stretch_and_when(room):
    """The first stretch of a timetable, and whether a pipe has it before or after the program was asked for seconds from 06:00 on,
    for whose answer the program waits until the stretch was read, or at most half a minute."""
    slow = room.stub("slow", f"""#!/usr/bin/env bash
if [ "$1" = many ] && grep -qE ' {DAY}-(0[6-9]|1)' "$5"; then
    for turn in {{1..300}}; do [ -e "$0.read" ] || sleep 0.1; done
    [ -e "$0.read" ] || touch "$0.late"
fi
exec {room.program} "$@"
""")
    words = f"--plan examples/relay.txt --from 31 --to 1 --between {DAY}-00:45:00 {DAY}-12:00:00 --csv"
    how = {"cwd": TOP, "env": {**os.environ, "PYTHONUNBUFFERED": ""}, "stdout": subprocess.PIPE, "stderr": subprocess.DEVNULL, "text": True}
    with subprocess.Popen(["tools/timetable", "--program", slow, *words.split()], **how) as ran:
        _, stretch = ran.stdout.readline(), ran.stdout.readline()
        is_late = os.path.exists(f"{slow}.late")
        room.file("slow.read")
        ran.communicate()
    return [stretch.rstrip("\n"), "after" if is_late else "before"]


def in_process(room):
    """Where there is a library, tools ask it, and print what they print of the program."""
    library = f"{TOP}/library/out/libcgrlist.so.2"
    if not os.path.exists(library):
        print(f"answers: in process: left out, there is no {library}")
        return
    ends = "--plan examples/relay.txt --from 31 --to 1"
    choices = room.file("chosen", "4,11,2\n5,12,2\n1,3\n")
    for words in (
        f"timetable {ends} --between 2030-01-01 2030-01-02 --csv", f"latest {ends} --by 2030-01-01T20:00:00Z", f"latest {ends} --by 2030-01-01",
        f"report {ends} --at 2030-01-01 --count 3 --hops --send-by --json", f"report {ends} --at 2030-01-01 --count 3 --lost",
        f"report {ends} --at 2030-01-01 --by 2030-01-01T18:00:00Z", f"report {ends} --at 2030-01-01 --distinct nodes --count 5 --without 4",
        f"report {ends} --at 2030-01-01 --choices {choices}", f"report {ends} --at 2030-01-01 --count 3 --max-hops 0",
        f"timeline {ends} --at 2030-01-01 --count 3", "compare examples/relay.txt examples/a.txt --from 1 --to 3 --at 2030-01-01 --count 2",
    ):
        yield f"in process: {words.replace(choices, 'G')}", "the same", lambda words=words: the_same(*(
            room.run(f"tools/{words}", CGRLIST=room.program, **how).all() for how in ({"CGRLIST_LIBRARY": library}, {"CGRLIST_IN_PROCESS": "0"})))
    nothing = {"CGRLIST": "/none", "CGRLIST_LIBRARY": library}
    yield "in process, no program is asked", FIRST.splitlines()[0], lambda: last_of(room.run(
        "tools/latest --plan examples/a.txt --from 1 --to 3 --by 2030-01-01T00:00:15Z", **nothing).out)
    yield "a program that is named is asked", "status 125", lambda: last_of(room.run(
        "tools/latest --program /none --plan examples/a.txt --from 1 --to 3 --by 2030-01-01T00:00:15Z", **nothing).all())


def the_same(one, other):
    return "the same" if one == other else (one, other)


def a_testers_hour(room):
    """A router's choices for each minute from midnight on. It takes the best route but in three ways: some seconds it keeps contact
    4 after that has ended, some it forgets the last hop, and some it takes the second route, which delivers later."""
    tried = functools.cache(lambda: judged_choices(room))
    yield "a tester's hour: wrong in three ways", ["", "WrongEnd", "hop 1: TooLate"], lambda: sorted(set(tried()[0].values()))
    yield "a tester's hour: each wrong choice is named, and no other", "", lambda: differing(*map(sorted, map(dict.items, tried()[:2])))
    yield "a tester's hour: the counts and the status", "", lambda: differing(tried()[2:], (wrong_text(tried()[0]), 1))


def wrong_text(wrong):
    late = sum(fault == "" for fault in wrong.values())
    return f"report: choices 1000; wrong: not a route {len(wrong) - late}, more than 0 s after the best {late}\n"


def judged_choices(room):
    """The fault of each wrong choice by its line, empty for a late one; those that are named; what is said; and the status."""
    seconds = [f"{DAY}-{minute // 60:02}:{minute % 60:02}:00" for minute in range(1000)]
    requests = room.file("requests", "".join(f"31 1 {second}\n" for second in seconds))
    told = room.run([room.program], "many --plan examples/relay.txt --count 2 --requests", [requests]).out
    answers = [re.findall(r"delivery (\S+) .* contacts (.*)", part) for part in told.split("request ")[1:]]
    wrong, lines = {}, []
    for place, (second, (best, *others)) in enumerate(zip(seconds, answers), 1):
        contacts = best[1]
        if place % 97 == 5 and second > f"{DAY}-02:20:00":
            wrong[place], contacts = "hop 1: TooLate", "4 11 2"
        elif place % 101 == 7:
            wrong[place], contacts = "WrongEnd", contacts.rpartition(" ")[0]
        elif place % 89 == 11 and others and others[0][0] > best[0]:
            wrong[place], contacts = "", others[0][1]
        lines.append(f"{contacts.replace(' ', ',')} 31 1 {second}\n")
    ran = room.ask("report --plan examples/relay.txt --csv --wrong --exit-code --choices", [room.file("thousand", "".join(lines))])
    found = {int(line.split(",")[0]): line.rpartition(",")[2] for line in ran.out.splitlines()[1:]}
    return wrong, found, without_progress(ran.err), ran.status


def choices_of_routers(room):
    """Choices as routers print them: none, JSON, seconds since 1970. At 00:45:00 there are routes from the lander, and none from the
    second day on."""
    lines = f"""\
- 31 1 2030-01-02
- 31 1 1893458700
4,11,2 31 1 1893458700
[4, 11, 2] 31 1 1893458700
""".splitlines()
    told = ["report --plan examples/relay.txt --csv --choices -"]
    yield "no route, where there is none and where there is one, and seconds since 1970", [
        "1,31,1,2030-01-02 00:00:00,0,,,,,,-,", "2,31,1,2030-01-01 00:45:00,0,,,,,,-,HasRoute",
        "3,31,1,2030-01-01 00:45:00,0,,,1,2030-01-01 02:47:22,0,4 11 2,"], lambda: room.ask(*told, given="\n".join(lines[:3])).out.splitlines()[1:]
    yield "how many miss a route", """\
report: choices 3; wrong: not a route 0, route missed 1, more than 0 s after the best 0
status 1""", lambda: lines_with("^report: choices|status", room.told(*told, "--exit-code", given="\n".join(lines[:3])))
    request = {"from": 31, "to": "lander", "at": 1893458700}
    flat = {"contacts": [4, 11, 2], **request, "to": 1}
    as_json = [flat, {"contacts": [4, 11, 2], "request": {**flat, "avoid": [21], "max_hops": 5}}, {**flat, "contacts": None}]
    yield "lines of JSON", ["1,31,1,2030-01-01 00:45:00,0,,,1,2030-01-01 02:47:22,0,4 11 2,",
                            "2,31,1,2030-01-01 00:45:00,0,5,21,1,2030-01-01 02:47:22,0,4 11 2,",
                            "3,31,1,2030-01-01 00:45:00,0,,,,,,-,HasRoute"], lambda: room.ask(
        *told, given="\n".join(map(json.dumps, as_json))).out.splitlines()[1:]
    yield "a list of JSON for the request of the words", "   1     1  2030/01/01-02:47:22      0  4 11 2", lambda: last_of(
        room.from_lander(f"--at {DAY}-00:45:00 --choices -", given="[4, 11, 2]\n"))
    for line, why in (
        ("4,11,2", "it needs contacts, from, to and at"), ("-", "it needs contacts, from, to and at"), ("[4, 11, 2]", "it has no from, to, at"),
        ('{"contacts":[4],"from":31,"to":1}', "it has no at"), ('{"contacts":4}', "its contacts are no list of numbers or texts"),
        ('{"from":31,"to":1,"at":1893458700}', "it has no contacts"), ('{"contacts":[4],"request":4}', "its request is no object"), ('{"contacts":[4]', "it is no JSON"), ("[" * 100000, "it is no JSON"),
        ('{"contacts":[4],"from":31,"to":1,"at":[]}', "no time: []"),
        ('{"contacts":[4],"from":31,"to":1,"at":1893458700,"max_hops":"1 2"}', "its max_hops is no number"),
    ):
        yield f"a bad choice: {line[:60]}", f"report: choices line 1: {why}: {line}\nstatus 4", lambda: room.told(
            "report --plan examples/relay.txt --choices -", given=f"{line}\n")
    refused = "4,11,2 31 1 1893458700\n" * 2600 + "\n# a comment\n- 31 1 1893458700\n4,11,2 31 31 1893458700\n"
    yield "a request of a choice that is refused, by its line", "report: choices line 2604: SameNode\nstatus 4", lambda: room.told(
        "report --plan examples/relay.txt --choices -", given=refused)
    yield "a request of a choice of no route that is refused", "report: choices line 2: SameNode\nstatus 4", lambda: room.told(
        "report --plan examples/relay.txt --choices -", given="- 31 1 1893458700\n- 31 31 1893458700\n")
    yield "no choice at all", "report: there is no choice in -\nstatus 4", lambda: room.from_lander(f"--at {DAY}-00:45:00 --choices - --exit-code")
    for title, words in (("names", "--count 1 --names"), ("requests", "--count 1 --requests"), ("a report", "--report")):
        ends = "" if title != "names" else f"--from 31 --to 1 --at {DAY}-00:45:00"
        yield f"{title} that can't be used have a status of their own", "status 4", lambda: last_of(room.told(
            "report --plan examples/relay.txt", ends, words, "-" if title == "requests" else "/dev/stdin", given="lander\n"))


def what_has_no_end(room):
    """What has no end, or is too long, takes little time and memory."""
    for title, given, told in (
        ("zeros", "/dev/zero", "check: a line is bad"), ("lines", "<(yes)", "check: at least 10000 lines are bad"),
        ("a disk", "/dev/full", "check: a line is bad"),
    ):
        yield f"a plan without an end: {title}", f"{told}\nstatus 3", lambda: "\n".join(room.run(
            "bash -c", [f"ulimit -v 2000000; tools/check --plan {given}"]).all().splitlines()[-2:])
    for title, line in (("no line of a plan", "x" * 200), ("contacts", f"a contact {DAY}-00:00:00 {DAY}-00:00:09 1 2 5")):
        reads = "import sys; sys.path.insert(0, 'tools'); from cgrlist.reading import plan_bytes; n = len(plan_bytes('-')); print(n < 5_000_000 or n)"
        yield f"of many lines, no more is read than it takes: {title}", "True", lambda: room.run(
            "bash -c", [f"yes '{line}' | head -c 300000000 | python3 -B -c \"{reads}\""]).all()
    request = f"--from 31 --to 1 --at {DAY}-00:45:00"
    yield "a request over it", "cgrlist: plan line 1: LineTooLong", lambda: room.told(f"report --plan /dev/zero {request} --count 1").partition("\n")[0]
    for word in ("--names", "--choices", "--requests", "--report"):
        ends = request if word in ("--names", "--choices") else ""
        yield f"{word} without an end", "report: /dev/zero: it has more than 1000000", lambda: room.told(
            "report --plan examples/relay.txt", ends, "--count 1" if word in ("--names", "--requests") else "", word, "/dev/zero").partition(
                " lines")[0].replace("10000000", "1000000")
    yield "a converter without an end", "from_ionrc: /dev/zero: it has more than 256000000 bytes\nstatus 5", lambda: room.run("tools/from_ionrc /dev/zero").all()


def standard_error_and_memory(room):
    """Without standard error an answer is what it is. What ends a tool early leaves no traceback."""
    answer = room.from_a(f"--by {DAY}-00:00:15")
    for title, closed in (("closed", "2>&-"), ("full", "2>/dev/full")):
        yield f"standard error is {title}", answer, lambda: room.run(
            "bash -c", [f"tools/latest --program {room.program} --plan examples/a.txt --from 1 --to 3 --by {DAY}-00:00:15 {closed}"]).all()
        yield f"standard error is {title}, and the plan is refused", "status 5", lambda: room.run(
            "bash -c", [f"tools/latest --program {room.program} --plan /none --from 1 --to 3 --by {DAY}-00:00:15 {closed}"]).all()
    runs = "import sys; sys.path.insert(0, 'tools'); from cgrlist.tool import Tool, run_tool; Tool.name = 'latest'"
    for title, error, told in (("memory", "MemoryError()", "no memory"), ("a thread", 'RuntimeError("can\'t start new thread")', "no memory for a thread")):
        yield f"no memory for {title}", f"latest: {told}\nstatus 6", lambda: room.run(
            "python3 -B -c", [f"{runs}; run_tool(lambda: (_ for _ in ()).throw({error}))"]).all()
    os.mkdir(f"{room.path}/early")
    room.file("early/argparse.py", "import os, signal\nos.kill(os.getpid(), signal.SIGINT)\n")
    for tool in ("check", "compare", "from_ionrc", "latest", "report", "timeline", "timetable"):
        yield f"Ctrl-C while {tool} begins", (-signal.SIGINT, ""), lambda: (lambda ran: (ran.status, ran.all().removesuffix("status -2")))(
            room.run(f"env --default-signal=INT tools/{tool} --help", PYTHONPATH=f"{room.path}/early"))


def what_is_printed_of_others(room):
    """Bytes of a plan and names of nodes do nothing to terminals and spreadsheets."""
    escapes = room.file("escapes.txt", "@ 2030/01/01-00:00:00\na contact \033[2J\033]0;owned\a +5 1 2 5\n")
    yield "a bad line", r"   2  BadByte         a contact \x1b[2J\x1b]0;owned\x07 +5 1 2 5", lambda: room.told("check --plan", [escapes]).splitlines()[1]
    yield "and its hint", r"latest: hint: plan line 2 is: a contact \x1b[2J\x1b]0;owned\x07 +5 1 2 5", lambda: lines_with("line 2 is", room.told(
        f"latest --plan {escapes} --from 1 --to 3 --by 2030-01-02"))
    names = room.file("formulas", "31 =cmd|' /C calc'!A0\n22 @sum\n12 -12\n1 +1\n11 -\n")
    rows = room.from_lander(f"--at {DAY}-00:45:00 --count 1 --csv --names", [names]).splitlines()
    yield "cells that begin as formulas do", f"1,2030-01-01 02:47:22,3,'@sum,2030-01-01 02:20:00,4 11 2,'=cmd|' /C calc'!A0 > @sum > -12 > +1", \
        lambda: rows[1]
    given = room.file("mine.txt", read("examples/relay.txt"))
    yield "a page isn't written over the plan of standard input", f"timeline: --html: {given} is the file of --plan; it would be lost\nstatus 2", \
        lambda: room.run(
            "bash -c", [f"tools/timeline --program {room.program} --plan - --html {given} <{given}"]).all()


LATEST = f"latest --plan examples/a.txt --from 1 --to 3 --by {DAY}-00:01:15"
TIMETABLE = f"timetable --plan examples/relay.txt --from 31 --to 1 --between {DAY} {DAY}-12:00:00"


def how_far_long_runs_are(room):
    """A program that takes a second or more for each run."""
    slow = room.stub("slowly", f"#!/bin/sh\nsleep 1.3\nexec {room.program} \"$@\"\n")
    request = f"--plan examples/relay.txt --from 31 --to 1 --at {DAY}-00:45:00 --count 2"
    for title, told, words in (
        ("an answer", "report: working for 1 s", f"report {request}"), ("a last second", "latest: working for 1 s", LATEST),
        ("a comparison", "compare: working for 1 s", "compare examples/a.txt examples/relay.txt"),
        ("a timetable", f"timetable: told up to {DAY}-0", TIMETABLE),
        ("a picture", "timeline: working for 1 s", f"timeline {request}"),
        ("a check", "check: cgrlist checks the plan, for 1 s", "check --plan examples/relay.txt"),
        ("lost contacts", r"report: \d of 5 contacts are lost", f"report {request} --lost"),
        ("a page", "timeline: routes without nodes are looked for, for 1 s", f"timeline {request} --html {room.path}/slow.html"),
        ("a page's seconds", "timeline: the best routes by the second at the source are looked for, for 1 s",
         f"timeline {request} --html {room.path}/slow.html"),
    ):
        tool, *words = words.split()
        shown = functools.cache(lambda tool=tool, words=words: room.on_a_terminal([f"{TOP}/tools/{tool}", "--program", slow, *words], "shown"))
        yield f"how far is {title}", told, lambda: told if re.search(told, shown()) else shown()


def routes_chosen(room):
    """Direct routes share no relay; a rate of 0 isn't known; without a route nothing can be lost."""
    links = [(1, 2, 0, 10), (1, 2, 50, 10), (1, 3, 0, 0), (3, 2, 0, 10)]
    plan = room.file("direct.txt", f"@ {DAY}-00:00:00\n" + "".join(f"a range +0 +1000 {it} 1\n" for it in ("1 2", "1 3", "3 2")) + "".join(
        f"a contact +{start} +{start + 100} {one} {other} {rate}\n" for one, other, start, rate in links))
    request = f"--from 1 --to 2 --at {DAY}-00:00:00"
    for words in ("--count 5", "--count 5 --via 2"):
        yield f"direct routes share no relay: {words}", ["1", "3 4", "2"], lambda: re.findall(
            r"  (\d+(?: \d+)*) +1 >", room.told(f"report --plan {plan} {request} --distinct nodes {words}"))
    fits = [f"report --plan {plan} {request} --count 5 --csv --room --fits"]
    yield "a rate of 0 isn't known", [("1", "1000"), ("2", "990"), ("3", "1000")], lambda: [
        (row[0], row[-1]) for row in (line.split(",") for line in room.ask(*fits, "900").out.splitlines()[1:])]
    yield "and limits nothing", ["1", "3"], lambda: [line[0] for line in room.ask(*fits, "991").out.splitlines()[1:]]
    yield "nothing can be lost", """\
lost  link  delivery  later  contacts  nodes
report: there is no route, so no contact can be lost
report: hint: nothing leaves node 2: it sends in no contact""", room.told, f"report --plan {plan} --from 2 --to 1 --at {DAY}-00:00:00 --count 2 --lost"


def plans_compared(room):
    """A pass of the lander over the high relay is ten minutes later, that relay's pass to the south is gone, the low relay's have
    another rate, and a contact came. Without the high relay's pass, routes 2 and 3 come first."""
    relay = read("examples/relay.txt")
    changed = relay.replace("@ 2030/01/01-01:00:00", "@ 2030/01/01-01:10:00").replace("21 12 125000", "21 12 125001")
    new = room.file("new.txt", changed.replace("a contact +0 +5400 22 12 62500\n", "") + "a contact +0 +60 1 31 9\n")
    request = f"--from 31 --to 1 --at {DAY}-00:45:00 --count"

    def compared(*words, plan=new):
        return room.told("compare", *words, ["examples/relay.txt", plan])

    yield "two plans", COMPARED, compared, request, "2"
    yield "the same plan", "contacts: 20 stay, 0 came, 0 went, 0 moved, 0 changed", lambda: compared("--exit-code", plan="examples/relay.txt")
    yield "the same routes", "routes: 2 stay, 0 came, 0 went, 0 moved", lambda: last_of(
        compared(request, "2 --exit-code", plan="examples/relay.txt"))
    yield "a status", "status 1", lambda: last_of(compared("--exit-code"))
    more = room.file("more.txt", relay + "a contact +0 +60 1 31 9\n")
    yield "a status of routes alone", "routes: 2 stay, 0 came, 0 went, 0 moved", lambda: last_of(compared(request, "2 --exit-code", plan=more))

    def as_json(*words):
        told = json.loads(compared("--json", *words))
        moved = next(it for it in told["contacts"] if it["change"] == "moved")
        return told["counts"], moved["later"], moved["old"], told["requests"][0]["routes"][0], told["old_plan"]

    yield "as JSON", (
        {"stay": 16, "came": 1, "went": 1, "moved": 1, "changed": 2}, 600, {"start": "2030-01-01T01:00:00Z", "end": "2030-01-01T02:20:00Z"},
        {"change": "moved", "old_rank": 2, "rank": 1, "old_delivery": "2030-01-01T06:27:22Z", "delivery": "2030-01-01T06:27:22Z", "later": 0,
         "contacts": [5, 11, 2], "nodes": [31, 21, 12, 1]}, RELAY_DIGEST), as_json, request, "2"
    yield "both plans in one picture", "3 as it was, 2 changed, 3 contact, 1 moved, 1 went", lambda: bars_of(
        compared("--svg", request, "1", "--names", [room.file("names.txt", "31 lander\n")]))
    yield "the routes over both", ["1 delivery 2030/01/01-06:27:22, contacts 5 11 2", "old 1 delivery 2030/01/01-02:47:22, contacts 4 11 2"], \
        lambda: ["".join(it) for it in re.findall(r"<text><tspan [^>]*>([^<]*)</tspan>( [^<]*)</text>", compared("--svg", request, "1"))]
    yield "contacts alone in one picture", "3 as it was, 1 came, 2 changed, 1 contact, 1 moved, 1 went", lambda: bars_of(compared("--svg"))
    yield "no contact differs in a picture", 1, lambda: compared("--svg", plan="examples/relay.txt").count("no contact differs")
    yield "no picture of many requests", "compare: --svg has the routes of one request: --from, --to and --at; see --help\nstatus 2", lambda: compared(
        "--svg --count 1 --requests", [new])
    bad = room.file("bad.txt", "a range +0 +10 1 2 1\n")
    yield "which plan is refused", f"compare: {bad}: plan line 1: NoReference", lambda: compared(plan=bad).partition("\n")[0]
    yield "plans from pipes", "contacts: 4 stay, 0 came, 0 went, 0 moved, 0 changed", lambda: room.run(
        "bash -c", [f"tools/compare --program {room.program} <(cat examples/a.txt) - <examples/a.txt"]).all()


def bars_of(picture):
    """How many bars of a picture of two plans are of which kind."""
    kinds = re.findall(r'<rect class="bar[^"]*" x=[^>]*><title>[^<]*?(?: s|no light time)(, [^<]*)?</title>', picture)
    return ", ".join(f"{count} {kind}" for kind, count in sorted(Counter(kind[2:] or "contact" for kind in kinds).items()))


COMPARED = """\
contacts: 16 stay, 1 came, 1 went, 1 moved, 2 changed
change          number  nodes    start                end                    rate  light  old
changed             10  21 > 12  2030/01/01-00:30:00  2030/01/01-01:40:00  125001   1039  rate 125000
moved, +10 min       4  31 > 22  2030/01/01-01:10:00  2030/01/01-02:30:00    4000      1  start 2030/01/01-01:00:00, end 2030/01/01-02:20:00
went                11  22 > 12  2030/01/01-02:30:00  2030/01/01-04:00:00   62500   1039
changed             11  21 > 12  2030/01/01-06:10:00  2030/01/01-07:00:00  125001   1039  rate 125000
came                21  1 > 31   2030/01/01-15:31:00  2030/01/01-15:32:00       9      -

request from 31 to 1 at 2030/01/01-00:45:00
routes: 0 stay, 0 came, 1 went, 2 moved
change  old rank  rank  old delivery         delivery             later  contacts  nodes
moved          2     1  2030/01/01-06:27:22  2030/01/01-06:27:22      0  5 11 2    31 > 21 > 12 > 1
moved          3     2  2030/01/01-06:27:22  2030/01/01-06:27:22      0  6 11 2    31 > 21 > 12 > 1
went           1     -  2030/01/01-02:47:22  -                        -  4 11 2    31 > 22 > 12 > 1"""

REQUESTS = f"""\
# from to at
lander 1 2030-01-01T16:00:00Z

31 1 {DAY}-23:00:00
1 relay high {DAY}-13:00:00
"""


def many_requests(room):
    requests = room.file("requests", REQUESTS)
    hint = f"report: hint: nothing leaves node 31 lander after {DAY}-23:00:00: its last contact ends at {DAY}-17:34:00"

    def many(*words):
        return room.told("report --plan examples/relay.txt --count 1 --requests", [requests], room.names, *words)

    yield "a table for each", f"""\
request from lander to 1 at {DAY}-16:00:00
{HEAD}
   1  {DAY}-20:37:21     3  {DAY}-17:34:00  9 15 1    lander > 21 > 11 > 1
end

request from lander to 1 at {DAY}-23:00:00
rank  delivery  hops  until  contacts  nodes
end

request from 1 to relay high at {DAY}-13:00:00
{HEAD}
   1  {DAY}-13:17:21     2  {DAY}-13:30:00  3 18      1 > 11 > relay high
more
{hint}""", many
    yield "a line for each", f"""\
source,destination,at,margin_ppm,max_hops,avoid,rank,delivery,hops,entry,until,contacts,nodes,room
lander,1,2030-01-01 16:00:00,0,,,1,2030-01-01 20:37:21,3,21,2030-01-01 17:34:00,9 15 1,lander > 21 > 11 > 1,122880000
lander,1,2030-01-01 23:00:00,0,,,,,,,,,,
1,relay high,2030-01-01 13:00:00,0,,,1,2030-01-01 13:17:21,2,11,2030-01-01 13:30:00,3 18,1 > 11 > relay high,3598000
{hint}""", many, "--csv --room"
    as_json = ["report --plan examples/relay.txt --count 1 --json --requests", [requests], room.names]
    yield ("an object for each", ["31 1 2030-01-01T16:00:00Z 0 None [] 1 True", "31 1 2030-01-01T23:00:00Z 0 None [] 0 True",
                                  "1 22 2030-01-01T13:00:00Z 0 None [] 1 False"],
           lambda: [" ".join(map(str, [*it["request"].values(), len(it["routes"]), it["end"]]))
                    for it in map(json.loads, room.ask(*as_json).out.splitlines())])
    yield ("from standard input, each by a time", 2, lambda: room.told(
        f"report --plan examples/relay.txt --requests - --by {DAY}-03:00:00",
        given="31 1 2030-01-01\n31 1 2030-01-01T01:00:00Z\n").count(" 4 11 2 "))
    for line, why in (
        ("31 1", "it has fewer than three words: from to at"), ("31 1 noon", "no time of the years 1970 to 9998: noon"),
        ("31 earth 2030-01-01", "it names no two nodes"), ("31 2030-01-01", "it has fewer than three words: from to at"),
    ):
        yield (f"a bad line: {line}", f"report: requests line 2: {why}: {line}\nstatus 4",
               room.of_requests, f"31 1 2030-01-01\n{line}\n")
    yield ("a request that is refused: those before it are answered",
           "more\ncgrlist: request: SameNode\nreport: requests line 2: it is refused\n\
report: hint: the source and the destination are the same node\nstatus 4",
           lambda: room.of_requests("31 1 2030-01-01\n1 1 2030-01-01\n").split("\n", 3)[3])
    margin = "--margin-ppm is a number from 0 to 1000000"
    for limit, why, hint in (
        ("--margin-ppm 1000001", "bad --margin-ppm", margin), ("--max-hops 0", "bad --max-hops", "--max-hops is a number from 1 to 20000"),
        ("--avoid 31", "request: BadAvoid", "--avoid names each node once, and neither the source nor the destination"),
        ("--margin-ppm '0 4'", "bad --margin-ppm", margin),
    ):
        yield (f"a limit that is refused: {limit}", f"cgrlist: {why}\nreport: requests line 1: it is refused\nreport: hint: {hint}\nstatus 4",
               room.of_requests, "31 1 2030-01-01\n", limit)
    yield ("a bad count", "cgrlist: bad --count\nreport: hint: --count is a number from 1 to 10000\nstatus 2",
           lambda: room.told("report --plan examples/relay.txt --requests - --count 0", given="31 1 2030-01-01\n"))
    yield ("limits of each", f"""\
   1  {DAY}-15:17:23     3  {DAY}-03:19:00  5 13 1    31 > 21 > 11 > 1
   1  {DAY}-20:37:23     3  {DAY}-17:34:00  9 15 1    31 > 21 > 11 > 1""",
           lambda: lines_with(" 31 > ", room.of_requests(f"31 1 {DAY}-00:45:00\n31 1 {DAY}-16:00:00\n",
                                                         "--margin-ppm 224 --max-hops 3 --avoid 12")))
    yield ("a line with limits", f"   1  {DAY}-15:17:21     3  {DAY}-03:19:00  5 13 1    31 > 21 > 11 > 1",
           lambda: lines_with(" 31 > ", room.of_requests(f"31 1 {DAY}-00:45:00 0 3 12\n")))
    limited = f"31 1 {DAY}-00:45:00 224 3 12,22\n"
    yield ("limits stand in the table", f"request from 31 to 1 at {DAY}-00:45:00 margin ppm 224 max hops 3 avoid 12,22",
           lambda: room.of_requests(limited).partition("\n")[0])
    yield ("limits stand in CSV", ["at,margin_ppm,max_hops,avoid,rank", '2030-01-01 00:45:00,224,3,"12,22",1'],
           lambda: [re.sub(r"^(?:\w+,){2}|(?<=rank),.*|(?<=,1),.*", "", it) for it in room.of_requests(limited, "--csv").splitlines()])
    yield ("limits stand in JSON", ({"from": 31, "to": 1, "at": "2030-01-01T00:45:00Z", "margin_ppm": 224, "max_hops": 3, "avoid": [12, 22]}, VERSION),
           lambda: (lambda it: (it["request"], it["version"]))(json.loads(room.of_requests(limited, "--json"))))
    seconds = "".join(f"31 1 {DAY}-00:{minute}:{second}\n" for minute in range(10, 60) for second in range(10, 60))
    shared = room.of_requests(seconds)
    yield "many requests are shared among processors", (2500, 2500), lambda: (shared.count("request "), shared.count(" 4 11 2 "))
    yield ("no requests", "report: there is no request in /dev/null\nstatus 4",
           room.told, "report --plan examples/relay.txt --requests /dev/null --count 1")
    yield ("requests and a request", "report: --requests takes the place of --from, --to, --at and --report; see --help\nstatus 2",
           many, "--to 1")
    # The stub waits until two of it run.
    meets = room.stub("meets", f"""#!/bin/sh
[ $1 = check ] && exit
: >"{room.path}/met.$$"
for turn in $(seq 300); do
    [ $(ls "{room.path}"/met.* | wc -l) = 2 ] && sed 's/^/request /; a end' "$5" && exit
    sleep 0.1
done
""")
    if os.cpu_count() > 1:
        yield ("as many at a time as there are processors", 2,
               lambda: len(lines_with("end", room.of_requests("31 1 2030-01-01\n1 31 2030-01-01\n", by=meets)).splitlines()))
    other = room.stub("other", '#!/bin/sh\n[ $1 = check ] || echo "$ANSWER"\n')
    for answer, why in (("", "cgrlist many answers 0 of 1 lines"), ("end", "this is no answer to a request: end"), ("request 31 1", CUT)):
        yield f"answers that are none: {answer}", f"report: {why}", lambda: re.sub(
            r"\nstatus \d+$", "", room.of_requests("31 1 2030-01-01\n", by=other, ANSWER=answer))


def hints(room):
    relay, a = read("examples/relay.txt"), read("examples/a.txt")
    dark = room.file("dark.txt", lines_with("^(?!.*( 1 12 1$| 12 1 3$))", relay) + "\n")
    lightless = room.file("lightless.txt", lines_with("^(?!.*range)", a) + "\n")
    for title, wanted, plan, words in (
        ("nothing to hint at", "", "examples/relay.txt", "--from 31 --to 1 --at 2030-01-01"),
        ("nodes that are nowhere", "\n".join(f"node {it} is in no contact of the plan" for it in (32, 13, 14)),
         "examples/relay.txt", "--from 31 --to 32 --at 2030-01-01 --avoid 13 --via 14"),
        ("a time after the plan", "at 2031-01-01T00:00:00Z the plan's last contact has ended, at 2030-01-02T00:00:00Z",
         "examples/relay.txt", "--from 31 --to 1 --at 2031-01-01 --iso"),
        ("a second before the end", "", "examples/relay.txt", f"--from 11 --to 1 --at {DAY}-23:59:59"),
        ("nothing leaves", f"nothing leaves node 31 after {DAY}-17:34:00: its last contact ends at {DAY}-17:34:00",
         "examples/relay.txt", f"--from 31 --to 1 --at {DAY}-17:34:00"),
        ("nothing ever leaves", "nothing leaves node 3: it sends in no contact", "examples/a.txt", "--from 3 --to 1 --at 2030-01-01"),
        ("a contact without light", "1 of 20 contacts have no light time, so no route takes them",
         dark, "--from 31 --to 1 --at 2030-01-01"),
        ("no light", "no contact of the plan has a light time, so there is no route: it needs lines 'a range'",
         lightless, "--from 1 --to 3 --at 2030-01-01"),
        ("no contact", "the plan has no contacts", "/dev/null", "--from 1 --to 3 --at 2030-01-01"),
    ):
        yield title, wanted, room.hinted, plan, words
    yield ("many hints", "hint: and 2 more", lambda: parts_of("hint: and.*", room.of_requests(
        "".join(f"{it} 1 2030-01-01\n" for it in range(101, 113)))))

    # What the hints say takes the bytes off.
    def hint_of(plan):
        return room.hinted(plan, "--from 1 --to 3 --at 2030-01-01")

    crlf, mark = room.file("crlf plan.txt", a.replace("\n", "\r\n")), room.file("mark.txt", "\ufeff" + a)
    for title, plan, wanted in (
        ("CR and LF", crlf, f"plan line 1 and 7 more lines end with CR and LF; sed -i 's/\\r$//' '{crlf}' takes the CR off"),
        ("a byte order mark", mark,
         f"plan line 1 begins with a byte order mark; sed -i '1s/^\\xEF\\xBB\\xBF//' {mark} takes it off"),
    ):
        hint = hint_of(plan)
        yield title, wanted, hint_of, plan
        room.run("bash -c", [hint.partition("; ")[2].partition(" takes")[0]])
        yield f"it is off: {title}", a, room.read, os.path.basename(plan)
    for path, why in ((room.path, "Is a directory"), ("/none.txt", MISSING)):
        yield (f"a plan that can't be read: {why}", f"report: {path}: {why}\nstatus 5",
               room.told, "report --from 1 --to 3 --at 2030-01-01 --count 1 --plan", [path])


def programs_of_clones(room):
    """If the clone's proved program isn't current, the clone's script makes a trial, which is asked; unless CGRLIST_TRIAL is no.
    Else the built program is asked itself. CGRLIST names another one."""
    clone = f"{room.path}/clone"
    os.makedirs(f"{clone}/crates/cgrlist/out")
    shutil.copytree(f"{TOP}/tools", f"{clone}/tools")
    room.stub("clone/cgrlist", f"""#!/bin/sh
[ ! -e "$0.current" ] || exit 2
[ "$CGRLIST_TRIAL" != no ] || {{ echo "cgrlist: the proved program comes first" >&2; exit 125; }}
[ ! -e "$0.fails" ] || {{ echo "cgrlist: the trial fails" >&2; exit 125; }}
echo "cgrlist: a trial answers" >&2
[ ! -e "$0.keeps-none" ] || exit 0
ln -sf {room.program} "${{0%/*}}/crates/cgrlist/out/trial"
""")

    def in_clone(*words, **further):
        words = words or ["report --from 1 --to 3 --at 2030-01-01 --count 1"]
        tool, _, words = words[0].partition(" ")
        ran = room.run([f"{clone}/tools/{tool}"], words, "--plan examples/a.txt", **further)
        return f"{ran.err}{last_of(ran.out)}"

    first = "cgrlist: the proved program comes first\n"
    drawn = "cgrlist did not check this plan: there is no program"
    yield "no trial is started", first, lambda: in_clone(CGRLIST_TRIAL="no")
    yield "a plan is drawn, and the picture says that it wasn't checked", drawn, in_clone, "timeline --text"
    yield "and a page says so", 1, lambda: room.run(
        [f"{clone}/tools/timeline"], "--plan examples/a.txt --html /dev/stdout").out.count(drawn)
    yield "a named program has to be there", "timeline: there is no program: looked for /nowhere\n", in_clone, \
        "timeline --text --program /nowhere"
    room.file("clone/cgrlist.fails")
    yield "a trial that fails", "cgrlist: the trial fails\n", in_clone
    os.rename(f"{clone}/cgrlist.fails", f"{clone}/cgrlist.keeps-none")
    yield "a trial that isn't kept", f"cgrlist: a trial answers\nreport: the trial could not be kept as {clone}/crates/cgrlist/out/trial; a release \
has one, and cgrlist.html answers in a browser\n", in_clone
    os.remove(f"{clone}/cgrlist.keeps-none")
    yield "a trial answers, and one note says so", "cgrlist: a trial answers\nmore", in_clone
    yield "CGRLIST names the program", "more", lambda: in_clone(CGRLIST=room.program)
    os.symlink(room.program, f"{clone}/crates/cgrlist/out/cgrlist")
    yield "no old program answers", first, lambda: in_clone(CGRLIST_TRIAL="no")
    room.file("clone/cgrlist.current")
    yield "the built program", "more", in_clone
    yield "the plan is checked", "= contact, with its number", in_clone, "timeline --text"


# ---- Plans without a program ------------------------------------------------------------------------------------

# What words of the lines of a plan become, so that some of them are bad.
WORDS = ["", "+0", "+5", "+000000000007", "+9999999999999", "-1", "2030/01/01-00:00:10", "2030/1/1-00:00:00", "9999/01/01-00:00:00",
         "9998/12/31-23:59:59", "1969/12/31-23:59:59", "0", "1", "2", "3", "02", "18446744073709551615", "18446744073709551616", "1000000",
         "1000001", "a", "d", "@", "#", "contact", "range", "x" * 255, "é", "\t", "\r", "\x0b", "\x7f", "*", "ipn:1"]
EMPTY = f"digest {hashlib.sha256(b'cgr-plan 1' + bytes([10]) + b'end' + bytes([10])).hexdigest()}"
JUDGES = """import sys
sys.path.insert(0, "tools")
from cgrlist.errors import Refused
from cgrlist.plans import Plan
for path in sys.argv[1:]:
    try:
        print("digest", Plan.from_file(path).digest)
    except Refused as refused:
        print(refused.message)
"""


def drawn_plans(count):
    """Plans of a few lines, in which words are exchanged at random."""
    draw = random.Random(1)
    for _ in range(count):
        lines = ["@ 2030/01/01-00:00:00", "a contact +0 +10 1 2 5", "a range +0 +10 1 2 5", "a contact +5 +20 1 2 7",
                 "a range +10 +20 1 2 0", "a range +3 +7 2 1 1", "d contact +0 1 2", "d range +0 1 2", "# two words", ""]
        draw.shuffle(lines)
        lines = lines[: draw.randint(1, 9)] + lines[: draw.randint(0, 3)]
        lines.insert(0 if draw.random() < 0.8 else 2, "@ 2030/01/01-00:00:00")
        place = draw.randrange(len(lines))
        words = lines[place].split(" ")
        words[draw.randrange(len(words))] = draw.choice(WORDS)
        lines[place] = " ".join(words)
        yield draw.choice(["", "\n"]).join(["\n".join(lines), ""])


def plans_judged_alike(room):
    """What reads plans for the tools accepts what `cgrlist check` accepts, and refuses the rest for the same line and reason."""
    edges = ["", "\n", "#", "#" * 255, "#" * 256, f"a contact +0 +1 1 1{'x' * 250}",
             "@ 9998/12/31-23:59:58\na contact +0 +1 1 2 3\na contact +0 +2 1 2 3",
             "@ 2030/01/01-00:00:00\n" + "".join(f"a range +{at} +{at + 1} 1 2 5\n" for at in range(20001))]
    paths = [room.file(f"drawn-{place}", text) for place, text in enumerate([*edges, *drawn_plans(300)])]

    def by_the_program(path):
        told = room.run([room.program, "check", "--plan", path])
        return {0: last_of(told.out), 3: told.err.strip().partition(": ")[2]}.get(told.status, told.all())

    def judged(*paths):
        told = room.run("python3 -B -c", [JUDGES], paths, CGRLIST="/none")
        return told.out.splitlines() + told.err.splitlines()

    yield "plans are judged alike", "", lambda: differing(judged(*paths), [*map(by_the_program, paths)])
    yield "they are of all kinds", 14, lambda: len({re.sub(r"digest \w+|line \d+", "", it) for it in judged(*paths)})
    yield ("a plan of too many lines", ["plan line 1000001: TooMany", EMPTY],
           lambda: judged(room.file("lines", "#\n" * 1000000 + "\n"), room.file("fewer", "#\n" * 1000000)))


def refused_plans(room):
    bad = room.file("bad2.txt", f"@ {DAY}-00:00:00\na range +0 +100 1 2 5\na range +0 +50 1 2 9\na contact +0 +10 3 3 5\n")
    yield "a refused plan isn't drawn, and the other line is named", """\
timeline: plan line 3: RangeOverlap
timeline: hint: plan line 3 is: a range +0 +50 1 2 9
timeline: hint: plan line 2 is: a range +0 +100 1 2 5
timeline: hint: a range of these nodes shares a second with it: let one end where the next starts
status 3""", lambda: room.run("tools/timeline --plan", [bad], CGRLIST_TRIAL="no", CGRLIST="").all().replace("cgrlist: plan", "timeline: plan")
    a = read("examples/a.txt")
    for title, text, told in (
        ("JSON", '{"contacts": []}\n', "JSON: if it is HDTN's, from_ionrc --form hdtn {} makes a plan of it"),
        ("UTF-16", a.encode("utf-16"), "text in UTF-16: iconv -f UTF-16 -t UTF-8 {} | .. --plan -"),
        ("gzip", gzip.compress(a.encode()), "compressed: gzip -dc {} | .. --plan -"),
        ("xz", lzma.compress(a.encode()), "compressed: xz -dc {} | .. --plan -"),
    ):
        plan = room.file(f"plan.{title}", text)
        yield f"what a plan is: {title}", f"the plan is {told.format(plan)}", room.hinted, plan, "--from 1 --to 3 --at 2030-01-01"
    from_a = "report --from 1 --to 3 --at 2030-01-01 --count 1 --plan"
    yield "a plan from standard input", "more", lambda: last_of(room.told(from_a, "-", given=a))
    yield "a plan from a pipe", "more", lambda: last_of(room.run(
        "bash -c", [f"tools/{from_a} <(cat examples/a.txt) --without 3 --program {room.program}"]).all())


def plans_checked(room):
    bad = room.file("bad3.txt", f"""\
@ {DAY}-00:00:00
a range +0 +100 1 2 5
a contact +0 +10 1 2 5
a range +0 +50 1 2 9
a contact +0 +20 1 2 7
a contact +0 +10 3 3 5
""")
    yield "all bad lines", """\
line  reason            other  text
   4  RangeOverlap          2  a range +0 +50 1 2 9
   5  DuplicateContact      3  a contact +0 +20 1 2 7
   6  SelfPair                 a contact +0 +10 3 3 5
RangeOverlap: a range of these nodes shares a second with it: let one end where the next starts
DuplicateContact: a contact with that start, sender and receiver stands above: take one out
SelfPair: a loopback, as in ION's examples: take it out
check: 3 lines are bad
status 3""", room.told, "check --plan", [bad]
    yield "bad lines as JSON", [(4, "RangeOverlap", 2), (5, "DuplicateContact", 3), (6, "SelfPair", None)], lambda: [
        (it["line"], it["reason"], it["other"]) for it in json.loads(room.ask("check --json --plan", [bad]).out)["bad_lines"]]
    facts = f"""\
contacts 20
ranges 14
nodes 6: 1, 11, 12, 21, 22 relay high, 31 lander
without light 0
first start {DAY}-00:00:00
last end 2030/01/02-00:00:00
digest {RELAY_DIGEST}"""
    yield "a good plan", facts, room.told, "check --plan examples/relay.txt", room.names
    yield "it counts as the program does", room.run([room.program], "check --plan examples/relay.txt").out, lambda: re.sub(
        "(?<=nodes 6):.*|first.*\n|last.*\n", "", room.ask("check --plan examples/relay.txt").out)
    session = f"{room.path}/session"
    room.run([room.program], f"first --plan examples/relay.txt --from 31 --to 1 --at {DAY}-00:45:00 --count 2 --session-out", [session])
    text = room.read("session")
    yield "a session", "session yes", lambda: last_of(room.told("check --plan examples/relay.txt --session", [session]))
    for title, changed, why in (
        ("it is cut", text.replace("end\n", ""), r"session line \d+: BadLine"), ("its count", text.replace("emitted 2", "emitted 3"), "session: BadCount"),
        ("another plan", text.replace("plan 1", "plan 2"), "session: OtherPlan"),
        ("a route is missing", text.replace("part - / 4 5 / 6 12 2", "part - / 4 5 / -"), "its text is sound, but its routes aren't the best ones.*"),
    ):
        other = room.file(f"session-{len(title)}", changed)
        yield f"why a session is none: {title}", "", lambda: unlike(
            f"session no\ncheck: {re.escape(other)}: {why}\nstatus 1",
            room.told("check --plan examples/relay.txt --session", [other]).partition("\nsession ")[2].join(["session ", ""]))


def checks(asked):
    return checks_of("answers", Tools(asked.program("cgrlist")), [
        latest_seconds, versions_and_environments, help_of_tools, refusals, reports, reports_that_are_read, times_and_names, hops_and_room, many_routes,
        a_planners_questions, in_process, a_testers_hour, choices_of_routers, what_has_no_end, standard_error_and_memory,
        what_is_printed_of_others, how_far_long_runs_are, routes_chosen, plans_compared, many_requests, hints, programs_of_clones,
        plans_judged_alike, refused_plans, plans_checked])
