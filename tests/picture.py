"""Tries tools/timeline without the program, for which a script stands in: the picture that the examples show is the one that
the tool draws, whatever is drawn lies at its time, and a plan is listed and drawn as it stands."""

import os
import re
import shutil
import sys
from collections import Counter

from checking import TOP, Room, checks_of, last_of, lines_with, parts_of, unlike
from picture_faults import looked_at

sys.path.insert(0, f"{TOP}/tools")
from cgrlist.drawing.plot import plot_svg
from cgrlist.routes import Route
from cgrlist.times import time_text
from cgrlist.timetable import Stretch

MARS = "--plan examples/relay.txt --explained examples/relay-routes.txt"
DAY = ("2030/01/01-00:00:00", "2030/01/02-00:00:00")
CUT = ("2030/01/01-02:35:00", "2030/01/01-05:30:00")
NIGHT = ("2030/01/01-06:40:00", "2030/01/01-06:50:00")
WINDOWS = "contact, with its number"
ALL_KINDS = f"{WINDOWS}\nsending to arrival\nwait\ndelivery"
BEFORE = "(before this span)"


def joined(pattern, text, by=","):
    return by.join(parts_of(pattern, text).split("\n"))


def labels(text):
    """The labels of the rows."""
    return joined('text-anchor="end">(.*)</text>', text)


class Pictures(Room):
    """Where no program is asked for routes, a stub checks each plan."""

    def __init__(self):
        super().__init__()
        self.checker = self.stub("checker", "#!/bin/sh\n[ $1 = check ]\n")

    def run(self, *words, **further):
        return super().run(*words, **{"CGRLIST": self.checker, **further})

    def draw(self, *words):
        return self.run("tools/timeline", *words).out

    def between(self, span, *words):
        return self.draw(*words, ["--between", *span])

    def looked_at(self, span, *words):
        return looked_at(self.between(span, *words), *span)

    def of_mars(self, *words):
        return self.draw(MARS, *words)


def the_day_at_mars(room):
    day = room.between(DAY, MARS, "--unused")
    yield "all lies at its time", "9 ticks, 20 bars, 9 hops, 6 waits", looked_at, day, *DAY
    # Cut at both sides: contact 10 is over and the wait for 12 isn't; route 1 is on its way.
    yield "a part of the day", "6 ticks, 6 bars, 4 hops, 3 waits", room.looked_at, CUT, MARS, "--unused"
    yield ("links without a contact", "9 more links have no contact in this span",
           lambda: parts_of("[0-9]* more links[^<]*", room.between(CUT, MARS, "--unused")))
    yield ("a part of the day, as text: hops in the span", 4,
           lambda: len(lines_with("^  route.*#", room.between(CUT, MARS, "--text")).splitlines()))
    # The routes' span: from 01:00:00 to 06:27:22, with a twentieth and a second more at both sides. Of the links that they
    # use, contacts 2, 4, 5, 6, 10, 11 and 12 are in it.
    yield ("the span of the routes", "6 ticks, 7 bars, 9 hops, 6 waits",
           lambda: looked_at(room.of_mars(), "2030/01/01-00:43:37", "2030/01/01-06:43:45"))
    # Each kind of fault is seen. Route 1 turns from the row of contact 11 across that of contact 2.
    crossing = float(re.search(r'class="turn .*d="M([0-9.]+) .*route 1, node 12:', day)[1])
    for title, where, old, new, fault in (
        ("a bar", "contact 12:", ' x="', r"\g<0>1", "contact 12: 21 → 12"),
        ("a hop", "hop .*route 1, contact 11:", 'd="M1', r"\g<0>0", "route 1"),
        ("a wait", "wait .*route 2, node 21:", 'd="M1', r"\g<0>0", "route 2"),
        ("a line over another one", "turn .*route 3, node 12:", "dasharray", "dashes", "route 2"),
        ("a line over another one, by its dashes", "turn .*route 3, node 12:", "dashoffset", "offset", "route 2"),
        ("a line far from its time", "turn .*route 3, node 12:", r'd="M2', 'd="M3', "route 3"),
        ("a number that is crossed", 'class="number.*>2<', 'x="[0-9.]+', f'x="{crossing - 2}', "the number 2 is crossed by route 1"),
        ("a tick", 'class="tick".*06:00:00', 'd="M2', r"\g<0>0", "2030/01/01-06:00:00: 2030/01/01-06:00:00 is drawn at 2016.0\n\
the tick of 2030/01/01-06:00:00 is labelled []"),
        ("a label", "", ">06:00</text>", ">07:00</text>", "the tick of 2030/01/01-06:00:00 is labelled ['07:00']"),
        ("a colour", r"^\s*\.bar", "fill: #[0-9a-f]*", "fill: #c0c0c0", "bar has a contrast of 1.66 in light surroundings"),
    ):
        lines = [re.sub(old, new, it, count=1) if re.search(where, it) else it for it in day.split("\n")]
        yield f"a fault: {title}", fault, told_faults, "\n".join(lines)


def the_picture_of_the_readme(room):
    """The picture that README.md shows is the one of its three routes, by name."""
    program = room.stub("three", """#!/usr/bin/env bash
case $* in
first*) awk '/^delivery/ { print ++rank, $0 } END { print "more" }' examples/relay-routes.txt ;;
follow*) while read -r line; do
        echo "list $line" && sed -n "$((4 * count + 1)),$((4 * count + 4))p" examples/relay-routes.txt && ((++count))
    done <"${!#}" ;;
esac
""")
    nodes = {31: "lander", 22: "high relay", 21: "low relay", 12: "south station", 11: "north station", 1: "control centre"}
    names = ["--names", room.file("nodes.txt", "".join(f"{node} {name}\n" for node, name in nodes.items()))]
    picture = room.draw("--plan examples/relay.txt --from 31 --to 1 --at 2030/01/01-00:45:00 --count 3", names, ["--program", program])
    with open(f"{TOP}/examples/relay.svg", encoding="utf-8") as file:
        yield "the day at Mars", file.read(), lambda: picture
    links = ["lander → high relay", "high relay → south station", "south station → control centre", "lander → low relay",
             "low relay → south station"]
    yield "its links", links, lambda: labels(picture).split(",")
    # From 00:45:00 to 06:27:22, with a twentieth and a second at both sides.
    yield "all of it lies at its time", "6 ticks, 7 bars, 9 hops, 9 waits", looked_at, picture, "2030/01/01-00:27:52", "2030/01/01-06:44:30"
    left = re.sub('class="begin" d="M.', 'class="begin" d="M9', picture)
    yield "a fault: the second at the source", "", lambda: unlike(
        "(?s)bundle at the source 2030/01/01-00:45:00: 2030/01/01-00:45:00 is drawn at 9.*", looked_at(left, "2030/01/01-00:27:52", "2030/01/01-06:44:30"))


def told_faults(text):
    """What each fault of the day's picture is about."""
    return "\n".join(dict.fromkeys(it.partition(",")[0] for it in looked_at(text, *DAY).splitlines()[:-1]))


def the_axis(room):
    for title, first, last, ticks, above, at in (
        ("ten seconds", "2029/12/31-23:59:55", "2030/01/01-00:00:05", 5, "2029/12/31 2030/01/01",
         "23:59:56 23:59:58 00:00:00 00:00:02 00:00:04"),
        ("an hour", "2030/01/01-01:00:00", "2030/01/01-02:00:00", 7, "2030/01/01", "01:00 01:10 01:20 01:30 01:40 01:50 02:00"),
        ("two days: the first date has no room", "2030/01/01-17:00:00", "2030/01/03-17:00:00", 8, "2030/01/02 01/03",
         "18:00 00:00 06:00 12:00 18:00 00:00 06:00 12:00"),
        ("two days of two years", "2029/12/30-20:00:00", "2030/01/01-20:00:00", 8, "2029/12/31 2030/01/01",
         "00:00 06:00 12:00 18:00 00:00 06:00 12:00 18:00"),
        ("a week", "2029/12/28-13:00:00", "2030/01/04-13:00:00", 7, "2029 2030", "12/29 12/30 12/31 01/01 01/02 01/03 01/04"),
        ("a month: its Mondays", "2030/02/01-00:00:00", "2030/03/01-00:00:00", 4, "2030", "02/04 02/11 02/18 02/25"),
        ("a year", "2029/11/17-00:00:00", "2030/11/17-00:00:00", 6, "2030", "01/01 03/01 05/01 07/01 09/01 11/01"),
        ("ten years", "2029/11/17-00:00:00", "2039/11/17-00:00:00", 10, "",
         "2030 2031 2032 2033 2034 2035 2036 2037 2038 2039"),
        ("all times", "1970/01/01-00:00:00", "9998/12/31-23:59:59", 8, "", "2000 3000 4000 5000 6000 7000 8000 9000"),
    ):
        picture = room.between((first, last), "--plan examples/relay.txt")
        yield title, (f"{ticks} ticks", above, at), lambda: (
            re.sub(r", \d+ bars, 0 hops, 0 waits$", "", looked_at(picture, first, last)),
            *(joined(f' y="{y}" text-anchor="middle">(.*)</text>', picture, " ") for y in (15, 32)))


# A light time for one way alone wins, a deleted contact's number is left out, a contact may have no light time, and of a
# range only the contacts that start within it have its light time.
PLAN = """\
@ 2030/01/01-00:00:00
a range +0 +50 1 2 7
a range +0 +100 2 1 9
a contact +0 +60 1 2 1000
a contact +10 +60 1 2 1000
a contact +10 +60 2 1 1000
a contact +50 +100 1 2 1000
d contact +10 1 2
"""
ROUTES = """\
hop 1 contact 1 from 1 to 2 send 2030/01/01-00:00:00 arrive 2030/01/01-00:00:07
delivery 2030/01/01-00:00:07 hops 1 entry 2 until 2030/01/01-00:01:00 contacts 1
"""
ROUTE_1 = "route 1: delivery 2030/01/01-00:00:07, contacts 1"
MINUTES = ("2030/01/01-00:00:00", "2030/01/01-00:01:40")


def plans(room):
    plan, routes = ["--plan", room.file("plan.txt", PLAN)], ["--explained", room.file("routes.txt", ROUTES)]
    names = ["--names", room.file("names.txt", "# the nodes\n1 A & B\n\n2\tbasse station\n")]
    yield "a list", """\
contact  from  to  start                end                  rate  light
      1     1   2  2030/01/01-00:00:00  2030/01/01-00:01:00  1000      7
      3     2   1  2030/01/01-00:00:10  2030/01/01-00:01:00  1000      9
      4     1   2  2030/01/01-00:00:50  2030/01/01-00:01:40  1000      -
""", room.draw, plan, "--list"
    yield "a list with names, of a span", """\
contact  from  to  start                end                  rate  light  nodes
      4     1   2  2030/01/01-00:00:50  2030/01/01-00:01:40  1000      -  A & B > basse station
""", room.between, ("2030/01/01-00:01:00", "2030/01/02-00:00:00"), plan, "--list", names
    yield "a list without a lost contact, with times of ISO 8601", """\
contact  from  to  start                 end                   rate  light
      1     1   2  2030-01-01T00:00:00Z  2030-01-01T00:01:00Z  1000      7
      4     1   2  2030-01-01T00:00:50Z  2030-01-01T00:01:40Z  1000      -
""", room.draw, plan, "--list --iso --without 3"
    # 60 columns for 100 seconds; contacts 1 and 4 overlap. With a route, the links that it doesn't use are left out, and
    # those that it uses come in its order.
    yield "as text", f"""\
           2030/01/01
UTC        00:00:00          00:00:30          00:01:00          00:01:30
1 > 2      1===================================
  route 1  #####
                                         4=============================
2 > 1            3=============================
= contact, with its number   # sending to arrival
{ROUTE_1}
""", room.between, MINUTES, plan, routes, "--unused --text --columns 78"
    yield "the links of the routes alone", "1 > 2", lambda: parts_of("^. > .", room.draw(plan, routes, "--text"))
    named = room.between(MINUTES, plan, names)
    yield ("a row for each link, with names", "A &amp; B → basse station\nbasse station → A &amp; B",
           parts_of, "([^>]* → [^<]*)</text>", named)
    yield "overlapping windows", "7 ticks, 3 bars, 0 hops, 0 waits", looked_at, named, *MINUTES
    lanes = lines_with("contact [14]:", named)
    yield "two lanes", 2, lambda: len(set(re.findall(' y="[0-9]*"', lanes)))
    yield "nothing stands", "no contacts", lambda: parts_of("no [a-z]+", room.draw("--plan /dev/null"))
    yield "nothing stands, as text", "no contacts\n", room.draw, "--plan /dev/null --text"


def what_is_chosen(room):
    names = ["--names", room.file("mars-names.txt", "31 lander\n12 south\n")]
    by_routes = "31 → 22,22 → 12,12 → 1,31 → 21,21 → 12"
    all_day = ["--between", *DAY]
    for title, wanted, *words in (
        ("some links", "31 → 22,12 → 1", "--links '31>22,12>1'"),
        ("a link by names", "22 → south", "--links '22>south'", names),
        ("the links of a node", "31 → 22,31 → 21,21 → 31,22 → 31", "--nodes 31", all_day),
        ("the links of some nodes that routes use, by nodes", "12 → 1,21 → 12,22 → 12,31 → 21", "--nodes 12,21 --used --order link"),
        ("as routes go", by_routes),
        ("the words for that", by_routes, "--used --order route"),
    ):
        yield title, wanted, lambda: labels(room.of_mars(*words))
    for title, wanted, words in (("others after them", f"{by_routes},1 → 11", ""), ("by nodes", "1 → 11,11 → 1,11 → 21", "--order link")):
        yield title, wanted, lambda: labels(room.of_mars("--unused", words, all_day))[: len(wanted)]
    yield "a list has all", 20, lambda: len(lines_with("^ ", room.of_mars("--list", all_day)).splitlines())
    wide = room.of_mars("--unused --width 1500", all_day)
    yield ("a wide picture", ("1500", "25 ticks, 20 bars, 9 hops, 6 waits"),
           lambda: (re.search('width="([0-9]*)"', wide)[1], looked_at(wide, *DAY)))

    # The legend names what is drawn, and routes of which nothing is.
    def legend(*words):
        return parts_of(f">({WINDOWS}|sending to arrival|wait|delivery|[^<]*\\(.*\\))<", room.of_mars(*words))

    first, *later = (f" delivery 2030/01/01-{it}" for it in
                     ("02:47:22, contacts 4 11 2 ", "06:27:22, contacts 5 12 2 ", "06:27:22, contacts 6 12 2 "))
    after = "".join(f"\n{it}(after this span)" for it in later)
    yield "a legend of all", ALL_KINDS, legend
    yield ("a legend of windows alone", "\n".join([WINDOWS, *(f"{it}{BEFORE}" for it in (first, *later))]),
           legend, ["--between", *NIGHT])
    yield ("a wait, and routes that come later", f"{WINDOWS}\nwait{after}", lambda: lines_with(
        "^(?!sending)", legend("--between 2030/01/01-01:30:00 2030/01/01-02:00:00")))
    yield "a route over other links", f"{WINDOWS}\nsending to arrival\nwait\n{first}(not over these links)", legend, "--nodes 21"
    yield ("the legend of a text", f"= {WINDOWS}\nroute 1:{first}{BEFORE}",
           lambda: lines_with("^(= |route 1)", room.between(NIGHT, MARS, "--text")))
    yield ("ranks where the span cuts routes off", "2\n3", lambda: parts_of(
        'class="rank" x="642.*">([0-9]*)<', room.of_mars("--between 2030/01/01-00:00:00 2030/01/01-06:15:00")))


def many_routes(room):
    """Twenty routes at the same time, by twenty chains of two contacts over one link."""
    day, end = "2030/01/01-00:00", "2030/01/01-00:02:00"
    contacts = "".join(f"a contact {day}:{10 + it} {end} 1 2 5\n" for it in range(20)) + f"a contact {DAY[0]} {end} 2 3 5\n"
    routes = "".join(f"""\
hop 1 contact {it + 1} from 1 to 2 send {day}:{10 + it} arrive {day}:{11 + it}
hop 2 contact 21 from 2 to 3 send {day}:{11 + it} arrive {day}:40
delivery {day}:40 hops 2 entry 2 until {end} contacts {it + 1} 21
""" for it in range(20))
    words = ["--plan", room.file("twenty.txt", contacts), "--explained", room.file("twenty-routes.txt", routes)]
    minute = (DAY[0], "2030/01/01-00:01:00")
    twenty = room.between(minute, words)
    yield "twenty routes", "7 ticks, 21 bars, 40 hops, 20 waits", looked_at, twenty, *minute
    yield "told apart", 20, lambda: len(set(re.findall('wait line[0-9]* dash[0-9]*" d="M-', twenty)))
    yield "a long route is told without its middle", f" delivery .. 20 21 {BEFORE}", lambda: last_of(
        parts_of(r" delivery.*\)", room.between((minute[1], end), words, "--width 316")))
    for title, times, ranks, picture in (("ranks at the ends of three routes", 1, 3, room.between(DAY, MARS, "--unused")),
                                         ("ranks at the hops of twenty", 2, 20, twenty)):
        yield (title, {f"{rank}": times for rank in range(1, ranks + 1)},
               lambda: Counter(re.findall('class="rank".*>([0-9]*)</tspan></text>', picture)))


def asking_the_program(room):
    """The program is asked for the routes of a request."""
    plan, routes = room.file("plan.txt", PLAN), room.file("routes.txt", ROUTES)
    program = room.stub("program", f"""#!/usr/bin/env bash
echo "$*" >>"{room.path}/asked"
[[ $* != *--session-out* ]] || touch "${{!#}}"
case $* in
first*) printf '%s\\n' '1 delivery 2030/01/01-00:00:07 hops 1 entry 2 until 2030/01/01-00:01:00 contacts 1' more ;;
next*) echo end ;;
follow*) sed 's/^/list /' "${{!#}}" | tee -a "{room.path}/asked" && cat "{routes}" ;;
esac
""")
    ends = room.stub("ends", "#!/bin/sh\necho end\n")
    request = "--from 1 --to 2 --at 2030/01/01-00:00:00 --margin-ppm 5"

    def asked(*words, by=program):
        return room.run("tools/timeline --plan", [plan], request, *words, ["--program", by])

    first = asked("--count 1")
    titles = re.findall("<title>.*</title>", room.draw(["--plan", plan, "--explained", routes]))
    titles = sorted([*titles, "<title>bundle at the source 2030/01/01-00:00:00</title>"])
    yield "the first routes", titles, lambda: sorted(re.findall("<title>.*</title>", first.out))
    yield "a hint", "timeline: hint: 1 of 3 contacts have no light time, so no route takes them\n", lambda: first.err
    yield ("what was asked", f"""\
first --plan {plan} {request} --count 1
follow --plan {plan} --lists
list 1 1 2 2030/01/01-00:00:00 5 20000
""", lambda: re.sub("--lists .*", "--lists", room.read("asked")))
    report = room.file("report.txt", ROUTES.splitlines()[1].replace("delivery", "4 delivery", 1) + "\n")
    for title, wanted, *words in (
        ("the routes of a report", ROUTE_1.replace("1", "4", 1), ["--report", report]),
        ("all routes by a time", ROUTE_1, "--by 2030-01-01T00:00:07Z"),
        ("no route by a time", "no route", "--by 2030-01-01T00:00:06Z"),
        ("no route through a node", "no route", "--count 1 --via 3"),
        ("distinct routes", ROUTE_1, "--count 5 --distinct nodes --via 2"),
    ):
        yield title, wanted, lambda: last_of(asked("--text", *words).out)
    yield ("how many were looked at", "timeline: 1 routes are shown of 1 looked at",
           lambda: lines_with("looked", asked("--text --count 5 --distinct nodes --via 2").err))
    yield "no route", "no route", lambda: parts_of("no route", asked("--count 1", by=ends).out)
    yield "no route: all links are shown", "1 → 2,2 → 1", lambda: labels(asked("--count 1", by=ends).out)
    yield "no route, no link", "no route\n", lambda: asked("--count 1 --used --text", by=ends).out

    # Where the program is looked for: beside the folder of the tool, and in the path.
    for folder in ("share/tools", "bin"):
        os.makedirs(f"{room.path}/{folder}")
    shutil.copy(f"{TOP}/tools/timeline", f"{room.path}/share/tools")
    shutil.copytree(f"{TOP}/tools/cgrlist", f"{room.path}/share/tools/cgrlist")
    os.symlink(f"{room.path}/share/tools/timeline", f"{room.path}/bin/cgrlist-timeline")
    os.symlink(ends, f"{room.path}/bin/cgrlist")
    for title, wanted in (("the program in the path", "no route"), ("the program of the clone", ROUTE_1)):
        yield title, wanted, lambda: last_of(room.run(
            "env cgrlist-timeline --plan", [plan], request, "--count 1 --text", CGRLIST="", PATH=f"{room.path}/bin:{os.environ['PATH']}").out)
        os.path.exists(f"{room.path}/share/cgrlist") or os.symlink(program, f"{room.path}/share/cgrlist")
    yield ("no compiled module is left", [], lambda: [
        it for _, _, names in os.walk(f"{room.path}/share/tools") for it in names if it.endswith(".pyc")])

    # Too many routes are refused before one is explained; as text they are drawn.
    lists = room.stub("lists", f"""#!/usr/bin/env bash
echo "$1" >>"{room.path}/listed"
for ((rank = 1; rank <= 1053; rank++)); do
    echo "$rank delivery 2030/01/01-00:00:07 hops 1 entry 2 until 2030/01/01-00:01:00 contacts 1"
done
echo more
""")
    ran = asked("--count 1053", by=lists)
    yield "too many routes", (2, "first\n", "timeline: there are 1053 routes, and a picture of 20000 px has room for 1052: a smaller \
--count, --via and --distinct choose fewer; --all draws them"), lambda: (
        ran.status, room.read("listed"), lines_with("^(?!.*hint)", ran.err))


def lost_contacts(room):
    """Contact 11 is lost, and contacts 5, 12 and 2 make the best route then: it stands in the row below theirs."""
    program = room.stub("loses", f"""#!/usr/bin/env bash
case $* in
check*) echo ok ;;
first*) grep '^d contact' "$3" | tail -n 1 >"{room.path}/deleted"
    echo '1 delivery 2030/01/01-06:27:22 hops 3 entry 21 until 2030/01/01-03:19:00 contacts 5 12 2' && echo more ;;
follow*) sed 's/^/list /' "${{!#}}" && sed -n 5,8p examples/relay-routes.txt ;;
esac
""")
    words = ["--without 11 --plan examples/relay.txt --from 31 --to 1 --at 2030/01/01-00:45:00 --count 1 --program", [program]]
    picture = room.draw(*words)
    yield "the program is asked without it", "d contact 2030/01/01-02:30:00 22 12\n", room.read, "deleted"
    yield ("a lost contact stays", "contact 11: 22 → 12, 2030/01/01-02:30:00 to 2030/01/01-04:00:00, light time 1039 s, lost",
           parts_of, "contact 11:[^<]*", picture)
    yield "it is crossed out", [2, 2, 1, 1], lambda: [len(lines_with(it, picture).splitlines()) for it in (
        'class="bar lost"', 'class="cross"', 'class="number out"', ">lost<")]
    yield "no line is over its number", 0, picture.count, "line-through"
    yield "its row comes last", "31 → 21,21 → 12,12 → 1,22 → 12", labels, picture
    # The span is from 00:45:00, when the bundle is at the source, to 06:27:22, with a twentieth and a second at both sides.
    yield ("it lies at its time", "6 ticks, 6 bars, 3 hops, 3 waits",
           looked_at, picture, "2030/01/01-00:27:52", "2030/01/01-06:44:30")
    yield "the second at the source", ["2030/01/01-00:45:00"], re.findall, 'class="begin".*source ([^<]*)<', picture
    # Contact 12 ends after the span, 2 is open all night, and 10 begins within it.
    yield "bars that go on have a notch", ["12", "2", "2"], notched, picture
    yield ("crossed out as text",
           "xxxxxxxxxxxx\n= contact, with its number   x lost contact   # sending to arrival   . wait",
           lambda: parts_of("^= .*|x+$", room.draw(*words, "--text --columns 78")))
    for title, wanted, first, last in (
        ("dates of ISO 8601", "12-29 2029 12-30 12-31 01-01 2030 01-02 01-03 01-04", "2029-12-28T13:00:00Z", "2030-01-04T13:00:00Z"),
        ("a date of ISO 8601 above clock times", "01:00 2030-01-01 01:10 01:20 01:30 01:40 01:50 02:00",
         "2030-01-01T01:00:00Z", "2030-01-01T02:00:00Z"),
    ):
        yield title, wanted, lambda: joined('text-anchor="middle">(.*)</text>', room.between(
            (first, last), "--plan examples/relay.txt --iso"), " ")


def notched(picture):
    """The contacts of the bars that have a notch, once for each."""
    return [number for number, rest in re.findall('contact ([0-9]+):[^<]*</title></rect>((?:\n<path.*)*)', picture)
            for _ in re.findall('class="notch', rest)]


def a_plot(_):
    """In the plot of tools/timetable, no line of the grid is over the words 'no route'."""
    route = Route(1, 9000, 2, 9000, (1,), nodes=(1, 2))
    drawn = "".join(plot_svg([Stretch(0, 7200, route), Stretch(7201, 86400, None)], "a plot", time_text, str))
    yield "the words come after the grid", ['class="tick"', "no route"], lambda: sorted(('class="tick"', "no route"), key=drawn.rindex)
    ground = r'<rect class="band" x="(\S+)" y="(\d+)" width="(\S+)" height="(\d+)"/>\n<text x="(\S+)" y="(\d+)"[^>]*>no route'

    def inside():
        found = re.search(ground, drawn)
        x, y, width, height, middle, low = map(float, found.groups()) if found else [0] * 6
        return x < middle - 28 and middle + 28 < x + width and y < low - 12 and low + 3 < y + height or found or drawn

    yield "on a ground of their own", True, inside


def what_is_refused(room):
    """Nothing is printed but the message."""
    plan, routes = ["--plan", room.file("plan.txt", PLAN)], room.file("routes.txt", ROUTES)
    # As many links as make a picture too high.
    many = ["--plan", room.file("many.txt", "".join(
        f"a contact 2030/01/01-00:00:00 2030/01/01-01:00:00 {it} 1001 5\n" for it in range(1, 1001)))]
    unread, report = room.file("unread.txt", "# two lines before it\n\nno plan\n"), room.file("report.txt")
    refused, cut = room.file("refused.txt", "refused: Empty\n"), room.file("cut.txt", ROUTES.partition("\n")[0] + "\n")
    lander, twice = room.file("lander", "lander 31\n"), room.file("twice", "1 a\n2 a\n")
    fails = room.stub("fails", '#!/bin/sh\necho "cgrlist: plan line 3: NoReference" >&2\nexit 3\n')
    program = room.stub("program", "#!/bin/sh\necho end\n")
    request = "--from 1 --to 2 --at 2030/01/01-00:00:00 --margin-ppm 5"
    times = "a time is 2031/03/03-01:00:00, 2031-03-03T01:00:00Z, 2031-03-03 01:00, 2031-062, now or now+2h"
    for status, message, *words in (
        (3, """plan line 3: UnknownCommand
timeline: hint: plan line 3 is: no plan
timeline: hint: an ionrc: from_ionrc makes a plan of it; 'A' or 'add': write 'a'; a blank before '#'""", "--plan", [unread]),
        (5, "/nowhere: No such file or directory", "--plan /nowhere"),
        (2, "the following arguments are required: --plan; see --help"),
        (2, f"argument --between: no time of the years 1970 to 9998: 2030; {times}; see --help", plan, "--between 2030 2031"),
        (2, "--between: the first time isn't before the second; see --help", plan, ["--between", *reversed(DAY)]),
        (2, "--used and --order route need routes: --count, --by, --report or --explained; see --help", plan, "--used"),
        (2, "--used and --order route need routes: --count, --by, --report or --explained; see --help", plan, "--order route"),
        (2, "these words are missing: --from, --to, --at; see --help", plan, "--count 1"),
        (2, "these words are missing: --to; see --help", plan, "--from 1 --at 2030-01-01 --report", [report]),
        (2, "these words are missing: --count or --by; see --help", plan, request),
        (2, "these words are missing: --from, --to, --at, --count or --by; see --help", plan, "--avoid 3"),
        (2, "--explained takes the place of a request: --from, --max-hops; see --help",
         plan, "--from 1 --max-hops 2 --explained", [routes]),
        (2, "argument --links: no node's number: 1-2; see --help", plan, "--links 1-2"),
        (2, "argument --links: not nodes as 'A>B': 1>2>1; see --help", plan, "--links '1>2>1'"),
        (2, "--links: the plan has no contact from 3 to 1", plan, "--links '1>2,3>1'"),
        (2, "--nodes: the plan has no contact of node 3", plan, "--nodes 1,3"),
        (2, "--width: with these labels it is at least 316", plan, "--width 315"),
        (2, "the picture would be 24069 px high, more than 20000: --links, --nodes and --between choose links, a smaller --count \
routes; --all draws it so", many),
        (2, "argument --unused: not allowed with argument --used; see --help", plan, request, "--count 1 --used --unused"),
        (2, "argument --html: not allowed with argument --text; see --help", plan, "--text --html", [f"{room.path}/page.html"]),
        (4, "the routes are not of this plan: it has no contact 4 from 31 to 22", plan, "--explained examples/relay-routes.txt"),
        (4, "this is no line of a route's explanation: refused: Empty", plan, ["--explained", refused]),
        (4, "the explanations are cut: the last one has no line 'delivery'", plan, ["--explained", cut]),
        (4, "this is no line of a report: refused: Empty", plan, request, ["--program", program, "--report", refused]),
        (4, "names line 1: it doesn't begin with a node's number: lander 31", plan, ["--names", lander]),
        (4, "names line 2: the node or the name stands in a line above: 2 a", plan, ["--names", twice]),
        (125, "there is no program: looked for /nowhere", plan, request, "--count 1 --program /nowhere"),
    ):
        wanted = (status, "", f"timeline: {message}\n")
        yield f"refused: {message}, {len(words)}", wanted, lambda: room.run("tools/timeline", *words, given=PLAN)
    yield "refused: what the program refuses", """\
cgrlist: plan line 3: NoReference
timeline: hint: plan line 3 is: a range +0 +100 2 1 9
timeline: hint: put a line '@ TIME' in front, with the time from which relative times count
status 3""", lambda: room.run("tools/timeline", plan, request, "--count 1 --program", [fails]).all()

    def with_output(shown, *words):
        """What is told with standard output as a shell has it."""
        return room.run("bash -c", [f'tools/timeline "$@" {shown}'], "timeline", *words).all()

    yield "a full disk", "timeline: No space left on device\nstatus 5", with_output, ">/dev/full", plan
    yield "no standard output", "timeline: standard output is closed\nstatus 5", with_output, ">&-", plan
    # The reader is gone, and more is to be written than a pipe holds.
    yield ("a high picture, and a closed pipe", ["24069"], lambda: re.findall(
        '(?<= height=")[0-9]*|timeline.*', with_output("| head -n 1", many, "--all")))


def checks(_):
    return checks_of("picture", Pictures(), [
        the_day_at_mars, the_picture_of_the_readme, the_axis, plans, what_is_chosen, many_routes, asking_the_program, lost_contacts, a_plot, what_is_refused])
