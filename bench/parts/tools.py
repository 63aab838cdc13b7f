"""The part that measures tools which ask the C library in process."""
import os
import sys

from running import TOP, instructions, run
from tables import print_head, print_row, shown

RELAY = os.path.join(TOP, "examples", "relay.txt")
HOUR = "--from 1 --to 2 --between 2018-01-22 2018-01-22T01:00:00Z"
ASKED = {  # of each row: the tool, its words, and whether the plan is iridium
    "`timetable` of an hour": ("timetable", HOUR, True),
    "`timetable` of a day": ("timetable", "--from 31 --to 1 --between 2030-01-01 2030-01-02", False),
    "`latest`": ("latest", "--from 1 --to 2 --after 2018-01-22 --by 2018-01-22T02:00:00Z", True),
    "distinct nodes": ("report", "--from 1 --to 2 --at 2018-01-22 --distinct nodes --count 20", True),
}


def tools(bench):
    given = bench.given
    library = os.path.join(os.path.abspath(given.library), "libcgrlist.so.2")
    os.environ.update(CGRLIST_LIBRARY=library, PYTHONHASHSEED="0", PYTHONDONTWRITEBYTECODE="1")
    iridium = bench.questions(["iridium-1-2"])[0].path
    print_head("Tools in process: millions of instructions, and seconds of processor time.", ["Run", "million", "seconds"])
    for name, (tool, words, is_iridium) in ASKED.items():
        words = [sys.executable, os.path.join(TOP, "tools", tool), "--plan", iridium if is_iridium else RELAY, *words.split()]
        seconds = min((run(words, given.most_seconds).processor for _ in range(given.repeats)), default=None)
        millions = instructions(words, given.most_seconds)
        bench.check(millions is not None)
        print_row([name, shown(millions, 0), shown(seconds)])
        bench.rows.append({"tool": name, "million": millions, "seconds": seconds})
