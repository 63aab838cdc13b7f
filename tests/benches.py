"""Runs the parts of bench/measure.py with small counts, over an example with three routes and over small plans.

Looked at are the status and the columns that don't depend on the machine. The counts are worked out by hand. Parts that
count instructions need valgrind, and a program that it can run, as a trial isn't. Those that build the yardstick need
cargo, too, one needs the C library, and that of the page Chromium. Without these they are left out.
"""

import os
import shutil
import tempfile

from browsers import lack_of_chromium
from checking import TOP, Room, checks_of
from engine import MODULE

OVER_A = ["--plan", f"{TOP}/examples/a.txt", "--from", "1", "--to", "3", "--at", "2030/01/01-00:00:00"]
ONCE = ["--repeats", "1"]
SPELLINGS = ["relative", "shuffled", "absolute", "aligned", "trailing", "tabs"]

# Of each: what it shows, the command, its words, which columns of its rows are looked at, and what they must be.
ROWS = [
    ("three routes and `end` after them", "measure.py --parts listing", [*OVER_A, *ONCE, "--counts", "1,9"], [0, 1, 2, 3],
     ["a 1 1 more", "a 9 3 end"]),
    ("a plan read in each spelling, and in pieces", "measure.py --parts reading", ["--only", "hub-40", "--pieces", "7", *ONCE], [0],
     [*(f"hub-40-{it}" for it in SPELLINGS), "hub-40-relative by 7"]),
    ("the memory of lists", "further.py --parts memory", [*OVER_A, "--counts", "1,9"], [0], ["a"]),
]
# These count instructions.
COUNTED = [
    ("instructions, the same for one program", "measure.py --parts instructions", [*OVER_A, "--counts", "1,9"], [0, 1, 4],
     ["a 1 1.00", "a 9 1.00"]),
    ("`many` answers as `first`", "many.py", [*OVER_A, "--requests", "6", "--counts", "1"], [0, 1], ["a 1"]),
    ("pages have the routes of one list", "further.py --parts pages", OVER_A, [0], ["a"]),
    ("a plan in each spelling", "further.py --parts spellings", ["--only", "relay-mars-500"], [0, 1], ["relay-mars-500 1.00"]),
    ("a text that is chosen to be slow", "measure.py --parts hostile", ["--only", "contacts-in-turn"], [0, 1], ["contacts-in-turn 19991"]),
    ("a limit on hops", "further.py --parts limits", ["--only", "grid-8", "--counts", "1"], [0, 1], ["grid-8 --max-hops 14 1.00"]),
]
OF_THE_LIBRARY = [
    ("calls of the C library", "measure.py --parts library", ["--only", "relay-moon-500", "--times", "2"], [0], ["relay-moon-500"]),
]
# These are asked of the yardstick, too.
BESIDE = [
    ("the main figures", "figures.py", ["--only", "relay-moon-500", "--counts", "1", *ONCE], [0], ["relay-moon-500"] * 2),
    ("long lists", "further.py --parts long", ["--only", "relay-mars-500"], [0], ["relay-mars-500"]),
]
OF_THE_PAGE = [
    ("calls of the page's engine", "page.py", ["--only", "relay-moon-500", "--counts", "1", "--browsers", "Chromium", *ONCE], [0],
     ["Chromium", "relay-moon-500"]),
]


def cells_in(text, columns):
    """Those columns of each row of the tables, without their heads."""
    rows = [[cell.strip() for cell in line.strip("| ").split("|")] for line in text.splitlines() if line.startswith("|")]
    lines = [row[0].startswith("--") for row in rows] + [False]
    data = [row for row, is_line, is_head in zip(rows, lines, lines[1:]) if not is_line and not is_head]
    return [" ".join(row[column] for column in columns) for row in data]


class Benches(Room):
    def __init__(self, asked):
        super().__init__()
        self.program = asked.program("cgrlist")

    def made(self, command, words, columns):
        """A command's status, the cells of those columns, and what it tells if it fails, in a folder of its own."""
        script, *parts = command.split()
        with tempfile.TemporaryDirectory(dir=self.path) as folder:
            ran = self.run([f"{TOP}/bench/{script}", self.program, *parts, *words, "--out", "plans"], at=folder)
        return ran.status, cells_in(ran.out, columns), ran.err if ran.status else ""

    def written(self, names):
        """The status of the script that writes plans, and what it prints."""
        ran = self.run([f"{TOP}/bench/plans.py", "--only", names, "--out", self.path])
        return ran.status, ran.out

    def counts(self):
        """Whether the instructions of the program can be counted."""
        words = [self.program, "first", *OVER_A, "--count", "1"]
        counting = "valgrind --tool=callgrind --callgrind-out-file=/dev/null"
        return bool(shutil.which("valgrind")) and "Collected" in self.run(counting, words).err


def parts(room):
    has_counts = room.counts()
    has_library = has_counts and os.path.exists(f"{TOP}/library/out/libcgrlist.a")
    beside = ["--beside", room.program]
    for about, command, words, columns, wanted in ROWS + COUNTED * has_counts + OF_THE_LIBRARY * has_library:
        yield about, (0, wanted, ""), room.made, command, [*words, *beside], columns
    has_page = os.path.exists(MODULE) and not lack_of_chromium()
    for about, command, words, columns, wanted in BESIDE * (has_counts and bool(shutil.which("cargo"))) + OF_THE_PAGE * has_page:
        yield about, (0, wanted, ""), room.made, command, words, columns


def plans(room):
    wanted = "spread-40        1 to 8 at 2030/01/01-00:00:00\nhub-40           1 to 5 at 2030/01/01-00:00:00\n"
    yield "plans and what is asked over them", (0, wanted), room.written, "spread-40,hub-40"


def checks(asked):
    return checks_of("benches", Benches(asked), [parts, plans])
