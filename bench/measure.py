#!/usr/bin/env python3
"""Measures the program beside the yardstick, a native program, or beside another one. Each part prints a table.

    measure.py [PROGRAM] [--parts NAME,..] [--beside PATH] [--only NAME,..] [--plan FILE ..] [--counts N,N,..] ..

These make the figures of docs/speed.md. Instructions are counted by callgrind; a busy machine has the same as a quiet
one.

figures       a run of `first`, for 1, 10, 100 and 1000 routes, as multiples of the yardstick's run: its instructions,
              and its processor time, the best of some runs in turns; --repeats 0 leaves the time out
limits        the instructions of 1000 routes with a limit on hops, likewise
long          the instructions of 10000 routes, likewise
spellings     those of a run for one route over a plan in other spellings, as multiples of that with relative times
hostile       those a line of reading texts that are chosen to be slow, as multiples of those of texts in order
many          those of `many` over drawn pairs of nodes, as multiples of a run for each pair, of which some, the sample,
              are counted; from the yardstick's runs, its reading is taken off: a run for two nodes that no plan has
pages         those of `first` for a page and `next` for each further one, 1000 routes in all, as multiples of one `first`
memory        the peak memory of a run for one route and for 10000, in MB, and the ratio
library       those of calls of the C library, which library/build makes, beside `first` and `many`: reading a plan and
              the first question; a best route; a contact deleted and a best route after it; 1000 routes at once, and by
              pages of 100; and each hop of following lists of 10000 and 20000. What a call takes is the difference of
              two runs, by the calls that one has more
tools         those, and the processor time, of `timetable`, `latest` and `report` that ask the C library in process; with
              callgrind a run takes some fifty times as long

These measure any plans:

listing       the time and memory of `first` for 1 to 10000 routes; a program that runs into the limit of seconds isn't
              asked for more routes of that plan
instructions  the instructions of such runs, for 1 and 1000 routes
reading       the time and memory of reading plans of 1250 to 20000 contacts, in all spellings, and from a pipe in
              pieces, by asking for routes between two nodes that no plan has

The plans are those of plans.py. --only names plans or questions, and --plan a file, in place of the part's own. What is
asked over a file are --from, --to and --at, or its line `# ask FROM TO TIME`. If PROGRAM isn't given, it is the one that
`./cgrlist --prove` makes; the yardstick is built by cargo. Counts of figures, limits, long and instructions are kept in
the folder of the plans, by the checksums of program and plan. Status 1: a run failed, or two reports differ, byte for
byte.
"""
import argparse
import functools
import json
import os
import shlex
import subprocess
import sys

import plans
from parts import library, lists, many, reading, tools
from running import TOP, Counted, Program, instructions
from tables import Machine

PARTS = {
    "figures": lists.figures,
    "limits": lists.limits,
    "long": lists.long_lists,
    "spellings": reading.spellings,
    "hostile": reading.hostile,
    "many": many.many,
    "pages": lists.pages,
    "memory": lists.memory,
    "library": library.library,
    "tools": tools.tools,
    "listing": lists.listing,
    "instructions": lists.instructions,
    "reading": reading.reading,
}
FURTHER = ["limits", "long", "spellings", "many", "pages", "memory"]
YARDSTICK = os.path.join(TOP, "bench", "yardstick")


def built_yardstick():
    """The path of the yardstick, which is built anew if a source is newer."""
    subprocess.run(["cargo", "build", "--release", "--quiet"], cwd=YARDSTICK, check=True)
    return os.path.join(YARDSTICK, "target", "release", "yardstick")


def built_program():
    subprocess.run([os.path.join(TOP, "cgrlist"), "--prove"], check=True)
    return os.path.join(TOP, "crates", "cgrlist", "out", "cgrlist")


def asked_over(path, given):
    """What is asked over a file: what is given, or what its own line says."""
    ends = [given.source, given.target, given.at]
    with open(path, encoding="ascii", errors="replace") as file:
        lines = [line.split()[2:] for line in file if line.split()[:2] == ["#", "ask"]]
    ends = [mine or own for mine, own in zip(ends, lines[0] if lines else [None] * 3)]
    if None in ends:
        raise SystemExit(f"{path} has no line '# ask FROM TO TIME': give --from, --to and --at")
    one = plans.Question(os.path.splitext(os.path.basename(path))[0], path, *ends)
    return one.with_words(shlex.split(given.words))


class Bench:
    """What all parts need: the words, the programs, the questions, and the rows of the part for --json."""

    def __init__(self, given):
        self.given, self.program = given, Program(given.program or built_program())
        self.counted, self.machine = Counted(given.out), Machine(given.repeats)
        self.rows, self.all_good = [], True

    @functools.cached_property
    def programs(self):
        """The program and the other one, which is called `beside` if both have one name."""
        other = Program(self.given.beside or built_yardstick())
        if other.name == self.program.name:
            other.name = "beside"
        return [self.program, other]

    def asked(self, names):
        """The questions with these names, or over plans with these names, with the further words that are given."""
        asked = plans.questions(names, self.given.out, self.given.seed)
        return [it.with_words(shlex.split(self.given.words)) for it in asked]

    def questions(self, own=()):
        """Those of --plan or --only; else the part's own, or all of the figures."""
        over = [asked_over(path, self.given) for path in self.given.files]
        return over or self.asked(self.given.only or own)

    def check(self, is_good):
        self.all_good = self.all_good and is_good
        return is_good

    def count(self, question):
        """The instructions of the program's run in millions."""
        found = instructions(self.program.words(question), self.given.most_seconds)
        self.check(found is not None)
        return found

    def note_turns(self, row, turns):
        self.rows.append({**row, **{it.name: mine.told() for it, mine in zip(self.programs, turns)}})

    def end(self, parts):
        """Writes the figures if they are asked for."""
        self.machine.end()
        if self.given.json:
            with open(self.given.json, "w", encoding="ascii") as file:
                told = {"machine": self.machine.told, "program": self.program.words([]), "parts": parts}
                json.dump(told, file, indent=1)
                file.write("\n")


def add_words(words):
    words.add_argument("program", nargs="?", help="with its words, if any; else the one that this clone builds")
    words.add_argument("--beside", metavar="PATH", help="a program, with its words, in place of the yardstick")
    parts = plans.names_of("parts", PARTS)
    words.add_argument("--parts", type=parts, help="joined by commas; without it, those of figures.py and further.py")
    words.add_argument("--counts", type=plans.numbers, help="of routes, joined by commas, in place of the part's own")
    words.add_argument("--repeats", type=int, default=9, help="how often each run is timed (9)")
    words.add_argument("--jobs", type=int, default=os.cpu_count(), help="how many runs are counted at a time")
    words.add_argument("--most-seconds", type=float, default=600, help="a longer run is stopped (600)")
    words.add_argument("--words", default="", help="further words of `first`, as '--max-hops 4'")
    words.add_argument("--json", metavar="FILE", help="writes all figures to this file, too")
    words.add_argument("--plan", dest="files", action="append", default=[], metavar="FILE")
    words.add_argument("--from", dest="source")
    words.add_argument("--to", dest="target")
    words.add_argument("--at")


def add_words_of_parts(words):
    words.add_argument("--requests", type=int, default=1000, help="many: how many are drawn (1000)")
    words.add_argument("--sample", type=int, default=24, help="many: how many are also asked one by one (24)")
    words.add_argument("--memory", type=plans.numbers, help="many: its memory with so many requests, joined by commas")
    words.add_argument("--pieces", type=plans.numbers, default=[1, 4096, 65536], help="reading: of so many bytes")
    words.add_argument("--library", metavar="FOLDER", default=os.path.join(TOP, "library", "out"))
    words.add_argument("--times", type=int, default=100, help="library: the calls whose difference is taken (100)")


def main(parts):
    """Measures these parts, if no others are asked for."""
    words = argparse.ArgumentParser(description=__doc__, formatter_class=argparse.RawDescriptionHelpFormatter)
    for add in (add_words, plans.add_words, add_words_of_parts):
        add(words)
    given = words.parse_args()
    bench, rows = Bench(given), {}
    for part in given.parts or parts:
        bench.rows = rows[part] = []
        PARTS[part](bench)
    bench.end(rows)
    sys.exit(0 if bench.all_good else 1)


if __name__ == "__main__":
    main(["figures", *FURTHER])
