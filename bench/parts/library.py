"""The part that counts calls of the C library, beside runs of the program."""
import os
import subprocess
import tempfile

from plan import second_of, text_of
from plans import Question
from running import TOP, instructions
from tables import print_head, print_row, shown

ASKED = ["relay-mars-20000", "walker-66-5000", "iridium-1-2", "cube-1-2"]
CHAINS = [10000, 20000]  # the hops of long lists


class Counter:
    """Counts runs over one plan."""

    def __init__(self, bench, calling, question):
        self.bench, self.calling, self.question = bench, calling, question
        self.second = second_of(question.at)

    def run(self, words):
        millions = instructions(words, self.bench.given.most_seconds)
        if millions is None:
            raise SystemExit(f"library: {' '.join(words)} failed or was stopped")
        return millions

    def calls(self, what, times):
        one = self.question
        return self.run([self.calling, one.path, one.source, one.target, str(self.second), what, str(times)])

    def each(self, what, times):
        """What one of some calls takes."""
        return (self.calls(what, 2 * times) - self.calls(what, times)) / times

    def many(self, times):
        """A run of `many` for one route, of so many requests."""
        one = self.question
        with tempfile.NamedTemporaryFile("w", suffix=".txt") as file:
            file.writelines(f"{one.source} {one.target} {text_of(self.second + 60 * turn)}\n" for turn in range(times))
            file.flush()
            words = ["many", "--plan", one.path, "--requests", file.name, "--count", "1"]
            return self.run(self.bench.program.words(words))

    def row(self):
        times = self.bench.given.times
        once, pages = self.each("once", 1), self.each("pages", 1)
        return {
            "read and asked": self.calls("best", 0),
            "first": self.run(self.bench.program.words(self.question.words(1))),
            "best": self.each("best", times),
            "many": (self.many(2 * times) - self.many(times)) / times,
            "changed and asked": self.each("change", 2),
            "1000 at once": once,
            "by pages": pages,
            "pages/once": pages / once,
        }


def compiled(folder, into):
    """The path of the program that makes the calls."""
    path, source = os.path.join(into, "library"), os.path.join(TOP, "bench", "library.c")
    words = ["cc", "-O2", f"-I{TOP}/library", source, os.path.join(folder, "libcgrlist.a"), "-o", path]
    subprocess.run(words, check=True)
    return path


def chained(folder, hops):
    """A question whose one route takes each contact of a plan in turn."""
    name, span = f"chain-{hops}", "2030/01/01-00:00:00 2030/02/01-00:00:00"
    path = os.path.join(folder, f"{name}.txt")
    with open(path, "w", encoding="ascii") as file:
        for node in range(1, hops + 1):
            file.write(f"a contact {span} {node} {node + 1} 1000\na range {span} {node} {node + 1} 1\n")
    return Question(name, path, "1", str(hops + 1), "2030/01/01-00:00:00")


def long_lists(bench, calling, folder):
    print_head("Following a long list, in instructions for each hop.", ["Plan", "follow", "hops"])
    for hops in CHAINS:
        counter = Counter(bench, calling, chained(folder, hops))
        row = {what: counter.each(what, 2) * 1e6 / hops for what in ("follow", "hops")}
        print_row([counter.question.name, *(shown(it, 0) for it in row.values())])
        bench.rows.append({"plan": counter.question.name, **row})


def library(bench):
    is_begun = False
    with tempfile.TemporaryDirectory() as folder:
        calling = compiled(bench.given.library, folder)
        for question in bench.questions(ASKED):
            row = Counter(bench, calling, question).row()
            if not is_begun:
                print_head("Calls of the C library, and runs, in millions of instructions.", ["Plan", *row])
            is_begun = True
            print_row([question.name, *(shown(it, 3) for it in row.values())])
            bench.rows.append({"plan": question.name, **row})
        if not bench.given.only and not bench.given.files:
            long_lists(bench, calling, folder)
