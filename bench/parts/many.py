"""The part that measures `many`."""
import os
import random
import tempfile

from parts.reading import strangers
from plans import Question
from running import instructions, peak_kb, run
from tables import megabytes, print_head, print_row, ratio, shown

MANY = ["relay-mars-20000", "walker-66-5000", "iridium-1-2", "cube-1-2"]


def nodes_of(path):
    """The nodes that send or receive a contact, in the order of their numbers."""
    nodes = set()
    with open(path, "rb") as file:
        for line in file:
            words = line.split()
            if words[:2] == [b"a", b"contact"]:
                nodes.update(map(int, words[4:6]))
    return sorted(nodes)


class Requests:
    """Pairs of a plan's nodes that are drawn, and how `many` answers them, with some routes for each."""

    def __init__(self, bench, question, folder):
        given, dice = bench.given, random.Random(f"{os.path.basename(question.path)} {bench.given.seed}")
        self.bench, self.plan, self.path, self.file = bench, question.plan(), question.path, os.path.join(folder, "requests")
        nodes = nodes_of(question.path)
        pairs = [dice.sample(nodes, 2) for _ in range(given.requests)]
        self.all = [Question("", question.path, str(one), str(other), question.at) for one, other in pairs]
        self.sample = self.all[: given.sample]

    def words(self, some, count):
        """The words of `many` for some of the requests, which are left in a file."""
        with open(self.file, "w", encoding="ascii") as file:
            file.writelines(f"{it.source} {it.target} {it.at}\n" for it in some)
        return ["many", "--plan", self.path, "--requests", self.file, "--count", str(count)]

    def mean(self, program, count):
        """The instructions of a program's run for one request, in millions; nothing if one was stopped or failed."""
        counts = [instructions(program.words(it.words(count)), self.bench.given.most_seconds) for it in self.sample]
        return None if None in counts else sum(counts) / len(counts)

    def is_answered_alike(self, count):
        """Whether `many` prints for the sample what `first` prints for each."""
        program, most_seconds = self.bench.program, self.bench.given.most_seconds
        told = run(program.words(self.words(self.sample, count)), most_seconds)
        wanted = b""
        for one in self.sample:
            alone = run(program.words(one.words(count)), most_seconds)
            wanted += f"request {one.source} {one.target} {one.at}\n".encode() + alone.text
        return told.status == 0 and told.text == wanted

    def peak_kb(self, number, count):
        """The peak memory with so many requests, which come again in turn."""
        some = [self.all[place % len(self.all)] for place in range(number)]
        return peak_kb(self.bench.program.words(self.words(some, count)), self.bench.given.most_seconds)

    def row(self, count):
        given, (program, native) = self.bench.given, self.bench.programs
        row = {"plan": self.plan, "count": count}
        row["many"] = instructions(program.words(self.words(self.all, count)), given.most_seconds)
        first, whole = self.mean(program, count), self.mean(native, count)
        read = instructions(native.words(strangers(self.path).words(1)), given.most_seconds)
        row["first"] = first and first * len(self.all)
        row["searches"] = None if None in (whole, read) else (whole - read) * len(self.all)
        row["alike"] = self.is_answered_alike(count)
        row["peak_kb"] = {number: self.peak_kb(number, count) for number in given.memory or [given.requests]}
        return row


def many(bench):
    requests = bench.given.requests
    title = f"`many` over {requests} requests, as a multiple of that many runs of `first`, and of the yardstick's runs"
    heads = ["Plan", "Routes", "of `first`", "of native runs without reading", "million"]
    print_head(f"{title}\nwithout their reading.", heads + [f"MB of {it}" for it in bench.given.memory or [requests]])
    asked = {(it.path, it.at): it for it in bench.questions(MANY)}
    with tempfile.TemporaryDirectory(prefix="requests-") as folder:
        for question in asked.values():
            drawn = Requests(bench, question, folder)
            for count in bench.given.counts or [1, 10]:
                row = drawn.row(count)
                bench.rows.append(row)
                is_good = bench.check(row["alike"] and None not in (row["many"], row["first"], row["searches"]))
                ratios = [shown(ratio((row["many"], row[it])), 3) for it in ("first", "searches")]
                memory = map(megabytes, row["peak_kb"].values())
                print_row([row["plan"], count, *(ratios if is_good else ["DIFFERENT", "-"]), shown(row["many"], 1), *memory])
