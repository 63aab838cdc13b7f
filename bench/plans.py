#!/usr/bin/env python3
"""Writes the plans that are measured. The same words give the same bytes.

    plans.py [--only NAME,..] [--spellings WORD,..] [--ranges-last] [--seed N] [--out FOLDER]

Without --only, these are the 20 plans of the figures, over which 24 questions are asked. Of a name, the number is
mostly that of the contacts; of walkers the first is that of the satellites, of grids that of the nodes on a side, of
dense the nodes. families.py tells what is drawn. `spread-N`, `hub-N`, `parallel-N` and `chain-N` are further plans, for
any number N of contacts. And two plans, in real/, were made up by nobody: windows of satellites from the orbital elements of 22
January 2018 that Debian's gpredict has, reckoned by SGP4, with ten ground stations, and links between satellites in
sight of each other; `iridium` has 128 satellites, with links up to 4500 km, and `cube` 437, with links up to 2500 km.

relative    as the plan is written; of spread, hub and parallel, by their start, as planners write them
shuffled    the same lines in no order
absolute    the same lines, with absolute times
aligned     in columns
trailing    with a space at the end of each line
tabs        with a tab between words
"""
import argparse
import functools
import lzma
import os
from typing import NamedTuple

from families import chain, dense, grid, hub, line, parallel, relay, sparse, spread, walker
from plan import BEGINS, SPELLINGS, respelled, second_of, text_of

HERE = os.path.dirname(os.path.abspath(__file__))

# Each drawn plan by its name: how it is made, and what of.
PLANS = {
    "relay-moon-500": (relay, 500, 3, 2, 4, False),
    "relay-mars-500": (relay, 500, 3, 3, 3, True),
    "relay-moon-2000": (relay, 2000, 4, 4, 8, False),
    "relay-mars-2000": (relay, 2000, 3, 4, 6, True),
    "relay-moon-20000": (relay, 20000, 5, 6, 10, False),
    "relay-mars-20000": (relay, 20000, 5, 6, 10, True),
    "walker-24-5000": (walker, 5000, 4, 6, 6, 1),
    "walker-66-5000": (walker, 5000, 6, 11, 10, 0),
    "walker-66-20000": (walker, 20000, 6, 11, 10, 0),
    "walker-24-20000": (walker, 20000, 4, 6, 6, 1),
    "grid-8": (grid, 8, 2),
    "grid-40": (grid, 40, 3),
    "dense-20": (dense, 20, 5),
    "dense-60": (dense, 60, 5),
    "line-1000": (line, 1000),
    "line-19998": (line, 19998),
    "sparse-2000": (sparse, 2000, 200, 40000),
    "sparse-20000": (sparse, 20000, 1000, 40000),
}
REAL = {"iridium": [(1, 2), (6, 10), (3, 8)], "cube": [(1, 2), (6, 10), (3, 8)]}
SHAPES = {"spread": spread, "hub": hub, "parallel": parallel, "chain": chain}


class Question(NamedTuple):
    """What is asked, over which file, with further words of `first`."""

    name: str
    path: str
    source: str
    target: str
    at: str
    further: tuple = ()

    def plan(self):
        return os.path.splitext(os.path.basename(self.path))[0]

    def words(self, count):
        ends = ["--from", self.source, "--to", self.target, "--at", self.at]
        return ["first", "--plan", self.path, *ends, "--count", str(count), *self.further]

    def with_words(self, further):
        return self._replace(name=" ".join([self.name, *further]), further=(*self.further, *further))


def numbers(text):
    return [int(word) for word in text.split(",")]


def names_of(kind, known):
    """What reads words joined by commas, each of which must be known."""

    def read(text):
        if not set(text.split(",")) <= set(known):
            raise argparse.ArgumentTypeError(f"the {kind} are {','.join(known)}")
        return text.split(",")

    return read


def made(name, seed=1):
    """A plan that is drawn."""
    shape, _, count = name.partition("-")
    if name in PLANS:
        make, *sizes = PLANS[name]
        return make(name, seed, *sizes)
    if shape not in SHAPES or not count.isdigit() or (shape == "spread" and not 32 <= int(count) <= 20000):
        known = ", ".join([*PLANS, *REAL, "spread-32 to -20000", "hub-N", "parallel-N", "chain-N"])
        raise SystemExit(f"there is no plan {name}: there are {known}")
    return SHAPES[shape](shape, seed, int(count))


def write_text(folder, name, text):
    """Writes a plan, and returns its path."""
    os.makedirs(folder, exist_ok=True)
    path = os.path.join(folder, f"{name}.txt")
    with open(path, "w", encoding="ascii") as file:
        file.write(text)
    return path


@functools.lru_cache(maxsize=None)
def write(name, folder, seed=1):
    """Writes a plan, and returns its questions."""
    if name in REAL:
        with lzma.open(os.path.join(HERE, "real", f"{name}.txt.xz"), "rt") as packed:
            path = write_text(folder, name, packed.read())
        ends = [(str(one), str(other)) for one, other in REAL[name]]
        return [Question(f"{name}-{one}-{other}", path, one, other, "2018/01/22-00:10:00") for one, other in ends]
    plan = made(name, seed)
    source, target, second = plan.asked
    at = text_of(second_of(BEGINS) + second)
    return [Question(name, write_text(folder, name, plan.text()), str(source), str(target), at)]


def write_spelled(question, spelling, folder):
    """Writes the plan of a question in another spelling, and returns its path."""
    with open(question.path, encoding="ascii") as file:
        return write_text(folder, f"{question.plan()}-{spelling}", respelled(file.read(), spelling))


def write_drawn(name, spelling, given):
    """The same of a plan's name. Of spread, hub and parallel, lines stand in no order as they are drawn."""
    if name.partition("-")[0] not in SHAPES:
        return write_spelled(write(name, given.out, given.seed)[0], spelling, given.out)
    plan = made(name, given.seed)
    if spelling == "shuffled":
        return write_text(given.out, f"{name}-{spelling}", plan.text(given.ranges_last))
    for records in (plan.contacts, plan.ranges):
        records.sort(key=lambda it: it[0])
    return write_text(given.out, f"{name}-{spelling}", respelled(plan.text(given.ranges_last), spelling))


def plan_of(name):
    """The plan of a question, or of that name."""
    first = name.partition("-")[0]
    return first if first in REAL else name


def questions(chosen, folder, seed=1):
    """Writes the plans with these names, or all of the figures, and returns their questions. A name may be a
    question's."""
    found = []
    for name in chosen or [*PLANS, *REAL]:
        known = [it for it in write(plan_of(name), folder, seed) if name in (plan_of(name), it.name)]
        if not known:
            raise SystemExit(f"there is no question {name}")
        found += known
    return found


def add_words(words):
    """The words that say which plans are made."""
    words.add_argument("--only", type=lambda text: text.split(","), default=[], help="joined by commas")
    words.add_argument("--spellings", type=names_of("spellings", SPELLINGS), default=[], help="joined by commas")
    words.add_argument("--ranges-last", action="store_true", help="of spread and hub, ranges come after contacts")
    words.add_argument("--seed", type=int, default=1, help="of what is drawn")
    words.add_argument("--out", default=os.path.join(HERE, "out"), help="the folder for the plans")


def main():
    words = argparse.ArgumentParser(description=__doc__, formatter_class=argparse.RawDescriptionHelpFormatter)
    add_words(words)
    given = words.parse_args()
    for one in questions(given.only, given.out, given.seed):
        print(f"{one.name:16} {one.source} to {one.target} at {one.at}")
        for spelling in given.spellings:
            print(write_drawn(one.plan(), spelling, given))


if __name__ == "__main__":
    main()
