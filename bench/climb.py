#!/usr/bin/env python3
"""Climbs towards plans whose routes cost much: changes drawn plans by lot, and keeps a change that costs more.

    climb.py PROGRAM [--seed N] [--contacts N] [--routes N] [--minutes M] [--workers N] [--keep FILE]

What a route costs is the instructions of a run of `first`, less those of a run for one route, by the routes that it has
more. First some plans of each family are drawn; the median of their costs is the measure. Then each worker climbs from
one of them. A step changes one thing of a tenth of the contacts at most: the order of lines, windows, receivers, light
times, or copies of a link's contacts. After some steps that bring nothing, it begins again from another plan. Prints the
median, each new greatest cost as a multiple of it, and what led there; --keep writes the plan of the greatest. The same
words make the same plans, but how many are tried depends on the machine.
"""
import argparse
import concurrent.futures
import os
import random
import statistics
import tempfile
import time

from families import dense, grid, hub, line, parallel, relay, sparse, spread, walker
from plan import BEGINS, second_of, text_of
from running import instructions

MOST_SECONDS = 60
PATIENCE = 12
FAMILIES = {
    "relay": lambda name, seed, size: relay(name, seed, size, 3, 3, 3, True),
    "walker": lambda name, seed, size: walker(name, seed, size, 4, 6, 6, 1),
    "grid": lambda name, seed, size: grid(name, seed, min(16, int((size / 4) ** 0.5)), 2),
    "dense": lambda name, seed, size: dense(name, seed, max(4, int((size / 5) ** 0.5)), 5),
    "line": line,
    "sparse": lambda name, seed, size: sparse(name, seed, size, max(8, size // 10), 40000),
    "spread": spread,
    "hub": hub,
    "parallel": parallel,
}


def cut(plan, size):
    """At most so many contacts, each with its own sender, receiver and start."""
    kept = {}
    for it in plan.contacts:
        kept.setdefault((it[0], *it[2:4]), it)
    plan.contacts = list(kept.values())[:size]
    return plan


def drawn(family, seed, size):
    return cut(FAMILIES[family](family, seed, size), size)


def some(plan, dice):
    """The places of a few contacts: one, some of one link, or some of all."""
    count = max(1, len(plan.contacts) // dice.choice((10, 30, 100, len(plan.contacts))))
    places = range(len(plan.contacts))
    if dice.random() < 0.5:
        link = plan.contacts[dice.randrange(len(plan.contacts))][2:4]
        places = [place for place in places if plan.contacts[place][2:4] == link]
    return dice.sample(list(places), min(count, len(places)))


def stepped(plan, dice, size):
    """The plan with one change, and the name of the change."""
    kind = dice.choice(("order", "start", "end", "receiver", "copy", "light", "ask"))
    if kind == "order":
        dice.shuffle(plan.contacts)
    for place in some(plan, dice) if kind in ("start", "end", "receiver", "copy") else ():
        start, end, sender, receiver, rate = plan.contacts[place]
        if kind == "start":
            start = max(0, min(end - 1, start + dice.randrange(-7200, 7200)))
        elif kind == "end":
            end = max(start + 1, end + dice.randrange(-3600, 4 * 3600))
        elif kind == "receiver":
            other = dice.choice(plan.contacts)[3]
            receiver = receiver if other == sender else other
        else:
            start, end = start + 60 * (place % 50 + 1), end + 60 * (place % 50 + 1)
            plan.contacts.append((start, end, sender, receiver, rate))
            continue
        plan.contacts[place] = (start, end, sender, receiver, rate)
    if kind == "light":
        plan.ranges = [(*it[:4], dice.choice((0, 1, 20, 900)) if dice.random() < 0.2 else it[4]) for it in plan.ranges]
    if kind == "ask":
        one, other = dice.choice(plan.contacts), dice.choice(plan.contacts)
        if one[2] != other[3]:
            plan.asked = (one[2], other[3], dice.choice((0, one[0], plan.asked[2])))
    return cut(plan, size), kind


class Costs:
    """What a route of a plan costs, in thousands of instructions."""

    def __init__(self, given, folder):
        self.given, self.folder = given, folder

    def of(self, plan, name):
        path = os.path.join(self.folder, f"{name}.txt")
        with open(path, "w", encoding="ascii") as file:
            file.write(plan.text())
        source, target, second = plan.asked
        at = text_of(second_of(BEGINS) + second)
        words = [self.given.program, "first", "--plan", path, "--from", str(source), "--to", str(target), "--at", at]
        one, many = (instructions([*words, "--count", str(count)], MOST_SECONDS) for count in (1, self.given.routes))
        return (many - one) * 1000 / (self.given.routes - 1) if one and many else 0.0


def copied(plan):
    other = plan.__class__("copy", 0)
    other.head, other.contacts, other.ranges, other.asked = plan.head, [*plan.contacts], [*plan.ranges], plan.asked
    return other


def climb(given, costs, number, until):
    """The greatest cost that one worker found, its plan, and the steps that led there."""
    dice, best = random.Random(f"{given.seed}/{number}"), (0.0, None, "")
    while time.monotonic() < until:
        family, seed = dice.choice(list(FAMILIES)), dice.randrange(10**6)
        plan, way = drawn(family, seed, given.contacts), f"{family} {seed}"
        cost, idle = costs.of(plan, number), 0
        while idle < PATIENCE and time.monotonic() < until:
            other, kind = stepped(copied(plan), dice, given.contacts)
            found = costs.of(other, number)
            idle += 1
            if found > cost:
                plan, cost, idle, way = other, found, 0, f"{way}, {kind}"
        best = max(best, (cost, plan, way), key=lambda it: it[0])
    return best


def main():
    asked = argparse.ArgumentParser(description=__doc__, formatter_class=argparse.RawDescriptionHelpFormatter)
    asked.add_argument("program")
    for name, value in (("seed", 1), ("contacts", 2000), ("routes", 200), ("minutes", 60), ("workers", os.cpu_count())):
        asked.add_argument(f"--{name}", type=int, default=value)
    asked.add_argument("--keep")
    given = asked.parse_args()
    until = time.monotonic() + given.minutes * 60
    with tempfile.TemporaryDirectory() as folder, concurrent.futures.ThreadPoolExecutor(given.workers) as pool:
        costs = Costs(given, folder)
        starts = [(family, seed) for family in FAMILIES for seed in range(3)]
        first = pool.map(lambda it: costs.of(drawn(*it, given.contacts), f"{it[0]}-{it[1]}"), starts)
        median = statistics.median([it for it in first if it])
        print(f"median {median:.1f} thousand instructions a route, of {len(starts)} plans", flush=True)
        found = pool.map(lambda number: climb(given, costs, number, until), range(given.workers))
        ranked = sorted(found, key=lambda it: -it[0])
    for cost, plan, way in ranked:
        print(f"{cost / median:.1f} times: {way}")
    if given.keep:
        with open(given.keep, "w", encoding="ascii") as file:
            file.write(ranked[0][1].text())


if __name__ == "__main__":
    main()
