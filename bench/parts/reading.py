"""The parts that measure the reading of plans."""
import os
import random

import plans
from plan import BEGINS, SPELLINGS, second_of
from running import Pieces, agree, with_memory
from tables import heads_of, print_head, print_row, ratio, shown, time_cells

SHAPES = [f"{shape}-{count}" for shape in ("spread", "hub") for count in (1250, 2500, 5000, 10000, 20000)]
SPELLED = ["cube-1-2", "walker-66-20000", "relay-moon-20000"]


def strangers(path):
    """A question for two nodes that no plan has: its run is the reading of the plan, its tables, and one line `end`."""
    return plans.Question("strangers", path, "18446744073709551614", "18446744073709551615", BEGINS)


def texts_of(name, given):
    """How a plan is given, each with its name, its path and its pieces: its spellings, and then the first one in pieces."""
    spellings = given.spellings or list(SPELLINGS)
    whole = [(f"{name}-{spelling}", plans.write_drawn(name, spelling, given), None) for spelling in spellings]
    first, path, _ = whole[0]
    return whole + [(f"{first} by {piece}", path, piece) for piece in given.pieces]


def nanoseconds_a_byte(bench, turns, size):
    seconds = turns.best("seconds")
    return None if seconds is None else max(seconds - bench.machine.told["start_seconds"], 0) / size * 1e9


def reading(bench):
    """Of pieces, the time is also that of writing them."""
    title = f"Times of reading by the clock, the best of {bench.given.repeats} runs in turns."
    print_head(title, ["Plan", "bytes", *heads_of(bench.programs), "ns/byte", "of first"])
    for name in bench.given.only or SHAPES:
        first = None
        for text, path, piece in texts_of(name, bench.given):
            size, pieces = os.path.getsize(path), Pieces(path, piece) if piece else None
            words = strangers("/dev/stdin" if piece else path).words(1)
            turns = with_memory(bench.programs, words, bench.given, pieces)
            first = first or turns[0].best("seconds")
            rate = shown(nanoseconds_a_byte(bench, turns[0], size), 1) if bench.check(agree(turns)) else "DIFFERENT"
            print_row([text, size, *time_cells(turns), rate, shown(ratio((turns[0].best("seconds"), first)))])
            bench.note_turns({"plan": text, "bytes": size}, turns)


def spellings(bench):
    """Lines in no order give contacts other numbers, so that answers aren't compared."""
    print_head("Instructions of a run for one route, as multiples of those with relative times.", ["Plan", *SPELLINGS])
    for question in bench.questions(SPELLED):
        paths = [plans.write_spelled(question, spelling, bench.given.out) for spelling in SPELLINGS]
        millions = [bench.count(question._replace(path=path).words(1)) for path in paths]
        bench.rows.append({"plan": question.name, "millions": dict(zip(SPELLINGS, millions))})
        print_row([question.name, *(shown(ratio((it, millions[0]))) for it in millions)])


# ---- Texts that are chosen to be slow to read -------------------------------------------------------------------

RECORDS = 19990


def ranges_at(places):
    """Lines that add ranges of one pair of nodes, none of which touches another."""
    return [f"a range +{2 * it} +{2 * it + 1} 4 5 1" for it in places]


def contacts_at(seconds):
    return [f"a contact +{it} +{it + 1} 1 2 1" for it in seconds]


def reversed_bits():
    places = (int(f"{it:015b}"[::-1], 2) for it in range(1 << 15))
    return [it for it in places if it < RECORDS]


def shuffled():
    places = list(range(RECORDS))
    random.Random(1).shuffle(places)
    return places


def ranges_in_one_bucket():
    """Of the hash table of known_ranges.rt, by pairs of nodes."""
    return [f"a range +0 +1 {4 + 2048 * (it // 141)} {5 + 2048 * (it % 141)} 1" for it in reversed(range(RECORDS))]


def contacts_in_one_bucket():
    """Of the hash table of duplicate_check.rt, by senders, receivers and starts. Between two seconds in one bucket there
    are at most three different steps, which the first ones show."""
    begin = 11400714819323198485 + 2 * 14029467366897019727 + second_of(BEGINS) * 1609587929392839161
    is_there = lambda second: ((begin + second * 1609587929392839161) >> 44) % 4096 == 0
    seconds = [it for it in range(300000) if is_there(it)]
    steps = sorted({next_one - one for one, next_one in zip(seconds, seconds[1:])})
    while len(seconds) < RECORDS:
        seconds.append(next(seconds[-1] + it for it in steps if is_there(seconds[-1] + it)))
    return contacts_at(reversed(seconds))


def deletions(lines):
    words = map(str.split, lines)
    return [f"d {kind} {start} {one} {other}" for _, kind, start, _, one, other, _ in words]


def in_turn(lines):
    return [line for pair in zip(lines, deletions(lines)) for line in pair]


def added_and_deleted(lines):
    return lines + deletions(lines)


HOSTILE = {
    "ranges-rising": lambda: ranges_at(range(RECORDS)),
    "ranges-falling": lambda: ranges_at(reversed(range(RECORDS))),
    "ranges-reversed": lambda: ranges_at(reversed_bits()),
    "ranges-shuffled": lambda: ranges_at(shuffled()),
    "ranges-in-one-bucket": ranges_in_one_bucket,
    "ranges-deleted": lambda: added_and_deleted(ranges_at(range(RECORDS))),
    "ranges-in-turn": lambda: in_turn(ranges_at(range(RECORDS // 2))),
    "ranges-after-a-deletion": lambda: in_turn(ranges_at([RECORDS])) + ranges_at(range(RECORDS)),
    "contacts-rising": lambda: contacts_at(range(RECORDS)),
    "contacts-falling": lambda: contacts_at(reversed(range(RECORDS))),
    "contacts-in-one-bucket": contacts_in_one_bucket,
    "contacts-deleted": lambda: added_and_deleted(contacts_at(range(RECORDS))),
    "contacts-in-turn": lambda: in_turn(contacts_at(range(RECORDS // 2))),
}


def counted(bench, name):
    """The number of lines of a hostile text, and the millions of instructions of reading it."""
    lines = [f"@ {BEGINS}", *HOSTILE[name]()]
    path = plans.write_text(bench.given.out, name, "".join(f"{line}\n" for line in lines))
    return len(lines), bench.count(strangers(path).words(1))


def hostile(bench):
    """The plain text of contacts or ranges has them in ascending order."""
    print_head("Instructions a line of texts that are chosen to be slow.", ["Text", "lines", "million", "of plain"])
    plain = {}
    for name in bench.given.only or HOSTILE:
        kind = name.partition("-")[0]
        plain[kind] = plain.get(kind) or counted(bench, f"{kind}-rising")
        lines, millions = plain[kind] if name == f"{kind}-rising" else counted(bench, name)
        usual = ratio((plain[kind][1], plain[kind][0]))
        print_row([name, lines, shown(millions, 1), shown(ratio((ratio((millions, lines)), usual)))])
        bench.rows.append({"text": name, "lines": lines, "millions": millions})
