"""Compares what the library reads from drawn plan texts with what tests/oracle.py reads.

There are 5500 texts of some five lines, drawn from seeds: lines that set the reference, add and delete, in all
spellings. In most texts, one line is then changed by a word or by a byte. Each text is given whole, so that a line that
adds is read quickly if it can be, and byte by byte, so that no line is. Compared are the digest, or the first bad line and
its kind. There is a check for each answer that is compared, and for each count of what was drawn. Of a text that fails,
lines are left out as long as it still fails (tests/shrinking.py), and the smallest is told.
"""

import datetime
import itertools
import random
from collections import Counter
from functools import partial

from checking import Check
from oracle import EPOCH, MOST_NUMBER, lines_of, read
from shrinking import Shrinker
from steps import answers_of

TEXTS = 5500
PIECES = (4096, 1)
ALL = 18446744073709551615
BEGIN = 1893456000  # 2030/01/01-00:00:00

# ---- What is drawn ----------------------------------------------------------------------------------------------

BYTES = [bytes([byte]) for byte in b" \t0123456789+-/:@*#acdx\r\x00\x7f\x80\xff"]
WORDS = (
    b"0 00 01 1 9 +0 + +1 x -1 18446744073709551615 18446744073709551616 18446744073709551617 99999999999999999999"
    b" 10000000000000000000 9999999999999999999 1000000 1000001"
    b" +999999999999 +1000000000000 +000000000000 +0000000000000"
    b" 2030/02/29-00:00:00 2030/01/00-00:00:00 2030/13/01-00:00:00 2030/01/01-24:00:00 2030/01/01-23:60:00"
    b" 2030/01/01-23:59:60 2030-01-01-00:00:00 2030/01/01-00:00:0 2030/01/01-00:00:000 2130/01/01-00:00:00"
    b" 1969/12/31-23:59:59 1970/01/01-00:00:00 9998/12/31-23:59:59 9999/01/01-00:00:00"
    b" a contact range Contact d @ #"
).split()
GAPS = {"one": (b" ",), "columns": (b" ", b"  ", b"       "), "tabs": (b"\t",), "mixed": (b" ", b"\t", b" \t", b"\t  ")}


class Draws(random.Random):
    """Numbers that a seed alone decides."""

    def below(self, bound):
        return int(self.random() * bound)

    def once_in(self, times):
        return self.below(times) == 0

    def one_of(self, values):
        return values[self.below(len(values))]

    def nodes(self):
        """Two nodes, which are seldom equal."""
        one, other = (self.one_of((1, 2, 3, 3, 4, 40179, 9999999999999999999, MOST_NUMBER)) for _ in range(2))
        if one == other and self.below(8):
            other = one % 7 + 1
        return [str(one).encode(), str(other).encode()]

    def value(self):
        return str(self.one_of((0, 1, 7, 125000, 1000000))).encode()

    def time(self, second, is_relative):
        """A time this many seconds after BEGIN."""
        if is_relative:
            return b"+" + str(second).zfill(self.one_of((1, 1, 3, 12))).encode()
        return (EPOCH + datetime.timedelta(seconds=BEGIN + second)).strftime("%Y/%m/%d-%H:%M:%S").encode()


def draw_words(draws, added, is_relative):
    """Draws the words of a line: mostly it adds, seldom it deletes what was added or sets the reference."""
    if added and draws.once_in(8):
        _, name, start, _, *nodes, _ = draws.one_of(added)
        return [b"d", name, start, *nodes]
    if draws.once_in(12):
        return [b"@", draws.time(draws.one_of((0, 0, 0, 60, 86400)), False)]
    if added and draws.once_in(12):
        return draws.one_of(added)
    start = draws.below(4) * 86400 + draws.below(3) * 40000 + draws.below(3)
    times = [draws.time(start, is_relative), draws.time(start + 1 + draws.below(100000), is_relative)]
    return [b"a", draws.one_of((b"contact", b"range")), *times, *draws.nodes(), draws.value()]


def draw_gap(draws, gaps, times):
    return draws.one_of(gaps) if draws.once_in(times) else b""


def draw_line(draws, words, gaps):
    """Spells the words, with blanks before and after them now and then."""
    line = draw_gap(draws, gaps, 6) + words[0]
    for word in words[1:]:
        line += draws.one_of(gaps) + word
    return line + draw_gap(draws, gaps, 3)


def change_words(draws, words):
    """The words with one that is another, left out, or doubled."""
    place = draws.below(len(words))
    others = draws.one_of(([draws.one_of(WORDS)], [draws.one_of(WORDS)], [draws.one_of(WORDS)], [], [words[place]] * 2))
    return words[:place] + others + words[place + 1 :]


def change_byte(draws, line):
    """The line with one byte that is another, left out, or put in."""
    place = draws.below(len(line))
    byte = draws.one_of((draws.one_of(BYTES), draws.one_of(BYTES), b""))
    return line[:place] + byte + line[place + draws.below(2) :]


def draw_text(seed):
    """Draws a text: most of its lines are good."""
    draws = Draws(seed)
    gaps = GAPS[draws.one_of(tuple(GAPS))]
    is_relative = draws.once_in(2)
    lines = [] if draws.once_in(20) else [b"@ 2030/01/01-00:00:00"]
    added = []
    for _ in range(3 + draws.below(4)):
        words = draw_words(draws, added, is_relative if draws.below(6) else not is_relative)
        if words[0] == b"a":
            added.append(words)
        if draws.once_in(10):
            words = change_words(draws, words)
        line = draw_line(draws, words or [b""], gaps)
        lines.append(change_byte(draws, line) if line and draws.once_in(10) else line)
    if draws.once_in(30):
        lines[-1] += b" " * (255 + draws.below(2) - len(lines[-1]))
    return b"\n".join(lines) + (b"" if draws.once_in(4) else b"\n")


# ---- Comparing --------------------------------------------------------------------------------------------------

# What is drawn has to have at least so many of these.
LEAST = {
    "lines that are judged": 20000,
    "ok": 1000,
    "BadByte": 50,
    "UnknownCommand": 50,
    "WrongOperands": 50,
    "BadTime": 100,
    "NoReference": 50,
    "BadNode": 50,
    "BadNumber": 20,
    "EmptyWindow": 20,
    "SelfPair": 100,
    "DuplicateContact": 20,
    "RangeOverlap": 20,
    "NothingToDelete": 100,
    "LineTooLong": 20,
}


def steps_over(text):
    """The steps over a text, each with its answer."""
    plan, told = read(text)
    yield f"plan-text {text.hex()}", "ok"
    for piece in PIECES:
        yield f"plan-given {piece} {ALL} ends", "ok"
        yield "read", told
        if plan:
            yield "digest", plan.digest()


def failures_of(text, said, answers):
    """For each step: how its answer failed, which is empty if it passed."""
    for (step, wanted), found in zip(said, answers):
        told = f"FAILED: {step} over {text!r}\nwanted: {wanted}\nfound: {found}"
        yield "" if wanted == found.partition(":")[0] else told


def failures_over(program, lines):
    """For each step over a text of these lines: how its answer failed."""
    text = b"".join(lines)
    said = list(steps_over(text))
    return failures_of(text, said, answers_of(program, [step for step, _ in said]))


def failures_of_counts(texts):
    """For each count of what was drawn: how it failed, which is empty if it passed."""
    counts = Counter()
    for text in texts:
        plan, told = read(text)
        place, _, kind = told.rpartition(" ")
        counts["lines that are judged"] += len(lines_of(text)) if plan else int(place)
        counts[kind] += 1
    for what, least in LEAST.items():
        yield "" if counts[what] >= least else f"FAILED: {counts[what]} {what}, and not {least}"


def checks(asked):
    """The texts that are asked for, and the counts of what was drawn if all are."""
    seeds = range(TEXTS) if asked.seed is None else [asked.seed]
    texts = {seed: draw_text(seed) for seed in seeds}
    said = {seed: list(steps_over(text)) for seed, text in texts.items()}
    program, shrinker = asked.program("steps"), Shrinker()
    answers = iter(answers_of(program, [step for steps in said.values() for step, _ in steps]))
    for seed, text in texts.items():
        own = list(itertools.islice(answers, len(said[seed])))
        of_text, lines = failures_of(text, said[seed], own), text.splitlines(keepends=True)
        again = partial(failures_over, program)
        yield Check(f"drawn_lines --seed {seed}", partial(shrinker.after, of_text, lines, again, repr))
    if asked.seed is None:
        yield Check("drawn_lines", partial(failures_of_counts, texts.values()))
